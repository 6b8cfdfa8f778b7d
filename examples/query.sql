-- הזמנות מחיפה ומקהיר, 2024
SELECT 'שלום, עולם!' AS hebrew, 'مرحبا 123 بالعالم!' AS arabic, 'plain ASCII' AS ascii,
       "שם הלקוח", `עיר`, 0x1F + 2.5e-3 AS number, $note$
שורה ראשונה (abc), ועוד 3 מילים.
A second line, in English.
$note$ AS note
FROM orders /* all of them, גם הישנות */
WHERE city IN ('القاهرة', 'חיפה', 'London') AND price >= 10 AND tag != '<b>&amp;</b>'
