/* Lists, masks and shows the query on standard input. C99, and C++11 too. */
#include "giehtamun.h"

#include <stdio.h>
#include <stdlib.h>

/* Whether an answer is a refusal, which is then said on standard error. */
static int refused(uint64_t answer) {
    if (giehtamun_number(answer) == GIEHTAMUN_DONE)
        return 0;
    fprintf(stderr, "refused: number %u, value %llu\n", (unsigned)giehtamun_number(answer), (unsigned long long)giehtamun_value(answer));
    return 1;
}

/* A number of a packed list. */
static uint32_t number_at(const uint8_t *list) {
    return list[0] | (uint32_t)list[1] << 8 | (uint32_t)list[2] << 16 | (uint32_t)list[3] << 24;
}

/* A line for a token, as the heading says, and at its end what may be shown of it. A place is counted from the text's start each time. */
static int show_token(const uint8_t *text, const uint8_t *copy, size_t len, const uint8_t *token) {
    uint32_t kind = number_at(token), start = number_at(token + 4), end = number_at(token + 8);
    uint64_t place = giehtamun_place(text, len, start);
    uint64_t shown = giehtamun_shown_text(text, len, copy, len, kind, start, end);
    if (refused(place) || refused(shown))
        return 1;
    printf("%u %u %u %u:%u ", (unsigned)kind, (unsigned)start, (unsigned)end, (unsigned)giehtamun_line(place),
           (unsigned)giehtamun_column(place));
    fwrite((giehtamun_hides(kind) ? copy : text) + start, 1, (size_t)giehtamun_value(shown), stdout);
    putchar('\n');
    return 0;
}

/* The list and the masked copy, in room that is always enough. */
static int show(const uint8_t *text, size_t len, uint8_t *list, uint8_t *copy) {
    uint64_t listed = giehtamun_list(text, len, GIEHTAMUN_FULL, list, len * GIEHTAMUN_TOKEN_BYTES);
    uint64_t masked, i;
    if (refused(listed))
        return 1;
    masked = giehtamun_mask(text, len, copy, len);
    if (refused(masked))
        return 1;
    puts("kind, start and end in bytes, line:column in UTF-16 units, all from 0");
    for (i = 0; i < giehtamun_value(listed); i++)
        if (show_token(text, copy, len, list + i * GIEHTAMUN_TOKEN_BYTES))
            return 1;
    printf("masked: ");
    fwrite(copy, 1, (size_t)giehtamun_value(masked), stdout);
    putchar('\n');
    return 0;
}

/* Memory of just some bytes, and one where that is none. */
static uint8_t *bytes(size_t count) {
    uint8_t *memory = (uint8_t *)malloc(count > 0 ? count : 1);
    if (memory == NULL)
        exit(2);
    return memory;
}

int main(void) {
    /* A byte more than is read, so that a query that is too long is refused. */
    static uint8_t input[GIEHTAMUN_MAX_QUERY_SIZE + 1];
    size_t len = fread(input, 1, sizeof input, stdin), i;
    uint8_t *text = bytes(len), *list = bytes(len * GIEHTAMUN_TOKEN_BYTES), *copy = bytes(len);
    int status;
    for (i = 0; i < len; i++)
        text[i] = input[i];
    status = show(text, len, list, copy);
    free(text);
    free(list);
    free(copy);
    return status;
}
