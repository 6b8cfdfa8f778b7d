/* Giehtamun: ClickHouse's SQL tokenizer as C functions. Each function is proved to answer what its comment says; the inline helpers are
   plain C, and tested. Buffers that are lent to one call must not overlap one another where one of them is written.
   A call takes at most 2 KB of stack; lists, masked copies, first statements and their texts take 824 KB where a text has many dollar signs that begin
   nothing.

   A text is any bytes. A token has a kind, a start and an end, both byte offsets into the text; it ends before the byte at its end. A
   packed list holds GIEHTAMUN_TOKEN_BYTES bytes a token: kind, start, end, each 32 bits, low byte first. A list's room is its length
   divided by that, rounded down.

   An answer is one number of 64 bits, which giehtamun_number, giehtamun_kind and giehtamun_value take apart. That of giehtamun_place
   is taken apart by giehtamun_number, giehtamun_line and giehtamun_column; that of giehtamun_first_statement by giehtamun_number,
   giehtamun_statement_tokens and giehtamun_statement_end; the flag of giehtamun_load by giehtamun_flag. */
#ifndef GIEHTAMUN_H
#define GIEHTAMUN_H

#include <stddef.h>
#include <stdint.h>

#ifdef __cplusplus
extern "C" {
#endif

/* The longest text that is read, in bytes. */
#define GIEHTAMUN_MAX_QUERY_SIZE 1000000

/* The bytes of a token in a packed list. */
#define GIEHTAMUN_TOKEN_BYTES 12

/* Listing modes. A lean list leaves out white space; that of a whole text leaves out comments too. */
#define GIEHTAMUN_FULL 0
#define GIEHTAMUN_LEAN 1

/* The flag of a saved list: all tokens of the text, or those that start before a position. */
#define GIEHTAMUN_WHOLE 0
#define GIEHTAMUN_PARTIAL 1

/* The bytes of a saved file beside its text, and beside its tokens: its trailer's, and a token's. */
#define GIEHTAMUN_TRAILER_BYTES 12
#define GIEHTAMUN_RECORD_BYTES 4

/* The numbers that come back, checked in the order 6, 1, 2, 4, 5, 7, 3, and for saved lists in the order 9, 1, 8, 2, 3. A refusal writes
   nothing, but for what giehtamun_list says of 1. */
enum giehtamun_numbers {
    GIEHTAMUN_DONE = 0,         /* the value is the tokens stored, a copy's, part's or file's bytes, or a step's next cursor */
    GIEHTAMUN_TOO_LONG = 1,     /* the text has over GIEHTAMUN_MAX_QUERY_SIZE bytes; the value is 0 */
    GIEHTAMUN_NOT_UTF8 = 2,     /* listings, masked copy, saved lists; the value is the length of the longest valid prefix of the text that
                                   ends at a character's end */
    GIEHTAMUN_NO_ROOM = 3,      /* listings, masked copy, saved lists; the value is the tokens or bytes needed */
    GIEHTAMUN_BEYOND = 4,       /* the cursor of a step or the offset of a place is beyond the text's length; the value is 0 */
    GIEHTAMUN_NO_PART = 5,      /* token text, shown text: the start is above the end, the end is beyond the text, or one of them is on a
                                   continuation byte (80 to BF hex); for shown text also a kind outside 1 to 48; the value is 0 */
    GIEHTAMUN_NO_MODE = 6,      /* the listing mode is neither 0 nor 1; the value is 0 */
    GIEHTAMUN_OTHER_LENGTH = 7, /* shown text: the copy's length is not the text's; the value is 0 */
    GIEHTAMUN_MALFORMED = 8,    /* saved lists: the file, the list or the flag is none; the value is 0 */
    GIEHTAMUN_NO_VERSION = 9    /* saved lists: the file has another version than 1; the value is 0 */
};

enum giehtamun_kinds {
    GIEHTAMUN_NO_TOKEN = 0,
    GIEHTAMUN_WHITESPACE = 1,
    GIEHTAMUN_COMMENT = 2,
    GIEHTAMUN_NUMBER = 3,
    GIEHTAMUN_BARE_WORD = 4,
    GIEHTAMUN_STRING_TOKEN = 5,
    GIEHTAMUN_QUOTED_IDENTIFIER = 6,
    GIEHTAMUN_HERE_DOC = 7,
    GIEHTAMUN_OPENING_ROUND_BRACKET = 8,
    GIEHTAMUN_CLOSING_ROUND_BRACKET = 9,
    GIEHTAMUN_OPENING_SQUARE_BRACKET = 10,
    GIEHTAMUN_CLOSING_SQUARE_BRACKET = 11,
    GIEHTAMUN_OPENING_CURLY_BRACE = 12,
    GIEHTAMUN_CLOSING_CURLY_BRACE = 13,
    GIEHTAMUN_COMMA = 14,
    GIEHTAMUN_SEMICOLON = 15,
    GIEHTAMUN_DOT = 16,
    GIEHTAMUN_STAR = 17,
    GIEHTAMUN_DOLLAR_SIGN = 18,
    GIEHTAMUN_PLUS = 19,
    GIEHTAMUN_MINUS = 20,
    GIEHTAMUN_ARROW = 21,
    GIEHTAMUN_SLASH = 22,
    GIEHTAMUN_PERCENT = 23,
    GIEHTAMUN_QUESTION_MARK = 24,
    GIEHTAMUN_COLON = 25,
    GIEHTAMUN_DOUBLE_COLON = 26,
    GIEHTAMUN_CARET = 27,
    GIEHTAMUN_EQUALS = 28,
    GIEHTAMUN_SPACESHIP = 29,
    GIEHTAMUN_NOT_EQUALS = 30,
    GIEHTAMUN_LESS = 31,
    GIEHTAMUN_LESS_OR_EQUALS = 32,
    GIEHTAMUN_GREATER = 33,
    GIEHTAMUN_GREATER_OR_EQUALS = 34,
    GIEHTAMUN_CONCATENATION = 35,
    GIEHTAMUN_AT = 36,
    GIEHTAMUN_DOUBLE_AT = 37,
    GIEHTAMUN_VERTICAL_DELIMITER = 38,
    GIEHTAMUN_END_OF_STREAM = 39,
    GIEHTAMUN_ERROR_MULTILINE_COMMENT_IS_NOT_CLOSED = 40,
    GIEHTAMUN_ERROR_SINGLE_QUOTE_IS_NOT_CLOSED = 41,
    GIEHTAMUN_ERROR_DOUBLE_QUOTE_IS_NOT_CLOSED = 42,
    GIEHTAMUN_ERROR_BACK_QUOTE_IS_NOT_CLOSED = 43,
    GIEHTAMUN_ERROR_WRONG_NUMBER = 44,
    GIEHTAMUN_ERROR_SINGLE_EXCLAMATION_MARK = 45,
    GIEHTAMUN_ERROR_SINGLE_PIPE_MARK = 46,
    GIEHTAMUN_ERROR_TOKEN = 47,
    GIEHTAMUN_ERROR_MAX_QUERY_SIZE_EXCEEDED = 48
};

/* The number of an answer: bits 56 to 63. */
static inline uint32_t giehtamun_number(uint64_t answer) {
    return (uint32_t)(answer >> 56);
}

/* The kind in a step's answer: bits 48 to 55, which are the flag in that of giehtamun_load. Not for a place or a first statement. */
static inline uint32_t giehtamun_kind(uint64_t answer) {
    return (uint32_t)(answer >> 48) & 0xFF;
}

/* The flag in the answer of giehtamun_load: bits 48 to 55. */
static inline uint32_t giehtamun_flag(uint64_t answer) {
    return (uint32_t)(answer >> 48) & 0xFF;
}

/* The value of an answer: bits 0 to 47. Not for a place or a first statement. */
static inline uint64_t giehtamun_value(uint64_t answer) {
    return answer & 0xFFFFFFFFFFFF;
}

/* The line in a place's answer, counted from 0 in line ends (LF, CR LF, CR alone): bits 28 to 55. */
static inline uint32_t giehtamun_line(uint64_t answer) {
    return (uint32_t)(answer >> 28) & 0xFFFFFFF;
}

/* The column in a place's answer, counted from 0 in UTF-16 code units: bits 0 to 27. */
static inline uint32_t giehtamun_column(uint64_t answer) {
    return (uint32_t)answer & 0xFFFFFFF;
}

/* The tokens read in a first statement's answer, its delimiter among them: bits 28 to 55. */
static inline uint32_t giehtamun_statement_tokens(uint64_t answer) {
    return (uint32_t)(answer >> 28) & 0xFFFFFFF;
}

/* The end in a first statement's answer, where the next statement begins: bits 0 to 27. */
static inline uint32_t giehtamun_statement_end(uint64_t answer) {
    return (uint32_t)answer & 0xFFFFFFF;
}

/* Whether a token of a kind may have hidden bytes: Comment, StringToken, HereDoc, and the four kinds of what is not closed. */
static inline int giehtamun_hides(uint32_t kind) {
    return kind == GIEHTAMUN_COMMENT || kind == GIEHTAMUN_STRING_TOKEN || kind == GIEHTAMUN_HERE_DOC ||
           (kind >= GIEHTAMUN_ERROR_MULTILINE_COMMENT_IS_NOT_CLOSED && kind <= GIEHTAMUN_ERROR_BACK_QUOTE_IS_NOT_CLOSED);
}

/* The tokens of the whole text, into the front of `list`, whose other bytes stay as they are. Full, they cover the text without a gap.
   Lean drops exactly white space and comments. EndOfStream is not stored.
   Answers 0 and the number of tokens, or refuses with 6, 1, 2 or 3.
   A text that is too long has two tokens, ErrorMaxQuerySizeExceeded at 0..0 and EndOfStream at 0..0. These are stored and the answer is
   1 with value 2; where `list` has room for fewer than two, it is 3 with value 2, and nothing is written.
   Room for `text_len` tokens is always enough, and then the tokens are not counted first. */
uint64_t giehtamun_list(const uint8_t *text, size_t text_len, uint32_t mode, uint8_t *list, size_t list_len);

/* The same for the tokens that start before a position; the last may run past it. The position may be any number and need not be a
   character's edge. Lean drops white space only, and keeps comments.
   Answers 0 and the number of tokens, or refuses with 6, 1 (value 0), 2 or 3. */
uint64_t giehtamun_list_up_to(const uint8_t *text, size_t text_len, uint32_t mode, size_t position, uint8_t *list, size_t list_len);

/* The one token that starts at a cursor: its kind, and as the value its end, which is the next cursor. At the text's end it is
   EndOfStream, and the value is the text's length.
   The whole text is not tested for UTF-8. Where no well-formed character begins, the longest run of bytes there that begins some
   well-formed character, or one byte if there is none, is read as one character of no class: the Unicode Standard's practice of replacing
   maximal subparts (section 3.9). So a cut character is one ErrorToken outside of literals and comments, where an editor shows one
   replacement mark, and a cursor inside a character is answered too.
   A step holds no state: from each dollar sign it may search the rest of the text, which a listing of the whole text does not.
   Answers 0, or refuses with 1 or 4, kind 0 and value 0. */
uint64_t giehtamun_step(const uint8_t *text, size_t text_len, size_t cursor);

/* The masked copy of the text, into the front of `copy`, whose other bytes stay as they are. It is the text with each hidden byte become
   23 hex, the character #. Hidden are, in a StringToken, all bytes but the opening and the closing quote; in a HereDoc, all between its two
   tags; in a Comment, all but what opens and what closes it; in a comment or quote that is not closed, all after what opens it.
   The copy is as long as the text, is UTF-8 and has the same tokens.
   Answers 0 and the copy's length, or refuses with 1, 2 or 3. */
uint64_t giehtamun_mask(const uint8_t *text, size_t text_len, uint8_t *copy, size_t copy_len);

/* The text of a token: the part of the text from `start` to `end`. The host takes that part itself, from text + start on.
   An offset at the text's end is on no byte. The text is not tested for UTF-8.
   Answers 0 and the part's length, or refuses with 1 or 5; a refused part is empty. */
uint64_t giehtamun_token_text(const uint8_t *text, size_t text_len, size_t start, size_t end);

/* What may be shown of a token of a kind: the part from `start` to `end` of the copy where giehtamun_hides(kind), and of the text otherwise.
   The host takes that part itself, from copy + start or text + start on. `copy` should be giehtamun_mask's copy of the text: its length is
   tested, its bytes are not read. The text is not tested for UTF-8.
   Answers 0 and the part's length, or refuses with 1, 5 or 7; a refused part is empty. */
uint64_t giehtamun_shown_text(const uint8_t *text, size_t text_len, const uint8_t *copy, size_t copy_len, uint32_t kind, size_t start,
                              size_t end);

/* The place of a byte offset: its position in the Language Server Protocol 3.17, with columns in UTF-16 code units, the protocol's default.
   The first line and the first column are 0.
   A place is read over the text's characters, from its start. A line ends at LF, at CR LF taken together, or at CR alone; the line is the
   number of line ends wholly before the offset. The column is the number of units between the last of these (or the text's start) and the
   offset: two for a character above U+FFFF, otherwise one.
   An offset inside a character has the place of that character. One between CR and LF belongs to the line they end, after the CR; the
   protocol takes such a position as the line's end.
   The text may be any bytes and is not tested for UTF-8: what giehtamun_step reads as one character where no well-formed one begins is one
   character of one unit here too, as an editor's one replacement mark is.
   Answers 0, or refuses with 1 or 4, line 0 and column 0. */
uint64_t giehtamun_place(const uint8_t *text, size_t text_len, size_t offset);

/* The first statement of the text: where it ends, and the tokens read. It ends with the first token of kind Semicolon or VerticalDelimiter (a
   backslash with one G or g), or with the text if there is none. A delimiter inside a string, a quoted identifier, a comment or a
   here-document is no token, and ends nothing. The tokens read are the place of that delimiter in the text's full list, counted from one, or the
   list's length.
   Reading stops there, so that the call costs what the statement does and not what the text does; only a dollar sign in it may have the rest
   of the text searched. Neither the statement nor the rest is tested for UTF-8: the tokens are those of giehtamun_step, from step to step.
   The same call on the rest, with text + end and text_len - end, gives the next statement of the text, and so on until nothing is left: the
   statements are those into which the delimiters of the full list cut the text. But a call holds no state: where each of many statements has a
   dollar sign that begins nothing, each call searches all that is left, and the walk takes the square of the text's length, minutes for
   1,000,000 bytes. Then list the text once, and cut the list after each token of kind 15 or 38. Text that is not UTF-8 has no list.
   Answers 0, or refuses with 1, end 0 and no tokens. */
uint64_t giehtamun_first_statement(const uint8_t *text, size_t text_len);

/* The text of the first statement: what stands before its delimiter, or the whole text if there is none. The host takes that part itself, from
   `text` on. The last byte before giehtamun_statement_end does not tell it: a semicolon there may belong to a comment.
   Answers 0 and the part's length, or refuses with 1; a refused part is empty. */
uint64_t giehtamun_statement_text(const uint8_t *text, size_t text_len);

/* A saved list is a file with a text and its tokens, so that it opens without lexing:
     the text;
     the records, one a token: a kind byte, and the token's end in 24 bits; its start is the end before it, and the first starts at 0;
     the trailer: offset of the first record, which is the text's length, and number of records, 32 bits each; a flag byte, 0 for the full
     list and 1 for the tokens that start before a position; version byte 1; two zero bytes.
   All numbers are low byte first. A text, list and flag that are taken have exactly one file, and every file that is taken is that of what it
   holds, byte for byte.
   Neither function lexes: a list is taken if it could be one. Its starts chain, its ends rise and stay in the text, a full list ends with
   the text, and its kinds are 1 to 47 without 39. So what giehtamun_list gives in mode 0 is taken with flag 0, and what giehtamun_list_up_to
   gives in mode 0 with flag 1. A change of text or tokens that leaves a list so is not noticed: trust a file as you trust its text. */

/* The file of a text, its packed list and a flag, into the front of `file`, whose other bytes stay as they are. `list_len` is that of the
   tokens stored, GIEHTAMUN_TOKEN_BYTES times giehtamun_value of a listing that answered 0, not the room's; the value of 3 counts tokens that
   are not there.
   Answers 0 and the file's length, text_len + GIEHTAMUN_RECORD_BYTES * tokens + GIEHTAMUN_TRAILER_BYTES, or refuses with 1; 8, where the
   flag is above 1, `list_len` is no multiple of GIEHTAMUN_TOKEN_BYTES, or the list is not one as above; 2; or 3, with the bytes needed. */
uint64_t giehtamun_save(const uint8_t *text, size_t text_len, const uint8_t *list, size_t list_len, uint32_t flag, uint8_t *file,
                        size_t file_len);

/* The packed list of a file, into the front of `list`, whose other bytes stay as they are. Its text is giehtamun_saved_text's.
   Answers 0, the number of tokens and, for giehtamun_flag, the flag; or refuses, with flag 0: 9, where the version byte is not 1; 1, where the
   trailer's offset is over GIEHTAMUN_MAX_QUERY_SIZE; 8, where the file is not one as above, or has under GIEHTAMUN_TRAILER_BYTES bytes,
   which is tested first; 2; or 3, with the tokens needed. There are never more tokens than bytes of text, nor than a quarter of the file's. */
uint64_t giehtamun_load(const uint8_t *file, size_t file_len, uint8_t *list, size_t list_len);

/* The text of a file, which is its front: the host takes that part itself, from `file` on.
   Answers 0 and the text's length, or refuses as giehtamun_load does, but for 3; a refused part is empty. */
uint64_t giehtamun_saved_text(const uint8_t *file, size_t file_len);

#ifdef __cplusplus
}
#endif

#endif
