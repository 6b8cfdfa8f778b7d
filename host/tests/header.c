/* A host in C99 and in C++11. */
#include "giehtamun.h"

static int is(uint64_t answer, uint32_t number, uint32_t kind, uint64_t value) {
    return giehtamun_number(answer) == number && giehtamun_kind(answer) == kind && giehtamun_value(answer) == value;
}

static int is_place(uint64_t answer, uint32_t number, uint32_t line, uint32_t column) {
    return giehtamun_number(answer) == number && giehtamun_line(answer) == line && giehtamun_column(answer) == column;
}

static int lists(void) {
    static const uint8_t text[] = {'a', ' ', 0xD7, 0xA9};
    static uint8_t list[3 * GIEHTAMUN_TOKEN_BYTES], too_long[GIEHTAMUN_MAX_QUERY_SIZE + 1];
    if (!is(giehtamun_list(text, sizeof text, GIEHTAMUN_FULL, list, sizeof list), GIEHTAMUN_DONE, 0, 3))
        return 1;
    if (list[0] != GIEHTAMUN_BARE_WORD || list[12] != GIEHTAMUN_WHITESPACE || list[24] != GIEHTAMUN_ERROR_TOKEN || list[32] != 4)
        return 2;
    if (!is(giehtamun_list(text, sizeof text, GIEHTAMUN_LEAN, list, sizeof list), GIEHTAMUN_DONE, 0, 2))
        return 3;
    if (!is(giehtamun_list(text, sizeof text, GIEHTAMUN_FULL, list, sizeof list - 1), GIEHTAMUN_NO_ROOM, 0, 3))
        return 4;
    if (!is(giehtamun_list(text, sizeof text - 1, GIEHTAMUN_FULL, list, sizeof list), GIEHTAMUN_NOT_UTF8, 0, 2))
        return 5;
    if (!is(giehtamun_list_up_to(text, sizeof text, GIEHTAMUN_LEAN, 2, list, sizeof list), GIEHTAMUN_DONE, 0, 1))
        return 6;
    if (!is(giehtamun_list_up_to(text, sizeof text, 2, 2, list, sizeof list), GIEHTAMUN_NO_MODE, 0, 0))
        return 7;
    if (!is(giehtamun_step(text, sizeof text, 2), GIEHTAMUN_DONE, GIEHTAMUN_ERROR_TOKEN, 4))
        return 8;
    if (!is(giehtamun_step(text, sizeof text, 5), GIEHTAMUN_BEYOND, GIEHTAMUN_NO_TOKEN, 0))
        return 9;
    if (!is(giehtamun_step(too_long, sizeof too_long, 0), GIEHTAMUN_TOO_LONG, GIEHTAMUN_NO_TOKEN, 0))
        return 10;
    return 0;
}

static int parts(void) {
    static const uint8_t text[] = {'a', '\n', '\'', 0xD7, 0xA9, '\''}, masked[] = {'a', '\n', '\'', '#', '#', '\'', 0};
    static uint8_t copy[sizeof text + 1];
    size_t i;
    if (!is(giehtamun_mask(text, sizeof text, copy, sizeof text - 1), GIEHTAMUN_NO_ROOM, 0, 6) || copy[0] != 0)
        return 11;
    if (!is(giehtamun_mask(text, sizeof text, copy, sizeof copy), GIEHTAMUN_DONE, 0, 6))
        return 12;
    for (i = 0; i < sizeof copy; i++)
        if (copy[i] != masked[i])
            return 13;
    if (!is(giehtamun_token_text(text, sizeof text, 2, 6), GIEHTAMUN_DONE, 0, 4))
        return 14;
    if (!is(giehtamun_token_text(text, sizeof text, 2, 4), GIEHTAMUN_NO_PART, 0, 0))
        return 15;
    if (!is(giehtamun_shown_text(text, sizeof text, copy, sizeof text, GIEHTAMUN_STRING_TOKEN, 2, 6), GIEHTAMUN_DONE, 0, 4))
        return 16;
    if (!is(giehtamun_shown_text(text, sizeof text, copy, sizeof copy, GIEHTAMUN_STRING_TOKEN, 2, 6), GIEHTAMUN_OTHER_LENGTH, 0, 0))
        return 17;
    if (!is(giehtamun_shown_text(text, sizeof text, copy, sizeof copy, GIEHTAMUN_NO_TOKEN, 2, 6), GIEHTAMUN_NO_PART, 0, 0))
        return 18;
    if (!is_place(giehtamun_place(text, sizeof text, 5), GIEHTAMUN_DONE, 1, 2))
        return 19;
    if (!is_place(giehtamun_place(text, sizeof text, 7), GIEHTAMUN_BEYOND, 0, 0))
        return 20;
    return 0;
}

/* A cut character is one token and one column, and a byte that begins no character is one. */
static int broken(void) {
    static const uint8_t text[] = {0xE2, 0x80, 'a', 0xE0, 0x80};
    if (!is(giehtamun_step(text, sizeof text, 0), GIEHTAMUN_DONE, GIEHTAMUN_ERROR_TOKEN, 2))
        return 22;
    if (!is(giehtamun_step(text, sizeof text, 3), GIEHTAMUN_DONE, GIEHTAMUN_ERROR_TOKEN, 4))
        return 23;
    if (!is_place(giehtamun_place(text, sizeof text, 1), GIEHTAMUN_DONE, 0, 0))
        return 24;
    if (!is_place(giehtamun_place(text, sizeof text, 5), GIEHTAMUN_DONE, 0, 4))
        return 25;
    return 0;
}

static int is_statement(uint64_t answer, uint32_t number, uint32_t tokens, uint32_t end) {
    return giehtamun_number(answer) == number && giehtamun_statement_tokens(answer) == tokens && giehtamun_statement_end(answer) == end;
}

/* From the end of a statement the same call on the rest gives the next, and the last may end with a semicolon that is no delimiter. */
static int statements(void) {
    static const uint8_t text[] = "a ';';b\\G-- c;", too_long[GIEHTAMUN_MAX_QUERY_SIZE + 1] = {';'};
    static const uint32_t ends[] = {6, 3, 5}, tokens[] = {4, 2, 1}, parts[] = {5, 1, 5};
    size_t at = 0, i;
    for (i = 0; i < 3; i++) {
        uint64_t first = giehtamun_first_statement(text + at, sizeof text - 1 - at);
        if (!is_statement(first, GIEHTAMUN_DONE, tokens[i], ends[i]))
            return 26;
        if (!is(giehtamun_statement_text(text + at, sizeof text - 1 - at), GIEHTAMUN_DONE, 0, parts[i]))
            return 27;
        at += giehtamun_statement_end(first);
    }
    if (at != sizeof text - 1 || !is_statement(giehtamun_first_statement(text + at, 0), GIEHTAMUN_DONE, 0, 0))
        return 28;
    if (!is_statement(giehtamun_first_statement(too_long, sizeof too_long), GIEHTAMUN_TOO_LONG, 0, 0))
        return 29;
    if (!is(giehtamun_statement_text(too_long, sizeof too_long), GIEHTAMUN_TOO_LONG, 0, 0))
        return 30;
    return 0;
}

static int is_loaded(uint64_t answer, uint32_t flag, uint64_t tokens) {
    return giehtamun_number(answer) == GIEHTAMUN_DONE && giehtamun_flag(answer) == flag && giehtamun_value(answer) == tokens;
}

/* A text and its list as a file and back again. */
static int saved(void) {
    static const uint8_t text[] = {'a', ' ', 0xD7, 0xA9};
    static const uint8_t known[] = {'a', ' ', 0xD7, 0xA9, 4, 1, 0, 0, 1, 2, 0, 0, 47, 4, 0, 0, 4, 0, 0, 0, 3, 0, 0, 0, 0, 1, 0, 0};
    static uint8_t list[3 * GIEHTAMUN_TOKEN_BYTES], again[sizeof list + 1], file[sizeof known + 1];
    size_t i;
    giehtamun_list(text, sizeof text, GIEHTAMUN_FULL, list, sizeof list);
    if (sizeof known != sizeof text + 3 * GIEHTAMUN_RECORD_BYTES + GIEHTAMUN_TRAILER_BYTES)
        return 31;
    if (!is(giehtamun_save(text, sizeof text, list, sizeof list, GIEHTAMUN_WHOLE, file, sizeof known - 1), GIEHTAMUN_NO_ROOM, 0, sizeof known))
        return 32;
    if (!is(giehtamun_save(text, sizeof text, list, sizeof list, GIEHTAMUN_WHOLE, file, sizeof file), GIEHTAMUN_DONE, 0, sizeof known))
        return 33;
    for (i = 0; i < sizeof file; i++)
        if (file[i] != (i < sizeof known ? known[i] : 0))
            return 34;
    if (!is(giehtamun_load(file, sizeof known, again, sizeof list - 1), GIEHTAMUN_NO_ROOM, 0, 3) || again[0] != 0)
        return 35;
    if (!is_loaded(giehtamun_load(file, sizeof known, again, sizeof again), GIEHTAMUN_WHOLE, 3))
        return 36;
    for (i = 0; i < sizeof again; i++)
        if (again[i] != (i < sizeof list ? list[i] : 0))
            return 37;
    if (!is(giehtamun_saved_text(file, sizeof known), GIEHTAMUN_DONE, 0, sizeof text))
        return 38;
    return 0;
}

/* The first two of three tokens, as a partial list, and what is refused. */
static int partial(void) {
    static const uint8_t text[] = {'a', ' ', 0xD7, 0xA9}, too_long[GIEHTAMUN_MAX_QUERY_SIZE + 1] = {0};
    static uint8_t list[3 * GIEHTAMUN_TOKEN_BYTES], again[sizeof list], file[100];
    const size_t two = 2 * GIEHTAMUN_TOKEN_BYTES, shorter = sizeof text + 2 * GIEHTAMUN_RECORD_BYTES + GIEHTAMUN_TRAILER_BYTES;
    giehtamun_list(text, sizeof text, GIEHTAMUN_FULL, list, sizeof list);
    if (!is(giehtamun_save(text, sizeof text, list, two, GIEHTAMUN_WHOLE, file, sizeof file), GIEHTAMUN_MALFORMED, 0, 0))
        return 39;
    if (!is(giehtamun_save(text, sizeof text, list, two, GIEHTAMUN_PARTIAL, file, sizeof file), GIEHTAMUN_DONE, 0, shorter))
        return 40;
    if (!is_loaded(giehtamun_load(file, shorter, again, sizeof again), GIEHTAMUN_PARTIAL, 2))
        return 41;
    if (!is(giehtamun_load(file, shorter - 1, again, sizeof again), GIEHTAMUN_MALFORMED, 0, 0))
        return 42;
    file[shorter - 3] = 2;
    if (!is(giehtamun_saved_text(file, shorter), GIEHTAMUN_NO_VERSION, 0, 0))
        return 43;
    if (!is(giehtamun_save(text, sizeof text - 1, list, two, GIEHTAMUN_PARTIAL, file, sizeof file), GIEHTAMUN_NOT_UTF8, 0, 2))
        return 44;
    if (!is(giehtamun_save(too_long, sizeof too_long, list, 0, GIEHTAMUN_PARTIAL, file, sizeof file), GIEHTAMUN_TOO_LONG, 0, 0))
        return 45;
    return 0;
}

/* The hiding kinds are 2, 5, 7 and 40 to 43. */
static int hiding_kinds(void) {
    uint32_t kind;
    for (kind = 0; kind <= 300; kind++)
        if (giehtamun_hides(kind) != (kind == 2 || kind == 5 || kind == 7 || (kind >= 40 && kind <= 43)))
            return 21;
    return 0;
}

int main(void) {
    int wrong = lists();
    if (wrong == 0)
        wrong = parts();
    if (wrong == 0)
        wrong = hiding_kinds();
    if (wrong == 0)
        wrong = broken();
    if (wrong == 0)
        wrong = statements();
    if (wrong == 0)
        wrong = saved();
    if (wrong == 0)
        wrong = partial();
    return wrong;
}
