/* A host of the static library in a program of its own, for a machine that may be another than the one it is compiled on. It includes no
   header, since that one may have none for it. Standard input: calls, each a head, its text, its packed list, and the memory before the
   call. Standard output: for each call the answer, a u64, and the memory after it. */
typedef unsigned char u8;
typedef unsigned int u32;
typedef unsigned long u64;

extern long read(int, void *, u64);
extern long write(int, const void *, u64);

u64 probe_valid_length(const u8 *text, u64 len);
u32 probe_code_at(const u8 *text, u64 len, u64 at);
u64 probe_length_at(const u8 *text, u64 len, u64 at);
_Bool probe_is_white_space(u32 code);
_Bool probe_is_alphabetic(u32 code);
_Bool probe_is_alphanumeric(u32 code);
u64 giehtamun_list(const u8 *text, u64 len, u32 mode, u8 *list, u64 lent);
u64 giehtamun_list_up_to(const u8 *text, u64 len, u32 mode, u64 position, u8 *list, u64 lent);
u64 giehtamun_step(const u8 *text, u64 len, u64 cursor);
u64 giehtamun_mask(const u8 *text, u64 len, u8 *copy, u64 lent);
u64 giehtamun_token_text(const u8 *text, u64 len, u64 start, u64 end);
u64 giehtamun_shown_text(const u8 *text, u64 len, const u8 *copy, u64 lent, u32 kind, u64 start, u64 end);
u64 giehtamun_place(const u8 *text, u64 len, u64 offset);
u64 giehtamun_first_statement(const u8 *text, u64 len);
u64 giehtamun_statement_text(const u8 *text, u64 len);
u64 giehtamun_save(const u8 *text, u64 len, const u8 *list, u64 list_len, u32 flag, u8 *file, u64 lent);
u64 giehtamun_load(const u8 *file, u64 len, u8 *list, u64 lent);
u64 giehtamun_saved_text(const u8 *file, u64 len);

/* The first `lent` bytes of the memory are lent to the function. */
struct head {
    u32 op, mode;
    u64 number, end, len, list_len, memory_len, lent;
};

/* The text of a reader is a whole saved file: a text, and four bytes a token. */
static u8 text[5500000], list[13200000], memory[13200000];
static u8 in[1 << 16], out[1 << 16];
static u64 have, at, held;

static u64 least(u64 a, u64 b) {
    return a < b ? a : b;
}

static void copy(u8 *to, const u8 *from, u64 n) {
    for (u64 i = 0; i < n; i++)
        to[i] = from[i];
}

static int take(u8 *to, u64 n) {
    while (n > 0) {
        if (at == have) {
            long got = read(0, in, sizeof in);
            if (got <= 0)
                return 0;
            have = (u64)got;
            at = 0;
        }
        u64 part = least(n, have - at);
        copy(to, in + at, part);
        to += part, at += part, n -= part;
    }
    return 1;
}

static int flush(void) {
    u64 from = 0;
    while (from < held) {
        long put = write(1, out + from, held - from);
        if (put <= 0)
            return 0;
        from += (u64)put;
    }
    held = 0;
    return 1;
}

static int give(const u8 *from, u64 n) {
    while (n > 0) {
        if (held == sizeof out && !flush())
            return 0;
        u64 part = least(n, sizeof out - held);
        copy(out + held, from, part);
        from += part, held += part, n -= part;
    }
    return 1;
}

int main(void) {
    struct head h;
    while (take((u8 *)&h, sizeof h)) {
        u64 answer;
        if (h.len > sizeof text || h.list_len > sizeof list || h.memory_len > sizeof memory || h.lent > h.memory_len)
            return 2;
        if (!take(text, h.len) || !take(list, h.list_len) || !take(memory, h.memory_len))
            return 2;
        switch (h.op) {
        case 1:
            answer = probe_valid_length(text, h.len);
            break;
        case 2:
            answer = probe_code_at(text, h.len, h.number);
            break;
        case 3:
            answer = probe_length_at(text, h.len, h.number);
            break;
        case 4:
            answer = probe_is_white_space((u32)h.number);
            break;
        case 5:
            answer = probe_is_alphabetic((u32)h.number);
            break;
        case 6:
            answer = probe_is_alphanumeric((u32)h.number);
            break;
        case 7:
            answer = giehtamun_list(text, h.len, h.mode, memory, h.lent);
            break;
        case 8:
            answer = giehtamun_list_up_to(text, h.len, h.mode, h.number, memory, h.lent);
            break;
        case 9:
            answer = giehtamun_step(text, h.len, h.number);
            break;
        case 10:
            answer = giehtamun_mask(text, h.len, memory, h.lent);
            break;
        case 11:
            answer = giehtamun_token_text(text, h.len, h.number, h.end);
            break;
        case 12:
            answer = giehtamun_shown_text(text, h.len, memory, h.lent, h.mode, h.number, h.end);
            break;
        case 13:
            answer = giehtamun_place(text, h.len, h.number);
            break;
        case 14:
            answer = giehtamun_first_statement(text, h.len);
            break;
        case 15:
            answer = giehtamun_statement_text(text, h.len);
            break;
        case 16:
            answer = giehtamun_save(text, h.len, list, h.list_len, h.mode, memory, h.lent);
            break;
        case 17:
            answer = giehtamun_load(text, h.len, memory, h.lent);
            break;
        case 18:
            answer = giehtamun_saved_text(text, h.len);
            break;
        default:
            return 3;
        }
        if (!give((const u8 *)&answer, sizeof answer) || !give(memory, h.memory_len))
            return 4;
    }
    return flush() ? 0 : 4;
}
