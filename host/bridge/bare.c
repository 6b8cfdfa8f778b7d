/* What the bridge for Arm has in place of a C library, of which the kit has none for Arm: where it begins, Linux's system calls there, and
   the one function that the compiled library calls. */
typedef unsigned char u8;
typedef unsigned long u64;

enum { READ = 63, WRITE = 64, EXIT = 93 };

int main(void);

static long call(long number, long a, long b, long c) {
    register long x8 __asm__("x8") = number;
    register long x0 __asm__("x0") = a;
    register long x1 __asm__("x1") = b;
    register long x2 __asm__("x2") = c;
    __asm__ volatile("svc 0" : "+r"(x0) : "r"(x1), "r"(x2), "r"(x8) : "memory");
    return x0;
}

long read(int file, void *to, u64 n) {
    return call(READ, file, (long)to, (long)n);
}

long write(int file, const void *from, u64 n) {
    return call(WRITE, file, (long)from, (long)n);
}

void *memset(void *to, int byte, u64 n) {
    for (u64 i = 0; i < n; i++)
        ((u8 *)to)[i] = (u8)byte;
    return to;
}

void _start(void) {
    call(EXIT, main(), 0, 0);
    __builtin_unreachable();
}
