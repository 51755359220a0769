// Writes what the compiled functions answer, four bytes each, lowest first: answers FUNCTION COUNT STEP
// One argument: the patterns 0, STEP, 2·STEP .. as 32-bit numbers. Two arguments: pairs drawn by chance; STEP is where the drawing starts.
// It needs no C library, so that any compiler for x86-64 makes it on any machine.
#include <stdint.h>

uint32_t geaidnosa_root_bits(uint32_t), geaidnosa_floor_bits(uint32_t), geaidnosa_ceiling_bits(uint32_t), geaidnosa_magnitude_bits(uint32_t);
uint32_t geaidnosa_larger_bits(uint32_t, uint32_t), geaidnosa_smaller_bits(uint32_t, uint32_t);

static long call(long number, long a, long b, long c) {
    long answer;
    __asm__ volatile("syscall" : "=a"(answer) : "a"(number), "D"(a), "S"(b), "d"(c) : "rcx", "r11", "memory");
    return answer;
}

static uint32_t room[16384];
static unsigned filled;

static void flush(void) {
    const char *from = (const char *)room;
    long left = 4L * filled;
    while (left > 0) {
        long put = call(1, 1, (long)from, left);
        if (put <= 0) call(60, 1, 0, 0);
        from += put;
        left -= put;
    }
    filled = 0;
}

static void put(uint32_t answer) {
    room[filled++] = answer;
    if (filled == 16384) flush();
}

static uint64_t number(const char *s) {
    uint64_t n = 0;
    while (*s) n = n * 10 + (uint64_t)(*s++ - '0');
    return n;
}

// splitmix64
static uint64_t state;

static uint64_t draw(void) {
    uint64_t z = state += 0x9e3779b97f4a7c15u;
    z = (z ^ (z >> 30)) * 0xbf58476d1ce4e5b9u;
    z = (z ^ (z >> 27)) * 0x94d049bb133111ebu;
    return z ^ (z >> 31);
}

__attribute__((used)) static int run(long *stack) {
    char **words = (char **)(stack + 1);
    if (stack[0] != 4) return 2;
    uint64_t count = number(words[2]), step = number(words[3]);
    switch (words[1][0]) {
        case 'r': for (uint64_t i = 0; i < count; i++) put(geaidnosa_root_bits((uint32_t)(i * step))); break;
        case 'f': for (uint64_t i = 0; i < count; i++) put(geaidnosa_floor_bits((uint32_t)(i * step))); break;
        case 'c': for (uint64_t i = 0; i < count; i++) put(geaidnosa_ceiling_bits((uint32_t)(i * step))); break;
        case 'm': for (uint64_t i = 0; i < count; i++) put(geaidnosa_magnitude_bits((uint32_t)(i * step))); break;
        case 'l': case 's':
            state = step;
            for (uint64_t i = 0; i < count; i++) {
                uint64_t z = draw();
                uint32_t b = (uint32_t)(z >> 32), c = (uint32_t)z;
                // one pair in four each: as drawn, the same twice, the sign turned, the next pattern
                if (i % 4 == 1) c = b;
                if (i % 4 == 2) c = b ^ 0x80000000u;
                if (i % 4 == 3) c = b + 1;
                put(words[1][0] == 'l' ? geaidnosa_larger_bits(b, c) : geaidnosa_smaller_bits(b, c));
            }
            break;
        default: return 2;
    }
    flush();
    return 0;
}

__asm__(".globl _start\n_start: mov %rsp, %rdi\n and $-16, %rsp\n call run\n mov %eax, %edi\n mov $60, %eax\n syscall\n");
