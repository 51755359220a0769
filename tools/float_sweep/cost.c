// Calls one form COUNT times over numbers from 2^-10 to 2^22: cost FORM COUNT, where FORM is r or f for the port's root or floor,
// R or F for the processor's sqrtss or roundss, and n for a call that does nothing. It needs no C library.
#include <stdint.h>

uint32_t geaidnosa_root_bits(uint32_t), geaidnosa_floor_bits(uint32_t);

__attribute__((noinline)) static uint32_t nothing(uint32_t b) {
    __asm__ volatile("" : "+r"(b));
    return b;
}

__attribute__((noinline)) static uint32_t own_root(uint32_t b) {
    float x;
    __builtin_memcpy(&x, &b, 4);
    __asm__("sqrtss %0, %0" : "+x"(x));
    __builtin_memcpy(&b, &x, 4);
    return b;
}

__attribute__((noinline)) static uint32_t own_floor(uint32_t b) {
    float x;
    __builtin_memcpy(&x, &b, 4);
    __asm__("roundss $9, %0, %0" : "+x"(x));
    __builtin_memcpy(&b, &x, 4);
    return b;
}

__attribute__((used)) static int run(long *stack) {
    char **words = (char **)(stack + 1);
    if (stack[0] != 3) return 2;
    uint64_t count = 0;
    for (char *s = words[2]; *s; s++) count = count * 10 + (uint64_t)(*s - '0');
    char form = words[1][0];
    uint32_t (*f)(uint32_t) = form == 'r' ? geaidnosa_root_bits : form == 'f' ? geaidnosa_floor_bits : form == 'R' ? own_root : form == 'F' ? own_floor : nothing;
    uint32_t sum = 0;
    for (uint64_t i = 0; i < count; i++) sum ^= f(0x3a800000u + (uint32_t)(i * 2654435761u) % 0x10000000u);
    return (int)(sum & 1);
}

__asm__(".globl _start\n_start: mov %rsp, %rdi\n and $-16, %rsp\n call run\n mov %eax, %edi\n mov $60, %eax\n syscall\n");
