/* The check on a 32-bit RISC-V, without a C library, by the system calls that qemu-riscv32 has; and the two functions that the
 * library asks of a C library. */
#include <stddef.h>

#include "platform.h"
#include "spoil.h"

static long system_call(long number, long a, long b, long c) {
    register long a7 __asm__("a7") = number;
    register long a0 __asm__("a0") = a, a1 __asm__("a1") = b, a2 __asm__("a2") = c;
    __asm__ volatile("ecall" : "+r"(a0) : "r"(a7), "r"(a1), "r"(a2) : "memory");
    return a0;
}

void put(const char *text) {
    long length = 0;
    while (text[length]) length++;
    system_call(64, 1, (long)text, length);
}

void start(void) {
    spoil();
    system_call(93, check(CASES), 0, 0);
    for (;;) {}
}

__asm__(".globl _start\n_start:\n.option push\n.option norelax\nla gp, __global_pointer$\n.option pop\nandi sp, sp, -16\ncall start\n");

void *memcpy(void *to, const void *from, size_t count) {
    char *a = to;
    const char *b = from;
    while (count--) *a++ = *b++;
    return to;
}

void *memmove(void *to, const void *from, size_t count) {
    char *a = to;
    const char *b = from;
    if (a < b) return memcpy(to, from, count);
    while (count--) a[count] = b[count];
    return to;
}

void *memset(void *to, int byte, size_t count) {
    char *a = to;
    while (count--) *a++ = (char)byte;
    return to;
}
