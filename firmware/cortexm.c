/* The check on a Cortex-M without an operating system. With -DIN_INTERRUPT=BITS it runs in an interrupt, and the bits go into
 * FPDSCR, from which an interrupt's FPSCR comes. */
#include "../examples/pad/semihosting.h"
#include "nyerdzumak.h"
#include "platform.h"
#include "spoil.h"

void put(const char *text) { say(text); }

#ifdef MEASURE_STACK
enum { ROOM = 8192 };
static uint32_t mark;

static inline uint32_t stack_pointer(void) {
    uint32_t sp;
    __asm__ volatile("mov %0, sp" : "=r"(sp));
    return sp;
}

__attribute__((noinline)) void paint(void) {
    mark = stack_pointer();
    for (uint32_t at = mark - ROOM; at < mark; at += 4) *(volatile uint32_t *)at = 0xa5a55a5au;
}

__attribute__((noinline)) uint32_t depth(void) {
    uint32_t at = mark - ROOM;
    while (at < mark && *(volatile uint32_t *)at == 0xa5a55a5au) at += 4;
    return mark - at;
}
#endif

#ifdef IN_INTERRUPT
void supervisor_call(void) { check(CASES); }

int main(void) {
    say(nz_float_environment_ok() ? "outside the interrupt the float environment is ok\n" : "outside it is not\n");
    *(volatile uint32_t *)0xE000EF3C |= IN_INTERRUPT;
    __asm__ volatile("dsb\n\tisb\n\tsvc 0" : : : "memory");
    return 0;
}
#else
int main(void) {
    spoil();
    return check(CASES);
}
#endif
