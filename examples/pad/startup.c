/* What a Cortex-M runs before main: its vectors, the float unit, and memory as C expects it. Memory that the linker script
 * keeps out of .data and .bss is left as it was. */
#include <stdint.h>

#include "semihosting.h"

extern uint32_t stack_top[], data_load[], data_start[], data_end[], bss_start[], bss_end[];

int main(void);

void reset(void) {
#ifdef __ARM_FP
    /* CPACR: the float unit on. FPSCR and FPDSCR stay as a reset leaves them: to the nearest, nothing flushed to zero. */
    *(volatile uint32_t *)0xE000ED88 |= 0xFu << 20;
    __asm__ volatile("dsb\n\tisb" : : : "memory");
#endif
    const uint32_t *from = data_load;
    for (uint32_t *to = data_start; to < data_end; to++) *to = *from++;
    for (uint32_t *to = bss_start; to < bss_end; to++) *to = 0;
    stop(main());
}

static void fault(void) {
    say("fault\n");
    stop(1);
}

/* a program that has its own takes the place of this one */
__attribute__((weak)) void supervisor_call(void) { fault(); }

__attribute__((section(".vectors"), used)) static const void *const vectors[16] = {
    stack_top, reset, fault, fault, fault, fault, fault, 0, 0, 0, 0, supervisor_call, fault, 0, fault, fault,
};
