/* Sets the float environment to what a pad must not have, where the build asks for it by -DSPOIL=BITS: the bits go into FPSCR
 * of an ARM, MXCSR of an x86-64, or the rounding mode of a RISC-V. */
#ifndef SPOIL_H
#define SPOIL_H

#include <stdint.h>

static inline void spoil(void) {
#ifdef SPOIL
    uint32_t word;
#if defined(__arm__) && defined(__ARM_FP)
    __asm__ volatile("vmrs %0, fpscr" : "=r"(word));
    word |= SPOIL;
    __asm__ volatile("vmsr fpscr, %0" : : "r"(word) : "memory");
#elif defined(__x86_64__)
    __asm__ volatile("stmxcsr %0" : "=m"(word));
    word |= SPOIL;
    __asm__ volatile("ldmxcsr %0" : : "m"(word) : "memory");
#elif defined(__riscv_flen)
    word = SPOIL;
    __asm__ volatile("fsrm %0" : : "r"(word) : "memory");
#else
#error "no float environment to spoil here"
#endif
#endif
}

#endif
