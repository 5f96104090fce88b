/*
 * The start of a program of the tests on the emulated boards mps2-an386 and mps2-an505. Input,
 * output and the words of the command come by semihosting, from newlib. A fault of the processor
 * ends the program with status 99.
 */
#include <stdint.h>

extern char __stack[];
void _start(void);
void fault(void);

void fault(void)
{
    static const uint32_t why[2] = {0x20026, 99}; /* ADP_Stopped_ApplicationExit */
    register uint32_t call __asm__("r0") = 0x20;  /* SYS_EXIT_EXTENDED */
    register const uint32_t *with __asm__("r1") = why;

    __asm__ volatile("bkpt 0xab" : : "r"(call), "r"(with) : "memory");
    for (;;)
        ;
}

__attribute__((section(".vectors"), used)) static void (*const vectors[16])(void) = {
    (void (*)(void))__stack, _start, fault, fault, fault, fault, fault, 0, 0, 0, 0, fault, fault, 0, fault, fault,
};
