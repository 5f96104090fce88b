/*
 * SPDX-License-Identifier: Apache-2.0 OR MIT
 * Copyright 2026 The Gihandop authors
 *
 * The start of a Cortex-M4 (Armv7-M) or a Cortex-M33 (Armv8-M), the guard of the stack, and the faults of the processor.
 *
 * There are two stacks. Handlers use the main stack (MSP), and the main program uses the process stack (PSP), which
 * is the lowest part of the RAM. If the main program needs more of it than there is, the handler of the fault runs on
 * its own stack, says so and stops:
 *
 * - Cortex-M4: the memory protection unit makes the 64 KiB before the RAM read-only, so the next store is a fault. No
 *   function has so many locals that its store passes over them.
 * - Cortex-M33: the processor compares each new stack pointer with a limit, PSPLIM.
 */
#include "board.h"
#include "processor.h"

enum {
    GUARD_BITS = 16,
    /* What a word of the stack has that nobody has used. */
    PAINT = 0x5AA55AA5,
    /* CONTROL.SPSEL: the main program uses the process stack (B1.4.4). */
    USE_PROCESS_STACK = 2
};

/* Places of the linker script. */
extern uint32_t ram_start[], stack_low[], stack_high[], handler_stack_high[];
extern uint32_t data_start[], data_end[], data_from[], bss_start[], bss_end[];

_Noreturn void reset(void);
_Noreturn void fault(void);
void tick(void);
int main(void);

/* The first entries of the vector table: B1.5.2 and B1.5.3. Those of the board's interrupts follow. */
__attribute__((section(".vectors"), used)) static const struct {
    const uint32_t *main_stack;
    void (*handlers[15])(void);
} vectors = {
    handler_stack_high,
    {
        reset,
        fault, /* NMI */
        fault, /* HardFault */
        fault, /* MemManage */
        fault, /* BusFault */
        fault, /* UsageFault */
        NULL,
        NULL,
        NULL,
        NULL,
        fault, /* SVCall */
        fault, /* DebugMonitor */
        NULL,
        fault, /* PendSV */
        tick,  /* SysTick */
    },
};

#if __ARM_ARCH >= 8
/* Sets the limits of both stacks. */
static void guard_stack(void)
{
    __asm__ volatile("msr psplim, %0\n\tmsr msplim, %1" : : "r"(stack_low), "r"(stack_high));
}

bool stack_is_guarded(void)
{
    return true;
}

/* Tells whether the main program has passed the limit of its stack. */
static bool is_stack_full(uint32_t faults)
{
    return (faults & CFSR_STACK_LIMIT) != 0;
}
#else
/* Makes 64 KiB before the RAM read-only for the main program and for handlers. */
static void guard_stack(void)
{
    MPU_RNR = 0;
    MPU_RBAR = (uint32_t)(uintptr_t)ram_start - (1u << GUARD_BITS);
    MPU_RASR = MPU_READ_ONLY(GUARD_BITS - 1);
    MPU_CTRL = MPU_DEFAULT_MAP | MPU_ENABLE;
    __asm__ volatile("dsb\n\tisb" : : : "memory");
}

bool stack_is_guarded(void)
{
    return (MPU_TYPE & MPU_REGIONS) != 0;
}

/* Tells whether the main program has reached the guard. */
static bool is_stack_full(uint32_t faults)
{
    const uint32_t end = (uint32_t)(uintptr_t)ram_start, address = MMFAR;

    return (faults & CFSR_MEMORY_STACKING) != 0
        || ((faults & CFSR_MEMORY_ADDRESS) != 0 && address < end && address >= end - (1u << GUARD_BITS));
}
#endif

static void paint_up_to(const uint32_t *end)
{
    for (volatile uint32_t *at = stack_low; at < end; at++)
        *at = PAINT;
}

/* Runs on the main stack, and calls main on the process stack. */
void reset(void)
{
    const uint32_t *from = data_from;

    for (volatile uint32_t *to = data_start; to < data_end; to++)
        *to = *from++;
    for (volatile uint32_t *to = bss_start; to < bss_end; to++)
        *to = 0;
    paint_up_to(stack_high);
    SHCSR |= SHCSR_MEMORY | SHCSR_BUS | SHCSR_USAGE;
    if (stack_is_guarded())
        guard_stack();
    __asm__ volatile("msr psp, %0\n\t"
                     "msr control, %1\n\t"
                     "isb\n\t"
                     "bl main"
                     :
                     : "r"(stack_high), "r"(USE_PROCESS_STACK)
                     : "r0", "r1", "r2", "r3", "r12", "lr", "cc", "memory");
    board_stop("the main program has ended");
}

void stack_paint(void)
{
    /* Some words below this frame are in use, or may be. */
    paint_up_to((const uint32_t *)__builtin_frame_address(0) - 32);
}

size_t stack_most(void)
{
    const volatile uint32_t *at = stack_low;

    while (at < stack_high && *at == PAINT)
        at++;
    return stack_size() - (size_t)(at - stack_low) * sizeof *at;
}

size_t stack_size(void)
{
    return (size_t)((const char *)stack_high - (const char *)stack_low);
}

/* Any fault, and any exception that is not expected. It runs on the stack of the handlers, whatever has happened. */
void fault(void)
{
    static char other[] = "a fault of the processor: CFSR ........";
    const uint32_t faults = CFSR;

    disable_interrupts();
    if (is_stack_full(faults))
        board_stop("the stack is full");
    if ((faults & CFSR_UNKNOWN_INSTRUCTION) != 0)
        board_stop("a trap: an unproved library has found a fault of its own, or this is no instruction");
    for (int digit = 0; digit < 8; digit++)
        other[sizeof other - 2 - (size_t)digit] = "0123456789abcdef"[faults >> 4 * digit & 15];
    board_stop(other);
}
