/*
 * SPDX-License-Identifier: Apache-2.0 OR MIT
 * Copyright 2026 The Gihandop authors
 *
 * The registers of a Cortex-M4 or a Cortex-M33 that the firmware uses, and its stack. The sections named here are
 * those of the Armv7-M Architecture Reference Manual (DDI 0403E). Armv8-M (DDI 0553) has the same registers at the
 * same places, except those of the memory protection unit.
 */
#ifndef PROCESSOR_H
#define PROCESSOR_H

#include <stdbool.h>
#include <stddef.h>
#include <stdint.h>

#define REGISTER(address) (*(volatile uint32_t *)(address))

/* SysTick, B3.3.2: control, reload value and current value. */
#define SYST_CSR REGISTER(0xE000E010u)
#define SYST_RVR REGISTER(0xE000E014u)
#define SYST_CVR REGISTER(0xE000E018u)
enum { SYST_ENABLE = 1, SYST_INTERRUPT = 1 << 1, SYST_PROCESSOR_CLOCK = 1 << 2 };

/* The interrupt controller, B3.4.3: a one enables, disables or sets pending, and a zero changes nothing. */
#define NVIC_ISER(number) REGISTER(0xE000E100u + (number) / 32u * 4u)
#define NVIC_ICER(number) REGISTER(0xE000E180u + (number) / 32u * 4u)
#define NVIC_ISPR(number) REGISTER(0xE000E200u + (number) / 32u * 4u)

static inline void interrupt_enable(unsigned number)
{
    NVIC_ISER(number) = 1u << number % 32;
}

/* Returns when the interrupt does not come any more. */
static inline void interrupt_disable(unsigned number)
{
    NVIC_ICER(number) = 1u << number % 32;
    __asm__ volatile("dsb\n\tisb" : : : "memory");
}

/* Has an interrupt come that no device has caused. */
static inline void interrupt_pend(unsigned number)
{
    NVIC_ISPR(number) = 1u << number % 32;
}

/* Which faults have handlers of their own, and what has happened: B3.2.13 and B3.2.15 to B3.2.18. */
#define SHCSR REGISTER(0xE000ED24u)
#define CFSR REGISTER(0xE000ED28u)
#define MMFAR REGISTER(0xE000ED34u)
enum { SHCSR_MEMORY = 1 << 16, SHCSR_BUS = 1 << 17, SHCSR_USAGE = 1 << 18 };
enum {
    CFSR_MEMORY_STACKING = 1 << 4,      /* MSTKERR: no access to the stack at the entry of a handler */
    CFSR_MEMORY_ADDRESS = 1 << 7,       /* MMARVALID: MMFAR has the address */
    CFSR_UNKNOWN_INSTRUCTION = 1 << 16, /* UNDEFINSTR */
    CFSR_STACK_LIMIT = 1 << 20          /* STKOF, only of Armv8-M: the stack pointer has passed its limit */
};

/* The memory protection unit of Armv7-M, B3.5.4 to B3.5.9. */
#define MPU_TYPE REGISTER(0xE000ED90u)
#define MPU_CTRL REGISTER(0xE000ED94u)
#define MPU_RNR REGISTER(0xE000ED98u)
#define MPU_RBAR REGISTER(0xE000ED9Cu)
#define MPU_RASR REGISTER(0xE000EDA0u)
enum { MPU_REGIONS = 0xFF << 8, MPU_ENABLE = 1, MPU_DEFAULT_MAP = 1 << 2 };
/* A region of 2 to the power of (size + 1) bytes that nobody may write or execute: AP 110, XN, normal memory. */
#define MPU_READ_ONLY(size) (1u << 28 | 6u << 24 | 1u << 17 | (uint32_t)(size) << 1 | 1u)

/* Disables interrupts, B5.2.1. A pending one still ends `wfi`. */
static inline void disable_interrupts(void)
{
    __asm__ volatile("cpsid i" : : : "memory");
}

static inline void enable_interrupts(void)
{
    __asm__ volatile("cpsie i\n\tisb" : : : "memory");
}

static inline void wait_for_interrupt(void)
{
    __asm__ volatile("dsb\n\twfi" : : : "memory");
}

/* Tells whether the processor can guard the stack: a Cortex-M4 need not have a memory protection unit. */
bool stack_is_guarded(void);

/* Returns the most bytes of the stack that the main program has used since the start, or since stack_paint. */
size_t stack_most(void);

/* Returns the bytes of the stack of the main program. */
size_t stack_size(void);

/* Counts from what is used now on. */
void stack_paint(void);

#endif
