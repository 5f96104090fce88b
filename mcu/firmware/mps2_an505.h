/*
 * SPDX-License-Identifier: Apache-2.0 OR MIT
 * Copyright 2026 The Gihandop authors
 *
 * The board MPS2 with the image AN505, a Cortex-M33, for mps2.c: Application Note AN505 (DAI 0505), 3 and 4. The
 * firmware runs in the secure state, so these are the secure addresses.
 */
#ifndef MPS2_H
#define MPS2_H

/* UART0 and UART1. */
#define LINE_ADDRESS 0x50200000u
#define CONSOLE_ADDRESS 0x50201000u
/* The register of the LEDs, in the FPGA system control. */
#define LEDS_ADDRESS 0x50302000u
/* The interrupts of UART0. */
#define LINE_RECEIVED 32
#define LINE_SENT 33
/* In Hz, of the processor and of the UARTs. */
#define CLOCK 20000000u

#endif
