/*
 * SPDX-License-Identifier: Apache-2.0 OR MIT
 * Copyright 2026 The Gihandop authors
 *
 * The board MPS2 with the image AN386, a Cortex-M4, for mps2.c: Application Note AN386 (DAI 0386), 3 and 4.
 */
#ifndef MPS2_H
#define MPS2_H

/* UART0 and UART1. */
#define LINE_ADDRESS 0x40004000u
#define CONSOLE_ADDRESS 0x40005000u
/* The register of the LEDs, in the FPGA system control. */
#define LEDS_ADDRESS 0x40028000u
/* The interrupts of UART0. */
#define LINE_RECEIVED 0
#define LINE_SENT 1
/* In Hz, of the processor and of the UARTs. */
#define CLOCK 25000000u

#endif
