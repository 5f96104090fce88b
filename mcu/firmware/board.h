/*
 * SPDX-License-Identifier: Apache-2.0 OR MIT
 * Copyright 2026 The Gihandop authors
 *
 * What lock.c needs of a board, besides flash.h. Write these functions for a board of your own;
 * mps2.c has them for the emulated ones. Only the main program calls them, and no interrupt does.
 */
#ifndef BOARD_H
#define BOARD_H

#include <stdbool.h>
#include <stddef.h>
#include <stdint.h>

/* Starts the clock, the line to the controller and the console. The bolt is shut afterwards. */
void board_start(void);

/* Returns the milliseconds since board_start. Call it at least once in 49 days. */
uint64_t board_time(void);

/*
 * Moves what the controller has sent to `into`, at most `most` octets. Returns how many. Octets wait in a
 * ring, into which the interrupt of the line puts them. While it is nearly full, the controller is held.
 */
size_t board_receive(uint8_t *into, size_t most);

/* Has octets sent to the controller. Returns how many the line accepts now: 0, or fewer than length, if it is full. */
size_t board_send(const uint8_t *octets, size_t length);

/* Resets the controller, by its pin if it has one, and drops the octets that wait in both directions. */
void board_reset_controller(void);

/* Sleeps until an interrupt: the controller has sent something, the line accepts more, or the time has changed. */
void board_sleep(void);

/* Opens or shuts the bolt. */
void board_turn_bolt(bool is_open);

/* Writes a text to the console, and waits until it has accepted all of it. */
void board_say(const char *text);

/* Tells whether somebody has typed on the console since the last call. */
bool board_is_asked(void);

/*
 * Stops for good: shuts the bolt, and says why on the console. start.c calls it for a fault of the processor,
 * on the stack of the handlers and without interrupts. A product has a watchdog start it again.
 */
_Noreturn void board_stop(const char *why);

#endif
