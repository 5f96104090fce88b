/*
 * SPDX-License-Identifier: Apache-2.0 OR MIT
 * Copyright 2026 The Gihandop authors
 *
 * The functions of board.h on the boards MPS2 as QEMU emulates them: mps2-an386, a Cortex-M4, and mps2-an505, a
 * Cortex-M33. The header of a board has its addresses and numbers. Neither was tried as a real board.
 *
 * | Part | On these boards | Source |
 * |---|---|---|
 * | line to the controller, H4 | UART0 | CMSDK APB UART: Cortex-M System Design Kit (DDI 0479), 4.3 |
 * | console | UART1 | the same |
 * | time | SysTick, by the clock of the processor | processor.h |
 * | bolt | LED 0, which is on if the bolt is open | the Application Note of the board |
 * | flash | emulated_flash.c over 16 MiB of RAM, which QEMU keeps in a file | the same |
 *
 * This UART has no lines RTS and CTS. In their place: while the driver does not read an octet, the emulator
 * passes no other one, and while the other side accepts nothing, the UART stays full. On a board with these lines
 * let the UART drive them, or have hold() and release() drive the pin RTS.
 */
#include "board.h"
#include "emulated_flash.h"
#include "processor.h"
#include "ring.h"

/* The header of the board: the Makefile names it. */
#include MPS2_BOARD

struct uart {
    volatile uint32_t data;
    volatile uint32_t state;
    volatile uint32_t control;
    volatile uint32_t interrupts; /* those that are pending; a one that is written clears it */
    volatile uint32_t divider;    /* clock cycles of a bit: at least 16 */
};

#define LINE ((struct uart *)LINE_ADDRESS)
#define CONSOLE ((struct uart *)CONSOLE_ADDRESS)
#define LEDS REGISTER(LEDS_ADDRESS)

enum { STATE_SENDER_FULL = 1, STATE_RECEIVED = 1 << 1 };
enum { CONTROL_SEND = 1, CONTROL_RECEIVE = 1 << 1, CONTROL_SENT = 1 << 2, CONTROL_RECEIVED = 1 << 3 };
enum { PENDING_SENT = 1, PENDING_RECEIVED = 1 << 1 };
enum { LINE_BAUD = 1000000, CONSOLE_BAUD = 115200, BOLT_LED = 1 };

static struct ring received, sending;
/* Milliseconds, modulo 2^32. */
static _Atomic uint32_t ticks;

void tick(void);
static void line_received(void);
static void line_sent(void);

/* The entries of the vector table behind those of start.c. No other interrupt is enabled. */
__attribute__((section(".vectors.board"), used)) static void (*const interrupts[64])(void) = {
    [LINE_RECEIVED] = line_received,
    [LINE_SENT] = line_sent,
};

void tick(void)
{
    atomic_store_explicit(&ticks, atomic_load_explicit(&ticks, memory_order_relaxed) + 1, memory_order_relaxed);
}

/* Has the controller send nothing more: the lines RTS and CTS of a board that has them. */
static void hold(void)
{
    interrupt_disable(LINE_RECEIVED);
}

/* Has it go on. The interrupt is still pending if an octet waits. */
static void release(void)
{
    interrupt_enable(LINE_RECEIVED);
}

/*
 * Puts what has come into the ring. If the ring is full, the octet stays where it is, and the interrupt stays pending
 * for release(). A board whose sender stops late holds it earlier.
 */
static void line_received(void)
{
    while ((LINE->state & STATE_RECEIVED) != 0) {
        if (ring_count(&received) == RING_SIZE) {
            hold();
            return;
        }
        /* The next octet that comes after this one is read sets it again. */
        LINE->interrupts = PENDING_RECEIVED;
        ring_put(&received, (uint8_t)LINE->data);
    }
}

/* Sends what is in the ring. It comes when the sender is empty, and when board_send has filled the ring. */
static void line_sent(void)
{
    uint8_t octet;

    LINE->interrupts = PENDING_SENT;
    while ((LINE->state & STATE_SENDER_FULL) == 0 && ring_take(&sending, &octet))
        LINE->data = octet;
}

void board_start(void)
{
    board_turn_bolt(false);
    CONSOLE->divider = CLOCK / CONSOLE_BAUD;
    CONSOLE->control = CONTROL_SEND | CONTROL_RECEIVE;
    LINE->divider = CLOCK / LINE_BAUD;
    LINE->control = CONTROL_SEND | CONTROL_RECEIVE | CONTROL_SENT | CONTROL_RECEIVED;
    SYST_RVR = CLOCK / 1000 - 1;
    SYST_CVR = 0;
    SYST_CSR = SYST_PROCESSOR_CLOCK | SYST_INTERRUPT | SYST_ENABLE;
    interrupt_enable(LINE_RECEIVED);
    interrupt_enable(LINE_SENT);
}

uint64_t board_time(void)
{
    static uint64_t time;

    time += (uint32_t)(atomic_load_explicit(&ticks, memory_order_relaxed) - (uint32_t)time);
    return time;
}

size_t board_receive(uint8_t *into, size_t most)
{
    size_t count = 0;

    while (count < most && ring_take(&received, into + count))
        count++;
    if (ring_count(&received) <= RING_SIZE / 2)
        release();
    return count;
}

size_t board_send(const uint8_t *octets, size_t length)
{
    size_t count = 0;

    while (count < length && ring_put(&sending, octets[count]))
        count++;
    interrupt_pend(LINE_SENT);
    return count;
}

void board_reset_controller(void)
{
    uint8_t dropped;

    /* Interrupts take from one ring, and put into the other one. */
    disable_interrupts();
    while (ring_take(&sending, &dropped) || ring_take(&received, &dropped))
        ;
    enable_interrupts();
    release();
}

void board_sleep(void)
{
    /* What becomes pending from here on ends the sleep. */
    disable_interrupts();
    if (ring_count(&received) == 0)
        wait_for_interrupt();
    enable_interrupts();
}

void board_turn_bolt(bool is_open)
{
    LEDS = is_open ? BOLT_LED : 0;
}

void board_say(const char *text)
{
    for (; *text != '\0'; text++) {
        while ((CONSOLE->state & STATE_SENDER_FULL) != 0)
            ;
        CONSOLE->data = (uint8_t)*text;
    }
}

bool board_is_asked(void)
{
    if ((CONSOLE->state & STATE_RECEIVED) == 0)
        return false;
    (void)CONSOLE->data;
    return true;
}

void board_stop(const char *why)
{
    disable_interrupts();
    board_turn_bolt(false);
    board_say("stopped: ");
    board_say(why);
    board_say("\n");
    for (;;)
        wait_for_interrupt();
}

void emulated_flash_cut(void)
{
    board_stop("the power is cut");
}

void emulated_flash_broken(const char *rule)
{
    board_stop(rule);
}
