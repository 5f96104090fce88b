/*
 * SPDX-License-Identifier: Apache-2.0 OR MIT
 * Copyright 2026 The Gihandop authors
 *
 * The firmware of a door lock without an operating system. It serves the table of examples/door.toml by gh_serve,
 * and turns a bolt: a client opens it when it writes 01 to the lock's state.
 *
 * What a client changes is saved in flash first; then the bolt turns, and then the client is answered. So after the
 * power has failed at any moment, the next start has every value and subscription that was acknowledged. If a change
 * cannot be saved, gh_serve disconnects its client without an answer, and the lock tries again each second.
 *
 * If the host stops, or the controller does not respond to a command, the lock resets the controller and opens the
 * host again with what is saved. So the controller may start later than the lock.
 */
#include "board.h"
#include "gihandop_pool.h"
#include "gihandop_serve.h"
#include "processor.h"
#include "store.h"

#include <string.h>

/* Bytes of memory for the host: gh_pool_count tells how many suffice. */
#ifndef POOL_SIZE
#define POOL_SIZE 65536
#endif

/* For how many milliseconds a controller may take to respond to a command. */
#ifndef PATIENCE
#define PATIENCE 3000
#endif

/* Milliseconds until a change that was not saved is saved again, and for how long a controller has to be silent
   before the host opens again. */
enum { RETRY = 1000, SILENCE = 100 };
/* The first octet of a packet that is a command: Core 5.0, Vol 4 Part A, 2. */
enum { COMMAND = 1 };
/* How a value of the lock's state says that the bolt is to be open. */
enum { OPEN = 1 };

/* Why the lock opens the host again. */
enum end { HOST_HAS_STOPPED, CONTROLLER_IS_SILENT };

/* The files of files.S. */
extern const uint8_t table_file[], table_file_end[], key_file[], key_file_end[];

static _Alignas(16) uint8_t memory[POOL_SIZE];
static struct gh_host host = GH_HOST_INIT;
static struct gh_server server;

/* The handle of the lock's state, or 0 if the table has none. */
static uint16_t state;
static enum { UNKNOWN, IS_SHUT, IS_OPEN } bolt;
/* A change is not saved. Since `tried` it was not tried again. */
static bool is_behind;
static uint64_t tried;
/* A command was sent at `asked`, and the controller has sent nothing since. */
static bool is_asking;
static uint64_t asked;
/* How many octets of the last packet the line has not accepted yet. */
static size_t unsent;
/* How many octets the host has accepted from the controller, and the line from the host. */
static uint32_t accepted, sent;

/* Writes a number in decimal digits to the console. */
static void say_number(uint32_t number)
{
    char text[11], *at = text + sizeof text - 1;

    *at = '\0';
    do
        *--at = (char)('0' + number % 10);
    while ((number /= 10) != 0);
    board_say(at);
}

/* Writes a text, a number and a text to the console. */
static void say(const char *before, size_t number, const char *after)
{
    board_say(before);
    say_number((uint32_t)number);
    board_say(after);
}

/* Writes the counts to the console, as a line. */
static void report(void)
{
    const struct gh_pool_counts pool = gh_pool_count();

    say("accepted ", accepted, "");
    say(", sent ", sent, "");
    say(", saved ", store_count(), "");
    say(", stack ", stack_most(), "");
    say(" of ", stack_size(), "");
    say(", pool ", pool.taken, "");
    say(" (most ", pool.reached, "");
    say(") of ", pool.size, "\n");
}

/* Turns the bolt, unless it is there already. */
static void turn_bolt(bool is_open)
{
    if (bolt == (is_open ? IS_OPEN : IS_SHUT))
        return;
    board_turn_bolt(is_open);
    bolt = is_open ? IS_OPEN : IS_SHUT;
    board_say(is_open ? "bolt: open\n" : "bolt: shut\n");
}

/* Turns the bolt as the lock's state says. */
static void obey_state(void)
{
    uint8_t value[GH_LONGEST_VALUE];
    size_t length;

    turn_bolt(state != 0 && gh_value(&host, state, value, sizeof value, &length) == GH_DONE && length == 1
              && value[0] == OPEN);
}

/* Saves what clients have changed, and then turns the bolt. Returns true if the flash has it. */
static bool save(struct gh_server *by)
{
    static uint8_t texts[STORE_MOST];
    size_t values_length, rows_length;
    bool is_saved;

    (void)by;
    is_saved = gh_values_text(&host, 0, texts, sizeof texts, &values_length) == GH_DONE
        && gh_rows_text(&host, texts + values_length, sizeof texts - values_length, &rows_length) == GH_DONE
        && store_save((struct store_texts){texts, values_length, texts + values_length, rows_length});
    if (!is_saved && !is_behind)
        board_say("a change cannot be saved\n");
    is_behind = !is_saved;
    if (is_saved)
        obey_state();
    return is_saved;
}

static size_t send_some(struct gh_server *by, const uint8_t *octets, size_t length)
{
    const bool is_whole = unsent == 0;
    const size_t count = board_send(octets, length);

    (void)by;
    unsent = length - count;
    sent += (uint32_t)count;
    if (is_whole && octets[0] == COMMAND && !is_asking) {
        is_asking = true;
        asked = board_time();
    }
    return count;
}

/* Opens the host with what is saved. If that fails, the firmware has a fault of its own, and stops. */
static void open_host(void)
{
    static const uint8_t lock[] = {0xF0, 0xFF}, lock_state[] = {0xF1, 0xFF};
    const struct gh_config config = GH_CONFIG_INIT;
    const struct store_texts saved = store_texts();
    size_t left_out;
    const uint32_t status =
        gh_open(&host, table_file, (size_t)(table_file_end - table_file), key_file, (size_t)(key_file_end - key_file),
                saved.rows, saved.rows_length, saved.values, saved.values_length, &config, &left_out);

    if (status != GH_DONE) {
        say("gh_open returns the status ", status, "\n");
        board_stop("the host cannot be opened");
    }
    if (left_out != 0)
        say("", left_out, " saved values do not fit the table\n");
    if (gh_find(&host, lock, sizeof lock, lock_state, sizeof lock_state, 1, &state) != GH_DONE)
        board_say("the table has no state of the lock, so the bolt stays shut\n");
    server = (struct gh_server)GH_SERVER_INIT;
    server.host = &host;
    server.save = save;
    server.send = send_some;
    unsent = 0;
    is_asking = is_behind = false;
    obey_state();
}

/* Serves clients, until the host has to be opened again. */
static enum end serve(void)
{
    static uint8_t octets[256];
    size_t length = 0;

    for (;;) {
        const size_t count = board_receive(octets + length, sizeof octets - length);
        size_t used;

        if (count != 0)
            is_asking = false;
        length += count;
        const uint32_t status = gh_serve(&server, board_time(), octets, length, &used);
        accepted += (uint32_t)used;
        length -= used;
        memmove(octets, octets + used, length);
        if (status != GH_DONE && status != GH_OUTPUT_OWED) {
            say("the host stops with the status ", status, "\n");
            return HOST_HAS_STOPPED;
        }
        if (is_asking && board_time() - asked >= (uint64_t)PATIENCE)
            return CONTROLLER_IS_SILENT;
        if (is_behind && board_time() - tried >= RETRY) {
            tried = board_time();
            save(&server);
        }
        if (status == GH_DONE && board_is_asked())
            report();
        board_sleep();
    }
}

/* Drops what comes, until the controller is silent: then an octet that comes begins a packet. */
static void wait_for_silence(void)
{
    uint8_t octets[32];
    uint64_t last = board_time();

    while (board_time() - last < SILENCE) {
        if (board_receive(octets, sizeof octets) != 0)
            last = board_time();
        board_sleep();
    }
}

int main(void)
{
    board_start();
    if (!stack_is_guarded())
        board_stop("this processor has no memory protection unit to guard the stack");
    store_begin();
    gh_pool_begin(memory, sizeof memory);
    board_say("gihandop " GH_VERSION_TEXT);
    board_say(gh_not_proved != NULL ? " (not proved)\n" : "\n");
    open_host();
    report();
    for (;;) {
        stack_paint();
        const enum end end = serve();
        gh_close(&host);
        board_reset_controller();
        if (end == HOST_HAS_STOPPED)
            wait_for_silence();
        open_host();
    }
}
