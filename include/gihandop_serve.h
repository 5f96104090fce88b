/*
 * SPDX-License-Identifier: Apache-2.0 OR MIT
 * Copyright 2026 The Gihandop authors
 *
 * A loop over the functions of gihandop.h: it serves clients, and has the program save what they change
 * before it answers them. Compile c/serve.c with the program:
 *
 *     cc program.c c/serve.c c/heap.c crates/gihandop_c/out/libgihandop_c.a
 *
 * c/serve.c is a program in C over the library. No proof covers it, tests do: tests/c/serve.c and, with
 * examples/c/lockd.c, tests/test_c_lockd.py. The library keeps its promises also if this loop has a fault.
 *
 *     struct gh_server server = GH_SERVER_INIT;
 *     server.host = &host;              opened by gh_open
 *     server.heard = heard;
 *     server.save = save;
 *     server.send = send_some;
 *     gh_serve(&server, now, GH_EMPTY, 0, &used);
 *     for (;;) {
 *         wait for bytes, but not beyond gh_deadline;
 *         gh_serve(&server, now, octets, length, &used);
 *     }
 */
#ifndef GIHANDOP_SERVE_H
#define GIHANDOP_SERVE_H

#include "gihandop.h"

#ifdef __cplusplus
extern "C" {
#endif

/* The most connections of a host. */
#define GH_MOST_CONNECTIONS 8

/* How many bytes the calls that are asked for take at most: 16 each, and those of its value. */
#define GH_LATER_ROOM 4096

/* The state of a server, which is only that of c/serve.c. */
struct gh_serving {
    /* gh_serve is called, and has not returned. */
    bool is_serving;
    /* The last call has changed a value. */
    bool is_changed;
    /* The number of connections that gh_withhold has named. */
    uint8_t withheld_count;
    /* These connections. */
    uint16_t withheld[GH_MOST_CONNECTIONS];
    /* The status of the first call that was refused. */
    uint32_t refused;
    /* The length of the packet that is sent now. */
    size_t packet_length;
    /* The number of its octets that send has accepted. */
    size_t packet_sent;
    /* This packet. */
    uint8_t packet[GH_LONGEST_PACKET];
    /* The length of the calls that are asked for. */
    size_t later_length;
    /* These calls. */
    uint8_t later[GH_LATER_ROOM];
};

/*
 * A host that is served, and the functions of the program for it. Begin with GH_SERVER_INIT, and set the
 * fields from host to send. Do not copy it while it serves.
 *
 * The functions may read the host, and may ask for calls: gh_later_update, gh_later_authorize,
 * gh_later_disconnect and gh_withhold. They call no function that changes the host, and not gh_serve.
 */
struct gh_server {
    /* The size of this structure, in octets: GH_SERVER_INIT sets it. */
    size_t size;
    /* The host, which is open. */
    struct gh_host *host;
    /* Anything of the program, or NULL. */
    void *own;
    /* Accepts a notice. gh_serve calls it with each one, in their order, before it sends a packet that has the same
       cause. May be NULL. */
    void (*heard)(struct gh_server *server, const struct gh_notice *notice);
    /* Saves what gh_values_text and gh_rows_text return, and returns true once the disk has it. gh_serve calls it
       after the notices of a packet or of a call, and after a call that changes a value, before it sends a packet.
       If it returns false, gh_withhold applies to each client that has just changed something. May be NULL. */
    bool (*save)(struct gh_server *server);
    /* Sends octets to the controller, which are a packet, or the rest of one. Returns how many the line has accepted:
       0, or fewer than length, if it is full. */
    size_t (*send)(struct gh_server *server, const uint8_t *octets, size_t length);
    /* The time that gh_serve passed to the host last, in milliseconds. Only gh_serve sets it. */
    uint64_t time;
    /* Its state. */
    struct gh_serving serving;
};
#define GH_SERVER_INIT \
    { sizeof(struct gh_server), NULL, NULL, NULL, NULL, NULL, 0, \
      { false, false, 0, {0}, 0, 0, 0, {0}, 0, {0} } }

/*
 * Passes a time, in milliseconds from any moment on, and then bytes of the controller, which may begin and
 * end anywhere; length may be 0. For the time, for each packet that ends in the bytes, and for each call that
 * was asked for, it does this, in this order:
 *
 * 1. It has the host accept it.
 * 2. It calls heard with each notice, and then save.
 * 3. It sends the packets that it causes.
 * 4. It makes the calls that were asked for, in their order, and does 2 to 4 for each of them.
 *
 * First it does 2 to 4 for what an earlier call has left. Call it once after gh_open, and then whenever bytes
 * have come, at the time of gh_deadline, and after the program has asked for a call. If the program calls
 * gh_update or gh_replace itself, it also saves by itself, and then calls gh_serve.
 *
 * Sets *used to the number of bytes that are accepted. Returns:
 *
 * - GH_DONE if all bytes are accepted and all packets are sent.
 * - GH_OUTPUT_OWED if send has not accepted a packet. Call gh_serve again, with the rest of the bytes, when the
 *   line accepts more: until then the host accepts nothing. From inside heard, save or send it always returns
 *   this, and does nothing.
 * - GH_STOPPED, or a status from GH_DESYNC to GH_HARDWARE, if the host has stopped.
 * - GH_TIME_WENT_BACK if the time is earlier than before. No bytes are accepted.
 * - A status from GH_NO_SUCH_HANDLE to GH_NO_SUCH_CONNECTION if the host refused a call that was asked for: that
 *   of the first one. All bytes are accepted and all packets are sent, so the host serves on.
 * - GH_CLOSED if no host is open, and GH_BAD_SIZE if a structure is smaller than that of the library.
 */
uint32_t gh_serve(struct gh_server *server, uint64_t time, const uint8_t *octets, size_t length, size_t *used);

/*
 * Asks for gh_update, which gh_serve calls once the packets before it are sent. It copies the value. If that
 * is another one than before, gh_serve calls save before it notifies clients.
 *
 * Returns GH_BAD_LENGTH if the value is longer than GH_LONGEST_VALUE, and GH_SHORT_BUFFER if too much is asked
 * for already (GH_LATER_ROOM): ask again after gh_serve. Ask only if a notice is a reason to: gh_serve does not
 * return while each call causes the next one.
 */
uint32_t gh_later_update(struct gh_server *server, uint16_t handle, const uint8_t *value, size_t length);

/*
 * Asks for gh_authorize. If the host ends the connection by then, nothing happens. Returns GH_SHORT_BUFFER as
 * gh_later_update does.
 */
uint32_t gh_later_authorize(struct gh_server *server, uint16_t connection, uint64_t until);

/*
 * Asks for gh_disconnect. If the host ends the connection by then, nothing happens. Returns GH_SHORT_BUFFER as
 * gh_later_update does.
 */
uint32_t gh_later_disconnect(struct gh_server *server, uint16_t connection);

/*
 * Has gh_serve drop the data packets for a connection that are not sent yet, and then disconnect it: its client
 * does not learn that its change was accepted, if it cannot be saved. The host serves the others, and retains
 * the change: they may read it, and are notified of it.
 *
 * Returns GH_NO_SUCH_CONNECTION if there is no such connection. It needs no room of GH_LATER_ROOM.
 */
uint32_t gh_withhold(struct gh_server *server, uint16_t connection);

#ifdef __cplusplus
}
#endif

#endif
