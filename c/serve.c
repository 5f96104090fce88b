/*
 * SPDX-License-Identifier: Apache-2.0 OR MIT
 * Copyright 2026 The Gihandop authors
 *
 * The loop of gihandop_serve.h, over the functions of gihandop.h. It takes no memory.
 */
#include "gihandop_serve.h"

#include <string.h>

/* The kinds of calls that are asked for. */
enum { UPDATE, AUTHORIZE, DISCONNECT };

/* A call that is asked for. Its value follows it in `later`. */
struct call {
    uint64_t until;
    uint16_t kind;
    uint16_t handle;
    uint16_t length;
};

static bool is_there(struct gh_host *host, uint16_t connection)
{
    struct gh_connection seen = GH_CONNECTION_INIT;
    for (size_t place = 0; gh_connection(host, place, &seen) == GH_DONE; place++)
        if (seen.handle == connection)
            return true;
    return false;
}

/* Adds a connection to some, unless it is one of them. A host has no more than these. */
static size_t add(uint16_t connections[GH_MOST_CONNECTIONS], size_t count, uint16_t connection)
{
    for (size_t at = 0; at < count; at++)
        if (connections[at] == connection)
            return count;
    if (count == GH_MOST_CONNECTIONS)
        return count;
    connections[count] = connection;
    return count + 1;
}

uint32_t gh_withhold(struct gh_server *server, uint16_t connection)
{
    struct gh_serving *serving = &server->serving;
    if (!is_there(server->host, connection))
        return GH_NO_SUCH_CONNECTION;
    serving->withheld_count = (uint8_t)add(serving->withheld, serving->withheld_count, connection);
    return GH_DONE;
}

/* Adds a call to those that are asked for. */
static uint32_t ask(struct gh_server *server, struct call call, const uint8_t *value)
{
    struct gh_serving *serving = &server->serving;
    uint8_t *at = serving->later + serving->later_length;
    if (sizeof serving->later - serving->later_length < sizeof call + call.length)
        return GH_SHORT_BUFFER;
    memcpy(at, &call, sizeof call);
    memcpy(at + sizeof call, value, call.length);
    serving->later_length += sizeof call + call.length;
    return GH_DONE;
}

uint32_t gh_later_update(struct gh_server *server, uint16_t handle, const uint8_t *value, size_t length)
{
    if (length > GH_LONGEST_VALUE)
        return GH_BAD_LENGTH;
    return ask(server, (struct call){.kind = UPDATE, .handle = handle, .length = (uint16_t)length}, value);
}

uint32_t gh_later_authorize(struct gh_server *server, uint16_t connection, uint64_t until)
{
    return ask(server, (struct call){.kind = AUTHORIZE, .handle = connection, .until = until}, GH_EMPTY);
}

uint32_t gh_later_disconnect(struct gh_server *server, uint16_t connection)
{
    return ask(server, (struct call){.kind = DISCONNECT, .handle = connection}, GH_EMPTY);
}

static bool is_change(const struct gh_notice *notice)
{
    return notice->kind == GH_WRITTEN || notice->kind == GH_CONFIGURED || notice->kind == GH_CONFIRMED;
}

/* Passes the notices to the program, and has it save what has changed. */
static uint32_t hear(struct gh_server *server)
{
    struct gh_notice notice = GH_NOTICE_INIT;
    uint16_t changed[GH_MOST_CONNECTIONS];
    size_t count = 0;
    bool is_any = server->serving.is_changed;
    uint32_t status;
    server->serving.is_changed = false;
    while ((status = gh_next_notice(server->host, &notice)) == GH_DONE) {
        is_any = true;
        if (is_change(&notice))
            count = add(changed, count, notice.connection);
        if (server->heard != NULL)
            server->heard(server, &notice);
    }
    if (is_any && server->save != NULL && !server->save(server))
        while (count > 0)
            gh_withhold(server, changed[--count]);
    return status == GH_NOTHING ? GH_DONE : status;
}

/* Tells whether a packet is data of a connection that is withheld: Core 5.0, Vol 2 Part E, 5.4.2. */
static bool is_dropped(const struct gh_serving *serving, const uint8_t *packet)
{
    const uint16_t connection = (uint16_t)(packet[1] | (packet[2] & 0x0F) << 8);
    for (size_t at = 0; at < serving->withheld_count; at++)
        if (packet[0] == 0x02 && serving->withheld[at] == connection)
            return true;
    return false;
}

/* Sends what is pending, and returns whether the line has accepted all of it. */
static bool send_pending(struct gh_server *server)
{
    struct gh_serving *serving = &server->serving;
    for (;;) {
        while (serving->packet_sent < serving->packet_length) {
            const size_t left = serving->packet_length - serving->packet_sent;
            const size_t sent = server->send(server, serving->packet + serving->packet_sent, left);
            if (sent == 0)
                return false;
            serving->packet_sent += sent < left ? sent : left;
        }
        serving->packet_sent = serving->packet_length = 0;
        size_t count;
        if (gh_next_out(server->host, serving->packet, sizeof serving->packet, &count) != GH_DONE)
            return true;
        serving->packet_length = is_dropped(serving, serving->packet) ? 0 : count;
    }
}

/* Calls gh_update, and notes whether the value is another one now. */
static uint32_t update(struct gh_server *server, uint16_t handle, const uint8_t *value, size_t length)
{
    uint8_t before[GH_LONGEST_VALUE];
    size_t count = 0;
    bool is_same = gh_value(server->host, handle, before, sizeof before, &count) == GH_DONE
        && count == length && memcmp(before, value, length) == 0;
    uint32_t status = gh_update(server->host, handle, value, length);
    server->serving.is_changed = status == GH_DONE && !is_same;
    return status;
}

static uint32_t make(struct gh_server *server, const struct call *call, const uint8_t *value)
{
    if (call->kind == UPDATE)
        return update(server, call->handle, value, call->length);
    uint32_t status = call->kind == AUTHORIZE ? gh_authorize(server->host, call->handle, call->until)
                                              : gh_disconnect(server->host, call->handle);
    /* The host ends it already. */
    return status == GH_NO_SUCH_CONNECTION && is_there(server->host, call->handle) ? GH_DONE : status;
}

/* Makes the next call, if there is one: first those that end the connections that are withheld. */
static bool make_next(struct gh_server *server)
{
    struct gh_serving *serving = &server->serving;
    struct call call = {.kind = DISCONNECT};
    uint8_t value[GH_LONGEST_VALUE];
    if (serving->withheld_count > 0) {
        call.handle = serving->withheld[--serving->withheld_count];
    } else if (serving->later_length > 0) {
        memcpy(&call, serving->later, sizeof call);
        memcpy(value, serving->later + sizeof call, call.length);
        serving->later_length -= sizeof call + call.length;
        memmove(serving->later, serving->later + sizeof call + call.length, serving->later_length);
    } else {
        return false;
    }
    uint32_t status = make(server, &call, value);
    if (serving->refused == GH_DONE)
        serving->refused = status;
    return true;
}

/* Does what the last call has left, and what is asked for. */
static uint32_t finish(struct gh_server *server)
{
    do {
        uint32_t status = hear(server);
        if (status != GH_DONE)
            return status;
        if (!send_pending(server))
            return GH_OUTPUT_OWED;
    } while (make_next(server));
    return GH_DONE;
}

static uint32_t tick(struct gh_server *server, uint64_t time)
{
    if (time == server->time)
        return GH_DONE;
    uint32_t status = gh_tick(server->host, time);
    if (status != GH_DONE)
        /* gh_take says why it has stopped. */
        return status == GH_HAS_STOPPED ? GH_DONE : status;
    server->time = time;
    return finish(server);
}

static uint32_t take(struct gh_server *server, const uint8_t *octets, size_t length, size_t *used)
{
    do {
        size_t part;
        uint32_t status = gh_take(server->host, octets + *used, length - *used, &part);
        *used += part;
        if (status != GH_DONE || (status = finish(server)) != GH_DONE)
            return status;
    } while (*used < length);
    return GH_DONE;
}

uint32_t gh_serve(struct gh_server *server, uint64_t time, const uint8_t *octets, size_t length, size_t *used)
{
    *used = 0;
    if (server->size < sizeof *server)
        return GH_BAD_SIZE;
    if (server->serving.is_serving)
        return GH_OUTPUT_OWED;
    server->serving.is_serving = true;
    uint32_t status = finish(server);
    if (status == GH_DONE)
        status = tick(server, time);
    if (status == GH_DONE)
        status = take(server, octets, length, used);
    if (status == GH_DONE) {
        status = server->serving.refused;
        server->serving.refused = GH_DONE;
    }
    server->serving.is_serving = false;
    return status;
}
