/*
 * SPDX-License-Identifier: Apache-2.0 OR MIT
 * Copyright 2026 The Gihandop authors
 *
 * Gihandop: the host half of a Bluetooth Low Energy peripheral, an ATT and GATT server over the octets of
 * a controller (H4: Core 5.0, Vol 4 Part A). A static library, which this header declares:
 *
 *     cc program.c c/heap.c crates/gihandop_c/out/libgihandop_c.a
 *
 * A program opens a struct gh_host. Then, again and again, it passes the time, passes bytes of the
 * controller or makes a call, and fetches notices and output:
 *
 *     struct gh_host host = GH_HOST_INIT;
 *     gh_open(&host, ...);
 *     finish();
 *     for (;;) {
 *         wait for bytes or a call, but not beyond gh_deadline;
 *         gh_tick(&host, now);
 *         finish();
 *         gh_take, gh_update, gh_authorize, gh_disconnect or gh_replace;
 *         finish();
 *     }
 *
 * After each call finish() does this:
 *
 *     while (gh_next_notice(&host, &notice) == GH_DONE)
 *         see what a client did;
 *     while (gh_next_out(&host, out, sizeof out, &count) == GH_DONE)
 *         send count bytes of out;
 *
 * gihandop_serve.h has this loop as a function, which c/serve.c defines.
 *
 * The program fetches output, one packet a call. So the library has no buffer that can overflow, and a
 * slow controller stops this loop and not the program. While output is pending, the host accepts nothing:
 * GH_OUTPUT_OWED.
 *
 * The promises of each function are proved for all bytes, texts, numbers and orders of calls, except the
 * words of gh_text and gh_explain. The program has to ensure what a compiler of C cannot check:
 *
 * - Each pointer leads to as many bytes as the length after it says, and is not NULL, also if that is 0.
 * - What a function writes does not overlap anything else that is passed to it.
 * - A struct gh_host begins as GH_HOST_INIT, and only these functions change it.
 * - One call at a time for each host, and none from a signal handler.
 * - 16 KiB of stack suffice for texts that nest no deeper than an accepted file, and 20 KiB for a library of
 *   tools/mcu that is made by -Oz or not proved. A refused text can nest deeper: the most seen is 1.5 MiB
 *   for gh_open and 3 MiB for gh_explain. If a text comes from somebody else, call them with a stack of 8 MiB.
 *
 * For a text without bytes, such as rows at the first start, pass GH_EMPTY and 0.
 */
#ifndef GIHANDOP_H
#define GIHANDOP_H

#include <stdbool.h>
#include <stddef.h>
#include <stdint.h>

#ifdef __cplusplus
extern "C" {
#endif

/* A host, or none. Its memory is from the heap of c/heap.c. */
struct gh_host {
    void *at;
};
#define GH_HOST_INIT { NULL }

/* The version of this header, 0.2.0: the major number times 1,000,000, the minor one times 1,000, and
   the patch. */
#define GH_VERSION 2000

/* The version of this header as text. */
#define GH_VERSION_TEXT "0.2.0"

/* The longest packet of gh_next_out, in octets. */
#define GH_LONGEST_PACKET 260

/* A pointer to no octets that is not NULL. */
#define GH_EMPTY ((const uint8_t *)"")

/*
 * The configuration of a host. Begin with GH_CONFIG_INIT: 4 connections, 247 octets, the public address,
 * and the flags of general discovery without BR/EDR. Change any field after size.
 */
struct gh_config {
    /* The size of this structure, in octets: GH_CONFIG_INIT sets it. */
    size_t size;
    /* The largest number of connections at once: 1 to 8. */
    size_t slots;
    /* The largest PDU of the Attribute Protocol that is received, in octets: 23 to 517. */
    uint16_t rx_mtu;
    /* 0 for the public address of the controller, and any other number for address. */
    uint8_t is_random;
    /* A static random address as octets on the wire, the least significant first, whose two most
       significant bits are set (Core 5.0, Vol 6 Part B, 1.3.2.1). */
    uint8_t address[6];
    /* How many octets of advertising data there are: 0 to 31. */
    uint8_t advertising_length;
    /* Advertising data: Core 5.0, Vol 3 Part C, 11. */
    uint8_t advertising[31];
};
#define GH_CONFIG_INIT { sizeof(struct gh_config), 4, 247, 0, {0}, 3, {0x02, 0x01, 0x06} }

/* The status that a function returns. */
enum {
    GH_DONE = 0,
    /* There is nothing to return. */
    GH_NOTHING = 1,
    /* No host is open. */
    GH_CLOSED = 2,
    /* A host is open already. */
    GH_ALREADY_OPEN = 3,
    /* Output is pending, and has to be fetched first: gh_next_out. */
    GH_OUTPUT_OWED = 4,
    /* The buffer is too short. */
    GH_SHORT_BUFFER = 5,
    /* Memory was refused. */
    GH_OUT_OF_MEMORY = 6,
    /* The configuration is out of its limits, or its size is smaller than that of the library. */
    GH_BAD_CONFIG = 7,
    /* The size of a structure is smaller than that of the library. */
    GH_BAD_SIZE = 8,

    /* The host has stopped for good, and accepts nothing any more: */
    GH_STOPPED = 20,
    /* an octet begins no packet; */
    GH_DESYNC = 21,
    /* an event is too short for its fields, or has another length than it states; */
    GH_BAD_EVENT = 22,
    /* the controller could not be initialised; */
    GH_BAD_INIT = 23,
    /* the controller reports an error of its own. */
    GH_HARDWARE = 24,

    /* The host refuses a call, and changes nothing, except that there are no notices any more: */
    GH_REFUSED = 40,
    /* there is no attribute with the handle; */
    GH_NO_SUCH_HANDLE = 41,
    /* it is no characteristic value; */
    GH_NOT_A_VALUE = 42,
    /* the value is longer than its largest length, or a fixed one has another length; */
    GH_BAD_LENGTH = 43,
    /* no connection with the handle serves; */
    GH_NO_SUCH_CONNECTION = 44,
    /* the time is earlier than the current time; */
    GH_TIME_WENT_BACK = 45,
    /* the host has stopped: gh_take says why; */
    GH_HAS_STOPPED = 46,
    /* a table has no value that tells of changes, or they have it at different handles. */
    GH_NO_SERVICE_CHANGED = 47,

    /* The table file is refused: this and the number of its first fault (docs/TABLE.md). */
    GH_BAD_TABLE = 100,
    /* it is not TOML; */
    GH_TABLE_NOT_TOML = 101,
    /* a key that has to be there is not; */
    GH_TABLE_MISSING = 102,
    /* this is no UUID, or it is not allowed there; */
    GH_TABLE_BAD_UUID = 103,
    /* a value is not an even number of hexadecimal digits; */
    GH_TABLE_BAD_HEX = 104,
    /* a value of more than 512 octets, or a max out of its range; */
    GH_TABLE_TOO_LONG = 105,
    /* a need with a key_size out of its range, or with another key; */
    GH_TABLE_BAD_SECURITY = 106,
    /* a property that is unknown or not allowed there, or a config with nothing to configure; */
    GH_TABLE_BAD_PROPERTY = 107,
    /* more attributes, configurations or octets than a table may have; */
    GH_TABLE_TOO_MANY = 108,
    /* an include of a service that is not before it; */
    GH_TABLE_BAD_INCLUDE = 109,
    /* memory was refused; */
    GH_TABLE_OUT_OF_MEMORY = 110,
    /* a key that is unknown, or of another TOML type than its own. */
    GH_TABLE_SHAPE = 111,

    /* The key file is refused: this and the number of its first fault (docs/KEYS-FILE.md). */
    GH_BAD_KEYS = 200,
    /* it is not TOML; */
    GH_KEYS_NOT_TOML = 201,
    /* a key that has to be there is not; */
    GH_KEYS_MISSING = 202,
    /* an address or a kind is none; */
    GH_KEYS_BAD_ADDRESS = 203,
    /* a rand or an ltk is not that many hexadecimal digits; */
    GH_KEYS_BAD_HEX = 204,
    /* a size is out of its range; */
    GH_KEYS_BAD_SIZE = 205,
    /* an earlier entry has the same peer, rand and ediv; */
    GH_KEYS_TWICE = 206,
    /* more than 64 entries; */
    GH_KEYS_TOO_MANY = 207,
    /* memory was refused; */
    GH_KEYS_OUT_OF_MEMORY = 208,
    /* a key that is unknown, or of another TOML type than its own; */
    GH_KEYS_SHAPE = 209,
    /* a secure key with another rand or ediv than 0. */
    GH_KEYS_NOT_ZERO = 210,

    /* The rows file is refused: this and the number of its first fault (docs/SUBSCRIPTIONS.md). */
    GH_BAD_ROWS = 300,
    /* a line says nothing that a rows file may say; */
    GH_ROWS_BAD_LINE = 301,
    /* a line says what an earlier one has said; */
    GH_ROWS_TWICE = 302,
    /* more of them than a rows file may have; */
    GH_ROWS_TOO_MANY = 303,
    /* memory was refused. */
    GH_ROWS_OUT_OF_MEMORY = 304,

    /* The values text is refused: */
    GH_BAD_VALUES = 400,
    /* a line is not a handle, a type, and octets in hexadecimal or "-". */
    GH_VALUES_BAD_LINE = 401
};

/*
 * Opens a host with the texts of a table file, a key file, rows and values (docs/CLI.md). Keys, rows
 * and values may be empty. Rows are what gh_rows_text returned for an earlier host, and values what
 * gh_values_text returned: they are restored before anything is served. Rows of peers without a key, and
 * entries that the table does not support, are dropped.
 *
 * The host copies what it needs: once gh_open has returned, the texts and *config may change or be freed.
 * The same holds for the octets that each other function gets.
 *
 * Sets *left_out to the number of values that do not fit the table: their attribute is gone, or has
 * another type or another length. Such a value stays as in the table file.
 *
 * Returns the status of the first fault in the order of the arguments; gh_explain has its place. If the
 * status is not GH_DONE, *host is unchanged, also with GH_ALREADY_OPEN, and *left_out is 0.
 */
uint32_t gh_open(struct gh_host *host, const uint8_t *table, size_t table_length,
                 const uint8_t *keys, size_t keys_length, const uint8_t *rows, size_t rows_length,
                 const uint8_t *values, size_t values_length, const struct gh_config *config,
                 size_t *left_out);

/*
 * Writes the first fault of these texts and its place to out, and the length to *count: a line without a
 * line feed or a zero at its end, such as "table: service 2, uuid: the key is missing". The words are
 * those of `gatt_shell show`. The texts are those of gh_open, in its order; after gh_replace pass the
 * table, and GH_EMPTY and 0 for the others.
 *
 * Returns GH_NOTHING, with *count 0, if gh_open accepts all texts, and GH_SHORT_BUFFER if *count is more
 * than room. It needs memory until it returns, and up to 100 times as long as gh_open.
 */
uint32_t gh_explain(const uint8_t *table, size_t table_length, const uint8_t *keys, size_t keys_length,
                    const uint8_t *rows, size_t rows_length, const uint8_t *values,
                    size_t values_length, uint8_t *out, size_t room, size_t *count);

/* Closes a host and frees its memory. Returns GH_CLOSED if none is open. */
uint32_t gh_close(struct gh_host *host);

/*
 * Accepts bytes of the controller, which may begin and end anywhere: up to the end of the next packet, or
 * all of them if no packet ends in them. Sets *used to their number, at least 1 if there is one and the
 * status is GH_DONE. Pass the rest to the next call, after you have fetched the output.
 *
 * If the host stops, or had stopped, *used is the whole length, and the status says why. With every other
 * status it is 0.
 */
uint32_t gh_take(struct gh_host *host, const uint8_t *octets, size_t length, size_t *used);

/*
 * Writes the next packet for the controller to out and its length to *count, and counts it as sent. out
 * needs at least GH_LONGEST_PACKET octets.
 *
 * Returns GH_NOTHING, with *count 0, if no output is pending or the host has stopped. Returns
 * GH_SHORT_BUFFER if there is less room: then nothing changes, and *count is GH_LONGEST_PACKET.
 */
uint32_t gh_next_out(struct gh_host *host, uint8_t *out, size_t room, size_t *count);

/*
 * Sets the characteristic value at a handle, for the application. Clients that have subscribed to it are
 * notified. Returns GH_NO_SUCH_HANDLE, GH_NOT_A_VALUE or GH_BAD_LENGTH if the host refuses it.
 */
uint32_t gh_update(struct gh_host *host, uint16_t handle, const uint8_t *value, size_t length);

/*
 * Authorizes the connection with an HCI handle while the time is below a moment, in milliseconds; 0 ends
 * the authorization. PDUs that were queued before are still sent. Returns GH_NO_SUCH_CONNECTION if the host refuses it.
 */
uint32_t gh_authorize(struct gh_host *host, uint16_t connection, uint64_t until);

/*
 * Disconnects the connection with an HCI handle, with the reason Remote User Terminated Connection (13
 * hexadecimal). Nothing more is sent to it. Returns GH_NO_SUCH_CONNECTION if the host refuses it.
 */
uint32_t gh_disconnect(struct gh_host *host, uint16_t connection);

/*
 * Passes the time, in milliseconds from any moment on. Call it before each gh_take and each gh_authorize,
 * and at the time of gh_deadline: an authorization ends only when the host gets a time at its end or
 * later. Returns GH_TIME_WENT_BACK if the time is earlier than before.
 */
uint32_t gh_tick(struct gh_host *host, uint64_t time);

/*
 * Replaces the table by that of another table file. Clients get Service Changed, and their subscriptions
 * stay if they fit. Returns a status above GH_BAD_TABLE if the file is refused, and GH_NO_SERVICE_CHANGED
 * if the host refuses the table.
 */
uint32_t gh_replace(struct gh_host *host, const uint8_t *table, size_t length);

/* The longest value, in octets. */
#define GH_LONGEST_VALUE 512

/*
 * Writes the value at a handle to out and its length to *count. A client characteristic configuration has
 * no octets. Returns GH_NOTHING if there is no attribute with the handle, and GH_SHORT_BUFFER if *count
 * is more than room.
 */
uint32_t gh_value(struct gh_host *host, uint16_t handle, uint8_t *out, size_t room, size_t *count);

/*
 * Sets *handle to the handle of the value of a characteristic of a type, in services of a type: of all
 * such values, in the order of their handles, the one with this number, from 1. Types are UUIDs as
 * octets, the least significant first: 2 octets for a type of 16 bits, else 16. Returns GH_NOTHING, with
 * *handle 0, if there are fewer values, if the number is 0, or if a length is neither 2 nor 16.
 */
uint32_t gh_find(struct gh_host *host, const uint8_t *service, size_t service_length,
                 const uint8_t *characteristic, size_t characteristic_length, uint16_t number,
                 uint16_t *handle);

/*
 * Writes the subscriptions of peers to out and their length to *count: a rows file, for the next gh_open.
 * Returns GH_SHORT_BUFFER if *count is more than room. It needs memory until it returns.
 */
uint32_t gh_rows_text(struct gh_host *host, uint8_t *out, size_t room, size_t *count);

/*
 * Writes the values that differ from those of the table file to out and their length to *count: a values
 * text, for the next gh_open. If all is 0, only the values that a client may write, else all
 * characteristic values and descriptors. Returns GH_SHORT_BUFFER if *count is more than room. It needs
 * memory until it returns.
 */
uint32_t gh_values_text(struct gh_host *host, uint8_t all, uint8_t *out, size_t room, size_t *count);

/*
 * Sets *time to the earliest time, in milliseconds, at which an unconfirmed indication is late or the
 * authorization of a connection ends. No gh_tick is needed before that time: it would cause no packet of
 * its own and no notice, and each request would be answered as without it. Returns GH_NOTHING, with
 * *time 0, if every indication is confirmed and no connection is authorized.
 */
uint32_t gh_deadline(struct gh_host *host, uint64_t *time);

/* A connection. Begin with GH_CONNECTION_INIT. */
struct gh_connection {
    /* The size of this structure, in octets: GH_CONNECTION_INIT sets it, and no function changes it. */
    size_t size;
    /* Its handle in HCI. */
    uint16_t handle;
    /* The ATT_MTU, in octets. */
    uint16_t mtu;
    /* The type of the peer's address: 0 public, 1 random. */
    uint8_t address_kind;
    /* The octets of the peer's address as on the wire. */
    uint8_t address[6];
    /* The size of the key of its link, in octets, or 0 without a key. */
    uint8_t key_size;
    /* True if the key was exchanged with protection against a man in the middle. */
    bool authenticated;
    /* True if the key was made by LE Secure Connections. */
    bool secure;
    /* The host is ending it: it is not served any more, and has not ended yet. */
    bool ending;
    /* It is authorized while the time is below this, in milliseconds. */
    uint64_t authorized_until;
    /* Its number among the connections of the host: 1 for the first that was accepted, and one more for
       each later one. Unlike a handle, no number is used again. */
    uint64_t ordinal;
    /* The time of the last tick before its last ACL data packet, in milliseconds; at first that at which it was
       accepted. With it you can disconnect silent clients. */
    uint64_t heard;
    /* The place of its slot, from 0. */
    uint8_t slot;
};
#define GH_CONNECTION_INIT \
    { sizeof(struct gh_connection), 0, 0, 0, {0}, 0, false, false, false, 0, 0, 0, 0 }

/*
 * Writes the connection at a place to *connection. Places count from 0, in the order of the slots, and
 * each connection has one. Returns GH_NOTHING from there on, and GH_BAD_SIZE if connection->size is
 * smaller than the library's. If the status is not GH_DONE, *connection is unchanged. In C++ write
 * `struct gh_connection`, because this function has the same name.
 */
uint32_t gh_connection(struct gh_host *host, size_t place, struct gh_connection *connection);

/* The kind of a notice of a connection, with the fields that it has. */
enum {
    /* It was accepted: address_kind, address. */
    GH_CONNECTED = 1,
    /* It has ended. */
    GH_DISCONNECTED = 2,
    /* Its link has a key with these facts, and had none, or one with others: key_size, authenticated,
       secure. */
    GH_SECURED = 3,
    /* Its link has no key any more. */
    GH_UNSECURED = 4,
    /* It wrote a value, which gh_value returns, also if it is the same as before: attribute. */
    GH_WRITTEN = 5,
    /* It wrote a client characteristic configuration, which has these bits now: attribute, bits. */
    GH_CONFIGURED = 6,
    /* It confirmed an indication of a value: attribute. */
    GH_CONFIRMED = 7,
    /* It did not confirm an indication in time, and is sent nothing unasked any more. */
    GH_TIMED_OUT = 8,
    /* The host ends it, for a reason of Core 5.0, Vol 2 Part D, 2: reason. */
    GH_ENDING = 9,
    /* A notification is not sent to it, because 8 PDUs or more are queued for it: attribute. A notification of
       a later value of the attribute may be sent. */
    GH_SKIPPED = 10
};

/* A notice. Begin with GH_NOTICE_INIT. Fields that its kind does not have are 0. */
struct gh_notice {
    /* The size of this structure, in octets: GH_NOTICE_INIT sets it, and no function changes it. */
    size_t size;
    /* GH_CONNECTED, or another kind above. */
    uint8_t kind;
    /* The configuration: 1 for notifications, 2 for indications, 3 for both. */
    uint8_t bits;
    /* The reason of the host, as in Core 5.0, Vol 2 Part D, 2. */
    uint8_t reason;
    /* The size of the key, in octets. */
    uint8_t key_size;
    /* True if the key was exchanged with protection against a man in the middle. */
    bool authenticated;
    /* True if the key was made by LE Secure Connections. */
    bool secure;
    /* The type of the peer's address: 0 public, 1 random. */
    uint8_t address_kind;
    /* The octets of the peer's address as on the wire. */
    uint8_t address[6];
    /* The HCI handle of the connection. */
    uint16_t connection;
    /* The handle of the attribute. */
    uint16_t attribute;
};
#define GH_NOTICE_INIT { sizeof(struct gh_notice), 0, 0, 0, 0, false, false, 0, {0}, 0, 0 }

/*
 * Writes the next notice of the last gh_take or call to *notice. Fetch all notices before the host
 * accepts anything else: then they are gone. Returns GH_NOTHING after the last one, and GH_BAD_SIZE if
 * notice->size is smaller than the library's. If the status is not GH_DONE, *notice is unchanged.
 */
uint32_t gh_next_notice(struct gh_host *host, struct gh_notice *notice);

/*
 * Writes the words of a status to out, a line of ASCII without a zero at its end, and the length to
 * *count. Returns GH_NOTHING, with *count 0, for a number that is no status.
 */
uint32_t gh_text(uint32_t status, uint8_t *out, size_t room, size_t *count);

/*
 * Returns the version of the library, in the form of GH_VERSION. Before 1.0, compile again if the two
 * differ.
 */
uint32_t gh_version(void);

/* Only a library that is compiled without proofs has this. gh_version_text asks for it. */
extern const char gh_not_proved[] __attribute__((weak));

/*
 * Returns the version of this header as text, GH_VERSION_TEXT. If the library is compiled without proofs,
 * `(not proved)` follows. It is a function of C, which is not proved.
 */
static inline const char *gh_version_text(void)
{
    return gh_not_proved != NULL ? GH_VERSION_TEXT " (not proved)" : GH_VERSION_TEXT;
}

#ifdef __cplusplus
}
#endif

#endif
