/*
 * Serves clients by gh_serve, and compares what it hears, saves and sends, in order, with what it has to.
 *
 *     serve TABLE KEYS BELL PORCH NEXT      examples/door.toml, keys.toml, bell.toml, porch.toml, porch_next.toml
 */
#include "controller.h"
#include "gihandop_serve.h"

#include <stdarg.h>
#include <stdio.h>
#include <stdlib.h>
#include <string.h>

enum { BATTERY = 6, STATE = 10, CODE = 13, NOTE = 21 };

static struct file table, keys, bell, porch, next;
static struct gh_host host;
static struct gh_server server;

/* What has happened, in the order in which it did: `heard 5 64 10`, with the kind, the connection and the attribute;
   `save`; `64 13`, with the connection and the PDU; `command 0406`. Each ends with a semicolon. */
static char happened[16384];

/* What the functions do besides: whether saves succeed, the notice that is a reason, and what it is a reason to. */
static bool can_save;
static uint8_t reason;
static void (*then)(const struct gh_notice *notice);

/* How much the line accepts in one call, and until it is full; and a connection that is withheld while data of it are
   sent, or 0. */
static size_t most, room;
static uint16_t suspect;

static void note(const char *form, ...)
{
    va_list words;
    const size_t at = strlen(happened);
    va_start(words, form);
    vsnprintf(happened + at, sizeof happened - at, form, words);
    va_end(words);
}

#define CHECK_HAPPENED(text) check_happened(text, __FILE__, __LINE__)
static void check_happened(const char *text, const char *file, int line)
{
    check(strcmp(happened, text) == 0, happened, file, line);
    happened[0] = '\0';
}

static void heard(struct gh_server *by, const struct gh_notice *notice)
{
    CHECK(by == &server && by->own == &table);
    note("heard %u %u %u;", notice->kind, notice->connection, notice->attribute);
    if (then != NULL && notice->kind == reason)
        then(notice);
}

static bool save(struct gh_server *by)
{
    CHECK(by == &server);
    note("save;");
    return can_save;
}

/* Adds octets to the packet that the line has of them, and notes it when it is whole. */
static size_t send_some(struct gh_server *by, const uint8_t *octets, size_t length)
{
    static uint8_t packet[GH_LONGEST_PACKET];
    static size_t count;
    size_t accepted = length < most ? length : most;
    CHECK(by == &server && length > 0 && length + count <= sizeof packet);
    accepted = accepted < room ? accepted : room;
    room -= accepted;
    memcpy(packet + count, octets, accepted);
    count += accepted;
    if (accepted < length)
        return accepted;
    if (suspect != 0)
        CHECK(gh_withhold(by, suspect) == GH_DONE);
    const size_t start = packet[0] == 0x02 ? 9 : 1;
    if (packet[0] == 0x02)
        note("%u ", packet[1]);
    else
        note("command ");
    for (size_t at = start; at < (packet[0] == 0x02 ? count : 3); at++)
        note("%02x", packet[at]);
    note(";");
    count = 0;
    return accepted;
}

/* Opens a host with so many slots, with a controller that is initialised, and a server. The controller has 8 buffers:
   with 4 slots a connection has two packets at most that are not completed. */
static void begin(const struct file *with, size_t slots)
{
    host = (struct gh_host)GH_HOST_INIT;
    CHECK(open_host(&host, with, &keys, NULL, slots) == GH_DONE);
    server = (struct gh_server)GH_SERVER_INIT;
    server.host = &host;
    server.own = &table;
    server.heard = heard;
    server.save = save;
    server.send = send_some;
    can_save = true;
    reason = 0;
    then = NULL;
    most = room = SIZE_MAX;
    suspect = 0;
    happened[0] = '\0';
}

static void end(void)
{
    CHECK(gh_close(&host) == GH_DONE);
}

/* Opens the door, with a tablet that has its key and has subscribed to the state. */
static void begin_door(void)
{
    begin(&table, 4);
    connect_phone(&host, 64);
    encrypt(&host, 64);
    say(&host, 64, (const uint8_t *)"\x12\x0B\x00\x01\x00", 5, NULL);
}

/* The bytes of a controller. */
struct bytes {
    uint8_t octets[2048];
    size_t length;
};

static void add(struct bytes *bytes, const void *octets, size_t length)
{
    memcpy(bytes->octets + bytes->length, octets, length);
    bytes->length += length;
}

/* Adds a packet of data with a PDU. */
static void add_pdu(struct bytes *bytes, uint16_t connection, const void *pdu, size_t length)
{
    const uint8_t front[] = {0x02, (uint8_t)connection, 0x20, (uint8_t)(length + 4), 0, (uint8_t)length, 0, 4, 0};
    add(bytes, front, sizeof front);
    add(bytes, pdu, length);
}

static void add_write(struct bytes *bytes, uint16_t connection, uint8_t handle, uint8_t value)
{
    const uint8_t pdu[] = {0x12, handle, 0, value};
    add_pdu(bytes, connection, pdu, sizeof pdu);
}

static void add_read(struct bytes *bytes, uint16_t connection, uint8_t handle)
{
    const uint8_t pdu[] = {0x0A, handle, 0};
    add_pdu(bytes, connection, pdu, sizeof pdu);
}

/* Adds that a connection has ended, and that a client has connected. */
static void add_gone(struct bytes *bytes, uint16_t connection)
{
    const uint8_t gone[] = {0x04, 0x05, 4, 0, (uint8_t)connection, 0, 0x16};
    add(bytes, gone, sizeof gone);
}

static void add_connected(struct bytes *bytes, uint16_t connection)
{
    const uint8_t complete[] = {
        0x04, 0x3E, 19, 0x01, 0, (uint8_t)connection, 0, 1, 0,
        0x55, 0x44, 0x33, 0x22, 0x11, 0x00, 24, 0, 0, 0, 200, 0, 0,
    };
    add(bytes, complete, sizeof complete);
}

/* Adds that the controller has sent so many packets of a connection. */
static void add_completed(struct bytes *bytes, uint16_t connection, uint8_t count)
{
    const uint8_t completed[] = {0x04, 0x13, 5, 1, (uint8_t)connection, 0, count, 0};
    add(bytes, completed, sizeof completed);
}

/* Serves bytes, all of which have to be accepted, at the current time. */
static uint32_t serve(const struct bytes *bytes)
{
    size_t used = SIZE_MAX;
    uint32_t status = gh_serve(&server, server.time, bytes->octets, bytes->length, &used);
    CHECK(used == bytes->length);
    return status;
}

static uint32_t serve_nothing(uint64_t time)
{
    size_t used = SIZE_MAX;
    uint32_t status = gh_serve(&server, time, GH_EMPTY, 0, &used);
    CHECK(used == 0);
    return status;
}

/* What is heard is saved, and then answered. */
static void order(void)
{
    struct bytes bytes = {.length = 0};
    begin_door();
    add_write(&bytes, 64, STATE, 1);
    add_read(&bytes, 64, 3);
    CHECK(serve(&bytes) == GH_DONE);
    CHECK_HAPPENED("heard 5 64 10;save;64 13;64 0b4c6f636b;");
    end();
}

static void update_and_go(const struct gh_notice *notice)
{
    static uint8_t value[] = {7};
    CHECK(gh_later_update(&server, STATE, value, 1) == GH_DONE);
    /* The value is copied. */
    value[0] = 0;
    CHECK(gh_later_disconnect(&server, notice->connection) == GH_DONE);
    CHECK(gh_later_update(&server, BATTERY, (const uint8_t *)"2", 1) == GH_DONE);
    value[0] = 7;
}

/* Calls are made once the answer is sent, and each change of a value is saved before it is notified. */
static void calls(void)
{
    struct bytes bytes = {.length = 0};
    uint8_t value[GH_LONGEST_VALUE];
    size_t count;
    begin_door();
    reason = GH_WRITTEN, then = update_and_go;
    add_write(&bytes, 64, NOTE, 9);
    CHECK(serve(&bytes) == GH_DONE);
    CHECK_HAPPENED("heard 5 64 21;save;64 13;save;64 1b0a0007;heard 9 64 0;save;command 0604;save;");
    CHECK(gh_value(&host, BATTERY, value, sizeof value, &count) == GH_DONE && count == 1 && value[0] == '2');
    end();
}

static void authorize_a_minute(const struct gh_notice *notice)
{
    CHECK(gh_later_authorize(&server, notice->connection, server.time + 60000) == GH_DONE);
}

/* A client is authorized where one hears that it has its key, and until then. */
static void authorization(void)
{
    static const uint8_t request[] = {0x04, 0x3E, 13, 0x05, 64, 0, 2, 2, 2, 2, 2, 2, 2, 2, 0x02, 0x02};
    static const uint8_t changed[] = {0x04, 0x08, 4, 0, 64, 0, 1};
    struct bytes bytes = {.length = 0};
    uint64_t deadline;
    begin(&table, 4);
    connect_phone(&host, 64);
    reason = GH_SECURED, then = authorize_a_minute;
    CHECK(serve_nothing(5000) == GH_DONE && server.time == 5000);
    add(&bytes, request, sizeof request);
    CHECK(serve(&bytes) == GH_DONE);
    CHECK_HAPPENED("command 1a20;");
    bytes.length = 0;
    add(&bytes, (const uint8_t *)"\x04\x0E\x06\x01\x1A\x20\x00\x40\x00", 9);
    add(&bytes, changed, sizeof changed);
    add_read(&bytes, 64, CODE);
    CHECK(serve(&bytes) == GH_DONE);
    CHECK_HAPPENED("heard 3 64 0;save;64 0b31323334;");
    CHECK(gh_deadline(&host, &deadline) == GH_DONE && deadline == 65000);
    bytes.length = 0;
    add_read(&bytes, 64, CODE);
    add_completed(&bytes, 64, 1);
    CHECK(serve_nothing(64999) == GH_DONE && serve(&bytes) == GH_DONE);
    CHECK_HAPPENED("64 0b31323334;");
    CHECK(serve_nothing(65000) == GH_DONE && serve(&bytes) == GH_DONE);
    CHECK_HAPPENED("64 010a0d0008;");
    end();
}

/* A client whose change is not saved is not answered, and is disconnected. Others are served. */
static void no_disk(void)
{
    struct bytes bytes = {.length = 0};
    begin_door();
    connect_phone(&host, 65);
    can_save = false;
    add_write(&bytes, 64, STATE, 1);
    add_read(&bytes, 65, 3);
    CHECK(serve(&bytes) == GH_DONE);
    CHECK_HAPPENED("heard 5 64 10;save;heard 9 64 0;save;command 0604;65 0b4c6f636b;");
    /* The next connection with the same handle is served, also in the bytes of one call. */
    bytes.length = 0;
    add_gone(&bytes, 64);
    add_connected(&bytes, 64);
    add_write(&bytes, 64, NOTE, 7);
    add_gone(&bytes, 64);
    add_connected(&bytes, 64);
    add_read(&bytes, 64, 3);
    CHECK(serve(&bytes) == GH_DONE);
    CHECK(strstr(happened, "save;64 0b4c6f636b;") != NULL && strstr(happened, "64 13;") == NULL);
    end();
}

/* Configurations and confirmations are changes, too: the peer's rows are other ones. */
static void no_disk_for_rows(void)
{
    static const uint8_t quiet[] = {0x12, 11, 0, 0, 0}, confirmation[] = {0x1E};
    struct bytes bytes = {.length = 0};
    begin_door();
    can_save = false;
    add_pdu(&bytes, 64, quiet, sizeof quiet);
    CHECK(serve(&bytes) == GH_DONE);
    CHECK_HAPPENED("heard 6 64 11;save;heard 9 64 0;save;command 0604;");
    end();
    begin(&bell, 4);
    connect_phone(&host, 64);
    say(&host, 64, (const uint8_t *)"\x12\x04\x00\x02\x00", 5, NULL);
    CHECK(gh_later_update(&server, 3, (const uint8_t *)"\x01", 1) == GH_DONE && serve_nothing(0) == GH_DONE);
    CHECK_HAPPENED("save;64 1d030001;");
    can_save = false;
    bytes.length = 0;
    add_pdu(&bytes, 64, confirmation, sizeof confirmation);
    CHECK(serve(&bytes) == GH_DONE);
    CHECK_HAPPENED("heard 7 64 3;save;heard 9 64 0;save;command 0604;");
    end();
}

/* Others are notified of a change that is not answered, and who changed nothing stays. */
static void others(void)
{
    struct bytes bytes = {.length = 0};
    begin_door();
    connect_phone(&host, 65);
    encrypt(&host, 65);
    can_save = false;
    add_write(&bytes, 65, STATE, 1);
    CHECK(serve(&bytes) == GH_DONE);
    CHECK_HAPPENED("heard 5 65 10;save;64 1b0a0001;heard 9 65 0;save;command 0604;");
    /* What the program itself updates is no change of a client. */
    CHECK(gh_later_update(&server, STATE, (const uint8_t *)"\x00", 1) == GH_DONE);
    CHECK(serve_nothing(0) == GH_DONE);
    CHECK_HAPPENED("save;64 1b0a0000;");
    end();
}

static void withhold(const struct gh_notice *notice)
{
    CHECK(gh_withhold(&server, notice->connection) == GH_DONE);
    CHECK(gh_withhold(&server, notice->connection) == GH_DONE);
}

/* A program withholds what it likes, for whatever reason, and first of all that. */
static void withheld(void)
{
    struct bytes bytes = {.length = 0};
    begin_door();
    connect_phone(&host, 65);
    CHECK(gh_withhold(&server, 66) == GH_NO_SUCH_CONNECTION);
    reason = GH_WRITTEN, then = withhold;
    add_write(&bytes, 64, STATE, 1);
    add_read(&bytes, 65, 3);
    CHECK(serve(&bytes) == GH_DONE);
    CHECK_HAPPENED("heard 5 64 10;save;heard 9 64 0;save;command 0604;65 0b4c6f636b;");
    /* Once it is ending nothing is to do. */
    CHECK(gh_withhold(&server, 64) == GH_DONE && serve_nothing(0) == GH_DONE);
    CHECK_HAPPENED("");
    end();
}

/* All parts of a PDU are data of a connection, and no command is, whatever octets it has. */
static void dropped(void)
{
    static const uint8_t value[100] = {0x55};
    struct bytes bytes = {.length = 0};
    begin(&table, 4);
    connect_phone(&host, 0x0406);
    connect_phone(&host, 64);
    CHECK(gh_withhold(&server, 0x0406) == GH_DONE && gh_withhold(&server, 64) == GH_DONE);
    CHECK(serve_nothing(0) == GH_DONE);
    CHECK_HAPPENED("heard 9 64 0;save;command 0604;heard 9 1030 0;save;");
    end();
    begin(&table, 4);
    connect_phone(&host, 64);
    say(&host, 64, (const uint8_t *)"\x02\xF7\x00", 3, NULL);
    CHECK(gh_later_update(&server, NOTE, value, sizeof value) == GH_DONE && serve_nothing(0) == GH_DONE);
    CHECK_HAPPENED("save;");
    suspect = 64;
    add_read(&bytes, 64, NOTE);
    CHECK(serve(&bytes) == GH_DONE);
    CHECK_HAPPENED("64 0b55000000000000000000000000000000000000000000;heard 9 64 0;save;command 0604;");
    end();
}

/* As many connections as a host has are withheld at once. */
static void all_withheld(void)
{
    struct bytes bytes = {.length = 0};
    begin(&table, GH_MOST_CONNECTIONS);
    for (uint16_t connection = 64; connection < 64 + GH_MOST_CONNECTIONS; connection++) {
        connect_phone(&host, connection);
        CHECK(gh_withhold(&server, connection) == GH_DONE);
    }
    CHECK(gh_withhold(&server, 64) == GH_DONE);
    CHECK(serve_nothing(0) == GH_DONE);
    unsigned count = 0;
    for (const char *at = happened; (at = strstr(at, "heard 9 ")) != NULL; at++)
        count++;
    CHECK(count == GH_MOST_CONNECTIONS);
    add_read(&bytes, 64, 3);
    happened[0] = '\0';
    CHECK(serve(&bytes) == GH_DONE);
    CHECK_HAPPENED("");
    end();
}

static void ask_for_nonsense(const struct gh_notice *notice)
{
    (void)notice;
    CHECK(gh_later_update(&server, STATE, (const uint8_t *)"\x01\x02", 2) == GH_DONE);
    CHECK(gh_later_update(&server, 99, (const uint8_t *)"\x01", 1) == GH_DONE);
    CHECK(gh_later_disconnect(&server, 70) == GH_DONE);
    CHECK(gh_later_update(&server, STATE, (const uint8_t *)"\x01", 1) == GH_DONE);
}

/* The first refused call is returned at the end, once, and the host serves on. */
static void refused(void)
{
    struct bytes bytes = {.length = 0};
    begin_door();
    reason = GH_WRITTEN, then = ask_for_nonsense;
    add_write(&bytes, 64, NOTE, 7);
    add_completed(&bytes, 64, 2);
    add_read(&bytes, 64, 3);
    CHECK(serve(&bytes) == GH_BAD_LENGTH);
    CHECK_HAPPENED("heard 5 64 21;save;64 13;save;64 1b0a0001;64 0b4c6f636b;");
    CHECK(serve_nothing(0) == GH_DONE);
    CHECK(gh_later_authorize(&server, 70, 1) == GH_DONE);
    CHECK(gh_later_update(&server, 7, (const uint8_t *)"\x01", 1) == GH_DONE);
    CHECK(serve_nothing(0) == GH_NO_SUCH_CONNECTION);
    CHECK(gh_later_update(&server, 7, (const uint8_t *)"\x01", 1) == GH_DONE);
    CHECK(serve_nothing(0) == GH_NOT_A_VALUE);
    CHECK_HAPPENED("");
    end();
}

static void end_twice(const struct gh_notice *notice)
{
    CHECK(gh_later_disconnect(&server, notice->connection) == GH_DONE);
    CHECK(gh_later_authorize(&server, notice->connection, 9) == GH_DONE);
    CHECK(gh_later_disconnect(&server, notice->connection) == GH_DONE);
}

/* Of a connection that ends nothing is asked. */
static void ending(void)
{
    struct bytes bytes = {.length = 0};
    begin_door();
    reason = GH_WRITTEN, then = end_twice;
    add_write(&bytes, 64, NOTE, 7);
    CHECK(serve(&bytes) == GH_DONE);
    CHECK_HAPPENED("heard 5 64 21;save;64 13;heard 9 64 0;save;command 0604;");
    end();
}

/* As much is asked for as there is room, in any order, and each call is made once. */
static void much(void)
{
    uint8_t value[GH_LONGEST_VALUE + 1] = {0}, found[GH_LONGEST_VALUE];
    size_t count, asked = 0;
    begin_door();
    CHECK(gh_later_update(&server, NOTE, value, sizeof value) == GH_BAD_LENGTH);
    while (gh_later_update(&server, NOTE, value, GH_LONGEST_VALUE) == GH_DONE)
        value[GH_LONGEST_VALUE - 1] = (uint8_t)++asked;
    CHECK(asked == 7);
    while (gh_later_authorize(&server, 64, 1) == GH_DONE)
        asked++;
    CHECK(asked == 7 + (GH_LATER_ROOM - 7 * (16 + GH_LONGEST_VALUE)) / 16);
    CHECK(gh_later_authorize(&server, 64, 1) == GH_SHORT_BUFFER);
    CHECK(gh_later_disconnect(&server, 64) == GH_SHORT_BUFFER);
    CHECK(gh_later_update(&server, NOTE, value, 0) == GH_SHORT_BUFFER);
    /* What is not saved can be withheld all the same. */
    CHECK(gh_withhold(&server, 64) == GH_DONE);
    CHECK(serve_nothing(0) == GH_DONE);
    /* The first value is that of the table with more octets, and each of the others differs from the one before. */
    CHECK_HAPPENED("heard 9 64 0;save;command 0604;save;save;save;save;save;save;save;");
    CHECK(gh_value(&host, NOTE, found, sizeof found, &count) == GH_DONE && count == GH_LONGEST_VALUE);
    CHECK(found[GH_LONGEST_VALUE - 1] == 6);
    CHECK(serve_nothing(0) == GH_DONE);
    CHECK_HAPPENED("");
    end();
}

/* A value that is the same is notified, and not saved again. */
static void same_value(void)
{
    begin_door();
    CHECK(gh_later_update(&server, STATE, (const uint8_t *)"\x01", 1) == GH_DONE);
    CHECK(serve_nothing(0) == GH_DONE);
    CHECK_HAPPENED("save;64 1b0a0001;");
    CHECK(gh_later_update(&server, STATE, (const uint8_t *)"\x01", 1) == GH_DONE);
    CHECK(serve_nothing(0) == GH_DONE);
    CHECK_HAPPENED("64 1b0a0001;");
    /* What a direct call has left is heard and sent first. */
    CHECK(gh_disconnect(&host, 64) == GH_DONE);
    CHECK(serve_nothing(9) == GH_DONE);
    CHECK_HAPPENED("heard 9 64 0;save;command 0604;");
    end();
}

/* The notice of a deadline is heard, and the time does not go back. */
static void time_passes(void)
{
    struct bytes bytes = {.length = 0};
    uint64_t deadline;
    size_t used;
    begin(&bell, 4);
    connect_phone(&host, 64);
    say(&host, 64, (const uint8_t *)"\x12\x04\x00\x02\x00", 5, NULL);
    CHECK(gh_later_update(&server, 3, (const uint8_t *)"\x01", 1) == GH_DONE);
    CHECK(serve_nothing(1000) == GH_DONE);
    CHECK_HAPPENED("save;64 1d030001;");
    CHECK(gh_deadline(&host, &deadline) == GH_DONE);
    add_read(&bytes, 64, 3);
    CHECK(gh_serve(&server, 999, bytes.octets, bytes.length, &used) == GH_TIME_WENT_BACK && used == 0);
    CHECK_HAPPENED("");
    CHECK(gh_serve(&server, deadline, bytes.octets, bytes.length, &used) == GH_DONE && used == bytes.length);
    CHECK_HAPPENED("heard 8 64 0;save;64 0b01;");
    CHECK(server.time == deadline);
    end();
}

static void serve_again(const struct gh_notice *notice)
{
    size_t used = SIZE_MAX;
    (void)notice;
    CHECK(gh_serve(&server, 5, GH_EMPTY, 0, &used) == GH_OUTPUT_OWED && used == 0);
}

/* A server without functions, from inside, too small, or of a host that is none. */
static void edges(void)
{
    struct bytes bytes = {.length = 0};
    size_t used = SIZE_MAX;
    begin_door();
    reason = GH_WRITTEN, then = serve_again;
    add_write(&bytes, 64, NOTE, 7);
    CHECK(serve(&bytes) == GH_DONE);
    CHECK_HAPPENED("heard 5 64 21;save;64 13;");
    server.heard = NULL;
    server.save = NULL;
    CHECK(serve(&bytes) == GH_DONE);
    CHECK_HAPPENED("64 13;");
    server.size--;
    CHECK(gh_serve(&server, 0, bytes.octets, bytes.length, &used) == GH_BAD_SIZE && used == 0);
    server.size++;
    end();
    CHECK(gh_serve(&server, 1, bytes.octets, bytes.length, &used) == GH_CLOSED && used == 0);
    CHECK(gh_withhold(&server, 64) == GH_NO_SUCH_CONNECTION);
    CHECK_HAPPENED("");
}

/* A host that stops says why, now and later, and the calls that were asked for are refused. */
static void stops(void)
{
    static const uint8_t hardware[] = {0x04, 0x10, 0x01, 0x42, 0x04};
    struct bytes bytes = {.length = 0};
    begin_door();
    add_read(&bytes, 64, 3);
    add(&bytes, hardware, sizeof hardware);
    CHECK(serve(&bytes) == GH_HARDWARE);
    CHECK_HAPPENED("64 0b4c6f636b;");
    CHECK(gh_later_update(&server, STATE, (const uint8_t *)"\x01", 1) == GH_DONE);
    CHECK(serve_nothing(0) == GH_HARDWARE && serve_nothing(1) == GH_HARDWARE && serve(&bytes) == GH_HARDWARE);
    CHECK_HAPPENED("");
    end();
}

/* A table that is replaced is notified. */
static void replaced(void)
{
    begin(&porch, 4);
    CHECK(gh_replace(&host, next.octets, next.length) == GH_DONE);
    CHECK(serve_nothing(0) == GH_DONE);
    CHECK_HAPPENED("");
    end();
}

/* What is asked for where one hears of a write. */
static void answer_by_update(const struct gh_notice *notice)
{
    uint8_t value = (uint8_t)(notice->attribute + notice->connection);
    CHECK(gh_later_update(&server, STATE, &value, 1) == GH_DONE);
}

/* Serves a day of two clients over a line that accepts so many octets a call, and so many until it is full; by steps
   of so many octets of the controller. Returns how often the line was full. */
static unsigned day(size_t by_call, size_t until_full, size_t step)
{
    struct bytes bytes = {.length = 0};
    unsigned full = 0;
    begin_door();
    connect_phone(&host, 65);
    reason = GH_WRITTEN, then = answer_by_update;
    for (uint8_t turn = 0; turn < 4; turn++) {
        add_write(&bytes, 64, turn % 2 ? STATE : NOTE, turn);
        add_read(&bytes, 65, 3);
        add_read(&bytes, 64, STATE);
        add_completed(&bytes, 64, 3);
        add_completed(&bytes, 65, 1);
    }
    add_gone(&bytes, 65);
    most = by_call, room = until_full;
    for (size_t at = 0; at < bytes.length;) {
        size_t used, left = bytes.length - at;
        uint32_t status = gh_serve(&server, at / 50, bytes.octets + at, left < step ? left : step, &used);
        at += used;
        CHECK(status == (room == 0 ? GH_OUTPUT_OWED : GH_DONE) || status == GH_DONE);
        if (status == GH_OUTPUT_OWED) {
            full++;
            /* As long as the line is full nothing is accepted, nor heard, nor saved. */
            const size_t length = strlen(happened);
            CHECK(gh_serve(&server, 1000, bytes.octets + at, bytes.length - at, &used) == GH_OUTPUT_OWED && used == 0);
            CHECK(strlen(happened) == length);
            room = until_full;
        }
    }
    for (unsigned turn = 0; serve_nothing(1000) == GH_OUTPUT_OWED && turn < 5000; turn++)
        room = until_full, full++;
    end();
    return full;
}

/* What happens is the same, however little a line accepts, and however the bytes come. */
static void lines(void)
{
    static char wanted[sizeof happened];
    CHECK(day(SIZE_MAX, SIZE_MAX, SIZE_MAX) == 0);
    memcpy(wanted, happened, sizeof wanted);
    CHECK(strncmp(wanted, "heard 5 64 21;save;64 13;save;64 1b0a0055;65 0b4c6f636b;64 0b55;", 62) == 0);
    for (size_t by_call = 1; by_call < 20; by_call += 6)
        for (size_t until_full = 1; until_full < 40; until_full += 12)
            for (size_t step = 1; step < 60; step += 28) {
                CHECK(day(by_call, until_full, step) > 0);
                CHECK(strcmp(happened, wanted) == 0);
            }
}

/* A packet that is sent in part is finished, also if its connection is withheld afterwards. */
static void part(void)
{
    struct bytes bytes = {.length = 0};
    size_t used;
    begin_door();
    room = 4;
    add_read(&bytes, 64, 3);
    CHECK(gh_serve(&server, 0, bytes.octets, bytes.length, &used) == GH_OUTPUT_OWED && used == bytes.length);
    CHECK(gh_withhold(&server, 64) == GH_DONE);
    room = SIZE_MAX;
    CHECK(serve_nothing(0) == GH_DONE);
    CHECK_HAPPENED("64 0b4c6f636b;heard 9 64 0;save;command 0604;");
    end();
}

int main(int argc, char **argv)
{
    if (argc != 6)
        return 2;
    read_file(argv[1], &table);
    read_file(argv[2], &keys);
    read_file(argv[3], &bell);
    read_file(argv[4], &porch);
    read_file(argv[5], &next);
    order();
    calls();
    authorization();
    no_disk();
    no_disk_for_rows();
    others();
    withheld();
    dropped();
    all_withheld();
    refused();
    ending();
    much();
    same_value();
    time_passes();
    edges();
    stops();
    replaced();
    lines();
    part();
    return result();
}
