/*
 * Plays packets at random to a host, and prints each octet that goes in and comes out:
 *
 *     stream SEED PACKETS TABLE KEYS [NEXT]
 *
 * A controller brings what clients send: requests of the Attribute Protocol, right and wrong ones,
 * in pieces too; encryption, connections that end, events and packets that mean nothing to a host,
 * and, seldom, what stops one. Between them an application makes calls, and replaces the table by
 * NEXT and back. The same words cause the same lines with each library that answers the same: `<
 * HEX` for a packet of the controller, `> HEX` for one of the host, `+` with a notice, `=` with
 * what a call returns.
 */
#include "controller.h"

#include <inttypes.h>
#include <stdio.h>
#include <stdlib.h>
#include <string.h>

enum { CLIENTS = 8, FIRST_HANDLE = 64, WAITING = 64, LONGEST = 600, EACH_TEXT = 500 };

/* A client, or none. */
struct client {
    bool is_connected;
    uint8_t address;
    /* Packets that the controller has sent and not reported. */
    uint8_t sent;
};

/* A packet that answers one of the host. */
struct packet {
    uint8_t octets[16];
    size_t length;
};

static struct file tables[2], keys, rows, values;
/* The place of the table of the host. */
static unsigned current;
static struct gh_host host = GH_HOST_INIT;
static struct client clients[CLIENTS];
static struct packet waiting[WAITING];
static size_t waiting_count;
static uint64_t state, now;
static uint32_t packets, most;
/* So many steps the controller reports nothing, and so many clients in turn were not accepted. */
static uint32_t silent, in_vain;

/* Returns a number at random below another one. No expression has two of them, whose order C
   leaves open. */
static uint32_t below(uint32_t limit)
{
    uint64_t it = state += 0x9E3779B97F4A7C15u;
    it = (it ^ it >> 30) * 0xBF58476D1CE4E5B9u;
    it = (it ^ it >> 27) * 0x94D049BB133111EBu;
    return (uint32_t)((it ^ it >> 31) >> 32) % limit;
}

static bool once_in(uint32_t number)
{
    return below(number) == 0;
}

static void print_octets(const char *mark, const uint8_t *octets, size_t length)
{
    static char text[2 * sizeof keys.octets + 1];
    size_t count = 0;
    for (size_t at = 0; at < length; at++) {
        text[count++] = "0123456789abcdef"[octets[at] >> 4];
        text[count++] = "0123456789abcdef"[octets[at] & 15];
    }
    text[count] = '\0';
    printf("%s %s\n", mark, text);
}

/* Prints what a call returns: a status, with its words if it is not GH_DONE, and a number in
   hexadecimal. */
static void print_status(const char *name, uint32_t status, uint64_t number)
{
    uint8_t words[256];
    size_t count = 0;
    if (status != GH_DONE)
        CHECK(gh_text(status, words, sizeof words, &count) == GH_DONE);
    printf("= %s %" PRIu32 " %" PRIx32 "%08" PRIx32 " %.*s\n", name, status, (uint32_t)(number >> 32), (uint32_t)number,
           (int)count, (const char *)words);
}

static void wait_for(const uint8_t *octets, size_t length)
{
    if (waiting_count == WAITING)
        return;
    memcpy(waiting[waiting_count].octets, octets, length);
    waiting[waiting_count++].length = length;
}

/* What the controller answers to a command. */
static void answer_command(const uint8_t *it)
{
    uint16_t opcode = (uint16_t)(it[1] | it[2] << 8);
    uint8_t status = once_in(300) ? 0x0C : 0;
    uint8_t event[16] = {0x04, 0x0E, 4, 1, it[1], it[2], status};
    size_t more = 0;
    if (opcode == 0x2002) { /* LE Read Buffer Size: at most 27 or 251 octets, 8 packets */
        event[7] = (state & 1) != 0 ? 27 : 251;
        event[9] = 8;
        more = 3;
    } else if (opcode == 0x201A || opcode == 0x201B) { /* the replies to LE Long Term Key Request */
        event[7] = it[4];
        event[8] = it[5];
        more = 2;
    }
    event[2] = (uint8_t)(4 + more);
    if (opcode == 0x0406) { /* Disconnect: Command Status, and later Disconnection Complete */
        const uint8_t started[] = {0x04, 0x0F, 4, status, 1, it[1], it[2]};
        const uint8_t gone[] = {0x04, 0x05, 4, 0, it[4], it[5], 0x16};
        wait_for(started, sizeof started);
        wait_for(gone, status == 0 ? sizeof gone : 0);
        return;
    }
    wait_for(event, 7 + more);
    if (opcode == 0x201A && !once_in(10)) { /* Encryption Change */
        const uint8_t changed[] = {0x04, 0x08, 4, 0, it[4], it[5], 1};
        wait_for(changed, sizeof changed);
    }
}

/* What becomes of data for a client: it is reported later, and an indication is confirmed. */
static void answer_data(const uint8_t *it, size_t length)
{
    static const uint8_t confirmation[] = {0x1E};
    uint16_t handle = (uint16_t)((it[1] | it[2] << 8) & 0x0FFF), place = (uint16_t)(handle - FIRST_HANDLE);
    uint8_t packet[] = {0x02, it[1], (uint8_t)(it[2] & 0x0F), 5, 0, 1, 0, 4, 0, confirmation[0]};
    if (place >= CLIENTS)
        return;
    clients[place].sent++;
    if ((it[2] & 0x30) == 0 && length > 9 && it[9] == 0x1D && !once_in(12))
        wait_for(packet, sizeof packet);
}

/* Prints the notices and the output, and has the controller answer. */
static void finish(void)
{
    struct gh_notice it = GH_NOTICE_INIT;
    uint8_t out[GH_LONGEST_PACKET];
    size_t count;
    while (gh_next_notice(&host, &it) == GH_DONE) {
        size_t at = it.connection - FIRST_HANDLE;
        if (at < CLIENTS && (it.kind == GH_CONNECTED || it.kind == GH_DISCONNECTED))
            clients[at].is_connected = it.kind == GH_CONNECTED;
        if (it.kind == GH_CONNECTED)
            in_vain = 0;
        printf("+ %u %u %u %u %u %d %d %u", it.kind, it.connection, it.attribute, it.bits, it.reason, it.authenticated,
               it.secure, it.key_size);
        printf(" %u", it.address_kind);
        print_octets("", it.address, sizeof it.address);
    }
    while (gh_next_out(&host, out, sizeof out, &count) == GH_DONE) {
        print_octets(">", out, count);
        if (out[0] == 0x01)
            answer_command(out);
        else
            answer_data(out, count);
    }
}

/* Opens a host with the rows and values of the last one. */
static void begin(void)
{
    struct gh_config config = GH_CONFIG_INIT;
    size_t left_out;
    uint32_t status;
    config.slots = once_in(4) ? 1 + below(3) : 4 + below(5);
    config.rx_mtu = (uint16_t)(once_in(3) ? 23 + below(495) : 247);
    current = 0;
    status = gh_open(&host, tables[0].octets, tables[0].length, keys.octets, keys.length, rows.octets, rows.length,
                     values.octets, values.length, &config, &left_out);
    print_status("open", status, left_out);
    memset(clients, 0, sizeof clients);
    waiting_count = in_vain = 0;
    now = 0xFFFFFFFF - below(200000); /* times soon need more than 32 bits */
    finish();
}

/* Replaces the table by the other one. */
static void replace(void)
{
    const struct file *other = &tables[1 - current];
    uint32_t status = gh_replace(&host, other->octets, other->length);
    current = status == GH_DONE ? 1 - current : current;
    print_status("replace", status, current);
}

/* Asks for the words for texts, of which one may have a fault. */
static void explain(void)
{
    static const uint8_t faulty[] = "service = [{ uuid = \"1800\" }, { uuid = \"18\" }]";
    bool is_faulty = once_in(2);
    uint8_t words[256];
    size_t count;
    uint32_t status = gh_explain(is_faulty ? faulty : tables[0].octets, is_faulty ? sizeof faulty - 1 : tables[0].length,
                                 keys.octets, keys.length, rows.octets, rows.length, values.octets, values.length,
                                 words, sizeof words, &count);
    print_status("explain", status, count);
    print_octets("=", words, count);
}

static void save(void)
{
    uint32_t status = gh_rows_text(&host, rows.octets, sizeof rows.octets, &rows.length);
    print_octets("= rows", rows.octets, status == GH_DONE ? rows.length : 0);
    status = gh_values_text(&host, (uint8_t)below(2), values.octets, sizeof values.octets, &values.length);
    print_octets("= values", values.octets, status == GH_DONE ? values.length : 0);
}

static void open_again(void)
{
    save();
    print_status("close", gh_close(&host), 0);
    begin();
}

/* The controller brings a packet, in pieces at times. A host that stops is opened again. */
static void bring_packet(const uint8_t *octets, size_t length)
{
    size_t used;
    print_octets("<", octets, length);
    packets++;
    for (size_t at = 0; at < length; at += used) {
        size_t piece = once_in(4) ? 1 + below((uint32_t)(length - at)) : length - at;
        uint32_t status = gh_take(&host, octets + at, piece, &used);
        if (status != GH_DONE) {
            print_status("take", status, used);
            open_again();
            return;
        }
        if (once_in(60)) /* refused, if output is pending */
            print_status("tick", gh_tick(&host, now), 0);
        finish();
    }
}

/* The controller sends its answers. */
static void answer(void)
{
    while (waiting_count != 0) {
        struct packet it = waiting[0];
        memmove(waiting, waiting + 1, --waiting_count * sizeof it);
        bring_packet(it.octets, it.length);
    }
}

/* The controller reports packets that it has sent, or is busy. */
static void report(void)
{
    silent = once_in(150) ? below(80) : silent != 0 ? silent - 1 : 0;
    if (silent != 0)
        return;
    for (uint8_t at = 0; at < CLIENTS; at++) {
        uint8_t event[] = {0x04, 0x13, 5, 1, (uint8_t)(FIRST_HANDLE + at), 0, clients[at].sent, 0};
        if (clients[at].sent == 0 || once_in(3))
            continue;
        clients[at].sent = 0;
        bring_packet(event, sizeof event);
    }
}

/* Addresses of clients: two with keys, and others. */
static void put_address(uint8_t *event, uint8_t number)
{
    static const uint8_t known[2][7] = {
        {1, 0x01, 0x00, 0x00, 0x00, 0x00, 0xC0},
        {0, 0x55, 0x44, 0x33, 0x22, 0x11, 0x00},
    };
    static const uint8_t other[7] = {1, 0xAA, 0xBB, 0xCC, 0xDD, 0xEE, 0xC0};
    memcpy(event, number < 2 ? known[number] : other, 7);
    event[1] = (uint8_t)(event[1] + (number < 2 ? 0 : number));
}

static void connect(uint8_t at)
{
    uint8_t event[22] = {0x04, 0x3E, 19, 0x01, 0, (uint8_t)(FIRST_HANDLE + at), 0, 1};
    clients[at].sent = 0;
    clients[at].address = (uint8_t)(once_in(3) ? below(CLIENTS) : below(2));
    put_address(event + 8, clients[at].address);
    event[4] = once_in(40) ? 0x02 : 0; /* it fails */
    event[7] = once_in(40) ? 0 : 1;    /* the host would be the central device */
    event[15] = 24;
    event[19] = 200;
    in_vain++;
    bring_packet(event, sizeof event);
}

static void disconnect(uint8_t at)
{
    const uint8_t event[] = {0x04, 0x05, 4, once_in(20) ? 0x02 : 0, (uint8_t)(FIRST_HANDLE + at), 0, 0x13};
    clients[at].sent = event[3] == 0 ? 0 : clients[at].sent;
    bring_packet(event, sizeof event);
}

/* A key is asked for, or encryption changes. */
static void encrypt_link(uint8_t at)
{
    /* The octets of the numbers of keys: that of the first address, those of the second one, and others. */
    static const uint8_t numbers[] = {1, 2, 2, 2, 3, 0, 9};
    uint8_t right = (uint8_t)(clients[at].address == 1 ? 1 + below(4) : 0);
    uint8_t handle = (uint8_t)(FIRST_HANDLE + at), number = numbers[once_in(4) ? below(7) : right];
    uint8_t request[16] = {0x04, 0x3E, 13, 0x05, handle, 0};
    uint8_t status = once_in(5) ? 0x06 : 0;
    const uint8_t changed[] = {0x04, 0x08, 4, status, handle, 0, (uint8_t)below(3)};
    const uint8_t refreshed[] = {0x04, 0x30, 3, status, handle, 0};
    memset(request + 6, number, 8);
    memset(request + 14, once_in(12) ? 0 : number, 2);
    if (!once_in(4))
        bring_packet(request, sizeof request);
    else if (!once_in(3))
        bring_packet(changed, sizeof changed);
    else
        bring_packet(refreshed, sizeof refreshed);
}

/* Brings a PDU of a channel, in one packet or in several. */
static void bring_pdu(uint8_t at, uint8_t channel, const uint8_t *pdu, size_t length)
{
    uint8_t frame[LONGEST + 4], packet[LONGEST + 16];
    size_t stated = once_in(80) ? below(600) : length, size = length + 4, sent = 0;
    memcpy(frame + 4, pdu, length);
    frame[0] = (uint8_t)stated;
    frame[1] = (uint8_t)(stated >> 8);
    frame[2] = channel;
    frame[3] = 0;
    while (sent < size) {
        size_t part = once_in(8) ? 1 + below((uint32_t)(size - sent < 40 ? size - sent : 40)) : size - sent;
        uint8_t flags = sent == 0 ? 0x20 : 0x10;
        packet[0] = 0x02;
        packet[1] = (uint8_t)(FIRST_HANDLE + at);
        packet[2] = once_in(150) ? (uint8_t)(below(16) << 4) : flags;
        packet[3] = (uint8_t)part;
        packet[4] = (uint8_t)(part >> 8);
        memcpy(packet + 5, frame + sent, part);
        bring_packet(packet, 5 + part);
        sent += part;
        if (once_in(40)) /* the rest does not come */
            return;
    }
}

static size_t put_number(uint8_t *pdu, size_t at, uint32_t number)
{
    pdu[at] = (uint8_t)number;
    pdu[at + 1] = (uint8_t)(number >> 8);
    return at + 2;
}

static size_t put_octets(uint8_t *pdu, size_t at, size_t count)
{
    for (size_t number = 0; number < count; number++)
        pdu[at + number] = (uint8_t)below(256);
    return at + count;
}

/* Writes a request, a command or a confirmation, mostly a right one, and returns its length. */
static size_t put_pdu(uint8_t *pdu)
{
    static const uint8_t opcodes[] = {
        0x02, 0x04, 0x06, 0x08, 0x0A, 0x0A, 0x0C, 0x0E, 0x10, 0x12, 0x12, 0x12, 0x16, 0x16, 0x18, 0x1E, 0x52, 0x52, 0xD2,
    };
    static const uint16_t types[] = {0x2800, 0x2801, 0x2802, 0x2803, 0x2901, 0x2902, 0x2A00, 0x2A05, 0xFFF1, 0xFFF3};
    static const uint16_t sizes[] = {0, 1, 1, 1, 2, 2, 3, 8, 18, 20, 40, 300};
    uint32_t handle = once_in(20) ? below(65536) : below(26);
    uint32_t last = once_in(2) ? 0xFFFF : handle + below(12), type = types[below(sizeof types / sizeof types[0])];
    size_t at = 1, size = sizes[below(sizeof sizes / sizeof sizes[0])];
    pdu[0] = opcodes[below(sizeof opcodes)];
    switch (pdu[0]) {
    case 0x02: /* Exchange MTU */
        return put_number(pdu, at, once_in(4) ? below(600) : 23 + below(300));
    case 0x04: /* Find Information */
    case 0x06: /* Find By Type Value */
    case 0x08: /* Read By Type */
    case 0x10: /* Read By Group Type */
        at = put_number(pdu, put_number(pdu, at, handle), last);
        if (pdu[0] == 0x04)
            return at;
        if (once_in(10))
            return put_octets(pdu, at, 16);
        at = put_number(pdu, at, type);
        return pdu[0] == 0x06 ? put_number(pdu, at, types[below(10)]) : at;
    case 0x0A: /* Read */
        return put_number(pdu, at, handle);
    case 0x0C: /* Read Blob */
        return put_number(pdu, put_number(pdu, at, handle), below(once_in(3) ? 600 : 30));
    case 0x0E: /* Read Multiple */
        for (uint32_t count = 1 + below(5); count > 0; count--)
            at = put_number(pdu, at, below(26));
        return at;
    case 0x16: /* Prepare Write */
        at = put_number(pdu, put_number(pdu, at, handle), below(once_in(3) ? 600 : 12));
        return put_octets(pdu, at, size);
    case 0x18: /* Execute Write */
        pdu[1] = (uint8_t)(once_in(8) ? below(256) : below(2));
        return 2;
    case 0x1E: /* Handle Value Confirmation */
        return 1;
    default: /* a write, also of a configuration */
        if (once_in(4)) {
            at = put_number(pdu, at, once_in(2) ? 7 : 10 + below(2));
            return put_number(pdu, at, below(4));
        }
        return put_octets(pdu, put_number(pdu, at, handle), size);
    }
}

/* Requests of a client that are longer or shorter than they may be, or no requests. */
static void send_wrong(uint8_t at)
{
    uint8_t pdu[LONGEST];
    size_t length = put_pdu(pdu);
    switch (below(4)) {
    case 0:
        length = below((uint32_t)length + 1);
        break;
    case 1:
        length = put_octets(pdu, length, 1 + below(6));
        break;
    case 2:
        length = put_octets(pdu, 0, 1 + below(30));
        break;
    default:
        pdu[0] = (uint8_t)below(256);
    }
    bring_pdu(at, 4, pdu, length);
}

/* Packets that a host has to skip: other channels, events, handles of nobody. */
static void bring_noise(uint8_t at)
{
    static const uint8_t events[] = {0x03, 0x0C, 0x10, 0x1A, 0x2F, 0x3E, 0x57, 0x0E, 0x0F, 0x13, 0x08, 0x05};
    uint8_t octets[300] = {0x04, events[below(sizeof events)]};
    uint8_t length = (uint8_t)(once_in(8) ? below(256) : below(24));
    switch (below(6)) {
    case 0: /* the channels of signals and of security, and none */
        put_octets(octets, 0, length);
        bring_pdu(at, (uint8_t)(once_in(2) ? 5 + below(2) : below(256)), octets, length);
        return;
    case 1: /* data of nobody */
        put_octets(octets, 1, length + 5u);
        octets[0] = 0x02;
        octets[3] = length;
        octets[4] = 0;
        bring_packet(octets, 5u + length);
        return;
    case 2: /* synchronous data */
        put_octets(octets, 1, length + 3u);
        octets[0] = 0x03;
        octets[3] = length;
        bring_packet(octets, 4u + length);
        return;
    case 3: /* a subevent that nobody asked for */
        put_octets(octets, 3, 8);
        octets[1] = 0x3E;
        octets[2] = 8;
        octets[3] = (uint8_t)(0x20 + below(64));
        bring_packet(octets, 11);
        return;
    case 4: /* an event of a maker */
        put_octets(octets, 3, length);
        octets[1] = 0xFF;
        octets[2] = length;
        bring_packet(octets, 3u + length);
        return;
    default: /* an event with octets at random, which stops a host at times */
        if (!once_in(8))
            octets[1] = (uint8_t)(0x80 + below(16));
        put_octets(octets, 3, length);
        octets[2] = length;
        bring_packet(octets, 3u + length);
    }
}

/* The application makes a call. */
static void call(uint8_t at)
{
    /* Values of the tables in examples/ that are notified or indicated. */
    static const uint8_t told[] = {3, 6, 7, 10};
    uint8_t octets[LONGEST];
    uint16_t connection = (uint16_t)(FIRST_HANDLE + at), handle = (uint16_t)below(26);
    struct gh_connection it = GH_CONNECTION_INIT;
    size_t count;
    uint64_t time;
    uint32_t status;
    switch (below(13)) {
    case 0:
    case 1:
    case 2:
    case 3:
        count = once_in(10) ? below(514) : once_in(3) ? below(4) : 1;
        put_octets(octets, 0, count);
        handle = once_in(3) ? handle : told[below(sizeof told)];
        print_status("update", gh_update(&host, handle, octets, count), count);
        break;
    case 4:
    case 5:
        print_status("authorize", gh_authorize(&host, connection, once_in(4) ? 0 : now + below(20000)), 0);
        break;
    case 6:
        if (once_in(4))
            print_status("disconnect", gh_disconnect(&host, connection), 0);
        break;
    case 7:
        status = gh_value(&host, handle, octets, sizeof octets, &count);
        print_status("value", status, count);
        print_octets("=", octets, count);
        break;
    case 8:
        octets[0] = 0xF0;
        octets[1] = octets[3] = 0xFF;
        octets[2] = (uint8_t)(0xF1 + below(5));
        status = gh_find(&host, octets, 2, octets + 2, 2, (uint16_t)below(4), &handle);
        print_status("find", status, handle);
        break;
    case 9:
        status = gh_connection(&host, below(8), &it);
        print_status("connection", status, it.handle * 65536u + it.mtu);
        print_status("heard", it.slot, it.heard);
        break;
    case 10:
        status = gh_deadline(&host, &time);
        print_status("deadline", status, time);
        break;
    case 11:
        if (once_in(20))
            explain();
        else if (once_in(5))
            replace();
        break;
    default:
        status = once_in(20) ? gh_tick(&host, now - 1) : gh_tick(&host, now += below(once_in(5) ? 31000 : 900));
        print_status("tick", status, now);
    }
    finish();
}

/* Returns the place of a client that is connected, if there is one, or else any. */
static uint8_t some_client(void)
{
    uint8_t first = (uint8_t)below(CLIENTS);
    for (uint8_t it = 0; it < CLIENTS; it++)
        if (clients[(first + it) % CLIENTS].is_connected)
            return (uint8_t)((first + it) % CLIENTS);
    return first;
}

/* One step: something comes, or the application does something. */
static void step(void)
{
    uint8_t pdu[LONGEST], at = once_in(100) ? (uint8_t)below(CLIENTS) : some_client();
    uint32_t chance = below(100);
    if ((!clients[at].is_connected && in_vain <= 8) || once_in(30)) {
        at = (uint8_t)below(CLIENTS);
        connect(at);
        answer();
        if (!once_in(3))
            encrypt_link(at);
    } else if (in_vain > 8) { /* the host does not advertise */
        open_again();
    } else if (chance < 64) {
        bring_pdu(at, 4, pdu, put_pdu(pdu));
    } else if (chance < 74) {
        send_wrong(at);
    } else if (chance < 80) {
        encrypt_link(at);
    } else if (chance < 81) {
        disconnect(at);
    } else if (chance < 87) {
        bring_noise(at);
    } else {
        call(at);
    }
    answer();
    report();
    answer();
}

int main(int argc, char **argv)
{
    static char buffer[1 << 14];
    if (argc < 5)
        return 64;
    setvbuf(stdout, buffer, _IOFBF, sizeof buffer);
    state = strtoull(argv[1], NULL, 10);
    most = (uint32_t)strtoul(argv[2], NULL, 10);
    read_file(argv[3], &tables[0]);
    read_file(argv[4], &keys);
    read_file(argv[argc > 5 ? 5 : 3], &tables[1]);
    printf("= version %" PRIu32 "\n", gh_version());
    begin();
    answer();
    for (uint32_t steps = 1; packets < most; steps++) {
        step();
        if (steps % EACH_TEXT == 0)
            save();
    }
    save();
    print_status("close", gh_close(&host), 0);
    return failed();
}
