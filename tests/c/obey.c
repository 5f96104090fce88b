/*
 * Does with a host what the lines of standard input say, and prints what each brings:
 *
 *     obey TABLE KEYS [NEXT]
 *
 *     take HEX | update HANDLE HEX | authorize CONNECTION TIME | disconnect CONNECTION | tick TIME
 *     replace | rows
 *
 * `status N` where it is not done, notices as `gatt_shell run --notices` prints them, `> HEX` for
 * each packet that goes out, the rows where they are asked, and a line with a point.
 */
#include "controller.h"

#include <inttypes.h>
#include <stdio.h>
#include <stdlib.h>
#include <string.h>

static struct file tables[2], keys;
static struct gh_host host = GH_HOST_INIT;

static void print_hex(const uint8_t *octets, size_t length)
{
    for (size_t at = 0; at < length; at++)
        printf("%02x", octets[at]);
    printf("%s\n", length == 0 ? "-" : "");
}

static void print_notice(const struct gh_notice *it)
{
    static const char *const words[] = {
        "",        "connected",  "disconnected", "secured",   "unsecured",
        "written", "configured", "confirmed",    "timed-out", "ending",
        "skipped",
    };
    uint8_t value[GH_LONGEST_VALUE];
    size_t length;
    CHECK(it->kind >= GH_CONNECTED && it->kind <= GH_SKIPPED);
    printf("+ %s %u", words[it->kind], it->connection);
    if (it->kind == GH_CONNECTED) {
        printf(" %u ", it->address_kind);
        for (int at = 5; at >= 0; at--)
            printf("%02x%s", it->address[at], at > 0 ? ":" : "");
    }
    if (it->kind == GH_SECURED)
        printf(" %u %d %d", it->key_size, it->authenticated, it->secure);
    if (it->kind == GH_WRITTEN || it->kind == GH_CONFIGURED || it->kind == GH_CONFIRMED ||
        it->kind == GH_SKIPPED)
        printf(" %u", it->attribute);
    if (it->kind == GH_CONFIGURED)
        printf(" %u", it->bits);
    if (it->kind == GH_ENDING)
        printf(" %02x", it->reason);
    if (it->kind == GH_WRITTEN) {
        CHECK(gh_value(&host, it->attribute, value, sizeof value, &length) == GH_DONE);
        printf(" ");
        print_hex(value, length);
    } else {
        printf("\n");
    }
}

/* Prints what came of something: notices first, since the answer may follow them. */
static void print_outcome(uint32_t status)
{
    struct gh_notice notice = GH_NOTICE_INIT;
    uint8_t packet[GH_LONGEST_PACKET];
    size_t count;
    if (status != GH_DONE)
        printf("status %" PRIu32 "\n", status);
    while (gh_next_notice(&host, &notice) == GH_DONE)
        print_notice(&notice);
    while (gh_next_out(&host, packet, sizeof packet, &count) == GH_DONE) {
        printf("> ");
        print_hex(packet, count);
    }
}

static size_t read_hex(const char *text, uint8_t *octets)
{
    size_t count = 0;
    for (unsigned octet; sscanf(text + 2 * count, "%2x", &octet) == 1; count++)
        octets[count] = (uint8_t)octet;
    return count;
}

static void take(const uint8_t *octets, size_t length)
{
    size_t used;
    for (size_t at = 0; at < length; at += used) {
        uint32_t status = gh_take(&host, octets + at, length - at, &used);
        print_outcome(status);
        if (status != GH_DONE)
            return;
    }
}

static void obey(char *line)
{
    static int table;
    static uint8_t octets[1 << 16];
    const char *word = strtok(line, " \n");
    const char *first = strtok(NULL, " \n"), *second = strtok(NULL, " \n");
    uint64_t number = first != NULL ? strtoull(first, NULL, 10) : 0;
    if (strcmp(word, "take") == 0) {
        take(octets, read_hex(first, octets));
    } else if (strcmp(word, "update") == 0) {
        print_outcome(gh_update(&host, (uint16_t)number, octets, read_hex(second, octets)));
    } else if (strcmp(word, "authorize") == 0) {
        print_outcome(gh_authorize(&host, (uint16_t)number, strtoull(second, NULL, 10)));
    } else if (strcmp(word, "disconnect") == 0) {
        print_outcome(gh_disconnect(&host, (uint16_t)number));
    } else if (strcmp(word, "tick") == 0) {
        print_outcome(gh_tick(&host, number));
    } else if (strcmp(word, "replace") == 0) {
        const struct file *other = &tables[1 - table];
        uint32_t status = gh_replace(&host, other->octets, other->length);
        table = status == GH_DONE ? 1 - table : table;
        print_outcome(status);
    } else if (strcmp(word, "rows") == 0) {
        size_t length;
        CHECK(gh_rows_text(&host, octets, sizeof octets, &length) == GH_DONE);
        fwrite(octets, 1, length, stdout);
    } else {
        CHECK(false);
    }
}

int main(int argc, char **argv)
{
    /* That of gatt_shell. */
    const struct gh_config config = GH_CONFIG_INIT;
    size_t left_out;
    static char line[1 << 17];
    if (argc < 3)
        return 64;
    read_file(argv[1], &tables[0]);
    read_file(argv[2], &keys);
    tables[1] = tables[0];
    if (argc > 3)
        read_file(argv[3], &tables[1]);
    if (gh_open(&host, tables[0].octets, tables[0].length, keys.octets, keys.length, GH_EMPTY, 0,
                GH_EMPTY, 0, &config, &left_out) != GH_DONE)
        return 1;
    print_outcome(GH_DONE);
    do {
        printf(".\n");
        fflush(stdout);
    } while (fgets(line, sizeof line, stdin) != NULL && (obey(line), true));
    gh_close(&host);
    return failed();
}
