/*
 * What a program saves of the values, and how the next host begins with it; and the words for the faults
 * of what a host is opened with.
 *
 *     values TABLE KEYS         examples/door.toml and keys.toml
 */
#include "controller.h"

#include <stdio.h>
#include <string.h>

static struct file table, keys;
static uint8_t text[4096];
static size_t length;

/* Opens a host with a values text. Reset is owed. */
static uint32_t begin_with(struct gh_host *host, const char *values, size_t *left_out)
{
    const struct gh_config config = GH_CONFIG_INIT;
    *left_out = 1000;
    return gh_open(host, table.octets, table.length, keys.octets, keys.length, GH_EMPTY, 0,
                   (const uint8_t *)values, strlen(values), &config, left_out);
}

/* Whether the values text of a host is this one. */
static bool has_values(struct gh_host *host, uint8_t all, const char *values)
{
    memset(text, 'x', sizeof text);
    return gh_values_text(host, all, text, sizeof text, &length) == GH_DONE
        && length == strlen(values) && memcmp(text, values, length) == 0;
}

/* Whether a host has this value. */
static bool has_value(struct gh_host *host, uint16_t handle, const char *value, size_t size)
{
    uint8_t octets[GH_LONGEST_VALUE];
    size_t count;
    return gh_value(host, handle, octets, sizeof octets, &count) == GH_DONE && count == size
        && memcmp(octets, value, size) == 0;
}

static void saved_values(void)
{
    struct gh_host host = GH_HOST_INIT;
    CHECK(open_host(&host, &table, &keys, NULL, 4) == GH_DONE);
    CHECK(has_values(&host, 0, "") && has_values(&host, 1, ""));
    connect_phone(&host, 64);
    encrypt(&host, 64);
    say(&host, 64, (const uint8_t *)"\x12\x15\x00\x00\xAB", 5, NULL);
    CHECK(has_values(&host, 0, "21 fff4 00ab\n"));
    say(&host, 64, (const uint8_t *)"\x12\x0A\x00\x01", 4, NULL);
    CHECK(has_values(&host, 0, "10 fff1 01\n21 fff4 00ab\n"));
    /* A value that only the program changes is among all of them. */
    CHECK(gh_update(&host, 6, (const uint8_t *)"\x32", 1) == GH_DONE);
    settle(&host, NULL);
    CHECK(has_values(&host, 0, "10 fff1 01\n21 fff4 00ab\n"));
    CHECK(has_values(&host, 1, "6 2a19 32\n10 fff1 01\n21 fff4 00ab\n"));
    CHECK(has_values(&host, 255, "6 2a19 32\n10 fff1 01\n21 fff4 00ab\n"));
    /* One that is as in the file again is not saved. */
    say(&host, 64, (const uint8_t *)"\x12\x0A\x00\x00", 4, NULL);
    say(&host, 64, (const uint8_t *)"\x12\x15\x00", 3, NULL);
    CHECK(has_values(&host, 0, "") && has_values(&host, 1, "6 2a19 32\n"));

    memset(text, 'x', sizeof text);
    CHECK(gh_values_text(&host, 1, text, 9, &length) == GH_SHORT_BUFFER && length == 10);
    CHECK(gh_values_text(&host, 1, text, 0, &length) == GH_SHORT_BUFFER && length == 10);
    CHECK(text[0] == 'x');
    CHECK(gh_values_text(&host, 1, text, 10, &length) == GH_DONE && length == 10 && text[10] == 'x');
    gh_close(&host);
}

/* A daemon that starts again has its values before anything is served. */
static void second_start(void)
{
    static const char saved[] = "6 2a19 32\n10 fff1 01\n21 fff4 00ab\n";
    struct gh_host host = GH_HOST_INIT;
    struct heard heard;
    size_t left_out;
    CHECK(begin_with(&host, saved, &left_out) == GH_DONE && left_out == 0);
    /* No update can restore them, since Reset is owed. */
    CHECK(gh_update(&host, 10, GH_EMPTY, 1) == GH_OUTPUT_OWED);
    CHECK(has_value(&host, 6, "\x32", 1) && has_value(&host, 10, "\1", 1));
    CHECK(has_value(&host, 21, "\0\xAB", 2));
    CHECK(has_values(&host, 1, saved) && has_values(&host, 0, strchr(saved, '\n') + 1));
    settle(&host, NULL);
    connect_phone(&host, 64);
    encrypt(&host, 64);
    say(&host, 64, (const uint8_t *)"\x0A\x0A\x00", 3, &heard);
    CHECK(is_heard(&heard, (const uint8_t *)"\x0B\x01", 2));
    /* It differs from the table file, and not from what was restored. */
    say(&host, 64, (const uint8_t *)"\x12\x0A\x00\x00", 4, NULL);
    CHECK(has_values(&host, 0, "21 fff4 00ab\n"));
    gh_close(&host);
}

static void values_that_do_not_fit(void)
{
    struct gh_host host = GH_HOST_INIT;
    size_t left_out;
    CHECK(begin_with(&host,
                     "10 fff1 01\n10 fff2 00\n10 fff1 0102\n99 fff1 01\n0 fff1 01\n7 2902 01\n2 2803 01\n"
                     "13 fff2 3132333435363738\n13 fff2 313233343536373839",
                     &left_out)
          == GH_DONE);
    CHECK(left_out == 7);
    CHECK(has_value(&host, 10, "\1", 1) && has_value(&host, 13, "12345678", 8));
    CHECK(has_values(&host, 0, "10 fff1 01\n13 fff2 3132333435363738\n"));
    gh_close(&host);
    /* Of two lines of a value the last one counts. */
    CHECK(begin_with(&host, "10 fff1 01\n\n10 fff1 00", &left_out) == GH_DONE && left_out == 0);
    CHECK(has_value(&host, 10, "\0", 1) && has_values(&host, 1, ""));
    gh_close(&host);
}

static void bad_lines(void)
{
    static const char *const lines[] = {
        "10 fff1",       "10 fff1 1",     "10 fff1 01 ",     "10 fff1 01\r", " 10 fff1 01",
        "ten fff1 01",   "65536 fff1 01", "10 fff 01",       "10 fff1 0x01", "10\tfff1\t01",
        "10 fff1 01\n#", "\xFF",          "10 fff1 01\n\xC3", "10  fff1 01", "0 00:11:22:33:44:55 11 1",
    };
    struct gh_host host = GH_HOST_INIT;
    size_t left_out;
    for (size_t at = 0; at < sizeof lines / sizeof *lines; at++) {
        CHECK(begin_with(&host, lines[at], &left_out) == GH_VALUES_BAD_LINE);
        CHECK(left_out == 0 && host.at == NULL);
    }
}

/* After a replacement the values are compared with those of the new table. */
static void replaced_tables(void)
{
    static const char porch[] =
        "service = [{ uuid = \"1801\", characteristic = [{ uuid = \"2a05\", value = \"00000000\", "
        "fixed = true, properties = [\"indicate\"] }] }, { uuid = \"fff0\", characteristic = "
        "[{ uuid = \"fff4\", value = \"%s\", max = 16, properties = [\"read\", \"write\"] }] }]";
    char one[512], other[512];
    struct gh_host host = GH_HOST_INIT;
    const struct gh_config config = GH_CONFIG_INIT;
    size_t left_out;
    int first = snprintf(one, sizeof one, porch, "01"), second = snprintf(other, sizeof other, porch, "02");
    CHECK(gh_open(&host, (const uint8_t *)one, (size_t)first, GH_EMPTY, 0, GH_EMPTY, 0,
                  (const uint8_t *)"7 fff4 05", 9, &config, &left_out)
          == GH_DONE);
    settle(&host, NULL);
    CHECK(has_values(&host, 0, "7 fff4 05\n"));
    /* One that is refused leaves it. */
    CHECK(gh_replace(&host, table.octets, table.length) == GH_NO_SERVICE_CHANGED);
    settle(&host, NULL);
    CHECK(gh_replace(&host, GH_EMPTY, 0) == GH_TABLE_MISSING);
    CHECK(has_values(&host, 0, "7 fff4 05\n"));
    /* The new table is taken as its file has it. */
    CHECK(gh_replace(&host, (const uint8_t *)other, (size_t)second) == GH_DONE);
    settle(&host, NULL);
    CHECK(has_value(&host, 7, "\2", 1) && has_values(&host, 0, ""));
    /* But for Service Changed, which the host has set. */
    CHECK(has_values(&host, 1, "3 2a05 0100ffff\n"));
    CHECK(gh_update(&host, 7, (const uint8_t *)"\1", 1) == GH_DONE);
    settle(&host, NULL);
    CHECK(has_values(&host, 0, "7 fff4 01\n"));
    gh_close(&host);
}

/* Whether the words for the first fault of four texts are these. */
static bool is_explained(const char *a, const char *b, const char *c, const char *d, const char *words)
{
    memset(text, 'x', sizeof text);
    uint32_t status = gh_explain((const uint8_t *)a, strlen(a), (const uint8_t *)b, strlen(b),
                                 (const uint8_t *)c, strlen(c), (const uint8_t *)d, strlen(d), text,
                                 sizeof text, &length);
    if (*words == '\0')
        return status == GH_NOTHING && length == 0 && text[0] == 'x';
    bool is_so = status == GH_DONE && length == strlen(words) && memcmp(text, words, length) == 0;
    if (!is_so)
        fprintf(stderr, "%u: %.*s\n", (unsigned)status, (int)length, (const char *)text);
    return is_so;
}

static void explanations(void)
{
    static const char door[] = "service = []", no_keys[] = "";
    const char *whole = (const char *)table.octets, *all_keys = (const char *)keys.octets;
    CHECK(is_explained(door, no_keys, "", "", ""));
    CHECK(is_explained(whole, all_keys, "0 00:11:22:33:44:55 11 1\n", "10 fff1 01\n", ""));
    /* Values that do not fit are no fault. */
    CHECK(is_explained(door, no_keys, "", "10 fff1 01\n", ""));
    CHECK(is_explained("", no_keys, "", "", "table: service: the key is missing"));
    CHECK(is_explained("service = [{ uuid = \"1800\" }, { uuid = \"18\" }]", no_keys, "", "",
                       "table: service 2, uuid: this is no UUID, or this UUID is not allowed here"));
    CHECK(is_explained("service = ", no_keys, "", "",
                       "table: line 1, column 11: invalid value, expected a string, number, boolean, "
                       "date-time, array or inline table"));
    CHECK(is_explained("\n\n \xFF", no_keys, "", "", "table: line 3, column 2: it is not UTF-8"));
    CHECK(is_explained(door, "[[key]]\naddress = \"00\"\n", "", "", "keys: key 1, kind: the key is missing"));
    CHECK(is_explained(door, no_keys, "\nno row\n", "",
                       "rows: line 2 says nothing that a rows file may say"));
    CHECK(is_explained(door, no_keys, "", "10 fff1 01\n\nten fff1 01\n",
                       "values: line 3: this line is not a value: a handle, a type, and octets in hexadecimal "
                       "or `-`"));
    CHECK(is_explained(door, no_keys, "", "10 fff1 01\n\n1\xFF", "values: line 3, column 2: it is not UTF-8"));
    /* The first text with a fault is named. */
    CHECK(is_explained("", "x", "x", "x", "table: service: the key is missing"));
    CHECK(is_explained(door, "\xFF", "x", "x", "keys: line 1, column 1: it is not UTF-8"));
    CHECK(is_explained(door, no_keys, "\xFF", "x", "rows: line 1, column 1: it is not UTF-8"));

    static const char missing[] = "table: service: the key is missing";
    memset(text, 'x', sizeof text);
    CHECK(gh_explain(GH_EMPTY, 0, GH_EMPTY, 0, GH_EMPTY, 0, GH_EMPTY, 0, text, sizeof missing - 2, &length)
          == GH_SHORT_BUFFER);
    CHECK(length == sizeof missing - 1 && text[0] == 'x');
    CHECK(gh_explain(GH_EMPTY, 0, GH_EMPTY, 0, GH_EMPTY, 0, GH_EMPTY, 0, text, length, &length) == GH_DONE);
    CHECK(length == sizeof missing - 1 && text[length] == 'x');
}

int main(int argc, char **argv)
{
    if (argc != 3)
        return 2;
    read_file(argv[1], &table);
    read_file(argv[2], &keys);
    saved_values();
    second_start();
    values_that_do_not_fit();
    bad_lines();
    replaced_tables();
    explanations();
    return result();
}
