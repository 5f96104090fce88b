/*
 * Opens a host with a table file, answers its first command as a controller does, and prints each packet
 * that goes to the controller, in hexadecimal.
 *
 *     first TABLE
 */
#include "gihandop.h"

#include <stdio.h>

/* Command Complete of Reset, with the status 0: Core 5.0, Vol 2 Part E, 7.7.14. */
static const uint8_t reset_complete[] = {0x04, 0x0E, 0x04, 0x01, 0x03, 0x0C, 0x00};

static uint8_t table[65536];

/* Prints what is owed to the controller. */
static void drain(struct gh_host *host)
{
    uint8_t packet[GH_LONGEST_PACKET];
    size_t count;
    while (gh_next_out(host, packet, sizeof packet, &count) == GH_DONE) {
        for (size_t i = 0; i < count; i++)
            printf("%02x", packet[i]);
        printf("\n");
    }
}

int main(int argc, char **argv)
{
    FILE *file = argc == 2 ? fopen(argv[1], "rb") : NULL;
    if (file == NULL) {
        fprintf(stderr, "usage: first TABLE\n");
        return 2;
    }
    size_t length = fread(table, 1, sizeof table, file);
    fclose(file);

    struct gh_host host = GH_HOST_INIT;
    struct gh_config config = GH_CONFIG_INIT;
    size_t left_out;
    config.slots = 1;
    uint32_t status = gh_open(&host, table, length, GH_EMPTY, 0, GH_EMPTY, 0, GH_EMPTY, 0, &config,
                              &left_out);
    if (status != GH_DONE) {
        uint8_t text[128];
        size_t count;
        gh_text(status, text, sizeof text, &count);
        fprintf(stderr, "%.*s\n", (int)count, (const char *)text);
        return 1;
    }
    drain(&host);
    size_t used;
    status = gh_take(&host, reset_complete, sizeof reset_complete, &used);
    printf("taken %zu of %zu: %u\n", used, sizeof reset_complete, (unsigned)status);
    drain(&host);
    gh_close(&host);
    return 0;
}
