/*
 * Reads the name of the door lock, as a client does.
 *
 *     answer TABLE        examples/door.toml
 */
#include "controller.h"

static struct file table, keys;

int main(int argc, char **argv)
{
    static const uint8_t read[] = {0x0A, 3, 0}, name[] = {0x0B, 'L', 'o', 'c', 'k'};
    struct gh_host host = GH_HOST_INIT;
    struct heard heard = {0};

    CHECK(argc == 2);
    read_file(argv[1], &table);
    CHECK(gh_version() == GH_VERSION);
    CHECK(open_host(&host, &table, &keys, NULL, 4) == GH_DONE);
    connect_phone(&host, 64);
    say(&host, 64, read, sizeof read, &heard);
    CHECK(is_heard(&heard, name, sizeof name));
    gh_close(&host);
    return result();
}
