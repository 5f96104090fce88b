/*
 * A channel for tests in place of the HCI user channel: a socket that keeps the bounds of packets. The
 * environment variable CONTROLLER has the path of the socket where a simulated controller listens.
 */
#define _GNU_SOURCE
#include "channel.h"

#include <errno.h>
#include <stdlib.h>
#include <string.h>
#include <sys/socket.h>
#include <sys/un.h>
#include <unistd.h>

bool is_controller(const char *name)
{
    return strcmp(name, "hci0") == 0;
}

int open_channel(const char *name, bool down)
{
    struct sockaddr_un address = {.sun_family = AF_UNIX};
    int channel = socket(AF_UNIX, SOCK_SEQPACKET | SOCK_CLOEXEC | SOCK_NONBLOCK, 0);
    int error;

    (void)name;
    (void)down;
    strncpy(address.sun_path, getenv("CONTROLLER"), sizeof address.sun_path - 1);
    if (connect(channel, (struct sockaddr *)&address, sizeof address) == 0)
        return channel;
    error = errno;
    close(channel);
    errno = error;
    return -1;
}
