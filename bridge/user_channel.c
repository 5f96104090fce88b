/* The HCI user channel of Linux: net/bluetooth/hci_sock.c of its sources. */
#define _GNU_SOURCE
#include "channel.h"

#include <errno.h>
#include <stdint.h>
#include <stdlib.h>
#include <string.h>
#include <sys/ioctl.h>
#include <sys/socket.h>
#include <unistd.h>

/* What <bluetooth/hci.h> of BlueZ has of it. */
enum { PROTOCOL_HCI = 1, USER_CHANNEL = 1 };
#define HCI_DEVICE_DOWN _IOW('H', 202, int)
struct hci_address {
    sa_family_t family;
    uint16_t device;
    uint16_t channel;
};

/* The number of a controller `hciN`, or -1. */
static long number_of(const char *name)
{
    char *end;
    long number;

    if (strncmp(name, "hci", 3) != 0 || name[3] < '0' || name[3] > '9')
        return -1;
    number = strtol(name + 3, &end, 10);
    /* The kernel's own number for no controller is the largest of 16 bits. */
    return *end == '\0' && number < UINT16_MAX ? number : -1;
}

bool is_controller(const char *name)
{
    return number_of(name) >= 0;
}

int open_channel(const char *name, bool down)
{
    struct hci_address address = {AF_BLUETOOTH, (uint16_t)number_of(name), USER_CHANNEL};
    int channel = socket(AF_BLUETOOTH, SOCK_RAW | SOCK_CLOEXEC | SOCK_NONBLOCK, PROTOCOL_HCI);
    int error;

    if (channel < 0)
        return -1;
    /* A controller that is down already, or that is a user channel, is not taken down: bind says which. */
    if (down)
        (void)ioctl(channel, HCI_DEVICE_DOWN, (unsigned long)address.device);
    if (bind(channel, (struct sockaddr *)&address, sizeof address) == 0)
        return channel;
    error = errno;
    close(channel);
    errno = error;
    return -1;
}
