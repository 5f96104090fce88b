#define _GNU_SOURCE
#include "line.h"

#include <errno.h>
#include <fcntl.h>
#include <netdb.h>
#include <netinet/in.h>
#include <netinet/tcp.h>
#include <stdbool.h>
#include <stdint.h>
#include <stdio.h>
#include <stdlib.h>
#include <string.h>
#include <sys/socket.h>
#include <termios.h>
#include <unistd.h>

/* Closes a file after something failed, and keeps why. */
static int closed(int file)
{
    int why = errno;
    close(file);
    errno = why;
    return -1;
}

static int without_blocking(int file)
{
    int flags = fcntl(file, F_GETFL);
    return flags < 0 || fcntl(file, F_SETFL, flags | O_NONBLOCK) < 0 ? closed(file) : file;
}

static int accepted(int listening, const struct addrinfo *address)
{
    int yes = 1;
    if (setsockopt(listening, SOL_SOCKET, SO_REUSEADDR, &yes, sizeof yes) != 0
        || bind(listening, address->ai_addr, address->ai_addrlen) != 0
        || listen(listening, 1) != 0)
        return -1;
    return accept4(listening, NULL, NULL, SOCK_CLOEXEC);
}

static int open_tcp(const char *text, bool is_listening)
{
    char host[256];
    const char *colon = strrchr(text, ':');
    if (colon == NULL || (size_t)(colon - text) >= sizeof host) {
        errno = EINVAL;
        return -1;
    }
    size_t length = (size_t)(colon - text);
    /* An address of IPv6 stands in brackets. */
    bool is_in_brackets = length > 1 && text[0] == '[' && text[length - 1] == ']';
    snprintf(host, sizeof host, "%.*s", (int)(is_in_brackets ? length - 2 : length),
             text + is_in_brackets);

    struct addrinfo hints = {.ai_socktype = SOCK_STREAM}, *address;
    int fault = getaddrinfo(host, colon + 1, &hints, &address);
    if (fault != 0) {
        fprintf(stderr, "%s: %s\n", text, gai_strerror(fault));
        errno = EADDRNOTAVAIL;
        return -1;
    }
    int stream = socket(address->ai_family, SOCK_STREAM | SOCK_CLOEXEC, 0);
    if (stream >= 0 && is_listening) {
        int listening = stream;
        stream = accepted(listening, address);
        closed(listening);
    } else if (stream >= 0 && connect(stream, address->ai_addr, address->ai_addrlen) != 0) {
        stream = closed(stream);
    }
    freeaddrinfo(address);
    /* Else the system keeps small packets back. */
    int yes = 1;
    if (stream >= 0 && setsockopt(stream, IPPROTO_TCP, TCP_NODELAY, &yes, sizeof yes) != 0)
        return closed(stream);
    return stream < 0 ? -1 : without_blocking(stream);
}

static bool speed_of(const char *text, speed_t *speed)
{
    static const struct {
        const char *text;
        speed_t speed;
    } speeds[] = {
        {"9600", B9600},     {"19200", B19200},   {"38400", B38400},     {"57600", B57600},
        {"115200", B115200}, {"230400", B230400}, {"460800", B460800},   {"500000", B500000},
        {"921600", B921600}, {"1000000", B1000000}, {"1500000", B1500000}, {"2000000", B2000000},
        {"3000000", B3000000},
    };
    for (size_t at = 0; at < sizeof speeds / sizeof *speeds; at++)
        if (strcmp(text, speeds[at].text) == 0) {
            *speed = speeds[at].speed;
            return true;
        }
    return false;
}

static int open_serial(const char *text)
{
    char path[256];
    const char *colon = strrchr(text, ':');
    size_t length = colon == NULL ? strlen(text) : (size_t)(colon - text);
    speed_t speed;
    if (length >= sizeof path || !speed_of(colon == NULL ? "115200" : colon + 1, &speed)) {
        errno = EINVAL;
        return -1;
    }
    snprintf(path, sizeof path, "%.*s", (int)length, text);
    int file = open(path, O_RDWR | O_NOCTTY | O_NONBLOCK | O_CLOEXEC);
    struct termios terminal;
    if (file < 0)
        return -1;
    if (tcgetattr(file, &terminal) != 0)
        return closed(file);
    cfmakeraw(&terminal);
    terminal.c_cflag |= CLOCAL | CREAD | CRTSCTS;
    if (cfsetspeed(&terminal, speed) != 0 || tcsetattr(file, TCSANOW, &terminal) != 0
        || tcflush(file, TCIOFLUSH) != 0)
        return closed(file);
    return file;
}

/* What <bluetooth/hci.h> of BlueZ has of it. */
enum { HCI_PROTOCOL = 1, HCI_USER_CHANNEL = 1 };

struct hci_address {
    sa_family_t family;
    uint16_t device;
    uint16_t channel;
};

static int open_hci(const char *number)
{
    char *end;
    unsigned long device = strtoul(number, &end, 10);
    if (*number < '0' || *number > '9' || *end != '\0' || device >= UINT16_MAX) {
        errno = EINVAL;
        return -1;
    }
    int channel = socket(AF_BLUETOOTH, SOCK_RAW | SOCK_CLOEXEC | SOCK_NONBLOCK, HCI_PROTOCOL);
    struct hci_address address = {AF_BLUETOOTH, (uint16_t)device, HCI_USER_CHANNEL};
    if (channel < 0)
        return -1;
    if (bind(channel, (const struct sockaddr *)&address, sizeof address) != 0)
        return closed(channel);
    return channel;
}

int open_line(const char *text)
{
    if (strncmp(text, "listen:", 7) == 0)
        return open_tcp(text + 7, true);
    if (strncmp(text, "connect:", 8) == 0)
        return open_tcp(text + 8, false);
    if (strncmp(text, "hci", 3) == 0)
        return open_hci(text + 3);
    return open_serial(text);
}
