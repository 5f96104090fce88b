/*
 * Connects a Bluetooth controller of Linux with a host that speaks H4 over a serial line.
 *
 *     hci_bridge [--down] hciN PATH
 *
 * PATH becomes a link to a pseudo-terminal, the line, that nobody but this user can open. While a host has it
 * open, the HCI user channel of hciN is open, so that no other program uses the controller, and packets go by
 * in both directions. When the host closes it or dies, the controller is reset and free again, and the next
 * host may come. If the controller goes away, the host's line ends.
 *
 * Each host gets a new line. The bridge closes the old line after it has moved PATH to the new one, so that no
 * other program gets the number of a terminal to which PATH leads. If PATH cannot be moved, the bridge logs the
 * reason once, leaves the old line open, and tries again each half second. It locks PATH.lock, a file that
 * stays: a second bridge with the same PATH ends at once and changes nothing.
 *
 * --down takes the controller from the kernel's own host (bluetoothd) first. Without it the bridge waits
 * until the controller is down.
 *
 * It needs CAP_NET_ADMIN, and the network namespace of the machine. It takes no more memory once it runs, and
 * does not wait for the reader of its log, which is standard error: it drops lines and counts them. SIGTERM,
 * SIGINT and SIGHUP end it: the controller is reset, and PATH is removed. Under nohup it goes on after SIGHUP.
 *
 * Exit status: 0 after a signal, 64 for unknown words, 71 if the line or PATH cannot be made at the start, 75
 * if another bridge uses PATH.
 */
#define _GNU_SOURCE
#include "channel.h"

#include <errno.h>
#include <fcntl.h>
#include <limits.h>
#include <poll.h>
#include <signal.h>
#include <stdint.h>
#include <stdio.h>
#include <stdlib.h>
#include <string.h>
#include <sys/file.h>
#include <sys/inotify.h>
#include <sys/signalfd.h>
#include <sys/stat.h>
#include <sys/time.h>
#include <termios.h>
#include <unistd.h>

/* The packet indicators of H4: Core 5.0, Vol 4 Part A, 2. */
enum { COMMAND = 1, ACL = 2 };

/* An ACL data packet is the longest one: indicator, header and 65,535 octets. */
enum { LONGEST = 5 + 65535 };

/* How long it takes until a controller that cannot be opened, or PATH, is tried again, in milliseconds. */
enum { RETRY = 500 };

/* How long a controller may take to be reset when its host is gone, in milliseconds. */
enum { RESET_TIME = 1000 };

/* How long the bridge waits for a reader of its log that accepts a part of a line, in microseconds. */
enum { LOG_TIME = 50000 };

enum { USAGE = 64, OS_ERROR = 71, IN_USE = 75 };

static const uint8_t RESET[] = {COMMAND, 0x03, 0x0c, 0x00};

/* Octets on their way in one direction. */
struct way {
    uint8_t octets[LONGEST];
    size_t count;
};

/* A pseudo-terminal. */
struct line {
    int master;
    /* What has the events of the other end, which hosts open and close. */
    int events;
    /* How many have the other end open, by the events that were read. */
    int openers;
    /* Whether the last one of them has closed it, also if another one has opened it since. */
    bool was_left;
    /* The path of the other end. */
    char terminal[64];
};

/* What the bridge holds. */
struct bridge {
    const char *controller;
    const char *path;
    /* PATH.lock, and PATH.new, which becomes PATH. */
    char lock_path[PATH_MAX];
    char new_path[PATH_MAX];
    bool down;
    int signals;
    /* The open lock, or -1. */
    int lock;
    struct line line;
    /* The user channel, or -1. */
    int channel;
    /* errno of the last try to open the channel, which is logged once. */
    int logged;
    struct way from_host;
    struct way to_host;
};

/* Writes to the log as much as its reader takes now. Returns how much that is, or -1. */
static ssize_t write_now(const char *text, size_t length)
{
    static const struct itimerval limit = {{0, LOG_TIME}, {0, LOG_TIME}}, none = {{0, 0}, {0, 0}};
    struct pollfd log = {STDERR_FILENO, POLLOUT, 0};
    ssize_t written;

    if (poll(&log, 1, 0) <= 0)
        return -1;
    /* A pipe that is ready accepts a whole line. A terminal may accept a part, until the timer interrupts. */
    setitimer(ITIMER_REAL, &limit, NULL);
    written = write(STDERR_FILENO, text, length);
    setitimer(ITIMER_REAL, &none, NULL);
    return written;
}

/* Writes a line to the log, and ends the one before it if that was cut. Returns whether it was written, at least
   up to its end. */
static bool write_line(const char *line, size_t length)
{
    static bool is_cut;
    ssize_t written;

    if (is_cut && write_now("\n", 1) != 1)
        return false;
    written = write_now(line, length);
    is_cut = written > 0 && (size_t)written < length;
    return written >= (ssize_t)length - 1;
}

/* Writes a line to the log, after the number of dropped lines if any. Drops it if the reader takes nothing. */
static void say_of(const char *about, const char *what)
{
    static unsigned long dropped;
    char line[PIPE_BUF];
    int length;

    if (dropped > 0) {
        length = snprintf(line, sizeof line, "hci_bridge: %lu lines of the log dropped\n", dropped);
        if (!write_line(line, (size_t)length)) {
            dropped++;
            return;
        }
        dropped = 0;
    }
    length = snprintf(line, sizeof line, "hci_bridge: %s: %s\n", about, what);
    if (length >= (int)sizeof line) {
        length = (int)sizeof line - 1;
        line[length - 1] = '\n';
    }
    if (!write_line(line, (size_t)length))
        dropped++;
}

static void say(const struct bridge *bridge, const char *what)
{
    say_of(bridge->controller, what);
}

/* Returns why PATH or the line failed, from errno. Only the lock would have to wait. */
static const char *reason(void)
{
    return errno == EWOULDBLOCK ? "another bridge uses it" : strerror(errno);
}

/* Removes PATH if it leads to the bridge's line. */
static void remove_link(const struct bridge *bridge)
{
    char found[sizeof bridge->line.terminal];
    ssize_t length = readlink(bridge->path, found, sizeof found);

    if (length > 0 && (size_t)length == strlen(bridge->line.terminal) &&
        memcmp(found, bridge->line.terminal, (size_t)length) == 0)
        unlink(bridge->path);
}

/* Ends the program since `what` failed, for the reason in errno. */
static void fail(const struct bridge *bridge, const char *what)
{
    int status = errno == EWOULDBLOCK ? IN_USE : OS_ERROR;

    say_of(what, reason());
    remove_link(bridge);
    exit(status);
}

/* Locks PATH.lock, unless the bridge holds it. Returns whether it holds it now, or else the reason in errno. */
static bool take_lock(struct bridge *bridge)
{
    int lock = open(bridge->lock_path, O_RDWR | O_CREAT | O_NOFOLLOW | O_CLOEXEC, S_IRUSR | S_IWUSR);
    struct stat found, held;
    int error;

    if (lock < 0)
        return false;
    /* The folder may have been made anew, and has another file then. */
    if (bridge->lock >= 0 && fstat(lock, &found) == 0 && fstat(bridge->lock, &held) == 0 &&
        found.st_dev == held.st_dev && found.st_ino == held.st_ino) {
        close(lock);
        return true;
    }
    if (flock(lock, LOCK_EX | LOCK_NB) < 0) {
        error = errno;
        close(lock);
        errno = error;
        return false;
    }
    if (bridge->lock >= 0)
        close(bridge->lock);
    bridge->lock = lock;
    return true;
}

/* Moves PATH to a terminal. Replaces what is there only if it is a link. Returns whether PATH leads to the
   terminal, or else the reason in errno. */
static bool move_link(const struct bridge *bridge, const char *terminal)
{
    struct stat found;

    if (lstat(bridge->path, &found) == 0 && !S_ISLNK(found.st_mode)) {
        errno = EEXIST;
        return false;
    }
    if (lstat(bridge->new_path, &found) == 0 && S_ISLNK(found.st_mode))
        unlink(bridge->new_path);
    return symlink(terminal, bridge->new_path) == 0 && rename(bridge->new_path, bridge->path) == 0;
}

/* Closes what is open of a line. The reason in errno stays. */
static void close_line(const struct line *line)
{
    int error = errno;

    if (line->master >= 0)
        close(line->master);
    if (line->events >= 0)
        close(line->events);
    errno = error;
}

/* Makes a raw pseudo-terminal that only this user can open. Returns whether that worked, or else the reason in
   errno, and what is open of it. */
static bool open_line(struct line *line)
{
    struct termios raw;
    int other;

    line->events = -1;
    line->openers = 0;
    line->was_left = false;
    line->master = posix_openpt(O_RDWR | O_NOCTTY | O_CLOEXEC | O_NONBLOCK);
    if (line->master < 0 || grantpt(line->master) < 0 ||
        ptsname_r(line->master, line->terminal, sizeof line->terminal) != 0 ||
        chmod(line->terminal, S_IRUSR | S_IWUSR) < 0 || unlockpt(line->master) < 0)
        return false;
    /* Linux gives the master the settings of the other end. */
    if (tcgetattr(line->master, &raw) < 0)
        return false;
    cfmakeraw(&raw);
    if (tcsetattr(line->master, TCSANOW, &raw) < 0)
        return false;
    other = open(line->terminal, O_RDWR | O_NOCTTY | O_CLOEXEC);
    if (other < 0)
        return false;
    /* From now on the line is hung up until a host opens it. */
    close(other);
    line->events = inotify_init1(IN_CLOEXEC | IN_NONBLOCK);
    return line->events >= 0 && inotify_add_watch(line->events, line->terminal, IN_OPEN | IN_CLOSE) >= 0;
}

/* Makes a line and moves PATH to it. Returns NULL, or else what failed, for the reason in errno. */
static const char *offer_line(struct bridge *bridge, struct line *line)
{
    const char *failed = bridge->path;

    if (!take_lock(bridge))
        return errno == EWOULDBLOCK ? bridge->path : bridge->lock_path;
    if (!open_line(line))
        failed = "pseudo-terminal";
    else if (move_link(bridge, line->terminal))
        return NULL;
    close_line(line);
    return failed;
}

/* Returns whether a host has the line open. */
static bool has_host(const struct bridge *bridge)
{
    struct pollfd line = {bridge->line.master, 0, 0};

    while (poll(&line, 1, 0) < 0)
        if (errno != EINTR)
            fail(bridge, "poll");
    return !(line.revents & POLLHUP);
}

/* Reads the events of the line. Returns whether a host has closed it. It may have left octets and settings. */
static bool was_closed(struct bridge *bridge)
{
    _Alignas(struct inotify_event) char events[4096];
    const struct inotify_event *event;
    struct line *line = &bridge->line;
    uint32_t all = 0;
    ssize_t got;

    while ((got = read(line->events, events, sizeof events)) > 0)
        for (const char *at = events; at < events + got; at += sizeof *event + event->len) {
            event = (const void *)at;
            all |= event->mask;
            if (event->mask & IN_OPEN)
                line->openers++;
            else if (!(event->mask & IN_CLOSE) || line->openers <= 1)
                line->was_left = true;
            else
                line->openers--;
        }
    return all & (IN_CLOSE | IN_Q_OVERFLOW);
}

/* Returns whether a signal asks the program to end, once one of these is ready or the time is up. */
static bool waited(const struct bridge *bridge, struct pollfd *ready, nfds_t count, int timeout)
{
    ready[0] = (struct pollfd){bridge->signals, POLLIN, 0};
    while (poll(ready, count, timeout) < 0)
        if (errno != EINTR)
            fail(bridge, "poll");
    return ready[0].revents != 0;
}

/* Has a new line take the place of the bridge's line, which ends. Returns whether a signal came first. */
static bool change_line(struct bridge *bridge)
{
    const char *failed;
    struct line line;
    int logged = 0;

    while ((failed = offer_line(bridge, &line)) != NULL) {
        struct pollfd ready[1];

        if (logged != errno) {
            logged = errno;
            say_of(failed, reason());
        }
        if (waited(bridge, ready, 1, RETRY))
            return true;
    }
    close_line(&bridge->line);
    bridge->line = line;
    return false;
}

/* Returns the length of the packet that begins so, 0 if it is not whole, or -1 if no packet begins so. A host
   sends commands and ACL data. */
static ssize_t length_of(const uint8_t *octets, size_t count)
{
    size_t header, all;

    if (count == 0)
        return 0;
    if (octets[0] != COMMAND && octets[0] != ACL)
        return -1;
    header = octets[0] == COMMAND ? 4 : 5;
    if (count < header)
        return 0;
    all = header + (octets[0] == COMMAND ? octets[3] : octets[3] | (size_t)octets[4] << 8);
    return count < all ? 0 : (ssize_t)all;
}

/* What became of octets that were to go. */
enum outcome { GONE, WAITS, BROKEN };

/* Sends the whole packets of the host, as far as the controller takes them. */
static enum outcome send_packets(struct bridge *bridge)
{
    struct way *way = &bridge->from_host;
    ssize_t length;

    while ((length = length_of(way->octets, way->count)) > 0) {
        ssize_t sent = write(bridge->channel, way->octets, (size_t)length);

        if (sent < 0 && (errno == EAGAIN || errno == EINTR))
            return WAITS;
        if (sent < 0) {
            say(bridge, "gone: it cannot be written");
            return BROKEN;
        }
        way->count -= (size_t)length;
        memmove(way->octets, way->octets + length, way->count);
    }
    if (length < 0) {
        say(bridge, "the host sent octets that begin no packet");
        return BROKEN;
    }
    return GONE;
}

/* Takes in what the host sends. Returns whether it is still there. */
static bool hear_host(struct bridge *bridge)
{
    struct way *way = &bridge->from_host;
    ssize_t got = read(bridge->line.master, way->octets + way->count, sizeof way->octets - way->count);

    if (got > 0)
        way->count += (size_t)got;
    return got > 0 || (got < 0 && (errno == EAGAIN || errno == EINTR));
}

/* Takes in the next packet of the controller. Returns whether it is still there. */
static bool hear_controller(struct bridge *bridge)
{
    struct way *way = &bridge->to_host;
    ssize_t got = read(bridge->channel, way->octets, sizeof way->octets);

    if (got > 0)
        way->count = (size_t)got;
    if (got > 0 || (got < 0 && (errno == EAGAIN || errno == EINTR)))
        return true;
    say(bridge, "gone: it cannot be read");
    return false;
}

/* Hands the host what the controller has sent, as far as it takes that. Returns whether it is still there. */
static bool tell_host(struct bridge *bridge)
{
    struct way *way = &bridge->to_host;
    ssize_t sent = write(bridge->line.master, way->octets, way->count);

    if (sent < 0)
        return errno == EAGAIN || errno == EINTR;
    way->count -= (size_t)sent;
    memmove(way->octets, way->octets + sent, way->count);
    return true;
}

/* Why the packets of a host go by no longer. */
enum end { HOST_GONE, CONTROLLER_GONE, SIGNALLED };

/* Has packets go by until one side is gone. Neither side is read while the other takes nothing. A host is gone
   too if the next one has opened its line before that was seen: it has to open the next line. */
static enum end serve_host(struct bridge *bridge)
{
    enum outcome sent = GONE;

    bridge->from_host.count = 0;
    bridge->to_host.count = 0;
    for (;;) {
        bool tells = bridge->to_host.count > 0;
        struct pollfd ready[] = {
            {0},
            {bridge->line.master, (short)((tells ? POLLOUT : 0) | (sent == GONE ? POLLIN : 0)), 0},
            {bridge->channel, (short)((tells ? 0 : POLLIN) | (sent == GONE ? 0 : POLLOUT)), 0},
            {bridge->line.events, POLLIN, 0},
        };

        if (waited(bridge, ready, 4, -1))
            return SIGNALLED;
        if (ready[1].revents & POLLHUP || (ready[3].revents != 0 && was_closed(bridge) && bridge->line.was_left))
            return HOST_GONE;
        if (ready[1].revents & POLLOUT && !tell_host(bridge))
            return HOST_GONE;
        if (ready[1].revents & POLLIN && !hear_host(bridge))
            return HOST_GONE;
        if (tells && ready[2].revents & (POLLERR | POLLHUP)) {
            say(bridge, "gone: it cannot be read");
            return CONTROLLER_GONE;
        }
        if (!tells && ready[2].revents & (POLLIN | POLLERR | POLLHUP) && !hear_controller(bridge))
            return CONTROLLER_GONE;
        sent = send_packets(bridge);
        if (sent == BROKEN)
            return CONTROLLER_GONE;
    }
}

/* Resets the controller, so that it neither advertises nor keeps a connection, and frees it. */
static void free_controller(struct bridge *bridge)
{
    static const uint8_t done[] = {0x04, 0x0e};
    struct way *way = &bridge->to_host;
    int left = RESET_TIME;

    if (write(bridge->channel, RESET, sizeof RESET) == (ssize_t)sizeof RESET)
        while (left > 0) {
            struct pollfd channel = {bridge->channel, POLLIN, 0};
            ssize_t got;

            if (poll(&channel, 1, 10) < 0 && errno != EINTR)
                break;
            left -= 10;
            if (!(channel.revents & POLLIN))
                continue;
            got = read(bridge->channel, way->octets, sizeof way->octets);
            if (got <= 0 || (got >= 6 && memcmp(way->octets, done, sizeof done) == 0 &&
                             way->octets[4] == RESET[1] && way->octets[5] == RESET[2]))
                break;
        }
    close(bridge->channel);
    bridge->channel = -1;
}

/* Waits until a host has the line open and the controller is there. Returns whether a signal came. */
static bool await_host(struct bridge *bridge)
{
    for (;;) {
        bool asked = has_host(bridge);
        struct pollfd ready[] = {{0}, {bridge->line.events, POLLIN, 0}};

        if (asked) {
            bridge->channel = open_channel(bridge->controller, bridge->down);
            if (bridge->channel >= 0)
                break;
            if (bridge->logged != errno) {
                bridge->logged = errno;
                say(bridge, strerror(bridge->logged));
            }
        }
        if (waited(bridge, ready, 2, asked ? RETRY : -1))
            return true;
        if (was_closed(bridge) && change_line(bridge))
            return true;
    }
    bridge->logged = 0;
    say(bridge, "open for a host");
    return false;
}

/* Serves one host after another until a signal comes. */
static void serve(struct bridge *bridge)
{
    const char *failed = offer_line(bridge, &bridge->line);

    if (failed != NULL)
        fail(bridge, failed);
    say(bridge, "ready");
    while (!await_host(bridge)) {
        enum end end = serve_host(bridge);

        if (end == CONTROLLER_GONE) {
            close(bridge->channel);
            bridge->channel = -1;
        } else {
            free_controller(bridge);
            say(bridge, "free");
        }
        /* A new line has nothing of the old one, whose end hangs up a host that is still there. */
        if (end == SIGNALLED || change_line(bridge))
            break;
    }
    /* The line is open until the program ends. */
    remove_link(bridge);
}

/* Returns a descriptor that is ready once a signal asks the program to end. */
static int ending_signals(const struct bridge *bridge)
{
    struct sigaction hangup;
    sigset_t signals;
    int descriptor;

    sigemptyset(&signals);
    sigaddset(&signals, SIGTERM);
    sigaddset(&signals, SIGINT);
    if (sigaction(SIGHUP, NULL, &hangup) == 0 && hangup.sa_handler != SIG_IGN)
        sigaddset(&signals, SIGHUP);
    if (sigprocmask(SIG_SETMASK, &signals, NULL) < 0)
        fail(bridge, "signals");
    descriptor = signalfd(-1, &signals, SFD_CLOEXEC);
    if (descriptor < 0)
        fail(bridge, "signals");
    return descriptor;
}

/* Interrupts a write to the log. */
static void interrupt(int signal)
{
    (void)signal;
}

/* Has a write fail instead of ending the program, and has the timer of the log interrupt it. */
static void set_signals(void)
{
    const struct sigaction action = {.sa_handler = interrupt};

    signal(SIGPIPE, SIG_IGN);
    signal(SIGXFSZ, SIG_IGN);
    sigaction(SIGALRM, &action, NULL);
}

/* Opens the standard descriptors that are closed, so that none of them becomes the line or the channel. */
static void open_standard(const struct bridge *bridge)
{
    int descriptor;

    do {
        descriptor = open("/dev/null", O_RDWR | O_CLOEXEC);
        if (descriptor < 0)
            fail(bridge, "/dev/null");
    } while (descriptor <= STDERR_FILENO);
    close(descriptor);
}

int main(int argc, char **argv)
{
    static struct bridge bridge = {.lock = -1, .channel = -1, .path = ""};
    int word = 1;

    set_signals();
    open_standard(&bridge);
    if (word < argc && strcmp(argv[word], "--down") == 0) {
        bridge.down = true;
        word++;
    }
    if (argc - word != 2 || !is_controller(argv[word])) {
        fputs("usage: hci_bridge [--down] hciN PATH\n", stderr);
        return USAGE;
    }
    bridge.controller = argv[word];
    bridge.path = argv[word + 1];
    if (snprintf(bridge.lock_path, sizeof bridge.lock_path, "%s.lock", bridge.path) >= PATH_MAX ||
        snprintf(bridge.new_path, sizeof bridge.new_path, "%s.new", bridge.path) >= PATH_MAX) {
        errno = ENAMETOOLONG;
        fail(&bridge, bridge.path);
    }
    bridge.signals = ending_signals(&bridge);
    serve(&bridge);
    return 0;
}
