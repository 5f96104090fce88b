/*
 * A door lock: serves clients over a controller, turns a motor, which is a line on standard output, and
 * saves what clients with keys change.
 *
 *     lockd TABLE KEYS LINE [FOLDER]
 *
 * LINE leads to the controller, as line.h says: listen:127.0.0.1:5000, connect:127.0.0.1:5000,
 * /dev/ttyUSB0:115200 or hci0. FOLDER has the files `values` and `rows`, which are restored at the start
 * if they are there. A line on standard input is a button inside: open or shut. Who has no key is sent
 * away after half a minute. SIGTERM and SIGINT end the connections, and then the program.
 *
 * What a client changes is saved first; then the motor turns, and then the client is answered. So whenever
 * the power fails, the next start has every value that was acknowledged. If it cannot be saved, the client
 * is not answered: no data of its connection are sent any more, the connection is ended, and the lock
 * tries to save again each second. Other clients are served, and may be told a value that is not saved.
 */
#define _GNU_SOURCE
#include "files.h"
#include "gihandop_serve.h"
#include "line.h"

#include <errno.h>
#include <fcntl.h>
#include <poll.h>
#include <signal.h>
#include <stdio.h>
#include <stdlib.h>
#include <string.h>
#include <sys/file.h>
#include <sys/signalfd.h>
#include <time.h>
#include <unistd.h>

/* How long a client may stay without a key, how long clients may take to go at the end, and after how long
   the lock tries to save again: ms. */
enum { PATIENCE = 30000, FAREWELL = 2000, RETRY = 1000 };

/* More than a table or key file has here; more than the values of a table, at most 65,536 octets, and what
   peers have configured, at most 4,096 rows, take as a text; and above all handles of HCI. */
enum { FILE_ROOM = 1 << 20, TEXT_ROOM = 1 << 18, CONNECTIONS = 0x1000 };

/* A text that is saved: its file, the text that was read or saved last, and whether the disk is known to
   have it. */
struct text {
    char path[4096];
    uint8_t octets[TEXT_ROOM];
    size_t length;
    bool is_on_disk;
};

static struct gh_host host = GH_HOST_INIT;
static struct gh_server server = GH_SERVER_INIT;
static int line = -1;
static const char *folder;           /* or NULL, if nothing is saved */
static struct text values, rows;
static bool is_behind;               /* they say less than the host, since they could not be saved */
static uint16_t state;               /* the handle of the value that a client opens the door by */
static int motor = -1;               /* where it is: 1 open, 0 shut, -1 before it has turned */
static uint64_t came[CONNECTIONS];   /* when each connection was accepted */
static uint8_t octets[4096];         /* what the controller sent, and how much of it is taken in */
static size_t octets_count, octets_taken;
static char panel[64];               /* what the panel said, and is not done yet */
static size_t panel_length;

static uint64_t now(void)
{
    struct timespec time;
    clock_gettime(CLOCK_MONOTONIC, &time);
    return (uint64_t)time.tv_sec * 1000 + (uint64_t)time.tv_nsec / 1000000;
}

/* Ends the program with what a status says. */
static void fail(const char *what, uint32_t status)
{
    uint8_t text[128];
    size_t count = 0;
    gh_text(status, text, sizeof text, &count);
    fprintf(stderr, "lockd: %s: %.*s\n", what, (int)count, (const char *)text);
    exit(1);
}

static void fail_by_system(const char *what)
{
    fprintf(stderr, "lockd: %s: %s\n", what, strerror(errno));
    exit(1);
}

/* Puts a text in its file's place, if it differs, and says whether the file has it. */
static bool save_text(struct text *saved, uint32_t status, const uint8_t *text, size_t length)
{
    if (status != GH_DONE) {
        errno = ENOMEM;
        return false;
    }
    if (saved->is_on_disk && length == saved->length && memcmp(text, saved->octets, length) == 0)
        return true;
    /* If this fails, the file may have either text. */
    saved->is_on_disk = false;
    if (!replace_file(saved->path, text, length))
        return false;
    memcpy(saved->octets, text, length);
    saved->length = length;
    saved->is_on_disk = true;
    return true;
}

/* Saves the values and the rows, and says whether both are on the disk. */
static bool save(void)
{
    static uint8_t text[TEXT_ROOM];
    size_t length;
    if (folder == NULL)
        return true;
    uint32_t status = gh_values_text(&host, 0, text, sizeof text, &length);
    bool is_saved = save_text(&values, status, text, length);
    if (is_saved) {
        status = gh_rows_text(&host, text, sizeof text, &length);
        is_saved = save_text(&rows, status, text, length);
    }
    if (!is_saved && !is_behind)
        fprintf(stderr, "lockd: %s: %s\n", folder, strerror(errno));
    is_behind = !is_saved;
    return is_saved;
}

/* Turns the motor to where it is not yet. */
static void turn_motor(bool is_open)
{
    if (motor == is_open)
        return;
    motor = is_open;
    printf("motor: %s\n", is_open ? "open" : "shut");
    fflush(stdout);
}

/* Turns the motor to where the lock's state says. */
static void obey_state(void)
{
    uint8_t value[GH_LONGEST_VALUE];
    size_t length;
    if (gh_value(&host, state, value, sizeof value, &length) == GH_DONE)
        turn_motor(length == 1 && value[0] == 1);
}

/* Notes when a client has come. */
static void hear(struct gh_server *by, const struct gh_notice *notice)
{
    (void)by;
    if (notice->kind == GH_CONNECTED)
        came[notice->connection % CONNECTIONS] = now();
}

/* Saves what clients have changed, and then does what they ask of the lock. */
static bool save_and_obey(struct gh_server *by)
{
    (void)by;
    if (!save())
        return false;
    obey_state();
    return true;
}

/* Writes to the controller as much as the line accepts. */
static size_t send_some(struct gh_server *by, const uint8_t *packet, size_t length)
{
    (void)by;
    ssize_t sent;
    do
        sent = write(line, packet, length);
    while (sent < 0 && errno == EINTR);
    if (sent < 0 && errno != EAGAIN && errno != EWOULDBLOCK)
        fail_by_system("the controller");
    return sent > 0 ? (size_t)sent : 0;
}

/* Ends the connections that are to go: all at the end, else those that stayed without a key. */
static void send_away(uint64_t time, bool all)
{
    struct gh_connection client = GH_CONNECTION_INIT;
    for (size_t place = 0; gh_connection(&host, place, &client) == GH_DONE; place++) {
        bool is_late = client.key_size == 0 && came[client.handle % CONNECTIONS] + PATIENCE < time;
        if (!client.ending && (all || is_late))
            gh_later_disconnect(&server, client.handle);
    }
}

/* Does what the panel says in whole lines. Whoever stands at the door does not wait for the disk. */
static void press(void)
{
    char *end;
    while ((end = memchr(panel, '\n', panel_length)) != NULL) {
        *end = '\0';
        uint8_t value = strcmp(panel, "open") == 0;
        if (value == 1 || strcmp(panel, "shut") == 0) {
            turn_motor(value == 1);
            gh_later_update(&server, state, &value, 1);
        }
        panel_length -= (size_t)(end + 1 - panel);
        memmove(panel, end + 1, panel_length);
    }
}

/* Does all that there is to do, and says whether all that is owed is out: it is not where the line is full. */
static bool act(uint64_t time, bool is_ending)
{
    static uint64_t tried;
    size_t used;
    uint32_t status = gh_serve(&server, time, octets + octets_taken, octets_count - octets_taken, &used);
    octets_taken += used;
    if (status == GH_DONE) {
        send_away(time, is_ending);
        press();
        status = gh_serve(&server, time, GH_EMPTY, 0, &used);
    }
    if (status != GH_DONE && status != GH_OUTPUT_OWED)
        fail("serving", status);
    if (is_behind && tried + RETRY <= time) {
        tried = time;
        save_and_obey(&server);
    }
    return status == GH_DONE;
}

/* How long nothing has to be done, in milliseconds, unless something comes; -1 is for ever. */
static int leisure(uint64_t time, uint64_t end)
{
    struct gh_connection client = GH_CONNECTION_INIT;
    uint64_t deadline;
    if (end != 0)
        return end > time ? (int)(end - time) : 0;
    if (gh_connection(&host, 0, &client) != GH_DONE)
        return is_behind ? RETRY : -1;
    if (gh_deadline(&host, &deadline) == GH_DONE && deadline < time + 1000)
        return deadline > time ? (int)(deadline - time) : 0;
    return 1000;
}

/* Reads what has come, and says how much that is; or that the other side has ended. */
static bool read_some(const struct pollfd *polled, void *into, size_t room, size_t *count)
{
    ssize_t got = polled->revents != 0 ? read(polled->fd, into, room) : -1;
    if (got < 0 && polled->revents != 0 && errno != EAGAIN && errno != EINTR)
        fail_by_system("reading");
    *count = got > 0 ? (size_t)got : 0;
    return got != 0;
}

/* Serves until the controller goes, or a signal has come and the clients are gone. Says whether the
   controller is there and waits for the next packet. */
static bool serve(int signals)
{
    struct gh_connection client = GH_CONNECTION_INIT;
    struct pollfd polled[3] = {{line, 0, 0}, {STDIN_FILENO, 0, 0}, {signals, POLLIN, 0}};
    uint64_t end = 0;
    for (;;) {
        uint64_t time = now();
        bool is_out = act(time, end != 0);
        if (end != 0 && time >= end)
            return is_out;
        if (is_out && end != 0 && gh_connection(&host, 0, &client) != GH_DONE)
            return true;
        polled[0].events = is_out ? POLLIN : POLLOUT;
        polled[1].events = is_out ? POLLIN : 0;
        if (poll(polled, 3, leisure(now(), end)) < 0) {
            if (errno != EINTR)
                fail_by_system("poll");
            continue;
        }
        if (polled[2].revents != 0) {
            end = time + FAREWELL;
            polled[2].fd = -1;
        }
        if (!is_out)
            continue;
        /* All that had come is accepted. */
        octets_taken = 0;
        if (!read_some(&polled[0], octets, sizeof octets, &octets_count))
            return false;
        size_t said;
        if (!read_some(&polled[1], panel + panel_length, sizeof panel - panel_length, &said))
            polled[1].fd = -1;
        panel_length += said;
    }
}

/* Reads a text that was saved, if it is there. */
static void read_saved(struct text *saved, const char *name)
{
    if (folder == NULL)
        return;
    if (snprintf(saved->path, sizeof saved->path, "%s/%s", folder, name) >= (int)sizeof saved->path)
        errno = ENAMETOOLONG;
    else if (read_file(saved->path, true, saved->octets, sizeof saved->octets, &saved->length))
        return;
    fail_by_system(saved->path);
}

/* Locks the folder for as long as the program runs, so that no other lock saves there. */
static void lock_folder(void)
{
    int locked = folder != NULL ? open(folder, O_RDONLY | O_DIRECTORY | O_CLOEXEC) : 0;
    if (locked < 0 || (folder != NULL && flock(locked, LOCK_EX | LOCK_NB) != 0))
        fail_by_system(folder);
}

static void open_host(const char *table_path, const char *keys_path)
{
    static uint8_t table[FILE_ROOM], keys[FILE_ROOM];
    static const uint8_t lock[] = {0xF0, 0xFF}, lock_state[] = {0xF1, 0xFF};
    const struct gh_config config = GH_CONFIG_INIT;
    size_t table_length, keys_length, left_out, length;
    if (!read_file(table_path, false, table, sizeof table, &table_length))
        fail_by_system(table_path);
    if (!read_file(keys_path, false, keys, sizeof keys, &keys_length))
        fail_by_system(keys_path);
    lock_folder();
    read_saved(&values, "values");
    read_saved(&rows, "rows");
    uint32_t status = gh_open(&host, table, table_length, keys, keys_length, rows.octets, rows.length,
                              values.octets, values.length, &config, &left_out);
    if (status != GH_DONE) {
        uint8_t text[1024];
        if (gh_explain(table, table_length, keys, keys_length, rows.octets, rows.length, values.octets,
                       values.length, text, sizeof text, &length)
            == GH_DONE)
            fprintf(stderr, "lockd: %.*s\n", (int)length, (const char *)text);
        fail("opening", status);
    }
    if (left_out != 0)
        fprintf(stderr, "lockd: %s: %zu values do not fit the table\n", values.path, left_out);
    status = gh_find(&host, lock, sizeof lock, lock_state, sizeof lock_state, 1, &state);
    if (status != GH_DONE)
        fail("the lock's state", status);
    obey_state();
    server.host = &host;
    server.heard = hear;
    server.save = save_and_obey;
    server.send = send_some;
}

int main(int argc, char **argv)
{
    static const uint8_t reset[] = {0x01, 0x03, 0x0C, 0x00};
    if (argc != 4 && argc != 5) {
        fprintf(stderr, "usage: lockd TABLE KEYS LINE [FOLDER]\n");
        return 64;
    }
    folder = argv[4];
    open_host(argv[1], argv[2]);
    line = open_line(argv[3]);
    if (line < 0)
        fail_by_system(argv[3]);

    /* Signals are read like anything else that comes. */
    sigset_t ends;
    sigemptyset(&ends);
    sigaddset(&ends, SIGTERM);
    sigaddset(&ends, SIGINT);
    sigprocmask(SIG_BLOCK, &ends, NULL);
    signal(SIGPIPE, SIG_IGN);
    int signals = signalfd(-1, &ends, SFD_CLOEXEC);
    if (signals < 0)
        fail_by_system("signals");

    bool is_in_step = serve(signals);
    bool is_saved = !is_behind || save();
    gh_close(&host);
    /* A controller that is reset advertises no more. */
    if (is_in_step && write(line, reset, sizeof reset) < 0)
        fail_by_system("the controller");
    close(line);
    return is_saved ? 0 : 1;
}
