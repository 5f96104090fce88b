#define _GNU_SOURCE
#include "files.h"

#include <errno.h>
#include <fcntl.h>
#include <libgen.h>
#include <limits.h>
#include <stdio.h>
#include <string.h>
#include <unistd.h>

bool read_file(const char *path, bool need_not_be, uint8_t *into, size_t room, size_t *length)
{
    *length = 0;
    int file = open(path, O_RDONLY | O_CLOEXEC);
    if (file < 0)
        return need_not_be && errno == ENOENT;
    ssize_t count;
    do {
        count = read(file, into + *length, room - *length);
        *length += count > 0 ? (size_t)count : 0;
    } while (count > 0 && *length < room);
    if (count > 0)
        errno = EFBIG;
    int why = errno;
    close(file);
    errno = why;
    return count == 0;
}

static bool write_whole(int file, const uint8_t *octets, size_t length)
{
    while (length > 0) {
        ssize_t count = write(file, octets, length);
        if (count < 0 && errno == EINTR)
            continue;
        if (count < 0)
            return false;
        octets += count;
        length -= (size_t)count;
    }
    return fsync(file) == 0;
}

/* Has the system put on the disk which files a folder has. */
static bool keep_folder(char *path)
{
    int folder = open(dirname(path), O_RDONLY | O_DIRECTORY | O_CLOEXEC);
    if (folder < 0)
        return false;
    bool is_kept = fsync(folder) == 0;
    close(folder);
    return is_kept;
}

bool replace_file(const char *path, const uint8_t *octets, size_t length)
{
    char beside[PATH_MAX];
    if (snprintf(beside, sizeof beside, "%s.new", path) >= (int)sizeof beside) {
        errno = ENAMETOOLONG;
        return false;
    }
    /* One that a crash has left is no longer wanted, and no link is followed. */
    if (unlink(beside) != 0 && errno != ENOENT)
        return false;
    int file = open(beside, O_WRONLY | O_CREAT | O_EXCL | O_CLOEXEC, 0600);
    if (file < 0)
        return false;
    bool is_written = write_whole(file, octets, length);
    int why = errno;
    if (close(file) == 0 && is_written)
        return rename(beside, path) == 0 && keep_folder(beside);
    if (!is_written)
        errno = why;
    return false;
}
