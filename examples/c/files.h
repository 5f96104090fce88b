/* Files that are read whole, and one that is replaced whole. */
#ifndef FILES_H
#define FILES_H

#include <stdbool.h>
#include <stddef.h>
#include <stdint.h>

/* Reads a file into so much room, and puts its length into *length. One that need not be there is
   empty where it is not. Where it answers false, errno says why. */
bool read_file(const char *path, bool need_not_be, uint8_t *into, size_t room, size_t *length);

/* Puts octets in a file's place. Whenever the power fails, what was there or what comes is there,
   whole; and once it answers true, what comes. Where it answers false, errno says why. */
bool replace_file(const char *path, const uint8_t *octets, size_t length);

#endif
