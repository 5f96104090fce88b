/* The channel to a controller: a socket that gives and takes one whole H4 packet at a time. */
#ifndef CHANNEL_H
#define CHANNEL_H

#include <stdbool.h>

/*
 * Opens the channel to a controller, which does not block. With `down` the controller is first taken from
 * whoever uses it. Returns the descriptor, or -1 with the reason in errno.
 */
int open_channel(const char *name, bool down);

/* Returns whether a name is one of a controller. */
bool is_controller(const char *name);

#endif
