/* Ways to a controller. */
#ifndef LINE_H
#define LINE_H

/*
 * Opens the way that a text says, and answers its descriptor, which does not block; or -1, and
 * errno, or a line on standard error, says why.
 *
 *     listen:ADDRESS:PORT      a controller connects to this address; it waits until one has
 *     connect:ADDRESS:PORT     a controller listens there
 *     /dev/NAME[:SPEED]        a serial line with hardware flow control, at so many bits a second:
 *                              115,200 where no speed is written
 *     hciN                     a controller that Linux has, by the user channel of HCI, which gives
 *                              it to one program alone: it has to be down (hciconfig hciN down),
 *                              and the program wants CAP_NET_ADMIN
 *
 * Each write to the last is to be one whole packet, as gh_next_out hands it out.
 */
int open_line(const char *text);

#endif
