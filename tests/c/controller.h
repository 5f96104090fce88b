/* A controller in memory, for the tests: it answers commands, and brings what phones send. */
#ifndef CONTROLLER_H
#define CONTROLLER_H

#include "gihandop.h"

/* A file that a test is given. */
struct file {
    uint8_t octets[65536];
    size_t length;
};

/* Counts a check, and tells where it failed. */
#define CHECK(test) check((test), #test, __FILE__, __LINE__)
void check(bool is_so, const char *text, const char *file, int line);

/* Whether a check failed. */
bool failed(void);

/* Ends the test: tells how many checks there were, and answers 0 where none failed. */
int result(void);

void read_file(const char *path, struct file *file);

/* The frames of the Attribute Protocol that went out last. */
struct heard {
    uint8_t octets[600];
    size_t length;
    unsigned count;
};

/* The notices of what was brought last. */
extern struct gh_notice noticed[64];
extern size_t noticed_count;

/* Takes in octets, answers each command that the host sends and completes each of its packets,
   until nothing is owed. Answers the first status that is not GH_DONE. */
uint32_t bring(struct gh_host *host, const uint8_t *octets, size_t length, struct heard *heard);

/* Brings nothing: hands out what is owed, and answers it. */
void settle(struct gh_host *host, struct heard *heard);

/* A phone connects, with the address 00:11:22:33:44:55, which is public. */
void connect_phone(struct gh_host *host, uint16_t connection);

/* Its link is encrypted by the key of examples/keys.toml with the diversifier 514. */
void encrypt(struct gh_host *host, uint16_t connection);

/* It sends a PDU of the Attribute Protocol. */
void say(struct gh_host *host, uint16_t connection, const uint8_t *pdu, size_t length,
         struct heard *heard);

/* It is gone. */
void leave(struct gh_host *host, uint16_t connection);

/* Whether a frame that was heard last is this PDU. */
bool is_heard(const struct heard *heard, const uint8_t *pdu, size_t length);

/* Command Complete of Reset, with the status 0: Core 5.0, Vol 2 Part E, 7.7.14. */
extern const uint8_t reset_complete[7];

/* Opens a host with so many slots, which receives 247 octets. Reset is owed. No rows are none. */
uint32_t begin_host(struct gh_host *host, const struct file *table, const struct file *keys,
                    const struct file *rows, size_t slots);

/* The same, and initialises the controller. */
uint32_t open_host(struct gh_host *host, const struct file *table, const struct file *keys,
                   const struct file *rows, size_t slots);

#endif
