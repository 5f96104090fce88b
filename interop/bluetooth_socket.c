/* Gives a program a sequenced-packet socket in place of the kernel's L2CAP socket, by LD_PRELOAD, and
 * an adapter in place of the kernel's, of which it is told that it is up and has an address. Where the
 * kernel has no ciphers, a socket that does nothing stands in for them.
 *
 * The socket is joined to PHONE.att, where clients.py stands in for a kernel with an adapter; a
 * security level is asked for at PHONE.security, one octet, and answered by the level that is
 * reached. PHONE is the environment variable INTEROP_PHONE. The numbers are those of Linux. */
#define _GNU_SOURCE
#include <dlfcn.h>
#include <errno.h>
#include <stdarg.h>
#include <stdint.h>
#include <stdio.h>
#include <stdlib.h>
#include <string.h>
#include <sys/ioctl.h>
#include <sys/socket.h>
#include <sys/un.h>
#include <unistd.h>

enum {
	PROTOCOL_L2CAP = 0, PROTOCOL_HCI = 1,
	LEVEL_L2CAP = 6, OPTIONS = 1, CONNECTION_INFORMATION = 2,
	LEVEL_BLUETOOTH = 274, SECURITY = 4, SEND_MTU = 12, RECEIVE_MTU = 13,
	LOW = 1, MEDIUM = 2,
	ATT_CHANNEL = 4, PUBLIC_ADDRESS = 1,
	DESCRIPTORS = 1024,
	IS_UP = 1, IS_RUNNING = 4,
};
#define DEVICE_INFORMATION _IOR('H', 211, int)

struct address {
	uint16_t family, psm;
	uint8_t octets[6];
	uint16_t channel;
	uint8_t type;
};
struct options {
	uint16_t send_mtu, receive_mtu, flush;
	uint8_t mode, check, transmissions;
	uint16_t window;
};
struct information {
	uint16_t handle;
	uint8_t class[3];
};
struct security {
	uint8_t level, key_size;
};

struct device {
	uint16_t number;
	char name[8];
	uint8_t octets[6];
	uint32_t flags;
};

static struct {
	int is_ours, is_connected, is_cipher;
	uint8_t level;
	struct address local, remote;
} sockets[DESCRIPTORS];

#define REAL(name) ((__typeof__(&name))dlsym(RTLD_NEXT, #name))

static int is_ours(int fd)
{
	return fd >= 0 && fd < DESCRIPTORS && sockets[fd].is_ours;
}

static int join(int fd, const char *what)
{
	struct sockaddr_un to = { .sun_family = AF_UNIX };
	const char *phone = getenv("INTEROP_PHONE");

	snprintf(to.sun_path, sizeof(to.sun_path), "%s.%s", phone ? phone : "", what);
	return REAL(connect)(fd, (struct sockaddr *)&to, sizeof(to));
}

/* Asks for a level, and waits for the one that is reached. */
static int secure(int fd, uint8_t level)
{
	uint8_t reached = 0;
	int asking = REAL(socket)(AF_UNIX, SOCK_SEQPACKET | SOCK_CLOEXEC, 0);

	if (asking < 0)
		return -1;
	if (join(asking, "security") == 0 && write(asking, &level, 1) == 1 && read(asking, &reached, 1) != 1)
		reached = 0;
	REAL(close)(asking);
	if (reached < level) {
		errno = EACCES;
		return -1;
	}
	sockets[fd].level = reached;
	return 0;
}

static int hand_out(void *to, socklen_t *room, const void *from, socklen_t size)
{
	memcpy(to, from, *room < size ? *room : size);
	*room = size;
	return 0;
}

int socket(int domain, int type, int protocol)
{
	int fd;

	if (domain == AF_ALG) {
		/* btvirt opens the kernel's ciphers as it starts a controller, whether they are used or not. */
		fd = REAL(socket)(domain, type, protocol);
		if (fd < 0 && (fd = REAL(socket)(AF_UNIX, type, 0)) >= 0 && fd < DESCRIPTORS)
			sockets[fd].is_cipher = 1;
		return fd;
	}
	if (domain != AF_BLUETOOTH)
		return REAL(socket)(domain, type, protocol);
	if ((type & 0xf) == SOCK_RAW && protocol == PROTOCOL_HCI)
		return REAL(socket)(AF_UNIX, SOCK_DGRAM | SOCK_CLOEXEC, 0);
	if ((type & 0xf) != SOCK_SEQPACKET || protocol != PROTOCOL_L2CAP) {
		errno = EPROTONOSUPPORT;
		return -1;
	}
	fd = REAL(socket)(AF_UNIX, type, 0);
	if (fd >= 0 && fd < DESCRIPTORS) {
		memset(&sockets[fd], 0, sizeof(sockets[fd]));
		sockets[fd].is_ours = 1;
		sockets[fd].level = LOW;
	}
	return fd;
}

int bind(int fd, const struct sockaddr *address, socklen_t size)
{
	if (fd >= 0 && fd < DESCRIPTORS && sockets[fd].is_cipher)
		return 0;
	if (!is_ours(fd))
		return REAL(bind)(fd, address, size);
	memcpy(&sockets[fd].local, address, size < sizeof(struct address) ? size : sizeof(struct address));
	/* A kernel puts the adapter's address and its type in the place of none. */
	sockets[fd].local.type = PUBLIC_ADDRESS;
	return 0;
}

int connect(int fd, const struct sockaddr *address, socklen_t size)
{
	if (!is_ours(fd))
		return REAL(connect)(fd, address, size);
	memcpy(&sockets[fd].remote, address, size < sizeof(struct address) ? size : sizeof(struct address));
	if (sockets[fd].remote.channel != ATT_CHANNEL) {
		errno = ECONNREFUSED;
		return -1;
	}
	if (join(fd, "att") < 0)
		return -1;
	sockets[fd].is_connected = 1;
	return sockets[fd].level >= MEDIUM ? secure(fd, sockets[fd].level) : 0;
}

int getsockname(int fd, struct sockaddr *address, socklen_t *size)
{
	if (!is_ours(fd))
		return REAL(getsockname)(fd, address, size);
	return hand_out(address, size, &sockets[fd].local, sizeof(struct address));
}

int getpeername(int fd, struct sockaddr *address, socklen_t *size)
{
	if (!is_ours(fd))
		return REAL(getpeername)(fd, address, size);
	return hand_out(address, size, &sockets[fd].remote, sizeof(struct address));
}

int getsockopt(int fd, int level, int option, void *value, socklen_t *size)
{
	/* What a kernel tells of the fixed channel of the Attribute Protocol. */
	struct options options = { .send_mtu = 672, .receive_mtu = 672 };
	struct information information = { .handle = 64 };
	struct security security;
	int domain = AF_BLUETOOTH, protocol = PROTOCOL_L2CAP;

	if (!is_ours(fd))
		return REAL(getsockopt)(fd, level, option, value, size);
	if (level == SOL_SOCKET && option == SO_DOMAIN)
		return hand_out(value, size, &domain, sizeof(domain));
	if (level == SOL_SOCKET && option == SO_PROTOCOL)
		return hand_out(value, size, &protocol, sizeof(protocol));
	if (level == SOL_SOCKET)
		return REAL(getsockopt)(fd, level, option, value, size);
	if (level == LEVEL_L2CAP && option == OPTIONS)
		return hand_out(value, size, &options, sizeof(options));
	if (level == LEVEL_L2CAP && option == CONNECTION_INFORMATION)
		return hand_out(value, size, &information, sizeof(information));
	if (level == LEVEL_BLUETOOTH && option == SECURITY) {
		security = (struct security){ sockets[fd].level, sockets[fd].level >= MEDIUM ? 16 : 0 };
		return hand_out(value, size, &security, sizeof(security));
	}
	if (level == LEVEL_BLUETOOTH && (option == SEND_MTU || option == RECEIVE_MTU))
		return hand_out(value, size, &options.send_mtu, sizeof(options.send_mtu));
	errno = ENOPROTOOPT;
	return -1;
}

int setsockopt(int fd, int level, int option, const void *value, socklen_t size)
{
	if (!is_ours(fd))
		return REAL(setsockopt)(fd, level, option, value, size);
	if (level == LEVEL_BLUETOOTH && option == SECURITY && size >= 1) {
		uint8_t wanted = *(const uint8_t *)value;

		if (sockets[fd].is_connected && wanted > sockets[fd].level)
			return secure(fd, wanted);
		sockets[fd].level = wanted;
		return 0;
	}
	if (level == SOL_SOCKET)
		return REAL(setsockopt)(fd, level, option, value, size);
	errno = ENOPROTOOPT;
	return -1;
}

int close(int fd)
{
	if (fd >= 0 && fd < DESCRIPTORS)
		sockets[fd].is_ours = sockets[fd].is_cipher = 0;
	return REAL(close)(fd);
}

int ioctl(int fd, unsigned long request, ...)
{
	va_list rest;
	void *argument;

	va_start(rest, request);
	argument = va_arg(rest, void *);
	va_end(rest);
	if (request == DEVICE_INFORMATION) {
		struct device *device = argument;

		memcpy(device->octets, (uint8_t[]){ 0x66, 0x55, 0x44, 0x33, 0x22, 0x11 }, 6);
		device->flags = IS_UP | IS_RUNNING;
		return 0;
	}
	return REAL(ioctl)(fd, request, argument);
}
