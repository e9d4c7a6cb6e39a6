/* Sockets, which picolibc lacks (waits.c): what a server needs that accepts clients. */
#ifndef SYS_SOCKET_H
#define SYS_SOCKET_H
#include <stdint.h>

#define AF_INET 2
#define SOCK_STREAM 1
#define SOCK_NONBLOCK 0x800
#define SOL_SOCKET 1
#define SO_REUSEADDR 2

typedef uint16_t sa_family_t;
typedef unsigned socklen_t;

struct sockaddr {
    sa_family_t sa_family;
    char sa_data[14];
};

int socket(int domain, int type, int protocol);
int bind(int fd, const struct sockaddr *address, socklen_t length);
int listen(int fd, int backlog);
int accept(int fd, struct sockaddr *restrict peer, socklen_t *restrict length);
int accept4(int fd, struct sockaddr *restrict peer, socklen_t *restrict length, int flags);
int setsockopt(int fd, int level, int name, const void *value, socklen_t length);
#endif
