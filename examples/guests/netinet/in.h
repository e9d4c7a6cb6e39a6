/* Addresses of IPv4, which picolibc lacks. */
#ifndef NETINET_IN_H
#define NETINET_IN_H
#include <stdint.h>
#include <sys/socket.h>

#define INADDR_ANY 0u
#define INADDR_LOOPBACK 0x7f000001u
#define htons(n) __builtin_bswap16(n)
#define htonl(n) __builtin_bswap32(n)
#define ntohs(n) __builtin_bswap16(n)
#define ntohl(n) __builtin_bswap32(n)

typedef uint16_t in_port_t;
typedef uint32_t in_addr_t;

struct in_addr {
    in_addr_t s_addr;
};

struct sockaddr_in {
    sa_family_t sin_family;
    in_port_t sin_port;
    struct in_addr sin_addr;
    unsigned char sin_zero[8];
};
#endif
