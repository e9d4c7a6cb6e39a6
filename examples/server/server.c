/*
 * A small HTTP/1.0 server: one request a connection, GET and HEAD, the files of the working directory.
 *
 *     server [PORT]      8080 where no port is named
 *
 * It serves one client after the other and ends with 0 where accept has none left (EAGAIN). Under Linux that doesn't come: accept waits.
 * Built with -DVERSION=n. The versions differ in `refusal` alone: which hosts they serve.
 */
#include "../guests/linux.h"
#include <ctype.h>
#include <fcntl.h>
#include <stdbool.h>
#include <stdio.h>
#include <stdlib.h>
#include <string.h>
#include <strings.h>
#include <unistd.h>

enum { SOCKET = 198, BIND = 200, LISTEN = 201, ACCEPT = 202 };
enum { AF_INET = 2, SOCK_STREAM = 1, LINUX_EAGAIN = 11 };

/* sockaddr_in of ip(7): the port's greater byte comes first, address 0 is any. */
struct address {
    unsigned short family;
    unsigned char port[2];
    unsigned char host[4];
    unsigned char zero[8];
};

/* The request that is served, ended by a 0. */
static char request[2048];

enum came { NOTHING, A_PART, WHOLE };

/* Reads a request up to its empty line. */
static enum came read_request(int client)
{
    size_t length = 0;
    while (length < sizeof request - 1) {
        ssize_t count = read(client, request + length, sizeof request - 1 - length);
        if (count <= 0)
            break;
        length += count;
        request[length] = 0;
        if (strstr(request, "\r\n\r\n") != NULL)
            return WHOLE;
    }
    return length == 0 ? NOTHING : A_PART;
}

/* Writes all the bytes, unless the client is gone. */
static void put(int client, const char *bytes, size_t length)
{
    while (length > 0) {
        ssize_t count = write(client, bytes, length);
        if (count <= 0)
            return;
        bytes += count;
        length -= count;
    }
}

static void put_head(int client, const char *status, const char *type, long length)
{
    char head[160];
    int size = snprintf(head, sizeof head, "HTTP/1.0 %s\r\nContent-Type: %s\r\nContent-Length: %ld\r\nConnection: close\r\n\r\n",
                        status, type, length);
    put(client, head, size);
}

/* Answers by the status line's text, which is the page too. */
static void refuse(int client, const char *status, bool body)
{
    put_head(client, status, "text/plain", strlen(status) + 1);
    if (body) {
        put(client, status, strlen(status));
        put(client, "\n", 1);
    }
}

static const char *type_of(const char *name)
{
    const char *dot = strrchr(name, '.');
    if (dot != NULL && strcmp(dot, ".html") == 0)
        return "text/html";
    return dot != NULL && strcmp(dot, ".css") == 0 ? "text/css" : "text/plain";
}

static void send_file(int client, const char *name, bool body)
{
    char part[512];
    ssize_t count;
    int file = open(name, O_RDONLY);
    if (file < 0) {
        refuse(client, "404 Not Found", body);
        return;
    }
    put_head(client, "200 OK", type_of(name), lseek(file, 0, SEEK_END));
    lseek(file, 0, SEEK_SET);
    while (body && (count = read(file, part, sizeof part)) > 0)
        put(client, part, count);
    close(file);
}

#if VERSION > 1
/* The value of a header field, up to the line's end, or NULL where the client sent none of this name. */
static const char *field(const char *headers, const char *name)
{
    size_t length = strlen(name);
    for (const char *line = headers; *line != '\r'; line = strstr(line, "\r\n") + 2)
        if (strncasecmp(line, name, length) == 0 && line[length] == ':')
            return line + length + 1 + strspn(line + length + 1, " ");
    return NULL;
}

static bool is_own(const char *host)
{
    for (const char *own = "example.org"; *own != 0; own++)
        if (tolower((unsigned char)*host++) != *own)
            return false;
    return *host == ':' || *host == '\r';
}
#endif

/* The status that a request is refused with for its host, or NULL. */
static const char *refusal(const char *headers)
{
#if VERSION == 1
    /* Any host is served. */
    (void)headers;
    return NULL;
#else
    /* Version 2: this host alone is served. HTTP/1.0 lets a client leave the field out, which was forgotten. */
    const char *host = field(headers, "Host");
#if VERSION == 3
    /* Patched: a client that names no host is served. */
    if (host == NULL)
        return NULL;
#elif VERSION == 4
    /* Patched otherwise: HTTP/1.1 wants the field, and so does this version. */
    if (host == NULL)
        return "400 Bad Request";
#endif
    return is_own(host) ? NULL : "421 Misdirected Request";
#endif
}

/* Answers a whole request. */
static void serve(int client)
{
    char *headers = strstr(request, "\r\n") + 2;
    char *target = strchr(request, ' ');
    char *protocol = target != NULL ? strchr(target + 1, ' ') : NULL;
    if (protocol == NULL || protocol >= headers || strncmp(protocol, " HTTP/1.", 8) != 0) {
        refuse(client, "400 Bad Request", true);
        return;
    }
    *target++ = 0;
    *protocol = 0;
    bool body = strcmp(request, "HEAD") != 0;
    const char *status = refusal(headers);
    if (body && strcmp(request, "GET") != 0)
        status = "501 Not Implemented";
    if (status != NULL) {
        refuse(client, status, body);
        return;
    }
    target[strcspn(target, "?")] = 0;
    target += strspn(target, "/");
    send_file(client, *target != 0 ? target : "index.html", body);
}

static void answer(int client)
{
    switch (read_request(client)) {
    case NOTHING:
        break;
    case A_PART:
        refuse(client, "400 Bad Request", true);
        break;
    case WHOLE:
        serve(client);
    }
    close(client);
}

int main(int count, char **words)
{
    int port = count > 1 ? atoi(words[1]) : 8080;
    struct address address = {.family = AF_INET, .port = {port >> 8, port}};
    long listener = call(SOCKET, AF_INET, SOCK_STREAM, 0, 0, 0);
    if (listener < 0 || call(BIND, listener, (long)&address, sizeof address, 0, 0) < 0 || call(LISTEN, listener, 16, 0, 0, 0) < 0)
        return 1;
    for (;;) {
        long client = call(ACCEPT, listener, 0, 0, 0, 0);
        if (client < 0)
            return client == -LINUX_EAGAIN ? 0 : 1;
        answer(client);
    }
}
