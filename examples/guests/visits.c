/*
 * A small HTTP server with state, to begin one of your own (docs/GUESTS.md, "A server of your own, in an hour"): `page` is what you change. It serves one client after the
 * other, and ends if none comes any more.
 */
#include <errno.h>
#include <netinet/in.h>
#include <stdio.h>
#include <string.h>
#include <sys/socket.h>
#include <unistd.h>

enum { PORT = 8080 };

/* What is kept from client to client. */
static int visitors;

/* The page for a path, such as "/?name=ann". */
static const char *page(const char *path)
{
    static char text[256];
    const char *name = strchr(path, '=');
    if (name == NULL)
        return "who?\n";
    name++;
    visitors++;
    snprintf(text, sizeof text, "hello %s, visitor %d\n", name, visitors);
    return text;
}

/* Reads a request up to its empty line, and answers it. */
static void serve(int client)
{
    char request[2048] = "", reply[512];
    for (size_t have = 0; strstr(request, "\r\n\r\n") == NULL;) {
        ssize_t count = read(client, request + have, sizeof request - 1 - have);
        if (count <= 0)
            return;
        have += count;
        request[have] = 0;
    }
    strtok(request, " ");
    const char *path = strtok(NULL, " ");
    const char *body = page(path != NULL ? path : "/");
    int length = snprintf(reply, sizeof reply, "HTTP/1.0 200 OK\r\nContent-Length: %d\r\n\r\n%s", (int)strlen(body), body);
    write(client, reply, length);
}

int main(void)
{
    struct sockaddr_in address = {.sin_family = AF_INET, .sin_port = htons(PORT)};
    int listener = socket(AF_INET, SOCK_STREAM, 0);
    if (bind(listener, (struct sockaddr *)&address, sizeof address) < 0 || listen(listener, 16) < 0)
        return 1;
    for (;;) {
        int client = accept(listener, NULL, NULL);
        if (client < 0)
            return errno == EAGAIN ? 0 : 1; /* EAGAIN: no client comes any more */
        serve(client);
        close(client);
    }
}
