/*
 * A service over connections for a library that has no server of its own: each client sends a text and takes the answer to it. What an answer
 * is stands in answer_NAME.c. It is a program for Linux: it makes the calls that any server makes.
 */
#include "service.h"
#include <arpa/inet.h>
#include <stdio.h>
#include <stdlib.h>
#include <sys/socket.h>
#include <unistd.h>

enum { BACKLOG = 64, PART = 4096 };

/* All that a client sends, up to its end. */
static char *read_all(int client, size_t *length)
{
    char *text = NULL;
    size_t room = 0;
    for (*length = 0;;) {
        if (room - *length < PART) {
            room = room * 2 + PART;
            text = realloc(text, room);
            if (!text)
                exit(2);
        }
        ssize_t part = read(client, text + *length, PART);
        if (part <= 0)
            return text;
        *length += part;
    }
}

static int listen_on(int port)
{
    struct sockaddr_in address = {.sin_family = AF_INET, .sin_port = htons(port), .sin_addr.s_addr = htonl(INADDR_LOOPBACK)};
    int listener = socket(AF_INET, SOCK_STREAM, 0), yes = 1;
    setsockopt(listener, SOL_SOCKET, SO_REUSEADDR, &yes, sizeof yes);
    if (bind(listener, (struct sockaddr *)&address, sizeof address) < 0 || listen(listener, BACKLOG) < 0) {
        perror("listen");
        exit(1);
    }
    return listener;
}

int main(int count, char **words)
{
    int listener = listen_on(count > 1 ? atoi(words[1]) : 8080);
    begin();
    for (;;) {
        int client = accept(listener, NULL, NULL);
        if (client < 0)
            return 1;
        size_t length;
        char *text = read_all(client, &length);
        FILE *to = fdopen(client, "w");
        answer(text, length, to);
        fclose(to);
        free(text);
    }
}
