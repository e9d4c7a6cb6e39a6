/*
 * A service that keeps names and values, over TCP: the answers of ../guests/service.c, a line each, for one client after the other. What it keeps lasts from client to client.
 * With -DSLOW=N it is slow. Two requests more: `say TEXT` writes the text on the console too; `size` gets how many requests were answered, of all clients.
 */
#include "../guests/linux.h"
#include "../guests/store.h"
#include <stdio.h>
#include <string.h>
#include <unistd.h>

enum { SOCKET = 198, BIND = 200, LISTEN = 201, ACCEPT = 202 };
enum { AF_INET = 2, SOCK_STREAM = 1, LINUX_EAGAIN = 11, PORT = 8080 };

static unsigned requests;

#ifdef SLOW
/* A version that is slow goes round a loop so often before each answer, as one with checks takes longer. */
static void dawdle(void)
{
    for (volatile unsigned turns = 0; turns < SLOW; turns++)
        ;
}
#else
#define dawdle()
#endif

static const char *answer(char *request)
{
    static char count[12];
    dawdle();
    char *word = strtok(request, " ");
    char *name = strtok(NULL, " ");
    char *value = strtok(NULL, "");
    requests++;
    if (word != NULL && strcmp(word, "size") == 0) {
        snprintf(count, sizeof count, "%u", requests);
        return count;
    }
    if (word == NULL || name == NULL)
        return "what?";
    if (strcmp(word, "say") == 0) {
        puts(name);
        return "said";
    }
    if (strcmp(word, "put") == 0 && value != NULL)
        return put(name, value) ? "kept" : "no room";
    if (strcmp(word, "drop") == 0)
        return drop(name) ? "dropped" : "not there";
    if (strcmp(word, "get") != 0)
        return "what?";
    const char *found = find(name);
    return found != NULL ? found : "not there";
}

/* Writes a line, unless the client is gone or gets no more. */
static void put_line(int client, const char *text)
{
    char line[2048];
    int length = snprintf(line, sizeof line, "%s\n", text);
    for (int at = 0; at < length;) {
        ssize_t count = write(client, line + at, length - at);
        if (count <= 0)
            return;
        at += count;
    }
}

static void serve(int client)
{
    static char requests[2048];
    size_t held = 0;
    ssize_t count;
    while ((count = read(client, requests + held, sizeof requests - held)) > 0) {
        char *from = requests, *end;
        held += count;
        while ((end = memchr(from, '\n', held)) != NULL) {
            *end = 0;
            put_line(client, answer(from));
            held -= end + 1 - from;
            from = end + 1;
        }
        memmove(requests, from, held);
    }
}

int main(void)
{
    unsigned char address[16] = {AF_INET, 0, PORT >> 8, PORT & 255};
    long listener = call(SOCKET, AF_INET, SOCK_STREAM, 0, 0, 0);
    if (listener < 0 || call(BIND, listener, (long)address, sizeof address, 0, 0) < 0 || call(LISTEN, listener, 16, 0, 0, 0) < 0)
        return 1;
    for (;;) {
        long client = call(ACCEPT, listener, 0, 0, 0, 0);
        if (client < 0)
            return client == -LINUX_EAGAIN ? 0 : 1;
        serve(client);
        close(client);
    }
}
