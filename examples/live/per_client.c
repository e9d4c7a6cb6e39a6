/*
 * The service of keeper.c with a thread for each client, as one writes it for Linux: a thread waits in read while its client is silent, and the others go on. Seven
 * clients are served at a time; the next one is accepted once one of them has left. A client that is silent for some seconds isn't let go.
 */
#include "../guests/store.h"
#include <netinet/in.h>
#include <pthread.h>
#include <signal.h>
#include <stdio.h>
#include <string.h>
#include <sys/socket.h>
#include <unistd.h>

enum { PORT = 8080, MOST = 7, LINE = 256 };

/* Held for the store, the requests and the count of clients. */
static pthread_mutex_t mutex = PTHREAD_MUTEX_INITIALIZER;
static pthread_cond_t has_room = PTHREAD_COND_INITIALIZER;
static int clients;
static unsigned requests;

static const char *find_answer(char *request)
{
    static char count[12];
    char *word = strtok(request, " ");
    char *name = strtok(NULL, " ");
    char *value = strtok(NULL, "");
    requests++;
    if (word != NULL && strcmp(word, "size") == 0) {
        snprintf(count, sizeof count, "%u", requests);
        return count;
    }
    if (word == NULL || name == NULL)
        return "what?";
    if (strcmp(word, "say") == 0) {
        puts(name);
        return "said";
    }
    if (strcmp(word, "put") == 0 && value != NULL)
        return put(name, value) ? "kept" : "no room";
    if (strcmp(word, "drop") == 0)
        return drop(name) ? "dropped" : "not there";
    if (strcmp(word, "get") != 0)
        return "what?";
    const char *found = find(name);
    return found != NULL ? found : "not there";
}

/* The answer is copied while no other thread can drop it. */
static void answer(int client, char *request)
{
    char line[LINE + 1];
    pthread_mutex_lock(&mutex);
    int length = snprintf(line, sizeof line, "%s\n", find_answer(request));
    pthread_mutex_unlock(&mutex);
    write(client, line, length);
}

static void serve_lines(int client)
{
    char line[LINE];
    size_t held = 0;
    ssize_t count;
    while (held < LINE && (count = read(client, line + held, LINE - held)) > 0) {
        char *from = line, *end;
        held += count;
        while ((end = memchr(from, '\n', held)) != NULL) {
            *end = 0;
            answer(client, from);
            held -= end + 1 - from;
            from = end + 1;
        }
        memmove(line, from, held);
    }
}

static void *serve(void *client)
{
    serve_lines((long)client);
    close((long)client);
    pthread_mutex_lock(&mutex);
    clients--;
    pthread_cond_signal(&has_room);
    pthread_mutex_unlock(&mutex);
    return NULL;
}

static void wait_for_room(void)
{
    pthread_mutex_lock(&mutex);
    while (clients == MOST)
        pthread_cond_wait(&has_room, &mutex);
    clients++;
    pthread_mutex_unlock(&mutex);
}

static int listener(void)
{
    struct sockaddr_in address = {.sin_family = AF_INET, .sin_port = htons(PORT), .sin_addr.s_addr = htonl(INADDR_LOOPBACK)};
    int fd = socket(AF_INET, SOCK_STREAM, 0), one = 1;
    setsockopt(fd, SOL_SOCKET, SO_REUSEADDR, &one, sizeof one);
    return bind(fd, (struct sockaddr *)&address, sizeof address) < 0 || listen(fd, 64) < 0 ? -1 : fd;
}

int main(void)
{
    int fd = listener();
    setvbuf(stdout, NULL, _IOLBF, BUFSIZ);
    signal(SIGPIPE, SIG_IGN);
    for (;;) {
        pthread_t thread;
        wait_for_room();
        long client = accept(fd, NULL, NULL);
        if (client < 0 || pthread_create(&thread, NULL, serve, (void *)client) != 0)
            return 1;
        pthread_detach(thread);
    }
}
