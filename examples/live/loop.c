/*
 * The service of keeper.c for many clients at once, as one writes it for Linux: one loop over poll (-DSELECT: over select, -DEPOLL: over epoll), and calls that
 * never wait. A client that is silent for some seconds (the first argument, or 30) gets the line `late`, and is let go. SIGTERM ends the service, which then writes
 * how many requests there were.
 */
#include "../guests/store.h"
#include <errno.h>
#include <fcntl.h>
#include <netinet/in.h>
#include <signal.h>
#include <stdio.h>
#include <stdlib.h>
#include <string.h>
#include <sys/socket.h>
#include <time.h>
#include <unistd.h>

/* varan has 960 sockets, of which one listens. The descriptors of a process are below 1,024. */
enum { PORT = 8080, MOST = 959, DESCRIPTORS = 1024, LINE = 256, ROOM = 512 };
enum { READS = 1, WRITES = 2 };

struct client {
    time_t since;             /* its last bytes came */
    short before, after;      /* in the ring of those that are silent */
    unsigned short held, due; /* bytes of a line that has begun, and of answers that aren't written */
    char line[LINE], answers[ROOM];
};

/* By their descriptors. 0 is nobody's: in the ring it is before the one that is silent longest. */
static struct client clients[DESCRIPTORS];
static int listener, count;
static time_t now, patience = 30;
static unsigned requests;
static volatile sig_atomic_t is_over;

/* What happens at a descriptor that is ready: READS, also where nothing more comes, and WRITES. */
static void serve(int fd, int ready);

/*
 * ---- what is waited for: a descriptor is watched, for reading at first, is asked for something else, and is left before it is closed. A wait lasts so many
 * milliseconds, or, with -1, to no end, and then so many are ready.
 */

#if defined EPOLL
#include <sys/epoll.h>

enum { AT_ONCE = 64 };

static int epoll = -1;
static struct epoll_event events[AT_ONCE];

static void control(int operation, int fd, int asked)
{
    struct epoll_event event = {.events = (asked & READS ? EPOLLIN : 0) | (asked & WRITES ? EPOLLOUT : 0), .data.fd = fd};
    if (epoll_ctl(epoll, operation, fd, &event) < 0)
        exit(1);
}

static void watch(int fd)
{
    if (epoll < 0)
        epoll = epoll_create1(EPOLL_CLOEXEC);
    control(EPOLL_CTL_ADD, fd, READS);
}

static void ask(int fd, int asked)
{
    control(EPOLL_CTL_MOD, fd, asked);
}

/* One that is closed isn't watched any more. */
static void leave(int fd)
{
    (void)fd;
}

static int waited(int milliseconds)
{
    return epoll_wait(epoll, events, AT_ONCE, milliseconds);
}

static void serve_ready(int ready)
{
    for (int i = 0; i < ready; i++)
        serve(events[i].data.fd, (events[i].events & ~EPOLLOUT ? READS : 0) | (events[i].events & EPOLLOUT ? WRITES : 0));
}
#elif defined SELECT
#include <sys/select.h>

static fd_set reads, writes, readable, writable;
static int most;

static void ask(int fd, int asked)
{
    FD_CLR(fd, &reads);
    FD_CLR(fd, &writes);
    if (asked & READS)
        FD_SET(fd, &reads);
    if (asked & WRITES)
        FD_SET(fd, &writes);
}

static void watch(int fd)
{
    most = fd > most ? fd : most;
    ask(fd, READS);
}

static void leave(int fd)
{
    ask(fd, 0);
}

static int waited(int milliseconds)
{
    struct timeval time = {milliseconds / 1000, milliseconds % 1000 * 1000};
    readable = reads;
    writable = writes;
    return select(most + 1, &readable, &writable, NULL, milliseconds < 0 ? NULL : &time);
}

static void serve_ready(int ready)
{
    for (int fd = most; ready > 0 && fd > 0; fd--) {
        int is_readable = FD_ISSET(fd, &readable) != 0, is_writable = FD_ISSET(fd, &writable) != 0;
        ready -= is_readable + is_writable;
        if (is_readable || is_writable)
            serve(fd, (is_readable ? READS : 0) | (is_writable ? WRITES : 0));
    }
}
#else
#include <poll.h>

static struct pollfd polled[1 + MOST];
static short places[DESCRIPTORS];
static int used;

static void watch(int fd)
{
    places[fd] = used;
    polled[used++] = (struct pollfd){fd, POLLIN, 0};
}

static void ask(int fd, int asked)
{
    polled[places[fd]].events = (asked & READS ? POLLIN : 0) | (asked & WRITES ? POLLOUT : 0);
}

/* The last one takes its place. */
static void leave(int fd)
{
    struct pollfd last = polled[--used];
    places[last.fd] = places[fd];
    polled[places[fd]] = last;
}

static int waited(int milliseconds)
{
    return poll(polled, used, milliseconds);
}

static void serve_ready(int ready)
{
    for (int i = used - 1; ready > 0 && i >= 0; i--) {
        short told = polled[i].revents;
        ready -= told != 0;
        if (told)
            serve(polled[i].fd, (told & ~POLLOUT ? READS : 0) | (told & POLLOUT ? WRITES : 0));
    }
}
#endif

/* ---- the clients, by how long they are silent */

static void take_out(int fd)
{
    clients[clients[fd].before].after = clients[fd].after;
    clients[clients[fd].after].before = clients[fd].before;
}

static void put_last(int fd)
{
    clients[fd].since = now;
    clients[fd].before = clients[0].before;
    clients[fd].after = 0;
    clients[clients[fd].before].after = fd;
    clients[0].before = fd;
}

static void let_go(int fd)
{
    leave(fd);
    take_out(fd);
    close(fd);
    if (count-- == MOST)
        ask(listener, READS);
}

static void let_in(void)
{
    int fd = accept(listener, NULL, NULL);
    if (fd < 0)
        return;
    fcntl(fd, F_SETFL, O_NONBLOCK);
    clients[fd].held = clients[fd].due = 0;
    put_last(fd);
    watch(fd);
    if (++count == MOST)
        ask(listener, 0);
}

/* The milliseconds in which nobody has to be let go; -1 where nobody is here. */
static int wait_at_most(void)
{
    time_t left = clients[clients[0].after].since + patience - now;
    if (!clients[0].after)
        return -1;
    return left > 0 ? left * 1000 : 0;
}

static void let_silent_go(void)
{
    for (int fd; (fd = clients[0].after) != 0 && clients[fd].since + patience <= now; let_go(fd))
        write(fd, "late\n", 5);
}

/* ---- requests and answers */

static void stop(int signal)
{
    (void)signal;
    is_over = 1;
}

static const char *answer(char *request)
{
    static char count[12];
    char *word = strtok(request, " ");
    char *name = strtok(NULL, " ");
    char *value = strtok(NULL, "");
    requests++;
    if (word != NULL && strcmp(word, "size") == 0) {
        snprintf(count, sizeof count, "%u", requests);
        return count;
    }
    if (word == NULL || name == NULL)
        return "what?";
    if (strcmp(word, "say") == 0) {
        puts(name);
        return "said";
    }
    if (strcmp(word, "put") == 0 && value != NULL)
        return put(name, value) ? "kept" : "no room";
    if (strcmp(word, "drop") == 0)
        return drop(name) ? "dropped" : "not there";
    if (strcmp(word, "get") != 0)
        return "what?";
    const char *found = find(name);
    return found != NULL ? found : "not there";
}

/* Puts a line behind the answers that aren't written. Answers whether there is room. */
static int put_line(struct client *client, const char *text)
{
    size_t length = strlen(text);
    if (client->due + length + 1 > ROOM)
        return 0;
    memcpy(client->answers + client->due, text, length);
    client->answers[client->due + length] = '\n';
    client->due += length + 1;
    return 1;
}

/* Answers each whole line, and keeps what is left. */
static int answer_lines(struct client *client)
{
    char *from = client->line, *end;
    while ((end = memchr(from, '\n', client->held)) != NULL) {
        *end = 0;
        if (!put_line(client, answer(from)))
            return 0;
        client->held -= end + 1 - from;
        from = end + 1;
    }
    memmove(client->line, from, client->held);
    return client->held < LINE;
}

/* Whether the client stays. */
static int take(int fd)
{
    struct client *client = &clients[fd];
    ssize_t count = read(fd, client->line + client->held, LINE - client->held);
    if (count <= 0)
        return count < 0 && errno == EAGAIN;
    client->held += count;
    take_out(fd);
    put_last(fd);
    return answer_lines(client);
}

static int give(int fd)
{
    struct client *client = &clients[fd];
    ssize_t count = write(fd, client->answers, client->due);
    if (count < 0)
        return errno == EAGAIN;
    memmove(client->answers, client->answers + count, client->due -= count);
    return 1;
}

static void serve_client(int fd, int ready)
{
    int stays = 1, waits = clients[fd].due > 0;
    if (ready & READS)
        stays = take(fd);
    if (stays && clients[fd].due > 0)
        stays = give(fd);
    if (!stays)
        let_go(fd);
    else if (waits != (clients[fd].due > 0))
        ask(fd, waits ? READS : READS | WRITES);
}

static void serve(int fd, int ready)
{
    if (fd == listener)
        let_in();
    else
        serve_client(fd, ready);
}

static int new_listener(void)
{
    struct sockaddr_in address = {.sin_family = AF_INET, .sin_port = htons(PORT), .sin_addr.s_addr = htonl(INADDR_LOOPBACK)};
    int fd = socket(AF_INET, SOCK_STREAM, 0), one = 1;
    setsockopt(fd, SOL_SOCKET, SO_REUSEADDR, &one, sizeof one);
    if (bind(fd, (struct sockaddr *)&address, sizeof address) < 0 || listen(fd, 64) < 0)
        exit(1);
    return fd;
}

int main(int given, char **words)
{
    if (given > 1)
        patience = atoi(words[1]);
    signal(SIGTERM, stop);
    signal(SIGPIPE, SIG_IGN);
    listener = new_listener();
    watch(listener);
    while (!is_over) {
        int ready = waited(wait_at_most());
        if (ready < 0 && errno != EINTR)
            return 1;
        now = time(NULL);
        serve_ready(ready);
        let_silent_go();
    }
    printf("%u requests\n", requests);
    return 0;
}
