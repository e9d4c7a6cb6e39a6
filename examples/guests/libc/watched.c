/*
 * A server that waits by epoll, and tells what it finds: check.sh compares what it writes for clients of Linux, and for those of a script. The first client is
 * told of by levels, four bytes at a time, the second by edges, and the third once, and again when something is told of another. The port is an argument.
 */
#include <errno.h>
#include <netinet/in.h>
#include <signal.h>
#include <stdio.h>
#include <stdlib.h>
#include <sys/epoll.h>
#include <sys/socket.h>
#include <unistd.h>

enum { CLIENTS = 3, LISTENER = CLIENTS, MOST = 8 };

static const uint32_t asked[CLIENTS] = {EPOLLIN | EPOLLRDHUP, EPOLLIN | EPOLLOUT | EPOLLRDHUP | EPOLLET, EPOLLIN | EPOLLONESHOT};
static int clients[CLIENTS], came, epoll;

static void stop(int signal)
{
    (void)signal;
}

static void watch(int operation, int fd, uint32_t events, uint32_t data)
{
    struct epoll_event event = {.events = events, .data.u32 = data};
    if (epoll_ctl(epoll, operation, fd, &event) < 0)
        perror("epoll_ctl");
}

static void let_in(int listener)
{
    clients[came] = accept4(listener, NULL, NULL, SOCK_NONBLOCK);
    dprintf(1, "%d came\n", came);
    watch(EPOLL_CTL_ADD, clients[came], asked[came], came);
    came++;
}

static void serve(unsigned client, uint32_t events)
{
    char bytes[4];
    ssize_t count;
    dprintf(1, "%u:%s%s%s%s\n", client, events & EPOLLIN ? " IN" : "", events & EPOLLOUT ? " OUT" : "", events & EPOLLRDHUP ? " RDHUP" : "",
            events & (EPOLLHUP | EPOLLERR) ? " HUP" : "");
    if (!(events & EPOLLIN))
        return;
    do {
        count = read(clients[client], bytes, sizeof bytes);
        dprintf(1, "%u: %s %.*s\n", client, count < 0 ? "nothing" : count ? "read" : "left", count > 0 ? (int)count : 0, bytes);
    } while (count > 0 && client == 1);
    if (count == 0)
        close(clients[client]);
    if (client != 2 && came == CLIENTS)
        watch(EPOLL_CTL_MOD, clients[2], asked[2], 2);
}

int main(int count, char **words)
{
    struct sockaddr_in address = {.sin_family = AF_INET, .sin_port = htons(count > 1 ? atoi(words[1]) : 90), .sin_addr.s_addr = htonl(INADDR_LOOPBACK)};
    int listener = socket(AF_INET, SOCK_STREAM | SOCK_NONBLOCK, 0), one = 1;
    sigaction(SIGTERM, &(struct sigaction){.sa_handler = stop}, NULL);
    setsockopt(listener, SOL_SOCKET, SO_REUSEADDR, &one, sizeof one);
    if (bind(listener, (struct sockaddr *)&address, sizeof address) < 0 || listen(listener, 8) < 0)
        return 1;
    epoll = epoll_create1(EPOLL_CLOEXEC);
    watch(EPOLL_CTL_ADD, listener, EPOLLIN | EPOLLET, LISTENER);
    struct epoll_event events[MOST];
    dprintf(1, "nobody came: %d\n", epoll_wait(epoll, events, MOST, 100));
    for (;;) {
        int ready = epoll_wait(epoll, events, MOST, -1);
        for (int i = 0; i < ready; i++)
            if (events[i].data.u32 == LISTENER)
                let_in(listener);
            else
                serve(events[i].data.u32, events[i].events);
        if (ready < 0)
            return dprintf(1, "it is interrupted: %d\n", errno == EINTR) < 0;
    }
}
