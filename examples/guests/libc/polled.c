/* A server that polls (-DEPOLL: that waits by epoll): it writes to each client in capitals what the client sends, and never waits for one of them. */
#include <ctype.h>
#include <errno.h>
#include <netinet/in.h>
#include <poll.h>
#include <stdio.h>
#include <sys/epoll.h>
#include <sys/socket.h>
#include <unistd.h>

enum { CLIENTS = 8, PART = 16 };

static struct pollfd asked[1 + CLIENTS];

#ifdef EPOLL
static int epoll;

static void watch(int place)
{
    struct epoll_event event = {.events = EPOLLIN, .data.u32 = place};
    epoll_ctl(epoll, EPOLL_CTL_ADD, asked[place].fd, &event);
}

static int waited(void)
{
    struct epoll_event events[1 + CLIENTS];
    int count = epoll_wait(epoll, events, 1 + CLIENTS, -1);
    for (int i = 0; i <= CLIENTS; i++)
        asked[i].revents = 0;
    for (int i = 0; i < count; i++)
        asked[events[i].data.u32].revents = events[i].events;
    return count;
}
#else
static void watch(int place)
{
    (void)place;
}

static int waited(void)
{
    return poll(asked, 1 + CLIENTS, -1);
}
#endif

static void take_clients(int listener)
{
    for (int i = 1; i <= CLIENTS; i++) {
        if (asked[i].fd >= 0)
            continue;
        struct sockaddr_in peer;
        socklen_t length = sizeof peer;
        asked[i].fd = accept4(listener, (struct sockaddr *)&peer, &length, SOCK_NONBLOCK);
        if (asked[i].fd < 0)
            return;
        watch(i);
        dprintf(asked[i].fd, "%x:%d ", ntohl(peer.sin_addr.s_addr), ntohs(peer.sin_port));
    }
}

static void answer(struct pollfd *client)
{
    char bytes[PART];
    ssize_t count = read(client->fd, bytes, sizeof bytes);
    for (ssize_t i = 0; i < count; i++)
        bytes[i] = toupper((unsigned char)bytes[i]);
    if (count > 0 && send(client->fd, bytes, count, MSG_NOSIGNAL) == count)
        return;
    close(client->fd);
    client->fd = -1;
}

int main(void)
{
    struct sockaddr_in address = {.sin_family = AF_INET, .sin_port = htons(90)};
    int listener = socket(AF_INET, SOCK_STREAM | SOCK_NONBLOCK, 0);
    if (bind(listener, (struct sockaddr *)&address, sizeof address) < 0 || listen(listener, 8) < 0)
        return 1;
    asked[0] = (struct pollfd){.fd = listener, .events = POLLIN};
    for (int i = 1; i <= CLIENTS; i++)
        asked[i] = (struct pollfd){.fd = -1, .events = POLLIN};
#ifdef EPOLL
    epoll = epoll_create1(0);
#endif
    watch(0);
    for (;;) {
        if (waited() < 0)
            return 2;
        if (asked[0].revents)
            take_clients(listener);
        for (int i = 1; i <= CLIENTS; i++)
            if (asked[i].revents)
                answer(&asked[i]);
    }
}
