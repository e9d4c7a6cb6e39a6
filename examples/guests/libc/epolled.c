/* epoll over pipes, and its errors: check.sh compares what it writes as a guest with what it writes under Linux. No wait here has to wait. */
#include <errno.h>
#include <fcntl.h>
#include <pthread.h>
#include <stdint.h>
#include <stdio.h>
#include <string.h>
#include <sys/epoll.h>
#include <sys/socket.h>
#include <sys/wait.h>
#include <unistd.h>

enum { MOST = 8, CLOSED = 50 };

struct pipe {
    int reads, writes;
};

static int epoll;

static void tell(const char *call, long result)
{
    printf("%s: %s\n", call, result < 0 ? strerror(errno) : "done");
}

static int control(int operation, int fd, uint32_t events, uint64_t data)
{
    struct epoll_event event = {.events = events, .data.u64 = data};
    return epoll_ctl(epoll, operation, fd, &event);
}

/* What is ready, in the order of its data. */
static void look_at(const char *what, int fd, int most)
{
    static const struct { uint32_t bit; const char *name; } names[] = {
        {EPOLLIN, "IN"}, {EPOLLOUT, "OUT"}, {EPOLLRDHUP, "RDHUP"}, {EPOLLHUP, "HUP"}, {EPOLLERR, "ERR"}, {EPOLLRDNORM, "RDNORM"}, {EPOLLWRNORM, "WRNORM"},
    };
    struct epoll_event events[MOST];
    int count = epoll_wait(fd, events, most, 0);
    printf("%s: %d\n", what, count);
    for (uint64_t data = 0; data < 1000; data++)
        for (int i = 0; i < count; i++) {
            if ((events[i].data.u64 & 0xffffffff) != data)
                continue;
            printf("  %llx", (unsigned long long)events[i].data.u64);
            for (size_t it = 0; it < sizeof names / sizeof *names; it++)
                if (events[i].events & names[it].bit)
                    printf(" %s", names[it].name);
            puts("");
        }
}

static void look(const char *what)
{
    look_at(what, epoll, MOST);
}

static struct pipe new_pipe(void)
{
    int ends[2];
    if (pipe2(ends, O_NONBLOCK) < 0)
        puts("no pipe");
    return (struct pipe){ends[0], ends[1]};
}

static void close_pipe(struct pipe it)
{
    close(it.reads);
    close(it.writes);
}

static void put(struct pipe it, const char *text)
{
    write(it.writes, text, strlen(text));
}

static void read_all(struct pipe it)
{
    char bytes[4096];
    while (read(it.reads, bytes, sizeof bytes) > 0)
        ;
}

static void fill(struct pipe it)
{
    static const char bytes[4096];
    while (write(it.writes, bytes, sizeof bytes) > 0)
        ;
}

static void made(void)
{
    tell("epoll_create of 0", epoll_create(0));
    tell("epoll_create1 of other flags", epoll_create1(1));
    int one = epoll_create(1), other = epoll_create1(EPOLL_CLOEXEC);
    printf("F_GETFD: %d %d\n", fcntl(one, F_GETFD), fcntl(other, F_GETFD));
    tell("close", close(one));
    tell("close again", close(one));
    close(other);
}

static void errors(void)
{
    struct pipe it = new_pipe();
    struct epoll_event event = {.events = EPOLLIN};
    int file = open("made", O_CREAT | O_RDWR, 0644), copy = dup(epoll), null = open("/dev/null", O_RDWR);
    tell("a file", control(EPOLL_CTL_ADD, file, EPOLLIN, 0));
    tell("/dev/null", control(EPOLL_CTL_ADD, null, EPOLLIN, 0));
    tell("what isn't open", control(EPOLL_CTL_ADD, CLOSED, EPOLLIN, 0));
    tell("a number below 0", control(EPOLL_CTL_ADD, -1, EPOLLIN, 0));
    tell("an epoll in itself", control(EPOLL_CTL_ADD, epoll, EPOLLIN, 0));
    tell("an epoll in its copy", control(EPOLL_CTL_ADD, copy, EPOLLIN, 0));
    tell("in what isn't open", epoll_ctl(CLOSED, EPOLL_CTL_ADD, it.reads, &event));
    tell("in a pipe", epoll_ctl(it.writes, EPOLL_CTL_ADD, it.reads, &event));
    tell("a file in a pipe", epoll_ctl(it.writes, EPOLL_CTL_ADD, file, &event));
    tell("without an event", epoll_ctl(epoll, EPOLL_CTL_ADD, it.reads, NULL));
    tell("EPOLL_CTL_MOD of another", control(EPOLL_CTL_MOD, it.reads, EPOLLIN, 0));
    tell("EPOLL_CTL_DEL of another", control(EPOLL_CTL_DEL, it.reads, 0, 0));
    tell("another operation", control(9, it.reads, EPOLLIN, 0));
    tell("EPOLL_CTL_ADD", control(EPOLL_CTL_ADD, it.reads, EPOLLIN, 0));
    tell("the same again", control(EPOLL_CTL_ADD, it.reads, EPOLLIN, 0));
    tell("another operation of what is watched", control(9, it.reads, EPOLLIN, 0));
    tell("EPOLLEXCLUSIVE later", control(EPOLL_CTL_MOD, it.reads, EPOLLIN | EPOLLEXCLUSIVE, 0));
    tell("EPOLL_CTL_DEL without an event", epoll_ctl(epoll, EPOLL_CTL_DEL, it.reads, NULL));
    tell("EPOLLEXCLUSIVE beside EPOLLONESHOT", control(EPOLL_CTL_ADD, it.reads, EPOLLIN | EPOLLONESHOT | EPOLLEXCLUSIVE, 0));
    tell("EPOLLEXCLUSIVE", control(EPOLL_CTL_ADD, it.reads, EPOLLIN | EPOLLEXCLUSIVE, 0));
    tell("EPOLL_CTL_MOD of it", control(EPOLL_CTL_MOD, it.reads, EPOLLIN, 0));
    tell("a wait for no event", epoll_wait(epoll, &event, 0, 0));
    tell("a wait for less", epoll_wait(epoll, &event, -1, 0));
    tell("a wait for too many", epoll_wait(epoll, &event, 0x7fffffff, 0));
    tell("a wait in a pipe", epoll_wait(it.reads, &event, 1, 0));
    tell("a wait in a file", epoll_wait(file, &event, 1, 0));
    tell("a wait in what isn't open", epoll_wait(CLOSED, &event, 1, 0));
    close(file);
    close(null);
    close(copy);
    close_pipe(it);
    unlink("made");
}

static void both_ways(void)
{
    struct pipe it = new_pipe();
    control(EPOLL_CTL_ADD, it.reads, EPOLLIN | EPOLLRDHUP, 0x1234567800000001);
    look("an empty pipe");
    put(it, "some");
    look("a pipe with bytes");
    look("the same");
    read_all(it);
    look("once they are read");
    control(EPOLL_CTL_ADD, it.writes, EPOLLOUT, 2);
    look("both ends");
    fill(it);
    look("a full pipe");
    read_all(it);
    look("once it is read");
    control(EPOLL_CTL_MOD, it.writes, EPOLLWRNORM, 3);
    control(EPOLL_CTL_MOD, it.reads, EPOLLRDNORM, 4);
    put(it, "some");
    look("by the other names");
    control(EPOLL_CTL_MOD, it.writes, 0, 3);
    control(EPOLL_CTL_MOD, it.reads, 0, 4);
    look("nothing is asked for");
    control(EPOLL_CTL_MOD, it.reads, EPOLLIN, 4);
    close(it.writes);
    look("the writing end is closed");
    read_all(it);
    look("and all is read");
    control(EPOLL_CTL_MOD, it.reads, 0, 5);
    look("unasked");
    close(it.reads);
    look("both are closed");
    it = new_pipe();
    control(EPOLL_CTL_ADD, it.writes, EPOLLOUT, 6);
    close(it.reads);
    look("the reading end is closed");
    control(EPOLL_CTL_MOD, it.writes, 0, 6);
    look("unasked");
    close(it.writes);
}

static void one_shot(void)
{
    struct pipe it = new_pipe();
    control(EPOLL_CTL_ADD, it.reads, EPOLLIN | EPOLLONESHOT, 1);
    look("one shot, of nothing");
    put(it, "some");
    look("one shot");
    look("again");
    put(it, "more");
    look("with more");
    tell("EPOLL_CTL_ADD", control(EPOLL_CTL_ADD, it.reads, EPOLLIN, 1));
    tell("EPOLL_CTL_MOD", control(EPOLL_CTL_MOD, it.reads, EPOLLIN | EPOLLONESHOT, 2));
    look("another shot");
    close(it.writes);
    look("the writing end is closed");
    control(EPOLL_CTL_MOD, it.reads, EPOLLIN | EPOLLONESHOT | EPOLLET, 3);
    look("by an edge");
    look("again");
    close(it.reads);
}

static void edges(void)
{
    struct pipe it = new_pipe();
    control(EPOLL_CTL_ADD, it.reads, EPOLLIN | EPOLLET, 1);
    control(EPOLL_CTL_ADD, it.writes, EPOLLOUT | EPOLLET, 2);
    look("edges");
    look("again");
    put(it, "some");
    look("of bytes");
    look("again");
    read_all(it);
    look("they are read");
    put(it, "more");
    look("more bytes");
    control(EPOLL_CTL_MOD, it.reads, EPOLLIN | EPOLLET, 3);
    look("EPOLL_CTL_MOD");
    read_all(it);
    fill(it);
    look("a full pipe");
    look("again");
    read_all(it);
    look("it is read");
    look("again");
    close(it.writes);
    look("the writing end is closed");
    look("again");
    close(it.reads);
}

/* Each is told as often as others, whatever their order is. */
static void in_turn(void)
{
    struct pipe pipes[3];
    for (int i = 0; i < 3; i++) {
        pipes[i] = new_pipe();
        control(EPOLL_CTL_ADD, pipes[i].reads, EPOLLIN, i);
        put(pipes[i], "some");
    }
    for (int most = 1; most <= 2; most++) {
        int times[3] = {0};
        for (int turn = 0; turn < 6 / most; turn++) {
            struct epoll_event events[MOST];
            int count = epoll_wait(epoll, events, most, 0);
            for (int i = 0; i < count; i++)
                times[events[i].data.u32]++;
        }
        printf("in turn, %d at a time: %d %d %d\n", most, times[0], times[1], times[2]);
    }
    look_at("more than there are", epoll, MOST);
    for (int i = 0; i < 3; i++)
        close_pipe(pipes[i]);
}

static void closed(void)
{
    struct pipe it = new_pipe();
    int number = it.reads;
    control(EPOLL_CTL_ADD, it.reads, EPOLLIN, 1);
    put(it, "some");
    close_pipe(it);
    look("what is watched is closed");
    it = new_pipe();
    put(it, "some");
    look("a new pipe of the same number");
    printf("the same number: %d\n", it.reads == number);
    tell("EPOLL_CTL_DEL", control(EPOLL_CTL_DEL, it.reads, 0, 0));
    tell("EPOLL_CTL_ADD", control(EPOLL_CTL_ADD, it.reads, EPOLLIN, 2));
    look("it is watched");
    struct pipe other = new_pipe();
    put(other, "some");
    dup2(other.reads, it.reads);
    look("another one's copy in its place");
    tell("EPOLL_CTL_DEL", control(EPOLL_CTL_DEL, it.reads, 0, 0));
    close_pipe(it);
    close_pipe(other);
}

static void several(void)
{
    struct pipe it = new_pipe();
    struct epoll_event event = {.events = EPOLLIN, .data.u64 = 7};
    int other = epoll_create1(0), copy = dup(other);
    control(EPOLL_CTL_ADD, it.reads, EPOLLIN | EPOLLET, 1);
    tell("in another epoll", epoll_ctl(copy, EPOLL_CTL_ADD, it.reads, &event));
    put(it, "some");
    look("one epoll");
    look("again");
    look_at("another one", other, MOST);
    close(other);
    look_at("its copy", copy, MOST);
    tell("a wait in what is closed", epoll_wait(other, &event, 1, 0));
    close(copy);
    tell("a wait in what is closed", epoll_wait(copy, &event, 1, 0));
    close_pipe(it);
}

static void child(void)
{
    struct pipe it = new_pipe();
    control(EPOLL_CTL_ADD, it.reads, EPOLLIN, 1);
    fflush(stdout);
    if (fork() == 0) {
        look("a child");
        put(it, "some");
        look("a child, with bytes");
        close(epoll);
        close(it.reads);
        fflush(stdout);
        _exit(0);
    }
    wait(NULL);
    look("its parent");
    close_pipe(it);
}

static void sockets(void)
{
    int fd = socket(AF_INET, SOCK_STREAM, 0);
    control(EPOLL_CTL_ADD, fd, EPOLLIN | EPOLLOUT | EPOLLRDHUP, 1);
    look("a new socket");
    close(fd);
}

static void *put_in(void *pipe)
{
    put(*(struct pipe *)pipe, "some");
    control(EPOLL_CTL_ADD, ((struct pipe *)pipe)->reads, EPOLLIN, 1);
    return NULL;
}

/* What is waited for changes meanwhile. */
static void threads(void)
{
    struct pipe it = new_pipe();
    struct epoll_event event;
    pthread_t other;
    pthread_create(&other, NULL, put_in, &it);
    printf("a thread beside another one: %d\n", epoll_wait(epoll, &event, 1, -1));
    pthread_join(other, NULL);
    look("once it has ended");
    close_pipe(it);
}

int main(void)
{
    made();
    epoll = epoll_create1(0);
    look("nothing is watched");
    errors();
    both_ways();
    one_shot();
    edges();
    in_turn();
    closed();
    several();
    child();
    sockets();
    threads();
    return 0;
}
