/* Calls that the layer answers, whose answers are Linux's: check.sh runs it under both. */
#include <errno.h>
#include <fcntl.h>
#include <poll.h>
#include <signal.h>
#include <stdio.h>
#include <stdlib.h>
#include <string.h>
#include <sys/mman.h>
#include <sys/select.h>
#include <sys/socket.h>
#include <sys/stat.h>
#include <sys/wait.h>
#include <unistd.h>

static int kept = 5;
static volatile sig_atomic_t handled;

static void on_signal(int signal)
{
    handled += signal;
}

/* What a call gave: its result, or its error's name. */
static void tell(const char *call, long result)
{
    int error = errno;
    printf("%s: %s\n", call, result < 0 ? strerror(error) : "done");
    if (result > 0 && result < 1000)
        printf("  %ld\n", result);
}

static void memory(void)
{
    char *parts[40];
    long sum = 0;
    for (int i = 0; i < 40; i++) {
        parts[i] = malloc(500 * i + 10);
        memset(parts[i], i, 500 * i + 10);
    }
    for (int i = 0; i < 40; i += 2)
        free(parts[i]);
    char *clear = calloc(100, 1000);
    for (int i = 0; i < 100000; i++)
        sum += clear[i];
    for (int i = 1; i < 40; i += 2)
        sum += parts[i][500 * i];
    clear = realloc(clear, 200000);
    printf("memory: %ld %d\n", sum, clear[99999]);
    free(clear);
    char *pages = mmap(NULL, 8192, PROT_READ | PROT_WRITE, MAP_PRIVATE | MAP_ANONYMOUS, -1, 0);
    pages[8191] = 1;
    tell("munmap", munmap(pages, 8192));
    tell("mmap of no byte", (long)mmap(NULL, 0, PROT_READ, MAP_PRIVATE | MAP_ANONYMOUS, -1, 0));
}

static void files(void)
{
    struct stat status;
    char bytes[16] = "";
    int fd = open("made", O_CREAT | O_RDWR | O_TRUNC, 0644);
    tell("write", write(fd, "abcdef", 6));
    fstat(fd, &status);
    printf("fstat: %o %ld\n", status.st_mode, (long)status.st_size);
    stat("./made", &status);
    printf("stat: %o %ld\n", status.st_mode, (long)status.st_size);
    tell("stat of nothing", stat("nothing", &status));
    stat(".", &status);
    printf("stat of the directory: %d\n", S_ISDIR(status.st_mode));
    tell("access", access("made", R_OK));
    tell("access to nothing", access("nothing", R_OK));
    tell("pread", pread(fd, bytes, 3, 2));
    printf("  %s at %ld\n", bytes, (long)lseek(fd, 0, SEEK_CUR));
    tell("pwrite", pwrite(fd, "XY", 2, 0));
    char *mapped = mmap(NULL, 4096, PROT_READ, MAP_PRIVATE, fd, 0);
    printf("mmap: %s\n", mapped);
    int copy = fcntl(fd, F_DUPFD, 20);
    tell("F_DUPFD", copy);
    tell("F_GETFD", fcntl(copy, F_GETFD));
    tell("F_SETFD", fcntl(copy, F_SETFD, FD_CLOEXEC));
    tell("F_GETFD", fcntl(copy, F_GETFD));
    tell("close", close(copy));
    tell("F_GETFD of what is closed", fcntl(copy, F_GETFD));
    tell("readlink", readlink("made", bytes, sizeof bytes));
    tell("chdir to a file", chdir("made"));
    int null = open("/dev/null", O_RDWR);
    tell("write to /dev/null", write(null, "x", 1));
    tell("read of /dev/null", read(null, bytes, 1));
    tell("umask", umask(077) != 077 ? umask(022) : 0);
    tell("unlink", unlink("made"));
}

static void signals(void)
{
    sigset_t set, old;
    signal(SIGUSR1, on_signal);
    raise(SIGUSR1);
    printf("handled: %d\n", handled);
    sigemptyset(&set);
    sigaddset(&set, SIGUSR1);
    tell("sigprocmask", sigprocmask(SIG_BLOCK, &set, &old));
    raise(SIGUSR1);
    sigpending(&set);
    printf("blocked: %d, pending %d\n", handled, sigismember(&set, SIGUSR1));
    sigprocmask(SIG_SETMASK, &old, NULL);
    printf("not blocked any more: %d\n", handled);
    signal(SIGUSR1, SIG_IGN);
    raise(SIGUSR1);
    printf("ignored: %d\n", handled);
    tell("kill of nobody", kill(999999, 0));
}

static void processes(void)
{
    int ends[2], status;
    char bytes[64] = "";
    pipe(ends);
    signal(SIGCHLD, on_signal);
    handled = 0;
    fflush(stdout);
    pid_t child = fork();
    if (child == 0) {
        kept = 7;
        for (int fd = 3; fd < 64; fd++)
            if (fd != ends[1])
                close(fd);
        if (fork() == 0) {
            write(ends[1], "first ", 6);
            _exit(4);
        }
        wait(&status);
        dprintf(ends[1], "%d %d", WEXITSTATUS(status), kept);
        _exit(3);
    }
    close(ends[1]);
    pid_t waited = waitpid(child, &status, 0);
    printf("waited: %d %d\n", waited == child, WEXITSTATUS(status));
    read(ends[0], bytes, sizeof bytes);
    printf("from the children: %s; kept %d; handled %d\n", bytes, kept, handled);
    tell("the pipe's end", read(ends[0], bytes, sizeof bytes));
    tell("waiting for nobody", wait(&status));
    child = fork();
    if (child == 0)
        abort();
    wait(&status);
    printf("aborted: %d %d\n", WIFSIGNALED(status), WTERMSIG(status));
}

static void sockets(void)
{
    struct sockaddr address;
    socklen_t length = sizeof address;
    int fd = socket(AF_INET, SOCK_STREAM, 0), yes = 1;
    struct pollfd asked = {.fd = fd, .events = POLLIN};
    tell("setsockopt", setsockopt(fd, SOL_SOCKET, SO_REUSEADDR, &yes, sizeof yes));
    tell("getsockname of a pipe", getsockname(0, &address, &length));
    tell("shutdown without a connection", shutdown(fd, SHUT_RDWR));
    tell("getpeername without a connection", getpeername(fd, &address, &length));
    tell("F_SETFL", fcntl(fd, F_SETFL, O_NONBLOCK));
    printf("O_NONBLOCK: %d\n", (fcntl(fd, F_GETFL) & O_NONBLOCK) != 0);
    tell("poll", poll(&asked, 1, 0));
    printf("  %d\n", asked.revents & POLLHUP);
    asked = (struct pollfd){.fd = 63, .events = POLLIN};
    tell("poll of what isn't open", poll(&asked, 1, 0));
    printf("  %d\n", asked.revents);
    fd_set set;
    FD_ZERO(&set);
    FD_SET(63, &set);
    tell("select of what isn't open", select(64, &set, NULL, NULL, &(struct timeval){0}));
}

/* Takes some kilobytes of the stack, more than a guest's own has. */
static int deep(int depth)
{
    volatile char bytes[1000];
    bytes[0] = depth % 100;
    return depth ? deep(depth - 1) + bytes[0] : 0;
}

int main(void)
{
    memory();
    files();
    signals();
    processes();
    sockets();
    printf("deep: %d\n", deep(200));
}
