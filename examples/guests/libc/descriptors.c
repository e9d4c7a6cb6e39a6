/* The table of descriptors, files and what is asked of them. The kernel keeps the files; this file keeps what it has no call for. */
#include "guest.h"
#include <errno.h>
#include <fcntl.h>
#include <string.h>
#include <sys/ioctl.h>
#include <sys/stat.h>
#include <sys/syscall.h>
#include <unistd.h>

static struct descriptor descriptors[DESCRIPTORS] = {{.is_open = true}, {.is_open = true}, {.is_open = true}};

struct descriptor *descriptor_of(long fd)
{
    return fd >= 0 && fd < DESCRIPTORS && descriptors[fd].is_open && !descriptors[fd].kept ? &descriptors[fd] : NULL;
}

struct descriptor *opened(long fd, enum kind kind)
{
    descriptors[fd] = (struct descriptor){.is_open = true, .kind = kind};
    return &descriptors[fd];
}

/* ---- a child and its parent's descriptors */

/* The child has every descriptor of its parent, and closes none of them for it. */
void inherit_descriptors(void)
{
    for (int fd = 0; fd < DESCRIPTORS; fd++) {
        descriptors[fd].is_inherited = descriptors[fd].is_open;
        descriptors[fd].kept = 0;
    }
}

/* The least number from this one on at which a file can be opened, or -EMFILE. */
static long free_number(long least)
{
    for (long fd = least; fd < FIRST_SOCKET; fd++)
        if (!descriptors[fd].is_open)
            return fd;
    return -EMFILE;
}

/* Before a child gives up a number: what its parent has there is kept at another. A socket has no second number, and stays. */
static void keep_for_parent(long fd)
{
    if (!descriptors[fd].is_inherited || descriptors[fd].kind != ANY_FILE)
        return;
    long number = free_number(FIRST_SOCKET / 2);
    if (number < 0 || KERNEL(SYS_dup3, fd, number, O_CLOEXEC) < 0)
        cannot("fork: no descriptor is free to keep what a child closes");
    descriptors[number] = descriptors[fd];
    descriptors[number].kept = fd + 1;
    descriptors[fd].is_inherited = false;
}

/* Whether a child keeps here what its parent has at another number: the child itself has nothing there. */
static bool is_kept(long fd)
{
    return fd >= 0 && fd < DESCRIPTORS && descriptors[fd].kept;
}

/* At a child's end: what it opened is closed, and what it closed is its parent's again. */
void return_descriptors(void)
{
    for (int fd = 0; fd < DESCRIPTORS; fd++)
        if (descriptors[fd].is_open && !descriptors[fd].is_inherited)
            KERNEL(SYS_close, fd);
    for (int fd = 0; fd < FIRST_SOCKET; fd++)
        if (descriptors[fd].kept) {
            KERNEL(SYS_dup3, fd, descriptors[fd].kept - 1, 0);
            KERNEL(SYS_close, fd);
        }
}

/* Before a number is another's, or nobody's: as what is watched, and as what watches. */
static void leave_what_watches(long fd)
{
    leave_epolls(fd);
    if (descriptors[fd].epoll)
        leave_epoll(descriptors[fd].epoll);
}

long close_descriptor(long fd)
{
    struct descriptor *closed = descriptor_of(fd);
    if (!closed)
        return is_kept(fd) ? -EBADF : KERNEL(SYS_close, fd);
    leave_what_watches(fd);
    if (closed->is_inherited && closed->kind != ANY_FILE) {
        closed->is_open = false;
        return 0;
    }
    keep_for_parent(fd);
    if (closed->taken)
        KERNEL(SYS_close, closed->taken);
    *closed = (struct descriptor){0};
    return KERNEL(SYS_close, fd);
}

/* ---- names and numbers */

/* A path of the one directory, as the kernel has it: without `/` and `./` before it. */
static const char *name_of(const char *path)
{
    for (;;)
        if (path[0] == '/')
            path++;
        else if (path[0] == '.' && (path[1] == '/' || path[1] == 0))
            path++;
        else
            return path;
}

static bool is_directory(const char *path)
{
    const char *name = name_of(path);
    return *path && (!*name || !strcmp(name, ".."));
}

static uint32_t inode_of(const char *name)
{
    uint32_t inode = 1;
    while (*name)
        inode = inode * 31 + (unsigned char)*name++;
    return inode & 0x7fffffff;
}

/* A file without a name stands for /dev/null: each has its own, which is empty when it is opened. */
static long open_null(void)
{
    static const char name[] = ".null";
    long fd = KERNEL(SYS_openat, ONLY_DIRECTORY, name, O_RDWR | O_CREAT | O_TRUNC, 0600);
    if (fd >= 0)
        KERNEL(SYS_unlinkat, ONLY_DIRECTORY, name, 0);
    return fd;
}

long open_file(const char *path, long flags, long mode)
{
    const char *name = name_of(path);
    bool is_null = !strcmp(name, "dev/null");
    long fd = is_null ? open_null() : KERNEL(SYS_openat, ONLY_DIRECTORY, *path ? name : path, flags, mode);
    if (fd >= 0) {
        struct descriptor *file = opened(fd, ANY_FILE);
        file->inode = inode_of(name);
        file->closes_on_exec = flags & O_CLOEXEC;
    }
    return fd;
}

long remove_file(const char *path, long flags)
{
    return KERNEL(SYS_unlinkat, ONLY_DIRECTORY, name_of(path), flags);
}

/* A copy of what the kernel has copied already. */
static long copied(long fd, long number, bool closes_on_exec)
{
    leave_what_watches(number);
    descriptors[number] = descriptors[fd];
    if (descriptors[number].epoll)
        use_epoll(descriptors[number].epoll);
    descriptors[number].is_inherited = false;
    descriptors[number].closes_on_exec = closes_on_exec;
    return number;
}

long copy_onto(long fd, long number, long flags)
{
    if (is_kept(fd) || is_kept(number))
        return is_kept(fd) ? -EBADF : -EBUSY;
    if (descriptor_of(fd) && number >= 0 && number < FIRST_SOCKET && number != fd)
        keep_for_parent(number);
    long result = KERNEL(SYS_dup3, fd, number, flags);
    return result < 0 ? result : copied(fd, number, flags & O_CLOEXEC);
}

long copy_descriptor(long fd, long least, bool closes_on_exec)
{
    if (!descriptor_of(fd))
        return -EBADF;
    if (least < 0 || least >= DESCRIPTORS)
        return -EINVAL;
    long number = free_number(least);
    return number < 0 ? number : copy_onto(fd, number, closes_on_exec ? O_CLOEXEC : 0);
}

long make_pipe(int *ends, long flags)
{
    long result = KERNEL(SYS_pipe2, ends, flags);
    for (int i = 0; result == 0 && i < 2; i++) {
        struct descriptor *end = opened(ends[i], ANY_FILE);
        end->closes_on_exec = flags & O_CLOEXEC;
        end->waits_not = flags & O_NONBLOCK;
    }
    return result;
}

/* ---- what is asked of a descriptor */

long control_descriptor(long fd, long command, long argument)
{
    struct descriptor *asked = descriptor_of(fd);
    if (!asked)
        return -EBADF;
    switch (command) {
    case F_DUPFD:
    case F_DUPFD_CLOEXEC:
        return copy_descriptor(fd, argument, command == F_DUPFD_CLOEXEC);
    case F_GETFD:
        return asked->closes_on_exec ? FD_CLOEXEC : 0;
    case F_SETFD:
        asked->closes_on_exec = argument & FD_CLOEXEC;
        return 0;
    case F_GETFL:
        return O_RDWR | (asked->waits_not ? O_NONBLOCK : 0);
    case F_SETFL:
        asked->waits_not = argument & O_NONBLOCK;
        set_waiting(fd, asked->waits_not);
        return 0;
    case F_SETLK:
    case F_SETLKW:
        return 0;
    case F_GETLK:
        ((struct flock *)argument)->l_type = F_UNLCK;
        return 0;
    default:
        return -EINVAL;
    }
}

long control_device(long fd, unsigned long request, int *argument)
{
    struct descriptor *asked = descriptor_of(fd);
    if (!asked || request != FIONBIO)
        return KERNEL(SYS_ioctl, fd, request, argument);
    asked->waits_not = *argument != 0;
    set_waiting(fd, asked->waits_not);
    return 0;
}

/* Where the offset is then, or an error. */
static int64_t seek(long fd, uint64_t offset, int whence)
{
    int64_t result;
    long error = KERNEL(SYS__llseek, fd, (long)(offset >> 32), (long)offset, &result, whence);
    return error < 0 ? error : result;
}

/* The size of a file, whose offset stays, or an error for what has no offset. */
static int64_t size_of(long fd)
{
    int64_t offset = seek(fd, 0, SEEK_CUR);
    if (offset < 0)
        return offset;
    int64_t size = seek(fd, 0, SEEK_END);
    seek(fd, offset, SEEK_SET);
    return size;
}

/* read or write at an offset: the descriptor's own stays. */
long move_at(long number, long fd, void *bytes, long length, uint64_t offset)
{
    int64_t own = seek(fd, 0, SEEK_CUR);
    if (own < 0)
        return own;
    if (seek(fd, offset, SEEK_SET) < 0)
        return -EINVAL;
    long result = KERNEL(number, fd, bytes, length);
    seek(fd, own, SEEK_SET);
    return result;
}

long send_file(long to, long from, int64_t *offset, long length)
{
    static char bytes[4096];
    long sent = 0;
    while (sent < length) {
        long part = length - sent < (long)sizeof bytes ? length - sent : (long)sizeof bytes;
        part = offset ? move_at(SYS_read, from, bytes, part, *offset) : KERNEL(SYS_read, from, bytes, part);
        if (part == 0)
            break;
        long written = part < 0 ? part : KERNEL(SYS_write, to, bytes, part);
        if (written < part)
            was_full(to);
        if (written < 0)
            return sent ? sent : written;
        sent += written;
        if (offset)
            *offset += written;
        else if (written < part)
            seek(from, written - part, SEEK_CUR);
        if (written < part)
            break;
    }
    return sent;
}

/* ---- the status of files */

static void set_status(struct statx *status, int mode, int64_t size, uint64_t inode)
{
    *status = (struct statx){
        .stx_mask = STATX_BASIC_STATS, .stx_blksize = 4096, .stx_nlink = 1, .stx_uid = 1000, .stx_gid = 1000,
        .stx_mode = mode, .stx_ino = inode, .stx_size = size, .stx_blocks = (size + 511) / 512,
    };
}

static long status_of_descriptor(long fd, struct statx *status)
{
    struct descriptor *asked = descriptor_of(fd);
    if (!asked)
        return -EBADF;
    int64_t size = asked->kind == ANY_FILE ? size_of(fd) : -EBADF;
    if (asked->kind != ANY_FILE)
        set_status(status, S_IFSOCK | 0777, 0, fd + 1);
    else if (size >= 0)
        set_status(status, S_IFREG | 0644, size, asked->inode);
    else
        set_status(status, (fd <= 2 ? S_IFCHR : S_IFIFO) | 0600, 0, fd + 1);
    return 0;
}

long file_status(long directory, const char *path, long flags, void *status)
{
    if (!*path && flags & AT_EMPTY_PATH)
        return status_of_descriptor(directory, status);
    const char *name = name_of(path);
    if (is_directory(path)) {
        set_status(status, S_IFDIR | 0755, 4096, 1);
        return 0;
    }
    if (!strcmp(name, "dev/null")) {
        set_status(status, S_IFCHR | 0666, 0, inode_of(name));
        return 0;
    }
    long fd = KERNEL(SYS_openat, ONLY_DIRECTORY, name, O_RDONLY, 0);
    if (fd < 0)
        return fd;
    set_status(status, S_IFREG | 0644, size_of(fd), inode_of(name));
    KERNEL(SYS_close, fd);
    return 0;
}

long can_access(const char *path)
{
    struct statx status;
    return file_status(ONLY_DIRECTORY, path, 0, &status);
}

long change_directory(const char *path)
{
    struct statx status;
    long result = file_status(ONLY_DIRECTORY, path, 0, &status);
    return result < 0 || S_ISDIR(status.stx_mode) ? result : -ENOTDIR;
}
