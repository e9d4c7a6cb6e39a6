/* Calls of the system: what was read is written to the buffer, and all that is to be written is read from it. */
#include "checked.h"
#include <sys/types.h>

WRAPPED(ssize_t, read, int fd, void *buffer, size_t count)
{
    ssize_t got = __real_read(fd, buffer, count);
    if (got > 0)
        WRITES(buffer, got);
    return got;
}
WRAPPED(ssize_t, write, int fd, const void *buffer, size_t count)
{
    READS(buffer, count);
    return __real_write(fd, buffer, count);
}

#ifdef CHECKED_LIBC
#include <sys/socket.h>
#include <sys/uio.h>

WRAPPED(ssize_t, writev, int fd, const struct iovec *parts, int count)
{
    for (int i = 0; i < count; i++)
        READS(parts[i].iov_base, parts[i].iov_len);
    return __real_writev(fd, parts, count);
}
WRAPPED(ssize_t, send, int fd, const void *buffer, size_t count, int flags)
{
    READS(buffer, count);
    return __real_send(fd, buffer, count, flags);
}
WRAPPED(ssize_t, recv, int fd, void *buffer, size_t count, int flags)
{
    ssize_t got = __real_recv(fd, buffer, count, flags);
    if (got > 0)
        WRITES(buffer, got);
    return got;
}
#endif
