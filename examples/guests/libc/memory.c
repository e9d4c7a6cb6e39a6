/*
 * Pages for mmap and munmap, out of the heap. The heap is this file's alone: brk by the program answers where it starts, and moves nothing.
 * A page that comes back is 0, as one that was never used.
 */
#include "guest.h"
#include <errno.h>
#include <string.h>
#include <sys/mman.h>
#include <sys/syscall.h>

enum { PAGE = 4096, MOST_PAGES = 4096 };

static bool is_taken[MOST_PAGES];
/* how many pages the heap has had room for */
static unsigned long reached;

unsigned long heap_start(void)
{
    static unsigned long start;
    if (!start)
        start = ((unsigned long)KERNEL(SYS_brk) + PAGE - 1) & -(unsigned long)PAGE;
    return start;
}

/* Makes the heap this many pages long. Answers whether it is. */
static bool reach(unsigned long pages)
{
    unsigned long end = heap_start() + pages * PAGE;
    if (pages > MOST_PAGES || (unsigned long)KERNEL(SYS_brk, end) != end)
        return false;
    reached = pages;
    return true;
}

/* The first of so many free pages beside one another; the last may be past those that were reached. */
static unsigned long find_free(unsigned long count)
{
    unsigned long first = 0;
    for (unsigned long page = 0; page < reached && page - first < count; page++)
        if (is_taken[page])
            first = page + 1;
    return first;
}

/* Fills pages with a file's bytes, from this page of it on. */
static long read_into(char *bytes, unsigned long length, long fd, uint64_t offset)
{
    for (unsigned long done = 0; done < length;) {
        long part = move_at(SYS_read, fd, bytes + done, length - done, offset + done);
        if (part < 0)
            return part;
        if (part == 0)
            break;
        done += part;
    }
    return 0;
}

long map_pages(long address, unsigned long length, long flags, long fd, unsigned long page)
{
    unsigned long count = length / PAGE + (length % PAGE != 0);
    if (count == 0)
        return -EINVAL;
    if (flags & MAP_FIXED)
        return -ENOMEM;
    (void)address;
    unsigned long first = find_free(count), fresh = reached;
    if (first + count > reached && !reach(first + count))
        return -ENOMEM;
    char *start = (char *)heap_start() + first * PAGE;
    if (first < fresh)
        memset(start, 0, ((first + count < fresh ? first + count : fresh) - first) * PAGE);
    memset(is_taken + first, true, count);
    if (!(flags & MAP_ANONYMOUS)) {
        long result = read_into(start, length, fd, (uint64_t)page * PAGE);
        if (result < 0) {
            unmap_pages((unsigned long)start, length);
            return result;
        }
    }
    return (long)start;
}

/* Pages at the heap's end, or a null pointer where there is no room. Of no byte it answers where the heap ends. */
void *pages_at_end(unsigned long length)
{
    unsigned long first = reached, count = length / PAGE + (length % PAGE != 0);
    if (!reach(first + count))
        return NULL;
    memset(is_taken + first, true, count);
    return (char *)heap_start() + first * PAGE;
}

long unmap_pages(unsigned long address, unsigned long length)
{
    unsigned long first = (address - heap_start()) / PAGE, count = length / PAGE + (length % PAGE != 0);
    if (address % PAGE != 0 || count == 0)
        return -EINVAL;
    if (address >= heap_start() && first < reached)
        memset(is_taken + first, false, count < reached - first ? count : reached - first);
    unsigned long end = reached;
    while (end > 0 && !is_taken[end - 1])
        end--;
    if (end < reached)
        reach(end);
    return 0;
}
