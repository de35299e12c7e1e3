/* Streams of messages, as far as the bench needs them. */
#ifndef STREAMS
#define STREAMS
#include <errno.h>
#include <poll.h>
#include <stdint.h>
#include <stdio.h>
#include <stdlib.h>
#include <string.h>
#include <unistd.h>

enum { LONGEST = 65556 };

/* A stream of messages: what was read, and where the next message begins. */
struct stream { unsigned char bytes[2 * LONGEST]; size_t start, end; };

static void fail(const char *what) { perror(what); exit(1); }

/* Reads what there is. The end of the stream gives 0. */
static ssize_t fill(int fd, struct stream *s)
{
    if (s->start > 0) {
        memmove(s->bytes, s->bytes + s->start, s->end - s->start);
        s->end -= s->start;
        s->start = 0;
    }
    ssize_t count = read(fd, s->bytes + s->end, sizeof s->bytes - s->end);
    if (count > 0) s->end += count;
    return count;
}

static void write_all(int fd, const unsigned char *bytes, size_t count)
{
    while (count > 0) {
        ssize_t written = write(fd, bytes, count);
        if (written < 0) {
            if (errno == EINTR) continue;
            if (errno == EAGAIN) { struct pollfd p = { fd, POLLOUT, 0 }; poll(&p, 1, -1); continue; }
            fail("write");
        }
        bytes += written;
        count -= written;
    }
}
#endif
