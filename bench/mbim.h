/* Messages of MBIM, as far as the bench needs them. All numbers are little endian.
   Source: the USB-IF MBIM specification 1.0. */
#include "streams.h"

enum { OPEN = 1, CLOSE = 2, COMMAND = 3, DONE = 0x80000000, FUNCTION_ERROR = 0x80000004, INDICATE_STATUS = 0x80000007, FRAGMENT = 4096 };
enum { NO_DEVICE_SUPPORT = 9, FRAGMENT_OUT_OF_SEQUENCE = 2 };

static uint32_t number_at(const unsigned char *at)
{
    return at[0] | at[1] << 8 | at[2] << 16 | (uint32_t)at[3] << 24;
}

static size_t put_number(unsigned char *to, uint32_t number)
{
    for (int i = 0; i < 4; i++) to[i] = number >> 8 * i;
    return 4;
}

/* Writes the head of a message, and gives its length. */
static size_t put_head(unsigned char *to, uint32_t kind, uint32_t length, uint32_t transaction)
{
    put_number(to, kind);
    put_number(to + 4, length);
    put_number(to + 8, transaction);
    return 12;
}

/* Writes a message with one number in it, as OPEN_DONE with its status. */
__attribute__((unused))
static size_t put_short(unsigned char *to, uint32_t kind, uint32_t transaction, uint32_t number)
{
    put_head(to, kind, 16, transaction);
    put_number(to + 12, number);
    return 16;
}

/* Writes a body in as many fragments as it takes. */
__attribute__((unused))
static size_t put_fragments(unsigned char *to, uint32_t kind, uint32_t transaction, const unsigned char *body, size_t count)
{
    size_t most = FRAGMENT - 20, total = count ? (count + most - 1) / most : 1, at = 0;
    for (size_t current = 0; current < total; current++) {
        size_t part = count < most ? count : most;
        at += put_head(to + at, kind, 20 + part, transaction);
        at += put_number(to + at, total);
        at += put_number(to + at, current);
        memcpy(to + at, body, part);
        at += part, body += part, count -= part;
    }
    return at;
}

/* The next whole message of a stream, or none. */
static unsigned char *next_message(struct stream *s, size_t *length)
{
    unsigned char *m = s->bytes + s->start;
    if (s->end - s->start < 8) return NULL;
    *length = number_at(m + 4);
    if (*length < 12 || *length > LONGEST) { fprintf(stderr, "a stream is bad\n"); exit(1); }
    if (s->end - s->start < *length) return NULL;
    s->start += *length;
    return m;
}
