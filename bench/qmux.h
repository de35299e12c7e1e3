/* Messages of QMI over QMUX, as far as the bench needs them. */
#include "streams.h"

enum { CTL = 0, DMS = 2, ALLOCATE = 0x0022, RELEASE = 0x0023, GET_MODEL = 0x0022, PROXY_OPEN = 0xFF00 };

/* Writes a message, and gives its length. */
__attribute__((unused))
static size_t put_message(unsigned char *to, int service, int client, int flags, unsigned number, unsigned name, const unsigned char *tlvs, size_t count)
{
    size_t head = service == CTL ? 12 : 13, at = 6;
    to[0] = 1;
    to[1] = (head + count - 1) & 0xFF;
    to[2] = (head + count - 1) >> 8;
    to[3] = flags ? 0x80 : 0;
    to[4] = service;
    to[5] = client;
    to[at++] = service == CTL ? flags >> 1 : flags;
    to[at++] = number & 0xFF;
    if (service != CTL) to[at++] = number >> 8;
    to[at++] = name & 0xFF;
    to[at++] = name >> 8;
    to[at++] = count & 0xFF;
    to[at++] = count >> 8;
    memcpy(to + at, tlvs, count);
    return at + count;
}

/* The next whole message of a stream, or none. */
static unsigned char *next_message(struct stream *s, size_t *length)
{
    unsigned char *m = s->bytes + s->start;
    if (s->end - s->start < 3) return NULL;
    *length = (m[1] | m[2] << 8) + 1u;
    if (m[0] != 1 || *length < 12) { fprintf(stderr, "a stream is bad\n"); exit(1); }
    if (s->end - s->start < *length) return NULL;
    s->start += *length;
    return m;
}
