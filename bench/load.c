/* A load on a QMI proxy or modem: each client gets a client id, and asks for the model. The service, the client id
   and the number of each answer are checked. */
#define _GNU_SOURCE
#include "qmux.h"
#include "load.h"

static unsigned char *ask(struct client *c, unsigned name, const unsigned char *tlvs, size_t count, size_t *length)
{
    unsigned char message[5000];
    return exchange(c, message, put_message(message, CTL, 0, 0, 1, name, tlvs, count), length);
}

static int allocate(struct client *c)
{
    unsigned char service[4] = { 0x01, 1, 0, DMS };
    size_t length;
    unsigned char *m = ask(c, ALLOCATE, service, 4, &length);
    for (size_t at = 12; at + 3 <= length; at += 3 + (m[at + 1] | m[at + 2] << 8))
        if (m[at] == 0x01) return m[at + 4];
    fprintf(stderr, "no client id is given\n");
    exit(1);
}

static int open_device(struct client *c, const char *device, int silent)
{
    unsigned char tlvs[4100] = { 0x01, strlen(device) & 0xFF, strlen(device) >> 8 };
    size_t length;
    if (!*device) return silent ? 0 : allocate(c);
    memcpy(tlvs + 3, device, strlen(device));
    unsigned char *m = ask(c, PROXY_OPEN, tlvs, strlen(device) + 3, &length);
    if (length < 19 || m[15] || m[16]) { fprintf(stderr, "the device isn't opened\n"); exit(1); }
    return silent ? 0 : allocate(c);
}

static size_t put_request(unsigned char *to, const struct client *c, unsigned count)
{
    return put_message(to, DMS, c->id, 0, count % 65535 + 1, GET_MODEL, NULL, 0);
}

static int is_indication(const unsigned char *m) { return m[6] & (m[4] == CTL ? 2 : 4); }

static int is_answer(const struct client *c, const unsigned char *m, size_t length, unsigned count)
{
    return length >= 13 && m[4] == DMS && m[5] == c->id && m[6] == 2 && (m[7] | m[8] << 8) == (int)(count % 65535 + 1);
}
