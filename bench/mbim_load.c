/* A load on an MBIM proxy or modem: each client names the device and opens, and asks for the radio state. The kind,
   the number, the command and the status of each answer are checked. */
#define _GNU_SOURCE
#include "mbim.h"
#include "load.h"

enum { PROXY_CONFIGURATION = 1, RADIO_STATE = 3, ASKS = 0, SETS = 1 };

static const unsigned char PROXY_CONTROL[16] = { 0x83, 0x8C, 0xF7, 0xFB, 0x8D, 0x0D, 0x4D, 0x7F, 0x87, 0x1E, 0xD7, 0x1D, 0xBE, 0xFB, 0xB3, 0x9B };
static const unsigned char BASIC_CONNECT_UUID[16] = { 0xA2, 0x89, 0xCC, 0x33, 0xBC, 0xBB, 0x8B, 0x4F, 0xB6, 0xB0, 0x13, 0x3E, 0xC2, 0xAA, 0xE6, 0xDF };

static size_t put_command(unsigned char *to, uint32_t number, const unsigned char *uuid, uint32_t cid, uint32_t how, const unsigned char *buffer, size_t count)
{
    size_t at = put_head(to, COMMAND, 48 + count, number);
    at += put_number(to + at, 1);
    at += put_number(to + at, 0);
    memcpy(to + at, uuid, 16);
    at += 16;
    at += put_number(to + at, cid);
    at += put_number(to + at, how);
    at += put_number(to + at, count);
    memcpy(to + at, buffer, count);
    return at + count;
}

/* The device's path in UTF-16, behind where it stands, its length and a timeout. */
static size_t put_configuration(unsigned char *to, const char *device)
{
    size_t at = put_number(to, 12);
    at += put_number(to + at, 2 * strlen(device));
    at += put_number(to + at, 30);
    for (; *device; device++) to[at++] = *device, to[at++] = 0;
    while (at % 4) to[at++] = 0;
    return at;
}

static int open_device(struct client *c, const char *device, int silent)
{
    unsigned char message[5000], buffer[4000];
    size_t length, count = put_configuration(buffer, device);
    unsigned char *m;
    (void)silent;
    if (*device) {
        m = exchange(c, message, put_command(message, 1, PROXY_CONTROL, PROXY_CONFIGURATION, SETS, buffer, count), &length);
        if (length < 48 || number_at(m) != (COMMAND | DONE) || number_at(m + 40) != 0) { show(m, length); exit(1); }
    }
    m = exchange(c, message, put_short(message, OPEN, 2, FRAGMENT), &length);
    if (length != 16 || number_at(m) != (OPEN | DONE) || number_at(m + 12) != 0) { show(m, length); exit(1); }
    return 0;
}

static size_t put_request(unsigned char *to, const struct client *c, unsigned count)
{
    (void)c;
    return put_command(to, count + 3, BASIC_CONNECT_UUID, RADIO_STATE, ASKS, NULL, 0);
}

static int is_indication(const unsigned char *m) { return number_at(m) == INDICATE_STATUS; }

static int is_answer(const struct client *c, const unsigned char *m, size_t length, unsigned count)
{
    (void)c;
    return length == 56 && number_at(m) == (COMMAND | DONE) && number_at(m + 8) == count + 3 && memcmp(m + 20, BASIC_CONNECT_UUID, 16) == 0
        && number_at(m + 36) == RADIO_STATE && number_at(m + 40) == 0;
}
