/* A bare forwarder of QMI messages. */
#define _GNU_SOURCE
#include "qmux.h"

/* One space for all. The numbers of CTL have one byte, which is enough for a load that asks CTL at its opening alone. */
enum { TOP = 65535 };
#include "forwarder.h"

static uint32_t get_number(const unsigned char *m) { return m[4] == CTL ? m[7] : m[7] | m[8] << 8; }

static void set_number(unsigned char *m, uint32_t number)
{
    m[7] = number & 0xFF;
    if (m[4] != CTL) m[8] = number >> 8;
}

static int is_answer(const unsigned char *m) { return m[6] & (m[4] == CTL ? 1 : 2); }
