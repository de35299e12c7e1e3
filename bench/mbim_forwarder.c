/* A bare forwarder of MBIM messages. */
#define _GNU_SOURCE
#include "mbim.h"

enum { TOP = 65535 };
#include "forwarder.h"

static uint32_t get_number(const unsigned char *m) { return number_at(m + 8); }

static void set_number(unsigned char *m, uint32_t number) { put_number(m + 8, number); }

static int is_answer(const unsigned char *m) { return number_at(m) != INDICATE_STATUS; }
