/* What the stand-in modem answers: information buffers, by service and command, in the layouts of the USB-IF MBIM
   specification 1.0. A buffer is a fixed part, whose texts and references are offsets and sizes, and behind it what
   they lead to, each filled up to a multiple of four. */
enum { BASIC_CONNECT, SMS, USSD, PHONEBOOK, SERVICES };

static const unsigned char uuids[SERVICES][16] = {
    { 0xA2, 0x89, 0xCC, 0x33, 0xBC, 0xBB, 0x8B, 0x4F, 0xB6, 0xB0, 0x13, 0x3E, 0xC2, 0xAA, 0xE6, 0xDF },
    { 0x53, 0x3F, 0xBE, 0xEB, 0x14, 0xFE, 0x44, 0x67, 0x9F, 0x90, 0x33, 0xA2, 0x23, 0xE5, 0x6C, 0x3F },
    { 0xE5, 0x50, 0xA0, 0xC8, 0x5E, 0x82, 0x47, 0x9E, 0x82, 0xF7, 0x10, 0xAB, 0xF4, 0xC3, 0x35, 0x1F },
    { 0x4B, 0xF3, 0x84, 0x76, 0x1E, 0x6A, 0x41, 0xDB, 0xB1, 0xD8, 0xBE, 0xD2, 0x89, 0xC2, 0x5B, 0xDB },
};
static const unsigned char internet[16] = /* the context of a connection to the internet */
    { 0x7E, 0x5E, 0x2A, 0x7E, 0x4E, 0x6F, 0x72, 0x72, 0x73, 0x6B, 0x65, 0x6E, 0x7E, 0x5E, 0x2A, 0x7E };

/* A buffer that is being made: its fixed part so far, and where the next of its data goes. Nothing behind that is cleared
   yet, so that a short answer costs a modem nothing more than its own bytes. */
struct buffer { unsigned char bytes[FRAGMENT * 8]; size_t at, end; };

static struct buffer *begin(struct buffer *b, size_t fixed)
{
    memset(b->bytes, 0, fixed);
    b->at = 0;
    b->end = fixed;
    return b;
}

/* Puts bytes behind the others, filled up to a multiple of four. */
static void put_behind(struct buffer *b, const void *bytes, size_t count)
{
    size_t whole = (count + 3) / 4 * 4;
    memcpy(b->bytes + b->end, bytes, count);
    memset(b->bytes + b->end + count, 0, whole - count);
    b->end += whole;
}

static struct buffer *u32(struct buffer *b, uint32_t number) { b->at += put_number(b->bytes + b->at, number); return b; }
static struct buffer *u64(struct buffer *b, uint64_t number) { u32(b, number); return u32(b, number >> 32); }

static struct buffer *uuid(struct buffer *b, const unsigned char *bytes)
{
    memcpy(b->bytes + b->at, bytes, 16);
    b->at += 16;
    return b;
}

static struct buffer *data(struct buffer *b, const void *bytes, size_t count)
{
    u32(b, count ? b->end : 0);
    u32(b, count);
    put_behind(b, bytes, count);
    return b;
}

/* Only the offset, where the layout has no size. */
static struct buffer *address(struct buffer *b, const void *bytes, size_t count)
{
    u32(b, b->end);
    put_behind(b, bytes, count);
    return b;
}

static struct buffer *text(struct buffer *b, const char *ascii)
{
    unsigned char units[256] = { 0 };
    for (size_t i = 0; ascii[i]; i++) units[2 * i] = ascii[i];
    return data(b, units, 2 * strlen(ascii));
}

static struct buffer *within(struct buffer *b, const struct buffer *part) { return data(b, part->bytes, part->end); }

static void provider(struct buffer *b, const char *id, uint32_t state, const char *name, uint32_t rssi)
{
    u32(text(u32(text(begin(b, 32), id), state), name), 1);
    u32(u32(b, rssi), 99);
}

static int radio = 1, attached = 1, connected = 0;

static void basic_connect(struct buffer *b, uint32_t cid, int set, const unsigned char *asked)
{
    struct buffer part;
    switch (cid) {
    case 1: /* device caps: an embedded modem for GSM with LTE, a SIM that can be taken out, SMS both ways, 16 sessions */
        u32(u32(u32(u32(u32(u32(u32(u32(begin(b, 64), 1), 1), 1), 2), 0x3F), 3), 1), 16);
        text(text(text(text(b, "HSPA+"), "353533123456787"), "SWI9X30C_02.33.03.00"), "EM7455");
        break;
    case 2: /* subscriber ready status: initialized, one number */
        u32(u32(text(text(u32(begin(b, 36), 1), "001010123456789"), "8949000000000000001"), 0), 1);
        text(b, "+4915112345678");
        break;
    case 3: /* radio state */
        if (set) radio = number_at(asked);
        u32(u32(begin(b, 8), 1), radio);
        break;
    case 4: /* PIN: PIN 1, not asked for; three attempts */
        u32(u32(u32(begin(b, 12), 2), 0), 3);
        break;
    case 6:
        provider(b, "00101", 1, "Example Net", 21);
        break;
    case 8: { /* two providers can be seen */
        struct buffer other;
        provider(&part, "00101", 0x21, "Example Net", 21);
        provider(&other, "26202", 4, "Other Net", 7);
        within(within(u32(begin(b, 20), 2), &part), &other);
        break;
    }
    case 9: /* registration state: at home, automatic, LTE */
        u32(u32(u32(u32(u32(begin(b, 48), 0), 3), 1), 0x20), 1);
        u32(text(text(text(b, "00101"), "Example Net"), ""), 2);
        break;
    case 10: /* packet service: 50 and 150 Mbit/s in LTE */
        if (set) attached = number_at(asked) == 0;
        u64(u64(u32(u32(u32(begin(b, 28), 0), attached ? 2 : 4), 0x20), 50000000), 150000000);
        break;
    case 11: /* signal state: -71 dBm */
        u32(u32(u32(u32(u32(begin(b, 20), 21), 99), 30), 5), 0xFFFFFFFF);
        break;
    case 12: /* connection state, of the session that was asked for */
        if (set) connected = number_at(asked + 4);
        u32(u32(u32(u32(begin(b, 36), number_at(asked)), connected ? 1 : 3), 0), connected ? 1 : 0);
        u32(uuid(b, internet), 0);
        break;
    case 15: /* IP configuration: address, gateway and two servers of IPv4; of IPv6 an address */
        u32(u32(u32(begin(b, 60), number_at(asked)), 0xF), 1);
        address(u32(b, 1), "\x1E\x00\x00\x00\x0A\x40\x00\x02", 8);
        address(u32(b, 1), "\x40\x00\x00\x00\x20\x01\x0D\xB8\x00\x00\x00\x00\x00\x00\x00\x00\x00\x00\x00\x02", 20);
        address(b, "\x0A\x40\x00\x01", 4);
        u32(b, 0);
        address(u32(b, 2), "\x08\x08\x08\x08\x08\x08\x04\x04", 8);
        u32(u32(u32(u32(b, 0), 0), 1500), 1280);
        break;
    case 16: { /* device services: two of them, with their commands */
        struct buffer other;
        uuid(begin(&part, 40), uuids[BASIC_CONNECT]);
        u32(u32(u32(u32(u32(u32(&part, 0), 0), 3), 1), 2), 12);
        uuid(begin(&other, 32), uuids[SMS]);
        u32(u32(u32(u32(&other, 0), 0), 1), 2);
        within(within(u32(u32(begin(b, 24), 2), 0), &part), &other);
        break;
    }
    case 20: /* packet statistics */
        u64(u64(u64(u64(u32(u32(begin(b, 48), 1), 2), 30000000000), 40000000), 5000000000), 6000000);
        u32(u32(b, 7), 8);
        break;
    }
}

static void sms(struct buffer *b, uint32_t cid)
{
    static const unsigned char pdu[] = "\x07\x91\x94\x71\x22\x72\x30\x33\x04\x0B\x91\x94\x51\x11\x32\x54\xF6\x00\x00\x42\x11\x82\x21\x43\x65\x40\x05\xE8\x32\x9B\xFD\x06";
    struct buffer part;
    switch (cid) {
    case 1: /* configuration: initialized, messages as PDUs, 30 of 160 characters */
        text(u32(u32(u32(u32(begin(b, 24), 1), 0), 30), 160), "+491722270333");
        break;
    case 2: /* read: one message, the first, not read yet */
        data(u32(u32(begin(&part, 16), 1), 0), pdu, sizeof pdu - 1);
        within(u32(u32(begin(b, 16), 0), 1), &part);
        break;
    case 4: /* delete */
        begin(b, 0);
        break;
    case 5: /* store status: a new message, with index 1 */
        u32(u32(begin(b, 8), 2), 1);
        break;
    }
}

static void ussd(struct buffer *b) /* no further action is needed; one's own credit in the default alphabet */
{
    data(u32(u32(u32(begin(b, 20), 0), 1), 15), "\xC3\xB2\x72\x99\x4C\x07\xD1\xCB", 8);
}

static void phonebook(struct buffer *b, uint32_t cid)
{
    struct buffer part, other;
    switch (cid) {
    case 1: /* configuration: initialized, 250 entries, 2 of them used */
        u32(u32(u32(u32(u32(begin(b, 20), 1), 250), 2), 20), 14);
        break;
    case 2: /* read: two entries */
        text(text(u32(begin(&part, 20), 1), "+4915112345678"), "Alice");
        text(text(u32(begin(&other, 20), 7), "110"), "Bob");
        within(within(u32(begin(b, 20), 2), &part), &other);
        break;
    case 3: /* delete, write */
    case 4:
        begin(b, 0);
        break;
    }
}

/* Whether the modem knows the command, and its answer. */
static int answer(struct buffer *b, const unsigned char *service, uint32_t cid, int set, const unsigned char *asked)
{
    begin(b, 0);
    b->at = 1; /* until an answer is begun */
    if (memcmp(service, uuids[BASIC_CONNECT], 16) == 0) basic_connect(b, cid, set, asked);
    if (memcmp(service, uuids[SMS], 16) == 0) sms(b, cid);
    if (memcmp(service, uuids[USSD], 16) == 0 && cid == 1) ussd(b);
    if (memcmp(service, uuids[PHONEBOOK], 16) == 0) phonebook(b, cid);
    return b->end > 0 || b->at == 0;
}
