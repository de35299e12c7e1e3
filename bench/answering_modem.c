/* A modem for the bench: it gives client ids in turn, and answers what `modem_answers.h` has. Another message is
   refused as an invalid command, and one under a client id that isn't given as an invalid client id.
   answering_modem unix PATH | answering_modem pty LINK */
#include "offering.h"
#include "qmux.h"
#include "modem_answers.h"

enum { CLIENT_IDS_EXHAUSTED = 5, INVALID_CLIENT_ID = 7, INVALID_COMMAND = 71 };

static struct stream in;
static unsigned char out[4 * LONGEST];
static unsigned char given[256][256];                               /* by service and client id */
static struct { size_t count; unsigned char tlvs[256]; } ready[4][256]; /* by service and message; without TLVs there is none */

static size_t put_tlv(unsigned char *to, int kind, const void *bytes, size_t count)
{
    to[0] = kind;
    to[1] = count & 0xFF;
    to[2] = count >> 8;
    memcpy(to + 3, bytes, count);
    return 3 + count;
}

static size_t put_result(unsigned char *to, int error)
{
    return put_tlv(to, 0x02, (unsigned char[4]){ error != 0, 0, error, 0 }, 4);
}

static void make_ready(void)
{
    for (const struct answer *a = answers; a < answers + sizeof answers / sizeof *answers; a++) {
        unsigned char *tlvs = ready[a->service][a->name].tlvs;
        size_t count = put_result(tlvs, 0);
        for (const struct tlv *t = a->tlvs; t < a->tlvs + sizeof a->tlvs / sizeof *t && t->kind; t++)
            count += put_tlv(tlvs + count, t->kind, t->bytes, t->count);
        ready[a->service][a->name].count = count;
    }
}

/* Gives or takes back a client id: the answer's TLVs. */
static size_t client_id(unsigned char *tlvs, int name, int service, int id)
{
    static unsigned char last;
    if (name == RELEASE) {
        if (!given[service][id]) return put_result(tlvs, INVALID_CLIENT_ID);
    } else {
        int tries = 0;
        do last = last % 254 + 1; while (given[service][last] && ++tries < 254);
        if (given[service][last]) return put_result(tlvs, CLIENT_IDS_EXHAUSTED);
        id = last;
    }
    given[service][id] = name == ALLOCATE;
    size_t count = put_result(tlvs, 0);
    return count + put_tlv(tlvs + count, 0x01, (unsigned char[2]){ service, id }, 2);
}

static void serve(int fd)
{
    in.start = in.end = 0;
    memset(given, 0, sizeof given);
    for (;;) {
        ssize_t count = fill(fd, &in);
        if (count <= 0) {
            if (count < 0 && (errno == EINTR || errno == EIO)) { usleep(10000); continue; }
            return;
        }
        size_t length, at = 0;
        for (unsigned char *m; (m = next_message(&in, &length));) {
            int service = m[4], id = m[5];
            unsigned number = service == CTL ? m[7] : m[7] | m[8] << 8;
            const unsigned char *at_name = m + (service == CTL ? 8 : 9);
            unsigned name = at_name[0] | at_name[1] << 8;
            unsigned char made[32], *tlvs = made;
            size_t used;
            if (service == CTL && (name == ALLOCATE || name == RELEASE) && length >= 16u + (name == RELEASE)) {
                used = client_id(made, name, m[15], name == RELEASE ? m[16] : 0);
            } else if (service != CTL && !given[service][id]) {
                used = put_result(made, INVALID_CLIENT_ID);
            } else if (service < 4 && name < 256 && ready[service][name].count) {
                tlvs = ready[service][name].tlvs;
                used = ready[service][name].count;
            } else {
                used = put_result(made, INVALID_COMMAND);
            }
            at += put_message(out + at, service, id, 2, number, name, tlvs, used);
            if (at > sizeof out - LONGEST) { write_all(fd, out, at); at = 0; }
        }
        write_all(fd, out, at);
    }
}

int main(int argc, char **argv)
{
    make_ready();
    return offer(argc, argv, serve);
}
