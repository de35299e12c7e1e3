/* An MBIM modem for the bench: it opens and closes, and answers what `mbim_answers.h` has. It takes any list of
   subscriptions. Another command ends with the status of a device that doesn't support it.
   answering_mbim unix PATH | answering_mbim pty LINK */
#include "offering.h"
#include "mbim.h"
#include "mbim_answers.h"

static struct stream in;

/* The answer to a command that came in one piece. */
static size_t put_answer(unsigned char *to, const unsigned char *m, size_t length)
{
    static unsigned char body[28 + sizeof((struct buffer *)0)->bytes];
    static struct buffer made;
    uint32_t transaction = number_at(m + 8), cid = number_at(m + 36), count = number_at(m + 44);
    if (length < 48 || number_at(m + 12) != 1 || count > length - 48) return put_short(to, FUNCTION_ERROR, transaction, FRAGMENT_OUT_OF_SEQUENCE);
    const unsigned char *service = m + 20;
    uint32_t status = 0;
    if (memcmp(service, uuids[BASIC_CONNECT], 16) == 0 && cid == 19) { /* subscriptions: taken as they are */
        begin(&made, count);
        memcpy(made.bytes, m + 48, count);
    } else if (!answer(&made, service, cid, number_at(m + 40) == 1, m + 48)) {
        status = NO_DEVICE_SUPPORT;
    }
    memcpy(body, service, 16);
    put_number(body + 16, cid);
    put_number(body + 20, status);
    put_number(body + 24, made.end);
    memcpy(body + 28, made.bytes, made.end);
    return put_fragments(to, COMMAND | DONE, transaction, body, 28 + made.end);
}

static void serve(int fd)
{
    static unsigned char out[32 * FRAGMENT];
    in.start = in.end = 0;
    for (;;) {
        ssize_t count = fill(fd, &in);
        if (count <= 0) {
            if (count < 0 && (errno == EINTR || errno == EIO)) { usleep(10000); continue; }
            return;
        }
        size_t length, at = 0;
        for (unsigned char *m; (m = next_message(&in, &length));) {
            uint32_t kind = number_at(m), transaction = number_at(m + 8);
            if (kind == OPEN || kind == CLOSE) at += put_short(out + at, kind | DONE, transaction, 0);
            else if (kind == COMMAND) at += put_answer(out + at, m, length);
            if (at > sizeof out / 2) { write_all(fd, out, at); at = 0; }
        }
        write_all(fd, out, at);
    }
}

int main(int argc, char **argv) { return offer(argc, argv, serve); }
