/* A bare forwarder: what a proxy in C costs that only gives each request a number of its own, and each answer the number
   and the client that the request had. It checks nothing, keeps no client ids, lists or deadlines, takes whole
   messages for granted, and drops what it can't place: what a proxy's speed is measured beside. The protocol's file has
   `get_number`, `set_number`, `is_answer` and `TOP`, the greatest number.
   forwarder MODEM SOCKET */
#include <stddef.h>
#include <sys/epoll.h>
#include <sys/socket.h>
#include <sys/un.h>

static uint32_t get_number(const unsigned char *m);
static void set_number(unsigned char *m, uint32_t number);
static int is_answer(const unsigned char *m);

enum { CLIENTS = 64 };

struct end { int fd; size_t waiting; struct stream in; unsigned char out[2 * LONGEST]; };
struct sender { struct end *client; uint32_t number; };

static struct end modem, clients[CLIENTS];
static struct sender senders[TOP + 1];

static void flush(struct end *to)
{
    write_all(to->fd, to->out, to->waiting);
    to->waiting = 0;
}

static void queue(struct end *to, const unsigned char *m, size_t length)
{
    if (to->waiting + length > sizeof to->out) flush(to);
    memcpy(to->out + to->waiting, m, length);
    to->waiting += length;
}

static void forward(struct end *client)
{
    static uint32_t last;
    size_t length;
    for (unsigned char *m; (m = next_message(&client->in, &length));) {
        last = last % TOP + 1;
        senders[last] = (struct sender){ client, get_number(m) };
        set_number(m, last);
        queue(&modem, m, length);
    }
    flush(&modem);
}

static void hand_back(void)
{
    struct end *told[CLIENTS];
    size_t length, count = 0;
    for (unsigned char *m; (m = next_message(&modem.in, &length));) {
        uint32_t number = get_number(m);
        if (!is_answer(m) || number > TOP || !senders[number].client) continue;
        struct sender sender = senders[number];
        set_number(m, sender.number);
        if (!sender.client->waiting) told[count++] = sender.client;
        queue(sender.client, m, length);
    }
    while (count > 0) flush(told[--count]);
}

static int socket_at(struct sockaddr_un *address, const char *path)
{
    *address = (struct sockaddr_un){ .sun_family = AF_UNIX };
    strncpy(address->sun_path, path, sizeof address->sun_path - 1);
    return socket(AF_UNIX, SOCK_STREAM, 0);
}

static void watch(int poll_fd, int fd, void *whom)
{
    struct epoll_event event = { EPOLLIN, { .ptr = whom } };
    if (epoll_ctl(poll_fd, EPOLL_CTL_ADD, fd, &event)) fail("epoll_ctl");
}

int main(int argc, char **argv)
{
    if (argc != 3) return 2;
    struct sockaddr_un address;
    modem.fd = socket_at(&address, argv[1]);
    if (connect(modem.fd, (struct sockaddr *)&address, sizeof address)) fail("connect");
    unlink(argv[2]);
    int listener = socket_at(&address, argv[2]), poll_fd = epoll_create1(0), count = 0;
    if (bind(listener, (struct sockaddr *)&address, sizeof address) || listen(listener, CLIENTS)) fail("listen");
    watch(poll_fd, listener, NULL);
    watch(poll_fd, modem.fd, &modem);
    for (;;) {
        struct epoll_event found[CLIENTS + 2];
        int some = epoll_wait(poll_fd, found, CLIENTS + 2, -1);
        for (int k = 0; k < some; k++) {
            struct end *from = found[k].data.ptr;
            if (!from) {
                if (count == CLIENTS) fail("too many clients");
                clients[count].fd = accept(listener, NULL, NULL);
                watch(poll_fd, clients[count].fd, &clients[count]);
                count++;
            } else if (fill(from->fd, &from->in) <= 0) {
                if (from == &modem) return 0;
                close(from->fd);
            } else if (from == &modem) {
                hand_back();
            } else {
                forward(from);
            }
        }
    }
}
