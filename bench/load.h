/* Programs that share a modem through a proxy: each opens the device, and keeps so many requests in flight. Each
   answer is checked, and indications are passed over. The protocol's file has `open_device`, `put_request`, `is_answer`
   and `is_indication`.
   load SOCKET DEVICE CLIENTS IN_FLIGHT REQUESTS [SILENT]   (@NAME is an abstract socket)
   An empty DEVICE is a modem's own socket, where no device is named.
   SILENT more clients open the device and then say nothing. An answer to another request ends it; where LENIENT is set,
   such answers are counted. Prints the requests a second, and that count. */
#include <stddef.h>
#include <sys/epoll.h>
#include <sys/socket.h>
#include <sys/un.h>
#include <time.h>

/* `id` is what the protocol keeps of the client. */
struct client { int fd, id; unsigned sent, answered; struct stream in; };

/* Opens the device, and says what `id` is; a client that is silent needs none. */
static int open_device(struct client *c, const char *device, int silent);
/* The request of this count, from 0. */
static size_t put_request(unsigned char *to, const struct client *c, unsigned count);
/* Whether the message answers the request of this count. */
static int is_answer(const struct client *c, const unsigned char *m, size_t length, unsigned count);
/* Whether the message is one that nobody asked for. */
static int is_indication(const unsigned char *m);

static int connect_to(const char *path)
{
    struct sockaddr_un address = { .sun_family = AF_UNIX };
    socklen_t length = offsetof(struct sockaddr_un, sun_path) + strlen(path);
    strncpy(address.sun_path, path, sizeof address.sun_path - 1);
    if (path[0] == '@') address.sun_path[0] = 0; else length++;
    int fd = socket(AF_UNIX, SOCK_STREAM, 0);
    for (int tries = 0; connect(fd, (struct sockaddr *)&address, length); tries++) {
        if (tries == 100) fail("connect");
        usleep(20000);
    }
    return fd;
}

/* Sends a message, and waits for one. */
static unsigned char *exchange(struct client *c, const unsigned char *message, size_t count, size_t *length)
{
    unsigned char *answer;
    write_all(c->fd, message, count);
    while (!(answer = next_message(&c->in, length)))
        if (fill(c->fd, &c->in) <= 0) { fprintf(stderr, "the proxy hung up\n"); exit(1); }
    return answer;
}

static void send_some(struct client *c, unsigned count)
{
    unsigned char out[65536];
    size_t at = 0;
    for (unsigned k = 0; k < count; k++) at += put_request(out + at, c, c->sent++);
    write_all(c->fd, out, at);
}

static void show(const unsigned char *m, size_t length)
{
    fprintf(stderr, "a wrong answer:");
    for (size_t at = 0; at < length && at < 64; at++) fprintf(stderr, " %02x", m[at]);
    fprintf(stderr, "\n");
}

int main(int argc, char **argv)
{
    if (argc < 6) return 2;
    int count = atoi(argv[3]), silent = argc > 6 ? atoi(argv[6]) : 0;
    unsigned in_flight = atoi(argv[4]), requests = atoi(argv[5]), each = requests / count, done = 0, wrong = 0;
    int lenient = getenv("LENIENT") != NULL;
    struct client *clients = calloc(count + silent, sizeof *clients);
    int poll_fd = epoll_create1(0);
    for (int k = 0; k < count + silent; k++) {
        clients[k].fd = connect_to(argv[1]);
        clients[k].id = open_device(&clients[k], argv[2], k >= count);
        if (k >= count) continue;
        struct epoll_event event = { EPOLLIN, { .ptr = &clients[k] } };
        epoll_ctl(poll_fd, EPOLL_CTL_ADD, clients[k].fd, &event);
    }
    struct timespec start, end;
    clock_gettime(CLOCK_MONOTONIC, &start);
    for (int k = 0; k < count; k++) send_some(&clients[k], in_flight < each ? in_flight : each);
    while (done < each * count) {
        struct epoll_event found[64];
        int some = epoll_wait(poll_fd, found, 64, 30000);
        if (some <= 0) { fprintf(stderr, "no answer comes: %u of %u came\n", done, each * count); return 1; }
        for (int k = 0; k < some; k++) {
            struct client *c = found[k].data.ptr;
            size_t length;
            unsigned answers = 0;
            if (fill(c->fd, &c->in) <= 0) { fprintf(stderr, "the proxy hung up\n"); return 1; }
            for (unsigned char *m; (m = next_message(&c->in, &length));) {
                if (is_indication(m)) continue;
                answers++;
                if (is_answer(c, m, length, c->answered++)) continue;
                if (!lenient) { show(m, length); return 1; }
                wrong++;
            }
            done += answers;
            unsigned left = each - c->sent;
            send_some(c, answers < left ? answers : left);
        }
    }
    clock_gettime(CLOCK_MONOTONIC, &end);
    double seconds = end.tv_sec - start.tv_sec + (end.tv_nsec - start.tv_nsec) / 1e9;
    printf("%.0f %u\n", done / seconds, wrong);
    return 0;
}
