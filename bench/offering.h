/* Where a stand-in modem is found: behind a Unix socket at a path, one program at a time, or behind a raw pseudo terminal
   that a link leads to. */
#define _GNU_SOURCE
#include "streams.h"
#include <fcntl.h>
#include <sys/socket.h>
#include <sys/un.h>
#include <termios.h>

static void offer_terminal(const char *link, void (*serve)(int fd))
{
    int master = posix_openpt(O_RDWR | O_NOCTTY);
    if (master < 0 || grantpt(master) || unlockpt(master)) fail("pty");
    int held = open(ptsname(master), O_RDWR | O_NOCTTY); /* so that the pair stays */
    struct termios raw;
    tcgetattr(held, &raw);
    cfmakeraw(&raw);
    tcsetattr(held, TCSANOW, &raw);
    unlink(link);
    if (symlink(ptsname(master), link)) fail("symlink");
    serve(master);
}

static void offer_socket(const char *path, void (*serve)(int fd))
{
    struct sockaddr_un address = { .sun_family = AF_UNIX };
    strncpy(address.sun_path, path, sizeof address.sun_path - 1);
    unlink(path);
    int listener = socket(AF_UNIX, SOCK_STREAM, 0);
    if (bind(listener, (struct sockaddr *)&address, sizeof address) || listen(listener, 4)) fail("listen");
    for (;;) {
        int fd = accept(listener, NULL, NULL);
        if (fd < 0) fail("accept");
        serve(fd);
        close(fd);
    }
}

/* The words of a stand-in modem: unix PATH | pty LINK */
static int offer(int argc, char **argv, void (*serve)(int fd))
{
    if (argc != 3) return 2;
    if (strcmp(argv[1], "pty") == 0) offer_terminal(argv[2], serve);
    else offer_socket(argv[2], serve);
    return 0;
}
