// What the kernel's cdc-wdm does with a write, for any terminal (LD_PRELOAD): a write is one control message of at most
// 4,096 bytes. What stands behind its first message, or behind 4,096 bytes, is lost, and the writer isn't told. The file
// that WDM_LOG names gets a letter for each write: `.` for one whole message, `P` for a part of one, `M` for several.
#define _GNU_SOURCE
#include <dlfcn.h>
#include <fcntl.h>
#include <stdlib.h>
#include <unistd.h>

enum { LONGEST = 4096 };

// The length of the message that these bytes begin, QMUX or MBIM; 0 where they are too few.
static size_t length_of(const unsigned char *bytes, size_t count) {
    if (count >= 3 && bytes[0] == 1 && (bytes[1] | bytes[2])) return (bytes[1] | bytes[2] << 8) + 1;
    if (count >= 8) return bytes[4] | bytes[5] << 8 | (size_t)bytes[6] << 16;
    return 0;
}

static void note(char what) {
    const char *path = getenv("WDM_LOG");
    int file = path ? open(path, O_WRONLY | O_CREAT | O_APPEND, 0600) : -1;
    if (file < 0) return;
    ssize_t (*plain)(int, const void *, size_t) = dlsym(RTLD_NEXT, "write");
    plain(file, &what, 1);
    close(file);
}

ssize_t write(int file, const void *bytes, size_t count) {
    ssize_t (*plain)(int, const void *, size_t) = dlsym(RTLD_NEXT, "write");
    if (!isatty(file) || count == 0) return plain(file, bytes, count);
    size_t length = length_of(bytes, count);
    note(length == count ? '.' : length && length < count ? 'M' : 'P');
    size_t kept = length && length < count ? length : count;
    ssize_t done = plain(file, bytes, kept < LONGEST ? kept : LONGEST);
    return done < 0 ? done : (ssize_t)count;
}
