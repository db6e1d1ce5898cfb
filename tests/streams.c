/* Stands before the C library's read and write. */
#define _GNU_SOURCE
#include <dlfcn.h>
#include <errno.h>
#include <stdlib.h>
#include <string.h>
#include <sys/stat.h>
#include <unistd.h>

/* A stream: how many bytes a call moves at most (0: all), which call fails (0: none), and whether
   an input has no end or an output takes nothing. */
struct stream {
    long step, fails, odd, calls;
};
static struct stream in, out;
static struct stat input;
static long output = -1;
static int is_ready, has_input;
static signed char known[1024]; /* 1: the input, -1: another file, 0: not looked at */

static void part(struct stream *it, const char *name) {
    const char *text = getenv(name);
    if (!text) return;
    it->step = strtol(text, (char **)&text, 10);
    it->fails = strtol(text + 1, (char **)&text, 10);
    it->odd = strtol(text + 1, NULL, 10);
}

static void ready(void) {
    if (is_ready) return;
    is_ready = 1;
    part(&in, "STREAM_IN");
    part(&out, "STREAM_OUT");
    has_input = getenv("STREAM_INPUT") && !stat(getenv("STREAM_INPUT"), &input);
    if (getenv("STREAM_OUTPUT")) output = atol(getenv("STREAM_OUTPUT"));
}

static int is_input(int fd) {
    struct stat it;
    if (!has_input || fd < 0 || fd >= 1024) return 0;
    if (!known[fd])
        known[fd] =
            !fstat(fd, &it) && it.st_dev == input.st_dev && it.st_ino == input.st_ino ? 1 : -1;
    return known[fd] == 1;
}

static size_t least(long step, size_t count) {
    return step && (size_t)step < count ? (size_t)step : count;
}

#define NEXT(name) ((__typeof__(&name))dlsym(RTLD_NEXT, #name))

int close(int fd) {
    if (fd >= 0 && fd < 1024) known[fd] = 0;
    return NEXT(close)(fd);
}

ssize_t read(int fd, void *bytes, size_t count) {
    ready();
    if (is_input(fd)) {
        if (++in.calls == in.fails) {
            errno = EIO;
            return -1;
        }
        count = least(in.step, count);
        if (in.odd) {
            memset(bytes, ' ', count);
            return count;
        }
    }
    return NEXT(read)(fd, bytes, count);
}

ssize_t write(int fd, const void *bytes, size_t count) {
    ready();
    if (fd == output) {
        if (++out.calls == out.fails) {
            errno = EIO;
            return -1;
        }
        if (out.odd) return 0;
        count = least(out.step, count);
    }
    return NEXT(write)(fd, bytes, count);
}
