#define _DEFAULT_SOURCE
#include <errno.h>
#include <fcntl.h>
#include <sys/stat.h>
#include <unistd.h>

#include "cut_calls.h"

int __real_open(const char *path, int flags, ...);
int __wrap_open(const char *path, int flags, ...);
ssize_t __real_write(int file, const void *bytes, size_t count);
ssize_t __wrap_write(int file, const void *bytes, size_t count);
int __wrap_fsync(int file);
int __real_close(int file);
int __wrap_close(int file);
int __wrap_rename(const char *from, const char *to);

struct seen *seen;
struct plan plan;

static int of_folder(int file) {
    struct stat about;
    return fstat(file, &about) == 0 && S_ISDIR(about.st_mode);
}

// Whether the call is one that fails.
static int fails(char letter) {
    if (seen->calls == MOST_CALLS) {
        _exit(2);
    }
    seen->order[seen->calls++] = letter;
    errno = plan.error;
    return seen->calls == plan.fail;
}

static int ended(int result) {
    if (seen->calls == plan.cut) {
        _exit(0);
    }
    return result;
}

int __wrap_open(const char *path, int flags, ...) {
    if (fails(flags & O_DIRECTORY ? 'O' : 'o')) {
        return -1;
    }
    return ended(__real_open(path, flags, 0644));
}

ssize_t __wrap_write(int file, const void *bytes, size_t count) {
    if (fails('w')) {
        return -1;
    }
    seen->loose = 1;
    return ended((int)__real_write(file, bytes, count < plan.portion ? count : plan.portion));
}

// Flushes in the test's book alone: what is not flushed there is lost.
int __wrap_fsync(int file) {
    if (fails(of_folder(file) ? 'F' : 'f')) {
        return -1;
    }
    if (of_folder(file)) {
        seen->named = seen->renamed;
    } else {
        seen->loose = 0;
    }
    return ended(0);
}

int __wrap_close(int file) {
    int failed = fails(of_folder(file) ? 'C' : 'c');
    __real_close(file);
    return failed ? -1 : ended(0);
}

int __wrap_rename(const char *from, const char *to) {
    if (fails('r')) {
        return -1;
    }
    seen->renamed = 1;
    seen->named = 0;
    return ended(__real_rename(from, to));
}
