// A library to be loaded before libc (LD_PRELOAD), between `desk` and the system: it counts the calls that a run makes of the functions below, and lets the n-th go wrong.
// tests/every-call-fails builds it. What it does is said in the environment:
//   CALLS_TO=FILE   every call is a line of FILE: its number, its name, and the file that it is about
//   FAIL_AT=N       the N-th call goes wrong, and no other
//   FAIL_HOW=HOW    EIO, ENOSPC, EACCES, EINTR: it fails with that error, and nothing is done (a descriptor is closed all the same, as the system does)
//                   short: a read or a write moves one byte, or half of what it is asked for; full: a write moves half, and every later one on that descriptor fails with ENOSPC
//                   kill: the run ends before the call, as by a kill; stop: it stops before the call, and goes on where it is let (SIGCONT)
// Standard error is not counted: what is said there is said because something failed already.
#define _GNU_SOURCE
#include <dlfcn.h>
#include <errno.h>
#include <fcntl.h>
#include <signal.h>
#include <stdarg.h>
#include <stdio.h>
#include <stdlib.h>
#include <string.h>
#include <sys/file.h>
#include <sys/stat.h>
#include <sys/syscall.h>
#include <unistd.h>

enum { FILES = 64, SIZE = 4200 };
static char names[FILES][SIZE]; // the name by which each descriptor was opened
static long at, calls;
static const char *how = "";
static int list = -1, full = -1;

__attribute__((constructor)) static void begin(void) {
    const char *number = getenv("FAIL_AT"), *to = getenv("CALLS_TO");
    if (number) at = atol(number);
    if (getenv("FAIL_HOW")) how = getenv("FAIL_HOW");
    if (to) {
        int fd = (int)syscall(SYS_openat, AT_FDCWD, to, O_WRONLY | O_CREAT | O_APPEND, 0600);
        list = (int)syscall(SYS_fcntl, fd, F_DUPFD, 100); // out of the way of the program's own
        syscall(SYS_close, fd);
    }
    strcpy(names[0], "stdin");
    strcpy(names[1], "stdout");
}

static const char *name_of(int fd) { return fd < 0 || fd >= FILES || !names[fd][0] ? "?" : names[fd]; }

// One call more. Says whether it goes wrong: 0 if not; below 0 where it fails, errno being set; 1 for a short one, 2 for a full disk.
static int next(const char *call, const char *file) {
    static const struct { const char *name; int error; } errors[] = { { "EIO", EIO }, { "ENOSPC", ENOSPC }, { "EACCES", EACCES }, { "EINTR", EINTR } };
    calls++;
    if (list >= 0) {
        char line[SIZE + 64];
        int n = snprintf(line, sizeof line, "%ld %s %s\n", calls, call, file);
        syscall(SYS_write, list, line, n);
    }
    if (calls != at) return 0;
    if (!strcmp(how, "kill")) syscall(SYS_kill, getpid(), SIGKILL);
    if (!strcmp(how, "stop")) syscall(SYS_kill, getpid(), SIGSTOP);
    if (!strcmp(how, "short")) return 1;
    if (!strcmp(how, "full")) return 2;
    for (size_t i = 0; i < sizeof errors / sizeof *errors; i++)
        if (!strcmp(how, errors[i].name)) {
            errno = errors[i].error;
            return -1;
        }
    return 0;
}

#define REAL(type, name, ...) ((type (*)(__VA_ARGS__))dlsym(RTLD_NEXT, #name))

int open(const char *path, int flags, ...) {
    va_list more;
    va_start(more, flags);
    mode_t mode = flags & O_CREAT ? va_arg(more, mode_t) : 0;
    va_end(more);
    if (next(flags & O_CREAT ? "create" : "open", path) < 0) return -1;
    int fd = REAL(int, open, const char *, int, ...)(path, flags, mode);
    if (fd >= 0 && fd < FILES) snprintf(names[fd], SIZE, "%s", path);
    return fd;
}

ssize_t read(int fd, void *buffer, size_t size) {
    int wrong = next("read", name_of(fd));
    if (wrong < 0) return -1;
    return REAL(ssize_t, read, int, void *, size_t)(fd, buffer, wrong && size > 1 ? 1 : size);
}

ssize_t write(int fd, const void *bytes, size_t size);

// The C library's other name of it.
ssize_t __write(int fd, const void *bytes, size_t size) { return write(fd, bytes, size); }

ssize_t write(int fd, const void *bytes, size_t size) {
    if (fd == full) {
        errno = ENOSPC;
        return -1;
    }
    int wrong = fd == 2 ? 0 : next("write", name_of(fd));
    if (wrong < 0) return -1;
    if (wrong == 2) full = fd;
    return REAL(ssize_t, write, int, const void *, size_t)(fd, bytes, wrong ? (size + 1) / 2 : size);
}

int fsync(int fd) { return next("fsync", name_of(fd)) < 0 ? -1 : REAL(int, fsync, int)(fd); }

int close(int fd) {
    int wrong = next("close", name_of(fd)), error = errno, closed = REAL(int, close, int)(fd);
    if (fd >= 0 && fd < FILES) names[fd][0] = 0;
    if (fd == full) full = -1;
    if (wrong < 0) errno = error;
    return wrong < 0 ? -1 : closed;
}

int rename(const char *from, const char *to) { return next("rename", from) < 0 ? -1 : REAL(int, rename, const char *, const char *)(from, to); }
int unlink(const char *path) { return next("unlink", path) < 0 ? -1 : REAL(int, unlink, const char *)(path); }
int statx(int folder, const char *restrict path, int flags, unsigned mask, struct statx *restrict s) {
    return next("stat", *path ? path : name_of(folder)) < 0 ? -1 : REAL(int, statx, int, const char *, int, unsigned, struct statx *)(folder, path, flags, mask, s);
}
int fchmod(int fd, mode_t mode) { return next("fchmod", name_of(fd)) < 0 ? -1 : REAL(int, fchmod, int, mode_t)(fd, mode); }

// What the library can call besides and the desk does not: it would be seen.
int fdatasync(int fd) { return next("fdatasync", name_of(fd)) < 0 ? -1 : REAL(int, fdatasync, int)(fd); }
int ftruncate(int fd, off_t size) { return next("ftruncate", name_of(fd)) < 0 ? -1 : REAL(int, ftruncate, int, off_t)(fd, size); }
int flock(int fd, int way) { return next("flock", name_of(fd)) < 0 ? -1 : REAL(int, flock, int, int)(fd, way); }

ssize_t readlink(const char *path, char *text, size_t size) {
    return next("readlink", path) < 0 ? -1 : REAL(ssize_t, readlink, const char *, char *, size_t)(path, text, size);
}
