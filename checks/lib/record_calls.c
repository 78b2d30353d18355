/* Records the calls of the C library that a program makes on its files, its input and its output. The program is started with this library loaded
   before the C library (LD_PRELOAD). These environment variables control it. CALLS names the file to which a line for each call is written. CALL is
   the number of one call, counted from 1, and CALL_DOES says how this call is changed:

     fail E      it does nothing and returns the error with number E
     head K      a write writes only its first K bytes, and the program is killed
     tail K      a write writes only its bytes from the K-th on, and the program is killed
     noise K     a write writes its first K bytes and then other bytes, and the program is killed
     rename F    before a lock, the file F replaces the locked file under its name
     remove      before a lock, the name of the locked file is removed
     cut K       before a read, the file is truncated to its first K bytes
     flip K      before a read, a bit of the byte at offset K of the file is inverted

   CALL_MAX_BYTES=M limits each read or write of a file to M bytes. With CALL_AGAIN=1, each call on a file first fails once with EINTR. These failures
   are not recorded. */
#define _GNU_SOURCE
#include <dlfcn.h>
#include <errno.h>
#include <fcntl.h>
#include <signal.h>
#include <stdarg.h>
#include <stdio.h>
#include <stdlib.h>
#include <string.h>
#include <sys/file.h>
#include <unistd.h>

static char names[64][256]; /* the file name of each descriptor; empty if the program did not open it */
static int call_count;      /* the number of calls that were recorded */
static int record_fd = -1;

static ssize_t (*real_write)(int, const void *, size_t);
static int (*real_close)(int);

__attribute__((constructor)) static void begin(void) {
    const char *file = getenv("CALLS");
    real_write = dlsym(RTLD_NEXT, "write");
    real_close = dlsym(RTLD_NEXT, "close");
    if (file) {
        int (*real_open)(const char *, int, ...) = dlsym(RTLD_NEXT, "open");
        int low = real_open(file, O_WRONLY | O_CREAT | O_TRUNC | O_CLOEXEC, 0666);
        record_fd = fcntl(low, F_DUPFD_CLOEXEC, 100);
        real_close(low);
    }
}

static const char *name_of(int fd) {
    return fd >= 0 && fd < 64 ? names[fd] : "";
}

static void write_record(const char *line) {
    if (record_fd >= 0 && real_write(record_fd, line, strlen(line)) < 0) _exit(99);
}

/* Records a call. Returns the change that CALL_DOES names if the call has the number CALL; otherwise returns NULL. */
static const char *record_call(const char *form, ...) {
    char line[1024];
    va_list parts;
    const char *number = getenv("CALL"), *change = getenv("CALL_DOES");
    va_start(parts, form);
    vsnprintf(line, sizeof line - 1, form, parts);
    va_end(parts);
    strcat(line, "\n");
    write_record(line);
    call_count++;
    return number && change && atoi(number) == call_count ? change : NULL;
}

/* Returns true and sets errno if the change is `fail`. */
static int must_fail(const char *change) {
    if (!change || strncmp(change, "fail ", 5) != 0) return 0;
    errno = atoi(change + 5);
    return 1;
}

/* Returns true and sets errno if a call on a file must fail with EINTR. With CALL_AGAIN, every second such call must fail. */
static int must_interrupt(int fd) {
    static int answered;
    answered = !answered && *name_of(fd) && getenv("CALL_AGAIN");
    if (answered) errno = EINTR;
    return answered;
}

static size_t limited_length(size_t length) {
    const char *limit = getenv("CALL_MAX_BYTES");
    return limit && (size_t)atol(limit) < length ? (size_t)atol(limit) : length;
}

int open(const char *file, int flags, ...) {
    static int (*real)(const char *, int, ...);
    mode_t mode = 0;
    va_list parts;
    va_start(parts, flags);
    if (flags & O_CREAT) mode = va_arg(parts, mode_t);
    va_end(parts);
    if (!real) real = dlsym(RTLD_NEXT, "open");
    const char *how = flags & O_TRUNC ? "empty" : flags & O_CREAT ? "make" : (flags & O_ACCMODE) == O_RDONLY ? "look at" : "open";
    if (must_fail(record_call("%s %s", how, file))) return -1;
    int fd = real(file, flags, mode);
    if (fd >= 0 && fd < 64) snprintf(names[fd], sizeof names[fd], "%s", file);
    return fd;
}

int close(int fd) {
    if (fd >= 0 && fd < 64) names[fd][0] = 0;
    return real_close(fd);
}

int unlink(const char *file) {
    static int (*real)(const char *);
    if (!real) real = dlsym(RTLD_NEXT, "unlink");
    const char *end = strrchr(file, '/');
    return must_fail(record_call("remove %s", end ? end + 1 : file)) ? -1 : real(file);
}

/* Replaces or removes the file of a descriptor under its name, if the change is `rename` or `remove`. */
static void replace_file(int fd, const char *change) {
    int (*real_unlink)(const char *) = dlsym(RTLD_NEXT, "unlink");
    if (change && strncmp(change, "rename ", 7) == 0 && rename(change + 7, name_of(fd)) < 0) _exit(99);
    if (change && strcmp(change, "remove") == 0 && real_unlink(name_of(fd)) < 0) _exit(99);
}

int flock(int fd, int how) {
    static int (*real)(int, int);
    if (!real) real = dlsym(RTLD_NEXT, "flock");
    if (must_interrupt(fd)) return -1;
    const char *change = record_call("%s %s", how == (LOCK_EX | LOCK_NB) ? "lock" : "lock otherwise", name_of(fd));
    replace_file(fd, change);
    return must_fail(change) ? -1 : real(fd, how);
}

int ftruncate(int fd, off_t size) {
    static int (*real)(int, off_t);
    if (!real) real = dlsym(RTLD_NEXT, "ftruncate");
    if (must_interrupt(fd)) return -1;
    return must_fail(record_call("size %s %lld", name_of(fd), (long long)size)) ? -1 : real(fd, size);
}

int fsync(int fd) {
    static int (*real)(int);
    if (!real) real = dlsym(RTLD_NEXT, "fsync");
    if (must_interrupt(fd)) return -1;
    return must_fail(record_call("sync %s", name_of(fd))) ? -1 : real(fd);
}

int fdatasync(int fd) {
    static int (*real)(int);
    if (!real) real = dlsym(RTLD_NEXT, "fdatasync");
    if (must_interrupt(fd)) return -1;
    return must_fail(record_call("sync data %s", name_of(fd))) ? -1 : real(fd);
}

/* Truncates the file of a descriptor, or inverts a bit of it, if the change is `cut` or `flip`. */
static void change_file(int fd, const char *change) {
    int (*real_ftruncate)(int, off_t) = dlsym(RTLD_NEXT, "ftruncate");
    ssize_t (*real_pread)(int, void *, size_t, off_t) = dlsym(RTLD_NEXT, "pread");
    ssize_t (*real_pwrite)(int, const void *, size_t, off_t) = dlsym(RTLD_NEXT, "pwrite");
    unsigned char byte;
    if (change && strncmp(change, "cut ", 4) == 0 && real_ftruncate(fd, atol(change + 4)) < 0) _exit(99);
    if (!change || strncmp(change, "flip ", 5) != 0) return;
    if (real_pread(fd, &byte, 1, atol(change + 5)) != 1) _exit(99);
    byte ^= 1;
    if (real_pwrite(fd, &byte, 1, atol(change + 5)) != 1) _exit(99);
}

ssize_t pread(int fd, void *bytes, size_t length, off_t at) {
    static ssize_t (*real)(int, void *, size_t, off_t);
    if (!real) real = dlsym(RTLD_NEXT, "pread");
    if (must_interrupt(fd)) return -1;
    const char *change = record_call("read %s %lld %zu", name_of(fd), (long long)at, length);
    change_file(fd, change);
    return must_fail(change) ? -1 : real(fd, bytes, limited_length(length), at);
}

ssize_t pwrite(int fd, const void *bytes, size_t length, off_t at) {
    static ssize_t (*real)(int, const void *, size_t, off_t);
    const unsigned char *given = bytes;
    char text[64] = "";
    size_t i, k;
    if (!real) real = dlsym(RTLD_NEXT, "pwrite");
    if (must_interrupt(fd)) return -1;
    for (i = 0; length <= 16 && i < length; i++) sprintf(text + 3 * i, " %02x", given[i]);
    const char *change = record_call("write %s %lld %zu%s", name_of(fd), (long long)at, length, text);
    if (must_fail(change)) return -1;
    if (!change) return real(fd, bytes, limited_length(length), at);
    k = (size_t)atol(strchr(change, ' '));
    if (k > length) k = length;
    if (strncmp(change, "head ", 5) == 0 && real(fd, given, k, at) < 0) _exit(99);
    if (strncmp(change, "tail ", 5) == 0 && real(fd, given + k, length - k, at + (off_t)k) < 0) _exit(99);
    if (strncmp(change, "noise ", 6) == 0) {
        unsigned char *noise = malloc(length + 1);
        for (i = 0; i < length; i++) noise[i] = i < k ? given[i] : (unsigned char)(given[i] ^ (0xA5 + i));
        if (real(fd, noise, length, at) < 0) _exit(99);
    }
    raise(SIGKILL);
    return -1;
}

ssize_t read(int fd, void *bytes, size_t length) {
    static ssize_t (*real)(int, void *, size_t);
    if (!real) real = dlsym(RTLD_NEXT, "read");
    return must_fail(fd == 0 ? record_call("in") : record_call("read on %s", name_of(fd))) ? -1 : real(fd, bytes, length);
}

ssize_t write(int fd, const void *bytes, size_t length) {
    char text[48];
    size_t i, shown = length < sizeof text - 1 ? length : sizeof text - 1;
    memcpy(text, bytes, shown);
    for (i = 0; i < shown; i++)
        if (text[i] == '\n') text[i] = '/';
    text[shown] = 0;
    return must_fail(record_call("%s %s", fd == 1 ? "out" : fd == 2 ? "err" : "write on", text)) ? -1 : real_write(fd, bytes, length);
}
