/* A library with deliberately faulty implementations of the calls that sync a file. The program is started with this library loaded before the C
   library (LD_PRELOAD). The environment variable SYNC_ERROR selects one of these errors:

     no sync             a sync of data does nothing
     no first sync       the sync of a record or of a snapshot does nothing; the sync of its commit byte or selector is done
     no second sync      the sync of the commit byte or selector does nothing
     no snapshot sync    the sync of a snapshot does nothing
     second sync first   the sync of the commit byte or selector is done before the byte is written
     answer first        the sync of the commit byte or selector is done after the answer is written
     no opening sync     no sync does anything before the first write
     no folder sync      the sync of a folder does nothing */
#define _GNU_SOURCE
#include <dlfcn.h>
#include <stdlib.h>
#include <string.h>
#include <sys/stat.h>
#include <unistd.h>

/* The lengths of the writes: of a commit byte or a selector, of a header with its selector, and of a snapshot with the commit byte after it. */
enum { COMMIT = 1, HEADER = 16, SNAPSHOT = 16385 };

static size_t length; /* the length of the last write in bytes, or 0 before the first write */
static int postponed_file = -1; /* the descriptor of the file whose one-byte write or sync was postponed, or -1 if there is none */
static char postponed_byte;
static off_t postponed_offset;

static int is_selected(const char *error) {
    const char *selected = getenv("SYNC_ERROR");
    return selected && strcmp(selected, error) == 0;
}

static int real_sync(const char *name, int file) {
    return ((int (*)(int))dlsym(RTLD_NEXT, name))(file);
}

static ssize_t real_pwrite(int file, const void *bytes, size_t count, off_t at) {
    return ((ssize_t (*)(int, const void *, size_t, off_t))dlsym(RTLD_NEXT, "pwrite"))(file, bytes, count, at);
}

ssize_t pwrite(int file, const void *bytes, size_t count, off_t at) {
    length = count;
    if (!is_selected("second sync first") || count != COMMIT) return real_pwrite(file, bytes, count, at);
    postponed_file = file;
    postponed_byte = *(const char *)bytes;
    postponed_offset = at;
    return COMMIT;
}

int fdatasync(int file) {
    int is_second = length == COMMIT || length == HEADER;
    if (is_selected("no sync") || (is_selected("no opening sync") && !length)) return 0;
    if (is_selected("no first sync") && length && !is_second) return 0;
    if (is_selected("no second sync") && is_second) return 0;
    if (is_selected("no snapshot sync") && length == SNAPSHOT) return 0;
    if (is_selected("answer first") && length == COMMIT) {
        postponed_file = file;
        return 0;
    }
    int answer = real_sync("fdatasync", file);
    if (is_selected("second sync first") && postponed_file >= 0) real_pwrite(postponed_file, &postponed_byte, COMMIT, postponed_offset);
    postponed_file = -1;
    return answer;
}

int fsync(int file) {
    struct stat found;
    if (is_selected("no opening sync") && !length) return 0;
    if (is_selected("no folder sync") && !fstat(file, &found) && S_ISDIR(found.st_mode)) return 0;
    return real_sync("fsync", file);
}

ssize_t write(int file, const void *bytes, size_t count) {
    static ssize_t (*real)(int, const void *, size_t);
    if (!real) real = (ssize_t (*)(int, const void *, size_t))dlsym(RTLD_NEXT, "write");
    ssize_t answer = real(file, bytes, count);
    if (is_selected("answer first") && postponed_file >= 0) {
        real_sync("fdatasync", postponed_file);
        postponed_file = -1;
    }
    return answer;
}
