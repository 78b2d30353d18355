/* Examines disk images inside the virtual machine. For each input line `TYPE FILE OPTIONS` it mounts /dev/vda as a file system of that type at /mnt,
   copies FILE from it to /dev/vdb, and unmounts it. Then it prints a line: `size N`, `absent`, `unreadable` or `not mounted`. An empty line ends the
   program. One process examines all images, because without KVM starting a process takes longer than examining an image. */
#include <errno.h>
#include <fcntl.h>
#include <linux/fs.h>
#include <stdio.h>
#include <stdlib.h>
#include <string.h>
#include <sys/ioctl.h>
#include <sys/mount.h>
#include <sys/stat.h>
#include <unistd.h>

enum { MAX_BYTES = 1 << 20 };

static char bytes[MAX_BYTES];

/* Makes the kernel drop its caches of /dev/vda, because the contents of the disk have been replaced. */
static void drop_caches(void) {
    int disk = open("/dev/vda", O_RDONLY);
    if (disk < 0 || ioctl(disk, BLKFLSBUF, 0) < 0 || close(disk) < 0) {
        perror("/dev/vda");
        exit(1);
    }
}

/* Writes `size` bytes of the file to /dev/vdb, and syncs them. */
static void write_to_output(size_t size) {
    int disk = open("/dev/vdb", O_WRONLY);
    if (disk < 0 || pwrite(disk, bytes, size, 0) != (ssize_t)size || fsync(disk) < 0 || close(disk) < 0) {
        perror("/dev/vdb");
        exit(1);
    }
}

/* Copies a file to /dev/vdb, and writes the answer about it (`size N`, `absent` or `unreadable`) to `state`. */
static void copy_file(const char *file, char state[32]) {
    struct stat status;
    int descriptor = open(file, O_RDONLY);
    if (descriptor < 0) {
        strcpy(state, errno == ENOENT || errno == ENOTDIR ? "absent" : "unreadable");
        return;
    }
    ssize_t count = fstat(descriptor, &status) < 0 ? -1 : pread(descriptor, bytes, MAX_BYTES, 0);
    if (count < 0 || (count < status.st_size && count < MAX_BYTES)) {
        strcpy(state, "unreadable");
    } else {
        write_to_output((size_t)count);
        snprintf(state, 32, "size %lld", (long long)status.st_size);
    }
    close(descriptor);
}

int main(void) {
    char line[4096], type[32], name[1024], options[256], file[1100], state[32];
    while (fgets(line, sizeof line, stdin)) {
        options[0] = 0;
        if (sscanf(line, "%31s %1023s %255s", type, name, options) < 2) return 0;
        snprintf(file, sizeof file, "/mnt/%s", name);
        drop_caches();
        if (mount("/dev/vda", "/mnt", type, MS_NOATIME, options) < 0) {
            strcpy(state, "not mounted");
        } else {
            copy_file(file, state);
            if (umount("/mnt") < 0) return 1;
        }
        /* After this answer the host can replace the contents of the disk, so the disk is not accessed until the next line arrives. */
        puts(state);
        fflush(stdout);
    }
    return 1;
}
