/* Writes a file's bytes to a new one, so many at a time: each time it appends them and syncs, writes the first of them again and
   syncs, and is then busy for so long, as who makes the next bytes is. two_syncs FROM TO BYTES MICROSECONDS. */
#include <fcntl.h>
#include <stdlib.h>
#include <sys/stat.h>
#include <time.h>
#include <unistd.h>

static long microseconds(void) {
    struct timespec now;
    clock_gettime(CLOCK_MONOTONIC, &now);
    return now.tv_sec * 1000000L + now.tv_nsec / 1000;
}

int main(int argc, char **argv) {
    if (argc != 5) return 2;
    int from = open(argv[1], O_RDONLY), to = open(argv[2], O_RDWR | O_CREAT | O_EXCL, 0644);
    size_t size = strtoul(argv[3], 0, 10);
    long busy = strtol(argv[4], 0, 10);
    struct stat is;
    if (from < 0 || to < 0 || !size || fstat(from, &is)) return 1;
    char *bytes = malloc(is.st_size + 1);
    if (!bytes || read(from, bytes, is.st_size) != is.st_size) return 1;
    for (off_t at = 0; at + (off_t)size <= is.st_size; at += size) {
        if (pwrite(to, bytes + at, size, at) != (ssize_t)size || fdatasync(to)) return 1;
        if (pwrite(to, bytes + at, 1, at) != 1 || fdatasync(to)) return 1;
        for (long end = microseconds() + busy; microseconds() < end;);
    }
    return 0;
}
