/* feed_floor LIMIT FOLDER FILE: what an archive in a folder writes and syncs for a File, and no more: batches of 64
 * messages, each message by a write of its own, a sync, the batch's last octet, a sync; and where a segment has LIMIT
 * octets, its cut, the next file with its name, and a slot of 48 octets a segment, each synced. No message is
 * judged. */
#include <fcntl.h>
#include <stdio.h>
#include <stdlib.h>
#include <string.h>
#include <sys/stat.h>
#include <unistd.h>

static void fail(const char *what) { perror(what); exit(1); }

static int segment(int folder, int number) {
    char name[32];
    snprintf(name, sizeof name, "%d.ipfix", number);
    int file = openat(folder, name, O_RDWR | O_CREAT | O_EXCL, 0666);
    if (file < 0) fail(name);
    return file;
}

int main(int count, char **words) {
    if (count != 4) return 2;
    size_t limit = strtoul(words[1], 0, 10);
    int folder = open(words[2], O_RDONLY | O_DIRECTORY);
    int input = open(words[3], O_RDONLY);
    struct stat is;
    if (folder < 0 || input < 0 || fstat(input, &is)) fail("open");
    unsigned char *octets = malloc(is.st_size), zeros[2] = {0, 0};
    static unsigned char slot[1 << 20];
    for (off_t read_to = 0; read_to < is.st_size;) {
        ssize_t more = read(input, octets + read_to, is.st_size - read_to);
        if (more <= 0) fail("read");
        read_to += more;
    }
    int number = 3, file = segment(folder, number), slots = openat(folder, "1.slot", O_RDWR | O_CREAT, 0666);
    size_t at = 0, end = 0;
    while (at < (size_t)is.st_size) {
        size_t start = end;
        for (int n = 0; n < 64 && at < (size_t)is.st_size; n++) {
            size_t length = octets[at + 2] << 8 | octets[at + 3];
            if (end + length > limit) break;
            if (pwrite(file, octets + at, length, end) != (ssize_t)length) fail("write");
            at += length, end += length;
        }
        if (end > start) {
            if (pwrite(file, zeros, 2, end) != 2 || fsync(file)) fail("sync");
            if (pwrite(file, octets, 1, start) != 1 || fsync(file)) fail("sync");
        }
        if (at < (size_t)is.st_size && end + (octets[at + 2] << 8 | octets[at + 3]) > limit) {
            if (ftruncate(file, end) || fsync(file) || close(file)) fail("seal");
            file = segment(folder, ++number), end = 0;
            if (pwrite(file, zeros, 2, 0) != 2 || fsync(file) || fsync(folder)) fail("begin");
            if (pwrite(slots, slot, 48 * (number - 2), 0) < 0 || fsync(slots)) fail("slot");
        }
    }
    printf("%d segments\n", number - 2);
    return 0;
}
