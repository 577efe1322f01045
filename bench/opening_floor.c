/* opening_floor FOLDER THREADS: reads each file n.ipfix of an archive whole, into memory of its own, as an opening does
   that judges nothing; each file by one of so many threads. It writes nothing. */
#include <dirent.h>
#include <fcntl.h>
#include <pthread.h>
#include <stdio.h>
#include <stdlib.h>
#include <string.h>
#include <sys/stat.h>
#include <unistd.h>

#define MOST 4096
static char *names[MOST];
static int count, next;

static int read_whole(const char *name) {
    struct stat of;
    int file = open(name, O_RDONLY);
    if (file < 0 || fstat(file, &of) != 0) return 1;
    char *octets = calloc(1, of.st_size);
    off_t at = 0;
    while (octets && at < of.st_size) {
        ssize_t got = pread(file, octets + at, of.st_size - at, at);
        if (got <= 0) break;
        at += got;
    }
    int failed = !octets || at < of.st_size;
    free(octets);
    close(file);
    return failed;
}

static void *read_some(void *unused) {
    int mine;
    while ((mine = __sync_fetch_and_add(&next, 1)) < count)
        if (read_whole(names[mine])) exit(1);
    return unused;
}

int main(int argc, char **argv) {
    if (argc != 3 || chdir(argv[1]) != 0) return 2;
    int threads = atoi(argv[2]);
    DIR *folder = opendir(".");
    struct dirent *entry;
    while (folder && (entry = readdir(folder)) && count < MOST)
        if (strstr(entry->d_name, ".ipfix")) names[count++] = strdup(entry->d_name);
    pthread_t others[64];
    if (threads < 1 || threads > 64) return 2;
    for (int i = 1; i < threads; i++)
        if (pthread_create(&others[i], NULL, read_some, NULL) != 0) return 1;
    read_some(NULL);
    for (int i = 1; i < threads; i++) pthread_join(others[i], NULL);
    return 0;
}
