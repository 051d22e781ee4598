/* Measures the calls of the system in a folder.
 *
 *     speed FOLDER FILES MIB        a line for each: its name, a tab, and how many there were in a second
 *
 * It makes files of 4 KiB, and one file of so many MiB; and takes all of them away.
 */
#define _GNU_SOURCE
#include <errno.h>
#include <fcntl.h>
#include <stdbool.h>
#include <stdio.h>
#include <stdlib.h>
#include <string.h>
#include <sys/stat.h>
#include <time.h>
#include <unistd.h>

enum { PAGE = 4096, PIECE = 1 << 17, STRIDE = 7919, OVER = 20000, SYNCS = 200 };

static char bytes[PIECE];
static double begun;

static double seconds(void)
{
    struct timespec at;
    clock_gettime(CLOCK_MONOTONIC, &at);
    return (double)at.tv_sec + (double)at.tv_nsec / 1e9;
}

static void told(const char *what, double count)
{
    printf("%s\t%.0f\n", what, count / (seconds() - begun));
    begun = seconds();
}

static void must(bool holds, const char *what)
{
    if (!holds) {
        fprintf(stderr, "speed: %s: %s\n", what, strerror(errno));
        exit(1);
    }
}

static const char *name(char first, long number)
{
    static char names[2][32];
    char *at = names[first == 'g'];
    snprintf(at, sizeof names[0], "%c%ld", first, number);
    return at;
}

static void small_files(long files)
{
    begun = seconds();
    for (long k = 0; k < files; k++) {
        int file = open(name('f', k), O_WRONLY | O_CREAT | O_EXCL, 0644);
        must(file >= 0 && write(file, bytes, PAGE) == PAGE && !close(file), "create");
    }
    told("create with 4 KiB, files", (double)files);
    for (long k = 0; k < files; k++) {
        int file = open(name('f', k), O_RDONLY);
        must(file >= 0 && !posix_fadvise(file, 0, 0, POSIX_FADV_DONTNEED) && read(file, bytes, PAGE) == PAGE && !close(file), "read");
    }
    told("open and read 4 KiB, files", (double)files);
    for (long k = 0; k < files; k++)
        must(!rename(name('f', k), name('g', k)), "rename");
    told("rename, calls", (double)files);
    for (long k = 0; k < files; k++)
        must(!unlink(name('g', k)), "unlink");
    told("unlink, calls", (double)files);
}

static off_t page_of(long k, long mib) { return (off_t)(k * STRIDE % (mib << 8)) * PAGE; }

static void one_file(long mib)
{
    const double megabytes = (double)mib * 1.048576;
    const long pieces = mib << 3;
    int file = open("big", O_RDWR | O_CREAT | O_EXCL, 0644);
    must(file >= 0, "create");
    begun = seconds();
    for (long k = 0; k < pieces; k++)
        must(write(file, bytes, PIECE) == PIECE, "write");
    told("write 128 KiB, MB", megabytes);
    must(!fsync(file) && !posix_fadvise(file, 0, 0, POSIX_FADV_DONTNEED), "fsync");
    begun = seconds();
    for (long k = 0; k < pieces; k++)
        must(pread(file, bytes, PIECE, (off_t)k * PIECE) == PIECE, "read");
    told("read 128 KiB, MB", megabytes);
    for (long k = 0; k < OVER; k++)
        must(pwrite(file, bytes, PAGE, page_of(k, mib)) == PAGE, "overwrite");
    told("overwrite 4 KiB, calls", OVER);
    must(!fsync(file), "fsync");
    begun = seconds();
    for (long k = 0; k < SYNCS; k++)
        must(pwrite(file, bytes, PAGE, page_of(k, mib)) == PAGE && !fsync(file), "fsync");
    told("overwrite 4 KiB and fsync, calls", SYNCS);
    must(!close(file) && !unlink("big"), "end");
}

int main(int count, char **words)
{
    if (count != 4)
        return 2;
    memset(bytes, 7, sizeof bytes);
    must(!chdir(words[1]), "chdir");
    must(!mkdir("measured", 0755) && !chdir("measured"), "mkdir");
    small_files(atol(words[2]));
    one_file(atol(words[3]));
    must(!chdir("..") && !rmdir("measured"), "rmdir");
    return 0;
}
