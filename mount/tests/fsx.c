/* Writes, reads, cuts and maps one file at random, beside a copy in memory.
 *
 *     fsx FILE STEPS SEED        ends with 1 at the first difference
 */
#define _GNU_SOURCE
#include <errno.h>
#include <fcntl.h>
#include <stdio.h>
#include <stdlib.h>
#include <string.h>
#include <sys/mman.h>
#include <sys/stat.h>
#include <unistd.h>

enum { MOST = 1 << 20 };

static unsigned char good[MOST + 1], got[MOST + 1];
static long size, step;
static int file;

static void must(int holds, const char *what)
{
    if (!holds) {
        printf("WRONG: %s at step %ld, size %ld: %s\n", what, step, size, strerror(errno));
        exit(1);
    }
}

static long most(long a, long b) { return a > b ? a : b; }

static long least(long a, long b) { return a < b ? a : b; }

static void write_at(long at, long count)
{
    if (count <= 0)
        return;
    for (long i = 0; i < count; i++)
        good[at + i] = (unsigned char)rand();
    must(pwrite(file, good + at, (size_t)count, at) == count, "write");
    size = most(size, at + count);
}

static void read_at(long at, long count)
{
    long wanted = most(0, least(count, size - at));
    must(pread(file, got, (size_t)count, at) == wanted && !memcmp(got, good + at, (size_t)wanted), "read");
}

static void cut_at(long at)
{
    must(!ftruncate(file, at), "cut");
    if (at < size)
        memset(good + at, 0, (size_t)(size - at));
    size = at;
}

static void map_at(long at, long count)
{
    if (at >= size)
        return;
    count = least(count, size - at);
    unsigned char *mapped = mmap(NULL, (size_t)size, PROT_READ | PROT_WRITE, MAP_SHARED, file, 0);
    must(mapped != MAP_FAILED, "map");
    must(!memcmp(mapped + at, good + at, (size_t)count), "mapped read");
    for (long i = 0; i < count; i++)
        mapped[at + i] = good[at + i] = (unsigned char)rand();
    munmap(mapped, (size_t)size);
}

static void take_a_step(const char *path)
{
    long at = rand() % MOST;
    long count = least(rand() % (rand() % 3 ? 5000 : 70000), MOST - at);
    struct stat st;
    switch (rand() % 8) {
    case 0:
    case 1:
    case 2: write_at(at, count); break;
    case 3:
    case 4: read_at(at, count); break;
    case 5:
        if (rand() % 3 == 0)
            cut_at(at);
        break;
    case 6: map_at(at, count); break;
    default:
        if (rand() % 20 == 0) {
            close(file);
            file = open(path, O_RDWR);
        }
    }
    must(!fstat(file, &st) && st.st_size == size, "size");
}

int main(int count, char **words)
{
    if (count != 4)
        return 2;
    srand((unsigned)atoi(words[3]));
    file = open(words[1], O_RDWR | O_CREAT | O_TRUNC, 0644);
    must(file >= 0, "open");
    for (step = 0; step < atol(words[2]); step++)
        take_a_step(words[1]);
    must(pread(file, got, MOST + 1, 0) == size && !memcmp(got, good, (size_t)size), "end");
    return 0;
}
