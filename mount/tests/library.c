/* Measures the calls of the static library, in the shapes and with the labels of `bench calls`.
 *
 *     library BLOCKS FILES NAMES        a line for each: its label, and the nanoseconds of a call in the best of its times
 *
 * The calls are made on so many files in 16 directories, and in another region on so many names in two.
 */
#define _GNU_SOURCE
#include <stdbool.h>
#include <stdio.h>
#include <stdlib.h>
#include <string.h>
#include <time.h>

#include "nova.h"

enum { PARTS = 6, MIB = 1 << 20, TABLES = 64, LONGEST = 32 };

enum call { CREATE, MKDIR, LINK, UNLINK, RENAME, SET_ATTR, WRITE, READ, STAT, LIST };

/* A call at paths that begin alike and end in rising numbers: of all numbers the sixth parts from the first one on, before the
 * end, and not above the most. */
struct shape {
    const char *label;
    enum call call;
    const char *front, *other;
    long directories, first_part, end_part, most, times, bytes;
};

static const struct shape on_files[] = {
    {"mkdir of directories", MKDIR, "/d", "", 0, 0, PARTS, 16, 1, 0},
    {"mkdir", MKDIR, "/e", "", 0, 0, PARTS, 1000, 1, 0},
    {"create", CREATE, "/d", "", 16, 0, PARTS, -1, 1, 0},
    {"write 4 KiB, fresh", WRITE, "/d", "", 16, 0, PARTS, -1, 8, 4096},
    {"write 4 KiB, over", WRITE, "/d", "", 16, 0, PARTS, -1, 8, 4096},
    {"read 4 KiB", READ, "/d", "", 16, 0, PARTS, -1, 8, 4096},
    {"stat", STAT, "/d", "", 16, 0, PARTS, -1, 8, 0},
    {"set_attr", SET_ATTR, "/d", "", 16, 0, PARTS, -1, 8, 0},
    {"write 1 MiB, fresh", WRITE, "/d", "", 16, 0, PARTS, 16, 1, MIB},
    {"write 1 MiB, over", WRITE, "/d", "", 16, 0, PARTS, 16, 1, MIB},
    {"read 1 MiB", READ, "/d", "", 16, 0, PARTS, 16, 1, MIB},
};

static const struct shape on_names[] = {
    {"mkdir of the other", MKDIR, "/b", "", 0, 0, PARTS, 1, 1, 0},
    {"create", CREATE, "/file", "", 0, 0, PARTS, -1, 1, 0},
    {"link into the other", LINK, "/file", "/b0/file", 0, 0, PARTS, -1, 1, 0},
    {"list", LIST, "/b", "", 0, 0, PARTS, 1, 8, 0},
    {"stat", STAT, "/file", "", 0, 0, PARTS, -1, 8, 0},
    {"rename within one", RENAME, "/file", "/name", 0, 0, 1, -1, 1, 0},
    {"rename across two", RENAME, "/name", "/b0/name", 0, 0, 1, -1, 1, 0},
    {"unlink of a link", UNLINK, "/b0/file", "", 0, 0, PARTS, -1, 1, 0},
    {"unlink of a last name", UNLINK, "/file", "", 0, 1, PARTS, -1, 1, 0},
};

static nova_fs fs;
static uint8_t bytes[MIB], *names;
static size_t room;

#define PATH(path) (const uint8_t *)(path), strlen(path)

static uint32_t make(enum call call, uint64_t cpu, const char *path, const char *other, uint64_t offset, size_t count)
{
    nova_numbers numbers;
    size_t done;
    switch (call) {
    case CREATE: return nova_create(&fs, cpu, PATH(path), 0644, 1);
    case MKDIR: return nova_mkdir(&fs, cpu, PATH(path), 0755, 1);
    case LINK: return nova_link(&fs, cpu, PATH(path), PATH(other), 2);
    case UNLINK: return nova_unlink(&fs, cpu, PATH(path), 3);
    case RENAME: return nova_rename(&fs, cpu, PATH(path), PATH(other), 4);
    case SET_ATTR: return nova_set_attr(&fs, cpu, PATH(path), 0600, 7, 8, 3);
    case WRITE: return nova_write(&fs, cpu, PATH(path), offset, bytes, count, 2);
    case READ: return nova_read(&fs, PATH(path), offset, bytes, count, &done);
    case STAT: return nova_stat(&fs, PATH(path), &numbers);
    default: return nova_list(&fs, PATH(path), names, room, &done);
    }
}

static void must(bool holds, const char *what)
{
    if (!holds) {
        fprintf(stderr, "library: %s was refused\n", what);
        exit(1);
    }
}

static double nanoseconds(void)
{
    struct timespec at;
    clock_gettime(CLOCK_MONOTONIC, &at);
    return (double)at.tv_sec * 1e9 + (double)at.tv_nsec;
}

static void put_path(char *path, const char *front, long directories, long number)
{
    if (directories)
        snprintf(path, LONGEST, "%s%ld/f%ld", front, number % directories, number);
    else
        snprintf(path, LONGEST, "%s%ld", front, number);
}

/* Makes the call of a shape once at each path, by the CPUs in turn: how long it took. */
static double run(const struct shape *shape, uint64_t cpus, char (*paths)[LONGEST], char (*others)[LONGEST], long count, uint64_t offset)
{
    double begun = nanoseconds();
    for (long k = 0; k < count; k++)
        must(!make(shape->call, (uint64_t)k % cpus, paths[k], others[k], offset, (size_t)shape->bytes), shape->label);
    return nanoseconds() - begun;
}

static void measure(const struct shape *shape, uint64_t cpus, long all)
{
    long first = all / PARTS * shape->first_part;
    long end = shape->end_part < PARTS ? all / PARTS * shape->end_part : all;
    end = shape->most >= 0 && shape->most < end ? shape->most : end;
    long count = end - first;
    char(*paths)[LONGEST] = calloc((size_t)count, LONGEST), (*others)[LONGEST] = calloc((size_t)count, LONGEST);
    must(paths && others, "memory");
    for (long k = 0; k < count; k++) {
        put_path(paths[k], shape->front, shape->directories, first + k);
        put_path(others[k], shape->other, 0, first + k);
    }
    double best = 1e18;
    for (long time = 0; time < shape->times; time++) {
        double took = run(shape, cpus, paths, others, count, (uint64_t)(time * shape->bytes));
        best = took < best ? took : best;
    }
    printf("  %s: %.0f ns\n", shape->label, best / (double)count);
    free(paths);
    free(others);
}

static void measure_all(const struct shape *shapes, size_t count, uint64_t blocks, uint64_t cpus, long all)
{
    must(!nova_format(&fs, blocks, cpus, TABLES, 0), "a region");
    for (size_t k = 0; k < count; k++)
        measure(shapes + k, cpus, all);
    nova_close(&fs);
}

int main(int count, char **words)
{
    if (count != 4)
        return 2;
    uint64_t blocks = strtoull(words[1], NULL, 10);
    long files = atol(words[2]), all = atol(words[3]);
    room = (size_t)all * (16 + LONGEST);
    names = malloc(room);
    must(names, "memory");
    memset(bytes, 1, sizeof bytes);
    measure_all(on_files, sizeof on_files / sizeof *on_files, blocks, 4, files);
    measure_all(on_names, sizeof on_names / sizeof *on_names, blocks, 32, all);
    free(names);
    return 0;
}
