/* Opens damaged images, walks them and writes to them; and makes calls with each of their allocations refused in turn.
 *
 *     tries IMAGE ROUNDS SEED        closes with 'N passed, M failed'; it ends with 1 on a failure
 *
 * It has the library's three functions for memory itself. It is to be run under the address sanitizer too.
 */
#define _GNU_SOURCE
#include <stdbool.h>
#include <stdio.h>
#include <stdlib.h>
#include <string.h>

#include "nova.h"

enum { MOST = 1 << 20, ROOM = 1 << 16, MOST_DEPTH = 20, LONGEST = 4096 };

/* Whether there was memory, and where. */
typedef struct {
    size_t ok;
    void *at;
} answer;

static long left = -1; /* allocations until one is refused */
static long live;      /* blocks that the library has */
static unsigned char nothing[16];

static bool refuses(void) { return left >= 0 && left-- == 0; }

answer rattle_alloc(size_t size, size_t align)
{
    void *at = refuses() ? NULL : malloc(size ? size : align);
    live += at != NULL;
    return (answer){at != NULL, at ? at : nothing};
}

answer rattle_realloc(void *at, size_t old_size, size_t size, size_t align)
{
    (void)old_size;
    void *other = refuses() ? NULL : realloc(at, size ? size : align);
    return (answer){other != NULL, other ? other : nothing};
}

void rattle_dealloc(void *at)
{
    live--;
    free(at);
}

static nova_fs fs;
static uint8_t room[ROOM], other[ROOM], whole[MOST];
static long failed;

#define PATH(path) (const uint8_t *)(path), strlen(path)

static void holds(bool is_so, const char *what)
{
    if (!is_so) {
        failed++;
        printf("WRONG: %s\n", what);
    }
}

/* A file is read by its path and by its number. */
static void read_twice(const char *path, uint64_t inode, uint64_t offset)
{
    size_t done = 0, count = 0;
    uint32_t status = nova_read(&fs, PATH(path), offset, room, sizeof room, &done);
    holds(status == nova_read_inode(&fs, inode, offset, other, sizeof other, &count), "another status by number");
    holds(count == done && !memcmp(other, room, done), "other bytes by number");
}

/* Walks all names, and reads each file. */
static void walk(const char *path, int depth)
{
    size_t used = 0;
    uint8_t *names = malloc(ROOM);
    if (depth < MOST_DEPTH && !nova_list(&fs, PATH(path), names, ROOM, &used))
        for (size_t at = 0; at < used;) {
            uint64_t count;
            memcpy(&count, names + at + 8, 8);
            char below[LONGEST + 1];
            int length = snprintf(below, sizeof below, "%s/%.*s", depth ? path : "", (int)count, (char *)names + at + 16);
            nova_numbers numbers, again;
            if (length < LONGEST && !nova_stat(&fs, PATH(below), &numbers)) {
                holds(!nova_stat_inode(&fs, numbers.inode, &again) && again.size == numbers.size, "another size by number");
                if (numbers.is_directory)
                    walk(below, depth + 1);
                else
                    read_twice(below, numbers.inode, numbers.size / 2);
            }
            at += 16 + count;
        }
    free(names);
}

/* Changes some words of an image. */
static void damage(uint8_t *image, size_t length)
{
    for (int k = rand() % 6; k >= 0; k--) {
        size_t at = (size_t)rand() % (length / 8) * 8;
        uint64_t word;
        memcpy(&word, image + at, 8);
        switch (rand() % 4) {
        case 0: word = (uint64_t)rand() * 2654435761u; break;
        case 1: word ^= 1ull << (rand() % 64); break;
        case 2: word += (uint64_t)(rand() % 9) * 4096 - 16384; break;
        default: memcpy(&word, image + (size_t)rand() % (length / 8) * 8, 8); break;
        }
        memcpy(image + at, &word, 8);
    }
}

static uint64_t faults(void)
{
    nova_space space = {0};
    holds(!nova_space_of(&fs, &space), "no space");
    return space.faults;
}

/* A damaged image is refused, or mounted; with faults each call that writes is refused by 10. */
static void try_damaged(const uint8_t *image, size_t length)
{
    if (nova_open(&fs, image, rand() % 10 ? length : (size_t)rand() % length))
        return;
    walk("/", 0);
    size_t used;
    uint32_t status = nova_create(&fs, 0, PATH("/new"), 0644, 1);
    holds(!faults() || status == NOVA_READ_ONLY, "a mount with faults was written");
    if (!status && !nova_write(&fs, 0, PATH("/new"), 5000, room, 3000, 2))
        nova_unlink(&fs, 0, PATH("/new"), 3);
    nova_report(&fs, room, sizeof room, &used);
    nova_close(&fs);
}

/* Makes calls with allocation n refused: whether it came to that one. */
static bool try_refused(uint8_t *image, size_t length, long n)
{
    size_t done;
    left = n;
    uint32_t status = nova_open(&fs, whole, length);
    if (!status) {
        nova_create(&fs, 0, PATH("/refused"), 0644, 1);
        nova_write(&fs, 0, PATH("/refused"), 3, room, 9000, 2);
        nova_link(&fs, 0, PATH("/refused"), PATH("/refused2"), 3);
        nova_rename(&fs, 0, PATH("/refused2"), PATH("/refused3"), 4);
        nova_set_size(&fs, 0, PATH("/refused"), 100, 5);
        nova_read(&fs, PATH("/refused"), 0, room, 100, &done);
        nova_unlink(&fs, 0, PATH("/refused"), 6);
        nova_report(&fs, room, sizeof room, &done);
    }
    bool is_over = left >= 0;
    left = -1;
    if (status) {
        holds(status == NOVA_MEMORY, "it was refused by something else");
        return is_over;
    }
    holds(!nova_save(&fs, image, length), "it isn't saved");
    nova_close(&fs);
    holds(!nova_open(&fs, image, length), "what is left is refused");
    holds(!faults(), "what is left has faults");
    nova_close(&fs);
    return is_over;
}

int main(int count, char **words)
{
    FILE *file = count == 4 ? fopen(words[1], "rb") : NULL;
    if (!file)
        return 2;
    size_t length = fread(whole, 1, sizeof whole, file);
    fclose(file);
    srand((unsigned)atoi(words[3]));
    uint8_t *image = malloc(length);
    long rounds = atol(words[2]), runs = 0;
    for (long k = 0; k < rounds; k++) {
        memcpy(image, whole, length);
        damage(image, length);
        try_damaged(image, length);
    }
    while (!try_refused(image, length, runs))
        runs++;
    free(image);
    holds(!live, "the library still has memory");
    printf("%ld passed, %ld failed\n", rounds + runs + 1, failed);
    return failed != 0;
}
