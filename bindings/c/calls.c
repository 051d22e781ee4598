/* Makes every call of nova.h, those that are refused too, and prints what it answers: tests/bindings.sh compares that.
 *
 *     calls IMAGE REPORT        these files get what was made, and the report of it
 */
#include <stdbool.h>
#include <stdio.h>
#include <stdlib.h>
#include <string.h>

#include "nova.h"

enum { BLOCKS = 32, LENGTH = BLOCKS * 4096 };

#define BYTES(text) (const uint8_t *)(text), strlen(text)
#define SAYS(call) printf("%s: %u\n", #call, call)

static nova_fs fs;
static uint8_t image[LENGTH], room[1 << 16];
static uint64_t lent[512];
static size_t used;

static nova_numbers numbers;

/* What a call has told of an inode. */
static void numbers_told(const char *what, uint32_t status)
{
    nova_numbers n = numbers;
    printf("stat %s: %u", what, status);
    if (!status)
        printf(" inode %ju size %ju time %ju directory %u mode %o owner %u group %u links %u", (uintmax_t)n.inode,
               (uintmax_t)n.size, (uintmax_t)n.time, n.is_directory, n.mode, n.owner, n.group, n.links);
    printf("\n");
}

static void stat_of(const char *path) { numbers_told(path, nova_stat(&fs, BYTES(path), &numbers)); }

/* The names that a call has put into the room. */
static void names_told(const char *what, uint32_t status)
{
    printf("list %s: %u", what, status);
    for (size_t at = 0; !status && at < used;) {
        uint64_t inode, length;
        memcpy(&inode, room + at, 8);
        memcpy(&length, room + at + 8, 8);
        printf(" %.*s %ju", (int)length, room + at + 16, (uintmax_t)inode);
        at += 16 + length;
    }
    printf("\n");
}

static void names_of(const char *path) { names_told(path, nova_list(&fs, BYTES(path), room, sizeof room, &used)); }

static void space_of(void)
{
    nova_space s;
    SAYS(nova_space_of(&fs, &s));
    printf("blocks %ju free %ju cpus %ju tables %ju inodes %ju faults %ju\n", (uintmax_t)s.blocks, (uintmax_t)s.free_blocks,
           (uintmax_t)s.cpus, (uintmax_t)s.table_blocks, (uintmax_t)s.inodes, (uintmax_t)s.faults);
}

/* A closed handle, and what can't be opened or formatted. */
static void refusals(void)
{
    SAYS(nova_stat(&fs, BYTES("/"), &numbers));
    SAYS(nova_stat_inode(&fs, 1, &numbers));
    SAYS(nova_close(&fs));
    SAYS(nova_format(&fs, 7, 1, 1, 0));
    SAYS(nova_format(&fs, BLOCKS, 65, 1, 0));
    SAYS(nova_format(&fs, BLOCKS, 1, 0, 0));
    SAYS(nova_open(&fs, image, LENGTH));
    SAYS(nova_open(&fs, image, LENGTH - 1));
    SAYS(nova_map(&fs, (nova_image){lent, 512}));
}

/* The calls that write. */
static void changes(void)
{
    nova_cleaned cleaned;
    SAYS(nova_format(&fs, BLOCKS, 2, 1, 0));
    SAYS(nova_format(&fs, BLOCKS, 2, 1, 0));
    SAYS(nova_mkdir(&fs, 0, BYTES("/d"), 0755, 1));
    SAYS(nova_create(&fs, 1, BYTES("/d/a"), 0644, 2));
    SAYS(nova_create(&fs, 1, BYTES("/d/a"), 0644, 2));
    SAYS(nova_create(&fs, 2, BYTES("/d/b"), 0644, 2));
    SAYS(nova_write(&fs, 0, BYTES("/d/a"), 4, BYTES("hi there"), 3));
    SAYS(nova_set_size(&fs, 0, BYTES("/d/a"), 10, 4));
    SAYS(nova_set_attr(&fs, 0, BYTES("/d/a"), 0600, 7, 8, 5));
    SAYS(nova_link(&fs, 0, BYTES("/d/a"), BYTES("/b"), 6));
    SAYS(nova_rename(&fs, 0, BYTES("/b"), BYTES("/d/c"), 7));
    SAYS(nova_rename(&fs, 0, BYTES("/d/a"), BYTES("/d/c"), 7));
    SAYS(nova_rename(&fs, 0, BYTES("/d"), BYTES("/d/e"), 7));
    SAYS(nova_create(&fs, 0, BYTES("/e"), 0644, 7));
    SAYS(nova_replace(&fs, 0, BYTES("/e"), BYTES("/d"), 7));
    SAYS(nova_replace(&fs, 0, BYTES("/d"), BYTES("/e"), 7));
    SAYS(nova_mkdir(&fs, 0, BYTES("/f"), 0755, 7));
    SAYS(nova_replace(&fs, 0, BYTES("/f"), BYTES("/d"), 7));
    SAYS(nova_replace(&fs, 0, BYTES("/d"), BYTES("/f"), 7));
    SAYS(nova_replace(&fs, 0, BYTES("/f"), BYTES("/d"), 7));
    SAYS(nova_replace(&fs, 0, BYTES("/d/a"), BYTES("/d/c"), 7));
    SAYS(nova_replace(&fs, 0, BYTES("/d/a"), BYTES("/e"), 7));
    SAYS(nova_replace(&fs, 0, BYTES("/e"), BYTES("/d/a"), 7));
    SAYS(nova_unlink(&fs, 0, BYTES("/d/a"), 8));
    SAYS(nova_rmdir(&fs, 0, BYTES("/d"), 9));
    SAYS(nova_clean(&fs, BYTES("/d/c"), &cleaned));
    printf("freed %u\n", cleaned.has_freed);
}

/* The calls that read. */
static void looks(void)
{
    stat_of("/d");
    stat_of("/d/c");
    stat_of("/none");
    names_of("/d");
    names_of("/d/c");
    SAYS(nova_list(&fs, BYTES("/"), room, 5, &used));
    printf("takes %zu\n", used);
    SAYS(nova_read(&fs, BYTES("/d/c"), 4, room, 100, &used));
    printf("read %.*s\n", (int)used, room);
    space_of();
}

/* The same by number: 2 is a directory, 3 its file. */
static void looks_by_number(void)
{
    numbers_told("inode 3", nova_stat_inode(&fs, 3, &numbers));
    numbers_told("inode 9", nova_stat_inode(&fs, 9, &numbers));
    names_told("inode 2", nova_list_inode(&fs, 2, room, sizeof room, &used));
    names_told("inode 3", nova_list_inode(&fs, 3, room, sizeof room, &used));
    SAYS(nova_list_inode(&fs, 1, room, 5, &used));
    printf("takes %zu\n", used);
    SAYS(nova_read_inode(&fs, 2, 4, room, 100, &used));
    SAYS(nova_read_inode(&fs, 3, 4, room, 100, &used));
    printf("read %.*s\n", (int)used, room);
}

static void changes_by_number(void)
{
    SAYS(nova_write_inode(&fs, 0, 3, 8, BYTES("HERE"), 10));
    SAYS(nova_write_inode(&fs, 0, 2, 8, BYTES("HERE"), 10));
    SAYS(nova_set_size_inode(&fs, 1, 3, 10, 11));
    SAYS(nova_set_size_inode(&fs, 1, 9, 10, 11));
    SAYS(nova_set_attr_inode(&fs, 0, 3, 0640, 8, 7, 12));
    SAYS(nova_set_attr_inode(&fs, 2, 3, 0640, 8, 7, 12));
    stat_of("/d/c");
    SAYS(nova_read(&fs, BYTES("/d/c"), 4, room, 100, &used));
    printf("read %.*s\n", (int)used, room);
}

/* Names by the number of their directory, as which 2 and then 4 serve. */
static void names_by_number(void)
{
    uint64_t made = 0;
    numbers_told("c in 2", nova_lookup_inode(&fs, 2, BYTES("c"), &numbers));
    numbers_told("c in 1", nova_lookup_inode(&fs, 1, BYTES("c"), &numbers));
    numbers_told("c in 3", nova_lookup_inode(&fs, 3, BYTES("c"), &numbers));
    numbers_told("c in 9", nova_lookup_inode(&fs, 9, BYTES("c"), &numbers));
    numbers_told("d/c in 1", nova_lookup_inode(&fs, 1, BYTES("d/c"), &numbers));
    SAYS(nova_mkdir_inode(&fs, 0, 2, BYTES("e"), 0755, 13, &made));
    SAYS(nova_mkdir_inode(&fs, 0, 2, BYTES("c"), 0755, 13, &made));
    printf("made %ju\n", (uintmax_t)made);
    SAYS(nova_create_inode(&fs, 1, 4, BYTES("f"), 0644, 14, &made));
    printf("made %ju\n", (uintmax_t)made);
    SAYS(nova_link_inode(&fs, 0, 5, 2, BYTES("g"), 15));
    SAYS(nova_link_inode(&fs, 0, 4, 2, BYTES("h"), 15));
    SAYS(nova_unlink_inode(&fs, 0, 4, BYTES("f"), 16));
    SAYS(nova_unlink_inode(&fs, 0, 2, BYTES("e"), 16));
    numbers_told("g in 2", nova_lookup_inode(&fs, 2, BYTES("g"), &numbers));
    SAYS(nova_rmdir_inode(&fs, 0, 2, BYTES("g"), 17));
    SAYS(nova_rmdir_inode(&fs, 0, 2, BYTES("e"), 17));
    SAYS(nova_unlink_inode(&fs, 0, 2, BYTES("g"), 18));
    names_of("/d");
}

static bool is_written(const char *path, const uint8_t *bytes, size_t length)
{
    FILE *file = fopen(path, "wb");
    return file && fwrite(bytes, 1, length, file) == length && !fclose(file);
}

/* The saved image again, over words that are lent: a store is there at once. */
static void over_words(void)
{
    uint64_t *words = aligned_alloc(4096, LENGTH);
    memcpy(words, image, LENGTH);
    SAYS(nova_map(&fs, (nova_image){words, LENGTH / 8}));
    SAYS(nova_create(&fs, 0, BYTES("/later"), 0600, 9));
    SAYS(nova_save(&fs, image, LENGTH));
    printf("the words are %s\n", memcmp(words, image, LENGTH) ? "others" : "those of the mount");
    SAYS(nova_close(&fs));
    free(words);
}

int main(int count, char **words)
{
    refusals();
    changes();
    looks();
    looks_by_number();
    changes_by_number();
    names_by_number();
    SAYS(nova_report(&fs, room, sizeof room, &used));
    SAYS(nova_save(&fs, image, LENGTH - 1));
    SAYS(nova_save(&fs, image, LENGTH));
    SAYS(nova_close(&fs));
    if (count != 3 || !is_written(words[1], image, LENGTH) || !is_written(words[2], room, used))
        return 2;
    over_words();
    return 0;
}
