/* Walks the table of the inodes that the kernel has (nodes.h) at random, beside a tree of its own.
 *
 *     nodes STEPS SEED        closes with 'N passed, M failed', and ends with 1 on a failure
 *
 * Each step is one of the kernel, as a lookup, a rename or what it forgets. After each, a path that the table tells of an inode has to
 * lead there, and it has to tell one of each that the kernel found, and the number, which one that is gone hasn't. Once the kernel has forgotten all, the root alone is left.
 */
#include <stdio.h>
#include <stdlib.h>
#include <string.h>

#include "../nodes.h"

enum { INODES = 60, NAMES = 3 * INODES, DIRECTORIES = 20, MOST_GONE = 100 };

/* A name of the tree. The first inodes are directories, the root among them; `inode` is 0 where there is no such name. */
static struct {
    uint64_t inode;
    uint64_t directory;
    bool is_found;
} names[NAMES];

/* What the kernel has: the inodes by their numbers, and those that are gone. */
static struct known {
    uint64_t id;
    uint64_t lookups;
} known[INODES + 1], gone[MOST_GONE];

static const char *text(int name)
{
    static char texts[2][16];
    static int turn;
    snprintf(texts[turn ^= 1], sizeof texts[0], "n%d", name);
    return texts[turn];
}

static bool is_directory(uint64_t inode) { return inode <= DIRECTORIES; }

/* A name of an inode, or -1. */
static int name_of(uint64_t inode)
{
    for (int k = 0; k < NAMES; k++)
        if (names[k].inode == inode)
            return k;
    return -1;
}

static bool has_entries(uint64_t inode)
{
    for (int k = 0; k < NAMES; k++)
        if (names[k].inode && names[k].directory == inode)
            return true;
    return false;
}

/* Whether a directory is another, or below it. */
static bool is_below(uint64_t inode, uint64_t other)
{
    while (inode != other && inode != ROOT)
        inode = names[name_of(inode)].directory;
    return inode == other;
}

/* Where a path leads, or 0. */
static uint64_t walk(const struct path *path)
{
    uint64_t at = ROOT;
    size_t from = 1;
    while (from < path->length && at) {
        int name = 0;
        for (from++; from < path->length && path->bytes[from] != '/'; from++)
            name = name * 10 + path->bytes[from] - '0';
        at = names[name].directory == at ? names[name].inode : 0;
        from++;
    }
    return at;
}

/* ---- the steps */

static uint64_t any_directory(void)
{
    uint64_t inode = 1 + (uint64_t)rand() % DIRECTORIES;
    return known[inode].lookups && (inode == ROOT || name_of(inode) >= 0) ? inode : ROOT;
}

static void find(int name)
{
    uint64_t inode = names[name].inode;
    const struct known *directory = &known[names[name].directory];
    const struct node *node = inode && directory->lookups ? tell_node(inode, directory->id, text(name)) : NULL;
    if (!node)
        return;
    known[inode].id = node->id;
    known[inode].lookups++;
    names[name].is_found = true;
}

static void forget_gone(int at)
{
    if (gone[at].lookups)
        forget_node(gone[at].id, gone[at].lookups);
    gone[at].lookups = 0;
}

/* The number of an inode that is gone is that of a new one. */
static void renew(uint64_t inode)
{
    int at = rand() % MOST_GONE;
    forget_gone(at);
    gone[at] = known[inode];
    known[inode].lookups = 0;
    renew_number(inode);
}

static void add(int name)
{
    uint64_t inode = 2 + (uint64_t)rand() % (INODES - 1);
    if (names[name].inode || (is_directory(inode) && name_of(inode) >= 0))
        return;
    uint64_t directory = any_directory();
    if (directory == inode)
        return;
    if (name_of(inode) < 0)
        renew(inode);
    names[name].inode = inode;
    names[name].directory = directory;
    find(name);
}

static void take_away(int name)
{
    if (!names[name].inode || (is_directory(names[name].inode) && has_entries(names[name].inode)))
        return;
    drop_name(names[name].inode, known[names[name].directory].id, text(name));
    names[name].inode = 0;
    names[name].is_found = false;
}

static void move(int name, int other)
{
    uint64_t inode = names[name].inode, directory = any_directory();
    if (!inode || names[other].inode || (is_directory(inode) && is_below(directory, inode)))
        return;
    if (!give_name(inode, known[directory].id, text(other), false))
        return;
    drop_name(inode, known[names[name].directory].id, text(name));
    names[other].inode = inode;
    names[other].directory = directory;
    names[other].is_found = known[inode].lookups > 0;
    names[name].inode = 0;
    names[name].is_found = false;
}

/* The kernel forgets a directory only behind what it found in it. */
static void forget(uint64_t inode)
{
    if (inode == ROOT || !known[inode].lookups)
        return;
    for (int k = 0; k < NAMES; k++)
        if (names[k].is_found && names[k].directory == inode && names[k].inode)
            forget(names[k].inode);
    forget_node(known[inode].id, known[inode].lookups);
    known[inode].lookups = 0;
    for (int k = 0; k < NAMES; k++)
        if (names[k].inode == inode)
            names[k].is_found = false;
}

static void step(void)
{
    int name = rand() % NAMES;
    switch (rand() % 8) {
    case 0: add(name); break;
    case 1: take_away(name); break;
    case 2: move(name, rand() % NAMES); break;
    case 3: forget(1 + (uint64_t)rand() % INODES); break;
    case 4: forget_gone(rand() % MOST_GONE); break;
    default: find(name);
    }
}

/* ---- what holds */

static bool is_told(uint64_t inode)
{
    static struct path path;
    bool is_found = inode == ROOT;
    for (int k = 0; k < NAMES; k++)
        is_found |= names[k].inode == inode && names[k].is_found;
    if (path_of(node_of(known[inode].id), &path))
        return !is_found;
    return !known[inode].lookups || walk(&path) == inode;
}

/* Whether an inode has its number, and one that is gone none. */
static bool is_numbered(const struct known *it, uint64_t number) { return !it->lookups || number_of(node_of(it->id)) == number; }

int main(int count, char **words)
{
    if (count != 3 || !begin_nodes())
        return 2;
    long steps = atol(words[1]), failed = 0;
    srand((unsigned)atoi(words[2]));
    known[ROOT] = (struct known){ROOT, 1};
    for (long k = 0; k < steps; k++) {
        step();
        for (uint64_t inode = ROOT; inode <= INODES; inode++)
            failed += !is_told(inode) + !is_numbered(&known[inode], inode);
        for (int at = 0; at < MOST_GONE; at++)
            failed += !is_numbered(&gone[at], 0);
    }
    for (uint64_t inode = ROOT + 1; inode <= INODES; inode++)
        forget(inode);
    for (int at = 0; at < MOST_GONE; at++)
        forget_gone(at);
    failed += node_count() != 1;
    printf("%ld passed, %ld failed\n", steps + 1 - failed, failed);
    return failed > 0;
}
