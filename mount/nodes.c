/* The inodes that the kernel has, with the names under which it was told of them. */
#include "nodes.h"

#include <errno.h>
#include <stdlib.h>
#include <string.h>

enum { FIRST_BUCKETS = 1024, LEAST_ROOM = 512 };

/* An id has the number in its low bits, since no image has so many inodes. */
enum { NUMBER_BITS = 32 };

struct name {
    struct node *directory;
    struct name *next;
    bool is_hidden;
    size_t length;
    char bytes[]; /* with a 0 behind them */
};

/* A power of two of buckets, at least as many as there are nodes. */
static struct {
    struct node **buckets;
    size_t size;
    size_t count;
} table;

/* ---- nodes */

static struct node **bucket_of(uint64_t number) { return &table.buckets[number & (table.size - 1)]; }

struct node *node_of(uint64_t id)
{
    struct node *node = *bucket_of(id & (((uint64_t)1 << NUMBER_BITS) - 1));
    while (node && node->id != id)
        node = node->next;
    return node;
}

struct node *node_of_inode(uint64_t number)
{
    struct node *node = *bucket_of(number);
    while (node && (node->number != number || node->is_gone))
        node = node->next;
    return node;
}

uint64_t number_of(const struct node *node) { return node && !node->is_gone ? node->number : 0; }

/* An id that no node has. */
static uint64_t new_id(uint64_t number)
{
    static uint64_t count;
    const struct node *node = *bucket_of(number);
    while (node && node->number != number)
        node = node->next;
    return node ? ++count << NUMBER_BITS | number : number;
}

static void put_in_bucket(struct node *node)
{
    struct node **bucket = bucket_of(node->number);
    node->next = *bucket;
    *bucket = node;
}

/* Doubles the buckets. Where there is no memory for that, they get longer. */
static void grow(void)
{
    struct node **old = table.buckets;
    size_t size = table.size;
    struct node **more = calloc(size * 2, sizeof *more);
    if (!more)
        return;
    table.buckets = more;
    table.size = size * 2;
    for (size_t k = 0; k < size; k++) {
        for (struct node *node = old[k], *next; node; node = next) {
            next = node->next;
            put_in_bucket(node);
        }
    }
    free(old);
}

static struct node *make_node(uint64_t number)
{
    struct node *node = calloc(1, sizeof *node);
    if (!node)
        return NULL;
    if (table.count == table.size)
        grow();
    node->id = new_id(number);
    node->number = number;
    put_in_bucket(node);
    table.count++;
    return node;
}

bool begin_nodes(void)
{
    table.size = FIRST_BUCKETS;
    table.buckets = calloc(table.size, sizeof *table.buckets);
    struct node *root = table.buckets ? make_node(ROOT) : NULL;
    /* The kernel never forgets it. */
    if (root)
        root->lookups = 1;
    return root;
}

size_t node_count(void) { return table.count; }

/* ---- names */

/* Where a node's name is linked, or where a further one would be. */
static struct name **place_of(struct node *node, const struct node *directory, const char *bytes)
{
    struct name **at = &node->names;
    while (*at && ((*at)->directory != directory || strcmp((*at)->bytes, bytes)))
        at = &(*at)->next;
    return at;
}

static bool add_name(struct node *node, struct node *directory, const char *bytes, bool is_hidden)
{
    struct name **at = place_of(node, directory, bytes);
    if (*at)
        return true;
    size_t length = strlen(bytes);
    struct name *name = malloc(sizeof *name + length + 1);
    if (!name)
        return false;
    *name = (struct name){.directory = directory, .is_hidden = is_hidden, .length = length};
    memcpy(name->bytes, bytes, length + 1);
    directory->entries++;
    *at = name;
    return true;
}

/* Takes a name away: the directory that it led to. */
static struct node *remove_name(struct name **at)
{
    struct name *name = *at;
    struct node *directory = name->directory;
    *at = name->next;
    free(name);
    directory->entries--;
    return directory;
}

/* ---- what isn't needed */

/* Puts a node that nobody needs before others, out of its bucket: the first of them. */
static struct node *with_unused(struct node *node, struct node *unused)
{
    if (node->lookups || node->opens || node->entries)
        return unused;
    struct node **at = bucket_of(node->number);
    while (*at != node)
        at = &(*at)->next;
    *at = node->next;
    table.count--;
    node->next = unused;
    return node;
}

/* Frees a node that nobody needs, and the directories that only its names led to. */
static void free_unused(struct node *node)
{
    struct node *unused = with_unused(node, NULL);
    while (unused) {
        struct node *others = unused->next;
        while (unused->names)
            others = with_unused(remove_name(&unused->names), others);
        free(unused);
        unused = others;
    }
}

void forget_node(uint64_t id, uint64_t count)
{
    struct node *node = node_of(id);
    if (!node || id == ROOT)
        return;
    node->lookups -= count < node->lookups ? count : node->lookups;
    free_unused(node);
}

void close_node(struct node *node)
{
    node->opens--;
    free_unused(node);
}

/* ---- what the kernel is told, and what calls change */

struct node *tell_node(uint64_t number, uint64_t directory, const char *name)
{
    struct node *parent = node_of(directory);
    struct node *node = node_of_inode(number);
    if (!parent || (!node && !(node = make_node(number))))
        return NULL;
    if (!add_name(node, parent, name, false)) {
        free_unused(node);
        return NULL;
    }
    node->lookups++;
    return node;
}

void renew_number(uint64_t number)
{
    struct node *node = node_of_inode(number);
    if (node)
        node->is_gone = true;
}

bool give_name(uint64_t number, uint64_t directory, const char *name, bool is_hidden)
{
    struct node *node = node_of_inode(number), *parent = node_of(directory);
    return !node || !parent || add_name(node, parent, name, is_hidden);
}

void drop_name(uint64_t number, uint64_t directory, const char *name)
{
    struct node *node = node_of_inode(number), *parent = node_of(directory);
    struct name **at = node && parent ? place_of(node, parent, name) : NULL;
    if (at && *at)
        free_unused(remove_name(at));
}

bool has_only_name(const struct node *node, uint64_t directory, const char *name)
{
    const struct name *only = node->names;
    return !only || (!only->next && only->directory->id == directory && !strcmp(only->bytes, name));
}

uint64_t hidden_name(const struct node *node, const char **bytes)
{
    for (const struct name *name = node->names; name; name = name->next) {
        if (name->is_hidden) {
            *bytes = name->bytes;
            return name->directory->id;
        }
    }
    return 0;
}

const struct node *parent_of(const struct node *node) { return node->names ? node->names->directory : node; }

/* ---- paths */

static bool has_room(struct path *path, size_t length)
{
    if (length <= path->room)
        return true;
    size_t room = length < LEAST_ROOM ? LEAST_ROOM : length * 2;
    uint8_t *more = realloc(path->bytes, room);
    if (!more)
        return false;
    path->bytes = more;
    path->room = room;
    return true;
}

/* Writes the path of a node, with so many bytes left behind it; nothing for the root. */
static int write_path(const struct node *node, size_t behind, struct path *path)
{
    size_t length = behind;
    for (const struct node *at = node; at->number != ROOT; at = at->names->directory) {
        if (!at->names)
            return ENOENT;
        length += 1 + at->names->length;
    }
    if (!has_room(path, length + 1))
        return ENOMEM;
    uint8_t *end = path->bytes + length - behind;
    for (const struct node *at = node; at->number != ROOT; at = at->names->directory) {
        end -= at->names->length;
        memcpy(end, at->names->bytes, at->names->length);
        *--end = '/';
    }
    path->length = length;
    return 0;
}

int path_of(const struct node *node, struct path *path)
{
    int error = node ? write_path(node, 0, path) : ENOENT;
    if (!error && !path->length)
        path->bytes[path->length++] = '/';
    return error;
}

int path_in(uint64_t directory, const char *name, struct path *path)
{
    const struct node *node = node_of(directory);
    size_t length = strlen(name);
    int error = node ? write_path(node, 1 + length, path) : ENOENT;
    if (error)
        return error;
    uint8_t *end = path->bytes + path->length - length;
    end[-1] = '/';
    memcpy(end, name, length);
    return 0;
}
