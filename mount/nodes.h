/* The inodes that the kernel has, with the names under which it was told of them.
 *
 * The kernel names an inode by an id, which is its number in the image: but where the kernel still has an inode that is gone, the
 * next one of that number gets another id. Most calls of nova.h take numbers, but those that rename and those that clean take paths.
 * So each node has names too, each of which leads to the node of a directory. A node is kept while the kernel has it, or while
 * names lead to it: what the kernel forgets goes.
 */
#ifndef NODES_H
#define NODES_H

#include <stdbool.h>
#include <stddef.h>
#include <stdint.h>

enum { ROOT = 1 };

struct node {
    uint64_t id;
    uint64_t number;    /* of the inode */
    uint64_t lookups;   /* how often the kernel was told of it and hasn't forgotten it */
    uint64_t opens;     /* how many open files it has */
    uint64_t entries;   /* how many names of other nodes lead to it */
    struct name *names; /* none where the inode is gone */
    struct node *next;  /* in its bucket */
    bool is_gone;       /* another inode may have its number */
};

/* A path, in memory that is used again. */
struct path {
    uint8_t *bytes;
    size_t length;
    size_t room;
};

/* Begins with the root alone: false where memory was refused. */
bool begin_nodes(void);

/* How many nodes there are. */
size_t node_count(void);

/* The node of an id, and that of the inode of a number; or NULL. */
struct node *node_of(uint64_t id);
struct node *node_of_inode(uint64_t number);

/* The number of a node's inode; or 0, which no inode has, where there is no node or another inode may have its number. */
uint64_t number_of(const struct node *node);

/* The node of an inode under a name that the kernel is told of, in a directory that it has. It is made where there is none, and the
 * kernel has it once more. NULL where memory was refused. */
struct node *tell_node(uint64_t number, uint64_t directory, const char *name);

/* The kernel has forgotten an inode so many times. */
void forget_node(uint64_t id, uint64_t count);

/* A file of it is closed. */
void close_node(struct node *node);

/* A new inode has this number, which the kernel may have as that of another. */
void renew_number(uint64_t number);

/* An inode gets one name more: false where memory was refused. `is_hidden` says whether it has it only while it is open. */
bool give_name(uint64_t number, uint64_t directory, const char *name, bool is_hidden);

/* A name of an inode is gone. */
void drop_name(uint64_t number, uint64_t directory, const char *name);

/* Whether a node's only name is this one. */
bool has_only_name(const struct node *node, uint64_t directory, const char *name);

/* The name that an inode has only while it is open: the id of its directory, or 0 where there is none. */
uint64_t hidden_name(const struct node *node, const char **name);

/* The directory in which a directory is, and the root for itself. */
const struct node *parent_of(const struct node *node);

/* The path of a node, and of a name in a directory: 0, or ENOENT where none is known, or ENOMEM. */
int path_of(const struct node *node, struct path *path);
int path_in(uint64_t directory, const char *name, struct path *path);

#endif
