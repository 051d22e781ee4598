/* Calls that write, where there are few blocks: they are made again once logs are cleaned. */
#ifndef ROOM_H
#define ROOM_H

#include <stdbool.h>
#include <stdint.h>

#include "nodes.h"

/* Cleans the logs that a call on a path makes longer, where it found too few blocks free: whether it may be made again. */
bool has_room_now(uint32_t status, const struct path *path);

/* The same of a call on an inode. */
bool has_room_for(uint32_t status, const struct node *node);

/* The same of a call on a name of a directory. */
bool has_room_in(uint32_t status, uint64_t directory, const char *name);

/* The error of a call that writes: 0, or an errno. */
int written(uint32_t status);

/* The status of a call. It is made twice where it finds too few blocks free, and cleaning frees some. */
#define TWICE(has_room, call)                                                                                                    \
    ({                                                                                                                           \
        uint32_t status_ = (call);                                                                                               \
        has_room ? (call) : status_;                                                                                             \
    })

/* Of a call on a path, of one on an inode, and of one on a name of a directory. */
#define WITH_ROOM(path, call) TWICE(has_room_now(status_, path), call)
#define WITH_ROOM_FOR(node, call) TWICE(has_room_for(status_, node), call)
#define WITH_ROOM_IN(directory, name, call) TWICE(has_room_in(status_, directory, name), call)

#endif
