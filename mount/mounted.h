/* What all calls of the mount share: the handle, and how numbers, statuses and times are told. */
#ifndef MOUNTED_H
#define MOUNTED_H

#include <stdbool.h>
#include <stdint.h>
#include <string.h>
#include <sys/stat.h>
#include <sys/types.h>
#include <time.h>

#include "image.h"
#include "nodes.h"
#include "nova.h"

enum { LONGEST_NAME = 255 };

/* The only mount of this process, and how much there was when it was mounted. */
extern nova_fs fs;
extern nova_space space;

/* A path, and a name with a 0 behind it, as the calls of nova.h take them. */
#define PATH(path) (path).bytes, (path).length
#define NAME(name) (const uint8_t *)(name), strlen(name)

/* The error of a status: 0, or an errno. */
int error_of(uint32_t status);

/* Nanoseconds since 1970. */
uint64_t of_time(struct timespec at);
uint64_t now(void);

/* The CPU from whose pool and table a call takes: each in turn. */
uint64_t cpu(void);

/* How many calls have changed the image. */
extern uint64_t changes;

/* Tells the numbers of an inode as the system wants them. */
void tell(struct stat *out, const nova_numbers *n);

/* The number of an inode that the kernel has; or 0, which no inode has. */
static inline uint64_t number_in(uint64_t id) { return number_of(node_of(id)); }

/* The numbers of an inode that the kernel has: 0, or an errno. */
int numbers_of(uint64_t id, nova_numbers *out);

#endif
