/* What all calls of the mount share: the handle, and how numbers, statuses and times are told. */
#include "mounted.h"

#include <errno.h>
#include <string.h>

enum { NANOSECONDS = 1000000000 };

nova_fs fs;
nova_space space;
uint64_t changes;

int error_of(uint32_t status)
{
    switch (status) {
    case NOVA_DONE: return 0;
    case NOVA_NOT_FOUND: return ENOENT;
    case NOVA_EXISTS: return EEXIST;
    case NOVA_NOT_DIRECTORY: return ENOTDIR;
    case NOVA_IS_DIRECTORY: return EISDIR;
    case NOVA_NOT_EMPTY: return ENOTEMPTY;
    /* The kernel hands over names without a slash, so that only the length can be wrong. */
    case NOVA_BAD_NAME: return ENAMETOOLONG;
    case NOVA_NO_SPACE:
    case NOVA_NO_INODES: return ENOSPC;
    case NOVA_TOO_LARGE: return EFBIG;
    case NOVA_READ_ONLY: return EROFS;
    case NOVA_LINK_LIMIT: return EMLINK;
    case NOVA_INTO_ITSELF: return EINVAL;
    case NOVA_MEMORY: return ENOMEM;
    default: return EIO;
    }
}

uint64_t of_time(struct timespec at) { return (uint64_t)at.tv_sec * NANOSECONDS + (uint64_t)at.tv_nsec; }

uint64_t now(void)
{
    struct timespec at;
    clock_gettime(CLOCK_REALTIME, &at);
    return of_time(at);
}

uint64_t cpu(void)
{
    static uint64_t next;
    return next++ % space.cpus;
}

void tell(struct stat *out, const nova_numbers *n)
{
    memset(out, 0, sizeof *out);
    out->st_ino = n->inode;
    out->st_mode = n->mode | (n->is_directory ? S_IFDIR : S_IFREG);
    /* A directory's link count doesn't say how many directories are in it, and 1 says so. */
    out->st_nlink = n->links;
    out->st_uid = n->owner;
    out->st_gid = n->group;
    out->st_size = (off_t)n->size;
    out->st_blksize = IMAGE_BLOCK;
    out->st_blocks = (blkcnt_t)((n->size + IMAGE_BLOCK - 1) / IMAGE_BLOCK * (IMAGE_BLOCK / 512));
    /* An inode has one time, that of its last change. */
    out->st_mtim.tv_sec = (time_t)(n->time / NANOSECONDS);
    out->st_mtim.tv_nsec = (long)(n->time % NANOSECONDS);
    out->st_atim = out->st_ctim = out->st_mtim;
}

int numbers_of(uint64_t id, nova_numbers *out) { return error_of(nova_stat_inode(&fs, number_in(id), out)); }
