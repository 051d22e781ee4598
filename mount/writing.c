/* The operations that change an inode: its bytes, its size, its attributes. */
#include "operations.h"

#include <errno.h>
#include <fcntl.h>

#include "mounted.h"
#include "room.h"

static int set_size(const struct node *node, uint64_t size)
{
    return written(WITH_ROOM_FOR(node, nova_set_size_inode(&fs, cpu(), number_of(node), size, now())));
}

/* ---- opening */

/* Finds an inode, and cuts it where that is wanted. */
static int open_inode(fuse_ino_t id, int flags)
{
    nova_numbers numbers;
    int error = numbers_of(id, &numbers);
    return !error && flags & O_TRUNC && numbers.size > 0 ? set_size(node_of(id), 0) : error;
}

void on_open(fuse_req_t request, fuse_ino_t id, struct fuse_file_info *file)
{
    struct node *node = node_of(id);
    int error = open_inode(id, file->flags);
    if (error) {
        /* It went since it was found: the kernel looks its name up again, since the file may be made by this very call. */
        fuse_reply_err(request, error == ENOENT ? ESTALE : error);
        return;
    }
    /* Nothing but this mount changes the image, so what the kernel keeps of files stays true. */
    file->keep_cache = 1;
    node->opens++;
    if (fuse_reply_open(request, file))
        close_node(node);
}

/* ---- bytes */

void on_write(fuse_req_t request, fuse_ino_t id, const char *bytes, size_t count, off_t offset, struct fuse_file_info *file)
{
    (void)file;
    const uint8_t *from = (const uint8_t *)bytes;
    const struct node *node = node_of(id);
    uint64_t number = number_of(node);
    int error = written(WITH_ROOM_FOR(node, nova_write_inode(&fs, cpu(), number, (uint64_t)offset, from, count, now())));
    if (error)
        fuse_reply_err(request, error);
    else
        fuse_reply_write(request, count);
}

void on_fsync(fuse_req_t request, fuse_ino_t id, int only_data, struct fuse_file_info *file)
{
    (void)id, (void)only_data, (void)file;
    fuse_reply_err(request, save_image());
}

/* ---- attributes */

/* Which attributes are set by one call of the library. A time of access is taken and not kept. */
enum {
    OWN = FUSE_SET_ATTR_MODE | FUSE_SET_ATTR_UID | FUSE_SET_ATTR_GID,
    TIMES = FUSE_SET_ATTR_MTIME | FUSE_SET_ATTR_MTIME_NOW,
};

static int set_own(fuse_ino_t id, const struct stat *wanted, int which)
{
    nova_numbers n;
    int error = numbers_of(id, &n);
    if (error)
        return error;
    if (which & FUSE_SET_ATTR_MODE)
        n.mode = wanted->st_mode & 07777;
    if (which & FUSE_SET_ATTR_UID)
        n.owner = wanted->st_uid;
    if (which & FUSE_SET_ATTR_GID)
        n.group = wanted->st_gid;
    bool is_given = which & FUSE_SET_ATTR_MTIME && !(which & FUSE_SET_ATTR_MTIME_NOW);
    n.time = is_given ? of_time(wanted->st_mtim) : now();
    return written(WITH_ROOM_FOR(node_of(id), nova_set_attr_inode(&fs, cpu(), n.inode, n.mode, n.owner, n.group, n.time)));
}

static int set(fuse_ino_t id, const struct stat *wanted, int which)
{
    int error = 0;
    if (which & FUSE_SET_ATTR_SIZE) {
        error = set_size(node_of(id), (uint64_t)wanted->st_size);
        /* A new size comes with the time of now. */
        if (which & FUSE_SET_ATTR_MTIME_NOW)
            which &= ~TIMES;
    }
    return error || !(which & (OWN | TIMES)) ? error : set_own(id, wanted, which);
}

void on_setattr(fuse_req_t request, fuse_ino_t id, struct stat *wanted, int which, struct fuse_file_info *file)
{
    int error = set(id, wanted, which);
    if (error)
        fuse_reply_err(request, error);
    else
        on_getattr(request, id, file);
}
