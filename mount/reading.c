/* The operations that read: names, numbers and bytes. */
#include "operations.h"

#include <errno.h>
#include <stdlib.h>
#include <string.h>
#include <sys/statvfs.h>

#include "mounted.h"

enum { INODES_IN_BLOCK = 32 };

/* What files are read into. It grows to the longest read that the kernel asks for. */
static struct {
    uint8_t *bytes;
    size_t room;
} buffer;

static double time_of(const char *name) { return strncmp(name, HIDDEN, sizeof HIDDEN - 1) ? FOR_GOOD : 0; }

static int tell_entry(const nova_numbers *numbers, fuse_ino_t directory, const char *name, struct fuse_entry_param *out)
{
    const struct node *node = tell_node(numbers->inode, directory, name);
    if (!node)
        return ENOMEM;
    *out = (struct fuse_entry_param){.ino = node->id, .attr_timeout = FOR_GOOD, .entry_timeout = time_of(name)};
    tell(&out->attr, numbers);
    return 0;
}

int find(fuse_ino_t directory, const char *name, struct fuse_entry_param *out)
{
    nova_numbers numbers;
    int error = error_of(nova_lookup_inode(&fs, number_in(directory), NAME(name), &numbers));
    return error ? error : tell_entry(&numbers, directory, name, out);
}

int find_inode(uint64_t number, fuse_ino_t directory, const char *name, struct fuse_entry_param *out)
{
    nova_numbers numbers;
    int error = error_of(nova_stat_inode(&fs, number, &numbers));
    return error ? error : tell_entry(&numbers, directory, name, out);
}

void on_lookup(fuse_req_t request, fuse_ino_t directory, const char *name)
{
    struct fuse_entry_param entry;
    int error = find(directory, name, &entry);
    /* That there is no such name is kept by the kernel too: as inode 0. */
    if (error == ENOENT)
        entry = (struct fuse_entry_param){.entry_timeout = time_of(name)};
    else if (error) {
        fuse_reply_err(request, error);
        return;
    }
    if (fuse_reply_entry(request, &entry) && entry.ino)
        forget_node(entry.ino, 1);
}

void on_forget(fuse_req_t request, fuse_ino_t id, uint64_t count)
{
    forget_node(id, count);
    fuse_reply_none(request);
}

void on_forget_multi(fuse_req_t request, size_t count, struct fuse_forget_data *forgotten)
{
    for (size_t k = 0; k < count; k++)
        forget_node(forgotten[k].ino, forgotten[k].nlookup);
    fuse_reply_none(request);
}

void on_getattr(fuse_req_t request, fuse_ino_t id, struct fuse_file_info *file)
{
    (void)file;
    struct stat told;
    nova_numbers numbers;
    int error = numbers_of(id, &numbers);
    if (error) {
        fuse_reply_err(request, error);
        return;
    }
    tell(&told, &numbers);
    fuse_reply_attr(request, &told, FOR_GOOD);
}

static bool has_room(size_t count)
{
    if (count <= buffer.room)
        return true;
    uint8_t *more = realloc(buffer.bytes, count);
    if (!more)
        return false;
    buffer.bytes = more;
    buffer.room = count;
    return true;
}

void on_read(fuse_req_t request, fuse_ino_t id, size_t count, off_t offset, struct fuse_file_info *file)
{
    (void)file;
    size_t done = 0;
    int error = ENOMEM;
    if (has_room(count))
        error = error_of(nova_read_inode(&fs, number_in(id), (uint64_t)offset, buffer.bytes, count, &done));
    if (error)
        fuse_reply_err(request, error);
    else
        fuse_reply_buf(request, (const char *)buffer.bytes, done);
}

void on_statfs(fuse_req_t request, fuse_ino_t id)
{
    (void)id;
    nova_space s;
    int error = error_of(nova_space_of(&fs, &s));
    if (error) {
        fuse_reply_err(request, error);
        return;
    }
    struct statvfs out = {.f_bsize = IMAGE_BLOCK, .f_frsize = IMAGE_BLOCK, .f_blocks = s.blocks, .f_bfree = s.free_blocks,
                          .f_bavail = s.free_blocks, .f_namemax = LONGEST_NAME};
    out.f_files = s.cpus * s.table_blocks * INODES_IN_BLOCK;
    out.f_ffree = out.f_favail = out.f_files - s.inodes;
    fuse_reply_statfs(request, &out);
}
