/* The operations that make, move and take away names.
 *
 * A file that is open gets one name more before its last one goes, until it is closed: no inode of the image is without a name.
 */
#define _GNU_SOURCE
#include "operations.h"

#include <errno.h>
#include <inttypes.h>
#include <stdio.h>

#include "mounted.h"
#include "room.h"

/* ---- new names */

static void reply_entry(fuse_req_t request, int error, const struct fuse_entry_param *entry)
{
    if (error)
        fuse_reply_err(request, error);
    else if (fuse_reply_entry(request, entry))
        forget_node(entry->ino, 1);
}

typedef uint32_t making(nova_fs *, uint64_t, uint64_t, const uint8_t *, size_t, uint32_t, uint64_t, uint64_t *);
typedef uint32_t removing(nova_fs *, uint64_t, uint64_t, const uint8_t *, size_t, uint64_t);

static int owned_by_caller(fuse_req_t request, fuse_ino_t directory, const char *name, uint64_t number, mode_t mode)
{
    const struct fuse_ctx *caller = fuse_req_ctx(request);
    if (!caller->uid && !caller->gid)
        return 0;
    return error_of(WITH_ROOM_IN(directory, name,
                                 nova_set_attr_inode(&fs, cpu(), number, mode & 07777, caller->uid, caller->gid, now())));
}

/* Makes an inode in the table of a CPU that has room, and finds it. It goes again where it can't be given to the caller. */
static int make(fuse_req_t request, fuse_ino_t directory, const char *name, mode_t mode, making *call, removing *undo,
                struct fuse_entry_param *entry)
{
    uint64_t parent = number_in(directory), number = 0;
    uint32_t status = NOVA_NO_INODES;
    for (uint64_t tries = 0; status == NOVA_NO_INODES && tries < space.cpus; tries++)
        status = WITH_ROOM_IN(directory, name, call(&fs, cpu(), parent, NAME(name), mode & 07777, now(), &number));
    int error = written(status);
    if (error)
        return error;
    /* The kernel may have the number as that of another. */
    renew_number(number);
    if ((error = owned_by_caller(request, directory, name, number, mode)) || (error = find_inode(number, directory, name, entry)))
        undo(&fs, cpu(), parent, NAME(name), now());
    return error;
}

void on_create(fuse_req_t request, fuse_ino_t directory, const char *name, mode_t mode, struct fuse_file_info *file)
{
    struct fuse_entry_param entry;
    int error = make(request, directory, name, mode, nova_create_inode, nova_unlink_inode, &entry);
    if (error) {
        fuse_reply_err(request, error);
        return;
    }
    struct node *node = node_of(entry.ino);
    file->keep_cache = 1;
    node->opens++;
    if (fuse_reply_create(request, &entry, file)) {
        close_node(node);
        forget_node(entry.ino, 1);
    }
}

void on_mknod(fuse_req_t request, fuse_ino_t directory, const char *name, mode_t mode, dev_t device)
{
    (void)device;
    struct fuse_entry_param entry;
    int error = S_ISREG(mode) ? make(request, directory, name, mode, nova_create_inode, nova_unlink_inode, &entry) : EOPNOTSUPP;
    reply_entry(request, error, &entry);
}

void on_mkdir(fuse_req_t request, fuse_ino_t directory, const char *name, mode_t mode)
{
    struct fuse_entry_param entry;
    reply_entry(request, make(request, directory, name, mode, nova_mkdir_inode, nova_rmdir_inode, &entry), &entry);
}

void on_symlink(fuse_req_t request, const char *to, fuse_ino_t directory, const char *name)
{
    (void)to, (void)directory, (void)name;
    fuse_reply_err(request, EOPNOTSUPP);
}

static int link_to(fuse_ino_t id, fuse_ino_t directory, const char *name, struct fuse_entry_param *entry)
{
    uint64_t number = number_in(id), parent = number_in(directory);
    int error = written(WITH_ROOM_IN(directory, name, nova_link_inode(&fs, cpu(), number, parent, NAME(name), now())));
    if (!error && (error = find_inode(number, directory, name, entry)))
        nova_unlink_inode(&fs, cpu(), parent, NAME(name), now());
    return error;
}

void on_link(fuse_req_t request, fuse_ino_t id, fuse_ino_t directory, const char *name)
{
    struct fuse_entry_param entry;
    reply_entry(request, link_to(id, directory, name, &entry), &entry);
}

/* ---- names that go */

/* Whether a file is open that has this name alone, as far as is known. */
static bool is_in_use(uint64_t number, fuse_ino_t directory, const char *name)
{
    const struct node *node = node_of_inode(number);
    return node && node->opens && has_only_name(node, directory, name);
}

/* Gives a file one more name beside the one that is shown, under which it stays while it is open. Where it may have no more links
 * it has other names, which aren't known, and stays without. */
static int keep(uint64_t number, fuse_ino_t directory, const char *shown)
{
    static uint32_t count;
    char name[sizeof HIDDEN + 32];
    uint64_t parent = number_in(directory);
    uint32_t status;
    do {
        snprintf(name, sizeof name, HIDDEN "%08" PRIx64 "%08" PRIx32, number, count++);
        if (!give_name(number, directory, name, true))
            return ENOMEM;
        status = WITH_ROOM_IN(directory, shown, nova_link_inode(&fs, cpu(), number, parent, NAME(name), now()));
        if (status)
            drop_name(number, directory, name);
    } while (status == NOVA_EXISTS);
    return status == NOVA_LINK_LIMIT ? 0 : written(status);
}

/* Takes that name away. */
static void let_go(const struct node *node)
{
    const char *name;
    uint64_t directory = node ? hidden_name(node, &name) : 0;
    if (directory && !written(WITH_ROOM_IN(directory, name,
                                           nova_unlink_inode(&fs, cpu(), number_in(directory), NAME(name), now()))))
        drop_name(node->number, directory, name);
}

static int take_away(fuse_ino_t directory, const char *name, removing *call)
{
    nova_numbers gone;
    uint64_t parent = number_in(directory);
    int error = error_of(nova_lookup_inode(&fs, parent, NAME(name), &gone));
    if (error)
        return error;
    bool is_kept = is_in_use(gone.inode, directory, name);
    if (is_kept && (error = keep(gone.inode, directory, name)))
        return error;
    error = written(WITH_ROOM_IN(directory, name, call(&fs, cpu(), parent, NAME(name), now())));
    if (!error)
        drop_name(gone.inode, directory, name);
    else if (is_kept)
        let_go(node_of_inode(gone.inode));
    return error;
}

void on_unlink(fuse_req_t request, fuse_ino_t directory, const char *name)
{
    fuse_reply_err(request, take_away(directory, name, nova_unlink_inode));
}

void on_rmdir(fuse_req_t request, fuse_ino_t directory, const char *name)
{
    fuse_reply_err(request, take_away(directory, name, nova_rmdir_inode));
}

void on_release(fuse_req_t request, fuse_ino_t id, struct fuse_file_info *file)
{
    (void)file;
    struct node *node = node_of(id);
    if (node && node->opens == 1)
        let_go(node);
    if (node)
        close_node(node);
    fuse_reply_err(request, 0);
}

/* ---- names that move */

/* The paths of the old name and of the new one. */
static struct path path, other_path;

static uint32_t move(void)
{
    uint32_t status = WITH_ROOM(&path, nova_rename(&fs, cpu(), PATH(path), PATH(other_path), now()));
    return has_room_now(status, &other_path) ? nova_rename(&fs, cpu(), PATH(path), PATH(other_path), now()) : status;
}

/* The same, also to a name that stands: what it stands for goes, or loses a link, in the same call. */
static uint32_t replace(void)
{
    uint32_t status = WITH_ROOM(&path, nova_replace(&fs, cpu(), PATH(path), PATH(other_path), now()));
    return has_room_now(status, &other_path) ? nova_replace(&fs, cpu(), PATH(path), PATH(other_path), now()) : status;
}

/* Moves a name to one that is free, or that may be replaced: `gone` has the number of what it stands for, or 0. */
static int move_to(uint64_t number, fuse_ino_t other_directory, const char *other, uint64_t gone, bool may_replace)
{
    int error;
    bool is_kept = is_in_use(gone, other_directory, other);
    if (is_kept && (error = keep(gone, other_directory, other)))
        return error;
    error = give_name(number, other_directory, other, false) ? 0 : ENOMEM;
    if (!error && (error = written(may_replace ? replace() : move())))
        drop_name(number, other_directory, other);
    if (!error)
        drop_name(gone, other_directory, other);
    else if (is_kept)
        let_go(node_of_inode(gone));
    return error;
}

static int rename_to(fuse_ino_t directory, const char *name, fuse_ino_t other_directory, const char *other, bool may_replace)
{
    nova_numbers moved, gone = {.inode = 0};
    int error = path_in(directory, name, &path);
    if (error || (error = path_in(other_directory, other, &other_path)) ||
        (error = error_of(nova_lookup_inode(&fs, number_in(directory), NAME(name), &moved))))
        return error;
    /* Where there is nothing yet, it isn't found. */
    if (may_replace)
        (void)nova_lookup_inode(&fs, number_in(other_directory), NAME(other), &gone);
    if (gone.inode == moved.inode)
        return 0;
    error = move_to(moved.inode, other_directory, other, gone.inode, may_replace);
    if (!error)
        drop_name(moved.inode, directory, name);
    return error;
}

void on_rename(fuse_req_t request, fuse_ino_t directory, const char *name, fuse_ino_t other_directory, const char *other,
               unsigned flags)
{
    bool is_known = !(flags & ~(unsigned)RENAME_NOREPLACE);
    fuse_reply_err(request, is_known ? rename_to(directory, name, other_directory, other, !flags) : EOPNOTSUPP);
}
