/* The operations that list directories.
 *
 * A directory that is opened has a list of its names, as they were when it was last read from the start. So names that come and go
 * meanwhile don't move the others, and each is told once.
 */
#include "operations.h"

#include <errno.h>
#include <stdlib.h>
#include <string.h>

#include "mounted.h"

/* An open directory. Its names are as nova_list_inode puts them. */
struct listing {
    uint8_t *names;
    size_t used;
    size_t room;
    off_t next;       /* where the last answer ended */
    uint64_t changes; /* how many had been made when it was read */
};

/* A name of a list, and where the next one begins. Offset 0 is that of `.`, 1 that of `..`, and 2 that of the first name. */
struct listed {
    uint64_t number;
    off_t next;
    char name[LONGEST_NAME + 1];
};

enum { HEAD = 16, FIRST = 2 };

static struct listing *listing_of(const struct fuse_file_info *file) { return (struct listing *)(uintptr_t)file->fh; }

void on_opendir(fuse_req_t request, fuse_ino_t id, struct fuse_file_info *file)
{
    (void)id;
    struct listing *listing = calloc(1, sizeof *listing);
    if (!listing) {
        fuse_reply_err(request, ENOMEM);
        return;
    }
    file->fh = (uintptr_t)listing;
    if (fuse_reply_open(request, file))
        free(listing);
}

void on_releasedir(fuse_req_t request, fuse_ino_t id, struct fuse_file_info *file)
{
    (void)id;
    struct listing *listing = listing_of(file);
    free(listing->names);
    free(listing);
    fuse_reply_err(request, 0);
}

/* Lists a directory, with more room where it needs more. */
static int list(const struct node *directory, struct listing *listing)
{
    uint64_t number = number_of(directory);
    uint32_t status;
    listing->changes = changes;
    while ((status = nova_list_inode(&fs, number, listing->names, listing->room, &listing->used)) == NOVA_TOO_SMALL) {
        uint8_t *more = realloc(listing->names, listing->used + IMAGE_BLOCK);
        if (!more)
            return ENOMEM;
        listing->names = more;
        listing->room = listing->used + IMAGE_BLOCK;
    }
    return error_of(status);
}

static uint64_t number_at(const uint8_t *at)
{
    uint64_t n;
    memcpy(&n, at, sizeof n);
    return n;
}

/* The name at an offset: false at the end. */
static bool name_at(const struct listing *listing, const struct node *directory, off_t offset, struct listed *out)
{
    if (offset < FIRST) {
        *out = (struct listed){.number = (offset ? parent_of(directory) : directory)->number, .next = offset + 1, .name = "."};
        out->name[1] = offset ? '.' : 0;
        return true;
    }
    size_t at = (size_t)offset - FIRST;
    if (at >= listing->used)
        return false;
    size_t length = number_at(listing->names + at + 8);
    out->number = number_at(listing->names + at);
    out->next = offset + HEAD + (off_t)length;
    memcpy(out->name, listing->names + at + HEAD, length);
    out->name[length] = 0;
    return true;
}

/* Whether a name begins at an offset, or the list ends there. A program may ask for any. */
static bool is_start(const struct listing *listing, off_t offset)
{
    if (offset <= FIRST || offset == listing->next)
        return true;
    size_t at = 0, wanted = (size_t)offset - FIRST;
    while (at < wanted && at < listing->used)
        at += HEAD + number_at(listing->names + at + 8);
    return at == wanted;
}

/* Adds a name to an answer, if it has room: how many bytes it takes. */
static size_t add(fuse_req_t request, const struct listed *it, char *at, size_t room)
{
    struct stat told = {.st_ino = it->number};
    return fuse_add_direntry(request, at, room, it->name, &told, it->next);
}

/* Finds a listed name: by its number, unless it may stand for another inode since. */
static int find_listed(const struct listing *listing, uint64_t directory, const struct listed *it, struct fuse_entry_param *out)
{
    return listing->changes == changes ? find_inode(it->number, directory, it->name, out) : find(directory, it->name, out);
}

/* The same with the numbers of the inode, of which the kernel is told. Of `.` and `..` it isn't, nor of a name that is gone. */
static size_t add_told(fuse_req_t request, const struct listing *listing, uint64_t directory, off_t offset, const struct listed *it,
                       char *at, size_t room)
{
    struct fuse_entry_param entry = {.attr = {.st_ino = it->number}};
    size_t needed = fuse_add_direntry_plus(request, NULL, 0, it->name, NULL, 0);
    if (needed > room)
        return needed;
    if (offset >= FIRST && find_listed(listing, directory, it, &entry))
        entry = (struct fuse_entry_param){.attr = {.st_ino = it->number}};
    return fuse_add_direntry_plus(request, at, room, it->name, &entry, it->next);
}

/* Answers with as many names as there is room for. */
static void reply_names(fuse_req_t request, const struct node *directory, size_t room, off_t offset, struct listing *listing,
                        bool is_told)
{
    struct listed it;
    size_t used = 0;
    char *answer = malloc(room);
    if (!answer) {
        fuse_reply_err(request, ENOMEM);
        return;
    }
    for (; name_at(listing, directory, offset, &it); offset = it.next) {
        size_t more = is_told ? add_told(request, listing, directory->id, offset, &it, answer + used, room - used)
                              : add(request, &it, answer + used, room - used);
        if (more > room - used)
            break;
        used += more;
    }
    listing->next = offset;
    fuse_reply_buf(request, answer, used);
    free(answer);
}

static void read_names(fuse_req_t request, fuse_ino_t id, size_t room, off_t offset, struct listing *listing, bool is_told)
{
    const struct node *directory = node_of(id);
    int error = !directory ? ENOENT : !offset ? list(directory, listing) : is_start(listing, offset) ? 0 : EINVAL;
    if (error)
        fuse_reply_err(request, error);
    else
        reply_names(request, directory, room, offset, listing, is_told);
}

void on_readdir(fuse_req_t request, fuse_ino_t id, size_t room, off_t offset, struct fuse_file_info *file)
{
    read_names(request, id, room, offset, listing_of(file), false);
}

void on_readdirplus(fuse_req_t request, fuse_ino_t id, size_t room, off_t offset, struct fuse_file_info *file)
{
    read_names(request, id, room, offset, listing_of(file), true);
}
