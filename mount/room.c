/* Calls that write, where there are few blocks: they are made again once logs are cleaned. */
#include "room.h"

#include "mounted.h"

enum { MOST_CLEANED = 512 };

/* Frees pages that the log of an inode can do without, as many as a call may need: whether there were any. Each of them costs a
 * reading of the log. */
static bool clean(const uint8_t *path, size_t length)
{
    nova_cleaned cleaned;
    for (int count = 0; count < MOST_CLEANED; count++) {
        if (nova_clean(&fs, path, length, &cleaned) || !cleaned.has_freed)
            return count > 0;
        image.is_changed = true;
    }
    return true;
}

bool has_room_now(uint32_t status, const struct path *path)
{
    if (status != NOVA_NO_SPACE)
        return false;
    size_t directory = path->length - 1;
    while (directory > 0 && path->bytes[directory] != '/')
        directory--;
    bool has_freed = clean(path->bytes, path->length);
    return clean(path->bytes, directory ? directory : 1) || has_freed;
}

/* The path of what a call is on that has no path of its own. */
static struct path path;

bool has_room_for(uint32_t status, const struct node *node)
{
    return status == NOVA_NO_SPACE && !path_of(node, &path) && has_room_now(status, &path);
}

bool has_room_in(uint32_t status, uint64_t directory, const char *name)
{
    return status == NOVA_NO_SPACE && !path_in(directory, name, &path) && has_room_now(status, &path);
}

int written(uint32_t status)
{
    if (!status) {
        image.is_changed = true;
        changes++;
    }
    return error_of(status);
}
