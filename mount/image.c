/* The image of a mount: its file, the lock on it, its pages, and how it is saved. */
#define _GNU_SOURCE
#include "image.h"

#include <errno.h>
#include <fcntl.h>
#include <stdio.h>
#include <stdlib.h>
#include <string.h>
#include <sys/file.h>
#include <sys/mman.h>
#include <sys/stat.h>
#include <unistd.h>

#include "changes.h"

struct image image;

/* The file beside the image that takes its place when it is saved. What was the image is the spare then, and lacks only what was
 * stored since. */
static struct {
    char *path;
    int file; /* -1 where there is none */
} spare = {.file = -1};

/* ---- the spare */

/* The folder's entries are durable too. */
static bool sync_folder(void)
{
    char *folder = strdup(image.path);
    char *slash = folder ? strrchr(folder, '/') : NULL;
    if (slash)
        slash[slash == folder] = 0;
    int at = slash ? open(folder, O_RDONLY | O_DIRECTORY | O_CLOEXEC) : -1;
    bool is_synced = at >= 0 && !fsync(at);
    int error = errno;
    if (at >= 0)
        close(at);
    free(folder);
    errno = error;
    return is_synced;
}

static void drop_spare(void)
{
    int error = errno;
    if (spare.file >= 0) {
        unlink(spare.path);
        close(spare.file);
    }
    spare.file = -1;
    errno = error;
}

/* Gives the spare the owner of the image, where this program may, and its permissions. */
static bool is_owned_alike(void)
{
    struct stat st;
    return !fstat(image.file, &st) && (!fchown(spare.file, st.st_uid, st.st_gid) || errno == EPERM) &&
           !fchmod(spare.file, st.st_mode & 07777);
}

/* Copies the image as it was saved. Where the file system can, the two share their blocks. */
static bool copy_saved(void)
{
    off_t from = 0, to = 0;
    while ((size_t)to < image.length) {
        ssize_t count = copy_file_range(image.file, &from, spare.file, &to, image.length - (size_t)to, 0);
        if (count < 0 && errno == EINTR)
            continue;
        if (count <= 0) {
            errno = count ? errno : EIO;
            return false;
        }
    }
    return true;
}

/* Makes a spare, where there is none: a copy of the image as it was saved. It is locked before it gets the image's name. */
static bool have_spare(void)
{
    if (spare.file >= 0)
        return true;
    if (!spare.path && asprintf(&spare.path, "%s.novafuse", image.path) < 0) {
        spare.path = NULL;
        errno = ENOMEM;
        return false;
    }
    spare.file = open(spare.path, O_RDWR | O_CREAT | O_TRUNC | O_NOFOLLOW | O_CLOEXEC, 0600);
    return spare.file >= 0 && !flock(spare.file, LOCK_EX | LOCK_NB) && is_owned_alike() && copy_saved();
}

static bool write_all(int file, const uint8_t *bytes, size_t length, off_t at)
{
    while (length > 0) {
        ssize_t count = pwrite(file, bytes, length, at);
        if (count < 0 && errno == EINTR)
            continue;
        if (count <= 0) {
            errno = count ? errno : EIO;
            return false;
        }
        bytes += count;
        at += count;
        length -= (size_t)count;
    }
    return true;
}

/* Writes what the spare lacks. */
static bool fill_spare(void)
{
    size_t length;
    for (size_t at = 0; (length = spare_lacks(&at)); at += length)
        if (!write_all(spare.file, image.pages + at, length, (off_t)at))
            return false;
    return !fsync(spare.file);
}

/* Whether the image's file has its name still. */
static bool is_named(void)
{
    struct stat opened, named;
    return !fstat(image.file, &opened) && !stat(image.path, &named) && opened.st_ino == named.st_ino &&
           opened.st_dev == named.st_dev;
}

/* Puts the spare in the image's place, and the image in the spare's; or in no place, where the file system can't exchange two. */
static bool put_spare(void)
{
    if (renameat2(AT_FDCWD, spare.path, AT_FDCWD, image.path, RENAME_EXCHANGE)) {
        if ((errno != EINVAL && errno != ENOSYS) || rename(spare.path, image.path))
            return false;
        close(image.file);
        image.file = spare.file;
        spare.file = -1;
    } else {
        int file = image.file;
        image.file = spare.file;
        spare.file = file;
    }
    spare_is_image();
    return true;
}

/* ---- saving */

static bool save_pages(void)
{
    if (!have_spare() || !fill_spare()) {
        drop_spare();
        return false;
    }
    if (!is_named()) {
        fprintf(stderr, "novafuse: %s isn't the file that is mounted; what was written is in %s\n", image.path, spare.path);
        errno = ESTALE;
        return false;
    }
    if (!put_spare())
        return false;
    /* Until the exchange is durable, the old image may be the one that a power cut leaves. */
    if (!sync_folder()) {
        drop_spare();
        return false;
    }
    return true;
}

int save_image(void)
{
    if (!image.is_changed)
        return 0;
    bool is_saved = image.is_shared ? !msync(image.pages, image.length, MS_SYNC) : save_pages();
    if (!is_saved)
        return errno ? errno : EIO;
    image.is_changed = false;
    return 0;
}

void close_image(void)
{
    /* What couldn't be put in the image's place is kept beside it. */
    if (!image.is_changed)
        drop_spare();
    free(spare.path);
    spare.path = NULL;
}

/* ---- opening */

bool says(const char *what)
{
    fprintf(stderr, "novafuse: %s: %s\n", image.path, what);
    return false;
}

bool lock_image(const char *path)
{
    struct stat st;
    image.path = path;
    image.file = open(image.path, O_RDWR | O_CLOEXEC);
    if (image.file < 0)
        return says(strerror(errno));
    if (flock(image.file, LOCK_EX | LOCK_NB))
        return says(errno == EWOULDBLOCK ? "it is mounted already" : strerror(errno));
    /* Another mount may have put a new file there before the old one's lock was taken. */
    if (!is_named())
        return says("it is mounted already");
    if (fstat(image.file, &st))
        return says(strerror(errno));
    image.length = (size_t)st.st_size;
    return image.length > 0 || says("it is empty");
}

/* Maps the file's pages, or private copies of them. */
static bool map_pages(int kind)
{
    void *at = mmap(NULL, image.length, PROT_READ | PROT_WRITE, kind, image.file, 0);
    image.pages = at == MAP_FAILED ? NULL : at;
    image.is_shared = kind == MAP_SHARED;
    return image.pages;
}

static uint32_t open_pages(nova_fs *fs)
{
    return nova_map(fs, (nova_image){(uint64_t *)(void *)image.pages, image.length / 8});
}

/* The library takes whole words, and a superblock whole blocks. An image is recovered where its pages are only if it has no
 * faults, so that one with faults stays as it is. */
uint32_t open_image(nova_fs *fs, bool is_mapped)
{
    nova_space space;
    if (image.length % IMAGE_BLOCK)
        return NOVA_SUPER_LENGTH;
    if (!map_pages(MAP_PRIVATE) || !(is_mapped || watch_changes(image.pages, image.length)))
        return NOVA_MEMORY;
    uint32_t status = open_pages(fs);
    if (!is_mapped || status || nova_space_of(fs, &space) || space.faults > 0)
        return status;
    nova_close(fs);
    munmap(image.pages, image.length);
    /* A store to a hole of the file would end the program where the disk is full. */
    if (fallocate(image.file, 0, 0, (off_t)image.length) && errno != EOPNOTSUPP)
        return NOVA_NO_SPACE;
    return map_pages(MAP_SHARED) ? open_pages(fs) : NOVA_MEMORY;
}
