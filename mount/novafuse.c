/* Mounts an image by FUSE, over the static library nova_c.
 *
 *     novafuse IMAGE FOLDER [--mapped] [FUSE's options, as -f or -o allow_other]
 *
 * The image is recovered first. With --mapped the words of the region are the file's pages, so that each store goes to the file at
 * once. Without, they are private copies of them: fsync and the unmount write what was stored to a spare file beside the image,
 * and put that in its place.
 *
 * An image with faults is mounted to be read alone, and stays as it is. It ends with 2 if nothing was mounted, and with 1 if what
 * was written couldn't be saved.
 *
 * One thread serves all operations (operations.h). docs/MOUNT.md says what isn't there, and what a kill and a power cut leave.
 */
#include <inttypes.h>
#include <stdio.h>
#include <stdlib.h>
#include <string.h>
#include <syslog.h>

#include "mounted.h"
#include "operations.h"
#include "serving.h"

/* ---- the image */

/* Recovers the image, and says what was found. */
static bool recover(bool is_mapped)
{
    uint64_t begun = now();
    uint32_t status = open_image(&fs, is_mapped);
    if (status >= NOVA_SUPER_LENGTH && status <= NOVA_SUPER_STATE) {
        fprintf(stderr, "novafuse: %s: the superblock isn't accepted: fault S%u\n", image.path,
                status - NOVA_SUPER_LENGTH + 1);
        return false;
    }
    if (status || (status = nova_space_of(&fs, &space)))
        return says(strerror(error_of(status)));
    fprintf(stderr, "novafuse: recovered inodes %ju free %ju faults %ju in %.1f ms\n", (uintmax_t)space.inodes,
            (uintmax_t)space.free_blocks, (uintmax_t)space.faults, (double)(now() - begun) / 1e6);
    if (space.faults > 0)
        fprintf(stderr, "novafuse: %s has faults, so it can only be read; nova check lists them\n", image.path);
    return true;
}

/* Saves the image for the last time: whether that was done. */
static bool end(void)
{
    int error = save_image();
    close_image();
    if (error) {
        fprintf(stderr, "novafuse: %s was not saved: %s\n", image.path, strerror(error));
        syslog(LOG_ERR, "%s was not saved: %s", image.path, strerror(error));
    }
    nova_close(&fs);
    return !error;
}

/* ---- the mount */

static void on_init(void *data, struct fuse_conn_info *connection)
{
    (void)data;
    /* Requests are read as they are, and not through a pipe: most are short. */
    connection->want &= ~(unsigned)FUSE_CAP_SPLICE_READ;
    /* Nothing but this mount changes the image, so that what the kernel keeps of a file needs no look at its time. */
    connection->want &= ~(unsigned)FUSE_CAP_AUTO_INVAL_DATA;
    /* The kernel takes set-user-ID bits away, by setattr. */
    connection->want &= ~(unsigned)FUSE_CAP_HANDLE_KILLPRIV;
}

static const struct fuse_lowlevel_ops operations = {
    .init = on_init, .lookup = on_lookup, .forget = on_forget, .forget_multi = on_forget_multi, .getattr = on_getattr,
    .setattr = on_setattr, .open = on_open, .create = on_create, .release = on_release, .read = on_read, .write = on_write,
    .opendir = on_opendir, .readdir = on_readdir, .readdirplus = on_readdirplus, .releasedir = on_releasedir,
    .mknod = on_mknod, .mkdir = on_mkdir, .symlink = on_symlink, .link = on_link, .unlink = on_unlink, .rmdir = on_rmdir,
    .rename = on_rename, .statfs = on_statfs, .fsync = on_fsync, .fsyncdir = on_fsync,
};

/* Serves the kernel's requests until the unmount: whether there was a mount. */
static bool serve(struct fuse_session *session, const struct fuse_cmdline_opts *options)
{
    if (fuse_session_mount(session, options->mountpoint))
        return false;
    bool is_served = !fuse_daemonize(options->foreground) && !fuse_set_signal_handlers(session);
    if (is_served) {
        serve_requests(session);
        fuse_remove_signal_handlers(session);
    }
    fuse_session_unmount(session);
    return is_served;
}

/* Mounts the image: the status with which the program ends. */
static int mount_image(struct fuse_args *words, const struct fuse_cmdline_opts *options)
{
    struct fuse_session *session = fuse_session_new(words, &operations, sizeof operations, NULL);
    bool is_served = session && begin_nodes() && serve(session, options);
    bool is_saved = end();
    if (session)
        fuse_session_destroy(session);
    return is_served ? !is_saved : 2;
}

/* ---- the words of the command */

/* The path from the root on, since a daemon goes there; or the path itself where there is no such file. */
static const char *whole_path(const char *path)
{
    char *whole = realpath(path, NULL);
    return whole ? whole : path;
}

static struct {
    const char *image;
    bool is_mapped;
    struct fuse_args others; /* FUSE's */
    struct fuse_cmdline_opts options;
} command;

static bool keep(const char *word) { return !fuse_opt_add_arg(&command.others, word); }

/* Whether the words say what is to be mounted where. */
static bool is_read(int count, char **words)
{
    if (!keep(words[0]) || !keep("-osubtype=nova"))
        return false;
    for (int i = 1; i < count; i++) {
        if (!strcmp(words[i], "--mapped"))
            command.is_mapped = true;
        else if (!command.image && words[i][0] != '-')
            command.image = whole_path(words[i]);
        else if (!keep(words[i]))
            return false;
    }
    return command.image && !fuse_parse_cmdline(&command.others, &command.options) && command.options.mountpoint;
}

int main(int count, char **words)
{
    if (!is_read(count, words)) {
        fprintf(stderr, "usage: novafuse IMAGE FOLDER [--mapped] [FUSE's options]\n");
        return 2;
    }
    openlog("novafuse", LOG_PID, LOG_DAEMON);
    if (!lock_image(command.image) || !recover(command.is_mapped))
        return 2;
    /* An image with faults is shown as one that can't be written. */
    if (space.faults > 0 && !keep("-oro"))
        return 2;
    int status = mount_image(&command.others, &command.options);
    fuse_opt_free_args(&command.others);
    free(command.options.mountpoint);
    return status;
}
