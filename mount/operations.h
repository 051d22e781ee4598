/* The operations of FUSE that the mount has. */
#ifndef OPERATIONS_H
#define OPERATIONS_H

#define FUSE_USE_VERSION 31
#include <fuse_lowlevel.h>

/* Seconds for which the kernel may keep what it is told: as long as it likes, since it is told of every change. */
#define FOR_GOOD 1e9

/* Names of files that were taken away while they were open begin so. The kernel isn't told when one comes or goes. */
#define HIDDEN ".fuse_hidden"

/* Finds a name in a directory, of which the number may be known, for an answer to the kernel: 0, or an errno. */
int find(fuse_ino_t directory, const char *name, struct fuse_entry_param *out);
int find_inode(uint64_t number, fuse_ino_t directory, const char *name, struct fuse_entry_param *out);

/* reading.c */
void on_lookup(fuse_req_t request, fuse_ino_t directory, const char *name);
void on_forget(fuse_req_t request, fuse_ino_t id, uint64_t count);
void on_forget_multi(fuse_req_t request, size_t count, struct fuse_forget_data *forgotten);
void on_getattr(fuse_req_t request, fuse_ino_t id, struct fuse_file_info *file);
void on_read(fuse_req_t request, fuse_ino_t id, size_t count, off_t offset, struct fuse_file_info *file);
void on_statfs(fuse_req_t request, fuse_ino_t id);

/* listing.c */
void on_opendir(fuse_req_t request, fuse_ino_t id, struct fuse_file_info *file);
void on_readdir(fuse_req_t request, fuse_ino_t id, size_t room, off_t offset, struct fuse_file_info *file);
void on_readdirplus(fuse_req_t request, fuse_ino_t id, size_t room, off_t offset, struct fuse_file_info *file);
void on_releasedir(fuse_req_t request, fuse_ino_t id, struct fuse_file_info *file);

/* writing.c: the bytes, the size and the attributes of an inode */
void on_open(fuse_req_t request, fuse_ino_t id, struct fuse_file_info *file);
void on_write(fuse_req_t request, fuse_ino_t id, const char *bytes, size_t count, off_t offset, struct fuse_file_info *file);
void on_setattr(fuse_req_t request, fuse_ino_t id, struct stat *wanted, int which, struct fuse_file_info *file);
void on_fsync(fuse_req_t request, fuse_ino_t id, int only_data, struct fuse_file_info *file);

/* naming.c: what makes, moves and takes away names */
void on_create(fuse_req_t request, fuse_ino_t directory, const char *name, mode_t mode, struct fuse_file_info *file);
void on_mknod(fuse_req_t request, fuse_ino_t directory, const char *name, mode_t mode, dev_t device);
void on_mkdir(fuse_req_t request, fuse_ino_t directory, const char *name, mode_t mode);
void on_symlink(fuse_req_t request, const char *to, fuse_ino_t directory, const char *name);
void on_link(fuse_req_t request, fuse_ino_t id, fuse_ino_t directory, const char *name);
void on_unlink(fuse_req_t request, fuse_ino_t directory, const char *name);
void on_rmdir(fuse_req_t request, fuse_ino_t directory, const char *name);
void on_rename(fuse_req_t request, fuse_ino_t directory, const char *name, fuse_ino_t other_directory, const char *other,
               unsigned flags);
void on_release(fuse_req_t request, fuse_ino_t id, struct fuse_file_info *file);

#endif
