/* The calls of the static library nova_c. This file is made from crates/nova_c/src by bindings/header.py.
 * Each call answers a status: 0, or why it was refused. A path is bytes with no 0 behind them: a pointer, and
 * the length. C owes what docs/MOUNT.md lists under "What C owes". */
#ifndef NOVA_H
#define NOVA_H

#include <stddef.h>
#include <stdint.h>

#ifdef __cplusplus
extern "C" {
#endif

enum nova_status {
    NOVA_DONE = 0,
    NOVA_NOT_FOUND = 1,
    NOVA_EXISTS = 2,
    NOVA_NOT_DIRECTORY = 3,
    NOVA_IS_DIRECTORY = 4,
    NOVA_NOT_EMPTY = 5,
    NOVA_BAD_NAME = 6,
    NOVA_NO_SPACE = 7,
    NOVA_NO_INODES = 8,
    NOVA_TOO_LARGE = 9,
    NOVA_READ_ONLY = 10,
    NOVA_LINK_LIMIT = 11,
    NOVA_INTO_ITSELF = 12,
    NOVA_BAD_CPU = 13,
    NOVA_MEMORY = 14,
    NOVA_STOPPED = 15,
    NOVA_CLOSED = 16,
    NOVA_BUSY = 17,
    NOVA_TOO_SMALL = 18,
    NOVA_IS_VERSION2 = 19,
    NOVA_SUPER_LENGTH = 20,
    NOVA_SUPER_MAGIC = 21,
    NOVA_SUPER_VERSION = 22,
    NOVA_SUPER_CPUS = 23,
    NOVA_SUPER_BLOCKS = 24,
    NOVA_SUPER_TABLES = 25,
    NOVA_SUPER_STATE = 26,
    NOVA_RECOVER_WORKERS = 27,
    NOVA_RECOVER_SCHEDULE = 28,
    NOVA_FORMAT_LENGTH = 30,
    NOVA_FORMAT_CPUS = 31,
    NOVA_FORMAT_TABLES = 32,
};

/* A handle: closed, where is_open is 0, or open, and then it owns a mount. C makes a closed one of zero
 * bytes. */
typedef struct {
    void *at;
    size_t is_open;
} nova_fs;

/* So many words of 64 bits at an address that is a multiple of 8. Whoever hands them over leaves them alone
 * from then on. */
typedef struct {
    uint64_t *at;
    size_t count;
} nova_image;

/* The numbers of an inode. A time is a number of the caller's. */
typedef struct {
    uint64_t inode;
    /* In bytes. */
    uint64_t size;
    uint64_t time;
    /* 1 for a directory, 0 for a file. */
    uint32_t is_directory;
    uint32_t mode;
    uint32_t owner;
    uint32_t group;
    uint32_t links;
} nova_numbers;

/* How much there is of what. */
typedef struct {
    /* Of 4096 bytes. */
    uint64_t blocks;
    uint64_t free_blocks;
    uint64_t cpus;
    /* Of each CPU, with 32 inodes each. */
    uint64_t table_blocks;
    /* How many inodes are in use. */
    uint64_t inodes;
    /* How many faults the recovery found. Where there are any, the mount can only be read. */
    uint64_t faults;
} nova_space;

/* What a cleaning has freed. */
typedef struct {
    /* The block of the page that went, where one did. */
    uint64_t block;
    /* 1 where a page went, 0 where the log needs each of its pages. */
    uint32_t has_freed;
} nova_cleaned;

/* Formats so many blocks of zeros, in memory of the library's own, and mounts them: for each CPU a pool of
 * blocks, and so many table blocks, each of 32 inodes.
 * Statuses: 17 where the handle is open already; 30 where there aren't 8 to 262,144 blocks, 31 where there
 * aren't 1 to 64 CPUs, 32 where there aren't 1 to 64 table blocks for each or no block is left behind them;
 * 14 where memory was refused. */
uint32_t nova_format(nova_fs *fs, uint64_t blocks, uint64_t cpus, uint64_t tables, uint64_t time);

/* Copies the bytes of an image, recovers the region that they are, and mounts it: damaged ones too, which can
 * only be read.
 * Statuses: 17 where the handle is open already; 20 to 26 for the superblock's first fault, S1 to S7; 14
 * where memory was refused. */
uint32_t nova_open(nova_fs *fs, const uint8_t *bytes, size_t bytes_length);

/* Recovers the region that these words are, and mounts it over them: each store of a later call goes to them
 * at once. They are the library's from the call on, whatever it answers, until the handle is closed.
 * Statuses as nova_open has them. */
uint32_t nova_map(nova_fs *fs, nova_image image);

/* Closes a handle, and gives the library's memory back.
 * Status: 16 where it is closed already. */
uint32_t nova_close(nova_fs *fs);

/* Puts the bytes of the region into a buffer of just their number, 4096 for each block.
 * Statuses: 16 where the handle is closed; 18 where the buffer has another length. */
uint32_t nova_save(nova_fs *fs, uint8_t *image, size_t image_length);

/* The numbers of the inode that a path leads to.
 * Statuses, the first that applies, with out as before: 16 where the handle is closed, 6 where the text is no
 * path, 1 or 3 for an inode on the way, 1 for the last name. */
uint32_t nova_stat(nova_fs *fs, const uint8_t *path, size_t path_length, nova_numbers *out);

/* How much there is of what.
 * Status: 16 where the handle is closed, with out as before. */
uint32_t nova_space_of(nova_fs *fs, nova_space *out);

/* Puts the bytes of a file into a buffer, from an offset on up to its size, as many as fit. done says how
 * many these are, and the rest of the buffer stays. It takes no memory.
 * Statuses, the first that applies, with buffer and done as before: 16 where the handle is closed, 6 where
 * the text is no path, 1 or 3 for an inode on the way, 1 for the last name, 4 for a directory. */
uint32_t nova_read(nova_fs *fs, const uint8_t *path, size_t path_length, uint64_t offset, uint8_t *bytes,
                   size_t bytes_length, size_t *done);

/* Puts the names of a directory into a buffer, rising by bytes: each as its inode and its length, 8 bytes
 * each with the lowest first, and its bytes. used says how many bytes they take, also where there is no room
 * for them.
 * Statuses, the first that applies, with the buffer as before: 16 where the handle is closed, 6 where the
 * text is no path, 1 or 3 for an inode on the way, 1 for the last name, 3 for a file, 14 where memory was
 * refused, 18 where the buffer is too small. */
uint32_t nova_list(nova_fs *fs, const uint8_t *path, size_t path_length, uint8_t *names, size_t names_length,
                   size_t *used);

/* Puts the report of the mount into a buffer, as text. used says how many bytes it has, also where there is
 * no room for them.
 * Statuses, with the buffer as before: 16 where the handle is closed, 14 where memory was refused, 18 where
 * the buffer is too small. */
uint32_t nova_report(nova_fs *fs, uint8_t *text, size_t text_length, size_t *used);

/* The numbers of the inode of this number.
 * Statuses, the first that applies, with out as before: 16 where the handle is closed, 1 where no inode in
 * use has the number. */
uint32_t nova_stat_inode(nova_fs *fs, uint64_t inode, nova_numbers *out);

/* The numbers of the inode that a name of the directory of this number stands for. It takes no memory.
 * Statuses, the first that applies, with out as before: 16 where the handle is closed, 6 where no path can
 * say the name, 1 where no inode in use has the directory's number and 3 where a file has it, 1 where no
 * inode in use has the name. */
uint32_t nova_lookup_inode(nova_fs *fs, uint64_t directory, const uint8_t *name, size_t name_length,
                           nova_numbers *out);

/* Puts the bytes of the file of this number into a buffer, from an offset on up to its size, as many as fit.
 * done says how many these are, and the rest of the buffer stays. It takes no memory.
 * Statuses, the first that applies, with buffer and done as before: 16 where the handle is closed, 1 where no
 * inode in use has the number, 4 for a directory. */
uint32_t nova_read_inode(nova_fs *fs, uint64_t inode, uint64_t offset, uint8_t *bytes, size_t bytes_length,
                         size_t *done);

/* Puts the names of the directory of this number into a buffer, as nova_list does. used says how many bytes
 * they take, also where there is no room for them.
 * Statuses, the first that applies, with the buffer as before: 16 where the handle is closed, 1 where no
 * inode in use has the number, 3 for a file, 14 where memory was refused, 18 where the buffer is too small. */
uint32_t nova_list_inode(nova_fs *fs, uint64_t inode, uint8_t *names, size_t names_length, size_t *used);

/* Makes a file of this mode, of which the low 12 bits are kept, with one name.
 * Statuses, the first that applies: 16 where the handle is closed, 13 where there is no CPU of that number,
 * 10 where the mount has faults, 6 where the text is no path or /, 1 or 3 for an inode on the way, 2 where
 * the path leads to an inode, 8 where the CPU's table has no unused slot, in version 1, 7 where too few
 * blocks are free. Besides these 14 where memory was refused. All leave everything as it was. */
uint32_t nova_create(nova_fs *fs, uint64_t cpu, const uint8_t *path, size_t path_length, uint32_t mode,
                     uint64_t time);

/* Makes a directory of this mode, of which the low 12 bits are kept, with one name.
 * Statuses, the first that applies: 16 where the handle is closed, 13 where there is no CPU of that number,
 * 10 where the mount has faults, 6 where the text is no path or /, 1 or 3 for an inode on the way, 2 where
 * the path leads to an inode, 8 where the CPU's table has no unused slot, in version 1, 7 where too few
 * blocks are free. Besides these 14 where memory was refused. All leave everything as it was. */
uint32_t nova_mkdir(nova_fs *fs, uint64_t cpu, const uint8_t *path, size_t path_length, uint32_t mode,
                    uint64_t time);

/* Gives the file that a path leads to one name more, which the other path says.
 * Statuses, the first that applies: 16 where the handle is closed, 13 where there is no CPU of that number,
 * 10 where the mount has faults, 6 where the first text is no path or the second no path or /, 1 or 3 for an
 * inode on the first way and then on the second, 1 where the first path leads to no inode, 4 where it leads
 * to a directory, 2 where the second leads to an inode, 11 where the file has 1,000 links, 7 where too few
 * blocks are free. Besides these 14 where memory was refused. All leave everything as it was. */
uint32_t nova_link(nova_fs *fs, uint64_t cpu, const uint8_t *path, size_t path_length, const uint8_t *other,
                   size_t other_length, uint64_t time);

/* Takes a name of a file away, and with the last one the file.
 * Statuses, the first that applies: 16 where the handle is closed, 13 where there is no CPU of that number,
 * 10 where the mount has faults, 6 where the text is no path or /, 1 or 3 for an inode on the way, 1 for the
 * last name, 4 for a directory, 7 where too few blocks are free. Besides these 14 where memory was refused.
 * All leave everything as it was. */
uint32_t nova_unlink(nova_fs *fs, uint64_t cpu, const uint8_t *path, size_t path_length, uint64_t time);

/* Takes a directory away that has no names.
 * Statuses, the first that applies: 16 where the handle is closed, 13 where there is no CPU of that number,
 * 10 where the mount has faults, 6 where the text is no path or /, 1 or 3 for an inode on the way, 1 for the
 * last name, 3 for a file, 5 where names are in it, 7 where too few blocks are free. Besides these 14 where
 * memory was refused. All leave everything as it was. */
uint32_t nova_rmdir(nova_fs *fs, uint64_t cpu, const uint8_t *path, size_t path_length, uint64_t time);

/* Gives the inode that a path leads to the name that the other path says, in place of its old one.
 * Statuses, the first that applies: 16 where the handle is closed, 13 where there is no CPU of that number,
 * 10 where the mount has faults, 6 where a text is no path or /, 1 or 3 for an inode on the first way and
 * then on the second, 1 where the first path leads to no inode, 12 where it leads to a directory that the
 * second way passes, 2 where the second leads to an inode, 7 where too few blocks are free. Besides these 14
 * where memory was refused. All leave everything as it was. */
uint32_t nova_rename(nova_fs *fs, uint64_t cpu, const uint8_t *path, size_t path_length, const uint8_t *other,
                     size_t other_length, uint64_t time);

/* Gives the inode that a path leads to the name that the other path says, in place of its old one, and in
 * place of another inode that has it: that one goes where it is a directory or has no further name, and else
 * loses a link. Where both paths lead to one inode, nothing changes.
 * Statuses, the first that applies: 16 where the handle is closed, 13 where there is no CPU of that number,
 * 10 where the mount has faults, 6 where a text is no path or /, 1 or 3 for an inode on the first way and
 * then on the second, 1 where the first path leads to no inode, 12 where it leads to a directory that the
 * second way passes, 4 where the second leads to a directory and the first to a file, 3 where it is the other
 * way round, 5 where the second leads to another inode, which has names, 7 where too few blocks are free.
 * Besides these 14 where memory was refused. All leave everything as it was. */
uint32_t nova_replace(nova_fs *fs, uint64_t cpu, const uint8_t *path, size_t path_length, const uint8_t
                      *other, size_t other_length, uint64_t time);

/* Makes a file of this mode, of which the low 12 bits are kept, with this name in the directory of this
 * number. inode says the new number.
 * Statuses, the first that applies, with inode as before: 16 where the handle is closed, 13 where there is no
 * CPU of that number, 10 where the mount has faults, 6 where no path can say the name, 1 where no inode in
 * use has the directory's number and 3 where a file has it, 2 where an inode in use has the name, 8 where the
 * CPU's table has no unused slot, in version 1, 7 where too few blocks are free. Besides these 14 where
 * memory was refused. All leave everything as it was. */
uint32_t nova_create_inode(nova_fs *fs, uint64_t cpu, uint64_t directory, const uint8_t *name, size_t
                           name_length, uint32_t mode, uint64_t time, uint64_t *inode);

/* Makes a directory of this mode, of which the low 12 bits are kept, with this name in the directory of this
 * number. inode says the new number.
 * Statuses, the first that applies, with inode as before: 16 where the handle is closed, 13 where there is no
 * CPU of that number, 10 where the mount has faults, 6 where no path can say the name, 1 where no inode in
 * use has the directory's number and 3 where a file has it, 2 where an inode in use has the name, 8 where the
 * CPU's table has no unused slot, in version 1, 7 where too few blocks are free. Besides these 14 where
 * memory was refused. All leave everything as it was. */
uint32_t nova_mkdir_inode(nova_fs *fs, uint64_t cpu, uint64_t directory, const uint8_t *name, size_t
                          name_length, uint32_t mode, uint64_t time, uint64_t *inode);

/* Takes a name of a file out of the directory of this number, and with the last one the file.
 * Statuses, the first that applies: 16 where the handle is closed, 13 where there is no CPU of that number,
 * 10 where the mount has faults, 6 where no path can say the name, 1 where no inode in use has the
 * directory's number and 3 where a file has it, 1 where no inode in use has the name, 4 for a directory, 7
 * where too few blocks are free. Besides these 14 where memory was refused. All leave everything as it was. */
uint32_t nova_unlink_inode(nova_fs *fs, uint64_t cpu, uint64_t directory, const uint8_t *name, size_t
                           name_length, uint64_t time);

/* Takes a directory without names away, and its name in the directory of this number.
 * Statuses, the first that applies: 16 where the handle is closed, 13 where there is no CPU of that number,
 * 10 where the mount has faults, 6 where no path can say the name, 1 where no inode in use has the
 * directory's number and 3 where a file has it, 1 where no inode in use has the name, 3 for a file, 5 where
 * names are in it, 7 where too few blocks are free. Besides these 14 where memory was refused. All leave
 * everything as it was. */
uint32_t nova_rmdir_inode(nova_fs *fs, uint64_t cpu, uint64_t directory, const uint8_t *name, size_t
                          name_length, uint64_t time);

/* Gives the file of this number one name more, in the directory of this number.
 * Statuses, the first that applies: 16 where the handle is closed, 13 where there is no CPU of that number,
 * 10 where the mount has faults, 6 where no path can say the name, 1 where no inode in use has the
 * directory's number and 3 where a file has it, 1 where no inode in use has the file's number and 4 where a
 * directory has it, 2 where an inode in use has the name, 11 where the file has 1,000 links, 7 where too few
 * blocks are free. Besides these 14 where memory was refused. All leave everything as it was. */
uint32_t nova_link_inode(nova_fs *fs, uint64_t cpu, uint64_t inode, uint64_t directory, const uint8_t *name,
                         size_t name_length, uint64_t time);

/* Writes bytes into a file, from an offset on. A gap between the old end and the offset is zeros. No bytes
 * change nothing.
 * Statuses, the first that applies: 16 where the handle is closed, 13 where there is no CPU of that number,
 * 10 where the mount has faults, 6 where the text is no path, 1 or 3 for an inode on the way, 1 for the last
 * name, 4 for a directory, 9 where the bytes would end behind 1,073,741,824, 7 where too few blocks are free.
 * Besides these 14 where memory was refused. All leave everything as it was. */
uint32_t nova_write(nova_fs *fs, uint64_t cpu, const uint8_t *path, size_t path_length, uint64_t offset, const
                    uint8_t *bytes, size_t bytes_length, uint64_t time);

/* Sets the size of a file, in bytes, and its time: it is cut, or lengthened by zeros.
 * Statuses, the first that applies: 16 where the handle is closed, 13 where there is no CPU of that number,
 * 10 where the mount has faults, 6 where the text is no path, 1 or 3 for an inode on the way, 1 for the last
 * name, 4 for a directory, 9 above 1,073,741,824 bytes, 7 where too few blocks are free. Besides these 14
 * where memory was refused. All leave everything as it was. */
uint32_t nova_set_size(nova_fs *fs, uint64_t cpu, const uint8_t *path, size_t path_length, uint64_t size,
                       uint64_t time);

/* Sets the mode, the owner, the group and the time of an inode.
 * Statuses, the first that applies: 16 where the handle is closed, 13 where there is no CPU of that number,
 * 10 where the mount has faults, 6 where the text is no path, 1 or 3 for an inode on the way, 1 for the last
 * name, 7 where too few blocks are free. Besides these 14 where memory was refused. All leave everything as
 * it was. */
uint32_t nova_set_attr(nova_fs *fs, uint64_t cpu, const uint8_t *path, size_t path_length, uint32_t mode,
                       uint32_t owner, uint32_t group, uint64_t time);

/* Writes bytes into the file of this number, as nova_write does.
 * Statuses, the first that applies: 16 where the handle is closed, 13 where there is no CPU of that number,
 * 10 where the mount has faults, 1 where no inode in use has the number, 4 for a directory, 9 where the bytes
 * would end behind 1,073,741,824, 7 where too few blocks are free. Besides these 14 where memory was refused.
 * All leave everything as it was. */
uint32_t nova_write_inode(nova_fs *fs, uint64_t cpu, uint64_t inode, uint64_t offset, const uint8_t *bytes,
                          size_t bytes_length, uint64_t time);

/* Sets the size of the file of this number, as nova_set_size does.
 * Statuses, the first that applies: 16 where the handle is closed, 13 where there is no CPU of that number,
 * 10 where the mount has faults, 1 where no inode in use has the number, 4 for a directory, 9 above
 * 1,073,741,824 bytes, 7 where too few blocks are free. Besides these 14 where memory was refused. All leave
 * everything as it was. */
uint32_t nova_set_size_inode(nova_fs *fs, uint64_t cpu, uint64_t inode, uint64_t size, uint64_t time);

/* Sets the mode, the owner, the group and the time of the inode of this number.
 * Statuses, the first that applies: 16 where the handle is closed, 13 where there is no CPU of that number,
 * 10 where the mount has faults, 1 where no inode in use has the number, 7 where too few blocks are free.
 * Besides these 14 where memory was refused. All leave everything as it was. */
uint32_t nova_set_attr_inode(nova_fs *fs, uint64_t cpu, uint64_t inode, uint32_t mode, uint32_t owner,
                             uint32_t group, uint64_t time);

/* Frees the first page that an inode's log can do without. The tree stays.
 * Statuses, the first that applies: 16 where the handle is closed, 10 where the mount has faults, 6 where the
 * text is no path, 1 or 3 for an inode on the way, 1 for the last name. Besides these 14 where memory was
 * refused. All leave everything as it was. */
uint32_t nova_clean(nova_fs *fs, const uint8_t *path, size_t path_length, nova_cleaned *out);

#ifdef __cplusplus
}
#endif

#endif
