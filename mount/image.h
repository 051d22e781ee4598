/* The image of a mount: its file, the lock on it, its pages, and how it is saved. */
#ifndef IMAGE_H
#define IMAGE_H

#include <stdbool.h>
#include <stddef.h>
#include <stdint.h>

#include "nova.h"

enum { IMAGE_BLOCK = 4096 };

/* The only one of this process. */
extern struct image {
    const char *path;
    int file;
    size_t length;
    uint8_t *pages;  /* where they are mapped */
    bool is_shared;  /* stores to the pages go to the file */
    bool is_changed; /* since it was saved */
} image;

/* Says on standard error what is wrong with the image: false. */
bool says(const char *what);

/* Opens the image's file, whose path is whole, and locks it, so that no other mount has it. It says what was wrong. */
bool lock_image(const char *path);

/* Recovers the image into a closed handle: over the file's pages, or over private copies of them. One with faults is never
 * changed. Answers a status of nova_open, or NOVA_NO_SPACE where the disk is full. */
uint32_t open_image(nova_fs *fs, bool is_mapped);

/* Makes what was written durable: 0, or an errno. Private pages are written to a spare file beside the image,
 * which then takes its place: so the image always is one that was saved. */
int save_image(void);

/* Takes the spare file away. */
void close_image(void);

#endif
