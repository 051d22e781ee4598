/* Which parts of an image's private pages were stored to since they were saved.
 *
 * An image is saved into two files in turn, the image and a spare that takes its place: so each part says which of the two lacks
 * what was stored to it. The parts that neither lacks are protected, and the first store to one raises a SIGSEGV, which is caught.
 */
#ifndef CHANGES_H
#define CHANGES_H

#include <stdbool.h>
#include <stddef.h>
#include <stdint.h>

/* Watches pages, once in a process: they are protected from here on. errno says why it couldn't. */
bool watch_changes(uint8_t *pages, size_t length);

/* The first run of parts from `*at` on that the spare lacks: its length in bytes, and `*at` is where it begins; or 0. */
size_t spare_lacks(size_t *at);

/* The spare has all, and takes the image's place: the file that was the image is the spare now. */
void spare_is_image(void);

#endif
