/* Makes a file system in memory, writes a file, reads it, and saves the image.
 *
 *     cc -I. example.c libnova_c.a liblibc_c.a -o example && ./example disk.img
 */
#include <stdio.h>
#include <string.h>

#include "nova.h"

enum { BLOCKS = 64 };

#define BYTES(text) (const uint8_t *)(text), strlen(text)

static uint8_t image[BLOCKS * 4096];

int main(int count, char **words)
{
    nova_fs fs = {0};
    uint8_t bytes[100];
    size_t done = 0;
    uint32_t status = nova_format(&fs, BLOCKS, 2, 1, 0);
    if (!status)
        status = nova_create(&fs, 0, BYTES("/hello"), 0644, 1);
    if (!status)
        status = nova_write(&fs, 0, BYTES("/hello"), 0, BYTES("hi there"), 2);
    if (!status)
        status = nova_read(&fs, BYTES("/hello"), 0, bytes, sizeof bytes, &done);
    if (!status)
        status = nova_save(&fs, image, sizeof image);
    nova_close(&fs);
    if (status) {
        fprintf(stderr, "refused with status %u\n", status);
        return 2;
    }
    printf("%.*s\n", (int)done, bytes);
    FILE *file = count > 1 ? fopen(words[1], "wb") : NULL;
    if (count > 1 && (!file || fwrite(image, sizeof image, 1, file) != 1 || fclose(file))) {
        perror(words[1]);
        return 2;
    }
    return 0;
}
