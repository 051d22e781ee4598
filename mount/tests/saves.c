/* Stores at random to the private pages of an image and saves them, in a process that is killed in the midst: the image then is
 * what it was at the last save that ended, or at the one that was under way.
 *
 *     saves IMAGE BLOCKS KILLS SEED        closes with 'N passed, M failed'; it ends with 1 on a failure
 *
 * In place of the library it has three calls that do nothing, so that only image.c and changes.c are tried.
 */
#define _GNU_SOURCE
#include <fcntl.h>
#include <signal.h>
#include <stdio.h>
#include <stdlib.h>
#include <string.h>
#include <sys/wait.h>
#include <unistd.h>

#include "image.h"

enum { STORES = 60, MOST_MILLISECONDS = 60 };

uint32_t nova_map(nova_fs *fs, nova_image words)
{
    (void)words;
    fs->is_open = 1;
    return NOVA_DONE;
}

uint32_t nova_close(nova_fs *fs)
{
    fs->is_open = 0;
    return NOVA_DONE;
}

uint32_t nova_space_of(nova_fs *fs, nova_space *out)
{
    (void)fs;
    memset(out, 0, sizeof *out);
    return NOVA_DONE;
}

static void must(bool holds, const char *what)
{
    if (!holds) {
        fprintf(stderr, "saves: %s\n", what);
        exit(2);
    }
}

/* The stores in front of save `number`: words here and there, and now and then a long run. */
static void store(uint8_t *pages, size_t length, unsigned long number)
{
    struct random_data state = {0};
    char room[64];
    int32_t at, value;
    initstate_r((unsigned)number, room, sizeof room, &state);
    random_r(&state, &value);
    for (int count = value % STORES; count >= 0; count--) {
        random_r(&state, &at);
        random_r(&state, &value);
        memcpy(pages + (size_t)at % (length / 8) * 8, &value, sizeof value);
    }
    if (value % 5 == 0)
        memset(pages + (size_t)at % (length / 2), value, (size_t)value % (length / 4));
}

/* Opens the image, and stores and saves until it is killed. The number of each save that ended goes into a pipe. */
static void save_on(const char *path, unsigned long number, int pipe)
{
    nova_fs fs = {0};
    must(lock_image(path) && !open_image(&fs, false), "the image isn't opened");
    for (;; number++) {
        store(image.pages, image.length, number);
        image.is_changed = true;
        must(!save_image(), "it isn't saved");
        must(write(pipe, &number, sizeof number) == sizeof number, "pipe");
    }
}

/* The last save that a killed process ended, or the one before its first. */
static unsigned long killed_at(const char *path, unsigned long number)
{
    int ends[2], status;
    unsigned long ended;
    must(!pipe(ends), "pipe");
    pid_t child = fork();
    if (!child)
        save_on(path, number, ends[1]);
    close(ends[1]);
    usleep((useconds_t)(rand() % (MOST_MILLISECONDS * 1000)));
    kill(child, SIGKILL);
    waitpid(child, &status, 0);
    must(WIFSIGNALED(status), "it ended by itself");
    number--;
    while (read(ends[0], &ended, sizeof ended) == sizeof ended)
        number = ended;
    close(ends[0]);
    return number;
}

static bool has(const char *path, const uint8_t *wanted, uint8_t *found, size_t length)
{
    int file = open(path, O_RDONLY);
    bool is_so = file >= 0 && read(file, found, length) == (ssize_t)length && !memcmp(found, wanted, length);
    close(file);
    return is_so;
}

int main(int count, char **words)
{
    if (count != 5)
        return 2;
    size_t length = (size_t)atol(words[2]) * IMAGE_BLOCK;
    long kills = atol(words[3]), passed = 0;
    uint8_t *wanted = calloc(1, length), *found = malloc(length);
    must(wanted && found, "memory");
    char *path = realpath(words[1], NULL);
    must(path && !truncate(path, 0) && !truncate(path, (off_t)length), "there is no such file");
    srand((unsigned)atoi(words[4]));
    unsigned long saved = 0;
    for (; passed < kills; passed++) {
        unsigned long ended = killed_at(path, saved + 1);
        while (saved < ended)
            store(wanted, length, ++saved);
        if (has(path, wanted, found, length))
            continue;
        store(wanted, length, ++saved);
        if (!has(path, wanted, found, length))
            break;
    }
    free(wanted);
    free(found);
    free(path);
    printf("%lu saves\n%ld passed, %d failed\n", saved, passed, passed < kills);
    return passed < kills;
}
