/* Which parts of an image's private pages were stored to since they were saved. */
#define _GNU_SOURCE
#include "changes.h"

#include <signal.h>
#include <stdlib.h>
#include <string.h>
#include <sys/mman.h>

/* Parts that are protected and parts that aren't are mappings of their own, of which a process may have some 65,000. */
enum { BLOCK = 4096, MOST_PARTS = 16384 };

enum { IMAGE_LACKS = 1, SPARE_LACKS = 2, BOTH_LACK = IMAGE_LACKS | SPARE_LACKS };

static struct {
    uint8_t *pages;
    size_t length;
    size_t part;    /* in bytes: a power of two */
    size_t parts;   /* how many there are */
    uint8_t *lacks; /* of each part, who lacks what was stored to it */
} watched;

static bool allow(size_t first, size_t end, int what)
{
    size_t at = first * watched.part, stop = end * watched.part;
    stop = stop < watched.length ? stop : watched.length;
    return !mprotect(watched.pages + at, stop - at, what);
}

/* Lets a part take stores; all of them, where the system has no more mappings. */
static bool open_part(size_t part)
{
    if (allow(part, part + 1, PROT_READ | PROT_WRITE)) {
        watched.lacks[part] = BOTH_LACK;
        return true;
    }
    memset(watched.lacks, BOTH_LACK, watched.parts);
    return allow(0, watched.parts, PROT_READ | PROT_WRITE);
}

static void on_store(int number, siginfo_t *info, void *context)
{
    (void)context;
    uintptr_t at = (uintptr_t)info->si_addr - (uintptr_t)watched.pages;
    /* Any other fault, or one that can't be helped, ends the program as it would without this. */
    if (info->si_code != SEGV_ACCERR || at >= watched.length || !open_part(at / watched.part))
        signal(number, SIG_DFL);
}

bool watch_changes(uint8_t *pages, size_t length)
{
    struct sigaction action = {.sa_sigaction = on_store, .sa_flags = SA_SIGINFO};
    watched.part = BLOCK;
    while (length > watched.part * MOST_PARTS)
        watched.part *= 2;
    watched.parts = (length + watched.part - 1) / watched.part;
    watched.lacks = calloc(watched.parts, 1);
    watched.pages = pages;
    watched.length = length;
    return watched.lacks && allow(0, watched.parts, PROT_READ) && !sigaction(SIGSEGV, &action, NULL);
}

/* The end of the parts from `first` on that have a flag, or haven't. */
static size_t run_end(size_t first, int flag, bool have)
{
    while (first < watched.parts && !!(watched.lacks[first] & flag) == have)
        first++;
    return first;
}

size_t spare_lacks(size_t *at)
{
    size_t first = run_end(*at / watched.part, SPARE_LACKS, false);
    size_t end = run_end(first, SPARE_LACKS, true) * watched.part;
    *at = first * watched.part;
    if (first == watched.parts)
        return 0;
    return (end < watched.length ? end : watched.length) - *at;
}

/* What only the spare lacked, nobody lacks now, and what the image lacked, the spare does. A part that can't be protected again
 * stays lacked by both, so that it is always saved. */
void spare_is_image(void)
{
    for (size_t first = 0, end; first < watched.parts; first = end) {
        bool was_stored = watched.lacks[first] & IMAGE_LACKS;
        end = run_end(first, IMAGE_LACKS, was_stored);
        if (!was_stored)
            memset(watched.lacks + first, 0, end - first);
        else if (allow(first, end, PROT_READ))
            memset(watched.lacks + first, SPARE_LACKS, end - first);
    }
}
