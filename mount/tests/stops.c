/* Stops each call of the library at the machine's stores to words that are lent to it, and looks at what is found then.
 *
 * The words' pages are read-only while a call runs. Each store to them faults, is counted, and is let pass by one step of the
 * processor, or the process ends there. What it leaves is opened again: there may be no fault, and the report has to be that of
 * before or that of after the call. Of many stores, those of a page's bytes, only some are tried.
 *
 *     stops        prints a line for each call, and closes with 'N passed, M failed'; it ends with 1 on a failure
 */
#define _GNU_SOURCE
#include <signal.h>
#include <stdbool.h>
#include <stdio.h>
#include <stdlib.h>
#include <string.h>
#include <sys/mman.h>
#include <sys/wait.h>
#include <ucontext.h>
#include <unistd.h>

#include "nova.h"

enum { BLOCKS = 128, LENGTH = BLOCKS * 4096, TEXT = 1 << 16, TRAP_FLAG = 0x100 };
/* How a child ends. */
enum { STOPPED = 0, WENT_ON = 1, REFUSED = 7, ELSEWHERE = 8, BROKEN = 9 };

static uint8_t *words, *copy, *base;
static nova_fs fs;
static long *stored; /* how many stores there were: the parent sees it too */
static long stop_at;
static uint8_t bytes[20000];

#define PATH(path) (const uint8_t *)(path), strlen(path)

static void must(bool holds, const char *what)
{
    if (!holds) {
        printf("%s\n", what);
        fflush(stdout);
        _exit(BROKEN);
    }
}

static uint32_t open_over(uint8_t *at)
{
    fs = (nova_fs){0};
    return nova_map(&fs, (nova_image){(uint64_t *)(void *)at, LENGTH / 8});
}

static void on_fault(int signal, siginfo_t *info, void *context)
{
    (void)signal;
    uint8_t *at = info->si_addr;
    if (at < words || at >= words + LENGTH)
        _exit(ELSEWHERE);
    if ((*stored)++ == stop_at)
        _exit(STOPPED);
    mprotect(words, LENGTH, PROT_READ | PROT_WRITE);
    ((ucontext_t *)context)->uc_mcontext.gregs[REG_EFL] |= TRAP_FLAG;
}

static void on_step(int signal, siginfo_t *info, void *context)
{
    (void)signal, (void)info;
    mprotect(words, LENGTH, PROT_READ);
    ((ucontext_t *)context)->uc_mcontext.gregs[REG_EFL] &= ~(long long)TRAP_FLAG;
}

static uint32_t create(void) { return nova_create(&fs, 0, PATH("/d/new"), 0644, 7); }
static uint32_t make_directory(void) { return nova_mkdir(&fs, 1, PATH("/d/newdir"), 0755, 7); }
static uint32_t write_some(void) { return nova_write(&fs, 0, PATH("/d/a"), 100, bytes, 50, 7); }
static uint32_t write_more(void) { return nova_write(&fs, 0, PATH("/d/a"), 3000, bytes, 15000, 7); }
static uint32_t cut(void) { return nova_set_size(&fs, 0, PATH("/d/a"), 10, 7); }
static uint32_t lengthen(void) { return nova_set_size(&fs, 0, PATH("/d/a"), 30000, 7); }
static uint32_t set_attr(void) { return nova_set_attr(&fs, 0, PATH("/d/a"), 0600, 1, 2, 7); }
static uint32_t make_link(void) { return nova_link(&fs, 0, PATH("/d/a"), PATH("/e/other"), 7); }
static uint32_t unlink_last(void) { return nova_unlink(&fs, 0, PATH("/d/a"), 7); }
static uint32_t unlink_one(void) { return nova_unlink(&fs, 0, PATH("/d/b2"), 7); }
static uint32_t remove_directory(void) { return nova_rmdir(&fs, 0, PATH("/f"), 7); }
static uint32_t rename_within(void) { return nova_rename(&fs, 0, PATH("/d/a"), PATH("/d/c"), 7); }
static uint32_t rename_across(void) { return nova_rename(&fs, 0, PATH("/d/a"), PATH("/e/c"), 7); }
static uint32_t rename_directory(void) { return nova_rename(&fs, 0, PATH("/e"), PATH("/d/e"), 7); }
static uint32_t replace_last(void) { return nova_replace(&fs, 0, PATH("/d/a"), PATH("/d/long"), 7); }
static uint32_t replace_one(void) { return nova_replace(&fs, 0, PATH("/d/a"), PATH("/d/b"), 7); }
static uint32_t replace_last_across(void) { return nova_replace(&fs, 0, PATH("/g"), PATH("/d/a"), 7); }
static uint32_t replace_one_across(void) { return nova_replace(&fs, 0, PATH("/g"), PATH("/d/b"), 7); }
static uint32_t replace_directory(void) { return nova_replace(&fs, 0, PATH("/d"), PATH("/f"), 7); }

static uint32_t clean(void)
{
    nova_cleaned cleaned;
    uint32_t status = nova_clean(&fs, PATH("/d/long"), &cleaned);
    return status ? status : !cleaned.has_freed;
}

static const struct {
    const char *name;
    uint32_t (*make)(void);
} calls[] = {
    {"create", create}, {"mkdir", make_directory}, {"write, 50 bytes", write_some}, {"write, 15,000 bytes", write_more},
    {"set_size, less", cut}, {"set_size, more", lengthen}, {"set_attr", set_attr}, {"link", make_link},
    {"unlink, last name", unlink_last}, {"unlink", unlink_one}, {"rmdir", remove_directory}, {"rename", rename_within},
    {"rename across", rename_across}, {"rename of a directory", rename_directory}, {"replace, last name", replace_last},
    {"replace", replace_one}, {"replace across, last name", replace_last_across}, {"replace across", replace_one_across},
    {"replace of a directory", replace_directory}, {"clean", clean},
};

/* The report of these words, which are left as they are. */
static void report(const uint8_t *at, char *text)
{
    size_t used = 0;
    nova_space space;
    memset(text, 0, TEXT);
    memcpy(copy, at, LENGTH);
    must(!open_over(copy), "refused");
    must(!nova_space_of(&fs, &space) && !space.faults, "FAULTS");
    must(!nova_report(&fs, (uint8_t *)text, TEXT, &used), "no report");
    nova_close(&fs);
}

/* A small tree, in `base`. */
static void make_base(void)
{
    must(!nova_format(&fs, BLOCKS, 2, 1, 0), "format");
    must(!nova_mkdir(&fs, 0, PATH("/d"), 0755, 1) && !nova_mkdir(&fs, 0, PATH("/e"), 0755, 1) && !nova_mkdir(&fs, 1, PATH("/f"), 0755, 1), "mkdir");
    must(!nova_create(&fs, 0, PATH("/d/a"), 0644, 2) && !nova_write(&fs, 0, PATH("/d/a"), 0, bytes, 9000, 3), "create");
    must(!nova_create(&fs, 1, PATH("/d/b"), 0644, 2) && !nova_link(&fs, 0, PATH("/d/b"), PATH("/d/b2"), 3), "link");
    must(!nova_create(&fs, 1, PATH("/d/long"), 0644, 2) && !nova_create(&fs, 0, PATH("/g"), 0644, 2), "create");
    for (int k = 0; k < 300; k++)
        must(!nova_set_attr(&fs, 0, PATH("/d/long"), 0600, 1, 2, 4), "set_attr");
    must(!nova_save(&fs, base, LENGTH), "save");
    nova_close(&fs);
}

/* Makes a call in a process of its own, which ends at store k. */
static int run(int call, long k)
{
    memcpy(words, base, LENGTH);
    pid_t child = fork();
    if (!child) {
        must(!open_over(words), "open");
        struct sigaction fault = {.sa_sigaction = on_fault, .sa_flags = SA_SIGINFO};
        struct sigaction step = {.sa_sigaction = on_step, .sa_flags = SA_SIGINFO};
        sigaction(SIGSEGV, &fault, NULL);
        sigaction(SIGTRAP, &step, NULL);
        stop_at = k;
        *stored = 0;
        mprotect(words, LENGTH, PROT_READ);
        _exit(calls[call].make() ? REFUSED : WENT_ON);
    }
    int status;
    waitpid(child, &status, 0);
    must(WIFEXITED(status), "the child was killed");
    return WEXITSTATUS(status);
}

/* Stops a call at its stores: how often what is found is neither as before nor as after. */
static long stops_of(int call, const char *before, long *runs)
{
    static char after[TEXT], found[TEXT];
    long as_before = 0, as_after = 0, neither = 0;
    must(run(call, -1) == WENT_ON, "the call was refused");
    report(words, after);
    long last = *stored;
    for (long k = 0; k < last; k += k < 60 || k > last - 120 ? 1 : 1 + last / 150) {
        must(run(call, k) == STOPPED, "the call wasn't stopped");
        report(words, found);
        if (!strcmp(found, before))
            as_before++;
        else if (!strcmp(found, after))
            as_after++;
        else
            neither++;
    }
    *runs += as_before + as_after + neither;
    printf("%-22s %5ld stores: as before %5ld, as after %4ld, neither %ld\n", calls[call].name, last, as_before, as_after, neither);
    return neither;
}

int main(void)
{
    static char before[TEXT];
    words = mmap(NULL, LENGTH, PROT_READ | PROT_WRITE, MAP_SHARED | MAP_ANONYMOUS, -1, 0);
    stored = mmap(NULL, 4096, PROT_READ | PROT_WRITE, MAP_SHARED | MAP_ANONYMOUS, -1, 0);
    copy = aligned_alloc(4096, LENGTH);
    base = malloc(LENGTH);
    memset(bytes, 'x', sizeof bytes);
    make_base();
    report(base, before);
    long runs = 0, failed = 0;
    for (size_t call = 0; call < sizeof calls / sizeof *calls; call++)
        failed += stops_of((int)call, before, &runs);
    printf("%ld passed, %ld failed\n", runs - failed, failed);
    return failed != 0;
}
