/* How the kernel's requests are waited for.
 *
 * To be woken takes longer than most calls. So while requests follow each other closely, the next one is waited for awake, for a
 * short time. Where another program wants the processor meanwhile, that is left off for a while.
 */
#include "operations.h"

#include <errno.h>
#include <fcntl.h>
#include <poll.h>
#include <sched.h>
#include <stdlib.h>

#include "mounted.h"
#include "serving.h"

/* In nanoseconds. */
enum { SHORT = 50000, A_WHILE = 100000000 };

/* When the last request was served, whether it came shortly after the one before, and when waiting awake is tried again. */
static uint64_t served_at, tried_from;
static bool is_busy;

static void wait_for_request(int file)
{
    struct pollfd at = {.fd = file, .events = POLLIN};
    uint64_t begun = now();
    if (!is_busy || begun - served_at > SHORT || begun < tried_from) {
        poll(&at, 1, -1);
        return;
    }
    sched_yield();
    if (now() - begun > SHORT)
        tried_from = begun + A_WHILE;
}

void serve_requests(struct fuse_session *session)
{
    struct fuse_buf request = {.mem = NULL};
    int file = fuse_session_fd(session);
    fcntl(file, F_SETFL, fcntl(file, F_GETFL) | O_NONBLOCK);
    while (!fuse_session_exited(session)) {
        int length = fuse_session_receive_buf(session, &request);
        if (length == -EAGAIN) {
            wait_for_request(file);
        } else if (length > 0) {
            is_busy = now() - served_at < SHORT;
            fuse_session_process_buf(session, &request);
            served_at = now();
        } else if (length != -EINTR) {
            break;
        }
    }
    free(request.mem);
}
