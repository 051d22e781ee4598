/* How the kernel's requests are waited for. */
#ifndef SERVING_H
#define SERVING_H

struct fuse_session;

/* Serves the requests of a session, one after another, until it is over. */
void serve_requests(struct fuse_session *session);

#endif
