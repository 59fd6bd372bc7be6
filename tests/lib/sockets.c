/* Disturbs sockets: preloaded into a finished service, it makes their calls fail or move less than was asked, as a system may.
   SIGNALS=1: on each socket every other call that receives, accepts or waits, or that sends on a connection, fails with EINTR.
   PIECE=N: on a connection a call moves N octets at most.
   HOLD=N: a connection that the program made takes N octets and then none (EAGAIN), until it has refused a call while there were octets to read.
   At the end it writes a line "interrupted N, cut N, held N", the number of each, on the file descriptor TELL. No program is
   linked with it. */
#define _GNU_SOURCE
#include <errno.h>
#include <poll.h>
#include <sys/epoll.h>
#include <sys/socket.h>

#include "told.h"

enum { MOST = 1 << 16 };

static long signals, piece, hold;
static unsigned long interrupted, cut, held;
/* By descriptor: whether its last call was interrupted, whether the program connected it, how many octets it took, and whether
   it refused some when others had come. */
static unsigned char was_interrupted[MOST], is_made[MOST], has_refused[MOST];
static size_t taken[MOST];

__attribute__((constructor)) static void start(void) {
    signals = number("SIGNALS");
    piece = number("PIECE");
    hold = number("HOLD");
}

static void end(void) {
    char text[128];
    tell(text, snprintf(text, sizeof text, "interrupted %lu, cut %lu, held %lu\n", interrupted, cut, held));
}

static void count(unsigned long *counter) { __atomic_fetch_add(counter, 1, __ATOMIC_RELAXED); }

static int is_connection(int file) {
    int kind = 0;
    socklen_t len = sizeof kind;
    return file >= 0 && file < MOST && getsockopt(file, SOL_SOCKET, SO_TYPE, &kind, &len) == 0 && kind == SOCK_STREAM;
}

/* Whether a signal ends this call: it is then made again, and moves something. */
static int is_interrupted(int file) {
    if (!signals || file < 0 || file >= MOST) return 0;
    if (__atomic_fetch_xor(&was_interrupted[file], 1, __ATOMIC_RELAXED)) return 0;
    count(&interrupted);
    errno = EINTR;
    return 1;
}

static size_t at_most(size_t len, size_t most) {
    if (len <= most) return len;
    count(&cut);
    return most;
}

/* Whether a connection takes no octets now. */
static int is_held(int file) {
    if (!hold || !is_made[file] || taken[file] < (size_t)hold || has_refused[file]) return 0;
    struct pollfd asked = {.fd = file, .events = POLLIN};
    has_refused[file] = syscall(SYS_poll, &asked, 1, 0) > 0;
    count(&held);
    errno = EAGAIN;
    return 1;
}

ssize_t recvfrom(int file, void *room, size_t len, int flags, struct sockaddr *from, socklen_t *size) {
    if (is_interrupted(file)) return -1;
    if (piece && is_connection(file)) len = at_most(len, piece);
    return syscall(SYS_recvfrom, file, room, len, flags, from, size);
}
ssize_t recv(int file, void *room, size_t len, int flags) { return recvfrom(file, room, len, flags, NULL, NULL); }

ssize_t send(int file, const void *text, size_t len, int flags) {
    if (!is_connection(file)) return syscall(SYS_sendto, file, text, len, flags, NULL, 0);
    if (is_interrupted(file) || is_held(file)) return -1;
    if (piece) len = at_most(len, piece);
    if (hold && is_made[file] && !has_refused[file]) len = at_most(len, hold - taken[file]);
    ssize_t moved = syscall(SYS_sendto, file, text, len, flags, NULL, 0);
    if (moved > 0) taken[file] += moved;
    return moved;
}

int connect(int file, const struct sockaddr *to, socklen_t len) {
    if (is_connection(file)) {
        is_made[file] = 1;
        has_refused[file] = 0;
        taken[file] = 0;
    }
    return syscall(SYS_connect, file, to, len);
}

int accept4(int file, struct sockaddr *from, socklen_t *len, int flags) {
    if (is_interrupted(file)) return -1;
    int made = syscall(SYS_accept4, file, from, len, flags);
    if (made >= 0 && made < MOST) is_made[made] = 0;
    return made;
}

int epoll_wait(int file, struct epoll_event *events, int most, int wait) {
    return is_interrupted(file) ? -1 : (int)syscall(SYS_epoll_wait, file, events, most, wait);
}
