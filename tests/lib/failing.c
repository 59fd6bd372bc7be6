/* Makes one call of a finished service's sockets fail, as a system may that has no more descriptors, memory or room.
   CALL is the call: socket, bind, connect, accept4, setsockopt, epoll_ctl, recv_udp, recv_tcp, send_udp or send_tcp. Calls count
   from the first datagram that came to the datagram "end". The ATth of them fails with the error of number ERROR; if AT is 0, none
   does. On the file descriptor TELL it writes a line "called N" at the end, the number of these calls. No program is linked with it. */
#define _GNU_SOURCE
#include <errno.h>
#include <string.h>
#include <sys/epoll.h>
#include <sys/socket.h>

#include "told.h"

static const char *call = "";
static long at, error;
static unsigned long has_begun, has_ended, called;

__attribute__((constructor)) static void start(void) {
    call = getenv("CALL") ? getenv("CALL") : "";
    at = number("AT");
    error = number("ERROR");
}

static void end(void) {
    char text[64];
    tell(text, snprintf(text, sizeof text, "called %lu\n", called));
}

/* Whether this call is the one that fails. */
static int fails(const char *name) {
    if (strcmp(name, call) != 0 || !__atomic_load_n(&has_begun, __ATOMIC_RELAXED) || __atomic_load_n(&has_ended, __ATOMIC_RELAXED)) return 0;
    if ((long)__atomic_add_fetch(&called, 1, __ATOMIC_RELAXED) != at) return 0;
    errno = error;
    return 1;
}

static int is_connection(int file) {
    int kind = 0;
    socklen_t len = sizeof kind;
    return syscall(SYS_getsockopt, file, SOL_SOCKET, SO_TYPE, &kind, &len) == 0 && kind == SOCK_STREAM;
}

ssize_t recvfrom(int file, void *room, size_t len, int flags, struct sockaddr *from, socklen_t *size) {
    int is_stream = is_connection(file);
    if (fails(is_stream ? "recv_tcp" : "recv_udp")) return -1;
    ssize_t moved = syscall(SYS_recvfrom, file, room, len, flags, from, size);
    if (!is_stream && moved == 3 && memcmp(room, "end", 3) == 0)
        __atomic_store_n(&has_ended, 1, __ATOMIC_RELAXED);
    else if (!is_stream && moved > 0)
        __atomic_store_n(&has_begun, 1, __ATOMIC_RELAXED);
    return moved;
}
ssize_t recv(int file, void *room, size_t len, int flags) { return recvfrom(file, room, len, flags, NULL, NULL); }

ssize_t sendto(int file, const void *text, size_t len, int flags, const struct sockaddr *to, socklen_t size) {
    if (fails(is_connection(file) ? "send_tcp" : "send_udp")) return -1;
    return syscall(SYS_sendto, file, text, len, flags, to, size);
}
ssize_t send(int file, const void *text, size_t len, int flags) { return sendto(file, text, len, flags, NULL, 0); }

ssize_t sendmsg(int file, const struct msghdr *message, int flags) {
    if (fails(is_connection(file) ? "send_tcp" : "send_udp")) return -1;
    return syscall(SYS_sendmsg, file, message, flags);
}

int socket(int family, int kind, int protocol) {
    return fails("socket") ? -1 : (int)syscall(SYS_socket, family, kind, protocol);
}

int bind(int file, const struct sockaddr *to, socklen_t len) {
    return fails("bind") ? -1 : (int)syscall(SYS_bind, file, to, len);
}

int connect(int file, const struct sockaddr *to, socklen_t len) {
    return fails("connect") ? -1 : (int)syscall(SYS_connect, file, to, len);
}

int accept4(int file, struct sockaddr *from, socklen_t *len, int flags) {
    return fails("accept4") ? -1 : (int)syscall(SYS_accept4, file, from, len, flags);
}

int setsockopt(int file, int level, int name, const void *value, socklen_t len) {
    return fails("setsockopt") ? -1 : (int)syscall(SYS_setsockopt, file, level, name, value, len);
}

int epoll_ctl(int set, int how, int file, struct epoll_event *event) {
    return fails("epoll_ctl") ? -1 : (int)syscall(SYS_epoll_ctl, set, how, file, event);
}
