/* Disturbs reads of standard input and writes to standard output: preloaded into a finished program, it makes every third
   call fail with EINTR and the one after it move one octet (INTERRUPT=1). At the end it writes a line "reads N" on the file
   descriptor TELL, the number of reads of standard input. No program is linked with it. */
#define _GNU_SOURCE
#include <errno.h>

#include "told.h"

static int disturbs;
static unsigned long reads, moves;

__attribute__((constructor)) static void start(void) {
    disturbs = getenv("INTERRUPT") != NULL;
}

static void end(void) {
    char text[64];
    tell(text, snprintf(text, sizeof text, "reads %lu\n", reads));
}

/* How many octets a call may move, or -1 if a signal interrupts it. */
static ssize_t may_move(size_t len) {
    if (!disturbs) return (ssize_t)len;
    moves++;
    if (moves % 3 == 1) return -1;
    return moves % 3 == 2 && len > 1 ? 1 : (ssize_t)len;
}

static ssize_t interrupted(void) {
    errno = EINTR;
    return -1;
}

ssize_t read(int file, void *room, size_t len) {
    if (file != STDIN_FILENO) return syscall(SYS_read, file, room, len);
    reads++;
    ssize_t most = may_move(len);
    return most < 0 ? interrupted() : syscall(SYS_read, file, room, most);
}
ssize_t write(int file, const void *text, size_t len) {
    if (file != STDOUT_FILENO) return syscall(SYS_write, file, text, len);
    ssize_t most = may_move(len);
    return most < 0 ? interrupted() : syscall(SYS_write, file, text, most);
}
ssize_t __read(int file, void *room, size_t len) { return read(file, room, len); }
ssize_t __write(int file, const void *text, size_t len) { return write(file, text, len); }
