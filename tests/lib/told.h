/* What the libraries here tell, and when. Each defines `end`, which runs when the program ends, and `tell` writes a text on the file
   descriptor TELL, if there is one. */
#include <stdio.h>
#include <stdlib.h>
#include <sys/syscall.h>
#include <unistd.h>

/* A number of the environment, or 0. */
static inline long number(const char *name) {
    const char *text = getenv(name);
    return text ? atol(text) : 0;
}

static inline void tell(const char *text, int len) {
    if (getenv("TELL")) syscall(SYS_write, (int)number("TELL"), text, (size_t)len);
}

__attribute__((destructor)) static void end(void);

/* A program with threads ends by this call, which runs no destructor. */
__attribute__((noreturn)) void _exit(int status) {
    end();
    for (;;) syscall(SYS_exit_group, status);
}
