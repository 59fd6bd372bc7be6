// A library in front of the C library. The clock of a program that loads it runs FASTER times as fast from its start on, and each wait that
// has a limit is as much shorter. So an hour of the program passes in a part of one. The time of a processor is told as it is.
#define _GNU_SOURCE
#include <dlfcn.h>
#include <errno.h>
#include <poll.h>
#include <stdlib.h>
#include <sys/epoll.h>
#include <sys/syscall.h>
#include <time.h>
#include <unistd.h>

// The clocks that run faster have numbers below this one, but for those of a processor.
enum { CLOCKS = CLOCK_BOOTTIME + 1, SECOND = 1000000000 };

static int (*read_clock)(clockid_t, struct timespec *);
static long long faster = 1, start[CLOCKS];

static int runs_faster(clockid_t clock)
{
    return clock >= 0 && clock < CLOCKS && clock != CLOCK_PROCESS_CPUTIME_ID && clock != CLOCK_THREAD_CPUTIME_ID;
}

static long long in_nanoseconds(const struct timespec *time)
{
    return time->tv_sec * (long long)SECOND + time->tv_nsec;
}

static struct timespec in_timespec(long long nanoseconds)
{
    return (struct timespec){.tv_sec = nanoseconds / SECOND, .tv_nsec = nanoseconds % SECOND};
}

__attribute__((constructor)) static void begin(void)
{
    read_clock = (int (*)(clockid_t, struct timespec *))dlsym(RTLD_NEXT, "clock_gettime");
    const char *text = getenv("FASTER");
    faster = text ? atoll(text) : 1;
    for (clockid_t clock = 0; clock < CLOCKS; clock++) {
        struct timespec time;
        if (runs_faster(clock) && read_clock(clock, &time) == 0)
            start[clock] = in_nanoseconds(&time);
    }
}

int clock_gettime(clockid_t clock, struct timespec *time)
{
    int status = read_clock(clock, time);
    if (status == 0 && runs_faster(clock))
        *time = in_timespec(start[clock] + (in_nanoseconds(time) - start[clock]) * faster);
    return status;
}

int clock_nanosleep(clockid_t clock, int flags, const struct timespec *asked, struct timespec *left)
{
    long long wait = in_nanoseconds(asked);
    struct timespec now;
    if (flags & TIMER_ABSTIME && clock_gettime(clock, &now) == 0)
        wait -= in_nanoseconds(&now);
    if (wait <= 0)
        return 0;
    struct timespec shorter = in_timespec(wait / faster);
    return syscall(SYS_clock_nanosleep, clock, 0, &shorter, left) ? errno : 0;
}

int nanosleep(const struct timespec *asked, struct timespec *left)
{
    struct timespec shorter = in_timespec(in_nanoseconds(asked) / faster);
    return syscall(SYS_nanosleep, &shorter, left);
}

static int shorter_wait(int milliseconds)
{
    return milliseconds > 0 ? (milliseconds + faster - 1) / faster : milliseconds;
}

int epoll_wait(int set, struct epoll_event *events, int most, int wait)
{
    return syscall(SYS_epoll_wait, set, events, most, shorter_wait(wait));
}

int poll(struct pollfd *asked, nfds_t count, int wait)
{
    return syscall(SYS_poll, asked, count, shorter_wait(wait));
}

int ppoll(struct pollfd *asked, nfds_t count, const struct timespec *wait, const sigset_t *signals)
{
    struct timespec shorter = wait ? in_timespec(in_nanoseconds(wait) / faster) : (struct timespec){0};
    return syscall(SYS_ppoll, asked, count, wait ? &shorter : NULL, signals, sizeof(unsigned long));
}
