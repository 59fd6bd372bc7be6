// late PORT MILLISECONDS [TTL]: a name server that answers each question for an address after that time, whatever its name is.
// The address may be cached for TTL seconds, else for a day. A datagram of digits, fewer than a query has octets, sets a common end: what
// is asked for in the seconds of that number may be cached until they are over, counted from the datagram on.
#define _GNU_SOURCE
#include <arpa/inet.h>
#include <netinet/in.h>
#include <poll.h>
#include <stdio.h>
#include <stdlib.h>
#include <string.h>
#include <sys/socket.h>
#include <time.h>

enum { ROOM = 65536, LONGEST = 512 };

// Replies that wait, in the order in which they are sent: all wait equally long.
static struct {
    double when;
    struct sockaddr_in peer;
    int length;
    unsigned char octets[LONGEST + 16];
} waiting[ROOM];

static double now(void)
{
    struct timespec time;
    clock_gettime(CLOCK_MONOTONIC, &time);
    return time.tv_sec + time.tv_nsec * 1e-9;
}

// Makes a query the reply to it: its question, and one address. Returns the length of the reply, or 0 if it is no query.
static int reply(unsigned char *octets, int length, unsigned ttl)
{
    int end = 12;
    while (end < length && octets[end])
        end += octets[end] + 1;
    end += 5;
    if (length < 17 || end > length)
        return 0;
    const unsigned char record[16] = {0xC0, 12, 0, 1, 0, 1, ttl >> 24, ttl >> 16, ttl >> 8, ttl, 0, 4, 192, 0, 2, 1};
    const unsigned char head[10] = {0x84, 0, 0, 1, 0, 1};
    memcpy(octets + 2, head, sizeof head);
    memcpy(octets + end, record, sizeof record);
    return end + sizeof record;
}

// The common end: how many seconds there are from a moment on, or none.
static double zero;
static unsigned seconds;

// For how many seconds an address may be cached now. Whole seconds are counted from the moment of the common end's datagram on, so that a
// resolver whose seconds begin then too finds that all end in one second.
static unsigned ttl_now(unsigned ttl)
{
    double passed = now() - zero;
    return passed < seconds ? seconds - (unsigned)passed : ttl;
}

int main(int count, char **words)
{
    if (count != 3 && count != 4)
        return 2;
    unsigned ttl = count == 4 ? atoi(words[3]) : 86400;
    int sock = socket(AF_INET, SOCK_DGRAM, 0), room = 4 << 20;
    double delay = atof(words[2]) / 1000;
    struct sockaddr_in at = {.sin_family = AF_INET, .sin_port = htons(atoi(words[1])), .sin_addr.s_addr = htonl(INADDR_LOOPBACK)};
    setsockopt(sock, SOL_SOCKET, SO_RCVBUF, &room, sizeof room);
    setsockopt(sock, SOL_SOCKET, SO_SNDBUF, &room, sizeof room);
    if (bind(sock, (struct sockaddr *)&at, sizeof at) < 0) {
        perror("late");
        return 1;
    }
    puts("ready");
    fflush(stdout);
    for (unsigned first = 0, next = 0;;) {
        double left = first == next ? 1 : waiting[first % ROOM].when - now();
        struct timespec wait = {0, left <= 0 ? 0 : left >= 1 ? 999999999 : (long)(left * 1e9)};
        struct pollfd readable = {sock, POLLIN, 0};
        ppoll(&readable, 1, &wait, NULL);
        while (next - first < ROOM) {
            socklen_t size = sizeof waiting[0].peer;
            ssize_t length = recvfrom(sock, waiting[next % ROOM].octets, LONGEST, MSG_DONTWAIT, (struct sockaddr *)&waiting[next % ROOM].peer, &size);
            if (length < 0)
                break;
            if (length < 12) {
                waiting[next % ROOM].octets[length] = 0;
                seconds = atoi((char *)waiting[next % ROOM].octets);
                zero = now();
                continue;
            }
            waiting[next % ROOM].length = reply(waiting[next % ROOM].octets, length, ttl_now(ttl));
            waiting[next % ROOM].when = now() + delay;
            next += waiting[next % ROOM].length > 0;
        }
        for (; first != next && waiting[first % ROOM].when <= now(); first++)
            sendto(sock, waiting[first % ROOM].octets, waiting[first % ROOM].length, 0, (struct sockaddr *)&waiting[first % ROOM].peer, sizeof waiting[0].peer);
    }
}
