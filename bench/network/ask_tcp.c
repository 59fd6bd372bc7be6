// ask_tcp PORT CONNECTIONS EACH SECONDS MOST NAMES PREFIX HELD [FIRST]: asks a server on loopback for addresses over TCP, until SECONDS
// have passed or MOST questions were asked (0: no limit). It prints the counts, and how many microseconds the replies took.
//
// Each of the connections has EACH questions in flight, and takes replies in any order (RFC 7766, sections 6.2.1.1 and 7). The names
// are PREFIXn.test., where n goes from 0 to NAMES - 1 again and again, or on and on if NAMES is 0. With FIRST, the first question in
// flight of each connection is always for FIRST0.test., and only its replies are timed.
//
// HELD connections are opened before all others, and ask nothing. One that the server closes is opened again.
//
// A question without a reply for two seconds is lost, and its connection has stalled: it stays open, and asks nothing more.
#define _GNU_SOURCE
#include <arpa/inet.h>
#include <errno.h>
#include <netinet/in.h>
#include <netinet/tcp.h>
#include <poll.h>
#include <stdio.h>
#include <stdlib.h>
#include <string.h>
#include <sys/resource.h>
#include <sys/socket.h>
#include <time.h>
#include <unistd.h>

enum { MOST_CONNECTIONS = 256, MOST_EACH = 64, LONGEST = 96, ROOM = 1 << 17, MOST_KEPT = 1 << 21 };
#define PATIENCE 2.0
#define TICK 0.01

// A question that is in flight, or none if its time of sending is 0. Its number counts the questions of its connection.
struct slot {
    double sent;
    long number;
    unsigned short id;
};

// A connection, and the octets that have come or are to be sent.
static struct connection {
    struct slot slots[MOST_EACH];
    long asked, newest;
    int in_flight, stalled, come, queued;
    unsigned char in[ROOM], out[MOST_EACH * LONGEST];
} connections[MOST_CONNECTIONS];

// The sockets of the connections, and after them those that are held.
static struct pollfd socks[2 * MOST_CONNECTIONS];
static float took[MOST_KEPT];
static struct sockaddr_in server;
static long asked, answered, failed, lost, strange, closed, overtaken, most;
static int count, each, names, held;
static double end, last;
static const char *prefix, *first;

static double now(void)
{
    struct timespec time;
    clock_gettime(CLOCK_MONOTONIC, &time);
    return time.tv_sec + time.tv_nsec * 1e-9;
}

static int is_asking(double time)
{
    return time < end && (most == 0 || asked < most);
}

// Has the next question wait to be sent, in a slot that is free. An identifier tells its slot, and which question of that slot it is.
static void ask(struct connection *from, int place, double time)
{
    if (!is_asking(time) || from->stalled)
        return;
    struct slot *slot = &from->slots[place];
    int is_first = first && place == 0;
    unsigned char *octets = from->out + from->queued;
    memset(octets, 0, LONGEST);
    int label = snprintf((char *)octets + 15, 64, "%s%ld", is_first ? first : prefix, is_first ? 0 : names ? asked % names : asked);
    memcpy(octets + 15 + label, "\4test\0\0\1\0\1", 10);
    slot->id = (slot->id / MOST_EACH + 1) * MOST_EACH + place;
    octets[1] = 23 + label;
    octets[2] = slot->id >> 8, octets[3] = slot->id;
    octets[4] = 1, octets[7] = 1;
    octets[14] = label;
    from->queued += 25 + label;
    slot->sent = time;
    slot->number = ++from->asked;
    from->in_flight++;
    asked++;
}

static void begin(int place)
{
    int yes = 1;
    socks[place].fd = socket(AF_INET, SOCK_STREAM | SOCK_NONBLOCK, 0);
    socks[place].events = POLLIN;
    setsockopt(socks[place].fd, IPPROTO_TCP, TCP_NODELAY, &yes, sizeof yes);
    if (connect(socks[place].fd, (struct sockaddr *)&server, sizeof server) < 0 && errno != EINPROGRESS) {
        close(socks[place].fd);
        socks[place].fd = -1;
    }
}

// The server has ended a connection. Its questions are lost. It is opened again at the next tick.
static void drop(int place)
{
    close(socks[place].fd);
    socks[place].fd = -1;
    closed++;
    if (place >= count)
        return;
    struct connection *of = &connections[place];
    lost += of->in_flight;
    of->in_flight = of->come = of->queued = 0;
    for (int slot = 0; slot < each; slot++)
        of->slots[slot].sent = 0;
}

// Sends what waits, all in one piece if the socket takes it.
static void push(int place)
{
    struct connection *of = &connections[place];
    if (of->queued == 0 || socks[place].fd < 0)
        return;
    ssize_t sent = send(socks[place].fd, of->out, of->queued, MSG_NOSIGNAL);
    if (sent < 0 && errno != EAGAIN) {
        drop(place);
        return;
    }
    of->queued -= sent > 0 ? sent : 0;
    memmove(of->out, of->out + (sent > 0 ? sent : 0), of->queued);
    socks[place].events = of->queued ? POLLIN | POLLOUT : POLLIN;
}

// Notes a reply, and has the next question wait in its slot.
static void note(struct connection *of, const unsigned char *octets, int length, double time)
{
    unsigned short id = octets[0] << 8 | octets[1];
    struct slot *slot = &of->slots[id % MOST_EACH];
    if (length < 12 || slot->sent == 0 || slot->id != id) {
        strange++;
        return;
    }
    overtaken += slot->number < of->newest;
    of->newest = slot->number > of->newest ? slot->number : of->newest;
    of->in_flight--;
    if (most || time < end) {
        int is_good = (octets[3] & 15) == 0;
        failed += !is_good;
        if (is_good && (!first || id % MOST_EACH == 0)) {
            took[answered % MOST_KEPT] = (time - slot->sent) * 1e6;
            answered++;
        }
        last = time;
    }
    slot->sent = 0;
    ask(of, id % MOST_EACH, time);
}

// Receives what has come on a connection, and sends the questions that follow.
static void take(int place)
{
    struct connection *of = &connections[place];
    ssize_t come = recv(socks[place].fd, of->in + of->come, ROOM - of->come, 0);
    if (come == 0 || (come < 0 && errno != EAGAIN)) {
        drop(place);
        return;
    }
    of->come += come > 0 ? come : 0;
    double time = now();
    int from = 0;
    for (int length; of->come - from >= 2; from += 2 + length) {
        length = of->in[from] << 8 | of->in[from + 1];
        if (of->come - from < 2 + length)
            break;
        note(of, of->in + from + 2, length, time);
    }
    of->come -= from;
    memmove(of->in, of->in + from, of->come);
    push(place);
}

// Gives up lost questions, opens connections that were closed, and asks where a slot is free. Returns whether the run goes on: questions
// are in flight, or are still to be asked and a connection has not stalled.
static int tick(double time)
{
    int in_flight = 0, able = 0;
    for (int place = 0; place < count + held; place++) {
        if (socks[place].fd < 0)
            begin(place);
        if (place >= count)
            continue;
        struct connection *of = &connections[place];
        for (int slot = 0; slot < each; slot++) {
            if (of->slots[slot].sent != 0 && time - of->slots[slot].sent > PATIENCE) {
                lost++;
                of->stalled = 1;
                of->in_flight--;
                of->slots[slot].sent = 0;
            }
            if (of->slots[slot].sent == 0)
                ask(of, slot, time);
        }
        push(place);
        in_flight += of->in_flight;
        able += !of->stalled;
    }
    return in_flight > 0 || (able > 0 && is_asking(time));
}

static int order(const void *one, const void *two)
{
    float a = *(const float *)one, b = *(const float *)two;
    return (a > b) - (a < b);
}

static void print(double began, double seconds)
{
    struct rusage used;
    getrusage(RUSAGE_SELF, &used);
    double processor = used.ru_utime.tv_sec + used.ru_stime.tv_sec + (used.ru_utime.tv_usec + used.ru_stime.tv_usec) * 1e-6;
    long kept = answered < MOST_KEPT ? answered : MOST_KEPT;
    qsort(took, kept, sizeof took[0], order);
    int stalled = 0;
    for (int place = 0; place < count; place++)
        stalled += connections[place].stalled;
    printf("{\"seconds\": %.6f, \"answered\": %ld, \"failed\": %ld, \"lost\": %ld, \"strange\": %ld, \"closed\": %ld, \"overtaken\": %ld, "
           "\"stalled\": %d, \"busy\": %.3f, \"p50\": %.1f, \"p99\": %.1f}\n",
           seconds, answered, failed, lost, strange, closed, overtaken, stalled, processor / (now() - began),
           kept ? took[kept / 2] : 0, kept ? took[kept * 99 / 100] : 0);
}

// Reads the words of the command. Returns whether they can be obeyed.
static int read_words(int given, char **words)
{
    if (given != 9 && given != 10)
        return 0;
    server = (struct sockaddr_in){.sin_family = AF_INET, .sin_port = htons(atoi(words[1])), .sin_addr.s_addr = htonl(INADDR_LOOPBACK)};
    count = atoi(words[2]), each = atoi(words[3]);
    most = atol(words[5]), names = atoi(words[6]), prefix = words[7], held = atoi(words[8]);
    first = given == 10 ? words[9] : NULL;
    int fit = count <= MOST_CONNECTIONS && held <= MOST_CONNECTIONS && each <= MOST_EACH;
    return fit && strlen(prefix) <= 32 && (!first || strlen(first) <= 32);
}

// Does what the sockets are ready for.
static void serve_ready(void)
{
    if (poll(socks, count + held, TICK * 1e3) <= 0)
        return;
    for (int place = 0; place < count + held; place++) {
        if (socks[place].fd < 0 || socks[place].revents == 0)
            continue;
        if (place >= count)
            drop(place);
        else if (socks[place].revents & (POLLIN | POLLERR | POLLHUP))
            take(place);
        else
            push(place);
    }
}

int main(int given, char **words)
{
    if (!read_words(given, words))
        return 2;
    for (int place = count; place < count + held; place++)
        begin(place);
    if (held)
        usleep(100000);
    for (int place = 0; place < count; place++)
        begin(place);
    double seconds = atof(words[4]), began = now(), due = began;
    end = began + seconds, last = began;
    for (int goes_on = 1; goes_on; serve_ready()) {
        double time = now();
        if (time >= due || !is_asking(time)) {
            goes_on = tick(time);
            due = time + TICK;
        }
    }
    print(began, most ? last - began : seconds);
    return 0;
}
