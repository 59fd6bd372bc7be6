// ask PORT SOCKETS EACH PAUSE SECONDS MOST NAMES PREFIX [ZONE]: asks a server on loopback for addresses, until SECONDS have passed or
// MOST questions were asked (0: no limit), and prints the counts. It also prints how many microseconds the slowest reply took, and
// each of the first few thousand. A reply that took more than two milliseconds is slow. Of the slowest it prints the second of the
// monotonic clock at which each came, too.
//
// Each of the sockets has EACH questions in flight. A question that is answered is followed by the next, PAUSE microseconds later.
// The names are PREFIXn.ZONE., where n goes from 0 to NAMES - 1 again and again, or on and on if NAMES is 0. ZONE is one label, `test`
// if none is given. A question without a reply for three seconds is lost.
#define _GNU_SOURCE
#include <arpa/inet.h>
#include <netinet/in.h>
#include <poll.h>
#include <stdio.h>
#include <stdlib.h>
#include <string.h>
#include <sys/socket.h>
#include <time.h>

enum { MOST_SOCKETS = 64, MOST_EACH = 512, MOST_KEPT = 1 << 12, MOST_SLOWEST = 8 };
#define PATIENCE 3.0
// The microseconds above which a reply counts as slow.
#define SLOW 2000

// A question that is in flight; or, if its time of sending is 0, one that is to be asked at a given time.
struct slot {
    double sent, at;
    unsigned short id;
};

static struct slot slots[MOST_SOCKETS][MOST_EACH];
static struct pollfd socks[MOST_SOCKETS];
static float took[MOST_KEPT];
// The slowest replies, in no order: when each came, in seconds, and how many microseconds it took.
static struct { double came, took; } slowest[MOST_SLOWEST];
static long asked, answered, failed, lost, strange, slow, most;
static int sockets, each, names;
static double pause_between, due, longest;
static const char *prefix, *zone = "test";

static double now(void)
{
    struct timespec time;
    clock_gettime(CLOCK_MONOTONIC, &time);
    return time.tv_sec + time.tv_nsec * 1e-9;
}

// Asks the next question in a slot, unless all were asked. An identifier tells its slot, and which question of that slot it is.
static void ask(int sock, int place, double time)
{
    struct slot *slot = &slots[sock][place];
    unsigned char octets[128] = {0, 0, 1, 0, 0, 1};
    slot->sent = 0;
    slot->at = time + 0.01;
    if (most && asked >= most)
        return;
    slot->id = (slot->id / MOST_EACH + 1) * MOST_EACH + place;
    octets[0] = slot->id >> 8;
    octets[1] = slot->id;
    int length = snprintf((char *)octets + 13, 64, "%s%ld", prefix, names ? asked % names : asked);
    octets[12] = length;
    unsigned char *end = octets + 13 + length;
    *end = strlen(zone);
    end = mempcpy(mempcpy(end + 1, zone, *end), "\0\0\1\0\1", 5);
    if (send(socks[sock].fd, octets, end - octets, 0) < 0)
        return;
    slot->sent = time;
    asked++;
}

// Keeps a reply if it is one of the slowest.
static void keep_if_slow(double came, double waited)
{
    int least = 0;
    for (int place = 1; place < MOST_SLOWEST; place++)
        if (slowest[place].took < slowest[least].took)
            least = place;
    if (waited > slowest[least].took)
        slowest[least].came = came, slowest[least].took = waited;
}

// Receives what has come at a socket.
static void take(int sock)
{
    unsigned char octets[4096];
    while (recv(socks[sock].fd, octets, sizeof octets, MSG_DONTWAIT) >= 12) {
        unsigned short id = octets[0] << 8 | octets[1];
        struct slot *slot = &slots[sock][id % MOST_EACH];
        if (slot->sent == 0 || slot->id != id) {
            strange++;
            continue;
        }
        double time = now();
        failed += (octets[3] & 15) != 0;
        double waited = (time - slot->sent) * 1e6;
        longest = waited > longest ? waited : longest;
        slow += waited > SLOW;
        keep_if_slow(time, waited);
        if (answered < MOST_KEPT)
            took[answered] = waited;
        answered++;
        slot->sent = 0;
        slot->at = time + pause_between;
        if (pause_between == 0)
            ask(sock, id % MOST_EACH, time);
        else if (slot->at < due)
            due = slot->at;
    }
}

// Asks the questions that are due, gives up the lost ones, and notes when there is more to do.
static void ask_due(double time)
{
    due = time + 0.01;
    for (int sock = 0; sock < sockets; sock++)
        for (int place = 0; place < each; place++) {
            struct slot *slot = &slots[sock][place];
            if (slot->sent != 0 && time - slot->sent > PATIENCE) {
                lost++;
                slot->sent = slot->at = 0;
            }
            if (slot->sent == 0 && slot->at <= time)
                ask(sock, place, now());
            if (slot->sent == 0 && slot->at < due)
                due = slot->at;
        }
}

int main(int count, char **words)
{
    if (count != 9 && count != 10)
        return 2;
    struct sockaddr_in at = {.sin_family = AF_INET, .sin_port = htons(atoi(words[1])), .sin_addr.s_addr = htonl(INADDR_LOOPBACK)};
    sockets = atoi(words[2]), each = atoi(words[3]), pause_between = atof(words[4]) * 1e-6;
    double seconds = atof(words[5]);
    most = atol(words[6]), names = atoi(words[7]), prefix = words[8];
    if (count == 10)
        zone = words[9];
    if (sockets > MOST_SOCKETS || each > MOST_EACH || strlen(prefix) > 32 || strlen(zone) > 32)
        return 2;
    for (int sock = 0; sock < sockets; sock++) {
        int room = 1 << 20;
        socks[sock].fd = socket(AF_INET, SOCK_DGRAM | SOCK_NONBLOCK, 0);
        socks[sock].events = POLLIN;
        setsockopt(socks[sock].fd, SOL_SOCKET, SO_RCVBUF, &room, sizeof room);
        if (connect(socks[sock].fd, (struct sockaddr *)&at, sizeof at) < 0) {
            perror("ask");
            return 1;
        }
    }
    double began = now(), time = began, last = began;
    while ((time = now()) < began + seconds && (most == 0 || answered + lost < most)) {
        if (time >= due)
            ask_due(time);
        double left = due - now();
        struct timespec wait = {0, left > 0 ? (long)(left * 1e9) : 0};
        if (ppoll(socks, sockets, &wait, NULL) <= 0)
            continue;
        for (int sock = 0; sock < sockets; sock++)
            if (socks[sock].revents)
                take(sock);
        last = now();
    }
    double ran = (most ? last : time) - began;
    printf("{\"seconds\": %.6f, \"answered\": %ld, \"failed\": %ld, \"lost\": %ld, \"strange\": %ld, \"slow\": %ld, \"longest\": %.1f, "
           "\"took\": [", ran, answered, failed, lost, strange, slow, longest);
    for (long place = 0; place < answered && place < MOST_KEPT; place++)
        printf("%s%.1f", place ? ", " : "", took[place]);
    printf("], \"slowest\": [");
    for (int place = 0; place < MOST_SLOWEST; place++)
        printf("%s[%.6f, %.1f]", place ? ", " : "", slowest[place].came, slowest[place].took);
    puts("]}");
    return 0;
}
