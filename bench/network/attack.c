// attack PORT SERVERS SECONDS PERIOD NAMES LARGE TTL RATE KIND ZONES: asks a resolver at PORT of 127.0.0.1 for names that it draws,
// a thousand a second, and plays the name servers of these names and the hostile ones. All servers are at the port SERVERS. The resolver
// gets 127.0.0.1 as the root's server, and asks servers that it learns at that port too.
//
// There are NAMES names whose addresses may be cached for TTL seconds. LARGE of them are in one zone, and each ten others in one.
// Each of these zones has two servers, and each response names them with their addresses, which live for a day. The draws hang on
// nothing but the number of names, so two runs ask for the same names at the same times.
//
// Each second, RATE hostile questions come. KIND says for what:
//
// - `zones`: new names in ZONES zones below one name, in turn;
// - `parents`: new names in ZONES zones whose parents differ;
// - `tops`: made-up top-level names, which the root denies.
//
// A hostile server sends one datagram with the addresses of 64 new names, which live for a day. Each hostile question comes from an
// address in 127.0.0.0/8 that is drawn, so no limit by client or network meets it.
//
// After each PERIOD seconds, and at the end, a line says what was seen since the last one.
#define _GNU_SOURCE
#include <arpa/inet.h>
#include <netinet/in.h>
#include <poll.h>
#include <stdint.h>
#include <stdio.h>
#include <stdlib.h>
#include <string.h>
#include <sys/socket.h>
#include <time.h>

// Each second has so many questions, of which some are asked at a time.
enum { EACH_SECOND = 1000, AT_ONCE = 4, MOST_NAMES = 1 << 17, IN_FLIGHT = 1 << 16, ROOM = 4096, OWNERS = 64, PER_ZONE = 10, DAY = 86400 };
#define PATIENCE 3.0

// The address of each name.
#define DOCUMENTED (192u << 24 | 2 << 8 | 1)

// Who a server is, by the second octet of its address.
enum { ROOT = 0, TOP = 1, FIRST = 2, SECOND = 3, HOSTILE_PARENT = 4, HOSTILE = 5 };

// A question that is in flight, if it has a time of sending.
static struct {
    double sent;
    int is_large;
} flight[IN_FLIGHT];

// When a cache without a limit would have to ask for a name again.
static double until[MOST_NAMES];

// What was seen since the last line.
static struct {
    long asked, answered, asked_large, answered_large, missed, missed_large, ideal, ideal_large, failed, lost, hostile, served, others;
    double longest;
} seen;

static int names, large, zones, service_port, server_port, clients, servers, strangers;
static unsigned ttl;
static char kind;
static uint64_t state;

static double now(void)
{
    struct timespec time;
    clock_gettime(CLOCK_MONOTONIC, &time);
    return time.tv_sec + time.tv_nsec * 1e-9;
}

// The next draw (splitmix64).
static uint64_t draw(uint64_t *from)
{
    uint64_t word = *from += 0x9E3779B97F4A7C15;
    word = (word ^ word >> 30) * 0xBF58476D1CE4E5B9;
    word = (word ^ word >> 27) * 0x94D049BB133111EB;
    return word ^ word >> 31;
}

static unsigned char *put16(unsigned char *at, unsigned value)
{
    *at++ = value >> 8;
    *at++ = value;
    return at;
}

// Writes the head of a record of class IN, from its type to the length of its data.
static unsigned char *record(unsigned char *at, unsigned type, unsigned lives, unsigned length)
{
    at = put16(put16(at, type), 1);
    at = put16(put16(at, lives >> 16), lives & 0xFFFF);
    return put16(at, length);
}

static unsigned char *address(unsigned char *at, unsigned owner, unsigned lives, uint32_t value)
{
    at = record(put16(at, 0xC000 | owner), 1, lives, 4);
    return put16(put16(at, value >> 16), value & 0xFFFF);
}

// Writes an NS record whose server is a label of one octet below the zone at an offset. Returns where its server's name is.
static unsigned char *server(unsigned char *at, unsigned zone, char label, unsigned char **name)
{
    at = record(put16(at, 0xC000 | zone), 2, DAY, 4);
    *name = at;
    *at++ = 1;
    *at++ = label;
    return put16(at, 0xC000 | zone);
}

// The servers of the zone at an offset, and their addresses, which have the given octets. Only a zone that is honest has a second one.
static unsigned char *delegation(unsigned char *start, unsigned char *at, unsigned zone, int who, unsigned number, int count)
{
    unsigned char *place[2] = {0};
    for (int one = 0; one < count; one++)
        at = server(at, zone, 'a' + one, &place[one]);
    for (int one = 0; one < count; one++)
        at = address(at, place[one] - start, DAY, 127u << 24 | (who + one) << 16 | (number + 1));
    return at;
}

// The number behind the first octet of a label.
static unsigned number_in(const unsigned char *label)
{
    unsigned number = 0;
    for (int place = 2; place <= label[0]; place++)
        number = number * 10 + label[place] - '0';
    return number & 0xFFFF;
}

// A response that is written: where it ends, and how many records it has.
struct response {
    unsigned char *start, *at;
    int answers, authority, additional;
};

// A referral to the zone at an offset, or the servers of that zone.
static void delegate(struct response *told, unsigned zone, int who, unsigned number, int count)
{
    told->at = delegation(told->start, told->at, zone, who, number, count);
    told->authority = told->additional = count;
}

// The addresses of the name that was asked for and of many others below it. The label of each is one octet, and no capital letter.
static void hostile(struct response *told)
{
    told->at = address(told->at, 12, DAY, DOCUMENTED);
    for (int owner = 1; owner < OWNERS; owner++) {
        *told->at++ = 1;
        *told->at++ = 128 + owner;
        told->at = address(told->at, 12, DAY, DOCUMENTED);
    }
    told->answers = 1, told->additional = OWNERS - 1;
    seen.served++;
}

// Denies the name or its type, by the SOA record of the zone at an offset, or of the root. The names in it are the root.
static void deny(struct response *told, unsigned zone)
{
    if (zone)
        told->at = put16(told->at, 0xC000 | zone);
    else
        *told->at++ = 0, told->start[3] = told->start[12] ? 3 : 0;
    told->at = record(told->at, 6, DAY, 22);
    memset(told->at, 0, 22);
    put16(put16(told->at + 18, DAY >> 16), DAY & 0xFFFF);
    told->at += 22;
    told->authority = 1;
    seen.served += zone == 0;
    seen.others += zone != 0;
}

// Answers for a zone that is honest: its names, and the addresses of its servers.
static int answers_honestly(struct response *told, unsigned zone, unsigned number)
{
    int first = told->start[13];
    if (first != 'n' && first != 'a' && first != 'b')
        return 0;
    unsigned who = first == 'b' ? SECOND : FIRST;
    told->at = first == 'n' ? address(told->at, 12, ttl, DOCUMENTED) : address(told->at, 12, DAY, 127u << 24 | who << 16 | (number + 1));
    told->answers = 1;
    delegate(told, zone, FIRST, number, 2);
    seen.missed += first == 'n';
    seen.missed_large += first == 'n' && number == 0 && large > 0;
    seen.others += first != 'n';
    return 1;
}

// Makes a query the response of the server at an address with this octet. Returns its length, or 0 if it is no query.
static int respond(unsigned char *octets, int length, int who)
{
    // The offsets of the labels, and then as the last label has place 0.
    int from[8], label[8] = {0}, count = 0, end = 12;
    for (; end < length && octets[end] && count < 8; end += octets[end] + 1)
        from[count++] = end;
    if (end + 5 > length || octets[end])
        return 0;
    for (int place = 0; place < count; place++)
        label[place] = from[count - 1 - place];
    int is_address = octets[end + 1] == 0 && octets[end + 2] == 1;
    // How many labels the zone of the server has, and the label before it.
    int depth = who == ROOT ? 0 : who == TOP ? 1 : who == HOSTILE && kind == 'z' ? 3 : 2;
    const unsigned char *next = octets + label[depth], *zone = depth ? octets + label[depth - 1] : octets;
    struct response told = {octets, octets + end + 5, 0, 0, 0};
    // AA, no error.
    put16(put16(octets + 2, 0x8400), 1);
    int is_referral = (who == ROOT && count && next[0] == 4) || ((who == TOP || who == HOSTILE_PARENT) && count > depth);
    if (is_referral) {
        octets[2] = 0x80;
        if (who == ROOT)
            delegate(&told, label[0], TOP, 0, 1);
        else if (next[1] == 'h')
            delegate(&told, label[depth], FIRST, number_in(next), 2);
        else if (who == TOP && next[1] == 'o')
            delegate(&told, label[depth], HOSTILE_PARENT, 0, 1);
        else
            delegate(&told, label[depth], HOSTILE, number_in(next), 1);
    } else if (who == HOSTILE && is_address && octets[13] == 'x')
        hostile(&told);
    else if (!((who == FIRST || who == SECOND) && count == 3 && is_address && answers_honestly(&told, label[1], number_in(zone))))
        deny(&told, depth && count >= depth ? label[depth - 1] : 0);
    put16(put16(put16(octets + 6, told.answers), told.authority), told.additional);
    return told.at - octets;
}

// A datagram to or from a socket, with the address of this machine that it came to, or that it leaves from.
static ssize_t datagram(int sock, void *octets, size_t length, struct sockaddr_in *peer, struct in_addr *own, int sends)
{
    char room[CMSG_SPACE(sizeof(struct in_pktinfo))] = {0};
    struct iovec part = {octets, length};
    struct msghdr message = {.msg_name = peer, .msg_namelen = sizeof *peer, .msg_iov = &part, .msg_iovlen = 1, .msg_control = room,
                             .msg_controllen = sizeof room};
    struct cmsghdr *head = CMSG_FIRSTHDR(&message);
    if (sends) {
        head->cmsg_level = IPPROTO_IP, head->cmsg_type = IP_PKTINFO, head->cmsg_len = CMSG_LEN(sizeof(struct in_pktinfo));
        ((struct in_pktinfo *)CMSG_DATA(head))->ipi_spec_dst = *own;
        return sendmsg(sock, &message, 0);
    }
    ssize_t came = recvmsg(sock, &message, MSG_DONTWAIT);
    for (head = came < 0 ? NULL : CMSG_FIRSTHDR(&message); head; head = CMSG_NXTHDR(&message, head))
        if (head->cmsg_level == IPPROTO_IP && head->cmsg_type == IP_PKTINFO)
            *own = ((struct in_pktinfo *)CMSG_DATA(head))->ipi_addr;
    return came;
}

// Answers the queries that have come to the name servers.
static void serve(void)
{
    unsigned char octets[ROOM];
    struct sockaddr_in peer;
    struct in_addr own = {0};
    ssize_t length;
    while ((length = datagram(servers, octets, 512, &peer, &own, 0)) >= 0) {
        int made = length < 17 ? 0 : respond(octets, length, ntohl(own.s_addr) >> 16 & 255);
        if (made)
            datagram(servers, octets, made, &peer, &own, 1);
    }
}

// Writes a question with RD for an address. Its text has dots between labels, and ends without one.
static int question(unsigned char *octets, unsigned id, const char *text)
{
    memset(octets, 0, 12);
    put16(octets, id);
    octets[2] = octets[5] = 1;
    unsigned char *at = octets + 12;
    for (const char *end; *text; text = *end ? end + 1 : end) {
        end = strchrnul(text, '.');
        *at++ = end - text;
        at = mempcpy(at, text, end - text);
    }
    *at++ = 0;
    return put16(put16(at, 1), 1) - octets;
}

// Asks for a name that is drawn.
static void ask(long place, double time)
{
    unsigned char octets[128];
    char text[64];
    int name = draw(&state) % names, is_large = name < large;
    unsigned id = place % IN_FLIGHT;
    snprintf(text, sizeof text, "n%05d.h%05d.test", name, is_large ? 0 : 1 + (name - large) / PER_ZONE);
    seen.lost += flight[id].sent != 0;
    seen.asked++;
    seen.asked_large += is_large;
    seen.ideal += time < until[name];
    seen.ideal_large += is_large && time < until[name];
    if (time >= until[name])
        until[name] = time + ttl;
    flight[id].sent = time;
    flight[id].is_large = is_large;
    send(clients, octets, question(octets, id, text), 0);
}

// Asks a hostile question.
static void attack(long place)
{
    static uint64_t from = 1;
    unsigned char octets[128];
    char text[64];
    struct sockaddr_in at = {.sin_family = AF_INET, .sin_port = htons(service_port), .sin_addr.s_addr = htonl(INADDR_LOOPBACK)};
    struct in_addr own = {htonl(127u << 24 | (1 + draw(&from) % 0xFFFFFD))};
    if (kind == 'z')
        snprintf(text, sizeof text, "x%07lx.z%05ld.owner.test", place, place % zones);
    else if (kind == 'p')
        snprintf(text, sizeof text, "x%07lx.w%05ld.test", place, place % zones);
    else
        snprintf(text, sizeof text, "t%07lx", place);
    seen.hostile++;
    datagram(strangers, octets, question(octets, place & 0xFFFF, text), &at, &own, 1);
}

// Takes the replies to those who are honest.
static void take(void)
{
    unsigned char octets[ROOM];
    double time = now();
    while (recv(clients, octets, sizeof octets, MSG_DONTWAIT) >= 12) {
        unsigned id = octets[0] << 8 | octets[1];
        if (flight[id].sent == 0)
            continue;
        double waited = time - flight[id].sent;
        seen.longest = waited > seen.longest ? waited : seen.longest;
        flight[id].sent = 0;
        seen.failed += (octets[3] & 15) != 0;
        seen.answered++;
        seen.answered_large += flight[id].is_large;
    }
}

static void tell(double time)
{
    for (int id = 0; id < IN_FLIGHT; id++)
        if (flight[id].sent != 0 && time - flight[id].sent > PATIENCE)
            flight[id].sent = 0, seen.lost++;
    printf("{\"asked\": %ld, \"answered\": %ld, \"missed\": %ld, \"ideal\": %ld, "
           "\"asked_large\": %ld, \"missed_large\": %ld, \"ideal_large\": %ld, \"failed\": %ld, \"lost\": %ld, "
           "\"hostile\": %ld, \"served\": %ld, \"others\": %ld, \"longest\": %.1f}\n",
           seen.asked, seen.answered, seen.missed, seen.ideal,
           seen.asked_large, seen.missed_large, seen.ideal_large, seen.failed, seen.lost,
           seen.hostile, seen.served, seen.others, seen.longest * 1e3);
    fflush(stdout);
    memset(&seen, 0, sizeof seen);
}

static int bound(uint32_t host, int port)
{
    struct sockaddr_in at = {.sin_family = AF_INET, .sin_port = htons(port), .sin_addr.s_addr = htonl(host)};
    int sock = socket(AF_INET, SOCK_DGRAM | SOCK_NONBLOCK, 0), room = 1 << 20, yes = 1;
    setsockopt(sock, SOL_SOCKET, SO_RCVBUF, &room, sizeof room);
    setsockopt(sock, SOL_SOCKET, SO_SNDBUF, &room, sizeof room);
    setsockopt(sock, IPPROTO_IP, IP_PKTINFO, &yes, sizeof yes);
    if (bind(sock, (struct sockaddr *)&at, sizeof at) < 0) {
        perror("attack");
        exit(1);
    }
    return sock;
}

int main(int count, char **words)
{
    if (count != 11)
        return 2;
    service_port = atoi(words[1]), server_port = atoi(words[2]);
    double seconds = atof(words[3]), period = atof(words[4]), rate = atof(words[8]);
    names = atoi(words[5]), large = atoi(words[6]), ttl = atoi(words[7]), kind = words[9][0], zones = atoi(words[10]);
    if (names < 1 || names > MOST_NAMES || large > names || zones < 1 || !strchr("zpt", kind))
        return 2;
    struct sockaddr_in at = {.sin_family = AF_INET, .sin_port = htons(service_port), .sin_addr.s_addr = htonl(INADDR_LOOPBACK)};
    servers = bound(INADDR_ANY, server_port), strangers = bound(INADDR_ANY, 0), clients = bound(INADDR_LOOPBACK, 0);
    if (connect(clients, (struct sockaddr *)&at, sizeof at) < 0)
        return 1;
    struct pollfd socks[] = {{servers, POLLIN, 0}, {clients, POLLIN, 0}, {strangers, POLLIN, 0}};
    double began = now(), time = began, next = began + period;
    for (long asked = 0, attacked = 0; time < began + seconds; time = now()) {
        for (; asked < (time - began) * EACH_SECOND; asked++)
            ask(asked, time);
        for (; attacked < (time - began) * rate; attacked++)
            attack(attacked);
        // The last part has what is left, half a period at least.
        if (time >= next && time < began + seconds - period / 2)
            tell(time), next += period;
        double left = began + (asked + AT_ONCE - 1.0) / EACH_SECOND - now();
        struct timespec wait = {0, left > 0 ? (long)(left * 1e9) : 0};
        if (ppoll(socks, 3, &wait, NULL) <= 0)
            continue;
        if (socks[0].revents)
            serve();
        if (socks[1].revents)
            take();
        // Nobody reads what strangers get.
        unsigned char octets[ROOM];
        while (socks[2].revents && recv(strangers, octets, sizeof octets, MSG_DONTWAIT) >= 0)
            ;
    }
    tell(time);
    return 0;
}
