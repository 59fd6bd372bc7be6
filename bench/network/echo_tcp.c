// echo_tcp PORT: the least that a TCP server can do. Each message goes back over its connection, as a response by one bit of its header
// (RFC 1035, section 4.1.1). All whole messages that came in one piece go back in one. Several processes may share the port.
#define _GNU_SOURCE
#include <arpa/inet.h>
#include <netinet/in.h>
#include <netinet/tcp.h>
#include <poll.h>
#include <stdio.h>
#include <string.h>
#include <stdlib.h>
#include <sys/socket.h>
#include <unistd.h>

enum { MOST_CONNECTIONS = 1024, ROOM = 1 << 17 };

// The connections, and before them the socket that accepts them; and the octets of each that have come.
static struct pollfd socks[1 + MOST_CONNECTIONS];
static unsigned char came[1 + MOST_CONNECTIONS][ROOM];
static int lengths[1 + MOST_CONNECTIONS], last;

static void accept_one(void)
{
    int yes = 1, sock = accept(socks[0].fd, NULL, NULL);
    if (sock < 0)
        return;
    if (last == MOST_CONNECTIONS) {
        close(sock);
        return;
    }
    setsockopt(sock, IPPROTO_TCP, TCP_NODELAY, &yes, sizeof yes);
    last++;
    socks[last] = (struct pollfd){sock, POLLIN, 0};
    lengths[last] = 0;
}

// Sends back the whole messages that a connection has brought. Returns whether it goes on.
static int echo(int place)
{
    unsigned char *octets = came[place];
    ssize_t come = recv(socks[place].fd, octets + lengths[place], ROOM - lengths[place], 0);
    if (come <= 0)
        return 0;
    lengths[place] += come;
    int whole = 0;
    for (int length; lengths[place] - whole >= 2; whole += 2 + length) {
        length = octets[whole] << 8 | octets[whole + 1];
        if (lengths[place] - whole < 2 + length)
            break;
        if (length >= 12)
            octets[whole + 4] |= 0x80;
    }
    if (whole && send(socks[place].fd, octets, whole, MSG_NOSIGNAL) != whole)
        return 0;
    lengths[place] -= whole;
    memmove(octets, octets + whole, lengths[place]);
    return 1;
}

// Forgets a connection. The last one takes its place.
static void forget(int place)
{
    close(socks[place].fd);
    if (place != last) {
        socks[place] = socks[last];
        lengths[place] = lengths[last];
        memcpy(came[place], came[last], lengths[last]);
    }
    last--;
}

int main(int given, char **words)
{
    if (given != 2)
        return 2;
    int yes = 1;
    struct sockaddr_in at = {.sin_family = AF_INET, .sin_port = htons(atoi(words[1])), .sin_addr.s_addr = htonl(INADDR_LOOPBACK)};
    socks[0] = (struct pollfd){socket(AF_INET, SOCK_STREAM, 0), POLLIN, 0};
    setsockopt(socks[0].fd, SOL_SOCKET, SO_REUSEPORT, &yes, sizeof yes);
    if (bind(socks[0].fd, (struct sockaddr *)&at, sizeof at) < 0 || listen(socks[0].fd, MOST_CONNECTIONS) < 0) {
        perror("echo_tcp");
        return 1;
    }
    puts("ready");
    fflush(stdout);
    for (;;) {
        poll(socks, 1 + last, -1);
        for (int place = last; place > 0; place--)
            if (socks[place].revents && !echo(place))
                forget(place);
        if (socks[0].revents)
            accept_one();
    }
}
