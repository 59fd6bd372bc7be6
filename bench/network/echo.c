// echo PORT: the least that a UDP server can do. Each datagram goes back to whoever sent it, as a response by one bit
// of its header (RFC 1035, section 4.1.1). Several processes may share the port.
#include <arpa/inet.h>
#include <netinet/in.h>
#include <stdio.h>
#include <stdlib.h>
#include <sys/socket.h>

int main(int count, char **words)
{
    if (count != 2)
        return 2;
    int sock = socket(AF_INET, SOCK_DGRAM, 0), yes = 1, room = 1 << 20;
    struct sockaddr_in at = {.sin_family = AF_INET, .sin_port = htons(atoi(words[1])), .sin_addr.s_addr = htonl(INADDR_LOOPBACK)};
    setsockopt(sock, SOL_SOCKET, SO_REUSEPORT, &yes, sizeof yes);
    setsockopt(sock, SOL_SOCKET, SO_RCVBUF, &room, sizeof room);
    if (bind(sock, (struct sockaddr *)&at, sizeof at) < 0) {
        perror("echo");
        return 1;
    }
    puts("ready");
    fflush(stdout);
    for (;;) {
        unsigned char octets[4096];
        struct sockaddr_in peer;
        socklen_t size = sizeof peer;
        ssize_t length = recvfrom(sock, octets, sizeof octets, 0, (struct sockaddr *)&peer, &size);
        if (length < 12)
            continue;
        octets[2] |= 0x80;
        sendto(sock, octets, length, 0, (struct sockaddr *)&peer, size);
    }
}
