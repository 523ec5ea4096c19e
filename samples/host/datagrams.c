#include "datagrams.h"

#include <errno.h>
#include <stdio.h>
#include <string.h>
#include <sys/socket.h>
#include <unistd.h>

int open_socket(uint32_t *port)
{
    struct sockaddr_in own = {.sin_family = AF_INET, .sin_port = htons((uint16_t)*port), .sin_addr.s_addr = htonl(INADDR_LOOPBACK)};
    socklen_t size = sizeof own;
    int fd = socket(AF_INET, SOCK_DGRAM, 0);
    if (fd >= 0 && bind(fd, (struct sockaddr *)&own, sizeof own) == 0 && getsockname(fd, (struct sockaddr *)&own, &size) == 0) {
        *port = ntohs(own.sin_port);
        return fd;
    }
    fprintf(stderr, "fumbokeri-host: UDP port %u of 127.0.0.1: %s\n", (unsigned)*port, strerror(errno));
    if (fd >= 0)
        close(fd);
    return -1;
}

int receive(int socket, struct exchange *x)
{
    socklen_t size = sizeof x->sender;
    ssize_t length = recvfrom(socket, x->packet, sizeof x->packet, MSG_DONTWAIT, (struct sockaddr *)&x->sender, &size);
    x->packet_len = length < 0 ? 0 : (size_t)length;
    return length >= 0;
}

int send_reply(int socket, const struct exchange *x)
{
    ssize_t sent = sendto(socket, x->reply, x->reply_len, 0, (const struct sockaddr *)&x->sender, sizeof x->sender);
    return sent == (ssize_t)x->reply_len;
}
