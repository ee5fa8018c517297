// Receives requests over epoll and sends each the same reply, and does nothing else: what the system takes by itself
// (bench/listen.py).
//
// usage: bare PORT BODY REPLY     a request is whole once what came ends with BODY; a peer sends one at a time
#include <arpa/inet.h>
#include <netinet/tcp.h>
#include <stdlib.h>
#include <string.h>
#include <sys/epoll.h>
#include <sys/socket.h>
#include <unistd.h>

enum { PEERS = 4096, ROOM = 16384, READY = 64 };

static struct {
    size_t held;
    char bytes[ROOM];
} peers[PEERS];

static void watch(int poll, int socket) {
    struct epoll_event wanted = {.events = EPOLLIN, .data.fd = socket};
    epoll_ctl(poll, EPOLL_CTL_ADD, socket, &wanted);
}

static void take(int poll, int door) {
    int yes = 1, peer = accept(door, 0, 0);
    if (peer >= PEERS) {
        close(peer);
    } else if (peer >= 0) {
        setsockopt(peer, IPPROTO_TCP, TCP_NODELAY, &yes, sizeof yes);
        peers[peer].held = 0;
        watch(poll, peer);
    }
}

static void answer(int peer, const char *body, size_t length, const char *reply, size_t size) {
    char *bytes = peers[peer].bytes;
    size_t held = peers[peer].held;
    ssize_t count = recv(peer, bytes + held, ROOM - held, 0);
    if (count <= 0) {
        close(peer);
        return;
    }
    peers[peer].held = held += (size_t)count;
    if (held >= length && memcmp(bytes + held - length, body, length) == 0) {
        peers[peer].held = 0;
        if (send(peer, reply, size, MSG_NOSIGNAL) != (ssize_t)size)
            close(peer);
    }
}

int main(int count, char **words) {
    if (count != 4)
        return 2;
    size_t length = strlen(words[2]), size = strlen(words[3]);
    int yes = 1, poll = epoll_create1(0), door = socket(AF_INET, SOCK_STREAM, 0);
    struct sockaddr_in at = {.sin_family = AF_INET, .sin_port = htons((unsigned short)atoi(words[1]))};
    at.sin_addr.s_addr = htonl(INADDR_LOOPBACK);
    setsockopt(door, SOL_SOCKET, SO_REUSEADDR, &yes, sizeof yes);
    if (bind(door, (struct sockaddr *)&at, sizeof at) || listen(door, 1024))
        return 1;
    watch(poll, door);
    for (;;) {
        struct epoll_event ready[READY];
        int found = epoll_wait(poll, ready, READY, -1);
        for (int at = 0; at < found; at++) {
            if (ready[at].data.fd == door)
                take(poll, door);
            else
                answer(ready[at].data.fd, words[2], length, words[3], size);
        }
    }
}
