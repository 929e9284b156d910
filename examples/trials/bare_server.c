/* What a hub's speed on sockets is measured against: an epoll server that answers 10 70 to anything.

       cc -O2 -o bare_server bare_server.c && ./bare_server PORT COUNT SECONDS

   listens on 127.0.0.1, on COUNT ports from PORT on, and ends after SECONDS. exchanges.py builds and runs it. */
#include <arpa/inet.h>
#include <stdlib.h>
#include <sys/epoll.h>
#include <sys/socket.h>
#include <unistd.h>

int main(int count, char **words) {
    if (count != 4) return 1;
    int poll = epoll_create1(0), port = atoi(words[1]), yes = 1, listeners[1024] = {0};
    alarm(atoi(words[3]));
    for (int at = 0; at < atoi(words[2]); at++) {
        struct sockaddr_in address = {AF_INET, htons(port + at), {htonl(INADDR_LOOPBACK)}, {0}};
        int socket_ = socket(AF_INET, SOCK_STREAM, 0);
        setsockopt(socket_, SOL_SOCKET, SO_REUSEADDR, &yes, sizeof yes);
        if (bind(socket_, (struct sockaddr *)&address, sizeof address) || listen(socket_, 16)) return 1;
        listeners[socket_] = 1;
        epoll_ctl(poll, EPOLL_CTL_ADD, socket_, &(struct epoll_event){EPOLLIN, {.fd = socket_}});
    }
    for (;;) {
        struct epoll_event ready[64];
        for (int left = epoll_wait(poll, ready, 64, -1); left-- > 0;) {
            char bytes[4096];
            int one = ready[left].data.fd;
            if (listeners[one]) {
                int peer = accept(one, 0, 0);
                epoll_ctl(poll, EPOLL_CTL_ADD, peer, &(struct epoll_event){EPOLLIN, {.fd = peer}});
            } else if (read(one, bytes, sizeof bytes) <= 0 || write(one, "\x10\x70", 2) != 2)
                close(one);
        }
    }
}
