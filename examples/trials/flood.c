/* The floods of floods.py: lines of a hub on which bytes are said as fast as they are taken.

       cc -O2 -o flood flood.c && ./flood SECONDS READS < lines

   A line of standard input is a line of the hub: its port on 127.0.0.1, and in hexadecimal what a connection says at
   first, - for nothing, and what it says after that, again and again. Where the hub ends a connection the next one is
   made at once. With READS 1 what comes is read and dropped. With 0 nothing is ever read, and the kernel has as little
   room for it as it can have.

   Once all are connected it prints "begin", and after so many seconds a line: bytes that were said and that were read,
   connections, and the microseconds of processor that it used. */
#include <arpa/inet.h>
#include <errno.h>
#include <netinet/tcp.h>
#include <stdio.h>
#include <stdlib.h>
#include <string.h>
#include <sys/epoll.h>
#include <sys/socket.h>
#include <time.h>
#include <unistd.h>

enum { LINES = 64, ROOM = 1 << 20 };

typedef unsigned char byte;

struct bytes {
    int length;
    byte *at;
};

static struct line {
    int port, socket, is_connected, is_begun, place; /* whether its first words are said, and how many of the next */
    struct bytes first, again;
} lines[LINES];

static int made, reads, poll;
static long said, heard, connections;

static void stop(const char *why)
{
    fprintf(stderr, "flood: %s\n", why);
    exit(1);
}

/* A clock, in nanoseconds. */
static long read_clock(clockid_t clock)
{
    struct timespec time;
    clock_gettime(clock, &time);
    return time.tv_sec * 1000000000L + time.tv_nsec;
}

static void begin(struct line *line)
{
    struct sockaddr_in address = {AF_INET, htons(line->port), {htonl(INADDR_LOOPBACK)}, {0}};
    int yes = 1, least = 1;
    line->socket = socket(AF_INET, SOCK_STREAM | SOCK_NONBLOCK, 0);
    if (line->socket < 0) stop("no socket");
    if (!reads) setsockopt(line->socket, SOL_SOCKET, SO_RCVBUF, &least, sizeof least);
    setsockopt(line->socket, IPPROTO_TCP, TCP_NODELAY, &yes, sizeof yes);
    line->is_connected = line->place = 0;
    line->is_begun = !line->first.length;
    int went = connect(line->socket, (struct sockaddr *)&address, sizeof address);
    if (went && errno != EINPROGRESS) stop("can't connect");
    int what = EPOLLOUT | EPOLLRDHUP | (reads ? EPOLLIN : 0);
    epoll_ctl(poll, EPOLL_CTL_ADD, line->socket, &(struct epoll_event){what, {.ptr = line}});
}

/* The hub ended it: the next one. */
static void renew(struct line *line)
{
    close(line->socket);
    begin(line);
}

/* Says the next words, as many as are taken; whether the connection goes on. */
static int say(struct line *line)
{
    struct bytes *words = line->is_begun ? &line->again : &line->first;
    ssize_t went = send(line->socket, words->at + line->place, words->length - line->place, MSG_NOSIGNAL);
    if (went < 0) return errno == EAGAIN;
    said += went;
    line->place += went;
    if (line->place == words->length) line->is_begun = 1, line->place = 0;
    return 1;
}

static void ready(struct line *line, int what)
{
    static byte room[65536];
    if (what & (EPOLLERR | EPOLLHUP)) {
        renew(line);
        return;
    }
    if (!line->is_connected && what & EPOLLOUT) line->is_connected = 1, connections++;
    if (reads && what & EPOLLIN) {
        ssize_t got = recv(line->socket, room, sizeof room, 0);
        if (got == 0 || (got < 0 && errno != EAGAIN)) {
            renew(line);
            return;
        }
        if (got > 0) heard += got;
    } else if (what & EPOLLRDHUP) {
        renew(line);
        return;
    }
    if (what & EPOLLOUT && !say(line)) renew(line);
}

/* Goes on for so many nanoseconds, or until all were connected once. */
static void flood(long nanoseconds, int until_begun)
{
    static struct epoll_event found[LINES];
    for (long end = read_clock(CLOCK_MONOTONIC) + nanoseconds; read_clock(CLOCK_MONOTONIC) < end;) {
        int count = epoll_wait(poll, found, LINES, 10);
        for (int at = 0; at < count; at++) ready(found[at].data.ptr, found[at].events);
        if (until_begun && connections >= made) return;
    }
}

static int digit(char of)
{
    return of <= '9' ? of - '0' : of - 'a' + 10;
}

static void read_bytes(struct bytes *to)
{
    static char word[2 * ROOM + 1];
    if (scanf("%2097152s", word) != 1) stop("a line lacks something");
    to->length = strlen(word) / 2; /* 0 for - */
    to->at = malloc(to->length + 1);
    for (int at = 0; at < to->length; at++) to->at[at] = 16 * digit(word[2 * at]) + digit(word[2 * at + 1]);
}

int main(int count, char **words)
{
    if (count != 3) return 1;
    poll = epoll_create1(0);
    reads = atoi(words[2]);
    while (made < LINES && scanf("%d", &lines[made].port) == 1) {
        read_bytes(&lines[made].first), read_bytes(&lines[made].again);
        if (!lines[made].again.length) stop("nothing is to be said");
        made++;
    }
    for (int at = 0; at < made; at++) begin(&lines[at]);
    flood(10000000000L, 1);
    if (connections < made) stop("a line isn't connected");
    puts("begin");
    fflush(stdout);
    long used = read_clock(CLOCK_PROCESS_CPUTIME_ID);
    said = heard = 0;
    flood(atof(words[1]) * 1e9, 0);
    used = read_clock(CLOCK_PROCESS_CPUTIME_ID) - used;
    printf("%ld %ld %ld %ld\n", said, heard, connections, used / 1000);
}
