/* The load of spool_rate.py, and what waits in spool_long.py: pairs of lines of a hub, of which one sends files and the
   other takes them.

       cc -O2 -o spool_load spool_load.c && ./spool_load SECONDS RECORDS [REST] < pairs

   A line of standard input is a pair: the ports of the sender and of the receiver on 127.0.0.1, and in hexadecimal the
   frames with which they sign on and the records of the sender's file as they stand in a frame, on SYSOUT 1 and on
   SYSOUT 2. The file has RECORDS records and fits into a block. With RECORDS 0 it is given up, and none is to come.

   A sender says a file and the request for the next one in one block, on its two streams in turn: so each file was
   permitted before it is sent, and takes one exchange. WINDOW of its files are on their way at most. A receiver permits
   what is asked for, and says of each file that it came. If it has nothing to say it keeps its turn until its sender is
   answered: if the hub had the turn, the line would rest, and the next file would wait.

   Half a second after all lines are up it prints "begin", and after so many seconds a line: files that the receivers
   took, exchanges, the longest answer in microseconds, those of processor that the load used, and how often a line was
   asked again. Anything else that happens ends it with status 1 and a word.

   With REST a sender rests so many microseconds, half more or less, before it says its next block, and waits without
   sleeping. Then a line is printed for each answer too: of which kind of line it was, 1 of a sender, and when its frame
   was said and when the answer came, in nanoseconds of the monotonic clock. */
#include <arpa/inet.h>
#include <netinet/tcp.h>
#include <stdio.h>
#include <stdlib.h>
#include <string.h>
#include <sys/epoll.h>
#include <sys/socket.h>
#include <time.h>
#include <unistd.h>

enum { STX = 0x02, DLE = 0x10, ETB = 0x26, NAK = 0x3D };
enum { REQUEST = 0x90, SYSOUT_1 = 0x99, PERMISSION = 0xA0, SYSOUT_2 = 0xA9, REFUSAL = 0xB0, COMPLETE = 0xC0 };
enum { OUT_OF_SEQUENCE = 0xE0, GENERAL = 0xF0, ANSWERED_SIGN_ON = 0xD1 };
enum { LINES = 256, WINDOW = 8, ROOM = 8192, ANSWERS = 1 << 20 };

typedef unsigned char byte;

struct bytes {
    int length;
    byte at[ROOM];
};

struct line {
    struct line *other;               /* of its pair */
    int socket, is_sender, is_up, holds;
    int count, heard;                 /* the count of its next block; the BCB of the last one that came */
    int granted;                      /* of a sender: which of its streams was permitted, or -1 */
    int records[16];                  /* of a receiver: how many came on each stream */
    long files, said;                 /* how many files it sent or took; when it said its last frame, in nanoseconds */
    long due;                         /* of a sender that rests: when it goes on */
    struct bytes sign_on, file[2], answers, in, out;
} lines[LINES];

static struct answer {
    int is_sender;
    long said, came;
} noted[ANSWERS];

static long wanted, rest, made, files, exchanges, asked_again, longest, answers;

static void stop(const char *why)
{
    fprintf(stderr, "spool_load: %s\n", why);
    exit(1);
}

/* A clock, in nanoseconds. */
static long read_clock(clockid_t clock)
{
    struct timespec time;
    clock_gettime(clock, &time);
    return time.tv_sec * 1000000000L + time.tv_nsec;
}

static long now(void)
{
    return read_clock(CLOCK_MONOTONIC);
}

static void add(struct bytes *to, const void *from, int length)
{
    if (to->length + length > ROOM) stop("a block is too long");
    memcpy(to->at + to->length, from, length);
    to->length += length;
}

/* Says the frame that is in `out`. */
static void say(struct line *line)
{
    line->said = now();
    if (send(line->socket, line->out.at, line->out.length, MSG_NOSIGNAL) != line->out.length) stop("can't write");
}

/* The next block of a line: a sender's file and its next request, or a receiver's answers, if there are any. */
static void say_block(struct line *line)
{
    byte head[] = {DLE, STX, 0x80 + line->count, 0x8F, 0xCF}, end[] = {0x00, DLE, ETB};
    line->count = (line->count + 1) % 16;
    line->holds = line->out.length = 0;
    add(&line->out, head, sizeof head);
    if (line->is_sender) {
        byte request[] = {REQUEST, line->granted ? SYSOUT_1 : SYSOUT_2, 0x00};
        if (line->granted >= 0) {
            add(&line->out, line->file[line->granted].at, line->file[line->granted].length);
            line->files++;
        }
        add(&line->out, request, sizeof request);
        line->granted = -1;
    } else {
        add(&line->out, line->answers.at, line->answers.length);
        line->answers.length = 0;
    }
    add(&line->out, end, sizeof end);
    say(line);
}

/* A line has the turn: it says its next block, or keeps the turn, but never while the other one does. */
static void turn(struct line *line)
{
    int is_full = wanted && line->files - line->other->files >= WINDOW;
    int has_answers = line->answers.length || line->other->holds;
    if (line->is_sender ? is_full : !has_answers)
        line->holds = 1;
    else
        say_block(line);
}

static void answer(struct line *line, int code, int stream)
{
    byte record[] = {code, stream, 0x00};
    add(&line->answers, record, sizeof record);
}

/* A record that says something of a stream. */
static void hear_word(struct line *line, int code, int stream)
{
    if (code == REQUEST) answer(line, PERMISSION, stream);
    if (code == PERMISSION) line->granted = stream == SYSOUT_2;
    if (code == REFUSAL) stop("a file was refused");
    if (code == OUT_OF_SEQUENCE) stop("a block was out of sequence");
}

/* A file's record, or its end, on a stream to a receiver. */
static void hear_record(struct line *line, int stream, int is_end)
{
    int *records = &line->records[stream >> 4];
    ++*records;
    if (!is_end) return;
    if (*records != wanted + 1) stop("a file came with other records");
    *records = 0;
    answer(line, COMPLETE, stream);
    line->files++;
    files++;
}

/* Takes the records of a block, which a 00 follows. */
static void hear(struct line *line, const struct bytes *text)
{
    if (text->at[0] == line->heard) return; /* the same block again */
    line->heard = text->at[0];
    for (const byte *at = text->at + 3; *at;) {
        int rcb = at[0], srcb = at[1], is_end = at[2] == 0x00;
        if (rcb == GENERAL) {
            if (srcb != ANSWERED_SIGN_ON) stop("a session was ended");
            line->is_up = 1;
            return;
        }
        at += 2;
        if ((rcb & 0x0F) == 0) {
            at++;
            hear_word(line, rcb, srcb);
            continue;
        }
        while (*at != 0x00 && *at != 0x40) at += *at >= 0xC0 ? 1 + (*at & 0x3F) : *at >= 0xA0 ? 2 : 1;
        if (*at++ == 0x40) stop("a file was given up");
        if ((rcb & 0x0F) == 0x09) hear_record(line, rcb, is_end);
    }
}

/* How many bytes the first frame takes that came, 0 if it isn't whole; and its text, if it is one. */
static int next_frame(const struct bytes *in, struct bytes *text)
{
    text->length = 0;
    if (in->length && in->at[0] != DLE && in->at[0] != NAK) stop("what came is neither ACK0, NAK nor a text");
    if (in->length < 2 || in->at[0] == NAK) return in->length && in->at[0] == NAK;
    if (in->at[1] != STX) return 2;
    for (int at = 2; at + 1 < in->length; at++) {
        if (in->at[at] == DLE && in->at[++at] == ETB) {
            text->at[text->length] = 0x00;
            return at + 1;
        }
        text->at[text->length++] = in->at[at];
    }
    return 0;
}

static void act(struct line *line, const struct bytes *text)
{
    exchanges++;
    if (text->length) hear(line, text);
    if (line->is_up && line->is_sender && rest)
        line->due = now() + rest / 2 + rand() % rest;
    else if (line->is_up)
        turn(line);
    else {
        line->out = line->sign_on;
        say(line);
    }
    if (line->other->holds && line->is_sender)
        say_block(line->other);
    else if (line->other->holds)
        turn(line->other);
}

static void readable(struct line *line, long moment)
{
    static struct bytes text;
    struct bytes *in = &line->in;
    ssize_t got = recv(line->socket, in->at + in->length, ROOM - in->length, 0);
    if (got <= 0) stop("a connection has ended");
    in->length += got;
    for (int taken; (taken = next_frame(in, &text)) > 0;) {
        int is_nak = in->at[0] == NAK;
        in->length -= taken;
        memmove(in->at, in->at + taken, in->length);
        if (moment - line->said > longest) longest = moment - line->said;
        if (rest && answers < ANSWERS) noted[answers++] = (struct answer){line->is_sender, line->said, moment};
        if (is_nak) {
            asked_again++;
            say(line);
        } else
            act(line, &text);
    }
}

static void read_bytes(struct bytes *to)
{
    static char word[2 * ROOM + 1];
    if (scanf("%16384s", word) != 1) stop("a pair lacks something");
    unsigned one;
    for (to->length = 0; sscanf(word + 2 * to->length, "%2x", &one) == 1;) to->at[to->length++] = one;
}

static void begin(struct line *line, int port, int poll)
{
    struct sockaddr_in address = {AF_INET, htons(port), {htonl(INADDR_LOOPBACK)}, {0}};
    int yes = 1;
    line->socket = socket(AF_INET, SOCK_STREAM, 0);
    line->heard = line->granted = -1;
    if (connect(line->socket, (struct sockaddr *)&address, sizeof address)) stop("can't connect");
    setsockopt(line->socket, IPPROTO_TCP, TCP_NODELAY, &yes, sizeof yes);
    epoll_ctl(poll, EPOLL_CTL_ADD, line->socket, &(struct epoll_event){EPOLLIN, {.ptr = line}});
    add(&line->out, "\x01\x2d", 2);
    say(line);
}

/* The senders whose rest is over go on. */
static void wake(void)
{
    for (struct line *line = lines; line < lines + made; line++)
        if (line->due && line->due <= now()) {
            line->due = 0;
            turn(line);
        }
}

/* Serves what comes for so many nanoseconds. */
static void serve(int poll, long nanoseconds)
{
    static struct epoll_event ready[LINES];
    for (long moment = now(), end = moment + nanoseconds; moment < end;) {
        int count = epoll_wait(poll, ready, LINES, rest ? 0 : 100);
        moment = now();
        for (int at = 0; at < count; at++) readable(ready[at].data.ptr, moment);
        wake();
    }
}

int main(int count, char **words)
{
    if (count < 3 || count > 4) return 1;
    int poll = epoll_create1(0), ports[2];
    wanted = atol(words[2]);
    rest = count == 4 ? atol(words[3]) * 1000 : 0;
    while (made < LINES && scanf("%d %d", &ports[0], &ports[1]) == 2) {
        struct line *sender = &lines[made], *receiver = &lines[made + 1];
        sender->other = receiver, receiver->other = sender, sender->is_sender = 1;
        read_bytes(&sender->sign_on), read_bytes(&receiver->sign_on);
        read_bytes(&sender->file[0]), read_bytes(&sender->file[1]);
        begin(sender, ports[0], poll), begin(receiver, ports[1], poll);
        made += 2;
    }
    for (long at = 0, tries = 0; at < made; at += lines[at].is_up) {
        if (tries++ == made + 100) stop("a line isn't up");
        if (!lines[at].is_up) serve(poll, 100000000L);
    }
    serve(poll, 500000000L);
    puts("begin");
    fflush(stdout);
    long used = read_clock(CLOCK_PROCESS_CPUTIME_ID);
    files = exchanges = longest = asked_again = answers = 0;
    serve(poll, atol(words[1]) * 1000000000L);
    used = read_clock(CLOCK_PROCESS_CPUTIME_ID) - used;
    printf("%ld %ld %ld %ld %ld\n", files, exchanges, longest / 1000, used / 1000, asked_again);
    for (long at = 0; at < answers; at++) printf("%d %ld %ld\n", noted[at].is_sender, noted[at].said, noted[at].came);
}
