// Clients that ask a server at a port of 127.0.0.1 simple queries, each once the one before is answered. bench/serve and bench/beside
// compile it.
//
// clients PORT KIND COUNT SECONDS FIRST     COUNT clients at once, for so many seconds; prints how many a second were answered,
//                                           and after how many microseconds half of them were, and 99 of 100
//   select    a row by its key, of the FIRST keys from 0 on
//   insert    a row of a new key, from FIRST on, and 90,000 of them at most, since a table has its limit
//   connect   no query: a connection, its greeting, and its end
#include <arpa/inet.h>
#include <netinet/tcp.h>
#include <pthread.h>
#include <stdio.h>
#include <stdlib.h>
#include <string.h>
#include <sys/socket.h>
#include <time.h>
#include <unistd.h>

#define MOST 256

static int port;
static const char *kind;
static double seconds;
static long first, most;
static struct answers {
    long count, room;
    unsigned *micros;
} answered[MOST];
static pthread_barrier_t begin;

static double now(void)
{
    struct timespec time;
    clock_gettime(CLOCK_MONOTONIC, &time);
    return time.tv_sec + time.tv_nsec / 1e9;
}

static void give_up(const char *why)
{
    fprintf(stderr, "clients: %s\n", why);
    exit(1);
}

// A connection, with what was read of it and not looked at yet.
struct line {
    int fd;
    size_t have, at;
    unsigned char bytes[1 << 16];
};

static void say(struct line *line, const void *bytes, size_t length)
{
    if (write(line->fd, bytes, length) != (ssize_t)length)
        give_up("a connection failed");
}

static unsigned char *take(struct line *line, size_t wanted)
{
    while (line->have - line->at < wanted) {
        memmove(line->bytes, line->bytes + line->at, line->have - line->at);
        line->have -= line->at;
        line->at = 0;
        ssize_t got = read(line->fd, line->bytes + line->have, sizeof line->bytes - line->have);
        if (got <= 0)
            give_up("the server ended a connection");
        line->have += got;
    }
    line->at += wanted;
    return line->bytes + line->at - wanted;
}

// Reads messages up to ReadyForQuery and with it. No other answer than a good one is taken.
static void hear(struct line *line)
{
    for (;;) {
        unsigned char *head = take(line, 5), type = head[0];
        size_t length = (size_t)head[1] << 24 | head[2] << 16 | head[3] << 8 | head[4];
        take(line, length - 4);
        if (type == 'E')
            give_up("the server told an error");
        if (type == 'Z')
            return;
    }
}

static void open_line(struct line *line)
{
    static const char packet[] = "\0\0\0\x24\0\3\0\0user\0ann\0database\0postgres\0";
    struct sockaddr_in address = {.sin_family = AF_INET, .sin_port = htons(port), .sin_addr = {htonl(INADDR_LOOPBACK)}};
    int on = 1;
    line->fd = socket(AF_INET, SOCK_STREAM, 0);
    line->have = line->at = 0;
    if (line->fd < 0 || connect(line->fd, (struct sockaddr *)&address, sizeof address))
        give_up("there is no server");
    setsockopt(line->fd, IPPROTO_TCP, TCP_NODELAY, &on, sizeof on);
    say(line, packet, sizeof packet); // the zero byte after a literal ends the packet
    hear(line);
}

static void close_line(struct line *line)
{
    say(line, "X\0\0\0\4", 5);
    close(line->fd);
}

static void ask(struct line *line, const char *text)
{
    unsigned char bytes[512];
    size_t length = strlen(text) + 5;
    bytes[0] = 'Q';
    bytes[1] = bytes[2] = 0;
    bytes[3] = length >> 8;
    bytes[4] = length;
    memcpy(bytes + 5, text, length - 4);
    say(line, bytes, length + 1);
    hear(line);
}

// Notes an answer that took so long.
static void note(struct answers *mine, double took)
{
    if (mine->count == mine->room) {
        mine->room = mine->room ? 2 * mine->room : 4096;
        mine->micros = realloc(mine->micros, mine->room * sizeof *mine->micros);
        if (!mine->micros)
            give_up("out of memory");
    }
    mine->micros[mine->count++] = took * 1e6;
}

static void *client(void *number)
{
    long mine = (long)number, done = 0;
    unsigned random = mine + 1;
    char text[256];
    struct line *line = malloc(sizeof *line);
    int connects = !strcmp(kind, "connect"), inserts = !strcmp(kind, "insert");
    if (!line)
        give_up("out of memory");
    if (!connects)
        open_line(line);
    pthread_barrier_wait(&begin);
    double asked = now();
    for (double end = asked + seconds; asked < end && !(inserts && done == most); done++) {
        if (connects) {
            open_line(line);
            close_line(line);
        } else {
            if (inserts)
                snprintf(text, sizeof text, "INSERT INTO kv VALUES (%ld, 'sixteen bytes ..')", first + mine * 1000000 + done);
            else
                snprintf(text, sizeof text, "SELECT k, v FROM kv WHERE k = %ld", rand_r(&random) % first);
            ask(line, text);
        }
        double then = now();
        note(&answered[mine], then - asked);
        asked = then;
    }
    if (!connects)
        close_line(line);
    return 0;
}

static int by_size(const void *a, const void *b)
{
    unsigned one = *(const unsigned *)a, other = *(const unsigned *)b;
    return (one > other) - (one < other);
}

// All that the clients noted, from the shortest on.
static struct answers all_of(long clients)
{
    struct answers all = {0, 0, 0};
    for (long i = 0; i < clients; i++)
        all.room += answered[i].count;
    all.micros = malloc((all.room + 1) * sizeof *all.micros);
    if (!all.micros)
        give_up("out of memory");
    for (long i = 0; i < clients; i++) {
        if (answered[i].count)
            memcpy(all.micros + all.count, answered[i].micros, answered[i].count * sizeof *all.micros);
        all.count += answered[i].count;
    }
    qsort(all.micros, all.count, sizeof *all.micros, by_size);
    return all;
}

int main(int count, char **words)
{
    pthread_t threads[MOST];
    if (count != 6)
        give_up("usage: clients PORT KIND COUNT SECONDS FIRST");
    port = atoi(words[1]);
    kind = words[2];
    long clients = atol(words[3]);
    seconds = atof(words[4]);
    first = atol(words[5]);
    if (clients < 1 || clients > MOST)
        give_up("at most 256 clients");
    most = 90000 / clients;
    pthread_barrier_init(&begin, 0, clients + 1);
    for (long i = 0; i < clients; i++)
        if (pthread_create(&threads[i], 0, client, (void *)i))
            give_up("no thread");
    pthread_barrier_wait(&begin);
    double from = now();
    for (long i = 0; i < clients; i++)
        pthread_join(threads[i], 0);
    double took = now() - from;
    struct answers all = all_of(clients);
    if (!all.count)
        give_up("nothing was answered");
    printf("%.0f %u %u\n", all.count / took, all.micros[all.count / 2], all.micros[all.count * 99 / 100]);
}
