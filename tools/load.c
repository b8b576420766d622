/* Measures how fast a server answers: clients in threads, each of which sends one request, waits for the whole reply, and only then sends
   the next.

       load manager PORT SITES CLIENTS SECONDS add|penalty|status USER SECRET
       load redis PORT 1 CLIENTS SECONDS hset
       load shown PORT OTHER SECONDS USER SECRET

   Client i connects to 127.0.0.1 at PORT + i % SITES. `add` adds a member of its own and removes it in turn, `penalty` sets the penalty of
   SIP/0, `status` asks for the whole report, `hset` sets a field of a hash. A client that isn't greeted until the time is up asks nothing.
   `shown` has one client of each of two sites: the first adds a member, the second asks for reports from the reply on until it is shown, and
   the first removes it. It prints one line: how many requests were answered (or members were shown), how many bytes of replies came, and
   within how many nanoseconds half of the replies came, 99 of 100, and all. Status 1: a reply is wrong, or the server is gone. */
#define _GNU_SOURCE
#include <arpa/inet.h>
#include <errno.h>
#include <netinet/tcp.h>
#include <pthread.h>
#include <stdarg.h>
#include <stdint.h>
#include <stdio.h>
#include <stdlib.h>
#include <string.h>
#include <sys/socket.h>
#include <time.h>
#include <unistd.h>

enum { MOST_CLIENTS = 1024, ROOM = 1 << 23, REQUEST = 512 };

enum kind { ADD, PENALTY, STATUS, HSET, SHOWN };

/* What every client does. */
static struct load {
    enum kind kind;
    int port, other, sites, clients;
    uint64_t begins, ends;
    const char *user, *secret;
} load;

/* A client: its connection, the bytes of the reply so far, and how long each reply took. */
struct client {
    pthread_t thread;
    int number, stream;
    char *reply;
    size_t length;
    uint64_t bytes;
    uint32_t *times;
    size_t count, room;
};

static void fail(const char *format, ...) {
    va_list words;
    va_start(words, format);
    fputs("load: ", stderr);
    vfprintf(stderr, format, words);
    fputc('\n', stderr);
    exit(1);
}

static uint64_t now(void) {
    struct timespec time;
    clock_gettime(CLOCK_MONOTONIC, &time);
    return (uint64_t)time.tv_sec * 1000000000u + time.tv_nsec;
}

static void *allocated(void *old, size_t bytes) {
    void *new = realloc(old, bytes);
    if (!new) fail("out of memory");
    return new;
}

static void connect_client(struct client *client) {
    int port = load.kind == SHOWN && client->number ? load.other : load.port + client->number % load.sites;
    struct sockaddr_in address = {.sin_family = AF_INET, .sin_port = htons(port)};
    int yes = 1;
    address.sin_addr.s_addr = htonl(INADDR_LOOPBACK);
    client->stream = socket(AF_INET, SOCK_STREAM, 0);
    if (client->stream < 0 || connect(client->stream, (struct sockaddr *)&address, sizeof address)) fail("connect: %s", strerror(errno));
    setsockopt(client->stream, IPPROTO_TCP, TCP_NODELAY, &yes, sizeof yes);
}

static void send_request(struct client *client, const char *request, size_t length) {
    for (size_t sent = 0; sent < length;) {
        ssize_t taken = send(client->stream, request + sent, length - sent, MSG_NOSIGNAL);
        if (taken <= 0) fail("send: %s", strerror(errno));
        sent += taken;
    }
}

static int ends_with(const struct client *client, const char *end) {
    size_t length = strlen(end);
    return client->length >= length && !memcmp(client->reply + client->length - length, end, length);
}

/* Whether the last block of a report has come: an event QueueStatusComplete, and the empty line behind it. */
static int is_report(const struct client *client) {
    static const char last[] = "\r\n\r\nEvent: QueueStatusComplete\r\n";
    if (!ends_with(client, "\r\n\r\n")) return 0;
    size_t tail = client->length < 256 ? client->length : 256;
    return memmem(client->reply + client->length - tail, tail, last, sizeof last - 1) != NULL;
}

/* Reads until the reply has this end; of a report until its last block has come. */
static void read_reply(struct client *client, const char *end, int report) {
    client->length = 0;
    do {
        if (client->length == ROOM) fail("a reply has more than %d bytes", ROOM);
        ssize_t came = recv(client->stream, client->reply + client->length, ROOM - client->length, 0);
        if (came <= 0) fail("a connection ended behind %.*s", (int)client->length, client->reply);
        client->length += came;
    } while (report ? !is_report(client) : !ends_with(client, end));
}

static void must_begin(const struct client *client, const char *front) {
    if (client->length < strlen(front) || memcmp(client->reply, front, strlen(front)))
        fail("a reply is %.*s", (int)(client->length < 200 ? client->length : 200), client->reply);
}

/* Waits for the greeting and logs in. Whether the time isn't up yet. */
static int begin(struct client *client) {
    char request[REQUEST];
    if (load.kind == HSET) return 1;
    read_reply(client, "\r\n", 0);
    int length = snprintf(request, sizeof request, "Action: Login\r\nUsername: %s\r\nSecret: %s\r\n\r\n", load.user, load.secret);
    send_request(client, request, length);
    read_reply(client, "\r\n\r\n", 0);
    must_begin(client, "Response: Success\r\n");
    return now() < load.ends;
}

static void note(struct client *client, uint64_t took) {
    if (client->count == client->room) {
        client->room = client->room ? 2 * client->room : 1 << 16;
        client->times = allocated(client->times, client->room * sizeof *client->times);
    }
    client->times[client->count++] = took > UINT32_MAX ? UINT32_MAX : took;
    client->bytes += client->length;
}

/* Writes the next request. Its length. */
static int next_request(const struct client *client, char *request) {
    int value = 100 + client->count % 900;
    const char *action = client->count % 2 ? "QueueRemove" : "QueueAdd";
    switch (load.kind) {
    case ADD:
        return snprintf(request, REQUEST, "Action: %s\r\nQueue: sales\r\nInterface: SIP/own-%d\r\n\r\n", action, client->number);
    case PENALTY:
        return snprintf(request, REQUEST, "Action: QueuePenalty\r\nInterface: SIP/0\r\nPenalty: %d\r\n\r\n", value);
    case STATUS:
        return snprintf(request, REQUEST, "Action: QueueStatus\r\n\r\n");
    default:
        return snprintf(request, REQUEST, "*4\r\n$4\r\nHSET\r\n$5\r\nsales\r\n$13\r\nSIP/0:penalty\r\n$3\r\n%d\r\n", value);
    }
}

static void *run(void *given) {
    struct client *client = given;
    char request[REQUEST];
    client->reply = allocated(NULL, ROOM);
    connect_client(client);
    if (begin(client)) {
        while (now() < load.begins) usleep(1000);
        while (now() < load.ends) {
            int length = next_request(client, request);
            uint64_t began = now();
            send_request(client, request, length);
            read_reply(client, load.kind == HSET ? "\r\n" : "\r\n\r\n", load.kind == STATUS);
            note(client, now() - began);
            must_begin(client, load.kind == HSET ? ":" : "Response: Success\r\n");
        }
    }
    close(client->stream);
    free(client->reply);
    return NULL;
}

/* Sends a request and reads its reply, which must be a success. */
static void ask(struct client *client, const char *request, int report) {
    send_request(client, request, strlen(request));
    read_reply(client, "\r\n\r\n", report);
    must_begin(client, "Response: Success\r\n");
}

/* Adds a member by one client again and again, and asks by the other until it is shown. Notes how long that took from the reply on. */
static void run_shown(struct client *clients) {
    struct client *one = clients, *other = clients + 1;
    char request[REQUEST], location[64];
    for (int i = 0; i < 2; i++) {
        clients[i].reply = allocated(NULL, ROOM);
        connect_client(&clients[i]);
        if (!begin(&clients[i])) return;
    }
    for (int number = 0; now() < load.ends; number++) {
        snprintf(request, sizeof request, "Action: QueueAdd\r\nQueue: sales\r\nInterface: SIP/shown-%d\r\n\r\n", number);
        snprintf(location, sizeof location, "Location: SIP/shown-%d\r\n", number);
        ask(one, request, 0);
        uint64_t began = now();
        do {
            ask(other, "Action: QueueStatus\r\n\r\n", 1);
        } while (now() < load.ends && !memmem(other->reply, other->length, location, strlen(location)));
        if (memmem(other->reply, other->length, location, strlen(location))) note(other, now() - began);
        snprintf(request, sizeof request, "Action: QueueRemove\r\nQueue: sales\r\nInterface: SIP/shown-%d\r\n\r\n", number);
        ask(one, request, 0);
        usleep(2000); /* both sites are at rest again */
    }
}

static int compare(const void *one, const void *other) {
    uint32_t a = *(const uint32_t *)one, b = *(const uint32_t *)other;
    return (a > b) - (a < b);
}

static void print_times(struct client *clients) {
    size_t count = 0, at = 0;
    uint64_t bytes = 0;
    for (int i = 0; i < load.clients; i++) count += clients[i].count;
    if (!count) fail("no request was answered");
    uint32_t *times = allocated(NULL, count * sizeof *times);
    for (int i = 0; i < load.clients; i++) {
        if (clients[i].count) memcpy(times + at, clients[i].times, clients[i].count * sizeof *times);
        at += clients[i].count;
        bytes += clients[i].bytes;
    }
    qsort(times, count, sizeof *times, compare);
    printf("%zu %llu %u %u %u\n", count, (unsigned long long)bytes, times[(count - 1) / 2], times[(count - 1) * 99 / 100], times[count - 1]);
}

static int number(const char *word, int least, int most) {
    char *end;
    long value = strtol(word, &end, 10);
    if (*end || value < least || value > most) fail("%s isn't a number from %d to %d", word, least, most);
    return value;
}

static enum kind kind_of(int words, char **word) {
    if (words == 7 && !strcmp(word[1], "shown")) return SHOWN;
    if (words == 9 && !strcmp(word[1], "manager") && !strcmp(word[6], "add")) return ADD;
    if (words == 9 && !strcmp(word[1], "manager") && !strcmp(word[6], "penalty")) return PENALTY;
    if (words == 9 && !strcmp(word[1], "manager") && !strcmp(word[6], "status")) return STATUS;
    if (words == 7 && !strcmp(word[1], "redis") && !strcmp(word[6], "hset")) return HSET;
    fail("usage: load manager PORT SITES CLIENTS SECONDS add|penalty|status USER SECRET, load redis PORT 1 CLIENTS SECONDS hset, or load shown PORT OTHER SECONDS USER SECRET");
    return HSET;
}

/* Reads what to do from the words of the command line. Returns the seconds that it takes. */
static int read_words(int words, char **word) {
    load.kind = kind_of(words, word);
    load.port = number(word[2], 1, 65535);
    if (load.kind == SHOWN) {
        load.sites = 1, load.clients = 2, load.other = number(word[3], 1, 65535);
        load.user = word[5], load.secret = word[6];
        return number(word[4], 1, 3600);
    }
    load.sites = number(word[3], 1, 64);
    load.clients = number(word[4], 1, MOST_CLIENTS);
    if (load.kind != HSET) load.user = word[7], load.secret = word[8];
    return number(word[5], 1, 3600);
}

int main(int words, char **word) {
    static struct client clients[MOST_CLIENTS];
    int seconds = read_words(words, word);
    load.begins = now() + 200000000u;
    load.ends = load.begins + (uint64_t)seconds * 1000000000u;
    for (int i = 0; i < load.clients; i++) clients[i].number = i;
    if (load.kind == SHOWN) {
        run_shown(clients);
        print_times(clients);
        return 0;
    }
    for (int i = 0; i < load.clients; i++)
        if (pthread_create(&clients[i].thread, NULL, run, &clients[i])) fail("no thread");
    for (int i = 0; i < load.clients; i++) pthread_join(clients[i].thread, NULL);
    print_times(clients);
    return 0;
}
