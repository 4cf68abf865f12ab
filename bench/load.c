/* The load of bench/serve.py: connections to a server of 127.0.0.1, each of which sends a request, waits for its answer and sends the next
   one, for a time. It is in C so that it isn't the limit.

   load edits|texts|webs|pushes|gets PORT CONNECTIONS THREADS MILLISECONDS
   load floor FILE MILLISECONDS

   `webs` are edits over WebSockets, whose frames are masked by zeros.

   The floor is the writes and syncs of a commit of one character, without a server.

   Output: a line "COUNT NANOSECONDS BUSY", BUSY being the nanoseconds that this program had a processor; behind it the COUNT times until an
   answer, in nanoseconds, 4 bytes each in the order of this machine. */

#include <arpa/inet.h>
#include <fcntl.h>
#include <netinet/tcp.h>
#include <pthread.h>
#include <stdint.h>
#include <stdio.h>
#include <stdlib.h>
#include <string.h>
#include <sys/epoll.h>
#include <sys/resource.h>
#include <sys/socket.h>
#include <time.h>
#include <unistd.h>

enum { PAGE = 4096, ROOM = 4096, MOST = 64 };

/* What a client sends, with the number of its connection; how an answer begins, and how many line feeds it has; what it asks once before,
   if it does: the last of the daemon's places is given only to a session that asks for the status first; and whether both go in frames. */
struct protocol {
    const char *name, *request, *begins;
    int feeds;
    const char *first;
    int is_framed;
};

/* The bytes of a frame before a message of less than 126 bytes: from a client and to it. */
enum { ASKED = 6, TOLD = 2 };

#define STATUS "{\"op\":\"status\"}\n"

static const struct protocol protocols[] = {
    {"edits", "{\"op\":\"insert\",\"doc\":%d,\"at\":0,\"text\":\"x\"}\n", "{\"ok\":true", 1, STATUS, 0},
    {"webs", "{\"op\":\"insert\",\"doc\":%d,\"at\":0,\"text\":\"x\"}", "{\"ok\":true", 0, "{\"op\":\"status\"}", 1},
    {"texts", "{\"op\":\"text\",\"doc\":1000}\n", "{\"ok\":true", 1, STATUS, 0},
    {"pushes", "*3\r\n$5\r\nRPUSH\r\n$7\r\nlist%03d\r\n$1\r\nx\r\n", ":", 1, NULL, 0},
    {"gets", "*2\r\n$3\r\nGET\r\n$4\r\ntext\r\n", "$", 2, NULL, 0},
};

struct times {
    uint32_t *list;
    size_t count, room;
};

struct connection {
    int socket;
    char request[128], answer[ROOM];
    size_t length, had;
    uint64_t sent;
};

/* A thread of the load, and its connections. */
struct worker {
    pthread_t thread;
    struct connection *connections;
    int count;
    struct times times;
};

static const struct protocol *protocol;
static uint64_t until;

static void end_with(const char *what) {
    perror(what);
    exit(1);
}

static uint64_t now(clockid_t clock) {
    struct timespec time;
    clock_gettime(clock, &time);
    return time.tv_sec * 1000000000ull + time.tv_nsec;
}

static uint64_t passed(void) { return now(CLOCK_MONOTONIC); }

static void keep(struct times *times, uint64_t took) {
    if (times->count == times->room) {
        times->room = times->room ? 2 * times->room : 65536;
        times->list = realloc(times->list, times->room * sizeof *times->list);
        if (!times->list) end_with("memory");
    }
    times->list[times->count++] = took < UINT32_MAX ? took : UINT32_MAX;
}

static int connected(int port) {
    struct sockaddr_in address = {.sin_family = AF_INET, .sin_port = htons(port)};
    struct timeval patience = {.tv_sec = 20};
    int one = 1, made = socket(AF_INET, SOCK_STREAM, 0);
    inet_pton(AF_INET, "127.0.0.1", &address.sin_addr);
    if (made < 0 || connect(made, (struct sockaddr *)&address, sizeof address)) end_with("connect");
    setsockopt(made, IPPROTO_TCP, TCP_NODELAY, &one, sizeof one);
    setsockopt(made, SOL_SOCKET, SO_RCVTIMEO, &patience, sizeof patience);
    return made;
}

static void say(int socket, const char *bytes, size_t count) {
    if (send(socket, bytes, count, MSG_NOSIGNAL) != (ssize_t)count) end_with("send");
}

static void take(int socket, char *bytes, size_t count) {
    if (recv(socket, bytes, count, MSG_WAITALL) != (ssize_t)count) end_with("a first answer");
}

/* Puts a message into a frame, and gives its length; or leaves it as it is. */
static size_t framed(char *into, const char *message) {
    size_t length = strlen(message);
    if (protocol->is_framed) {
        char head[ASKED] = {(char)0x81, (char)(0x80 | length)};
        memcpy(into, head, ASKED);
        into += ASKED;
    }
    memcpy(into, message, length);
    return protocol->is_framed ? length + ASKED : length;
}

/* The handshake of a WebSocket, with the key that stands in RFC 6455. */
static void shake_hands(int socket, int port) {
    char head[256], byte[4] = {0};
    int length = snprintf(head, sizeof head,
        "GET / HTTP/1.1\r\nHost: 127.0.0.1:%d\r\nUpgrade: websocket\r\nConnection: Upgrade\r\n"
        "Sec-WebSocket-Key: dGhlIHNhbXBsZSBub25jZQ==\r\nSec-WebSocket-Version: 13\r\n\r\n", port);
    say(socket, head, length);
    while (memcmp(byte, "\r\n\r\n", 4)) {
        memmove(byte, byte + 1, 3);
        take(socket, byte + 3, 1);
    }
}

/* Asks what is asked once before, and drops the answer, a line or a message. */
static void begin(const struct connection *at, int port) {
    char sent[64], answer[128] = {0};
    if (protocol->is_framed) shake_hands(at->socket, port);
    say(at->socket, sent, framed(sent, protocol->first));
    if (protocol->is_framed) {
        take(at->socket, answer, TOLD);
        take(at->socket, answer, answer[1]);
    } else
        while (answer[0] != '\n') take(at->socket, answer, 1);
}

static void ask(struct connection *at) {
    at->had = 0;
    at->sent = passed();
    if (send(at->socket, at->request, at->length, MSG_NOSIGNAL) != (ssize_t)at->length) end_with("send");
}

static int is_whole(const struct connection *at) {
    int feeds = 0;
    if (protocol->is_framed) return at->had > TOLD && at->had == TOLD + (size_t)at->answer[1];
    for (size_t i = 0; i < at->had; i++) feeds += at->answer[i] == '\n';
    return feeds == protocol->feeds;
}

/* Reads what is there; whether the answer is whole. */
static int hear(struct connection *at) {
    ssize_t more = recv(at->socket, at->answer + at->had, ROOM - at->had, 0);
    if (more <= 0) end_with("an answer");
    at->had += more;
    size_t head = protocol->is_framed ? TOLD : 0, first = strlen(protocol->begins);
    if (at->had >= head + first && strncmp(at->answer + head, protocol->begins, first)) {
        fprintf(stderr, "refused: %.*s", (int)at->had, at->answer);
        exit(1);
    }
    return is_whole(at);
}

/* Keeps the time of an answer, and asks again; whether there was time for it. */
static int go_on(struct worker *self, struct connection *at) {
    uint64_t heard = passed();
    keep(&self->times, heard - at->sent);
    if (heard >= until) return 0;
    ask(at);
    return 1;
}

static void serve_one(struct worker *self) {
    struct connection *at = self->connections;
    ask(at);
    do
        while (!hear(at)) {}
    while (go_on(self, at));
}

static void serve_many(struct worker *self) {
    struct epoll_event events[MOST];
    int poll = epoll_create1(0), left = self->count;
    for (int i = 0; i < self->count; i++) {
        struct epoll_event event = {.events = EPOLLIN, .data.ptr = &self->connections[i]};
        epoll_ctl(poll, EPOLL_CTL_ADD, self->connections[i].socket, &event);
        ask(&self->connections[i]);
    }
    while (left) {
        int count = epoll_wait(poll, events, MOST, 20000);
        if (count <= 0) end_with("no answer in 20 seconds");
        for (int i = 0; i < count; i++)
            if (hear(events[i].data.ptr) && !go_on(self, events[i].data.ptr)) left--;
    }
    close(poll);
}

static void *work(void *given) {
    struct worker *self = given;
    if (self->count == 1)
        serve_one(self);
    else
        serve_many(self);
    return NULL;
}

static void tell(uint64_t took, const struct worker *workers, int threads) {
    size_t count = 0;
    for (int i = 0; i < threads; i++) count += workers[i].times.count;
    printf("%zu %llu %llu\n", count, (unsigned long long)took, (unsigned long long)now(CLOCK_PROCESS_CPUTIME_ID));
    for (int i = 0; i < threads; i++) fwrite(workers[i].times.list, sizeof(uint32_t), workers[i].times.count, stdout);
}

static void load(int port, int count, int threads, int milliseconds) {
    struct connection *connections = calloc(count, sizeof *connections);
    struct worker *workers = calloc(threads, sizeof *workers);
    if (!connections || !workers) end_with("memory");
    for (int i = 0; i < count; i++) {
        connections[i].socket = connected(port);
        if (protocol->first) begin(&connections[i], port);
        char request[96];
        snprintf(request, sizeof request, protocol->request, i + 1);
        connections[i].length = framed(connections[i].request, request);
    }
    uint64_t started = passed();
    until = started + milliseconds * 1000000ull;
    for (int i = 0, first = 0; i < threads; i++) {
        workers[i].connections = connections + first;
        workers[i].count = (count - first) / (threads - i);
        first += workers[i].count;
        if (pthread_create(&workers[i].thread, NULL, work, &workers[i])) end_with("a thread");
    }
    for (int i = 0; i < threads; i++) pthread_join(workers[i].thread, NULL);
    tell(passed() - started, workers, threads);
}

static void put(int file, const void *bytes, size_t count, off_t at) {
    if (pwrite(file, bytes, count, at) != (ssize_t)count) end_with("a write");
}

static void sync_data(int file) {
    if (fdatasync(file)) end_with("a sync");
}

static void commit(int file, int turn, const char *page) {
    off_t slot = turn % 2 * PAGE, first = (2 + turn % 2 * 2) * PAGE;
    put(file, page, PAGE, first);
    put(file, page, PAGE, first + PAGE);
    put(file, "\0", 1, slot);
    sync_data(file);
    put(file, page, PAGE - 8, slot + 8);
    sync_data(file);
    put(file, "\1", 1, slot);
    sync_data(file);
}

static void floor_of(const char *name, int milliseconds) {
    static char page[8 * PAGE];
    struct worker self = {0};
    int file = open(name, O_RDWR | O_CREAT, 0600);
    if (file < 0) end_with(name);
    put(file, page, sizeof page, 0);
    sync_data(file);
    uint64_t started = passed();
    until = started + milliseconds * 1000000ull;
    for (int turn = 0; passed() < until; turn++) {
        uint64_t begun = passed();
        memset(page, 'a' + turn % 26, PAGE);
        commit(file, turn, page);
        keep(&self.times, passed() - begun);
    }
    tell(passed() - started, &self, 1);
}

int main(int count, char **words) {
    if (count == 4 && !strcmp(words[1], "floor")) {
        floor_of(words[2], atoi(words[3]));
        return 0;
    }
    for (size_t i = 0; count == 6 && i < sizeof protocols / sizeof *protocols; i++)
        if (!strcmp(words[1], protocols[i].name)) protocol = &protocols[i];
    if (!protocol) {
        fprintf(stderr, "see the head of load.c\n");
        return 2;
    }
    load(atoi(words[2]), atoi(words[3]), atoi(words[4]), atoi(words[5]));
    return 0;
}
