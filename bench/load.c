/* Sends requests to a server over connections that are kept open, one request at a time in each.

   load socket PORT         connects to 127.0.0.1
   load frames IN OUT       speaks the frames of davserve: writes to one descriptor that it has got, and reads from another
   load plain IN OUT        the same to a build of davserve from before there were windows

   Each line of the input is a command: CONNECTIONS SECONDS FILE. The file holds requests, each behind a line with its length. Every connection plays them
   in turn, once where SECONDS is 0, else again and again until so much time has passed; it ends behind the last request. In the first 4096 bytes of a request
   @N@ is the number of the connection, from 0, and @TOKEN@ the token of the last lock that it was granted. The answer to a command is a line:
   REQUESTS SECONDS WRONG, the last being how many answers had a status other than 2xx. */
#define _GNU_SOURCE
#include <arpa/inet.h>
#include <errno.h>
#include <fcntl.h>
#include <netinet/tcp.h>
#include <poll.h>
#include <stdint.h>
#include <stdio.h>
#include <stdlib.h>
#include <string.h>
#include <strings.h>
#include <sys/epoll.h>
#include <sys/uio.h>
#include <time.h>
#include <unistd.h>

enum { MOST = 512, HEAD = 64 * 1024, PIECE = 64 * 1024, TOKEN = 256, NEAR = 4096 };
enum { WINDOW = 256 * 1024 };
enum part { IN_HEAD, IN_LENGTH, IN_CHUNK_SIZE, IN_CHUNK, IN_TRAILER };

struct text { char *bytes; size_t length; };

struct connection {
    int fd;
    unsigned long number;             /* of its frames */
    size_t granted, taken;            /* how much more may be sent, and how much was taken since that was said */
    size_t next;                      /* the request to be sent next */
    int waits, closes, done;
    char *out; size_t left;           /* what is still to be sent of the request */
    char *filled;                     /* the request, where something was filled in */
    enum part part;
    char *head; size_t in_head;
    unsigned long long body;          /* how much of the body or the chunk is still to come */
    size_t in_line;
    char *token;
};

/* Heads and tokens stand apart, so that the connections themselves are near to each other. */
static struct connection connections[MOST];
static char heads[MOST][HEAD], tokens[MOST][TOKEN];
static int count, port, watched = -1, to_server = -1, from_server = -1;
static unsigned long begun;
static struct text *requests;
static size_t request_count;
static unsigned long answered, wrong;
static double ends;
/* What may be sent of a connection before more is granted; once half of it was taken that is said. */
static size_t window = WINDOW;

static void fail(const char *what) { perror(what); exit(1); }

static double now(void) {
    struct timespec at;
    clock_gettime(CLOCK_MONOTONIC, &at);
    return at.tv_sec + at.tv_nsec / 1e9;
}

static void *taken(void *memory) { if (!memory) fail("memory"); return memory; }

/* ---- requests */

static void read_requests(const char *name) {
    FILE *file = fopen(name, "rb");
    if (!file) fail(name);
    for (size_t n = 0; n < request_count; n++) free(requests[n].bytes);
    request_count = 0;
    size_t length;
    while (fscanf(file, "%zu", &length) == 1 && fgetc(file) == '\n') {
        requests = taken(realloc(requests, (request_count + 1) * sizeof *requests));
        struct text *request = &requests[request_count++];
        request->bytes = taken(malloc(length + 1));
        request->length = length;
        if (fread(request->bytes, 1, length, file) != length) fail("a short file");
        request->bytes[length] = 0;
    }
    fclose(file);
}

/* Something is to be filled in near the beginning alone: what comes behind that is copied as it is, so that the client takes little time for a long request. */
static void fill_in(struct connection *c, struct text *request) {
    free(c->filled);
    c->filled = NULL;
    c->out = request->bytes;
    c->left = request->length;
    size_t near = request->length < NEAR ? request->length : NEAR;
    if (!memchr(request->bytes, '@', near)) return;
    char *to = c->filled = taken(malloc(request->length + 16 * TOKEN)), *from = request->bytes;
    for (char *end = from + near; from < end;) {
        if (end - from >= 3 && !memcmp(from, "@N@", 3)) { to += sprintf(to, "%d", (int)(c - connections)); from += 3; }
        else if (end - from >= 7 && !memcmp(from, "@TOKEN@", 7)) { to += sprintf(to, "%s", c->token); from += 7; }
        else *to++ = *from++;
    }
    size_t rest = request->length - near;
    memcpy(to, from, rest);
    c->out = c->filled;
    c->left = to + rest - c->filled;
}

/* The next request of a connection that waits for no answer; none where its turn is over. */
static void begin_next(struct connection *c) {
    if (c->next == request_count) {
        c->next = 0;
        if (now() >= ends) { c->done = 1; return; }
    }
    fill_in(c, &requests[c->next++]);
    c->waits = 1;
    c->part = IN_HEAD;
    c->in_head = 0;
}

/* ---- answers */

static void answer_ends(struct connection *c) { c->waits = 0; answered++; }

/* The value of a field of the head, or NULL. */
static const char *field(const char *head, const char *name) {
    size_t length = strlen(name);
    for (const char *line = strstr(head, "\r\n"); line && line[2] != '\r'; line = strstr(line + 2, "\r\n"))
        if (!strncasecmp(line + 2, name, length) && line[2 + length] == ':') {
            line += 3 + length;
            return line + strspn(line, " ");
        }
    return NULL;
}

static void head_ends(struct connection *c) {
    int status = atoi(c->head + 9);
    if (status / 100 != 2 && !wrong++) fprintf(stderr, "a wrong answer to %.40s: %.40s\n", c->filled ? c->filled : requests[c->next - 1].bytes, c->head);
    const char *value;
    if ((value = field(c->head, "connection")) && !strncasecmp(value, "close", 5)) c->closes = 1;
    if ((value = field(c->head, "lock-token")) && *value == '<') sscanf(value, "<%250[^>]", c->token);
    c->in_line = 0;
    if (status == 204 || status == 304) answer_ends(c);
    else if ((value = field(c->head, "transfer-encoding"))) { c->part = IN_CHUNK_SIZE; c->body = 0; }
    else {
        value = field(c->head, "content-length");
        c->body = value ? strtoull(value, NULL, 10) : 0;
        c->part = IN_LENGTH;
        if (!c->body) answer_ends(c);
    }
}

static size_t take_head(struct connection *c, const char *bytes, size_t length) {
    size_t room = HEAD - 1 - c->in_head, old = c->in_head, part = length < room ? length : room;
    if (!part) { fprintf(stderr, "a long head\n"); exit(1); }
    memcpy(c->head + old, bytes, part);
    c->head[old + part] = 0;
    char *end = memmem(c->head + (old > 3 ? old - 3 : 0), old + part - (old > 3 ? old - 3 : 0), "\r\n\r\n", 4);
    if (!end) { c->in_head += part; return part; }
    end[4] = 0;
    head_ends(c);
    return end + 4 - (c->head + old);
}

static size_t take_chunk_line(struct connection *c, char byte) {
    if (byte == '\n') {
        if (c->part == IN_TRAILER) { if (!c->in_line) answer_ends(c); }
        else if (c->in_line) c->part = c->body ? IN_CHUNK : IN_TRAILER;
        c->in_line = 0;
    } else if (byte != '\r') {
        if (c->part == IN_CHUNK_SIZE) c->body = c->body * 16 + (byte <= '9' ? byte - '0' : (byte | 32) - 'a' + 10);
        c->in_line++;
    }
    return 1;
}

static void take(struct connection *c, const char *bytes, size_t length) {
    while (length) {
        size_t part;
        if (!c->waits) { fprintf(stderr, "an answer that nobody asked for\n"); exit(1); }
        if (c->part == IN_HEAD) part = take_head(c, bytes, length);
        else if (c->part == IN_CHUNK_SIZE || c->part == IN_TRAILER) part = take_chunk_line(c, *bytes);
        else {
            part = length < c->body ? length : c->body;
            c->body -= part;
            if (!c->body && c->part == IN_LENGTH) answer_ends(c);
            else if (!c->body) c->part = IN_CHUNK_SIZE;
        }
        bytes += part;
        length -= part;
    }
}

/* ---- sockets */

static void open_socket(struct connection *c) {
    struct sockaddr_in at = {.sin_family = AF_INET, .sin_port = htons(port), .sin_addr.s_addr = htonl(INADDR_LOOPBACK)};
    int one = 1;
    c->fd = socket(AF_INET, SOCK_STREAM, 0);
    if (c->fd < 0 || connect(c->fd, (struct sockaddr *)&at, sizeof at)) fail("connect");
    setsockopt(c->fd, IPPROTO_TCP, TCP_NODELAY, &one, sizeof one);
    fcntl(c->fd, F_SETFL, O_NONBLOCK);
    struct epoll_event event = {.events = EPOLLIN | EPOLLOUT | EPOLLET, .data.ptr = c};
    if (epoll_ctl(watched, EPOLL_CTL_ADD, c->fd, &event)) fail("epoll_ctl");
    c->closes = 0;
}

static void send_socket(struct connection *c) {
    while (c->left) {
        ssize_t sent = write(c->fd, c->out, c->left);
        if (sent < 0) { if (errno == EAGAIN) return; fail("write"); }
        c->out += sent;
        c->left -= sent;
    }
}

static void go_on(struct connection *c) {
    if (c->waits || c->done) return;
    begin_next(c);
    if (c->done) return;
    if (c->closes) { close(c->fd); open_socket(c); }
    send_socket(c);
}

/* Each connection is watched from its opening to its close; what it is told is that something has changed. */
static void play_sockets(void) {
    static char buffer[1 << 20];
    for (int n = 0; n < count; n++) { open_socket(&connections[n]); go_on(&connections[n]); }
    for (int open = count; open;) {
        struct epoll_event told[MOST];
        int events = epoll_wait(watched, told, MOST, 60000);
        if (events <= 0) fail("epoll_wait");
        for (int n = 0; n < events; n++) {
            struct connection *c = told[n].data.ptr;
            if (c->done) continue;
            if (told[n].events & EPOLLOUT) send_socket(c);
            ssize_t got;
            do {
                got = read(c->fd, buffer, sizeof buffer);
                if (got < 0 && errno == EAGAIN) break;
                if (got <= 0 && !c->waits && c->closes) break;
                if (got <= 0) { fprintf(stderr, "closed in an answer\n"); exit(1); }
                take(c, buffer, got);
            } while (got == sizeof buffer);
            go_on(c);
            open -= c->done;
        }
    }
    for (int n = 0; n < count; n++) close(connections[n].fd);
}

/* ---- frames */

/* What is being written: lines, at the end of their room, and behind them a piece of a connection. */
static char lines[MOST * 64];
static size_t lines_left, piece_left;
static struct connection *sends;
static int turn, is_asked;            /* whether the program waits for "none" */

static struct connection *next_to_send(void) {
    for (int n = 0; n < count; n++) {
        struct connection *c = &connections[(turn + n) % count];
        if (!c->left || !c->granted) continue;
        turn = (turn + n + 1) % count;
        return c;
    }
    return NULL;
}

/* What was taken, and the next piece; "none" where there is no more. */
static void next_lines(void) {
    char *to = lines;
    for (struct connection *c = connections; c < connections + count; c++)
        if (c->taken >= window / 2) { to += sprintf(to, "taken %lu %zu\n", c->number, c->taken); c->taken = 0; }
    sends = next_to_send();
    if (sends) {
        if (!sends->number) sends->number = ++begun;
        piece_left = sends->left < PIECE ? sends->left : PIECE;
        if (piece_left > sends->granted) piece_left = sends->granted;
        sends->granted -= piece_left;
        to += sprintf(to, "%lu %zu\n", sends->number, piece_left);
    } else if (is_asked) {
        to += sprintf(to, "none\n");
        is_asked = 0;
    }
    lines_left = to - lines;
    memmove(lines + sizeof lines - lines_left, lines, lines_left);
}

/* Whether something is still to be written. */
static int send_frames(void) {
    for (;;) {
        if (!lines_left && !piece_left) next_lines();
        if (!lines_left && !piece_left) return 0;
        struct iovec parts[2] = {{lines + sizeof lines - lines_left, lines_left}, {sends ? sends->out : NULL, piece_left}};
        ssize_t sent = writev(to_server, parts, 2);
        if (sent < 0) { if (errno == EAGAIN) return 1; fail("write"); }
        size_t of_lines = (size_t)sent < lines_left ? (size_t)sent : lines_left;
        lines_left -= of_lines;
        sent -= of_lines;
        if (!sent) continue;
        piece_left -= sent;
        sends->out += sent;
        sends->left -= sent;
    }
}

/* Another connection in the place of one that is closed behind its answer. It has its number once its first frame is sent. */
static void begin_anew(struct connection *c) {
    c->number = c->taken = c->closes = 0;
    c->granted = window;
}

/* A connection of this command; NULL for an earlier one, of which the program may still tell something. */
static struct connection *numbered(unsigned long number) {
    if (!number || number > begun) { fprintf(stderr, "a wrong number\n"); exit(1); }
    for (int n = 0; n < count; n++)
        if (connections[n].number == number) return &connections[n];
    return NULL;
}

/* Takes a line, and tells how long the piece behind it is, and whose. The first one says that the program is ready, but in a build from before that. */
static size_t take_line(char *line, struct connection **whose) {
    static int has_told;
    static const char *const words[] = {"grant ", "rests ", "owes "};
    if (!has_told++ && !strcmp(line, "ready")) return 0;
    if (!strcmp(line, "more")) { is_asked = 1; return 0; }
    int word = 0;
    while (word < 3 && strncmp(line, words[word], strlen(words[word]))) word++;
    char *rest = word < 3 ? line + strlen(words[word]) : line;
    struct connection *c = numbered(strtoul(rest, &rest, 10));
    size_t size = strtoul(rest, &rest, 10);
    if (*rest) { fprintf(stderr, "a wrong line\n"); exit(1); }
    if (word == 0 && c) c->granted += size;
    if (word < 3) return 0;
    if (!size && !c) return 0;
    if (!size || !c) { fprintf(stderr, size ? "bytes for a connection that was left\n" : "closed in an answer\n"); exit(1); }
    *whose = c;
    return size;
}

static void take_frames(const char *bytes, size_t length) {
    static char line[64];
    static size_t in_line, piece;
    static struct connection *c;
    while (length) {
        if (piece) {
            size_t part = length < piece ? length : piece;
            take(c, bytes, part);
            c->taken += part;
            if (!c->waits && c->closes) begin_anew(c);
            if (!c->waits && !c->done) begin_next(c);
            piece -= part;
            bytes += part;
            length -= part;
            continue;
        }
        if (in_line == sizeof line) { fprintf(stderr, "a long line\n"); exit(1); }
        line[in_line++] = *bytes++;
        length--;
        if (line[in_line - 1] != '\n') continue;
        line[in_line - 1] = 0;
        in_line = 0;
        piece = take_line(line, &c);
    }
}

static void play_frames(void) {
    static char buffer[1 << 20];
    /* Connections are numbered in the order of their first frames. */
    turn = 0;
    for (int n = 0; n < count; n++) { connections[n].number = ++begun; connections[n].granted = window; begin_next(&connections[n]); }
    for (;;) {
        int open = 0;
        for (int n = 0; n < count; n++) open += !connections[n].done;
        if (!open) return;
        struct pollfd waited[2] = {{.fd = from_server, .events = POLLIN}, {.fd = to_server, .events = send_frames() ? POLLOUT : 0}};
        if (poll(waited, 2, 60000) <= 0) fail("poll");
        if (!(waited[0].revents & (POLLIN | POLLHUP))) continue;
        ssize_t got = read(from_server, buffer, sizeof buffer);
        if (got <= 0) { fprintf(stderr, "the program has ended\n"); exit(1); }
        take_frames(buffer, got);
    }
}

int main(int words, char **word) {
    if (words == 3 && !strcmp(word[1], "socket")) {
        port = atoi(word[2]);
        watched = epoll_create1(0);
    }
    else if (words == 4 && (!strcmp(word[1], "frames") || !strcmp(word[1], "plain"))) {
        if (!strcmp(word[1], "plain")) window = SIZE_MAX;
        to_server = atoi(word[2]);
        from_server = atoi(word[3]);
        fcntl(to_server, F_SETFL, O_NONBLOCK);
        fcntl(to_server, F_SETPIPE_SZ, 1 << 20);
        fcntl(from_server, F_SETPIPE_SZ, 1 << 20);
    } else return 2;
    char name[4096];
    double seconds;
    while (scanf("%d %lf %4095s", &count, &seconds, name) == 3 && count <= MOST) {
        read_requests(name);
        for (int n = 0; n < count; n++) {
            free(connections[n].filled);
            connections[n] = (struct connection){.head = heads[n], .token = tokens[n]};
        }
        answered = wrong = 0;
        double began = now();
        ends = began + seconds;
        if (port) play_sockets(); else play_frames();
        printf("%lu %.6f %lu\n", answered, now() - began, wrong);
        fflush(stdout);
    }
    return 0;
}
