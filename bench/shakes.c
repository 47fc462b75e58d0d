// Handshakes of TLS with a server on this machine, each with one request: shakes PORT 12|13 RESUMED SECONDS
// RESUMED is 1 where each takes up the session of the one before. Prints how many there were, and how many were resumed.
#include <arpa/inet.h>
#include <netinet/tcp.h>
#include <openssl/ssl.h>
#include <stdio.h>
#include <stdlib.h>
#include <string.h>
#include <sys/socket.h>
#include <time.h>
#include <unistd.h>

static const char request[] = "GET /1k HTTP/1.1\r\nHost: localhost\r\n\r\n";
enum { ANSWER = 1000 };

static double now(void) {
    struct timespec moment;
    clock_gettime(CLOCK_MONOTONIC, &moment);
    return moment.tv_sec + moment.tv_nsec / 1e9;
}

// Asks on a new connection; the session of it, or null where something fails.
static SSL_SESSION *ask(SSL_CTX *context, int port, SSL_SESSION *kept, long *resumed) {
    struct sockaddr_in at = {.sin_family = AF_INET, .sin_port = htons(port), .sin_addr.s_addr = htonl(INADDR_LOOPBACK)};
    int file = socket(AF_INET, SOCK_STREAM, 0), one = 1, got = 0, count;
    setsockopt(file, IPPROTO_TCP, TCP_NODELAY, &one, sizeof one);
    SSL *session = SSL_new(context);
    SSL_set_fd(session, file);
    SSL_set_tlsext_host_name(session, "localhost");
    if (kept)
        SSL_set_session(session, kept);
    SSL_SESSION *found = NULL;
    char room[4096];
    if (!connect(file, (void *)&at, sizeof at) && SSL_connect(session) == 1 && SSL_write(session, request, sizeof request - 1) > 0) {
        while (got < ANSWER && (count = SSL_read(session, room, sizeof room)) > 0)
            got += count;
        *resumed += SSL_session_reused(session);
        found = got >= ANSWER ? SSL_get1_session(session) : NULL;
    }
    SSL_shutdown(session);
    SSL_free(session);
    close(file);
    return found;
}

int main(int count, char **words) {
    if (count != 5)
        return 2;
    SSL_CTX *context = SSL_CTX_new(TLS_client_method());
    int version = atoi(words[2]) == 12 ? TLS1_2_VERSION : TLS1_3_VERSION, resumes = atoi(words[3]);
    SSL_CTX_set_min_proto_version(context, version);
    SSL_CTX_set_max_proto_version(context, version);
    SSL_SESSION *kept = NULL;
    long made = 0, resumed = 0;
    for (double end = now() + atof(words[4]); now() < end; made++) {
        SSL_SESSION *found = ask(context, atoi(words[1]), resumes ? kept : NULL, &resumed);
        if (!found)
            return 1;
        SSL_SESSION_free(kept);
        kept = found;
    }
    printf("%ld %ld\n", made, resumed);
}
