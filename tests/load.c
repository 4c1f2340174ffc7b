/* Clients that ask a server at once: `load PORT CLIENTS REQUESTS FILE`, for tests/nginx_example and bench/nginx.
 *
 * FILE has a line for each kind of request, `STATUS TARGET`. Each client is a thread with a connection that it keeps
 * open; together they ask REQUESTS times, in the lines' order. A connection that the server closes between two requests
 * is opened again. Prints how many were answered by their STATUS, how many were not, how often a connection was opened
 * again, and the seconds. */
#define _GNU_SOURCE
#include <arpa/inet.h>
#include <netinet/tcp.h>
#include <pthread.h>
#include <signal.h>
#include <stdio.h>
#include <stdlib.h>
#include <string.h>
#include <strings.h>
#include <sys/socket.h>
#include <sys/time.h>
#include <unistd.h>

enum { KINDS = 64, LINE = 1 << 17, ANSWER = 1 << 18, TRIES = 5 };

struct kind {
    int status;
    char *request;
    size_t length;
};

static struct kind kinds[KINDS];
static size_t kind_count;
static long requests, asked, answered, wrong, reopened;
static int port;

static int opened(void)
{
    struct sockaddr_in to = {.sin_family = AF_INET, .sin_port = htons(port), .sin_addr = {htonl(INADDR_LOOPBACK)}};
    struct timeval limit = {20, 0};
    int on = 1, connection = socket(AF_INET, SOCK_STREAM, 0);
    setsockopt(connection, IPPROTO_TCP, TCP_NODELAY, &on, sizeof on);
    setsockopt(connection, SOL_SOCKET, SO_RCVTIMEO, &limit, sizeof limit);
    setsockopt(connection, SOL_SOCKET, SO_SNDTIMEO, &limit, sizeof limit);
    if (connect(connection, (struct sockaddr *)&to, sizeof to) != 0) {
        close(connection);
        return -1;
    }
    return connection;
}

static int is_sent(int connection, const struct kind *kind)
{
    size_t sent = 0;
    while (sent < kind->length) {
        ssize_t more = send(connection, kind->request + sent, kind->length - sent, MSG_NOSIGNAL);
        if (more <= 0)
            return 0;
        sent += more;
    }
    return 1;
}

/* The status of an answer that is read to its end; 0 where none came, -1 where it is no whole answer. */
static int status_of(int connection, char *answer, int *is_last)
{
    size_t have = 0, wanted = 0;
    int status = -1;
    while (have == 0 || wanted == 0 || have < wanted) {
        ssize_t more = have < ANSWER - 1 ? recv(connection, answer + have, ANSWER - 1 - have, 0) : -1;
        if (more <= 0)
            return have == 0 ? 0 : -1;
        have += more;
        answer[have] = 0;
        char *end = strstr(answer, "\r\n\r\n"), *length = strcasestr(answer, "\r\ncontent-length:");
        if (wanted == 0 && end != NULL) {
            if (length == NULL || length > end || sscanf(answer, "HTTP/1.1 %d", &status) != 1)
                return -1;
            char *closes = strcasestr(answer, "\r\nconnection: close");
            *is_last = closes != NULL && closes < end;
            wanted = end + 4 - answer + strtoul(length + 17, NULL, 10);
        }
    }
    return have == wanted ? status : -1;
}

static void *client(void *unused)
{
    char *answer = malloc(ANSWER);
    int connection = opened();
    for (long number; (number = __atomic_fetch_add(&asked, 1, __ATOMIC_RELAXED)) < requests;) {
        const struct kind *kind = &kinds[number % kind_count];
        int status = 0, is_last = 0;
        for (int tries = 0; status == 0 && tries < TRIES; tries++) {
            if (tries != 0 || connection < 0) {
                if (connection >= 0)
                    close(connection);
                connection = opened();
                __atomic_fetch_add(&reopened, 1, __ATOMIC_RELAXED);
            }
            if (connection >= 0 && is_sent(connection, kind))
                status = status_of(connection, answer, &is_last);
        }
        __atomic_fetch_add(status == kind->status ? &answered : &wrong, 1, __ATOMIC_RELAXED);
        if (status != kind->status)
            fprintf(stderr, "%d instead of %d: %.100s\n", status, kind->status, kind->request);
        if (is_last || status < 0) {
            close(connection);
            connection = opened();
        }
    }
    if (connection >= 0)
        close(connection);
    free(answer);
    return unused;
}

static void read_kinds(const char *path)
{
    static char line[LINE], target[LINE];
    FILE *file = fopen(path, "r");
    while (file != NULL && kind_count < KINDS && fgets(line, sizeof line, file) != NULL) {
        struct kind *kind = &kinds[kind_count];
        if (sscanf(line, "%d %s", &kind->status, target) != 2)
            continue;
        kind->request = malloc(strlen(target) + 64);
        kind->length = sprintf(kind->request, "GET %s HTTP/1.1\r\nHost: 127.0.0.1:%d\r\n\r\n", target, port);
        kind_count++;
    }
    if (file != NULL)
        fclose(file);
}

int main(int count, char **words)
{
    pthread_t threads[64];
    struct timeval began, ended;
    if (count != 5)
        return 2;
    port = atoi(words[1]);
    int clients = atoi(words[2]);
    requests = atol(words[3]);
    read_kinds(words[4]);
    if (kind_count == 0 || clients < 1 || clients > 64)
        return 2;
    signal(SIGPIPE, SIG_IGN);
    gettimeofday(&began, NULL);
    for (int number = 0; number < clients; number++)
        pthread_create(&threads[number], NULL, client, NULL);
    for (int number = 0; number < clients; number++)
        pthread_join(threads[number], NULL);
    gettimeofday(&ended, NULL);
    double seconds = (ended.tv_sec - began.tv_sec) + (ended.tv_usec - began.tv_usec) / 1e6;
    printf("%ld %ld %ld %.3f\n", answered, wrong, reopened, seconds);
    return wrong != 0;
}
