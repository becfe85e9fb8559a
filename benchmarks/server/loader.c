// Sends requests again and again on some connections, and reads each reply by its Content-Length.
//
// usage: loader PORT CONNECTIONS SECONDS COUNT keep|close FILE..
//
// Each FILE has the bytes of a request, which are made before. Each connection sends the requests in turn until so many seconds have passed, or
// COUNT of them if COUNT is not 0. The connections begin at different requests. With `close`, each request has a connection of its own. The loader prints one line: the requests, the seconds, the bytes of
// requests and replies, and three numbers about the microseconds from a request to the end of its reply: the 50th and the 99th percentile and
// the longest. If a connection fails, or a reply has no status of 200 to 299, it says so on standard error and ends with status 1.
#define _GNU_SOURCE
#include <arpa/inet.h>
#include <netinet/tcp.h>
#include <pthread.h>
#include <stdint.h>
#include <stdio.h>
#include <stdlib.h>
#include <string.h>
#include <sys/socket.h>
#include <time.h>
#include <unistd.h>

enum { ROOM = 262144, PATIENCE = 60 };

static struct sockaddr_in address;
struct request {
    const char *bytes;
    size_t len;
};

static struct request *requests;
static size_t kinds;
static uint64_t end_time;
static size_t most;
static int keeps;

struct client {
    pthread_t thread;
    uint32_t *micros;
    size_t requests, room, next;
    uint64_t bytes;
    const char *fault;
    char buffer[ROOM + 1];
};

static uint64_t now_micros(void) {
    struct timespec time;
    clock_gettime(CLOCK_MONOTONIC, &time);
    return (uint64_t)time.tv_sec * 1000000 + (uint64_t)time.tv_nsec / 1000;
}

static void fail(const char *why) {
    fprintf(stderr, "loader: %s\n", why);
    exit(1);
}

static void *checked(void *memory) {
    if (!memory) fail("memory ran out");
    return memory;
}

// A new connection, or -1.
static int connected(void) {
    int stream = socket(AF_INET, SOCK_STREAM, 0), on = 1;
    struct timeval patience = {.tv_sec = PATIENCE};
    if (stream < 0) return -1;
    setsockopt(stream, IPPROTO_TCP, TCP_NODELAY, &on, sizeof on);
    setsockopt(stream, SOL_SOCKET, SO_RCVTIMEO, &patience, sizeof patience);
    setsockopt(stream, SOL_SOCKET, SO_SNDTIMEO, &patience, sizeof patience);
    if (connect(stream, (struct sockaddr *)&address, sizeof address) == 0) return stream;
    close(stream);
    return -1;
}

static const char *send_request(int stream, struct request it) {
    for (size_t sent = 0; sent < it.len;) {
        ssize_t n = send(stream, it.bytes + sent, it.len - sent, MSG_NOSIGNAL);
        if (n <= 0) return "a request could not be sent";
        sent += (size_t)n;
    }
    return NULL;
}

// Reads the head of a reply and what came with it. Returns how many bytes of the reply are still to come.
static const char *read_head(struct client *it, int stream, uint64_t *missing) {
    size_t len = 0;
    char *end = NULL;
    while (!end) {
        ssize_t n = len < ROOM ? recv(stream, it->buffer + len, ROOM - len, 0) : 0;
        if (n <= 0) return "a connection ended before its reply";
        len += (size_t)n;
        it->buffer[len] = 0;
        end = memmem(it->buffer, len, "\r\n\r\n", 4);
    }
    if (strncmp(it->buffer, "HTTP/1.1 2", 10) != 0) return "a reply has another status than 200 to 299";
    char *length = strcasestr(it->buffer, "\r\nContent-Length:");
    // A reply of status 204 has no length.
    uint64_t body = length && length < end ? strtoull(length + 17, NULL, 10) : 0;
    uint64_t whole = (uint64_t)(end + 4 - it->buffer) + body;
    if (whole < len) return "a reply is longer than it says";
    it->bytes += whole;
    *missing = whole - len;
    return NULL;
}

static const char *read_reply(struct client *it, int stream) {
    uint64_t missing;
    const char *fault = read_head(it, stream, &missing);
    while (!fault && missing) {
        ssize_t n = recv(stream, it->buffer, missing < ROOM ? missing : ROOM, 0);
        if (n <= 0) return "a connection ended in a reply";
        missing -= (uint64_t)n;
    }
    return fault;
}

static void record(struct client *it, uint64_t micros) {
    if (it->requests == it->room) {
        it->room = it->room * 2 + 1024;
        it->micros = checked(realloc(it->micros, it->room * sizeof *it->micros));
    }
    it->micros[it->requests++] = (uint32_t)micros;
    it->bytes += requests[it->next].len;
    it->next = (it->next + 1) % kinds;
}

static void *run_client(void *given) {
    struct client *it = given;
    int stream = -1;
    while (!it->fault && (most ? it->requests < most : now_micros() < end_time)) {
        uint64_t began = now_micros();
        if (stream < 0) stream = connected();
        it->fault = stream < 0 ? "no connection was made" : send_request(stream, requests[it->next]);
        if (!it->fault) it->fault = read_reply(it, stream);
        if (!it->fault) record(it, now_micros() - began);
        if (!keeps && stream >= 0) {
            close(stream);
            stream = -1;
        }
    }
    return NULL;
}

static struct request read_request(const char *path) {
    FILE *file = fopen(path, "rb");
    if (!file) fail("the file of a request cannot be opened");
    fseek(file, 0, SEEK_END);
    size_t len = (size_t)ftell(file);
    rewind(file);
    char *bytes = checked(malloc(len + 1));
    if (fread(bytes, 1, len, file) != len) fail("the file of a request cannot be read");
    fclose(file);
    return (struct request){.bytes = bytes, .len = len};
}

static int by_size(const void *first, const void *second) {
    uint32_t a = *(const uint32_t *)first, b = *(const uint32_t *)second;
    return (a > b) - (a < b);
}

// Prints what all clients together did. Returns the status.
static int report(struct client *clients, int count, double seconds) {
    size_t sum = 0;
    uint64_t bytes = 0;
    for (int i = 0; i < count; i++) {
        if (clients[i].fault) {
            fprintf(stderr, "loader: %s, after %zu requests\n", clients[i].fault, clients[i].requests);
            return 1;
        }
        sum += clients[i].requests;
        bytes += clients[i].bytes;
    }
    uint32_t *all = checked(calloc(sum + 1, sizeof *all)), *next = all;
    for (int i = 0; i < count; i++) {
        if (clients[i].requests) memcpy(next, clients[i].micros, clients[i].requests * sizeof *all);
        next += clients[i].requests;
    }
    qsort(all, sum, sizeof *all, by_size);
    uint32_t longest = sum ? all[sum - 1] : 0;
    printf("%zu %.6f %lu %u %u %u\n", sum, seconds, (unsigned long)bytes, all[sum / 2], all[sum * 99 / 100], longest);
    return 0;
}

int main(int count, char **words) {
    if (count < 7) {
        fprintf(stderr, "usage: loader PORT CONNECTIONS SECONDS COUNT keep|close FILE..\n");
        return 2;
    }
    int connections = atoi(words[2]);
    address = (struct sockaddr_in){.sin_family = AF_INET, .sin_port = htons((uint16_t)atoi(words[1]))};
    address.sin_addr.s_addr = htonl(INADDR_LOOPBACK);
    most = strtoull(words[4], NULL, 10);
    keeps = strcmp(words[5], "keep") == 0;
    kinds = (size_t)count - 6;
    requests = checked(calloc(kinds, sizeof *requests));
    for (size_t i = 0; i < kinds; i++) requests[i] = read_request(words[6 + i]);
    struct client *clients = checked(calloc((size_t)connections, sizeof *clients));
    uint64_t began = now_micros();
    end_time = began + (uint64_t)(atof(words[3]) * 1e6);
    for (int i = 0; i < connections; i++) {
        clients[i].next = kinds * (size_t)i / (size_t)connections;
        if (pthread_create(&clients[i].thread, NULL, run_client, &clients[i])) fail("a thread cannot be made");
    }
    for (int i = 0; i < connections; i++) pthread_join(clients[i].thread, NULL);
    return report(clients, connections, (double)(now_micros() - began) / 1e6);
}
