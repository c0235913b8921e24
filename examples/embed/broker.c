/*
 * A server of one thread, with the coordinator inside: it answers heartbeats and commits on a port of 127.0.0.1.
 *
 *     tools/build-library
 *     cc -I include -o embedded examples/embed/broker.c out/libmigwelun.a
 *     ./embedded 9192 orders:11111111-1111-1111-1111-111111111111:4
 *
 * Port 0 is any that is free; the line `listening PORT` says which. It runs until a signal ends it.
 */
#include <arpa/inet.h>
#include <poll.h>
#include <signal.h>
#include <stdio.h>
#include <stdlib.h>
#include <string.h>
#include <sys/random.h>
#include <sys/socket.h>
#include <time.h>
#include <unistd.h>
#include "migwelun.h"

enum { MOST_CLIENTS = 256, SIZE = 4, LARGEST_BODY = 8388608, TICK_MS = 500 };

/* A connection: its number in the order of acceptance, how many frames came, and bytes that are no whole frame yet. */
typedef struct {
    uint64_t number, frames;
    uint8_t *bytes;
    size_t length, room;
} client;

static migwelun_slot coordinator;
static struct pollfd polled[1 + MOST_CLIENTS];
static client clients[1 + MOST_CLIENTS];
static int count = 1; /* the first one polled is the listener */
static uint64_t accepted;

static void die(const char *why) {
    fprintf(stderr, "broker: %s\n", why);
    exit(1);
}

/* Milliseconds of a clock that doesn't go back. */
static uint64_t moment(void) {
    struct timespec now;
    clock_gettime(CLOCK_MONOTONIC, &now);
    return (uint64_t)now.tv_sec * 1000 + (uint64_t)now.tv_nsec / 1000000;
}

static void add_topic(const char *word) {
    const char *colon = strchr(word, ':'), *at = colon;
    uint8_t id[16];
    for (int i = 0; at && i < 16; i++) {
        at += at[1] == '-' ? 2 : 1;
        if (sscanf(at++, "%2hhx", &id[i]) != 1) at = NULL;
    }
    if (at == NULL || at[1] != ':') die("a topic is NAME:UUID:COUNT");
    size_t length = (size_t)(colon - word);
    if (migwelun_add_topic(&coordinator, (const uint8_t *)word, length, id, atoi(at + 2))) die("a topic is refused");
}

static void listen_at(uint16_t port) {
    struct sockaddr_in at = {.sin_family = AF_INET, .sin_port = htons(port), .sin_addr.s_addr = htonl(INADDR_LOOPBACK)};
    socklen_t length = sizeof at;
    int yes = 1, listener = socket(AF_INET, SOCK_STREAM, 0);
    setsockopt(listener, SOL_SOCKET, SO_REUSEADDR, &yes, sizeof yes);
    if (bind(listener, (struct sockaddr *)&at, sizeof at) || listen(listener, 128)) die("the port is taken");
    getsockname(listener, (struct sockaddr *)&at, &length);
    polled[0] = (struct pollfd){.fd = listener, .events = POLLIN};
    printf("listening %d\n", ntohs(at.sin_port));
    fflush(stdout);
}

static void accept_one(void) {
    int socket = accept(polled[0].fd, NULL, NULL);
    if (socket < 0) return;
    if (count > MOST_CLIENTS) {
        close(socket);
        return;
    }
    polled[count] = (struct pollfd){.fd = socket, .events = POLLIN};
    clients[count++] = (client){.number = ++accepted};
}

/* The last one takes the place of the one that goes. */
static void drop_client(int at) {
    close(polled[at].fd);
    free(clients[at].bytes);
    polled[at] = polled[--count];
    clients[at] = clients[count];
}

/* Sends what the coordinator has replied. (The sockets block: a client that reads nothing holds up the others.) */
static int send_replies(int socket) {
    static uint8_t *replies;
    static size_t room;
    size_t size, sent = 0;
    if (replies == NULL && (replies = malloc(room = 4096)) == NULL) die("out of memory");
    while (migwelun_take(&coordinator, replies, room, &size) == MIGWELUN_SHORT) {
        if ((replies = realloc(replies, room = size)) == NULL) die("out of memory");
    }
    while (sent < size) {
        ssize_t more = send(socket, replies + sent, size - sent, MSG_NOSIGNAL);
        if (more <= 0) return 0;
        sent += (size_t)more;
    }
    return 1;
}

/* Answers the whole frames among a client's bytes. Says whether the connection stays. */
static int answer_frames(client *it, int socket) {
    size_t at = 0;
    while (it->length - at >= SIZE) {
        const uint8_t *frame = it->bytes + at;
        size_t size = (size_t)frame[0] << 24 | (size_t)frame[1] << 16 | (size_t)frame[2] << 8 | frame[3];
        if (size > LARGEST_BODY) return 0;
        if (it->length - at - SIZE < size) break;
        if (migwelun_answer(&coordinator, frame + SIZE, size, it->number, ++it->frames, moment()) != MIGWELUN_DONE) return 0;
        if (!send_replies(socket)) return 0;
        at += SIZE + size;
    }
    memmove(it->bytes, it->bytes + at, it->length -= at);
    return 1;
}

/* Reads what came. Says whether the connection stays. */
static int read_client(client *it, int socket) {
    if (it->room - it->length < 4096) {
        uint8_t *more = realloc(it->bytes, it->room = 2 * it->room + 4096);
        if (more == NULL) return 0;
        it->bytes = more;
    }
    ssize_t length = recv(socket, it->bytes + it->length, it->room - it->length, 0);
    if (length <= 0) return 0;
    it->length += (size_t)length;
    return answer_frames(it, socket);
}

int main(int words, char **word) {
    uint64_t salt, ticked = moment();
    uint8_t keys[16];
    size_t removed;
    if (words < 3) die("usage: broker PORT NAME:UUID:COUNT ..");
    signal(SIGPIPE, SIG_IGN);
    if (getrandom(&salt, sizeof salt, 0) < 0 || getrandom(keys, sizeof keys, 0) < 0) die("no random bytes");
    if (migwelun_make(&coordinator, salt, keys)) die("out of memory");
    for (int i = 2; i < words; i++) add_topic(word[i]);
    if (migwelun_set_topics(&coordinator)) die("the topics are refused");
    listen_at((uint16_t)atoi(word[1]));
    for (;;) {
        poll(polled, (nfds_t)count, TICK_MS);
        if (moment() - ticked >= TICK_MS) migwelun_tick(&coordinator, ticked = moment(), &removed);
        for (int at = count - 1; at > 0; at--) {
            if (polled[at].revents && !read_client(&clients[at], polled[at].fd)) drop_client(at);
        }
        if (polled[0].revents) accept_one();
    }
}
