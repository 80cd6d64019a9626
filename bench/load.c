// Calls a service on many connections at the same time, and measures how fast it answers.
//
// Usage: load PATH LINKS UNDERWAY CALLS MESSAGE     (the NUL behind MESSAGE is added)
//
// It opens LINKS connections to the Unix socket at PATH, has UNDERWAY calls on their way on each, and sends a new one for each
// reply, until CALLS calls were answered on all links together. A reply ends with a NUL. The links are shared out among at most
// four threads, each of which waits for its own by epoll. It prints calls per second, the 50th and the 99th percentile of the time
// from the sending of a call to its reply in microseconds, and which part of their time the threads were busy, in percent: near 100
// it is the caller that is measured. With no CALLS it opens the connections, prints `open`, and holds them until its input ends.
#include <errno.h>
#include <fcntl.h>
#include <pthread.h>
#include <stdint.h>
#include <stdio.h>
#include <stdlib.h>
#include <string.h>
#include <sys/epoll.h>
#include <sys/socket.h>
#include <sys/un.h>
#include <time.h>
#include <unistd.h>

enum { PIECE = 65536, MOST_LINKS = 1024, CREWS = 4 };

// What calls on some of the links: it has times of its own, in microseconds.
struct crew {
    pthread_t thread;
    int waiter;
    uint64_t to_hear, heard;
    float *times;
};

// A connection: the calls that it has yet to send, how much of their text waits to be written and where that begins in a
// call, and when each call that is under way was sent, in a ring.
struct link {
    struct crew *crew;
    int socket, waits_to_write;
    uint64_t to_send, first, last;
    size_t unwritten, offset;
    uint64_t *sent;
};

static struct crew crews[CREWS];
static struct link links[MOST_LINKS];
static pthread_barrier_t begin;
static char *calls;       // as many calls as may be under way, in a row
static size_t length;     // of one call with its NUL
static uint64_t underway;

static void fail(const char *what) {
    fprintf(stderr, "load: %s: %s\n", what, errno ? strerror(errno) : "the service closed a connection");
    exit(1);
}

static uint64_t now(clockid_t clock) {
    struct timespec time;
    clock_gettime(clock, &time);
    return (uint64_t)time.tv_sec * 1000000000u + (uint64_t)time.tv_nsec;
}

static int open_link(const char *path) {
    struct sockaddr_un place = {.sun_family = AF_UNIX};
    if (strlen(path) >= sizeof place.sun_path)
        fail("path");
    strcpy(place.sun_path, path);
    int opened = socket(AF_UNIX, SOCK_STREAM, 0);
    if (opened < 0 || connect(opened, (struct sockaddr *)&place, sizeof place) != 0)
        fail("connect");
    return opened;
}

static void wait_for(struct link *link, int how, uint32_t what) {
    struct epoll_event event = {.events = what, .data.ptr = link};
    if (epoll_ctl(link->crew->waiter, how, link->socket, &event) != 0)
        fail("epoll");
}

// Writes what waits, as far as the socket takes it.
static void put(struct link *link) {
    while (link->unwritten > 0) {
        size_t most = underway * length - link->offset;
        ssize_t written = write(link->socket, calls + link->offset, link->unwritten < most ? link->unwritten : most);
        if (written < 0 && errno == EAGAIN)
            break;
        if (written <= 0)
            fail("write");
        link->unwritten -= (size_t)written;
        link->offset = (link->offset + (size_t)written) % length;
    }
    int waits = link->unwritten > 0;
    if (waits != link->waits_to_write)
        wait_for(link, EPOLL_CTL_MOD, waits ? EPOLLIN | EPOLLOUT : EPOLLIN);
    link->waits_to_write = waits;
}

// Sends so many calls more, or as many as are left.
static void send_calls(struct link *link, uint64_t count, uint64_t when) {
    if (count > link->to_send)
        count = link->to_send;
    link->to_send -= count;
    for (uint64_t k = 0; k < count; k++)
        link->sent[link->last++ % underway] = when;
    link->unwritten += count * length;
    put(link);
}

// Takes what came, and sends a call for each reply in it.
static void take(struct link *link, char *piece) {
    ssize_t taken = read(link->socket, piece, PIECE);
    if (taken < 0 && errno == EAGAIN)
        return;
    if (taken <= 0) {
        errno = taken == 0 ? 0 : errno;
        fail("read");
    }
    uint64_t when = now(CLOCK_MONOTONIC), replies = 0;
    for (char *at = piece, *end = piece + taken; (at = memchr(at, 0, (size_t)(end - at))) != NULL; at++)
        replies++;
    if (replies > link->last - link->first) {
        errno = EPROTO;
        fail("more replies than calls");
    }
    struct crew *crew = link->crew;
    for (uint64_t k = 0; k < replies; k++)
        crew->times[crew->heard++] = (float)(when - link->sent[link->first++ % underway]) / 1000;
    send_calls(link, replies, when);
}

// Calls on its links until all calls were answered.
static void *work(void *given) {
    struct crew *crew = given;
    struct epoll_event events[MOST_LINKS];
    char piece[PIECE];
    pthread_barrier_wait(&begin);
    for (int k = 0; k < MOST_LINKS; k++)
        if (links[k].crew == crew)
            send_calls(&links[k], underway, now(CLOCK_MONOTONIC));
    while (crew->heard < crew->to_hear) {
        int ready = epoll_wait(crew->waiter, events, MOST_LINKS, 30000);
        if (ready < 0 && errno == EINTR)
            continue;
        if (ready <= 0) {
            errno = ready == 0 ? ETIMEDOUT : errno;
            fail("wait");
        }
        for (int k = 0; k < ready; k++) {
            struct link *link = events[k].data.ptr;
            if (events[k].events & EPOLLOUT)
                put(link);
            if (events[k].events & (EPOLLIN | EPOLLHUP | EPOLLERR))
                take(link, piece);
        }
    }
    return NULL;
}

// Opens a link that makes so many calls, and gives it to a crew.
static void give_link(struct link *link, struct crew *crew, const char *path, uint64_t count) {
    link->crew = crew;
    link->socket = open_link(path);
    link->to_send = count;
    link->sent = malloc(underway * sizeof *link->sent);
    if (link->sent == NULL || fcntl(link->socket, F_SETFL, O_NONBLOCK) != 0)
        fail("a link");
    wait_for(link, EPOLL_CTL_ADD, EPOLLIN);
    crew->to_hear += count;
}

static int by_size(const void *a, const void *b) {
    float x = *(const float *)a, y = *(const float *)b;
    return (x > y) - (x < y);
}

// Tells what was measured over all crews.
static void tell(int many, uint64_t whole, uint64_t took, uint64_t busy) {
    float *times = malloc(whole * sizeof *times);
    uint64_t told = 0;
    if (times == NULL)
        fail("memory");
    for (int k = 0; k < many; k++) {
        memcpy(times + told, crews[k].times, crews[k].heard * sizeof *times);
        told += crews[k].heard;
    }
    qsort(times, whole, sizeof *times, by_size);
    printf("%.0f %.1f %.1f %.0f\n", (double)whole * 1e9 / (double)took, times[whole / 2], times[whole - 1 - whole / 100],
           100.0 * (double)busy / (double)took / many);
}

int main(int count, char **words) {
    int many = count == 6 ? atoi(words[2]) : 0;
    if (many < 1 || many > MOST_LINKS || (underway = strtoull(words[3], NULL, 10)) < 1) {
        fputs("usage: load PATH LINKS UNDERWAY CALLS MESSAGE\n", stderr);
        return 1;
    }
    uint64_t each = strtoull(words[4], NULL, 10) / (uint64_t)many;
    int threads = many < CREWS ? many : CREWS;
    length = strlen(words[5]) + 1;
    calls = malloc(underway * length);
    if (calls == NULL || pthread_barrier_init(&begin, NULL, (unsigned)threads + 1) != 0)
        fail("memory");
    for (uint64_t k = 0; k < underway; k++)
        memcpy(calls + k * length, words[5], length);
    for (int k = 0; k < threads; k++)
        if ((crews[k].waiter = epoll_create1(0)) < 0)
            fail("epoll");
    for (int k = 0; k < many; k++)
        give_link(&links[k], &crews[k % threads], words[1], each);
    if (each == 0) {
        puts("open");
        fflush(stdout);
        while (getchar() != EOF) {
        }
        return 0;
    }
    for (int k = 0; k < threads; k++) {
        crews[k].times = malloc(crews[k].to_hear * sizeof *crews[k].times);
        if (crews[k].times == NULL || pthread_create(&crews[k].thread, NULL, work, &crews[k]) != 0)
            fail("a thread");
    }
    uint64_t begun = now(CLOCK_MONOTONIC), idle = now(CLOCK_PROCESS_CPUTIME_ID);
    pthread_barrier_wait(&begin);
    for (int k = 0; k < threads; k++)
        pthread_join(crews[k].thread, NULL);
    tell(threads, each * (uint64_t)many, now(CLOCK_MONOTONIC) - begun, now(CLOCK_PROCESS_CPUTIME_ID) - idle);
    return 0;
}
