// Gives back the bytes that it takes: the floor below a service that answers calls.
//
// Usage: echo PATH
//
// It listens on a Unix socket at PATH and serves each connection by a thread of its own, until it is killed.
#include <pthread.h>
#include <signal.h>
#include <stdint.h>
#include <stdio.h>
#include <string.h>
#include <sys/socket.h>
#include <sys/un.h>
#include <unistd.h>

enum { PIECE = 65536 };

static int put_all(int link, const char *piece, ssize_t length) {
    while (length > 0) {
        ssize_t put = write(link, piece, (size_t)length);
        if (put <= 0)
            return -1;
        piece += put;
        length -= put;
    }
    return 0;
}

static void *serve(void *given) {
    int link = (int)(intptr_t)given;
    char piece[PIECE];
    ssize_t length;
    while ((length = read(link, piece, PIECE)) > 0)
        if (put_all(link, piece, length) != 0)
            break;
    close(link);
    return NULL;
}

int main(int count, char **words) {
    struct sockaddr_un place = {.sun_family = AF_UNIX};
    if (count != 2 || strlen(words[1]) >= sizeof place.sun_path) {
        fputs("usage: echo PATH\n", stderr);
        return 1;
    }
    strcpy(place.sun_path, words[1]);
    signal(SIGPIPE, SIG_IGN);
    int listener = socket(AF_UNIX, SOCK_STREAM, 0);
    if (listener < 0 || bind(listener, (struct sockaddr *)&place, sizeof place) != 0 || listen(listener, 128) != 0) {
        perror("echo");
        return 1;
    }
    for (;;) {
        int link = accept(listener, NULL, NULL);
        pthread_t thread;
        if (link < 0 || pthread_create(&thread, NULL, serve, (void *)(intptr_t)link) != 0) {
            perror("echo");
            return 1;
        }
        pthread_detach(thread);
    }
}
