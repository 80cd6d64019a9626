// Asks a service for a stream as `call` does, and copies it as it comes: what `bench/calls.py` compares with.
#include <stdio.h>
#include <string.h>
#include <sys/socket.h>
#include <sys/un.h>
#include <unistd.h>

int main(int argc, char **argv) {
    static char piece[65536];
    struct sockaddr_un address = {.sun_family = AF_UNIX};
    int link = socket(AF_UNIX, SOCK_STREAM, 0);
    if (argc != 2 || link < 0) return 1;
    strncpy(address.sun_path, argv[1], sizeof address.sun_path - 1);
    if (connect(link, (struct sockaddr *)&address, sizeof address) < 0) return 1;
    if (send(link, "{}", 3, 0) != 3) return 1;
    for (;;) {
        ssize_t count = recv(link, piece, sizeof piece, 0);
        if (count <= 0) return count < 0;
        for (ssize_t done = 0; done < count;) {
            ssize_t put = write(1, piece + done, count - done);
            if (put < 0) return 1;
            done += put;
        }
    }
}
