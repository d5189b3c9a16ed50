/* Copies standard input to a pipe in pieces of so many bytes, each after the one before was taken: pieces SIZE PIPE <FILE.
 * So whoever reads the pipe gets one piece at a time. Prints how many they were. Ends with 1 where a piece is not taken within
 * some seconds. */
#define _DEFAULT_SOURCE
#include <fcntl.h>
#include <stdio.h>
#include <stdlib.h>
#include <sys/ioctl.h>
#include <time.h>
#include <unistd.h>

static int taken(int pipe) {
    const struct timespec shortly = {0, 100000};
    for (int turns = 0; turns < 50000; turns++) {
        int left;
        if (ioctl(pipe, FIONREAD, &left) != 0) return 0;
        if (left == 0) return 1;
        nanosleep(&shortly, NULL);
    }
    return 0;
}

int main(int argc, char **argv) {
    char bytes[4096];
    size_t size = argc == 3 ? strtoul(argv[1], NULL, 10) : 0;
    if (size == 0 || size > sizeof bytes) {
        fprintf(stderr, "usage: pieces SIZE PIPE <FILE\n");
        return 2;
    }
    int pipe = open(argv[2], O_WRONLY);
    for (int pieces = 0;; pieces++) {
        ssize_t got = read(STDIN_FILENO, bytes, size);
        if (got <= 0) return printf("%d\n", pieces) < 0 || got < 0;
        if (write(pipe, bytes, (size_t)got) != got || !taken(pipe)) {
            fprintf(stderr, "pieces: not taken\n");
            return 1;
        }
    }
}
