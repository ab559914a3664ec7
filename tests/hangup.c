/* hangup FILE COMMAND [WORD..]: runs a command whose standard input gives the first bytes of FILE (up to 2,048) and then fails.
 * It is one end of a terminal; the other end wrote the bytes, and was closed. */
#define _XOPEN_SOURCE 600
#include <fcntl.h>
#include <stdio.h>
#include <stdlib.h>
#include <termios.h>
#include <unistd.h>

static void need(int holds, const char *what) {
    if (!holds) {
        perror(what);
        exit(125);
    }
}

int main(int argc, char **argv) {
    char bytes[2048];
    struct termios mode;
    need(argc >= 3, "usage: hangup FILE COMMAND [WORD..]");
    int file = open(argv[1], O_RDONLY);
    need(file >= 0, argv[1]);
    ssize_t n = read(file, bytes, sizeof bytes);
    need(n > 0 && close(file) == 0, argv[1]);

    int end = posix_openpt(O_RDWR | O_NOCTTY);
    need(end >= 0 && grantpt(end) == 0 && unlockpt(end) == 0, "a terminal");
    int other = open(ptsname(end), O_RDWR | O_NOCTTY);
    need(other >= 0 && tcgetattr(other, &mode) == 0, "its other end");
    mode.c_oflag &= ~(tcflag_t)OPOST; /* bytes as they are */
    need(tcsetattr(other, TCSANOW, &mode) == 0, "its other end");
    need(write(other, bytes, (size_t)n) == n && close(other) == 0, "its other end");

    need(dup2(end, STDIN_FILENO) == STDIN_FILENO && close(end) == 0, "standard input");
    execvp(argv[2], argv + 2);
    need(0, argv[2]);
}
