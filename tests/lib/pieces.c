/* Writes the standard input into a pipe in pieces, each only when the one before has been read, so that no reading
   gets more than a piece: pieces SIZE.. takes the sizes in turn, from the first again after the last. */
#include <poll.h>
#include <sched.h>
#include <stdio.h>
#include <stdlib.h>
#include <sys/ioctl.h>
#include <unistd.h>

enum { MOST = 65536 };

static _Noreturn void stop(const char *what) {
  fprintf(stderr, "pieces: %s\n", what);
  exit(1);
}

/* Waits until nothing is left in the pipe. A reader that has gone leaves it there for good. */
static void wait_for_reader(void) {
  struct pollfd output = {.fd = STDOUT_FILENO};
  for (;;) {
    int left;
    if (ioctl(STDOUT_FILENO, FIONREAD, &left) != 0) stop("the standard output is no pipe");
    if (left == 0) return;
    if (poll(&output, 1, 0) < 0 || output.revents & POLLERR) stop("nobody reads");
    sched_yield();
  }
}

int main(int count, char **sizes) {
  static char piece[MOST];
  for (int at = 1; count > 1; at = at % (count - 1) + 1) {
    size_t size = strtoul(sizes[at], NULL, 10);
    if (size == 0 || size > MOST) stop("no such size");
    size_t got = fread(piece, 1, size, stdin);
    if (got == 0) return 0;
    if (write(STDOUT_FILENO, piece, got) != (ssize_t)got) stop("a piece is not written");
    wait_for_reader();
  }
  stop("no sizes");
}
