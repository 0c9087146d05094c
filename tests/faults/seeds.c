/* Stands before the C library's own calls by which a program asks the system for chance. Each adds a byte to the file
   SEEDS; those after the first SEEDS_PASS, if that is set, fail (test_openings.py). */
#define _GNU_SOURCE
#include <errno.h>
#include <fcntl.h>
#include <stdlib.h>
#include <sys/syscall.h>
#include <sys/types.h>
#include <unistd.h>

static long asked;

/* Whether this time the system has none. */
static int is_refused(void) {
  const char *passes = getenv("SEEDS_PASS");
  int out = open(getenv("SEEDS"), O_WRONLY | O_CREAT | O_APPEND, 0600);
  if (out < 0 || write(out, ".", 1) != 1)
    abort();
  close(out);
  if (!passes || asked++ < atol(passes))
    return 0;
  errno = EIO;
  return 1;
}

ssize_t getrandom(void *bytes, size_t length, unsigned flags) {
  return is_refused() ? -1 : syscall(SYS_getrandom, bytes, length, flags);
}

int getentropy(void *bytes, size_t length) {
  return is_refused() || syscall(SYS_getrandom, bytes, length, 0) != (ssize_t)length ? -1 : 0;
}
