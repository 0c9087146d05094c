/* Refuses one request of a program for memory in each of many runs. It comes before the C library's own: the program
   asks by malloc and realloc alone (nm -D PROGRAM). How many requests there were is written to the file COUNTED at the
   end.

   With REFUSED=FIRST-LAST the program is loaded once, and before its own code begins a run is forked for each of these
   numbers, in which the request of that number is refused, from 1. Each run reads the file INPUT; of each there is a
   line `NUMBER STATUS LENGTH LENGTH` on standard output, STATUS as wait(2) gives it, and behind it what the run wrote on
   standard output and on standard error. */
#define _GNU_SOURCE
#include <errno.h>
#include <fcntl.h>
#include <stdio.h>
#include <stdlib.h>
#include <sys/mman.h>
#include <sys/wait.h>
#include <unistd.h>

void *__libc_malloc(size_t size);
void *__libc_realloc(void *block, size_t size);

static unsigned long count, refused;
static int is_begun;

static void fail(const char *what) {
  perror(what);
  _exit(2);
}

/* Copies what the file has to standard output. */
static void copy(int file, off_t length) {
  static char text[65536];
  for (off_t at = 0; at < length;) {
    ssize_t read = pread(file, text, sizeof text, at);
    if (read <= 0 || write(1, text, read) != read)
      fail("copy");
    at += read;
  }
}

/* A run of the program, which goes on with what these files take. */
static void become_run(int output, int errors) {
  int input = open(getenv("INPUT"), O_RDONLY);
  if (input < 0 || dup2(input, 0) < 0 || dup2(output, 1) < 0 || dup2(errors, 2) < 0)
    fail("input");
  alarm(20);
}

/* Tells of the run of this number, once it has ended. */
static void tell(unsigned long number, pid_t run, int output, int errors) {
  int status;
  if (waitpid(run, &status, 0) != run)
    fail("wait");
  off_t lengths[] = {lseek(output, 0, SEEK_END), lseek(errors, 0, SEEK_END)};
  dprintf(1, "%lu %d %ld %ld\n", number, status, (long)lengths[0], (long)lengths[1]);
  copy(output, lengths[0]);
  copy(errors, lengths[1]);
  if (ftruncate(output, 0) || ftruncate(errors, 0) || lseek(output, 0, SEEK_SET) || lseek(errors, 0, SEEK_SET))
    fail("empty");
}

/* What is asked for before the program's own code begins isn't counted. */
__attribute__((constructor)) static void begin(void) {
  unsigned long last = 0;
  const char *range = getenv("REFUSED");
  if (range && sscanf(range, "%lu-%lu", &refused, &last) == 2) {
    int output = memfd_create("output", 0), errors = memfd_create("errors", 0);
    for (; refused <= last; refused++) {
      pid_t run = fork();
      if (run < 0)
        fail("fork");
      if (run == 0) {
        become_run(output, errors);
        break;
      }
      tell(refused, run, output, errors);
    }
    if (refused > last)
      _exit(0);
  }
  is_begun = 1;
}

__attribute__((destructor)) static void end(void) {
  const char *path = getenv("COUNTED");
  char text[24];
  int length = snprintf(text, sizeof text, "%lu", count);
  int file = path ? open(path, O_WRONLY | O_CREAT | O_TRUNC, 0600) : -1;
  if (file >= 0 && write(file, text, length) == length)
    close(file);
}

static int is_refused(void) {
  if (!is_begun || ++count != refused)
    return 0;
  errno = ENOMEM;
  return 1;
}

void *malloc(size_t size) { return is_refused() ? 0 : __libc_malloc(size); }

void *realloc(void *block, size_t size) { return is_refused() ? 0 : __libc_realloc(block, size); }
