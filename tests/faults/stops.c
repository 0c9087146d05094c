/* Stands before the C library's own calls on the two files of a broker, its database FILE and its log FILE-wal: those
   by which the program opens, measures, reads, writes, cuts and syncs a file (nm -D PROGRAM). From one call on a file
   on it refuses each, as a disk does that stops; and it keeps the file as it was last synced. players/stops.py builds it
   and gives it to the program by LD_PRELOAD, with

   STOPS_FILE      the path of the database
   STOPS_SIDE      the file that stops, `database` or `log`
   STOPS_PASSES    how many calls on it pass
   STOPS_KEPT      a folder: `database` and `log` in it are the files as they were last synced, if they were; `calls`
                   has of each, the database first, how many calls there were and how many of them were refused
   STOPS_FORGETS   if it is set, nothing is kept at a sync, as by a disk that says that it has synced and hasn't
   STOPS_KILLS     if it is set, the program is killed by signal 9 at the first call that would be refused

   What the program takes for chance is the same at each run, so that two runs leave the same bytes. */
#define _GNU_SOURCE
#include <errno.h>
#include <fcntl.h>
#include <signal.h>
#include <stdarg.h>
#include <stdio.h>
#include <stdlib.h>
#include <string.h>
#include <sys/sendfile.h>
#include <sys/stat.h>
#include <sys/syscall.h>
#include <unistd.h>

enum { DATABASE, LOG, SIDES, OPEN_FILES = 1024 };

static const char *const names[SIDES] = {"database", "log"};
static const char *const ends[SIDES] = {"", "-wal"};
static unsigned long calls[SIDES], refused[SIDES], passes[SIDES];
static const char *file, *kept;
static int forgets, kills;
/* The side of each open file, counted from 1. */
static unsigned char side_of[OPEN_FILES];

__attribute__((constructor)) static void begin(void) {
  const char *side = getenv("STOPS_SIDE"), *count = getenv("STOPS_PASSES");
  file = getenv("STOPS_FILE");
  kept = getenv("STOPS_KEPT");
  forgets = getenv("STOPS_FORGETS") != 0;
  kills = getenv("STOPS_KILLS") != 0;
  for (int it = 0; it < SIDES; it++)
    passes[it] = side && count && !strcmp(side, names[it]) ? strtoul(count, 0, 10) : -1UL;
}

/* Opens a file of the folder for what is kept. */
static int kept_file(const char *name) {
  char path[4096];
  snprintf(path, sizeof path, "%s/%s", kept, name);
  return syscall(SYS_openat, AT_FDCWD, path, O_WRONLY | O_CREAT | O_TRUNC, 0600);
}

__attribute__((destructor)) static void end(void) {
  char text[128];
  int length = snprintf(text, sizeof text, "%lu %lu %lu %lu\n",
                        calls[DATABASE], refused[DATABASE], calls[LOG], refused[LOG]);
  int out = kept_file("calls");
  if (syscall(SYS_write, out, text, length) != length)
    abort();
  syscall(SYS_close, out);
}

/* Which side has this path, counted from 1; 0 if none has. */
static int side_at(const char *path) {
  size_t length = file ? strlen(file) : 0;
  for (int it = 0; length && it < SIDES; it++)
    if (!strncmp(path, file, length) && !strcmp(path + length, ends[it]))
      return it + 1;
  return 0;
}

static int side_in(int fd) { return fd >= 0 && fd < OPEN_FILES ? side_of[fd] : 0; }

/* Whether a call on this side, counted from 1, is refused. */
static int is_refused(int side) {
  if (!side || calls[side - 1]++ < passes[side - 1])
    return 0;
  if (kills)
    kill(getpid(), SIGKILL);
  refused[side - 1]++;
  errno = EIO;
  return 1;
}

/* Notes which side was opened as this. */
static int noted(int fd, int side) {
  if (fd >= OPEN_FILES)
    abort();
  if (fd >= 0)
    side_of[fd] = side;
  return fd;
}

/* Keeps a file as it is, once it is synced. */
static int keep(int fd, int result) {
  struct stat about;
  off_t at = 0;
  if (result || !side_in(fd) || forgets || syscall(SYS_fstat, fd, &about))
    return result;
  int out = kept_file(names[side_in(fd) - 1]);
  while (at < about.st_size)
    if (sendfile(out, fd, &at, about.st_size - at) <= 0)
      abort();
  syscall(SYS_close, out);
  return result;
}

int open(const char *path, int flags, ...) {
  va_list more;
  va_start(more, flags);
  int rights = flags & O_CREAT ? va_arg(more, int) : 0, side = side_at(path);
  va_end(more);
  return is_refused(side) ? -1 : noted(syscall(SYS_openat, AT_FDCWD, path, flags, rights), side);
}

int close(int fd) {
  noted(fd, 0);
  return syscall(SYS_close, fd);
}

#define OR_REFUSED(call) return is_refused(side_in(fd)) ? -1 : (call)

int statx(int fd, const char *path, int flags, unsigned mask, struct statx *about) {
  OR_REFUSED(syscall(SYS_statx, fd, path, flags, mask, about));
}
ssize_t pread(int fd, void *text, size_t most, off_t at) { OR_REFUSED(syscall(SYS_pread64, fd, text, most, at)); }
ssize_t pwrite(int fd, const void *text, size_t most, off_t at) {
  OR_REFUSED(syscall(SYS_pwrite64, fd, text, most, at));
}
int ftruncate(int fd, off_t length) { OR_REFUSED(syscall(SYS_ftruncate, fd, length)); }
int fsync(int fd) { OR_REFUSED(keep(fd, syscall(SYS_fsync, fd))); }
int fdatasync(int fd) { OR_REFUSED(keep(fd, syscall(SYS_fdatasync, fd))); }

int getentropy(void *bytes, size_t length) {
  memset(bytes, 7, length);
  return 0;
}
