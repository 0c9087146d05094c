/* Stands before the C library's own calls on a peer of the program, and is that peer, at a clock of its own: so what
   fails at one byte, or waits for seconds, is tried exactly and in no time. test_devices.py builds it and gives it to
   the program by LD_PRELOAD, with PEERS, a folder. In it are, of each connection from 1 on, what the peer sends,
   N.sent, and how it does, N.plan; there N.taken is made, what the peer took, and N.report: when its connection was
   closed, and how many bytes the last read asked for. With STREAMS the peer 1 is standard input and standard output. A
   read that doesn't block takes no time, and isn't cut short.

   A plan is numbers, of times in milliseconds: when the peer comes; how many bytes a read gives at most; after how many
   bytes a read fails, and by which errno; how many bytes it takes, how many at once, how long apart, and by which errno
   a write fails behind them (0: it takes none; -1: it waits); whether a signal cuts each other call short, and how long
   the program is stopped at the second such; how many pieces it sends; and of each when it is sent, and its length: the
   end, if that is 0. */
#define _GNU_SOURCE
#include <errno.h>
#include <fcntl.h>
#include <netinet/in.h>
#include <stdarg.h>
#include <stdio.h>
#include <stdlib.h>
#include <string.h>
#include <sys/socket.h>
#include <sys/syscall.h>
#include <sys/time.h>
#include <sys/uio.h>
#include <time.h>
#include <unistd.h>

enum { PEERS = 65, PIECES = 16, OPEN_FILES = 1024 };
enum { COMES, READS, FAILS, READ_ERROR, ROOM, AT_ONCE, APART, WRITE_ERROR, SIGNALS, STOPPED, COUNT, NUMBERS };

struct peer {
  long plan[NUMBERS], at[PIECES], length[PIECES];
  int sent, taken, piece, calls;
  long read, written, takes_at, asked, waits_to_read, waits_to_write;
};

static struct peer peers[PEERS + 1];
static int coming = 1;
/* The number of the peer of each open file. */
static unsigned char peer_of[OPEN_FILES];
/* In milliseconds. */
static long now;

static int file_of(int number, const char *end, int flags) {
  char path[4096];
  snprintf(path, sizeof path, "%s/%d.%s", getenv("PEERS"), number, end);
  return syscall(SYS_openat, AT_FDCWD, path, flags, 0600);
}

/* Reads the plan of a peer, if there is one. */
static int prepare(int number) {
  struct peer *it = &peers[number];
  char text[1024] = "", *rest = text;
  int plan = file_of(number, "plan", O_RDONLY);
  if (plan < 0 || syscall(SYS_read, plan, text, sizeof text - 1) <= 0)
    return 0;
  syscall(SYS_close, plan);
  for (int i = 0; i < NUMBERS; i++)
    it->plan[i] = strtol(rest, &rest, 10);
  for (int i = 0; i < it->plan[COUNT] && i < PIECES; i++) {
    it->at[i] = strtol(rest, &rest, 10);
    it->length[i] = strtol(rest, &rest, 10);
  }
  it->takes_at = it->plan[APART];
  it->sent = file_of(number, "sent", O_RDONLY);
  it->taken = file_of(number, "taken", O_WRONLY | O_CREAT | O_TRUNC);
  return 1;
}

static void report(int number) {
  char text[64];
  int length = snprintf(text, sizeof text, "%ld %ld\n", now, peers[number].asked);
  int out = file_of(number, "report", O_WRONLY | O_CREAT | O_TRUNC);
  if (syscall(SYS_write, out, text, length) != length)
    abort();
  syscall(SYS_close, out);
}

__attribute__((constructor)) static void begin(void) {
  if (getenv("STREAMS") && prepare(coming))
    peer_of[0] = peer_of[1] = coming++;
}

__attribute__((destructor)) static void end(void) {
  if (peer_of[1])
    report(peer_of[1]);
}

static struct peer *peer_at(int fd) { return fd >= 0 && fd < OPEN_FILES && peer_of[fd] ? &peers[peer_of[fd]] : 0; }

static int failed(int error) {
  errno = error;
  return -1;
}

/* Whether a signal comes before anything else does. */
static int is_cut_short(struct peer *it) {
  int call = it->calls++;
  if (!it->plan[SIGNALS])
    return 0;
  if (call == 2)
    now += it->plan[STOPPED];
  return call % 2 == 0;
}

/* Nothing comes in time. */
static int pass(long within) {
  if (!within)
    abort();
  now += within;
  return failed(EAGAIN);
}

static ssize_t receive(struct peer *it, int fd, void *text, size_t most) {
  int blocks = !(syscall(SYS_fcntl, fd, F_GETFL) & O_NONBLOCK);
  if (blocks && is_cut_short(it))
    return failed(EINTR);
  it->asked = most;
  if (it->read >= it->plan[FAILS])
    return failed(it->plan[READ_ERROR]);
  if (it->piece >= it->plan[COUNT] || it->at[it->piece] > now + (blocks ? it->waits_to_read : 0))
    return blocks ? pass(it->waits_to_read) : failed(EAGAIN);
  long length = it->length[it->piece];
  if (now < it->at[it->piece])
    now = it->at[it->piece];
  if (length > it->plan[READS])
    length = it->plan[READS];
  if (length > (long)most)
    length = most;
  if (it->plan[FAILS] - it->read < length)
    length = it->plan[FAILS] - it->read;
  if (syscall(SYS_read, it->sent, text, length) != length)
    abort();
  it->read += length;
  it->length[it->piece] -= length;
  it->piece += length > 0 && it->length[it->piece] == 0;
  return length;
}

static ssize_t take(struct peer *it, const void *text, size_t length) {
  if (is_cut_short(it))
    return failed(EINTR);
  long count = it->plan[ROOM] - it->written;
  if (count == 0 && it->plan[WRITE_ERROR] >= 0)
    return it->plan[WRITE_ERROR] ? failed(it->plan[WRITE_ERROR]) : 0;
  if (count > it->plan[AT_ONCE])
    count = it->plan[AT_ONCE];
  if (count > (long)length)
    count = length;
  if (count == 0 || it->takes_at > now + it->waits_to_write)
    return pass(it->waits_to_write);
  if (now < it->takes_at)
    now = it->takes_at;
  it->takes_at = now + it->plan[APART];
  it->written += count;
  if (syscall(SYS_write, it->taken, text, count) != count)
    abort();
  return count;
}

/* A connection of the next peer, once it comes; a look at the door doesn't wait for it. */
static int next_peer(int listener) {
  static int is_prepared;
  if (coming > PEERS || !(is_prepared || (is_prepared = prepare(coming))))
    return failed(ECONNABORTED);
  if (peers[coming].plan[COMES] > now) {
    if (fcntl(listener, F_GETFL) & O_NONBLOCK)
      return failed(EAGAIN);
    now = peers[coming].plan[COMES];
  }
  int fd = syscall(SYS_openat, AT_FDCWD, "/dev/null", O_RDWR | O_CLOEXEC);
  if (fd < 0 || fd >= OPEN_FILES)
    abort();
  is_prepared = 0;
  peer_of[fd] = coming++;
  return fd;
}

int accept4(int listener, struct sockaddr *address, socklen_t *length, int flags) {
  (void)flags;
  int fd = next_peer(listener);
  if (fd >= 0 && address) {
    struct sockaddr_in from = {.sin_family = AF_INET, .sin_port = htons(1), .sin_addr.s_addr = htonl(INADDR_LOOPBACK)};
    memcpy(address, &from, *length < sizeof from ? *length : sizeof from);
    *length = sizeof from;
  }
  return fd;
}
int accept(int listener, struct sockaddr *address, socklen_t *length) { return accept4(listener, address, length, 0); }

int setsockopt(int fd, int level, int name, const void *value, socklen_t length) {
  struct peer *it = peer_at(fd);
  if (!it)
    return syscall(SYS_setsockopt, fd, level, name, value, length);
  if (level == SOL_SOCKET && (name == SO_RCVTIMEO || name == SO_SNDTIMEO)) {
    const struct timeval *time = value;
    *(name == SO_RCVTIMEO ? &it->waits_to_read : &it->waits_to_write) = time->tv_sec * 1000 + time->tv_usec / 1000;
  }
  return 0;
}

/* A further number for the same file is of the same peer. */
int fcntl(int fd, int command, ...) {
  va_list rest;
  va_start(rest, command);
  int result = syscall(SYS_fcntl, fd, command, va_arg(rest, long));
  va_end(rest);
  if (peer_at(fd) && command == F_DUPFD_CLOEXEC && result >= 0) {
    if (result >= OPEN_FILES)
      abort();
    peer_of[result] = peer_of[fd];
  }
  return result;
}

/* A connection is closed with the last of its numbers. */
int close(int fd) {
  if (peer_at(fd)) {
    int number = peer_of[fd];
    peer_of[fd] = 0;
    if (!memchr(peer_of, number, sizeof peer_of))
      report(number);
  }
  return syscall(SYS_close, fd);
}

int clock_gettime(clockid_t clock, struct timespec *time) {
  if (clock == CLOCK_REALTIME || getenv("STREAMS"))
    return syscall(SYS_clock_gettime, clock, time);
  *time = (struct timespec){.tv_sec = 1000 + now / 1000, .tv_nsec = now % 1000 * 1000000};
  return 0;
}

ssize_t read(int fd, void *text, size_t most) {
  return peer_at(fd) ? receive(peer_at(fd), fd, text, most) : syscall(SYS_read, fd, text, most);
}
ssize_t recv(int fd, void *text, size_t most, int flags) {
  return peer_at(fd) ? receive(peer_at(fd), fd, text, most) : syscall(SYS_recvfrom, fd, text, most, flags, 0, 0);
}
ssize_t write(int fd, const void *text, size_t length) {
  return peer_at(fd) ? take(peer_at(fd), text, length) : syscall(SYS_write, fd, text, length);
}
ssize_t send(int fd, const void *text, size_t length, int flags) {
  return peer_at(fd) ? take(peer_at(fd), text, length) : syscall(SYS_sendto, fd, text, length, flags, 0, 0);
}
ssize_t writev(int fd, const struct iovec *parts, int count) {
  return peer_at(fd) ? take(peer_at(fd), parts->iov_base, parts->iov_len) : syscall(SYS_writev, fd, parts, count);
}
ssize_t sendmsg(int fd, const struct msghdr *text, int flags) {
  return peer_at(fd) ? writev(fd, text->msg_iov, text->msg_iovlen) : syscall(SYS_sendmsg, fd, text, flags);
}
