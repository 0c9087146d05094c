/* Gives a program the effect of a wrong line at its edge, where it takes bytes, peers, files and time from the system
   and hands them back: no contract speaks of these lines (docs/READ.md). WRONG_EDGE names it (test_wrong_edges.py). Or
   lets it wait for its peers otherwise than it has to (test_wrong_waits.py). */
#define _GNU_SOURCE
#include <dlfcn.h>
#include <errno.h>
#include <fcntl.h>
#include <netinet/in.h>
#include <poll.h>
#include <stdarg.h>
#include <stdlib.h>
#include <string.h>
#include <sys/ioctl.h>
#include <sys/socket.h>
#include <sys/stat.h>
#include <time.h>
#include <unistd.h>

#define REAL(name) \
  static __typeof__(name) *real; \
  if (!real) \
    *(void **)&real = dlsym(RTLD_NEXT, #name)

static int is(const char *name) {
  const char *wanted = getenv("WRONG_EDGE");
  return wanted && !strcmp(wanted, name);
}

/* What a peer sent: of one that is served, or, by a call that doesn't wait, of one that waits. */
static ssize_t came(char *bytes, ssize_t count) {
  if (count <= 1)
    return count;
  if (is("last-byte-is-lost"))
    return count - 1;
  if (is("bytes-are-turned")) {
    char first = bytes[0];
    bytes[0] = bytes[count - 1];
    bytes[count - 1] = first;
  }
  return count;
}

ssize_t recv(int socket, void *bytes, size_t length, int flags) {
  REAL(recv);
  int never_waits = fcntl(socket, F_GETFL) & O_NONBLOCK;
  if (never_waits && is("all-are-ready"))
    return 0;
  int loses = never_waits && is("what-is-seen-is-lost");
  if ((never_waits && is("nothing-is-seen")) || (loses && real(socket, bytes, length, flags) > 0)) {
    errno = EAGAIN;
    return -1;
  }
  return came(bytes, real(socket, bytes, length, flags));
}

/* The nanoseconds that writes have waited, which the program's clock doesn't see. */
static long long hidden;

static long long nanoseconds(void) {
  struct timespec it;
  clock_gettime(CLOCK_MONOTONIC, &it);
  return it.tv_sec * 1000000000LL + it.tv_nsec;
}

/* A write waits for room by itself, for up to 10 seconds, and as the program sees it for none of them. */
static ssize_t sent_anew(ssize_t (*send)(int, const void *, size_t, int), int socket, const void *bytes, size_t length,
                         int flags) {
  long long began = nanoseconds();
  ssize_t sent = send(socket, bytes, length, flags | MSG_DONTWAIT);
  while (sent < 0 && errno == EAGAIN && nanoseconds() - began < 10000000000LL) {
    struct pollfd room = {socket, POLLOUT, 0};
    poll(&room, 1, 20);
    sent = send(socket, bytes, length, flags | MSG_DONTWAIT);
  }
  hidden += nanoseconds() - began;
  if (sent < 0 && errno == EAGAIN)
    errno = ETIMEDOUT;
  return sent;
}

ssize_t send(int socket, const void *bytes, size_t length, int flags) {
  REAL(send);
  if (is("each-write-waits-anew"))
    return sent_anew(real, socket, bytes, length, flags);
  if (length > 1 && is("first-byte-twice"))
    real(socket, bytes, 1, flags);
  if (length > 1 && is("half-is-sent")) {
    real(socket, bytes, length / 2, flags);
    return length;
  }
  return real(socket, bytes, length, flags);
}

/* Each second peer is lost as it comes in; or none is found to wait while another is served: a look at a listener
   doesn't block, and a wait for the next connection does. */
int accept4(int socket, struct sockaddr *address, socklen_t *length, int flags) {
  REAL(accept4);
  static int count;
  if (is("nobody-waits") && fcntl(socket, F_GETFL) & O_NONBLOCK) {
    errno = EAGAIN;
    return -1;
  }
  int found = real(socket, address, length, flags);
  if (found >= 0 && is("each-second-is-lost") && !(count++ % 2)) {
    close(found);
    errno = ECONNABORTED;
    return -1;
  }
  return found;
}

int bind(int socket, const struct sockaddr *address, socklen_t length) {
  REAL(bind);
  struct sockaddr_in all;
  if (address->sa_family != AF_INET || !is("each-address"))
    return real(socket, address, length);
  memcpy(&all, address, sizeof all);
  all.sin_addr.s_addr = INADDR_ANY;
  return real(socket, (struct sockaddr *)&all, sizeof all);
}

int getsockname(int socket, struct sockaddr *address, socklen_t *length) {
  REAL(getsockname);
  int result = real(socket, address, length);
  if (address->sa_family == AF_INET && is("each-address"))
    ((struct sockaddr_in *)address)->sin_addr.s_addr = htonl(INADDR_LOOPBACK);
  return result;
}

/* A time limit for reads, or for writes, isn't set. */
int setsockopt(int socket, int level, int name, const void *value, socklen_t length) {
  REAL(setsockopt);
  const char *reads = "reads-without-a-limit", *writes = "writes-without-a-limit";
  if (level == SOL_SOCKET && ((name == SO_RCVTIMEO && is(reads)) || (name == SO_SNDTIMEO && is(writes))))
    return 0;
  return real(socket, level, name, value, length);
}

static int listens(int socket) {
  int yes = 0;
  socklen_t length = sizeof yes;
  return !getsockopt(socket, SOL_SOCKET, SO_ACCEPTCONN, &yes, &length) && yes;
}

/* Whether a call on a socket waits isn't set back: of those that are served, or of the listener. */
int ioctl(int file, unsigned long what, ...) {
  REAL(ioctl);
  va_list more;
  va_start(more, what);
  void *value = va_arg(more, void *);
  va_end(more);
  if (what == FIONBIO && !*(int *)value && is(listens(file) ? "the-door-never-waits" : "no-read-waits"))
    return 0;
  return real(file, what, value);
}

int statx(int folder, const char *path, int flags, unsigned int mask, struct statx *it) {
  REAL(statx);
  int result = real(folder, path, flags, mask, it);
  return result && is("each-file-is-there") ? real(folder, "/", flags, mask, it) : result;
}

/* The time since the program began stands still, or runs a thousand times as fast, or lacks what is hidden. */
int clock_gettime(clockid_t clock, struct timespec *it) {
  REAL(clock_gettime);
  static long long first;
  int result = real(clock, it);
  long long now = it->tv_sec * 1000000000LL + it->tv_nsec;
  if (!first)
    first = now;
  long long seen = is("time-stands") ? first : is("time-runs") ? first + 1000 * (now - first) : now - hidden;
  it->tv_sec = seen / 1000000000;
  it->tv_nsec = seen % 1000000000;
  return result;
}

/* The standard streams. */
ssize_t read(int file, void *bytes, size_t length) {
  REAL(read);
  ssize_t count = real(file, bytes, length);
  if (file || count < 2 || !is("input-lacks-a-byte"))
    return count;
  memmove(bytes, (char *)bytes + 1, count - 1);
  return count - 1;
}

ssize_t write(int file, const void *bytes, size_t length) {
  REAL(write);
  if (file == 1 && is("output-is-lost"))
    return length;
  if (file == 2 && is("errors-are-lost"))
    return length;
  if (file == 1 && is("output-on-errors"))
    return real(2, bytes, length);
  return real(file, bytes, length);
}
