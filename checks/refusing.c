/* Refuses memory to a program, run after run: checks/refused_memory has it loaded before the C library (LD_PRELOAD).
   Before `main` it goes on as one child after another, of which the first has its first call for memory refused, the next
   one its second, and so on from REFUSE_FIRST to REFUSE_LAST by REFUSE_STEP, or until nothing is refused. The
   REFUSE_MORE calls behind it are refused too. Calls are counted from the moment in which REFUSE_AFTER bytes are written
   to the descriptor REFUSE_STREAM, until REFUSE_UNTIL are, or somebody writes the child's number into the last word of
   the file REFUSE_ROOM/tally. Each child works in a folder of its own below REFUSE_ROOM, named by its number, with a copy
   of REFUSE_FILE as `journal`, REFUSE_INPUT as its input, and `out` and `err`. Its time of day stands still at
   REFUSE_CLOCK seconds; with REFUSE_TICK it goes on by so many with each write to that descriptor, and as somebody
   writes the number. With REFUSE_LINES a read of its input gives one line, and with REFUSE_MESSAGES one message of HTTP,
   so that what is answered to it is written before the next one. It listens at a port of its own: the one that is named,
   and its number more. A line of REFUSE_ROOM/results says of each: its number, what waitpid gives, and how many calls were
   counted and how many refused. */
#define _GNU_SOURCE
#include <arpa/inet.h>
#include <errno.h>
#include <fcntl.h>
#include <stdatomic.h>
#include <stddef.h>
#include <stdint.h>
#include <stdio.h>
#include <stdlib.h>
#include <string.h>
#include <sys/mman.h>
#include <sys/socket.h>
#include <sys/stat.h>
#include <sys/syscall.h>
#include <sys/uio.h>
#include <sys/wait.h>
#include <time.h>
#include <unistd.h>

extern void *__libc_malloc(size_t), *__libc_calloc(size_t, size_t), *__libc_realloc(void *, size_t);
extern void *__libc_memalign(size_t, size_t);

static struct tally { _Atomic uint64_t counted, refused, written, lifted, puts; } *tally;
static uint64_t at, more, after, until, seconds, tick;
static int stream, lines, messages;

static uint64_t number(const char *name, uint64_t without) {
  const char *text = getenv(name);
  return text ? strtoull(text, NULL, 10) : without;
}

static void onto(int file, const char *name, int flags) {
  int opened = open(name, flags, 0600);
  if (opened < 0 || dup2(opened, file) < 0) _exit(70);
  close(opened);
}

static void copied(const char *from, const char *name) {
  int in = open(from, O_RDONLY), out = open(name, O_WRONLY | O_CREAT, 0600);
  if (in < 0 || out < 0) _exit(70);
  while (syscall(SYS_sendfile, out, in, NULL, 1 << 20) > 0) continue;
  close(in), close(out);
}

/* What a child does before it goes on as the program. */
static void prepared(uint64_t number) {
  char name[32];
  snprintf(name, sizeof name, "%lu", number);
  if (mkdir(name, 0700) || chdir(name)) _exit(70);
  if (getenv("REFUSE_FILE")) copied(getenv("REFUSE_FILE"), "journal");
  onto(0, getenv("REFUSE_INPUT"), O_RDONLY);
  onto(1, "out", O_WRONLY | O_CREAT), onto(2, "err", O_WRONLY | O_CREAT);
  alarm(60);
  at = number;
}

__attribute__((constructor)) static void begin(void) {
  if (!getenv("REFUSE_ROOM")) return;
  uint64_t last = number("REFUSE_LAST", UINT64_MAX);
  after = number("REFUSE_AFTER", 0), until = number("REFUSE_UNTIL", UINT64_MAX), seconds = number("REFUSE_CLOCK", 0);
  more = number("REFUSE_MORE", 0), stream = number("REFUSE_STREAM", 1), tick = number("REFUSE_TICK", 0);
  lines = number("REFUSE_LINES", 0), messages = number("REFUSE_MESSAGES", 0);
  if (chdir(getenv("REFUSE_ROOM"))) _exit(70);
  int file = open("tally", O_RDWR | O_CREAT, 0600);
  if (file < 0 || ftruncate(file, sizeof *tally)) _exit(70);
  tally = mmap(NULL, sizeof *tally, PROT_READ | PROT_WRITE, MAP_SHARED, file, 0);
  close(file);
  if (tally == MAP_FAILED) _exit(70);
  int results = open("results", O_WRONLY | O_CREAT | O_APPEND, 0600);
  for (uint64_t next = number("REFUSE_FIRST", 1); next <= last; next += number("REFUSE_STEP", 1)) {
    tally->counted = tally->refused = tally->written = tally->lifted = tally->puts = 0;
    pid_t child = fork();
    if (child == 0) {
      close(results);
      prepared(next);
      return;
    }
    int status = 0;
    if (child < 0 || waitpid(child, &status, 0) != child) _exit(70);
    dprintf(results, "%lu %d %lu %lu\n", next, status, tally->counted, tally->refused);
    if (next && !tally->refused) break;
  }
  _exit(0);
}

static int refused(void) {
  if (!at && !tally) return 0;
  if (tally->written < after || tally->written >= until || tally->lifted == at + 1) return 0;
  uint64_t number = atomic_fetch_add(&tally->counted, 1) + 1;
  if (at == 0 || number < at || number - at > more) return 0;
  atomic_fetch_add(&tally->refused, 1);
  errno = ENOMEM;
  return 1;
}

void *malloc(size_t size) { return refused() ? NULL : __libc_malloc(size); }
void *calloc(size_t count, size_t size) { return refused() ? NULL : __libc_calloc(count, size); }
void *realloc(void *from, size_t size) { return refused() ? NULL : __libc_realloc(from, size); }
void *memalign(size_t to, size_t size) { return refused() ? NULL : __libc_memalign(to, size); }
void *aligned_alloc(size_t to, size_t size) { return memalign(to, size); }
int posix_memalign(void **into, size_t to, size_t size) {
  void *made = memalign(to, size);
  if (!made) return ENOMEM;
  *into = made;
  return 0;
}

/* How many of these bytes one read gives: those of the line, or of the message, with which they begin, if it is whole. */
static ssize_t first(const char *from, ssize_t size) {
  const char *end = lines ? memchr(from, '\n', size) : memmem(from, size, "\r\n\r\n", 4);
  if (!end) return size;
  if (lines) return end + 1 - from;
  const char *length = memmem(from, end - from, "\r\nContent-Length: ", 18);
  ssize_t whole = end + 4 - from + (length ? strtoll(length + 18, NULL, 10) : 0);
  return whole < size ? whole : size;
}

ssize_t read(int file, void *into, size_t size) {
  ssize_t came = syscall(SYS_read, file, into, size);
  if (file != 0 || came <= 0 || (!lines && !messages)) return came;
  ssize_t some = first(into, came);
  return some < came && syscall(SYS_lseek, file, some - came, SEEK_CUR) < 0 ? -1 : some;
}

static ssize_t told(int file, ssize_t written) {
  if (tally && file == stream && written > 0) {
    atomic_fetch_add(&tally->written, written);
    atomic_fetch_add(&tally->puts, 1);
  }
  return written;
}

ssize_t write(int file, const void *from, size_t size) { return told(file, syscall(SYS_write, file, from, size)); }
ssize_t writev(int file, const struct iovec *from, int count) {
  return told(file, syscall(SYS_writev, file, from, count));
}

int bind(int file, const struct sockaddr *to, socklen_t size) {
  struct sockaddr_in own;
  if (!tally || to->sa_family != AF_INET || size != sizeof own) return syscall(SYS_bind, file, to, size);
  own = *(const struct sockaddr_in *)to;
  own.sin_port = htons(ntohs(own.sin_port) + at);
  return syscall(SYS_bind, file, &own, size);
}

/* It comes from an address of its own, 127.1.0.0 and its number more, by which another host knows it. */
int connect(int file, const struct sockaddr *to, socklen_t size) {
  if (tally && to->sa_family == AF_INET) {
    struct sockaddr_in own = {.sin_family = AF_INET, .sin_addr.s_addr = htonl(0x7F010000 + at)};
    syscall(SYS_bind, file, &own, sizeof own);
  }
  return syscall(SYS_connect, file, to, size);
}

int clock_gettime(clockid_t which, struct timespec *into) {
  if (seconds && which == CLOCK_REALTIME) {
    into->tv_sec = seconds + tick * (tally->puts + (tally->lifted == at + 1)), into->tv_nsec = 0;
    return 0;
  }
  return syscall(SYS_clock_gettime, which, into);
}
