/* Stands before the calls of the system that the command-line tool makes (LD_PRELOAD), for tests/tool.py. Each call
   is told to the file LOG: a line with its name, what it gave back and its arguments; after a write's line come the
   bytes written. The process is ended before its AT-th call, or, where FAIL is set, that call fails and does nothing. */
#define _GNU_SOURCE
#include <dlfcn.h>
#include <errno.h>
#include <fcntl.h>
#include <signal.h>
#include <stdarg.h>
#include <stdio.h>
#include <stdlib.h>
#include <sys/file.h>
#include <sys/stat.h>
#include <sys/syscall.h>
#include <unistd.h>

#define NEXT(type, name, parameters) ((type(*) parameters)dlsym(RTLD_NEXT, name))

static int to = -1;

/* By the system's own calls, which are not told. */
static void tell(const void *from, size_t n) {
  if (to >= 0 && syscall(SYS_write, to, from, n) != (long)n) abort();
}

static void note(const char *format, ...) {
  char line[16384];
  va_list more;
  va_start(more, format);
  int n = vsnprintf(line, sizeof line, format, more);
  va_end(more);
  if (n < 0 || n >= (int)sizeof line) abort();
  tell(line, n);
}

__attribute__((constructor)) static void begin(void) {
  const char *name = getenv("LOG");
  if (name == NULL) return;
  int fd = syscall(SYS_openat, AT_FDCWD, name, O_WRONLY | O_CREAT | O_APPEND, 0600);
  /* away from the numbers that the tool's files have */
  to = fcntl(fd, F_DUPFD, 100);
  syscall(SYS_close, fd);
  if (to < 0) abort();
  note("loaded 0\n");
}

static int due(void) {
  static int calls;
  const char *at = getenv("AT");
  if (at == NULL || ++calls != atoi(at)) return 0;
  if (getenv("FAIL")) return errno = EIO, 1;
  return kill(syscall(SYS_getpid), SIGKILL), 1;
}

#define CALL(type, name, parameters, arguments, format, ...) \
  type name parameters { \
    type told = due() ? -1 : NEXT(type, #name, parameters) arguments; \
    int reason = errno; \
    note(#name " %ld " format "\n", (long)told, __VA_ARGS__); \
    errno = reason; \
    return told; \
  }
CALL(int, close, (int fd), (fd), "%d", fd)
CALL(int, fchown, (int fd, uid_t owner, gid_t group), (fd, owner, group), "%d", fd)
CALL(int, fdatasync, (int fd), (fd), "%d", fd)
CALL(int, flock, (int fd, int how), (fd, how), "%d", fd)
CALL(int, fsync, (int fd), (fd), "%d", fd)
CALL(int, getentropy, (void *bytes, size_t n), (bytes, n), "%zu", n)
CALL(int, ftruncate, (int fd, off_t n), (fd, n), "%d", fd)
CALL(pid_t, getpid, (void), (), "%d", 0)
CALL(ssize_t, read, (int fd, void *bytes, size_t n), (fd, bytes, n), "%d", fd)
CALL(int, rename, (const char *from, const char *name), (from, name), "%s %s", from, name)
CALL(int, statx, (int fd, const char *name, int flags, unsigned mask, struct statx *s), (fd, name, flags, mask, s), "%d %s", fd, *name ? name : "-")
CALL(int, unlink, (const char *name), (name), "%s", name)

/* With the mode that the file had before. */
int fchmod(int fd, mode_t mode) {
  struct stat before = {0};
  NEXT(int, "fstat", (int, struct stat *))(fd, &before);
  int told = due() ? -1 : NEXT(int, "fchmod", (int, mode_t))(fd, mode);
  int reason = errno;
  note("fchmod %d %d %o\n", told, fd, before.st_mode & 07777);
  errno = reason;
  return told;
}

int open(const char *name, int flags, ...) {
  va_list more;
  va_start(more, flags);
  mode_t mode = va_arg(more, int);
  va_end(more);
  int told = due() ? -1 : NEXT(int, "open", (const char *, int, ...))(name, flags, mode);
  int reason = errno;
  note("open %d %s %x\n", told, name, flags);
  errno = reason;
  return told;
}

ssize_t write(int fd, const void *from, size_t n) {
  ssize_t told = due() ? -1 : NEXT(ssize_t, "write", (int, const void *, size_t))(fd, from, n);
  int reason = errno;
  note("write %ld %d\n", (long)told, fd);
  if (told > 0) tell(from, told);
  errno = reason;
  return told;
}
