/* Preloaded by tools/check-archive: counts the calls that change files, logs them, and kills or fails at one of them.

   WATCH_LOG=FILE     a line for each: number, call, path, flags of an open; "out" for what goes to standard output
   WATCH_KILL=N       the N-th call does not happen: the process is killed
   WATCH_FAIL=N:E     the N-th call fails with errno E
   WATCH_PLAIN=1      renameat2 knows no flags, as on a file system without them
   WATCH_DENY=NAME    files and folders of this name cannot be opened (EACCES)
   WATCH_MISTAKE=M    what a wrong program would do: folder-sync (none), late-sync (after the rename), or left-out:NAME */
#define _GNU_SOURCE
#include <dirent.h>
#include <dlfcn.h>
#include <errno.h>
#include <fcntl.h>
#include <signal.h>
#include <stdarg.h>
#include <stdio.h>
#include <stdlib.h>
#include <string.h>
#include <sys/stat.h>
#include <sys/syscall.h>
#include <sys/uio.h>
#include <unistd.h>

static int counted;
static char late[64][4096];
static int lates;

static void note(const char *call, const char *path, int flags) {
  const char *file = getenv("WATCH_LOG");
  if (!file) return;
  char line[9000];
  int length = snprintf(line, sizeof line, "%d\t%s\t%s\t%d\n", counted, call, path, flags);
  int fd = syscall(SYS_openat, AT_FDCWD, file, O_WRONLY | O_CREAT | O_APPEND, 0666);
  syscall(SYS_write, fd, line, length);
  syscall(SYS_close, fd);
}

static const char *name_of(int fd, char *room) {
  char link[64];
  snprintf(link, sizeof link, "/proc/self/fd/%d", fd);
  long n = syscall(SYS_readlink, link, room, 4095);
  room[n < 0 ? 0 : n] = 0;
  return room;
}

/* Counts a call; 1 if it is to fail. */
static int counts(const char *call, const char *path, int flags) {
  counted++;
  const char *kill_at = getenv("WATCH_KILL"), *fail_at = getenv("WATCH_FAIL");
  if (kill_at && atoi(kill_at) == counted) syscall(SYS_kill, getpid(), SIGKILL);
  if (fail_at && atoi(fail_at) == counted) {
    errno = atoi(strchr(fail_at, ':') + 1);
    return 1;
  }
  note(call, path, flags);
  return 0;
}

static int ends_with(const char *path, const char *name) {
  const char *slash = strrchr(path, '/');
  return name && strcmp(slash ? slash + 1 : path, name) == 0;
}

static int mistake(const char *which) {
  const char *said = getenv("WATCH_MISTAKE");
  return said && strncmp(said, which, strlen(which)) == 0;
}

static int opens(int at, const char *path, int flags, mode_t mode) {
  if (ends_with(path, getenv("WATCH_DENY"))) return errno = EACCES, -1;
  if (flags & (O_CREAT | O_WRONLY | O_RDWR | O_TRUNC)) {
    if (mistake("left-out:") && ends_with(path, getenv("WATCH_MISTAKE") + 9)) {
      return syscall(SYS_openat, AT_FDCWD, "/dev/null", O_WRONLY);
    }
    if (counts("create", path, flags)) return -1;
  }
  return syscall(SYS_openat, at, path, flags, mode);
}

#define OPEN(NAME)                                    \
  int NAME(const char *path, int flags, ...) {        \
    va_list more;                                     \
    va_start(more, flags);                            \
    mode_t mode = va_arg(more, mode_t);               \
    va_end(more);                                     \
    return opens(AT_FDCWD, path, flags, mode);        \
  }
OPEN(open)
OPEN(open64)
#define OPENAT(NAME)                                     \
  int NAME(int at, const char *path, int flags, ...) {   \
    va_list more;                                        \
    va_start(more, flags);                               \
    mode_t mode = va_arg(more, mode_t);                  \
    va_end(more);                                        \
    return opens(at, path, flags, mode);                 \
  }
OPENAT(openat)
OPENAT(openat64)

DIR *opendir(const char *path) {
  static DIR *(*next)(const char *);
  if (!next) next = (DIR * (*)(const char *)) dlsym(RTLD_NEXT, "opendir");
  if (ends_with(path, getenv("WATCH_DENY"))) return errno = EACCES, NULL;
  return next(path);
}

ssize_t write(int fd, const void *bytes, size_t length) {
  char room[4096];
  if (fd == 1) note("out", "", 0);
  else if (fd > 2 && counts("write", name_of(fd, room), 0)) return -1;
  return syscall(SYS_write, fd, bytes, length);
}

ssize_t writev(int fd, const struct iovec *parts, int count) {
  char room[4096];
  if (fd == 1) note("out", "", 0);
  else if (fd > 2 && counts("write", name_of(fd, room), 0)) return -1;
  return syscall(SYS_writev, fd, parts, count);
}

static int syncs(long call, int fd) {
  char room[4096];
  struct stat kind;
  const char *path = name_of(fd, room);
  fstat(fd, &kind);
  if (S_ISDIR(kind.st_mode) && mistake("folder-sync")) return 0;
  if (S_ISREG(kind.st_mode) && mistake("late-sync") && lates < 64) return strcpy(late[lates++], path), 0;
  if (counts("sync", path, 0)) return -1;
  return syscall(call, fd);
}
int fsync(int fd) { return syncs(SYS_fsync, fd); }
int fdatasync(int fd) { return syncs(SYS_fdatasync, fd); }

static int renames(const char *from, const char *to, unsigned flags) {
  char both[9000];
  if (flags && getenv("WATCH_PLAIN")) return errno = EINVAL, -1;
  snprintf(both, sizeof both, "%s\t%s", from, to);
  if (counts("rename", both, flags)) return -1;
  int done = syscall(SYS_renameat2, AT_FDCWD, from, AT_FDCWD, to, flags);
  for (int i = 0; i < lates; i++) note("sync", late[i], 0);
  lates = 0;
  return done;
}
int rename(const char *from, const char *to) { return renames(from, to, 0); }
int renameat2(int a, const char *from, int b, const char *to, unsigned flags) { return renames(from, to, flags); }

int linkat(int a, const char *from, int b, const char *to, int flags) {
  return counts("link", to, 0) ? -1 : (int)syscall(SYS_linkat, a, from, b, to, flags);
}
int mkdir(const char *path, mode_t mode) {
  return counts("mkdir", path, 0) ? -1 : (int)syscall(SYS_mkdirat, AT_FDCWD, path, mode);
}
int unlink(const char *path) {
  return counts("unlink", path, 0) ? -1 : (int)syscall(SYS_unlinkat, AT_FDCWD, path, 0);
}
int unlinkat(int at, const char *path, int flags) {
  return counts("unlink", path, 0) ? -1 : (int)syscall(SYS_unlinkat, at, path, flags);
}
int rmdir(const char *path) {
  return counts("rmdir", path, 0) ? -1 : (int)syscall(SYS_unlinkat, AT_FDCWD, path, AT_REMOVEDIR);
}
int ftruncate64(int fd, off_t length) {
  char room[4096];
  return counts("cut", name_of(fd, room), 0) ? -1 : (int)syscall(SYS_ftruncate, fd, length);
}
