/* Watches the calls by which a program reads and writes files, and breaks one of them. To be preloaded.

   CALLS names a file to which each call is appended as a line: its number, its name, its target, and the flags of an open.
   BREAK is the number of the call to be broken, and HOW says how: a number is the error that it answers, without being
   made; `short` makes it with one byte less, where it has at least two. */
#define _GNU_SOURCE
#include <dlfcn.h>
#include <errno.h>
#include <fcntl.h>
#include <stdarg.h>
#include <stdio.h>
#include <stdlib.h>
#include <string.h>
#include <sys/file.h>
#include <sys/stat.h>
#include <unistd.h>

static int log_file = -1;
static long count;
static long broken;
static int error; /* 0: a short call */

static ssize_t (*real_write)(int, const void *, size_t);

__attribute__((constructor)) static void start(void) {
  const char *calls = getenv("CALLS"), *number = getenv("BREAK"), *how = getenv("HOW");
  int (*real_open)(const char *, int, ...) = dlsym(RTLD_NEXT, "open");
  real_write = dlsym(RTLD_NEXT, "write");
  broken = number ? atol(number) : 0;
  error = how && strcmp(how, "short") ? atoi(how) : 0;
  if (calls) log_file = real_open(calls, O_WRONLY | O_CREAT | O_APPEND | O_CLOEXEC, 0600);
}

/* counts a call, and answers 1 where it is to answer the error, 2 where it is to be short, and else 0 */
static int counted(const char *name, const char *target, const char *more) {
  char line[512];
  int length;
  if (log_file < 0 && !broken) return 0;
  count++;
  length = snprintf(line, sizeof line, "%ld %s %s%s\n", count, name, target, more);
  if (log_file >= 0 && real_write(log_file, line, (size_t)length) < 0) _exit(99);
  return count != broken ? 0 : error ? 1 : 2;
}

/* the last part of a path, with the slashes behind it */
static const char *last_part(const char *path) {
  const char *last = path;
  for (const char *at = path; *at; at++)
    if (*at == '/' && at[1] && at[1] != '/') last = at + 1;
  return last;
}

/* the last part of the path behind an open file */
static const char *target_of(int file, char *path, size_t size) {
  char link[64];
  ssize_t length;
  snprintf(link, sizeof link, "/proc/self/fd/%d", file);
  length = readlink(link, path, size - 1);
  if (length < 0) return "?";
  path[length] = 0;
  return last_part(path);
}

#define BREAKS(name, target, more, size)                \
  switch (counted(name, target, more)) {                \
  case 1:                                               \
    errno = error;                                      \
    return -1;                                          \
  case 2:                                               \
    if (size > 1) size--;                               \
  }

#define ON_FILE(name, file, size)                       \
  char path[4096];                                      \
  BREAKS(name, target_of(file, path, sizeof path), "", size)

int open(const char *path, int flags, ...) {
  int (*real)(const char *, int, ...) = dlsym(RTLD_NEXT, "open");
  int mode = 0, size = 0;
  va_list rest;
  va_start(rest, flags);
  mode = va_arg(rest, int);
  va_end(rest);
  BREAKS("open", last_part(path), flags & O_CREAT ? " new" : "", size)
  return real(path, flags, mode);
}

int openat(int folder, const char *path, int flags, ...) {
  int (*real)(int, const char *, int, ...) = dlsym(RTLD_NEXT, "openat");
  int mode = 0, size = 0;
  va_list rest;
  va_start(rest, flags);
  mode = va_arg(rest, int);
  va_end(rest);
  BREAKS("open", last_part(path), flags & O_CREAT ? " new" : "", size)
  return real(folder, path, flags, mode);
}

int mkdir(const char *path, mode_t mode) {
  int (*real)(const char *, mode_t) = dlsym(RTLD_NEXT, "mkdir");
  int size = 0;
  BREAKS("mkdir", path, "", size)
  return real(path, mode);
}

int unlink(const char *path) {
  int (*real)(const char *) = dlsym(RTLD_NEXT, "unlink");
  int size = 0;
  BREAKS("unlink", path, "", size)
  return real(path);
}

int unlinkat(int folder, const char *path, int flags) {
  int (*real)(int, const char *, int) = dlsym(RTLD_NEXT, "unlinkat");
  int size = 0;
  BREAKS("unlink", path, "", size)
  return real(folder, path, flags);
}

int flock(int file, int operation) {
  int (*real)(int, int) = dlsym(RTLD_NEXT, "flock");
  int size = 0;
  ON_FILE("lock", file, size)
  return real(file, operation);
}

int fsync(int file) {
  int (*real)(int) = dlsym(RTLD_NEXT, "fsync");
  int size = 0;
  ON_FILE("sync", file, size)
  return real(file);
}

int fdatasync(int file) {
  int (*real)(int) = dlsym(RTLD_NEXT, "fdatasync");
  int size = 0;
  ON_FILE("sync", file, size)
  return real(file);
}

ssize_t read(int file, void *buffer, size_t size) {
  ssize_t (*real)(int, void *, size_t) = dlsym(RTLD_NEXT, "read");
  ON_FILE("read", file, size)
  return real(file, buffer, size);
}

ssize_t write(int file, const void *buffer, size_t size) {
  ON_FILE("write", file, size)
  return real_write(file, buffer, size);
}

ssize_t pread(int file, void *buffer, size_t size, off_t at) {
  ssize_t (*real)(int, void *, size_t, off_t) = dlsym(RTLD_NEXT, "pread");
  ON_FILE("read", file, size)
  return real(file, buffer, size, at);
}

ssize_t pwrite(int file, const void *buffer, size_t size, off_t at) {
  ssize_t (*real)(int, const void *, size_t, off_t) = dlsym(RTLD_NEXT, "pwrite");
  ON_FILE("write", file, size)
  return real(file, buffer, size, at);
}

ssize_t pread64(int file, void *buffer, size_t size, off_t at) { return pread(file, buffer, size, at); }

ssize_t pwrite64(int file, const void *buffer, size_t size, off_t at) { return pwrite(file, buffer, size, at); }
