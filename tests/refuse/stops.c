/* Ends the process that it is preloaded into at a call that reads, writes, cuts or syncs a database's file, or fails
 * such a call. The calls are pread, pwrite, ftruncate, fsync and fdatasync, counted together from 1.
 *
 * STOP=K      ends the process before the Kth call
 * TEAR=K      ends it when half of the Kth call's bytes are written, where that call writes
 * FAIL=K      fails the Kth call alone
 * TOLD=FILE   names a file that gets, at the end, how many calls were made
 */
#define _GNU_SOURCE
#include <dlfcn.h>
#include <errno.h>
#include <fcntl.h>
#include <stdio.h>
#include <stdlib.h>
#include <unistd.h>

/* The exit status of a process that was ended. */
enum { STOPPED = 77 };

static long made;

/* Tells how many calls were made. */
static void tell(void) {
  const char *path = getenv("TOLD");
  char text[40];
  int file, len;
  if (!path || (file = open(path, O_CREAT | O_TRUNC | O_WRONLY, 0600)) < 0)
    return;
  len = snprintf(text, sizeof text, "%ld\n", made);
  if (write(file, text, len) != len)
    abort();
  close(file);
}

/* The call of this name that would be made without the library. */
static void *real(const char *name) { return dlsym(RTLD_NEXT, name); }

/* A program that may start threads ends by this call, and runs no destructors. */
void _exit(int status) {
  void (*call)(int) = real("_exit");
  tell();
  call(status);
  abort();
}

/* Tells whether this variable names the call that is being made. */
static int names_this(const char *variable) {
  const char *word = getenv(variable);
  return word && atol(word) == made;
}

/* Counts a call; ends the process before the one that is to stop, and tells whether this one fails. */
static int fails(void) {
  made++;
  if (names_this("STOP"))
    _exit(STOPPED);
  if (!names_this("FAIL"))
    return 0;
  errno = EIO;
  return 1;
}

ssize_t pread(int file, void *bytes, size_t len, off_t at) {
  ssize_t (*call)(int, void *, size_t, off_t) = real("pread");
  return fails() ? -1 : call(file, bytes, len, at);
}

ssize_t pwrite(int file, const void *bytes, size_t len, off_t at) {
  ssize_t (*call)(int, const void *, size_t, off_t) = real("pwrite");
  if (fails())
    return -1;
  if (!names_this("TEAR"))
    return call(file, bytes, len, at);
  call(file, bytes, len / 2, at);
  _exit(STOPPED);
  return -1;
}

int ftruncate(int file, off_t len) {
  int (*call)(int, off_t) = real("ftruncate");
  return fails() ? -1 : call(file, len);
}

int fsync(int file) {
  int (*call)(int) = real("fsync");
  return fails() ? -1 : call(file);
}

int fdatasync(int file) {
  int (*call)(int) = real("fdatasync");
  return fails() ? -1 : call(file);
}

__attribute__((destructor)) static void end(void) { tell(); }
