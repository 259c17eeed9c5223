/* Makes each sync of the process that it is preloaded into take its time, as a disk does, or fail.
 *
 * SYNC_MS=N          each fsync and fdatasync waits so many milliseconds before it returns
 * SYNC_FAILS=PATH    one that begins while a file of this name is there fails
 */
#define _GNU_SOURCE
#include <dlfcn.h>
#include <errno.h>
#include <stdlib.h>
#include <time.h>
#include <unistd.h>

/* Waits, and tells whether the sync fails. */
static int fails(void) {
  const char *word = getenv("SYNC_MS"), *path = getenv("SYNC_FAILS");
  int is_failing = path && access(path, F_OK) == 0;
  long milliseconds = word ? atol(word) : 0;
  struct timespec time = {milliseconds / 1000, milliseconds % 1000 * 1000000};
  nanosleep(&time, NULL);
  if (is_failing)
    errno = EIO;
  return is_failing;
}

int fsync(int file) {
  int (*call)(int) = dlsym(RTLD_NEXT, "fsync");
  return fails() ? -1 : call(file);
}

int fdatasync(int file) {
  int (*call)(int) = dlsym(RTLD_NEXT, "fdatasync");
  return fails() ? -1 : call(file);
}
