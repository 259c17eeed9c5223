/* Refuses requests for memory of the process that it is preloaded into.
 *
 * REFUSE=N         refuses the Nth request alone, counted from the start of the process
 * REFUSE_AFTER=T   refuses each request once the process has written a text that begins with T
 * TOLD=FILE        names a file that gets, at the end, how many requests were made, how many of them before the first
 *                  read of standard input, and before the process listens or writes, and how many were refused
 */
#define _GNU_SOURCE
#include <dlfcn.h>
#include <errno.h>
#include <fcntl.h>
#include <stdio.h>
#include <stdlib.h>
#include <string.h>
#include <sys/socket.h>
#include <unistd.h>

static long made, before_input = -1, refused;
static int is_marked;

/* Tells whether this request is refused. */
static int is_refused(void) {
  static long due = -1;
  long place = __atomic_add_fetch(&made, 1, __ATOMIC_SEQ_CST);
  if (due < 0) {
    const char *word = getenv("REFUSE");
    due = word ? atol(word) : 0;
  }
  if (place != due && !__atomic_load_n(&is_marked, __ATOMIC_SEQ_CST))
    return 0;
  __atomic_add_fetch(&refused, 1, __ATOMIC_SEQ_CST);
  errno = ENOMEM;
  return 1;
}

/* The call of this name that would be made without the library. */
static void *real(const char *name) { return dlsym(RTLD_NEXT, name); }

void *malloc(size_t len) {
  static void *(*call)(size_t);
  if (!call)
    call = real("malloc");
  return is_refused() ? NULL : call(len);
}

void *realloc(void *old, size_t len) {
  static void *(*call)(void *, size_t);
  if (!call)
    call = real("realloc");
  return is_refused() ? NULL : call(old, len);
}

ssize_t read(int file, void *bytes, size_t len) {
  static ssize_t (*call)(int, void *, size_t);
  if (!call)
    call = real("read");
  if (file == STDIN_FILENO && before_input < 0)
    before_input = made;
  return call(file, bytes, len);
}

int listen(int end, int waiting) {
  int (*call)(int, int) = real("listen");
  if (before_input < 0)
    before_input = made;
  return call(end, waiting);
}

ssize_t write(int file, const void *bytes, size_t len) {
  static ssize_t (*call)(int, const void *, size_t);
  const char *mark = getenv("REFUSE_AFTER");
  ssize_t written;
  if (!call)
    call = real("write");
  if (file == STDOUT_FILENO && before_input < 0)
    before_input = made;
  written = call(file, bytes, len);
  if (mark && len >= strlen(mark) && memcmp(bytes, mark, strlen(mark)) == 0)
    __atomic_store_n(&is_marked, 1, __ATOMIC_SEQ_CST);
  return written;
}

/* Tells what was met. */
static void tell(void) {
  const char *path = getenv("TOLD");
  char text[80];
  int file, len;
  if (!path || (file = open(path, O_CREAT | O_TRUNC | O_WRONLY, 0600)) < 0)
    return;
  len = snprintf(text, sizeof text, "%ld %ld %ld\n", made, before_input, refused);
  if (write(file, text, len) != len)
    abort();
  close(file);
}

/* A program that may start threads ends by this call, and runs no destructors. */
void _exit(int status) {
  void (*call)(int) = real("_exit");
  tell();
  call(status);
  abort();
}

__attribute__((destructor)) static void end(void) { tell(); }
