/* Records what the process that it is preloaded into does to the files of a folder, and what it tells anybody else.
 *
 * FOLDER=PATH   names the folder, by a path without links
 * RECORD=FILE   names a file outside of it, which gets the record
 *
 * An entry is a line 'KIND NAME PLACE LENGTH', and behind it that many bytes:
 *   create    a file of this name was opened, and made where there was none
 *   write     these bytes were written at this place
 *   size      the file was made this long: PLACE
 *   force     what was done to the file has reached the disk; the folder's name is '.'
 *   tell      these bytes are about to be written to a pipe or a connection
 * The calls on the folder's files go one at a time, so that the entries stand in the order in which things happened.
 */
#define _GNU_SOURCE
#include <dlfcn.h>
#include <fcntl.h>
#include <pthread.h>
#include <stdarg.h>
#include <stdio.h>
#include <stdlib.h>
#include <string.h>
#include <sys/socket.h>
#include <unistd.h>

enum { PATH_ROOM = 4096 };

static pthread_mutex_t lock = PTHREAD_MUTEX_INITIALIZER;
static int record = -1;

/* The call of this name that would be made without the library. */
static void *real(const char *name) { return dlsym(RTLD_NEXT, name); }

/* Writes bytes to the end of the record. */
static void put(const char *bytes, size_t len) {
  ssize_t (*call)(int, const void *, size_t) = real("write");
  ssize_t put;
  for (; len; bytes += put, len -= put)
    if ((put = call(record, bytes, len)) <= 0)
      abort();
}

/* Notes an entry. The lock is held. */
static void note(const char *kind, const char *name, long place, const void *bytes, size_t len) {
  char line[PATH_ROOM];
  int (*call)(const char *, int, ...) = real("open");
  const char *path = getenv("RECORD");
  if (record < 0 && (!path || (record = call(path, O_CREAT | O_APPEND | O_WRONLY | O_CLOEXEC, 0600)) < 0))
    abort();
  put(line, snprintf(line, sizeof line, "%s %s %ld %zu\n", kind, name, place, len));
  put(bytes, len);
}

/* The name in the folder of what a path leads to, or NULL where that lies elsewhere. */
static const char *name_in_folder(const char *path) {
  const char *folder = getenv("FOLDER");
  size_t len = folder ? strlen(folder) : 0;
  if (!len || strncmp(path, folder, len) != 0)
    return NULL;
  if (path[len] == '/')
    return path + len + 1;
  return path[len] ? NULL : ".";
}

/* The same of an open file. The path stays in the room. */
static const char *name_of(int file, char room[PATH_ROOM]) {
  char link[40];
  ssize_t len;
  snprintf(link, sizeof link, "/proc/self/fd/%d", file);
  len = readlink(link, room, PATH_ROOM - 1);
  room[len < 0 ? 0 : len] = 0;
  return name_in_folder(room);
}

int open(const char *path, int how, ...) {
  int (*call)(const char *, int, ...) = real("open");
  char room[PATH_ROOM];
  const char *name;
  int file, mode = 0;
  if (how & O_CREAT) {
    va_list rest;
    va_start(rest, how);
    mode = va_arg(rest, int);
    va_end(rest);
  }
  pthread_mutex_lock(&lock);
  file = call(path, how, mode);
  if (file >= 0 && how & O_CREAT && (name = name_of(file, room)))
    note("create", name, 0, "", 0);
  pthread_mutex_unlock(&lock);
  return file;
}

ssize_t pwrite(int file, const void *bytes, size_t len, off_t at) {
  ssize_t (*call)(int, const void *, size_t, off_t) = real("pwrite");
  char room[PATH_ROOM];
  const char *name;
  ssize_t written;
  pthread_mutex_lock(&lock);
  written = call(file, bytes, len, at);
  if (written > 0 && (name = name_of(file, room)))
    note("write", name, at, bytes, written);
  pthread_mutex_unlock(&lock);
  return written;
}

int ftruncate(int file, off_t len) {
  int (*call)(int, off_t) = real("ftruncate");
  char room[PATH_ROOM];
  const char *name;
  int status;
  pthread_mutex_lock(&lock);
  status = call(file, len);
  if (status == 0 && (name = name_of(file, room)))
    note("size", name, len, "", 0);
  pthread_mutex_unlock(&lock);
  return status;
}

/* Forces a file by one of two calls. */
static int force(const char *how, int file) {
  int (*call)(int) = real(how);
  char room[PATH_ROOM];
  const char *name;
  int status;
  pthread_mutex_lock(&lock);
  status = call(file);
  if (status == 0 && (name = name_of(file, room)))
    note("force", name, 0, "", 0);
  pthread_mutex_unlock(&lock);
  return status;
}

int fsync(int file) { return force("fsync", file); }

int fdatasync(int file) { return force("fdatasync", file); }

/* Notes what goes to a pipe or a connection, which is standard error never. */
static void tell(int file, const void *bytes, size_t len) {
  char name[20];
  if (file == STDERR_FILENO)
    return;
  snprintf(name, sizeof name, "%d", file);
  pthread_mutex_lock(&lock);
  note("tell", name, 0, bytes, len);
  pthread_mutex_unlock(&lock);
}

ssize_t write(int file, const void *bytes, size_t len) {
  ssize_t (*call)(int, const void *, size_t) = real("write");
  tell(file, bytes, len);
  return call(file, bytes, len);
}

ssize_t send(int file, const void *bytes, size_t len, int how) {
  ssize_t (*call)(int, const void *, size_t, int) = real("send");
  tell(file, bytes, len);
  return call(file, bytes, len, how);
}
