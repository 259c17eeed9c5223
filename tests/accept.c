/* Makes each accept of the process that it is preloaded into fail, on a port or a Unix socket for which that is asked.
 *
 * ACCEPT_FAILS=PATH  an accept on port P, or on a socket file of the name P, fails with the number of errno that is in the
 *                    file PATH.P, while that is there
 */
#define _GNU_SOURCE
#include <dlfcn.h>
#include <errno.h>
#include <netinet/in.h>
#include <stdio.h>
#include <stdlib.h>
#include <string.h>
#include <sys/socket.h>
#include <sys/un.h>

/* Writes the path of the file that has a listener's number; says whether there may be one. */
static int find_file(int listener, char *path, size_t room) {
  union {
    struct sockaddr any;
    struct sockaddr_in port;
    struct sockaddr_un file;
  } address = { 0 };
  socklen_t length = sizeof address;
  const char *name;
  if (!getenv("ACCEPT_FAILS") || getsockname(listener, &address.any, &length))
    return 0;
  if (address.any.sa_family == AF_INET)
    return snprintf(path, room, "%s.%d", getenv("ACCEPT_FAILS"), ntohs(address.port.sin_port)) > 0;
  if (address.any.sa_family != AF_UNIX)
    return 0;
  name = strrchr(address.file.sun_path, '/');
  return snprintf(path, room, "%s.%s", getenv("ACCEPT_FAILS"), name ? name + 1 : address.file.sun_path) > 0;
}

/* The number that an accept on a listener fails with; 0 where it goes on. */
static int fault_of(int listener) {
  char path[4096];
  int fault = 0;
  FILE *file = find_file(listener, path, sizeof path) ? fopen(path, "r") : NULL;
  if (!file)
    return 0;
  if (fscanf(file, "%d", &fault) != 1)
    fault = 0;
  fclose(file);
  return fault;
}

int accept4(int listener, struct sockaddr *address, socklen_t *length, int flags) {
  int (*call)(int, struct sockaddr *, socklen_t *, int) = dlsym(RTLD_NEXT, "accept4");
  int fault = fault_of(listener);
  if (fault)
    errno = fault;
  return fault ? -1 : call(listener, address, length, flags);
}

int accept(int listener, struct sockaddr *address, socklen_t *length) {
  int (*call)(int, struct sockaddr *, socklen_t *) = dlsym(RTLD_NEXT, "accept");
  int fault = fault_of(listener);
  if (fault)
    errno = fault;
  return fault ? -1 : call(listener, address, length);
}
