/* A server beside which prt is measured: it reads in blocks, and writes one fixed reply a line.
 *
 *   usage: fixed REPLY
 *
 * Prints `listening 127.0.0.1:PORT`, and serves each connection in a thread of its own until it is killed. */
#include <arpa/inet.h>
#include <netinet/tcp.h>
#include <pthread.h>
#include <stdio.h>
#include <stdlib.h>
#include <string.h>
#include <sys/socket.h>
#include <unistd.h>

static char reply[256];
static size_t length;

static void *serve(void *given) {
  int end = (int)(long)given;
  char block[8192];
  ssize_t got;
  while ((got = read(end, block, sizeof block)) > 0)
    for (ssize_t i = 0; i < got; i++)
      if (block[i] == '\n' && write(end, reply, length) != (ssize_t)length) goto done;
done:
  close(end);
  return NULL;
}

int main(int argc, char **argv) {
  struct sockaddr_in at = {.sin_family = AF_INET, .sin_addr.s_addr = htonl(INADDR_LOOPBACK)};
  socklen_t size = sizeof at;
  int listener = socket(AF_INET, SOCK_STREAM, 0), on = 1;
  if (argc != 2 || bind(listener, (struct sockaddr *)&at, size) || listen(listener, 64)) return 2;
  length = (size_t)snprintf(reply, sizeof reply, "%s\n", argv[1]);
  getsockname(listener, (struct sockaddr *)&at, &size);
  printf("listening 127.0.0.1:%d\n", ntohs(at.sin_port));
  fflush(stdout);
  for (;;) {
    pthread_t thread;
    int end = accept(listener, NULL, NULL);
    if (end < 0) return 1;
    setsockopt(end, IPPROTO_TCP, TCP_NODELAY, &on, sizeof on);
    pthread_create(&thread, NULL, serve, (void *)(long)end);
    pthread_detach(thread);
  }
}
