/* A client that sends one line again and again, so many of them in flight, over so many connections side by side.
 *
 *   usage: load PORT LINE LINES IN_FLIGHT CONNECTIONS
 *
 * A `#` in LINE stands for the number of the connection, from 0. Each reply is one line. Prints how many seconds passed until each connection had LINES replies. */
#include <arpa/inet.h>
#include <netinet/tcp.h>
#include <pthread.h>
#include <stdio.h>
#include <stdlib.h>
#include <string.h>
#include <sys/socket.h>
#include <time.h>
#include <unistd.h>

static struct sockaddr_in at = {.sin_family = AF_INET};
static const char *line;
static long lines, in_flight;

static void fail(const char *what) {
  perror(what);
  exit(1);
}

/* The line of a connection, with its end. */
static size_t line_of(long connection, char *text) {
  size_t size = 0;
  for (const char *at = line; *at; at++)
    size += (size_t)(*at == '#' ? sprintf(text + size, "%ld", connection) : sprintf(text + size, "%c", *at));
  text[size++] = '\n';
  return size;
}

/* Sends this many lines of a block in one call. */
static void send_lines(int end, const char *block, size_t length, long count) {
  size_t size = length * (size_t)count, sent = 0;
  while (sent < size) {
    ssize_t step = write(end, block + sent, size - sent);
    if (step <= 0) fail("write");
    sent += (size_t)step;
  }
}

static void *run(void *given) {
  char replies[65536], own[1024];
  size_t length = line_of((long)given, own);
  char *block = malloc(length * (size_t)in_flight);
  int end = socket(AF_INET, SOCK_STREAM, 0), on = 1;
  long sent = in_flight < lines ? in_flight : lines, had = 0;
  if (!block) fail("malloc");
  for (long i = 0; i < in_flight; i++) memcpy(block + (size_t)i * length, own, length);
  if (connect(end, (struct sockaddr *)&at, sizeof at)) fail("connect");
  setsockopt(end, IPPROTO_TCP, TCP_NODELAY, &on, sizeof on);
  send_lines(end, block, length, sent);
  while (had < lines) {
    long more = 0;
    ssize_t got = read(end, replies, sizeof replies);
    if (got <= 0) fail("read");
    for (ssize_t i = 0; i < got; i++) more += replies[i] == '\n';
    had += more;
    if (sent + more > lines) more = lines - sent;
    if (more > 0) send_lines(end, block, length, more);
    sent += more;
  }
  close(end);
  free(block);
  return NULL;
}

int main(int argc, char **argv) {
  struct timespec begun, ended;
  if (argc != 6) return 2;
  at.sin_addr.s_addr = htonl(INADDR_LOOPBACK);
  at.sin_port = htons((unsigned short)atoi(argv[1]));
  lines = atol(argv[3]);
  in_flight = atol(argv[4]);
  int connections = atoi(argv[5]);
  pthread_t threads[64];
  line = argv[2];
  if (strlen(line) > 256 || in_flight < 1 || connections < 1 || connections > 64) return 2;
  clock_gettime(CLOCK_MONOTONIC, &begun);
  for (int i = 0; i < connections; i++) pthread_create(&threads[i], NULL, run, (void *)(long)i);
  for (int i = 0; i < connections; i++) pthread_join(threads[i], NULL);
  clock_gettime(CLOCK_MONOTONIC, &ended);
  printf("%.6f\n", (double)(ended.tv_sec - begun.tv_sec) + (double)(ended.tv_nsec - begun.tv_nsec) / 1e9);
  return 0;
}
