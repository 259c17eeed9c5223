/* Splits each line of its input into words: what reading lines costs at the least. */
#include <stdio.h>
#include <stdlib.h>
#include <string.h>

static int is_white(char byte) { return byte == ' ' || byte == '\t' || byte == '\r'; }

/* The number of words of a line, and the sum of their lengths in the upper half. */
__attribute__((noinline)) static unsigned long split(const char *line, size_t len) {
  unsigned long words = 0, bytes = 0;
  size_t at = 0;
  while (at < len && line[at] != '#') {
    while (at < len && is_white(line[at])) at++;
    size_t start = at;
    while (at < len && !is_white(line[at]) && line[at] != '#') at++;
    if (at > start) words++, bytes += at - start;
  }
  return words | bytes << 32;
}

int main(void) {
  size_t len = 0, room = 1 << 28;
  char *text = malloc(room);
  for (size_t got; (got = fread(text + len, 1, room - len, stdin)) > 0;) len += got;
  unsigned long sum = 0;
  for (size_t at = 0; at < len;) {
    const char *end = memchr(text + at, '\n', len - at);
    size_t line = end ? (size_t)(end - text) - at : len - at;
    sum += split(text + at, line);
    at += line + 1;
  }
  printf("%lu\n", sum);
}
