// Answers for the same addresses from the same rules and the same 100,000 routes as the program beside it, in tries of the same shape.
#include <stdio.h>
#include <time.h>

#include "tries.h"

enum { ROUTES = 100000 };

int main(void) {
  static Row rows[ROUTES];
  static uint32_t addresses[ADDRESSES];
  make_rows(rows, ROUTES);
  Tree **pieces = make_pieces(rows, ROUTES);
  make_addresses(addresses, rows, ROUTES);
  double least = 1e30;
  uint32_t hits = 0;
  for (int turn = 0; turn < 9; turn++) {
    struct timespec start, end;
    clock_gettime(CLOCK_MONOTONIC, &start);
    hits = count_hits(pieces, addresses, ADDRESSES);
    clock_gettime(CLOCK_MONOTONIC, &end);
    double took = (end.tv_sec - start.tv_sec) * 1e9 + (end.tv_nsec - start.tv_nsec);
    if (took < least) least = took;
  }
  printf("lookups in C among %d routes: %.0f ns each, %u of %d have a route\n", ROUTES, least / ADDRESSES, hits, ADDRESSES);
  return 0;
}
