// Times lookups by the tries of bench/lookups, which nobody changes.
#include "../lookups/tries.h"
#include "side_by_side.h"

static Tree **pieces;

static void take(int looker) { (void)looker; }

static void change(int number) { (void)number; }

static uint32_t look_up(int looker, const uint32_t *burst) {
  (void)looker;
  return count_hits(pieces, burst, BURST);
}

int main(int argc, char **argv) {
  static Row rows[MOST_ROUTES];
  int count = make_rows(rows, routes_of(argc, argv));
  make_addresses(addresses, rows, count);
  pieces = make_pieces(rows, count);
  measure("tries in C", count, 0);
  return 0;
}
