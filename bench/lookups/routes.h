// Routes and addresses that look random and are the same in each run: those of main.rt.in.
#ifndef ROUTES_H
#define ROUTES_H

#include <stdint.h>
#include <stdlib.h>

enum { ADDRESSES = 1 << 20 };

static const uint64_t FIRST_STATE = 88172645463325252;

// As large as a route.
typedef struct { uint32_t bits; uint8_t len; char rest[52]; } Row;

static uint64_t state;

static uint32_t next(void) {
  state ^= state << 13;
  state ^= state >> 7;
  state ^= state << 17;
  return (uint32_t)(state >> 32);
}

static uint8_t random_length(void) {
  uint32_t roll = next() % 100;
  return roll < 62 ? 24 : roll < 72 ? 23 : roll < 82 ? 22 : roll < 87 ? 21 : roll < 92 ? 20 : roll < 96 ? 16 : 32;
}

// A row of these octets.
static Row random_row(uint32_t first, uint32_t octets) {
  uint8_t len = random_length();
  uint32_t low = next() & 0x00ffffff;
  uint32_t bits = low | ((next() % octets + first) & 0xff) << 24;
  return (Row){.bits = bits & (uint32_t)(0xffffffff00000000 >> len), .len = len};
}

static int by_place(const void *a, const void *b) {
  const Row *x = a, *y = b;
  if (x->bits != y->bits) return x->bits < y->bits ? -1 : 1;
  return x->len - y->len;
}

// The sorted rows without repeats.
static int distinct(Row *rows, int count) {
  int kept = 0;
  qsort(rows, count, sizeof(Row), by_place);
  for (int i = 0; i < count; i++)
    if (kept == 0 || by_place(&rows[kept - 1], &rows[i]) != 0) rows[kept++] = rows[i];
  return kept;
}

// Adds random rows of these octets until there are so many, and sorts them.
static int add_rows(Row *rows, int count, uint32_t first, uint32_t octets, int wanted) {
  while (count < wanted) {
    int missing = wanted - count;
    for (int i = 0; i < missing; i++) rows[count + i] = random_row(first, octets);
    count = distinct(rows, wanted);
  }
  return count;
}

// The sorted rows of each run: 450 of one octet, and the others of 222. Gives how many there are.
static inline int make_rows(Row *rows, int wanted) {
  state = FIRST_STATE;
  return add_rows(rows, add_rows(rows, 0, 9, 1, wanted < 450 ? wanted : 450), 10, 222, wanted);
}

// Addresses, of which every second one is within one of the rows.
static void make_addresses(uint32_t *addresses, const Row *rows, int count) {
  state = 1234567;
  for (int i = 0; i < ADDRESSES; i += 2) {
    const Row *row = &rows[next() % (uint32_t)count];
    addresses[i] = row->bits | (next() & 0xff);
    addresses[i + 1] = next();
  }
}

#endif
