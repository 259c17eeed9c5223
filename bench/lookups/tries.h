// Answers of the three opening rules, in tries of the same shape as those of the policy database.
#ifndef TRIES_H
#define TRIES_H

#include <string.h>

#include "routes.h"

enum { NOWHERE = -1 };

typedef struct Halves Halves;
typedef struct { uint32_t first, last; int64_t row; Halves *below; } Node;
struct Halves { Node low, high; };
typedef struct { Row *rows; int count; Node root; } Tree;
typedef struct { uint32_t number; Tree **pieces; } Table;
typedef struct { uint32_t bits, host_mask; } Block;
typedef struct { uint32_t priority; Block from, to; const char *iif; uint32_t mark, mask, table; } Rule;
typedef struct { uint32_t priority; int found; Row row; } Answer;

static Node leaf(int start, uint32_t first, int len) {
  return (Node){first, first | (uint32_t)(0xffffffffull >> len), start, NULL};
}

// The trie over the rows from start to end, which begin with the first len bits of first.
static Node node_of(const Row *rows, int start, int end, uint32_t first, int len) {
  if (start < end && by_place(&rows[start], &rows[end - 1]) == 0) return leaf(start, rows[start].bits, rows[start].len);
  int own = start;
  while (own < end && rows[own].len == len) own++;
  if (own == end) return leaf(start < end ? start : NOWHERE, first, len);
  uint32_t middle = first + (1u << (31 - len));
  int low = own, high = end;
  while (low < high) {
    int half = (low + high) / 2;
    if (rows[half].bits < middle) low = half + 1; else high = half;
  }
  if (start == own && low == end) return node_of(rows, start, end, first, len + 1);
  if (start == own && low == start) return node_of(rows, start, end, middle, len + 1);
  Node below_low = node_of(rows, own, low, first, len + 1);
  Node below_high = node_of(rows, low, end, middle, len + 1);
  Node node = leaf(start < own ? start : NOWHERE, first, len);
  node.below = malloc(sizeof(Halves));
  *node.below = (Halves){below_low, below_high};
  return node;
}

static const Row *find(const Tree *tree, uint32_t addr) {
  int64_t place = NOWHERE;
  const Node *node = &tree->root;
  while (node->first <= addr && addr <= node->last) {
    if (node->row != NOWHERE) place = node->row;
    if (!node->below) break;
    node = addr < node->below->high.first ? &node->below->low : &node->below->high;
  }
  return place == NOWHERE ? NULL : &tree->rows[place];
}

static const Row *find_in_table(const Table *tables, int count, uint32_t number, uint32_t addr) {
  for (int i = 0; i < count; i++) {
    if (tables[i].number != number) continue;
    const Row *row = find(tables[i].pieces[(addr >> 24) + 1], addr);
    return row ? row : find(tables[i].pieces[0], addr);
  }
  return NULL;
}

static int contains(Block block, uint32_t addr) { return addr - block.bits <= block.host_mask; }

// What the first rule that decides says: its priority, and a copy of the route.
__attribute__((noinline)) static Answer answer(const Rule *rules, int count, const Table *tables, int table_count, uint32_t dst, uint32_t src, const char *iif, uint32_t mark) {
  for (int i = 0; i < count; i++) {
    const Rule *rule = &rules[i];
    if (!contains(rule->from, src) || !contains(rule->to, dst)) continue;
    if (rule->iif && strcmp(rule->iif, iif) != 0) continue;
    if (((rule->mark ^ mark) & rule->mask) != 0) continue;
    const Row *row = find_in_table(tables, table_count, rule->table, dst);
    if (row) return (Answer){.priority = rule->priority, .found = 1, .row = *row};
  }
  return (Answer){.found = 0};
}

// The trie of each first octet, behind that of the prefixes shorter than 8.
static Tree **make_pieces(const Row *rows, int count) {
  Tree **pieces = malloc(257 * sizeof(Tree *));
  for (int piece = 0; piece < 257; piece++) {
    Tree *tree = malloc(sizeof(Tree));
    tree->rows = malloc((size_t)count * sizeof(Row));
    tree->count = 0;
    for (int i = 0; i < count; i++)
      if ((rows[i].len < 8 ? 0 : (int)(rows[i].bits >> 24) + 1) == piece) tree->rows[tree->count++] = rows[i];
    tree->rows = realloc(tree->rows, tree->count * sizeof(Row) + 1);
    tree->root = node_of(tree->rows, 0, tree->count, 0, 0);
    pieces[piece] = tree;
  }
  return pieces;
}

// How many of the addresses have a route in the table main of these pieces, by the three opening rules.
static uint32_t count_hits(Tree **pieces, const uint32_t *addresses, int count) {
  Table tables[] = {{254, pieces}};
  Block all = {0, 0xffffffff};
  Rule rules[] = {{0, all, all, NULL, 0, 0, 255}, {32766, all, all, NULL, 0, 0, 254}, {32767, all, all, NULL, 0, 0, 253}};
  uint32_t hits = 0;
  for (int i = 0; i < count; i++) {
    Answer said = answer(rules, 3, tables, 1, addresses[i], 0, "lo", 0);
    hits += (uint32_t)said.found;
  }
  return hits;
}

#endif
