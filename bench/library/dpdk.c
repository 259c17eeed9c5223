// Times lookups by DPDK's tables, which have one table, no rules and no version: an answer is the number of a next hop. They
// lie in small pages. The writer changes the table that the lookers read.
#include <rte_eal.h>
#include <rte_fib.h>
#include <rte_lpm.h>
#include <sched.h>
#include <string.h>

#include "side_by_side.h"

// How many blocks of 256 prefixes longer than 24 there may be, and the next hop where there is no route.
enum { LONG_BLOCKS = 1 << 13, NOWHERE = 0 };

static struct rte_lpm *lpm;
static struct rte_fib *fib;
static Row rows[MOST_ROUTES];
static int count;
static enum { LPM, LPM_BULK, FIB } way;

static void take(int looker) { (void)looker; }

static void add(const Row *row, uint32_t hop) {
  int refused = way == FIB ? rte_fib_add(fib, row->bits, row->len, hop) : rte_lpm_add(lpm, row->bits, row->len, hop);
  end_if(refused, "DPDK refuses a route");
}

static void change(int number) { add(&rows[number * 7919 % count], 1 + (uint32_t)number % 250); }

static uint32_t look_up_each(const uint32_t *burst) {
  uint32_t hits = 0, hop;
  for (int i = 0; i < BURST; i++) hits += rte_lpm_lookup(lpm, burst[i], &hop) == 0;
  return hits;
}

static uint32_t look_up_bulk(const uint32_t *burst) {
  uint32_t hits = 0, hops[BURST];
  rte_lpm_lookup_bulk(lpm, burst, hops, BURST);
  for (int i = 0; i < BURST; i++) hits += (hops[i] & RTE_LPM_LOOKUP_SUCCESS) != 0;
  return hits;
}

static uint32_t look_up_fib(const uint32_t *burst) {
  uint32_t copies[BURST], hits = 0;
  uint64_t hops[BURST];
  memcpy(copies, burst, sizeof copies);
  rte_fib_lookup_bulk(fib, copies, hops, BURST);
  for (int i = 0; i < BURST; i++) hits += hops[i] != NOWHERE;
  return hits;
}

static uint32_t look_up(int looker, const uint32_t *burst) {
  (void)looker;
  return way == LPM ? look_up_each(burst) : way == LPM_BULK ? look_up_bulk(burst) : look_up_fib(burst);
}

// Begins DPDK without devices, without files and without large pages. It binds this thread to one core, which is undone.
static void begin_dpdk(char *program) {
  char *words[] = {program, "--no-huge", "--no-pci", "--no-shconf", "--no-telemetry", "-m", "512", "-l", "0", "--log-level=3"};
  cpu_set_t cores;
  sched_getaffinity(0, sizeof cores, &cores);
  end_if(rte_eal_init(sizeof words / sizeof *words, words) < 0, "DPDK does not begin");
  sched_setaffinity(0, sizeof cores, &cores);
}

static void make_tables(void) {
  struct rte_lpm_config lpm_config = {.max_rules = MOST_ROUTES + 1, .number_tbl8s = LONG_BLOCKS};
  struct rte_fib_conf fib_config = {.type = RTE_FIB_DIR24_8, .default_nh = NOWHERE, .max_routes = 2 * MOST_ROUTES,
                                    .dir24_8 = {.nh_sz = RTE_FIB_DIR24_8_4B, .num_tbl8 = LONG_BLOCKS}};
  lpm = rte_lpm_create("lpm", SOCKET_ID_ANY, &lpm_config);
  fib = rte_fib_create("fib", SOCKET_ID_ANY, &fib_config);
  end_if(!lpm || !fib, "DPDK has no memory");
}

int main(int argc, char **argv) {
  int routes = routes_of(argc, argv);
  begin_dpdk(argv[0]);
  make_tables();
  count = make_rows(rows, routes);
  make_addresses(addresses, rows, count);
  for (int i = 0; i < count; i++) {
    way = LPM;
    add(&rows[i], 1);
    way = FIB;
    add(&rows[i], 1);
  }
  way = LPM;
  measure("rte_lpm", count, 1);
  way = LPM_BULK;
  measure("rte_lpm, a burst", count, 1);
  way = FIB;
  measure("rte_fib, a burst", count, 1);
  return 0;
}
