// Times lookups by the library for C, in versions, compiled tables and policy tables, one by one and a burst at once. The
// writer executes a line, and leaves an owner of the new version or policy table in the slot of each looker, as
// examples/forwarder.c does. With --follow it says how long a policy table takes to follow a change of a route.
#include <string.h>

#include "prt.h"
#include "side_by_side.h"

// What a looker has: a version and a policy table that it holds, a slot with the `at` of one that it hasn't taken yet, and a
// compiled table.
typedef struct {
  _Alignas(64) prt_version version;
  prt_policy policy;
  _Atomic(void *) slot;
  prt_fib fib;
} Own;

static Own owns[MOST_THREADS];
static prt_tables tables = PRT_EMPTY_HOLDER;
static prt_policy policy = PRT_EMPTY_HOLDER;
static Row rows[MOST_ROUTES];
static int count;
static enum { EACH, MANY, FIB, FIB_MANY, POLICY, POLICY_MANY } way;
// Of each number of a compiled table, whether its packets are sent on.
static uint8_t is_unicast[65536];

// Adds or replaces a route in the tables or, once there is one, in the policy table, and gives the status.
static uint32_t execute(const char *verb, const Row *row, int gateway) {
  char line[80];
  uint64_t number;
  int length = snprintf(line, sizeof line, "route %s %u.%u.%u.%u/%d via 192.0.2.%d", verb, row->bits >> 24, row->bits >> 16 & 255,
                        row->bits >> 8 & 255, row->bits & 255, row->len, gateway);
  if (policy.at) return prt_policy_follow(&policy, line, (size_t)length, &number);
  return prt_tables_line(&tables, line, (size_t)length, &number);
}

// Adds the routes in the order in which main.rt.in adds them, and sorts their rows.
static void load(int wanted) {
  end_if(prt_tables_new(&tables) != PRT_DONE, "no new tables");
  state = FIRST_STATE;
  while (count < wanted) {
    Row row = count < 450 ? random_row(9, 1) : random_row(10, 222);
    uint32_t status = execute("add", &row, 1 + count % 200);
    end_if(status != PRT_DONE && status != PRT_EXISTS, "a route is refused");
    if (status == PRT_DONE) rows[count++] = row;
  }
  qsort(rows, (size_t)count, sizeof(Row), by_place);
}

// Releases what was in a slot: a policy table, once there is one, or else a version.
static void release(void *at) {
  if (policy.at) {
    prt_policy held = { at };
    prt_policy_free(&held);
  } else {
    prt_version held = { at };
    prt_version_release(&held);
  }
}

// Leaves an owner of the policy table or of the version that the tables are at in the slot of each looker.
static void hand_out(void) {
  for (int looker = 0; looker < MOST_THREADS; looker++) {
    prt_policy other = PRT_EMPTY_HOLDER;
    prt_version version = PRT_EMPTY_HOLDER;
    uint32_t status = policy.at ? prt_policy_share(&policy, &other) : prt_tables_version(&tables, &version);
    end_if(status != PRT_DONE, "no owner");
    release(atomic_exchange(&owns[looker].slot, policy.at ? other.at : version.at));
  }
}

static void change(int number) {
  end_if(execute("replace", &rows[number * 7919 % count], 1 + number % 250) != PRT_DONE, "a change is refused");
  hand_out();
}

static void take(int looker) {
  Own *own = &owns[looker];
  if (!atomic_load(&own->slot)) return;
  void *newer = atomic_exchange(&own->slot, NULL);
  void **held = policy.at ? &own->policy.at : &own->version.at;
  release(*held);
  *held = newer;
}

static uint32_t look_up_each(prt_version *version, const uint32_t *burst) {
  uint32_t hits = 0;
  for (int i = 0; i < BURST; i++) {
    prt_packet packet = { .source = burst[i], .destination = burst[i] };
    prt_answer answer;
    end_if(prt_lookup(version, &packet, &answer) != PRT_DONE, "a packet has no answer");
    hits += answer.kind == PRT_UNICAST;
  }
  return hits;
}

static uint32_t look_up_many(prt_version *version, const uint32_t *burst) {
  prt_packet packets[BURST] = { 0 };
  prt_answer answers[BURST];
  uint32_t hits = 0;
  size_t done;
  for (int i = 0; i < BURST; i++) packets[i].source = packets[i].destination = burst[i];
  end_if(prt_lookup_many(version, packets, BURST, answers, BURST, &done) != PRT_DONE, "a packet has no answer");
  for (int i = 0; i < BURST; i++) hits += answers[i].kind == PRT_UNICAST;
  return hits;
}

static uint32_t find_each(prt_fib *fib, const uint32_t *burst) {
  uint32_t hits = 0;
  uint16_t number;
  for (int i = 0; i < BURST; i++) {
    end_if(prt_fib_find(fib, burst[i], &number) != PRT_DONE, "a destination has no number");
    hits += is_unicast[number];
  }
  return hits;
}

static uint32_t find_many(prt_fib *fib, const uint32_t *burst) {
  uint32_t hits = 0;
  uint16_t numbers[BURST];
  size_t done;
  end_if(prt_fib_find_many(fib, burst, BURST, numbers, BURST, &done) != PRT_DONE, "a destination has no number");
  for (int i = 0; i < BURST; i++) hits += is_unicast[numbers[i]];
  return hits;
}

static uint32_t find_policy_each(prt_policy *held, const uint32_t *burst) {
  uint32_t hits = 0;
  for (int i = 0; i < BURST; i++) {
    prt_packet packet = { .source = burst[i], .destination = burst[i] };
    prt_outcome outcome;
    end_if(prt_policy_find(held, &packet, &outcome) != PRT_DONE, "a packet has no outcome");
    hits += outcome.kind == PRT_UNICAST;
  }
  return hits;
}

static uint32_t find_policy_many(prt_policy *held, const uint32_t *burst) {
  prt_packet packets[BURST] = { 0 };
  prt_outcome outcomes[BURST];
  uint32_t hits = 0;
  size_t done;
  for (int i = 0; i < BURST; i++) packets[i].source = packets[i].destination = burst[i];
  end_if(prt_policy_find_many(held, packets, BURST, outcomes, BURST, &done) != PRT_DONE, "a packet has no outcome");
  for (int i = 0; i < BURST; i++) hits += outcomes[i].kind == PRT_UNICAST;
  return hits;
}

static uint32_t look_up(int looker, const uint32_t *burst) {
  Own *own = &owns[looker];
  switch (way) {
    case EACH: return look_up_each(&own->version, burst);
    case MANY: return look_up_many(&own->version, burst);
    case FIB: return find_each(&own->fib, burst);
    case FIB_MANY: return find_many(&own->fib, burst);
    case POLICY: return find_policy_each(&own->policy, burst);
    default: return find_policy_many(&own->policy, burst);
  }
}

// Compiles a table, of which each looker gets an owner.
static void compile(void) {
  prt_packet packet = { 0 };
  prt_outcome outcome;
  take(0);
  end_if(prt_fib_new(&owns[0].version, &packet, &owns[0].fib) != PRT_DONE, "no compiled table");
  for (int looker = 1; looker < MOST_THREADS; looker++) end_if(prt_fib_share(&owns[0].fib, &owns[looker].fib) != PRT_DONE, "no owner");
  for (int number = 0; number < 65536 && prt_fib_outcome(&owns[0].fib, (uint16_t)number, &outcome) == PRT_DONE; number++)
    is_unicast[number] = outcome.kind == PRT_UNICAST;
}

// Makes a policy table of the tables, of which each looker gets an owner.
static void compile_policy(void) {
  prt_version version = PRT_EMPTY_HOLDER;
  for (int looker = 0; looker < MOST_THREADS; looker++) take(looker);
  end_if(prt_tables_version(&tables, &version) != PRT_DONE || prt_policy_new(&version, &policy) != PRT_DONE, "no policy table");
  prt_version_release(&version);
  hand_out();
}

static void release_all(void) {
  for (int looker = 0; looker < MOST_THREADS; looker++) {
    take(looker);
    prt_version_release(&owns[looker].version);
    prt_fib_free(&owns[looker].fib);
    prt_policy_free(&owns[looker].policy);
  }
  prt_policy_free(&policy);
  prt_tables_release(&tables);
}

static double processor_seconds(void) {
  struct timespec now;
  clock_gettime(CLOCK_PROCESS_CPUTIME_ID, &now);
  return (double)now.tv_sec + (double)now.tv_nsec / 1e9;
}

// Times how a policy table is made, and how it and its four owners follow 10,000 changes.
static void time_following(int wanted) {
  enum { CHANGES = 10000 };
  load(wanted);
  double start = processor_seconds(), longest = 0;
  compile_policy();
  double made = processor_seconds() - start, before = processor_seconds();
  for (int number = 0; number < CHANGES; number++) {
    double one = processor_seconds();
    change(number);
    one = processor_seconds() - one;
    if (one > longest) longest = one;
  }
  double mean = (processor_seconds() - before) / CHANGES;
  printf("%d routes: a policy table is made in %.1f ms, and follows a change in %.1f us, at most %.1f ms; 1,000 changes a second take %.1f %% of a core\n",
         wanted, made * 1e3, mean * 1e6, longest * 1e3, mean * 1e5);
  release_all();
}

int main(int argc, char **argv) {
  if (argc == 3 && strcmp(argv[1], "--follow") == 0) {
    time_following(routes_of(argc - 1, argv + 1));
    return 0;
  }
  load(routes_of(argc, argv));
  make_addresses(addresses, rows, count);
  hand_out();
  measure("prt_lookup", count, 1);
  way = MANY;
  measure("prt_lookup_many, a burst", count, 1);
  compile();
  way = FIB;
  measure("prt_fib_find", count, 0);
  way = FIB_MANY;
  measure("prt_fib_find_many, a burst", count, 0);
  compile_policy();
  way = POLICY;
  measure("prt_policy_find", count, 1);
  way = POLICY_MANY;
  measure("prt_policy_find_many, a burst", count, 1);
  release_all();
  return 0;
}
