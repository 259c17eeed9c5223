// Times lookups by threads side by side, alone and beside a writer that makes 1,000 changes a second.
//
// A program that includes this says how a looker takes what the writer left, how it looks addresses up, and how the writer
// makes a change. Of each number of threads it prints two lines of words with tabs between them: what was measured, how
// many routes there are, how many threads looked up, how many changes a second were made beside them, how many of the
// addresses have a route, and then of each turn how many million lookups a second all threads made together.
#ifndef SIDE_BY_SIDE_H
#define SIDE_BY_SIDE_H

#include <pthread.h>
#include <stdatomic.h>
#include <stdio.h>
#include <time.h>

#include "../lookups/routes.h"

enum { TURNS = 9, MOST_THREADS = 4, MOST_ROUTES = 100000, CHANGES_A_SECOND = 1000 };
// How many addresses a looker looks up before it takes what the writer left, as one that forwards packets does.
enum { BURST = 32, BURSTS = ADDRESSES / BURST };

// A looker has lines of the cache of its own.
typedef struct {
  _Alignas(64) int place;
  pthread_t thread;
  uint32_t hits;
  double seconds;
} Looker;

static Looker lookers[MOST_THREADS];
static int threads;
static uint32_t addresses[ADDRESSES];
static pthread_barrier_t all_are_there;
static atomic_int is_ended;
// What the writer made in all turns of one number of threads, and how long it was at work.
static int changes;
static double changing;

// What the program says. A looker's burst is looked up, and how many of its addresses have a route is given.
static void take(int looker);
static uint32_t look_up(int looker, const uint32_t *burst);
static void change(int number);

static void end_if(int failed, const char *what) {
  if (!failed) return;
  fprintf(stderr, "%s\n", what);
  exit(1);
}

static double seconds_now(void) {
  struct timespec now;
  clock_gettime(CLOCK_MONOTONIC, &now);
  return (double)now.tv_sec + (double)now.tv_nsec / 1e9;
}

// Looks all addresses up once, from another one on than the other lookers.
static void *run_looker(void *of) {
  Looker *it = of;
  uint32_t hits = 0;
  pthread_barrier_wait(&all_are_there);
  double start = seconds_now();
  for (int done = 0; done < BURSTS; done++) {
    int burst = (done + it->place * (BURSTS / MOST_THREADS)) % BURSTS;
    take(it->place);
    hits += look_up(it->place, addresses + burst * BURST);
  }
  it->seconds = seconds_now() - start;
  it->hits = hits;
  return NULL;
}

// Makes a change each millisecond.
static void *run_writer(void *none) {
  double start = seconds_now();
  struct timespec due;
  clock_gettime(CLOCK_MONOTONIC, &due);
  while (!atomic_load(&is_ended)) {
    change(changes++);
    due.tv_nsec += 1000000000 / CHANGES_A_SECOND;
    if (due.tv_nsec >= 1000000000) {
      due.tv_nsec -= 1000000000;
      due.tv_sec++;
    }
    clock_nanosleep(CLOCK_MONOTONIC, TIMER_ABSTIME, &due, NULL);
  }
  changing += seconds_now() - start;
  return none;
}

// One turn of all lookers: how many million lookups a second they made.
static double run_turn(int is_changing) {
  pthread_t writer;
  double rate = 0;
  atomic_store(&is_ended, 0);
  pthread_barrier_init(&all_are_there, NULL, (unsigned)threads);
  end_if(is_changing && pthread_create(&writer, NULL, run_writer, NULL) != 0, "no thread for the writer");
  for (int place = 0; place < threads; place++) {
    lookers[place].place = place;
    end_if(pthread_create(&lookers[place].thread, NULL, run_looker, &lookers[place]) != 0, "no thread for a looker");
  }
  for (int place = 0; place < threads; place++) {
    pthread_join(lookers[place].thread, NULL);
    rate += ADDRESSES / lookers[place].seconds / 1e6;
  }
  atomic_store(&is_ended, 1);
  if (is_changing) pthread_join(writer, NULL);
  pthread_barrier_destroy(&all_are_there);
  return rate;
}

static void print_turns(const char *name, int routes, double changes_a_second, const double *rates) {
  printf("%s\t%d\t%d\t%.0f\t%u", name, routes, threads, changes_a_second, lookers[0].hits);
  for (int turn = 0; turn < TURNS; turn++) printf("\t%.3f", rates[turn]);
  printf("\n");
}

// Measures one, two and four threads; where it can be changed, a turn alone and one beside the writer follow each other.
static void measure(const char *name, int routes, int can_change) {
  for (threads = 1; threads <= MOST_THREADS; threads *= 2) {
    double alone[TURNS], beside[TURNS];
    changes = 0;
    changing = 0;
    for (int turn = 0; turn < TURNS; turn++) {
      alone[turn] = run_turn(0);
      if (can_change) beside[turn] = run_turn(1);
    }
    print_turns(name, routes, 0, alone);
    if (can_change) print_turns(name, routes, changes / changing, beside);
  }
}

// The number of routes, which is the only word.
static int routes_of(int argc, char **argv) {
  int routes = argc == 2 ? atoi(argv[1]) : 0;
  end_if(routes < 1 || routes > MOST_ROUTES, "a number of routes is missing, of 1 to 100000");
  return routes;
}

#endif
