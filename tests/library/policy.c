/* Compares policy tables with prt_lookup at random packets while lines change them: alone, from four threads, and with memory
 * refused at each request. Writes nothing and ends with 0, or says which line of this file is wrong and ends with 1.
 *
 * It is linked with `--wrap=malloc` and `--wrap=realloc`.
 */
#include <pthread.h>
#include <stdatomic.h>
#include <stdio.h>
#include <stdlib.h>
#include <string.h>

#include "prt.h"

#define MUST(holds) must(holds, __LINE__)
#define BURST 32
#define LOOKERS 4

static void must(int holds, int line) {
    if (!holds) {
        fprintf(stderr, "policy.c:%d\n", line);
        exit(1);
    }
}

/* ---- memory */

/* How many requests are granted before one is refused; none is if this is negative. */
static long granted = -1;

void *__real_malloc(size_t size);
void *__real_realloc(void *block, size_t size);
void *__wrap_malloc(size_t size);
void *__wrap_realloc(void *block, size_t size);

static int is_refused(void) {
    return granted >= 0 && granted-- == 0;
}

void *__wrap_malloc(size_t size) {
    return is_refused() ? NULL : __real_malloc(size);
}

void *__wrap_realloc(void *block, size_t size) {
    return is_refused() ? NULL : __real_realloc(block, size);
}

/* ---- random lines and packets */

static uint32_t next_random(uint64_t *dice) {
    *dice = *dice * 6364136223846793005u + 1442695040888963407u;
    return (uint32_t)(*dice >> 33);
}

/* An address of few blocks, so that many packets meet many routes. */
static uint32_t address(uint64_t *dice) {
    uint32_t bits = 0x0a000000 | next_random(dice) % 4 << 16 | next_random(dice) % 256;
    return next_random(dice) % 2 ? bits : bits | next_random(dice) % 256 << 8;
}

static void write_prefix(uint64_t *dice, char *text, size_t room) {
    static const uint32_t lengths[] = { 0, 7, 8, 14, 16, 20, 24, 24, 27, 32 };
    uint32_t length = lengths[next_random(dice) % 10];
    uint32_t bits = length == 0 ? 0 : address(dice) >> (32 - length) << (32 - length);
    snprintf(text, room, "%u.%u.%u.%u/%u", bits >> 24, bits >> 16 & 255, bits >> 8 & 255, bits & 255, length);
}

/* A command on one route. */
static void write_route(uint64_t *dice, char *line, size_t room) {
    static const char *const verbs[] = { "add", "replace", "replace", "replace unreachable", "replace throw", "del" };
    static const char *const tables[] = { "", " table 100", " table 101" };
    char prefix[24], hop[40] = "";
    uint32_t verb = next_random(dice) % 6;
    write_prefix(dice, prefix, sizeof prefix);
    if (verb < 3)
        snprintf(hop, sizeof hop, " via 192.0.2.%u src 192.0.2.%u", next_random(dice) % 9, next_random(dice) % 2);
    snprintf(line, room, "route %s %s%s%s", verbs[verb], prefix, hop, tables[next_random(dice) % 3]);
}

/* A rule to be added. */
static void write_rule(uint64_t *dice, char *line, size_t room) {
    static const char *const interfaces[] = { "", "", " iif eth0", " iif eth1" };
    static const char *const actions[] = { "table 100", "table 101", "table main", "table 100 suppress_prefixlength 8", "prohibit" };
    char from[24], prefix[24], to[32] = "", mark[24] = "";
    write_prefix(dice, from, sizeof from);
    write_prefix(dice, prefix, sizeof prefix);
    if (next_random(dice) % 2)
        snprintf(to, sizeof to, " to %s", prefix);
    if (next_random(dice) % 2)
        snprintf(mark, sizeof mark, " fwmark %u/3", next_random(dice) % 4);
    snprintf(line, room, "rule add%s priority %u from %s%s%s%s %s", next_random(dice) % 4 ? "" : " not", 1 + next_random(dice) % 30000, from, to,
             interfaces[next_random(dice) % 4], mark, actions[next_random(dice) % 5]);
}

static prt_packet random_packet(uint64_t *dice) {
    static const char *const interfaces[] = { "", "eth0", "eth1", "a123456789abcde" };
    prt_packet packet = { .source = address(dice), .destination = address(dice), .mark = next_random(dice) % 8 };
    if (next_random(dice) % 8 == 0)
        packet.destination = next_random(dice) << 1;
    strcpy(packet.interface, interfaces[next_random(dice) % 4]);
    return packet;
}

/* ---- comparisons */

static int is_outcome_of(const prt_outcome *outcome, const prt_answer *answer) {
    return outcome->kind == answer->kind && outcome->has_gateway == answer->has_gateway && outcome->gateway == answer->gateway
           && outcome->has_source == answer->has_source && outcome->source == answer->source
           && memcmp(outcome->device, answer->device, PRT_NAME_BYTES) == 0;
}

/* Compares the outcomes of random packets, one by one and in bulk, with the answers of a version of the same state. */
static void compare(prt_policy *policy, prt_version *version, uint64_t *dice, int bursts) {
    for (int burst = 0; burst < bursts; burst++) {
        prt_packet packets[BURST];
        prt_outcome outcomes[BURST], outcome;
        prt_answer answers[BURST], answer;
        size_t count;
        for (int k = 0; k < BURST; k++)
            packets[k] = random_packet(dice);
        MUST(prt_policy_find_many(policy, packets, BURST, outcomes, BURST, &count) == PRT_DONE && count == BURST);
        MUST(prt_lookup_many(version, packets, BURST, answers, BURST, &count) == PRT_DONE && count == BURST);
        for (int k = 0; k < BURST; k++) {
            MUST(is_outcome_of(&outcomes[k], &answers[k]));
            MUST(prt_policy_find(policy, &packets[k], &outcome) == PRT_DONE && memcmp(&outcome, &outcomes[k], sizeof outcome) == 0);
            MUST(prt_policy_route(policy, &packets[k], &answer) == PRT_DONE && memcmp(&answer, &answers[k], sizeof answer) == 0);
        }
    }
}

static void take_version(prt_tables *tables, prt_version *version) {
    MUST(prt_tables_version(tables, version) == PRT_DONE);
}

/* New tables with random routes, and a policy table of them. */
static void begin(prt_tables *tables, prt_policy *policy, uint64_t *dice, int routes) {
    prt_version version = PRT_EMPTY_HOLDER;
    char line[160];
    uint64_t number;
    MUST(prt_tables_new(tables) == PRT_DONE);
    for (int k = 0; k < routes; k++) {
        write_route(dice, line, sizeof line);
        (void)prt_tables_line(tables, line, strlen(line), &number);
    }
    take_version(tables, &version);
    MUST(prt_policy_new(&version, policy) == PRT_DONE);
    prt_version_release(&version);
}

/* The tables and the policy table execute a line alike. */
static void execute(prt_tables *tables, prt_policy *policy, const char *line) {
    uint64_t number = 0, followed = 0;
    uint32_t status = prt_tables_line(tables, line, strlen(line), &number);
    MUST(prt_policy_follow(policy, line, strlen(line), &followed) == status && followed == number);
}

/* A line in one of so many is a rule, up to six, since seven could make too many classes. */
static void write_line(uint64_t *dice, int *rules, char *line, size_t room) {
    if (*rules < 6 && next_random(dice) % 16 == 0) {
        write_rule(dice, line, room);
        ++*rules;
    } else {
        write_route(dice, line, room);
    }
}

/* Random lines, with random packets after each of them, and many after the last. */
static void alone(uint64_t seed, int lines, int bursts) {
    prt_tables tables = PRT_EMPTY_HOLDER;
    prt_version version = PRT_EMPTY_HOLDER;
    prt_policy policy = PRT_EMPTY_HOLDER;
    char line[160];
    int rules = 0;
    begin(&tables, &policy, &seed, 200);
    for (int k = 0; k < lines; k++) {
        write_line(&seed, &rules, line, sizeof line);
        execute(&tables, &policy, line);
        take_version(&tables, &version);
        compare(&policy, &version, &seed, 2);
    }
    compare(&policy, &version, &seed, bursts);
    prt_policy_free(&policy);
    prt_version_release(&version);
    prt_tables_release(&tables);
}

/* ---- threads */

typedef struct {
    pthread_t thread;
    _Atomic(void *) slot;
    uint64_t dice;
    uint64_t number;
} looker;

static looker lookers[LOOKERS];
static atomic_int is_ended;

/* Compares outcomes with the answers of the table's own version. Its number doesn't go back. */
static void look_up(looker *it, prt_policy *policy) {
    for (int k = 0; k < BURST; k++) {
        prt_packet packet = random_packet(&it->dice);
        prt_outcome outcome;
        prt_answer answer;
        MUST(prt_policy_find(policy, &packet, &outcome) == PRT_DONE && prt_policy_route(policy, &packet, &answer) == PRT_DONE);
        MUST(is_outcome_of(&outcome, &answer) && answer.number >= it->number);
        it->number = answer.number;
    }
}

static void *run_looker(void *of) {
    looker *it = of;
    prt_policy policy = PRT_EMPTY_HOLDER;
    for (int last = 0; !last;) {
        /* What was left before the end is taken after it. */
        last = atomic_load(&is_ended);
        void *newer = atomic_exchange(&it->slot, NULL);
        if (newer) {
            prt_policy_free(&policy);
            policy.at = newer;
            last = 0;
        }
        if (policy.at)
            look_up(it, &policy);
    }
    prt_policy_free(&policy);
    return NULL;
}

static void hand_out(prt_policy *policy) {
    for (int k = 0; k < LOOKERS; k++) {
        prt_policy other = PRT_EMPTY_HOLDER;
        MUST(prt_policy_share(policy, &other) == PRT_DONE);
        prt_policy untaken = { atomic_exchange(&lookers[k].slot, other.at) };
        prt_policy_free(&untaken);
    }
}

/* Four threads look random packets up while a policy table follows lines. All end with the last number. */
static void together(uint64_t seed, int lines) {
    prt_tables tables = PRT_EMPTY_HOLDER;
    prt_policy policy = PRT_EMPTY_HOLDER;
    char line[160];
    uint64_t number = 0;
    int rules = 0;
    begin(&tables, &policy, &seed, 1000);
    prt_tables_release(&tables);
    for (int k = 0; k < LOOKERS; k++) {
        lookers[k].dice = seed + (uint64_t)k;
        MUST(pthread_create(&lookers[k].thread, NULL, run_looker, &lookers[k]) == 0);
    }
    for (int k = 0; k < lines; k++) {
        write_line(&seed, &rules, line, sizeof line);
        (void)prt_policy_follow(&policy, line, strlen(line), &number);
        hand_out(&policy);
    }
    MUST(prt_policy_follow(&policy, "", 0, &number) == PRT_DONE);
    atomic_store(&is_ended, 1);
    for (int k = 0; k < LOOKERS; k++) {
        pthread_join(lookers[k].thread, NULL);
        MUST(lookers[k].number == number);
    }
    prt_policy_free(&policy);
}

/* ---- refused memory */

/* How often memory is requested before a policy table is made. After each refusal the holder has what it had. */
static long refuse_new(prt_version *version, prt_policy *policy, prt_version *old, uint64_t *dice) {
    for (long requests = 0;; requests++) {
        granted = requests;
        uint32_t status = prt_policy_new(version, policy);
        granted = -1;
        if (status == PRT_DONE)
            return requests;
        MUST(status == PRT_NO_MEMORY);
        compare(policy, old, dice, 1);
    }
}

/* The same of one that follows a line. */
static long refuse_line(const char *line, prt_policy *policy, prt_version *old, uint64_t *dice) {
    for (long requests = 0;; requests++) {
        uint64_t number = 7;
        granted = requests;
        uint32_t status = prt_policy_follow(policy, line, strlen(line), &number);
        granted = -1;
        if (status == PRT_DONE)
            return requests;
        MUST(status == PRT_NO_MEMORY && number == 7);
        compare(policy, old, dice, 1);
    }
}

/* Memory is refused at each request of a new table, of one that follows a line, and of one more owner. */
static void refused(uint64_t seed) {
    static const char *const lines[] = { "rule add priority 9 from 10.1.0.0/16 fwmark 1/3 table 100", "route replace 10.1.2.0/24 via 192.0.2.7",
                                         "route replace default via 192.0.2.8", "rule del priority 9", "route flush table 100" };
    prt_tables tables = PRT_EMPTY_HOLDER;
    prt_version version = PRT_EMPTY_HOLDER, old = PRT_EMPTY_HOLDER;
    prt_policy policy = PRT_EMPTY_HOLDER, other = PRT_EMPTY_HOLDER;
    uint64_t number;
    begin(&tables, &policy, &seed, 60);
    take_version(&tables, &old);
    for (size_t k = 0; k < sizeof lines / sizeof *lines; k++) {
        MUST(refuse_line(lines[k], &policy, &old, &seed) > 3);
        MUST(prt_tables_line(&tables, lines[k], strlen(lines[k]), &number) == PRT_DONE);
        take_version(&tables, &old);
        compare(&policy, &old, &seed, 50);
    }
    MUST(prt_tables_line(&tables, lines[0], strlen(lines[0]), &number) == PRT_DONE);
    take_version(&tables, &version);
    MUST(refuse_new(&version, &policy, &old, &seed) > 3);
    compare(&policy, &version, &seed, 50);
    granted = 0;
    MUST(prt_policy_share(&policy, &other) == PRT_NO_MEMORY && other.at == NULL);
    granted = -1;
    prt_policy_free(&policy);
    prt_version_release(&version);
    prt_version_release(&old);
    prt_tables_release(&tables);
}

int main(void) {
    for (uint64_t seed = 1; seed <= 8; seed++)
        alone(seed, 100, 4000);
    together(9, 1000);
    refused(10);
    return 0;
}
