/* Makes each call of the library once where it does what it says, and once at each other status that C can bring about.
 * Writes nothing and ends with 0, or says which line of this file is wrong and ends with 1. */
#include <stdio.h>
#include <stdlib.h>
#include <string.h>

#include "prt.h"

#define MUST(holds) must(holds, __LINE__)

static void must(int holds, int line) {
    if (!holds) {
        fprintf(stderr, "calls.c:%d\n", line);
        exit(1);
    }
}

static const prt_packet TO_TEN = { .destination = 0x0a000001 };

static uint32_t execute(prt_tables *tables, const char *line, uint64_t *number) {
    return prt_tables_line(tables, line, strlen(line), number);
}

/* The structs have no holes, and an answer fits a line of a cache. */
static void sizes(void) {
    MUST(sizeof(prt_packet) == 28 && sizeof(prt_answer) == 64 && sizeof(prt_version) == sizeof(void *));
    MUST(sizeof(prt_outcome) == 36 && sizeof(prt_fib) == sizeof(void *) && sizeof(prt_policy) == sizeof(void *));
}

/* A call on an empty holder says so, and changes nothing. */
static void empty_holders(void) {
    prt_tables tables = PRT_EMPTY_HOLDER;
    prt_version version = PRT_EMPTY_HOLDER;
    prt_answer answer = { .number = 7 };
    uint64_t number = 7;
    size_t bytes = 7, count = 7;
    MUST(execute(&tables, "rule flush", &number) == PRT_EMPTY);
    MUST(prt_tables_lines(&tables, "rule flush\n", 11, &bytes, &number) == PRT_EMPTY);
    MUST(prt_tables_version(&tables, &version) == PRT_EMPTY);
    MUST(prt_lookup(&version, &TO_TEN, &answer) == PRT_EMPTY);
    MUST(prt_lookup_many(&version, &TO_TEN, 1, &answer, 1, &count) == PRT_EMPTY);
    MUST(number == 7 && bytes == 7 && count == 7 && answer.number == 7);
    prt_tables_release(&tables);
    prt_version_release(&version);
    MUST(tables.at == NULL && version.at == NULL);
}

/* A line that is refused leaves the tables and the number. */
static void lines(void) {
    prt_tables tables = PRT_EMPTY_HOLDER;
    uint64_t number = 0;
    MUST(prt_tables_new(&tables) == PRT_DONE);
    MUST(execute(&tables, "route add 10/8 via 192.0.2.1", &number) == PRT_DONE && number == 1);
    number = 7;
    MUST(execute(&tables, "route add 10/8 via 192.0.2.2", &number) == PRT_EXISTS);
    MUST(execute(&tables, "route del 11/8", &number) == PRT_NO_SUCH);
    MUST(execute(&tables, "frob add 11/8", &number) == 3);
    MUST(execute(&tables, "route frob 11/8", &number) == 4);
    MUST(execute(&tables, "route add 11/8", &number) == 15);
    MUST(number == 7);
    MUST(execute(&tables, "", &number) == PRT_DONE && number == 1);
    MUST(execute(&tables, "# a comment", &number) == PRT_DONE && number == 1);
    MUST(execute(&tables, "route get 10.0.0.1", &number) == PRT_DONE && number == 1);
    prt_tables_release(&tables);
}

/* A text is executed up to the first line that is refused, and what no newline ends is left. */
static void texts(void) {
    static const char text[] = "route add 10/8 dev a\n\nroute add 10/8 dev b\nroute add 11/8 dev a\nroute add 12/8";
    prt_tables tables = PRT_EMPTY_HOLDER;
    uint64_t number = 0;
    size_t bytes = 0;
    MUST(prt_tables_new(&tables) == PRT_DONE);
    MUST(prt_tables_lines(&tables, text, strlen(text), &bytes, &number) == PRT_EXISTS);
    MUST(bytes == 22 && number == 1);
    MUST(prt_tables_lines(&tables, text + 43, strlen(text) - 43, &bytes, &number) == PRT_DONE);
    MUST(bytes == 21 && number == 2);
    MUST(prt_tables_lines(&tables, text, 0, &bytes, &number) == PRT_DONE);
    MUST(bytes == 0 && number == 2);
    prt_tables_release(&tables);
}

/* A version stays as it is while lines change the tables, and when they are released. */
static void versions(void) {
    prt_tables tables = PRT_EMPTY_HOLDER;
    prt_version old = PRT_EMPTY_HOLDER, next = PRT_EMPTY_HOLDER;
    prt_answer answer;
    uint64_t number;
    MUST(prt_tables_new(&tables) == PRT_DONE);
    MUST(execute(&tables, "route add 10/8 via 192.0.2.1 metric 5", &number) == PRT_DONE);
    MUST(prt_tables_version(&tables, &old) == PRT_DONE);
    MUST(prt_tables_version(&tables, &next) == PRT_DONE);
    MUST(execute(&tables, "route add 10.0.0.0/24 dev eth0 table 100", &number) == PRT_DONE);
    MUST(execute(&tables, "rule add priority 9 table 100", &number) == PRT_DONE);
    /* What the holder has before is released. */
    MUST(prt_tables_version(&tables, &next) == PRT_DONE);
    MUST(prt_tables_new(&tables) == PRT_DONE);
    prt_tables_release(&tables);
    MUST(prt_lookup(&old, &TO_TEN, &answer) == PRT_DONE);
    MUST(answer.number == 1 && answer.kind == PRT_UNICAST && answer.table == 254 && answer.priority == 32766);
    MUST(answer.destination == 0x0a000000 && answer.prefix_length == 8 && answer.metric == 5);
    MUST(answer.has_gateway == 1 && answer.gateway == 0xc0000201 && answer.has_source == 0 && answer.device[0] == 0);
    prt_version_release(&old);
    MUST(old.at == NULL);
    MUST(prt_lookup(&next, &TO_TEN, &answer) == PRT_DONE);
    MUST(answer.number == 3 && answer.table == 100 && answer.priority == 9 && answer.prefix_length == 24);
    MUST(answer.has_gateway == 0 && strcmp(answer.device, "eth0") == 0);
    prt_version_release(&next);
}

/* Rules look at each part of a packet; a packet with a bad name has no answer, and ends a call for many. */
static void packets(void) {
    static const char text[] = "rule add priority 1 from 192.0.2.1 blackhole\nrule add priority 2 iif eth1 prohibit\n"
                               "rule add priority 3 iif lo fwmark 7 unreachable\n";
    prt_tables tables = PRT_EMPTY_HOLDER;
    prt_version version = PRT_EMPTY_HOLDER;
    prt_packet four[4] = { { .source = 0xc0000201 }, { .interface = "eth1" }, { .mark = 7 }, { .interface = "a/b" } };
    prt_answer answers[4] = { [3] = { .number = 9 } };
    uint64_t number;
    size_t bytes, count;
    MUST(prt_tables_new(&tables) == PRT_DONE);
    MUST(prt_tables_lines(&tables, text, strlen(text), &bytes, &number) == PRT_DONE);
    MUST(prt_tables_version(&tables, &version) == PRT_DONE);
    MUST(prt_lookup_many(&version, four, 4, answers, 4, &count) == PRT_BAD_NAME && count == 3);
    MUST(answers[0].kind == PRT_BLACKHOLE && answers[0].table == 0 && answers[0].priority == 1);
    MUST(answers[1].kind == PRT_PROHIBIT && answers[1].priority == 2);
    MUST(answers[2].kind == PRT_UNREACHABLE && answers[2].priority == 3);
    MUST(answers[3].number == 9);
    MUST(prt_lookup(&version, &four[3], &answers[3]) == PRT_BAD_NAME && answers[3].number == 9);
    memset(four[3].interface, 'a', PRT_NAME_BYTES);
    MUST(prt_lookup(&version, &four[3], &answers[3]) == PRT_BAD_NAME && answers[3].number == 9);
    four[3].interface[PRT_NAME_BYTES - 1] = 0;
    MUST(prt_lookup(&version, &four[3], &answers[3]) == PRT_DONE && answers[3].kind == PRT_NO_ROUTE);
    MUST(prt_lookup_many(&version, four, 4, answers, 2, &count) == PRT_DONE && count == 2);
    MUST(prt_lookup_many(&version, four, 0, answers, 2, &count) == PRT_DONE && count == 0);
    prt_version_release(&version);
    prt_tables_release(&tables);
}

/* A call on an empty holder of a compiled table says so, and changes nothing. */
static void empty_fib(void) {
    prt_version version = PRT_EMPTY_HOLDER;
    prt_fib fib = PRT_EMPTY_HOLDER, other = PRT_EMPTY_HOLDER;
    prt_outcome outcome = { .kind = 7 };
    prt_answer answer = { .number = 7 };
    uint32_t destination = 0;
    uint16_t number = 7;
    size_t count = 7;
    MUST(prt_fib_new(&version, &TO_TEN, &fib) == PRT_EMPTY);
    MUST(prt_fib_share(&fib, &other) == PRT_EMPTY && other.at == NULL);
    MUST(prt_fib_find(&fib, destination, &number) == PRT_EMPTY && number == 7);
    MUST(prt_fib_find_many(&fib, &destination, 1, &number, 1, &count) == PRT_EMPTY && number == 7 && count == 7);
    MUST(prt_fib_outcome(&fib, 0, &outcome) == PRT_EMPTY && outcome.kind == 7);
    MUST(prt_fib_route(&fib, destination, &answer) == PRT_EMPTY && answer.number == 7);
    prt_fib_free(&fib);
    MUST(fib.at == NULL);
}

/* The outcome, the number and the route of a destination are those that prt_lookup gives the packet. */
static void compare(prt_version *version, prt_fib *fib, prt_packet packet, uint32_t destination) {
    prt_answer answer, route;
    prt_outcome outcome;
    uint16_t number, again[2] = { 0, 9 };
    size_t count;
    packet.destination = destination;
    MUST(prt_lookup(version, &packet, &answer) == PRT_DONE);
    MUST(prt_fib_route(fib, destination, &route) == PRT_DONE && memcmp(&route, &answer, sizeof answer) == 0);
    MUST(prt_fib_find(fib, destination, &number) == PRT_DONE && prt_fib_outcome(fib, number, &outcome) == PRT_DONE);
    MUST(outcome.kind == answer.kind && outcome.has_gateway == answer.has_gateway && outcome.gateway == answer.gateway);
    MUST(outcome.has_source == answer.has_source && outcome.source == answer.source);
    MUST(memcmp(outcome.device, answer.device, PRT_NAME_BYTES) == 0);
    MUST(prt_fib_find_many(fib, &destination, 1, again, 2, &count) == PRT_DONE);
    MUST(count == 1 && again[0] == number && again[1] == 9);
}

/* Compiled tables of packets that rules tell apart, compared at both ends of prefixes and at a million destinations. */
static void fibs(void) {
    static const char text[] = "rule add priority 1 from 192.0.2.1 table 100\nrule add priority 2 iif eth1 fwmark 7 prohibit\n"
                               "rule add priority 3 to 10.64.0.0/10 table 101\nroute add 10/8 via 192.0.2.1 table 100\n"
                               "route add throw 10.128.0.0/9 table 100\nroute add blackhole 10.64.0.0/16 table 101\n"
                               "route add 10.65.0.0/16 dev eth0 src 192.0.2.7 table 101\nroute add default via 192.0.2.9\n"
                               "route add 10.0.0.0/31 via 192.0.2.9\nroute add 255.255.255.255 dev eth2\nroute add unreachable 0.0.0.0\n";
    static const uint32_t ends[] = { 0, 1, 0x09ffffff, 0x0a000000, 0x0a000001, 0x0a000002, 0x0a3fffff, 0x0a400000, 0x0a40ffff,
                                     0x0a410000, 0x0a420000, 0x0a7fffff, 0x0a800000, 0x0b000000, 0xfffffffe, 0xffffffff };
    prt_tables tables = PRT_EMPTY_HOLDER;
    prt_version version = PRT_EMPTY_HOLDER;
    prt_fib fib = PRT_EMPTY_HOLDER, other = PRT_EMPTY_HOLDER;
    prt_packet packets[4] = { { .source = 0 }, { .source = 0xc0000201 }, { .interface = "eth1", .mark = 7 }, { .interface = "a/b" } };
    prt_outcome outcome = { .kind = 9 };
    uint64_t number;
    size_t bytes;
    MUST(prt_tables_new(&tables) == PRT_DONE);
    MUST(prt_tables_lines(&tables, text, strlen(text), &bytes, &number) == PRT_DONE && number == 11);
    MUST(prt_tables_version(&tables, &version) == PRT_DONE);
    MUST(prt_fib_new(&version, &packets[3], &fib) == PRT_BAD_NAME && fib.at == NULL);
    for (int k = 0; k < 3; k++) {
        /* What the holder has before is freed. */
        MUST(prt_fib_new(&version, &packets[k], &fib) == PRT_DONE);
        for (size_t i = 0; i < sizeof ends / sizeof *ends; i++)
            compare(&version, &fib, packets[k], ends[i]);
        for (uint32_t i = 0; i < 333334; i++)
            compare(&version, &fib, packets[k], i % 2 ? 2654435761u * i : 0x09000000 + (2654435761u * i >> 6));
        MUST(prt_fib_outcome(&fib, 65535, &outcome) == PRT_NO_SUCH && outcome.kind == 9);
    }
    /* It stays when the version, the tables and another owner of it are released. */
    MUST(prt_fib_share(&fib, &other) == PRT_DONE);
    prt_version_release(&version);
    prt_tables_release(&tables);
    prt_fib_free(&fib);
    MUST(fib.at == NULL);
    MUST(prt_fib_outcome(&other, 0, &outcome) == PRT_DONE && outcome.kind == PRT_PROHIBIT);
    prt_fib_free(&other);
}

/* A call on an empty holder of a policy table says so, and changes nothing. */
static void empty_policy(void) {
    prt_version version = PRT_EMPTY_HOLDER;
    prt_policy policy = PRT_EMPTY_HOLDER, other = PRT_EMPTY_HOLDER;
    prt_outcome outcome = { .kind = 7 };
    prt_answer answer = { .number = 7 };
    uint64_t number = 7;
    size_t count = 7;
    MUST(prt_policy_new(&version, &policy) == PRT_EMPTY && policy.at == NULL);
    MUST(prt_policy_follow(&policy, "rule flush", 10, &number) == PRT_EMPTY && number == 7 && policy.at == NULL);
    MUST(prt_policy_share(&policy, &other) == PRT_EMPTY && other.at == NULL);
    MUST(prt_policy_find(&policy, &TO_TEN, &outcome) == PRT_EMPTY && outcome.kind == 7);
    MUST(prt_policy_find_many(&policy, &TO_TEN, 1, &outcome, 1, &count) == PRT_EMPTY && outcome.kind == 7 && count == 7);
    MUST(prt_policy_route(&policy, &TO_TEN, &answer) == PRT_EMPTY && answer.number == 7);
    prt_policy_free(&policy);
    MUST(policy.at == NULL);
}

static uint32_t follow(prt_policy *policy, const char *line, uint64_t *number) {
    return prt_policy_follow(policy, line, strlen(line), number);
}

/* A packet with a bad name has no outcome, and ends a call for many. */
static void policy_packets(prt_policy *policy) {
    prt_packet packets[4] = { TO_TEN, { .source = 0xc0000201 }, { .interface = "a/b" }, TO_TEN };
    prt_outcome outcomes[4] = { [2] = { .kind = 9 }, [3] = { .kind = 9 } };
    prt_answer answer = { .number = 9 };
    size_t count;
    MUST(prt_policy_find(policy, &packets[2], &outcomes[2]) == PRT_BAD_NAME && outcomes[2].kind == 9);
    MUST(prt_policy_route(policy, &packets[2], &answer) == PRT_BAD_NAME && answer.number == 9);
    MUST(prt_policy_find_many(policy, packets, 4, outcomes, 4, &count) == PRT_BAD_NAME && count == 2);
    MUST(outcomes[0].kind == PRT_UNICAST && outcomes[0].gateway == 0xc0000201 && outcomes[1].kind == PRT_BLACKHOLE);
    MUST(outcomes[2].kind == 9 && outcomes[3].kind == 9);
    MUST(prt_policy_find_many(policy, packets, 4, outcomes, 1, &count) == PRT_DONE && count == 1);
    MUST(prt_policy_route(policy, &packets[1], &answer) == PRT_DONE && answer.kind == PRT_BLACKHOLE && answer.priority == 1);
}

/* A policy table follows lines, and stays where one is refused. Another owner of it keeps what it has. */
static void policies(void) {
    prt_tables tables = PRT_EMPTY_HOLDER;
    prt_version version = PRT_EMPTY_HOLDER;
    prt_policy policy = PRT_EMPTY_HOLDER, old = PRT_EMPTY_HOLDER;
    prt_outcome outcome;
    prt_answer answer;
    uint64_t number;
    MUST(prt_tables_new(&tables) == PRT_DONE && prt_tables_version(&tables, &version) == PRT_DONE);
    MUST(prt_policy_new(&version, &policy) == PRT_DONE && prt_policy_share(&policy, &old) == PRT_DONE);
    prt_version_release(&version);
    prt_tables_release(&tables);
    MUST(follow(&policy, "route add 10/8 via 192.0.2.1", &number) == PRT_DONE && number == 1);
    MUST(follow(&policy, "rule add priority 1 from 192.0.2.1 blackhole", &number) == PRT_DONE && number == 2);
    number = 7;
    MUST(follow(&policy, "route add 10/8 via 192.0.2.2", &number) == PRT_EXISTS);
    MUST(follow(&policy, "rule del priority 9", &number) == PRT_NO_SUCH);
    MUST(follow(&policy, "frob add 11/8", &number) == 3 && follow(&policy, "route add 11/8", &number) == 15 && number == 7);
    MUST(follow(&policy, "", &number) == PRT_DONE && number == 2);
    MUST(follow(&policy, "route get 10.0.0.1", &number) == PRT_DONE && number == 2);
    policy_packets(&policy);
    MUST(prt_policy_find(&old, &TO_TEN, &outcome) == PRT_DONE && outcome.kind == PRT_NO_ROUTE);
    MUST(prt_policy_route(&old, &TO_TEN, &answer) == PRT_DONE && answer.number == 0);
    /* What the holder has before is released. */
    MUST(prt_policy_share(&policy, &old) == PRT_DONE);
    prt_policy_free(&policy);
    MUST(policy.at == NULL);
    MUST(prt_policy_find(&old, &TO_TEN, &outcome) == PRT_DONE && outcome.kind == PRT_UNICAST);
    prt_policy_free(&old);
}

/* Seven rules that take a bit of the mark each make 128 classes, which are too many. */
static void full_policy(void) {
    static const prt_packet marked = { .mark = 64 };
    prt_tables tables = PRT_EMPTY_HOLDER;
    prt_version version = PRT_EMPTY_HOLDER;
    prt_policy policy = PRT_EMPTY_HOLDER;
    prt_outcome outcome;
    uint64_t number;
    char line[80];
    MUST(prt_tables_new(&tables) == PRT_DONE);
    for (int bit = 0; bit < 7; bit++) {
        snprintf(line, sizeof line, "rule add priority %d fwmark %d/%d prohibit", bit + 1, 1 << bit, 1 << bit);
        if (bit == 6) {
            MUST(prt_tables_version(&tables, &version) == PRT_DONE && prt_policy_new(&version, &policy) == PRT_DONE);
            number = 9;
            MUST(follow(&policy, line, &number) == PRT_FULL && number == 9);
        }
        MUST(execute(&tables, line, &number) == PRT_DONE);
    }
    MUST(prt_tables_version(&tables, &version) == PRT_DONE && prt_policy_new(&version, &policy) == PRT_FULL);
    MUST(prt_policy_find(&policy, &marked, &outcome) == PRT_DONE && outcome.kind == PRT_NO_ROUTE);
    prt_version_release(&version);
    prt_tables_release(&tables);
    prt_policy_free(&policy);
}

int main(void) {
    sizes();
    empty_holders();
    lines();
    texts();
    versions();
    packets();
    empty_fib();
    fibs();
    empty_policy();
    policies();
    full_policy();
    return 0;
}
