/* prt.h: policy routing tables of IPv4 in the process that looks routes up.
 *
 * Tables hold the rules and routes of one database. Lines of prt's command language change them: `route add 10.0.0.0/8
 * via 192.0.2.1`. A version is what the tables hold at one moment, and never changes. Packets are looked up in versions.
 * For forwarding, tables are compiled from a version: for all packets (prt_policy), or for those of one source, interface and
 * mark (prt_fib). They have the next hop of every destination.
 *
 * The words above each call say what is proved of it; docs/reference/LIBRARY.md begins with an example. What C has to observe:
 *
 *   - A holder (prt_tables, prt_version, prt_fib, prt_policy) is empty when all its bytes are zero, as PRT_EMPTY_HOLDER makes it. After that
 *     only these calls write it. It isn't copied to be used twice.
 *   - A holder is given to one call at a time. It may go from thread to thread, by a lock, an atomic exchange, a thread's
 *     start or its end. Each thread that looks packets up has a version of its own: prt_tables_version makes one more
 *     owner of the same version, and copies no route.
 *   - No pointer is NULL, even if a length is 0. What two parameters point to doesn't overlap.
 *   - malloc, realloc and free are the C library's, or agree with one another as those do. No call is made from a signal
 *     handler, or in the child of a fork of a process with threads.
 *
 * No call waits for another thread, reads a clock or a file, or ends the process. No lookup takes memory.
 *
 * An address is a number in the host's order, whose highest byte is the first of the dotted parts: 192.0.2.1 is
 * 0xc0000201. `ntohl` makes it of an address in a packet.
 */
#ifndef PRT_H
#define PRT_H

#include <stddef.h>
#include <stdint.h>

#ifdef __cplusplus
extern "C" {
#endif

/* What a call returns: PRT_DONE, PRT_EMPTY, or the number of an error. The number of an error is 1 to 34, as in the reply
 * `error 22 NoSuch` of prt; docs/reference/ERRORS.md has all of them. These are some. */
enum prt_status {
    PRT_DONE = 0,         /* the call did what it says */
    PRT_BAD_NAME = 13,    /* a packet's interface has no such name */
    PRT_EXISTS = 21,      /* the route's key, or an equal rule, is there already */
    PRT_NO_SUCH = 22,     /* no route or rule agrees with what is named */
    PRT_FULL = 23,        /* there is no room for one more rule (of 1,000) or route (of 100,000) */
    PRT_NO_MEMORY = 26,   /* memory was refused */
    PRT_EMPTY = 100       /* the holder that the call needs holds nothing */
};

/* Tables, a version of them, and what is compiled from a version. `at` is the library's own. */
typedef struct { void *at; } prt_tables;
typedef struct { void *at; } prt_version;
typedef struct { void *at; } prt_fib;
typedef struct { void *at; } prt_policy;
#define PRT_EMPTY_HOLDER { 0 }

/* The bytes of an interface's name: 1 to 15, and zeros after them. */
#define PRT_NAME_BYTES 16

/* What rules look at of a packet. */
typedef struct {
    uint32_t source;                  /* 0 if none is known */
    uint32_t destination;
    uint32_t mark;                    /* the firewall mark; 0 if there is none */
    char interface[PRT_NAME_BYTES];   /* it came in by this; all zeros mean `lo` */
} prt_packet;

/* What happens to a packet. */
enum prt_kind {
    PRT_NO_ROUTE = 0,      /* no rule decides */
    PRT_UNICAST = 1,       /* it is sent on, through the gateway or the device */
    PRT_BLACKHOLE = 2,     /* it is dropped silently */
    PRT_UNREACHABLE = 3,   /* it is dropped; the host is unreachable */
    PRT_PROHIBIT = 4       /* it is dropped; that is administratively forbidden */
};

/* An answer. A route decides if `table` is not 0. If it is 0, the rule of that priority drops the packet itself, or none
 * decides; all below `priority` is then 0. */
typedef struct {
    uint64_t number;              /* how many commands the version's tables had accepted */
    uint32_t kind;                /* an enum prt_kind */
    uint32_t table;               /* the route's table */
    uint32_t priority;            /* that of the rule that decides; 0 if none does */
    uint32_t destination;         /* the address of the route's prefix */
    uint32_t prefix_length;       /* 0 to 32 */
    uint32_t metric;
    uint32_t has_gateway;         /* 1 or 0 */
    uint32_t gateway;             /* the next hop; 0 if there is none */
    uint32_t has_source;          /* 1 or 0 */
    uint32_t source;              /* the source to prefer; 0 if there is none */
    char device[PRT_NAME_BYTES];  /* the route's interface; all zeros if it names none */
} prt_answer;

/* What happens to packets, whichever rule and route decide: all that forwarding needs of an answer. */
typedef struct {
    uint32_t kind;                /* an enum prt_kind */
    uint32_t has_gateway;         /* 1 or 0 */
    uint32_t gateway;             /* the next hop; 0 if there is none */
    uint32_t has_source;          /* 1 or 0 */
    uint32_t source;              /* the source to prefer; 0 if there is none */
    char device[PRT_NAME_BYTES];  /* the route's interface; all zeros if it names none */
} prt_outcome;

/* ---- tables */

/* Makes tables of a new database: no route, and the rules that look up local, main and default.
 *
 * PRT_DONE         `tables` holds them; what it held before is released.
 * PRT_NO_MEMORY    `tables` holds what it did. */
uint32_t prt_tables_new(prt_tables *tables);

/* Executes one line, given without its newline. A blank line, a comment and a query (`route get`, `route show`) change
 * nothing.
 *
 * PRT_DONE         the tables are those after the line. `*number` is how many commands they have accepted so far.
 * 1 to 18          the first error of the line.
 * 21 to 24         why the tables refuse the command.
 * PRT_NO_MEMORY    memory was refused.
 * PRT_EMPTY        `tables` holds nothing.
 * After anything but PRT_DONE the tables and `*number` are as they were. */
uint32_t prt_tables_line(prt_tables *tables, const char *line, size_t length, uint64_t *number);

/* Executes the lines of a text that a newline ends, one after the other, up to the first that is refused.
 *
 * `*bytes` is how many bytes the executed lines have with their newlines: the text from there on is still to be executed.
 * `*number` is how many commands the tables have accepted so far.
 *
 * PRT_DONE         no whole line is left. What follows the last newline was not executed.
 * else             what prt_tables_line returns for the line at `*bytes`, which changed nothing.
 * PRT_EMPTY        `tables` holds nothing; `*bytes` and `*number` are as they were. */
uint32_t prt_tables_lines(prt_tables *tables, const char *text, size_t length, size_t *bytes, uint64_t *number);

/* Gives one more owner of the version that the tables are at. Later lines leave that version as it is.
 *
 * PRT_DONE         `version` holds it; what it held before is released.
 * PRT_NO_MEMORY    memory was refused; `version` holds what it did.
 * PRT_EMPTY        `tables` holds nothing; `version` holds what it did.
 * The tables are as they were. */
uint32_t prt_tables_version(prt_tables *tables, prt_version *version);

/* Releases the tables, and leaves `tables` empty. Versions that were taken of them stay. */
void prt_tables_release(prt_tables *tables);

/* ---- versions */

/* Looks a packet up, by the rules in their order and by longest match, as `route get` of prt does.
 *
 * PRT_DONE         `*answer` is what happens to the packet in this version.
 * PRT_BAD_NAME     `interface` is no name; `*answer` is as it was.
 * PRT_EMPTY        `version` holds nothing; `*answer` is as it was.
 * The version is as it was. */
uint32_t prt_lookup(prt_version *version, const prt_packet *packet, prt_answer *answer);

/* Looks packets up one after the other, as many as there are packets and answers, up to the first that has no answer.
 *
 * `*count` is how many were looked up, and `answers[k]` for each k below it is what happens to `packets[k]`. The other
 * answers are as they were.
 *
 * PRT_DONE         all were looked up for which there are answers.
 * PRT_BAD_NAME     `interface` of `packets[*count]` is no name.
 * PRT_EMPTY        `version` holds nothing; `*count` and the answers are as they were.
 * The version is as it was. */
uint32_t prt_lookup_many(prt_version *version, const prt_packet *packets, size_t packet_count, prt_answer *answers,
                         size_t answer_count, size_t *count);

/* Releases this owner of a version, and leaves `version` empty. The last owner frees what no other version shares. */
void prt_version_release(prt_version *version);

/* ---- compiled tables */

/* Compiles what happens to packets with the source, interface and mark of `packet`, for every destination. That of `packet`
 * doesn't matter. The compiled table stays right for this version, and needs the holder `version` no more.
 *
 * It takes some 50 ms for 100,000 routes. The compiled table has at most 12 bytes for each route and rule, 60 for each
 * outcome, and 350 KB. If all first octets have many routes, the last is 1.2 MB. While it is compiled, it takes some 160
 * bytes for each route and rule.
 *
 * PRT_DONE         `fib` holds the compiled table; what it held before is freed.
 * PRT_BAD_NAME     `interface` is no name.
 * PRT_FULL         these packets have more than 65,536 different outcomes.
 * PRT_NO_MEMORY    memory was refused.
 * PRT_EMPTY        `version` holds nothing.
 * After anything but PRT_DONE `fib` holds what it did. The version is as it was. */
uint32_t prt_fib_new(prt_version *version, const prt_packet *packet, prt_fib *fib);

/* Makes one more owner of a compiled table, for another thread. Nothing is copied.
 *
 * PRT_DONE         `other` holds it; what it held before is freed.
 * PRT_NO_MEMORY    memory was refused; `other` holds what it did.
 * PRT_EMPTY        `fib` holds nothing; `other` holds what it did. */
uint32_t prt_fib_share(prt_fib *fib, prt_fib *other);

/* Finds the number of the outcome of packets to this destination. Two destinations have one number if they have one outcome.
 *
 * PRT_DONE         `*number` is it.
 * PRT_EMPTY        `fib` holds nothing; `*number` is as it was. */
uint32_t prt_fib_find(prt_fib *fib, uint32_t destination, uint16_t *number);

/* Finds the numbers of destinations one after the other, as many as there are destinations and numbers.
 *
 * PRT_DONE         `*count` is how many were found, and `numbers[k]` for each k below it is that of `destinations[k]`. The
 *                  other numbers are as they were.
 * PRT_EMPTY        `fib` holds nothing; `*count` and the numbers are as they were. */
uint32_t prt_fib_find_many(prt_fib *fib, const uint32_t *destinations, size_t destination_count, uint16_t *numbers,
                           size_t number_count, size_t *count);

/* Writes the outcome of a number.
 *
 * PRT_DONE         `*outcome` is it.
 * PRT_NO_SUCH      the table has no such number: its numbers are 0 and up, without gaps. `*outcome` is as it was.
 * PRT_EMPTY        `fib` holds nothing; `*outcome` is as it was. */
uint32_t prt_fib_outcome(prt_fib *fib, uint16_t number, prt_outcome *outcome);

/* Looks a packet to this destination up in the version that the table was compiled from: which rule and which route decide.
 * That takes as long as prt_lookup.
 *
 * PRT_DONE         `*answer` is what prt_lookup writes for the packet, with this destination.
 * PRT_EMPTY        `fib` holds nothing; `*answer` is as it was. */
uint32_t prt_fib_route(prt_fib *fib, uint32_t destination, prt_answer *answer);

/* Releases this owner of a compiled table, and leaves `fib` empty. The last owner frees it, and what of its version no other
 * version shares. */
void prt_fib_free(prt_fib *fib);

/* ---- policy tables */

/* Compiles what happens to every packet: a table for each class of sources, interfaces and marks that no rule tells apart.
 * The policy table stays right for this version, and needs the holder `version` no more.
 *
 * It takes as long for each class as prt_fib_new, and as much memory.
 *
 * PRT_DONE         `policy` holds the policy table; what it held before is released.
 * PRT_FULL         there are more than 64 classes, 100,000 boxes of packets that rules tell apart, or 65,536 outcomes of a class.
 * PRT_NO_MEMORY    memory was refused.
 * PRT_EMPTY        `version` holds nothing.
 * After anything but PRT_DONE `policy` holds what it did. The version is as it was. */
uint32_t prt_policy_new(prt_version *version, prt_policy *policy);

/* Executes one line, as prt_tables_line does: `policy` then holds the policy table of the version after it. Other owners
 * keep the one before it.
 *
 * A change of one route is followed in microseconds for each class. A change of rules takes as long as prt_policy_new. So
 * does, now and then, one of a route.
 *
 * PRT_DONE         `policy` follows. `*number` is how many commands were accepted so far.
 * 1 to 18          the first error of the line.
 * 21 to 24         why the version refuses the command, or PRT_FULL as of prt_policy_new for the version after it.
 * PRT_NO_MEMORY    memory was refused.
 * PRT_EMPTY        `policy` holds nothing.
 * After anything but PRT_DONE what `policy` holds and `*number` are as they were. */
uint32_t prt_policy_follow(prt_policy *policy, const char *line, size_t length, uint64_t *number);

/* Makes one more owner of a policy table, for another thread. Nothing is copied.
 *
 * PRT_DONE         `other` holds it; what it held before is released.
 * PRT_NO_MEMORY    memory was refused; `other` holds what it did.
 * PRT_EMPTY        `policy` holds nothing; `other` holds what it did. */
uint32_t prt_policy_share(prt_policy *policy, prt_policy *other);

/* Finds what happens to a packet.
 *
 * PRT_DONE         `*outcome` is it.
 * PRT_BAD_NAME     `interface` is no name; `*outcome` is as it was.
 * PRT_EMPTY        `policy` holds nothing; `*outcome` is as it was. */
uint32_t prt_policy_find(prt_policy *policy, const prt_packet *packet, prt_outcome *outcome);

/* Finds what happens to packets one after the other, as many as there are packets and outcomes, up to the first bad name.
 *
 * `*count` is how many were found, and `outcomes[k]` for each k below it is what happens to `packets[k]`. The other
 * outcomes are as they were.
 *
 * PRT_DONE         all were found for which there are outcomes.
 * PRT_BAD_NAME     `interface` of `packets[*count]` is no name.
 * PRT_EMPTY        `policy` holds nothing; `*count` and the outcomes are as they were. */
uint32_t prt_policy_find_many(prt_policy *policy, const prt_packet *packets, size_t packet_count, prt_outcome *outcomes,
                              size_t outcome_count, size_t *count);

/* Looks a packet up in the version of the policy table: which rule and which route decide. That takes as long as prt_lookup.
 *
 * PRT_DONE         `*answer` is what prt_lookup writes for the packet.
 * PRT_BAD_NAME     `interface` is no name; `*answer` is as it was.
 * PRT_EMPTY        `policy` holds nothing; `*answer` is as it was. */
uint32_t prt_policy_route(prt_policy *policy, const prt_packet *packet, prt_answer *answer);

/* Releases this owner of a policy table, and leaves `policy` empty. The last owner frees it. */
void prt_policy_free(prt_policy *policy);

#ifdef __cplusplus
}
#endif

#endif
