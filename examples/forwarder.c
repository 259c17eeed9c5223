/* Follows the feed of a `prt serve`, and looks packets up from several threads while the tables change.
 *
 *     forwarder ADDR PORT THREADS <DESTINATIONS
 *     forwarder DIR THREADS <DESTINATIONS
 *
 * The feed is at that port, or at the socket `feed` in the server's directory.
 *
 * One thread follows the feed with a policy table. After each transaction it makes an owner of the new table for each looker,
 * and leaves it in that looker's slot; who finds an older one there releases it. A looker takes what is in its slot, releases
 * what it held, and looks all destinations up again. When the feed ends each looker writes what it was answered at each
 * number: its own number, and the answer as `prt` gives it for `route get`.
 */
#include <arpa/inet.h>
#include <netinet/in.h>
#include <pthread.h>
#include <sched.h>
#include <stdatomic.h>
#include <stdio.h>
#include <stdlib.h>
#include <string.h>
#include <sys/socket.h>
#include <sys/un.h>
#include <unistd.h>

#include "answer.h"
#include "prt.h"

#define MOST_DESTINATIONS 64
#define MOST_THREADS 64

/* What a looker has, beside the table that it holds. A slot has the `at` of a table that it hasn't taken yet. */
typedef struct {
    pthread_t thread;
    _Atomic(void *) slot;
    FILE *told;
    char *text;
    size_t length;
} looker;

static looker lookers[MOST_THREADS];
static size_t threads;
static prt_packet packets[MOST_DESTINATIONS];
static size_t packet_count;
/* Whether no table comes any more. */
static atomic_int is_ended;
/* By how much the server's number of a state is greater than the library's. */
static atomic_ullong ahead;

static void end_if(int failed, const char *what, unsigned status) {
    if (failed) {
        fprintf(stderr, "forwarder: %s: %u\n", what, status);
        exit(1);
    }
}

/* Finds the next hop of each packet, and notes which rule and route decide. One who forwards packets needs the outcome alone. */
static void look_up(looker *it, prt_policy *policy) {
    for (size_t place = 0; place < packet_count; place++) {
        prt_outcome outcome;
        prt_answer answer;
        uint32_t status = prt_policy_find(policy, &packets[place], &outcome);
        end_if(status != PRT_DONE, "a packet has no outcome", status);
        status = prt_policy_route(policy, &packets[place], &answer);
        end_if(status != PRT_DONE, "a packet has no answer", status);
        end_if(outcome.kind != answer.kind || outcome.gateway != answer.gateway, "another next hop", outcome.gateway);
        fprintf(it->told, "%zu ", place);
        write_answer(it->told, &answer, answer.number + ahead);
    }
}

/* Looks packets up in each table that comes into the slot. */
static void *run_looker(void *of) {
    looker *it = of;
    prt_policy policy = PRT_EMPTY_HOLDER;
    for (int last = 0; !last;) {
        /* What was left before the end is taken after it. */
        last = atomic_load(&is_ended);
        void *newer = atomic_exchange(&it->slot, NULL);
        if (newer) {
            prt_policy_free(&policy);
            policy.at = newer;
            look_up(it, &policy);
            last = 0;
        } else {
            sched_yield();
        }
    }
    prt_policy_free(&policy);
    return NULL;
}

/* Leaves an owner of the policy table in each slot. */
static void hand_out(prt_policy *policy) {
    for (size_t place = 0; place < threads; place++) {
        prt_policy other = PRT_EMPTY_HOLDER;
        uint32_t status = prt_policy_share(policy, &other);
        end_if(status != PRT_DONE, "a policy table", status);
        prt_policy untaken = { atomic_exchange(&lookers[place].slot, other.at) };
        prt_policy_free(&untaken);
    }
}

/* Connects a new socket to a place, and opens it for reading. */
static FILE *open_at(const struct sockaddr *place, socklen_t length) {
    int feed = socket(place->sa_family, SOCK_STREAM, 0);
    end_if(feed < 0 || connect(feed, place, length) != 0, "the feed can't be reached", 0);
    return fdopen(feed, "r");
}

/* Connects to the feed at a port. */
static FILE *connect_to_port(const char *address, const char *port) {
    struct sockaddr_in place = { .sin_family = AF_INET, .sin_port = htons((uint16_t)atoi(port)) };
    end_if(inet_pton(AF_INET, address, &place.sin_addr) != 1, address, 0);
    return open_at((struct sockaddr *)&place, sizeof place);
}

/* Connects to the feed in a directory of sockets. */
static FILE *connect_to_socket(const char *directory) {
    struct sockaddr_un place = { .sun_family = AF_UNIX };
    int length = snprintf(place.sun_path, sizeof place.sun_path, "%s/feed", directory);
    end_if(length < 0 || (size_t)length >= sizeof place.sun_path, "the path is too long", 0);
    return open_at((struct sockaddr *)&place, sizeof place);
}

/* Reads the tables that the feed begins with, and compiles them. Gives the server's number of them. */
static uint64_t compile(prt_policy *policy, FILE *feed) {
    prt_tables tables = PRT_EMPTY_HOLDER;
    prt_version version = PRT_EMPTY_HOLDER;
    char *line = NULL;
    size_t room = 0;
    ssize_t length;
    uint64_t executed = 0;
    uint32_t status = prt_tables_new(&tables);
    end_if(status != PRT_DONE, "new tables", status);
    end_if(getline(&line, &room, feed) < 7 || strncmp(line, "state ", 6) != 0, "this is no feed", 0);
    uint64_t number = strtoull(line + 6, NULL, 10);
    while ((length = getline(&line, &room, feed)) > 0 && strcmp(line, "now\n") != 0) {
        status = prt_tables_line(&tables, line, (size_t)length - 1, &executed);
        end_if(status != PRT_DONE, "a line of the feed is refused", status);
    }
    end_if(length <= 0, "the feed ended within its tables", 0);
    /* A dump may have more commands than the server accepted: the difference wraps, and so does its sum. */
    atomic_store(&ahead, number - executed);
    status = prt_tables_version(&tables, &version);
    end_if(status != PRT_DONE, "a version", status);
    status = prt_policy_new(&version, policy);
    end_if(status != PRT_DONE, "a policy table", status);
    prt_version_release(&version);
    prt_tables_release(&tables);
    free(line);
    return number;
}

/* Follows the feed to its end: the tables as they are, and then each change. */
static void follow(prt_policy *policy, FILE *feed) {
    char *line = NULL, *command;
    size_t room = 0;
    ssize_t length;
    uint64_t number = compile(policy, feed), executed;
    /* How many commands of the transaction are to come. */
    unsigned long long left = 0;
    hand_out(policy);
    while ((length = getline(&line, &room, feed)) > 0) {
        if (*line == '#') {
            /* What was made together is shown together. */
            sscanf(line, "# together %llu", &left);
            continue;
        }
        end_if(strtoull(line, &command, 10) != ++number || *command != ' ', "a change is missing", 0);
        uint32_t status = prt_policy_follow(policy, command + 1, (size_t)(line + length - command) - 2, &executed);
        end_if(status != PRT_DONE, "a change can't be followed", status);
        if (left == 0 || --left == 0)
            hand_out(policy);
    }
    free(line);
}

/* Reads the destinations, an address a line. */
static void read_destinations(void) {
    char text[16];
    struct in_addr address;
    while (packet_count < MOST_DESTINATIONS && scanf("%15s", text) == 1) {
        end_if(inet_pton(AF_INET, text, &address) != 1, text, 0);
        packets[packet_count++].destination = ntohl(address.s_addr);
    }
}

int main(int argc, char **argv) {
    prt_policy policy = PRT_EMPTY_HOLDER;
    threads = argc == 3 || argc == 4 ? strtoul(argv[argc - 1], NULL, 10) : 0;
    if (threads < 1 || threads > MOST_THREADS) {
        fprintf(stderr, "usage: forwarder (ADDR PORT | DIR) THREADS <DESTINATIONS\n");
        return 2;
    }
    read_destinations();
    FILE *feed = argc == 4 ? connect_to_port(argv[1], argv[2]) : connect_to_socket(argv[1]);
    end_if(!feed, "the feed can't be read", 0);
    for (size_t place = 0; place < threads; place++) {
        looker *it = &lookers[place];
        it->told = open_memstream(&it->text, &it->length);
        end_if(!it->told || pthread_create(&it->thread, NULL, run_looker, it) != 0, "a thread", 0);
    }
    follow(&policy, feed);
    atomic_store(&is_ended, 1);
    for (size_t place = 0; place < threads; place++) {
        looker *it = &lookers[place];
        pthread_join(it->thread, NULL);
        fclose(it->told);
        for (char *line = strtok(it->text, "\n"); line; line = strtok(NULL, "\n"))
            printf("%zu %s\n", place, line);
        free(it->text);
    }
    prt_policy_free(&policy);
    fclose(feed);
    return 0;
}
