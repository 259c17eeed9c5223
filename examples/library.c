/* Reads the lines of a dump into tables, and looks packets up from several threads.
 *
 *     library DUMP THREADS <PACKETS
 *
 * DUMP is what `prt dump` writes, or any other lines of commands. Each line of the input is a packet: its destination, its
 * source, its interface or `-`, and its mark. An answer is written as `prt` answers `route get`, except for the protocol and
 * the scope, in the order of the packets.
 */
#include <arpa/inet.h>
#include <pthread.h>
#include <stdio.h>
#include <stdlib.h>
#include <string.h>

#include "answer.h"
#include "prt.h"

#define MOST_PACKETS 100000
#define MOST_THREADS 64
#define AT_ONCE 32

/* What a thread has: a version of its own, and the packets from `first` up to `end`. */
typedef struct {
    pthread_t thread;
    prt_version version;
    size_t first, end;
} looker;

static prt_packet packets[MOST_PACKETS];
static prt_answer answers[MOST_PACKETS];

static void end_if(int failed, const char *what, unsigned status) {
    if (failed) {
        fprintf(stderr, "library: %s: %u\n", what, status);
        exit(1);
    }
}

/* Executes a file's lines: chunk by chunk those that end, and then the last one, if no newline ends it. */
static void execute_file(prt_tables *tables, const char *path) {
    char text[65536];
    size_t held = 0, got, bytes = 0;
    uint64_t number = 0;
    uint32_t status;
    FILE *file = fopen(path, "r");
    end_if(!file, path, 0);
    while ((got = fread(text + held, 1, sizeof text - held, file)) > 0) {
        held += got;
        status = prt_tables_lines(tables, text, held, &bytes, &number);
        end_if(status != PRT_DONE, "a line is refused", status);
        end_if(bytes == 0 && held == sizeof text, "a line is endless", 0);
        held -= bytes;
        memmove(text, text + bytes, held);
    }
    status = prt_tables_line(tables, text, held, &number);
    end_if(status != PRT_DONE, "the last line is refused", status);
    fclose(file);
}

/* Reads an address in the host's order. */
static uint32_t address_of(const char *text) {
    struct in_addr address;
    end_if(inet_pton(AF_INET, text, &address) != 1, text, 0);
    return ntohl(address.s_addr);
}

/* Reads the packets of the input, and gives how many there are. */
static size_t read_packets(void) {
    char destination[16], source[16], interface[PRT_NAME_BYTES];
    size_t count = 0;
    unsigned mark;
    while (count < MOST_PACKETS && scanf("%15s %15s %15s %u", destination, source, interface, &mark) == 4) {
        prt_packet *packet = &packets[count++];
        packet->destination = address_of(destination);
        packet->source = address_of(source);
        packet->mark = mark;
        if (strcmp(interface, "-") != 0)
            strcpy(packet->interface, interface);
    }
    return count;
}

/* Looks the packets of one thread up, some at once. Nothing is shared: the version is the thread's own. */
static void *look_up(void *of) {
    looker *it = of;
    size_t count = 0;
    for (size_t place = it->first; place < it->end; place += count) {
        size_t some = it->end - place < AT_ONCE ? it->end - place : AT_ONCE;
        uint32_t status = prt_lookup_many(&it->version, packets + place, some, answers + place, some, &count);
        end_if(status != PRT_DONE, "a packet has no answer", status);
    }
    prt_version_release(&it->version);
    return NULL;
}

int main(int argc, char **argv) {
    static looker lookers[MOST_THREADS];
    prt_tables tables = PRT_EMPTY_HOLDER;
    size_t threads = argc == 3 ? strtoul(argv[2], NULL, 10) : 0;
    if (threads < 1 || threads > MOST_THREADS) {
        fprintf(stderr, "usage: library DUMP THREADS <PACKETS\n");
        return 2;
    }
    uint32_t status = prt_tables_new(&tables);
    end_if(status != PRT_DONE, "new tables", status);
    execute_file(&tables, argv[1]);

    size_t count = read_packets();
    for (size_t place = 0; place < threads; place++) {
        looker *it = &lookers[place];
        it->first = count * place / threads;
        it->end = count * (place + 1) / threads;
        status = prt_tables_version(&tables, &it->version);
        end_if(status != PRT_DONE, "a version", status);
        end_if(pthread_create(&it->thread, NULL, look_up, it) != 0, "a thread", 0);
    }
    /* The versions stay when the tables go. */
    prt_tables_release(&tables);
    for (size_t place = 0; place < threads; place++)
        pthread_join(lookers[place].thread, NULL);
    for (size_t place = 0; place < count; place++)
        write_answer(stdout, &answers[place], answers[place].number);
    return 0;
}
