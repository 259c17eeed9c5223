/* Writes answers of the library as `prt` answers `route get`, except for the protocol and the scope. */
#ifndef ANSWER_H
#define ANSWER_H

#include <arpa/inet.h>
#include <stdio.h>

#include "prt.h"

static const char *text_of(uint32_t address, char *text) {
    struct in_addr in = { htonl(address) };
    return inet_ntop(AF_INET, &in, text, INET_ADDRSTRLEN);
}

static void write_prefix(FILE *to, const prt_answer *answer) {
    char text[INET_ADDRSTRLEN];
    if (answer->prefix_length == 0)
        fprintf(to, " default");
    else if (answer->prefix_length == 32)
        fprintf(to, " %s", text_of(answer->destination, text));
    else
        fprintf(to, " %s/%u", text_of(answer->destination, text), answer->prefix_length);
}

/* Writes a table by its name, where it has one. */
static void write_table(FILE *to, uint32_t table) {
    if (table == 255)
        fprintf(to, " table local");
    else if (table == 254)
        fprintf(to, " table main");
    else if (table == 253)
        fprintf(to, " table default");
    else if (table != 0)
        fprintf(to, " table %u", table);
}

/* Writes one, under this number. */
static void write_answer(FILE *to, const prt_answer *answer, uint64_t number) {
    static const char *const kinds[] = { " none", "", " blackhole", " unreachable", " prohibit" };
    char text[INET_ADDRSTRLEN];
    fprintf(to, "answer %llu", (unsigned long long)number);
    if (answer->kind != PRT_NO_ROUTE)
        fprintf(to, " rule %u", answer->priority);
    write_table(to, answer->table);
    fprintf(to, "%s", kinds[answer->kind]);
    if (answer->table != 0)
        write_prefix(to, answer);
    if (answer->has_gateway)
        fprintf(to, " via %s", text_of(answer->gateway, text));
    if (answer->device[0] != 0)
        fprintf(to, " dev %s", answer->device);
    if (answer->has_source)
        fprintf(to, " src %s", text_of(answer->source, text));
    if (answer->metric != 0)
        fprintf(to, " metric %u", answer->metric);
    fprintf(to, "\n");
}

#endif
