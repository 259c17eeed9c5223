// Adds routes to a database file as `prt batch --db` does: a transaction and a reply for each. With the word `together`
// it does as `prt batch --atomic --db`: one transaction for all, and then the replies.
// usage: transactions PATH [together] <ROUTES, in which each line has the address and the length of a destination in main
#include <sqlite3.h>
#include <stdio.h>
#include <stdlib.h>

static sqlite3 *database;

static void expect(int code, int wanted)
{
    if (code != wanted) {
        fprintf(stderr, "%s\n", sqlite3_errmsg(database));
        exit(1);
    }
}

static sqlite3_stmt *prepare(const char *text)
{
    sqlite3_stmt *statement;
    expect(sqlite3_prepare_v2(database, text, -1, &statement, NULL), SQLITE_OK);
    return statement;
}

static void run(sqlite3_stmt *statement)
{
    expect(sqlite3_step(statement), SQLITE_DONE);
    sqlite3_reset(statement);
}

static void open_database(const char *path)
{
    expect(sqlite3_open(path, &database), SQLITE_OK);
    expect(sqlite3_exec(database,
        "PRAGMA journal_mode = WAL; PRAGMA synchronous = FULL;"
        "CREATE TABLE route (tbl INTEGER NOT NULL, net INTEGER NOT NULL, len INTEGER NOT NULL, metric INTEGER NOT NULL,"
        " kind INTEGER NOT NULL, via INTEGER NOT NULL, dev TEXT NOT NULL, src INTEGER NOT NULL, proto INTEGER NOT NULL,"
        " scope INTEGER NOT NULL, PRIMARY KEY (tbl, net, len, metric)) STRICT;"
        "CREATE TABLE meta (id INTEGER PRIMARY KEY NOT NULL, format INTEGER NOT NULL, count INTEGER NOT NULL) STRICT;"
        "INSERT INTO meta (id, format, count) VALUES (1, 2, 0)", NULL, NULL, NULL), SQLITE_OK);
}

static void reply(long long number)
{
    printf("ok %lld\n", number);
    fflush(stdout);
}

int main(int argc, char **argv)
{
    if (argc < 2)
        return 2;
    int together = argc > 2;
    open_database(argv[1]);
    sqlite3_stmt *begin = prepare("BEGIN");
    sqlite3_stmt *add = prepare(
        "INSERT INTO route (tbl, net, len, metric, kind, via, dev, src, proto, scope)"
        " VALUES (254, ?1, ?2, 0, 1, 3221225985, 'eth0', -1, 3, 0)");
    sqlite3_stmt *count = prepare("UPDATE meta SET count = ?1");
    sqlite3_stmt *commit = prepare("COMMIT");
    long long net, length, number = 0;
    if (together)
        run(begin);
    while (scanf("%lld %lld", &net, &length) == 2) {
        sqlite3_bind_int64(add, 1, net);
        sqlite3_bind_int64(add, 2, length);
        sqlite3_bind_int64(count, 1, ++number);
        if (!together)
            run(begin);
        run(add);
        if (!together) {
            run(count);
            run(commit);
            reply(number);
        }
    }
    if (together) {
        run(count);
        run(commit);
        for (long long made = 1; made <= number; made++)
            reply(made);
    }
    return 0;
}
