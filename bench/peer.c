/* The same postings over the C library: prepared statements, a write-ahead log, a full sync at each commit.
 *
 * usage: peer FILE BRANCHES ACCOUNTS BEFORE COUNT TOGETHER
 *
 * In a file with a bank's tables it opens the branches with as many accounts each, posts BEFORE records, and prints how
 * many of the COUNT that follow it posts a second, TOGETHER in a transaction. */
#include <sqlite3.h>
#include <stdio.h>
#include <stdlib.h>
#include <time.h>

enum { TELLERS = 10, ACCOUNT_NUMBERS = 100000 };

static sqlite3 *db;

static void check(int is_right) {
    if (!is_right) {
        fprintf(stderr, "peer: %s\n", sqlite3_errmsg(db));
        exit(1);
    }
}

static void run(const char *sql) { check(sqlite3_exec(db, sql, 0, 0, 0) == SQLITE_OK); }

static sqlite3_stmt *prepare(const char *sql) {
    sqlite3_stmt *statement;
    check(sqlite3_prepare_v2(db, sql, -1, &statement, 0) == SQLITE_OK);
    return statement;
}

static void bind(sqlite3_stmt *statement, int count, const long long *values) {
    for (int i = 0; i < count; i++)
        sqlite3_bind_int64(statement, i + 1, values[i]);
}

static void write_row(sqlite3_stmt *statement, int count, const long long *values) {
    bind(statement, count, values);
    check(sqlite3_step(statement) == SQLITE_DONE);
    sqlite3_reset(statement);
}

/* Adds to the row under a key, which has to be there, and gives what it then holds. */
static long long add_to(sqlite3_stmt *statement, long long key, long long amount) {
    bind(statement, 2, (long long[]){key, amount});
    check(sqlite3_step(statement) == SQLITE_ROW);
    long long value = sqlite3_column_int64(statement, 0);
    check(sqlite3_step(statement) == SQLITE_DONE);
    sqlite3_reset(statement);
    return value;
}

static unsigned long long state = 88172645463325252ULL;

/* Marsaglia's xorshift64. */
static unsigned long long draw(unsigned long long below) {
    state ^= state << 13;
    state ^= state >> 7;
    state ^= state << 17;
    return state % below;
}

static sqlite3_stmt *request_read, *meta_add, *teller_add_to, *branch_add_to, *account_add_to, *history_add, *request_add;

static void prepare_all(void) {
    request_read =
        prepare("SELECT ordinal, aid, bid, delta, outcome, balance FROM request WHERE tid = ?1 AND number = ?2");
    meta_add = prepare("UPDATE meta SET decided = decided + ?2 WHERE id = ?1 RETURNING decided");
    teller_add_to = prepare("UPDATE teller SET balance = balance + ?2 WHERE tid = ?1");
    branch_add_to = prepare("UPDATE branch SET balance = balance + ?2 WHERE bid = ?1");
    account_add_to = prepare("UPDATE account SET balance = balance + ?2 WHERE aid = ?1 RETURNING balance");
    history_add = prepare("INSERT INTO history VALUES (?1, ?2, ?3, ?4, ?5, ?6)");
    request_add = prepare("INSERT INTO request VALUES (?1, ?2, ?3, ?4, ?5, ?6, 0, ?7)");
}

/* One posting. The record comes from home in 85 of 100 cases, as the benchmark has it. */
static void post(long branches, long accounts, long long *numbers) {
    long long teller = draw(TELLERS * branches) + 1, branch = (teller - 1) / TELLERS + 1;
    int is_remote = branches > 1 && draw(100) >= 85;
    long long home = is_remote ? (branch + (long long)draw(branches - 1)) % branches : branch - 1;
    long long account = ACCOUNT_NUMBERS * home + draw(accounts) + 1;
    long long amount = (long long)draw(1999999) - 999999, number = ++numbers[teller];
    bind(request_read, 2, (long long[]){teller, number});
    check(sqlite3_step(request_read) == SQLITE_DONE);
    sqlite3_reset(request_read);
    long long ordinal = add_to(meta_add, 1, 1), balance = add_to(account_add_to, account, amount);
    write_row(teller_add_to, 2, (long long[]){teller, amount});
    write_row(branch_add_to, 2, (long long[]){branch, amount});
    write_row(history_add, 6, (long long[]){ordinal, account, teller, branch, amount, 1000});
    write_row(request_add, 7, (long long[]){ordinal, teller, number, account, branch, amount, balance});
}

static void post_all(long branches, long accounts, long count, long together, long long *numbers) {
    for (long i = 0; i < count; i++) {
        if (i % together == 0)
            run("BEGIN IMMEDIATE");
        post(branches, accounts, numbers);
        if ((i + 1) % together == 0 || i + 1 == count)
            run("COMMIT");
    }
}

static void open_branches(long branches, long accounts) {
    sqlite3_stmt *account_add = prepare("INSERT INTO account VALUES (?1, 0)");
    sqlite3_stmt *teller_add = prepare("INSERT INTO teller VALUES (?1, 0)");
    sqlite3_stmt *branch_add = prepare("INSERT INTO branch VALUES (?1, ?2, 0)");
    run("BEGIN");
    for (long i = 0; i < branches; i++) {
        write_row(branch_add, 2, (long long[]){i + 1, accounts});
        for (long k = 1; k <= TELLERS; k++)
            write_row(teller_add, 1, (long long[]){TELLERS * i + k});
        for (long k = 1; k <= accounts; k++)
            write_row(account_add, 1, (long long[]){(long long)ACCOUNT_NUMBERS * i + k});
    }
    run("COMMIT");
}

int main(int count, char **words) {
    if (count != 7) {
        fprintf(stderr, "usage: peer FILE BRANCHES ACCOUNTS BEFORE COUNT TOGETHER\n");
        return 2;
    }
    long branches = atol(words[2]), accounts = atol(words[3]), postings = atol(words[5]);
    check(sqlite3_open(words[1], &db) == SQLITE_OK);
    run("PRAGMA journal_mode = WAL; PRAGMA synchronous = FULL");
    open_branches(branches, accounts);
    prepare_all();
    long long *numbers = calloc(TELLERS * branches + 1, sizeof *numbers);
    if (!numbers)
        return 1;
    post_all(branches, accounts, atol(words[4]), 64, numbers);
    struct timespec begin, end;
    clock_gettime(CLOCK_MONOTONIC, &begin);
    post_all(branches, accounts, postings, atol(words[6]), numbers);
    clock_gettime(CLOCK_MONOTONIC, &end);
    printf("%.0f\n", postings / (end.tv_sec - begin.tv_sec + (end.tv_nsec - begin.tv_nsec) / 1e9));
    return 0;
}
