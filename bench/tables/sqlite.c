/* The works of bench/tables in SQLite: sqlite WORK DATABASE. A prepared statement a row, one transaction, no
 * journal. */
#include <sqlite3.h>
#include <stdio.h>
#include <stdlib.h>
#include <string.h>

static sqlite3 *base;

static void check(int answer, int wanted) {
    if (answer != wanted) {
        fprintf(stderr, "sqlite: %s\n", sqlite3_errmsg(base));
        exit(1);
    }
}

static void run(const char *text) { check(sqlite3_exec(base, text, NULL, NULL, NULL), SQLITE_OK); }

static sqlite3_stmt *prepared(const char *text) {
    sqlite3_stmt *statement;
    check(sqlite3_prepare_v2(base, text, -1, &statement, NULL), SQLITE_OK);
    return statement;
}

static const char *text_of(sqlite3_stmt *row, int column) { return (const char *)sqlite3_column_text(row, column); }

static void scan(void) {
    sqlite3_stmt *row = prepared("SELECT qty FROM ord ORDER BY rowid");
    long long sum = 0;
    while (sqlite3_step(row) == SQLITE_ROW) sum += sqlite3_column_int64(row, 0);
    printf("%lld\n", sum);
}

static void shown(void) {
    sqlite3_stmt *row = prepared("SELECT number FROM ord WHERE qty > 50 AND code < 'C3' ORDER BY rowid");
    long long count = 0;
    while (sqlite3_step(row) == SQLITE_ROW) count++;
    printf("%lld\n", count);
}

static void skipped(void) {
    sqlite3_stmt *row = prepared("SELECT count(*) FROM ord WHERE qty > 50 AND code < 'C3'");
    for (int turn = 0; turn < 10; turn++) {
        check(sqlite3_step(row), SQLITE_ROW);
        if (turn == 9) printf("%lld\n", sqlite3_column_int64(row, 0));
        sqlite3_reset(row);
    }
}

static void posted(void) {
    sqlite3_stmt *row = prepared("SELECT part, qty FROM ord ORDER BY rowid");
    sqlite3_stmt *found = prepared("SELECT rowid, onhand FROM stock WHERE part = ?1");
    sqlite3_stmt *put = prepared("UPDATE stock SET onhand = ?1 WHERE rowid = ?2");
    while (sqlite3_step(row) == SQLITE_ROW) {
        sqlite3_bind_text(found, 1, text_of(row, 0), -1, SQLITE_TRANSIENT);
        check(sqlite3_step(found), SQLITE_ROW);
        sqlite3_bind_int64(put, 1, sqlite3_column_int64(found, 1) - sqlite3_column_int64(row, 1));
        sqlite3_bind_int64(put, 2, sqlite3_column_int64(found, 0));
        sqlite3_reset(found);
        check(sqlite3_step(put), SQLITE_DONE);
        sqlite3_reset(put);
    }
    sqlite3_stmt *sum = prepared("SELECT sum(onhand) FROM stock");
    check(sqlite3_step(sum), SQLITE_ROW);
    printf("%lld\n", sqlite3_column_int64(sum, 0));
}

static void appended(const char *table) {
    char text[128], code[8], part[8];
    snprintf(text, sizeof text, "INSERT INTO %s VALUES (?1, ?2, ?3, ?4, ?5, ?6)", table);
    sqlite3_stmt *put = prepared(text);
    for (int i = 1; i <= 50000; i++) {
        snprintf(code, sizeof code, "%4d", i * 7919 % 1000);
        snprintf(part, sizeof part, "%6d", (int)((long long)i * 7919 % 100003));
        sqlite3_bind_int(put, 1, i);
        sqlite3_bind_text(put, 2, code, -1, SQLITE_TRANSIENT);
        sqlite3_bind_text(put, 3, part, -1, SQLITE_TRANSIENT);
        sqlite3_bind_int(put, 4, i % 90);
        sqlite3_bind_text(put, 5, "19850115", -1, SQLITE_STATIC);
        sqlite3_bind_int(put, 6, 1);
        check(sqlite3_step(put), SQLITE_DONE);
        sqlite3_reset(put);
    }
}

static void reported(void) {
    sqlite3_stmt *row = prepared("SELECT code, qty FROM keyed ORDER BY code, part");
    char last[8] = "";
    long long sum = 0;
    while (sqlite3_step(row) == SQLITE_ROW) {
        if (strcmp(text_of(row, 0), last) != 0) {
            printf("%s %lld\n", last, sum);
            snprintf(last, sizeof last, "%s", text_of(row, 0));
            sum = 0;
        }
        sum += sqlite3_column_int64(row, 1);
    }
    printf("%s %lld\n", last, sum);
}

static void replaced(void) {
    sqlite3_stmt *row = prepared("SELECT rowid, qty FROM ord ORDER BY rowid");
    sqlite3_stmt *put = prepared("UPDATE ord SET qty = ?1 WHERE rowid = ?2");
    while (sqlite3_step(row) == SQLITE_ROW) {
        sqlite3_bind_int64(put, 1, sqlite3_column_int64(row, 1) + 1);
        sqlite3_bind_int64(put, 2, sqlite3_column_int64(row, 0));
        check(sqlite3_step(put), SQLITE_DONE);
        sqlite3_reset(put);
    }
}

static void rekeyed(void) {
    sqlite3_stmt *put = prepared("UPDATE keyed SET code = substr(part, 3, 4) WHERE rowid = ?1");
    for (int i = 1; i <= 100000; i++) {
        sqlite3_bind_int(put, 1, i);
        check(sqlite3_step(put), SQLITE_DONE);
        sqlite3_reset(put);
    }
}

int main(int count, char **words) {
    if (count != 3) return 9;
    check(sqlite3_open(words[2], &base), SQLITE_OK);
    run("PRAGMA journal_mode = OFF; BEGIN");
    const char *work = words[1];
    if (strcmp(work, "scan") == 0) scan();
    else if (strcmp(work, "shown") == 0) shown();
    else if (strcmp(work, "skipped") == 0) skipped();
    else if (strcmp(work, "posted") == 0) posted();
    else if (strcmp(work, "appended0") == 0) appended("new0");
    else if (strcmp(work, "appended1") == 0) appended("new1");
    else if (strcmp(work, "appended7") == 0) appended("new7");
    else if (strcmp(work, "reported") == 0) reported();
    else if (strcmp(work, "replaced") == 0) replaced();
    else if (strcmp(work, "rekeyed") == 0) rekeyed();
    else if (strcmp(work, "packed") == 0) run("DELETE FROM marked WHERE mark = 1");
    else if (strcmp(work, "indexed") == 0) run("CREATE INDEX made ON ord (code, part)");
    else return 9;
    run("COMMIT");
    check(sqlite3_close_v2(base), SQLITE_OK);
    return 0;
}
