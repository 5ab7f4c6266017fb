/* The rows of the desk's commands through the real SQLite library: the same statements (each
   prepared once), one transaction a command, in WAL mode with full sync, in a file that compare.py
   has filled for the desk too. Prints for each command a line

       NAME NANOSECONDS

   the median of all its calls, under the name that compare.py gives to the desk's requests. The
   commands come in the order of compare.py's list, since later ones write over earlier rows.

   With `raise` it makes the tables of the first edition those of the second instead, as `farm migrate`
   does: all jobs are read, and written with their new codes in one transaction, which it times.

   Under callgrind the instructions of the last 64 calls of each command, or of its one call, are dumped under
   its name.

   usage: peer FILE TURNS     FILE has 64 waiting reservations, numbered from 1 on
          peer FILE raise     FILE is of the first edition */
#define _GNU_SOURCE
#include <sqlite3.h>
#include <stdio.h>
#include <stdlib.h>
#include <string.h>
#include <time.h>
#if __has_include(<valgrind/callgrind.h>)
#include <valgrind/callgrind.h>
#else
#define CALLGRIND_ZERO_STATS
#define CALLGRIND_DUMP_STATS_AT(name)
#endif

enum { BOARDS = 64, BODY = 300 };
enum { SUBMITTED = 0, SCHEDULED = 2, RUNNING = 3, FINISHED = 5 }; /* a job's states */

static const char *TAGS = "k01,k02,k03,k04,k05,k06,k07,k16";

static sqlite3 *db;
static sqlite3_stmt *put_board, *put_job, *put_reservation, *put_kept, *put_meta, *change_meta, *begin, *commit;
static long next_number, count;
static char body[BODY + 1];

static void die(const char *what) {
    fprintf(stderr, "%s: %s\n", what, sqlite3_errmsg(db));
    exit(1);
}

static double now(void) {
    struct timespec t;
    clock_gettime(CLOCK_MONOTONIC, &t);
    return t.tv_sec * 1e9 + t.tv_nsec;
}

static sqlite3_stmt *prepare(const char *sql) {
    sqlite3_stmt *made;
    if (sqlite3_prepare_v3(db, sql, -1, SQLITE_PREPARE_PERSISTENT, &made, 0) != SQLITE_OK) die(sql);
    return made;
}

static void run(sqlite3_stmt *it) {
    int result = sqlite3_step(it);
    if (result != SQLITE_DONE && result != SQLITE_ROW) die("step");
    sqlite3_reset(it);
}

static void number(sqlite3_stmt *it, int at, long value) { sqlite3_bind_int64(it, at, value); }
static void text(sqlite3_stmt *it, int at, const char *value) { sqlite3_bind_text(it, at, value, -1, SQLITE_TRANSIENT); }

static void name_board(char *name, size_t size, int place) { snprintf(name, size, "extra-%04d", place); }

static void board(int place, int health, int state, long held_by, int jobs_since) {
    char name[24];
    name_board(name, sizeof name, place);
    text(put_board, 1, name);
    text(put_board, 2, "bbb");
    text(put_board, 3, TAGS);
    number(put_board, 4, health);
    number(put_board, 5, state);
    number(put_board, 6, held_by ? 1 : 0);
    number(put_board, 7, held_by);
    number(put_board, 8, jobs_since);
    number(put_board, 9, 0);
    run(put_board);
}

/* A job; without a place it has no board. */
static void job(long it, int state, int outcome, int place) {
    char name[24] = "";
    if (place >= 0) name_board(name, sizeof name, place);
    number(put_job, 1, it);
    number(put_job, 2, it);
    number(put_job, 3, 0);
    text(put_job, 4, "ann");
    number(put_job, 5, 50);
    text(put_job, 6, "bbb");
    text(put_job, 7, "k01,k07");
    text(put_job, 8, "");
    number(put_job, 9, state);
    number(put_job, 10, outcome);
    text(put_job, 11, name);
    text(put_job, 12, body);
    run(put_job);
}

static void reservation(long it, int state) {
    number(put_reservation, 1, it);
    text(put_reservation, 2, "ann");
    number(put_reservation, 3, 50);
    text(put_reservation, 4, "k01,k07");
    number(put_reservation, 5, state);
    number(put_reservation, 6, 1700000060);
    text(put_reservation, 7, "");
    run(put_reservation);
}

static void kept(long it) {
    char key[24];
    snprintf(key, sizeof key, "key-%08ld", it);
    text(put_kept, 1, "ann");
    text(put_kept, 2, key);
    number(put_kept, 3, 5);
    number(put_kept, 4, it);
    number(put_kept, 5, 0);
    number(put_kept, 6, 0);
    run(put_kept);
}

static void meta(const char *name, long value) {
    text(put_meta, 1, name);
    number(put_meta, 2, value);
    run(put_meta);
}

/* The four numbers, of which each command writes those that changed. */
static void numbers(void) {
    number(change_meta, 1, 1700000000);
    number(change_meta, 2, 0);
    number(change_meta, 3, ++count);
    number(change_meta, 4, next_number);
    run(change_meta);
}

/* The rows of each command, by the number of the first row and the place of the board. */
static void add_board(long first, int place) { (void)first; board(place, 3, 0, 0, 0); }
static void make_good(long first, int place) { (void)first; board(place, 0, 0, 0, 0); }
static void start(long first, int place) { board(place, 0, 2, first + place, 0); job(first + place, RUNNING, 0, place); }
static void finish(long first, int place) { board(place, 0, 0, 0, 1); job(first + place, FINISHED, 1, place); }
static void reserve(long first, int place) { (void)first, (void)place; reservation(next_number++, 0); }
static void reserve_keyed(long first, int place) { reserve(first, place); kept(next_number - 1); }
static void cancel(long first, int place) { reservation(first + place, 4); }

static void submit(long first, int place) {
    (void)first, (void)place;
    long it = next_number++;
    job(it, SUBMITTED, 0, -1);
    kept(it);
}

/* 64 reservations that wait end. */
static void pass_that_ends(long first, int place) {
    (void)place;
    for (int i = 0; i < BOARDS; i++) reservation(first + i, 3);
}

/* 64 jobs get their boards. */
static void pass_that_serves(long first, int place) {
    (void)place;
    for (int i = 0; i < BOARDS; i++) board(i, 0, 1, first + i, 0);
    for (int i = 0; i < BOARDS; i++) job(first + i, SCHEDULED, 0, i);
}

enum { MOST = 4096 };
struct series { const char *name; void (*rows)(long, int); int n; double took[MOST]; };

static struct series commands[] = {
    {.name = "add_board", .rows = add_board}, {.name = "pass_ends_64", .rows = pass_that_ends},
    {.name = "submit_keyed", .rows = submit}, {.name = "pass_serves_64", .rows = pass_that_serves},
    {.name = "start", .rows = start},         {.name = "finish", .rows = finish},
    {.name = "reserve", .rows = reserve},     {.name = "reserve_keyed", .rows = reserve_keyed}};
enum { ADD_BOARD, PASS_ENDS, SUBMIT, PASS_SERVES, START, FINISH, RESERVE, RESERVE_KEYED, COMMANDS };

/* A command is one transaction. */
static void transact(void (*rows)(long, int), long first, int place) {
    run(begin);
    rows(first, place);
    numbers();
    run(commit);
}

/* A command so many times, on rows from `first` on. */
static void take(int which, long first, int times) {
    struct series *it = &commands[which];
    CALLGRIND_ZERO_STATS;
    for (int i = 0; i < times; i++) {
        double since = now();
        transact(it->rows, first, i);
        if (it->n < MOST) it->took[it->n++] = now() - since;
    }
    CALLGRIND_DUMP_STATS_AT(it->name);
}

static void leave(void (*rows)(long, int), long first, int times) {
    for (int i = 0; i < times; i++) transact(rows, first, i);
}

static long number_of(const char *sql) {
    sqlite3_stmt *it = prepare(sql);
    if (sqlite3_step(it) != SQLITE_ROW) die(sql);
    long value = sqlite3_column_int64(it, 0);
    sqlite3_finalize(it);
    return value;
}

static void open_store(const char *path) {
    if (sqlite3_open_v2(path, &db, SQLITE_OPEN_READWRITE, 0) != SQLITE_OK) die("open");
    if (sqlite3_exec(db, "PRAGMA locking_mode=EXCLUSIVE; PRAGMA journal_mode=WAL; PRAGMA synchronous=FULL;", 0, 0, 0) != SQLITE_OK) die("pragmas");
    put_board = prepare("INSERT INTO boards VALUES (?1, ?2, ?3, ?4, ?5, ?6, ?7, ?8, ?9)"
                        " ON CONFLICT (name) DO UPDATE SET kind = excluded.kind, tags = excluded.tags,"
                        " health = excluded.health, state = excluded.state, holder = excluded.holder,"
                        " held_by = excluded.held_by, jobs_since = excluded.jobs_since, last_check = excluded.last_check");
    put_job = prepare("INSERT OR REPLACE INTO jobs VALUES (?1, ?2, ?3, ?4, ?5, ?6, ?7, ?8, ?9, ?10, ?11, ?12)");
    put_reservation = prepare("INSERT OR REPLACE INTO reservations VALUES (?1, ?2, ?3, ?4, ?5, ?6, ?7)");
    put_kept = prepare("INSERT OR REPLACE INTO kept VALUES (?1, ?2, ?3, ?4, ?5, ?6)");
    put_meta = prepare("INSERT INTO meta VALUES (?1, ?2) ON CONFLICT (name) DO UPDATE SET value = excluded.value");
    change_meta = prepare("UPDATE meta SET value = CASE name WHEN 'clock' THEN ?1 WHEN 'collector' THEN ?2"
                          " WHEN 'count' THEN ?3 ELSE ?4 END WHERE value <> CASE name WHEN 'clock' THEN ?1"
                          " WHEN 'collector' THEN ?2 WHEN 'count' THEN ?3 WHEN 'next' THEN ?4 ELSE value END");
    begin = prepare("BEGIN IMMEDIATE");
    commit = prepare("COMMIT");
    next_number = number_of("SELECT value FROM meta WHERE name = 'next'");
    count = number_of("SELECT value FROM meta WHERE name = 'count'");
}

/* A job's row as it is read: its numbers, and its texts one behind the other. */
enum { NUMBERS = 6, TEXTS = 6 };
static const int number_columns[NUMBERS] = {0, 1, 2, 4, 8, 9};
static const int text_columns[TEXTS] = {3, 5, 6, 7, 10, 11};
enum { STATE = 4 }; /* its place among the numbers */
struct row { long numbers[NUMBERS]; int lengths[TEXTS]; char *texts; };

static struct row read_row(sqlite3_stmt *it) {
    struct row row;
    size_t length = 0;
    for (int i = 0; i < NUMBERS; i++) row.numbers[i] = sqlite3_column_int64(it, number_columns[i]);
    for (int i = 0; i < TEXTS; i++) length += row.lengths[i] = sqlite3_column_bytes(it, text_columns[i]);
    char *at = row.texts = malloc(length);
    if (!at) die("malloc");
    for (int i = 0; i < TEXTS; at += row.lengths[i++]) memcpy(at, sqlite3_column_text(it, text_columns[i]), row.lengths[i]);
    return row;
}

static void write_row(const struct row *row) {
    const char *at = row->texts;
    for (int i = 0; i < NUMBERS; i++) number(put_job, number_columns[i] + 1, row->numbers[i]);
    for (int i = 0; i < TEXTS; at += row->lengths[i++])
        sqlite3_bind_text(put_job, text_columns[i] + 1, at, row->lengths[i], SQLITE_STATIC);
    run(put_job);
}

/* All jobs with their new codes, the collector and the version, in one transaction. */
static void raise_all(void) {
    long many = number_of("SELECT count(*) FROM jobs"), n = 0;
    struct row *rows = malloc((many + 1) * sizeof *rows);
    sqlite3_stmt *all = prepare("SELECT * FROM jobs ORDER BY number");
    while (n < many && sqlite3_step(all) == SQLITE_ROW) rows[n++] = read_row(all);
    sqlite3_finalize(all);
    double since = now();
    run(begin);
    for (long i = 0; i < n; i++) {
        rows[i].numbers[STATE] += rows[i].numbers[STATE] > 0;
        write_row(&rows[i]);
    }
    meta("collector", 0);
    meta("schema", 2);
    run(commit);
    printf("raise %.0f\n", now() - since);
}

static int by_size(const void *a, const void *b) {
    double x = *(const double *)a, y = *(const double *)b;
    return (x > y) - (x < y);
}

int main(int words, char **word) {
    if (words != 3) {
        fprintf(stderr, "usage: peer FILE TURNS|raise\n");
        return 2;
    }
    memset(body, 'x', BODY);
    open_store(word[1]);
    if (strcmp(word[2], "raise") == 0) {
        raise_all();
        return 0;
    }
    take(ADD_BOARD, 0, BOARDS);
    leave(make_good, 0, BOARDS);
    take(PASS_ENDS, 1, 1);
    for (int turn = atoi(word[2]); turn > 0; turn--) {
        long first = next_number;
        take(SUBMIT, first, BOARDS);
        take(PASS_SERVES, first, 1);
        take(START, first, BOARDS);
        take(FINISH, first, BOARDS);
        first = next_number;
        take(RESERVE, first, BOARDS);
        leave(cancel, first, BOARDS);
        first = next_number;
        take(RESERVE_KEYED, first, BOARDS);
        leave(cancel, first, BOARDS);
    }
    for (struct series *it = commands; it < commands + COMMANDS; it++) {
        qsort(it->took, it->n, sizeof *it->took, by_size);
        printf("%s %.0f\n", it->name, it->took[it->n / 2]);
    }
    return 0;
}
