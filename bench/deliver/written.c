/* Writes the edits of standard input, as `noted` prints them, to a new SQLite file: a transaction for each `commit`,
   statements prepared once, the write-ahead log, each commit synced. Prints the seconds from the first to the last. */
#include <sqlite3.h>
#include <stdio.h>
#include <stdlib.h>
#include <string.h>
#include <time.h>

static sqlite3 *db;

static void die(const char *what)
{
    fprintf(stderr, "%s: %s\n", what, sqlite3_errmsg(db));
    exit(1);
}

static void run(const char *sql)
{
    if (sqlite3_exec(db, sql, NULL, NULL, NULL) != SQLITE_OK)
        die(sql);
}

static sqlite3_stmt *prepared(const char *sql)
{
    sqlite3_stmt *statement;
    if (sqlite3_prepare_v2(db, sql, -1, &statement, NULL) != SQLITE_OK)
        die(sql);
    return statement;
}

static void done(sqlite3_stmt *statement)
{
    if (sqlite3_step(statement) != SQLITE_DONE)
        die("step");
    sqlite3_reset(statement);
}

static void number(sqlite3_stmt *s, int at, const char *text)
{
    sqlite3_bind_int64(s, at, strtoll(text, NULL, 10));
}

/* A number, or NULL for 0. */
static void number_or_null(sqlite3_stmt *s, int at, const char *text)
{
    if (strcmp(text, "0") == 0)
        sqlite3_bind_null(s, at);
    else
        number(s, at, text);
}

static void word(sqlite3_stmt *s, int at, const char *text)
{
    sqlite3_bind_text(s, at, text, -1, SQLITE_STATIC);
}

static void id(sqlite3_stmt *s, int at, const char *hex)
{
    unsigned char bytes[16];
    for (int i = 0; i < 16; i++)
        sscanf(hex + 2 * i, "%2hhx", &bytes[i]);
    sqlite3_bind_blob(s, at, bytes, 16, SQLITE_TRANSIENT);
}

static sqlite3_stmt *put_change, *drop_needs, *put_need, *put_item, *drop_item, *drop_jobs, *drop_fast, *put_job,
    *put_fast, *put_landing, *put_report, *put_build, *set_outcome, *stop_build, *set_window, *set_counter, *keep;

static void prepare_all(void)
{
    put_change = prepared("INSERT OR REPLACE INTO change (num, project, revision, state, approval) VALUES (?,?,?,?,?)");
    drop_needs = prepared("DELETE FROM need WHERE change = ?");
    put_need = prepared("INSERT INTO need (change, place, needed) VALUES (?,?,?)");
    put_item = prepared("INSERT OR REPLACE INTO item (serial, queue, change, revision, ahead, failing) VALUES (?,?,?,?,?,?)");
    drop_item = prepared("DELETE FROM item WHERE serial = ?");
    drop_jobs = prepared("DELETE FROM item_job WHERE serial = ?");
    drop_fast = prepared("DELETE FROM item_fast WHERE serial = ?");
    put_job = prepared("INSERT INTO item_job (serial, place, name, voting) VALUES (?,?,?,?)");
    put_fast = prepared("INSERT INTO item_fast (serial) VALUES (?)");
    put_landing = prepared("INSERT INTO landing (queue, n, serial, change, revision) VALUES (?,?,?,?,?)");
    put_report = prepared("INSERT INTO report (queue, place, serial, change, revision, verdict, n) VALUES (?,?,?,?,?,?,?)");
    put_build = prepared("INSERT INTO build (num, queue, serial, change, revision, job, base, ahead, outcome, live)"
                         " VALUES (?,?,?,?,?,?,?,?,?,?)");
    set_outcome = prepared("UPDATE build SET outcome = ? WHERE num = ?");
    stop_build = prepared("UPDATE build SET live = 0 WHERE num = ?");
    set_window = prepared("UPDATE queue SET win = ? WHERE name = ?");
    set_counter = prepared("UPDATE counter SET drawn = ? WHERE name = ?");
    keep = prepared("INSERT INTO delivery (id, said, reply) VALUES (?,?,?)");
}

static void change(char **f)
{
    number(put_change, 1, f[1]), word(put_change, 2, f[2]), number(put_change, 3, f[3]), word(put_change, 4, f[4]);
    number_or_null(put_change, 5, f[5]);
    done(put_change);
    number(drop_needs, 1, f[1]);
    done(drop_needs);
    int place = 0;
    for (char *need = strtok(f[6], ","); need; need = strtok(NULL, ",")) {
        number(put_need, 1, f[1]), sqlite3_bind_int(put_need, 2, place++), number(put_need, 3, need);
        done(put_need);
    }
}

static void drop(const char *serial)
{
    sqlite3_stmt *statements[] = {drop_item, drop_jobs, drop_fast};
    for (int i = 0; i < 3; i++) {
        number(statements[i], 1, serial);
        done(statements[i]);
    }
}

static void plan(char **f)
{
    int place = 0;
    for (char *job = strtok(f[3], ","); job; job = strtok(NULL, ",")) {
        char *vote = strchr(job, ':');
        *vote = 0;
        number(put_job, 1, f[1]), sqlite3_bind_int(put_job, 2, place++), word(put_job, 3, job);
        number(put_job, 4, vote + 1);
        done(put_job);
    }
    if (strcmp(f[2], "1") == 0) {
        number(put_fast, 1, f[1]);
        done(put_fast);
    }
}

static void edit(char **f)
{
    if (strcmp(f[0], "change") == 0) {
        change(f);
    } else if (strcmp(f[0], "item") == 0) {
        number(put_item, 1, f[1]), word(put_item, 2, f[2]), number(put_item, 3, f[3]), number(put_item, 4, f[4]);
        number_or_null(put_item, 5, f[5]), number(put_item, 6, f[6]);
        done(put_item);
    } else if (strcmp(f[0], "drop") == 0) {
        drop(f[1]);
    } else if (strcmp(f[0], "plan") == 0) {
        plan(f);
    } else if (strcmp(f[0], "landing") == 0) {
        word(put_landing, 1, f[1]);
        for (int i = 2; i <= 5; i++)
            number(put_landing, i, f[i]);
        done(put_landing);
    } else if (strcmp(f[0], "report") == 0) {
        word(put_report, 1, f[1]);
        for (int i = 2; i <= 5; i++)
            number(put_report, i, f[i]);
        word(put_report, 6, f[6]), number_or_null(put_report, 7, f[7]);
        done(put_report);
    } else if (strcmp(f[0], "build") == 0) {
        number(put_build, 1, f[1]), word(put_build, 2, f[2]), number(put_build, 3, f[3]), number(put_build, 4, f[4]);
        number(put_build, 5, f[5]), word(put_build, 6, f[6]), number(put_build, 7, f[7]), word(put_build, 8, f[8]);
        word(put_build, 9, f[9]), number(put_build, 10, f[10]);
        done(put_build);
    } else if (strcmp(f[0], "outcome") == 0) {
        word(set_outcome, 1, f[2]), number(set_outcome, 2, f[1]);
        done(set_outcome);
    } else if (strcmp(f[0], "stop") == 0) {
        number(stop_build, 1, f[1]);
        done(stop_build);
    } else if (strcmp(f[0], "window") == 0) {
        number(set_window, 1, f[2]), word(set_window, 2, f[1]);
        done(set_window);
    } else if (strcmp(f[0], "counter") == 0) {
        number(set_counter, 1, f[2]), word(set_counter, 2, f[1]);
        done(set_counter);
    } else if (strcmp(f[0], "keep") == 0) {
        id(keep, 1, f[1]), word(keep, 2, f[2]), word(keep, 3, f[3]);
        done(keep);
    }
}

static double now(void)
{
    struct timespec t;
    clock_gettime(CLOCK_MONOTONIC, &t);
    return t.tv_sec + t.tv_nsec / 1e9;
}

int main(int count, char **words)
{
    static char line[1 << 20];
    char *fields[16];
    if (count != 2 || sqlite3_open(words[1], &db) != SQLITE_OK)
        die("open");
    run("PRAGMA journal_mode = WAL");
    run("PRAGMA synchronous = FULL");
    prepare_all();
    int commits = 0, in_transaction = 0;
    double start = now();
    while (fgets(line, sizeof line, stdin)) {
        line[strcspn(line, "\n")] = 0;
        int n = 0;
        for (char *rest = line; rest && n < 16; n++)
            fields[n] = strsep(&rest, "\t");
        if (!in_transaction) {
            run("BEGIN IMMEDIATE");
            in_transaction = 1;
        }
        if (strcmp(fields[0], "commit") == 0) {
            run("COMMIT");
            in_transaction = 0;
            commits++;
        } else {
            edit(fields);
        }
    }
    printf("%d %.6f\n", commits, now() - start);
    return 0;
}
