/* Plays document 01's diary session up to time 150 through gukoremo.h, and prints the files at snapshot 5: a header line, then the path of each data file, a
 * comma, and the path of its delete file or nothing. */
#include "gukoremo.h"

#include <inttypes.h>
#include <stdio.h>
#include <stdlib.h>

/* What the session needs, and no more: six snapshots, a schema, a table of two columns, two data files, two delete files. */
static uint64_t snapshots[6 * GUKOREMO_SNAPSHOT_SIZE], schemas[GUKOREMO_SCHEMA_SIZE], tables[GUKOREMO_TABLE_SIZE], columns[2 * GUKOREMO_COLUMN_SIZE],
    data_files[2 * GUKOREMO_DATA_FILE_SIZE], delete_files[2 * GUKOREMO_DELETE_FILE_SIZE], positions[3], statistics[4 * GUKOREMO_STATISTICS_SIZE];
static uint8_t schema_names[GUKOREMO_NAME_SIZE], table_names[GUKOREMO_NAME_SIZE], column_names[2 * GUKOREMO_NAME_SIZE];

#define LENGTH(run) (sizeof(run) / sizeof((run)[0]))
#define RUN(run) {run, LENGTH(run)}
static const gukoremo_tables lent = {RUN(snapshots), RUN(schemas), RUN(schema_names), RUN(tables), RUN(table_names), RUN(columns), RUN(column_names),
    RUN(data_files), RUN(delete_files), RUN(positions), RUN(statistics), {NULL, 0}};

static gukoremo_counts counts;

/* A call that has to be accepted; the counts that it hands back go to the next one. */
static gukoremo_outcome accept(const char *what, gukoremo_outcome given)
{
    if (given.number != GUKOREMO_ACCEPTED) {
        fprintf(stderr, "%s: refused with %" PRIu64 ", %s\n", what, given.number, gukoremo_sentence(given.number));
        exit(1);
    }
    counts = given.counts;
    return given;
}

/* A list of so many calls and readings that have to be accepted, by what was told of them. */
static void accept_all(const char *what, size_t count, gukoremo_session given, const uint64_t *told)
{
    size_t i;
    if (given.played != count) {
        fprintf(stderr, "%s: not played\n", what);
        exit(1);
    }
    for (i = 0; i < given.played; i++, told += GUKOREMO_TOLD_SIZE) {
        const gukoremo_outcome outcome = {told[0], told[1], told[2], given.counts};
        accept(what, outcome);
    }
}

static gukoremo_uuid uuid(uint64_t low)
{
    gukoremo_uuid u = {0, low};
    return u;
}

/* "A path is `ducklake-{uuid}.parquet`, UUID in lower-case hexadecimal (8-4-4-4-12)", of a data file or a delete file. */
static void print_path(gukoremo_file_id id, int kind)
{
    const gukoremo_file file = gukoremo_find_file(&lent, counts, id);
    const int is_data_file = file.kind == GUKOREMO_DATA_FILE;
    const uint64_t high = file.record[is_data_file ? GUKOREMO_DATA_FILE_UUID_HIGH : GUKOREMO_DELETE_FILE_UUID_HIGH];
    const uint64_t low = file.record[is_data_file ? GUKOREMO_DATA_FILE_UUID_LOW : GUKOREMO_DELETE_FILE_UUID_LOW];
    accept("file lookup", file.outcome);
    if (file.kind != kind) {
        fprintf(stderr, "file lookup: a file of the other kind\n");
        exit(1);
    }
    printf("ducklake-%08" PRIx64 "-%04" PRIx64 "-%04" PRIx64 "-%04" PRIx64 "-%012" PRIx64 ".parquet", high >> 32, high >> 16 & 0xffff, high & 0xffff,
        low >> 48, low & UINT64_C(0xffffffffffff));
}

/* a word of the call i in a list, by its name */
#define CALL(i, word) [(i) * GUKOREMO_CALL_SIZE + GUKOREMO_CALL_##word]

static void play(void)
{
    static const uint64_t types[] = {GUKOREMO_INT64, 0, GUKOREMO_INT64, 1};
    static const char names[2][GUKOREMO_NAME_SIZE] = {"item", "price"};
    static const uint64_t three[] = {1, 0, 1, 1, 1, 3, 2, 0, 1, 1, 9, 14}, first[] = {0};
    /* an insert into table 1, its rows at snapshot 3, and a delete from data file 0 as a list of calls; words that are not named are 0 */
    static const uint64_t calls[3 * GUKOREMO_CALL_SIZE] = {
        CALL(0, KIND) = GUKOREMO_INSERTED_INTO_TABLE, CALL(0, TIME) = 130, CALL(0, CATALOG) = 1, CALL(0, RECORD_COUNT) = 2, CALL(0, UUID_LOW) = 2,
        CALL(0, WORDS_START) = 0, CALL(0, WORDS_LENGTH) = 12,
        CALL(1, KIND) = GUKOREMO_LISTED_ROWS, CALL(1, SNAPSHOT) = 3, CALL(1, CATALOG) = 1,
        CALL(2, KIND) = GUKOREMO_DELETED_FROM_TABLE, CALL(2, TIME) = 140, CALL(2, FILE) = 0, CALL(2, UUID_LOW) = 3,
        CALL(2, WORDS_START) = 12, CALL(2, WORDS_LENGTH) = 1};
    static const uint64_t lists[] = {1, 0, 1, 1, 4, 5, 2, 1, 1, 1, 20, 20, 1};
    const gukoremo_catalog_id main_schema = {0}, diary = {1};
    const gukoremo_file_id file = {0};
    uint64_t rows[5], told[3 * GUKOREMO_TOLD_SIZE];
    gukoremo_session given;

    accept("Fresh", gukoremo_fresh(&lent, counts, 100));
    accept("create table", gukoremo_create_table(&lent, counts, 110, main_schema, "diary", 5, types, LENGTH(types), (const char *)names, sizeof names));
    accept("insert", gukoremo_insert(&lent, counts, 120, diary, 3, uuid(1), three, LENGTH(three)));
    given = gukoremo_play(&lent, counts, calls, LENGTH(calls), lists, LENGTH(lists), NULL, 0, rows, LENGTH(rows), told, LENGTH(told));
    accept_all("insert, rows, delete", 3, given, told);
    if (given.answered != LENGTH(rows) || rows[4] != 4) {
        fprintf(stderr, "rows: not 0 to 4\n");
        exit(1);
    }
    accept("delete", gukoremo_delete(&lent, counts, 150, file, uuid(4), first, LENGTH(first)));
}

int main(void)
{
    const gukoremo_snapshot_id latest = {5};
    const gukoremo_catalog_id diary = {1};
    uint64_t listed[2 * GUKOREMO_LISTED_SIZE];
    size_t i, length;

    play();
    length = accept("files", gukoremo_list_files(&lent, counts, latest, diary, listed, LENGTH(listed))).length;
    puts("data_file,delete_file");
    for (i = 0; i < length; i += GUKOREMO_LISTED_SIZE) {
        const gukoremo_file_id data_file = {listed[i]}, delete_file = {listed[i + 1]};
        print_path(data_file, GUKOREMO_DATA_FILE);
        putchar(',');
        if (delete_file.number != GUKOREMO_ABSENT) {
            print_path(delete_file, GUKOREMO_DELETE_FILE);
        }
        putchar('\n');
    }
    return fflush(stdout) == 0 ? 0 : 1;
}
