/* A DuckLake 0.3 snapshot catalogue on lent tables: the compiled calls, for C99 and C++ on x86-64 Linux.
 *
 * The catalogue lies in twelve runs that the caller lends for the time of a call: nine of 64-bit words, three of name bytes. The library keeps
 * nothing between calls, allocates nothing, and neither reads nor writes anything else. Beside the runs goes the catalogue record, the used counts,
 * by value: each call takes the one that the call before handed back.
 *
 *   - A call takes any content of the runs and any argument, and ends. Tables that are not sound it refuses, with GUKOREMO_NOT_SOUND.
 *   - A refused call writes nothing at all. An accepted one writes what is said at it; of what it frees every word becomes 0; all else stays.
 *   - While a call runs nobody else writes what it was lent, and nobody else reads what it may write.
 *   - A call that changes tables: no run overlaps another, nor an argument, nor the answer area. A reading: the answer area overlaps nothing;
 *     runs and arguments may overlap each other.
 *   - A run of words begins at a multiple of 8 bytes. Lengths are in words, and for names in bytes. A run of length 0 may have a null pointer.
 *   - A run may be longer than whole records need, and longer than the limits below: the rest is not used.
 *   - A call takes less than 1 MiB of the stack, most of it for the check of the tables (622 KiB measured at the limits, in a list).
 *
 * What each call does is `Promise` in crates/ducklake/specs/Calls.antt, of a list of calls `SessionPromise` in crates/call_lists/specs/Playing.antt, and of the
 * last `first_unsound` in Soundness.antt beside the first. Words in quotes are those of document 01.
 */
#ifndef GUKOREMO_H
#define GUKOREMO_H

#include <stddef.h>
#include <stdint.h>

/* as `gukoremo --version` and pkg-config give it */
#define GUKOREMO_VERSION "0.1.0"

#ifdef __cplusplus
extern "C" {
#endif

/* A count is a word: else the declarations below are not those of the library, and this array has no size. */
typedef char gukoremo_needs_64_bits[sizeof(size_t) == 8 ? 1 : -1];

/* Limits */

/* an end that is not set; in a file list, no delete file */
#define GUKOREMO_ABSENT UINT64_C(18446744073709551615)
/* "Ids, next ids, row numbers, column orders and schema versions are at most 2^62." */
#define GUKOREMO_NUMBER_LIMIT UINT64_C(4611686018427387904)
/* "Each table uses at most 4,096 records, positions at most 65,536." */
#define GUKOREMO_TABLE_LIMIT 4096
#define GUKOREMO_POSITION_LIMIT 65536
/* "record_count is 1 to 1,048,576." */
#define GUKOREMO_RECORD_COUNT_LIMIT 1048576
/* a table has 1 to so many live columns */
#define GUKOREMO_COLUMN_LIMIT 16
/* the bytes of a name's place: "1 to 32 ASCII letters, digits or underscores", then zero bytes */
#define GUKOREMO_NAME_SIZE 32

/* Records: the words of each, and the word of each field. "fields in this order" */

enum {
    GUKOREMO_SNAPSHOT_ID = 0,
    GUKOREMO_SNAPSHOT_TIME = 1, /* "microseconds since 1970, every word allowed" */
    GUKOREMO_SNAPSHOT_SCHEMA_VERSION = 2,
    GUKOREMO_SNAPSHOT_NEXT_CATALOG_ID = 3,
    GUKOREMO_SNAPSHOT_NEXT_FILE_ID = 4,
    GUKOREMO_SNAPSHOT_KIND = 5,
    GUKOREMO_SNAPSHOT_OBJECT = 6,
    GUKOREMO_SNAPSHOT_SIZE = 7
};

/* beside a name */
enum {
    GUKOREMO_SCHEMA_ID = 0,
    GUKOREMO_SCHEMA_BEGIN = 1,
    GUKOREMO_SCHEMA_END = 2,
    GUKOREMO_SCHEMA_SIZE = 3
};

/* beside a name */
enum {
    GUKOREMO_TABLE_ID = 0,
    GUKOREMO_TABLE_BEGIN = 1,
    GUKOREMO_TABLE_END = 2,
    GUKOREMO_TABLE_SCHEMA = 3,
    GUKOREMO_TABLE_NEXT_ROW_ID = 4,
    GUKOREMO_TABLE_SIZE = 5
};

/* beside a name */
enum {
    GUKOREMO_COLUMN_ID = 0,
    GUKOREMO_COLUMN_TABLE = 1,
    GUKOREMO_COLUMN_BEGIN = 2,
    GUKOREMO_COLUMN_END = 3,
    GUKOREMO_COLUMN_ORDER = 4,
    GUKOREMO_COLUMN_TYPE_CODE = 5,
    GUKOREMO_COLUMN_NULLS_ALLOWED = 6, /* 0 or 1 */
    GUKOREMO_COLUMN_SIZE = 7
};

enum {
    GUKOREMO_DATA_FILE_ID = 0,
    GUKOREMO_DATA_FILE_TABLE = 1,
    GUKOREMO_DATA_FILE_BEGIN = 2,
    GUKOREMO_DATA_FILE_END = 3,
    GUKOREMO_DATA_FILE_RECORD_COUNT = 4,
    GUKOREMO_DATA_FILE_ROW_ID_START = 5,
    GUKOREMO_DATA_FILE_UUID_HIGH = 6,
    GUKOREMO_DATA_FILE_UUID_LOW = 7,
    GUKOREMO_DATA_FILE_SIZE = 8
};

enum {
    GUKOREMO_DELETE_FILE_ID = 0,
    GUKOREMO_DELETE_FILE_TABLE = 1,
    GUKOREMO_DELETE_FILE_BEGIN = 2,
    GUKOREMO_DELETE_FILE_END = 3,
    GUKOREMO_DELETE_FILE_DATA_FILE = 4,
    GUKOREMO_DELETE_FILE_DELETE_COUNT = 5,
    GUKOREMO_DELETE_FILE_UUID_HIGH = 6,
    GUKOREMO_DELETE_FILE_UUID_LOW = 7,
    GUKOREMO_DELETE_FILE_SIZE = 8
};

/* bounds are "signed 64-bit (two's complement)", "0 where the flag is 0" */
enum {
    GUKOREMO_STATISTICS_DATA_FILE = 0,
    GUKOREMO_STATISTICS_COLUMN = 1,
    GUKOREMO_STATISTICS_NULL_COUNT = 2,
    GUKOREMO_STATISTICS_HAS_MIN = 3,
    GUKOREMO_STATISTICS_HAS_MAX = 4,
    GUKOREMO_STATISTICS_MIN = 5,
    GUKOREMO_STATISTICS_MAX = 6,
    GUKOREMO_STATISTICS_SIZE = 7
};

enum {
    GUKOREMO_SCHEDULED_FILE = 0,
    GUKOREMO_SCHEDULED_UUID_HIGH = 1,
    GUKOREMO_SCHEDULED_UUID_LOW = 2,
    GUKOREMO_SCHEDULED_SCHEDULE_START = 3,
    GUKOREMO_SCHEDULED_SIZE = 4
};

/* The words of a column, and of a column's statistics, in an argument that is a list; of a file that a cleanup hands out; of a listed file; of what is told of
   each in a list of calls */
enum {
    GUKOREMO_COLUMN_ARGUMENT_SIZE = 2,     /* type, nulls_allowed */
    GUKOREMO_STATISTICS_ARGUMENT_SIZE = 6, /* column id, null_count, has_min, has_max, min, max */
    GUKOREMO_HANDED_SIZE = 3,              /* id, UUID high, UUID low */
    GUKOREMO_LISTED_SIZE = 2,              /* data file, delete file or GUKOREMO_ABSENT */
    GUKOREMO_TOLD_SIZE = 3                 /* the outcome's number, place and length */
};

/* "change kinds" */
enum {
    GUKOREMO_CREATED_SCHEMA = 1,
    GUKOREMO_CREATED_TABLE = 2,
    GUKOREMO_INSERTED_INTO_TABLE = 3,
    GUKOREMO_DELETED_FROM_TABLE = 4,
    GUKOREMO_DROPPED_SCHEMA = 6,
    GUKOREMO_DROPPED_TABLE = 7
};

/* The kinds in a list of calls. A commit's is that of its change, above; maintenance and Fresh have kinds of their own, and so has each reading. */
enum {
    GUKOREMO_EXPIRED_SNAPSHOTS = 100,
    GUKOREMO_CLEANED_UP = 101,
    GUKOREMO_MADE_FRESH = 102, /* the first of its list alone */
    GUKOREMO_LISTED_SCHEMAS = 200,
    GUKOREMO_LISTED_TABLES = 201,
    GUKOREMO_LISTED_COLUMNS = 202,
    GUKOREMO_FOUND_TABLE_BY_NAME = 203,
    GUKOREMO_LISTED_FILES = 204,
    GUKOREMO_LISTED_FILTERED_FILES = 205,
    GUKOREMO_LISTED_ROWS = 206,
    GUKOREMO_FOUND_SNAPSHOT_BY_TIME = 207,
    GUKOREMO_FOUND_FILE = 208
};

/* A call or a reading in a list of calls; each reads the words that it takes. A start and a length are a span, of the words in lists or of the bytes in names.
   Every span has to lie within its run, one that is not taken too; (0, 0) always does. */
enum {
    GUKOREMO_CALL_KIND = 0,
    GUKOREMO_CALL_TIME = 1,         /* of a commit, an expiry or Fresh; the t of a cleanup or of a reading by time */
    GUKOREMO_CALL_SNAPSHOT = 2,     /* that a reading is at */
    GUKOREMO_CALL_CATALOG = 3,      /* the schema or the table */
    GUKOREMO_CALL_FILE = 4,         /* the data file of a delete, the file of a lookup */
    GUKOREMO_CALL_COLUMN = 5,       /* of a filter */
    GUKOREMO_CALL_SCALAR = 6,       /* of a filter: a signed number, by its word */
    GUKOREMO_CALL_RECORD_COUNT = 7, /* of an insert */
    GUKOREMO_CALL_UUID_HIGH = 8,    /* of an insert or a delete */
    GUKOREMO_CALL_UUID_LOW = 9,
    GUKOREMO_CALL_WORDS_START = 10, /* in lists: columns, statistics, positions or snapshot ids */
    GUKOREMO_CALL_WORDS_LENGTH = 11,
    GUKOREMO_CALL_NAME_START = 12, /* in names: the name of a new schema or table, or of one that is looked for */
    GUKOREMO_CALL_NAME_LENGTH = 13,
    GUKOREMO_CALL_NAMES_START = 14, /* in names: the name places of a new table's columns */
    GUKOREMO_CALL_NAMES_LENGTH = 15,
    GUKOREMO_CALL_SIZE = 16
};

/* "Types" */
enum {
    GUKOREMO_INT8 = 1,
    GUKOREMO_INT16 = 2,
    GUKOREMO_INT32 = 3,
    GUKOREMO_INT64 = 4,
    GUKOREMO_UINT8 = 5,
    GUKOREMO_UINT16 = 6,
    GUKOREMO_UINT32 = 7,
    GUKOREMO_BOOLEAN = 8
};

/* Numbers, a type for each of the four counters: "a file number is never taken for a row number". Rows stand in answers alone, as words. */

typedef struct {
    uint64_t number;
} gukoremo_snapshot_id;

/* of schemas and tables */
typedef struct {
    uint64_t number;
} gukoremo_catalog_id;

/* of data files and delete files */
typedef struct {
    uint64_t number;
} gukoremo_file_id;

typedef struct {
    uint64_t high;
    uint64_t low;
} gukoremo_uuid;

/* What a commit is made under: its time. */
typedef struct {
    uint64_t time;
} gukoremo_terms;

/* "A catalogue record, passed in and handed back by value, says how many records of each table are used." */
typedef struct {
    size_t snapshots;
    size_t schemas;
    size_t tables;
    size_t columns;
    size_t data_files;
    size_t delete_files;
    size_t positions;
    size_t statistics;
    size_t scheduled;
} gukoremo_counts;

/* What a call gives. Accepted: number 0, place 0, the answer's length in words, the counts to pass next. Refused: the refusal's number; its place, which
 * is 0 but with GUKOREMO_ALREADY_DELETED; length 0; the counts as they came. */
typedef struct {
    uint64_t number;
    uint64_t place;
    size_t length;
    gukoremo_counts counts;
} gukoremo_outcome;

/* What a list of calls gives: how many of its records were played, the words of all their answers, the counts to pass next. */
typedef struct {
    size_t played;
    size_t answered;
    gukoremo_counts counts;
} gukoremo_session;

/* What a lookup of a file gives: the outcome, which sort of file it is, and its record. */
enum {
    GUKOREMO_NO_FILE = 0, /* the lookup was refused */
    GUKOREMO_DATA_FILE = 1,
    GUKOREMO_DELETE_FILE = 2
};

typedef struct {
    gukoremo_outcome outcome;
    int kind;
    uint64_t record[GUKOREMO_DATA_FILE_SIZE]; /* as many words as a delete file has */
} gukoremo_file;

/* The numbers of an outcome. Of several refusals a call gives the first in this order: 1, then 5 to 19 rising, then 4, 2, 3. */
enum {
    GUKOREMO_ACCEPTED = 0,
    /* the host */
    GUKOREMO_NOT_SOUND = 1,         /* "tables not sound." */
    GUKOREMO_NO_ROOM = 2,           /* "the change needs more records or positions than are lent or allowed." */
    GUKOREMO_SHORT_ANSWER_AREA = 3, /* "the answer area is shorter than the answer." */
    GUKOREMO_NUMBER_TOO_LARGE = 4,  /* "a number would pass 2^62." */
    /* whoever reads */
    GUKOREMO_NOT_RETAINED = 5,        /* "snapshot not retained." */
    GUKOREMO_NOT_LIVE = 6,            /* "no schema, table, column or file of that id or name live at that snapshot (the latest, for a commit)." */
    GUKOREMO_NO_SNAPSHOT_BY_THEN = 7, /* "no retained snapshot at or before t." */
    /* whoever commits */
    GUKOREMO_TIME_FALLS = 8,        /* "time below the latest snapshot's." */
    GUKOREMO_BAD_NAME = 9,          /* "bad name." */
    GUKOREMO_NAME_TAKEN = 10,       /* "name taken by a live one." */
    GUKOREMO_SCHEMA_NOT_EMPTY = 11, /* "schema not empty." */
    GUKOREMO_BAD_COLUMNS = 12,      /* "column list: not 1 to 16, unknown type, bad flag, bad or repeated name." */
    GUKOREMO_BAD_RECORD_COUNT = 13, /* "record_count." */
    GUKOREMO_UUID_TAKEN = 14,       /* "UUID in any data file, delete file or scheduled record." */
    GUKOREMO_BAD_STATISTICS = 15,   /* "statistics break the rules above or aren't one for each live column by ascending id." */
    GUKOREMO_BAD_POSITIONS = 16,    /* "positions empty, not ascending strictly, or past the file." */
    GUKOREMO_ALREADY_DELETED = 17,  /* "a position already deleted."; the place is the index of such a one in the call's list */
    /* whoever maintains */
    GUKOREMO_BAD_EXPIRY_LIST = 18, /* "expiry list empty or not ascending strictly." */
    GUKOREMO_EXPIRES_LATEST = 19   /* "the list holds the latest snapshot." */
};

/* the sentence of an outcome's number */
static inline const char *gukoremo_sentence(uint64_t number)
{
    switch (number) {
    case GUKOREMO_ACCEPTED: return "accepted";
    case GUKOREMO_NOT_SOUND: return "tables not sound";
    case GUKOREMO_NO_ROOM: return "the change needs more records or positions than are lent or allowed";
    case GUKOREMO_SHORT_ANSWER_AREA: return "the answer area is shorter than the answer";
    case GUKOREMO_NUMBER_TOO_LARGE: return "a number would pass 2^62";
    case GUKOREMO_NOT_RETAINED: return "snapshot not retained";
    case GUKOREMO_NOT_LIVE: return "no schema, table, column or file of that id or name live at that snapshot (the latest, for a commit)";
    case GUKOREMO_NO_SNAPSHOT_BY_THEN: return "no retained snapshot at or before that time";
    case GUKOREMO_TIME_FALLS: return "time below the latest snapshot's";
    case GUKOREMO_BAD_NAME: return "bad name";
    case GUKOREMO_NAME_TAKEN: return "name taken by a live one";
    case GUKOREMO_SCHEMA_NOT_EMPTY: return "schema not empty";
    case GUKOREMO_BAD_COLUMNS: return "column list: not 1 to 16, unknown type, bad flag, bad or repeated name";
    case GUKOREMO_BAD_RECORD_COUNT: return "record_count not 1 to 1,048,576";
    case GUKOREMO_UUID_TAKEN: return "UUID in any data file, delete file or scheduled record";
    case GUKOREMO_BAD_STATISTICS: return "statistics break the rules or aren't one for each live column by ascending id";
    case GUKOREMO_BAD_POSITIONS: return "positions empty, not ascending strictly, or past the file";
    case GUKOREMO_ALREADY_DELETED: return "a position already deleted";
    case GUKOREMO_BAD_EXPIRY_LIST: return "expiry list empty or not ascending strictly";
    case GUKOREMO_EXPIRES_LATEST: return "the list holds the latest snapshot";
    default: return "a number that no call gives";
    }
}

/* The lines of 'Sound tables', as gukoremo_first_unsound counts them; the limit of columns stands above them in document 01 and comes last. */
enum {
    GUKOREMO_SOUND = 0, /* every line holds */
    /* "used counts fit the lent lengths and the limits; every field is in its range; padding is zero" */
    GUKOREMO_FIELDS_LINE = 1,
    /* "at least one snapshot; snapshot ids ascend strictly; times, schema versions and next ids never fall; change kinds are those below" */
    GUKOREMO_SNAPSHOTS_LINE = 2,
    /* "each begin and each end that isn't ABSENT is at most the latest snapshot id; begin < end; every record is live at some retained snapshot" */
    GUKOREMO_LIVES_LINE = 3,
    /* "ids ascend strictly in schema, table, data file and delete file, columns by (table id, column id), statistics by (data file id, column id)" */
    GUKOREMO_ORDER_LINE = 4,
    /* "schema, table and file ids are below the latest snapshot's next ids; no file id or UUID occurs twice over data files, delete files and scheduled" */
    GUKOREMO_NEXT_IDS_LINE = 5,
    /* "a table's life lies within its schema's, a column's is its table's, a data file's lies within its table's, a delete file's within its data file's, and
       their table ids match" */
    GUKOREMO_NESTING_LINE = 6,
    /* "schemas, tables of one schema and columns of one table with a common live snapshot number have different names, such columns also different orders" */
    GUKOREMO_NAMES_LINE = 7,
    /* "two delete files of one data file have no common live number; the later holds every position of the earlier; positions ascend strictly below
       record_count; delete_count is 1 or more and the counts add up to the used positions" */
    GUKOREMO_DELETES_LINE = 8,
    /* "row ranges of a table's files ascend with the file id, don't overlap, and end at or below next_row_id" */
    GUKOREMO_ROWS_LINE = 9,
    /* "each data file has one statistics record for each column live at its begin, and no other. null_count <= record_count, and 0 where nulls aren't
       allowed. If all rows are null, min and max are missing; else either may be missing. Given values lie in the type's range, min <= max" */
    GUKOREMO_STATISTICS_LINE = 10,
    /* "a table has 1 to 16 live columns at each retained snapshot where it lives" */
    GUKOREMO_COLUMNS_LINE = 11
};

/* the sentence of a line */
static inline const char *gukoremo_line_sentence(uint64_t line)
{
    switch (line) {
    case GUKOREMO_SOUND: return "sound";
    case GUKOREMO_FIELDS_LINE: return "used counts fit the lent lengths and the limits; every field is in its range; padding is zero";
    case GUKOREMO_SNAPSHOTS_LINE:
        return "at least one snapshot; snapshot ids ascend strictly; times, schema versions and next ids never fall; change kinds are those below";
    case GUKOREMO_LIVES_LINE:
        return "each begin and each end that isn't ABSENT is at most the latest snapshot id; begin < end; every record is live at some retained "
               "snapshot";
    case GUKOREMO_ORDER_LINE:
        return "ids ascend strictly in schema, table, data file and delete file, columns by (table id, column id), statistics by (data file id, "
               "column id)";
    case GUKOREMO_NEXT_IDS_LINE:
        return "schema, table and file ids are below the latest snapshot's next ids; no file id or UUID occurs twice over data files, delete "
               "files and scheduled";
    case GUKOREMO_NESTING_LINE:
        return "a table's life lies within its schema's, a column's is its table's, a data file's lies within its table's, a delete file's within "
               "its data file's, and their table ids match";
    case GUKOREMO_NAMES_LINE:
        return "schemas, tables of one schema and columns of one table with a common live snapshot number have different names, such columns also "
               "different orders";
    case GUKOREMO_DELETES_LINE:
        return "two delete files of one data file have no common live number; the later holds every position of the earlier; positions ascend "
               "strictly below record_count; delete_count is 1 or more and the counts add up to the used positions";
    case GUKOREMO_ROWS_LINE: return "row ranges of a table's files ascend with the file id, don't overlap, and end at or below next_row_id";
    case GUKOREMO_STATISTICS_LINE:
        return "each data file has one statistics record for each column live at its begin, and no other. null_count <= record_count, and 0 where "
               "nulls aren't allowed. If all rows are null, min and max are missing; else either may be missing. Given values lie in the type's "
               "range, min <= max";
    case GUKOREMO_COLUMNS_LINE: return "a table has 1 to 16 live columns at each retained snapshot where it lives";
    default: return "a number that no line has";
    }
}

/* The lent runs. A table with names lends as many records as both its runs have places for. */

typedef struct {
    uint64_t *at;
    size_t length;
} gukoremo_words;

typedef struct {
    uint8_t *at;
    size_t length;
} gukoremo_bytes;

typedef struct {
    gukoremo_words snapshots;
    gukoremo_words schemas;
    gukoremo_bytes schema_names;
    gukoremo_words tables;
    gukoremo_bytes table_names;
    gukoremo_words columns;
    gukoremo_bytes column_names;
    gukoremo_words data_files;
    gukoremo_words delete_files;
    gukoremo_words positions;
    gukoremo_words statistics;
    gukoremo_words scheduled;
} gukoremo_tables;

/* The library's own functions, gukoremo_raw_. They have every argument of a call, a run as a pointer and a length, and want pointers that are not null; the
 * functions below them are for callers. Every call but the last has an answer area; only readings and cleanups answer in it. */

#define GUKOREMO_CHANGED                                                                                                                       \
    uint64_t *snapshots, size_t snapshots_length, uint64_t *schemas, size_t schemas_length, uint8_t *schema_names, size_t schema_names_length, \
        uint64_t *tables, size_t tables_length, uint8_t *table_names, size_t table_names_length, uint64_t *columns, size_t columns_length,     \
        uint8_t *column_names, size_t column_names_length, uint64_t *data_files, size_t data_files_length, uint64_t *delete_files,             \
        size_t delete_files_length, uint64_t *positions, size_t positions_length, uint64_t *statistics, size_t statistics_length,              \
        uint64_t *scheduled, size_t scheduled_length, gukoremo_counts counts
#define GUKOREMO_READ                                                                                                                             \
    const uint64_t *snapshots, size_t snapshots_length, const uint64_t *schemas, size_t schemas_length, const uint8_t *schema_names,              \
        size_t schema_names_length, const uint64_t *tables, size_t tables_length, const uint8_t *table_names, size_t table_names_length,          \
        const uint64_t *columns, size_t columns_length, const uint8_t *column_names, size_t column_names_length, const uint64_t *data_files,      \
        size_t data_files_length, const uint64_t *delete_files, size_t delete_files_length, const uint64_t *positions, size_t positions_length,   \
        const uint64_t *statistics, size_t statistics_length, const uint64_t *scheduled, size_t scheduled_length, gukoremo_counts counts
#define GUKOREMO_AREA uint64_t *area, size_t area_length

gukoremo_outcome gukoremo_raw_fresh(GUKOREMO_CHANGED, uint64_t time, GUKOREMO_AREA);
gukoremo_outcome gukoremo_raw_create_schema(GUKOREMO_CHANGED, gukoremo_terms terms, const uint8_t *name, size_t name_length, GUKOREMO_AREA);
gukoremo_outcome gukoremo_raw_drop_schema(GUKOREMO_CHANGED, gukoremo_terms terms, gukoremo_catalog_id schema, GUKOREMO_AREA);
gukoremo_outcome gukoremo_raw_create_table(GUKOREMO_CHANGED, gukoremo_terms terms, gukoremo_catalog_id schema, const uint8_t *name, size_t name_length,
    const uint64_t *new_columns, size_t new_columns_length, const uint8_t *new_names, size_t new_names_length, GUKOREMO_AREA);
gukoremo_outcome gukoremo_raw_drop_table(GUKOREMO_CHANGED, gukoremo_terms terms, gukoremo_catalog_id table, GUKOREMO_AREA);
gukoremo_outcome gukoremo_raw_insert(GUKOREMO_CHANGED, gukoremo_terms terms, gukoremo_catalog_id table, uint64_t record_count, gukoremo_uuid uuid,
    const uint64_t *new_statistics, size_t new_statistics_length, GUKOREMO_AREA);
gukoremo_outcome gukoremo_raw_delete(GUKOREMO_CHANGED, gukoremo_terms terms, gukoremo_file_id data_file, gukoremo_uuid uuid, const uint64_t *new_positions,
    size_t new_positions_length, GUKOREMO_AREA);
gukoremo_outcome gukoremo_raw_expire(GUKOREMO_CHANGED, const uint64_t *ids, size_t ids_length, uint64_t time, GUKOREMO_AREA);
gukoremo_outcome gukoremo_raw_cleanup(GUKOREMO_CHANGED, uint64_t t, GUKOREMO_AREA);
gukoremo_session gukoremo_raw_play(GUKOREMO_CHANGED, const uint64_t *calls, size_t calls_length, const uint64_t *lists, size_t lists_length,
    const uint8_t *names, size_t names_length, GUKOREMO_AREA, uint64_t *told, size_t told_length);
gukoremo_outcome gukoremo_raw_list_schemas(GUKOREMO_READ, gukoremo_snapshot_id snapshot, GUKOREMO_AREA);
gukoremo_outcome gukoremo_raw_list_tables(GUKOREMO_READ, gukoremo_snapshot_id snapshot, gukoremo_catalog_id schema, GUKOREMO_AREA);
gukoremo_outcome gukoremo_raw_list_columns(GUKOREMO_READ, gukoremo_snapshot_id snapshot, gukoremo_catalog_id table, GUKOREMO_AREA);
gukoremo_outcome gukoremo_raw_table_by_name(
    GUKOREMO_READ, gukoremo_snapshot_id snapshot, gukoremo_catalog_id schema, const uint8_t *name, size_t name_length, GUKOREMO_AREA);
gukoremo_outcome gukoremo_raw_list_files(GUKOREMO_READ, gukoremo_snapshot_id snapshot, gukoremo_catalog_id table, GUKOREMO_AREA);
gukoremo_outcome gukoremo_raw_list_filtered_files(
    GUKOREMO_READ, gukoremo_snapshot_id snapshot, gukoremo_catalog_id table, uint64_t column, int64_t scalar, GUKOREMO_AREA);
gukoremo_outcome gukoremo_raw_list_rows(GUKOREMO_READ, gukoremo_snapshot_id snapshot, gukoremo_catalog_id table, GUKOREMO_AREA);
gukoremo_outcome gukoremo_raw_snapshot_by_time(GUKOREMO_READ, uint64_t t, GUKOREMO_AREA);
gukoremo_outcome gukoremo_raw_find_file(GUKOREMO_READ, gukoremo_file_id id, GUKOREMO_AREA);
uint64_t gukoremo_raw_first_unsound(GUKOREMO_READ);

/* What stands for the null pointer of a run of length 0: a place that is there. Nothing is read or written in it. */

static inline uint64_t *gukoremo_no_words(void)
{
    static uint64_t none;
    return &none;
}

static inline uint8_t *gukoremo_no_bytes(void)
{
    static uint8_t none;
    return &none;
}

#define GUKOREMO_WORDS(at, length) ((at) ? (at) : gukoremo_no_words()), (length)
#define GUKOREMO_BYTES(at, length) ((at) ? (at) : gukoremo_no_bytes()), (length)
#define GUKOREMO_NAME(at, length) ((at) ? (const uint8_t *)(at) : gukoremo_no_bytes()), (length)
#define GUKOREMO_LENT(runs)                                                                                                            \
    GUKOREMO_WORDS((runs)->snapshots.at, (runs)->snapshots.length), GUKOREMO_WORDS((runs)->schemas.at, (runs)->schemas.length),        \
        GUKOREMO_BYTES((runs)->schema_names.at, (runs)->schema_names.length),                                                          \
        GUKOREMO_WORDS((runs)->tables.at, (runs)->tables.length), GUKOREMO_BYTES((runs)->table_names.at, (runs)->table_names.length),  \
        GUKOREMO_WORDS((runs)->columns.at, (runs)->columns.length),                                                                    \
        GUKOREMO_BYTES((runs)->column_names.at, (runs)->column_names.length),                                                          \
        GUKOREMO_WORDS((runs)->data_files.at, (runs)->data_files.length),                                                              \
        GUKOREMO_WORDS((runs)->delete_files.at, (runs)->delete_files.length),                                                          \
        GUKOREMO_WORDS((runs)->positions.at, (runs)->positions.length),                                                                \
        GUKOREMO_WORDS((runs)->statistics.at, (runs)->statistics.length),                                                              \
        GUKOREMO_WORDS((runs)->scheduled.at, (runs)->scheduled.length)
#define GUKOREMO_NO_AREA gukoremo_no_words(), 0

/* The terms of a commit at a time. */
static inline gukoremo_terms gukoremo_at(uint64_t time)
{
    gukoremo_terms terms;
    terms.time = time;
    return terms;
}

/* The calls. Each has the runs, the counts that the call before handed back, and its own arguments. Commits, expiry and Fresh have no answer. The refusals
 * that a call can give stand in the order in which they are judged. */

/* Fresh: an empty catalogue with schema 0, `main`, whatever the runs and the counts hold. Writes the first snapshot, the first schema and its name.
 * Refused with 2 alone. */
static inline gukoremo_outcome gukoremo_fresh(const gukoremo_tables *runs, gukoremo_counts counts, uint64_t time)
{
    return gukoremo_raw_fresh(GUKOREMO_LENT(runs), counts, time, GUKOREMO_NO_AREA);
}

/* Create schema. The object of the new snapshot is its id. Writes a snapshot, a schema and its name. Refused with 1, 8, 9, 10, 4, 2. */
static inline gukoremo_outcome gukoremo_create_schema(
    const gukoremo_tables *runs, gukoremo_counts counts, uint64_t time, const char *name, size_t name_length)
{
    return gukoremo_raw_create_schema(GUKOREMO_LENT(runs), counts, gukoremo_at(time), GUKOREMO_NAME(name, name_length), GUKOREMO_NO_AREA);
}

/* Drop schema, "only if no table in it is live". Writes a snapshot, and the schema's end. Refused with 1, 6, 8, 11, 4, 2. */
static inline gukoremo_outcome gukoremo_drop_schema(
    const gukoremo_tables *runs, gukoremo_counts counts, uint64_t time, gukoremo_catalog_id schema)
{
    return gukoremo_raw_drop_schema(GUKOREMO_LENT(runs), counts, gukoremo_at(time), schema, GUKOREMO_NO_AREA);
}

/* Create table. For each column GUKOREMO_COLUMN_ARGUMENT_SIZE words in new_columns and a place of GUKOREMO_NAME_SIZE bytes in new_names; columns get ids 1, 2,
 * and so on. The object of the new snapshot is the table's id. Writes a snapshot, a table and its name, columns and their names. Refused with 1, 6, 8, 9, 10,
 * 12, 4, 2. */
static inline gukoremo_outcome gukoremo_create_table(const gukoremo_tables *runs, gukoremo_counts counts, uint64_t time, gukoremo_catalog_id schema,
    const char *name, size_t name_length, const uint64_t *new_columns, size_t new_columns_length, const char *new_names, size_t new_names_length)
{
    return gukoremo_raw_create_table(GUKOREMO_LENT(runs), counts, gukoremo_at(time), schema, GUKOREMO_NAME(name, name_length),
        GUKOREMO_WORDS(new_columns, new_columns_length), GUKOREMO_NAME(new_names, new_names_length), GUKOREMO_NO_AREA);
}

/* Drop table. Writes a snapshot, and the ends of the table and of its live columns, data files and delete files. Refused with 1, 6, 8, 4, 2. */
static inline gukoremo_outcome gukoremo_drop_table(const gukoremo_tables *runs, gukoremo_counts counts, uint64_t time, gukoremo_catalog_id table)
{
    return gukoremo_raw_drop_table(GUKOREMO_LENT(runs), counts, gukoremo_at(time), table, GUKOREMO_NO_AREA);
}

/* Insert: a data file of so many rows, with GUKOREMO_STATISTICS_ARGUMENT_SIZE words for each live column of the table, by ascending id. The new file's id
 * is one below the new snapshot's next file id. Writes a snapshot, a data file, statistics, and the table's next row id. Refused with 1, 6, 8, 13, 14, 15, 4,
 * 2. */
static inline gukoremo_outcome gukoremo_insert(const gukoremo_tables *runs, gukoremo_counts counts, uint64_t time, gukoremo_catalog_id table,
    uint64_t record_count, gukoremo_uuid uuid, const uint64_t *new_statistics, size_t new_statistics_length)
{
    return gukoremo_raw_insert(GUKOREMO_LENT(runs), counts, gukoremo_at(time), table, record_count, uuid, GUKOREMO_WORDS(new_statistics, new_statistics_length),
        GUKOREMO_NO_AREA);
}

/* Delete: rows of a live data file, by ascending position. The new delete file holds these and those of the one before, which ends; its id is one below the new
 * snapshot's next file id. Writes a snapshot, a delete file, positions, and the end of the one before. Refused with 1, 6, 8, 14, 16, 17, 4, 2. */
static inline gukoremo_outcome gukoremo_delete(const gukoremo_tables *runs, gukoremo_counts counts, uint64_t time, gukoremo_file_id data_file,
    gukoremo_uuid uuid, const uint64_t *new_positions, size_t new_positions_length)
{
    return gukoremo_raw_delete(
        GUKOREMO_LENT(runs), counts, gukoremo_at(time), data_file, uuid, GUKOREMO_WORDS(new_positions, new_positions_length), GUKOREMO_NO_AREA);
}

/* Expiry of these snapshots, by ascending id: they go, and every record that no retained snapshot shows; the files among those are scheduled with the
 * time. May write every run. Refused with 1, 5, 18, 19, 2. */
static inline gukoremo_outcome gukoremo_expire(
    const gukoremo_tables *runs, gukoremo_counts counts, const uint64_t *ids, size_t ids_length, uint64_t time)
{
    return gukoremo_raw_expire(GUKOREMO_LENT(runs), counts, GUKOREMO_WORDS(ids, ids_length), time, GUKOREMO_NO_AREA);
}

/* Cleanup: hands out GUKOREMO_HANDED_SIZE words of each file scheduled before t, and removes it. Writes the scheduled run and the answer. Refused with 1, 3. */
static inline gukoremo_outcome gukoremo_cleanup(const gukoremo_tables *runs, gukoremo_counts counts, uint64_t t, uint64_t *area, size_t area_length)
{
    return gukoremo_raw_cleanup(GUKOREMO_LENT(runs), counts, t, GUKOREMO_WORDS(area, area_length));
}

/* A list of calls and readings, GUKOREMO_CALL_SIZE words each in calls, their arguments in spans of lists and names. Each is made on what the one before left,
 * whether that was accepted or refused, with what the answers before have left of the area. Its answer stands right behind theirs, and GUKOREMO_TOLD_SIZE words
 * of told say what it gave: an answer begins where the lengths told before it add up to. A reading or a cleanup with an answer longer than what is left is
 * refused with 3, and the list goes on.
 *
 * The list ends, and nothing of the rest is played, before a record
 *   - whose kind is none of those above,
 *   - that is Fresh and not the first,
 *   - of which a span leaves its run: start and length add up, with no wrapping, to more than the run has. With less than its record asks for it would be a
 *     call that nobody asked for;
 * and where calls has no whole record left, or told no whole place.
 *
 * Writes what its calls write, and told; words of area and told behind those stay. told overlaps nothing; calls, lists and names may overlap each other. Calls
 * and readings are refused, never the list. */
static inline gukoremo_session gukoremo_play(const gukoremo_tables *runs, gukoremo_counts counts, const uint64_t *calls, size_t calls_length,
    const uint64_t *lists, size_t lists_length, const char *names, size_t names_length, uint64_t *area, size_t area_length, uint64_t *told,
    size_t told_length)
{
    return gukoremo_raw_play(GUKOREMO_LENT(runs), counts, GUKOREMO_WORDS(calls, calls_length), GUKOREMO_WORDS(lists, lists_length),
        GUKOREMO_NAME(names, names_length), GUKOREMO_WORDS(area, area_length), GUKOREMO_WORDS(told, told_length));
}

/* Readings write the answer at the front of the area, and nothing else; the counts come back as they went. */

/* The schemas at a snapshot, by id. Refused with 1, 5, 3. */
static inline gukoremo_outcome gukoremo_list_schemas(
    const gukoremo_tables *runs, gukoremo_counts counts, gukoremo_snapshot_id snapshot, uint64_t *area, size_t area_length)
{
    return gukoremo_raw_list_schemas(GUKOREMO_LENT(runs), counts, snapshot, GUKOREMO_WORDS(area, area_length));
}

/* The tables of a schema at a snapshot, by id. Refused with 1, 5, 6, 3. */
static inline gukoremo_outcome gukoremo_list_tables(const gukoremo_tables *runs, gukoremo_counts counts, gukoremo_snapshot_id snapshot,
    gukoremo_catalog_id schema, uint64_t *area, size_t area_length)
{
    return gukoremo_raw_list_tables(GUKOREMO_LENT(runs), counts, snapshot, schema, GUKOREMO_WORDS(area, area_length));
}

/* The columns of a table at a snapshot, by column_order. Refused with 1, 5, 6, 3. */
static inline gukoremo_outcome gukoremo_list_columns(const gukoremo_tables *runs, gukoremo_counts counts, gukoremo_snapshot_id snapshot,
    gukoremo_catalog_id table, uint64_t *area, size_t area_length)
{
    return gukoremo_raw_list_columns(GUKOREMO_LENT(runs), counts, snapshot, table, GUKOREMO_WORDS(area, area_length));
}

/* The table of a schema that bears a name at a snapshot: one word. Refused with 1, 5, 6, 3. */
static inline gukoremo_outcome gukoremo_table_by_name(const gukoremo_tables *runs, gukoremo_counts counts, gukoremo_snapshot_id snapshot,
    gukoremo_catalog_id schema, const char *name, size_t name_length, uint64_t *area, size_t area_length)
{
    return gukoremo_raw_table_by_name(
        GUKOREMO_LENT(runs), counts, snapshot, schema, GUKOREMO_NAME(name, name_length), GUKOREMO_WORDS(area, area_length));
}

/* The files of a table at a snapshot, by id, GUKOREMO_LISTED_SIZE words each: a data file and its delete file or GUKOREMO_ABSENT. Refused with 1, 5, 6, 3. */
static inline gukoremo_outcome gukoremo_list_files(const gukoremo_tables *runs, gukoremo_counts counts, gukoremo_snapshot_id snapshot,
    gukoremo_catalog_id table, uint64_t *area, size_t area_length)
{
    return gukoremo_raw_list_files(GUKOREMO_LENT(runs), counts, snapshot, table, GUKOREMO_WORDS(area, area_length));
}

/* The same list, of the files that may hold a row with that value in the column, by their statistics. Refused with 1, 5, 6, 3. */
static inline gukoremo_outcome gukoremo_list_filtered_files(const gukoremo_tables *runs, gukoremo_counts counts, gukoremo_snapshot_id snapshot,
    gukoremo_catalog_id table, uint64_t column, int64_t scalar, uint64_t *area, size_t area_length)
{
    return gukoremo_raw_list_filtered_files(
        GUKOREMO_LENT(runs), counts, snapshot, table, column, scalar, GUKOREMO_WORDS(area, area_length));
}

/* The rows of a table at a snapshot, file after file, a word each. Refused with 1, 5, 6, 3. */
static inline gukoremo_outcome gukoremo_list_rows(const gukoremo_tables *runs, gukoremo_counts counts, gukoremo_snapshot_id snapshot,
    gukoremo_catalog_id table, uint64_t *area, size_t area_length)
{
    return gukoremo_raw_list_rows(GUKOREMO_LENT(runs), counts, snapshot, table, GUKOREMO_WORDS(area, area_length));
}

/* By time: the highest retained snapshot at or before t, one word. Refused with 1, 7, 3. */
static inline gukoremo_outcome gukoremo_snapshot_by_time(
    const gukoremo_tables *runs, gukoremo_counts counts, uint64_t t, uint64_t *area, size_t area_length)
{
    return gukoremo_raw_snapshot_by_time(GUKOREMO_LENT(runs), counts, t, GUKOREMO_WORDS(area, area_length));
}

/* A file that is on record, live or ended: the GUKOREMO_DATA_FILE_SIZE words of a data file or the GUKOREMO_DELETE_FILE_SIZE words of a delete file, and
 * which of the two it is. Refused with 1, 6: then there is no file, and the record is all 0. */
static inline gukoremo_file gukoremo_find_file(const gukoremo_tables *runs, gukoremo_counts counts, gukoremo_file_id id)
{
    gukoremo_file found;
    size_t i;
    for (i = 0; i < GUKOREMO_DATA_FILE_SIZE; i++)
        found.record[i] = 0;
    found.kind = GUKOREMO_NO_FILE;
    found.outcome = gukoremo_raw_find_file(GUKOREMO_LENT(runs), counts, id, found.record, GUKOREMO_DATA_FILE_SIZE);
    if (found.outcome.number != GUKOREMO_ACCEPTED)
        return found;
    /* the tables are sound: the counts fit the runs, and no data file has the id of a delete file */
    found.kind = GUKOREMO_DELETE_FILE;
    for (i = 0; i < counts.data_files; i++)
        if (runs->data_files.at[i * GUKOREMO_DATA_FILE_SIZE + GUKOREMO_DATA_FILE_ID] == id.number)
            found.kind = GUKOREMO_DATA_FILE;
    return found;
}

/* For whoever must mend tables that are refused with GUKOREMO_NOT_SOUND: the first line of 'Sound tables' that doesn't hold, GUKOREMO_SOUND where all do.
 * Writes nothing, and refuses nothing. */
static inline uint64_t gukoremo_first_unsound(const gukoremo_tables *runs, gukoremo_counts counts)
{
    return gukoremo_raw_first_unsound(GUKOREMO_LENT(runs), counts);
}

#undef GUKOREMO_CHANGED
#undef GUKOREMO_READ
#undef GUKOREMO_AREA
#undef GUKOREMO_WORDS
#undef GUKOREMO_BYTES
#undef GUKOREMO_NAME
#undef GUKOREMO_LENT
#undef GUKOREMO_NO_AREA

#ifdef __cplusplus
}
#endif

#endif
