//! The numbers of lines, runs and calls, by the names that Names.antt has for them: compared whenever a folder of
//! cases is read.

macro_rules! codes {
    ($($constant:ident $name:literal $code:literal,)*) => {
        $(pub const $constant: u64 = $code;)*
        pub const ALL: &[(&str, u64)] = &[$(($name, $constant)),*];
    };
}

codes! {
    LEND "lend" 0,
    FINDS_FIELD "finds_field" 1,
    FINDS_ONLY "finds_only" 2,
    LEAVES_FIELD "leaves_field" 3,
    LEAVES "leaves" 4,
    CALL "call" 5,
    CALL_KEPT "call_kept" 6,

    SNAPSHOTS "snapshots" 0,
    SCHEMAS "schemas" 1,
    TABLES "tables" 2,
    COLUMNS "columns" 3,
    DATA_FILES "data_files" 4,
    DELETE_FILES "delete_files" 5,
    POSITIONS "positions" 6,
    STATISTICS "statistics" 7,
    SCHEDULED "scheduled" 8,
    COUNTS "counts" 9,
    SCHEMA_NAMES "schema_names" 10,
    TABLE_NAMES "table_names" 11,
    COLUMN_NAMES "column_names" 12,
    ANSWER_AREA "answer_area" 13,

    FRESH "fresh" 0,
    CREATE_SCHEMA "create_schema" 1,
    CREATE_TABLE "create_table" 2,
    INSERT "insert" 3,
    DELETE "delete" 4,
    DROP_SCHEMA "drop_schema" 6,
    DROP_TABLE "drop_table" 7,
    EXPIRE "expire" 8,
    CLEANUP "cleanup" 9,
    LIST_SCHEMAS "list_schemas" 10,
    LIST_TABLES "list_tables" 11,
    LIST_COLUMNS "list_columns" 12,
    TABLE_BY_NAME "table_by_name" 13,
    LIST_FILES "list_files" 14,
    LIST_FILTERED_FILES "list_filtered_files" 15,
    LIST_ROWS "list_rows" 16,
    SNAPSHOT_BY_TIME "snapshot_by_time" 17,
    COPY_FILE "copy_file" 18,
    FIND_FILE "find_file" 19,
    PATH_OF_FILE "path_of_file" 20,
}
