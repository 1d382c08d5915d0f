/* A function of SQL for SQLite: cip_labels(molblock) gives the value lines of the record's item.
 *
 *     cc -shared -fPIC cip_sqlite.c $(pkg-config --cflags --libs cip) -o cip_sqlite.so
 *     sqlite3 mine.db '.load ./cip_sqlite' 'SELECT name, cip_labels(molblock) FROM molecules'
 *
 * Each connection has a labeller of its own, and calls it from one thread at a time. NULL gives NULL. */
#include <cip.h>
#include <sqlite3ext.h>
#include <stdlib.h>

SQLITE_EXTENSION_INIT1

#define FIRST_ROOM 4096

static void release(void *labeller) {
    cip_release(labeller);
    free(labeller);
}

static void fail(sqlite3_context *context, int64_t answer) {
    if (answer == CIP_NO_MEMORY) sqlite3_result_error_nomem(context);
    else sqlite3_result_error(context, "cip_labels: the library refused the call", -1);
}

/* The value lines of a record as the result, or an error; as much room as the text needs is asked for. */
static void give_values(sqlite3_context *context, const unsigned char *record, size_t length) {
    size_t room = FIRST_ROOM;
    for (;;) {
        uint8_t *text = calloc(room, 1);
        if (!text) {
            fail(context, CIP_NO_MEMORY);
            return;
        }
        int64_t whole = cip_values(sqlite3_user_data(context), record, length, text, room);
        if (whole >= 0 && (size_t)whole <= room) {
            sqlite3_result_text64(context, (char *)text, (sqlite3_uint64)whole, free, SQLITE_UTF8);
            return;
        }
        free(text);
        if (whole < 0) {
            fail(context, whole);
            return;
        }
        room = (size_t)whole;
    }
}

static void labels(sqlite3_context *context, int count, sqlite3_value **values) {
    int type = sqlite3_value_type(values[0]);
    (void)count;
    if (type == SQLITE_NULL) return;
    const void *record = type == SQLITE_BLOB ? sqlite3_value_blob(values[0]) : sqlite3_value_text(values[0]);
    int length = sqlite3_value_bytes(values[0]);
    if (!record && length) fail(context, CIP_NO_MEMORY);
    else give_values(context, record ? record : (const void *)"", (size_t)length);
}

/* What SQLite calls when it loads the file. */
int sqlite3_cipsqlite_init(sqlite3 *db, char **error, const sqlite3_api_routines *api) {
    (void)error;
    SQLITE_EXTENSION_INIT2(api);
    cip_labeller *labeller = malloc(sizeof *labeller);
    if (!labeller) return SQLITE_NOMEM;
    if (cip_make(labeller, CIP_NODES, CIP_WORDING) != 0) {
        free(labeller);
        return SQLITE_NOMEM;
    }
    return sqlite3_create_function_v2(db, "cip_labels", 1, SQLITE_UTF8 | SQLITE_DETERMINISTIC, labeller, labels, NULL, NULL,
                                      release);
}
