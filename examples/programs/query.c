// Runs the SQL of the input on a database in memory and prints each row, its values with `|` between them. The exit
// code is 1 where SQLite refuses a statement.
#include <stdio.h>
#include <stdlib.h>
#include <string.h>
#include "sqlite3.h"

// ---- what SQLite asks of a system in place of an operating system's files: there are none

static int no_file(sqlite3_vfs *vfs, const char *name, sqlite3_file *file, int flags, int *given) {
    (void)vfs, (void)name, (void)flags, (void)given;
    file->pMethods = NULL;
    return SQLITE_CANTOPEN;
}

static int no_delete(sqlite3_vfs *vfs, const char *name, int sync) {
    (void)vfs, (void)name, (void)sync;
    return SQLITE_IOERR_DELETE;
}

static int no_access(sqlite3_vfs *vfs, const char *name, int flags, int *result) {
    (void)vfs, (void)name, (void)flags;
    *result = 0;
    return SQLITE_OK;
}

static int same_name(sqlite3_vfs *vfs, const char *name, int room, char *to) {
    (void)vfs;
    sqlite3_snprintf(room, to, "%s", name);
    return SQLITE_OK;
}

// The machine has no source of chance: the same script gives the same rows.
static int no_chance(sqlite3_vfs *vfs, int room, char *to) {
    (void)vfs;
    memset(to, 0, (size_t)room);
    return room;
}

static int no_sleep(sqlite3_vfs *vfs, int microseconds) {
    (void)vfs;
    return microseconds;
}

static int no_time(sqlite3_vfs *vfs, double *days) {
    (void)vfs;
    *days = 0;
    return SQLITE_ERROR;
}

static int no_error(sqlite3_vfs *vfs, int room, char *to) {
    (void)vfs, (void)room, (void)to;
    return 0;
}

static sqlite3_vfs nothing = {
    .iVersion = 1,
    .szOsFile = sizeof(sqlite3_file),
    .mxPathname = 64,
    .zName = "nothing",
    .xOpen = no_file,
    .xDelete = no_delete,
    .xAccess = no_access,
    .xFullPathname = same_name,
    .xRandomness = no_chance,
    .xSleep = no_sleep,
    .xCurrentTime = no_time,
    .xGetLastError = no_error,
};

int sqlite3_os_init(void) {
    return sqlite3_vfs_register(&nothing, 1);
}

int sqlite3_os_end(void) {
    return SQLITE_OK;
}

// ---- the program

static char *read_all(void) {
    size_t room = 4096, length = 0, got;
    char *text = malloc(room);
    while (text != NULL && (got = fread(text + length, 1, room - length - 1, stdin)) > 0) {
        length += got;
        if (length + 1 == room) {
            room *= 2;
            text = realloc(text, room);
        }
    }
    if (text != NULL) {
        text[length] = 0;
    }
    return text;
}

static int print_row(void *unused, int columns, char **values, char **names) {
    (void)unused, (void)names;
    for (int i = 0; i < columns; i++) {
        printf("%s%s", i > 0 ? "|" : "", values[i] != NULL ? values[i] : "");
    }
    putchar('\n');
    return 0;
}

int main(void) {
    sqlite3 *database;
    char *fault = NULL;
    char *text = read_all();
    if (text == NULL || sqlite3_open(":memory:", &database) != SQLITE_OK) {
        fprintf(stderr, "no database\n");
        return 1;
    }
    if (sqlite3_exec(database, text, print_row, NULL, &fault) != SQLITE_OK) {
        fprintf(stderr, "%s\n", fault != NULL ? fault : "out of memory");
        return 1;
    }
    sqlite3_close(database);
    return 0;
}
