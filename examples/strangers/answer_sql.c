/* SQL to one database in memory: the rows, a line each, or the error. */
#include "service.h"
#include <sqlite3.h>
#include <stdlib.h>
#include <string.h>

static sqlite3 *database;

/* x_count(x): how many rows there are. An aggregate that is no window function, as an application makes one. */
static void count_step(sqlite3_context *context, int count, sqlite3_value **values)
{
    (void)count;
    (void)values;
    int *counted = sqlite3_aggregate_context(context, sizeof *counted);
    if (counted)
        ++*counted;
}

static void count_end(sqlite3_context *context)
{
    int *counted = sqlite3_aggregate_context(context, 0);
    sqlite3_result_int(context, counted ? *counted : 0);
}

void begin(void)
{
    if (sqlite3_open(":memory:", &database) != SQLITE_OK ||
        sqlite3_create_function(database, "x_count", -1, SQLITE_UTF8, NULL, NULL, count_step, count_end) != SQLITE_OK)
        exit(1);
}

static int write_row(void *to, int count, char **values, char **names)
{
    (void)names;
    for (int i = 0; i < count; i++)
        fprintf(to, "%s%s", i ? "|" : "", values[i] ? values[i] : "NULL");
    fputc('\n', to);
    return 0;
}

void answer(const char *text, size_t length, FILE *to)
{
    char *error = NULL, *statements = strndup(text, length);
    if (sqlite3_exec(database, statements, write_row, to, &error) != SQLITE_OK)
        fprintf(to, "error: %s\n", error);
    sqlite3_free(error);
    free(statements);
}
