/* SQLite in memory, without floating point: the smallest VFS that it asks for, and a script. */
#include <stdio.h>
#include <string.h>
#include "sqlite3.h"

static int v_open(sqlite3_vfs *v, const char *n, sqlite3_file *f, int fl, int *o)
{
    (void)v;
    (void)n;
    (void)f;
    (void)fl;
    (void)o;
    return SQLITE_CANTOPEN;
}

static int v_delete(sqlite3_vfs *v, const char *n, int s)
{
    (void)v;
    (void)n;
    (void)s;
    return SQLITE_OK;
}

static int v_access(sqlite3_vfs *v, const char *n, int f, int *r)
{
    (void)v;
    (void)n;
    (void)f;
    *r = 0;
    return SQLITE_OK;
}

static int v_full(sqlite3_vfs *v, const char *n, int m, char *o)
{
    (void)v;
    strncpy(o, n, m);
    return SQLITE_OK;
}

static int v_random(sqlite3_vfs *v, int n, char *o)
{
    (void)v;
    memset(o, 7, n);
    return n;
}

static int v_sleep(sqlite3_vfs *v, int n)
{
    (void)v;
    return n;
}

static int v_error(sqlite3_vfs *v, int n, char *o)
{
    (void)v;
    (void)n;
    (void)o;
    return 0;
}

static int v_time64(sqlite3_vfs *v, sqlite3_int64 *t)
{
    (void)v;
    *t = 212000000000000LL;
    return 0;
}

static sqlite3_vfs vfs = {2, 0, 64, 0, "none",   0,       v_open, v_delete, v_access, v_full,
                          0, 0, 0,  0, v_random, v_sleep, 0,      v_error,  v_time64};
int sqlite3_os_init(void)
{
    return sqlite3_vfs_register(&vfs, 1);
}

int sqlite3_os_end(void)
{
    return SQLITE_OK;
}

static int row(void *x, int n, char **v, char **name)
{
    (void)x;
    (void)name;
    for (int i = 0; i < n; i++)
        printf("%s%s", i ? "|" : "", v[i] ? v[i] : "NULL");
    printf("\n");
    return 0;
}

int main(int argc, char **argv)
{
    static char text[20000];
    sqlite3 *db;
    char *e = 0;
    FILE *f = fopen(argc > 1 ? argv[1] : "script.sql", "r");
    if (!f) {
        printf("no script\n");
        return 1;
    }
    text[fread(text, 1, sizeof text - 1, f)] = 0;
    printf("SQLite %s\n", sqlite3_libversion());
    int r = sqlite3_open(":memory:", &db);
    if (r) {
        printf("open: %d\n", r);
        return 1;
    }
    for (char *s = text, *t; *s; s = t) {
        t = strstr(s, ";\n");
        if (!t)
            break;
        t += 2;
        char k = *t;
        *t = 0;
        r = sqlite3_exec(db, s, row, 0, &e);
        if (r) {
            printf("error %d: %s\n", r, e ? e : "?");
            sqlite3_free(e);
            e = 0;
        }
        *t = k;
    }
    sqlite3_close(db);
    printf("memory in use %d\n", (int)sqlite3_memory_used());
    return 0;
}
