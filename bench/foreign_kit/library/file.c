/* Files: the console, and files in memory, of which the build embeds some. */
#include <stddef.h>
#include <stdint.h>
#include <errno.h>
#include <stdio.h>
#include <stdlib.h>
#include <string.h>
#include "platform.h"

static struct kit_file in_ = { .kind = IS_INPUT, .back = -1 };
static struct kit_file out_ = { .kind = IS_OUTPUT, .back = -1 };
static struct kit_file err_ = { .kind = IS_OUTPUT, .back = -1 };
FILE *stdin = &in_, *stdout = &out_, *stderr = &err_;
static struct entry *files;
static int mounted;

/* the embedded files become entries, once */
static void mount(void)
{
    if (mounted)
        return;
    mounted = 1;
    for (const struct embedded *k = embedded_files; k->name; k++) {
        struct entry *e = malloc(sizeof *e);
        if (!e)
            break;
        e->name = k->name;
        e->data = (unsigned char *)k->data;
        e->size = (size_t)(k->end - k->data);
        e->room = 0;
        e->next = files;
        files = e;
    }
}

static struct entry *find(const char *name)
{
    mount();
    for (struct entry *e = files; e; e = e->next)
        if (!strcmp(e->name, name))
            return e;
    return 0;
}

static FILE *stream(struct entry *e)
{
    FILE *f = calloc(1, sizeof *f);
    if (!f)
        return 0;
    f->kind = IS_FILE;
    f->entry = e;
    f->back = -1;
    f->own = 1;
    return f;
}

static struct entry *fresh(const char *name)
{
    struct entry *e = calloc(1, sizeof *e);
    if (!e)
        return 0;
    e->name = strdup(name);
    e->next = files;
    files = e;
    return e;
}

/* The file "/disk" is the guest's disk, read as a whole at the first fopen; zeros at its end are cut off, since nothing tells its
 * length. */
static struct entry *disk_file(void)
{
    static unsigned char page[4096] PAGE_ALIGNED;
    struct entry *e = fresh("/disk");
    FILE *f = e ? stream(e) : 0;
    for (unsigned b = 0; f && disk_read(b, page) == 0; b++)
        fwrite(page, 1, 4096, f);
    while (e && e->size && !e->data[e->size - 1])
        e->size--;
    if (f)
        fclose(f);
    return e;
}

FILE *fopen(const char *name, const char *mode)
{
    struct entry *e = find(name);
    if (!e && !strcmp(name, "/disk"))
        e = disk_file();
    if (!e) {
        if (mode[0] == 'r') {
            errno = ENOENT;
            return 0;
        }
        e = fresh(name);
        if (!e)
            return 0;
    }
    FILE *f = stream(e);
    if (!f)
        return 0;
    if (mode[0] == 'w')
        e->size = 0;
    if (mode[0] == 'a')
        f->at = e->size;
    return f;
}

FILE *freopen(const char *name, const char *mode, FILE *f)
{
    FILE *g = fopen(name, mode);
    if (!g)
        return 0;
    *f = *g;
    f->own = 0;
    free(g);
    return f;
}

FILE *tmpfile(void)
{
    static int n;
    char b[16];
    sprintf(b, "tmp%d", n++);
    return fopen(b, "w");
}

int fclose(FILE *f)
{
    if (f->own)
        free(f);
    return 0;
}

int remove(const char *name)
{
    find(name);
    for (struct entry **p = &files; *p; p = &(*p)->next)
        if (!strcmp((*p)->name, name)) {
            *p = (*p)->next;
            return 0;
        }
    errno = ENOENT;
    return -1;
}

int unlink(const char *name)
{
    return remove(name);
}

int rename(const char *a, const char *b)
{
    struct entry *e = find(a);
    if (!e)
        return -1;
    remove(b);
    e->name = strdup(b);
    return 0;
}
