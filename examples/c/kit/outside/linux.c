/* The kit's calls on Linux for MIPS, where qemu-mips runs the same objects. Disk: the file disk.img, to which nothing is written back. */
#include "../kit.h"

enum { READ = 4003, WRITE = 4004, OPEN = 4005, SEEK = 4019 };
long linux_call(long number, long one, long two, long three);

static char written[4096];
static unsigned count;

void linux_flush(void)
{
    if (count > 0)
        linux_call(WRITE, 1, (long)written, count);
    count = 0;
}

void put(char c)
{
    written[count++] = c;
    if (count == sizeof written)
        linux_flush();
}

void put_text(const char *text)
{
    while (*text != 0)
        put(*text++);
}

int get(void)
{
    unsigned char c;
    linux_flush();
    return linux_call(READ, 0, (long)&c, 1) == 1 ? c : 4;
}

#define KEPT 64 /* so many blocks may be written */
static unsigned char kept[KEPT][4096];
static unsigned kept_block[KEPT], kept_count;

static unsigned char *find(unsigned block)
{
    for (unsigned i = 0; i < kept_count; i++)
        if (kept_block[i] == block)
            return kept[i];
    return NULL;
}

/* the file, at the block; below 0 where there is none */
static long disk_at(unsigned block)
{
    static long file = -2;
    if (file == -2)
        file = linux_call(OPEN, (long)"disk.img", 0, 0);
    if (file < 0 || linux_call(SEEK, file, 0, 2) <= (long)block * 4096)
        return -1;
    linux_call(SEEK, file, (long)block * 4096, 0);
    return file;
}

enum disk_status disk_read(unsigned block, void *page)
{
    long file = disk_at(block);
    if (file < 0)
        return DISK_NO_BLOCK;
    if (find(block) != NULL) {
        memcpy(page, find(block), 4096);
        return DISK_DONE;
    }
    memset(page, 0, 4096);
    linux_call(READ, file, (long)page, 4096);
    return DISK_DONE;
}

enum disk_status disk_write(unsigned block, const void *page)
{
    unsigned char *to = find(block);
    if (disk_at(block) < 0)
        return DISK_NO_BLOCK;
    if (to == NULL) {
        if (kept_count == KEPT)
            return DISK_NO_COMMAND;
        kept_block[kept_count] = block;
        to = kept[kept_count++];
    }
    memcpy(to, page, 4096);
    return DISK_DONE;
}
