/* The kit's calls on the computer that builds: what a program prints there is what it has to print as a guest. */
#include <stdio.h>
#include <stdlib.h>
#include <string.h>
#include "../kit.h"

void put(char c)
{
    putchar(c);
}

void put_text(const char *text)
{
    fputs(text, stdout);
}

/* the end of the input is the byte 4, as the kit has it */
int get(void)
{
    int c = getchar();
    return c == EOF ? 4 : c;
}

void halt(void)
{
    exit(0);
}

/* the disk is the file disk.img; what is written stays in memory, as with a guest */
#define MOST_BLOCKS 1024
static unsigned char *blocks;
static unsigned block_count;

static void disk_open(void)
{
    if (blocks != NULL)
        return;
    blocks = calloc(MOST_BLOCKS, 4096);
    FILE *file = fopen("disk.img", "rb");
    if (file == NULL)
        return;
    block_count = (unsigned)(fread(blocks, 1, MOST_BLOCKS * 4096, file) + 4095) / 4096;
    fclose(file);
}

enum disk_status disk_read(unsigned block, void *page)
{
    disk_open();
    if (block >= block_count)
        return DISK_NO_BLOCK;
    memcpy(page, blocks + 4096 * block, 4096);
    return DISK_DONE;
}

enum disk_status disk_write(unsigned block, const void *page)
{
    disk_open();
    if (block >= block_count)
        return DISK_NO_BLOCK;
    memcpy(blocks + 4096 * block, page, 4096);
    return DISK_DONE;
}
