/* Blocks of the disk. A command is done when its store is: there is nothing to wait for. */
#include "disco.h"
#include "kit.h"

static enum disk_status command(unsigned what, unsigned block, const void *page)
{
    store_device(DISK_BLOCK, block);
    store_device(DISK_PAGE, page_of(page));
    memory_barrier(); /* the page as the program left it, and as the command leaves it */
    store_device(DISK_COMMAND, what);
    memory_barrier();
    return (enum disk_status)load_device(DISK_STATUS);
}

enum disk_status disk_read(unsigned block, void *page)
{
    return command(1, block, page);
}

enum disk_status disk_write(unsigned block, const void *page)
{
    return command(2, block, page);
}
