/* A page table, and the handler that fills the TLB from it. An entry of the TLB is of two pages, so the table is read in pairs of words: each the
   page's number from bit 6 on, 4 where it may be written, 2 where it is there. A page that isn't leads to trapped(), as TLB_LOAD or TLB_STORE. */
#include "disco.h"
#include "kit.h"

struct page_table *page_table; /* the one in use */

/* C0000000. Context has 16 bytes for each pair of pages, the table 8. The vector of start.s stands behind this. */
__asm__(".section .vector.refill, \"ax\"\n"
        "\t.set push\n\t.set noreorder\n\t.set noat\n\t.set mips3\n"
        "\tmfc0  $26, $4\n"
        "\tlui   $27, %hi(page_table)\n"
        "\tsrl   $26, $26, 10\n"
        "\tbnez  $26, 1f\n"              /* beyond the table's 64 pairs */
        "\tmfc0  $26, $4\n"
        "\tlw    $27, %lo(page_table)($27)\n"
        "\tsrl   $26, $26, 1\n"
        "\taddu  $27, $27, $26\n"
        "\tlw    $26, 0($27)\n"
        "\tlw    $27, 4($27)\n"
        "\tmtc0  $26, $2\n"              /* EntryLo0; EntryHi has the pair already */
        "\tmtc0  $27, $3\n"              /* EntryLo1 */
        "\ttlbwr\n"
        "\teret\n"                       /* and the instruction is tried again */
        "1:\n\t.set pop\n\t.text\n");

/* for an address that the table has */
void page_map(struct page_table *table, unsigned address, unsigned page, bool writable)
{
    if (address / PAGE_SIZE < TABLE_PAGES)
        table->lo[address / PAGE_SIZE] = page << 6 | (writable ? 4 : 0) | 2;
}

/* The entries of other spaces stay in the TLB, and don't match. */
void page_use(struct page_table *table, unsigned space)
{
    page_table = table;
    write_cp0(ENTRY_HI, space & 0xFF);
}
