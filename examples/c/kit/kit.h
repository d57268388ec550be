/* The kit's library. What stands above the line is there on the host too (host.c), so a program that keeps to it also runs there. */
#ifndef KIT_H
#define KIT_H
#include <stdbool.h>
#include <stddef.h>

/* put.c: a character, a text */
void put(char c);
void put_text(const char *text);

/* print.c: %d %u %x %s %c %%, with a width, and with zeros to fill it as in %08x */
void print(const char *format, ...) __attribute__((format(printf, 1, 2)));

/* line.c: the next byte that was typed, or -1 where none has come yet; a whole line without its end, its length, or -1 at the end of the
   input, which is the byte 4 */
int get(void);
int read_line(char *line, unsigned room);

/* disk.c: a block of 4096 bytes comes into a page, or goes from one; the page has to be PAGE_ALIGNED */
enum disk_status { DISK_DONE, DISK_NO_BLOCK, DISK_NO_PAGE, DISK_NO_COMMAND };
enum disk_status disk_read(unsigned block, void *page);
enum disk_status disk_write(unsigned block, const void *page);

/* memory.c: what compilers call by themselves, and two more */
void *memcpy(void *to, const void *from, size_t count);
void *memmove(void *to, const void *from, size_t count);
void *memset(void *to, int byte, size_t count);
int memcmp(const void *one, const void *other, size_t count);
size_t strlen(const char *text);
int strcmp(const char *one, const char *other);

/* start.s: the virtual processor that calls it halts */
void halt(void) __attribute__((noreturn));

/* ---------------------------------------------------------------- */

/* packet.c: a page's first bytes go to a guest; a page is opened for one packet; what came */
void packet_send(unsigned guest, const void *page, unsigned length);
void packet_arm(void *page);
bool packet_came(void);
unsigned packet_length(void);
unsigned packet_sender(void);

/* lock.c: a lock that spins, and a sum that many may add to */
struct lock { unsigned held; };
void lock_take(struct lock *lock);
void lock_give(struct lock *lock);
unsigned atomic_add(unsigned *word, unsigned amount);

/* timer.c: an interrupt once so many steps have passed, and again so many steps after the last one was due */
void timer_start(unsigned steps);
void timer_again(unsigned steps);

/* refill.c: a page table of the addresses 0 to 7FFFF, which the TLB is filled from */
#define TABLE_PAGES 128
struct page_table { unsigned lo[TABLE_PAGES]; };
void page_map(struct page_table *table, unsigned address, unsigned page, bool writable);
void page_use(struct page_table *table, unsigned space);

/* trap.c and start.s: the registers of what a trap interrupted. The program may have a trapped() of its own, and returns from it to go on
   with what stands in the frame then; the kit's prints where the trap was and halts. */
struct frame { unsigned registers[32], hi, lo, epc, status, cause, bad_address; };
void trapped(struct frame *frame);
void trap_report(const struct frame *frame);

#endif
