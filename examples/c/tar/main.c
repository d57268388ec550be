/* Reads a tar archive from the disk: lists its files, prints those that are short, and sums up the others. */
#include "disco.h"
#include "kit.h"

#define RECORD 512
#define SHORT 200

/* a file's header, in a record of its own; numbers are octal digits */
struct header {
    char name[100], mode[8], owner[8], group[8], size[12], time[12], checksum[8], kind;
};

static unsigned char block[PAGE_SIZE] PAGE_ALIGNED;

/* the record of a number, until the next one is asked for; NULL where the disk ends */
static const unsigned char *record(unsigned number)
{
    static unsigned held = NOTHING;
    unsigned wanted = number / (PAGE_SIZE / RECORD);
    if (wanted != held && disk_read(wanted, block) != DISK_DONE)
        return NULL;
    held = wanted;
    return block + number % (PAGE_SIZE / RECORD) * RECORD;
}

static unsigned octal(const char *digits, unsigned count)
{
    unsigned value = 0;
    for (unsigned i = 0; i < count && digits[i] >= '0' && digits[i] <= '7'; i++)
        value = value * 8 + (unsigned)(digits[i] - '0');
    return value;
}

/* the sum of the header's bytes, in which the checksum's own eight are spaces */
static bool is_whole(const struct header *header)
{
    const unsigned char *bytes = (const unsigned char *)header;
    unsigned sum = 8 * ' ';
    for (unsigned i = 0; i < RECORD; i++)
        sum += bytes[i];
    for (unsigned i = 0; i < sizeof header->checksum; i++)
        sum -= (unsigned char)header->checksum[i];
    return sum == octal(header->checksum, sizeof header->checksum);
}

static void show_rights(const struct header *header)
{
    unsigned mode = octal(header->mode, sizeof header->mode);
    put(header->kind == '5' ? 'd' : '-');
    for (int bit = 8; bit >= 0; bit--)
        put(mode >> bit & 1 ? "xwr"[bit % 3] : '-');
}

/* the content, from a record on: itself where it is short, else its lines and the sum of its bytes */
static void show_content(unsigned from, unsigned size)
{
    unsigned lines = 0, sum = 0;
    for (unsigned at = 0; at < size; at++) {
        const unsigned char *bytes = record(from + at / RECORD);
        if (bytes == NULL) {
            put_text("    the disk ends in the file\n");
            return;
        }
        unsigned char c = bytes[at % RECORD];
        if (size <= SHORT)
            put((char)c);
        lines += c == '\n';
        sum += c;
    }
    if (size > SHORT)
        print("    %u lines, sum %u\n", lines, sum);
}

int main(void)
{
    for (unsigned at = 0;;) {
        struct header header;
        const unsigned char *bytes = record(at);
        if (bytes == NULL || bytes[0] == 0)
            break;
        if (!is_whole((const struct header *)bytes)) {
            print("record %u is no header\n", at);
            break;
        }
        memcpy(&header, bytes, sizeof header);
        unsigned size = octal(header.size, sizeof header.size);
        show_rights(&header);
        print(" %6u %s\n", size, header.name);
        show_content(at + 1, size);
        at += 1 + (size + RECORD - 1) / RECORD;
    }
    return 0;
}
