/* Reads a text from the disk, compresses it by zlib, and sends it to guest 1: a whole page at a time, each answered by the page's checksum. */
#include <stdio.h>
#include <string.h>
#include "disco.h"
#include "kit.h"
#include "zlib.h"
#include "zlib_pool.h"

static unsigned char block[PAGE_SIZE] PAGE_ALIGNED, out[PAGE_SIZE] PAGE_ALIGNED, back[PAGE_SIZE] PAGE_ALIGNED;
static unsigned pages;

static void send(unsigned length)
{
    unsigned want = adler32(1, out, length), got;
    packet_arm(back);
    packet_send(1, out, length);
    while (!packet_came()) {
    }
    memcpy(&got, back, sizeof got);
    printf("page %u: %u bytes, %08x %s\n", pages++, length, want, got == want ? "agreed" : "NOT THE SAME");
}

/* the block's bytes up to its last that isn't 0 */
static unsigned used(void)
{
    unsigned length = PAGE_SIZE;
    while (length > 0 && block[length - 1] == 0)
        length--;
    return length;
}

/* what is given goes through, and each page that is full is sent */
static void deflate_all(z_stream *stream, int flush)
{
    for (;;) {
        int status = deflate(stream, flush);
        if (stream->avail_out == 0) {
            send(PAGE_SIZE);
            stream->next_out = out;
            stream->avail_out = PAGE_SIZE;
        } else if (status == Z_STREAM_END || (stream->avail_in == 0 && flush == Z_NO_FLUSH)) {
            return;
        }
    }
}

int main(void)
{
    static z_stream stream;
    unsigned total = 0, crc = 0;
    stream.zalloc = pool_take;
    stream.zfree = pool_give;
    deflateInit2(&stream, 1, Z_DEFLATED, 12, 5, Z_DEFAULT_STRATEGY);
    stream.next_out = out;
    stream.avail_out = PAGE_SIZE;
    for (unsigned number = 0; disk_read(number, block) == DISK_DONE; number++) {
        stream.next_in = block;
        stream.avail_in = used();
        total += stream.avail_in;
        crc = crc32(crc, block, stream.avail_in);
        deflate_all(&stream, Z_NO_FLUSH);
    }
    deflate_all(&stream, Z_FINISH);
    send(PAGE_SIZE - stream.avail_out);
    packet_send(1, out, 1); /* one byte: it was the last */
    printf("%u bytes read, crc %08x, %lu sent\n", total, crc, stream.total_out);
    return 0;
}
