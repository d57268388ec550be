/* Takes pages from guest 0, answers each by its checksum, inflates them, and prints what came. */
#include <stdio.h>
#include <string.h>
#include "disco.h"
#include "kit.h"
#include "zlib.h"
#include "zlib_pool.h"

static unsigned char in[PAGE_SIZE] PAGE_ALIGNED, answer[PAGE_SIZE] PAGE_ALIGNED, text[PAGE_SIZE];
static unsigned total, crc, lines;

static int inflate_all(z_stream *stream, unsigned length)
{
    int status;
    stream->next_in = in;
    stream->avail_in = length;
    do {
        stream->next_out = text;
        stream->avail_out = sizeof text;
        status = inflate(stream, Z_NO_FLUSH);
        unsigned made = sizeof text - stream->avail_out;
        total += made;
        crc = crc32(crc, text, made);
        for (unsigned i = 0; i < made; i++)
            lines += text[i] == '\n';
    } while (status == Z_OK && (stream->avail_in > 0 || stream->avail_out == 0));
    return status;
}

int main(void)
{
    static z_stream stream;
    int status = Z_OK;
    stream.zalloc = pool_take;
    stream.zfree = pool_give;
    inflateInit(&stream);
    for (;;) {
        packet_arm(in);
        while (!packet_came()) {
        }
        unsigned length = packet_length();
        if (length == 1)
            break;
        unsigned sum = adler32(1, in, length);
        status = inflate_all(&stream, length);
        memcpy(answer, &sum, sizeof sum);
        packet_send(packet_sender(), answer, sizeof sum);
    }
    printf("inflated %u bytes, %u lines, crc %08x, %s\n", total, lines, crc, status == Z_STREAM_END ? "whole" : "NOT WHOLE");
    return 0;
}
