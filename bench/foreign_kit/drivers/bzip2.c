/* bzip2's library: each file that is named is decompressed if it begins with BZh, else compressed and decompressed again. */
#include <stdio.h>
#include <stdlib.h>
#include <string.h>
#include "bzlib.h"

void bz_internal_error(int e)
{
    printf("bzip2: internal error %d\n", e);
    exit(3);
}

static unsigned sum(const unsigned char *p, unsigned n)
{
    unsigned a = 1, b = 0;
    for (unsigned i = 0; i < n; i++) {
        a += p[i];
        if (a >= 65521)
            a -= 65521;
        b += a;
        if (b >= 65521)
            b -= 65521;
    }
    return b << 16 | a;
}

static unsigned slurp(const char *name, unsigned char **p)
{
    FILE *f = fopen(name, "rb");
    if (!f) {
        printf("no %s\n", name);
        exit(1);
    }
    fseek(f, 0, SEEK_END);
    unsigned n = ftell(f);
    rewind(f);
    *p = malloc(n + 1);
    fread(*p, 1, n, f);
    fclose(f);
    return n;
}

int main(int argc, char **argv)
{
    printf("bzip2 %s\n", BZ2_bzlibVersion());
    for (int i = 1; i < argc; i++) {
        unsigned char *a, *b, *c;
        unsigned n = slurp(argv[i], &a), m = 300000, k;
        int r;
        b = malloc(m);
        printf("%s: %u bytes %08x\n", argv[i], n, sum(a, n));
        if (!memcmp(a, "BZh", 3)) {
            r = BZ2_bzBuffToBuffDecompress((char *)b, &m, (char *)a, n, 0, 0);
            printf("  decompressed: %d, %u bytes %08x\n", r, m, sum(b, m));
            a[n / 2] ^= 1;
            k = 300000;
            r = BZ2_bzBuffToBuffDecompress((char *)b, &k, (char *)a, n, 1, 0);
            printf("  damaged: %d\n", r);
        } else {
            r = BZ2_bzBuffToBuffCompress((char *)b, &m, (char *)a, n, 1, 0, 30);
            printf("  compressed: %d, %u bytes %08x\n", r, m, sum(b, m));
            c = malloc(n + 1);
            k = n + 1;
            r = BZ2_bzBuffToBuffDecompress((char *)c, &k, (char *)b, m, 0, 0);
            printf("  and back: %d, %u bytes, %s\n", r, k, k == n && !memcmp(a, c, n) ? "the same" : "DIFFERENT");
            free(c);
        }
        free(a);
        free(b);
    }
    return 0;
}
