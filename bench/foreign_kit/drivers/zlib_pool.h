/* Memory for zlib that is never given back. */
static unsigned char pool[200000];
static unsigned pool_used;

static void *pool_take(void *opaque, unsigned items, unsigned size)
{
    (void)opaque;
    void *taken = pool + pool_used;
    pool_used = (pool_used + items * size + 15) & ~15u;
    return pool_used <= sizeof pool ? taken : 0;
}

static void pool_give(void *opaque, void *taken)
{
    (void)opaque;
    (void)taken;
}
