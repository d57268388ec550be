/* Floating point by whole numbers, in the names that compilers call under -msoft-float: double, and float as far as it becomes one or comes of one.
   Results are rounded to the nearest, ties to even. */
#include <stdint.h>

typedef uint32_t u32;
typedef int32_t s32;
typedef uint64_t u64;
typedef int64_t s64;

/* a number and its bits */
typedef union {
    double d;
    u64 u;
} dd;

typedef union {
    float f;
    u32 u;
} ff;

#define SIGN 0x8000000000000000ull
#define INF 0x7FF0000000000000ull
#define NAN_ 0x7FF8000000000000ull
#define ONE 0x0010000000000000ull /* the first bit of a mantissa, which isn't written */

/* zeros before the first 1 */
static int top(u64 x)
{
    u32 h = (u32)(x >> 32);
    return h ? __builtin_clz(h) : (u32)x ? 32 + __builtin_clz((u32)x) : 64;
}

/* shifted right; what is lost stays as a last bit */
static u64 shr(u64 m, int n)
{
    return n <= 0 ? m : n > 63 ? m != 0 : m >> n | ((m << (64 - n)) != 0);
}

/* the number m * 2^(e - 1023 - 62), m not 0; what is below m's last bit is in that bit */
static double pack(u64 sign, int e, u64 m)
{
    dd r;
    int s = top(m) - 1; /* the first bit goes to bit 62 */
    if (s < 0) {
        m = shr(m, 1);
        e++;
    } else {
        m <<= s;
        e -= s;
    }
    if (e >= 2047) {
        r.u = sign | INF;
        return r.d;
    }
    if (e <= 0) {
        m = shr(m, 1 - e);
        e = 0;
    }
    u64 low = m & 0x3FF;
    m >>= 10;
    if (low > 0x200 || (low == 0x200 && (m & 1)))
        m++;
    r.u = sign | (e ? ((u64)(e - 1) << 52) + m : m);
    if ((r.u & INF) == INF)
        r.u = sign | INF;
    return r.d;
}

/* the exponent, and the mantissa from bit 62 on */
static int open_(u64 u, u64 *m)
{
    int e = (int)(u >> 52) & 2047;
    *m = u & (ONE - 1);
    if (e)
        *m |= ONE;
    else
        e = 1;
    *m <<= 10;
    return e;
}

/* it is no number */
static int nan(u64 u)
{
    return (u & ~SIGN) > INF;
}

/* the number of these bits */
static double of(u64 u)
{
    dd r;
    r.u = u;
    return r.d;
}

double __adddf3(double x, double y)
{
    dd a = {x}, b = {y};
    u64 m, n, s, t;
    int e, f;
    if (nan(a.u) || nan(b.u))
        return of(NAN_);
    if ((a.u & ~SIGN) < (b.u & ~SIGN)) {
        dd c = a;
        a = b;
        b = c;
    }
    if ((a.u & INF) == INF)
        return of((b.u & INF) == INF && a.u != b.u ? NAN_ : a.u);
    s = a.u & SIGN;
    t = b.u & SIGN;
    e = open_(a.u, &m);
    f = open_(b.u, &n);
    n = shr(n, e - f);
    m = s == t ? m + n : m - n;
    if (!m)
        return of(s == t ? s : 0);
    return pack(s, e, m);
}

double __subdf3(double x, double y)
{
    dd b = {y};
    b.u ^= SIGN;
    return nan(b.u) ? of(NAN_) : __adddf3(x, b.d);
}

double __negdf2(double x)
{
    dd a = {x};
    a.u ^= SIGN;
    return a.d;
}

double __muldf3(double x, double y)
{
    dd a = {x}, b = {y};
    u64 s = (a.u ^ b.u) & SIGN, m, n;
    int e, f;
    if (nan(a.u) || nan(b.u))
        return of(NAN_);
    if ((a.u & INF) == INF || (b.u & INF) == INF)
        return of(!(a.u & ~SIGN) || !(b.u & ~SIGN) ? NAN_ : s | INF);
    if (!(a.u & ~SIGN) || !(b.u & ~SIGN))
        return of(s);
    e = open_(a.u, &m);
    f = open_(b.u, &n);
    m <<= 1;
    n <<= 1; /* below 2^64: the product's high word has two bits to spare */
    u64 mh = m >> 32, ml = (u32)m, nh = n >> 32, nl = (u32)n, lo = ml * nl, c1 = mh * nl + (lo >> 32), c2 = ml * nh + (u32)c1,
        hi = mh * nh + (c1 >> 32) + (c2 >> 32);
    u64 low = (c2 << 32) | (u32)lo;
    int z = top(hi);
    if (z && z < 64) {
        hi = hi << z | low >> (64 - z);
        low <<= z;
    } else if (z == 64) {
        hi = low;
        low = 0;
    }
    return pack(s, e + f - 1023 + 1 - z, shr(hi, 1) | (low != 0));
}

double __divdf3(double x, double y)
{
    dd a = {x}, b = {y};
    u64 s = (a.u ^ b.u) & SIGN, m, n, q = 0;
    int e, f;
    if (nan(a.u) || nan(b.u))
        return of(NAN_);
    if ((a.u & INF) == INF)
        return of((b.u & INF) == INF ? NAN_ : s | INF);
    if ((b.u & INF) == INF)
        return of(s);
    if (!(b.u & ~SIGN))
        return of(a.u & ~SIGN ? s | INF : NAN_);
    if (!(a.u & ~SIGN))
        return of(s);
    e = open_(a.u, &m);
    f = open_(b.u, &n);
    int z = top(m) - 1;
    m <<= z;
    e -= z;
    z = top(n) - 1;
    n <<= z;
    f -= z;
    for (int i = 0; i < 62; i++) {
        q <<= 1;
        if (m >= n) {
            m -= n;
            q |= 1;
        }
        m <<= 1;
    }
    return pack(s, e - f + 1023 + 1, q | (m != 0));
}

/* -1, 0, 1, or 2 where one is no number */
static int cmp(double x, double y)
{
    dd a = {x}, b = {y};
    if (nan(a.u) || nan(b.u))
        return 2;
    if (!((a.u | b.u) & ~SIGN))
        return 0;
    if ((a.u ^ b.u) & SIGN)
        return a.u & SIGN ? -1 : 1;
    return a.u == b.u ? 0 : (a.u < b.u) == !(a.u & SIGN) ? -1 : 1;
}

int __eqdf2(double x, double y)
{
    return cmp(x, y) != 0;
}

int __nedf2(double x, double y)
{
    return cmp(x, y) != 0;
}

int __ltdf2(double x, double y)
{
    int c = cmp(x, y);
    return c == 2 ? 1 : c;
}

int __ledf2(double x, double y)
{
    int c = cmp(x, y);
    return c == 2 ? 1 : c;
}

int __gtdf2(double x, double y)
{
    int c = cmp(x, y);
    return c == 2 ? -1 : c;
}

int __gedf2(double x, double y)
{
    int c = cmp(x, y);
    return c == 2 ? -1 : c;
}

int __unorddf2(double x, double y)
{
    return cmp(x, y) == 2;
}

double __floatundidf(u64 n)
{
    return n ? n >> 63 ? pack(0, 1023 + 63, shr(n, 1)) : pack(0, 1023 + 62, n) : of(0);
}

double __floatdidf(s64 n)
{
    return n < 0 ? __negdf2(__floatundidf(0 - (u64)n)) : __floatundidf((u64)n);
}

double __floatsidf(s32 n)
{
    return __floatdidf(n);
}

double __floatunsidf(u32 n)
{
    return __floatundidf(n);
}

static u64 whole(double x, u64 most)
{
    dd a = {x};
    int e = (int)(a.u >> 52) & 2047;
    u64 m = (a.u & (ONE - 1)) | ONE;
    if (e < 1023)
        return 0;
    if (e > 1023 + 63)
        return most;
    m = e < 1075 ? m >> (1075 - e) : m << (e - 1075);
    return m > most ? most : m;
}

u64 __fixunsdfdi(double x)
{
    dd a = {x};
    return a.u & SIGN ? 0 : whole(x, ~0ull);
}

s64 __fixdfdi(double x)
{
    dd a = {x};
    return a.u & SIGN ? (s64)(0 - whole(x, SIGN)) : (s64)whole(x, SIGN - 1);
}

s32 __fixdfsi(double x)
{
    dd a = {x};
    return a.u & SIGN ? (s32)(0 - (u32)whole(x, 0x80000000u)) : (s32)whole(x, 0x7FFFFFFF);
}

u32 __fixunsdfsi(double x)
{
    dd a = {x};
    return a.u & SIGN ? 0 : (u32)whole(x, 0xFFFFFFFFu);
}

double __extendsfdf2(float x)
{
    ff a = {x};
    u64 s = (u64)(a.u & 0x80000000u) << 32;
    u32 e = a.u >> 23 & 255, m = a.u & 0x7FFFFF;
    if (e == 255)
        return of(s | (m ? NAN_ : INF));
    if (!e)
        return m ? pack(s, 897 + 62 - 23, m) : of(s); /* m * 2^-149 */
    return of(s | (u64)(e + 896) << 52 | (u64)m << 29);
}

float __truncdfsf2(double x)
{
    dd a = {x};
    ff r;
    u32 s = (u32)(a.u >> 32) & 0x80000000u;
    int e = ((int)(a.u >> 52) & 2047) - 896;
    u64 m = (a.u & (ONE - 1)) | ONE;
    if (nan(a.u)) {
        r.u = 0x7FC00000;
        return r.f;
    }
    if (e >= 255) {
        r.u = s | 0x7F800000;
        return r.f;
    }
    if (e == -896) {
        r.u = s;
        return r.f;
    }
    if (e <= 0) {
        m = shr(m, 1 - e);
        e = 0;
    }
    u32 low = (u32)m & 0x1FFFFFFF, h = (u32)(m >> 29);
    if (low > 0x10000000 || (low == 0x10000000 && (h & 1)))
        h++;
    r.u = s | (e ? ((u32)(e - 1) << 23) + h : h);
    return r.f;
}
