/* printf and its like: d i u x X o p c s n %, with flags, width, precision and length. Floating point is printed as (float). */
#include <ctype.h>
#include <stdarg.h>
#include <stdint.h>
#include <stdio.h>
#include <string.h>

/* where characters go: to a stream, or into a buffer as far as it has room */
struct out {
    FILE *stream;
    char *buffer;
    size_t room;
    int count;
};

/* what stands between % and the conversion; a precision below 0 is none; length: -2 hh, -1 h, 0, 1 l, 2 ll */
struct directive {
    int left, plus, space, zero, alternate, width, precision, length;
};

static void emit(struct out *out, char c)
{
    if (out->stream != NULL)
        fputc(c, out->stream);
    else if ((size_t)out->count + 1 < out->room)
        out->buffer[out->count] = c;
    out->count++;
}

static void fill(struct out *out, char c, int count)
{
    while (count-- > 0)
        emit(out, c);
}

static const char *read_flags(const char *at, struct directive *d)
{
    for (;; at++) {
        if (*at == '-')
            d->left = 1;
        else if (*at == '+')
            d->plus = 1;
        else if (*at == ' ')
            d->space = 1;
        else if (*at == '0')
            d->zero = 1;
        else if (*at == '#')
            d->alternate = 1;
        else
            return at;
    }
}

/* digits, or a * for the next argument */
static const char *read_number(const char *at, int *number, va_list *rest)
{
    if (*at == '*') {
        *number = va_arg(*rest, int);
        return at + 1;
    }
    for (*number = 0; isdigit((unsigned char)*at); at++)
        *number = *number * 10 + (*at - '0');
    return at;
}

static const char *read_length(const char *at, struct directive *d)
{
    for (;; at++) {
        if (*at == 'l')
            d->length++;
        else if (*at == 'h')
            d->length--;
        else if (*at == 'j')
            d->length = 2;
        else if (*at != 'z' && *at != 't')
            return at;
    }
}

static const char *read_directive(const char *at, struct directive *d, va_list *rest)
{
    memset(d, 0, sizeof *d);
    d->precision = -1;
    at = read_number(read_flags(at, d), &d->width, rest);
    if (d->width < 0) {
        d->left = 1;
        d->width = -d->width;
    }
    if (*at == '.')
        at = read_number(at + 1, &d->precision, rest);
    return read_length(at, d);
}

static uint64_t unsigned_argument(const struct directive *d, va_list *rest)
{
    uint64_t number = d->length >= 2 ? va_arg(*rest, uint64_t) : va_arg(*rest, unsigned);
    return d->length == -1 ? (uint16_t)number : d->length <= -2 ? (uint8_t)number : number;
}

static int64_t signed_argument(const struct directive *d, va_list *rest)
{
    int64_t number = d->length >= 2 ? va_arg(*rest, int64_t) : va_arg(*rest, int);
    return d->length == -1 ? (short)number : d->length <= -2 ? (signed char)number : number;
}

/* The digits before an end, and none for 0; answers where they begin. Division of 64 bits is dear, so it ends as soon as it can. */
static char *digits_before(char *end, uint64_t number, unsigned base, const char *digits)
{
    for (; number >> 32 != 0; number /= base)
        *--end = digits[number % base];
    for (uint32_t low = (uint32_t)number; low != 0; low /= base)
        *--end = digits[low % base];
    return end;
}

static void put_number(struct out *out, const struct directive *d, const char *sign, uint64_t number, unsigned base, const char *digits)
{
    char text[24], *end = text + sizeof text, *at = digits_before(end, number, base, digits);
    int length = (int)(end - at), least = d->precision < 0 ? 1 : d->precision;
    int zeros = least > length ? least - length : 0, total = (int)strlen(sign) + zeros + length;
    if (d->zero && !d->left && d->precision < 0 && d->width > total) {
        zeros += d->width - total;
        total = d->width;
    }
    if (base == 8 && d->alternate && zeros == 0) {
        zeros = 1;
        total++;
    }
    fill(out, ' ', d->left ? 0 : d->width - total);
    while (*sign != 0)
        emit(out, *sign++);
    fill(out, '0', zeros);
    while (at < end)
        emit(out, *at++);
    fill(out, ' ', d->left ? d->width - total : 0);
}

static void put_signed(struct out *out, const struct directive *d, int64_t number)
{
    const char *sign = number < 0 ? "-" : d->plus ? "+" : d->space ? " " : "";
    put_number(out, d, sign, number < 0 ? 0 - (uint64_t)number : (uint64_t)number, 10, "0123456789");
}

static void put_hexadecimal(struct out *out, const struct directive *d, uint64_t number, char conversion)
{
    int marked = conversion == 'p' || (d->alternate && number != 0);
    const char *digits = conversion == 'X' ? "0123456789ABCDEF" : "0123456789abcdef";
    put_number(out, d, !marked ? "" : conversion == 'X' ? "0X" : "0x", number, 16, digits);
}

/* so many characters, as a text that ends with a 0 needn't be there to its end */
static void put_text(struct out *out, const struct directive *d, const char *text, int length)
{
    fill(out, ' ', d->left ? 0 : d->width - length);
    for (int i = 0; i < length; i++)
        emit(out, text[i]);
    fill(out, ' ', d->left ? d->width - length : 0);
}

static void put_string(struct out *out, const struct directive *d, const char *text)
{
    int length = 0;
    if (text == NULL)
        text = "(null)";
    while ((d->precision < 0 || length < d->precision) && text[length] != 0)
        length++;
    put_text(out, d, text, length);
}

static void convert(struct out *out, const struct directive *d, char conversion, va_list *rest)
{
    char c = conversion;
    switch (conversion) {
    case 'd': case 'i': put_signed(out, d, signed_argument(d, rest)); break;
    case 'u': put_number(out, d, "", unsigned_argument(d, rest), 10, "0123456789"); break;
    case 'o': put_number(out, d, "", unsigned_argument(d, rest), 8, "01234567"); break;
    case 'x': case 'X': put_hexadecimal(out, d, unsigned_argument(d, rest), conversion); break;
    case 'p': put_hexadecimal(out, d, (uintptr_t)va_arg(*rest, void *), conversion); break;
    case 's': put_string(out, d, va_arg(*rest, const char *)); break;
    case 'n': *va_arg(*rest, int *) = out->count; break;
    case 'f': case 'e': case 'g': case 'F': case 'E': case 'G':
        (void)va_arg(*rest, double);
        put_text(out, d, "(float)", 7);
        break;
    case 'c': c = (char)va_arg(*rest, int); /* fall through */
    default: put_text(out, d, &c, 1); break;
    }
}

static int format_all(struct out *out, const char *at, va_list given)
{
    va_list rest;
    va_copy(rest, given);
    for (; *at != 0; at++) {
        struct directive d;
        if (*at != '%') {
            emit(out, *at);
            continue;
        }
        at = read_directive(at + 1, &d, &rest);
        if (*at == 0)
            break;
        convert(out, &d, *at, &rest);
    }
    va_end(rest);
    if (out->stream == NULL && out->room > 0)
        out->buffer[(size_t)out->count < out->room ? (size_t)out->count : out->room - 1] = 0;
    return out->count;
}

int vsnprintf(char *buffer, size_t room, const char *format, va_list rest)
{
    struct out out = { .buffer = buffer, .room = room };
    return format_all(&out, format, rest);
}

int vsprintf(char *buffer, const char *format, va_list rest)
{
    return vsnprintf(buffer, 0x7FFFFFFF, format, rest);
}

int vfprintf(FILE *stream, const char *format, va_list rest)
{
    struct out out = { .stream = stream };
    return format_all(&out, format, rest);
}

int vprintf(const char *format, va_list rest)
{
    return vfprintf(stdout, format, rest);
}

#define WITH_REST(call)           \
    va_list rest;                 \
    va_start(rest, format);       \
    int count = call;             \
    va_end(rest);                 \
    return count

int printf(const char *format, ...)
{
    WITH_REST(vfprintf(stdout, format, rest));
}

int fprintf(FILE *stream, const char *format, ...)
{
    WITH_REST(vfprintf(stream, format, rest));
}

int sprintf(char *buffer, const char *format, ...)
{
    WITH_REST(vsprintf(buffer, format, rest));
}

int snprintf(char *buffer, size_t room, const char *format, ...)
{
    WITH_REST(vsnprintf(buffer, room, format, rest));
}
