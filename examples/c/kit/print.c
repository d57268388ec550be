/* Numbers and texts by a format. */
#include <stdarg.h>
#include "kit.h"

static void fill(char with, unsigned count)
{
    while (count-- > 0)
        put(with);
}

static void print_text(const char *text, unsigned width)
{
    unsigned length = strlen(text);
    put_text(text);
    fill(' ', width > length ? width - length : 0);
}

static void print_number(unsigned number, unsigned base, bool negative, char with, unsigned width)
{
    char digits[10]; /* as many as 4294967295 has */
    unsigned count = 0;
    do {
        digits[count++] = "0123456789abcdef"[number % base];
        number /= base;
    } while (number != 0);
    unsigned length = count + negative;
    unsigned missing = width > length ? width - length : 0;
    if (negative && with == '0')
        put('-');
    fill(with, missing);
    if (negative && with != '0')
        put('-');
    while (count > 0)
        put(digits[--count]);
}

static void print_signed(int number, char with, unsigned width)
{
    print_number(number < 0 ? 0u - (unsigned)number : (unsigned)number, 10, number < 0, with, width);
}

void print(const char *format, ...)
{
    va_list rest;
    va_start(rest, format);
    for (; *format != 0; format++) {
        if (*format != '%') {
            put(*format);
            continue;
        }
        char with = ' ';
        unsigned width = 0;
        if (*++format == '0')
            with = '0';
        while (*format >= '0' && *format <= '9')
            width = width * 10 + (unsigned)(*format++ - '0');
        switch (*format) {
        case 'd': print_signed(va_arg(rest, int), with, width); break;
        case 'u': print_number(va_arg(rest, unsigned), 10, false, with, width); break;
        case 'x': print_number(va_arg(rest, unsigned), 16, false, with, width); break;
        case 's': print_text(va_arg(rest, const char *), width); break;
        case 'c': put((char)va_arg(rest, int)); break;
        case 0: format--; break; /* the format ends with a % */
        default: put(*format); break;
        }
    }
    va_end(rest);
}
