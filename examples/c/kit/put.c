/* A character and a text on the console. */
#include "disco.h"
#include "kit.h"

void put(char c)
{
    store_device(CONSOLE, (unsigned char)c);
}

void put_text(const char *text)
{
    while (*text != 0)
        put(*text++);
}
