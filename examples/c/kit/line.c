/* A line that was typed. What doesn't fit is dropped; there is no end of a guest's input, so the byte 4 stands for it (Ctrl-D). */
#include "kit.h"

#define END 4

static int wait(void)
{
    int c;
    do
        c = get();
    while (c < 0);
    return c;
}

int read_line(char *line, unsigned room)
{
    unsigned length = 0;
    int c = wait();
    if (c == END)
        return -1;
    for (; c != '\n' && c != END; c = wait())
        if (length + 1 < room)
            line[length++] = (char)c;
    line[length] = 0;
    return (int)length;
}
