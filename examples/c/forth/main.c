/* Takes a Forth program line by line from what is typed. */
#include "forth.h"

int main(void)
{
    static char line[200];
    while (read_line(line, sizeof line) >= 0) {
        if (strcmp(line, "bye") == 0)
            break;
        interpret(line);
    }
    return 0;
}
