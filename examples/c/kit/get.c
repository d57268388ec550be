/* A byte that was typed. */
#include "disco.h"
#include "kit.h"

int get(void)
{
    return (int)load_device(INPUT); /* NOTHING is -1 */
}
