/* Sorting, in a heap, and searching. */
#include <stddef.h>
#include <stdint.h>
#include <stdlib.h>

typedef int compare(const void *, const void *);

static void swap(char *one, char *other, size_t bytes)
{
    while (bytes-- > 0) {
        char kept = *one;
        *one++ = *other;
        *other++ = kept;
    }
}

/* What stands at a place sinks below all that are greater: in a heap an item is no less than the two at twice its place. */
static void sink(char *items, size_t place, size_t count, size_t each, compare *order)
{
    for (size_t child = 2 * place + 1; child < count; place = child, child = 2 * place + 1) {
        if (child + 1 < count && order(items + child * each, items + (child + 1) * each) < 0)
            child++;
        if (order(items + place * each, items + child * each) >= 0)
            return;
        swap(items + place * each, items + child * each, each);
    }
}

void qsort(void *items, size_t count, size_t each, compare *order)
{
    for (size_t place = count / 2; place-- > 0;)
        sink(items, place, count, each, order);
    while (count > 1) {
        count--;
        swap(items, (char *)items + count * each, each);
        sink(items, 0, count, each, order);
    }
}

void *bsearch(const void *key, const void *items, size_t count, size_t each, compare *order)
{
    const char *first = items;
    while (count > 0) {
        const char *middle = first + count / 2 * each;
        int told = order(key, middle);
        if (told == 0)
            return (void *)middle;
        if (told > 0) {
            first = middle + each;
            count = (count - 1) / 2;
        } else {
            count /= 2;
        }
    }
    return NULL;
}
