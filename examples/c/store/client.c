/* A client of the store: sets five keys of its own, adds each to a sum that the other client adds to as well, and reads its keys again. */
#include "disco.h"
#include "kit.h"
#include "store.h"

static struct request request PAGE_ALIGNED;
static struct answer answer PAGE_ALIGNED;

static void send(enum request_kind kind, const char *key, unsigned value)
{
    request.kind = kind;
    request.value = value;
    memset(request.key, 0, KEY);
    memcpy(request.key, key, strlen(key));
    packet_send(SERVER, &request, sizeof request);
}

/* A packet is lost where no page is armed in the end, so the answer's page is armed before the question goes. */
static unsigned ask(enum request_kind kind, const char *key, unsigned value)
{
    packet_arm(&answer);
    send(kind, key, value);
    while (!packet_came()) {
    }
    return answer.value;
}

int main(void)
{
    unsigned me = ask(HELLO, "", 0);
    char key[] = "key ..";
    key[4] = (char)('0' + me);
    for (unsigned i = 1; i <= 5; i++) {
        key[5] = (char)('a' + i);
        ask(SET, key, me * 100 + i * i);
        ask(ADD, "total", i);
    }
    print("client %u\n", me);
    for (unsigned i = 1; i <= 6; i++) {
        key[5] = (char)('a' + i);
        unsigned value = ask(GET, key, 0);
        if (answer.found)
            print("%s is %u\n", key, value);
        else
            print("%s isn't there\n", key);
    }
    send(BYE, "", 0);
    return 0;
}
