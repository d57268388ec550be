/* A store of numbers by keys: it serves requests until all clients have said BYE. */
#include "disco.h"
#include "kit.h"
#include "store.h"

#define ENTRIES 32

static struct entry { char key[KEY]; unsigned value; } entries[ENTRIES];
static unsigned count, served[1 + CLIENTS];
static struct request request PAGE_ALIGNED;
static struct answer answer PAGE_ALIGNED;

static struct entry *find(const char *key)
{
    for (unsigned i = 0; i < count; i++)
        if (strcmp(entries[i].key, key) == 0)
            return &entries[i];
    return NULL;
}

/* the entry of a key, a new one of 0 where there is none; NULL where there is no room */
static struct entry *find_or_make(const char *key)
{
    struct entry *entry = find(key);
    if (entry == NULL && count < ENTRIES) {
        entry = &entries[count++];
        memcpy(entry->key, key, KEY);
    }
    return entry;
}

static void carry_out(struct entry *entry)
{
    if (entry != NULL && request.kind == SET)
        entry->value = request.value;
    if (entry != NULL && request.kind == ADD)
        entry->value += request.value;
    answer.found = entry != NULL;
    answer.value = entry != NULL ? entry->value : 0;
}

static void serve(unsigned client)
{
    if (client <= CLIENTS)
        served[client]++;
    request.key[KEY - 1] = 0;
    if (request.kind == HELLO) {
        answer.found = 1;
        answer.value = client;
    } else {
        carry_out(request.kind == GET ? find(request.key) : find_or_make(request.key));
    }
    packet_send(client, &answer, sizeof answer);
}

int main(void)
{
    for (unsigned left = CLIENTS; left > 0;) {
        packet_arm(&request);
        while (!packet_came()) {
        }
        if (request.kind == BYE)
            left--;
        else
            serve(packet_sender());
    }
    for (unsigned client = 1; client <= CLIENTS; client++)
        print("client %u: %u requests\n", client, served[client]);
    struct entry *total = find("total");
    print("%u keys, total %u\n", count, total != NULL ? total->value : 0);
    return 0;
}
