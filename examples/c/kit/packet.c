/* Packets: up to a page of bytes to another guest. The sender isn't told whether one was lost; a packet comes only into a page that is armed,
   which it disarms, and waits until then (64 on the way from one guest to another; the next is lost). */
#include "disco.h"
#include "kit.h"

void packet_send(unsigned guest, const void *page, unsigned length)
{
    store_device(SEND_PAGE, page_of(page));
    store_device(SEND_LENGTH, length);
    memory_barrier();
    store_device(SEND, guest);
}

void packet_arm(void *page)
{
    store_device(PACKET_TAKEN, 0);
    memory_barrier();
    store_device(ARMED, page_of(page));
}

bool packet_came(void)
{
    bool came = load_device(ARMED) == NOTHING;
    memory_barrier();
    return came;
}

unsigned packet_length(void)
{
    return load_device(PACKET_LENGTH);
}

unsigned packet_sender(void)
{
    return load_device(PACKET_SENDER);
}
