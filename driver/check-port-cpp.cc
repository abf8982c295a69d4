// port.h from C++: one command through the driver, and its reply.
#include "port.h"

static Port port;
static uint8_t store[DISPLAY_STORE_LEAST];
static uint8_t sent[2];

static size_t accept(void *wire, const uint8_t *bytes, size_t count)
{
    if (wire != sent || count != sizeof sent)
        return 0;
    sent[0] = bytes[0];
    sent[1] = bytes[1];
    return count;
}

static bool is_served(uint32_t height, uint32_t edition)
{
    const uint8_t serial_number[] = {254, 52, 'S', 'N'};
    bool done = port_start(&port, height, edition, store, sizeof store, accept, sent, 7) == DISPLAY_OK;
    sent[0] = sent[1] = 0;
    for (uint8_t byte : serial_number)
        port_receive(&port, byte);
    done = done && port_waiting(&port) == sizeof serial_number && port_poll(&port, 8) == DISPLAY_OK;
    return done && port_waiting(&port) == 0 && sent[0] == 'S' && sent[1] == 'N';
}

int main()
{
    bool low = is_served(DISPLAY_LOW_HEIGHT, DISPLAY_OLDER_EDITION);
    bool tall = is_served(DISPLAY_TALL_HEIGHT, DISPLAY_NEWER_EDITION);
    return low && tall ? 0 : 1;
}
