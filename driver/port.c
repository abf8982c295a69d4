// Signals and replies go into the transmit buffer in the order in which the calls give them. Whatever the host does,
// they find room there:
//
//   - From one feed to the next, arrivals give one signal at most. It raises the mark; while flow control is on only a
//     take lowers it, and takes are followed by a feed at once; while it is off only a feed turns it on. A byte is kept
//     free for this signal, since arrivals cannot be put off.
//   - A feed needs DISPLAY_REPLY_ROOM for its first byte, and writes no more than it is lent. A time needs as much,
//     writes no more, and leaves the mark as it is.
//   - Takes without an arrival between them give one signal at most, since only an arrival raises the mark.
#include "port.h"

#include <string.h>

#if PORT_RECEIVE_SIZE > 128 || (PORT_RECEIVE_SIZE & (PORT_RECEIVE_SIZE - 1)) != 0 || PORT_TRANSMIT_SIZE < 4
#error "sizes that port.h does not allow"
#endif
#if PORT_FRAMEBUFFER_SIZE != DISPLAY_LOW_FRAMEBUFFER_SIZE && PORT_FRAMEBUFFER_SIZE != DISPLAY_TALL_FRAMEBUFFER_SIZE
#error "PORT_FRAMEBUFFER_SIZE is that of neither glass"
#endif

enum {
    ROOM_FOR_ARRIVALS = 1,
    ROOM_TO_FEED = DISPLAY_REPLY_ROOM + ROOM_FOR_ARRIVALS,
    ROOM_TO_TAKE = 1 + ROOM_TO_FEED
};

#define RECORDS(port) (port)->state, sizeof(port)->state, (port)->queue, sizeof(port)->queue

static size_t room(const Port *port)
{
    return PORT_TRANSMIT_SIZE - port->transmit_length;
}

// There is room, unless the records were damaged into others that are sound.
static void put_signal(Port *port, uint8_t signal)
{
    if (signal != DISPLAY_SIGNAL_NONE && room(port) > 0)
        port->transmit[port->transmit_length++] = signal;
}

static void transmit(Port *port)
{
    size_t sent;
    if (port->transmit_length == 0)
        return;
    sent = port->send(port->wire, port->transmit, port->transmit_length);
    port->transmit_length -= sent;
    memmove(port->transmit, port->transmit + sent, port->transmit_length);
}

// What comes during the round is left for the next one. A byte that finds the queue full is lost, and counted there.
static uint32_t hand_in(Port *port)
{
    uint8_t start = port->receive_start, end = port->receive_end, signal;
    while (start != end) {
        uint32_t answer = display_arrive(RECORDS(port), port->receive[start % PORT_RECEIVE_SIZE], &signal);
        if (answer == DISPLAY_BAD_RECORD)
            return answer;
        port->receive_start = ++start;
        port->queued += answer == DISPLAY_OK;
        put_signal(port, signal);
    }
    return DISPLAY_OK;
}

// A feed looks through all of the memory before it obeys its first byte, so it is given several. A take looks through the
// records, so none is made for nothing.
static uint32_t take_piece(Port *port)
{
    while (port->queued > 0 && port->piece_length < PORT_PIECE_SIZE) {
        uint8_t byte, signal;
        uint32_t answer = display_take(RECORDS(port), &byte, &signal);
        if (answer != DISPLAY_OK)
            return answer;
        port->queued--;
        port->piece[port->piece_length++] = byte;
        put_signal(port, signal);
    }
    return DISPLAY_OK;
}

// Sums that are too large for the number stay at its end, where every upload has long been dropped.
static void look_at_clock(Port *port, uint32_t now)
{
    uint32_t passed = now - port->clock;
    port->clock = now;
    port->passed = passed > UINT32_MAX - port->passed ? UINT32_MAX : port->passed + passed;
}

// Time waits for the room that a feed needs too, so no byte goes ahead of it.
static uint32_t pass_time(Port *port)
{
    display_length replied;
    uint32_t answer;
    if (port->passed == 0 || room(port) < ROOM_TO_FEED)
        return DISPLAY_OK;
    answer = display_time(port->framebuffer, port->framebuffer_length, port->store, port->store_length, port->state,
                          sizeof port->state, port->passed, port->transmit + port->transmit_length,
                          room(port) - ROOM_FOR_ARRIVALS, &replied);
    port->transmit_length += (size_t)replied;
    if (answer == DISPLAY_OK)
        port->passed = 0;
    return answer;
}

// Where the reply room ends before the piece does, the rest stays for a round that has sent some.
static uint32_t feed_piece(Port *port)
{
    display_length consumed, replied;
    uint32_t answer = display_feed(port->framebuffer, port->framebuffer_length, port->store, port->store_length,
                                   port->state, sizeof port->state, port->piece, port->piece_length,
                                   port->transmit + port->transmit_length, room(port) - ROOM_FOR_ARRIVALS, &consumed,
                                   &replied);
    port->transmit_length += (size_t)replied;
    port->piece_length -= (size_t)consumed;
    memmove(port->piece, port->piece + consumed, port->piece_length);
    return answer == DISPLAY_NO_REPLY_ROOM ? DISPLAY_OK : answer;
}

// So many rows, or all bytes where these are fewer: a height that does not fit is for display_start to refuse.
static display_length framebuffer_length(uint32_t height)
{
    return height <= PORT_FRAMEBUFFER_SIZE / DISPLAY_STRIDE ? height * DISPLAY_STRIDE : PORT_FRAMEBUFFER_SIZE;
}

uint32_t port_start(Port *port, uint32_t height, uint32_t edition, uint8_t *store, display_length store_length,
                    PortSend *send, void *wire, uint32_t now)
{
    port->framebuffer_length = framebuffer_length(height);
    port->store = store;
    port->store_length = store_length;
    port->send = send;
    port->wire = wire;
    port->clock = now;
    port->passed = 0;
    port->receive_start = 0;
    port->receive_end = 0;
    port->overruns = 0;
    port->queued = 0;
    port->piece_length = 0;
    port->transmit_length = 0;
    port->answer = display_start(height, edition, port->framebuffer, port->framebuffer_length, store, store_length,
                                 RECORDS(port));
    return port->answer;
}

void port_receive(Port *port, uint8_t byte)
{
    uint8_t end = port->receive_end;
    if ((uint8_t)(end - port->receive_start) < PORT_RECEIVE_SIZE) {
        port->receive[end % PORT_RECEIVE_SIZE] = byte;
        port->receive_end = (uint8_t)(end + 1);
    } else if (port->overruns < 255) {
        port->overruns++;
    }
}

// Sends twice: a signal does not wait for the piece to be obeyed, nor a reply for the next round.
uint32_t port_poll(Port *port, uint32_t now)
{
    if (port->answer == DISPLAY_OK)
        port->answer = hand_in(port);
    if (port->answer != DISPLAY_OK)
        return port->answer;
    transmit(port);
    look_at_clock(port, now);
    port->answer = pass_time(port);
    if (port->answer == DISPLAY_OK && port->piece_length == 0 && room(port) >= ROOM_TO_TAKE)
        port->answer = take_piece(port);
    if (port->answer == DISPLAY_OK && port->piece_length > 0 && room(port) >= ROOM_TO_FEED)
        port->answer = feed_piece(port);
    if (port->answer == DISPLAY_OK)
        transmit(port);
    return port->answer;
}

size_t port_waiting(const Port *port)
{
    return (uint8_t)(port->receive_end - port->receive_start) + port->queued + port->piece_length;
}
