// A reference port driver: one display on one serial line, for a board to copy. C99 and C++11, no operating system.
//
//     static Port port;
//     void uart_interrupt(void) { port_receive(&port, UART_DATA); }
//     ...
//     uint32_t answer = port_start(&port, DISPLAY_LOW_HEIGHT, DISPLAY_OLDER_EDITION, store, sizeof store, uart_send,
//                                  NULL, ticks());
//     while (answer == DISPLAY_OK) {
//         show(port.framebuffer, display_contrast(port.state), display_backlight_is_on(port.state));
//         answer = port_poll(&port, ticks());
//     }
//
// Once round this loop must take less time than PORT_RECEIVE_SIZE bytes on the wire: 66 ms at 19,200 baud.
//
// ticks() is the board's clock: milliseconds since any moment, which run on by themselves and go from 4,294,967,295 to
// 0. The clock may step by more than one of them at a time: a time call looks through all of the memory, and there is
// one in each round in which the clock has gone on.

#ifndef PORT_H
#define PORT_H

#include "display.h"

#include <stddef.h>

#ifdef __cplusplus
extern "C" {
#endif

#define PORT_RECEIVE_SIZE 128u // bytes that may come between two rounds: a power of two, 128 at most
#define PORT_PIECE_SIZE 16u    // bytes obeyed in one round
#define PORT_TRANSMIT_SIZE 32u // bytes that wait for the wire: 4 at least

// Room for either glass. A board that has the low one only saves 1,920 bytes by
// -D PORT_FRAMEBUFFER_SIZE=DISPLAY_LOW_FRAMEBUFFER_SIZE, the same for every file that includes this one.
#ifndef PORT_FRAMEBUFFER_SIZE
#define PORT_FRAMEBUFFER_SIZE DISPLAY_TALL_FRAMEBUFFER_SIZE
#endif

// Hands bytes to the wire, and says how many of them, from the first on, it has accepted. It may accept none.
typedef size_t PortSend(void *wire, const uint8_t *bytes, size_t count);

// Framebuffer and records stand in it as arrays, so they are as long as is said and share no byte.
typedef struct {
    uint8_t framebuffer[PORT_FRAMEBUFFER_SIZE];
    display_length framebuffer_length; // of the glass that was started; what lies behind is not used
    uint8_t state[DISPLAY_STATE_RECORD_SIZE];
    uint8_t queue[DISPLAY_QUEUE_RECORD_SIZE];
    uint8_t *store;
    display_length store_length;
    PortSend *send;
    void *wire;
    uint32_t answer; // what port_poll says
    uint32_t clock;  // what it showed when it was last looked at
    uint32_t passed; // milliseconds up to then that are still to be handed in

    // The ring between handler and main loop. Each index is one byte and has one writer, so no lock is needed; volatile
    // keeps the order of the accesses. That is enough on one core.
    volatile uint8_t receive[PORT_RECEIVE_SIZE];
    volatile uint8_t receive_end;   // the handler writes it
    volatile uint8_t receive_start; // the main loop writes it
    volatile uint8_t overruns;      // bytes that found the ring full; stays at 255

    size_t queued; // bytes in the queue record
    uint8_t piece[PORT_PIECE_SIZE]; // taken, not yet fed
    size_t piece_length;
    uint8_t transmit[PORT_TRANSMIT_SIZE]; // given by the calls, not yet sent
    size_t transmit_length;
} Port;

// Power-up of a glass of `height` rows for hosts of an edition, with the receive interrupt off. `wire` goes to every
// call of `send`; `now` is what the clock shows.
// The answer of display_start; for the tall glass where there is room for the low one only, BAD_FRAMEBUFFER_SIZE.
// Unless it is DISPLAY_OK the store is as it was, and what to do about its size or its broken directory is for the
// board to decide.
uint32_t port_start(Port *port, uint32_t height, uint32_t edition, uint8_t *store, display_length store_length,
                    PortSend *send, void *wire, uint32_t now);

// A byte has come on the wire. For the interrupt handler.
void port_receive(Port *port, uint8_t byte);

// One round: hands in what has come and the time that has passed up to `now`, obeys up to PORT_PIECE_SIZE bytes, sends
// what the wire accepts.
// An upload that no byte was obeyed of for DISPLAY_UPLOAD_TIMEOUT is dropped, also where that is because its host has
// not read what was sent to it.
// DISPLAY_OK, or why the driver has stopped: the start was refused, or memory has been damaged since. It does nothing
// more until port_start.
uint32_t port_poll(Port *port, uint32_t now);

// Bytes received and not yet obeyed. While they are fewer than DISPLAY_QUEUE_CAPACITY one more is sure not to be lost:
// a board with a handshake line holds the host back by it.
size_t port_waiting(const Port *port);

#ifdef __cplusplus
}
#endif

#endif
