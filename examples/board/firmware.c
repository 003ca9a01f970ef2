/* A wheel's command unit on a board: the emulated mps2-an386, a Cortex-M4 with UARTs of Arm's CMSDK. Port 0 is UART0, port 1 UART1.
   It was run on the emulator alone, and on no real board.

   What runs where:
     - The interrupts of a UART move bytes and do nothing else: what is received goes into a ring for its port, and what is sent
       comes from the unit's reply buffer.
     - The interrupt of SysTick is the control loop, each 10 ms. It has variables of its own and touches none of the unit's.
     - `main` makes every call of the unit, so there is one at a time, and moves what the control loop has to say into EDAC memory
       between two calls.

   How the two share the processor: a call can be broken into by any interrupt, since no interrupt touches what is lent to it. So
   the control loop is on time whatever the unit does. It might as well be called by `main` between two calls; then it is late by
   one call at most, of which the dearest that is known takes some 44,000 instructions (docs/MEASURED.md): 1.8 ms at 25 MHz and less
   than 1 ms at 64 MHz, at one a cycle. Meanwhile a line of 460,800 baud brings 46 bytes in each millisecond, which the ring keeps;
   and `serve` gives a port no byte behind one that has an answer, so that no two dear ones follow one another there.

   What both touch, and why that is safe:
     - `steps` and `speed`: written by the control loop alone, and read by `main` with interrupts off, so that both are of one step.
     - A line's ring: the interrupt alone moves `put`, and `main` alone `got`; each first uses the place, and then lets go of it.
     - The reply buffer of a port: the interrupt reads it while the port is sending. `main` tells each call of the unit that it is,
       and then no call writes it.
     - EDAC memory, the FRAMs, the record and all else of the unit: `main` alone. */
#include "wheel.h"

#include <stddef.h>
#include <stdint.h>

enum { STRAP = 1, CLOCK = 25000000, BAUD = 460800, TICKS_A_SECOND = 100 };

/* The board's registers. */
struct uart {
    volatile uint32_t data, state, control, interrupts, divider;
};
#define UART0 ((struct uart *)0x40004000u)
#define UART1 ((struct uart *)0x40005000u)
enum { RECEIVED_FULL = 2 };                                         /* state */
enum { SEND = 1, RECEIVE = 2, SENT_CALLS = 4, RECEIVED_CALLS = 8 }; /* control: `calls` are the interrupts */
enum { SENT = 1, RECEIVED = 2 };                                    /* interrupts: writing a bit clears it */

struct systick {
    volatile uint32_t control, reload, value;
};
#define SYSTICK ((struct systick *)0xE000E010u)
enum { TICK_RUNS = 1, TICK_CALLS = 2, TICK_BY_PROCESSOR = 4 }; /* control */

#define INTERRUPTS_ON ((volatile uint32_t *)0xE000E100u) /* a bit for each: 0 to 3 are those of the two UARTs */

static void interrupts_off(void) { __asm__ volatile("cpsid i" ::: "memory"); }
static void interrupts_on(void) { __asm__ volatile("cpsie i" ::: "memory"); }
static void wait_for_interrupt(void) { __asm__ volatile("wfi" ::: "memory"); }

/* A port's line. `reply`, `left` and `sending` are main's while the port is silent, and the interrupt's while it is sending. */
enum { RING = 512 }; /* a power of two */
struct line {
    struct uart *uart;
    volatile uint8_t ring[RING];
    volatile uint32_t put, got; /* how many bytes ever came in, and were taken out */
    const uint8_t *volatile reply;
    volatile size_t left;
    volatile uint8_t sending;
};
static struct line lines[2] = {{.uart = UART0}, {.uart = UART1}};

/* A byte was received. A full ring takes none: the byte stays in the UART, whose interrupt is turned off until main has made room. */
static void received(struct line *line) {
    line->uart->interrupts = RECEIVED;
    while (line->uart->state & RECEIVED_FULL) {
        if (line->put - line->got == RING) {
            line->uart->control &= ~(uint32_t)RECEIVED_CALLS;
            return;
        }
        line->ring[line->put % RING] = (uint8_t)line->uart->data;
        line->put++;
    }
}

/* A byte of a reply has left: the next one, or the port is silent. Where a line is shared, it is to be told so one byte later, since
   the last one is still on its way. */
static void sent(struct line *line) {
    line->uart->interrupts = SENT;
    if (line->left > 0) {
        line->left--;
        line->uart->data = *line->reply++;
    } else {
        line->sending = WHEEL_SILENT;
    }
}

void uart0_received(void) { received(&lines[0]); }
void uart0_sent(void) { sent(&lines[0]); }
void uart1_received(void) { received(&lines[1]); }
void uart1_sent(void) { sent(&lines[1]); }

/* The control loop: a stand-in for one, of a wheel that is faster by 0.125 after each step. It writes these alone. */
static volatile uint32_t steps;
static volatile float speed;

void every_10_ms(void) {
    steps++;
    speed = (float)steps / 8;
}

/* The unit. Its FRAMs are RAM here. */
static uint8_t edac[WHEEL_EDAC], bootloader[65536], user[65536];
static uint16_t bootloader_sums[sizeof bootloader / WHEEL_FRAM_BLOCK], user_sums[sizeof user / WHEEL_FRAM_BLOCK];
static struct wheel wheel = {.edac = edac,
                             .bootloader = {bootloader, sizeof bootloader, bootloader_sums},
                             .user = {user, sizeof user, user_sums}};

/* Where EDAC memory shows the control loop: SPEED, which no command can write, and four bytes that the ICD leaves free. */
enum { SPEED = 0x054, STEPS = 0x0C0 };

/* What the control loop has to say, moved into EDAC memory between two calls. Both are of one step: no tick comes in between. */
static void show_control(void) {
    interrupts_off();
    const uint32_t now = steps;
    const float turning = speed;
    interrupts_on();
    __builtin_memcpy(edac + STEPS, &now, sizeof now);
    __builtin_memcpy(edac + SPEED, &turning, sizeof turning);
}

/* Sends the reply of the last call, if it has one. Its port was silent when that call was made, and nobody else makes it send. */
static void send_reply(void) {
    uint8_t port;
    size_t length;
    const uint8_t *reply = wheel_reply(&wheel, &port, &length);
    if (length > 0) {
        struct line *line = &lines[port];
        line->sending = WHEEL_SENDING;
        line->reply = reply + 1;
        line->left = length - 1;
        line->uart->data = reply[0]; /* its interrupt brings the next */
    }
}

/* Some bytes of a port's ring, if there are any: so many that the control loop is shown and the other port heard soon again. */
static void serve(uint8_t port) {
    enum { AT_ONCE = 64 };
    static uint8_t bytes[AT_ONCE];
    struct line *line = &lines[port];
    size_t length = 0;
    while (length < AT_ONCE && line->got + length != line->put) {
        bytes[length] = line->ring[(line->got + length) % RING];
        length++;
    }
    if (length == 0) {
        return;
    }
    show_control();
    line->got += wheel_bytes(&wheel, port, bytes, length, lines[0].sending, lines[1].sending); /* up to the first with an answer */
    send_reply();
    if (!(line->uart->control & RECEIVED_CALLS)) { /* the ring was full: the byte that waits in the UART calls no more */
        interrupts_off();
        line->uart->control |= RECEIVED_CALLS;
        received(line);
        interrupts_on();
    }
}

int main(void) {
    for (int port = 0; port < 2; port++) {
        lines[port].uart->divider = CLOCK / BAUD;
        lines[port].uart->control = SEND | RECEIVE | SENT_CALLS | RECEIVED_CALLS;
    }
    if (wheel_begin(&wheel, STRAP, WHEEL_LIMIT_MOST, WHEEL_UNLOCKED) != WHEEL_TAKEN) {
        return 1; /* the strap, the limit or a length is wrong */
    }
    *INTERRUPTS_ON = 0xF;
    SYSTICK->reload = CLOCK / TICKS_A_SECOND - 1;
    SYSTICK->value = 0;
    SYSTICK->control = TICK_RUNS | TICK_CALLS | TICK_BY_PROCESSOR;
    for (;;) {
        serve(0);
        serve(1);
        /* With interrupts off none is lost between the look at the rings and the wait: one that is due ends the wait. */
        interrupts_off();
        if (lines[0].put == lines[0].got && lines[1].put == lines[1].got) {
            wait_for_interrupt();
        }
        interrupts_on();
    }
}
