/* What a Cortex-M does before main: it takes its stack and its first instruction from the table of vectors; then the variables get
   their first values, what is left for the stack is painted, and main is called. A handler that no other file has ends in `stop`. */
#include <stdint.h>

/* Of the linker script. */
extern uint32_t data_first[], data_end[], data_values[], bss_first[], bss_end[], stack_end[];

int main(void);
void reset(void), stop(void);

/* What the memory holds that no stack has ever reached: so it can be seen, by a debugger too, how deep it went. */
const uint32_t stack_paint = 0x5AA5A55A;

/* What is done with main's result, where a file says it: firmware has nobody to tell. */
__attribute__((weak)) void finish(int status);

void reset(void) {
#ifdef __ARM_FP
    *(volatile uint32_t *)0xE000ED88u |= 0xFu << 20; /* the floating-point unit is off until it is allowed */
    __asm__ volatile("dsb\n\tisb" ::: "memory");
#endif
    const uint32_t *value = data_values;
    for (uint32_t *word = data_first; word < data_end; word++) {
        *word = *value++;
    }
    for (uint32_t *word = bss_first; word < bss_end; word++) {
        *word = 0;
    }
    for (volatile uint32_t *word = bss_end; word < (uint32_t *)__builtin_frame_address(0) - 16; word++) {
        *word = stack_paint;
    }
    const int status = main();
    if (finish) {
        finish(status);
    }
    for (;;) {
    }
}

/* A fault, or an interrupt that nothing handles. A watchdog gets the board out of it. */
void stop(void) {
    for (;;) {
    }
}

#define HANDLER __attribute__((weak, alias("stop")))
void hard_fault(void) HANDLER;
void every_10_ms(void) HANDLER;
void uart0_received(void) HANDLER;
void uart0_sent(void) HANDLER;
void uart1_received(void) HANDLER;
void uart1_sent(void) HANDLER;

/* The first 16 are those of every Cortex-M, of which these handle faults and SysTick; then those of this board's interrupts. */
struct vectors {
    uint32_t *stack;
    void (*handlers[15 + 4])(void);
};

__attribute__((section(".vectors"), used)) static const struct vectors vectors = {
    stack_end,
    {reset, stop, hard_fault, stop, stop, stop, stop, stop, stop, stop, stop, stop, stop, stop, every_10_ms,
     uart0_received, uart0_sent, uart1_received, uart1_sent}};
