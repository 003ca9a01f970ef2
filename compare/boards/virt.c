/* What the board virt, an RV32IMC processor, does before main: a stack, variables at zero, and main's result to the emulator. */
#include <stdint.h>
#include <stdio.h>
#include <stdlib.h>
#include <unistd.h>

extern uint32_t bss_first[], bss_end[];

int main(void);
void begin(void);

__attribute__((naked, section(".start"))) void reset(void) {
    __asm__ volatile(".option push\n\t.option norelax\n\tla gp, global_pointer\n\t.option pop\n\tla sp, stack_end\n\tj begin");
}

/* picolibc knows the emulator's standard output as a stream alone, and not by its number. */
ssize_t write(int file, const void *bytes, size_t length) {
    (void)file;
    return (ssize_t)fwrite(bytes, 1, length, stdout);
}

void begin(void) {
    for (uint32_t *word = bss_first; word < bss_end; word++) {
        *word = 0;
    }
    exit(main());
}
