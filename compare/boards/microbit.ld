/* Where a program lies on the board microbit, a Cortex-M0: 256 KB of flash and 16 KB of memory, with the stack at its end. */
MEMORY
{
    code (rx) : ORIGIN = 0x00000000, LENGTH = 256K
    data (rw) : ORIGIN = 0x20000000, LENGTH = 16K
}
INCLUDE cortex-m.ld
