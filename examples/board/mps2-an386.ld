/* Where a program lies on the board mps2-an386: code and constants in the memory from 0 on, all else in that from 0x20000000 on, with
   the stack at its end. */
MEMORY
{
    code (rx) : ORIGIN = 0x00000000, LENGTH = 4M
    data (rw) : ORIGIN = 0x20000000, LENGTH = 4M
}
INCLUDE cortex-m.ld
