/* Where a program lies on the emulator's board virt: all of it in its memory from 0x80000000 on, with the stack at the end of the
   first 16 MB. */
OUTPUT_ARCH(riscv)
ENTRY(reset)
SECTIONS
{
    . = 0x80000000;
    .text : { *(.start) *(.text*) *(.rodata* .srodata*) }
    .data : ALIGN(16) { *(.data*) . = ALIGN(16); global_pointer = . + 0x800; *(.sdata*) }
    .bss (NOLOAD) : ALIGN(16)
    {
        bss_first = .;
        *(.sbss* .bss* COMMON)
        . = ALIGN(16);
        bss_end = .;
    }
    __heap_start = .;
    stack_end = 0x81000000;
    __heap_end = stack_end - 0x10000;
}
