/* The sections of a program on a Cortex-M, by the memories `code` and `data` of the script that includes this one. */
ENTRY(reset)
SECTIONS
{
    .text :
    {
        KEEP(*(.vectors))
        *(.text*)
        *(.rodata*)
        . = ALIGN(4);
    } >code
    .data :
    {
        data_first = .;
        *(.data*)
        . = ALIGN(4);
        data_end = .;
    } >data AT>code
    data_values = LOADADDR(.data);
    .bss (NOLOAD) :
    {
        bss_first = .;
        *(.bss* COMMON)
        . = ALIGN(8);
        bss_end = .;
    } >data
    /* What is left below the stack is free. */
    free_first = bss_end;
    stack_end = ORIGIN(data) + LENGTH(data);
    /DISCARD/ :
    {
        *(.ARM.exidx* .ARM.extab* .ARM.attributes .comment)
    }
}
