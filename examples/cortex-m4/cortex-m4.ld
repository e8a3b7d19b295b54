/* To fill in: where the chip has its flash and its RAM, how much of each is this program's, and the bytes of the stack. The stack stands lowest in RAM: where
 * it overflows the processor stops at a fault, and no byte of the node is overwritten. */
MEMORY
{
    flash (rx) : ORIGIN = 0x08000000, LENGTH = 64K
    ram (rwx) : ORIGIN = 0x20000000, LENGTH = 8K
}
stack_bytes = 2048;

ENTRY(reset)
SECTIONS
{
    .text : { KEEP(*(.vectors)) *(.text .text.*) *(.rodata .rodata.*) . = ALIGN(4); } > flash
    .bss (NOLOAD) : {
        . += stack_bytes;
        . = ALIGN(8);
        stack_top = .;
        bss_start = .;
        *(.bss .bss.*) *(COMMON)
        . = ALIGN(4);
        bss_end = .;
    } > ram
    .data : { data_start = .; *(.data .data.*) . = ALIGN(4); data_end = .; } > ram AT > flash
    data_from = LOADADDR(.data);
    /DISCARD/ : { *(.ARM.exidx*) }
}
