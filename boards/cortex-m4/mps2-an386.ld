/* qemu's board with a Cortex-M4, for test programs. It loads data where it stays, so nothing is copied at the start. */
ENTRY(Reset_Handler)

MEMORY
{
    code (rx) : ORIGIN = 0x00000000, LENGTH = 4M
    ram (rw) : ORIGIN = 0x20000000, LENGTH = 4M
}

SECTIONS
{
    .text : { KEEP(*(.vectors)) *(.text .text.*) *(.rodata .rodata.*) } >code
    .ARM.extab : { *(.ARM.extab .ARM.extab.*) } >code
    .ARM.exidx : { __exidx_start = .; *(.ARM.exidx .ARM.exidx.*) __exidx_end = .; } >code
    .data : { *(.data .data.*) } >ram
    .bss : { *(.bss .bss.*) *(COMMON) } >ram
    . = ALIGN(8);
    end = .; /* the heap grows from here, and the stack towards it */
    stack_top = ORIGIN(ram) + LENGTH(ram);
}
