/* The memory of QEMU's board mps2-an385: code from address 0, variables and stack from 0x20000000. QEMU's loader puts initialised variables
 * into place itself. */
MEMORY { CODE (rx) : ORIGIN = 0, LENGTH = 512K
         DATA (rw) : ORIGIN = 0x20000000, LENGTH = 512K }
ENTRY(reset)
SECTIONS
{
    .text : { KEEP(*(.vectors)) *(.text*) *(.rodata*) *(.init*) *(.fini*) . = ALIGN(4); } > CODE
    .ARM.exidx : { __exidx_start = .; *(.ARM.exidx*) __exidx_end = .; } > CODE
    .data : { *(.data*) } > DATA
    .bss : { __bss_start__ = .; *(.bss*) *(COMMON) __bss_end__ = .; end = .; _end = .; __end__ = .; } > DATA
    end_of_stack = ORIGIN(DATA) + LENGTH(DATA);
}
