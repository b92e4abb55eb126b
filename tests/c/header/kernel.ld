/* The layout of a kernel of x86-64: code, constants and data one behind the other, in the last 2 GiB of the address space. CONSTANTS is how far the constants
   stand behind the code. */
ENTRY(entry)
SECTIONS
{
    . = 0xffffffff80000000;
    .text : { *(.text .text.*) }
    . = ALIGN(4096) + CONSTANTS;
    .rodata : { *(.rodata .rodata.*) }
    .data : { *(.data .data.* .data.rel.ro .data.rel.ro.*) }
    .bss : { *(.bss .bss.*) }
    /DISCARD/ : { *(.comment .note.*) }
}
