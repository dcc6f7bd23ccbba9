/* Text at address 0, data behind it, the stack at the end of lent memory; the build says how much is lent. */
ENTRY(start)
SECTIONS
{
    .text 0 : { *(.start) *(.text .text.*) }
    text_end = .;
    .rodata : { *(.rodata .rodata.*) }
    .data : { *(.data .data.*) }
    .bss : { *(.bss .bss.* COMMON) }
    /DISCARD/ : { *(.comment) *(.gnu.attributes) *(.note*) }
    stack = lent - 16;
    ASSERT(. + 1024 <= stack, "less than 1 KiB is left for the stack")
}
