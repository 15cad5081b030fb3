/* Everything from address 0 on: the vectors first, which begin with the reset's two longs, then code and data, then what begins
   as zero, which the image leaves out. A section that is not named here would go behind all that: make.sh has it refused. */
SECTIONS
{
    . = 0;
    .text : { *(.reset) vectors_end = .; *(.text*) *(.rodata*) *(.data*) }
    ASSERT(vectors_end >= 8, "nothing is in the section .reset: the reset's stack and start belong there")
    .bss : { *(.bss*) *(COMMON) }
    /DISCARD/ : { *(.comment) *(.note*) *(.eh_frame*) }
}
