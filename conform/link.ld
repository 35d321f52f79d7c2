/* One piece of code and data from address 0, with its relocations kept: the loader of each way in moves it to where it is. */
SECTIONS
{
    . = 0;
    .text : { *start.o(.text) *(.text*) *(.rodata*) *(.data*) }
    . = ALIGN(4);
    .bss : { __bss_start = .; *(.bss*) *(COMMON) . = ALIGN(4); __bss_end = .; }
    /DISCARD/ : { *(.comment) *(.note*) *(.eh_frame*) }
}
