/* A small chip. FLASH_AT, FLASH and RAM are given with --defsym. */
MEMORY
{
    flash (rx) : ORIGIN = FLASH_AT, LENGTH = FLASH
    ram (rwx) : ORIGIN = 0x20000000, LENGTH = RAM
}
ENTRY(reset)
SECTIONS
{
    .text : { KEEP(*(.vectors)) *(.text*) *(.rodata*) . = ALIGN(4); } > flash
    .ARM.exidx : { *(.ARM.exidx*) } > flash
    data_from = LOADADDR(.data);
    .data : { data_start = .; *(.data*) . = ALIGN(4); data_end = .; } > ram AT > flash
    .bss (NOLOAD) : { bss_start = .; *(.bss*) *(COMMON) . = ALIGN(8); bss_end = .; } > ram
    stack_end = bss_end;
    stack_top = ORIGIN(ram) + LENGTH(ram);
    /DISCARD/ : { *(.comment) }
}
