/* Memory of a Cortex-M under qemu; where it is and how much of it is the machine's, by --defsym. */
MEMORY {
    FLASH (rx) : ORIGIN = FLASH_AT, LENGTH = FLASH_SIZE
    RAM (rwx) : ORIGIN = RAM_AT, LENGTH = RAM_SIZE
}
SECTIONS {
    .text : { KEEP(*(.vectors)) *(.text*) *(.rodata*) } > FLASH
    .ARM.exidx : { *(.ARM.exidx*) } > FLASH
    .data : ALIGN(4) { data_start = .; *(.data*) . = ALIGN(4); data_end = .; } > RAM AT > FLASH
    data_load = LOADADDR(.data);
    .bss (NOLOAD) : ALIGN(4) { bss_start = .; *(.bss*) *(COMMON) . = ALIGN(4); bss_end = .; } > RAM
    stack_top = ORIGIN(RAM) + LENGTH(RAM);
}
ENTRY(reset)
