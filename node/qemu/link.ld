/* Flash at 0 and RAM at 0x20000000: the emulated mps2-an385 (Cortex-M3) and micro:bit (Cortex-M0). */
ENTRY(reset)
MEMORY { FLASH (rx) : ORIGIN = 0x0, LENGTH = 256K  RAM (rwx) : ORIGIN = 0x20000000, LENGTH = 16K }
SECTIONS {
  .text : { KEEP(*(.vectors)) *(.text*) *(.rodata*) } > FLASH
  /DISCARD/ : { *(.ARM.exidx*) *(.ARM.extab*) }
  data_load = ALIGN(LOADADDR(.text) + SIZEOF(.text), 4);
  .data : AT(data_load) { data_start = .; *(.data*) . = ALIGN(4); data_end = .; } > RAM
  .bss (NOLOAD) : { bss_start = .; *(.bss*) *(COMMON) . = ALIGN(8); bss_end = .; } > RAM
  stack_top = ORIGIN(RAM) + LENGTH(RAM);
}
