/* The image of a module, linked at 0: text, then data, then what begins as zeros. */
ENTRY(_start)
SECTIONS
{
  .text 0 : { *(.text .text.*) }
  .data : { *(.rodata .rodata.*) *(.data .data.*) }
  .bss : { *(.bss .bss.*) *(COMMON) }
  /DISCARD/ : { *(.reginfo) *(.MIPS.abiflags) *(.gnu.attributes) *(.pdr) *(.mdebug.*) *(.comment) *(.note.*) *(.eh_frame) }
}
