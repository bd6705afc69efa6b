/* The stub first, then the routine and its tables, then the page that is written: up to
   arena_end this is the bench's memory. The driver lies beyond it. */
ENTRY(_start)
SECTIONS
{
  . = 0x20000000;
  .bench :
  {
    *(.stub)
    routine_start = .;
    *(.text .text.*)
    routine_end = .;
    /* The linker turns a table's AUIPC into an ADDI from here: AUIPC is AUIPCC on the bench. */
    __global_pointer$ = . + 0x400;
    *(.rodata .rodata.* .srodata .srodata.* .data .data.* .sdata .sdata.*)
  }
  . = ALIGN(4096);
  .arena (NOLOAD) : { *(.arena) }
  . = ALIGN(64);
  arena_end = .;
  . = 0x20010000;
  .driver : { *(.driver) }
  . = ALIGN(4096);
  .driver.data : { *(.driver.data) }
  /DISCARD/ : { *(.comment) *(.note*) *(.eh_frame) *(.debug*) }
}
