/* Where a program stands in the memory of thynvm: from the default base, 65536, on. The machine's loader takes
   the two segments; the heap begins behind them, at the break. The stack of a program that starts by crt0.s comes
   down to the base, from where the program begins. One with a start of its own, which names no __stack_size, begins
   at the base, and its stack comes down from the end of memory. */
ENTRY(_start)

PHDRS
{
    code PT_LOAD FLAGS(5);
    data PT_LOAD FLAGS(6);
}

/* `exit` is that of the C library, which runs what has to be run before the end. Without a library it ends at once. */
PROVIDE(exit = _exit);

SECTIONS
{
    . = 65536;
    __stack_begin = .;
    . += DEFINED(__stack_size) ? __stack_size : 0;
    __stack_end = .;
    .text : { *(.text.start) *(.text .text.*) } :code
    .rodata : { *(.rodata .rodata.* .srodata .srodata.*) } :code
    . = ALIGN(4096);
    .data : { *(.data .data.*) } :data
    .init_array : {
        PROVIDE_HIDDEN(__constructors_start = .);
        KEEP(*(.preinit_array))
        KEEP(*(SORT_BY_INIT_PRIORITY(.init_array.*)))
        KEEP(*(.init_array))
        PROVIDE_HIDDEN(__constructors_end = .);
    } :data
    .fini_array : {
        PROVIDE_HIDDEN(__fini_array_start = .);
        KEEP(*(SORT_BY_INIT_PRIORITY(.fini_array.*)))
        KEEP(*(.fini_array))
        PROVIDE_HIDDEN(__fini_array_end = .);
    } :data
    . = ALIGN(16);
    .tdata : { __thread_pointer = .; *(.tdata .tdata.*) } :data
    .tbss (NOLOAD) : { *(.tbss .tbss.*) } :data
    . = . + SIZEOF(.tbss);
    .sdata : { __global_pointer$ = . + 0x800; *(.sdata .sdata.*) } :data
    .bss (NOLOAD) : { *(.sbss .sbss.*) *(.bss .bss.*) *(COMMON) } :data
    /DISCARD/ : { *(.comment) *(.riscv.attributes) *(.eh_frame .eh_frame.*) *(.note .note.*) *(.init .fini) }
}
