/*
 * The memory of a guest over this library: the program from 0x10000 on, its stack, and its data. Below the stack stands the program, in which
 * nothing can be written, so a stack that is full is the fault `store`. Its size is --defsym=__stack_size=N, a multiple of 16.
 * Linux maps a file by pages of 4,096 bytes, so each segment's place in the file and its address are equal modulo 4,096.
 */
OUTPUT_ARCH(riscv)
ENTRY(_start)

PHDRS
{
    code PT_LOAD FILEHDR PHDRS FLAGS(5);
    stack PT_LOAD FLAGS(6);
    data PT_LOAD FLAGS(6);
    tls PT_TLS FLAGS(4);
}

SECTIONS
{
    . = 0x10000 + SIZEOF_HEADERS;
    .text : { *(.text.start) *(.text .text.*) } :code
    .rodata : { *(.rodata .rodata.* .srodata .srodata.*) . = ALIGN(8); } :code

    . = ALIGN(4096);
    .stack (NOLOAD) : { . += __stack_size; __stack_end = .; } :stack

    . = ALIGN(4096) + (. & 4095);
    __data_start = .;
    .tdata : { *(.tdata .tdata.*) } :data :tls
    .tbss : { *(.tbss .tbss.*) } :data :tls
    .init_array : {
        PROVIDE_HIDDEN(__init_array_start = .);
        KEEP(*(SORT_BY_INIT_PRIORITY(.init_array.*))) KEEP(*(.init_array))
        PROVIDE_HIDDEN(__init_array_end = .);
    } :data
    .fini_array : {
        PROVIDE_HIDDEN(__fini_array_start = .);
        KEEP(*(SORT_BY_INIT_PRIORITY(.fini_array.*))) KEEP(*(.fini_array))
        PROVIDE_HIDDEN(__fini_array_end = .);
    } :data
    .data : { *(.data .data.*) . = ALIGN(8); PROVIDE(__global_pointer$ = . + 0x800); *(.sdata .sdata.*) . = ALIGN(8); } :data
    .bss : { *(.sbss .sbss.* .bss .bss.* COMMON) . = ALIGN(8); } :data
    __data_end = .;

    /DISCARD/ : { *(.comment .note .note.* .eh_frame .riscv.attributes) }
}
