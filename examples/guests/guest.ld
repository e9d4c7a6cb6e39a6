/*
 * The memory of a guest: the program from 0x10000 on, its data from the next page on. Linux maps a file by pages of 4,096 bytes, so each
 * segment's place in the file and its address are equal modulo 4,096; varan takes any place. Thread-local data lie within the data,
 * where the first thread uses them as they are. Each segment ends at a multiple of 8: the C library reads strings by words, and varan lets
 * none read past a segment's last byte.
 */
OUTPUT_ARCH(riscv)
ENTRY(_start)

PHDRS
{
    code PT_LOAD FILEHDR PHDRS FLAGS(5);
    data PT_LOAD FLAGS(6);
}

SECTIONS
{
    . = 0x10000 + SIZEOF_HEADERS;
    .text : { *(.text.start) *(.text .text.*) } :code
    .rodata : { *(.rodata .rodata.* .srodata .srodata.*) . = ALIGN(8); } :code

    . = ALIGN(4096) + (. & 4095);
    .data : { *(.data .data.*) . = ALIGN(8); PROVIDE(__global_pointer$ = . + 0x800); *(.sdata .sdata.*) } :data
    . = ALIGN(8);
    __tls_base = .;
    .tdata : { *(.tdata .tdata.*) } :data
    .tbss : { *(.tbss .tbss.*) } :data
    /* The linker gives .tbss no place of its own. */
    .bss : { . += SIZEOF(.tbss); . = ALIGN(8); *(.sbss .sbss.* .bss .bss.* COMMON) . = ALIGN(8); } :data

    /DISCARD/ : { *(.comment .note .note.* .eh_frame .riscv.attributes) }
}
