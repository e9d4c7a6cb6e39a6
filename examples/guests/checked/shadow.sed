# What a checked guest has otherwise in ../guest.ld or ../libc/libc.ld: the shadow is the first of its memory, from 0x10000 on, with a byte for each 8 bytes from there up to
# --defsym=__memory=N. So the shadow of an address is at 0xe000 and an eighth of it. The file's own head lies in the shadow's first bytes, which nobody asks for.
s|^    code PT_LOAD FILEHDR PHDRS FLAGS(5);|    shadow PT_LOAD FILEHDR PHDRS FLAGS(6);\n    code PT_LOAD FLAGS(5);|
s|^    \. = 0x10000 + SIZEOF_HEADERS;|&\n    .shadow (NOLOAD) : { . += __memory / 8 - 0x2000 - SIZEOF_HEADERS; } :shadow\n    . = ALIGN(4096) + 4096;|
# The compiler's constructors, which mark the ends of global objects. libc.ld has them.
s|^    \.data : { \*(\.data \.data\.\*) \. = ALIGN(8); PROVIDE(__global_pointer\$ = \. + 0x800); \*(\.sdata \.sdata\.\*) }|    .init_array : { __init_array_start = .; KEEP(*(.init_array .init_array.*)) __init_array_end = .; . = ALIGN(8); } :data\n&|
