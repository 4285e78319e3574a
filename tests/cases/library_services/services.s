; What loadcore answers: libraries are told by their names and major versions, and leave by their tables, first come
; first
    .name services
    .import loadcore 1 1
    .fn flush_icache 4
    .fn flush_dcache 5
    .fn register_library 6
    .fn release_library 7
    .endi
one:
    .export one 1 1
    .word one
    .ende
one_of_minor_2:
    .export one 1 2
    .word one
    .ende
one_of_major_2:
    .export one 2 1
    .word one
    .ende
    .data
rows:
    .word flush_icache, 0, 0, 0
    .word flush_dcache, 0, 0, 0
    .word register_library, rows, 0, -214
    .word release_library, one, 0, -213
    .word register_library, one, 0, 0
    .word register_library, one, 0, -212
    .word register_library, one_of_minor_2, 0, -212
    .word register_library, one_of_major_2, 0, 0
    .word release_library, one_of_minor_2, 0, -213
    .word release_library, one, 0, 0
    .word release_library, one, 0, -213
    .word register_library, one_of_minor_2, 0, 0
    .word release_library, one_of_minor_2, 0, 0
    .word release_library, one_of_major_2, 0, 0
; places that have no library, outside RAM and misaligned ones among them
    .word release_library, 0, 0, -213
    .word release_library, 0x1E02, 0, -213
    .word release_library, 0x200000, 0, -213
    .word release_library, 0x40001E00, 0, -213
    .word release_library, -1, 0, -213
; thbase of the kernel has live stubs in this module, stdio has none; its table is seen through KSEG0 and KSEG1 as well
    .word release_library, 0x1600, 0, -215
    .word release_library, 0x80001600, 0, -215
    .word register_library, 0x80001E00, 0, -212
    .word release_library, 0x80001E00, 0, 0
    .word release_library, 0x1E00, 0, -213
    .word register_library, 0xA0001E00, 0, 0
    .word register_library, 0x1E00, 0, -212
    .word release_library, 0x1E00, 0, 0
    .word register_library, 0x1E00, 0, 0
; one table under two names: the release takes out the first
    .word register_library, of_two_names, 0, 0
    .word poke, name_of_two, 66, 0
    .word register_library, of_two_names, 0, 0
    .word register_library, of_two_names, 0, -212
    .word release_library, of_two_names, 0, 0
    .word register_library, of_two_names, 0, -212
    .word poke, name_of_two, 65, 0
    .word register_library, of_two_names, 0, 0
    .word rows_in_handler, handler_rows, 0, 0
    .word 0
handler_rows:
    .word flush_icache, 0, 0, 0
    .word flush_dcache, 0, 0, 0
    .word register_library, one, 0, -100
    .word register_library, 2, 0, -100
    .word release_library, one, 0, -100
    .word 0
of_two_names:
    .word 0x41C00000, 0, 0x101
name_of_two:
    .word 65, 0, one, 0
