; The table of sysclib stands at 0x600, and its services at 0x6800. It is registered, has no live stubs yet and leaves,
; and is registered anew
    .name registered
    .import loadcore 1 1
    .fn register_library 6
    .fn release_library 7
    .endi
    .data
rows:
    .word peek, 0x5FC, 0, 0
    .word peek, 0x600, 0, 0x41C00000
    .word peek, 0x604, 0, 0
    .word peek, 0x608, 0, 0x101
    .word peek, 0x60C, 0, 0x63737973
    .word peek, 0x610, 0, 0x0062696C
    .word peek, 0x614, 0, 0x6800
    .word peek, 0x618, 0, 0x6810
    .word peek, 0x710, 0, 0x6BF0
    .word peek, 0x714, 0, 0
    .word peek, 0x7FC, 0, 0
    .word peek, 0x800, 0, 0
    .word peek, 0x6800, 0, 0x2800C
    .word peek, 0x6804, 0, 0x03E00008
    .word peek, 0x6808, 0, 0
    .word peek, 0x680C, 0, 0
    .word peek, 0x6BF0, 0, 0x28FCC
    .word peek, 0x6BF4, 0, 0x03E00008
    .word peek, 0x6C00, 0, 0
    .word register_library, 0x600, 0, -212
    .word register_library, same_name, 0, -212
    .word release_library, 0x80000600, 0, 0
    .word release_library, 0x600, 0, -213
    .word register_library, 0xA0000600, 0, 0
    .word register_library, 0x600, 0, -212
    .word 0
same_name:
    .word 0x41C00000, 0, 0x102, 0x63737973, 0x0062696C, 0
