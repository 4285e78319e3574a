; The tables of thvpool and thfpool stand at 0x200 and 0x400, and their services at 0x6000 and 0x6400. Both libraries
; are registered; thvpool has live stubs in this module, thfpool has none and leaves, and is registered anew
    .name variable
    .import thvpool 1 1
    .fn create_pool 4
    .fn number_63 63
    .endi
    .import loadcore 1 1
    .fn register_library 6
    .fn release_library 7
    .endi
    .data
rows:
    .word peek, 0x200, 0, 0x41C00000
    .word peek, 0x204, 0, 0
    .word peek, 0x208, 0, 0x101
    .word peek, 0x20C, 0, 0x70766874
    .word peek, 0x210, 0, 0x006C6F6F
    .word peek, 0x214, 0, 0x6000
    .word peek, 0x218, 0, 0x6010
    .word peek, 0x310, 0, 0x63F0
    .word peek, 0x314, 0, 0
    .word peek, 0x400, 0, 0x41C00000
    .word peek, 0x404, 0, 0
    .word peek, 0x408, 0, 0x101
    .word peek, 0x40C, 0, 0x70666874
    .word peek, 0x410, 0, 0x006C6F6F
    .word peek, 0x414, 0, 0x6400
    .word peek, 0x418, 0, 0x6410
    .word peek, 0x510, 0, 0x67F0
    .word peek, 0x514, 0, 0
    .word peek, 0x1FC, 0, 0
    .word peek, 0x3FC, 0, 0
    .word peek, 0x5FC, 0, 0
    .word peek, 0x5FFC, 0, 0
    .word peek, 0x6000, 0, 0x2000C
    .word peek, 0x6004, 0, 0x03E00008
    .word peek, 0x6008, 0, 0
    .word peek, 0x600C, 0, 0
    .word peek, 0x63F0, 0, 0x20FCC
    .word peek, 0x63F4, 0, 0x03E00008
    .word peek, 0x6400, 0, 0x2400C
    .word peek, 0x6404, 0, 0x03E00008
    .word peek, 0x67F0, 0, 0x24FCC
    .word peek, 0x67F4, 0, 0x03E00008
    .word peek, create_pool, 0, 0x8001810
    .word peek, number_63, 0, 0x80018FC
    .word register_library, 0x200, 0, -212
    .word register_library, 0x400, 0, -212
    .word release_library, 0x200, 0, -215
    .word release_library, 0x80000400, 0, 0
    .word release_library, 0x400, 0, -213
    .word register_library, 0xA0000400, 0, 0
    .word register_library, 0x400, 0, -212
    .word create_pool, words, 0, 1
    .word 0
words:
    .word 0, 0, 64
