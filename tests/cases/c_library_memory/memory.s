; The calls on ranges of memory
    .name memory
    .import sysclib 1 1
    .fn memchr 10
    .fn memcmp 11
    .fn memcpy 12
    .fn memmove 13
    .fn memset 14
    .fn bzero 17
    .endi
; makes $a0 the third argument of the calls that follow
third:
    addu $a2, $a0, $0
    jr $ra
    addu $v0, $0, $0
    .data
rows:
; the bytes 61 62 63 64 65 00 FF 80
    .word poke, 0x20000, 0x64636261, 0
    .word poke, 0x20004, 0x80FF0065, 0
; the first byte of the length that is the one asked for, else 0
    .word third, 8, 0, 0
    .word memchr, 0x20000, 0x61, 0x20000
    .word memchr, 0x20000, 0x65, 0x20004
    .word memchr, 0x20000, 0, 0x20005
    .word memchr, 0x20000, 0x80, 0x20007
    .word memchr, 0x20001, 0x61, 0
    .word third, 7, 0, 0
    .word memchr, 0x20000, 0xFF, 0x20006
    .word memchr, 0x20000, 0x80, 0
; the byte is asked for modulo 256
    .word memchr, 0x20000, 0x161, 0x20000
    .word memchr, 0x20000, -1, 0x20006
    .word memchr, 0x20000, 0x100, 0x20005
; the address is of the segment in which the range was given
    .word memchr, 0x80020000, 0x63, 0x80020002
    .word memchr, 0xA0020000, 0x63, 0xA0020002
; 0, 1, or -1, which is 0xFFFFFFFF: the order of the first bytes that are not equal, as unsigned numbers
    .word third, 2, 0, 0
    .word memcmp, abcde, abdce, 0
    .word third, 3, 0, 0
    .word memcmp, abcde, abdce, 0xFFFFFFFF
    .word memcmp, abdce, abcde, 1
    .word third, 5, 0, 0
    .word memcmp, abcde, abdce, 0xFFFFFFFF
    .word memcmp, 0x80020000, 0xA0020000, 0
    .word third, 1, 0, 0
    .word memcmp, byte_7f, byte_80, 0xFFFFFFFF
    .word memcmp, byte_80, byte_7f, 1
; it goes on behind a zero byte
    .word third, 2, 0, 0
    .word memcmp, bytes_61_0_61, bytes_61_0_62, 0
    .word third, 3, 0, 0
    .word memcmp, bytes_61_0_61, bytes_61_0_62, 0xFFFFFFFF
; a copy has all bytes, and no more
    .word poke, 0x20010, -1, 0
    .word poke, 0x20014, -1, 0
    .word memcpy, 0x20011, bytes_61_0_62, 0x20011
    .word peek, 0x20010, 0, 0x620061FF
    .word peek, 0x20014, 0, 0xFFFFFFFF
    .word memmove, 0x20012, abcde, 0x20012
    .word peek, 0x20010, 0, 0x626161FF
    .word peek, 0x20014, 0, 0xFFFFFF63
    .word memcpy, 0xA0020010, 0x80020001, 0xA0020010
    .word peek, 0x20010, 0, 0x62646362
    .word memmove, 0x80020010, 0xA0020000, 0x80020010
    .word peek, 0x20010, 0, 0x62636261
; the filling byte is taken modulo 256
    .word third, 2, 0, 0
    .word memset, 0x20011, 0x1AB, 0x20011
    .word peek, 0x20010, 0, 0x62ABAB61
    .word memset, 0xA0020012, -1, 0xA0020012
    .word peek, 0x20010, 0, 0xFFFFAB61
    .word bzero, 0x20011, 2, 0
    .word peek, 0x20010, 0, 0xFF000061
    .word bzero, 0x80020013, 1, 0
    .word peek, 0x20010, 0, 0x61
    .word peek, 0x20014, 0, 0xFFFFFF63
; up to the last byte of RAM
    .word third, 4, 0, 0
    .word memcpy, 0x1FFFFC, 0x20000, 0x1FFFFC
    .word peek, 0x1FFFFC, 0, 0x64636261
    .word memchr, 0x1FFFFC, 0x64, 0x1FFFFF
    .word memcmp, 0xA01FFFFC, abcde, 0
    .word memcmp, abcde, 0x801FFFFC, 0
    .word memmove, 0x20010, 0x1FFFFC, 0x20010
    .word peek, 0x20010, 0, 0x64636261
    .word memmove, 0x1FFFFC, abdce, 0x1FFFFC
    .word peek, 0x1FFFFC, 0, 0x63646261
    .word third, 1, 0, 0
    .word memset, 0x801FFFFF, 0x5A, 0x801FFFFF
    .word peek, 0x1FFFFC, 0, 0x5A646261
    .word bzero, 0xA01FFFFF, 1, 0
    .word peek, 0x1FFFFC, 0, 0x646261
; a range of no byte is not looked at
    .word third, 0, 0, 0
    .word memchr, 0x20000, 0x61, 0
    .word memchr, 0x200000, 0, 0
    .word memcmp, abcde, abdce, 0
    .word memcmp, -4, 0x200000, 0
    .word memcpy, 0x200000, -4, 0x200000
    .word memcpy, 0x20000, 0x40000000, 0x20000
    .word memmove, 0xC0000000, abcde, 0xC0000000
    .word memset, -4, 0x5A, 0xFFFFFFFC
    .word bzero, 0x20000000, 0, 0
    .word peek, 0x20000, 0, 0x64636261
    .word 0
abcde:
    .asciz "abcde"
abdce:
    .asciz "abdce"
byte_7f:
    .word 0x7F
byte_80:
    .word 0x80
bytes_61_0_61:
    .word 0x610061
bytes_61_0_62:
    .word 0x620061
