; What strcpy, strcat and strncpy write. The words from 0x20000 on are full of bytes 0xFF, where nothing else is said
    .name copies
    .import sysclib 1 1
    .fn memset 14
    .fn strcat 20
    .fn strcpy 23
    .fn strncpy 30
    .endi
; fills three words from 0x20000 on with bytes 0xFF, keeps the third argument, and answers 0
fills:
    addu $s3, $ra, $0
    addu $s4, $a2, $0
    lui $a0, 2
    addiu $a1, $0, 0xFF
    jal memset
    addiu $a2, $0, 12
    addu $a2, $s4, $0
    jr $s3
    addu $v0, $0, $0
; makes $a0 the third argument of the calls that follow
third:
    addu $a2, $a0, $0
    jr $ra
    addu $v0, $0, $0
    .data
rows:
; a string and a zero byte
    .word fills, 0, 0, 0
    .word strcpy, 0x20001, abc, 0x20001
    .word peek, 0x20000, 0, 0x636261FF
    .word peek, 0x20004, 0, 0xFFFFFF00
    .word strcpy, 0x20002, empty, 0x20002
    .word peek, 0x20000, 0, 0x630061FF
    .word strcpy, 0xA0020000, 0x80020003, 0xA0020000
    .word peek, 0x20000, 0, 0x63000063
; the last byte that is written is the last of RAM
    .word strcpy, 0x1FFFFC, abc, 0x1FFFFC
    .word peek, 0x1FFFFC, 0, 0x636261
; behind a string, whose end is written over
    .word fills, 0, 0, 0
    .word strcpy, 0x20000, empty, 0x20000
    .word strcat, 0x20000, abc, 0x20000
    .word peek, 0x20000, 0, 0x636261
    .word peek, 0x20004, 0, 0xFFFFFFFF
    .word strcat, 0x20000, empty, 0x20000
    .word peek, 0x20000, 0, 0x636261
    .word peek, 0x20004, 0, 0xFFFFFFFF
    .word strcat, 0x20000, abc, 0x20000
    .word peek, 0x20000, 0, 0x61636261
    .word peek, 0x20004, 0, 0xFF006362
    .word strcat, 0xA0020004, 0x80020005, 0xA0020004
    .word peek, 0x20004, 0, 0x00636362
    .word peek, 0x20008, 0, 0xFFFFFFFF
    .word strcpy, 0x1FFFF8, abc, 0x1FFFF8
    .word strcat, 0x1FFFFA, empty, 0x1FFFFA
    .word strcat, 0x1FFFFA, abc, 0x1FFFFA
    .word peek, 0x1FFFF8, 0, 0x61636261
    .word peek, 0x1FFFFC, 0, 0x6362
; so many bytes: a string without its zero byte, which is cut, or zeros behind it
    .word fills, 0, 0, 0
    .word third, 2, 0, 0
    .word strncpy, 0x20000, abc, 0x20000
    .word peek, 0x20000, 0, 0xFFFF6261
    .word third, 3, 0, 0
    .word strncpy, 0x20000, abc, 0x20000
    .word peek, 0x20000, 0, 0xFF636261
    .word third, 4, 0, 0
    .word strncpy, 0x20000, abc, 0x20000
    .word peek, 0x20000, 0, 0x636261
    .word fills, 0, 0, 0
    .word third, 7, 0, 0
    .word strncpy, 0x80020000, abc, 0x80020000
    .word peek, 0x20000, 0, 0x636261
    .word peek, 0x20004, 0, 0xFF000000
    .word fills, 0, 0, 0
    .word third, 3, 0, 0
    .word strncpy, 0xA0020001, empty, 0xA0020001
    .word peek, 0x20000, 0, 0xFF
    .word third, 4, 0, 0
    .word strncpy, 0x1FFFFC, abcd, 0x1FFFFC
    .word peek, 0x1FFFFC, 0, 0x64636261
; no byte, which may be anywhere
    .word third, 0, 0, 0
    .word strncpy, 0x20000, abc, 0x20000
    .word peek, 0x20000, 0, 0xFF
    .word strncpy, 0x200000, abc, 0x200000
    .word strncpy, -4, abc, 0xFFFFFFFC
    .word 0
abc:
    .word 0x00636261, 0x61616161
abcd:
    .asciz "abcd"
empty:
    .asciz ""
