; The calls that look at strings
    .name strings
    .import sysclib 1 1
    .fn strchr 21
    .fn strcmp 22
    .fn strlen 27
    .fn strncmp 29
    .fn strrchr 32
    .endi
; makes $a0 the third argument of the calls that follow
third:
    addu $a2, $a0, $0
    jr $ra
    addu $v0, $0, $0
    .data
rows:
; the bytes 61 62 63 61 62 FF 00 64 and 00: a string of six, of one and of none
    .word poke, 0x20000, 0x61636261, 0
    .word poke, 0x20004, 0x6400FF62, 0
    .word poke, 0x20008, 0, 0
    .word strlen, 0x20000, 0, 6
    .word strlen, 0x20005, 0, 1
    .word strlen, 0x20006, 0, 0
    .word strlen, 0x20007, 0, 1
    .word strlen, 0x80020000, 0, 6
    .word strlen, 0xA0020000, 0, 6
; the first byte of a string that is the one asked for, modulo 256, and its end is one; else 0
    .word strchr, 0x20000, 0x61, 0x20000
    .word strchr, 0x20000, 0x62, 0x20001
    .word strchr, 0x20000, 0x63, 0x20002
    .word strchr, 0x20000, 0x64, 0
    .word strchr, 0x20000, 0, 0x20006
    .word strchr, 0x20000, 0x162, 0x20001
    .word strchr, 0x20000, 0x100, 0x20006
    .word strchr, 0x20000, -1, 0x20005
    .word strchr, 0x20006, 0, 0x20006
    .word strchr, 0x20006, 0x64, 0
    .word strchr, 0x80020000, 0x62, 0x80020001
    .word strchr, 0xA0020000, 0, 0xA0020006
; and the last one
    .word strrchr, 0x20000, 0x61, 0x20003
    .word strrchr, 0x20000, 0x62, 0x20004
    .word strrchr, 0x20000, 0x63, 0x20002
    .word strrchr, 0x20000, 0x64, 0
    .word strrchr, 0x20000, 0, 0x20006
    .word strrchr, 0x20000, 0x162, 0x20004
    .word strrchr, 0x20000, 0x100, 0x20006
    .word strrchr, 0x20000, -1, 0x20005
    .word strrchr, 0x20006, 0, 0x20006
    .word strrchr, 0x20006, 0x64, 0
    .word strrchr, 0x80020000, 0x62, 0x80020004
    .word strrchr, 0xA0020000, 0, 0xA0020006
; 0, 1, or -1, which is 0xFFFFFFFF: the order of the first bytes that are not equal, as unsigned numbers. A string's end
; comes before each byte
    .word strcmp, abc, abc_again, 0
    .word strcmp, abc, abc, 0
    .word strcmp, empty, 0x20006, 0
    .word strcmp, abc, abd, 0xFFFFFFFF
    .word strcmp, abd, abc, 1
    .word strcmp, abc, abcd, 0xFFFFFFFF
    .word strcmp, abcd, abc, 1
    .word strcmp, abd, abcd, 1
    .word strcmp, empty, abc, 0xFFFFFFFF
    .word strcmp, abc, empty, 1
    .word strcmp, byte_7f, byte_80, 0xFFFFFFFF
    .word strcmp, byte_80, byte_7f, 1
    .word strcmp, 0x80020000, 0xA0020000, 0
; of so many bytes at most
    .word third, 0, 0, 0
    .word strncmp, abc, abd, 0
    .word strncmp, empty, abc, 0
    .word strncmp, 0x200000, -4, 0
    .word third, 1, 0, 0
    .word strncmp, abc, abd, 0
    .word strncmp, empty, abc, 0xFFFFFFFF
    .word strncmp, byte_80, byte_7f, 1
    .word third, 2, 0, 0
    .word strncmp, abc, abd, 0
    .word third, 3, 0, 0
    .word strncmp, abc, abd, 0xFFFFFFFF
    .word strncmp, abd, abc, 1
    .word strncmp, abc, abcd, 0
    .word third, 4, 0, 0
    .word strncmp, abc, abcd, 0xFFFFFFFF
    .word strncmp, abcd, abc, 1
    .word strncmp, abc, abc_again, 0
; what stands behind a string's end is not looked at
    .word third, 8, 0, 0
    .word strncmp, abc, abc_again, 0
    .word third, -1, 0, 0
    .word strncmp, abc, abc_again, 0
    .word strncmp, abc, abcd, 0xFFFFFFFF
    .word 0
abc:
    .word 0x00636261, 0x61616161
abc_again:
    .word 0x00636261, 0x62626262
abcd:
    .asciz "abcd"
abd:
    .asciz "abd"
empty:
    .asciz ""
byte_7f:
    .word 0x7F
byte_80:
    .word 0x80
