; Copies between ranges that overlap. Each begins with a text of its own, and the dump shows what is left
    .name overlap
    .import sysclib 1 1
    .fn memcpy 12
    .fn memmove 13
    .fn strcat 20
    .fn strcmp 22
    .fn strcpy 23
    .fn strncpy 30
    .endi
; makes $a0 the third argument of the calls that follow
third:
    addu $a2, $a0, $0
    jr $ra
    addu $v0, $0, $0
    .data
rows:
; upwards: the first bytes stay
    .word third, 4, 0, 0
    .word strcpy, 0x20000, abcde, 0x20000
    .word memcpy, 0x20001, 0x20000, 0x20001
    .word strcmp, 0x20000, aabcd, 0
    .word strcpy, 0x20010, abcde, 0x20010
    .word memmove, 0x20011, 0x20010, 0x20011
    .word strcmp, 0x20010, aabcd, 0
    .word strcpy, 0x20020, abcde, 0x20020
    .word strcpy, 0x20021, 0x20020, 0x20021
    .word strcmp, 0x20020, aabcde, 0
    .word strcpy, 0x20028, abcde, 0x20028
    .word strncpy, 0x20029, 0x20028, 0x20029
    .word strcmp, 0x20028, aabcd, 0
; downwards: the last bytes stay
    .word strcpy, 0x20030, abcde, 0x20030
    .word memcpy, 0x20030, 0x20031, 0x20030
    .word strcmp, 0x20030, bcdee, 0
    .word strcpy, 0x20038, abcde, 0x20038
    .word memmove, 0x20038, 0x20039, 0x20038
    .word strcmp, 0x20038, bcdee, 0
    .word strcpy, 0x20040, abcde, 0x20040
    .word strcpy, 0x20040, 0x20041, 0x20040
    .word strcmp, 0x20040, bcde, 0
    .word strcpy, 0x20048, abcde, 0x20048
    .word strncpy, 0x20048, 0x20049, 0x20048
    .word strcmp, 0x20048, bcdee, 0
; the same range through two segments
    .word memcpy, 0x80020048, 0xA0020049, 0x80020048
    .word strcmp, 0x20048, cdeee, 0
; a string behind its own end
    .word strcpy, 0x20050, abc, 0x20050
    .word strcat, 0x20050, 0x20050, 0x20050
    .word strcmp, 0x20050, abcabc, 0
    .word strcpy, 0x20058, abc, 0x20058
    .word strcat, 0x20059, 0x20058, 0x20059
    .word strcmp, 0x20058, abcabc, 0
    .word 0
abc:
    .asciz "abc"
abcabc:
    .asciz "abcabc"
abcde:
    .asciz "abcde"
aabcd:
    .asciz "aabcd"
aabcde:
    .asciz "aabcde"
bcdee:
    .asciz "bcdee"
bcde:
    .asciz "bcde"
cdeee:
    .asciz "cdeee"
