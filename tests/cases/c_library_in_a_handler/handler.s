; Each call in the handler of an alarm
    .name handler
    .import sysclib 1 1
    .fn memchr 10
    .fn memcmp 11
    .fn memcpy 12
    .fn memmove 13
    .fn memset 14
    .fn bzero 17
    .fn sprintf 19
    .fn strcat 20
    .fn strchr 21
    .fn strcmp 22
    .fn strcpy 23
    .fn strlen 27
    .fn strncmp 29
    .fn strncpy 30
    .fn strrchr 32
    .fn strtol 36
    .endi
; a table of one stub, whose second word has a label: sysmem, version 1.1, function 10
    .word 0x41E00000, 0, 0x101, 0x6D737973, 0x00006D65
under:
    .word 0x03E00008
over:
    .word 0x2400000A
    .word 0, 0
; makes $a0 the third argument of the calls that follow
third:
    addu $a2, $a0, $0
    jr $ra
    addu $v0, $0, $0
    .data
rows:
    .word rows_in_handler, handler_rows, 0, 0
    .word strcmp, 0x20000, text, 0
    .word 0
handler_rows:
    .word strcpy, 0x20000, abc, 0x20000
    .word strcat, 0x20000, abc, 0x20000
    .word strlen, 0x20000, 0, 6
    .word strchr, 0x20000, 0x62, 0x20001
    .word strrchr, 0x20000, 0x62, 0x20004
    .word strcmp, 0x20000, abc, 1
    .word third, 3, 0, 0
    .word strncmp, 0x20000, abc, 0
    .word memchr, 0x20001, 0x61, 0x20003
    .word memcmp, abc, 0x20000, 0
    .word memcpy, 0x20010, abc, 0x20010
    .word memmove, 0x20011, 0x20010, 0x20011
    .word peek, 0x20010, 0, 0x63626161
    .word memset, 0x20011, 0x7A, 0x20011
    .word peek, 0x20010, 0, 0x7A7A7A61
    .word bzero, 0x20012, 1, 0
    .word peek, 0x20010, 0, 0x7A007A61
    .word strncpy, 0x20010, empty, 0x20010
    .word peek, 0x20010, 0, 0x7A000000
    .word sprintf, 0x20000, format, 3
    .word third, 10, 0, 0
    .word strtol, 0x20000, 0x20014, 3
    .word peek, 0x20014, 0, 0x20001
    .word strcpy, over, empty, over ; over a stub
    .word under, 0x100000, 0, -1
    .word 0
abc:
    .asciz "abc"
empty:
    .asciz ""
format:
    .asciz "%d%%d"
text:
    .asciz "3%d"
