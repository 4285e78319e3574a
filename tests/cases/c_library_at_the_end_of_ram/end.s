; Strings that end with RAM, and some that do not stand there
    .name end
    .import sysclib 1 1
    .fn sprintf 19
    .fn strcat 20
    .fn strchr 21
    .fn strcmp 22
    .fn strcpy 23
    .fn strlen 27
    .fn strncmp 29
    .fn strncpy 30
    .fn strrchr 32
    .fn strtol 36
    .endi
; makes $a0 the third argument of the calls that follow
third:
    addu $a2, $a0, $0
    jr $ra
    addu $v0, $0, $0
    .data
rows:
; the last bytes of RAM are abcd
    .word poke, 0x1FFFFC, 0x64636261, 0
    .word strlen, 0x1FFFFC, 0, 4
    .word strlen, 0x801FFFFD, 0, 3
    .word strlen, 0xA01FFFFF, 0, 1
    .word strlen, 0x200000, 0, 0
    .word strlen, -1, 0, 0
    .word strchr, 0x1FFFFC, 0x64, 0x1FFFFF
    .word strchr, 0x1FFFFC, 0x65, 0
    .word strchr, 0x1FFFFC, 0, 0x200000
    .word strchr, 0x801FFFFC, 0, 0x80200000
    .word strchr, 0x200000, 0x61, 0
    .word strchr, 0x200000, 0, 0x200000
    .word strchr, -1, 0x100, 0xFFFFFFFF
    .word strrchr, 0x1FFFFC, 0x61, 0x1FFFFC
    .word strrchr, 0x1FFFFC, 0, 0x200000
    .word strrchr, 0xA01FFFFC, 0, 0xA0200000
    .word strrchr, 0x40000000, 0x61, 0
    .word strrchr, 0x40000000, 0, 0x40000000
    .word strcmp, 0x1FFFFC, abcd, 0
    .word strcmp, 0x1FFFFC, abcde, 0xFFFFFFFF
    .word strcmp, 0x200000, empty, 0
    .word strcmp, abcd, 0x200000, 1
    .word third, 5, 0, 0
    .word strncmp, 0x1FFFFC, abcd, 0
    .word strncmp, abcde, 0x1FFFFC, 1
    .word strncmp, -1, abcd, 0xFFFFFFFF
; copies of them
    .word strcpy, 0x20000, 0x1FFFFE, 0x20000
    .word strcmp, 0x20000, cd, 0
    .word strcat, 0x20000, 0x1FFFFF, 0x20000
    .word strcmp, 0x20000, cdd, 0
    .word strcat, 0x20000, 0xC0000000, 0x20000
    .word strcmp, 0x20000, cdd, 0
    .word strncpy, 0x20000, 0x1FFFFC, 0x20000
    .word strcmp, 0x20000, abcd, 0
    .word strncpy, 0x20000, -1, 0x20000
    .word strcmp, 0x20000, empty, 0
    .word poke, 0x20000, 0x64636261, 0
    .word strcpy, 0x20001, 0x200000, 0x20001
    .word peek, 0x20000, 0, 0x64630061
; a format, and a string among its arguments
    .word sprintf, 0x20000, 0x1FFFFC, 4
    .word strcmp, 0x20000, abcd, 0
    .word sprintf, 0x20000, 0x200000, 0
    .word strcmp, 0x20000, empty, 0
    .word third, 0x1FFFFE, 0, 0
    .word sprintf, 0x20000, string, 4
    .word strcmp, 0x20000, cd_in_brackets, 0
    .word third, 0x200000, 0, 0
    .word sprintf, 0x20000, string, 2
    .word strcmp, 0x20000, brackets, 0
; a number: the last bytes are ab42
    .word poke, 0x1FFFFC, 0x32346261, 0
    .word third, 10, 0, 0
    .word strtol, 0x1FFFFE, number_end, 42
    .word peek, number_end, 0, 0x200000
    .word strtol, 0x200000, number_end, 0
    .word peek, number_end, 0, 0x200000
    .word strtol, -1, number_end, 0
    .word peek, number_end, 0, 0xFFFFFFFF
; and then 0x, of which the zero is the number
    .word poke, 0x1FFFFC, 0x78306261, 0
    .word third, 0, 0, 0
    .word strtol, 0x1FFFFE, number_end, 0
    .word peek, number_end, 0, 0x1FFFFF
    .word 0
abcd:
    .asciz "abcd"
abcde:
    .asciz "abcde"
cd:
    .asciz "cd"
cdd:
    .asciz "cdd"
empty:
    .asciz ""
string:
    .asciz "[%s]"
cd_in_brackets:
    .asciz "[cd]"
brackets:
    .asciz "[]"
number_end:
    .word 0
