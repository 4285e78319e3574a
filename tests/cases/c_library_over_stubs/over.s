; Each call that writes does so over the second word of a live stub. That ends the stub; its jump to QueryBlockSize
; stays as a plain word, and behind it an instruction that changes nothing, so a call asks for a place in free memory
    .name over
    .import sysclib 1 1
    .fn memcpy 12
    .fn memmove 13
    .fn memset 14
    .fn bzero 17
    .fn sprintf 19
    .fn strcat 20
    .fn strcpy 23
    .fn strncpy 30
    .fn strtol 36
    .endi
; the table of the stubs, in which their second words have labels too: sysmem, version 1.1, function 10
    .word 0x41E00000, 0, 0x101, 0x6D737973, 0x00006D65
under_memcpy:
    .word 0x03E00008
over_memcpy:
    .word 0x2400000A
under_memmove:
    .word 0x03E00008
over_memmove:
    .word 0x2400000A
under_memset:
    .word 0x03E00008
over_memset:
    .word 0x2400000A
under_bzero:
    .word 0x03E00008
over_bzero:
    .word 0x2400000A
under_sprintf:
    .word 0x03E00008
over_sprintf:
    .word 0x2400000A
under_strcat:
    .word 0x03E00008
over_strcat:
    .word 0x2400000A
under_strcpy:
    .word 0x03E00008
over_strcpy:
    .word 0x2400000A
under_strncpy:
    .word 0x03E00008
over_strncpy:
    .word 0x2400000A
under_strtol:
    .word 0x03E00008
over_strtol:
    .word 0x2400000A
    .word 0, 0
; makes $a0 the third argument of the calls that follow
third:
    addu $a2, $a0, $0
    jr $ra
    addu $v0, $0, $0
    .data
rows:
    .word peek, under_memcpy, 0, 0x08001128
    .word peek, over_memcpy, 0, 0x2400000A
    .word third, 4, 0, 0
; 33 is addu $0, $0, $0
    .word memcpy, over_memcpy, instruction, over_memcpy ; over a stub
    .word peek, over_memcpy, 0, 33
    .word peek, under_memcpy, 0, 0x08001128
    .word under_memcpy, 0x100000, 0, -1
    .word memmove, over_memmove, instruction, over_memmove ; over a stub
    .word peek, over_memmove, 0, 33
    .word under_memmove, 0x100000, 0, -1
; 0 is sll $0, $0, 0
    .word memset, over_memset, 0x100, over_memset ; over a stub
    .word peek, over_memset, 0, 0
    .word under_memset, 0x100000, 0, -1
    .word bzero, over_bzero, 4, 0 ; over a stub
    .word peek, over_bzero, 0, 0
    .word under_bzero, 0x100000, 0, -1
; one byte, the lowest, becomes 33; and then the next one 0, which it was
    .word sprintf, over_sprintf, byte, 1 ; over a stub
    .word peek, over_sprintf, 0, 0x24000021
    .word under_sprintf, 0x100000, 0, -1
; the string at the second word is one byte: the next one becomes 0, which it was
    .word strcat, over_strcat, empty, over_strcat ; over a stub
    .word peek, over_strcat, 0, 0x2400000A
    .word under_strcat, 0x100000, 0, -1
    .word strcpy, over_strcpy, empty, over_strcpy ; over a stub
    .word peek, over_strcpy, 0, 0x24000000
    .word under_strcpy, 0x100000, 0, -1
    .word strncpy, over_strncpy, byte, over_strncpy ; over a stub
    .word peek, over_strncpy, 0, 33
    .word under_strncpy, 0x100000, 0, -1
; the address behind the number is 0x20040, which is sll $0, $2, 1
    .word strcpy, 0x2003F, seven, 0x2003F
    .word third, 10, 0, 0
    .word strtol, 0x2003F, over_strtol, 7 ; over a stub
    .word peek, over_strtol, 0, 0x20040
    .word under_strtol, 0x100000, 0, -1
    .word 0
instruction:
    .word 33
byte:
    .asciz "!"
empty:
    .asciz ""
seven:
    .asciz "7"
