; A write of the last byte of a stub and the first byte of the next one. Those before and behind them are live still
    .name over
    .import sysclib 1 1
    .fn memcpy 12
    .fn memset 14
    .endi
; the table of the stubs, in which bytes of them have labels too: sysmem, version 1.1, function 10
    .word 0x41E00000, 0, 0x101, 0x6D737973, 0x00006D65
before:
    .word 0x03E00008, 0x2400000A
first:
    .word 0x03E00008
first_second:
    .word 0x2400000A
second:
    .word 0x03E00008, 0x2400000A
behind:
    .word 0x03E00008, 0x2400000A
    .word 0, 0
; memset from the last byte of the word at $a0 on
memset_from_its_last_byte:
    addu $s3, $ra, $0
    jal memset
    addiu $a0, $a0, 3
    jr $s3
    addu $v0, $0, $0
; makes $a0 the third argument of the calls that follow
third:
    addu $a2, $a0, $0
    jr $ra
    addu $v0, $0, $0
    .data
rows:
; no byte is written, and then all bytes of the stubs are read alone
    .word third, 0, 0, 0
    .word memset_from_its_last_byte, first_second, 0, 0
    .word third, 32, 0, 0
    .word memcpy, 0x20000, before, 0x20000
    .word third, 2, 0, 0
    .word memset_from_its_last_byte, first_second, 0, 0
    .word peek, first, 0, 0x08001128
    .word peek, first_second, 0, 0x0000000A
    .word peek, second, 0, 0x08001100
    .word before, 0x100000, 0, -1
    .word behind, 0x100000, 0, -1
    .word 0
