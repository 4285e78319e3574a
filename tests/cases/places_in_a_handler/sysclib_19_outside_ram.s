; sprintf writes a text of one byte and a zero byte at $a0, and RAM ends before the zero byte. The text is the module's
; first word, of which the second byte is 0
    .name place
    .entry main
main:
    lui $a0, %hi(soon)
    addiu $a0, $a0, %lo(soon)
    lui $a1, %hi(handles)
    addiu $a1, $a1, %lo(handles)
    syscall 803
    jr $ra
    addu $v0, $0, $0
; the handler of an alarm
handles:
    lui $a0, 0x20
    addiu $a0, $a0, -1
    lui $a1, 1
    syscall 2579
    .data
soon:
    .word 100, 0
