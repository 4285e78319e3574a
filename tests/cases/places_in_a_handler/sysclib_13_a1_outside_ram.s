; memmove reads five bytes at $a1, and RAM ends before the last
    .name place
    .entry main
main:
    lui $a0, %hi(soon)
    addiu $a0, $a0, %lo(soon)
    lui $a1, %hi(handles)
    addiu $a1, $a1, %lo(handles)
    syscall 803
    jr $ra
    addu $v0, $0, $0
; the handler of an alarm
handles:
    lui $a1, 0x20
    addiu $a1, $a1, -4
    addiu $a2, $0, 5
    syscall 2573
    .data
soon:
    .word 100, 0
