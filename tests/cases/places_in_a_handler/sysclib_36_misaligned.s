; strtol writes a word at $a1, which is no multiple of 4
    .name place
    .entry main
main:
    lui $a0, %hi(soon)
    addiu $a0, $a0, %lo(soon)
    lui $a1, %hi(handles)
    addiu $a1, $a1, %lo(handles)
    syscall 803
    jr $ra
    addu $v0, $0, $0
; the handler of an alarm
handles:
    lui $a1, 0x10
    addiu $a1, $a1, 2
    addiu $a2, $0, 10
    syscall 2596
    .data
soon:
    .word 100, 0
