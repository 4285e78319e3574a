; Number 0 of library 11: there are eleven libraries
    .name code
    .entry main
main:
    lui $a0, %hi(soon)
    addiu $a0, $a0, %lo(soon)
    lui $a1, %hi(handles)
    addiu $a1, $a1, %lo(handles)
    syscall 803
    jr $ra
    addu $v0, $0, $0
; the handler of an alarm
handles:
    syscall 2816
    jr $ra
    addu $v0, $0, $0
    .data
soon:
    .word 100, 0
