; Returns the word at its end
    .name base
    .entry main
main:
    lui $v0, %hi(answer)
    lw $v0, %lo(answer)($v0)
    jr $ra
    nop
    .data
answer:
    .word 40, answer
