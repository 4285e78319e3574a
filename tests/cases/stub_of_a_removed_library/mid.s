    .name mid
    .import far 1 1
    .fn say 0
    .endi
table:
    .export mid 1 1
    .word through
    .ende
    .entry main
through:
    j say
    nop
main:
    lui $a0, %hi(table)
    addiu $a0, $a0, %lo(table)
    syscall 6
    jr $ra
    addu $v0, $0, $0
