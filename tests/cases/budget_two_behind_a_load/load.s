; Stores what the two instructions behind a load read of its register: the old value, and what was loaded
    .name load
    .entry main
main:
    lui $t1, %hi(word)
    addiu $t1, $t1, %lo(word)
    addiu $t0, $0, 1
    lw $t0, 0($t1)
    sw $t0, 4($t1)
    sw $t0, 8($t1)
    jr $ra
    addu $v0, $0, $0
    .data
word:
    .word 5, 7, 7
