; 64 KiB are copied word by word, again and again: 81,924 instructions in each round
    .name words
    .entry main
main:
    lui $s0, %hi(bytes)
    addiu $s0, $s0, %lo(bytes)
    lui $s1, 1
    addu $s2, $s0, $s1
again:
    addu $t0, $s0, $0
    addu $t1, $s2, $0
word:
    lw $t2, 0($t0)
    addiu $t0, $t0, 4
    sw $t2, 0($t1)
    bne $t0, $s2, word
    addiu $t1, $t1, 4
    beq $0, $0, again
    nop
    .bss 131072
    .data
bytes:
