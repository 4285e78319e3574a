; The loop by which bench/speed measures: loads, stores, shifts, a multiplication and a branch, 15 instructions in each of
; 6,666,667 rounds, so that 100 million instructions end in it. What stands between the two remarks is measured in spim, too
    .name mixed
    .entry main
main:
    lui $9, %hi(numbers)
    addiu $9, $9, %lo(numbers)
    lui $8, 0x65
    ori $8, $8, 0xB9AB
    addu $10, $0, $0
    addu $11, $0, $0
; the loop
round:
    andi $12, $10, 0x3FC
    addu $13, $9, $12
    lw $14, 0($13)
    addiu $10, $10, 4
    addu $14, $14, $8
    sll $15, $14, 3
    xor $11, $11, $15
    sw $14, 0($13)
    multu $14, $15
    mflo $24
    sltu $25, $24, $14
    addu $11, $11, $25
    addiu $8, $8, -1
    bne $8, $0, round
    srl $24, $24, 1
; the loop's end
    jr $31
    addu $2, $0, $0
    .bss 1024
    .data
numbers:
