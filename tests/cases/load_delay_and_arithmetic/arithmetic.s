; What each instruction that computes reads right behind a load of its operand: the old value
    .name arithmetic
; computed of $a1, while the word at $a0 is loaded into it
by_add:
    lw $a1, 0($a0)
    add $v0, $a1, $a1
    jr $ra
    nop
by_addu:
    lw $a1, 0($a0)
    addu $v0, $a1, $a1
    jr $ra
    nop
by_sub:
    lw $a1, 0($a0)
    sub $v0, $0, $a1
    jr $ra
    nop
by_subu:
    lw $a1, 0($a0)
    subu $v0, $0, $a1
    jr $ra
    nop
by_and:
    lw $a1, 0($a0)
    and $v0, $a1, $a1
    jr $ra
    nop
by_or:
    lw $a1, 0($a0)
    or $v0, $a1, $a1
    jr $ra
    nop
by_xor:
    lw $a1, 0($a0)
    xor $v0, $a1, $0
    jr $ra
    nop
by_nor:
    lw $a1, 0($a0)
    nor $v0, $a1, $a1
    jr $ra
    nop
by_slt:
    lw $a1, 0($a0)
    slt $v0, $0, $a1
    jr $ra
    nop
by_sltu:
    lw $a1, 0($a0)
    sltu $v0, $0, $a1
    jr $ra
    nop
by_sllv:
    lw $a1, 0($a0)
    sllv $v0, $a1, $a1
    jr $ra
    nop
by_srlv:
    lw $a1, 0($a0)
    srlv $v0, $a1, $a1
    jr $ra
    nop
by_srav:
    lw $a1, 0($a0)
    srav $v0, $a1, $a1
    jr $ra
    nop
by_sll:
    lw $a1, 0($a0)
    sll $v0, $a1, 1
    jr $ra
    nop
by_srl:
    lw $a1, 0($a0)
    srl $v0, $a1, 1
    jr $ra
    nop
by_sra:
    lw $a1, 0($a0)
    sra $v0, $a1, 1
    jr $ra
    nop
by_addi:
    lw $a1, 0($a0)
    addi $v0, $a1, 1
    jr $ra
    nop
by_addiu:
    lw $a1, 0($a0)
    addiu $v0, $a1, 1
    jr $ra
    nop
by_slti:
    lw $a1, 0($a0)
    slti $v0, $a1, 4
    jr $ra
    nop
by_sltiu:
    lw $a1, 0($a0)
    sltiu $v0, $a1, 4
    jr $ra
    nop
by_andi:
    lw $a1, 0($a0)
    andi $v0, $a1, 7
    jr $ra
    nop
by_ori:
    lw $a1, 0($a0)
    ori $v0, $a1, 8
    jr $ra
    nop
by_xori:
    lw $a1, 0($a0)
    xori $v0, $a1, 1
    jr $ra
    nop
by_mult:
    lw $a1, 0($a0)
    mult $a1, $a1
    mflo $v0
    jr $ra
    nop
by_multu:
    lw $a1, 0($a0)
    multu $a1, $a1
    mflo $v0
    jr $ra
    nop
by_div:
    addiu $t0, $0, 2
    lw $a1, 0($a0)
    div $a1, $t0
    mflo $v0
    jr $ra
    nop
by_divu:
    addiu $t0, $0, 100
    lw $a1, 0($a0)
    divu $t0, $a1
    mflo $v0
    jr $ra
    nop
by_mthi:
    lw $a1, 0($a0)
    mthi $a1
    mfhi $v0
    jr $ra
    nop
by_mtlo:
    lw $a1, 0($a0)
    mtlo $a1
    mflo $v0
    jr $ra
    nop
    .data
rows:
    .word by_add, four, 3, 6
    .word by_addu, four, 3, 6
    .word by_sub, four, 3, -3
    .word by_subu, four, 3, -3
    .word by_and, four, 3, 3
    .word by_or, four, 3, 3
    .word by_xor, four, 3, 3
    .word by_nor, four, 3, 0xFFFFFFFC
    .word by_slt, four, -1, 0
    .word by_sltu, four, 0, 0
    .word by_sllv, four, 3, 24
    .word by_srlv, four, 0x80000003, 0x10000000
    .word by_srav, four, 0x80000003, 0xF0000000
    .word by_sll, four, 3, 6
    .word by_srl, four, 3, 1
    .word by_sra, four, -2, -1
    .word by_addi, four, 3, 4
    .word by_addiu, four, 3, 4
    .word by_slti, four, 3, 1
    .word by_sltiu, four, 3, 1
    .word by_andi, four, 3, 3
    .word by_ori, four, 3, 11
    .word by_xori, four, 3, 2
    .word by_mult, four, 3, 9
    .word by_multu, four, 3, 9
    .word by_div, four, 7, 3
    .word by_divu, four, 7, 14
    .word by_mthi, four, 7, 7
    .word by_mtlo, four, 7, 7
    .word 0
four:
    .word 4
