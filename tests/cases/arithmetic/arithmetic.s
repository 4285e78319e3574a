; Each instruction that computes, with the words that the manual wants of it, and PROFILE where the manual leaves them
; open: quotients by 0, and that of the least number by -1
    .name arithmetic
by_add:
    jr $ra
    add $v0, $a0, $a1
by_addu:
    jr $ra
    addu $v0, $a0, $a1
by_sub:
    jr $ra
    sub $v0, $a0, $a1
by_subu:
    jr $ra
    subu $v0, $a0, $a1
by_and:
    jr $ra
    and $v0, $a0, $a1
by_or:
    jr $ra
    or $v0, $a0, $a1
by_xor:
    jr $ra
    xor $v0, $a0, $a1
by_nor:
    jr $ra
    nor $v0, $a0, $a1
by_slt:
    jr $ra
    slt $v0, $a0, $a1
by_sltu:
    jr $ra
    sltu $v0, $a0, $a1
by_sllv:
    jr $ra
    sllv $v0, $a0, $a1
by_srlv:
    jr $ra
    srlv $v0, $a0, $a1
by_srav:
    jr $ra
    srav $v0, $a0, $a1
by_sll_0:
    jr $ra
    sll $v0, $a0, 0
by_sll_1:
    jr $ra
    sll $v0, $a0, 1
by_sll_31:
    jr $ra
    sll $v0, $a0, 31
by_srl_0:
    jr $ra
    srl $v0, $a0, 0
by_srl_1:
    jr $ra
    srl $v0, $a0, 1
by_srl_31:
    jr $ra
    srl $v0, $a0, 31
by_sra_0:
    jr $ra
    sra $v0, $a0, 0
by_sra_1:
    jr $ra
    sra $v0, $a0, 1
by_sra_31:
    jr $ra
    sra $v0, $a0, 31
by_addi_100:
    jr $ra
    addi $v0, $a0, 100
by_addi_less:
    jr $ra
    addi $v0, $a0, -1
by_addi_least:
    jr $ra
    addi $v0, $a0, -32768
by_addi_most:
    jr $ra
    addi $v0, $a0, 32767
by_addiu_100:
    jr $ra
    addiu $v0, $a0, 100
by_addiu_less:
    jr $ra
    addiu $v0, $a0, -1
by_addiu_least:
    jr $ra
    addiu $v0, $a0, -32768
by_addiu_most:
    jr $ra
    addiu $v0, $a0, 32767
by_slti_100:
    jr $ra
    slti $v0, $a0, 100
by_slti_less:
    jr $ra
    slti $v0, $a0, -1
by_slti_least:
    jr $ra
    slti $v0, $a0, -32768
by_slti_most:
    jr $ra
    slti $v0, $a0, 32767
by_sltiu_100:
    jr $ra
    sltiu $v0, $a0, 100
by_sltiu_less:
    jr $ra
    sltiu $v0, $a0, -1
by_sltiu_least:
    jr $ra
    sltiu $v0, $a0, -32768
by_sltiu_most:
    jr $ra
    sltiu $v0, $a0, 32767
by_andi:
    jr $ra
    andi $v0, $a0, 0xFF0F
by_ori:
    jr $ra
    ori $v0, $a0, 0xFF0F
by_xori:
    jr $ra
    xori $v0, $a0, 0xFF0F
by_lui:
    jr $ra
    lui $v0, 0x8001
hi_of_mult:
    mult $a0, $a1
    mfhi $v0
    jr $ra
    nop
lo_of_mult:
    mult $a0, $a1
    mflo $v0
    jr $ra
    nop
hi_of_multu:
    multu $a0, $a1
    mfhi $v0
    jr $ra
    nop
lo_of_multu:
    multu $a0, $a1
    mflo $v0
    jr $ra
    nop
hi_of_div:
    div $a0, $a1
    mfhi $v0
    jr $ra
    nop
lo_of_div:
    div $a0, $a1
    mflo $v0
    jr $ra
    nop
hi_of_divu:
    divu $a0, $a1
    mfhi $v0
    jr $ra
    nop
lo_of_divu:
    divu $a0, $a1
    mflo $v0
    jr $ra
    nop
hi_and_lo:
    mthi $a0
    mtlo $a1
    mfhi $t0
    mflo $t1
    jr $ra
    subu $v0, $t0, $t1
into_0:
    addiu $0, $a0, 1
    jr $ra
    addu $v0, $0, $0
    .data
rows:
    .word by_add, 1, 2, 3
    .word by_add, 0x7FFFFFFE, 1, 0x7FFFFFFF
    .word by_add, -1, 1, 0
    .word by_add, 0x80000000, 0x7FFFFFFF, -1
    .word by_addu, 0x7FFFFFFF, 1, 0x80000000
    .word by_addu, -1, -1, -2
    .word by_sub, 5, 7, -2
    .word by_sub, 0x80000000, 0, 0x80000000
    .word by_sub, -1, 0x7FFFFFFF, 0x80000000
    .word by_subu, 0x80000000, 1, 0x7FFFFFFF
    .word by_subu, 0, 1, -1
    .word by_and, 0xFF00FF00, 0x0FF00FF0, 0x0F000F00
    .word by_or, 0xFF00FF00, 0x0FF00FF0, 0xFFF0FFF0
    .word by_xor, 0xFF00FF00, 0x0FF00FF0, 0xF0F0F0F0
    .word by_nor, 0xFF00FF00, 0x0FF00FF0, 0x000F000F
    .word by_slt, -1, 0, 1
    .word by_slt, 0, -1, 0
    .word by_slt, 7, 7, 0
    .word by_slt, 0x80000000, 0x7FFFFFFF, 1
    .word by_sltu, -1, 0, 0
    .word by_sltu, 0, -1, 1
    .word by_sltu, 7, 7, 0
    .word by_sltu, 0x7FFFFFFF, 0x80000000, 1
    .word by_sllv, 0x80000001, 4, 0x10
    .word by_sllv, 0x80000001, 0x24, 0x10
    .word by_sllv, 0x80000001, 32, 0x80000001
    .word by_srlv, 0x80000010, 4, 0x08000001
    .word by_srlv, 0x80000010, -1, 1
    .word by_srav, 0x80000010, 4, 0xF8000001
    .word by_srav, 0x80000010, 0x3F, -1
    .word by_srav, 0x40000010, 4, 0x04000001
    .word by_sll_0, 0x80000001, 0, 0x80000001
    .word by_sll_1, 0x80000001, 0, 2
    .word by_sll_31, 3, 0, 0x80000000
    .word by_srl_0, 0x80000001, 0, 0x80000001
    .word by_srl_1, 0x80000001, 0, 0x40000000
    .word by_srl_31, 0x80000001, 0, 1
    .word by_sra_0, 0x80000001, 0, 0x80000001
    .word by_sra_1, 0x80000001, 0, 0xC0000000
    .word by_sra_31, 0x80000001, 0, -1
    .word by_sra_31, 0x7FFFFFFF, 0, 0
    .word by_addi_100, -1, 0, 99
    .word by_addi_less, 0, 0, -1
    .word by_addi_least, 0, 0, 0xFFFF8000
    .word by_addi_most, 0x7FFF8000, 0, 0x7FFFFFFF
    .word by_addiu_100, -1, 0, 99
    .word by_addiu_less, 0x80000000, 0, 0x7FFFFFFF
    .word by_addiu_least, 0x8000, 0, 0
    .word by_addiu_most, 0x7FFFFFFF, 0, 0x80007FFE
    .word by_slti_100, 99, 0, 1
    .word by_slti_100, 100, 0, 0
    .word by_slti_100, -1, 0, 1
    .word by_slti_less, 0, 0, 0
    .word by_slti_less, -2, 0, 1
    .word by_slti_least, 0xFFFF7FFF, 0, 1
    .word by_slti_most, 0x7FFE, 0, 1
    .word by_sltiu_100, 99, 0, 1
    .word by_sltiu_100, -1, 0, 0
    .word by_sltiu_less, 0, 0, 1
    .word by_sltiu_less, -1, 0, 0
    .word by_sltiu_least, 0xFFFF7FFF, 0, 1
    .word by_sltiu_least, 0xFFFF8000, 0, 0
    .word by_sltiu_most, 0x7FFF, 0, 0
    .word by_andi, -1, 0, 0xFF0F
    .word by_ori, 0x12340030, 0, 0x1234FF3F
    .word by_xori, -1, 0, 0xFFFF00F0
    .word by_lui, 0, 0, 0x80010000
    .word hi_of_mult, 0x10000, 0x10000, 1
    .word lo_of_mult, 0x10000, 0x10000, 0
    .word hi_of_mult, -1, 2, -1
    .word lo_of_mult, -1, 2, -2
    .word hi_of_mult, 0x80000000, 0x80000000, 0x40000000
    .word lo_of_mult, -3, -5, 15
    .word hi_of_mult, -3, -5, 0
    .word hi_of_multu, -1, 2, 1
    .word lo_of_multu, -1, 2, -2
    .word hi_of_multu, -1, -1, 0xFFFFFFFE
    .word lo_of_multu, -1, -1, 1
    .word hi_of_div, 7, 2, 1
    .word lo_of_div, 7, 2, 3
    .word hi_of_div, -7, 2, -1
    .word lo_of_div, -7, 2, -3
    .word hi_of_div, 7, -2, 1
    .word lo_of_div, 7, -2, -3
    .word hi_of_div, -7, -2, -1
    .word lo_of_div, -7, -2, 3
    .word hi_of_div, 7, 0, 7
    .word lo_of_div, 7, 0, -1
    .word hi_of_div, 0, 0, 0
    .word lo_of_div, 0, 0, -1
    .word hi_of_div, -7, 0, -7
    .word lo_of_div, -7, 0, 1
    .word hi_of_div, 0x80000000, -1, 0
    .word lo_of_div, 0x80000000, -1, 0x80000000
    .word hi_of_divu, 7, 2, 1
    .word lo_of_divu, 7, 2, 3
    .word hi_of_divu, -1, 16, 15
    .word lo_of_divu, -1, 16, 0x0FFFFFFF
    .word hi_of_divu, 0x80000000, -1, 0x80000000
    .word lo_of_divu, 0x80000000, -1, 0
    .word hi_of_divu, -7, 0, -7
    .word lo_of_divu, -7, 0, -1
    .word hi_and_lo, 100, 58, 42
    .word into_0, 7, 0, 0
    .word 0
