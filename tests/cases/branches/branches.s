; Branches and jumps. Each function answers 1, 2 more where the branch is taken, and 4 more where the instruction in the
; slot was executed, which it always is
    .name branches
by_beq:
    addiu $v0, $0, 1
    beq $a0, $a1, beq_taken
    addiu $v0, $v0, 4
    jr $ra
    nop
beq_taken:
    jr $ra
    addiu $v0, $v0, 2
by_bne:
    addiu $v0, $0, 1
    bne $a0, $a1, bne_taken
    addiu $v0, $v0, 4
    jr $ra
    nop
bne_taken:
    jr $ra
    addiu $v0, $v0, 2
by_blez:
    addiu $v0, $0, 1
    blez $a0, blez_taken
    addiu $v0, $v0, 4
    jr $ra
    nop
blez_taken:
    jr $ra
    addiu $v0, $v0, 2
by_bgtz:
    addiu $v0, $0, 1
    bgtz $a0, bgtz_taken
    addiu $v0, $v0, 4
    jr $ra
    nop
bgtz_taken:
    jr $ra
    addiu $v0, $v0, 2
by_bltz:
    addiu $v0, $0, 1
    bltz $a0, bltz_taken
    addiu $v0, $v0, 4
    jr $ra
    nop
bltz_taken:
    jr $ra
    addiu $v0, $v0, 2
by_bgez:
    addiu $v0, $0, 1
    bgez $a0, bgez_taken
    addiu $v0, $v0, 4
    jr $ra
    nop
bgez_taken:
    jr $ra
    addiu $v0, $v0, 2
; 8 more where $ra is the address behind the slot
by_bltzal:
    addu $t0, $ra, $0
    addiu $v0, $0, 1
    bltzal $a0, bltzal_taken
    addiu $v0, $v0, 4
behind_bltzal:
    j bltzal_links
    nop
bltzal_taken:
    addiu $v0, $v0, 2
bltzal_links:
    lui $t1, %hi(behind_bltzal)
    addiu $t1, $t1, %lo(behind_bltzal)
    bne $ra, $t1, bltzal_ends
    nop
    addiu $v0, $v0, 8
bltzal_ends:
    jr $t0
    nop
by_bgezal:
    addu $t0, $ra, $0
    addiu $v0, $0, 1
    bgezal $a0, bgezal_taken
    addiu $v0, $v0, 4
behind_bgezal:
    j bgezal_links
    nop
bgezal_taken:
    addiu $v0, $v0, 2
bgezal_links:
    lui $t1, %hi(behind_bgezal)
    addiu $t1, $t1, %lo(behind_bgezal)
    bne $ra, $t1, bgezal_ends
    nop
    addiu $v0, $v0, 8
bgezal_ends:
    jr $t0
    nop
; jal and jalr, with a link in $ra and in another register
by_jal:
    addu $t0, $ra, $0
    addiu $v0, $0, 1
    jal jal_target
    addiu $v0, $v0, 4
    jr $t0
    nop
jal_target:
    jr $ra
    addiu $v0, $v0, 2
by_jalr:
    addiu $v0, $0, 1
    lui $t1, %hi(jalr_target)
    addiu $t1, $t1, %lo(jalr_target)
    jalr $t2, $t1
    addiu $v0, $v0, 4
    jr $ra
    nop
jalr_target:
    jr $t2
    addiu $v0, $v0, 2
; the register of the target gets the link: the jump goes where it pointed before
by_jalr_of_one:
    addiu $v0, $0, 1
    lui $t1, %hi(one_target)
    addiu $t1, $t1, %lo(one_target)
    jalr $t1, $t1
    addiu $v0, $v0, 4
    jr $ra
    nop
one_target:
    jr $t1
    addiu $v0, $v0, 2
; counts down from $a0 by a branch back, and answers how often the slot was executed
counts:
    addu $v0, $0, $0
again:
    addiu $a0, $a0, -1
    bgtz $a0, again
    addiu $v0, $v0, 1
    jr $ra
    nop
    .data
rows:
    .word by_beq, 5, 5, 7
    .word by_beq, 5, 6, 5
    .word by_bne, 5, 5, 5
    .word by_bne, 5, 6, 7
    .word by_blez, 0, 0, 7
    .word by_blez, -1, 0, 7
    .word by_blez, 1, 0, 5
    .word by_blez, 0x80000000, 0, 7
    .word by_bgtz, 0, 0, 5
    .word by_bgtz, -1, 0, 5
    .word by_bgtz, 1, 0, 7
    .word by_bgtz, 0x7FFFFFFF, 0, 7
    .word by_bltz, 0, 0, 5
    .word by_bltz, -1, 0, 7
    .word by_bltz, 1, 0, 5
    .word by_bgez, 0, 0, 7
    .word by_bgez, -1, 0, 5
    .word by_bgez, 1, 0, 7
    .word by_bltzal, -1, 0, 15
    .word by_bltzal, 0, 0, 13
    .word by_bgezal, -1, 0, 13
    .word by_bgezal, 0, 0, 15
    .word by_jal, 0, 0, 7
    .word by_jalr, 0, 0, 7
    .word by_jalr_of_one, 0, 0, 7
    .word counts, 10, 0, 10
    .word 0
