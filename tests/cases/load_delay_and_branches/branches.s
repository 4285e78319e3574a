; A load in front of a branch or a jump, and one in its slot. A branch or a jump reads the old value, and its link stands
    .name branches
; 1 where a branch is taken right behind a load of its operand, which was $a1; else 2
by_beq:
    addu $t9, $ra, $0
    lw $a1, 0($a0)
    beq $a1, $0, taken
    nop
    jr $t9
    addiu $v0, $0, 2
by_bne:
    addu $t9, $ra, $0
    lw $a1, 0($a0)
    bne $0, $a1, taken
    nop
    jr $t9
    addiu $v0, $0, 2
by_blez:
    addu $t9, $ra, $0
    lw $a1, 0($a0)
    blez $a1, taken
    nop
    jr $t9
    addiu $v0, $0, 2
by_bgtz:
    addu $t9, $ra, $0
    lw $a1, 0($a0)
    bgtz $a1, taken
    nop
    jr $t9
    addiu $v0, $0, 2
by_bltz:
    addu $t9, $ra, $0
    lw $a1, 0($a0)
    bltz $a1, taken
    nop
    jr $t9
    addiu $v0, $0, 2
by_bgez:
    addu $t9, $ra, $0
    lw $a1, 0($a0)
    bgez $a1, taken
    nop
    jr $t9
    addiu $v0, $0, 2
by_bltzal:
    addu $t9, $ra, $0
    lw $a1, 0($a0)
    bltzal $a1, taken
    nop
    jr $t9
    addiu $v0, $0, 2
by_bgezal:
    addu $t9, $ra, $0
    lw $a1, 0($a0)
    bgezal $a1, taken
    nop
    jr $t9
    addiu $v0, $0, 2
taken:
    jr $t9
    addiu $v0, $0, 1
; the same where a jump goes to the old value, `taken`; the word at $a0 is `other_way`
by_jr:
    addu $t9, $ra, $0
    lw $a1, 0($a0)
    jr $a1
    nop
by_jalr:
    addu $t9, $ra, $0
    lw $a1, 0($a0)
    jalr $ra, $a1
    nop
other_way:
    jr $t9
    addiu $v0, $0, 2
; the same of a return, by the $ra of its call
by_its_return:
    addu $t9, $ra, $0
    lw $ra, 0($a0)
    jr $ra
    addiu $v0, $0, 1
; the slot of the branch right behind a load, which is taken or not, has what was loaded
slot_where_taken:
    lw $a1, 0($a0)
    beq $0, $0, returns
    addu $v0, $a1, $0
slot_where_not_taken:
    lw $a1, 0($a0)
    bne $0, $0, returns
    addu $v0, $a1, $0
returns:
    jr $ra
    nop
; what a load in a slot brings is there for the second instruction from the target on, or from behind the slot
first_at_target:
    beq $0, $0, reads_first
    lw $a1, 0($a0)
second_at_target:
    beq $0, $0, reads_second
    lw $a1, 0($a0)
first_behind_slot:
    bne $0, $0, returns
    lw $a1, 0($a0)
reads_first:
    addu $v0, $a1, $0
    jr $ra
    nop
second_behind_slot:
    bne $0, $0, returns
    lw $a1, 0($a0)
reads_second:
    jr $ra
    addu $v0, $a1, $0
; the same of a load in the slot of a return, and of what the caller does then
loads_as_it_returns:
    jr $ra
    lw $v0, 0($a0)
second_behind_call:
    addu $t9, $ra, $0
    jal loads_as_it_returns
    addu $v0, $a1, $0
    jr $t9
    nop
sum_behind_call:
    addu $t9, $ra, $0
    jal loads_as_it_returns
    addu $v0, $a1, $0
    addiu $v0, $v0, 9
    jr $t9
    nop
; a link stands over what was loaded for its register: the link less the address behind the slot
over_link_of_jal:
    addu $t9, $ra, $0
    lw $ra, 0($a0)
    jal behind_jal
    nop
behind_jal:
    lui $t0, %hi(behind_jal)
    addiu $t0, $t0, %lo(behind_jal)
    jr $t9
    subu $v0, $ra, $t0
over_link_of_jalr:
    lui $t0, %hi(behind_jalr)
    addiu $t0, $t0, %lo(behind_jalr)
    lw $t1, 0($a0)
    jalr $t1, $t0
    nop
behind_jalr:
    jr $ra
    subu $v0, $t1, $t0
over_link_of_bgezal:
    addu $t9, $ra, $0
    lw $ra, 0($a0)
    bgezal $0, behind_bgezal
    nop
behind_bgezal:
    lui $t0, %hi(behind_bgezal)
    addiu $t0, $t0, %lo(behind_bgezal)
    jr $t9
    subu $v0, $ra, $t0
over_link_of_bltzal:
    addu $t9, $ra, $0
    lw $ra, 0($a0)
    bltzal $0, returns
    nop
behind_bltzal:
    lui $t0, %hi(behind_bltzal)
    addiu $t0, $t0, %lo(behind_bltzal)
    jr $t9
    subu $v0, $ra, $t0
; what a load in the slot brings for the link's register comes behind the link: first the link, then the word at $a0
link_in_front_of_load:
    addu $t9, $ra, $0
    jal behind_load_in_slot
    lw $ra, 0($a0)
behind_load_in_slot:
    addu $t1, $ra, $0
    lui $t0, %hi(behind_load_in_slot)
    addiu $t0, $t0, %lo(behind_load_in_slot)
    jr $t9
    subu $v0, $t1, $t0
load_behind_link:
    addu $t9, $ra, $0
    jal behind_link
    lw $ra, 0($a0)
behind_link:
    jr $t9
    addu $v0, $ra, $0
    .data
rows:
    .word by_beq, minus_one, 0, 1
    .word by_beq, nothing, 5, 2
    .word by_bne, nothing, 5, 1
    .word by_bne, minus_one, 0, 2
    .word by_blez, one, 0, 1
    .word by_blez, nothing, 1, 2
    .word by_bgtz, nothing, 1, 1
    .word by_bgtz, one, 0, 2
    .word by_bltz, nothing, -1, 1
    .word by_bltz, minus_one, 0, 2
    .word by_bgez, minus_one, 0, 1
    .word by_bgez, nothing, -1, 2
    .word by_bltzal, nothing, -1, 1
    .word by_bltzal, minus_one, 0, 2
    .word by_bgezal, minus_one, 0, 1
    .word by_bgezal, nothing, -1, 2
    .word by_jr, other, taken, 1
    .word by_jalr, other, taken, 1
    .word by_its_return, other, 0, 1
    .word slot_where_taken, one, 7, 1
    .word slot_where_not_taken, one, 7, 1
    .word first_at_target, one, 7, 7
    .word second_at_target, one, 7, 1
    .word first_behind_slot, one, 7, 7
    .word second_behind_slot, one, 7, 1
    .word second_behind_call, one, 7, 1
    .word sum_behind_call, one, 7, 16
    .word over_link_of_jal, other, 0, 0
    .word over_link_of_jalr, other, 0, 0
    .word over_link_of_bgezal, other, 0, 0
    .word over_link_of_bltzal, other, 0, 0
    .word link_in_front_of_load, other, 0, 0
    .word load_behind_link, one, 0, 1
    .word 0
minus_one:
    .word -1
nothing:
    .word 0
one:
    .word 1
other:
    .word other_way
