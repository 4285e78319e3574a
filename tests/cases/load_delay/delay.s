; What a load brings is in its register for the second instruction behind it. The first one reads the old value, and what
; it writes into the register stands
    .name delay
; what the first and the second instruction behind each load read; the old value is $a1
first_behind_lb:
    lb $a1, 1($a0)
    addu $v0, $a1, $0
    jr $ra
    nop
second_behind_lb:
    lb $a1, 1($a0)
    jr $ra
    addu $v0, $a1, $0
first_behind_lbu:
    lbu $a1, 1($a0)
    addu $v0, $a1, $0
    jr $ra
    nop
second_behind_lbu:
    lbu $a1, 1($a0)
    jr $ra
    addu $v0, $a1, $0
first_behind_lh:
    lh $a1, 2($a0)
    addu $v0, $a1, $0
    jr $ra
    nop
second_behind_lh:
    lh $a1, 2($a0)
    jr $ra
    addu $v0, $a1, $0
first_behind_lhu:
    lhu $a1, 2($a0)
    addu $v0, $a1, $0
    jr $ra
    nop
second_behind_lhu:
    lhu $a1, 2($a0)
    jr $ra
    addu $v0, $a1, $0
first_behind_lw:
    lw $a1, 0($a0)
    addu $v0, $a1, $0
    jr $ra
    nop
second_behind_lw:
    lw $a1, 0($a0)
    jr $ra
    addu $v0, $a1, $0
first_behind_lwl:
    lwl $a1, 1($a0)
    addu $v0, $a1, $0
    jr $ra
    nop
second_behind_lwl:
    lwl $a1, 1($a0)
    jr $ra
    addu $v0, $a1, $0
first_behind_lwr:
    lwr $a1, 1($a0)
    addu $v0, $a1, $0
    jr $ra
    nop
second_behind_lwr:
    lwr $a1, 1($a0)
    jr $ra
    addu $v0, $a1, $0
; what the first instruction behind a load writes into the register stands
sum_stands:
    lw $a1, 0($a0)
    addiu $a1, $a1, 9
    jr $ra
    addu $v0, $a1, $0
upper_half_stands:
    lw $a1, 0($a0)
    lui $a1, 1
    jr $ra
    addu $v0, $a1, $0
hi_stands:
    mthi $a1
    lw $a1, 0($a0)
    mfhi $a1
    jr $ra
    addu $v0, $a1, $0
lo_stands:
    mtlo $a1
    lw $a1, 0($a0)
    mflo $a1
    jr $ra
    addu $v0, $a1, $0
; what the second one writes stands too
later_sum_stands:
    lw $a1, 0($a0)
    nop
    addiu $a1, $0, 9
    jr $ra
    addu $v0, $a1, $0
; two loads in a row: behind the second one the first one's value is there
first_behind_two:
    lw $a1, 0($a0)
    lw $a1, 4($a0)
    addu $v0, $a1, $0
    jr $ra
    nop
second_behind_two:
    lw $a1, 0($a0)
    lw $a1, 4($a0)
    jr $ra
    addu $v0, $a1, $0
; of two registers, which were both $a1: the first less the second
behind_two_registers:
    addu $t0, $a1, $0
    lw $a1, 0($a0)
    lw $t0, 4($a0)
    subu $v0, $a1, $t0
    jr $ra
    nop
; register 0
first_behind_0:
    lw $0, 0($a0)
    addu $v0, $0, $0
    jr $ra
    nop
second_behind_0:
    lw $0, 0($a0)
    jr $ra
    addu $v0, $0, $0
; a load into register 0 behind another load, whose value comes as ever, and once
first_behind_a_load_and_0:
    lw $a1, 0($a0)
    lw $0, 4($a0)
    addu $v0, $a1, $0
    jr $ra
    nop
sum_behind_a_load_and_0_stands:
    lw $a1, 0($a0)
    lw $0, 4($a0)
    addiu $a1, $0, 9
    jr $ra
    addu $v0, $a1, $0
    .data
rows:
    .word first_behind_lb, word, 0x11223344, 0x11223344
    .word second_behind_lb, word, 0x11223344, 0xFFFFFF82
    .word first_behind_lbu, word, 0x11223344, 0x11223344
    .word second_behind_lbu, word, 0x11223344, 0x82
    .word first_behind_lh, word, 0x11223344, 0x11223344
    .word second_behind_lh, word, 0x11223344, 0xFFFFF473
    .word first_behind_lhu, word, 0x11223344, 0x11223344
    .word second_behind_lhu, word, 0x11223344, 0xF473
    .word first_behind_lw, word, 0x11223344, 0x11223344
    .word second_behind_lw, word, 0x11223344, 0xF4738201
    .word first_behind_lwl, word, 0x11223344, 0x11223344
    .word second_behind_lwl, word, 0x11223344, 0x82013344
    .word first_behind_lwr, word, 0x11223344, 0x11223344
    .word second_behind_lwr, word, 0x11223344, 0x11F47382
    .word sum_stands, word, 1, 10
    .word upper_half_stands, word, 1, 0x10000
    .word hi_stands, word, 7, 7
    .word lo_stands, word, 7, 7
    .word later_sum_stands, word, 1, 9
    .word first_behind_two, word, 1, 0xF4738201
    .word second_behind_two, word, 1, 0x08070605
    .word behind_two_registers, word, 1, 0xF4738200
    .word first_behind_0, word, 0, 0
    .word second_behind_0, word, 0, 0
    .word first_behind_a_load_and_0, word, 1, 0xF4738201
    .word sum_behind_a_load_and_0_stands, word, 1, 9
    .word 0
word:
    .word 0xF4738201, 0x08070605
