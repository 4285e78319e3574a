; What each instruction that loads or stores reads right behind a load of its operand: the old value
    .name memory
; loaded from behind $a0, while the address of zeros is loaded into it; for lwl and lwr over $a1
by_lb:
    lw $a0, 0($a0)
    lb $v0, 4($a0)
    jr $ra
    nop
by_lbu:
    lw $a0, 0($a0)
    lbu $v0, 4($a0)
    jr $ra
    nop
by_lh:
    lw $a0, 0($a0)
    lh $v0, 4($a0)
    jr $ra
    nop
by_lhu:
    lw $a0, 0($a0)
    lhu $v0, 4($a0)
    jr $ra
    nop
by_lw:
    lw $a0, 0($a0)
    lw $v0, 4($a0)
    jr $ra
    nop
by_lwl:
    lw $a0, 0($a0)
    lwl $a1, 5($a0)
    nop
    jr $ra
    addu $v0, $a1, $0
by_lwr:
    lw $a0, 0($a0)
    lwr $a1, 5($a0)
    nop
    jr $ra
    addu $v0, $a1, $0
; stored over zeros behind $a0: $a1, while the word at $a0 is loaded into it
by_sb:
    sw $0, 4($a0)
    lw $a1, 0($a0)
    sb $a1, 4($a0)
    lw $v0, 4($a0)
    jr $ra
    nop
by_sh:
    sw $0, 4($a0)
    lw $a1, 0($a0)
    sh $a1, 4($a0)
    lw $v0, 4($a0)
    jr $ra
    nop
by_sw:
    sw $0, 4($a0)
    lw $a1, 0($a0)
    sw $a1, 4($a0)
    lw $v0, 4($a0)
    jr $ra
    nop
by_swl:
    sw $0, 4($a0)
    lw $a1, 0($a0)
    swl $a1, 5($a0)
    lw $v0, 4($a0)
    jr $ra
    nop
by_swr:
    sw $0, 4($a0)
    lw $a1, 0($a0)
    swr $a1, 5($a0)
    lw $v0, 4($a0)
    jr $ra
    nop
; stored there: $a1, while the address of another place is loaded into $a0
at_place_of_sb:
    sw $0, 4($a0)
    addu $t0, $a0, $0
    lw $a0, 0($a0)
    sb $a1, 4($a0)
    lw $v0, 4($t0)
    jr $ra
    nop
at_place_of_sh:
    sw $0, 4($a0)
    addu $t0, $a0, $0
    lw $a0, 0($a0)
    sh $a1, 4($a0)
    lw $v0, 4($t0)
    jr $ra
    nop
at_place_of_sw:
    sw $0, 4($a0)
    addu $t0, $a0, $0
    lw $a0, 0($a0)
    sw $a1, 4($a0)
    lw $v0, 4($t0)
    jr $ra
    nop
at_place_of_swl:
    sw $0, 4($a0)
    addu $t0, $a0, $0
    lw $a0, 0($a0)
    swl $a1, 5($a0)
    lw $v0, 4($t0)
    jr $ra
    nop
at_place_of_swr:
    sw $0, 4($a0)
    addu $t0, $a0, $0
    lw $a0, 0($a0)
    swr $a1, 5($a0)
    lw $v0, 4($t0)
    jr $ra
    nop
    .data
rows:
    .word by_lb, place, 0, 1
    .word by_lbu, place, 0, 1
    .word by_lh, place, 0, 0xFFFF8201
    .word by_lhu, place, 0, 0x8201
    .word by_lw, place, 0, 0xF4738201
    .word by_lwl, place, 0x11223344, 0x82013344
    .word by_lwr, place, 0x11223344, 0x11F47382
    .word by_sb, place, 0x11223344, 0x44
    .word by_sh, place, 0x11223344, 0x3344
    .word by_sw, place, 0x11223344, 0x11223344
    .word by_swl, place, 0x11223344, 0x1122
    .word by_swr, place, 0x11223344, 0x22334400
    .word at_place_of_sb, place, 0x11223344, 0x44
    .word at_place_of_sh, place, 0x11223344, 0x3344
    .word at_place_of_sw, place, 0x11223344, 0x11223344
    .word at_place_of_swl, place, 0x11223344, 0x1122
    .word at_place_of_swr, place, 0x11223344, 0x22334400
    .word 0
place:
    .word elsewhere, 0xF4738201
elsewhere:
    .word 0, 0
