; lwl and lwr merge with what the load right in front of them brings to their register. The bytes from $a0 on are
; 01 82 73 F4 05 06 07 08, and the old value is $a1
    .name parts
; the word at $a0 + 1
right_left:
    lwr $v0, 1($a0)
    lwl $v0, 4($a0)
    jr $ra
    nop
right_nop_left:
    lwr $v0, 1($a0)
    nop
    lwl $v0, 4($a0)
    jr $ra
    nop
left_right:
    lwl $v0, 4($a0)
    lwr $v0, 1($a0)
    jr $ra
    nop
left_nop_right:
    lwl $v0, 4($a0)
    nop
    lwr $v0, 1($a0)
    jr $ra
    nop
; what the instruction right behind such a pair reads: the first part alone
behind_right_left:
    lwr $a1, 1($a0)
    lwl $a1, 4($a0)
    addu $v0, $a1, $0
    jr $ra
    nop
behind_left_right:
    lwl $a1, 4($a0)
    lwr $a1, 1($a0)
    addu $v0, $a1, $0
    jr $ra
    nop
; a part right behind other loads of the register
left_over_word:
    lw $v0, 0($a0)
    lwl $v0, 4($a0)
    jr $ra
    nop
right_over_word:
    lw $v0, 0($a0)
    lwr $v0, 7($a0)
    jr $ra
    nop
left_over_byte:
    lb $v0, 1($a0)
    lwl $v0, 4($a0)
    jr $ra
    nop
word_over_left:
    lwl $a1, 4($a0)
    lw $a1, 0($a0)
    jr $ra
    addu $v0, $a1, $0
; it merges with what a load brings, but its place is by the old value
left_over_its_base:
    lw $a0, 0($a0)
    lwl $a0, 4($a0)
    nop
    jr $ra
    addu $v0, $a0, $0
; it does not merge with what is loaded for another register, nor where the register is written between
left_over_another:
    lw $t0, 0($a0)
    lwl $a1, 4($a0)
    nop
    jr $ra
    addu $v0, $a1, $0
left_over_a_sum:
    lw $v0, 0($a0)
    addiu $v0, $a1, 1
    lwl $v0, 4($a0)
    jr $ra
    nop
; into register 0
left_into_0:
    lwl $0, 4($a0)
    lwr $0, 1($a0)
    nop
    jr $ra
    addu $v0, $0, $0
    .data
rows:
    .word right_left, bytes, 0, 0x05F47382
    .word right_nop_left, bytes, 0, 0x05F47382
    .word left_right, bytes, 0, 0x05F47382
    .word left_nop_right, bytes, 0, 0x05F47382
    .word behind_right_left, bytes, 0x11223344, 0x11F47382
    .word behind_left_right, bytes, 0x11223344, 0x05223344
    .word left_over_word, bytes, 0, 0x05738201
    .word right_over_word, bytes, 0, 0xF4738208
    .word left_over_byte, bytes, 0, 0x05FFFF82
    .word word_over_left, bytes, 0x11223344, 0xF4738201
    .word left_over_its_base, bytes, 0, 0x05738201
    .word left_over_another, bytes, 0x11223344, 0x05223344
    .word left_over_a_sum, bytes, 0x11223344, 0x05223345
    .word left_into_0, bytes, 0, 0
    .word 0
bytes:
    .word 0xF4738201, 0x08070605
