; An interrupt comes between a load and the instruction behind it: in line, from a slot to the jump's target, and between
; the halves of an unaligned load. The handler begins with nothing pending, and the thread goes on as if it had not come
    .name interrupted
    .entry main
    .import intrman 1 1
    .fn register 4
    .fn enable_line 6
    .endi
main:
    addu $s0, $ra, $0
    lui $s1, %hi(table)
    addiu $s1, $s1, %lo(table)
    addu $a0, $0, $0
    lui $a2, %hi(handler)
    addiu $a2, $a2, %lo(handler)
    jal register
    addu $a3, $s1, $0
    jal enable_line
    addu $a0, $0, $0
    addiu $t0, $0, 1
    lw $t0, 0($s1)
; tick 22: line 0
    sw $t0, 8($s1)
    sw $t0, 12($s1)
    addiu $t0, $0, 2
    j behind
    lw $t0, 0($s1)
; tick 33: line 0
behind:
    sw $t0, 16($s1)
    sw $t0, 20($s1)
    lwr $t0, 1($s1)
; tick 42: line 0
    lwl $t0, 4($s1)
    nop
    sw $t0, 24($s1)
    jr $s0
    addu $v0, $0, $0
; its argument is the table. It stores its own register, which is 0, and loads what it returns in the slot of its return,
; so that the line stays enabled
handler:
    sw $t0, 28($a0)
    sw $t0, 32($a0)
    addiu $t0, $0, 9
    jr $ra
    lw $v0, 36($a0)
    .data
table:
    .word 0xF4738201, 0x08070605
    .word 7, 7, 7, 7, 7, 7, 7
    .word 1
