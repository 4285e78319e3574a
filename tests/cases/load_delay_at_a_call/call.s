; What is loaded right in front of a call is there for the service, also in the slot of the jump to its stub. The answer
; stands over what was loaded for $v0, and what was loaded for another register is there behind a wait. What the module
; loads in the slot of its return is what it returns
    .name call
    .entry main
    .import sysmem 1 1
    .fn print 14
    .endi
main:
    addu $s0, $ra, $0
    lui $s1, %hi(table)
    addiu $s1, $s1, %lo(table)
; by the stub of Kprintf, and by its syscall
    lui $s2, %hi(old)
    addiu $s2, $s2, %lo(old)
    addu $a0, $s2, $0
    jal print
    lw $a0, 0($s1)
    addu $a0, $s2, $0
    lw $a0, 4($s1)
    syscall 270
; GetThreadId
    lw $v0, 8($s1)
    syscall 788
    addu $s3, $v0, $0
; DelayThread, for a microsecond
    addiu $a0, $0, 1
    lw $s4, 8($s1)
    syscall 801
    lui $a0, %hi(answers)
    addiu $a0, $a0, %lo(answers)
    addu $a1, $s3, $0
    jal print
    addu $a2, $s4, $0
    jr $s0
    lw $v0, 12($s1)
    .data
table:
    .word in_slot, in_front, 5, 4
old:
    .asciz "old\n"
in_slot:
    .asciz "loaded in the slot\n"
in_front:
    .asciz "loaded in front of the syscall\n"
answers:
    .asciz "id %d, loaded %d\n"
