; An alarm's handler prints its argument, registers that are 0, and words of the handlers' stack, by stdio and by sysmem
    .name handler
    .entry main
    .import stdio 1 1
    .fn print 4
    .endi
    .import sysmem 1 1
    .fn kernel_print 14
    .endi
    .import thbase 1 1
    .fn set_alarm 35
    .endi
main:
    addu $s0, $ra, $0
; 16($sp) of a handler is 0xC000
    ori $t0, $0, 0xC000
    addiu $t1, $0, 77
    sw $t1, 0($t0)
    lui $a0, %hi(time)
    addiu $a0, $a0, %lo(time)
    lui $a1, %hi(prints)
    addiu $a1, $a1, %lo(prints)
    jal set_alarm
    addiu $a2, $0, 5
    jr $s0
    addu $v0, $0, $0
prints:
    addu $s0, $ra, $0
    addu $a1, $a0, $0
    lui $a0, %hi(text)
    jal print
    addiu $a0, $a0, %lo(text)
    lui $a0, %hi(answer)
    addiu $a0, $a0, %lo(answer)
    jal kernel_print
    addu $a1, $v0, $0
    jr $s0
    addu $v0, $0, $0
    .data
time:
    .word 100, 0
text:
    .asciz "alarm %d, %d, %d, stack %d %d\n"
answer:
    .asciz "%d\n"
