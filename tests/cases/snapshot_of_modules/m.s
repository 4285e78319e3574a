; Prints the words that it is handed, each in a line, and returns four times their number
    .name words
    .entry main
    .import stdio 1 1
    .fn print 4
    .endi
main:
    addu $s0, $ra, $0
    addu $s1, $a1, $0
    sll $s2, $a0, 2
next:
    lw $a0, 0($s1)
    nop
    beq $a0, $0, done
    addiu $s1, $s1, 4
    jal print
    nop
    lui $a0, %hi(line)
    jal print
    addiu $a0, $a0, %lo(line)
    j next
    nop
done:
    jr $s0
    addu $v0, $s2, $0
    .data
line:
    .asciz "\n"
