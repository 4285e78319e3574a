; Prints a text of several conversions, and returns its number of bytes
    .name text
    .entry main
    .import stdio 1 1
    .fn print 4
    .endi
main:
    addiu $sp, $sp, -32
    sw $ra, 28($sp)
    lui $a0, %hi(format)
    addiu $a0, $a0, %lo(format)
    addiu $a1, $0, -42
    addiu $a2, $0, 255
    addiu $a3, $0, 7
    lui $t0, %hi(word)
    addiu $t0, $t0, %lo(word)
    sw $t0, 16($sp)
    addiu $t0, $0, 90
    jal print
    sw $t0, 20($sp)
    lw $ra, 28($sp)
    nop
    jr $ra
    addiu $sp, $sp, 32
    .data
format:
    .asciz "[%5d|%-5x|%05u|%s|%c|%%]"
word:
    .asciz "ab"
