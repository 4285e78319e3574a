; Imports sysmem of version 1.99; the minor version is not compared
    .name hello
    .entry main
    .import sysmem 1 99
    .fn print 14
    .endi
main:
    addu $s0, $ra, $0
    lui $a0, %hi(text)
    jal print
    addiu $a0, $a0, %lo(text)
    jr $s0
    addu $v0, $0, $0
    .data
text:
    .asciz "hi\n"
