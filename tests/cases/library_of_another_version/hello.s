; Imports sysmem of major version 2, which there is not
    .name hello
    .entry main
    .import sysmem 2 1
    .fn print 14
    .endi
main:
    addu $s0, $ra, $0
    lui $a0, %hi(text)
    jal print
    addiu $a0, $a0, %lo(text)
    jr $s0
    addu $v0, $0, $0
    .data
text:
    .asciz "hi\n"
