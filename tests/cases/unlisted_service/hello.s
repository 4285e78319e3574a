; Calls number 63 of sysmem, which is no service; it answers -1
    .name hello
    .entry main
    .import sysmem 1 1
    .fn print 63
    .endi
main:
    addu $s0, $ra, $0
    lui $a0, %hi(text)
    jal print
    addiu $a0, $a0, %lo(text)
    jr $s0
    addu $v0, $0, $0
    .data
text:
    .asciz "hi\n"
