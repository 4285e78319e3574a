; Prints a string that goes over the first 2 MiB of memory, and one that ends with 8 MiB
    .name last
    .entry main
    .import stdio 1 1
    .fn print 4
    .endi
main:
    addu $s0, $ra, $0
; abcdef and a line feed
    lui $s1, 0x20
    lui $t0, 0x6463
    ori $t0, $t0, 0x6261
    sw $t0, -4($s1)
    lui $t0, 0x000A
    ori $t0, $t0, 0x6665
    sw $t0, 0($s1)
    jal print
    addiu $a0, $s1, -4
; xyz and a line feed
    lui $s1, 0x80
    lui $t0, 0x0A7A
    ori $t0, $t0, 0x7978
    sw $t0, -4($s1)
    jal print
    addiu $a0, $s1, -4
    jr $s0
    addu $v0, $0, $0
