; Texts that are cut at 4,096 bytes, and their answers
    .name cut
    .entry main
    .import stdio 1 1
    .fn print 4
    .endi
main:
    addu $s0, $ra, $0
; 1,025 words of abcd at 0x180000
    lui $s1, 0x0018
    addiu $t1, $s1, 4100
    addu $t0, $s1, $0
    lui $t2, 0x6463
    ori $t2, $t2, 0x6261
fill:
    sw $t2, 0($t0)
    addiu $t0, $t0, 4
    bne $t0, $t1, fill
    nop
; a width that ends the text, one that counts as 4,096, and a precision that does
    lui $a0, %hi(to_the_end)
    addiu $a0, $a0, %lo(to_the_end)
    jal shows
    addiu $a1, $0, 42
    lui $a0, %hi(past_the_end)
    addiu $a0, $a0, %lo(past_the_end)
    jal shows
    addiu $a1, $0, 42
    lui $a0, %hi(digits)
    addiu $a0, $a0, %lo(digits)
    jal shows
    addiu $a1, $0, -42
; a string that is longer, and a format that is
    lui $a0, %hi(string)
    addiu $a0, $a0, %lo(string)
    jal shows
    addu $a1, $s1, $0
    jal shows
    addu $a0, $s1, $0
; a part of the string, behind which there is room for one byte
    lui $a0, %hi(part)
    addiu $a0, $a0, %lo(part)
    jal shows
    addu $a1, $s1, $0
    jr $s0
    addu $v0, $0, $0
; prints, and then prints the answer
shows:
    addu $s2, $ra, $0
    jal print
    nop
    lui $a0, %hi(answer)
    addiu $a0, $a0, %lo(answer)
    jal print
    addu $a1, $v0, $0
    jr $s2
    nop
    .data
to_the_end:
    .asciz "ab%4094d"
past_the_end:
    .asciz "%-99999dcd"
digits:
    .asciz "%.5000d%s"
string:
    .asciz "(%s)"
part:
    .asciz "%.4095s()"
answer:
    .asciz "\n%d\n"
