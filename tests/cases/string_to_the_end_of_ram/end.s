; Strings and formats that end with RAM, and some that do not stand there
    .name end
    .entry main
    .import stdio 1 1
    .fn print 4
    .endi
main:
    addu $s0, $ra, $0
    lui $s1, 0x0020
; the last bytes of RAM are abcd
    lui $t0, 0x6463
    ori $t0, $t0, 0x6261
    sw $t0, -4($s1)
    addiu $a1, $s1, -4
    addiu $a2, $s1, -2
    jal shows
    addiu $a3, $s1, -1
    addu $a1, $s1, $0
    addiu $a2, $0, -1
    lui $a3, 0x8020
    jal shows
    addiu $a3, $a3, -3
    jal print
    addiu $a0, $s1, -3
    jal print_line
    nop
; a format outside RAM
    jal print
    addu $a0, $s1, $0
    jal shows_answer
    addu $a1, $v0, $0
; the last bytes are b%5d, and then xx%l
    lui $t0, 0x6435
    ori $t0, $t0, 0x2562
    sw $t0, -4($s1)
    addiu $a1, $0, 42
    jal print
    addiu $a0, $s1, -4
    jal shows_answer
    addu $a1, $v0, $0
    lui $t0, 0x6C25
    ori $t0, $t0, 0x7878
    sw $t0, -4($s1)
    jal print
    addiu $a0, $s1, -4
    jal shows_answer
    addu $a1, $v0, $0
    jr $s0
    addu $v0, $0, $0
shows:
    lui $a0, %hi(strings)
    j print
    addiu $a0, $a0, %lo(strings)
shows_answer:
    lui $a0, %hi(answer)
    j print
    addiu $a0, $a0, %lo(answer)
print_line:
    lui $a0, %hi(line)
    j print
    addiu $a0, $a0, %lo(line)
    .data
strings:
    .asciz "[%s|%5s|%.9s]\n"
answer:
    .asciz "|%d\n"
line:
    .asciz "\n"
