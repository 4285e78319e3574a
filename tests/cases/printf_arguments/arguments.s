; Arguments on the stack: the words from 16($sp) on, of which one that is misaligned or outside RAM reads 0
    .name arguments
    .entry main
    .import stdio 1 1
    .fn print 4
    .endi
    .import sysmem 1 1
    .fn kernel_print 14
    .endi
main:
    addu $s0, $ra, $0
    addu $s1, $sp, $0
; 4 and 5 at 16($sp) of a stack in the middle of RAM, 6 and 7 at RAM's end, 8 and 9 at its beginning
    lui $s2, 0x0010
    addiu $t0, $0, 4
    sw $t0, 16($s2)
    addiu $t0, $0, 5
    sw $t0, 20($s2)
    lui $s3, 0x0020
    addiu $s3, $s3, -24
    addiu $t0, $0, 6
    sw $t0, 16($s3)
    addiu $t0, $0, 7
    sw $t0, 20($s3)
    addiu $t0, $0, 8
    sw $t0, 0($0)
    addiu $t0, $0, 9
    sw $t0, 4($0)
    jal shows
    addu $sp, $s2, $0
    jal shows_by_kernel
    addu $sp, $s2, $0
; the same through KSEG1
    lui $t0, 0xA010
    jal shows
    addu $sp, $t0, $0
; past RAM's end after two words, and none of them in RAM
    jal shows
    addu $sp, $s3, $0
    lui $t0, 0x0040
    jal shows
    addu $sp, $t0, $0
; misaligned
    jal shows
    addiu $sp, $s2, 2
; past the last address, and from outside RAM into it
    jal shows
    addiu $sp, $0, -16
    lui $t0, 0x8000
    jal shows
    addiu $sp, $t0, -20
; a string and a percent sign among them
    lui $t0, %hi(word)
    addiu $t0, $t0, %lo(word)
    sw $t0, 20($s2)
    lui $a0, %hi(mixed)
    addiu $a0, $a0, %lo(mixed)
    addiu $a1, $0, 65
    addiu $a2, $0, 66
    addiu $a3, $0, 67
    jal print
    addu $sp, $s2, $0
    addu $sp, $s1, $0
    jr $s0
    addu $v0, $0, $0
; prints three registers and three words of the stack
shows:
    lui $a0, %hi(six)
    addiu $a0, $a0, %lo(six)
    addiu $a1, $0, 1
    addiu $a2, $0, 2
    j print
    addiu $a3, $0, 3
shows_by_kernel:
    lui $a0, %hi(six)
    addiu $a0, $a0, %lo(six)
    addiu $a1, $0, -1
    addiu $a2, $0, -2
    j kernel_print
    addiu $a3, $0, -3
    .data
six:
    .asciz "%d %d %d %d %d %d\n"
mixed:
    .asciz "%c%%%q%c%5%%c%d %s %d\n"
word:
    .asciz "word"
