; Each letter, with flags, widths, precisions, h and l
    .name conversions
    .entry main
    .import stdio 1 1
    .fn print 4
    .endi
; prints each row of a table, a format and three words, and returns four times the number of all bytes
main:
    addu $s0, $ra, $0
    lui $s1, %hi(rows)
    addiu $s1, $s1, %lo(rows)
    addu $s2, $0, $0
next:
    lw $a0, 0($s1)
    lw $a1, 4($s1)
    lw $a2, 8($s1)
    beq $a0, $0, done
    lw $a3, 12($s1)
    jal print
    addiu $s1, $s1, 16
    j next
    addu $s2, $s2, $v0
done:
    jr $s0
    sll $v0, $s2, 2
    .data
rows:
    .word signed, 42, -42, 0
    .word signed, 0, 0x7FFFFFFF, 0x80000000
    .word unsigned, 42, -42, 0x80000000
    .word bases, 8, 255, 255
    .word bases, -1, -1, 0xDEADBEEF
    .word bases, 0, 0, 0
    .word places, 0x1234, 0, -1
    .word bytes, 90, 0x4142, 0x13D
    .word bytes, 0x100, 0x25, -1
    .word strings, two, 0, none
    .word wide, 42, 42, 42
    .word wide, -42, -42, -42
    .word wide, 1234567, -1234567, 1234567
    .word wide_bases, 42, 255, 8
    .word wide_places, 0x1234, 0x1234, 0x1234
    .word wide_bytes, 90, 90, 90
    .word wide_strings, two, two, two
    .word wide_strings, 0, 0, 0
    .word wide_strings, long, long, none
    .word two_digits, 42, -42, -42
    .word flags, 42, 42, 42
    .word flags, -42, -42, -42
    .word only_flags, -42, 42, 42
    .word digits, 42, 0, 0
    .word digits, -42, -7, -7
    .word digits, 1234567, 1234567, 1234567
    .word wide_digits, 42, 42, 42
    .word wide_digits, -42, -42, -42
    .word digits_of_bases, 0xAB, 0xAB, 8
    .word digits_of_places, 0x1234, 0x1234, 0x1234
    .word parts, two, two, two
    .word parts, long, long, long
    .word parts, 0, 0, 0
    .word precision_of_bytes, 90, 90, 90
    .word sizes, 0x12345, 65536, 0x1234567
    .word sizes, -1, -1, -1
    .word more_sizes, two, 90, 0x1234
    .word percent, 7, 8, 9
    .word wide_percent, 7, 8, 9
    .word long, 7, 8, 9
    .word line, 7, 8, 9
    .word none, 7, 8, 9
    .word 0
signed:
    .asciz "[%d|%i|%d]\n"
unsigned:
    .asciz "[%u|%u|%u]\n"
bases:
    .asciz "[%o|%x|%X]\n"
places:
    .asciz "[%p|%p|%p]\n"
bytes:
    .asciz "[%c|%c|%c]\n"
strings:
    .asciz "[%s|%s|%s]\n"
wide:
    .asciz "[%5d|%-5d|%05d]\n"
wide_bases:
    .asciz "[%5u|%-5x|%05o]\n"
wide_places:
    .asciz "[%12p|%-12p|%012p]\n"
wide_bytes:
    .asciz "[%5c|%-5c|%05c]\n"
wide_strings:
    .asciz "[%8s|%-8s|%08s]\n"
two_digits:
    .asciz "[%10d|%-12d|%011d]\n"
flags:
    .asciz "[%-05d|%0-5d|%0005d]\n"
only_flags:
    .asciz "[%0d|%-d|%-0-0X]\n"
digits:
    .asciz "[%.5d|%.0d|%.d]\n"
wide_digits:
    .asciz "[%8.5d|%-8.5d|%08.5d]\n"
digits_of_bases:
    .asciz "[%.5x|%6.3X|%-012.10o]\n"
digits_of_places:
    .asciz "[%.10p|%12.2p|%012.9p]\n"
parts:
    .asciz "[%.1s|%6.4s|%-6.0s]\n"
precision_of_bytes:
    .asciz "[%.0c|%5.3c|%-5.c]\n"
sizes:
    .asciz "[%hd|%lu|%hhx]\n"
more_sizes:
    .asciz "[%-5ls|%hlc|%012llhX]\n"
percent:
    .asciz "[%%|%d|%%%d|%%d|%d]\n"
wide_percent:
    .asciz "[%5%|%d|%-05.3hl%|%d]\n"
two:
    .asciz "ab"
long:
    .asciz "no conversion\n"
line:
    .asciz "\n"
none:
    .asciz ""
