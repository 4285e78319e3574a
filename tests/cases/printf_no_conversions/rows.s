; What is no conversion is printed as it stands, and takes no argument
    .name others
    .entry main
    .import stdio 1 1
    .fn print 4
    .endi
; prints each row of a table, a format and three words, and returns four times the number of all bytes
main:
    addu $s0, $ra, $0
    lui $s1, %hi(rows)
    addiu $s1, $s1, %lo(rows)
    addu $s2, $0, $0
next:
    lw $a0, 0($s1)
    lw $a1, 4($s1)
    lw $a2, 8($s1)
    beq $a0, $0, done
    lw $a3, 12($s1)
    jal print
    addiu $s1, $s1, 16
    j next
    addu $s2, $s2, $v0
done:
    jr $s0
    sll $v0, $s2, 2
    .data
rows:
    .word unknown, 7, 8, 9
    .word unknown_large, 7, 8, 9
    .word with_all, 7, 8, 9
    .word other_flags, 7, 8, 9
    .word other_order, 7, 8, 9
    .word signs, 7, 8, 9
    .word digits_after_sizes, 7, 8, 9
    .word no_letter, 7, 8, 9
    .word line_behind, 7, 8, 9
    .word two_bytes, 7, 8, 9
    .word far, 7, 8, 9
    .word at_the_end, 7, 8, 9
    .word line, 0, 0, 0
    .word parts_at_the_end, 7, 8, 9
    .word line, 0, 0, 0
    .word percent_at_the_end, 7, 8, 9
    .word line, 0, 0, 0
    .word alone, 7, 8, 9
    .word line, 0, 0, 0
    .word 0
unknown:
    .asciz "[%q|%n|%f|%e|%g|%a|%b|%j|%z|%t|%L|%d]\n"
unknown_large:
    .asciz "[%D|%U|%O|%P|%C|%S|%I|%d]\n"
with_all:
    .asciz "[%-05.3hly|%5000.5000q|%d]\n"
other_flags:
    .asciz "[% d|%+d|%#x|%'d|%*d|%d]\n"
other_order:
    .asciz "[%5-d|%.5.3d|%.-3d|%5 d|%d]\n"
signs:
    .asciz "[%-5,d|%!|%;|%(d)|%d]\n"
digits_after_sizes:
    .asciz "[%h5d|%l-d|%l.3d|%d]\n"
no_letter:
    .asciz "[%]|%5]|%.]|%l]|%d]\n"
line_behind:
    .asciz "%5\n|%d|%.\n"
two_bytes:
    .asciz "[%ä|%5ß|%d]\n"
far:
    .asciz "[%99999999999999999999q|%.99999999999999999999q|%d]\n"
at_the_end:
    .asciz "%d%"
parts_at_the_end:
    .asciz "%d%-012.34hl"
percent_at_the_end:
    .asciz "%d%%%"
alone:
    .asciz "%"
line:
    .asciz "\n"
