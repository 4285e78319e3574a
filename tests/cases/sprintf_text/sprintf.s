; What sprintf writes and answers, with no argument to six, of which two are in registers
    .name sprintf
    .import sysclib 1 1
    .fn sprintf 19
    .fn strcmp 22
    .fn strcpy 23
    .fn strlen 27
    .endi
; make $a0 the third and $a1 the fourth argument of the calls that follow
arguments:
    addu $a2, $a0, $0
    addu $a3, $a1, $0
    jr $ra
    addu $v0, $0, $0
; sprintf with arguments of a stack
with_stack:
    addu $s3, $ra, $0
    addu $s4, $sp, $0
    lui $sp, %hi(stack)
    jal sprintf
    addiu $sp, $sp, %lo(stack)
    addu $sp, $s4, $0
    jr $s3
    nop
    .data
rows:
; no argument. Behind the zero byte nothing is written
    .word poke, 0x20004, -1, 0
    .word sprintf, 0x20000, plain, 5
    .word strcmp, 0x20000, plain, 0
    .word peek, 0x20004, 0, 0xFFFF006E
    .word sprintf, 0x20000, empty, 0
    .word peek, 0x20000, 0, 0x69616C00
    .word sprintf, 0x20000, percent, 2
    .word strcmp, 0x20000, percent_text, 0
; one, two, and four more of the stack
    .word arguments, -5, x, 0
    .word sprintf, 0x20000, one, 2
    .word strcmp, 0x20000, one_text, 0
    .word sprintf, 0x20000, two, 4
    .word strcmp, 0x20000, two_text, 0
    .word with_stack, 0x20000, six, 20
    .word strcmp, 0x20000, six_text, 0
    .word arguments, 0, 65, 0
    .word sprintf, 0x20000, null, 8
    .word strcmp, 0x20000, null_text, 0
; through KSEG0 and KSEG1
    .word sprintf, 0x80020010, plain, 5
    .word strcmp, 0x20010, plain, 0
    .word sprintf, 0xA0020012, plain, 5
    .word strcmp, 0x20010, plplain, 0
; where the text is written its arguments and its format may stand
    .word strcpy, 0x20000, x, 0x20000
    .word arguments, 0x20000, 0x20000, 0
    .word sprintf, 0x20000, twice, 4
    .word strcmp, 0x20000, twice_text, 0
    .word strcpy, 0x20000, two, 0x20000
    .word arguments, -5, x, 0
    .word sprintf, 0x20000, 0x20000, 4
    .word strcmp, 0x20000, two_text, 0
; the text is cut at 4,096 bytes, and the zero byte stands behind them
    .word poke, 0x21000, -1, 0
    .word sprintf, 0x20000, wide, 4096
    .word strlen, 0x20000, 0, 4096
    .word strcmp, 0x20FFE, one_text, 0
    .word peek, 0x21000, 0, 0xFFFFFF00
; and the last byte of RAM may be that
    .word sprintf, 0x1FFFFB, two, 4
    .word strcmp, 0x1FFFFB, two_text, 0
    .word 0
stack:
    .word -1, -1, -1, -1, 1, 2, word, 0xAB
plain:
    .asciz "plain"
plplain:
    .asciz "plplain"
empty:
    .asciz ""
percent:
    .asciz "%%%"
percent_text:
    .asciz "%%"
x:
    .asciz "x"
one:
    .asciz "%d"
one_text:
    .asciz "-5"
two:
    .asciz "%d-%s"
two_text:
    .asciz "-5-x"
six:
    .asciz "%d %s %d %03d %s %4x"
six_text:
    .asciz "-5 x 1 002 word   ab"
word:
    .asciz "word"
null:
    .asciz "%s %c"
null_text:
    .asciz "(null) A"
twice:
    .asciz "[%s%s]"
twice_text:
    .asciz "[xx]"
wide:
    .asciz "%4096d and more"
