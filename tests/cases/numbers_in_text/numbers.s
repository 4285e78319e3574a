; What strtol answers, and the address that it writes
    .name numbers
    .import sysclib 1 1
    .fn strcpy 23
    .fn strtol 36
    .endi
; makes $a0 the base of the calls that follow
base:
    addu $a2, $a0, $0
    jr $ra
    addu $v0, $0, $0
; how many bytes there are from $a0 up to the address at $a1
read_of:
    lw $v0, 0($a1)
    nop
    jr $ra
    subu $v0, $v0, $a0
    .data
rows:
; the longest run of digits
    .word base, 10, 0, 0
    .word strtol, n_42, end, 42
    .word read_of, n_42, end, 2
    .word strtol, n_minus_42x, end, -42
    .word read_of, n_minus_42x, end, 3
    .word strtol, n_plus_7, end, 7
    .word read_of, n_plus_7, end, 2
    .word strtol, n_0042, end, 42
    .word read_of, n_0042, end, 4
    .word strtol, n_0x1f, end, 0
    .word read_of, n_0x1f, end, 1
; the bytes 09 to 0D and 20 before it are skipped, and no other
    .word strtol, spaces, end, -5
    .word read_of, spaces, end, 8
    .word strtol, byte_08, end, 0
    .word read_of, byte_08, end, 0
    .word strtol, byte_0e, end, 0
    .word read_of, byte_0e, end, 0
; without a digit nothing is read, also no sign and no space
    .word strtol, empty, end, 0
    .word read_of, empty, end, 0
    .word strtol, letters, end, 0
    .word read_of, letters, end, 0
    .word strtol, sign_alone, end, 0
    .word read_of, sign_alone, end, 0
    .word strtol, two_signs, end, 0
    .word read_of, two_signs, end, 0
    .word strtol, space_behind_sign, end, 0
    .word read_of, space_behind_sign, end, 0
; the value is held at 0x7FFFFFFF and 0x80000000, and the digits are read to the last
    .word strtol, n_most, end, 0x7FFFFFFF
    .word read_of, n_most, end, 10
    .word strtol, n_over_most, end, 0x7FFFFFFF
    .word read_of, n_over_most, end, 10
    .word strtol, n_least, end, 0x80000000
    .word read_of, n_least, end, 11
    .word strtol, n_below_least, end, 0x80000000
    .word read_of, n_below_least, end, 11
    .word strtol, n_far_below, end, 0x80000000
    .word read_of, n_far_below, end, 12
    .word strtol, n_two_words_and_1, end, 0x7FFFFFFF
    .word read_of, n_two_words_and_1, end, 20
; base 0: 0x and 0X before a digit of base 16 make it 16, another 0 makes it 8, else it is 10
    .word base, 0, 0, 0
    .word strtol, n_42, end, 42
    .word strtol, n_0x1f, end, 31
    .word read_of, n_0x1f, end, 4
    .word strtol, n_minus_0X1F, end, -31
    .word read_of, n_minus_0X1F, end, 5
    .word strtol, n_0042, end, 34
    .word read_of, n_0042, end, 4
    .word strtol, n_078, end, 7
    .word read_of, n_078, end, 2
    .word strtol, n_08, end, 0
    .word read_of, n_08, end, 1
    .word strtol, n_0x, end, 0
    .word read_of, n_0x, end, 1
    .word strtol, n_minus_0xg, end, 0
    .word read_of, n_minus_0xg, end, 2
    .word strtol, n_0x_minus_1, end, 0
    .word read_of, n_0x_minus_1, end, 1
; base 16: with 0x and without
    .word base, 16, 0, 0
    .word strtol, n_0x1f, end, 31
    .word read_of, n_0x1f, end, 4
    .word strtol, n_minus_0X1F, end, -31
    .word read_of, n_minus_0X1F, end, 5
    .word strtol, letters, end, 0xAB
    .word read_of, letters, end, 2
    .word strtol, n_0x, end, 0
    .word read_of, n_0x, end, 1
    .word strtol, n_minus_0xg, end, 0
    .word read_of, n_minus_0xg, end, 2
    .word strtol, n_word_of_hex, end, 0x7FFFFFFF
    .word read_of, n_word_of_hex, end, 8
; in other bases it is not skipped
    .word base, 8, 0, 0
    .word strtol, n_0x1f, end, 0
    .word read_of, n_0x1f, end, 1
    .word strtol, n_078, end, 7
    .word read_of, n_078, end, 2
    .word base, 2, 0, 0
    .word strtol, n_1012, end, 5
    .word read_of, n_1012, end, 3
    .word base, 35, 0, 0
    .word strtol, n_yZ, end, 34
    .word read_of, n_yZ, end, 1
    .word base, 36, 0, 0
    .word strtol, n_yZ, end, 1259
    .word read_of, n_yZ, end, 2
    .word strtol, n_0x, end, 33
    .word read_of, n_0x, end, 2
; in a base that numbers do not have nothing is read
    .word base, 1, 0, 0
    .word strtol, n_1012, end, 0
    .word read_of, n_1012, end, 0
    .word base, 37, 0, 0
    .word strtol, n_1012, end, 0
    .word read_of, n_1012, end, 0
    .word base, -1, 0, 0
    .word strtol, n_1012, end, 0
    .word read_of, n_1012, end, 0
; with no place nothing is written, at 0 neither
    .word base, 10, 0, 0
    .word strtol, n_42, 0, 42
    .word peek, 0, 0, 0
    .word read_of, n_1012, end, 0
; the address is of the segment in which the text was given. It may be written over the text
    .word strcpy, 0x20000, n_minus_42x, 0x20000
    .word strtol, 0x80020000, 0xA0020008, -42
    .word peek, 0x20008, 0, 0x80020003
    .word strtol, 0x20000, 0x20000, -42
    .word peek, 0x20000, 0, 0x20003
; the last word of RAM
    .word strtol, n_42, 0x1FFFFC, 42
    .word read_of, n_42, 0x1FFFFC, 2
    .word 0
end:
    .word 0
n_42:
    .asciz "42"
n_minus_42x:
    .asciz "-42x"
n_plus_7:
    .asciz "+7"
n_0042:
    .asciz "0042"
n_0x1f:
    .asciz "0x1fz"
; 09 0A 0B 0C 0D 20, and -5
spaces:
    .word 0x0C0B0A09, 0x352D200D, 0
; 08 and 5, 0E and 5
byte_08:
    .word 0x3508
byte_0e:
    .word 0x350E
empty:
    .asciz ""
letters:
    .asciz "abxyz"
sign_alone:
    .asciz " +"
two_signs:
    .asciz "-+5"
space_behind_sign:
    .asciz "- 5"
n_most:
    .asciz "2147483647"
n_over_most:
    .asciz "2147483648"
n_least:
    .asciz "-2147483648"
n_below_least:
    .asciz "-2147483649"
n_far_below:
    .asciz "-99999999999"
; 2^64 and 1
n_two_words_and_1:
    .asciz "18446744073709551617"
n_minus_0X1F:
    .asciz "-0X1F"
n_078:
    .asciz "078"
n_08:
    .asciz "08"
n_0x:
    .asciz "0x"
n_minus_0xg:
    .asciz "-0xg"
n_0x_minus_1:
    .asciz "0x-1"
n_word_of_hex:
    .asciz "FFFFFFFF"
n_1012:
    .asciz "1012"
n_yZ:
    .asciz "yZ"
