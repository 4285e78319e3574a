; Loads and stores of each width at each byte of a word, in little-endian order, and through each segment
    .name memory
by_lb:
    addu $t0, $a0, $a1
    jr $ra
    lb $v0, 0($t0)
by_lbu:
    addu $t0, $a0, $a1
    jr $ra
    lbu $v0, 0($t0)
by_lh:
    addu $t0, $a0, $a1
    jr $ra
    lh $v0, 0($t0)
by_lhu:
    addu $t0, $a0, $a1
    jr $ra
    lhu $v0, 0($t0)
by_lw:
    addu $t0, $a0, $a1
    jr $ra
    lw $v0, 0($t0)
before:
    addiu $t0, $a0, 32767
    jr $ra
    lw $v0, -32767($t0)
behind:
    addiu $t0, $a0, -32764
    jr $ra
    lw $v0, 32764($t0)
; into a register that was 0x11223344
by_lwl:
    lui $v0, 0x1122
    ori $v0, $v0, 0x3344
    addu $t0, $a0, $a1
    jr $ra
    lwl $v0, 0($t0)
by_lwr:
    lui $v0, 0x1122
    ori $v0, $v0, 0x3344
    addu $t0, $a0, $a1
    jr $ra
    lwr $v0, 0($t0)
; both of them: the word at any address
unaligned:
    addu $t0, $a0, $a1
    lwr $v0, 0($t0)
    lwl $v0, 3($t0)
    jr $ra
    nop
; stores 0x11223344 over a word that was 0xA1B2C3D4, and answers what stands there
by_sb:
    lui $t1, 0xA1B2
    ori $t1, $t1, 0xC3D4
    sw $t1, 0($a0)
    addu $t0, $a0, $a1
    lui $t2, 0x1122
    ori $t2, $t2, 0x3344
    sb $t2, 0($t0)
    lw $v0, 0($a0)
    jr $ra
    nop
by_sh:
    lui $t1, 0xA1B2
    ori $t1, $t1, 0xC3D4
    sw $t1, 0($a0)
    addu $t0, $a0, $a1
    lui $t2, 0x1122
    ori $t2, $t2, 0x3344
    sh $t2, 0($t0)
    lw $v0, 0($a0)
    jr $ra
    nop
by_sw:
    lui $t1, 0xA1B2
    ori $t1, $t1, 0xC3D4
    sw $t1, 0($a0)
    addu $t0, $a0, $a1
    lui $t2, 0x1122
    ori $t2, $t2, 0x3344
    sw $t2, 0($t0)
    lw $v0, 0($a0)
    jr $ra
    nop
by_swl:
    lui $t1, 0xA1B2
    ori $t1, $t1, 0xC3D4
    sw $t1, 0($a0)
    addu $t0, $a0, $a1
    lui $t2, 0x1122
    ori $t2, $t2, 0x3344
    swl $t2, 0($t0)
    lw $v0, 0($a0)
    jr $ra
    nop
by_swr:
    lui $t1, 0xA1B2
    ori $t1, $t1, 0xC3D4
    sw $t1, 0($a0)
    addu $t0, $a0, $a1
    lui $t2, 0x1122
    ori $t2, $t2, 0x3344
    swr $t2, 0($t0)
    lw $v0, 0($a0)
    jr $ra
    nop
; stores a word through one segment and loads it through others
segments:
    lui $t0, 0x8000
    or $t0, $a0, $t0
    lui $t1, 0xA000
    or $t1, $a0, $t1
    sw $a1, 0($t0)
    lw $t2, 0($t1)
    lw $t3, 0($a0)
    nop
    bne $t2, $t3, not_the_same
    nop
    jr $ra
    addu $v0, $t2, $0
not_the_same:
    jr $ra
    addu $v0, $0, $0
; a load into register 0 leaves it 0
into_0:
    lw $0, 0($a0)
    nop
    jr $ra
    addu $v0, $0, $0
    .data
rows:
    .word by_lb, word, 0, 1
    .word by_lb, word, 1, 0xFFFFFF82
    .word by_lb, word, 2, 0x73
    .word by_lb, word, 3, 0xFFFFFFF4
    .word by_lbu, word, 0, 1
    .word by_lbu, word, 1, 0x82
    .word by_lbu, word, 3, 0xF4
    .word by_lh, word, 0, 0xFFFF8201
    .word by_lh, word, 2, 0xFFFFF473
    .word by_lh, next_word, 0, 0x0605
    .word by_lhu, word, 0, 0x8201
    .word by_lhu, word, 2, 0xF473
    .word by_lw, word, 0, 0xF4738201
    .word by_lw, word, 4, 0x08070605
    .word by_lw, next_word, -4, 0xF4738201
    .word before, word, 0, 0xF4738201
    .word behind, word, 0, 0xF4738201
    .word by_lwl, word, 0, 0x01223344
    .word by_lwl, word, 1, 0x82013344
    .word by_lwl, word, 2, 0x73820144
    .word by_lwl, word, 3, 0xF4738201
    .word by_lwr, word, 0, 0xF4738201
    .word by_lwr, word, 1, 0x11F47382
    .word by_lwr, word, 2, 0x1122F473
    .word by_lwr, word, 3, 0x112233F4
    .word unaligned, word, 0, 0xF4738201
    .word unaligned, word, 1, 0x05F47382
    .word unaligned, word, 2, 0x0605F473
    .word unaligned, word, 3, 0x070605F4
    .word by_sb, place, 0, 0xA1B2C344
    .word by_sb, place, 1, 0xA1B244D4
    .word by_sb, place, 2, 0xA144C3D4
    .word by_sb, place, 3, 0x44B2C3D4
    .word by_sh, place, 0, 0xA1B23344
    .word by_sh, place, 2, 0x3344C3D4
    .word by_sw, place, 0, 0x11223344
    .word by_swl, place, 0, 0xA1B2C311
    .word by_swl, place, 1, 0xA1B21122
    .word by_swl, place, 2, 0xA1112233
    .word by_swl, place, 3, 0x11223344
    .word by_swr, place, 0, 0x11223344
    .word by_swr, place, 1, 0x223344D4
    .word by_swr, place, 2, 0x3344C3D4
    .word by_swr, place, 3, 0x44B2C3D4
    .word segments, place, 77, 77
    .word into_0, word, 0, 0
    .word 0
word:
    .word 0xF4738201
next_word:
    .word 0x08070605
place:
    .word 0
