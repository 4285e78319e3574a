; Loads, stores and instructions in the last words of 8 MiB, and at 2 MiB, through each segment. of_2.s has the same rows
; for 2 MiB
    .name end
; the half or the byte at $a0, or a word that need not be aligned
peek_half:
    lhu $v0, 0($a0)
    jr $ra
    nop
peek_byte:
    lbu $v0, 0($a0)
    jr $ra
    nop
peek_across:
    lwr $v0, 0($a0)
    lwl $v0, 3($a0)
    jr $ra
    nop
; makes $a1 that
poke_half:
    sh $a1, 0($a0)
    jr $ra
    addu $v0, $0, $0
poke_byte:
    sb $a1, 0($a0)
    jr $ra
    addu $v0, $0, $0
poke_across:
    swr $a1, 0($a0)
    swl $a1, 3($a0)
    jr $ra
    addu $v0, $0, $0
    .data
rows:
    .word peek, 0x200000, 0, 0
    .word poke, 0x200000, 0x11223344, 0
    .word peek, 0x80200000, 0, 0x11223344
    .word peek, 0xA0200000, 0, 0x11223344
    .word peek, 0, 0, 0
    .word peek, 0x400000, 0, 0
    .word poke, 0x807FFFFC, 0x55667788, 0
    .word peek, 0x7FFFFC, 0, 0x55667788
    .word peek, 0xA07FFFFC, 0, 0x55667788
    .word peek, 0x1FFFFC, 0, 0
    .word poke, 0xA07FFFF8, 0x99AABBCC, 0
    .word peek_half, 0x807FFFFE, 0, 0x5566
    .word peek_byte, 0xA07FFFFF, 0, 0x55
    .word peek_across, 0x7FFFF9, 0, 0x8899AABB
    .word poke_half, 0xA07FFFFE, 0x1234, 0
    .word poke_byte, 0x807FFFFF, 0x9A, 0
    .word peek, 0x7FFFFC, 0, 0x9A347788
    .word poke_across, 0x807FFFF9, 0x01020304, 0
    .word peek, 0xA07FFFF8, 0, 0x020304CC
    .word peek, 0x7FFFFC, 0, 0x9A347701
; jr $ra, and in its slot addiu $v0, $0, 5
    .word poke, 0x7FFFF8, 0x03E00008, 0
    .word poke, 0x7FFFFC, 0x24020005, 0
    .word 0x7FFFF8, 0, 0, 5
    .word 0x807FFFF8, 0, 0, 5
    .word 0xA07FFFF8, 0, 0, 5
    .word 0
