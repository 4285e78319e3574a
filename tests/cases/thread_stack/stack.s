; With which registers a thread starts: it is better than the loader's, so it runs at once, stores its
; argument and its stack pointer, and returns
    .name stack
stores:
    lui $t0, %hi(seen)
    addiu $t0, $t0, %lo(seen)
    sw $a0, 0($t0)
    sw $sp, 4($t0)
    jr $ra
    sw $ra, 8($t0)
    .data
rows:
    .word create, param, 0, 2
    .word start, 2, 7, 0
    .word peek, seen, 0, 7
    .word peek, seen_4, 0, 0x1FFFF0
    .word peek, seen_8, 0, 0x3000
    .word start, 2, 8, 0
    .word peek, seen, 0, 8
    .word 0
param:
    .word 0, 0, stores, 512, 5
seen:
    .word 0
seen_4:
    .word 0
seen_8:
    .word 0
