; 263 libraries can be registered, the eleven of the kernel among them
    .name limit
    .import loadcore 1 1
    .fn register_library 6
    .fn release_library 7
    .endi
; registers the table under the names of 1 to 252, as long as that is answered with 0, and answers the last name
fills:
    addu $s3, $ra, $0
    lui $s4, %hi(name)
    addiu $s4, $s4, %lo(name)
    addiu $s5, $0, 252
fill:
    lw $t0, 0($s4)
    lui $a0, %hi(table)
    beq $t0, $s5, filled
    addiu $t0, $t0, 1
    sw $t0, 0($s4)
    jal register_library
    addiu $a0, $a0, %lo(table)
    beq $v0, $0, fill
    nop
filled:
    lw $v0, 0($s4)
    jr $s3
    nop
    .data
rows:
    .word fills, 0, 0, 252
    .word register_library, table, 0, -212
    .word poke, name, 256, 0
    .word register_library, table, 0, -400
    .word register_library, rows, 0, -214
    .word poke, name, 7, 0
    .word register_library, table, 0, -212
    .word release_library, table, 0, 0
    .word poke, name, 256, 0
    .word register_library, table, 0, 0
    .word poke, name, 257, 0
    .word register_library, table, 0, -400
    .word 0
table:
    .word 0x41C00000, 0, 0x101
name:
    .word 0, 0, peek, 0
