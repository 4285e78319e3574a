# Sites of relocation entries as a compiler seldom makes them. They are linked to the module of examples/c.

    .set noreorder
    .text
    .globl sites
sites:
    # two upper halves that share a lower half
    lui $4, %hi(shared)
    lui $5, %hi(shared)
    addiu $4, $4, %lo(shared)
    # two lower halves that share an upper half
    lui $6, %hi(far)
    lw $9, %lo(far)($6)
    lw $10, %lo(far + 4)($6)
    # a lower half before its upper half
    b 2f
    nop
1:  addiu $8, $8, %lo(near)
    jr $ra
    nop
2:  b 1b
    lui $8, %hi(near)
    # halves with addends, on either side of a carry
    lui $7, %hi(far + 0x7ffc)
    sw $0, %lo(far + 0x7ffc)($7)
    lui $7, %hi(far + 0x8004)
    sw $0, %lo(far + 0x8004)($7)
    # jumps with addends
    j sites + 8
    nop
    jal sites + 16
    nop

    .data
near:
    .word sites, sites - 4, far + 0xfffc, near + 0x12345678

    .bss
far:
    .space 0x10000
shared:
    .space 4
