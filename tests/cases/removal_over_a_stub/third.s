; Is too long for the block that was filled. It calls the stub, and executes zeros up to the function behind that block
    .name third
    .entry main
    .bss 256
main:
    addu $s0, $ra, $0
    lui $t0, 1
    addiu $t0, $t0, 0x80
    jalr $ra, $t0
    nop
    jr $s0
    nop
