; 64 KiB are copied by memcpy, again and again: 11 instructions in each round
    .name memcpy
    .import sysclib 1 1
    .fn memcpy 12
    .endi
    .entry main
main:
    lui $s0, %hi(bytes)
    addiu $s0, $s0, %lo(bytes)
    lui $s1, 1
    addu $s2, $s0, $s1
again:
    addu $a0, $s2, $0
    addu $a1, $s0, $0
    jal memcpy
    addu $a2, $s1, $0
    beq $0, $0, again
    nop
    .bss 131072
    .data
bytes:
