; begins the loop of mixed.s with 254 threads ready that are worse than the one which runs it
    .name ready
    .import thbase 1 1
    .fn create_thread 4
    .fn start_thread 6
    .endi
    .entry main
main:
    addiu $s1, $0, 254
each:
    lui $a0, %hi(thread)
    jal create_thread
    addiu $a0, $a0, %lo(thread)
    addu $a0, $v0, $0
    jal start_thread
    nop
    addiu $s1, $s1, -1
    bne $s1, $0, each
    nop
    beq $0, $0, loop
    nop
    .data
thread:
    .word 0x2000000, 0, main, 256, 126
