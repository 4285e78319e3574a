; 4,096 messages of many priorities are sent to a mailbox and received, again and again; its attribute is 0 (by arrival) or
; 4 (by priority)
    .name messages
    .import thmsgbx 1 1
    .fn create_box 4
    .fn send 6
    .fn receive 8
    .endi
    .entry main
main:
    lui $a0, %hi(mailbox)
    jal create_box
    addiu $a0, $a0, %lo(mailbox)
    addu $s0, $v0, $0
; the priorities of the messages, in steps of 37
    lui $s1, %hi(messages)
    addiu $s1, $s1, %lo(messages)
    addiu $s2, $0, 4096
    addu $t0, $0, $0
prepare:
    addiu $t0, $t0, 37
    andi $t1, $t0, 0x7F
    sb $t1, 4($s1)
    addiu $s2, $s2, -1
    bne $s2, $0, prepare
    addiu $s1, $s1, 8
again:
    lui $s1, %hi(messages)
    addiu $s1, $s1, %lo(messages)
    addiu $s2, $0, 4096
fill:
    addu $a0, $s0, $0
    jal send
    addu $a1, $s1, $0
    addiu $s2, $s2, -1
    bne $s2, $0, fill
    addiu $s1, $s1, 8
    addiu $s2, $0, 4096
empty:
    lui $a0, %hi(place)
    addiu $a0, $a0, %lo(place)
    jal receive
    addu $a1, $s0, $0
    addiu $s2, $s2, -1
    bne $s2, $0, empty
    nop
    beq $0, $0, again
    nop
    .bss 32768
    .data
mailbox:
    .word ATTRIBUTE, 0
place:
    .word 0
messages:
