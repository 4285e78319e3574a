; Two threads, a fixed pool of two buffers and a mailbox. The thread `fills` takes a buffer of the pool, writes a number
; into it and sends it to the mailbox, five times; where no buffer is free it waits. The thread `prints`, of a lower
; priority, receives a buffer, prints its number and gives the buffer back to the pool. So `fills`, which waits for it,
; wakes and fills it again, and `prints` goes on behind that.
;
; The instruction behind a jump or a branch stands in its delay slot: it is executed before the jump is made. It stands
; one column further to the right here. A function that calls others keeps $ra in its frame, since a call changes it;
; the lowest 16 bytes of a frame belong to the functions that it calls.
    .name buffers
    .entry main
    .import thbase 1 1
    .fn CreateThread 4
    .fn StartThread 6
    .endi
    .import thmsgbx 1 1
    .fn CreateMbx 4
    .fn SendMbx 6
    .fn ReceiveMbx 8
    .endi
    .import thfpool 1 1
    .fn CreateFpl 4
    .fn AllocateFpl 6
    .fn FreeFpl 8
    .endi
    .import stdio 1 1
    .fn printf 4
    .endi

; The module begins here, in the loader's thread. That has priority 8, better than both threads that are started, so
; neither runs before main returns.
main:
    addiu $sp, $sp, -24
    sw $ra, 20($sp)
    lui $a0, %hi(pool)
    jal CreateFpl
     addiu $a0, $a0, %lo(pool)
    lui $t0, %hi(pool_id)
    sw $v0, %lo(pool_id)($t0)
    lui $a0, %hi(mailbox)
    jal CreateMbx
     addiu $a0, $a0, %lo(mailbox)
    lui $t0, %hi(mailbox_id)
    sw $v0, %lo(mailbox_id)($t0)
    lui $a0, %hi(fills_thread)
    jal CreateThread
     addiu $a0, $a0, %lo(fills_thread)
    jal StartThread
     addu $a0, $v0, $0
    lui $a0, %hi(prints_thread)
    jal CreateThread
     addiu $a0, $a0, %lo(prints_thread)
    jal StartThread
     addu $a0, $v0, $0
    lw $ra, 20($sp)
    addiu $sp, $sp, 24
    jr $ra
     addu $v0, $0, $0           ; the module stays

; The thread that fills: $s0 is the number, $s1 the buffer. A thread's return ends it. It has registers of its own, so
; it need not keep the old ones.
fills:
    addiu $sp, $sp, -24
    sw $ra, 20($sp)
    addu $s0, $0, $0
next_number:
    lui $a0, %hi(pool_id)
    jal AllocateFpl             ; waits where no buffer is free
     lw $a0, %lo(pool_id)($a0)
    addu $s1, $v0, $0
    addiu $s0, $s0, 1
    sw $s0, 8($s1)
    lui $a0, %hi(filled_text)
    addiu $a0, $a0, %lo(filled_text)
    jal printf
     addu $a1, $s0, $0
    lui $a0, %hi(mailbox_id)
    lw $a0, %lo(mailbox_id)($a0)
    jal SendMbx                 ; what is sent is the address: nothing is copied
     addu $a1, $s1, $0
    addiu $t0, $0, 5
    bne $s0, $t0, next_number
     nop
    lw $ra, 20($sp)
    nop                         ; a loaded register may be used one instruction later
    jr $ra
     addiu $sp, $sp, 24

; The thread that prints: $s0 is the number that it has printed, $s1 the buffer
prints:
    addiu $sp, $sp, -24
    sw $ra, 20($sp)
next_buffer:
    lui $a1, %hi(mailbox_id)
    lw $a1, %lo(mailbox_id)($a1)
    jal ReceiveMbx              ; waits where there is no message
     addiu $a0, $sp, 16         ; where the buffer's address is written
    lw $s1, 16($sp)
    lui $a0, %hi(received_text)
    lw $s0, 8($s1)
    addiu $a0, $a0, %lo(received_text)
    jal printf
     addu $a1, $s0, $0
    lui $a0, %hi(pool_id)
    lw $a0, %lo(pool_id)($a0)
    jal FreeFpl                 ; a thread that waits for a buffer has this one now
     addu $a1, $s1, $0
    addiu $t0, $0, 5
    bne $s0, $t0, next_buffer
     nop
    lw $ra, 20($sp)
    nop
    jr $ra
     addiu $sp, $sp, 24

    .data
; what CreateFpl is told: attribute, option, bytes of a buffer, buffers. The first 8 bytes of a message are its head,
; and the number stands behind it
pool:
    .word 0, 0, 12, 2
; what CreateMbx is told: attribute, option
mailbox:
    .word 0, 0
; what CreateThread is told: attributes, option, entry, bytes of stack, priority. 1 is the best priority
fills_thread:
    .word 0, 0, fills, 512, 20
prints_thread:
    .word 0, 0, prints, 512, 30
; the ids
pool_id:
    .word 0
mailbox_id:
    .word 0
filled_text:
    .asciz "filled %d\n"
received_text:
    .asciz "received %d\n"
