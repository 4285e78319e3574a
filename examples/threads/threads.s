; Two threads, a semaphore and an alarm. The alarm's handler signals the semaphore each millisecond, four times. The
; thread `rounds` waits for the semaphore, and prints a line each time. The thread `works`, of a lower priority, adds
; numbers, prints their sum, and sleeps for half a millisecond, three times. Where the alarm comes while `works` adds,
; `rounds` runs at once, and `works` goes on behind it with its registers as they were.
;
; The instruction behind a jump or a branch stands in its delay slot: it is executed before the jump is made. It stands
; one column further to the right here. A function that calls others keeps $ra in its frame, since a call changes it;
; the lowest 16 bytes of a frame belong to the functions that it calls.
    .name threads
    .entry main
    .import thbase 1 1
    .fn CreateThread 4
    .fn StartThread 6
    .fn DelayThread 33
    .fn SetAlarm 35
    .fn USec2SysClock 39
    .endi
    .import thsemap 1 1
    .fn CreateSema 4
    .fn iSignalSema 7
    .fn WaitSema 8
    .endi
    .import stdio 1 1
    .fn printf 4
    .endi

; The module begins here, in the loader's thread. That has priority 8, better than both threads that are started, so
; neither runs before main returns.
main:
    addiu $sp, $sp, -24
    sw $ra, 20($sp)
    sw $s0, 16($sp)
    lui $a0, %hi(semaphore)
    jal CreateSema
     addiu $a0, $a0, %lo(semaphore)
    addu $s0, $v0, $0           ; the id of the semaphore
    lui $a0, %hi(rounds_thread)
    jal CreateThread
     addiu $a0, $a0, %lo(rounds_thread)
    addu $a0, $v0, $0
    jal StartThread
     addu $a1, $s0, $0          ; the argument of `rounds`: the semaphore
    lui $a0, %hi(works_thread)
    jal CreateThread
     addiu $a0, $a0, %lo(works_thread)
    addu $a0, $v0, $0
    jal StartThread
     addu $a1, $0, $0
    addiu $a0, $0, 1000         ; microseconds
    lui $a1, %hi(period)
    jal USec2SysClock
     addiu $a1, $a1, %lo(period)
    lui $a0, %hi(period)
    addiu $a0, $a0, %lo(period)
    lui $a1, %hi(alarm)
    addiu $a1, $a1, %lo(alarm)
    jal SetAlarm
     addu $a2, $s0, $0          ; the argument of `alarm`: the semaphore
    lw $s0, 16($sp)
    lw $ra, 20($sp)
    addiu $sp, $sp, 24
    jr $ra
     addu $v0, $0, $0           ; the module stays

; The handler of the alarm. It is no thread and may not wait, so it signals by the form for handlers. What it answers is
; the number of ticks to the next alarm, or 0 for none.
alarm:
    addiu $sp, $sp, -24
    sw $ra, 20($sp)
    jal iSignalSema             ; $a0 is the semaphore
     nop
    lui $t0, %hi(left)
    lw $t1, %lo(left)($t0)
    lw $ra, 20($sp)
    addiu $t1, $t1, -1
    sw $t1, %lo(left)($t0)
    beq $t1, $0, alarm_ends
     addu $v0, $0, $0           ; none is left: the alarm is removed
    lui $v0, %hi(period)
    lw $v0, %lo(period)($v0)
alarm_ends:
    jr $ra
     addiu $sp, $sp, 24

; The thread that waits: $s0 is the semaphore, $s1 the number of the round. A thread's return ends it. It has registers
; of its own, so it need not keep the old ones.
rounds:
    addiu $sp, $sp, -24
    sw $ra, 20($sp)
    addu $s0, $a0, $0
    addu $s1, $0, $0
next_round:
    jal WaitSema
     addu $a0, $s0, $0
    addiu $s1, $s1, 1
    lui $a0, %hi(round_text)
    addiu $a0, $a0, %lo(round_text)
    jal printf
     addu $a1, $s1, $0
    addiu $t0, $0, 4
    bne $s1, $t0, next_round
     nop
    lw $ra, 20($sp)
    nop                         ; a loaded register may be used one instruction later
    jr $ra
     addiu $sp, $sp, 24

; The thread that works: $s0 is the number of the sum, $s1 the sum.
works:
    addiu $sp, $sp, -24
    sw $ra, 20($sp)
    addu $s0, $0, $0
next_sum:
    addiu $s0, $s0, 1
    addu $s1, $0, $0
    addiu $t0, $0, 8000
; 8,000 times four instructions, each of one tick: nine tenths of a millisecond
add_number:
    addu $s1, $s1, $t0
    addiu $t0, $t0, -1
    bne $t0, $0, add_number
     nop
    lui $a0, %hi(sum_text)
    addiu $a0, $a0, %lo(sum_text)
    addu $a1, $s0, $0
    jal printf
     addu $a2, $s1, $0
    jal DelayThread
     addiu $a0, $0, 500         ; microseconds
    addiu $t0, $0, 3
    bne $s0, $t0, next_sum
     nop
    lw $ra, 20($sp)
    nop
    jr $ra
     addiu $sp, $sp, 24

    .data
; what CreateSema is told: attribute, option, first count, most
semaphore:
    .word 0, 0, 0, 1
; what CreateThread is told: attributes, option, entry, bytes of stack, priority. 1 is the best priority
rounds_thread:
    .word 0, 0, rounds, 512, 20
works_thread:
    .word 0, 0, works, 512, 30
; a millisecond in ticks: two words, the lower one first
period:
    .word 0, 0
; how many alarms are left
left:
    .word 4
round_text:
    .asciz "round %d\n"
sum_text:
    .asciz "sum %d is %d\n"
