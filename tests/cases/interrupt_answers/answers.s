; What the services of intrman answer in a thread and in a handler, whose return turns interrupts on, and what waits
; do while they are off
    .name answers
    .import intrman 1 1
    .fn register 4
    .fn release_line 5
    .fn enable_line 6
    .fn disable_line 7
    .fn turn_off 8
    .fn turn_on 9
    .fn suspend_interrupts 17
    .fn resume_interrupts 18
    .fn in_handler 23
    .endi
; a handler for the line $a0, with the argument 7
register_it:
    lui $a2, %hi(handles)
    addiu $a2, $a2, %lo(handles)
    j register
    addiu $a3, $0, 7
handles:
    jr $ra
    addu $v0, $0, $0
    .data
rows:
    .word suspend_interrupts, word, 0, 0
    .word peek, word, 0, 1
    .word suspend_interrupts, word, 0, -102
    .word peek, word, 0, 0
    .word delay, 1, 0, -417
    .word sleep, 0, 0, -417
    .word disable, 0, 0, -102
    .word enable, 0, 0, -102
    .word resume_interrupts, 1, 0, 0
    .word disable_line, 5, word, -103
    .word peek, word, 0, 5
    .word enable_line, 64, 0, -101
    .word enable_line, -1, 0, -101
    .word disable_line, 64, word, -101
    .word peek, word, 0, 5
    .word disable_line, 64, 0, -101
    .word release_line, 64, 0, -101
    .word release_line, 5, 0, -105
    .word register_it, 64, 0, -101
    .word register_it, -1, 0, -101
    .word register_it, 63, 0, 0
    .word release_line, 63, 0, 0
    .word register_it, 5, 0, 0
    .word register_it, 5, 0, -104
    .word enable_line, 5, 0, 0
    .word enable_line, 5, 0, 0
    .word disable_line, 5, word_2, 0
    .word peek, word_2, 0, 5
    .word disable_line, 5, 0, -103
    .word enable_line, 5, 0, 0
    .word release_line, 5, 0, 0
    .word disable_line, 5, 0, -103
    .word enable_line, 63, 0, 0
    .word disable_line, 63, 0, 0
    .word turn_off, 0, 0, 0
    .word turn_off, 0, 0, -102
    .word turn_on, 0, 0, 0
    .word turn_on, 0, 0, 0
    .word resume_interrupts, 0, 0, 0
    .word turn_off, 0, 0, -102
    .word resume_interrupts, 2, 0, 0
    .word disable, 0, 0, 0
    .word delay, 1, 0, -417
    .word enable, 0, 0, 0
    .word in_handler, 0, 0, 0
    .word register_it, 6, 0, 0
    .word rows_in_handler, handler_rows, 0, 0
    .word suspend_interrupts, word, 0, 0
    .word peek, word, 0, 1
    .word turn_on, 0, 0, 0
    .word release_line, 6, 0, 0
    .word 0
handler_rows:
    .word in_handler, 0, 0, 1
    .word register_it, 6, 0, -100
    .word register_it, 64, 0, -100
    .word release_line, 6, 0, -100
    .word release_line, 64, 0, -100
    .word enable_line, 6, 0, 0
    .word enable_line, 64, 0, -101
    .word disable_line, 6, word, 0
    .word peek, word, 0, 6
    .word disable_line, 6, 0, -103
    .word disable_line, 64, 0, -101
    .word suspend_interrupts, word, 0, 0
    .word peek, word, 0, 1
    .word suspend_interrupts, word, 0, -102
    .word peek, word, 0, 0
    .word resume_interrupts, 0, 0, 0
    .word turn_off, 0, 0, -102
    .word resume_interrupts, 1, 0, 0
    .word turn_off, 0, 0, 0
    .word turn_on, 0, 0, 0
    .word turn_off, 0, 0, 0
    .word 0
word:
    .word 0
word_2:
    .word 0
