; Times in microseconds and in ticks, in a thread and in a handler, and places for them in each segment
    .name clock
; the time at $a0: its seconds at $a1, and its other microseconds in the next word
to_seconds:
    j to_usec
    addiu $a2, $a1, 4
; the ticks of $a0 microseconds, written through KSEG0 and through KSEG1
to_clock_kseg0:
    lui $t0, 0x8000
    j to_clock
    addu $a1, $a1, $t0
to_clock_kseg1:
    lui $t0, 0xA000
    j to_clock
    addu $a1, $a1, $t0
    .data
rows:
    .word to_clock, 125, time, 0
    .word peek, time, 0, 4608
    .word peek, time_high, 0, 0
    .word to_clock, 1, time, 0
    .word peek, time, 0, 36
    .word to_clock, 1000000, time, 0
    .word peek, time, 0, 36864000
    .word to_clock, -1, time, 0
    .word peek, time, 0, 3710851706
    .word peek, time_high, 0, 36
    .word to_seconds, thirty_six, usec, 0
    .word peek, usec, 0, 0
    .word peek, usec_rest, 0, 0
    .word to_seconds, one_second, usec, 0
    .word peek, usec, 0, 1
    .word peek, usec_rest, 0, 0
    .word to_seconds, most, usec, 0
    .word peek, usec, 0, 2183752260
    .word peek, usec_rest, 0, 721777
    .word to_clock, 0, time, 0
    .word peek, time, 0, 0
    .word peek, time_high, 0, 0
    .word to_clock_kseg0, 250, time, 0
    .word peek, time, 0, 9216
    .word to_clock_kseg1, 375, time, 0
    .word peek, time, 0, 13824
    .word get_time, time, 0, 0
    .word peek, time_high, 0, 0
    .word rows_in_handler, handler_rows, 0, 0
    .word 0
handler_rows:
    .word to_clock, 125, time, 0
    .word peek, time, 0, 4608
    .word to_seconds, one_second, usec, 0
    .word peek, usec, 0, 1
    .word peek, usec_rest, 0, 0
    .word poke, time_high, 7, 0
    .word get_time, time, 0, 0
    .word peek, time_high, 0, 0
    .word 0
thirty_six:
    .word 36, 0
one_second:
    .word 36864000, 0
most:
    .word -1, -1
time:
    .word 0
time_high:
    .word 0
usec:
    .word 0
usec_rest:
    .word 0
