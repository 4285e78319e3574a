; Signals the semaphore of vbcount at each vertical blank, which is interrupt line 0: the second of three modules. A
; handler may not wait, and signals by the form for handlers.
    .name prod
    .entry main
    .import intrman 1 1
    .fn register 4
    .fn enable_line 6
    .endi
    .import thsemap 1 1
    .fn signal_in_handler 7
    .endi
    .import vbcount 1 1
    .fn blanks 4
    .endi
main:
    addu $s0, $ra, $0
    jal blanks
    nop
    addu $a3, $v0, $0
    addu $a0, $0, $0
    lui $a2, %hi(blank)
    jal register
    addiu $a2, $a2, %lo(blank)
    jal enable_line
    addu $a0, $0, $0
    jr $s0
    addu $v0, $0, $0
; the handler: its argument is the semaphore. It answers 1, so the line is enabled again; after 0 it would stay disabled
blank:
    addu $s0, $ra, $0
    jal signal_in_handler
    nop
    jr $s0
    addiu $v0, $0, 1
