; What each service of thbase refuses a thread, and the status of the first thread. The thread 4 calls some rows as
; well, since the loader's thread is refused some things that another is not
    .name refusals
    .import intrman 1 1
    .fn turn_off 8
    .fn turn_on 9
    .endi
; calls the rows that its argument names, and stores the answer
calls:
    addu $s3, $ra, $0
    addu $s1, $a0, $0
    lui $s0, %hi(called)
    j each_row
    addiu $s0, $s0, %lo(called)
called:
    lui $t0, %hi(thread_answer)
    addiu $t0, $t0, %lo(thread_answer)
    jr $s3
    sw $v0, 0($t0)
    .data
rows:
    .word create, attribute, 0, -401
    .word create, entry, 0, -402
    .word create, no_priority, 0, -403
    .word create, priority, 0, -403
    .word create, stack, 0, -404
    .word create, large, 0, -400
    .word create, good, 0, 2
    .word start, 0, 0, -406
    .word start, 1, 0, -406
    .word start, 3, 0, -407
    .word delete, 0, 0, -406
    .word delete, 3, 0, -407
    .word terminate, 0, 0, -406
    .word terminate, 3, 0, -407
    .word release, 0, 0, -406
    .word release, 1, 0, -406
    .word release, 3, 0, -407
    .word wakeup, 0, 0, -406
    .word wakeup, 3, 0, -407
    .word suspend, 0, 0, -406
    .word suspend, 3, 0, -407
    .word resume, 0, 0, -406
    .word resume, 1, 0, -406
    .word resume, 3, 0, -407
    .word change, 0, status, -403
    .word change, 0, 0, -403
    .word change, 3, 127, -403
    .word change, 2, 9, -413
    .word change, 3, 9, -407
    .word terminate, 2, 0, -413
    .word wakeup, 2, 0, -413
    .word suspend, 2, 0, -413
    .word resume, 2, 0, -415
    .word release, 2, 0, -416
    .word cancel, 2, 0, -413
    .word cancel, 3, 0, -407
    .word refer, 3, status, -407
    .word refer, 2, status, 0
    .word peek, status, 0, 0x02000000
    .word peek, status_8, 0, 0x10
    .word peek, status_16, 0, 0x1FFE00
    .word peek, status_20, 0, 512
    .word peek, status_28, 0, 20
    .word peek, status_32, 0, 20
    .word start, 2, 7, 0
    .word start, 2, 7, -414
    .word change, 2, 21, 0
    .word refer, 2, status, 0
    .word peek, status_28, 0, 20
    .word peek, status_32, 0, 21
    .word cancel, 2, 0, 0
    .word delete, 2, 0, -414
    .word refer, 2, status, 0
    .word peek, status_8, 0, 2
    .word resume, 2, 0, -415
    .word release, 2, 0, -416
    .word disable, 0, 0, 0
    .word sleep, 0, 0, -417
    .word enable, 0, 0, 0
    .word turn_off, 0, 0, 0
    .word sleep, 0, 0, -417
    .word turn_on, 0, 0, 0
    .word cancel, 0, 0, 0
    .word own_id, 0, 0, 1
    .word refer, 0, status, 0
    .word peek, status, 0, 0x02000000
    .word peek, status_8, 0, 1
    .word peek, status_16, 0, 0xC000
    .word peek, status_20, 0, 0x4000
    .word peek, status_28, 0, 8
    .word wakeup, 1, 0, -406
    .word suspend, 1, 0, -406
    .word terminate, 1, 0, -406
    .word rotate, 127, 0, -403
    .word delete, 1, 0, -406
    .word terminate, 2, 0, 0
    .word delete, 2, 0, 0
    .word delete, 2, 0, -407
    .word create, good, 0, 3
    .word create, calling, 0, 4
    .word start, 4, thread_rows, 0
    .word peek, thread_answer, 0, 0
    .word 0
thread_rows:
    .word own_id, 0, 0, 4
    .word terminate, 4, 0, -406
    .word release, 4, 0, -406
    .word wakeup, 4, 0, -406
    .word suspend, 4, 0, -406
    .word resume, 4, 0, -406
    .word start, 4, 0, -414
    .word delete, 4, 0, -414
    .word cancel, 0, 0, 0
    .word cancel, 4, 0, 0
    .word change, 0, 6, 0
    .word refer, 0, status, 0
    .word peek, status_28, 0, 5
    .word peek, status_32, 0, 6
    .word start, 1, 0, -406
    .word delete, 1, 0, -406
    .word terminate, 1, 0, -406
    .word release, 1, 0, -416
    .word resume, 1, 0, -415
    .word suspend, 1, 0, 0
    .word suspend, 1, 0, 0
    .word resume, 1, 0, 0
    .word wakeup, 1, 0, 0
    .word cancel, 1, 0, 1
    .word change, 1, 8, 0
    .word 0
attribute:
    .word 1, 0, peek, 512, 20
entry:
    .word 0, 0, 2, 512, 20
no_priority:
    .word 0, 0, peek, 512, 0
priority:
    .word 0, 0, peek, 512, 127
stack:
    .word 0, 0, peek, 255, 20
large:
    .word 0, 0, peek, -1, 20
good:
    .word 0x02000000, 0, peek, 300, 20
calling:
    .word 0, 0, calls, 256, 5
thread_answer:
    .word 1
status:
    .word 0, 0
status_8:
    .word 0, 0
status_16:
    .word 0
status_20:
    .word 0, 0
status_28:
    .word 0
status_32:
    .word 0, 0, 0, 0
