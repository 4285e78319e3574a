; Numbers that the libraries do not list: those before the listed ones and between them, the first behind them, and 63.
; Each answers -1, in a thread and in a handler, and the trace tells of it
    .name unlisted
    .import loadcore 1 1
    .fn loadcore_0 0
    .fn loadcore_1 1
    .fn loadcore_2 2
    .fn loadcore_3 3
    .fn loadcore_8 8
    .fn loadcore_63 63
    .endi
    .import sysmem 1 1
    .fn sysmem_0 0
    .fn sysmem_1 1
    .fn sysmem_2 2
    .fn sysmem_3 3
    .fn sysmem_11 11
    .fn sysmem_12 12
    .fn sysmem_13 13
    .fn sysmem_15 15
    .fn sysmem_63 63
    .endi
    .import intrman 1 1
    .fn intrman_0 0
    .fn intrman_1 1
    .fn intrman_2 2
    .fn intrman_3 3
    .fn intrman_10 10
    .fn intrman_11 11
    .fn intrman_12 12
    .fn intrman_13 13
    .fn intrman_14 14
    .fn intrman_15 15
    .fn intrman_16 16
    .fn intrman_19 19
    .fn intrman_20 20
    .fn intrman_21 21
    .fn intrman_22 22
    .fn intrman_24 24
    .fn intrman_63 63
    .endi
    .import thbase 1 1
    .fn thbase_0 0
    .fn thbase_1 1
    .fn thbase_2 2
    .fn thbase_3 3
    .fn thbase_7 7
    .fn thbase_21 21
    .fn thbase_41 41
    .fn thbase_63 63
    .endi
    .import thsemap 1 1
    .fn thsemap_0 0
    .fn thsemap_1 1
    .fn thsemap_2 2
    .fn thsemap_3 3
    .fn thsemap_10 10
    .fn thsemap_13 13
    .fn thsemap_63 63
    .endi
    .import thevent 1 1
    .fn thevent_0 0
    .fn thevent_1 1
    .fn thevent_2 2
    .fn thevent_3 3
    .fn thevent_12 12
    .fn thevent_15 15
    .fn thevent_63 63
    .endi
    .import thmsgbx 1 1
    .fn thmsgbx_0 0
    .fn thmsgbx_1 1
    .fn thmsgbx_2 2
    .fn thmsgbx_3 3
    .fn thmsgbx_10 10
    .fn thmsgbx_13 13
    .fn thmsgbx_63 63
    .endi
    .import stdio 1 1
    .fn stdio_0 0
    .fn stdio_1 1
    .fn stdio_2 2
    .fn stdio_3 3
    .fn stdio_5 5
    .fn stdio_63 63
    .endi
    .import thvpool 1 1
    .fn thvpool_0 0
    .fn thvpool_1 1
    .fn thvpool_2 2
    .fn thvpool_3 3
    .fn thvpool_10 10
    .fn thvpool_13 13
    .fn thvpool_63 63
    .endi
    .import thfpool 1 1
    .fn thfpool_0 0
    .fn thfpool_1 1
    .fn thfpool_2 2
    .fn thfpool_3 3
    .fn thfpool_10 10
    .fn thfpool_13 13
    .fn thfpool_63 63
    .endi
    .import sysclib 1 1
    .fn sysclib_0 0
    .fn sysclib_1 1
    .fn sysclib_2 2
    .fn sysclib_3 3
    .fn sysclib_4 4
    .fn sysclib_5 5
    .fn sysclib_6 6
    .fn sysclib_7 7
    .fn sysclib_8 8
    .fn sysclib_9 9
    .fn sysclib_15 15
    .fn sysclib_16 16
    .fn sysclib_18 18
    .fn sysclib_24 24
    .fn sysclib_25 25
    .fn sysclib_26 26
    .fn sysclib_28 28
    .fn sysclib_31 31
    .fn sysclib_33 33
    .fn sysclib_34 34
    .fn sysclib_35 35
    .fn sysclib_37 37
    .fn sysclib_63 63
    .endi
    .data
rows:
    .word loadcore_0, 1, 1, -1
    .word loadcore_1, 1, 1, -1
    .word loadcore_2, 1, 1, -1
    .word loadcore_3, 1, 1, -1
    .word loadcore_8, 1, 1, -1
    .word loadcore_63, 1, 1, -1
    .word sysmem_0, 1, 1, -1
    .word sysmem_1, 1, 1, -1
    .word sysmem_2, 1, 1, -1
    .word sysmem_3, 1, 1, -1
    .word sysmem_11, 1, 1, -1
    .word sysmem_12, 1, 1, -1
    .word sysmem_13, 1, 1, -1
    .word sysmem_15, 1, 1, -1
    .word sysmem_63, 1, 1, -1
    .word intrman_0, 1, 1, -1
    .word intrman_1, 1, 1, -1
    .word intrman_2, 1, 1, -1
    .word intrman_3, 1, 1, -1
    .word intrman_10, 1, 1, -1
    .word intrman_11, 1, 1, -1
    .word intrman_12, 1, 1, -1
    .word intrman_13, 1, 1, -1
    .word intrman_14, 1, 1, -1
    .word intrman_15, 1, 1, -1
    .word intrman_16, 1, 1, -1
    .word intrman_19, 1, 1, -1
    .word intrman_20, 1, 1, -1
    .word intrman_21, 1, 1, -1
    .word intrman_22, 1, 1, -1
    .word intrman_24, 1, 1, -1
    .word intrman_63, 1, 1, -1
    .word thbase_0, 1, 1, -1
    .word thbase_1, 1, 1, -1
    .word thbase_2, 1, 1, -1
    .word thbase_3, 1, 1, -1
    .word thbase_7, 1, 1, -1
    .word thbase_21, 1, 1, -1
    .word thbase_41, 1, 1, -1
    .word thbase_63, 1, 1, -1
    .word thsemap_0, 1, 1, -1
    .word thsemap_1, 1, 1, -1
    .word thsemap_2, 1, 1, -1
    .word thsemap_3, 1, 1, -1
    .word thsemap_10, 1, 1, -1
    .word thsemap_13, 1, 1, -1
    .word thsemap_63, 1, 1, -1
    .word thevent_0, 1, 1, -1
    .word thevent_1, 1, 1, -1
    .word thevent_2, 1, 1, -1
    .word thevent_3, 1, 1, -1
    .word thevent_12, 1, 1, -1
    .word thevent_15, 1, 1, -1
    .word thevent_63, 1, 1, -1
    .word thmsgbx_0, 1, 1, -1
    .word thmsgbx_1, 1, 1, -1
    .word thmsgbx_2, 1, 1, -1
    .word thmsgbx_3, 1, 1, -1
    .word thmsgbx_10, 1, 1, -1
    .word thmsgbx_13, 1, 1, -1
    .word thmsgbx_63, 1, 1, -1
    .word stdio_0, 1, 1, -1
    .word stdio_1, 1, 1, -1
    .word stdio_2, 1, 1, -1
    .word stdio_3, 1, 1, -1
    .word stdio_5, 1, 1, -1
    .word stdio_63, 1, 1, -1
    .word thvpool_0, 1, 1, -1
    .word thvpool_1, 1, 1, -1
    .word thvpool_2, 1, 1, -1
    .word thvpool_3, 1, 1, -1
    .word thvpool_10, 1, 1, -1
    .word thvpool_13, 1, 1, -1
    .word thvpool_63, 1, 1, -1
    .word thfpool_0, 1, 1, -1
    .word thfpool_1, 1, 1, -1
    .word thfpool_2, 1, 1, -1
    .word thfpool_3, 1, 1, -1
    .word thfpool_10, 1, 1, -1
    .word thfpool_13, 1, 1, -1
    .word thfpool_63, 1, 1, -1
    .word sysclib_0, 1, 1, -1
    .word sysclib_1, 1, 1, -1
    .word sysclib_2, 1, 1, -1
    .word sysclib_3, 1, 1, -1
    .word sysclib_4, 1, 1, -1
    .word sysclib_5, 1, 1, -1
    .word sysclib_6, 1, 1, -1
    .word sysclib_7, 1, 1, -1
    .word sysclib_8, 1, 1, -1
    .word sysclib_9, 1, 1, -1
    .word sysclib_15, 1, 1, -1
    .word sysclib_16, 1, 1, -1
    .word sysclib_18, 1, 1, -1
    .word sysclib_24, 1, 1, -1
    .word sysclib_25, 1, 1, -1
    .word sysclib_26, 1, 1, -1
    .word sysclib_28, 1, 1, -1
    .word sysclib_31, 1, 1, -1
    .word sysclib_33, 1, 1, -1
    .word sysclib_34, 1, 1, -1
    .word sysclib_35, 1, 1, -1
    .word sysclib_37, 1, 1, -1
    .word sysclib_63, 1, 1, -1
    .word rows_in_handler, handler_rows, 0, 0
    .word 0
handler_rows:
    .word loadcore_8, 1, 1, -1
    .word sysmem_15, 1, 1, -1
    .word intrman_24, 1, 1, -1
    .word thbase_41, 1, 1, -1
    .word thsemap_13, 1, 1, -1
    .word thevent_15, 1, 1, -1
    .word thmsgbx_13, 1, 1, -1
    .word stdio_5, 1, 1, -1
    .word thvpool_13, 1, 1, -1
    .word thfpool_13, 1, 1, -1
    .word sysclib_37, 1, 1, -1
    .word 0
