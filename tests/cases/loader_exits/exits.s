; The loader's thread ends by ExitThread: its module has returned 0, and the next one is loaded
    .name exits
    syscall 776
