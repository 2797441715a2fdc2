/* Names that GCC gave a newer version; programs that were linked before still ask for the older one. Both are one function. */
    .text
    .macro OLD name, version
    .symver old\name, \name@\version
    .globl old\name
    .type old\name, @function
old\name:
    .cfi_startproc
    endbr64
    jmp \name
    .cfi_endproc
    .size old\name, . - old\name
    .endm

    OLD __gttf2, GCC_3.0
    OLD __lttf2, GCC_3.0
    OLD __netf2, GCC_3.0
    OLD __divtc3, GCC_4.0.0
    OLD __multc3, GCC_4.0.0
    OLD __powitf2, GCC_4.0.0

    .section .note.GNU-stack,"",@progbits
