@ A function of Thumb: bit 0 of its symbol's value is set.
        .syntax unified
        .cfi_sections .debug_frame
        .text
        .thumb
        .globl  work
        .type   work, %function
        .thumb_func
work:
        .cfi_startproc
        push    {r4, lr}
        .cfi_def_cfa_offset 8
        .cfi_offset r4, -8
        .cfi_offset lr, -4
        nop
        pop     {r4, pc}
        .cfi_endproc
        .size   work, .-work
