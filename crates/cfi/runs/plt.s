# Calls two functions of other files: one by an entry of .plt, and one whose address it takes too, by an entry of .plt.got.
        .text
        .globl  work
        .type   work, @function
work:
        .cfi_startproc
        sub     $8, %rsp
        .cfi_def_cfa_offset 16
        call    helper@plt
        call    other@plt
        mov     other@GOTPCREL(%rip), %rax
        add     $8, %rsp
        .cfi_def_cfa_offset 8
        ret
        .cfi_endproc
        .size   work, .-work
