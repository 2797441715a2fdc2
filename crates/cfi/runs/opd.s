# A function of PowerPC64 with a descriptor, as its ELF ABI 1.9 has them: the symbol is that of the descriptor.
        .section ".opd", "aw"
        .align  3
        .globl  work
        .type   work, @function
work:
        .quad   .Lwork, .TOC.@tocbase, 0
        .text
.Lwork:
        .cfi_startproc
        stdu    1, -112(1)
        .cfi_def_cfa_offset 112
        addi    1, 1, 112
        .cfi_def_cfa_offset 0
        blr
        .cfi_endproc
        .size   work, .-.Lwork
