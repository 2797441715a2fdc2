# The program that the profiles are of: _start calls outer, which calls inner.
        .text
        .globl  _start
        .type   _start, @function
_start:
        .cfi_startproc
        .cfi_undefined %rip
        call    outer
        ud2
        .cfi_endproc
        .size   _start, .-_start

        # with a frame pointer
        .type   outer, @function
outer:
        .cfi_startproc
        push    %rbp
        .cfi_def_cfa_offset 16
        .cfi_offset %rbp, -16
        mov     %rsp, %rbp
        .cfi_def_cfa_register %rbp
        call    inner
        pop     %rbp
        .cfi_def_cfa %rsp, 8
        ret
        .cfi_endproc
        .size   outer, .-outer

        # without one
        .type   inner, @function
inner:
        .cfi_startproc
        sub     $24, %rsp
        .cfi_def_cfa_offset 32
        nop
        add     $24, %rsp
        .cfi_def_cfa_offset 8
        ret
        .cfi_endproc
        .size   inner, .-inner
