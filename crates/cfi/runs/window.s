# A function of SPARC that saves a register window.
        .text
        .globl  work
        .type   work, @function
work:
        .cfi_startproc
        save    %sp, -176, %sp
        .cfi_def_cfa_register %fp
        .cfi_window_save
        .cfi_register %o7, %i7
        ret
        restore
        .cfi_endproc
        .size   work, .-work
