# A function that no other file sees. Linked twice, the program has two symbols of this name.
        .text
        .type   helper, @function
helper:
        .cfi_startproc
        sub     $8, %rsp
        .cfi_def_cfa_offset 16
        add     $8, %rsp
        .cfi_def_cfa_offset 8
        ret
        .cfi_endproc
        .size   helper, .-helper
