// Functions of AArch64 that sign their return addresses, on a stack of one page. The one that the kernel made isn't
// written into the core file.
        .text
        .globl  _start
        .type   _start, %function
_start:
        .cfi_startproc
        .cfi_undefined x30
        mov     x0, sp
        and     x0, x0, #-4096
        sub     x0, x0, #0x100000
        mov     x1, #0x200000
        mov     x2, #16         // MADV_DONTDUMP
        mov     x8, #233        // madvise
        svc     #0
        adrp    x0, room
        add     x0, x0, #4096
        mov     sp, x0
        bl      outer
        nop
        .cfi_endproc
        .size   _start, . - _start
        .type   outer, %function
outer:
        .cfi_startproc
        paciasp
        .cfi_negate_ra_state
        stp     x29, x30, [sp, #-32]!
        .cfi_def_cfa_offset 32
        .cfi_offset x29, -32
        .cfi_offset x30, -24
        bl      inner
        ldp     x29, x30, [sp], #32
        .cfi_restore x29
        .cfi_restore x30
        .cfi_def_cfa_offset 0
        autiasp
        .cfi_negate_ra_state
        ret
        .cfi_endproc
        .size   outer, . - outer
        .type   inner, %function
inner:
        .cfi_startproc
        paciasp
        .cfi_negate_ra_state
        stp     x19, x30, [sp, #-16]!
        .cfi_def_cfa_offset 16
        .cfi_offset x19, -16
        .cfi_offset x30, -8
        udf     #0
        ldp     x19, x30, [sp], #16
        .cfi_restore x19
        .cfi_restore x30
        .cfi_def_cfa_offset 0
        autiasp
        .cfi_negate_ra_state
        ret
        .cfi_endproc
        .size   inner, . - inner
        .bss
        .balign 4096
room:   .skip   4096
