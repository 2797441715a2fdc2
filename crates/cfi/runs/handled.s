// A program of AArch64 whose handler of SIGSEGV fails itself, on a stack of one page. The one that the kernel made isn't
// written into the core file.
        .text
        .globl  _start
        .type   _start, %function
_start:
        .cfi_startproc
        .cfi_undefined x30
        mov     x0, sp
        and     x0, x0, #-4096
        sub     x0, x0, #0x100000
        mov     x1, #0x200000
        mov     x2, #16         // MADV_DONTDUMP
        mov     x8, #233        // madvise
        svc     #0
        adrp    x0, room
        add     x0, x0, #8192
        mov     sp, x0
        mov     x0, #11         // SIGSEGV
        adr     x1, action
        mov     x2, #0
        mov     x3, #8
        mov     x8, #134        // rt_sigaction
        svc     #0
        bl      outer
        nop
        .cfi_endproc
        .size   _start, . - _start
        .type   outer, %function
outer:
        .cfi_startproc
        stp     x29, x30, [sp, #-32]!
        .cfi_def_cfa_offset 32
        .cfi_offset x29, -32
        .cfi_offset x30, -24
        mov     x29, sp
        mov     x0, #0
        bl      inner
        ldp     x29, x30, [sp], #32
        .cfi_restore x29
        .cfi_restore x30
        .cfi_def_cfa_offset 0
        ret
        .cfi_endproc
        .size   outer, . - outer
        .type   inner, %function
// It uses no stack, and is interrupted at its first instruction.
inner:
        .cfi_startproc
        ldr     x0, [x0]
        ret
        .cfi_endproc
        .size   inner, . - inner
        .type   handle, %function
handle:
        .cfi_startproc
        stp     x29, x30, [sp, #-16]!
        .cfi_def_cfa_offset 16
        .cfi_offset x29, -16
        .cfi_offset x30, -8
        bl      fail
        ldp     x29, x30, [sp], #16
        .cfi_restore x29
        .cfi_restore x30
        .cfi_def_cfa_offset 0
        ret
        .cfi_endproc
        .size   handle, . - handle
        .type   fail, %function
fail:
        .cfi_startproc
        udf     #0
        ret
        .cfi_endproc
        .size   fail, . - fail
        .balign 8
action: .xword  handle, 0, 0, 0
        .bss
        .balign 4096
room:   .skip   8192
