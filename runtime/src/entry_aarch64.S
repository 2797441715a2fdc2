/* The calls that see their caller's registers, and the jump to a landing pad: AArch64. */
    .text

/* ENTRY name, body, register: calls the body with struct entry (machine.h) as its last argument. */
    .macro ENTRY name, body, register
    .globl \name
    .type \name, %function
    .p2align 4
\name:
    .cfi_startproc
    hint #34                    /* bti c */
    stp x29, x30, [sp, #-208]!
    .cfi_def_cfa_offset 208
    .cfi_offset 29, -208
    .cfi_offset 30, -200
    add \register, sp, #16
    stp x19, x20, [\register]
    stp x21, x22, [\register, #16]
    stp x23, x24, [\register, #32]
    stp x25, x26, [\register, #48]
    stp x27, x28, [\register, #64]
    stp x29, x30, [\register, #80]
    add x9, sp, #208            /* the stack pointer after the return */
    str x9, [\register, #96]
    stp d8, d9, [\register, #104]
    stp d10, d11, [\register, #120]
    stp d12, d13, [\register, #136]
    stp d14, d15, [\register, #152]
    stp x30, xzr, [\register, #168]     /* the return address, and no shadow stack */
    bl \body
    ldp x29, x30, [sp], #208
    .cfi_restore 29
    .cfi_restore 30
    .cfi_def_cfa_offset 0
    ret
    .cfi_endproc
    .size \name, . - \name
    .endm

    ENTRY _Unwind_RaiseException, raise_exception, x1
    ENTRY _Unwind_Resume, resume, x1
    ENTRY _Unwind_Resume_or_Rethrow, resume_or_rethrow, x1
    ENTRY _Unwind_ForcedUnwind, forced_unwind, x3
    ENTRY _Unwind_Backtrace, backtrace, x2

/* land(const struct landing *): x0 to x3, x19 to x30, sp, d8 to d15, pc. */
    .globl land
    .hidden land
    .type land, %function
    .p2align 4
land:
    /* A backtrace reads the landing pad's frame out of the struct, as long as x0 has its address. */
    .cfi_startproc
    .cfi_signal_frame
    .cfi_escape 0x0f, 4, 0x70, 0x80, 1, 6       /* the CFA is the sp of the struct: DW_OP_breg0 128, DW_OP_deref */
    .cfi_escape 0x10, 19, 2, 0x70, 32           /* x19 is saved at DW_OP_breg0 32, and so on */
    .cfi_escape 0x10, 20, 2, 0x70, 40
    .cfi_escape 0x10, 21, 2, 0x70, 48
    .cfi_escape 0x10, 22, 2, 0x70, 56
    .cfi_escape 0x10, 23, 3, 0x70, 0xc0, 0
    .cfi_escape 0x10, 24, 3, 0x70, 0xc8, 0
    .cfi_escape 0x10, 25, 3, 0x70, 0xd0, 0
    .cfi_escape 0x10, 26, 3, 0x70, 0xd8, 0
    .cfi_escape 0x10, 27, 3, 0x70, 0xe0, 0
    .cfi_escape 0x10, 28, 3, 0x70, 0xe8, 0
    .cfi_escape 0x10, 29, 3, 0x70, 0xf0, 0
    .cfi_escape 0x10, 30, 3, 0x70, 0xc8, 1      /* where the pad is, in place of x30 */
    ldp x19, x20, [x0, #32]
    ldp x21, x22, [x0, #48]
    ldp x23, x24, [x0, #64]
    ldp x25, x26, [x0, #80]
    ldp x27, x28, [x0, #96]
    ldp x29, x30, [x0, #112]
    ldp x9, xzr, [x0, #128]
    ldp d8, d9, [x0, #136]
    ldp d10, d11, [x0, #152]
    ldp d12, d13, [x0, #168]
    ldp d14, d15, [x0, #184]
    ldr x16, [x0, #200]
    ldp x2, x3, [x0, #16]
    ldp x0, x1, [x0]
    mov sp, x9                  /* from here on a signal may overwrite the struct */
    .cfi_def_cfa 9, 0
    .cfi_same_value 19
    .cfi_same_value 20
    .cfi_same_value 21
    .cfi_same_value 22
    .cfi_same_value 23
    .cfi_same_value 24
    .cfi_same_value 25
    .cfi_same_value 26
    .cfi_same_value 27
    .cfi_same_value 28
    .cfi_same_value 29
    .cfi_register 30, 16
    br x16
    .cfi_endproc
    .size land, . - land

/* call_on_stack(call, context, top) */
    .globl call_on_stack
    .hidden call_on_stack
    .type call_on_stack, %function
    .p2align 4
call_on_stack:
    .cfi_startproc
    hint #34
    stp x29, x30, [sp, #-16]!
    .cfi_def_cfa_offset 16
    .cfi_offset 29, -16
    .cfi_offset 30, -8
    mov x29, sp
    .cfi_def_cfa_register 29
    mov x9, x0
    mov x0, x1
    mov sp, x2
    blr x9
    mov sp, x29
    .cfi_def_cfa_register 31
    ldp x29, x30, [sp], #16
    .cfi_restore 29
    .cfi_restore 30
    .cfi_def_cfa_offset 0
    ret
    .cfi_endproc
    .size call_on_stack, . - call_on_stack

    .section .note.GNU-stack,"",%progbits
