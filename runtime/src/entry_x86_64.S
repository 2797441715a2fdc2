/* The calls that see their caller's registers, and the jump to a landing pad: x86-64, System V. A signal's backtrace may come
 * at any instruction, so each has its row. */
    .text

/* ENTRY name, body, register: calls the body with struct entry (machine.h) as its last argument. */
    .macro ENTRY name, body, register
    .globl \name
    .type \name, @function
    .p2align 4
\name:
    .cfi_startproc
    endbr64
    subq $72, %rsp
    .cfi_adjust_cfa_offset 72
    movq %rbx, 0(%rsp)
    movq %rbp, 8(%rsp)
    leaq 80(%rsp), %rax         /* the stack pointer after the return */
    movq %rax, 16(%rsp)
    movq %r12, 24(%rsp)
    movq %r13, 32(%rsp)
    movq %r14, 40(%rsp)
    movq %r15, 48(%rsp)
    movq 72(%rsp), %rax         /* the return address */
    movq %rax, 56(%rsp)
    xorl %eax, %eax
    rdsspq %rax                 /* does nothing without a shadow stack */
    movq %rax, 64(%rsp)
    movq %rsp, \register
    call \body
    addq $72, %rsp
    .cfi_adjust_cfa_offset -72
    ret
    .cfi_endproc
    .size \name, . - \name
    .endm

    ENTRY _Unwind_RaiseException, raise_exception, %rsi
    ENTRY _Unwind_Resume, resume, %rsi
    ENTRY _Unwind_Resume_or_Rethrow, resume_or_rethrow, %rsi
    ENTRY _Unwind_ForcedUnwind, forced_unwind, %rcx
    ENTRY _Unwind_Backtrace, backtrace, %rdx

/* land(const struct landing *): rax rdx rbx rbp rsp r12 r13 r14 r15, pc, shadow stack. */
    .globl land
    .hidden land
    .type land, @function
    .p2align 4
land:
    /* Until the stack pointer is loaded a backtrace reads the landing pad's frame out of the struct. The pad may be the
     * first instruction of a function, so its address is looked up as it is: a signal frame. */
    .cfi_startproc
    .cfi_signal_frame
    .cfi_escape 0x0f, 3, 0x75, 32, 6            /* the CFA is the rsp of the struct: DW_OP_breg5 32, DW_OP_deref */
    .cfi_escape 0x10, 0, 2, 0x75, 0             /* rax is saved at DW_OP_breg5 0, and so on */
    .cfi_escape 0x10, 1, 2, 0x75, 8
    .cfi_escape 0x10, 3, 2, 0x75, 16
    .cfi_escape 0x10, 6, 2, 0x75, 24
    .cfi_escape 0x10, 12, 2, 0x75, 40
    .cfi_escape 0x10, 13, 2, 0x75, 48
    .cfi_escape 0x10, 14, 2, 0x75, 56
    .cfi_escape 0x10, 15, 3, 0x75, 0xc0, 0
    .cfi_escape 0x10, 16, 3, 0x75, 0xc8, 0      /* the pc */
    xorl %eax, %eax
    rdsspq %rax
    testq %rax, %rax
    jz 2f
    movq 80(%rdi), %rsi         /* where the shadow stack has to end */
    subq %rax, %rsi
    shrq $3, %rsi               /* in words */
1:  movl $255, %ecx             /* incsspq takes no more at once */
    cmpq %rcx, %rsi
    cmovbq %rsi, %rcx
    incsspq %rcx
    subq %rcx, %rsi
    jnz 1b
2:  movq 0(%rdi), %rax
    movq 8(%rdi), %rdx
    movq 16(%rdi), %rbx
    movq 24(%rdi), %rbp
    movq 40(%rdi), %r12
    movq 48(%rdi), %r13
    movq 56(%rdi), %r14
    movq 64(%rdi), %r15
    movq 72(%rdi), %rcx
    movq 32(%rdi), %rsp         /* from here on a signal may overwrite the struct */
    .cfi_def_cfa rsp, 0
    .cfi_same_value rax
    .cfi_same_value rdx
    .cfi_same_value rbx
    .cfi_same_value rbp
    .cfi_same_value r12
    .cfi_same_value r13
    .cfi_same_value r14
    .cfi_same_value r15
    .cfi_register rip, rcx
    notrack jmp *%rcx
    .cfi_endproc
    .size land, . - land

/* call_on_stack(call, context, top) */
    .globl call_on_stack
    .hidden call_on_stack
    .type call_on_stack, @function
    .p2align 4
call_on_stack:
    .cfi_startproc
    endbr64
    pushq %rbp
    .cfi_adjust_cfa_offset 8
    .cfi_offset rbp, -16
    movq %rsp, %rbp
    .cfi_def_cfa_register rbp
    movq %rdi, %rax
    movq %rsi, %rdi
    movq %rdx, %rsp
    call *%rax
    movq %rbp, %rsp
    popq %rbp
    .cfi_def_cfa rsp, 8
    ret
    .cfi_endproc
    .size call_on_stack, . - call_on_stack

    .section .note.GNU-stack,"",@progbits
