/* size_t kept(call_target function, call_frame *frame): calls jump with them, while the registers that belong to the caller hold known
   values, and answers how many of them it found changed. */
        .intel_syntax noprefix
        .text
        .globl  kept
        .type   kept, @function
kept:
        push    rbx
        push    rbp
        push    r12
        push    r13
        push    r14
        push    r15
        sub     rsp, 8
        mov     rbx, 0x1b1b1b1b
        mov     rbp, 0x2b2b2b2b
        mov     r12, 0x3c3c3c3c
        mov     r13, 0x4d4d4d4d
        mov     r14, 0x5e5e5e5e
        mov     r15, 0x6f6f6f6f
        call    jump
        xor     eax, eax
        cmp     rbx, 0x1b1b1b1b
        je      1f
        inc     rax
1:      cmp     rbp, 0x2b2b2b2b
        je      1f
        inc     rax
1:      cmp     r12, 0x3c3c3c3c
        je      1f
        inc     rax
1:      cmp     r13, 0x4d4d4d4d
        je      1f
        inc     rax
1:      cmp     r14, 0x5e5e5e5e
        je      1f
        inc     rax
1:      cmp     r15, 0x6f6f6f6f
        je      1f
        inc     rax
1:      add     rsp, 8
        pop     r15
        pop     r14
        pop     r13
        pop     r12
        pop     rbp
        pop     rbx
        ret

        .section .note.GNU-stack, "", @progbits
