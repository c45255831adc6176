# The two places where C meets raw registers.
#
# probe: what a callee finds. It stores the six general registers, xmm0..xmm7
# and their upper halves of ymm, rax (for al) and the stack and where it begins,
# as they are on entry, then gives back the value that the driver laid into the
# return places.
#
# enter: what a caller leaves. It puts a stack image, a register image and an
# upper image in place, calls, and stores rax, rdx, xmm0, xmm1, the x87 state
# and the upper half of ymm0. The stack begins at a multiple of 32 where the
# layout asks for one, and never where it asks for 16.
#
# Upper halves are looked at only where the judged functions have such vectors:
# not every machine has them.

        .intel_syntax noprefix
        .text

        .globl probe
probe:
        mov     [rip + probe_rax], rax
        mov     [rip + probe_registers], rdi
        mov     [rip + probe_registers + 8], rsi
        mov     [rip + probe_registers + 16], rdx
        mov     [rip + probe_registers + 24], rcx
        mov     [rip + probe_registers + 32], r8
        mov     [rip + probe_registers + 40], r9
        movups  [rip + probe_registers + 48], xmm0
        movups  [rip + probe_registers + 64], xmm1
        movups  [rip + probe_registers + 80], xmm2
        movups  [rip + probe_registers + 96], xmm3
        movups  [rip + probe_registers + 112], xmm4
        movups  [rip + probe_registers + 128], xmm5
        movups  [rip + probe_registers + 144], xmm6
        movups  [rip + probe_registers + 160], xmm7
        cmp     dword ptr [rip + judged_wide], 0
        je      narrow
        vextractf128 [rip + probe_upper], ymm0, 1
        vextractf128 [rip + probe_upper + 16], ymm1, 1
        vextractf128 [rip + probe_upper + 32], ymm2, 1
        vextractf128 [rip + probe_upper + 48], ymm3, 1
        vextractf128 [rip + probe_upper + 64], ymm4, 1
        vextractf128 [rip + probe_upper + 80], ymm5, 1
        vextractf128 [rip + probe_upper + 96], ymm6, 1
        vextractf128 [rip + probe_upper + 112], ymm7, 1
narrow:
        # the stack above the return address
        lea     rsi, [rsp + 8]
        mov     [rip + probe_start], rsi
        lea     rdi, [rip + probe_stack]
        mov     rcx, [rip + probe_area]
        rep movsb
        cmp     dword ptr [rip + return_kind], 1
        je      in_memory
        cmp     dword ptr [rip + return_kind], 2
        je      one_x87
        cmp     dword ptr [rip + return_kind], 3
        je      two_x87
        mov     rax, [rip + return_image]
        mov     rdx, [rip + return_image + 8]
        movups  xmm0, [rip + return_image + 16]
        movups  xmm1, [rip + return_image + 32]
        cmp     dword ptr [rip + judged_wide], 0
        je      given
        vinsertf128 ymm0, ymm0, [rip + return_image + 80], 1
given:
        ret
in_memory:
        mov     rdi, [rip + probe_registers]
        lea     rsi, [rip + source]
        mov     rcx, [rip + return_size]
        rep movsb
        mov     rax, [rip + probe_registers]
        ret
two_x87:
        fld     tbyte ptr [rip + return_image + 64]
one_x87:
        fld     tbyte ptr [rip + return_image + 48]
        ret

        # enter(function, registers, stack, area, al, after)
        .globl enter
enter:
        push    rbp
        mov     rbp, rsp
        push    rbx
        push    r12
        push    r13
        push    r14
        mov     r12, rdi
        mov     r13, rsi
        mov     r14, r8
        mov     rbx, r9
        sub     rsp, rcx
        and     rsp, -32
        cmp     qword ptr [rip + area_alignment], 32
        je      aligned
        sub     rsp, 16
aligned:
        mov     [rip + entered_stack], rsp
        mov     rsi, rdx
        mov     rdi, rsp
        rep movsb
        movups  xmm0, [r13 + 48]
        movups  xmm1, [r13 + 64]
        movups  xmm2, [r13 + 80]
        movups  xmm3, [r13 + 96]
        movups  xmm4, [r13 + 112]
        movups  xmm5, [r13 + 128]
        movups  xmm6, [r13 + 144]
        movups  xmm7, [r13 + 160]
        cmp     dword ptr [rip + judged_wide], 0
        je      loaded
        vinsertf128 ymm0, ymm0, [rip + upper], 1
        vinsertf128 ymm1, ymm1, [rip + upper + 16], 1
        vinsertf128 ymm2, ymm2, [rip + upper + 32], 1
        vinsertf128 ymm3, ymm3, [rip + upper + 48], 1
        vinsertf128 ymm4, ymm4, [rip + upper + 64], 1
        vinsertf128 ymm5, ymm5, [rip + upper + 80], 1
        vinsertf128 ymm6, ymm6, [rip + upper + 96], 1
        vinsertf128 ymm7, ymm7, [rip + upper + 112], 1
loaded:
        mov     rdi, [r13]
        mov     rsi, [r13 + 8]
        mov     rdx, [r13 + 16]
        mov     rcx, [r13 + 24]
        mov     r8, [r13 + 32]
        mov     r9, [r13 + 40]
        mov     rax, r14
        call    r12
        mov     [rbx], rax
        mov     [rbx + 8], rdx
        movups  [rbx + 16], xmm0
        movups  [rbx + 32], xmm1
        # stores the whole x87 state and resets it
        fnsave  [rbx + 48]
        cmp     dword ptr [rip + judged_wide], 0
        je      stored
        vextractf128 [rbx + 156], ymm0, 1
        vzeroupper
stored:
        lea     rsp, [rbp - 32]
        pop     r14
        pop     r13
        pop     r12
        pop     rbx
        pop     rbp
        ret

        .section .note.GNU-stack,"",@progbits
