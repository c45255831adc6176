/* jump.S: the call itself, by the System V AMD64 rules, out of the images of the call bridge. For GNU as and clang; copy it into a host.

       void jump(call_target function,       rdi
                 call_frame *frame);         rsi: call.h says what it has at which offset */
#ifdef __CET__
#include <cet.h>                                /* with -fcf-protection: endbr64, and the note that says so */
#else
#define _CET_ENDBR
#endif
        .intel_syntax noprefix
        .text
        .globl  jump
        .type   jump, @function
        .balign 16
jump:
        .cfi_startproc
        _CET_ENDBR                              /* an indirect call may land here */
        push    rbp                             /* a frame of its own: rsp is found again, whatever is pushed below */
        .cfi_def_cfa_offset 16
        .cfi_offset rbp, -16
        mov     rbp, rsp
        .cfi_def_cfa_register rbp
        push    rbx                             /* rbx, rbp and r12 to r15 belong to the caller: of them only rbp and rbx are used */
        .cfi_offset rbx, -24
        mov     rbx, rsi                        /* the frame: rbx outlives the call */
        mov     r11, rdi                        /* the function: r11 carries no argument */
        mov     rdx, [rbx]                      /* the stack image */
        mov     rcx, [rbx + 8]                  /* its bytes */
        mov     rax, [rbx + 16]                 /* 16, or 32 where an argument on the stack is aligned to 32 */
        neg     rax
        and     rsp, rax                        /* down to a multiple of it: -16 and -32 have zeros below and ones above */

        /* The stack image, its last eight bytes first, so that byte 0 comes to lie at rsp. Each page of the stack is touched in
           its turn: not even an area of 16,384 bytes steps over the guard page of a thread. */
.Lnext:
        sub     rcx, 8                          /* the eight bytes before those that were pushed last */
        jb      .Lpushed                        /* there are none: rcx went below 0 */
        push    qword ptr [rdx + rcx]
        jmp     .Lnext
.Lpushed:                                       /* the area is a multiple of its alignment, and so is rsp */

        movups  xmm0, [rbx + 48 + 48]           /* the vector registers, 16 bytes each; the image need not be aligned */
        movups  xmm1, [rbx + 48 + 64]
        movups  xmm2, [rbx + 48 + 80]
        movups  xmm3, [rbx + 48 + 96]
        movups  xmm4, [rbx + 48 + 112]
        movups  xmm5, [rbx + 48 + 128]
        movups  xmm6, [rbx + 48 + 144]
        movups  xmm7, [rbx + 48 + 160]
        cmp     qword ptr [rbx + 40], 0         /* wide: not every processor has the upper halves of ymm0 to ymm7 */
        je      .Lloaded
        vinsertf128 ymm0, ymm0, [rbx + 224], 1  /* bytes 16 to 31; the lower ones stay */
        vinsertf128 ymm1, ymm1, [rbx + 240], 1
        vinsertf128 ymm2, ymm2, [rbx + 256], 1
        vinsertf128 ymm3, ymm3, [rbx + 272], 1
        vinsertf128 ymm4, ymm4, [rbx + 288], 1
        vinsertf128 ymm5, ymm5, [rbx + 304], 1
        vinsertf128 ymm6, ymm6, [rbx + 320], 1
        vinsertf128 ymm7, ymm7, [rbx + 336], 1
.Lloaded:
        mov     rdi, [rbx + 48]                 /* the general registers, 8 bytes each */
        mov     rsi, [rbx + 48 + 8]
        mov     rdx, [rbx + 48 + 16]
        mov     rcx, [rbx + 48 + 24]
        mov     r8, [rbx + 48 + 32]
        mov     r9, [rbx + 48 + 40]
        mov     eax, [rbx + 24]                 /* al: a variadic function looks there for the number of vector registers */
        call    r11

        mov     [rbx + 352], rax                /* the return image: what is no part of the result is looked at by nobody */
        mov     [rbx + 352 + 8], rdx
        movups  [rbx + 352 + 16], xmm0
        movups  [rbx + 352 + 32], xmm1
        cmp     qword ptr [rbx + 40], 0         /* wide */
        je      .Lx87
        vextractf128 [rbx + 432], ymm0, 1       /* bytes 16 to 31 of the result, where it has as many */
        vzeroupper                              /* code without AVX would wait for the upper halves at each instruction */
.Lx87:
        cmp     qword ptr [rbx + 32], 1         /* x87 */
        jb      .Lback                          /* 0: the x87 stack is empty, and to store from it would be an error */
        fstp    tbyte ptr [rbx + 352 + 48]      /* st0, ten bytes, taken off the x87 stack; the flags stay */
        je      .Lback                          /* 1 */
        fstp    tbyte ptr [rbx + 352 + 64]      /* 2: what was st1 */
.Lback:
        mov     rbx, [rbp - 8]                  /* the caller's rbx */
        leave                                   /* the caller's rsp and rbp */
        .cfi_def_cfa rsp, 8
        ret
        .cfi_endproc
        .size   jump, . - jump

        .section .note.GNU-stack, "", @progbits /* no code is run on the stack */
