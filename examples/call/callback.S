/* callback.S: what a module calls, by the System V AMD64 rules: it stores the registers as the register image and the upper image, calls
   callback_arrived, which is in callback.c, and loads the return images that it leaves. No code is made while the program runs: each
   callback has an entry of its own here, whose number says which it is. */
#include "callback.h"
#ifdef __CET__
#include <cet.h>                                /* with -fcf-protection: endbr64, and the note that says so */
#else
#define _CET_ENDBR
#endif
        .intel_syntax noprefix
        .text
        .hidden callback_arrived                /* of the same program or shared object: it is called directly */
        .hidden callback_wide
        .hidden callback_entries
        .globl  callback_entries
        .type   callback_entries, @function
        .balign CALLBACK_ENTRY
callback_entries:
        .cfi_startproc
        .set    number, 0
        .rept   CALLBACKS
        .balign CALLBACK_ENTRY
        _CET_ENDBR                              /* an indirect call lands here */
        mov     r11d, number                    /* r11 carries no argument, and nobody wants it back */
        jmp     callback_common
        .set    number, number + 1
        .endr
        .cfi_endproc
        .size   callback_entries, . - callback_entries

        .type   callback_common, @function
        .balign 16
callback_common:
        .cfi_startproc
        push    rbp                             /* a frame; rsp is a multiple of 16 now */
        .cfi_def_cfa_offset 16
        .cfi_offset rbp, -16
        mov     rbp, rsp
        .cfi_def_cfa_register rbp
        push    rbx
        .cfi_offset rbx, -24
        sub     rsp, 408                        /* callback_images, 400 bytes, at rsp, which is a multiple of 16 again */
        lea     rbx, [rip + callback_wide]      /* whether the upper images are used: rbx outlives the call */
        movzx   ebx, byte ptr [rbx + r11]
        mov     [rsp], rdi                      /* the general registers, 8 bytes each */
        mov     [rsp + 8], rsi
        mov     [rsp + 16], rdx
        mov     [rsp + 24], rcx
        mov     [rsp + 32], r8
        mov     [rsp + 40], r9
        movups  [rsp + 48], xmm0                /* the vector registers, 16 bytes each */
        movups  [rsp + 64], xmm1
        movups  [rsp + 80], xmm2
        movups  [rsp + 96], xmm3
        movups  [rsp + 112], xmm4
        movups  [rsp + 128], xmm5
        movups  [rsp + 144], xmm6
        movups  [rsp + 160], xmm7
        test    ebx, ebx
        jz      .Lstored
        vextractf128 [rsp + 176], ymm0, 1       /* their upper halves, 16 bytes each */
        vextractf128 [rsp + 192], ymm1, 1
        vextractf128 [rsp + 208], ymm2, 1
        vextractf128 [rsp + 224], ymm3, 1
        vextractf128 [rsp + 240], ymm4, 1
        vextractf128 [rsp + 256], ymm5, 1
        vextractf128 [rsp + 272], ymm6, 1
        vextractf128 [rsp + 288], ymm7, 1
        vzeroupper                              /* code without AVX would wait for the upper halves at each instruction */
.Lstored:
        mov     edi, r11d                       /* callback_arrived(number, images, stack) */
        mov     rsi, rsp
        lea     rdx, [rbp + 16]                 /* the stack image is where the caller left it: behind rbp and the return address */
        call    callback_arrived                /* answers how many numbers go back on the x87 stack, 0 to 2 */
        cmp     rax, 1
        jb      .Lregisters                     /* 0 */
        je      .Lone                           /* 1 */
        fld     tbyte ptr [rsp + 304 + 64]      /* 2: st1 first, since the next one pushes it down */
.Lone:
        fld     tbyte ptr [rsp + 304 + 48]      /* st0 */
.Lregisters:
        mov     rax, [rsp + 304]
        mov     rdx, [rsp + 304 + 8]
        movups  xmm0, [rsp + 304 + 16]
        movups  xmm1, [rsp + 304 + 32]
        test    ebx, ebx
        jz      .Lback
        vinsertf128 ymm0, ymm0, [rsp + 384], 1
.Lback:
        mov     rbx, [rbp - 8]                  /* the caller's rbx: r12 to r15 were not touched */
        leave                                   /* the caller's rsp and rbp */
        .cfi_def_cfa rsp, 8
        ret
        .cfi_endproc
        .size   callback_common, . - callback_common

        .section .note.GNU-stack, "", @progbits /* no code is run on the stack */
