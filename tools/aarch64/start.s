// Where a program for aarch64 starts. It calls glibc's __libc_start_main (2.34 or later) with main, the arguments, no
// functions to run first and last, what the dynamic linker asks to be called at the end (in x0), and the end of the stack.
    .text
    .globl _start
    .type _start, %function
_start:
    .cfi_startproc
    .cfi_undefined x30
    mov x29, #0
    mov x30, #0
    mov x5, x0
    ldr w1, [sp]
    add x2, sp, #8
    mov x6, sp
    adrp x0, main
    add x0, x0, :lo12:main
    mov x3, #0
    mov x4, #0
    bl __libc_start_main
    brk #1
    .cfi_endproc
    .size _start, . - _start
    .section .note.GNU-stack, "", %progbits
