# The start of the released program, beside the object file that the toolchain makes of the proved sources.
# glibc calls `_start`, which has it run the functions of .init_array, and then `main`. `__x86_get_cpuid_feature_leaf` is a function of glibc 2.33 and later; the
# program asks it, as it starts, what the processor can do. It stands here so that an earlier glibc serves too.

        .text
        .globl  _start
        .type   _start, @function
_start:
        xorl    %ebp, %ebp
        movq    %rdx, %r9               # what the loader wants to have run at the end
        popq    %rsi                    # the number of arguments
        movq    %rsp, %rdx              # the arguments
        andq    $-16, %rsp
        pushq   %rax
        pushq   %rsp
        xorl    %r8d, %r8d              # nothing to be run at the end
        leaq    run_initial(%rip), %rcx
        leaq    main(%rip), %rdi
        callq   *__libc_start_main@GOTPCREL(%rip)
        hlt

# runs the functions of .init_array, each with the arguments and the environment
        .type   run_initial, @function
run_initial:
        pushq   %rbx
        pushq   %rbp
        pushq   %r12
        pushq   %r13
        pushq   %r14
        movq    %rdi, %r12
        movq    %rsi, %r13
        movq    %rdx, %r14
        leaq    __init_array_start(%rip), %rbx
        leaq    __init_array_end(%rip), %rbp
1:      cmpq    %rbp, %rbx
        jae     2f
        movq    %r12, %rdi
        movq    %r13, %rsi
        movq    %r14, %rdx
        callq   *(%rbx)
        addq    $8, %rbx
        jmp     1b
2:      popq    %r14
        popq    %r13
        popq    %r12
        popq    %rbp
        popq    %rbx
        retq

# the registers that the instruction cpuid gives for leaf 1 (number 0), 7 (number 1) or 0x80000001 (number 2), twice: what there is, and what is in use;
# zeros for any other number
        .globl  __x86_get_cpuid_feature_leaf
        .type   __x86_get_cpuid_feature_leaf, @function
__x86_get_cpuid_feature_leaf:
        pushq   %rbx
        leaq    leaves(%rip), %r8
        cmpl    $3, %edi
        jae     3f
        leaq    numbers(%rip), %rax
        movl    %edi, %edi
        movl    (%rax,%rdi,4), %r9d
        movl    %edi, %r10d
        shlq    $5, %r10
        leaq    32(%r8,%r10), %r8
        movl    %r9d, %eax              # the greatest leaf of its range has to reach it
        andl    $0x80000000, %eax
        xorl    %ecx, %ecx
        cpuid
        cmpl    %r9d, %eax
        jb      3f
        movl    %r9d, %eax
        xorl    %ecx, %ecx
        cpuid
        movl    %eax, (%r8)
        movl    %ebx, 4(%r8)
        movl    %ecx, 8(%r8)
        movl    %edx, 12(%r8)
        movl    %eax, 16(%r8)
        movl    %ebx, 20(%r8)
        movl    %ecx, 24(%r8)
        movl    %edx, 28(%r8)
3:      movq    %r8, %rax
        popq    %rbx
        retq

        .section .rodata
        .p2align 2
numbers:
        .long   1, 7, 0x80000001

        .bss
        .p2align 5
leaves:
        .zero   128

        .section .note.GNU-stack,"",@progbits
