# probe: stands in for a call, and measures the stack that the call takes below its caller (x86-64, System V).
# The stack below is painted, probe_target is called with the arguments as they came, in registers and on the stack, and
# probe_depth is the distance from the caller's stack pointer to the lowest byte that is not as painted: the return address counts.
    .set    SIZE, 65536

    .bss
back:   .skip 8
saved:  .skip 48
    .globl  probe_target, probe_depth, probe_paint
probe_target:   .skip 8
probe_depth:    .skip 8
probe_paint:    .skip 8

    .text
    .globl  probe
    .type   probe, @function
probe:
    popq    back(%rip)                  # from here the stack pointer is the caller's, as at the call
    movq    %rdi, saved(%rip)
    movq    %rsi, 8+saved(%rip)
    movq    %rdx, 16+saved(%rip)
    movq    %rcx, 24+saved(%rip)
    movq    %r8, 32+saved(%rip)
    movq    %r9, 40+saved(%rip)

    leaq    -SIZE(%rsp), %rdi
    movq    $SIZE, %rcx
    movq    probe_paint(%rip), %rax
    rep stosb

    movq    saved(%rip), %rdi
    movq    8+saved(%rip), %rsi
    movq    16+saved(%rip), %rdx
    movq    24+saved(%rip), %rcx
    movq    32+saved(%rip), %r8
    movq    40+saved(%rip), %r9
    call    *probe_target(%rip)

    movq    %rax, saved(%rip)
    movq    %rdx, 8+saved(%rip)
    leaq    -SIZE(%rsp), %rdi
    movq    $SIZE, %rcx
    movq    probe_paint(%rip), %rax
    repe scasb
    decq    %rdi                        # the first byte that differs
    movq    %rsp, %rcx
    subq    %rdi, %rcx
    movq    %rcx, probe_depth(%rip)
    movq    saved(%rip), %rax
    movq    8+saved(%rip), %rdx
    jmp     *back(%rip)
    .size   probe, .-probe

    .section .note.GNU-stack, "", @progbits
