/* The library of rekusoyen 0.1.0 for Linux on x86_64, as assembly text. It is what the compiler of the Rattle kit makes of
   the proved crates in crates/ of the repository. tools/make-dist writes it; do not edit it: ./test makes it again and
   fails if a byte differs.

   sources: 14f363c9e4bd1f99a24a3490e0d7fd0ae4d7858804492dbf7c7b1e87cf442c54
   kit: rattle-kit-13f logic dac8208d650f15bf

   The sources are the crates capi capi_lines capi_pages capi_boot capi_jobs, and those below them. The code calls memcpy, memmove and
   memset, and has no data that is written. NOTICE has the copyright lines and the licences.
   SPDX-License-Identifier: Apache-2.0 AND BSD-3-Clause */
	.section	.text.rekusoyen_0_1_0.guest.maps.from_numbers,"ax",@progbits
	.p2align	4
	.type	rekusoyen_0_1_0.guest.maps.from_numbers,@function
rekusoyen_0_1_0.guest.maps.from_numbers:
	pushq	%rbp
	pushq	%r15
	pushq	%r14
	pushq	%r13
	pushq	%r12
	pushq	%rbx
	subq	$104, %rsp
	testq	%rdx, %rdx
	je	.Lrekusoyen_0_1_0.guest.maps.from_numbers.17
	movq	(%rsi), %r12
	cmpq	$3, %rdx
	jb	.Lrekusoyen_0_1_0.guest.maps.from_numbers.18
	movq	16(%rsi), %r13
	cmpq	$5, %rdx
	jb	.Lrekusoyen_0_1_0.guest.maps.from_numbers.20
	movq	32(%rsi), %rbp
	cmpq	$7, %rdx
	jb	.Lrekusoyen_0_1_0.guest.maps.from_numbers.30
	movq	48(%rsi), %rax
	cmpq	$9, %rdx
	jb	.Lrekusoyen_0_1_0.guest.maps.from_numbers.33
	movq	64(%rsi), %rcx
	cmpq	$11, %rdx
	movq	%rcx, 64(%rsp)
	jb	.Lrekusoyen_0_1_0.guest.maps.from_numbers.39
	movq	80(%rsi), %r10
	cmpq	$13, %rdx
	movq	%r10, 16(%rsp)
	jb	.Lrekusoyen_0_1_0.guest.maps.from_numbers.42
	cmpq	$15, %rdx
	movq	%rbp, 48(%rsp)
	movq	%rax, 40(%rsp)
	jb	.Lrekusoyen_0_1_0.guest.maps.from_numbers.48
	movq	112(%rsi), %r8
	cmpq	$17, %rdx
	movq	%r8, -32(%rsp)
	jb	.Lrekusoyen_0_1_0.guest.maps.from_numbers.50
	movq	128(%rsi), %rcx
	cmpq	$19, %rdx
	movq	%rcx, -40(%rsp)
	jb	.Lrekusoyen_0_1_0.guest.maps.from_numbers.69
	movq	144(%rsi), %rcx
	cmpq	$21, %rdx
	movq	%rcx, -56(%rsp)
	jb	.Lrekusoyen_0_1_0.guest.maps.from_numbers.71
	movq	160(%rsi), %r15
	cmpq	$23, %rdx
	movq	%r15, -64(%rsp)
	jb	.Lrekusoyen_0_1_0.guest.maps.from_numbers.74
	movq	176(%rsi), %rcx
	cmpq	$25, %rdx
	movq	%rcx, -88(%rsp)
	jb	.Lrekusoyen_0_1_0.guest.maps.from_numbers.76
	movq	192(%rsi), %r14
	cmpq	$27, %rdx
	movq	%r14, -96(%rsp)
	jb	.Lrekusoyen_0_1_0.guest.maps.from_numbers.79
	movq	208(%rsi), %r15
	cmpq	$29, %rdx
	jb	.Lrekusoyen_0_1_0.guest.maps.from_numbers.81
	movq	224(%rsi), %r10
	cmpq	$31, %rdx
	jb	.Lrekusoyen_0_1_0.guest.maps.from_numbers.83
	movq	240(%rsi), %rax
	jmp	.Lrekusoyen_0_1_0.guest.maps.from_numbers.55
.Lrekusoyen_0_1_0.guest.maps.from_numbers.17:
	movq	$0, -128(%rsp)
	movq	$0, -112(%rsp)
	movq	$0, -80(%rsp)
	movq	$0, -48(%rsp)
	movq	$0, -24(%rsp)
	movq	$0, 8(%rsp)
	movq	$0, 56(%rsp)
	xorl	%r8d, %r8d
	movq	$0, (%rsp)
	movq	$0, -96(%rsp)
	movq	$0, -64(%rsp)
	movq	$0, -40(%rsp)
	movq	$0, -8(%rsp)
	movq	$0, 64(%rsp)
	xorl	%ebp, %ebp
	xorl	%r12d, %r12d
	jmp	.Lrekusoyen_0_1_0.guest.maps.from_numbers.24
.Lrekusoyen_0_1_0.guest.maps.from_numbers.18:
	cmpq	$1, %rdx
	jne	.Lrekusoyen_0_1_0.guest.maps.from_numbers.22
	movq	$0, -128(%rsp)
	movq	$0, -112(%rsp)
	movq	$0, -80(%rsp)
	movq	$0, -48(%rsp)
	movq	$0, -24(%rsp)
	movq	$0, 8(%rsp)
	movq	$0, 56(%rsp)
	xorl	%r8d, %r8d
	jmp	.Lrekusoyen_0_1_0.guest.maps.from_numbers.23
.Lrekusoyen_0_1_0.guest.maps.from_numbers.20:
	movq	8(%rsi), %r8
	cmpq	$3, %rdx
	jne	.Lrekusoyen_0_1_0.guest.maps.from_numbers.32
	movq	$0, -128(%rsp)
	movq	$0, -112(%rsp)
	movq	$0, -80(%rsp)
	movq	$0, -48(%rsp)
	movq	$0, -24(%rsp)
	movq	$0, 8(%rsp)
	movq	$0, 56(%rsp)
	movq	$0, (%rsp)
	movq	$0, -96(%rsp)
	movq	$0, -64(%rsp)
	movq	$0, -40(%rsp)
	movq	$0, -8(%rsp)
	movq	$0, 64(%rsp)
	xorl	%ebp, %ebp
	jmp	.Lrekusoyen_0_1_0.guest.maps.from_numbers.25
.Lrekusoyen_0_1_0.guest.maps.from_numbers.22:
	movq	8(%rsi), %r8
	movq	$0, -128(%rsp)
	movq	$0, -112(%rsp)
	movq	$0, -80(%rsp)
	movq	$0, -48(%rsp)
	movq	$0, -24(%rsp)
	movq	$0, 8(%rsp)
	movq	$0, 56(%rsp)
.Lrekusoyen_0_1_0.guest.maps.from_numbers.23:
	movq	$0, (%rsp)
	movq	$0, -96(%rsp)
	movq	$0, -64(%rsp)
	movq	$0, -40(%rsp)
	movq	$0, -8(%rsp)
	movq	$0, 64(%rsp)
	xorl	%ebp, %ebp
.Lrekusoyen_0_1_0.guest.maps.from_numbers.24:
	xorl	%r13d, %r13d
.Lrekusoyen_0_1_0.guest.maps.from_numbers.25:
	xorl	%eax, %eax
	movq	$0, 16(%rsp)
	movq	$0, -32(%rsp)
	movq	$0, -56(%rsp)
	movq	$0, -88(%rsp)
	xorl	%r9d, %r9d
	xorl	%ebx, %ebx
	xorl	%r11d, %r11d
.Lrekusoyen_0_1_0.guest.maps.from_numbers.26:
	xorl	%ecx, %ecx
.Lrekusoyen_0_1_0.guest.maps.from_numbers.27:
	movq	$0, -16(%rsp)
.Lrekusoyen_0_1_0.guest.maps.from_numbers.28:
	xorl	%r10d, %r10d
	movq	$0, -72(%rsp)
	movq	$0, -104(%rsp)
	movq	$0, -120(%rsp)
	xorl	%esi, %esi
.Lrekusoyen_0_1_0.guest.maps.from_numbers.29:
	movl	%edx, %r14d
	shrq	%rdx
	cmpq	$17, %rdx
	movl	$17, %r15d
	cmovaeq	%r15, %rdx
	testb	$1, %r14b
	cmovneq	%r15, %rdx
	movq	%rdx, (%rdi)
	movq	%r12, 8(%rdi)
	movq	%r13, 16(%rdi)
	movq	%rbp, 24(%rdi)
	movq	%rax, 32(%rdi)
	movq	64(%rsp), %rax
	movq	%rax, 40(%rdi)
	movq	16(%rsp), %rax
	movq	%rax, 48(%rdi)
	movq	-8(%rsp), %rax
	movq	%rax, 56(%rdi)
	movq	-32(%rsp), %rax
	movq	%rax, 64(%rdi)
	movq	-40(%rsp), %rax
	movq	%rax, 72(%rdi)
	movq	-56(%rsp), %rax
	movq	%rax, 80(%rdi)
	movq	-64(%rsp), %rax
	movq	%rax, 88(%rdi)
	movq	-88(%rsp), %rax
	movq	%rax, 96(%rdi)
	movq	-96(%rsp), %rax
	movq	%rax, 104(%rdi)
	movq	%r9, 112(%rdi)
	movq	(%rsp), %rax
	movq	%rax, 120(%rdi)
	movq	%rbx, 128(%rdi)
	movq	%r8, 136(%rdi)
	movq	%r11, 144(%rdi)
	movq	56(%rsp), %rax
	movq	%rax, 152(%rdi)
	movq	%rcx, 160(%rdi)
	movq	8(%rsp), %rax
	movq	%rax, 168(%rdi)
	movq	-16(%rsp), %rax
	movq	%rax, 176(%rdi)
	movq	-24(%rsp), %rax
	movq	%rax, 184(%rdi)
	movq	%r10, 192(%rdi)
	movq	-48(%rsp), %rax
	movq	%rax, 200(%rdi)
	movq	-72(%rsp), %rax
	movq	%rax, 208(%rdi)
	movq	-80(%rsp), %rax
	movq	%rax, 216(%rdi)
	movq	-104(%rsp), %rax
	movq	%rax, 224(%rdi)
	movq	-112(%rsp), %rax
	movq	%rax, 232(%rdi)
	movq	-120(%rsp), %rax
	movq	%rax, 240(%rdi)
	movq	-128(%rsp), %rax
	movq	%rax, 248(%rdi)
	movq	%rsi, 256(%rdi)
	addq	$104, %rsp
	popq	%rbx
	popq	%r12
	popq	%r13
	popq	%r14
	popq	%r15
	popq	%rbp
	retq
.Lrekusoyen_0_1_0.guest.maps.from_numbers.30:
	movq	8(%rsi), %r8
	movq	24(%rsi), %r11
	cmpq	$5, %rdx
	jne	.Lrekusoyen_0_1_0.guest.maps.from_numbers.35
	movq	$0, -128(%rsp)
	movq	$0, -112(%rsp)
	movq	$0, -80(%rsp)
	movq	$0, -48(%rsp)
	movq	$0, -24(%rsp)
	movq	$0, 8(%rsp)
	movq	$0, 56(%rsp)
	jmp	.Lrekusoyen_0_1_0.guest.maps.from_numbers.36
.Lrekusoyen_0_1_0.guest.maps.from_numbers.32:
	movq	24(%rsi), %r11
	movq	$0, -128(%rsp)
	movq	$0, -112(%rsp)
	movq	$0, -80(%rsp)
	movq	$0, -48(%rsp)
	movq	$0, -24(%rsp)
	movq	$0, 8(%rsp)
	movq	$0, 56(%rsp)
	movq	$0, (%rsp)
	movq	$0, -96(%rsp)
	movq	$0, -64(%rsp)
	movq	$0, -40(%rsp)
	movq	$0, -8(%rsp)
	movq	$0, 64(%rsp)
	xorl	%ebp, %ebp
	jmp	.Lrekusoyen_0_1_0.guest.maps.from_numbers.37
.Lrekusoyen_0_1_0.guest.maps.from_numbers.33:
	movq	8(%rsi), %r8
	movq	24(%rsi), %r11
	movq	40(%rsi), %r14
	cmpq	$7, %rdx
	movq	%r14, 56(%rsp)
	jne	.Lrekusoyen_0_1_0.guest.maps.from_numbers.41
	movq	$0, -128(%rsp)
	movq	$0, -112(%rsp)
	movq	$0, -80(%rsp)
	movq	$0, -48(%rsp)
	movq	$0, -24(%rsp)
	movq	$0, 8(%rsp)
	movq	$0, (%rsp)
	movq	$0, -96(%rsp)
	movq	$0, -64(%rsp)
	movq	$0, -40(%rsp)
	movq	$0, -8(%rsp)
	movq	$0, 64(%rsp)
	jmp	.Lrekusoyen_0_1_0.guest.maps.from_numbers.38
.Lrekusoyen_0_1_0.guest.maps.from_numbers.35:
	movq	40(%rsi), %rax
	movq	%rax, 56(%rsp)
	movq	$0, -128(%rsp)
	movq	$0, -112(%rsp)
	movq	$0, -80(%rsp)
	movq	$0, -48(%rsp)
	movq	$0, -24(%rsp)
	movq	$0, 8(%rsp)
.Lrekusoyen_0_1_0.guest.maps.from_numbers.36:
	movq	$0, (%rsp)
	movq	$0, -96(%rsp)
	movq	$0, -64(%rsp)
	movq	$0, -40(%rsp)
	movq	$0, -8(%rsp)
	movq	$0, 64(%rsp)
.Lrekusoyen_0_1_0.guest.maps.from_numbers.37:
	xorl	%eax, %eax
.Lrekusoyen_0_1_0.guest.maps.from_numbers.38:
	movq	$0, 16(%rsp)
	movq	$0, -32(%rsp)
	movq	$0, -56(%rsp)
	movq	$0, -88(%rsp)
	xorl	%r9d, %r9d
	xorl	%ebx, %ebx
	jmp	.Lrekusoyen_0_1_0.guest.maps.from_numbers.26
.Lrekusoyen_0_1_0.guest.maps.from_numbers.39:
	movq	8(%rsi), %r8
	movq	24(%rsi), %r11
	movq	40(%rsi), %r14
	movq	56(%rsi), %rcx
	cmpq	$9, %rdx
	movq	%r14, 56(%rsp)
	jne	.Lrekusoyen_0_1_0.guest.maps.from_numbers.44
	movq	$0, -128(%rsp)
	movq	$0, -112(%rsp)
	movq	$0, -80(%rsp)
	movq	$0, -48(%rsp)
	movq	$0, -24(%rsp)
	movq	$0, 8(%rsp)
	jmp	.Lrekusoyen_0_1_0.guest.maps.from_numbers.45
.Lrekusoyen_0_1_0.guest.maps.from_numbers.41:
	movq	56(%rsi), %rcx
	movq	$0, -128(%rsp)
	movq	$0, -112(%rsp)
	movq	$0, -80(%rsp)
	movq	$0, -48(%rsp)
	movq	$0, -24(%rsp)
	movq	$0, 8(%rsp)
	movq	$0, (%rsp)
	movq	$0, -96(%rsp)
	movq	$0, -64(%rsp)
	movq	$0, -40(%rsp)
	movq	$0, -8(%rsp)
	movq	$0, 64(%rsp)
	jmp	.Lrekusoyen_0_1_0.guest.maps.from_numbers.46
.Lrekusoyen_0_1_0.guest.maps.from_numbers.42:
	movq	8(%rsi), %r8
	movq	24(%rsi), %r11
	movq	40(%rsi), %r15
	movq	56(%rsi), %rcx
	movq	72(%rsi), %r14
	cmpq	$11, %rdx
	movq	%r14, 8(%rsp)
	movq	%r15, 56(%rsp)
	jne	.Lrekusoyen_0_1_0.guest.maps.from_numbers.49
	movq	$0, -128(%rsp)
	movq	$0, -112(%rsp)
	movq	$0, -80(%rsp)
	movq	$0, -48(%rsp)
	movq	$0, -24(%rsp)
	movq	$0, (%rsp)
	movq	$0, -96(%rsp)
	movq	$0, -64(%rsp)
	movq	$0, -40(%rsp)
	movq	$0, -8(%rsp)
	jmp	.Lrekusoyen_0_1_0.guest.maps.from_numbers.47
.Lrekusoyen_0_1_0.guest.maps.from_numbers.44:
	movq	72(%rsi), %rsi
	movq	%rsi, 8(%rsp)
	movq	$0, -128(%rsp)
	movq	$0, -112(%rsp)
	movq	$0, -80(%rsp)
	movq	$0, -48(%rsp)
	movq	$0, -24(%rsp)
.Lrekusoyen_0_1_0.guest.maps.from_numbers.45:
	movq	$0, (%rsp)
	movq	$0, -96(%rsp)
	movq	$0, -64(%rsp)
	movq	$0, -40(%rsp)
	movq	$0, -8(%rsp)
.Lrekusoyen_0_1_0.guest.maps.from_numbers.46:
	movq	$0, 16(%rsp)
.Lrekusoyen_0_1_0.guest.maps.from_numbers.47:
	movq	$0, -32(%rsp)
	movq	$0, -56(%rsp)
	movq	$0, -88(%rsp)
	xorl	%r9d, %r9d
	xorl	%ebx, %ebx
	jmp	.Lrekusoyen_0_1_0.guest.maps.from_numbers.27
.Lrekusoyen_0_1_0.guest.maps.from_numbers.48:
	xorl	%eax, %eax
	xorl	%r15d, %r15d
	movq	$0, -88(%rsp)
	movq	$0, -56(%rsp)
	movq	$0, -32(%rsp)
	jmp	.Lrekusoyen_0_1_0.guest.maps.from_numbers.51
.Lrekusoyen_0_1_0.guest.maps.from_numbers.49:
	movq	88(%rsi), %rsi
	movq	%rsi, -16(%rsp)
	movq	$0, -128(%rsp)
	movq	$0, -112(%rsp)
	movq	$0, -80(%rsp)
	movq	$0, -48(%rsp)
	movq	$0, -24(%rsp)
	movq	$0, (%rsp)
	movq	$0, -96(%rsp)
	movq	$0, -64(%rsp)
	movq	$0, -40(%rsp)
	movq	$0, -8(%rsp)
	movq	$0, -32(%rsp)
	movq	$0, -56(%rsp)
	movq	$0, -88(%rsp)
	xorl	%r9d, %r9d
	xorl	%ebx, %ebx
	jmp	.Lrekusoyen_0_1_0.guest.maps.from_numbers.28
.Lrekusoyen_0_1_0.guest.maps.from_numbers.50:
	xorl	%eax, %eax
	xorl	%r15d, %r15d
	movq	$0, -88(%rsp)
	movq	$0, -56(%rsp)
.Lrekusoyen_0_1_0.guest.maps.from_numbers.51:
	movq	$0, -40(%rsp)
.Lrekusoyen_0_1_0.guest.maps.from_numbers.52:
	movq	$0, -64(%rsp)
.Lrekusoyen_0_1_0.guest.maps.from_numbers.53:
	movq	$0, -96(%rsp)
.Lrekusoyen_0_1_0.guest.maps.from_numbers.54:
	xorl	%r10d, %r10d
.Lrekusoyen_0_1_0.guest.maps.from_numbers.55:
	movq	%r15, 24(%rsp)
	movq	%rax, 32(%rsp)
	movq	96(%rsi), %r15
	movq	8(%rsi), %rax
	movq	24(%rsi), %r8
	movq	40(%rsi), %rbx
	movq	56(%rsi), %rcx
	movq	72(%rsi), %r14
	movq	88(%rsi), %rbp
	cmpq	$13, %rdx
	movq	%r14, 8(%rsp)
	movq	%r10, (%rsp)
	movq	%r15, -8(%rsp)
	movq	%rbp, -16(%rsp)
	movq	%rbx, 56(%rsp)
	jne	.Lrekusoyen_0_1_0.guest.maps.from_numbers.57
	movq	$0, -128(%rsp)
	movq	$0, -112(%rsp)
	movq	$0, -80(%rsp)
	movq	$0, -48(%rsp)
	movq	$0, -24(%rsp)
	jmp	.Lrekusoyen_0_1_0.guest.maps.from_numbers.68
.Lrekusoyen_0_1_0.guest.maps.from_numbers.57:
	movq	104(%rsi), %r11
	cmpq	$16, %rdx
	movq	%r11, -24(%rsp)
	jb	.Lrekusoyen_0_1_0.guest.maps.from_numbers.67
	movq	120(%rsi), %r9
	movq	%r9, 72(%rsp)
	cmpq	$18, %rdx
	jb	.Lrekusoyen_0_1_0.guest.maps.from_numbers.70
	movq	136(%rsi), %r9
	cmpq	$20, %rdx
	movq	%r9, -48(%rsp)
	jb	.Lrekusoyen_0_1_0.guest.maps.from_numbers.72
	movq	%rcx, 80(%rsp)
	movq	152(%rsi), %rcx
	cmpq	$22, %rdx
	movq	%rcx, -72(%rsp)
	jb	.Lrekusoyen_0_1_0.guest.maps.from_numbers.75
	movq	168(%rsi), %rbp
	cmpq	$24, %rdx
	movq	%rbp, -80(%rsp)
	jb	.Lrekusoyen_0_1_0.guest.maps.from_numbers.77
	movq	%r8, 88(%rsp)
	movq	%rax, 96(%rsp)
	movq	184(%rsi), %r14
	cmpq	$26, %rdx
	movq	%r14, -104(%rsp)
	jb	.Lrekusoyen_0_1_0.guest.maps.from_numbers.80
	movq	200(%rsi), %rax
	movq	%rax, -112(%rsp)
	cmpq	$28, %rdx
	jb	.Lrekusoyen_0_1_0.guest.maps.from_numbers.82
	movq	216(%rsi), %rax
	movq	%rax, -120(%rsp)
	cmpq	$30, %rdx
	jb	.Lrekusoyen_0_1_0.guest.maps.from_numbers.84
	movq	232(%rsi), %rax
	movq	%rax, -128(%rsp)
	cmpq	$32, %rdx
	jb	.Lrekusoyen_0_1_0.guest.maps.from_numbers.85
	movq	248(%rsi), %rsi
	jmp	.Lrekusoyen_0_1_0.guest.maps.from_numbers.86
.Lrekusoyen_0_1_0.guest.maps.from_numbers.67:
	movq	$0, -128(%rsp)
	movq	$0, -112(%rsp)
	movq	$0, -80(%rsp)
	movq	$0, -48(%rsp)
.Lrekusoyen_0_1_0.guest.maps.from_numbers.68:
	xorl	%r10d, %r10d
	movq	$0, -72(%rsp)
	movq	$0, -104(%rsp)
	movq	$0, -120(%rsp)
	xorl	%esi, %esi
	movq	48(%rsp), %rbp
	movq	%r8, %r11
	movq	%rax, %r8
	movq	40(%rsp), %rax
	movq	24(%rsp), %r9
	movq	32(%rsp), %rbx
	jmp	.Lrekusoyen_0_1_0.guest.maps.from_numbers.29
.Lrekusoyen_0_1_0.guest.maps.from_numbers.69:
	xorl	%eax, %eax
	xorl	%r15d, %r15d
	movq	$0, -88(%rsp)
	movq	$0, -56(%rsp)
	jmp	.Lrekusoyen_0_1_0.guest.maps.from_numbers.52
.Lrekusoyen_0_1_0.guest.maps.from_numbers.70:
	movq	$0, -128(%rsp)
	movq	$0, -112(%rsp)
	movq	$0, -80(%rsp)
	movq	$0, -48(%rsp)
	jmp	.Lrekusoyen_0_1_0.guest.maps.from_numbers.73
.Lrekusoyen_0_1_0.guest.maps.from_numbers.71:
	xorl	%eax, %eax
	xorl	%r15d, %r15d
	movq	$0, -88(%rsp)
	jmp	.Lrekusoyen_0_1_0.guest.maps.from_numbers.52
.Lrekusoyen_0_1_0.guest.maps.from_numbers.72:
	movq	$0, -128(%rsp)
	movq	$0, -112(%rsp)
	movq	$0, -80(%rsp)
.Lrekusoyen_0_1_0.guest.maps.from_numbers.73:
	movq	$0, -72(%rsp)
	movq	$0, -104(%rsp)
	movq	$0, -120(%rsp)
	xorl	%esi, %esi
	movq	48(%rsp), %rbp
	movq	%r8, %r11
	movq	%rax, %r8
	movq	40(%rsp), %rax
	movq	24(%rsp), %r9
	jmp	.Lrekusoyen_0_1_0.guest.maps.from_numbers.88
.Lrekusoyen_0_1_0.guest.maps.from_numbers.74:
	xorl	%eax, %eax
	xorl	%r15d, %r15d
	movq	$0, -88(%rsp)
	jmp	.Lrekusoyen_0_1_0.guest.maps.from_numbers.53
.Lrekusoyen_0_1_0.guest.maps.from_numbers.75:
	movq	$0, -128(%rsp)
	movq	$0, -112(%rsp)
	movq	$0, -80(%rsp)
	jmp	.Lrekusoyen_0_1_0.guest.maps.from_numbers.78
.Lrekusoyen_0_1_0.guest.maps.from_numbers.76:
	xorl	%eax, %eax
	xorl	%r15d, %r15d
	jmp	.Lrekusoyen_0_1_0.guest.maps.from_numbers.53
.Lrekusoyen_0_1_0.guest.maps.from_numbers.77:
	movq	$0, -128(%rsp)
	movq	$0, -112(%rsp)
.Lrekusoyen_0_1_0.guest.maps.from_numbers.78:
	movq	$0, -104(%rsp)
	movq	$0, -120(%rsp)
	xorl	%esi, %esi
	movq	48(%rsp), %rbp
	movq	%r8, %r11
	movq	%rax, %r8
	movq	40(%rsp), %rax
	jmp	.Lrekusoyen_0_1_0.guest.maps.from_numbers.87
.Lrekusoyen_0_1_0.guest.maps.from_numbers.79:
	xorl	%eax, %eax
	xorl	%r15d, %r15d
	jmp	.Lrekusoyen_0_1_0.guest.maps.from_numbers.54
.Lrekusoyen_0_1_0.guest.maps.from_numbers.80:
	movq	$0, -128(%rsp)
	movq	$0, -112(%rsp)
	movq	$0, -120(%rsp)
	jmp	.Lrekusoyen_0_1_0.guest.maps.from_numbers.85
.Lrekusoyen_0_1_0.guest.maps.from_numbers.81:
	xorl	%eax, %eax
	jmp	.Lrekusoyen_0_1_0.guest.maps.from_numbers.54
.Lrekusoyen_0_1_0.guest.maps.from_numbers.82:
	movq	$0, -128(%rsp)
	movq	$0, -120(%rsp)
	jmp	.Lrekusoyen_0_1_0.guest.maps.from_numbers.85
.Lrekusoyen_0_1_0.guest.maps.from_numbers.83:
	xorl	%eax, %eax
	jmp	.Lrekusoyen_0_1_0.guest.maps.from_numbers.55
.Lrekusoyen_0_1_0.guest.maps.from_numbers.84:
	movq	$0, -128(%rsp)
.Lrekusoyen_0_1_0.guest.maps.from_numbers.85:
	xorl	%esi, %esi
.Lrekusoyen_0_1_0.guest.maps.from_numbers.86:
	movq	48(%rsp), %rbp
	movq	40(%rsp), %rax
	movq	96(%rsp), %r8
	movq	88(%rsp), %r11
.Lrekusoyen_0_1_0.guest.maps.from_numbers.87:
	movq	24(%rsp), %r9
	movq	80(%rsp), %rcx
.Lrekusoyen_0_1_0.guest.maps.from_numbers.88:
	movq	32(%rsp), %rbx
	movq	72(%rsp), %r10
	jmp	.Lrekusoyen_0_1_0.guest.maps.from_numbers.29
.Lrekusoyen_0_1_0.guest.maps.from_numbers.func_end:
	.size	rekusoyen_0_1_0.guest.maps.from_numbers, .Lrekusoyen_0_1_0.guest.maps.from_numbers.func_end-rekusoyen_0_1_0.guest.maps.from_numbers
	.section	.text.rekusoyen_0_1_0.guest.room.room_for,"ax",@progbits
	.p2align	4
	.type	rekusoyen_0_1_0.guest.room.room_for,@function
rekusoyen_0_1_0.guest.room.room_for:
	movb	$1, %al
	testq	%rdx, %rdx
	je	.Lrekusoyen_0_1_0.guest.room.room_for.9
	movq	(%rdi), %rcx
	subq	%rsi, %rcx
	setae	%r8b
	cmpq	%rcx, %rdx
	setbe	%cl
	andb	%r8b, %cl
	cmpb	$1, %cl
	jne	.Lrekusoyen_0_1_0.guest.room.room_for.8
	movq	8(%rdi), %r8
	cmpq	$16, %r8
	movl	$16, %ecx
	cmovbq	%r8, %rcx
	testq	%r8, %r8
	je	.Lrekusoyen_0_1_0.guest.room.room_for.8
	xorl	%r8d, %r8d
	jmp	.Lrekusoyen_0_1_0.guest.room.room_for.4
	.p2align	4
.Lrekusoyen_0_1_0.guest.room.room_for.7:
	incq	%r8
	cmpq	%r8, %rcx
	je	.Lrekusoyen_0_1_0.guest.room.room_for.8
.Lrekusoyen_0_1_0.guest.room.room_for.4:
	movq	%rsi, %r9
	subq	16(%rdi,%r8,8), %r9
	jb	.Lrekusoyen_0_1_0.guest.room.room_for.7
	movq	144(%rdi,%r8,8), %r10
	subq	%r9, %r10
	jb	.Lrekusoyen_0_1_0.guest.room.room_for.7
	cmpq	%r10, %rdx
	ja	.Lrekusoyen_0_1_0.guest.room.room_for.7
.Lrekusoyen_0_1_0.guest.room.room_for.9:
	retq
.Lrekusoyen_0_1_0.guest.room.room_for.8:
	xorl	%eax, %eax
	retq
.Lrekusoyen_0_1_0.guest.room.room_for.func_end:
	.size	rekusoyen_0_1_0.guest.room.room_for, .Lrekusoyen_0_1_0.guest.room.room_for.func_end-rekusoyen_0_1_0.guest.room.room_for
	.section	.text.rekusoyen_0_1_0.guest.room.has_room,"ax",@progbits
	.p2align	4
	.type	rekusoyen_0_1_0.guest.room.has_room,@function
rekusoyen_0_1_0.guest.room.has_room:
	movq	(%rdi), %rax
	subq	%rsi, %rax
	setae	%cl
	cmpq	%rax, %rdx
	setbe	%al
	andb	%cl, %al
	cmpb	$1, %al
	jne	.Lrekusoyen_0_1_0.guest.room.has_room.8
	movq	8(%rdi), %rcx
	cmpq	$16, %rcx
	movl	$16, %eax
	cmovbq	%rcx, %rax
	testq	%rcx, %rcx
	je	.Lrekusoyen_0_1_0.guest.room.has_room.8
	xorl	%ecx, %ecx
	jmp	.Lrekusoyen_0_1_0.guest.room.has_room.3
	.p2align	4
.Lrekusoyen_0_1_0.guest.room.has_room.7:
	incq	%rcx
	cmpq	%rcx, %rax
	je	.Lrekusoyen_0_1_0.guest.room.has_room.8
.Lrekusoyen_0_1_0.guest.room.has_room.3:
	movq	%rsi, %r8
	subq	16(%rdi,%rcx,8), %r8
	jb	.Lrekusoyen_0_1_0.guest.room.has_room.7
	movq	144(%rdi,%rcx,8), %r9
	subq	%r8, %r9
	jb	.Lrekusoyen_0_1_0.guest.room.has_room.7
	cmpq	%r9, %rdx
	ja	.Lrekusoyen_0_1_0.guest.room.has_room.7
	movb	$1, %al
	retq
.Lrekusoyen_0_1_0.guest.room.has_room.8:
	xorl	%eax, %eax
	retq
.Lrekusoyen_0_1_0.guest.room.has_room.func_end:
	.size	rekusoyen_0_1_0.guest.room.has_room, .Lrekusoyen_0_1_0.guest.room.has_room.func_end-rekusoyen_0_1_0.guest.room.has_room
	.section	.text.rekusoyen_0_1_0.answers.U32FromRefusal.from,"ax",@progbits
	.p2align	4
	.type	rekusoyen_0_1_0.answers.U32FromRefusal.from,@function
rekusoyen_0_1_0.answers.U32FromRefusal.from:
	movzbl	%dil, %eax
	leaq	.Lrekusoyen_0_1_0.switch.table.answers.U32FromRefusal.from(%rip), %rcx
	movl	(%rcx,%rax,4), %eax
	retq
.Lrekusoyen_0_1_0.answers.U32FromRefusal.from.func_end:
	.size	rekusoyen_0_1_0.answers.U32FromRefusal.from, .Lrekusoyen_0_1_0.answers.U32FromRefusal.from.func_end-rekusoyen_0_1_0.answers.U32FromRefusal.from
	.section	.text.rekusoyen_0_1_0.desk.table.row_at,"ax",@progbits
	.p2align	4
	.type	rekusoyen_0_1_0.desk.table.row_at,@function
rekusoyen_0_1_0.desk.table.row_at:
	movq	%rdx, %rax
	subq	%rcx, %rax
	setae	%r8b
	cmpq	$4, %rax
	setae	%al
	testb	%al, %r8b
	je	.Lrekusoyen_0_1_0.desk.table.row_at.1
	movl	(%rsi,%rcx), %eax
	jmp	.Lrekusoyen_0_1_0.desk.table.row_at.10
.Lrekusoyen_0_1_0.desk.table.row_at.1:
	xorl	%r8d, %r8d
	movq	%rdx, %rax
	subq	%rcx, %rax
	cmovaeq	%rax, %r8
	cmpq	$4, %r8
	jb	.Lrekusoyen_0_1_0.desk.table.row_at.3
	movzbl	3(%rsi,%rcx), %eax
	shll	$8, %eax
	jmp	.Lrekusoyen_0_1_0.desk.table.row_at.4
.Lrekusoyen_0_1_0.desk.table.row_at.3:
	xorl	%eax, %eax
	cmpq	$3, %r8
	jne	.Lrekusoyen_0_1_0.desk.table.row_at.5
.Lrekusoyen_0_1_0.desk.table.row_at.4:
	movzbl	2(%rsi,%rcx), %r8d
	orl	%r8d, %eax
	shll	$8, %eax
.Lrekusoyen_0_1_0.desk.table.row_at.6:
	movzbl	1(%rsi,%rcx), %r8d
	orl	%r8d, %eax
	shll	$8, %eax
.Lrekusoyen_0_1_0.desk.table.row_at.7:
	cmpq	%rcx, %rdx
	jbe	.Lrekusoyen_0_1_0.desk.table.row_at.10
	movzbl	(%rsi,%rcx), %r8d
	orq	%r8, %rax
.Lrekusoyen_0_1_0.desk.table.row_at.10:
	leaq	4(%rcx), %r9
	movq	%rdx, %r8
	subq	%r9, %r8
	setae	%r10b
	cmpq	$4, %r8
	setae	%r8b
	testb	%r8b, %r10b
	je	.Lrekusoyen_0_1_0.desk.table.row_at.11
	movl	(%rsi,%r9), %r8d
	jmp	.Lrekusoyen_0_1_0.desk.table.row_at.20
.Lrekusoyen_0_1_0.desk.table.row_at.11:
	xorl	%r10d, %r10d
	movq	%rdx, %r8
	subq	%r9, %r8
	cmovaeq	%r8, %r10
	cmpq	$4, %r10
	jb	.Lrekusoyen_0_1_0.desk.table.row_at.13
	movzbl	3(%rsi,%r9), %r8d
	shll	$8, %r8d
	jmp	.Lrekusoyen_0_1_0.desk.table.row_at.14
.Lrekusoyen_0_1_0.desk.table.row_at.13:
	xorl	%r8d, %r8d
	cmpq	$3, %r10
	jne	.Lrekusoyen_0_1_0.desk.table.row_at.15
.Lrekusoyen_0_1_0.desk.table.row_at.14:
	movzbl	2(%rsi,%r9), %r10d
	orl	%r10d, %r8d
	shll	$8, %r8d
.Lrekusoyen_0_1_0.desk.table.row_at.16:
	movzbl	1(%rsi,%r9), %r10d
	orl	%r10d, %r8d
	shll	$8, %r8d
.Lrekusoyen_0_1_0.desk.table.row_at.17:
	cmpq	%r9, %rdx
	jbe	.Lrekusoyen_0_1_0.desk.table.row_at.20
	movzbl	(%rsi,%r9), %r9d
	orq	%r9, %r8
.Lrekusoyen_0_1_0.desk.table.row_at.20:
	addq	$8, %rcx
	movq	%rdx, %r9
	subq	%rcx, %r9
	setae	%r10b
	cmpq	$4, %r9
	setae	%r9b
	testb	%r9b, %r10b
	je	.Lrekusoyen_0_1_0.desk.table.row_at.21
	movl	(%rsi,%rcx), %r9d
.Lrekusoyen_0_1_0.desk.table.row_at.30:
	movq	%rax, (%rdi)
	movq	%r8, 8(%rdi)
	movq	%r9, 16(%rdi)
	retq
.Lrekusoyen_0_1_0.desk.table.row_at.21:
	xorl	%r10d, %r10d
	movq	%rdx, %r9
	subq	%rcx, %r9
	cmovaeq	%r9, %r10
	cmpq	$4, %r10
	jb	.Lrekusoyen_0_1_0.desk.table.row_at.23
	movzbl	3(%rsi,%rcx), %r9d
	shll	$8, %r9d
	jmp	.Lrekusoyen_0_1_0.desk.table.row_at.24
.Lrekusoyen_0_1_0.desk.table.row_at.23:
	xorl	%r9d, %r9d
	cmpq	$3, %r10
	jne	.Lrekusoyen_0_1_0.desk.table.row_at.25
.Lrekusoyen_0_1_0.desk.table.row_at.24:
	movzbl	2(%rsi,%rcx), %r10d
	orl	%r10d, %r9d
	shll	$8, %r9d
.Lrekusoyen_0_1_0.desk.table.row_at.26:
	movzbl	1(%rsi,%rcx), %r10d
	orl	%r10d, %r9d
	shll	$8, %r9d
.Lrekusoyen_0_1_0.desk.table.row_at.27:
	cmpq	%rcx, %rdx
	jbe	.Lrekusoyen_0_1_0.desk.table.row_at.30
	movzbl	(%rsi,%rcx), %ecx
	orq	%rcx, %r9
	movq	%rax, (%rdi)
	movq	%r8, 8(%rdi)
	movq	%r9, 16(%rdi)
	retq
.Lrekusoyen_0_1_0.desk.table.row_at.5:
	cmpq	$2, %r8
	jae	.Lrekusoyen_0_1_0.desk.table.row_at.6
	jmp	.Lrekusoyen_0_1_0.desk.table.row_at.7
.Lrekusoyen_0_1_0.desk.table.row_at.15:
	cmpq	$2, %r10
	jae	.Lrekusoyen_0_1_0.desk.table.row_at.16
	jmp	.Lrekusoyen_0_1_0.desk.table.row_at.17
.Lrekusoyen_0_1_0.desk.table.row_at.25:
	cmpq	$2, %r10
	jae	.Lrekusoyen_0_1_0.desk.table.row_at.26
	jmp	.Lrekusoyen_0_1_0.desk.table.row_at.27
.Lrekusoyen_0_1_0.desk.table.row_at.func_end:
	.size	rekusoyen_0_1_0.desk.table.row_at, .Lrekusoyen_0_1_0.desk.table.row_at.func_end-rekusoyen_0_1_0.desk.table.row_at
	.section	.text.rekusoyen_0_1_0.loads.formats.plan,"ax",@progbits
	.p2align	4
	.type	rekusoyen_0_1_0.loads.formats.plan,@function
rekusoyen_0_1_0.loads.formats.plan:
	pushq	%rbp
	pushq	%r15
	pushq	%r14
	pushq	%r13
	pushq	%r12
	pushq	%rbx
	subq	$280, %rsp
	movzbl	(%r8), %eax
	movzbl	8(%r8), %ebp
	movq	16(%r8), %r12
	movzbl	24(%r8), %r14d
	movq	32(%r8), %r9
	xorps	%xmm0, %xmm0
	movaps	%xmm0, 176(%rsp)
	movq	$0, 192(%rsp)
	cmpl	$2, %eax
	je	.Lrekusoyen_0_1_0.loads.formats.plan.193
	cmpl	$1, %eax
	jne	.Lrekusoyen_0_1_0.loads.formats.plan.2
	cmpq	$517, %rcx
	movq	%r9, 104(%rsp)
	movb	%r14b, 96(%rsp)
	jbe	.Lrekusoyen_0_1_0.loads.formats.plan.127
	movl	514(%rdx), %r10d
	cmpq	$520, %rcx
	jb	.Lrekusoyen_0_1_0.loads.formats.plan.134
	cmpw	$512, 518(%rdx)
	setb	%al
	cmpq	$530, %rcx
	movb	%al, (%rsp)
	jb	.Lrekusoyen_0_1_0.loads.formats.plan.136
	testb	$1, 529(%rdx)
	sete	8(%rsp)
	jmp	.Lrekusoyen_0_1_0.loads.formats.plan.140
.Lrekusoyen_0_1_0.loads.formats.plan.193:
	movabsq	$1099511627777, %r9
	xorl	%eax, %eax
	cmpb	$1, %bpl
	cmoveq	%r12, %rax
	cmpq	$23, %rcx
	jbe	.Lrekusoyen_0_1_0.loads.formats.plan.194
	movb	$31, %r8b
	cmpq	%r9, %rcx
	jae	.Lrekusoyen_0_1_0.loads.formats.plan.183
	movq	16(%rdx), %r13
	movq	(%rsi), %r10
	movb	$31, %r8b
	cmpq	%r9, %r10
	jb	.Lrekusoyen_0_1_0.loads.formats.plan.215
	jmp	.Lrekusoyen_0_1_0.loads.formats.plan.183
.Lrekusoyen_0_1_0.loads.formats.plan.2:
	movabsq	$1099511627777, %r11
	cmpq	$31, %rcx
	jbe	.Lrekusoyen_0_1_0.loads.formats.plan.3
	movq	24(%rdx), %r10
	cmpq	$39, %rcx
	jbe	.Lrekusoyen_0_1_0.loads.formats.plan.22
	movq	32(%rdx), %rbx
	cmpq	$55, %rcx
	jbe	.Lrekusoyen_0_1_0.loads.formats.plan.42
	movzwl	54(%rdx), %r13d
	cmpq	$57, %rcx
	jbe	.Lrekusoyen_0_1_0.loads.formats.plan.45
	movb	$31, %r8b
	cmpq	%r11, %rcx
	jae	.Lrekusoyen_0_1_0.loads.formats.plan.65
	movzwl	56(%rdx), %r15d
	jmp	.Lrekusoyen_0_1_0.loads.formats.plan.50
.Lrekusoyen_0_1_0.loads.formats.plan.127:
	xorl	%eax, %eax
	movq	%rcx, %r8
	subq	$514, %r8
	cmovaeq	%r8, %rax
	cmpq	$3, %rax
	jne	.Lrekusoyen_0_1_0.loads.formats.plan.129
	movzbl	516(%rdx), %r10d
	shll	$8, %r10d
	jmp	.Lrekusoyen_0_1_0.loads.formats.plan.130
.Lrekusoyen_0_1_0.loads.formats.plan.194:
	xorl	%r8d, %r8d
	movq	%rcx, %r10
	subq	$16, %r10
	cmovaeq	%r10, %r8
	cmpq	$7, %r8
	jne	.Lrekusoyen_0_1_0.loads.formats.plan.196
	movzbl	22(%rdx), %r8d
	shll	$8, %r8d
	jmp	.Lrekusoyen_0_1_0.loads.formats.plan.198
.Lrekusoyen_0_1_0.loads.formats.plan.3:
	xorl	%eax, %eax
	movq	%rcx, %r8
	subq	$24, %r8
	cmovaeq	%r8, %rax
	cmpq	$7, %rax
	jne	.Lrekusoyen_0_1_0.loads.formats.plan.5
	movzbl	30(%rdx), %eax
	shll	$8, %eax
	jmp	.Lrekusoyen_0_1_0.loads.formats.plan.7
.Lrekusoyen_0_1_0.loads.formats.plan.129:
	xorl	%r10d, %r10d
	cmpq	$2, %rax
	jb	.Lrekusoyen_0_1_0.loads.formats.plan.131
.Lrekusoyen_0_1_0.loads.formats.plan.130:
	movzbl	515(%rdx), %eax
	orl	%eax, %r10d
	shll	$8, %r10d
.Lrekusoyen_0_1_0.loads.formats.plan.131:
	cmpq	$515, %rcx
	jb	.Lrekusoyen_0_1_0.loads.formats.plan.137
	movzbl	514(%rdx), %eax
	orq	%rax, %r10
	jmp	.Lrekusoyen_0_1_0.loads.formats.plan.134
.Lrekusoyen_0_1_0.loads.formats.plan.137:
	cmpq	$497, %rcx
	ja	.Lrekusoyen_0_1_0.loads.formats.plan.134
	leaq	532(%rdx), %r8
	movb	$1, (%rsp)
	movl	$2560, %r15d
	movb	$1, 8(%rsp)
	movb	$1, %al
	jmp	.Lrekusoyen_0_1_0.loads.formats.plan.142
.Lrekusoyen_0_1_0.loads.formats.plan.134:
	movb	$1, 8(%rsp)
	movb	$1, (%rsp)
.Lrekusoyen_0_1_0.loads.formats.plan.140:
	movzbl	497(%rdx), %eax
	testb	%al, %al
	movl	$4, %r8d
	cmovnel	%eax, %r8d
	movzbl	%r8b, %r15d
	shll	$9, %r15d
	addq	$512, %r15
	leaq	532(%rdx), %r8
	cmpq	$535, %rcx
	jbe	.Lrekusoyen_0_1_0.loads.formats.plan.141
	movl	(%r8), %r13d
	jmp	.Lrekusoyen_0_1_0.loads.formats.plan.149
.Lrekusoyen_0_1_0.loads.formats.plan.141:
	xorl	%eax, %eax
.Lrekusoyen_0_1_0.loads.formats.plan.142:
	xorl	%r9d, %r9d
	movq	%rcx, %r11
	subq	$532, %r11
	cmovaeq	%r11, %r9
	cmpq	$3, %r9
	jne	.Lrekusoyen_0_1_0.loads.formats.plan.144
	movzbl	534(%rdx), %r13d
	shll	$8, %r13d
	jmp	.Lrekusoyen_0_1_0.loads.formats.plan.145
.Lrekusoyen_0_1_0.loads.formats.plan.144:
	xorl	%r13d, %r13d
	cmpq	$2, %r9
	jb	.Lrekusoyen_0_1_0.loads.formats.plan.146
.Lrekusoyen_0_1_0.loads.formats.plan.145:
	movzbl	533(%rdx), %r9d
	orl	%r9d, %r13d
	shll	$8, %r13d
.Lrekusoyen_0_1_0.loads.formats.plan.146:
	cmpq	$533, %rcx
	jb	.Lrekusoyen_0_1_0.loads.formats.plan.152
	movzbl	(%r8), %eax
	orq	%rax, %r13
.Lrekusoyen_0_1_0.loads.formats.plan.149:
	cmpb	$1, %bpl
	movq	%r13, %r8
	cmoveq	%r12, %r8
.Lrekusoyen_0_1_0.loads.formats.plan.150:
	movzbl	497(%rdx), %eax
	testb	%al, %al
	movl	$4, %r9d
	cmovnel	%eax, %r9d
	movzbl	%r9b, %r9d
	shll	$9, %r9d
	addq	$512, %r9
	xorl	%eax, %eax
	movq	%rcx, %rbx
	movq	(%rsi), %r11
	movb	$1, %r14b
	subq	%r9, %rbx
	cmovaeq	%rbx, %rax
	jbe	.Lrekusoyen_0_1_0.loads.formats.plan.151
	xorl	%r14d, %r14d
	movq	%r11, %r9
	subq	%r8, %r9
	jb	.Lrekusoyen_0_1_0.loads.formats.plan.166
	cmpq	%r9, %rax
	ja	.Lrekusoyen_0_1_0.loads.formats.plan.166
	movq	8(%rsi), %rbx
	cmpq	$16, %rbx
	movl	$16, %r9d
	cmovbq	%rbx, %r9
	testq	%rbx, %rbx
	je	.Lrekusoyen_0_1_0.loads.formats.plan.157
	movb	%bpl, 40(%rsp)
	movq	%r12, %rbx
	xorl	%r14d, %r14d
	jmp	.Lrekusoyen_0_1_0.loads.formats.plan.159
	.p2align	4
.Lrekusoyen_0_1_0.loads.formats.plan.163:
	incq	%r14
	cmpq	%r14, %r9
	je	.Lrekusoyen_0_1_0.loads.formats.plan.164
.Lrekusoyen_0_1_0.loads.formats.plan.159:
	movq	%r8, %r12
	subq	16(%rsi,%r14,8), %r12
	jb	.Lrekusoyen_0_1_0.loads.formats.plan.163
	movq	144(%rsi,%r14,8), %rbp
	subq	%r12, %rbp
	jb	.Lrekusoyen_0_1_0.loads.formats.plan.163
	cmpq	%rbp, %rax
	ja	.Lrekusoyen_0_1_0.loads.formats.plan.163
	movb	$1, %r14b
	jmp	.Lrekusoyen_0_1_0.loads.formats.plan.165
.Lrekusoyen_0_1_0.loads.formats.plan.151:
	movabsq	$1099511627777, %rax
	jmp	.Lrekusoyen_0_1_0.loads.formats.plan.167
.Lrekusoyen_0_1_0.loads.formats.plan.152:
	cmpb	$1, %bpl
	movq	%r13, %r8
	cmoveq	%r12, %r8
	testb	%al, %al
	je	.Lrekusoyen_0_1_0.loads.formats.plan.150
	movq	(%rsi), %r11
	movb	$1, %r14b
	movabsq	$1099511627777, %rax
	jmp	.Lrekusoyen_0_1_0.loads.formats.plan.167
.Lrekusoyen_0_1_0.loads.formats.plan.196:
	cmpq	$6, %r8
	jb	.Lrekusoyen_0_1_0.loads.formats.plan.199
	xorl	%r8d, %r8d
.Lrekusoyen_0_1_0.loads.formats.plan.198:
	movzbl	21(%rdx), %r10d
	orl	%r10d, %r8d
	shll	$8, %r8d
.Lrekusoyen_0_1_0.loads.formats.plan.201:
	movzbl	20(%rdx), %r10d
	orl	%r10d, %r8d
	shll	$8, %r8d
.Lrekusoyen_0_1_0.loads.formats.plan.204:
	movzbl	19(%rdx), %r10d
	orq	%r8, %r10
	shlq	$8, %r10
.Lrekusoyen_0_1_0.loads.formats.plan.207:
	movzbl	18(%rdx), %r13d
	orq	%r10, %r13
	shlq	$8, %r13
.Lrekusoyen_0_1_0.loads.formats.plan.209:
	movzbl	17(%rdx), %r8d
	orq	%r13, %r8
	shlq	$8, %r8
	movq	%r8, %r13
.Lrekusoyen_0_1_0.loads.formats.plan.210:
	cmpq	$17, %rcx
	jae	.Lrekusoyen_0_1_0.loads.formats.plan.211
	movq	(%rsi), %r10
	movb	$31, %r8b
	cmpq	%r9, %r10
	jb	.Lrekusoyen_0_1_0.loads.formats.plan.215
	jmp	.Lrekusoyen_0_1_0.loads.formats.plan.183
.Lrekusoyen_0_1_0.loads.formats.plan.211:
	movzbl	16(%rdx), %r8d
	orq	%r8, %r13
	movq	(%rsi), %r10
	movb	$31, %r8b
	cmpq	%r9, %r10
	jae	.Lrekusoyen_0_1_0.loads.formats.plan.183
.Lrekusoyen_0_1_0.loads.formats.plan.215:
	movq	8(%rsi), %r9
	movb	$43, %r8b
	cmpq	$16, %r9
	ja	.Lrekusoyen_0_1_0.loads.formats.plan.183
	testq	%r9, %r9
	je	.Lrekusoyen_0_1_0.loads.formats.plan.226
	movq	144(%rsi), %r11
	testq	%r11, %r11
	je	.Lrekusoyen_0_1_0.loads.formats.plan.183
	movq	16(%rsi), %rbx
	movq	%r10, %r14
	subq	%rbx, %r14
	setae	%bpl
	cmpq	%r14, %r11
	setbe	%r14b
	andb	%bpl, %r14b
	cmpb	$1, %r14b
	jne	.Lrekusoyen_0_1_0.loads.formats.plan.183
	cmpq	$1, %r9
	je	.Lrekusoyen_0_1_0.loads.formats.plan.226
	addq	%rbx, %r11
	decq	%r9
	xorl	%ebx, %ebx
.Lrekusoyen_0_1_0.loads.formats.plan.221:
	movq	24(%rsi,%rbx,8), %r14
	cmpq	%r14, %r11
	jae	.Lrekusoyen_0_1_0.loads.formats.plan.183
	movq	152(%rsi,%rbx,8), %r11
	testq	%r11, %r11
	je	.Lrekusoyen_0_1_0.loads.formats.plan.183
	movq	%r10, %r15
	subq	%r14, %r15
	jb	.Lrekusoyen_0_1_0.loads.formats.plan.183
	cmpq	%r15, %r11
	ja	.Lrekusoyen_0_1_0.loads.formats.plan.183
	addq	%r14, %r11
	incq	%rbx
	cmpq	%rbx, %r9
	jne	.Lrekusoyen_0_1_0.loads.formats.plan.221
.Lrekusoyen_0_1_0.loads.formats.plan.226:
	cmpq	$63, %rcx
	jbe	.Lrekusoyen_0_1_0.loads.formats.plan.246
	cmpl	$1682788929, 56(%rdx)
	jne	.Lrekusoyen_0_1_0.loads.formats.plan.247
	testb	$1, 24(%rdx)
	jne	.Lrekusoyen_0_1_0.loads.formats.plan.248
	testq	%r13, %r13
	je	.Lrekusoyen_0_1_0.loads.formats.plan.249
	movq	%rax, %r8
	shlq	$43, %r8
	je	.Lrekusoyen_0_1_0.loads.formats.plan.231
	xorps	%xmm0, %xmm0
	movaps	%xmm0, 48(%rsp)
	movq	$0, 64(%rsp)
	movb	$51, %r8b
	jmp	.Lrekusoyen_0_1_0.loads.formats.plan.239
.Lrekusoyen_0_1_0.loads.formats.plan.5:
	cmpq	$6, %rax
	jb	.Lrekusoyen_0_1_0.loads.formats.plan.8
	xorl	%eax, %eax
.Lrekusoyen_0_1_0.loads.formats.plan.7:
	movzbl	29(%rdx), %r8d
	orl	%r8d, %eax
	shll	$8, %eax
.Lrekusoyen_0_1_0.loads.formats.plan.10:
	movzbl	28(%rdx), %r8d
	orl	%r8d, %eax
	shll	$8, %eax
.Lrekusoyen_0_1_0.loads.formats.plan.13:
	movzbl	27(%rdx), %r8d
	orq	%rax, %r8
	shlq	$8, %r8
.Lrekusoyen_0_1_0.loads.formats.plan.16:
	movzbl	26(%rdx), %r10d
	orq	%r8, %r10
	shlq	$8, %r10
.Lrekusoyen_0_1_0.loads.formats.plan.18:
	movzbl	25(%rdx), %eax
	orq	%r10, %rax
	shlq	$8, %rax
	movq	%rax, %r10
.Lrekusoyen_0_1_0.loads.formats.plan.19:
	cmpq	$25, %rcx
	jb	.Lrekusoyen_0_1_0.loads.formats.plan.22
	movzbl	24(%rdx), %eax
	orq	%rax, %r10
.Lrekusoyen_0_1_0.loads.formats.plan.22:
	xorl	%eax, %eax
	movq	%rcx, %r8
	subq	$32, %r8
	cmovaeq	%r8, %rax
	cmpq	$7, %rax
	jne	.Lrekusoyen_0_1_0.loads.formats.plan.24
	movzbl	38(%rdx), %eax
	shll	$8, %eax
	jmp	.Lrekusoyen_0_1_0.loads.formats.plan.26
.Lrekusoyen_0_1_0.loads.formats.plan.24:
	cmpq	$6, %rax
	jb	.Lrekusoyen_0_1_0.loads.formats.plan.27
	xorl	%eax, %eax
.Lrekusoyen_0_1_0.loads.formats.plan.26:
	movzbl	37(%rdx), %r8d
	orl	%r8d, %eax
	shll	$8, %eax
.Lrekusoyen_0_1_0.loads.formats.plan.29:
	movzbl	36(%rdx), %r8d
	orl	%r8d, %eax
	shll	$8, %eax
.Lrekusoyen_0_1_0.loads.formats.plan.32:
	movzbl	35(%rdx), %r8d
	orq	%rax, %r8
	shlq	$8, %r8
.Lrekusoyen_0_1_0.loads.formats.plan.35:
	movzbl	34(%rdx), %ebx
	orq	%r8, %rbx
	shlq	$8, %rbx
.Lrekusoyen_0_1_0.loads.formats.plan.37:
	movzbl	33(%rdx), %eax
	orq	%rbx, %rax
	shlq	$8, %rax
	movq	%rax, %rbx
.Lrekusoyen_0_1_0.loads.formats.plan.38:
	cmpq	$33, %rcx
	jb	.Lrekusoyen_0_1_0.loads.formats.plan.39
	movzbl	32(%rdx), %eax
	orq	%rax, %rbx
.Lrekusoyen_0_1_0.loads.formats.plan.39:
	xorl	%r15d, %r15d
	xorl	%r13d, %r13d
.Lrekusoyen_0_1_0.loads.formats.plan.50:
	movq	(%rsi), %rax
	movb	$31, %r8b
	movq	%rax, 8(%rsp)
	cmpq	%r11, %rax
	jae	.Lrekusoyen_0_1_0.loads.formats.plan.65
	movq	8(%rsi), %rax
	movb	$43, %r8b
	cmpq	$16, %rax
	ja	.Lrekusoyen_0_1_0.loads.formats.plan.65
	movb	%r14b, 96(%rsp)
	movq	%r9, 104(%rsp)
	movq	%rax, (%rsp)
	testq	%rax, %rax
	je	.Lrekusoyen_0_1_0.loads.formats.plan.62
	movq	144(%rsi), %rax
	testq	%rax, %rax
	je	.Lrekusoyen_0_1_0.loads.formats.plan.65
	movl	%ebp, %r14d
	movq	16(%rsi), %r9
	movq	8(%rsp), %r11
	subq	%r9, %r11
	setae	%bpl
	cmpq	%r11, %rax
	setbe	%r11b
	andb	%bpl, %r11b
	cmpb	$1, %r11b
	jne	.Lrekusoyen_0_1_0.loads.formats.plan.65
	cmpq	$1, (%rsp)
	movl	%r14d, %ebp
	je	.Lrekusoyen_0_1_0.loads.formats.plan.62
	addq	%r9, %rax
	movq	(%rsp), %r9
	decq	%r9
	movq	%r9, 40(%rsp)
	xorl	%r11d, %r11d
.Lrekusoyen_0_1_0.loads.formats.plan.57:
	movq	%r12, %r9
	movq	24(%rsi,%r11,8), %r12
	cmpq	%r12, %rax
	jae	.Lrekusoyen_0_1_0.loads.formats.plan.65
	movq	152(%rsi,%r11,8), %rax
	testq	%rax, %rax
	je	.Lrekusoyen_0_1_0.loads.formats.plan.65
	movq	8(%rsp), %rbp
	subq	%r12, %rbp
	jb	.Lrekusoyen_0_1_0.loads.formats.plan.65
	cmpq	%rbp, %rax
	ja	.Lrekusoyen_0_1_0.loads.formats.plan.65
	addq	%r12, %rax
	incq	%r11
	cmpq	%r11, 40(%rsp)
	movq	%r9, %r12
	movl	%r14d, %ebp
	jne	.Lrekusoyen_0_1_0.loads.formats.plan.57
.Lrekusoyen_0_1_0.loads.formats.plan.62:
	movb	$6, %r8b
	cmpq	$64, %rcx
	movq	104(%rsp), %rax
	movzbl	96(%rsp), %r9d
	jb	.Lrekusoyen_0_1_0.loads.formats.plan.65
	cmpb	$127, (%rdx)
	jne	.Lrekusoyen_0_1_0.loads.formats.plan.64
	cmpb	$69, 1(%rdx)
	jne	.Lrekusoyen_0_1_0.loads.formats.plan.64
	cmpb	$76, 2(%rdx)
	jne	.Lrekusoyen_0_1_0.loads.formats.plan.64
	cmpb	$70, 3(%rdx)
	jne	.Lrekusoyen_0_1_0.loads.formats.plan.64
	movb	$1, %r8b
	cmpb	$1, 5(%rdx)
	jne	.Lrekusoyen_0_1_0.loads.formats.plan.65
	movb	$2, %r8b
	cmpl	$56, %r13d
	jne	.Lrekusoyen_0_1_0.loads.formats.plan.65
	movb	$3, %r8b
	cmpq	$64, %rbx
	jb	.Lrekusoyen_0_1_0.loads.formats.plan.65
	cmpb	$1, %r9b
	jne	.Lrekusoyen_0_1_0.loads.formats.plan.74
	movb	$4, %r8b
	cmpq	%r10, %rax
	ja	.Lrekusoyen_0_1_0.loads.formats.plan.65
.Lrekusoyen_0_1_0.loads.formats.plan.74:
	addq	%r12, %r10
	setb	%al
	cmpb	$1, %bpl
	jne	.Lrekusoyen_0_1_0.loads.formats.plan.76
	movb	$5, %r8b
	testb	%al, %al
	jne	.Lrekusoyen_0_1_0.loads.formats.plan.65
.Lrekusoyen_0_1_0.loads.formats.plan.76:
	testq	%r15, %r15
	je	.Lrekusoyen_0_1_0.loads.formats.plan.78
	imulq	$56, %r15, %rax
	movq	%rcx, %r8
	subq	%rbx, %r8
	setae	%r9b
	cmpq	%r8, %rax
	setbe	%al
	andb	%r9b, %al
	movb	$7, %r8b
	cmpb	$1, %al
	jne	.Lrekusoyen_0_1_0.loads.formats.plan.65
.Lrekusoyen_0_1_0.loads.formats.plan.78:
	movq	%rsi, 272(%rsp)
	movq	%rcx, 104(%rsp)
	movq	%rdi, 200(%rsp)
	xorl	%r13d, %r13d
	movb	%bpl, 40(%rsp)
	cmpb	$1, %bpl
	cmovneq	%r13, %r12
	movq	24(%rdx), %rbx
	movq	%r12, 136(%rsp)
	addq	%r12, %rbx
	movq	32(%rdx), %r14
	movq	%rdx, 96(%rsp)
	movzwl	56(%rdx), %r12d
	xorps	%xmm0, %xmm0
	movaps	%xmm0, 144(%rsp)
	movq	$0, 160(%rsp)
	testq	%r12, %r12
	je	.Lrekusoyen_0_1_0.loads.formats.plan.79
	addq	96(%rsp), %r14
	movb	$2, %r15b
	xorl	%r13d, %r13d
	xorl	%r10d, %r10d
	jmp	.Lrekusoyen_0_1_0.loads.formats.plan.81
.Lrekusoyen_0_1_0.loads.formats.plan.27:
	cmpq	$5, %rax
	jne	.Lrekusoyen_0_1_0.loads.formats.plan.30
	xorl	%eax, %eax
	jmp	.Lrekusoyen_0_1_0.loads.formats.plan.29
.Lrekusoyen_0_1_0.loads.formats.plan.136:
	movb	$1, 8(%rsp)
	jmp	.Lrekusoyen_0_1_0.loads.formats.plan.140
.Lrekusoyen_0_1_0.loads.formats.plan.199:
	cmpq	$5, %r8
	jne	.Lrekusoyen_0_1_0.loads.formats.plan.202
	xorl	%r8d, %r8d
	jmp	.Lrekusoyen_0_1_0.loads.formats.plan.201
.Lrekusoyen_0_1_0.loads.formats.plan.42:
	jne	.Lrekusoyen_0_1_0.loads.formats.plan.39
	movzbl	54(%rdx), %r13d
	xorl	%r15d, %r15d
	jmp	.Lrekusoyen_0_1_0.loads.formats.plan.50
.Lrekusoyen_0_1_0.loads.formats.plan.8:
	cmpq	$5, %rax
	jne	.Lrekusoyen_0_1_0.loads.formats.plan.11
	xorl	%eax, %eax
	jmp	.Lrekusoyen_0_1_0.loads.formats.plan.10
.Lrekusoyen_0_1_0.loads.formats.plan.30:
	cmpq	$4, %rax
	jb	.Lrekusoyen_0_1_0.loads.formats.plan.33
	xorl	%eax, %eax
	jmp	.Lrekusoyen_0_1_0.loads.formats.plan.32
.Lrekusoyen_0_1_0.loads.formats.plan.164:
	xorl	%r14d, %r14d
.Lrekusoyen_0_1_0.loads.formats.plan.165:
	movq	%rbx, %r12
	movzbl	40(%rsp), %ebp
.Lrekusoyen_0_1_0.loads.formats.plan.166:
	movb	$31, %r8b
	movabsq	$1099511627777, %rax
	cmpq	%rax, %rcx
	jae	.Lrekusoyen_0_1_0.loads.formats.plan.183
.Lrekusoyen_0_1_0.loads.formats.plan.167:
	movb	$31, %r8b
	cmpq	%rax, %r11
	jae	.Lrekusoyen_0_1_0.loads.formats.plan.183
	movq	8(%rsi), %rax
	movb	$43, %r8b
	cmpq	$16, %rax
	ja	.Lrekusoyen_0_1_0.loads.formats.plan.183
	movb	%bpl, 40(%rsp)
	movq	%r12, 136(%rsp)
	testq	%rax, %rax
	je	.Lrekusoyen_0_1_0.loads.formats.plan.179
	movq	144(%rsi), %r9
	testq	%r9, %r9
	je	.Lrekusoyen_0_1_0.loads.formats.plan.183
	movq	16(%rsi), %r12
	movq	%r11, %rbx
	subq	%r12, %rbx
	setae	%bpl
	cmpq	%rbx, %r9
	setbe	%bl
	andb	%bpl, %bl
	cmpb	$1, %bl
	jne	.Lrekusoyen_0_1_0.loads.formats.plan.183
	cmpq	$1, %rax
	je	.Lrekusoyen_0_1_0.loads.formats.plan.179
	addq	%r12, %r9
	decq	%rax
	xorl	%r12d, %r12d
.Lrekusoyen_0_1_0.loads.formats.plan.174:
	movq	24(%rsi,%r12,8), %rbp
	cmpq	%rbp, %r9
	jae	.Lrekusoyen_0_1_0.loads.formats.plan.183
	movq	152(%rsi,%r12,8), %r9
	testq	%r9, %r9
	je	.Lrekusoyen_0_1_0.loads.formats.plan.183
	movq	%r11, %rbx
	subq	%rbp, %rbx
	jb	.Lrekusoyen_0_1_0.loads.formats.plan.183
	cmpq	%rbx, %r9
	ja	.Lrekusoyen_0_1_0.loads.formats.plan.183
	addq	%rbp, %r9
	incq	%r12
	cmpq	%r12, %rax
	jne	.Lrekusoyen_0_1_0.loads.formats.plan.174
.Lrekusoyen_0_1_0.loads.formats.plan.179:
	cmpl	$1400005704, %r10d
	setne	%al
	movzbl	8(%rsp), %esi
	orb	(%rsp), %sil
	orb	%al, %sil
	movb	$14, %r8b
	testb	$1, %sil
	movq	136(%rsp), %r9
	movzbl	40(%rsp), %r10d
	jne	.Lrekusoyen_0_1_0.loads.formats.plan.183
	movb	$15, %r8b
	cmpq	%rcx, %r15
	ja	.Lrekusoyen_0_1_0.loads.formats.plan.183
	cmpb	$1, 96(%rsp)
	setne	%al
	cmpq	%r13, 104(%rsp)
	setbe	%r8b
	orb	%al, %r8b
	andb	%r8b, %r14b
	cmpb	$1, %r14b
	jne	.Lrekusoyen_0_1_0.loads.formats.plan.182
	cmpq	$535, %rcx
	jbe	.Lrekusoyen_0_1_0.loads.formats.plan.185
	movl	532(%rdx), %ebx
	jmp	.Lrekusoyen_0_1_0.loads.formats.plan.192
.Lrekusoyen_0_1_0.loads.formats.plan.157:
	xorl	%r14d, %r14d
	movb	$31, %r8b
	movabsq	$1099511627777, %rax
	cmpq	%rax, %rcx
	jb	.Lrekusoyen_0_1_0.loads.formats.plan.167
	jmp	.Lrekusoyen_0_1_0.loads.formats.plan.183
.Lrekusoyen_0_1_0.loads.formats.plan.202:
	cmpq	$4, %r8
	jb	.Lrekusoyen_0_1_0.loads.formats.plan.205
	xorl	%r8d, %r8d
	jmp	.Lrekusoyen_0_1_0.loads.formats.plan.204
.Lrekusoyen_0_1_0.loads.formats.plan.45:
	cmpq	$56, %rcx
	jne	.Lrekusoyen_0_1_0.loads.formats.plan.47
	xorl	%r15d, %r15d
	jmp	.Lrekusoyen_0_1_0.loads.formats.plan.50
.Lrekusoyen_0_1_0.loads.formats.plan.11:
	cmpq	$4, %rax
	jb	.Lrekusoyen_0_1_0.loads.formats.plan.14
	xorl	%eax, %eax
	jmp	.Lrekusoyen_0_1_0.loads.formats.plan.13
.Lrekusoyen_0_1_0.loads.formats.plan.64:
	xorl	%r8d, %r8d
.Lrekusoyen_0_1_0.loads.formats.plan.65:
	xorps	%xmm0, %xmm0
	movaps	%xmm0, 208(%rsp)
	movq	$0, 224(%rsp)
	movb	$1, %al
	xorl	%ebx, %ebx
	xorl	%r13d, %r13d
	xorl	%r15d, %r15d
.Lrekusoyen_0_1_0.loads.formats.plan.125:
	movq	224(%rsp), %rcx
	movq	%rcx, 192(%rsp)
	movaps	208(%rsp), %xmm0
	jmp	.Lrekusoyen_0_1_0.loads.formats.plan.241
.Lrekusoyen_0_1_0.loads.formats.plan.246:
	xorps	%xmm0, %xmm0
	movaps	%xmm0, 48(%rsp)
	movq	$0, 64(%rsp)
	movb	$47, %r8b
	jmp	.Lrekusoyen_0_1_0.loads.formats.plan.239
.Lrekusoyen_0_1_0.loads.formats.plan.33:
	cmpq	$3, %rax
	jne	.Lrekusoyen_0_1_0.loads.formats.plan.36
	xorl	%r8d, %r8d
	jmp	.Lrekusoyen_0_1_0.loads.formats.plan.35
.Lrekusoyen_0_1_0.loads.formats.plan.205:
	cmpq	$3, %r8
	jne	.Lrekusoyen_0_1_0.loads.formats.plan.208
	xorl	%r10d, %r10d
	jmp	.Lrekusoyen_0_1_0.loads.formats.plan.207
.Lrekusoyen_0_1_0.loads.formats.plan.47:
	movzbl	56(%rdx), %r15d
	jmp	.Lrekusoyen_0_1_0.loads.formats.plan.50
.Lrekusoyen_0_1_0.loads.formats.plan.14:
	cmpq	$3, %rax
	jne	.Lrekusoyen_0_1_0.loads.formats.plan.17
	xorl	%r8d, %r8d
	jmp	.Lrekusoyen_0_1_0.loads.formats.plan.16
.Lrekusoyen_0_1_0.loads.formats.plan.247:
	xorps	%xmm0, %xmm0
	movaps	%xmm0, 48(%rsp)
	movq	$0, 64(%rsp)
	movb	$48, %r8b
	jmp	.Lrekusoyen_0_1_0.loads.formats.plan.239
.Lrekusoyen_0_1_0.loads.formats.plan.36:
	xorl	%ebx, %ebx
	cmpq	$2, %rax
	jae	.Lrekusoyen_0_1_0.loads.formats.plan.37
	jmp	.Lrekusoyen_0_1_0.loads.formats.plan.38
.Lrekusoyen_0_1_0.loads.formats.plan.208:
	xorl	%r13d, %r13d
	cmpq	$2, %r8
	jae	.Lrekusoyen_0_1_0.loads.formats.plan.209
	jmp	.Lrekusoyen_0_1_0.loads.formats.plan.210
.Lrekusoyen_0_1_0.loads.formats.plan.17:
	xorl	%r10d, %r10d
	cmpq	$2, %rax
	jae	.Lrekusoyen_0_1_0.loads.formats.plan.18
	jmp	.Lrekusoyen_0_1_0.loads.formats.plan.19
.Lrekusoyen_0_1_0.loads.formats.plan.182:
	orb	$16, %r8b
.Lrekusoyen_0_1_0.loads.formats.plan.183:
	xorps	%xmm0, %xmm0
	movaps	%xmm0, 48(%rsp)
	movq	$0, 64(%rsp)
.Lrekusoyen_0_1_0.loads.formats.plan.239:
	movb	$1, %al
	xorl	%ebx, %ebx
	xorl	%r13d, %r13d
	xorl	%r15d, %r15d
.Lrekusoyen_0_1_0.loads.formats.plan.240:
	movq	64(%rsp), %rcx
	movq	%rcx, 192(%rsp)
	movaps	48(%rsp), %xmm0
.Lrekusoyen_0_1_0.loads.formats.plan.241:
	movaps	%xmm0, 176(%rsp)
	movzbl	%r15b, %ecx
	movb	%al, (%rdi)
	movb	%r8b, 1(%rdi)
	movq	%rbx, 8(%rdi)
	movq	%r13, 16(%rdi)
	movq	%rcx, 24(%rdi)
	movaps	176(%rsp), %xmm0
	movups	%xmm0, 32(%rdi)
	movq	192(%rsp), %rax
	movq	%rax, 48(%rdi)
	addq	$280, %rsp
	popq	%rbx
	popq	%r12
	popq	%r13
	popq	%r14
	popq	%r15
	popq	%rbp
	retq
.Lrekusoyen_0_1_0.loads.formats.plan.248:
	xorps	%xmm0, %xmm0
	movaps	%xmm0, 48(%rsp)
	movq	$0, 64(%rsp)
	movb	$49, %r8b
	jmp	.Lrekusoyen_0_1_0.loads.formats.plan.239
.Lrekusoyen_0_1_0.loads.formats.plan.185:
	xorl	%eax, %eax
	movq	%rcx, %rsi
	subq	$532, %rsi
	cmovaeq	%rsi, %rax
	cmpq	$3, %rax
	jne	.Lrekusoyen_0_1_0.loads.formats.plan.187
	movzbl	534(%rdx), %ebx
	shll	$8, %ebx
	jmp	.Lrekusoyen_0_1_0.loads.formats.plan.188
.Lrekusoyen_0_1_0.loads.formats.plan.249:
	xorps	%xmm0, %xmm0
	movaps	%xmm0, 48(%rsp)
	movq	$0, 64(%rsp)
	movb	$50, %r8b
	jmp	.Lrekusoyen_0_1_0.loads.formats.plan.239
.Lrekusoyen_0_1_0.loads.formats.plan.187:
	xorl	%ebx, %ebx
	cmpq	$2, %rax
	jb	.Lrekusoyen_0_1_0.loads.formats.plan.189
.Lrekusoyen_0_1_0.loads.formats.plan.188:
	movzbl	533(%rdx), %eax
	orl	%eax, %ebx
	shll	$8, %ebx
.Lrekusoyen_0_1_0.loads.formats.plan.189:
	cmpq	$533, %rcx
	jb	.Lrekusoyen_0_1_0.loads.formats.plan.192
	movzbl	532(%rdx), %eax
	orq	%rax, %rbx
.Lrekusoyen_0_1_0.loads.formats.plan.192:
	cmpb	$1, %r10b
	cmoveq	%r9, %rbx
	movzbl	497(%rdx), %eax
	testb	%al, %al
	movl	$4, %edx
	cmovnel	%eax, %edx
	movzbl	%dl, %edx
	shll	$9, %edx
	addq	$512, %rdx
	xorl	%eax, %eax
	subq	%rdx, %rcx
	movl	$0, %r13d
	cmovaeq	%rcx, %r13
	addq	%rbx, %r13
	xorps	%xmm0, %xmm0
	movaps	%xmm0, 48(%rsp)
	movq	$0, 64(%rsp)
	movb	$2, %r15b
	xorl	%r8d, %r8d
	jmp	.Lrekusoyen_0_1_0.loads.formats.plan.240
.Lrekusoyen_0_1_0.loads.formats.plan.231:
	movq	%rsi, %r14
	movq	%rdi, %r12
	movq	%rdx, %rdi
	movq	%rcx, %r15
	movq	%rcx, %rsi
	movq	%rax, %rdx
	callq	rekusoyen_0_1_0.arm64.plan.start
	cmpb	$1, %al
	jne	.Lrekusoyen_0_1_0.loads.formats.plan.235
	movq	%rdx, %rbx
	movq	%r14, %rdi
	movq	%rdx, %rsi
	movq	%r15, %rdx
	callq	rekusoyen_0_1_0.guest.room.has_room
	testb	%al, %al
	je	.Lrekusoyen_0_1_0.loads.formats.plan.237
	addq	%rbx, %r13
	movq	%r12, %rdi
	xorps	%xmm0, %xmm0
	jae	.Lrekusoyen_0_1_0.loads.formats.plan.234
	movaps	%xmm0, 48(%rsp)
	movq	$0, 64(%rsp)
	movb	$54, %r8b
	jmp	.Lrekusoyen_0_1_0.loads.formats.plan.239
.Lrekusoyen_0_1_0.loads.formats.plan.235:
	xorps	%xmm0, %xmm0
	movaps	%xmm0, 48(%rsp)
	movq	$0, 64(%rsp)
	movb	$52, %r8b
	jmp	.Lrekusoyen_0_1_0.loads.formats.plan.236
.Lrekusoyen_0_1_0.loads.formats.plan.237:
	xorps	%xmm0, %xmm0
	movaps	%xmm0, 48(%rsp)
	movq	$0, 64(%rsp)
	movb	$53, %r8b
.Lrekusoyen_0_1_0.loads.formats.plan.236:
	movb	$1, %al
	xorl	%ebx, %ebx
	xorl	%r13d, %r13d
	xorl	%r15d, %r15d
	movq	%r12, %rdi
	jmp	.Lrekusoyen_0_1_0.loads.formats.plan.240
.Lrekusoyen_0_1_0.loads.formats.plan.234:
	movaps	%xmm0, 48(%rsp)
	movq	$0, 64(%rsp)
	movb	$2, %r15b
	xorl	%eax, %eax
	xorl	%r8d, %r8d
	jmp	.Lrekusoyen_0_1_0.loads.formats.plan.240
.Lrekusoyen_0_1_0.loads.formats.plan.244:
	xorps	%xmm0, %xmm0
	movaps	%xmm0, 240(%rsp)
	movq	$0, 256(%rsp)
.Lrekusoyen_0_1_0.loads.formats.plan.116:
	movq	160(%rsp), %rax
	movq	%rax, 32(%rsp)
	movaps	144(%rsp), %xmm0
.Lrekusoyen_0_1_0.loads.formats.plan.122:
	movaps	%xmm0, 16(%rsp)
	movq	32(%rsp), %rax
	movq	%rax, 160(%rsp)
	movaps	16(%rsp), %xmm0
	movaps	%xmm0, 144(%rsp)
	incq	%r10
	cmpq	%r12, %r10
	je	.Lrekusoyen_0_1_0.loads.formats.plan.123
.Lrekusoyen_0_1_0.loads.formats.plan.81:
	imulq	$56, %r10, %rax
	movl	(%r14,%rax), %edx
	movq	8(%r14,%rax), %rcx
	movq	32(%r14,%rax), %r8
	cmpl	$4, %edx
	je	.Lrekusoyen_0_1_0.loads.formats.plan.106
	cmpl	$1, %edx
	jne	.Lrekusoyen_0_1_0.loads.formats.plan.244
	movq	24(%r14,%rax), %rsi
	movq	40(%r14,%rax), %rax
	testq	%r8, %r8
	je	.Lrekusoyen_0_1_0.loads.formats.plan.84
	cmpq	%rax, %r8
	jbe	.Lrekusoyen_0_1_0.loads.formats.plan.90
	xorps	%xmm0, %xmm0
	movaps	%xmm0, 16(%rsp)
	movq	$0, 32(%rsp)
	movb	$13, %r8b
	jmp	.Lrekusoyen_0_1_0.loads.formats.plan.103
.Lrekusoyen_0_1_0.loads.formats.plan.106:
	movq	%r10, %rbp
	xorps	%xmm0, %xmm0
	movaps	%xmm0, 80(%rsp)
	movaps	%xmm0, 64(%rsp)
	movaps	%xmm0, 48(%rsp)
	cmpb	$1, 40(%rsp)
	jne	.Lrekusoyen_0_1_0.loads.formats.plan.109
	movaps	%xmm0, 112(%rsp)
	movq	$0, 128(%rsp)
	movl	$2, %eax
	jmp	.Lrekusoyen_0_1_0.loads.formats.plan.108
.Lrekusoyen_0_1_0.loads.formats.plan.109:
	leaq	48(%rsp), %rdi
	movq	96(%rsp), %rsi
	movq	104(%rsp), %rdx
	callq	rekusoyen_0_1_0.elf.notes.walk_notes
	cmpb	$0, 48(%rsp)
	je	.Lrekusoyen_0_1_0.loads.formats.plan.110
	movzbl	49(%rsp), %r8d
	xorps	%xmm0, %xmm0
	movaps	%xmm0, 112(%rsp)
	movq	$0, 128(%rsp)
	movb	$1, %cl
	xorl	%edx, %edx
	xorl	%eax, %eax
	jmp	.Lrekusoyen_0_1_0.loads.formats.plan.112
.Lrekusoyen_0_1_0.loads.formats.plan.84:
	testq	%rax, %rax
	je	.Lrekusoyen_0_1_0.loads.formats.plan.85
	addq	136(%rsp), %rsi
	jb	.Lrekusoyen_0_1_0.loads.formats.plan.243
	xorps	%xmm0, %xmm0
	addq	%rsi, %rax
	jae	.Lrekusoyen_0_1_0.loads.formats.plan.88
.Lrekusoyen_0_1_0.loads.formats.plan.102:
	movaps	%xmm0, 16(%rsp)
	movq	$0, 32(%rsp)
	movb	$12, %r8b
	jmp	.Lrekusoyen_0_1_0.loads.formats.plan.103
.Lrekusoyen_0_1_0.loads.formats.plan.90:
	xorl	%edx, %edx
	addq	136(%rsp), %rsi
	cmovaeq	%rsi, %rdx
	jae	.Lrekusoyen_0_1_0.loads.formats.plan.91
.Lrekusoyen_0_1_0.loads.formats.plan.243:
	xorps	%xmm0, %xmm0
	movaps	%xmm0, 16(%rsp)
	movq	$0, 32(%rsp)
	movb	$8, %r8b
	jmp	.Lrekusoyen_0_1_0.loads.formats.plan.103
.Lrekusoyen_0_1_0.loads.formats.plan.110:
	movzbl	56(%rsp), %eax
	leaq	64(%rsp), %rcx
	movups	(%rcx), %xmm0
	movaps	%xmm0, 112(%rsp)
	movq	16(%rcx), %rcx
	movq	%rcx, 128(%rsp)
.Lrekusoyen_0_1_0.loads.formats.plan.108:
	movb	$2, %dl
	xorl	%ecx, %ecx
	xorl	%r8d, %r8d
.Lrekusoyen_0_1_0.loads.formats.plan.112:
	movaps	112(%rsp), %xmm0
	movaps	%xmm0, 240(%rsp)
	movq	128(%rsp), %rsi
	movq	%rsi, 256(%rsp)
	movq	%rbp, %r10
	jmp	.Lrekusoyen_0_1_0.loads.formats.plan.113
.Lrekusoyen_0_1_0.loads.formats.plan.91:
	movq	104(%rsp), %rdi
	subq	%rcx, %rdi
	setae	%cl
	cmpq	%rdi, %r8
	setbe	%dil
	testb	%dil, %cl
	je	.Lrekusoyen_0_1_0.loads.formats.plan.100
	movq	8(%rsp), %rdi
	subq	%rsi, %rdi
	setb	%sil
	cmpq	$0, (%rsp)
	movq	272(%rsp), %rcx
	je	.Lrekusoyen_0_1_0.loads.formats.plan.100
	testb	%sil, %sil
	jne	.Lrekusoyen_0_1_0.loads.formats.plan.100
	cmpq	%rdi, %r8
	ja	.Lrekusoyen_0_1_0.loads.formats.plan.100
	xorl	%esi, %esi
	jmp	.Lrekusoyen_0_1_0.loads.formats.plan.96
.Lrekusoyen_0_1_0.loads.formats.plan.99:
	incq	%rsi
	cmpq	%rsi, (%rsp)
	je	.Lrekusoyen_0_1_0.loads.formats.plan.100
.Lrekusoyen_0_1_0.loads.formats.plan.96:
	movq	%rdx, %rdi
	subq	16(%rcx,%rsi,8), %rdi
	jb	.Lrekusoyen_0_1_0.loads.formats.plan.99
	movq	144(%rcx,%rsi,8), %r9
	subq	%rdi, %r9
	jb	.Lrekusoyen_0_1_0.loads.formats.plan.99
	cmpq	%r9, %r8
	ja	.Lrekusoyen_0_1_0.loads.formats.plan.99
	xorps	%xmm0, %xmm0
	addq	%rdx, %rax
	jb	.Lrekusoyen_0_1_0.loads.formats.plan.102
.Lrekusoyen_0_1_0.loads.formats.plan.88:
	movaps	%xmm0, 16(%rsp)
	movq	$0, 32(%rsp)
	movb	$1, %dl
	xorl	%ecx, %ecx
	xorl	%r8d, %r8d
	jmp	.Lrekusoyen_0_1_0.loads.formats.plan.104
.Lrekusoyen_0_1_0.loads.formats.plan.100:
	xorps	%xmm0, %xmm0
	movaps	%xmm0, 16(%rsp)
	movq	$0, 32(%rsp)
	movb	$9, %r8b
.Lrekusoyen_0_1_0.loads.formats.plan.103:
	movb	$1, %cl
	xorl	%edx, %edx
	xorl	%eax, %eax
.Lrekusoyen_0_1_0.loads.formats.plan.104:
	movq	32(%rsp), %rsi
	movq	%rsi, 128(%rsp)
	movaps	16(%rsp), %xmm0
	movaps	%xmm0, 112(%rsp)
.Lrekusoyen_0_1_0.loads.formats.plan.105:
	movq	128(%rsp), %rsi
	movq	%rsi, 256(%rsp)
	movaps	112(%rsp), %xmm0
	movaps	%xmm0, 240(%rsp)
.Lrekusoyen_0_1_0.loads.formats.plan.113:
	testb	%cl, %cl
	jne	.Lrekusoyen_0_1_0.loads.formats.plan.245
	cmpb	$2, %dl
	je	.Lrekusoyen_0_1_0.loads.formats.plan.118
	movzbl	%dl, %ecx
	cmpl	$1, %ecx
	jne	.Lrekusoyen_0_1_0.loads.formats.plan.116
	cmpq	%r13, %rax
	cmovaq	%rax, %r13
	jmp	.Lrekusoyen_0_1_0.loads.formats.plan.116
.Lrekusoyen_0_1_0.loads.formats.plan.118:
	testb	%r15b, %r15b
	je	.Lrekusoyen_0_1_0.loads.formats.plan.119
	movq	256(%rsp), %rcx
	movq	%rcx, 64(%rsp)
	movaps	240(%rsp), %xmm0
	movaps	%xmm0, 48(%rsp)
	movl	%eax, %r15d
	jmp	.Lrekusoyen_0_1_0.loads.formats.plan.121
.Lrekusoyen_0_1_0.loads.formats.plan.119:
	movq	160(%rsp), %rax
	movq	%rax, 64(%rsp)
	movaps	144(%rsp), %xmm0
	movaps	%xmm0, 48(%rsp)
	xorl	%r15d, %r15d
.Lrekusoyen_0_1_0.loads.formats.plan.121:
	movq	64(%rsp), %rax
	movq	%rax, 32(%rsp)
	movaps	48(%rsp), %xmm0
	jmp	.Lrekusoyen_0_1_0.loads.formats.plan.122
.Lrekusoyen_0_1_0.loads.formats.plan.85:
	xorps	%xmm0, %xmm0
	movaps	%xmm0, 112(%rsp)
	movq	$0, 128(%rsp)
	xorl	%ecx, %ecx
	xorl	%r8d, %r8d
	xorl	%edx, %edx
	xorl	%eax, %eax
	jmp	.Lrekusoyen_0_1_0.loads.formats.plan.105
.Lrekusoyen_0_1_0.loads.formats.plan.79:
	movb	$2, %r15b
.Lrekusoyen_0_1_0.loads.formats.plan.123:
	movq	160(%rsp), %rax
	movq	%rax, 224(%rsp)
	movaps	144(%rsp), %xmm0
	movaps	%xmm0, 208(%rsp)
	xorl	%eax, %eax
	xorl	%r8d, %r8d
	jmp	.Lrekusoyen_0_1_0.loads.formats.plan.124
.Lrekusoyen_0_1_0.loads.formats.plan.245:
	xorps	%xmm0, %xmm0
	movaps	%xmm0, 208(%rsp)
	movq	$0, 224(%rsp)
	movb	$1, %al
	xorl	%ebx, %ebx
	xorl	%r13d, %r13d
	xorl	%r15d, %r15d
.Lrekusoyen_0_1_0.loads.formats.plan.124:
	movq	200(%rsp), %rdi
	jmp	.Lrekusoyen_0_1_0.loads.formats.plan.125
.Lrekusoyen_0_1_0.loads.formats.plan.func_end:
	.size	rekusoyen_0_1_0.loads.formats.plan, .Lrekusoyen_0_1_0.loads.formats.plan.func_end-rekusoyen_0_1_0.loads.formats.plan
	.section	.text.rekusoyen_0_1_0.elf.notes.walk_notes,"ax",@progbits
	.p2align	4
	.type	rekusoyen_0_1_0.elf.notes.walk_notes,@function
rekusoyen_0_1_0.elf.notes.walk_notes:
	pushq	%rbp
	pushq	%r15
	pushq	%r14
	pushq	%r12
	pushq	%rbx
	testq	%r8, %r8
	je	.Lrekusoyen_0_1_0.elf.notes.walk_notes.1
	movq	%rdx, %r9
	subq	%rcx, %r9
	jae	.Lrekusoyen_0_1_0.elf.notes.walk_notes.3
.Lrekusoyen_0_1_0.elf.notes.walk_notes.20:
	movw	$2561, (%rdi)
	jmp	.Lrekusoyen_0_1_0.elf.notes.walk_notes.21
.Lrekusoyen_0_1_0.elf.notes.walk_notes.1:
	xorl	%eax, %eax
.Lrekusoyen_0_1_0.elf.notes.walk_notes.27:
	movw	$0, (%rdi)
	movq	$1, 8(%rdi)
	xorps	%xmm0, %xmm0
	movups	%xmm0, 16(%rdi)
	movq	$0, 32(%rdi)
.Lrekusoyen_0_1_0.elf.notes.walk_notes.23:
	movq	%rax, 40(%rdi)
	jmp	.Lrekusoyen_0_1_0.elf.notes.walk_notes.24
.Lrekusoyen_0_1_0.elf.notes.walk_notes.3:
	xorl	%eax, %eax
	xorl	%r10d, %r10d
	jmp	.Lrekusoyen_0_1_0.elf.notes.walk_notes.4
	.p2align	4
.Lrekusoyen_0_1_0.elf.notes.walk_notes.26:
	addq	%r11, %r10
	incq	%rax
	cmpq	%r8, %r10
	jae	.Lrekusoyen_0_1_0.elf.notes.walk_notes.27
.Lrekusoyen_0_1_0.elf.notes.walk_notes.4:
	leaq	12(%r10), %r11
	cmpq	%r9, %r11
	ja	.Lrekusoyen_0_1_0.elf.notes.walk_notes.20
	leaq	(%r10,%rcx), %r14
	movl	(%rsi,%r14), %ebp
	movl	4(%rsi,%r14), %r11d
	movl	%ebp, %ebx
	movl	8(%rsi,%r14), %r15d
	xorl	$18, %r15d
	xorl	$4, %ebp
	orl	%r15d, %ebp
	jne	.Lrekusoyen_0_1_0.elf.notes.walk_notes.6
	leaq	(%r10,%rcx), %r15
	addq	$12, %r15
	movq	%rdx, %r12
	movb	$10, %bpl
	subq	%r15, %r12
	jb	.Lrekusoyen_0_1_0.elf.notes.walk_notes.19
	cmpq	$4, %r12
	jb	.Lrekusoyen_0_1_0.elf.notes.walk_notes.19
	cmpb	$88, (%rsi,%r15)
	jne	.Lrekusoyen_0_1_0.elf.notes.walk_notes.15
	cmpb	$101, 1(%rsi,%r15)
	jne	.Lrekusoyen_0_1_0.elf.notes.walk_notes.15
	cmpb	$110, 2(%rsi,%r15)
	jne	.Lrekusoyen_0_1_0.elf.notes.walk_notes.15
	cmpb	$0, 3(%rsi,%r15)
	je	.Lrekusoyen_0_1_0.elf.notes.walk_notes.17
	.p2align	4
.Lrekusoyen_0_1_0.elf.notes.walk_notes.15:
	cmpl	$-4, %r11d
	ja	.Lrekusoyen_0_1_0.elf.notes.walk_notes.16
	movl	%r11d, %r14d
	andl	$-4, %r14d
	addq	$4, %r14
	testb	$3, %r11b
	cmoveq	%r11, %r14
	leaq	(%rbx,%r14), %r11
	addq	$12, %r11
	jmp	.Lrekusoyen_0_1_0.elf.notes.walk_notes.26
	.p2align	4
.Lrekusoyen_0_1_0.elf.notes.walk_notes.6:
	movb	$5, %bpl
	cmpl	$-4, %ebx
	ja	.Lrekusoyen_0_1_0.elf.notes.walk_notes.19
	cmpl	$-4, %r11d
	ja	.Lrekusoyen_0_1_0.elf.notes.walk_notes.19
	movl	%ebx, %r14d
	andl	$-4, %r14d
	addq	$4, %r14
	testb	$3, %bl
	cmoveq	%rbx, %r14
	movl	%r11d, %ebx
	andl	$-4, %ebx
	addq	$4, %rbx
	testb	$3, %r11b
	cmoveq	%r11, %rbx
	leaq	(%r14,%rbx), %r11
	addq	$12, %r11
	jmp	.Lrekusoyen_0_1_0.elf.notes.walk_notes.26
.Lrekusoyen_0_1_0.elf.notes.walk_notes.16:
	movb	$5, %bpl
.Lrekusoyen_0_1_0.elf.notes.walk_notes.19:
	movb	$1, (%rdi)
	movb	%bpl, 1(%rdi)
.Lrekusoyen_0_1_0.elf.notes.walk_notes.21:
	xorps	%xmm0, %xmm0
	movups	%xmm0, 8(%rdi)
	movups	%xmm0, 24(%rdi)
	movq	$0, 40(%rdi)
.Lrekusoyen_0_1_0.elf.notes.walk_notes.24:
	popq	%rbx
	popq	%r12
	popq	%r14
	popq	%r15
	popq	%rbp
	retq
.Lrekusoyen_0_1_0.elf.notes.walk_notes.17:
	movb	$11, %bpl
	cmpl	$4, %r11d
	jb	.Lrekusoyen_0_1_0.elf.notes.walk_notes.19
	addq	$16, %r14
	subq	%r14, %rdx
	setae	%cl
	cmpq	$4, %rdx
	setae	%dl
	movb	$10, %bpl
	testb	%dl, %cl
	je	.Lrekusoyen_0_1_0.elf.notes.walk_notes.19
	incq	%rax
	movl	(%rsi,%r14), %ecx
	movw	$0, (%rdi)
	movq	$0, 8(%rdi)
	movq	%rcx, 16(%rdi)
	movq	%r14, 24(%rdi)
	movq	%r11, 32(%rdi)
	jmp	.Lrekusoyen_0_1_0.elf.notes.walk_notes.23
.Lrekusoyen_0_1_0.elf.notes.walk_notes.func_end:
	.size	rekusoyen_0_1_0.elf.notes.walk_notes, .Lrekusoyen_0_1_0.elf.notes.walk_notes.func_end-rekusoyen_0_1_0.elf.notes.walk_notes
	.section	.text.rekusoyen_0_1_0.arm64.plan.start,"ax",@progbits
	.p2align	4
	.type	rekusoyen_0_1_0.arm64.plan.start,@function
rekusoyen_0_1_0.arm64.plan.start:
	cmpq	$15, %rsi
	jbe	.Lrekusoyen_0_1_0.arm64.plan.start.1
	movq	8(%rdi), %rax
	jmp	.Lrekusoyen_0_1_0.arm64.plan.start.20
.Lrekusoyen_0_1_0.arm64.plan.start.1:
	xorl	%ecx, %ecx
	movq	%rsi, %rax
	subq	$8, %rax
	cmovaeq	%rax, %rcx
	cmpq	$7, %rcx
	jne	.Lrekusoyen_0_1_0.arm64.plan.start.3
	movzbl	14(%rdi), %eax
	shll	$8, %eax
	jmp	.Lrekusoyen_0_1_0.arm64.plan.start.5
.Lrekusoyen_0_1_0.arm64.plan.start.3:
	cmpq	$6, %rcx
	jb	.Lrekusoyen_0_1_0.arm64.plan.start.6
	xorl	%eax, %eax
.Lrekusoyen_0_1_0.arm64.plan.start.5:
	movzbl	13(%rdi), %ecx
	orl	%ecx, %eax
	shll	$8, %eax
.Lrekusoyen_0_1_0.arm64.plan.start.8:
	movzbl	12(%rdi), %ecx
	orl	%ecx, %eax
	shll	$8, %eax
.Lrekusoyen_0_1_0.arm64.plan.start.11:
	movzbl	11(%rdi), %ecx
	orq	%rax, %rcx
	shlq	$8, %rcx
.Lrekusoyen_0_1_0.arm64.plan.start.14:
	movzbl	10(%rdi), %eax
	orq	%rcx, %rax
	shlq	$8, %rax
.Lrekusoyen_0_1_0.arm64.plan.start.16:
	movzbl	9(%rdi), %ecx
	orq	%rax, %rcx
	shlq	$8, %rcx
	movq	%rcx, %rax
.Lrekusoyen_0_1_0.arm64.plan.start.17:
	cmpq	$9, %rsi
	jb	.Lrekusoyen_0_1_0.arm64.plan.start.20
	movzbl	8(%rdi), %ecx
	orq	%rcx, %rax
.Lrekusoyen_0_1_0.arm64.plan.start.20:
	movq	%rax, %rsi
	notq	%rsi
	addq	%rdx, %rax
	xorl	%ecx, %ecx
	cmpq	%rsi, %rdx
	cmovbeq	%rax, %rcx
	setbe	%al
	movq	%rcx, %rdx
	retq
.Lrekusoyen_0_1_0.arm64.plan.start.6:
	cmpq	$5, %rcx
	jne	.Lrekusoyen_0_1_0.arm64.plan.start.9
	xorl	%eax, %eax
	jmp	.Lrekusoyen_0_1_0.arm64.plan.start.8
.Lrekusoyen_0_1_0.arm64.plan.start.9:
	cmpq	$4, %rcx
	jb	.Lrekusoyen_0_1_0.arm64.plan.start.12
	xorl	%eax, %eax
	jmp	.Lrekusoyen_0_1_0.arm64.plan.start.11
.Lrekusoyen_0_1_0.arm64.plan.start.12:
	cmpq	$3, %rcx
	jne	.Lrekusoyen_0_1_0.arm64.plan.start.15
	xorl	%ecx, %ecx
	jmp	.Lrekusoyen_0_1_0.arm64.plan.start.14
.Lrekusoyen_0_1_0.arm64.plan.start.15:
	xorl	%eax, %eax
	cmpq	$2, %rcx
	jae	.Lrekusoyen_0_1_0.arm64.plan.start.16
	jmp	.Lrekusoyen_0_1_0.arm64.plan.start.17
.Lrekusoyen_0_1_0.arm64.plan.start.func_end:
	.size	rekusoyen_0_1_0.arm64.plan.start, .Lrekusoyen_0_1_0.arm64.plan.start.func_end-rekusoyen_0_1_0.arm64.plan.start
	.section	.text.rekusoyen_0_1_0.loads.copying.copy_all,"ax",@progbits
	.p2align	4
	.type	rekusoyen_0_1_0.loads.copying.copy_all,@function
rekusoyen_0_1_0.loads.copying.copy_all:
	pushq	%rbp
	pushq	%r15
	pushq	%r14
	pushq	%r13
	pushq	%r12
	pushq	%rbx
	subq	$136, %rsp
	movq	%rcx, %r10
	movq	%rdi, 16(%rsp)
	movzbl	(%r8), %eax
	movzbl	8(%r8), %r9d
	movq	16(%r8), %rcx
	xorl	%edi, %edi
	cmpb	$1, %r9b
	cmoveq	%rcx, %rdi
	movq	%rdi, 64(%rsp)
	cmpl	$2, %eax
	movq	%rdx, 8(%rsp)
	je	.Lrekusoyen_0_1_0.loads.copying.copy_all.18
	cmpl	$1, %eax
	jne	.Lrekusoyen_0_1_0.loads.copying.copy_all.2
	cmpq	$535, %r10
	jbe	.Lrekusoyen_0_1_0.loads.copying.copy_all.7
	movl	532(%rdx), %eax
	jmp	.Lrekusoyen_0_1_0.loads.copying.copy_all.14
.Lrekusoyen_0_1_0.loads.copying.copy_all.18:
	cmpq	$15, %r10
	jbe	.Lrekusoyen_0_1_0.loads.copying.copy_all.19
	movq	8(%rdx), %rax
	jmp	.Lrekusoyen_0_1_0.loads.copying.copy_all.38
.Lrekusoyen_0_1_0.loads.copying.copy_all.2:
	cmpq	$39, %r10
	jbe	.Lrekusoyen_0_1_0.loads.copying.copy_all.86
	movq	8(%rsp), %rax
	movq	32(%rax), %rcx
	movq	%rcx, 56(%rsp)
	cmpq	$57, %r10
	jbe	.Lrekusoyen_0_1_0.loads.copying.copy_all.4
	movzwl	56(%rax), %edx
	testq	%rdx, %rdx
	jne	.Lrekusoyen_0_1_0.loads.copying.copy_all.48
	jmp	.Lrekusoyen_0_1_0.loads.copying.copy_all.86
.Lrekusoyen_0_1_0.loads.copying.copy_all.7:
	xorl	%edi, %edi
	movq	%r10, %rax
	subq	$532, %rax
	cmovaeq	%rax, %rdi
	cmpq	$3, %rdi
	jne	.Lrekusoyen_0_1_0.loads.copying.copy_all.9
	movzbl	534(%rdx), %eax
	shll	$8, %eax
	jmp	.Lrekusoyen_0_1_0.loads.copying.copy_all.10
.Lrekusoyen_0_1_0.loads.copying.copy_all.19:
	xorl	%ecx, %ecx
	movq	%r10, %rax
	subq	$8, %rax
	cmovaeq	%rax, %rcx
	cmpq	$7, %rcx
	jne	.Lrekusoyen_0_1_0.loads.copying.copy_all.21
	movzbl	14(%rdx), %eax
	shll	$8, %eax
	jmp	.Lrekusoyen_0_1_0.loads.copying.copy_all.23
.Lrekusoyen_0_1_0.loads.copying.copy_all.9:
	xorl	%eax, %eax
	cmpq	$2, %rdi
	jb	.Lrekusoyen_0_1_0.loads.copying.copy_all.11
.Lrekusoyen_0_1_0.loads.copying.copy_all.10:
	movzbl	533(%rdx), %edi
	orl	%edi, %eax
	shll	$8, %eax
.Lrekusoyen_0_1_0.loads.copying.copy_all.11:
	cmpq	$533, %r10
	jb	.Lrekusoyen_0_1_0.loads.copying.copy_all.15
	movzbl	532(%rdx), %edi
	orq	%rdi, %rax
.Lrekusoyen_0_1_0.loads.copying.copy_all.14:
	cmpb	$1, %r9b
	cmoveq	%rcx, %rax
.Lrekusoyen_0_1_0.loads.copying.copy_all.16:
	movzbl	497(%rdx), %edi
	movl	%edi, %edx
	shll	$9, %edx
	addq	$512, %rdx
	testl	%edi, %edi
	movl	$2560, %ecx
	cmovneq	%rdx, %rcx
	movl	$4, %r9d
	cmovnel	%edi, %r9d
	shll	$9, %r9d
	addq	$512, %r9
	cmpq	%rcx, %r10
	cmovbq	%r10, %rcx
.Lrekusoyen_0_1_0.loads.copying.copy_all.17:
	xorl	%r8d, %r8d
	movq	%r10, %rdi
	subq	%r9, %rdi
	cmovaeq	%rdi, %r8
	jmp	.Lrekusoyen_0_1_0.loads.copying.copy_all.39
.Lrekusoyen_0_1_0.loads.copying.copy_all.15:
	cmpb	$1, %r9b
	cmoveq	%rcx, %rax
	movl	$2560, %r9d
	movq	%r10, %rcx
	cmpq	$498, %r10
	jae	.Lrekusoyen_0_1_0.loads.copying.copy_all.16
	jmp	.Lrekusoyen_0_1_0.loads.copying.copy_all.17
.Lrekusoyen_0_1_0.loads.copying.copy_all.21:
	cmpq	$6, %rcx
	jb	.Lrekusoyen_0_1_0.loads.copying.copy_all.24
	xorl	%eax, %eax
.Lrekusoyen_0_1_0.loads.copying.copy_all.23:
	movzbl	13(%rdx), %ecx
	orl	%ecx, %eax
	shll	$8, %eax
.Lrekusoyen_0_1_0.loads.copying.copy_all.26:
	movzbl	12(%rdx), %ecx
	orl	%ecx, %eax
	shll	$8, %eax
.Lrekusoyen_0_1_0.loads.copying.copy_all.29:
	movzbl	11(%rdx), %ecx
	orq	%rax, %rcx
	shlq	$8, %rcx
.Lrekusoyen_0_1_0.loads.copying.copy_all.32:
	movzbl	10(%rdx), %eax
	orq	%rcx, %rax
	shlq	$8, %rax
.Lrekusoyen_0_1_0.loads.copying.copy_all.34:
	movzbl	9(%rdx), %ecx
	orq	%rax, %rcx
	shlq	$8, %rcx
	movq	%rcx, %rax
.Lrekusoyen_0_1_0.loads.copying.copy_all.35:
	cmpq	$9, %r10
	jb	.Lrekusoyen_0_1_0.loads.copying.copy_all.38
	movzbl	8(%rdx), %ecx
	orq	%rcx, %rax
.Lrekusoyen_0_1_0.loads.copying.copy_all.38:
	xorl	%ecx, %ecx
	addq	64(%rsp), %rax
	cmovbq	%rcx, %rax
	movq	%r10, %r8
	cmovbq	%rcx, %r8
.Lrekusoyen_0_1_0.loads.copying.copy_all.39:
	cmpq	%rax, %rsi
	cmovbq	%rsi, %rax
	subq	%rcx, %r10
	cmpq	%r8, %r10
	cmovaeq	%r8, %r10
	subq	%rax, %rsi
	cmpq	%r10, %rsi
	cmovaeq	%r10, %rsi
	testq	%rsi, %rsi
	je	.Lrekusoyen_0_1_0.loads.copying.copy_all.86
	movq	16(%rsp), %rdi
	leaq	(%rdi,%rax), %rbx
	movq	8(%rsp), %rdx
	leaq	(%rdx,%rcx), %r15
	movq	%rbx, %r12
	subq	%r15, %r12
	leaq	(%rcx,%rdx), %r8
	addq	$16, %r8
	movq	%r8, 32(%rsp)
	leaq	16(%rax,%rdi), %r8
	movq	%r8, 24(%rsp)
	leaq	3(%rcx,%rdx), %rcx
	movq	%rcx, 48(%rsp)
	addq	%rdi, %rax
	addq	$3, %rax
	movq	%rax, 40(%rsp)
	xorl	%r13d, %r13d
	jmp	.Lrekusoyen_0_1_0.loads.copying.copy_all.41
	.p2align	4
.Lrekusoyen_0_1_0.loads.copying.copy_all.88:
	movq	%r14, %rdx
	callq	memmove@PLT
.Lrekusoyen_0_1_0.loads.copying.copy_all.85:
	addq	%r14, %r13
	movq	%rbp, %rsi
	cmpq	%rbp, %r13
	jae	.Lrekusoyen_0_1_0.loads.copying.copy_all.86
.Lrekusoyen_0_1_0.loads.copying.copy_all.41:
	movq	%rsi, %rbp
	movq	%rsi, %rcx
	subq	%r13, %rcx
	cmpq	$2048, %rcx
	movl	$2048, %r14d
	cmovbq	%rcx, %r14
	leaq	(%rbx,%r13), %rdi
	leaq	(%r15,%r13), %rsi
	movq	%rdi, %rax
	subq	%rsi, %rax
	cmpq	%r14, %rax
	jae	.Lrekusoyen_0_1_0.loads.copying.copy_all.88
	xorl	%eax, %eax
	cmpq	$4, %rcx
	jb	.Lrekusoyen_0_1_0.loads.copying.copy_all.79
	cmpq	$32, %r12
	jb	.Lrekusoyen_0_1_0.loads.copying.copy_all.79
	cmpq	$32, %rcx
	jae	.Lrekusoyen_0_1_0.loads.copying.copy_all.72
	xorl	%eax, %eax
	jmp	.Lrekusoyen_0_1_0.loads.copying.copy_all.76
.Lrekusoyen_0_1_0.loads.copying.copy_all.72:
	movl	%r14d, %eax
	andl	$4064, %eax
	movq	32(%rsp), %rcx
	addq	%r13, %rcx
	movq	24(%rsp), %rdx
	addq	%r13, %rdx
	xorl	%r8d, %r8d
	.p2align	4
.Lrekusoyen_0_1_0.loads.copying.copy_all.73:
	movups	-16(%rcx,%r8), %xmm0
	movups	(%rcx,%r8), %xmm1
	movups	%xmm0, -16(%rdx,%r8)
	movups	%xmm1, (%rdx,%r8)
	addq	$32, %r8
	cmpq	%r8, %rax
	jne	.Lrekusoyen_0_1_0.loads.copying.copy_all.73
	cmpq	%rax, %r14
	je	.Lrekusoyen_0_1_0.loads.copying.copy_all.85
	testb	$28, %r14b
	je	.Lrekusoyen_0_1_0.loads.copying.copy_all.79
.Lrekusoyen_0_1_0.loads.copying.copy_all.76:
	movq	%rax, %rcx
	movl	%r14d, %eax
	andl	$4092, %eax
	.p2align	4
.Lrekusoyen_0_1_0.loads.copying.copy_all.77:
	movl	(%rsi,%rcx), %edx
	movl	%edx, (%rdi,%rcx)
	addq	$4, %rcx
	cmpq	%rcx, %rax
	jne	.Lrekusoyen_0_1_0.loads.copying.copy_all.77
	cmpq	%rax, %r14
	je	.Lrekusoyen_0_1_0.loads.copying.copy_all.85
.Lrekusoyen_0_1_0.loads.copying.copy_all.79:
	movq	%r14, %rdx
	movq	%rax, %rcx
	andq	$3, %rdx
	je	.Lrekusoyen_0_1_0.loads.copying.copy_all.82
	negq	%rdx
	movq	%rax, %rcx
	.p2align	4
.Lrekusoyen_0_1_0.loads.copying.copy_all.81:
	movzbl	(%rsi,%rcx), %r8d
	movb	%r8b, (%rdi,%rcx)
	incq	%rcx
	incq	%rdx
	jne	.Lrekusoyen_0_1_0.loads.copying.copy_all.81
.Lrekusoyen_0_1_0.loads.copying.copy_all.82:
	subq	%r14, %rax
	cmpq	$-4, %rax
	ja	.Lrekusoyen_0_1_0.loads.copying.copy_all.85
	movq	48(%rsp), %rax
	addq	%r13, %rax
	movq	40(%rsp), %rdx
	addq	%r13, %rdx
	.p2align	4
.Lrekusoyen_0_1_0.loads.copying.copy_all.84:
	movzbl	-3(%rax,%rcx), %esi
	movb	%sil, -3(%rdx,%rcx)
	movzbl	-2(%rax,%rcx), %esi
	movb	%sil, -2(%rdx,%rcx)
	movzbl	-1(%rax,%rcx), %esi
	movb	%sil, -1(%rdx,%rcx)
	movzbl	(%rax,%rcx), %esi
	movb	%sil, (%rdx,%rcx)
	addq	$4, %rcx
	cmpq	%rcx, %r14
	jne	.Lrekusoyen_0_1_0.loads.copying.copy_all.84
	jmp	.Lrekusoyen_0_1_0.loads.copying.copy_all.85
.Lrekusoyen_0_1_0.loads.copying.copy_all.4:
	jne	.Lrekusoyen_0_1_0.loads.copying.copy_all.86
	movq	8(%rsp), %rax
	movzbl	56(%rax), %edx
	testq	%rdx, %rdx
	je	.Lrekusoyen_0_1_0.loads.copying.copy_all.86
.Lrekusoyen_0_1_0.loads.copying.copy_all.48:
	movq	8(%rsp), %rax
	addq	%rax, 56(%rsp)
	leaq	16(%rax), %rcx
	movq	%rcx, 96(%rsp)
	movq	16(%rsp), %rcx
	leaq	16(%rcx), %rdi
	movq	%rdi, 88(%rsp)
	addq	$3, %rax
	movq	%rax, 80(%rsp)
	leaq	3(%rcx), %rax
	movq	%rax, 72(%rsp)
	xorl	%eax, %eax
	movq	%rsi, 120(%rsp)
	movq	%r10, 112(%rsp)
	movq	%rdx, 104(%rsp)
	jmp	.Lrekusoyen_0_1_0.loads.copying.copy_all.49
	.p2align	4
.Lrekusoyen_0_1_0.loads.copying.copy_all.71:
	movq	128(%rsp), %rax
	incq	%rax
	movq	104(%rsp), %rdx
	cmpq	%rdx, %rax
	movq	120(%rsp), %rsi
	movq	112(%rsp), %r10
	je	.Lrekusoyen_0_1_0.loads.copying.copy_all.86
.Lrekusoyen_0_1_0.loads.copying.copy_all.49:
	movq	%rax, 128(%rsp)
	imulq	$56, %rax, %rax
	movq	56(%rsp), %rdi
	movq	8(%rdi,%rax), %r8
	cmpl	$1, (%rdi,%rax)
	setne	%cl
	movq	24(%rdi,%rax), %r12
	addq	64(%rsp), %r12
	setb	%dl
	orb	%cl, %dl
	cmpq	%r12, %rsi
	cmovbq	%rsi, %r12
	cmpq	%r8, %r10
	cmovbq	%r10, %r8
	xorl	%ecx, %ecx
	testb	$1, %dl
	cmovneq	%rcx, %r12
	cmovneq	%rcx, %r8
	movq	32(%rdi,%rax), %rax
	subq	%r8, %r10
	cmpq	%rax, %r10
	cmovaeq	%rax, %r10
	movq	%rsi, %rbx
	subq	%r12, %rbx
	cmpq	%r10, %rbx
	cmovaeq	%r10, %rbx
	testb	$1, %dl
	jne	.Lrekusoyen_0_1_0.loads.copying.copy_all.71
	testq	%rbx, %rbx
	je	.Lrekusoyen_0_1_0.loads.copying.copy_all.71
	movq	%r8, %rdi
	movq	16(%rsp), %rax
	leaq	(%rax,%r12), %r15
	movq	8(%rsp), %rax
	leaq	(%rax,%r8), %r14
	movq	%r15, %rax
	subq	%r14, %rax
	movq	%rax, 48(%rsp)
	movq	96(%rsp), %rax
	addq	%r8, %rax
	movq	%rax, 32(%rsp)
	movq	88(%rsp), %rax
	addq	%r12, %rax
	movq	%rax, 24(%rsp)
	addq	80(%rsp), %rdi
	movq	%rdi, 40(%rsp)
	addq	72(%rsp), %r12
	xorl	%ebp, %ebp
	jmp	.Lrekusoyen_0_1_0.loads.copying.copy_all.52
	.p2align	4
.Lrekusoyen_0_1_0.loads.copying.copy_all.87:
	movq	%r13, %rdx
	callq	memmove@PLT
.Lrekusoyen_0_1_0.loads.copying.copy_all.70:
	addq	%r13, %rbp
	cmpq	%rbx, %rbp
	jae	.Lrekusoyen_0_1_0.loads.copying.copy_all.71
.Lrekusoyen_0_1_0.loads.copying.copy_all.52:
	movq	%rbx, %rcx
	subq	%rbp, %rcx
	cmpq	$2048, %rcx
	movl	$2048, %r13d
	cmovbq	%rcx, %r13
	leaq	(%r15,%rbp), %rdi
	leaq	(%r14,%rbp), %rsi
	movq	%rdi, %rax
	subq	%rsi, %rax
	cmpq	%r13, %rax
	jae	.Lrekusoyen_0_1_0.loads.copying.copy_all.87
	xorl	%eax, %eax
	cmpq	$4, %rcx
	jb	.Lrekusoyen_0_1_0.loads.copying.copy_all.64
	cmpq	$32, 48(%rsp)
	jb	.Lrekusoyen_0_1_0.loads.copying.copy_all.64
	cmpq	$32, %rcx
	jae	.Lrekusoyen_0_1_0.loads.copying.copy_all.57
	xorl	%eax, %eax
	jmp	.Lrekusoyen_0_1_0.loads.copying.copy_all.61
.Lrekusoyen_0_1_0.loads.copying.copy_all.57:
	movl	%r13d, %eax
	andl	$4064, %eax
	movq	32(%rsp), %rcx
	addq	%rbp, %rcx
	movq	24(%rsp), %rdx
	addq	%rbp, %rdx
	xorl	%r8d, %r8d
	.p2align	4
.Lrekusoyen_0_1_0.loads.copying.copy_all.58:
	movups	-16(%rcx,%r8), %xmm0
	movups	(%rcx,%r8), %xmm1
	movups	%xmm0, -16(%rdx,%r8)
	movups	%xmm1, (%rdx,%r8)
	addq	$32, %r8
	cmpq	%r8, %rax
	jne	.Lrekusoyen_0_1_0.loads.copying.copy_all.58
	cmpq	%rax, %r13
	je	.Lrekusoyen_0_1_0.loads.copying.copy_all.70
	testb	$28, %r13b
	je	.Lrekusoyen_0_1_0.loads.copying.copy_all.64
.Lrekusoyen_0_1_0.loads.copying.copy_all.61:
	movq	%rax, %rcx
	movl	%r13d, %eax
	andl	$4092, %eax
	movq	%rax, %rdx
	subq	%rcx, %rdx
	addq	%rbp, %rcx
	leaq	(%r14,%rcx), %r8
	addq	%r15, %rcx
	xorl	%r9d, %r9d
	.p2align	4
.Lrekusoyen_0_1_0.loads.copying.copy_all.62:
	movl	(%r8,%r9), %r10d
	movl	%r10d, (%rcx,%r9)
	addq	$4, %r9
	cmpq	%r9, %rdx
	jne	.Lrekusoyen_0_1_0.loads.copying.copy_all.62
	cmpq	%rax, %r13
	je	.Lrekusoyen_0_1_0.loads.copying.copy_all.70
.Lrekusoyen_0_1_0.loads.copying.copy_all.64:
	movq	%r13, %rdx
	movq	%rax, %rcx
	andq	$3, %rdx
	je	.Lrekusoyen_0_1_0.loads.copying.copy_all.67
	negq	%rdx
	movq	%rax, %rcx
	.p2align	4
.Lrekusoyen_0_1_0.loads.copying.copy_all.66:
	movzbl	(%rsi,%rcx), %r8d
	movb	%r8b, (%rdi,%rcx)
	incq	%rcx
	incq	%rdx
	jne	.Lrekusoyen_0_1_0.loads.copying.copy_all.66
.Lrekusoyen_0_1_0.loads.copying.copy_all.67:
	subq	%r13, %rax
	cmpq	$-4, %rax
	ja	.Lrekusoyen_0_1_0.loads.copying.copy_all.70
	movq	40(%rsp), %rax
	addq	%rbp, %rax
	leaq	(%r12,%rbp), %rdx
	.p2align	4
.Lrekusoyen_0_1_0.loads.copying.copy_all.69:
	movzbl	-3(%rax,%rcx), %esi
	movb	%sil, -3(%rdx,%rcx)
	movzbl	-2(%rax,%rcx), %esi
	movb	%sil, -2(%rdx,%rcx)
	movzbl	-1(%rax,%rcx), %esi
	movb	%sil, -1(%rdx,%rcx)
	movzbl	(%rax,%rcx), %esi
	movb	%sil, (%rdx,%rcx)
	addq	$4, %rcx
	cmpq	%rcx, %r13
	jne	.Lrekusoyen_0_1_0.loads.copying.copy_all.69
	jmp	.Lrekusoyen_0_1_0.loads.copying.copy_all.70
.Lrekusoyen_0_1_0.loads.copying.copy_all.86:
	addq	$136, %rsp
	popq	%rbx
	popq	%r12
	popq	%r13
	popq	%r14
	popq	%r15
	popq	%rbp
	retq
.Lrekusoyen_0_1_0.loads.copying.copy_all.24:
	cmpq	$5, %rcx
	jne	.Lrekusoyen_0_1_0.loads.copying.copy_all.27
	xorl	%eax, %eax
	jmp	.Lrekusoyen_0_1_0.loads.copying.copy_all.26
.Lrekusoyen_0_1_0.loads.copying.copy_all.27:
	cmpq	$4, %rcx
	jb	.Lrekusoyen_0_1_0.loads.copying.copy_all.30
	xorl	%eax, %eax
	jmp	.Lrekusoyen_0_1_0.loads.copying.copy_all.29
.Lrekusoyen_0_1_0.loads.copying.copy_all.30:
	cmpq	$3, %rcx
	jne	.Lrekusoyen_0_1_0.loads.copying.copy_all.33
	xorl	%ecx, %ecx
	jmp	.Lrekusoyen_0_1_0.loads.copying.copy_all.32
.Lrekusoyen_0_1_0.loads.copying.copy_all.33:
	xorl	%eax, %eax
	cmpq	$2, %rcx
	jae	.Lrekusoyen_0_1_0.loads.copying.copy_all.34
	jmp	.Lrekusoyen_0_1_0.loads.copying.copy_all.35
.Lrekusoyen_0_1_0.loads.copying.copy_all.func_end:
	.size	rekusoyen_0_1_0.loads.copying.copy_all, .Lrekusoyen_0_1_0.loads.copying.copy_all.func_end-rekusoyen_0_1_0.loads.copying.copy_all
	.section	.rodata.cst16,"aM",@progbits,16
	.p2align	4, 0x0
.Lrekusoyen_0_1_0.slugs.splitting.split_at.CPI0:
	.zero	16,34
.Lrekusoyen_0_1_0.slugs.splitting.split_at.CPI1:
	.zero	16,45
	.section	.text.rekusoyen_0_1_0.slugs.splitting.split_at,"ax",@progbits
	.p2align	4
	.type	rekusoyen_0_1_0.slugs.splitting.split_at,@function
rekusoyen_0_1_0.slugs.splitting.split_at:
	testq	%rsi, %rsi
	je	.Lrekusoyen_0_1_0.slugs.splitting.split_at.1
	movq	%rsi, %rcx
	subq	$65, %rcx
	jae	.Lrekusoyen_0_1_0.slugs.splitting.split_at.3
	movb	$1, %cl
	xorl	%eax, %eax
	jmp	.Lrekusoyen_0_1_0.slugs.splitting.split_at.7
	.p2align	4
.Lrekusoyen_0_1_0.slugs.splitting.split_at.8:
	movzbl	(%rdi,%rax), %edx
.Lrekusoyen_0_1_0.slugs.splitting.split_at.15:
	cmpb	$34, %dl
	sete	%dl
	xorb	%dl, %cl
	incq	%rax
	cmpq	%rax, %rsi
	je	.Lrekusoyen_0_1_0.slugs.splitting.split_at.16
.Lrekusoyen_0_1_0.slugs.splitting.split_at.7:
	testb	$1, %cl
	je	.Lrekusoyen_0_1_0.slugs.splitting.split_at.8
	xorl	%r8d, %r8d
	movq	%rsi, %rdx
	subq	%rax, %rdx
	cmovaeq	%rdx, %r8
	movzbl	(%rdi,%rax), %edx
	cmpb	$32, %dl
	setne	%r9b
	cmpq	$2, %r8
	setb	%r10b
	orb	%r9b, %r10b
	jne	.Lrekusoyen_0_1_0.slugs.splitting.split_at.15
	movb	$32, %dl
	cmpq	$3, %r8
	jb	.Lrekusoyen_0_1_0.slugs.splitting.split_at.15
	cmpb	$45, 1(%rdi,%rax)
	jne	.Lrekusoyen_0_1_0.slugs.splitting.split_at.15
	cmpq	$4, %r8
	jb	.Lrekusoyen_0_1_0.slugs.splitting.split_at.15
	cmpb	$45, 2(%rdi,%rax)
	jne	.Lrekusoyen_0_1_0.slugs.splitting.split_at.15
	cmpb	$32, 3(%rdi,%rax)
	jne	.Lrekusoyen_0_1_0.slugs.splitting.split_at.15
.Lrekusoyen_0_1_0.slugs.splitting.split_at.28:
	retq
.Lrekusoyen_0_1_0.slugs.splitting.split_at.1:
	xorl	%eax, %eax
	retq
.Lrekusoyen_0_1_0.slugs.splitting.split_at.3:
	movb	$1, %dl
	xorl	%eax, %eax
	jmp	.Lrekusoyen_0_1_0.slugs.splitting.split_at.4
	.p2align	4
.Lrekusoyen_0_1_0.slugs.splitting.split_at.27:
	xorb	%r8b, %dl
	addq	%r9, %rax
	cmpq	%rsi, %rax
	jae	.Lrekusoyen_0_1_0.slugs.splitting.split_at.28
.Lrekusoyen_0_1_0.slugs.splitting.split_at.4:
	testb	$1, %dl
	je	.Lrekusoyen_0_1_0.slugs.splitting.split_at.5
	xorl	%r9d, %r9d
	movq	%rsi, %r8
	subq	%rax, %r8
	cmovaeq	%r8, %r9
	movzbl	(%rdi,%rax), %r8d
	cmpb	$32, %r8b
	setne	%r10b
	cmpq	$2, %r9
	setb	%r11b
	orb	%r10b, %r11b
	jne	.Lrekusoyen_0_1_0.slugs.splitting.split_at.23
	movb	$32, %r8b
	cmpq	$3, %r9
	jb	.Lrekusoyen_0_1_0.slugs.splitting.split_at.23
	cmpb	$45, 1(%rdi,%rax)
	jne	.Lrekusoyen_0_1_0.slugs.splitting.split_at.23
	cmpq	$4, %r9
	jb	.Lrekusoyen_0_1_0.slugs.splitting.split_at.23
	cmpb	$45, 2(%rdi,%rax)
	jne	.Lrekusoyen_0_1_0.slugs.splitting.split_at.23
	cmpb	$32, 3(%rdi,%rax)
	jne	.Lrekusoyen_0_1_0.slugs.splitting.split_at.23
	jmp	.Lrekusoyen_0_1_0.slugs.splitting.split_at.28
	.p2align	4
.Lrekusoyen_0_1_0.slugs.splitting.split_at.5:
	movzbl	(%rdi,%rax), %r8d
.Lrekusoyen_0_1_0.slugs.splitting.split_at.23:
	cmpb	$34, %r8b
	sete	%r8b
	testb	$63, %al
	setne	%r9b
	cmpq	%rax, %rcx
	setb	%r10b
	orb	%r9b, %r10b
	movl	$1, %r9d
	jne	.Lrekusoyen_0_1_0.slugs.splitting.split_at.27
	movdqu	1(%rdi,%rax), %xmm1
	movdqu	17(%rdi,%rax), %xmm3
	movdqu	33(%rdi,%rax), %xmm0
	movdqu	49(%rdi,%rax), %xmm2
	movdqa	.Lrekusoyen_0_1_0.slugs.splitting.split_at.CPI0(%rip), %xmm4
	movdqa	%xmm0, %xmm5
	pcmpeqb	%xmm4, %xmm5
	movdqa	%xmm1, %xmm6
	pcmpeqb	%xmm4, %xmm6
	por	%xmm5, %xmm6
	movdqa	%xmm2, %xmm5
	pcmpeqb	%xmm4, %xmm5
	pcmpeqb	%xmm3, %xmm4
	por	%xmm5, %xmm4
	por	%xmm6, %xmm4
	pmovmskb	%xmm4, %r10d
	testl	%r10d, %r10d
	jne	.Lrekusoyen_0_1_0.slugs.splitting.split_at.27
	movdqa	.Lrekusoyen_0_1_0.slugs.splitting.split_at.CPI1(%rip), %xmm4
	pcmpeqb	%xmm4, %xmm3
	pcmpeqb	%xmm4, %xmm2
	por	%xmm3, %xmm2
	pcmpeqb	%xmm4, %xmm1
	pcmpeqb	%xmm4, %xmm0
	por	%xmm1, %xmm0
	por	%xmm2, %xmm0
	pmovmskb	%xmm0, %r10d
	movl	$64, %r9d
	testl	%r10d, %r10d
	je	.Lrekusoyen_0_1_0.slugs.splitting.split_at.27
	movl	$1, %r9d
	jmp	.Lrekusoyen_0_1_0.slugs.splitting.split_at.27
.Lrekusoyen_0_1_0.slugs.splitting.split_at.16:
	movq	%rsi, %rax
	retq
.Lrekusoyen_0_1_0.slugs.splitting.split_at.func_end:
	.size	rekusoyen_0_1_0.slugs.splitting.split_at, .Lrekusoyen_0_1_0.slugs.splitting.split_at.func_end-rekusoyen_0_1_0.slugs.splitting.split_at
	.section	.text.rekusoyen_0_1_0.loader.plan_texts,"ax",@progbits
	.p2align	4
	.type	rekusoyen_0_1_0.loader.plan_texts,@function
rekusoyen_0_1_0.loader.plan_texts:
	pushq	%rbp
	pushq	%r15
	pushq	%r14
	pushq	%r13
	pushq	%r12
	pushq	%rbx
	pushq	%rax
	movq	%rdx, %r10
	movq	(%rdi), %r12
	movb	$1, %al
	movb	$31, %dl
	movabsq	$1099511627776, %r11
	cmpq	%r11, %r12
	ja	.Lrekusoyen_0_1_0.loader.plan_texts.29
	movq	8(%rdi), %r15
	movb	$43, %dl
	cmpq	$16, %r15
	ja	.Lrekusoyen_0_1_0.loader.plan_texts.29
	testq	%r15, %r15
	je	.Lrekusoyen_0_1_0.loader.plan_texts.12
	movq	144(%rdi), %r11
	testq	%r11, %r11
	je	.Lrekusoyen_0_1_0.loader.plan_texts.29
	movq	16(%rdi), %rbx
	movq	%r12, %r14
	subq	%rbx, %r14
	setae	%bpl
	cmpq	%r14, %r11
	setbe	%r14b
	andb	%bpl, %r14b
	cmpb	$1, %r14b
	jne	.Lrekusoyen_0_1_0.loader.plan_texts.29
	cmpq	$1, %r15
	je	.Lrekusoyen_0_1_0.loader.plan_texts.12
	addq	%rbx, %r11
	leaq	-1(%r15), %rbx
	xorl	%r14d, %r14d
	.p2align	4
.Lrekusoyen_0_1_0.loader.plan_texts.7:
	movq	24(%rdi,%r14,8), %r13
	cmpq	%r13, %r11
	jae	.Lrekusoyen_0_1_0.loader.plan_texts.29
	movq	152(%rdi,%r14,8), %r11
	testq	%r11, %r11
	je	.Lrekusoyen_0_1_0.loader.plan_texts.29
	movq	%r12, %rbp
	subq	%r13, %rbp
	jb	.Lrekusoyen_0_1_0.loader.plan_texts.29
	cmpq	%rbp, %r11
	ja	.Lrekusoyen_0_1_0.loader.plan_texts.29
	addq	%r13, %r11
	incq	%r14
	cmpq	%r14, %rbx
	jne	.Lrekusoyen_0_1_0.loader.plan_texts.7
.Lrekusoyen_0_1_0.loader.plan_texts.12:
	testq	%r9, %r9
	setne	%r11b
	testq	%rcx, %rcx
	sete	%bl
	movb	$18, %dl
	testb	%r11b, %bl
	jne	.Lrekusoyen_0_1_0.loader.plan_texts.29
	movq	%r8, %r14
	movq	%r9, %rbx
	movq	%rdi, (%rsp)
	movq	%rsi, %rbp
	movq	%r10, %rdi
	movq	%rcx, %r13
	movq	%rcx, %rsi
	xorl	%edx, %edx
	callq	rekusoyen_0_1_0.slugs.bytes.has
	testb	%al, %al
	jne	.Lrekusoyen_0_1_0.loader.plan_texts.14
	movq	%r14, %rdi
	movq	%rbx, %rsi
	xorl	%edx, %edx
	callq	rekusoyen_0_1_0.slugs.bytes.has
	testb	%al, %al
	je	.Lrekusoyen_0_1_0.loader.plan_texts.16
.Lrekusoyen_0_1_0.loader.plan_texts.14:
	movb	$1, %al
	movb	$18, %dl
.Lrekusoyen_0_1_0.loader.plan_texts.29:
	addq	$8, %rsp
	popq	%rbx
	popq	%r12
	popq	%r13
	popq	%r14
	popq	%r15
	popq	%rbp
	retq
.Lrekusoyen_0_1_0.loader.plan_texts.16:
	testq	%rbx, %rbx
	sete	%al
	cmpq	%r13, %r12
	setbe	%dl
	orb	%al, %dl
	je	.Lrekusoyen_0_1_0.loader.plan_texts.17
	cmpq	%r13, %r12
	setbe	%al
	testq	%rbx, %rbx
	setne	%sil
	movb	$19, %dl
	orb	%al, %sil
	movb	$1, %al
	movq	(%rsp), %rdi
	jne	.Lrekusoyen_0_1_0.loader.plan_texts.29
	movq	%rbp, %rsi
	incq	%r13
	jmp	.Lrekusoyen_0_1_0.loader.plan_texts.21
.Lrekusoyen_0_1_0.loader.plan_texts.17:
	movq	%r13, %rax
	notq	%rax
	addq	%r12, %rax
	subq	$4, %rax
	setae	%sil
	cmpq	%rax, %rbx
	setbe	%al
	movb	$19, %dl
	testb	%al, %sil
	movb	$1, %al
	movq	(%rsp), %rdi
	je	.Lrekusoyen_0_1_0.loader.plan_texts.29
	movq	%rbp, %rsi
	addq	$5, %r13
	movq	$-1, %rdx
	cmovbq	%rdx, %r13
	addq	%r13, %rbx
	cmovbq	%rdx, %rbx
	movq	%rbx, %r13
.Lrekusoyen_0_1_0.loader.plan_texts.21:
	subq	%rsi, %r12
	setae	%dl
	cmpq	%r12, %r13
	setbe	%r8b
	andb	%dl, %r8b
	movb	$19, %dl
	cmpb	$1, %r8b
	jne	.Lrekusoyen_0_1_0.loader.plan_texts.29
	cmpq	$16, %r15
	movl	$16, %r8d
	cmovbq	%r15, %r8
	testq	%r15, %r15
	je	.Lrekusoyen_0_1_0.loader.plan_texts.29
	xorl	%r9d, %r9d
	jmp	.Lrekusoyen_0_1_0.loader.plan_texts.24
.Lrekusoyen_0_1_0.loader.plan_texts.28:
	incq	%r9
	cmpq	%r9, %r8
	je	.Lrekusoyen_0_1_0.loader.plan_texts.29
.Lrekusoyen_0_1_0.loader.plan_texts.24:
	movq	%rsi, %r10
	subq	16(%rdi,%r9,8), %r10
	jb	.Lrekusoyen_0_1_0.loader.plan_texts.28
	movq	144(%rdi,%r9,8), %r11
	subq	%r10, %r11
	jb	.Lrekusoyen_0_1_0.loader.plan_texts.28
	cmpq	%r11, %r13
	ja	.Lrekusoyen_0_1_0.loader.plan_texts.28
	xorl	%edx, %edx
	xorl	%eax, %eax
	jmp	.Lrekusoyen_0_1_0.loader.plan_texts.29
.Lrekusoyen_0_1_0.loader.plan_texts.func_end:
	.size	rekusoyen_0_1_0.loader.plan_texts, .Lrekusoyen_0_1_0.loader.plan_texts.func_end-rekusoyen_0_1_0.loader.plan_texts
	.section	.text.rekusoyen_0_1_0.slugs.bytes.has,"ax",@progbits
	.p2align	4
	.type	rekusoyen_0_1_0.slugs.bytes.has,@function
rekusoyen_0_1_0.slugs.bytes.has:
	cmpq	$3, %rsi
	ja	.Lrekusoyen_0_1_0.slugs.bytes.has.3
	testq	%rsi, %rsi
	je	.Lrekusoyen_0_1_0.slugs.bytes.has.2
	cmpb	%dl, (%rdi)
	sete	%cl
	movq	%rsi, %rax
	shrq	%rax
	cmpb	%dl, (%rdi,%rax)
	sete	%r8b
	cmpb	%dl, -1(%rdi,%rsi)
	sete	%al
	orb	%cl, %al
	orb	%r8b, %al
.Lrekusoyen_0_1_0.slugs.bytes.has.20:
	retq
.Lrekusoyen_0_1_0.slugs.bytes.has.3:
	cmpq	$8, %rsi
	ja	.Lrekusoyen_0_1_0.slugs.bytes.has.5
	movd	(%rdi), %xmm0
	pinsrd	$1, -4(%rdi,%rsi), %xmm0
	movzbl	%dl, %eax
	movd	%eax, %xmm1
	punpcklbw	%xmm1, %xmm1
	pshuflw	$0, %xmm1, %xmm1
	pcmpeqb	%xmm0, %xmm1
	pmovmskb	%xmm1, %eax
	testb	%al, %al
	setne	%al
	retq
.Lrekusoyen_0_1_0.slugs.bytes.has.5:
	cmpq	$32, %rsi
	ja	.Lrekusoyen_0_1_0.slugs.bytes.has.7
	leaq	-8(%rsi), %rax
	cmpq	$8, %rax
	movl	$8, %ecx
	cmovbq	%rax, %rcx
	cmpq	$16, %rax
	movl	$16, %r8d
	cmovbq	%rax, %r8
	movq	(%rdi,%rcx), %xmm0
	movq	(%rdi), %xmm1
	punpcklqdq	%xmm0, %xmm1
	movq	(%rdi,%r8), %xmm0
	movq	-8(%rdi,%rsi), %xmm2
	punpcklqdq	%xmm2, %xmm0
	movzbl	%dl, %eax
	movd	%eax, %xmm2
	pxor	%xmm3, %xmm3
	pshufb	%xmm3, %xmm2
	pcmpeqb	%xmm2, %xmm0
	pcmpeqb	%xmm1, %xmm2
	por	%xmm0, %xmm2
	pmovmskb	%xmm2, %eax
	testl	%eax, %eax
	setne	%al
	retq
.Lrekusoyen_0_1_0.slugs.bytes.has.2:
	xorl	%eax, %eax
	retq
.Lrekusoyen_0_1_0.slugs.bytes.has.7:
	cmpq	$65, %rsi
	jae	.Lrekusoyen_0_1_0.slugs.bytes.has.8
	movdqu	(%rdi), %xmm0
	movdqu	16(%rdi), %xmm1
	movdqu	-32(%rdi,%rsi), %xmm2
	movdqu	-16(%rdi,%rsi), %xmm3
	movzbl	%dl, %eax
	movd	%eax, %xmm4
	pxor	%xmm5, %xmm5
	pshufb	%xmm5, %xmm4
	pcmpeqb	%xmm4, %xmm2
	pcmpeqb	%xmm4, %xmm3
	pcmpeqb	%xmm4, %xmm0
	por	%xmm2, %xmm0
	pcmpeqb	%xmm1, %xmm4
	por	%xmm3, %xmm4
	por	%xmm0, %xmm4
	pmovmskb	%xmm4, %eax
	testl	%eax, %eax
	setne	%al
	retq
.Lrekusoyen_0_1_0.slugs.bytes.has.8:
	movzbl	%dl, %eax
	movd	%eax, %xmm0
	pxor	%xmm2, %xmm2
	movdqa	%xmm0, %xmm1
	pshufb	%xmm2, %xmm1
	xorl	%eax, %eax
	movq	%rsi, %rcx
	.p2align	4
.Lrekusoyen_0_1_0.slugs.bytes.has.9:
	movdqu	(%rdi,%rax), %xmm2
	movdqu	16(%rdi,%rax), %xmm3
	movdqu	32(%rdi,%rax), %xmm4
	movdqu	48(%rdi,%rax), %xmm5
	pcmpeqb	%xmm1, %xmm3
	pcmpeqb	%xmm1, %xmm5
	por	%xmm3, %xmm5
	pcmpeqb	%xmm1, %xmm2
	pcmpeqb	%xmm1, %xmm4
	por	%xmm2, %xmm4
	por	%xmm5, %xmm4
	pmovmskb	%xmm4, %edx
	testl	%edx, %edx
	jne	.Lrekusoyen_0_1_0.slugs.bytes.has.11
	addq	$64, %rax
	addq	$-64, %rcx
	cmpq	$63, %rcx
	ja	.Lrekusoyen_0_1_0.slugs.bytes.has.9
.Lrekusoyen_0_1_0.slugs.bytes.has.11:
	cmpq	$32, %rcx
	jb	.Lrekusoyen_0_1_0.slugs.bytes.has.18
	pxor	%xmm2, %xmm2
	movdqa	%xmm0, %xmm1
	pshufb	%xmm2, %xmm1
	movq	%rsi, %rcx
	subq	%rax, %rcx
	addq	%rdi, %rax
	.p2align	4
.Lrekusoyen_0_1_0.slugs.bytes.has.13:
	movdqu	(%rax), %xmm2
	movdqu	16(%rax), %xmm3
	pcmpeqb	%xmm1, %xmm3
	pcmpeqb	%xmm1, %xmm2
	por	%xmm3, %xmm2
	pmovmskb	%xmm2, %edx
	testl	%edx, %edx
	jne	.Lrekusoyen_0_1_0.slugs.bytes.has.17
	addq	$-32, %rcx
	addq	$32, %rax
	cmpq	$32, %rcx
	jae	.Lrekusoyen_0_1_0.slugs.bytes.has.13
	jmp	.Lrekusoyen_0_1_0.slugs.bytes.has.18
.Lrekusoyen_0_1_0.slugs.bytes.has.17:
	movb	$1, %al
	cmpq	$31, %rcx
	ja	.Lrekusoyen_0_1_0.slugs.bytes.has.20
.Lrekusoyen_0_1_0.slugs.bytes.has.18:
	movdqu	-32(%rdi,%rsi), %xmm1
	movdqu	-16(%rdi,%rsi), %xmm2
	pxor	%xmm3, %xmm3
	pshufb	%xmm3, %xmm0
	pcmpeqb	%xmm0, %xmm2
	pcmpeqb	%xmm1, %xmm0
	por	%xmm2, %xmm0
	pmovmskb	%xmm0, %eax
	testl	%eax, %eax
	setne	%al
	retq
.Lrekusoyen_0_1_0.slugs.bytes.has.func_end:
	.size	rekusoyen_0_1_0.slugs.bytes.has, .Lrekusoyen_0_1_0.slugs.bytes.has.func_end-rekusoyen_0_1_0.slugs.bytes.has
	.section	.text.rekusoyen_0_1_0.cmdline.writing.write,"ax",@progbits
	.p2align	4
	.type	rekusoyen_0_1_0.cmdline.writing.write,@function
rekusoyen_0_1_0.cmdline.writing.write:
	pushq	%rbp
	pushq	%r15
	pushq	%r14
	pushq	%r13
	pushq	%r12
	pushq	%rbx
	subq	$40, %rsp
	movq	%r9, 8(%rsp)
	movq	%r8, 16(%rsp)
	movq	%rcx, %rbp
	movq	%rdi, %rbx
	cmpq	%rcx, %rsi
	movq	%rsi, (%rsp)
	cmovbq	%rsi, %rbp
	testq	%rbp, %rbp
	je	.Lrekusoyen_0_1_0.cmdline.writing.write.21
	movq	%rdx, %r13
	movq	%rbx, %r14
	subq	%rdx, %r14
	xorl	%r15d, %r15d
	jmp	.Lrekusoyen_0_1_0.cmdline.writing.write.2
	.p2align	4
.Lrekusoyen_0_1_0.cmdline.writing.write.55:
	movq	%r12, %rdx
	callq	memmove@PLT
.Lrekusoyen_0_1_0.cmdline.writing.write.20:
	addq	%r12, %r15
	cmpq	%rbp, %r15
	jae	.Lrekusoyen_0_1_0.cmdline.writing.write.21
.Lrekusoyen_0_1_0.cmdline.writing.write.2:
	movq	%rbp, %rax
	subq	%r15, %rax
	cmpq	$2048, %rax
	movl	$2048, %r12d
	cmovbq	%rax, %r12
	leaq	(%rbx,%r15), %rdi
	leaq	(%r15,%r13), %rsi
	movq	%rdi, %rcx
	subq	%rsi, %rcx
	cmpq	%r12, %rcx
	jae	.Lrekusoyen_0_1_0.cmdline.writing.write.55
	cmpq	$32, %r14
	setb	%cl
	cmpq	$4, %rax
	setb	%dl
	orb	%cl, %dl
	je	.Lrekusoyen_0_1_0.cmdline.writing.write.5
	xorl	%eax, %eax
	jmp	.Lrekusoyen_0_1_0.cmdline.writing.write.14
	.p2align	4
.Lrekusoyen_0_1_0.cmdline.writing.write.5:
	cmpq	$32, %rax
	jae	.Lrekusoyen_0_1_0.cmdline.writing.write.7
	xorl	%eax, %eax
	jmp	.Lrekusoyen_0_1_0.cmdline.writing.write.11
.Lrekusoyen_0_1_0.cmdline.writing.write.7:
	movl	%r12d, %eax
	andl	$4064, %eax
	leaq	16(%r13), %rcx
	addq	%r15, %rcx
	leaq	16(%rbx), %rdx
	addq	%r15, %rdx
	xorl	%r8d, %r8d
	.p2align	4
.Lrekusoyen_0_1_0.cmdline.writing.write.8:
	movups	-16(%rcx,%r8), %xmm0
	movups	(%rcx,%r8), %xmm1
	movups	%xmm0, -16(%rdx,%r8)
	movups	%xmm1, (%rdx,%r8)
	addq	$32, %r8
	cmpq	%r8, %rax
	jne	.Lrekusoyen_0_1_0.cmdline.writing.write.8
	cmpq	%rax, %r12
	je	.Lrekusoyen_0_1_0.cmdline.writing.write.20
	testb	$28, %r12b
	je	.Lrekusoyen_0_1_0.cmdline.writing.write.14
.Lrekusoyen_0_1_0.cmdline.writing.write.11:
	movq	%rax, %rcx
	movl	%r12d, %eax
	andl	$4092, %eax
	.p2align	4
.Lrekusoyen_0_1_0.cmdline.writing.write.12:
	movl	(%rsi,%rcx), %edx
	movl	%edx, (%rdi,%rcx)
	addq	$4, %rcx
	cmpq	%rcx, %rax
	jne	.Lrekusoyen_0_1_0.cmdline.writing.write.12
	cmpq	%rax, %r12
	je	.Lrekusoyen_0_1_0.cmdline.writing.write.20
.Lrekusoyen_0_1_0.cmdline.writing.write.14:
	movq	%r12, %rdx
	movq	%rax, %rcx
	andq	$3, %rdx
	je	.Lrekusoyen_0_1_0.cmdline.writing.write.17
	movq	%rax, %rcx
	.p2align	4
.Lrekusoyen_0_1_0.cmdline.writing.write.16:
	movzbl	(%rsi,%rcx), %r8d
	movb	%r8b, (%rdi,%rcx)
	incq	%rcx
	decq	%rdx
	jne	.Lrekusoyen_0_1_0.cmdline.writing.write.16
.Lrekusoyen_0_1_0.cmdline.writing.write.17:
	subq	%r12, %rax
	cmpq	$-4, %rax
	ja	.Lrekusoyen_0_1_0.cmdline.writing.write.20
	leaq	3(%r13), %rax
	addq	%r15, %rax
	leaq	3(%rbx), %rdx
	addq	%r15, %rdx
	.p2align	4
.Lrekusoyen_0_1_0.cmdline.writing.write.19:
	movzbl	-3(%rax,%rcx), %esi
	movb	%sil, -3(%rdx,%rcx)
	movzbl	-2(%rax,%rcx), %esi
	movb	%sil, -2(%rdx,%rcx)
	movzbl	-1(%rax,%rcx), %esi
	movb	%sil, -1(%rdx,%rcx)
	movzbl	(%rax,%rcx), %esi
	movb	%sil, (%rdx,%rcx)
	addq	$4, %rcx
	cmpq	%rcx, %r12
	jne	.Lrekusoyen_0_1_0.cmdline.writing.write.19
	jmp	.Lrekusoyen_0_1_0.cmdline.writing.write.20
.Lrekusoyen_0_1_0.cmdline.writing.write.21:
	movq	(%rsp), %rax
	subq	%rbp, %rax
	cmpq	$4, %rax
	movl	$4, %r13d
	cmovbq	%rax, %r13
	movq	8(%rsp), %r14
	testq	%r14, %r14
	leaq	.Lrekusoyen_0_1_0.static.19(%rip), %rcx
	leaq	.Lrekusoyen_0_1_0.static.3(%rip), %rax
	movq	%rax, %rsi
	cmoveq	%rcx, %rsi
	cmoveq	%r14, %r13
	testq	%r13, %r13
	je	.Lrekusoyen_0_1_0.cmdline.writing.write.29
	leaq	(%rbx,%rbp), %rdi
	movq	%rdi, %rdx
	subq	%rsi, %rdx
	cmpq	%r13, %rdx
	jae	.Lrekusoyen_0_1_0.cmdline.writing.write.23
	movzbl	(%rsi), %edx
	movb	%dl, (%rdi)
	cmpq	$1, %r13
	je	.Lrekusoyen_0_1_0.cmdline.writing.write.29
	testq	%r14, %r14
	movq	%rax, %rdx
	cmoveq	%rcx, %rdx
	movzbl	1(%rdx), %edx
	movb	%dl, 1(%rdi)
	cmpq	$2, %r13
	je	.Lrekusoyen_0_1_0.cmdline.writing.write.29
	testq	%r14, %r14
	movq	%rax, %rdx
	cmoveq	%rcx, %rdx
	movzbl	2(%rdx), %edx
	movb	%dl, 2(%rdi)
	cmpq	$3, %r13
	je	.Lrekusoyen_0_1_0.cmdline.writing.write.29
	testq	%r14, %r14
	movq	%rax, %rdx
	cmoveq	%rcx, %rdx
	movzbl	3(%rdx), %edx
	movb	%dl, 3(%rdi)
	cmpq	$4, %r13
	je	.Lrekusoyen_0_1_0.cmdline.writing.write.29
	testq	%r14, %r14
	cmoveq	%rcx, %rax
	movzwl	4(%rax), %ecx
	movw	%cx, 4(%rdi)
	movzbl	6(%rax), %eax
	movb	%al, 6(%rdi)
	jmp	.Lrekusoyen_0_1_0.cmdline.writing.write.29
.Lrekusoyen_0_1_0.cmdline.writing.write.23:
	movq	%r13, %rdx
	callq	memcpy@PLT
.Lrekusoyen_0_1_0.cmdline.writing.write.29:
	addq	%rbp, %r13
	movq	(%rsp), %rbp
	cmpq	%r13, %rbp
	cmovbq	%rbp, %r13
	subq	%r13, %rbp
	cmpq	%r14, %rbp
	cmovaeq	%r14, %rbp
	testq	%rbp, %rbp
	je	.Lrekusoyen_0_1_0.cmdline.writing.write.50
	leaq	(%rbx,%r13), %r14
	movq	%r14, %rcx
	movq	16(%rsp), %rax
	subq	%rax, %rcx
	movq	%rcx, 8(%rsp)
	leaq	16(%rax), %rcx
	movq	%rcx, 24(%rsp)
	addq	$3, %rax
	movq	%rax, 32(%rsp)
	xorl	%r15d, %r15d
	jmp	.Lrekusoyen_0_1_0.cmdline.writing.write.31
	.p2align	4
.Lrekusoyen_0_1_0.cmdline.writing.write.56:
	movq	%r12, %rdx
	callq	memmove@PLT
.Lrekusoyen_0_1_0.cmdline.writing.write.49:
	addq	%r12, %r15
	cmpq	%rbp, %r15
	jae	.Lrekusoyen_0_1_0.cmdline.writing.write.50
.Lrekusoyen_0_1_0.cmdline.writing.write.31:
	movq	%rbp, %rcx
	subq	%r15, %rcx
	cmpq	$2048, %rcx
	movl	$2048, %r12d
	cmovbq	%rcx, %r12
	leaq	(%r14,%r15), %rdi
	movq	16(%rsp), %rax
	leaq	(%rax,%r15), %rsi
	movq	%rdi, %rax
	subq	%rsi, %rax
	cmpq	%r12, %rax
	jae	.Lrekusoyen_0_1_0.cmdline.writing.write.56
	xorl	%eax, %eax
	cmpq	$4, %rcx
	jb	.Lrekusoyen_0_1_0.cmdline.writing.write.43
	cmpq	$32, 8(%rsp)
	jb	.Lrekusoyen_0_1_0.cmdline.writing.write.43
	cmpq	$32, %rcx
	jae	.Lrekusoyen_0_1_0.cmdline.writing.write.36
	xorl	%eax, %eax
	jmp	.Lrekusoyen_0_1_0.cmdline.writing.write.40
.Lrekusoyen_0_1_0.cmdline.writing.write.36:
	movl	%r12d, %eax
	andl	$4064, %eax
	movq	24(%rsp), %rcx
	addq	%r15, %rcx
	leaq	(%rbx,%r13), %rdx
	addq	$16, %rdx
	addq	%r15, %rdx
	xorl	%r8d, %r8d
	.p2align	4
.Lrekusoyen_0_1_0.cmdline.writing.write.37:
	movups	-16(%rcx,%r8), %xmm0
	movups	(%rcx,%r8), %xmm1
	movups	%xmm0, -16(%rdx,%r8)
	movups	%xmm1, (%rdx,%r8)
	addq	$32, %r8
	cmpq	%r8, %rax
	jne	.Lrekusoyen_0_1_0.cmdline.writing.write.37
	cmpq	%rax, %r12
	je	.Lrekusoyen_0_1_0.cmdline.writing.write.49
	testb	$28, %r12b
	je	.Lrekusoyen_0_1_0.cmdline.writing.write.43
.Lrekusoyen_0_1_0.cmdline.writing.write.40:
	movq	%rax, %rcx
	movl	%r12d, %eax
	andl	$4092, %eax
	.p2align	4
.Lrekusoyen_0_1_0.cmdline.writing.write.41:
	movl	(%rsi,%rcx), %edx
	movl	%edx, (%rdi,%rcx)
	addq	$4, %rcx
	cmpq	%rcx, %rax
	jne	.Lrekusoyen_0_1_0.cmdline.writing.write.41
	cmpq	%rax, %r12
	je	.Lrekusoyen_0_1_0.cmdline.writing.write.49
.Lrekusoyen_0_1_0.cmdline.writing.write.43:
	movq	%r12, %rdx
	movq	%rax, %rcx
	andq	$3, %rdx
	je	.Lrekusoyen_0_1_0.cmdline.writing.write.46
	movq	%rax, %rcx
	.p2align	4
.Lrekusoyen_0_1_0.cmdline.writing.write.45:
	movzbl	(%rsi,%rcx), %r8d
	movb	%r8b, (%rdi,%rcx)
	incq	%rcx
	decq	%rdx
	jne	.Lrekusoyen_0_1_0.cmdline.writing.write.45
.Lrekusoyen_0_1_0.cmdline.writing.write.46:
	subq	%r12, %rax
	cmpq	$-4, %rax
	ja	.Lrekusoyen_0_1_0.cmdline.writing.write.49
	movq	32(%rsp), %rax
	addq	%r15, %rax
	leaq	(%rbx,%r13), %rdx
	addq	$3, %rdx
	addq	%r15, %rdx
	.p2align	4
.Lrekusoyen_0_1_0.cmdline.writing.write.48:
	movzbl	-3(%rax,%rcx), %esi
	movb	%sil, -3(%rdx,%rcx)
	movzbl	-2(%rax,%rcx), %esi
	movb	%sil, -2(%rdx,%rcx)
	movzbl	-1(%rax,%rcx), %esi
	movb	%sil, -1(%rdx,%rcx)
	movzbl	(%rax,%rcx), %esi
	movb	%sil, (%rdx,%rcx)
	addq	$4, %rcx
	cmpq	%rcx, %r12
	jne	.Lrekusoyen_0_1_0.cmdline.writing.write.48
	jmp	.Lrekusoyen_0_1_0.cmdline.writing.write.49
.Lrekusoyen_0_1_0.cmdline.writing.write.50:
	addq	%r13, %rbp
	xorl	%r15d, %r15d
	movq	(%rsp), %rax
	cmpq	%rbp, %rax
	cmovbq	%rax, %rbp
	seta	%r15b
	jbe	.Lrekusoyen_0_1_0.cmdline.writing.write.54
	addq	%rbp, %rbx
	leaq	.Lrekusoyen_0_1_0.static.4(%rip), %rax
	movq	%rbx, %rcx
	subq	%rax, %rcx
	cmpq	%r15, %rcx
	jae	.Lrekusoyen_0_1_0.cmdline.writing.write.53
	movb	$0, (%rbx)
	jmp	.Lrekusoyen_0_1_0.cmdline.writing.write.54
.Lrekusoyen_0_1_0.cmdline.writing.write.53:
	movq	%rbx, %rdi
	xorl	%esi, %esi
	movq	%r15, %rdx
	callq	memset@PLT
.Lrekusoyen_0_1_0.cmdline.writing.write.54:
	addq	%r15, %rbp
	movq	%rbp, %rax
	addq	$40, %rsp
	popq	%rbx
	popq	%r12
	popq	%r13
	popq	%r14
	popq	%r15
	popq	%rbp
	retq
.Lrekusoyen_0_1_0.cmdline.writing.write.func_end:
	.size	rekusoyen_0_1_0.cmdline.writing.write, .Lrekusoyen_0_1_0.cmdline.writing.write.func_end-rekusoyen_0_1_0.cmdline.writing.write
	.section	.rodata.cst16,"aM",@progbits,16
	.p2align	4, 0x0
.Lrekusoyen_0_1_0.cmdline.in_place.append_slug.CPI0:
	.zero	16,224
.Lrekusoyen_0_1_0.cmdline.in_place.append_slug.CPI1:
	.zero	16,94
.Lrekusoyen_0_1_0.cmdline.in_place.append_slug.CPI2:
	.zero	2
	.short	65535
	.short	65535
	.short	65535
	.short	65535
	.short	65535
	.short	65535
	.short	65535
.Lrekusoyen_0_1_0.cmdline.in_place.append_slug.CPI3:
	.byte	224
	.byte	224
	.byte	224
	.byte	224
	.byte	224
	.byte	224
	.byte	224
	.byte	224
	.zero	1
	.zero	1
	.zero	1
	.zero	1
	.zero	1
	.zero	1
	.zero	1
	.zero	1
.Lrekusoyen_0_1_0.cmdline.in_place.append_slug.CPI4:
	.byte	95
	.byte	95
	.byte	95
	.byte	95
	.byte	95
	.byte	95
	.byte	95
	.byte	95
	.zero	1
	.zero	1
	.zero	1
	.zero	1
	.zero	1
	.zero	1
	.zero	1
	.zero	1
.Lrekusoyen_0_1_0.cmdline.in_place.append_slug.CPI5:
	.quad	281479271743489
	.quad	281479271743489
	.section	.text.rekusoyen_0_1_0.cmdline.in_place.append_slug,"ax",@progbits
	.p2align	4
	.type	rekusoyen_0_1_0.cmdline.in_place.append_slug,@function
rekusoyen_0_1_0.cmdline.in_place.append_slug:
	pushq	%rbp
	pushq	%r15
	pushq	%r14
	pushq	%r13
	pushq	%r12
	pushq	%rbx
	subq	$56, %rsp
	movq	%rsi, 8(%rsp)
	movq	%rdi, 24(%rsp)
	xorl	%r14d, %r14d
	testq	%r8, %r8
	jne	.Lrekusoyen_0_1_0.cmdline.in_place.append_slug.2
	jmp	.Lrekusoyen_0_1_0.cmdline.in_place.append_slug.5
	.p2align	4
.Lrekusoyen_0_1_0.cmdline.in_place.append_slug.1:
	incq	%r14
	cmpq	%r14, %r8
	je	.Lrekusoyen_0_1_0.cmdline.in_place.append_slug.4
.Lrekusoyen_0_1_0.cmdline.in_place.append_slug.2:
	movzbl	(%rcx,%r14), %eax
	leal	-9(%rax), %esi
	cmpl	$5, %esi
	jb	.Lrekusoyen_0_1_0.cmdline.in_place.append_slug.1
	cmpl	$32, %eax
	je	.Lrekusoyen_0_1_0.cmdline.in_place.append_slug.1
	jmp	.Lrekusoyen_0_1_0.cmdline.in_place.append_slug.5
.Lrekusoyen_0_1_0.cmdline.in_place.append_slug.4:
	movq	%r8, %r14
.Lrekusoyen_0_1_0.cmdline.in_place.append_slug.5:
	movq	%r8, %r13
	subq	%r14, %r13
	je	.Lrekusoyen_0_1_0.cmdline.in_place.append_slug.11
	leaq	(%r8,%rcx), %rax
	decq	%rax
	jmp	.Lrekusoyen_0_1_0.cmdline.in_place.append_slug.8
	.p2align	4
.Lrekusoyen_0_1_0.cmdline.in_place.append_slug.7:
	decq	%r13
	decq	%rax
	testq	%r13, %r13
	je	.Lrekusoyen_0_1_0.cmdline.in_place.append_slug.11
.Lrekusoyen_0_1_0.cmdline.in_place.append_slug.8:
	movzbl	(%rax), %esi
	leal	-9(%rsi), %edi
	cmpl	$5, %edi
	jb	.Lrekusoyen_0_1_0.cmdline.in_place.append_slug.7
	cmpl	$32, %esi
	je	.Lrekusoyen_0_1_0.cmdline.in_place.append_slug.7
	jmp	.Lrekusoyen_0_1_0.cmdline.in_place.append_slug.12
.Lrekusoyen_0_1_0.cmdline.in_place.append_slug.11:
	xorl	%r13d, %r13d
.Lrekusoyen_0_1_0.cmdline.in_place.append_slug.12:
	movq	(%rdx), %rbp
	movq	8(%rdx), %rsi
	movq	16(%rdx), %rax
	leaq	(%rcx,%r14), %r12
	movq	%r12, %rdx
	movq	%r13, %rdi
	jmp	.Lrekusoyen_0_1_0.cmdline.in_place.append_slug.14
	.p2align	4
.Lrekusoyen_0_1_0.cmdline.in_place.append_slug.13:
	addq	%r8, %rdx
	subq	%r8, %rdi
	testb	%r10b, %r10b
	je	.Lrekusoyen_0_1_0.cmdline.in_place.append_slug.37
.Lrekusoyen_0_1_0.cmdline.in_place.append_slug.14:
	testq	%rdi, %rdi
	je	.Lrekusoyen_0_1_0.cmdline.in_place.append_slug.29
	cmpq	$64, %rdi
	movl	$64, %r8d
	cmovbq	%rdi, %r8
	movb	$1, %r10b
	movq	%r8, %r11
	movq	%rdx, %rbx
	cmpq	$8, %rdi
	jb	.Lrekusoyen_0_1_0.cmdline.in_place.append_slug.26
	cmpq	$32, %rdi
	jae	.Lrekusoyen_0_1_0.cmdline.in_place.append_slug.18
	xorl	%r9d, %r9d
	jmp	.Lrekusoyen_0_1_0.cmdline.in_place.append_slug.23
	.p2align	4
.Lrekusoyen_0_1_0.cmdline.in_place.append_slug.18:
	movl	%r8d, %r9d
	andl	$96, %r9d
	movdqu	(%rdx), %xmm3
	movdqu	16(%rdx), %xmm1
	movdqa	.Lrekusoyen_0_1_0.cmdline.in_place.append_slug.CPI0(%rip), %xmm2
	paddb	%xmm2, %xmm3
	paddb	%xmm2, %xmm1
	movdqa	.Lrekusoyen_0_1_0.cmdline.in_place.append_slug.CPI1(%rip), %xmm0
	cmpq	$32, %r9
	jne	.Lrekusoyen_0_1_0.cmdline.in_place.append_slug.20
	movdqa	%xmm3, %xmm2
	pminub	%xmm0, %xmm2
	pcmpeqb	%xmm3, %xmm2
	jmp	.Lrekusoyen_0_1_0.cmdline.in_place.append_slug.21
.Lrekusoyen_0_1_0.cmdline.in_place.append_slug.20:
	movdqu	32(%rdx), %xmm4
	movdqu	48(%rdx), %xmm5
	paddb	%xmm2, %xmm4
	paddb	%xmm2, %xmm5
	pmaxub	%xmm4, %xmm3
	movdqa	%xmm3, %xmm2
	pminub	%xmm0, %xmm2
	pcmpeqb	%xmm3, %xmm2
	pmaxub	%xmm5, %xmm1
.Lrekusoyen_0_1_0.cmdline.in_place.append_slug.21:
	pminub	%xmm1, %xmm0
	pcmpeqb	%xmm1, %xmm0
	pand	%xmm0, %xmm2
	psllw	$7, %xmm2
	pmovmskb	%xmm2, %r10d
	cmpl	$65535, %r10d
	sete	%r10b
	cmpq	%r9, %r8
	je	.Lrekusoyen_0_1_0.cmdline.in_place.append_slug.13
	testb	$24, %r8b
	je	.Lrekusoyen_0_1_0.cmdline.in_place.append_slug.28
.Lrekusoyen_0_1_0.cmdline.in_place.append_slug.23:
	movl	%r8d, %r15d
	andl	$120, %r15d
	movl	%r8d, %r11d
	andl	$7, %r11d
	leaq	(%rdx,%r15), %rbx
	movzbl	%r10b, %r10d
	movdqa	.Lrekusoyen_0_1_0.cmdline.in_place.append_slug.CPI2(%rip), %xmm0
	pinsrw	$0, %r10d, %xmm0
	.p2align	4
.Lrekusoyen_0_1_0.cmdline.in_place.append_slug.24:
	movq	(%rdx,%r9), %xmm1
	paddb	.Lrekusoyen_0_1_0.cmdline.in_place.append_slug.CPI3(%rip), %xmm1
	movdqa	.Lrekusoyen_0_1_0.cmdline.in_place.append_slug.CPI4(%rip), %xmm2
	pmaxub	%xmm1, %xmm2
	pcmpeqb	%xmm1, %xmm2
	pcmpeqd	%xmm1, %xmm1
	pxor	%xmm2, %xmm1
	pmovsxbw	%xmm1, %xmm1
	pand	%xmm1, %xmm0
	addq	$8, %r9
	cmpq	%r9, %r15
	jne	.Lrekusoyen_0_1_0.cmdline.in_place.append_slug.24
	ptest	.Lrekusoyen_0_1_0.cmdline.in_place.append_slug.CPI5(%rip), %xmm0
	setb	%r10b
	cmpq	%r15, %r8
	je	.Lrekusoyen_0_1_0.cmdline.in_place.append_slug.13
.Lrekusoyen_0_1_0.cmdline.in_place.append_slug.26:
	xorl	%r9d, %r9d
	.p2align	4
.Lrekusoyen_0_1_0.cmdline.in_place.append_slug.27:
	movzbl	(%rbx,%r9), %r15d
	addb	$-32, %r15b
	cmpb	$95, %r15b
	setb	%r15b
	andb	%r15b, %r10b
	incq	%r9
	cmpq	%r9, %r11
	jne	.Lrekusoyen_0_1_0.cmdline.in_place.append_slug.27
	jmp	.Lrekusoyen_0_1_0.cmdline.in_place.append_slug.13
.Lrekusoyen_0_1_0.cmdline.in_place.append_slug.28:
	movl	%r8d, %r11d
	andl	$31, %r11d
	addq	%rdx, %r9
	movq	%r9, %rbx
	jmp	.Lrekusoyen_0_1_0.cmdline.in_place.append_slug.26
.Lrekusoyen_0_1_0.cmdline.in_place.append_slug.29:
	subq	%rsi, %rax
	jb	.Lrekusoyen_0_1_0.cmdline.in_place.append_slug.38
	cmpq	%rax, %r13
	ja	.Lrekusoyen_0_1_0.cmdline.in_place.append_slug.38
	cmpq	$1, %rbp
	movq	%rbp, %rax
	sbbq	$-1, %rax
	subq	$16384, %rax
	ja	.Lrekusoyen_0_1_0.cmdline.in_place.append_slug.38
	negq	%rax
	cmpq	%rax, %r13
	ja	.Lrekusoyen_0_1_0.cmdline.in_place.append_slug.38
	testq	%rbp, %rbp
	je	.Lrekusoyen_0_1_0.cmdline.in_place.append_slug.41
	xorl	%r15d, %r15d
	cmpq	$16384, %rbp
	movl	$16384, %ebx
	cmovaeq	%rbx, %rbp
	setb	%r15b
	jae	.Lrekusoyen_0_1_0.cmdline.in_place.append_slug.64
	movq	8(%rsp), %rax
	leaq	(%rax,%rbp), %rdi
	leaq	.Lrekusoyen_0_1_0.static.16(%rip), %rax
	movq	%rdi, %rdx
	subq	%rax, %rdx
	cmpq	%r15, %rdx
	jae	.Lrekusoyen_0_1_0.cmdline.in_place.append_slug.63
	movb	$32, (%rdi)
	jmp	.Lrekusoyen_0_1_0.cmdline.in_place.append_slug.64
.Lrekusoyen_0_1_0.cmdline.in_place.append_slug.37:
	movq	24(%rsp), %rax
	movw	$5377, (%rax)
	jmp	.Lrekusoyen_0_1_0.cmdline.in_place.append_slug.39
.Lrekusoyen_0_1_0.cmdline.in_place.append_slug.38:
	movq	24(%rsp), %rax
	movw	$6657, (%rax)
.Lrekusoyen_0_1_0.cmdline.in_place.append_slug.39:
	movq	$0, 8(%rax)
.Lrekusoyen_0_1_0.cmdline.in_place.append_slug.40:
	addq	$56, %rsp
	popq	%rbx
	popq	%r12
	popq	%r13
	popq	%r14
	popq	%r15
	popq	%rbp
	retq
.Lrekusoyen_0_1_0.cmdline.in_place.append_slug.41:
	testq	%r13, %r13
	je	.Lrekusoyen_0_1_0.cmdline.in_place.append_slug.88
	movq	8(%rsp), %rdx
	movq	%rdx, %rbx
	subq	%rcx, %rbx
	subq	%r14, %rbx
	leaq	(%r14,%rcx), %rax
	addq	$16, %rax
	movq	%rax, 40(%rsp)
	leaq	16(%rdx), %rax
	movq	%rax, 32(%rsp)
	addq	%rcx, %r14
	addq	$3, %r14
	leaq	3(%rdx), %rax
	movq	%rax, 16(%rsp)
	xorl	%ebp, %ebp
	jmp	.Lrekusoyen_0_1_0.cmdline.in_place.append_slug.45
	.p2align	4
.Lrekusoyen_0_1_0.cmdline.in_place.append_slug.43:
	movq	%r15, %rdx
	callq	memmove@PLT
.Lrekusoyen_0_1_0.cmdline.in_place.append_slug.44:
	addq	%r15, %rbp
	cmpq	%r13, %rbp
	jae	.Lrekusoyen_0_1_0.cmdline.in_place.append_slug.87
.Lrekusoyen_0_1_0.cmdline.in_place.append_slug.45:
	movq	%r13, %rcx
	subq	%rbp, %rcx
	cmpq	$2048, %rcx
	movl	$2048, %r15d
	cmovbq	%rcx, %r15
	movq	8(%rsp), %rax
	leaq	(%rax,%rbp), %rdi
	leaq	(%r12,%rbp), %rsi
	movq	%rdi, %rax
	subq	%rsi, %rax
	cmpq	%r15, %rax
	jae	.Lrekusoyen_0_1_0.cmdline.in_place.append_slug.43
	xorl	%eax, %eax
	cmpq	$4, %rcx
	jb	.Lrekusoyen_0_1_0.cmdline.in_place.append_slug.57
	cmpq	$32, %rbx
	jb	.Lrekusoyen_0_1_0.cmdline.in_place.append_slug.57
	cmpq	$32, %rcx
	jae	.Lrekusoyen_0_1_0.cmdline.in_place.append_slug.50
	xorl	%eax, %eax
	jmp	.Lrekusoyen_0_1_0.cmdline.in_place.append_slug.54
.Lrekusoyen_0_1_0.cmdline.in_place.append_slug.50:
	movl	%r15d, %eax
	andl	$4064, %eax
	movq	40(%rsp), %rcx
	addq	%rbp, %rcx
	movq	32(%rsp), %rdx
	addq	%rbp, %rdx
	xorl	%r8d, %r8d
	.p2align	4
.Lrekusoyen_0_1_0.cmdline.in_place.append_slug.51:
	movdqu	-16(%rcx,%r8), %xmm0
	movdqu	(%rcx,%r8), %xmm1
	movdqu	%xmm0, -16(%rdx,%r8)
	movdqu	%xmm1, (%rdx,%r8)
	addq	$32, %r8
	cmpq	%r8, %rax
	jne	.Lrekusoyen_0_1_0.cmdline.in_place.append_slug.51
	cmpq	%rax, %r15
	je	.Lrekusoyen_0_1_0.cmdline.in_place.append_slug.44
	testb	$28, %r15b
	je	.Lrekusoyen_0_1_0.cmdline.in_place.append_slug.57
.Lrekusoyen_0_1_0.cmdline.in_place.append_slug.54:
	movq	%rax, %rcx
	movl	%r15d, %eax
	andl	$4092, %eax
	.p2align	4
.Lrekusoyen_0_1_0.cmdline.in_place.append_slug.55:
	movl	(%rsi,%rcx), %edx
	movl	%edx, (%rdi,%rcx)
	addq	$4, %rcx
	cmpq	%rcx, %rax
	jne	.Lrekusoyen_0_1_0.cmdline.in_place.append_slug.55
	cmpq	%rax, %r15
	je	.Lrekusoyen_0_1_0.cmdline.in_place.append_slug.44
.Lrekusoyen_0_1_0.cmdline.in_place.append_slug.57:
	movq	%r15, %rdx
	movq	%rax, %rcx
	andq	$3, %rdx
	je	.Lrekusoyen_0_1_0.cmdline.in_place.append_slug.60
	movq	%rax, %rcx
	.p2align	4
.Lrekusoyen_0_1_0.cmdline.in_place.append_slug.59:
	movzbl	(%rsi,%rcx), %r8d
	movb	%r8b, (%rdi,%rcx)
	incq	%rcx
	decq	%rdx
	jne	.Lrekusoyen_0_1_0.cmdline.in_place.append_slug.59
.Lrekusoyen_0_1_0.cmdline.in_place.append_slug.60:
	subq	%r15, %rax
	cmpq	$-4, %rax
	ja	.Lrekusoyen_0_1_0.cmdline.in_place.append_slug.44
	leaq	(%r14,%rbp), %rax
	movq	16(%rsp), %rdx
	addq	%rbp, %rdx
	.p2align	4
.Lrekusoyen_0_1_0.cmdline.in_place.append_slug.62:
	movzbl	-3(%rax,%rcx), %esi
	movb	%sil, -3(%rdx,%rcx)
	movzbl	-2(%rax,%rcx), %esi
	movb	%sil, -2(%rdx,%rcx)
	movzbl	-1(%rax,%rcx), %esi
	movb	%sil, -1(%rdx,%rcx)
	movzbl	(%rax,%rcx), %esi
	movb	%sil, (%rdx,%rcx)
	addq	$4, %rcx
	cmpq	%rcx, %r15
	jne	.Lrekusoyen_0_1_0.cmdline.in_place.append_slug.62
	jmp	.Lrekusoyen_0_1_0.cmdline.in_place.append_slug.44
.Lrekusoyen_0_1_0.cmdline.in_place.append_slug.63:
	movl	$32, %esi
	movq	%r15, %rdx
	movq	%rcx, 16(%rsp)
	callq	memset@PLT
	movq	16(%rsp), %rcx
.Lrekusoyen_0_1_0.cmdline.in_place.append_slug.64:
	addq	%r15, %rbp
	cmpq	$16384, %rbp
	cmovaeq	%rbx, %rbp
	subq	%rbp, %rbx
	cmpq	%r13, %rbx
	cmovaeq	%r13, %rbx
	testq	%rbx, %rbx
	je	.Lrekusoyen_0_1_0.cmdline.in_place.append_slug.86
	movq	8(%rsp), %rdx
	leaq	(%rdx,%rbp), %r15
	movq	%r15, %rsi
	subq	%rcx, %rsi
	subq	%r14, %rsi
	movq	%rsi, 16(%rsp)
	leaq	(%r14,%rcx), %rax
	addq	$16, %rax
	movq	%rax, 32(%rsp)
	leaq	16(%rbp,%rdx), %rax
	movq	%rax, 48(%rsp)
	leaq	3(%r14,%rcx), %rax
	movq	%rax, 40(%rsp)
	leaq	(%rdx,%rbp), %rax
	addq	$3, %rax
	movq	%rax, 8(%rsp)
	xorl	%r13d, %r13d
	jmp	.Lrekusoyen_0_1_0.cmdline.in_place.append_slug.68
	.p2align	4
.Lrekusoyen_0_1_0.cmdline.in_place.append_slug.66:
	movq	%r14, %rdx
	callq	memmove@PLT
.Lrekusoyen_0_1_0.cmdline.in_place.append_slug.67:
	addq	%r14, %r13
	cmpq	%rbx, %r13
	jae	.Lrekusoyen_0_1_0.cmdline.in_place.append_slug.86
.Lrekusoyen_0_1_0.cmdline.in_place.append_slug.68:
	movq	%rbx, %rcx
	subq	%r13, %rcx
	cmpq	$2048, %rcx
	movl	$2048, %r14d
	cmovbq	%rcx, %r14
	leaq	(%r15,%r13), %rdi
	leaq	(%r12,%r13), %rsi
	movq	%rdi, %rax
	subq	%rsi, %rax
	cmpq	%r14, %rax
	jae	.Lrekusoyen_0_1_0.cmdline.in_place.append_slug.66
	xorl	%eax, %eax
	cmpq	$4, %rcx
	jb	.Lrekusoyen_0_1_0.cmdline.in_place.append_slug.80
	cmpq	$32, 16(%rsp)
	jb	.Lrekusoyen_0_1_0.cmdline.in_place.append_slug.80
	cmpq	$32, %rcx
	jae	.Lrekusoyen_0_1_0.cmdline.in_place.append_slug.73
	xorl	%eax, %eax
	jmp	.Lrekusoyen_0_1_0.cmdline.in_place.append_slug.77
.Lrekusoyen_0_1_0.cmdline.in_place.append_slug.73:
	movl	%r14d, %eax
	andl	$4064, %eax
	movq	32(%rsp), %rcx
	addq	%r13, %rcx
	movq	48(%rsp), %rdx
	addq	%r13, %rdx
	xorl	%r8d, %r8d
	.p2align	4
.Lrekusoyen_0_1_0.cmdline.in_place.append_slug.74:
	movdqu	-16(%rcx,%r8), %xmm0
	movdqu	(%rcx,%r8), %xmm1
	movdqu	%xmm0, -16(%rdx,%r8)
	movdqu	%xmm1, (%rdx,%r8)
	addq	$32, %r8
	cmpq	%r8, %rax
	jne	.Lrekusoyen_0_1_0.cmdline.in_place.append_slug.74
	cmpq	%rax, %r14
	je	.Lrekusoyen_0_1_0.cmdline.in_place.append_slug.67
	testb	$28, %r14b
	je	.Lrekusoyen_0_1_0.cmdline.in_place.append_slug.80
.Lrekusoyen_0_1_0.cmdline.in_place.append_slug.77:
	movq	%rax, %rcx
	movl	%r14d, %eax
	andl	$4092, %eax
	.p2align	4
.Lrekusoyen_0_1_0.cmdline.in_place.append_slug.78:
	movl	(%rsi,%rcx), %edx
	movl	%edx, (%rdi,%rcx)
	addq	$4, %rcx
	cmpq	%rcx, %rax
	jne	.Lrekusoyen_0_1_0.cmdline.in_place.append_slug.78
	cmpq	%rax, %r14
	je	.Lrekusoyen_0_1_0.cmdline.in_place.append_slug.67
.Lrekusoyen_0_1_0.cmdline.in_place.append_slug.80:
	movq	%r14, %rdx
	movq	%rax, %rcx
	andq	$3, %rdx
	je	.Lrekusoyen_0_1_0.cmdline.in_place.append_slug.83
	movq	%rax, %rcx
	.p2align	4
.Lrekusoyen_0_1_0.cmdline.in_place.append_slug.82:
	movzbl	(%rsi,%rcx), %r8d
	movb	%r8b, (%rdi,%rcx)
	incq	%rcx
	decq	%rdx
	jne	.Lrekusoyen_0_1_0.cmdline.in_place.append_slug.82
.Lrekusoyen_0_1_0.cmdline.in_place.append_slug.83:
	subq	%r14, %rax
	cmpq	$-4, %rax
	ja	.Lrekusoyen_0_1_0.cmdline.in_place.append_slug.67
	movq	40(%rsp), %rax
	addq	%r13, %rax
	movq	8(%rsp), %rdx
	addq	%r13, %rdx
	.p2align	4
.Lrekusoyen_0_1_0.cmdline.in_place.append_slug.85:
	movzbl	-3(%rax,%rcx), %esi
	movb	%sil, -3(%rdx,%rcx)
	movzbl	-2(%rax,%rcx), %esi
	movb	%sil, -2(%rdx,%rcx)
	movzbl	-1(%rax,%rcx), %esi
	movb	%sil, -1(%rdx,%rcx)
	movzbl	(%rax,%rcx), %esi
	movb	%sil, (%rdx,%rcx)
	addq	$4, %rcx
	cmpq	%rcx, %r14
	jne	.Lrekusoyen_0_1_0.cmdline.in_place.append_slug.85
	jmp	.Lrekusoyen_0_1_0.cmdline.in_place.append_slug.67
.Lrekusoyen_0_1_0.cmdline.in_place.append_slug.86:
	addq	%rbp, %rbx
	movq	%rbx, %r13
.Lrekusoyen_0_1_0.cmdline.in_place.append_slug.87:
	movq	24(%rsp), %rax
	movw	$0, (%rax)
	movq	%r13, 8(%rax)
	jmp	.Lrekusoyen_0_1_0.cmdline.in_place.append_slug.40
.Lrekusoyen_0_1_0.cmdline.in_place.append_slug.88:
	xorl	%r13d, %r13d
	jmp	.Lrekusoyen_0_1_0.cmdline.in_place.append_slug.87
.Lrekusoyen_0_1_0.cmdline.in_place.append_slug.func_end:
	.size	rekusoyen_0_1_0.cmdline.in_place.append_slug, .Lrekusoyen_0_1_0.cmdline.in_place.append_slug.func_end-rekusoyen_0_1_0.cmdline.in_place.append_slug
	.section	.text.rekusoyen_0_1_0.boot.pieces.check_line,"ax",@progbits
	.p2align	4
	.type	rekusoyen_0_1_0.boot.pieces.check_line,@function
rekusoyen_0_1_0.boot.pieces.check_line:
	movq	8(%rsp), %rax
	cmpb	$1, (%rdx)
	jne	.Lrekusoyen_0_1_0.boot.pieces.check_line.11
	movl	$255, %ecx
	cmpq	$520, %rsi
	jb	.Lrekusoyen_0_1_0.boot.pieces.check_line.12
	cmpw	$518, 518(%rdi)
	jb	.Lrekusoyen_0_1_0.boot.pieces.check_line.12
	cmpq	$571, %rsi
	jbe	.Lrekusoyen_0_1_0.boot.pieces.check_line.4
	movl	568(%rdi), %ecx
	jmp	.Lrekusoyen_0_1_0.boot.pieces.check_line.12
.Lrekusoyen_0_1_0.boot.pieces.check_line.11:
	movl	%r8d, %edx
	testb	$1, %cl
	movl	$2047, %ecx
	cmovneq	%rdx, %rcx
.Lrekusoyen_0_1_0.boot.pieces.check_line.12:
	testq	%rax, %rax
	sete	%sil
	cmpq	%r9, %rcx
	setae	%dl
	andb	%sil, %dl
	testq	%rax, %rax
	je	.Lrekusoyen_0_1_0.boot.pieces.check_line.15
	subq	%r9, %rcx
	jb	.Lrekusoyen_0_1_0.boot.pieces.check_line.15
	subq	$4, %rcx
	setae	%sil
	cmpq	%rcx, %rax
	setbe	%dl
	andb	%sil, %dl
.Lrekusoyen_0_1_0.boot.pieces.check_line.15:
	movl	%edx, %eax
	xorb	$1, %al
	xorl	%ecx, %ecx
	testb	%dl, %dl
	movl	$55, %edx
	cmovnel	%ecx, %edx
	retq
.Lrekusoyen_0_1_0.boot.pieces.check_line.4:
	xorl	%edx, %edx
	movq	%rsi, %rcx
	subq	$568, %rcx
	cmovaeq	%rcx, %rdx
	cmpq	$3, %rdx
	jne	.Lrekusoyen_0_1_0.boot.pieces.check_line.6
	movzbl	570(%rdi), %ecx
	shll	$8, %ecx
	jmp	.Lrekusoyen_0_1_0.boot.pieces.check_line.7
.Lrekusoyen_0_1_0.boot.pieces.check_line.6:
	xorl	%ecx, %ecx
	cmpq	$2, %rdx
	jb	.Lrekusoyen_0_1_0.boot.pieces.check_line.8
.Lrekusoyen_0_1_0.boot.pieces.check_line.7:
	movzbl	569(%rdi), %edx
	orl	%edx, %ecx
	shll	$8, %ecx
.Lrekusoyen_0_1_0.boot.pieces.check_line.8:
	cmpq	$569, %rsi
	jb	.Lrekusoyen_0_1_0.boot.pieces.check_line.12
	movzbl	568(%rdi), %edx
	orq	%rdx, %rcx
	jmp	.Lrekusoyen_0_1_0.boot.pieces.check_line.12
.Lrekusoyen_0_1_0.boot.pieces.check_line.func_end:
	.size	rekusoyen_0_1_0.boot.pieces.check_line, .Lrekusoyen_0_1_0.boot.pieces.check_line.func_end-rekusoyen_0_1_0.boot.pieces.check_line
	.section	.text.rekusoyen_0_1_0.slugs.lists.put_list,"ax",@progbits
	.p2align	4
	.type	rekusoyen_0_1_0.slugs.lists.put_list,@function
rekusoyen_0_1_0.slugs.lists.put_list:
	pushq	%rbp
	pushq	%r15
	pushq	%r14
	pushq	%r13
	pushq	%r12
	pushq	%rbx
	subq	$120, %rsp
	movq	%r9, 88(%rsp)
	movq	%r8, 48(%rsp)
	movq	%rdx, %r12
	movq	%rdi, 16(%rsp)
	testq	%rsi, %rsi
	je	.Lrekusoyen_0_1_0.slugs.lists.put_list.1
	movq	%rsi, %r13
	xorl	%ebp, %ebp
	cmpq	$16384, %rsi
	movl	$16384, %esi
	cmovaeq	%rsi, %r13
	setb	%bpl
	jae	.Lrekusoyen_0_1_0.slugs.lists.put_list.27
	movq	16(%rsp), %rax
	leaq	(%rax,%r13), %rdi
	leaq	.Lrekusoyen_0_1_0.static.16(%rip), %rax
	movq	%rdi, %rdx
	subq	%rax, %rdx
	cmpq	%rbp, %rdx
	jae	.Lrekusoyen_0_1_0.slugs.lists.put_list.26
	movb	$32, (%rdi)
	jmp	.Lrekusoyen_0_1_0.slugs.lists.put_list.27
.Lrekusoyen_0_1_0.slugs.lists.put_list.1:
	cmpq	$16384, %rcx
	movl	$16384, %esi
	cmovbq	%rcx, %rsi
	testq	%rcx, %rcx
	je	.Lrekusoyen_0_1_0.slugs.lists.put_list.2
	movq	16(%rsp), %rax
	movq	%rax, %rbx
	subq	%r12, %rbx
	leaq	16(%rax), %rcx
	movq	%rcx, 24(%rsp)
	leaq	3(%rax), %r14
	xorl	%r15d, %r15d
	jmp	.Lrekusoyen_0_1_0.slugs.lists.put_list.4
	.p2align	4
.Lrekusoyen_0_1_0.slugs.lists.put_list.79:
	movq	%r13, %rdx
	callq	memmove@PLT
.Lrekusoyen_0_1_0.slugs.lists.put_list.22:
	addq	%r13, %r15
	movq	%rbp, %rsi
	cmpq	%rbp, %r15
	jae	.Lrekusoyen_0_1_0.slugs.lists.put_list.49
.Lrekusoyen_0_1_0.slugs.lists.put_list.4:
	movq	%rsi, %rbp
	movq	%rsi, %rax
	subq	%r15, %rax
	cmpq	$2048, %rax
	movl	$2048, %r13d
	cmovbq	%rax, %r13
	movq	16(%rsp), %rcx
	leaq	(%rcx,%r15), %rdi
	leaq	(%r12,%r15), %rsi
	movq	%rdi, %rcx
	subq	%rsi, %rcx
	cmpq	%r13, %rcx
	jae	.Lrekusoyen_0_1_0.slugs.lists.put_list.79
	cmpq	$32, %rbx
	setb	%cl
	cmpq	$4, %rax
	setb	%dl
	orb	%cl, %dl
	je	.Lrekusoyen_0_1_0.slugs.lists.put_list.7
	xorl	%eax, %eax
	jmp	.Lrekusoyen_0_1_0.slugs.lists.put_list.16
	.p2align	4
.Lrekusoyen_0_1_0.slugs.lists.put_list.7:
	cmpq	$32, %rax
	jae	.Lrekusoyen_0_1_0.slugs.lists.put_list.9
	xorl	%eax, %eax
	jmp	.Lrekusoyen_0_1_0.slugs.lists.put_list.13
.Lrekusoyen_0_1_0.slugs.lists.put_list.9:
	movl	%r13d, %eax
	andl	$4064, %eax
	leaq	16(%r12), %rcx
	addq	%r15, %rcx
	movq	24(%rsp), %rdx
	addq	%r15, %rdx
	xorl	%r8d, %r8d
	.p2align	4
.Lrekusoyen_0_1_0.slugs.lists.put_list.10:
	movups	-16(%rcx,%r8), %xmm0
	movups	(%rcx,%r8), %xmm1
	movups	%xmm0, -16(%rdx,%r8)
	movups	%xmm1, (%rdx,%r8)
	addq	$32, %r8
	cmpq	%r8, %rax
	jne	.Lrekusoyen_0_1_0.slugs.lists.put_list.10
	cmpq	%rax, %r13
	je	.Lrekusoyen_0_1_0.slugs.lists.put_list.22
	testb	$28, %r13b
	je	.Lrekusoyen_0_1_0.slugs.lists.put_list.16
.Lrekusoyen_0_1_0.slugs.lists.put_list.13:
	movq	%rax, %rcx
	movl	%r13d, %eax
	andl	$4092, %eax
	.p2align	4
.Lrekusoyen_0_1_0.slugs.lists.put_list.14:
	movl	(%rsi,%rcx), %edx
	movl	%edx, (%rdi,%rcx)
	addq	$4, %rcx
	cmpq	%rcx, %rax
	jne	.Lrekusoyen_0_1_0.slugs.lists.put_list.14
	cmpq	%rax, %r13
	je	.Lrekusoyen_0_1_0.slugs.lists.put_list.22
.Lrekusoyen_0_1_0.slugs.lists.put_list.16:
	movq	%r13, %rdx
	movq	%rax, %rcx
	andq	$3, %rdx
	je	.Lrekusoyen_0_1_0.slugs.lists.put_list.19
	movq	%rax, %rcx
	.p2align	4
.Lrekusoyen_0_1_0.slugs.lists.put_list.18:
	movzbl	(%rsi,%rcx), %r8d
	movb	%r8b, (%rdi,%rcx)
	incq	%rcx
	decq	%rdx
	jne	.Lrekusoyen_0_1_0.slugs.lists.put_list.18
.Lrekusoyen_0_1_0.slugs.lists.put_list.19:
	subq	%r13, %rax
	cmpq	$-4, %rax
	ja	.Lrekusoyen_0_1_0.slugs.lists.put_list.22
	leaq	3(%r12), %rax
	addq	%r15, %rax
	leaq	(%r14,%r15), %rdx
	.p2align	4
.Lrekusoyen_0_1_0.slugs.lists.put_list.21:
	movzbl	-3(%rax,%rcx), %esi
	movb	%sil, -3(%rdx,%rcx)
	movzbl	-2(%rax,%rcx), %esi
	movb	%sil, -2(%rdx,%rcx)
	movzbl	-1(%rax,%rcx), %esi
	movb	%sil, -1(%rdx,%rcx)
	movzbl	(%rax,%rcx), %esi
	movb	%sil, (%rdx,%rcx)
	addq	$4, %rcx
	cmpq	%rcx, %r13
	jne	.Lrekusoyen_0_1_0.slugs.lists.put_list.21
	jmp	.Lrekusoyen_0_1_0.slugs.lists.put_list.22
.Lrekusoyen_0_1_0.slugs.lists.put_list.26:
	movl	$32, %esi
	movq	%rbp, %rdx
	movq	%rcx, %rbx
	callq	memset@PLT
	movl	$16384, %esi
	movq	%rbx, %rcx
.Lrekusoyen_0_1_0.slugs.lists.put_list.27:
	addq	%rbp, %r13
	cmpq	$16384, %r13
	cmovaeq	%rsi, %r13
	subq	%r13, %rsi
	cmpq	%rcx, %rsi
	cmovaeq	%rcx, %rsi
	testq	%rsi, %rsi
	je	.Lrekusoyen_0_1_0.slugs.lists.put_list.48
	movq	16(%rsp), %rax
	leaq	(%rax,%r13), %rbx
	movq	%rbx, %rcx
	subq	%r12, %rcx
	movq	%rcx, 24(%rsp)
	leaq	(%rax,%r13), %rcx
	addq	$16, %rcx
	movq	%rcx, 32(%rsp)
	addq	%r13, %rax
	addq	$3, %rax
	movq	%rax, 40(%rsp)
	xorl	%r15d, %r15d
	jmp	.Lrekusoyen_0_1_0.slugs.lists.put_list.29
	.p2align	4
.Lrekusoyen_0_1_0.slugs.lists.put_list.80:
	movq	%rbp, %rdx
	callq	memmove@PLT
.Lrekusoyen_0_1_0.slugs.lists.put_list.47:
	addq	%rbp, %r15
	movq	%r14, %rsi
	cmpq	%r14, %r15
	jae	.Lrekusoyen_0_1_0.slugs.lists.put_list.48
.Lrekusoyen_0_1_0.slugs.lists.put_list.29:
	movq	%rsi, %r14
	movq	%rsi, %rcx
	subq	%r15, %rcx
	cmpq	$2048, %rcx
	movl	$2048, %ebp
	cmovbq	%rcx, %rbp
	leaq	(%rbx,%r15), %rdi
	leaq	(%r12,%r15), %rsi
	movq	%rdi, %rax
	subq	%rsi, %rax
	cmpq	%rbp, %rax
	jae	.Lrekusoyen_0_1_0.slugs.lists.put_list.80
	xorl	%eax, %eax
	cmpq	$4, %rcx
	jb	.Lrekusoyen_0_1_0.slugs.lists.put_list.41
	cmpq	$32, 24(%rsp)
	jb	.Lrekusoyen_0_1_0.slugs.lists.put_list.41
	cmpq	$32, %rcx
	jae	.Lrekusoyen_0_1_0.slugs.lists.put_list.34
	xorl	%eax, %eax
	jmp	.Lrekusoyen_0_1_0.slugs.lists.put_list.38
.Lrekusoyen_0_1_0.slugs.lists.put_list.34:
	movl	%ebp, %eax
	andl	$4064, %eax
	leaq	16(%r12), %rcx
	addq	%r15, %rcx
	movq	32(%rsp), %rdx
	addq	%r15, %rdx
	xorl	%r8d, %r8d
	.p2align	4
.Lrekusoyen_0_1_0.slugs.lists.put_list.35:
	movups	-16(%rcx,%r8), %xmm0
	movups	(%rcx,%r8), %xmm1
	movups	%xmm0, -16(%rdx,%r8)
	movups	%xmm1, (%rdx,%r8)
	addq	$32, %r8
	cmpq	%r8, %rax
	jne	.Lrekusoyen_0_1_0.slugs.lists.put_list.35
	cmpq	%rax, %rbp
	je	.Lrekusoyen_0_1_0.slugs.lists.put_list.47
	testb	$28, %bpl
	je	.Lrekusoyen_0_1_0.slugs.lists.put_list.41
.Lrekusoyen_0_1_0.slugs.lists.put_list.38:
	movq	%rax, %rcx
	movl	%ebp, %eax
	andl	$4092, %eax
	.p2align	4
.Lrekusoyen_0_1_0.slugs.lists.put_list.39:
	movl	(%rsi,%rcx), %edx
	movl	%edx, (%rdi,%rcx)
	addq	$4, %rcx
	cmpq	%rcx, %rax
	jne	.Lrekusoyen_0_1_0.slugs.lists.put_list.39
	cmpq	%rax, %rbp
	je	.Lrekusoyen_0_1_0.slugs.lists.put_list.47
.Lrekusoyen_0_1_0.slugs.lists.put_list.41:
	movq	%rbp, %rdx
	movq	%rax, %rcx
	andq	$3, %rdx
	je	.Lrekusoyen_0_1_0.slugs.lists.put_list.44
	movq	%rax, %rcx
	.p2align	4
.Lrekusoyen_0_1_0.slugs.lists.put_list.43:
	movzbl	(%rsi,%rcx), %r8d
	movb	%r8b, (%rdi,%rcx)
	incq	%rcx
	decq	%rdx
	jne	.Lrekusoyen_0_1_0.slugs.lists.put_list.43
.Lrekusoyen_0_1_0.slugs.lists.put_list.44:
	subq	%rbp, %rax
	cmpq	$-4, %rax
	ja	.Lrekusoyen_0_1_0.slugs.lists.put_list.47
	leaq	3(%r12), %rax
	addq	%r15, %rax
	movq	40(%rsp), %rdx
	addq	%r15, %rdx
	.p2align	4
.Lrekusoyen_0_1_0.slugs.lists.put_list.46:
	movzbl	-3(%rax,%rcx), %esi
	movb	%sil, -3(%rdx,%rcx)
	movzbl	-2(%rax,%rcx), %esi
	movb	%sil, -2(%rdx,%rcx)
	movzbl	-1(%rax,%rcx), %esi
	movb	%sil, -1(%rdx,%rcx)
	movzbl	(%rax,%rcx), %esi
	movb	%sil, (%rdx,%rcx)
	addq	$4, %rcx
	cmpq	%rcx, %rbp
	jne	.Lrekusoyen_0_1_0.slugs.lists.put_list.46
	jmp	.Lrekusoyen_0_1_0.slugs.lists.put_list.47
.Lrekusoyen_0_1_0.slugs.lists.put_list.48:
	addq	%r13, %rsi
.Lrekusoyen_0_1_0.slugs.lists.put_list.49:
	cmpq	$0, 184(%rsp)
	je	.Lrekusoyen_0_1_0.slugs.lists.put_list.78
.Lrekusoyen_0_1_0.slugs.lists.put_list.50:
	movq	176(%rsp), %r14
	movq	48(%rsp), %rax
	leaq	16(%rax), %rcx
	movq	%rcx, 80(%rsp)
	movq	16(%rsp), %rcx
	leaq	16(%rcx), %rdx
	movq	%rdx, 72(%rsp)
	addq	$3, %rax
	movq	%rax, 64(%rsp)
	leaq	3(%rcx), %rax
	movq	%rax, 56(%rsp)
	movb	$61, %al
	xorl	%r15d, %r15d
	xorl	%ebp, %ebp
	jmp	.Lrekusoyen_0_1_0.slugs.lists.put_list.51
	.p2align	4
.Lrekusoyen_0_1_0.slugs.lists.put_list.76:
	movq	176(%rsp), %r14
	movq	96(%rsp), %rbp
	movq	(%r14,%rbp,8), %rcx
	movq	104(%rsp), %rsi
.Lrekusoyen_0_1_0.slugs.lists.put_list.77:
	addq	%r13, %rsi
	incq	%rbp
	movb	$44, %al
	movq	%rcx, %r15
	cmpq	184(%rsp), %rbp
	je	.Lrekusoyen_0_1_0.slugs.lists.put_list.78
.Lrekusoyen_0_1_0.slugs.lists.put_list.51:
	movb	%al, 15(%rsp)
	xorl	%r12d, %r12d
	cmpq	$16384, %rsi
	movl	$16384, %r13d
	cmovaeq	%r13, %rsi
	setb	%r12b
	jae	.Lrekusoyen_0_1_0.slugs.lists.put_list.55
	movq	16(%rsp), %rcx
	leaq	(%rcx,%rsi), %rdi
	leaq	15(%rsp), %rcx
	movq	%rdi, %rdx
	subq	%rcx, %rdx
	cmpq	%r12, %rdx
	jae	.Lrekusoyen_0_1_0.slugs.lists.put_list.54
	movb	%al, (%rdi)
	jmp	.Lrekusoyen_0_1_0.slugs.lists.put_list.55
	.p2align	4
.Lrekusoyen_0_1_0.slugs.lists.put_list.54:
	movq	%rsi, %rbx
	leaq	15(%rsp), %rsi
	movq	%r12, %rdx
	callq	memcpy@PLT
	movq	%rbx, %rsi
.Lrekusoyen_0_1_0.slugs.lists.put_list.55:
	addq	%r12, %rsi
	movq	(%r14,%rbp,8), %rcx
	movq	88(%rsp), %rdx
	cmpq	%rcx, %rdx
	movq	%rcx, %rax
	cmovbq	%rdx, %rax
	cmpq	%r15, %rax
	cmovbq	%rax, %r15
	subq	%r15, %rax
	cmpq	$16384, %rsi
	cmovaeq	%r13, %rsi
	subq	%rsi, %r13
	cmpq	%rax, %r13
	cmovaeq	%rax, %r13
	testq	%r13, %r13
	je	.Lrekusoyen_0_1_0.slugs.lists.put_list.77
	movq	%rbp, 96(%rsp)
	movq	48(%rsp), %rax
	leaq	(%rax,%r15), %rbx
	movq	16(%rsp), %rax
	leaq	(%rax,%rsi), %r14
	movq	%r14, %rax
	subq	%rbx, %rax
	movq	%rax, 24(%rsp)
	movq	80(%rsp), %rax
	addq	%r15, %rax
	movq	%rax, 32(%rsp)
	movq	72(%rsp), %rax
	addq	%rsi, %rax
	movq	%rax, 112(%rsp)
	addq	64(%rsp), %r15
	movq	%rsi, 104(%rsp)
	movq	56(%rsp), %rax
	addq	%rsi, %rax
	movq	%rax, 40(%rsp)
	xorl	%ebp, %ebp
	jmp	.Lrekusoyen_0_1_0.slugs.lists.put_list.57
	.p2align	4
.Lrekusoyen_0_1_0.slugs.lists.put_list.81:
	movq	%r12, %rdx
	callq	memmove@PLT
.Lrekusoyen_0_1_0.slugs.lists.put_list.75:
	addq	%r12, %rbp
	cmpq	%r13, %rbp
	jae	.Lrekusoyen_0_1_0.slugs.lists.put_list.76
.Lrekusoyen_0_1_0.slugs.lists.put_list.57:
	movq	%r13, %rcx
	subq	%rbp, %rcx
	cmpq	$2048, %rcx
	movl	$2048, %r12d
	cmovbq	%rcx, %r12
	leaq	(%r14,%rbp), %rdi
	leaq	(%rbx,%rbp), %rsi
	movq	%rdi, %rax
	subq	%rsi, %rax
	cmpq	%r12, %rax
	jae	.Lrekusoyen_0_1_0.slugs.lists.put_list.81
	xorl	%eax, %eax
	cmpq	$4, %rcx
	jb	.Lrekusoyen_0_1_0.slugs.lists.put_list.69
	cmpq	$32, 24(%rsp)
	jb	.Lrekusoyen_0_1_0.slugs.lists.put_list.69
	cmpq	$32, %rcx
	jae	.Lrekusoyen_0_1_0.slugs.lists.put_list.62
	xorl	%eax, %eax
	jmp	.Lrekusoyen_0_1_0.slugs.lists.put_list.66
.Lrekusoyen_0_1_0.slugs.lists.put_list.62:
	movl	%r12d, %eax
	andl	$4064, %eax
	movq	32(%rsp), %rcx
	addq	%rbp, %rcx
	movq	112(%rsp), %rdx
	addq	%rbp, %rdx
	xorl	%r8d, %r8d
	.p2align	4
.Lrekusoyen_0_1_0.slugs.lists.put_list.63:
	movups	-16(%rcx,%r8), %xmm0
	movups	(%rcx,%r8), %xmm1
	movups	%xmm0, -16(%rdx,%r8)
	movups	%xmm1, (%rdx,%r8)
	addq	$32, %r8
	cmpq	%r8, %rax
	jne	.Lrekusoyen_0_1_0.slugs.lists.put_list.63
	cmpq	%rax, %r12
	je	.Lrekusoyen_0_1_0.slugs.lists.put_list.75
	testb	$28, %r12b
	je	.Lrekusoyen_0_1_0.slugs.lists.put_list.69
.Lrekusoyen_0_1_0.slugs.lists.put_list.66:
	movq	%rax, %rcx
	movl	%r12d, %eax
	andl	$4092, %eax
	movq	%rax, %rdx
	subq	%rcx, %rdx
	addq	%rbp, %rcx
	leaq	(%rbx,%rcx), %r8
	addq	%r14, %rcx
	xorl	%r9d, %r9d
	.p2align	4
.Lrekusoyen_0_1_0.slugs.lists.put_list.67:
	movl	(%r8,%r9), %r10d
	movl	%r10d, (%rcx,%r9)
	addq	$4, %r9
	cmpq	%r9, %rdx
	jne	.Lrekusoyen_0_1_0.slugs.lists.put_list.67
	cmpq	%rax, %r12
	je	.Lrekusoyen_0_1_0.slugs.lists.put_list.75
.Lrekusoyen_0_1_0.slugs.lists.put_list.69:
	movq	%r12, %rdx
	movq	%rax, %rcx
	andq	$3, %rdx
	je	.Lrekusoyen_0_1_0.slugs.lists.put_list.72
	movq	%rax, %rcx
	.p2align	4
.Lrekusoyen_0_1_0.slugs.lists.put_list.71:
	movzbl	(%rsi,%rcx), %r8d
	movb	%r8b, (%rdi,%rcx)
	incq	%rcx
	decq	%rdx
	jne	.Lrekusoyen_0_1_0.slugs.lists.put_list.71
.Lrekusoyen_0_1_0.slugs.lists.put_list.72:
	subq	%r12, %rax
	cmpq	$-4, %rax
	ja	.Lrekusoyen_0_1_0.slugs.lists.put_list.75
	leaq	(%r15,%rbp), %rax
	movq	40(%rsp), %rdx
	addq	%rbp, %rdx
	.p2align	4
.Lrekusoyen_0_1_0.slugs.lists.put_list.74:
	movzbl	-3(%rax,%rcx), %esi
	movb	%sil, -3(%rdx,%rcx)
	movzbl	-2(%rax,%rcx), %esi
	movb	%sil, -2(%rdx,%rcx)
	movzbl	-1(%rax,%rcx), %esi
	movb	%sil, -1(%rdx,%rcx)
	movzbl	(%rax,%rcx), %esi
	movb	%sil, (%rdx,%rcx)
	addq	$4, %rcx
	cmpq	%rcx, %r12
	jne	.Lrekusoyen_0_1_0.slugs.lists.put_list.74
	jmp	.Lrekusoyen_0_1_0.slugs.lists.put_list.75
.Lrekusoyen_0_1_0.slugs.lists.put_list.2:
	xorl	%esi, %esi
	cmpq	$0, 184(%rsp)
	jne	.Lrekusoyen_0_1_0.slugs.lists.put_list.50
.Lrekusoyen_0_1_0.slugs.lists.put_list.78:
	cmpq	$16384, %rsi
	movl	$16384, %eax
	cmovbq	%rsi, %rax
	addq	$120, %rsp
	popq	%rbx
	popq	%r12
	popq	%r13
	popq	%r14
	popq	%r15
	popq	%rbp
	retq
.Lrekusoyen_0_1_0.slugs.lists.put_list.func_end:
	.size	rekusoyen_0_1_0.slugs.lists.put_list, .Lrekusoyen_0_1_0.slugs.lists.put_list.func_end-rekusoyen_0_1_0.slugs.lists.put_list
	.section	.text.rekusoyen_0_1_0.boot_page.build,"ax",@progbits
	.p2align	4
	.type	rekusoyen_0_1_0.boot_page.build,@function
rekusoyen_0_1_0.boot_page.build:
	pushq	%rbp
	pushq	%r15
	pushq	%r14
	pushq	%r13
	pushq	%r12
	pushq	%rbx
	subq	$40, %rsp
	movq	%r9, %r15
	movq	%rcx, 32(%rsp)
	movq	%rdx, %r13
	movq	%rsi, %r14
	movq	%rdi, %rbp
	movq	96(%rsp), %rdx
	movl	(%r8), %eax
	movl	%eax, 20(%rsp)
	movl	4(%r8), %ebx
	movl	8(%r8), %r12d
	movq	%rsi, %rdi
	movq	%r9, %rsi
	callq	rekusoyen_0_1_0.boot_page.building.check
	movl	%eax, %r10d
	testb	%al, %al
	jne	.Lrekusoyen_0_1_0.boot_page.build.62
	movl	%r12d, 16(%rsp)
	testq	%r14, %r14
	movq	%r15, %r12
	movq	32(%rsp), %r15
	je	.Lrekusoyen_0_1_0.boot_page.build.5
	movq	%r12, 24(%rsp)
	movq	%r14, %r12
	decq	%r12
	je	.Lrekusoyen_0_1_0.boot_page.build.4
	movq	%rbp, %rdi
	xorl	%esi, %esi
	movq	%r12, %rdx
	movb	%r10b, 15(%rsp)
	callq	memset@PLT
	movzbl	15(%rsp), %r10d
.Lrekusoyen_0_1_0.boot_page.build.4:
	movb	$0, (%rbp,%r12)
	movq	24(%rsp), %r12
.Lrekusoyen_0_1_0.boot_page.build.5:
	cmpq	$497, %r14
	movl	$497, %eax
	cmovbq	%r14, %rax
	movq	%r14, %rdx
	subq	%rax, %rdx
	cmpq	%r15, %rdx
	cmovaeq	%r15, %rdx
	testq	%rdx, %rdx
	je	.Lrekusoyen_0_1_0.boot_page.build.32
	leaq	(%rax,%rbp), %rdi
	movq	%rdi, %rcx
	subq	%r13, %rcx
	cmpq	%rdx, %rcx
	jae	.Lrekusoyen_0_1_0.boot_page.build.9
	cmpq	$4, %rdx
	jb	.Lrekusoyen_0_1_0.boot_page.build.8
	cmpq	$16, %rcx
	jae	.Lrekusoyen_0_1_0.boot_page.build.12
.Lrekusoyen_0_1_0.boot_page.build.8:
	xorl	%ecx, %ecx
.Lrekusoyen_0_1_0.boot_page.build.26:
	movq	%rdx, %r8
	movq	%rcx, %rsi
	andq	$3, %r8
	je	.Lrekusoyen_0_1_0.boot_page.build.29
	negq	%r8
	movq	%rcx, %rsi
	.p2align	4
.Lrekusoyen_0_1_0.boot_page.build.28:
	movzbl	(%r13,%rsi), %r9d
	movb	%r9b, (%rdi,%rsi)
	incq	%rsi
	incq	%r8
	jne	.Lrekusoyen_0_1_0.boot_page.build.28
.Lrekusoyen_0_1_0.boot_page.build.29:
	subq	%rdx, %rcx
	cmpq	$-4, %rcx
	ja	.Lrekusoyen_0_1_0.boot_page.build.32
	addq	%rbp, %rax
	addq	$3, %rax
	.p2align	4
.Lrekusoyen_0_1_0.boot_page.build.31:
	movzbl	(%r13,%rsi), %ecx
	movb	%cl, -3(%rax,%rsi)
	movzbl	1(%r13,%rsi), %ecx
	movb	%cl, -2(%rax,%rsi)
	movzbl	2(%r13,%rsi), %ecx
	movb	%cl, -1(%rax,%rsi)
	movzbl	3(%r13,%rsi), %ecx
	movb	%cl, (%rax,%rsi)
	addq	$4, %rsi
	cmpq	%rsi, %rdx
	jne	.Lrekusoyen_0_1_0.boot_page.build.31
	jmp	.Lrekusoyen_0_1_0.boot_page.build.32
.Lrekusoyen_0_1_0.boot_page.build.9:
	movq	%r13, %rsi
	movl	%r10d, %r15d
	callq	memmove@PLT
	movl	%r15d, %r10d
.Lrekusoyen_0_1_0.boot_page.build.32:
	movabsq	$-6148914691236517205, %rsi
	cmpq	$529, %r14
	jb	.Lrekusoyen_0_1_0.boot_page.build.38
	movb	$-1, 528(%rbp)
	cmpq	$553, %r14
	movq	96(%rsp), %r11
	jb	.Lrekusoyen_0_1_0.boot_page.build.40
	movl	20(%rsp), %edx
	movb	%dl, 552(%rbp)
	movl	$540, %eax
	je	.Lrekusoyen_0_1_0.boot_page.build.41
	movb	%dh, 553(%rbp)
	cmpq	$554, %r14
	je	.Lrekusoyen_0_1_0.boot_page.build.41
	movl	%edx, %ecx
	shrl	$16, %ecx
	movb	%cl, 554(%rbp)
	cmpq	$555, %r14
	je	.Lrekusoyen_0_1_0.boot_page.build.41
	shrl	$24, %edx
	movb	%dl, 555(%rbp)
	jmp	.Lrekusoyen_0_1_0.boot_page.build.41
.Lrekusoyen_0_1_0.boot_page.build.38:
	cmpq	$489, %r14
	movq	96(%rsp), %r11
	jae	.Lrekusoyen_0_1_0.boot_page.build.52
	testq	%r11, %r11
	jne	.Lrekusoyen_0_1_0.boot_page.build.53
	jmp	.Lrekusoyen_0_1_0.boot_page.build.61
.Lrekusoyen_0_1_0.boot_page.build.40:
	cmpq	$540, %r14
	movl	$540, %eax
	cmovbq	%r14, %rax
	cmpq	$537, %r14
	jb	.Lrekusoyen_0_1_0.boot_page.build.52
.Lrekusoyen_0_1_0.boot_page.build.41:
	leaq	-537(%rax), %rdi
	movl	%eax, %ecx
	andl	$3, %ecx
	movl	$536, %edx
	cmpq	$3, %rdi
	jb	.Lrekusoyen_0_1_0.boot_page.build.45
	andl	$1020, %eax
	.p2align	4
.Lrekusoyen_0_1_0.boot_page.build.43:
	movl	%ebx, (%rbp,%rdx)
	addq	$4, %rdx
	xorl	%ebx, %ebx
	cmpq	%rdx, %rax
	jne	.Lrekusoyen_0_1_0.boot_page.build.43
	xorl	%ebx, %ebx
	testq	%rcx, %rcx
	je	.Lrekusoyen_0_1_0.boot_page.build.47
.Lrekusoyen_0_1_0.boot_page.build.45:
	addq	%rbp, %rdx
	xorl	%eax, %eax
	.p2align	4
.Lrekusoyen_0_1_0.boot_page.build.46:
	movb	%bl, (%rdx,%rax)
	shrl	$8, %ebx
	incq	%rax
	cmpq	%rax, %rcx
	jne	.Lrekusoyen_0_1_0.boot_page.build.46
.Lrekusoyen_0_1_0.boot_page.build.47:
	cmpq	$541, %r14
	movl	16(%rsp), %ecx
	jb	.Lrekusoyen_0_1_0.boot_page.build.52
	movb	%cl, 540(%rbp)
	je	.Lrekusoyen_0_1_0.boot_page.build.52
	movb	%ch, 541(%rbp)
	cmpq	$542, %r14
	je	.Lrekusoyen_0_1_0.boot_page.build.52
	movl	%ecx, %eax
	shrl	$16, %eax
	movb	%al, 542(%rbp)
	cmpq	$543, %r14
	je	.Lrekusoyen_0_1_0.boot_page.build.52
	shrl	$24, %ecx
	movb	%cl, 543(%rbp)
.Lrekusoyen_0_1_0.boot_page.build.52:
	movq	%r11, %rax
	mulq	%rsi
	shrl	%edx
	movb	%dl, 488(%rbp)
	testq	%r11, %r11
	je	.Lrekusoyen_0_1_0.boot_page.build.61
.Lrekusoyen_0_1_0.boot_page.build.53:
	movl	$720, %eax
	xorl	%ecx, %ecx
	jmp	.Lrekusoyen_0_1_0.boot_page.build.55
	.p2align	4
.Lrekusoyen_0_1_0.boot_page.build.54:
	incq	%rcx
	cmpq	%r11, %rcx
	je	.Lrekusoyen_0_1_0.boot_page.build.61
.Lrekusoyen_0_1_0.boot_page.build.55:
	movq	%rax, %rdi
	movq	%rcx, %rax
	mulq	%rsi
	shrl	%edx
	leal	(%rdx,%rdx,2), %eax
	movl	%ecx, %edx
	subl	%eax, %edx
	shll	$3, %edx
	leaq	.Lrekusoyen_0_1_0.static.18(%rip), %rax
	movq	(%rdx,%rax), %rax
	cmpq	$8, %rax
	movl	$8, %edx
	cmovbq	%rax, %rdx
	addq	%rdi, %rdx
	movq	$-1, %rax
	cmovaeq	%rdx, %rax
	cmpq	%rax, %r14
	cmovbq	%r14, %rax
	movq	%rdi, %r8
	subq	%rax, %r8
	jae	.Lrekusoyen_0_1_0.boot_page.build.54
	movq	(%r12,%rcx,8), %rdx
	movl	%eax, %r9d
	subl	%edi, %r9d
	andl	$3, %r9d
	je	.Lrekusoyen_0_1_0.boot_page.build.59
	negq	%r9
	.p2align	4
.Lrekusoyen_0_1_0.boot_page.build.58:
	movb	%dl, (%rbp,%rdi)
	shrq	$8, %rdx
	incq	%rdi
	incq	%r9
	jne	.Lrekusoyen_0_1_0.boot_page.build.58
.Lrekusoyen_0_1_0.boot_page.build.59:
	cmpq	$-4, %r8
	ja	.Lrekusoyen_0_1_0.boot_page.build.54
	.p2align	4
.Lrekusoyen_0_1_0.boot_page.build.60:
	movl	%edx, (%rbp,%rdi)
	shrq	$32, %rdx
	addq	$4, %rdi
	cmpq	%rdi, %rax
	jne	.Lrekusoyen_0_1_0.boot_page.build.60
	jmp	.Lrekusoyen_0_1_0.boot_page.build.54
.Lrekusoyen_0_1_0.boot_page.build.61:
	xorl	%edx, %edx
.Lrekusoyen_0_1_0.boot_page.build.62:
	movl	%r10d, %eax
	addq	$40, %rsp
	popq	%rbx
	popq	%r12
	popq	%r13
	popq	%r14
	popq	%r15
	popq	%rbp
	retq
.Lrekusoyen_0_1_0.boot_page.build.12:
	cmpq	$16, %rdx
	jae	.Lrekusoyen_0_1_0.boot_page.build.14
	xorl	%ecx, %ecx
	jmp	.Lrekusoyen_0_1_0.boot_page.build.23
.Lrekusoyen_0_1_0.boot_page.build.14:
	movl	%edx, %ecx
	andl	$112, %ecx
	movups	(%r13), %xmm0
	movups	%xmm0, (%rdi)
	cmpq	$16, %rcx
	je	.Lrekusoyen_0_1_0.boot_page.build.21
	movups	16(%r13), %xmm0
	movups	%xmm0, 16(%rdi)
	cmpl	$32, %ecx
	je	.Lrekusoyen_0_1_0.boot_page.build.21
	movups	32(%r13), %xmm0
	movups	%xmm0, 32(%rdi)
	cmpl	$48, %ecx
	je	.Lrekusoyen_0_1_0.boot_page.build.21
	movups	48(%r13), %xmm0
	movups	%xmm0, 48(%rdi)
	cmpl	$64, %ecx
	je	.Lrekusoyen_0_1_0.boot_page.build.21
	movups	64(%r13), %xmm0
	movups	%xmm0, 64(%rdi)
	cmpl	$80, %ecx
	je	.Lrekusoyen_0_1_0.boot_page.build.21
	movups	80(%r13), %xmm0
	movups	%xmm0, 80(%rdi)
	cmpl	$96, %ecx
	je	.Lrekusoyen_0_1_0.boot_page.build.21
	movups	96(%r13), %xmm0
	movups	%xmm0, 96(%rdi)
.Lrekusoyen_0_1_0.boot_page.build.21:
	cmpq	%rcx, %rdx
	je	.Lrekusoyen_0_1_0.boot_page.build.32
	testb	$12, %dl
	je	.Lrekusoyen_0_1_0.boot_page.build.26
.Lrekusoyen_0_1_0.boot_page.build.23:
	movq	%rcx, %rsi
	movl	%edx, %ecx
	andl	$124, %ecx
	.p2align	4
.Lrekusoyen_0_1_0.boot_page.build.24:
	movl	(%r13,%rsi), %r8d
	movl	%r8d, (%rdi,%rsi)
	addq	$4, %rsi
	cmpq	%rsi, %rcx
	jne	.Lrekusoyen_0_1_0.boot_page.build.24
	cmpq	%rcx, %rdx
	je	.Lrekusoyen_0_1_0.boot_page.build.32
	jmp	.Lrekusoyen_0_1_0.boot_page.build.26
.Lrekusoyen_0_1_0.boot_page.build.func_end:
	.size	rekusoyen_0_1_0.boot_page.build, .Lrekusoyen_0_1_0.boot_page.build.func_end-rekusoyen_0_1_0.boot_page.build
	.section	.text.rekusoyen_0_1_0.boot_page.building.check,"ax",@progbits
	.p2align	4
	.type	rekusoyen_0_1_0.boot_page.building.check,@function
rekusoyen_0_1_0.boot_page.building.check:
	movq	%rdx, %rcx
	movb	$1, %al
	movb	$39, %dl
	cmpq	$4096, %rdi
	jne	.Lrekusoyen_0_1_0.boot_page.building.check.14
	movabsq	$-6148914691236517205, %r8
	movq	%rcx, %rax
	imulq	%r8, %rax
	movb	$32, %dl
	movabsq	$6148914691236517205, %rdi
	cmpq	%rdi, %rax
	jbe	.Lrekusoyen_0_1_0.boot_page.building.check.3
	movb	$1, %al
	retq
.Lrekusoyen_0_1_0.boot_page.building.check.3:
	testq	%rcx, %rcx
	je	.Lrekusoyen_0_1_0.boot_page.building.check.13
	pushq	%r14
	pushq	%rbx
	leaq	.Lrekusoyen_0_1_0.static.18(%rip), %r9
	xorl	%edi, %edi
	jmp	.Lrekusoyen_0_1_0.boot_page.building.check.6
	.p2align	4
.Lrekusoyen_0_1_0.boot_page.building.check.5:
	incq	%rdi
	addq	$8, %r9
	cmpq	%rdi, %rcx
	je	.Lrekusoyen_0_1_0.boot_page.building.check.10
.Lrekusoyen_0_1_0.boot_page.building.check.6:
	movq	%rdi, %rax
	mulq	%r8
	shlq	$2, %rdx
	andq	$-8, %rdx
	leaq	(%rdx,%rdx,2), %rax
	movq	%r9, %rdx
	subq	%rax, %rdx
	movq	(%rdx), %rax
	cmpq	$7, %rax
	ja	.Lrekusoyen_0_1_0.boot_page.building.check.5
	movq	(%rsi,%rdi,8), %rdx
	leaq	.Lrekusoyen_0_1_0.switch.table.start_info.writing.check(%rip), %r10
	cmpq	(%r10,%rax,8), %rdx
	jb	.Lrekusoyen_0_1_0.boot_page.building.check.5
	movb	$1, %al
	movb	$32, %dl
.Lrekusoyen_0_1_0.boot_page.building.check.9:
	popq	%rbx
	popq	%r14
	retq
.Lrekusoyen_0_1_0.boot_page.building.check.10:
	movb	$40, %dl
	cmpq	$386, %rcx
	ja	.Lrekusoyen_0_1_0.boot_page.building.check.15
	cmpq	$3, %rcx
	jae	.Lrekusoyen_0_1_0.boot_page.building.check.16
	xorl	%edx, %edx
	xorl	%eax, %eax
	popq	%rbx
	popq	%r14
	retq
.Lrekusoyen_0_1_0.boot_page.building.check.13:
	xorl	%edx, %edx
	xorl	%eax, %eax
.Lrekusoyen_0_1_0.boot_page.building.check.14:
	retq
.Lrekusoyen_0_1_0.boot_page.building.check.16:
	imull	$43691, %ecx, %ecx
	shrl	$17, %ecx
	xorl	%edi, %edi
	xorl	%r8d, %r8d
	jmp	.Lrekusoyen_0_1_0.boot_page.building.check.18
.Lrekusoyen_0_1_0.boot_page.building.check.17:
	incq	%r8
	addq	$24, %rdi
	xorl	%edx, %edx
	movl	$0, %eax
	cmpq	%rcx, %r8
	je	.Lrekusoyen_0_1_0.boot_page.building.check.9
.Lrekusoyen_0_1_0.boot_page.building.check.18:
	leaq	(%r8,%r8,2), %r9
	movq	8(%rsi,%r9,8), %rax
	movb	$41, %dl
	testq	%rax, %rax
	je	.Lrekusoyen_0_1_0.boot_page.building.check.15
	movq	(%rsi,%r9,8), %r9
	movq	%rax, %r10
	notq	%r10
	cmpq	%r10, %r9
	ja	.Lrekusoyen_0_1_0.boot_page.building.check.15
	testq	%r8, %r8
	je	.Lrekusoyen_0_1_0.boot_page.building.check.17
	movq	%rdi, %r10
	jmp	.Lrekusoyen_0_1_0.boot_page.building.check.24
	.p2align	4
.Lrekusoyen_0_1_0.boot_page.building.check.22:
	cmpq	%r14, %r11
	ja	.Lrekusoyen_0_1_0.boot_page.building.check.15
.Lrekusoyen_0_1_0.boot_page.building.check.23:
	addq	$-24, %r10
	je	.Lrekusoyen_0_1_0.boot_page.building.check.17
.Lrekusoyen_0_1_0.boot_page.building.check.24:
	movq	-24(%rsi,%r10), %rbx
	movq	-16(%rsi,%r10), %r11
	movq	%r9, %r14
	subq	%rbx, %r14
	jae	.Lrekusoyen_0_1_0.boot_page.building.check.22
	subq	%r9, %rbx
	cmpq	%rbx, %rax
	jbe	.Lrekusoyen_0_1_0.boot_page.building.check.23
	testq	%r11, %r11
	je	.Lrekusoyen_0_1_0.boot_page.building.check.23
.Lrekusoyen_0_1_0.boot_page.building.check.15:
	movb	$1, %al
	popq	%rbx
	popq	%r14
	retq
.Lrekusoyen_0_1_0.boot_page.building.check.func_end:
	.size	rekusoyen_0_1_0.boot_page.building.check, .Lrekusoyen_0_1_0.boot_page.building.check.func_end-rekusoyen_0_1_0.boot_page.building.check
	.section	.text.rekusoyen_0_1_0.boot.pvh.plan,"ax",@progbits
	.p2align	4
	.type	rekusoyen_0_1_0.boot.pvh.plan,@function
rekusoyen_0_1_0.boot.pvh.plan:
	pushq	%rbp
	pushq	%r15
	pushq	%r14
	pushq	%r13
	pushq	%r12
	pushq	%rbx
	subq	$376, %rsp
	movl	%r9d, 52(%rsp)
	movq	%r8, %r13
	movq	%rcx, %rbp
	movq	%rdx, %r12
	movq	%rsi, %r14
	movq	%rdi, %r15
	movq	472(%rsp), %rax
	movq	32(%r8), %rcx
	movq	%rcx, 368(%rsp)
	movups	(%r8), %xmm0
	movups	16(%r8), %xmm1
	movaps	%xmm1, 352(%rsp)
	movaps	%xmm0, 336(%rsp)
	movq	(%rax), %rcx
	movq	%rcx, 56(%rsp)
	movq	8(%rax), %rcx
	movq	%rcx, 88(%rsp)
	movl	16(%rax), %ecx
	movq	%rcx, 40(%rsp)
	movq	24(%rax), %rbx
	xorps	%xmm0, %xmm0
	movaps	%xmm0, 128(%rsp)
	movaps	%xmm0, 112(%rsp)
	movaps	%xmm0, 96(%rsp)
	movq	$0, 144(%rsp)
	leaq	96(%rsp), %rdi
	leaq	336(%rsp), %r8
	movq	%rbp, %rcx
	callq	rekusoyen_0_1_0.loads.formats.plan
	cmpb	$0, 96(%rsp)
	je	.Lrekusoyen_0_1_0.boot.pvh.plan.1
	movzbl	97(%rsp), %eax
	movb	$1, (%r15)
	movb	%al, 1(%r15)
	jmp	.Lrekusoyen_0_1_0.boot.pvh.plan.29
.Lrekusoyen_0_1_0.boot.pvh.plan.1:
	movq	%rbx, 80(%rsp)
	movups	104(%rsp), %xmm2
	movzbl	120(%rsp), %edx
	movq	128(%rsp), %rsi
	movups	(%r13), %xmm0
	movups	16(%r13), %xmm1
	movaps	%xmm0, 256(%rsp)
	movaps	%xmm1, 272(%rsp)
	movq	32(%r13), %rax
	movq	%rax, 288(%rsp)
	movq	%rsi, %rax
	shrq	$32, %rax
	movq	%rdx, %rcx
	orq	%rax, %rcx
	jne	.Lrekusoyen_0_1_0.boot.pvh.plan.26
	movaps	%xmm2, 240(%rsp)
	movq	%rsi, 64(%rsp)
	movq	%rdx, 72(%rsp)
	movq	464(%rsp), %r9
	movq	456(%rsp), %r8
	movq	448(%rsp), %rcx
	movq	440(%rsp), %rdx
	movq	%r14, %rdi
	movq	56(%rsp), %r13
	movq	%r13, %rsi
	callq	rekusoyen_0_1_0.loader.plan_texts
	testb	%al, %al
	jne	.Lrekusoyen_0_1_0.boot.pvh.plan.27
	movq	496(%rsp), %r9
	movq	488(%rsp), %r8
	movq	%r13, %rdi
	movq	480(%rsp), %r13
	xorl	%ecx, %ecx
	testq	%r13, %r13
	leaq	.Lrekusoyen_0_1_0.static.19(%rip), %rax
	leaq	304(%rsp), %rdx
	cmoveq	%rax, %rdx
	setne	%cl
	movl	%ecx, %eax
	shll	$5, %eax
	movq	40(%rsp), %r10
	addq	%r10, %rax
	addq	$56, %rax
	movq	88(%rsp), %rbx
	movq	%rbx, 304(%rsp)
	movq	%r13, 312(%rsp)
	xorps	%xmm0, %xmm0
	movups	%xmm0, 320(%rsp)
	leaq	56(%r10), %rsi
	shll	$2, %ecx
	movq	%r10, 192(%rsp)
	movq	%rsi, 200(%rsp)
	movq	%rax, 208(%rsp)
	movq	$0, 216(%rsp)
	movq	%rdi, 224(%rsp)
	movq	80(%rsp), %rax
	movq	%rax, 232(%rsp)
	leaq	192(%rsp), %rsi
	movq	%r14, %rdi
	callq	rekusoyen_0_1_0.start_info.writing.check
	testb	%al, %al
	jne	.Lrekusoyen_0_1_0.boot.pvh.plan.27
	movq	488(%rsp), %rdx
	movq	496(%rsp), %r10
	cmpb	$1, 256(%rsp)
	jne	.Lrekusoyen_0_1_0.boot.pvh.plan.15
	movl	$255, %eax
	cmpq	$520, %rbp
	movq	%r12, %rsi
	movq	40(%rsp), %rdi
	movq	448(%rsp), %r8
	movq	%r13, %r11
	jb	.Lrekusoyen_0_1_0.boot.pvh.plan.16
	cmpw	$518, 518(%rsi)
	movq	%rdx, %r12
	jb	.Lrekusoyen_0_1_0.boot.pvh.plan.17
	cmpq	$571, %rbp
	jbe	.Lrekusoyen_0_1_0.boot.pvh.plan.8
	movl	568(%rsi), %eax
	jmp	.Lrekusoyen_0_1_0.boot.pvh.plan.17
.Lrekusoyen_0_1_0.boot.pvh.plan.26:
	xorl	%ecx, %ecx
	testq	%rax, %rax
	movl	$56, %eax
	cmovel	%ecx, %eax
	testq	%rdx, %rdx
	movl	$58, %edx
	cmovel	%eax, %edx
.Lrekusoyen_0_1_0.boot.pvh.plan.27:
	movb	$1, (%r15)
	movb	%dl, 1(%r15)
.Lrekusoyen_0_1_0.boot.pvh.plan.29:
	xorps	%xmm0, %xmm0
	movups	%xmm0, 8(%r15)
	movups	%xmm0, 24(%r15)
	movups	%xmm0, 40(%r15)
	movq	$0, 56(%r15)
.Lrekusoyen_0_1_0.boot.pvh.plan.30:
	addq	$376, %rsp
	popq	%rbx
	popq	%r12
	popq	%r13
	popq	%r14
	popq	%r15
	popq	%rbp
	retq
.Lrekusoyen_0_1_0.boot.pvh.plan.15:
	movl	432(%rsp), %ecx
	testb	$1, 52(%rsp)
	movl	$2047, %eax
	cmovneq	%rcx, %rax
	movq	%r12, %rsi
	movq	40(%rsp), %rdi
	movq	448(%rsp), %r8
	movq	%r13, %r11
.Lrekusoyen_0_1_0.boot.pvh.plan.16:
	movq	%rdx, %r12
.Lrekusoyen_0_1_0.boot.pvh.plan.17:
	cmpq	$0, 464(%rsp)
	je	.Lrekusoyen_0_1_0.boot.pvh.plan.23
	movq	%rax, %rcx
	subq	%r8, %rcx
	jb	.Lrekusoyen_0_1_0.boot.pvh.plan.23
	subq	$4, %rcx
	setae	%al
	movq	464(%rsp), %r13
	cmpq	%rcx, %r13
	setbe	%cl
	movb	$55, %dl
	testb	%cl, %al
	je	.Lrekusoyen_0_1_0.boot.pvh.plan.27
	addq	$5, %r8
	addq	%r8, %r13
	movq	$-1, %r8
	cmovaeq	%r13, %r8
	jmp	.Lrekusoyen_0_1_0.boot.pvh.plan.21
.Lrekusoyen_0_1_0.boot.pvh.plan.23:
	movb	$55, %dl
	cmpq	$0, 464(%rsp)
	jne	.Lrekusoyen_0_1_0.boot.pvh.plan.27
	cmpq	%r8, %rax
	jb	.Lrekusoyen_0_1_0.boot.pvh.plan.27
	incq	%r8
.Lrekusoyen_0_1_0.boot.pvh.plan.21:
	xorl	%eax, %eax
	testq	%r11, %r11
	setne	%al
	movq	$1, 160(%rsp)
	movq	%r12, 168(%rsp)
	movq	%r10, 176(%rsp)
	shrq	$2, %r10
	movabsq	$4294967296, %rcx
	cmpq	%rcx, %r10
	cmovaeq	%rcx, %r10
	movq	$4, 184(%rsp)
	shll	$5, %eax
	leaq	(%r10,%r10,2), %rcx
	leaq	(%rax,%rcx,8), %rax
	addq	$56, %rax
	movq	%rdi, 24(%rsp)
	movq	%r11, 16(%rsp)
	movq	%rbx, 8(%rsp)
	movq	%r8, (%rsp)
	movq	%rax, 32(%rsp)
	leaq	256(%rsp), %rcx
	leaq	160(%rsp), %r8
	movq	%r14, %rdi
	movq	%rbp, %rdx
	movq	56(%rsp), %r9
	callq	rekusoyen_0_1_0.boot.pieces.check
	testb	%al, %al
	jne	.Lrekusoyen_0_1_0.boot.pvh.plan.27
	leaq	136(%rsp), %rax
	movw	$0, (%r15)
	movaps	240(%rsp), %xmm0
	movups	%xmm0, 8(%r15)
	movq	72(%rsp), %rcx
	movq	%rcx, 24(%r15)
	movq	64(%rsp), %rcx
	movq	%rcx, 32(%r15)
	movups	(%rax), %xmm0
	movups	%xmm0, 40(%r15)
	movq	%rcx, 56(%r15)
	jmp	.Lrekusoyen_0_1_0.boot.pvh.plan.30
.Lrekusoyen_0_1_0.boot.pvh.plan.8:
	xorl	%ecx, %ecx
	movq	%rbp, %rax
	subq	$568, %rax
	cmovaeq	%rax, %rcx
	cmpq	$3, %rcx
	jne	.Lrekusoyen_0_1_0.boot.pvh.plan.10
	movzbl	570(%rsi), %eax
	shll	$8, %eax
	jmp	.Lrekusoyen_0_1_0.boot.pvh.plan.11
.Lrekusoyen_0_1_0.boot.pvh.plan.10:
	xorl	%eax, %eax
	cmpq	$2, %rcx
	jb	.Lrekusoyen_0_1_0.boot.pvh.plan.12
.Lrekusoyen_0_1_0.boot.pvh.plan.11:
	movzbl	569(%rsi), %ecx
	orl	%ecx, %eax
	shll	$8, %eax
.Lrekusoyen_0_1_0.boot.pvh.plan.12:
	cmpq	$569, %rbp
	jb	.Lrekusoyen_0_1_0.boot.pvh.plan.17
	movzbl	568(%rsi), %ecx
	orq	%rcx, %rax
	jmp	.Lrekusoyen_0_1_0.boot.pvh.plan.17
.Lrekusoyen_0_1_0.boot.pvh.plan.func_end:
	.size	rekusoyen_0_1_0.boot.pvh.plan, .Lrekusoyen_0_1_0.boot.pvh.plan.func_end-rekusoyen_0_1_0.boot.pvh.plan
	.section	.text.rekusoyen_0_1_0.start_info.writing.check,"ax",@progbits
	.p2align	4
	.type	rekusoyen_0_1_0.start_info.writing.check,@function
rekusoyen_0_1_0.start_info.writing.check:
	pushq	%rbp
	pushq	%r15
	pushq	%r14
	pushq	%r13
	pushq	%r12
	pushq	%rbx
	subq	$24, %rsp
	movq	%rdx, %r10
	movq	(%rdi), %r15
	movb	$1, %al
	movb	$31, %dl
	movabsq	$1099511627776, %r11
	cmpq	%r11, %r15
	ja	.Lrekusoyen_0_1_0.start_info.writing.check.56
	movq	8(%rdi), %r14
	movb	$43, %dl
	cmpq	$16, %r14
	ja	.Lrekusoyen_0_1_0.start_info.writing.check.56
	movq	(%rsi), %r12
	movq	8(%rsi), %r11
	movq	%r11, 8(%rsp)
	movq	16(%rsi), %rsi
	movq	%rsi, (%rsp)
	testq	%r14, %r14
	je	.Lrekusoyen_0_1_0.start_info.writing.check.12
	movq	144(%rdi), %rsi
	testq	%rsi, %rsi
	je	.Lrekusoyen_0_1_0.start_info.writing.check.56
	movq	16(%rdi), %r13
	movq	%r15, %r11
	subq	%r13, %r11
	setae	%bl
	cmpq	%r11, %rsi
	setbe	%r11b
	andb	%bl, %r11b
	cmpb	$1, %r11b
	jne	.Lrekusoyen_0_1_0.start_info.writing.check.56
	cmpq	$1, %r14
	je	.Lrekusoyen_0_1_0.start_info.writing.check.12
	addq	%r13, %rsi
	leaq	-1(%r14), %r13
	xorl	%ebp, %ebp
	.p2align	4
.Lrekusoyen_0_1_0.start_info.writing.check.7:
	movq	24(%rdi,%rbp,8), %rbx
	cmpq	%rbx, %rsi
	jae	.Lrekusoyen_0_1_0.start_info.writing.check.56
	movq	152(%rdi,%rbp,8), %rsi
	testq	%rsi, %rsi
	je	.Lrekusoyen_0_1_0.start_info.writing.check.56
	movq	%r15, %r11
	subq	%rbx, %r11
	jb	.Lrekusoyen_0_1_0.start_info.writing.check.56
	cmpq	%r11, %rsi
	ja	.Lrekusoyen_0_1_0.start_info.writing.check.56
	addq	%rbx, %rsi
	incq	%rbp
	cmpq	%rbp, %r13
	jne	.Lrekusoyen_0_1_0.start_info.writing.check.7
.Lrekusoyen_0_1_0.start_info.writing.check.12:
	movb	$32, %dl
	testb	$3, %cl
	jne	.Lrekusoyen_0_1_0.start_info.writing.check.56
	xorl	%esi, %esi
	.p2align	4
.Lrekusoyen_0_1_0.start_info.writing.check.14:
	cmpq	%rsi, %rcx
	je	.Lrekusoyen_0_1_0.start_info.writing.check.17
	movq	%rsi, %rbx
	incq	%rsi
	movl	%ebx, %r11d
	notl	%r11d
	testb	$3, %r11b
	jne	.Lrekusoyen_0_1_0.start_info.writing.check.14
	cmpq	$0, (%r10,%rbx,8)
	je	.Lrekusoyen_0_1_0.start_info.writing.check.14
	jmp	.Lrekusoyen_0_1_0.start_info.writing.check.56
.Lrekusoyen_0_1_0.start_info.writing.check.17:
	testb	$3, %r9b
	je	.Lrekusoyen_0_1_0.start_info.writing.check.18
.Lrekusoyen_0_1_0.start_info.writing.check.56:
	addq	$24, %rsp
	popq	%rbx
	popq	%r12
	popq	%r13
	popq	%r14
	popq	%r15
	popq	%rbp
	retq
.Lrekusoyen_0_1_0.start_info.writing.check.18:
	testq	%r9, %r9
	je	.Lrekusoyen_0_1_0.start_info.writing.check.25
	xorl	%esi, %esi
	movq	%r9, %r10
	jmp	.Lrekusoyen_0_1_0.start_info.writing.check.20
.Lrekusoyen_0_1_0.start_info.writing.check.24:
	addq	$-2, %r10
	addq	$16, %rsi
	testq	%r10, %r10
	je	.Lrekusoyen_0_1_0.start_info.writing.check.25
.Lrekusoyen_0_1_0.start_info.writing.check.20:
	movl	%esi, %r11d
	andl	$16, %r11d
	leaq	.Lrekusoyen_0_1_0.static.21(%rip), %rbx
	movq	(%r11,%rbx), %r13
	cmpq	$7, %r13
	ja	.Lrekusoyen_0_1_0.start_info.writing.check.22
	movq	(%r8,%rsi), %r11
	leaq	.Lrekusoyen_0_1_0.switch.table.start_info.writing.check(%rip), %rbp
	cmpq	(%rbp,%r13,8), %r11
	jae	.Lrekusoyen_0_1_0.start_info.writing.check.56
.Lrekusoyen_0_1_0.start_info.writing.check.22:
	movl	%esi, %r11d
	andl	$16, %r11d
	movq	8(%r11,%rbx), %rbx
	cmpq	$7, %rbx
	ja	.Lrekusoyen_0_1_0.start_info.writing.check.24
	movq	8(%r8,%rsi), %r11
	leaq	.Lrekusoyen_0_1_0.switch.table.start_info.writing.check(%rip), %r13
	cmpq	(%r13,%rbx,8), %r11
	jb	.Lrekusoyen_0_1_0.start_info.writing.check.24
	jmp	.Lrekusoyen_0_1_0.start_info.writing.check.56
.Lrekusoyen_0_1_0.start_info.writing.check.25:
	xorl	%esi, %esi
.Lrekusoyen_0_1_0.start_info.writing.check.26:
	cmpq	%rsi, %r9
	je	.Lrekusoyen_0_1_0.start_info.writing.check.29
	movq	%rsi, %r10
	incq	%rsi
	movl	%r10d, %r11d
	notl	%r11d
	testb	$3, %r11b
	jne	.Lrekusoyen_0_1_0.start_info.writing.check.26
	cmpq	$0, (%r8,%r10,8)
	je	.Lrekusoyen_0_1_0.start_info.writing.check.26
	jmp	.Lrekusoyen_0_1_0.start_info.writing.check.56
.Lrekusoyen_0_1_0.start_info.writing.check.29:
	movq	%r9, %rdx
	orq	%rcx, %rdx
	shrq	$34, %rdx
	movb	$42, %dl
	jne	.Lrekusoyen_0_1_0.start_info.writing.check.56
	movq	%r15, %rsi
	subq	%r12, %rsi
	setae	%r8b
	cmpq	$56, %rsi
	setae	%sil
	andb	%r8b, %sil
	cmpb	$1, %sil
	jne	.Lrekusoyen_0_1_0.start_info.writing.check.56
	cmpq	$16, %r14
	movl	$16, %esi
	cmovbq	%r14, %rsi
	testq	%r14, %r14
	je	.Lrekusoyen_0_1_0.start_info.writing.check.56
	leaq	(,%rcx,8), %r13
	leaq	(%r9,%r9), %r8
	leaq	(%r8,%r8,2), %r14
	xorl	%r8d, %r8d
	jmp	.Lrekusoyen_0_1_0.start_info.writing.check.33
.Lrekusoyen_0_1_0.start_info.writing.check.36:
	incq	%r8
	cmpq	%r8, %rsi
	je	.Lrekusoyen_0_1_0.start_info.writing.check.56
.Lrekusoyen_0_1_0.start_info.writing.check.33:
	movq	%r12, %r10
	subq	16(%rdi,%r8,8), %r10
	jb	.Lrekusoyen_0_1_0.start_info.writing.check.36
	movq	144(%rdi,%r8,8), %rbx
	subq	%r10, %rbx
	jb	.Lrekusoyen_0_1_0.start_info.writing.check.36
	cmpq	$55, %rbx
	jbe	.Lrekusoyen_0_1_0.start_info.writing.check.36
	testq	%rcx, %rcx
	movq	8(%rsp), %rbx
	je	.Lrekusoyen_0_1_0.start_info.writing.check.44
	subq	%rbx, %r15
	setae	%r8b
	cmpq	%r15, %r13
	setbe	%r10b
	andb	%r8b, %r10b
	cmpb	$1, %r10b
	jne	.Lrekusoyen_0_1_0.start_info.writing.check.56
	xorl	%r8d, %r8d
	jmp	.Lrekusoyen_0_1_0.start_info.writing.check.40
.Lrekusoyen_0_1_0.start_info.writing.check.43:
	incq	%r8
	cmpq	%r8, %rsi
	je	.Lrekusoyen_0_1_0.start_info.writing.check.56
.Lrekusoyen_0_1_0.start_info.writing.check.40:
	movq	%rbx, %r10
	subq	16(%rdi,%r8,8), %r10
	jb	.Lrekusoyen_0_1_0.start_info.writing.check.43
	movq	144(%rdi,%r8,8), %r11
	subq	%r10, %r11
	jb	.Lrekusoyen_0_1_0.start_info.writing.check.43
	cmpq	%r11, %r13
	ja	.Lrekusoyen_0_1_0.start_info.writing.check.43
.Lrekusoyen_0_1_0.start_info.writing.check.44:
	movq	%rcx, %rbp
	movq	%r9, 16(%rsp)
	movq	(%rsp), %rsi
	movq	%r14, %rdx
	callq	rekusoyen_0_1_0.guest.room.room_for
	testb	%al, %al
	je	.Lrekusoyen_0_1_0.start_info.writing.check.45
	movq	%r12, %rax
	subq	8(%rsp), %rax
	jae	.Lrekusoyen_0_1_0.start_info.writing.check.48
	testq	%rbp, %rbp
	sete	%al
	movq	8(%rsp), %rcx
	subq	%r12, %rcx
	cmpq	$56, %rcx
	setae	%cl
	orb	%al, %cl
	jne	.Lrekusoyen_0_1_0.start_info.writing.check.49
.Lrekusoyen_0_1_0.start_info.writing.check.45:
	movb	$1, %al
	movb	$42, %dl
	jmp	.Lrekusoyen_0_1_0.start_info.writing.check.56
.Lrekusoyen_0_1_0.start_info.writing.check.48:
	cmpq	%rax, %r13
	ja	.Lrekusoyen_0_1_0.start_info.writing.check.45
.Lrekusoyen_0_1_0.start_info.writing.check.49:
	movq	%r12, %rax
	subq	(%rsp), %rax
	jae	.Lrekusoyen_0_1_0.start_info.writing.check.51
	cmpq	$0, 16(%rsp)
	sete	%al
	movq	(%rsp), %rcx
	subq	%r12, %rcx
	cmpq	$56, %rcx
	setae	%cl
	orb	%al, %cl
	movb	$1, %al
	movb	$42, %dl
	je	.Lrekusoyen_0_1_0.start_info.writing.check.56
	jmp	.Lrekusoyen_0_1_0.start_info.writing.check.52
.Lrekusoyen_0_1_0.start_info.writing.check.51:
	cmpq	%rax, %r14
	movb	$1, %al
	movb	$42, %dl
	ja	.Lrekusoyen_0_1_0.start_info.writing.check.56
.Lrekusoyen_0_1_0.start_info.writing.check.52:
	movq	8(%rsp), %rax
	subq	(%rsp), %rax
	jae	.Lrekusoyen_0_1_0.start_info.writing.check.54
	cmpq	$0, 16(%rsp)
	sete	%al
	movq	(%rsp), %rcx
	subq	8(%rsp), %rcx
	cmpq	%rcx, %r13
	setbe	%cl
	orb	%al, %cl
	jmp	.Lrekusoyen_0_1_0.start_info.writing.check.55
.Lrekusoyen_0_1_0.start_info.writing.check.54:
	testq	%rbp, %rbp
	sete	%dl
	cmpq	%rax, %r14
	setbe	%cl
	orb	%dl, %cl
.Lrekusoyen_0_1_0.start_info.writing.check.55:
	movl	%ecx, %eax
	xorb	$1, %al
	xorl	%esi, %esi
	testb	%cl, %cl
	movl	$42, %edx
	cmovnel	%esi, %edx
	jmp	.Lrekusoyen_0_1_0.start_info.writing.check.56
.Lrekusoyen_0_1_0.start_info.writing.check.func_end:
	.size	rekusoyen_0_1_0.start_info.writing.check, .Lrekusoyen_0_1_0.start_info.writing.check.func_end-rekusoyen_0_1_0.start_info.writing.check
	.section	.text.rekusoyen_0_1_0.boot.pieces.check,"ax",@progbits
	.p2align	4
	.type	rekusoyen_0_1_0.boot.pieces.check,@function
rekusoyen_0_1_0.boot.pieces.check:
	pushq	%rbp
	pushq	%r15
	pushq	%r14
	pushq	%r13
	pushq	%r12
	pushq	%rbx
	subq	$184, %rsp
	movq	%r9, 48(%rsp)
	movq	%rdx, %r10
	movq	%rsi, %r14
	movq	%rdi, %r12
	movzbl	(%rcx), %edx
	incq	%rcx
	movzbl	(%r8), %eax
	movb	%al, 7(%rsp)
	movq	8(%r8), %rax
	movq	%rax, 32(%rsp)
	movq	16(%r8), %rax
	movq	%rax, 16(%rsp)
	movq	24(%r8), %rax
	movq	%rax, 8(%rsp)
	movl	$1, %ebp
	movb	%dl, 6(%rsp)
	testb	%dl, %dl
	je	.Lrekusoyen_0_1_0.boot.pieces.check.1
.Lrekusoyen_0_1_0.boot.pieces.check.5:
	leaq	57(%rsp), %rdx
	xorl	%ebx, %ebx
	movq	%rcx, 104(%rsp)
	jmp	.Lrekusoyen_0_1_0.boot.pieces.check.7
	.p2align	4
.Lrekusoyen_0_1_0.boot.pieces.check.6:
	incq	%rbx
	cmpq	%rbp, %rbx
	movq	%r14, %r10
	movq	%r13, %r14
	movq	104(%rsp), %rcx
	movq	%r15, %rdx
	je	.Lrekusoyen_0_1_0.boot.pieces.check.19
.Lrekusoyen_0_1_0.boot.pieces.check.7:
	movzbl	6(%rsp), %eax
	movb	%al, 56(%rsp)
	movq	31(%rcx), %rax
	movq	%rax, 31(%rdx)
	movups	(%rcx), %xmm0
	movups	16(%rcx), %xmm1
	movups	%xmm1, 16(%rdx)
	movq	%rdx, %r15
	movups	%xmm0, (%rdx)
	leaq	56(%rsp), %rdx
	movq	%r14, %r13
	movq	%r14, %rdi
	movq	%r10, %r14
	movq	%r10, %rsi
	movq	%rbx, %rcx
	callq	rekusoyen_0_1_0.loads.formats.memory
	testq	%rdx, %rdx
	je	.Lrekusoyen_0_1_0.boot.pieces.check.6
	movq	(%r12), %rcx
	subq	%rax, %rcx
	jb	.Lrekusoyen_0_1_0.boot.pieces.check.16
	cmpq	%rcx, %rdx
	ja	.Lrekusoyen_0_1_0.boot.pieces.check.16
	movq	8(%r12), %rsi
	cmpq	$16, %rsi
	movl	$16, %ecx
	cmovbq	%rsi, %rcx
	testq	%rsi, %rsi
	je	.Lrekusoyen_0_1_0.boot.pieces.check.16
	xorl	%esi, %esi
	jmp	.Lrekusoyen_0_1_0.boot.pieces.check.13
	.p2align	4
.Lrekusoyen_0_1_0.boot.pieces.check.12:
	incq	%rsi
	cmpq	%rsi, %rcx
	je	.Lrekusoyen_0_1_0.boot.pieces.check.16
.Lrekusoyen_0_1_0.boot.pieces.check.13:
	movq	%rax, %rdi
	subq	16(%r12,%rsi,8), %rdi
	jb	.Lrekusoyen_0_1_0.boot.pieces.check.12
	movq	144(%r12,%rsi,8), %r8
	subq	%rdi, %r8
	jb	.Lrekusoyen_0_1_0.boot.pieces.check.12
	cmpq	%r8, %rdx
	ja	.Lrekusoyen_0_1_0.boot.pieces.check.12
	jmp	.Lrekusoyen_0_1_0.boot.pieces.check.6
.Lrekusoyen_0_1_0.boot.pieces.check.16:
	movb	$60, %dl
.Lrekusoyen_0_1_0.boot.pieces.check.17:
	movb	$1, %al
.Lrekusoyen_0_1_0.boot.pieces.check.18:
	addq	$184, %rsp
	popq	%rbx
	popq	%r12
	popq	%r13
	popq	%r14
	popq	%r15
	popq	%rbp
	retq
.Lrekusoyen_0_1_0.boot.pieces.check.1:
	cmpq	$57, %r10
	jbe	.Lrekusoyen_0_1_0.boot.pieces.check.3
	movzwl	56(%r14), %ebp
	testq	%rbp, %rbp
	jne	.Lrekusoyen_0_1_0.boot.pieces.check.5
	jmp	.Lrekusoyen_0_1_0.boot.pieces.check.19
.Lrekusoyen_0_1_0.boot.pieces.check.3:
	jne	.Lrekusoyen_0_1_0.boot.pieces.check.19
	movzbl	56(%r14), %ebp
	testq	%rbp, %rbp
	jne	.Lrekusoyen_0_1_0.boot.pieces.check.5
.Lrekusoyen_0_1_0.boot.pieces.check.19:
	movq	%rcx, %r13
	movq	256(%rsp), %rbp
	movq	248(%rsp), %r9
	testq	%rbp, %rbp
	je	.Lrekusoyen_0_1_0.boot.pieces.check.27
	movq	(%r12), %rax
	subq	%r9, %rax
	setae	%cl
	cmpq	%rax, %rbp
	setbe	%sil
	andb	%cl, %sil
	movb	$61, %dl
	movb	$1, %al
	cmpb	$1, %sil
	jne	.Lrekusoyen_0_1_0.boot.pieces.check.18
	movq	8(%r12), %rsi
	cmpq	$16, %rsi
	movl	$16, %ecx
	cmovbq	%rsi, %rcx
	testq	%rsi, %rsi
	je	.Lrekusoyen_0_1_0.boot.pieces.check.18
	xorl	%esi, %esi
	jmp	.Lrekusoyen_0_1_0.boot.pieces.check.24
	.p2align	4
.Lrekusoyen_0_1_0.boot.pieces.check.23:
	incq	%rsi
	cmpq	%rsi, %rcx
	je	.Lrekusoyen_0_1_0.boot.pieces.check.18
.Lrekusoyen_0_1_0.boot.pieces.check.24:
	movq	%r9, %rdi
	subq	16(%r12,%rsi,8), %rdi
	jb	.Lrekusoyen_0_1_0.boot.pieces.check.23
	movq	144(%r12,%rsi,8), %r8
	subq	%rdi, %r8
	jb	.Lrekusoyen_0_1_0.boot.pieces.check.23
	cmpq	%r8, %rbp
	ja	.Lrekusoyen_0_1_0.boot.pieces.check.23
.Lrekusoyen_0_1_0.boot.pieces.check.27:
	movq	272(%rsp), %r9
	movq	264(%rsp), %rbx
	testq	%r9, %r9
	je	.Lrekusoyen_0_1_0.boot.pieces.check.35
	movq	(%r12), %rax
	subq	%rbx, %rax
	setae	%cl
	cmpq	%rax, %r9
	setbe	%sil
	andb	%cl, %sil
	movb	$62, %dl
	movb	$1, %al
	cmpb	$1, %sil
	jne	.Lrekusoyen_0_1_0.boot.pieces.check.18
	movq	8(%r12), %rsi
	cmpq	$16, %rsi
	movl	$16, %ecx
	cmovbq	%rsi, %rcx
	testq	%rsi, %rsi
	je	.Lrekusoyen_0_1_0.boot.pieces.check.18
	xorl	%esi, %esi
	jmp	.Lrekusoyen_0_1_0.boot.pieces.check.32
	.p2align	4
.Lrekusoyen_0_1_0.boot.pieces.check.31:
	incq	%rsi
	cmpq	%rsi, %rcx
	je	.Lrekusoyen_0_1_0.boot.pieces.check.18
.Lrekusoyen_0_1_0.boot.pieces.check.32:
	movq	%rbx, %rdi
	subq	16(%r12,%rsi,8), %rdi
	jb	.Lrekusoyen_0_1_0.boot.pieces.check.31
	movq	144(%r12,%rsi,8), %r8
	subq	%rdi, %r8
	jb	.Lrekusoyen_0_1_0.boot.pieces.check.31
	cmpq	%r8, %r9
	ja	.Lrekusoyen_0_1_0.boot.pieces.check.31
.Lrekusoyen_0_1_0.boot.pieces.check.35:
	movq	240(%rsp), %r8
	movzbl	6(%rsp), %eax
	movb	%al, 56(%rsp)
	movups	(%r13), %xmm0
	movups	16(%r13), %xmm1
	movups	%xmm0, 57(%rsp)
	movups	%xmm1, 73(%rsp)
	movq	31(%r13), %rax
	movq	%rax, 88(%rsp)
	leaq	56(%rsp), %rdx
	movq	%r14, %rdi
	movq	%r10, %rsi
	movq	48(%rsp), %r15
	movq	%r15, %rcx
	movq	%r10, %r12
	callq	rekusoyen_0_1_0.boot.kernel.is_apart
	movb	$64, %dl
	testb	%al, %al
	je	.Lrekusoyen_0_1_0.boot.pieces.check.17
	leaq	56(%rsp), %rdx
	movq	%r14, %rdi
	movq	%r12, %rsi
	movq	248(%rsp), %rcx
	movq	%rbp, %r8
	callq	rekusoyen_0_1_0.boot.kernel.is_apart
	movb	$65, %dl
	testb	%al, %al
	je	.Lrekusoyen_0_1_0.boot.pieces.check.17
	leaq	56(%rsp), %rdx
	movq	%r14, %rdi
	movq	%r12, %rsi
	movq	%rbx, %rcx
	movq	272(%rsp), %r8
	callq	rekusoyen_0_1_0.boot.kernel.is_apart
	movb	$66, %dl
	testb	%al, %al
	je	.Lrekusoyen_0_1_0.boot.pieces.check.17
	movq	%r12, 24(%rsp)
	movq	%r15, %rax
	movq	248(%rsp), %rcx
	subq	%rcx, %rax
	jae	.Lrekusoyen_0_1_0.boot.pieces.check.40
	testq	%rbp, %rbp
	sete	%al
	subq	%r15, %rcx
	cmpq	%rcx, 240(%rsp)
	setbe	%cl
	orb	%al, %cl
	movb	$67, %dl
	je	.Lrekusoyen_0_1_0.boot.pieces.check.17
	jmp	.Lrekusoyen_0_1_0.boot.pieces.check.41
.Lrekusoyen_0_1_0.boot.pieces.check.40:
	cmpq	%rax, %rbp
	seta	%al
	cmpq	$0, 240(%rsp)
	setne	%cl
	movb	$67, %dl
	testb	%al, %cl
	jne	.Lrekusoyen_0_1_0.boot.pieces.check.17
.Lrekusoyen_0_1_0.boot.pieces.check.41:
	movq	%r15, %rax
	subq	%rbx, %rax
	jae	.Lrekusoyen_0_1_0.boot.pieces.check.43
	cmpq	$0, 272(%rsp)
	sete	%al
	movq	%rbx, %rcx
	subq	%r15, %rcx
	cmpq	%rcx, 240(%rsp)
	setbe	%cl
	orb	%al, %cl
	movb	$68, %dl
	je	.Lrekusoyen_0_1_0.boot.pieces.check.17
	jmp	.Lrekusoyen_0_1_0.boot.pieces.check.44
.Lrekusoyen_0_1_0.boot.pieces.check.43:
	cmpq	%rax, 272(%rsp)
	seta	%al
	cmpq	$0, 240(%rsp)
	setne	%cl
	movb	$68, %dl
	testb	%al, %cl
	jne	.Lrekusoyen_0_1_0.boot.pieces.check.17
.Lrekusoyen_0_1_0.boot.pieces.check.44:
	movq	248(%rsp), %rcx
	movq	%rcx, %rax
	subq	%rbx, %rax
	jae	.Lrekusoyen_0_1_0.boot.pieces.check.48
	cmpq	$0, 272(%rsp)
	sete	%al
	subq	%rcx, %rbx
	cmpq	%rbx, %rbp
	setbe	%cl
	orb	%al, %cl
	movq	8(%rsp), %r15
	movzbl	7(%rsp), %r12d
	movq	24(%rsp), %rdx
	jne	.Lrekusoyen_0_1_0.boot.pieces.check.49
.Lrekusoyen_0_1_0.boot.pieces.check.46:
	movb	$69, %dl
	jmp	.Lrekusoyen_0_1_0.boot.pieces.check.17
.Lrekusoyen_0_1_0.boot.pieces.check.48:
	testq	%rbp, %rbp
	setne	%cl
	cmpq	%rax, 272(%rsp)
	seta	%al
	testb	%al, %cl
	movq	8(%rsp), %r15
	movzbl	7(%rsp), %r12d
	movq	24(%rsp), %rdx
	jne	.Lrekusoyen_0_1_0.boot.pieces.check.46
.Lrekusoyen_0_1_0.boot.pieces.check.49:
	movl	$1, %esi
	cmpb	$0, 6(%rsp)
	movq	%r13, %rcx
	jne	.Lrekusoyen_0_1_0.boot.pieces.check.55
	cmpq	$57, %rdx
	jbe	.Lrekusoyen_0_1_0.boot.pieces.check.52
	movzwl	56(%r14), %esi
	jmp	.Lrekusoyen_0_1_0.boot.pieces.check.54
.Lrekusoyen_0_1_0.boot.pieces.check.52:
	jne	.Lrekusoyen_0_1_0.boot.pieces.check.82
	movzbl	56(%r14), %esi
.Lrekusoyen_0_1_0.boot.pieces.check.54:
	testq	%rsi, %rsi
	je	.Lrekusoyen_0_1_0.boot.pieces.check.82
.Lrekusoyen_0_1_0.boot.pieces.check.55:
	leaq	57(%rsp), %rdi
	leaq	145(%rsp), %r8
	leaq	(,%r15,8), %rbx
	movq	32(%rsp), %rax
	addq	$16, %rax
	movq	%rax, 40(%rsp)
	xorl	%ebp, %ebp
	movq	%rsi, 96(%rsp)
.Lrekusoyen_0_1_0.boot.pieces.check.56:
	movzbl	6(%rsp), %esi
	movb	%sil, 56(%rsp)
	movq	31(%rcx), %rax
	movq	%rax, 31(%rdi)
	movups	(%rcx), %xmm0
	movups	16(%rcx), %xmm1
	movups	%xmm1, 16(%rdi)
	movups	%xmm0, (%rdi)
	movb	%sil, 144(%rsp)
	movq	31(%rcx), %rax
	movq	%rax, 31(%r8)
	movups	(%rcx), %xmm0
	movups	16(%rcx), %xmm1
	movups	%xmm1, 16(%r8)
	movups	%xmm0, (%r8)
	xorps	%xmm0, %xmm0
	movaps	%xmm0, 112(%rsp)
	movq	$0, 128(%rsp)
	leaq	112(%rsp), %rdi
	leaq	56(%rsp), %rcx
	movq	%r14, %rsi
	movq	%rbp, %r8
	callq	rekusoyen_0_1_0.loads.formats.part
	testb	%r12b, %r12b
	je	.Lrekusoyen_0_1_0.boot.pieces.check.68
	movq	128(%rsp), %rcx
	testq	%rcx, %rcx
	je	.Lrekusoyen_0_1_0.boot.pieces.check.68
	testq	%r15, %r15
	je	.Lrekusoyen_0_1_0.boot.pieces.check.109
	movq	112(%rsp), %rsi
	movq	16(%rsp), %rdi
	movq	%rdi, %rax
	orq	%r15, %rax
	shrq	$32, %rax
	je	.Lrekusoyen_0_1_0.boot.pieces.check.61
	movq	%rdi, %rax
	xorl	%edx, %edx
	divq	%r15
	jmp	.Lrekusoyen_0_1_0.boot.pieces.check.62
.Lrekusoyen_0_1_0.boot.pieces.check.61:
	movl	%edi, %eax
	xorl	%edx, %edx
	divl	%r15d
.Lrekusoyen_0_1_0.boot.pieces.check.62:
	cmpq	%rdi, %r15
	ja	.Lrekusoyen_0_1_0.boot.pieces.check.87
	xorl	%edx, %edx
	movq	40(%rsp), %rdi
	jmp	.Lrekusoyen_0_1_0.boot.pieces.check.65
.Lrekusoyen_0_1_0.boot.pieces.check.64:
	incq	%rdx
	addq	%rbx, %rdi
	cmpq	%rax, %rdx
	jae	.Lrekusoyen_0_1_0.boot.pieces.check.87
.Lrekusoyen_0_1_0.boot.pieces.check.65:
	cmpq	$1, (%rdi)
	jne	.Lrekusoyen_0_1_0.boot.pieces.check.64
	movq	%rsi, %r8
	subq	-16(%rdi), %r8
	jb	.Lrekusoyen_0_1_0.boot.pieces.check.64
	movq	-8(%rdi), %r9
	subq	%r8, %r9
	setae	%r8b
	cmpq	%r9, %rcx
	setbe	%r9b
	testb	%r9b, %r8b
	je	.Lrekusoyen_0_1_0.boot.pieces.check.64
.Lrekusoyen_0_1_0.boot.pieces.check.68:
	leaq	144(%rsp), %rdx
	movq	%r14, %rdi
	movq	24(%rsp), %rsi
	movq	%rbp, %rcx
	callq	rekusoyen_0_1_0.loads.formats.memory
	testb	%r12b, %r12b
	je	.Lrekusoyen_0_1_0.boot.pieces.check.81
	movq	%rdx, %rsi
	testq	%rdx, %rdx
	je	.Lrekusoyen_0_1_0.boot.pieces.check.81
	testq	%r15, %r15
	je	.Lrekusoyen_0_1_0.boot.pieces.check.109
	movq	%rax, %rcx
	movq	16(%rsp), %rdi
	movq	%rdi, %rax
	orq	%r15, %rax
	shrq	$32, %rax
	je	.Lrekusoyen_0_1_0.boot.pieces.check.73
	movq	%rdi, %rax
	xorl	%edx, %edx
	divq	%r15
	jmp	.Lrekusoyen_0_1_0.boot.pieces.check.74
.Lrekusoyen_0_1_0.boot.pieces.check.73:
	movl	%edi, %eax
	xorl	%edx, %edx
	divl	%r15d
.Lrekusoyen_0_1_0.boot.pieces.check.74:
	cmpq	%rdi, %r15
	ja	.Lrekusoyen_0_1_0.boot.pieces.check.87
	xorl	%edx, %edx
	movq	40(%rsp), %rdi
	jmp	.Lrekusoyen_0_1_0.boot.pieces.check.77
.Lrekusoyen_0_1_0.boot.pieces.check.76:
	incq	%rdx
	addq	%rbx, %rdi
	cmpq	%rax, %rdx
	jae	.Lrekusoyen_0_1_0.boot.pieces.check.87
.Lrekusoyen_0_1_0.boot.pieces.check.77:
	cmpq	$1, (%rdi)
	jne	.Lrekusoyen_0_1_0.boot.pieces.check.76
	movq	%rcx, %r8
	subq	-16(%rdi), %r8
	jb	.Lrekusoyen_0_1_0.boot.pieces.check.76
	movq	-8(%rdi), %r9
	subq	%r8, %r9
	jb	.Lrekusoyen_0_1_0.boot.pieces.check.76
	cmpq	%r9, %rsi
	ja	.Lrekusoyen_0_1_0.boot.pieces.check.76
.Lrekusoyen_0_1_0.boot.pieces.check.81:
	incq	%rbp
	movq	96(%rsp), %rsi
	cmpq	%rsi, %rbp
	movq	24(%rsp), %rdx
	movq	%r13, %rcx
	leaq	57(%rsp), %rdi
	leaq	145(%rsp), %r8
	jne	.Lrekusoyen_0_1_0.boot.pieces.check.56
.Lrekusoyen_0_1_0.boot.pieces.check.82:
	cmpq	$0, 240(%rsp)
	je	.Lrekusoyen_0_1_0.boot.pieces.check.95
	testb	%r12b, %r12b
	je	.Lrekusoyen_0_1_0.boot.pieces.check.95
	testq	%r15, %r15
	je	.Lrekusoyen_0_1_0.boot.pieces.check.109
	movq	16(%rsp), %rsi
	movq	%rsi, %rax
	orq	%r15, %rax
	shrq	$32, %rax
	je	.Lrekusoyen_0_1_0.boot.pieces.check.88
	movq	%rsi, %rax
	xorl	%edx, %edx
	divq	%r15
	movq	%rax, %rcx
	jmp	.Lrekusoyen_0_1_0.boot.pieces.check.89
.Lrekusoyen_0_1_0.boot.pieces.check.87:
	movb	$70, %dl
	jmp	.Lrekusoyen_0_1_0.boot.pieces.check.17
.Lrekusoyen_0_1_0.boot.pieces.check.88:
	movl	%esi, %eax
	xorl	%edx, %edx
	divl	%r15d
	movl	%eax, %ecx
.Lrekusoyen_0_1_0.boot.pieces.check.89:
	movb	$71, %dl
	movb	$1, %al
	cmpq	%rsi, %r15
	ja	.Lrekusoyen_0_1_0.boot.pieces.check.18
	movq	8(%rsp), %rsi
	leaq	(,%rsi,8), %rsi
	movq	32(%rsp), %rdi
	addq	$16, %rdi
	xorl	%r8d, %r8d
	movzbl	7(%rsp), %r12d
	movq	48(%rsp), %r11
	jmp	.Lrekusoyen_0_1_0.boot.pieces.check.92
.Lrekusoyen_0_1_0.boot.pieces.check.91:
	incq	%r8
	addq	%rsi, %rdi
	cmpq	%rcx, %r8
	jae	.Lrekusoyen_0_1_0.boot.pieces.check.18
.Lrekusoyen_0_1_0.boot.pieces.check.92:
	cmpq	$1, (%rdi)
	jne	.Lrekusoyen_0_1_0.boot.pieces.check.91
	movq	%r11, %r9
	subq	-16(%rdi), %r9
	jb	.Lrekusoyen_0_1_0.boot.pieces.check.91
	movq	-8(%rdi), %r10
	subq	%r9, %r10
	setae	%r9b
	cmpq	%r10, 240(%rsp)
	setbe	%r10b
	testb	%r10b, %r9b
	je	.Lrekusoyen_0_1_0.boot.pieces.check.91
.Lrekusoyen_0_1_0.boot.pieces.check.95:
	xorl	%eax, %eax
	cmpq	$0, 256(%rsp)
	je	.Lrekusoyen_0_1_0.boot.pieces.check.100
	movl	$0, %edx
	testb	%r12b, %r12b
	je	.Lrekusoyen_0_1_0.boot.pieces.check.18
	cmpq	$0, 8(%rsp)
	je	.Lrekusoyen_0_1_0.boot.pieces.check.109
	movq	16(%rsp), %rax
	orq	8(%rsp), %rax
	shrq	$32, %rax
	je	.Lrekusoyen_0_1_0.boot.pieces.check.101
	movq	16(%rsp), %rax
	xorl	%edx, %edx
	divq	8(%rsp)
	movq	%rax, %rcx
	jmp	.Lrekusoyen_0_1_0.boot.pieces.check.102
.Lrekusoyen_0_1_0.boot.pieces.check.100:
	xorl	%edx, %edx
	jmp	.Lrekusoyen_0_1_0.boot.pieces.check.18
.Lrekusoyen_0_1_0.boot.pieces.check.101:
	movq	16(%rsp), %rax
	xorl	%edx, %edx
	divl	8(%rsp)
	movl	%eax, %ecx
.Lrekusoyen_0_1_0.boot.pieces.check.102:
	movb	$72, %dl
	movb	$1, %al
	movq	16(%rsp), %rsi
	cmpq	%rsi, 8(%rsp)
	ja	.Lrekusoyen_0_1_0.boot.pieces.check.18
	movq	8(%rsp), %r10
	shlq	$3, %r10
	movq	32(%rsp), %r9
	addq	$16, %r9
	xorl	%esi, %esi
	movq	256(%rsp), %r11
	jmp	.Lrekusoyen_0_1_0.boot.pieces.check.105
.Lrekusoyen_0_1_0.boot.pieces.check.104:
	incq	%rsi
	addq	%r10, %r9
	cmpq	%rcx, %rsi
	jae	.Lrekusoyen_0_1_0.boot.pieces.check.18
.Lrekusoyen_0_1_0.boot.pieces.check.105:
	cmpq	$1, (%r9)
	jne	.Lrekusoyen_0_1_0.boot.pieces.check.104
	movq	248(%rsp), %rdi
	subq	-16(%r9), %rdi
	jb	.Lrekusoyen_0_1_0.boot.pieces.check.104
	movq	-8(%r9), %r8
	subq	%rdi, %r8
	setae	%dil
	cmpq	%r8, %r11
	setbe	%r8b
	testb	%r8b, %dil
	je	.Lrekusoyen_0_1_0.boot.pieces.check.104
	xorl	%eax, %eax
	xorl	%edx, %edx
	jmp	.Lrekusoyen_0_1_0.boot.pieces.check.18
.Lrekusoyen_0_1_0.boot.pieces.check.109:
	ud2
.Lrekusoyen_0_1_0.boot.pieces.check.func_end:
	.size	rekusoyen_0_1_0.boot.pieces.check, .Lrekusoyen_0_1_0.boot.pieces.check.func_end-rekusoyen_0_1_0.boot.pieces.check
	.section	.text.rekusoyen_0_1_0.loads.formats.memory,"ax",@progbits
	.p2align	4
	.type	rekusoyen_0_1_0.loads.formats.memory,@function
rekusoyen_0_1_0.loads.formats.memory:
	movzbl	(%rdx), %eax
	movzbl	8(%rdx), %r10d
	movq	16(%rdx), %r9
	cmpl	$2, %eax
	je	.Lrekusoyen_0_1_0.loads.formats.memory.63
	cmpl	$1, %eax
	jne	.Lrekusoyen_0_1_0.loads.formats.memory.2
	cmpq	$520, %rsi
	jb	.Lrekusoyen_0_1_0.loads.formats.memory.15
	cmpw	$522, 518(%rdi)
	jb	.Lrekusoyen_0_1_0.loads.formats.memory.15
	cmpq	$535, %rsi
	jbe	.Lrekusoyen_0_1_0.loads.formats.memory.18
	movl	532(%rdi), %r8d
	cmpb	$1, %r10b
	cmoveq	%r9, %r8
	cmpq	$607, %rsi
	jbe	.Lrekusoyen_0_1_0.loads.formats.memory.26
	movq	600(%rdi), %rax
	jmp	.Lrekusoyen_0_1_0.loads.formats.memory.47
.Lrekusoyen_0_1_0.loads.formats.memory.63:
	xorl	%edx, %edx
	cmpb	$1, %r10b
	cmoveq	%r9, %rdx
	cmpq	$15, %rsi
	jbe	.Lrekusoyen_0_1_0.loads.formats.memory.64
	movq	8(%rdi), %rax
	addq	%rdx, %rax
	jb	.Lrekusoyen_0_1_0.loads.formats.memory.15
	jmp	.Lrekusoyen_0_1_0.loads.formats.memory.84
.Lrekusoyen_0_1_0.loads.formats.memory.2:
	cmpq	$57, %rsi
	jbe	.Lrekusoyen_0_1_0.loads.formats.memory.3
	movzwl	56(%rdi), %eax
	cmpq	%rcx, %rax
	ja	.Lrekusoyen_0_1_0.loads.formats.memory.8
	jmp	.Lrekusoyen_0_1_0.loads.formats.memory.4
.Lrekusoyen_0_1_0.loads.formats.memory.64:
	xorl	%r8d, %r8d
	movq	%rsi, %rax
	subq	$8, %rax
	cmovaeq	%rax, %r8
	cmpq	$7, %r8
	jne	.Lrekusoyen_0_1_0.loads.formats.memory.66
	movzbl	14(%rdi), %eax
	shll	$8, %eax
	jmp	.Lrekusoyen_0_1_0.loads.formats.memory.68
.Lrekusoyen_0_1_0.loads.formats.memory.3:
	jne	.Lrekusoyen_0_1_0.loads.formats.memory.4
	movzbl	56(%rdi), %eax
	cmpq	%rcx, %rax
	jbe	.Lrekusoyen_0_1_0.loads.formats.memory.4
.Lrekusoyen_0_1_0.loads.formats.memory.8:
	movq	32(%rdi), %r8
	xorl	%eax, %eax
	subq	%r8, %rsi
	jb	.Lrekusoyen_0_1_0.loads.formats.memory.9
	imulq	$56, %rcx, %rcx
	leaq	56(%rcx), %r11
	movl	$0, %edx
	cmpq	%rsi, %r11
	ja	.Lrekusoyen_0_1_0.loads.formats.memory.105
	addq	%r8, %rdi
	cmpl	$1, (%rcx,%rdi)
	jne	.Lrekusoyen_0_1_0.loads.formats.memory.4
	xorl	%eax, %eax
	cmpb	$1, %r10b
	cmoveq	%r9, %rax
	addq	24(%rdi,%rcx), %rax
	jae	.Lrekusoyen_0_1_0.loads.formats.memory.13
.Lrekusoyen_0_1_0.loads.formats.memory.4:
	xorl	%eax, %eax
	xorl	%edx, %edx
	retq
.Lrekusoyen_0_1_0.loads.formats.memory.66:
	cmpq	$6, %r8
	jb	.Lrekusoyen_0_1_0.loads.formats.memory.69
	xorl	%eax, %eax
.Lrekusoyen_0_1_0.loads.formats.memory.68:
	movzbl	13(%rdi), %r8d
	orl	%r8d, %eax
	shll	$8, %eax
.Lrekusoyen_0_1_0.loads.formats.memory.71:
	movzbl	12(%rdi), %r8d
	orl	%r8d, %eax
	shll	$8, %eax
.Lrekusoyen_0_1_0.loads.formats.memory.74:
	movzbl	11(%rdi), %r8d
	orq	%rax, %r8
	shlq	$8, %r8
.Lrekusoyen_0_1_0.loads.formats.memory.77:
	movzbl	10(%rdi), %eax
	orq	%r8, %rax
	shlq	$8, %rax
.Lrekusoyen_0_1_0.loads.formats.memory.79:
	movzbl	9(%rdi), %r8d
	orq	%rax, %r8
	shlq	$8, %r8
	movq	%r8, %rax
.Lrekusoyen_0_1_0.loads.formats.memory.80:
	cmpq	$9, %rsi
	jae	.Lrekusoyen_0_1_0.loads.formats.memory.81
	addq	%rdx, %rax
	jae	.Lrekusoyen_0_1_0.loads.formats.memory.84
.Lrekusoyen_0_1_0.loads.formats.memory.15:
	xorl	%edx, %edx
	xorl	%eax, %eax
.Lrekusoyen_0_1_0.loads.formats.memory.104:
	xorl	%esi, %esi
	testq	%rcx, %rcx
	cmovneq	%rsi, %rax
	cmovneq	%rsi, %rdx
.Lrekusoyen_0_1_0.loads.formats.memory.105:
	retq
.Lrekusoyen_0_1_0.loads.formats.memory.81:
	movzbl	8(%rdi), %r8d
	orq	%r8, %rax
	addq	%rdx, %rax
	jb	.Lrekusoyen_0_1_0.loads.formats.memory.15
.Lrekusoyen_0_1_0.loads.formats.memory.84:
	cmpq	$23, %rsi
	jbe	.Lrekusoyen_0_1_0.loads.formats.memory.85
	movq	16(%rdi), %rdx
	jmp	.Lrekusoyen_0_1_0.loads.formats.memory.104
.Lrekusoyen_0_1_0.loads.formats.memory.85:
	xorl	%r8d, %r8d
	movq	%rsi, %rdx
	subq	$16, %rdx
	cmovaeq	%rdx, %r8
	cmpq	$7, %r8
	jne	.Lrekusoyen_0_1_0.loads.formats.memory.87
	movzbl	22(%rdi), %edx
	shll	$8, %edx
	jmp	.Lrekusoyen_0_1_0.loads.formats.memory.89
.Lrekusoyen_0_1_0.loads.formats.memory.18:
	xorl	%eax, %eax
	movq	%rsi, %rdx
	subq	$532, %rdx
	cmovaeq	%rdx, %rax
	cmpq	$3, %rax
	jne	.Lrekusoyen_0_1_0.loads.formats.memory.20
	movzbl	534(%rdi), %r8d
	shll	$8, %r8d
	jmp	.Lrekusoyen_0_1_0.loads.formats.memory.21
.Lrekusoyen_0_1_0.loads.formats.memory.69:
	cmpq	$5, %r8
	jne	.Lrekusoyen_0_1_0.loads.formats.memory.72
	xorl	%eax, %eax
	jmp	.Lrekusoyen_0_1_0.loads.formats.memory.71
.Lrekusoyen_0_1_0.loads.formats.memory.87:
	cmpq	$6, %r8
	jb	.Lrekusoyen_0_1_0.loads.formats.memory.90
	xorl	%edx, %edx
.Lrekusoyen_0_1_0.loads.formats.memory.89:
	movzbl	21(%rdi), %r8d
	orl	%r8d, %edx
	shll	$8, %edx
.Lrekusoyen_0_1_0.loads.formats.memory.92:
	movzbl	20(%rdi), %r8d
	orl	%r8d, %edx
	shll	$8, %edx
.Lrekusoyen_0_1_0.loads.formats.memory.95:
	movzbl	19(%rdi), %r8d
	orq	%rdx, %r8
	shlq	$8, %r8
.Lrekusoyen_0_1_0.loads.formats.memory.98:
	movzbl	18(%rdi), %edx
	orq	%r8, %rdx
	shlq	$8, %rdx
.Lrekusoyen_0_1_0.loads.formats.memory.100:
	movzbl	17(%rdi), %r8d
	orq	%rdx, %r8
	shlq	$8, %r8
	movq	%r8, %rdx
.Lrekusoyen_0_1_0.loads.formats.memory.101:
	cmpq	$17, %rsi
	jb	.Lrekusoyen_0_1_0.loads.formats.memory.104
	movzbl	16(%rdi), %esi
	orq	%rsi, %rdx
	jmp	.Lrekusoyen_0_1_0.loads.formats.memory.104
.Lrekusoyen_0_1_0.loads.formats.memory.9:
	xorl	%edx, %edx
	retq
.Lrekusoyen_0_1_0.loads.formats.memory.20:
	xorl	%r8d, %r8d
	cmpq	$2, %rax
	jb	.Lrekusoyen_0_1_0.loads.formats.memory.22
.Lrekusoyen_0_1_0.loads.formats.memory.21:
	movzbl	533(%rdi), %eax
	orl	%eax, %r8d
	shll	$8, %r8d
.Lrekusoyen_0_1_0.loads.formats.memory.22:
	cmpq	$533, %rsi
	jb	.Lrekusoyen_0_1_0.loads.formats.memory.24
	movzbl	532(%rdi), %eax
	orq	%rax, %r8
.Lrekusoyen_0_1_0.loads.formats.memory.24:
	cmpb	$1, %r10b
	cmoveq	%r9, %r8
.Lrekusoyen_0_1_0.loads.formats.memory.26:
	xorl	%edx, %edx
	movq	%rsi, %rax
	subq	$600, %rax
	cmovaeq	%rax, %rdx
	cmpq	$7, %rdx
	jne	.Lrekusoyen_0_1_0.loads.formats.memory.28
	movzbl	606(%rdi), %eax
	shll	$8, %eax
	jmp	.Lrekusoyen_0_1_0.loads.formats.memory.30
.Lrekusoyen_0_1_0.loads.formats.memory.28:
	cmpq	$6, %rdx
	jb	.Lrekusoyen_0_1_0.loads.formats.memory.31
	xorl	%eax, %eax
.Lrekusoyen_0_1_0.loads.formats.memory.30:
	movzbl	605(%rdi), %edx
	orl	%edx, %eax
	shll	$8, %eax
.Lrekusoyen_0_1_0.loads.formats.memory.33:
	movzbl	604(%rdi), %edx
	orl	%edx, %eax
	shll	$8, %eax
.Lrekusoyen_0_1_0.loads.formats.memory.36:
	movzbl	603(%rdi), %edx
	orq	%rax, %rdx
	shlq	$8, %rdx
.Lrekusoyen_0_1_0.loads.formats.memory.39:
	movzbl	602(%rdi), %eax
	orq	%rdx, %rax
	shlq	$8, %rax
.Lrekusoyen_0_1_0.loads.formats.memory.41:
	movzbl	601(%rdi), %edx
	orq	%rax, %rdx
	shlq	$8, %rdx
	movq	%rdx, %rax
.Lrekusoyen_0_1_0.loads.formats.memory.42:
	cmpq	$601, %rsi
	jb	.Lrekusoyen_0_1_0.loads.formats.memory.44
	movzbl	600(%rdi), %edx
	orq	%rdx, %rax
	jmp	.Lrekusoyen_0_1_0.loads.formats.memory.47
.Lrekusoyen_0_1_0.loads.formats.memory.44:
	cmpq	$564, %rsi
	ja	.Lrekusoyen_0_1_0.loads.formats.memory.47
	leaq	608(%rdi), %r8
	jmp	.Lrekusoyen_0_1_0.loads.formats.memory.56
.Lrekusoyen_0_1_0.loads.formats.memory.47:
	cmpb	$0, 564(%rdi)
	je	.Lrekusoyen_0_1_0.loads.formats.memory.55
	movl	560(%rdi), %r9d
	cmpl	$1, %r9d
	adcl	$0, %r9d
	cmpq	%r8, %rax
	cmovaq	%rax, %r8
	movq	%r8, %rax
	shrq	$32, %rax
	je	.Lrekusoyen_0_1_0.loads.formats.memory.49
	movq	%r8, %rax
	xorl	%edx, %edx
	divq	%r9
	jmp	.Lrekusoyen_0_1_0.loads.formats.memory.51
.Lrekusoyen_0_1_0.loads.formats.memory.72:
	cmpq	$4, %r8
	jb	.Lrekusoyen_0_1_0.loads.formats.memory.75
	xorl	%eax, %eax
	jmp	.Lrekusoyen_0_1_0.loads.formats.memory.74
.Lrekusoyen_0_1_0.loads.formats.memory.90:
	cmpq	$5, %r8
	jne	.Lrekusoyen_0_1_0.loads.formats.memory.93
	xorl	%edx, %edx
	jmp	.Lrekusoyen_0_1_0.loads.formats.memory.92
.Lrekusoyen_0_1_0.loads.formats.memory.49:
	movl	%r8d, %eax
	xorl	%edx, %edx
	divl	%r9d
.Lrekusoyen_0_1_0.loads.formats.memory.51:
	movq	%r9, %rax
	subq	%rdx, %rax
	movq	%rax, %rdx
	shrq	$32, %rdx
	je	.Lrekusoyen_0_1_0.loads.formats.memory.52
	xorl	%edx, %edx
	divq	%r9
	jmp	.Lrekusoyen_0_1_0.loads.formats.memory.54
.Lrekusoyen_0_1_0.loads.formats.memory.52:
	xorl	%edx, %edx
	divl	%r9d
.Lrekusoyen_0_1_0.loads.formats.memory.54:
	addq	%r8, %rdx
	movq	$-1, %rax
	cmovaeq	%rdx, %rax
.Lrekusoyen_0_1_0.loads.formats.memory.55:
	leaq	608(%rdi), %r8
	cmpq	$611, %rsi
	jbe	.Lrekusoyen_0_1_0.loads.formats.memory.56
	movl	(%r8), %edx
	jmp	.Lrekusoyen_0_1_0.loads.formats.memory.104
.Lrekusoyen_0_1_0.loads.formats.memory.56:
	xorl	%r9d, %r9d
	movq	%rsi, %rdx
	subq	$608, %rdx
	cmovaeq	%rdx, %r9
	cmpq	$3, %r9
	jne	.Lrekusoyen_0_1_0.loads.formats.memory.58
	movzbl	610(%rdi), %edx
	shll	$8, %edx
	jmp	.Lrekusoyen_0_1_0.loads.formats.memory.59
.Lrekusoyen_0_1_0.loads.formats.memory.58:
	xorl	%edx, %edx
	cmpq	$2, %r9
	jb	.Lrekusoyen_0_1_0.loads.formats.memory.60
.Lrekusoyen_0_1_0.loads.formats.memory.59:
	movzbl	609(%rdi), %edi
	orl	%edi, %edx
	shll	$8, %edx
.Lrekusoyen_0_1_0.loads.formats.memory.60:
	cmpq	$609, %rsi
	jb	.Lrekusoyen_0_1_0.loads.formats.memory.104
	movzbl	(%r8), %esi
	orq	%rsi, %rdx
	jmp	.Lrekusoyen_0_1_0.loads.formats.memory.104
.Lrekusoyen_0_1_0.loads.formats.memory.31:
	cmpq	$5, %rdx
	jne	.Lrekusoyen_0_1_0.loads.formats.memory.34
	xorl	%eax, %eax
	jmp	.Lrekusoyen_0_1_0.loads.formats.memory.33
.Lrekusoyen_0_1_0.loads.formats.memory.13:
	movq	40(%rdi,%rcx), %rdx
	retq
.Lrekusoyen_0_1_0.loads.formats.memory.75:
	cmpq	$3, %r8
	jne	.Lrekusoyen_0_1_0.loads.formats.memory.78
	xorl	%r8d, %r8d
	jmp	.Lrekusoyen_0_1_0.loads.formats.memory.77
.Lrekusoyen_0_1_0.loads.formats.memory.93:
	cmpq	$4, %r8
	jb	.Lrekusoyen_0_1_0.loads.formats.memory.96
	xorl	%edx, %edx
	jmp	.Lrekusoyen_0_1_0.loads.formats.memory.95
.Lrekusoyen_0_1_0.loads.formats.memory.34:
	cmpq	$4, %rdx
	jb	.Lrekusoyen_0_1_0.loads.formats.memory.37
	xorl	%eax, %eax
	jmp	.Lrekusoyen_0_1_0.loads.formats.memory.36
.Lrekusoyen_0_1_0.loads.formats.memory.78:
	xorl	%eax, %eax
	cmpq	$2, %r8
	jae	.Lrekusoyen_0_1_0.loads.formats.memory.79
	jmp	.Lrekusoyen_0_1_0.loads.formats.memory.80
.Lrekusoyen_0_1_0.loads.formats.memory.96:
	cmpq	$3, %r8
	jne	.Lrekusoyen_0_1_0.loads.formats.memory.99
	xorl	%r8d, %r8d
	jmp	.Lrekusoyen_0_1_0.loads.formats.memory.98
.Lrekusoyen_0_1_0.loads.formats.memory.37:
	cmpq	$3, %rdx
	jne	.Lrekusoyen_0_1_0.loads.formats.memory.40
	xorl	%edx, %edx
	jmp	.Lrekusoyen_0_1_0.loads.formats.memory.39
.Lrekusoyen_0_1_0.loads.formats.memory.99:
	xorl	%edx, %edx
	cmpq	$2, %r8
	jae	.Lrekusoyen_0_1_0.loads.formats.memory.100
	jmp	.Lrekusoyen_0_1_0.loads.formats.memory.101
.Lrekusoyen_0_1_0.loads.formats.memory.40:
	xorl	%eax, %eax
	cmpq	$2, %rdx
	jae	.Lrekusoyen_0_1_0.loads.formats.memory.41
	jmp	.Lrekusoyen_0_1_0.loads.formats.memory.42
.Lrekusoyen_0_1_0.loads.formats.memory.func_end:
	.size	rekusoyen_0_1_0.loads.formats.memory, .Lrekusoyen_0_1_0.loads.formats.memory.func_end-rekusoyen_0_1_0.loads.formats.memory
	.section	.text.rekusoyen_0_1_0.boot.kernel.is_apart,"ax",@progbits
	.p2align	4
	.type	rekusoyen_0_1_0.boot.kernel.is_apart,@function
rekusoyen_0_1_0.boot.kernel.is_apart:
	pushq	%rbp
	pushq	%r15
	pushq	%r14
	pushq	%r13
	pushq	%r12
	pushq	%rbx
	subq	$120, %rsp
	movq	%rcx, %r14
	movq	%rdx, %r15
	movq	%rsi, %r12
	movq	%rdi, (%rsp)
	movzbl	(%rdx), %ebx
	movl	$1, %r13d
	testb	%bl, %bl
	je	.Lrekusoyen_0_1_0.boot.kernel.is_apart.1
.Lrekusoyen_0_1_0.boot.kernel.is_apart.5:
	movb	$1, %al
	testq	%r8, %r8
	je	.Lrekusoyen_0_1_0.boot.kernel.is_apart.17
	movq	%r8, 8(%rsp)
	incq	%r15
	xorl	%ebp, %ebp
	jmp	.Lrekusoyen_0_1_0.boot.kernel.is_apart.9
	.p2align	4
.Lrekusoyen_0_1_0.boot.kernel.is_apart.7:
	cmpq	%rcx, 8(%rsp)
	seta	%al
	testq	%rdx, %rdx
	setne	%cl
	testb	%al, %cl
	jne	.Lrekusoyen_0_1_0.boot.kernel.is_apart.16
.Lrekusoyen_0_1_0.boot.kernel.is_apart.8:
	incq	%rbp
	cmpq	%rbp, %r13
	je	.Lrekusoyen_0_1_0.boot.kernel.is_apart.15
.Lrekusoyen_0_1_0.boot.kernel.is_apart.9:
	movb	%bl, 80(%rsp)
	movq	31(%r15), %rax
	leaq	81(%rsp), %rcx
	movq	%rax, 31(%rcx)
	movups	(%r15), %xmm0
	movups	16(%r15), %xmm1
	movups	%xmm1, 16(%rcx)
	movups	%xmm0, (%rcx)
	movb	%bl, 40(%rsp)
	movq	31(%r15), %rax
	leaq	41(%rsp), %rcx
	movq	%rax, 31(%rcx)
	movups	(%r15), %xmm0
	movups	16(%r15), %xmm1
	movups	%xmm1, 16(%rcx)
	movups	%xmm0, (%rcx)
	xorps	%xmm0, %xmm0
	movaps	%xmm0, 16(%rsp)
	movq	$0, 32(%rsp)
	leaq	16(%rsp), %rdi
	leaq	80(%rsp), %rcx
	movq	(%rsp), %rsi
	movq	%r12, %rdx
	movq	%rbp, %r8
	callq	rekusoyen_0_1_0.loads.formats.part
	movq	16(%rsp), %rcx
	movq	32(%rsp), %rax
	movq	%rcx, %rdx
	subq	%r14, %rdx
	jae	.Lrekusoyen_0_1_0.boot.kernel.is_apart.11
	movq	%r14, %rdx
	subq	%rcx, %rdx
	cmpq	%rdx, %rax
	jbe	.Lrekusoyen_0_1_0.boot.kernel.is_apart.12
	jmp	.Lrekusoyen_0_1_0.boot.kernel.is_apart.16
	.p2align	4
.Lrekusoyen_0_1_0.boot.kernel.is_apart.11:
	cmpq	%rdx, 8(%rsp)
	seta	%cl
	testq	%rax, %rax
	setne	%al
	testb	%cl, %al
	jne	.Lrekusoyen_0_1_0.boot.kernel.is_apart.16
.Lrekusoyen_0_1_0.boot.kernel.is_apart.12:
	leaq	40(%rsp), %rdx
	movq	(%rsp), %rdi
	movq	%r12, %rsi
	movq	%rbp, %rcx
	callq	rekusoyen_0_1_0.loads.formats.memory
	movq	%rax, %rcx
	subq	%r14, %rcx
	jae	.Lrekusoyen_0_1_0.boot.kernel.is_apart.7
	movq	%r14, %rcx
	subq	%rax, %rcx
	cmpq	%rcx, %rdx
	jbe	.Lrekusoyen_0_1_0.boot.kernel.is_apart.8
.Lrekusoyen_0_1_0.boot.kernel.is_apart.16:
	xorl	%eax, %eax
	jmp	.Lrekusoyen_0_1_0.boot.kernel.is_apart.17
.Lrekusoyen_0_1_0.boot.kernel.is_apart.1:
	cmpq	$57, %r12
	jbe	.Lrekusoyen_0_1_0.boot.kernel.is_apart.3
	movq	(%rsp), %rax
	movzwl	56(%rax), %r13d
	testq	%r13, %r13
	jne	.Lrekusoyen_0_1_0.boot.kernel.is_apart.5
	jmp	.Lrekusoyen_0_1_0.boot.kernel.is_apart.15
.Lrekusoyen_0_1_0.boot.kernel.is_apart.3:
	movb	$1, %al
	jne	.Lrekusoyen_0_1_0.boot.kernel.is_apart.17
	movq	(%rsp), %rax
	movzbl	56(%rax), %r13d
	testq	%r13, %r13
	jne	.Lrekusoyen_0_1_0.boot.kernel.is_apart.5
.Lrekusoyen_0_1_0.boot.kernel.is_apart.15:
	movb	$1, %al
.Lrekusoyen_0_1_0.boot.kernel.is_apart.17:
	addq	$120, %rsp
	popq	%rbx
	popq	%r12
	popq	%r13
	popq	%r14
	popq	%r15
	popq	%rbp
	retq
.Lrekusoyen_0_1_0.boot.kernel.is_apart.func_end:
	.size	rekusoyen_0_1_0.boot.kernel.is_apart, .Lrekusoyen_0_1_0.boot.kernel.is_apart.func_end-rekusoyen_0_1_0.boot.kernel.is_apart
	.section	.text.rekusoyen_0_1_0.loads.formats.part,"ax",@progbits
	.p2align	4
	.type	rekusoyen_0_1_0.loads.formats.part,@function
rekusoyen_0_1_0.loads.formats.part:
	movzbl	(%rcx), %eax
	movzbl	8(%rcx), %r10d
	movq	16(%rcx), %rcx
	cmpl	$2, %eax
	je	.Lrekusoyen_0_1_0.loads.formats.part.26
	cmpl	$1, %eax
	jne	.Lrekusoyen_0_1_0.loads.formats.part.2
	cmpq	$535, %rdx
	jbe	.Lrekusoyen_0_1_0.loads.formats.part.15
	movl	532(%rsi), %eax
	jmp	.Lrekusoyen_0_1_0.loads.formats.part.22
.Lrekusoyen_0_1_0.loads.formats.part.26:
	xorl	%r9d, %r9d
	cmpb	$1, %r10b
	cmoveq	%rcx, %r9
	cmpq	$15, %rdx
	jbe	.Lrekusoyen_0_1_0.loads.formats.part.27
	movq	8(%rsi), %rax
	jmp	.Lrekusoyen_0_1_0.loads.formats.part.46
.Lrekusoyen_0_1_0.loads.formats.part.2:
	cmpq	$57, %rdx
	jbe	.Lrekusoyen_0_1_0.loads.formats.part.3
	movzwl	56(%rsi), %eax
	cmpq	%r8, %rax
	ja	.Lrekusoyen_0_1_0.loads.formats.part.8
	jmp	.Lrekusoyen_0_1_0.loads.formats.part.4
.Lrekusoyen_0_1_0.loads.formats.part.15:
	xorl	%r9d, %r9d
	movq	%rdx, %rax
	subq	$532, %rax
	cmovaeq	%rax, %r9
	cmpq	$3, %r9
	jne	.Lrekusoyen_0_1_0.loads.formats.part.17
	movzbl	534(%rsi), %eax
	shll	$8, %eax
	jmp	.Lrekusoyen_0_1_0.loads.formats.part.18
.Lrekusoyen_0_1_0.loads.formats.part.27:
	xorl	%ecx, %ecx
	movq	%rdx, %rax
	subq	$8, %rax
	cmovaeq	%rax, %rcx
	cmpq	$7, %rcx
	jne	.Lrekusoyen_0_1_0.loads.formats.part.29
	movzbl	14(%rsi), %eax
	shll	$8, %eax
	jmp	.Lrekusoyen_0_1_0.loads.formats.part.31
.Lrekusoyen_0_1_0.loads.formats.part.3:
	jne	.Lrekusoyen_0_1_0.loads.formats.part.4
	movzbl	56(%rsi), %eax
	cmpq	%r8, %rax
	jbe	.Lrekusoyen_0_1_0.loads.formats.part.4
.Lrekusoyen_0_1_0.loads.formats.part.8:
	pushq	%r14
	pushq	%rbx
	movq	32(%rsi), %rbx
	xorl	%eax, %eax
	subq	%rbx, %rdx
	jb	.Lrekusoyen_0_1_0.loads.formats.part.9
	imulq	$56, %r8, %r8
	leaq	56(%r8), %r14
	movl	$0, %r11d
	movl	$0, %r9d
	cmpq	%rdx, %r14
	ja	.Lrekusoyen_0_1_0.loads.formats.part.10
	addq	%rbx, %rsi
	xorl	%eax, %eax
	cmpb	$1, %r10b
	cmovneq	%rax, %rcx
	cmpl	$1, (%r8,%rsi)
	setne	%dl
	addq	24(%r8,%rsi), %rcx
	setb	%r10b
	orb	%dl, %r10b
	movl	$0, %r11d
	movl	$0, %r9d
	testb	$1, %r10b
	jne	.Lrekusoyen_0_1_0.loads.formats.part.10
	movq	8(%r8,%rsi), %r11
	movq	32(%r8,%rsi), %r9
	movq	%rcx, %rax
	jmp	.Lrekusoyen_0_1_0.loads.formats.part.10
.Lrekusoyen_0_1_0.loads.formats.part.17:
	xorl	%eax, %eax
	cmpq	$2, %r9
	jb	.Lrekusoyen_0_1_0.loads.formats.part.19
.Lrekusoyen_0_1_0.loads.formats.part.18:
	movzbl	533(%rsi), %r9d
	orl	%r9d, %eax
	shll	$8, %eax
.Lrekusoyen_0_1_0.loads.formats.part.19:
	cmpq	$533, %rdx
	jb	.Lrekusoyen_0_1_0.loads.formats.part.23
	movzbl	532(%rsi), %r9d
	orq	%r9, %rax
.Lrekusoyen_0_1_0.loads.formats.part.22:
	cmpb	$1, %r10b
	cmoveq	%rcx, %rax
.Lrekusoyen_0_1_0.loads.formats.part.24:
	movzbl	497(%rsi), %esi
	movl	%esi, %ecx
	shll	$9, %ecx
	addq	$512, %rcx
	testl	%esi, %esi
	movl	$2560, %r11d
	cmovneq	%rcx, %r11
	movl	$4, %ecx
	cmovnel	%esi, %ecx
	shll	$9, %ecx
	addq	$512, %rcx
.Lrekusoyen_0_1_0.loads.formats.part.25:
	xorl	%r9d, %r9d
	subq	%rcx, %rdx
	cmovaeq	%rdx, %r9
	testq	%r8, %r8
	je	.Lrekusoyen_0_1_0.loads.formats.part.47
.Lrekusoyen_0_1_0.loads.formats.part.4:
	xorl	%eax, %eax
	xorl	%r11d, %r11d
	xorl	%r9d, %r9d
.Lrekusoyen_0_1_0.loads.formats.part.47:
	movq	%rax, (%rdi)
	movq	%r11, 8(%rdi)
	movq	%r9, 16(%rdi)
	retq
.Lrekusoyen_0_1_0.loads.formats.part.23:
	cmpb	$1, %r10b
	cmoveq	%rcx, %rax
	movl	$2560, %r11d
	movl	$2560, %ecx
	cmpq	$498, %rdx
	jae	.Lrekusoyen_0_1_0.loads.formats.part.24
	jmp	.Lrekusoyen_0_1_0.loads.formats.part.25
.Lrekusoyen_0_1_0.loads.formats.part.29:
	cmpq	$6, %rcx
	jb	.Lrekusoyen_0_1_0.loads.formats.part.32
	xorl	%eax, %eax
.Lrekusoyen_0_1_0.loads.formats.part.31:
	movzbl	13(%rsi), %ecx
	orl	%ecx, %eax
	shll	$8, %eax
.Lrekusoyen_0_1_0.loads.formats.part.34:
	movzbl	12(%rsi), %ecx
	orl	%ecx, %eax
	shll	$8, %eax
.Lrekusoyen_0_1_0.loads.formats.part.37:
	movzbl	11(%rsi), %ecx
	orq	%rax, %rcx
	shlq	$8, %rcx
.Lrekusoyen_0_1_0.loads.formats.part.40:
	movzbl	10(%rsi), %eax
	orq	%rcx, %rax
	shlq	$8, %rax
.Lrekusoyen_0_1_0.loads.formats.part.42:
	movzbl	9(%rsi), %ecx
	orq	%rax, %rcx
	shlq	$8, %rcx
	movq	%rcx, %rax
.Lrekusoyen_0_1_0.loads.formats.part.43:
	cmpq	$9, %rdx
	jb	.Lrekusoyen_0_1_0.loads.formats.part.46
	movzbl	8(%rsi), %ecx
	orq	%rcx, %rax
.Lrekusoyen_0_1_0.loads.formats.part.46:
	xorl	%r11d, %r11d
	addq	%r9, %rax
	cmovbq	%r11, %rax
	cmovbq	%r11, %rdx
	testq	%r8, %r8
	cmovneq	%r11, %rax
	cmovneq	%r11, %rdx
	movq	%rdx, %r9
	movq	%rax, (%rdi)
	movq	%r11, 8(%rdi)
	movq	%r9, 16(%rdi)
	retq
.Lrekusoyen_0_1_0.loads.formats.part.32:
	cmpq	$5, %rcx
	jne	.Lrekusoyen_0_1_0.loads.formats.part.35
	xorl	%eax, %eax
	jmp	.Lrekusoyen_0_1_0.loads.formats.part.34
.Lrekusoyen_0_1_0.loads.formats.part.9:
	xorl	%r11d, %r11d
	xorl	%r9d, %r9d
.Lrekusoyen_0_1_0.loads.formats.part.10:
	popq	%rbx
	popq	%r14
	movq	%rax, (%rdi)
	movq	%r11, 8(%rdi)
	movq	%r9, 16(%rdi)
	retq
.Lrekusoyen_0_1_0.loads.formats.part.35:
	cmpq	$4, %rcx
	jb	.Lrekusoyen_0_1_0.loads.formats.part.38
	xorl	%eax, %eax
	jmp	.Lrekusoyen_0_1_0.loads.formats.part.37
.Lrekusoyen_0_1_0.loads.formats.part.38:
	cmpq	$3, %rcx
	jne	.Lrekusoyen_0_1_0.loads.formats.part.41
	xorl	%ecx, %ecx
	jmp	.Lrekusoyen_0_1_0.loads.formats.part.40
.Lrekusoyen_0_1_0.loads.formats.part.41:
	xorl	%eax, %eax
	cmpq	$2, %rcx
	jae	.Lrekusoyen_0_1_0.loads.formats.part.42
	jmp	.Lrekusoyen_0_1_0.loads.formats.part.43
.Lrekusoyen_0_1_0.loads.formats.part.func_end:
	.size	rekusoyen_0_1_0.loads.formats.part, .Lrekusoyen_0_1_0.loads.formats.part.func_end-rekusoyen_0_1_0.loads.formats.part
	.section	.text.rekusoyen_0_1_0.start_info.write,"ax",@progbits
	.p2align	4
	.type	rekusoyen_0_1_0.start_info.write,@function
rekusoyen_0_1_0.start_info.write:
	pushq	%rbp
	pushq	%r15
	pushq	%r14
	pushq	%r13
	pushq	%r12
	pushq	%rbx
	subq	$344, %rsp
	movq	%r9, %r13
	movq	%r8, %r12
	movq	%rdx, %rax
	movq	%rsi, %rbx
	movq	%rdi, %r14
	movq	408(%rsp), %rbp
	movq	400(%rsp), %r15
	movups	(%rcx), %xmm0
	movups	16(%rcx), %xmm1
	movups	32(%rcx), %xmm2
	movaps	%xmm2, 48(%rsp)
	movaps	%xmm1, 32(%rsp)
	movaps	%xmm0, 16(%rsp)
	leaq	80(%rsp), %rdi
	movl	$264, %edx
	movq	%rax, %rsi
	callq	memcpy@PLT
	movq	%rbx, 72(%rsp)
	leaq	72(%rsp), %rdi
	leaq	16(%rsp), %rsi
	movq	%r12, %rdx
	movq	%r13, %rcx
	movq	%r15, %r8
	movq	%rbp, %r9
	callq	rekusoyen_0_1_0.start_info.writing.check
	testb	%al, %al
	jne	.Lrekusoyen_0_1_0.start_info.write.90
	movq	%r12, 8(%rsp)
	movq	16(%rsp), %rsi
	movq	%rsi, %rdi
	addq	$4, %rdi
	movq	$-1, %rcx
	cmovbq	%rcx, %rdi
	cmpq	%rdi, %rbx
	movq	%rdi, %rdx
	cmovbq	%rbx, %rdx
	movq	%rsi, %r11
	subq	%rdx, %r11
	jae	.Lrekusoyen_0_1_0.start_info.write.8
	movq	%rdx, %r10
	subq	%rsi, %r10
	movl	%r10d, %r8d
	andl	$3, %r8d
	movl	$862897528, %r9d
	cmpq	$-4, %r11
	ja	.Lrekusoyen_0_1_0.start_info.write.6
	andq	$-4, %r10
	.p2align	4
.Lrekusoyen_0_1_0.start_info.write.4:
	movl	%r9d, (%r14,%rsi)
	addq	$4, %rsi
	xorl	%r9d, %r9d
	addq	$-4, %r10
	jne	.Lrekusoyen_0_1_0.start_info.write.4
	xorl	%r9d, %r9d
	testq	%r8, %r8
	je	.Lrekusoyen_0_1_0.start_info.write.8
.Lrekusoyen_0_1_0.start_info.write.6:
	addq	%r14, %rsi
	xorl	%r10d, %r10d
	.p2align	4
.Lrekusoyen_0_1_0.start_info.write.7:
	movb	%r9b, (%rsi,%r10)
	shrl	$8, %r9d
	incq	%r10
	cmpq	%r10, %r8
	jne	.Lrekusoyen_0_1_0.start_info.write.7
.Lrekusoyen_0_1_0.start_info.write.8:
	movq	%rdx, %rsi
	addq	$4, %rsi
	cmovbq	%rcx, %rsi
	cmpq	%rsi, %rbx
	movq	%rsi, %rcx
	cmovbq	%rbx, %rcx
	cmpq	%rcx, %rdi
	jae	.Lrekusoyen_0_1_0.start_info.write.22
	movb	$1, (%r14,%rdx)
	leaq	1(%rdx), %rdi
	cmpq	%rcx, %rdi
	je	.Lrekusoyen_0_1_0.start_info.write.22
	movq	%rdx, %r8
	notq	%r8
	addq	%rcx, %r8
	cmpq	$8, %r8
	jb	.Lrekusoyen_0_1_0.start_info.write.21
	cmpq	$32, %r8
	jae	.Lrekusoyen_0_1_0.start_info.write.16
	xorl	%r9d, %r9d
	jmp	.Lrekusoyen_0_1_0.start_info.write.13
.Lrekusoyen_0_1_0.start_info.write.16:
	movq	%r8, %r9
	andq	$-32, %r9
	addq	%r14, %rdx
	addq	$17, %rdx
	xorl	%r10d, %r10d
	.p2align	4
.Lrekusoyen_0_1_0.start_info.write.17:
	xorps	%xmm0, %xmm0
	movups	%xmm0, -16(%rdx,%r10)
	movups	%xmm0, (%rdx,%r10)
	addq	$32, %r10
	cmpq	%r10, %r9
	jne	.Lrekusoyen_0_1_0.start_info.write.17
	cmpq	%r9, %r8
	je	.Lrekusoyen_0_1_0.start_info.write.22
	testb	$24, %r8b
	je	.Lrekusoyen_0_1_0.start_info.write.20
.Lrekusoyen_0_1_0.start_info.write.13:
	movq	%r8, %rdx
	andq	$-8, %rdx
	leaq	(%r14,%rdi), %r10
	addq	%rdx, %rdi
	.p2align	4
.Lrekusoyen_0_1_0.start_info.write.14:
	movq	$0, (%r10,%r9)
	addq	$8, %r9
	cmpq	%r9, %rdx
	jne	.Lrekusoyen_0_1_0.start_info.write.14
	cmpq	%rdx, %r8
	je	.Lrekusoyen_0_1_0.start_info.write.22
	.p2align	4
.Lrekusoyen_0_1_0.start_info.write.21:
	movb	$0, (%r14,%rdi)
	incq	%rdi
	cmpq	%rdi, %rcx
	jne	.Lrekusoyen_0_1_0.start_info.write.21
.Lrekusoyen_0_1_0.start_info.write.22:
	movq	%rcx, %rdi
	addq	$4, %rdi
	movq	$-1, %r8
	cmovbq	%r8, %rdi
	cmpq	%rdi, %rbx
	movq	%rdi, %rdx
	cmovbq	%rbx, %rdx
	cmpq	%rdx, %rsi
	jae	.Lrekusoyen_0_1_0.start_info.write.29
	movl	40(%rsp), %esi
	movl	%edx, %r10d
	subl	%ecx, %r10d
	andl	$3, %r10d
	je	.Lrekusoyen_0_1_0.start_info.write.24
	negq	%r10
	movq	%rcx, %r9
	.p2align	4
.Lrekusoyen_0_1_0.start_info.write.26:
	movb	%sil, (%r14,%r9)
	shrl	$8, %esi
	incq	%r9
	incq	%r10
	jne	.Lrekusoyen_0_1_0.start_info.write.26
	subq	%rdx, %rcx
	cmpq	$-4, %rcx
	ja	.Lrekusoyen_0_1_0.start_info.write.29
	.p2align	4
.Lrekusoyen_0_1_0.start_info.write.28:
	movl	%esi, (%r14,%r9)
	addq	$4, %r9
	xorl	%esi, %esi
	cmpq	%r9, %rdx
	jne	.Lrekusoyen_0_1_0.start_info.write.28
.Lrekusoyen_0_1_0.start_info.write.29:
	movq	%rdx, %rsi
	addq	$4, %rsi
	cmovbq	%r8, %rsi
	cmpq	%rsi, %rbx
	movq	%rsi, %rcx
	cmovbq	%rbx, %rcx
	cmpq	%rcx, %rdi
	jae	.Lrekusoyen_0_1_0.start_info.write.36
	movq	%r13, %rdi
	shrq	$2, %rdi
	movl	%ecx, %r9d
	subl	%edx, %r9d
	andl	$3, %r9d
	je	.Lrekusoyen_0_1_0.start_info.write.31
	negq	%r9
	movq	%rdx, %r8
	.p2align	4
.Lrekusoyen_0_1_0.start_info.write.33:
	movb	%dil, (%r14,%r8)
	shrq	$8, %rdi
	incq	%r8
	incq	%r9
	jne	.Lrekusoyen_0_1_0.start_info.write.33
	subq	%rcx, %rdx
	cmpq	$-4, %rdx
	ja	.Lrekusoyen_0_1_0.start_info.write.36
	.p2align	4
.Lrekusoyen_0_1_0.start_info.write.35:
	movl	%edi, (%r14,%r8)
	shrq	$32, %rdi
	addq	$4, %r8
	cmpq	%r8, %rcx
	jne	.Lrekusoyen_0_1_0.start_info.write.35
.Lrekusoyen_0_1_0.start_info.write.36:
	movq	24(%rsp), %r12
	movq	%rcx, %r8
	addq	$8, %r8
	movq	$-1, %r9
	cmovbq	%r9, %r8
	cmpq	%r8, %rbx
	movq	%r8, %rdx
	cmovbq	%rbx, %rdx
	cmpq	%rdx, %rsi
	jae	.Lrekusoyen_0_1_0.start_info.write.42
	movl	%edx, %r10d
	subl	%ecx, %r10d
	movq	%r12, %rsi
	movq	%rcx, %rdi
	andl	$3, %r10d
	je	.Lrekusoyen_0_1_0.start_info.write.40
	negq	%r10
	movq	%r12, %rsi
	movq	%rcx, %rdi
	.p2align	4
.Lrekusoyen_0_1_0.start_info.write.39:
	movb	%sil, (%r14,%rdi)
	shrq	$8, %rsi
	incq	%rdi
	incq	%r10
	jne	.Lrekusoyen_0_1_0.start_info.write.39
.Lrekusoyen_0_1_0.start_info.write.40:
	subq	%rdx, %rcx
	cmpq	$-4, %rcx
	ja	.Lrekusoyen_0_1_0.start_info.write.42
	.p2align	4
.Lrekusoyen_0_1_0.start_info.write.41:
	movl	%esi, (%r14,%rdi)
	shrq	$32, %rsi
	addq	$4, %rdi
	cmpq	%rdi, %rdx
	jne	.Lrekusoyen_0_1_0.start_info.write.41
.Lrekusoyen_0_1_0.start_info.write.42:
	movq	%rdx, %rdi
	addq	$8, %rdi
	cmovbq	%r9, %rdi
	cmpq	%rdi, %rbx
	movq	%rdi, %rcx
	cmovbq	%rbx, %rcx
	cmpq	%rcx, %r8
	jae	.Lrekusoyen_0_1_0.start_info.write.49
	movq	48(%rsp), %rsi
	movl	%ecx, %r9d
	subl	%edx, %r9d
	andl	$3, %r9d
	je	.Lrekusoyen_0_1_0.start_info.write.44
	negq	%r9
	movq	%rdx, %r8
	.p2align	4
.Lrekusoyen_0_1_0.start_info.write.46:
	movb	%sil, (%r14,%r8)
	shrq	$8, %rsi
	incq	%r8
	incq	%r9
	jne	.Lrekusoyen_0_1_0.start_info.write.46
	subq	%rcx, %rdx
	cmpq	$-4, %rdx
	ja	.Lrekusoyen_0_1_0.start_info.write.49
	.p2align	4
.Lrekusoyen_0_1_0.start_info.write.48:
	movl	%esi, (%r14,%r8)
	shrq	$32, %rsi
	addq	$4, %r8
	cmpq	%r8, %rcx
	jne	.Lrekusoyen_0_1_0.start_info.write.48
.Lrekusoyen_0_1_0.start_info.write.49:
	movq	%rcx, %rsi
	addq	$8, %rsi
	movq	$-1, %r8
	cmovbq	%r8, %rsi
	cmpq	%rsi, %rbx
	movq	%rsi, %rdx
	cmovbq	%rbx, %rdx
	cmpq	%rdx, %rdi
	jae	.Lrekusoyen_0_1_0.start_info.write.56
	movq	56(%rsp), %rdi
	movl	%edx, %r10d
	subl	%ecx, %r10d
	andl	$3, %r10d
	je	.Lrekusoyen_0_1_0.start_info.write.51
	negq	%r10
	movq	%rcx, %r9
	.p2align	4
.Lrekusoyen_0_1_0.start_info.write.53:
	movb	%dil, (%r14,%r9)
	shrq	$8, %rdi
	incq	%r9
	incq	%r10
	jne	.Lrekusoyen_0_1_0.start_info.write.53
	subq	%rdx, %rcx
	cmpq	$-4, %rcx
	ja	.Lrekusoyen_0_1_0.start_info.write.56
	.p2align	4
.Lrekusoyen_0_1_0.start_info.write.55:
	movl	%edi, (%r14,%r9)
	shrq	$32, %rdi
	addq	$4, %r9
	cmpq	%r9, %rdx
	jne	.Lrekusoyen_0_1_0.start_info.write.55
.Lrekusoyen_0_1_0.start_info.write.56:
	movq	32(%rsp), %r15
	movq	%rdx, %rdi
	addq	$8, %rdi
	cmovbq	%r8, %rdi
	cmpq	%rdi, %rbx
	movq	%rdi, %rcx
	cmovbq	%rbx, %rcx
	cmpq	%rcx, %rsi
	jae	.Lrekusoyen_0_1_0.start_info.write.62
	movl	%ecx, %r9d
	subl	%edx, %r9d
	movq	%r15, %rsi
	movq	%rdx, %r8
	andl	$3, %r9d
	je	.Lrekusoyen_0_1_0.start_info.write.60
	negq	%r9
	movq	%r15, %rsi
	movq	%rdx, %r8
	.p2align	4
.Lrekusoyen_0_1_0.start_info.write.59:
	movb	%sil, (%r14,%r8)
	shrq	$8, %rsi
	incq	%r8
	incq	%r9
	jne	.Lrekusoyen_0_1_0.start_info.write.59
.Lrekusoyen_0_1_0.start_info.write.60:
	subq	%rcx, %rdx
	cmpq	$-4, %rdx
	ja	.Lrekusoyen_0_1_0.start_info.write.62
	.p2align	4
.Lrekusoyen_0_1_0.start_info.write.61:
	movl	%esi, (%r14,%r8)
	shrq	$32, %rsi
	addq	$4, %r8
	cmpq	%r8, %rcx
	jne	.Lrekusoyen_0_1_0.start_info.write.61
.Lrekusoyen_0_1_0.start_info.write.62:
	movq	%rcx, %rsi
	addq	$4, %rsi
	movq	$-1, %r9
	cmovbq	%r9, %rsi
	cmpq	%rsi, %rbx
	movq	%rsi, %r8
	cmovbq	%rbx, %r8
	cmpq	%r8, %rdi
	jae	.Lrekusoyen_0_1_0.start_info.write.69
	movq	%rbp, %rdx
	shrq	$2, %rdx
	movl	%r8d, %r10d
	subl	%ecx, %r10d
	andl	$3, %r10d
	je	.Lrekusoyen_0_1_0.start_info.write.64
	negq	%r10
	movq	%rcx, %rdi
	.p2align	4
.Lrekusoyen_0_1_0.start_info.write.66:
	movb	%dl, (%r14,%rdi)
	shrq	$8, %rdx
	incq	%rdi
	incq	%r10
	jne	.Lrekusoyen_0_1_0.start_info.write.66
	subq	%r8, %rcx
	cmpq	$-4, %rcx
	ja	.Lrekusoyen_0_1_0.start_info.write.69
	.p2align	4
.Lrekusoyen_0_1_0.start_info.write.68:
	movl	%edx, (%r14,%rdi)
	shrq	$32, %rdx
	addq	$4, %rdi
	cmpq	%rdi, %r8
	jne	.Lrekusoyen_0_1_0.start_info.write.68
.Lrekusoyen_0_1_0.start_info.write.69:
	movq	%r8, %rdx
	addq	$4, %rdx
	cmovbq	%r9, %rdx
	cmpq	%rdx, %rbx
	cmovbq	%rbx, %rdx
	cmpq	%rdx, %rsi
	jae	.Lrekusoyen_0_1_0.start_info.write.71
	leaq	(%r14,%r8), %rdi
	subq	%r8, %rdx
	xorl	%esi, %esi
	movl	%eax, %ebp
	callq	memset@PLT
	movl	%ebp, %eax
	movq	408(%rsp), %rbp
.Lrekusoyen_0_1_0.start_info.write.71:
	testq	%r13, %r13
	movq	8(%rsp), %r9
	je	.Lrekusoyen_0_1_0.start_info.write.80
	xorl	%ecx, %ecx
	jmp	.Lrekusoyen_0_1_0.start_info.write.73
	.p2align	4
.Lrekusoyen_0_1_0.start_info.write.79:
	incq	%rcx
	cmpq	%r13, %rcx
	je	.Lrekusoyen_0_1_0.start_info.write.80
.Lrekusoyen_0_1_0.start_info.write.73:
	movq	%r12, %rdx
	movq	%r12, %rsi
	addq	$8, %rsi
	movq	$-1, %r12
	cmovaeq	%rsi, %r12
	cmpq	%r12, %rbx
	cmovbq	%rbx, %r12
	movq	%rdx, %rdi
	subq	%r12, %rdi
	jae	.Lrekusoyen_0_1_0.start_info.write.79
	movq	(%r9,%rcx,8), %rsi
	movl	%r12d, %r8d
	subl	%edx, %r8d
	andl	$3, %r8d
	je	.Lrekusoyen_0_1_0.start_info.write.77
	negq	%r8
	.p2align	4
.Lrekusoyen_0_1_0.start_info.write.76:
	movb	%sil, (%r14,%rdx)
	shrq	$8, %rsi
	incq	%rdx
	incq	%r8
	jne	.Lrekusoyen_0_1_0.start_info.write.76
.Lrekusoyen_0_1_0.start_info.write.77:
	cmpq	$-4, %rdi
	ja	.Lrekusoyen_0_1_0.start_info.write.79
	.p2align	4
.Lrekusoyen_0_1_0.start_info.write.78:
	movl	%esi, (%r14,%rdx)
	shrq	$32, %rsi
	addq	$4, %rdx
	cmpq	%rdx, %r12
	jne	.Lrekusoyen_0_1_0.start_info.write.78
	jmp	.Lrekusoyen_0_1_0.start_info.write.79
.Lrekusoyen_0_1_0.start_info.write.80:
	testq	%rbp, %rbp
	je	.Lrekusoyen_0_1_0.start_info.write.89
	xorl	%ecx, %ecx
	movq	400(%rsp), %r9
	jmp	.Lrekusoyen_0_1_0.start_info.write.82
	.p2align	4
.Lrekusoyen_0_1_0.start_info.write.88:
	incq	%rcx
	cmpq	%rbp, %rcx
	je	.Lrekusoyen_0_1_0.start_info.write.89
.Lrekusoyen_0_1_0.start_info.write.82:
	movq	%r15, %rdx
	leaq	(,%rcx,8), %rsi
	movl	%esi, %edi
	andl	$24, %edi
	leaq	.Lrekusoyen_0_1_0.static.21(%rip), %r8
	movq	(%rdi,%r8), %rdi
	cmpq	$8, %rdi
	movl	$8, %r8d
	cmovbq	%rdi, %r8
	addq	%r15, %r8
	movq	$-1, %r15
	cmovaeq	%r8, %r15
	cmpq	%r15, %rbx
	cmovbq	%rbx, %r15
	movq	%rdx, %rdi
	subq	%r15, %rdi
	jae	.Lrekusoyen_0_1_0.start_info.write.88
	movq	(%r9,%rsi), %rsi
	movl	%r15d, %r8d
	subl	%edx, %r8d
	andl	$3, %r8d
	je	.Lrekusoyen_0_1_0.start_info.write.86
	negq	%r8
	.p2align	4
.Lrekusoyen_0_1_0.start_info.write.85:
	movb	%sil, (%r14,%rdx)
	shrq	$8, %rsi
	incq	%rdx
	incq	%r8
	jne	.Lrekusoyen_0_1_0.start_info.write.85
.Lrekusoyen_0_1_0.start_info.write.86:
	cmpq	$-4, %rdi
	ja	.Lrekusoyen_0_1_0.start_info.write.88
	.p2align	4
.Lrekusoyen_0_1_0.start_info.write.87:
	movl	%esi, (%r14,%rdx)
	shrq	$32, %rsi
	addq	$4, %rdx
	cmpq	%rdx, %r15
	jne	.Lrekusoyen_0_1_0.start_info.write.87
	jmp	.Lrekusoyen_0_1_0.start_info.write.88
.Lrekusoyen_0_1_0.start_info.write.89:
	xorl	%edx, %edx
.Lrekusoyen_0_1_0.start_info.write.90:
	addq	$344, %rsp
	popq	%rbx
	popq	%r12
	popq	%r13
	popq	%r14
	popq	%r15
	popq	%rbp
	retq
.Lrekusoyen_0_1_0.start_info.write.24:
	movq	%rcx, %r9
	subq	%rdx, %rcx
	cmpq	$-4, %rcx
	jbe	.Lrekusoyen_0_1_0.start_info.write.28
	jmp	.Lrekusoyen_0_1_0.start_info.write.29
.Lrekusoyen_0_1_0.start_info.write.31:
	movq	%rdx, %r8
	subq	%rcx, %rdx
	cmpq	$-4, %rdx
	jbe	.Lrekusoyen_0_1_0.start_info.write.35
	jmp	.Lrekusoyen_0_1_0.start_info.write.36
.Lrekusoyen_0_1_0.start_info.write.44:
	movq	%rdx, %r8
	subq	%rcx, %rdx
	cmpq	$-4, %rdx
	jbe	.Lrekusoyen_0_1_0.start_info.write.48
	jmp	.Lrekusoyen_0_1_0.start_info.write.49
.Lrekusoyen_0_1_0.start_info.write.51:
	movq	%rcx, %r9
	subq	%rdx, %rcx
	cmpq	$-4, %rcx
	jbe	.Lrekusoyen_0_1_0.start_info.write.55
	jmp	.Lrekusoyen_0_1_0.start_info.write.56
.Lrekusoyen_0_1_0.start_info.write.64:
	movq	%rcx, %rdi
	subq	%r8, %rcx
	cmpq	$-4, %rcx
	jbe	.Lrekusoyen_0_1_0.start_info.write.68
	jmp	.Lrekusoyen_0_1_0.start_info.write.69
.Lrekusoyen_0_1_0.start_info.write.20:
	addq	%r9, %rdi
	jmp	.Lrekusoyen_0_1_0.start_info.write.21
.Lrekusoyen_0_1_0.start_info.write.func_end:
	.size	rekusoyen_0_1_0.start_info.write, .Lrekusoyen_0_1_0.start_info.write.func_end-rekusoyen_0_1_0.start_info.write
	.section	.text.rekusoyen_0_1_0.boot.tree.plan,"ax",@progbits
	.p2align	4
	.type	rekusoyen_0_1_0.boot.tree.plan,@function
rekusoyen_0_1_0.boot.tree.plan:
	pushq	%rbp
	pushq	%r15
	pushq	%r14
	pushq	%r13
	pushq	%r12
	pushq	%rbx
	subq	$312, %rsp
	movl	%r9d, 52(%rsp)
	movq	%r8, %r13
	movq	%rcx, %r15
	movq	%rdx, %r12
	movq	%rsi, %rbp
	movq	%rdi, %r14
	movq	392(%rsp), %rax
	movq	32(%r8), %rcx
	movq	%rcx, 304(%rsp)
	movups	(%r8), %xmm0
	movups	16(%r8), %xmm1
	movaps	%xmm1, 288(%rsp)
	movaps	%xmm0, 272(%rsp)
	movq	(%rax), %rcx
	movq	%rcx, 96(%rsp)
	movq	8(%rax), %rcx
	movq	%rcx, 104(%rsp)
	movq	16(%rax), %rbx
	xorps	%xmm0, %xmm0
	movaps	%xmm0, 144(%rsp)
	movaps	%xmm0, 128(%rsp)
	movaps	%xmm0, 112(%rsp)
	movq	$0, 160(%rsp)
	leaq	112(%rsp), %rdi
	leaq	272(%rsp), %r8
	movq	%r15, %rcx
	callq	rekusoyen_0_1_0.loads.formats.plan
	cmpb	$0, 112(%rsp)
	je	.Lrekusoyen_0_1_0.boot.tree.plan.1
	movzbl	113(%rsp), %eax
	movb	$1, (%r14)
	movb	%al, 1(%r14)
	jmp	.Lrekusoyen_0_1_0.boot.tree.plan.15
.Lrekusoyen_0_1_0.boot.tree.plan.1:
	movq	%rbx, 88(%rsp)
	movq	%rbp, 64(%rsp)
	movq	%r12, 72(%rsp)
	movq	%r15, 80(%rsp)
	movups	120(%rsp), %xmm0
	movaps	%xmm0, 176(%rsp)
	movq	120(%rsp), %rax
	movq	%rax, 56(%rsp)
	movzbl	136(%rsp), %ebx
	movups	(%r13), %xmm0
	movups	16(%r13), %xmm1
	movaps	%xmm0, 192(%rsp)
	movaps	%xmm1, 208(%rsp)
	movq	32(%r13), %rax
	movq	%rax, 224(%rsp)
	xorps	%xmm0, %xmm0
	movups	%xmm0, 248(%rsp)
	movq	$0, 264(%rsp)
	movb	$56, %dl
	cmpb	$2, 192(%rsp)
	jne	.Lrekusoyen_0_1_0.boot.tree.plan.14
	movq	384(%rsp), %r13
	movq	376(%rsp), %r12
	movq	%r12, %rdi
	movq	%r13, %rsi
	xorl	%edx, %edx
	callq	rekusoyen_0_1_0.slugs.bytes.has
	movb	$18, %dl
	testb	%al, %al
	je	.Lrekusoyen_0_1_0.boot.tree.plan.3
.Lrekusoyen_0_1_0.boot.tree.plan.14:
	movb	$1, (%r14)
	movb	%dl, 1(%r14)
.Lrekusoyen_0_1_0.boot.tree.plan.15:
	xorps	%xmm0, %xmm0
	movups	%xmm0, 8(%r14)
	movups	%xmm0, 24(%r14)
	movups	%xmm0, 40(%r14)
	movq	$0, 56(%r14)
.Lrekusoyen_0_1_0.boot.tree.plan.19:
	addq	$312, %rsp
	popq	%rbx
	popq	%r12
	popq	%r13
	popq	%r14
	popq	%r15
	popq	%rbp
	retq
.Lrekusoyen_0_1_0.boot.tree.plan.3:
	movq	416(%rsp), %rax
	movq	88(%rsp), %r10
	leaq	(%r10,%r13), %rcx
	movb	$59, %dl
	cmpq	%rcx, %rax
	jbe	.Lrekusoyen_0_1_0.boot.tree.plan.14
	cmpq	%r10, %rax
	jb	.Lrekusoyen_0_1_0.boot.tree.plan.14
	movq	%rax, %rcx
	subq	%r10, %rcx
	cmpq	%rcx, %r13
	ja	.Lrekusoyen_0_1_0.boot.tree.plan.14
	movq	408(%rsp), %rsi
	jae	.Lrekusoyen_0_1_0.boot.tree.plan.8
	leaq	(%rsi,%r10), %rcx
	cmpb	$0, (%r13,%rcx)
	jne	.Lrekusoyen_0_1_0.boot.tree.plan.14
.Lrekusoyen_0_1_0.boot.tree.plan.8:
	movq	400(%rsp), %rcx
	movl	368(%rsp), %edi
	leaq	144(%rsp), %r15
	xorl	%r8d, %r8d
	movq	%rax, %r9
	subq	%r10, %r9
	cmovbq	%r8, %r9
	addq	%r10, %rsi
	movl	52(%rsp), %ebp
	jmp	.Lrekusoyen_0_1_0.boot.tree.plan.9
	.p2align	4
.Lrekusoyen_0_1_0.boot.tree.plan.12:
	movzbl	(%rsi,%r8), %r10d
	movzbl	(%r12,%r8), %r11d
	incq	%r8
	cmpl	%r11d, %r10d
	jne	.Lrekusoyen_0_1_0.boot.tree.plan.14
.Lrekusoyen_0_1_0.boot.tree.plan.9:
	cmpq	%r8, %r13
	je	.Lrekusoyen_0_1_0.boot.tree.plan.16
	cmpq	%r9, %r8
	jb	.Lrekusoyen_0_1_0.boot.tree.plan.12
	xorl	%r10d, %r10d
	movzbl	(%r12,%r8), %r11d
	incq	%r8
	cmpl	%r11d, %r10d
	je	.Lrekusoyen_0_1_0.boot.tree.plan.9
	jmp	.Lrekusoyen_0_1_0.boot.tree.plan.14
.Lrekusoyen_0_1_0.boot.tree.plan.16:
	movl	%edi, %edx
	testb	$1, %bpl
	movl	$2047, %esi
	cmovneq	%rdx, %rsi
	movb	$55, %dl
	cmpq	%r13, %rsi
	jb	.Lrekusoyen_0_1_0.boot.tree.plan.14
	movq	$0, 240(%rsp)
	movq	%rax, 32(%rsp)
	movq	96(%rsp), %rax
	movq	%rax, 24(%rsp)
	movq	%rcx, 16(%rsp)
	movq	104(%rsp), %rax
	movq	%rax, 8(%rsp)
	movq	$0, (%rsp)
	leaq	192(%rsp), %rcx
	leaq	240(%rsp), %r8
	movq	64(%rsp), %rdi
	movq	72(%rsp), %rsi
	movq	80(%rsp), %rdx
	xorl	%r9d, %r9d
	callq	rekusoyen_0_1_0.boot.pieces.check
	testb	%al, %al
	jne	.Lrekusoyen_0_1_0.boot.tree.plan.14
	movw	$0, (%r14)
	movaps	176(%rsp), %xmm0
	movups	%xmm0, 8(%r14)
	movq	%rbx, 24(%r14)
	movups	(%r15), %xmm0
	movups	%xmm0, 32(%r14)
	movq	16(%r15), %rax
	movq	%rax, 48(%r14)
	movq	56(%rsp), %rax
	movq	%rax, 56(%r14)
	jmp	.Lrekusoyen_0_1_0.boot.tree.plan.19
.Lrekusoyen_0_1_0.boot.tree.plan.func_end:
	.size	rekusoyen_0_1_0.boot.tree.plan, .Lrekusoyen_0_1_0.boot.tree.plan.func_end-rekusoyen_0_1_0.boot.tree.plan
	.section	.text.rekusoyen_0_1_0.boot.zero_page.plan,"ax",@progbits
	.p2align	4
	.type	rekusoyen_0_1_0.boot.zero_page.plan,@function
rekusoyen_0_1_0.boot.zero_page.plan:
	pushq	%rbp
	pushq	%r15
	pushq	%r14
	pushq	%r13
	pushq	%r12
	pushq	%rbx
	subq	$312, %rsp
	movl	%r9d, 84(%rsp)
	movq	%r8, %r13
	movq	%rcx, %r12
	movq	%rdx, %r14
	movq	%rsi, %rbx
	movq	%rdi, %r15
	movq	408(%rsp), %rax
	movq	32(%r8), %rcx
	movq	%rcx, 304(%rsp)
	movups	(%r8), %xmm0
	movups	16(%r8), %xmm1
	movaps	%xmm1, 288(%rsp)
	movaps	%xmm0, 272(%rsp)
	movl	(%rax), %ecx
	movq	%rcx, 104(%rsp)
	movl	4(%rax), %ecx
	movq	%rcx, 96(%rsp)
	movl	8(%rax), %ecx
	movq	%rcx, 64(%rsp)
	movzbl	12(%rax), %ebp
	xorps	%xmm0, %xmm0
	movaps	%xmm0, 160(%rsp)
	movaps	%xmm0, 144(%rsp)
	movaps	%xmm0, 128(%rsp)
	movq	$0, 176(%rsp)
	leaq	128(%rsp), %rdi
	leaq	272(%rsp), %r8
	movq	%r12, %rcx
	callq	rekusoyen_0_1_0.loads.formats.plan
	cmpb	$0, 128(%rsp)
	je	.Lrekusoyen_0_1_0.boot.zero_page.plan.1
	movzbl	129(%rsp), %eax
	movb	$1, (%r15)
	movb	%al, 1(%r15)
	jmp	.Lrekusoyen_0_1_0.boot.zero_page.plan.39
.Lrekusoyen_0_1_0.boot.zero_page.plan.1:
	movq	64(%rsp), %rcx
	movq	%rbx, 72(%rsp)
	movq	%r12, 56(%rsp)
	movq	%r14, 88(%rsp)
	movb	%bpl, 55(%rsp)
	movups	136(%rsp), %xmm2
	movq	136(%rsp), %r8
	movzbl	152(%rsp), %ebp
	movups	(%r13), %xmm0
	movups	16(%r13), %xmm1
	movaps	%xmm0, 224(%rsp)
	movaps	%xmm1, 240(%rsp)
	movq	32(%r13), %rax
	movq	%rax, 256(%rsp)
	movzbl	224(%rsp), %r13d
	movb	$56, %dl
	testl	%r13d, %r13d
	je	.Lrekusoyen_0_1_0.boot.zero_page.plan.14
	cmpl	$1, %r13d
	movzbl	55(%rsp), %esi
	jne	.Lrekusoyen_0_1_0.boot.zero_page.plan.15
	movq	%rcx, %rbx
	testb	$1, %sil
	je	.Lrekusoyen_0_1_0.boot.zero_page.plan.9
	movb	$57, %dl
	cmpq	$520, 56(%rsp)
	movq	88(%rsp), %rax
	jb	.Lrekusoyen_0_1_0.boot.zero_page.plan.15
	cmpw	$524, 518(%rax)
	jb	.Lrekusoyen_0_1_0.boot.zero_page.plan.15
	cmpq	$567, 56(%rsp)
	ja	.Lrekusoyen_0_1_0.boot.zero_page.plan.8
	jne	.Lrekusoyen_0_1_0.boot.zero_page.plan.15
.Lrekusoyen_0_1_0.boot.zero_page.plan.8:
	testb	$1, 566(%rax)
	movq	72(%rsp), %rdi
	jne	.Lrekusoyen_0_1_0.boot.zero_page.plan.10
	jmp	.Lrekusoyen_0_1_0.boot.zero_page.plan.15
.Lrekusoyen_0_1_0.boot.zero_page.plan.14:
	movzbl	55(%rsp), %esi
	testb	$1, %sil
	movq	72(%rsp), %rdi
	movq	%rcx, %rbx
	je	.Lrekusoyen_0_1_0.boot.zero_page.plan.15
.Lrekusoyen_0_1_0.boot.zero_page.plan.10:
	movq	%r8, 64(%rsp)
	movaps	%xmm2, 112(%rsp)
	movq	400(%rsp), %r9
	movq	392(%rsp), %r8
	movq	384(%rsp), %r12
	movq	376(%rsp), %rdx
	movq	104(%rsp), %rsi
	movq	%r12, %rcx
	callq	rekusoyen_0_1_0.loader.plan_texts
	testb	%al, %al
	jne	.Lrekusoyen_0_1_0.boot.zero_page.plan.34
	movq	432(%rsp), %rdx
	movq	424(%rsp), %rsi
	movl	$4096, %edi
	callq	rekusoyen_0_1_0.boot_page.building.check
	testb	%al, %al
	jne	.Lrekusoyen_0_1_0.boot.zero_page.plan.34
	movq	416(%rsp), %r10
	cmpb	$1, %r13b
	movzbl	55(%rsp), %esi
	movq	64(%rsp), %r8
	jne	.Lrekusoyen_0_1_0.boot.zero_page.plan.13
	movl	$939524096, %eax
	cmpq	$520, 56(%rsp)
	movq	104(%rsp), %r14
	movq	88(%rsp), %rdi
	movq	96(%rsp), %rdx
	movl	84(%rsp), %r9d
	jb	.Lrekusoyen_0_1_0.boot.zero_page.plan.27
	cmpw	$515, 518(%rdi)
	jb	.Lrekusoyen_0_1_0.boot.zero_page.plan.27
	movq	56(%rsp), %rax
	cmpq	$559, %rax
	jbe	.Lrekusoyen_0_1_0.boot.zero_page.plan.19
	movl	556(%rdi), %eax
	jmp	.Lrekusoyen_0_1_0.boot.zero_page.plan.26
.Lrekusoyen_0_1_0.boot.zero_page.plan.9:
	movq	%r8, %rax
	shrq	$32, %rax
	movq	72(%rsp), %rdi
	je	.Lrekusoyen_0_1_0.boot.zero_page.plan.10
.Lrekusoyen_0_1_0.boot.zero_page.plan.15:
	movb	$1, %al
	testb	%al, %al
	jne	.Lrekusoyen_0_1_0.boot.zero_page.plan.38
	jmp	.Lrekusoyen_0_1_0.boot.zero_page.plan.37
.Lrekusoyen_0_1_0.boot.zero_page.plan.13:
	movabsq	$4294967296, %rax
	movq	104(%rsp), %r14
	movq	88(%rsp), %rdi
	movq	96(%rsp), %rdx
	movl	84(%rsp), %r9d
.Lrekusoyen_0_1_0.boot.zero_page.plan.27:
	testq	%r10, %r10
	je	.Lrekusoyen_0_1_0.boot.zero_page.plan.30
.Lrekusoyen_0_1_0.boot.zero_page.plan.28:
	subq	%rdx, %rax
	setae	%cl
	cmpq	%rax, %r10
	setbe	%al
	andb	%cl, %al
	movq	%r10, %rcx
	shrq	$32, %rcx
	sete	%cl
	testb	%cl, %al
	je	.Lrekusoyen_0_1_0.boot.zero_page.plan.29
.Lrekusoyen_0_1_0.boot.zero_page.plan.30:
	movl	368(%rsp), %r8d
	movq	400(%rsp), %r13
	movq	%r13, (%rsp)
	movzbl	%r9b, %ecx
	leaq	224(%rsp), %rdx
	movq	56(%rsp), %rsi
	movq	%r12, %r9
	callq	rekusoyen_0_1_0.boot.pieces.check_line
	testb	%al, %al
	je	.Lrekusoyen_0_1_0.boot.zero_page.plan.31
.Lrekusoyen_0_1_0.boot.zero_page.plan.34:
	movb	$1, %al
.Lrekusoyen_0_1_0.boot.zero_page.plan.35:
	movzbl	55(%rsp), %esi
	movaps	112(%rsp), %xmm2
	movq	64(%rsp), %r8
	testb	%al, %al
	je	.Lrekusoyen_0_1_0.boot.zero_page.plan.37
.Lrekusoyen_0_1_0.boot.zero_page.plan.38:
	movb	$1, (%r15)
	movb	%dl, 1(%r15)
.Lrekusoyen_0_1_0.boot.zero_page.plan.39:
	xorps	%xmm0, %xmm0
	movups	%xmm0, 8(%r15)
	movups	%xmm0, 24(%r15)
	movups	%xmm0, 40(%r15)
	movq	$0, 56(%r15)
.Lrekusoyen_0_1_0.boot.zero_page.plan.40:
	addq	$312, %rsp
	popq	%rbx
	popq	%r12
	popq	%r13
	popq	%r14
	popq	%r15
	popq	%rbp
	retq
.Lrekusoyen_0_1_0.boot.zero_page.plan.29:
	movb	$63, %dl
	movb	$1, %al
	movaps	112(%rsp), %xmm2
	testb	%al, %al
	jne	.Lrekusoyen_0_1_0.boot.zero_page.plan.38
.Lrekusoyen_0_1_0.boot.zero_page.plan.37:
	movq	%r8, %rax
	addq	$512, %rax
	movq	$-1, %rcx
	cmovaeq	%rax, %rcx
	leaq	160(%rsp), %rax
	testb	$1, %sil
	cmoveq	%r8, %rcx
	cmpb	$1, 272(%rsp)
	cmovneq	%r8, %rcx
	movw	$0, (%r15)
	movups	%xmm2, 8(%r15)
	movq	%rbp, 24(%r15)
	movups	(%rax), %xmm0
	movups	%xmm0, 32(%r15)
	movq	16(%rax), %rax
	movq	%rax, 48(%r15)
	movq	%rcx, 56(%r15)
	jmp	.Lrekusoyen_0_1_0.boot.zero_page.plan.40
.Lrekusoyen_0_1_0.boot.zero_page.plan.31:
	movq	%r12, %rax
	incq	%rax
	movq	$-1, %rcx
	cmoveq	%rcx, %rax
	testq	%r13, %r13
	je	.Lrekusoyen_0_1_0.boot.zero_page.plan.33
	addq	$5, %r12
	cmovbq	%rcx, %r12
	addq	%r12, %r13
	cmovbq	%rcx, %r13
	movq	%r13, %rax
.Lrekusoyen_0_1_0.boot.zero_page.plan.33:
	movq	$1, 192(%rsp)
	movq	424(%rsp), %rcx
	movq	%rcx, 200(%rsp)
	movq	432(%rsp), %rcx
	movq	%rcx, 208(%rsp)
	movq	$3, 216(%rsp)
	movq	%rbx, 24(%rsp)
	movq	416(%rsp), %rcx
	movq	%rcx, 16(%rsp)
	movq	96(%rsp), %rcx
	movq	%rcx, 8(%rsp)
	movq	%rax, (%rsp)
	movq	$4096, 32(%rsp)
	leaq	224(%rsp), %rcx
	leaq	192(%rsp), %r8
	movq	72(%rsp), %rdi
	movq	88(%rsp), %rsi
	movq	56(%rsp), %rdx
	movq	%r14, %r9
	callq	rekusoyen_0_1_0.boot.pieces.check
	jmp	.Lrekusoyen_0_1_0.boot.zero_page.plan.35
.Lrekusoyen_0_1_0.boot.zero_page.plan.19:
	xorl	%ecx, %ecx
	subq	$556, %rax
	cmovaeq	%rax, %rcx
	cmpq	$3, %rcx
	jne	.Lrekusoyen_0_1_0.boot.zero_page.plan.21
	movzbl	558(%rdi), %eax
	shll	$8, %eax
	jmp	.Lrekusoyen_0_1_0.boot.zero_page.plan.22
.Lrekusoyen_0_1_0.boot.zero_page.plan.21:
	xorl	%eax, %eax
	cmpq	$2, %rcx
	jb	.Lrekusoyen_0_1_0.boot.zero_page.plan.23
.Lrekusoyen_0_1_0.boot.zero_page.plan.22:
	movzbl	557(%rdi), %ecx
	orl	%ecx, %eax
	shll	$8, %eax
.Lrekusoyen_0_1_0.boot.zero_page.plan.23:
	cmpq	$557, 56(%rsp)
	jb	.Lrekusoyen_0_1_0.boot.zero_page.plan.26
	movzbl	556(%rdi), %ecx
	orq	%rcx, %rax
.Lrekusoyen_0_1_0.boot.zero_page.plan.26:
	incq	%rax
	testq	%r10, %r10
	jne	.Lrekusoyen_0_1_0.boot.zero_page.plan.28
	jmp	.Lrekusoyen_0_1_0.boot.zero_page.plan.30
.Lrekusoyen_0_1_0.boot.zero_page.plan.func_end:
	.size	rekusoyen_0_1_0.boot.zero_page.plan, .Lrekusoyen_0_1_0.boot.zero_page.plan.func_end-rekusoyen_0_1_0.boot.zero_page.plan
	.section	.text.rekusoyen_0_1_0.core.cmp.slices.groups_equal._i8_31_core.cmp.numbers.U8PartialEq___,"ax",@progbits
	.p2align	4
	.type	rekusoyen_0_1_0.core.cmp.slices.groups_equal._i8_31_core.cmp.numbers.U8PartialEq___,@function
rekusoyen_0_1_0.core.cmp.slices.groups_equal._i8_31_core.cmp.numbers.U8PartialEq___:
	cmpq	$8, %rsi
	ja	.Lrekusoyen_0_1_0.core.cmp.slices.groups_equal._i831_core.cmp.numbers.U8PartialEq___.2
	movd	(%rdi), %xmm0
	pinsrd	$1, -4(%rdi,%rsi), %xmm0
	movd	(%rdx), %xmm1
	pinsrd	$1, -4(%rdx,%rsi), %xmm1
	movq	%xmm0, %rax
	movq	%xmm1, %rcx
	cmpq	%rcx, %rax
	jmp	.Lrekusoyen_0_1_0.core.cmp.slices.groups_equal._i831_core.cmp.numbers.U8PartialEq___.16
.Lrekusoyen_0_1_0.core.cmp.slices.groups_equal._i831_core.cmp.numbers.U8PartialEq___.2:
	cmpq	$32, %rsi
	ja	.Lrekusoyen_0_1_0.core.cmp.slices.groups_equal._i831_core.cmp.numbers.U8PartialEq___.4
	leaq	-8(%rsi), %rax
	cmpq	$8, %rax
	movl	$8, %ecx
	cmovbq	%rax, %rcx
	cmpq	$16, %rax
	movl	$16, %r8d
	cmovbq	%rax, %r8
	movq	(%rdi,%rcx), %xmm0
	movq	(%rdi), %xmm1
	punpcklqdq	%xmm0, %xmm1
	movq	(%rdi,%r8), %xmm0
	movq	-8(%rdi,%rsi), %xmm2
	punpcklqdq	%xmm2, %xmm0
	movq	(%rdx,%rcx), %xmm2
	movq	(%rdx), %xmm3
	punpcklqdq	%xmm2, %xmm3
	pxor	%xmm1, %xmm3
	movq	(%rdx,%r8), %xmm1
	movq	-8(%rdx,%rsi), %xmm2
	punpcklqdq	%xmm2, %xmm1
	pxor	%xmm0, %xmm1
	por	%xmm3, %xmm1
	ptest	%xmm1, %xmm1
	jmp	.Lrekusoyen_0_1_0.core.cmp.slices.groups_equal._i831_core.cmp.numbers.U8PartialEq___.16
.Lrekusoyen_0_1_0.core.cmp.slices.groups_equal._i831_core.cmp.numbers.U8PartialEq___.4:
	cmpq	$65, %rsi
	jae	.Lrekusoyen_0_1_0.core.cmp.slices.groups_equal._i831_core.cmp.numbers.U8PartialEq___.5
	movdqu	(%rdi), %xmm0
	movdqu	16(%rdi), %xmm1
	movdqu	(%rdx), %xmm2
	pxor	%xmm0, %xmm2
	movdqu	16(%rdx), %xmm0
	pxor	%xmm1, %xmm0
	movdqu	-32(%rdi,%rsi), %xmm1
	movdqu	-16(%rdi,%rsi), %xmm3
	movdqu	-32(%rdx,%rsi), %xmm4
	pxor	%xmm1, %xmm4
	por	%xmm2, %xmm4
	movdqu	-16(%rdx,%rsi), %xmm1
	pxor	%xmm3, %xmm1
	por	%xmm0, %xmm1
	por	%xmm4, %xmm1
	ptest	%xmm1, %xmm1
	jmp	.Lrekusoyen_0_1_0.core.cmp.slices.groups_equal._i831_core.cmp.numbers.U8PartialEq___.16
.Lrekusoyen_0_1_0.core.cmp.slices.groups_equal._i831_core.cmp.numbers.U8PartialEq___.5:
	xorl	%eax, %eax
	movq	%rsi, %rcx
	.p2align	4
.Lrekusoyen_0_1_0.core.cmp.slices.groups_equal._i831_core.cmp.numbers.U8PartialEq___.6:
	movdqu	(%rdi,%rax), %xmm0
	movdqu	16(%rdi,%rax), %xmm1
	movdqu	32(%rdi,%rax), %xmm2
	movdqu	48(%rdi,%rax), %xmm3
	movdqu	(%rdx,%rax), %xmm4
	pcmpeqb	%xmm0, %xmm4
	movdqu	16(%rdx,%rax), %xmm0
	pcmpeqb	%xmm1, %xmm0
	movdqu	32(%rdx,%rax), %xmm1
	pcmpeqb	%xmm2, %xmm1
	pand	%xmm4, %xmm1
	movdqu	48(%rdx,%rax), %xmm2
	pcmpeqb	%xmm3, %xmm2
	pand	%xmm0, %xmm2
	pand	%xmm1, %xmm2
	pmovmskb	%xmm2, %r8d
	cmpl	$65535, %r8d
	jne	.Lrekusoyen_0_1_0.core.cmp.slices.groups_equal._i831_core.cmp.numbers.U8PartialEq___.8
	addq	$64, %rax
	addq	$-64, %rcx
	cmpq	$63, %rcx
	ja	.Lrekusoyen_0_1_0.core.cmp.slices.groups_equal._i831_core.cmp.numbers.U8PartialEq___.6
.Lrekusoyen_0_1_0.core.cmp.slices.groups_equal._i831_core.cmp.numbers.U8PartialEq___.8:
	cmpq	$32, %rcx
	jb	.Lrekusoyen_0_1_0.core.cmp.slices.groups_equal._i831_core.cmp.numbers.U8PartialEq___.15
	movq	%rsi, %rcx
	subq	%rax, %rcx
	.p2align	4
.Lrekusoyen_0_1_0.core.cmp.slices.groups_equal._i831_core.cmp.numbers.U8PartialEq___.10:
	movdqu	(%rdi,%rax), %xmm0
	movdqu	16(%rdi,%rax), %xmm1
	movdqu	(%rdx,%rax), %xmm2
	pxor	%xmm0, %xmm2
	movdqu	16(%rdx,%rax), %xmm0
	pxor	%xmm1, %xmm0
	por	%xmm2, %xmm0
	ptest	%xmm0, %xmm0
	jne	.Lrekusoyen_0_1_0.core.cmp.slices.groups_equal._i831_core.cmp.numbers.U8PartialEq___.14
	addq	$32, %rax
	addq	$-32, %rcx
	cmpq	$32, %rcx
	jae	.Lrekusoyen_0_1_0.core.cmp.slices.groups_equal._i831_core.cmp.numbers.U8PartialEq___.10
	jmp	.Lrekusoyen_0_1_0.core.cmp.slices.groups_equal._i831_core.cmp.numbers.U8PartialEq___.15
.Lrekusoyen_0_1_0.core.cmp.slices.groups_equal._i831_core.cmp.numbers.U8PartialEq___.14:
	movb	$1, %al
	cmpq	$31, %rcx
	ja	.Lrekusoyen_0_1_0.core.cmp.slices.groups_equal._i831_core.cmp.numbers.U8PartialEq___.17
.Lrekusoyen_0_1_0.core.cmp.slices.groups_equal._i831_core.cmp.numbers.U8PartialEq___.15:
	movdqu	-32(%rdi,%rsi), %xmm0
	movdqu	-16(%rdi,%rsi), %xmm1
	movdqu	-32(%rdx,%rsi), %xmm2
	pxor	%xmm0, %xmm2
	movdqu	-16(%rdx,%rsi), %xmm0
	pxor	%xmm1, %xmm0
	por	%xmm2, %xmm0
	ptest	%xmm0, %xmm0
.Lrekusoyen_0_1_0.core.cmp.slices.groups_equal._i831_core.cmp.numbers.U8PartialEq___.16:
	setne	%al
.Lrekusoyen_0_1_0.core.cmp.slices.groups_equal._i831_core.cmp.numbers.U8PartialEq___.17:
	xorb	$1, %al
	retq
.Lrekusoyen_0_1_0.core.cmp.slices.groups_equal._i831_core.cmp.numbers.U8PartialEq___.func_end:
	.size	rekusoyen_0_1_0.core.cmp.slices.groups_equal._i8_31_core.cmp.numbers.U8PartialEq___, .Lrekusoyen_0_1_0.core.cmp.slices.groups_equal._i831_core.cmp.numbers.U8PartialEq___.func_end-rekusoyen_0_1_0.core.cmp.slices.groups_equal._i8_31_core.cmp.numbers.U8PartialEq___
	.section	.text.rekusoyen_0_1_0.placing.search.in_bounds,"ax",@progbits
	.p2align	4
	.type	rekusoyen_0_1_0.placing.search.in_bounds,@function
rekusoyen_0_1_0.placing.search.in_bounds:
	pushq	%r15
	pushq	%r14
	pushq	%r12
	pushq	%rbx
	movq	%rdx, %r11
	movq	(%rcx), %rbx
	movq	8(%rcx), %r15
	movq	16(%rcx), %r14
	movq	24(%rcx), %rcx
	xorl	%r8d, %r8d
	movq	%r15, %rax
	subq	%rcx, %rax
	cmovaeq	%rax, %r8
	testb	$1, %dil
	je	.Lrekusoyen_0_1_0.placing.search.in_bounds.1
	cmpq	%rcx, %r15
	jb	.Lrekusoyen_0_1_0.placing.search.in_bounds.36
	testq	%r14, %r14
	je	.Lrekusoyen_0_1_0.placing.search.in_bounds.56
	movq	%r8, %rax
	orq	%r14, %rax
	shrq	$32, %rax
	je	.Lrekusoyen_0_1_0.placing.search.in_bounds.39
	movq	%r8, %rax
	xorl	%edx, %edx
	divq	%r14
	subq	%rdx, %r8
	cmpq	%r8, %rbx
	ja	.Lrekusoyen_0_1_0.placing.search.in_bounds.36
	jmp	.Lrekusoyen_0_1_0.placing.search.in_bounds.42
.Lrekusoyen_0_1_0.placing.search.in_bounds.1:
	xorl	%edx, %edx
	cmpq	%rcx, %r15
	setb	%al
	movq	%r8, %r12
	cmovbq	%rdx, %r12
	testq	%r14, %r14
	sete	%dil
	orb	%al, %dil
	movl	$0, %eax
	jne	.Lrekusoyen_0_1_0.placing.search.in_bounds.55
	movq	%rbx, %rax
	orq	%r14, %rax
	cmpq	$1, %r11
	ja	.Lrekusoyen_0_1_0.placing.search.in_bounds.10
	shrq	$32, %rax
	je	.Lrekusoyen_0_1_0.placing.search.in_bounds.4
	movq	%rbx, %rax
	xorl	%edx, %edx
	divq	%r14
	jmp	.Lrekusoyen_0_1_0.placing.search.in_bounds.6
.Lrekusoyen_0_1_0.placing.search.in_bounds.10:
	shrq	$32, %rax
	je	.Lrekusoyen_0_1_0.placing.search.in_bounds.11
	movq	%rbx, %rax
	xorl	%edx, %edx
	divq	%r14
	jmp	.Lrekusoyen_0_1_0.placing.search.in_bounds.13
.Lrekusoyen_0_1_0.placing.search.in_bounds.39:
	movl	%r8d, %eax
	xorl	%edx, %edx
	divl	%r14d
	subq	%rdx, %r8
	cmpq	%r8, %rbx
	jbe	.Lrekusoyen_0_1_0.placing.search.in_bounds.42
.Lrekusoyen_0_1_0.placing.search.in_bounds.36:
	xorl	%eax, %eax
	xorl	%edx, %edx
	jmp	.Lrekusoyen_0_1_0.placing.search.in_bounds.55
.Lrekusoyen_0_1_0.placing.search.in_bounds.42:
	cmpq	$2, %r11
	setb	%al
	testq	%rcx, %rcx
	sete	%dl
	orb	%al, %dl
	je	.Lrekusoyen_0_1_0.placing.search.in_bounds.44
.Lrekusoyen_0_1_0.placing.search.in_bounds.43:
	movb	$1, %al
	movq	%r8, %rdx
	jmp	.Lrekusoyen_0_1_0.placing.search.in_bounds.55
.Lrekusoyen_0_1_0.placing.search.in_bounds.44:
	movq	%r11, %rax
	movq	%rsi, %rdx
	jmp	.Lrekusoyen_0_1_0.placing.search.in_bounds.45
	.p2align	4
.Lrekusoyen_0_1_0.placing.search.in_bounds.46:
	movq	%r8, %r10
	subq	%r9, %r10
	cmpq	%r10, %rdi
	ja	.Lrekusoyen_0_1_0.placing.search.in_bounds.47
.Lrekusoyen_0_1_0.placing.search.in_bounds.52:
	addq	$-2, %rax
	addq	$16, %rdx
	cmpq	$2, %rax
	jb	.Lrekusoyen_0_1_0.placing.search.in_bounds.43
.Lrekusoyen_0_1_0.placing.search.in_bounds.45:
	movq	(%rdx), %r9
	movq	8(%rdx), %rdi
	movq	%r9, %r10
	subq	%r8, %r10
	jb	.Lrekusoyen_0_1_0.placing.search.in_bounds.46
	testq	%rdi, %rdi
	je	.Lrekusoyen_0_1_0.placing.search.in_bounds.52
	cmpq	%r10, %rcx
	jbe	.Lrekusoyen_0_1_0.placing.search.in_bounds.52
.Lrekusoyen_0_1_0.placing.search.in_bounds.47:
	subq	%rcx, %r9
	jb	.Lrekusoyen_0_1_0.placing.search.in_bounds.36
	movq	%r9, %rax
	orq	%r14, %rax
	shrq	$32, %rax
	je	.Lrekusoyen_0_1_0.placing.search.in_bounds.49
	movq	%r9, %rax
	xorl	%edx, %edx
	divq	%r14
	jmp	.Lrekusoyen_0_1_0.placing.search.in_bounds.54
.Lrekusoyen_0_1_0.placing.search.in_bounds.49:
	movl	%r9d, %eax
	xorl	%edx, %edx
	divl	%r14d
.Lrekusoyen_0_1_0.placing.search.in_bounds.54:
	subq	%rdx, %r9
	xorl	%eax, %eax
	movq	%r9, %r8
	movl	$0, %edx
	cmpq	%r9, %rbx
	jbe	.Lrekusoyen_0_1_0.placing.search.in_bounds.44
	jmp	.Lrekusoyen_0_1_0.placing.search.in_bounds.55
.Lrekusoyen_0_1_0.placing.search.in_bounds.4:
	movl	%ebx, %eax
	xorl	%edx, %edx
	divl	%r14d
.Lrekusoyen_0_1_0.placing.search.in_bounds.6:
	movq	%r14, %rax
	subq	%rdx, %rax
	movq	%rax, %rcx
	orq	%r14, %rcx
	shrq	$32, %rcx
	je	.Lrekusoyen_0_1_0.placing.search.in_bounds.7
	xorl	%edx, %edx
	divq	%r14
	movq	%rdx, %rcx
	jmp	.Lrekusoyen_0_1_0.placing.search.in_bounds.9
.Lrekusoyen_0_1_0.placing.search.in_bounds.11:
	movl	%ebx, %eax
	xorl	%edx, %edx
	divl	%r14d
.Lrekusoyen_0_1_0.placing.search.in_bounds.13:
	movq	%r14, %rax
	subq	%rdx, %rax
	movq	%rax, %rdx
	orq	%r14, %rdx
	shrq	$32, %rdx
	je	.Lrekusoyen_0_1_0.placing.search.in_bounds.14
	xorl	%edx, %edx
	divq	%r14
	movq	%rdx, %r10
	jmp	.Lrekusoyen_0_1_0.placing.search.in_bounds.16
.Lrekusoyen_0_1_0.placing.search.in_bounds.7:
	xorl	%edx, %edx
	divl	%r14d
	movl	%edx, %ecx
.Lrekusoyen_0_1_0.placing.search.in_bounds.9:
	movq	%rcx, %rax
	notq	%rax
	cmpq	%rax, %rbx
	setbe	%sil
	addq	%rbx, %rcx
	cmpq	%r8, %rcx
	setbe	%al
	xorl	%edx, %edx
	andb	%sil, %al
	cmovneq	%rcx, %rdx
	jmp	.Lrekusoyen_0_1_0.placing.search.in_bounds.55
.Lrekusoyen_0_1_0.placing.search.in_bounds.14:
	xorl	%edx, %edx
	divl	%r14d
	movl	%edx, %r10d
.Lrekusoyen_0_1_0.placing.search.in_bounds.16:
	movq	%r10, %rax
	notq	%rax
	addq	%rbx, %r10
	xorl	%r9d, %r9d
	cmpq	%rax, %rbx
	setbe	%dl
	cmovbeq	%r10, %r9
	cmpq	%r9, %r8
	setae	%al
	andb	%dl, %al
	testq	%rcx, %rcx
	je	.Lrekusoyen_0_1_0.placing.search.in_bounds.17
	testb	%al, %al
	je	.Lrekusoyen_0_1_0.placing.search.in_bounds.19
.Lrekusoyen_0_1_0.placing.search.in_bounds.20:
	movq	%r11, %rax
	movq	%rsi, %rdx
	jmp	.Lrekusoyen_0_1_0.placing.search.in_bounds.21
	.p2align	4
.Lrekusoyen_0_1_0.placing.search.in_bounds.22:
	movq	%r9, %r10
	subq	%rdi, %r10
	cmpq	%r10, %r8
	ja	.Lrekusoyen_0_1_0.placing.search.in_bounds.23
.Lrekusoyen_0_1_0.placing.search.in_bounds.27:
	addq	$-2, %rax
	addq	$16, %rdx
	cmpq	$2, %rax
	jb	.Lrekusoyen_0_1_0.placing.search.in_bounds.28
.Lrekusoyen_0_1_0.placing.search.in_bounds.21:
	movq	(%rdx), %rdi
	movq	8(%rdx), %r8
	movq	%rdi, %r10
	subq	%r9, %r10
	jb	.Lrekusoyen_0_1_0.placing.search.in_bounds.22
	testq	%r8, %r8
	je	.Lrekusoyen_0_1_0.placing.search.in_bounds.27
	cmpq	%r10, %rcx
	jbe	.Lrekusoyen_0_1_0.placing.search.in_bounds.27
.Lrekusoyen_0_1_0.placing.search.in_bounds.23:
	addq	%rdi, %r8
	movq	$-1, %rdi
	cmovaeq	%r8, %rdi
	cmpq	%rdi, %r15
	cmovbq	%r15, %rdi
	movq	%rdi, %rax
	orq	%r14, %rax
	shrq	$32, %rax
	je	.Lrekusoyen_0_1_0.placing.search.in_bounds.24
	movq	%rdi, %rax
	xorl	%edx, %edx
	divq	%r14
	jmp	.Lrekusoyen_0_1_0.placing.search.in_bounds.30
.Lrekusoyen_0_1_0.placing.search.in_bounds.24:
	movl	%edi, %eax
	xorl	%edx, %edx
	divl	%r14d
.Lrekusoyen_0_1_0.placing.search.in_bounds.30:
	movq	%r14, %rax
	subq	%rdx, %rax
	movq	%rax, %rdx
	orq	%r14, %rdx
	shrq	$32, %rdx
	je	.Lrekusoyen_0_1_0.placing.search.in_bounds.31
	xorl	%edx, %edx
	divq	%r14
	movq	%rdx, %r9
	jmp	.Lrekusoyen_0_1_0.placing.search.in_bounds.33
.Lrekusoyen_0_1_0.placing.search.in_bounds.31:
	xorl	%edx, %edx
	divl	%r14d
	movl	%edx, %r9d
.Lrekusoyen_0_1_0.placing.search.in_bounds.33:
	xorl	%edx, %edx
	movl	$0, %eax
	addq	%rdi, %r9
	cmovbq	%rdx, %r9
	jb	.Lrekusoyen_0_1_0.placing.search.in_bounds.55
	cmpq	%r9, %r12
	jae	.Lrekusoyen_0_1_0.placing.search.in_bounds.20
	jmp	.Lrekusoyen_0_1_0.placing.search.in_bounds.55
.Lrekusoyen_0_1_0.placing.search.in_bounds.17:
	xorl	%edx, %edx
	testb	%al, %al
	cmovneq	%r10, %rdx
	jmp	.Lrekusoyen_0_1_0.placing.search.in_bounds.55
.Lrekusoyen_0_1_0.placing.search.in_bounds.19:
	xorl	%edx, %edx
	xorl	%eax, %eax
	jmp	.Lrekusoyen_0_1_0.placing.search.in_bounds.55
.Lrekusoyen_0_1_0.placing.search.in_bounds.28:
	movb	$1, %al
	movq	%r9, %rdx
.Lrekusoyen_0_1_0.placing.search.in_bounds.55:
	popq	%rbx
	popq	%r12
	popq	%r14
	popq	%r15
	retq
.Lrekusoyen_0_1_0.placing.search.in_bounds.56:
	ud2
.Lrekusoyen_0_1_0.placing.search.in_bounds.func_end:
	.size	rekusoyen_0_1_0.placing.search.in_bounds, .Lrekusoyen_0_1_0.placing.search.in_bounds.func_end-rekusoyen_0_1_0.placing.search.in_bounds
	.section	.text.rekusoyen_0_1_0.loads.steps.go_on,"ax",@progbits
	.p2align	4
	.type	rekusoyen_0_1_0.loads.steps.go_on,@function
rekusoyen_0_1_0.loads.steps.go_on:
	pushq	%rbp
	pushq	%r15
	pushq	%r14
	pushq	%r13
	pushq	%r12
	pushq	%rbx
	subq	$680, %rsp
	movq	%r9, %r12
	movq	%r8, 24(%rsp)
	movq	%rcx, %r14
	movq	%rdx, 304(%rsp)
	movq	%rsi, 112(%rsp)
	movq	%rdi, 256(%rsp)
	movq	8(%rcx), %rax
	movq	%rax, 248(%rsp)
	movq	288(%rcx), %r15
	movq	296(%rcx), %r13
	movzbl	304(%rcx), %ebx
	movzbl	305(%rcx), %ebp
	movq	312(%rcx), %rax
	movq	%rax, 48(%rsp)
	movq	320(%rcx), %rax
	movq	%rax, 16(%rsp)
	movzbl	328(%rcx), %eax
	movq	%rax, 40(%rsp)
	movups	344(%rcx), %xmm0
	movups	%xmm0, 383(%rsp)
	movups	329(%rcx), %xmm0
	movaps	%xmm0, 368(%rsp)
	movq	392(%rcx), %rax
	movq	%rax, 352(%rsp)
	leaq	16(%rcx), %rsi
	movups	360(%rcx), %xmm0
	movups	376(%rcx), %xmm1
	movaps	%xmm1, 336(%rsp)
	movaps	%xmm0, 320(%rsp)
	xorps	%xmm0, %xmm0
	movaps	%xmm0, 176(%rsp)
	movq	$0, 192(%rsp)
	leaq	408(%rsp), %rdi
	movl	$272, %edx
	callq	memcpy@PLT
	movq	392(%r14), %rax
	movq	%rax, 160(%rsp)
	movups	360(%r14), %xmm0
	movups	376(%r14), %xmm1
	movaps	%xmm1, 144(%rsp)
	movaps	%xmm0, 128(%rsp)
	xorps	%xmm0, %xmm0
	movaps	%xmm0, 208(%rsp)
	movq	$0, 224(%rsp)
	movl	$1, %eax
	cmpb	$0, 128(%rsp)
	jne	.Lrekusoyen_0_1_0.loads.steps.go_on.6
	cmpq	$57, %r12
	jbe	.Lrekusoyen_0_1_0.loads.steps.go_on.2
	movq	24(%rsp), %rax
	movzwl	56(%rax), %eax
.Lrekusoyen_0_1_0.loads.steps.go_on.6:
	cmpq	%rax, %r15
	jae	.Lrekusoyen_0_1_0.loads.steps.go_on.7
.Lrekusoyen_0_1_0.loads.steps.go_on.8:
	movq	%rax, 120(%rsp)
	movq	24(%rsp), %rax
	leaq	16(%rax), %rcx
	movq	%rcx, 288(%rsp)
	movq	112(%rsp), %rcx
	leaq	16(%rcx), %rdx
	movq	%rdx, 280(%rsp)
	addq	$3, %rax
	movq	%rax, 272(%rsp)
	leaq	3(%rcx), %rax
	movq	%rax, 264(%rsp)
	movq	%r15, 240(%rsp)
	movq	%r15, %r14
	movq	744(%rsp), %rax
	movq	%rax, 8(%rsp)
	movb	%bl, 7(%rsp)
	movb	%bpl, 6(%rsp)
	movq	%r12, 296(%rsp)
	.p2align	4
.Lrekusoyen_0_1_0.loads.steps.go_on.9:
	leaq	208(%rsp), %rdi
	leaq	128(%rsp), %rcx
	movq	24(%rsp), %rsi
	movq	%r12, %rdx
	movq	%r14, %r8
	callq	rekusoyen_0_1_0.loads.formats.part
	movq	216(%rsp), %r8
	movq	224(%rsp), %r9
	movq	%r12, %rax
	subq	%r8, %rax
	setae	%cl
	cmpq	%rax, %r9
	setbe	%al
	andb	%cl, %al
	cmpb	$1, %al
	movq	%r14, 72(%rsp)
	jne	.Lrekusoyen_0_1_0.loads.steps.go_on.17
	movq	208(%rsp), %r15
	movq	736(%rsp), %rdi
	movq	(%rdi), %rax
	subq	%r15, %rax
	setae	%cl
	cmpq	%rax, %r9
	setbe	%al
	andb	%cl, %al
	cmpb	$1, %al
	jne	.Lrekusoyen_0_1_0.loads.steps.go_on.17
	movq	8(%rdi), %rcx
	cmpq	$16, %rcx
	movl	$16, %eax
	cmovbq	%rcx, %rax
	testq	%rcx, %rcx
	je	.Lrekusoyen_0_1_0.loads.steps.go_on.17
	xorl	%ecx, %ecx
	jmp	.Lrekusoyen_0_1_0.loads.steps.go_on.13
	.p2align	4
.Lrekusoyen_0_1_0.loads.steps.go_on.16:
	incq	%rcx
	cmpq	%rcx, %rax
	je	.Lrekusoyen_0_1_0.loads.steps.go_on.17
.Lrekusoyen_0_1_0.loads.steps.go_on.13:
	movq	%r15, %rdx
	subq	16(%rdi,%rcx,8), %rdx
	jb	.Lrekusoyen_0_1_0.loads.steps.go_on.16
	movq	144(%rdi,%rcx,8), %rsi
	subq	%rdx, %rsi
	jb	.Lrekusoyen_0_1_0.loads.steps.go_on.16
	cmpq	%rsi, %r9
	ja	.Lrekusoyen_0_1_0.loads.steps.go_on.16
	jmp	.Lrekusoyen_0_1_0.loads.steps.go_on.18
	.p2align	4
.Lrekusoyen_0_1_0.loads.steps.go_on.17:
	xorl	%r15d, %r15d
	xorl	%r8d, %r8d
	xorl	%r9d, %r9d
.Lrekusoyen_0_1_0.loads.steps.go_on.18:
	cmpq	%r13, %r9
	movq	%r13, 312(%rsp)
	cmovbq	%r9, %r13
	subq	%r13, %r9
	movq	8(%rsp), %rcx
	cmpq	%rcx, %r9
	movq	%r9, 56(%rsp)
	cmovbq	%r9, %rcx
	addq	%r13, %r15
	movq	%r13, 32(%rsp)
	addq	%r13, %r8
	movq	304(%rsp), %r13
	cmpq	%r15, %r13
	cmovbq	%r13, %r15
	cmpq	%r8, %r12
	cmovbq	%r12, %r8
	subq	%r8, %r12
	cmpq	%rcx, %r12
	movq	%rcx, 64(%rsp)
	cmovaeq	%rcx, %r12
	subq	%r15, %r13
	cmpq	%r12, %r13
	cmovaeq	%r12, %r13
	testq	%r13, %r13
	je	.Lrekusoyen_0_1_0.loads.steps.go_on.39
	movq	%r8, %rsi
	movq	112(%rsp), %rax
	leaq	(%rax,%r15), %rbx
	movq	24(%rsp), %rax
	leaq	(%rax,%r8), %r12
	movq	%rbx, %rax
	subq	%r12, %rax
	movq	%rax, 104(%rsp)
	movq	288(%rsp), %rax
	addq	%r8, %rax
	movq	%rax, 88(%rsp)
	movq	280(%rsp), %rax
	addq	%r15, %rax
	movq	%rax, 80(%rsp)
	addq	272(%rsp), %rsi
	movq	%rsi, 96(%rsp)
	addq	264(%rsp), %r15
	xorl	%r14d, %r14d
	jmp	.Lrekusoyen_0_1_0.loads.steps.go_on.20
	.p2align	4
.Lrekusoyen_0_1_0.loads.steps.go_on.48:
	movq	%rbp, %rdx
	callq	memmove@PLT
.Lrekusoyen_0_1_0.loads.steps.go_on.38:
	addq	%rbp, %r14
	cmpq	%r13, %r14
	jae	.Lrekusoyen_0_1_0.loads.steps.go_on.39
.Lrekusoyen_0_1_0.loads.steps.go_on.20:
	movq	%r13, %rcx
	subq	%r14, %rcx
	cmpq	$2048, %rcx
	movl	$2048, %ebp
	cmovbq	%rcx, %rbp
	leaq	(%rbx,%r14), %rdi
	leaq	(%r12,%r14), %rsi
	movq	%rdi, %rax
	subq	%rsi, %rax
	cmpq	%rbp, %rax
	jae	.Lrekusoyen_0_1_0.loads.steps.go_on.48
	xorl	%eax, %eax
	cmpq	$4, %rcx
	jb	.Lrekusoyen_0_1_0.loads.steps.go_on.32
	cmpq	$32, 104(%rsp)
	jb	.Lrekusoyen_0_1_0.loads.steps.go_on.32
	cmpq	$32, %rcx
	jae	.Lrekusoyen_0_1_0.loads.steps.go_on.25
	xorl	%eax, %eax
	jmp	.Lrekusoyen_0_1_0.loads.steps.go_on.29
.Lrekusoyen_0_1_0.loads.steps.go_on.25:
	movl	%ebp, %eax
	andl	$4064, %eax
	movq	88(%rsp), %rcx
	addq	%r14, %rcx
	movq	80(%rsp), %rdx
	addq	%r14, %rdx
	xorl	%r8d, %r8d
	.p2align	4
.Lrekusoyen_0_1_0.loads.steps.go_on.26:
	movups	-16(%rcx,%r8), %xmm0
	movups	(%rcx,%r8), %xmm1
	movups	%xmm0, -16(%rdx,%r8)
	movups	%xmm1, (%rdx,%r8)
	addq	$32, %r8
	cmpq	%r8, %rax
	jne	.Lrekusoyen_0_1_0.loads.steps.go_on.26
	cmpq	%rax, %rbp
	je	.Lrekusoyen_0_1_0.loads.steps.go_on.38
	testb	$28, %bpl
	je	.Lrekusoyen_0_1_0.loads.steps.go_on.32
.Lrekusoyen_0_1_0.loads.steps.go_on.29:
	movq	%rax, %rcx
	movl	%ebp, %eax
	andl	$4092, %eax
	.p2align	4
.Lrekusoyen_0_1_0.loads.steps.go_on.30:
	movl	(%rsi,%rcx), %edx
	movl	%edx, (%rdi,%rcx)
	addq	$4, %rcx
	cmpq	%rcx, %rax
	jne	.Lrekusoyen_0_1_0.loads.steps.go_on.30
	cmpq	%rax, %rbp
	je	.Lrekusoyen_0_1_0.loads.steps.go_on.38
.Lrekusoyen_0_1_0.loads.steps.go_on.32:
	movq	%rbp, %rdx
	movq	%rax, %rcx
	andq	$3, %rdx
	je	.Lrekusoyen_0_1_0.loads.steps.go_on.35
	negq	%rdx
	movq	%rax, %rcx
	.p2align	4
.Lrekusoyen_0_1_0.loads.steps.go_on.34:
	movzbl	(%rsi,%rcx), %r8d
	movb	%r8b, (%rdi,%rcx)
	incq	%rcx
	incq	%rdx
	jne	.Lrekusoyen_0_1_0.loads.steps.go_on.34
.Lrekusoyen_0_1_0.loads.steps.go_on.35:
	subq	%rbp, %rax
	cmpq	$-4, %rax
	ja	.Lrekusoyen_0_1_0.loads.steps.go_on.38
	movq	96(%rsp), %rax
	addq	%r14, %rax
	leaq	(%r15,%r14), %rdx
	.p2align	4
.Lrekusoyen_0_1_0.loads.steps.go_on.37:
	movzbl	-3(%rax,%rcx), %esi
	movb	%sil, -3(%rdx,%rcx)
	movzbl	-2(%rax,%rcx), %esi
	movb	%sil, -2(%rdx,%rcx)
	movzbl	-1(%rax,%rcx), %esi
	movb	%sil, -1(%rdx,%rcx)
	movzbl	(%rax,%rcx), %esi
	movb	%sil, (%rdx,%rcx)
	addq	$4, %rcx
	cmpq	%rcx, %rbp
	jne	.Lrekusoyen_0_1_0.loads.steps.go_on.37
	jmp	.Lrekusoyen_0_1_0.loads.steps.go_on.38
	.p2align	4
.Lrekusoyen_0_1_0.loads.steps.go_on.39:
	movq	8(%rsp), %rax
	cmpq	56(%rsp), %rax
	jb	.Lrekusoyen_0_1_0.loads.steps.go_on.40
	subq	64(%rsp), %rax
	movq	%rax, 8(%rsp)
	movq	312(%rsp), %r13
	subq	32(%rsp), %r13
	movq	72(%rsp), %r14
	incq	%r14
	cmpq	120(%rsp), %r14
	movzbl	7(%rsp), %ebx
	movzbl	6(%rsp), %ebp
	movq	296(%rsp), %r12
	jne	.Lrekusoyen_0_1_0.loads.steps.go_on.9
	movq	744(%rsp), %rcx
	movq	48(%rsp), %rdx
	movq	16(%rsp), %rsi
	movq	40(%rsp), %r13
	movq	240(%rsp), %r15
	movq	120(%rsp), %rax
	movq	8(%rsp), %r8
	jmp	.Lrekusoyen_0_1_0.loads.steps.go_on.43
.Lrekusoyen_0_1_0.loads.steps.go_on.40:
	movq	32(%rsp), %rax
	addq	%rax, 64(%rsp)
	xorl	%eax, %eax
	movq	744(%rsp), %rcx
	movq	48(%rsp), %rdx
	movq	16(%rsp), %rsi
	movq	40(%rsp), %r13
	movzbl	7(%rsp), %ebx
	movzbl	6(%rsp), %ebp
	movq	72(%rsp), %r15
	jmp	.Lrekusoyen_0_1_0.loads.steps.go_on.44
.Lrekusoyen_0_1_0.loads.steps.go_on.2:
	jne	.Lrekusoyen_0_1_0.loads.steps.go_on.3
	movq	24(%rsp), %rax
	movzbl	56(%rax), %eax
	cmpq	%rax, %r15
	jb	.Lrekusoyen_0_1_0.loads.steps.go_on.8
	jmp	.Lrekusoyen_0_1_0.loads.steps.go_on.7
.Lrekusoyen_0_1_0.loads.steps.go_on.3:
	xorl	%eax, %eax
.Lrekusoyen_0_1_0.loads.steps.go_on.7:
	movq	744(%rsp), %rcx
	movq	%rcx, %r8
	movq	48(%rsp), %rdx
	movq	16(%rsp), %rsi
	movq	40(%rsp), %r13
.Lrekusoyen_0_1_0.loads.steps.go_on.43:
	cmpq	%r15, %rax
	cmovaq	%rax, %r15
	subq	%r8, %rcx
	movb	$1, %al
	movq	$0, 64(%rsp)
.Lrekusoyen_0_1_0.loads.steps.go_on.44:
	movq	%r15, 72(%rsp)
	movq	%rcx, 104(%rsp)
	leaq	375(%rsp), %r12
	xorps	%xmm0, %xmm0
	movaps	%xmm0, 128(%rsp)
	movq	$0, 144(%rsp)
	testb	%al, %al
	je	.Lrekusoyen_0_1_0.loads.steps.go_on.45
	movq	16(%r12), %rcx
	movq	%rcx, 144(%rsp)
	movups	(%r12), %xmm0
	movaps	%xmm0, 128(%rsp)
	movb	$1, %cl
	movq	%rcx, 80(%rsp)
	movq	%rdx, 96(%rsp)
	movl	%ebx, %ecx
	movq	%rcx, 88(%rsp)
	movl	%ebp, %ecx
	movq	%rcx, 56(%rsp)
	movq	%rsi, 8(%rsp)
	movq	%r13, 32(%rsp)
	jmp	.Lrekusoyen_0_1_0.loads.steps.go_on.47
.Lrekusoyen_0_1_0.loads.steps.go_on.45:
	movq	$0, 96(%rsp)
	movq	$0, 88(%rsp)
	movq	$0, 80(%rsp)
	movq	$0, 56(%rsp)
	movq	$0, 8(%rsp)
	movq	$0, 32(%rsp)
.Lrekusoyen_0_1_0.loads.steps.go_on.47:
	movq	%rdx, %r15
	movl	%ebp, %r14d
	movl	%ebx, %ebp
	incb	%al
	movq	144(%rsp), %rcx
	movq	%rcx, 192(%rsp)
	movaps	128(%rsp), %xmm0
	movaps	%xmm0, 176(%rsp)
	movq	256(%rsp), %rbx
	movb	%al, (%rbx)
	movl	$0, 1(%rbx)
	movl	$0, 4(%rbx)
	movq	248(%rsp), %rax
	movq	%rax, 8(%rbx)
	leaq	16(%rbx), %rdi
	leaq	408(%rsp), %rsi
	movl	$272, %edx
	callq	memcpy@PLT
	movq	72(%rsp), %rax
	movq	%rax, 288(%rbx)
	movq	64(%rsp), %rax
	movq	%rax, 296(%rbx)
	movb	%bpl, 304(%rbx)
	movb	%r14b, 305(%rbx)
	movl	$0, 306(%rbx)
	movw	$0, 310(%rbx)
	movq	%r15, 312(%rbx)
	movq	16(%rsp), %rax
	movq	%rax, 320(%rbx)
	movq	%r13, 328(%rbx)
	movups	(%r12), %xmm0
	movups	%xmm0, 336(%rbx)
	movq	16(%r12), %rax
	movq	%rax, 352(%rbx)
	movaps	320(%rsp), %xmm0
	movaps	336(%rsp), %xmm1
	movups	%xmm0, 360(%rbx)
	movups	%xmm1, 376(%rbx)
	movq	352(%rsp), %rax
	movq	%rax, 392(%rbx)
	movq	104(%rsp), %rax
	movq	%rax, 400(%rbx)
	movq	80(%rsp), %rax
	movb	%al, 408(%rbx)
	movl	$0, 409(%rbx)
	movl	$0, 412(%rbx)
	movq	88(%rsp), %rax
	movb	%al, 416(%rbx)
	movq	56(%rsp), %rax
	movb	%al, 417(%rbx)
	movw	$0, 422(%rbx)
	movl	$0, 418(%rbx)
	movq	96(%rsp), %rax
	movq	%rax, 424(%rbx)
	movq	8(%rsp), %rax
	movq	%rax, 432(%rbx)
	movq	32(%rsp), %rax
	movq	%rax, 440(%rbx)
	movaps	176(%rsp), %xmm0
	movups	%xmm0, 448(%rbx)
	movq	192(%rsp), %rax
	movq	%rax, 464(%rbx)
	addq	$680, %rsp
	popq	%rbx
	popq	%r12
	popq	%r13
	popq	%r14
	popq	%r15
	popq	%rbp
	retq
.Lrekusoyen_0_1_0.loads.steps.go_on.func_end:
	.size	rekusoyen_0_1_0.loads.steps.go_on, .Lrekusoyen_0_1_0.loads.steps.go_on.func_end-rekusoyen_0_1_0.loads.steps.go_on
	.section	.text.rekusoyen_has_room_0_1_0,"ax",@progbits
	.globl	rekusoyen_has_room_0_1_0
	.hidden	rekusoyen_has_room_0_1_0
	.p2align	4
	.type	rekusoyen_has_room_0_1_0,@function
rekusoyen_has_room_0_1_0:
	pushq	%r15
	pushq	%r14
	pushq	%rbx
	subq	$272, %rsp
	movq	%r8, %rbx
	movq	%rcx, %r14
	movq	%rdi, %r15
	xorl	%eax, %eax
	testq	%rsi, %rsi
	sete	%al
	shll	$12, %eax
	addq	%rax, %rsi
	leaq	8(%rsp), %rdi
	callq	rekusoyen_0_1_0.guest.maps.from_numbers
	testq	%rbx, %rbx
	je	.Lrekusoyen_has_room_0_1_0.9
	subq	%r14, %r15
	setae	%al
	cmpq	%r15, %rbx
	setbe	%cl
	andb	%al, %cl
	xorl	%eax, %eax
	cmpb	$1, %cl
	jne	.Lrekusoyen_has_room_0_1_0.11
	movq	8(%rsp), %rdx
	cmpq	$16, %rdx
	movl	$16, %ecx
	cmovbq	%rdx, %rcx
	testq	%rdx, %rdx
	je	.Lrekusoyen_has_room_0_1_0.11
	xorl	%eax, %eax
	jmp	.Lrekusoyen_has_room_0_1_0.5
	.p2align	4
.Lrekusoyen_has_room_0_1_0.4:
	incq	%rax
	cmpq	%rax, %rcx
	je	.Lrekusoyen_has_room_0_1_0.10
.Lrekusoyen_has_room_0_1_0.5:
	movq	%r14, %rdx
	subq	16(%rsp,%rax,8), %rdx
	jb	.Lrekusoyen_has_room_0_1_0.4
	movq	144(%rsp,%rax,8), %rsi
	subq	%rdx, %rsi
	jb	.Lrekusoyen_has_room_0_1_0.4
	cmpq	%rsi, %rbx
	ja	.Lrekusoyen_has_room_0_1_0.4
.Lrekusoyen_has_room_0_1_0.9:
	movl	$1, %eax
	jmp	.Lrekusoyen_has_room_0_1_0.11
.Lrekusoyen_has_room_0_1_0.10:
	xorl	%eax, %eax
.Lrekusoyen_has_room_0_1_0.11:
	addq	$272, %rsp
	popq	%rbx
	popq	%r14
	popq	%r15
	retq
.Lrekusoyen_has_room_0_1_0.func_end:
	.size	rekusoyen_has_room_0_1_0, .Lrekusoyen_has_room_0_1_0.func_end-rekusoyen_has_room_0_1_0
	.section	.text.rekusoyen_job_0_1_0,"ax",@progbits
	.globl	rekusoyen_job_0_1_0
	.hidden	rekusoyen_job_0_1_0
	.p2align	4
	.type	rekusoyen_job_0_1_0,@function
rekusoyen_job_0_1_0:
	pushq	%rbp
	pushq	%r15
	pushq	%r14
	pushq	%r13
	pushq	%r12
	pushq	%rbx
	movq	%rsp, %r11
	subq	$113664, %r11
.Lrekusoyen_job_0_1_0.1:
	subq	$3072, %rsp
	movq	$0, (%rsp)
	cmpq	%r11, %rsp
	jne	.Lrekusoyen_job_0_1_0.1
	subq	$1352, %rsp
	movq	%rsi, %r14
	movq	%rdi, %rbp
	xorl	%edi, %edi
	testq	%rbp, %rbp
	sete	%sil
	xorl	%r12d, %r12d
	testq	%rdx, %rdx
	sete	%r8b
	xorps	%xmm0, %xmm0
	movaps	%xmm0, 144(%rsp)
	movaps	%xmm0, 128(%rsp)
	movaps	%xmm0, 112(%rsp)
	movaps	%xmm0, 96(%rsp)
	movaps	%xmm0, 80(%rsp)
	movl	$62, %eax
	cmpq	$80, %rcx
	jne	.Lrekusoyen_job_0_1_0.82
	movb	%sil, %dil
	shll	$12, %edi
	leaq	(%rdi,%rbp), %r13
	movb	%r8b, %r12b
	movaps	%xmm0, 160(%rsp)
	movaps	%xmm0, 176(%rsp)
	movaps	%xmm0, 192(%rsp)
	movaps	%xmm0, 208(%rsp)
	movaps	%xmm0, 224(%rsp)
	cmpq	$3, %r14
	movq	%rdx, 64(%rsp)
	movq	%rdi, 8(%rsp)
	jbe	.Lrekusoyen_job_0_1_0.5
	movl	(%r13), %ebx
	jmp	.Lrekusoyen_job_0_1_0.10
.Lrekusoyen_job_0_1_0.5:
	jne	.Lrekusoyen_job_0_1_0.7
	movzbl	2(%r13), %ebx
	shll	$8, %ebx
	jmp	.Lrekusoyen_job_0_1_0.8
.Lrekusoyen_job_0_1_0.7:
	xorl	%ebx, %ebx
	cmpq	$2, %r14
	jb	.Lrekusoyen_job_0_1_0.52
.Lrekusoyen_job_0_1_0.8:
	movzbl	1(%r13), %eax
	orl	%eax, %ebx
	shll	$8, %ebx
.Lrekusoyen_job_0_1_0.9:
	movzbl	(%r13), %eax
	orq	%rax, %rbx
.Lrekusoyen_job_0_1_0.10:
	shll	$12, %r12d
	leaq	240(%rsp), %rdi
	movl	$4, %ecx
	movq	%r13, %rsi
	movq	%r14, %rdx
	callq	rekusoyen_0_1_0.desk.table.row_at
	leaq	33040(%rsp), %rdi
	movl	$16, %ecx
	movq	%r13, %rsi
	movq	%r14, %rdx
	callq	rekusoyen_0_1_0.desk.table.row_at
	cmpq	$16384, %r14
	movq	%r14, 24(%rsp)
	movq	%r13, 72(%rsp)
	ja	.Lrekusoyen_job_0_1_0.24
	leaq	-1(%rbx), %rax
	cmpq	$1, %rax
	ja	.Lrekusoyen_job_0_1_0.24
	movq	240(%rsp), %rax
	leaq	-1(%rax), %rdx
	cmpl	$1, %ebx
	jne	.Lrekusoyen_job_0_1_0.16
	cmpq	$1, %rdx
	ja	.Lrekusoyen_job_0_1_0.24
	movq	%rbp, %rbx
	xorl	%ebp, %ebp
	cmpq	$16, 248(%rsp)
	movb	$36, %dl
	movb	$1, %sil
	movl	$0, %ecx
	jne	.Lrekusoyen_job_0_1_0.75
	movq	256(%rsp), %rax
	addq	$16, %rax
	jmp	.Lrekusoyen_job_0_1_0.21
.Lrekusoyen_job_0_1_0.16:
	movq	33040(%rsp), %rcx
	cmpq	$2, %rdx
	setb	%dl
	cmpq	$3, %rcx
	sete	%sil
	testb	%sil, %dl
	jne	.Lrekusoyen_job_0_1_0.18
	cmpq	$3, %rax
	sete	%al
	decq	%rcx
	cmpq	$2, %rcx
	setb	%cl
	testb	%cl, %al
	je	.Lrekusoyen_job_0_1_0.24
.Lrekusoyen_job_0_1_0.18:
	movq	%rbp, %rbx
	xorl	%ebp, %ebp
	cmpq	$28, 248(%rsp)
	movb	$36, %dl
	movb	$1, %sil
	movl	$0, %ecx
	jne	.Lrekusoyen_job_0_1_0.75
	movq	256(%rsp), %rax
	addq	$28, %rax
	cmpq	%rax, 33048(%rsp)
	jne	.Lrekusoyen_job_0_1_0.75
	addq	33056(%rsp), %rax
.Lrekusoyen_job_0_1_0.21:
	movl	$0, %r13d
	movl	$0, %edi
	cmpq	24(%rsp), %rax
	jne	.Lrekusoyen_job_0_1_0.26
	movq	%r12, 16(%rsp)
	leaq	98632(%rsp), %rdi
	movl	$16384, %edx
	xorl	%esi, %esi
	callq	memset@PLT
	leaq	240(%rsp), %rdi
	movl	$4, %ecx
	movq	%rbx, %rbp
	movq	8(%rsp), %rax
	leaq	(%rbx,%rax), %r13
	movq	%r13, %rsi
	movq	24(%rsp), %rbx
	movq	%rbx, %rdx
	callq	rekusoyen_0_1_0.desk.table.row_at
	leaq	33040(%rsp), %rdi
	movl	$16, %ecx
	movq	%r13, %rsi
	movq	%rbx, %rdx
	callq	rekusoyen_0_1_0.desk.table.row_at
	movq	240(%rsp), %rax
	leaq	-1(%rax), %rcx
	cmpq	$1, %rcx
	ja	.Lrekusoyen_job_0_1_0.71
	movq	248(%rsp), %r12
	movq	256(%rsp), %rcx
	movq	33048(%rsp), %rdx
	movq	%rdx, 40(%rsp)
	movq	33056(%rsp), %r15
	jmp	.Lrekusoyen_job_0_1_0.72
.Lrekusoyen_job_0_1_0.24:
	movb	$36, %dl
	movb	$1, %sil
	xorl	%ebp, %ebp
	xorl	%r13d, %r13d
	xorl	%ecx, %ecx
.Lrekusoyen_job_0_1_0.25:
	xorl	%edi, %edi
.Lrekusoyen_job_0_1_0.26:
	movl	%edx, 8(%rsp)
	movq	%rsi, %r15
	movq	%rdi, 56(%rsp)
	movq	%rcx, 32(%rsp)
	leaq	240(%rsp), %rdi
	movl	$4, %ecx
	movq	72(%rsp), %r14
	movq	%r14, %rsi
	movq	24(%rsp), %rbx
	movq	%rbx, %rdx
	callq	rekusoyen_0_1_0.desk.table.row_at
	leaq	33040(%rsp), %rdi
	movl	$16, %ecx
	movq	%r14, %rsi
	movq	%rbx, %rdx
	callq	rekusoyen_0_1_0.desk.table.row_at
	movq	240(%rsp), %rcx
	leaq	-1(%rcx), %rax
	cmpq	$2, %rax
	jb	.Lrekusoyen_job_0_1_0.28
	movq	33040(%rsp), %rcx
.Lrekusoyen_job_0_1_0.28:
	movq	64(%rsp), %rbx
	addq	%r12, %rbx
	xorps	%xmm0, %xmm0
	movaps	%xmm0, 304(%rsp)
	movaps	%xmm0, 288(%rsp)
	movaps	%xmm0, 272(%rsp)
	movaps	%xmm0, 256(%rsp)
	movaps	%xmm0, 240(%rsp)
	testb	%r15b, %r15b
	movq	%rbx, 64(%rsp)
	je	.Lrekusoyen_job_0_1_0.34
	movzbl	8(%rsp), %edi
	callq	rekusoyen_0_1_0.answers.U32FromRefusal.from
	movl	%eax, %edx
	movabsq	$2334102053450048882, %rcx
	movq	%rcx, 240(%rsp)
	xorps	%xmm0, %xmm0
	movaps	%xmm0, 33040(%rsp)
	movl	$0, 33056(%rsp)
	movl	$19, %ecx
	cmpl	$10, %eax
	jae	.Lrekusoyen_job_0_1_0.31
	movq	%rdx, %rax
	jmp	.Lrekusoyen_job_0_1_0.32
	.p2align	4
.Lrekusoyen_job_0_1_0.31:
	movl	%edx, %esi
	movl	$3435973837, %eax
	imulq	%rsi, %rax
	shrq	$35, %rax
	leal	(%rax,%rax), %esi
	leal	(%rsi,%rsi,4), %esi
	movl	%edx, %edi
	subl	%esi, %edi
	orb	$48, %dil
	movb	%dil, 33040(%rsp,%rcx)
	decq	%rcx
	cmpq	$99, %rdx
	movq	%rax, %rdx
	ja	.Lrekusoyen_job_0_1_0.31
.Lrekusoyen_job_0_1_0.32:
	orb	$48, %al
	leaq	(%rsp,%rcx), %rsi
	addq	$33040, %rsi
	movb	%al, 33040(%rsp,%rcx)
	movl	$20, %r14d
	subq	%rcx, %r14
	cmpq	$72, %r14
	movl	$72, %ebx
	cmovbq	%r14, %rbx
	leaq	248(%rsp), %rdi
	movq	%rbx, %rdx
	callq	memcpy@PLT
	cmpq	$71, %r14
	ja	.Lrekusoyen_job_0_1_0.81
	movb	$10, 248(%rsp,%rbx)
	jmp	.Lrekusoyen_job_0_1_0.81
.Lrekusoyen_job_0_1_0.34:
	leaq	.Lrekusoyen_0_1_0.static.7(%rip), %rax
	negq	%rax
	addq	%rsp, %rax
	addq	$240, %rax
	cmpq	$4, %rax
	ja	.Lrekusoyen_job_0_1_0.36
	movl	$1684107116, 240(%rsp)
	movb	$32, 244(%rsp)
	jmp	.Lrekusoyen_job_0_1_0.37
.Lrekusoyen_job_0_1_0.36:
	movb	$32, 244(%rsp)
	movl	$1684107116, 240(%rsp)
.Lrekusoyen_job_0_1_0.37:
	movq	%rcx, 24(%rsp)
	movaps	%xmm0, 33040(%rsp)
	movl	$0, 33056(%rsp)
	movl	$19, %r12d
	movabsq	$-3689348814741910323, %r15
	cmpq	$10, %rbp
	jae	.Lrekusoyen_job_0_1_0.39
	movq	%rbp, %rdx
	jmp	.Lrekusoyen_job_0_1_0.40
	.p2align	4
.Lrekusoyen_job_0_1_0.39:
	movq	%rbp, %rax
	mulq	%r15
	shrq	$3, %rdx
	leal	(%rdx,%rdx), %eax
	leal	(%rax,%rax,4), %eax
	movl	%ebp, %ecx
	subl	%eax, %ecx
	orb	$48, %cl
	movb	%cl, 33040(%rsp,%r12)
	decq	%r12
	cmpq	$99, %rbp
	movq	%rdx, %rbp
	ja	.Lrekusoyen_job_0_1_0.39
.Lrekusoyen_job_0_1_0.40:
	orb	$48, %dl
	leaq	(%rsp,%r12), %rsi
	addq	$33040, %rsi
	movb	%dl, 33040(%rsp,%r12)
	movl	$20, %ebx
	subq	%r12, %rbx
	cmpq	$75, %rbx
	movl	$75, %r14d
	cmovbq	%rbx, %r14
	leaq	245(%rsp), %rdi
	movq	%r14, %rdx
	callq	memcpy@PLT
	movl	$80, %ebp
	cmpq	$74, %rbx
	ja	.Lrekusoyen_job_0_1_0.43
	leaq	54(%r12), %rax
	cmpq	$4, %rax
	movl	$4, %ebx
	cmovbq	%rax, %rbx
	movb	$10, 245(%rsp,%r14)
	cmpq	$-54, %r12
	je	.Lrekusoyen_job_0_1_0.44
	movl	$26, %ebp
	subq	%r12, %rbp
	leaq	(%rsp,%rbp), %rdi
	addq	$240, %rdi
	leaq	.Lrekusoyen_0_1_0.static.8(%rip), %rsi
	movq	%rbx, %rdx
	callq	memcpy@PLT
	jmp	.Lrekusoyen_job_0_1_0.44
.Lrekusoyen_job_0_1_0.43:
	xorl	%ebx, %ebx
.Lrekusoyen_job_0_1_0.44:
	addq	%rbp, %rbx
	xorps	%xmm0, %xmm0
	movaps	%xmm0, 33040(%rsp)
	movl	$0, 33056(%rsp)
	movl	$19, %ecx
	cmpq	$10, %r13
	jae	.Lrekusoyen_job_0_1_0.46
	movq	%r13, %rdx
	jmp	.Lrekusoyen_job_0_1_0.47
	.p2align	4
.Lrekusoyen_job_0_1_0.46:
	movq	%r13, %rax
	mulq	%r15
	shrq	$3, %rdx
	leal	(%rdx,%rdx), %eax
	leal	(%rax,%rax,4), %eax
	movl	%r13d, %esi
	subl	%eax, %esi
	orb	$48, %sil
	movb	%sil, 33040(%rsp,%rcx)
	decq	%rcx
	cmpq	$99, %r13
	movq	%rdx, %r13
	ja	.Lrekusoyen_job_0_1_0.46
.Lrekusoyen_job_0_1_0.47:
	orb	$48, %dl
	movb	%dl, 33040(%rsp,%rcx)
	movl	$20, %eax
	subq	%rcx, %rax
	movl	$80, %r14d
	subq	%rbx, %r14
	cmpq	%rax, %r14
	cmovaeq	%rax, %r14
	testq	%r14, %r14
	je	.Lrekusoyen_job_0_1_0.49
	leaq	(%rsp,%rcx), %rsi
	addq	$33040, %rsi
	leaq	(%rsp,%rbx), %rdi
	addq	$240, %rdi
	movq	%r14, %rdx
	callq	memcpy@PLT
.Lrekusoyen_job_0_1_0.49:
	addq	%rbx, %r14
	xorl	%ebx, %ebx
	cmpq	$80, %r14
	setb	%bl
	jae	.Lrekusoyen_job_0_1_0.54
	leaq	(%rsp,%r14), %rdi
	addq	$240, %rdi
	leaq	.Lrekusoyen_0_1_0.static.9(%rip), %rax
	movq	%rdi, %rcx
	subq	%rax, %rcx
	cmpq	%rbx, %rcx
	jae	.Lrekusoyen_job_0_1_0.53
	movb	$10, (%rdi)
	jmp	.Lrekusoyen_job_0_1_0.54
.Lrekusoyen_job_0_1_0.52:
	testq	%r14, %r14
	jne	.Lrekusoyen_job_0_1_0.9
	jmp	.Lrekusoyen_job_0_1_0.10
.Lrekusoyen_job_0_1_0.53:
	movl	$10, %esi
	movq	%rbx, %rdx
	callq	memset@PLT
.Lrekusoyen_job_0_1_0.54:
	addq	%rbx, %r14
	cmpq	$80, %r14
	movl	$80, %eax
	movl	$80, %r12d
	cmovbq	%r14, %r12
	cmpq	$1, 24(%rsp)
	jne	.Lrekusoyen_job_0_1_0.81
	subq	%r12, %rax
	leaq	(%rsp,%r12), %rdi
	addq	$240, %rdi
	movq	32(%rsp), %rcx
	testb	%cl, %cl
	je	.Lrekusoyen_job_0_1_0.59
	movzbl	%cl, %ecx
	cmpl	$1, %ecx
	jne	.Lrekusoyen_job_0_1_0.69
	cmpq	$79, %r14
	ja	.Lrekusoyen_job_0_1_0.81
	cmpq	$9, %rax
	movl	$9, %edx
	cmovbq	%rax, %rdx
	leaq	.Lrekusoyen_0_1_0.static.11(%rip), %rsi
	callq	memcpy@PLT
	jmp	.Lrekusoyen_job_0_1_0.81
.Lrekusoyen_job_0_1_0.59:
	cmpq	$4, %rax
	movl	$4, %ebx
	cmovbq	%rax, %rbx
	cmpq	$79, %r14
	ja	.Lrekusoyen_job_0_1_0.61
	leaq	.Lrekusoyen_0_1_0.static.12(%rip), %rsi
	movq	%rbx, %rdx
	callq	memcpy@PLT
.Lrekusoyen_job_0_1_0.61:
	addq	%r12, %rbx
	xorps	%xmm0, %xmm0
	movaps	%xmm0, 33040(%rsp)
	movl	$0, 33056(%rsp)
	movl	$19, %ecx
	movq	56(%rsp), %rdi
	cmpq	$10, %rdi
	jae	.Lrekusoyen_job_0_1_0.63
	movq	%rdi, %rdx
	jmp	.Lrekusoyen_job_0_1_0.64
	.p2align	4
.Lrekusoyen_job_0_1_0.63:
	movq	%rdi, %rax
	mulq	%r15
	shrq	$3, %rdx
	leal	(%rdx,%rdx), %eax
	leal	(%rax,%rax,4), %eax
	movl	%edi, %esi
	subl	%eax, %esi
	orb	$48, %sil
	movb	%sil, 33040(%rsp,%rcx)
	decq	%rcx
	cmpq	$99, %rdi
	movq	%rdx, %rdi
	ja	.Lrekusoyen_job_0_1_0.63
.Lrekusoyen_job_0_1_0.64:
	orb	$48, %dl
	movb	%dl, 33040(%rsp,%rcx)
	movl	$20, %eax
	subq	%rcx, %rax
	movl	$80, %r14d
	subq	%rbx, %r14
	cmpq	%rax, %r14
	cmovaeq	%rax, %r14
	testq	%r14, %r14
	je	.Lrekusoyen_job_0_1_0.66
	leaq	(%rsp,%rcx), %rsi
	addq	$33040, %rsi
	leaq	(%rsp,%rbx), %rdi
	addq	$240, %rdi
	movq	%r14, %rdx
	callq	memcpy@PLT
.Lrekusoyen_job_0_1_0.66:
	addq	%rbx, %r14
	xorl	%edx, %edx
	cmpq	$80, %r14
	setb	%al
	jae	.Lrekusoyen_job_0_1_0.81
	movb	%al, %dl
	leaq	(%rsp,%r14), %rdi
	addq	$240, %rdi
	leaq	.Lrekusoyen_0_1_0.static.9(%rip), %rax
	movq	%rdi, %rcx
	subq	%rax, %rcx
	cmpq	%rdx, %rcx
	jae	.Lrekusoyen_job_0_1_0.80
	movb	$10, (%rdi)
	jmp	.Lrekusoyen_job_0_1_0.81
.Lrekusoyen_job_0_1_0.69:
	cmpq	$79, %r14
	ja	.Lrekusoyen_job_0_1_0.81
	cmpq	$12, %rax
	movl	$12, %edx
	cmovbq	%rax, %rdx
	leaq	.Lrekusoyen_0_1_0.static.10(%rip), %rsi
	callq	memcpy@PLT
	jmp	.Lrekusoyen_job_0_1_0.81
.Lrekusoyen_job_0_1_0.71:
	movq	33040(%rsp), %rax
	movq	33048(%rsp), %r12
	movq	33056(%rsp), %rcx
	movq	248(%rsp), %rdx
	movq	%rdx, 40(%rsp)
	movq	256(%rsp), %r15
.Lrekusoyen_job_0_1_0.72:
	cmpq	%r12, %rbx
	cmovbq	%rbx, %r12
	movq	%rbx, %r14
	subq	%r12, %r14
	cmpq	%rcx, %r14
	cmovaeq	%rcx, %r14
	addq	%r13, %r12
	movl	$0, 65844(%rsp)
	movl	$0, 65841(%rsp)
	cmpq	$1, %rax
	setne	65840(%rsp)
	xorps	%xmm0, %xmm0
	movups	%xmm0, 65848(%rsp)
	movups	%xmm0, 65864(%rsp)
	movaps	%xmm0, 33040(%rsp)
	movaps	%xmm0, 33056(%rsp)
	movaps	%xmm0, 33072(%rsp)
	movq	$0, 33088(%rsp)
	movq	$1, 248(%rsp)
	movups	%xmm0, 256(%rsp)
	movups	%xmm0, 272(%rsp)
	movups	%xmm0, 288(%rsp)
	movups	%xmm0, 304(%rsp)
	movups	%xmm0, 320(%rsp)
	movups	%xmm0, 336(%rsp)
	movups	%xmm0, 352(%rsp)
	movups	%xmm0, 368(%rsp)
	movq	$16384, 384(%rsp)
	movups	%xmm0, 488(%rsp)
	movups	%xmm0, 472(%rsp)
	movups	%xmm0, 456(%rsp)
	movups	%xmm0, 440(%rsp)
	movups	%xmm0, 424(%rsp)
	movups	%xmm0, 408(%rsp)
	movups	%xmm0, 392(%rsp)
	movq	$0, 504(%rsp)
	movq	$16384, 240(%rsp)
	leaq	33040(%rsp), %rdi
	leaq	240(%rsp), %rsi
	leaq	65840(%rsp), %r8
	movq	%r12, %rdx
	movq	%r14, %rcx
	callq	rekusoyen_0_1_0.loads.formats.plan
	cmpb	$0, 33040(%rsp)
	je	.Lrekusoyen_job_0_1_0.76
	movzbl	33041(%rsp), %edx
.Lrekusoyen_job_0_1_0.74:
	movb	$1, %sil
	xorl	%ebp, %ebp
	xorl	%r13d, %r13d
	xorl	%ecx, %ecx
	xorl	%edi, %edi
	movq	16(%rsp), %r12
	jmp	.Lrekusoyen_job_0_1_0.26
.Lrekusoyen_job_0_1_0.75:
	xorl	%r13d, %r13d
	jmp	.Lrekusoyen_job_0_1_0.25
.Lrekusoyen_job_0_1_0.76:
	movq	%rbp, (%rsp)
	movzbl	33064(%rsp), %eax
	movq	%rax, 32(%rsp)
	movq	33048(%rsp), %rbp
	movq	33056(%rsp), %r13
	leaq	98632(%rsp), %rdi
	leaq	65840(%rsp), %r8
	movl	$16384, %esi
	movq	%r12, %rdx
	movq	%r14, %rcx
	callq	rekusoyen_0_1_0.loads.copying.copy_all
	movq	33072(%rsp), %rdi
	cmpq	$3, %rbx
	jbe	.Lrekusoyen_job_0_1_0.78
	movq	(%rsp), %rax
	movq	8(%rsp), %rbx
	addq	%rbx, %rax
	movl	(%rax), %eax
	movq	16(%rsp), %r12
	jmp	.Lrekusoyen_job_0_1_0.87
.Lrekusoyen_job_0_1_0.78:
	jne	.Lrekusoyen_job_0_1_0.83
	movq	(%rsp), %rax
	movq	8(%rsp), %rbx
	leaq	(%rax,%rbx), %rcx
	movzbl	2(%rcx), %esi
	shll	$8, %esi
	movq	16(%rsp), %r12
	jmp	.Lrekusoyen_job_0_1_0.85
.Lrekusoyen_job_0_1_0.80:
	movl	$10, %esi
	callq	memset@PLT
.Lrekusoyen_job_0_1_0.81:
	movaps	304(%rsp), %xmm0
	movaps	%xmm0, 224(%rsp)
	movaps	240(%rsp), %xmm1
	movaps	256(%rsp), %xmm2
	movaps	272(%rsp), %xmm3
	movaps	288(%rsp), %xmm4
	movaps	%xmm4, 208(%rsp)
	movaps	%xmm1, 80(%rsp)
	movaps	%xmm2, 96(%rsp)
	movaps	%xmm3, 112(%rsp)
	movaps	%xmm4, 128(%rsp)
	movaps	%xmm0, 144(%rsp)
	movq	64(%rsp), %rax
	movups	%xmm0, 64(%rax)
	movups	%xmm4, 48(%rax)
	movups	%xmm3, 32(%rax)
	movups	%xmm2, 16(%rax)
	movups	%xmm1, (%rax)
	xorl	%eax, %eax
.Lrekusoyen_job_0_1_0.82:
	addq	$115016, %rsp
	popq	%rbx
	popq	%r12
	popq	%r13
	popq	%r14
	popq	%r15
	popq	%rbp
	retq
.Lrekusoyen_job_0_1_0.83:
	cmpq	$2, %rbx
	movq	16(%rsp), %r12
	jb	.Lrekusoyen_job_0_1_0.128
	xorl	%esi, %esi
	movq	(%rsp), %rax
	movq	8(%rsp), %rbx
	leaq	(%rax,%rbx), %rcx
.Lrekusoyen_job_0_1_0.85:
	movzbl	1(%rcx), %eax
	orl	%eax, %esi
	shll	$8, %esi
.Lrekusoyen_job_0_1_0.86:
	movzbl	(%rcx), %eax
	orq	%rsi, %rax
.Lrekusoyen_job_0_1_0.87:
	xorl	%esi, %esi
	cmpl	$2, %eax
	jne	.Lrekusoyen_job_0_1_0.93
	movq	%rdi, 56(%rsp)
	movq	24(%rsp), %rsi
	movq	40(%rsp), %r12
	cmpq	%r12, %rsi
	cmovbq	%rsi, %r12
	subq	%r12, %rsi
	cmpq	%r15, %rsi
	cmovaeq	%r15, %rsi
	movq	(%rsp), %rax
	addq	%rbx, %rax
	leaq	(%rax,%r12), %rdi
	movq	%rdi, 48(%rsp)
	movq	%rsi, %r15
	callq	rekusoyen_0_1_0.slugs.splitting.split_at
	xorl	%r14d, %r14d
	testq	%rax, %rax
	je	.Lrekusoyen_job_0_1_0.95
	movq	48(%rsp), %rdi
	movq	%r15, %r8
	jmp	.Lrekusoyen_job_0_1_0.91
	.p2align	4
.Lrekusoyen_job_0_1_0.90:
	incq	%r14
	cmpq	%r14, %rax
	je	.Lrekusoyen_job_0_1_0.94
.Lrekusoyen_job_0_1_0.91:
	movzbl	(%rdi,%r14), %ecx
	leal	-9(%rcx), %edx
	cmpl	$5, %edx
	jb	.Lrekusoyen_job_0_1_0.90
	cmpl	$32, %ecx
	je	.Lrekusoyen_job_0_1_0.90
	jmp	.Lrekusoyen_job_0_1_0.96
.Lrekusoyen_job_0_1_0.93:
	movq	32(%rsp), %rcx
	xorl	%edx, %edx
	jmp	.Lrekusoyen_job_0_1_0.26
.Lrekusoyen_job_0_1_0.94:
	movq	%rax, %r14
	jmp	.Lrekusoyen_job_0_1_0.96
.Lrekusoyen_job_0_1_0.95:
	movq	48(%rsp), %rdi
	movq	%r15, %r8
.Lrekusoyen_job_0_1_0.96:
	movq	%rax, %r15
	subq	%r14, %r15
	je	.Lrekusoyen_job_0_1_0.102
	leaq	(%rbx,%rax), %rcx
	addq	%r12, %rcx
	movq	(%rsp), %rdx
	addq	%rdx, %rcx
	decq	%rcx
	jmp	.Lrekusoyen_job_0_1_0.99
	.p2align	4
.Lrekusoyen_job_0_1_0.98:
	decq	%r15
	decq	%rcx
	testq	%r15, %r15
	je	.Lrekusoyen_job_0_1_0.102
.Lrekusoyen_job_0_1_0.99:
	movzbl	(%rcx), %edx
	leal	-9(%rdx), %esi
	cmpl	$5, %esi
	jb	.Lrekusoyen_job_0_1_0.98
	cmpl	$32, %edx
	je	.Lrekusoyen_job_0_1_0.98
	movq	%rbx, %rdx
	jmp	.Lrekusoyen_job_0_1_0.103
.Lrekusoyen_job_0_1_0.102:
	movq	%rbx, %rdx
	xorl	%r15d, %r15d
.Lrekusoyen_job_0_1_0.103:
	movq	%r12, %rsi
	cmpq	%rax, %r8
	cmovbq	%r8, %rax
	addq	%rax, %rdi
	movq	%r8, %rbx
	subq	%rax, %rbx
	cmpq	$4, %rbx
	movl	$4, %eax
	cmovbq	%rbx, %rax
	addq	%rax, %rdi
	xorl	%r12d, %r12d
	subq	%rax, %rbx
	jne	.Lrekusoyen_job_0_1_0.105
	jmp	.Lrekusoyen_job_0_1_0.108
	.p2align	4
.Lrekusoyen_job_0_1_0.104:
	incq	%r12
	cmpq	%r12, %rbx
	je	.Lrekusoyen_job_0_1_0.107
.Lrekusoyen_job_0_1_0.105:
	movzbl	(%rdi,%r12), %eax
	leal	-9(%rax), %ecx
	cmpl	$5, %ecx
	jb	.Lrekusoyen_job_0_1_0.104
	cmpl	$32, %eax
	je	.Lrekusoyen_job_0_1_0.104
	jmp	.Lrekusoyen_job_0_1_0.108
.Lrekusoyen_job_0_1_0.107:
	movq	%rbx, %r12
.Lrekusoyen_job_0_1_0.108:
	subq	%r12, %rbx
	je	.Lrekusoyen_job_0_1_0.117
	addq	%rsi, %rdx
	addq	%r8, %rdx
	movq	(%rsp), %rax
	addq	%rdx, %rax
	decq	%rax
	jmp	.Lrekusoyen_job_0_1_0.111
	.p2align	4
.Lrekusoyen_job_0_1_0.110:
	decq	%rbx
	decq	%rax
	testq	%rbx, %rbx
	je	.Lrekusoyen_job_0_1_0.117
.Lrekusoyen_job_0_1_0.111:
	movzbl	(%rax), %ecx
	leal	-9(%rcx), %edx
	cmpl	$5, %edx
	jb	.Lrekusoyen_job_0_1_0.110
	cmpl	$32, %ecx
	je	.Lrekusoyen_job_0_1_0.110
	cmpq	$4095, %r15
	ja	.Lrekusoyen_job_0_1_0.127
	movq	%r15, %rax
	subq	$4091, %rax
	ja	.Lrekusoyen_job_0_1_0.127
	negq	%rax
	cmpq	%rax, %rbx
	ja	.Lrekusoyen_job_0_1_0.127
	movq	%rdi, 8(%rsp)
	movl	$0, (%rsp)
	jmp	.Lrekusoyen_job_0_1_0.119
.Lrekusoyen_job_0_1_0.117:
	cmpq	$4096, %r15
	jae	.Lrekusoyen_job_0_1_0.127
	movq	%rdi, 8(%rsp)
	movb	$1, %al
	movl	%eax, (%rsp)
	xorl	%ebx, %ebx
.Lrekusoyen_job_0_1_0.119:
	leaq	240(%rsp), %rdi
	movl	$32776, %edx
	xorl	%esi, %esi
	callq	memset@PLT
	movq	$4096, 33024(%rsp)
	testq	%r15, %r15
	movq	48(%rsp), %rcx
	je	.Lrekusoyen_job_0_1_0.122
	addq	%r14, %rcx
	xorl	%esi, %esi
	movq	%r15, 40(%rsp)
.Lrekusoyen_job_0_1_0.121:
	movq	%r15, %rax
	subq	%rsi, %rax
	cmpq	$2048, %rax
	movl	$2048, %edx
	cmovbq	%rax, %rdx
	leaq	(%rdx,%rsi), %r14
	leaq	(%rsp,%rsi), %rdi
	addq	$240, %rdi
	addq	%rcx, %rsi
	movq	%rcx, %r15
	callq	memcpy@PLT
	movq	%r15, %rcx
	movq	40(%rsp), %r15
	movq	%r14, %rsi
	cmpq	%r15, %r14
	jb	.Lrekusoyen_job_0_1_0.121
.Lrekusoyen_job_0_1_0.122:
	movq	%r15, 16624(%rsp)
	cmpq	$16384, %rbx
	movl	$16384, %eax
	cmovaeq	%rax, %rbx
	cmpb	$0, (%rsp)
	movq	8(%rsp), %r15
	jne	.Lrekusoyen_job_0_1_0.125
	addq	%r12, %r15
	leaq	16632(%rsp), %r14
	xorl	%esi, %esi
.Lrekusoyen_job_0_1_0.124:
	movq	%rbx, %rax
	subq	%rsi, %rax
	cmpq	$2048, %rax
	movl	$2048, %edx
	cmovbq	%rax, %rdx
	leaq	(%rdx,%rsi), %r12
	leaq	(%r14,%rsi), %rdi
	addq	%r15, %rsi
	callq	memcpy@PLT
	movq	%r12, %rsi
	cmpq	%rbx, %r12
	jb	.Lrekusoyen_job_0_1_0.124
.Lrekusoyen_job_0_1_0.125:
	movq	%rbx, 33016(%rsp)
	movq	33024(%rsp), %rbx
	leaq	65846(%rsp), %r14
	leaq	240(%rsp), %rsi
	movl	$32784, %edx
	movq	%r14, %rdi
	callq	memcpy@PLT
	leaq	33040(%rsp), %r15
	movl	$32784, %edx
	movq	%r15, %rdi
	movq	%r14, %rsi
	callq	memcpy@PLT
	movq	%rbx, 65824(%rsp)
	movq	$1, 248(%rsp)
	xorps	%xmm0, %xmm0
	movups	%xmm0, 256(%rsp)
	movups	%xmm0, 272(%rsp)
	movups	%xmm0, 288(%rsp)
	movups	%xmm0, 304(%rsp)
	movups	%xmm0, 320(%rsp)
	movups	%xmm0, 336(%rsp)
	movups	%xmm0, 352(%rsp)
	movups	%xmm0, 368(%rsp)
	movq	$16384, 384(%rsp)
	movups	%xmm0, 392(%rsp)
	movups	%xmm0, 408(%rsp)
	movups	%xmm0, 424(%rsp)
	movups	%xmm0, 440(%rsp)
	movups	%xmm0, 456(%rsp)
	movups	%xmm0, 472(%rsp)
	movups	%xmm0, 488(%rsp)
	movq	$0, 504(%rsp)
	movq	49424(%rsp), %r14
	cmpq	$16384, %r14
	movl	$16384, %ebx
	cmovaeq	%rbx, %r14
	movq	65816(%rsp), %rax
	cmpq	$16384, %rax
	cmovbq	%rax, %rbx
	leaq	49432(%rsp), %r12
	movq	$16384, 240(%rsp)
	leaq	240(%rsp), %rdi
	movq	%r13, %rsi
	movq	%r15, %rdx
	movq	%r14, %rcx
	movq	%r12, %r8
	movq	%rbx, %r9
	callq	rekusoyen_0_1_0.loader.plan_texts
	testb	%al, %al
	jne	.Lrekusoyen_job_0_1_0.74
	cmpq	$16384, %r13
	movl	$16384, %esi
	movl	$16384, %eax
	cmovbq	%r13, %rax
	leaq	(%rsp,%rax), %rdi
	addq	$98632, %rdi
	subq	%rax, %rsi
	leaq	33040(%rsp), %rdx
	movq	%r14, %rcx
	movq	%r12, %r8
	movq	%rbx, %r9
	callq	rekusoyen_0_1_0.cmdline.writing.write
	xorl	%esi, %esi
	xorl	%edx, %edx
	movq	16(%rsp), %r12
	movq	32(%rsp), %rcx
	movq	56(%rsp), %rdi
	jmp	.Lrekusoyen_job_0_1_0.26
.Lrekusoyen_job_0_1_0.127:
	movb	$20, %dl
	jmp	.Lrekusoyen_job_0_1_0.74
.Lrekusoyen_job_0_1_0.128:
	xorl	%esi, %esi
	testq	%rbx, %rbx
	je	.Lrekusoyen_job_0_1_0.130
	movq	(%rsp), %rax
	movq	8(%rsp), %rbx
	leaq	(%rax,%rbx), %rcx
	jmp	.Lrekusoyen_job_0_1_0.86
.Lrekusoyen_job_0_1_0.130:
	xorl	%edx, %edx
	movq	32(%rsp), %rcx
	jmp	.Lrekusoyen_job_0_1_0.26
.Lrekusoyen_job_0_1_0.func_end:
	.size	rekusoyen_job_0_1_0, .Lrekusoyen_job_0_1_0.func_end-rekusoyen_job_0_1_0
	.section	.text.rekusoyen_kind_0_1_0,"ax",@progbits
	.globl	rekusoyen_kind_0_1_0
	.hidden	rekusoyen_kind_0_1_0
	.p2align	4
	.type	rekusoyen_kind_0_1_0,@function
rekusoyen_kind_0_1_0:
	xorl	%ecx, %ecx
	testq	%rdi, %rdi
	sete	%dl
	xorl	%eax, %eax
	testq	%rsi, %rsi
	je	.Lrekusoyen_kind_0_1_0.12
	movb	%dl, %cl
	shll	$12, %ecx
	cmpb	$127, (%rdi,%rcx)
	jne	.Lrekusoyen_kind_0_1_0.8
	cmpq	$1, %rsi
	je	.Lrekusoyen_kind_0_1_0.12
	cmpb	$69, 1(%rdi,%rcx)
	jne	.Lrekusoyen_kind_0_1_0.8
	cmpq	$3, %rsi
	jb	.Lrekusoyen_kind_0_1_0.12
	cmpb	$76, 2(%rdi,%rcx)
	jne	.Lrekusoyen_kind_0_1_0.8
	cmpq	$3, %rsi
	je	.Lrekusoyen_kind_0_1_0.12
	movl	$1, %eax
	cmpb	$70, 3(%rdi,%rcx)
	je	.Lrekusoyen_kind_0_1_0.12
.Lrekusoyen_kind_0_1_0.8:
	cmpq	$517, %rsi
	jbe	.Lrekusoyen_kind_0_1_0.9
	movl	$2, %eax
	cmpl	$1400005704, 514(%rdi,%rcx)
	jne	.Lrekusoyen_kind_0_1_0.11
	jmp	.Lrekusoyen_kind_0_1_0.12
.Lrekusoyen_kind_0_1_0.9:
	movl	$0, %eax
	cmpq	$59, %rsi
	jbe	.Lrekusoyen_kind_0_1_0.12
.Lrekusoyen_kind_0_1_0.11:
	xorl	%eax, %eax
	cmpl	$1682788929, 56(%rdi,%rcx)
	sete	%al
	leal	(%rax,%rax,2), %eax
.Lrekusoyen_kind_0_1_0.12:
	retq
.Lrekusoyen_kind_0_1_0.func_end:
	.size	rekusoyen_kind_0_1_0, .Lrekusoyen_kind_0_1_0.func_end-rekusoyen_kind_0_1_0
	.section	.rodata.cst16,"aM",@progbits,16
	.p2align	4, 0x0
.Lrekusoyen_line_add_virtio_mmio_device_0_1_0.CPI0:
	.byte	118
	.byte	105
	.byte	114
	.byte	116
	.byte	105
	.byte	111
	.byte	95
	.byte	109
	.byte	109
	.byte	105
	.byte	111
	.byte	46
	.byte	100
	.byte	101
	.byte	118
	.byte	105
	.section	.text.rekusoyen_line_add_virtio_mmio_device_0_1_0,"ax",@progbits
	.globl	rekusoyen_line_add_virtio_mmio_device_0_1_0
	.hidden	rekusoyen_line_add_virtio_mmio_device_0_1_0
	.p2align	4
	.type	rekusoyen_line_add_virtio_mmio_device_0_1_0,@function
rekusoyen_line_add_virtio_mmio_device_0_1_0:
	pushq	%rbp
	pushq	%r15
	pushq	%r14
	pushq	%r13
	pushq	%r12
	pushq	%rbx
	subq	$200, %rsp
	movq	%rdx, %r10
	xorl	%edx, %edx
	testq	%rdi, %rdi
	sete	%r11b
	movb	$33, %al
	cmpq	$32792, %rsi
	jne	.Lrekusoyen_line_add_virtio_mmio_device_0_1_0.4
	movb	%r11b, %dl
	shll	$12, %edx
	addq	%rdx, %rdi
	movq	16(%rdi), %r12
	leaq	-1(%r12), %rdx
	movb	$20, %al
	cmpq	$16383, %rdx
	ja	.Lrekusoyen_line_add_virtio_mmio_device_0_1_0.4
	movl	256(%rsp), %ebx
	movq	(%rdi), %r13
	movq	8(%rdi), %r11
	testq	%r11, %r11
	sete	%dl
	cmpq	%r13, %r12
	setbe	%sil
	orb	%dl, %sil
	je	.Lrekusoyen_line_add_virtio_mmio_device_0_1_0.3
	cmpq	%r13, %r12
	seta	%dl
	testq	%r11, %r11
	sete	%sil
	testb	%dl, %sil
	je	.Lrekusoyen_line_add_virtio_mmio_device_0_1_0.4
	xorl	%r11d, %r11d
	jmp	.Lrekusoyen_line_add_virtio_mmio_device_0_1_0.7
.Lrekusoyen_line_add_virtio_mmio_device_0_1_0.3:
	movq	%r13, %rdx
	notq	%rdx
	addq	%r12, %rdx
	subq	$4, %rdx
	setae	%sil
	cmpq	%rdx, %r11
	setbe	%dl
	testb	%dl, %sil
	je	.Lrekusoyen_line_add_virtio_mmio_device_0_1_0.4
.Lrekusoyen_line_add_virtio_mmio_device_0_1_0.7:
	testq	%r10, %r10
	je	.Lrekusoyen_line_add_virtio_mmio_device_0_1_0.8
	xorps	%xmm0, %xmm0
	movaps	%xmm0, 176(%rsp)
	movaps	%xmm0, 160(%rsp)
	movaps	%xmm0, 144(%rsp)
	movaps	%xmm0, 128(%rsp)
	movaps	%xmm0, 112(%rsp)
	leaq	.Lrekusoyen_0_1_0.static.13(%rip), %rax
	negq	%rax
	addq	%rsp, %rax
	addq	$112, %rax
	cmpq	$18, %rax
	ja	.Lrekusoyen_line_add_virtio_mmio_device_0_1_0.11
	movaps	.Lrekusoyen_line_add_virtio_mmio_device_0_1_0.CPI0(%rip), %xmm0
	movaps	%xmm0, 112(%rsp)
	movw	$25955, 128(%rsp)
	movb	$61, 130(%rsp)
	jmp	.Lrekusoyen_line_add_virtio_mmio_device_0_1_0.12
.Lrekusoyen_line_add_virtio_mmio_device_0_1_0.4:
	movzbl	%al, %edi
	addq	$200, %rsp
	popq	%rbx
	popq	%r12
	popq	%r13
	popq	%r14
	popq	%r15
	popq	%rbp
	jmp	rekusoyen_0_1_0.answers.U32FromRefusal.from
.Lrekusoyen_line_add_virtio_mmio_device_0_1_0.8:
	movb	$25, %al
	jmp	.Lrekusoyen_line_add_virtio_mmio_device_0_1_0.58
.Lrekusoyen_line_add_virtio_mmio_device_0_1_0.11:
	movups	.Lrekusoyen_0_1_0.static.13(%rip), %xmm0
	movaps	%xmm0, 112(%rsp)
	movl	$1030054761, 127(%rsp)
.Lrekusoyen_line_add_virtio_mmio_device_0_1_0.12:
	xorps	%xmm0, %xmm0
	movups	%xmm0, 56(%rsp)
	movups	%xmm0, 72(%rsp)
	movq	$0, 88(%rsp)
	movq	$1073741824, 48(%rsp)
	movb	$71, 56(%rsp)
	movq	$1048576, 64(%rsp)
	movb	$77, 72(%rsp)
	movq	$1024, 80(%rsp)
	movb	$75, 88(%rsp)
	movq	%r10, %rax
	shlq	$34, %rax
	movabsq	$-3689348814741910323, %rsi
	movq	%rdi, 8(%rsp)
	movl	%r9d, (%rsp)
	movl	%r8d, 4(%rsp)
	movq	%r11, 192(%rsp)
	movl	%ebx, 108(%rsp)
	je	.Lrekusoyen_line_add_virtio_mmio_device_0_1_0.13
	movq	%r10, %rax
	shlq	$44, %rax
	je	.Lrekusoyen_line_add_virtio_mmio_device_0_1_0.17
	movq	%r10, %rax
	shlq	$54, %rax
	je	.Lrekusoyen_line_add_virtio_mmio_device_0_1_0.19
	movaps	%xmm0, 16(%rsp)
	movl	$0, 32(%rsp)
	movl	$19, %edi
	movq	%rcx, %r15
	cmpq	$10, %r10
	jae	.Lrekusoyen_line_add_virtio_mmio_device_0_1_0.26
	movq	%r10, %rdx
	jmp	.Lrekusoyen_line_add_virtio_mmio_device_0_1_0.27
	.p2align	4
.Lrekusoyen_line_add_virtio_mmio_device_0_1_0.26:
	movq	%r10, %rax
	mulq	%rsi
	shrq	$3, %rdx
	leal	(%rdx,%rdx), %eax
	leal	(%rax,%rax,4), %eax
	movl	%r10d, %ecx
	subl	%eax, %ecx
	orb	$48, %cl
	movb	%cl, 16(%rsp,%rdi)
	decq	%rdi
	cmpq	$99, %r10
	movq	%rdx, %r10
	ja	.Lrekusoyen_line_add_virtio_mmio_device_0_1_0.26
.Lrekusoyen_line_add_virtio_mmio_device_0_1_0.27:
	orb	$48, %dl
	leaq	(%rsp,%rdi), %rsi
	addq	$16, %rsi
	movb	%dl, 16(%rsp,%rdi)
	movl	$20, %eax
	subq	%rdi, %rax
	cmpq	$61, %rax
	movl	$61, %r14d
	cmovbq	%rax, %r14
	leaq	131(%rsp), %rdi
	movq	%r14, %rdx
	callq	memcpy@PLT
	addq	$19, %r14
	jmp	.Lrekusoyen_line_add_virtio_mmio_device_0_1_0.28
.Lrekusoyen_line_add_virtio_mmio_device_0_1_0.13:
	movq	%rcx, %r15
	movl	$30, %ecx
	leaq	48(%rsp), %rax
	jmp	.Lrekusoyen_line_add_virtio_mmio_device_0_1_0.14
.Lrekusoyen_line_add_virtio_mmio_device_0_1_0.17:
	movq	%rcx, %r15
	leaq	64(%rsp), %rax
	movl	$20, %ecx
	jmp	.Lrekusoyen_line_add_virtio_mmio_device_0_1_0.14
.Lrekusoyen_line_add_virtio_mmio_device_0_1_0.19:
	movq	%rcx, %r15
	leaq	80(%rsp), %rax
	movl	$10, %ecx
.Lrekusoyen_line_add_virtio_mmio_device_0_1_0.14:
	movzbl	8(%rax), %ebx
	shrq	%cl, %r10
	movaps	%xmm0, 16(%rsp)
	movl	$0, 32(%rsp)
	movl	$19, %ecx
	cmpq	$10, %r10
	jae	.Lrekusoyen_line_add_virtio_mmio_device_0_1_0.22
	movq	%r10, %rdx
	jmp	.Lrekusoyen_line_add_virtio_mmio_device_0_1_0.23
	.p2align	4
.Lrekusoyen_line_add_virtio_mmio_device_0_1_0.22:
	movq	%r10, %rax
	mulq	%rsi
	shrq	$3, %rdx
	leal	(%rdx,%rdx), %eax
	leal	(%rax,%rax,4), %eax
	movl	%r10d, %edi
	subl	%eax, %edi
	orb	$48, %dil
	movb	%dil, 16(%rsp,%rcx)
	decq	%rcx
	cmpq	$99, %r10
	movq	%rdx, %r10
	ja	.Lrekusoyen_line_add_virtio_mmio_device_0_1_0.22
.Lrekusoyen_line_add_virtio_mmio_device_0_1_0.23:
	orb	$48, %dl
	leaq	(%rsp,%rcx), %rsi
	addq	$16, %rsi
	movb	%dl, 16(%rsp,%rcx)
	movl	$20, %ebp
	subq	%rcx, %rbp
	cmpq	$61, %rbp
	movl	$61, %r14d
	cmovbq	%rbp, %r14
	leaq	131(%rsp), %rdi
	movq	%r14, %rdx
	callq	memcpy@PLT
	cmpq	$61, %rbp
	jae	.Lrekusoyen_line_add_virtio_mmio_device_0_1_0.24
	movb	%bl, 131(%rsp,%r14)
	addq	$20, %r14
.Lrekusoyen_line_add_virtio_mmio_device_0_1_0.28:
	cmpq	$80, %r14
	movl	$80, %eax
	movl	$80, %ebp
	cmovbq	%r14, %rbp
	subq	%rbp, %rax
	cmpq	$3, %rax
	movl	$3, %ebx
	cmovbq	%rax, %rbx
	cmpq	$79, %r14
	ja	.Lrekusoyen_line_add_virtio_mmio_device_0_1_0.30
	leaq	(%rsp,%rbp), %rdi
	addq	$112, %rdi
	leaq	.Lrekusoyen_0_1_0.static.14(%rip), %rsi
	movq	%rbx, %rdx
	callq	memcpy@PLT
	jmp	.Lrekusoyen_line_add_virtio_mmio_device_0_1_0.30
.Lrekusoyen_line_add_virtio_mmio_device_0_1_0.24:
	movl	$80, %ebp
	xorl	%ebx, %ebx
.Lrekusoyen_line_add_virtio_mmio_device_0_1_0.30:
	movq	8(%rsp), %rcx
	movl	(%rsp), %eax
	movl	4(%rsp), %edx
	addq	%rbp, %rbx
	xorps	%xmm0, %xmm0
	movaps	%xmm0, 48(%rsp)
	movl	$0, 64(%rsp)
	movl	$19, %esi
	cmpq	$16, %r15
	jae	.Lrekusoyen_line_add_virtio_mmio_device_0_1_0.32
	movq	%r15, %rdi
	jmp	.Lrekusoyen_line_add_virtio_mmio_device_0_1_0.34
.Lrekusoyen_line_add_virtio_mmio_device_0_1_0.32:
	movq	%r15, %rdi
	.p2align	4
.Lrekusoyen_line_add_virtio_mmio_device_0_1_0.33:
	movl	%r15d, %r8d
	andl	$15, %r8d
	leal	48(%r8), %r9d
	leal	87(%r8), %r10d
	cmpq	$10, %r8
	movzbl	%r9b, %r8d
	movzbl	%r10b, %r9d
	cmovbl	%r8d, %r9d
	movb	%r9b, 48(%rsp,%rsi)
	shrq	$4, %rdi
	decq	%rsi
	cmpq	$255, %r15
	movq	%rdi, %r15
	ja	.Lrekusoyen_line_add_virtio_mmio_device_0_1_0.33
.Lrekusoyen_line_add_virtio_mmio_device_0_1_0.34:
	movl	%edi, %r8d
	orb	$48, %r8b
	leal	87(%rdi), %r9d
	cmpq	$10, %rdi
	movzbl	%r8b, %edi
	movzbl	%r9b, %r8d
	cmovbl	%edi, %r8d
	movb	%r8b, 48(%rsp,%rsi)
	movl	$20, %edi
	subq	%rsi, %rdi
	movl	$80, %r15d
	subq	%rbx, %r15
	cmpq	%rdi, %r15
	cmovaeq	%rdi, %r15
	testq	%r15, %r15
	je	.Lrekusoyen_line_add_virtio_mmio_device_0_1_0.36
	addq	%rsp, %rsi
	addq	$48, %rsi
	leaq	(%rsp,%rbx), %rdi
	addq	$112, %rdi
	movq	%r15, %rdx
	callq	memcpy@PLT
	movl	4(%rsp), %edx
	movl	(%rsp), %eax
	movq	8(%rsp), %rcx
.Lrekusoyen_line_add_virtio_mmio_device_0_1_0.36:
	addq	%rbx, %r15
	xorl	%ebx, %ebx
	cmpq	$80, %r15
	setb	%bl
	jae	.Lrekusoyen_line_add_virtio_mmio_device_0_1_0.40
	leaq	(%rsp,%r15), %rdi
	addq	$112, %rdi
	leaq	.Lrekusoyen_0_1_0.static.15(%rip), %rsi
	movq	%rdi, %r8
	subq	%rsi, %r8
	cmpq	%rbx, %r8
	jae	.Lrekusoyen_line_add_virtio_mmio_device_0_1_0.39
	movb	$58, (%rdi)
	jmp	.Lrekusoyen_line_add_virtio_mmio_device_0_1_0.40
.Lrekusoyen_line_add_virtio_mmio_device_0_1_0.39:
	movl	$58, %esi
	movq	%rbx, %rdx
	callq	memset@PLT
	movl	4(%rsp), %edx
	movl	(%rsp), %eax
	movq	8(%rsp), %rcx
.Lrekusoyen_line_add_virtio_mmio_device_0_1_0.40:
	addq	%rbx, %r15
	movl	%edx, %edi
	xorps	%xmm0, %xmm0
	movaps	%xmm0, 48(%rsp)
	movl	$0, 64(%rsp)
	movl	$19, %esi
	cmpl	$10, %edx
	jae	.Lrekusoyen_line_add_virtio_mmio_device_0_1_0.42
	movq	%rdi, %rdx
	jmp	.Lrekusoyen_line_add_virtio_mmio_device_0_1_0.43
	.p2align	4
.Lrekusoyen_line_add_virtio_mmio_device_0_1_0.42:
	movl	%edi, %r8d
	movl	$3435973837, %edx
	imulq	%r8, %rdx
	shrq	$35, %rdx
	leal	(%rdx,%rdx), %r8d
	leal	(%r8,%r8,4), %r8d
	movl	%edi, %r9d
	subl	%r8d, %r9d
	orb	$48, %r9b
	movb	%r9b, 48(%rsp,%rsi)
	decq	%rsi
	cmpq	$99, %rdi
	movq	%rdx, %rdi
	ja	.Lrekusoyen_line_add_virtio_mmio_device_0_1_0.42
.Lrekusoyen_line_add_virtio_mmio_device_0_1_0.43:
	orb	$48, %dl
	movb	%dl, 48(%rsp,%rsi)
	movl	$20, %edx
	subq	%rsi, %rdx
	cmpq	$80, %r15
	movl	$80, %ebx
	cmovaeq	%rbx, %r15
	subq	%r15, %rbx
	cmpq	%rdx, %rbx
	cmovaeq	%rdx, %rbx
	testq	%rbx, %rbx
	je	.Lrekusoyen_line_add_virtio_mmio_device_0_1_0.45
	addq	%rsp, %rsi
	addq	$48, %rsi
	leaq	(%rsp,%r15), %rdi
	addq	$112, %rdi
	movq	%rbx, %rdx
	callq	memcpy@PLT
	movl	(%rsp), %eax
	movq	8(%rsp), %rcx
.Lrekusoyen_line_add_virtio_mmio_device_0_1_0.45:
	leaq	24(%rcx), %r14
	addq	%r15, %rbx
	testl	%eax, %eax
	je	.Lrekusoyen_line_add_virtio_mmio_device_0_1_0.56
	xorl	%r15d, %r15d
	cmpq	$80, %rbx
	setb	%r15b
	jae	.Lrekusoyen_line_add_virtio_mmio_device_0_1_0.50
	leaq	(%rsp,%rbx), %rdi
	addq	$112, %rdi
	leaq	.Lrekusoyen_0_1_0.static.15(%rip), %rax
	movq	%rdi, %rcx
	subq	%rax, %rcx
	cmpq	%r15, %rcx
	jae	.Lrekusoyen_line_add_virtio_mmio_device_0_1_0.49
	movb	$58, (%rdi)
	jmp	.Lrekusoyen_line_add_virtio_mmio_device_0_1_0.50
.Lrekusoyen_line_add_virtio_mmio_device_0_1_0.49:
	movl	$58, %esi
	movq	%r15, %rdx
	callq	memset@PLT
.Lrekusoyen_line_add_virtio_mmio_device_0_1_0.50:
	addq	%r15, %rbx
	movl	108(%rsp), %edx
	movl	%edx, %ecx
	xorps	%xmm0, %xmm0
	movaps	%xmm0, 48(%rsp)
	movl	$0, 64(%rsp)
	movl	$19, %eax
	cmpl	$10, %edx
	jae	.Lrekusoyen_line_add_virtio_mmio_device_0_1_0.52
	movq	%rcx, %rdx
	jmp	.Lrekusoyen_line_add_virtio_mmio_device_0_1_0.53
	.p2align	4
.Lrekusoyen_line_add_virtio_mmio_device_0_1_0.52:
	movl	%ecx, %esi
	movl	$3435973837, %edx
	imulq	%rsi, %rdx
	shrq	$35, %rdx
	leal	(%rdx,%rdx), %esi
	leal	(%rsi,%rsi,4), %esi
	movl	%ecx, %edi
	subl	%esi, %edi
	orb	$48, %dil
	movb	%dil, 48(%rsp,%rax)
	decq	%rax
	cmpq	$99, %rcx
	movq	%rdx, %rcx
	ja	.Lrekusoyen_line_add_virtio_mmio_device_0_1_0.52
.Lrekusoyen_line_add_virtio_mmio_device_0_1_0.53:
	orb	$48, %dl
	movb	%dl, 48(%rsp,%rax)
	movl	$20, %ecx
	subq	%rax, %rcx
	cmpq	$80, %rbx
	movl	$80, %r15d
	cmovaeq	%r15, %rbx
	subq	%rbx, %r15
	cmpq	%rcx, %r15
	cmovaeq	%rcx, %r15
	testq	%r15, %r15
	je	.Lrekusoyen_line_add_virtio_mmio_device_0_1_0.55
	leaq	(%rsp,%rax), %rsi
	addq	$48, %rsi
	leaq	(%rsp,%rbx), %rdi
	addq	$112, %rdi
	movq	%r15, %rdx
	callq	memcpy@PLT
.Lrekusoyen_line_add_virtio_mmio_device_0_1_0.55:
	addq	%r15, %rbx
.Lrekusoyen_line_add_virtio_mmio_device_0_1_0.56:
	movq	192(%rsp), %rdx
	cmpq	$16384, %rdx
	movl	$16384, %eax
	cmovbq	%rdx, %rax
	leaq	1(%r13), %rcx
	testq	%rdx, %rdx
	leaq	5(%r13,%rax), %rax
	cmoveq	%rcx, %rax
	xorps	%xmm0, %xmm0
	cmpq	$1, %r13
	sbbq	$-1, %rax
	movaps	%xmm0, 16(%rsp)
	movq	%r13, 48(%rsp)
	movq	%rax, 56(%rsp)
	movq	%r12, 64(%rsp)
	leaq	16(%rsp), %rdi
	leaq	48(%rsp), %rdx
	leaq	112(%rsp), %rcx
	movq	%r14, %rsi
	movq	%rbx, %r8
	callq	rekusoyen_0_1_0.cmdline.in_place.append_slug
	cmpb	$1, 16(%rsp)
	jne	.Lrekusoyen_line_add_virtio_mmio_device_0_1_0.60
	movzbl	17(%rsp), %eax
.Lrekusoyen_line_add_virtio_mmio_device_0_1_0.58:
	movzbl	%al, %edi
	callq	rekusoyen_0_1_0.answers.U32FromRefusal.from
	jmp	.Lrekusoyen_line_add_virtio_mmio_device_0_1_0.59
.Lrekusoyen_line_add_virtio_mmio_device_0_1_0.60:
	movq	24(%rsp), %rcx
	movq	8(%rsp), %rax
	movq	%rcx, (%rax)
	xorl	%eax, %eax
.Lrekusoyen_line_add_virtio_mmio_device_0_1_0.59:
	addq	$200, %rsp
	popq	%rbx
	popq	%r12
	popq	%r13
	popq	%r14
	popq	%r15
	popq	%rbp
	retq
.Lrekusoyen_line_add_virtio_mmio_device_0_1_0.func_end:
	.size	rekusoyen_line_add_virtio_mmio_device_0_1_0, .Lrekusoyen_line_add_virtio_mmio_device_0_1_0.func_end-rekusoyen_line_add_virtio_mmio_device_0_1_0
	.section	.text.rekusoyen_line_check_0_1_0,"ax",@progbits
	.globl	rekusoyen_line_check_0_1_0
	.hidden	rekusoyen_line_check_0_1_0
	.p2align	4
	.type	rekusoyen_line_check_0_1_0,@function
rekusoyen_line_check_0_1_0:
	xorl	%r9d, %r9d
	testq	%rdi, %rdi
	sete	%r11b
	leal	-1(%rdx), %eax
	movb	$32, %r10b
	cmpl	$2, %eax
	ja	.Lrekusoyen_line_check_0_1_0.16
	movq	24(%rsp), %rax
	cmpl	$2, %edx
	jne	.Lrekusoyen_line_check_0_1_0.12
	movl	$255, %r8d
	cmpq	$520, %rsi
	jb	.Lrekusoyen_line_check_0_1_0.13
	movb	%r11b, %r9b
	shll	$12, %r9d
	cmpw	$518, 518(%rdi,%r9)
	jb	.Lrekusoyen_line_check_0_1_0.13
	cmpq	$571, %rsi
	jbe	.Lrekusoyen_line_check_0_1_0.5
	movl	568(%rdi,%r9), %r8d
	jmp	.Lrekusoyen_line_check_0_1_0.13
.Lrekusoyen_line_check_0_1_0.12:
	testb	$4, %cl
	movl	$2047, %ecx
	cmovel	%ecx, %r8d
.Lrekusoyen_line_check_0_1_0.13:
	movq	8(%rsp), %rcx
	testq	%rax, %rax
	je	.Lrekusoyen_line_check_0_1_0.17
	movq	%r8, %rdx
	subq	%rcx, %rdx
	jb	.Lrekusoyen_line_check_0_1_0.17
	subq	$4, %rdx
	setae	%cl
	cmpq	%rdx, %rax
	setbe	%al
	movb	$55, %r10b
	testb	%al, %cl
	jne	.Lrekusoyen_line_check_0_1_0.19
	jmp	.Lrekusoyen_line_check_0_1_0.16
.Lrekusoyen_line_check_0_1_0.17:
	movb	$55, %r10b
	testq	%rax, %rax
	jne	.Lrekusoyen_line_check_0_1_0.16
	cmpq	%rcx, %r8
	jb	.Lrekusoyen_line_check_0_1_0.16
.Lrekusoyen_line_check_0_1_0.19:
	xorl	%eax, %eax
	retq
.Lrekusoyen_line_check_0_1_0.16:
	movzbl	%r10b, %edi
	jmp	rekusoyen_0_1_0.answers.U32FromRefusal.from
.Lrekusoyen_line_check_0_1_0.5:
	xorl	%ecx, %ecx
	movq	%rsi, %rdx
	subq	$568, %rdx
	cmovaeq	%rdx, %rcx
	cmpq	$3, %rcx
	jne	.Lrekusoyen_line_check_0_1_0.7
	movzbl	570(%rdi,%r9), %r8d
	shll	$8, %r8d
	jmp	.Lrekusoyen_line_check_0_1_0.8
.Lrekusoyen_line_check_0_1_0.7:
	xorl	%r8d, %r8d
	cmpq	$2, %rcx
	jb	.Lrekusoyen_line_check_0_1_0.9
.Lrekusoyen_line_check_0_1_0.8:
	movzbl	569(%rdi,%r9), %ecx
	orl	%ecx, %r8d
	shll	$8, %r8d
.Lrekusoyen_line_check_0_1_0.9:
	cmpq	$569, %rsi
	jb	.Lrekusoyen_line_check_0_1_0.13
	movzbl	568(%rdi,%r9), %ecx
	orq	%rcx, %r8
	jmp	.Lrekusoyen_line_check_0_1_0.13
.Lrekusoyen_line_check_0_1_0.func_end:
	.size	rekusoyen_line_check_0_1_0, .Lrekusoyen_line_check_0_1_0.func_end-rekusoyen_line_check_0_1_0
	.section	.rodata.cst16,"aM",@progbits,16
	.p2align	4, 0x0
.Lrekusoyen_line_insert_0_1_0.CPI0:
	.zero	16,224
.Lrekusoyen_line_insert_0_1_0.CPI1:
	.zero	16,94
.Lrekusoyen_line_insert_0_1_0.CPI2:
	.zero	2
	.short	65535
	.short	65535
	.short	65535
	.short	65535
	.short	65535
	.short	65535
	.short	65535
.Lrekusoyen_line_insert_0_1_0.CPI3:
	.byte	224
	.byte	224
	.byte	224
	.byte	224
	.byte	224
	.byte	224
	.byte	224
	.byte	224
	.zero	1
	.zero	1
	.zero	1
	.zero	1
	.zero	1
	.zero	1
	.zero	1
	.zero	1
.Lrekusoyen_line_insert_0_1_0.CPI4:
	.byte	95
	.byte	95
	.byte	95
	.byte	95
	.byte	95
	.byte	95
	.byte	95
	.byte	95
	.zero	1
	.zero	1
	.zero	1
	.zero	1
	.zero	1
	.zero	1
	.zero	1
	.zero	1
.Lrekusoyen_line_insert_0_1_0.CPI5:
	.quad	281479271743489
	.quad	281479271743489
	.section	.text.rekusoyen_line_insert_0_1_0,"ax",@progbits
	.globl	rekusoyen_line_insert_0_1_0
	.hidden	rekusoyen_line_insert_0_1_0
	.p2align	4
	.type	rekusoyen_line_insert_0_1_0,@function
rekusoyen_line_insert_0_1_0:
	pushq	%rbp
	pushq	%r15
	pushq	%r14
	pushq	%r13
	pushq	%r12
	pushq	%rbx
	subq	$136, %rsp
	xorl	%r15d, %r15d
	testq	%rdi, %rdi
	sete	%bl
	testq	%rdx, %rdx
	sete	%r10b
	testq	%r8, %r8
	sete	%al
	movb	$33, %r11b
	cmpq	$32792, %rsi
	jne	.Lrekusoyen_line_insert_0_1_0.23
	movb	%bl, %r15b
	shll	$12, %r15d
	leaq	(%rdi,%r15), %r12
	movq	16(%r12), %r14
	leaq	-1(%r14), %rsi
	movb	$20, %r11b
	cmpq	$16383, %rsi
	ja	.Lrekusoyen_line_insert_0_1_0.23
	movq	(%r12), %r13
	movq	8(%r12), %rbp
	testq	%rbp, %rbp
	sete	%sil
	cmpq	%r13, %r14
	setbe	%bl
	orb	%sil, %bl
	movq	%r13, 40(%rsp)
	je	.Lrekusoyen_line_insert_0_1_0.5
	cmpq	%r13, %r14
	seta	%sil
	testq	%rbp, %rbp
	sete	%bl
	testb	%sil, %bl
	je	.Lrekusoyen_line_insert_0_1_0.23
	movq	$0, 24(%rsp)
	jmp	.Lrekusoyen_line_insert_0_1_0.6
.Lrekusoyen_line_insert_0_1_0.5:
	movq	%r13, %rsi
	notq	%rsi
	addq	%r14, %rsi
	subq	$4, %rsi
	setae	%bl
	movq	%rbp, 24(%rsp)
	cmpq	%rsi, %rbp
	setbe	%sil
	testb	%sil, %bl
	je	.Lrekusoyen_line_insert_0_1_0.23
.Lrekusoyen_line_insert_0_1_0.6:
	xorl	%esi, %esi
	movb	%r10b, %sil
	shll	$12, %esi
	movq	%rsi, 48(%rsp)
	leaq	(%rdx,%rsi), %r10
	xorl	%esi, %esi
	movb	%al, %sil
	shll	$12, %esi
	movq	%rsi, 128(%rsp)
	leaq	(%r8,%rsi), %rax
	movq	%rax, 88(%rsp)
	movq	%r12, 96(%rsp)
	leaq	24(%r12), %rax
	movq	%rax, 32(%rsp)
	movq	%r10, 80(%rsp)
	movq	%r10, %r12
	movq	%rcx, %rsi
	jmp	.Lrekusoyen_line_insert_0_1_0.8
	.p2align	4
.Lrekusoyen_line_insert_0_1_0.7:
	addq	%rbx, %r12
	subq	%rbx, %rsi
	testb	%bpl, %bpl
	je	.Lrekusoyen_line_insert_0_1_0.28
.Lrekusoyen_line_insert_0_1_0.8:
	testq	%rsi, %rsi
	je	.Lrekusoyen_line_insert_0_1_0.25
	cmpq	$64, %rsi
	movl	$64, %ebx
	cmovbq	%rsi, %rbx
	movb	$1, %bpl
	movq	%rbx, %r10
	movq	%r12, %rax
	cmpq	$8, %rsi
	jb	.Lrekusoyen_line_insert_0_1_0.20
	cmpq	$32, %rsi
	jae	.Lrekusoyen_line_insert_0_1_0.12
	xorl	%r11d, %r11d
	jmp	.Lrekusoyen_line_insert_0_1_0.17
	.p2align	4
.Lrekusoyen_line_insert_0_1_0.12:
	movl	%ebx, %r11d
	andl	$96, %r11d
	movdqu	(%r12), %xmm3
	movdqu	16(%r12), %xmm1
	movdqa	.Lrekusoyen_line_insert_0_1_0.CPI0(%rip), %xmm2
	paddb	%xmm2, %xmm3
	paddb	%xmm2, %xmm1
	movdqa	.Lrekusoyen_line_insert_0_1_0.CPI1(%rip), %xmm0
	cmpq	$32, %r11
	jne	.Lrekusoyen_line_insert_0_1_0.14
	movdqa	%xmm3, %xmm2
	pminub	%xmm0, %xmm2
	pcmpeqb	%xmm3, %xmm2
	jmp	.Lrekusoyen_line_insert_0_1_0.15
.Lrekusoyen_line_insert_0_1_0.14:
	movdqu	32(%r12), %xmm4
	movdqu	48(%r12), %xmm5
	paddb	%xmm2, %xmm4
	paddb	%xmm2, %xmm5
	pmaxub	%xmm4, %xmm3
	movdqa	%xmm3, %xmm2
	pminub	%xmm0, %xmm2
	pcmpeqb	%xmm3, %xmm2
	pmaxub	%xmm5, %xmm1
.Lrekusoyen_line_insert_0_1_0.15:
	pminub	%xmm1, %xmm0
	pcmpeqb	%xmm1, %xmm0
	pand	%xmm0, %xmm2
	psllw	$7, %xmm2
	pmovmskb	%xmm2, %eax
	cmpl	$65535, %eax
	sete	%bpl
	cmpq	%r11, %rbx
	je	.Lrekusoyen_line_insert_0_1_0.7
	testb	$24, %bl
	je	.Lrekusoyen_line_insert_0_1_0.22
.Lrekusoyen_line_insert_0_1_0.17:
	movl	%ebx, %r13d
	andl	$120, %r13d
	movl	%ebx, %r10d
	andl	$7, %r10d
	leaq	(%r12,%r13), %rax
	movzbl	%bpl, %ebp
	movdqa	.Lrekusoyen_line_insert_0_1_0.CPI2(%rip), %xmm0
	pinsrw	$0, %ebp, %xmm0
	.p2align	4
.Lrekusoyen_line_insert_0_1_0.18:
	movq	(%r12,%r11), %xmm1
	paddb	.Lrekusoyen_line_insert_0_1_0.CPI3(%rip), %xmm1
	movdqa	.Lrekusoyen_line_insert_0_1_0.CPI4(%rip), %xmm2
	pmaxub	%xmm1, %xmm2
	pcmpeqb	%xmm1, %xmm2
	pcmpeqd	%xmm1, %xmm1
	pxor	%xmm2, %xmm1
	pmovsxbw	%xmm1, %xmm1
	pand	%xmm1, %xmm0
	addq	$8, %r11
	cmpq	%r11, %r13
	jne	.Lrekusoyen_line_insert_0_1_0.18
	ptest	.Lrekusoyen_line_insert_0_1_0.CPI5(%rip), %xmm0
	setb	%bpl
	cmpq	%r13, %rbx
	je	.Lrekusoyen_line_insert_0_1_0.7
.Lrekusoyen_line_insert_0_1_0.20:
	xorl	%r11d, %r11d
	.p2align	4
.Lrekusoyen_line_insert_0_1_0.21:
	movzbl	(%rax,%r11), %r13d
	addb	$-32, %r13b
	cmpb	$95, %r13b
	setb	%r13b
	andb	%r13b, %bpl
	incq	%r11
	cmpq	%r11, %r10
	jne	.Lrekusoyen_line_insert_0_1_0.21
	jmp	.Lrekusoyen_line_insert_0_1_0.7
.Lrekusoyen_line_insert_0_1_0.22:
	movl	%ebx, %r10d
	andl	$31, %r10d
	addq	%r12, %r11
	movq	%r11, %rax
	jmp	.Lrekusoyen_line_insert_0_1_0.20
.Lrekusoyen_line_insert_0_1_0.23:
	movzbl	%r11b, %edi
.Lrekusoyen_line_insert_0_1_0.24:
	addq	$136, %rsp
	popq	%rbx
	popq	%r12
	popq	%r13
	popq	%r14
	popq	%r15
	popq	%rbp
	jmp	rekusoyen_0_1_0.answers.U32FromRefusal.from
.Lrekusoyen_line_insert_0_1_0.25:
	movq	%rdx, 56(%rsp)
	movq	%r9, 16(%rsp)
	movq	%rdi, 72(%rsp)
	movq	%r8, 64(%rsp)
	movq	80(%rsp), %rbx
	movq	%rbx, %rdi
	movq	%rcx, 8(%rsp)
	movq	%rcx, %rsi
	movl	$32, %edx
	callq	rekusoyen_0_1_0.slugs.bytes.has
	movb	$22, %cl
	testb	%al, %al
	jne	.Lrekusoyen_line_insert_0_1_0.27
	movq	%rbx, %rdi
	movq	8(%rsp), %rsi
	movl	$61, %edx
	callq	rekusoyen_0_1_0.slugs.bytes.has
	movb	$23, %cl
	testb	%al, %al
	je	.Lrekusoyen_line_insert_0_1_0.29
.Lrekusoyen_line_insert_0_1_0.27:
	movzbl	%cl, %edi
	jmp	.Lrekusoyen_line_insert_0_1_0.24
.Lrekusoyen_line_insert_0_1_0.29:
	movq	88(%rsp), %rdi
	movq	%rdi, %rax
	movq	16(%rsp), %rsi
	movq	%rsi, %rcx
	jmp	.Lrekusoyen_line_insert_0_1_0.31
	.p2align	4
.Lrekusoyen_line_insert_0_1_0.30:
	addq	%rdx, %rax
	subq	%rdx, %rcx
	testb	%r8b, %r8b
	je	.Lrekusoyen_line_insert_0_1_0.28
.Lrekusoyen_line_insert_0_1_0.31:
	testq	%rcx, %rcx
	je	.Lrekusoyen_line_insert_0_1_0.46
	cmpq	$64, %rcx
	movl	$64, %edx
	cmovbq	%rcx, %rdx
	movb	$1, %r8b
	movq	%rdx, %r9
	movq	%rax, %r10
	cmpq	$8, %rcx
	jb	.Lrekusoyen_line_insert_0_1_0.43
	cmpq	$32, %rcx
	jae	.Lrekusoyen_line_insert_0_1_0.35
	xorl	%ebx, %ebx
	jmp	.Lrekusoyen_line_insert_0_1_0.40
.Lrekusoyen_line_insert_0_1_0.35:
	movl	%edx, %ebx
	andl	$96, %ebx
	movdqu	(%rax), %xmm3
	movdqu	16(%rax), %xmm1
	movdqa	.Lrekusoyen_line_insert_0_1_0.CPI0(%rip), %xmm2
	paddb	%xmm2, %xmm3
	paddb	%xmm2, %xmm1
	movdqa	.Lrekusoyen_line_insert_0_1_0.CPI1(%rip), %xmm0
	cmpq	$32, %rbx
	jne	.Lrekusoyen_line_insert_0_1_0.37
	movdqa	%xmm3, %xmm2
	pminub	%xmm0, %xmm2
	pcmpeqb	%xmm3, %xmm2
	jmp	.Lrekusoyen_line_insert_0_1_0.38
.Lrekusoyen_line_insert_0_1_0.37:
	movdqu	32(%rax), %xmm4
	movdqu	48(%rax), %xmm5
	paddb	%xmm2, %xmm4
	paddb	%xmm2, %xmm5
	pmaxub	%xmm4, %xmm3
	movdqa	%xmm3, %xmm2
	pminub	%xmm0, %xmm2
	pcmpeqb	%xmm3, %xmm2
	pmaxub	%xmm5, %xmm1
.Lrekusoyen_line_insert_0_1_0.38:
	pminub	%xmm1, %xmm0
	pcmpeqb	%xmm1, %xmm0
	pand	%xmm0, %xmm2
	psllw	$7, %xmm2
	pmovmskb	%xmm2, %r8d
	cmpl	$65535, %r8d
	sete	%r8b
	cmpq	%rbx, %rdx
	je	.Lrekusoyen_line_insert_0_1_0.30
	testb	$24, %dl
	je	.Lrekusoyen_line_insert_0_1_0.45
.Lrekusoyen_line_insert_0_1_0.40:
	movl	%edx, %r11d
	andl	$120, %r11d
	movl	%edx, %r9d
	andl	$7, %r9d
	leaq	(%rax,%r11), %r10
	movzbl	%r8b, %r8d
	movdqa	.Lrekusoyen_line_insert_0_1_0.CPI2(%rip), %xmm0
	pinsrw	$0, %r8d, %xmm0
	.p2align	4
.Lrekusoyen_line_insert_0_1_0.41:
	movq	(%rax,%rbx), %xmm1
	paddb	.Lrekusoyen_line_insert_0_1_0.CPI3(%rip), %xmm1
	movdqa	.Lrekusoyen_line_insert_0_1_0.CPI4(%rip), %xmm2
	pmaxub	%xmm1, %xmm2
	pcmpeqb	%xmm1, %xmm2
	pcmpeqd	%xmm1, %xmm1
	pxor	%xmm2, %xmm1
	pmovsxbw	%xmm1, %xmm1
	pand	%xmm1, %xmm0
	addq	$8, %rbx
	cmpq	%rbx, %r11
	jne	.Lrekusoyen_line_insert_0_1_0.41
	ptest	.Lrekusoyen_line_insert_0_1_0.CPI5(%rip), %xmm0
	setb	%r8b
	cmpq	%r11, %rdx
	je	.Lrekusoyen_line_insert_0_1_0.30
.Lrekusoyen_line_insert_0_1_0.43:
	xorl	%ebx, %ebx
	.p2align	4
.Lrekusoyen_line_insert_0_1_0.44:
	movzbl	(%r10,%rbx), %r11d
	addb	$-32, %r11b
	cmpb	$95, %r11b
	setb	%r11b
	andb	%r11b, %r8b
	incq	%rbx
	cmpq	%rbx, %r9
	jne	.Lrekusoyen_line_insert_0_1_0.44
	jmp	.Lrekusoyen_line_insert_0_1_0.30
.Lrekusoyen_line_insert_0_1_0.45:
	movl	%edx, %r9d
	andl	$31, %r9d
	addq	%rax, %rbx
	movq	%rbx, %r10
	jmp	.Lrekusoyen_line_insert_0_1_0.43
.Lrekusoyen_line_insert_0_1_0.28:
	movb	$21, %cl
	movzbl	%cl, %edi
	jmp	.Lrekusoyen_line_insert_0_1_0.24
.Lrekusoyen_line_insert_0_1_0.46:
	cmpq	$2, %rsi
	jae	.Lrekusoyen_line_insert_0_1_0.49
	movl	$32, %edx
	callq	rekusoyen_0_1_0.slugs.bytes.has
	movb	$27, %cl
	testb	%al, %al
	jne	.Lrekusoyen_line_insert_0_1_0.27
	jmp	.Lrekusoyen_line_insert_0_1_0.53
.Lrekusoyen_line_insert_0_1_0.49:
	incq	%rdi
	addq	$-2, %rsi
	movl	$34, %edx
	callq	rekusoyen_0_1_0.slugs.bytes.has
	movb	$28, %cl
	testb	%al, %al
	jne	.Lrekusoyen_line_insert_0_1_0.27
	movq	88(%rsp), %rdi
	movq	16(%rsp), %rsi
	movl	$32, %edx
	callq	rekusoyen_0_1_0.slugs.bytes.has
	testb	%al, %al
	je	.Lrekusoyen_line_insert_0_1_0.53
	movb	$27, %cl
	movq	88(%rsp), %rdx
	cmpb	$34, (%rdx)
	jne	.Lrekusoyen_line_insert_0_1_0.27
	movq	16(%rsp), %rax
	cmpb	$34, -1(%rdx,%rax)
	jne	.Lrekusoyen_line_insert_0_1_0.27
.Lrekusoyen_line_insert_0_1_0.53:
	movq	40(%rsp), %r8
	cmpq	$16384, %r8
	movl	$16384, %ecx
	movl	$16384, %r13d
	cmovbq	%r8, %r13
	movq	24(%rsp), %rdx
	cmpq	$16384, %rdx
	movl	$16384, %eax
	cmovbq	%rdx, %rax
	leaq	1(%r13), %rsi
	testq	%rdx, %rdx
	leaq	5(%r13,%rax), %rdx
	cmoveq	%rsi, %rdx
	xorl	%eax, %eax
	testq	%r8, %r8
	setne	%al
	addq	%rax, %rdx
	cmpq	$16384, %r14
	cmovaeq	%rcx, %r14
	movq	8(%rsp), %rsi
	incq	%rsi
	movq	$-1, %rdi
	cmoveq	%rdi, %rsi
	cmpq	$16384, %rsi
	cmovaeq	%rcx, %rsi
	addq	16(%rsp), %rsi
	cmovbq	%rdi, %rsi
	cmpq	$16384, %rsi
	cmovaeq	%rcx, %rsi
	movb	$26, %cl
	subq	%rdx, %r14
	jb	.Lrekusoyen_line_insert_0_1_0.27
	cmpq	%r14, %rsi
	ja	.Lrekusoyen_line_insert_0_1_0.27
	addq	%r13, %rax
	cmpq	$16385, %rax
	setb	%dl
	movl	$16384, %edi
	subq	%rax, %rdi
	cmpq	%rdi, %rsi
	setbe	%al
	andb	%dl, %al
	cmpb	$1, %al
	jne	.Lrekusoyen_line_insert_0_1_0.27
	testq	%r8, %r8
	je	.Lrekusoyen_line_insert_0_1_0.60
	xorl	%ebx, %ebx
	cmpq	$16384, %r8
	setb	%bl
	movq	64(%rsp), %rcx
	movq	72(%rsp), %rax
	movq	56(%rsp), %rsi
	movq	8(%rsp), %rdx
	jae	.Lrekusoyen_line_insert_0_1_0.83
	movq	32(%rsp), %rdi
	addq	%r13, %rdi
	leaq	.Lrekusoyen_0_1_0.static.16(%rip), %r8
	movq	%rdi, %r9
	subq	%r8, %r9
	cmpq	%rbx, %r9
	jae	.Lrekusoyen_line_insert_0_1_0.82
	movb	$32, (%rdi)
	jmp	.Lrekusoyen_line_insert_0_1_0.83
.Lrekusoyen_line_insert_0_1_0.60:
	movq	8(%rsp), %rax
	cmpq	$16384, %rax
	movl	$16384, %r14d
	cmovbq	%rax, %r14
	testq	%rax, %rax
	movq	64(%rsp), %rcx
	movq	72(%rsp), %rax
	movq	56(%rsp), %rdx
	je	.Lrekusoyen_line_insert_0_1_0.108
	movq	48(%rsp), %rdi
	movq	96(%rsp), %r13
	subq	%rdx, %r13
	subq	%rdi, %r13
	addq	$24, %r13
	leaq	(%rdi,%rdx), %rbp
	addq	$16, %rbp
	leaq	40(%r15,%rax), %rsi
	movq	%rsi, 8(%rsp)
	leaq	3(%rdi,%rdx), %rdx
	movq	%rdx, 40(%rsp)
	leaq	(%r15,%rax), %rdx
	addq	$27, %rdx
	movq	%rdx, 24(%rsp)
	xorl	%ebx, %ebx
	movq	16(%rsp), %rdx
	jmp	.Lrekusoyen_line_insert_0_1_0.64
.Lrekusoyen_line_insert_0_1_0.62:
	movq	%r12, %rdx
	callq	memmove@PLT
	movq	16(%rsp), %rdx
	movq	72(%rsp), %rax
	movq	64(%rsp), %rcx
.Lrekusoyen_line_insert_0_1_0.63:
	addq	%r12, %rbx
	cmpq	%r14, %rbx
	jae	.Lrekusoyen_line_insert_0_1_0.106
.Lrekusoyen_line_insert_0_1_0.64:
	movq	%r14, %r9
	subq	%rbx, %r9
	cmpq	$2048, %r9
	movl	$2048, %r12d
	cmovbq	%r9, %r12
	movq	32(%rsp), %rsi
	leaq	(%rsi,%rbx), %rdi
	movq	80(%rsp), %rsi
	addq	%rbx, %rsi
	movq	%rdi, %r8
	subq	%rsi, %r8
	cmpq	%r12, %r8
	jae	.Lrekusoyen_line_insert_0_1_0.62
	xorl	%r8d, %r8d
	cmpq	$4, %r9
	jb	.Lrekusoyen_line_insert_0_1_0.76
	cmpq	$32, %r13
	jb	.Lrekusoyen_line_insert_0_1_0.76
	cmpq	$32, %r9
	jae	.Lrekusoyen_line_insert_0_1_0.69
	xorl	%r8d, %r8d
	jmp	.Lrekusoyen_line_insert_0_1_0.73
.Lrekusoyen_line_insert_0_1_0.69:
	movl	%r12d, %r8d
	andl	$4064, %r8d
	leaq	(%rbx,%rbp), %r9
	movq	8(%rsp), %r10
	addq	%rbx, %r10
	xorl	%r11d, %r11d
.Lrekusoyen_line_insert_0_1_0.70:
	movdqu	-16(%r9,%r11), %xmm0
	movdqu	(%r9,%r11), %xmm1
	movdqu	%xmm0, -16(%r10,%r11)
	movdqu	%xmm1, (%r10,%r11)
	addq	$32, %r11
	cmpq	%r11, %r8
	jne	.Lrekusoyen_line_insert_0_1_0.70
	cmpq	%r8, %r12
	je	.Lrekusoyen_line_insert_0_1_0.63
	testb	$28, %r12b
	je	.Lrekusoyen_line_insert_0_1_0.76
.Lrekusoyen_line_insert_0_1_0.73:
	movq	%r8, %r9
	movl	%r12d, %r8d
	andl	$4092, %r8d
.Lrekusoyen_line_insert_0_1_0.74:
	movl	(%rsi,%r9), %r10d
	movl	%r10d, (%rdi,%r9)
	addq	$4, %r9
	cmpq	%r9, %r8
	jne	.Lrekusoyen_line_insert_0_1_0.74
	cmpq	%r8, %r12
	je	.Lrekusoyen_line_insert_0_1_0.63
.Lrekusoyen_line_insert_0_1_0.76:
	movq	%r12, %r10
	movq	%r8, %r9
	andq	$3, %r10
	je	.Lrekusoyen_line_insert_0_1_0.79
	movq	%r8, %r9
.Lrekusoyen_line_insert_0_1_0.78:
	movzbl	(%rsi,%r9), %r11d
	movb	%r11b, (%rdi,%r9)
	incq	%r9
	decq	%r10
	jne	.Lrekusoyen_line_insert_0_1_0.78
.Lrekusoyen_line_insert_0_1_0.79:
	subq	%r12, %r8
	cmpq	$-4, %r8
	ja	.Lrekusoyen_line_insert_0_1_0.63
	movq	40(%rsp), %rsi
	addq	%rbx, %rsi
	movq	24(%rsp), %rdi
	addq	%rbx, %rdi
.Lrekusoyen_line_insert_0_1_0.81:
	movzbl	-3(%rsi,%r9), %r8d
	movb	%r8b, -3(%rdi,%r9)
	movzbl	-2(%rsi,%r9), %r8d
	movb	%r8b, -2(%rdi,%r9)
	movzbl	-1(%rsi,%r9), %r8d
	movb	%r8b, -1(%rdi,%r9)
	movzbl	(%rsi,%r9), %r8d
	movb	%r8b, (%rdi,%r9)
	addq	$4, %r9
	cmpq	%r9, %r12
	jne	.Lrekusoyen_line_insert_0_1_0.81
	jmp	.Lrekusoyen_line_insert_0_1_0.63
.Lrekusoyen_line_insert_0_1_0.82:
	movl	$32, %esi
	movq	%rbx, %rdx
	callq	memset@PLT
	movq	8(%rsp), %rdx
	movq	56(%rsp), %rsi
	movq	72(%rsp), %rax
	movq	64(%rsp), %rcx
.Lrekusoyen_line_insert_0_1_0.83:
	addq	%rbx, %r13
	cmpq	$16384, %r13
	movl	$16384, %r14d
	cmovaeq	%r14, %r13
	subq	%r13, %r14
	cmpq	%rdx, %r14
	cmovaeq	%rdx, %r14
	testq	%r14, %r14
	movq	16(%rsp), %rdx
	je	.Lrekusoyen_line_insert_0_1_0.105
	movq	32(%rsp), %rdi
	addq	%r13, %rdi
	movq	%rdi, 40(%rsp)
	movq	96(%rsp), %rdi
	addq	%r13, %rdi
	movq	48(%rsp), %r8
	leaq	(%rsi,%r8), %r9
	movq	%r9, 56(%rsp)
	subq	%r9, %rdi
	addq	$24, %rdi
	movq	%rdi, 8(%rsp)
	leaq	(%r8,%rsi), %rdi
	addq	$16, %rdi
	movq	%rdi, 112(%rsp)
	leaq	(%r15,%r13), %rdi
	leaq	40(%rax,%rdi), %r9
	movq	%r9, 104(%rsp)
	leaq	24(%rax,%rdi), %r9
	movq	%r9, 24(%rsp)
	leaq	3(%r8,%rsi), %rsi
	movq	%rsi, 48(%rsp)
	leaq	(%rax,%rdi), %rsi
	addq	$27, %rsi
	movq	%rsi, 120(%rsp)
	xorl	%ebx, %ebx
	jmp	.Lrekusoyen_line_insert_0_1_0.87
.Lrekusoyen_line_insert_0_1_0.85:
	movq	%r12, %rdx
	callq	memmove@PLT
	movq	16(%rsp), %rdx
	movq	72(%rsp), %rax
	movq	64(%rsp), %rcx
.Lrekusoyen_line_insert_0_1_0.86:
	addq	%r12, %rbx
	cmpq	%r14, %rbx
	jae	.Lrekusoyen_line_insert_0_1_0.105
.Lrekusoyen_line_insert_0_1_0.87:
	movq	%r14, %r8
	subq	%rbx, %r8
	cmpq	$2048, %r8
	movl	$2048, %r12d
	cmovbq	%r8, %r12
	movq	40(%rsp), %rsi
	leaq	(%rsi,%rbx), %rdi
	movq	80(%rsp), %rsi
	addq	%rbx, %rsi
	movq	%rdi, %r9
	subq	%rsi, %r9
	cmpq	%r12, %r9
	jae	.Lrekusoyen_line_insert_0_1_0.85
	xorl	%edi, %edi
	cmpq	$4, %r8
	jb	.Lrekusoyen_line_insert_0_1_0.99
	cmpq	$32, 8(%rsp)
	jb	.Lrekusoyen_line_insert_0_1_0.99
	cmpq	$32, %r8
	jae	.Lrekusoyen_line_insert_0_1_0.92
	xorl	%edi, %edi
	jmp	.Lrekusoyen_line_insert_0_1_0.96
.Lrekusoyen_line_insert_0_1_0.92:
	movl	%r12d, %edi
	andl	$4064, %edi
	movq	112(%rsp), %r8
	addq	%rbx, %r8
	movq	104(%rsp), %r9
	addq	%rbx, %r9
	xorl	%r10d, %r10d
.Lrekusoyen_line_insert_0_1_0.93:
	movdqu	-16(%r8,%r10), %xmm0
	movdqu	(%r8,%r10), %xmm1
	movdqu	%xmm0, -16(%r9,%r10)
	movdqu	%xmm1, (%r9,%r10)
	addq	$32, %r10
	cmpq	%r10, %rdi
	jne	.Lrekusoyen_line_insert_0_1_0.93
	cmpq	%rdi, %r12
	je	.Lrekusoyen_line_insert_0_1_0.86
	testb	$28, %r12b
	je	.Lrekusoyen_line_insert_0_1_0.99
.Lrekusoyen_line_insert_0_1_0.96:
	movq	%rdi, %r8
	movl	%r12d, %edi
	andl	$4092, %edi
	movq	%rdi, %r9
	subq	%r8, %r9
	addq	%rbx, %r8
	movq	56(%rsp), %r10
	addq	%r8, %r10
	addq	24(%rsp), %r8
	xorl	%r11d, %r11d
.Lrekusoyen_line_insert_0_1_0.97:
	movl	(%r10,%r11), %ebp
	movl	%ebp, (%r8,%r11)
	addq	$4, %r11
	cmpq	%r11, %r9
	jne	.Lrekusoyen_line_insert_0_1_0.97
	cmpq	%rdi, %r12
	je	.Lrekusoyen_line_insert_0_1_0.86
.Lrekusoyen_line_insert_0_1_0.99:
	movq	%r12, %r9
	movq	%rdi, %r8
	andq	$3, %r9
	je	.Lrekusoyen_line_insert_0_1_0.102
	leaq	(%rdi,%rbx), %r10
	addq	24(%rsp), %r10
	xorl	%r11d, %r11d
	movq	%rdi, %r8
.Lrekusoyen_line_insert_0_1_0.101:
	movzbl	(%rsi,%r8), %ebp
	movb	%bpl, (%r10,%r11)
	incq	%r8
	incq	%r11
	cmpq	%r11, %r9
	jne	.Lrekusoyen_line_insert_0_1_0.101
.Lrekusoyen_line_insert_0_1_0.102:
	subq	%r12, %rdi
	cmpq	$-4, %rdi
	ja	.Lrekusoyen_line_insert_0_1_0.86
	movq	%r12, %rsi
	subq	%r8, %rsi
	addq	%rbx, %r8
	movq	48(%rsp), %rdi
	addq	%r8, %rdi
	addq	120(%rsp), %r8
	xorl	%r9d, %r9d
.Lrekusoyen_line_insert_0_1_0.104:
	movzbl	-3(%rdi,%r9), %r10d
	movb	%r10b, -3(%r8,%r9)
	movzbl	-2(%rdi,%r9), %r10d
	movb	%r10b, -2(%r8,%r9)
	movzbl	-1(%rdi,%r9), %r10d
	movb	%r10b, -1(%r8,%r9)
	movzbl	(%rdi,%r9), %r10d
	movb	%r10b, (%r8,%r9)
	addq	$4, %r9
	cmpq	%r9, %rsi
	jne	.Lrekusoyen_line_insert_0_1_0.104
	jmp	.Lrekusoyen_line_insert_0_1_0.86
.Lrekusoyen_line_insert_0_1_0.105:
	addq	%r13, %r14
.Lrekusoyen_line_insert_0_1_0.106:
	movl	$16384, %esi
	cmpq	$16384, %r14
	je	.Lrekusoyen_line_insert_0_1_0.110
	movq	32(%rsp), %rsi
	addq	%r14, %rsi
	jmp	.Lrekusoyen_line_insert_0_1_0.109
.Lrekusoyen_line_insert_0_1_0.108:
	xorl	%r14d, %r14d
	movq	32(%rsp), %rsi
	movq	16(%rsp), %rdx
.Lrekusoyen_line_insert_0_1_0.109:
	movb	$61, (%rsi)
	cmpq	$16383, %r14
	movl	$16383, %esi
	cmovbq	%r14, %rsi
	incq	%rsi
.Lrekusoyen_line_insert_0_1_0.110:
	movl	$16384, %r12d
	movq	%rsi, 8(%rsp)
	subq	%rsi, %r12
	cmpq	%rdx, %r12
	cmovaeq	%rdx, %r12
	testq	%r12, %r12
	je	.Lrekusoyen_line_insert_0_1_0.132
	movq	8(%rsp), %rdx
	addq	%rdx, 32(%rsp)
	addq	%rdx, %r15
	leaq	(%rax,%r15), %rbx
	addq	$24, %rbx
	movq	128(%rsp), %rdx
	leaq	(%rcx,%rdx), %rsi
	movq	%rbx, %rbp
	movq	%rsi, 40(%rsp)
	subq	%rsi, %rbx
	leaq	(%rdx,%rcx), %rsi
	addq	$16, %rsi
	movq	%rsi, 24(%rsp)
	leaq	40(%rax,%r15), %rsi
	movq	%rsi, 48(%rsp)
	addq	%rdx, %rcx
	addq	$3, %rcx
	movq	%rcx, 80(%rsp)
	addq	%rax, %r15
	addq	$27, %r15
	xorl	%r13d, %r13d
	jmp	.Lrekusoyen_line_insert_0_1_0.114
.Lrekusoyen_line_insert_0_1_0.112:
	movq	%r14, %rdx
	callq	memmove@PLT
.Lrekusoyen_line_insert_0_1_0.113:
	addq	%r14, %r13
	cmpq	%r12, %r13
	jae	.Lrekusoyen_line_insert_0_1_0.132
.Lrekusoyen_line_insert_0_1_0.114:
	movq	%r12, %rcx
	subq	%r13, %rcx
	cmpq	$2048, %rcx
	movl	$2048, %r14d
	cmovbq	%rcx, %r14
	movq	32(%rsp), %rax
	leaq	(%rax,%r13), %rdi
	movq	88(%rsp), %rax
	leaq	(%rax,%r13), %rsi
	movq	%rdi, %rax
	subq	%rsi, %rax
	cmpq	%r14, %rax
	jae	.Lrekusoyen_line_insert_0_1_0.112
	xorl	%eax, %eax
	cmpq	$4, %rcx
	jb	.Lrekusoyen_line_insert_0_1_0.126
	cmpq	$32, %rbx
	jb	.Lrekusoyen_line_insert_0_1_0.126
	cmpq	$32, %rcx
	jae	.Lrekusoyen_line_insert_0_1_0.119
	xorl	%eax, %eax
	jmp	.Lrekusoyen_line_insert_0_1_0.123
.Lrekusoyen_line_insert_0_1_0.119:
	movl	%r14d, %eax
	andl	$4064, %eax
	movq	24(%rsp), %rcx
	addq	%r13, %rcx
	movq	48(%rsp), %rdx
	addq	%r13, %rdx
	xorl	%edi, %edi
.Lrekusoyen_line_insert_0_1_0.120:
	movdqu	-16(%rcx,%rdi), %xmm0
	movdqu	(%rcx,%rdi), %xmm1
	movdqu	%xmm0, -16(%rdx,%rdi)
	movdqu	%xmm1, (%rdx,%rdi)
	addq	$32, %rdi
	cmpq	%rdi, %rax
	jne	.Lrekusoyen_line_insert_0_1_0.120
	cmpq	%rax, %r14
	je	.Lrekusoyen_line_insert_0_1_0.113
	testb	$28, %r14b
	je	.Lrekusoyen_line_insert_0_1_0.126
.Lrekusoyen_line_insert_0_1_0.123:
	movq	%rax, %rcx
	movl	%r14d, %eax
	andl	$4092, %eax
	movq	%rax, %rdx
	subq	%rcx, %rdx
	addq	%r13, %rcx
	movq	40(%rsp), %rdi
	addq	%rcx, %rdi
	addq	%rbp, %rcx
	xorl	%r8d, %r8d
.Lrekusoyen_line_insert_0_1_0.124:
	movl	(%rdi,%r8), %r9d
	movl	%r9d, (%rcx,%r8)
	addq	$4, %r8
	cmpq	%r8, %rdx
	jne	.Lrekusoyen_line_insert_0_1_0.124
	cmpq	%rax, %r14
	je	.Lrekusoyen_line_insert_0_1_0.113
.Lrekusoyen_line_insert_0_1_0.126:
	movq	%r14, %rdx
	movq	%rax, %rcx
	andq	$3, %rdx
	je	.Lrekusoyen_line_insert_0_1_0.129
	leaq	(%rax,%r13), %rdi
	addq	%rbp, %rdi
	xorl	%r8d, %r8d
	movq	%rax, %rcx
.Lrekusoyen_line_insert_0_1_0.128:
	movzbl	(%rsi,%rcx), %r9d
	movb	%r9b, (%rdi,%r8)
	incq	%rcx
	incq	%r8
	cmpq	%r8, %rdx
	jne	.Lrekusoyen_line_insert_0_1_0.128
.Lrekusoyen_line_insert_0_1_0.129:
	subq	%r14, %rax
	cmpq	$-4, %rax
	ja	.Lrekusoyen_line_insert_0_1_0.113
	movq	%r14, %rax
	subq	%rcx, %rax
	addq	%r13, %rcx
	movq	80(%rsp), %rdx
	addq	%rcx, %rdx
	addq	%r15, %rcx
	xorl	%esi, %esi
.Lrekusoyen_line_insert_0_1_0.131:
	movzbl	-3(%rdx,%rsi), %edi
	movb	%dil, -3(%rcx,%rsi)
	movzbl	-2(%rdx,%rsi), %edi
	movb	%dil, -2(%rcx,%rsi)
	movzbl	-1(%rdx,%rsi), %edi
	movb	%dil, -1(%rcx,%rsi)
	movzbl	(%rdx,%rsi), %edi
	movb	%dil, (%rcx,%rsi)
	addq	$4, %rsi
	cmpq	%rsi, %rax
	jne	.Lrekusoyen_line_insert_0_1_0.131
	jmp	.Lrekusoyen_line_insert_0_1_0.113
.Lrekusoyen_line_insert_0_1_0.132:
	addl	8(%rsp), %r12d
	movq	96(%rsp), %rax
	movw	%r12w, (%rax)
	movl	$0, 2(%rax)
	movw	$0, 6(%rax)
	xorl	%eax, %eax
	addq	$136, %rsp
	popq	%rbx
	popq	%r12
	popq	%r13
	popq	%r14
	popq	%r15
	popq	%rbp
	retq
.Lrekusoyen_line_insert_0_1_0.func_end:
	.size	rekusoyen_line_insert_0_1_0, .Lrekusoyen_line_insert_0_1_0.func_end-rekusoyen_line_insert_0_1_0
	.section	.text.rekusoyen_line_insert_init_args_0_1_0,"ax",@progbits
	.globl	rekusoyen_line_insert_init_args_0_1_0
	.hidden	rekusoyen_line_insert_init_args_0_1_0
	.p2align	4
	.type	rekusoyen_line_insert_init_args_0_1_0,@function
rekusoyen_line_insert_init_args_0_1_0:
	pushq	%rbp
	pushq	%rbx
	subq	$40, %rsp
	movq	%rcx, %r8
	movq	%rdx, %rcx
	xorl	%eax, %eax
	testq	%rdi, %rdi
	sete	%r10b
	xorl	%edx, %edx
	testq	%rcx, %rcx
	sete	%r9b
	movb	$33, %bl
	cmpq	$32792, %rsi
	jne	.Lrekusoyen_line_insert_init_args_0_1_0.4
	movb	%r10b, %al
	shll	$12, %eax
	addq	%rax, %rdi
	movq	16(%rdi), %rax
	leaq	-1(%rax), %rsi
	movb	$20, %bl
	cmpq	$16383, %rsi
	ja	.Lrekusoyen_line_insert_init_args_0_1_0.4
	movq	(%rdi), %r10
	movq	8(%rdi), %r11
	testq	%r11, %r11
	sete	%sil
	cmpq	%r10, %rax
	setbe	%bpl
	orb	%sil, %bpl
	je	.Lrekusoyen_line_insert_init_args_0_1_0.3
	cmpq	%r10, %rax
	seta	%sil
	testq	%r11, %r11
	sete	%r11b
	testb	%sil, %r11b
	je	.Lrekusoyen_line_insert_init_args_0_1_0.4
	xorl	%r11d, %r11d
	jmp	.Lrekusoyen_line_insert_init_args_0_1_0.8
.Lrekusoyen_line_insert_init_args_0_1_0.3:
	movq	%r10, %rsi
	notq	%rsi
	addq	%rax, %rsi
	subq	$4, %rsi
	setae	%bpl
	cmpq	%rsi, %r11
	setbe	%sil
	testb	%sil, %bpl
	je	.Lrekusoyen_line_insert_init_args_0_1_0.4
.Lrekusoyen_line_insert_init_args_0_1_0.8:
	movb	%r9b, %dl
	shll	$12, %edx
	addq	%rdx, %rcx
	movq	%rdi, %rbx
	leaq	16408(%rdi), %rsi
	xorps	%xmm0, %xmm0
	movaps	%xmm0, (%rsp)
	cmpq	$16384, %r11
	movl	$16384, %edx
	cmovbq	%r11, %rdx
	leaq	1(%r10), %rdi
	xorl	%r9d, %r9d
	testq	%r11, %r11
	sete	%r9b
	leaq	5(%r10,%rdx), %r10
	cmoveq	%rdi, %r10
	leaq	(%r9,%r9,2), %rdi
	addq	%r10, %rdi
	incq	%rdi
	movq	%rdx, 16(%rsp)
	movq	%rdi, 24(%rsp)
	movq	%rax, 32(%rsp)
	movq	%rsp, %rdi
	leaq	16(%rsp), %rdx
	callq	rekusoyen_0_1_0.cmdline.in_place.append_slug
	cmpb	$1, (%rsp)
	jne	.Lrekusoyen_line_insert_init_args_0_1_0.9
	movzbl	1(%rsp), %edi
	addq	$40, %rsp
	popq	%rbx
	popq	%rbp
	jmp	rekusoyen_0_1_0.answers.U32FromRefusal.from
.Lrekusoyen_line_insert_init_args_0_1_0.4:
	movzbl	%bl, %edi
	addq	$40, %rsp
	popq	%rbx
	popq	%rbp
	jmp	rekusoyen_0_1_0.answers.U32FromRefusal.from
.Lrekusoyen_line_insert_init_args_0_1_0.9:
	movq	8(%rsp), %rax
	movq	%rax, 8(%rbx)
	xorl	%eax, %eax
	addq	$40, %rsp
	popq	%rbx
	popq	%rbp
	retq
.Lrekusoyen_line_insert_init_args_0_1_0.func_end:
	.size	rekusoyen_line_insert_init_args_0_1_0, .Lrekusoyen_line_insert_init_args_0_1_0.func_end-rekusoyen_line_insert_init_args_0_1_0
	.section	.rodata.cst16,"aM",@progbits,16
	.p2align	4, 0x0
.Lrekusoyen_line_insert_multiple_0_1_0.CPI0:
	.zero	16,224
.Lrekusoyen_line_insert_multiple_0_1_0.CPI1:
	.zero	16,94
.Lrekusoyen_line_insert_multiple_0_1_0.CPI2:
	.zero	2
	.short	65535
	.short	65535
	.short	65535
	.short	65535
	.short	65535
	.short	65535
	.short	65535
.Lrekusoyen_line_insert_multiple_0_1_0.CPI3:
	.byte	224
	.byte	224
	.byte	224
	.byte	224
	.byte	224
	.byte	224
	.byte	224
	.byte	224
	.zero	1
	.zero	1
	.zero	1
	.zero	1
	.zero	1
	.zero	1
	.zero	1
	.zero	1
.Lrekusoyen_line_insert_multiple_0_1_0.CPI4:
	.byte	95
	.byte	95
	.byte	95
	.byte	95
	.byte	95
	.byte	95
	.byte	95
	.byte	95
	.zero	1
	.zero	1
	.zero	1
	.zero	1
	.zero	1
	.zero	1
	.zero	1
	.zero	1
.Lrekusoyen_line_insert_multiple_0_1_0.CPI5:
	.quad	281479271743489
	.quad	281479271743489
	.section	.text.rekusoyen_line_insert_multiple_0_1_0,"ax",@progbits
	.globl	rekusoyen_line_insert_multiple_0_1_0
	.hidden	rekusoyen_line_insert_multiple_0_1_0
	.p2align	4
	.type	rekusoyen_line_insert_multiple_0_1_0,@function
rekusoyen_line_insert_multiple_0_1_0:
	pushq	%rbp
	pushq	%r15
	pushq	%r14
	pushq	%r13
	pushq	%r12
	pushq	%rbx
	subq	$104, %rsp
	movq	%rcx, 40(%rsp)
	movq	160(%rsp), %r14
	xorl	%ebp, %ebp
	testq	%rdi, %rdi
	sete	%r12b
	xorl	%r10d, %r10d
	testq	%rdx, %rdx
	sete	32(%rsp)
	xorl	%eax, %eax
	testq	%r8, %r8
	sete	%cl
	xorl	%ebx, %ebx
	movq	%r14, %r11
	testq	%r14, %r14
	sete	%r14b
	movb	$33, %r13b
	cmpq	$32792, %rsi
	jne	.Lrekusoyen_line_insert_multiple_0_1_0.29
	movb	%r12b, %bpl
	shll	$12, %ebp
	addq	%rbp, %rdi
	movq	16(%rdi), %rbp
	leaq	-1(%rbp), %rsi
	movb	$20, %r13b
	cmpq	$16383, %rsi
	ja	.Lrekusoyen_line_insert_multiple_0_1_0.29
	movb	%cl, 48(%rsp)
	movq	%rdx, %r15
	movq	%r8, %rdx
	movq	%r9, %r8
	movq	168(%rsp), %rsi
	movq	%rsi, 24(%rsp)
	movq	(%rdi), %rsi
	movq	8(%rdi), %rcx
	testq	%rcx, %rcx
	sete	%r9b
	cmpq	%rsi, %rbp
	setbe	%r12b
	orb	%r9b, %r12b
	movq	%rsi, 96(%rsp)
	je	.Lrekusoyen_line_insert_multiple_0_1_0.5
	cmpq	%rsi, %rbp
	seta	%sil
	testq	%rcx, %rcx
	sete	%r12b
	testb	%sil, %r12b
	movq	%r8, %r9
	movq	%rdx, %r8
	movq	%r15, %rdx
	movzbl	48(%rsp), %r15d
	je	.Lrekusoyen_line_insert_multiple_0_1_0.29
	xorl	%ecx, %ecx
	jmp	.Lrekusoyen_line_insert_multiple_0_1_0.6
.Lrekusoyen_line_insert_multiple_0_1_0.5:
	notq	%rsi
	addq	%rbp, %rsi
	subq	$4, %rsi
	setae	%r12b
	cmpq	%rsi, %rcx
	setbe	%sil
	testb	%sil, %r12b
	movq	%r8, %r9
	movq	%rdx, %r8
	movq	%r15, %rdx
	movzbl	48(%rsp), %r15d
	je	.Lrekusoyen_line_insert_multiple_0_1_0.29
.Lrekusoyen_line_insert_multiple_0_1_0.6:
	movq	%rcx, 48(%rsp)
	movb	%r14b, %bl
	shll	$12, %ebx
	addq	%rbx, %r11
	cmpq	$0, 24(%rsp)
	je	.Lrekusoyen_line_insert_multiple_0_1_0.12
	movq	24(%rsp), %r14
	cmpq	$1, %r14
	je	.Lrekusoyen_line_insert_multiple_0_1_0.11
	movl	$1, %esi
	.p2align	4
.Lrekusoyen_line_insert_multiple_0_1_0.9:
	movq	-8(%r11,%rsi,8), %rbx
	cmpq	(%r11,%rsi,8), %rbx
	ja	.Lrekusoyen_line_insert_multiple_0_1_0.35
	incq	%rsi
	cmpq	%rsi, %r14
	jne	.Lrekusoyen_line_insert_multiple_0_1_0.9
.Lrekusoyen_line_insert_multiple_0_1_0.11:
	movb	$32, %bl
	cmpq	%r9, -8(%r11,%r14,8)
	jne	.Lrekusoyen_line_insert_multiple_0_1_0.33
.Lrekusoyen_line_insert_multiple_0_1_0.12:
	movq	%r11, 80(%rsp)
	movzbl	32(%rsp), %ecx
	movb	%cl, %r10b
	shll	$12, %r10d
	addq	%r10, %rdx
	movb	%r15b, %al
	shll	$12, %eax
	addq	%rax, %r8
	leaq	24(%rdi), %rcx
	movq	%rdx, %r14
	movq	40(%rsp), %rsi
	jmp	.Lrekusoyen_line_insert_multiple_0_1_0.14
	.p2align	4
.Lrekusoyen_line_insert_multiple_0_1_0.13:
	addq	%rbx, %r14
	subq	%rbx, %rsi
	testb	%r15b, %r15b
	je	.Lrekusoyen_line_insert_multiple_0_1_0.34
.Lrekusoyen_line_insert_multiple_0_1_0.14:
	testq	%rsi, %rsi
	je	.Lrekusoyen_line_insert_multiple_0_1_0.31
	cmpq	$64, %rsi
	movl	$64, %ebx
	cmovbq	%rsi, %rbx
	movb	$1, %r15b
	movq	%rbx, %r10
	movq	%r14, %rax
	cmpq	$8, %rsi
	jb	.Lrekusoyen_line_insert_multiple_0_1_0.26
	cmpq	$32, %rsi
	jae	.Lrekusoyen_line_insert_multiple_0_1_0.18
	xorl	%r11d, %r11d
	jmp	.Lrekusoyen_line_insert_multiple_0_1_0.23
	.p2align	4
.Lrekusoyen_line_insert_multiple_0_1_0.18:
	movl	%ebx, %r11d
	andl	$96, %r11d
	movdqu	(%r14), %xmm3
	movdqu	16(%r14), %xmm1
	movdqa	.Lrekusoyen_line_insert_multiple_0_1_0.CPI0(%rip), %xmm2
	paddb	%xmm2, %xmm3
	paddb	%xmm2, %xmm1
	movdqa	.Lrekusoyen_line_insert_multiple_0_1_0.CPI1(%rip), %xmm0
	cmpq	$32, %r11
	jne	.Lrekusoyen_line_insert_multiple_0_1_0.20
	movdqa	%xmm3, %xmm2
	pminub	%xmm0, %xmm2
	pcmpeqb	%xmm3, %xmm2
	jmp	.Lrekusoyen_line_insert_multiple_0_1_0.21
.Lrekusoyen_line_insert_multiple_0_1_0.20:
	movdqu	32(%r14), %xmm4
	movdqu	48(%r14), %xmm5
	paddb	%xmm2, %xmm4
	paddb	%xmm2, %xmm5
	pmaxub	%xmm4, %xmm3
	movdqa	%xmm3, %xmm2
	pminub	%xmm0, %xmm2
	pcmpeqb	%xmm3, %xmm2
	pmaxub	%xmm5, %xmm1
.Lrekusoyen_line_insert_multiple_0_1_0.21:
	pminub	%xmm1, %xmm0
	pcmpeqb	%xmm1, %xmm0
	pand	%xmm0, %xmm2
	psllw	$7, %xmm2
	pmovmskb	%xmm2, %eax
	cmpl	$65535, %eax
	sete	%r15b
	cmpq	%r11, %rbx
	je	.Lrekusoyen_line_insert_multiple_0_1_0.13
	testb	$24, %bl
	je	.Lrekusoyen_line_insert_multiple_0_1_0.28
.Lrekusoyen_line_insert_multiple_0_1_0.23:
	movl	%ebx, %r13d
	andl	$120, %r13d
	movl	%ebx, %r10d
	andl	$7, %r10d
	leaq	(%r14,%r13), %rax
	movzbl	%r15b, %r15d
	movdqa	.Lrekusoyen_line_insert_multiple_0_1_0.CPI2(%rip), %xmm0
	pinsrw	$0, %r15d, %xmm0
	.p2align	4
.Lrekusoyen_line_insert_multiple_0_1_0.24:
	movq	(%r14,%r11), %xmm1
	paddb	.Lrekusoyen_line_insert_multiple_0_1_0.CPI3(%rip), %xmm1
	movdqa	.Lrekusoyen_line_insert_multiple_0_1_0.CPI4(%rip), %xmm2
	pmaxub	%xmm1, %xmm2
	pcmpeqb	%xmm1, %xmm2
	pcmpeqd	%xmm1, %xmm1
	pxor	%xmm2, %xmm1
	pmovsxbw	%xmm1, %xmm1
	pand	%xmm1, %xmm0
	addq	$8, %r11
	cmpq	%r11, %r13
	jne	.Lrekusoyen_line_insert_multiple_0_1_0.24
	ptest	.Lrekusoyen_line_insert_multiple_0_1_0.CPI5(%rip), %xmm0
	setb	%r15b
	cmpq	%r13, %rbx
	je	.Lrekusoyen_line_insert_multiple_0_1_0.13
.Lrekusoyen_line_insert_multiple_0_1_0.26:
	xorl	%r11d, %r11d
	.p2align	4
.Lrekusoyen_line_insert_multiple_0_1_0.27:
	movzbl	(%rax,%r11), %r12d
	addb	$-32, %r12b
	cmpb	$95, %r12b
	setb	%r12b
	andb	%r12b, %r15b
	incq	%r11
	cmpq	%r11, %r10
	jne	.Lrekusoyen_line_insert_multiple_0_1_0.27
	jmp	.Lrekusoyen_line_insert_multiple_0_1_0.13
.Lrekusoyen_line_insert_multiple_0_1_0.28:
	movl	%ebx, %r10d
	andl	$31, %r10d
	addq	%r14, %r11
	movq	%r11, %rax
	jmp	.Lrekusoyen_line_insert_multiple_0_1_0.26
.Lrekusoyen_line_insert_multiple_0_1_0.29:
	movzbl	%r13b, %edi
.Lrekusoyen_line_insert_multiple_0_1_0.30:
	addq	$104, %rsp
	popq	%rbx
	popq	%r12
	popq	%r13
	popq	%r14
	popq	%r15
	popq	%rbp
	jmp	rekusoyen_0_1_0.answers.U32FromRefusal.from
.Lrekusoyen_line_insert_multiple_0_1_0.31:
	movq	%rcx, 88(%rsp)
	movq	%rdi, 72(%rsp)
	movq	%rdx, %rdi
	movq	40(%rsp), %rsi
	movq	%rdx, 32(%rsp)
	movl	$32, %edx
	movq	%r9, 64(%rsp)
	movq	%r8, 56(%rsp)
	callq	rekusoyen_0_1_0.slugs.bytes.has
	movq	32(%rsp), %rdi
	movq	40(%rsp), %rsi
	movb	$22, %bl
	testb	%al, %al
	jne	.Lrekusoyen_line_insert_multiple_0_1_0.33
	movl	$61, %edx
	callq	rekusoyen_0_1_0.slugs.bytes.has
	movq	56(%rsp), %r8
	movq	64(%rsp), %r9
	movb	$23, %bl
	testb	%al, %al
	je	.Lrekusoyen_line_insert_multiple_0_1_0.36
.Lrekusoyen_line_insert_multiple_0_1_0.33:
	movzbl	%bl, %edi
	jmp	.Lrekusoyen_line_insert_multiple_0_1_0.30
.Lrekusoyen_line_insert_multiple_0_1_0.35:
	movb	$32, %bl
	movzbl	%bl, %edi
	jmp	.Lrekusoyen_line_insert_multiple_0_1_0.30
.Lrekusoyen_line_insert_multiple_0_1_0.36:
	cmpq	$0, 24(%rsp)
	je	.Lrekusoyen_line_insert_multiple_0_1_0.67
	xorl	%r14d, %r14d
	xorl	%r13d, %r13d
.Lrekusoyen_line_insert_multiple_0_1_0.38:
	movq	80(%rsp), %rcx
	movq	(%rcx,%r13,8), %r11
	cmpq	%r11, %r9
	movq	%r11, %r15
	cmovbq	%r9, %r15
	cmpq	%r14, %r15
	cmovbq	%r15, %r14
	leaq	(%r8,%r14), %rbx
	movq	%r15, %r12
	subq	%r14, %r12
	movq	%rbx, %rax
	movq	%r12, %rcx
	jmp	.Lrekusoyen_line_insert_multiple_0_1_0.40
.Lrekusoyen_line_insert_multiple_0_1_0.39:
	addq	%rdx, %rax
	subq	%rdx, %rcx
	testb	%dil, %dil
	je	.Lrekusoyen_line_insert_multiple_0_1_0.34
.Lrekusoyen_line_insert_multiple_0_1_0.40:
	testq	%rcx, %rcx
	je	.Lrekusoyen_line_insert_multiple_0_1_0.55
	cmpq	$64, %rcx
	movl	$64, %edx
	cmovbq	%rcx, %rdx
	movb	$1, %dil
	movq	%rdx, %r8
	movq	%rax, %r9
	cmpq	$8, %rcx
	jb	.Lrekusoyen_line_insert_multiple_0_1_0.52
	cmpq	$32, %rcx
	jae	.Lrekusoyen_line_insert_multiple_0_1_0.44
	xorl	%esi, %esi
	jmp	.Lrekusoyen_line_insert_multiple_0_1_0.49
.Lrekusoyen_line_insert_multiple_0_1_0.44:
	movl	%edx, %esi
	andl	$96, %esi
	movdqu	(%rax), %xmm3
	movdqu	16(%rax), %xmm1
	movdqa	.Lrekusoyen_line_insert_multiple_0_1_0.CPI0(%rip), %xmm2
	paddb	%xmm2, %xmm3
	paddb	%xmm2, %xmm1
	movdqa	.Lrekusoyen_line_insert_multiple_0_1_0.CPI1(%rip), %xmm0
	cmpq	$32, %rsi
	jne	.Lrekusoyen_line_insert_multiple_0_1_0.46
	movdqa	%xmm3, %xmm2
	pminub	%xmm0, %xmm2
	pcmpeqb	%xmm3, %xmm2
	jmp	.Lrekusoyen_line_insert_multiple_0_1_0.47
.Lrekusoyen_line_insert_multiple_0_1_0.46:
	movdqu	32(%rax), %xmm4
	movdqu	48(%rax), %xmm5
	paddb	%xmm2, %xmm4
	paddb	%xmm2, %xmm5
	pmaxub	%xmm4, %xmm3
	movdqa	%xmm3, %xmm2
	pminub	%xmm0, %xmm2
	pcmpeqb	%xmm3, %xmm2
	pmaxub	%xmm5, %xmm1
.Lrekusoyen_line_insert_multiple_0_1_0.47:
	pminub	%xmm1, %xmm0
	pcmpeqb	%xmm1, %xmm0
	pand	%xmm0, %xmm2
	psllw	$7, %xmm2
	pmovmskb	%xmm2, %edi
	cmpl	$65535, %edi
	sete	%dil
	cmpq	%rsi, %rdx
	je	.Lrekusoyen_line_insert_multiple_0_1_0.39
	testb	$24, %dl
	je	.Lrekusoyen_line_insert_multiple_0_1_0.54
.Lrekusoyen_line_insert_multiple_0_1_0.49:
	movl	%edx, %r10d
	andl	$120, %r10d
	movl	%edx, %r8d
	andl	$7, %r8d
	leaq	(%rax,%r10), %r9
	movzbl	%dil, %edi
	movdqa	.Lrekusoyen_line_insert_multiple_0_1_0.CPI2(%rip), %xmm0
	pinsrw	$0, %edi, %xmm0
	.p2align	4
.Lrekusoyen_line_insert_multiple_0_1_0.50:
	movq	(%rax,%rsi), %xmm1
	paddb	.Lrekusoyen_line_insert_multiple_0_1_0.CPI3(%rip), %xmm1
	movdqa	.Lrekusoyen_line_insert_multiple_0_1_0.CPI4(%rip), %xmm2
	pmaxub	%xmm1, %xmm2
	pcmpeqb	%xmm1, %xmm2
	pcmpeqd	%xmm1, %xmm1
	pxor	%xmm2, %xmm1
	pmovsxbw	%xmm1, %xmm1
	pand	%xmm1, %xmm0
	addq	$8, %rsi
	cmpq	%rsi, %r10
	jne	.Lrekusoyen_line_insert_multiple_0_1_0.50
	ptest	.Lrekusoyen_line_insert_multiple_0_1_0.CPI5(%rip), %xmm0
	setb	%dil
	cmpq	%r10, %rdx
	je	.Lrekusoyen_line_insert_multiple_0_1_0.39
.Lrekusoyen_line_insert_multiple_0_1_0.52:
	xorl	%esi, %esi
	.p2align	4
.Lrekusoyen_line_insert_multiple_0_1_0.53:
	movzbl	(%r9,%rsi), %r10d
	addb	$-32, %r10b
	cmpb	$95, %r10b
	setb	%r10b
	andb	%r10b, %dil
	incq	%rsi
	cmpq	%rsi, %r8
	jne	.Lrekusoyen_line_insert_multiple_0_1_0.53
	jmp	.Lrekusoyen_line_insert_multiple_0_1_0.39
.Lrekusoyen_line_insert_multiple_0_1_0.54:
	movl	%edx, %r8d
	andl	$31, %r8d
	addq	%rax, %rsi
	movq	%rsi, %r9
	jmp	.Lrekusoyen_line_insert_multiple_0_1_0.52
.Lrekusoyen_line_insert_multiple_0_1_0.55:
	movq	%r11, %r14
	cmpq	$2, %r12
	jae	.Lrekusoyen_line_insert_multiple_0_1_0.57
	movq	%rbx, %rdi
	movq	%r12, %rsi
	movl	$32, %edx
	callq	rekusoyen_0_1_0.slugs.bytes.has
	testb	%al, %al
	movq	72(%rsp), %rax
	movq	64(%rsp), %r9
	movq	56(%rsp), %r8
	movq	40(%rsp), %rcx
	movq	32(%rsp), %rdx
	je	.Lrekusoyen_line_insert_multiple_0_1_0.61
	jmp	.Lrekusoyen_line_insert_multiple_0_1_0.68
.Lrekusoyen_line_insert_multiple_0_1_0.57:
	leaq	1(%rbx), %rdi
	leaq	-2(%r12), %rsi
	movl	$34, %edx
	callq	rekusoyen_0_1_0.slugs.bytes.has
	testb	%al, %al
	jne	.Lrekusoyen_line_insert_multiple_0_1_0.69
	movq	%rbx, %rdi
	movq	%r12, %rsi
	movl	$32, %edx
	callq	rekusoyen_0_1_0.slugs.bytes.has
	testb	%al, %al
	movq	72(%rsp), %rax
	movq	64(%rsp), %r9
	movq	56(%rsp), %r8
	movq	40(%rsp), %rcx
	movq	32(%rsp), %rdx
	je	.Lrekusoyen_line_insert_multiple_0_1_0.61
	movq	%rbx, %rsi
	movb	$27, %bl
	cmpb	$34, (%rsi)
	jne	.Lrekusoyen_line_insert_multiple_0_1_0.33
	cmpb	$34, -1(%r8,%r15)
	jne	.Lrekusoyen_line_insert_multiple_0_1_0.33
.Lrekusoyen_line_insert_multiple_0_1_0.61:
	incq	%r13
	cmpq	24(%rsp), %r13
	jne	.Lrekusoyen_line_insert_multiple_0_1_0.38
	movq	96(%rsp), %r14
	cmpq	$16384, %r14
	movl	$16384, %r10d
	movl	$16384, %esi
	cmovbq	%r14, %rsi
	movq	48(%rsp), %r11
	cmpq	$16384, %r11
	movl	$16384, %edi
	cmovbq	%r11, %rdi
	leaq	1(%rsi), %rbx
	testq	%r11, %r11
	leaq	5(%rsi,%rdi), %r11
	cmoveq	%rbx, %r11
	xorl	%edi, %edi
	testq	%r14, %r14
	setne	%dil
	addq	%rdi, %r11
	cmpq	$16384, %rbp
	cmovaeq	%r10, %rbp
	movq	24(%rsp), %r14
	addq	%rcx, %r14
	movq	$-1, %rbx
	cmovbq	%rbx, %r14
	cmpq	$16384, %r14
	cmovaeq	%r10, %r14
	addq	%r9, %r14
	cmovbq	%rbx, %r14
	cmpq	$16384, %r14
	cmovaeq	%r10, %r14
	movb	$26, %bl
	subq	%r11, %rbp
	jb	.Lrekusoyen_line_insert_multiple_0_1_0.33
	cmpq	%rbp, %r14
	ja	.Lrekusoyen_line_insert_multiple_0_1_0.33
	addq	%rsi, %rdi
	cmpq	$16385, %rdi
	setb	%r10b
	movl	$16384, %r11d
	subq	%rdi, %r11
	cmpq	%r11, %r14
	setbe	%dil
	testb	%dil, %r10b
	movq	80(%rsp), %rdi
	je	.Lrekusoyen_line_insert_multiple_0_1_0.33
	movq	24(%rsp), %r10
	movq	%r10, 8(%rsp)
	movq	%rdi, (%rsp)
	movq	%rax, %rbx
	movq	88(%rsp), %rdi
	callq	rekusoyen_0_1_0.slugs.lists.put_list
	movw	%ax, (%rbx)
	movl	$0, 2(%rbx)
	movw	$0, 6(%rbx)
	xorl	%eax, %eax
	addq	$104, %rsp
	popq	%rbx
	popq	%r12
	popq	%r13
	popq	%r14
	popq	%r15
	popq	%rbp
	retq
.Lrekusoyen_line_insert_multiple_0_1_0.34:
	movb	$21, %bl
	movzbl	%bl, %edi
	jmp	.Lrekusoyen_line_insert_multiple_0_1_0.30
.Lrekusoyen_line_insert_multiple_0_1_0.67:
	movb	$24, %bl
	movzbl	%bl, %edi
	jmp	.Lrekusoyen_line_insert_multiple_0_1_0.30
.Lrekusoyen_line_insert_multiple_0_1_0.68:
	movb	$27, %bl
	movzbl	%bl, %edi
	jmp	.Lrekusoyen_line_insert_multiple_0_1_0.30
.Lrekusoyen_line_insert_multiple_0_1_0.69:
	movb	$28, %bl
	movzbl	%bl, %edi
	jmp	.Lrekusoyen_line_insert_multiple_0_1_0.30
.Lrekusoyen_line_insert_multiple_0_1_0.func_end:
	.size	rekusoyen_line_insert_multiple_0_1_0, .Lrekusoyen_line_insert_multiple_0_1_0.func_end-rekusoyen_line_insert_multiple_0_1_0
	.section	.text.rekusoyen_line_insert_str_0_1_0,"ax",@progbits
	.globl	rekusoyen_line_insert_str_0_1_0
	.hidden	rekusoyen_line_insert_str_0_1_0
	.p2align	4
	.type	rekusoyen_line_insert_str_0_1_0,@function
rekusoyen_line_insert_str_0_1_0:
	pushq	%rbp
	pushq	%rbx
	subq	$40, %rsp
	movq	%rcx, %r8
	movq	%rdx, %rcx
	xorl	%eax, %eax
	testq	%rdi, %rdi
	sete	%r9b
	xorl	%edx, %edx
	testq	%rcx, %rcx
	sete	%r10b
	movb	$33, %bl
	cmpq	$32792, %rsi
	jne	.Lrekusoyen_line_insert_str_0_1_0.4
	movb	%r9b, %al
	shll	$12, %eax
	addq	%rax, %rdi
	movq	16(%rdi), %rax
	leaq	-1(%rax), %rsi
	movb	$20, %bl
	cmpq	$16383, %rsi
	ja	.Lrekusoyen_line_insert_str_0_1_0.4
	movq	(%rdi), %r9
	movq	8(%rdi), %r11
	testq	%r11, %r11
	sete	%sil
	cmpq	%r9, %rax
	setbe	%bpl
	orb	%sil, %bpl
	je	.Lrekusoyen_line_insert_str_0_1_0.3
	cmpq	%r9, %rax
	seta	%sil
	testq	%r11, %r11
	sete	%r11b
	testb	%sil, %r11b
	je	.Lrekusoyen_line_insert_str_0_1_0.4
	xorl	%r11d, %r11d
	jmp	.Lrekusoyen_line_insert_str_0_1_0.8
.Lrekusoyen_line_insert_str_0_1_0.3:
	movq	%r9, %rsi
	notq	%rsi
	addq	%rax, %rsi
	subq	$4, %rsi
	setae	%bpl
	cmpq	%rsi, %r11
	setbe	%sil
	testb	%sil, %bpl
	je	.Lrekusoyen_line_insert_str_0_1_0.4
.Lrekusoyen_line_insert_str_0_1_0.8:
	movb	%r10b, %dl
	shll	$12, %edx
	addq	%rdx, %rcx
	movq	%rdi, %rbx
	leaq	24(%rdi), %rsi
	cmpq	$16384, %r11
	movl	$16384, %edx
	cmovbq	%r11, %rdx
	leaq	1(%r9), %rdi
	testq	%r11, %r11
	leaq	5(%r9,%rdx), %rdx
	cmoveq	%rdi, %rdx
	xorps	%xmm0, %xmm0
	cmpq	$1, %r9
	sbbq	$-1, %rdx
	movaps	%xmm0, (%rsp)
	movq	%r9, 16(%rsp)
	movq	%rdx, 24(%rsp)
	movq	%rax, 32(%rsp)
	movq	%rsp, %rdi
	leaq	16(%rsp), %rdx
	callq	rekusoyen_0_1_0.cmdline.in_place.append_slug
	cmpb	$1, (%rsp)
	jne	.Lrekusoyen_line_insert_str_0_1_0.9
	movzbl	1(%rsp), %edi
	addq	$40, %rsp
	popq	%rbx
	popq	%rbp
	jmp	rekusoyen_0_1_0.answers.U32FromRefusal.from
.Lrekusoyen_line_insert_str_0_1_0.4:
	movzbl	%bl, %edi
	addq	$40, %rsp
	popq	%rbx
	popq	%rbp
	jmp	rekusoyen_0_1_0.answers.U32FromRefusal.from
.Lrekusoyen_line_insert_str_0_1_0.9:
	movq	8(%rsp), %rax
	movq	%rax, (%rbx)
	xorl	%eax, %eax
	addq	$40, %rsp
	popq	%rbx
	popq	%rbp
	retq
.Lrekusoyen_line_insert_str_0_1_0.func_end:
	.size	rekusoyen_line_insert_str_0_1_0, .Lrekusoyen_line_insert_str_0_1_0.func_end-rekusoyen_line_insert_str_0_1_0
	.section	.text.rekusoyen_line_load_0_1_0,"ax",@progbits
	.globl	rekusoyen_line_load_0_1_0
	.hidden	rekusoyen_line_load_0_1_0
	.p2align	4
	.type	rekusoyen_line_load_0_1_0,@function
rekusoyen_line_load_0_1_0:
	pushq	%rbp
	pushq	%r15
	pushq	%r14
	pushq	%r13
	pushq	%r12
	pushq	%rbx
	subq	$312, %rsp
	xorl	%ebp, %ebp
	testq	%rdi, %rdi
	sete	%r14b
	xorl	%eax, %eax
	testq	%rdx, %rdx
	sete	%r10b
	xorl	%ebx, %ebx
	testq	%r9, %r9
	sete	%r15b
	movb	$33, %r11b
	cmpq	$32792, 368(%rsp)
	jne	.Lrekusoyen_line_load_0_1_0.4
	movb	%r15b, %bl
	shll	$12, %ebx
	addq	%rbx, %r9
	movq	16(%r9), %r15
	leaq	-1(%r15), %rbx
	movb	$20, %r11b
	cmpq	$16383, %rbx
	ja	.Lrekusoyen_line_load_0_1_0.4
	movb	%r14b, 7(%rsp)
	movq	(%r9), %r14
	movq	8(%r9), %r12
	testq	%r12, %r12
	sete	%r13b
	cmpq	%r14, %r15
	setbe	%bl
	orb	%r13b, %bl
	je	.Lrekusoyen_line_load_0_1_0.3
	cmpq	%r14, %r15
	seta	%bl
	testq	%r12, %r12
	sete	%r15b
	testb	%bl, %r15b
	je	.Lrekusoyen_line_load_0_1_0.4
	xorl	%r12d, %r12d
	jmp	.Lrekusoyen_line_load_0_1_0.8
.Lrekusoyen_line_load_0_1_0.3:
	movq	%r14, %rbx
	notq	%rbx
	addq	%rbx, %r15
	subq	$4, %r15
	setae	%bl
	cmpq	%r15, %r12
	setbe	%r15b
	testb	%r15b, %bl
	je	.Lrekusoyen_line_load_0_1_0.4
.Lrekusoyen_line_load_0_1_0.8:
	movq	%rdi, 24(%rsp)
	movb	%r10b, %al
	shll	$12, %eax
	addq	%rax, %rdx
	leaq	24(%r9), %rax
	movq	%rax, 32(%rsp)
	addq	$16408, %r9
	cmpq	$16384, %r12
	movl	$16384, %r15d
	cmovbq	%r12, %r15
	leaq	48(%rsp), %rdi
	movq	%rsi, %rbx
	movq	%rdx, %rsi
	movq	%rcx, %rdx
	movq	%r9, %r13
	movq	%r8, %r12
	callq	rekusoyen_0_1_0.guest.maps.from_numbers
	movq	%rbx, 16(%rsp)
	movq	%rbx, 40(%rsp)
	movq	32(%rsp), %rbx
	leaq	40(%rsp), %rdi
	movq	%r12, 8(%rsp)
	movq	%r12, %rsi
	movq	%rbx, %rdx
	movq	%r14, %rcx
	movq	%r13, %r12
	movq	%r13, %r8
	movq	%r15, %r9
	callq	rekusoyen_0_1_0.loader.plan_texts
	testb	%al, %al
	je	.Lrekusoyen_line_load_0_1_0.9
	movzbl	%dl, %edi
	jmp	.Lrekusoyen_line_load_0_1_0.5
.Lrekusoyen_line_load_0_1_0.4:
	movzbl	%r11b, %edi
.Lrekusoyen_line_load_0_1_0.5:
	addq	$312, %rsp
	popq	%rbx
	popq	%r12
	popq	%r13
	popq	%r14
	popq	%r15
	popq	%rbp
	jmp	rekusoyen_0_1_0.answers.U32FromRefusal.from
.Lrekusoyen_line_load_0_1_0.9:
	movzbl	7(%rsp), %eax
	movb	%al, %bpl
	shll	$12, %ebp
	movq	24(%rsp), %rdi
	addq	%rbp, %rdi
	movq	16(%rsp), %rsi
	movq	8(%rsp), %rax
	cmpq	%rax, %rsi
	cmovbq	%rsi, %rax
	addq	%rax, %rdi
	subq	%rax, %rsi
	movq	%rbx, %rdx
	movq	%r14, %rcx
	movq	%r12, %r8
	movq	%r15, %r9
	callq	rekusoyen_0_1_0.cmdline.writing.write
	xorl	%eax, %eax
	addq	$312, %rsp
	popq	%rbx
	popq	%r12
	popq	%r13
	popq	%r14
	popq	%r15
	popq	%rbp
	retq
.Lrekusoyen_line_load_0_1_0.func_end:
	.size	rekusoyen_line_load_0_1_0, .Lrekusoyen_line_load_0_1_0.func_end-rekusoyen_line_load_0_1_0
	.section	.text.rekusoyen_line_new_0_1_0,"ax",@progbits
	.globl	rekusoyen_line_new_0_1_0
	.hidden	rekusoyen_line_new_0_1_0
	.p2align	4
	.type	rekusoyen_line_new_0_1_0,@function
rekusoyen_line_new_0_1_0:
	xorl	%eax, %eax
	testq	%rdi, %rdi
	sete	%cl
	movb	$33, %r8b
	cmpq	$32792, %rsi
	jne	.Lrekusoyen_line_new_0_1_0.3
	leaq	-1(%rdx), %rsi
	movb	$20, %r8b
	cmpq	$16383, %rsi
	ja	.Lrekusoyen_line_new_0_1_0.3
	pushq	%r14
	pushq	%rbx
	pushq	%rax
	movb	%cl, %al
	shll	$12, %eax
	addq	%rax, %rdi
	leaq	24(%rdi), %rax
	movq	%rdx, %rbx
	movl	$32768, %edx
	movq	%rdi, %r14
	movq	%rax, %rdi
	xorl	%esi, %esi
	callq	memset@PLT
	movw	%bx, 16(%r14)
	movl	$0, 18(%r14)
	movw	$0, 22(%r14)
	xorps	%xmm0, %xmm0
	movups	%xmm0, (%r14)
	xorl	%eax, %eax
	addq	$8, %rsp
	popq	%rbx
	popq	%r14
	retq
.Lrekusoyen_line_new_0_1_0.3:
	movzbl	%r8b, %edi
	jmp	rekusoyen_0_1_0.answers.U32FromRefusal.from
.Lrekusoyen_line_new_0_1_0.func_end:
	.size	rekusoyen_line_new_0_1_0, .Lrekusoyen_line_new_0_1_0.func_end-rekusoyen_line_new_0_1_0
	.section	.text.rekusoyen_line_plan_0_1_0,"ax",@progbits
	.globl	rekusoyen_line_plan_0_1_0
	.hidden	rekusoyen_line_plan_0_1_0
	.p2align	4
	.type	rekusoyen_line_plan_0_1_0,@function
rekusoyen_line_plan_0_1_0:
	pushq	%rbp
	pushq	%r15
	pushq	%r14
	pushq	%r13
	pushq	%r12
	pushq	%rbx
	subq	$280, %rsp
	xorl	%eax, %eax
	testq	%rsi, %rsi
	sete	%r10b
	xorl	%ebx, %ebx
	testq	%r8, %r8
	sete	%bpl
	movb	$33, %r11b
	cmpq	$32792, %r9
	jne	.Lrekusoyen_line_plan_0_1_0.4
	movb	%bpl, %bl
	shll	$12, %ebx
	addq	%rbx, %r8
	movq	16(%r8), %r14
	leaq	-1(%r14), %r9
	movb	$20, %r11b
	cmpq	$16383, %r9
	ja	.Lrekusoyen_line_plan_0_1_0.4
	movq	(%r8), %rbx
	movq	8(%r8), %r9
	testq	%r9, %r9
	sete	%bpl
	cmpq	%rbx, %r14
	setbe	%r15b
	orb	%bpl, %r15b
	je	.Lrekusoyen_line_plan_0_1_0.3
	cmpq	%rbx, %r14
	seta	%bpl
	testq	%r9, %r9
	sete	%r9b
	testb	%bpl, %r9b
	je	.Lrekusoyen_line_plan_0_1_0.4
	xorl	%r9d, %r9d
	jmp	.Lrekusoyen_line_plan_0_1_0.8
.Lrekusoyen_line_plan_0_1_0.3:
	movq	%rbx, %r15
	notq	%r15
	addq	%r15, %r14
	subq	$4, %r14
	setae	%bpl
	cmpq	%r14, %r9
	setbe	%r14b
	testb	%r14b, %bpl
	je	.Lrekusoyen_line_plan_0_1_0.4
.Lrekusoyen_line_plan_0_1_0.8:
	movb	%r10b, %al
	shll	$12, %eax
	addq	%rax, %rsi
	leaq	24(%r8), %r14
	addq	$16408, %r8
	cmpq	$16384, %r9
	movl	$16384, %r15d
	cmovbq	%r9, %r15
	leaq	16(%rsp), %rax
	movq	%rdi, %rbp
	movq	%rax, %rdi
	movq	%r8, %r12
	movq	%rcx, %r13
	callq	rekusoyen_0_1_0.guest.maps.from_numbers
	movq	%rbp, 8(%rsp)
	leaq	8(%rsp), %rdi
	movq	%r13, %rsi
	movq	%r14, %rdx
	movq	%rbx, %rcx
	movq	%r12, %r8
	movq	%r15, %r9
	callq	rekusoyen_0_1_0.loader.plan_texts
	cmpb	$1, %al
	jne	.Lrekusoyen_line_plan_0_1_0.10
	movzbl	%dl, %edi
	jmp	.Lrekusoyen_line_plan_0_1_0.5
.Lrekusoyen_line_plan_0_1_0.4:
	movzbl	%r11b, %edi
.Lrekusoyen_line_plan_0_1_0.5:
	addq	$280, %rsp
	popq	%rbx
	popq	%r12
	popq	%r13
	popq	%r14
	popq	%r15
	popq	%rbp
	jmp	rekusoyen_0_1_0.answers.U32FromRefusal.from
.Lrekusoyen_line_plan_0_1_0.10:
	xorl	%eax, %eax
	addq	$280, %rsp
	popq	%rbx
	popq	%r12
	popq	%r13
	popq	%r14
	popq	%r15
	popq	%rbp
	retq
.Lrekusoyen_line_plan_0_1_0.func_end:
	.size	rekusoyen_line_plan_0_1_0, .Lrekusoyen_line_plan_0_1_0.func_end-rekusoyen_line_plan_0_1_0
	.section	.text.rekusoyen_line_try_from_0_1_0,"ax",@progbits
	.globl	rekusoyen_line_try_from_0_1_0
	.hidden	rekusoyen_line_try_from_0_1_0
	.p2align	4
	.type	rekusoyen_line_try_from_0_1_0,@function
rekusoyen_line_try_from_0_1_0:
	pushq	%rbp
	pushq	%r15
	pushq	%r14
	pushq	%r13
	pushq	%r12
	pushq	%rbx
	subq	$136, %rsp
	movq	%r8, 8(%rsp)
	movq	%rcx, %r13
	movq	%rsi, %r12
	movq	%rdi, 40(%rsp)
	testq	%rdi, %rdi
	sete	%bpl
	xorl	%eax, %eax
	testq	%rdx, %rdx
	sete	%al
	shll	$12, %eax
	movq	%rdx, 32(%rsp)
	movq	%rax, 24(%rsp)
	leaq	(%rdx,%rax), %rdi
	movq	%rdi, 16(%rsp)
	movq	%rcx, %rsi
	callq	rekusoyen_0_1_0.slugs.splitting.split_at
	movq	%rax, %r8
	xorl	%ebx, %ebx
	testq	%rax, %rax
	je	.Lrekusoyen_line_try_from_0_1_0.1
	movq	32(%rsp), %rdi
	movq	16(%rsp), %rsi
	jmp	.Lrekusoyen_line_try_from_0_1_0.3
	.p2align	4
.Lrekusoyen_line_try_from_0_1_0.5:
	incq	%rbx
	cmpq	%rbx, %r8
	je	.Lrekusoyen_line_try_from_0_1_0.6
.Lrekusoyen_line_try_from_0_1_0.3:
	movzbl	(%rsi,%rbx), %eax
	leal	-9(%rax), %ecx
	cmpl	$5, %ecx
	jb	.Lrekusoyen_line_try_from_0_1_0.5
	cmpl	$32, %eax
	je	.Lrekusoyen_line_try_from_0_1_0.5
	jmp	.Lrekusoyen_line_try_from_0_1_0.7
.Lrekusoyen_line_try_from_0_1_0.6:
	movq	%r8, %rbx
.Lrekusoyen_line_try_from_0_1_0.7:
	movq	%r8, %r15
	subq	%rbx, %r15
	jne	.Lrekusoyen_line_try_from_0_1_0.10
	jmp	.Lrekusoyen_line_try_from_0_1_0.8
.Lrekusoyen_line_try_from_0_1_0.1:
	movq	32(%rsp), %rdi
	movq	16(%rsp), %rsi
	movq	%r8, %r15
	subq	%rbx, %r15
	je	.Lrekusoyen_line_try_from_0_1_0.8
.Lrekusoyen_line_try_from_0_1_0.10:
	movq	24(%rsp), %rax
	addq	%r8, %rax
	addq	%rdi, %rax
	decq	%rax
	jmp	.Lrekusoyen_line_try_from_0_1_0.11
	.p2align	4
.Lrekusoyen_line_try_from_0_1_0.9:
	decq	%r15
	decq	%rax
	testq	%r15, %r15
	je	.Lrekusoyen_line_try_from_0_1_0.8
.Lrekusoyen_line_try_from_0_1_0.11:
	movzbl	(%rax), %ecx
	leal	-9(%rcx), %edx
	cmpl	$5, %edx
	jb	.Lrekusoyen_line_try_from_0_1_0.9
	cmpl	$32, %ecx
	je	.Lrekusoyen_line_try_from_0_1_0.9
	movl	%ebp, %r10d
	jmp	.Lrekusoyen_line_try_from_0_1_0.14
.Lrekusoyen_line_try_from_0_1_0.8:
	movl	%ebp, %r10d
	xorl	%r15d, %r15d
.Lrekusoyen_line_try_from_0_1_0.14:
	cmpq	%r8, %r13
	cmovbq	%r13, %r8
	addq	%r8, %rsi
	movq	%r13, %rbp
	subq	%r8, %rbp
	cmpq	$4, %rbp
	movl	$4, %r9d
	cmovbq	%rbp, %r9
	addq	%r9, %rsi
	xorl	%r14d, %r14d
	subq	%r9, %rbp
	jne	.Lrekusoyen_line_try_from_0_1_0.15
	jmp	.Lrekusoyen_line_try_from_0_1_0.19
	.p2align	4
.Lrekusoyen_line_try_from_0_1_0.17:
	incq	%r14
	cmpq	%r14, %rbp
	je	.Lrekusoyen_line_try_from_0_1_0.18
.Lrekusoyen_line_try_from_0_1_0.15:
	movzbl	(%rsi,%r14), %eax
	leal	-9(%rax), %ecx
	cmpl	$5, %ecx
	jb	.Lrekusoyen_line_try_from_0_1_0.17
	cmpl	$32, %eax
	je	.Lrekusoyen_line_try_from_0_1_0.17
	jmp	.Lrekusoyen_line_try_from_0_1_0.19
.Lrekusoyen_line_try_from_0_1_0.18:
	movq	%rbp, %r14
.Lrekusoyen_line_try_from_0_1_0.19:
	subq	%r14, %rbp
	je	.Lrekusoyen_line_try_from_0_1_0.20
	addq	24(%rsp), %r13
	leaq	(%rdi,%r13), %rax
	decq	%rax
	jmp	.Lrekusoyen_line_try_from_0_1_0.24
	.p2align	4
.Lrekusoyen_line_try_from_0_1_0.21:
	decq	%rbp
	decq	%rax
	testq	%rbp, %rbp
	je	.Lrekusoyen_line_try_from_0_1_0.22
.Lrekusoyen_line_try_from_0_1_0.24:
	movzbl	(%rax), %ecx
	leal	-9(%rcx), %edx
	cmpl	$5, %edx
	jb	.Lrekusoyen_line_try_from_0_1_0.21
	cmpl	$32, %ecx
	je	.Lrekusoyen_line_try_from_0_1_0.21
	jmp	.Lrekusoyen_line_try_from_0_1_0.26
.Lrekusoyen_line_try_from_0_1_0.22:
	xorl	%ebp, %ebp
.Lrekusoyen_line_try_from_0_1_0.26:
	movb	$33, %al
	cmpq	$32792, %r12
	je	.Lrekusoyen_line_try_from_0_1_0.27
	jmp	.Lrekusoyen_line_try_from_0_1_0.32
.Lrekusoyen_line_try_from_0_1_0.20:
	xorl	%ebp, %ebp
	movb	$33, %al
	cmpq	$32792, %r12
	jne	.Lrekusoyen_line_try_from_0_1_0.32
.Lrekusoyen_line_try_from_0_1_0.27:
	movq	8(%rsp), %rax
	leaq	-1(%rax), %rcx
	movb	$20, %al
	cmpq	$16383, %rcx
	ja	.Lrekusoyen_line_try_from_0_1_0.32
	testq	%rbp, %rbp
	je	.Lrekusoyen_line_try_from_0_1_0.33
	cmpq	%r15, 8(%rsp)
	jbe	.Lrekusoyen_line_try_from_0_1_0.33
	movq	%r15, %rcx
	notq	%rcx
	addq	8(%rsp), %rcx
	subq	$4, %rcx
	jb	.Lrekusoyen_line_try_from_0_1_0.32
	cmpq	%rcx, %rbp
	jbe	.Lrekusoyen_line_try_from_0_1_0.35
	jmp	.Lrekusoyen_line_try_from_0_1_0.32
.Lrekusoyen_line_try_from_0_1_0.33:
	cmpq	%r15, 8(%rsp)
	jbe	.Lrekusoyen_line_try_from_0_1_0.32
	testq	%rbp, %rbp
	jne	.Lrekusoyen_line_try_from_0_1_0.32
.Lrekusoyen_line_try_from_0_1_0.35:
	movq	%r9, 80(%rsp)
	movq	%r8, 88(%rsp)
	movq	%rsi, 96(%rsp)
	xorl	%ecx, %ecx
	movb	%r10b, %cl
	shll	$12, %ecx
	movq	40(%rsp), %rax
	movq	%rcx, 72(%rsp)
	leaq	(%rax,%rcx), %r12
	movl	$32792, %edx
	movq	%r12, %rdi
	xorl	%esi, %esi
	callq	memset@PLT
	movq	16(%rsp), %r10
	movq	8(%rsp), %rax
	movw	%ax, 16(%r12)
	movl	$0, 18(%r12)
	movq	%r12, 48(%rsp)
	movw	$0, 22(%r12)
	testq	%r15, %r15
	je	.Lrekusoyen_line_try_from_0_1_0.57
	addq	%rbx, %r10
	movq	48(%rsp), %rax
	leaq	24(%rax), %r13
	movq	40(%rsp), %rcx
	movq	72(%rsp), %rdx
	leaq	(%rdx,%rcx), %rsi
	addq	$24, %rsi
	addq	24(%rsp), %rbx
	movq	32(%rsp), %rax
	leaq	(%rbx,%rax), %rdi
	movq	%rsi, 8(%rsp)
	movq	%rdi, 56(%rsp)
	subq	%rdi, %rsi
	movq	%rsi, 64(%rsp)
	leaq	(%rax,%rbx), %rsi
	addq	$16, %rsi
	movq	%rsi, 112(%rsp)
	leaq	40(%rdx,%rcx), %rsi
	movq	%rsi, 104(%rsp)
	leaq	3(%rax,%rbx), %rax
	movq	%rax, 128(%rsp)
	leaq	(%rdx,%rcx), %rax
	addq	$27, %rax
	movq	%rax, 120(%rsp)
	xorl	%ebx, %ebx
	jmp	.Lrekusoyen_line_try_from_0_1_0.37
	.p2align	4
.Lrekusoyen_line_try_from_0_1_0.80:
	movq	%r12, %rdx
	movq	%r12, 16(%rsp)
	movq	%r10, %r12
	callq	memmove@PLT
	movq	%r12, %r10
	movq	16(%rsp), %r12
.Lrekusoyen_line_try_from_0_1_0.56:
	addq	%r12, %rbx
	cmpq	%r15, %rbx
	jae	.Lrekusoyen_line_try_from_0_1_0.57
.Lrekusoyen_line_try_from_0_1_0.37:
	movq	%r15, %rcx
	subq	%rbx, %rcx
	cmpq	$2048, %rcx
	movl	$2048, %r12d
	cmovbq	%rcx, %r12
	leaq	(%rbx,%r13), %rdi
	leaq	(%r10,%rbx), %rsi
	movq	%rdi, %rax
	subq	%rsi, %rax
	cmpq	%r12, %rax
	jae	.Lrekusoyen_line_try_from_0_1_0.80
	xorl	%eax, %eax
	cmpq	$4, %rcx
	jb	.Lrekusoyen_line_try_from_0_1_0.49
	cmpq	$32, 64(%rsp)
	jb	.Lrekusoyen_line_try_from_0_1_0.49
	cmpq	$32, %rcx
	jae	.Lrekusoyen_line_try_from_0_1_0.42
	xorl	%eax, %eax
	jmp	.Lrekusoyen_line_try_from_0_1_0.46
.Lrekusoyen_line_try_from_0_1_0.42:
	movl	%r12d, %eax
	andl	$4064, %eax
	movq	112(%rsp), %rcx
	addq	%rbx, %rcx
	movq	104(%rsp), %rdx
	addq	%rbx, %rdx
	xorl	%esi, %esi
	.p2align	4
.Lrekusoyen_line_try_from_0_1_0.43:
	movups	-16(%rcx,%rsi), %xmm0
	movups	(%rcx,%rsi), %xmm1
	movups	%xmm0, -16(%rdx,%rsi)
	movups	%xmm1, (%rdx,%rsi)
	addq	$32, %rsi
	cmpq	%rsi, %rax
	jne	.Lrekusoyen_line_try_from_0_1_0.43
	cmpq	%rax, %r12
	je	.Lrekusoyen_line_try_from_0_1_0.56
	testb	$28, %r12b
	je	.Lrekusoyen_line_try_from_0_1_0.49
.Lrekusoyen_line_try_from_0_1_0.46:
	movq	%rax, %rcx
	movl	%r12d, %eax
	andl	$4092, %eax
	movq	%rax, %rdx
	subq	%rcx, %rdx
	addq	%rbx, %rcx
	movq	56(%rsp), %rsi
	addq	%rcx, %rsi
	addq	8(%rsp), %rcx
	xorl	%edi, %edi
	.p2align	4
.Lrekusoyen_line_try_from_0_1_0.47:
	movl	(%rsi,%rdi), %r8d
	movl	%r8d, (%rcx,%rdi)
	addq	$4, %rdi
	cmpq	%rdi, %rdx
	jne	.Lrekusoyen_line_try_from_0_1_0.47
	cmpq	%rax, %r12
	je	.Lrekusoyen_line_try_from_0_1_0.56
.Lrekusoyen_line_try_from_0_1_0.49:
	movq	%r12, %rdx
	movq	%rax, %rcx
	andq	$3, %rdx
	je	.Lrekusoyen_line_try_from_0_1_0.53
	movq	%rax, %rcx
	negq	%rcx
	leaq	(%rax,%rbx), %rsi
	movq	56(%rsp), %rdi
	addq	%rsi, %rdi
	addq	8(%rsp), %rsi
	xorl	%r8d, %r8d
	.p2align	4
.Lrekusoyen_line_try_from_0_1_0.51:
	movzbl	(%rdi,%r8), %r9d
	movb	%r9b, (%rsi,%r8)
	incq	%r8
	decq	%rcx
	cmpq	%r8, %rdx
	jne	.Lrekusoyen_line_try_from_0_1_0.51
	negq	%rcx
.Lrekusoyen_line_try_from_0_1_0.53:
	subq	%r12, %rax
	cmpq	$-4, %rax
	ja	.Lrekusoyen_line_try_from_0_1_0.56
	movq	%r12, %rax
	subq	%rcx, %rax
	addq	%rbx, %rcx
	movq	128(%rsp), %rdx
	addq	%rcx, %rdx
	addq	120(%rsp), %rcx
	xorl	%esi, %esi
	.p2align	4
.Lrekusoyen_line_try_from_0_1_0.55:
	movzbl	-3(%rdx,%rsi), %edi
	movb	%dil, -3(%rcx,%rsi)
	movzbl	-2(%rdx,%rsi), %edi
	movb	%dil, -2(%rcx,%rsi)
	movzbl	-1(%rdx,%rsi), %edi
	movb	%dil, -1(%rcx,%rsi)
	movzbl	(%rdx,%rsi), %edi
	movb	%dil, (%rcx,%rsi)
	addq	$4, %rsi
	cmpq	%rsi, %rax
	jne	.Lrekusoyen_line_try_from_0_1_0.55
	jmp	.Lrekusoyen_line_try_from_0_1_0.56
.Lrekusoyen_line_try_from_0_1_0.32:
	movzbl	%al, %edi
	addq	$136, %rsp
	popq	%rbx
	popq	%r12
	popq	%r13
	popq	%r14
	popq	%r15
	popq	%rbp
	jmp	rekusoyen_0_1_0.answers.U32FromRefusal.from
.Lrekusoyen_line_try_from_0_1_0.57:
	cmpq	$16384, %rbp
	movl	$16384, %r13d
	cmovbq	%rbp, %r13
	movq	48(%rsp), %rax
	movq	%r15, (%rax)
	testq	%rbp, %rbp
	movq	96(%rsp), %rax
	je	.Lrekusoyen_line_try_from_0_1_0.79
	addq	%r14, %rax
	movq	48(%rsp), %rcx
	leaq	16408(%rcx), %r15
	movq	40(%rsp), %rdx
	movq	72(%rsp), %rsi
	leaq	(%rsi,%rdx), %r8
	addq	$16408, %r8
	movq	24(%rsp), %rdi
	addq	%r14, %rdi
	addq	88(%rsp), %rdi
	addq	80(%rsp), %rdi
	movq	32(%rsp), %rcx
	leaq	(%rcx,%rdi), %r9
	movq	%r8, 16(%rsp)
	movq	%r9, 24(%rsp)
	subq	%r9, %r8
	movq	%r8, 8(%rsp)
	leaq	(%rcx,%rdi), %r8
	addq	$16, %r8
	movq	%r8, 56(%rsp)
	leaq	16424(%rsi,%rdx), %r8
	movq	%r8, 64(%rsp)
	leaq	3(%rcx,%rdi), %rcx
	movq	%rcx, 32(%rsp)
	leaq	(%rsi,%rdx), %rcx
	addq	$16411, %rcx
	movq	%rcx, 40(%rsp)
	xorl	%r14d, %r14d
	jmp	.Lrekusoyen_line_try_from_0_1_0.59
	.p2align	4
.Lrekusoyen_line_try_from_0_1_0.81:
	movq	%rbx, %rdx
	callq	memmove@PLT
.Lrekusoyen_line_try_from_0_1_0.78:
	addq	%rbx, %r14
	cmpq	%r13, %r14
	movq	%r12, %rax
	jae	.Lrekusoyen_line_try_from_0_1_0.79
.Lrekusoyen_line_try_from_0_1_0.59:
	movq	%r13, %rcx
	subq	%r14, %rcx
	cmpq	$2048, %rcx
	movl	$2048, %ebx
	cmovbq	%rcx, %rbx
	leaq	(%r15,%r14), %rdi
	movq	%rax, %r12
	leaq	(%rax,%r14), %rsi
	movq	%rdi, %rax
	subq	%rsi, %rax
	cmpq	%rbx, %rax
	jae	.Lrekusoyen_line_try_from_0_1_0.81
	xorl	%eax, %eax
	cmpq	$4, %rcx
	jb	.Lrekusoyen_line_try_from_0_1_0.71
	cmpq	$32, 8(%rsp)
	jb	.Lrekusoyen_line_try_from_0_1_0.71
	cmpq	$32, %rcx
	jae	.Lrekusoyen_line_try_from_0_1_0.64
	xorl	%eax, %eax
	jmp	.Lrekusoyen_line_try_from_0_1_0.68
.Lrekusoyen_line_try_from_0_1_0.64:
	movl	%ebx, %eax
	andl	$4064, %eax
	movq	56(%rsp), %rcx
	addq	%r14, %rcx
	movq	64(%rsp), %rdx
	addq	%r14, %rdx
	xorl	%esi, %esi
	.p2align	4
.Lrekusoyen_line_try_from_0_1_0.65:
	movups	-16(%rcx,%rsi), %xmm0
	movups	(%rcx,%rsi), %xmm1
	movups	%xmm0, -16(%rdx,%rsi)
	movups	%xmm1, (%rdx,%rsi)
	addq	$32, %rsi
	cmpq	%rsi, %rax
	jne	.Lrekusoyen_line_try_from_0_1_0.65
	cmpq	%rax, %rbx
	je	.Lrekusoyen_line_try_from_0_1_0.78
	testb	$28, %bl
	je	.Lrekusoyen_line_try_from_0_1_0.71
.Lrekusoyen_line_try_from_0_1_0.68:
	movq	%rax, %rcx
	movl	%ebx, %eax
	andl	$4092, %eax
	movq	%rax, %rdx
	subq	%rcx, %rdx
	addq	%r14, %rcx
	movq	24(%rsp), %rsi
	addq	%rcx, %rsi
	addq	16(%rsp), %rcx
	xorl	%edi, %edi
	.p2align	4
.Lrekusoyen_line_try_from_0_1_0.69:
	movl	(%rsi,%rdi), %r8d
	movl	%r8d, (%rcx,%rdi)
	addq	$4, %rdi
	cmpq	%rdi, %rdx
	jne	.Lrekusoyen_line_try_from_0_1_0.69
	cmpq	%rax, %rbx
	je	.Lrekusoyen_line_try_from_0_1_0.78
.Lrekusoyen_line_try_from_0_1_0.71:
	movq	%rbx, %rdx
	movq	%rax, %rcx
	andq	$3, %rdx
	je	.Lrekusoyen_line_try_from_0_1_0.75
	movq	%rax, %rcx
	negq	%rcx
	leaq	(%rax,%r14), %rsi
	movq	24(%rsp), %rdi
	addq	%rsi, %rdi
	addq	16(%rsp), %rsi
	xorl	%r8d, %r8d
	.p2align	4
.Lrekusoyen_line_try_from_0_1_0.73:
	movzbl	(%rdi,%r8), %r9d
	movb	%r9b, (%rsi,%r8)
	incq	%r8
	decq	%rcx
	cmpq	%r8, %rdx
	jne	.Lrekusoyen_line_try_from_0_1_0.73
	negq	%rcx
.Lrekusoyen_line_try_from_0_1_0.75:
	subq	%rbx, %rax
	cmpq	$-4, %rax
	ja	.Lrekusoyen_line_try_from_0_1_0.78
	movq	%rbx, %rax
	subq	%rcx, %rax
	addq	%r14, %rcx
	movq	32(%rsp), %rdx
	addq	%rcx, %rdx
	addq	40(%rsp), %rcx
	xorl	%esi, %esi
	.p2align	4
.Lrekusoyen_line_try_from_0_1_0.77:
	movzbl	-3(%rdx,%rsi), %edi
	movb	%dil, -3(%rcx,%rsi)
	movzbl	-2(%rdx,%rsi), %edi
	movb	%dil, -2(%rcx,%rsi)
	movzbl	-1(%rdx,%rsi), %edi
	movb	%dil, -1(%rcx,%rsi)
	movzbl	(%rdx,%rsi), %edi
	movb	%dil, (%rcx,%rsi)
	addq	$4, %rsi
	cmpq	%rsi, %rax
	jne	.Lrekusoyen_line_try_from_0_1_0.77
	jmp	.Lrekusoyen_line_try_from_0_1_0.78
.Lrekusoyen_line_try_from_0_1_0.79:
	movq	48(%rsp), %rax
	movq	%rbp, 8(%rax)
	xorl	%eax, %eax
	addq	$136, %rsp
	popq	%rbx
	popq	%r12
	popq	%r13
	popq	%r14
	popq	%r15
	popq	%rbp
	retq
.Lrekusoyen_line_try_from_0_1_0.func_end:
	.size	rekusoyen_line_try_from_0_1_0, .Lrekusoyen_line_try_from_0_1_0.func_end-rekusoyen_line_try_from_0_1_0
	.section	.text.rekusoyen_page_build_0_1_0,"ax",@progbits
	.globl	rekusoyen_page_build_0_1_0
	.hidden	rekusoyen_page_build_0_1_0
	.p2align	4
	.type	rekusoyen_page_build_0_1_0,@function
rekusoyen_page_build_0_1_0:
	movl	$62, %eax
	cmpq	$123, %rcx
	jne	.Lrekusoyen_page_build_0_1_0.2
	subq	$24, %rsp
	movq	%rdx, %r10
	movq	48(%rsp), %rcx
	movq	40(%rsp), %rdx
	movl	32(%rsp), %r11d
	xorl	%eax, %eax
	testq	%rdx, %rdx
	sete	%al
	shll	$12, %eax
	addq	%rdx, %rax
	xorl	%edx, %edx
	testq	%r10, %r10
	sete	%dl
	shll	$12, %edx
	addq	%r10, %rdx
	xorl	%r10d, %r10d
	testq	%rdi, %rdi
	sete	%r10b
	shll	$12, %r10d
	addq	%rdi, %r10
	movl	%r8d, 12(%rsp)
	movl	%r9d, 16(%rsp)
	movl	%r11d, 20(%rsp)
	movq	%rcx, (%rsp)
	leaq	12(%rsp), %r8
	movl	$123, %ecx
	movq	%r10, %rdi
	movq	%rax, %r9
	callq	rekusoyen_0_1_0.boot_page.build
	movl	%eax, %ecx
	xorl	%eax, %eax
	cmpb	$1, %cl
	leaq	24(%rsp), %rsp
	jne	.Lrekusoyen_page_build_0_1_0.2
	movzbl	%dl, %edi
	jmp	rekusoyen_0_1_0.answers.U32FromRefusal.from
.Lrekusoyen_page_build_0_1_0.2:
	retq
.Lrekusoyen_page_build_0_1_0.func_end:
	.size	rekusoyen_page_build_0_1_0, .Lrekusoyen_page_build_0_1_0.func_end-rekusoyen_page_build_0_1_0
	.section	.text.rekusoyen_put_0_1_0,"ax",@progbits
	.globl	rekusoyen_put_0_1_0
	.hidden	rekusoyen_put_0_1_0
	.p2align	4
	.type	rekusoyen_put_0_1_0,@function
rekusoyen_put_0_1_0:
	pushq	%rbp
	pushq	%r15
	pushq	%r14
	pushq	%r13
	pushq	%r12
	pushq	%rbx
	subq	$312, %rsp
	movq	%r9, %r14
	movq	%r8, %r12
	movq	%rsi, %rbx
	movq	%rdi, %r15
	movq	368(%rsp), %rbp
	xorl	%r13d, %r13d
	testq	%rdi, %rdi
	sete	(%rsp)
	xorl	%esi, %esi
	testq	%rdx, %rdx
	sete	%sil
	shll	$12, %esi
	addq	%rdx, %rsi
	testq	%r9, %r9
	sete	8(%rsp)
	leaq	48(%rsp), %rdi
	movq	%rcx, %rdx
	callq	rekusoyen_0_1_0.guest.maps.from_numbers
	movq	%rbx, 40(%rsp)
	movb	$31, %al
	movabsq	$1099511627776, %rcx
	cmpq	%rcx, %rbx
	ja	.Lrekusoyen_put_0_1_0.19
	movq	48(%rsp), %rcx
	movb	$43, %al
	cmpq	$16, %rcx
	jbe	.Lrekusoyen_put_0_1_0.2
.Lrekusoyen_put_0_1_0.19:
	movzbl	%al, %edi
	addq	$312, %rsp
	popq	%rbx
	popq	%r12
	popq	%r13
	popq	%r14
	popq	%r15
	popq	%rbp
	jmp	rekusoyen_0_1_0.answers.U32FromRefusal.from
.Lrekusoyen_put_0_1_0.2:
	testq	%rcx, %rcx
	je	.Lrekusoyen_put_0_1_0.12
	movq	184(%rsp), %rdx
	testq	%rdx, %rdx
	je	.Lrekusoyen_put_0_1_0.19
	movq	56(%rsp), %rsi
	movq	%rbx, %rdi
	subq	%rsi, %rdi
	setae	%r8b
	cmpq	%rdi, %rdx
	setbe	%dil
	andb	%r8b, %dil
	cmpb	$1, %dil
	jne	.Lrekusoyen_put_0_1_0.19
	cmpq	$1, %rcx
	je	.Lrekusoyen_put_0_1_0.12
	addq	%rsi, %rdx
	leaq	-1(%rcx), %rsi
	xorl	%edi, %edi
	.p2align	4
.Lrekusoyen_put_0_1_0.7:
	movq	64(%rsp,%rdi,8), %r8
	cmpq	%r8, %rdx
	jae	.Lrekusoyen_put_0_1_0.19
	movq	192(%rsp,%rdi,8), %rdx
	testq	%rdx, %rdx
	je	.Lrekusoyen_put_0_1_0.19
	movq	%rbx, %r9
	subq	%r8, %r9
	jb	.Lrekusoyen_put_0_1_0.19
	cmpq	%r9, %rdx
	ja	.Lrekusoyen_put_0_1_0.19
	addq	%r8, %rdx
	incq	%rdi
	cmpq	%rdi, %rsi
	jne	.Lrekusoyen_put_0_1_0.7
.Lrekusoyen_put_0_1_0.12:
	testq	%rbp, %rbp
	je	.Lrekusoyen_put_0_1_0.20
	testq	%rcx, %rcx
	sete	%al
	movq	%rbx, %rdx
	subq	%r12, %rdx
	setb	%sil
	cmpq	%rdx, %rbp
	seta	%dl
	orb	%al, %sil
	orb	%dl, %sil
	movb	$33, %al
	jne	.Lrekusoyen_put_0_1_0.19
	xorl	%edx, %edx
	jmp	.Lrekusoyen_put_0_1_0.15
	.p2align	4
.Lrekusoyen_put_0_1_0.18:
	incq	%rdx
	cmpq	%rdx, %rcx
	je	.Lrekusoyen_put_0_1_0.19
.Lrekusoyen_put_0_1_0.15:
	movq	%r12, %rsi
	subq	56(%rsp,%rdx,8), %rsi
	jb	.Lrekusoyen_put_0_1_0.18
	movq	184(%rsp,%rdx,8), %rdi
	subq	%rsi, %rdi
	jb	.Lrekusoyen_put_0_1_0.18
	cmpq	%rdi, %rbp
	ja	.Lrekusoyen_put_0_1_0.18
.Lrekusoyen_put_0_1_0.20:
	cmpq	%r12, %rbx
	cmovbq	%rbx, %r12
	subq	%r12, %rbx
	cmpq	%rbp, %rbx
	cmovaeq	%rbp, %rbx
	testq	%rbx, %rbx
	je	.Lrekusoyen_put_0_1_0.41
	movzbl	(%rsp), %eax
	movb	%al, %r13b
	shll	$12, %r13d
	leaq	(%r15,%r13), %rbp
	xorl	%edx, %edx
	movzbl	8(%rsp), %eax
	movb	%al, %dl
	shll	$12, %edx
	leaq	(%r14,%rdx), %rax
	addq	%r12, %rbp
	addq	%r12, %r13
	leaq	(%r15,%r13), %r12
	movq	%r12, (%rsp)
	subq	%rax, %r12
	leaq	(%rdx,%r14), %rcx
	addq	$16, %rcx
	movq	%rcx, 24(%rsp)
	leaq	16(%r15,%r13), %rcx
	movq	%rcx, 16(%rsp)
	leaq	3(%rdx,%r14), %rcx
	movq	%rcx, 8(%rsp)
	leaq	(%r15,%r13), %rcx
	addq	$3, %rcx
	movq	%rcx, 32(%rsp)
	movq	%rax, %r13
	xorl	%r15d, %r15d
	jmp	.Lrekusoyen_put_0_1_0.22
	.p2align	4
.Lrekusoyen_put_0_1_0.42:
	movq	%r14, %rdx
	callq	memmove@PLT
.Lrekusoyen_put_0_1_0.40:
	addq	%r14, %r15
	cmpq	%rbx, %r15
	jae	.Lrekusoyen_put_0_1_0.41
.Lrekusoyen_put_0_1_0.22:
	movq	%rbx, %rcx
	subq	%r15, %rcx
	cmpq	$2048, %rcx
	movl	$2048, %r14d
	cmovbq	%rcx, %r14
	leaq	(%r15,%rbp), %rdi
	leaq	(%r15,%r13), %rsi
	movq	%rdi, %rax
	subq	%rsi, %rax
	cmpq	%r14, %rax
	jae	.Lrekusoyen_put_0_1_0.42
	xorl	%eax, %eax
	cmpq	$4, %rcx
	jb	.Lrekusoyen_put_0_1_0.34
	cmpq	$32, %r12
	jb	.Lrekusoyen_put_0_1_0.34
	cmpq	$32, %rcx
	jae	.Lrekusoyen_put_0_1_0.27
	xorl	%eax, %eax
	jmp	.Lrekusoyen_put_0_1_0.31
.Lrekusoyen_put_0_1_0.27:
	movl	%r14d, %eax
	andl	$4064, %eax
	movq	24(%rsp), %rcx
	addq	%r15, %rcx
	movq	16(%rsp), %rdx
	addq	%r15, %rdx
	xorl	%edi, %edi
	.p2align	4
.Lrekusoyen_put_0_1_0.28:
	movups	-16(%rcx,%rdi), %xmm0
	movups	(%rcx,%rdi), %xmm1
	movups	%xmm0, -16(%rdx,%rdi)
	movups	%xmm1, (%rdx,%rdi)
	addq	$32, %rdi
	cmpq	%rdi, %rax
	jne	.Lrekusoyen_put_0_1_0.28
	cmpq	%rax, %r14
	je	.Lrekusoyen_put_0_1_0.40
	testb	$28, %r14b
	je	.Lrekusoyen_put_0_1_0.34
.Lrekusoyen_put_0_1_0.31:
	movq	%rax, %rcx
	movl	%r14d, %eax
	andl	$4092, %eax
	movq	%rax, %rdx
	subq	%rcx, %rdx
	addq	%r15, %rcx
	leaq	(%rcx,%r13), %rdi
	addq	(%rsp), %rcx
	xorl	%r8d, %r8d
	.p2align	4
.Lrekusoyen_put_0_1_0.32:
	movl	(%rdi,%r8), %r9d
	movl	%r9d, (%rcx,%r8)
	addq	$4, %r8
	cmpq	%r8, %rdx
	jne	.Lrekusoyen_put_0_1_0.32
	cmpq	%rax, %r14
	je	.Lrekusoyen_put_0_1_0.40
.Lrekusoyen_put_0_1_0.34:
	movq	%r14, %rdx
	movq	%rax, %rcx
	andq	$3, %rdx
	je	.Lrekusoyen_put_0_1_0.37
	leaq	(%rax,%r15), %rdi
	addq	(%rsp), %rdi
	xorl	%r8d, %r8d
	movq	%rax, %rcx
	.p2align	4
.Lrekusoyen_put_0_1_0.36:
	movzbl	(%rsi,%rcx), %r9d
	movb	%r9b, (%rdi,%r8)
	incq	%rcx
	incq	%r8
	cmpq	%r8, %rdx
	jne	.Lrekusoyen_put_0_1_0.36
.Lrekusoyen_put_0_1_0.37:
	subq	%r14, %rax
	cmpq	$-4, %rax
	ja	.Lrekusoyen_put_0_1_0.40
	movq	%r14, %rax
	subq	%rcx, %rax
	addq	%r15, %rcx
	movq	8(%rsp), %rdx
	addq	%rcx, %rdx
	addq	32(%rsp), %rcx
	xorl	%esi, %esi
	.p2align	4
.Lrekusoyen_put_0_1_0.39:
	movzbl	-3(%rdx,%rsi), %edi
	movb	%dil, -3(%rcx,%rsi)
	movzbl	-2(%rdx,%rsi), %edi
	movb	%dil, -2(%rcx,%rsi)
	movzbl	-1(%rdx,%rsi), %edi
	movb	%dil, -1(%rcx,%rsi)
	movzbl	(%rdx,%rsi), %edi
	movb	%dil, (%rcx,%rsi)
	addq	$4, %rsi
	cmpq	%rsi, %rax
	jne	.Lrekusoyen_put_0_1_0.39
	jmp	.Lrekusoyen_put_0_1_0.40
.Lrekusoyen_put_0_1_0.41:
	xorl	%eax, %eax
	addq	$312, %rsp
	popq	%rbx
	popq	%r12
	popq	%r13
	popq	%r14
	popq	%r15
	popq	%rbp
	retq
.Lrekusoyen_put_0_1_0.func_end:
	.size	rekusoyen_put_0_1_0, .Lrekusoyen_put_0_1_0.func_end-rekusoyen_put_0_1_0
	.section	.text.rekusoyen_raw_begin_0_1_0,"ax",@progbits
	.globl	rekusoyen_raw_begin_0_1_0
	.hidden	rekusoyen_raw_begin_0_1_0
	.p2align	4
	.type	rekusoyen_raw_begin_0_1_0,@function
rekusoyen_raw_begin_0_1_0:
	xorl	%eax, %eax
	testq	%rdi, %rdi
	sete	%r10b
	movb	$33, %r11b
	cmpq	$50, %rsi
	jne	.Lrekusoyen_raw_begin_0_1_0.3
	leal	-1(%rdx), %esi
	movb	$32, %r11b
	cmpl	$3, %esi
	jae	.Lrekusoyen_raw_begin_0_1_0.3
	movb	%r10b, %al
	shll	$12, %eax
	addq	%rax, %rdi
	xorl	%eax, %eax
	cmpl	$2, %edx
	sete	%al
	movl	%ecx, %esi
	andl	$1, %esi
	andl	$2, %ecx
	movl	%ecx, %r10d
	shrl	%r10d
	xorl	%r11d, %r11d
	testl	%esi, %esi
	cmoveq	%r11, %r8
	testl	%ecx, %ecx
	cmoveq	%r11, %r9
	xorq	$3, %rax
	cmpl	$1, %edx
	xorps	%xmm0, %xmm0
	movups	%xmm0, 32(%rdi)
	movups	%xmm0, 16(%rdi)
	movups	%xmm0, (%rdi)
	movq	%rsi, 48(%rdi)
	movq	%r8, 56(%rdi)
	movq	%r10, 64(%rdi)
	movq	%r9, 72(%rdi)
	movups	%xmm0, 80(%rdi)
	movups	%xmm0, 96(%rdi)
	movups	%xmm0, 112(%rdi)
	movups	%xmm0, 128(%rdi)
	movups	%xmm0, 144(%rdi)
	movups	%xmm0, 160(%rdi)
	movups	%xmm0, 176(%rdi)
	movups	%xmm0, 192(%rdi)
	movups	%xmm0, 208(%rdi)
	movups	%xmm0, 224(%rdi)
	movups	%xmm0, 240(%rdi)
	movups	%xmm0, 256(%rdi)
	movups	%xmm0, 272(%rdi)
	movups	%xmm0, 288(%rdi)
	movups	%xmm0, 304(%rdi)
	movups	%xmm0, 320(%rdi)
	movl	$1, %ecx
	cmovneq	%rax, %rcx
	leaq	336(%rdi), %rax
	leaq	-8(%rsp), %rdx
	negq	%rdx
	addq	%rdi, %rdx
	addq	$336, %rdx
	cmpq	$7, %rdx
	movq	%rcx, (%rax)
	movq	$63, 344(%rdi)
	movups	%xmm0, 352(%rdi)
	movups	%xmm0, 368(%rdi)
	movups	%xmm0, 384(%rdi)
	xorl	%eax, %eax
	retq
.Lrekusoyen_raw_begin_0_1_0.3:
	movzbl	%r11b, %edi
	jmp	rekusoyen_0_1_0.answers.U32FromRefusal.from
.Lrekusoyen_raw_begin_0_1_0.func_end:
	.size	rekusoyen_raw_begin_0_1_0, .Lrekusoyen_raw_begin_0_1_0.func_end-rekusoyen_raw_begin_0_1_0
	.section	.text.rekusoyen_raw_boot_pvh_0_1_0,"ax",@progbits
	.globl	rekusoyen_raw_boot_pvh_0_1_0
	.hidden	rekusoyen_raw_boot_pvh_0_1_0
	.p2align	4
	.type	rekusoyen_raw_boot_pvh_0_1_0,@function
rekusoyen_raw_boot_pvh_0_1_0:
	pushq	%rbp
	pushq	%r15
	pushq	%r14
	pushq	%r13
	pushq	%r12
	pushq	%rbx
	subq	$1272, %rsp
	movq	%r9, 192(%rsp)
	movq	%rcx, 104(%rsp)
	movq	%rsi, 200(%rsp)
	movq	1384(%rsp), %rcx
	movq	1368(%rsp), %rax
	testq	%rdi, %rdi
	sete	184(%rsp)
	xorl	%r14d, %r14d
	testq	%rdx, %rdx
	sete	%bpl
	xorl	%ebx, %ebx
	movq	%r8, %r10
	testq	%r8, %r8
	sete	%r13b
	xorl	%r8d, %r8d
	movq	%rax, 120(%rsp)
	testq	%rax, %rax
	sete	%r15b
	xorl	%eax, %eax
	movq	%rcx, 112(%rsp)
	testq	%rcx, %rcx
	sete	88(%rsp)
	movq	1400(%rsp), %rsi
	movq	%rsi, 248(%rsp)
	testq	%rsi, %rsi
	sete	87(%rsp)
	movq	1416(%rsp), %r9
	xorl	%esi, %esi
	movq	%r9, 208(%rsp)
	testq	%r9, %r9
	sete	%cl
	movq	1464(%rsp), %r9
	movq	%r9, 256(%rsp)
	testq	%r9, %r9
	sete	176(%rsp)
	cmpq	$7, 1472(%rsp)
	movb	$33, %r12b
	jne	.Lrekusoyen_raw_boot_pvh_0_1_0.2
	movl	1328(%rsp), %r11d
	leal	-1(%r11), %r9d
	movb	$32, %r12b
	cmpl	$3, %r9d
	jae	.Lrekusoyen_raw_boot_pvh_0_1_0.2
	movq	%rdi, 224(%rsp)
	movq	1456(%rsp), %rdi
	movq	%rdi, 232(%rsp)
	movl	1448(%rsp), %edi
	movl	%edi, 100(%rsp)
	movq	1440(%rsp), %rdi
	movq	%rdi, 168(%rsp)
	movq	1432(%rsp), %rdi
	movq	%rdi, 152(%rsp)
	movq	1424(%rsp), %rdi
	movq	%rdi, 240(%rsp)
	movq	1408(%rsp), %rdi
	movq	%rdi, 160(%rsp)
	movb	%bpl, %r14b
	movq	1392(%rsp), %rdi
	movq	%rdi, 144(%rsp)
	shll	$12, %r14d
	addq	%r14, %rdx
	movq	1376(%rsp), %rdi
	movq	%rdi, 136(%rsp)
	movb	%r13b, %bl
	shll	$12, %ebx
	addq	%rbx, %r10
	movq	%r10, 128(%rsp)
	movl	1336(%rsp), %r14d
	movb	%r15b, %r8b
	shll	$12, %r8d
	addq	%r8, 120(%rsp)
	movzbl	88(%rsp), %edi
	movb	%dil, %al
	shll	$12, %eax
	addq	%rax, 112(%rsp)
	movb	%cl, %sil
	shll	$12, %esi
	addq	%rsi, 208(%rsp)
	cmpl	$2, %r11d
	sete	%al
	movb	$2, %cl
	subb	%al, %cl
	xorl	%r15d, %r15d
	cmpl	$1, %r11d
	movzbl	%cl, %eax
	cmovel	%r15d, %eax
	movl	%eax, 88(%rsp)
	movl	%r14d, %ebx
	andl	$1, %ebx
	movq	1344(%rsp), %r12
	cmoveq	%r15, %r12
	movl	%r14d, %eax
	andl	$2, %eax
	movl	%eax, %r13d
	shrl	%r13d
	testl	%eax, %eax
	movl	1360(%rsp), %eax
	movl	%eax, 220(%rsp)
	cmovneq	1352(%rsp), %r15
	leaq	736(%rsp), %rdi
	movq	%rdx, %rsi
	movq	104(%rsp), %rdx
	callq	rekusoyen_0_1_0.guest.maps.from_numbers
	movl	%r14d, %ebp
	shll	$29, %ebp
	sarl	$31, %ebp
	andl	220(%rsp), %ebp
	andl	$4, %r14d
	shrl	$2, %r14d
	movl	88(%rsp), %eax
	movb	%al, 264(%rsp)
	movl	$0, 265(%rsp)
	movl	$0, 268(%rsp)
	movq	%rbx, 272(%rsp)
	movq	%r12, 280(%rsp)
	movq	120(%rsp), %r12
	movq	%r13, 288(%rsp)
	movq	240(%rsp), %rbx
	movq	232(%rsp), %rcx
	movq	%r15, 296(%rsp)
	movq	112(%rsp), %r15
	movq	208(%rsp), %r13
	movq	152(%rsp), %rax
	movq	%rax, 368(%rsp)
	movq	168(%rsp), %rax
	movq	%rax, 376(%rsp)
	movl	100(%rsp), %eax
	movl	%eax, 384(%rsp)
	movl	$0, 388(%rsp)
	movq	%rcx, 392(%rsp)
	xorps	%xmm0, %xmm0
	movaps	%xmm0, 304(%rsp)
	movaps	%xmm0, 320(%rsp)
	movaps	%xmm0, 336(%rsp)
	movaps	%xmm0, 352(%rsp)
	leaq	1008(%rsp), %rdi
	movl	$264, %edx
	leaq	736(%rsp), %rsi
	callq	memcpy@PLT
	movq	200(%rsp), %rax
	movq	%rax, 1000(%rsp)
	movq	%rbx, 64(%rsp)
	movq	%r13, 56(%rsp)
	movq	160(%rsp), %rax
	movq	%rax, 48(%rsp)
	leaq	368(%rsp), %rax
	movq	%rax, 40(%rsp)
	movq	144(%rsp), %rax
	movq	%rax, 32(%rsp)
	movq	%r15, 24(%rsp)
	movq	136(%rsp), %rax
	movq	%rax, 16(%rsp)
	movq	%r12, 8(%rsp)
	movl	%ebp, (%rsp)
	leaq	304(%rsp), %rdi
	leaq	1000(%rsp), %rsi
	leaq	264(%rsp), %r8
	movq	128(%rsp), %rdx
	movq	192(%rsp), %rbp
	movq	%rbp, %rcx
	movl	%r14d, %r9d
	callq	rekusoyen_0_1_0.boot.pvh.plan
	cmpb	$0, 304(%rsp)
	je	.Lrekusoyen_raw_boot_pvh_0_1_0.5
	movzbl	305(%rsp), %edi
	jmp	.Lrekusoyen_raw_boot_pvh_0_1_0.3
.Lrekusoyen_raw_boot_pvh_0_1_0.2:
	movzbl	%r12b, %edi
.Lrekusoyen_raw_boot_pvh_0_1_0.3:
	addq	$1272, %rsp
	popq	%rbx
	popq	%r12
	popq	%r13
	popq	%r14
	popq	%r15
	popq	%rbp
	jmp	rekusoyen_0_1_0.answers.U32FromRefusal.from
.Lrekusoyen_raw_boot_pvh_0_1_0.5:
	xorl	%ecx, %ecx
	movzbl	184(%rsp), %eax
	movb	%al, %cl
	shll	$12, %ecx
	movq	224(%rsp), %rax
	movq	%rcx, 88(%rsp)
	addq	%rcx, %rax
	movq	%rax, 104(%rsp)
	xorl	%r14d, %r14d
	movzbl	176(%rsp), %eax
	movb	%al, %r14b
	xorps	%xmm0, %xmm0
	movaps	%xmm0, 400(%rsp)
	movaps	%xmm0, 416(%rsp)
	movaps	%xmm0, 432(%rsp)
	movq	$0, 448(%rsp)
	leaq	472(%rsp), %rdi
	leaq	736(%rsp), %rsi
	movl	$264, %edx
	callq	memcpy@PLT
	movq	200(%rsp), %rbx
	movq	%rbx, 464(%rsp)
	leaq	400(%rsp), %rdi
	leaq	464(%rsp), %rsi
	leaq	264(%rsp), %r8
	movq	128(%rsp), %rdx
	movq	%rbp, %rcx
	callq	rekusoyen_0_1_0.loads.formats.plan
	cmpb	$0, 400(%rsp)
	jne	.Lrekusoyen_raw_boot_pvh_0_1_0.7
	leaq	264(%rsp), %r8
	movq	104(%rsp), %rdi
	movq	%rbx, %rsi
	movq	128(%rsp), %rdx
	movq	%rbp, %rcx
	callq	rekusoyen_0_1_0.loads.copying.copy_all
.Lrekusoyen_raw_boot_pvh_0_1_0.7:
	shll	$12, %r14d
	movq	%r14, 176(%rsp)
	leaq	472(%rsp), %rdi
	leaq	736(%rsp), %rsi
	movl	$264, %edx
	callq	memcpy@PLT
	movq	%rbx, 464(%rsp)
	leaq	464(%rsp), %rdi
	movq	152(%rsp), %r12
	movq	%r12, %rsi
	movq	120(%rsp), %rbp
	movq	%rbp, %rdx
	movq	136(%rsp), %rcx
	movq	112(%rsp), %r13
	movq	%r13, %r8
	movq	144(%rsp), %r9
	callq	rekusoyen_0_1_0.loader.plan_texts
	testb	%al, %al
	movq	168(%rsp), %r14
	movq	160(%rsp), %r15
	jne	.Lrekusoyen_raw_boot_pvh_0_1_0.9
	cmpq	%r12, %rbx
	cmovbq	%rbx, %r12
	movq	104(%rsp), %rcx
	leaq	(%rcx,%r12), %rdi
	movq	%rbx, %rsi
	subq	%r12, %rsi
	movq	%rbp, %rdx
	movq	136(%rsp), %rcx
	movq	%r13, %r8
	movq	144(%rsp), %r9
	callq	rekusoyen_0_1_0.cmdline.writing.write
.Lrekusoyen_raw_boot_pvh_0_1_0.9:
	cmpq	%r14, %rbx
	movq	%r14, %rax
	cmovbq	%rbx, %rax
	subq	%rax, %rbx
	cmpq	%r15, %rbx
	cmovaeq	%r15, %rbx
	testq	%rbx, %rbx
	movl	100(%rsp), %r10d
	je	.Lrekusoyen_raw_boot_pvh_0_1_0.30
	xorl	%esi, %esi
	movzbl	87(%rsp), %ecx
	movb	%cl, %sil
	shll	$12, %esi
	movq	248(%rsp), %rdx
	leaq	(%rdx,%rsi), %r12
	movq	104(%rsp), %rcx
	leaq	(%rcx,%rax), %r13
	movq	88(%rsp), %rcx
	addq	%rax, %rcx
	movq	224(%rsp), %rax
	leaq	(%rax,%rcx), %rbp
	movq	%rbp, 112(%rsp)
	subq	%r12, %rbp
	leaq	(%rsi,%rdx), %rdi
	addq	$16, %rdi
	movq	%rdi, 88(%rsp)
	leaq	16(%rax,%rcx), %rdi
	movq	%rdi, 184(%rsp)
	leaq	3(%rsi,%rdx), %rdx
	movq	%rdx, 120(%rsp)
	addq	%rcx, %rax
	addq	$3, %rax
	movq	%rax, 192(%rsp)
	xorl	%r15d, %r15d
	jmp	.Lrekusoyen_raw_boot_pvh_0_1_0.11
	.p2align	4
.Lrekusoyen_raw_boot_pvh_0_1_0.36:
	movq	%r14, %rdx
	callq	memmove@PLT
	movl	100(%rsp), %r10d
.Lrekusoyen_raw_boot_pvh_0_1_0.29:
	addq	%r14, %r15
	cmpq	%rbx, %r15
	jae	.Lrekusoyen_raw_boot_pvh_0_1_0.30
.Lrekusoyen_raw_boot_pvh_0_1_0.11:
	movq	%rbx, %rcx
	subq	%r15, %rcx
	cmpq	$2048, %rcx
	movl	$2048, %r14d
	cmovbq	%rcx, %r14
	leaq	(%r15,%r13), %rdi
	leaq	(%r12,%r15), %rsi
	movq	%rdi, %rax
	subq	%rsi, %rax
	cmpq	%r14, %rax
	jae	.Lrekusoyen_raw_boot_pvh_0_1_0.36
	xorl	%eax, %eax
	cmpq	$4, %rcx
	jb	.Lrekusoyen_raw_boot_pvh_0_1_0.23
	cmpq	$32, %rbp
	jb	.Lrekusoyen_raw_boot_pvh_0_1_0.23
	cmpq	$32, %rcx
	jae	.Lrekusoyen_raw_boot_pvh_0_1_0.16
	xorl	%eax, %eax
	jmp	.Lrekusoyen_raw_boot_pvh_0_1_0.20
.Lrekusoyen_raw_boot_pvh_0_1_0.16:
	movl	%r14d, %eax
	andl	$4064, %eax
	movq	88(%rsp), %rcx
	addq	%r15, %rcx
	movq	184(%rsp), %rdx
	addq	%r15, %rdx
	xorl	%edi, %edi
	.p2align	4
.Lrekusoyen_raw_boot_pvh_0_1_0.17:
	movups	-16(%rcx,%rdi), %xmm0
	movups	(%rcx,%rdi), %xmm1
	movups	%xmm0, -16(%rdx,%rdi)
	movups	%xmm1, (%rdx,%rdi)
	addq	$32, %rdi
	cmpq	%rdi, %rax
	jne	.Lrekusoyen_raw_boot_pvh_0_1_0.17
	cmpq	%rax, %r14
	je	.Lrekusoyen_raw_boot_pvh_0_1_0.29
	testb	$28, %r14b
	je	.Lrekusoyen_raw_boot_pvh_0_1_0.23
.Lrekusoyen_raw_boot_pvh_0_1_0.20:
	movq	%rax, %rcx
	movl	%r14d, %eax
	andl	$4092, %eax
	movq	%rax, %rdx
	subq	%rcx, %rdx
	addq	%r15, %rcx
	leaq	(%r12,%rcx), %rdi
	addq	112(%rsp), %rcx
	xorl	%r8d, %r8d
	.p2align	4
.Lrekusoyen_raw_boot_pvh_0_1_0.21:
	movl	(%rdi,%r8), %r9d
	movl	%r9d, (%rcx,%r8)
	addq	$4, %r8
	cmpq	%r8, %rdx
	jne	.Lrekusoyen_raw_boot_pvh_0_1_0.21
	cmpq	%rax, %r14
	je	.Lrekusoyen_raw_boot_pvh_0_1_0.29
.Lrekusoyen_raw_boot_pvh_0_1_0.23:
	movq	%r14, %rdx
	movq	%rax, %rcx
	andq	$3, %rdx
	je	.Lrekusoyen_raw_boot_pvh_0_1_0.26
	leaq	(%rax,%r15), %rdi
	addq	112(%rsp), %rdi
	xorl	%r8d, %r8d
	movq	%rax, %rcx
	.p2align	4
.Lrekusoyen_raw_boot_pvh_0_1_0.25:
	movzbl	(%rsi,%rcx), %r9d
	movb	%r9b, (%rdi,%r8)
	incq	%rcx
	incq	%r8
	cmpq	%r8, %rdx
	jne	.Lrekusoyen_raw_boot_pvh_0_1_0.25
.Lrekusoyen_raw_boot_pvh_0_1_0.26:
	subq	%r14, %rax
	cmpq	$-4, %rax
	ja	.Lrekusoyen_raw_boot_pvh_0_1_0.29
	movq	%r14, %rax
	subq	%rcx, %rax
	addq	%r15, %rcx
	movq	120(%rsp), %rdx
	addq	%rcx, %rdx
	addq	192(%rsp), %rcx
	xorl	%esi, %esi
	.p2align	4
.Lrekusoyen_raw_boot_pvh_0_1_0.28:
	movzbl	-3(%rdx,%rsi), %edi
	movb	%dil, -3(%rcx,%rsi)
	movzbl	-2(%rdx,%rsi), %edi
	movb	%dil, -2(%rcx,%rsi)
	movzbl	-1(%rdx,%rsi), %edi
	movb	%dil, -1(%rcx,%rsi)
	movzbl	(%rdx,%rsi), %edi
	movb	%dil, (%rcx,%rsi)
	addq	$4, %rsi
	cmpq	%rsi, %rax
	jne	.Lrekusoyen_raw_boot_pvh_0_1_0.28
	jmp	.Lrekusoyen_raw_boot_pvh_0_1_0.29
.Lrekusoyen_raw_boot_pvh_0_1_0.30:
	movq	256(%rsp), %rbx
	addq	176(%rsp), %rbx
	movl	%r10d, %eax
	xorl	%r9d, %r9d
	movq	160(%rsp), %rsi
	testq	%rsi, %rsi
	leaq	.Lrekusoyen_0_1_0.static.19(%rip), %rcx
	leaq	400(%rsp), %r8
	cmoveq	%rcx, %r8
	setne	%r9b
	movl	%r9d, %ecx
	shll	$5, %ecx
	leaq	56(%rax), %rdx
	addq	%rax, %rcx
	addq	$56, %rcx
	movq	%rax, 464(%rsp)
	movq	%rdx, 472(%rsp)
	movq	%rcx, 480(%rsp)
	movq	$0, 488(%rsp)
	movq	152(%rsp), %rax
	movq	%rax, 496(%rsp)
	movq	232(%rsp), %rax
	movq	%rax, 504(%rsp)
	movq	168(%rsp), %rax
	movq	%rax, 400(%rsp)
	movq	%rsi, 408(%rsp)
	xorps	%xmm0, %xmm0
	movups	%xmm0, 416(%rsp)
	shll	$2, %r9d
	movq	240(%rsp), %rax
	movq	%rax, 8(%rsp)
	movq	208(%rsp), %rax
	movq	%rax, (%rsp)
	leaq	736(%rsp), %rdx
	leaq	464(%rsp), %r14
	movq	104(%rsp), %rdi
	movq	200(%rsp), %rsi
	movq	%r14, %rcx
	callq	rekusoyen_0_1_0.start_info.write
	movups	312(%rsp), %xmm0
	movzbl	328(%rsp), %eax
	testl	%eax, %eax
	je	.Lrekusoyen_raw_boot_pvh_0_1_0.34
	cmpl	$2, %eax
	jne	.Lrekusoyen_raw_boot_pvh_0_1_0.33
	xorl	%eax, %eax
	xorl	%ecx, %ecx
	xorps	%xmm1, %xmm1
	jmp	.Lrekusoyen_raw_boot_pvh_0_1_0.35
.Lrekusoyen_raw_boot_pvh_0_1_0.34:
	movaps	336(%rsp), %xmm1
	movq	352(%rsp), %rcx
	movl	$2, %eax
	jmp	.Lrekusoyen_raw_boot_pvh_0_1_0.35
.Lrekusoyen_raw_boot_pvh_0_1_0.33:
	xorps	%xmm1, %xmm1
	movl	$1, %eax
	xorl	%ecx, %ecx
.Lrekusoyen_raw_boot_pvh_0_1_0.35:
	movq	360(%rsp), %rdx
	movups	%xmm0, (%rbx)
	movq	%rax, 16(%rbx)
	movups	%xmm1, 24(%rbx)
	movq	%rcx, 40(%rbx)
	negq	%r14
	leaq	(%rbx,%r14), %rax
	addq	$48, %rax
	addq	$48, %rbx
	cmpq	$7, %rax
	movq	%rdx, (%rbx)
	xorl	%eax, %eax
	addq	$1272, %rsp
	popq	%rbx
	popq	%r12
	popq	%r13
	popq	%r14
	popq	%r15
	popq	%rbp
	retq
.Lrekusoyen_raw_boot_pvh_0_1_0.func_end:
	.size	rekusoyen_raw_boot_pvh_0_1_0, .Lrekusoyen_raw_boot_pvh_0_1_0.func_end-rekusoyen_raw_boot_pvh_0_1_0
	.section	.text.rekusoyen_raw_boot_pvh_plan_0_1_0,"ax",@progbits
	.globl	rekusoyen_raw_boot_pvh_plan_0_1_0
	.hidden	rekusoyen_raw_boot_pvh_plan_0_1_0
	.p2align	4
	.type	rekusoyen_raw_boot_pvh_plan_0_1_0,@function
rekusoyen_raw_boot_pvh_plan_0_1_0:
	pushq	%rbp
	pushq	%r15
	pushq	%r14
	pushq	%r13
	pushq	%r12
	pushq	%rbx
	subq	$616, %rsp
	movq	%r9, 88(%rsp)
	movq	%r8, 192(%rsp)
	movq	%rdx, 168(%rsp)
	movq	%rdi, 184(%rsp)
	movq	744(%rsp), %r14
	movq	720(%rsp), %r13
	movq	704(%rsp), %rax
	xorl	%r8d, %r8d
	testq	%rsi, %rsi
	sete	%r9b
	xorl	%edx, %edx
	testq	%rcx, %rcx
	sete	%dil
	xorl	%r12d, %r12d
	movq	%rax, 176(%rsp)
	testq	%rax, %rax
	sete	77(%rsp)
	xorl	%r15d, %r15d
	testq	%r13, %r13
	sete	78(%rsp)
	xorl	%r11d, %r11d
	testq	%r14, %r14
	sete	79(%rsp)
	movq	792(%rsp), %rax
	movq	%rax, 96(%rsp)
	testq	%rax, %rax
	xorps	%xmm0, %xmm0
	movq	784(%rsp), %rax
	movq	%rax, 136(%rsp)
	movl	776(%rsp), %eax
	movl	%eax, 84(%rsp)
	movq	768(%rsp), %rax
	movq	%rax, 120(%rsp)
	movq	760(%rsp), %rax
	movq	%rax, 112(%rsp)
	movq	752(%rsp), %rax
	movq	%rax, 128(%rsp)
	movq	736(%rsp), %rax
	movq	%rax, 144(%rsp)
	movq	728(%rsp), %rax
	movq	%rax, 152(%rsp)
	movq	712(%rsp), %rax
	movq	%rax, 160(%rsp)
	movl	696(%rsp), %eax
	movl	%eax, 80(%rsp)
	movq	688(%rsp), %rax
	movq	%rax, 104(%rsp)
	movq	680(%rsp), %r10
	movl	672(%rsp), %ebx
	movq	800(%rsp), %rbp
	movaps	%xmm0, 288(%rsp)
	movaps	%xmm0, 272(%rsp)
	movaps	%xmm0, 256(%rsp)
	movaps	%xmm0, 240(%rsp)
	sete	76(%rsp)
	movb	$33, %al
	cmpq	$7, %rbp
	jne	.Lrekusoyen_raw_boot_pvh_plan_0_1_0.4
	movq	88(%rsp), %rax
	leal	-1(%rax), %ebp
	movb	$32, %al
	cmpl	$3, %ebp
	jae	.Lrekusoyen_raw_boot_pvh_plan_0_1_0.4
	movb	%r9b, %r8b
	shll	$12, %r8d
	addq	%r8, %rsi
	movb	%dil, %dl
	shll	$12, %edx
	addq	%rdx, %rcx
	movzbl	77(%rsp), %eax
	movb	%al, %r12b
	shll	$12, %r12d
	movq	176(%rsp), %rbp
	addq	%r12, %rbp
	movzbl	78(%rsp), %eax
	movb	%al, %r15b
	shll	$12, %r15d
	addq	%r15, %r13
	movzbl	79(%rsp), %eax
	movb	%al, %r11b
	shll	$12, %r11d
	addq	%r11, %r14
	movq	88(%rsp), %rdi
	cmpl	$2, %edi
	sete	%al
	movb	$2, %dl
	subb	%al, %dl
	xorl	%eax, %eax
	cmpl	$1, %edi
	movzbl	%dl, %edx
	cmovel	%eax, %edx
	movl	%ebx, %edi
	andl	$1, %edi
	cmoveq	%rax, %r10
	movl	%ebx, %r8d
	andl	$2, %r8d
	movl	%r8d, %r9d
	shrl	%r9d
	testl	%r8d, %r8d
	movq	104(%rsp), %r8
	cmoveq	%rax, %r8
	movb	%dl, 200(%rsp)
	movl	$0, 201(%rsp)
	movl	$0, 204(%rsp)
	movq	%rdi, 208(%rsp)
	movq	%r10, 216(%rsp)
	movq	%r9, 224(%rsp)
	movq	%r8, 232(%rsp)
	leaq	352(%rsp), %rdi
	movq	168(%rsp), %rdx
	movq	%rcx, %r15
	callq	rekusoyen_0_1_0.guest.maps.from_numbers
	movq	184(%rsp), %rax
	movq	%rax, 344(%rsp)
	movl	%ebx, %eax
	shll	$29, %eax
	sarl	$31, %eax
	andl	80(%rsp), %eax
	andl	$4, %ebx
	shrl	$2, %ebx
	movq	112(%rsp), %rcx
	movq	%rcx, 304(%rsp)
	movq	120(%rsp), %rcx
	movq	%rcx, 312(%rsp)
	movl	84(%rsp), %ecx
	movl	%ecx, 320(%rsp)
	movl	$0, 324(%rsp)
	movq	136(%rsp), %rcx
	movq	%rcx, 328(%rsp)
	movq	128(%rsp), %rcx
	movq	%rcx, 64(%rsp)
	movq	%r14, 56(%rsp)
	movq	144(%rsp), %rcx
	movq	%rcx, 48(%rsp)
	leaq	304(%rsp), %rcx
	movq	%rcx, 40(%rsp)
	movq	152(%rsp), %rcx
	movq	%rcx, 32(%rsp)
	movq	%r13, 24(%rsp)
	movq	160(%rsp), %rcx
	movq	%rcx, 16(%rsp)
	movq	%rbp, 8(%rsp)
	movl	%eax, (%rsp)
	leaq	240(%rsp), %rdi
	leaq	344(%rsp), %rsi
	leaq	200(%rsp), %r8
	movq	%r15, %rdx
	movq	192(%rsp), %rcx
	movl	%ebx, %r9d
	callq	rekusoyen_0_1_0.boot.pvh.plan
	cmpb	$0, 240(%rsp)
	je	.Lrekusoyen_raw_boot_pvh_plan_0_1_0.6
	movzbl	241(%rsp), %edi
	jmp	.Lrekusoyen_raw_boot_pvh_plan_0_1_0.5
.Lrekusoyen_raw_boot_pvh_plan_0_1_0.4:
	movzbl	%al, %edi
.Lrekusoyen_raw_boot_pvh_plan_0_1_0.5:
	addq	$616, %rsp
	popq	%rbx
	popq	%r12
	popq	%r13
	popq	%r14
	popq	%r15
	popq	%rbp
	jmp	rekusoyen_0_1_0.answers.U32FromRefusal.from
.Lrekusoyen_raw_boot_pvh_plan_0_1_0.6:
	xorl	%eax, %eax
	movzbl	76(%rsp), %ecx
	movb	%cl, %al
	shll	$12, %eax
	movq	96(%rsp), %rsi
	addq	%rax, %rsi
	movups	248(%rsp), %xmm0
	movzbl	264(%rsp), %eax
	testl	%eax, %eax
	je	.Lrekusoyen_raw_boot_pvh_plan_0_1_0.9
	xorps	%xmm1, %xmm1
	cmpl	$2, %eax
	jne	.Lrekusoyen_raw_boot_pvh_plan_0_1_0.10
	xorl	%eax, %eax
	jmp	.Lrekusoyen_raw_boot_pvh_plan_0_1_0.11
.Lrekusoyen_raw_boot_pvh_plan_0_1_0.9:
	movaps	272(%rsp), %xmm1
	movq	288(%rsp), %rcx
	movl	$2, %eax
	jmp	.Lrekusoyen_raw_boot_pvh_plan_0_1_0.12
.Lrekusoyen_raw_boot_pvh_plan_0_1_0.10:
	movl	$1, %eax
.Lrekusoyen_raw_boot_pvh_plan_0_1_0.11:
	xorl	%ecx, %ecx
.Lrekusoyen_raw_boot_pvh_plan_0_1_0.12:
	movq	296(%rsp), %rdx
	movups	%xmm0, (%rsi)
	movq	%rax, 16(%rsi)
	movups	%xmm1, 24(%rsi)
	movq	%rcx, 40(%rsi)
	leaq	336(%rsp), %rax
	negq	%rax
	addq	%rsi, %rax
	addq	$48, %rax
	addq	$48, %rsi
	cmpq	$7, %rax
	movq	%rdx, (%rsi)
	xorl	%eax, %eax
	addq	$616, %rsp
	popq	%rbx
	popq	%r12
	popq	%r13
	popq	%r14
	popq	%r15
	popq	%rbp
	retq
.Lrekusoyen_raw_boot_pvh_plan_0_1_0.func_end:
	.size	rekusoyen_raw_boot_pvh_plan_0_1_0, .Lrekusoyen_raw_boot_pvh_plan_0_1_0.func_end-rekusoyen_raw_boot_pvh_plan_0_1_0
	.section	.text.rekusoyen_raw_boot_tree_0_1_0,"ax",@progbits
	.globl	rekusoyen_raw_boot_tree_0_1_0
	.hidden	rekusoyen_raw_boot_tree_0_1_0
	.p2align	4
	.type	rekusoyen_raw_boot_tree_0_1_0,@function
rekusoyen_raw_boot_tree_0_1_0:
	pushq	%rbp
	pushq	%r15
	pushq	%r14
	pushq	%r13
	pushq	%r12
	pushq	%rbx
	subq	$1240, %rsp
	movq	%r9, 64(%rsp)
	movq	%rcx, 96(%rsp)
	movq	%rsi, 152(%rsp)
	movq	1352(%rsp), %r9
	movq	1336(%rsp), %r11
	testq	%rdi, %rdi
	sete	144(%rsp)
	xorl	%r10d, %r10d
	testq	%rdx, %rdx
	sete	%bpl
	xorl	%esi, %esi
	testq	%r8, %r8
	sete	%r15b
	xorl	%eax, %eax
	testq	%r11, %r11
	sete	%r13b
	movq	%r9, 128(%rsp)
	testq	%r9, %r9
	sete	120(%rsp)
	movq	1368(%rsp), %r9
	movq	%r9, 80(%rsp)
	testq	%r9, %r9
	sete	%r9b
	movq	1408(%rsp), %r12
	testq	%r12, %r12
	sete	136(%rsp)
	cmpq	$7, 1416(%rsp)
	movb	$33, %bl
	jne	.Lrekusoyen_raw_boot_tree_0_1_0.4
	movq	%r11, %rcx
	movl	1296(%rsp), %r11d
	leal	-1(%r11), %r14d
	movb	$32, %bl
	cmpl	$3, %r14d
	movl	$0, %r14d
	jae	.Lrekusoyen_raw_boot_tree_0_1_0.4
	movq	%rdi, 104(%rsp)
	movq	%r12, 208(%rsp)
	movq	1400(%rsp), %rdi
	movq	%rdi, 192(%rsp)
	movq	1392(%rsp), %rdi
	movq	%rdi, 176(%rsp)
	movq	1384(%rsp), %rdi
	movq	%rdi, 112(%rsp)
	movq	1376(%rsp), %rdi
	movq	%rdi, 184(%rsp)
	movq	1360(%rsp), %rdi
	movq	%rdi, 88(%rsp)
	movq	1344(%rsp), %rdi
	movq	%rdi, 72(%rsp)
	movl	1328(%rsp), %edi
	movl	%edi, 172(%rsp)
	movl	1304(%rsp), %r12d
	movb	%bpl, %r10b
	shll	$12, %r10d
	addq	%r10, %rdx
	movb	%r15b, %sil
	shll	$12, %esi
	addq	%rsi, %r8
	movq	%r8, 216(%rsp)
	movb	%r13b, %al
	shll	$12, %eax
	addq	%rax, %rcx
	movq	%rcx, 224(%rsp)
	movb	%r9b, %r14b
	shll	$12, %r14d
	cmpl	$2, %r11d
	sete	%al
	movb	$2, %sil
	subb	%al, %sil
	xorl	%r13d, %r13d
	cmpl	$1, %r11d
	movzbl	%sil, %eax
	cmovel	%r13d, %eax
	movl	%eax, 168(%rsp)
	movl	%r12d, %r15d
	andl	$1, %r15d
	movq	%r14, %rcx
	movq	1312(%rsp), %r14
	cmoveq	%r13, %r14
	movl	%r12d, %eax
	andl	$2, %eax
	movl	%eax, %ebx
	shrl	%ebx
	testl	%eax, %eax
	movq	80(%rsp), %rax
	movq	%rcx, 160(%rsp)
	leaq	(%rax,%rcx), %rax
	movq	%rax, 200(%rsp)
	cmovneq	1320(%rsp), %r13
	leaq	704(%rsp), %rdi
	movq	%rdx, %rsi
	movq	96(%rsp), %rdx
	callq	rekusoyen_0_1_0.guest.maps.from_numbers
	movl	%r12d, %ebp
	shll	$29, %ebp
	sarl	$31, %ebp
	andl	172(%rsp), %ebp
	andl	$4, %r12d
	shrl	$2, %r12d
	movl	168(%rsp), %eax
	movb	%al, 232(%rsp)
	movl	$0, 233(%rsp)
	movl	$0, 236(%rsp)
	movq	%r15, 240(%rsp)
	movq	184(%rsp), %r15
	movq	%r14, 248(%rsp)
	movq	200(%rsp), %r14
	movq	%rbx, 256(%rsp)
	movq	%r13, 264(%rsp)
	movq	192(%rsp), %rax
	movq	%rax, 344(%rsp)
	movq	176(%rsp), %rax
	movq	%rax, 352(%rsp)
	movq	112(%rsp), %rax
	movq	%rax, 360(%rsp)
	xorps	%xmm0, %xmm0
	movaps	%xmm0, 272(%rsp)
	movaps	%xmm0, 288(%rsp)
	movaps	%xmm0, 304(%rsp)
	movaps	%xmm0, 320(%rsp)
	leaq	976(%rsp), %rdi
	movl	$264, %edx
	leaq	704(%rsp), %rsi
	callq	memcpy@PLT
	movq	152(%rsp), %rbx
	movq	%rbx, 968(%rsp)
	movq	%r15, 48(%rsp)
	movq	%r14, 40(%rsp)
	movq	88(%rsp), %rax
	movq	%rax, 32(%rsp)
	leaq	344(%rsp), %rax
	movq	%rax, 24(%rsp)
	movq	72(%rsp), %rax
	movq	%rax, 16(%rsp)
	movq	224(%rsp), %rax
	movq	%rax, 8(%rsp)
	movl	%ebp, (%rsp)
	leaq	272(%rsp), %rdi
	leaq	968(%rsp), %rsi
	leaq	232(%rsp), %r8
	movq	216(%rsp), %rdx
	movq	%rdx, %rbp
	movq	64(%rsp), %r13
	movq	%r13, %rcx
	movl	%r12d, %r9d
	callq	rekusoyen_0_1_0.boot.tree.plan
	cmpb	$0, 272(%rsp)
	je	.Lrekusoyen_raw_boot_tree_0_1_0.6
	movzbl	273(%rsp), %edi
	jmp	.Lrekusoyen_raw_boot_tree_0_1_0.5
.Lrekusoyen_raw_boot_tree_0_1_0.4:
	movzbl	%bl, %edi
.Lrekusoyen_raw_boot_tree_0_1_0.5:
	addq	$1240, %rsp
	popq	%rbx
	popq	%r12
	popq	%r13
	popq	%r14
	popq	%r15
	popq	%rbp
	jmp	rekusoyen_0_1_0.answers.U32FromRefusal.from
.Lrekusoyen_raw_boot_tree_0_1_0.6:
	xorl	%eax, %eax
	movzbl	144(%rsp), %ecx
	movb	%cl, %al
	shll	$12, %eax
	movq	104(%rsp), %r12
	movq	%rax, 72(%rsp)
	addq	%r12, %rax
	movq	%rax, 96(%rsp)
	xorl	%r15d, %r15d
	movzbl	136(%rsp), %eax
	movb	%al, %r15b
	xorps	%xmm0, %xmm0
	movaps	%xmm0, 368(%rsp)
	movaps	%xmm0, 384(%rsp)
	movaps	%xmm0, 400(%rsp)
	movq	$0, 416(%rsp)
	leaq	440(%rsp), %rdi
	leaq	704(%rsp), %rsi
	movl	$264, %edx
	callq	memcpy@PLT
	movq	%rbx, 432(%rsp)
	leaq	368(%rsp), %rdi
	leaq	432(%rsp), %rsi
	leaq	232(%rsp), %r8
	movq	%rbp, %rdx
	movq	%r13, %rcx
	callq	rekusoyen_0_1_0.loads.formats.plan
	cmpb	$0, 368(%rsp)
	jne	.Lrekusoyen_raw_boot_tree_0_1_0.8
	leaq	232(%rsp), %r8
	movq	72(%rsp), %rax
	leaq	(%r12,%rax), %rdi
	movq	%rbx, %rsi
	movq	%rbp, %rdx
	movq	%r13, %rcx
	callq	rekusoyen_0_1_0.loads.copying.copy_all
.Lrekusoyen_raw_boot_tree_0_1_0.8:
	shll	$12, %r15d
	movq	%r15, 112(%rsp)
	movq	176(%rsp), %r8
	cmpq	%r8, %rbx
	cmovbq	%rbx, %r8
	movq	%rbx, %r14
	subq	%r8, %r14
	movq	88(%rsp), %rax
	cmpq	%rax, %r14
	cmovaeq	%rax, %r14
	testq	%r14, %r14
	movq	80(%rsp), %r11
	movq	160(%rsp), %rax
	leaq	(%r11,%rax), %r10
	je	.Lrekusoyen_raw_boot_tree_0_1_0.30
	xorl	%edi, %edi
	movzbl	120(%rsp), %eax
	movb	%al, %dil
	shll	$12, %edi
	movq	128(%rsp), %rsi
	leaq	(%rsi,%rdi), %rbp
	movq	104(%rsp), %rcx
	movq	72(%rsp), %rdx
	leaq	(%rcx,%rdx), %rax
	leaq	(%rax,%r8), %r15
	addq	%rdx, %r8
	leaq	(%rcx,%r8), %rax
	movq	%rax, 64(%rsp)
	subq	%rbp, %rax
	movq	%rax, 144(%rsp)
	leaq	(%rdi,%rsi), %rax
	addq	$16, %rax
	movq	%rax, 120(%rsp)
	leaq	16(%rcx,%r8), %rax
	movq	%rax, 88(%rsp)
	leaq	3(%rdi,%rsi), %rax
	movq	%rax, 136(%rsp)
	leaq	(%rcx,%r8), %rax
	addq	$3, %rax
	movq	%rax, 128(%rsp)
	xorl	%r12d, %r12d
	jmp	.Lrekusoyen_raw_boot_tree_0_1_0.12
	.p2align	4
.Lrekusoyen_raw_boot_tree_0_1_0.10:
	movq	%r13, %rdx
	callq	memmove@PLT
	movq	80(%rsp), %r11
	movq	160(%rsp), %rax
	leaq	(%r11,%rax), %r10
.Lrekusoyen_raw_boot_tree_0_1_0.11:
	addq	%r13, %r12
	cmpq	%r14, %r12
	jae	.Lrekusoyen_raw_boot_tree_0_1_0.30
.Lrekusoyen_raw_boot_tree_0_1_0.12:
	movq	%r14, %rcx
	subq	%r12, %rcx
	cmpq	$2048, %rcx
	movl	$2048, %r13d
	cmovbq	%rcx, %r13
	leaq	(%r15,%r12), %rdi
	leaq	(%r12,%rbp), %rsi
	movq	%rdi, %rax
	subq	%rsi, %rax
	cmpq	%r13, %rax
	jae	.Lrekusoyen_raw_boot_tree_0_1_0.10
	xorl	%eax, %eax
	cmpq	$4, %rcx
	jb	.Lrekusoyen_raw_boot_tree_0_1_0.24
	cmpq	$32, 144(%rsp)
	jb	.Lrekusoyen_raw_boot_tree_0_1_0.24
	cmpq	$32, %rcx
	jae	.Lrekusoyen_raw_boot_tree_0_1_0.17
	xorl	%eax, %eax
	jmp	.Lrekusoyen_raw_boot_tree_0_1_0.21
.Lrekusoyen_raw_boot_tree_0_1_0.17:
	movl	%r13d, %eax
	andl	$4064, %eax
	movq	120(%rsp), %rcx
	addq	%r12, %rcx
	movq	88(%rsp), %rdx
	addq	%r12, %rdx
	xorl	%edi, %edi
	.p2align	4
.Lrekusoyen_raw_boot_tree_0_1_0.18:
	movups	-16(%rcx,%rdi), %xmm0
	movups	(%rcx,%rdi), %xmm1
	movups	%xmm0, -16(%rdx,%rdi)
	movups	%xmm1, (%rdx,%rdi)
	addq	$32, %rdi
	cmpq	%rdi, %rax
	jne	.Lrekusoyen_raw_boot_tree_0_1_0.18
	cmpq	%rax, %r13
	je	.Lrekusoyen_raw_boot_tree_0_1_0.11
	testb	$28, %r13b
	je	.Lrekusoyen_raw_boot_tree_0_1_0.24
.Lrekusoyen_raw_boot_tree_0_1_0.21:
	movq	%rax, %rcx
	movl	%r13d, %eax
	andl	$4092, %eax
	movq	%rax, %rdx
	subq	%rcx, %rdx
	addq	%r12, %rcx
	leaq	(%rcx,%rbp), %rdi
	addq	64(%rsp), %rcx
	xorl	%r8d, %r8d
	.p2align	4
.Lrekusoyen_raw_boot_tree_0_1_0.22:
	movl	(%rdi,%r8), %r9d
	movl	%r9d, (%rcx,%r8)
	addq	$4, %r8
	cmpq	%r8, %rdx
	jne	.Lrekusoyen_raw_boot_tree_0_1_0.22
	cmpq	%rax, %r13
	je	.Lrekusoyen_raw_boot_tree_0_1_0.11
.Lrekusoyen_raw_boot_tree_0_1_0.24:
	movq	%r13, %rdx
	movq	%rax, %rcx
	andq	$3, %rdx
	je	.Lrekusoyen_raw_boot_tree_0_1_0.27
	leaq	(%rax,%r12), %rdi
	addq	64(%rsp), %rdi
	xorl	%r8d, %r8d
	movq	%rax, %rcx
	.p2align	4
.Lrekusoyen_raw_boot_tree_0_1_0.26:
	movzbl	(%rsi,%rcx), %r9d
	movb	%r9b, (%rdi,%r8)
	incq	%rcx
	incq	%r8
	cmpq	%r8, %rdx
	jne	.Lrekusoyen_raw_boot_tree_0_1_0.26
.Lrekusoyen_raw_boot_tree_0_1_0.27:
	subq	%r13, %rax
	cmpq	$-4, %rax
	ja	.Lrekusoyen_raw_boot_tree_0_1_0.11
	movq	%r13, %rax
	subq	%rcx, %rax
	addq	%r12, %rcx
	movq	136(%rsp), %rdx
	addq	%rcx, %rdx
	addq	128(%rsp), %rcx
	xorl	%esi, %esi
	.p2align	4
.Lrekusoyen_raw_boot_tree_0_1_0.29:
	movzbl	-3(%rdx,%rsi), %edi
	movb	%dil, -3(%rcx,%rsi)
	movzbl	-2(%rdx,%rsi), %edi
	movb	%dil, -2(%rcx,%rsi)
	movzbl	-1(%rdx,%rsi), %edi
	movb	%dil, -1(%rcx,%rsi)
	movzbl	(%rdx,%rsi), %edi
	movb	%dil, (%rcx,%rsi)
	addq	$4, %rsi
	cmpq	%rsi, %rax
	jne	.Lrekusoyen_raw_boot_tree_0_1_0.29
	jmp	.Lrekusoyen_raw_boot_tree_0_1_0.11
.Lrekusoyen_raw_boot_tree_0_1_0.30:
	movq	192(%rsp), %rax
	cmpq	%rax, %rbx
	cmovbq	%rbx, %rax
	subq	%rax, %rbx
	movq	184(%rsp), %rcx
	cmpq	%rcx, %rbx
	cmovaeq	%rcx, %rbx
	testq	%rbx, %rbx
	je	.Lrekusoyen_raw_boot_tree_0_1_0.52
	addq	%rax, 96(%rsp)
	movq	72(%rsp), %rcx
	addq	%rax, %rcx
	movq	104(%rsp), %rax
	leaq	(%rax,%rcx), %r14
	movq	%r14, %r15
	subq	%r10, %r15
	movq	160(%rsp), %rdx
	leaq	(%rdx,%r11), %rsi
	addq	$16, %rsi
	movq	%rsi, 152(%rsp)
	leaq	16(%rax,%rcx), %rsi
	movq	%rsi, 64(%rsp)
	addq	%r11, %rdx
	addq	$3, %rdx
	movq	%rdx, 80(%rsp)
	leaq	(%rax,%rcx), %rbp
	addq	$3, %rbp
	xorl	%r13d, %r13d
	jmp	.Lrekusoyen_raw_boot_tree_0_1_0.34
	.p2align	4
.Lrekusoyen_raw_boot_tree_0_1_0.32:
	movq	%r12, %rdx
	callq	memmove@PLT
	movq	200(%rsp), %r10
.Lrekusoyen_raw_boot_tree_0_1_0.33:
	addq	%r12, %r13
	cmpq	%rbx, %r13
	jae	.Lrekusoyen_raw_boot_tree_0_1_0.52
.Lrekusoyen_raw_boot_tree_0_1_0.34:
	movq	%rbx, %rcx
	subq	%r13, %rcx
	cmpq	$2048, %rcx
	movl	$2048, %r12d
	cmovbq	%rcx, %r12
	movq	96(%rsp), %rax
	leaq	(%rax,%r13), %rdi
	leaq	(%r10,%r13), %rsi
	movq	%rdi, %rax
	subq	%rsi, %rax
	cmpq	%r12, %rax
	jae	.Lrekusoyen_raw_boot_tree_0_1_0.32
	xorl	%eax, %eax
	cmpq	$4, %rcx
	jb	.Lrekusoyen_raw_boot_tree_0_1_0.46
	cmpq	$32, %r15
	jb	.Lrekusoyen_raw_boot_tree_0_1_0.46
	cmpq	$32, %rcx
	jae	.Lrekusoyen_raw_boot_tree_0_1_0.39
	xorl	%eax, %eax
	jmp	.Lrekusoyen_raw_boot_tree_0_1_0.43
.Lrekusoyen_raw_boot_tree_0_1_0.39:
	movl	%r12d, %eax
	andl	$4064, %eax
	movq	152(%rsp), %rcx
	addq	%r13, %rcx
	movq	64(%rsp), %rdx
	addq	%r13, %rdx
	xorl	%edi, %edi
	.p2align	4
.Lrekusoyen_raw_boot_tree_0_1_0.40:
	movups	-16(%rcx,%rdi), %xmm0
	movups	(%rcx,%rdi), %xmm1
	movups	%xmm0, -16(%rdx,%rdi)
	movups	%xmm1, (%rdx,%rdi)
	addq	$32, %rdi
	cmpq	%rdi, %rax
	jne	.Lrekusoyen_raw_boot_tree_0_1_0.40
	cmpq	%rax, %r12
	je	.Lrekusoyen_raw_boot_tree_0_1_0.33
	testb	$28, %r12b
	je	.Lrekusoyen_raw_boot_tree_0_1_0.46
.Lrekusoyen_raw_boot_tree_0_1_0.43:
	movq	%rax, %rcx
	movl	%r12d, %eax
	andl	$4092, %eax
	movq	%rax, %rdx
	subq	%rcx, %rdx
	addq	%r13, %rcx
	leaq	(%r10,%rcx), %rdi
	addq	%r14, %rcx
	xorl	%r8d, %r8d
	.p2align	4
.Lrekusoyen_raw_boot_tree_0_1_0.44:
	movl	(%rdi,%r8), %r9d
	movl	%r9d, (%rcx,%r8)
	addq	$4, %r8
	cmpq	%r8, %rdx
	jne	.Lrekusoyen_raw_boot_tree_0_1_0.44
	cmpq	%rax, %r12
	je	.Lrekusoyen_raw_boot_tree_0_1_0.33
.Lrekusoyen_raw_boot_tree_0_1_0.46:
	movq	%r12, %rdx
	movq	%rax, %rcx
	andq	$3, %rdx
	je	.Lrekusoyen_raw_boot_tree_0_1_0.49
	leaq	(%rax,%r13), %rdi
	addq	%r14, %rdi
	xorl	%r8d, %r8d
	movq	%rax, %rcx
	.p2align	4
.Lrekusoyen_raw_boot_tree_0_1_0.48:
	movzbl	(%rsi,%rcx), %r9d
	movb	%r9b, (%rdi,%r8)
	incq	%rcx
	incq	%r8
	cmpq	%r8, %rdx
	jne	.Lrekusoyen_raw_boot_tree_0_1_0.48
.Lrekusoyen_raw_boot_tree_0_1_0.49:
	subq	%r12, %rax
	cmpq	$-4, %rax
	ja	.Lrekusoyen_raw_boot_tree_0_1_0.33
	movq	%r12, %rax
	subq	%rcx, %rax
	addq	%r13, %rcx
	movq	80(%rsp), %rdx
	addq	%rcx, %rdx
	addq	%rbp, %rcx
	xorl	%esi, %esi
	.p2align	4
.Lrekusoyen_raw_boot_tree_0_1_0.51:
	movzbl	-3(%rdx,%rsi), %edi
	movb	%dil, -3(%rcx,%rsi)
	movzbl	-2(%rdx,%rsi), %edi
	movb	%dil, -2(%rcx,%rsi)
	movzbl	-1(%rdx,%rsi), %edi
	movb	%dil, -1(%rcx,%rsi)
	movzbl	(%rdx,%rsi), %edi
	movb	%dil, (%rcx,%rsi)
	addq	$4, %rsi
	cmpq	%rsi, %rax
	jne	.Lrekusoyen_raw_boot_tree_0_1_0.51
	jmp	.Lrekusoyen_raw_boot_tree_0_1_0.33
.Lrekusoyen_raw_boot_tree_0_1_0.52:
	movq	208(%rsp), %rsi
	addq	112(%rsp), %rsi
	movups	280(%rsp), %xmm0
	movzbl	296(%rsp), %eax
	testl	%eax, %eax
	je	.Lrekusoyen_raw_boot_tree_0_1_0.55
	xorps	%xmm1, %xmm1
	cmpl	$2, %eax
	leaq	432(%rsp), %rdi
	jne	.Lrekusoyen_raw_boot_tree_0_1_0.56
	xorl	%eax, %eax
	jmp	.Lrekusoyen_raw_boot_tree_0_1_0.57
.Lrekusoyen_raw_boot_tree_0_1_0.55:
	movaps	304(%rsp), %xmm1
	movq	320(%rsp), %rcx
	movl	$2, %eax
	leaq	432(%rsp), %rdi
	jmp	.Lrekusoyen_raw_boot_tree_0_1_0.58
.Lrekusoyen_raw_boot_tree_0_1_0.56:
	movl	$1, %eax
.Lrekusoyen_raw_boot_tree_0_1_0.57:
	xorl	%ecx, %ecx
.Lrekusoyen_raw_boot_tree_0_1_0.58:
	movq	328(%rsp), %rdx
	movups	%xmm0, (%rsi)
	movq	%rax, 16(%rsi)
	movups	%xmm1, 24(%rsi)
	movq	%rcx, 40(%rsi)
	negq	%rdi
	leaq	(%rsi,%rdi), %rax
	addq	$48, %rax
	addq	$48, %rsi
	cmpq	$7, %rax
	movq	%rdx, (%rsi)
	xorl	%eax, %eax
	addq	$1240, %rsp
	popq	%rbx
	popq	%r12
	popq	%r13
	popq	%r14
	popq	%r15
	popq	%rbp
	retq
.Lrekusoyen_raw_boot_tree_0_1_0.func_end:
	.size	rekusoyen_raw_boot_tree_0_1_0, .Lrekusoyen_raw_boot_tree_0_1_0.func_end-rekusoyen_raw_boot_tree_0_1_0
	.section	.text.rekusoyen_raw_boot_tree_plan_0_1_0,"ax",@progbits
	.globl	rekusoyen_raw_boot_tree_plan_0_1_0
	.hidden	rekusoyen_raw_boot_tree_plan_0_1_0
	.p2align	4
	.type	rekusoyen_raw_boot_tree_plan_0_1_0,@function
rekusoyen_raw_boot_tree_plan_0_1_0:
	pushq	%rbp
	pushq	%r15
	pushq	%r14
	pushq	%r13
	pushq	%r12
	pushq	%rbx
	subq	$568, %rsp
	movq	%r9, 64(%rsp)
	movq	%r8, 144(%rsp)
	movq	%rdx, 128(%rsp)
	movq	%rdi, 136(%rsp)
	movq	720(%rsp), %rax
	movq	680(%rsp), %r13
	movq	656(%rsp), %rbp
	xorl	%r8d, %r8d
	testq	%rsi, %rsi
	sete	%dil
	xorl	%r12d, %r12d
	testq	%rcx, %rcx
	sete	%dl
	xorl	%r15d, %r15d
	testq	%rbp, %rbp
	sete	58(%rsp)
	xorl	%r11d, %r11d
	testq	%r13, %r13
	sete	59(%rsp)
	movq	%rax, 72(%rsp)
	testq	%rax, %rax
	xorps	%xmm0, %xmm0
	movq	712(%rsp), %rax
	movq	%rax, 80(%rsp)
	movq	704(%rsp), %rax
	movq	%rax, 88(%rsp)
	movq	696(%rsp), %rax
	movq	%rax, 96(%rsp)
	movq	688(%rsp), %rax
	movq	%rax, 104(%rsp)
	movq	672(%rsp), %rax
	movq	%rax, 112(%rsp)
	movq	664(%rsp), %rax
	movq	%rax, 120(%rsp)
	movl	648(%rsp), %eax
	movl	%eax, 60(%rsp)
	movq	640(%rsp), %r9
	movq	632(%rsp), %r10
	movl	624(%rsp), %ebx
	movq	728(%rsp), %rax
	movaps	%xmm0, 240(%rsp)
	movaps	%xmm0, 224(%rsp)
	movaps	%xmm0, 208(%rsp)
	movaps	%xmm0, 192(%rsp)
	sete	57(%rsp)
	movb	$33, %r14b
	cmpq	$7, %rax
	jne	.Lrekusoyen_raw_boot_tree_plan_0_1_0.4
	movq	64(%rsp), %rax
	decl	%eax
	movb	$32, %r14b
	cmpl	$3, %eax
	jae	.Lrekusoyen_raw_boot_tree_plan_0_1_0.4
	movb	%dil, %r8b
	shll	$12, %r8d
	addq	%r8, %rsi
	movb	%dl, %r12b
	shll	$12, %r12d
	addq	%r12, %rcx
	movzbl	58(%rsp), %eax
	movb	%al, %r15b
	shll	$12, %r15d
	addq	%r15, %rbp
	movzbl	59(%rsp), %eax
	movb	%al, %r11b
	shll	$12, %r11d
	addq	%r11, %r13
	movq	64(%rsp), %rdi
	cmpl	$2, %edi
	sete	%al
	movb	$2, %dl
	subb	%al, %dl
	xorl	%eax, %eax
	cmpl	$1, %edi
	movzbl	%dl, %edx
	cmovel	%eax, %edx
	movl	%ebx, %edi
	andl	$1, %edi
	cmoveq	%rax, %r10
	movl	%ebx, %r8d
	andl	$2, %r8d
	movl	%r8d, %r11d
	shrl	%r11d
	testl	%r8d, %r8d
	cmoveq	%rax, %r9
	movb	%dl, 152(%rsp)
	movl	$0, 153(%rsp)
	movl	$0, 156(%rsp)
	movq	%rdi, 160(%rsp)
	movq	%r10, 168(%rsp)
	movq	%r11, 176(%rsp)
	movq	%r9, 184(%rsp)
	leaq	304(%rsp), %rdi
	movq	128(%rsp), %rdx
	movq	%rcx, %r14
	callq	rekusoyen_0_1_0.guest.maps.from_numbers
	movq	136(%rsp), %rax
	movq	%rax, 296(%rsp)
	movl	%ebx, %eax
	shll	$29, %eax
	sarl	$31, %eax
	andl	60(%rsp), %eax
	andl	$4, %ebx
	shrl	$2, %ebx
	movq	80(%rsp), %rcx
	movq	%rcx, 264(%rsp)
	movq	88(%rsp), %rcx
	movq	%rcx, 272(%rsp)
	movq	96(%rsp), %rcx
	movq	%rcx, 280(%rsp)
	movq	104(%rsp), %rcx
	movq	%rcx, 48(%rsp)
	movq	%r13, 40(%rsp)
	movq	112(%rsp), %rcx
	movq	%rcx, 32(%rsp)
	leaq	264(%rsp), %rcx
	movq	%rcx, 24(%rsp)
	movq	120(%rsp), %rcx
	movq	%rcx, 16(%rsp)
	movq	%rbp, 8(%rsp)
	movl	%eax, (%rsp)
	leaq	192(%rsp), %rdi
	leaq	296(%rsp), %rsi
	leaq	152(%rsp), %r8
	movq	%r14, %rdx
	movq	144(%rsp), %rcx
	movl	%ebx, %r9d
	callq	rekusoyen_0_1_0.boot.tree.plan
	cmpb	$0, 192(%rsp)
	je	.Lrekusoyen_raw_boot_tree_plan_0_1_0.6
	movzbl	193(%rsp), %edi
	jmp	.Lrekusoyen_raw_boot_tree_plan_0_1_0.5
.Lrekusoyen_raw_boot_tree_plan_0_1_0.4:
	movzbl	%r14b, %edi
.Lrekusoyen_raw_boot_tree_plan_0_1_0.5:
	addq	$568, %rsp
	popq	%rbx
	popq	%r12
	popq	%r13
	popq	%r14
	popq	%r15
	popq	%rbp
	jmp	rekusoyen_0_1_0.answers.U32FromRefusal.from
.Lrekusoyen_raw_boot_tree_plan_0_1_0.6:
	xorl	%eax, %eax
	movzbl	57(%rsp), %ecx
	movb	%cl, %al
	shll	$12, %eax
	movq	72(%rsp), %rsi
	addq	%rax, %rsi
	movups	200(%rsp), %xmm0
	movzbl	216(%rsp), %eax
	testl	%eax, %eax
	je	.Lrekusoyen_raw_boot_tree_plan_0_1_0.9
	xorps	%xmm1, %xmm1
	cmpl	$2, %eax
	jne	.Lrekusoyen_raw_boot_tree_plan_0_1_0.10
	xorl	%eax, %eax
	jmp	.Lrekusoyen_raw_boot_tree_plan_0_1_0.11
.Lrekusoyen_raw_boot_tree_plan_0_1_0.9:
	movaps	224(%rsp), %xmm1
	movq	240(%rsp), %rcx
	movl	$2, %eax
	jmp	.Lrekusoyen_raw_boot_tree_plan_0_1_0.12
.Lrekusoyen_raw_boot_tree_plan_0_1_0.10:
	movl	$1, %eax
.Lrekusoyen_raw_boot_tree_plan_0_1_0.11:
	xorl	%ecx, %ecx
.Lrekusoyen_raw_boot_tree_plan_0_1_0.12:
	movq	248(%rsp), %rdx
	movups	%xmm0, (%rsi)
	movq	%rax, 16(%rsi)
	movups	%xmm1, 24(%rsi)
	movq	%rcx, 40(%rsi)
	leaq	288(%rsp), %rax
	negq	%rax
	addq	%rsi, %rax
	addq	$48, %rax
	addq	$48, %rsi
	cmpq	$7, %rax
	movq	%rdx, (%rsi)
	xorl	%eax, %eax
	addq	$568, %rsp
	popq	%rbx
	popq	%r12
	popq	%r13
	popq	%r14
	popq	%r15
	popq	%rbp
	retq
.Lrekusoyen_raw_boot_tree_plan_0_1_0.func_end:
	.size	rekusoyen_raw_boot_tree_plan_0_1_0, .Lrekusoyen_raw_boot_tree_plan_0_1_0.func_end-rekusoyen_raw_boot_tree_plan_0_1_0
	.section	.text.rekusoyen_raw_boot_zero_page_0_1_0,"ax",@progbits
	.globl	rekusoyen_raw_boot_zero_page_0_1_0
	.hidden	rekusoyen_raw_boot_zero_page_0_1_0
	.p2align	4
	.type	rekusoyen_raw_boot_zero_page_0_1_0,@function
rekusoyen_raw_boot_zero_page_0_1_0:
	pushq	%rbp
	pushq	%r15
	pushq	%r14
	pushq	%r13
	pushq	%r12
	pushq	%rbx
	subq	$1368, %rsp
	movq	%r9, 208(%rsp)
	movq	%rcx, 192(%rsp)
	movq	%rsi, 200(%rsp)
	movq	1480(%rsp), %rsi
	movq	1464(%rsp), %rax
	movq	%rdi, 120(%rsp)
	testq	%rdi, %rdi
	sete	184(%rsp)
	xorl	%r15d, %r15d
	testq	%rdx, %rdx
	sete	%r12b
	xorl	%r11d, %r11d
	movq	%r8, %rcx
	testq	%r8, %r8
	sete	%bpl
	xorl	%edi, %edi
	movq	%rax, 128(%rsp)
	testq	%rax, %rax
	sete	%bl
	xorl	%eax, %eax
	movq	%rsi, 104(%rsp)
	testq	%rsi, %rsi
	sete	%r8b
	movq	1496(%rsp), %rsi
	movq	%rsi, 256(%rsp)
	testq	%rsi, %rsi
	sete	176(%rsp)
	movq	1512(%rsp), %r9
	xorl	%esi, %esi
	movq	%r9, 152(%rsp)
	testq	%r9, %r9
	sete	%r9b
	movq	1552(%rsp), %r10
	movq	%r10, 144(%rsp)
	testq	%r10, %r10
	sete	83(%rsp)
	cmpq	$7, 1560(%rsp)
	movb	$33, %r14b
	jne	.Lrekusoyen_raw_boot_zero_page_0_1_0.4
	movl	1424(%rsp), %r10d
	leal	-1(%r10), %r13d
	movb	$32, %r14b
	cmpl	$3, %r13d
	jae	.Lrekusoyen_raw_boot_zero_page_0_1_0.4
	movl	1544(%rsp), %r14d
	movl	%r14d, 92(%rsp)
	movl	1536(%rsp), %r14d
	movl	%r14d, 88(%rsp)
	movl	1528(%rsp), %r14d
	movl	%r14d, 84(%rsp)
	movq	1520(%rsp), %r14
	movq	%r14, 160(%rsp)
	movq	1504(%rsp), %r14
	movq	%r14, 112(%rsp)
	movb	%r12b, %r15b
	movq	1488(%rsp), %r14
	movq	%r14, 248(%rsp)
	shll	$12, %r15d
	addq	%r15, %rdx
	movq	1472(%rsp), %r14
	movq	%r14, 168(%rsp)
	movb	%bpl, %r11b
	shll	$12, %r11d
	addq	%r11, %rcx
	movq	%rcx, 240(%rsp)
	movl	1432(%rsp), %r15d
	movb	%bl, %dil
	shll	$12, %edi
	addq	%rdi, 128(%rsp)
	movb	%r8b, %al
	shll	$12, %eax
	addq	%rax, 104(%rsp)
	movb	%r9b, %sil
	shll	$12, %esi
	addq	%rsi, 152(%rsp)
	cmpl	$2, %r10d
	sete	%al
	movb	$2, %sil
	subb	%al, %sil
	xorl	%r12d, %r12d
	cmpl	$1, %r10d
	movzbl	%sil, %r14d
	cmovel	%r12d, %r14d
	movl	%r15d, %eax
	andl	$1, %eax
	movq	%rax, 136(%rsp)
	movq	1440(%rsp), %rax
	cmoveq	%r12, %rax
	movq	%rax, 96(%rsp)
	movl	%r15d, %eax
	andl	$2, %eax
	movl	%eax, %r13d
	shrl	%r13d
	testl	%eax, %eax
	movl	1456(%rsp), %ebx
	cmovneq	1448(%rsp), %r12
	leaq	832(%rsp), %rdi
	movq	%rdx, %rsi
	movq	192(%rsp), %rdx
	callq	rekusoyen_0_1_0.guest.maps.from_numbers
	movl	%r15d, %ebp
	shll	$29, %ebp
	sarl	$31, %ebp
	andl	%ebx, %ebp
	movl	%r15d, %ebx
	andl	$4, %ebx
	shrl	$2, %ebx
	shrb	$3, %r15b
	andb	$1, %r15b
	movl	%r14d, 220(%rsp)
	movb	%r14b, 264(%rsp)
	movl	$0, 265(%rsp)
	movl	$0, 268(%rsp)
	movq	136(%rsp), %rax
	movq	%rax, 272(%rsp)
	movq	96(%rsp), %rax
	movq	%rax, 280(%rsp)
	movq	%r13, 288(%rsp)
	movq	%r12, 296(%rsp)
	movl	88(%rsp), %ecx
	movl	84(%rsp), %eax
	movl	%eax, 224(%rsp)
	movl	%ecx, 228(%rsp)
	movl	92(%rsp), %eax
	movl	%eax, 232(%rsp)
	movb	%r15b, 236(%rsp)
	movq	168(%rsp), %r14
	movq	248(%rsp), %r13
	movw	$0, 237(%rsp)
	movb	$0, 239(%rsp)
	xorps	%xmm0, %xmm0
	movaps	%xmm0, 304(%rsp)
	movaps	%xmm0, 320(%rsp)
	movaps	%xmm0, 336(%rsp)
	movaps	%xmm0, 352(%rsp)
	leaq	1104(%rsp), %rdi
	movl	$264, %edx
	leaq	832(%rsp), %rsi
	callq	memcpy@PLT
	movq	200(%rsp), %r12
	movq	%r12, 1096(%rsp)
	movq	160(%rsp), %rax
	movq	%rax, 64(%rsp)
	movq	152(%rsp), %rax
	movq	%rax, 56(%rsp)
	movq	112(%rsp), %rax
	movq	%rax, 48(%rsp)
	leaq	224(%rsp), %rax
	movq	%rax, 40(%rsp)
	movq	%r13, 32(%rsp)
	movq	104(%rsp), %rax
	movq	%rax, 24(%rsp)
	movq	%r14, 16(%rsp)
	movq	128(%rsp), %rax
	movq	%rax, 8(%rsp)
	movl	%ebp, (%rsp)
	movq	240(%rsp), %rbp
	leaq	304(%rsp), %rdi
	leaq	1096(%rsp), %rsi
	leaq	264(%rsp), %r8
	movq	%rbp, %rdx
	movq	208(%rsp), %r14
	movq	%r14, %rcx
	movl	%ebx, %r9d
	callq	rekusoyen_0_1_0.boot.zero_page.plan
	cmpb	$0, 304(%rsp)
	je	.Lrekusoyen_raw_boot_zero_page_0_1_0.6
	movzbl	305(%rsp), %edi
	jmp	.Lrekusoyen_raw_boot_zero_page_0_1_0.5
.Lrekusoyen_raw_boot_zero_page_0_1_0.4:
	movzbl	%r14b, %edi
.Lrekusoyen_raw_boot_zero_page_0_1_0.5:
	addq	$1368, %rsp
	popq	%rbx
	popq	%r12
	popq	%r13
	popq	%r14
	popq	%r15
	popq	%rbp
	jmp	rekusoyen_0_1_0.answers.U32FromRefusal.from
.Lrekusoyen_raw_boot_zero_page_0_1_0.6:
	xorl	%ecx, %ecx
	movzbl	184(%rsp), %eax
	movb	%al, %cl
	shll	$12, %ecx
	movq	120(%rsp), %rax
	movq	%rcx, 96(%rsp)
	leaq	(%rax,%rcx), %r15
	movq	312(%rsp), %rax
	movq	%rax, 136(%rsp)
	xorps	%xmm0, %xmm0
	movaps	%xmm0, 496(%rsp)
	movaps	%xmm0, 512(%rsp)
	movaps	%xmm0, 528(%rsp)
	movq	$0, 544(%rsp)
	leaq	568(%rsp), %rdi
	leaq	832(%rsp), %rsi
	movl	$264, %edx
	callq	memcpy@PLT
	movq	%r12, 560(%rsp)
	leaq	496(%rsp), %rdi
	leaq	560(%rsp), %rsi
	leaq	264(%rsp), %r8
	movq	%rbp, %rdx
	movq	%r14, %rcx
	callq	rekusoyen_0_1_0.loads.formats.plan
	cmpb	$0, 496(%rsp)
	jne	.Lrekusoyen_raw_boot_zero_page_0_1_0.8
	leaq	264(%rsp), %r8
	movq	%r15, %rdi
	movq	%r12, %rsi
	movq	%rbp, %rdx
	movq	208(%rsp), %rcx
	callq	rekusoyen_0_1_0.loads.copying.copy_all
.Lrekusoyen_raw_boot_zero_page_0_1_0.8:
	movl	84(%rsp), %ebx
	leaq	568(%rsp), %rdi
	leaq	832(%rsp), %rsi
	movl	$264, %edx
	callq	memcpy@PLT
	movq	%r12, 560(%rsp)
	leaq	560(%rsp), %rdi
	movq	%rbx, %rsi
	movq	128(%rsp), %rbp
	movq	%rbp, %rdx
	movq	168(%rsp), %rcx
	movq	104(%rsp), %r14
	movq	%r14, %r8
	movq	%r13, %r9
	callq	rekusoyen_0_1_0.loader.plan_texts
	testb	%al, %al
	jne	.Lrekusoyen_raw_boot_zero_page_0_1_0.10
	cmpq	%rbx, %r12
	cmovbq	%r12, %rbx
	leaq	(%r15,%rbx), %rdi
	movq	%r12, %rsi
	subq	%rbx, %rsi
	movq	%rbp, %rdx
	movq	168(%rsp), %rcx
	movq	%r14, %r8
	movq	%r13, %r9
	callq	rekusoyen_0_1_0.cmdline.writing.write
.Lrekusoyen_raw_boot_zero_page_0_1_0.10:
	movl	88(%rsp), %eax
	cmpq	%rax, %r12
	cmovbq	%r12, %rax
	subq	%rax, %r12
	movq	112(%rsp), %rcx
	cmpq	%rcx, %r12
	cmovaeq	%rcx, %r12
	testq	%r12, %r12
	movl	92(%rsp), %r11d
	je	.Lrekusoyen_raw_boot_zero_page_0_1_0.32
	movq	%r12, %r14
	xorl	%esi, %esi
	movzbl	176(%rsp), %ecx
	movb	%cl, %sil
	shll	$12, %esi
	movq	256(%rsp), %rdx
	leaq	(%rdx,%rsi), %rbx
	leaq	(%r15,%rax), %r13
	addq	96(%rsp), %rax
	movq	120(%rsp), %rcx
	leaq	(%rcx,%rax), %rdi
	movq	%rdi, 104(%rsp)
	subq	%rbx, %rdi
	movq	%rdi, 128(%rsp)
	leaq	(%rsi,%rdx), %rdi
	addq	$16, %rdi
	movq	%rdi, 184(%rsp)
	leaq	16(%rcx,%rax), %rdi
	movq	%rdi, 176(%rsp)
	leaq	3(%rsi,%rdx), %rdx
	movq	%rdx, 200(%rsp)
	addq	%rcx, %rax
	addq	$3, %rax
	movq	%rax, 192(%rsp)
	xorl	%ebp, %ebp
	jmp	.Lrekusoyen_raw_boot_zero_page_0_1_0.14
	.p2align	4
.Lrekusoyen_raw_boot_zero_page_0_1_0.12:
	movq	%r12, %rdx
	callq	memmove@PLT
	movl	92(%rsp), %r11d
.Lrekusoyen_raw_boot_zero_page_0_1_0.13:
	addq	%r12, %rbp
	cmpq	%r14, %rbp
	jae	.Lrekusoyen_raw_boot_zero_page_0_1_0.32
.Lrekusoyen_raw_boot_zero_page_0_1_0.14:
	movq	%r14, %rcx
	subq	%rbp, %rcx
	cmpq	$2048, %rcx
	movl	$2048, %r12d
	cmovbq	%rcx, %r12
	movq	%r13, %rdi
	addq	%rbp, %rdi
	leaq	(%rbx,%rbp), %rsi
	movq	%rdi, %rax
	subq	%rsi, %rax
	cmpq	%r12, %rax
	jae	.Lrekusoyen_raw_boot_zero_page_0_1_0.12
	xorl	%eax, %eax
	cmpq	$4, %rcx
	jb	.Lrekusoyen_raw_boot_zero_page_0_1_0.26
	cmpq	$32, 128(%rsp)
	jb	.Lrekusoyen_raw_boot_zero_page_0_1_0.26
	cmpq	$32, %rcx
	jae	.Lrekusoyen_raw_boot_zero_page_0_1_0.19
	xorl	%eax, %eax
	jmp	.Lrekusoyen_raw_boot_zero_page_0_1_0.23
.Lrekusoyen_raw_boot_zero_page_0_1_0.19:
	movl	%r12d, %eax
	andl	$4064, %eax
	movq	184(%rsp), %rcx
	addq	%rbp, %rcx
	movq	176(%rsp), %rdx
	addq	%rbp, %rdx
	xorl	%edi, %edi
	.p2align	4
.Lrekusoyen_raw_boot_zero_page_0_1_0.20:
	movups	-16(%rcx,%rdi), %xmm0
	movups	(%rcx,%rdi), %xmm1
	movups	%xmm0, -16(%rdx,%rdi)
	movups	%xmm1, (%rdx,%rdi)
	addq	$32, %rdi
	cmpq	%rdi, %rax
	jne	.Lrekusoyen_raw_boot_zero_page_0_1_0.20
	cmpq	%rax, %r12
	je	.Lrekusoyen_raw_boot_zero_page_0_1_0.13
	testb	$28, %r12b
	je	.Lrekusoyen_raw_boot_zero_page_0_1_0.26
.Lrekusoyen_raw_boot_zero_page_0_1_0.23:
	movq	%rax, %rcx
	movl	%r12d, %eax
	andl	$4092, %eax
	movq	%rax, %rdx
	subq	%rcx, %rdx
	addq	%rbp, %rcx
	leaq	(%rbx,%rcx), %rdi
	addq	104(%rsp), %rcx
	xorl	%r8d, %r8d
	.p2align	4
.Lrekusoyen_raw_boot_zero_page_0_1_0.24:
	movl	(%rdi,%r8), %r9d
	movl	%r9d, (%rcx,%r8)
	addq	$4, %r8
	cmpq	%r8, %rdx
	jne	.Lrekusoyen_raw_boot_zero_page_0_1_0.24
	cmpq	%rax, %r12
	je	.Lrekusoyen_raw_boot_zero_page_0_1_0.13
.Lrekusoyen_raw_boot_zero_page_0_1_0.26:
	movq	%r12, %rdx
	movq	%rax, %rcx
	andq	$3, %rdx
	je	.Lrekusoyen_raw_boot_zero_page_0_1_0.29
	leaq	(%rax,%rbp), %rdi
	addq	104(%rsp), %rdi
	xorl	%r8d, %r8d
	movq	%rax, %rcx
	.p2align	4
.Lrekusoyen_raw_boot_zero_page_0_1_0.28:
	movzbl	(%rsi,%rcx), %r9d
	movb	%r9b, (%rdi,%r8)
	incq	%rcx
	incq	%r8
	cmpq	%r8, %rdx
	jne	.Lrekusoyen_raw_boot_zero_page_0_1_0.28
.Lrekusoyen_raw_boot_zero_page_0_1_0.29:
	subq	%r12, %rax
	cmpq	$-4, %rax
	ja	.Lrekusoyen_raw_boot_zero_page_0_1_0.13
	movq	%r12, %rax
	subq	%rcx, %rax
	addq	%rbp, %rcx
	movq	200(%rsp), %rdx
	addq	%rcx, %rdx
	addq	192(%rsp), %rcx
	xorl	%esi, %esi
	.p2align	4
.Lrekusoyen_raw_boot_zero_page_0_1_0.31:
	movzbl	-3(%rdx,%rsi), %edi
	movb	%dil, -3(%rcx,%rsi)
	movzbl	-2(%rdx,%rsi), %edi
	movb	%dil, -2(%rcx,%rsi)
	movzbl	-1(%rdx,%rsi), %edi
	movb	%dil, -1(%rcx,%rsi)
	movzbl	(%rdx,%rsi), %edi
	movb	%dil, (%rcx,%rsi)
	addq	$4, %rsi
	cmpq	%rsi, %rax
	jne	.Lrekusoyen_raw_boot_zero_page_0_1_0.31
	jmp	.Lrekusoyen_raw_boot_zero_page_0_1_0.13
.Lrekusoyen_raw_boot_zero_page_0_1_0.32:
	movl	%r11d, %ebx
	addq	%rbx, %r15
	movl	220(%rsp), %eax
	cmpb	$2, %al
	je	.Lrekusoyen_raw_boot_zero_page_0_1_0.46
	movzbl	%al, %eax
	cmpl	$1, %eax
	movq	152(%rsp), %r13
	movq	160(%rsp), %rbp
	jne	.Lrekusoyen_raw_boot_zero_page_0_1_0.56
	xorps	%xmm0, %xmm0
	movups	%xmm0, 475(%rsp)
	movaps	%xmm0, 464(%rsp)
	movaps	%xmm0, 448(%rsp)
	movaps	%xmm0, 432(%rsp)
	movaps	%xmm0, 416(%rsp)
	movaps	%xmm0, 400(%rsp)
	movaps	%xmm0, 384(%rsp)
	movaps	%xmm0, 368(%rsp)
	movq	208(%rsp), %rax
	cmpq	$498, %rax
	movl	88(%rsp), %r14d
	jb	.Lrekusoyen_raw_boot_zero_page_0_1_0.36
	addq	$-497, %rax
	cmpq	$123, %rax
	movl	$123, %edx
	cmovbq	%rax, %rdx
	movq	240(%rsp), %rsi
	addq	$497, %rsi
	leaq	368(%rsp), %rdi
	callq	memcpy@PLT
.Lrekusoyen_raw_boot_zero_page_0_1_0.36:
	movq	136(%rsp), %rax
	movl	%eax, 403(%rsp)
	movl	$4096, %edi
	movq	%r13, %rsi
	movq	%rbp, %rdx
	callq	rekusoyen_0_1_0.boot_page.building.check
	testb	%al, %al
	jne	.Lrekusoyen_raw_boot_zero_page_0_1_0.76
	movl	$4096, %edx
	movq	%r15, %rdi
	xorl	%esi, %esi
	callq	memset@PLT
	movaps	368(%rsp), %xmm0
	movaps	384(%rsp), %xmm1
	movaps	400(%rsp), %xmm2
	movaps	416(%rsp), %xmm3
	movups	%xmm1, 513(%r15)
	movups	%xmm3, 545(%r15)
	movups	%xmm2, 529(%r15)
	movups	%xmm0, 497(%r15)
	movaps	432(%rsp), %xmm0
	movups	%xmm0, 561(%r15)
	movaps	448(%rsp), %xmm0
	movups	%xmm0, 577(%r15)
	movaps	464(%rsp), %xmm0
	movups	%xmm0, 593(%r15)
	movups	475(%rsp), %xmm0
	movups	%xmm0, 604(%r15)
	movb	$-1, 528(%r15)
	movl	84(%rsp), %eax
	movl	%eax, 552(%r15)
	movl	%r14d, 536(%r15)
	movq	112(%rsp), %rax
	movl	%eax, 540(%r15)
	movabsq	$-6148914691236517205, %rsi
	movq	%rbp, %rax
	mulq	%rsi
	shrl	%edx
	movb	%dl, 488(%r15)
	testq	%rbp, %rbp
	movq	144(%rsp), %r11
	je	.Lrekusoyen_raw_boot_zero_page_0_1_0.69
	movq	96(%rsp), %rcx
	addq	%rbx, %rcx
	movq	120(%rsp), %rax
	leaq	(%rax,%rcx), %rdi
	addq	$3, %rdi
	movl	$720, %r8d
	xorl	%ecx, %ecx
	jmp	.Lrekusoyen_raw_boot_zero_page_0_1_0.40
	.p2align	4
.Lrekusoyen_raw_boot_zero_page_0_1_0.39:
	incq	%rcx
	cmpq	%rbp, %rcx
	je	.Lrekusoyen_raw_boot_zero_page_0_1_0.69
.Lrekusoyen_raw_boot_zero_page_0_1_0.40:
	movq	%rcx, %rax
	mulq	%rsi
	shrl	%edx
	leal	(%rdx,%rdx,2), %eax
	movl	%ecx, %edx
	subl	%eax, %edx
	shll	$3, %edx
	leaq	.Lrekusoyen_0_1_0.static.18(%rip), %rax
	movq	(%rdx,%rax), %rax
	cmpq	$8, %rax
	movl	$8, %edx
	cmovbq	%rax, %rdx
	movq	%r8, %rax
	addq	%r8, %rdx
	cmpq	$4096, %rdx
	movl	$4096, %r8d
	cmovbq	%rdx, %r8
	movq	%rax, %r9
	subq	%r8, %r9
	jae	.Lrekusoyen_raw_boot_zero_page_0_1_0.39
	movq	(%r13,%rcx,8), %rdx
	movl	%r8d, %r10d
	subl	%eax, %r10d
	andl	$3, %r10d
	je	.Lrekusoyen_raw_boot_zero_page_0_1_0.44
	negq	%r10
	.p2align	4
.Lrekusoyen_raw_boot_zero_page_0_1_0.43:
	movb	%dl, (%r15,%rax)
	shrq	$8, %rdx
	incq	%rax
	incq	%r10
	jne	.Lrekusoyen_raw_boot_zero_page_0_1_0.43
.Lrekusoyen_raw_boot_zero_page_0_1_0.44:
	cmpq	$-4, %r9
	ja	.Lrekusoyen_raw_boot_zero_page_0_1_0.39
	.p2align	4
.Lrekusoyen_raw_boot_zero_page_0_1_0.45:
	movl	%edx, -3(%rdi,%rax)
	shrq	$32, %rdx
	addq	$4, %rax
	cmpq	%rax, %r8
	jne	.Lrekusoyen_raw_boot_zero_page_0_1_0.45
	jmp	.Lrekusoyen_raw_boot_zero_page_0_1_0.39
.Lrekusoyen_raw_boot_zero_page_0_1_0.46:
	movl	$4096, %edi
	movq	152(%rsp), %r14
	movq	%r14, %rsi
	movq	160(%rsp), %r12
	movq	%r12, %rdx
	callq	rekusoyen_0_1_0.boot_page.building.check
	testb	%al, %al
	jne	.Lrekusoyen_raw_boot_zero_page_0_1_0.76
	movl	$4096, %edx
	movq	%r15, %rdi
	xorl	%esi, %esi
	callq	memset@PLT
	movb	$-1, 528(%r15)
	movl	84(%rsp), %eax
	movl	%eax, 552(%r15)
	movl	88(%rsp), %eax
	movl	%eax, 536(%r15)
	movq	112(%rsp), %rax
	movl	%eax, 540(%r15)
	movabsq	$-6148914691236517205, %rsi
	movq	%r12, %rax
	mulq	%rsi
	shrl	%edx
	movb	%dl, 488(%r15)
	testq	%r12, %r12
	movq	144(%rsp), %r11
	je	.Lrekusoyen_raw_boot_zero_page_0_1_0.69
	movq	96(%rsp), %rcx
	addq	%rbx, %rcx
	movq	120(%rsp), %rax
	leaq	(%rax,%rcx), %rdi
	addq	$3, %rdi
	movl	$720, %r8d
	xorl	%ecx, %ecx
	jmp	.Lrekusoyen_raw_boot_zero_page_0_1_0.50
	.p2align	4
.Lrekusoyen_raw_boot_zero_page_0_1_0.49:
	incq	%rcx
	cmpq	%r12, %rcx
	je	.Lrekusoyen_raw_boot_zero_page_0_1_0.69
.Lrekusoyen_raw_boot_zero_page_0_1_0.50:
	movq	%rcx, %rax
	mulq	%rsi
	shrl	%edx
	leal	(%rdx,%rdx,2), %eax
	movl	%ecx, %edx
	subl	%eax, %edx
	shll	$3, %edx
	leaq	.Lrekusoyen_0_1_0.static.18(%rip), %rax
	movq	(%rdx,%rax), %rax
	cmpq	$8, %rax
	movl	$8, %edx
	cmovbq	%rax, %rdx
	movq	%r8, %rax
	addq	%r8, %rdx
	cmpq	$4096, %rdx
	movl	$4096, %r8d
	cmovbq	%rdx, %r8
	movq	%rax, %r9
	subq	%r8, %r9
	jae	.Lrekusoyen_raw_boot_zero_page_0_1_0.49
	movq	(%r14,%rcx,8), %rdx
	movl	%r8d, %r10d
	subl	%eax, %r10d
	andl	$3, %r10d
	je	.Lrekusoyen_raw_boot_zero_page_0_1_0.54
	negq	%r10
	.p2align	4
.Lrekusoyen_raw_boot_zero_page_0_1_0.53:
	movb	%dl, (%r15,%rax)
	shrq	$8, %rdx
	incq	%rax
	incq	%r10
	jne	.Lrekusoyen_raw_boot_zero_page_0_1_0.53
.Lrekusoyen_raw_boot_zero_page_0_1_0.54:
	cmpq	$-4, %r9
	ja	.Lrekusoyen_raw_boot_zero_page_0_1_0.49
	.p2align	4
.Lrekusoyen_raw_boot_zero_page_0_1_0.55:
	movl	%edx, -3(%rdi,%rax)
	shrq	$32, %rdx
	addq	$4, %rax
	cmpq	%rax, %r8
	jne	.Lrekusoyen_raw_boot_zero_page_0_1_0.55
	jmp	.Lrekusoyen_raw_boot_zero_page_0_1_0.49
.Lrekusoyen_raw_boot_zero_page_0_1_0.56:
	movl	$4096, %edi
	movq	%r13, %rsi
	movq	%rbp, %rdx
	callq	rekusoyen_0_1_0.boot_page.building.check
	testb	%al, %al
	jne	.Lrekusoyen_raw_boot_zero_page_0_1_0.76
	leaq	497(%r15), %r14
	leaq	.Lrekusoyen_0_1_0.static.25(%rip), %rax
	negq	%rax
	leaq	(%r15,%rax), %r12
	addq	$497, %r12
	movl	$4096, %edx
	movq	%r15, %rdi
	xorl	%esi, %esi
	callq	memset@PLT
	cmpq	$66, %r12
	ja	.Lrekusoyen_raw_boot_zero_page_0_1_0.59
	movq	$0, 5(%r14)
	movq	$0, (%r14)
	movabsq	$6012978712893499989, %rax
	movq	%rax, 510(%r15)
	xorps	%xmm0, %xmm0
	movups	%xmm0, 518(%r15)
	movups	%xmm0, 534(%r15)
	movups	%xmm0, 547(%r15)
	movb	$1, 563(%r15)
	jmp	.Lrekusoyen_raw_boot_zero_page_0_1_0.60
.Lrekusoyen_raw_boot_zero_page_0_1_0.59:
	movups	.Lrekusoyen_0_1_0.static.25+48(%rip), %xmm0
	movups	%xmm0, 48(%r14)
	movups	.Lrekusoyen_0_1_0.static.25+32(%rip), %xmm0
	movups	%xmm0, 32(%r14)
	movups	.Lrekusoyen_0_1_0.static.25+16(%rip), %xmm0
	movups	%xmm0, 16(%r14)
	movups	.Lrekusoyen_0_1_0.static.25(%rip), %xmm0
	movups	%xmm0, (%r14)
	movl	$16777216, 63(%r14)
.Lrekusoyen_raw_boot_zero_page_0_1_0.60:
	movq	144(%rsp), %r11
	movl	88(%rsp), %eax
	movl	84(%rsp), %ecx
	movb	$-1, 528(%r15)
	movl	%ecx, 552(%r15)
	movl	%eax, 536(%r15)
	movq	112(%rsp), %rax
	movl	%eax, 540(%r15)
	movabsq	$-6148914691236517205, %rsi
	movq	%rbp, %rax
	mulq	%rsi
	shrl	%edx
	movb	%dl, 488(%r15)
	testq	%rbp, %rbp
	je	.Lrekusoyen_raw_boot_zero_page_0_1_0.69
	movq	96(%rsp), %rcx
	addq	%rbx, %rcx
	movq	120(%rsp), %rax
	leaq	(%rax,%rcx), %rdi
	addq	$3, %rdi
	movl	$720, %r8d
	xorl	%ecx, %ecx
	jmp	.Lrekusoyen_raw_boot_zero_page_0_1_0.63
	.p2align	4
.Lrekusoyen_raw_boot_zero_page_0_1_0.62:
	incq	%rcx
	cmpq	%rbp, %rcx
	je	.Lrekusoyen_raw_boot_zero_page_0_1_0.69
.Lrekusoyen_raw_boot_zero_page_0_1_0.63:
	movq	%rcx, %rax
	mulq	%rsi
	shrl	%edx
	leal	(%rdx,%rdx,2), %eax
	movl	%ecx, %edx
	subl	%eax, %edx
	shll	$3, %edx
	leaq	.Lrekusoyen_0_1_0.static.18(%rip), %rax
	movq	(%rdx,%rax), %rax
	cmpq	$8, %rax
	movl	$8, %edx
	cmovbq	%rax, %rdx
	movq	%r8, %rax
	addq	%r8, %rdx
	cmpq	$4096, %rdx
	movl	$4096, %r8d
	cmovbq	%rdx, %r8
	movq	%rax, %r9
	subq	%r8, %r9
	jae	.Lrekusoyen_raw_boot_zero_page_0_1_0.62
	movq	(%r13,%rcx,8), %rdx
	movl	%r8d, %r10d
	subl	%eax, %r10d
	andl	$3, %r10d
	je	.Lrekusoyen_raw_boot_zero_page_0_1_0.67
	negq	%r10
	.p2align	4
.Lrekusoyen_raw_boot_zero_page_0_1_0.66:
	movb	%dl, (%r15,%rax)
	shrq	$8, %rdx
	incq	%rax
	incq	%r10
	jne	.Lrekusoyen_raw_boot_zero_page_0_1_0.66
.Lrekusoyen_raw_boot_zero_page_0_1_0.67:
	cmpq	$-4, %r9
	ja	.Lrekusoyen_raw_boot_zero_page_0_1_0.62
	.p2align	4
.Lrekusoyen_raw_boot_zero_page_0_1_0.68:
	movl	%edx, -3(%rdi,%rax)
	shrq	$32, %rdx
	addq	$4, %rax
	cmpq	%rax, %r8
	jne	.Lrekusoyen_raw_boot_zero_page_0_1_0.68
	jmp	.Lrekusoyen_raw_boot_zero_page_0_1_0.62
.Lrekusoyen_raw_boot_zero_page_0_1_0.69:
	xorl	%eax, %eax
	movzbl	83(%rsp), %ecx
	movb	%cl, %al
	shll	$12, %eax
	addq	%rax, %r11
	movq	320(%rsp), %rax
	movzbl	328(%rsp), %ecx
	testl	%ecx, %ecx
	je	.Lrekusoyen_raw_boot_zero_page_0_1_0.72
	xorps	%xmm0, %xmm0
	cmpl	$2, %ecx
	jne	.Lrekusoyen_raw_boot_zero_page_0_1_0.73
	xorl	%ecx, %ecx
	jmp	.Lrekusoyen_raw_boot_zero_page_0_1_0.74
.Lrekusoyen_raw_boot_zero_page_0_1_0.72:
	movaps	336(%rsp), %xmm0
	movq	352(%rsp), %rdx
	movl	$2, %ecx
	jmp	.Lrekusoyen_raw_boot_zero_page_0_1_0.75
.Lrekusoyen_raw_boot_zero_page_0_1_0.73:
	movl	$1, %ecx
.Lrekusoyen_raw_boot_zero_page_0_1_0.74:
	xorl	%edx, %edx
.Lrekusoyen_raw_boot_zero_page_0_1_0.75:
	movq	360(%rsp), %rsi
	movq	136(%rsp), %rdi
	movq	%rdi, (%r11)
	movq	%rax, 8(%r11)
	movq	%rcx, 16(%r11)
	movups	%xmm0, 24(%r11)
	movq	%rdx, 40(%r11)
	leaq	560(%rsp), %rax
	negq	%rax
	addq	%r11, %rax
	addq	$48, %rax
	addq	$48, %r11
	cmpq	$7, %rax
	movq	%rsi, (%r11)
	xorl	%eax, %eax
	addq	$1368, %rsp
	popq	%rbx
	popq	%r12
	popq	%r13
	popq	%r14
	popq	%r15
	popq	%rbp
	retq
.Lrekusoyen_raw_boot_zero_page_0_1_0.76:
	ud2
.Lrekusoyen_raw_boot_zero_page_0_1_0.func_end:
	.size	rekusoyen_raw_boot_zero_page_0_1_0, .Lrekusoyen_raw_boot_zero_page_0_1_0.func_end-rekusoyen_raw_boot_zero_page_0_1_0
	.section	.text.rekusoyen_raw_boot_zero_page_plan_0_1_0,"ax",@progbits
	.globl	rekusoyen_raw_boot_zero_page_plan_0_1_0
	.hidden	rekusoyen_raw_boot_zero_page_plan_0_1_0
	.p2align	4
	.type	rekusoyen_raw_boot_zero_page_plan_0_1_0,@function
rekusoyen_raw_boot_zero_page_plan_0_1_0:
	pushq	%rbp
	pushq	%r15
	pushq	%r14
	pushq	%r13
	pushq	%r12
	pushq	%rbx
	subq	$584, %rsp
	movq	%r9, 112(%rsp)
	movq	%r8, 192(%rsp)
	movq	%rdx, 160(%rsp)
	movq	%rdi, 184(%rsp)
	movq	712(%rsp), %rbx
	movq	688(%rsp), %r9
	movq	672(%rsp), %rax
	xorl	%r8d, %r8d
	testq	%rsi, %rsi
	sete	%dil
	xorl	%edx, %edx
	testq	%rcx, %rcx
	sete	%r13b
	xorl	%r15d, %r15d
	movq	%rax, 176(%rsp)
	testq	%rax, %rax
	sete	77(%rsp)
	xorl	%r14d, %r14d
	movq	%r9, 168(%rsp)
	testq	%r9, %r9
	sete	78(%rsp)
	xorl	%r11d, %r11d
	testq	%rbx, %rbx
	sete	79(%rsp)
	movq	752(%rsp), %rax
	movq	%rax, 120(%rsp)
	testq	%rax, %rax
	xorps	%xmm0, %xmm0
	movl	744(%rsp), %eax
	movl	%eax, 92(%rsp)
	movl	736(%rsp), %eax
	movl	%eax, 88(%rsp)
	movl	728(%rsp), %eax
	movl	%eax, 84(%rsp)
	movq	720(%rsp), %rax
	movq	%rax, 128(%rsp)
	movq	704(%rsp), %rax
	movq	%rax, 136(%rsp)
	movq	696(%rsp), %rax
	movq	%rax, 144(%rsp)
	movq	680(%rsp), %rax
	movq	%rax, 152(%rsp)
	movl	664(%rsp), %eax
	movl	%eax, 80(%rsp)
	movq	656(%rsp), %rax
	movq	648(%rsp), %r10
	movl	640(%rsp), %r12d
	movq	760(%rsp), %rbp
	movaps	%xmm0, 288(%rsp)
	movaps	%xmm0, 272(%rsp)
	movaps	%xmm0, 256(%rsp)
	movaps	%xmm0, 240(%rsp)
	sete	76(%rsp)
	movb	$33, %r9b
	cmpq	$7, %rbp
	jne	.Lrekusoyen_raw_boot_zero_page_plan_0_1_0.4
	movq	112(%rsp), %r9
	leal	-1(%r9), %ebp
	movb	$32, %r9b
	cmpl	$3, %ebp
	jae	.Lrekusoyen_raw_boot_zero_page_plan_0_1_0.4
	movb	%dil, %r8b
	shll	$12, %r8d
	addq	%r8, %rsi
	movb	%r13b, %dl
	shll	$12, %edx
	addq	%rdx, %rcx
	movzbl	77(%rsp), %edx
	movb	%dl, %r15b
	shll	$12, %r15d
	movq	176(%rsp), %r13
	addq	%r15, %r13
	movzbl	78(%rsp), %edx
	movb	%dl, %r14b
	shll	$12, %r14d
	movq	168(%rsp), %r15
	addq	%r14, %r15
	movzbl	79(%rsp), %edx
	movb	%dl, %r11b
	shll	$12, %r11d
	addq	%r11, %rbx
	movq	112(%rsp), %r8
	cmpl	$2, %r8d
	sete	%dl
	movb	$2, %dil
	subb	%dl, %dil
	xorl	%edx, %edx
	cmpl	$1, %r8d
	movzbl	%dil, %edi
	cmovel	%edx, %edi
	movl	%r12d, %r8d
	andl	$1, %r8d
	cmoveq	%rdx, %r10
	movl	%r12d, %r9d
	andl	$2, %r9d
	movl	%r9d, %r11d
	shrl	%r11d
	testl	%r9d, %r9d
	cmoveq	%rdx, %rax
	movb	%dil, 200(%rsp)
	movl	$0, 201(%rsp)
	movl	$0, 204(%rsp)
	movq	%r8, 208(%rsp)
	movq	%r10, 216(%rsp)
	movq	%r11, 224(%rsp)
	movq	%rax, 232(%rsp)
	leaq	320(%rsp), %rdi
	movq	160(%rsp), %rdx
	movq	%rcx, %r14
	callq	rekusoyen_0_1_0.guest.maps.from_numbers
	movq	184(%rsp), %rax
	movq	%rax, 312(%rsp)
	movl	%r12d, %eax
	shll	$29, %eax
	sarl	$31, %eax
	andl	80(%rsp), %eax
	movl	%r12d, %r9d
	andl	$4, %r9d
	shrl	$2, %r9d
	shrb	$3, %r12b
	andb	$1, %r12b
	movl	84(%rsp), %ecx
	movl	%ecx, 96(%rsp)
	movl	88(%rsp), %ecx
	movl	%ecx, 100(%rsp)
	movl	92(%rsp), %ecx
	movl	%ecx, 104(%rsp)
	movb	%r12b, 108(%rsp)
	movw	$0, 109(%rsp)
	movb	$0, 111(%rsp)
	movq	128(%rsp), %rcx
	movq	%rcx, 64(%rsp)
	movq	%rbx, 56(%rsp)
	movq	136(%rsp), %rcx
	movq	%rcx, 48(%rsp)
	leaq	96(%rsp), %rcx
	movq	%rcx, 40(%rsp)
	movq	144(%rsp), %rcx
	movq	%rcx, 32(%rsp)
	movq	%r15, 24(%rsp)
	movq	152(%rsp), %rcx
	movq	%rcx, 16(%rsp)
	movq	%r13, 8(%rsp)
	movl	%eax, (%rsp)
	leaq	240(%rsp), %rdi
	leaq	312(%rsp), %rsi
	leaq	200(%rsp), %r8
	movq	%r14, %rdx
	movq	192(%rsp), %rcx
	callq	rekusoyen_0_1_0.boot.zero_page.plan
	cmpb	$0, 240(%rsp)
	je	.Lrekusoyen_raw_boot_zero_page_plan_0_1_0.6
	movzbl	241(%rsp), %edi
	jmp	.Lrekusoyen_raw_boot_zero_page_plan_0_1_0.5
.Lrekusoyen_raw_boot_zero_page_plan_0_1_0.4:
	movzbl	%r9b, %edi
.Lrekusoyen_raw_boot_zero_page_plan_0_1_0.5:
	addq	$584, %rsp
	popq	%rbx
	popq	%r12
	popq	%r13
	popq	%r14
	popq	%r15
	popq	%rbp
	jmp	rekusoyen_0_1_0.answers.U32FromRefusal.from
.Lrekusoyen_raw_boot_zero_page_plan_0_1_0.6:
	xorl	%eax, %eax
	movzbl	76(%rsp), %ecx
	movb	%cl, %al
	shll	$12, %eax
	movq	120(%rsp), %rsi
	addq	%rax, %rsi
	movups	248(%rsp), %xmm0
	movzbl	264(%rsp), %eax
	testl	%eax, %eax
	je	.Lrekusoyen_raw_boot_zero_page_plan_0_1_0.9
	xorps	%xmm1, %xmm1
	cmpl	$2, %eax
	jne	.Lrekusoyen_raw_boot_zero_page_plan_0_1_0.10
	xorl	%eax, %eax
	jmp	.Lrekusoyen_raw_boot_zero_page_plan_0_1_0.11
.Lrekusoyen_raw_boot_zero_page_plan_0_1_0.9:
	movaps	272(%rsp), %xmm1
	movq	288(%rsp), %rcx
	movl	$2, %eax
	jmp	.Lrekusoyen_raw_boot_zero_page_plan_0_1_0.12
.Lrekusoyen_raw_boot_zero_page_plan_0_1_0.10:
	movl	$1, %eax
.Lrekusoyen_raw_boot_zero_page_plan_0_1_0.11:
	xorl	%ecx, %ecx
.Lrekusoyen_raw_boot_zero_page_plan_0_1_0.12:
	movq	296(%rsp), %rdx
	movups	%xmm0, (%rsi)
	movq	%rax, 16(%rsi)
	movups	%xmm1, 24(%rsi)
	movq	%rcx, 40(%rsi)
	leaq	304(%rsp), %rax
	negq	%rax
	addq	%rsi, %rax
	addq	$48, %rax
	addq	$48, %rsi
	cmpq	$7, %rax
	movq	%rdx, (%rsi)
	xorl	%eax, %eax
	addq	$584, %rsp
	popq	%rbx
	popq	%r12
	popq	%r13
	popq	%r14
	popq	%r15
	popq	%rbp
	retq
.Lrekusoyen_raw_boot_zero_page_plan_0_1_0.func_end:
	.size	rekusoyen_raw_boot_zero_page_plan_0_1_0, .Lrekusoyen_raw_boot_zero_page_plan_0_1_0.func_end-rekusoyen_raw_boot_zero_page_plan_0_1_0
	.section	.text.rekusoyen_raw_elf_note_0_1_0,"ax",@progbits
	.globl	rekusoyen_raw_elf_note_0_1_0
	.hidden	rekusoyen_raw_elf_note_0_1_0
	.p2align	4
	.type	rekusoyen_raw_elf_note_0_1_0,@function
rekusoyen_raw_elf_note_0_1_0:
	pushq	%rbp
	pushq	%r14
	pushq	%rbx
	subq	$48, %rsp
	movq	%rcx, %r10
	movq	%rdx, %rcx
	movq	%rsi, %rdx
	movq	%rdi, %rsi
	xorl	%edi, %edi
	testq	%rsi, %rsi
	sete	%r11b
	xorl	%ebx, %ebx
	testq	%r8, %r8
	sete	%bpl
	movl	$62, %eax
	cmpq	$5, %r9
	jne	.Lrekusoyen_raw_elf_note_0_1_0.13
	xorps	%xmm0, %xmm0
	movaps	%xmm0, 32(%rsp)
	movaps	%xmm0, 16(%rsp)
	movaps	%xmm0, (%rsp)
	movabsq	$1099511627777, %rax
	cmpq	%rax, %rdx
	jae	.Lrekusoyen_raw_elf_note_0_1_0.4
	movq	%r8, %r14
	movb	%r11b, %dil
	shll	$12, %edi
	addq	%rdi, %rsi
	movq	%rsp, %rdi
	movq	%r10, %r8
	callq	rekusoyen_0_1_0.elf.notes.walk_notes
	cmpb	$0, (%rsp)
	je	.Lrekusoyen_raw_elf_note_0_1_0.6
	movzbl	1(%rsp), %eax
	jmp	.Lrekusoyen_raw_elf_note_0_1_0.5
.Lrekusoyen_raw_elf_note_0_1_0.4:
	movb	$31, %al
.Lrekusoyen_raw_elf_note_0_1_0.5:
	movzbl	%al, %edi
	addq	$48, %rsp
	popq	%rbx
	popq	%r14
	popq	%rbp
	jmp	rekusoyen_0_1_0.answers.U32FromRefusal.from
.Lrekusoyen_raw_elf_note_0_1_0.6:
	movb	%bpl, %bl
	shll	$12, %ebx
	movzbl	8(%rsp), %edx
	movq	40(%rsp), %rax
	testl	%edx, %edx
	movq	%r14, %rcx
	je	.Lrekusoyen_raw_elf_note_0_1_0.9
	xorps	%xmm0, %xmm0
	cmpl	$2, %edx
	jne	.Lrekusoyen_raw_elf_note_0_1_0.10
	xorl	%edx, %edx
	jmp	.Lrekusoyen_raw_elf_note_0_1_0.11
.Lrekusoyen_raw_elf_note_0_1_0.9:
	movq	16(%rsp), %rsi
	movups	24(%rsp), %xmm0
	movl	$2, %edx
	jmp	.Lrekusoyen_raw_elf_note_0_1_0.12
.Lrekusoyen_raw_elf_note_0_1_0.10:
	movl	$1, %edx
.Lrekusoyen_raw_elf_note_0_1_0.11:
	xorl	%esi, %esi
.Lrekusoyen_raw_elf_note_0_1_0.12:
	movq	%rdx, (%rcx,%rbx)
	movq	%rsi, 8(%rcx,%rbx)
	movq	%rax, 16(%rcx,%rbx)
	movups	%xmm0, 24(%rcx,%rbx)
	xorl	%eax, %eax
.Lrekusoyen_raw_elf_note_0_1_0.13:
	addq	$48, %rsp
	popq	%rbx
	popq	%r14
	popq	%rbp
	retq
.Lrekusoyen_raw_elf_note_0_1_0.func_end:
	.size	rekusoyen_raw_elf_note_0_1_0, .Lrekusoyen_raw_elf_note_0_1_0.func_end-rekusoyen_raw_elf_note_0_1_0
	.section	.text.rekusoyen_raw_line_as_cstring_0_1_0,"ax",@progbits
	.globl	rekusoyen_raw_line_as_cstring_0_1_0
	.hidden	rekusoyen_raw_line_as_cstring_0_1_0
	.p2align	4
	.type	rekusoyen_raw_line_as_cstring_0_1_0,@function
rekusoyen_raw_line_as_cstring_0_1_0:
	pushq	%rbp
	pushq	%r15
	pushq	%r14
	pushq	%r13
	pushq	%r12
	pushq	%rbx
	subq	$56, %rsp
	xorl	%r10d, %r10d
	testq	%rdi, %rdi
	sete	%r11b
	xorl	%ebp, %ebp
	testq	%rdx, %rdx
	sete	%r15b
	xorl	%r13d, %r13d
	testq	%r8, %r8
	sete	%r12b
	movl	$62, %eax
	cmpq	$1, %r9
	jne	.Lrekusoyen_raw_line_as_cstring_0_1_0.18
	movb	$33, %al
	cmpq	$32792, %rsi
	jne	.Lrekusoyen_raw_line_as_cstring_0_1_0.5
	movb	%r11b, %r10b
	shll	$12, %r10d
	addq	%r10, %rdi
	movq	16(%rdi), %r9
	leaq	-1(%r9), %rsi
	movb	$20, %al
	cmpq	$16383, %rsi
	ja	.Lrekusoyen_raw_line_as_cstring_0_1_0.5
	movq	(%rdi), %rbx
	movq	8(%rdi), %rsi
	testq	%rsi, %rsi
	sete	%r10b
	cmpq	%rbx, %r9
	setbe	%r14b
	orb	%r10b, %r14b
	je	.Lrekusoyen_raw_line_as_cstring_0_1_0.4
	cmpq	%rbx, %r9
	seta	%r9b
	testq	%rsi, %rsi
	sete	%sil
	testb	%r9b, %sil
	je	.Lrekusoyen_raw_line_as_cstring_0_1_0.5
	movq	$0, 8(%rsp)
	jmp	.Lrekusoyen_raw_line_as_cstring_0_1_0.9
.Lrekusoyen_raw_line_as_cstring_0_1_0.4:
	movq	%rbx, %r10
	notq	%r10
	addq	%r10, %r9
	subq	$4, %r9
	setae	%r10b
	cmpq	%r9, %rsi
	setbe	%r9b
	testb	%r9b, %r10b
	je	.Lrekusoyen_raw_line_as_cstring_0_1_0.5
	cmpq	$16384, %rsi
	movl	$16384, %eax
	cmovbq	%rsi, %rax
	movq	%rax, 8(%rsp)
	testq	%rbx, %rbx
	je	.Lrekusoyen_raw_line_as_cstring_0_1_0.15
.Lrekusoyen_raw_line_as_cstring_0_1_0.9:
	movq	%rdx, 40(%rsp)
	movq	%rcx, 48(%rsp)
	movq	%r8, 32(%rsp)
	movq	%rdi, 16(%rsp)
	addq	$24, %rdi
	movq	%rdi, 24(%rsp)
	movq	%rbx, %rsi
	xorl	%edx, %edx
	callq	rekusoyen_0_1_0.slugs.bytes.has
	movb	$30, %dl
	testb	%al, %al
	jne	.Lrekusoyen_raw_line_as_cstring_0_1_0.13
	movq	16(%rsp), %rdi
	addq	$16408, %rdi
	movq	%rdi, 16(%rsp)
	movq	8(%rsp), %rsi
	xorl	%edx, %edx
	callq	rekusoyen_0_1_0.slugs.bytes.has
	movb	$30, %dl
	testb	%al, %al
	movq	48(%rsp), %rsi
	movq	40(%rsp), %rdi
	je	.Lrekusoyen_raw_line_as_cstring_0_1_0.11
.Lrekusoyen_raw_line_as_cstring_0_1_0.13:
	movzbl	%dl, %edi
	jmp	.Lrekusoyen_raw_line_as_cstring_0_1_0.6
.Lrekusoyen_raw_line_as_cstring_0_1_0.5:
	movzbl	%al, %edi
.Lrekusoyen_raw_line_as_cstring_0_1_0.6:
	addq	$56, %rsp
	popq	%rbx
	popq	%r12
	popq	%r13
	popq	%r14
	popq	%r15
	popq	%rbp
	jmp	rekusoyen_0_1_0.answers.U32FromRefusal.from
.Lrekusoyen_raw_line_as_cstring_0_1_0.11:
	cmpq	%rbx, %rsi
	setbe	%al
	orb	%r14b, %al
	je	.Lrekusoyen_raw_line_as_cstring_0_1_0.12
	cmpq	%rbx, %rsi
	setbe	%al
	xorb	$1, %r14b
	movb	$33, %dl
	orb	%al, %r14b
	jne	.Lrekusoyen_raw_line_as_cstring_0_1_0.13
	jmp	.Lrekusoyen_raw_line_as_cstring_0_1_0.17
.Lrekusoyen_raw_line_as_cstring_0_1_0.15:
	movb	$29, %dl
	movzbl	%dl, %edi
	jmp	.Lrekusoyen_raw_line_as_cstring_0_1_0.6
.Lrekusoyen_raw_line_as_cstring_0_1_0.12:
	movq	%rbx, %rax
	notq	%rax
	addq	%rsi, %rax
	subq	$4, %rax
	setae	%cl
	cmpq	%rax, 8(%rsp)
	setbe	%al
	movb	$33, %dl
	testb	%al, %cl
	je	.Lrekusoyen_raw_line_as_cstring_0_1_0.13
.Lrekusoyen_raw_line_as_cstring_0_1_0.17:
	movb	%r15b, %bpl
	shll	$12, %ebp
	addq	%rbp, %rdi
	movb	%r12b, %r13b
	shll	$12, %r13d
	movq	24(%rsp), %rdx
	movq	%rbx, %rcx
	movq	16(%rsp), %r8
	movq	8(%rsp), %r9
	callq	rekusoyen_0_1_0.cmdline.writing.write
	movq	32(%rsp), %rcx
	movq	%rax, (%rcx,%r13)
	xorl	%eax, %eax
.Lrekusoyen_raw_line_as_cstring_0_1_0.18:
	addq	$56, %rsp
	popq	%rbx
	popq	%r12
	popq	%r13
	popq	%r14
	popq	%r15
	popq	%rbp
	retq
.Lrekusoyen_raw_line_as_cstring_0_1_0.func_end:
	.size	rekusoyen_raw_line_as_cstring_0_1_0, .Lrekusoyen_raw_line_as_cstring_0_1_0.func_end-rekusoyen_raw_line_as_cstring_0_1_0
	.section	.text.rekusoyen_raw_line_equal_0_1_0,"ax",@progbits
	.globl	rekusoyen_raw_line_equal_0_1_0
	.hidden	rekusoyen_raw_line_equal_0_1_0
	.p2align	4
	.type	rekusoyen_raw_line_equal_0_1_0,@function
rekusoyen_raw_line_equal_0_1_0:
	pushq	%rbp
	pushq	%r15
	pushq	%r14
	pushq	%r13
	pushq	%r12
	pushq	%rbx
	subq	$120, %rsp
	xorl	%r14d, %r14d
	testq	%rdi, %rdi
	sete	%bl
	xorl	%r13d, %r13d
	testq	%rdx, %rdx
	sete	%r11b
	testq	%r8, %r8
	sete	%r10b
	movl	$62, %eax
	cmpq	$1, %r9
	jne	.Lrekusoyen_raw_line_equal_0_1_0.28
	movb	$33, %al
	cmpq	$32792, %rsi
	jne	.Lrekusoyen_raw_line_equal_0_1_0.16
	movb	%bl, %r14b
	shll	$12, %r14d
	leaq	(%rdi,%r14), %r12
	movq	16(%r12), %rsi
	leaq	-1(%rsi), %r9
	movb	$20, %al
	cmpq	$16383, %r9
	ja	.Lrekusoyen_raw_line_equal_0_1_0.16
	movq	(%r12), %r15
	movq	8(%r12), %rbp
	testq	%rbp, %rbp
	sete	%r9b
	cmpq	%r15, %rsi
	setbe	%bl
	orb	%r9b, %bl
	je	.Lrekusoyen_raw_line_equal_0_1_0.6
	cmpq	%r15, %rsi
	seta	%sil
	testq	%rbp, %rbp
	sete	%r9b
	testb	%sil, %r9b
	je	.Lrekusoyen_raw_line_equal_0_1_0.16
	movq	%r15, %rbp
	movq	$0, 24(%rsp)
	jmp	.Lrekusoyen_raw_line_equal_0_1_0.7
.Lrekusoyen_raw_line_equal_0_1_0.6:
	movq	%r15, %r9
	notq	%r9
	addq	%r9, %rsi
	subq	$4, %rsi
	setae	%r9b
	movq	%rbp, 24(%rsp)
	cmpq	%rsi, %rbp
	setbe	%sil
	testb	%sil, %r9b
	movq	%r15, %rbp
	je	.Lrekusoyen_raw_line_equal_0_1_0.16
.Lrekusoyen_raw_line_equal_0_1_0.7:
	movb	$33, %al
	cmpq	$32792, %rcx
	jne	.Lrekusoyen_raw_line_equal_0_1_0.16
	movb	%r11b, %r13b
	shll	$12, %r13d
	leaq	(%rdx,%r13), %r11
	movq	16(%r11), %rcx
	leaq	-1(%rcx), %rsi
	movb	$20, %al
	cmpq	$16383, %rsi
	ja	.Lrekusoyen_raw_line_equal_0_1_0.16
	movq	(%r11), %r15
	movq	8(%r11), %rbx
	testq	%rbx, %rbx
	sete	%sil
	cmpq	%r15, %rcx
	setbe	%r9b
	orb	%sil, %r9b
	je	.Lrekusoyen_raw_line_equal_0_1_0.12
	cmpq	%r15, %rcx
	seta	%cl
	testq	%rbx, %rbx
	sete	%sil
	testb	%cl, %sil
	movl	$0, %r9d
	je	.Lrekusoyen_raw_line_equal_0_1_0.16
	xorl	%ebx, %ebx
	jmp	.Lrekusoyen_raw_line_equal_0_1_0.13
.Lrekusoyen_raw_line_equal_0_1_0.12:
	movq	%r15, %rsi
	notq	%rsi
	addq	%rsi, %rcx
	subq	$4, %rcx
	setae	%sil
	cmpq	%rcx, %rbx
	setbe	%cl
	testb	%cl, %sil
	movl	$0, %r9d
	je	.Lrekusoyen_raw_line_equal_0_1_0.16
.Lrekusoyen_raw_line_equal_0_1_0.13:
	movq	%r15, 48(%rsp)
	movb	%r10b, %r9b
	leaq	24(%r12), %rsi
	leaq	16408(%r12), %rax
	movq	%rax, 104(%rsp)
	movq	24(%rsp), %rax
	cmpq	$16384, %rax
	movl	$16384, %ecx
	movl	$16384, %r15d
	cmovbq	%rax, %r15
	cmpq	$16384, %rbx
	movq	%rbx, 96(%rsp)
	cmovbq	%rbx, %rcx
	movq	%rcx, 80(%rsp)
	movq	%rax, 24(%rsp)
	testq	%rax, %rax
	setne	%al
	testq	%rbp, %rbp
	sete	%cl
	testb	%al, %cl
	movq	%r8, 8(%rsp)
	movq	%rdx, 64(%rsp)
	movq	%rdi, 56(%rsp)
	movq	%rsi, 112(%rsp)
	jne	.Lrekusoyen_raw_line_equal_0_1_0.17
	movq	%r9, %rbx
	movq	%r11, 40(%rsp)
	movq	%rsi, %rdi
	movq	%rbp, %rsi
	xorl	%edx, %edx
	callq	rekusoyen_0_1_0.slugs.bytes.has
	testb	%al, %al
	je	.Lrekusoyen_raw_line_equal_0_1_0.18
	movb	$30, %al
	movl	%eax, 20(%rsp)
	movq	8(%rsp), %r8
	movq	56(%rsp), %rdi
	movq	64(%rsp), %rdx
	movq	40(%rsp), %r11
	movq	48(%rsp), %rsi
	movq	%rbx, %r9
	xorl	%r10d, %r10d
	jmp	.Lrekusoyen_raw_line_equal_0_1_0.19
.Lrekusoyen_raw_line_equal_0_1_0.16:
	movzbl	%al, %edi
	addq	$120, %rsp
	popq	%rbx
	popq	%r12
	popq	%r13
	popq	%r14
	popq	%r15
	popq	%rbp
	jmp	rekusoyen_0_1_0.answers.U32FromRefusal.from
.Lrekusoyen_raw_line_equal_0_1_0.17:
	xorl	%r10d, %r10d
	movb	$29, %al
	movl	%eax, 20(%rsp)
	movq	48(%rsp), %rsi
	jmp	.Lrekusoyen_raw_line_equal_0_1_0.19
.Lrekusoyen_raw_line_equal_0_1_0.18:
	leaq	16408(%r12), %rdi
	movq	%r15, %rsi
	xorl	%edx, %edx
	callq	rekusoyen_0_1_0.slugs.bytes.has
	testb	%al, %al
	movl	$30, %ecx
	movl	$0, %edx
	cmovel	%edx, %ecx
	movl	%ecx, 20(%rsp)
	xorb	$1, %al
	movl	%eax, %r10d
	movq	8(%rsp), %r8
	movq	56(%rsp), %rdi
	movq	64(%rsp), %rdx
	movq	40(%rsp), %r11
	movq	48(%rsp), %rsi
	movq	%rbx, %r9
.Lrekusoyen_raw_line_equal_0_1_0.19:
	movq	%r15, 32(%rsp)
	shll	$12, %r9d
	movq	%r9, 40(%rsp)
	leaq	24(%r11), %r9
	leaq	16408(%r11), %rax
	movq	%rax, 72(%rsp)
	cmpq	$0, 96(%rsp)
	setne	%al
	testq	%rsi, %rsi
	sete	%cl
	testb	%al, %cl
	movq	%r9, 88(%rsp)
	jne	.Lrekusoyen_raw_line_equal_0_1_0.22
	movq	%r9, %rdi
	xorl	%edx, %edx
	movq	%r11, %r15
	movl	%r10d, %ebx
	callq	rekusoyen_0_1_0.slugs.bytes.has
	movl	%ebx, %r10d
	movq	%r15, %r11
	movq	64(%rsp), %rdx
	movq	56(%rsp), %rdi
	movq	8(%rsp), %r8
	movb	$30, %cl
	testb	%al, %al
	movb	$1, %sil
	jne	.Lrekusoyen_raw_line_equal_0_1_0.23
	movq	72(%rsp), %rdi
	movq	80(%rsp), %rsi
	xorl	%edx, %edx
	callq	rekusoyen_0_1_0.slugs.bytes.has
	movl	%ebx, %r10d
	movq	%r15, %r11
	movq	64(%rsp), %rdx
	movq	56(%rsp), %rdi
	movq	8(%rsp), %r8
	movl	%eax, %esi
	testb	%al, %al
	movl	$30, %ecx
	movl	$0, %eax
	cmovel	%eax, %ecx
	jmp	.Lrekusoyen_raw_line_equal_0_1_0.23
.Lrekusoyen_raw_line_equal_0_1_0.22:
	movb	$29, %cl
	movb	$1, %sil
.Lrekusoyen_raw_line_equal_0_1_0.23:
	testb	%r10b, %r10b
	je	.Lrekusoyen_raw_line_equal_0_1_0.26
	testb	%sil, %sil
	je	.Lrekusoyen_raw_line_equal_0_1_0.29
.Lrekusoyen_raw_line_equal_0_1_0.25:
	xorl	%eax, %eax
	jmp	.Lrekusoyen_raw_line_equal_0_1_0.27
.Lrekusoyen_raw_line_equal_0_1_0.26:
	cmpb	%cl, 20(%rsp)
	sete	%al
	andb	%sil, %al
.Lrekusoyen_raw_line_equal_0_1_0.27:
	movzbl	%al, %eax
	movq	40(%rsp), %rcx
	movq	%rax, (%r8,%rcx)
	xorl	%eax, %eax
.Lrekusoyen_raw_line_equal_0_1_0.28:
	addq	$120, %rsp
	popq	%rbx
	popq	%r12
	popq	%r13
	popq	%r14
	popq	%r15
	popq	%rbp
	retq
.Lrekusoyen_raw_line_equal_0_1_0.29:
	movq	48(%rsp), %r15
	cmpq	%r15, %rbp
	jne	.Lrekusoyen_raw_line_equal_0_1_0.38
	movq	80(%rsp), %rax
	cmpq	%rax, 32(%rsp)
	jne	.Lrekusoyen_raw_line_equal_0_1_0.38
	cmpq	$4, %rbp
	jae	.Lrekusoyen_raw_line_equal_0_1_0.54
	testq	%rbp, %rbp
	leaq	24(%r12), %rax
	movq	88(%rsp), %rcx
	je	.Lrekusoyen_raw_line_equal_0_1_0.62
	movzbl	(%rax), %eax
	cmpb	(%rcx), %al
	jne	.Lrekusoyen_raw_line_equal_0_1_0.59
	cmpq	$1, %rbp
	je	.Lrekusoyen_raw_line_equal_0_1_0.62
	movzbl	25(%r12), %ecx
	movl	$1, %eax
	cmpb	25(%r11), %cl
	jne	.Lrekusoyen_raw_line_equal_0_1_0.60
	cmpq	$2, %rbp
	je	.Lrekusoyen_raw_line_equal_0_1_0.62
	movzbl	26(%r12), %ecx
	movl	$2, %eax
	cmpb	26(%r11), %cl
	jne	.Lrekusoyen_raw_line_equal_0_1_0.60
	jmp	.Lrekusoyen_raw_line_equal_0_1_0.62
.Lrekusoyen_raw_line_equal_0_1_0.38:
	leaq	1(%rbp), %rax
	cmpq	$0, 24(%rsp)
	movq	32(%rsp), %rcx
	leaq	5(%rbp,%rcx), %rcx
	cmoveq	%rax, %rcx
	leaq	1(%r15), %rax
	cmpq	$0, 96(%rsp)
	movq	80(%rsp), %rsi
	leaq	5(%r15,%rsi), %rsi
	cmoveq	%rax, %rsi
	cmpq	%rsi, %rcx
	jne	.Lrekusoyen_raw_line_equal_0_1_0.25
	cmpq	$1, %rcx
	je	.Lrekusoyen_raw_line_equal_0_1_0.72
	addq	$-2, %rcx
	subq	%r15, %r13
	addq	%r13, %rdx
	addq	$16404, %rdx
	movq	%r15, %rsi
	negq	%rsi
	subq	%rbp, %r14
	addq	%r14, %rdi
	addq	$16404, %rdi
	movq	%rbp, %r9
	negq	%r9
	xorl	%r10d, %r10d
	movq	112(%rsp), %r12
.Lrekusoyen_raw_line_equal_0_1_0.41:
	movq	%r10, %r11
	subq	%rbp, %r11
	jae	.Lrekusoyen_raw_line_equal_0_1_0.43
	leaq	(%r12,%r10), %rax
	jmp	.Lrekusoyen_raw_line_equal_0_1_0.46
.Lrekusoyen_raw_line_equal_0_1_0.43:
	leaq	(%r9,%r10), %rax
	cmpq	$3, %rax
	ja	.Lrekusoyen_raw_line_equal_0_1_0.45
	leaq	.Lrekusoyen_0_1_0.static.3(%rip), %rax
	addq	%r11, %rax
	jmp	.Lrekusoyen_raw_line_equal_0_1_0.46
.Lrekusoyen_raw_line_equal_0_1_0.45:
	leaq	(%rdi,%r10), %rax
.Lrekusoyen_raw_line_equal_0_1_0.46:
	movq	%r10, %r14
	subq	%r15, %r14
	jae	.Lrekusoyen_raw_line_equal_0_1_0.48
	movq	88(%rsp), %r11
	addq	%r10, %r11
	jmp	.Lrekusoyen_raw_line_equal_0_1_0.51
.Lrekusoyen_raw_line_equal_0_1_0.48:
	leaq	(%rsi,%r10), %r11
	cmpq	$3, %r11
	ja	.Lrekusoyen_raw_line_equal_0_1_0.50
	leaq	.Lrekusoyen_0_1_0.static.3(%rip), %r11
	addq	%r14, %r11
	jmp	.Lrekusoyen_raw_line_equal_0_1_0.51
.Lrekusoyen_raw_line_equal_0_1_0.50:
	leaq	(%rdx,%r10), %r11
.Lrekusoyen_raw_line_equal_0_1_0.51:
	movzbl	(%rax), %eax
	cmpb	(%r11), %al
	sete	%al
	jne	.Lrekusoyen_raw_line_equal_0_1_0.27
	cmpq	%r10, %rcx
	leaq	1(%r10), %r10
	jne	.Lrekusoyen_raw_line_equal_0_1_0.41
	jmp	.Lrekusoyen_raw_line_equal_0_1_0.27
.Lrekusoyen_raw_line_equal_0_1_0.54:
	leaq	24(%r12), %rdi
	movl	(%rdi), %eax
	movq	88(%rsp), %rdx
	cmpl	(%rdx), %eax
	jne	.Lrekusoyen_raw_line_equal_0_1_0.25
	movq	%rbp, %rsi
	movq	%r11, %r14
	callq	rekusoyen_0_1_0.core.cmp.slices.groups_equal._i8_31_core.cmp.numbers.U8PartialEq___
	movq	%r14, %r11
	movq	8(%rsp), %r8
	testb	%al, %al
	je	.Lrekusoyen_raw_line_equal_0_1_0.25
	jmp	.Lrekusoyen_raw_line_equal_0_1_0.62
.Lrekusoyen_raw_line_equal_0_1_0.59:
	xorl	%eax, %eax
.Lrekusoyen_raw_line_equal_0_1_0.60:
	cmpq	%rbp, %rax
	jb	.Lrekusoyen_raw_line_equal_0_1_0.25
.Lrekusoyen_raw_line_equal_0_1_0.62:
	movq	24(%rsp), %rcx
	cmpq	$4, %rcx
	jae	.Lrekusoyen_raw_line_equal_0_1_0.69
	testq	%rcx, %rcx
	je	.Lrekusoyen_raw_line_equal_0_1_0.72
	leaq	16408(%r12), %rax
	movzbl	(%rax), %eax
	movq	72(%rsp), %rdx
	cmpb	(%rdx), %al
	jne	.Lrekusoyen_raw_line_equal_0_1_0.73
	movq	32(%rsp), %rdx
	movq	%rdx, %rax
	cmpq	$1, %rcx
	je	.Lrekusoyen_raw_line_equal_0_1_0.74
	movzbl	16409(%r12), %ecx
	movl	$1, %eax
	cmpb	16409(%r11), %cl
	jne	.Lrekusoyen_raw_line_equal_0_1_0.74
	movq	%rdx, %rax
	cmpq	$2, 24(%rsp)
	je	.Lrekusoyen_raw_line_equal_0_1_0.74
	movzbl	16410(%r12), %eax
	cmpb	16410(%r11), %al
	movl	$2, %eax
	cmoveq	%rdx, %rax
	jmp	.Lrekusoyen_raw_line_equal_0_1_0.74
.Lrekusoyen_raw_line_equal_0_1_0.72:
	movb	$1, %al
	jmp	.Lrekusoyen_raw_line_equal_0_1_0.27
.Lrekusoyen_raw_line_equal_0_1_0.69:
	movq	104(%rsp), %rdi
	movl	(%rdi), %eax
	movq	72(%rsp), %rdx
	cmpl	(%rdx), %eax
	jne	.Lrekusoyen_raw_line_equal_0_1_0.25
	movq	32(%rsp), %rsi
	callq	rekusoyen_0_1_0.core.cmp.slices.groups_equal._i8_31_core.cmp.numbers.U8PartialEq___
	movq	8(%rsp), %r8
	jmp	.Lrekusoyen_raw_line_equal_0_1_0.27
.Lrekusoyen_raw_line_equal_0_1_0.73:
	xorl	%eax, %eax
	movq	32(%rsp), %rdx
.Lrekusoyen_raw_line_equal_0_1_0.74:
	cmpq	%rdx, %rax
	setae	%al
	movq	8(%rsp), %r8
	jmp	.Lrekusoyen_raw_line_equal_0_1_0.27
.Lrekusoyen_raw_line_equal_0_1_0.func_end:
	.size	rekusoyen_raw_line_equal_0_1_0, .Lrekusoyen_raw_line_equal_0_1_0.func_end-rekusoyen_raw_line_equal_0_1_0
	.section	.text.rekusoyen_raw_line_words_0_1_0,"ax",@progbits
	.globl	rekusoyen_raw_line_words_0_1_0
	.hidden	rekusoyen_raw_line_words_0_1_0
	.p2align	4
	.type	rekusoyen_raw_line_words_0_1_0,@function
rekusoyen_raw_line_words_0_1_0:
	pushq	%rbp
	pushq	%r15
	pushq	%r14
	pushq	%r13
	pushq	%r12
	pushq	%rbx
	movq	%r9, -8(%rsp)
	movq	%rcx, -16(%rsp)
	movq	56(%rsp), %rax
	xorl	%r9d, %r9d
	testq	%rdi, %rdi
	sete	%bl
	xorl	%r14d, %r14d
	testq	%rdx, %rdx
	sete	%r15b
	xorl	%r13d, %r13d
	movq	%r8, -24(%rsp)
	testq	%r8, %r8
	movq	%rax, %r8
	sete	%r10b
	xorl	%r12d, %r12d
	testq	%rax, %rax
	sete	%bpl
	xorl	%r11d, %r11d
	cmpq	$0, 72(%rsp)
	sete	%cl
	cmpq	$1, 80(%rsp)
	movl	$62, %eax
	jne	.Lrekusoyen_raw_line_words_0_1_0.63
	movb	%bl, %r9b
	shll	$12, %r9d
	addq	%r9, %rdi
	movb	%cl, %r11b
	shll	$12, %r11d
	testq	%rsi, %rsi
	je	.Lrekusoyen_raw_line_words_0_1_0.2
	xorl	%eax, %eax
	jmp	.Lrekusoyen_raw_line_words_0_1_0.4
	.p2align	4
.Lrekusoyen_raw_line_words_0_1_0.64:
	incq	%rax
	cmpq	%rsi, %rax
	jae	.Lrekusoyen_raw_line_words_0_1_0.11
.Lrekusoyen_raw_line_words_0_1_0.4:
	cmpb	$34, (%rdi,%rax)
	jne	.Lrekusoyen_raw_line_words_0_1_0.64
	leaq	1(%rax), %rcx
	.p2align	4
.Lrekusoyen_raw_line_words_0_1_0.6:
	cmpq	%rsi, %rcx
	jae	.Lrekusoyen_raw_line_words_0_1_0.7
	leaq	1(%rcx), %r9
	cmpb	$34, (%rdi,%rcx)
	movq	%r9, %rcx
	jne	.Lrekusoyen_raw_line_words_0_1_0.6
	movq	%r9, %rax
	cmpq	%rsi, %r9
	jb	.Lrekusoyen_raw_line_words_0_1_0.4
	jmp	.Lrekusoyen_raw_line_words_0_1_0.10
.Lrekusoyen_raw_line_words_0_1_0.7:
	movq	%rax, %r9
.Lrekusoyen_raw_line_words_0_1_0.10:
	cmpq	%rsi, %r9
	jae	.Lrekusoyen_raw_line_words_0_1_0.11
.Lrekusoyen_raw_line_words_0_1_0.62:
	movq	72(%rsp), %rax
	movq	%r9, (%rax,%r11)
	movl	$71, %eax
	jmp	.Lrekusoyen_raw_line_words_0_1_0.63
.Lrekusoyen_raw_line_words_0_1_0.2:
	xorl	%r9d, %r9d
	cmpq	%rsi, %r9
	jb	.Lrekusoyen_raw_line_words_0_1_0.62
.Lrekusoyen_raw_line_words_0_1_0.11:
	xorl	%r9d, %r9d
	testq	%rsi, %rsi
	je	.Lrekusoyen_raw_line_words_0_1_0.61
	movq	64(%rsp), %rbx
	movb	%r15b, %r14b
	shll	$12, %r14d
	addq	%r14, %rdx
	movb	%r10b, %r13b
	shll	$12, %r13d
	addq	%r13, -24(%rsp)
	movb	%bpl, %r12b
	shll	$12, %r12d
	addq	%r12, %r8
	xorl	%eax, %eax
	movq	%rsi, %r10
	xorl	%r9d, %r9d
	.p2align	4
.Lrekusoyen_raw_line_words_0_1_0.13:
	cmpb	$32, (%rdi,%rax)
	jne	.Lrekusoyen_raw_line_words_0_1_0.15
	incq	%rax
	decq	%r10
	jne	.Lrekusoyen_raw_line_words_0_1_0.13
	jmp	.Lrekusoyen_raw_line_words_0_1_0.27
.Lrekusoyen_raw_line_words_0_1_0.16:
	leaq	1(%rax), %r14
	movq	%rax, %r10
	.p2align	4
.Lrekusoyen_raw_line_words_0_1_0.17:
	movzbl	(%rdi,%r10), %ecx
	cmpl	$32, %ecx
	je	.Lrekusoyen_raw_line_words_0_1_0.23
	cmpl	$34, %ecx
	je	.Lrekusoyen_raw_line_words_0_1_0.19
	incq	%r10
	incq	%r14
	cmpq	%rsi, %r10
	jb	.Lrekusoyen_raw_line_words_0_1_0.17
	jmp	.Lrekusoyen_raw_line_words_0_1_0.22
	.p2align	4
.Lrekusoyen_raw_line_words_0_1_0.19:
	cmpq	%rsi, %r14
	jae	.Lrekusoyen_raw_line_words_0_1_0.23
	leaq	1(%r14), %rax
	cmpb	$34, (%rdi,%r14)
	movq	%rax, %r14
	jne	.Lrekusoyen_raw_line_words_0_1_0.19
.Lrekusoyen_raw_line_words_0_1_0.15:
	cmpq	%rsi, %rax
	jb	.Lrekusoyen_raw_line_words_0_1_0.16
	cmpq	%rsi, %rax
	jb	.Lrekusoyen_raw_line_words_0_1_0.25
	jmp	.Lrekusoyen_raw_line_words_0_1_0.26
.Lrekusoyen_raw_line_words_0_1_0.23:
	movq	%r10, %rax
	cmpq	%rsi, %rax
	jae	.Lrekusoyen_raw_line_words_0_1_0.26
.Lrekusoyen_raw_line_words_0_1_0.25:
	cmpb	$34, (%rdi,%rax)
	je	.Lrekusoyen_raw_line_words_0_1_0.27
.Lrekusoyen_raw_line_words_0_1_0.26:
	incq	%r9
	movq	%rsi, %r10
	subq	%rax, %r10
	jne	.Lrekusoyen_raw_line_words_0_1_0.13
	jmp	.Lrekusoyen_raw_line_words_0_1_0.27
.Lrekusoyen_raw_line_words_0_1_0.22:
	incq	%rax
	cmpq	%rax, %rsi
	cmovaq	%rsi, %rax
	incq	%r9
	movq	%rsi, %r10
	subq	%rax, %r10
	jne	.Lrekusoyen_raw_line_words_0_1_0.13
.Lrekusoyen_raw_line_words_0_1_0.27:
	movq	-8(%rsp), %rcx
	cmpq	%rcx, %rbx
	cmovbq	%rbx, %rcx
	movq	-16(%rsp), %rax
	cmpq	%rax, %rcx
	cmovaeq	%rax, %rcx
	movl	$72, %eax
	cmpq	%r9, %rcx
	jb	.Lrekusoyen_raw_line_words_0_1_0.63
	xorl	%r13d, %r13d
	movq	%rsi, %r10
	xorl	%eax, %eax
.Lrekusoyen_raw_line_words_0_1_0.29:
	movq	%r13, %r12
	.p2align	4
.Lrekusoyen_raw_line_words_0_1_0.30:
	cmpb	$32, (%rdi,%r12)
	jne	.Lrekusoyen_raw_line_words_0_1_0.32
	incq	%r12
	decq	%r10
	jne	.Lrekusoyen_raw_line_words_0_1_0.30
	jmp	.Lrekusoyen_raw_line_words_0_1_0.61
.Lrekusoyen_raw_line_words_0_1_0.32:
	movq	%r12, %r13
	cmpq	%rsi, %r12
	jae	.Lrekusoyen_raw_line_words_0_1_0.43
	movq	%r12, %r13
.Lrekusoyen_raw_line_words_0_1_0.34:
	leaq	1(%r13), %r14
	movq	%r13, %r10
	.p2align	4
.Lrekusoyen_raw_line_words_0_1_0.35:
	movzbl	(%rdi,%r10), %ecx
	cmpl	$32, %ecx
	je	.Lrekusoyen_raw_line_words_0_1_0.42
	cmpl	$34, %ecx
	je	.Lrekusoyen_raw_line_words_0_1_0.37
	incq	%r10
	incq	%r14
	cmpq	%rsi, %r10
	jb	.Lrekusoyen_raw_line_words_0_1_0.35
	jmp	.Lrekusoyen_raw_line_words_0_1_0.41
	.p2align	4
.Lrekusoyen_raw_line_words_0_1_0.37:
	cmpq	%rsi, %r14
	jae	.Lrekusoyen_raw_line_words_0_1_0.42
	leaq	1(%r14), %r13
	cmpb	$34, (%rdi,%r14)
	movq	%r13, %r14
	jne	.Lrekusoyen_raw_line_words_0_1_0.37
	cmpq	%rsi, %r13
	jb	.Lrekusoyen_raw_line_words_0_1_0.34
	jmp	.Lrekusoyen_raw_line_words_0_1_0.43
.Lrekusoyen_raw_line_words_0_1_0.42:
	movq	%r10, %r13
.Lrekusoyen_raw_line_words_0_1_0.43:
	cmpq	%rsi, %r13
	jae	.Lrekusoyen_raw_line_words_0_1_0.45
	cmpb	$34, (%rdi,%r13)
	je	.Lrekusoyen_raw_line_words_0_1_0.61
.Lrekusoyen_raw_line_words_0_1_0.45:
	cmpq	-16(%rsp), %rax
	jae	.Lrekusoyen_raw_line_words_0_1_0.47
.Lrekusoyen_raw_line_words_0_1_0.46:
	movq	%r12, (%rdx,%rax,8)
.Lrekusoyen_raw_line_words_0_1_0.47:
	cmpq	-8(%rsp), %rax
	jae	.Lrekusoyen_raw_line_words_0_1_0.49
	movq	-24(%rsp), %rcx
	movq	%r13, (%rcx,%rax,8)
	jmp	.Lrekusoyen_raw_line_words_0_1_0.49
.Lrekusoyen_raw_line_words_0_1_0.50:
	leaq	1(%r12), %r14
	movq	%r12, %r10
	.p2align	4
.Lrekusoyen_raw_line_words_0_1_0.51:
	movzbl	(%rdi,%r10), %ecx
	cmpl	$61, %ecx
	je	.Lrekusoyen_raw_line_words_0_1_0.57
	cmpl	$34, %ecx
	je	.Lrekusoyen_raw_line_words_0_1_0.53
	incq	%r10
	incq	%r14
	cmpq	%r13, %r10
	jb	.Lrekusoyen_raw_line_words_0_1_0.51
	jmp	.Lrekusoyen_raw_line_words_0_1_0.56
	.p2align	4
.Lrekusoyen_raw_line_words_0_1_0.53:
	cmpq	%r13, %r14
	jae	.Lrekusoyen_raw_line_words_0_1_0.57
	leaq	1(%r14), %r12
	cmpb	$34, (%rdi,%r14)
	movq	%r12, %r14
	jne	.Lrekusoyen_raw_line_words_0_1_0.53
.Lrekusoyen_raw_line_words_0_1_0.49:
	cmpq	%r13, %r12
	jb	.Lrekusoyen_raw_line_words_0_1_0.50
	jmp	.Lrekusoyen_raw_line_words_0_1_0.58
.Lrekusoyen_raw_line_words_0_1_0.57:
	movq	%r10, %r12
	jmp	.Lrekusoyen_raw_line_words_0_1_0.58
.Lrekusoyen_raw_line_words_0_1_0.41:
	incq	%r13
	cmpq	%r13, %rsi
	cmovaq	%rsi, %r13
	cmpq	-16(%rsp), %rax
	jb	.Lrekusoyen_raw_line_words_0_1_0.46
	jmp	.Lrekusoyen_raw_line_words_0_1_0.47
.Lrekusoyen_raw_line_words_0_1_0.56:
	incq	%r12
	cmpq	%r12, %r13
	cmovaq	%r13, %r12
.Lrekusoyen_raw_line_words_0_1_0.58:
	cmpq	%rbx, %rax
	jae	.Lrekusoyen_raw_line_words_0_1_0.60
	movq	%r12, (%r8,%rax,8)
.Lrekusoyen_raw_line_words_0_1_0.60:
	incq	%rax
	movq	%rsi, %r10
	subq	%r13, %r10
	jne	.Lrekusoyen_raw_line_words_0_1_0.29
.Lrekusoyen_raw_line_words_0_1_0.61:
	movq	72(%rsp), %rax
	movq	%r9, (%rax,%r11)
	xorl	%eax, %eax
.Lrekusoyen_raw_line_words_0_1_0.63:
	popq	%rbx
	popq	%r12
	popq	%r13
	popq	%r14
	popq	%r15
	popq	%rbp
	retq
.Lrekusoyen_raw_line_words_0_1_0.func_end:
	.size	rekusoyen_raw_line_words_0_1_0, .Lrekusoyen_raw_line_words_0_1_0.func_end-rekusoyen_raw_line_words_0_1_0
	.section	.text.rekusoyen_raw_load_0_1_0,"ax",@progbits
	.globl	rekusoyen_raw_load_0_1_0
	.hidden	rekusoyen_raw_load_0_1_0
	.p2align	4
	.type	rekusoyen_raw_load_0_1_0,@function
rekusoyen_raw_load_0_1_0:
	pushq	%rbp
	pushq	%r15
	pushq	%r14
	pushq	%r13
	pushq	%r12
	pushq	%rbx
	subq	$440, %rsp
	movq	528(%rsp), %r14
	testq	%rdi, %rdi
	sete	%bpl
	xorl	%r15d, %r15d
	testq	%rdx, %rdx
	sete	%bl
	xorl	%r13d, %r13d
	testq	%r8, %r8
	sete	%r11b
	testq	%r14, %r14
	sete	16(%rsp)
	movb	$33, %al
	cmpq	$6, 536(%rsp)
	jne	.Lrekusoyen_raw_load_0_1_0.2
	movl	496(%rsp), %r10d
	leal	-1(%r10), %r12d
	movb	$32, %al
	cmpl	$3, %r12d
	jae	.Lrekusoyen_raw_load_0_1_0.2
	movb	%bpl, 7(%rsp)
	movq	%r14, 8(%rsp)
	movq	%rdi, 40(%rsp)
	movl	504(%rsp), %eax
	movb	%bl, %r15b
	shll	$12, %r15d
	addq	%r15, %rdx
	movb	%r11b, %r13b
	shll	$12, %r13d
	addq	%r13, %r8
	cmpl	$2, %r10d
	sete	%r11b
	movb	$2, %dil
	subb	%r11b, %dil
	xorl	%ebx, %ebx
	cmpl	$1, %r10d
	movzbl	%dil, %r14d
	cmovel	%ebx, %r14d
	movl	%eax, %ebp
	andl	$1, %ebp
	movq	%r9, 64(%rsp)
	movq	512(%rsp), %r15
	cmoveq	%rbx, %r15
	andl	$2, %eax
	movq	%rsi, 56(%rsp)
	movl	%eax, %r13d
	shrl	%r13d
	testl	%eax, %eax
	cmovneq	520(%rsp), %rbx
	leaq	176(%rsp), %rdi
	movq	%rdx, %rsi
	movq	%rcx, %rdx
	movq	%r8, %r12
	callq	rekusoyen_0_1_0.guest.maps.from_numbers
	movb	%r14b, 72(%rsp)
	movl	$0, 73(%rsp)
	movl	$0, 76(%rsp)
	movq	%rbp, 80(%rsp)
	movq	%r15, 88(%rsp)
	movq	64(%rsp), %r15
	movq	%r13, 96(%rsp)
	movq	56(%rsp), %r13
	movq	%rbx, 104(%rsp)
	xorps	%xmm0, %xmm0
	movaps	%xmm0, 112(%rsp)
	movaps	%xmm0, 128(%rsp)
	movaps	%xmm0, 144(%rsp)
	movq	$0, 160(%rsp)
	movq	%r13, 168(%rsp)
	leaq	112(%rsp), %rdi
	leaq	168(%rsp), %rsi
	leaq	72(%rsp), %r8
	movq	%r12, 48(%rsp)
	movq	%r12, %rdx
	movq	%r15, %rcx
	callq	rekusoyen_0_1_0.loads.formats.plan
	cmpb	$0, 112(%rsp)
	je	.Lrekusoyen_raw_load_0_1_0.5
	movzbl	113(%rsp), %edi
	jmp	.Lrekusoyen_raw_load_0_1_0.3
.Lrekusoyen_raw_load_0_1_0.2:
	movzbl	%al, %edi
.Lrekusoyen_raw_load_0_1_0.3:
	addq	$440, %rsp
	popq	%rbx
	popq	%r12
	popq	%r13
	popq	%r14
	popq	%r15
	popq	%rbp
	jmp	rekusoyen_0_1_0.answers.U32FromRefusal.from
.Lrekusoyen_raw_load_0_1_0.5:
	xorl	%eax, %eax
	movzbl	7(%rsp), %ecx
	movb	%cl, %al
	shll	$12, %eax
	movq	40(%rsp), %rdi
	addq	%rax, %rdi
	xorl	%r14d, %r14d
	movzbl	16(%rsp), %eax
	movb	%al, %r14b
	shll	$12, %r14d
	movzbl	136(%rsp), %ebx
	movups	120(%rsp), %xmm0
	movaps	%xmm0, 16(%rsp)
	leaq	72(%rsp), %r8
	movq	%r13, %rsi
	movq	48(%rsp), %rdx
	movq	%r15, %rcx
	callq	rekusoyen_0_1_0.loads.copying.copy_all
	testl	%ebx, %ebx
	je	.Lrekusoyen_raw_load_0_1_0.9
	cmpl	$2, %ebx
	movq	8(%rsp), %rdx
	jne	.Lrekusoyen_raw_load_0_1_0.8
	xorl	%eax, %eax
	xorl	%ecx, %ecx
	xorps	%xmm0, %xmm0
	jmp	.Lrekusoyen_raw_load_0_1_0.10
.Lrekusoyen_raw_load_0_1_0.9:
	movaps	144(%rsp), %xmm0
	movq	160(%rsp), %rcx
	movl	$2, %eax
	movq	8(%rsp), %rdx
	jmp	.Lrekusoyen_raw_load_0_1_0.10
.Lrekusoyen_raw_load_0_1_0.8:
	xorps	%xmm0, %xmm0
	movl	$1, %eax
	xorl	%ecx, %ecx
.Lrekusoyen_raw_load_0_1_0.10:
	movaps	16(%rsp), %xmm1
	movups	%xmm1, (%rdx,%r14)
	movq	%rax, 16(%rdx,%r14)
	movups	%xmm0, 24(%rdx,%r14)
	movq	%rcx, 40(%rdx,%r14)
	xorl	%eax, %eax
	addq	$440, %rsp
	popq	%rbx
	popq	%r12
	popq	%r13
	popq	%r14
	popq	%r15
	popq	%rbp
	retq
.Lrekusoyen_raw_load_0_1_0.func_end:
	.size	rekusoyen_raw_load_0_1_0, .Lrekusoyen_raw_load_0_1_0.func_end-rekusoyen_raw_load_0_1_0
	.section	.text.rekusoyen_raw_page_read_0_1_0,"ax",@progbits
	.globl	rekusoyen_raw_page_read_0_1_0
	.hidden	rekusoyen_raw_page_read_0_1_0
	.p2align	4
	.type	rekusoyen_raw_page_read_0_1_0,@function
rekusoyen_raw_page_read_0_1_0:
	pushq	%rbp
	pushq	%r15
	pushq	%r14
	pushq	%r13
	pushq	%r12
	pushq	%rbx
	subq	$152, %rsp
	movq	216(%rsp), %r11
	movq	208(%rsp), %rbx
	xorl	%r13d, %r13d
	testq	%rdi, %rdi
	sete	%r14b
	movq	%rdx, 8(%rsp)
	testq	%rdx, %rdx
	sete	%bpl
	xorl	%eax, %eax
	testq	%r8, %r8
	sete	%dl
	xorl	%r15d, %r15d
	testq	%rbx, %rbx
	sete	%r12b
	xorq	$4, %rcx
	xorq	$384, %r9
	orq	%rcx, %r9
	xorq	$123, %r11
	movl	$62, %r10d
	orq	%r9, %r11
	jne	.Lrekusoyen_raw_page_read_0_1_0.41
	movb	$39, %r9b
	cmpq	$489, %rsi
	jae	.Lrekusoyen_raw_page_read_0_1_0.2
.Lrekusoyen_raw_page_read_0_1_0.40:
	movzbl	%r9b, %edi
	callq	rekusoyen_0_1_0.answers.U32FromRefusal.from
	movl	%eax, %r10d
	jmp	.Lrekusoyen_raw_page_read_0_1_0.41
.Lrekusoyen_raw_page_read_0_1_0.2:
	movb	%r14b, %r13b
	shll	$12, %r13d
	addq	%r13, %rdi
	movzbl	488(%rdi), %ecx
	xorl	%r9d, %r9d
	cmpq	$129, %rcx
	movl	$40, %r10d
	cmovbl	%r9d, %r10d
	cmpq	$4096, %rsi
	movl	$39, %r9d
	cmovel	%r10d, %r9d
	jne	.Lrekusoyen_raw_page_read_0_1_0.40
	cmpb	$-128, %cl
	ja	.Lrekusoyen_raw_page_read_0_1_0.40
	xorl	%esi, %esi
	movb	%bpl, %sil
	movq	%rsi, %rbp
	shll	$12, %ebp
	movb	%r12b, %r15b
	shll	$12, %r15d
	addq	%r15, %rbx
	xorl	%r10d, %r10d
	testq	%rcx, %rcx
	je	.Lrekusoyen_raw_page_read_0_1_0.5
	movb	%dl, %al
	shll	$12, %eax
	addq	%rax, %r8
	shll	$3, %ecx
	leaq	(%rcx,%rcx,2), %rcx
	movl	$720, %r15d
	xorl	%r9d, %r9d
	xorl	%esi, %esi
	jmp	.Lrekusoyen_raw_page_read_0_1_0.7
	.p2align	4
.Lrekusoyen_raw_page_read_0_1_0.37:
	incq	%r9
	addq	$8, %rsi
	movq	%rax, %r15
	cmpq	%rsi, %rcx
	je	.Lrekusoyen_raw_page_read_0_1_0.38
.Lrekusoyen_raw_page_read_0_1_0.7:
	movabsq	$-6148914691236517205, %rdx
	movq	%r9, %rax
	mulq	%rdx
	shlq	$2, %rdx
	andq	$-8, %rdx
	leaq	(%rdx,%rdx,2), %rax
	leaq	.Lrekusoyen_0_1_0.static.18(%rip), %rdx
	subq	%rax, %rdx
	movq	(%rdx,%rsi), %rdx
	movq	%rdx, %rax
	cmpq	$8, %rdx
	jb	.Lrekusoyen_raw_page_read_0_1_0.9
	movl	$8, %eax
.Lrekusoyen_raw_page_read_0_1_0.9:
	testq	%rdx, %rdx
	je	.Lrekusoyen_raw_page_read_0_1_0.10
	movl	$4096, %r12d
	subq	%r15, %r12
	leaq	(%rdi,%r15), %r13
	leaq	-1(%rax), %r14
	cmpq	%r12, %r14
	jae	.Lrekusoyen_raw_page_read_0_1_0.12
	movzbl	(%r13,%r14), %edx
	testq	%r14, %r14
	jne	.Lrekusoyen_raw_page_read_0_1_0.15
	jmp	.Lrekusoyen_raw_page_read_0_1_0.35
	.p2align	4
.Lrekusoyen_raw_page_read_0_1_0.10:
	xorl	%edx, %edx
	jmp	.Lrekusoyen_raw_page_read_0_1_0.35
	.p2align	4
.Lrekusoyen_raw_page_read_0_1_0.12:
	xorl	%edx, %edx
	testq	%r14, %r14
	je	.Lrekusoyen_raw_page_read_0_1_0.35
.Lrekusoyen_raw_page_read_0_1_0.15:
	leaq	-2(%rax), %r14
	shll	$8, %edx
	cmpq	%r12, %r14
	jae	.Lrekusoyen_raw_page_read_0_1_0.17
	movzbl	(%r13,%r14), %r11d
	orq	%r11, %rdx
.Lrekusoyen_raw_page_read_0_1_0.17:
	testq	%r14, %r14
	je	.Lrekusoyen_raw_page_read_0_1_0.35
	leaq	-3(%rax), %r14
	shll	$8, %edx
	cmpq	%r12, %r14
	jae	.Lrekusoyen_raw_page_read_0_1_0.20
	movzbl	(%r13,%r14), %r11d
	orq	%r11, %rdx
.Lrekusoyen_raw_page_read_0_1_0.20:
	testq	%r14, %r14
	je	.Lrekusoyen_raw_page_read_0_1_0.35
	leaq	-4(%rax), %r14
	shll	$8, %edx
	cmpq	%r12, %r14
	jae	.Lrekusoyen_raw_page_read_0_1_0.23
	movzbl	(%r13,%r14), %r11d
	orq	%r11, %rdx
.Lrekusoyen_raw_page_read_0_1_0.23:
	testq	%r14, %r14
	je	.Lrekusoyen_raw_page_read_0_1_0.35
	leaq	-5(%rax), %r14
	shlq	$8, %rdx
	cmpq	%r12, %r14
	jae	.Lrekusoyen_raw_page_read_0_1_0.26
	movzbl	(%r13,%r14), %r11d
	orq	%r11, %rdx
.Lrekusoyen_raw_page_read_0_1_0.26:
	testq	%r14, %r14
	je	.Lrekusoyen_raw_page_read_0_1_0.35
	leaq	-6(%rax), %r14
	shlq	$8, %rdx
	cmpq	%r12, %r14
	jae	.Lrekusoyen_raw_page_read_0_1_0.29
	movzbl	(%r13,%r14), %r11d
	orq	%r11, %rdx
.Lrekusoyen_raw_page_read_0_1_0.29:
	testq	%r14, %r14
	je	.Lrekusoyen_raw_page_read_0_1_0.35
	leaq	-7(%rax), %r14
	shlq	$8, %rdx
	cmpq	%r12, %r14
	jae	.Lrekusoyen_raw_page_read_0_1_0.32
	movzbl	(%r13,%r14), %r11d
	orq	%r11, %rdx
.Lrekusoyen_raw_page_read_0_1_0.32:
	testq	%r14, %r14
	je	.Lrekusoyen_raw_page_read_0_1_0.35
	leaq	-8(%rax), %r14
	shlq	$8, %rdx
	cmpq	%r12, %r14
	jae	.Lrekusoyen_raw_page_read_0_1_0.35
	movzbl	(%r13,%r14), %r11d
	orq	%r11, %rdx
	.p2align	4
.Lrekusoyen_raw_page_read_0_1_0.35:
	movq	%rdx, (%r8,%rsi)
	addq	%r15, %rax
	cmpq	$4096, %rax
	jb	.Lrekusoyen_raw_page_read_0_1_0.37
	movl	$4096, %eax
	jmp	.Lrekusoyen_raw_page_read_0_1_0.37
.Lrekusoyen_raw_page_read_0_1_0.38:
	movzbl	488(%rdi), %eax
	jmp	.Lrekusoyen_raw_page_read_0_1_0.39
.Lrekusoyen_raw_page_read_0_1_0.5:
	xorl	%eax, %eax
.Lrekusoyen_raw_page_read_0_1_0.39:
	pmovzxdq	536(%rdi), %xmm0
	movl	552(%rdi), %ecx
	movups	604(%rdi), %xmm1
	movups	%xmm1, 123(%rsp)
	movups	593(%rdi), %xmm1
	movaps	%xmm1, 112(%rsp)
	movups	577(%rdi), %xmm1
	movaps	%xmm1, 96(%rsp)
	movups	561(%rdi), %xmm1
	movaps	%xmm1, 80(%rsp)
	movups	497(%rdi), %xmm1
	movups	513(%rdi), %xmm2
	movups	529(%rdi), %xmm3
	movups	545(%rdi), %xmm4
	movaps	%xmm4, 64(%rsp)
	movaps	%xmm3, 48(%rsp)
	movaps	%xmm2, 32(%rsp)
	movaps	%xmm1, 16(%rsp)
	movq	8(%rsp), %rdx
	movq	%rax, (%rdx,%rbp)
	movq	%rcx, 8(%rdx,%rbp)
	movdqu	%xmm0, 16(%rdx,%rbp)
	movups	123(%rsp), %xmm0
	movups	%xmm0, 107(%rbx)
	movaps	112(%rsp), %xmm0
	movups	%xmm0, 96(%rbx)
	movaps	96(%rsp), %xmm0
	movups	%xmm0, 80(%rbx)
	movaps	80(%rsp), %xmm0
	movups	%xmm0, 64(%rbx)
	movaps	16(%rsp), %xmm0
	movaps	32(%rsp), %xmm1
	movaps	48(%rsp), %xmm2
	movaps	64(%rsp), %xmm3
	movups	%xmm3, 48(%rbx)
	movups	%xmm2, 32(%rbx)
	movups	%xmm1, 16(%rbx)
	movups	%xmm0, (%rbx)
.Lrekusoyen_raw_page_read_0_1_0.41:
	movl	%r10d, %eax
	addq	$152, %rsp
	popq	%rbx
	popq	%r12
	popq	%r13
	popq	%r14
	popq	%r15
	popq	%rbp
	retq
.Lrekusoyen_raw_page_read_0_1_0.func_end:
	.size	rekusoyen_raw_page_read_0_1_0, .Lrekusoyen_raw_page_read_0_1_0.func_end-rekusoyen_raw_page_read_0_1_0
	.section	.text.rekusoyen_raw_part_0_1_0,"ax",@progbits
	.globl	rekusoyen_raw_part_0_1_0
	.hidden	rekusoyen_raw_part_0_1_0
	.p2align	4
	.type	rekusoyen_raw_part_0_1_0,@function
rekusoyen_raw_part_0_1_0:
	pushq	%rbp
	pushq	%r15
	pushq	%r14
	pushq	%r13
	pushq	%r12
	pushq	%rbx
	subq	$360, %rsp
	movq	440(%rsp), %r15
	movq	432(%rsp), %rax
	movq	%rax, 32(%rsp)
	movq	424(%rsp), %r10
	movl	416(%rsp), %r11d
	movq	448(%rsp), %r12
	xorl	%r14d, %r14d
	testq	%rsi, %rsi
	sete	%al
	xorl	%ebx, %ebx
	testq	%rcx, %rcx
	sete	%r13b
	movq	%r15, 40(%rsp)
	testq	%r15, %r15
	xorps	%xmm0, %xmm0
	movaps	%xmm0, (%rsp)
	movq	$0, 16(%rsp)
	sete	%bpl
	movb	$33, %r15b
	cmpq	$3, %r12
	jne	.Lrekusoyen_raw_part_0_1_0.13
	leal	-1(%r9), %r12d
	movb	$32, %r15b
	cmpl	$3, %r12d
	jae	.Lrekusoyen_raw_part_0_1_0.13
	movq	%rdi, 24(%rsp)
	movb	%al, %r14b
	shll	$12, %r14d
	addq	%r14, %rsi
	movb	%r13b, %bl
	shll	$12, %ebx
	addq	%rbx, %rcx
	xorl	%r12d, %r12d
	movb	%bpl, %r12b
	shll	$12, %r12d
	cmpl	$2, %r9d
	sete	%al
	movb	$2, %dil
	subb	%al, %dil
	xorl	%r13d, %r13d
	cmpl	$1, %r9d
	movzbl	%dil, %eax
	cmovel	%r13d, %eax
	movl	%r11d, %edi
	andl	$1, %edi
	cmoveq	%r13, %r10
	shrl	%r11d
	andl	$1, %r11d
	movb	%al, 48(%rsp)
	movl	$0, 49(%rsp)
	movl	$0, 52(%rsp)
	movq	%rdi, 56(%rsp)
	movq	%r10, 64(%rsp)
	movq	%r11, 72(%rsp)
	movq	$0, 80(%rsp)
	movq	%rsp, %rdi
	leaq	48(%rsp), %r9
	movq	%rsi, %rbx
	movq	%rcx, %rsi
	movq	%rdx, %r14
	movq	%r8, %rdx
	movq	%r9, %rcx
	movq	%r8, %r15
	movq	32(%rsp), %r8
	callq	rekusoyen_0_1_0.loads.formats.part
	leaq	96(%rsp), %rdi
	movq	%rbx, %rsi
	movq	%r14, %rdx
	callq	rekusoyen_0_1_0.guest.maps.from_numbers
	movq	8(%rsp), %rax
	movq	16(%rsp), %rcx
	subq	%rax, %r15
	setae	%dl
	cmpq	%r15, %rcx
	setbe	%dil
	andb	%dl, %dil
	movl	$0, %edx
	movl	$0, %esi
	cmpb	$1, %dil
	jne	.Lrekusoyen_raw_part_0_1_0.12
	movq	(%rsp), %r13
	movq	24(%rsp), %rdx
	subq	%r13, %rdx
	setae	%sil
	cmpq	%rdx, %rcx
	setbe	%dl
	andb	%sil, %dl
	cmpb	$1, %dl
	jne	.Lrekusoyen_raw_part_0_1_0.11
	movq	96(%rsp), %rsi
	cmpq	$16, %rsi
	movl	$16, %edx
	cmovbq	%rsi, %rdx
	testq	%rsi, %rsi
	je	.Lrekusoyen_raw_part_0_1_0.11
	xorl	%esi, %esi
	jmp	.Lrekusoyen_raw_part_0_1_0.6
	.p2align	4
.Lrekusoyen_raw_part_0_1_0.10:
	incq	%rsi
	cmpq	%rsi, %rdx
	je	.Lrekusoyen_raw_part_0_1_0.11
.Lrekusoyen_raw_part_0_1_0.6:
	movq	%r13, %rdi
	subq	104(%rsp,%rsi,8), %rdi
	jb	.Lrekusoyen_raw_part_0_1_0.10
	movq	232(%rsp,%rsi,8), %r8
	subq	%rdi, %r8
	jb	.Lrekusoyen_raw_part_0_1_0.10
	cmpq	%r8, %rcx
	ja	.Lrekusoyen_raw_part_0_1_0.10
	movq	%rax, %rdx
	movq	%rcx, %rsi
	jmp	.Lrekusoyen_raw_part_0_1_0.12
.Lrekusoyen_raw_part_0_1_0.13:
	movzbl	%r15b, %edi
	addq	$360, %rsp
	popq	%rbx
	popq	%r12
	popq	%r13
	popq	%r14
	popq	%r15
	popq	%rbp
	jmp	rekusoyen_0_1_0.answers.U32FromRefusal.from
.Lrekusoyen_raw_part_0_1_0.11:
	xorl	%r13d, %r13d
	xorl	%edx, %edx
	xorl	%esi, %esi
.Lrekusoyen_raw_part_0_1_0.12:
	testq	%rsi, %rsi
	cmoveq	%rsi, %r13
	cmoveq	%rsi, %rdx
	movq	40(%rsp), %rax
	movq	%r13, (%rax,%r12)
	movq	%rdx, 8(%rax,%r12)
	movq	%rsi, 16(%rax,%r12)
	xorl	%eax, %eax
	addq	$360, %rsp
	popq	%rbx
	popq	%r12
	popq	%r13
	popq	%r14
	popq	%r15
	popq	%rbp
	retq
.Lrekusoyen_raw_part_0_1_0.func_end:
	.size	rekusoyen_raw_part_0_1_0, .Lrekusoyen_raw_part_0_1_0.func_end-rekusoyen_raw_part_0_1_0
	.section	.text.rekusoyen_raw_place_0_1_0,"ax",@progbits
	.globl	rekusoyen_raw_place_0_1_0
	.hidden	rekusoyen_raw_place_0_1_0
	.p2align	4
	.type	rekusoyen_raw_place_0_1_0,@function
rekusoyen_raw_place_0_1_0:
	pushq	%rbp
	pushq	%r15
	pushq	%r14
	pushq	%r13
	pushq	%r12
	pushq	%rbx
	subq	$344, %rsp
	movq	%r9, %r14
	movq	%r8, %r13
	movq	%rdi, %r12
	movq	424(%rsp), %rbp
	movq	400(%rsp), %rbx
	xorl	%eax, %eax
	testq	%rsi, %rsi
	sete	%al
	shll	$12, %eax
	addq	%rax, %rsi
	xorl	%r15d, %r15d
	testq	%rcx, %rcx
	sete	%r15b
	shll	$12, %r15d
	addq	%rcx, %r15
	testq	%rbp, %rbp
	sete	15(%rsp)
	leaq	80(%rsp), %rdi
	callq	rekusoyen_0_1_0.guest.maps.from_numbers
	movq	408(%rsp), %rdi
	cmpq	$1, %rdi
	adcq	$0, %rdi
	cmpq	$0, 416(%rsp)
	je	.Lrekusoyen_raw_place_0_1_0.1
	movq	%r15, 16(%rsp)
	cmpq	%rbx, %r12
	cmovbq	%r12, %rbx
	movq	80(%rsp), %rax
	cmpq	$16, %rax
	movl	$16, %ecx
	cmovbq	%rax, %rcx
	movq	%rcx, 64(%rsp)
	testq	%rax, %rax
	je	.Lrekusoyen_raw_place_0_1_0.3
	movq	%r13, 56(%rsp)
	xorl	%r13d, %r13d
	xorl	%ebp, %ebp
	xorl	%r12d, %r12d
	movq	16(%rsp), %rsi
	jmp	.Lrekusoyen_raw_place_0_1_0.5
	.p2align	4
.Lrekusoyen_raw_place_0_1_0.7:
	cmpb	$1, %r13b
	movzbl	%al, %eax
	movl	$1, %r13d
	cmovnel	%eax, %r13d
	cmovneq	%rdx, %r12
.Lrekusoyen_raw_place_0_1_0.8:
	incq	%rbp
	cmpq	%rbp, 64(%rsp)
	movq	%r15, %rdi
	movq	16(%rsp), %rsi
	je	.Lrekusoyen_raw_place_0_1_0.9
.Lrekusoyen_raw_place_0_1_0.5:
	movq	88(%rsp,%rbp,8), %rax
	cmpq	%r14, %rax
	movq	%r14, %rcx
	cmovaq	%rax, %rcx
	addq	216(%rsp,%rbp,8), %rax
	movq	$-1, %rdx
	cmovaeq	%rax, %rdx
	cmpq	%rdx, %rbx
	cmovbq	%rbx, %rdx
	movq	%rcx, 24(%rsp)
	movq	%rdx, 32(%rsp)
	movq	%rdi, %r15
	movq	%rdi, 40(%rsp)
	movq	416(%rsp), %rax
	movq	%rax, 48(%rsp)
	leaq	24(%rsp), %rcx
	xorl	%edi, %edi
	movq	56(%rsp), %rdx
	callq	rekusoyen_0_1_0.placing.search.in_bounds
	cmpb	$1, %r13b
	sete	%cl
	andb	%al, %cl
	cmpb	$1, %cl
	jne	.Lrekusoyen_raw_place_0_1_0.7
	cmpq	%r12, %rdx
	cmovbq	%rdx, %r12
	movb	$1, %r13b
	jmp	.Lrekusoyen_raw_place_0_1_0.8
.Lrekusoyen_raw_place_0_1_0.1:
	movq	%r14, 24(%rsp)
	movq	%rbx, 32(%rsp)
	movq	%rdi, 40(%rsp)
	movq	$0, 48(%rsp)
	leaq	24(%rsp), %rcx
	xorl	%edi, %edi
	movq	%r15, %rsi
	movq	%r13, %rdx
	callq	rekusoyen_0_1_0.placing.search.in_bounds
	movl	%eax, %r13d
	movq	%rdx, %r12
	movl	$62, %eax
	cmpq	$1, 432(%rsp)
	je	.Lrekusoyen_raw_place_0_1_0.11
	jmp	.Lrekusoyen_raw_place_0_1_0.13
.Lrekusoyen_raw_place_0_1_0.3:
	xorl	%r12d, %r12d
	xorl	%r13d, %r13d
.Lrekusoyen_raw_place_0_1_0.9:
	movq	424(%rsp), %rbp
	movl	$62, %eax
	cmpq	$1, 432(%rsp)
	jne	.Lrekusoyen_raw_place_0_1_0.13
.Lrekusoyen_raw_place_0_1_0.11:
	cmpb	$1, %r13b
	jne	.Lrekusoyen_raw_place_0_1_0.13
	xorl	%eax, %eax
	movzbl	15(%rsp), %ecx
	movb	%cl, %al
	shll	$12, %eax
	movq	%r12, (%rbp,%rax)
	xorl	%eax, %eax
.Lrekusoyen_raw_place_0_1_0.13:
	addq	$344, %rsp
	popq	%rbx
	popq	%r12
	popq	%r13
	popq	%r14
	popq	%r15
	popq	%rbp
	retq
.Lrekusoyen_raw_place_0_1_0.func_end:
	.size	rekusoyen_raw_place_0_1_0, .Lrekusoyen_raw_place_0_1_0.func_end-rekusoyen_raw_place_0_1_0
	.section	.text.rekusoyen_raw_place_high_0_1_0,"ax",@progbits
	.globl	rekusoyen_raw_place_high_0_1_0
	.hidden	rekusoyen_raw_place_high_0_1_0
	.p2align	4
	.type	rekusoyen_raw_place_high_0_1_0,@function
rekusoyen_raw_place_high_0_1_0:
	pushq	%rbp
	pushq	%r15
	pushq	%r14
	pushq	%r13
	pushq	%r12
	pushq	%rbx
	subq	$296, %rsp
	movq	%r9, %rbx
	movq	%r8, 16(%rsp)
	movq	%rdi, %r13
	movq	368(%rsp), %r15
	movq	352(%rsp), %r14
	movq	360(%rsp), %rbp
	xorl	%eax, %eax
	testq	%rsi, %rsi
	sete	%al
	shll	$12, %eax
	addq	%rax, %rsi
	xorl	%r12d, %r12d
	movq	%rcx, 8(%rsp)
	testq	%rcx, %rcx
	sete	6(%rsp)
	cmpq	$0, 376(%rsp)
	sete	7(%rsp)
	leaq	32(%rsp), %rdi
	callq	rekusoyen_0_1_0.guest.maps.from_numbers
	cmpq	$1, %rbp
	adcq	$0, %rbp
	testq	%r15, %r15
	je	.Lrekusoyen_raw_place_high_0_1_0.1
	cmpq	%r14, %r13
	cmovbq	%r13, %r14
	movq	32(%rsp), %rax
	cmpq	$16, %rax
	movl	$16, %edi
	cmovbq	%rax, %rdi
	testq	%rax, %rax
	je	.Lrekusoyen_raw_place_high_0_1_0.6
	cmpq	$2, 16(%rsp)
	jae	.Lrekusoyen_raw_place_high_0_1_0.8
	xorl	%r9d, %r9d
	xorl	%esi, %esi
	xorl	%r8d, %r8d
	jmp	.Lrekusoyen_raw_place_high_0_1_0.13
	.p2align	4
.Lrekusoyen_raw_place_high_0_1_0.22:
	xorl	%ecx, %ecx
	cmpb	$1, %r9b
	sete	%dl
	cmoveq	%r8, %rcx
.Lrekusoyen_raw_place_high_0_1_0.23:
	incq	%rsi
	movl	%edx, %r9d
	movq	%rcx, %r8
	cmpq	%rsi, %rdi
	je	.Lrekusoyen_raw_place_high_0_1_0.41
.Lrekusoyen_raw_place_high_0_1_0.13:
	movq	40(%rsp,%rsi,8), %r10
	movq	168(%rsp,%rsi,8), %rcx
	addq	%r10, %rcx
	movq	$-1, %rax
	cmovaeq	%rcx, %rax
	movq	%r14, %rcx
	cmpq	%rax, %r14
	jb	.Lrekusoyen_raw_place_high_0_1_0.15
	movq	%rax, %rcx
.Lrekusoyen_raw_place_high_0_1_0.15:
	subq	%r15, %rcx
	jb	.Lrekusoyen_raw_place_high_0_1_0.22
	cmpq	%rbx, %r10
	cmovbeq	%rbx, %r10
	movq	%rcx, %rax
	orq	%rbp, %rax
	shrq	$32, %rax
	je	.Lrekusoyen_raw_place_high_0_1_0.17
	movq	%rcx, %rax
	xorl	%edx, %edx
	divq	%rbp
	subq	%rdx, %rcx
	cmpq	%rcx, %r10
	ja	.Lrekusoyen_raw_place_high_0_1_0.22
	jmp	.Lrekusoyen_raw_place_high_0_1_0.20
.Lrekusoyen_raw_place_high_0_1_0.17:
	movl	%ecx, %eax
	xorl	%edx, %edx
	divl	%ebp
	subq	%rdx, %rcx
	cmpq	%rcx, %r10
	ja	.Lrekusoyen_raw_place_high_0_1_0.22
.Lrekusoyen_raw_place_high_0_1_0.20:
	movb	$1, %dl
	cmpb	$1, %r9b
	jne	.Lrekusoyen_raw_place_high_0_1_0.23
	cmpq	%r8, %rcx
	cmovbeq	%r8, %rcx
	jmp	.Lrekusoyen_raw_place_high_0_1_0.23
.Lrekusoyen_raw_place_high_0_1_0.1:
	movq	%r14, %rax
	orq	%rbp, %rax
	shrq	$32, %rax
	je	.Lrekusoyen_raw_place_high_0_1_0.2
	movq	%r14, %rax
	xorl	%edx, %edx
	divq	%rbp
	jmp	.Lrekusoyen_raw_place_high_0_1_0.4
.Lrekusoyen_raw_place_high_0_1_0.6:
	movl	$62, %eax
	jmp	.Lrekusoyen_raw_place_high_0_1_0.44
.Lrekusoyen_raw_place_high_0_1_0.8:
	movzbl	6(%rsp), %eax
	movb	%al, %r12b
	shll	$12, %r12d
	addq	%r12, 8(%rsp)
	xorl	%r10d, %r10d
	xorl	%r8d, %r8d
	xorl	%r9d, %r9d
	jmp	.Lrekusoyen_raw_place_high_0_1_0.9
	.p2align	4
.Lrekusoyen_raw_place_high_0_1_0.39:
	xorl	%ecx, %ecx
	cmpb	$1, %r10b
	sete	%dl
	cmoveq	%r9, %rcx
.Lrekusoyen_raw_place_high_0_1_0.40:
	incq	%r8
	movl	%edx, %r10d
	movq	%rcx, %r9
	cmpq	%rdi, %r8
	je	.Lrekusoyen_raw_place_high_0_1_0.41
.Lrekusoyen_raw_place_high_0_1_0.9:
	movq	40(%rsp,%r8,8), %rax
	cmpq	%rbx, %rax
	movq	%rbx, %r11
	cmovaq	%rax, %r11
	addq	168(%rsp,%r8,8), %rax
	movq	$-1, %rcx
	cmovaeq	%rax, %rcx
	cmpq	%rcx, %r14
	cmovbq	%r14, %rcx
	subq	%r15, %rcx
	jb	.Lrekusoyen_raw_place_high_0_1_0.39
	movq	%rcx, %rax
	orq	%rbp, %rax
	shrq	$32, %rax
	je	.Lrekusoyen_raw_place_high_0_1_0.11
	movq	%rcx, %rax
	xorl	%edx, %edx
	divq	%rbp
	subq	%rdx, %rcx
	cmpq	%rcx, %r11
	jbe	.Lrekusoyen_raw_place_high_0_1_0.26
	jmp	.Lrekusoyen_raw_place_high_0_1_0.39
.Lrekusoyen_raw_place_high_0_1_0.11:
	movl	%ecx, %eax
	xorl	%edx, %edx
	divl	%ebp
	subq	%rdx, %rcx
	cmpq	%rcx, %r11
	ja	.Lrekusoyen_raw_place_high_0_1_0.39
	.p2align	4
.Lrekusoyen_raw_place_high_0_1_0.26:
	movq	16(%rsp), %rax
	movq	8(%rsp), %rdx
	jmp	.Lrekusoyen_raw_place_high_0_1_0.27
	.p2align	4
.Lrekusoyen_raw_place_high_0_1_0.28:
	movq	%rcx, %r13
	subq	%rsi, %r13
	cmpq	%r13, %r12
	ja	.Lrekusoyen_raw_place_high_0_1_0.29
.Lrekusoyen_raw_place_high_0_1_0.34:
	addq	$-2, %rax
	addq	$16, %rdx
	cmpq	$2, %rax
	jb	.Lrekusoyen_raw_place_high_0_1_0.35
.Lrekusoyen_raw_place_high_0_1_0.27:
	movq	(%rdx), %rsi
	movq	8(%rdx), %r12
	movq	%rsi, %r13
	subq	%rcx, %r13
	jb	.Lrekusoyen_raw_place_high_0_1_0.28
	testq	%r12, %r12
	je	.Lrekusoyen_raw_place_high_0_1_0.34
	cmpq	%r13, %r15
	jbe	.Lrekusoyen_raw_place_high_0_1_0.34
.Lrekusoyen_raw_place_high_0_1_0.29:
	subq	%r15, %rsi
	jb	.Lrekusoyen_raw_place_high_0_1_0.39
	movq	%rsi, %rax
	orq	%rbp, %rax
	shrq	$32, %rax
	je	.Lrekusoyen_raw_place_high_0_1_0.31
	movq	%rsi, %rax
	xorl	%edx, %edx
	divq	%rbp
	subq	%rdx, %rsi
	movq	%rsi, %rcx
	cmpq	%rsi, %r11
	jbe	.Lrekusoyen_raw_place_high_0_1_0.26
	jmp	.Lrekusoyen_raw_place_high_0_1_0.39
.Lrekusoyen_raw_place_high_0_1_0.31:
	movl	%esi, %eax
	xorl	%edx, %edx
	divl	%ebp
	subq	%rdx, %rsi
	movq	%rsi, %rcx
	cmpq	%rsi, %r11
	jbe	.Lrekusoyen_raw_place_high_0_1_0.26
	jmp	.Lrekusoyen_raw_place_high_0_1_0.39
	.p2align	4
.Lrekusoyen_raw_place_high_0_1_0.35:
	movb	$1, %dl
	cmpb	$1, %r10b
	jne	.Lrekusoyen_raw_place_high_0_1_0.40
	cmpq	%r9, %rcx
	cmovbeq	%r9, %rcx
	jmp	.Lrekusoyen_raw_place_high_0_1_0.40
.Lrekusoyen_raw_place_high_0_1_0.2:
	movl	%r14d, %eax
	xorl	%edx, %edx
	divl	%ebp
.Lrekusoyen_raw_place_high_0_1_0.4:
	subq	%rdx, %r14
	xorl	%ecx, %ecx
	cmpq	%r14, %rbx
	setbe	%dl
	cmovbeq	%r14, %rcx
.Lrekusoyen_raw_place_high_0_1_0.41:
	cmpq	$1, 384(%rsp)
	movl	$62, %eax
	jne	.Lrekusoyen_raw_place_high_0_1_0.44
	testb	%dl, %dl
	je	.Lrekusoyen_raw_place_high_0_1_0.44
	xorl	%edx, %edx
	movzbl	7(%rsp), %eax
	movb	%al, %dl
	shll	$12, %edx
	movq	376(%rsp), %rax
	movq	%rcx, (%rax,%rdx)
	xorl	%eax, %eax
.Lrekusoyen_raw_place_high_0_1_0.44:
	addq	$296, %rsp
	popq	%rbx
	popq	%r12
	popq	%r13
	popq	%r14
	popq	%r15
	popq	%rbp
	retq
.Lrekusoyen_raw_place_high_0_1_0.func_end:
	.size	rekusoyen_raw_place_high_0_1_0, .Lrekusoyen_raw_place_high_0_1_0.func_end-rekusoyen_raw_place_high_0_1_0
	.section	.text.rekusoyen_raw_plan_0_1_0,"ax",@progbits
	.globl	rekusoyen_raw_plan_0_1_0
	.hidden	rekusoyen_raw_plan_0_1_0
	.p2align	4
	.type	rekusoyen_raw_plan_0_1_0,@function
rekusoyen_raw_plan_0_1_0:
	pushq	%rbp
	pushq	%r15
	pushq	%r14
	pushq	%r13
	pushq	%r12
	pushq	%rbx
	subq	$408, %rsp
	movq	%r8, 16(%rsp)
	movq	480(%rsp), %rax
	movq	472(%rsp), %r8
	movl	464(%rsp), %r10d
	movq	496(%rsp), %rbx
	movq	488(%rsp), %r15
	xorl	%r14d, %r14d
	testq	%rsi, %rsi
	sete	%bpl
	xorl	%r11d, %r11d
	testq	%rcx, %rcx
	sete	%r13b
	testq	%r15, %r15
	xorps	%xmm0, %xmm0
	movaps	%xmm0, 64(%rsp)
	movaps	%xmm0, 80(%rsp)
	movaps	%xmm0, 96(%rsp)
	movq	$0, 112(%rsp)
	sete	15(%rsp)
	movb	$33, %r12b
	cmpq	$7, %rbx
	jne	.Lrekusoyen_raw_plan_0_1_0.5
	leal	-1(%r9), %ebx
	movb	$32, %r12b
	cmpl	$3, %ebx
	jae	.Lrekusoyen_raw_plan_0_1_0.5
	movb	%bpl, %r14b
	shll	$12, %r14d
	addq	%r14, %rsi
	movb	%r13b, %r11b
	shll	$12, %r11d
	addq	%r11, %rcx
	cmpl	$2, %r9d
	sete	%r11b
	movb	$2, %bl
	subb	%r11b, %bl
	xorl	%r11d, %r11d
	cmpl	$1, %r9d
	movzbl	%bl, %ebx
	cmovel	%r11d, %ebx
	movl	%r10d, %r14d
	andl	$1, %r14d
	cmoveq	%r11, %r8
	andl	$2, %r10d
	movl	%r10d, %r12d
	shrl	%r12d
	testl	%r10d, %r10d
	cmoveq	%r11, %rax
	movb	%bl, 24(%rsp)
	movl	$0, 25(%rsp)
	movl	$0, 28(%rsp)
	movq	%r14, 32(%rsp)
	movq	%r8, 40(%rsp)
	movq	%r12, 48(%rsp)
	movq	%rax, 56(%rsp)
	leaq	144(%rsp), %rax
	movq	%rdi, %rbx
	movq	%rax, %rdi
	movq	%rcx, %r14
	movq	%r9, %r12
	callq	rekusoyen_0_1_0.guest.maps.from_numbers
	movq	%rbx, 136(%rsp)
	leaq	64(%rsp), %rdi
	leaq	136(%rsp), %rsi
	leaq	24(%rsp), %r8
	movq	%r14, %r13
	movq	%r14, %rdx
	movq	16(%rsp), %rbx
	movq	%rbx, %rcx
	callq	rekusoyen_0_1_0.loads.formats.plan
	movl	$1, %eax
	cmpl	$1, %r12d
	jne	.Lrekusoyen_raw_plan_0_1_0.9
	cmpq	$57, %rbx
	jbe	.Lrekusoyen_raw_plan_0_1_0.7
	movzwl	56(%r13), %eax
	cmpb	$0, 64(%rsp)
	jne	.Lrekusoyen_raw_plan_0_1_0.10
.Lrekusoyen_raw_plan_0_1_0.12:
	xorl	%ecx, %ecx
	movzbl	15(%rsp), %edx
	movb	%dl, %cl
	shll	$12, %ecx
	addq	%rcx, %r15
	movups	72(%rsp), %xmm0
	movzbl	88(%rsp), %ecx
	testl	%ecx, %ecx
	je	.Lrekusoyen_raw_plan_0_1_0.15
	xorps	%xmm1, %xmm1
	cmpl	$2, %ecx
	jne	.Lrekusoyen_raw_plan_0_1_0.16
	xorl	%ecx, %ecx
	jmp	.Lrekusoyen_raw_plan_0_1_0.17
.Lrekusoyen_raw_plan_0_1_0.5:
	movzbl	%r12b, %edi
.Lrekusoyen_raw_plan_0_1_0.6:
	addq	$408, %rsp
	popq	%rbx
	popq	%r12
	popq	%r13
	popq	%r14
	popq	%r15
	popq	%rbp
	jmp	rekusoyen_0_1_0.answers.U32FromRefusal.from
.Lrekusoyen_raw_plan_0_1_0.7:
	jne	.Lrekusoyen_raw_plan_0_1_0.11
	movzbl	56(%r13), %eax
.Lrekusoyen_raw_plan_0_1_0.9:
	cmpb	$0, 64(%rsp)
	je	.Lrekusoyen_raw_plan_0_1_0.12
.Lrekusoyen_raw_plan_0_1_0.10:
	movzbl	65(%rsp), %edi
	jmp	.Lrekusoyen_raw_plan_0_1_0.6
.Lrekusoyen_raw_plan_0_1_0.15:
	movaps	96(%rsp), %xmm1
	movq	112(%rsp), %rdx
	movl	$2, %ecx
	jmp	.Lrekusoyen_raw_plan_0_1_0.18
.Lrekusoyen_raw_plan_0_1_0.11:
	xorl	%eax, %eax
	cmpb	$0, 64(%rsp)
	jne	.Lrekusoyen_raw_plan_0_1_0.10
	jmp	.Lrekusoyen_raw_plan_0_1_0.12
.Lrekusoyen_raw_plan_0_1_0.16:
	movl	$1, %ecx
.Lrekusoyen_raw_plan_0_1_0.17:
	xorl	%edx, %edx
.Lrekusoyen_raw_plan_0_1_0.18:
	movups	%xmm0, (%r15)
	movq	%rcx, 16(%r15)
	movups	%xmm1, 24(%r15)
	movq	%rdx, 40(%r15)
	leaq	128(%rsp), %rcx
	negq	%rcx
	addq	%r15, %rcx
	addq	$48, %rcx
	addq	$48, %r15
	cmpq	$7, %rcx
	movq	%rax, (%r15)
	xorl	%eax, %eax
	addq	$408, %rsp
	popq	%rbx
	popq	%r12
	popq	%r13
	popq	%r14
	popq	%r15
	popq	%rbp
	retq
.Lrekusoyen_raw_plan_0_1_0.func_end:
	.size	rekusoyen_raw_plan_0_1_0, .Lrekusoyen_raw_plan_0_1_0.func_end-rekusoyen_raw_plan_0_1_0
	.section	.text.rekusoyen_raw_start_block_0_1_0,"ax",@progbits
	.globl	rekusoyen_raw_start_block_0_1_0
	.hidden	rekusoyen_raw_start_block_0_1_0
	.p2align	4
	.type	rekusoyen_raw_start_block_0_1_0,@function
rekusoyen_raw_start_block_0_1_0:
	pushq	%r14
	pushq	%rbx
	xorl	%r10d, %r10d
	testq	%rdi, %rdi
	sete	%bl
	xorl	%r9d, %r9d
	testq	%rcx, %rcx
	sete	%r11b
	movl	$62, %eax
	cmpq	$10, %r8
	jne	.Lrekusoyen_raw_start_block_0_1_0.31
	movb	%bl, %r10b
	shll	$12, %r10d
	addq	%r10, %rdi
	movb	%r11b, %r9b
	shll	$12, %r9d
	addq	%r9, %rcx
	xorl	%eax, %eax
	jmp	.Lrekusoyen_raw_start_block_0_1_0.2
	.p2align	4
.Lrekusoyen_raw_start_block_0_1_0.29:
	addq	$8, %rax
	cmpq	$80, %rax
	je	.Lrekusoyen_raw_start_block_0_1_0.30
.Lrekusoyen_raw_start_block_0_1_0.2:
	leaq	.Lrekusoyen_0_1_0.static.22(%rip), %r8
	movq	(%rax,%r8), %r9
	cmpq	$8, %r9
	movl	$8, %r8d
	cmovbq	%r9, %r8
	testq	%r9, %r9
	je	.Lrekusoyen_raw_start_block_0_1_0.3
	xorl	%r9d, %r9d
	movq	%rsi, %r10
	subq	%rdx, %r10
	cmovbq	%r9, %r10
	leaq	(%rdi,%rdx), %r11
	leaq	-1(%r8), %rbx
	cmpq	%r10, %rbx
	jae	.Lrekusoyen_raw_start_block_0_1_0.6
	movzbl	(%r11,%rbx), %r9d
.Lrekusoyen_raw_start_block_0_1_0.6:
	testq	%rbx, %rbx
	je	.Lrekusoyen_raw_start_block_0_1_0.27
	leaq	-2(%r8), %rbx
	shll	$8, %r9d
	cmpq	%r10, %rbx
	jae	.Lrekusoyen_raw_start_block_0_1_0.9
	movzbl	(%r11,%rbx), %r14d
	orq	%r14, %r9
.Lrekusoyen_raw_start_block_0_1_0.9:
	testq	%rbx, %rbx
	je	.Lrekusoyen_raw_start_block_0_1_0.27
	leaq	-3(%r8), %rbx
	shll	$8, %r9d
	cmpq	%r10, %rbx
	jae	.Lrekusoyen_raw_start_block_0_1_0.12
	movzbl	(%r11,%rbx), %r14d
	orq	%r14, %r9
.Lrekusoyen_raw_start_block_0_1_0.12:
	testq	%rbx, %rbx
	je	.Lrekusoyen_raw_start_block_0_1_0.27
	leaq	-4(%r8), %rbx
	shll	$8, %r9d
	cmpq	%r10, %rbx
	jae	.Lrekusoyen_raw_start_block_0_1_0.15
	movzbl	(%r11,%rbx), %r14d
	orq	%r14, %r9
.Lrekusoyen_raw_start_block_0_1_0.15:
	testq	%rbx, %rbx
	je	.Lrekusoyen_raw_start_block_0_1_0.27
	leaq	-5(%r8), %rbx
	shlq	$8, %r9
	cmpq	%r10, %rbx
	jae	.Lrekusoyen_raw_start_block_0_1_0.18
	movzbl	(%r11,%rbx), %r14d
	orq	%r14, %r9
.Lrekusoyen_raw_start_block_0_1_0.18:
	testq	%rbx, %rbx
	je	.Lrekusoyen_raw_start_block_0_1_0.27
	leaq	-6(%r8), %rbx
	shlq	$8, %r9
	cmpq	%r10, %rbx
	jae	.Lrekusoyen_raw_start_block_0_1_0.21
	movzbl	(%r11,%rbx), %r14d
	orq	%r14, %r9
.Lrekusoyen_raw_start_block_0_1_0.21:
	testq	%rbx, %rbx
	je	.Lrekusoyen_raw_start_block_0_1_0.27
	leaq	-7(%r8), %rbx
	shlq	$8, %r9
	cmpq	%r10, %rbx
	jae	.Lrekusoyen_raw_start_block_0_1_0.24
	movzbl	(%r11,%rbx), %r14d
	orq	%r14, %r9
.Lrekusoyen_raw_start_block_0_1_0.24:
	testq	%rbx, %rbx
	je	.Lrekusoyen_raw_start_block_0_1_0.27
	leaq	-8(%r8), %rbx
	shlq	$8, %r9
	cmpq	%r10, %rbx
	jae	.Lrekusoyen_raw_start_block_0_1_0.27
	movzbl	(%r11,%rbx), %r10d
	orq	%r10, %r9
	jmp	.Lrekusoyen_raw_start_block_0_1_0.27
	.p2align	4
.Lrekusoyen_raw_start_block_0_1_0.3:
	xorl	%r9d, %r9d
.Lrekusoyen_raw_start_block_0_1_0.27:
	movq	%r9, (%rcx,%rax)
	addq	%rdx, %r8
	movq	$-1, %r9
	cmovaeq	%r8, %r9
	movq	%rsi, %rdx
	cmpq	%r9, %rsi
	jb	.Lrekusoyen_raw_start_block_0_1_0.29
	movq	%r9, %rdx
	jmp	.Lrekusoyen_raw_start_block_0_1_0.29
.Lrekusoyen_raw_start_block_0_1_0.30:
	xorl	%eax, %eax
.Lrekusoyen_raw_start_block_0_1_0.31:
	popq	%rbx
	popq	%r14
	retq
.Lrekusoyen_raw_start_block_0_1_0.func_end:
	.size	rekusoyen_raw_start_block_0_1_0, .Lrekusoyen_raw_start_block_0_1_0.func_end-rekusoyen_raw_start_block_0_1_0
	.section	.text.rekusoyen_raw_step_0_1_0,"ax",@progbits
	.globl	rekusoyen_raw_step_0_1_0
	.hidden	rekusoyen_raw_step_0_1_0
	.p2align	4
	.type	rekusoyen_raw_step_0_1_0,@function
rekusoyen_raw_step_0_1_0:
	pushq	%rbp
	pushq	%r15
	pushq	%r14
	pushq	%r13
	pushq	%r12
	pushq	%rbx
	subq	$2632, %rsp
	movq	%rdx, %r10
	movq	2712(%rsp), %r14
	movq	2688(%rsp), %r15
	testq	%rdi, %rdi
	sete	%dl
	testq	%r10, %r10
	sete	%bl
	testq	%r8, %r8
	sete	%al
	xorl	%r13d, %r13d
	testq	%r15, %r15
	sete	%bpl
	testq	%r14, %r14
	sete	39(%rsp)
	movq	2696(%rsp), %r11
	xorq	$50, %r11
	movq	2720(%rsp), %r12
	xorq	$9, %r12
	orq	%r11, %r12
	movb	$33, %r11b
	jne	.Lrekusoyen_raw_step_0_1_0.110
	movb	%bpl, %r13b
	shll	$12, %r13d
	addq	%r13, %r15
	movq	(%r15), %r13
	movb	$32, %r11b
	cmpq	$2, %r13
	ja	.Lrekusoyen_raw_step_0_1_0.110
	movb	%bl, 160(%rsp)
	movq	%r10, 184(%rsp)
	movq	%rcx, 136(%rsp)
	movq	2704(%rsp), %rcx
	movq	48(%r15), %rbx
	movq	%rbx, %rbp
	testq	%rbx, %rbx
	je	.Lrekusoyen_raw_step_0_1_0.5
	cmpq	$1, %rbx
	jne	.Lrekusoyen_raw_step_0_1_0.110
	movq	56(%r15), %rbp
.Lrekusoyen_raw_step_0_1_0.5:
	movq	64(%r15), %r12
	movq	%r12, 176(%rsp)
	testq	%r12, %r12
	je	.Lrekusoyen_raw_step_0_1_0.8
	cmpq	$1, %r12
	jne	.Lrekusoyen_raw_step_0_1_0.110
	movq	%r14, %r10
	movq	%rbx, %r14
	movq	%r13, %rbx
	movq	%rcx, %r13
	movq	%rbp, %rcx
	movq	72(%r15), %rbp
	movq	%rbp, 176(%rsp)
	movq	%rcx, %rbp
	movq	%r13, %rcx
	movq	%rbx, %r13
	movq	%r14, %rbx
	movq	%r10, %r14
.Lrekusoyen_raw_step_0_1_0.8:
	movq	%r12, 24(%rsp)
	movq	336(%r15), %r10
	leaq	-1(%r10), %r12
	cmpq	$2, %r12
	ja	.Lrekusoyen_raw_step_0_1_0.110
	movq	%r10, 144(%rsp)
	movq	%rbx, 192(%rsp)
	movq	8(%r15), %r10
	movq	%r10, 104(%rsp)
	movq	16(%r15), %r10
	movq	%r10, 80(%rsp)
	movq	24(%r15), %r10
	movq	80(%r15), %r12
	movq	%r12, 432(%rsp)
	movq	88(%r15), %r12
	movq	%r12, 416(%rsp)
	movq	96(%r15), %r12
	movq	%r12, 392(%rsp)
	movq	104(%r15), %r12
	movq	%r12, 376(%rsp)
	movq	112(%r15), %r12
	movq	%r12, 360(%rsp)
	movq	120(%r15), %r12
	movq	%r12, 344(%rsp)
	movq	128(%r15), %r12
	movq	%r12, 328(%rsp)
	movq	136(%r15), %r12
	movq	%r12, 312(%rsp)
	movq	144(%r15), %r12
	movq	%r12, 296(%rsp)
	movq	152(%r15), %r12
	movq	%r12, 280(%rsp)
	movq	160(%r15), %r12
	movq	%r12, 272(%rsp)
	movq	168(%r15), %r12
	movq	%r12, 264(%rsp)
	movq	176(%r15), %r12
	movq	%r12, 256(%rsp)
	movq	184(%r15), %r12
	movq	%r12, 248(%rsp)
	movq	192(%r15), %r12
	movq	%r12, 240(%rsp)
	movq	200(%r15), %r12
	movq	%r12, 112(%rsp)
	movq	208(%r15), %r12
	movq	%r12, 424(%rsp)
	movq	216(%r15), %r12
	movq	%r12, 400(%rsp)
	movq	224(%r15), %r12
	movq	%r12, 384(%rsp)
	movq	232(%r15), %r12
	movq	%r12, 368(%rsp)
	movq	240(%r15), %r12
	movq	%r12, 352(%rsp)
	movq	248(%r15), %r12
	movq	%r12, 336(%rsp)
	movq	256(%r15), %r12
	movq	%r12, 320(%rsp)
	movq	264(%r15), %r12
	movq	%r12, 304(%rsp)
	movq	272(%r15), %r12
	movq	%r12, 288(%rsp)
	movq	280(%r15), %r12
	movq	%r12, 128(%rsp)
	movq	288(%r15), %r12
	movq	%r12, 120(%rsp)
	movq	296(%r15), %r12
	movq	%r12, 232(%rsp)
	movq	304(%r15), %r12
	movq	%r12, 224(%rsp)
	movq	312(%r15), %r12
	movq	%r12, 216(%rsp)
	movq	320(%r15), %r12
	movq	%r12, 208(%rsp)
	movq	328(%r15), %r12
	movq	%r12, 168(%rsp)
	movq	32(%r15), %r12
	movq	%r12, 472(%rsp)
	movq	40(%r15), %r12
	movq	%r12, 496(%rsp)
	movq	368(%r15), %r12
	testq	%r12, %r12
	movq	%r13, 408(%rsp)
	je	.Lrekusoyen_raw_step_0_1_0.10
	cmpq	$2, %r12
	je	.Lrekusoyen_raw_step_0_1_0.14
	cmpq	$1, %r12
	jne	.Lrekusoyen_raw_step_0_1_0.110
	movq	%r10, 200(%rsp)
	movl	$1, %ebx
	xorl	%r13d, %r13d
	xorl	%r10d, %r10d
	xorl	%r12d, %r12d
	jmp	.Lrekusoyen_raw_step_0_1_0.15
.Lrekusoyen_raw_step_0_1_0.14:
	movq	%r10, 200(%rsp)
	movq	392(%r15), %r13
	movq	376(%r15), %r12
	movq	384(%r15), %r10
	xorl	%ebx, %ebx
	jmp	.Lrekusoyen_raw_step_0_1_0.15
.Lrekusoyen_raw_step_0_1_0.10:
	movq	%r10, 200(%rsp)
	movl	$2, %ebx
	movq	%r12, %r10
	movq	%r12, %r13
.Lrekusoyen_raw_step_0_1_0.15:
	movq	%rdi, 480(%rsp)
	movq	344(%r15), %rdi
	testq	%rdi, %rdi
	je	.Lrekusoyen_raw_step_0_1_0.16
	movq	%rdi, %r12
	shrq	$32, %r12
	jne	.Lrekusoyen_raw_step_0_1_0.110
	decl	%edi
	cmpl	$107, %edi
	ja	.Lrekusoyen_raw_step_0_1_0.110
	movq	%rcx, 448(%rsp)
	movq	%rbp, 96(%rsp)
	leaq	.Lrekusoyen_raw_step_0_1_0.JTI0(%rip), %r12
	movslq	(%r12,%rdi,4), %rdi
	addq	%r12, %rdi
	movq	408(%rsp), %r12
	movq	%rsi, 488(%rsp)
	movq	%r9, 464(%rsp)
	movq	%r8, 456(%rsp)
	movb	%al, 95(%rsp)
	movb	%dl, 94(%rsp)
	jmpq	*%rdi
.Lrekusoyen_raw_step_0_1_0.109:
	movq	$0, 72(%rsp)
	jmp	.Lrekusoyen_raw_step_0_1_0.37
.Lrekusoyen_raw_step_0_1_0.110:
	movzbl	%r11b, %edi
.Lrekusoyen_raw_step_0_1_0.111:
	addq	$2632, %rsp
	popq	%rbx
	popq	%r12
	popq	%r13
	popq	%r14
	popq	%r15
	popq	%rbp
	jmp	rekusoyen_0_1_0.answers.U32FromRefusal.from
.Lrekusoyen_raw_step_0_1_0.16:
	movq	%rcx, 448(%rsp)
	movb	%dl, 94(%rsp)
	movb	%al, 95(%rsp)
	movq	%rbp, 96(%rsp)
	movq	%rsi, 488(%rsp)
	movq	%r8, 456(%rsp)
	movq	%r9, 464(%rsp)
	movq	352(%r15), %rax
	movq	%rax, 16(%rsp)
	movq	%rbx, 56(%rsp)
	movq	360(%r15), %rax
	movq	%rax, 64(%rsp)
	xorl	%ebp, %ebp
	movq	$0, 72(%rsp)
	movq	%r12, 48(%rsp)
	movq	%r10, 40(%rsp)
	movq	%r13, %rbx
	movq	408(%rsp), %r12
	movq	24(%rsp), %r13
	jmp	.Lrekusoyen_raw_step_0_1_0.17
.Lrekusoyen_raw_step_0_1_0.102:
	movb	$66, %al
	jmp	.Lrekusoyen_raw_step_0_1_0.36
.Lrekusoyen_raw_step_0_1_0.108:
	movb	$72, %al
	jmp	.Lrekusoyen_raw_step_0_1_0.36
.Lrekusoyen_raw_step_0_1_0.79:
	movb	$43, %al
	jmp	.Lrekusoyen_raw_step_0_1_0.36
.Lrekusoyen_raw_step_0_1_0.86:
	movb	$50, %al
	jmp	.Lrekusoyen_raw_step_0_1_0.36
.Lrekusoyen_raw_step_0_1_0.92:
	movb	$56, %al
	jmp	.Lrekusoyen_raw_step_0_1_0.36
.Lrekusoyen_raw_step_0_1_0.89:
	movb	$53, %al
	jmp	.Lrekusoyen_raw_step_0_1_0.36
.Lrekusoyen_raw_step_0_1_0.85:
	movb	$49, %al
	jmp	.Lrekusoyen_raw_step_0_1_0.36
.Lrekusoyen_raw_step_0_1_0.68:
	movb	$32, %al
	jmp	.Lrekusoyen_raw_step_0_1_0.36
.Lrekusoyen_raw_step_0_1_0.75:
	movb	$39, %al
	jmp	.Lrekusoyen_raw_step_0_1_0.36
.Lrekusoyen_raw_step_0_1_0.74:
	movb	$38, %al
	jmp	.Lrekusoyen_raw_step_0_1_0.36
.Lrekusoyen_raw_step_0_1_0.72:
	movb	$36, %al
	jmp	.Lrekusoyen_raw_step_0_1_0.36
.Lrekusoyen_raw_step_0_1_0.62:
	movb	$26, %al
	jmp	.Lrekusoyen_raw_step_0_1_0.36
.Lrekusoyen_raw_step_0_1_0.80:
	movb	$44, %al
	jmp	.Lrekusoyen_raw_step_0_1_0.36
.Lrekusoyen_raw_step_0_1_0.54:
	movb	$18, %al
	jmp	.Lrekusoyen_raw_step_0_1_0.36
.Lrekusoyen_raw_step_0_1_0.100:
	movb	$64, %al
	jmp	.Lrekusoyen_raw_step_0_1_0.36
.Lrekusoyen_raw_step_0_1_0.45:
	movb	$9, %al
	jmp	.Lrekusoyen_raw_step_0_1_0.36
.Lrekusoyen_raw_step_0_1_0.69:
	movb	$33, %al
	jmp	.Lrekusoyen_raw_step_0_1_0.36
.Lrekusoyen_raw_step_0_1_0.57:
	movb	$21, %al
	jmp	.Lrekusoyen_raw_step_0_1_0.36
.Lrekusoyen_raw_step_0_1_0.49:
	movb	$13, %al
	jmp	.Lrekusoyen_raw_step_0_1_0.36
.Lrekusoyen_raw_step_0_1_0.61:
	movb	$25, %al
	jmp	.Lrekusoyen_raw_step_0_1_0.36
.Lrekusoyen_raw_step_0_1_0.59:
	movb	$23, %al
	jmp	.Lrekusoyen_raw_step_0_1_0.36
.Lrekusoyen_raw_step_0_1_0.43:
	movb	$7, %al
	jmp	.Lrekusoyen_raw_step_0_1_0.36
.Lrekusoyen_raw_step_0_1_0.76:
	movb	$40, %al
	jmp	.Lrekusoyen_raw_step_0_1_0.36
.Lrekusoyen_raw_step_0_1_0.46:
	movb	$10, %al
	jmp	.Lrekusoyen_raw_step_0_1_0.36
.Lrekusoyen_raw_step_0_1_0.64:
	movb	$28, %al
	jmp	.Lrekusoyen_raw_step_0_1_0.36
.Lrekusoyen_raw_step_0_1_0.44:
	movb	$8, %al
	jmp	.Lrekusoyen_raw_step_0_1_0.36
.Lrekusoyen_raw_step_0_1_0.41:
	movb	$5, %al
	jmp	.Lrekusoyen_raw_step_0_1_0.36
.Lrekusoyen_raw_step_0_1_0.42:
	movb	$6, %al
	jmp	.Lrekusoyen_raw_step_0_1_0.36
.Lrekusoyen_raw_step_0_1_0.105:
	movb	$69, %al
	jmp	.Lrekusoyen_raw_step_0_1_0.36
.Lrekusoyen_raw_step_0_1_0.65:
	movb	$29, %al
	jmp	.Lrekusoyen_raw_step_0_1_0.36
.Lrekusoyen_raw_step_0_1_0.67:
	movb	$31, %al
	jmp	.Lrekusoyen_raw_step_0_1_0.36
.Lrekusoyen_raw_step_0_1_0.58:
	movb	$22, %al
	jmp	.Lrekusoyen_raw_step_0_1_0.36
.Lrekusoyen_raw_step_0_1_0.40:
	movb	$4, %al
	jmp	.Lrekusoyen_raw_step_0_1_0.36
.Lrekusoyen_raw_step_0_1_0.48:
	movb	$12, %al
	jmp	.Lrekusoyen_raw_step_0_1_0.36
.Lrekusoyen_raw_step_0_1_0.55:
	movb	$19, %al
	jmp	.Lrekusoyen_raw_step_0_1_0.36
.Lrekusoyen_raw_step_0_1_0.47:
	movb	$11, %al
	jmp	.Lrekusoyen_raw_step_0_1_0.36
.Lrekusoyen_raw_step_0_1_0.77:
	movb	$41, %al
	jmp	.Lrekusoyen_raw_step_0_1_0.36
.Lrekusoyen_raw_step_0_1_0.35:
	movb	$2, %al
	jmp	.Lrekusoyen_raw_step_0_1_0.36
.Lrekusoyen_raw_step_0_1_0.81:
	movb	$45, %al
	jmp	.Lrekusoyen_raw_step_0_1_0.36
.Lrekusoyen_raw_step_0_1_0.84:
	movb	$48, %al
	jmp	.Lrekusoyen_raw_step_0_1_0.36
.Lrekusoyen_raw_step_0_1_0.60:
	movb	$24, %al
	jmp	.Lrekusoyen_raw_step_0_1_0.36
.Lrekusoyen_raw_step_0_1_0.82:
	movb	$46, %al
	jmp	.Lrekusoyen_raw_step_0_1_0.36
.Lrekusoyen_raw_step_0_1_0.34:
	movq	$0, 16(%rsp)
	movb	$1, %al
	movq	%rax, 72(%rsp)
	jmp	.Lrekusoyen_raw_step_0_1_0.38
.Lrekusoyen_raw_step_0_1_0.73:
	movb	$37, %al
	jmp	.Lrekusoyen_raw_step_0_1_0.36
.Lrekusoyen_raw_step_0_1_0.90:
	movb	$54, %al
	jmp	.Lrekusoyen_raw_step_0_1_0.36
.Lrekusoyen_raw_step_0_1_0.66:
	movb	$30, %al
	jmp	.Lrekusoyen_raw_step_0_1_0.36
.Lrekusoyen_raw_step_0_1_0.39:
	movb	$3, %al
	jmp	.Lrekusoyen_raw_step_0_1_0.36
.Lrekusoyen_raw_step_0_1_0.50:
	movb	$14, %al
	jmp	.Lrekusoyen_raw_step_0_1_0.36
.Lrekusoyen_raw_step_0_1_0.51:
	movb	$15, %al
	jmp	.Lrekusoyen_raw_step_0_1_0.36
.Lrekusoyen_raw_step_0_1_0.70:
	movb	$34, %al
	jmp	.Lrekusoyen_raw_step_0_1_0.36
.Lrekusoyen_raw_step_0_1_0.53:
	movb	$17, %al
	jmp	.Lrekusoyen_raw_step_0_1_0.36
.Lrekusoyen_raw_step_0_1_0.91:
	movb	$55, %al
	jmp	.Lrekusoyen_raw_step_0_1_0.36
.Lrekusoyen_raw_step_0_1_0.52:
	movb	$16, %al
	jmp	.Lrekusoyen_raw_step_0_1_0.36
.Lrekusoyen_raw_step_0_1_0.78:
	movb	$42, %al
	jmp	.Lrekusoyen_raw_step_0_1_0.36
.Lrekusoyen_raw_step_0_1_0.94:
	movb	$58, %al
	jmp	.Lrekusoyen_raw_step_0_1_0.36
.Lrekusoyen_raw_step_0_1_0.98:
	movb	$62, %al
	jmp	.Lrekusoyen_raw_step_0_1_0.36
.Lrekusoyen_raw_step_0_1_0.99:
	movb	$63, %al
	jmp	.Lrekusoyen_raw_step_0_1_0.36
.Lrekusoyen_raw_step_0_1_0.107:
	movb	$71, %al
	jmp	.Lrekusoyen_raw_step_0_1_0.36
.Lrekusoyen_raw_step_0_1_0.56:
	movb	$20, %al
	jmp	.Lrekusoyen_raw_step_0_1_0.36
.Lrekusoyen_raw_step_0_1_0.93:
	movb	$57, %al
	jmp	.Lrekusoyen_raw_step_0_1_0.36
.Lrekusoyen_raw_step_0_1_0.101:
	movb	$65, %al
	jmp	.Lrekusoyen_raw_step_0_1_0.36
.Lrekusoyen_raw_step_0_1_0.63:
	movb	$27, %al
	jmp	.Lrekusoyen_raw_step_0_1_0.36
.Lrekusoyen_raw_step_0_1_0.88:
	movb	$52, %al
	jmp	.Lrekusoyen_raw_step_0_1_0.36
.Lrekusoyen_raw_step_0_1_0.71:
	movb	$35, %al
	jmp	.Lrekusoyen_raw_step_0_1_0.36
.Lrekusoyen_raw_step_0_1_0.83:
	movb	$47, %al
	jmp	.Lrekusoyen_raw_step_0_1_0.36
.Lrekusoyen_raw_step_0_1_0.103:
	movb	$67, %al
	jmp	.Lrekusoyen_raw_step_0_1_0.36
.Lrekusoyen_raw_step_0_1_0.96:
	movb	$60, %al
	jmp	.Lrekusoyen_raw_step_0_1_0.36
.Lrekusoyen_raw_step_0_1_0.104:
	movb	$68, %al
	jmp	.Lrekusoyen_raw_step_0_1_0.36
.Lrekusoyen_raw_step_0_1_0.87:
	movb	$51, %al
	jmp	.Lrekusoyen_raw_step_0_1_0.36
.Lrekusoyen_raw_step_0_1_0.97:
	movb	$61, %al
	jmp	.Lrekusoyen_raw_step_0_1_0.36
.Lrekusoyen_raw_step_0_1_0.106:
	movb	$70, %al
	jmp	.Lrekusoyen_raw_step_0_1_0.36
.Lrekusoyen_raw_step_0_1_0.95:
	movb	$59, %al
.Lrekusoyen_raw_step_0_1_0.36:
	movq	%rax, 72(%rsp)
.Lrekusoyen_raw_step_0_1_0.37:
	movq	$0, 16(%rsp)
.Lrekusoyen_raw_step_0_1_0.38:
	movq	$0, 64(%rsp)
	movq	$0, 56(%rsp)
	movq	$0, 48(%rsp)
	movq	$0, 40(%rsp)
	xorl	%ebx, %ebx
	movq	24(%rsp), %r13
	movb	$1, %bpl
.Lrekusoyen_raw_step_0_1_0.17:
	xorl	%eax, %eax
	movzbl	160(%rsp), %ecx
	movb	%cl, %al
	shll	$12, %eax
	movq	184(%rsp), %rsi
	addq	%rax, %rsi
	movw	$0, 444(%rsp)
	movl	$0, 440(%rsp)
	leaq	1056(%rsp), %rdi
	movq	136(%rsp), %rdx
	callq	rekusoyen_0_1_0.guest.maps.from_numbers
	xorl	%eax, %eax
	movq	144(%rsp), %rcx
	cmpq	$2, %rcx
	setne	%al
	incq	%rax
	xorl	%edx, %edx
	cmpq	$1, %rcx
	cmovneq	%rax, %rdx
	movq	%r12, 1360(%rsp)
	movq	104(%rsp), %rax
	movq	%rax, 1368(%rsp)
	movq	80(%rsp), %rax
	movq	%rax, 1376(%rsp)
	movq	200(%rsp), %rax
	movq	%rax, 1384(%rsp)
	movq	432(%rsp), %rax
	movq	%rax, 1392(%rsp)
	movq	416(%rsp), %rax
	movq	%rax, 1400(%rsp)
	movq	392(%rsp), %rax
	movq	%rax, 1408(%rsp)
	movq	376(%rsp), %rax
	movq	%rax, 1416(%rsp)
	movq	360(%rsp), %rax
	movq	%rax, 1424(%rsp)
	movq	344(%rsp), %rax
	movq	%rax, 1432(%rsp)
	movq	328(%rsp), %rax
	movq	%rax, 1440(%rsp)
	movq	312(%rsp), %rax
	movq	%rax, 1448(%rsp)
	movq	296(%rsp), %rax
	movq	%rax, 1456(%rsp)
	movq	280(%rsp), %rax
	movq	%rax, 1464(%rsp)
	movq	272(%rsp), %rax
	movq	%rax, 1472(%rsp)
	movq	264(%rsp), %rax
	movq	%rax, 1480(%rsp)
	movq	256(%rsp), %rax
	movq	%rax, 1488(%rsp)
	movq	248(%rsp), %rax
	movq	%rax, 1496(%rsp)
	movq	240(%rsp), %rax
	movq	%rax, 1504(%rsp)
	movq	112(%rsp), %rax
	movq	%rax, 1512(%rsp)
	movq	424(%rsp), %rax
	movq	%rax, 1520(%rsp)
	movq	400(%rsp), %rax
	movq	%rax, 1528(%rsp)
	movq	384(%rsp), %rax
	movq	%rax, 1536(%rsp)
	movq	368(%rsp), %rax
	movq	%rax, 1544(%rsp)
	movq	352(%rsp), %rax
	movq	%rax, 1552(%rsp)
	movq	336(%rsp), %rax
	movq	%rax, 1560(%rsp)
	movq	320(%rsp), %rax
	movq	%rax, 1568(%rsp)
	movq	304(%rsp), %rax
	movq	%rax, 1576(%rsp)
	movq	288(%rsp), %rax
	movq	%rax, 1584(%rsp)
	movq	128(%rsp), %rax
	movq	%rax, 1592(%rsp)
	movq	120(%rsp), %rax
	movq	%rax, 1600(%rsp)
	movq	232(%rsp), %rax
	movq	%rax, 1608(%rsp)
	movq	224(%rsp), %rax
	movq	%rax, 1616(%rsp)
	movq	216(%rsp), %rax
	movq	%rax, 1624(%rsp)
	movq	208(%rsp), %rax
	movq	%rax, 1632(%rsp)
	movq	168(%rsp), %rax
	movq	%rax, 1640(%rsp)
	movq	472(%rsp), %rax
	movq	%rax, 1648(%rsp)
	movq	496(%rsp), %rax
	movq	%rax, 1656(%rsp)
	movl	%ebp, 184(%rsp)
	movb	%bpl, 1664(%rsp)
	movq	72(%rsp), %rax
	movb	%al, 1665(%rsp)
	movw	$0, 1670(%rsp)
	movl	$0, 1666(%rsp)
	movq	16(%rsp), %r12
	movq	%r12, 1672(%rsp)
	movq	64(%rsp), %rax
	movq	%rax, 1680(%rsp)
	movq	56(%rsp), %rax
	movq	%rax, 1688(%rsp)
	movq	48(%rsp), %rax
	movq	%rax, 1696(%rsp)
	movq	40(%rsp), %rax
	movq	%rax, 1704(%rsp)
	movq	%rbx, 1712(%rsp)
	movq	%rdx, 136(%rsp)
	movq	%rdx, 1720(%rsp)
	movq	192(%rsp), %rax
	movq	%rax, 1728(%rsp)
	movq	96(%rsp), %rbp
	movq	%rbp, 1736(%rsp)
	movq	%r13, 1744(%rsp)
	movq	176(%rsp), %rax
	movq	%rax, 1752(%rsp)
	leaq	520(%rsp), %rdi
	movl	$472, %edx
	xorl	%esi, %esi
	callq	memset@PLT
	movq	488(%rsp), %rdx
	movq	%rdx, 1048(%rsp)
	movabsq	$1099511627777, %rax
	movq	464(%rsp), %r9
	cmpq	%rax, %r9
	setae	%cl
	cmpq	%rax, %rdx
	setae	%sil
	movb	$31, %al
	orb	%cl, %sil
	jne	.Lrekusoyen_raw_step_0_1_0.172
	movq	1056(%rsp), %rsi
	movb	$43, %al
	cmpq	$16, %rsi
	jbe	.Lrekusoyen_raw_step_0_1_0.19
.Lrekusoyen_raw_step_0_1_0.172:
	movzbl	%al, %edi
	jmp	.Lrekusoyen_raw_step_0_1_0.111
.Lrekusoyen_raw_step_0_1_0.19:
	movzbl	1360(%rsp), %ecx
	movb	%cl, 160(%rsp)
	testq	%rsi, %rsi
	movq	456(%rsp), %r8
	movq	480(%rsp), %rdi
	je	.Lrekusoyen_raw_step_0_1_0.29
	movq	1192(%rsp), %r10
	testq	%r10, %r10
	je	.Lrekusoyen_raw_step_0_1_0.172
	movq	1064(%rsp), %rcx
	movq	%rdx, %r11
	subq	%rcx, %r11
	setae	%bpl
	cmpq	%r11, %r10
	setbe	%r11b
	andb	%bpl, %r11b
	cmpb	$1, %r11b
	jne	.Lrekusoyen_raw_step_0_1_0.172
	cmpq	$1, %rsi
	movq	96(%rsp), %rbp
	je	.Lrekusoyen_raw_step_0_1_0.29
	addq	%rcx, %r10
	leaq	-1(%rsi), %r11
	xorl	%ecx, %ecx
.Lrekusoyen_raw_step_0_1_0.24:
	movq	1072(%rsp,%rcx,8), %r13
	cmpq	%r13, %r10
	jae	.Lrekusoyen_raw_step_0_1_0.172
	movq	1200(%rsp,%rcx,8), %r10
	testq	%r10, %r10
	je	.Lrekusoyen_raw_step_0_1_0.172
	movq	%rdx, %rbp
	subq	%r13, %rbp
	jb	.Lrekusoyen_raw_step_0_1_0.172
	cmpq	%rbp, %r10
	ja	.Lrekusoyen_raw_step_0_1_0.172
	addq	%r13, %r10
	incq	%rcx
	cmpq	%rcx, %r11
	movq	96(%rsp), %rbp
	jne	.Lrekusoyen_raw_step_0_1_0.24
.Lrekusoyen_raw_step_0_1_0.29:
	cmpq	$0, 448(%rsp)
	je	.Lrekusoyen_raw_step_0_1_0.30
	xorl	%eax, %eax
	movzbl	94(%rsp), %ecx
	movb	%cl, %al
	shll	$12, %eax
	addq	%rax, %rdi
	xorl	%eax, %eax
	movzbl	95(%rsp), %ecx
	movb	%cl, %al
	shll	$12, %eax
	addq	%rax, %r8
	cmpb	$0, 160(%rsp)
	je	.Lrekusoyen_raw_step_0_1_0.164
	movq	104(%rsp), %rax
	xorq	%r9, %rax
	movq	80(%rsp), %r10
	xorq	%rdx, %r10
	orq	%rax, %r10
	movq	200(%rsp), %rcx
	xorq	%rcx, %rsi
	movb	$35, %al
	orq	%r10, %rsi
	jne	.Lrekusoyen_raw_step_0_1_0.172
	movq	%rdi, %rsi
	movq	%rcx, %r11
	testq	%rcx, %rcx
	je	.Lrekusoyen_raw_step_0_1_0.162
	movq	432(%rsp), %rcx
	cmpq	1064(%rsp), %rcx
	jne	.Lrekusoyen_raw_step_0_1_0.172
	movq	424(%rsp), %rcx
	cmpq	1192(%rsp), %rcx
	jne	.Lrekusoyen_raw_step_0_1_0.172
	cmpq	$1, %r11
	jne	.Lrekusoyen_raw_step_0_1_0.118
.Lrekusoyen_raw_step_0_1_0.162:
	cmpb	$2, 160(%rsp)
	jne	.Lrekusoyen_raw_step_0_1_0.163
	movq	48(%rsp), %r8
	movq	%r8, 968(%rsp)
	movq	40(%rsp), %r10
	movq	%r10, 976(%rsp)
	movq	%rbx, 984(%rsp)
	movq	408(%rsp), %rax
	movq	%rax, 520(%rsp)
	movq	%r9, 528(%rsp)
	movq	%rdx, 536(%rsp)
	movq	%r11, 544(%rsp)
	movq	432(%rsp), %rax
	movq	%rax, 552(%rsp)
	movq	416(%rsp), %rax
	movq	%rax, 560(%rsp)
	movq	392(%rsp), %rax
	movq	%rax, 568(%rsp)
	movq	376(%rsp), %rax
	movq	%rax, 576(%rsp)
	movq	360(%rsp), %rax
	movq	%rax, 584(%rsp)
	movq	344(%rsp), %rax
	movq	%rax, 592(%rsp)
	movq	328(%rsp), %rax
	movq	%rax, 600(%rsp)
	movq	312(%rsp), %rax
	movq	%rax, 608(%rsp)
	movq	296(%rsp), %rax
	movq	%rax, 616(%rsp)
	movq	280(%rsp), %rax
	movq	%rax, 624(%rsp)
	movq	272(%rsp), %rax
	movq	%rax, 632(%rsp)
	movq	264(%rsp), %rax
	movq	%rax, 640(%rsp)
	movq	256(%rsp), %rax
	movq	%rax, 648(%rsp)
	movq	248(%rsp), %rax
	movq	%rax, 656(%rsp)
	movq	240(%rsp), %rax
	movq	%rax, 664(%rsp)
	movq	112(%rsp), %rax
	movq	%rax, 672(%rsp)
	movq	424(%rsp), %rax
	movq	%rax, 680(%rsp)
	movq	400(%rsp), %rax
	movq	%rax, 688(%rsp)
	movq	384(%rsp), %rax
	movq	%rax, 696(%rsp)
	movq	368(%rsp), %rax
	movq	%rax, 704(%rsp)
	movq	352(%rsp), %rax
	movq	%rax, 712(%rsp)
	movq	336(%rsp), %rax
	movq	%rax, 720(%rsp)
	movq	320(%rsp), %rax
	movq	%rax, 728(%rsp)
	movq	304(%rsp), %rax
	movq	%rax, 736(%rsp)
	movq	288(%rsp), %rax
	movq	%rax, 744(%rsp)
	movq	128(%rsp), %rax
	movq	%rax, 752(%rsp)
	movq	120(%rsp), %rax
	movq	%rax, 760(%rsp)
	movq	232(%rsp), %rax
	movq	%rax, 768(%rsp)
	movq	224(%rsp), %rax
	movq	%rax, 776(%rsp)
	movq	216(%rsp), %rax
	movq	%rax, 784(%rsp)
	movq	208(%rsp), %rax
	movq	%rax, 792(%rsp)
	movq	168(%rsp), %rax
	movq	%rax, 800(%rsp)
	movq	472(%rsp), %rax
	movq	%rax, 808(%rsp)
	movq	496(%rsp), %rax
	movq	%rax, 816(%rsp)
	movl	184(%rsp), %ecx
	movb	%cl, 824(%rsp)
	movq	72(%rsp), %rdx
	movb	%dl, 825(%rsp)
	movzwl	444(%rsp), %eax
	movw	%ax, 830(%rsp)
	movl	440(%rsp), %eax
	movl	%eax, 826(%rsp)
	movq	%r12, 832(%rsp)
	movq	64(%rsp), %rsi
	movq	%rsi, 840(%rsp)
	movq	56(%rsp), %rdi
	movq	%rdi, 848(%rsp)
	movq	%r8, 856(%rsp)
	movq	%r10, 864(%rsp)
	movq	%rbx, 872(%rsp)
	movq	136(%rsp), %rax
	movq	%rax, 880(%rsp)
	movq	192(%rsp), %rax
	movq	%rax, 888(%rsp)
	movq	%rbp, 896(%rsp)
	movq	24(%rsp), %rax
	movq	%rax, 904(%rsp)
	movq	176(%rsp), %rax
	movq	%rax, 912(%rsp)
	movb	$1, 928(%rsp)
	movl	$0, 932(%rsp)
	movl	$0, 929(%rsp)
	movb	%cl, 936(%rsp)
	movb	%dl, 937(%rsp)
	movw	$0, 942(%rsp)
	movl	$0, 938(%rsp)
	movq	%r12, 944(%rsp)
	movq	%rsi, 952(%rsp)
	movq	%rdi, 960(%rsp)
	jmp	.Lrekusoyen_raw_step_0_1_0.169
.Lrekusoyen_raw_step_0_1_0.30:
	movb	$34, %al
	movzbl	%al, %edi
	jmp	.Lrekusoyen_raw_step_0_1_0.111
.Lrekusoyen_raw_step_0_1_0.164:
	movq	%rdi, 480(%rsp)
	movq	136(%rsp), %rax
	movq	%rax, 1320(%rsp)
	movq	192(%rsp), %rax
	movq	%rax, 1328(%rsp)
	movq	%rbp, 1336(%rsp)
	movq	24(%rsp), %rax
	movq	%rax, 1344(%rsp)
	movq	176(%rsp), %rax
	movq	%rax, 1352(%rsp)
	leaq	2160(%rsp), %rdi
	movl	$472, %edx
	xorl	%esi, %esi
	movq	%r8, %rbx
	callq	memset@PLT
	movq	$0, 2064(%rsp)
	xorps	%xmm0, %xmm0
	movaps	%xmm0, 992(%rsp)
	movaps	%xmm0, 1008(%rsp)
	movaps	%xmm0, 1024(%rsp)
	movq	$0, 1040(%rsp)
	leaq	992(%rsp), %rdi
	leaq	1048(%rsp), %rsi
	leaq	1320(%rsp), %r8
	movq	%rbx, 456(%rsp)
	movq	%rbx, %rdx
	movq	464(%rsp), %rcx
	callq	rekusoyen_0_1_0.loads.formats.plan
	movzbl	992(%rsp), %ebx
	movzbl	993(%rsp), %eax
	movb	%al, 184(%rsp)
	movq	1000(%rsp), %rax
	movq	%rax, 160(%rsp)
	movq	1008(%rsp), %r13
	movzbl	1016(%rsp), %r12d
	testb	%bl, %bl
	sete	%al
	movq	%rbp, 96(%rsp)
	movb	$2, %bpl
	subb	%al, %bpl
	leaq	1776(%rsp), %rdi
	movl	$272, %edx
	leaq	1048(%rsp), %rsi
	callq	memcpy@PLT
	movq	464(%rsp), %r9
	movb	%bpl, 1760(%rsp)
	movq	160(%rsp), %rbp
	movq	%r13, %rax
	movzbl	184(%rsp), %r13d
	movl	$0, 1761(%rsp)
	movl	$0, 1764(%rsp)
	movq	%r9, 1768(%rsp)
	xorps	%xmm0, %xmm0
	movups	%xmm0, 2048(%rsp)
	movb	%bl, 2064(%rsp)
	movb	%r13b, 2065(%rsp)
	movq	%rbp, 2072(%rsp)
	movq	%rax, 80(%rsp)
	movq	%rax, 2080(%rsp)
	movq	%r12, 2088(%rsp)
	movaps	1024(%rsp), %xmm0
	movups	%xmm0, 2096(%rsp)
	movq	1040(%rsp), %rax
	movq	%rax, 2112(%rsp)
	movq	136(%rsp), %rax
	movq	%rax, 2120(%rsp)
	movq	192(%rsp), %rax
	movq	%rax, 2128(%rsp)
	movq	96(%rsp), %rax
	movq	%rax, 2136(%rsp)
	movq	24(%rsp), %rax
	movq	%rax, 2144(%rsp)
	movq	176(%rsp), %rax
	movq	%rax, 2152(%rsp)
	movb	%bl, 136(%rsp)
	testb	%bl, %bl
	je	.Lrekusoyen_raw_step_0_1_0.166
	leaq	1024(%rsp), %rax
	movq	16(%rax), %rcx
	movq	%rcx, 2624(%rsp)
	movups	(%rax), %xmm0
	movups	%xmm0, 2608(%rsp)
	leaq	2160(%rsp), %rbx
	leaq	1760(%rsp), %rsi
	movl	$400, %edx
	movq	%rbx, %rdi
	callq	memcpy@PLT
	movq	$0, 2560(%rsp)
	movb	$1, 2568(%rsp)
	movl	$0, 2569(%rsp)
	movl	$0, 2572(%rsp)
	movzbl	136(%rsp), %eax
	movb	%al, 2576(%rsp)
	movb	%r13b, 2577(%rsp)
	movl	$0, 2578(%rsp)
	movw	$0, 2582(%rsp)
	movq	%rbp, 2584(%rsp)
	movq	80(%rsp), %rax
	movq	%rax, 2592(%rsp)
	movq	%r12, 2600(%rsp)
	leaq	520(%rsp), %rdi
	movl	$472, %edx
	movq	%rbx, %rsi
	callq	memcpy@PLT
	jmp	.Lrekusoyen_raw_step_0_1_0.169
.Lrekusoyen_raw_step_0_1_0.166:
	movq	448(%rsp), %rax
	movq	%rax, 8(%rsp)
	leaq	1048(%rsp), %rax
	movq	%rax, (%rsp)
	leaq	2160(%rsp), %r13
	leaq	1760(%rsp), %rcx
	movq	%r13, %rdi
	movq	480(%rsp), %rsi
	movq	488(%rsp), %rdx
	movq	456(%rsp), %r8
	callq	rekusoyen_0_1_0.loads.steps.go_on
	leaq	520(%rsp), %rdi
	movl	$472, %edx
	movq	%r13, %rsi
	callq	memcpy@PLT
	jmp	.Lrekusoyen_raw_step_0_1_0.169
.Lrekusoyen_raw_step_0_1_0.163:
	movq	448(%rsp), %rax
	movq	%rax, 8(%rsp)
	leaq	1048(%rsp), %rax
	movq	%rax, (%rsp)
	leaq	520(%rsp), %rdi
	leaq	1360(%rsp), %rcx
	callq	rekusoyen_0_1_0.loads.steps.go_on
.Lrekusoyen_raw_step_0_1_0.169:
	xorl	%eax, %eax
	movzbl	39(%rsp), %ecx
	movb	%cl, %al
	shll	$12, %eax
	addq	%rax, %r14
	movq	920(%rsp), %r11
	movzbl	928(%rsp), %ebx
	movzbl	520(%rsp), %eax
	movq	%rax, 288(%rsp)
	movq	528(%rsp), %rax
	movq	%rax, 280(%rsp)
	movq	536(%rsp), %rax
	movq	%rax, 304(%rsp)
	movq	544(%rsp), %rax
	movq	%rax, 320(%rsp)
	movq	552(%rsp), %rax
	movq	%rax, 432(%rsp)
	movq	560(%rsp), %rax
	movq	%rax, 80(%rsp)
	movq	568(%rsp), %rax
	movq	%rax, 24(%rsp)
	movq	576(%rsp), %rax
	movq	%rax, 176(%rsp)
	movq	584(%rsp), %rax
	movq	%rax, 160(%rsp)
	movq	592(%rsp), %rax
	movq	%rax, 184(%rsp)
	movq	600(%rsp), %rax
	movq	%rax, 136(%rsp)
	movzbl	824(%rsp), %eax
	movb	%al, 39(%rsp)
	movzbl	825(%rsp), %eax
	movb	%al, 240(%rsp)
	movq	608(%rsp), %rdi
	movq	616(%rsp), %rsi
	movq	624(%rsp), %r10
	movq	632(%rsp), %rdx
	movq	640(%rsp), %rax
	movq	%rax, 248(%rsp)
	movq	648(%rsp), %rax
	movq	%rax, 256(%rsp)
	movq	656(%rsp), %rax
	movq	%rax, 264(%rsp)
	movq	664(%rsp), %rax
	movq	%rax, 272(%rsp)
	movq	672(%rsp), %rax
	movq	%rax, 296(%rsp)
	movq	680(%rsp), %rax
	movq	%rax, 312(%rsp)
	movq	688(%rsp), %rax
	movq	%rax, 328(%rsp)
	movq	696(%rsp), %rax
	movq	%rax, 336(%rsp)
	movq	704(%rsp), %rax
	movq	%rax, 344(%rsp)
	movq	712(%rsp), %rax
	movq	%rax, 352(%rsp)
	movq	720(%rsp), %rax
	movq	%rax, 360(%rsp)
	movq	728(%rsp), %rax
	movq	%rax, 368(%rsp)
	movq	736(%rsp), %rax
	movq	%rax, 376(%rsp)
	movq	744(%rsp), %rax
	movq	%rax, 384(%rsp)
	movq	752(%rsp), %rax
	movq	%rax, 392(%rsp)
	movq	760(%rsp), %rax
	movq	%rax, 400(%rsp)
	movq	768(%rsp), %rax
	movq	%rax, 408(%rsp)
	movq	776(%rsp), %rax
	movq	%rax, 416(%rsp)
	movq	784(%rsp), %rax
	movq	%rax, 424(%rsp)
	movq	792(%rsp), %rax
	movq	%rax, 104(%rsp)
	movq	800(%rsp), %rax
	movq	%rax, 192(%rsp)
	movq	808(%rsp), %rax
	movq	816(%rsp), %rbp
	movq	832(%rsp), %rcx
	movq	%rcx, 128(%rsp)
	movq	840(%rsp), %rcx
	movq	%rcx, 120(%rsp)
	movzbl	848(%rsp), %ecx
	movl	%ecx, 232(%rsp)
	movq	856(%rsp), %rcx
	movq	%rcx, 224(%rsp)
	movq	864(%rsp), %rcx
	movq	%rcx, 216(%rsp)
	movq	872(%rsp), %rcx
	movq	%rcx, 208(%rsp)
	movzbl	880(%rsp), %r13d
	movzbl	888(%rsp), %ecx
	movq	896(%rsp), %r12
	movzbl	904(%rsp), %r9d
	movq	912(%rsp), %r8
	testl	%ebx, %ebx
	je	.Lrekusoyen_raw_step_0_1_0.173
	cmpl	$1, %ebx
	jne	.Lrekusoyen_raw_step_0_1_0.171
	movq	%r11, 112(%rsp)
	movl	%ecx, %r11d
	andl	$1, %r11d
	xorl	%ebx, %ebx
	cmpq	$1, %rcx
	cmovneq	%rbx, %r12
	movl	%r9d, %ecx
	andl	$1, %ecx
	cmpq	$1, %r9
	cmovneq	%rbx, %r8
	movups	944(%rsp), %xmm0
	movups	968(%rsp), %xmm1
	movzbl	936(%rsp), %r9d
	movb	%r9b, 168(%rsp)
	movzbl	937(%rsp), %r9d
	movb	%r9b, 472(%rsp)
	movzbl	960(%rsp), %r9d
	movq	984(%rsp), %rbx
	movq	%rbx, 200(%rsp)
	movq	288(%rsp), %rbx
	movq	%rbx, (%r15)
	movq	280(%rsp), %rbx
	movq	%rbx, 8(%r15)
	movq	304(%rsp), %rbx
	movq	%rbx, 16(%r15)
	movq	320(%rsp), %rbx
	movq	%rbx, 24(%r15)
	movq	%rax, 32(%r15)
	movq	%rbp, 40(%r15)
	movq	%r11, 48(%r15)
	movq	%r12, 56(%r15)
	movq	%rcx, 64(%r15)
	movq	%r8, 72(%r15)
	movq	432(%rsp), %rax
	movq	%rax, 80(%r15)
	movq	80(%rsp), %rax
	movq	%rax, 88(%r15)
	movq	24(%rsp), %rax
	movq	%rax, 96(%r15)
	movq	176(%rsp), %rax
	movq	%rax, 104(%r15)
	movq	160(%rsp), %rax
	movq	%rax, 112(%r15)
	movq	184(%rsp), %rax
	movq	%rax, 120(%r15)
	movq	136(%rsp), %rax
	movq	%rax, 128(%r15)
	movq	%rdi, 136(%r15)
	movq	%rsi, 144(%r15)
	movq	%r10, 152(%r15)
	movq	%rdx, 160(%r15)
	movq	248(%rsp), %rax
	movq	%rax, 168(%r15)
	movq	256(%rsp), %rax
	movq	%rax, 176(%r15)
	movq	264(%rsp), %rax
	movq	%rax, 184(%r15)
	movq	272(%rsp), %rax
	movq	%rax, 192(%r15)
	movq	296(%rsp), %rax
	movq	%rax, 200(%r15)
	movq	312(%rsp), %rax
	movq	%rax, 208(%r15)
	movq	328(%rsp), %rax
	movq	%rax, 216(%r15)
	movq	336(%rsp), %rax
	movq	%rax, 224(%r15)
	movq	344(%rsp), %rax
	movq	%rax, 232(%r15)
	movq	352(%rsp), %rax
	movq	%rax, 240(%r15)
	movq	360(%rsp), %rax
	movq	%rax, 248(%r15)
	movq	368(%rsp), %rax
	movq	%rax, 256(%r15)
	movq	376(%rsp), %rax
	movq	%rax, 264(%r15)
	movq	384(%rsp), %rax
	movq	%rax, 272(%r15)
	movq	392(%rsp), %rax
	movq	%rax, 280(%r15)
	movq	400(%rsp), %rax
	movq	%rax, 288(%r15)
	movq	408(%rsp), %rax
	movq	%rax, 296(%r15)
	movq	416(%rsp), %rax
	movq	%rax, 304(%r15)
	movq	424(%rsp), %rax
	movq	%rax, 312(%r15)
	movq	104(%rsp), %rax
	movq	%rax, 320(%r15)
	movq	192(%rsp), %rax
	movq	%rax, 328(%r15)
	leaq	2160(%rsp), %rax
	leaq	336(%r15), %rdx
	movq	%rdx, %rcx
	subq	%rax, %rcx
	incq	%r13
	cmpq	$7, %rcx
	movq	%r13, (%rdx)
	movzbl	39(%rsp), %eax
	testb	%al, %al
	movaps	%xmm0, 496(%rsp)
	movaps	%xmm1, 144(%rsp)
	movl	%r9d, %ebp
	je	.Lrekusoyen_raw_step_0_1_0.183
	movzbl	240(%rsp), %edi
	callq	rekusoyen_0_1_0.answers.U32FromRefusal.from
	movl	%eax, %ecx
	xorl	%esi, %esi
	xorl	%edi, %edi
	xorl	%eax, %eax
	xorl	%r8d, %r8d
	xorl	%r9d, %r9d
	xorl	%r10d, %r10d
	movq	112(%rsp), %rdx
	jmp	.Lrekusoyen_raw_step_0_1_0.190
.Lrekusoyen_raw_step_0_1_0.173:
	movq	%r11, 112(%rsp)
	movl	%ecx, %ebx
	andl	$1, %ebx
	xorl	%r11d, %r11d
	cmpq	$1, %rcx
	cmovneq	%r11, %r12
	movl	%r9d, %ecx
	andl	$1, %ecx
	cmpq	$1, %r9
	cmovneq	%r11, %r8
	movq	288(%rsp), %r9
	movq	%r9, (%r15)
	movq	280(%rsp), %r9
	movq	%r9, 8(%r15)
	movq	304(%rsp), %r9
	movq	%r9, 16(%r15)
	movq	320(%rsp), %r9
	movq	%r9, 24(%r15)
	movq	%rax, 32(%r15)
	movq	%rbp, 40(%r15)
	movq	%rbx, 48(%r15)
	movq	%r12, 56(%r15)
	movq	%rcx, 64(%r15)
	movq	%r8, 72(%r15)
	movq	432(%rsp), %rax
	movq	%rax, 80(%r15)
	movq	80(%rsp), %rax
	movq	%rax, 88(%r15)
	movq	24(%rsp), %rax
	movq	%rax, 96(%r15)
	movq	176(%rsp), %rax
	movq	%rax, 104(%r15)
	movq	160(%rsp), %rax
	movq	%rax, 112(%r15)
	movq	184(%rsp), %rax
	movq	%rax, 120(%r15)
	movq	136(%rsp), %rax
	movq	%rax, 128(%r15)
	movq	%rdi, 136(%r15)
	movq	%rsi, 144(%r15)
	movq	%r10, 152(%r15)
	movq	%rdx, 160(%r15)
	movq	248(%rsp), %rax
	movq	%rax, 168(%r15)
	movq	256(%rsp), %rax
	movq	%rax, 176(%r15)
	movq	264(%rsp), %rax
	movq	%rax, 184(%r15)
	movq	272(%rsp), %rax
	movq	%rax, 192(%r15)
	movq	296(%rsp), %rax
	movq	%rax, 200(%r15)
	movq	312(%rsp), %rax
	movq	%rax, 208(%r15)
	movq	328(%rsp), %rax
	movq	%rax, 216(%r15)
	movq	336(%rsp), %rax
	movq	%rax, 224(%r15)
	movq	344(%rsp), %rax
	movq	%rax, 232(%r15)
	movq	352(%rsp), %rax
	movq	%rax, 240(%r15)
	movq	360(%rsp), %rax
	movq	%rax, 248(%r15)
	movq	368(%rsp), %rax
	movq	%rax, 256(%r15)
	movq	376(%rsp), %rax
	movq	%rax, 264(%r15)
	movq	384(%rsp), %rax
	movq	%rax, 272(%r15)
	movq	392(%rsp), %rax
	movq	%rax, 280(%r15)
	movq	400(%rsp), %rax
	movq	%rax, 288(%r15)
	movq	408(%rsp), %rax
	movq	%rax, 296(%r15)
	movq	416(%rsp), %rax
	movq	%rax, 304(%r15)
	movq	424(%rsp), %rax
	movq	%rax, 312(%r15)
	movq	104(%rsp), %rax
	movq	%rax, 320(%r15)
	movq	192(%rsp), %rax
	movq	%rax, 328(%r15)
	leaq	2160(%rsp), %rax
	leaq	336(%r15), %rdx
	movq	%rdx, %rcx
	subq	%rax, %rcx
	incq	%r13
	cmpq	$7, %rcx
	movq	%r13, (%rdx)
	movzbl	39(%rsp), %eax
	testb	%al, %al
	je	.Lrekusoyen_raw_step_0_1_0.174
	movzbl	240(%rsp), %edi
	callq	rekusoyen_0_1_0.answers.U32FromRefusal.from
	movl	%eax, %ecx
	xorl	%esi, %esi
	xorl	%edi, %edi
	xorl	%eax, %eax
	xorl	%r8d, %r8d
	xorl	%r9d, %r9d
	xorl	%r10d, %r10d
	movq	112(%rsp), %rdx
	jmp	.Lrekusoyen_raw_step_0_1_0.181
.Lrekusoyen_raw_step_0_1_0.171:
	movzbl	929(%rsp), %eax
	jmp	.Lrekusoyen_raw_step_0_1_0.172
.Lrekusoyen_raw_step_0_1_0.183:
	movl	232(%rsp), %eax
	testl	%eax, %eax
	je	.Lrekusoyen_raw_step_0_1_0.188
	cmpl	$2, %eax
	jne	.Lrekusoyen_raw_step_0_1_0.187
	xorl	%eax, %eax
	jmp	.Lrekusoyen_raw_step_0_1_0.186
.Lrekusoyen_raw_step_0_1_0.174:
	movl	232(%rsp), %eax
	testl	%eax, %eax
	je	.Lrekusoyen_raw_step_0_1_0.179
	cmpl	$2, %eax
	jne	.Lrekusoyen_raw_step_0_1_0.178
	xorl	%eax, %eax
	jmp	.Lrekusoyen_raw_step_0_1_0.177
.Lrekusoyen_raw_step_0_1_0.118:
	movq	%rbx, 144(%rsp)
	movq	%r15, 104(%rsp)
	movq	%r14, 80(%rsp)
	movq	%rdx, %rdi
	movq	416(%rsp), %rdx
	cmpq	1072(%rsp), %rdx
	jne	.Lrekusoyen_raw_step_0_1_0.172
	movq	400(%rsp), %rdx
	cmpq	1200(%rsp), %rdx
	jne	.Lrekusoyen_raw_step_0_1_0.172
	movq	%r9, %r10
	cmpq	$2, %r11
	movq	%rdi, %rdx
	movq	96(%rsp), %rbp
	movq	80(%rsp), %r14
	movq	104(%rsp), %r15
	movq	16(%rsp), %r12
	movq	144(%rsp), %rbx
	je	.Lrekusoyen_raw_step_0_1_0.162
	movq	392(%rsp), %rdx
	cmpq	1080(%rsp), %rdx
	jne	.Lrekusoyen_raw_step_0_1_0.172
	movq	384(%rsp), %rdx
	cmpq	1208(%rsp), %rdx
	jne	.Lrekusoyen_raw_step_0_1_0.172
	cmpq	$3, %r11
	movq	%r10, %r9
	movq	%rdi, %rdx
	movq	96(%rsp), %rbp
	movq	80(%rsp), %r14
	movq	104(%rsp), %r15
	movq	16(%rsp), %r12
	movq	144(%rsp), %rbx
	je	.Lrekusoyen_raw_step_0_1_0.162
	movq	376(%rsp), %rdx
	cmpq	1088(%rsp), %rdx
	jne	.Lrekusoyen_raw_step_0_1_0.172
	movq	368(%rsp), %rdx
	cmpq	1216(%rsp), %rdx
	jne	.Lrekusoyen_raw_step_0_1_0.172
	cmpq	$4, %r11
	movq	%r10, %r9
	movq	%rdi, %rdx
	movq	96(%rsp), %rbp
	movq	80(%rsp), %r14
	movq	104(%rsp), %r15
	movq	16(%rsp), %r12
	movq	144(%rsp), %rbx
	je	.Lrekusoyen_raw_step_0_1_0.162
	movq	360(%rsp), %rdx
	cmpq	1096(%rsp), %rdx
	jne	.Lrekusoyen_raw_step_0_1_0.172
	movq	352(%rsp), %rdx
	cmpq	1224(%rsp), %rdx
	jne	.Lrekusoyen_raw_step_0_1_0.172
	cmpq	$5, %r11
	movq	%r10, %r9
	movq	%rdi, %rdx
	movq	96(%rsp), %rbp
	movq	80(%rsp), %r14
	movq	104(%rsp), %r15
	movq	16(%rsp), %r12
	movq	144(%rsp), %rbx
	je	.Lrekusoyen_raw_step_0_1_0.162
	movq	344(%rsp), %rdx
	cmpq	1104(%rsp), %rdx
	jne	.Lrekusoyen_raw_step_0_1_0.172
	movq	336(%rsp), %rdx
	cmpq	1232(%rsp), %rdx
	jne	.Lrekusoyen_raw_step_0_1_0.172
	cmpq	$6, %r11
	movq	%r10, %r9
	movq	%rdi, %rdx
	movq	96(%rsp), %rbp
	movq	80(%rsp), %r14
	movq	104(%rsp), %r15
	movq	16(%rsp), %r12
	movq	144(%rsp), %rbx
	je	.Lrekusoyen_raw_step_0_1_0.162
	movq	328(%rsp), %rdx
	cmpq	1112(%rsp), %rdx
	jne	.Lrekusoyen_raw_step_0_1_0.172
	movq	320(%rsp), %rdx
	cmpq	1240(%rsp), %rdx
	jne	.Lrekusoyen_raw_step_0_1_0.172
	cmpq	$7, %r11
	movq	%r10, %r9
	movq	%rdi, %rdx
	movq	96(%rsp), %rbp
	movq	80(%rsp), %r14
	movq	104(%rsp), %r15
	movq	16(%rsp), %r12
	movq	144(%rsp), %rbx
	je	.Lrekusoyen_raw_step_0_1_0.162
	movq	312(%rsp), %rdx
	cmpq	1120(%rsp), %rdx
	jne	.Lrekusoyen_raw_step_0_1_0.172
	movq	304(%rsp), %rdx
	cmpq	1248(%rsp), %rdx
	jne	.Lrekusoyen_raw_step_0_1_0.172
	cmpq	$8, %r11
	movq	%r10, %r9
	movq	%rdi, %rdx
	movq	96(%rsp), %rbp
	movq	80(%rsp), %r14
	movq	104(%rsp), %r15
	movq	16(%rsp), %r12
	movq	144(%rsp), %rbx
	je	.Lrekusoyen_raw_step_0_1_0.162
	movq	296(%rsp), %rdx
	cmpq	1128(%rsp), %rdx
	jne	.Lrekusoyen_raw_step_0_1_0.172
	movq	288(%rsp), %rdx
	cmpq	1256(%rsp), %rdx
	jne	.Lrekusoyen_raw_step_0_1_0.172
	cmpq	$9, %r11
	movq	%r10, %r9
	movq	%rdi, %rdx
	movq	96(%rsp), %rbp
	movq	80(%rsp), %r14
	movq	104(%rsp), %r15
	movq	16(%rsp), %r12
	movq	144(%rsp), %rbx
	je	.Lrekusoyen_raw_step_0_1_0.162
	movq	280(%rsp), %rdx
	cmpq	1136(%rsp), %rdx
	jne	.Lrekusoyen_raw_step_0_1_0.172
	movq	128(%rsp), %rdx
	cmpq	1264(%rsp), %rdx
	jne	.Lrekusoyen_raw_step_0_1_0.172
	cmpq	$10, %r11
	movq	%r10, %r9
	movq	%rdi, %rdx
	movq	96(%rsp), %rbp
	movq	80(%rsp), %r14
	movq	104(%rsp), %r15
	movq	16(%rsp), %r12
	movq	144(%rsp), %rbx
	je	.Lrekusoyen_raw_step_0_1_0.162
	movq	272(%rsp), %rdx
	cmpq	1144(%rsp), %rdx
	jne	.Lrekusoyen_raw_step_0_1_0.172
	movq	120(%rsp), %rdx
	cmpq	1272(%rsp), %rdx
	jne	.Lrekusoyen_raw_step_0_1_0.172
	cmpq	$11, %r11
	movq	%r10, %r9
	movq	%rdi, %rdx
	movq	96(%rsp), %rbp
	movq	80(%rsp), %r14
	movq	104(%rsp), %r15
	movq	16(%rsp), %r12
	movq	144(%rsp), %rbx
	je	.Lrekusoyen_raw_step_0_1_0.162
	movq	264(%rsp), %rdx
	cmpq	1152(%rsp), %rdx
	jne	.Lrekusoyen_raw_step_0_1_0.172
	movq	232(%rsp), %rdx
	cmpq	1280(%rsp), %rdx
	jne	.Lrekusoyen_raw_step_0_1_0.172
	cmpq	$12, %r11
	movq	%r10, %r9
	movq	%rdi, %rdx
	movq	96(%rsp), %rbp
	movq	80(%rsp), %r14
	movq	104(%rsp), %r15
	movq	16(%rsp), %r12
	movq	144(%rsp), %rbx
	je	.Lrekusoyen_raw_step_0_1_0.162
	movq	256(%rsp), %rdx
	cmpq	1160(%rsp), %rdx
	jne	.Lrekusoyen_raw_step_0_1_0.172
	movq	224(%rsp), %rdx
	cmpq	1288(%rsp), %rdx
	jne	.Lrekusoyen_raw_step_0_1_0.172
	cmpq	$13, %r11
	movq	%r10, %r9
	movq	%rdi, %rdx
	movq	96(%rsp), %rbp
	movq	80(%rsp), %r14
	movq	104(%rsp), %r15
	movq	16(%rsp), %r12
	movq	144(%rsp), %rbx
	je	.Lrekusoyen_raw_step_0_1_0.162
	movq	248(%rsp), %rdx
	cmpq	1168(%rsp), %rdx
	jne	.Lrekusoyen_raw_step_0_1_0.172
	movq	216(%rsp), %rdx
	cmpq	1296(%rsp), %rdx
	jne	.Lrekusoyen_raw_step_0_1_0.172
	cmpq	$14, %r11
	movq	%r10, %r9
	movq	%rdi, %rdx
	movq	96(%rsp), %rbp
	movq	80(%rsp), %r14
	movq	104(%rsp), %r15
	movq	16(%rsp), %r12
	movq	144(%rsp), %rbx
	je	.Lrekusoyen_raw_step_0_1_0.162
	movq	240(%rsp), %rdx
	cmpq	1176(%rsp), %rdx
	jne	.Lrekusoyen_raw_step_0_1_0.172
	movq	208(%rsp), %rdx
	cmpq	1304(%rsp), %rdx
	jne	.Lrekusoyen_raw_step_0_1_0.172
	cmpq	$15, %r11
	movq	%r10, %r9
	movq	%rdi, %rdx
	movq	96(%rsp), %rbp
	movq	80(%rsp), %r14
	movq	104(%rsp), %r15
	movq	16(%rsp), %r12
	movq	144(%rsp), %rbx
	je	.Lrekusoyen_raw_step_0_1_0.162
	movq	112(%rsp), %rdx
	cmpq	1184(%rsp), %rdx
	jne	.Lrekusoyen_raw_step_0_1_0.172
	movq	168(%rsp), %rdx
	cmpq	1312(%rsp), %rdx
	movq	%r10, %r9
	movq	%rdi, %rdx
	movq	96(%rsp), %rbp
	movq	80(%rsp), %r14
	movq	104(%rsp), %r15
	movq	16(%rsp), %r12
	movq	144(%rsp), %rbx
	je	.Lrekusoyen_raw_step_0_1_0.162
	jmp	.Lrekusoyen_raw_step_0_1_0.172
.Lrekusoyen_raw_step_0_1_0.188:
	movl	$2, %eax
	xorl	%ecx, %ecx
	movq	112(%rsp), %rdx
	movq	128(%rsp), %rsi
	movq	120(%rsp), %rdi
	movq	224(%rsp), %r8
	movq	216(%rsp), %r9
	movq	208(%rsp), %r10
	jmp	.Lrekusoyen_raw_step_0_1_0.190
.Lrekusoyen_raw_step_0_1_0.179:
	movl	$2, %eax
	xorl	%ecx, %ecx
	movq	112(%rsp), %rdx
	movq	128(%rsp), %rsi
	movq	120(%rsp), %rdi
	movq	224(%rsp), %r8
	movq	216(%rsp), %r9
	movq	208(%rsp), %r10
	jmp	.Lrekusoyen_raw_step_0_1_0.181
.Lrekusoyen_raw_step_0_1_0.187:
	movl	$1, %eax
.Lrekusoyen_raw_step_0_1_0.186:
	xorl	%r8d, %r8d
	xorl	%r9d, %r9d
	xorl	%r10d, %r10d
	xorl	%ecx, %ecx
	movq	112(%rsp), %rdx
	movq	128(%rsp), %rsi
	movq	120(%rsp), %rdi
.Lrekusoyen_raw_step_0_1_0.190:
	movzbl	168(%rsp), %r11d
	movq	%rcx, 344(%r15)
	movq	%rsi, 352(%r15)
	movq	%rdi, 360(%r15)
	movq	%rax, 368(%r15)
	movq	%r8, 376(%r15)
	movq	%r9, 384(%r15)
	movq	%r10, 392(%r15)
	movq	%rdx, (%r14)
	movq	$1, 8(%r14)
	testb	%r11b, %r11b
	je	.Lrekusoyen_raw_step_0_1_0.191
	movzbl	472(%rsp), %edi
	callq	rekusoyen_0_1_0.answers.U32FromRefusal.from
	movl	%eax, %ecx
	xorps	%xmm0, %xmm0
	xorl	%eax, %eax
	xorl	%edx, %edx
	xorps	%xmm1, %xmm1
	jmp	.Lrekusoyen_raw_step_0_1_0.198
.Lrekusoyen_raw_step_0_1_0.191:
	testb	%bpl, %bpl
	je	.Lrekusoyen_raw_step_0_1_0.196
	movzbl	%bpl, %eax
	xorps	%xmm1, %xmm1
	cmpl	$2, %eax
	jne	.Lrekusoyen_raw_step_0_1_0.195
	xorl	%eax, %eax
	jmp	.Lrekusoyen_raw_step_0_1_0.194
.Lrekusoyen_raw_step_0_1_0.196:
	movl	$2, %eax
	xorl	%ecx, %ecx
	movaps	496(%rsp), %xmm0
	movaps	144(%rsp), %xmm1
	movq	200(%rsp), %rdx
	jmp	.Lrekusoyen_raw_step_0_1_0.198
.Lrekusoyen_raw_step_0_1_0.195:
	movl	$1, %eax
.Lrekusoyen_raw_step_0_1_0.194:
	xorl	%edx, %edx
	xorl	%ecx, %ecx
	movaps	496(%rsp), %xmm0
.Lrekusoyen_raw_step_0_1_0.198:
	movq	%rcx, 16(%r14)
	movups	%xmm0, 24(%r14)
	movq	%rax, 40(%r14)
	movups	%xmm1, 48(%r14)
	movq	%rdx, 64(%r14)
	jmp	.Lrekusoyen_raw_step_0_1_0.199
.Lrekusoyen_raw_step_0_1_0.178:
	movl	$1, %eax
.Lrekusoyen_raw_step_0_1_0.177:
	xorl	%r8d, %r8d
	xorl	%r9d, %r9d
	xorl	%r10d, %r10d
	xorl	%ecx, %ecx
	movq	112(%rsp), %rdx
	movq	128(%rsp), %rsi
	movq	120(%rsp), %rdi
.Lrekusoyen_raw_step_0_1_0.181:
	movq	%rcx, 344(%r15)
	movq	%rsi, 352(%r15)
	movq	%rdi, 360(%r15)
	movq	%rax, 368(%r15)
	movq	%r8, 376(%r15)
	movq	%r9, 384(%r15)
	movq	%r10, 392(%r15)
	movq	%rdx, (%r14)
	xorps	%xmm0, %xmm0
	movups	%xmm0, 8(%r14)
	movups	%xmm0, 24(%r14)
	movups	%xmm0, 40(%r14)
	movups	%xmm0, 56(%r14)
.Lrekusoyen_raw_step_0_1_0.199:
	xorl	%eax, %eax
	addq	$2632, %rsp
	popq	%rbx
	popq	%r12
	popq	%r13
	popq	%r14
	popq	%r15
	popq	%rbp
	retq
.Lrekusoyen_raw_step_0_1_0.func_end:
	.size	rekusoyen_raw_step_0_1_0, .Lrekusoyen_raw_step_0_1_0.func_end-rekusoyen_raw_step_0_1_0
	.section	.rodata.rekusoyen_raw_step_0_1_0,"a",@progbits
	.p2align	2, 0x0
.Lrekusoyen_raw_step_0_1_0.JTI0:
	.long	.Lrekusoyen_raw_step_0_1_0.109-.Lrekusoyen_raw_step_0_1_0.JTI0
	.long	.Lrekusoyen_raw_step_0_1_0.34-.Lrekusoyen_raw_step_0_1_0.JTI0
	.long	.Lrekusoyen_raw_step_0_1_0.35-.Lrekusoyen_raw_step_0_1_0.JTI0
	.long	.Lrekusoyen_raw_step_0_1_0.39-.Lrekusoyen_raw_step_0_1_0.JTI0
	.long	.Lrekusoyen_raw_step_0_1_0.40-.Lrekusoyen_raw_step_0_1_0.JTI0
	.long	.Lrekusoyen_raw_step_0_1_0.41-.Lrekusoyen_raw_step_0_1_0.JTI0
	.long	.Lrekusoyen_raw_step_0_1_0.42-.Lrekusoyen_raw_step_0_1_0.JTI0
	.long	.Lrekusoyen_raw_step_0_1_0.43-.Lrekusoyen_raw_step_0_1_0.JTI0
	.long	.Lrekusoyen_raw_step_0_1_0.44-.Lrekusoyen_raw_step_0_1_0.JTI0
	.long	.Lrekusoyen_raw_step_0_1_0.45-.Lrekusoyen_raw_step_0_1_0.JTI0
	.long	.Lrekusoyen_raw_step_0_1_0.46-.Lrekusoyen_raw_step_0_1_0.JTI0
	.long	.Lrekusoyen_raw_step_0_1_0.47-.Lrekusoyen_raw_step_0_1_0.JTI0
	.long	.Lrekusoyen_raw_step_0_1_0.48-.Lrekusoyen_raw_step_0_1_0.JTI0
	.long	.Lrekusoyen_raw_step_0_1_0.49-.Lrekusoyen_raw_step_0_1_0.JTI0
	.long	.Lrekusoyen_raw_step_0_1_0.110-.Lrekusoyen_raw_step_0_1_0.JTI0
	.long	.Lrekusoyen_raw_step_0_1_0.110-.Lrekusoyen_raw_step_0_1_0.JTI0
	.long	.Lrekusoyen_raw_step_0_1_0.110-.Lrekusoyen_raw_step_0_1_0.JTI0
	.long	.Lrekusoyen_raw_step_0_1_0.110-.Lrekusoyen_raw_step_0_1_0.JTI0
	.long	.Lrekusoyen_raw_step_0_1_0.110-.Lrekusoyen_raw_step_0_1_0.JTI0
	.long	.Lrekusoyen_raw_step_0_1_0.110-.Lrekusoyen_raw_step_0_1_0.JTI0
	.long	.Lrekusoyen_raw_step_0_1_0.50-.Lrekusoyen_raw_step_0_1_0.JTI0
	.long	.Lrekusoyen_raw_step_0_1_0.51-.Lrekusoyen_raw_step_0_1_0.JTI0
	.long	.Lrekusoyen_raw_step_0_1_0.52-.Lrekusoyen_raw_step_0_1_0.JTI0
	.long	.Lrekusoyen_raw_step_0_1_0.53-.Lrekusoyen_raw_step_0_1_0.JTI0
	.long	.Lrekusoyen_raw_step_0_1_0.110-.Lrekusoyen_raw_step_0_1_0.JTI0
	.long	.Lrekusoyen_raw_step_0_1_0.110-.Lrekusoyen_raw_step_0_1_0.JTI0
	.long	.Lrekusoyen_raw_step_0_1_0.110-.Lrekusoyen_raw_step_0_1_0.JTI0
	.long	.Lrekusoyen_raw_step_0_1_0.110-.Lrekusoyen_raw_step_0_1_0.JTI0
	.long	.Lrekusoyen_raw_step_0_1_0.110-.Lrekusoyen_raw_step_0_1_0.JTI0
	.long	.Lrekusoyen_raw_step_0_1_0.110-.Lrekusoyen_raw_step_0_1_0.JTI0
	.long	.Lrekusoyen_raw_step_0_1_0.54-.Lrekusoyen_raw_step_0_1_0.JTI0
	.long	.Lrekusoyen_raw_step_0_1_0.55-.Lrekusoyen_raw_step_0_1_0.JTI0
	.long	.Lrekusoyen_raw_step_0_1_0.110-.Lrekusoyen_raw_step_0_1_0.JTI0
	.long	.Lrekusoyen_raw_step_0_1_0.110-.Lrekusoyen_raw_step_0_1_0.JTI0
	.long	.Lrekusoyen_raw_step_0_1_0.110-.Lrekusoyen_raw_step_0_1_0.JTI0
	.long	.Lrekusoyen_raw_step_0_1_0.110-.Lrekusoyen_raw_step_0_1_0.JTI0
	.long	.Lrekusoyen_raw_step_0_1_0.110-.Lrekusoyen_raw_step_0_1_0.JTI0
	.long	.Lrekusoyen_raw_step_0_1_0.110-.Lrekusoyen_raw_step_0_1_0.JTI0
	.long	.Lrekusoyen_raw_step_0_1_0.110-.Lrekusoyen_raw_step_0_1_0.JTI0
	.long	.Lrekusoyen_raw_step_0_1_0.110-.Lrekusoyen_raw_step_0_1_0.JTI0
	.long	.Lrekusoyen_raw_step_0_1_0.56-.Lrekusoyen_raw_step_0_1_0.JTI0
	.long	.Lrekusoyen_raw_step_0_1_0.57-.Lrekusoyen_raw_step_0_1_0.JTI0
	.long	.Lrekusoyen_raw_step_0_1_0.58-.Lrekusoyen_raw_step_0_1_0.JTI0
	.long	.Lrekusoyen_raw_step_0_1_0.59-.Lrekusoyen_raw_step_0_1_0.JTI0
	.long	.Lrekusoyen_raw_step_0_1_0.60-.Lrekusoyen_raw_step_0_1_0.JTI0
	.long	.Lrekusoyen_raw_step_0_1_0.61-.Lrekusoyen_raw_step_0_1_0.JTI0
	.long	.Lrekusoyen_raw_step_0_1_0.62-.Lrekusoyen_raw_step_0_1_0.JTI0
	.long	.Lrekusoyen_raw_step_0_1_0.63-.Lrekusoyen_raw_step_0_1_0.JTI0
	.long	.Lrekusoyen_raw_step_0_1_0.64-.Lrekusoyen_raw_step_0_1_0.JTI0
	.long	.Lrekusoyen_raw_step_0_1_0.65-.Lrekusoyen_raw_step_0_1_0.JTI0
	.long	.Lrekusoyen_raw_step_0_1_0.66-.Lrekusoyen_raw_step_0_1_0.JTI0
	.long	.Lrekusoyen_raw_step_0_1_0.110-.Lrekusoyen_raw_step_0_1_0.JTI0
	.long	.Lrekusoyen_raw_step_0_1_0.110-.Lrekusoyen_raw_step_0_1_0.JTI0
	.long	.Lrekusoyen_raw_step_0_1_0.110-.Lrekusoyen_raw_step_0_1_0.JTI0
	.long	.Lrekusoyen_raw_step_0_1_0.110-.Lrekusoyen_raw_step_0_1_0.JTI0
	.long	.Lrekusoyen_raw_step_0_1_0.110-.Lrekusoyen_raw_step_0_1_0.JTI0
	.long	.Lrekusoyen_raw_step_0_1_0.110-.Lrekusoyen_raw_step_0_1_0.JTI0
	.long	.Lrekusoyen_raw_step_0_1_0.110-.Lrekusoyen_raw_step_0_1_0.JTI0
	.long	.Lrekusoyen_raw_step_0_1_0.110-.Lrekusoyen_raw_step_0_1_0.JTI0
	.long	.Lrekusoyen_raw_step_0_1_0.67-.Lrekusoyen_raw_step_0_1_0.JTI0
	.long	.Lrekusoyen_raw_step_0_1_0.68-.Lrekusoyen_raw_step_0_1_0.JTI0
	.long	.Lrekusoyen_raw_step_0_1_0.69-.Lrekusoyen_raw_step_0_1_0.JTI0
	.long	.Lrekusoyen_raw_step_0_1_0.70-.Lrekusoyen_raw_step_0_1_0.JTI0
	.long	.Lrekusoyen_raw_step_0_1_0.71-.Lrekusoyen_raw_step_0_1_0.JTI0
	.long	.Lrekusoyen_raw_step_0_1_0.110-.Lrekusoyen_raw_step_0_1_0.JTI0
	.long	.Lrekusoyen_raw_step_0_1_0.110-.Lrekusoyen_raw_step_0_1_0.JTI0
	.long	.Lrekusoyen_raw_step_0_1_0.110-.Lrekusoyen_raw_step_0_1_0.JTI0
	.long	.Lrekusoyen_raw_step_0_1_0.110-.Lrekusoyen_raw_step_0_1_0.JTI0
	.long	.Lrekusoyen_raw_step_0_1_0.110-.Lrekusoyen_raw_step_0_1_0.JTI0
	.long	.Lrekusoyen_raw_step_0_1_0.72-.Lrekusoyen_raw_step_0_1_0.JTI0
	.long	.Lrekusoyen_raw_step_0_1_0.73-.Lrekusoyen_raw_step_0_1_0.JTI0
	.long	.Lrekusoyen_raw_step_0_1_0.74-.Lrekusoyen_raw_step_0_1_0.JTI0
	.long	.Lrekusoyen_raw_step_0_1_0.75-.Lrekusoyen_raw_step_0_1_0.JTI0
	.long	.Lrekusoyen_raw_step_0_1_0.76-.Lrekusoyen_raw_step_0_1_0.JTI0
	.long	.Lrekusoyen_raw_step_0_1_0.77-.Lrekusoyen_raw_step_0_1_0.JTI0
	.long	.Lrekusoyen_raw_step_0_1_0.78-.Lrekusoyen_raw_step_0_1_0.JTI0
	.long	.Lrekusoyen_raw_step_0_1_0.79-.Lrekusoyen_raw_step_0_1_0.JTI0
	.long	.Lrekusoyen_raw_step_0_1_0.80-.Lrekusoyen_raw_step_0_1_0.JTI0
	.long	.Lrekusoyen_raw_step_0_1_0.81-.Lrekusoyen_raw_step_0_1_0.JTI0
	.long	.Lrekusoyen_raw_step_0_1_0.82-.Lrekusoyen_raw_step_0_1_0.JTI0
	.long	.Lrekusoyen_raw_step_0_1_0.83-.Lrekusoyen_raw_step_0_1_0.JTI0
	.long	.Lrekusoyen_raw_step_0_1_0.84-.Lrekusoyen_raw_step_0_1_0.JTI0
	.long	.Lrekusoyen_raw_step_0_1_0.85-.Lrekusoyen_raw_step_0_1_0.JTI0
	.long	.Lrekusoyen_raw_step_0_1_0.86-.Lrekusoyen_raw_step_0_1_0.JTI0
	.long	.Lrekusoyen_raw_step_0_1_0.87-.Lrekusoyen_raw_step_0_1_0.JTI0
	.long	.Lrekusoyen_raw_step_0_1_0.88-.Lrekusoyen_raw_step_0_1_0.JTI0
	.long	.Lrekusoyen_raw_step_0_1_0.89-.Lrekusoyen_raw_step_0_1_0.JTI0
	.long	.Lrekusoyen_raw_step_0_1_0.90-.Lrekusoyen_raw_step_0_1_0.JTI0
	.long	.Lrekusoyen_raw_step_0_1_0.110-.Lrekusoyen_raw_step_0_1_0.JTI0
	.long	.Lrekusoyen_raw_step_0_1_0.110-.Lrekusoyen_raw_step_0_1_0.JTI0
	.long	.Lrekusoyen_raw_step_0_1_0.91-.Lrekusoyen_raw_step_0_1_0.JTI0
	.long	.Lrekusoyen_raw_step_0_1_0.92-.Lrekusoyen_raw_step_0_1_0.JTI0
	.long	.Lrekusoyen_raw_step_0_1_0.93-.Lrekusoyen_raw_step_0_1_0.JTI0
	.long	.Lrekusoyen_raw_step_0_1_0.94-.Lrekusoyen_raw_step_0_1_0.JTI0
	.long	.Lrekusoyen_raw_step_0_1_0.95-.Lrekusoyen_raw_step_0_1_0.JTI0
	.long	.Lrekusoyen_raw_step_0_1_0.96-.Lrekusoyen_raw_step_0_1_0.JTI0
	.long	.Lrekusoyen_raw_step_0_1_0.97-.Lrekusoyen_raw_step_0_1_0.JTI0
	.long	.Lrekusoyen_raw_step_0_1_0.98-.Lrekusoyen_raw_step_0_1_0.JTI0
	.long	.Lrekusoyen_raw_step_0_1_0.99-.Lrekusoyen_raw_step_0_1_0.JTI0
	.long	.Lrekusoyen_raw_step_0_1_0.100-.Lrekusoyen_raw_step_0_1_0.JTI0
	.long	.Lrekusoyen_raw_step_0_1_0.101-.Lrekusoyen_raw_step_0_1_0.JTI0
	.long	.Lrekusoyen_raw_step_0_1_0.102-.Lrekusoyen_raw_step_0_1_0.JTI0
	.long	.Lrekusoyen_raw_step_0_1_0.103-.Lrekusoyen_raw_step_0_1_0.JTI0
	.long	.Lrekusoyen_raw_step_0_1_0.104-.Lrekusoyen_raw_step_0_1_0.JTI0
	.long	.Lrekusoyen_raw_step_0_1_0.105-.Lrekusoyen_raw_step_0_1_0.JTI0
	.long	.Lrekusoyen_raw_step_0_1_0.106-.Lrekusoyen_raw_step_0_1_0.JTI0
	.long	.Lrekusoyen_raw_step_0_1_0.107-.Lrekusoyen_raw_step_0_1_0.JTI0
	.long	.Lrekusoyen_raw_step_0_1_0.108-.Lrekusoyen_raw_step_0_1_0.JTI0
	.section	.text.rekusoyen_setup_header_0_1_0,"ax",@progbits
	.globl	rekusoyen_setup_header_0_1_0
	.hidden	rekusoyen_setup_header_0_1_0
	.p2align	4
	.type	rekusoyen_setup_header_0_1_0,@function
rekusoyen_setup_header_0_1_0:
	pushq	%rbp
	pushq	%r14
	pushq	%rbx
	subq	$128, %rsp
	xorl	%eax, %eax
	testq	%rdi, %rdi
	sete	%r9b
	xorl	%r10d, %r10d
	testq	%rcx, %rcx
	sete	%r11b
	cmpq	$123, %r8
	sete	%bl
	movabsq	$1099511627777, %r14
	cmpq	%r14, %rsi
	setb	%bpl
	testb	%bl, %bpl
	jne	.Lrekusoyen_setup_header_0_1_0.1
	xorl	%eax, %eax
	movabsq	$1099511627776, %rcx
	cmpq	%rcx, %rsi
	movl	$31, %ecx
	cmovbel	%eax, %ecx
	cmpq	$123, %r8
	movl	$33, %edi
	cmovel	%ecx, %edi
	addq	$128, %rsp
	popq	%rbx
	popq	%r14
	popq	%rbp
	jmp	rekusoyen_0_1_0.answers.U32FromRefusal.from
.Lrekusoyen_setup_header_0_1_0.1:
	movb	%r11b, %r10b
	shll	$12, %r10d
	addq	%r10, %rcx
	xorps	%xmm0, %xmm0
	movups	%xmm0, 107(%rsp)
	movaps	%xmm0, 96(%rsp)
	movaps	%xmm0, 80(%rsp)
	movaps	%xmm0, 64(%rsp)
	movaps	%xmm0, 48(%rsp)
	movaps	%xmm0, 32(%rsp)
	movaps	%xmm0, 16(%rsp)
	movaps	%xmm0, (%rsp)
	cmpq	$498, %rsi
	jb	.Lrekusoyen_setup_header_0_1_0.3
	movb	%r9b, %al
	shll	$12, %eax
	addq	%rax, %rdi
	addq	$-497, %rsi
	cmpq	$123, %rsi
	movl	$123, %eax
	cmovbq	%rsi, %rax
	addq	$497, %rdi
	movq	%rsp, %r8
	movq	%rdi, %rsi
	movq	%r8, %rdi
	movq	%rdx, %rbx
	movq	%rax, %rdx
	movq	%rcx, %r14
	callq	memcpy@PLT
	movq	%rbx, %rdx
	movq	%r14, %rcx
.Lrekusoyen_setup_header_0_1_0.3:
	movl	%edx, 35(%rsp)
	movups	107(%rsp), %xmm0
	movups	%xmm0, 107(%rcx)
	movaps	96(%rsp), %xmm0
	movups	%xmm0, 96(%rcx)
	movaps	80(%rsp), %xmm0
	movups	%xmm0, 80(%rcx)
	movaps	(%rsp), %xmm0
	movaps	16(%rsp), %xmm1
	movaps	48(%rsp), %xmm2
	movaps	64(%rsp), %xmm3
	movups	%xmm3, 64(%rcx)
	movups	%xmm2, 48(%rcx)
	movups	%xmm1, 16(%rcx)
	movups	%xmm0, (%rcx)
	movzwl	32(%rsp), %eax
	movw	%ax, 32(%rcx)
	movzbl	34(%rsp), %eax
	movb	%al, 34(%rcx)
	movl	35(%rsp), %eax
	movl	%eax, 35(%rcx)
	movq	39(%rsp), %rax
	movq	%rax, 39(%rcx)
	movzbl	47(%rsp), %eax
	movb	%al, 47(%rcx)
	xorl	%eax, %eax
	addq	$128, %rsp
	popq	%rbx
	popq	%r14
	popq	%rbp
	retq
.Lrekusoyen_setup_header_0_1_0.func_end:
	.size	rekusoyen_setup_header_0_1_0, .Lrekusoyen_setup_header_0_1_0.func_end-rekusoyen_setup_header_0_1_0
	.section	.text.rekusoyen_start_check_0_1_0,"ax",@progbits
	.globl	rekusoyen_start_check_0_1_0
	.hidden	rekusoyen_start_check_0_1_0
	.p2align	4
	.type	rekusoyen_start_check_0_1_0,@function
rekusoyen_start_check_0_1_0:
	pushq	%rbp
	pushq	%r15
	pushq	%r14
	pushq	%r12
	pushq	%rbx
	subq	$272, %rsp
	movq	%r8, %r15
	movq	%rsi, %rbx
	movq	%rdi, %r14
	xorl	%r12d, %r12d
	testq	%rdi, %rdi
	sete	%bpl
	xorl	%esi, %esi
	testq	%rdx, %rdx
	sete	%sil
	shll	$12, %esi
	addq	%rdx, %rsi
	leaq	8(%rsp), %rdi
	movq	%rcx, %rdx
	callq	rekusoyen_0_1_0.guest.maps.from_numbers
	movq	%rbx, (%rsp)
	movb	$31, %al
	movabsq	$1099511627776, %rcx
	cmpq	%rcx, %rbx
	ja	.Lrekusoyen_start_check_0_1_0.182
	movq	8(%rsp), %rcx
	movb	$43, %al
	cmpq	$16, %rcx
	ja	.Lrekusoyen_start_check_0_1_0.182
	testq	%rcx, %rcx
	je	.Lrekusoyen_start_check_0_1_0.181
	movq	144(%rsp), %rdx
	testq	%rdx, %rdx
	je	.Lrekusoyen_start_check_0_1_0.182
	movq	16(%rsp), %rsi
	movq	%rbx, %rdi
	subq	%rsi, %rdi
	setae	%r8b
	cmpq	%rdi, %rdx
	setbe	%dil
	andb	%r8b, %dil
	cmpb	$1, %dil
	jne	.Lrekusoyen_start_check_0_1_0.182
	cmpq	$1, %rcx
	jne	.Lrekusoyen_start_check_0_1_0.6
	movq	%rbx, %rax
	subq	%r15, %rax
	setae	%dl
	cmpq	$56, %rax
	setae	%al
	andb	%dl, %al
	cmpb	$1, %al
	je	.Lrekusoyen_start_check_0_1_0.14
	jmp	.Lrekusoyen_start_check_0_1_0.181
.Lrekusoyen_start_check_0_1_0.6:
	addq	%rsi, %rdx
	leaq	-1(%rcx), %rsi
	xorl	%edi, %edi
	.p2align	4
.Lrekusoyen_start_check_0_1_0.7:
	movq	24(%rsp,%rdi,8), %r8
	cmpq	%r8, %rdx
	jae	.Lrekusoyen_start_check_0_1_0.182
	movq	152(%rsp,%rdi,8), %rdx
	testq	%rdx, %rdx
	je	.Lrekusoyen_start_check_0_1_0.182
	movq	%rbx, %r9
	subq	%r8, %r9
	jb	.Lrekusoyen_start_check_0_1_0.182
	cmpq	%r9, %rdx
	ja	.Lrekusoyen_start_check_0_1_0.182
	addq	%r8, %rdx
	incq	%rdi
	cmpq	%rdi, %rsi
	jne	.Lrekusoyen_start_check_0_1_0.7
	movq	%rbx, %rax
	subq	%r15, %rax
	setae	%dl
	cmpq	$56, %rax
	setae	%al
	testb	%al, %dl
	je	.Lrekusoyen_start_check_0_1_0.181
.Lrekusoyen_start_check_0_1_0.14:
	movb	%bpl, %r12b
	shll	$12, %r12d
	addq	%r12, %r14
	xorl	%eax, %eax
	jmp	.Lrekusoyen_start_check_0_1_0.15
	.p2align	4
.Lrekusoyen_start_check_0_1_0.18:
	incq	%rax
	cmpq	%rax, %rcx
	je	.Lrekusoyen_start_check_0_1_0.181
.Lrekusoyen_start_check_0_1_0.15:
	movq	%r15, %rdx
	subq	16(%rsp,%rax,8), %rdx
	jb	.Lrekusoyen_start_check_0_1_0.18
	movq	144(%rsp,%rax,8), %rsi
	subq	%rdx, %rsi
	jb	.Lrekusoyen_start_check_0_1_0.18
	cmpq	$55, %rsi
	jbe	.Lrekusoyen_start_check_0_1_0.18
	movq	%rbx, %rax
	subq	%r15, %rax
	setae	%dl
	cmpq	$4, %rax
	setae	%al
	testb	%al, %dl
	je	.Lrekusoyen_start_check_0_1_0.20
	movl	(%r14,%r15), %edx
	jmp	.Lrekusoyen_start_check_0_1_0.29
.Lrekusoyen_start_check_0_1_0.20:
	xorl	%eax, %eax
	movq	%rbx, %rdx
	subq	%r15, %rdx
	cmovaeq	%rdx, %rax
	cmpq	$4, %rax
	jb	.Lrekusoyen_start_check_0_1_0.22
	movzbl	3(%r14,%r15), %edx
	shll	$8, %edx
	jmp	.Lrekusoyen_start_check_0_1_0.23
.Lrekusoyen_start_check_0_1_0.22:
	xorl	%edx, %edx
	cmpq	$3, %rax
	jne	.Lrekusoyen_start_check_0_1_0.24
.Lrekusoyen_start_check_0_1_0.23:
	movzbl	2(%r14,%r15), %eax
	orl	%eax, %edx
	shll	$8, %edx
.Lrekusoyen_start_check_0_1_0.25:
	movzbl	1(%r14,%r15), %eax
	orl	%eax, %edx
	shll	$8, %edx
.Lrekusoyen_start_check_0_1_0.26:
	movb	$44, %al
	cmpq	%r15, %rbx
	jbe	.Lrekusoyen_start_check_0_1_0.182
	movzbl	(%r14,%r15), %eax
	orq	%rax, %rdx
.Lrekusoyen_start_check_0_1_0.29:
	movb	$44, %al
	cmpl	$862897528, %edx
	jne	.Lrekusoyen_start_check_0_1_0.182
	movq	%r15, %rax
	addq	$4, %rax
	movq	$-1, %rdx
	cmovaeq	%rax, %rdx
	cmpq	%rdx, %rbx
	movq	%rdx, %rsi
	cmovbq	%rbx, %rsi
	xorl	%eax, %eax
	movq	%rbx, %rdi
	subq	%rsi, %rdi
	cmovaeq	%rdi, %rax
	cmpq	$4, %rax
	jb	.Lrekusoyen_start_check_0_1_0.32
	movzbl	3(%r14,%rsi), %edi
	shll	$8, %edi
	jmp	.Lrekusoyen_start_check_0_1_0.33
.Lrekusoyen_start_check_0_1_0.32:
	xorl	%edi, %edi
	cmpq	$3, %rax
	jne	.Lrekusoyen_start_check_0_1_0.34
.Lrekusoyen_start_check_0_1_0.33:
	movzbl	2(%r14,%rsi), %eax
	orl	%eax, %edi
	shll	$8, %edi
.Lrekusoyen_start_check_0_1_0.35:
	movzbl	1(%r14,%rsi), %eax
	orl	%eax, %edi
	shll	$8, %edi
.Lrekusoyen_start_check_0_1_0.36:
	movb	$45, %al
	cmpq	%rbx, %rdx
	jae	.Lrekusoyen_start_check_0_1_0.182
	movzbl	(%r14,%rsi), %edx
	orl	%edx, %edi
	cmpl	$1, %edi
	jne	.Lrekusoyen_start_check_0_1_0.182
	movq	%r15, %rdx
	addq	$52, %rdx
	movq	$-1, %rax
	cmovaeq	%rdx, %rax
	cmpq	%rax, %rbx
	movq	%rax, %rdx
	cmovbq	%rbx, %rdx
	xorl	%edi, %edi
	movq	%rbx, %rsi
	subq	%rdx, %rsi
	cmovaeq	%rsi, %rdi
	cmpq	$4, %rdi
	jb	.Lrekusoyen_start_check_0_1_0.40
	movzbl	3(%r14,%rdx), %esi
	shll	$8, %esi
	jmp	.Lrekusoyen_start_check_0_1_0.41
.Lrekusoyen_start_check_0_1_0.24:
	cmpq	$2, %rax
	jae	.Lrekusoyen_start_check_0_1_0.25
	jmp	.Lrekusoyen_start_check_0_1_0.26
.Lrekusoyen_start_check_0_1_0.34:
	cmpq	$2, %rax
	jae	.Lrekusoyen_start_check_0_1_0.35
	jmp	.Lrekusoyen_start_check_0_1_0.36
.Lrekusoyen_start_check_0_1_0.40:
	xorl	%esi, %esi
	cmpq	$3, %rdi
	jne	.Lrekusoyen_start_check_0_1_0.42
.Lrekusoyen_start_check_0_1_0.41:
	movzbl	2(%r14,%rdx), %edi
	orl	%edi, %esi
	shll	$8, %esi
.Lrekusoyen_start_check_0_1_0.43:
	movzbl	1(%r14,%rdx), %edi
	orl	%edi, %esi
	shll	$8, %esi
.Lrekusoyen_start_check_0_1_0.44:
	cmpq	%rbx, %rax
	jb	.Lrekusoyen_start_check_0_1_0.45
	movb	$46, %al
	testq	%rsi, %rsi
	jne	.Lrekusoyen_start_check_0_1_0.182
	jmp	.Lrekusoyen_start_check_0_1_0.47
.Lrekusoyen_start_check_0_1_0.45:
	movzbl	(%r14,%rdx), %eax
	orq	%rax, %rsi
	movb	$46, %al
	testq	%rsi, %rsi
	jne	.Lrekusoyen_start_check_0_1_0.182
.Lrekusoyen_start_check_0_1_0.47:
	movq	%r15, %rdx
	addq	$16, %rdx
	movq	$-1, %rsi
	cmovaeq	%rdx, %rsi
	cmpq	%rsi, %rbx
	movq	%rsi, %rdi
	cmovbq	%rbx, %rdi
	xorl	%r8d, %r8d
	movq	%rbx, %rdx
	subq	%rdi, %rdx
	cmovaeq	%rdx, %r8
	cmpq	$8, %r8
	jb	.Lrekusoyen_start_check_0_1_0.49
	movzbl	7(%r14,%rdi), %edx
	shll	$8, %edx
	jmp	.Lrekusoyen_start_check_0_1_0.51
.Lrekusoyen_start_check_0_1_0.42:
	cmpq	$2, %rdi
	jae	.Lrekusoyen_start_check_0_1_0.43
	jmp	.Lrekusoyen_start_check_0_1_0.44
.Lrekusoyen_start_check_0_1_0.49:
	cmpq	$7, %r8
	jne	.Lrekusoyen_start_check_0_1_0.52
	xorl	%edx, %edx
.Lrekusoyen_start_check_0_1_0.51:
	movzbl	6(%r14,%rdi), %r8d
	orl	%r8d, %edx
	shll	$8, %edx
.Lrekusoyen_start_check_0_1_0.54:
	movzbl	5(%r14,%rdi), %r8d
	orl	%r8d, %edx
	shll	$8, %edx
.Lrekusoyen_start_check_0_1_0.57:
	movzbl	4(%r14,%rdi), %r8d
	orq	%rdx, %r8
	shlq	$8, %r8
.Lrekusoyen_start_check_0_1_0.60:
	movzbl	3(%r14,%rdi), %r9d
	orq	%r8, %r9
	shlq	$8, %r9
.Lrekusoyen_start_check_0_1_0.63:
	movzbl	2(%r14,%rdi), %edx
	orq	%r9, %rdx
	shlq	$8, %rdx
.Lrekusoyen_start_check_0_1_0.65:
	movzbl	1(%r14,%rdi), %r8d
	orq	%rdx, %r8
	shlq	$8, %r8
	movq	%r8, %rdx
.Lrekusoyen_start_check_0_1_0.66:
	cmpq	%rbx, %rsi
	jae	.Lrekusoyen_start_check_0_1_0.68
	movzbl	(%r14,%rdi), %esi
	orq	%rsi, %rdx
.Lrekusoyen_start_check_0_1_0.68:
	movq	%r15, %rsi
	addq	$12, %rsi
	movq	$-1, %rdi
	cmovaeq	%rsi, %rdi
	cmpq	%rdi, %rbx
	movq	%rdi, %r8
	cmovbq	%rbx, %r8
	xorl	%r9d, %r9d
	movq	%rbx, %rsi
	subq	%r8, %rsi
	cmovaeq	%rsi, %r9
	cmpq	$4, %r9
	jb	.Lrekusoyen_start_check_0_1_0.70
	movzbl	3(%r14,%r8), %esi
	shll	$8, %esi
	jmp	.Lrekusoyen_start_check_0_1_0.71
.Lrekusoyen_start_check_0_1_0.70:
	xorl	%esi, %esi
	cmpq	$3, %r9
	jne	.Lrekusoyen_start_check_0_1_0.72
.Lrekusoyen_start_check_0_1_0.71:
	movzbl	2(%r14,%r8), %r9d
	orl	%r9d, %esi
	shll	$8, %esi
.Lrekusoyen_start_check_0_1_0.73:
	movzbl	1(%r14,%r8), %r9d
	orl	%r9d, %esi
	shll	$8, %esi
.Lrekusoyen_start_check_0_1_0.74:
	cmpq	%rbx, %rdi
	jb	.Lrekusoyen_start_check_0_1_0.75
	testq	%rsi, %rsi
	jne	.Lrekusoyen_start_check_0_1_0.77
	jmp	.Lrekusoyen_start_check_0_1_0.109
.Lrekusoyen_start_check_0_1_0.75:
	movzbl	(%r14,%r8), %edi
	orq	%rdi, %rsi
	testq	%rsi, %rsi
	je	.Lrekusoyen_start_check_0_1_0.109
.Lrekusoyen_start_check_0_1_0.77:
	movq	%rbx, %r8
	subq	%rdx, %r8
	jb	.Lrekusoyen_start_check_0_1_0.181
	movq	%rsi, %rdi
	shlq	$5, %rdi
	cmpq	%r8, %rdi
	ja	.Lrekusoyen_start_check_0_1_0.181
	shlq	$2, %rsi
	xorl	%r8d, %r8d
	jmp	.Lrekusoyen_start_check_0_1_0.80
.Lrekusoyen_start_check_0_1_0.86:
	incq	%r8
	cmpq	%r8, %rcx
	je	.Lrekusoyen_start_check_0_1_0.181
.Lrekusoyen_start_check_0_1_0.80:
	movq	%rdx, %r9
	subq	16(%rsp,%r8,8), %r9
	jb	.Lrekusoyen_start_check_0_1_0.86
	movq	144(%rsp,%r8,8), %r10
	subq	%r9, %r10
	jb	.Lrekusoyen_start_check_0_1_0.86
	cmpq	%r10, %rdi
	ja	.Lrekusoyen_start_check_0_1_0.86
	xorl	%edi, %edi
	jmp	.Lrekusoyen_start_check_0_1_0.84
.Lrekusoyen_start_check_0_1_0.108:
	addq	$8, %rdx
	movq	$-1, %r8
	cmovaeq	%rdx, %r8
	cmpq	%r8, %rbx
	cmovbq	%rbx, %r8
	incq	%rdi
	movq	%r8, %rdx
	cmpq	%rdi, %rsi
	je	.Lrekusoyen_start_check_0_1_0.109
.Lrekusoyen_start_check_0_1_0.84:
	xorl	%r9d, %r9d
	movq	%rbx, %r8
	subq	%rdx, %r8
	cmovaeq	%r8, %r9
	cmpq	$8, %r9
	jb	.Lrekusoyen_start_check_0_1_0.87
	movzbl	7(%r14,%rdx), %r8d
	shll	$8, %r8d
	jmp	.Lrekusoyen_start_check_0_1_0.89
.Lrekusoyen_start_check_0_1_0.87:
	cmpq	$7, %r9
	jne	.Lrekusoyen_start_check_0_1_0.90
	xorl	%r8d, %r8d
.Lrekusoyen_start_check_0_1_0.89:
	movzbl	6(%r14,%rdx), %r9d
	orl	%r9d, %r8d
	shll	$8, %r8d
.Lrekusoyen_start_check_0_1_0.92:
	movzbl	5(%r14,%rdx), %r9d
	orl	%r9d, %r8d
	shll	$8, %r8d
.Lrekusoyen_start_check_0_1_0.95:
	movzbl	4(%r14,%rdx), %r9d
	orq	%r8, %r9
	shlq	$8, %r9
.Lrekusoyen_start_check_0_1_0.98:
	movzbl	3(%r14,%rdx), %r10d
	orq	%r9, %r10
	shlq	$8, %r10
.Lrekusoyen_start_check_0_1_0.101:
	movzbl	2(%r14,%rdx), %r8d
	orq	%r10, %r8
	shlq	$8, %r8
.Lrekusoyen_start_check_0_1_0.103:
	movzbl	1(%r14,%rdx), %r9d
	orq	%r8, %r9
	shlq	$8, %r9
	movq	%r9, %r8
.Lrekusoyen_start_check_0_1_0.104:
	cmpq	%rdx, %rbx
	ja	.Lrekusoyen_start_check_0_1_0.105
	movl	%edi, %r9d
	notl	%r9d
	testb	$3, %r9b
	je	.Lrekusoyen_start_check_0_1_0.107
	jmp	.Lrekusoyen_start_check_0_1_0.108
.Lrekusoyen_start_check_0_1_0.105:
	movzbl	(%r14,%rdx), %r9d
	orq	%r9, %r8
	movl	%edi, %r9d
	notl	%r9d
	testb	$3, %r9b
	jne	.Lrekusoyen_start_check_0_1_0.108
.Lrekusoyen_start_check_0_1_0.107:
	testq	%r8, %r8
	je	.Lrekusoyen_start_check_0_1_0.108
	jmp	.Lrekusoyen_start_check_0_1_0.182
.Lrekusoyen_start_check_0_1_0.90:
	cmpq	$6, %r9
	jb	.Lrekusoyen_start_check_0_1_0.93
	xorl	%r8d, %r8d
	jmp	.Lrekusoyen_start_check_0_1_0.92
.Lrekusoyen_start_check_0_1_0.93:
	cmpq	$5, %r9
	jne	.Lrekusoyen_start_check_0_1_0.96
	xorl	%r8d, %r8d
	jmp	.Lrekusoyen_start_check_0_1_0.95
.Lrekusoyen_start_check_0_1_0.96:
	cmpq	$4, %r9
	jb	.Lrekusoyen_start_check_0_1_0.99
	xorl	%r9d, %r9d
	jmp	.Lrekusoyen_start_check_0_1_0.98
.Lrekusoyen_start_check_0_1_0.99:
	cmpq	$3, %r9
	jne	.Lrekusoyen_start_check_0_1_0.102
	xorl	%r10d, %r10d
	jmp	.Lrekusoyen_start_check_0_1_0.101
.Lrekusoyen_start_check_0_1_0.102:
	xorl	%r8d, %r8d
	cmpq	$2, %r9
	jae	.Lrekusoyen_start_check_0_1_0.103
	jmp	.Lrekusoyen_start_check_0_1_0.104
.Lrekusoyen_start_check_0_1_0.109:
	movq	%r15, %rdx
	addq	$40, %rdx
	movq	$-1, %rsi
	cmovaeq	%rdx, %rsi
	cmpq	%rsi, %rbx
	movq	%rsi, %rdi
	cmovbq	%rbx, %rdi
	xorl	%r8d, %r8d
	movq	%rbx, %rdx
	subq	%rdi, %rdx
	cmovaeq	%rdx, %r8
	cmpq	$8, %r8
	jb	.Lrekusoyen_start_check_0_1_0.111
	movzbl	7(%r14,%rdi), %edx
	shll	$8, %edx
	jmp	.Lrekusoyen_start_check_0_1_0.113
.Lrekusoyen_start_check_0_1_0.52:
	cmpq	$6, %r8
	jb	.Lrekusoyen_start_check_0_1_0.55
	xorl	%edx, %edx
	jmp	.Lrekusoyen_start_check_0_1_0.54
.Lrekusoyen_start_check_0_1_0.72:
	cmpq	$2, %r9
	jae	.Lrekusoyen_start_check_0_1_0.73
	jmp	.Lrekusoyen_start_check_0_1_0.74
.Lrekusoyen_start_check_0_1_0.111:
	cmpq	$7, %r8
	jne	.Lrekusoyen_start_check_0_1_0.114
	xorl	%edx, %edx
.Lrekusoyen_start_check_0_1_0.113:
	movzbl	6(%r14,%rdi), %r8d
	orl	%r8d, %edx
	shll	$8, %edx
.Lrekusoyen_start_check_0_1_0.116:
	movzbl	5(%r14,%rdi), %r8d
	orl	%r8d, %edx
	shll	$8, %edx
.Lrekusoyen_start_check_0_1_0.119:
	movzbl	4(%r14,%rdi), %r8d
	orq	%rdx, %r8
	shlq	$8, %r8
.Lrekusoyen_start_check_0_1_0.122:
	movzbl	3(%r14,%rdi), %r9d
	orq	%r8, %r9
	shlq	$8, %r9
.Lrekusoyen_start_check_0_1_0.125:
	movzbl	2(%r14,%rdi), %edx
	orq	%r9, %rdx
	shlq	$8, %rdx
.Lrekusoyen_start_check_0_1_0.127:
	movzbl	1(%r14,%rdi), %r8d
	orq	%rdx, %r8
	shlq	$8, %r8
	movq	%r8, %rdx
.Lrekusoyen_start_check_0_1_0.128:
	cmpq	%rbx, %rsi
	jae	.Lrekusoyen_start_check_0_1_0.130
	movzbl	(%r14,%rdi), %esi
	orq	%rsi, %rdx
.Lrekusoyen_start_check_0_1_0.130:
	addq	$48, %r15
	movq	$-1, %rdi
	cmovaeq	%r15, %rdi
	cmpq	%rdi, %rbx
	movq	%rdi, %r8
	cmovbq	%rbx, %r8
	xorl	%r9d, %r9d
	movq	%rbx, %rsi
	subq	%r8, %rsi
	cmovaeq	%rsi, %r9
	cmpq	$4, %r9
	jb	.Lrekusoyen_start_check_0_1_0.132
	movzbl	3(%r14,%r8), %esi
	shll	$8, %esi
	jmp	.Lrekusoyen_start_check_0_1_0.133
.Lrekusoyen_start_check_0_1_0.132:
	xorl	%esi, %esi
	cmpq	$3, %r9
	jne	.Lrekusoyen_start_check_0_1_0.134
.Lrekusoyen_start_check_0_1_0.133:
	movzbl	2(%r14,%r8), %r9d
	orl	%r9d, %esi
	shll	$8, %esi
.Lrekusoyen_start_check_0_1_0.135:
	movzbl	1(%r14,%r8), %r9d
	orl	%r9d, %esi
	shll	$8, %esi
.Lrekusoyen_start_check_0_1_0.136:
	cmpq	%rbx, %rdi
	jb	.Lrekusoyen_start_check_0_1_0.137
	testq	%rsi, %rsi
	jne	.Lrekusoyen_start_check_0_1_0.139
	jmp	.Lrekusoyen_start_check_0_1_0.179
.Lrekusoyen_start_check_0_1_0.137:
	movzbl	(%r14,%r8), %edi
	orq	%rdi, %rsi
	testq	%rsi, %rsi
	je	.Lrekusoyen_start_check_0_1_0.179
.Lrekusoyen_start_check_0_1_0.139:
	movq	%rbx, %r8
	subq	%rdx, %r8
	jb	.Lrekusoyen_start_check_0_1_0.181
	leaq	(,%rsi,8), %rdi
	leaq	(%rdi,%rdi,2), %rdi
	cmpq	%r8, %rdi
	ja	.Lrekusoyen_start_check_0_1_0.181
	xorl	%r8d, %r8d
	jmp	.Lrekusoyen_start_check_0_1_0.142
.Lrekusoyen_start_check_0_1_0.180:
	incq	%r8
	cmpq	%r8, %rcx
	je	.Lrekusoyen_start_check_0_1_0.181
.Lrekusoyen_start_check_0_1_0.142:
	movq	%rdx, %r9
	subq	16(%rsp,%r8,8), %r9
	jb	.Lrekusoyen_start_check_0_1_0.180
	movq	144(%rsp,%r8,8), %r10
	subq	%r9, %r10
	jb	.Lrekusoyen_start_check_0_1_0.180
	cmpq	%r10, %rdi
	ja	.Lrekusoyen_start_check_0_1_0.180
	shlq	$5, %rsi
	xorl	%ecx, %ecx
	xorl	%edi, %edi
	jmp	.Lrekusoyen_start_check_0_1_0.146
.Lrekusoyen_start_check_0_1_0.181:
	movb	$42, %al
.Lrekusoyen_start_check_0_1_0.182:
	movzbl	%al, %edi
	addq	$272, %rsp
	popq	%rbx
	popq	%r12
	popq	%r14
	popq	%r15
	popq	%rbp
	jmp	rekusoyen_0_1_0.answers.U32FromRefusal.from
.Lrekusoyen_start_check_0_1_0.178:
	incq	%rdi
	addq	$8, %rcx
	cmpq	%rcx, %rsi
	je	.Lrekusoyen_start_check_0_1_0.179
.Lrekusoyen_start_check_0_1_0.146:
	movl	%ecx, %r8d
	andl	$24, %r8d
	leaq	.Lrekusoyen_0_1_0.static.21(%rip), %r9
	movq	(%r8,%r9), %r9
	cmpq	$8, %r9
	movl	$8, %r8d
	cmovbq	%r9, %r8
	testq	%r9, %r9
	je	.Lrekusoyen_start_check_0_1_0.174
	xorl	%r9d, %r9d
	movq	%rbx, %r11
	movl	$0, %r10d
	subq	%rdx, %r11
	jae	.Lrekusoyen_start_check_0_1_0.148
	leaq	(%r14,%rdx), %r11
	leaq	-1(%r8), %r15
	cmpq	%r10, %r15
	jb	.Lrekusoyen_start_check_0_1_0.150
.Lrekusoyen_start_check_0_1_0.151:
	testq	%r15, %r15
	jne	.Lrekusoyen_start_check_0_1_0.152
	jmp	.Lrekusoyen_start_check_0_1_0.172
.Lrekusoyen_start_check_0_1_0.148:
	movq	%r11, %r10
	leaq	(%r14,%rdx), %r11
	leaq	-1(%r8), %r15
	cmpq	%r10, %r15
	jae	.Lrekusoyen_start_check_0_1_0.151
.Lrekusoyen_start_check_0_1_0.150:
	movzbl	(%r11,%r15), %r9d
	testq	%r15, %r15
	je	.Lrekusoyen_start_check_0_1_0.172
.Lrekusoyen_start_check_0_1_0.152:
	leaq	-2(%r8), %r15
	shll	$8, %r9d
	cmpq	%r10, %r15
	jae	.Lrekusoyen_start_check_0_1_0.154
	movzbl	(%r11,%r15), %r12d
	orq	%r12, %r9
.Lrekusoyen_start_check_0_1_0.154:
	testq	%r15, %r15
	je	.Lrekusoyen_start_check_0_1_0.172
	leaq	-3(%r8), %r15
	shll	$8, %r9d
	cmpq	%r10, %r15
	jae	.Lrekusoyen_start_check_0_1_0.157
	movzbl	(%r11,%r15), %r12d
	orq	%r12, %r9
.Lrekusoyen_start_check_0_1_0.157:
	testq	%r15, %r15
	je	.Lrekusoyen_start_check_0_1_0.172
	leaq	-4(%r8), %r15
	shll	$8, %r9d
	cmpq	%r10, %r15
	jae	.Lrekusoyen_start_check_0_1_0.160
	movzbl	(%r11,%r15), %r12d
	orq	%r12, %r9
.Lrekusoyen_start_check_0_1_0.160:
	testq	%r15, %r15
	je	.Lrekusoyen_start_check_0_1_0.172
	leaq	-5(%r8), %r15
	shlq	$8, %r9
	cmpq	%r10, %r15
	jae	.Lrekusoyen_start_check_0_1_0.163
	movzbl	(%r11,%r15), %r12d
	orq	%r12, %r9
.Lrekusoyen_start_check_0_1_0.163:
	testq	%r15, %r15
	je	.Lrekusoyen_start_check_0_1_0.172
	leaq	-6(%r8), %r15
	shlq	$8, %r9
	cmpq	%r10, %r15
	jae	.Lrekusoyen_start_check_0_1_0.166
	movzbl	(%r11,%r15), %r12d
	orq	%r12, %r9
.Lrekusoyen_start_check_0_1_0.166:
	testq	%r15, %r15
	je	.Lrekusoyen_start_check_0_1_0.172
	leaq	-7(%r8), %r15
	shlq	$8, %r9
	cmpq	%r10, %r15
	jae	.Lrekusoyen_start_check_0_1_0.169
	movzbl	(%r11,%r15), %r12d
	orq	%r12, %r9
.Lrekusoyen_start_check_0_1_0.169:
	testq	%r15, %r15
	je	.Lrekusoyen_start_check_0_1_0.172
	leaq	-8(%r8), %r15
	shlq	$8, %r9
	cmpq	%r10, %r15
	jae	.Lrekusoyen_start_check_0_1_0.172
	movzbl	(%r11,%r15), %r10d
	orq	%r10, %r9
.Lrekusoyen_start_check_0_1_0.172:
	movl	%edi, %r10d
	notl	%r10d
	testb	$3, %r10b
	jne	.Lrekusoyen_start_check_0_1_0.174
	testq	%r9, %r9
	jne	.Lrekusoyen_start_check_0_1_0.182
.Lrekusoyen_start_check_0_1_0.174:
	movq	$-1, %r9
	addq	%rdx, %r8
	jae	.Lrekusoyen_start_check_0_1_0.175
	movq	%rbx, %rdx
	cmpq	%r9, %rbx
	jb	.Lrekusoyen_start_check_0_1_0.178
	jmp	.Lrekusoyen_start_check_0_1_0.177
.Lrekusoyen_start_check_0_1_0.175:
	movq	%r8, %r9
	movq	%rbx, %rdx
	cmpq	%r9, %rbx
	jb	.Lrekusoyen_start_check_0_1_0.178
.Lrekusoyen_start_check_0_1_0.177:
	movq	%r9, %rdx
	jmp	.Lrekusoyen_start_check_0_1_0.178
.Lrekusoyen_start_check_0_1_0.179:
	xorl	%eax, %eax
	addq	$272, %rsp
	popq	%rbx
	popq	%r12
	popq	%r14
	popq	%r15
	popq	%rbp
	retq
.Lrekusoyen_start_check_0_1_0.55:
	cmpq	$5, %r8
	jne	.Lrekusoyen_start_check_0_1_0.58
	xorl	%edx, %edx
	jmp	.Lrekusoyen_start_check_0_1_0.57
.Lrekusoyen_start_check_0_1_0.114:
	cmpq	$6, %r8
	jb	.Lrekusoyen_start_check_0_1_0.117
	xorl	%edx, %edx
	jmp	.Lrekusoyen_start_check_0_1_0.116
.Lrekusoyen_start_check_0_1_0.134:
	cmpq	$2, %r9
	jae	.Lrekusoyen_start_check_0_1_0.135
	jmp	.Lrekusoyen_start_check_0_1_0.136
.Lrekusoyen_start_check_0_1_0.58:
	cmpq	$4, %r8
	jb	.Lrekusoyen_start_check_0_1_0.61
	xorl	%r8d, %r8d
	jmp	.Lrekusoyen_start_check_0_1_0.60
.Lrekusoyen_start_check_0_1_0.117:
	cmpq	$5, %r8
	jne	.Lrekusoyen_start_check_0_1_0.120
	xorl	%edx, %edx
	jmp	.Lrekusoyen_start_check_0_1_0.119
.Lrekusoyen_start_check_0_1_0.61:
	cmpq	$3, %r8
	jne	.Lrekusoyen_start_check_0_1_0.64
	xorl	%r9d, %r9d
	jmp	.Lrekusoyen_start_check_0_1_0.63
.Lrekusoyen_start_check_0_1_0.120:
	cmpq	$4, %r8
	jb	.Lrekusoyen_start_check_0_1_0.123
	xorl	%r8d, %r8d
	jmp	.Lrekusoyen_start_check_0_1_0.122
.Lrekusoyen_start_check_0_1_0.64:
	xorl	%edx, %edx
	cmpq	$2, %r8
	jae	.Lrekusoyen_start_check_0_1_0.65
	jmp	.Lrekusoyen_start_check_0_1_0.66
.Lrekusoyen_start_check_0_1_0.123:
	cmpq	$3, %r8
	jne	.Lrekusoyen_start_check_0_1_0.126
	xorl	%r9d, %r9d
	jmp	.Lrekusoyen_start_check_0_1_0.125
.Lrekusoyen_start_check_0_1_0.126:
	xorl	%edx, %edx
	cmpq	$2, %r8
	jae	.Lrekusoyen_start_check_0_1_0.127
	jmp	.Lrekusoyen_start_check_0_1_0.128
.Lrekusoyen_start_check_0_1_0.func_end:
	.size	rekusoyen_start_check_0_1_0, .Lrekusoyen_start_check_0_1_0.func_end-rekusoyen_start_check_0_1_0
	.section	.text.rekusoyen_start_modules_0_1_0,"ax",@progbits
	.globl	rekusoyen_start_modules_0_1_0
	.hidden	rekusoyen_start_modules_0_1_0
	.p2align	4
	.type	rekusoyen_start_modules_0_1_0,@function
rekusoyen_start_modules_0_1_0:
	xorl	%r9d, %r9d
	testq	%rdi, %rdi
	sete	%r11b
	xorl	%eax, %eax
	testq	%rcx, %rcx
	sete	%r10b
	testq	%r8, %r8
	je	.Lrekusoyen_start_modules_0_1_0.24
	movb	%r11b, %r9b
	shll	$12, %r9d
	addq	%r9, %rdi
	movb	%r10b, %al
	shll	$12, %eax
	addq	%rax, %rcx
	xorl	%eax, %eax
	jmp	.Lrekusoyen_start_modules_0_1_0.2
	.p2align	4
.Lrekusoyen_start_modules_0_1_0.23:
	addq	$8, %rdx
	movq	$-1, %r10
	cmovaeq	%rdx, %r10
	cmpq	%r10, %rsi
	cmovbq	%rsi, %r10
	movq	%r9, (%rcx,%rax,8)
	incq	%rax
	movq	%r10, %rdx
	cmpq	%rax, %r8
	je	.Lrekusoyen_start_modules_0_1_0.24
.Lrekusoyen_start_modules_0_1_0.2:
	xorl	%r10d, %r10d
	movq	%rsi, %r9
	subq	%rdx, %r9
	cmovaeq	%r9, %r10
	cmpq	$8, %r10
	jb	.Lrekusoyen_start_modules_0_1_0.4
	movzbl	7(%rdi,%rdx), %r9d
	shll	$8, %r9d
	jmp	.Lrekusoyen_start_modules_0_1_0.6
	.p2align	4
.Lrekusoyen_start_modules_0_1_0.4:
	cmpq	$7, %r10
	jne	.Lrekusoyen_start_modules_0_1_0.7
	xorl	%r9d, %r9d
.Lrekusoyen_start_modules_0_1_0.6:
	movzbl	6(%rdi,%rdx), %r10d
	orl	%r10d, %r9d
	shll	$8, %r9d
.Lrekusoyen_start_modules_0_1_0.9:
	movzbl	5(%rdi,%rdx), %r10d
	orl	%r10d, %r9d
	shll	$8, %r9d
.Lrekusoyen_start_modules_0_1_0.12:
	movzbl	4(%rdi,%rdx), %r10d
	orq	%r9, %r10
	shlq	$8, %r10
.Lrekusoyen_start_modules_0_1_0.15:
	movzbl	3(%rdi,%rdx), %r11d
	orq	%r10, %r11
	shlq	$8, %r11
.Lrekusoyen_start_modules_0_1_0.18:
	movzbl	2(%rdi,%rdx), %r9d
	orq	%r11, %r9
	shlq	$8, %r9
.Lrekusoyen_start_modules_0_1_0.20:
	movzbl	1(%rdi,%rdx), %r10d
	orq	%r9, %r10
	shlq	$8, %r10
	movq	%r10, %r9
.Lrekusoyen_start_modules_0_1_0.21:
	cmpq	%rdx, %rsi
	jbe	.Lrekusoyen_start_modules_0_1_0.23
	movzbl	(%rdi,%rdx), %r10d
	orq	%r10, %r9
	jmp	.Lrekusoyen_start_modules_0_1_0.23
	.p2align	4
.Lrekusoyen_start_modules_0_1_0.7:
	cmpq	$6, %r10
	jb	.Lrekusoyen_start_modules_0_1_0.10
	xorl	%r9d, %r9d
	jmp	.Lrekusoyen_start_modules_0_1_0.9
.Lrekusoyen_start_modules_0_1_0.10:
	cmpq	$5, %r10
	jne	.Lrekusoyen_start_modules_0_1_0.13
	xorl	%r9d, %r9d
	jmp	.Lrekusoyen_start_modules_0_1_0.12
.Lrekusoyen_start_modules_0_1_0.13:
	cmpq	$4, %r10
	jb	.Lrekusoyen_start_modules_0_1_0.16
	xorl	%r10d, %r10d
	jmp	.Lrekusoyen_start_modules_0_1_0.15
.Lrekusoyen_start_modules_0_1_0.16:
	cmpq	$3, %r10
	jne	.Lrekusoyen_start_modules_0_1_0.19
	xorl	%r11d, %r11d
	jmp	.Lrekusoyen_start_modules_0_1_0.18
.Lrekusoyen_start_modules_0_1_0.19:
	xorl	%r9d, %r9d
	cmpq	$2, %r10
	jae	.Lrekusoyen_start_modules_0_1_0.20
	jmp	.Lrekusoyen_start_modules_0_1_0.21
.Lrekusoyen_start_modules_0_1_0.24:
	retq
.Lrekusoyen_start_modules_0_1_0.func_end:
	.size	rekusoyen_start_modules_0_1_0, .Lrekusoyen_start_modules_0_1_0.func_end-rekusoyen_start_modules_0_1_0
	.section	.text.rekusoyen_start_ranges_0_1_0,"ax",@progbits
	.globl	rekusoyen_start_ranges_0_1_0
	.hidden	rekusoyen_start_ranges_0_1_0
	.p2align	4
	.type	rekusoyen_start_ranges_0_1_0,@function
rekusoyen_start_ranges_0_1_0:
	xorl	%r9d, %r9d
	testq	%rdi, %rdi
	sete	%r11b
	xorl	%eax, %eax
	testq	%rcx, %rcx
	sete	%r10b
	testq	%r8, %r8
	je	.Lrekusoyen_start_ranges_0_1_0.35
	pushq	%r15
	pushq	%r14
	pushq	%rbx
	movb	%r11b, %r9b
	shll	$12, %r9d
	addq	%r9, %rdi
	movb	%r10b, %al
	shll	$12, %eax
	addq	%rax, %rcx
	xorl	%eax, %eax
	jmp	.Lrekusoyen_start_ranges_0_1_0.2
	.p2align	4
.Lrekusoyen_start_ranges_0_1_0.33:
	addq	$8, %rax
	decq	%r8
	je	.Lrekusoyen_start_ranges_0_1_0.34
.Lrekusoyen_start_ranges_0_1_0.2:
	movl	%eax, %r9d
	andl	$24, %r9d
	leaq	.Lrekusoyen_0_1_0.static.21(%rip), %r10
	movq	(%r9,%r10), %r10
	cmpq	$8, %r10
	movl	$8, %r9d
	cmovbq	%r10, %r9
	testq	%r10, %r10
	je	.Lrekusoyen_start_ranges_0_1_0.3
	xorl	%r10d, %r10d
	movq	%rsi, %rbx
	movl	$0, %r11d
	subq	%rdx, %rbx
	jae	.Lrekusoyen_start_ranges_0_1_0.5
	leaq	(%rdi,%rdx), %rbx
	leaq	-1(%r9), %r14
	cmpq	%r11, %r14
	jb	.Lrekusoyen_start_ranges_0_1_0.7
.Lrekusoyen_start_ranges_0_1_0.8:
	testq	%r14, %r14
	jne	.Lrekusoyen_start_ranges_0_1_0.9
	jmp	.Lrekusoyen_start_ranges_0_1_0.29
	.p2align	4
.Lrekusoyen_start_ranges_0_1_0.3:
	xorl	%r10d, %r10d
	jmp	.Lrekusoyen_start_ranges_0_1_0.29
	.p2align	4
.Lrekusoyen_start_ranges_0_1_0.5:
	movq	%rbx, %r11
	leaq	(%rdi,%rdx), %rbx
	leaq	-1(%r9), %r14
	cmpq	%r11, %r14
	jae	.Lrekusoyen_start_ranges_0_1_0.8
.Lrekusoyen_start_ranges_0_1_0.7:
	movzbl	(%rbx,%r14), %r10d
	testq	%r14, %r14
	je	.Lrekusoyen_start_ranges_0_1_0.29
.Lrekusoyen_start_ranges_0_1_0.9:
	leaq	-2(%r9), %r14
	shll	$8, %r10d
	cmpq	%r11, %r14
	jae	.Lrekusoyen_start_ranges_0_1_0.11
	movzbl	(%rbx,%r14), %r15d
	orq	%r15, %r10
.Lrekusoyen_start_ranges_0_1_0.11:
	testq	%r14, %r14
	je	.Lrekusoyen_start_ranges_0_1_0.29
	leaq	-3(%r9), %r14
	shll	$8, %r10d
	cmpq	%r11, %r14
	jae	.Lrekusoyen_start_ranges_0_1_0.14
	movzbl	(%rbx,%r14), %r15d
	orq	%r15, %r10
.Lrekusoyen_start_ranges_0_1_0.14:
	testq	%r14, %r14
	je	.Lrekusoyen_start_ranges_0_1_0.29
	leaq	-4(%r9), %r14
	shll	$8, %r10d
	cmpq	%r11, %r14
	jae	.Lrekusoyen_start_ranges_0_1_0.17
	movzbl	(%rbx,%r14), %r15d
	orq	%r15, %r10
.Lrekusoyen_start_ranges_0_1_0.17:
	testq	%r14, %r14
	je	.Lrekusoyen_start_ranges_0_1_0.29
	leaq	-5(%r9), %r14
	shlq	$8, %r10
	cmpq	%r11, %r14
	jae	.Lrekusoyen_start_ranges_0_1_0.20
	movzbl	(%rbx,%r14), %r15d
	orq	%r15, %r10
.Lrekusoyen_start_ranges_0_1_0.20:
	testq	%r14, %r14
	je	.Lrekusoyen_start_ranges_0_1_0.29
	leaq	-6(%r9), %r14
	shlq	$8, %r10
	cmpq	%r11, %r14
	jae	.Lrekusoyen_start_ranges_0_1_0.23
	movzbl	(%rbx,%r14), %r15d
	orq	%r15, %r10
.Lrekusoyen_start_ranges_0_1_0.23:
	testq	%r14, %r14
	je	.Lrekusoyen_start_ranges_0_1_0.29
	leaq	-7(%r9), %r14
	shlq	$8, %r10
	cmpq	%r11, %r14
	jae	.Lrekusoyen_start_ranges_0_1_0.26
	movzbl	(%rbx,%r14), %r15d
	orq	%r15, %r10
.Lrekusoyen_start_ranges_0_1_0.26:
	testq	%r14, %r14
	je	.Lrekusoyen_start_ranges_0_1_0.29
	leaq	-8(%r9), %r14
	shlq	$8, %r10
	cmpq	%r11, %r14
	jae	.Lrekusoyen_start_ranges_0_1_0.29
	movzbl	(%rbx,%r14), %r11d
	orq	%r11, %r10
	.p2align	4
.Lrekusoyen_start_ranges_0_1_0.29:
	movq	%r10, (%rcx,%rax)
	movq	$-1, %r10
	addq	%rdx, %r9
	jae	.Lrekusoyen_start_ranges_0_1_0.30
	movq	%rsi, %rdx
	cmpq	%r10, %rsi
	jb	.Lrekusoyen_start_ranges_0_1_0.33
	jmp	.Lrekusoyen_start_ranges_0_1_0.32
	.p2align	4
.Lrekusoyen_start_ranges_0_1_0.30:
	movq	%r9, %r10
	movq	%rsi, %rdx
	cmpq	%r10, %rsi
	jb	.Lrekusoyen_start_ranges_0_1_0.33
.Lrekusoyen_start_ranges_0_1_0.32:
	movq	%r10, %rdx
	jmp	.Lrekusoyen_start_ranges_0_1_0.33
.Lrekusoyen_start_ranges_0_1_0.34:
	popq	%rbx
	popq	%r14
	popq	%r15
.Lrekusoyen_start_ranges_0_1_0.35:
	retq
.Lrekusoyen_start_ranges_0_1_0.func_end:
	.size	rekusoyen_start_ranges_0_1_0, .Lrekusoyen_start_ranges_0_1_0.func_end-rekusoyen_start_ranges_0_1_0
	.section	.text.rekusoyen_start_write_0_1_0,"ax",@progbits
	.globl	rekusoyen_start_write_0_1_0
	.hidden	rekusoyen_start_write_0_1_0
	.p2align	4
	.type	rekusoyen_start_write_0_1_0,@function
rekusoyen_start_write_0_1_0:
	pushq	%rbp
	pushq	%r15
	pushq	%r14
	pushq	%r13
	pushq	%r12
	pushq	%rbx
	subq	$344, %rsp
	movq	%rsi, %r14
	movq	%rdi, %r15
	movq	440(%rsp), %rax
	movq	%rax, 24(%rsp)
	movq	456(%rsp), %rbp
	movaps	416(%rsp), %xmm0
	movl	408(%rsp), %eax
	movq	400(%rsp), %rdi
	movq	448(%rsp), %r10
	movq	432(%rsp), %r11
	xorl	%esi, %esi
	testq	%r15, %r15
	sete	%sil
	shll	$12, %esi
	addq	%rsi, %r15
	xorl	%esi, %esi
	testq	%rdx, %rdx
	sete	%sil
	shll	$12, %esi
	addq	%rdx, %rsi
	xorl	%r12d, %r12d
	testq	%r11, %r11
	sete	%r12b
	shll	$12, %r12d
	addq	%r11, %r12
	xorl	%ebx, %ebx
	testq	%r10, %r10
	sete	%bl
	shll	$12, %ebx
	addq	%r10, %rbx
	movq	$0, 56(%rsp)
	movq	%r8, 32(%rsp)
	movq	%r9, 40(%rsp)
	movq	%rdi, 48(%rsp)
	movl	%eax, 56(%rsp)
	movups	%xmm0, 64(%rsp)
	leaq	80(%rsp), %r13
	movq	%r13, %rdi
	movq	%rcx, %rdx
	callq	rekusoyen_0_1_0.guest.maps.from_numbers
	movq	%rbp, 8(%rsp)
	movq	%rbx, (%rsp)
	leaq	32(%rsp), %rcx
	movq	%r15, %rdi
	movq	%r14, %rsi
	movq	%r13, %rdx
	movq	%r12, %r8
	movq	24(%rsp), %r9
	callq	rekusoyen_0_1_0.start_info.write
	cmpb	$1, %al
	jne	.Lrekusoyen_start_write_0_1_0.1
	movzbl	%dl, %edi
	addq	$344, %rsp
	popq	%rbx
	popq	%r12
	popq	%r13
	popq	%r14
	popq	%r15
	popq	%rbp
	jmp	rekusoyen_0_1_0.answers.U32FromRefusal.from
.Lrekusoyen_start_write_0_1_0.1:
	xorl	%eax, %eax
	addq	$344, %rsp
	popq	%rbx
	popq	%r12
	popq	%r13
	popq	%r14
	popq	%r15
	popq	%rbp
	retq
.Lrekusoyen_start_write_0_1_0.func_end:
	.size	rekusoyen_start_write_0_1_0, .Lrekusoyen_start_write_0_1_0.func_end-rekusoyen_start_write_0_1_0
	.type	.Lrekusoyen_0_1_0.static.3,@object
	.section	.rodata.cst4,"aM",@progbits,4
.Lrekusoyen_0_1_0.static.3:
	.ascii	" -- "
	.size	.Lrekusoyen_0_1_0.static.3, 4
	.type	.Lrekusoyen_0_1_0.static.4,@object
	.section	.rodata.str1.1,"aMS",@progbits,1
.Lrekusoyen_0_1_0.static.4:
	.zero	1
	.size	.Lrekusoyen_0_1_0.static.4, 1
	.type	.Lrekusoyen_0_1_0.static.7,@object
	.section	.rodata..Lrekusoyen_0_1_0.static.7,"a",@progbits
.Lrekusoyen_0_1_0.static.7:
	.ascii	"load "
	.size	.Lrekusoyen_0_1_0.static.7, 5
	.type	.Lrekusoyen_0_1_0.static.8,@object
	.section	.rodata.cst4,"aM",@progbits,4
.Lrekusoyen_0_1_0.static.8:
	.ascii	"end "
	.size	.Lrekusoyen_0_1_0.static.8, 4
	.type	.Lrekusoyen_0_1_0.static.9,@object
	.section	.rodata..Lrekusoyen_0_1_0.static.9,"a",@progbits
.Lrekusoyen_0_1_0.static.9:
	.byte	10
	.size	.Lrekusoyen_0_1_0.static.9, 1
	.type	.Lrekusoyen_0_1_0.static.10,@object
	.section	.rodata..Lrekusoyen_0_1_0.static.10,"a",@progbits
.Lrekusoyen_0_1_0.static.10:
	.ascii	"pvh ignored\n"
	.size	.Lrekusoyen_0_1_0.static.10, 12
	.type	.Lrekusoyen_0_1_0.static.11,@object
	.section	.rodata..Lrekusoyen_0_1_0.static.11,"a",@progbits
.Lrekusoyen_0_1_0.static.11:
	.ascii	"pvh none\n"
	.size	.Lrekusoyen_0_1_0.static.11, 9
	.type	.Lrekusoyen_0_1_0.static.12,@object
	.section	.rodata.cst4,"aM",@progbits,4
.Lrekusoyen_0_1_0.static.12:
	.ascii	"pvh "
	.size	.Lrekusoyen_0_1_0.static.12, 4
	.type	.Lrekusoyen_0_1_0.static.13,@object
	.section	.rodata..Lrekusoyen_0_1_0.static.13,"a",@progbits
.Lrekusoyen_0_1_0.static.13:
	.ascii	"virtio_mmio.device="
	.size	.Lrekusoyen_0_1_0.static.13, 19
	.type	.Lrekusoyen_0_1_0.static.14,@object
	.section	.rodata..Lrekusoyen_0_1_0.static.14,"a",@progbits
.Lrekusoyen_0_1_0.static.14:
	.ascii	"@0x"
	.size	.Lrekusoyen_0_1_0.static.14, 3
	.type	.Lrekusoyen_0_1_0.static.15,@object
	.section	.rodata..Lrekusoyen_0_1_0.static.15,"a",@progbits
.Lrekusoyen_0_1_0.static.15:
	.byte	58
	.size	.Lrekusoyen_0_1_0.static.15, 1
	.type	.Lrekusoyen_0_1_0.static.16,@object
	.section	.rodata..Lrekusoyen_0_1_0.static.16,"a",@progbits
.Lrekusoyen_0_1_0.static.16:
	.byte	32
	.size	.Lrekusoyen_0_1_0.static.16, 1
	.type	.Lrekusoyen_0_1_0.static.18,@object
	.section	.rodata..Lrekusoyen_0_1_0.static.18,"a",@progbits
	.p2align	3, 0x0
.Lrekusoyen_0_1_0.static.18:
	.asciz	"\b\000\000\000\000\000\000\000\b\000\000\000\000\000\000\000\004\000\000\000\000\000\000"
	.size	.Lrekusoyen_0_1_0.static.18, 24
	.type	.Lrekusoyen_0_1_0.static.19,@object
	.section	.rodata..Lrekusoyen_0_1_0.static.19,"a",@progbits
	.p2align	3, 0x0
.Lrekusoyen_0_1_0.static.19:
	.size	.Lrekusoyen_0_1_0.static.19, 0
	.type	.Lrekusoyen_0_1_0.static.21,@object
	.section	.rodata.cst32,"aM",@progbits,32
	.p2align	3, 0x0
.Lrekusoyen_0_1_0.static.21:
	.asciz	"\b\000\000\000\000\000\000\000\b\000\000\000\000\000\000\000\004\000\000\000\000\000\000\000\004\000\000\000\000\000\000"
	.size	.Lrekusoyen_0_1_0.static.21, 32
	.type	.Lrekusoyen_0_1_0.static.22,@object
	.section	.rodata..Lrekusoyen_0_1_0.static.22,"a",@progbits
	.p2align	3, 0x0
.Lrekusoyen_0_1_0.static.22:
	.asciz	"\004\000\000\000\000\000\000\000\004\000\000\000\000\000\000\000\004\000\000\000\000\000\000\000\004\000\000\000\000\000\000\000\b\000\000\000\000\000\000\000\b\000\000\000\000\000\000\000\b\000\000\000\000\000\000\000\b\000\000\000\000\000\000\000\004\000\000\000\000\000\000\000\004\000\000\000\000\000\000"
	.size	.Lrekusoyen_0_1_0.static.22, 80
	.type	.Lrekusoyen_0_1_0.static.25,@object
	.section	.rodata..Lrekusoyen_0_1_0.static.25,"a",@progbits
.Lrekusoyen_0_1_0.static.25:
	.ascii	"\000\000\000\000\000\000\000\000\000\000\000\000\000U\252\000\000HdrS\000\000\000\000\000\000\000\000\000\000\000\000\000\000\000\000\000\000\000\000\000\000\000\000\000\000\000\000\000\000\000\000\000\000\000\000\000\000\000\000\000\000\000\000\000\001"
	.size	.Lrekusoyen_0_1_0.static.25, 67
	.type	.Lrekusoyen_0_1_0.switch.table.answers.U32FromRefusal.from,@object
	.section	.rodata..Lrekusoyen_0_1_0.switch.table.answers.U32FromRefusal.from,"a",@progbits
	.p2align	2, 0x0
.Lrekusoyen_0_1_0.switch.table.answers.U32FromRefusal.from:
	.long	1
	.long	2
	.long	3
	.long	4
	.long	5
	.long	6
	.long	7
	.long	8
	.long	9
	.long	10
	.long	11
	.long	12
	.long	13
	.long	14
	.long	21
	.long	22
	.long	23
	.long	24
	.long	31
	.long	32
	.long	41
	.long	42
	.long	43
	.long	44
	.long	45
	.long	46
	.long	47
	.long	48
	.long	49
	.long	50
	.long	51
	.long	60
	.long	61
	.long	62
	.long	63
	.long	64
	.long	70
	.long	71
	.long	72
	.long	73
	.long	74
	.long	75
	.long	76
	.long	77
	.long	78
	.long	79
	.long	80
	.long	81
	.long	82
	.long	83
	.long	84
	.long	85
	.long	86
	.long	87
	.long	88
	.long	91
	.long	92
	.long	93
	.long	94
	.long	95
	.long	96
	.long	97
	.long	98
	.long	99
	.long	100
	.long	101
	.long	102
	.long	103
	.long	104
	.long	105
	.long	106
	.long	107
	.long	108
	.size	.Lrekusoyen_0_1_0.switch.table.answers.U32FromRefusal.from, 292
	.type	.Lrekusoyen_0_1_0.switch.table.start_info.writing.check,@object
	.section	.rodata..Lrekusoyen_0_1_0.switch.table.start_info.writing.check,"a",@progbits
	.p2align	3, 0x0
.Lrekusoyen_0_1_0.switch.table.start_info.writing.check:
	.quad	1
	.quad	256
	.quad	65536
	.quad	16777216
	.quad	4294967296
	.quad	1099511627776
	.quad	281474976710656
	.quad	72057594037927936
	.size	.Lrekusoyen_0_1_0.switch.table.start_info.writing.check, 64
	.section	.note.GNU-stack,"",%progbits
	.text
