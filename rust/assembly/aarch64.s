/* The library of rekusoyen 0.1.0 for Linux on aarch64, as assembly text. It is what the compiler of the Rattle kit makes of
   the proved crates in crates/ of the repository. tools/make-dist writes it; do not edit it: ./test makes it again and
   fails if a byte differs.

   sources: 14f363c9e4bd1f99a24a3490e0d7fd0ae4d7858804492dbf7c7b1e87cf442c54
   kit: rattle-kit-13f logic dac8208d650f15bf

   The sources are the crates capi capi_lines capi_pages capi_boot capi_jobs, and those below them. The code calls memcpy, memmove and
   memset, and has no data that is written. NOTICE has the copyright lines and the licences.
   SPDX-License-Identifier: Apache-2.0 AND BSD-3-Clause */
	.section	.text.rekusoyen_0_1_0.guest.maps.from_numbers,"ax",@progbits
	.p2align	2
	.type	rekusoyen_0_1_0.guest.maps.from_numbers,@function
rekusoyen_0_1_0.guest.maps.from_numbers:
	sub	sp, sp, #256
	str	x30, [sp, #160]
	stp	x28, x27, [sp, #176]
	stp	x26, x25, [sp, #192]
	stp	x24, x23, [sp, #208]
	stp	x22, x21, [sp, #224]
	stp	x20, x19, [sp, #240]
	cbz	x2, .Lrekusoyen_0_1_0.guest.maps.from_numbers.17
	ldr	x15, [x1]
	cmp	x2, #3
	b.lo	.Lrekusoyen_0_1_0.guest.maps.from_numbers.18
	ldr	x8, [x1, #16]
	cmp	x2, #5
	str	x8, [sp, #120]
	b.lo	.Lrekusoyen_0_1_0.guest.maps.from_numbers.20
	ldr	x14, [x1, #32]
	cmp	x2, #7
	b.lo	.Lrekusoyen_0_1_0.guest.maps.from_numbers.24
	ldr	x16, [x1, #48]
	cmp	x2, #9
	b.lo	.Lrekusoyen_0_1_0.guest.maps.from_numbers.27
	ldr	x17, [x1, #64]
	cmp	x2, #11
	b.lo	.Lrekusoyen_0_1_0.guest.maps.from_numbers.37
	ldr	x4, [x1, #80]
	cmp	x2, #13
	b.lo	.Lrekusoyen_0_1_0.guest.maps.from_numbers.40
	ldr	x8, [x1, #96]
	cmp	x2, #15
	stp	x16, x14, [sp, #104]
	str	x17, [sp, #96]
	stp	x4, x8, [sp, #80]
	b.lo	.Lrekusoyen_0_1_0.guest.maps.from_numbers.45
	ldr	x9, [x1, #112]
	cmp	x2, #17
	str	x9, [sp, #56]
	b.lo	.Lrekusoyen_0_1_0.guest.maps.from_numbers.47
	ldr	x8, [x1, #128]
	cmp	x2, #19
	str	x8, [sp, #72]
	b.lo	.Lrekusoyen_0_1_0.guest.maps.from_numbers.66
	ldr	x9, [x1, #144]
	cmp	x2, #21
	str	x9, [sp, #48]
	b.lo	.Lrekusoyen_0_1_0.guest.maps.from_numbers.68
	ldr	x8, [x1, #160]
	cmp	x2, #23
	str	x8, [sp, #64]
	b.lo	.Lrekusoyen_0_1_0.guest.maps.from_numbers.72
	ldr	x9, [x1, #176]
	cmp	x2, #25
	str	x9, [sp, #40]
	b.lo	.Lrekusoyen_0_1_0.guest.maps.from_numbers.74
	ldr	x19, [x1, #192]
	cmp	x2, #27
	b.lo	.Lrekusoyen_0_1_0.guest.maps.from_numbers.76
	ldr	x24, [x1, #208]
	cmp	x2, #29
	b.lo	.Lrekusoyen_0_1_0.guest.maps.from_numbers.78
	ldr	x21, [x1, #224]
	cmp	x2, #31
	b.lo	.Lrekusoyen_0_1_0.guest.maps.from_numbers.80
	ldr	x25, [x1, #240]
	b	.Lrekusoyen_0_1_0.guest.maps.from_numbers.52
.Lrekusoyen_0_1_0.guest.maps.from_numbers.17:
	str	xzr, [sp, #168]
	mov	x22, xzr
	mov	x20, xzr
	stp	xzr, xzr, [sp, #144]
	mov	x5, xzr
	mov	x21, xzr
	stp	xzr, xzr, [sp, #128]
	mov	x19, xzr
	mov	x7, xzr
	mov	x6, xzr
	mov	x3, xzr
	mov	x17, xzr
	mov	x14, xzr
	mov	x15, xzr
	b	.Lrekusoyen_0_1_0.guest.maps.from_numbers.23
.Lrekusoyen_0_1_0.guest.maps.from_numbers.18:
	cmp	x2, #1
	b.ne	.Lrekusoyen_0_1_0.guest.maps.from_numbers.22
	mov	x22, xzr
	mov	x20, xzr
	mov	x5, xzr
	mov	x21, xzr
	mov	x19, xzr
	mov	x7, xzr
	mov	x6, xzr
	mov	x3, xzr
	mov	x17, xzr
	mov	x14, xzr
	str	xzr, [sp, #168]
	stp	xzr, xzr, [sp, #144]
	stp	xzr, xzr, [sp, #128]
	b	.Lrekusoyen_0_1_0.guest.maps.from_numbers.23
.Lrekusoyen_0_1_0.guest.maps.from_numbers.20:
	ldr	x5, [x1, #8]
	cmp	x2, #3
	b.ne	.Lrekusoyen_0_1_0.guest.maps.from_numbers.26
	str	xzr, [sp, #168]
	mov	x22, xzr
	mov	x20, xzr
	stp	xzr, xzr, [sp, #144]
	mov	x21, xzr
	mov	x19, xzr
	stp	xzr, xzr, [sp, #128]
	mov	x7, xzr
	mov	x6, xzr
	mov	x3, xzr
	mov	x17, xzr
	mov	x14, xzr
	mov	x16, xzr
	mov	x4, xzr
	mov	x23, xzr
	mov	x30, xzr
	mov	x8, xzr
	mov	x24, xzr
	mov	x25, xzr
	mov	x28, xzr
	b	.Lrekusoyen_0_1_0.guest.maps.from_numbers.30
.Lrekusoyen_0_1_0.guest.maps.from_numbers.22:
	ldr	x5, [x1, #8]
	str	xzr, [sp, #168]
	mov	x22, xzr
	stp	xzr, xzr, [sp, #144]
	mov	x20, xzr
	mov	x21, xzr
	stp	xzr, xzr, [sp, #128]
	mov	x19, xzr
	mov	x7, xzr
	mov	x6, xzr
	mov	x3, xzr
	mov	x17, xzr
	mov	x14, xzr
.Lrekusoyen_0_1_0.guest.maps.from_numbers.23:
	mov	x13, xzr
	mov	x16, xzr
	mov	x4, xzr
	mov	x23, xzr
	mov	x30, xzr
	mov	x8, xzr
	mov	x24, xzr
	mov	x25, xzr
	mov	x28, xzr
	mov	x9, xzr
	mov	x26, xzr
	mov	x10, xzr
	mov	x27, xzr
	mov	x11, xzr
	mov	x12, xzr
	b	.Lrekusoyen_0_1_0.guest.maps.from_numbers.35
.Lrekusoyen_0_1_0.guest.maps.from_numbers.24:
	ldr	x5, [x1, #8]
	ldr	x28, [x1, #24]
	cmp	x2, #5
	b.ne	.Lrekusoyen_0_1_0.guest.maps.from_numbers.32
	str	xzr, [sp, #168]
	mov	x22, xzr
	mov	x20, xzr
	stp	xzr, xzr, [sp, #144]
	mov	x21, xzr
	mov	x19, xzr
	stp	xzr, xzr, [sp, #128]
	mov	x7, xzr
	mov	x6, xzr
	mov	x3, xzr
	mov	x17, xzr
	mov	x16, xzr
	b	.Lrekusoyen_0_1_0.guest.maps.from_numbers.29
.Lrekusoyen_0_1_0.guest.maps.from_numbers.26:
	ldr	x28, [x1, #24]
	str	xzr, [sp, #168]
	mov	x22, xzr
	stp	xzr, xzr, [sp, #144]
	mov	x20, xzr
	mov	x21, xzr
	stp	xzr, xzr, [sp, #128]
	mov	x19, xzr
	mov	x7, xzr
	mov	x6, xzr
	mov	x3, xzr
	mov	x17, xzr
	mov	x14, xzr
	b	.Lrekusoyen_0_1_0.guest.maps.from_numbers.33
.Lrekusoyen_0_1_0.guest.maps.from_numbers.27:
	ldr	x5, [x1, #8]
	ldr	x28, [x1, #24]
	cmp	x2, #7
	ldr	x20, [x1, #40]
	b.ne	.Lrekusoyen_0_1_0.guest.maps.from_numbers.39
	mov	x22, xzr
	mov	x21, xzr
	mov	x19, xzr
	mov	x7, xzr
	mov	x6, xzr
	mov	x3, xzr
	mov	x17, xzr
	str	xzr, [sp, #168]
	stp	xzr, xzr, [sp, #144]
	stp	xzr, xzr, [sp, #128]
.Lrekusoyen_0_1_0.guest.maps.from_numbers.29:
	mov	x4, xzr
	mov	x23, xzr
	mov	x30, xzr
	mov	x8, xzr
	mov	x24, xzr
	mov	x25, xzr
.Lrekusoyen_0_1_0.guest.maps.from_numbers.30:
	mov	x9, xzr
.Lrekusoyen_0_1_0.guest.maps.from_numbers.31:
	mov	x26, xzr
	b	.Lrekusoyen_0_1_0.guest.maps.from_numbers.34
.Lrekusoyen_0_1_0.guest.maps.from_numbers.32:
	ldr	x20, [x1, #40]
	str	xzr, [sp, #168]
	mov	x22, xzr
	stp	xzr, xzr, [sp, #144]
	mov	x21, xzr
	mov	x19, xzr
	stp	xzr, xzr, [sp, #128]
	mov	x7, xzr
	mov	x6, xzr
	mov	x3, xzr
	mov	x17, xzr
.Lrekusoyen_0_1_0.guest.maps.from_numbers.33:
	mov	x16, xzr
	mov	x4, xzr
	mov	x23, xzr
	mov	x30, xzr
	mov	x8, xzr
	mov	x24, xzr
	mov	x25, xzr
	mov	x9, xzr
	mov	x26, xzr
.Lrekusoyen_0_1_0.guest.maps.from_numbers.34:
	mov	x10, xzr
	mov	x27, xzr
	mov	x11, xzr
	mov	x12, xzr
	ldr	x13, [sp, #120]
.Lrekusoyen_0_1_0.guest.maps.from_numbers.35:
	mov	x1, xzr
.Lrekusoyen_0_1_0.guest.maps.from_numbers.36:
	stp	x8, x19, [x0, #96]
	ldr	x8, [sp, #128]
	stp	x13, x14, [x0, #16]
	lsr	x13, x2, #1
	mov	w14, #17
	stp	x26, x8, [x0, #176]
	ldr	x8, [sp, #136]
	stp	x30, x7, [x0, #80]
	cmp	x13, #17
	stp	x10, x8, [x0, #192]
	ldr	x8, [sp, #144]
	csel	x13, x13, x14, lo
	tst	x2, #0x1
	stp	x23, x6, [x0, #64]
	stp	x27, x8, [x0, #208]
	ldp	x8, x30, [sp, #152]
	stp	x24, x21, [x0, #112]
	ldp	x24, x23, [sp, #208]
	stp	x25, x5, [x0, #128]
	ldp	x26, x25, [sp, #192]
	stp	x28, x20, [x0, #144]
	ldp	x20, x19, [sp, #240]
	stp	x9, x22, [x0, #160]
	csel	x13, x13, x14, eq
	stp	x11, x8, [x0, #224]
	ldr	x8, [sp, #168]
	ldp	x22, x21, [sp, #224]
	stp	x16, x17, [x0, #32]
	ldp	x28, x27, [sp, #176]
	stp	x13, x15, [x0]
	stp	x4, x3, [x0, #48]
	stp	x12, x8, [x0, #240]
	str	x1, [x0, #256]
	add	sp, sp, #256
	ret
.Lrekusoyen_0_1_0.guest.maps.from_numbers.37:
	ldr	x5, [x1, #8]
	ldr	x28, [x1, #24]
	cmp	x2, #9
	ldr	x20, [x1, #40]
	ldr	x9, [x1, #56]
	b.ne	.Lrekusoyen_0_1_0.guest.maps.from_numbers.43
	str	xzr, [sp, #168]
	mov	x22, xzr
	mov	x21, xzr
	stp	xzr, xzr, [sp, #144]
	mov	x19, xzr
	mov	x7, xzr
	stp	xzr, xzr, [sp, #128]
	mov	x6, xzr
	mov	x3, xzr
	mov	x4, xzr
	b	.Lrekusoyen_0_1_0.guest.maps.from_numbers.42
.Lrekusoyen_0_1_0.guest.maps.from_numbers.39:
	ldr	x9, [x1, #56]
	str	xzr, [sp, #168]
	mov	x22, xzr
	stp	xzr, xzr, [sp, #144]
	mov	x21, xzr
	mov	x19, xzr
	stp	xzr, xzr, [sp, #128]
	mov	x7, xzr
	mov	x6, xzr
	mov	x3, xzr
	mov	x17, xzr
	b	.Lrekusoyen_0_1_0.guest.maps.from_numbers.44
.Lrekusoyen_0_1_0.guest.maps.from_numbers.40:
	ldr	x5, [x1, #8]
	ldr	x28, [x1, #24]
	cmp	x2, #11
	ldr	x20, [x1, #40]
	ldr	x9, [x1, #56]
	ldr	x22, [x1, #72]
	b.ne	.Lrekusoyen_0_1_0.guest.maps.from_numbers.46
	mov	x21, xzr
	mov	x19, xzr
	mov	x7, xzr
	mov	x6, xzr
	mov	x3, xzr
	str	xzr, [sp, #168]
	stp	xzr, xzr, [sp, #144]
	stp	xzr, xzr, [sp, #128]
.Lrekusoyen_0_1_0.guest.maps.from_numbers.42:
	mov	x23, xzr
	mov	x30, xzr
	mov	x8, xzr
	mov	x24, xzr
	mov	x25, xzr
	b	.Lrekusoyen_0_1_0.guest.maps.from_numbers.31
.Lrekusoyen_0_1_0.guest.maps.from_numbers.43:
	ldr	x22, [x1, #72]
	str	xzr, [sp, #168]
	mov	x21, xzr
	stp	xzr, xzr, [sp, #144]
	mov	x19, xzr
	mov	x7, xzr
	stp	xzr, xzr, [sp, #128]
	mov	x6, xzr
	mov	x3, xzr
.Lrekusoyen_0_1_0.guest.maps.from_numbers.44:
	mov	x4, xzr
	mov	x23, xzr
	mov	x30, xzr
	mov	x8, xzr
	mov	x24, xzr
	mov	x25, xzr
	mov	x26, xzr
	b	.Lrekusoyen_0_1_0.guest.maps.from_numbers.34
.Lrekusoyen_0_1_0.guest.maps.from_numbers.45:
	mov	x25, xzr
	mov	x24, xzr
	stp	xzr, xzr, [sp, #40]
	str	xzr, [sp, #56]
	b	.Lrekusoyen_0_1_0.guest.maps.from_numbers.48
.Lrekusoyen_0_1_0.guest.maps.from_numbers.46:
	ldr	x26, [x1, #88]
	str	xzr, [sp, #168]
	mov	x21, xzr
	stp	xzr, xzr, [sp, #144]
	mov	x19, xzr
	mov	x7, xzr
	stp	xzr, xzr, [sp, #128]
	mov	x6, xzr
	mov	x3, xzr
	mov	x23, xzr
	mov	x30, xzr
	mov	x8, xzr
	mov	x24, xzr
	mov	x25, xzr
	b	.Lrekusoyen_0_1_0.guest.maps.from_numbers.34
.Lrekusoyen_0_1_0.guest.maps.from_numbers.47:
	mov	x25, xzr
	mov	x24, xzr
	stp	xzr, xzr, [sp, #40]
.Lrekusoyen_0_1_0.guest.maps.from_numbers.48:
	str	xzr, [sp, #72]
.Lrekusoyen_0_1_0.guest.maps.from_numbers.49:
	str	xzr, [sp, #64]
.Lrekusoyen_0_1_0.guest.maps.from_numbers.50:
	mov	x19, xzr
.Lrekusoyen_0_1_0.guest.maps.from_numbers.51:
	mov	x21, xzr
.Lrekusoyen_0_1_0.guest.maps.from_numbers.52:
	ldr	x5, [x1, #8]
	ldr	x28, [x1, #24]
	cmp	x2, #13
	ldr	x20, [x1, #40]
	ldr	x9, [x1, #56]
	ldr	x22, [x1, #72]
	ldr	x26, [x1, #88]
	b.ne	.Lrekusoyen_0_1_0.guest.maps.from_numbers.54
	ldp	x14, x13, [sp, #112]
	mov	x10, xzr
	ldp	x17, x16, [sp, #96]
	mov	x27, xzr
	ldp	x4, x3, [sp, #80]
	mov	x11, xzr
	ldp	x7, x6, [sp, #64]
	mov	x12, xzr
	ldr	x23, [sp, #56]
	mov	x1, xzr
	str	xzr, [sp, #168]
	stp	xzr, xzr, [sp, #144]
	stp	xzr, xzr, [sp, #128]
	b	.Lrekusoyen_0_1_0.guest.maps.from_numbers.65
.Lrekusoyen_0_1_0.guest.maps.from_numbers.54:
	ldr	x27, [x1, #104]
	cmp	x2, #16
	stp	x28, x20, [sp, #16]
	str	x5, [sp, #32]
	str	x27, [sp, #128]
	b.lo	.Lrekusoyen_0_1_0.guest.maps.from_numbers.64
	ldr	x8, [x1, #120]
	cmp	x2, #18
	b.lo	.Lrekusoyen_0_1_0.guest.maps.from_numbers.67
	ldr	x30, [x1, #136]
	cmp	x2, #20
	str	x30, [sp, #136]
	b.lo	.Lrekusoyen_0_1_0.guest.maps.from_numbers.69
	ldr	x27, [x1, #152]
	cmp	x2, #22
	b.lo	.Lrekusoyen_0_1_0.guest.maps.from_numbers.73
	ldr	x28, [x1, #168]
	cmp	x2, #24
	str	x28, [sp, #144]
	b.lo	.Lrekusoyen_0_1_0.guest.maps.from_numbers.75
	ldr	x11, [x1, #184]
	cmp	x2, #26
	str	x8, [sp, #8]
	b.lo	.Lrekusoyen_0_1_0.guest.maps.from_numbers.77
	ldr	x8, [x1, #200]
	cmp	x2, #28
	str	x8, [sp, #152]
	b.lo	.Lrekusoyen_0_1_0.guest.maps.from_numbers.79
	ldr	x12, [x1, #216]
	cmp	x2, #30
	b.lo	.Lrekusoyen_0_1_0.guest.maps.from_numbers.81
	ldr	x23, [x1, #232]
	cmp	x2, #32
	str	x23, [sp, #168]
	b.lo	.Lrekusoyen_0_1_0.guest.maps.from_numbers.82
	ldr	x1, [x1, #248]
	b	.Lrekusoyen_0_1_0.guest.maps.from_numbers.83
.Lrekusoyen_0_1_0.guest.maps.from_numbers.64:
	ldp	x14, x13, [sp, #112]
	mov	x10, xzr
	ldp	x17, x16, [sp, #96]
	mov	x27, xzr
	ldp	x4, x3, [sp, #80]
	mov	x11, xzr
	ldp	x20, x5, [sp, #24]
	mov	x12, xzr
	ldp	x7, x6, [sp, #64]
	mov	x1, xzr
	ldr	x23, [sp, #56]
	ldr	x28, [sp, #16]
	str	xzr, [sp, #168]
	stp	xzr, xzr, [sp, #144]
	str	xzr, [sp, #136]
.Lrekusoyen_0_1_0.guest.maps.from_numbers.65:
	ldp	x8, x30, [sp, #40]
	b	.Lrekusoyen_0_1_0.guest.maps.from_numbers.36
.Lrekusoyen_0_1_0.guest.maps.from_numbers.66:
	mov	x25, xzr
	mov	x24, xzr
	stp	xzr, xzr, [sp, #40]
	b	.Lrekusoyen_0_1_0.guest.maps.from_numbers.49
.Lrekusoyen_0_1_0.guest.maps.from_numbers.67:
	str	xzr, [sp, #168]
	stp	xzr, xzr, [sp, #144]
	str	xzr, [sp, #136]
	b	.Lrekusoyen_0_1_0.guest.maps.from_numbers.70
.Lrekusoyen_0_1_0.guest.maps.from_numbers.68:
	mov	x25, xzr
	mov	x24, xzr
	str	xzr, [sp, #40]
	b	.Lrekusoyen_0_1_0.guest.maps.from_numbers.49
.Lrekusoyen_0_1_0.guest.maps.from_numbers.69:
	str	xzr, [sp, #168]
	stp	xzr, xzr, [sp, #144]
.Lrekusoyen_0_1_0.guest.maps.from_numbers.70:
	mov	x27, xzr
.Lrekusoyen_0_1_0.guest.maps.from_numbers.71:
	ldp	x14, x13, [sp, #112]
	mov	x10, x8
	ldp	x17, x16, [sp, #96]
	mov	x11, xzr
	ldp	x4, x3, [sp, #80]
	mov	x12, xzr
	ldp	x20, x5, [sp, #24]
	mov	x1, xzr
	ldp	x7, x6, [sp, #64]
	ldr	x28, [sp, #16]
	ldp	x30, x23, [sp, #48]
	ldr	x8, [sp, #40]
	b	.Lrekusoyen_0_1_0.guest.maps.from_numbers.36
.Lrekusoyen_0_1_0.guest.maps.from_numbers.72:
	mov	x25, xzr
	mov	x24, xzr
	str	xzr, [sp, #40]
	b	.Lrekusoyen_0_1_0.guest.maps.from_numbers.50
.Lrekusoyen_0_1_0.guest.maps.from_numbers.73:
	str	xzr, [sp, #168]
	stp	xzr, xzr, [sp, #144]
	b	.Lrekusoyen_0_1_0.guest.maps.from_numbers.71
.Lrekusoyen_0_1_0.guest.maps.from_numbers.74:
	mov	x25, xzr
	mov	x24, xzr
	b	.Lrekusoyen_0_1_0.guest.maps.from_numbers.50
.Lrekusoyen_0_1_0.guest.maps.from_numbers.75:
	str	xzr, [sp, #168]
	str	xzr, [sp, #152]
	b	.Lrekusoyen_0_1_0.guest.maps.from_numbers.71
.Lrekusoyen_0_1_0.guest.maps.from_numbers.76:
	mov	x25, xzr
	mov	x24, xzr
	b	.Lrekusoyen_0_1_0.guest.maps.from_numbers.51
.Lrekusoyen_0_1_0.guest.maps.from_numbers.77:
	str	xzr, [sp, #168]
	mov	x12, xzr
	mov	x1, xzr
	str	xzr, [sp, #152]
	b	.Lrekusoyen_0_1_0.guest.maps.from_numbers.83
.Lrekusoyen_0_1_0.guest.maps.from_numbers.78:
	mov	x25, xzr
	b	.Lrekusoyen_0_1_0.guest.maps.from_numbers.51
.Lrekusoyen_0_1_0.guest.maps.from_numbers.79:
	str	xzr, [sp, #168]
	mov	x12, xzr
	b	.Lrekusoyen_0_1_0.guest.maps.from_numbers.82
.Lrekusoyen_0_1_0.guest.maps.from_numbers.80:
	mov	x25, xzr
	b	.Lrekusoyen_0_1_0.guest.maps.from_numbers.52
.Lrekusoyen_0_1_0.guest.maps.from_numbers.81:
	str	xzr, [sp, #168]
.Lrekusoyen_0_1_0.guest.maps.from_numbers.82:
	mov	x1, xzr
.Lrekusoyen_0_1_0.guest.maps.from_numbers.83:
	ldp	x14, x13, [sp, #112]
	ldr	x8, [sp, #40]
	ldp	x17, x16, [sp, #96]
	ldp	x4, x3, [sp, #80]
	ldp	x20, x5, [sp, #24]
	ldp	x7, x6, [sp, #64]
	ldp	x30, x23, [sp, #48]
	ldp	x10, x28, [sp, #8]
	b	.Lrekusoyen_0_1_0.guest.maps.from_numbers.36
.Lrekusoyen_0_1_0.guest.maps.from_numbers.func_end:
	.size	rekusoyen_0_1_0.guest.maps.from_numbers, .Lrekusoyen_0_1_0.guest.maps.from_numbers.func_end-rekusoyen_0_1_0.guest.maps.from_numbers
	.section	.text.rekusoyen_0_1_0.guest.room.room_for,"ax",@progbits
	.p2align	2
	.type	rekusoyen_0_1_0.guest.room.room_for,@function
rekusoyen_0_1_0.guest.room.room_for:
	cbz	x2, .Lrekusoyen_0_1_0.guest.room.room_for.9
	ldr	x8, [x0]
	subs	x9, x8, x1
	mov	w8, wzr
	b.lo	.Lrekusoyen_0_1_0.guest.room.room_for.10
	cmp	x2, x9
	b.hi	.Lrekusoyen_0_1_0.guest.room.room_for.10
	ldr	x9, [x0, #8]
	mov	w8, #16
	cmp	x9, #16
	csel	x8, x9, x8, lo
	cbz	x9, .Lrekusoyen_0_1_0.guest.room.room_for.11
	add	x9, x0, #144
	b	.Lrekusoyen_0_1_0.guest.room.room_for.6
.Lrekusoyen_0_1_0.guest.room.room_for.5:
	subs	x8, x8, #1
	add	x9, x9, #8
	b.eq	.Lrekusoyen_0_1_0.guest.room.room_for.10
.Lrekusoyen_0_1_0.guest.room.room_for.6:
	ldur	x10, [x9, #-128]
	subs	x10, x1, x10
	b.lo	.Lrekusoyen_0_1_0.guest.room.room_for.5
	ldr	x11, [x9]
	subs	x10, x11, x10
	b.lo	.Lrekusoyen_0_1_0.guest.room.room_for.5
	cmp	x2, x10
	b.hi	.Lrekusoyen_0_1_0.guest.room.room_for.5
.Lrekusoyen_0_1_0.guest.room.room_for.9:
	mov	w8, #1
.Lrekusoyen_0_1_0.guest.room.room_for.10:
	mov	w0, w8
	ret
.Lrekusoyen_0_1_0.guest.room.room_for.11:
	mov	w0, wzr
	ret
.Lrekusoyen_0_1_0.guest.room.room_for.func_end:
	.size	rekusoyen_0_1_0.guest.room.room_for, .Lrekusoyen_0_1_0.guest.room.room_for.func_end-rekusoyen_0_1_0.guest.room.room_for
	.section	.text.rekusoyen_0_1_0.guest.room.has_room,"ax",@progbits
	.p2align	2
	.type	rekusoyen_0_1_0.guest.room.has_room,@function
rekusoyen_0_1_0.guest.room.has_room:
	ldr	x8, [x0]
	subs	x9, x8, x1
	mov	w8, wzr
	b.lo	.Lrekusoyen_0_1_0.guest.room.has_room.10
	cmp	x2, x9
	b.hi	.Lrekusoyen_0_1_0.guest.room.has_room.10
	ldr	x9, [x0, #8]
	mov	w8, #16
	cmp	x9, #16
	csel	x8, x9, x8, lo
	cbz	x9, .Lrekusoyen_0_1_0.guest.room.has_room.9
	add	x9, x0, #144
	b	.Lrekusoyen_0_1_0.guest.room.has_room.5
.Lrekusoyen_0_1_0.guest.room.has_room.4:
	subs	x8, x8, #1
	add	x9, x9, #8
	b.eq	.Lrekusoyen_0_1_0.guest.room.has_room.10
.Lrekusoyen_0_1_0.guest.room.has_room.5:
	ldur	x10, [x9, #-128]
	subs	x10, x1, x10
	b.lo	.Lrekusoyen_0_1_0.guest.room.has_room.4
	ldr	x11, [x9]
	subs	x10, x11, x10
	b.lo	.Lrekusoyen_0_1_0.guest.room.has_room.4
	cmp	x2, x10
	b.hi	.Lrekusoyen_0_1_0.guest.room.has_room.4
	mov	w0, #1
	ret
.Lrekusoyen_0_1_0.guest.room.has_room.9:
	mov	w8, wzr
.Lrekusoyen_0_1_0.guest.room.has_room.10:
	mov	w0, w8
	ret
.Lrekusoyen_0_1_0.guest.room.has_room.func_end:
	.size	rekusoyen_0_1_0.guest.room.has_room, .Lrekusoyen_0_1_0.guest.room.has_room.func_end-rekusoyen_0_1_0.guest.room.has_room
	.section	.text.rekusoyen_0_1_0.answers.U32FromRefusal.from,"ax",@progbits
	.p2align	2
	.type	rekusoyen_0_1_0.answers.U32FromRefusal.from,@function
rekusoyen_0_1_0.answers.U32FromRefusal.from:
	and	x8, x0, #0xff
	adrp	x9, .Lrekusoyen_0_1_0.switch.table.answers.U32FromRefusal.from
	add	x9, x9, :lo12:.Lrekusoyen_0_1_0.switch.table.answers.U32FromRefusal.from
	ldr	w0, [x9, x8, lsl #2]
	ret
.Lrekusoyen_0_1_0.answers.U32FromRefusal.from.func_end:
	.size	rekusoyen_0_1_0.answers.U32FromRefusal.from, .Lrekusoyen_0_1_0.answers.U32FromRefusal.from.func_end-rekusoyen_0_1_0.answers.U32FromRefusal.from
	.section	.text.rekusoyen_0_1_0.desk.table.row_at,"ax",@progbits
	.p2align	2
	.type	rekusoyen_0_1_0.desk.table.row_at,@function
rekusoyen_0_1_0.desk.table.row_at:
	subs	x8, x2, x3
	add	x9, x1, x3
	b.lo	.Lrekusoyen_0_1_0.desk.table.row_at.3
	cmp	x8, #3
	b.ls	.Lrekusoyen_0_1_0.desk.table.row_at.3
	ldr	w8, [x9]
	add	x11, x3, #4
	subs	x9, x2, x11
	add	x10, x1, x11
	b.hs	.Lrekusoyen_0_1_0.desk.table.row_at.11
	b	.Lrekusoyen_0_1_0.desk.table.row_at.14
.Lrekusoyen_0_1_0.desk.table.row_at.3:
	subs	x8, x2, x3
	csel	x8, xzr, x8, lo
	cmp	x8, #4
	b.lo	.Lrekusoyen_0_1_0.desk.table.row_at.5
	ldrb	w8, [x9, #3]
	lsl	x8, x8, #8
	b	.Lrekusoyen_0_1_0.desk.table.row_at.7
.Lrekusoyen_0_1_0.desk.table.row_at.5:
	cmp	x8, #3
	b.ne	.Lrekusoyen_0_1_0.desk.table.row_at.34
	mov	x8, xzr
.Lrekusoyen_0_1_0.desk.table.row_at.7:
	ldrb	w10, [x9, #2]
	orr	x8, x8, x10
	lsl	x10, x8, #8
.Lrekusoyen_0_1_0.desk.table.row_at.8:
	ldrb	w8, [x9, #1]
	orr	x8, x10, x8
	lsl	x8, x8, #8
.Lrekusoyen_0_1_0.desk.table.row_at.9:
	cmp	x2, x3
	b.hi	.Lrekusoyen_0_1_0.desk.table.row_at.13
	add	x11, x3, #4
	subs	x9, x2, x11
	add	x10, x1, x11
	b.lo	.Lrekusoyen_0_1_0.desk.table.row_at.14
.Lrekusoyen_0_1_0.desk.table.row_at.11:
	cmp	x9, #3
	b.ls	.Lrekusoyen_0_1_0.desk.table.row_at.14
	ldr	w9, [x10]
	add	x11, x3, #8
	subs	x12, x2, x11
	add	x10, x1, x11
	b.hs	.Lrekusoyen_0_1_0.desk.table.row_at.22
	b	.Lrekusoyen_0_1_0.desk.table.row_at.26
.Lrekusoyen_0_1_0.desk.table.row_at.13:
	ldrb	w9, [x9]
	orr	x8, x8, x9
	add	x11, x3, #4
	subs	x9, x2, x11
	add	x10, x1, x11
	b.hs	.Lrekusoyen_0_1_0.desk.table.row_at.11
.Lrekusoyen_0_1_0.desk.table.row_at.14:
	subs	x9, x2, x11
	csel	x9, xzr, x9, lo
	cmp	x9, #4
	b.lo	.Lrekusoyen_0_1_0.desk.table.row_at.16
	ldrb	w9, [x10, #3]
	lsl	x9, x9, #8
	b	.Lrekusoyen_0_1_0.desk.table.row_at.18
.Lrekusoyen_0_1_0.desk.table.row_at.16:
	cmp	x9, #3
	b.ne	.Lrekusoyen_0_1_0.desk.table.row_at.35
	mov	x9, xzr
.Lrekusoyen_0_1_0.desk.table.row_at.18:
	ldrb	w12, [x10, #2]
	orr	x9, x9, x12
	lsl	x12, x9, #8
.Lrekusoyen_0_1_0.desk.table.row_at.19:
	ldrb	w9, [x10, #1]
	orr	x9, x12, x9
	lsl	x9, x9, #8
.Lrekusoyen_0_1_0.desk.table.row_at.20:
	cmp	x2, x11
	b.hi	.Lrekusoyen_0_1_0.desk.table.row_at.25
	add	x11, x3, #8
	subs	x12, x2, x11
	add	x10, x1, x11
	b.lo	.Lrekusoyen_0_1_0.desk.table.row_at.26
.Lrekusoyen_0_1_0.desk.table.row_at.22:
	cmp	x12, #3
	b.ls	.Lrekusoyen_0_1_0.desk.table.row_at.26
	ldr	w12, [x10]
.Lrekusoyen_0_1_0.desk.table.row_at.24:
	stp	x8, x9, [x0]
	str	x12, [x0, #16]
	ret
.Lrekusoyen_0_1_0.desk.table.row_at.25:
	ldrb	w10, [x10]
	orr	x9, x9, x10
	add	x11, x3, #8
	subs	x12, x2, x11
	add	x10, x1, x11
	b.hs	.Lrekusoyen_0_1_0.desk.table.row_at.22
.Lrekusoyen_0_1_0.desk.table.row_at.26:
	subs	x12, x2, x11
	csel	x12, xzr, x12, lo
	cmp	x12, #4
	b.lo	.Lrekusoyen_0_1_0.desk.table.row_at.28
	ldrb	w12, [x10, #3]
	lsl	x12, x12, #8
	b	.Lrekusoyen_0_1_0.desk.table.row_at.30
.Lrekusoyen_0_1_0.desk.table.row_at.28:
	cmp	x12, #3
	b.ne	.Lrekusoyen_0_1_0.desk.table.row_at.36
	mov	x12, xzr
.Lrekusoyen_0_1_0.desk.table.row_at.30:
	ldrb	w13, [x10, #2]
	orr	x12, x12, x13
	lsl	x13, x12, #8
.Lrekusoyen_0_1_0.desk.table.row_at.31:
	ldrb	w12, [x10, #1]
	orr	x12, x13, x12
	lsl	x12, x12, #8
.Lrekusoyen_0_1_0.desk.table.row_at.32:
	cmp	x2, x11
	b.ls	.Lrekusoyen_0_1_0.desk.table.row_at.24
	ldrb	w10, [x10]
	orr	x12, x12, x10
	stp	x8, x9, [x0]
	str	x12, [x0, #16]
	ret
.Lrekusoyen_0_1_0.desk.table.row_at.34:
	mov	x10, xzr
	cmp	x8, #2
	mov	x8, xzr
	b.hs	.Lrekusoyen_0_1_0.desk.table.row_at.8
	b	.Lrekusoyen_0_1_0.desk.table.row_at.9
.Lrekusoyen_0_1_0.desk.table.row_at.35:
	mov	x12, xzr
	cmp	x9, #2
	mov	x9, xzr
	b.hs	.Lrekusoyen_0_1_0.desk.table.row_at.19
	b	.Lrekusoyen_0_1_0.desk.table.row_at.20
.Lrekusoyen_0_1_0.desk.table.row_at.36:
	mov	x13, xzr
	cmp	x12, #2
	mov	x12, xzr
	b.hs	.Lrekusoyen_0_1_0.desk.table.row_at.31
	b	.Lrekusoyen_0_1_0.desk.table.row_at.32
.Lrekusoyen_0_1_0.desk.table.row_at.func_end:
	.size	rekusoyen_0_1_0.desk.table.row_at, .Lrekusoyen_0_1_0.desk.table.row_at.func_end-rekusoyen_0_1_0.desk.table.row_at
	.section	.text.rekusoyen_0_1_0.loads.formats.plan,"ax",@progbits
	.p2align	2
	.type	rekusoyen_0_1_0.loads.formats.plan,@function
rekusoyen_0_1_0.loads.formats.plan:
	sub	sp, sp, #384
	ldrb	w11, [x4]
	stp	x20, x19, [sp, #368]
	ldrb	w19, [x4, #8]
	ldr	x8, [x4, #16]
	ldrb	w9, [x4, #24]
	ldr	x10, [x4, #32]
	cmp	w11, #2
	stp	x29, x30, [sp, #288]
	add	x29, sp, #288
	stp	x28, x27, [sp, #304]
	stp	x26, x25, [sp, #320]
	stp	x24, x23, [sp, #336]
	stp	x22, x21, [sp, #352]
	stp	xzr, xzr, [sp, #56]
	str	xzr, [sp, #48]
	b.eq	.Lrekusoyen_0_1_0.loads.formats.plan.7
	cmp	w11, #1
	b.ne	.Lrekusoyen_0_1_0.loads.formats.plan.10
	mov	x11, #1
	cmp	x3, #517
	add	x13, x2, #514
	movk	x11, #256, lsl #32
	b.ls	.Lrekusoyen_0_1_0.loads.formats.plan.16
	ldr	w12, [x13]
	cmp	x3, #520
	b.lo	.Lrekusoyen_0_1_0.loads.formats.plan.32
	ldrh	w13, [x2, #518]
	cmp	w13, #512
	cset	w13, lo
	cmp	x3, #529
	b.ls	.Lrekusoyen_0_1_0.loads.formats.plan.33
	ldrb	w14, [x2, #529]
	ldrb	w16, [x2, #497]
	add	x17, x2, #532
	tst	w14, #0x1
	mov	w14, #4
	cset	w15, eq
	cmp	w16, #0
	csel	w14, w14, w16, eq
	cmp	x3, #535
	ubfiz	x14, x14, #9, #32
	add	x14, x14, #512
	b.ls	.Lrekusoyen_0_1_0.loads.formats.plan.162
	ldr	w16, [x17]
	b	.Lrekusoyen_0_1_0.loads.formats.plan.31
.Lrekusoyen_0_1_0.loads.formats.plan.7:
	cmp	w19, #1
	mov	x9, #1
	csel	x8, x8, xzr, eq
	cmp	x3, #23
	movk	x9, #256, lsl #32
	b.ls	.Lrekusoyen_0_1_0.loads.formats.plan.18
	cmp	x3, x9
	b.hs	.Lrekusoyen_0_1_0.loads.formats.plan.142
	ldr	x21, [x2, #16]
	ldr	x10, [x1]
	cmp	x10, x9
	b.hs	.Lrekusoyen_0_1_0.loads.formats.plan.142
	b	.Lrekusoyen_0_1_0.loads.formats.plan.59
.Lrekusoyen_0_1_0.loads.formats.plan.10:
	mov	x11, #1
	cmp	x3, #31
	movk	x11, #256, lsl #32
	b.ls	.Lrekusoyen_0_1_0.loads.formats.plan.20
	ldr	x12, [x2, #24]
	cmp	x3, #39
	b.ls	.Lrekusoyen_0_1_0.loads.formats.plan.86
	ldr	x13, [x2, #32]
	cmp	x3, #55
	b.ls	.Lrekusoyen_0_1_0.loads.formats.plan.101
	ldrh	w15, [x2, #54]
	cmp	x3, #57
	b.ls	.Lrekusoyen_0_1_0.loads.formats.plan.165
	cmp	x3, x11
	b.hs	.Lrekusoyen_0_1_0.loads.formats.plan.107
	ldrh	w14, [x2, #56]
	b	.Lrekusoyen_0_1_0.loads.formats.plan.104
.Lrekusoyen_0_1_0.loads.formats.plan.16:
	subs	x12, x3, #514
	csel	x12, xzr, x12, lo
	cmp	x12, #3
	b.ne	.Lrekusoyen_0_1_0.loads.formats.plan.22
	ldrb	w12, [x2, #516]
	lsl	x14, x12, #8
	b	.Lrekusoyen_0_1_0.loads.formats.plan.23
.Lrekusoyen_0_1_0.loads.formats.plan.18:
	subs	x10, x3, #16
	csel	x10, xzr, x10, lo
	cmp	x10, #7
	b.ne	.Lrekusoyen_0_1_0.loads.formats.plan.49
	ldrb	w10, [x2, #22]
	lsl	x10, x10, #8
	b	.Lrekusoyen_0_1_0.loads.formats.plan.51
.Lrekusoyen_0_1_0.loads.formats.plan.20:
	subs	x12, x3, #24
	csel	x12, xzr, x12, lo
	cmp	x12, #7
	b.ne	.Lrekusoyen_0_1_0.loads.formats.plan.77
	ldrb	w12, [x2, #30]
	lsl	x12, x12, #8
	b	.Lrekusoyen_0_1_0.loads.formats.plan.79
.Lrekusoyen_0_1_0.loads.formats.plan.22:
	mov	x14, xzr
	cmp	x12, #2
	mov	x12, xzr
	b.lo	.Lrekusoyen_0_1_0.loads.formats.plan.24
.Lrekusoyen_0_1_0.loads.formats.plan.23:
	ldrb	w12, [x2, #515]
	orr	x12, x14, x12
	lsl	x12, x12, #8
.Lrekusoyen_0_1_0.loads.formats.plan.24:
	cmp	x3, #515
	b.lo	.Lrekusoyen_0_1_0.loads.formats.plan.26
	ldrb	w13, [x13]
	orr	x12, x12, x13
	b	.Lrekusoyen_0_1_0.loads.formats.plan.32
.Lrekusoyen_0_1_0.loads.formats.plan.26:
	cmp	x3, #497
	b.hi	.Lrekusoyen_0_1_0.loads.formats.plan.32
	add	x17, x2, #532
	mov	w13, #1
	mov	w14, #2560
	mov	w15, #1
	mov	w4, #1
	subs	x16, x3, #532
	csel	x16, xzr, x16, lo
	cmp	x16, #3
	b.eq	.Lrekusoyen_0_1_0.loads.formats.plan.34
.Lrekusoyen_0_1_0.loads.formats.plan.28:
	mov	x5, xzr
	cmp	x16, #2
	mov	x16, xzr
	b.hs	.Lrekusoyen_0_1_0.loads.formats.plan.35
	cmp	x3, #533
	b.lo	.Lrekusoyen_0_1_0.loads.formats.plan.36
.Lrekusoyen_0_1_0.loads.formats.plan.30:
	ldrb	w17, [x17]
	orr	x16, x16, x17
.Lrekusoyen_0_1_0.loads.formats.plan.31:
	cmp	w19, #1
	csel	x5, x8, x16, eq
	b	.Lrekusoyen_0_1_0.loads.formats.plan.38
.Lrekusoyen_0_1_0.loads.formats.plan.32:
	mov	w13, #1
.Lrekusoyen_0_1_0.loads.formats.plan.33:
	ldrb	w14, [x2, #497]
	mov	w15, #4
	mov	w4, wzr
	add	x17, x2, #532
	cmp	w14, #0
	csel	w14, w15, w14, eq
	mov	w15, #1
	ubfiz	x14, x14, #9, #32
	add	x14, x14, #512
	subs	x16, x3, #532
	csel	x16, xzr, x16, lo
	cmp	x16, #3
	b.ne	.Lrekusoyen_0_1_0.loads.formats.plan.28
.Lrekusoyen_0_1_0.loads.formats.plan.34:
	ldrb	w16, [x2, #534]
	lsl	x5, x16, #8
.Lrekusoyen_0_1_0.loads.formats.plan.35:
	ldrb	w16, [x2, #533]
	orr	x16, x5, x16
	lsl	x16, x16, #8
	cmp	x3, #533
	b.hs	.Lrekusoyen_0_1_0.loads.formats.plan.30
.Lrekusoyen_0_1_0.loads.formats.plan.36:
	cmp	w19, #1
	csel	x5, x8, x16, eq
	cbz	w4, .Lrekusoyen_0_1_0.loads.formats.plan.38
	ldr	x17, [x1]
	b	.Lrekusoyen_0_1_0.loads.formats.plan.48
.Lrekusoyen_0_1_0.loads.formats.plan.38:
	ldrb	w17, [x2, #497]
	mov	w4, #4
	cmp	w17, #0
	csel	w17, w4, w17, eq
	ubfiz	x17, x17, #9, #32
	add	x17, x17, #512
	subs	x4, x3, x17
	ldr	x17, [x1]
	csel	x6, xzr, x4, lo
	b.ls	.Lrekusoyen_0_1_0.loads.formats.plan.48
	subs	x7, x17, x5
	mov	w4, wzr
	b.lo	.Lrekusoyen_0_1_0.loads.formats.plan.138
	cmp	x6, x7
	b.hi	.Lrekusoyen_0_1_0.loads.formats.plan.138
	ldr	x7, [x1, #8]
	mov	w4, #16
	cmp	x7, #16
	csel	x4, x7, x4, lo
	cbz	x7, .Lrekusoyen_0_1_0.loads.formats.plan.137
	add	x7, x1, #144
	b	.Lrekusoyen_0_1_0.loads.formats.plan.44
.Lrekusoyen_0_1_0.loads.formats.plan.43:
	subs	x4, x4, #1
	add	x7, x7, #8
	b.eq	.Lrekusoyen_0_1_0.loads.formats.plan.138
.Lrekusoyen_0_1_0.loads.formats.plan.44:
	ldur	x20, [x7, #-128]
	subs	x20, x5, x20
	b.lo	.Lrekusoyen_0_1_0.loads.formats.plan.43
	ldr	x21, [x7]
	subs	x20, x21, x20
	b.lo	.Lrekusoyen_0_1_0.loads.formats.plan.43
	cmp	x6, x20
	b.hi	.Lrekusoyen_0_1_0.loads.formats.plan.43
	mov	w4, #1
	b	.Lrekusoyen_0_1_0.loads.formats.plan.138
.Lrekusoyen_0_1_0.loads.formats.plan.48:
	mov	w4, #1
	b	.Lrekusoyen_0_1_0.loads.formats.plan.139
.Lrekusoyen_0_1_0.loads.formats.plan.49:
	cmp	x10, #6
	b.lo	.Lrekusoyen_0_1_0.loads.formats.plan.99
	mov	x10, xzr
.Lrekusoyen_0_1_0.loads.formats.plan.51:
	ldrb	w11, [x2, #21]
	orr	x10, x10, x11
	lsl	x10, x10, #8
.Lrekusoyen_0_1_0.loads.formats.plan.52:
	ldrb	w11, [x2, #20]
	orr	x10, x10, x11
	lsl	x10, x10, #8
.Lrekusoyen_0_1_0.loads.formats.plan.53:
	ldrb	w11, [x2, #19]
	orr	x10, x10, x11
	lsl	x10, x10, #8
.Lrekusoyen_0_1_0.loads.formats.plan.54:
	ldrb	w11, [x2, #18]
	orr	x10, x10, x11
	lsl	x11, x10, #8
.Lrekusoyen_0_1_0.loads.formats.plan.55:
	ldrb	w10, [x2, #17]
	orr	x10, x11, x10
	lsl	x21, x10, #8
.Lrekusoyen_0_1_0.loads.formats.plan.56:
	cmp	x3, #17
	b.lo	.Lrekusoyen_0_1_0.loads.formats.plan.58
	ldrb	w10, [x2, #16]
	orr	x21, x21, x10
	ldr	x10, [x1]
	cmp	x10, x9
	b.hs	.Lrekusoyen_0_1_0.loads.formats.plan.142
	b	.Lrekusoyen_0_1_0.loads.formats.plan.59
.Lrekusoyen_0_1_0.loads.formats.plan.58:
	ldr	x10, [x1]
	cmp	x10, x9
	b.hs	.Lrekusoyen_0_1_0.loads.formats.plan.142
.Lrekusoyen_0_1_0.loads.formats.plan.59:
	ldr	x9, [x1, #8]
	cmp	x9, #16
	b.hi	.Lrekusoyen_0_1_0.loads.formats.plan.141
	cbz	x9, .Lrekusoyen_0_1_0.loads.formats.plan.71
	ldr	x12, [x1, #144]
	cbz	x12, .Lrekusoyen_0_1_0.loads.formats.plan.141
	ldr	x13, [x1, #16]
	mov	w11, #43
	subs	x14, x10, x13
	b.lo	.Lrekusoyen_0_1_0.loads.formats.plan.143
	cmp	x12, x14
	b.hi	.Lrekusoyen_0_1_0.loads.formats.plan.143
	subs	x9, x9, #1
	b.eq	.Lrekusoyen_0_1_0.loads.formats.plan.71
	add	x11, x12, x13
	add	x12, x1, #152
.Lrekusoyen_0_1_0.loads.formats.plan.66:
	ldur	x13, [x12, #-128]
	cmp	x11, x13
	mov	w11, #43
	b.hs	.Lrekusoyen_0_1_0.loads.formats.plan.143
	ldr	x14, [x12], #8
	cbz	x14, .Lrekusoyen_0_1_0.loads.formats.plan.143
	subs	x15, x10, x13
	b.lo	.Lrekusoyen_0_1_0.loads.formats.plan.143
	cmp	x14, x15
	b.hi	.Lrekusoyen_0_1_0.loads.formats.plan.143
	subs	x9, x9, #1
	add	x11, x14, x13
	b.ne	.Lrekusoyen_0_1_0.loads.formats.plan.66
.Lrekusoyen_0_1_0.loads.formats.plan.71:
	cmp	x3, #63
	b.ls	.Lrekusoyen_0_1_0.loads.formats.plan.173
	ldr	w9, [x2, #56]
	mov	w10, #21057
	movk	w10, #25677, lsl #16
	cmp	w9, w10
	b.ne	.Lrekusoyen_0_1_0.loads.formats.plan.184
	ldrb	w9, [x2, #24]
	tbnz	w9, #0, .Lrekusoyen_0_1_0.loads.formats.plan.188
	cbz	x21, .Lrekusoyen_0_1_0.loads.formats.plan.191
	tst	x8, #0x1fffff
	b.eq	.Lrekusoyen_0_1_0.loads.formats.plan.197
	mov	x8, xzr
	mov	x20, xzr
	mov	w21, wzr
	stp	xzr, xzr, [x29, #-80]
	mov	w11, #51
	b	.Lrekusoyen_0_1_0.loads.formats.plan.145
.Lrekusoyen_0_1_0.loads.formats.plan.77:
	cmp	x12, #6
	b.lo	.Lrekusoyen_0_1_0.loads.formats.plan.133
	mov	x12, xzr
.Lrekusoyen_0_1_0.loads.formats.plan.79:
	ldrb	w13, [x2, #29]
	orr	x12, x12, x13
	lsl	x12, x12, #8
.Lrekusoyen_0_1_0.loads.formats.plan.80:
	ldrb	w13, [x2, #28]
	orr	x12, x12, x13
	lsl	x12, x12, #8
.Lrekusoyen_0_1_0.loads.formats.plan.81:
	ldrb	w13, [x2, #27]
	orr	x12, x12, x13
	lsl	x12, x12, #8
.Lrekusoyen_0_1_0.loads.formats.plan.82:
	ldrb	w13, [x2, #26]
	orr	x12, x12, x13
	lsl	x13, x12, #8
.Lrekusoyen_0_1_0.loads.formats.plan.83:
	ldrb	w12, [x2, #25]
	orr	x12, x13, x12
	lsl	x12, x12, #8
.Lrekusoyen_0_1_0.loads.formats.plan.84:
	cmp	x3, #25
	b.lo	.Lrekusoyen_0_1_0.loads.formats.plan.86
	ldrb	w13, [x2, #24]
	orr	x12, x12, x13
.Lrekusoyen_0_1_0.loads.formats.plan.86:
	subs	x13, x3, #32
	csel	x13, xzr, x13, lo
	cmp	x13, #7
	b.ne	.Lrekusoyen_0_1_0.loads.formats.plan.88
	ldrb	w13, [x2, #38]
	lsl	x13, x13, #8
	b	.Lrekusoyen_0_1_0.loads.formats.plan.90
.Lrekusoyen_0_1_0.loads.formats.plan.88:
	cmp	x13, #6
	b.lo	.Lrekusoyen_0_1_0.loads.formats.plan.97
	mov	x13, xzr
.Lrekusoyen_0_1_0.loads.formats.plan.90:
	ldrb	w14, [x2, #37]
	orr	x13, x13, x14
	lsl	x13, x13, #8
.Lrekusoyen_0_1_0.loads.formats.plan.91:
	ldrb	w14, [x2, #36]
	orr	x13, x13, x14
	lsl	x13, x13, #8
.Lrekusoyen_0_1_0.loads.formats.plan.92:
	ldrb	w14, [x2, #35]
	orr	x13, x13, x14
	lsl	x13, x13, #8
.Lrekusoyen_0_1_0.loads.formats.plan.93:
	ldrb	w14, [x2, #34]
	orr	x13, x13, x14
	lsl	x14, x13, #8
.Lrekusoyen_0_1_0.loads.formats.plan.94:
	ldrb	w13, [x2, #33]
	orr	x13, x14, x13
	lsl	x13, x13, #8
.Lrekusoyen_0_1_0.loads.formats.plan.95:
	cmp	x3, #33
	b.lo	.Lrekusoyen_0_1_0.loads.formats.plan.103
	ldrb	w16, [x2, #32]
	mov	x14, xzr
	mov	x15, xzr
	orr	x13, x13, x16
	b	.Lrekusoyen_0_1_0.loads.formats.plan.104
.Lrekusoyen_0_1_0.loads.formats.plan.97:
	cmp	x13, #5
	b.ne	.Lrekusoyen_0_1_0.loads.formats.plan.135
	mov	x13, xzr
	b	.Lrekusoyen_0_1_0.loads.formats.plan.91
.Lrekusoyen_0_1_0.loads.formats.plan.99:
	cmp	x10, #5
	b.ne	.Lrekusoyen_0_1_0.loads.formats.plan.163
	mov	x10, xzr
	b	.Lrekusoyen_0_1_0.loads.formats.plan.52
.Lrekusoyen_0_1_0.loads.formats.plan.101:
	b.ne	.Lrekusoyen_0_1_0.loads.formats.plan.103
	ldrb	w15, [x2, #54]
	mov	x14, xzr
	b	.Lrekusoyen_0_1_0.loads.formats.plan.104
.Lrekusoyen_0_1_0.loads.formats.plan.103:
	mov	x14, xzr
	mov	x15, xzr
.Lrekusoyen_0_1_0.loads.formats.plan.104:
	ldr	x16, [x1]
	cmp	x16, x11
	b.hs	.Lrekusoyen_0_1_0.loads.formats.plan.107
	ldr	x17, [x1, #8]
	cmp	x17, #16
	b.ls	.Lrekusoyen_0_1_0.loads.formats.plan.111
.Lrekusoyen_0_1_0.loads.formats.plan.106:
	mov	w11, #43
	b	.Lrekusoyen_0_1_0.loads.formats.plan.108
.Lrekusoyen_0_1_0.loads.formats.plan.107:
	mov	w11, #31
.Lrekusoyen_0_1_0.loads.formats.plan.108:
	mov	x8, xzr
	mov	x20, xzr
	mov	w21, wzr
	mov	w9, #1
	stp	xzr, xzr, [sp, #80]
.Lrekusoyen_0_1_0.loads.formats.plan.109:
	str	xzr, [sp, #96]
.Lrekusoyen_0_1_0.loads.formats.plan.110:
	ldr	q0, [sp, #80]
	ldr	x10, [sp, #96]
	b	.Lrekusoyen_0_1_0.loads.formats.plan.148
.Lrekusoyen_0_1_0.loads.formats.plan.111:
	cbz	x17, .Lrekusoyen_0_1_0.loads.formats.plan.122
	ldr	x5, [x1, #144]
	cbz	x5, .Lrekusoyen_0_1_0.loads.formats.plan.106
	ldr	x6, [x1, #16]
	mov	w11, #43
	subs	x4, x16, x6
	b.lo	.Lrekusoyen_0_1_0.loads.formats.plan.108
	cmp	x5, x4
	b.hi	.Lrekusoyen_0_1_0.loads.formats.plan.108
	subs	x4, x17, #1
	b.eq	.Lrekusoyen_0_1_0.loads.formats.plan.122
	add	x11, x5, x6
	add	x5, x1, #152
.Lrekusoyen_0_1_0.loads.formats.plan.117:
	ldur	x6, [x5, #-128]
	cmp	x11, x6
	mov	w11, #43
	b.hs	.Lrekusoyen_0_1_0.loads.formats.plan.108
	ldr	x7, [x5], #8
	cbz	x7, .Lrekusoyen_0_1_0.loads.formats.plan.108
	subs	x20, x16, x6
	b.lo	.Lrekusoyen_0_1_0.loads.formats.plan.108
	cmp	x7, x20
	b.hi	.Lrekusoyen_0_1_0.loads.formats.plan.108
	subs	x4, x4, #1
	add	x11, x7, x6
	b.ne	.Lrekusoyen_0_1_0.loads.formats.plan.117
.Lrekusoyen_0_1_0.loads.formats.plan.122:
	cmp	x3, #64
	b.lo	.Lrekusoyen_0_1_0.loads.formats.plan.169
	ldrb	w11, [x2]
	cmp	w11, #127
	b.ne	.Lrekusoyen_0_1_0.loads.formats.plan.170
	ldrb	w11, [x2, #1]
	cmp	w11, #69
	b.ne	.Lrekusoyen_0_1_0.loads.formats.plan.170
	ldrb	w11, [x2, #2]
	cmp	w11, #76
	b.ne	.Lrekusoyen_0_1_0.loads.formats.plan.170
	ldrb	w11, [x2, #3]
	cmp	w11, #70
	b.ne	.Lrekusoyen_0_1_0.loads.formats.plan.170
	ldrb	w11, [x2, #5]
	cmp	w11, #1
	b.ne	.Lrekusoyen_0_1_0.loads.formats.plan.201
	cmp	x15, #56
	b.ne	.Lrekusoyen_0_1_0.loads.formats.plan.203
	cmp	x13, #64
	b.lo	.Lrekusoyen_0_1_0.loads.formats.plan.206
	cmp	w9, #1
	b.ne	.Lrekusoyen_0_1_0.loads.formats.plan.208
	cmp	x10, x12
	b.ls	.Lrekusoyen_0_1_0.loads.formats.plan.208
	mov	w11, #4
	b	.Lrekusoyen_0_1_0.loads.formats.plan.108
.Lrekusoyen_0_1_0.loads.formats.plan.133:
	cmp	x12, #5
	b.ne	.Lrekusoyen_0_1_0.loads.formats.plan.167
	mov	x12, xzr
	b	.Lrekusoyen_0_1_0.loads.formats.plan.80
.Lrekusoyen_0_1_0.loads.formats.plan.135:
	cmp	x13, #4
	b.lo	.Lrekusoyen_0_1_0.loads.formats.plan.174
	mov	x13, xzr
	b	.Lrekusoyen_0_1_0.loads.formats.plan.92
.Lrekusoyen_0_1_0.loads.formats.plan.137:
	mov	w4, wzr
.Lrekusoyen_0_1_0.loads.formats.plan.138:
	cmp	x3, x11
	b.hs	.Lrekusoyen_0_1_0.loads.formats.plan.142
.Lrekusoyen_0_1_0.loads.formats.plan.139:
	cmp	x17, x11
	b.hs	.Lrekusoyen_0_1_0.loads.formats.plan.142
	ldr	x5, [x1, #8]
	cmp	x5, #16
	b.ls	.Lrekusoyen_0_1_0.loads.formats.plan.149
.Lrekusoyen_0_1_0.loads.formats.plan.141:
	mov	w11, #43
	b	.Lrekusoyen_0_1_0.loads.formats.plan.143
.Lrekusoyen_0_1_0.loads.formats.plan.142:
	mov	w11, #31
.Lrekusoyen_0_1_0.loads.formats.plan.143:
	mov	x8, xzr
	mov	x20, xzr
	mov	w21, wzr
.Lrekusoyen_0_1_0.loads.formats.plan.144:
	stp	xzr, xzr, [x29, #-80]
.Lrekusoyen_0_1_0.loads.formats.plan.145:
	mov	w9, #1
.Lrekusoyen_0_1_0.loads.formats.plan.146:
	stur	xzr, [x29, #-64]
.Lrekusoyen_0_1_0.loads.formats.plan.147:
	ldur	q0, [x29, #-80]
	ldur	x10, [x29, #-64]
.Lrekusoyen_0_1_0.loads.formats.plan.148:
	str	q0, [sp, #48]
	ldp	x24, x23, [sp, #336]
	stp	x8, x20, [x0, #8]
	mov	w8, w21
	ldr	q0, [sp, #48]
	ldp	x20, x19, [sp, #368]
	str	x8, [x0, #24]
	str	x10, [sp, #64]
	ldp	x22, x21, [sp, #352]
	strb	w9, [x0]
	strb	w11, [x0, #1]
	ldp	x26, x25, [sp, #320]
	str	q0, [x0, #32]
	ldp	x28, x27, [sp, #304]
	str	x10, [x0, #48]
	ldp	x29, x30, [sp, #288]
	add	sp, sp, #384
	ret
.Lrekusoyen_0_1_0.loads.formats.plan.149:
	cbz	x5, .Lrekusoyen_0_1_0.loads.formats.plan.160
	ldr	x6, [x1, #144]
	cbz	x6, .Lrekusoyen_0_1_0.loads.formats.plan.141
	ldr	x7, [x1, #16]
	mov	w11, #43
	subs	x20, x17, x7
	b.lo	.Lrekusoyen_0_1_0.loads.formats.plan.143
	cmp	x6, x20
	b.hi	.Lrekusoyen_0_1_0.loads.formats.plan.143
	subs	x5, x5, #1
	b.eq	.Lrekusoyen_0_1_0.loads.formats.plan.160
	add	x11, x6, x7
	add	x1, x1, #152
.Lrekusoyen_0_1_0.loads.formats.plan.155:
	ldur	x6, [x1, #-128]
	cmp	x11, x6
	mov	w11, #43
	b.hs	.Lrekusoyen_0_1_0.loads.formats.plan.143
	ldr	x7, [x1], #8
	cbz	x7, .Lrekusoyen_0_1_0.loads.formats.plan.143
	subs	x20, x17, x6
	b.lo	.Lrekusoyen_0_1_0.loads.formats.plan.143
	cmp	x7, x20
	b.hi	.Lrekusoyen_0_1_0.loads.formats.plan.143
	subs	x5, x5, #1
	add	x11, x7, x6
	b.ne	.Lrekusoyen_0_1_0.loads.formats.plan.155
.Lrekusoyen_0_1_0.loads.formats.plan.160:
	mov	w11, #25672
	movk	w11, #21362, lsl #16
	cmp	x12, x11
	orr	w12, w15, w13
	cset	w11, ne
	orr	w11, w12, w11
	tbz	w11, #0, .Lrekusoyen_0_1_0.loads.formats.plan.171
	mov	w11, #14
	b	.Lrekusoyen_0_1_0.loads.formats.plan.143
.Lrekusoyen_0_1_0.loads.formats.plan.162:
	mov	w4, wzr
	subs	x16, x3, #532
	csel	x16, xzr, x16, lo
	cmp	x16, #3
	b.eq	.Lrekusoyen_0_1_0.loads.formats.plan.34
	b	.Lrekusoyen_0_1_0.loads.formats.plan.28
.Lrekusoyen_0_1_0.loads.formats.plan.163:
	cmp	x10, #4
	b.lo	.Lrekusoyen_0_1_0.loads.formats.plan.176
	mov	x10, xzr
	b	.Lrekusoyen_0_1_0.loads.formats.plan.53
.Lrekusoyen_0_1_0.loads.formats.plan.165:
	cmp	x3, #56
	b.ne	.Lrekusoyen_0_1_0.loads.formats.plan.178
	mov	x14, xzr
	b	.Lrekusoyen_0_1_0.loads.formats.plan.104
.Lrekusoyen_0_1_0.loads.formats.plan.167:
	cmp	x12, #4
	b.lo	.Lrekusoyen_0_1_0.loads.formats.plan.179
	mov	x12, xzr
	b	.Lrekusoyen_0_1_0.loads.formats.plan.81
.Lrekusoyen_0_1_0.loads.formats.plan.169:
	mov	w11, #6
	b	.Lrekusoyen_0_1_0.loads.formats.plan.108
.Lrekusoyen_0_1_0.loads.formats.plan.170:
	mov	w11, wzr
	b	.Lrekusoyen_0_1_0.loads.formats.plan.108
.Lrekusoyen_0_1_0.loads.formats.plan.171:
	cmp	x14, x3
	b.ls	.Lrekusoyen_0_1_0.loads.formats.plan.181
	mov	w11, #15
	b	.Lrekusoyen_0_1_0.loads.formats.plan.143
.Lrekusoyen_0_1_0.loads.formats.plan.173:
	mov	x8, xzr
	mov	x20, xzr
	mov	w21, wzr
	stp	xzr, xzr, [x29, #-80]
	mov	w11, #47
	b	.Lrekusoyen_0_1_0.loads.formats.plan.145
.Lrekusoyen_0_1_0.loads.formats.plan.174:
	cmp	x13, #3
	b.ne	.Lrekusoyen_0_1_0.loads.formats.plan.185
	mov	x13, xzr
	b	.Lrekusoyen_0_1_0.loads.formats.plan.93
.Lrekusoyen_0_1_0.loads.formats.plan.176:
	cmp	x10, #3
	b.ne	.Lrekusoyen_0_1_0.loads.formats.plan.186
	mov	x10, xzr
	b	.Lrekusoyen_0_1_0.loads.formats.plan.54
.Lrekusoyen_0_1_0.loads.formats.plan.178:
	ldrb	w14, [x2, #56]
	b	.Lrekusoyen_0_1_0.loads.formats.plan.104
.Lrekusoyen_0_1_0.loads.formats.plan.179:
	cmp	x12, #3
	b.ne	.Lrekusoyen_0_1_0.loads.formats.plan.187
	mov	x12, xzr
	b	.Lrekusoyen_0_1_0.loads.formats.plan.82
.Lrekusoyen_0_1_0.loads.formats.plan.181:
	cmp	w9, #1
	ccmp	x10, x16, #0, eq
	cset	w9, ls
	csel	w10, wzr, w4, hi
	cmp	w9, #0
	mov	w9, #16
	cinc	w11, w9, ne
	cmp	w10, #1
	b.ne	.Lrekusoyen_0_1_0.loads.formats.plan.143
	cmp	x3, #535
	b.ls	.Lrekusoyen_0_1_0.loads.formats.plan.189
	ldr	w9, [x2, #532]
	b	.Lrekusoyen_0_1_0.loads.formats.plan.196
.Lrekusoyen_0_1_0.loads.formats.plan.184:
	mov	x8, xzr
	mov	x20, xzr
	mov	w21, wzr
	stp	xzr, xzr, [x29, #-80]
	mov	w11, #48
	b	.Lrekusoyen_0_1_0.loads.formats.plan.145
.Lrekusoyen_0_1_0.loads.formats.plan.185:
	mov	x14, xzr
	cmp	x13, #2
	mov	x13, xzr
	b.hs	.Lrekusoyen_0_1_0.loads.formats.plan.94
	b	.Lrekusoyen_0_1_0.loads.formats.plan.95
.Lrekusoyen_0_1_0.loads.formats.plan.186:
	mov	x11, xzr
	cmp	x10, #2
	mov	x21, xzr
	b.hs	.Lrekusoyen_0_1_0.loads.formats.plan.55
	b	.Lrekusoyen_0_1_0.loads.formats.plan.56
.Lrekusoyen_0_1_0.loads.formats.plan.187:
	mov	x13, xzr
	cmp	x12, #2
	mov	x12, xzr
	b.hs	.Lrekusoyen_0_1_0.loads.formats.plan.83
	b	.Lrekusoyen_0_1_0.loads.formats.plan.84
.Lrekusoyen_0_1_0.loads.formats.plan.188:
	mov	x8, xzr
	mov	x20, xzr
	mov	w21, wzr
	stp	xzr, xzr, [x29, #-80]
	mov	w11, #49
	b	.Lrekusoyen_0_1_0.loads.formats.plan.145
.Lrekusoyen_0_1_0.loads.formats.plan.189:
	subs	x9, x3, #532
	csel	x9, xzr, x9, lo
	cmp	x9, #3
	b.ne	.Lrekusoyen_0_1_0.loads.formats.plan.192
	ldrb	w9, [x2, #534]
	lsl	x10, x9, #8
	b	.Lrekusoyen_0_1_0.loads.formats.plan.193
.Lrekusoyen_0_1_0.loads.formats.plan.191:
	mov	x8, xzr
	mov	x20, xzr
	stp	xzr, xzr, [x29, #-80]
	mov	w11, #50
	b	.Lrekusoyen_0_1_0.loads.formats.plan.145
.Lrekusoyen_0_1_0.loads.formats.plan.192:
	mov	x10, xzr
	cmp	x9, #2
	mov	x9, xzr
	b.lo	.Lrekusoyen_0_1_0.loads.formats.plan.194
.Lrekusoyen_0_1_0.loads.formats.plan.193:
	ldrb	w9, [x2, #533]
	orr	x9, x10, x9
	lsl	x9, x9, #8
.Lrekusoyen_0_1_0.loads.formats.plan.194:
	cmp	x3, #533
	b.lo	.Lrekusoyen_0_1_0.loads.formats.plan.196
	ldrb	w10, [x2, #532]
	orr	x9, x9, x10
.Lrekusoyen_0_1_0.loads.formats.plan.196:
	ldrb	w10, [x2, #497]
	cmp	w19, #1
	mov	w12, #4
	csel	x8, x8, x9, eq
	mov	w9, wzr
	mov	w11, wzr
	cmp	w10, #0
	stp	xzr, xzr, [x29, #-80]
	mov	w21, #2
	csel	w10, w12, w10, eq
	stur	xzr, [x29, #-64]
	ubfiz	x10, x10, #9, #32
	add	x10, x10, #512
	subs	x10, x3, x10
	csel	x10, xzr, x10, lo
	add	x20, x10, x8
	b	.Lrekusoyen_0_1_0.loads.formats.plan.147
.Lrekusoyen_0_1_0.loads.formats.plan.197:
	mov	x19, x1
	mov	x22, x0
	mov	x0, x2
	mov	x1, x3
	mov	x2, x8
	mov	x20, x3
	bl	rekusoyen_0_1_0.arm64.plan.start
	tbz	w0, #0, .Lrekusoyen_0_1_0.loads.formats.plan.202
	mov	x0, x19
	mov	x2, x20
	mov	x19, x1
	bl	rekusoyen_0_1_0.guest.room.has_room
	tbz	w0, #0, .Lrekusoyen_0_1_0.loads.formats.plan.204
	cmn	x21, x19
	mov	x0, x22
	b.lo	.Lrekusoyen_0_1_0.loads.formats.plan.207
	mov	x8, xzr
	mov	x20, xzr
	mov	w21, wzr
	mov	w11, #54
	b	.Lrekusoyen_0_1_0.loads.formats.plan.144
.Lrekusoyen_0_1_0.loads.formats.plan.201:
	mov	w11, #1
	b	.Lrekusoyen_0_1_0.loads.formats.plan.108
.Lrekusoyen_0_1_0.loads.formats.plan.202:
	mov	x8, xzr
	mov	x20, xzr
	mov	w21, wzr
	mov	w11, #52
	stp	xzr, xzr, [x29, #-80]
	b	.Lrekusoyen_0_1_0.loads.formats.plan.205
.Lrekusoyen_0_1_0.loads.formats.plan.203:
	mov	w11, #2
	b	.Lrekusoyen_0_1_0.loads.formats.plan.108
.Lrekusoyen_0_1_0.loads.formats.plan.204:
	mov	x8, xzr
	mov	x20, xzr
	mov	w21, wzr
	stp	xzr, xzr, [x29, #-80]
	mov	w11, #53
.Lrekusoyen_0_1_0.loads.formats.plan.205:
	mov	w9, #1
	stur	xzr, [x29, #-64]
	mov	x0, x22
	b	.Lrekusoyen_0_1_0.loads.formats.plan.147
.Lrekusoyen_0_1_0.loads.formats.plan.206:
	mov	w11, #3
	b	.Lrekusoyen_0_1_0.loads.formats.plan.108
.Lrekusoyen_0_1_0.loads.formats.plan.207:
	mov	x8, x19
	mov	w9, wzr
	mov	w11, wzr
	stp	xzr, xzr, [x29, #-80]
	add	x20, x19, x21
	mov	w21, #2
	b	.Lrekusoyen_0_1_0.loads.formats.plan.146
.Lrekusoyen_0_1_0.loads.formats.plan.208:
	cmn	x12, x8
	stp	x16, x17, [sp, #8]
	cset	w9, hs
	cmp	w19, #1
	stp	x3, x2, [sp, #32]
	str	x0, [sp, #24]
	b.ne	.Lrekusoyen_0_1_0.loads.formats.plan.211
	tbz	w9, #0, .Lrekusoyen_0_1_0.loads.formats.plan.211
	ldr	x0, [sp, #24]
	mov	w11, #5
	b	.Lrekusoyen_0_1_0.loads.formats.plan.108
.Lrekusoyen_0_1_0.loads.formats.plan.211:
	cbz	x14, .Lrekusoyen_0_1_0.loads.formats.plan.213
	lsl	x9, x14, #6
	sub	x10, x9, x14, lsl #3
	ldr	x9, [sp, #32]
	subs	x9, x9, x13
	ccmp	x10, x9, #2, hs
	b.hi	.Lrekusoyen_0_1_0.loads.formats.plan.257
.Lrekusoyen_0_1_0.loads.formats.plan.213:
	ldr	x9, [sp, #40]
	cmp	w19, #1
	stp	xzr, xzr, [sp, #144]
	csel	x22, x8, xzr, eq
	str	xzr, [sp, #160]
	ldrh	w24, [x9, #56]
	ldp	x23, x9, [x9, #24]
	cbz	x24, .Lrekusoyen_0_1_0.loads.formats.plan.258
	ldr	x8, [sp, #40]
	mov	x25, xzr
	mov	x20, xzr
	sub	x27, x29, #80
	add	x28, x1, #144
	mov	w21, #2
	add	x26, x8, x9
	b	.Lrekusoyen_0_1_0.loads.formats.plan.219
.Lrekusoyen_0_1_0.loads.formats.plan.215:
	stp	xzr, xzr, [sp, #112]
	str	xzr, [sp, #128]
.Lrekusoyen_0_1_0.loads.formats.plan.216:
	ldr	q0, [sp, #144]
	ldr	x8, [sp, #160]
.Lrekusoyen_0_1_0.loads.formats.plan.217:
	stur	q0, [x29, #-32]
	stur	x8, [x29, #-16]
.Lrekusoyen_0_1_0.loads.formats.plan.218:
	ldur	q0, [x29, #-32]
	ldur	x8, [x29, #-16]
	add	x25, x25, #1
	cmp	x25, x24
	str	q0, [sp, #144]
	str	x8, [sp, #160]
	b.eq	.Lrekusoyen_0_1_0.loads.formats.plan.259
.Lrekusoyen_0_1_0.loads.formats.plan.219:
	mov	w8, #56
	madd	x8, x25, x8, x26
	ldr	w9, [x8]
	ldr	x3, [x8, #8]
	ldr	x4, [x8, #32]
	cmp	w9, #4
	b.eq	.Lrekusoyen_0_1_0.loads.formats.plan.224
	cmp	w9, #1
	b.ne	.Lrekusoyen_0_1_0.loads.formats.plan.215
	ldr	x9, [x8, #24]
	ldr	x8, [x8, #40]
	cbz	x4, .Lrekusoyen_0_1_0.loads.formats.plan.228
	cmp	x4, x8
	b.ls	.Lrekusoyen_0_1_0.loads.formats.plan.232
	mov	w9, wzr
	mov	x8, xzr
	stp	xzr, xzr, [x29, #-32]
	mov	w11, #13
	b	.Lrekusoyen_0_1_0.loads.formats.plan.246
.Lrekusoyen_0_1_0.loads.formats.plan.224:
	movi	v0.2d, #0000000000000000
	cmp	w19, #1
	stp	q0, q0, [x29, #-64]
	stur	q0, [x29, #-80]
	b.ne	.Lrekusoyen_0_1_0.loads.formats.plan.226
	mov	w11, wzr
	stp	xzr, xzr, [x29, #-112]
	mov	w9, #2
	mov	w8, #2
	stur	xzr, [x29, #-96]
	ldur	q0, [x29, #-112]
	str	q0, [sp, #112]
	str	xzr, [sp, #128]
	b	.Lrekusoyen_0_1_0.loads.formats.plan.248
.Lrekusoyen_0_1_0.loads.formats.plan.226:
	ldp	x2, x1, [sp, #32]
	sub	x0, x29, #80
	bl	rekusoyen_0_1_0.elf.notes.walk_notes
	ldurb	w8, [x29, #-80]
	cbz	w8, .Lrekusoyen_0_1_0.loads.formats.plan.234
	ldurb	w11, [x29, #-79]
	mov	w9, wzr
	mov	x8, xzr
	stp	xzr, xzr, [x29, #-112]
	mov	w10, #1
	stur	xzr, [x29, #-96]
	ldur	q0, [x29, #-112]
	str	q0, [sp, #112]
	str	xzr, [sp, #128]
	cbz	w10, .Lrekusoyen_0_1_0.loads.formats.plan.248
	b	.Lrekusoyen_0_1_0.loads.formats.plan.260
.Lrekusoyen_0_1_0.loads.formats.plan.228:
	cbz	x8, .Lrekusoyen_0_1_0.loads.formats.plan.255
	adds	x9, x9, x22
	b.hs	.Lrekusoyen_0_1_0.loads.formats.plan.233
.Lrekusoyen_0_1_0.loads.formats.plan.230:
	cmn	x8, x9
	b.lo	.Lrekusoyen_0_1_0.loads.formats.plan.256
	mov	w9, wzr
	mov	x8, xzr
	mov	w11, #12
	stp	xzr, xzr, [x29, #-32]
	b	.Lrekusoyen_0_1_0.loads.formats.plan.246
.Lrekusoyen_0_1_0.loads.formats.plan.232:
	adds	x10, x9, x22
	csel	x9, xzr, x10, hs
	b.lo	.Lrekusoyen_0_1_0.loads.formats.plan.235
.Lrekusoyen_0_1_0.loads.formats.plan.233:
	mov	w9, wzr
	mov	x8, xzr
	stp	xzr, xzr, [x29, #-32]
	mov	w11, #8
	b	.Lrekusoyen_0_1_0.loads.formats.plan.246
.Lrekusoyen_0_1_0.loads.formats.plan.234:
	ldur	q0, [x27, #16]
	ldur	x9, [x27, #32]
	ldurb	w8, [x29, #-72]
	mov	w11, wzr
	stur	q0, [x29, #-112]
	stur	x9, [x29, #-96]
	mov	w9, #2
	ldur	q0, [x29, #-112]
	ldur	x12, [x29, #-96]
	str	q0, [sp, #112]
	str	x12, [sp, #128]
	b	.Lrekusoyen_0_1_0.loads.formats.plan.248
.Lrekusoyen_0_1_0.loads.formats.plan.235:
	ldr	x11, [sp, #32]
	subs	x11, x11, x3
	b.lo	.Lrekusoyen_0_1_0.loads.formats.plan.245
	cmp	x4, x11
	b.hi	.Lrekusoyen_0_1_0.loads.formats.plan.245
	ldr	x11, [sp, #8]
	subs	x10, x11, x10
	ldr	x11, [sp, #16]
	cbz	x11, .Lrekusoyen_0_1_0.loads.formats.plan.245
	b.lo	.Lrekusoyen_0_1_0.loads.formats.plan.245
	cmp	x4, x10
	b.hi	.Lrekusoyen_0_1_0.loads.formats.plan.245
	ldr	x10, [sp, #16]
	mov	x11, x28
	b	.Lrekusoyen_0_1_0.loads.formats.plan.242
.Lrekusoyen_0_1_0.loads.formats.plan.241:
	subs	x10, x10, #1
	add	x11, x11, #8
	b.eq	.Lrekusoyen_0_1_0.loads.formats.plan.245
.Lrekusoyen_0_1_0.loads.formats.plan.242:
	ldur	x12, [x11, #-128]
	subs	x12, x9, x12
	b.lo	.Lrekusoyen_0_1_0.loads.formats.plan.241
	ldr	x13, [x11]
	subs	x12, x13, x12
	b.lo	.Lrekusoyen_0_1_0.loads.formats.plan.241
	cmp	x4, x12
	b.hi	.Lrekusoyen_0_1_0.loads.formats.plan.241
	b	.Lrekusoyen_0_1_0.loads.formats.plan.230
.Lrekusoyen_0_1_0.loads.formats.plan.245:
	mov	w9, wzr
	mov	x8, xzr
	stp	xzr, xzr, [x29, #-32]
	mov	w11, #9
.Lrekusoyen_0_1_0.loads.formats.plan.246:
	mov	w10, #1
.Lrekusoyen_0_1_0.loads.formats.plan.247:
	ldur	q0, [x29, #-32]
	stur	xzr, [x29, #-16]
	stur	xzr, [x29, #-96]
	stur	q0, [x29, #-112]
	ldur	q0, [x29, #-112]
	str	q0, [sp, #112]
	str	xzr, [sp, #128]
	cbnz	w10, .Lrekusoyen_0_1_0.loads.formats.plan.260
.Lrekusoyen_0_1_0.loads.formats.plan.248:
	cmp	w9, #2
	b.eq	.Lrekusoyen_0_1_0.loads.formats.plan.251
	cmp	w9, #1
	b.ne	.Lrekusoyen_0_1_0.loads.formats.plan.216
	ldr	q0, [sp, #144]
	ldr	x9, [sp, #160]
	cmp	x8, x20
	csel	x20, x8, x20, hi
	stur	q0, [x29, #-32]
	stur	x9, [x29, #-16]
	b	.Lrekusoyen_0_1_0.loads.formats.plan.218
.Lrekusoyen_0_1_0.loads.formats.plan.251:
	cbz	w21, .Lrekusoyen_0_1_0.loads.formats.plan.253
	ldr	q0, [sp, #112]
	ldr	x9, [sp, #128]
	and	w21, w8, #0xff
	stur	q0, [x29, #-80]
	stur	x9, [x29, #-64]
	b	.Lrekusoyen_0_1_0.loads.formats.plan.254
.Lrekusoyen_0_1_0.loads.formats.plan.253:
	ldr	q0, [sp, #144]
	ldr	x8, [sp, #160]
	stur	q0, [x29, #-80]
	stur	x8, [x29, #-64]
.Lrekusoyen_0_1_0.loads.formats.plan.254:
	ldur	q0, [x29, #-80]
	ldur	x8, [x29, #-64]
	b	.Lrekusoyen_0_1_0.loads.formats.plan.217
.Lrekusoyen_0_1_0.loads.formats.plan.255:
	mov	w11, wzr
	mov	w9, wzr
	stp	xzr, xzr, [x29, #-112]
	stur	xzr, [x29, #-96]
	ldur	q0, [x29, #-112]
	str	q0, [sp, #112]
	str	xzr, [sp, #128]
	b	.Lrekusoyen_0_1_0.loads.formats.plan.248
.Lrekusoyen_0_1_0.loads.formats.plan.256:
	mov	w10, wzr
	mov	w11, wzr
	stp	xzr, xzr, [x29, #-32]
	add	x8, x8, x9
	mov	w9, #1
	b	.Lrekusoyen_0_1_0.loads.formats.plan.247
.Lrekusoyen_0_1_0.loads.formats.plan.257:
	ldr	x0, [sp, #24]
	mov	w11, #7
	b	.Lrekusoyen_0_1_0.loads.formats.plan.108
.Lrekusoyen_0_1_0.loads.formats.plan.258:
	mov	x20, xzr
	mov	w21, #2
.Lrekusoyen_0_1_0.loads.formats.plan.259:
	ldr	q0, [sp, #144]
	ldr	x10, [sp, #160]
	mov	w9, wzr
	ldr	x0, [sp, #24]
	mov	w11, wzr
	add	x8, x23, x22
	str	q0, [sp, #80]
	str	x10, [sp, #96]
	b	.Lrekusoyen_0_1_0.loads.formats.plan.110
.Lrekusoyen_0_1_0.loads.formats.plan.260:
	ldr	x0, [sp, #24]
	mov	x8, xzr
	mov	x20, xzr
	mov	w21, wzr
	stp	xzr, xzr, [sp, #80]
	mov	w9, #1
	b	.Lrekusoyen_0_1_0.loads.formats.plan.109
.Lrekusoyen_0_1_0.loads.formats.plan.func_end:
	.size	rekusoyen_0_1_0.loads.formats.plan, .Lrekusoyen_0_1_0.loads.formats.plan.func_end-rekusoyen_0_1_0.loads.formats.plan
	.section	.text.rekusoyen_0_1_0.elf.notes.walk_notes,"ax",@progbits
	.p2align	2
	.type	rekusoyen_0_1_0.elf.notes.walk_notes,@function
rekusoyen_0_1_0.elf.notes.walk_notes:
	cbz	x4, .Lrekusoyen_0_1_0.elf.notes.walk_notes.3
	subs	x9, x2, x3
	b.hs	.Lrekusoyen_0_1_0.elf.notes.walk_notes.5
.Lrekusoyen_0_1_0.elf.notes.walk_notes.2:
	movi	v0.2d, #0000000000000000
	mov	w8, #2561
	strh	w8, [x0]
	stur	q0, [x0, #8]
	stur	q0, [x0, #24]
	str	xzr, [x0, #40]
	ret
.Lrekusoyen_0_1_0.elf.notes.walk_notes.3:
	mov	x8, xzr
.Lrekusoyen_0_1_0.elf.notes.walk_notes.4:
	mov	w9, #1
	strh	wzr, [x0]
	stp	x9, xzr, [x0, #8]
	stp	xzr, xzr, [x0, #24]
	str	x8, [x0, #40]
	ret
.Lrekusoyen_0_1_0.elf.notes.walk_notes.5:
	mov	x8, xzr
	mov	x10, xzr
	b	.Lrekusoyen_0_1_0.elf.notes.walk_notes.9
.Lrekusoyen_0_1_0.elf.notes.walk_notes.6:
	cmn	w11, #4
	b.hi	.Lrekusoyen_0_1_0.elf.notes.walk_notes.21
	and	x13, x11, #0xfffffffc
	add	x13, x13, #4
.Lrekusoyen_0_1_0.elf.notes.walk_notes.8:
	tst	x11, #0x3
	add	x8, x8, #1
	csel	x11, x11, x13, eq
	add	x11, x12, x11
	add	x11, x11, #12
	add	x10, x11, x10
	cmp	x10, x4
	b.hs	.Lrekusoyen_0_1_0.elf.notes.walk_notes.4
.Lrekusoyen_0_1_0.elf.notes.walk_notes.9:
	add	x11, x10, #12
	cmp	x11, x9
	b.hi	.Lrekusoyen_0_1_0.elf.notes.walk_notes.2
	add	x13, x10, x3
	add	x11, x1, x13
	ldr	w12, [x11]
	ldp	w11, w14, [x11, #4]
	cmp	w14, #18
	b.ne	.Lrekusoyen_0_1_0.elf.notes.walk_notes.18
	cmp	w12, #4
	b.ne	.Lrekusoyen_0_1_0.elf.notes.walk_notes.18
	add	x15, x13, #12
	mov	w14, #10
	subs	x16, x2, x15
	b.lo	.Lrekusoyen_0_1_0.elf.notes.walk_notes.22
	cmp	x16, #4
	b.lo	.Lrekusoyen_0_1_0.elf.notes.walk_notes.22
	add	x14, x1, x15
	ldrb	w15, [x14]
	cmp	w15, #88
	b.ne	.Lrekusoyen_0_1_0.elf.notes.walk_notes.6
	ldrb	w15, [x14, #1]
	cmp	w15, #101
	b.ne	.Lrekusoyen_0_1_0.elf.notes.walk_notes.6
	ldrb	w15, [x14, #2]
	cmp	w15, #110
	b.ne	.Lrekusoyen_0_1_0.elf.notes.walk_notes.6
	ldrb	w14, [x14, #3]
	cbnz	w14, .Lrekusoyen_0_1_0.elf.notes.walk_notes.6
	b	.Lrekusoyen_0_1_0.elf.notes.walk_notes.23
.Lrekusoyen_0_1_0.elf.notes.walk_notes.18:
	cmn	w12, #4
	mov	w14, #5
	b.hi	.Lrekusoyen_0_1_0.elf.notes.walk_notes.22
	cmn	w11, #4
	b.hi	.Lrekusoyen_0_1_0.elf.notes.walk_notes.22
	and	x13, x12, #0xfffffffc
	tst	x12, #0x3
	and	x14, x11, #0xfffffffc
	add	x13, x13, #4
	csel	x12, x12, x13, eq
	add	x13, x14, #4
	b	.Lrekusoyen_0_1_0.elf.notes.walk_notes.8
.Lrekusoyen_0_1_0.elf.notes.walk_notes.21:
	mov	w14, #5
.Lrekusoyen_0_1_0.elf.notes.walk_notes.22:
	mov	w8, #1
	movi	v0.2d, #0000000000000000
	strb	w14, [x0, #1]
	strb	w8, [x0]
	stur	q0, [x0, #8]
	stur	q0, [x0, #24]
	str	xzr, [x0, #40]
	ret
.Lrekusoyen_0_1_0.elf.notes.walk_notes.23:
	cmp	w11, #4
	b.lo	.Lrekusoyen_0_1_0.elf.notes.walk_notes.27
	add	x9, x13, #16
	mov	w14, #10
	subs	x10, x2, x9
	b.lo	.Lrekusoyen_0_1_0.elf.notes.walk_notes.22
	cmp	x10, #3
	b.ls	.Lrekusoyen_0_1_0.elf.notes.walk_notes.22
	ldr	w10, [x1, x9]
	add	x8, x8, #1
	strh	wzr, [x0]
	stp	x9, x11, [x0, #24]
	stp	xzr, x10, [x0, #8]
	str	x8, [x0, #40]
	ret
.Lrekusoyen_0_1_0.elf.notes.walk_notes.27:
	mov	w14, #11
	b	.Lrekusoyen_0_1_0.elf.notes.walk_notes.22
.Lrekusoyen_0_1_0.elf.notes.walk_notes.func_end:
	.size	rekusoyen_0_1_0.elf.notes.walk_notes, .Lrekusoyen_0_1_0.elf.notes.walk_notes.func_end-rekusoyen_0_1_0.elf.notes.walk_notes
	.section	.text.rekusoyen_0_1_0.arm64.plan.start,"ax",@progbits
	.p2align	2
	.type	rekusoyen_0_1_0.arm64.plan.start,@function
rekusoyen_0_1_0.arm64.plan.start:
	cmp	x1, #15
	b.ls	.Lrekusoyen_0_1_0.arm64.plan.start.3
	ldr	x8, [x0, #8]
.Lrekusoyen_0_1_0.arm64.plan.start.2:
	mvn	x9, x8
	add	x8, x8, x2
	cmp	x2, x9
	cset	w0, ls
	csel	x1, x8, xzr, ls
	ret
.Lrekusoyen_0_1_0.arm64.plan.start.3:
	subs	x8, x1, #8
	csel	x8, xzr, x8, lo
	cmp	x8, #7
	b.ne	.Lrekusoyen_0_1_0.arm64.plan.start.5
	ldrb	w8, [x0, #14]
	lsl	x8, x8, #8
	b	.Lrekusoyen_0_1_0.arm64.plan.start.7
.Lrekusoyen_0_1_0.arm64.plan.start.5:
	cmp	x8, #6
	b.lo	.Lrekusoyen_0_1_0.arm64.plan.start.14
	mov	x8, xzr
.Lrekusoyen_0_1_0.arm64.plan.start.7:
	ldrb	w9, [x0, #13]
	orr	x8, x8, x9
	lsl	x8, x8, #8
.Lrekusoyen_0_1_0.arm64.plan.start.8:
	ldrb	w9, [x0, #12]
	orr	x8, x8, x9
	lsl	x8, x8, #8
.Lrekusoyen_0_1_0.arm64.plan.start.9:
	ldrb	w9, [x0, #11]
	orr	x8, x8, x9
	lsl	x8, x8, #8
.Lrekusoyen_0_1_0.arm64.plan.start.10:
	ldrb	w9, [x0, #10]
	orr	x8, x8, x9
	lsl	x9, x8, #8
.Lrekusoyen_0_1_0.arm64.plan.start.11:
	ldrb	w8, [x0, #9]
	orr	x8, x9, x8
	lsl	x8, x8, #8
.Lrekusoyen_0_1_0.arm64.plan.start.12:
	cmp	x1, #9
	b.lo	.Lrekusoyen_0_1_0.arm64.plan.start.2
	ldrb	w9, [x0, #8]
	orr	x8, x8, x9
	mvn	x9, x8
	add	x8, x8, x2
	cmp	x2, x9
	cset	w0, ls
	csel	x1, x8, xzr, ls
	ret
.Lrekusoyen_0_1_0.arm64.plan.start.14:
	cmp	x8, #5
	b.ne	.Lrekusoyen_0_1_0.arm64.plan.start.16
	mov	x8, xzr
	b	.Lrekusoyen_0_1_0.arm64.plan.start.8
.Lrekusoyen_0_1_0.arm64.plan.start.16:
	cmp	x8, #4
	b.lo	.Lrekusoyen_0_1_0.arm64.plan.start.18
	mov	x8, xzr
	b	.Lrekusoyen_0_1_0.arm64.plan.start.9
.Lrekusoyen_0_1_0.arm64.plan.start.18:
	cmp	x8, #3
	b.ne	.Lrekusoyen_0_1_0.arm64.plan.start.20
	mov	x8, xzr
	b	.Lrekusoyen_0_1_0.arm64.plan.start.10
.Lrekusoyen_0_1_0.arm64.plan.start.20:
	mov	x9, xzr
	cmp	x8, #2
	mov	x8, xzr
	b.hs	.Lrekusoyen_0_1_0.arm64.plan.start.11
	b	.Lrekusoyen_0_1_0.arm64.plan.start.12
.Lrekusoyen_0_1_0.arm64.plan.start.func_end:
	.size	rekusoyen_0_1_0.arm64.plan.start, .Lrekusoyen_0_1_0.arm64.plan.start.func_end-rekusoyen_0_1_0.arm64.plan.start
	.section	.text.rekusoyen_0_1_0.loads.copying.copy_all,"ax",@progbits
	.p2align	2
	.type	rekusoyen_0_1_0.loads.copying.copy_all,@function
rekusoyen_0_1_0.loads.copying.copy_all:
	sub	sp, sp, #176
	ldrb	w8, [x4, #8]
	ldrb	w10, [x4]
	ldr	x9, [x4, #16]
	stp	x29, x30, [sp, #80]
	add	x29, sp, #80
	cmp	w8, #1
	stp	x28, x27, [sp, #96]
	csel	x11, x9, xzr, eq
	cmp	w10, #2
	stp	x26, x25, [sp, #112]
	stp	x24, x23, [sp, #128]
	stp	x22, x21, [sp, #144]
	stp	x20, x19, [sp, #160]
	stp	x11, x1, [x29, #-24]
	str	x0, [sp, #40]
	stur	x2, [x29, #-32]
	b.eq	.Lrekusoyen_0_1_0.loads.copying.copy_all.4
	cmp	w10, #1
	b.ne	.Lrekusoyen_0_1_0.loads.copying.copy_all.6
	cmp	x3, #535
	b.ls	.Lrekusoyen_0_1_0.loads.copying.copy_all.9
	ldr	w10, [x2, #532]
	b	.Lrekusoyen_0_1_0.loads.copying.copy_all.17
.Lrekusoyen_0_1_0.loads.copying.copy_all.4:
	cmp	x3, #15
	b.ls	.Lrekusoyen_0_1_0.loads.copying.copy_all.11
	ldr	x8, [x2, #8]
	b	.Lrekusoyen_0_1_0.loads.copying.copy_all.31
.Lrekusoyen_0_1_0.loads.copying.copy_all.6:
	cmp	x3, #39
	b.ls	.Lrekusoyen_0_1_0.loads.copying.copy_all.72
	ldur	x9, [x29, #-32]
	cmp	x3, #57
	ldr	x8, [x9, #32]
	b.ls	.Lrekusoyen_0_1_0.loads.copying.copy_all.50
	ldrh	w10, [x9, #56]
	cbnz	x10, .Lrekusoyen_0_1_0.loads.copying.copy_all.52
	b	.Lrekusoyen_0_1_0.loads.copying.copy_all.72
.Lrekusoyen_0_1_0.loads.copying.copy_all.9:
	subs	x10, x3, #532
	csel	x10, xzr, x10, lo
	cmp	x10, #3
	b.ne	.Lrekusoyen_0_1_0.loads.copying.copy_all.13
	ldrb	w10, [x2, #534]
	lsl	x11, x10, #8
	b	.Lrekusoyen_0_1_0.loads.copying.copy_all.14
.Lrekusoyen_0_1_0.loads.copying.copy_all.11:
	subs	x8, x3, #8
	csel	x8, xzr, x8, lo
	cmp	x8, #7
	b.ne	.Lrekusoyen_0_1_0.loads.copying.copy_all.22
	ldrb	w8, [x2, #14]
	lsl	x8, x8, #8
	b	.Lrekusoyen_0_1_0.loads.copying.copy_all.24
.Lrekusoyen_0_1_0.loads.copying.copy_all.13:
	mov	x11, xzr
	cmp	x10, #2
	mov	x10, xzr
	b.lo	.Lrekusoyen_0_1_0.loads.copying.copy_all.15
.Lrekusoyen_0_1_0.loads.copying.copy_all.14:
	ldrb	w10, [x2, #533]
	orr	x10, x11, x10
	lsl	x10, x10, #8
.Lrekusoyen_0_1_0.loads.copying.copy_all.15:
	cmp	x3, #533
	b.lo	.Lrekusoyen_0_1_0.loads.copying.copy_all.20
	ldrb	w11, [x2, #532]
	orr	x10, x10, x11
.Lrekusoyen_0_1_0.loads.copying.copy_all.17:
	cmp	w8, #1
	csel	x8, x9, x10, eq
.Lrekusoyen_0_1_0.loads.copying.copy_all.18:
	ldrb	w9, [x2, #497]
	mov	w11, #4
	mov	w12, #2560
	ubfiz	x10, x9, #9, #32
	cmp	w9, #0
	csel	w9, w11, w9, eq
	add	x10, x10, #512
	ubfiz	x9, x9, #9, #32
	csel	x11, x12, x10, eq
	cmp	x3, x11
	add	x10, x9, #512
	csel	x9, x3, x11, lo
.Lrekusoyen_0_1_0.loads.copying.copy_all.19:
	subs	x10, x3, x10
	csel	x10, xzr, x10, lo
	b	.Lrekusoyen_0_1_0.loads.copying.copy_all.32
.Lrekusoyen_0_1_0.loads.copying.copy_all.20:
	cmp	w8, #1
	csel	x8, x9, x10, eq
	cmp	x3, #498
	b.hs	.Lrekusoyen_0_1_0.loads.copying.copy_all.18
	mov	w10, #2560
	mov	x9, x3
	b	.Lrekusoyen_0_1_0.loads.copying.copy_all.19
.Lrekusoyen_0_1_0.loads.copying.copy_all.22:
	cmp	x8, #6
	b.lo	.Lrekusoyen_0_1_0.loads.copying.copy_all.73
	mov	x8, xzr
.Lrekusoyen_0_1_0.loads.copying.copy_all.24:
	ldrb	w9, [x2, #13]
	orr	x8, x8, x9
	lsl	x8, x8, #8
.Lrekusoyen_0_1_0.loads.copying.copy_all.25:
	ldrb	w9, [x2, #12]
	orr	x8, x8, x9
	lsl	x8, x8, #8
.Lrekusoyen_0_1_0.loads.copying.copy_all.26:
	ldrb	w9, [x2, #11]
	orr	x8, x8, x9
	lsl	x8, x8, #8
.Lrekusoyen_0_1_0.loads.copying.copy_all.27:
	ldrb	w9, [x2, #10]
	orr	x8, x8, x9
	lsl	x9, x8, #8
.Lrekusoyen_0_1_0.loads.copying.copy_all.28:
	ldrb	w8, [x2, #9]
	orr	x8, x9, x8
	lsl	x8, x8, #8
.Lrekusoyen_0_1_0.loads.copying.copy_all.29:
	cmp	x3, #9
	b.lo	.Lrekusoyen_0_1_0.loads.copying.copy_all.31
	ldrb	w9, [x2, #8]
	orr	x8, x8, x9
.Lrekusoyen_0_1_0.loads.copying.copy_all.31:
	ldur	x10, [x29, #-24]
	mov	x9, xzr
	adds	x8, x8, x10
	csel	x8, xzr, x8, hs
	csel	x10, xzr, x3, hs
.Lrekusoyen_0_1_0.loads.copying.copy_all.32:
	ldur	x12, [x29, #-16]
	sub	x11, x3, x9
	cmp	x12, x8
	csel	x8, x12, x8, lo
	cmp	x11, x10
	csel	x10, x11, x10, lo
	sub	x11, x12, x8
	cmp	x11, x10
	csel	x20, x11, x10, lo
	cbz	x20, .Lrekusoyen_0_1_0.loads.copying.copy_all.72
	ldr	x11, [sp, #40]
	ldur	x10, [x29, #-32]
	mov	x21, xzr
	add	x24, x8, x11
	add	x25, x9, x10
	add	x22, x11, x8
	add	x23, x10, x9
	sub	x26, x24, x25
	add	x27, x24, #16
	add	x28, x25, #16
	b	.Lrekusoyen_0_1_0.loads.copying.copy_all.36
.Lrekusoyen_0_1_0.loads.copying.copy_all.34:
	add	x0, x22, x21
	add	x1, x23, x21
	mov	x2, x19
	bl	memmove
.Lrekusoyen_0_1_0.loads.copying.copy_all.35:
	add	x21, x19, x21
	cmp	x21, x20
	b.hs	.Lrekusoyen_0_1_0.loads.copying.copy_all.72
.Lrekusoyen_0_1_0.loads.copying.copy_all.36:
	sub	x9, x20, x21
	mov	w8, #2048
	add	x10, x22, x21
	cmp	x9, #2048
	add	x11, x23, x21
	csel	x19, x9, x8, lo
	sub	x8, x10, x11
	cmp	x8, x19
	b.hs	.Lrekusoyen_0_1_0.loads.copying.copy_all.34
	cmp	x9, #8
	mov	x8, xzr
	b.lo	.Lrekusoyen_0_1_0.loads.copying.copy_all.48
	cmp	x26, #32
	b.lo	.Lrekusoyen_0_1_0.loads.copying.copy_all.48
	cmp	x9, #32
	b.hs	.Lrekusoyen_0_1_0.loads.copying.copy_all.41
	mov	x8, xzr
	b	.Lrekusoyen_0_1_0.loads.copying.copy_all.45
.Lrekusoyen_0_1_0.loads.copying.copy_all.41:
	and	x9, x19, #0x18
	and	x8, x19, #0xfe0
	add	x10, x27, x21
	add	x11, x28, x21
	and	x12, x19, #0xfe0
.Lrekusoyen_0_1_0.loads.copying.copy_all.42:
	ldp	q0, q1, [x11, #-16]
	subs	x12, x12, #32
	add	x11, x11, #32
	stp	q0, q1, [x10, #-16]
	add	x10, x10, #32
	b.ne	.Lrekusoyen_0_1_0.loads.copying.copy_all.42
	cmp	x19, x8
	b.eq	.Lrekusoyen_0_1_0.loads.copying.copy_all.35
	cbz	x9, .Lrekusoyen_0_1_0.loads.copying.copy_all.48
.Lrekusoyen_0_1_0.loads.copying.copy_all.45:
	mov	x9, x8
	and	x8, x19, #0xff8
	add	x11, x9, x21
	sub	x9, x9, x8
	add	x10, x25, x11
	add	x11, x24, x11
.Lrekusoyen_0_1_0.loads.copying.copy_all.46:
	ldr	d0, [x10], #8
	adds	x9, x9, #8
	str	d0, [x11], #8
	b.ne	.Lrekusoyen_0_1_0.loads.copying.copy_all.46
	cmp	x19, x8
	b.eq	.Lrekusoyen_0_1_0.loads.copying.copy_all.35
.Lrekusoyen_0_1_0.loads.copying.copy_all.48:
	add	x10, x8, x21
	sub	x8, x8, x19
	add	x9, x25, x10
	add	x10, x24, x10
.Lrekusoyen_0_1_0.loads.copying.copy_all.49:
	ldrb	w11, [x9], #1
	adds	x8, x8, #1
	strb	w11, [x10], #1
	b.lo	.Lrekusoyen_0_1_0.loads.copying.copy_all.49
	b	.Lrekusoyen_0_1_0.loads.copying.copy_all.35
.Lrekusoyen_0_1_0.loads.copying.copy_all.50:
	b.ne	.Lrekusoyen_0_1_0.loads.copying.copy_all.72
	ldur	x9, [x29, #-32]
	ldrb	w10, [x9, #56]
	cbz	x10, .Lrekusoyen_0_1_0.loads.copying.copy_all.72
.Lrekusoyen_0_1_0.loads.copying.copy_all.52:
	ldur	x9, [x29, #-32]
	mov	x26, xzr
	str	x3, [sp, #32]
	add	x8, x9, x8
	stp	x8, x10, [sp, #16]
	ldr	x8, [sp, #40]
	add	x8, x8, #16
	str	x8, [sp, #8]
	add	x8, x9, #16
	str	x8, [sp]
	b	.Lrekusoyen_0_1_0.loads.copying.copy_all.54
.Lrekusoyen_0_1_0.loads.copying.copy_all.53:
	ldp	x10, x3, [sp, #24]
	add	x26, x26, #1
	cmp	x26, x10
	b.eq	.Lrekusoyen_0_1_0.loads.copying.copy_all.72
.Lrekusoyen_0_1_0.loads.copying.copy_all.54:
	mov	w8, #56
	ldr	x9, [sp, #16]
	madd	x8, x26, x8, x9
	ldr	w9, [x8]
	ldp	x10, x12, [x8, #24]
	ldr	x11, [x8, #8]
	cmp	w9, #1
	ldp	x9, x13, [x29, #-24]
	cset	w8, ne
	adds	x9, x10, x9
	cset	w10, hs
	cmp	x13, x9
	orr	w8, w8, w10
	csel	x9, x13, x9, lo
	cmp	x3, x11
	csel	x10, x3, x11, lo
	ands	w11, w8, #0x1
	csel	x8, xzr, x10, ne
	csel	x9, xzr, x9, ne
	sub	x10, x3, x8
	cmp	x10, x12
	csel	x10, x10, x12, lo
	sub	x12, x13, x9
	cmp	x12, x10
	csel	x28, x12, x10, lo
	cmp	w11, #0
	ccmp	x28, #0, #4, eq
	b.eq	.Lrekusoyen_0_1_0.loads.copying.copy_all.53
	ldur	x10, [x29, #-32]
	ldr	x11, [sp, #40]
	mov	x21, xzr
	add	x27, x10, x8
	add	x19, x8, x10
	ldr	x10, [sp, #8]
	add	x24, x11, x9
	add	x25, x9, x11
	add	x9, x10, x9
	sub	x20, x25, x19
	stur	x9, [x29, #-8]
	ldr	x9, [sp]
	add	x22, x9, x8
	b	.Lrekusoyen_0_1_0.loads.copying.copy_all.58
.Lrekusoyen_0_1_0.loads.copying.copy_all.56:
	add	x0, x24, x21
	add	x1, x27, x21
	mov	x2, x23
	bl	memmove
.Lrekusoyen_0_1_0.loads.copying.copy_all.57:
	add	x21, x23, x21
	cmp	x21, x28
	b.hs	.Lrekusoyen_0_1_0.loads.copying.copy_all.53
.Lrekusoyen_0_1_0.loads.copying.copy_all.58:
	sub	x9, x28, x21
	mov	w8, #2048
	add	x10, x24, x21
	cmp	x9, #2048
	add	x11, x27, x21
	csel	x23, x9, x8, lo
	sub	x8, x10, x11
	cmp	x8, x23
	b.hs	.Lrekusoyen_0_1_0.loads.copying.copy_all.56
	cmp	x9, #8
	mov	x8, xzr
	b.lo	.Lrekusoyen_0_1_0.loads.copying.copy_all.70
	cmp	x20, #32
	b.lo	.Lrekusoyen_0_1_0.loads.copying.copy_all.70
	cmp	x9, #32
	b.hs	.Lrekusoyen_0_1_0.loads.copying.copy_all.63
	mov	x8, xzr
	b	.Lrekusoyen_0_1_0.loads.copying.copy_all.67
.Lrekusoyen_0_1_0.loads.copying.copy_all.63:
	ldur	x10, [x29, #-8]
	and	x9, x23, #0x18
	and	x8, x23, #0xfe0
	add	x11, x22, x21
	and	x12, x23, #0xfe0
	add	x10, x10, x21
.Lrekusoyen_0_1_0.loads.copying.copy_all.64:
	ldp	q0, q1, [x11, #-16]
	subs	x12, x12, #32
	add	x11, x11, #32
	stp	q0, q1, [x10, #-16]
	add	x10, x10, #32
	b.ne	.Lrekusoyen_0_1_0.loads.copying.copy_all.64
	cmp	x23, x8
	b.eq	.Lrekusoyen_0_1_0.loads.copying.copy_all.57
	cbz	x9, .Lrekusoyen_0_1_0.loads.copying.copy_all.70
.Lrekusoyen_0_1_0.loads.copying.copy_all.67:
	mov	x9, x8
	and	x8, x23, #0xff8
	add	x11, x9, x21
	sub	x9, x9, x8
	add	x10, x19, x11
	add	x11, x25, x11
.Lrekusoyen_0_1_0.loads.copying.copy_all.68:
	ldr	d0, [x10], #8
	adds	x9, x9, #8
	str	d0, [x11], #8
	b.ne	.Lrekusoyen_0_1_0.loads.copying.copy_all.68
	cmp	x23, x8
	b.eq	.Lrekusoyen_0_1_0.loads.copying.copy_all.57
.Lrekusoyen_0_1_0.loads.copying.copy_all.70:
	add	x10, x8, x21
	sub	x8, x8, x23
	add	x9, x19, x10
	add	x10, x25, x10
.Lrekusoyen_0_1_0.loads.copying.copy_all.71:
	ldrb	w11, [x9], #1
	adds	x8, x8, #1
	strb	w11, [x10], #1
	b.lo	.Lrekusoyen_0_1_0.loads.copying.copy_all.71
	b	.Lrekusoyen_0_1_0.loads.copying.copy_all.57
.Lrekusoyen_0_1_0.loads.copying.copy_all.72:
	ldp	x20, x19, [sp, #160]
	ldp	x22, x21, [sp, #144]
	ldp	x24, x23, [sp, #128]
	ldp	x26, x25, [sp, #112]
	ldp	x28, x27, [sp, #96]
	ldp	x29, x30, [sp, #80]
	add	sp, sp, #176
	ret
.Lrekusoyen_0_1_0.loads.copying.copy_all.73:
	cmp	x8, #5
	b.ne	.Lrekusoyen_0_1_0.loads.copying.copy_all.75
	mov	x8, xzr
	b	.Lrekusoyen_0_1_0.loads.copying.copy_all.25
.Lrekusoyen_0_1_0.loads.copying.copy_all.75:
	cmp	x8, #4
	b.lo	.Lrekusoyen_0_1_0.loads.copying.copy_all.77
	mov	x8, xzr
	b	.Lrekusoyen_0_1_0.loads.copying.copy_all.26
.Lrekusoyen_0_1_0.loads.copying.copy_all.77:
	cmp	x8, #3
	b.ne	.Lrekusoyen_0_1_0.loads.copying.copy_all.79
	mov	x8, xzr
	b	.Lrekusoyen_0_1_0.loads.copying.copy_all.27
.Lrekusoyen_0_1_0.loads.copying.copy_all.79:
	mov	x9, xzr
	cmp	x8, #2
	mov	x8, xzr
	b.hs	.Lrekusoyen_0_1_0.loads.copying.copy_all.28
	b	.Lrekusoyen_0_1_0.loads.copying.copy_all.29
.Lrekusoyen_0_1_0.loads.copying.copy_all.func_end:
	.size	rekusoyen_0_1_0.loads.copying.copy_all, .Lrekusoyen_0_1_0.loads.copying.copy_all.func_end-rekusoyen_0_1_0.loads.copying.copy_all
	.section	.rodata.cst16,"aM",@progbits,16
	.p2align	4, 0x0
.Lrekusoyen_0_1_0.slugs.splitting.split_at.CPI0:
	.byte	1
	.byte	2
	.byte	4
	.byte	8
	.byte	16
	.byte	32
	.byte	64
	.byte	128
	.byte	1
	.byte	2
	.byte	4
	.byte	8
	.byte	16
	.byte	32
	.byte	64
	.byte	128
	.section	.text.rekusoyen_0_1_0.slugs.splitting.split_at,"ax",@progbits
	.p2align	2
	.type	rekusoyen_0_1_0.slugs.splitting.split_at,@function
rekusoyen_0_1_0.slugs.splitting.split_at:
	cbz	x1, .Lrekusoyen_0_1_0.slugs.splitting.split_at.14
	mov	x8, x0
	mov	x0, xzr
	subs	x9, x1, #65
	b.hs	.Lrekusoyen_0_1_0.slugs.splitting.split_at.15
	mov	w9, #1
	b	.Lrekusoyen_0_1_0.slugs.splitting.split_at.5
.Lrekusoyen_0_1_0.slugs.splitting.split_at.3:
	ldrb	w10, [x8, x0]
.Lrekusoyen_0_1_0.slugs.splitting.split_at.4:
	cmp	w10, #34
	add	x0, x0, #1
	cset	w10, eq
	cmp	x1, x0
	eor	w9, w9, w10
	b.eq	.Lrekusoyen_0_1_0.slugs.splitting.split_at.33
.Lrekusoyen_0_1_0.slugs.splitting.split_at.5:
	tbz	w9, #0, .Lrekusoyen_0_1_0.slugs.splitting.split_at.3
	subs	x10, x1, x0
	csel	x11, xzr, x10, lo
	ldrb	w10, [x8, x0]
	cmp	x11, #2
	b.lo	.Lrekusoyen_0_1_0.slugs.splitting.split_at.4
	cmp	w10, #32
	b.ne	.Lrekusoyen_0_1_0.slugs.splitting.split_at.4
	cmp	x11, #3
	b.lo	.Lrekusoyen_0_1_0.slugs.splitting.split_at.4
	add	x12, x8, x0
	ldrb	w12, [x12, #1]
	cmp	w12, #45
	b.ne	.Lrekusoyen_0_1_0.slugs.splitting.split_at.4
	cmp	x11, #4
	mov	w10, #32
	b.lo	.Lrekusoyen_0_1_0.slugs.splitting.split_at.4
	add	x11, x8, x0
	ldrb	w11, [x11, #2]
	cmp	w11, #45
	b.ne	.Lrekusoyen_0_1_0.slugs.splitting.split_at.4
	add	x10, x8, x0
	ldrb	w10, [x10, #3]
	cmp	w10, #32
	b.eq	.Lrekusoyen_0_1_0.slugs.splitting.split_at.32
	mov	w10, #32
	b	.Lrekusoyen_0_1_0.slugs.splitting.split_at.4
.Lrekusoyen_0_1_0.slugs.splitting.split_at.14:
	mov	x0, xzr
	ret
.Lrekusoyen_0_1_0.slugs.splitting.split_at.15:
	mov	w10, #1
	b	.Lrekusoyen_0_1_0.slugs.splitting.split_at.18
.Lrekusoyen_0_1_0.slugs.splitting.split_at.16:
	movi	v5.16b, #45
	cmeq	v4.16b, v4.16b, v5.16b
	cmeq	v3.16b, v3.16b, v5.16b
	cmeq	v2.16b, v2.16b, v5.16b
	cmeq	v1.16b, v1.16b, v5.16b
	and	v4.16b, v4.16b, v0.16b
	and	v3.16b, v3.16b, v0.16b
	and	v2.16b, v2.16b, v0.16b
	and	v0.16b, v1.16b, v0.16b
	ext	v1.16b, v4.16b, v4.16b, #8
	ext	v5.16b, v3.16b, v3.16b, #8
	ext	v6.16b, v2.16b, v2.16b, #8
	ext	v7.16b, v0.16b, v0.16b, #8
	zip1	v1.16b, v4.16b, v1.16b
	zip1	v3.16b, v3.16b, v5.16b
	zip1	v2.16b, v2.16b, v6.16b
	zip1	v0.16b, v0.16b, v7.16b
	addv	h1, v1.8h
	addv	h3, v3.8h
	addv	h2, v2.8h
	addv	h0, v0.8h
	fmov	w12, s1
	fmov	w13, s3
	fmov	w14, s2
	fmov	w15, s0
	orr	w12, w12, w13
	orr	w13, w14, w15
	orr	w12, w12, w13
	tst	w12, #0xffff
	mov	w12, #64
	csinc	x12, x12, xzr, eq
.Lrekusoyen_0_1_0.slugs.splitting.split_at.17:
	add	x0, x12, x0
	eor	w10, w10, w11
	cmp	x0, x1
	b.hs	.Lrekusoyen_0_1_0.slugs.splitting.split_at.32
.Lrekusoyen_0_1_0.slugs.splitting.split_at.18:
	tbz	w10, #0, .Lrekusoyen_0_1_0.slugs.splitting.split_at.27
	subs	x11, x1, x0
	add	x12, x8, x0
	csel	x13, xzr, x11, lo
	ldrb	w11, [x12]
	cmp	x13, #2
	b.lo	.Lrekusoyen_0_1_0.slugs.splitting.split_at.28
	cmp	w11, #32
	b.ne	.Lrekusoyen_0_1_0.slugs.splitting.split_at.28
	cmp	x13, #3
	b.lo	.Lrekusoyen_0_1_0.slugs.splitting.split_at.28
	ldrb	w14, [x12, #1]
	cmp	w14, #45
	b.ne	.Lrekusoyen_0_1_0.slugs.splitting.split_at.28
	cmp	x13, #4
	mov	w11, #32
	b.lo	.Lrekusoyen_0_1_0.slugs.splitting.split_at.28
	ldrb	w13, [x12, #2]
	cmp	w13, #45
	b.ne	.Lrekusoyen_0_1_0.slugs.splitting.split_at.28
	ldrb	w11, [x12, #3]
	cmp	w11, #32
	b.eq	.Lrekusoyen_0_1_0.slugs.splitting.split_at.32
	mov	w11, #32
	b	.Lrekusoyen_0_1_0.slugs.splitting.split_at.28
.Lrekusoyen_0_1_0.slugs.splitting.split_at.27:
	ldrb	w11, [x8, x0]
.Lrekusoyen_0_1_0.slugs.splitting.split_at.28:
	cmp	w11, #34
	mov	w12, #1
	cset	w11, eq
	cmp	x9, x0
	b.lo	.Lrekusoyen_0_1_0.slugs.splitting.split_at.17
	and	x13, x0, #0x3f
	cbnz	x13, .Lrekusoyen_0_1_0.slugs.splitting.split_at.17
	movi	v5.16b, #34
	add	x12, x8, x0
	adrp	x13, .Lrekusoyen_0_1_0.slugs.splitting.split_at.CPI0
	ldur	q3, [x12, #33]
	ldur	q2, [x12, #17]
	ldur	q1, [x12, #49]
	ldur	q4, [x12, #1]
	ldr	q0, [x13, :lo12:.Lrekusoyen_0_1_0.slugs.splitting.split_at.CPI0]
	cmeq	v6.16b, v3.16b, v5.16b
	cmeq	v7.16b, v4.16b, v5.16b
	cmeq	v16.16b, v1.16b, v5.16b
	cmeq	v5.16b, v2.16b, v5.16b
	and	v6.16b, v6.16b, v0.16b
	and	v7.16b, v7.16b, v0.16b
	and	v16.16b, v16.16b, v0.16b
	and	v5.16b, v5.16b, v0.16b
	ext	v17.16b, v6.16b, v6.16b, #8
	ext	v18.16b, v7.16b, v7.16b, #8
	ext	v19.16b, v16.16b, v16.16b, #8
	ext	v20.16b, v5.16b, v5.16b, #8
	zip1	v6.16b, v6.16b, v17.16b
	zip1	v7.16b, v7.16b, v18.16b
	zip1	v16.16b, v16.16b, v19.16b
	zip1	v5.16b, v5.16b, v20.16b
	addv	h6, v6.8h
	addv	h7, v7.8h
	addv	h16, v16.8h
	addv	h5, v5.8h
	fmov	w12, s6
	fmov	w13, s7
	fmov	w14, s16
	fmov	w15, s5
	orr	w12, w13, w12
	orr	w13, w15, w14
	orr	w12, w12, w13
	tst	w12, #0xffff
	b.eq	.Lrekusoyen_0_1_0.slugs.splitting.split_at.16
	mov	w12, #1
	b	.Lrekusoyen_0_1_0.slugs.splitting.split_at.17
.Lrekusoyen_0_1_0.slugs.splitting.split_at.32:
	ret
.Lrekusoyen_0_1_0.slugs.splitting.split_at.33:
	mov	x0, x1
	ret
.Lrekusoyen_0_1_0.slugs.splitting.split_at.func_end:
	.size	rekusoyen_0_1_0.slugs.splitting.split_at, .Lrekusoyen_0_1_0.slugs.splitting.split_at.func_end-rekusoyen_0_1_0.slugs.splitting.split_at
	.section	.text.rekusoyen_0_1_0.loader.plan_texts,"ax",@progbits
	.p2align	2
	.type	rekusoyen_0_1_0.loader.plan_texts,@function
rekusoyen_0_1_0.loader.plan_texts:
	stp	x29, x30, [sp, #-80]!
	stp	x22, x21, [sp, #48]
	ldr	x22, [x0]
	mov	x8, #1099511627776
	str	x25, [sp, #16]
	mov	x29, sp
	cmp	x22, x8
	stp	x24, x23, [sp, #32]
	stp	x20, x19, [sp, #64]
	b.hi	.Lrekusoyen_0_1_0.loader.plan_texts.4
	ldr	x21, [x0, #8]
	cmp	x21, #16
	b.ls	.Lrekusoyen_0_1_0.loader.plan_texts.5
.Lrekusoyen_0_1_0.loader.plan_texts.2:
	mov	w0, #1
	mov	w1, #43
.Lrekusoyen_0_1_0.loader.plan_texts.3:
	ldp	x20, x19, [sp, #64]
	ldr	x25, [sp, #16]
	ldp	x22, x21, [sp, #48]
	ldp	x24, x23, [sp, #32]
	ldp	x29, x30, [sp], #80
	ret
.Lrekusoyen_0_1_0.loader.plan_texts.4:
	mov	w0, #1
	mov	w1, #31
	ldp	x20, x19, [sp, #64]
	ldr	x25, [sp, #16]
	ldp	x22, x21, [sp, #48]
	ldp	x24, x23, [sp, #32]
	ldp	x29, x30, [sp], #80
	ret
.Lrekusoyen_0_1_0.loader.plan_texts.5:
	mov	x8, x1
	cbz	x21, .Lrekusoyen_0_1_0.loader.plan_texts.16
	ldr	x11, [x0, #144]
	cbz	x11, .Lrekusoyen_0_1_0.loader.plan_texts.2
	ldr	x12, [x0, #16]
	mov	x9, x0
	mov	w0, #1
	mov	w1, #43
	subs	x10, x22, x12
	b.lo	.Lrekusoyen_0_1_0.loader.plan_texts.3
	cmp	x11, x10
	b.hi	.Lrekusoyen_0_1_0.loader.plan_texts.3
	subs	x10, x21, #1
	mov	x0, x9
	b.eq	.Lrekusoyen_0_1_0.loader.plan_texts.16
	add	x13, x11, x12
	add	x11, x0, #152
.Lrekusoyen_0_1_0.loader.plan_texts.11:
	ldur	x12, [x11, #-128]
	mov	w0, #1
	mov	w1, #43
	cmp	x13, x12
	b.hs	.Lrekusoyen_0_1_0.loader.plan_texts.3
	ldr	x13, [x11], #8
	cbz	x13, .Lrekusoyen_0_1_0.loader.plan_texts.3
	subs	x14, x22, x12
	b.lo	.Lrekusoyen_0_1_0.loader.plan_texts.3
	cmp	x13, x14
	b.hi	.Lrekusoyen_0_1_0.loader.plan_texts.3
	subs	x10, x10, #1
	add	x13, x13, x12
	mov	x0, x9
	b.ne	.Lrekusoyen_0_1_0.loader.plan_texts.11
.Lrekusoyen_0_1_0.loader.plan_texts.16:
	cbnz	x3, .Lrekusoyen_0_1_0.loader.plan_texts.18
	cbnz	x5, .Lrekusoyen_0_1_0.loader.plan_texts.20
.Lrekusoyen_0_1_0.loader.plan_texts.18:
	mov	x23, x0
	mov	x0, x2
	mov	x1, x3
	mov	w2, wzr
	mov	x20, x4
	mov	x19, x5
	mov	x24, x8
	mov	x25, x3
	bl	rekusoyen_0_1_0.slugs.bytes.has
	tbnz	w0, #0, .Lrekusoyen_0_1_0.loader.plan_texts.20
	mov	x0, x20
	mov	x1, x19
	mov	w2, wzr
	bl	rekusoyen_0_1_0.slugs.bytes.has
	tbz	w0, #0, .Lrekusoyen_0_1_0.loader.plan_texts.21
.Lrekusoyen_0_1_0.loader.plan_texts.20:
	mov	w0, #1
	mov	w1, #18
	ldp	x20, x19, [sp, #64]
	ldr	x25, [sp, #16]
	ldp	x22, x21, [sp, #48]
	ldp	x24, x23, [sp, #32]
	ldp	x29, x30, [sp], #80
	ret
.Lrekusoyen_0_1_0.loader.plan_texts.21:
	mov	x9, x25
	cbz	x19, .Lrekusoyen_0_1_0.loader.plan_texts.25
	cmp	x22, x9
	b.ls	.Lrekusoyen_0_1_0.loader.plan_texts.25
	mvn	x8, x9
	mov	w0, #1
	mov	w1, #19
	add	x8, x22, x8
	subs	x11, x8, #4
	b.lo	.Lrekusoyen_0_1_0.loader.plan_texts.3
	mov	x8, x24
	mov	x10, x23
	cmp	x19, x11
	b.ls	.Lrekusoyen_0_1_0.loader.plan_texts.27
	b	.Lrekusoyen_0_1_0.loader.plan_texts.3
.Lrekusoyen_0_1_0.loader.plan_texts.25:
	mov	w0, #1
	mov	w1, #19
	cbnz	x19, .Lrekusoyen_0_1_0.loader.plan_texts.3
	mov	x8, x24
	mov	x10, x23
	cmp	x22, x9
	b.ls	.Lrekusoyen_0_1_0.loader.plan_texts.3
.Lrekusoyen_0_1_0.loader.plan_texts.27:
	adds	x11, x9, #5
	csinv	x11, x11, xzr, lo
	adds	x11, x19, x11
	csinv	x11, x11, xzr, lo
	cmp	x19, #0
	csinc	x9, x11, x9, ne
	subs	x11, x22, x8
	b.lo	.Lrekusoyen_0_1_0.loader.plan_texts.3
	cmp	x9, x11
	b.hi	.Lrekusoyen_0_1_0.loader.plan_texts.3
	cmp	x21, #16
	mov	w11, #16
	csel	x11, x21, x11, lo
	cbz	x21, .Lrekusoyen_0_1_0.loader.plan_texts.3
	add	x10, x10, #144
	b	.Lrekusoyen_0_1_0.loader.plan_texts.32
.Lrekusoyen_0_1_0.loader.plan_texts.31:
	subs	x11, x11, #1
	add	x10, x10, #8
	mov	w0, #1
	mov	w1, #19
	b.eq	.Lrekusoyen_0_1_0.loader.plan_texts.3
.Lrekusoyen_0_1_0.loader.plan_texts.32:
	ldur	x12, [x10, #-128]
	subs	x12, x8, x12
	b.lo	.Lrekusoyen_0_1_0.loader.plan_texts.31
	ldr	x13, [x10]
	subs	x12, x13, x12
	b.lo	.Lrekusoyen_0_1_0.loader.plan_texts.31
	cmp	x9, x12
	b.hi	.Lrekusoyen_0_1_0.loader.plan_texts.31
	mov	w1, wzr
	mov	w0, wzr
	ldp	x20, x19, [sp, #64]
	ldr	x25, [sp, #16]
	ldp	x22, x21, [sp, #48]
	ldp	x24, x23, [sp, #32]
	ldp	x29, x30, [sp], #80
	ret
.Lrekusoyen_0_1_0.loader.plan_texts.func_end:
	.size	rekusoyen_0_1_0.loader.plan_texts, .Lrekusoyen_0_1_0.loader.plan_texts.func_end-rekusoyen_0_1_0.loader.plan_texts
	.section	.rodata.cst16,"aM",@progbits,16
	.p2align	4, 0x0
.Lrekusoyen_0_1_0.slugs.bytes.has.CPI0:
	.byte	1
	.byte	2
	.byte	4
	.byte	8
	.byte	16
	.byte	32
	.byte	64
	.byte	128
	.byte	1
	.byte	2
	.byte	4
	.byte	8
	.byte	16
	.byte	32
	.byte	64
	.byte	128
	.section	.text.rekusoyen_0_1_0.slugs.bytes.has,"ax",@progbits
	.p2align	2
	.type	rekusoyen_0_1_0.slugs.bytes.has,@function
rekusoyen_0_1_0.slugs.bytes.has:
	cmp	x1, #3
	b.hi	.Lrekusoyen_0_1_0.slugs.bytes.has.3
	cbz	x1, .Lrekusoyen_0_1_0.slugs.bytes.has.7
	lsr	x8, x1, #1
	ldrb	w9, [x0]
	and	w10, w2, #0xff
	add	x11, x0, x1
	ldrb	w8, [x0, x8]
	cmp	w9, w10
	ldurb	w9, [x11, #-1]
	ccmp	w8, w10, #4, ne
	ccmp	w9, w10, #4, ne
	cset	w0, eq
	ret
.Lrekusoyen_0_1_0.slugs.bytes.has.3:
	subs	x8, x1, #8
	b.hi	.Lrekusoyen_0_1_0.slugs.bytes.has.5
	add	x8, x0, x1
	ldr	s0, [x0]
	dup	v1.8b, w2
	sub	x8, x8, #4
	ld1	{ v0.s }[1], [x8]
	cmeq	v0.8b, v0.8b, v1.8b
	umaxv	b0, v0.8b
	fmov	w8, s0
	and	w0, w8, #0x1
	ret
.Lrekusoyen_0_1_0.slugs.bytes.has.5:
	cmp	x1, #32
	b.hi	.Lrekusoyen_0_1_0.slugs.bytes.has.8
	cmp	x8, #8
	mov	w9, #8
	mov	w10, #16
	csel	x9, x8, x9, lo
	cmp	x8, #16
	ldr	d0, [x0]
	csel	x10, x8, x10, lo
	ldr	d1, [x0, x9]
	ldr	d3, [x0, x8]
	ldr	d2, [x0, x10]
	mov	v0.d[1], v1.d[0]
	dup	v1.16b, w2
	mov	v2.d[1], v3.d[0]
	cmeq	v0.16b, v0.16b, v1.16b
	cmeq	v2.16b, v2.16b, v1.16b
	orr	v0.16b, v0.16b, v2.16b
	umaxv	b0, v0.16b
	fmov	w8, s0
	and	w0, w8, #0x1
	ret
.Lrekusoyen_0_1_0.slugs.bytes.has.7:
	mov	w0, wzr
	ret
.Lrekusoyen_0_1_0.slugs.bytes.has.8:
	cmp	x1, #64
	b.hi	.Lrekusoyen_0_1_0.slugs.bytes.has.10
	add	x8, x0, x1
	dup	v0.16b, w2
	ldp	q1, q2, [x0]
	ldp	q4, q3, [x8, #-32]
	cmeq	v1.16b, v1.16b, v0.16b
	cmeq	v2.16b, v2.16b, v0.16b
	cmeq	v4.16b, v4.16b, v0.16b
	cmeq	v0.16b, v3.16b, v0.16b
	orr	v0.16b, v2.16b, v0.16b
	orr	v1.16b, v1.16b, v4.16b
	orr	v0.16b, v1.16b, v0.16b
	umaxv	b0, v0.16b
	fmov	w8, s0
	and	w0, w8, #0x1
	ret
.Lrekusoyen_0_1_0.slugs.bytes.has.10:
	dup	v0.16b, w2
	mov	x8, xzr
	mov	x9, x1
.Lrekusoyen_0_1_0.slugs.bytes.has.11:
	add	x10, x0, x8
	adrp	x11, .Lrekusoyen_0_1_0.slugs.bytes.has.CPI0
	ldp	q3, q2, [x10, #32]
	ldr	q1, [x11, :lo12:.Lrekusoyen_0_1_0.slugs.bytes.has.CPI0]
	ldp	q5, q4, [x10]
	cmeq	v3.16b, v3.16b, v0.16b
	cmeq	v2.16b, v2.16b, v0.16b
	cmeq	v5.16b, v5.16b, v0.16b
	cmeq	v4.16b, v4.16b, v0.16b
	and	v3.16b, v3.16b, v1.16b
	and	v2.16b, v2.16b, v1.16b
	and	v5.16b, v5.16b, v1.16b
	and	v4.16b, v4.16b, v1.16b
	ext	v6.16b, v3.16b, v3.16b, #8
	ext	v17.16b, v2.16b, v2.16b, #8
	ext	v7.16b, v5.16b, v5.16b, #8
	ext	v16.16b, v4.16b, v4.16b, #8
	zip1	v3.16b, v3.16b, v6.16b
	zip1	v2.16b, v2.16b, v17.16b
	zip1	v5.16b, v5.16b, v7.16b
	zip1	v4.16b, v4.16b, v16.16b
	addv	h3, v3.8h
	addv	h2, v2.8h
	addv	h5, v5.8h
	addv	h4, v4.8h
	fmov	w10, s3
	fmov	w13, s2
	fmov	w11, s5
	fmov	w12, s4
	orr	w10, w11, w10
	orr	w11, w12, w13
	orr	w10, w10, w11
	tst	w10, #0xffff
	b.ne	.Lrekusoyen_0_1_0.slugs.bytes.has.14
	sub	x9, x9, #64
	add	x8, x8, #64
	cmp	x9, #63
	b.hi	.Lrekusoyen_0_1_0.slugs.bytes.has.11
	and	x8, x1, #0xffffffffffffffc0
.Lrekusoyen_0_1_0.slugs.bytes.has.14:
	sub	x9, x1, x8
	cmp	x9, #32
	b.lo	.Lrekusoyen_0_1_0.slugs.bytes.has.20
	add	x8, x0, x8
.Lrekusoyen_0_1_0.slugs.bytes.has.16:
	ldp	q2, q3, [x8], #32
	cmeq	v3.16b, v3.16b, v0.16b
	cmeq	v2.16b, v2.16b, v0.16b
	and	v3.16b, v3.16b, v1.16b
	and	v2.16b, v2.16b, v1.16b
	ext	v4.16b, v3.16b, v3.16b, #8
	ext	v5.16b, v2.16b, v2.16b, #8
	zip1	v3.16b, v3.16b, v4.16b
	zip1	v2.16b, v2.16b, v5.16b
	addv	h3, v3.8h
	addv	h2, v2.8h
	fmov	w10, s3
	fmov	w11, s2
	orr	w10, w11, w10
	tst	w10, #0xffff
	b.ne	.Lrekusoyen_0_1_0.slugs.bytes.has.18
	sub	x9, x9, #32
	cmp	x9, #32
	b.hs	.Lrekusoyen_0_1_0.slugs.bytes.has.16
	b	.Lrekusoyen_0_1_0.slugs.bytes.has.20
.Lrekusoyen_0_1_0.slugs.bytes.has.18:
	cmp	x9, #31
	b.ls	.Lrekusoyen_0_1_0.slugs.bytes.has.20
	mov	w0, #1
	ret
.Lrekusoyen_0_1_0.slugs.bytes.has.20:
	add	x8, x0, x1
	ldp	q1, q2, [x8, #-32]
	cmeq	v2.16b, v2.16b, v0.16b
	cmeq	v0.16b, v1.16b, v0.16b
	orr	v0.16b, v0.16b, v2.16b
	umaxv	b0, v0.16b
	fmov	w8, s0
	and	w0, w8, #0x1
	ret
.Lrekusoyen_0_1_0.slugs.bytes.has.func_end:
	.size	rekusoyen_0_1_0.slugs.bytes.has, .Lrekusoyen_0_1_0.slugs.bytes.has.func_end-rekusoyen_0_1_0.slugs.bytes.has
	.section	.text.rekusoyen_0_1_0.cmdline.writing.write,"ax",@progbits
	.p2align	2
	.type	rekusoyen_0_1_0.cmdline.writing.write,@function
rekusoyen_0_1_0.cmdline.writing.write:
	stp	x29, x30, [sp, #-96]!
	cmp	x1, x3
	stp	x26, x25, [sp, #32]
	mov	x29, sp
	stp	x22, x21, [sp, #64]
	mov	x22, x5
	mov	x21, x4
	stp	x20, x19, [sp, #80]
	mov	x20, x1
	csel	x25, x1, x3, lo
	mov	x19, x0
	stp	x28, x27, [sp, #16]
	stp	x24, x23, [sp, #48]
	cbz	x25, .Lrekusoyen_0_1_0.cmdline.writing.write.18
	mov	x23, x2
	mov	x26, xzr
	sub	x27, x19, x2
	add	x28, x19, #16
	b	.Lrekusoyen_0_1_0.cmdline.writing.write.4
.Lrekusoyen_0_1_0.cmdline.writing.write.2:
	add	x0, x19, x26
	add	x1, x23, x26
	mov	x2, x24
	bl	memmove
.Lrekusoyen_0_1_0.cmdline.writing.write.3:
	add	x26, x24, x26
	cmp	x26, x25
	b.hs	.Lrekusoyen_0_1_0.cmdline.writing.write.18
.Lrekusoyen_0_1_0.cmdline.writing.write.4:
	sub	x9, x25, x26
	mov	w8, #2048
	add	x10, x19, x26
	cmp	x9, #2048
	add	x11, x23, x26
	csel	x24, x9, x8, lo
	sub	x8, x10, x11
	cmp	x8, x24
	b.hs	.Lrekusoyen_0_1_0.cmdline.writing.write.2
	cmp	x9, #8
	mov	x8, xzr
	b.lo	.Lrekusoyen_0_1_0.cmdline.writing.write.16
	cmp	x27, #32
	b.lo	.Lrekusoyen_0_1_0.cmdline.writing.write.16
	cmp	x9, #32
	b.hs	.Lrekusoyen_0_1_0.cmdline.writing.write.9
	mov	x8, xzr
	b	.Lrekusoyen_0_1_0.cmdline.writing.write.13
.Lrekusoyen_0_1_0.cmdline.writing.write.9:
	add	x10, x23, #16
	and	x9, x24, #0x18
	and	x8, x24, #0xfe0
	add	x10, x10, x26
	add	x11, x28, x26
	and	x12, x24, #0xfe0
.Lrekusoyen_0_1_0.cmdline.writing.write.10:
	ldp	q0, q1, [x10, #-16]
	subs	x12, x12, #32
	add	x10, x10, #32
	stp	q0, q1, [x11, #-16]
	add	x11, x11, #32
	b.ne	.Lrekusoyen_0_1_0.cmdline.writing.write.10
	cmp	x24, x8
	b.eq	.Lrekusoyen_0_1_0.cmdline.writing.write.3
	cbz	x9, .Lrekusoyen_0_1_0.cmdline.writing.write.16
.Lrekusoyen_0_1_0.cmdline.writing.write.13:
	mov	x9, x8
	and	x8, x24, #0xff8
	add	x11, x9, x26
	sub	x9, x9, x8
	add	x10, x23, x11
	add	x11, x19, x11
.Lrekusoyen_0_1_0.cmdline.writing.write.14:
	ldr	d0, [x10], #8
	adds	x9, x9, #8
	str	d0, [x11], #8
	b.ne	.Lrekusoyen_0_1_0.cmdline.writing.write.14
	cmp	x24, x8
	b.eq	.Lrekusoyen_0_1_0.cmdline.writing.write.3
.Lrekusoyen_0_1_0.cmdline.writing.write.16:
	add	x10, x8, x26
	sub	x8, x24, x8
	add	x9, x23, x10
	add	x10, x19, x10
.Lrekusoyen_0_1_0.cmdline.writing.write.17:
	ldrb	w11, [x9], #1
	subs	x8, x8, #1
	strb	w11, [x10], #1
	b.ne	.Lrekusoyen_0_1_0.cmdline.writing.write.17
	b	.Lrekusoyen_0_1_0.cmdline.writing.write.3
.Lrekusoyen_0_1_0.cmdline.writing.write.18:
	sub	x8, x20, x25
	mov	w9, #4
	cmp	x8, #4
	csel	x9, x8, x9, lo
	cmp	x22, #0
	adrp	x8, .Lrekusoyen_0_1_0.static.3
	add	x8, x8, :lo12:.Lrekusoyen_0_1_0.static.3
	csel	x23, xzr, x9, eq
	adrp	x9, .Lrekusoyen_0_1_0.static.19
	add	x9, x9, :lo12:.Lrekusoyen_0_1_0.static.19
	csel	x1, x9, x8, eq
	cbz	x23, .Lrekusoyen_0_1_0.cmdline.writing.write.26
	add	x10, x19, x25
	sub	x11, x10, x1
	cmp	x11, x23
	b.hs	.Lrekusoyen_0_1_0.cmdline.writing.write.25
	ldrb	w11, [x1]
	cmp	x23, #1
	strb	w11, [x10]
	b.eq	.Lrekusoyen_0_1_0.cmdline.writing.write.26
	cmp	x22, #0
	csel	x11, x9, x8, eq
	cmp	x23, #2
	ldrb	w11, [x11, #1]
	strb	w11, [x10, #1]
	b.eq	.Lrekusoyen_0_1_0.cmdline.writing.write.26
	cmp	x22, #0
	csel	x11, x9, x8, eq
	cmp	x23, #3
	ldrb	w11, [x11, #2]
	strb	w11, [x10, #2]
	b.eq	.Lrekusoyen_0_1_0.cmdline.writing.write.26
	cmp	x22, #0
	csel	x11, x9, x8, eq
	cmp	x23, #4
	ldrb	w11, [x11, #3]
	strb	w11, [x10, #3]
	b.eq	.Lrekusoyen_0_1_0.cmdline.writing.write.26
	cmp	x22, #0
	csel	x8, x9, x8, eq
	ldrh	w9, [x8, #4]
	strh	w9, [x10, #4]
	ldrb	w8, [x8, #6]
	strb	w8, [x10, #6]
	b	.Lrekusoyen_0_1_0.cmdline.writing.write.26
.Lrekusoyen_0_1_0.cmdline.writing.write.25:
	add	x0, x19, x25
	mov	x2, x23
	bl	memcpy
.Lrekusoyen_0_1_0.cmdline.writing.write.26:
	add	x8, x23, x25
	cmp	x20, x8
	csel	x23, x20, x8, lo
	sub	x8, x20, x23
	cmp	x8, x22
	csel	x24, x8, x22, lo
	cbz	x24, .Lrekusoyen_0_1_0.cmdline.writing.write.44
	add	x27, x23, x19
	mov	x25, xzr
	add	x26, x19, x23
	sub	x28, x27, x21
	b	.Lrekusoyen_0_1_0.cmdline.writing.write.30
.Lrekusoyen_0_1_0.cmdline.writing.write.28:
	add	x0, x26, x25
	add	x1, x21, x25
	mov	x2, x22
	bl	memmove
.Lrekusoyen_0_1_0.cmdline.writing.write.29:
	add	x25, x22, x25
	cmp	x25, x24
	b.hs	.Lrekusoyen_0_1_0.cmdline.writing.write.44
.Lrekusoyen_0_1_0.cmdline.writing.write.30:
	sub	x9, x24, x25
	mov	w8, #2048
	add	x10, x26, x25
	cmp	x9, #2048
	add	x11, x21, x25
	csel	x22, x9, x8, lo
	sub	x8, x10, x11
	cmp	x8, x22
	b.hs	.Lrekusoyen_0_1_0.cmdline.writing.write.28
	cmp	x9, #8
	mov	x8, xzr
	b.lo	.Lrekusoyen_0_1_0.cmdline.writing.write.42
	cmp	x28, #32
	b.lo	.Lrekusoyen_0_1_0.cmdline.writing.write.42
	cmp	x9, #32
	b.hs	.Lrekusoyen_0_1_0.cmdline.writing.write.35
	mov	x8, xzr
	b	.Lrekusoyen_0_1_0.cmdline.writing.write.39
.Lrekusoyen_0_1_0.cmdline.writing.write.35:
	add	x10, x27, #16
	add	x11, x21, #16
	and	x9, x22, #0x18
	and	x8, x22, #0xfe0
	add	x10, x10, x25
	add	x11, x11, x25
	and	x12, x22, #0xfe0
.Lrekusoyen_0_1_0.cmdline.writing.write.36:
	ldp	q0, q1, [x11, #-16]
	subs	x12, x12, #32
	add	x11, x11, #32
	stp	q0, q1, [x10, #-16]
	add	x10, x10, #32
	b.ne	.Lrekusoyen_0_1_0.cmdline.writing.write.36
	cmp	x22, x8
	b.eq	.Lrekusoyen_0_1_0.cmdline.writing.write.29
	cbz	x9, .Lrekusoyen_0_1_0.cmdline.writing.write.42
.Lrekusoyen_0_1_0.cmdline.writing.write.39:
	mov	x9, x8
	and	x8, x22, #0xff8
	add	x11, x9, x25
	sub	x9, x9, x8
	add	x10, x21, x11
	add	x11, x27, x11
.Lrekusoyen_0_1_0.cmdline.writing.write.40:
	ldr	d0, [x10], #8
	adds	x9, x9, #8
	str	d0, [x11], #8
	b.ne	.Lrekusoyen_0_1_0.cmdline.writing.write.40
	cmp	x22, x8
	b.eq	.Lrekusoyen_0_1_0.cmdline.writing.write.29
.Lrekusoyen_0_1_0.cmdline.writing.write.42:
	add	x10, x8, x25
	sub	x8, x8, x22
	add	x9, x21, x10
	add	x10, x27, x10
.Lrekusoyen_0_1_0.cmdline.writing.write.43:
	ldrb	w11, [x9], #1
	adds	x8, x8, #1
	strb	w11, [x10], #1
	b.lo	.Lrekusoyen_0_1_0.cmdline.writing.write.43
	b	.Lrekusoyen_0_1_0.cmdline.writing.write.29
.Lrekusoyen_0_1_0.cmdline.writing.write.44:
	add	x8, x24, x23
	cmp	x20, x8
	csel	x21, x20, x8, lo
	cset	w20, hi
	b.ls	.Lrekusoyen_0_1_0.cmdline.writing.write.48
	add	x0, x19, x21
	adrp	x8, .Lrekusoyen_0_1_0.static.4
	add	x8, x8, :lo12:.Lrekusoyen_0_1_0.static.4
	sub	x8, x0, x8
	cmp	x8, x20
	b.hs	.Lrekusoyen_0_1_0.cmdline.writing.write.47
	strb	wzr, [x0]
	b	.Lrekusoyen_0_1_0.cmdline.writing.write.48
.Lrekusoyen_0_1_0.cmdline.writing.write.47:
	mov	w1, wzr
	mov	x2, x20
	bl	memset
.Lrekusoyen_0_1_0.cmdline.writing.write.48:
	add	x0, x21, x20
	ldp	x20, x19, [sp, #80]
	ldp	x22, x21, [sp, #64]
	ldp	x24, x23, [sp, #48]
	ldp	x26, x25, [sp, #32]
	ldp	x28, x27, [sp, #16]
	ldp	x29, x30, [sp], #96
	ret
.Lrekusoyen_0_1_0.cmdline.writing.write.func_end:
	.size	rekusoyen_0_1_0.cmdline.writing.write, .Lrekusoyen_0_1_0.cmdline.writing.write.func_end-rekusoyen_0_1_0.cmdline.writing.write
	.section	.text.rekusoyen_0_1_0.cmdline.in_place.append_slug,"ax",@progbits
	.p2align	2
	.type	rekusoyen_0_1_0.cmdline.in_place.append_slug,@function
rekusoyen_0_1_0.cmdline.in_place.append_slug:
	stp	x29, x30, [sp, #-96]!
	stp	x24, x23, [sp, #48]
	mov	x24, xzr
	mov	x29, sp
	stp	x20, x19, [sp, #80]
	mov	x20, x1
	mov	x19, x0
	stp	x28, x27, [sp, #16]
	stp	x26, x25, [sp, #32]
	stp	x22, x21, [sp, #64]
	cbnz	x4, .Lrekusoyen_0_1_0.cmdline.in_place.append_slug.2
	b	.Lrekusoyen_0_1_0.cmdline.in_place.append_slug.5
.Lrekusoyen_0_1_0.cmdline.in_place.append_slug.1:
	add	x24, x24, #1
	cmp	x4, x24
	b.eq	.Lrekusoyen_0_1_0.cmdline.in_place.append_slug.4
.Lrekusoyen_0_1_0.cmdline.in_place.append_slug.2:
	ldrb	w8, [x3, x24]
	sub	w9, w8, #9
	cmp	w9, #5
	b.lo	.Lrekusoyen_0_1_0.cmdline.in_place.append_slug.1
	cmp	w8, #32
	b.eq	.Lrekusoyen_0_1_0.cmdline.in_place.append_slug.1
	b	.Lrekusoyen_0_1_0.cmdline.in_place.append_slug.5
.Lrekusoyen_0_1_0.cmdline.in_place.append_slug.4:
	mov	x24, x4
.Lrekusoyen_0_1_0.cmdline.in_place.append_slug.5:
	ldr	x8, [x2]
	subs	x23, x4, x24
	add	x22, x3, x24
	b.eq	.Lrekusoyen_0_1_0.cmdline.in_place.append_slug.10
	add	x9, x4, x3
	sub	x9, x9, #1
	b	.Lrekusoyen_0_1_0.cmdline.in_place.append_slug.8
.Lrekusoyen_0_1_0.cmdline.in_place.append_slug.7:
	sub	x23, x23, #1
	cbz	x23, .Lrekusoyen_0_1_0.cmdline.in_place.append_slug.10
.Lrekusoyen_0_1_0.cmdline.in_place.append_slug.8:
	ldrb	w10, [x9], #-1
	sub	w11, w10, #9
	cmp	w11, #5
	b.lo	.Lrekusoyen_0_1_0.cmdline.in_place.append_slug.7
	cmp	w10, #32
	b.eq	.Lrekusoyen_0_1_0.cmdline.in_place.append_slug.7
.Lrekusoyen_0_1_0.cmdline.in_place.append_slug.10:
	ldp	x9, x10, [x2, #8]
	add	x11, x3, x24
	mov	x12, x23
	b	.Lrekusoyen_0_1_0.cmdline.in_place.append_slug.12
.Lrekusoyen_0_1_0.cmdline.in_place.append_slug.11:
	add	x11, x11, x13
	sub	x12, x12, x13
	tbz	w14, #0, .Lrekusoyen_0_1_0.cmdline.in_place.append_slug.34
.Lrekusoyen_0_1_0.cmdline.in_place.append_slug.12:
	cbz	x12, .Lrekusoyen_0_1_0.cmdline.in_place.append_slug.26
	cmp	x12, #64
	mov	w13, #64
	csel	x13, x12, x13, lo
	cmp	x12, #8
	b.hs	.Lrekusoyen_0_1_0.cmdline.in_place.append_slug.15
	mov	w14, #1
	mov	x15, x13
	mov	x16, x11
	b	.Lrekusoyen_0_1_0.cmdline.in_place.append_slug.24
.Lrekusoyen_0_1_0.cmdline.in_place.append_slug.15:
	cmp	x12, #32
	b.hs	.Lrekusoyen_0_1_0.cmdline.in_place.append_slug.17
	mov	x17, xzr
	mov	w14, #1
	b	.Lrekusoyen_0_1_0.cmdline.in_place.append_slug.21
.Lrekusoyen_0_1_0.cmdline.in_place.append_slug.17:
	movi	v1.16b, #224
	ldp	q2, q4, [x11]
	movi	v0.16b, #95
	and	x17, x13, #0x60
	cmp	x17, #32
	add	v3.16b, v2.16b, v1.16b
	add	v2.16b, v4.16b, v1.16b
	b.eq	.Lrekusoyen_0_1_0.cmdline.in_place.append_slug.19
	ldp	q4, q5, [x11, #32]
	add	v4.16b, v4.16b, v1.16b
	add	v1.16b, v5.16b, v1.16b
	umax	v3.16b, v3.16b, v4.16b
	umax	v2.16b, v2.16b, v1.16b
.Lrekusoyen_0_1_0.cmdline.in_place.append_slug.19:
	cmhi	v1.16b, v0.16b, v3.16b
	cmhi	v0.16b, v0.16b, v2.16b
	cmp	x13, x17
	and	v0.16b, v0.16b, v1.16b
	shl	v0.16b, v0.16b, #7
	cmlt	v0.16b, v0.16b, #0
	uminv	b0, v0.16b
	fmov	w14, s0
	b.eq	.Lrekusoyen_0_1_0.cmdline.in_place.append_slug.11
	and	x15, x13, #0x18
	cbz	x15, .Lrekusoyen_0_1_0.cmdline.in_place.append_slug.25
.Lrekusoyen_0_1_0.cmdline.in_place.append_slug.21:
	movi	v0.2d, #0xffffffffffffffff
	and	x15, x13, #0x7
	mov	v0.b[0], w14
	and	x14, x13, #0x78
	add	x16, x11, x14
	sub	x0, x17, x14
	add	x17, x11, x17
.Lrekusoyen_0_1_0.cmdline.in_place.append_slug.22:
	movi	v1.8b, #224
	ldr	d2, [x17], #8
	movi	v3.8b, #95
	adds	x0, x0, #8
	add	v1.8b, v2.8b, v1.8b
	cmhi	v1.8b, v3.8b, v1.8b
	and	v0.8b, v0.8b, v1.8b
	b.ne	.Lrekusoyen_0_1_0.cmdline.in_place.append_slug.22
	shl	v0.8b, v0.8b, #7
	cmp	x13, x14
	cmlt	v0.8b, v0.8b, #0
	uminv	b0, v0.8b
	fmov	w14, s0
	b.eq	.Lrekusoyen_0_1_0.cmdline.in_place.append_slug.11
.Lrekusoyen_0_1_0.cmdline.in_place.append_slug.24:
	ldrb	w17, [x16], #1
	sub	x15, x15, #1
	sub	w17, w17, #32
	cmp	w17, #95
	cset	w17, lo
	and	w14, w14, w17
	cbnz	x15, .Lrekusoyen_0_1_0.cmdline.in_place.append_slug.24
	b	.Lrekusoyen_0_1_0.cmdline.in_place.append_slug.11
.Lrekusoyen_0_1_0.cmdline.in_place.append_slug.25:
	and	x15, x13, #0x1f
	add	x16, x11, x17
	b	.Lrekusoyen_0_1_0.cmdline.in_place.append_slug.24
.Lrekusoyen_0_1_0.cmdline.in_place.append_slug.26:
	subs	x9, x10, x9
	b.lo	.Lrekusoyen_0_1_0.cmdline.in_place.append_slug.35
	cmp	x23, x9
	b.hi	.Lrekusoyen_0_1_0.cmdline.in_place.append_slug.35
	cmp	x8, #0
	cinc	x9, x8, ne
	cmp	x9, #4, lsl #12
	b.hi	.Lrekusoyen_0_1_0.cmdline.in_place.append_slug.35
	mov	w10, #16384
	sub	x9, x10, x9
	cmp	x23, x9
	b.hi	.Lrekusoyen_0_1_0.cmdline.in_place.append_slug.35
	cbz	x8, .Lrekusoyen_0_1_0.cmdline.in_place.append_slug.38
	lsr	x9, x8, #14
	cmp	x8, #4, lsl #12
	mov	w10, #16384
	csel	x25, x8, x10, lo
	cset	w21, lo
	cbnz	x9, .Lrekusoyen_0_1_0.cmdline.in_place.append_slug.57
	add	x8, x20, x25
	adrp	x9, .Lrekusoyen_0_1_0.static.16
	add	x9, x9, :lo12:.Lrekusoyen_0_1_0.static.16
	sub	x9, x8, x9
	cmp	x9, x21
	b.hs	.Lrekusoyen_0_1_0.cmdline.in_place.append_slug.56
	mov	w9, #32
	strb	w9, [x8]
	b	.Lrekusoyen_0_1_0.cmdline.in_place.append_slug.57
.Lrekusoyen_0_1_0.cmdline.in_place.append_slug.34:
	mov	w8, #5377
	b	.Lrekusoyen_0_1_0.cmdline.in_place.append_slug.36
.Lrekusoyen_0_1_0.cmdline.in_place.append_slug.35:
	mov	w8, #6657
.Lrekusoyen_0_1_0.cmdline.in_place.append_slug.36:
	strh	w8, [x19]
	str	xzr, [x19, #8]
.Lrekusoyen_0_1_0.cmdline.in_place.append_slug.37:
	ldp	x20, x19, [sp, #80]
	ldp	x22, x21, [sp, #64]
	ldp	x24, x23, [sp, #48]
	ldp	x26, x25, [sp, #32]
	ldp	x28, x27, [sp, #16]
	ldp	x29, x30, [sp], #96
	ret
.Lrekusoyen_0_1_0.cmdline.in_place.append_slug.38:
	cbz	x23, .Lrekusoyen_0_1_0.cmdline.in_place.append_slug.76
	add	x24, x24, x3
	mov	x25, xzr
	add	x27, x20, #16
	sub	x26, x20, x24
	add	x28, x24, #16
	b	.Lrekusoyen_0_1_0.cmdline.in_place.append_slug.42
.Lrekusoyen_0_1_0.cmdline.in_place.append_slug.40:
	add	x0, x20, x25
	add	x1, x22, x25
	mov	x2, x21
	bl	memmove
.Lrekusoyen_0_1_0.cmdline.in_place.append_slug.41:
	add	x25, x21, x25
	cmp	x25, x23
	b.hs	.Lrekusoyen_0_1_0.cmdline.in_place.append_slug.76
.Lrekusoyen_0_1_0.cmdline.in_place.append_slug.42:
	sub	x9, x23, x25
	mov	w8, #2048
	add	x10, x20, x25
	cmp	x9, #2048
	add	x11, x22, x25
	csel	x21, x9, x8, lo
	sub	x8, x10, x11
	cmp	x8, x21
	b.hs	.Lrekusoyen_0_1_0.cmdline.in_place.append_slug.40
	cmp	x9, #8
	mov	x8, xzr
	b.lo	.Lrekusoyen_0_1_0.cmdline.in_place.append_slug.54
	cmp	x26, #32
	b.lo	.Lrekusoyen_0_1_0.cmdline.in_place.append_slug.54
	cmp	x9, #32
	b.hs	.Lrekusoyen_0_1_0.cmdline.in_place.append_slug.47
	mov	x8, xzr
	b	.Lrekusoyen_0_1_0.cmdline.in_place.append_slug.51
.Lrekusoyen_0_1_0.cmdline.in_place.append_slug.47:
	and	x9, x21, #0x18
	and	x8, x21, #0xfe0
	add	x10, x27, x25
	add	x11, x28, x25
	and	x12, x21, #0xfe0
.Lrekusoyen_0_1_0.cmdline.in_place.append_slug.48:
	ldp	q0, q1, [x11, #-16]
	subs	x12, x12, #32
	add	x11, x11, #32
	stp	q0, q1, [x10, #-16]
	add	x10, x10, #32
	b.ne	.Lrekusoyen_0_1_0.cmdline.in_place.append_slug.48
	cmp	x21, x8
	b.eq	.Lrekusoyen_0_1_0.cmdline.in_place.append_slug.41
	cbz	x9, .Lrekusoyen_0_1_0.cmdline.in_place.append_slug.54
.Lrekusoyen_0_1_0.cmdline.in_place.append_slug.51:
	mov	x9, x8
	and	x8, x21, #0xff8
	add	x11, x9, x25
	sub	x9, x9, x8
	add	x10, x24, x11
	add	x11, x20, x11
.Lrekusoyen_0_1_0.cmdline.in_place.append_slug.52:
	ldr	d0, [x10], #8
	adds	x9, x9, #8
	str	d0, [x11], #8
	b.ne	.Lrekusoyen_0_1_0.cmdline.in_place.append_slug.52
	cmp	x21, x8
	b.eq	.Lrekusoyen_0_1_0.cmdline.in_place.append_slug.41
.Lrekusoyen_0_1_0.cmdline.in_place.append_slug.54:
	add	x10, x8, x25
	sub	x8, x21, x8
	add	x9, x24, x10
	add	x10, x20, x10
.Lrekusoyen_0_1_0.cmdline.in_place.append_slug.55:
	ldrb	w11, [x9], #1
	subs	x8, x8, #1
	strb	w11, [x10], #1
	b.ne	.Lrekusoyen_0_1_0.cmdline.in_place.append_slug.55
	b	.Lrekusoyen_0_1_0.cmdline.in_place.append_slug.41
.Lrekusoyen_0_1_0.cmdline.in_place.append_slug.56:
	add	x0, x20, x25
	mov	w1, #32
	mov	x2, x21
	mov	x26, x3
	bl	memset
	mov	x3, x26
.Lrekusoyen_0_1_0.cmdline.in_place.append_slug.57:
	add	x8, x25, x21
	mov	w9, #16384
	cmp	x8, #4, lsl #12
	csel	x21, x8, x9, lo
	sub	x8, x9, x21
	cmp	x8, x23
	csel	x23, x8, x23, lo
	cbz	x23, .Lrekusoyen_0_1_0.cmdline.in_place.append_slug.75
	add	x27, x21, x20
	add	x24, x24, x3
	mov	x25, xzr
	add	x26, x20, x21
	sub	x28, x27, x24
	b	.Lrekusoyen_0_1_0.cmdline.in_place.append_slug.61
.Lrekusoyen_0_1_0.cmdline.in_place.append_slug.59:
	add	x0, x26, x25
	add	x1, x22, x25
	mov	x2, x20
	bl	memmove
.Lrekusoyen_0_1_0.cmdline.in_place.append_slug.60:
	add	x25, x20, x25
	cmp	x25, x23
	b.hs	.Lrekusoyen_0_1_0.cmdline.in_place.append_slug.75
.Lrekusoyen_0_1_0.cmdline.in_place.append_slug.61:
	sub	x9, x23, x25
	mov	w8, #2048
	add	x10, x26, x25
	cmp	x9, #2048
	add	x11, x22, x25
	csel	x20, x9, x8, lo
	sub	x8, x10, x11
	cmp	x8, x20
	b.hs	.Lrekusoyen_0_1_0.cmdline.in_place.append_slug.59
	cmp	x9, #8
	mov	x8, xzr
	b.lo	.Lrekusoyen_0_1_0.cmdline.in_place.append_slug.73
	cmp	x28, #32
	b.lo	.Lrekusoyen_0_1_0.cmdline.in_place.append_slug.73
	cmp	x9, #32
	b.hs	.Lrekusoyen_0_1_0.cmdline.in_place.append_slug.66
	mov	x8, xzr
	b	.Lrekusoyen_0_1_0.cmdline.in_place.append_slug.70
.Lrekusoyen_0_1_0.cmdline.in_place.append_slug.66:
	add	x10, x27, #16
	add	x11, x24, #16
	and	x9, x20, #0x18
	and	x8, x20, #0xfe0
	add	x10, x10, x25
	add	x11, x11, x25
	and	x12, x20, #0xfe0
.Lrekusoyen_0_1_0.cmdline.in_place.append_slug.67:
	ldp	q0, q1, [x11, #-16]
	subs	x12, x12, #32
	add	x11, x11, #32
	stp	q0, q1, [x10, #-16]
	add	x10, x10, #32
	b.ne	.Lrekusoyen_0_1_0.cmdline.in_place.append_slug.67
	cmp	x20, x8
	b.eq	.Lrekusoyen_0_1_0.cmdline.in_place.append_slug.60
	cbz	x9, .Lrekusoyen_0_1_0.cmdline.in_place.append_slug.73
.Lrekusoyen_0_1_0.cmdline.in_place.append_slug.70:
	mov	x9, x8
	and	x8, x20, #0xff8
	add	x11, x9, x25
	sub	x9, x9, x8
	add	x10, x24, x11
	add	x11, x27, x11
.Lrekusoyen_0_1_0.cmdline.in_place.append_slug.71:
	ldr	d0, [x10], #8
	adds	x9, x9, #8
	str	d0, [x11], #8
	b.ne	.Lrekusoyen_0_1_0.cmdline.in_place.append_slug.71
	cmp	x20, x8
	b.eq	.Lrekusoyen_0_1_0.cmdline.in_place.append_slug.60
.Lrekusoyen_0_1_0.cmdline.in_place.append_slug.73:
	add	x10, x8, x25
	sub	x8, x8, x20
	add	x9, x24, x10
	add	x10, x27, x10
.Lrekusoyen_0_1_0.cmdline.in_place.append_slug.74:
	ldrb	w11, [x9], #1
	adds	x8, x8, #1
	strb	w11, [x10], #1
	b.lo	.Lrekusoyen_0_1_0.cmdline.in_place.append_slug.74
	b	.Lrekusoyen_0_1_0.cmdline.in_place.append_slug.60
.Lrekusoyen_0_1_0.cmdline.in_place.append_slug.75:
	add	x23, x23, x21
.Lrekusoyen_0_1_0.cmdline.in_place.append_slug.76:
	strh	wzr, [x19]
	str	x23, [x19, #8]
	b	.Lrekusoyen_0_1_0.cmdline.in_place.append_slug.37
.Lrekusoyen_0_1_0.cmdline.in_place.append_slug.func_end:
	.size	rekusoyen_0_1_0.cmdline.in_place.append_slug, .Lrekusoyen_0_1_0.cmdline.in_place.append_slug.func_end-rekusoyen_0_1_0.cmdline.in_place.append_slug
	.section	.text.rekusoyen_0_1_0.boot.pieces.check_line,"ax",@progbits
	.p2align	2
	.type	rekusoyen_0_1_0.boot.pieces.check_line,@function
rekusoyen_0_1_0.boot.pieces.check_line:
	ldrb	w8, [x2]
	cmp	w8, #1
	b.ne	.Lrekusoyen_0_1_0.boot.pieces.check_line.4
	cmp	x1, #520
	b.lo	.Lrekusoyen_0_1_0.boot.pieces.check_line.3
	ldrh	w8, [x0, #518]
	cmp	w8, #518
	b.hs	.Lrekusoyen_0_1_0.boot.pieces.check_line.6
.Lrekusoyen_0_1_0.boot.pieces.check_line.3:
	mov	w8, #255
	b	.Lrekusoyen_0_1_0.boot.pieces.check_line.5
.Lrekusoyen_0_1_0.boot.pieces.check_line.4:
	mov	w8, w4
	tst	w3, #0x1
	mov	w9, #2047
	csel	x8, x8, x9, ne
.Lrekusoyen_0_1_0.boot.pieces.check_line.5:
	cmp	x6, #0
	sub	x9, x8, x5
	ccmp	x8, x5, #0, eq
	sub	x11, x9, #4
	cset	w10, hs
	cmp	x9, #3
	ccmp	x6, x11, #2, hi
	cset	w9, ls
	cmp	x8, x5
	csel	w8, w10, w9, lo
	cmp	x6, #0
	mov	w9, #55
	csel	w8, w10, w8, eq
	cmp	w8, #0
	eor	w0, w8, #0x1
	csel	w1, wzr, w9, ne
	ret
.Lrekusoyen_0_1_0.boot.pieces.check_line.6:
	cmp	x1, #571
	b.ls	.Lrekusoyen_0_1_0.boot.pieces.check_line.8
	ldr	w8, [x0, #568]
	b	.Lrekusoyen_0_1_0.boot.pieces.check_line.5
.Lrekusoyen_0_1_0.boot.pieces.check_line.8:
	subs	x8, x1, #568
	csel	x8, xzr, x8, lo
	cmp	x8, #3
	b.ne	.Lrekusoyen_0_1_0.boot.pieces.check_line.10
	ldrb	w8, [x0, #570]
	lsl	x9, x8, #8
	b	.Lrekusoyen_0_1_0.boot.pieces.check_line.11
.Lrekusoyen_0_1_0.boot.pieces.check_line.10:
	mov	x9, xzr
	cmp	x8, #2
	mov	x8, xzr
	b.lo	.Lrekusoyen_0_1_0.boot.pieces.check_line.12
.Lrekusoyen_0_1_0.boot.pieces.check_line.11:
	ldrb	w8, [x0, #569]
	orr	x8, x9, x8
	lsl	x8, x8, #8
.Lrekusoyen_0_1_0.boot.pieces.check_line.12:
	cmp	x1, #569
	b.lo	.Lrekusoyen_0_1_0.boot.pieces.check_line.5
	ldrb	w9, [x0, #568]
	orr	x8, x8, x9
	b	.Lrekusoyen_0_1_0.boot.pieces.check_line.5
.Lrekusoyen_0_1_0.boot.pieces.check_line.func_end:
	.size	rekusoyen_0_1_0.boot.pieces.check_line, .Lrekusoyen_0_1_0.boot.pieces.check_line.func_end-rekusoyen_0_1_0.boot.pieces.check_line
	.section	.text.rekusoyen_0_1_0.slugs.lists.put_list,"ax",@progbits
	.p2align	2
	.type	rekusoyen_0_1_0.slugs.lists.put_list,@function
rekusoyen_0_1_0.slugs.lists.put_list:
	sub	sp, sp, #176
	stp	x29, x30, [sp, #80]
	add	x29, sp, #80
	stp	x28, x27, [sp, #96]
	mov	x27, x0
	stp	x24, x23, [sp, #128]
	mov	x23, x6
	mov	x24, x2
	stp	x26, x25, [sp, #112]
	stp	x22, x21, [sp, #144]
	stp	x20, x19, [sp, #160]
	stur	x7, [x29, #-32]
	stp	x0, x5, [sp, #32]
	str	x4, [sp, #24]
	cbz	x1, .Lrekusoyen_0_1_0.slugs.lists.put_list.4
	lsr	x8, x1, #14
	cmp	x1, #4, lsl #12
	mov	w9, #16384
	csel	x19, x1, x9, lo
	cset	w25, lo
	cbnz	x8, .Lrekusoyen_0_1_0.slugs.lists.put_list.23
	add	x8, x27, x19
	adrp	x9, .Lrekusoyen_0_1_0.static.16
	add	x9, x9, :lo12:.Lrekusoyen_0_1_0.static.16
	sub	x9, x8, x9
	cmp	x9, x25
	b.hs	.Lrekusoyen_0_1_0.slugs.lists.put_list.22
	mov	w9, #32
	strb	w9, [x8]
	b	.Lrekusoyen_0_1_0.slugs.lists.put_list.23
.Lrekusoyen_0_1_0.slugs.lists.put_list.4:
	cmp	x3, #4, lsl #12
	mov	w8, #16384
	csel	x28, x3, x8, lo
	cbz	x3, .Lrekusoyen_0_1_0.slugs.lists.put_list.69
	mov	x19, xzr
	sub	x20, x27, x24
	add	x21, x24, #16
	add	x22, x27, #16
	b	.Lrekusoyen_0_1_0.slugs.lists.put_list.8
.Lrekusoyen_0_1_0.slugs.lists.put_list.6:
	add	x0, x27, x19
	add	x1, x24, x19
	mov	x2, x25
	bl	memmove
.Lrekusoyen_0_1_0.slugs.lists.put_list.7:
	add	x19, x25, x19
	cmp	x19, x28
	b.hs	.Lrekusoyen_0_1_0.slugs.lists.put_list.42
.Lrekusoyen_0_1_0.slugs.lists.put_list.8:
	sub	x9, x28, x19
	mov	w8, #2048
	add	x10, x27, x19
	cmp	x9, #2048
	add	x11, x24, x19
	csel	x25, x9, x8, lo
	sub	x8, x10, x11
	cmp	x8, x25
	b.hs	.Lrekusoyen_0_1_0.slugs.lists.put_list.6
	cmp	x9, #8
	mov	x8, xzr
	b.lo	.Lrekusoyen_0_1_0.slugs.lists.put_list.20
	cmp	x20, #32
	b.lo	.Lrekusoyen_0_1_0.slugs.lists.put_list.20
	cmp	x9, #32
	b.hs	.Lrekusoyen_0_1_0.slugs.lists.put_list.13
	mov	x8, xzr
	b	.Lrekusoyen_0_1_0.slugs.lists.put_list.17
.Lrekusoyen_0_1_0.slugs.lists.put_list.13:
	and	x9, x25, #0x18
	and	x8, x25, #0xfe0
	add	x10, x21, x19
	add	x11, x22, x19
	and	x12, x25, #0xfe0
.Lrekusoyen_0_1_0.slugs.lists.put_list.14:
	ldp	q0, q1, [x10, #-16]
	subs	x12, x12, #32
	add	x10, x10, #32
	stp	q0, q1, [x11, #-16]
	add	x11, x11, #32
	b.ne	.Lrekusoyen_0_1_0.slugs.lists.put_list.14
	cmp	x25, x8
	b.eq	.Lrekusoyen_0_1_0.slugs.lists.put_list.7
	cbz	x9, .Lrekusoyen_0_1_0.slugs.lists.put_list.20
.Lrekusoyen_0_1_0.slugs.lists.put_list.17:
	mov	x9, x8
	and	x8, x25, #0xff8
	add	x11, x9, x19
	sub	x9, x9, x8
	add	x10, x24, x11
	add	x11, x27, x11
.Lrekusoyen_0_1_0.slugs.lists.put_list.18:
	ldr	d0, [x10], #8
	adds	x9, x9, #8
	str	d0, [x11], #8
	b.ne	.Lrekusoyen_0_1_0.slugs.lists.put_list.18
	cmp	x25, x8
	b.eq	.Lrekusoyen_0_1_0.slugs.lists.put_list.7
.Lrekusoyen_0_1_0.slugs.lists.put_list.20:
	add	x10, x8, x19
	sub	x8, x25, x8
	add	x9, x24, x10
	add	x10, x27, x10
.Lrekusoyen_0_1_0.slugs.lists.put_list.21:
	ldrb	w11, [x9], #1
	subs	x8, x8, #1
	strb	w11, [x10], #1
	b.ne	.Lrekusoyen_0_1_0.slugs.lists.put_list.21
	b	.Lrekusoyen_0_1_0.slugs.lists.put_list.7
.Lrekusoyen_0_1_0.slugs.lists.put_list.22:
	add	x0, x27, x19
	mov	w1, #32
	mov	x2, x25
	mov	x20, x3
	bl	memset
	mov	x3, x20
.Lrekusoyen_0_1_0.slugs.lists.put_list.23:
	add	x8, x19, x25
	mov	w9, #16384
	cmp	x8, #4, lsl #12
	csel	x26, x8, x9, lo
	sub	x8, x9, x26
	cmp	x8, x3
	csel	x27, x8, x3, lo
	cbz	x27, .Lrekusoyen_0_1_0.slugs.lists.put_list.41
	ldr	x8, [sp, #32]
	mov	x19, xzr
	add	x28, x24, #16
	add	x20, x26, x8
	add	x22, x8, x26
	sub	x21, x20, x24
	b	.Lrekusoyen_0_1_0.slugs.lists.put_list.27
.Lrekusoyen_0_1_0.slugs.lists.put_list.25:
	add	x0, x22, x19
	add	x1, x24, x19
	mov	x2, x25
	bl	memmove
.Lrekusoyen_0_1_0.slugs.lists.put_list.26:
	add	x19, x25, x19
	cmp	x19, x27
	b.hs	.Lrekusoyen_0_1_0.slugs.lists.put_list.41
.Lrekusoyen_0_1_0.slugs.lists.put_list.27:
	sub	x9, x27, x19
	mov	w8, #2048
	add	x10, x22, x19
	cmp	x9, #2048
	add	x11, x24, x19
	csel	x25, x9, x8, lo
	sub	x8, x10, x11
	cmp	x8, x25
	b.hs	.Lrekusoyen_0_1_0.slugs.lists.put_list.25
	cmp	x9, #8
	mov	x8, xzr
	b.lo	.Lrekusoyen_0_1_0.slugs.lists.put_list.39
	cmp	x21, #32
	b.lo	.Lrekusoyen_0_1_0.slugs.lists.put_list.39
	cmp	x9, #32
	b.hs	.Lrekusoyen_0_1_0.slugs.lists.put_list.32
	mov	x8, xzr
	b	.Lrekusoyen_0_1_0.slugs.lists.put_list.36
.Lrekusoyen_0_1_0.slugs.lists.put_list.32:
	add	x10, x20, #16
	and	x9, x25, #0x18
	and	x8, x25, #0xfe0
	add	x10, x10, x19
	add	x11, x28, x19
	and	x12, x25, #0xfe0
.Lrekusoyen_0_1_0.slugs.lists.put_list.33:
	ldp	q0, q1, [x11, #-16]
	subs	x12, x12, #32
	add	x11, x11, #32
	stp	q0, q1, [x10, #-16]
	add	x10, x10, #32
	b.ne	.Lrekusoyen_0_1_0.slugs.lists.put_list.33
	cmp	x25, x8
	b.eq	.Lrekusoyen_0_1_0.slugs.lists.put_list.26
	cbz	x9, .Lrekusoyen_0_1_0.slugs.lists.put_list.39
.Lrekusoyen_0_1_0.slugs.lists.put_list.36:
	mov	x9, x8
	and	x8, x25, #0xff8
	add	x11, x9, x19
	sub	x9, x9, x8
	add	x10, x24, x11
	add	x11, x20, x11
.Lrekusoyen_0_1_0.slugs.lists.put_list.37:
	ldr	d0, [x10], #8
	adds	x9, x9, #8
	str	d0, [x11], #8
	b.ne	.Lrekusoyen_0_1_0.slugs.lists.put_list.37
	cmp	x25, x8
	b.eq	.Lrekusoyen_0_1_0.slugs.lists.put_list.26
.Lrekusoyen_0_1_0.slugs.lists.put_list.39:
	add	x10, x8, x19
	sub	x8, x8, x25
	add	x9, x24, x10
	add	x10, x20, x10
.Lrekusoyen_0_1_0.slugs.lists.put_list.40:
	ldrb	w11, [x9], #1
	adds	x8, x8, #1
	strb	w11, [x10], #1
	b.lo	.Lrekusoyen_0_1_0.slugs.lists.put_list.40
	b	.Lrekusoyen_0_1_0.slugs.lists.put_list.26
.Lrekusoyen_0_1_0.slugs.lists.put_list.41:
	add	x28, x27, x26
	ldr	x27, [sp, #32]
.Lrekusoyen_0_1_0.slugs.lists.put_list.42:
	ldur	x8, [x29, #-32]
	cbz	x8, .Lrekusoyen_0_1_0.slugs.lists.put_list.68
.Lrekusoyen_0_1_0.slugs.lists.put_list.43:
	add	x8, x27, #16
	mov	x19, xzr
	mov	x25, xzr
	stp	x8, x23, [sp, #8]
	ldr	x8, [sp, #24]
	add	x8, x8, #16
	str	x8, [sp]
	mov	w8, #61
	b	.Lrekusoyen_0_1_0.slugs.lists.put_list.45
.Lrekusoyen_0_1_0.slugs.lists.put_list.44:
	ldr	x23, [sp, #16]
	ldr	x27, [sp, #32]
	ldr	x19, [x23, x25, lsl #3]
	ldur	x8, [x29, #-32]
	add	x25, x25, #1
	add	x28, x26, x28
	cmp	x25, x8
	mov	w8, #44
	b.eq	.Lrekusoyen_0_1_0.slugs.lists.put_list.68
.Lrekusoyen_0_1_0.slugs.lists.put_list.45:
	lsr	x9, x28, #14
	cmp	x28, #4, lsl #12
	mov	w10, #16384
	csel	x20, x28, x10, lo
	cset	w24, lo
	sturb	w8, [x29, #-4]
	cbnz	x9, .Lrekusoyen_0_1_0.slugs.lists.put_list.49
	add	x9, x27, x20
	sub	x10, x29, #4
	sub	x10, x9, x10
	cmp	x10, x24
	b.hs	.Lrekusoyen_0_1_0.slugs.lists.put_list.48
	strb	w8, [x9]
	b	.Lrekusoyen_0_1_0.slugs.lists.put_list.49
.Lrekusoyen_0_1_0.slugs.lists.put_list.48:
	add	x0, x27, x20
	sub	x1, x29, #4
	mov	x2, x24
	bl	memcpy
.Lrekusoyen_0_1_0.slugs.lists.put_list.49:
	ldr	x9, [x23, x25, lsl #3]
	ldr	x8, [sp, #40]
	add	x11, x20, x24
	mov	w12, #16384
	cmp	x8, x9
	csel	x10, x8, x9, lo
	cmp	x10, x19
	csel	x8, x10, x19, lo
	cmp	x11, #4, lsl #12
	csel	x28, x11, x12, lo
	sub	x10, x10, x8
	sub	x11, x12, x28
	cmp	x11, x10
	csel	x26, x11, x10, lo
	cbz	x26, .Lrekusoyen_0_1_0.slugs.lists.put_list.67
	ldr	x9, [sp, #24]
	mov	x10, x27
	mov	x27, xzr
	add	x20, x28, x10
	add	x22, x10, x28
	add	x19, x9, x8
	add	x21, x8, x9
	ldr	x9, [sp, #8]
	sub	x23, x20, x21
	add	x9, x9, x28
	stur	x9, [x29, #-16]
	ldr	x9, [sp]
	add	x8, x9, x8
	stur	x8, [x29, #-24]
	b	.Lrekusoyen_0_1_0.slugs.lists.put_list.53
.Lrekusoyen_0_1_0.slugs.lists.put_list.51:
	add	x0, x22, x27
	add	x1, x19, x27
	mov	x2, x24
	bl	memmove
.Lrekusoyen_0_1_0.slugs.lists.put_list.52:
	add	x27, x24, x27
	cmp	x27, x26
	b.hs	.Lrekusoyen_0_1_0.slugs.lists.put_list.44
.Lrekusoyen_0_1_0.slugs.lists.put_list.53:
	sub	x9, x26, x27
	mov	w8, #2048
	add	x10, x22, x27
	cmp	x9, #2048
	add	x11, x19, x27
	csel	x24, x9, x8, lo
	sub	x8, x10, x11
	cmp	x8, x24
	b.hs	.Lrekusoyen_0_1_0.slugs.lists.put_list.51
	cmp	x9, #8
	mov	x8, xzr
	b.lo	.Lrekusoyen_0_1_0.slugs.lists.put_list.65
	cmp	x23, #32
	b.lo	.Lrekusoyen_0_1_0.slugs.lists.put_list.65
	cmp	x9, #32
	b.hs	.Lrekusoyen_0_1_0.slugs.lists.put_list.58
	mov	x8, xzr
	b	.Lrekusoyen_0_1_0.slugs.lists.put_list.62
.Lrekusoyen_0_1_0.slugs.lists.put_list.58:
	ldp	x11, x10, [x29, #-24]
	and	x9, x24, #0x18
	and	x8, x24, #0xfe0
	and	x12, x24, #0xfe0
	add	x10, x10, x27
	add	x11, x11, x27
.Lrekusoyen_0_1_0.slugs.lists.put_list.59:
	ldp	q0, q1, [x11, #-16]
	subs	x12, x12, #32
	add	x11, x11, #32
	stp	q0, q1, [x10, #-16]
	add	x10, x10, #32
	b.ne	.Lrekusoyen_0_1_0.slugs.lists.put_list.59
	cmp	x24, x8
	b.eq	.Lrekusoyen_0_1_0.slugs.lists.put_list.52
	cbz	x9, .Lrekusoyen_0_1_0.slugs.lists.put_list.65
.Lrekusoyen_0_1_0.slugs.lists.put_list.62:
	mov	x9, x8
	and	x8, x24, #0xff8
	add	x11, x9, x27
	sub	x9, x9, x8
	add	x10, x21, x11
	add	x11, x20, x11
.Lrekusoyen_0_1_0.slugs.lists.put_list.63:
	ldr	d0, [x10], #8
	adds	x9, x9, #8
	str	d0, [x11], #8
	b.ne	.Lrekusoyen_0_1_0.slugs.lists.put_list.63
	cmp	x24, x8
	b.eq	.Lrekusoyen_0_1_0.slugs.lists.put_list.52
.Lrekusoyen_0_1_0.slugs.lists.put_list.65:
	add	x10, x8, x27
	sub	x8, x8, x24
	add	x9, x21, x10
	add	x10, x20, x10
.Lrekusoyen_0_1_0.slugs.lists.put_list.66:
	ldrb	w11, [x9], #1
	adds	x8, x8, #1
	strb	w11, [x10], #1
	b.lo	.Lrekusoyen_0_1_0.slugs.lists.put_list.66
	b	.Lrekusoyen_0_1_0.slugs.lists.put_list.52
.Lrekusoyen_0_1_0.slugs.lists.put_list.67:
	mov	x19, x9
	ldur	x8, [x29, #-32]
	add	x25, x25, #1
	add	x28, x26, x28
	cmp	x25, x8
	mov	w8, #44
	b.ne	.Lrekusoyen_0_1_0.slugs.lists.put_list.45
.Lrekusoyen_0_1_0.slugs.lists.put_list.68:
	cmp	x28, #4, lsl #12
	mov	w8, #16384
	csel	x0, x28, x8, lo
	ldp	x20, x19, [sp, #160]
	ldp	x22, x21, [sp, #144]
	ldp	x24, x23, [sp, #128]
	ldp	x26, x25, [sp, #112]
	ldp	x28, x27, [sp, #96]
	ldp	x29, x30, [sp, #80]
	add	sp, sp, #176
	ret
.Lrekusoyen_0_1_0.slugs.lists.put_list.69:
	mov	x28, xzr
	ldur	x8, [x29, #-32]
	cbnz	x8, .Lrekusoyen_0_1_0.slugs.lists.put_list.43
	b	.Lrekusoyen_0_1_0.slugs.lists.put_list.68
.Lrekusoyen_0_1_0.slugs.lists.put_list.func_end:
	.size	rekusoyen_0_1_0.slugs.lists.put_list, .Lrekusoyen_0_1_0.slugs.lists.put_list.func_end-rekusoyen_0_1_0.slugs.lists.put_list
	.section	.text.rekusoyen_0_1_0.boot_page.build,"ax",@progbits
	.p2align	2
	.type	rekusoyen_0_1_0.boot_page.build,@function
rekusoyen_0_1_0.boot_page.build:
	sub	sp, sp, #112
	stp	x28, x27, [sp, #32]
	ldp	w28, w27, [x4]
	stp	x26, x25, [sp, #48]
	ldr	w26, [x4, #8]
	stp	x24, x23, [sp, #64]
	mov	x23, x2
	mov	x2, x6
	stp	x22, x21, [sp, #80]
	mov	x21, x1
	mov	x22, x0
	mov	x0, x1
	mov	x1, x5
	stp	x29, x30, [sp, #16]
	stp	x20, x19, [sp, #96]
	add	x29, sp, #16
	mov	x19, x6
	mov	x20, x5
	mov	x24, x3
	bl	rekusoyen_0_1_0.boot_page.building.check
	tst	w0, #0xff
	b.ne	.Lrekusoyen_0_1_0.boot_page.build.37
	cbz	x21, .Lrekusoyen_0_1_0.boot_page.build.5
	subs	x25, x21, #1
	b.eq	.Lrekusoyen_0_1_0.boot_page.build.4
	str	x23, [sp, #8]
	mov	w23, w28
	mov	w28, w26
	mov	w26, w0
	mov	x0, x22
	mov	w1, wzr
	mov	x2, x25
	bl	memset
	mov	w0, w26
	mov	w26, w28
	mov	w28, w23
	ldr	x23, [sp, #8]
.Lrekusoyen_0_1_0.boot_page.build.4:
	strb	wzr, [x22, x25]
.Lrekusoyen_0_1_0.boot_page.build.5:
	cmp	x21, #497
	mov	w8, #497
	csel	x9, x21, x8, lo
	sub	x8, x21, x9
	cmp	x8, x24
	csel	x2, x8, x24, lo
	cbz	x2, .Lrekusoyen_0_1_0.boot_page.build.13
	add	x8, x22, x9
	sub	x10, x8, x23
	cmp	x10, x2
	b.hs	.Lrekusoyen_0_1_0.boot_page.build.12
	cmp	x2, #4
	b.lo	.Lrekusoyen_0_1_0.boot_page.build.9
	add	x10, x9, x22
	sub	x10, x10, x23
	cmp	x10, #16
	b.hs	.Lrekusoyen_0_1_0.boot_page.build.38
.Lrekusoyen_0_1_0.boot_page.build.9:
	mov	x10, xzr
.Lrekusoyen_0_1_0.boot_page.build.10:
	add	x11, x10, x9
	sub	x8, x2, x10
	add	x9, x23, x10
	add	x10, x22, x11
.Lrekusoyen_0_1_0.boot_page.build.11:
	ldrb	w11, [x9], #1
	subs	x8, x8, #1
	strb	w11, [x10], #1
	b.ne	.Lrekusoyen_0_1_0.boot_page.build.11
	b	.Lrekusoyen_0_1_0.boot_page.build.13
.Lrekusoyen_0_1_0.boot_page.build.12:
	mov	w24, w0
	mov	x0, x8
	mov	x1, x23
	bl	memmove
	mov	w0, w24
.Lrekusoyen_0_1_0.boot_page.build.13:
	cmp	x21, #529
	b.lo	.Lrekusoyen_0_1_0.boot_page.build.20
	mov	w8, #255
	cmp	x21, #553
	strb	w8, [x22, #528]
	b.lo	.Lrekusoyen_0_1_0.boot_page.build.22
	cmp	x21, #553
	strb	w28, [x22, #552]
	b.eq	.Lrekusoyen_0_1_0.boot_page.build.19
	lsr	w8, w28, #8
	cmp	x21, #554
	strb	w8, [x22, #553]
	b.eq	.Lrekusoyen_0_1_0.boot_page.build.19
	lsr	w8, w28, #16
	cmp	x21, #555
	strb	w8, [x22, #554]
	b.eq	.Lrekusoyen_0_1_0.boot_page.build.19
	lsr	w8, w28, #24
	strb	w8, [x22, #555]
.Lrekusoyen_0_1_0.boot_page.build.19:
	mov	w8, #540
	b	.Lrekusoyen_0_1_0.boot_page.build.23
.Lrekusoyen_0_1_0.boot_page.build.20:
	cmp	x21, #489
	b.hs	.Lrekusoyen_0_1_0.boot_page.build.30
	cbnz	x19, .Lrekusoyen_0_1_0.boot_page.build.31
	b	.Lrekusoyen_0_1_0.boot_page.build.36
.Lrekusoyen_0_1_0.boot_page.build.22:
	cmp	x21, #540
	mov	w8, #540
	csel	x8, x21, x8, lo
	cmp	x21, #537
	b.lo	.Lrekusoyen_0_1_0.boot_page.build.30
.Lrekusoyen_0_1_0.boot_page.build.23:
	sub	x8, x8, #536
	add	x9, x22, #536
.Lrekusoyen_0_1_0.boot_page.build.24:
	strb	w27, [x9], #1
	lsr	w27, w27, #8
	subs	x8, x8, #1
	b.ne	.Lrekusoyen_0_1_0.boot_page.build.24
	cmp	x21, #541
	b.lo	.Lrekusoyen_0_1_0.boot_page.build.30
	strb	w26, [x22, #540]
	b.eq	.Lrekusoyen_0_1_0.boot_page.build.30
	lsr	w8, w26, #8
	cmp	x21, #542
	strb	w8, [x22, #541]
	b.eq	.Lrekusoyen_0_1_0.boot_page.build.30
	lsr	w8, w26, #16
	cmp	x21, #543
	strb	w8, [x22, #542]
	b.eq	.Lrekusoyen_0_1_0.boot_page.build.30
	lsr	w8, w26, #24
	strb	w8, [x22, #543]
.Lrekusoyen_0_1_0.boot_page.build.30:
	mov	x8, #-6148914691236517206
	movk	x8, #43691
	umulh	x8, x19, x8
	lsr	x8, x8, #1
	strb	w8, [x22, #488]
	cbz	x19, .Lrekusoyen_0_1_0.boot_page.build.36
.Lrekusoyen_0_1_0.boot_page.build.31:
	mov	x8, xzr
	mov	w10, #720
	b	.Lrekusoyen_0_1_0.boot_page.build.33
.Lrekusoyen_0_1_0.boot_page.build.32:
	add	x8, x8, #1
	mov	x10, x9
	cmp	x8, x19
	b.eq	.Lrekusoyen_0_1_0.boot_page.build.36
.Lrekusoyen_0_1_0.boot_page.build.33:
	mov	x9, #-6148914691236517206
	adrp	x11, .Lrekusoyen_0_1_0.static.18
	add	x11, x11, :lo12:.Lrekusoyen_0_1_0.static.18
	movk	x9, #43691
	umulh	x9, x8, x9
	lsr	x9, x9, #1
	add	x9, x9, x9, lsl #1
	sub	x9, x8, x9
	ldr	x9, [x11, x9, lsl #3]
	mov	w11, #8
	cmp	x9, #8
	csel	x9, x9, x11, lo
	adds	x9, x9, x10
	csinv	x9, x9, xzr, lo
	cmp	x21, x9
	csel	x9, x21, x9, lo
	subs	x11, x10, x9
	b.hs	.Lrekusoyen_0_1_0.boot_page.build.32
	ldr	x12, [x20, x8, lsl #3]
	add	x10, x22, x10
.Lrekusoyen_0_1_0.boot_page.build.35:
	strb	w12, [x10], #1
	lsr	x12, x12, #8
	adds	x11, x11, #1
	b.lo	.Lrekusoyen_0_1_0.boot_page.build.35
	b	.Lrekusoyen_0_1_0.boot_page.build.32
.Lrekusoyen_0_1_0.boot_page.build.36:
	mov	w1, wzr
.Lrekusoyen_0_1_0.boot_page.build.37:
	ldp	x20, x19, [sp, #96]
	ldp	x22, x21, [sp, #80]
	ldp	x24, x23, [sp, #64]
	ldp	x26, x25, [sp, #48]
	ldp	x28, x27, [sp, #32]
	ldp	x29, x30, [sp, #16]
	add	sp, sp, #112
	ret
.Lrekusoyen_0_1_0.boot_page.build.38:
	cmp	x2, #16
	b.hs	.Lrekusoyen_0_1_0.boot_page.build.40
	mov	x10, xzr
	b	.Lrekusoyen_0_1_0.boot_page.build.49
.Lrekusoyen_0_1_0.boot_page.build.40:
	ldp	d0, d1, [x23]
	and	x10, x2, #0x70
	cmp	x10, #16
	stp	d0, d1, [x8]
	b.eq	.Lrekusoyen_0_1_0.boot_page.build.47
	ldp	d0, d1, [x23, #16]
	cmp	x10, #32
	stp	d0, d1, [x8, #16]
	b.eq	.Lrekusoyen_0_1_0.boot_page.build.47
	ldp	d0, d1, [x23, #32]
	cmp	x10, #48
	stp	d0, d1, [x8, #32]
	b.eq	.Lrekusoyen_0_1_0.boot_page.build.47
	ldp	d0, d1, [x23, #48]
	cmp	x10, #64
	stp	d0, d1, [x8, #48]
	b.eq	.Lrekusoyen_0_1_0.boot_page.build.47
	ldp	d0, d1, [x23, #64]
	cmp	x10, #80
	stp	d0, d1, [x8, #64]
	b.eq	.Lrekusoyen_0_1_0.boot_page.build.47
	ldp	d0, d1, [x23, #80]
	cmp	x10, #96
	stp	d0, d1, [x8, #80]
	b.eq	.Lrekusoyen_0_1_0.boot_page.build.47
	ldp	d0, d1, [x23, #96]
	stp	d0, d1, [x8, #96]
.Lrekusoyen_0_1_0.boot_page.build.47:
	cmp	x2, x10
	b.eq	.Lrekusoyen_0_1_0.boot_page.build.13
	and	x8, x2, #0xc
	cbz	x8, .Lrekusoyen_0_1_0.boot_page.build.10
.Lrekusoyen_0_1_0.boot_page.build.49:
	mov	x11, x10
	and	x10, x2, #0x7c
	add	x12, x22, x11
	sub	x8, x11, x10
	add	x11, x23, x11
	add	x12, x12, x9
.Lrekusoyen_0_1_0.boot_page.build.50:
	ldr	w13, [x11], #4
	adds	x8, x8, #4
	str	w13, [x12], #4
	b.ne	.Lrekusoyen_0_1_0.boot_page.build.50
	cmp	x2, x10
	b.eq	.Lrekusoyen_0_1_0.boot_page.build.13
	b	.Lrekusoyen_0_1_0.boot_page.build.10
.Lrekusoyen_0_1_0.boot_page.build.func_end:
	.size	rekusoyen_0_1_0.boot_page.build, .Lrekusoyen_0_1_0.boot_page.build.func_end-rekusoyen_0_1_0.boot_page.build
	.section	.text.rekusoyen_0_1_0.boot_page.building.check,"ax",@progbits
	.p2align	2
	.type	rekusoyen_0_1_0.boot_page.building.check,@function
rekusoyen_0_1_0.boot_page.building.check:
	cmp	x0, #1, lsl #12
	b.ne	.Lrekusoyen_0_1_0.boot_page.building.check.3
	mov	x8, #-6148914691236517206
	mov	x9, #6148914691236517205
	movk	x8, #43691
	mul	x8, x2, x8
	cmp	x8, x9
	b.ls	.Lrekusoyen_0_1_0.boot_page.building.check.5
.Lrekusoyen_0_1_0.boot_page.building.check.2:
	mov	w0, #1
	mov	w1, #32
	ret
.Lrekusoyen_0_1_0.boot_page.building.check.3:
	mov	w0, #1
	mov	w8, #39
.Lrekusoyen_0_1_0.boot_page.building.check.4:
	mov	w1, w8
	ret
.Lrekusoyen_0_1_0.boot_page.building.check.5:
	cbz	x2, .Lrekusoyen_0_1_0.boot_page.building.check.12
	mov	x8, xzr
	adrp	x9, .Lrekusoyen_0_1_0.static.18
	add	x9, x9, :lo12:.Lrekusoyen_0_1_0.static.18
	b	.Lrekusoyen_0_1_0.boot_page.building.check.8
.Lrekusoyen_0_1_0.boot_page.building.check.7:
	add	x8, x8, #1
	add	x9, x9, #8
	cmp	x2, x8
	b.eq	.Lrekusoyen_0_1_0.boot_page.building.check.10
.Lrekusoyen_0_1_0.boot_page.building.check.8:
	mov	x10, #-6148914691236517206
	mov	x11, #-24
	movk	x10, #43691
	umulh	x10, x8, x10
	lsr	x10, x10, #1
	mul	x10, x10, x11
	ldr	x10, [x9, x10]
	cmp	x10, #7
	b.hi	.Lrekusoyen_0_1_0.boot_page.building.check.7
	adrp	x12, .Lrekusoyen_0_1_0.switch.table.start_info.writing.check
	add	x12, x12, :lo12:.Lrekusoyen_0_1_0.switch.table.start_info.writing.check
	ldr	x11, [x1, x8, lsl #3]
	ldr	x10, [x12, x10, lsl #3]
	cmp	x11, x10
	b.lo	.Lrekusoyen_0_1_0.boot_page.building.check.7
	b	.Lrekusoyen_0_1_0.boot_page.building.check.2
.Lrekusoyen_0_1_0.boot_page.building.check.10:
	cmp	x2, #386
	b.hi	.Lrekusoyen_0_1_0.boot_page.building.check.13
	cmp	x2, #3
	b.hs	.Lrekusoyen_0_1_0.boot_page.building.check.14
.Lrekusoyen_0_1_0.boot_page.building.check.12:
	mov	w0, wzr
	mov	w1, wzr
	ret
.Lrekusoyen_0_1_0.boot_page.building.check.13:
	mov	w0, #1
	mov	w1, #40
	ret
.Lrekusoyen_0_1_0.boot_page.building.check.14:
	mov	w8, #43691
	mov	x9, xzr
	mov	x10, xzr
	mul	w8, w2, w8
	sub	x12, x1, #24
	lsr	w11, w8, #17
	b	.Lrekusoyen_0_1_0.boot_page.building.check.16
.Lrekusoyen_0_1_0.boot_page.building.check.15:
	add	x10, x10, #1
	mov	w8, wzr
	mov	w0, wzr
	cmp	x10, x11
	sub	x9, x9, #1
	add	x12, x12, #24
	b.eq	.Lrekusoyen_0_1_0.boot_page.building.check.4
.Lrekusoyen_0_1_0.boot_page.building.check.16:
	mov	w8, #24
	madd	x13, x10, x8, x1
	ldp	x13, x8, [x13]
	mvn	x14, x8
	cmp	x8, #0
	ccmp	x13, x14, #2, ne
	b.hi	.Lrekusoyen_0_1_0.boot_page.building.check.24
	cbz	x10, .Lrekusoyen_0_1_0.boot_page.building.check.15
	mov	x14, x12
	mov	x15, x9
	b	.Lrekusoyen_0_1_0.boot_page.building.check.21
.Lrekusoyen_0_1_0.boot_page.building.check.19:
	cmp	x16, x0
	b.hi	.Lrekusoyen_0_1_0.boot_page.building.check.24
.Lrekusoyen_0_1_0.boot_page.building.check.20:
	adds	x15, x15, #1
	sub	x14, x14, #24
	b.hs	.Lrekusoyen_0_1_0.boot_page.building.check.15
.Lrekusoyen_0_1_0.boot_page.building.check.21:
	ldp	x17, x16, [x14]
	subs	x0, x13, x17
	b.hs	.Lrekusoyen_0_1_0.boot_page.building.check.19
	sub	x17, x17, x13
	cmp	x8, x17
	b.ls	.Lrekusoyen_0_1_0.boot_page.building.check.20
	cbz	x16, .Lrekusoyen_0_1_0.boot_page.building.check.20
.Lrekusoyen_0_1_0.boot_page.building.check.24:
	mov	w0, #1
	mov	w1, #41
	ret
.Lrekusoyen_0_1_0.boot_page.building.check.func_end:
	.size	rekusoyen_0_1_0.boot_page.building.check, .Lrekusoyen_0_1_0.boot_page.building.check.func_end-rekusoyen_0_1_0.boot_page.building.check
	.section	.text.rekusoyen_0_1_0.boot.pvh.plan,"ax",@progbits
	.p2align	2
	.type	rekusoyen_0_1_0.boot.pvh.plan,@function
rekusoyen_0_1_0.boot.pvh.plan:
	sub	sp, sp, #480
	stp	x29, x30, [sp, #384]
	add	x29, sp, #384
	movi	v2.2d, #0000000000000000
	ldr	x9, [x29, #120]
	ldp	q0, q1, [x4]
	stp	x28, x27, [sp, #400]
	ldr	x8, [x4, #32]
	stp	x24, x23, [sp, #432]
	ldp	x28, x24, [x9]
	stp	x26, x25, [sp, #416]
	mov	x25, x4
	mov	x26, x0
	stp	x20, x19, [sp, #464]
	ldr	w27, [x9, #16]
	add	x0, sp, #112
	ldr	x19, [x9, #24]
	add	x4, sp, #176
	stp	x22, x21, [sp, #448]
	str	x7, [sp, #104]
	mov	w20, w5
	mov	x21, x3
	str	w6, [sp, #100]
	mov	x22, x2
	mov	x23, x1
	stp	q0, q1, [sp, #176]
	str	x8, [sp, #208]
	stp	q2, q2, [sp, #112]
	str	q2, [sp, #144]
	str	xzr, [sp, #160]
	bl	rekusoyen_0_1_0.loads.formats.plan
	ldrb	w8, [sp, #112]
	cbz	w8, .Lrekusoyen_0_1_0.boot.pvh.plan.2
	movi	v0.2d, #0000000000000000
	ldrb	w8, [sp, #113]
	mov	w9, #1
	strb	w9, [x26]
	strb	w8, [x26, #1]
	str	xzr, [x26, #56]
	stur	q0, [x26, #8]
	stur	q0, [x26, #24]
	stur	q0, [x26, #40]
	b	.Lrekusoyen_0_1_0.boot.pvh.plan.12
.Lrekusoyen_0_1_0.boot.pvh.plan.2:
	ldp	q0, q1, [x25]
	ldr	x2, [sp, #104]
	ldp	x11, x10, [sp, #120]
	stp	x23, x26, [sp, #80]
	ldrb	w23, [sp, #136]
	ldr	x8, [x25, #32]
	ldr	x12, [sp, #144]
	stp	x19, x27, [sp, #56]
	str	x24, [sp, #72]
	stp	q0, q1, [x29, #-128]
	stur	x8, [x29, #-96]
	cbnz	x23, .Lrekusoyen_0_1_0.boot.pvh.plan.10
	lsr	x8, x12, #32
	cbnz	x8, .Lrekusoyen_0_1_0.boot.pvh.plan.10
	ldp	x4, x27, [x29, #104]
	mov	x9, x28
	ldr	x24, [x29, #96]
	ldr	x28, [sp, #80]
	mov	x1, x9
	stp	x12, x11, [sp, #32]
	mov	x25, x9
	mov	x0, x28
	mov	x3, x24
	mov	x5, x27
	str	x10, [sp, #48]
	bl	rekusoyen_0_1_0.loader.plan_texts
	tst	w0, #0xff
	b.ne	.Lrekusoyen_0_1_0.boot.pvh.plan.11
	str	x24, [sp, #104]
	ldp	x10, x8, [sp, #64]
	str	x27, [sp, #24]
	sub	x1, x29, #56
	mov	x0, x28
	ldp	x27, x24, [x29, #128]
	ldr	x26, [x29, #144]
	add	x9, x10, #56
	stp	xzr, xzr, [x29, #-72]
	stp	x10, x9, [x29, #-56]
	sub	x10, x29, #88
	mov	x5, x26
	stp	x8, x27, [x29, #-88]
	mov	w8, #32
	cmp	x27, #0
	csel	x8, xzr, x8, eq
	mov	x4, x24
	add	x8, x9, x8
	mov	w9, #4
	stp	x8, xzr, [x29, #-40]
	adrp	x8, .Lrekusoyen_0_1_0.static.19
	add	x8, x8, :lo12:.Lrekusoyen_0_1_0.static.19
	csel	x2, x8, x10, eq
	ldr	x8, [sp, #56]
	csel	x3, xzr, x9, eq
	stp	x25, x8, [x29, #-24]
	bl	rekusoyen_0_1_0.start_info.writing.check
	tst	w0, #0xff
	b.ne	.Lrekusoyen_0_1_0.boot.pvh.plan.11
	ldurb	w8, [x29, #-128]
	mov	x28, x23
	cmp	w8, #1
	b.ne	.Lrekusoyen_0_1_0.boot.pvh.plan.13
	ldp	x12, x7, [sp, #64]
	cmp	x21, #520
	ldr	x11, [sp, #24]
	ldr	x13, [sp, #104]
	add	x23, sp, #112
	b.lo	.Lrekusoyen_0_1_0.boot.pvh.plan.9
	ldrh	w8, [x22, #518]
	cmp	w8, #518
	b.hs	.Lrekusoyen_0_1_0.boot.pvh.plan.22
.Lrekusoyen_0_1_0.boot.pvh.plan.9:
	mov	w8, #255
	b	.Lrekusoyen_0_1_0.boot.pvh.plan.14
.Lrekusoyen_0_1_0.boot.pvh.plan.10:
	and	x8, x12, #0xffffffff00000000
	cmp	w23, #0
	mov	w9, #58
	ccmp	x8, #0, #4, eq
	mov	w8, #56
	csel	w8, w8, wzr, ne
	cmp	w23, #0
	csel	w1, w9, w8, ne
.Lrekusoyen_0_1_0.boot.pvh.plan.11:
	movi	v0.2d, #0000000000000000
	ldr	x9, [sp, #88]
	mov	w8, #1
	strb	w1, [x9, #1]
	strb	w8, [x9]
	stur	q0, [x9, #8]
	stur	q0, [x9, #24]
	stur	q0, [x9, #40]
	str	xzr, [x9, #56]
.Lrekusoyen_0_1_0.boot.pvh.plan.12:
	ldp	x20, x19, [sp, #464]
	ldp	x22, x21, [sp, #448]
	ldp	x24, x23, [sp, #432]
	ldp	x26, x25, [sp, #416]
	ldp	x28, x27, [sp, #400]
	ldp	x29, x30, [sp, #384]
	add	sp, sp, #480
	ret
.Lrekusoyen_0_1_0.boot.pvh.plan.13:
	ldr	w8, [sp, #100]
	ldp	x12, x7, [sp, #64]
	tst	w20, #0x1
	mov	w9, #2047
	ldr	x11, [sp, #24]
	mov	w8, w8
	ldr	x13, [sp, #104]
	add	x23, sp, #112
	csel	x8, x8, x9, ne
.Lrekusoyen_0_1_0.boot.pvh.plan.14:
	cbz	x11, .Lrekusoyen_0_1_0.boot.pvh.plan.18
	subs	x9, x8, x13
	b.lo	.Lrekusoyen_0_1_0.boot.pvh.plan.18
	subs	x8, x9, #4
	mov	w1, #55
	b.lo	.Lrekusoyen_0_1_0.boot.pvh.plan.11
	cmp	x11, x8
	b.ls	.Lrekusoyen_0_1_0.boot.pvh.plan.20
	b	.Lrekusoyen_0_1_0.boot.pvh.plan.11
.Lrekusoyen_0_1_0.boot.pvh.plan.18:
	mov	w1, #55
	cbnz	x11, .Lrekusoyen_0_1_0.boot.pvh.plan.11
	cmp	x8, x13
	b.lo	.Lrekusoyen_0_1_0.boot.pvh.plan.11
.Lrekusoyen_0_1_0.boot.pvh.plan.20:
	add	x8, x13, #5
	lsr	x9, x26, #2
	mov	x10, #4294967296
	adds	x8, x11, x8
	ldr	x0, [sp, #80]
	sub	x3, x29, #128
	csinv	x8, x8, xzr, lo
	cmp	x11, #0
	mov	w11, #24
	csinc	x6, x8, x13, ne
	cmp	x9, x10
	sub	x4, x29, #160
	csel	x8, x9, x10, lo
	cmp	x27, #0
	mov	w9, #88
	mov	w10, #56
	mov	x1, x22
	mov	x2, x21
	csel	x9, x10, x9, eq
	madd	x8, x8, x11, x9
	mov	x5, x25
	mov	w9, #1
	stp	x27, x12, [sp]
	stp	x9, x24, [x29, #-160]
	mov	w9, #4
	stp	x26, x9, [x29, #-144]
	str	x8, [sp, #16]
	bl	rekusoyen_0_1_0.boot.pieces.check
	tst	w0, #0xff
	b.ne	.Lrekusoyen_0_1_0.boot.pvh.plan.11
	ldr	x9, [sp, #88]
	ldr	x8, [sp, #40]
	ldur	q0, [x23, #40]
	str	x8, [x9, #8]
	ldr	x8, [sp, #48]
	strh	wzr, [x9]
	stp	x8, x28, [x9, #16]
	ldr	x8, [sp, #32]
	stur	q0, [x9, #40]
	str	x8, [x9, #32]
	str	x8, [x9, #56]
	b	.Lrekusoyen_0_1_0.boot.pvh.plan.12
.Lrekusoyen_0_1_0.boot.pvh.plan.22:
	cmp	x21, #571
	b.ls	.Lrekusoyen_0_1_0.boot.pvh.plan.24
	ldr	w8, [x22, #568]
	b	.Lrekusoyen_0_1_0.boot.pvh.plan.14
.Lrekusoyen_0_1_0.boot.pvh.plan.24:
	subs	x8, x21, #568
	csel	x8, xzr, x8, lo
	cmp	x8, #3
	b.ne	.Lrekusoyen_0_1_0.boot.pvh.plan.26
	ldrb	w8, [x22, #570]
	lsl	x9, x8, #8
	b	.Lrekusoyen_0_1_0.boot.pvh.plan.27
.Lrekusoyen_0_1_0.boot.pvh.plan.26:
	mov	x9, xzr
	cmp	x8, #2
	mov	x8, xzr
	b.lo	.Lrekusoyen_0_1_0.boot.pvh.plan.28
.Lrekusoyen_0_1_0.boot.pvh.plan.27:
	ldrb	w8, [x22, #569]
	orr	x8, x9, x8
	lsl	x8, x8, #8
	cmp	x21, #569
	b.lo	.Lrekusoyen_0_1_0.boot.pvh.plan.14
	b	.Lrekusoyen_0_1_0.boot.pvh.plan.29
.Lrekusoyen_0_1_0.boot.pvh.plan.28:
	cmp	x21, #569
	b.lo	.Lrekusoyen_0_1_0.boot.pvh.plan.14
.Lrekusoyen_0_1_0.boot.pvh.plan.29:
	ldrb	w9, [x22, #568]
	orr	x8, x8, x9
	b	.Lrekusoyen_0_1_0.boot.pvh.plan.14
.Lrekusoyen_0_1_0.boot.pvh.plan.func_end:
	.size	rekusoyen_0_1_0.boot.pvh.plan, .Lrekusoyen_0_1_0.boot.pvh.plan.func_end-rekusoyen_0_1_0.boot.pvh.plan
	.section	.text.rekusoyen_0_1_0.start_info.writing.check,"ax",@progbits
	.p2align	2
	.type	rekusoyen_0_1_0.start_info.writing.check,@function
rekusoyen_0_1_0.start_info.writing.check:
	sub	sp, sp, #80
	ldr	x12, [x0]
	mov	x8, #1099511627776
	stp	x29, x30, [sp, #64]
	add	x29, sp, #64
	cmp	x12, x8
	b.hi	.Lrekusoyen_0_1_0.start_info.writing.check.4
	ldr	x13, [x0, #8]
	cmp	x13, #16
	b.ls	.Lrekusoyen_0_1_0.start_info.writing.check.5
.Lrekusoyen_0_1_0.start_info.writing.check.2:
	mov	w8, #1
	mov	w1, #43
.Lrekusoyen_0_1_0.start_info.writing.check.3:
	ldp	x29, x30, [sp, #64]
	mov	w0, w8
	add	sp, sp, #80
	ret
.Lrekusoyen_0_1_0.start_info.writing.check.4:
	mov	w8, #1
	mov	w1, #31
	ldp	x29, x30, [sp, #64]
	mov	w0, w8
	add	sp, sp, #80
	ret
.Lrekusoyen_0_1_0.start_info.writing.check.5:
	ldp	x10, x11, [x1]
	ldr	x9, [x1, #16]
	cbz	x13, .Lrekusoyen_0_1_0.start_info.writing.check.16
	ldr	x15, [x0, #144]
	cbz	x15, .Lrekusoyen_0_1_0.start_info.writing.check.2
	ldr	x16, [x0, #16]
	mov	w8, #1
	mov	w1, #43
	subs	x14, x12, x16
	b.lo	.Lrekusoyen_0_1_0.start_info.writing.check.3
	cmp	x15, x14
	b.hi	.Lrekusoyen_0_1_0.start_info.writing.check.3
	subs	x14, x13, #1
	b.eq	.Lrekusoyen_0_1_0.start_info.writing.check.16
	add	x8, x15, x16
	add	x15, x0, #152
.Lrekusoyen_0_1_0.start_info.writing.check.11:
	ldur	x16, [x15, #-128]
	mov	w1, #43
	cmp	x8, x16
	mov	w8, #1
	b.hs	.Lrekusoyen_0_1_0.start_info.writing.check.3
	ldr	x17, [x15], #8
	cbz	x17, .Lrekusoyen_0_1_0.start_info.writing.check.3
	subs	x6, x12, x16
	b.lo	.Lrekusoyen_0_1_0.start_info.writing.check.3
	cmp	x17, x6
	b.hi	.Lrekusoyen_0_1_0.start_info.writing.check.3
	subs	x14, x14, #1
	add	x8, x17, x16
	b.ne	.Lrekusoyen_0_1_0.start_info.writing.check.11
.Lrekusoyen_0_1_0.start_info.writing.check.16:
	tst	x3, #0x3
	b.eq	.Lrekusoyen_0_1_0.start_info.writing.check.18
.Lrekusoyen_0_1_0.start_info.writing.check.17:
	mov	w8, #1
	mov	w1, #32
	ldp	x29, x30, [sp, #64]
	mov	w0, w8
	add	sp, sp, #80
	ret
.Lrekusoyen_0_1_0.start_info.writing.check.18:
	mov	x14, xzr
.Lrekusoyen_0_1_0.start_info.writing.check.19:
	cmp	x3, x14
	b.eq	.Lrekusoyen_0_1_0.start_info.writing.check.22
	mov	x8, x14
	mvn	w14, w8
	tst	x14, #0x3
	add	x14, x8, #1
	b.ne	.Lrekusoyen_0_1_0.start_info.writing.check.19
	ldr	x15, [x2, x8, lsl #3]
	mov	w8, #1
	mov	w1, #32
	cbz	x15, .Lrekusoyen_0_1_0.start_info.writing.check.19
	b	.Lrekusoyen_0_1_0.start_info.writing.check.3
.Lrekusoyen_0_1_0.start_info.writing.check.22:
	tst	x5, #0x3
	b.ne	.Lrekusoyen_0_1_0.start_info.writing.check.17
	cbz	x5, .Lrekusoyen_0_1_0.start_info.writing.check.28
	mov	x8, xzr
	mov	x14, x5
	b	.Lrekusoyen_0_1_0.start_info.writing.check.26
.Lrekusoyen_0_1_0.start_info.writing.check.25:
	sub	x14, x14, #1
	add	x8, x8, #8
	cbz	x14, .Lrekusoyen_0_1_0.start_info.writing.check.28
.Lrekusoyen_0_1_0.start_info.writing.check.26:
	and	x15, x8, #0x18
	adrp	x16, .Lrekusoyen_0_1_0.static.21
	add	x16, x16, :lo12:.Lrekusoyen_0_1_0.static.21
	ldr	x15, [x16, x15]
	cmp	x15, #7
	b.hi	.Lrekusoyen_0_1_0.start_info.writing.check.25
	adrp	x17, .Lrekusoyen_0_1_0.switch.table.start_info.writing.check
	add	x17, x17, :lo12:.Lrekusoyen_0_1_0.switch.table.start_info.writing.check
	ldr	x16, [x4, x8]
	ldr	x15, [x17, x15, lsl #3]
	cmp	x16, x15
	b.lo	.Lrekusoyen_0_1_0.start_info.writing.check.25
	b	.Lrekusoyen_0_1_0.start_info.writing.check.17
.Lrekusoyen_0_1_0.start_info.writing.check.28:
	mov	x14, xzr
.Lrekusoyen_0_1_0.start_info.writing.check.29:
	cmp	x5, x14
	b.eq	.Lrekusoyen_0_1_0.start_info.writing.check.32
	mov	x8, x14
	mvn	w14, w8
	tst	x14, #0x3
	add	x14, x8, #1
	b.ne	.Lrekusoyen_0_1_0.start_info.writing.check.29
	ldr	x15, [x4, x8, lsl #3]
	mov	w8, #1
	mov	w1, #32
	cbz	x15, .Lrekusoyen_0_1_0.start_info.writing.check.29
	b	.Lrekusoyen_0_1_0.start_info.writing.check.3
.Lrekusoyen_0_1_0.start_info.writing.check.32:
	orr	x8, x5, x3
	lsr	x8, x8, #34
	cbnz	x8, .Lrekusoyen_0_1_0.start_info.writing.check.57
	subs	x14, x12, x10
	mov	w8, #1
	mov	w1, #42
	b.lo	.Lrekusoyen_0_1_0.start_info.writing.check.3
	cmp	x14, #56
	b.lo	.Lrekusoyen_0_1_0.start_info.writing.check.3
	cmp	x13, #16
	mov	w8, #16
	csel	x14, x13, x8, lo
	cbz	x13, .Lrekusoyen_0_1_0.start_info.writing.check.52
	lsr	x8, x5, #1
	lsl	x13, x3, #3
	add	x15, x0, #144
	mov	x16, x14
	add	x17, x0, #144
	add	x8, x8, x5, lsr #2
	lsl	x2, x8, #3
	b	.Lrekusoyen_0_1_0.start_info.writing.check.38
.Lrekusoyen_0_1_0.start_info.writing.check.37:
	subs	x16, x16, #1
	add	x17, x17, #8
	mov	w8, #1
	mov	w1, #42
	b.eq	.Lrekusoyen_0_1_0.start_info.writing.check.3
.Lrekusoyen_0_1_0.start_info.writing.check.38:
	ldur	x8, [x17, #-128]
	subs	x8, x10, x8
	b.lo	.Lrekusoyen_0_1_0.start_info.writing.check.37
	ldr	x1, [x17]
	subs	x8, x1, x8
	b.lo	.Lrekusoyen_0_1_0.start_info.writing.check.37
	cmp	x8, #55
	b.ls	.Lrekusoyen_0_1_0.start_info.writing.check.37
	cbz	x3, .Lrekusoyen_0_1_0.start_info.writing.check.48
	subs	x12, x12, x11
	mov	w8, #1
	mov	w1, #42
	b.lo	.Lrekusoyen_0_1_0.start_info.writing.check.3
	cmp	x13, x12
	b.ls	.Lrekusoyen_0_1_0.start_info.writing.check.45
	b	.Lrekusoyen_0_1_0.start_info.writing.check.3
.Lrekusoyen_0_1_0.start_info.writing.check.44:
	subs	x14, x14, #1
	add	x15, x15, #8
	mov	w8, #1
	mov	w1, #42
	b.eq	.Lrekusoyen_0_1_0.start_info.writing.check.3
.Lrekusoyen_0_1_0.start_info.writing.check.45:
	ldur	x8, [x15, #-128]
	subs	x8, x11, x8
	b.lo	.Lrekusoyen_0_1_0.start_info.writing.check.44
	ldr	x12, [x15]
	subs	x8, x12, x8
	b.lo	.Lrekusoyen_0_1_0.start_info.writing.check.44
	cmp	x13, x8
	b.hi	.Lrekusoyen_0_1_0.start_info.writing.check.44
.Lrekusoyen_0_1_0.start_info.writing.check.48:
	mov	x1, x9
	str	x13, [sp, #32]
	stp	x11, x10, [x29, #-16]
	stp	x5, x3, [sp, #16]
	stur	x9, [x29, #-24]
	str	x2, [sp, #8]
	bl	rekusoyen_0_1_0.guest.room.room_for
	cbz	w0, .Lrekusoyen_0_1_0.start_info.writing.check.57
	ldp	x8, x9, [x29, #-16]
	subs	x8, x9, x8
	b.hs	.Lrekusoyen_0_1_0.start_info.writing.check.53
	ldr	x8, [sp, #24]
	cbz	x8, .Lrekusoyen_0_1_0.start_info.writing.check.54
	ldp	x8, x9, [x29, #-16]
	sub	x8, x8, x9
	cmp	x8, #55
	b.ls	.Lrekusoyen_0_1_0.start_info.writing.check.57
	b	.Lrekusoyen_0_1_0.start_info.writing.check.54
.Lrekusoyen_0_1_0.start_info.writing.check.52:
	mov	w8, #1
	ldp	x29, x30, [sp, #64]
	mov	w0, w8
	add	sp, sp, #80
	ret
.Lrekusoyen_0_1_0.start_info.writing.check.53:
	ldr	x9, [sp, #32]
	cmp	x9, x8
	b.hi	.Lrekusoyen_0_1_0.start_info.writing.check.57
.Lrekusoyen_0_1_0.start_info.writing.check.54:
	ldur	x8, [x29, #-24]
	ldur	x9, [x29, #-8]
	subs	x8, x9, x8
	b.hs	.Lrekusoyen_0_1_0.start_info.writing.check.58
	ldr	x8, [sp, #16]
	cbz	x8, .Lrekusoyen_0_1_0.start_info.writing.check.59
	ldur	x8, [x29, #-24]
	ldur	x9, [x29, #-8]
	sub	x8, x8, x9
	cmp	x8, #55
	b.hi	.Lrekusoyen_0_1_0.start_info.writing.check.59
.Lrekusoyen_0_1_0.start_info.writing.check.57:
	mov	w8, #1
	mov	w1, #42
	ldp	x29, x30, [sp, #64]
	mov	w0, w8
	add	sp, sp, #80
	ret
.Lrekusoyen_0_1_0.start_info.writing.check.58:
	ldr	x9, [sp, #8]
	cmp	x9, x8
	b.hi	.Lrekusoyen_0_1_0.start_info.writing.check.57
.Lrekusoyen_0_1_0.start_info.writing.check.59:
	ldp	x9, x8, [x29, #-24]
	subs	x8, x8, x9
	b.hs	.Lrekusoyen_0_1_0.start_info.writing.check.61
	ldp	x9, x8, [x29, #-24]
	sub	x9, x9, x8
	ldr	x8, [sp, #16]
	cmp	x8, #0
	ldr	x8, [sp, #32]
	ccmp	x8, x9, #0, ne
	b	.Lrekusoyen_0_1_0.start_info.writing.check.62
.Lrekusoyen_0_1_0.start_info.writing.check.61:
	ldr	x9, [sp, #24]
	cmp	x9, #0
	ldr	x9, [sp, #8]
	ccmp	x9, x8, #0, ne
.Lrekusoyen_0_1_0.start_info.writing.check.62:
	cset	w8, ls
	mov	w9, #42
	cmp	w8, #0
	eor	w8, w8, #0x1
	csel	w1, wzr, w9, ne
	ldp	x29, x30, [sp, #64]
	mov	w0, w8
	add	sp, sp, #80
	ret
.Lrekusoyen_0_1_0.start_info.writing.check.func_end:
	.size	rekusoyen_0_1_0.start_info.writing.check, .Lrekusoyen_0_1_0.start_info.writing.check.func_end-rekusoyen_0_1_0.start_info.writing.check
	.section	.text.rekusoyen_0_1_0.boot.pieces.check,"ax",@progbits
	.p2align	2
	.type	rekusoyen_0_1_0.boot.pieces.check,@function
rekusoyen_0_1_0.boot.pieces.check:
	sub	sp, sp, #272
	ldrb	w8, [x4]
	stp	x22, x21, [sp, #240]
	mov	x22, x3
	stp	x20, x19, [sp, #256]
	ldrb	w20, [x22], #1
	str	w8, [sp, #44]
	ldr	x8, [x4, #8]
	mov	x19, x7
	stp	x26, x25, [sp, #208]
	mov	x21, x5
	mov	x26, x0
	str	x8, [sp, #24]
	ldr	x8, [x4, #16]
	stp	x24, x23, [sp, #224]
	mov	x23, x2
	mov	x24, x1
	str	x8, [sp, #32]
	ldr	x8, [x4, #24]
	stp	x29, x30, [sp, #176]
	add	x29, sp, #176
	stp	x28, x27, [sp, #192]
	stp	x8, x6, [sp, #48]
	cbz	w20, .Lrekusoyen_0_1_0.boot.pieces.check.16
	mov	w27, #1
.Lrekusoyen_0_1_0.boot.pieces.check.2:
	sub	x8, x29, #48
	mov	x25, xzr
	orr	x28, x8, #0x1
	b	.Lrekusoyen_0_1_0.boot.pieces.check.4
.Lrekusoyen_0_1_0.boot.pieces.check.3:
	add	x25, x25, #1
	cmp	x25, x27
	b.eq	.Lrekusoyen_0_1_0.boot.pieces.check.20
.Lrekusoyen_0_1_0.boot.pieces.check.4:
	ldp	q0, q1, [x22]
	sub	x2, x29, #48
	ldur	x8, [x22, #31]
	mov	x0, x24
	mov	x1, x23
	mov	x3, x25
	sturb	w20, [x29, #-48]
	stp	q0, q1, [x28]
	stur	x8, [x28, #31]
	bl	rekusoyen_0_1_0.loads.formats.memory
	cbz	x1, .Lrekusoyen_0_1_0.boot.pieces.check.3
	ldr	x8, [x26]
	subs	x8, x8, x0
	b.lo	.Lrekusoyen_0_1_0.boot.pieces.check.13
	cmp	x1, x8
	b.hi	.Lrekusoyen_0_1_0.boot.pieces.check.13
	ldr	x9, [x26, #8]
	mov	w8, #16
	cmp	x9, #16
	csel	x8, x9, x8, lo
	cbz	x9, .Lrekusoyen_0_1_0.boot.pieces.check.13
	add	x9, x26, #144
	b	.Lrekusoyen_0_1_0.boot.pieces.check.10
.Lrekusoyen_0_1_0.boot.pieces.check.9:
	subs	x8, x8, #1
	add	x9, x9, #8
	b.eq	.Lrekusoyen_0_1_0.boot.pieces.check.13
.Lrekusoyen_0_1_0.boot.pieces.check.10:
	ldur	x10, [x9, #-128]
	subs	x10, x0, x10
	b.lo	.Lrekusoyen_0_1_0.boot.pieces.check.9
	ldr	x11, [x9]
	subs	x10, x11, x10
	b.lo	.Lrekusoyen_0_1_0.boot.pieces.check.9
	cmp	x1, x10
	b.hi	.Lrekusoyen_0_1_0.boot.pieces.check.9
	b	.Lrekusoyen_0_1_0.boot.pieces.check.3
.Lrekusoyen_0_1_0.boot.pieces.check.13:
	mov	w1, #60
.Lrekusoyen_0_1_0.boot.pieces.check.14:
	mov	w0, #1
.Lrekusoyen_0_1_0.boot.pieces.check.15:
	ldp	x20, x19, [sp, #256]
	ldp	x22, x21, [sp, #240]
	ldp	x24, x23, [sp, #224]
	ldp	x26, x25, [sp, #208]
	ldp	x28, x27, [sp, #192]
	ldp	x29, x30, [sp, #176]
	add	sp, sp, #272
	ret
.Lrekusoyen_0_1_0.boot.pieces.check.16:
	cmp	x23, #57
	b.ls	.Lrekusoyen_0_1_0.boot.pieces.check.18
	ldrh	w27, [x24, #56]
	cbnz	x27, .Lrekusoyen_0_1_0.boot.pieces.check.2
	b	.Lrekusoyen_0_1_0.boot.pieces.check.20
.Lrekusoyen_0_1_0.boot.pieces.check.18:
	b.ne	.Lrekusoyen_0_1_0.boot.pieces.check.20
	ldrb	w27, [x24, #56]
	cbnz	x27, .Lrekusoyen_0_1_0.boot.pieces.check.2
.Lrekusoyen_0_1_0.boot.pieces.check.20:
	ldr	x25, [x29, #96]
	cbz	x25, .Lrekusoyen_0_1_0.boot.pieces.check.29
	ldr	x8, [x26]
	mov	w1, #61
	mov	w0, #1
	subs	x8, x8, x19
	b.lo	.Lrekusoyen_0_1_0.boot.pieces.check.15
	cmp	x25, x8
	b.hi	.Lrekusoyen_0_1_0.boot.pieces.check.15
	ldr	x9, [x26, #8]
	mov	w8, #16
	cmp	x9, #16
	csel	x8, x9, x8, lo
	cbz	x9, .Lrekusoyen_0_1_0.boot.pieces.check.15
	add	x9, x26, #144
	b	.Lrekusoyen_0_1_0.boot.pieces.check.26
.Lrekusoyen_0_1_0.boot.pieces.check.25:
	subs	x8, x8, #1
	add	x9, x9, #8
	mov	w1, #61
	mov	w0, #1
	b.eq	.Lrekusoyen_0_1_0.boot.pieces.check.15
.Lrekusoyen_0_1_0.boot.pieces.check.26:
	ldur	x10, [x9, #-128]
	subs	x10, x19, x10
	b.lo	.Lrekusoyen_0_1_0.boot.pieces.check.25
	ldr	x11, [x9]
	subs	x10, x11, x10
	b.lo	.Lrekusoyen_0_1_0.boot.pieces.check.25
	cmp	x25, x10
	b.hi	.Lrekusoyen_0_1_0.boot.pieces.check.25
.Lrekusoyen_0_1_0.boot.pieces.check.29:
	ldp	x28, x27, [x29, #104]
	cbz	x27, .Lrekusoyen_0_1_0.boot.pieces.check.38
	ldr	x8, [x26]
	mov	w1, #62
	mov	w0, #1
	subs	x8, x8, x28
	b.lo	.Lrekusoyen_0_1_0.boot.pieces.check.15
	cmp	x27, x8
	b.hi	.Lrekusoyen_0_1_0.boot.pieces.check.15
	ldr	x9, [x26, #8]
	mov	w8, #16
	cmp	x9, #16
	csel	x8, x9, x8, lo
	cbz	x9, .Lrekusoyen_0_1_0.boot.pieces.check.15
	add	x9, x26, #144
	b	.Lrekusoyen_0_1_0.boot.pieces.check.35
.Lrekusoyen_0_1_0.boot.pieces.check.34:
	subs	x8, x8, #1
	add	x9, x9, #8
	mov	w1, #62
	mov	w0, #1
	b.eq	.Lrekusoyen_0_1_0.boot.pieces.check.15
.Lrekusoyen_0_1_0.boot.pieces.check.35:
	ldur	x10, [x9, #-128]
	subs	x10, x28, x10
	b.lo	.Lrekusoyen_0_1_0.boot.pieces.check.34
	ldr	x11, [x9]
	subs	x10, x11, x10
	b.lo	.Lrekusoyen_0_1_0.boot.pieces.check.34
	cmp	x27, x10
	b.hi	.Lrekusoyen_0_1_0.boot.pieces.check.34
.Lrekusoyen_0_1_0.boot.pieces.check.38:
	ldp	q0, q1, [x22]
	sub	x2, x29, #48
	ldr	x26, [sp, #56]
	ldur	x8, [x22, #31]
	mov	x0, x24
	mov	x1, x23
	mov	x3, x21
	sturb	w20, [x29, #-48]
	mov	x4, x26
	stur	q0, [x29, #-47]
	stur	q1, [x29, #-31]
	stur	x8, [x29, #-16]
	bl	rekusoyen_0_1_0.boot.kernel.is_apart
	cbz	w0, .Lrekusoyen_0_1_0.boot.pieces.check.44
	sub	x2, x29, #48
	mov	x0, x24
	mov	x1, x23
	mov	x3, x19
	mov	x4, x25
	bl	rekusoyen_0_1_0.boot.kernel.is_apart
	cbz	w0, .Lrekusoyen_0_1_0.boot.pieces.check.45
	sub	x2, x29, #48
	mov	x0, x24
	mov	x1, x23
	mov	x3, x28
	mov	x4, x27
	bl	rekusoyen_0_1_0.boot.kernel.is_apart
	cbz	w0, .Lrekusoyen_0_1_0.boot.pieces.check.46
	subs	x8, x21, x19
	b.hs	.Lrekusoyen_0_1_0.boot.pieces.check.47
	sub	x8, x19, x21
	cmp	x26, x8
	b.ls	.Lrekusoyen_0_1_0.boot.pieces.check.50
	cbnz	x25, .Lrekusoyen_0_1_0.boot.pieces.check.49
	b	.Lrekusoyen_0_1_0.boot.pieces.check.50
.Lrekusoyen_0_1_0.boot.pieces.check.44:
	mov	w1, #64
	b	.Lrekusoyen_0_1_0.boot.pieces.check.14
.Lrekusoyen_0_1_0.boot.pieces.check.45:
	mov	w1, #65
	b	.Lrekusoyen_0_1_0.boot.pieces.check.14
.Lrekusoyen_0_1_0.boot.pieces.check.46:
	mov	w1, #66
	b	.Lrekusoyen_0_1_0.boot.pieces.check.14
.Lrekusoyen_0_1_0.boot.pieces.check.47:
	cbz	x26, .Lrekusoyen_0_1_0.boot.pieces.check.50
	cmp	x25, x8
	b.ls	.Lrekusoyen_0_1_0.boot.pieces.check.50
.Lrekusoyen_0_1_0.boot.pieces.check.49:
	mov	w1, #67
	b	.Lrekusoyen_0_1_0.boot.pieces.check.14
.Lrekusoyen_0_1_0.boot.pieces.check.50:
	subs	x8, x21, x28
	b.hs	.Lrekusoyen_0_1_0.boot.pieces.check.53
	sub	x8, x28, x21
	cmp	x26, x8
	b.ls	.Lrekusoyen_0_1_0.boot.pieces.check.56
	cbnz	x27, .Lrekusoyen_0_1_0.boot.pieces.check.55
	b	.Lrekusoyen_0_1_0.boot.pieces.check.56
.Lrekusoyen_0_1_0.boot.pieces.check.53:
	cbz	x26, .Lrekusoyen_0_1_0.boot.pieces.check.56
	cmp	x27, x8
	b.ls	.Lrekusoyen_0_1_0.boot.pieces.check.56
.Lrekusoyen_0_1_0.boot.pieces.check.55:
	mov	w1, #68
	b	.Lrekusoyen_0_1_0.boot.pieces.check.14
.Lrekusoyen_0_1_0.boot.pieces.check.56:
	subs	x8, x19, x28
	b.hs	.Lrekusoyen_0_1_0.boot.pieces.check.59
	sub	x8, x28, x19
	cmp	x25, x8
	b.ls	.Lrekusoyen_0_1_0.boot.pieces.check.62
	cbnz	x27, .Lrekusoyen_0_1_0.boot.pieces.check.61
	b	.Lrekusoyen_0_1_0.boot.pieces.check.62
.Lrekusoyen_0_1_0.boot.pieces.check.59:
	cbz	x25, .Lrekusoyen_0_1_0.boot.pieces.check.62
	cmp	x27, x8
	b.ls	.Lrekusoyen_0_1_0.boot.pieces.check.62
.Lrekusoyen_0_1_0.boot.pieces.check.61:
	mov	w1, #69
	b	.Lrekusoyen_0_1_0.boot.pieces.check.14
.Lrekusoyen_0_1_0.boot.pieces.check.62:
	cbz	w20, .Lrekusoyen_0_1_0.boot.pieces.check.64
	mov	w8, #1
	str	x8, [sp, #16]
	b	.Lrekusoyen_0_1_0.boot.pieces.check.69
.Lrekusoyen_0_1_0.boot.pieces.check.64:
	cmp	x23, #57
	b.ls	.Lrekusoyen_0_1_0.boot.pieces.check.66
	ldrh	w8, [x24, #56]
	b	.Lrekusoyen_0_1_0.boot.pieces.check.68
.Lrekusoyen_0_1_0.boot.pieces.check.66:
	b.ne	.Lrekusoyen_0_1_0.boot.pieces.check.91
	ldrb	w8, [x24, #56]
.Lrekusoyen_0_1_0.boot.pieces.check.68:
	str	x8, [sp, #16]
	cbz	x8, .Lrekusoyen_0_1_0.boot.pieces.check.91
.Lrekusoyen_0_1_0.boot.pieces.check.69:
	ldr	x10, [sp, #48]
	sub	x8, x29, #48
	add	x9, sp, #64
	mov	x26, xzr
	orr	x27, x9, #0x1
	lsl	x28, x10, #3
	orr	x10, x8, #0x1
	str	x10, [sp, #8]
.Lrekusoyen_0_1_0.boot.pieces.check.70:
	ldp	q0, q1, [x22]
	sub	x0, x29, #72
	ldur	x8, [x22, #31]
	sub	x3, x29, #48
	mov	x1, x24
	mov	x2, x23
	mov	x4, x26
	sturb	w20, [x29, #-48]
	stp	q0, q1, [x10]
	ldp	q2, q0, [x22]
	stur	x8, [x10, #31]
	ldur	x8, [x22, #31]
	strb	w20, [sp, #64]
	stp	q2, q0, [x27]
	stur	x8, [x27, #31]
	stp	xzr, xzr, [x29, #-72]
	stur	xzr, [x29, #-56]
	bl	rekusoyen_0_1_0.loads.formats.part
	ldr	w8, [sp, #44]
	cbz	w8, .Lrekusoyen_0_1_0.boot.pieces.check.80
	ldur	x8, [x29, #-56]
	cbz	x8, .Lrekusoyen_0_1_0.boot.pieces.check.80
	ldr	x10, [sp, #48]
	cbz	x10, .Lrekusoyen_0_1_0.boot.pieces.check.115
	ldr	x9, [sp, #32]
	cmp	x10, x9
	b.hi	.Lrekusoyen_0_1_0.boot.pieces.check.96
	ldp	x12, x10, [sp, #24]
	mov	x9, xzr
	ldr	x11, [sp, #48]
	udiv	x10, x10, x11
	ldur	x11, [x29, #-72]
	add	x12, x12, #8
	b	.Lrekusoyen_0_1_0.boot.pieces.check.76
.Lrekusoyen_0_1_0.boot.pieces.check.75:
	add	x9, x9, #1
	add	x12, x12, x28
	cmp	x9, x10
	b.hs	.Lrekusoyen_0_1_0.boot.pieces.check.96
.Lrekusoyen_0_1_0.boot.pieces.check.76:
	ldr	x13, [x12, #8]
	cmp	x13, #1
	b.ne	.Lrekusoyen_0_1_0.boot.pieces.check.75
	ldur	x13, [x12, #-8]
	subs	x13, x11, x13
	b.lo	.Lrekusoyen_0_1_0.boot.pieces.check.75
	ldr	x14, [x12]
	subs	x13, x14, x13
	b.lo	.Lrekusoyen_0_1_0.boot.pieces.check.75
	cmp	x8, x13
	b.hi	.Lrekusoyen_0_1_0.boot.pieces.check.75
.Lrekusoyen_0_1_0.boot.pieces.check.80:
	add	x2, sp, #64
	mov	x0, x24
	mov	x1, x23
	mov	x3, x26
	bl	rekusoyen_0_1_0.loads.formats.memory
	ldr	w8, [sp, #44]
	cbz	w8, .Lrekusoyen_0_1_0.boot.pieces.check.90
	cbz	x1, .Lrekusoyen_0_1_0.boot.pieces.check.90
	ldr	x9, [sp, #48]
	cbz	x9, .Lrekusoyen_0_1_0.boot.pieces.check.115
	ldr	x8, [sp, #32]
	cmp	x9, x8
	b.hi	.Lrekusoyen_0_1_0.boot.pieces.check.96
	ldr	x9, [sp, #32]
	ldr	x10, [sp, #48]
	mov	x8, xzr
	udiv	x9, x9, x10
	ldr	x10, [sp, #24]
	add	x10, x10, #8
	b	.Lrekusoyen_0_1_0.boot.pieces.check.86
.Lrekusoyen_0_1_0.boot.pieces.check.85:
	add	x8, x8, #1
	add	x10, x10, x28
	cmp	x8, x9
	b.hs	.Lrekusoyen_0_1_0.boot.pieces.check.96
.Lrekusoyen_0_1_0.boot.pieces.check.86:
	ldr	x11, [x10, #8]
	cmp	x11, #1
	b.ne	.Lrekusoyen_0_1_0.boot.pieces.check.85
	ldur	x11, [x10, #-8]
	subs	x11, x0, x11
	b.lo	.Lrekusoyen_0_1_0.boot.pieces.check.85
	ldr	x12, [x10]
	subs	x11, x12, x11
	b.lo	.Lrekusoyen_0_1_0.boot.pieces.check.85
	cmp	x1, x11
	b.hi	.Lrekusoyen_0_1_0.boot.pieces.check.85
.Lrekusoyen_0_1_0.boot.pieces.check.90:
	ldp	x10, x8, [sp, #8]
	add	x26, x26, #1
	cmp	x26, x8
	b.ne	.Lrekusoyen_0_1_0.boot.pieces.check.70
.Lrekusoyen_0_1_0.boot.pieces.check.91:
	ldr	x8, [sp, #56]
	cbz	x8, .Lrekusoyen_0_1_0.boot.pieces.check.103
	ldr	w8, [sp, #44]
	cbz	w8, .Lrekusoyen_0_1_0.boot.pieces.check.103
	ldr	x9, [sp, #48]
	cbz	x9, .Lrekusoyen_0_1_0.boot.pieces.check.115
	ldr	x8, [sp, #32]
	cmp	x9, x8
	b.ls	.Lrekusoyen_0_1_0.boot.pieces.check.97
	mov	w1, #71
	b	.Lrekusoyen_0_1_0.boot.pieces.check.14
.Lrekusoyen_0_1_0.boot.pieces.check.96:
	mov	w1, #70
	b	.Lrekusoyen_0_1_0.boot.pieces.check.14
.Lrekusoyen_0_1_0.boot.pieces.check.97:
	ldp	x11, x9, [sp, #24]
	mov	x8, xzr
	ldr	x10, [sp, #48]
	udiv	x9, x9, x10
	lsl	x10, x10, #3
	add	x11, x11, #8
	b	.Lrekusoyen_0_1_0.boot.pieces.check.99
.Lrekusoyen_0_1_0.boot.pieces.check.98:
	add	x8, x8, #1
	add	x11, x11, x10
	mov	w1, #71
	cmp	x8, x9
	mov	w0, #1
	b.hs	.Lrekusoyen_0_1_0.boot.pieces.check.15
.Lrekusoyen_0_1_0.boot.pieces.check.99:
	ldr	x12, [x11, #8]
	cmp	x12, #1
	b.ne	.Lrekusoyen_0_1_0.boot.pieces.check.98
	ldur	x12, [x11, #-8]
	subs	x12, x21, x12
	b.lo	.Lrekusoyen_0_1_0.boot.pieces.check.98
	ldr	x13, [x11]
	subs	x12, x13, x12
	b.lo	.Lrekusoyen_0_1_0.boot.pieces.check.98
	ldr	x13, [sp, #56]
	cmp	x13, x12
	b.hi	.Lrekusoyen_0_1_0.boot.pieces.check.98
.Lrekusoyen_0_1_0.boot.pieces.check.103:
	mov	w0, wzr
	mov	w1, wzr
	cbz	x25, .Lrekusoyen_0_1_0.boot.pieces.check.15
	ldr	w8, [sp, #44]
	cbz	w8, .Lrekusoyen_0_1_0.boot.pieces.check.15
	ldr	x8, [sp, #48]
	cbz	x8, .Lrekusoyen_0_1_0.boot.pieces.check.115
	ldr	x8, [sp, #32]
	ldr	x9, [sp, #48]
	cmp	x9, x8
	b.ls	.Lrekusoyen_0_1_0.boot.pieces.check.108
	mov	w1, #72
	b	.Lrekusoyen_0_1_0.boot.pieces.check.14
.Lrekusoyen_0_1_0.boot.pieces.check.108:
	ldp	x11, x9, [sp, #24]
	mov	x8, xzr
	ldr	x10, [sp, #48]
	udiv	x9, x9, x10
	lsl	x10, x10, #3
	add	x11, x11, #8
	b	.Lrekusoyen_0_1_0.boot.pieces.check.110
.Lrekusoyen_0_1_0.boot.pieces.check.109:
	add	x8, x8, #1
	add	x11, x11, x10
	mov	w1, #72
	cmp	x8, x9
	mov	w0, #1
	b.hs	.Lrekusoyen_0_1_0.boot.pieces.check.15
.Lrekusoyen_0_1_0.boot.pieces.check.110:
	ldr	x12, [x11, #8]
	cmp	x12, #1
	b.ne	.Lrekusoyen_0_1_0.boot.pieces.check.109
	ldur	x12, [x11, #-8]
	subs	x12, x19, x12
	b.lo	.Lrekusoyen_0_1_0.boot.pieces.check.109
	ldr	x13, [x11]
	subs	x12, x13, x12
	b.lo	.Lrekusoyen_0_1_0.boot.pieces.check.109
	cmp	x25, x12
	b.hi	.Lrekusoyen_0_1_0.boot.pieces.check.109
	mov	w0, wzr
	mov	w1, wzr
	b	.Lrekusoyen_0_1_0.boot.pieces.check.15
.Lrekusoyen_0_1_0.boot.pieces.check.115:
	brk	#0x1
.Lrekusoyen_0_1_0.boot.pieces.check.func_end:
	.size	rekusoyen_0_1_0.boot.pieces.check, .Lrekusoyen_0_1_0.boot.pieces.check.func_end-rekusoyen_0_1_0.boot.pieces.check
	.section	.text.rekusoyen_0_1_0.loads.formats.memory,"ax",@progbits
	.p2align	2
	.type	rekusoyen_0_1_0.loads.formats.memory,@function
rekusoyen_0_1_0.loads.formats.memory:
	ldrb	w8, [x2]
	ldrb	w10, [x2, #8]
	ldr	x9, [x2, #16]
	cmp	w8, #2
	b.eq	.Lrekusoyen_0_1_0.loads.formats.memory.6
	cmp	w8, #1
	b.ne	.Lrekusoyen_0_1_0.loads.formats.memory.8
	cmp	x1, #520
	b.lo	.Lrekusoyen_0_1_0.loads.formats.memory.4
	ldrh	w8, [x0, #518]
	cmp	w8, #522
	b.hs	.Lrekusoyen_0_1_0.loads.formats.memory.19
.Lrekusoyen_0_1_0.loads.formats.memory.4:
	mov	x10, xzr
	mov	x9, xzr
.Lrekusoyen_0_1_0.loads.formats.memory.5:
	cmp	x3, #0
	csel	x0, x9, xzr, eq
	csel	x1, x10, xzr, eq
	ret
.Lrekusoyen_0_1_0.loads.formats.memory.6:
	cmp	w10, #1
	csel	x8, x9, xzr, eq
	cmp	x1, #15
	b.ls	.Lrekusoyen_0_1_0.loads.formats.memory.10
	ldr	x9, [x0, #8]
	adds	x8, x9, x8
	b.hs	.Lrekusoyen_0_1_0.loads.formats.memory.31
	b	.Lrekusoyen_0_1_0.loads.formats.memory.33
.Lrekusoyen_0_1_0.loads.formats.memory.8:
	cmp	x1, #57
	b.ls	.Lrekusoyen_0_1_0.loads.formats.memory.12
	ldrh	w8, [x0, #56]
	cmp	x8, x3
	b.hi	.Lrekusoyen_0_1_0.loads.formats.memory.14
	b	.Lrekusoyen_0_1_0.loads.formats.memory.18
.Lrekusoyen_0_1_0.loads.formats.memory.10:
	subs	x9, x1, #8
	csel	x9, xzr, x9, lo
	cmp	x9, #7
	b.ne	.Lrekusoyen_0_1_0.loads.formats.memory.22
	ldrb	w9, [x0, #14]
	lsl	x9, x9, #8
	b	.Lrekusoyen_0_1_0.loads.formats.memory.24
.Lrekusoyen_0_1_0.loads.formats.memory.12:
	b.ne	.Lrekusoyen_0_1_0.loads.formats.memory.18
	ldrb	w8, [x0, #56]
	cmp	x8, x3
	b.ls	.Lrekusoyen_0_1_0.loads.formats.memory.18
.Lrekusoyen_0_1_0.loads.formats.memory.14:
	ldr	x11, [x0, #32]
	mov	x8, xzr
	subs	x13, x1, x11
	b.lo	.Lrekusoyen_0_1_0.loads.formats.memory.52
	lsl	x12, x3, #6
	mov	x1, x8
	sub	x12, x12, x3, lsl #3
	add	x14, x12, #56
	cmp	x14, x13
	b.hi	.Lrekusoyen_0_1_0.loads.formats.memory.51
	add	x8, x0, x11
	add	x11, x8, x12
	ldr	w8, [x11]
	cmp	w8, #1
	b.ne	.Lrekusoyen_0_1_0.loads.formats.memory.18
	cmp	w10, #1
	ldr	x8, [x11, #24]
	csel	x9, x9, xzr, eq
	adds	x8, x8, x9
	b.lo	.Lrekusoyen_0_1_0.loads.formats.memory.87
.Lrekusoyen_0_1_0.loads.formats.memory.18:
	mov	x1, xzr
	mov	x0, xzr
	ret
.Lrekusoyen_0_1_0.loads.formats.memory.19:
	cmp	x1, #535
	b.ls	.Lrekusoyen_0_1_0.loads.formats.memory.37
	ldr	w8, [x0, #532]
	cmp	w10, #1
	csel	x8, x9, x8, eq
	cmp	x1, #607
	b.ls	.Lrekusoyen_0_1_0.loads.formats.memory.58
	ldr	x9, [x0, #600]
	b	.Lrekusoyen_0_1_0.loads.formats.memory.71
.Lrekusoyen_0_1_0.loads.formats.memory.22:
	cmp	x9, #6
	b.lo	.Lrekusoyen_0_1_0.loads.formats.memory.39
	mov	x9, xzr
.Lrekusoyen_0_1_0.loads.formats.memory.24:
	ldrb	w10, [x0, #13]
	orr	x9, x9, x10
	lsl	x9, x9, #8
.Lrekusoyen_0_1_0.loads.formats.memory.25:
	ldrb	w10, [x0, #12]
	orr	x9, x9, x10
	lsl	x9, x9, #8
.Lrekusoyen_0_1_0.loads.formats.memory.26:
	ldrb	w10, [x0, #11]
	orr	x9, x9, x10
	lsl	x9, x9, #8
.Lrekusoyen_0_1_0.loads.formats.memory.27:
	ldrb	w10, [x0, #10]
	orr	x9, x9, x10
	lsl	x10, x9, #8
.Lrekusoyen_0_1_0.loads.formats.memory.28:
	ldrb	w9, [x0, #9]
	orr	x9, x10, x9
	lsl	x9, x9, #8
.Lrekusoyen_0_1_0.loads.formats.memory.29:
	cmp	x1, #9
	b.hs	.Lrekusoyen_0_1_0.loads.formats.memory.32
	adds	x8, x9, x8
	b.lo	.Lrekusoyen_0_1_0.loads.formats.memory.33
.Lrekusoyen_0_1_0.loads.formats.memory.31:
	mov	x9, xzr
	mov	x8, xzr
	b	.Lrekusoyen_0_1_0.loads.formats.memory.50
.Lrekusoyen_0_1_0.loads.formats.memory.32:
	ldrb	w10, [x0, #8]
	orr	x9, x9, x10
	adds	x8, x9, x8
	b.hs	.Lrekusoyen_0_1_0.loads.formats.memory.31
.Lrekusoyen_0_1_0.loads.formats.memory.33:
	cmp	x1, #23
	b.ls	.Lrekusoyen_0_1_0.loads.formats.memory.35
	ldr	x9, [x0, #16]
	b	.Lrekusoyen_0_1_0.loads.formats.memory.50
.Lrekusoyen_0_1_0.loads.formats.memory.35:
	subs	x9, x1, #16
	csel	x9, xzr, x9, lo
	cmp	x9, #7
	b.ne	.Lrekusoyen_0_1_0.loads.formats.memory.41
	ldrb	w9, [x0, #22]
	lsl	x9, x9, #8
	b	.Lrekusoyen_0_1_0.loads.formats.memory.43
.Lrekusoyen_0_1_0.loads.formats.memory.37:
	subs	x8, x1, #532
	csel	x8, xzr, x8, lo
	cmp	x8, #3
	b.ne	.Lrekusoyen_0_1_0.loads.formats.memory.53
	ldrb	w8, [x0, #534]
	lsl	x11, x8, #8
	b	.Lrekusoyen_0_1_0.loads.formats.memory.54
.Lrekusoyen_0_1_0.loads.formats.memory.39:
	cmp	x9, #5
	b.ne	.Lrekusoyen_0_1_0.loads.formats.memory.81
	mov	x9, xzr
	b	.Lrekusoyen_0_1_0.loads.formats.memory.25
.Lrekusoyen_0_1_0.loads.formats.memory.41:
	cmp	x9, #6
	b.lo	.Lrekusoyen_0_1_0.loads.formats.memory.83
	mov	x9, xzr
.Lrekusoyen_0_1_0.loads.formats.memory.43:
	ldrb	w10, [x0, #21]
	orr	x9, x9, x10
	lsl	x9, x9, #8
.Lrekusoyen_0_1_0.loads.formats.memory.44:
	ldrb	w10, [x0, #20]
	orr	x9, x9, x10
	lsl	x9, x9, #8
.Lrekusoyen_0_1_0.loads.formats.memory.45:
	ldrb	w10, [x0, #19]
	orr	x9, x9, x10
	lsl	x9, x9, #8
.Lrekusoyen_0_1_0.loads.formats.memory.46:
	ldrb	w10, [x0, #18]
	orr	x9, x9, x10
	lsl	x10, x9, #8
.Lrekusoyen_0_1_0.loads.formats.memory.47:
	ldrb	w9, [x0, #17]
	orr	x9, x10, x9
	lsl	x9, x9, #8
.Lrekusoyen_0_1_0.loads.formats.memory.48:
	cmp	x1, #17
	b.lo	.Lrekusoyen_0_1_0.loads.formats.memory.50
	ldrb	w10, [x0, #16]
	orr	x9, x9, x10
.Lrekusoyen_0_1_0.loads.formats.memory.50:
	cmp	x3, #0
	csel	x8, x8, xzr, eq
	csel	x1, x9, xzr, eq
.Lrekusoyen_0_1_0.loads.formats.memory.51:
	mov	x0, x8
	ret
.Lrekusoyen_0_1_0.loads.formats.memory.52:
	mov	x1, x8
	mov	x0, x8
	ret
.Lrekusoyen_0_1_0.loads.formats.memory.53:
	mov	x11, xzr
	cmp	x8, #2
	mov	x8, xzr
	b.lo	.Lrekusoyen_0_1_0.loads.formats.memory.55
.Lrekusoyen_0_1_0.loads.formats.memory.54:
	ldrb	w8, [x0, #533]
	orr	x8, x11, x8
	lsl	x8, x8, #8
.Lrekusoyen_0_1_0.loads.formats.memory.55:
	cmp	x1, #533
	b.lo	.Lrekusoyen_0_1_0.loads.formats.memory.57
	ldrb	w11, [x0, #532]
	orr	x8, x8, x11
.Lrekusoyen_0_1_0.loads.formats.memory.57:
	cmp	w10, #1
	csel	x8, x9, x8, eq
.Lrekusoyen_0_1_0.loads.formats.memory.58:
	subs	x9, x1, #600
	csel	x9, xzr, x9, lo
	cmp	x9, #7
	b.ne	.Lrekusoyen_0_1_0.loads.formats.memory.60
	ldrb	w9, [x0, #606]
	lsl	x9, x9, #8
	b	.Lrekusoyen_0_1_0.loads.formats.memory.62
.Lrekusoyen_0_1_0.loads.formats.memory.60:
	cmp	x9, #6
	b.lo	.Lrekusoyen_0_1_0.loads.formats.memory.85
	mov	x9, xzr
.Lrekusoyen_0_1_0.loads.formats.memory.62:
	ldrb	w10, [x0, #605]
	orr	x9, x9, x10
	lsl	x9, x9, #8
.Lrekusoyen_0_1_0.loads.formats.memory.63:
	ldrb	w10, [x0, #604]
	orr	x9, x9, x10
	lsl	x9, x9, #8
.Lrekusoyen_0_1_0.loads.formats.memory.64:
	ldrb	w10, [x0, #603]
	orr	x9, x9, x10
	lsl	x9, x9, #8
.Lrekusoyen_0_1_0.loads.formats.memory.65:
	ldrb	w10, [x0, #602]
	orr	x9, x9, x10
	lsl	x10, x9, #8
.Lrekusoyen_0_1_0.loads.formats.memory.66:
	ldrb	w9, [x0, #601]
	orr	x9, x10, x9
	lsl	x9, x9, #8
.Lrekusoyen_0_1_0.loads.formats.memory.67:
	cmp	x1, #601
	b.lo	.Lrekusoyen_0_1_0.loads.formats.memory.69
	ldrb	w10, [x0, #600]
	orr	x9, x9, x10
	b	.Lrekusoyen_0_1_0.loads.formats.memory.71
.Lrekusoyen_0_1_0.loads.formats.memory.69:
	cmp	x1, #564
	b.hi	.Lrekusoyen_0_1_0.loads.formats.memory.71
	add	x8, x0, #608
	b	.Lrekusoyen_0_1_0.loads.formats.memory.75
.Lrekusoyen_0_1_0.loads.formats.memory.71:
	ldrb	w10, [x0, #564]
	cbz	w10, .Lrekusoyen_0_1_0.loads.formats.memory.73
	ldr	w10, [x0, #560]
	cmp	w10, #1
	csinc	w10, w10, wzr, hi
	cmp	x9, x8
	csel	x8, x9, x8, hi
	udiv	x9, x8, x10
	neg	x11, x8
	madd	x9, x9, x10, x11
	add	x9, x10, x9
	udiv	x11, x9, x10
	msub	x9, x11, x10, x9
	adds	x8, x9, x8
	csinv	x9, x8, xzr, lo
.Lrekusoyen_0_1_0.loads.formats.memory.73:
	cmp	x1, #611
	add	x8, x0, #608
	b.ls	.Lrekusoyen_0_1_0.loads.formats.memory.75
	ldr	w10, [x8]
	cmp	x3, #0
	csel	x0, x9, xzr, eq
	csel	x1, x10, xzr, eq
	ret
.Lrekusoyen_0_1_0.loads.formats.memory.75:
	subs	x10, x1, #608
	csel	x10, xzr, x10, lo
	cmp	x10, #3
	b.ne	.Lrekusoyen_0_1_0.loads.formats.memory.77
	ldrb	w10, [x0, #610]
	lsl	x11, x10, #8
	b	.Lrekusoyen_0_1_0.loads.formats.memory.79
.Lrekusoyen_0_1_0.loads.formats.memory.77:
	mov	x11, xzr
	cmp	x10, #2
	mov	x10, xzr
	b.hs	.Lrekusoyen_0_1_0.loads.formats.memory.79
	cmp	x1, #609
	b.lo	.Lrekusoyen_0_1_0.loads.formats.memory.5
	b	.Lrekusoyen_0_1_0.loads.formats.memory.80
.Lrekusoyen_0_1_0.loads.formats.memory.79:
	ldrb	w10, [x0, #609]
	orr	x10, x11, x10
	lsl	x10, x10, #8
	cmp	x1, #609
	b.lo	.Lrekusoyen_0_1_0.loads.formats.memory.5
.Lrekusoyen_0_1_0.loads.formats.memory.80:
	ldrb	w8, [x8]
	orr	x10, x10, x8
	cmp	x3, #0
	csel	x0, x9, xzr, eq
	csel	x1, x10, xzr, eq
	ret
.Lrekusoyen_0_1_0.loads.formats.memory.81:
	cmp	x9, #4
	b.lo	.Lrekusoyen_0_1_0.loads.formats.memory.88
	mov	x9, xzr
	b	.Lrekusoyen_0_1_0.loads.formats.memory.26
.Lrekusoyen_0_1_0.loads.formats.memory.83:
	cmp	x9, #5
	b.ne	.Lrekusoyen_0_1_0.loads.formats.memory.90
	mov	x9, xzr
	b	.Lrekusoyen_0_1_0.loads.formats.memory.44
.Lrekusoyen_0_1_0.loads.formats.memory.85:
	cmp	x9, #5
	b.ne	.Lrekusoyen_0_1_0.loads.formats.memory.92
	mov	x9, xzr
	b	.Lrekusoyen_0_1_0.loads.formats.memory.63
.Lrekusoyen_0_1_0.loads.formats.memory.87:
	ldr	x1, [x11, #40]
	mov	x0, x8
	ret
.Lrekusoyen_0_1_0.loads.formats.memory.88:
	cmp	x9, #3
	b.ne	.Lrekusoyen_0_1_0.loads.formats.memory.94
	mov	x9, xzr
	b	.Lrekusoyen_0_1_0.loads.formats.memory.27
.Lrekusoyen_0_1_0.loads.formats.memory.90:
	cmp	x9, #4
	b.lo	.Lrekusoyen_0_1_0.loads.formats.memory.95
	mov	x9, xzr
	b	.Lrekusoyen_0_1_0.loads.formats.memory.45
.Lrekusoyen_0_1_0.loads.formats.memory.92:
	cmp	x9, #4
	b.lo	.Lrekusoyen_0_1_0.loads.formats.memory.97
	mov	x9, xzr
	b	.Lrekusoyen_0_1_0.loads.formats.memory.64
.Lrekusoyen_0_1_0.loads.formats.memory.94:
	mov	x10, xzr
	cmp	x9, #2
	mov	x9, xzr
	b.hs	.Lrekusoyen_0_1_0.loads.formats.memory.28
	b	.Lrekusoyen_0_1_0.loads.formats.memory.29
.Lrekusoyen_0_1_0.loads.formats.memory.95:
	cmp	x9, #3
	b.ne	.Lrekusoyen_0_1_0.loads.formats.memory.99
	mov	x9, xzr
	b	.Lrekusoyen_0_1_0.loads.formats.memory.46
.Lrekusoyen_0_1_0.loads.formats.memory.97:
	cmp	x9, #3
	b.ne	.Lrekusoyen_0_1_0.loads.formats.memory.100
	mov	x9, xzr
	b	.Lrekusoyen_0_1_0.loads.formats.memory.65
.Lrekusoyen_0_1_0.loads.formats.memory.99:
	mov	x10, xzr
	cmp	x9, #2
	mov	x9, xzr
	b.hs	.Lrekusoyen_0_1_0.loads.formats.memory.47
	b	.Lrekusoyen_0_1_0.loads.formats.memory.48
.Lrekusoyen_0_1_0.loads.formats.memory.100:
	mov	x10, xzr
	cmp	x9, #2
	mov	x9, xzr
	b.hs	.Lrekusoyen_0_1_0.loads.formats.memory.66
	b	.Lrekusoyen_0_1_0.loads.formats.memory.67
.Lrekusoyen_0_1_0.loads.formats.memory.func_end:
	.size	rekusoyen_0_1_0.loads.formats.memory, .Lrekusoyen_0_1_0.loads.formats.memory.func_end-rekusoyen_0_1_0.loads.formats.memory
	.section	.text.rekusoyen_0_1_0.boot.kernel.is_apart,"ax",@progbits
	.p2align	2
	.type	rekusoyen_0_1_0.boot.kernel.is_apart,@function
rekusoyen_0_1_0.boot.kernel.is_apart:
	sub	sp, sp, #208
	stp	x22, x21, [sp, #176]
	mov	x21, x2
	mov	x22, x1
	stp	x26, x25, [sp, #144]
	ldrb	w25, [x21], #1
	stp	x24, x23, [sp, #160]
	mov	x23, x0
	stp	x20, x19, [sp, #192]
	mov	x19, x4
	mov	x20, x3
	stp	x29, x30, [sp, #112]
	add	x29, sp, #112
	stp	x28, x27, [sp, #128]
	cbz	w25, .Lrekusoyen_0_1_0.boot.kernel.is_apart.14
	mov	w26, #1
.Lrekusoyen_0_1_0.boot.kernel.is_apart.2:
	cbz	x19, .Lrekusoyen_0_1_0.boot.kernel.is_apart.18
	sub	x8, x29, #40
	add	x9, sp, #8
	mov	x24, xzr
	orr	x27, x8, #0x1
	orr	x28, x9, #0x1
	b	.Lrekusoyen_0_1_0.boot.kernel.is_apart.6
.Lrekusoyen_0_1_0.boot.kernel.is_apart.4:
	sub	x8, x20, x0
	cmp	x1, x8
	b.hi	.Lrekusoyen_0_1_0.boot.kernel.is_apart.13
.Lrekusoyen_0_1_0.boot.kernel.is_apart.5:
	add	x24, x24, #1
	cmp	x26, x24
	b.eq	.Lrekusoyen_0_1_0.boot.kernel.is_apart.18
.Lrekusoyen_0_1_0.boot.kernel.is_apart.6:
	ldp	q0, q1, [x21]
	add	x0, sp, #48
	ldur	x8, [x21, #31]
	sub	x3, x29, #40
	mov	x1, x23
	mov	x2, x22
	mov	x4, x24
	sturb	w25, [x29, #-40]
	stp	q0, q1, [x27]
	ldp	q2, q0, [x21]
	stur	x8, [x27, #31]
	ldur	x8, [x21, #31]
	strb	w25, [sp, #8]
	stp	q2, q0, [x28]
	stur	x8, [x28, #31]
	stp	xzr, xzr, [sp, #48]
	str	xzr, [sp, #64]
	bl	rekusoyen_0_1_0.loads.formats.part
	ldr	x10, [sp, #48]
	ldr	x8, [sp, #64]
	subs	x9, x10, x20
	b.hs	.Lrekusoyen_0_1_0.boot.kernel.is_apart.8
	sub	x9, x20, x10
	cmp	x8, x9
	b.ls	.Lrekusoyen_0_1_0.boot.kernel.is_apart.10
	b	.Lrekusoyen_0_1_0.boot.kernel.is_apart.13
.Lrekusoyen_0_1_0.boot.kernel.is_apart.8:
	cbz	x8, .Lrekusoyen_0_1_0.boot.kernel.is_apart.10
	cmp	x19, x9
	b.hi	.Lrekusoyen_0_1_0.boot.kernel.is_apart.13
.Lrekusoyen_0_1_0.boot.kernel.is_apart.10:
	add	x2, sp, #8
	mov	x0, x23
	mov	x1, x22
	mov	x3, x24
	bl	rekusoyen_0_1_0.loads.formats.memory
	subs	x8, x0, x20
	b.lo	.Lrekusoyen_0_1_0.boot.kernel.is_apart.4
	cbz	x1, .Lrekusoyen_0_1_0.boot.kernel.is_apart.5
	cmp	x19, x8
	b.ls	.Lrekusoyen_0_1_0.boot.kernel.is_apart.5
.Lrekusoyen_0_1_0.boot.kernel.is_apart.13:
	mov	w0, wzr
	b	.Lrekusoyen_0_1_0.boot.kernel.is_apart.19
.Lrekusoyen_0_1_0.boot.kernel.is_apart.14:
	cmp	x22, #57
	b.ls	.Lrekusoyen_0_1_0.boot.kernel.is_apart.16
	ldrh	w26, [x23, #56]
	cbnz	x26, .Lrekusoyen_0_1_0.boot.kernel.is_apart.2
	b	.Lrekusoyen_0_1_0.boot.kernel.is_apart.18
.Lrekusoyen_0_1_0.boot.kernel.is_apart.16:
	b.ne	.Lrekusoyen_0_1_0.boot.kernel.is_apart.18
	ldrb	w26, [x23, #56]
	cbnz	x26, .Lrekusoyen_0_1_0.boot.kernel.is_apart.2
.Lrekusoyen_0_1_0.boot.kernel.is_apart.18:
	mov	w0, #1
.Lrekusoyen_0_1_0.boot.kernel.is_apart.19:
	ldp	x20, x19, [sp, #192]
	ldp	x22, x21, [sp, #176]
	ldp	x24, x23, [sp, #160]
	ldp	x26, x25, [sp, #144]
	ldp	x28, x27, [sp, #128]
	ldp	x29, x30, [sp, #112]
	add	sp, sp, #208
	ret
.Lrekusoyen_0_1_0.boot.kernel.is_apart.func_end:
	.size	rekusoyen_0_1_0.boot.kernel.is_apart, .Lrekusoyen_0_1_0.boot.kernel.is_apart.func_end-rekusoyen_0_1_0.boot.kernel.is_apart
	.section	.text.rekusoyen_0_1_0.loads.formats.part,"ax",@progbits
	.p2align	2
	.type	rekusoyen_0_1_0.loads.formats.part,@function
rekusoyen_0_1_0.loads.formats.part:
	ldrb	w10, [x3]
	ldrb	w9, [x3, #8]
	ldr	x8, [x3, #16]
	cmp	w10, #2
	b.eq	.Lrekusoyen_0_1_0.loads.formats.part.4
	cmp	w10, #1
	b.ne	.Lrekusoyen_0_1_0.loads.formats.part.6
	cmp	x2, #535
	b.ls	.Lrekusoyen_0_1_0.loads.formats.part.8
	ldr	w10, [x1, #532]
	b	.Lrekusoyen_0_1_0.loads.formats.part.22
.Lrekusoyen_0_1_0.loads.formats.part.4:
	cmp	w9, #1
	csel	x8, x8, xzr, eq
	cmp	x2, #15
	b.ls	.Lrekusoyen_0_1_0.loads.formats.part.10
	ldr	x9, [x1, #8]
	b	.Lrekusoyen_0_1_0.loads.formats.part.36
.Lrekusoyen_0_1_0.loads.formats.part.6:
	cmp	x2, #57
	b.ls	.Lrekusoyen_0_1_0.loads.formats.part.12
	ldrh	w10, [x1, #56]
	cmp	x10, x4
	b.hi	.Lrekusoyen_0_1_0.loads.formats.part.14
	b	.Lrekusoyen_0_1_0.loads.formats.part.24
.Lrekusoyen_0_1_0.loads.formats.part.8:
	subs	x10, x2, #532
	csel	x10, xzr, x10, lo
	cmp	x10, #3
	b.ne	.Lrekusoyen_0_1_0.loads.formats.part.18
	ldrb	w10, [x1, #534]
	lsl	x11, x10, #8
	b	.Lrekusoyen_0_1_0.loads.formats.part.19
.Lrekusoyen_0_1_0.loads.formats.part.10:
	subs	x9, x2, #8
	csel	x9, xzr, x9, lo
	cmp	x9, #7
	b.ne	.Lrekusoyen_0_1_0.loads.formats.part.27
	ldrb	w9, [x1, #14]
	lsl	x9, x9, #8
	b	.Lrekusoyen_0_1_0.loads.formats.part.29
.Lrekusoyen_0_1_0.loads.formats.part.12:
	b.ne	.Lrekusoyen_0_1_0.loads.formats.part.24
	ldrb	w10, [x1, #56]
	cmp	x10, x4
	b.ls	.Lrekusoyen_0_1_0.loads.formats.part.24
.Lrekusoyen_0_1_0.loads.formats.part.14:
	ldr	x13, [x1, #32]
	mov	x10, xzr
	subs	x11, x2, x13
	b.lo	.Lrekusoyen_0_1_0.loads.formats.part.39
	lsl	x12, x4, #6
	sub	x14, x12, x4, lsl #3
	add	x12, x14, #56
	cmp	x12, x11
	mov	x11, x10
	mov	x12, x10
	b.hi	.Lrekusoyen_0_1_0.loads.formats.part.17
	add	x10, x1, x13
	cmp	w9, #1
	add	x10, x10, x14
	csel	x8, x8, xzr, eq
	ldr	w11, [x10]
	ldp	x12, x9, [x10, #24]
	ldr	x13, [x10, #8]
	cmp	w11, #1
	cset	w11, ne
	adds	x8, x12, x8
	cset	w12, hs
	orr	w10, w11, w12
	tst	w10, #0x1
	csel	x10, xzr, x8, ne
	csel	x11, xzr, x13, ne
	csel	x12, xzr, x9, ne
.Lrekusoyen_0_1_0.loads.formats.part.17:
	stp	x10, x11, [x0]
	str	x12, [x0, #16]
	ret
.Lrekusoyen_0_1_0.loads.formats.part.18:
	mov	x11, xzr
	cmp	x10, #2
	mov	x10, xzr
	b.lo	.Lrekusoyen_0_1_0.loads.formats.part.20
.Lrekusoyen_0_1_0.loads.formats.part.19:
	ldrb	w10, [x1, #533]
	orr	x10, x11, x10
	lsl	x10, x10, #8
.Lrekusoyen_0_1_0.loads.formats.part.20:
	cmp	x2, #533
	b.lo	.Lrekusoyen_0_1_0.loads.formats.part.25
	ldrb	w11, [x1, #532]
	orr	x10, x10, x11
.Lrekusoyen_0_1_0.loads.formats.part.22:
	cmp	w9, #1
	csel	x10, x8, x10, eq
.Lrekusoyen_0_1_0.loads.formats.part.23:
	ldrb	w8, [x1, #497]
	mov	w9, #4
	cmp	w8, #0
	ubfiz	x11, x8, #9, #32
	csel	w8, w9, w8, eq
	ubfiz	x8, x8, #9, #32
	add	x9, x11, #512
	mov	w11, #2560
	csel	x11, x11, x9, eq
	add	x8, x8, #512
	subs	x8, x2, x8
	csel	x12, xzr, x8, lo
	cbz	x4, .Lrekusoyen_0_1_0.loads.formats.part.17
.Lrekusoyen_0_1_0.loads.formats.part.24:
	stp	xzr, xzr, [x0]
	str	xzr, [x0, #16]
	ret
.Lrekusoyen_0_1_0.loads.formats.part.25:
	cmp	w9, #1
	csel	x10, x8, x10, eq
	cmp	x2, #498
	b.hs	.Lrekusoyen_0_1_0.loads.formats.part.23
	mov	w11, #2560
	mov	w8, #2560
	subs	x8, x2, x8
	csel	x12, xzr, x8, lo
	cbnz	x4, .Lrekusoyen_0_1_0.loads.formats.part.24
	b	.Lrekusoyen_0_1_0.loads.formats.part.17
.Lrekusoyen_0_1_0.loads.formats.part.27:
	cmp	x9, #6
	b.lo	.Lrekusoyen_0_1_0.loads.formats.part.37
	mov	x9, xzr
.Lrekusoyen_0_1_0.loads.formats.part.29:
	ldrb	w10, [x1, #13]
	orr	x9, x9, x10
	lsl	x9, x9, #8
.Lrekusoyen_0_1_0.loads.formats.part.30:
	ldrb	w10, [x1, #12]
	orr	x9, x9, x10
	lsl	x9, x9, #8
.Lrekusoyen_0_1_0.loads.formats.part.31:
	ldrb	w10, [x1, #11]
	orr	x9, x9, x10
	lsl	x9, x9, #8
.Lrekusoyen_0_1_0.loads.formats.part.32:
	ldrb	w10, [x1, #10]
	orr	x9, x9, x10
	lsl	x10, x9, #8
.Lrekusoyen_0_1_0.loads.formats.part.33:
	ldrb	w9, [x1, #9]
	orr	x9, x10, x9
	lsl	x9, x9, #8
.Lrekusoyen_0_1_0.loads.formats.part.34:
	cmp	x2, #9
	b.lo	.Lrekusoyen_0_1_0.loads.formats.part.36
	ldrb	w10, [x1, #8]
	orr	x9, x9, x10
.Lrekusoyen_0_1_0.loads.formats.part.36:
	adds	x8, x9, x8
	csel	x8, xzr, x8, hs
	csel	x9, xzr, x2, hs
	cmp	x4, #0
	csel	x10, x8, xzr, eq
	csel	x12, x9, xzr, eq
	stp	x10, xzr, [x0]
	str	x12, [x0, #16]
	ret
.Lrekusoyen_0_1_0.loads.formats.part.37:
	cmp	x9, #5
	b.ne	.Lrekusoyen_0_1_0.loads.formats.part.40
	mov	x9, xzr
	b	.Lrekusoyen_0_1_0.loads.formats.part.30
.Lrekusoyen_0_1_0.loads.formats.part.39:
	stp	x10, x10, [x0]
	str	x10, [x0, #16]
	ret
.Lrekusoyen_0_1_0.loads.formats.part.40:
	cmp	x9, #4
	b.lo	.Lrekusoyen_0_1_0.loads.formats.part.42
	mov	x9, xzr
	b	.Lrekusoyen_0_1_0.loads.formats.part.31
.Lrekusoyen_0_1_0.loads.formats.part.42:
	cmp	x9, #3
	b.ne	.Lrekusoyen_0_1_0.loads.formats.part.44
	mov	x9, xzr
	b	.Lrekusoyen_0_1_0.loads.formats.part.32
.Lrekusoyen_0_1_0.loads.formats.part.44:
	mov	x10, xzr
	cmp	x9, #2
	mov	x9, xzr
	b.hs	.Lrekusoyen_0_1_0.loads.formats.part.33
	b	.Lrekusoyen_0_1_0.loads.formats.part.34
.Lrekusoyen_0_1_0.loads.formats.part.func_end:
	.size	rekusoyen_0_1_0.loads.formats.part, .Lrekusoyen_0_1_0.loads.formats.part.func_end-rekusoyen_0_1_0.loads.formats.part
	.section	.text.rekusoyen_0_1_0.start_info.write,"ax",@progbits
	.p2align	2
	.type	rekusoyen_0_1_0.start_info.write,@function
rekusoyen_0_1_0.start_info.write:
	sub	sp, sp, #416
	ldp	q0, q1, [x3]
	mov	x8, sp
	ldr	q2, [x3, #32]
	stp	x29, x30, [sp, #320]
	add	x29, sp, #320
	stp	x22, x21, [sp, #384]
	mov	x21, x1
	mov	x22, x0
	add	x0, x8, #8
	mov	x1, x2
	mov	w2, #264
	stp	x28, x27, [sp, #336]
	stp	x26, x25, [sp, #352]
	stp	x24, x23, [sp, #368]
	mov	x23, x5
	mov	x24, x4
	stp	x20, x19, [sp, #400]
	mov	x19, x7
	mov	x20, x6
	stp	q0, q1, [x29, #-48]
	stur	q2, [x29, #-16]
	bl	memcpy
	mov	x0, sp
	sub	x1, x29, #48
	mov	x2, x24
	mov	x3, x23
	mov	x4, x20
	mov	x5, x19
	str	x21, [sp]
	bl	rekusoyen_0_1_0.start_info.writing.check
	tst	w0, #0xff
	b.ne	.Lrekusoyen_0_1_0.start_info.write.54
	ldur	x9, [x29, #-48]
	adds	x8, x9, #4
	csinv	x11, x8, xzr, lo
	cmp	x21, x11
	csel	x10, x21, x11, lo
	subs	x8, x10, x9
	b.ls	.Lrekusoyen_0_1_0.start_info.write.4
	mov	w12, #50552
	add	x9, x22, x9
	movk	w12, #13166, lsl #16
.Lrekusoyen_0_1_0.start_info.write.3:
	strb	w12, [x9], #1
	lsr	w12, w12, #8
	subs	x8, x8, #1
	b.ne	.Lrekusoyen_0_1_0.start_info.write.3
.Lrekusoyen_0_1_0.start_info.write.4:
	adds	x8, x10, #4
	csinv	x9, x8, xzr, lo
	cmp	x21, x9
	csel	x8, x21, x9, lo
	cmp	x11, x8
	b.hs	.Lrekusoyen_0_1_0.start_info.write.18
	add	x11, x10, #1
	mov	w12, #1
	strb	w12, [x22, x10]
	cmp	x11, x8
	b.eq	.Lrekusoyen_0_1_0.start_info.write.18
	mvn	x12, x10
	add	x12, x8, x12
	cmp	x12, #8
	b.lo	.Lrekusoyen_0_1_0.start_info.write.16
	cmp	x12, #32
	b.hs	.Lrekusoyen_0_1_0.start_info.write.9
	mov	x13, xzr
	b	.Lrekusoyen_0_1_0.start_info.write.13
.Lrekusoyen_0_1_0.start_info.write.9:
	add	x15, x10, x22
	and	x14, x12, #0x18
	and	x13, x12, #0xffffffffffffffe0
	add	x15, x15, #17
	and	x16, x12, #0xffffffffffffffe0
.Lrekusoyen_0_1_0.start_info.write.10:
	movi	v0.2d, #0000000000000000
	subs	x16, x16, #32
	stp	q0, q0, [x15, #-16]
	add	x15, x15, #32
	b.ne	.Lrekusoyen_0_1_0.start_info.write.10
	cmp	x12, x13
	b.eq	.Lrekusoyen_0_1_0.start_info.write.18
	cbz	x14, .Lrekusoyen_0_1_0.start_info.write.55
.Lrekusoyen_0_1_0.start_info.write.13:
	add	x14, x13, x10
	and	x10, x12, #0xfffffffffffffff8
	add	x14, x14, x22
	add	x11, x11, x10
	sub	x13, x13, x10
	add	x14, x14, #1
.Lrekusoyen_0_1_0.start_info.write.14:
	movi	v0.2d, #0000000000000000
	adds	x13, x13, #8
	str	d0, [x14], #8
	b.ne	.Lrekusoyen_0_1_0.start_info.write.14
	cmp	x12, x10
	b.eq	.Lrekusoyen_0_1_0.start_info.write.18
.Lrekusoyen_0_1_0.start_info.write.16:
	sub	x10, x11, x8
	add	x11, x22, x11
.Lrekusoyen_0_1_0.start_info.write.17:
	adds	x10, x10, #1
	strb	wzr, [x11], #1
	b.lo	.Lrekusoyen_0_1_0.start_info.write.17
.Lrekusoyen_0_1_0.start_info.write.18:
	adds	x10, x8, #4
	csinv	x12, x10, xzr, lo
	cmp	x21, x12
	csel	x10, x21, x12, lo
	cmp	x9, x10
	b.hs	.Lrekusoyen_0_1_0.start_info.write.21
	ldur	w9, [x29, #-24]
	sub	x11, x10, x8
	add	x8, x22, x8
.Lrekusoyen_0_1_0.start_info.write.20:
	strb	w9, [x8], #1
	lsr	w9, w9, #8
	subs	x11, x11, #1
	b.ne	.Lrekusoyen_0_1_0.start_info.write.20
.Lrekusoyen_0_1_0.start_info.write.21:
	adds	x8, x10, #4
	ldur	x25, [x29, #-40]
	csinv	x11, x8, xzr, lo
	cmp	x21, x11
	csel	x8, x21, x11, lo
	cmp	x12, x8
	b.hs	.Lrekusoyen_0_1_0.start_info.write.24
	lsr	x9, x23, #2
	sub	x12, x8, x10
	add	x10, x22, x10
.Lrekusoyen_0_1_0.start_info.write.23:
	strb	w9, [x10], #1
	lsr	x9, x9, #8
	subs	x12, x12, #1
	b.ne	.Lrekusoyen_0_1_0.start_info.write.23
.Lrekusoyen_0_1_0.start_info.write.24:
	adds	x9, x8, #8
	csinv	x12, x9, xzr, lo
	cmp	x21, x12
	csel	x9, x21, x12, lo
	cmp	x11, x9
	b.hs	.Lrekusoyen_0_1_0.start_info.write.27
	sub	x10, x9, x8
	add	x8, x22, x8
	mov	x11, x25
.Lrekusoyen_0_1_0.start_info.write.26:
	strb	w11, [x8], #1
	lsr	x11, x11, #8
	subs	x10, x10, #1
	b.ne	.Lrekusoyen_0_1_0.start_info.write.26
.Lrekusoyen_0_1_0.start_info.write.27:
	adds	x8, x9, #8
	csinv	x10, x8, xzr, lo
	cmp	x21, x10
	csel	x8, x21, x10, lo
	cmp	x12, x8
	b.hs	.Lrekusoyen_0_1_0.start_info.write.30
	ldur	x11, [x29, #-16]
	sub	x12, x8, x9
	add	x9, x22, x9
.Lrekusoyen_0_1_0.start_info.write.29:
	strb	w11, [x9], #1
	lsr	x11, x11, #8
	subs	x12, x12, #1
	b.ne	.Lrekusoyen_0_1_0.start_info.write.29
.Lrekusoyen_0_1_0.start_info.write.30:
	adds	x9, x8, #8
	ldur	x26, [x29, #-32]
	csinv	x11, x9, xzr, lo
	cmp	x21, x11
	csel	x9, x21, x11, lo
	cmp	x10, x9
	b.hs	.Lrekusoyen_0_1_0.start_info.write.33
	ldur	x10, [x29, #-8]
	sub	x12, x9, x8
	add	x8, x22, x8
.Lrekusoyen_0_1_0.start_info.write.32:
	strb	w10, [x8], #1
	lsr	x10, x10, #8
	subs	x12, x12, #1
	b.ne	.Lrekusoyen_0_1_0.start_info.write.32
.Lrekusoyen_0_1_0.start_info.write.33:
	adds	x8, x9, #8
	csinv	x12, x8, xzr, lo
	cmp	x21, x12
	csel	x10, x21, x12, lo
	cmp	x11, x10
	b.hs	.Lrekusoyen_0_1_0.start_info.write.36
	sub	x8, x10, x9
	add	x9, x22, x9
	mov	x11, x26
.Lrekusoyen_0_1_0.start_info.write.35:
	strb	w11, [x9], #1
	lsr	x11, x11, #8
	subs	x8, x8, #1
	b.ne	.Lrekusoyen_0_1_0.start_info.write.35
.Lrekusoyen_0_1_0.start_info.write.36:
	adds	x8, x10, #4
	csinv	x9, x8, xzr, lo
	cmp	x21, x9
	csel	x8, x21, x9, lo
	cmp	x12, x8
	b.hs	.Lrekusoyen_0_1_0.start_info.write.39
	lsr	x11, x19, #2
	sub	x12, x8, x10
	add	x10, x22, x10
.Lrekusoyen_0_1_0.start_info.write.38:
	strb	w11, [x10], #1
	lsr	x11, x11, #8
	subs	x12, x12, #1
	b.ne	.Lrekusoyen_0_1_0.start_info.write.38
.Lrekusoyen_0_1_0.start_info.write.39:
	adds	x10, x8, #4
	csinv	x10, x10, xzr, lo
	cmp	x21, x10
	csel	x10, x21, x10, lo
	cmp	x9, x10
	b.hs	.Lrekusoyen_0_1_0.start_info.write.41
	sub	x2, x10, x8
	mov	w27, w0
	add	x0, x22, x8
	mov	w1, wzr
	bl	memset
	mov	w0, w27
.Lrekusoyen_0_1_0.start_info.write.41:
	cbz	x23, .Lrekusoyen_0_1_0.start_info.write.47
	mov	x8, xzr
	b	.Lrekusoyen_0_1_0.start_info.write.44
.Lrekusoyen_0_1_0.start_info.write.43:
	add	x8, x8, #1
	mov	x25, x9
	cmp	x8, x23
	b.eq	.Lrekusoyen_0_1_0.start_info.write.47
.Lrekusoyen_0_1_0.start_info.write.44:
	adds	x9, x25, #8
	csinv	x9, x9, xzr, lo
	cmp	x21, x9
	csel	x9, x21, x9, lo
	subs	x10, x9, x25
	b.ls	.Lrekusoyen_0_1_0.start_info.write.43
	ldr	x11, [x24, x8, lsl #3]
	add	x12, x22, x25
.Lrekusoyen_0_1_0.start_info.write.46:
	strb	w11, [x12], #1
	lsr	x11, x11, #8
	subs	x10, x10, #1
	b.ne	.Lrekusoyen_0_1_0.start_info.write.46
	b	.Lrekusoyen_0_1_0.start_info.write.43
.Lrekusoyen_0_1_0.start_info.write.47:
	cbz	x19, .Lrekusoyen_0_1_0.start_info.write.53
	mov	x8, xzr
	b	.Lrekusoyen_0_1_0.start_info.write.50
.Lrekusoyen_0_1_0.start_info.write.49:
	add	x8, x8, #1
	mov	x26, x9
	cmp	x8, x19
	b.eq	.Lrekusoyen_0_1_0.start_info.write.53
.Lrekusoyen_0_1_0.start_info.write.50:
	lsl	x11, x8, #3
	adrp	x10, .Lrekusoyen_0_1_0.static.21
	add	x10, x10, :lo12:.Lrekusoyen_0_1_0.static.21
	and	x9, x11, #0x18
	ldr	x9, [x10, x9]
	mov	w10, #8
	cmp	x9, #8
	csel	x9, x9, x10, lo
	adds	x9, x9, x26
	csinv	x9, x9, xzr, lo
	cmp	x21, x9
	csel	x9, x21, x9, lo
	subs	x10, x26, x9
	b.hs	.Lrekusoyen_0_1_0.start_info.write.49
	ldr	x11, [x20, x11]
	add	x12, x22, x26
.Lrekusoyen_0_1_0.start_info.write.52:
	strb	w11, [x12], #1
	lsr	x11, x11, #8
	adds	x10, x10, #1
	b.lo	.Lrekusoyen_0_1_0.start_info.write.52
	b	.Lrekusoyen_0_1_0.start_info.write.49
.Lrekusoyen_0_1_0.start_info.write.53:
	mov	w1, wzr
.Lrekusoyen_0_1_0.start_info.write.54:
	ldp	x20, x19, [sp, #400]
	ldp	x22, x21, [sp, #384]
	ldp	x24, x23, [sp, #368]
	ldp	x26, x25, [sp, #352]
	ldp	x28, x27, [sp, #336]
	ldp	x29, x30, [sp, #320]
	add	sp, sp, #416
	ret
.Lrekusoyen_0_1_0.start_info.write.55:
	add	x11, x11, x13
	b	.Lrekusoyen_0_1_0.start_info.write.16
.Lrekusoyen_0_1_0.start_info.write.func_end:
	.size	rekusoyen_0_1_0.start_info.write, .Lrekusoyen_0_1_0.start_info.write.func_end-rekusoyen_0_1_0.start_info.write
	.section	.text.rekusoyen_0_1_0.boot.tree.plan,"ax",@progbits
	.p2align	2
	.type	rekusoyen_0_1_0.boot.tree.plan,@function
rekusoyen_0_1_0.boot.tree.plan:
	sub	sp, sp, #368
	stp	x29, x30, [sp, #272]
	add	x29, sp, #272
	movi	v2.2d, #0000000000000000
	ldr	x9, [x29, #104]
	ldp	q0, q1, [x4]
	stp	x28, x27, [sp, #288]
	ldr	x8, [x4, #32]
	mov	x27, x4
	stp	x24, x23, [sp, #320]
	ldp	x24, x28, [x9]
	stp	x20, x19, [sp, #352]
	mov	x19, x0
	add	x0, sp, #80
	ldr	x20, [x9, #16]
	sub	x4, x29, #128
	stp	x26, x25, [sp, #304]
	stp	x22, x21, [sp, #336]
	mov	w26, w6
	mov	w25, w5
	str	x7, [sp, #72]
	mov	x21, x3
	mov	x22, x2
	mov	x23, x1
	stp	q0, q1, [x29, #-128]
	stur	x8, [x29, #-96]
	stp	q2, q2, [sp, #80]
	str	q2, [sp, #112]
	str	xzr, [sp, #128]
	bl	rekusoyen_0_1_0.loads.formats.plan
	ldrb	w8, [sp, #80]
	cbz	w8, .Lrekusoyen_0_1_0.boot.tree.plan.2
	movi	v0.2d, #0000000000000000
	ldrb	w8, [sp, #81]
	mov	w9, #1
	strb	w9, [x19]
	strb	w8, [x19, #1]
	b	.Lrekusoyen_0_1_0.boot.tree.plan.7
.Lrekusoyen_0_1_0.boot.tree.plan.2:
	ldp	q0, q1, [x27]
	ldr	x8, [x27, #32]
	stp	x28, x20, [sp, #56]
	ldr	x20, [sp, #72]
	ldrb	w9, [sp, #104]
	stur	x8, [x29, #-16]
	ldp	x28, x10, [sp, #88]
	stp	q0, q1, [x29, #-48]
	ldurb	w8, [x29, #-48]
	str	x24, [sp, #48]
	stp	xzr, xzr, [x29, #-64]
	cmp	w8, #2
	stur	xzr, [x29, #-72]
	b.ne	.Lrekusoyen_0_1_0.boot.tree.plan.5
	ldr	x27, [x29, #96]
	mov	x0, x20
	mov	w2, wzr
	stp	x10, x9, [sp, #32]
	mov	x24, x20
	mov	x1, x27
	bl	rekusoyen_0_1_0.slugs.bytes.has
	tbz	w0, #0, .Lrekusoyen_0_1_0.boot.tree.plan.9
	mov	w1, #18
	b	.Lrekusoyen_0_1_0.boot.tree.plan.6
.Lrekusoyen_0_1_0.boot.tree.plan.5:
	mov	w1, #56
.Lrekusoyen_0_1_0.boot.tree.plan.6:
	movi	v0.2d, #0000000000000000
	mov	w8, #1
	strb	w1, [x19, #1]
	strb	w8, [x19]
.Lrekusoyen_0_1_0.boot.tree.plan.7:
	stur	q0, [x19, #8]
	stur	q0, [x19, #24]
	stur	q0, [x19, #40]
	str	xzr, [x19, #56]
.Lrekusoyen_0_1_0.boot.tree.plan.8:
	ldp	x20, x19, [sp, #352]
	ldp	x22, x21, [sp, #336]
	ldp	x24, x23, [sp, #320]
	ldp	x26, x25, [sp, #304]
	ldp	x28, x27, [sp, #288]
	ldp	x29, x30, [sp, #272]
	add	sp, sp, #368
	ret
.Lrekusoyen_0_1_0.boot.tree.plan.9:
	ldr	x13, [sp, #64]
	ldr	x8, [x29, #128]
	mov	w1, #59
	add	x9, x13, x27
	cmp	x8, x9
	b.ls	.Lrekusoyen_0_1_0.boot.tree.plan.6
	cmp	x8, x13
	b.lo	.Lrekusoyen_0_1_0.boot.tree.plan.6
	sub	x9, x8, x13
	cmp	x27, x9
	b.hi	.Lrekusoyen_0_1_0.boot.tree.plan.6
	ldr	x12, [x29, #120]
	b.hs	.Lrekusoyen_0_1_0.boot.tree.plan.14
	add	x9, x12, x13
	ldrb	w9, [x9, x27]
	cbnz	w9, .Lrekusoyen_0_1_0.boot.tree.plan.6
.Lrekusoyen_0_1_0.boot.tree.plan.14:
	ldr	x9, [x29, #112]
	subs	x11, x8, x13
	mov	x10, xzr
	csel	x11, xzr, x11, lo
	add	x12, x12, x13
	add	x20, sp, #80
	b	.Lrekusoyen_0_1_0.boot.tree.plan.16
.Lrekusoyen_0_1_0.boot.tree.plan.15:
	ldrb	w13, [x12, x10]
	ldrb	w14, [x24, x10]
	add	x10, x10, #1
	cmp	x13, x14
	b.ne	.Lrekusoyen_0_1_0.boot.tree.plan.19
.Lrekusoyen_0_1_0.boot.tree.plan.16:
	cmp	x27, x10
	b.eq	.Lrekusoyen_0_1_0.boot.tree.plan.20
	cmp	x10, x11
	b.lo	.Lrekusoyen_0_1_0.boot.tree.plan.15
	ldrb	w14, [x24, x10]
	add	x10, x10, #1
	cmp	xzr, x14
	b.eq	.Lrekusoyen_0_1_0.boot.tree.plan.16
.Lrekusoyen_0_1_0.boot.tree.plan.19:
	mov	w1, #59
	b	.Lrekusoyen_0_1_0.boot.tree.plan.6
.Lrekusoyen_0_1_0.boot.tree.plan.20:
	mov	w10, w26
	tst	w25, #0x1
	mov	w11, #2047
	csel	x10, x10, x11, ne
	cmp	x10, x27
	ldp	x10, x7, [sp, #48]
	b.hs	.Lrekusoyen_0_1_0.boot.tree.plan.22
	mov	w1, #55
	b	.Lrekusoyen_0_1_0.boot.tree.plan.6
.Lrekusoyen_0_1_0.boot.tree.plan.22:
	mov	x5, xzr
	mov	x6, xzr
	sub	x3, x29, #48
	sub	x4, x29, #80
	mov	x0, x23
	mov	x1, x22
	mov	x2, x21
	stur	xzr, [x29, #-80]
	stp	x10, x8, [sp, #8]
	str	x9, [sp]
	bl	rekusoyen_0_1_0.boot.pieces.check
	tst	w0, #0xff
	b.ne	.Lrekusoyen_0_1_0.boot.tree.plan.6
	ldr	x8, [sp, #32]
	ldur	q0, [x20, #32]
	strh	wzr, [x19]
	stp	x28, x8, [x19, #8]
	ldr	x8, [sp, #40]
	str	q0, [x19, #32]
	str	x8, [x19, #24]
	ldur	x8, [x20, #48]
	stp	x8, x28, [x19, #48]
	b	.Lrekusoyen_0_1_0.boot.tree.plan.8
.Lrekusoyen_0_1_0.boot.tree.plan.func_end:
	.size	rekusoyen_0_1_0.boot.tree.plan, .Lrekusoyen_0_1_0.boot.tree.plan.func_end-rekusoyen_0_1_0.boot.tree.plan
	.section	.text.rekusoyen_0_1_0.boot.zero_page.plan,"ax",@progbits
	.p2align	2
	.type	rekusoyen_0_1_0.boot.zero_page.plan,@function
rekusoyen_0_1_0.boot.zero_page.plan:
	sub	sp, sp, #384
	stp	x29, x30, [sp, #288]
	add	x29, sp, #288
	movi	v2.2d, #0000000000000000
	ldr	x9, [x29, #120]
	ldp	q0, q1, [x4]
	stp	x26, x25, [sp, #320]
	ldr	x8, [x4, #32]
	stp	x24, x23, [sp, #336]
	ldr	w26, [x9, #8]
	ldrb	w23, [x9, #12]
	ldp	w25, w24, [x9]
	stp	x28, x27, [sp, #304]
	mov	x28, x4
	sub	x4, x29, #128
	stp	x22, x21, [sp, #352]
	mov	x21, x0
	add	x0, sp, #96
	stp	x20, x19, [sp, #368]
	mov	w19, w5
	mov	x22, x3
	str	x7, [sp, #80]
	mov	x20, x2
	mov	x27, x1
	str	w6, [sp, #92]
	stp	q0, q1, [x29, #-128]
	stur	x8, [x29, #-96]
	stp	q2, q2, [sp, #96]
	str	q2, [sp, #128]
	str	xzr, [sp, #144]
	bl	rekusoyen_0_1_0.loads.formats.plan
	ldrb	w8, [sp, #96]
	cbz	w8, .Lrekusoyen_0_1_0.boot.zero_page.plan.2
	movi	v0.2d, #0000000000000000
	ldrb	w8, [sp, #97]
	mov	w9, #1
	strb	w9, [x21]
	strb	w8, [x21, #1]
	str	xzr, [x21, #56]
	stur	q0, [x21, #8]
	stur	q0, [x21, #24]
	stur	q0, [x21, #40]
	b	.Lrekusoyen_0_1_0.boot.zero_page.plan.27
.Lrekusoyen_0_1_0.boot.zero_page.plan.2:
	ldp	q0, q1, [x28]
	ldr	x2, [sp, #80]
	ldp	x12, x13, [sp, #104]
	stp	x24, x27, [sp, #56]
	ldr	w27, [sp, #92]
	ldr	x8, [x28, #32]
	ldrb	w10, [sp, #120]
	stp	q0, q1, [x29, #-48]
	ldurb	w28, [x29, #-48]
	str	x26, [sp, #48]
	str	w23, [sp, #76]
	stur	x8, [x29, #-16]
	cbz	w28, .Lrekusoyen_0_1_0.boot.zero_page.plan.9
	ldr	w11, [sp, #76]
	cmp	w28, #1
	add	x16, sp, #96
	b.ne	.Lrekusoyen_0_1_0.boot.zero_page.plan.15
	mov	x24, x25
	tbz	w11, #0, .Lrekusoyen_0_1_0.boot.zero_page.plan.10
	cmp	x22, #520
	b.lo	.Lrekusoyen_0_1_0.boot.zero_page.plan.22
	ldrh	w8, [x20, #518]
	cmp	w8, #524
	b.lo	.Lrekusoyen_0_1_0.boot.zero_page.plan.22
	cmp	x22, #567
	b.ls	.Lrekusoyen_0_1_0.boot.zero_page.plan.20
	ldrh	w8, [x20, #566]
	tbnz	w8, #0, .Lrekusoyen_0_1_0.boot.zero_page.plan.11
	b	.Lrekusoyen_0_1_0.boot.zero_page.plan.22
.Lrekusoyen_0_1_0.boot.zero_page.plan.9:
	ldr	w11, [sp, #76]
	add	x16, sp, #96
	mov	x24, x25
	tbnz	w11, #0, .Lrekusoyen_0_1_0.boot.zero_page.plan.11
	b	.Lrekusoyen_0_1_0.boot.zero_page.plan.15
.Lrekusoyen_0_1_0.boot.zero_page.plan.10:
	lsr	x8, x12, #32
	cbnz	x8, .Lrekusoyen_0_1_0.boot.zero_page.plan.15
.Lrekusoyen_0_1_0.boot.zero_page.plan.11:
	ldp	x4, x25, [x29, #104]
	mov	x1, x24
	ldr	x26, [x29, #96]
	ldr	x0, [sp, #64]
	stp	x13, x10, [sp, #32]
	str	x12, [sp, #80]
	mov	x3, x26
	mov	x5, x25
	bl	rekusoyen_0_1_0.loader.plan_texts
	tst	w0, #0xff
	b.ne	.Lrekusoyen_0_1_0.boot.zero_page.plan.13
	str	x24, [sp, #24]
	ldp	x23, x24, [x29, #136]
	mov	w0, #4096
	mov	x1, x23
	mov	x2, x24
	bl	rekusoyen_0_1_0.boot_page.building.check
	tst	w0, #0xff
	b.eq	.Lrekusoyen_0_1_0.boot.zero_page.plan.16
.Lrekusoyen_0_1_0.boot.zero_page.plan.13:
	ldp	x13, x10, [sp, #32]
	mov	w0, #1
	ldr	w11, [sp, #76]
	ldr	x12, [sp, #80]
	mov	x19, x21
.Lrekusoyen_0_1_0.boot.zero_page.plan.14:
	add	x16, sp, #96
	b	.Lrekusoyen_0_1_0.boot.zero_page.plan.24
.Lrekusoyen_0_1_0.boot.zero_page.plan.15:
	mov	w1, #56
	b	.Lrekusoyen_0_1_0.boot.zero_page.plan.23
.Lrekusoyen_0_1_0.boot.zero_page.plan.16:
	ldp	x13, x10, [sp, #32]
	mov	x14, x25
	ldr	x25, [x29, #128]
	ldr	w11, [sp, #76]
	cmp	w28, #1
	ldr	x12, [sp, #80]
	add	x16, sp, #96
	mov	x15, x26
	b.ne	.Lrekusoyen_0_1_0.boot.zero_page.plan.28
	ldp	x17, x28, [sp, #48]
	cmp	x22, #520
	mov	w4, w27
	mov	w3, w19
	b.lo	.Lrekusoyen_0_1_0.boot.zero_page.plan.29
	ldrh	w8, [x20, #518]
	mov	x26, x20
	mov	x19, x21
	cmp	w8, #515
	b.hs	.Lrekusoyen_0_1_0.boot.zero_page.plan.30
	mov	w8, #939524096
	b	.Lrekusoyen_0_1_0.boot.zero_page.plan.39
.Lrekusoyen_0_1_0.boot.zero_page.plan.20:
	b.ne	.Lrekusoyen_0_1_0.boot.zero_page.plan.22
	ldrb	w8, [x20, #566]
	tbnz	w8, #0, .Lrekusoyen_0_1_0.boot.zero_page.plan.11
.Lrekusoyen_0_1_0.boot.zero_page.plan.22:
	mov	w1, #57
.Lrekusoyen_0_1_0.boot.zero_page.plan.23:
	mov	w0, #1
	mov	x19, x21
.Lrekusoyen_0_1_0.boot.zero_page.plan.24:
	tst	w0, #0xff
	b.eq	.Lrekusoyen_0_1_0.boot.zero_page.plan.26
	movi	v0.2d, #0000000000000000
	mov	w8, #1
	strb	w1, [x19, #1]
	strb	w8, [x19]
	str	xzr, [x19, #56]
	stur	q0, [x19, #8]
	stur	q0, [x19, #24]
	stur	q0, [x19, #40]
	b	.Lrekusoyen_0_1_0.boot.zero_page.plan.27
.Lrekusoyen_0_1_0.boot.zero_page.plan.26:
	ldurb	w8, [x29, #-128]
	ldur	q0, [x16, #32]
	str	x10, [x19, #24]
	ldur	x10, [x16, #48]
	strh	wzr, [x19]
	cmp	w8, #1
	stp	x12, x13, [x19, #8]
	cset	w8, eq
	adds	x9, x12, #512
	str	q0, [x19, #32]
	csinv	x9, x9, xzr, lo
	tst	w8, w11
	csel	x8, x9, x12, ne
	stp	x10, x8, [x19, #48]
.Lrekusoyen_0_1_0.boot.zero_page.plan.27:
	ldp	x20, x19, [sp, #368]
	ldp	x22, x21, [sp, #352]
	ldp	x24, x23, [sp, #336]
	ldp	x26, x25, [sp, #320]
	ldp	x28, x27, [sp, #304]
	ldp	x29, x30, [sp, #288]
	add	sp, sp, #384
	ret
.Lrekusoyen_0_1_0.boot.zero_page.plan.28:
	ldp	x17, x28, [sp, #48]
	mov	x8, #4294967296
	mov	w4, w27
	mov	x26, x20
	mov	w3, w19
	mov	x19, x21
	b	.Lrekusoyen_0_1_0.boot.zero_page.plan.39
.Lrekusoyen_0_1_0.boot.zero_page.plan.29:
	mov	w8, #939524096
	mov	x26, x20
	mov	x19, x21
	b	.Lrekusoyen_0_1_0.boot.zero_page.plan.39
.Lrekusoyen_0_1_0.boot.zero_page.plan.30:
	cmp	x22, #559
	b.ls	.Lrekusoyen_0_1_0.boot.zero_page.plan.32
	ldr	w8, [x26, #556]
	b	.Lrekusoyen_0_1_0.boot.zero_page.plan.38
.Lrekusoyen_0_1_0.boot.zero_page.plan.32:
	subs	x8, x22, #556
	csel	x8, xzr, x8, lo
	cmp	x8, #3
	b.ne	.Lrekusoyen_0_1_0.boot.zero_page.plan.34
	ldrb	w8, [x26, #558]
	lsl	x9, x8, #8
	b	.Lrekusoyen_0_1_0.boot.zero_page.plan.35
.Lrekusoyen_0_1_0.boot.zero_page.plan.34:
	mov	x9, xzr
	cmp	x8, #2
	mov	x8, xzr
	b.lo	.Lrekusoyen_0_1_0.boot.zero_page.plan.36
.Lrekusoyen_0_1_0.boot.zero_page.plan.35:
	ldrb	w8, [x26, #557]
	orr	x8, x9, x8
	lsl	x8, x8, #8
.Lrekusoyen_0_1_0.boot.zero_page.plan.36:
	cmp	x22, #557
	b.lo	.Lrekusoyen_0_1_0.boot.zero_page.plan.38
	ldrb	w9, [x26, #556]
	orr	x8, x8, x9
.Lrekusoyen_0_1_0.boot.zero_page.plan.38:
	add	x8, x8, #1
.Lrekusoyen_0_1_0.boot.zero_page.plan.39:
	cbz	x25, .Lrekusoyen_0_1_0.boot.zero_page.plan.43
	subs	x8, x8, x28
	mov	w1, #63
	mov	w0, #1
	b.lo	.Lrekusoyen_0_1_0.boot.zero_page.plan.24
	cmp	x25, x8
	b.hi	.Lrekusoyen_0_1_0.boot.zero_page.plan.24
	lsr	x8, x25, #32
	cbnz	x8, .Lrekusoyen_0_1_0.boot.zero_page.plan.24
.Lrekusoyen_0_1_0.boot.zero_page.plan.43:
	sub	x2, x29, #48
	mov	x0, x26
	mov	x1, x22
	mov	x5, x15
	mov	x6, x14
	mov	x27, x17
	mov	x20, x22
	mov	x22, x15
	mov	x21, x14
	bl	rekusoyen_0_1_0.boot.pieces.check_line
	tst	w0, #0xff
	b.eq	.Lrekusoyen_0_1_0.boot.zero_page.plan.45
	mov	w0, #1
	b	.Lrekusoyen_0_1_0.boot.zero_page.plan.46
.Lrekusoyen_0_1_0.boot.zero_page.plan.45:
	adds	x8, x22, #1
	mov	w10, #1
	ldr	x0, [sp, #64]
	csinv	x8, x8, xzr, lo
	adds	x9, x22, #5
	ldr	x5, [sp, #24]
	csinv	x9, x9, xzr, lo
	stp	x10, x23, [x29, #-80]
	mov	w10, #3
	adds	x9, x21, x9
	sub	x3, x29, #48
	sub	x4, x29, #80
	csinv	x9, x9, xzr, lo
	cmp	x21, #0
	mov	x1, x26
	csel	x6, x8, x9, eq
	mov	w8, #4096
	mov	x2, x20
	mov	x7, x28
	stp	x24, x10, [x29, #-64]
	stp	x27, x8, [sp, #8]
	str	x25, [sp]
	bl	rekusoyen_0_1_0.boot.pieces.check
.Lrekusoyen_0_1_0.boot.zero_page.plan.46:
	ldp	x13, x10, [sp, #32]
	ldr	w11, [sp, #76]
	ldr	x12, [sp, #80]
	b	.Lrekusoyen_0_1_0.boot.zero_page.plan.14
.Lrekusoyen_0_1_0.boot.zero_page.plan.func_end:
	.size	rekusoyen_0_1_0.boot.zero_page.plan, .Lrekusoyen_0_1_0.boot.zero_page.plan.func_end-rekusoyen_0_1_0.boot.zero_page.plan
	.section	.rodata.cst16,"aM",@progbits,16
	.p2align	4, 0x0
.Lrekusoyen_0_1_0.core.cmp.slices.groups_equal._i831_core.cmp.numbers.U8PartialEq___.CPI0:
	.byte	1
	.byte	2
	.byte	4
	.byte	8
	.byte	16
	.byte	32
	.byte	64
	.byte	128
	.byte	1
	.byte	2
	.byte	4
	.byte	8
	.byte	16
	.byte	32
	.byte	64
	.byte	128
	.section	.text.rekusoyen_0_1_0.core.cmp.slices.groups_equal._i8_31_core.cmp.numbers.U8PartialEq___,"ax",@progbits
	.p2align	2
	.type	rekusoyen_0_1_0.core.cmp.slices.groups_equal._i8_31_core.cmp.numbers.U8PartialEq___,@function
rekusoyen_0_1_0.core.cmp.slices.groups_equal._i8_31_core.cmp.numbers.U8PartialEq___:
	subs	x9, x1, #8
	b.hi	.Lrekusoyen_0_1_0.core.cmp.slices.groups_equal._i831_core.cmp.numbers.U8PartialEq___.2
	sub	x8, x1, #4
	ldr	s0, [x0]
	ldr	s1, [x2]
	add	x9, x0, x8
	add	x8, x2, x8
	ld1	{ v0.s }[1], [x9]
	ld1	{ v1.s }[1], [x8]
	fmov	x8, d0
	fmov	x9, d1
	cmp	x8, x9
	cset	w8, ne
	eor	w0, w8, #0x1
	ret
.Lrekusoyen_0_1_0.core.cmp.slices.groups_equal._i831_core.cmp.numbers.U8PartialEq___.2:
	subs	x8, x1, #32
	b.hi	.Lrekusoyen_0_1_0.core.cmp.slices.groups_equal._i831_core.cmp.numbers.U8PartialEq___.4
	cmp	x9, #8
	mov	w8, #8
	mov	w10, #16
	csel	x8, x9, x8, lo
	cmp	x9, #16
	ldr	d0, [x0]
	ldr	d1, [x2]
	ldr	d2, [x0, x8]
	ldr	d3, [x2, x8]
	csel	x8, x9, x10, lo
	ldr	d5, [x2, x9]
	ldr	d4, [x0, x8]
	mov	v0.d[1], v2.d[0]
	mov	v1.d[1], v3.d[0]
	ldr	d2, [x2, x8]
	ldr	d3, [x0, x9]
	mov	v4.d[1], v3.d[0]
	mov	v2.d[1], v5.d[0]
	cmeq	v0.16b, v0.16b, v1.16b
	cmeq	v1.16b, v4.16b, v2.16b
	b	.Lrekusoyen_0_1_0.core.cmp.slices.groups_equal._i831_core.cmp.numbers.U8PartialEq___.17
.Lrekusoyen_0_1_0.core.cmp.slices.groups_equal._i831_core.cmp.numbers.U8PartialEq___.4:
	cmp	x1, #65
	b.hs	.Lrekusoyen_0_1_0.core.cmp.slices.groups_equal._i831_core.cmp.numbers.U8PartialEq___.6
	ldp	q1, q0, [x0]
	add	x9, x2, x8
	ldp	q3, q2, [x2]
	add	x8, x0, x8
	ldp	q4, q5, [x9]
	cmeq	v1.16b, v1.16b, v3.16b
	cmeq	v0.16b, v0.16b, v2.16b
	ldp	q2, q3, [x8]
	mvn	v1.16b, v1.16b
	mvn	v0.16b, v0.16b
	cmeq	v2.16b, v2.16b, v4.16b
	cmeq	v3.16b, v3.16b, v5.16b
	orn	v0.16b, v0.16b, v3.16b
	orn	v1.16b, v1.16b, v2.16b
	orr	v0.16b, v1.16b, v0.16b
	umaxv	b0, v0.16b
	fmov	w8, s0
	and	w8, w8, #0x1
	eor	w0, w8, #0x1
	ret
.Lrekusoyen_0_1_0.core.cmp.slices.groups_equal._i831_core.cmp.numbers.U8PartialEq___.6:
	and	x9, x1, #0xffffffffffffffc0
	add	x10, x0, #32
	add	x12, x2, #32
	mov	w11, #32
	mov	x13, x1
.Lrekusoyen_0_1_0.core.cmp.slices.groups_equal._i831_core.cmp.numbers.U8PartialEq___.7:
	ldp	q0, q3, [x12, #-32]
	ldp	q1, q2, [x10, #-32]
	ldp	q4, q5, [x12], #64
	cmeq	v0.16b, v1.16b, v0.16b
	cmeq	v1.16b, v2.16b, v3.16b
	ldp	q2, q3, [x10], #64
	mvn	v0.16b, v0.16b
	mvn	v1.16b, v1.16b
	cmeq	v2.16b, v2.16b, v4.16b
	cmeq	v3.16b, v3.16b, v5.16b
	orn	v0.16b, v0.16b, v2.16b
	orn	v1.16b, v1.16b, v3.16b
	orr	v0.16b, v1.16b, v0.16b
	umaxv	b0, v0.16b
	fmov	w14, s0
	tbnz	w14, #0, .Lrekusoyen_0_1_0.core.cmp.slices.groups_equal._i831_core.cmp.numbers.U8PartialEq___.10
	sub	x13, x13, #64
	add	x11, x11, #64
	cmp	x13, #64
	b.hs	.Lrekusoyen_0_1_0.core.cmp.slices.groups_equal._i831_core.cmp.numbers.U8PartialEq___.7
	sub	x10, x1, x9
	cmp	x10, #32
	b.hs	.Lrekusoyen_0_1_0.core.cmp.slices.groups_equal._i831_core.cmp.numbers.U8PartialEq___.11
	b	.Lrekusoyen_0_1_0.core.cmp.slices.groups_equal._i831_core.cmp.numbers.U8PartialEq___.16
.Lrekusoyen_0_1_0.core.cmp.slices.groups_equal._i831_core.cmp.numbers.U8PartialEq___.10:
	sub	x9, x11, #32
	sub	x10, x1, x9
	cmp	x10, #32
	b.lo	.Lrekusoyen_0_1_0.core.cmp.slices.groups_equal._i831_core.cmp.numbers.U8PartialEq___.16
.Lrekusoyen_0_1_0.core.cmp.slices.groups_equal._i831_core.cmp.numbers.U8PartialEq___.11:
	add	x11, x0, x9
	add	x9, x2, x9
.Lrekusoyen_0_1_0.core.cmp.slices.groups_equal._i831_core.cmp.numbers.U8PartialEq___.12:
	ldp	q0, q1, [x11], #32
	ldp	q2, q3, [x9], #32
	adrp	x12, .Lrekusoyen_0_1_0.core.cmp.slices.groups_equal._i831_core.cmp.numbers.U8PartialEq___.CPI0
	cmeq	v1.16b, v1.16b, v3.16b
	cmeq	v0.16b, v0.16b, v2.16b
	ldr	q2, [x12, :lo12:.Lrekusoyen_0_1_0.core.cmp.slices.groups_equal._i831_core.cmp.numbers.U8PartialEq___.CPI0]
	bic	v1.16b, v2.16b, v1.16b
	bic	v0.16b, v2.16b, v0.16b
	ext	v2.16b, v1.16b, v1.16b, #8
	ext	v3.16b, v0.16b, v0.16b, #8
	zip1	v1.16b, v1.16b, v2.16b
	zip1	v0.16b, v0.16b, v3.16b
	addv	h1, v1.8h
	addv	h0, v0.8h
	fmov	w12, s1
	fmov	w13, s0
	orr	w12, w13, w12
	tst	w12, #0xffff
	b.ne	.Lrekusoyen_0_1_0.core.cmp.slices.groups_equal._i831_core.cmp.numbers.U8PartialEq___.14
	sub	x10, x10, #32
	cmp	x10, #32
	b.hs	.Lrekusoyen_0_1_0.core.cmp.slices.groups_equal._i831_core.cmp.numbers.U8PartialEq___.12
	b	.Lrekusoyen_0_1_0.core.cmp.slices.groups_equal._i831_core.cmp.numbers.U8PartialEq___.16
.Lrekusoyen_0_1_0.core.cmp.slices.groups_equal._i831_core.cmp.numbers.U8PartialEq___.14:
	cmp	x10, #31
	b.ls	.Lrekusoyen_0_1_0.core.cmp.slices.groups_equal._i831_core.cmp.numbers.U8PartialEq___.16
	mov	w8, #1
	eor	w0, w8, #0x1
	ret
.Lrekusoyen_0_1_0.core.cmp.slices.groups_equal._i831_core.cmp.numbers.U8PartialEq___.16:
	add	x9, x0, x8
	add	x8, x2, x8
	ldp	q0, q3, [x8]
	ldp	q1, q2, [x9]
	cmeq	v0.16b, v1.16b, v0.16b
	cmeq	v1.16b, v2.16b, v3.16b
.Lrekusoyen_0_1_0.core.cmp.slices.groups_equal._i831_core.cmp.numbers.U8PartialEq___.17:
	mvn	v0.16b, v0.16b
	orn	v0.16b, v0.16b, v1.16b
	umaxv	b0, v0.16b
	fmov	w8, s0
	and	w8, w8, #0x1
	eor	w0, w8, #0x1
	ret
.Lrekusoyen_0_1_0.core.cmp.slices.groups_equal._i831_core.cmp.numbers.U8PartialEq___.func_end:
	.size	rekusoyen_0_1_0.core.cmp.slices.groups_equal._i8_31_core.cmp.numbers.U8PartialEq___, .Lrekusoyen_0_1_0.core.cmp.slices.groups_equal._i831_core.cmp.numbers.U8PartialEq___.func_end-rekusoyen_0_1_0.core.cmp.slices.groups_equal._i8_31_core.cmp.numbers.U8PartialEq___
	.section	.text.rekusoyen_0_1_0.placing.search.in_bounds,"ax",@progbits
	.p2align	2
	.type	rekusoyen_0_1_0.placing.search.in_bounds,@function
rekusoyen_0_1_0.placing.search.in_bounds:
	ldp	x9, x10, [x3, #16]
	ldp	x11, x12, [x3]
	subs	x8, x12, x10
	csel	x15, xzr, x8, lo
	tbz	w0, #0, .Lrekusoyen_0_1_0.placing.search.in_bounds.5
	cmp	x12, x10
	b.lo	.Lrekusoyen_0_1_0.placing.search.in_bounds.4
	cbz	x9, .Lrekusoyen_0_1_0.placing.search.in_bounds.36
	udiv	x8, x15, x9
	mul	x12, x8, x9
	cmp	x11, x12
	b.ls	.Lrekusoyen_0_1_0.placing.search.in_bounds.19
.Lrekusoyen_0_1_0.placing.search.in_bounds.4:
	mov	w0, wzr
	mov	x1, xzr
	ret
.Lrekusoyen_0_1_0.placing.search.in_bounds.5:
	cmp	x12, x10
	mov	w14, wzr
	mov	x8, xzr
	csel	x13, xzr, x15, lo
	b.lo	.Lrekusoyen_0_1_0.placing.search.in_bounds.35
	cbz	x9, .Lrekusoyen_0_1_0.placing.search.in_bounds.35
	udiv	x8, x11, x9
	cmp	x2, #1
	b.hi	.Lrekusoyen_0_1_0.placing.search.in_bounds.9
	neg	x10, x11
	madd	x8, x8, x9, x10
	add	x8, x9, x8
	udiv	x10, x8, x9
	msub	x8, x10, x9, x8
	mvn	x9, x8
	add	x8, x8, x11
	cmp	x11, x9
	cset	w9, ls
	cmp	x8, x15
	cset	w10, ls
	ands	w14, w9, w10
	csel	x1, x8, xzr, ne
	and	w0, w14, #0x1
	ret
.Lrekusoyen_0_1_0.placing.search.in_bounds.9:
	neg	x14, x11
	madd	x8, x8, x9, x14
	add	x8, x9, x8
	udiv	x14, x8, x9
	msub	x8, x14, x9, x8
	mvn	x14, x8
	add	x8, x8, x11
	cmp	x11, x14
	csel	x11, x8, xzr, ls
	cset	w14, ls
	cmp	x15, x11
	csel	w14, wzr, w14, lo
	cbz	x10, .Lrekusoyen_0_1_0.placing.search.in_bounds.32
	cbz	w14, .Lrekusoyen_0_1_0.placing.search.in_bounds.33
.Lrekusoyen_0_1_0.placing.search.in_bounds.11:
	mov	x8, x2
	mov	x14, x1
	b	.Lrekusoyen_0_1_0.placing.search.in_bounds.14
.Lrekusoyen_0_1_0.placing.search.in_bounds.12:
	sub	x17, x11, x15
	cmp	x16, x17
	b.hi	.Lrekusoyen_0_1_0.placing.search.in_bounds.17
.Lrekusoyen_0_1_0.placing.search.in_bounds.13:
	sub	x8, x8, #2
	add	x14, x14, #16
	cmp	x8, #2
	b.lo	.Lrekusoyen_0_1_0.placing.search.in_bounds.34
.Lrekusoyen_0_1_0.placing.search.in_bounds.14:
	ldp	x15, x16, [x14]
	subs	x17, x15, x11
	b.lo	.Lrekusoyen_0_1_0.placing.search.in_bounds.12
	cbz	x16, .Lrekusoyen_0_1_0.placing.search.in_bounds.13
	cmp	x10, x17
	b.ls	.Lrekusoyen_0_1_0.placing.search.in_bounds.13
.Lrekusoyen_0_1_0.placing.search.in_bounds.17:
	adds	x11, x16, x15
	mov	w14, wzr
	mov	x8, xzr
	csinv	x11, x11, xzr, lo
	cmp	x12, x11
	csel	x11, x12, x11, lo
	udiv	x15, x11, x9
	neg	x16, x11
	madd	x15, x15, x9, x16
	add	x15, x9, x15
	udiv	x16, x15, x9
	msub	x15, x16, x9, x15
	adds	x11, x15, x11
	csel	x11, xzr, x11, hs
	b.hs	.Lrekusoyen_0_1_0.placing.search.in_bounds.35
	cmp	x13, x11
	b.hs	.Lrekusoyen_0_1_0.placing.search.in_bounds.11
	b	.Lrekusoyen_0_1_0.placing.search.in_bounds.35
.Lrekusoyen_0_1_0.placing.search.in_bounds.19:
	cmp	x2, #2
	mov	w0, #1
	b.lo	.Lrekusoyen_0_1_0.placing.search.in_bounds.30
	cbz	x10, .Lrekusoyen_0_1_0.placing.search.in_bounds.30
.Lrekusoyen_0_1_0.placing.search.in_bounds.21:
	mov	x8, x2
	mov	x13, x1
	b	.Lrekusoyen_0_1_0.placing.search.in_bounds.24
.Lrekusoyen_0_1_0.placing.search.in_bounds.22:
	sub	x16, x12, x14
	cmp	x15, x16
	b.hi	.Lrekusoyen_0_1_0.placing.search.in_bounds.27
.Lrekusoyen_0_1_0.placing.search.in_bounds.23:
	sub	x8, x8, #2
	add	x13, x13, #16
	cmp	x8, #2
	b.lo	.Lrekusoyen_0_1_0.placing.search.in_bounds.29
.Lrekusoyen_0_1_0.placing.search.in_bounds.24:
	ldp	x14, x15, [x13]
	subs	x16, x14, x12
	b.lo	.Lrekusoyen_0_1_0.placing.search.in_bounds.22
	cbz	x15, .Lrekusoyen_0_1_0.placing.search.in_bounds.23
	cmp	x10, x16
	b.ls	.Lrekusoyen_0_1_0.placing.search.in_bounds.23
.Lrekusoyen_0_1_0.placing.search.in_bounds.27:
	subs	x8, x14, x10
	b.lo	.Lrekusoyen_0_1_0.placing.search.in_bounds.4
	udiv	x8, x8, x9
	mov	w0, wzr
	mul	x12, x8, x9
	mov	x8, xzr
	cmp	x11, x12
	b.ls	.Lrekusoyen_0_1_0.placing.search.in_bounds.21
	b	.Lrekusoyen_0_1_0.placing.search.in_bounds.31
.Lrekusoyen_0_1_0.placing.search.in_bounds.29:
	mov	w0, #1
.Lrekusoyen_0_1_0.placing.search.in_bounds.30:
	mov	x8, x12
.Lrekusoyen_0_1_0.placing.search.in_bounds.31:
	mov	x1, x8
	ret
.Lrekusoyen_0_1_0.placing.search.in_bounds.32:
	cmp	w14, #0
	and	w0, w14, #0x1
	csel	x1, x8, xzr, ne
	ret
.Lrekusoyen_0_1_0.placing.search.in_bounds.33:
	and	w0, w14, #0x1
	mov	x1, xzr
	ret
.Lrekusoyen_0_1_0.placing.search.in_bounds.34:
	mov	w14, #1
	mov	x8, x11
.Lrekusoyen_0_1_0.placing.search.in_bounds.35:
	and	w0, w14, #0x1
	mov	x1, x8
	ret
.Lrekusoyen_0_1_0.placing.search.in_bounds.36:
	brk	#0x1
.Lrekusoyen_0_1_0.placing.search.in_bounds.func_end:
	.size	rekusoyen_0_1_0.placing.search.in_bounds, .Lrekusoyen_0_1_0.placing.search.in_bounds.func_end-rekusoyen_0_1_0.placing.search.in_bounds
	.section	.text.rekusoyen_0_1_0.loads.steps.go_on,"ax",@progbits
	.p2align	2
	.type	rekusoyen_0_1_0.loads.steps.go_on,@function
rekusoyen_0_1_0.loads.steps.go_on:
	stp	x29, x30, [sp, #-96]!
	stp	x28, x27, [sp, #16]
	mov	x29, sp
	stp	x26, x25, [sp, #32]
	stp	x24, x23, [sp, #48]
	stp	x22, x21, [sp, #64]
	stp	x20, x19, [sp, #80]
	sub	sp, sp, #656
	add	x8, x3, #329
	add	x19, x3, #360
	ldr	x9, [x3, #8]
	ldr	q0, [x8]
	ldur	q1, [x8, #15]
	ldr	x8, [x3, #392]
	ldp	x24, x25, [x3, #312]
	mov	x20, x0
	stur	x8, [x29, #-128]
	ldr	x8, [x3, #288]
	add	x0, sp, #224
	stur	q0, [x29, #-112]
	ldrb	w22, [x3, #304]
	mov	x21, x7
	stur	q1, [x29, #-97]
	ldp	q0, q1, [x19]
	str	x8, [sp, #24]
	mov	x27, x5
	mov	x26, x3
	ldr	x8, [x3, #296]
	stp	x1, x6, [sp, #56]
	add	x1, x3, #16
	stp	x2, x4, [sp, #128]
	ldrb	w23, [x3, #305]
	mov	w2, #272
	ldrb	w28, [x3, #328]
	stp	q0, q1, [x29, #-160]
	str	x9, [sp, #8]
	str	x8, [sp, #160]
	stp	xzr, xzr, [sp, #192]
	str	xzr, [sp, #208]
	bl	memcpy
	ldp	q0, q1, [x19]
	ldr	x8, [x26, #392]
	stp	xzr, xzr, [x29, #-72]
	stur	x8, [x29, #-16]
	stp	q0, q1, [x29, #-48]
	ldurb	w8, [x29, #-48]
	stur	xzr, [x29, #-56]
	str	x20, [sp, #16]
	cbz	w8, .Lrekusoyen_0_1_0.loads.steps.go_on.2
	mov	w9, #1
	ldr	x4, [sp, #24]
	cmp	x4, x9
	b.lo	.Lrekusoyen_0_1_0.loads.steps.go_on.6
	b	.Lrekusoyen_0_1_0.loads.steps.go_on.46
.Lrekusoyen_0_1_0.loads.steps.go_on.2:
	cmp	x27, #57
	b.ls	.Lrekusoyen_0_1_0.loads.steps.go_on.4
	ldr	x8, [sp, #136]
	ldrh	w9, [x8, #56]
	ldr	x4, [sp, #24]
	cmp	x4, x9
	b.hs	.Lrekusoyen_0_1_0.loads.steps.go_on.46
	b	.Lrekusoyen_0_1_0.loads.steps.go_on.6
.Lrekusoyen_0_1_0.loads.steps.go_on.4:
	ldr	x4, [sp, #24]
	b.ne	.Lrekusoyen_0_1_0.loads.steps.go_on.45
	ldr	x8, [sp, #136]
	ldrb	w9, [x8, #56]
	cmp	x4, x9
	b.hs	.Lrekusoyen_0_1_0.loads.steps.go_on.46
.Lrekusoyen_0_1_0.loads.steps.go_on.6:
	ldr	x8, [sp, #56]
	ldr	x19, [sp, #160]
	stp	x25, x24, [sp, #96]
	str	x28, [sp, #120]
	add	x8, x8, #16
	str	w22, [sp, #116]
	str	x8, [sp, #48]
	ldr	x8, [sp, #136]
	str	w23, [sp, #92]
	add	x8, x8, #16
	stp	x9, x27, [sp, #72]
	stp	x21, x8, [sp, #32]
.Lrekusoyen_0_1_0.loads.steps.go_on.7:
	ldr	x1, [sp, #136]
	sub	x0, x29, #72
	sub	x3, x29, #48
	mov	x2, x27
	str	x4, [sp, #168]
	bl	rekusoyen_0_1_0.loads.formats.part
	ldur	x8, [x29, #-64]
	mov	x11, xzr
	subs	x10, x27, x8
	b.lo	.Lrekusoyen_0_1_0.loads.steps.go_on.18
	ldur	x9, [x29, #-56]
	mov	x12, x11
	mov	x13, x11
	cmp	x9, x10
	b.hi	.Lrekusoyen_0_1_0.loads.steps.go_on.22
	ldr	x11, [sp, #64]
	ldur	x10, [x29, #-72]
	ldr	x11, [x11]
	subs	x12, x11, x10
	mov	x11, xzr
	b.lo	.Lrekusoyen_0_1_0.loads.steps.go_on.18
	cmp	x9, x12
	mov	x12, x11
	mov	x13, x11
	b.hi	.Lrekusoyen_0_1_0.loads.steps.go_on.22
	ldr	x13, [sp, #64]
	mov	w11, #16
	ldr	x12, [x13, #8]
	cmp	x12, #16
	csel	x11, x12, x11, lo
	cbz	x12, .Lrekusoyen_0_1_0.loads.steps.go_on.20
	add	x12, x13, #144
	b	.Lrekusoyen_0_1_0.loads.steps.go_on.14
.Lrekusoyen_0_1_0.loads.steps.go_on.13:
	subs	x11, x11, #1
	add	x12, x12, #8
	b.eq	.Lrekusoyen_0_1_0.loads.steps.go_on.19
.Lrekusoyen_0_1_0.loads.steps.go_on.14:
	ldur	x13, [x12, #-128]
	subs	x13, x10, x13
	b.lo	.Lrekusoyen_0_1_0.loads.steps.go_on.13
	ldr	x14, [x12]
	subs	x13, x14, x13
	b.lo	.Lrekusoyen_0_1_0.loads.steps.go_on.13
	cmp	x9, x13
	b.hi	.Lrekusoyen_0_1_0.loads.steps.go_on.13
	mov	x11, x10
	mov	x12, x8
	mov	x13, x9
	b	.Lrekusoyen_0_1_0.loads.steps.go_on.22
.Lrekusoyen_0_1_0.loads.steps.go_on.18:
	mov	x12, x11
	mov	x13, x11
	b	.Lrekusoyen_0_1_0.loads.steps.go_on.22
.Lrekusoyen_0_1_0.loads.steps.go_on.19:
	mov	x12, xzr
	b	.Lrekusoyen_0_1_0.loads.steps.go_on.21
.Lrekusoyen_0_1_0.loads.steps.go_on.20:
	mov	x11, xzr
.Lrekusoyen_0_1_0.loads.steps.go_on.21:
	mov	x13, xzr
.Lrekusoyen_0_1_0.loads.steps.go_on.22:
	cmp	x13, x19
	csel	x25, x13, x19, lo
	sub	x9, x13, x25
	add	x8, x25, x11
	ldr	x11, [sp, #128]
	cmp	x9, x21
	str	x9, [sp, #144]
	csel	x13, x9, x21, lo
	add	x9, x25, x12
	cmp	x11, x8
	csel	x8, x11, x8, lo
	cmp	x27, x9
	stp	x13, x19, [sp, #152]
	csel	x9, x27, x9, lo
	sub	x11, x11, x8
	sub	x10, x27, x9
	cmp	x10, x13
	csel	x10, x10, x13, lo
	cmp	x11, x10
	csel	x24, x11, x10, lo
	cbz	x24, .Lrekusoyen_0_1_0.loads.steps.go_on.40
	ldr	x10, [sp, #136]
	mov	x19, xzr
	add	x28, x10, x9
	add	x23, x9, x10
	ldp	x10, x11, [sp, #48]
	add	x22, x11, x8
	add	x26, x8, x11
	add	x8, x10, x8
	sub	x20, x26, x23
	str	x8, [sp, #184]
	ldr	x8, [sp, #40]
	add	x8, x8, x9
	str	x8, [sp, #176]
	b	.Lrekusoyen_0_1_0.loads.steps.go_on.26
.Lrekusoyen_0_1_0.loads.steps.go_on.24:
	add	x0, x22, x19
	add	x1, x28, x19
	mov	x2, x27
	bl	memmove
.Lrekusoyen_0_1_0.loads.steps.go_on.25:
	add	x19, x27, x19
	cmp	x19, x24
	b.hs	.Lrekusoyen_0_1_0.loads.steps.go_on.40
.Lrekusoyen_0_1_0.loads.steps.go_on.26:
	sub	x9, x24, x19
	mov	w8, #2048
	add	x10, x22, x19
	cmp	x9, #2048
	add	x11, x28, x19
	csel	x27, x9, x8, lo
	sub	x8, x10, x11
	cmp	x8, x27
	b.hs	.Lrekusoyen_0_1_0.loads.steps.go_on.24
	cmp	x9, #8
	mov	x8, xzr
	b.lo	.Lrekusoyen_0_1_0.loads.steps.go_on.38
	cmp	x20, #32
	b.lo	.Lrekusoyen_0_1_0.loads.steps.go_on.38
	cmp	x9, #32
	b.hs	.Lrekusoyen_0_1_0.loads.steps.go_on.31
	mov	x8, xzr
	b	.Lrekusoyen_0_1_0.loads.steps.go_on.35
.Lrekusoyen_0_1_0.loads.steps.go_on.31:
	ldp	x11, x10, [sp, #176]
	and	x9, x27, #0x18
	and	x8, x27, #0xfe0
	and	x12, x27, #0xfe0
	add	x10, x10, x19
	add	x11, x11, x19
.Lrekusoyen_0_1_0.loads.steps.go_on.32:
	ldp	q0, q1, [x11, #-16]
	subs	x12, x12, #32
	add	x11, x11, #32
	stp	q0, q1, [x10, #-16]
	add	x10, x10, #32
	b.ne	.Lrekusoyen_0_1_0.loads.steps.go_on.32
	cmp	x27, x8
	b.eq	.Lrekusoyen_0_1_0.loads.steps.go_on.25
	cbz	x9, .Lrekusoyen_0_1_0.loads.steps.go_on.38
.Lrekusoyen_0_1_0.loads.steps.go_on.35:
	mov	x9, x8
	and	x8, x27, #0xff8
	add	x11, x9, x19
	sub	x9, x9, x8
	add	x10, x23, x11
	add	x11, x26, x11
.Lrekusoyen_0_1_0.loads.steps.go_on.36:
	ldr	d0, [x10], #8
	adds	x9, x9, #8
	str	d0, [x11], #8
	b.ne	.Lrekusoyen_0_1_0.loads.steps.go_on.36
	cmp	x27, x8
	b.eq	.Lrekusoyen_0_1_0.loads.steps.go_on.25
.Lrekusoyen_0_1_0.loads.steps.go_on.38:
	add	x10, x8, x19
	sub	x8, x8, x27
	add	x9, x23, x10
	add	x10, x26, x10
.Lrekusoyen_0_1_0.loads.steps.go_on.39:
	ldrb	w11, [x9], #1
	adds	x8, x8, #1
	strb	w11, [x10], #1
	b.lo	.Lrekusoyen_0_1_0.loads.steps.go_on.39
	b	.Lrekusoyen_0_1_0.loads.steps.go_on.25
.Lrekusoyen_0_1_0.loads.steps.go_on.40:
	ldr	x8, [sp, #144]
	cmp	x21, x8
	b.lo	.Lrekusoyen_0_1_0.loads.steps.go_on.43
	ldp	x19, x4, [sp, #160]
	ldr	x8, [sp, #152]
	ldp	x9, x27, [sp, #72]
	ldr	x28, [sp, #120]
	sub	x21, x21, x8
	ldr	w22, [sp, #116]
	ldr	w23, [sp, #92]
	sub	x19, x19, x25
	add	x4, x4, #1
	ldp	x25, x24, [sp, #96]
	cmp	x4, x9
	b.ne	.Lrekusoyen_0_1_0.loads.steps.go_on.7
	ldp	x4, x8, [sp, #24]
	b	.Lrekusoyen_0_1_0.loads.steps.go_on.47
.Lrekusoyen_0_1_0.loads.steps.go_on.43:
	ldr	x9, [sp, #152]
	ldr	x28, [sp, #120]
	mov	w8, wzr
	ldr	w22, [sp, #116]
	ldr	w23, [sp, #92]
	add	x9, x9, x25
	ldp	x25, x24, [sp, #96]
	str	x9, [sp, #184]
	sub	x9, x29, #112
	stp	xzr, xzr, [x29, #-48]
	orr	x21, x9, #0x7
	stur	xzr, [x29, #-32]
.Lrekusoyen_0_1_0.loads.steps.go_on.44:
	str	xzr, [sp, #176]
	mov	w26, wzr
	mov	x19, xzr
	str	wzr, [sp, #160]
	mov	x20, xzr
	str	wzr, [sp, #152]
	b	.Lrekusoyen_0_1_0.loads.steps.go_on.49
.Lrekusoyen_0_1_0.loads.steps.go_on.45:
	mov	x9, xzr
.Lrekusoyen_0_1_0.loads.steps.go_on.46:
	mov	x8, x21
.Lrekusoyen_0_1_0.loads.steps.go_on.47:
	cmp	x9, x4
	sub	x8, x8, x21
	str	xzr, [sp, #184]
	csel	x9, x9, x4, hi
	str	x8, [sp, #32]
	mov	w8, #1
	str	x9, [sp, #168]
	sub	x9, x29, #112
	stp	xzr, xzr, [x29, #-48]
	orr	x21, x9, #0x7
	stur	xzr, [x29, #-32]
	tbz	w8, #0, .Lrekusoyen_0_1_0.loads.steps.go_on.44
	ldr	q0, [x21]
	ldr	x9, [x21, #16]
	mov	w10, #1
	mov	w26, w23
	mov	x19, x25
	mov	x20, x28
	str	w10, [sp, #152]
	stur	q0, [x29, #-48]
	str	x24, [sp, #176]
	str	w22, [sp, #160]
	stur	x9, [x29, #-32]
.Lrekusoyen_0_1_0.loads.steps.go_on.49:
	ldr	x27, [sp, #16]
	add	w8, w8, #1
	ldur	q0, [x29, #-48]
	ldur	x9, [x29, #-32]
	add	x1, sp, #224
	mov	w2, #272
	strb	w8, [x27]
	ldr	x8, [sp, #8]
	add	x0, x27, #16
	str	q0, [sp, #192]
	str	x9, [sp, #208]
	stur	wzr, [x27, #1]
	str	wzr, [x27, #4]
	str	x8, [x27, #8]
	bl	memcpy
	ldr	x8, [sp, #168]
	ldr	q0, [x21]
	ldur	x9, [x29, #-128]
	strb	w22, [x27, #304]
	str	x8, [x27, #288]
	ldr	x8, [sp, #184]
	str	q0, [x27, #336]
	ldp	q0, q1, [x29, #-160]
	str	x8, [x27, #296]
	add	x8, x27, #306
	str	wzr, [x8]
	ldr	x8, [x21, #16]
	strb	w23, [x27, #305]
	str	x8, [x27, #352]
	add	x8, x27, #360
	stp	q0, q1, [x8]
	ldr	x8, [sp, #32]
	ldr	q0, [sp, #192]
	strh	wzr, [x27, #310]
	stp	x9, x8, [x27, #392]
	ldr	w8, [sp, #152]
	stp	x24, x25, [x27, #312]
	strb	w8, [x27, #408]
	add	x8, x27, #409
	str	wzr, [x8]
	ldr	w8, [sp, #160]
	str	x28, [x27, #328]
	strb	w8, [x27, #416]
	add	x8, x27, #418
	str	wzr, [x8]
	ldr	x8, [sp, #176]
	str	wzr, [x27, #412]
	stp	x8, x19, [x27, #424]
	ldr	x8, [sp, #208]
	strb	w26, [x27, #417]
	strh	wzr, [x27, #422]
	str	x20, [x27, #440]
	str	q0, [x27, #448]
	str	x8, [x27, #464]
	add	sp, sp, #656
	ldp	x20, x19, [sp, #80]
	ldp	x22, x21, [sp, #64]
	ldp	x24, x23, [sp, #48]
	ldp	x26, x25, [sp, #32]
	ldp	x28, x27, [sp, #16]
	ldp	x29, x30, [sp], #96
	ret
.Lrekusoyen_0_1_0.loads.steps.go_on.func_end:
	.size	rekusoyen_0_1_0.loads.steps.go_on, .Lrekusoyen_0_1_0.loads.steps.go_on.func_end-rekusoyen_0_1_0.loads.steps.go_on
	.section	.text.rekusoyen_has_room_0_1_0,"ax",@progbits
	.globl	rekusoyen_has_room_0_1_0
	.hidden	rekusoyen_has_room_0_1_0
	.p2align	2
	.type	rekusoyen_has_room_0_1_0,@function
rekusoyen_has_room_0_1_0:
	sub	sp, sp, #320
	mov	w8, #4096
	cmp	x1, #0
	mov	x9, sp
	csel	x8, x8, xzr, eq
	stp	x28, x21, [sp, #288]
	mov	x21, x0
	add	x0, x9, #8
	add	x1, x1, x8
	stp	x29, x30, [sp, #272]
	stp	x20, x19, [sp, #304]
	add	x29, sp, #272
	mov	x19, x4
	mov	x20, x3
	bl	rekusoyen_0_1_0.guest.maps.from_numbers
	cbz	x19, .Lrekusoyen_has_room_0_1_0.11
	subs	x8, x21, x20
	mov	w0, wzr
	b.lo	.Lrekusoyen_has_room_0_1_0.10
	cmp	x19, x8
	b.hi	.Lrekusoyen_has_room_0_1_0.10
	ldr	x9, [sp, #8]
	mov	w8, #16
	cmp	x9, #16
	csel	x8, x9, x8, lo
	cbz	x9, .Lrekusoyen_has_room_0_1_0.12
	mov	x9, sp
	add	x9, x9, #144
	b	.Lrekusoyen_has_room_0_1_0.6
.Lrekusoyen_has_room_0_1_0.5:
	subs	x8, x8, #1
	add	x9, x9, #8
	b.eq	.Lrekusoyen_has_room_0_1_0.12
.Lrekusoyen_has_room_0_1_0.6:
	ldur	x10, [x9, #-128]
	subs	x10, x20, x10
	b.lo	.Lrekusoyen_has_room_0_1_0.5
	ldr	x11, [x9]
	subs	x10, x11, x10
	b.lo	.Lrekusoyen_has_room_0_1_0.5
	cmp	x19, x10
	b.hi	.Lrekusoyen_has_room_0_1_0.5
	mov	w0, #1
.Lrekusoyen_has_room_0_1_0.10:
	ldp	x20, x19, [sp, #304]
	ldp	x28, x21, [sp, #288]
	ldp	x29, x30, [sp, #272]
	add	sp, sp, #320
	ret
.Lrekusoyen_has_room_0_1_0.11:
	mov	w0, #1
	ldp	x20, x19, [sp, #304]
	ldp	x28, x21, [sp, #288]
	ldp	x29, x30, [sp, #272]
	add	sp, sp, #320
	ret
.Lrekusoyen_has_room_0_1_0.12:
	mov	w0, wzr
	ldp	x20, x19, [sp, #304]
	ldp	x28, x21, [sp, #288]
	ldp	x29, x30, [sp, #272]
	add	sp, sp, #320
	ret
.Lrekusoyen_has_room_0_1_0.func_end:
	.size	rekusoyen_has_room_0_1_0, .Lrekusoyen_has_room_0_1_0.func_end-rekusoyen_has_room_0_1_0
	.section	.rodata.cst16,"aM",@progbits,16
	.p2align	4, 0x0
.Lrekusoyen_job_0_1_0.CPI0:
	.xword	16384
	.xword	1
	.section	.rodata.cst8,"aM",@progbits,8
	.p2align	3, 0x0
.Lrekusoyen_job_0_1_0.CPI1:
	.byte	108
	.byte	111
	.byte	97
	.byte	100
	.zero	1
	.zero	1
	.zero	1
	.zero	1
	.section	.text.rekusoyen_job_0_1_0,"ax",@progbits
	.globl	rekusoyen_job_0_1_0
	.hidden	rekusoyen_job_0_1_0
	.p2align	2
	.type	rekusoyen_job_0_1_0,@function
rekusoyen_job_0_1_0:
	stp	x29, x30, [sp, #-96]!
	sub	x9, sp, #27, lsl #12
	stp	x28, x27, [sp, #16]
	mov	x29, sp
	sub	x9, x9, #3072
	stp	x26, x25, [sp, #32]
	stp	x24, x23, [sp, #48]
	stp	x22, x21, [sp, #64]
	stp	x20, x19, [sp, #80]
.Lrekusoyen_job_0_1_0.1:
	sub	sp, sp, #3072
	cmp	sp, x9
	str	xzr, [sp]
	b.ne	.Lrekusoyen_job_0_1_0.1
	sub	sp, sp, #1360
	movi	v0.2d, #0000000000000000
	mov	w8, #4096
	cmp	x0, #0
	csel	x27, x8, xzr, eq
	cmp	x2, #0
	str	xzr, [sp]
	csel	x8, x8, xzr, eq
	cmp	x3, #80
	stp	q0, q0, [sp, #80]
	stp	q0, q0, [sp, #112]
	str	q0, [sp, #64]
	b.ne	.Lrekusoyen_job_0_1_0.5
	mov	x19, x1
	mov	x22, x0
	cmp	x1, #3
	add	x24, x0, x27
	str	q0, [sp, #16528]
	str	q0, [sp, #16544]
	str	q0, [sp, #16560]
	str	q0, [sp, #16576]
	str	q0, [sp, #16592]
	b.ls	.Lrekusoyen_job_0_1_0.6
	ldr	w20, [x24]
	b	.Lrekusoyen_job_0_1_0.12
.Lrekusoyen_job_0_1_0.5:
	mov	w0, #62
	b	.Lrekusoyen_job_0_1_0.74
.Lrekusoyen_job_0_1_0.6:
	b.ne	.Lrekusoyen_job_0_1_0.8
	ldrb	w9, [x24, #2]
	lsl	x9, x9, #8
	b	.Lrekusoyen_job_0_1_0.10
.Lrekusoyen_job_0_1_0.8:
	cmp	x19, #2
	b.lo	.Lrekusoyen_job_0_1_0.58
	mov	x9, xzr
.Lrekusoyen_job_0_1_0.10:
	ldrb	w10, [x24, #1]
	orr	x9, x9, x10
	lsl	x9, x9, #8
.Lrekusoyen_job_0_1_0.11:
	ldrb	w10, [x24]
	orr	x20, x9, x10
.Lrekusoyen_job_0_1_0.12:
	add	x0, sp, #20, lsl #12
	add	x21, sp, #20, lsl #12
	add	x23, sp, #12, lsl #12
	add	x26, x2, x8
	add	x0, x0, #288
	add	x1, x22, x27
	mov	x2, x19
	mov	w3, #4
	add	x21, x21, #288
	add	x23, x23, #256
	bl	rekusoyen_0_1_0.desk.table.row_at
	add	x0, sp, #12, lsl #12
	add	x1, x22, x27
	mov	x2, x19
	add	x0, x0, #256
	mov	w3, #16
	bl	rekusoyen_0_1_0.desk.table.row_at
	cmp	x19, #4, lsl #12
	str	x24, [sp, #56]
	b.hi	.Lrekusoyen_job_0_1_0.28
	sub	x8, x20, #1
	cmp	x8, #1
	b.hi	.Lrekusoyen_job_0_1_0.28
	ldr	x8, [x21]
	cmp	x20, #1
	sub	x10, x8, #1
	b.ne	.Lrekusoyen_job_0_1_0.18
	cmp	x10, #1
	b.hi	.Lrekusoyen_job_0_1_0.28
	add	x9, sp, #20, lsl #12
	mov	w20, wzr
	mov	x21, xzr
	add	x9, x9, #288
	mov	w23, #36
	mov	w25, #1
	ldr	x8, [x9, #8]
	cmp	x8, #16
	b.ne	.Lrekusoyen_job_0_1_0.78
	ldr	x8, [x9, #16]
	add	x8, x8, #16
	b	.Lrekusoyen_job_0_1_0.25
.Lrekusoyen_job_0_1_0.18:
	ldr	x9, [x23]
	cmp	x10, #1
	b.hi	.Lrekusoyen_job_0_1_0.20
	cmp	x9, #3
	b.eq	.Lrekusoyen_job_0_1_0.22
.Lrekusoyen_job_0_1_0.20:
	cmp	x8, #3
	b.ne	.Lrekusoyen_job_0_1_0.28
	sub	x8, x9, #1
	cmp	x8, #2
	b.hs	.Lrekusoyen_job_0_1_0.28
.Lrekusoyen_job_0_1_0.22:
	add	x9, sp, #20, lsl #12
	mov	w20, wzr
	mov	x21, xzr
	add	x9, x9, #288
	mov	w23, #36
	mov	w25, #1
	ldr	x8, [x9, #8]
	cmp	x8, #28
	b.ne	.Lrekusoyen_job_0_1_0.78
	add	x10, sp, #12, lsl #12
	ldr	x8, [x9, #16]
	add	x10, x10, #256
	ldr	x9, [x10, #8]
	add	x8, x8, #28
	cmp	x9, x8
	b.ne	.Lrekusoyen_job_0_1_0.78
	ldr	x9, [x10, #16]
	add	x8, x9, x8
.Lrekusoyen_job_0_1_0.25:
	cmp	x8, x19
	mov	x28, x21
	mov	x24, x21
	b.ne	.Lrekusoyen_job_0_1_0.30
	add	x20, sp, #4, lsl #12
	add	x0, sp, #144
	mov	w1, wzr
	mov	w2, #16384
	add	x20, x20, #232
	bl	memset
	add	x0, sp, #20, lsl #12
	add	x1, x22, x27
	mov	x2, x19
	add	x0, x0, #288
	mov	w3, #4
	bl	rekusoyen_0_1_0.desk.table.row_at
	add	x0, sp, #12, lsl #12
	add	x1, x22, x27
	mov	x2, x19
	add	x0, x0, #256
	mov	w3, #16
	bl	rekusoyen_0_1_0.desk.table.row_at
	add	x11, sp, #20, lsl #12
	add	x11, x11, #288
	ldr	x8, [x11]
	sub	x9, x8, #1
	cmp	x9, #1
	b.hi	.Lrekusoyen_job_0_1_0.75
	add	x25, sp, #12, lsl #12
	ldp	x10, x9, [x11, #8]
	add	x25, x25, #256
	ldp	x21, x28, [x25, #8]
	b	.Lrekusoyen_job_0_1_0.76
.Lrekusoyen_job_0_1_0.28:
	mov	x21, xzr
	mov	x28, xzr
	mov	w20, wzr
	mov	x24, xzr
	mov	w23, #36
.Lrekusoyen_job_0_1_0.29:
	mov	w25, #1
.Lrekusoyen_job_0_1_0.30:
	str	w20, [sp, #48]
	ldr	x20, [sp, #56]
	add	x0, sp, #20, lsl #12
	add	x0, x0, #288
	mov	x2, x19
	mov	w3, #4
	mov	x1, x20
	add	x22, sp, #20, lsl #12
	add	x22, x22, #288
	bl	rekusoyen_0_1_0.desk.table.row_at
	add	x0, sp, #12, lsl #12
	mov	x1, x20
	mov	x2, x19
	add	x0, x0, #256
	mov	w3, #16
	bl	rekusoyen_0_1_0.desk.table.row_at
	add	x27, sp, #20, lsl #12
	add	x19, sp, #12, lsl #12
	movi	v0.2d, #0000000000000000
	add	x27, x27, #288
	add	x19, x19, #256
	ldr	x8, [x27]
	ldr	x9, [x19]
	sub	x10, x8, #1
	stp	q0, q0, [x27, #16]
	cmp	x10, #2
	stp	q0, q0, [x27, #48]
	csel	x20, x8, x9, lo
	str	q0, [x27]
	cbz	w25, .Lrekusoyen_job_0_1_0.36
	mov	w0, w23
	bl	rekusoyen_0_1_0.answers.U32FromRefusal.from
	mov	x8, #25970
	cmp	w0, #10
	mov	w9, w0
	movk	x8, #30054, lsl #16
	stp	xzr, xzr, [x19]
	movk	x8, #25971, lsl #32
	str	wzr, [x19, #16]
	movk	x8, #8292, lsl #48
	str	x8, [x27]
	mov	w8, #19
	b.lo	.Lrekusoyen_job_0_1_0.34
	mov	x10, x9
.Lrekusoyen_job_0_1_0.33:
	mov	x9, #-3689348814741910324
	mov	w11, #10
	add	x12, sp, #12, lsl #12
	movk	x9, #52429
	add	x12, x12, #256
	cmp	x10, #99
	umulh	x9, x10, x9
	lsr	x9, x9, #3
	msub	w11, w9, w11, w10
	orr	w10, w11, #0x30
	strb	w10, [x12, x8]
	sub	x8, x8, #1
	mov	x10, x9
	b.hi	.Lrekusoyen_job_0_1_0.33
.Lrekusoyen_job_0_1_0.34:
	mov	w10, #20
	mov	w11, #72
	add	x20, sp, #20, lsl #12
	sub	x21, x10, x8
	add	x10, sp, #12, lsl #12
	add	x20, x20, #288
	cmp	x21, #72
	add	x10, x10, #256
	orr	x0, x20, #0x8
	csel	x19, x21, x11, lo
	add	x1, x10, x8
	orr	w9, w9, #0x30
	mov	x2, x19
	strb	w9, [x10, x8]
	bl	memcpy
	cmp	x21, #71
	b.hi	.Lrekusoyen_job_0_1_0.73
	add	x8, x20, x19
	mov	w9, #10
	strb	w9, [x8, #8]
	b	.Lrekusoyen_job_0_1_0.73
.Lrekusoyen_job_0_1_0.36:
	adrp	x8, .Lrekusoyen_0_1_0.static.7
	add	x8, x8, :lo12:.Lrekusoyen_0_1_0.static.7
	sub	x8, x22, x8
	cmp	x8, #4
	b.hi	.Lrekusoyen_job_0_1_0.38
	adrp	x8, .Lrekusoyen_job_0_1_0.CPI1
	ldr	d0, [x8, :lo12:.Lrekusoyen_job_0_1_0.CPI1]
	mov	w8, #32
	strb	w8, [x27, #4]
	str	s0, [x27]
	add	x25, sp, #12, lsl #12
	cmp	x21, #10
	mov	w22, #19
	stp	xzr, xzr, [x25, #256]!
	str	wzr, [x25, #16]
	b.hs	.Lrekusoyen_job_0_1_0.39
	b	.Lrekusoyen_job_0_1_0.41
.Lrekusoyen_job_0_1_0.38:
	mov	w9, #28524
	mov	w8, #32
	movk	w9, #25697, lsl #16
	strb	w8, [x27, #4]
	str	w9, [x27]
	add	x25, sp, #12, lsl #12
	cmp	x21, #10
	mov	w22, #19
	stp	xzr, xzr, [x25, #256]!
	str	wzr, [x25, #16]
	b.lo	.Lrekusoyen_job_0_1_0.41
.Lrekusoyen_job_0_1_0.39:
	mov	x8, x21
.Lrekusoyen_job_0_1_0.40:
	mov	x9, #-3689348814741910324
	add	x10, sp, #12, lsl #12
	cmp	x8, #99
	movk	x9, #52429
	add	x10, x10, #256
	umulh	x9, x8, x9
	lsr	x21, x9, #3
	mov	w9, #10
	msub	w9, w21, w9, w8
	orr	w8, w9, #0x30
	strb	w8, [x10, x22]
	sub	x22, x22, #1
	mov	x8, x21
	b.hi	.Lrekusoyen_job_0_1_0.40
.Lrekusoyen_job_0_1_0.41:
	mov	w8, #20
	orr	w9, w21, #0x30
	add	x10, sp, #12, lsl #12
	sub	x23, x8, x22
	mov	w8, #75
	add	x21, sp, #20, lsl #12
	cmp	x23, #75
	add	x10, x10, #256
	add	x21, x21, #288
	csel	x19, x23, x8, lo
	mov	w8, #5
	add	x1, x10, x22
	orr	x0, x21, x8
	mov	x2, x19
	strb	w9, [x10, x22]
	bl	memcpy
	cmp	x23, #74
	b.hi	.Lrekusoyen_job_0_1_0.44
	add	x8, x22, #54
	mov	w10, #4
	add	x9, x21, x19
	cmp	x8, #4
	mov	w11, #10
	csel	x19, x8, x10, lo
	cmn	x22, #54
	strb	w11, [x9, #5]
	b.eq	.Lrekusoyen_job_0_1_0.45
	mov	w8, #26
	adrp	x1, .Lrekusoyen_0_1_0.static.8
	add	x1, x1, :lo12:.Lrekusoyen_0_1_0.static.8
	sub	x21, x8, x22
	add	x8, sp, #20, lsl #12
	mov	x2, x19
	add	x8, x8, #288
	add	x0, x8, x21
	bl	memcpy
	cmp	x28, #10
	add	x21, x21, x19
	mov	w8, #19
	stp	xzr, xzr, [x25]
	str	wzr, [x25, #16]
	b.lo	.Lrekusoyen_job_0_1_0.48
	b	.Lrekusoyen_job_0_1_0.46
.Lrekusoyen_job_0_1_0.44:
	mov	x19, xzr
.Lrekusoyen_job_0_1_0.45:
	mov	w21, #80
	cmp	x28, #10
	add	x21, x21, x19
	mov	w8, #19
	stp	xzr, xzr, [x25]
	str	wzr, [x25, #16]
	b.lo	.Lrekusoyen_job_0_1_0.48
.Lrekusoyen_job_0_1_0.46:
	mov	x9, x28
.Lrekusoyen_job_0_1_0.47:
	mov	x10, #-3689348814741910324
	add	x11, sp, #12, lsl #12
	cmp	x9, #99
	movk	x10, #52429
	add	x11, x11, #256
	umulh	x10, x9, x10
	lsr	x28, x10, #3
	mov	w10, #10
	msub	w10, w28, w10, w9
	orr	w9, w10, #0x30
	strb	w9, [x11, x8]
	sub	x8, x8, #1
	mov	x9, x28
	b.hi	.Lrekusoyen_job_0_1_0.47
.Lrekusoyen_job_0_1_0.48:
	mov	w9, #20
	mov	w10, #80
	sub	x11, x9, x8
	sub	x10, x10, x21
	add	x9, sp, #12, lsl #12
	cmp	x10, x11
	add	x9, x9, #256
	csel	x19, x10, x11, lo
	orr	w10, w28, #0x30
	strb	w10, [x9, x8]
	cbz	x19, .Lrekusoyen_job_0_1_0.50
	add	x10, sp, #20, lsl #12
	add	x1, x9, x8
	mov	x2, x19
	add	x10, x10, #288
	add	x0, x10, x21
	bl	memcpy
.Lrekusoyen_job_0_1_0.50:
	add	x21, x19, x21
	cmp	x21, #80
	cset	w19, lo
	cmp	x21, #79
	b.hi	.Lrekusoyen_job_0_1_0.53
	add	x8, sp, #20, lsl #12
	add	x8, x8, #288
	add	x0, x8, x21
	adrp	x8, .Lrekusoyen_0_1_0.static.9
	add	x8, x8, :lo12:.Lrekusoyen_0_1_0.static.9
	sub	x8, x0, x8
	cmp	x8, x19
	b.hs	.Lrekusoyen_job_0_1_0.59
	mov	w8, #10
	strb	w8, [x0]
.Lrekusoyen_job_0_1_0.53:
	add	x10, x21, x19
	mov	w8, #80
	cmp	x10, #80
	csel	x21, x10, x8, lo
	cmp	x20, #1
	b.ne	.Lrekusoyen_job_0_1_0.73
.Lrekusoyen_job_0_1_0.54:
	mov	w8, #80
	ldr	w11, [sp, #48]
	sub	x9, x8, x21
	add	x8, sp, #20, lsl #12
	add	x8, x8, #288
	cbz	w11, .Lrekusoyen_job_0_1_0.60
	cmp	w11, #1
	b.ne	.Lrekusoyen_job_0_1_0.70
	cmp	x10, #79
	b.hi	.Lrekusoyen_job_0_1_0.73
	cmp	x9, #9
	mov	w10, #9
	adrp	x1, .Lrekusoyen_0_1_0.static.11
	add	x1, x1, :lo12:.Lrekusoyen_0_1_0.static.11
	b	.Lrekusoyen_job_0_1_0.72
.Lrekusoyen_job_0_1_0.58:
	mov	x9, xzr
	mov	x20, xzr
	cbnz	x19, .Lrekusoyen_job_0_1_0.11
	b	.Lrekusoyen_job_0_1_0.12
.Lrekusoyen_job_0_1_0.59:
	mov	w1, #10
	mov	x2, x19
	bl	memset
	add	x10, x21, x19
	mov	w8, #80
	cmp	x10, #80
	csel	x21, x10, x8, lo
	cmp	x20, #1
	b.eq	.Lrekusoyen_job_0_1_0.54
	b	.Lrekusoyen_job_0_1_0.73
.Lrekusoyen_job_0_1_0.60:
	cmp	x9, #4
	mov	w11, #4
	csel	x19, x9, x11, lo
	cmp	x10, #79
	b.hi	.Lrekusoyen_job_0_1_0.62
	adrp	x1, .Lrekusoyen_0_1_0.static.12
	add	x1, x1, :lo12:.Lrekusoyen_0_1_0.static.12
	add	x0, x8, x21
	mov	x2, x19
	bl	memcpy
.Lrekusoyen_job_0_1_0.62:
	cmp	x24, #10
	add	x20, x19, x21
	mov	w8, #19
	stp	xzr, xzr, [x25]
	str	wzr, [x25, #16]
	b.lo	.Lrekusoyen_job_0_1_0.65
	mov	x9, x24
.Lrekusoyen_job_0_1_0.64:
	mov	x10, #-3689348814741910324
	add	x11, sp, #12, lsl #12
	cmp	x9, #99
	movk	x10, #52429
	add	x11, x11, #256
	umulh	x10, x9, x10
	lsr	x24, x10, #3
	mov	w10, #10
	msub	w10, w24, w10, w9
	orr	w9, w10, #0x30
	strb	w9, [x11, x8]
	sub	x8, x8, #1
	mov	x9, x24
	b.hi	.Lrekusoyen_job_0_1_0.64
.Lrekusoyen_job_0_1_0.65:
	mov	w9, #20
	mov	w10, #80
	sub	x11, x9, x8
	sub	x10, x10, x20
	add	x9, sp, #12, lsl #12
	cmp	x10, x11
	add	x9, x9, #256
	csel	x19, x10, x11, lo
	orr	w10, w24, #0x30
	strb	w10, [x9, x8]
	cbz	x19, .Lrekusoyen_job_0_1_0.67
	add	x10, sp, #20, lsl #12
	add	x1, x9, x8
	mov	x2, x19
	add	x10, x10, #288
	add	x0, x10, x20
	bl	memcpy
.Lrekusoyen_job_0_1_0.67:
	add	x8, x19, x20
	cmp	x8, #80
	cset	w2, lo
	cmp	x8, #79
	b.hi	.Lrekusoyen_job_0_1_0.73
	add	x9, sp, #20, lsl #12
	add	x9, x9, #288
	add	x0, x9, x8
	adrp	x8, .Lrekusoyen_0_1_0.static.9
	add	x8, x8, :lo12:.Lrekusoyen_0_1_0.static.9
	sub	x8, x0, x8
	cmp	x8, x2
	b.hs	.Lrekusoyen_job_0_1_0.83
	mov	w8, #10
	strb	w8, [x0]
	b	.Lrekusoyen_job_0_1_0.73
.Lrekusoyen_job_0_1_0.70:
	cmp	x10, #79
	b.hi	.Lrekusoyen_job_0_1_0.73
	cmp	x9, #12
	mov	w10, #12
	adrp	x1, .Lrekusoyen_0_1_0.static.10
	add	x1, x1, :lo12:.Lrekusoyen_0_1_0.static.10
.Lrekusoyen_job_0_1_0.72:
	csel	x2, x9, x10, lo
	add	x0, x8, x21
	bl	memcpy
.Lrekusoyen_job_0_1_0.73:
	ldp	q0, q1, [x27, #48]
	mov	w0, wzr
	ldp	q3, q2, [x27, #16]
	ldr	q4, [x27]
	str	q0, [sp, #16576]
	str	q1, [sp, #16592]
	stp	q2, q0, [sp, #96]
	str	q1, [sp, #128]
	stp	q4, q3, [sp, #64]
	stp	q2, q0, [x26, #32]
	str	q1, [x26, #64]
	stp	q4, q3, [x26]
.Lrekusoyen_job_0_1_0.74:
	add	sp, sp, #28, lsl #12
	add	sp, sp, #336
	ldp	x20, x19, [sp, #80]
	ldp	x22, x21, [sp, #64]
	ldp	x24, x23, [sp, #48]
	ldp	x26, x25, [sp, #32]
	ldp	x28, x27, [sp, #16]
	ldp	x29, x30, [sp], #96
	ret
.Lrekusoyen_job_0_1_0.75:
	add	x25, sp, #12, lsl #12
	ldp	x21, x28, [x11, #8]
	ldp	x8, x10, [x25, #256]!
	ldr	x9, [x25, #16]
.Lrekusoyen_job_0_1_0.76:
	cmp	x19, x10
	movi	v0.2d, #0000000000000000
	add	x0, sp, #12, lsl #12
	csel	x24, x19, x10, lo
	add	x1, sp, #20, lsl #12
	add	x23, x22, x27
	sub	x10, x19, x24
	add	x4, sp, #4, lsl #12
	add	x0, x0, #256
	cmp	x10, x9
	add	x1, x1, #288
	add	x2, x23, x24
	csel	x3, x10, x9, lo
	cmp	x8, #1
	add	x4, x4, #232
	cset	w8, ne
	stur	q0, [x20, #1]
	strb	w8, [x20]
	mov	w8, #16384
	str	x8, [x11, #144]
	adrp	x8, .Lrekusoyen_job_0_1_0.CPI0
	ldr	q1, [x8, :lo12:.Lrekusoyen_job_0_1_0.CPI0]
	stur	q0, [x20, #17]
	str	xzr, [sp, #16648]
	str	q0, [sp, #49408]
	str	q0, [sp, #49424]
	str	q0, [sp, #49440]
	str	xzr, [x25, #48]
	stp	q0, q0, [x11, #32]
	stp	q0, q0, [x11, #64]
	stp	q0, q0, [x11, #96]
	str	q0, [x11, #128]
	str	xzr, [x11, #264]
	stur	q0, [x11, #248]
	stur	q0, [x11, #232]
	stur	q0, [x11, #216]
	stur	q0, [x11, #200]
	stur	q0, [x11, #184]
	stur	q0, [x11, #168]
	stur	q0, [x11, #152]
	stp	q1, q0, [x11]
	str	q1, [sp, #32]
	str	x3, [sp, #48]
	bl	rekusoyen_0_1_0.loads.formats.plan
	ldrb	w8, [x25]
	cbz	w8, .Lrekusoyen_job_0_1_0.79
	ldrb	w23, [x25, #1]
	mov	x21, xzr
	mov	x28, xzr
	mov	w20, wzr
	mov	x24, xzr
	b	.Lrekusoyen_job_0_1_0.29
.Lrekusoyen_job_0_1_0.78:
	mov	x28, x21
	mov	x24, x21
	b	.Lrekusoyen_job_0_1_0.30
.Lrekusoyen_job_0_1_0.79:
	stp	x28, x21, [sp, #16]
	ldp	x21, x28, [x25, #8]
	add	x4, sp, #4, lsl #12
	ldr	x3, [sp, #48]
	add	x0, sp, #144
	ldrb	w20, [x25, #24]
	add	x2, x23, x24
	add	x4, x4, #232
	mov	w1, #16384
	bl	rekusoyen_0_1_0.loads.copying.copy_all
	ldr	x24, [x25, #32]
	cmp	x19, #3
	b.ls	.Lrekusoyen_job_0_1_0.81
	ldr	w8, [x23]
	add	x10, x22, x27
	b	.Lrekusoyen_job_0_1_0.88
.Lrekusoyen_job_0_1_0.81:
	b.ne	.Lrekusoyen_job_0_1_0.84
	add	x10, x22, x27
	ldrb	w8, [x10, #2]
	lsl	x8, x8, #8
	b	.Lrekusoyen_job_0_1_0.86
.Lrekusoyen_job_0_1_0.83:
	mov	w1, #10
	bl	memset
	b	.Lrekusoyen_job_0_1_0.73
.Lrekusoyen_job_0_1_0.84:
	cmp	x19, #2
	add	x10, x22, x27
	b.lo	.Lrekusoyen_job_0_1_0.127
	mov	x8, xzr
.Lrekusoyen_job_0_1_0.86:
	ldrb	w9, [x10, #1]
	orr	x8, x8, x9
	lsl	x8, x8, #8
.Lrekusoyen_job_0_1_0.87:
	ldrb	w9, [x10]
	orr	x8, x8, x9
.Lrekusoyen_job_0_1_0.88:
	cmp	x8, #2
	b.ne	.Lrekusoyen_job_0_1_0.129
	ldp	x9, x8, [sp, #16]
	cmp	x19, x8
	csel	x11, x19, x8, lo
	sub	x8, x19, x11
	add	x0, x10, x11
	mov	x25, x11
	cmp	x8, x9
	csel	x1, x8, x9, lo
	add	x8, x10, x11
	str	x8, [sp, #24]
	str	x1, [sp, #48]
	bl	rekusoyen_0_1_0.slugs.splitting.split_at
	mov	x23, xzr
	cbz	x0, .Lrekusoyen_job_0_1_0.95
	ldr	x11, [sp, #24]
	ldr	x13, [sp, #48]
	mov	x12, x25
	b	.Lrekusoyen_job_0_1_0.92
.Lrekusoyen_job_0_1_0.91:
	add	x23, x23, #1
	cmp	x0, x23
	b.eq	.Lrekusoyen_job_0_1_0.94
.Lrekusoyen_job_0_1_0.92:
	ldrb	w8, [x11, x23]
	sub	w9, w8, #9
	cmp	w9, #5
	b.lo	.Lrekusoyen_job_0_1_0.91
	cmp	w8, #32
	b.eq	.Lrekusoyen_job_0_1_0.91
	b	.Lrekusoyen_job_0_1_0.96
.Lrekusoyen_job_0_1_0.94:
	mov	x23, x0
	b	.Lrekusoyen_job_0_1_0.96
.Lrekusoyen_job_0_1_0.95:
	ldr	x11, [sp, #24]
	ldr	x13, [sp, #48]
	mov	x12, x25
.Lrekusoyen_job_0_1_0.96:
	subs	x25, x0, x23
	b.eq	.Lrekusoyen_job_0_1_0.101
	add	x8, x27, x0
	add	x9, x12, x22
	add	x8, x8, x9
	sub	x8, x8, #1
	b	.Lrekusoyen_job_0_1_0.99
.Lrekusoyen_job_0_1_0.98:
	sub	x25, x25, #1
	cbz	x25, .Lrekusoyen_job_0_1_0.101
.Lrekusoyen_job_0_1_0.99:
	ldrb	w9, [x8], #-1
	sub	w10, w9, #9
	cmp	w10, #5
	b.lo	.Lrekusoyen_job_0_1_0.98
	cmp	w9, #32
	b.eq	.Lrekusoyen_job_0_1_0.98
.Lrekusoyen_job_0_1_0.101:
	cmp	x13, x0
	mov	w10, #4
	str	w20, [sp, #48]
	csel	x8, x13, x0, lo
	mov	x20, xzr
	str	x26, [sp, #8]
	sub	x9, x13, x8
	add	x11, x11, x8
	cmp	x9, #4
	csel	x10, x9, x10, lo
	subs	x8, x9, x10
	add	x11, x11, x10
	b.ne	.Lrekusoyen_job_0_1_0.103
	b	.Lrekusoyen_job_0_1_0.106
.Lrekusoyen_job_0_1_0.102:
	add	x20, x20, #1
	cmp	x8, x20
	b.eq	.Lrekusoyen_job_0_1_0.105
.Lrekusoyen_job_0_1_0.103:
	ldrb	w9, [x11, x20]
	sub	w10, w9, #9
	cmp	w10, #5
	b.lo	.Lrekusoyen_job_0_1_0.102
	cmp	w9, #32
	b.eq	.Lrekusoyen_job_0_1_0.102
	b	.Lrekusoyen_job_0_1_0.106
.Lrekusoyen_job_0_1_0.105:
	mov	x20, x8
.Lrekusoyen_job_0_1_0.106:
	subs	x26, x8, x20
	b.eq	.Lrekusoyen_job_0_1_0.115
	add	x8, x27, x12
	add	x9, x13, x22
	add	x8, x8, x9
	sub	x8, x8, #1
	b	.Lrekusoyen_job_0_1_0.109
.Lrekusoyen_job_0_1_0.108:
	sub	x26, x26, #1
	cbz	x26, .Lrekusoyen_job_0_1_0.115
.Lrekusoyen_job_0_1_0.109:
	ldrb	w9, [x8], #-1
	sub	w10, w9, #9
	cmp	w10, #5
	b.lo	.Lrekusoyen_job_0_1_0.108
	cmp	w9, #32
	b.eq	.Lrekusoyen_job_0_1_0.108
	cmp	x25, #4095
	b.hi	.Lrekusoyen_job_0_1_0.125
	cmp	x25, #4091
	b.hi	.Lrekusoyen_job_0_1_0.125
	mov	w8, #4091
	sub	x8, x8, x25
	cmp	x26, x8
	b.hi	.Lrekusoyen_job_0_1_0.125
	str	x11, [sp]
	mov	w27, wzr
	b	.Lrekusoyen_job_0_1_0.117
.Lrekusoyen_job_0_1_0.115:
	cmp	x25, #1, lsl #12
	b.hs	.Lrekusoyen_job_0_1_0.125
	mov	x26, xzr
	mov	w27, #1
	str	x11, [sp]
.Lrekusoyen_job_0_1_0.117:
	add	x8, sp, #20, lsl #12
	add	x0, sp, #20, lsl #12
	mov	w1, wzr
	add	x8, x8, #288
	add	x0, x0, #288
	mov	w2, #32776
	add	x22, x8, #8, lsl #12
	bl	memset
	mov	w8, #4096
	str	x22, [sp, #16]
	str	x8, [x22, #16]
	cbz	x25, .Lrekusoyen_job_0_1_0.120
	ldr	x8, [sp, #24]
	mov	x22, xzr
	add	x23, x8, x23
.Lrekusoyen_job_0_1_0.119:
	sub	x9, x25, x22
	mov	w10, #2048
	mov	x8, x22
	cmp	x9, #2048
	add	x1, x23, x22
	csel	x2, x9, x10, lo
	add	x9, sp, #20, lsl #12
	add	x9, x9, #288
	add	x22, x2, x22
	add	x0, x9, x8
	bl	memcpy
	cmp	x22, x25
	b.lo	.Lrekusoyen_job_0_1_0.119
.Lrekusoyen_job_0_1_0.120:
	add	x9, sp, #12, lsl #12
	cmp	x26, #4, lsl #12
	mov	w8, #16384
	add	x9, x9, #256
	add	x23, x9, #8, lsl #12
	add	x9, sp, #20, lsl #12
	add	x9, x9, #288
	str	x25, [x9, #16384]
	csel	x25, x26, x8, lo
	tbnz	w27, #0, .Lrekusoyen_job_0_1_0.123
	ldr	x9, [sp]
	mov	w8, #16392
	mov	x27, xzr
	add	x20, x9, x20
	add	x9, sp, #20, lsl #12
	add	x9, x9, #288
	add	x26, x9, x8
.Lrekusoyen_job_0_1_0.122:
	sub	x9, x25, x27
	mov	w10, #2048
	cmp	x9, #2048
	add	x0, x26, x27
	add	x1, x20, x27
	csel	x2, x9, x10, lo
	add	x27, x2, x27
	bl	memcpy
	cmp	x27, x25
	b.lo	.Lrekusoyen_job_0_1_0.122
.Lrekusoyen_job_0_1_0.123:
	ldr	x8, [sp, #16]
	add	x20, sp, #4, lsl #12
	add	x1, sp, #20, lsl #12
	add	x20, x20, #232
	add	x1, x1, #288
	mov	w2, #32784
	ldr	x22, [x8, #16]
	add	x0, x20, #6
	str	x25, [x8, #8]
	bl	memcpy
	add	x0, sp, #12, lsl #12
	add	x1, x20, #6
	mov	w2, #32784
	add	x0, x0, #256
	add	x20, sp, #12, lsl #12
	add	x20, x20, #256
	bl	memcpy
	add	x9, sp, #12, lsl #12
	movi	v0.2d, #0000000000000000
	ldr	x10, [x23, #8]
	add	x9, x9, #256
	add	x11, sp, #20, lsl #12
	mov	w8, #16384
	ldr	x9, [x9, #16384]
	add	x11, x11, #288
	str	x22, [x23, #16]
	mov	w25, #16392
	add	x0, sp, #20, lsl #12
	add	x2, sp, #12, lsl #12
	cmp	x9, #4, lsl #12
	stp	q0, q0, [x11, #16]
	add	x0, x0, #288
	csel	x26, x9, x8, lo
	cmp	x10, #4, lsl #12
	stp	q0, q0, [x11, #48]
	stp	q0, q0, [x11, #80]
	csel	x22, x10, x8, lo
	add	x2, x2, #256
	stp	q0, q0, [x11, #112]
	add	x4, x20, x25
	mov	x1, x28
	stur	q0, [x11, #152]
	mov	x3, x26
	mov	x5, x22
	stur	q0, [x11, #168]
	stur	q0, [x11, #184]
	stur	q0, [x11, #200]
	stur	q0, [x11, #216]
	stur	q0, [x11, #232]
	stur	q0, [x11, #248]
	ldr	q0, [sp, #32]
	str	x8, [x11, #144]
	str	xzr, [x11, #264]
	str	q0, [x11]
	bl	rekusoyen_0_1_0.loader.plan_texts
	tst	w0, #0xff
	b.eq	.Lrekusoyen_job_0_1_0.130
	mov	w23, w1
	mov	x21, xzr
	mov	x28, xzr
	mov	w20, wzr
	mov	x24, xzr
	b	.Lrekusoyen_job_0_1_0.126
.Lrekusoyen_job_0_1_0.125:
	mov	x21, xzr
	mov	x28, xzr
	mov	w20, wzr
	mov	x24, xzr
	mov	w23, #20
.Lrekusoyen_job_0_1_0.126:
	ldr	x26, [sp, #8]
	b	.Lrekusoyen_job_0_1_0.29
.Lrekusoyen_job_0_1_0.127:
	cbz	x19, .Lrekusoyen_job_0_1_0.129
	mov	x8, xzr
	b	.Lrekusoyen_job_0_1_0.87
.Lrekusoyen_job_0_1_0.129:
	mov	w25, wzr
	mov	w23, wzr
	b	.Lrekusoyen_job_0_1_0.30
.Lrekusoyen_job_0_1_0.130:
	cmp	x28, #4, lsl #12
	mov	w8, #16384
	add	x10, sp, #144
	csel	x9, x28, x8, lo
	add	x2, sp, #12, lsl #12
	add	x4, x20, x25
	sub	x1, x8, x9
	add	x0, x10, x9
	add	x2, x2, #256
	mov	x3, x26
	mov	x5, x22
	bl	rekusoyen_0_1_0.cmdline.writing.write
	ldr	x26, [sp, #8]
	ldr	w20, [sp, #48]
	mov	w25, wzr
	mov	w23, wzr
	b	.Lrekusoyen_job_0_1_0.30
.Lrekusoyen_job_0_1_0.func_end:
	.size	rekusoyen_job_0_1_0, .Lrekusoyen_job_0_1_0.func_end-rekusoyen_job_0_1_0
	.section	.text.rekusoyen_kind_0_1_0,"ax",@progbits
	.globl	rekusoyen_kind_0_1_0
	.hidden	rekusoyen_kind_0_1_0
	.p2align	2
	.type	rekusoyen_kind_0_1_0,@function
rekusoyen_kind_0_1_0:
	mov	w8, #4096
	cmp	x0, #0
	csel	x8, x8, xzr, eq
	cbz	x1, .Lrekusoyen_kind_0_1_0.14
	add	x8, x0, x8
	ldrb	w9, [x8]
	cmp	w9, #127
	b.ne	.Lrekusoyen_kind_0_1_0.9
	cmp	x1, #1
	b.eq	.Lrekusoyen_kind_0_1_0.14
	ldrb	w9, [x8, #1]
	cmp	w9, #69
	b.ne	.Lrekusoyen_kind_0_1_0.9
	cmp	x1, #3
	b.lo	.Lrekusoyen_kind_0_1_0.14
	ldrb	w9, [x8, #2]
	cmp	w9, #76
	b.ne	.Lrekusoyen_kind_0_1_0.9
	cmp	x1, #3
	b.eq	.Lrekusoyen_kind_0_1_0.14
	ldrb	w9, [x8, #3]
	cmp	w9, #70
	b.ne	.Lrekusoyen_kind_0_1_0.9
	mov	w0, #1
	ret
.Lrekusoyen_kind_0_1_0.9:
	cmp	x1, #517
	b.ls	.Lrekusoyen_kind_0_1_0.12
	add	x9, x8, #514
	mov	w10, #25672
	ldr	w9, [x9]
	movk	w10, #21362, lsl #16
	cmp	w9, w10
	b.ne	.Lrekusoyen_kind_0_1_0.13
	mov	w0, #2
	ret
.Lrekusoyen_kind_0_1_0.12:
	cmp	x1, #59
	b.ls	.Lrekusoyen_kind_0_1_0.14
.Lrekusoyen_kind_0_1_0.13:
	ldr	w8, [x8, #56]
	mov	w9, #21057
	movk	w9, #25677, lsl #16
	cmp	w8, w9
	mov	w8, #3
	csel	w0, w8, wzr, eq
	ret
.Lrekusoyen_kind_0_1_0.14:
	mov	w0, wzr
	ret
.Lrekusoyen_kind_0_1_0.func_end:
	.size	rekusoyen_kind_0_1_0, .Lrekusoyen_kind_0_1_0.func_end-rekusoyen_kind_0_1_0
	.section	.rodata.cst16,"aM",@progbits,16
	.p2align	4, 0x0
.Lrekusoyen_line_add_virtio_mmio_device_0_1_0.CPI0:
	.byte	118
	.byte	105
	.byte	114
	.byte	116
	.byte	105
	.byte	111
	.byte	95
	.byte	109
	.byte	109
	.byte	105
	.byte	111
	.byte	46
	.byte	100
	.byte	101
	.byte	118
	.byte	105
	.section	.text.rekusoyen_line_add_virtio_mmio_device_0_1_0,"ax",@progbits
	.globl	rekusoyen_line_add_virtio_mmio_device_0_1_0
	.hidden	rekusoyen_line_add_virtio_mmio_device_0_1_0
	.p2align	2
	.type	rekusoyen_line_add_virtio_mmio_device_0_1_0,@function
rekusoyen_line_add_virtio_mmio_device_0_1_0:
	sub	sp, sp, #272
	cmp	x0, #0
	mov	w8, #4096
	mov	w9, #32792
	csel	x8, x8, xzr, eq
	cmp	x1, x9
	stp	x29, x30, [sp, #176]
	stp	x28, x27, [sp, #192]
	add	x29, sp, #176
	stp	x26, x25, [sp, #208]
	stp	x24, x23, [sp, #224]
	stp	x22, x21, [sp, #240]
	stp	x20, x19, [sp, #256]
	b.ne	.Lrekusoyen_line_add_virtio_mmio_device_0_1_0.9
	add	x20, x0, x8
	ldr	x21, [x20, #16]
	sub	x8, x21, #1
	lsr	x8, x8, #14
	cbnz	x8, .Lrekusoyen_line_add_virtio_mmio_device_0_1_0.10
	ldp	x22, x23, [x20]
	cbz	x23, .Lrekusoyen_line_add_virtio_mmio_device_0_1_0.12
	cmp	x21, x22
	b.ls	.Lrekusoyen_line_add_virtio_mmio_device_0_1_0.12
	mvn	x8, x22
	mov	w0, #20
	add	x8, x21, x8
	subs	x8, x8, #4
	b.lo	.Lrekusoyen_line_add_virtio_mmio_device_0_1_0.11
	cmp	x23, x8
	b.hi	.Lrekusoyen_line_add_virtio_mmio_device_0_1_0.11
	cbz	x2, .Lrekusoyen_line_add_virtio_mmio_device_0_1_0.15
.Lrekusoyen_line_add_virtio_mmio_device_0_1_0.7:
	movi	v0.2d, #0000000000000000
	adrp	x8, .Lrekusoyen_0_1_0.static.13
	add	x8, x8, :lo12:.Lrekusoyen_0_1_0.static.13
	add	x9, sp, #16
	sub	x9, x9, x8
	cmp	x9, #18
	stp	q0, q0, [sp, #32]
	stp	q0, q0, [sp, #64]
	str	q0, [sp, #16]
	b.hi	.Lrekusoyen_line_add_virtio_mmio_device_0_1_0.16
	adrp	x8, .Lrekusoyen_line_add_virtio_mmio_device_0_1_0.CPI0
	mov	w9, #25955
	ldr	q0, [x8, :lo12:.Lrekusoyen_line_add_virtio_mmio_device_0_1_0.CPI0]
	mov	w8, #61
	strh	w9, [sp, #32]
	strb	w8, [sp, #34]
	b	.Lrekusoyen_line_add_virtio_mmio_device_0_1_0.17
.Lrekusoyen_line_add_virtio_mmio_device_0_1_0.9:
	mov	w0, #33
	b	.Lrekusoyen_line_add_virtio_mmio_device_0_1_0.11
.Lrekusoyen_line_add_virtio_mmio_device_0_1_0.10:
	mov	w0, #20
.Lrekusoyen_line_add_virtio_mmio_device_0_1_0.11:
	ldp	x20, x19, [sp, #256]
	ldp	x22, x21, [sp, #240]
	ldp	x24, x23, [sp, #224]
	ldp	x26, x25, [sp, #208]
	ldp	x28, x27, [sp, #192]
	ldp	x29, x30, [sp, #176]
	add	sp, sp, #272
	b	rekusoyen_0_1_0.answers.U32FromRefusal.from
.Lrekusoyen_line_add_virtio_mmio_device_0_1_0.12:
	mov	w0, #20
	cbnz	x23, .Lrekusoyen_line_add_virtio_mmio_device_0_1_0.11
	cmp	x21, x22
	b.ls	.Lrekusoyen_line_add_virtio_mmio_device_0_1_0.11
	mov	x23, xzr
	cbnz	x2, .Lrekusoyen_line_add_virtio_mmio_device_0_1_0.7
.Lrekusoyen_line_add_virtio_mmio_device_0_1_0.15:
	mov	w0, #25
	b	.Lrekusoyen_line_add_virtio_mmio_device_0_1_0.61
.Lrekusoyen_line_add_virtio_mmio_device_0_1_0.16:
	mov	w9, #25449
	ldr	q0, [x8]
	movk	w9, #15717, lsl #16
	stur	w9, [sp, #31]
.Lrekusoyen_line_add_virtio_mmio_device_0_1_0.17:
	str	q0, [sp, #16]
	mov	w8, #1073741824
	mov	w9, #71
	tst	x2, #0x3fffffff
	stur	x8, [x29, #-80]
	mov	w8, #1048576
	mov	w26, w4
	stur	x8, [x29, #-64]
	mov	w8, #77
	sturb	w8, [x29, #-56]
	mov	w8, #1024
	stur	x8, [x29, #-48]
	mov	w8, #75
	sturb	w8, [x29, #-40]
	sub	x8, x29, #80
	sturb	w9, [x29, #-72]
	stur	wzr, [x29, #-71]
	stur	wzr, [x29, #-68]
	stur	wzr, [x29, #-55]
	stur	wzr, [x29, #-52]
	stur	wzr, [x29, #-39]
	stur	wzr, [x29, #-36]
	stp	w5, w6, [sp, #8]
	b.eq	.Lrekusoyen_line_add_virtio_mmio_device_0_1_0.24
	tst	x2, #0xfffff
	b.eq	.Lrekusoyen_line_add_virtio_mmio_device_0_1_0.25
	tst	x2, #0x3ff
	b.eq	.Lrekusoyen_line_add_virtio_mmio_device_0_1_0.26
	cmp	x2, #10
	mov	x27, x3
	mov	w8, #19
	stp	xzr, xzr, [x29, #-32]
	stur	wzr, [x29, #-16]
	b.lo	.Lrekusoyen_line_add_virtio_mmio_device_0_1_0.23
	mov	x9, x2
.Lrekusoyen_line_add_virtio_mmio_device_0_1_0.22:
	mov	x10, #-3689348814741910324
	sub	x11, x29, #32
	cmp	x9, #99
	movk	x10, #52429
	umulh	x10, x9, x10
	lsr	x2, x10, #3
	mov	w10, #10
	msub	w10, w2, w10, w9
	orr	w9, w10, #0x30
	strb	w9, [x11, x8]
	sub	x8, x8, #1
	mov	x9, x2
	b.hi	.Lrekusoyen_line_add_virtio_mmio_device_0_1_0.22
.Lrekusoyen_line_add_virtio_mmio_device_0_1_0.23:
	mov	w9, #20
	mov	w12, #61
	sub	x11, x29, #32
	sub	x9, x9, x8
	orr	w10, w2, #0x30
	add	x1, x11, x8
	cmp	x9, #61
	strb	w10, [x11, x8]
	csel	x19, x9, x12, lo
	add	x9, sp, #16
	add	x0, x9, #19
	mov	x2, x19
	bl	memcpy
	add	x8, x19, #19
	b	.Lrekusoyen_line_add_virtio_mmio_device_0_1_0.32
.Lrekusoyen_line_add_virtio_mmio_device_0_1_0.24:
	mov	w9, #30
	b	.Lrekusoyen_line_add_virtio_mmio_device_0_1_0.27
.Lrekusoyen_line_add_virtio_mmio_device_0_1_0.25:
	add	x8, x8, #16
	mov	w9, #20
	b	.Lrekusoyen_line_add_virtio_mmio_device_0_1_0.27
.Lrekusoyen_line_add_virtio_mmio_device_0_1_0.26:
	add	x8, x8, #32
	mov	w9, #10
.Lrekusoyen_line_add_virtio_mmio_device_0_1_0.27:
	lsr	x9, x2, x9
	ldrb	w28, [x8, #8]
	mov	x27, x3
	mov	w8, #19
	stp	xzr, xzr, [x29, #-32]
	cmp	x9, #10
	stur	wzr, [x29, #-16]
	b.lo	.Lrekusoyen_line_add_virtio_mmio_device_0_1_0.30
	mov	x10, x9
.Lrekusoyen_line_add_virtio_mmio_device_0_1_0.29:
	mov	x9, #-3689348814741910324
	mov	w11, #10
	sub	x12, x29, #32
	movk	x9, #52429
	cmp	x10, #99
	umulh	x9, x10, x9
	lsr	x9, x9, #3
	msub	w11, w9, w11, w10
	orr	w10, w11, #0x30
	strb	w10, [x12, x8]
	sub	x8, x8, #1
	mov	x10, x9
	b.hi	.Lrekusoyen_line_add_virtio_mmio_device_0_1_0.29
.Lrekusoyen_line_add_virtio_mmio_device_0_1_0.30:
	mov	w10, #20
	mov	w11, #61
	add	x24, sp, #16
	sub	x25, x10, x8
	sub	x10, x29, #32
	add	x0, x24, #19
	cmp	x25, #61
	add	x1, x10, x8
	orr	w9, w9, #0x30
	csel	x19, x25, x11, lo
	strb	w9, [x10, x8]
	mov	x2, x19
	bl	memcpy
	cmp	x25, #61
	b.hs	.Lrekusoyen_line_add_virtio_mmio_device_0_1_0.34
	add	x8, x24, x19
	strb	w28, [x8, #19]
	add	x8, x19, #20
.Lrekusoyen_line_add_virtio_mmio_device_0_1_0.32:
	cmp	x8, #80
	mov	w9, #80
	mov	w10, #3
	csel	x28, x8, x9, lo
	sub	x9, x9, x28
	cmp	x9, #3
	csel	x19, x9, x10, lo
	cmp	x8, #79
	b.hi	.Lrekusoyen_line_add_virtio_mmio_device_0_1_0.35
	add	x8, sp, #16
	adrp	x1, .Lrekusoyen_0_1_0.static.14
	add	x1, x1, :lo12:.Lrekusoyen_0_1_0.static.14
	add	x0, x8, x28
	mov	x2, x19
	bl	memcpy
	b	.Lrekusoyen_line_add_virtio_mmio_device_0_1_0.35
.Lrekusoyen_line_add_virtio_mmio_device_0_1_0.34:
	mov	x19, xzr
	mov	w28, #80
.Lrekusoyen_line_add_virtio_mmio_device_0_1_0.35:
	ldp	w9, w8, [sp, #8]
	mov	w10, w26
	mov	x12, x27
	cmp	x27, #16
	add	x27, x28, x19
	mov	w11, #19
	stp	xzr, xzr, [x29, #-80]
	stur	wzr, [x29, #-64]
	b.lo	.Lrekusoyen_line_add_virtio_mmio_device_0_1_0.37
.Lrekusoyen_line_add_virtio_mmio_device_0_1_0.36:
	and	x13, x12, #0xf
	orr	w14, w13, #0x30
	add	w15, w13, #87
	cmp	x13, #10
	csel	w13, w14, w15, lo
	sub	x14, x29, #80
	cmp	x12, #255
	lsr	x12, x12, #4
	strb	w13, [x14, x11]
	sub	x11, x11, #1
	b.hi	.Lrekusoyen_line_add_virtio_mmio_device_0_1_0.36
.Lrekusoyen_line_add_virtio_mmio_device_0_1_0.37:
	mov	w15, #20
	mov	w16, #80
	orr	w13, w12, #0x30
	add	w14, w12, #87
	cmp	x12, #10
	sub	x15, x15, x11
	sub	x16, x16, x27
	csel	w13, w13, w14, lo
	sub	x12, x29, #80
	cmp	x16, x15
	strb	w13, [x12, x11]
	csel	x19, x16, x15, lo
	cbz	x19, .Lrekusoyen_line_add_virtio_mmio_device_0_1_0.39
	add	x8, sp, #16
	add	x1, x12, x11
	mov	x2, x19
	add	x0, x8, x27
	bl	memcpy
	ldp	w9, w8, [sp, #8]
	mov	w10, w26
.Lrekusoyen_line_add_virtio_mmio_device_0_1_0.39:
	add	x27, x19, x27
	cmp	x27, #80
	cset	w19, lo
	cmp	x27, #79
	b.hi	.Lrekusoyen_line_add_virtio_mmio_device_0_1_0.43
	add	x11, sp, #16
	add	x0, x11, x27
	adrp	x11, .Lrekusoyen_0_1_0.static.15
	add	x11, x11, :lo12:.Lrekusoyen_0_1_0.static.15
	sub	x11, x0, x11
	cmp	x11, x19
	b.hs	.Lrekusoyen_line_add_virtio_mmio_device_0_1_0.42
	mov	w11, #58
	strb	w11, [x0]
	b	.Lrekusoyen_line_add_virtio_mmio_device_0_1_0.43
.Lrekusoyen_line_add_virtio_mmio_device_0_1_0.42:
	mov	w1, #58
	mov	x2, x19
	bl	memset
	ldp	w9, w8, [sp, #8]
	mov	w10, w26
.Lrekusoyen_line_add_virtio_mmio_device_0_1_0.43:
	cmp	w10, #10
	add	x11, x27, x19
	mov	w12, w10
	mov	w10, #19
	stp	xzr, xzr, [x29, #-80]
	stur	wzr, [x29, #-64]
	b.lo	.Lrekusoyen_line_add_virtio_mmio_device_0_1_0.46
	mov	x13, x12
.Lrekusoyen_line_add_virtio_mmio_device_0_1_0.45:
	mov	x12, #-3689348814741910324
	mov	w14, #10
	sub	x15, x29, #80
	movk	x12, #52429
	cmp	x13, #99
	umulh	x12, x13, x12
	lsr	x12, x12, #3
	msub	w14, w12, w14, w13
	orr	w13, w14, #0x30
	strb	w13, [x15, x10]
	sub	x10, x10, #1
	mov	x13, x12
	b.hi	.Lrekusoyen_line_add_virtio_mmio_device_0_1_0.45
.Lrekusoyen_line_add_virtio_mmio_device_0_1_0.46:
	cmp	x11, #80
	mov	w13, #80
	mov	w14, #20
	csel	x26, x11, x13, lo
	sub	x14, x14, x10
	sub	x11, x29, #80
	sub	x13, x13, x26
	orr	w12, w12, #0x30
	strb	w12, [x11, x10]
	cmp	x13, x14
	csel	x19, x13, x14, lo
	cbz	x19, .Lrekusoyen_line_add_virtio_mmio_device_0_1_0.48
	add	x8, sp, #16
	add	x1, x11, x10
	mov	x2, x19
	add	x0, x8, x26
	bl	memcpy
	ldp	w9, w8, [sp, #8]
.Lrekusoyen_line_add_virtio_mmio_device_0_1_0.48:
	add	x4, x19, x26
	cbz	w9, .Lrekusoyen_line_add_virtio_mmio_device_0_1_0.59
	cmp	x4, #80
	cset	w19, lo
	cmp	x4, #79
	b.hi	.Lrekusoyen_line_add_virtio_mmio_device_0_1_0.53
	add	x9, sp, #16
	add	x0, x9, x4
	adrp	x9, .Lrekusoyen_0_1_0.static.15
	add	x9, x9, :lo12:.Lrekusoyen_0_1_0.static.15
	sub	x9, x0, x9
	cmp	x9, x19
	b.hs	.Lrekusoyen_line_add_virtio_mmio_device_0_1_0.52
	mov	w9, #58
	strb	w9, [x0]
	b	.Lrekusoyen_line_add_virtio_mmio_device_0_1_0.53
.Lrekusoyen_line_add_virtio_mmio_device_0_1_0.52:
	mov	w1, #58
	mov	x2, x19
	mov	x24, x4
	bl	memset
	ldr	w8, [sp, #12]
	mov	x4, x24
.Lrekusoyen_line_add_virtio_mmio_device_0_1_0.53:
	cmp	w8, #10
	add	x9, x4, x19
	mov	w10, w8
	mov	w8, #19
	stp	xzr, xzr, [x29, #-80]
	stur	wzr, [x29, #-64]
	b.lo	.Lrekusoyen_line_add_virtio_mmio_device_0_1_0.56
	mov	x11, x10
.Lrekusoyen_line_add_virtio_mmio_device_0_1_0.55:
	mov	x10, #-3689348814741910324
	mov	w12, #10
	sub	x13, x29, #80
	movk	x10, #52429
	cmp	x11, #99
	umulh	x10, x11, x10
	lsr	x10, x10, #3
	msub	w12, w10, w12, w11
	orr	w11, w12, #0x30
	strb	w11, [x13, x8]
	sub	x8, x8, #1
	mov	x11, x10
	b.hi	.Lrekusoyen_line_add_virtio_mmio_device_0_1_0.55
.Lrekusoyen_line_add_virtio_mmio_device_0_1_0.56:
	cmp	x9, #80
	mov	w11, #80
	mov	w12, #20
	csel	x24, x9, x11, lo
	sub	x12, x12, x8
	sub	x9, x29, #80
	sub	x11, x11, x24
	orr	w10, w10, #0x30
	strb	w10, [x9, x8]
	cmp	x11, x12
	csel	x19, x11, x12, lo
	cbz	x19, .Lrekusoyen_line_add_virtio_mmio_device_0_1_0.58
	add	x10, sp, #16
	add	x1, x9, x8
	mov	x2, x19
	add	x0, x10, x24
	bl	memcpy
.Lrekusoyen_line_add_virtio_mmio_device_0_1_0.58:
	add	x4, x19, x24
.Lrekusoyen_line_add_virtio_mmio_device_0_1_0.59:
	cmp	x23, #4, lsl #12
	mov	w8, #16384
	sub	x0, x29, #32
	csel	x8, x23, x8, lo
	cmp	x23, #0
	add	x1, x20, #24
	add	x8, x22, x8
	sub	x2, x29, #80
	add	x3, sp, #16
	add	x8, x8, #5
	stp	xzr, xzr, [x29, #-32]
	csinc	x8, x8, x22, ne
	cmp	x22, #0
	stur	x21, [x29, #-64]
	cinc	x8, x8, ne
	stp	x22, x8, [x29, #-80]
	bl	rekusoyen_0_1_0.cmdline.in_place.append_slug
	ldurb	w8, [x29, #-32]
	cmp	w8, #1
	b.ne	.Lrekusoyen_line_add_virtio_mmio_device_0_1_0.62
	ldurb	w0, [x29, #-31]
.Lrekusoyen_line_add_virtio_mmio_device_0_1_0.61:
	bl	rekusoyen_0_1_0.answers.U32FromRefusal.from
	b	.Lrekusoyen_line_add_virtio_mmio_device_0_1_0.63
.Lrekusoyen_line_add_virtio_mmio_device_0_1_0.62:
	ldur	x8, [x29, #-24]
	mov	w0, wzr
	str	x8, [x20]
.Lrekusoyen_line_add_virtio_mmio_device_0_1_0.63:
	ldp	x20, x19, [sp, #256]
	ldp	x22, x21, [sp, #240]
	ldp	x24, x23, [sp, #224]
	ldp	x26, x25, [sp, #208]
	ldp	x28, x27, [sp, #192]
	ldp	x29, x30, [sp, #176]
	add	sp, sp, #272
	ret
.Lrekusoyen_line_add_virtio_mmio_device_0_1_0.func_end:
	.size	rekusoyen_line_add_virtio_mmio_device_0_1_0, .Lrekusoyen_line_add_virtio_mmio_device_0_1_0.func_end-rekusoyen_line_add_virtio_mmio_device_0_1_0
	.section	.text.rekusoyen_line_check_0_1_0,"ax",@progbits
	.globl	rekusoyen_line_check_0_1_0
	.hidden	rekusoyen_line_check_0_1_0
	.p2align	2
	.type	rekusoyen_line_check_0_1_0,@function
rekusoyen_line_check_0_1_0:
	mov	w8, #4096
	cmp	x0, #0
	sub	w10, w2, #1
	csel	x9, x8, xzr, eq
	cmp	w10, #2
	b.hi	.Lrekusoyen_line_check_0_1_0.5
	ldr	x8, [sp]
	cmp	w2, #2
	b.ne	.Lrekusoyen_line_check_0_1_0.6
	cmp	x1, #520
	b.lo	.Lrekusoyen_line_check_0_1_0.4
	add	x10, x0, x9
	ldrh	w9, [x10, #518]
	cmp	w9, #518
	b.hs	.Lrekusoyen_line_check_0_1_0.15
.Lrekusoyen_line_check_0_1_0.4:
	mov	w9, #255
	b	.Lrekusoyen_line_check_0_1_0.7
.Lrekusoyen_line_check_0_1_0.5:
	mov	w0, #32
	b	rekusoyen_0_1_0.answers.U32FromRefusal.from
.Lrekusoyen_line_check_0_1_0.6:
	tst	w3, #0x4
	mov	w9, #2047
	csel	w9, w9, w4, eq
.Lrekusoyen_line_check_0_1_0.7:
	cbz	x8, .Lrekusoyen_line_check_0_1_0.11
	subs	x10, x9, x6
	b.lo	.Lrekusoyen_line_check_0_1_0.11
	subs	x9, x10, #4
	mov	w0, #55
	b.lo	.Lrekusoyen_line_check_0_1_0.14
	cmp	x8, x9
	b.ls	.Lrekusoyen_line_check_0_1_0.13
	b	.Lrekusoyen_line_check_0_1_0.14
.Lrekusoyen_line_check_0_1_0.11:
	mov	w0, #55
	cbnz	x8, .Lrekusoyen_line_check_0_1_0.14
	cmp	x9, x6
	b.lo	.Lrekusoyen_line_check_0_1_0.14
.Lrekusoyen_line_check_0_1_0.13:
	mov	w0, wzr
	ret
.Lrekusoyen_line_check_0_1_0.14:
	b	rekusoyen_0_1_0.answers.U32FromRefusal.from
.Lrekusoyen_line_check_0_1_0.15:
	cmp	x1, #571
	b.ls	.Lrekusoyen_line_check_0_1_0.17
	ldr	w9, [x10, #568]
	b	.Lrekusoyen_line_check_0_1_0.7
.Lrekusoyen_line_check_0_1_0.17:
	subs	x9, x1, #568
	csel	x9, xzr, x9, lo
	cmp	x9, #3
	b.ne	.Lrekusoyen_line_check_0_1_0.19
	ldrb	w9, [x10, #570]
	lsl	x11, x9, #8
	b	.Lrekusoyen_line_check_0_1_0.20
.Lrekusoyen_line_check_0_1_0.19:
	mov	x11, xzr
	cmp	x9, #2
	mov	x9, xzr
	b.lo	.Lrekusoyen_line_check_0_1_0.21
.Lrekusoyen_line_check_0_1_0.20:
	ldrb	w9, [x10, #569]
	orr	x9, x11, x9
	lsl	x9, x9, #8
	cmp	x1, #569
	b.lo	.Lrekusoyen_line_check_0_1_0.7
	b	.Lrekusoyen_line_check_0_1_0.22
.Lrekusoyen_line_check_0_1_0.21:
	cmp	x1, #569
	b.lo	.Lrekusoyen_line_check_0_1_0.7
.Lrekusoyen_line_check_0_1_0.22:
	ldrb	w10, [x10, #568]
	orr	x9, x9, x10
	b	.Lrekusoyen_line_check_0_1_0.7
.Lrekusoyen_line_check_0_1_0.func_end:
	.size	rekusoyen_line_check_0_1_0, .Lrekusoyen_line_check_0_1_0.func_end-rekusoyen_line_check_0_1_0
	.section	.text.rekusoyen_line_insert_0_1_0,"ax",@progbits
	.globl	rekusoyen_line_insert_0_1_0
	.hidden	rekusoyen_line_insert_0_1_0
	.p2align	2
	.type	rekusoyen_line_insert_0_1_0,@function
rekusoyen_line_insert_0_1_0:
	sub	sp, sp, #160
	mov	w8, #4096
	cmp	x0, #0
	stp	x24, x23, [sp, #112]
	csel	x23, x8, xzr, eq
	cmp	x2, #0
	stp	x26, x25, [sp, #96]
	csel	x25, x8, xzr, eq
	cmp	x4, #0
	mov	w9, #32792
	csel	x24, x8, xzr, eq
	cmp	x1, x9
	stp	x29, x30, [sp, #64]
	stp	x28, x27, [sp, #80]
	add	x29, sp, #64
	stp	x22, x21, [sp, #128]
	stp	x20, x19, [sp, #144]
	b.ne	.Lrekusoyen_line_insert_0_1_0.6
	add	x21, x0, x23
	ldr	x28, [x21, #16]
	sub	x8, x28, #1
	lsr	x8, x8, #14
	cbnz	x8, .Lrekusoyen_line_insert_0_1_0.7
	ldp	x27, x19, [x21]
	cbz	x19, .Lrekusoyen_line_insert_0_1_0.8
	cmp	x28, x27
	b.ls	.Lrekusoyen_line_insert_0_1_0.8
	mvn	x8, x27
	add	x8, x28, x8
	subs	x9, x8, #4
	mov	w8, #20
	b.lo	.Lrekusoyen_line_insert_0_1_0.27
	cmp	x19, x9
	b.ls	.Lrekusoyen_line_insert_0_1_0.11
	b	.Lrekusoyen_line_insert_0_1_0.27
.Lrekusoyen_line_insert_0_1_0.6:
	mov	w0, #33
	b	.Lrekusoyen_line_insert_0_1_0.49
.Lrekusoyen_line_insert_0_1_0.7:
	mov	w0, #20
	b	.Lrekusoyen_line_insert_0_1_0.49
.Lrekusoyen_line_insert_0_1_0.8:
	mov	w8, #20
	cbnz	x19, .Lrekusoyen_line_insert_0_1_0.27
	cmp	x28, x27
	b.ls	.Lrekusoyen_line_insert_0_1_0.27
	mov	x19, xzr
.Lrekusoyen_line_insert_0_1_0.11:
	add	x8, x2, x25
	mov	x9, x3
	b	.Lrekusoyen_line_insert_0_1_0.13
.Lrekusoyen_line_insert_0_1_0.12:
	add	x8, x8, x10
	sub	x9, x9, x10
	tbz	w11, #0, .Lrekusoyen_line_insert_0_1_0.48
.Lrekusoyen_line_insert_0_1_0.13:
	cbz	x9, .Lrekusoyen_line_insert_0_1_0.28
	cmp	x9, #64
	mov	w10, #64
	csel	x10, x9, x10, lo
	cmp	x9, #8
	b.hs	.Lrekusoyen_line_insert_0_1_0.16
	mov	w11, #1
	mov	x12, x10
	mov	x13, x8
	b	.Lrekusoyen_line_insert_0_1_0.25
.Lrekusoyen_line_insert_0_1_0.16:
	cmp	x9, #32
	b.hs	.Lrekusoyen_line_insert_0_1_0.18
	mov	x14, xzr
	mov	w11, #1
	b	.Lrekusoyen_line_insert_0_1_0.22
.Lrekusoyen_line_insert_0_1_0.18:
	movi	v1.16b, #224
	ldp	q2, q4, [x8]
	movi	v0.16b, #95
	and	x14, x10, #0x60
	cmp	x14, #32
	add	v3.16b, v2.16b, v1.16b
	add	v2.16b, v4.16b, v1.16b
	b.eq	.Lrekusoyen_line_insert_0_1_0.20
	ldp	q4, q5, [x8, #32]
	add	v4.16b, v4.16b, v1.16b
	add	v1.16b, v5.16b, v1.16b
	umax	v3.16b, v3.16b, v4.16b
	umax	v2.16b, v2.16b, v1.16b
.Lrekusoyen_line_insert_0_1_0.20:
	cmhi	v1.16b, v0.16b, v3.16b
	cmhi	v0.16b, v0.16b, v2.16b
	cmp	x10, x14
	and	v0.16b, v0.16b, v1.16b
	shl	v0.16b, v0.16b, #7
	cmlt	v0.16b, v0.16b, #0
	uminv	b0, v0.16b
	fmov	w11, s0
	b.eq	.Lrekusoyen_line_insert_0_1_0.12
	and	x12, x10, #0x18
	cbz	x12, .Lrekusoyen_line_insert_0_1_0.26
.Lrekusoyen_line_insert_0_1_0.22:
	movi	v0.2d, #0xffffffffffffffff
	and	x12, x10, #0x7
	mov	v0.b[0], w11
	and	x11, x10, #0x78
	add	x13, x8, x11
	sub	x15, x14, x11
	add	x14, x8, x14
.Lrekusoyen_line_insert_0_1_0.23:
	movi	v1.8b, #224
	ldr	d2, [x14], #8
	movi	v3.8b, #95
	adds	x15, x15, #8
	add	v1.8b, v2.8b, v1.8b
	cmhi	v1.8b, v3.8b, v1.8b
	and	v0.8b, v0.8b, v1.8b
	b.ne	.Lrekusoyen_line_insert_0_1_0.23
	shl	v0.8b, v0.8b, #7
	cmp	x10, x11
	cmlt	v0.8b, v0.8b, #0
	uminv	b0, v0.8b
	fmov	w11, s0
	b.eq	.Lrekusoyen_line_insert_0_1_0.12
.Lrekusoyen_line_insert_0_1_0.25:
	ldrb	w14, [x13], #1
	sub	x12, x12, #1
	sub	w14, w14, #32
	cmp	w14, #95
	cset	w14, lo
	and	w11, w11, w14
	cbnz	x12, .Lrekusoyen_line_insert_0_1_0.25
	b	.Lrekusoyen_line_insert_0_1_0.12
.Lrekusoyen_line_insert_0_1_0.26:
	and	x12, x10, #0x1f
	add	x13, x8, x14
	b	.Lrekusoyen_line_insert_0_1_0.25
.Lrekusoyen_line_insert_0_1_0.27:
	mov	w0, w8
	b	.Lrekusoyen_line_insert_0_1_0.49
.Lrekusoyen_line_insert_0_1_0.28:
	add	x8, x4, x24
	add	x26, x2, x25
	mov	x22, x2
	str	x8, [sp, #32]
	mov	x1, x3
	mov	x20, x3
	stur	x0, [x29, #-24]
	add	x0, x2, x25
	mov	w2, #32
	stp	x4, x5, [x29, #-16]
	bl	rekusoyen_0_1_0.slugs.bytes.has
	tbz	w0, #0, .Lrekusoyen_line_insert_0_1_0.30
	mov	w0, #22
	b	.Lrekusoyen_line_insert_0_1_0.49
.Lrekusoyen_line_insert_0_1_0.30:
	add	x0, x22, x25
	mov	x1, x20
	mov	w2, #61
	bl	rekusoyen_0_1_0.slugs.bytes.has
	tbz	w0, #0, .Lrekusoyen_line_insert_0_1_0.32
	mov	w0, #23
	b	.Lrekusoyen_line_insert_0_1_0.49
.Lrekusoyen_line_insert_0_1_0.32:
	ldp	x9, x1, [x29, #-16]
	add	x8, x9, x24
	mov	x10, x1
	b	.Lrekusoyen_line_insert_0_1_0.34
.Lrekusoyen_line_insert_0_1_0.33:
	add	x8, x8, x11
	sub	x10, x10, x11
	tbz	w12, #0, .Lrekusoyen_line_insert_0_1_0.48
.Lrekusoyen_line_insert_0_1_0.34:
	cbz	x10, .Lrekusoyen_line_insert_0_1_0.50
	cmp	x10, #64
	mov	w11, #64
	csel	x11, x10, x11, lo
	cmp	x10, #8
	b.hs	.Lrekusoyen_line_insert_0_1_0.37
	mov	w12, #1
	mov	x13, x11
	mov	x14, x8
	b	.Lrekusoyen_line_insert_0_1_0.46
.Lrekusoyen_line_insert_0_1_0.37:
	cmp	x10, #32
	b.hs	.Lrekusoyen_line_insert_0_1_0.39
	mov	x15, xzr
	mov	w12, #1
	b	.Lrekusoyen_line_insert_0_1_0.43
.Lrekusoyen_line_insert_0_1_0.39:
	movi	v1.16b, #224
	ldp	q2, q4, [x8]
	movi	v0.16b, #95
	and	x15, x11, #0x60
	cmp	x15, #32
	add	v3.16b, v2.16b, v1.16b
	add	v2.16b, v4.16b, v1.16b
	b.eq	.Lrekusoyen_line_insert_0_1_0.41
	ldp	q4, q5, [x8, #32]
	add	v4.16b, v4.16b, v1.16b
	add	v1.16b, v5.16b, v1.16b
	umax	v3.16b, v3.16b, v4.16b
	umax	v2.16b, v2.16b, v1.16b
.Lrekusoyen_line_insert_0_1_0.41:
	cmhi	v1.16b, v0.16b, v3.16b
	cmhi	v0.16b, v0.16b, v2.16b
	cmp	x11, x15
	and	v0.16b, v0.16b, v1.16b
	shl	v0.16b, v0.16b, #7
	cmlt	v0.16b, v0.16b, #0
	uminv	b0, v0.16b
	fmov	w12, s0
	b.eq	.Lrekusoyen_line_insert_0_1_0.33
	and	x13, x11, #0x18
	cbz	x13, .Lrekusoyen_line_insert_0_1_0.47
.Lrekusoyen_line_insert_0_1_0.43:
	movi	v0.2d, #0xffffffffffffffff
	and	x13, x11, #0x7
	mov	v0.b[0], w12
	and	x12, x11, #0x78
	add	x14, x8, x12
	sub	x16, x15, x12
	add	x15, x8, x15
.Lrekusoyen_line_insert_0_1_0.44:
	movi	v1.8b, #224
	ldr	d2, [x15], #8
	movi	v3.8b, #95
	adds	x16, x16, #8
	add	v1.8b, v2.8b, v1.8b
	cmhi	v1.8b, v3.8b, v1.8b
	and	v0.8b, v0.8b, v1.8b
	b.ne	.Lrekusoyen_line_insert_0_1_0.44
	shl	v0.8b, v0.8b, #7
	cmp	x11, x12
	cmlt	v0.8b, v0.8b, #0
	uminv	b0, v0.8b
	fmov	w12, s0
	b.eq	.Lrekusoyen_line_insert_0_1_0.33
.Lrekusoyen_line_insert_0_1_0.46:
	ldrb	w15, [x14], #1
	sub	x13, x13, #1
	sub	w15, w15, #32
	cmp	w15, #95
	cset	w15, lo
	and	w12, w12, w15
	cbnz	x13, .Lrekusoyen_line_insert_0_1_0.46
	b	.Lrekusoyen_line_insert_0_1_0.33
.Lrekusoyen_line_insert_0_1_0.47:
	and	x13, x11, #0x1f
	add	x14, x8, x15
	b	.Lrekusoyen_line_insert_0_1_0.46
.Lrekusoyen_line_insert_0_1_0.48:
	mov	w0, #21
.Lrekusoyen_line_insert_0_1_0.49:
	ldp	x20, x19, [sp, #144]
	ldp	x22, x21, [sp, #128]
	ldp	x24, x23, [sp, #112]
	ldp	x26, x25, [sp, #96]
	ldp	x28, x27, [sp, #80]
	ldp	x29, x30, [sp, #64]
	add	sp, sp, #160
	b	rekusoyen_0_1_0.answers.U32FromRefusal.from
.Lrekusoyen_line_insert_0_1_0.50:
	subs	x8, x1, #2
	b.hs	.Lrekusoyen_line_insert_0_1_0.53
	add	x0, x9, x24
	mov	w2, #32
	bl	rekusoyen_0_1_0.slugs.bytes.has
	tbz	w0, #0, .Lrekusoyen_line_insert_0_1_0.58
.Lrekusoyen_line_insert_0_1_0.52:
	mov	w0, #27
	b	.Lrekusoyen_line_insert_0_1_0.49
.Lrekusoyen_line_insert_0_1_0.53:
	ldr	x9, [sp, #32]
	mov	x1, x8
	mov	w2, #34
	add	x0, x9, #1
	bl	rekusoyen_0_1_0.slugs.bytes.has
	tbz	w0, #0, .Lrekusoyen_line_insert_0_1_0.55
	mov	w0, #28
	b	.Lrekusoyen_line_insert_0_1_0.49
.Lrekusoyen_line_insert_0_1_0.55:
	ldp	x8, x1, [x29, #-16]
	mov	w2, #32
	add	x0, x8, x24
	bl	rekusoyen_0_1_0.slugs.bytes.has
	cbz	w0, .Lrekusoyen_line_insert_0_1_0.58
	ldr	x9, [sp, #32]
	ldrb	w8, [x9]
	cmp	w8, #34
	b.ne	.Lrekusoyen_line_insert_0_1_0.52
	ldur	x8, [x29, #-8]
	add	x8, x9, x8
	ldurb	w8, [x8, #-1]
	cmp	w8, #34
	b.ne	.Lrekusoyen_line_insert_0_1_0.52
.Lrekusoyen_line_insert_0_1_0.58:
	cmp	x27, #4, lsl #12
	mov	w9, #16384
	mov	w0, #26
	csel	x1, x27, x9, lo
	cmp	x19, #4, lsl #12
	csel	x8, x19, x9, lo
	cmp	x19, #0
	add	x8, x1, x8
	add	x8, x8, #5
	csinc	x8, x8, x1, ne
	cmp	x27, #0
	cset	w13, ne
	cinc	x10, x8, ne
	cmp	x28, #4, lsl #12
	csel	x12, x28, x9, lo
	adds	x8, x20, #1
	csinv	x8, x8, xzr, lo
	cmp	x8, #4, lsl #12
	csel	x14, x8, x9, lo
	ldur	x8, [x29, #-8]
	adds	x14, x8, x14
	csinv	x14, x14, xzr, lo
	cmp	x14, #4, lsl #12
	csel	x14, x14, x9, lo
	subs	x9, x12, x10
	b.lo	.Lrekusoyen_line_insert_0_1_0.49
	cmp	x14, x9
	ldp	x10, x9, [x29, #-24]
	b.hi	.Lrekusoyen_line_insert_0_1_0.49
	add	x13, x1, x13
	cmp	x13, #4, lsl #12
	b.hi	.Lrekusoyen_line_insert_0_1_0.49
	mov	w15, #16384
	sub	x13, x15, x13
	cmp	x14, x13
	b.hi	.Lrekusoyen_line_insert_0_1_0.49
	mov	x11, x20
	mov	x12, x22
	mov	x17, x26
	cbz	x27, .Lrekusoyen_line_insert_0_1_0.66
	lsr	x14, x27, #14
	cmp	x27, #4, lsl #12
	ldr	x16, [sp, #32]
	cset	w13, lo
	add	x26, x21, #24
	cbnz	x14, .Lrekusoyen_line_insert_0_1_0.85
	add	x14, x26, x1
	adrp	x15, .Lrekusoyen_0_1_0.static.16
	add	x15, x15, :lo12:.Lrekusoyen_0_1_0.static.16
	sub	x15, x14, x15
	cmp	x15, x13
	b.hs	.Lrekusoyen_line_insert_0_1_0.84
	mov	w15, #32
	strb	w15, [x14]
	b	.Lrekusoyen_line_insert_0_1_0.85
.Lrekusoyen_line_insert_0_1_0.66:
	cmp	x11, #4, lsl #12
	mov	w13, #16384
	ldr	x16, [sp, #32]
	csel	x19, x11, x13, lo
	cbz	x11, .Lrekusoyen_line_insert_0_1_0.107
	add	x11, x23, x10
	mov	x22, xzr
	add	x25, x25, x12
	add	x27, x11, #24
	add	x11, x11, #40
	add	x26, x21, #24
	str	x11, [sp, #24]
	b	.Lrekusoyen_line_insert_0_1_0.70
.Lrekusoyen_line_insert_0_1_0.68:
	add	x0, x26, x22
	add	x1, x17, x22
	mov	x2, x20
	mov	x26, x16
	mov	x28, x17
	bl	memmove
	ldp	x9, x8, [x29, #-16]
	mov	x17, x28
	ldur	x10, [x29, #-24]
	mov	x16, x26
	add	x26, x21, #24
.Lrekusoyen_line_insert_0_1_0.69:
	add	x22, x20, x22
	cmp	x22, x19
	b.hs	.Lrekusoyen_line_insert_0_1_0.104
.Lrekusoyen_line_insert_0_1_0.70:
	sub	x12, x19, x22
	mov	w11, #2048
	add	x13, x26, x22
	cmp	x12, #2048
	add	x14, x17, x22
	csel	x20, x12, x11, lo
	sub	x11, x13, x14
	cmp	x11, x20
	b.hs	.Lrekusoyen_line_insert_0_1_0.68
	cmp	x12, #8
	mov	x11, xzr
	b.lo	.Lrekusoyen_line_insert_0_1_0.82
	sub	x13, x27, x25
	cmp	x13, #32
	b.lo	.Lrekusoyen_line_insert_0_1_0.82
	cmp	x12, #32
	b.hs	.Lrekusoyen_line_insert_0_1_0.75
	mov	x11, xzr
	b	.Lrekusoyen_line_insert_0_1_0.79
.Lrekusoyen_line_insert_0_1_0.75:
	ldr	x13, [sp, #24]
	add	x14, x25, #16
	and	x12, x20, #0x18
	and	x11, x20, #0xfe0
	add	x14, x14, x22
	and	x15, x20, #0xfe0
	add	x13, x13, x22
.Lrekusoyen_line_insert_0_1_0.76:
	ldp	q0, q1, [x14, #-16]
	subs	x15, x15, #32
	add	x14, x14, #32
	stp	q0, q1, [x13, #-16]
	add	x13, x13, #32
	b.ne	.Lrekusoyen_line_insert_0_1_0.76
	cmp	x20, x11
	b.eq	.Lrekusoyen_line_insert_0_1_0.69
	cbz	x12, .Lrekusoyen_line_insert_0_1_0.82
.Lrekusoyen_line_insert_0_1_0.79:
	mov	x12, x11
	and	x11, x20, #0xff8
	add	x14, x12, x22
	sub	x12, x12, x11
	add	x13, x25, x14
	add	x14, x27, x14
.Lrekusoyen_line_insert_0_1_0.80:
	ldr	d0, [x13], #8
	adds	x12, x12, #8
	str	d0, [x14], #8
	b.ne	.Lrekusoyen_line_insert_0_1_0.80
	cmp	x20, x11
	b.eq	.Lrekusoyen_line_insert_0_1_0.69
.Lrekusoyen_line_insert_0_1_0.82:
	add	x13, x11, x22
	sub	x11, x20, x11
	add	x12, x25, x13
	add	x13, x27, x13
.Lrekusoyen_line_insert_0_1_0.83:
	ldrb	w14, [x12], #1
	subs	x11, x11, #1
	strb	w14, [x13], #1
	b.ne	.Lrekusoyen_line_insert_0_1_0.83
	b	.Lrekusoyen_line_insert_0_1_0.69
.Lrekusoyen_line_insert_0_1_0.84:
	add	x0, x26, x1
	mov	x28, x1
	mov	w1, #32
	mov	x2, x13
	mov	x19, x16
	str	x13, [sp, #24]
	mov	x27, x17
	bl	memset
	ldp	x9, x8, [x29, #-16]
	mov	x1, x28
	ldr	x13, [sp, #24]
	ldur	x10, [x29, #-24]
	mov	x17, x27
	mov	x16, x19
	mov	x11, x20
	mov	x12, x22
.Lrekusoyen_line_insert_0_1_0.85:
	add	x13, x1, x13
	mov	w14, #16384
	cmp	x13, #4, lsl #12
	csel	x13, x13, x14, lo
	str	x13, [sp, #8]
	sub	x13, x14, x13
	cmp	x13, x11
	csel	x22, x13, x11, lo
	cbz	x22, .Lrekusoyen_line_insert_0_1_0.103
	ldr	x13, [sp, #8]
	add	x11, x23, x10
	add	x25, x25, x12
	mov	x27, xzr
	add	x11, x11, x13
	add	x12, x23, x13
	add	x28, x26, x13
	sub	x11, x11, x25
	add	x12, x12, x10
	add	x11, x11, #24
	str	x11, [sp, #24]
	add	x11, x12, #40
	str	x11, [sp, #16]
	add	x11, x12, #24
	str	x11, [sp, #32]
	b	.Lrekusoyen_line_insert_0_1_0.89
.Lrekusoyen_line_insert_0_1_0.87:
	add	x0, x28, x27
	add	x1, x17, x27
	mov	x2, x20
	mov	x26, x16
	mov	x19, x17
	bl	memmove
	ldp	x9, x8, [x29, #-16]
	mov	x17, x19
	ldur	x10, [x29, #-24]
	mov	x16, x26
	add	x26, x21, #24
.Lrekusoyen_line_insert_0_1_0.88:
	add	x27, x20, x27
	cmp	x27, x22
	b.hs	.Lrekusoyen_line_insert_0_1_0.103
.Lrekusoyen_line_insert_0_1_0.89:
	sub	x12, x22, x27
	mov	w11, #2048
	add	x13, x28, x27
	cmp	x12, #2048
	add	x14, x17, x27
	csel	x20, x12, x11, lo
	sub	x11, x13, x14
	cmp	x11, x20
	b.hs	.Lrekusoyen_line_insert_0_1_0.87
	cmp	x12, #8
	mov	x11, xzr
	b.lo	.Lrekusoyen_line_insert_0_1_0.101
	ldr	x13, [sp, #24]
	cmp	x13, #32
	b.lo	.Lrekusoyen_line_insert_0_1_0.101
	cmp	x12, #32
	b.hs	.Lrekusoyen_line_insert_0_1_0.94
	mov	x11, xzr
	b	.Lrekusoyen_line_insert_0_1_0.98
.Lrekusoyen_line_insert_0_1_0.94:
	ldr	x13, [sp, #16]
	add	x14, x25, #16
	and	x12, x20, #0x18
	and	x11, x20, #0xfe0
	add	x14, x14, x27
	and	x15, x20, #0xfe0
	add	x13, x13, x27
.Lrekusoyen_line_insert_0_1_0.95:
	ldp	q0, q1, [x14, #-16]
	subs	x15, x15, #32
	add	x14, x14, #32
	stp	q0, q1, [x13, #-16]
	add	x13, x13, #32
	b.ne	.Lrekusoyen_line_insert_0_1_0.95
	cmp	x20, x11
	b.eq	.Lrekusoyen_line_insert_0_1_0.88
	cbz	x12, .Lrekusoyen_line_insert_0_1_0.101
.Lrekusoyen_line_insert_0_1_0.98:
	mov	x12, x11
	ldr	x15, [sp, #32]
	and	x11, x20, #0xff8
	add	x14, x12, x27
	sub	x12, x12, x11
	add	x13, x25, x14
	add	x14, x15, x14
.Lrekusoyen_line_insert_0_1_0.99:
	ldr	d0, [x13], #8
	adds	x12, x12, #8
	str	d0, [x14], #8
	b.ne	.Lrekusoyen_line_insert_0_1_0.99
	cmp	x20, x11
	b.eq	.Lrekusoyen_line_insert_0_1_0.88
.Lrekusoyen_line_insert_0_1_0.101:
	ldr	x14, [sp, #32]
	add	x13, x11, x27
	sub	x11, x11, x20
	add	x12, x25, x13
	add	x13, x14, x13
.Lrekusoyen_line_insert_0_1_0.102:
	ldrb	w14, [x12], #1
	adds	x11, x11, #1
	strb	w14, [x13], #1
	b.lo	.Lrekusoyen_line_insert_0_1_0.102
	b	.Lrekusoyen_line_insert_0_1_0.88
.Lrekusoyen_line_insert_0_1_0.103:
	ldr	x11, [sp, #8]
	add	x19, x22, x11
.Lrekusoyen_line_insert_0_1_0.104:
	cmp	x19, #4, lsl #12
	b.ne	.Lrekusoyen_line_insert_0_1_0.106
	mov	w20, #16384
	b	.Lrekusoyen_line_insert_0_1_0.109
.Lrekusoyen_line_insert_0_1_0.106:
	add	x11, x26, x19
	b	.Lrekusoyen_line_insert_0_1_0.108
.Lrekusoyen_line_insert_0_1_0.107:
	mov	x19, xzr
	add	x11, x21, #24
	add	x26, x21, #24
.Lrekusoyen_line_insert_0_1_0.108:
	mov	w12, #16383
	mov	w13, #61
	cmp	x19, x12
	strb	w13, [x11]
	csel	x12, x19, x12, lo
	add	x20, x12, #1
.Lrekusoyen_line_insert_0_1_0.109:
	mov	w11, #16384
	sub	x11, x11, x20
	cmp	x11, x8
	csel	x22, x11, x8, lo
	cbz	x22, .Lrekusoyen_line_insert_0_1_0.127
	add	x8, x23, x20
	add	x23, x26, x20
	add	x24, x24, x9
	add	x8, x8, x10
	mov	x25, xzr
	add	x26, x8, #24
	add	x8, x8, #40
	sub	x27, x26, x24
	stur	x8, [x29, #-8]
	b	.Lrekusoyen_line_insert_0_1_0.113
.Lrekusoyen_line_insert_0_1_0.111:
	add	x0, x23, x25
	add	x1, x16, x25
	mov	x2, x19
	mov	x28, x16
	bl	memmove
	mov	x16, x28
.Lrekusoyen_line_insert_0_1_0.112:
	add	x25, x19, x25
	cmp	x25, x22
	b.hs	.Lrekusoyen_line_insert_0_1_0.127
.Lrekusoyen_line_insert_0_1_0.113:
	sub	x9, x22, x25
	mov	w8, #2048
	add	x10, x23, x25
	cmp	x9, #2048
	add	x11, x16, x25
	csel	x19, x9, x8, lo
	sub	x8, x10, x11
	cmp	x8, x19
	b.hs	.Lrekusoyen_line_insert_0_1_0.111
	cmp	x9, #8
	mov	x8, xzr
	b.lo	.Lrekusoyen_line_insert_0_1_0.125
	cmp	x27, #32
	b.lo	.Lrekusoyen_line_insert_0_1_0.125
	cmp	x9, #32
	b.hs	.Lrekusoyen_line_insert_0_1_0.118
	mov	x8, xzr
	b	.Lrekusoyen_line_insert_0_1_0.122
.Lrekusoyen_line_insert_0_1_0.118:
	ldur	x10, [x29, #-8]
	add	x11, x24, #16
	and	x9, x19, #0x18
	and	x8, x19, #0xfe0
	add	x11, x11, x25
	and	x12, x19, #0xfe0
	add	x10, x10, x25
.Lrekusoyen_line_insert_0_1_0.119:
	ldp	q0, q1, [x11, #-16]
	subs	x12, x12, #32
	add	x11, x11, #32
	stp	q0, q1, [x10, #-16]
	add	x10, x10, #32
	b.ne	.Lrekusoyen_line_insert_0_1_0.119
	cmp	x19, x8
	b.eq	.Lrekusoyen_line_insert_0_1_0.112
	cbz	x9, .Lrekusoyen_line_insert_0_1_0.125
.Lrekusoyen_line_insert_0_1_0.122:
	mov	x9, x8
	and	x8, x19, #0xff8
	add	x11, x9, x25
	sub	x9, x9, x8
	add	x10, x24, x11
	add	x11, x26, x11
.Lrekusoyen_line_insert_0_1_0.123:
	ldr	d0, [x10], #8
	adds	x9, x9, #8
	str	d0, [x11], #8
	b.ne	.Lrekusoyen_line_insert_0_1_0.123
	cmp	x19, x8
	b.eq	.Lrekusoyen_line_insert_0_1_0.112
.Lrekusoyen_line_insert_0_1_0.125:
	add	x10, x8, x25
	sub	x8, x8, x19
	add	x9, x24, x10
	add	x10, x26, x10
.Lrekusoyen_line_insert_0_1_0.126:
	ldrb	w11, [x9], #1
	adds	x8, x8, #1
	strb	w11, [x10], #1
	b.lo	.Lrekusoyen_line_insert_0_1_0.126
	b	.Lrekusoyen_line_insert_0_1_0.112
.Lrekusoyen_line_insert_0_1_0.127:
	add	x8, x22, x20
	stur	wzr, [x21, #2]
	mov	w0, wzr
	lsr	x9, x8, #8
	strb	w8, [x21]
	strh	wzr, [x21, #6]
	ldp	x20, x19, [sp, #144]
	strb	w9, [x21, #1]
	ldp	x22, x21, [sp, #128]
	ldp	x24, x23, [sp, #112]
	ldp	x26, x25, [sp, #96]
	ldp	x28, x27, [sp, #80]
	ldp	x29, x30, [sp, #64]
	add	sp, sp, #160
	ret
.Lrekusoyen_line_insert_0_1_0.func_end:
	.size	rekusoyen_line_insert_0_1_0, .Lrekusoyen_line_insert_0_1_0.func_end-rekusoyen_line_insert_0_1_0
	.section	.text.rekusoyen_line_insert_init_args_0_1_0,"ax",@progbits
	.globl	rekusoyen_line_insert_init_args_0_1_0
	.hidden	rekusoyen_line_insert_init_args_0_1_0
	.p2align	2
	.type	rekusoyen_line_insert_init_args_0_1_0,@function
rekusoyen_line_insert_init_args_0_1_0:
	sub	sp, sp, #80
	cmp	x0, #0
	mov	w8, #4096
	mov	w10, #32792
	csel	x9, x8, xzr, eq
	cmp	x2, #0
	stp	x29, x30, [sp, #48]
	csel	x8, x8, xzr, eq
	cmp	x1, x10
	str	x19, [sp, #64]
	add	x29, sp, #48
	b.ne	.Lrekusoyen_line_insert_init_args_0_1_0.7
	add	x19, x0, x9
	ldr	x9, [x19, #16]
	sub	x10, x9, #1
	lsr	x10, x10, #14
	cbnz	x10, .Lrekusoyen_line_insert_init_args_0_1_0.8
	ldp	x10, x11, [x19]
	mov	x4, x3
	cbz	x11, .Lrekusoyen_line_insert_init_args_0_1_0.9
	cmp	x9, x10
	b.ls	.Lrekusoyen_line_insert_init_args_0_1_0.9
	mvn	x12, x10
	mov	w0, #20
	add	x12, x9, x12
	subs	x12, x12, #4
	b.lo	.Lrekusoyen_line_insert_init_args_0_1_0.6
	cmp	x11, x12
	b.ls	.Lrekusoyen_line_insert_init_args_0_1_0.12
.Lrekusoyen_line_insert_init_args_0_1_0.6:
	ldp	x29, x30, [sp, #48]
	ldr	x19, [sp, #64]
	add	sp, sp, #80
	b	rekusoyen_0_1_0.answers.U32FromRefusal.from
.Lrekusoyen_line_insert_init_args_0_1_0.7:
	mov	w0, #33
	ldp	x29, x30, [sp, #48]
	ldr	x19, [sp, #64]
	add	sp, sp, #80
	b	rekusoyen_0_1_0.answers.U32FromRefusal.from
.Lrekusoyen_line_insert_init_args_0_1_0.8:
	mov	w0, #20
	ldp	x29, x30, [sp, #48]
	ldr	x19, [sp, #64]
	add	sp, sp, #80
	b	rekusoyen_0_1_0.answers.U32FromRefusal.from
.Lrekusoyen_line_insert_init_args_0_1_0.9:
	mov	w0, #20
	cbnz	x11, .Lrekusoyen_line_insert_init_args_0_1_0.6
	cmp	x9, x10
	b.ls	.Lrekusoyen_line_insert_init_args_0_1_0.6
	mov	x11, xzr
.Lrekusoyen_line_insert_init_args_0_1_0.12:
	cmp	x11, #4, lsl #12
	mov	w12, #16384
	mov	w13, #4
	csel	x12, x11, x12, lo
	cmp	x11, #0
	str	x9, [sp, #24]
	add	x14, x10, x12
	csinc	x13, x13, xzr, eq
	mov	x9, x2
	add	x11, x14, #5
	sub	x0, x29, #16
	add	x2, sp, #8
	csinc	x10, x11, x10, ne
	add	x3, x9, x8
	stp	xzr, xzr, [x29, #-16]
	add	x10, x10, x13
	stp	x12, x10, [sp, #8]
	mov	w10, #16408
	add	x1, x19, x10
	bl	rekusoyen_0_1_0.cmdline.in_place.append_slug
	ldurb	w8, [x29, #-16]
	cmp	w8, #1
	b.ne	.Lrekusoyen_line_insert_init_args_0_1_0.14
	ldurb	w0, [x29, #-15]
	ldp	x29, x30, [sp, #48]
	ldr	x19, [sp, #64]
	add	sp, sp, #80
	b	rekusoyen_0_1_0.answers.U32FromRefusal.from
.Lrekusoyen_line_insert_init_args_0_1_0.14:
	ldur	x8, [x29, #-8]
	ldp	x29, x30, [sp, #48]
	mov	w0, wzr
	str	x8, [x19, #8]
	ldr	x19, [sp, #64]
	add	sp, sp, #80
	ret
.Lrekusoyen_line_insert_init_args_0_1_0.func_end:
	.size	rekusoyen_line_insert_init_args_0_1_0, .Lrekusoyen_line_insert_init_args_0_1_0.func_end-rekusoyen_line_insert_init_args_0_1_0
	.section	.text.rekusoyen_line_insert_multiple_0_1_0,"ax",@progbits
	.globl	rekusoyen_line_insert_multiple_0_1_0
	.hidden	rekusoyen_line_insert_multiple_0_1_0
	.p2align	2
	.type	rekusoyen_line_insert_multiple_0_1_0,@function
rekusoyen_line_insert_multiple_0_1_0:
	sub	sp, sp, #144
	cmp	x0, #0
	mov	w10, #4096
	mov	w12, #32792
	csel	x11, x10, xzr, eq
	cmp	x2, #0
	stp	x29, x30, [sp, #48]
	csel	x8, x10, xzr, eq
	cmp	x4, #0
	stp	x28, x27, [sp, #64]
	csel	x9, x10, xzr, eq
	cmp	x6, #0
	stp	x26, x25, [sp, #80]
	csel	x10, x10, xzr, eq
	cmp	x1, x12
	stp	x24, x23, [sp, #96]
	stp	x22, x21, [sp, #112]
	add	x29, sp, #48
	stp	x20, x19, [sp, #128]
	b.ne	.Lrekusoyen_line_insert_multiple_0_1_0.7
	add	x25, x0, x11
	ldr	x26, [x25, #16]
	sub	x11, x26, #1
	lsr	x11, x11, #14
	cbnz	x11, .Lrekusoyen_line_insert_multiple_0_1_0.8
	ldp	x27, x28, [x25]
	cbz	x28, .Lrekusoyen_line_insert_multiple_0_1_0.10
	cmp	x26, x27
	b.ls	.Lrekusoyen_line_insert_multiple_0_1_0.10
	mvn	x11, x27
	mov	w0, #20
	add	x11, x26, x11
	subs	x11, x11, #4
	b.lo	.Lrekusoyen_line_insert_multiple_0_1_0.9
	cmp	x28, x11
	b.hi	.Lrekusoyen_line_insert_multiple_0_1_0.9
	add	x19, x6, x10
	cbnz	x7, .Lrekusoyen_line_insert_multiple_0_1_0.13
	b	.Lrekusoyen_line_insert_multiple_0_1_0.18
.Lrekusoyen_line_insert_multiple_0_1_0.7:
	mov	w0, #33
	b	.Lrekusoyen_line_insert_multiple_0_1_0.9
.Lrekusoyen_line_insert_multiple_0_1_0.8:
	mov	w0, #20
.Lrekusoyen_line_insert_multiple_0_1_0.9:
	ldp	x20, x19, [sp, #128]
	ldp	x22, x21, [sp, #112]
	ldp	x24, x23, [sp, #96]
	ldp	x26, x25, [sp, #80]
	ldp	x28, x27, [sp, #64]
	ldp	x29, x30, [sp, #48]
	add	sp, sp, #144
	b	rekusoyen_0_1_0.answers.U32FromRefusal.from
.Lrekusoyen_line_insert_multiple_0_1_0.10:
	mov	w0, #20
	cbnz	x28, .Lrekusoyen_line_insert_multiple_0_1_0.9
	cmp	x26, x27
	b.ls	.Lrekusoyen_line_insert_multiple_0_1_0.9
	mov	x28, xzr
	add	x19, x6, x10
	cbz	x7, .Lrekusoyen_line_insert_multiple_0_1_0.18
.Lrekusoyen_line_insert_multiple_0_1_0.13:
	subs	x11, x7, #1
	b.eq	.Lrekusoyen_line_insert_multiple_0_1_0.17
	add	x10, x10, x6
	add	x10, x10, #8
.Lrekusoyen_line_insert_multiple_0_1_0.15:
	ldp	x12, x13, [x10, #-8]
	cmp	x12, x13
	b.hi	.Lrekusoyen_line_insert_multiple_0_1_0.34
	subs	x11, x11, #1
	add	x10, x10, #8
	b.ne	.Lrekusoyen_line_insert_multiple_0_1_0.15
.Lrekusoyen_line_insert_multiple_0_1_0.17:
	add	x10, x19, x7, lsl #3
	ldur	x10, [x10, #-8]
	cmp	x10, x5
	b.ne	.Lrekusoyen_line_insert_multiple_0_1_0.34
.Lrekusoyen_line_insert_multiple_0_1_0.18:
	add	x20, x2, x8
	add	x21, x4, x9
	mov	x9, x3
	mov	x8, x20
	b	.Lrekusoyen_line_insert_multiple_0_1_0.20
.Lrekusoyen_line_insert_multiple_0_1_0.19:
	add	x8, x8, x10
	sub	x9, x9, x10
	tbz	w11, #0, .Lrekusoyen_line_insert_multiple_0_1_0.69
.Lrekusoyen_line_insert_multiple_0_1_0.20:
	cbz	x9, .Lrekusoyen_line_insert_multiple_0_1_0.35
	cmp	x9, #64
	mov	w10, #64
	csel	x10, x9, x10, lo
	cmp	x9, #8
	b.hs	.Lrekusoyen_line_insert_multiple_0_1_0.23
	mov	w11, #1
	mov	x12, x10
	mov	x13, x8
	b	.Lrekusoyen_line_insert_multiple_0_1_0.32
.Lrekusoyen_line_insert_multiple_0_1_0.23:
	cmp	x9, #32
	b.hs	.Lrekusoyen_line_insert_multiple_0_1_0.25
	mov	x14, xzr
	mov	w11, #1
	b	.Lrekusoyen_line_insert_multiple_0_1_0.29
.Lrekusoyen_line_insert_multiple_0_1_0.25:
	movi	v1.16b, #224
	ldp	q2, q4, [x8]
	movi	v0.16b, #95
	and	x14, x10, #0x60
	cmp	x14, #32
	add	v3.16b, v2.16b, v1.16b
	add	v2.16b, v4.16b, v1.16b
	b.eq	.Lrekusoyen_line_insert_multiple_0_1_0.27
	ldp	q4, q5, [x8, #32]
	add	v4.16b, v4.16b, v1.16b
	add	v1.16b, v5.16b, v1.16b
	umax	v3.16b, v3.16b, v4.16b
	umax	v2.16b, v2.16b, v1.16b
.Lrekusoyen_line_insert_multiple_0_1_0.27:
	cmhi	v1.16b, v0.16b, v3.16b
	cmhi	v0.16b, v0.16b, v2.16b
	cmp	x10, x14
	and	v0.16b, v0.16b, v1.16b
	shl	v0.16b, v0.16b, #7
	cmlt	v0.16b, v0.16b, #0
	uminv	b0, v0.16b
	fmov	w11, s0
	b.eq	.Lrekusoyen_line_insert_multiple_0_1_0.19
	and	x12, x10, #0x18
	cbz	x12, .Lrekusoyen_line_insert_multiple_0_1_0.33
.Lrekusoyen_line_insert_multiple_0_1_0.29:
	movi	v0.2d, #0xffffffffffffffff
	and	x12, x10, #0x7
	mov	v0.b[0], w11
	and	x11, x10, #0x78
	add	x13, x8, x11
	sub	x15, x14, x11
	add	x14, x8, x14
.Lrekusoyen_line_insert_multiple_0_1_0.30:
	movi	v1.8b, #224
	ldr	d2, [x14], #8
	movi	v3.8b, #95
	adds	x15, x15, #8
	add	v1.8b, v2.8b, v1.8b
	cmhi	v1.8b, v3.8b, v1.8b
	and	v0.8b, v0.8b, v1.8b
	b.ne	.Lrekusoyen_line_insert_multiple_0_1_0.30
	shl	v0.8b, v0.8b, #7
	cmp	x10, x11
	cmlt	v0.8b, v0.8b, #0
	uminv	b0, v0.8b
	fmov	w11, s0
	b.eq	.Lrekusoyen_line_insert_multiple_0_1_0.19
.Lrekusoyen_line_insert_multiple_0_1_0.32:
	ldrb	w14, [x13], #1
	sub	x12, x12, #1
	sub	w14, w14, #32
	cmp	w14, #95
	cset	w14, lo
	and	w11, w11, w14
	cbnz	x12, .Lrekusoyen_line_insert_multiple_0_1_0.32
	b	.Lrekusoyen_line_insert_multiple_0_1_0.19
.Lrekusoyen_line_insert_multiple_0_1_0.33:
	and	x12, x10, #0x1f
	add	x13, x8, x14
	b	.Lrekusoyen_line_insert_multiple_0_1_0.32
.Lrekusoyen_line_insert_multiple_0_1_0.34:
	mov	w0, #32
	b	.Lrekusoyen_line_insert_multiple_0_1_0.9
.Lrekusoyen_line_insert_multiple_0_1_0.35:
	mov	x0, x20
	mov	x1, x3
	mov	w2, #32
	stp	x5, x7, [x29, #-16]
	mov	x22, x3
	bl	rekusoyen_0_1_0.slugs.bytes.has
	tbz	w0, #0, .Lrekusoyen_line_insert_multiple_0_1_0.37
	mov	w0, #22
	b	.Lrekusoyen_line_insert_multiple_0_1_0.9
.Lrekusoyen_line_insert_multiple_0_1_0.37:
	mov	x0, x20
	mov	x1, x22
	mov	w2, #61
	bl	rekusoyen_0_1_0.slugs.bytes.has
	tbz	w0, #0, .Lrekusoyen_line_insert_multiple_0_1_0.39
	mov	w0, #23
	b	.Lrekusoyen_line_insert_multiple_0_1_0.9
.Lrekusoyen_line_insert_multiple_0_1_0.39:
	ldur	x8, [x29, #-8]
	cbz	x8, .Lrekusoyen_line_insert_multiple_0_1_0.70
	str	x21, [sp, #24]
	mov	x23, xzr
	mov	x8, xzr
	ldur	x5, [x29, #-16]
.Lrekusoyen_line_insert_multiple_0_1_0.41:
	ldr	x17, [x19, x23, lsl #3]
	ldr	x9, [sp, #24]
	cmp	x5, x17
	csel	x16, x5, x17, lo
	cmp	x16, x8
	csel	x8, x16, x8, lo
	add	x24, x9, x8
	sub	x2, x16, x8
	mov	x8, x24
	mov	x9, x2
	b	.Lrekusoyen_line_insert_multiple_0_1_0.43
.Lrekusoyen_line_insert_multiple_0_1_0.42:
	add	x8, x8, x10
	sub	x9, x9, x10
	tbz	w11, #0, .Lrekusoyen_line_insert_multiple_0_1_0.69
.Lrekusoyen_line_insert_multiple_0_1_0.43:
	cbz	x9, .Lrekusoyen_line_insert_multiple_0_1_0.57
	cmp	x9, #64
	mov	w10, #64
	csel	x10, x9, x10, lo
	cmp	x9, #8
	b.hs	.Lrekusoyen_line_insert_multiple_0_1_0.46
	mov	w11, #1
	mov	x12, x10
	mov	x13, x8
	b	.Lrekusoyen_line_insert_multiple_0_1_0.55
.Lrekusoyen_line_insert_multiple_0_1_0.46:
	cmp	x9, #32
	b.hs	.Lrekusoyen_line_insert_multiple_0_1_0.48
	mov	x14, xzr
	mov	w11, #1
	b	.Lrekusoyen_line_insert_multiple_0_1_0.52
.Lrekusoyen_line_insert_multiple_0_1_0.48:
	movi	v1.16b, #224
	ldp	q2, q4, [x8]
	movi	v0.16b, #95
	and	x14, x10, #0x60
	cmp	x14, #32
	add	v3.16b, v2.16b, v1.16b
	add	v2.16b, v4.16b, v1.16b
	b.eq	.Lrekusoyen_line_insert_multiple_0_1_0.50
	ldp	q4, q5, [x8, #32]
	add	v4.16b, v4.16b, v1.16b
	add	v1.16b, v5.16b, v1.16b
	umax	v3.16b, v3.16b, v4.16b
	umax	v2.16b, v2.16b, v1.16b
.Lrekusoyen_line_insert_multiple_0_1_0.50:
	cmhi	v1.16b, v0.16b, v3.16b
	cmhi	v0.16b, v0.16b, v2.16b
	cmp	x10, x14
	and	v0.16b, v0.16b, v1.16b
	shl	v0.16b, v0.16b, #7
	cmlt	v0.16b, v0.16b, #0
	uminv	b0, v0.16b
	fmov	w11, s0
	b.eq	.Lrekusoyen_line_insert_multiple_0_1_0.42
	and	x12, x10, #0x18
	cbz	x12, .Lrekusoyen_line_insert_multiple_0_1_0.56
.Lrekusoyen_line_insert_multiple_0_1_0.52:
	movi	v0.2d, #0xffffffffffffffff
	and	x12, x10, #0x7
	mov	v0.b[0], w11
	and	x11, x10, #0x78
	add	x13, x8, x11
	sub	x15, x14, x11
	add	x14, x8, x14
.Lrekusoyen_line_insert_multiple_0_1_0.53:
	movi	v1.8b, #224
	ldr	d2, [x14], #8
	movi	v3.8b, #95
	adds	x15, x15, #8
	add	v1.8b, v2.8b, v1.8b
	cmhi	v1.8b, v3.8b, v1.8b
	and	v0.8b, v0.8b, v1.8b
	b.ne	.Lrekusoyen_line_insert_multiple_0_1_0.53
	shl	v0.8b, v0.8b, #7
	cmp	x10, x11
	cmlt	v0.8b, v0.8b, #0
	uminv	b0, v0.8b
	fmov	w11, s0
	b.eq	.Lrekusoyen_line_insert_multiple_0_1_0.42
.Lrekusoyen_line_insert_multiple_0_1_0.55:
	ldrb	w14, [x13], #1
	sub	x12, x12, #1
	sub	w14, w14, #32
	cmp	w14, #95
	cset	w14, lo
	and	w11, w11, w14
	cbnz	x12, .Lrekusoyen_line_insert_multiple_0_1_0.55
	b	.Lrekusoyen_line_insert_multiple_0_1_0.42
.Lrekusoyen_line_insert_multiple_0_1_0.56:
	and	x12, x10, #0x1f
	add	x13, x8, x14
	b	.Lrekusoyen_line_insert_multiple_0_1_0.55
.Lrekusoyen_line_insert_multiple_0_1_0.57:
	subs	x1, x2, #2
	str	x17, [sp, #16]
	b.hs	.Lrekusoyen_line_insert_multiple_0_1_0.59
	mov	x0, x24
	mov	x1, x2
	mov	w2, #32
	bl	rekusoyen_0_1_0.slugs.bytes.has
	ldp	x5, x7, [x29, #-16]
	mov	x3, x22
	tbz	w0, #0, .Lrekusoyen_line_insert_multiple_0_1_0.63
	b	.Lrekusoyen_line_insert_multiple_0_1_0.71
.Lrekusoyen_line_insert_multiple_0_1_0.59:
	mov	x21, x2
	add	x0, x24, #1
	mov	w2, #34
	str	x16, [sp, #8]
	bl	rekusoyen_0_1_0.slugs.bytes.has
	tbnz	w0, #0, .Lrekusoyen_line_insert_multiple_0_1_0.72
	mov	x0, x24
	mov	x1, x21
	mov	w2, #32
	bl	rekusoyen_0_1_0.slugs.bytes.has
	ldp	x5, x7, [x29, #-16]
	mov	x3, x22
	cbz	w0, .Lrekusoyen_line_insert_multiple_0_1_0.63
	ldrb	w8, [x24]
	cmp	w8, #34
	b.ne	.Lrekusoyen_line_insert_multiple_0_1_0.71
	ldr	x8, [sp, #24]
	ldr	x9, [sp, #8]
	add	x8, x8, x9
	ldurb	w8, [x8, #-1]
	cmp	w8, #34
	b.ne	.Lrekusoyen_line_insert_multiple_0_1_0.71
.Lrekusoyen_line_insert_multiple_0_1_0.63:
	add	x23, x23, #1
	ldr	x8, [sp, #16]
	cmp	x23, x7
	b.ne	.Lrekusoyen_line_insert_multiple_0_1_0.41
	cmp	x27, #4, lsl #12
	mov	w9, #16384
	mov	w0, #26
	csel	x1, x27, x9, lo
	cmp	x28, #4, lsl #12
	csel	x8, x28, x9, lo
	cmp	x28, #0
	add	x8, x1, x8
	add	x8, x8, #5
	csinc	x10, x8, x1, ne
	cmp	x27, #0
	cset	w8, ne
	cinc	x10, x10, ne
	cmp	x26, #4, lsl #12
	csel	x11, x26, x9, lo
	adds	x12, x7, x3
	csinv	x12, x12, xzr, lo
	cmp	x12, #4, lsl #12
	csel	x12, x12, x9, lo
	adds	x12, x5, x12
	csinv	x12, x12, xzr, lo
	cmp	x12, #4, lsl #12
	csel	x9, x12, x9, lo
	subs	x10, x11, x10
	b.lo	.Lrekusoyen_line_insert_multiple_0_1_0.9
	cmp	x9, x10
	b.hi	.Lrekusoyen_line_insert_multiple_0_1_0.9
	add	x8, x1, x8
	cmp	x8, #4, lsl #12
	b.hi	.Lrekusoyen_line_insert_multiple_0_1_0.9
	mov	w10, #16384
	sub	x8, x10, x8
	cmp	x9, x8
	b.hi	.Lrekusoyen_line_insert_multiple_0_1_0.9
	ldr	x4, [sp, #24]
	add	x0, x25, #24
	mov	x2, x20
	mov	x6, x19
	bl	rekusoyen_0_1_0.slugs.lists.put_list
	mov	x8, x0
	stur	wzr, [x25, #2]
	mov	w0, wzr
	lsr	x9, x8, #8
	strb	w8, [x25]
	strh	wzr, [x25, #6]
	ldp	x20, x19, [sp, #128]
	strb	w9, [x25, #1]
	ldp	x22, x21, [sp, #112]
	ldp	x24, x23, [sp, #96]
	ldp	x26, x25, [sp, #80]
	ldp	x28, x27, [sp, #64]
	ldp	x29, x30, [sp, #48]
	add	sp, sp, #144
	ret
.Lrekusoyen_line_insert_multiple_0_1_0.69:
	mov	w0, #21
	b	.Lrekusoyen_line_insert_multiple_0_1_0.9
.Lrekusoyen_line_insert_multiple_0_1_0.70:
	mov	w0, #24
	b	.Lrekusoyen_line_insert_multiple_0_1_0.9
.Lrekusoyen_line_insert_multiple_0_1_0.71:
	mov	w0, #27
	b	.Lrekusoyen_line_insert_multiple_0_1_0.9
.Lrekusoyen_line_insert_multiple_0_1_0.72:
	mov	w0, #28
	b	.Lrekusoyen_line_insert_multiple_0_1_0.9
.Lrekusoyen_line_insert_multiple_0_1_0.func_end:
	.size	rekusoyen_line_insert_multiple_0_1_0, .Lrekusoyen_line_insert_multiple_0_1_0.func_end-rekusoyen_line_insert_multiple_0_1_0
	.section	.text.rekusoyen_line_insert_str_0_1_0,"ax",@progbits
	.globl	rekusoyen_line_insert_str_0_1_0
	.hidden	rekusoyen_line_insert_str_0_1_0
	.p2align	2
	.type	rekusoyen_line_insert_str_0_1_0,@function
rekusoyen_line_insert_str_0_1_0:
	sub	sp, sp, #80
	cmp	x0, #0
	mov	w8, #4096
	mov	w10, #32792
	csel	x9, x8, xzr, eq
	cmp	x2, #0
	stp	x29, x30, [sp, #48]
	csel	x8, x8, xzr, eq
	cmp	x1, x10
	str	x19, [sp, #64]
	add	x29, sp, #48
	b.ne	.Lrekusoyen_line_insert_str_0_1_0.7
	add	x19, x0, x9
	ldr	x9, [x19, #16]
	sub	x10, x9, #1
	lsr	x10, x10, #14
	cbnz	x10, .Lrekusoyen_line_insert_str_0_1_0.8
	ldp	x10, x11, [x19]
	mov	x4, x3
	cbz	x11, .Lrekusoyen_line_insert_str_0_1_0.9
	cmp	x9, x10
	b.ls	.Lrekusoyen_line_insert_str_0_1_0.9
	mvn	x12, x10
	mov	w0, #20
	add	x12, x9, x12
	subs	x12, x12, #4
	b.lo	.Lrekusoyen_line_insert_str_0_1_0.6
	cmp	x11, x12
	b.ls	.Lrekusoyen_line_insert_str_0_1_0.12
.Lrekusoyen_line_insert_str_0_1_0.6:
	ldp	x29, x30, [sp, #48]
	ldr	x19, [sp, #64]
	add	sp, sp, #80
	b	rekusoyen_0_1_0.answers.U32FromRefusal.from
.Lrekusoyen_line_insert_str_0_1_0.7:
	mov	w0, #33
	ldp	x29, x30, [sp, #48]
	ldr	x19, [sp, #64]
	add	sp, sp, #80
	b	rekusoyen_0_1_0.answers.U32FromRefusal.from
.Lrekusoyen_line_insert_str_0_1_0.8:
	mov	w0, #20
	ldp	x29, x30, [sp, #48]
	ldr	x19, [sp, #64]
	add	sp, sp, #80
	b	rekusoyen_0_1_0.answers.U32FromRefusal.from
.Lrekusoyen_line_insert_str_0_1_0.9:
	mov	w0, #20
	cbnz	x11, .Lrekusoyen_line_insert_str_0_1_0.6
	cmp	x9, x10
	b.ls	.Lrekusoyen_line_insert_str_0_1_0.6
	mov	x11, xzr
.Lrekusoyen_line_insert_str_0_1_0.12:
	cmp	x11, #4, lsl #12
	mov	w12, #16384
	str	x9, [sp, #24]
	csel	x12, x11, x12, lo
	cmp	x11, #0
	mov	x9, x2
	add	x12, x10, x12
	sub	x0, x29, #16
	add	x1, x19, #24
	add	x11, x12, #5
	add	x2, sp, #8
	add	x3, x9, x8
	csinc	x11, x11, x10, ne
	cmp	x10, #0
	stp	xzr, xzr, [x29, #-16]
	cinc	x11, x11, ne
	stp	x10, x11, [sp, #8]
	bl	rekusoyen_0_1_0.cmdline.in_place.append_slug
	ldurb	w8, [x29, #-16]
	cmp	w8, #1
	b.ne	.Lrekusoyen_line_insert_str_0_1_0.14
	ldurb	w0, [x29, #-15]
	ldp	x29, x30, [sp, #48]
	ldr	x19, [sp, #64]
	add	sp, sp, #80
	b	rekusoyen_0_1_0.answers.U32FromRefusal.from
.Lrekusoyen_line_insert_str_0_1_0.14:
	ldur	x8, [x29, #-8]
	ldp	x29, x30, [sp, #48]
	mov	w0, wzr
	str	x8, [x19]
	ldr	x19, [sp, #64]
	add	sp, sp, #80
	ret
.Lrekusoyen_line_insert_str_0_1_0.func_end:
	.size	rekusoyen_line_insert_str_0_1_0, .Lrekusoyen_line_insert_str_0_1_0.func_end-rekusoyen_line_insert_str_0_1_0
	.section	.text.rekusoyen_line_load_0_1_0,"ax",@progbits
	.globl	rekusoyen_line_load_0_1_0
	.hidden	rekusoyen_line_load_0_1_0
	.p2align	2
	.type	rekusoyen_line_load_0_1_0,@function
rekusoyen_line_load_0_1_0:
	sub	sp, sp, #368
	cmp	x0, #0
	mov	w8, #4096
	stp	x22, x21, [sp, #336]
	csel	x22, x8, xzr, eq
	cmp	x2, #0
	mov	w10, #32792
	csel	x9, x8, xzr, eq
	cmp	x5, #0
	stp	x29, x30, [sp, #272]
	csel	x8, x8, xzr, eq
	cmp	x6, x10
	stp	x28, x27, [sp, #288]
	stp	x26, x25, [sp, #304]
	add	x29, sp, #272
	stp	x24, x23, [sp, #320]
	stp	x20, x19, [sp, #352]
	b.ne	.Lrekusoyen_line_load_0_1_0.6
	add	x23, x5, x8
	ldr	x11, [x23, #16]
	sub	x8, x11, #1
	lsr	x8, x8, #14
	cbnz	x8, .Lrekusoyen_line_load_0_1_0.7
	ldp	x19, x10, [x23]
	cbz	x10, .Lrekusoyen_line_load_0_1_0.10
	cmp	x11, x19
	b.ls	.Lrekusoyen_line_load_0_1_0.10
	mvn	x8, x19
	add	x8, x11, x8
	subs	x11, x8, #4
	mov	w8, #20
	b.lo	.Lrekusoyen_line_load_0_1_0.8
	cmp	x10, x11
	b.ls	.Lrekusoyen_line_load_0_1_0.13
	b	.Lrekusoyen_line_load_0_1_0.8
.Lrekusoyen_line_load_0_1_0.6:
	mov	w8, #33
	b	.Lrekusoyen_line_load_0_1_0.8
.Lrekusoyen_line_load_0_1_0.7:
	mov	w8, #20
.Lrekusoyen_line_load_0_1_0.8:
	mov	w0, w8
.Lrekusoyen_line_load_0_1_0.9:
	ldp	x20, x19, [sp, #352]
	ldp	x22, x21, [sp, #336]
	ldp	x24, x23, [sp, #320]
	ldp	x26, x25, [sp, #304]
	ldp	x28, x27, [sp, #288]
	ldp	x29, x30, [sp, #272]
	add	sp, sp, #368
	b	rekusoyen_0_1_0.answers.U32FromRefusal.from
.Lrekusoyen_line_load_0_1_0.10:
	mov	w8, #20
	cbnz	x10, .Lrekusoyen_line_load_0_1_0.8
	cmp	x11, x19
	b.ls	.Lrekusoyen_line_load_0_1_0.8
	mov	x10, xzr
.Lrekusoyen_line_load_0_1_0.13:
	cmp	x10, #4, lsl #12
	mov	w8, #16384
	mov	x25, x0
	csel	x20, x10, x8, lo
	mov	x8, sp
	mov	x27, x1
	add	x0, x8, #8
	add	x1, x2, x9
	mov	x2, x3
	mov	w24, #16408
	mov	x21, x4
	bl	rekusoyen_0_1_0.guest.maps.from_numbers
	mov	x0, sp
	add	x2, x23, #24
	add	x4, x23, x24
	mov	x1, x21
	mov	x3, x19
	mov	x5, x20
	mov	x26, x27
	str	x27, [sp]
	mov	x27, x21
	bl	rekusoyen_0_1_0.loader.plan_texts
	tst	w0, #0xff
	b.eq	.Lrekusoyen_line_load_0_1_0.15
	mov	w0, w1
	b	.Lrekusoyen_line_load_0_1_0.9
.Lrekusoyen_line_load_0_1_0.15:
	cmp	x26, x27
	add	x9, x25, x22
	add	x2, x23, #24
	csel	x8, x26, x27, lo
	add	x4, x23, x24
	mov	x3, x19
	sub	x1, x26, x8
	add	x0, x9, x8
	mov	x5, x20
	bl	rekusoyen_0_1_0.cmdline.writing.write
	ldp	x20, x19, [sp, #352]
	mov	w0, wzr
	ldp	x22, x21, [sp, #336]
	ldp	x24, x23, [sp, #320]
	ldp	x26, x25, [sp, #304]
	ldp	x28, x27, [sp, #288]
	ldp	x29, x30, [sp, #272]
	add	sp, sp, #368
	ret
.Lrekusoyen_line_load_0_1_0.func_end:
	.size	rekusoyen_line_load_0_1_0, .Lrekusoyen_line_load_0_1_0.func_end-rekusoyen_line_load_0_1_0
	.section	.text.rekusoyen_line_new_0_1_0,"ax",@progbits
	.globl	rekusoyen_line_new_0_1_0
	.hidden	rekusoyen_line_new_0_1_0
	.p2align	2
	.type	rekusoyen_line_new_0_1_0,@function
rekusoyen_line_new_0_1_0:
	mov	w8, #4096
	cmp	x0, #0
	mov	w9, #32792
	csel	x8, x8, xzr, eq
	cmp	x1, x9
	b.ne	.Lrekusoyen_line_new_0_1_0.3
	sub	x9, x2, #1
	lsr	x9, x9, #14
	cbnz	x9, .Lrekusoyen_line_new_0_1_0.4
	stp	x29, x30, [sp, #-32]!
	stp	x20, x19, [sp, #16]
	add	x19, x0, x8
	mov	w1, wzr
	add	x0, x19, #24
	mov	x20, x2
	mov	w2, #32768
	mov	x29, sp
	bl	memset
	lsr	x8, x20, #8
	strb	w20, [x19, #16]
	mov	w0, wzr
	stur	wzr, [x19, #18]
	strb	w8, [x19, #17]
	strh	wzr, [x19, #22]
	stp	xzr, xzr, [x19]
	ldp	x20, x19, [sp, #16]
	ldp	x29, x30, [sp], #32
	ret
.Lrekusoyen_line_new_0_1_0.3:
	mov	w0, #33
	b	rekusoyen_0_1_0.answers.U32FromRefusal.from
.Lrekusoyen_line_new_0_1_0.4:
	mov	w0, #20
	b	rekusoyen_0_1_0.answers.U32FromRefusal.from
.Lrekusoyen_line_new_0_1_0.func_end:
	.size	rekusoyen_line_new_0_1_0, .Lrekusoyen_line_new_0_1_0.func_end-rekusoyen_line_new_0_1_0
	.section	.text.rekusoyen_line_plan_0_1_0,"ax",@progbits
	.globl	rekusoyen_line_plan_0_1_0
	.hidden	rekusoyen_line_plan_0_1_0
	.p2align	2
	.type	rekusoyen_line_plan_0_1_0,@function
rekusoyen_line_plan_0_1_0:
	sub	sp, sp, #352
	mov	w8, #4096
	cmp	x1, #0
	mov	w10, #32792
	csel	x9, x8, xzr, eq
	cmp	x4, #0
	stp	x29, x30, [sp, #272]
	csel	x8, x8, xzr, eq
	cmp	x5, x10
	str	x28, [sp, #288]
	stp	x24, x23, [sp, #304]
	add	x29, sp, #272
	stp	x22, x21, [sp, #320]
	stp	x20, x19, [sp, #336]
	b.ne	.Lrekusoyen_line_plan_0_1_0.6
	add	x22, x4, x8
	ldr	x11, [x22, #16]
	sub	x8, x11, #1
	lsr	x8, x8, #14
	cbnz	x8, .Lrekusoyen_line_plan_0_1_0.7
	ldp	x19, x10, [x22]
	cbz	x10, .Lrekusoyen_line_plan_0_1_0.10
	cmp	x11, x19
	b.ls	.Lrekusoyen_line_plan_0_1_0.10
	mvn	x8, x19
	add	x8, x11, x8
	subs	x11, x8, #4
	mov	w8, #20
	b.lo	.Lrekusoyen_line_plan_0_1_0.8
	cmp	x10, x11
	b.ls	.Lrekusoyen_line_plan_0_1_0.13
	b	.Lrekusoyen_line_plan_0_1_0.8
.Lrekusoyen_line_plan_0_1_0.6:
	mov	w8, #33
	b	.Lrekusoyen_line_plan_0_1_0.8
.Lrekusoyen_line_plan_0_1_0.7:
	mov	w8, #20
.Lrekusoyen_line_plan_0_1_0.8:
	mov	w0, w8
.Lrekusoyen_line_plan_0_1_0.9:
	ldp	x20, x19, [sp, #336]
	ldr	x28, [sp, #288]
	ldp	x22, x21, [sp, #320]
	ldp	x24, x23, [sp, #304]
	ldp	x29, x30, [sp, #272]
	add	sp, sp, #352
	b	rekusoyen_0_1_0.answers.U32FromRefusal.from
.Lrekusoyen_line_plan_0_1_0.10:
	mov	w8, #20
	cbnz	x10, .Lrekusoyen_line_plan_0_1_0.8
	cmp	x11, x19
	b.ls	.Lrekusoyen_line_plan_0_1_0.8
	mov	x10, xzr
.Lrekusoyen_line_plan_0_1_0.13:
	cmp	x10, #4, lsl #12
	mov	w8, #16384
	mov	x24, x0
	csel	x20, x10, x8, lo
	mov	x8, sp
	add	x1, x1, x9
	add	x0, x8, #8
	mov	w23, #16408
	mov	x21, x3
	bl	rekusoyen_0_1_0.guest.maps.from_numbers
	mov	x0, sp
	add	x2, x22, #24
	add	x4, x22, x23
	mov	x1, x21
	mov	x3, x19
	mov	x5, x20
	str	x24, [sp]
	bl	rekusoyen_0_1_0.loader.plan_texts
	tbz	w0, #0, .Lrekusoyen_line_plan_0_1_0.15
	mov	w0, w1
	b	.Lrekusoyen_line_plan_0_1_0.9
.Lrekusoyen_line_plan_0_1_0.15:
	ldp	x20, x19, [sp, #336]
	mov	w0, wzr
	ldp	x22, x21, [sp, #320]
	ldr	x28, [sp, #288]
	ldp	x24, x23, [sp, #304]
	ldp	x29, x30, [sp, #272]
	add	sp, sp, #352
	ret
.Lrekusoyen_line_plan_0_1_0.func_end:
	.size	rekusoyen_line_plan_0_1_0, .Lrekusoyen_line_plan_0_1_0.func_end-rekusoyen_line_plan_0_1_0
	.section	.text.rekusoyen_line_try_from_0_1_0,"ax",@progbits
	.globl	rekusoyen_line_try_from_0_1_0
	.hidden	rekusoyen_line_try_from_0_1_0
	.p2align	2
	.type	rekusoyen_line_try_from_0_1_0,@function
rekusoyen_line_try_from_0_1_0:
	sub	sp, sp, #176
	mov	w8, #4096
	cmp	x0, #0
	stp	x29, x30, [sp, #80]
	csel	x9, x8, xzr, eq
	cmp	x2, #0
	stp	x26, x25, [sp, #112]
	add	x29, sp, #80
	csel	x26, x8, xzr, eq
	stp	x28, x27, [sp, #96]
	stp	x24, x23, [sp, #128]
	mov	x23, x3
	add	x25, x2, x26
	stp	x22, x21, [sp, #144]
	mov	x22, x1
	mov	x1, x3
	stp	x20, x19, [sp, #160]
	mov	x19, x2
	stp	x9, x0, [x29, #-32]
	add	x0, x2, x26
	stur	x4, [x29, #-8]
	bl	rekusoyen_0_1_0.slugs.splitting.split_at
	mov	x21, xzr
	cbnz	x0, .Lrekusoyen_line_try_from_0_1_0.2
	b	.Lrekusoyen_line_try_from_0_1_0.5
.Lrekusoyen_line_try_from_0_1_0.1:
	add	x21, x21, #1
	cmp	x0, x21
	b.eq	.Lrekusoyen_line_try_from_0_1_0.4
.Lrekusoyen_line_try_from_0_1_0.2:
	ldrb	w8, [x25, x21]
	sub	w9, w8, #9
	cmp	w9, #5
	b.lo	.Lrekusoyen_line_try_from_0_1_0.1
	cmp	w8, #32
	b.eq	.Lrekusoyen_line_try_from_0_1_0.1
	b	.Lrekusoyen_line_try_from_0_1_0.5
.Lrekusoyen_line_try_from_0_1_0.4:
	mov	x21, x0
.Lrekusoyen_line_try_from_0_1_0.5:
	subs	x27, x0, x21
	b.eq	.Lrekusoyen_line_try_from_0_1_0.10
	add	x8, x26, x0
	add	x8, x8, x19
	sub	x8, x8, #1
	b	.Lrekusoyen_line_try_from_0_1_0.8
.Lrekusoyen_line_try_from_0_1_0.7:
	sub	x27, x27, #1
	cbz	x27, .Lrekusoyen_line_try_from_0_1_0.10
.Lrekusoyen_line_try_from_0_1_0.8:
	ldrb	w9, [x8], #-1
	sub	w10, w9, #9
	cmp	w10, #5
	b.lo	.Lrekusoyen_line_try_from_0_1_0.7
	cmp	w9, #32
	b.eq	.Lrekusoyen_line_try_from_0_1_0.7
.Lrekusoyen_line_try_from_0_1_0.10:
	cmp	x23, x0
	mov	w9, #4
	mov	x28, xzr
	csel	x11, x23, x0, lo
	sub	x8, x23, x11
	cmp	x8, #4
	csel	x12, x8, x9, lo
	add	x9, x25, x11
	subs	x8, x8, x12
	add	x20, x9, x12
	str	x12, [sp, #40]
	b.ne	.Lrekusoyen_line_try_from_0_1_0.12
	b	.Lrekusoyen_line_try_from_0_1_0.15
.Lrekusoyen_line_try_from_0_1_0.11:
	add	x28, x28, #1
	cmp	x8, x28
	b.eq	.Lrekusoyen_line_try_from_0_1_0.14
.Lrekusoyen_line_try_from_0_1_0.12:
	ldrb	w9, [x20, x28]
	sub	w10, w9, #9
	cmp	w10, #5
	b.lo	.Lrekusoyen_line_try_from_0_1_0.11
	cmp	w9, #32
	b.eq	.Lrekusoyen_line_try_from_0_1_0.11
	b	.Lrekusoyen_line_try_from_0_1_0.15
.Lrekusoyen_line_try_from_0_1_0.14:
	mov	x28, x8
.Lrekusoyen_line_try_from_0_1_0.15:
	subs	x24, x8, x28
	b.eq	.Lrekusoyen_line_try_from_0_1_0.20
	add	x8, x26, x23
	add	x8, x8, x19
	sub	x8, x8, #1
	b	.Lrekusoyen_line_try_from_0_1_0.18
.Lrekusoyen_line_try_from_0_1_0.17:
	sub	x24, x24, #1
	cbz	x24, .Lrekusoyen_line_try_from_0_1_0.20
.Lrekusoyen_line_try_from_0_1_0.18:
	ldrb	w9, [x8], #-1
	sub	w10, w9, #9
	cmp	w10, #5
	b.lo	.Lrekusoyen_line_try_from_0_1_0.17
	cmp	w9, #32
	b.eq	.Lrekusoyen_line_try_from_0_1_0.17
.Lrekusoyen_line_try_from_0_1_0.20:
	mov	w8, #32792
	cmp	x22, x8
	b.ne	.Lrekusoyen_line_try_from_0_1_0.26
	ldur	x10, [x29, #-8]
	sub	x8, x10, #1
	lsr	x8, x8, #14
	cbnz	x8, .Lrekusoyen_line_try_from_0_1_0.27
	cbz	x24, .Lrekusoyen_line_try_from_0_1_0.29
	cmp	x10, x27
	b.ls	.Lrekusoyen_line_try_from_0_1_0.29
	mvn	x8, x27
	mov	w0, #20
	add	x8, x10, x8
	subs	x8, x8, #4
	b.lo	.Lrekusoyen_line_try_from_0_1_0.28
	cmp	x24, x8
	b.ls	.Lrekusoyen_line_try_from_0_1_0.31
	b	.Lrekusoyen_line_try_from_0_1_0.28
.Lrekusoyen_line_try_from_0_1_0.26:
	mov	w0, #33
	b	.Lrekusoyen_line_try_from_0_1_0.28
.Lrekusoyen_line_try_from_0_1_0.27:
	mov	w0, #20
.Lrekusoyen_line_try_from_0_1_0.28:
	ldp	x20, x19, [sp, #160]
	ldp	x22, x21, [sp, #144]
	ldp	x24, x23, [sp, #128]
	ldp	x26, x25, [sp, #112]
	ldp	x28, x27, [sp, #96]
	ldp	x29, x30, [sp, #80]
	add	sp, sp, #176
	b	rekusoyen_0_1_0.answers.U32FromRefusal.from
.Lrekusoyen_line_try_from_0_1_0.29:
	cmp	x10, x27
	mov	w0, #20
	b.ls	.Lrekusoyen_line_try_from_0_1_0.28
	cbnz	x24, .Lrekusoyen_line_try_from_0_1_0.28
.Lrekusoyen_line_try_from_0_1_0.31:
	str	x11, [sp]
	mov	w1, wzr
	mov	w2, #32792
	ldp	x9, x8, [x29, #-32]
	mov	x23, x10
	add	x0, x8, x9
	add	x22, x8, x9
	bl	memset
	lsr	x8, x23, #8
	strb	w23, [x22, #16]
	stur	wzr, [x22, #18]
	strb	w8, [x22, #17]
	str	x22, [sp, #24]
	strh	wzr, [x22, #22]
	cbz	x27, .Lrekusoyen_line_try_from_0_1_0.49
	ldp	x9, x8, [x29, #-32]
	mov	x23, xzr
	ldr	x10, [sp, #24]
	add	x25, x25, x21
	add	x8, x9, x8
	add	x9, x26, x21
	add	x22, x10, #24
	add	x10, x8, #24
	add	x11, x9, x19
	add	x9, x8, #24
	add	x8, x8, #40
	stur	x9, [x29, #-8]
	sub	x9, x10, x11
	str	x8, [sp, #16]
	add	x8, x11, #16
	str	x9, [sp, #32]
	stur	x11, [x29, #-16]
	str	x8, [sp, #8]
	b	.Lrekusoyen_line_try_from_0_1_0.35
.Lrekusoyen_line_try_from_0_1_0.33:
	add	x0, x22, x23
	add	x1, x25, x23
	mov	x2, x21
	bl	memmove
.Lrekusoyen_line_try_from_0_1_0.34:
	add	x23, x21, x23
	cmp	x23, x27
	b.hs	.Lrekusoyen_line_try_from_0_1_0.49
.Lrekusoyen_line_try_from_0_1_0.35:
	sub	x9, x27, x23
	mov	w8, #2048
	add	x10, x22, x23
	cmp	x9, #2048
	add	x11, x25, x23
	csel	x21, x9, x8, lo
	sub	x8, x10, x11
	cmp	x8, x21
	b.hs	.Lrekusoyen_line_try_from_0_1_0.33
	cmp	x9, #8
	mov	x8, xzr
	b.lo	.Lrekusoyen_line_try_from_0_1_0.47
	ldr	x10, [sp, #32]
	cmp	x10, #32
	b.lo	.Lrekusoyen_line_try_from_0_1_0.47
	cmp	x9, #32
	b.hs	.Lrekusoyen_line_try_from_0_1_0.40
	mov	x8, xzr
	b	.Lrekusoyen_line_try_from_0_1_0.44
.Lrekusoyen_line_try_from_0_1_0.40:
	ldp	x11, x10, [sp, #8]
	and	x9, x21, #0x18
	and	x8, x21, #0xfe0
	and	x12, x21, #0xfe0
	add	x10, x10, x23
	add	x11, x11, x23
.Lrekusoyen_line_try_from_0_1_0.41:
	ldp	q0, q1, [x11, #-16]
	subs	x12, x12, #32
	add	x11, x11, #32
	stp	q0, q1, [x10, #-16]
	add	x10, x10, #32
	b.ne	.Lrekusoyen_line_try_from_0_1_0.41
	cmp	x21, x8
	b.eq	.Lrekusoyen_line_try_from_0_1_0.34
	cbz	x9, .Lrekusoyen_line_try_from_0_1_0.47
.Lrekusoyen_line_try_from_0_1_0.44:
	ldp	x10, x12, [x29, #-16]
	mov	x9, x8
	and	x8, x21, #0xff8
	add	x11, x9, x23
	sub	x9, x9, x8
	add	x10, x10, x11
	add	x11, x12, x11
.Lrekusoyen_line_try_from_0_1_0.45:
	ldr	d0, [x10], #8
	adds	x9, x9, #8
	str	d0, [x11], #8
	b.ne	.Lrekusoyen_line_try_from_0_1_0.45
	cmp	x21, x8
	b.eq	.Lrekusoyen_line_try_from_0_1_0.34
.Lrekusoyen_line_try_from_0_1_0.47:
	ldp	x9, x11, [x29, #-16]
	add	x10, x8, x23
	sub	x8, x21, x8
	add	x9, x9, x10
	add	x10, x11, x10
.Lrekusoyen_line_try_from_0_1_0.48:
	ldrb	w11, [x9], #1
	subs	x8, x8, #1
	strb	w11, [x10], #1
	b.ne	.Lrekusoyen_line_try_from_0_1_0.48
	b	.Lrekusoyen_line_try_from_0_1_0.34
.Lrekusoyen_line_try_from_0_1_0.49:
	cmp	x24, #4, lsl #12
	mov	w8, #16384
	ldr	x9, [sp, #24]
	ldr	x11, [sp]
	csel	x21, x24, x8, lo
	str	x27, [x9]
	cbz	x24, .Lrekusoyen_line_try_from_0_1_0.67
	ldr	x10, [sp, #24]
	mov	w8, #16408
	add	x9, x26, x28
	mov	x23, xzr
	add	x20, x20, x28
	add	x25, x10, x8
	add	x8, x9, x11
	ldr	x11, [sp, #40]
	ldp	x10, x9, [x29, #-32]
	add	x8, x8, x11
	add	x27, x19, x8
	mov	w8, #16424
	add	x9, x10, x9
	mov	w10, #16408
	add	x26, x9, x10
	add	x28, x9, x8
	sub	x22, x26, x27
	b	.Lrekusoyen_line_try_from_0_1_0.53
.Lrekusoyen_line_try_from_0_1_0.51:
	add	x0, x25, x23
	add	x1, x20, x23
	mov	x2, x19
	bl	memmove
.Lrekusoyen_line_try_from_0_1_0.52:
	add	x23, x19, x23
	cmp	x23, x21
	b.hs	.Lrekusoyen_line_try_from_0_1_0.67
.Lrekusoyen_line_try_from_0_1_0.53:
	sub	x9, x21, x23
	mov	w8, #2048
	add	x10, x25, x23
	cmp	x9, #2048
	add	x11, x20, x23
	csel	x19, x9, x8, lo
	sub	x8, x10, x11
	cmp	x8, x19
	b.hs	.Lrekusoyen_line_try_from_0_1_0.51
	cmp	x9, #8
	mov	x8, xzr
	b.lo	.Lrekusoyen_line_try_from_0_1_0.65
	cmp	x22, #32
	b.lo	.Lrekusoyen_line_try_from_0_1_0.65
	cmp	x9, #32
	b.hs	.Lrekusoyen_line_try_from_0_1_0.58
	mov	x8, xzr
	b	.Lrekusoyen_line_try_from_0_1_0.62
.Lrekusoyen_line_try_from_0_1_0.58:
	add	x11, x27, #16
	and	x9, x19, #0x18
	and	x8, x19, #0xfe0
	add	x10, x28, x23
	add	x11, x11, x23
	and	x12, x19, #0xfe0
.Lrekusoyen_line_try_from_0_1_0.59:
	ldp	q0, q1, [x11, #-16]
	subs	x12, x12, #32
	add	x11, x11, #32
	stp	q0, q1, [x10, #-16]
	add	x10, x10, #32
	b.ne	.Lrekusoyen_line_try_from_0_1_0.59
	cmp	x19, x8
	b.eq	.Lrekusoyen_line_try_from_0_1_0.52
	cbz	x9, .Lrekusoyen_line_try_from_0_1_0.65
.Lrekusoyen_line_try_from_0_1_0.62:
	mov	x9, x8
	and	x8, x19, #0xff8
	add	x11, x9, x23
	sub	x9, x9, x8
	add	x10, x27, x11
	add	x11, x26, x11
.Lrekusoyen_line_try_from_0_1_0.63:
	ldr	d0, [x10], #8
	adds	x9, x9, #8
	str	d0, [x11], #8
	b.ne	.Lrekusoyen_line_try_from_0_1_0.63
	cmp	x19, x8
	b.eq	.Lrekusoyen_line_try_from_0_1_0.52
.Lrekusoyen_line_try_from_0_1_0.65:
	add	x10, x8, x23
	sub	x8, x19, x8
	add	x9, x27, x10
	add	x10, x26, x10
.Lrekusoyen_line_try_from_0_1_0.66:
	ldrb	w11, [x9], #1
	subs	x8, x8, #1
	strb	w11, [x10], #1
	b.ne	.Lrekusoyen_line_try_from_0_1_0.66
	b	.Lrekusoyen_line_try_from_0_1_0.52
.Lrekusoyen_line_try_from_0_1_0.67:
	ldr	x8, [sp, #24]
	ldp	x20, x19, [sp, #160]
	ldp	x22, x21, [sp, #144]
	mov	w0, wzr
	str	x24, [x8, #8]
	ldp	x24, x23, [sp, #128]
	ldp	x26, x25, [sp, #112]
	ldp	x28, x27, [sp, #96]
	ldp	x29, x30, [sp, #80]
	add	sp, sp, #176
	ret
.Lrekusoyen_line_try_from_0_1_0.func_end:
	.size	rekusoyen_line_try_from_0_1_0, .Lrekusoyen_line_try_from_0_1_0.func_end-rekusoyen_line_try_from_0_1_0
	.section	.text.rekusoyen_page_build_0_1_0,"ax",@progbits
	.globl	rekusoyen_page_build_0_1_0
	.hidden	rekusoyen_page_build_0_1_0
	.p2align	2
	.type	rekusoyen_page_build_0_1_0,@function
rekusoyen_page_build_0_1_0:
	cmp	x3, #123
	b.ne	.Lrekusoyen_page_build_0_1_0.3
	sub	sp, sp, #32
	cmp	x7, #0
	mov	w9, #4096
	stp	x29, x30, [sp, #16]
	add	x29, sp, #16
	csel	x10, x9, xzr, eq
	cmp	x2, #0
	ldr	x8, [x29, #16]
	csel	x11, x9, xzr, eq
	cmp	x0, #0
	csel	x9, x9, xzr, eq
	stp	w4, w5, [sp, #4]
	add	x2, x2, x11
	str	w6, [sp, #12]
	add	x0, x0, x9
	add	x4, sp, #4
	add	x5, x7, x10
	mov	x6, x8
	bl	rekusoyen_0_1_0.boot_page.build
	ldp	x29, x30, [sp, #16]
	add	sp, sp, #32
	tbz	w0, #0, .Lrekusoyen_page_build_0_1_0.4
	mov	w0, w1
	b	rekusoyen_0_1_0.answers.U32FromRefusal.from
.Lrekusoyen_page_build_0_1_0.3:
	mov	w0, #62
	ret
.Lrekusoyen_page_build_0_1_0.4:
	mov	w0, wzr
	ret
.Lrekusoyen_page_build_0_1_0.func_end:
	.size	rekusoyen_page_build_0_1_0, .Lrekusoyen_page_build_0_1_0.func_end-rekusoyen_page_build_0_1_0
	.section	.text.rekusoyen_put_0_1_0,"ax",@progbits
	.globl	rekusoyen_put_0_1_0
	.hidden	rekusoyen_put_0_1_0
	.p2align	2
	.type	rekusoyen_put_0_1_0,@function
rekusoyen_put_0_1_0:
	sub	sp, sp, #384
	cmp	x0, #0
	mov	w8, #4096
	stp	x24, x23, [sp, #336]
	csel	x24, x8, xzr, eq
	cmp	x2, #0
	stp	x26, x25, [sp, #320]
	csel	x9, x8, xzr, eq
	cmp	x5, #0
	stp	x20, x19, [sp, #368]
	csel	x25, x8, xzr, eq
	add	x8, sp, #8
	mov	x20, x0
	mov	x23, x1
	add	x0, x8, #8
	add	x1, x2, x9
	mov	x2, x3
	stp	x29, x30, [sp, #288]
	add	x29, sp, #288
	stp	x28, x27, [sp, #304]
	mov	x19, x5
	stp	x22, x21, [sp, #352]
	mov	x21, x6
	mov	x22, x4
	bl	rekusoyen_0_1_0.guest.maps.from_numbers
	mov	x8, #1099511627776
	str	x23, [sp, #8]
	cmp	x23, x8
	b.hi	.Lrekusoyen_put_0_1_0.3
	ldr	x8, [sp, #16]
	cmp	x8, #16
	b.ls	.Lrekusoyen_put_0_1_0.5
.Lrekusoyen_put_0_1_0.2:
	mov	w0, #43
	b	.Lrekusoyen_put_0_1_0.4
.Lrekusoyen_put_0_1_0.3:
	mov	w0, #31
.Lrekusoyen_put_0_1_0.4:
	ldp	x20, x19, [sp, #368]
	ldp	x22, x21, [sp, #352]
	ldp	x24, x23, [sp, #336]
	ldp	x26, x25, [sp, #320]
	ldp	x28, x27, [sp, #304]
	ldp	x29, x30, [sp, #288]
	add	sp, sp, #384
	b	rekusoyen_0_1_0.answers.U32FromRefusal.from
.Lrekusoyen_put_0_1_0.5:
	cbz	x8, .Lrekusoyen_put_0_1_0.16
	ldr	x10, [sp, #152]
	cbz	x10, .Lrekusoyen_put_0_1_0.2
	ldr	x11, [sp, #24]
	mov	w0, #43
	subs	x9, x23, x11
	b.lo	.Lrekusoyen_put_0_1_0.4
	cmp	x10, x9
	b.hi	.Lrekusoyen_put_0_1_0.4
	subs	x9, x8, #1
	b.eq	.Lrekusoyen_put_0_1_0.16
	add	x13, sp, #8
	add	x12, x10, x11
	add	x10, x13, #152
.Lrekusoyen_put_0_1_0.11:
	ldur	x11, [x10, #-128]
	mov	w0, #43
	cmp	x12, x11
	b.hs	.Lrekusoyen_put_0_1_0.4
	ldr	x12, [x10], #8
	cbz	x12, .Lrekusoyen_put_0_1_0.4
	subs	x13, x23, x11
	b.lo	.Lrekusoyen_put_0_1_0.4
	cmp	x12, x13
	b.hi	.Lrekusoyen_put_0_1_0.4
	subs	x9, x9, #1
	add	x12, x12, x11
	b.ne	.Lrekusoyen_put_0_1_0.11
.Lrekusoyen_put_0_1_0.16:
	cbz	x21, .Lrekusoyen_put_0_1_0.25
	subs	x9, x23, x22
	mov	w0, #33
	b.lo	.Lrekusoyen_put_0_1_0.4
	cmp	x21, x9
	b.hi	.Lrekusoyen_put_0_1_0.4
	cbz	x8, .Lrekusoyen_put_0_1_0.4
	add	x9, sp, #8
	add	x9, x9, #144
	b	.Lrekusoyen_put_0_1_0.22
.Lrekusoyen_put_0_1_0.21:
	subs	x8, x8, #1
	add	x9, x9, #8
	mov	w0, #33
	b.eq	.Lrekusoyen_put_0_1_0.4
.Lrekusoyen_put_0_1_0.22:
	ldur	x10, [x9, #-128]
	subs	x10, x22, x10
	b.lo	.Lrekusoyen_put_0_1_0.21
	ldr	x11, [x9]
	subs	x10, x11, x10
	b.lo	.Lrekusoyen_put_0_1_0.21
	cmp	x21, x10
	b.hi	.Lrekusoyen_put_0_1_0.21
.Lrekusoyen_put_0_1_0.25:
	cmp	x23, x22
	csel	x8, x23, x22, lo
	sub	x9, x23, x8
	cmp	x9, x21
	csel	x21, x9, x21, lo
	cbz	x21, .Lrekusoyen_put_0_1_0.43
	add	x10, x24, x8
	add	x9, x20, x24
	add	x23, x19, x25
	add	x25, x25, x19
	add	x20, x20, x10
	mov	x22, xzr
	add	x24, x9, x8
	sub	x26, x20, x25
	add	x27, x20, #16
	add	x28, x25, #16
	b	.Lrekusoyen_put_0_1_0.29
.Lrekusoyen_put_0_1_0.27:
	add	x0, x24, x22
	add	x1, x23, x22
	mov	x2, x19
	bl	memmove
.Lrekusoyen_put_0_1_0.28:
	add	x22, x19, x22
	cmp	x22, x21
	b.hs	.Lrekusoyen_put_0_1_0.43
.Lrekusoyen_put_0_1_0.29:
	sub	x9, x21, x22
	mov	w8, #2048
	add	x10, x24, x22
	cmp	x9, #2048
	add	x11, x23, x22
	csel	x19, x9, x8, lo
	sub	x8, x10, x11
	cmp	x8, x19
	b.hs	.Lrekusoyen_put_0_1_0.27
	cmp	x9, #8
	mov	x8, xzr
	b.lo	.Lrekusoyen_put_0_1_0.41
	cmp	x26, #32
	b.lo	.Lrekusoyen_put_0_1_0.41
	cmp	x9, #32
	b.hs	.Lrekusoyen_put_0_1_0.34
	mov	x8, xzr
	b	.Lrekusoyen_put_0_1_0.38
.Lrekusoyen_put_0_1_0.34:
	and	x9, x19, #0x18
	and	x8, x19, #0xfe0
	add	x10, x27, x22
	add	x11, x28, x22
	and	x12, x19, #0xfe0
.Lrekusoyen_put_0_1_0.35:
	ldp	q0, q1, [x11, #-16]
	subs	x12, x12, #32
	add	x11, x11, #32
	stp	q0, q1, [x10, #-16]
	add	x10, x10, #32
	b.ne	.Lrekusoyen_put_0_1_0.35
	cmp	x19, x8
	b.eq	.Lrekusoyen_put_0_1_0.28
	cbz	x9, .Lrekusoyen_put_0_1_0.41
.Lrekusoyen_put_0_1_0.38:
	mov	x9, x8
	and	x8, x19, #0xff8
	add	x11, x9, x22
	sub	x9, x9, x8
	add	x10, x25, x11
	add	x11, x20, x11
.Lrekusoyen_put_0_1_0.39:
	ldr	d0, [x10], #8
	adds	x9, x9, #8
	str	d0, [x11], #8
	b.ne	.Lrekusoyen_put_0_1_0.39
	cmp	x19, x8
	b.eq	.Lrekusoyen_put_0_1_0.28
.Lrekusoyen_put_0_1_0.41:
	add	x10, x8, x22
	sub	x8, x8, x19
	add	x9, x25, x10
	add	x10, x20, x10
.Lrekusoyen_put_0_1_0.42:
	ldrb	w11, [x9], #1
	adds	x8, x8, #1
	strb	w11, [x10], #1
	b.lo	.Lrekusoyen_put_0_1_0.42
	b	.Lrekusoyen_put_0_1_0.28
.Lrekusoyen_put_0_1_0.43:
	ldp	x20, x19, [sp, #368]
	mov	w0, wzr
	ldp	x22, x21, [sp, #352]
	ldp	x24, x23, [sp, #336]
	ldp	x26, x25, [sp, #320]
	ldp	x28, x27, [sp, #304]
	ldp	x29, x30, [sp, #288]
	add	sp, sp, #384
	ret
.Lrekusoyen_put_0_1_0.func_end:
	.size	rekusoyen_put_0_1_0, .Lrekusoyen_put_0_1_0.func_end-rekusoyen_put_0_1_0
	.section	.text.rekusoyen_raw_begin_0_1_0,"ax",@progbits
	.globl	rekusoyen_raw_begin_0_1_0
	.hidden	rekusoyen_raw_begin_0_1_0
	.p2align	2
	.type	rekusoyen_raw_begin_0_1_0,@function
rekusoyen_raw_begin_0_1_0:
	mov	w8, #4096
	cmp	x0, #0
	csel	x8, x8, xzr, eq
	cmp	x1, #50
	b.ne	.Lrekusoyen_raw_begin_0_1_0.3
	sub	w9, w2, #1
	cmp	w9, #3
	b.hs	.Lrekusoyen_raw_begin_0_1_0.4
	sub	sp, sp, #16
	ands	w9, w3, #0x1
	add	x8, x0, x8
	movi	v0.2d, #0000000000000000
	csel	x10, xzr, x4, eq
	add	x11, sp, #8
	stp	x9, x10, [x8, #48]
	ands	w9, w3, #0x2
	lsr	w9, w9, #1
	csel	x10, xzr, x5, eq
	cmp	w2, #2
	stp	q0, q0, [x8, #16]
	stp	x9, x10, [x8, #64]
	mov	w10, #2
	add	x9, x8, #336
	cinc	x10, x10, ne
	cmp	w2, #1
	sub	x11, x9, x11
	str	q0, [x8]
	csinc	x10, x10, xzr, ne
	cmp	x11, #7
	stp	q0, q0, [x8, #80]
	stp	q0, q0, [x8, #112]
	stp	q0, q0, [x8, #144]
	stp	q0, q0, [x8, #176]
	stp	q0, q0, [x8, #208]
	stp	q0, q0, [x8, #240]
	stp	q0, q0, [x8, #272]
	stp	q0, q0, [x8, #304]
	add	sp, sp, #16
	movi	v0.2d, #0000000000000000
	str	x10, [x9]
	mov	w0, wzr
	mov	w9, #63
	str	x9, [x8, #344]
	stp	q0, q0, [x8, #352]
	str	q0, [x8, #384]
	ret
.Lrekusoyen_raw_begin_0_1_0.3:
	mov	w0, #33
	b	rekusoyen_0_1_0.answers.U32FromRefusal.from
.Lrekusoyen_raw_begin_0_1_0.4:
	mov	w0, #32
	b	rekusoyen_0_1_0.answers.U32FromRefusal.from
.Lrekusoyen_raw_begin_0_1_0.func_end:
	.size	rekusoyen_raw_begin_0_1_0, .Lrekusoyen_raw_begin_0_1_0.func_end-rekusoyen_raw_begin_0_1_0
	.section	.text.rekusoyen_raw_boot_pvh_0_1_0,"ax",@progbits
	.globl	rekusoyen_raw_boot_pvh_0_1_0
	.hidden	rekusoyen_raw_boot_pvh_0_1_0
	.p2align	2
	.type	rekusoyen_raw_boot_pvh_0_1_0,@function
rekusoyen_raw_boot_pvh_0_1_0:
	stp	x29, x30, [sp, #-96]!
	stp	x28, x27, [sp, #16]
	mov	x29, sp
	stp	x26, x25, [sp, #32]
	stp	x24, x23, [sp, #48]
	stp	x22, x21, [sp, #64]
	stp	x20, x19, [sp, #80]
	sub	sp, sp, #1264
	str	xzr, [sp]
	cmp	x0, #0
	mov	w13, #4096
	ldr	x27, [x29, #120]
	csel	x15, x13, xzr, eq
	cmp	x2, #0
	ldr	x9, [x29, #136]
	csel	x8, x13, xzr, eq
	cmp	x4, #0
	ldr	x16, [x29, #152]
	csel	x19, x13, xzr, eq
	cmp	x27, #0
	ldr	x10, [x29, #168]
	csel	x21, x13, xzr, eq
	cmp	x9, #0
	ldp	x20, x14, [x29, #216]
	csel	x11, x13, xzr, eq
	cmp	x16, #0
	mov	x25, x4
	csel	x17, x13, xzr, eq
	cmp	x10, #0
	csel	x12, x13, xzr, eq
	cmp	x20, #0
	csel	x4, x13, xzr, eq
	cmp	x14, #7
	b.ne	.Lrekusoyen_raw_boot_pvh_0_1_0.4
	sub	w13, w6, #1
	cmp	w13, #3
	b.hs	.Lrekusoyen_raw_boot_pvh_0_1_0.5
	stp	x20, x4, [sp, #80]
	cmp	w6, #2
	add	x9, x9, x11
	stp	x17, x16, [sp, #64]
	add	x26, sp, #496
	str	x15, [sp, #96]
	str	x0, [sp, #112]
	add	x0, sp, #232
	ldr	x13, [x29, #208]
	str	x13, [sp, #184]
	ldr	w13, [x29, #200]
	str	x13, [sp, #224]
	ldr	x13, [x29, #192]
	str	x13, [sp, #208]
	ldp	x13, x28, [x29, #176]
	str	x13, [sp, #192]
	ldr	x13, [x29, #160]
	str	x13, [sp, #136]
	mov	w13, #1
	ldr	x16, [x29, #144]
	ldp	x15, x14, [x29, #96]
	cinc	w13, w13, ne
	cmp	w6, #1
	str	x16, [sp, #160]
	csel	w20, wzr, w13, eq
	ands	w23, w7, #0x1
	ldr	x13, [x29, #128]
	str	x1, [sp, #216]
	add	x1, x2, x8
	str	x5, [sp, #200]
	mov	x2, x3
	stp	x19, x13, [sp, #144]
	csel	x19, xzr, x15, eq
	ands	w13, w7, #0x2
	str	x9, [sp, #128]
	lsr	w24, w13, #1
	csel	x22, xzr, x14, eq
	ldr	w9, [x29, #112]
	str	w9, [sp, #120]
	add	x9, x10, x12
	stp	x21, x9, [sp, #168]
	mov	w21, w7
	bl	rekusoyen_0_1_0.guest.maps.from_numbers
	add	x8, sp, #872
	str	x19, [sp, #888]
	ldr	x9, [sp, #224]
	stur	wzr, [x8, #1]
	ldr	x8, [sp, #208]
	movi	v0.2d, #0000000000000000
	str	w9, [sp, #856]
	ldr	w9, [sp, #120]
	add	x1, sp, #232
	str	x8, [sp, #848]
	ldp	x8, x19, [sp, #184]
	strb	w20, [sp, #872]
	mov	w2, #264
	str	x22, [sp, #904]
	ubfx	w22, w21, #2, #1
	str	x8, [sp, #864]
	lsl	w8, w21, #29
	ldr	x21, [sp, #176]
	str	wzr, [sp, #876]
	and	w20, w9, w8, asr #31
	add	x8, sp, #568
	str	x23, [sp, #880]
	add	x0, x8, #8
	str	x24, [sp, #896]
	str	x28, [sp, #104]
	str	x28, [sp, #840]
	str	wzr, [sp, #860]
	stp	q0, q0, [x26]
	stp	q0, q0, [x26, #32]
	bl	memcpy
	ldr	x8, [sp, #216]
	ldr	x3, [sp, #200]
	add	x0, sp, #496
	add	x1, sp, #568
	add	x4, sp, #872
	mov	w5, w22
	str	x8, [sp, #568]
	ldr	x8, [sp, #136]
	mov	w6, w20
	stp	x21, x19, [sp, #40]
	str	x8, [sp, #32]
	add	x8, sp, #840
	str	x8, [sp, #24]
	ldr	x8, [sp, #160]
	str	x8, [sp, #16]
	ldr	x8, [sp, #144]
	add	x2, x25, x8
	ldr	x8, [sp, #128]
	mov	x23, x8
	str	x8, [sp, #8]
	ldr	x8, [sp, #168]
	add	x7, x27, x8
	ldr	x8, [sp, #152]
	str	x8, [sp]
	bl	rekusoyen_0_1_0.boot.pvh.plan
	ldrb	w8, [sp, #496]
	cbz	w8, .Lrekusoyen_raw_boot_pvh_0_1_0.7
	ldrb	w0, [sp, #497]
	b	.Lrekusoyen_raw_boot_pvh_0_1_0.6
.Lrekusoyen_raw_boot_pvh_0_1_0.4:
	mov	w0, #33
	b	.Lrekusoyen_raw_boot_pvh_0_1_0.6
.Lrekusoyen_raw_boot_pvh_0_1_0.5:
	mov	w0, #32
.Lrekusoyen_raw_boot_pvh_0_1_0.6:
	add	sp, sp, #1264
	ldp	x20, x19, [sp, #80]
	ldp	x22, x21, [sp, #64]
	ldp	x24, x23, [sp, #48]
	ldp	x26, x25, [sp, #32]
	ldp	x28, x27, [sp, #16]
	ldp	x29, x30, [sp], #96
	b	rekusoyen_0_1_0.answers.U32FromRefusal.from
.Lrekusoyen_raw_boot_pvh_0_1_0.7:
	movi	v0.2d, #0000000000000000
	add	x8, sp, #872
	ldr	x9, [sp, #96]
	add	x21, sp, #976
	ldr	x20, [sp, #136]
	add	x1, sp, #232
	add	x0, x21, #8
	mov	w2, #264
	str	xzr, [sp, #960]
	stur	q0, [x8, #40]
	stur	q0, [x8, #56]
	stur	q0, [x8, #72]
	ldr	x8, [sp, #112]
	add	x8, x8, x9
	str	x8, [sp, #120]
	bl	memcpy
	ldr	x22, [sp, #144]
	ldr	x19, [sp, #216]
	add	x0, sp, #912
	ldr	x3, [sp, #200]
	add	x1, sp, #976
	add	x4, sp, #872
	add	x2, x25, x22
	str	x19, [sp, #976]
	bl	rekusoyen_0_1_0.loads.formats.plan
	ldrb	w8, [sp, #912]
	cbnz	w8, .Lrekusoyen_raw_boot_pvh_0_1_0.9
	ldr	x8, [sp, #112]
	ldr	x9, [sp, #96]
	add	x2, x25, x22
	ldr	x3, [sp, #200]
	add	x4, sp, #872
	mov	x1, x19
	add	x0, x8, x9
	bl	rekusoyen_0_1_0.loads.copying.copy_all
.Lrekusoyen_raw_boot_pvh_0_1_0.9:
	add	x0, x21, #8
	add	x1, sp, #232
	mov	w2, #264
	bl	memcpy
	ldp	x25, x22, [sp, #160]
	add	x0, sp, #976
	ldr	x21, [sp, #104]
	ldr	x26, [sp, #152]
	mov	x4, x23
	str	x19, [sp, #976]
	add	x2, x27, x22
	mov	x1, x21
	mov	x3, x26
	mov	x5, x25
	bl	rekusoyen_0_1_0.loader.plan_texts
	tst	w0, #0xff
	b.ne	.Lrekusoyen_raw_boot_pvh_0_1_0.11
	cmp	x19, x21
	ldr	x9, [sp, #120]
	add	x2, x27, x22
	csel	x8, x19, x21, lo
	mov	x3, x26
	mov	x4, x23
	sub	x1, x19, x8
	add	x0, x9, x8
	mov	x5, x25
	bl	rekusoyen_0_1_0.cmdline.writing.write
.Lrekusoyen_raw_boot_pvh_0_1_0.11:
	ldr	x8, [sp, #208]
	ldr	x13, [sp, #224]
	mov	x14, x20
	cmp	x19, x8
	csel	x8, x19, x8, lo
	sub	x9, x19, x8
	cmp	x9, x20
	csel	x25, x9, x20, lo
	ldp	x10, x9, [sp, #80]
	add	x9, x10, x9
	str	x9, [sp, #200]
	cbz	x25, .Lrekusoyen_raw_boot_pvh_0_1_0.29
	ldr	x9, [sp, #96]
	ldr	x10, [sp, #120]
	mov	x19, xzr
	ldp	x12, x11, [sp, #64]
	add	x9, x9, x8
	add	x26, x10, x8
	ldr	x8, [sp, #112]
	add	x21, x12, x11
	add	x27, x8, x9
	add	x22, x11, x12
	sub	x28, x27, x21
	b	.Lrekusoyen_raw_boot_pvh_0_1_0.15
.Lrekusoyen_raw_boot_pvh_0_1_0.13:
	add	x0, x26, x19
	add	x1, x22, x19
	mov	x2, x24
	bl	memmove
	ldr	x13, [sp, #224]
	mov	x14, x20
.Lrekusoyen_raw_boot_pvh_0_1_0.14:
	add	x19, x24, x19
	cmp	x19, x25
	b.hs	.Lrekusoyen_raw_boot_pvh_0_1_0.29
.Lrekusoyen_raw_boot_pvh_0_1_0.15:
	sub	x9, x25, x19
	mov	w8, #2048
	add	x10, x26, x19
	cmp	x9, #2048
	add	x11, x22, x19
	csel	x24, x9, x8, lo
	sub	x8, x10, x11
	cmp	x8, x24
	b.hs	.Lrekusoyen_raw_boot_pvh_0_1_0.13
	cmp	x9, #8
	mov	x8, xzr
	b.lo	.Lrekusoyen_raw_boot_pvh_0_1_0.27
	cmp	x28, #32
	b.lo	.Lrekusoyen_raw_boot_pvh_0_1_0.27
	cmp	x9, #32
	b.hs	.Lrekusoyen_raw_boot_pvh_0_1_0.20
	mov	x8, xzr
	b	.Lrekusoyen_raw_boot_pvh_0_1_0.24
.Lrekusoyen_raw_boot_pvh_0_1_0.20:
	add	x10, x27, #16
	add	x11, x21, #16
	and	x9, x24, #0x18
	and	x8, x24, #0xfe0
	add	x10, x10, x19
	add	x11, x11, x19
	and	x12, x24, #0xfe0
.Lrekusoyen_raw_boot_pvh_0_1_0.21:
	ldp	q0, q1, [x11, #-16]
	subs	x12, x12, #32
	add	x11, x11, #32
	stp	q0, q1, [x10, #-16]
	add	x10, x10, #32
	b.ne	.Lrekusoyen_raw_boot_pvh_0_1_0.21
	cmp	x24, x8
	b.eq	.Lrekusoyen_raw_boot_pvh_0_1_0.14
	cbz	x9, .Lrekusoyen_raw_boot_pvh_0_1_0.27
.Lrekusoyen_raw_boot_pvh_0_1_0.24:
	mov	x9, x8
	and	x8, x24, #0xff8
	add	x11, x9, x19
	sub	x9, x9, x8
	add	x10, x21, x11
	add	x11, x27, x11
.Lrekusoyen_raw_boot_pvh_0_1_0.25:
	ldr	d0, [x10], #8
	adds	x9, x9, #8
	str	d0, [x11], #8
	b.ne	.Lrekusoyen_raw_boot_pvh_0_1_0.25
	cmp	x24, x8
	b.eq	.Lrekusoyen_raw_boot_pvh_0_1_0.14
.Lrekusoyen_raw_boot_pvh_0_1_0.27:
	add	x10, x8, x19
	sub	x8, x8, x24
	add	x9, x21, x10
	add	x10, x27, x10
.Lrekusoyen_raw_boot_pvh_0_1_0.28:
	ldrb	w11, [x9], #1
	adds	x8, x8, #1
	strb	w11, [x10], #1
	b.lo	.Lrekusoyen_raw_boot_pvh_0_1_0.28
	b	.Lrekusoyen_raw_boot_pvh_0_1_0.14
.Lrekusoyen_raw_boot_pvh_0_1_0.29:
	cmp	x14, #0
	mov	w8, #32
	add	x9, x13, #56
	csel	x8, xzr, x8, eq
	movi	v0.2d, #0000000000000000
	str	x9, [sp, #984]
	add	x8, x9, x8
	adrp	x9, .Lrekusoyen_0_1_0.static.19
	add	x9, x9, :lo12:.Lrekusoyen_0_1_0.static.19
	str	x8, [sp, #992]
	ldr	x8, [sp, #104]
	add	x10, sp, #912
	ldr	x0, [sp, #120]
	ldr	x7, [sp, #192]
	csel	x4, x9, x10, eq
	str	x8, [sp, #1008]
	ldp	x6, x8, [sp, #176]
	add	x2, sp, #232
	add	x3, sp, #976
	str	x13, [sp, #976]
	str	xzr, [sp, #1000]
	str	x8, [sp, #1016]
	ldp	x8, x1, [sp, #208]
	str	x14, [sp, #920]
	str	x8, [sp, #912]
	mov	w8, #4
	csel	x5, xzr, x8, eq
	add	x8, sp, #872
	stur	q0, [x8, #56]
	bl	rekusoyen_0_1_0.start_info.write
	add	x9, sp, #496
	ldrb	w8, [sp, #520]
	ldur	q0, [x9, #8]
	cbz	w8, .Lrekusoyen_raw_boot_pvh_0_1_0.32
	cmp	w8, #2
	b.ne	.Lrekusoyen_raw_boot_pvh_0_1_0.33
	ldr	x12, [sp, #200]
	mov	x9, xzr
	mov	x8, xzr
	movi	v1.2d, #0000000000000000
	b	.Lrekusoyen_raw_boot_pvh_0_1_0.34
.Lrekusoyen_raw_boot_pvh_0_1_0.32:
	ldr	q1, [x9, #32]
	ldr	x8, [sp, #544]
	mov	w9, #2
	ldr	x12, [sp, #200]
	b	.Lrekusoyen_raw_boot_pvh_0_1_0.34
.Lrekusoyen_raw_boot_pvh_0_1_0.33:
	ldr	x12, [sp, #200]
	movi	v1.2d, #0000000000000000
	mov	x8, xzr
	mov	w9, #1
.Lrekusoyen_raw_boot_pvh_0_1_0.34:
	add	x10, x12, #48
	add	x11, sp, #976
	str	x9, [x12, #16]
	ldr	x9, [sp, #552]
	sub	x11, x10, x11
	str	q0, [x12]
	stur	q1, [x12, #24]
	cmp	x11, #7
	mov	w0, wzr
	str	x8, [x12, #40]
	str	x9, [x10]
	add	sp, sp, #1264
	ldp	x20, x19, [sp, #80]
	ldp	x22, x21, [sp, #64]
	ldp	x24, x23, [sp, #48]
	ldp	x26, x25, [sp, #32]
	ldp	x28, x27, [sp, #16]
	ldp	x29, x30, [sp], #96
	ret
.Lrekusoyen_raw_boot_pvh_0_1_0.func_end:
	.size	rekusoyen_raw_boot_pvh_0_1_0, .Lrekusoyen_raw_boot_pvh_0_1_0.func_end-rekusoyen_raw_boot_pvh_0_1_0
	.section	.text.rekusoyen_raw_boot_pvh_plan_0_1_0,"ax",@progbits
	.globl	rekusoyen_raw_boot_pvh_plan_0_1_0
	.hidden	rekusoyen_raw_boot_pvh_plan_0_1_0
	.p2align	2
	.type	rekusoyen_raw_boot_pvh_plan_0_1_0,@function
rekusoyen_raw_boot_pvh_plan_0_1_0:
	stp	x29, x30, [sp, #-96]!
	stp	x28, x27, [sp, #16]
	mov	x29, sp
	stp	x26, x25, [sp, #32]
	stp	x24, x23, [sp, #48]
	stp	x22, x21, [sp, #64]
	stp	x20, x19, [sp, #80]
	sub	sp, sp, #576
	ldp	x21, x16, [x29, #112]
	cmp	x1, #0
	mov	w15, #4096
	ldp	x9, x17, [x29, #152]
	ldr	x11, [x29, #128]
	csel	x10, x15, xzr, eq
	cmp	x3, #0
	ldp	x23, x14, [x29, #200]
	csel	x30, x15, xzr, eq
	cmp	x21, #0
	movi	v0.2d, #0000000000000000
	ldr	w25, [x29, #184]
	csel	x28, x15, xzr, eq
	cmp	x11, #0
	ldr	w22, [x29, #104]
	ldp	x20, x19, [x29, #168]
	csel	x12, x15, xzr, eq
	ldp	x27, x26, [x29, #136]
	cmp	x9, #0
	ldr	x8, [x29, #96]
	ldr	x24, [x29, #192]
	csel	x13, x15, xzr, eq
	cmp	x23, #0
	stp	q0, q0, [sp, #144]
	csel	x15, x15, xzr, eq
	cmp	x14, #7
	stp	q0, q0, [sp, #176]
	b.ne	.Lrekusoyen_raw_boot_pvh_plan_0_1_0.4
	sub	w14, w5, #1
	cmp	w14, #3
	b.hs	.Lrekusoyen_raw_boot_pvh_plan_0_1_0.5
	cmp	w5, #2
	mov	w14, #1
	str	x15, [sp, #64]
	cinc	w14, w14, ne
	cmp	w5, #1
	str	x16, [sp, #136]
	csel	w14, wzr, w14, eq
	ands	w15, w6, #0x1
	add	x9, x9, x13
	csel	x16, xzr, x7, eq
	sturb	w14, [x29, #-56]
	ands	w14, w6, #0x2
	lsr	w14, w14, #1
	csel	x8, xzr, x8, eq
	add	x11, x11, x12
	stp	x26, x9, [sp, #72]
	mov	x26, x0
	add	x1, x1, x10
	stp	x14, x8, [x29, #-32]
	add	x8, sp, #248
	add	x0, x8, #8
	stur	wzr, [x29, #-55]
	stur	wzr, [x29, #-52]
	stp	x15, x16, [x29, #-48]
	stp	x4, x11, [sp, #120]
	stp	x3, x28, [sp, #104]
	mov	x28, x17
	stp	x27, x30, [sp, #88]
	mov	w27, w6
	bl	rekusoyen_0_1_0.guest.maps.from_numbers
	lsl	w8, w27, #29
	ubfx	w5, w27, #2, #1
	add	x0, sp, #144
	add	x1, sp, #248
	sub	x4, x29, #56
	stp	x24, x26, [sp, #240]
	and	w6, w22, w8, asr #31
	ldr	x8, [sp, #80]
	stp	x20, x19, [sp, #216]
	stp	w25, wzr, [sp, #232]
	stp	x8, x28, [sp, #40]
	ldr	x8, [sp, #72]
	str	x8, [sp, #32]
	add	x8, sp, #216
	str	x8, [sp, #24]
	ldp	x8, x9, [sp, #88]
	str	x8, [sp, #16]
	ldr	x8, [sp, #104]
	add	x2, x8, x9
	ldp	x3, x8, [sp, #120]
	str	x8, [sp, #8]
	ldr	x8, [sp, #112]
	add	x7, x21, x8
	ldr	x8, [sp, #136]
	str	x8, [sp]
	bl	rekusoyen_0_1_0.boot.pvh.plan
	ldrb	w8, [sp, #144]
	cbz	w8, .Lrekusoyen_raw_boot_pvh_plan_0_1_0.7
	ldrb	w0, [sp, #145]
	b	.Lrekusoyen_raw_boot_pvh_plan_0_1_0.6
.Lrekusoyen_raw_boot_pvh_plan_0_1_0.4:
	mov	w0, #33
	b	.Lrekusoyen_raw_boot_pvh_plan_0_1_0.6
.Lrekusoyen_raw_boot_pvh_plan_0_1_0.5:
	mov	w0, #32
.Lrekusoyen_raw_boot_pvh_plan_0_1_0.6:
	add	sp, sp, #576
	ldp	x20, x19, [sp, #80]
	ldp	x22, x21, [sp, #64]
	ldp	x24, x23, [sp, #48]
	ldp	x26, x25, [sp, #32]
	ldp	x28, x27, [sp, #16]
	ldp	x29, x30, [sp], #96
	b	rekusoyen_0_1_0.answers.U32FromRefusal.from
.Lrekusoyen_raw_boot_pvh_plan_0_1_0.7:
	ldr	x8, [sp, #64]
	ldrb	w9, [sp, #168]
	ldur	q1, [sp, #152]
	add	x8, x23, x8
	cbz	w9, .Lrekusoyen_raw_boot_pvh_plan_0_1_0.10
	movi	v0.2d, #0000000000000000
	cmp	w9, #2
	b.ne	.Lrekusoyen_raw_boot_pvh_plan_0_1_0.11
	mov	x10, xzr
	mov	x9, xzr
	b	.Lrekusoyen_raw_boot_pvh_plan_0_1_0.12
.Lrekusoyen_raw_boot_pvh_plan_0_1_0.10:
	ldr	q0, [sp, #176]
	ldr	x9, [sp, #192]
	mov	w10, #2
	b	.Lrekusoyen_raw_boot_pvh_plan_0_1_0.12
.Lrekusoyen_raw_boot_pvh_plan_0_1_0.11:
	mov	x9, xzr
	mov	w10, #1
.Lrekusoyen_raw_boot_pvh_plan_0_1_0.12:
	add	x11, x8, #48
	sub	x12, x29, #16
	str	x10, [x8, #16]
	ldr	x10, [sp, #200]
	sub	x12, x11, x12
	str	q1, [x8]
	stur	q0, [x8, #24]
	cmp	x12, #7
	mov	w0, wzr
	str	x9, [x8, #40]
	str	x10, [x11]
	add	sp, sp, #576
	ldp	x20, x19, [sp, #80]
	ldp	x22, x21, [sp, #64]
	ldp	x24, x23, [sp, #48]
	ldp	x26, x25, [sp, #32]
	ldp	x28, x27, [sp, #16]
	ldp	x29, x30, [sp], #96
	ret
.Lrekusoyen_raw_boot_pvh_plan_0_1_0.func_end:
	.size	rekusoyen_raw_boot_pvh_plan_0_1_0, .Lrekusoyen_raw_boot_pvh_plan_0_1_0.func_end-rekusoyen_raw_boot_pvh_plan_0_1_0
	.section	.text.rekusoyen_raw_boot_tree_0_1_0,"ax",@progbits
	.globl	rekusoyen_raw_boot_tree_0_1_0
	.hidden	rekusoyen_raw_boot_tree_0_1_0
	.p2align	2
	.type	rekusoyen_raw_boot_tree_0_1_0,@function
rekusoyen_raw_boot_tree_0_1_0:
	stp	x29, x30, [sp, #-96]!
	stp	x28, x27, [sp, #16]
	mov	x29, sp
	stp	x26, x25, [sp, #32]
	stp	x24, x23, [sp, #48]
	stp	x22, x21, [sp, #64]
	stp	x20, x19, [sp, #80]
	sub	sp, sp, #1200
	str	xzr, [sp]
	cmp	x0, #0
	mov	w9, #4096
	mov	x22, x4
	ldr	x20, [x29, #120]
	csel	x11, x9, xzr, eq
	cmp	x2, #0
	ldr	x4, [x29, #136]
	ldr	x12, [x29, #152]
	csel	x8, x9, xzr, eq
	cmp	x22, #0
	csel	x25, x9, xzr, eq
	cmp	x20, #0
	ldp	x14, x10, [x29, #192]
	csel	x19, x9, xzr, eq
	cmp	x4, #0
	csel	x16, x9, xzr, eq
	cmp	x12, #0
	csel	x13, x9, xzr, eq
	cmp	x14, #0
	csel	x15, x9, xzr, eq
	cmp	x10, #7
	b.ne	.Lrekusoyen_raw_boot_tree_0_1_0.4
	sub	w9, w6, #1
	cmp	w9, #3
	b.hs	.Lrekusoyen_raw_boot_tree_0_1_0.5
	stp	x4, x16, [sp, #40]
	cmp	w6, #2
	mov	x27, x5
	stp	x15, x14, [sp, #72]
	mov	w26, w7
	stp	x11, x0, [sp, #88]
	mov	w11, #1
	add	x0, sp, #184
	ldr	x9, [x29, #184]
	cinc	w11, w11, ne
	cmp	w6, #1
	csel	w24, wzr, w11, eq
	ands	w28, w7, #0x1
	str	x9, [sp, #168]
	ldr	x9, [x29, #176]
	str	x9, [sp, #152]
	ldr	x14, [x29, #168]
	ldp	x10, x9, [x29, #96]
	str	x14, [sp, #112]
	ldr	x14, [x29, #160]
	csel	x21, xzr, x10, eq
	ands	w10, w7, #0x2
	csel	x23, xzr, x9, eq
	str	x14, [sp, #160]
	ldr	x11, [x29, #144]
	str	x11, [sp, #128]
	ldr	x11, [x29, #128]
	str	x11, [sp, #144]
	ldr	w11, [x29, #112]
	str	x1, [sp, #176]
	add	x1, x2, x8
	str	x19, [sp, #136]
	lsr	w19, w10, #1
	add	x10, x12, x13
	mov	x2, x3
	str	w11, [sp, #108]
	str	x10, [sp, #120]
	stp	x13, x12, [sp, #56]
	bl	rekusoyen_0_1_0.guest.maps.from_numbers
	add	x8, sp, #554
	str	x21, [sp, #824]
	movi	v0.2d, #0000000000000000
	stur	wzr, [x8, #255]
	ldp	x8, x21, [sp, #152]
	str	x19, [sp, #832]
	ldp	x9, x19, [sp, #168]
	ldr	w10, [sp, #108]
	add	x1, sp, #184
	mov	w2, #264
	str	x8, [sp, #792]
	ldr	x8, [sp, #112]
	strb	w24, [sp, #808]
	str	x8, [sp, #800]
	lsl	w8, w26, #29
	str	x9, [sp, #784]
	add	x9, sp, #448
	and	w24, w10, w8, asr #31
	add	x8, sp, #512
	stp	q0, q0, [x9]
	add	x9, sp, #448
	add	x0, x8, #8
	str	wzr, [sp, #812]
	str	x28, [sp, #816]
	mov	x28, x27
	mov	x27, x25
	str	x23, [sp, #840]
	ubfx	w23, w26, #2, #1
	stp	q0, q0, [x9, #32]
	bl	memcpy
	ldr	x9, [sp, #120]
	add	x8, sp, #784
	add	x0, sp, #448
	add	x1, sp, #512
	add	x2, x22, x25
	add	x4, sp, #808
	stp	x9, x21, [sp, #24]
	ldr	x9, [sp, #128]
	mov	x3, x28
	mov	w5, w23
	mov	w6, w24
	str	x19, [sp, #512]
	stp	x8, x9, [sp, #8]
	ldr	x8, [sp, #136]
	mov	x25, x9
	add	x7, x20, x8
	ldr	x8, [sp, #144]
	str	x8, [sp]
	bl	rekusoyen_0_1_0.boot.tree.plan
	ldrb	w8, [sp, #448]
	cbz	w8, .Lrekusoyen_raw_boot_tree_0_1_0.7
	ldrb	w0, [sp, #449]
	b	.Lrekusoyen_raw_boot_tree_0_1_0.6
.Lrekusoyen_raw_boot_tree_0_1_0.4:
	mov	w0, #33
	b	.Lrekusoyen_raw_boot_tree_0_1_0.6
.Lrekusoyen_raw_boot_tree_0_1_0.5:
	mov	w0, #32
.Lrekusoyen_raw_boot_tree_0_1_0.6:
	add	sp, sp, #1200
	ldp	x20, x19, [sp, #80]
	ldp	x22, x21, [sp, #64]
	ldp	x24, x23, [sp, #48]
	ldp	x26, x25, [sp, #32]
	ldp	x28, x27, [sp, #16]
	ldp	x29, x30, [sp], #96
	b	rekusoyen_0_1_0.answers.U32FromRefusal.from
.Lrekusoyen_raw_boot_tree_0_1_0.7:
	movi	v0.2d, #0000000000000000
	add	x8, sp, #448
	mov	x20, x28
	mov	x21, x27
	ldp	x27, x26, [sp, #56]
	add	x1, sp, #184
	mov	w2, #264
	stur	xzr, [x29, #-32]
	stp	q0, q0, [x8, #672]
	str	q0, [x8, #704]
	ldp	x28, x8, [sp, #88]
	add	x8, x8, x28
	str	x8, [sp, #144]
	add	x8, sp, #848
	add	x0, x8, #8
	bl	memcpy
	sub	x0, x29, #80
	add	x1, sp, #848
	add	x2, x22, x21
	add	x4, sp, #808
	mov	x3, x20
	str	x19, [sp, #848]
	bl	rekusoyen_0_1_0.loads.formats.plan
	ldurb	w8, [x29, #-80]
	cbnz	w8, .Lrekusoyen_raw_boot_tree_0_1_0.9
	ldr	x8, [sp, #96]
	add	x2, x22, x21
	add	x4, sp, #808
	mov	x1, x19
	mov	x3, x20
	add	x0, x8, x28
	bl	rekusoyen_0_1_0.loads.copying.copy_all
.Lrekusoyen_raw_boot_tree_0_1_0.9:
	ldr	x8, [sp, #152]
	mov	x14, x26
	mov	x15, x27
	add	x13, x26, x27
	cmp	x19, x8
	csel	x8, x19, x8, lo
	sub	x9, x19, x8
	cmp	x9, x25
	csel	x22, x9, x25, lo
	cbz	x22, .Lrekusoyen_raw_boot_tree_0_1_0.27
	ldr	x10, [sp, #144]
	ldp	x12, x11, [sp, #40]
	add	x9, x28, x8
	mov	x24, xzr
	add	x19, x10, x8
	ldr	x8, [sp, #96]
	add	x23, x12, x11
	add	x20, x11, x12
	add	x25, x8, x9
	b	.Lrekusoyen_raw_boot_tree_0_1_0.13
.Lrekusoyen_raw_boot_tree_0_1_0.11:
	add	x0, x19, x24
	add	x1, x23, x24
	mov	x2, x21
	bl	memmove
	mov	x15, x27
	mov	x14, x26
	add	x13, x26, x27
.Lrekusoyen_raw_boot_tree_0_1_0.12:
	add	x24, x21, x24
	cmp	x24, x22
	b.hs	.Lrekusoyen_raw_boot_tree_0_1_0.27
.Lrekusoyen_raw_boot_tree_0_1_0.13:
	sub	x9, x22, x24
	mov	w8, #2048
	add	x10, x19, x24
	cmp	x9, #2048
	add	x11, x23, x24
	csel	x21, x9, x8, lo
	sub	x8, x10, x11
	cmp	x8, x21
	b.hs	.Lrekusoyen_raw_boot_tree_0_1_0.11
	cmp	x9, #8
	mov	x8, xzr
	b.lo	.Lrekusoyen_raw_boot_tree_0_1_0.25
	sub	x10, x25, x20
	cmp	x10, #32
	b.lo	.Lrekusoyen_raw_boot_tree_0_1_0.25
	cmp	x9, #32
	b.hs	.Lrekusoyen_raw_boot_tree_0_1_0.18
	mov	x8, xzr
	b	.Lrekusoyen_raw_boot_tree_0_1_0.22
.Lrekusoyen_raw_boot_tree_0_1_0.18:
	add	x10, x25, #16
	add	x11, x20, #16
	and	x9, x21, #0x18
	and	x8, x21, #0xfe0
	add	x10, x10, x24
	add	x11, x11, x24
	and	x12, x21, #0xfe0
.Lrekusoyen_raw_boot_tree_0_1_0.19:
	ldp	q0, q1, [x11, #-16]
	subs	x12, x12, #32
	add	x11, x11, #32
	stp	q0, q1, [x10, #-16]
	add	x10, x10, #32
	b.ne	.Lrekusoyen_raw_boot_tree_0_1_0.19
	cmp	x21, x8
	b.eq	.Lrekusoyen_raw_boot_tree_0_1_0.12
	cbz	x9, .Lrekusoyen_raw_boot_tree_0_1_0.25
.Lrekusoyen_raw_boot_tree_0_1_0.22:
	mov	x9, x8
	and	x8, x21, #0xff8
	add	x11, x9, x24
	sub	x9, x9, x8
	add	x10, x20, x11
	add	x11, x25, x11
.Lrekusoyen_raw_boot_tree_0_1_0.23:
	ldr	d0, [x10], #8
	adds	x9, x9, #8
	str	d0, [x11], #8
	b.ne	.Lrekusoyen_raw_boot_tree_0_1_0.23
	cmp	x21, x8
	b.eq	.Lrekusoyen_raw_boot_tree_0_1_0.12
.Lrekusoyen_raw_boot_tree_0_1_0.25:
	add	x10, x8, x24
	sub	x8, x8, x21
	add	x9, x20, x10
	add	x10, x25, x10
.Lrekusoyen_raw_boot_tree_0_1_0.26:
	ldrb	w11, [x9], #1
	adds	x8, x8, #1
	strb	w11, [x10], #1
	b.lo	.Lrekusoyen_raw_boot_tree_0_1_0.26
	b	.Lrekusoyen_raw_boot_tree_0_1_0.12
.Lrekusoyen_raw_boot_tree_0_1_0.27:
	ldp	x8, x9, [sp, #168]
	ldr	x10, [sp, #160]
	cmp	x9, x8
	csel	x8, x9, x8, lo
	sub	x9, x9, x8
	cmp	x9, x10
	csel	x21, x9, x10, lo
	ldp	x10, x9, [sp, #72]
	add	x20, x9, x10
	cbz	x21, .Lrekusoyen_raw_boot_tree_0_1_0.45
	ldr	x10, [sp, #144]
	add	x9, x28, x8
	add	x24, x15, x14
	mov	x22, xzr
	add	x23, x10, x8
	ldr	x8, [sp, #96]
	add	x25, x8, x9
	sub	x27, x25, x24
	add	x26, x25, #16
	b	.Lrekusoyen_raw_boot_tree_0_1_0.31
.Lrekusoyen_raw_boot_tree_0_1_0.29:
	add	x0, x23, x22
	add	x1, x13, x22
	mov	x2, x19
	mov	x28, x13
	bl	memmove
	mov	x13, x28
.Lrekusoyen_raw_boot_tree_0_1_0.30:
	add	x22, x19, x22
	cmp	x22, x21
	b.hs	.Lrekusoyen_raw_boot_tree_0_1_0.45
.Lrekusoyen_raw_boot_tree_0_1_0.31:
	sub	x9, x21, x22
	mov	w8, #2048
	add	x10, x23, x22
	cmp	x9, #2048
	add	x11, x13, x22
	csel	x19, x9, x8, lo
	sub	x8, x10, x11
	cmp	x8, x19
	b.hs	.Lrekusoyen_raw_boot_tree_0_1_0.29
	cmp	x9, #8
	mov	x8, xzr
	b.lo	.Lrekusoyen_raw_boot_tree_0_1_0.43
	cmp	x27, #32
	b.lo	.Lrekusoyen_raw_boot_tree_0_1_0.43
	cmp	x9, #32
	b.hs	.Lrekusoyen_raw_boot_tree_0_1_0.36
	mov	x8, xzr
	b	.Lrekusoyen_raw_boot_tree_0_1_0.40
.Lrekusoyen_raw_boot_tree_0_1_0.36:
	add	x11, x24, #16
	and	x9, x19, #0x18
	and	x8, x19, #0xfe0
	add	x10, x26, x22
	add	x11, x11, x22
	and	x12, x19, #0xfe0
.Lrekusoyen_raw_boot_tree_0_1_0.37:
	ldp	q0, q1, [x11, #-16]
	subs	x12, x12, #32
	add	x11, x11, #32
	stp	q0, q1, [x10, #-16]
	add	x10, x10, #32
	b.ne	.Lrekusoyen_raw_boot_tree_0_1_0.37
	cmp	x19, x8
	b.eq	.Lrekusoyen_raw_boot_tree_0_1_0.30
	cbz	x9, .Lrekusoyen_raw_boot_tree_0_1_0.43
.Lrekusoyen_raw_boot_tree_0_1_0.40:
	mov	x9, x8
	and	x8, x19, #0xff8
	add	x11, x9, x22
	sub	x9, x9, x8
	add	x10, x24, x11
	add	x11, x25, x11
.Lrekusoyen_raw_boot_tree_0_1_0.41:
	ldr	d0, [x10], #8
	adds	x9, x9, #8
	str	d0, [x11], #8
	b.ne	.Lrekusoyen_raw_boot_tree_0_1_0.41
	cmp	x19, x8
	b.eq	.Lrekusoyen_raw_boot_tree_0_1_0.30
.Lrekusoyen_raw_boot_tree_0_1_0.43:
	add	x10, x8, x22
	sub	x8, x8, x19
	add	x9, x24, x10
	add	x10, x25, x10
.Lrekusoyen_raw_boot_tree_0_1_0.44:
	ldrb	w11, [x9], #1
	adds	x8, x8, #1
	strb	w11, [x10], #1
	b.lo	.Lrekusoyen_raw_boot_tree_0_1_0.44
	b	.Lrekusoyen_raw_boot_tree_0_1_0.30
.Lrekusoyen_raw_boot_tree_0_1_0.45:
	add	x9, sp, #448
	ldrb	w8, [sp, #472]
	ldur	q1, [x9, #8]
	cbz	w8, .Lrekusoyen_raw_boot_tree_0_1_0.48
	movi	v0.2d, #0000000000000000
	cmp	w8, #2
	b.ne	.Lrekusoyen_raw_boot_tree_0_1_0.49
	mov	x9, xzr
	mov	x8, xzr
	b	.Lrekusoyen_raw_boot_tree_0_1_0.50
.Lrekusoyen_raw_boot_tree_0_1_0.48:
	add	x8, sp, #448
	mov	w9, #2
	ldr	q0, [x8, #32]
	ldr	x8, [sp, #496]
	b	.Lrekusoyen_raw_boot_tree_0_1_0.50
.Lrekusoyen_raw_boot_tree_0_1_0.49:
	mov	x8, xzr
	mov	w9, #1
.Lrekusoyen_raw_boot_tree_0_1_0.50:
	add	x10, x20, #48
	add	x11, sp, #848
	str	x9, [x20, #16]
	ldr	x9, [sp, #504]
	sub	x11, x10, x11
	str	q1, [x20]
	stur	q0, [x20, #24]
	cmp	x11, #7
	mov	w0, wzr
	str	x8, [x20, #40]
	str	x9, [x10]
	add	sp, sp, #1200
	ldp	x20, x19, [sp, #80]
	ldp	x22, x21, [sp, #64]
	ldp	x24, x23, [sp, #48]
	ldp	x26, x25, [sp, #32]
	ldp	x28, x27, [sp, #16]
	ldp	x29, x30, [sp], #96
	ret
.Lrekusoyen_raw_boot_tree_0_1_0.func_end:
	.size	rekusoyen_raw_boot_tree_0_1_0, .Lrekusoyen_raw_boot_tree_0_1_0.func_end-rekusoyen_raw_boot_tree_0_1_0
	.section	.text.rekusoyen_raw_boot_tree_plan_0_1_0,"ax",@progbits
	.globl	rekusoyen_raw_boot_tree_plan_0_1_0
	.hidden	rekusoyen_raw_boot_tree_plan_0_1_0
	.p2align	2
	.type	rekusoyen_raw_boot_tree_plan_0_1_0,@function
rekusoyen_raw_boot_tree_plan_0_1_0:
	stp	x29, x30, [sp, #-96]!
	stp	x28, x27, [sp, #16]
	mov	x29, sp
	stp	x26, x25, [sp, #32]
	stp	x24, x23, [sp, #48]
	stp	x22, x21, [sp, #64]
	stp	x20, x19, [sp, #80]
	sub	sp, sp, #512
	ldp	x28, x22, [x29, #112]
	cmp	x1, #0
	ldp	x14, x9, [x29, #128]
	mov	w12, #4096
	csel	x10, x12, xzr, eq
	cmp	x3, #0
	movi	v0.2d, #0000000000000000
	ldp	x21, x13, [x29, #176]
	csel	x20, x12, xzr, eq
	cmp	x28, #0
	ldp	x16, x23, [x29, #160]
	ldp	x15, x26, [x29, #144]
	csel	x25, x12, xzr, eq
	cmp	x9, #0
	ldr	w27, [x29, #104]
	ldr	x8, [x29, #96]
	csel	x11, x12, xzr, eq
	cmp	x21, #0
	stp	q0, q0, [sp, #96]
	csel	x19, x12, xzr, eq
	cmp	x13, #7
	stp	q0, q0, [sp, #128]
	b.ne	.Lrekusoyen_raw_boot_tree_plan_0_1_0.4
	sub	w12, w5, #1
	cmp	w12, #3
	b.hs	.Lrekusoyen_raw_boot_tree_plan_0_1_0.5
	cmp	w5, #2
	mov	w12, #1
	stp	x14, x22, [sp, #80]
	cinc	w12, w12, ne
	cmp	w5, #1
	add	x9, x9, x11
	csel	w12, wzr, w12, eq
	ands	w13, w6, #0x1
	mov	x22, x0
	csel	x14, xzr, x7, eq
	sturb	w12, [x29, #-56]
	ands	w12, w6, #0x2
	lsr	w12, w12, #1
	csel	x8, xzr, x8, eq
	add	x1, x1, x10
	str	x19, [sp, #40]
	mov	w24, w6
	mov	x19, x16
	stp	x12, x8, [x29, #-32]
	add	x8, sp, #184
	add	x0, x8, #8
	stur	wzr, [x29, #-55]
	stur	wzr, [x29, #-52]
	stp	x13, x14, [x29, #-48]
	stp	x3, x9, [sp, #48]
	stp	x25, x4, [sp, #64]
	mov	x25, x15
	bl	rekusoyen_0_1_0.guest.maps.from_numbers
	ldr	x9, [sp, #56]
	lsl	w8, w24, #29
	ubfx	w5, w24, #2, #1
	add	x0, sp, #96
	add	x1, sp, #184
	sub	x4, x29, #56
	stp	x9, x25, [sp, #24]
	ldp	x3, x9, [sp, #72]
	and	w6, w27, w8, asr #31
	add	x8, sp, #160
	stp	x26, x22, [sp, #176]
	stp	x23, x19, [sp, #160]
	stp	x8, x9, [sp, #8]
	ldr	x8, [sp, #64]
	ldr	x9, [sp, #48]
	add	x7, x28, x8
	ldr	x8, [sp, #88]
	add	x2, x9, x20
	str	x8, [sp]
	bl	rekusoyen_0_1_0.boot.tree.plan
	ldrb	w8, [sp, #96]
	cbz	w8, .Lrekusoyen_raw_boot_tree_plan_0_1_0.7
	ldrb	w0, [sp, #97]
	b	.Lrekusoyen_raw_boot_tree_plan_0_1_0.6
.Lrekusoyen_raw_boot_tree_plan_0_1_0.4:
	mov	w0, #33
	b	.Lrekusoyen_raw_boot_tree_plan_0_1_0.6
.Lrekusoyen_raw_boot_tree_plan_0_1_0.5:
	mov	w0, #32
.Lrekusoyen_raw_boot_tree_plan_0_1_0.6:
	add	sp, sp, #512
	ldp	x20, x19, [sp, #80]
	ldp	x22, x21, [sp, #64]
	ldp	x24, x23, [sp, #48]
	ldp	x26, x25, [sp, #32]
	ldp	x28, x27, [sp, #16]
	ldp	x29, x30, [sp], #96
	b	rekusoyen_0_1_0.answers.U32FromRefusal.from
.Lrekusoyen_raw_boot_tree_plan_0_1_0.7:
	ldr	x8, [sp, #40]
	ldrb	w9, [sp, #120]
	ldur	q1, [sp, #104]
	add	x8, x21, x8
	cbz	w9, .Lrekusoyen_raw_boot_tree_plan_0_1_0.10
	movi	v0.2d, #0000000000000000
	cmp	w9, #2
	b.ne	.Lrekusoyen_raw_boot_tree_plan_0_1_0.11
	mov	x10, xzr
	mov	x9, xzr
	b	.Lrekusoyen_raw_boot_tree_plan_0_1_0.12
.Lrekusoyen_raw_boot_tree_plan_0_1_0.10:
	ldr	q0, [sp, #128]
	ldr	x9, [sp, #144]
	mov	w10, #2
	b	.Lrekusoyen_raw_boot_tree_plan_0_1_0.12
.Lrekusoyen_raw_boot_tree_plan_0_1_0.11:
	mov	x9, xzr
	mov	w10, #1
.Lrekusoyen_raw_boot_tree_plan_0_1_0.12:
	add	x11, x8, #48
	sub	x12, x29, #16
	str	x10, [x8, #16]
	ldr	x10, [sp, #152]
	sub	x12, x11, x12
	str	q1, [x8]
	stur	q0, [x8, #24]
	cmp	x12, #7
	mov	w0, wzr
	str	x9, [x8, #40]
	str	x10, [x11]
	add	sp, sp, #512
	ldp	x20, x19, [sp, #80]
	ldp	x22, x21, [sp, #64]
	ldp	x24, x23, [sp, #48]
	ldp	x26, x25, [sp, #32]
	ldp	x28, x27, [sp, #16]
	ldp	x29, x30, [sp], #96
	ret
.Lrekusoyen_raw_boot_tree_plan_0_1_0.func_end:
	.size	rekusoyen_raw_boot_tree_plan_0_1_0, .Lrekusoyen_raw_boot_tree_plan_0_1_0.func_end-rekusoyen_raw_boot_tree_plan_0_1_0
	.section	.rodata.cst8,"aM",@progbits,8
	.p2align	3, 0x0
.Lrekusoyen_raw_boot_zero_page_0_1_0.CPI0:
	.byte	85
	.byte	170
	.byte	0
	.byte	0
	.byte	72
	.byte	100
	.byte	114
	.byte	83
	.section	.text.rekusoyen_raw_boot_zero_page_0_1_0,"ax",@progbits
	.globl	rekusoyen_raw_boot_zero_page_0_1_0
	.hidden	rekusoyen_raw_boot_zero_page_0_1_0
	.p2align	2
	.type	rekusoyen_raw_boot_zero_page_0_1_0,@function
rekusoyen_raw_boot_zero_page_0_1_0:
	stp	x29, x30, [sp, #-96]!
	stp	x28, x27, [sp, #16]
	mov	x29, sp
	stp	x26, x25, [sp, #32]
	stp	x24, x23, [sp, #48]
	stp	x22, x21, [sp, #64]
	stp	x20, x19, [sp, #80]
	sub	sp, sp, #1392
	str	xzr, [sp]
	cmp	x0, #0
	mov	w14, #4096
	mov	w22, w7
	ldr	x26, [x29, #120]
	csel	x7, x14, xzr, eq
	cmp	x2, #0
	ldr	x9, [x29, #136]
	ldr	x20, [x29, #152]
	csel	x8, x14, xzr, eq
	cmp	x4, #0
	ldr	x10, [x29, #168]
	csel	x12, x14, xzr, eq
	cmp	x26, #0
	csel	x23, x14, xzr, eq
	cmp	x9, #0
	ldp	x16, x15, [x29, #208]
	csel	x11, x14, xzr, eq
	cmp	x20, #0
	csel	x19, x14, xzr, eq
	cmp	x10, #0
	csel	x13, x14, xzr, eq
	cmp	x16, #0
	csel	x17, x14, xzr, eq
	cmp	x15, #7
	b.ne	.Lrekusoyen_raw_boot_zero_page_0_1_0.4
	sub	w14, w6, #1
	cmp	w14, #3
	b.hs	.Lrekusoyen_raw_boot_zero_page_0_1_0.5
	stp	x20, x19, [sp, #88]
	cmp	w6, #2
	add	x12, x4, x12
	stp	x7, x0, [sp, #136]
	mov	x20, x1
	add	x9, x9, x11
	stp	x17, x16, [sp, #104]
	add	x0, sp, #248
	add	x1, x2, x8
	ldr	w14, [x29, #200]
	mov	x2, x3
	add	x27, x10, x13
	str	x14, [sp, #208]
	ldr	w14, [x29, #192]
	str	x14, [sp, #240]
	ldr	x14, [x29, #176]
	ldr	w28, [x29, #184]
	str	x14, [sp, #168]
	ldr	x14, [x29, #160]
	str	x14, [sp, #232]
	ldr	x14, [x29, #144]
	str	x14, [sp, #192]
	mov	w14, #1
	ldr	x17, [x29, #128]
	ldp	x16, x15, [x29, #96]
	cinc	w14, w14, ne
	cmp	w6, #1
	stp	x5, x12, [sp, #216]
	str	x17, [sp, #184]
	csel	w25, wzr, w14, eq
	ands	w24, w22, #0x1
	ldr	w14, [x29, #112]
	csel	x21, xzr, x16, eq
	ands	w12, w22, #0x2
	str	x9, [sp, #176]
	lsr	w19, w12, #1
	str	w14, [sp, #152]
	str	x26, [sp, #160]
	add	x26, sp, #512
	str	x23, [sp, #200]
	csel	x23, xzr, x15, eq
	bl	rekusoyen_0_1_0.guest.maps.from_numbers
	add	x8, sp, #856
	add	x9, sp, #856
	movi	v0.2d, #0000000000000000
	stur	wzr, [x8, #17]
	ubfx	w8, w22, #3, #1
	ldr	x11, [sp, #208]
	sturh	wzr, [x9, #13]
	ldr	w9, [sp, #152]
	ldr	x10, [sp, #240]
	strb	w8, [sp, #868]
	lsl	w8, w22, #29
	add	x1, sp, #248
	str	x24, [sp, #880]
	mov	w2, #264
	ubfx	w22, w22, #2, #1
	and	w24, w9, w8, asr #31
	add	x8, sp, #584
	str	x21, [sp, #888]
	stp	q0, q0, [x26]
	add	x0, x8, #8
	stp	q0, q0, [x26, #32]
	ldp	x26, x21, [sp, #160]
	str	w25, [sp, #124]
	strb	w25, [sp, #872]
	str	wzr, [sp, #876]
	str	x19, [sp, #896]
	str	x23, [sp, #904]
	str	x28, [sp, #128]
	str	w28, [sp, #856]
	str	w10, [sp, #860]
	str	w11, [sp, #864]
	strb	wzr, [sp, #871]
	bl	memcpy
	ldp	x2, x19, [sp, #224]
	add	x8, sp, #856
	ldr	x3, [sp, #216]
	add	x0, sp, #512
	add	x1, sp, #584
	add	x4, sp, #872
	mov	w5, w22
	mov	w6, w24
	stp	x8, x19, [sp, #24]
	ldr	x8, [sp, #192]
	str	x20, [sp, #152]
	str	x8, [sp, #16]
	ldr	x8, [sp, #200]
	str	x20, [sp, #584]
	mov	x20, x27
	add	x7, x26, x8
	ldr	x8, [sp, #176]
	stp	x27, x21, [sp, #40]
	mov	x27, x2
	str	x8, [sp, #8]
	ldr	x8, [sp, #184]
	str	x8, [sp]
	bl	rekusoyen_0_1_0.boot.zero_page.plan
	ldrb	w8, [sp, #512]
	cbz	w8, .Lrekusoyen_raw_boot_zero_page_0_1_0.7
	ldrb	w0, [sp, #513]
	b	.Lrekusoyen_raw_boot_zero_page_0_1_0.6
.Lrekusoyen_raw_boot_zero_page_0_1_0.4:
	mov	w0, #33
	b	.Lrekusoyen_raw_boot_zero_page_0_1_0.6
.Lrekusoyen_raw_boot_zero_page_0_1_0.5:
	mov	w0, #32
.Lrekusoyen_raw_boot_zero_page_0_1_0.6:
	add	sp, sp, #1392
	ldp	x20, x19, [sp, #80]
	ldp	x22, x21, [sp, #64]
	ldp	x24, x23, [sp, #48]
	ldp	x26, x25, [sp, #32]
	ldp	x28, x27, [sp, #16]
	ldp	x29, x30, [sp], #96
	b	rekusoyen_0_1_0.answers.U32FromRefusal.from
.Lrekusoyen_raw_boot_zero_page_0_1_0.7:
	movi	v0.2d, #0000000000000000
	ldp	x24, x23, [sp, #136]
	add	x8, sp, #856
	add	x19, sp, #976
	ldr	x22, [sp, #520]
	add	x0, x19, #8
	add	x1, sp, #248
	mov	w2, #264
	str	xzr, [sp, #960]
	stur	q0, [x8, #56]
	stur	q0, [x8, #72]
	stur	q0, [x8, #88]
	add	x8, x23, x24
	stp	x20, x8, [sp, #72]
	bl	memcpy
	ldr	x20, [sp, #216]
	ldr	x21, [sp, #152]
	add	x0, sp, #912
	add	x1, sp, #976
	add	x4, sp, #872
	mov	x2, x27
	mov	x3, x20
	str	x21, [sp, #976]
	bl	rekusoyen_0_1_0.loads.formats.plan
	ldrb	w8, [sp, #912]
	cbnz	w8, .Lrekusoyen_raw_boot_zero_page_0_1_0.9
	ldr	x2, [sp, #224]
	add	x0, x23, x24
	add	x4, sp, #872
	mov	x1, x21
	mov	x3, x20
	bl	rekusoyen_0_1_0.loads.copying.copy_all
.Lrekusoyen_raw_boot_zero_page_0_1_0.9:
	add	x0, x19, #8
	add	x1, sp, #248
	mov	w2, #264
	str	x22, [sp, #64]
	bl	memcpy
	ldp	x23, x22, [sp, #192]
	add	x0, sp, #976
	ldp	x28, x24, [sp, #176]
	ldr	x19, [sp, #128]
	str	x21, [sp, #976]
	add	x2, x26, x22
	mov	x1, x19
	mov	x5, x23
	mov	x3, x24
	mov	x4, x28
	bl	rekusoyen_0_1_0.loader.plan_texts
	ldr	x25, [sp, #168]
	tst	w0, #0xff
	b.ne	.Lrekusoyen_raw_boot_zero_page_0_1_0.11
	cmp	x21, x19
	ldr	x9, [sp, #80]
	add	x2, x26, x22
	csel	x8, x21, x19, lo
	mov	x3, x24
	mov	x4, x28
	sub	x1, x21, x8
	add	x0, x9, x8
	mov	x5, x23
	bl	rekusoyen_0_1_0.cmdline.writing.write
.Lrekusoyen_raw_boot_zero_page_0_1_0.11:
	ldp	x10, x8, [sp, #232]
	ldr	x19, [sp, #80]
	cmp	x21, x8
	csel	x8, x21, x8, lo
	sub	x9, x21, x8
	mov	x21, x25
	cmp	x9, x10
	csel	x26, x9, x10, lo
	cbz	x26, .Lrekusoyen_raw_boot_zero_page_0_1_0.29
	ldr	x9, [sp, #136]
	ldp	x11, x10, [sp, #88]
	add	x22, x19, x8
	mov	x27, xzr
	add	x9, x9, x8
	ldr	x8, [sp, #144]
	add	x20, x10, x11
	add	x28, x11, x10
	add	x23, x8, x9
	sub	x24, x23, x20
	b	.Lrekusoyen_raw_boot_zero_page_0_1_0.15
.Lrekusoyen_raw_boot_zero_page_0_1_0.13:
	add	x0, x22, x27
	add	x1, x28, x27
	mov	x2, x25
	bl	memmove
.Lrekusoyen_raw_boot_zero_page_0_1_0.14:
	add	x27, x25, x27
	cmp	x27, x26
	b.hs	.Lrekusoyen_raw_boot_zero_page_0_1_0.29
.Lrekusoyen_raw_boot_zero_page_0_1_0.15:
	sub	x9, x26, x27
	mov	w8, #2048
	add	x10, x22, x27
	cmp	x9, #2048
	add	x11, x28, x27
	csel	x25, x9, x8, lo
	sub	x8, x10, x11
	cmp	x8, x25
	b.hs	.Lrekusoyen_raw_boot_zero_page_0_1_0.13
	cmp	x9, #8
	mov	x8, xzr
	b.lo	.Lrekusoyen_raw_boot_zero_page_0_1_0.27
	cmp	x24, #32
	b.lo	.Lrekusoyen_raw_boot_zero_page_0_1_0.27
	cmp	x9, #32
	b.hs	.Lrekusoyen_raw_boot_zero_page_0_1_0.20
	mov	x8, xzr
	b	.Lrekusoyen_raw_boot_zero_page_0_1_0.24
.Lrekusoyen_raw_boot_zero_page_0_1_0.20:
	add	x10, x23, #16
	add	x11, x20, #16
	and	x9, x25, #0x18
	and	x8, x25, #0xfe0
	add	x10, x10, x27
	add	x11, x11, x27
	and	x12, x25, #0xfe0
.Lrekusoyen_raw_boot_zero_page_0_1_0.21:
	ldp	q0, q1, [x11, #-16]
	subs	x12, x12, #32
	add	x11, x11, #32
	stp	q0, q1, [x10, #-16]
	add	x10, x10, #32
	b.ne	.Lrekusoyen_raw_boot_zero_page_0_1_0.21
	cmp	x25, x8
	b.eq	.Lrekusoyen_raw_boot_zero_page_0_1_0.14
	cbz	x9, .Lrekusoyen_raw_boot_zero_page_0_1_0.27
.Lrekusoyen_raw_boot_zero_page_0_1_0.24:
	mov	x9, x8
	and	x8, x25, #0xff8
	add	x11, x9, x27
	sub	x9, x9, x8
	add	x10, x20, x11
	add	x11, x23, x11
.Lrekusoyen_raw_boot_zero_page_0_1_0.25:
	ldr	d0, [x10], #8
	adds	x9, x9, #8
	str	d0, [x11], #8
	b.ne	.Lrekusoyen_raw_boot_zero_page_0_1_0.25
	cmp	x25, x8
	b.eq	.Lrekusoyen_raw_boot_zero_page_0_1_0.14
.Lrekusoyen_raw_boot_zero_page_0_1_0.27:
	add	x10, x8, x27
	sub	x8, x8, x25
	add	x9, x20, x10
	add	x10, x23, x10
.Lrekusoyen_raw_boot_zero_page_0_1_0.28:
	ldrb	w11, [x9], #1
	adds	x8, x8, #1
	strb	w11, [x10], #1
	b.lo	.Lrekusoyen_raw_boot_zero_page_0_1_0.28
	b	.Lrekusoyen_raw_boot_zero_page_0_1_0.14
.Lrekusoyen_raw_boot_zero_page_0_1_0.29:
	ldr	w8, [sp, #124]
	ldr	x26, [sp, #208]
	ldr	x10, [sp, #224]
	cmp	w8, #2
	add	x25, x19, x26
	b.eq	.Lrekusoyen_raw_boot_zero_page_0_1_0.40
	ldp	x24, x23, [sp, #64]
	cmp	w8, #1
	b.ne	.Lrekusoyen_raw_boot_zero_page_0_1_0.47
	movi	v0.2d, #0000000000000000
	ldr	x8, [sp, #216]
	ldr	x22, [sp, #232]
	sub	x19, x29, #144
	cmp	x8, #498
	stur	q0, [x19, #107]
	stp	q0, q0, [x19, #16]
	stp	q0, q0, [x19, #48]
	stp	q0, q0, [x19, #80]
	str	q0, [x19]
	b.lo	.Lrekusoyen_raw_boot_zero_page_0_1_0.33
	sub	x8, x8, #497
	mov	w9, #123
	sub	x0, x29, #144
	cmp	x8, #123
	add	x1, x10, #497
	csel	x2, x8, x9, lo
	bl	memcpy
.Lrekusoyen_raw_boot_zero_page_0_1_0.33:
	mov	w0, #4096
	mov	x1, x23
	mov	x2, x21
	stur	w24, [x19, #35]
	bl	rekusoyen_0_1_0.boot_page.building.check
	tst	w0, #0xff
	b.ne	.Lrekusoyen_raw_boot_zero_page_0_1_0.63
	mov	x0, x25
	mov	w1, wzr
	mov	w2, #4096
	add	x20, x25, #497
	bl	memset
	ldp	q1, q0, [x19, #32]
	mov	x8, #-6148914691236517206
	movk	x8, #43691
	mov	w9, #255
	add	x17, sp, #512
	umulh	x8, x21, x8
	ldp	x15, x14, [sp, #104]
	stp	q1, q0, [x20, #32]
	ldp	q0, q2, [x19, #64]
	ldr	q1, [x19, #96]
	stp	q0, q2, [x20, #64]
	ldur	q0, [x19, #107]
	str	q1, [x20, #96]
	lsr	x8, x8, #1
	stur	q0, [x20, #107]
	ldp	q0, q1, [x19]
	str	w22, [x25, #540]
	strb	w8, [x25, #488]
	stp	q0, q1, [x20]
	strb	w9, [x25, #528]
	ldr	x9, [sp, #128]
	str	w9, [x25, #552]
	ldr	x9, [sp, #240]
	str	w9, [x25, #536]
	cbz	x21, .Lrekusoyen_raw_boot_zero_page_0_1_0.57
	ldp	x9, x10, [sp, #136]
	mov	x8, xzr
	mov	w11, #720
	add	x9, x9, x26
	add	x9, x10, x9
	b	.Lrekusoyen_raw_boot_zero_page_0_1_0.37
.Lrekusoyen_raw_boot_zero_page_0_1_0.36:
	add	x8, x8, #1
	mov	x11, x10
	cmp	x8, x21
	b.eq	.Lrekusoyen_raw_boot_zero_page_0_1_0.57
.Lrekusoyen_raw_boot_zero_page_0_1_0.37:
	mov	x10, #-6148914691236517206
	adrp	x12, .Lrekusoyen_0_1_0.static.18
	add	x12, x12, :lo12:.Lrekusoyen_0_1_0.static.18
	movk	x10, #43691
	umulh	x10, x8, x10
	lsr	x10, x10, #1
	add	x10, x10, x10, lsl #1
	sub	x10, x8, x10
	ldr	x10, [x12, x10, lsl #3]
	mov	w12, #8
	cmp	x10, #8
	csel	x10, x10, x12, lo
	mov	w12, #4096
	add	x10, x10, x11
	cmp	x10, #1, lsl #12
	csel	x10, x10, x12, lo
	subs	x12, x10, x11
	b.ls	.Lrekusoyen_raw_boot_zero_page_0_1_0.36
	ldr	x13, [x23, x8, lsl #3]
	add	x11, x9, x11
.Lrekusoyen_raw_boot_zero_page_0_1_0.39:
	strb	w13, [x11], #1
	lsr	x13, x13, #8
	subs	x12, x12, #1
	b.ne	.Lrekusoyen_raw_boot_zero_page_0_1_0.39
	b	.Lrekusoyen_raw_boot_zero_page_0_1_0.36
.Lrekusoyen_raw_boot_zero_page_0_1_0.40:
	ldr	x19, [sp, #72]
	mov	w0, #4096
	mov	x2, x21
	mov	x1, x19
	bl	rekusoyen_0_1_0.boot_page.building.check
	ldr	x24, [sp, #64]
	tst	w0, #0xff
	b.ne	.Lrekusoyen_raw_boot_zero_page_0_1_0.63
	mov	x0, x25
	mov	w1, wzr
	mov	w2, #4096
	bl	memset
	mov	x8, #-6148914691236517206
	mov	w9, #255
	add	x17, sp, #512
	movk	x8, #43691
	strb	w9, [x25, #528]
	ldr	x9, [sp, #128]
	umulh	x8, x21, x8
	ldp	x15, x14, [sp, #104]
	str	w9, [x25, #552]
	ldr	x9, [sp, #240]
	str	w9, [x25, #536]
	ldr	x9, [sp, #232]
	lsr	x8, x8, #1
	str	w9, [x25, #540]
	strb	w8, [x25, #488]
	cbz	x21, .Lrekusoyen_raw_boot_zero_page_0_1_0.57
	ldp	x9, x10, [sp, #136]
	mov	x8, xzr
	mov	w11, #720
	add	x9, x9, x26
	add	x9, x10, x9
	b	.Lrekusoyen_raw_boot_zero_page_0_1_0.44
.Lrekusoyen_raw_boot_zero_page_0_1_0.43:
	add	x8, x8, #1
	mov	x11, x10
	cmp	x8, x21
	b.eq	.Lrekusoyen_raw_boot_zero_page_0_1_0.57
.Lrekusoyen_raw_boot_zero_page_0_1_0.44:
	mov	x10, #-6148914691236517206
	adrp	x12, .Lrekusoyen_0_1_0.static.18
	add	x12, x12, :lo12:.Lrekusoyen_0_1_0.static.18
	movk	x10, #43691
	umulh	x10, x8, x10
	lsr	x10, x10, #1
	add	x10, x10, x10, lsl #1
	sub	x10, x8, x10
	ldr	x10, [x12, x10, lsl #3]
	mov	w12, #8
	cmp	x10, #8
	csel	x10, x10, x12, lo
	mov	w12, #4096
	add	x10, x10, x11
	cmp	x10, #1, lsl #12
	csel	x10, x10, x12, lo
	subs	x12, x10, x11
	b.ls	.Lrekusoyen_raw_boot_zero_page_0_1_0.43
	ldr	x13, [x19, x8, lsl #3]
	add	x11, x9, x11
.Lrekusoyen_raw_boot_zero_page_0_1_0.46:
	strb	w13, [x11], #1
	lsr	x13, x13, #8
	subs	x12, x12, #1
	b.ne	.Lrekusoyen_raw_boot_zero_page_0_1_0.46
	b	.Lrekusoyen_raw_boot_zero_page_0_1_0.43
.Lrekusoyen_raw_boot_zero_page_0_1_0.47:
	mov	w0, #4096
	mov	x1, x23
	mov	x2, x21
	mov	x22, x21
	bl	rekusoyen_0_1_0.boot_page.building.check
	ldr	x27, [sp, #232]
	tst	w0, #0xff
	b.ne	.Lrekusoyen_raw_boot_zero_page_0_1_0.63
	add	x19, x25, #497
	adrp	x20, .Lrekusoyen_0_1_0.static.25
	add	x20, x20, :lo12:.Lrekusoyen_0_1_0.static.25
	mov	x0, x25
	mov	w1, wzr
	mov	w2, #4096
	sub	x21, x19, x20
	bl	memset
	cmp	x21, #66
	b.hi	.Lrekusoyen_raw_boot_zero_page_0_1_0.50
	adrp	x8, .Lrekusoyen_raw_boot_zero_page_0_1_0.CPI0
	movi	v0.2d, #0000000000000000
	add	x9, x25, #518
	ldr	d1, [x8, :lo12:.Lrekusoyen_raw_boot_zero_page_0_1_0.CPI0]
	add	x8, x25, #510
	stur	xzr, [x19, #5]
	str	xzr, [x19]
	str	d1, [x8]
	mov	w8, #1
	stp	q0, q0, [x9]
	stur	q0, [x9, #29]
	strb	w8, [x25, #563]
	b	.Lrekusoyen_raw_boot_zero_page_0_1_0.51
.Lrekusoyen_raw_boot_zero_page_0_1_0.50:
	ldp	q0, q1, [x20]
	mov	w8, #16777216
	ldr	q2, [x20, #32]
	stur	w8, [x19, #63]
	stp	q0, q1, [x19]
	ldr	q0, [x20, #48]
	stp	q2, q0, [x19, #32]
.Lrekusoyen_raw_boot_zero_page_0_1_0.51:
	mov	x8, #-6148914691236517206
	ldp	x15, x14, [sp, #104]
	movk	x8, #43691
	mov	w9, #255
	ldr	x10, [sp, #240]
	umulh	x8, x22, x8
	strb	w9, [x25, #528]
	ldr	x9, [sp, #128]
	mov	x16, x22
	add	x17, sp, #512
	str	w10, [x25, #536]
	str	w9, [x25, #552]
	str	w27, [x25, #540]
	lsr	x8, x8, #1
	strb	w8, [x25, #488]
	cbz	x22, .Lrekusoyen_raw_boot_zero_page_0_1_0.57
	ldp	x9, x10, [sp, #136]
	mov	x8, xzr
	mov	w11, #720
	add	x9, x9, x26
	add	x9, x10, x9
	b	.Lrekusoyen_raw_boot_zero_page_0_1_0.54
.Lrekusoyen_raw_boot_zero_page_0_1_0.53:
	add	x8, x8, #1
	mov	x11, x10
	cmp	x8, x16
	b.eq	.Lrekusoyen_raw_boot_zero_page_0_1_0.57
.Lrekusoyen_raw_boot_zero_page_0_1_0.54:
	mov	x10, #-6148914691236517206
	adrp	x12, .Lrekusoyen_0_1_0.static.18
	add	x12, x12, :lo12:.Lrekusoyen_0_1_0.static.18
	movk	x10, #43691
	umulh	x10, x8, x10
	lsr	x10, x10, #1
	add	x10, x10, x10, lsl #1
	sub	x10, x8, x10
	ldr	x10, [x12, x10, lsl #3]
	mov	w12, #8
	cmp	x10, #8
	csel	x10, x10, x12, lo
	mov	w12, #4096
	add	x10, x10, x11
	cmp	x10, #1, lsl #12
	csel	x10, x10, x12, lo
	subs	x12, x10, x11
	b.ls	.Lrekusoyen_raw_boot_zero_page_0_1_0.53
	ldr	x13, [x23, x8, lsl #3]
	add	x11, x9, x11
.Lrekusoyen_raw_boot_zero_page_0_1_0.56:
	strb	w13, [x11], #1
	lsr	x13, x13, #8
	subs	x12, x12, #1
	b.ne	.Lrekusoyen_raw_boot_zero_page_0_1_0.56
	b	.Lrekusoyen_raw_boot_zero_page_0_1_0.53
.Lrekusoyen_raw_boot_zero_page_0_1_0.57:
	ldrb	w10, [sp, #536]
	ldr	x9, [sp, #528]
	add	x8, x14, x15
	cbz	w10, .Lrekusoyen_raw_boot_zero_page_0_1_0.60
	movi	v0.2d, #0000000000000000
	cmp	w10, #2
	b.ne	.Lrekusoyen_raw_boot_zero_page_0_1_0.61
	mov	x11, xzr
	mov	x10, xzr
	b	.Lrekusoyen_raw_boot_zero_page_0_1_0.62
.Lrekusoyen_raw_boot_zero_page_0_1_0.60:
	ldr	q0, [x17, #32]
	ldr	x10, [sp, #560]
	mov	w11, #2
	b	.Lrekusoyen_raw_boot_zero_page_0_1_0.62
.Lrekusoyen_raw_boot_zero_page_0_1_0.61:
	mov	x10, xzr
	mov	w11, #1
.Lrekusoyen_raw_boot_zero_page_0_1_0.62:
	stp	x24, x9, [x8]
	add	x9, x8, #48
	add	x12, sp, #976
	str	x11, [x8, #16]
	ldr	x11, [sp, #568]
	sub	x12, x9, x12
	stur	q0, [x8, #24]
	cmp	x12, #7
	mov	w0, wzr
	str	x10, [x8, #40]
	str	x11, [x9]
	add	sp, sp, #1392
	ldp	x20, x19, [sp, #80]
	ldp	x22, x21, [sp, #64]
	ldp	x24, x23, [sp, #48]
	ldp	x26, x25, [sp, #32]
	ldp	x28, x27, [sp, #16]
	ldp	x29, x30, [sp], #96
	ret
.Lrekusoyen_raw_boot_zero_page_0_1_0.63:
	brk	#0x1
.Lrekusoyen_raw_boot_zero_page_0_1_0.func_end:
	.size	rekusoyen_raw_boot_zero_page_0_1_0, .Lrekusoyen_raw_boot_zero_page_0_1_0.func_end-rekusoyen_raw_boot_zero_page_0_1_0
	.section	.text.rekusoyen_raw_boot_zero_page_plan_0_1_0,"ax",@progbits
	.globl	rekusoyen_raw_boot_zero_page_plan_0_1_0
	.hidden	rekusoyen_raw_boot_zero_page_plan_0_1_0
	.p2align	2
	.type	rekusoyen_raw_boot_zero_page_plan_0_1_0,@function
rekusoyen_raw_boot_zero_page_plan_0_1_0:
	stp	x29, x30, [sp, #-96]!
	stp	x28, x27, [sp, #16]
	mov	x29, sp
	stp	x26, x25, [sp, #32]
	stp	x24, x23, [sp, #48]
	stp	x22, x21, [sp, #64]
	stp	x20, x19, [sp, #80]
	sub	sp, sp, #544
	ldp	x21, x16, [x29, #112]
	cmp	x1, #0
	mov	w14, #4096
	ldp	x9, x17, [x29, #152]
	ldr	x11, [x29, #128]
	csel	x10, x14, xzr, eq
	cmp	x3, #0
	csel	x22, x14, xzr, eq
	cmp	x21, #0
	movi	v0.2d, #0000000000000000
	ldp	x23, x15, [x29, #192]
	csel	x30, x14, xzr, eq
	cmp	x11, #0
	ldp	x28, x24, [x29, #136]
	csel	x12, x14, xzr, eq
	cmp	x9, #0
	ldr	w25, [x29, #184]
	ldr	w26, [x29, #176]
	ldr	w27, [x29, #168]
	ldr	w19, [x29, #104]
	ldr	x8, [x29, #96]
	csel	x13, x14, xzr, eq
	cmp	x23, #0
	csel	x20, x14, xzr, eq
	cmp	x15, #7
	stp	q0, q0, [sp, #128]
	stp	q0, q0, [sp, #160]
	b.ne	.Lrekusoyen_raw_boot_zero_page_plan_0_1_0.4
	sub	w14, w5, #1
	cmp	w14, #3
	b.hs	.Lrekusoyen_raw_boot_zero_page_plan_0_1_0.5
	cmp	w5, #2
	mov	w14, #1
	str	x16, [sp, #120]
	cinc	w14, w14, ne
	cmp	w5, #1
	add	x9, x9, x13
	csel	w14, wzr, w14, eq
	ands	w15, w6, #0x1
	add	x11, x11, x12
	csel	x16, xzr, x7, eq
	sturb	w14, [x29, #-56]
	ands	w14, w6, #0x2
	lsr	w14, w14, #1
	csel	x8, xzr, x8, eq
	stp	x9, x24, [sp, #64]
	mov	w24, w25
	mov	x25, x0
	add	x1, x1, x10
	stp	x14, x8, [x29, #-32]
	add	x8, sp, #216
	add	x0, x8, #8
	str	x20, [sp, #56]
	mov	w20, w19
	stur	wzr, [x29, #-55]
	mov	w19, w26
	mov	w26, w6
	stur	wzr, [x29, #-52]
	stp	x15, x16, [x29, #-48]
	stp	x4, x11, [sp, #104]
	stp	x28, x3, [sp, #80]
	mov	x28, x17
	str	x30, [sp, #96]
	bl	rekusoyen_0_1_0.guest.maps.from_numbers
	ubfx	w8, w26, #3, #1
	lsl	w9, w26, #29
	ubfx	w5, w26, #2, #1
	add	x0, sp, #128
	add	x1, sp, #216
	sub	x4, x29, #56
	strb	w8, [sp, #212]
	ldr	x8, [sp, #64]
	and	w6, w20, w9, asr #31
	str	x25, [sp, #216]
	stp	x8, x28, [sp, #40]
	ldr	x8, [sp, #72]
	stp	w27, w19, [sp, #200]
	str	x8, [sp, #32]
	add	x8, sp, #200
	str	x8, [sp, #24]
	ldr	x8, [sp, #80]
	str	w24, [sp, #208]
	str	x8, [sp, #16]
	ldr	x8, [sp, #88]
	sturh	wzr, [sp, #213]
	add	x2, x8, x22
	ldp	x3, x8, [sp, #104]
	strb	wzr, [sp, #215]
	str	x8, [sp, #8]
	ldr	x8, [sp, #96]
	add	x7, x21, x8
	ldr	x8, [sp, #120]
	str	x8, [sp]
	bl	rekusoyen_0_1_0.boot.zero_page.plan
	ldrb	w8, [sp, #128]
	cbz	w8, .Lrekusoyen_raw_boot_zero_page_plan_0_1_0.7
	ldrb	w0, [sp, #129]
	b	.Lrekusoyen_raw_boot_zero_page_plan_0_1_0.6
.Lrekusoyen_raw_boot_zero_page_plan_0_1_0.4:
	mov	w0, #33
	b	.Lrekusoyen_raw_boot_zero_page_plan_0_1_0.6
.Lrekusoyen_raw_boot_zero_page_plan_0_1_0.5:
	mov	w0, #32
.Lrekusoyen_raw_boot_zero_page_plan_0_1_0.6:
	add	sp, sp, #544
	ldp	x20, x19, [sp, #80]
	ldp	x22, x21, [sp, #64]
	ldp	x24, x23, [sp, #48]
	ldp	x26, x25, [sp, #32]
	ldp	x28, x27, [sp, #16]
	ldp	x29, x30, [sp], #96
	b	rekusoyen_0_1_0.answers.U32FromRefusal.from
.Lrekusoyen_raw_boot_zero_page_plan_0_1_0.7:
	ldr	x8, [sp, #56]
	ldrb	w9, [sp, #152]
	ldur	q1, [sp, #136]
	add	x8, x23, x8
	cbz	w9, .Lrekusoyen_raw_boot_zero_page_plan_0_1_0.10
	movi	v0.2d, #0000000000000000
	cmp	w9, #2
	b.ne	.Lrekusoyen_raw_boot_zero_page_plan_0_1_0.11
	mov	x10, xzr
	mov	x9, xzr
	b	.Lrekusoyen_raw_boot_zero_page_plan_0_1_0.12
.Lrekusoyen_raw_boot_zero_page_plan_0_1_0.10:
	ldr	q0, [sp, #160]
	ldr	x9, [sp, #176]
	mov	w10, #2
	b	.Lrekusoyen_raw_boot_zero_page_plan_0_1_0.12
.Lrekusoyen_raw_boot_zero_page_plan_0_1_0.11:
	mov	x9, xzr
	mov	w10, #1
.Lrekusoyen_raw_boot_zero_page_plan_0_1_0.12:
	add	x11, x8, #48
	sub	x12, x29, #16
	str	x10, [x8, #16]
	ldr	x10, [sp, #184]
	sub	x12, x11, x12
	str	q1, [x8]
	stur	q0, [x8, #24]
	cmp	x12, #7
	mov	w0, wzr
	str	x9, [x8, #40]
	str	x10, [x11]
	add	sp, sp, #544
	ldp	x20, x19, [sp, #80]
	ldp	x22, x21, [sp, #64]
	ldp	x24, x23, [sp, #48]
	ldp	x26, x25, [sp, #32]
	ldp	x28, x27, [sp, #16]
	ldp	x29, x30, [sp], #96
	ret
.Lrekusoyen_raw_boot_zero_page_plan_0_1_0.func_end:
	.size	rekusoyen_raw_boot_zero_page_plan_0_1_0, .Lrekusoyen_raw_boot_zero_page_plan_0_1_0.func_end-rekusoyen_raw_boot_zero_page_plan_0_1_0
	.section	.text.rekusoyen_raw_elf_note_0_1_0,"ax",@progbits
	.globl	rekusoyen_raw_elf_note_0_1_0
	.hidden	rekusoyen_raw_elf_note_0_1_0
	.p2align	2
	.type	rekusoyen_raw_elf_note_0_1_0,@function
rekusoyen_raw_elf_note_0_1_0:
	sub	sp, sp, #80
	mov	w10, #4096
	cmp	x0, #0
	stp	x20, x19, [sp, #64]
	csel	x9, x10, xzr, eq
	cmp	x4, #0
	stp	x29, x30, [sp, #48]
	csel	x19, x10, xzr, eq
	cmp	x5, #5
	add	x29, sp, #48
	b.ne	.Lrekusoyen_raw_elf_note_0_1_0.4
	movi	v0.2d, #0000000000000000
	mov	x10, #1
	mov	x8, x3
	movk	x10, #256, lsl #32
	mov	x3, x2
	mov	x2, x1
	cmp	x1, x10
	stp	q0, q0, [sp, #16]
	str	q0, [sp]
	b.hs	.Lrekusoyen_raw_elf_note_0_1_0.5
	mov	x10, x0
	mov	x20, x4
	mov	x0, sp
	add	x1, x10, x9
	mov	x4, x8
	bl	rekusoyen_0_1_0.elf.notes.walk_notes
	ldrb	w8, [sp]
	cbz	w8, .Lrekusoyen_raw_elf_note_0_1_0.6
	ldrb	w0, [sp, #1]
	ldp	x20, x19, [sp, #64]
	ldp	x29, x30, [sp, #48]
	add	sp, sp, #80
	b	rekusoyen_0_1_0.answers.U32FromRefusal.from
.Lrekusoyen_raw_elf_note_0_1_0.4:
	mov	w0, #62
	ldp	x20, x19, [sp, #64]
	ldp	x29, x30, [sp, #48]
	add	sp, sp, #80
	ret
.Lrekusoyen_raw_elf_note_0_1_0.5:
	mov	w0, #31
	ldp	x20, x19, [sp, #64]
	ldp	x29, x30, [sp, #48]
	add	sp, sp, #80
	b	rekusoyen_0_1_0.answers.U32FromRefusal.from
.Lrekusoyen_raw_elf_note_0_1_0.6:
	ldrb	w10, [sp, #8]
	ldr	x9, [sp, #40]
	add	x8, x20, x19
	cbz	w10, .Lrekusoyen_raw_elf_note_0_1_0.9
	movi	v0.2d, #0000000000000000
	cmp	w10, #2
	b.ne	.Lrekusoyen_raw_elf_note_0_1_0.10
	mov	x11, xzr
	mov	x10, xzr
	b	.Lrekusoyen_raw_elf_note_0_1_0.11
.Lrekusoyen_raw_elf_note_0_1_0.9:
	ldr	x10, [sp, #16]
	ldur	q0, [sp, #24]
	mov	w11, #2
	b	.Lrekusoyen_raw_elf_note_0_1_0.11
.Lrekusoyen_raw_elf_note_0_1_0.10:
	mov	x10, xzr
	mov	w11, #1
.Lrekusoyen_raw_elf_note_0_1_0.11:
	mov	w0, wzr
	stp	x11, x10, [x8]
	str	x9, [x8, #16]
	stur	q0, [x8, #24]
	ldp	x20, x19, [sp, #64]
	ldp	x29, x30, [sp, #48]
	add	sp, sp, #80
	ret
.Lrekusoyen_raw_elf_note_0_1_0.func_end:
	.size	rekusoyen_raw_elf_note_0_1_0, .Lrekusoyen_raw_elf_note_0_1_0.func_end-rekusoyen_raw_elf_note_0_1_0
	.section	.text.rekusoyen_raw_line_as_cstring_0_1_0,"ax",@progbits
	.globl	rekusoyen_raw_line_as_cstring_0_1_0
	.hidden	rekusoyen_raw_line_as_cstring_0_1_0
	.p2align	2
	.type	rekusoyen_raw_line_as_cstring_0_1_0,@function
rekusoyen_raw_line_as_cstring_0_1_0:
	stp	x29, x30, [sp, #-96]!
	mov	w9, #4096
	cmp	x0, #0
	stp	x22, x21, [sp, #64]
	csel	x8, x9, xzr, eq
	cmp	x2, #0
	stp	x28, x27, [sp, #16]
	csel	x22, x9, xzr, eq
	cmp	x4, #0
	stp	x26, x25, [sp, #32]
	csel	x21, x9, xzr, eq
	cmp	x5, #1
	stp	x24, x23, [sp, #48]
	stp	x20, x19, [sp, #80]
	mov	x29, sp
	b.ne	.Lrekusoyen_raw_line_as_cstring_0_1_0.7
	mov	w9, #32792
	cmp	x1, x9
	b.ne	.Lrekusoyen_raw_line_as_cstring_0_1_0.18
	add	x23, x0, x8
	ldr	x9, [x23, #16]
	sub	x8, x9, #1
	lsr	x8, x8, #14
	cbnz	x8, .Lrekusoyen_raw_line_as_cstring_0_1_0.9
	ldp	x19, x8, [x23]
	cmp	x8, #0
	ccmp	x9, x19, #0, ne
	cset	w24, ls
	b.hi	.Lrekusoyen_raw_line_as_cstring_0_1_0.10
	mov	w0, #20
	cbnz	x8, .Lrekusoyen_raw_line_as_cstring_0_1_0.19
	cmp	x9, x19
	b.ls	.Lrekusoyen_raw_line_as_cstring_0_1_0.19
	mov	x26, x2
	mov	x28, x3
	mov	x25, x4
	mov	x20, xzr
	add	x0, x23, #24
	mov	x1, x19
	mov	w2, wzr
	bl	rekusoyen_0_1_0.slugs.bytes.has
	tbz	w0, #0, .Lrekusoyen_raw_line_as_cstring_0_1_0.14
	b	.Lrekusoyen_raw_line_as_cstring_0_1_0.15
.Lrekusoyen_raw_line_as_cstring_0_1_0.7:
	mov	w0, #62
.Lrekusoyen_raw_line_as_cstring_0_1_0.8:
	ldp	x20, x19, [sp, #80]
	ldp	x22, x21, [sp, #64]
	ldp	x24, x23, [sp, #48]
	ldp	x26, x25, [sp, #32]
	ldp	x28, x27, [sp, #16]
	ldp	x29, x30, [sp], #96
	ret
.Lrekusoyen_raw_line_as_cstring_0_1_0.9:
	mov	w0, #20
	b	.Lrekusoyen_raw_line_as_cstring_0_1_0.19
.Lrekusoyen_raw_line_as_cstring_0_1_0.10:
	mvn	x10, x19
	mov	w0, #20
	add	x9, x9, x10
	subs	x9, x9, #4
	b.lo	.Lrekusoyen_raw_line_as_cstring_0_1_0.19
	cmp	x8, x9
	b.hi	.Lrekusoyen_raw_line_as_cstring_0_1_0.19
	cmp	x8, #4, lsl #12
	mov	w9, #16384
	csel	x20, x8, x9, lo
	cbz	x19, .Lrekusoyen_raw_line_as_cstring_0_1_0.20
	mov	x26, x2
	mov	x28, x3
	mov	x25, x4
	add	x0, x23, #24
	mov	x1, x19
	mov	w2, wzr
	bl	rekusoyen_0_1_0.slugs.bytes.has
	tbnz	w0, #0, .Lrekusoyen_raw_line_as_cstring_0_1_0.15
.Lrekusoyen_raw_line_as_cstring_0_1_0.14:
	mov	w27, #16408
	mov	x1, x20
	mov	w2, wzr
	add	x0, x23, x27
	bl	rekusoyen_0_1_0.slugs.bytes.has
	tbz	w0, #0, .Lrekusoyen_raw_line_as_cstring_0_1_0.16
.Lrekusoyen_raw_line_as_cstring_0_1_0.15:
	mov	w0, #30
	b	.Lrekusoyen_raw_line_as_cstring_0_1_0.19
.Lrekusoyen_raw_line_as_cstring_0_1_0.16:
	cmp	x28, x19
	mov	x1, x28
	csinc	w8, w24, wzr, hi
	tbz	w8, #0, .Lrekusoyen_raw_line_as_cstring_0_1_0.21
	eor	w8, w24, #0x1
	csinc	w8, w8, wzr, hi
	tbz	w8, #0, .Lrekusoyen_raw_line_as_cstring_0_1_0.23
.Lrekusoyen_raw_line_as_cstring_0_1_0.18:
	mov	w0, #33
.Lrekusoyen_raw_line_as_cstring_0_1_0.19:
	ldp	x20, x19, [sp, #80]
	ldp	x22, x21, [sp, #64]
	ldp	x24, x23, [sp, #48]
	ldp	x26, x25, [sp, #32]
	ldp	x28, x27, [sp, #16]
	ldp	x29, x30, [sp], #96
	b	rekusoyen_0_1_0.answers.U32FromRefusal.from
.Lrekusoyen_raw_line_as_cstring_0_1_0.20:
	mov	w0, #29
	b	.Lrekusoyen_raw_line_as_cstring_0_1_0.19
.Lrekusoyen_raw_line_as_cstring_0_1_0.21:
	mvn	x8, x19
	mov	w0, #33
	add	x8, x1, x8
	subs	x8, x8, #4
	b.lo	.Lrekusoyen_raw_line_as_cstring_0_1_0.19
	cmp	x20, x8
	b.hi	.Lrekusoyen_raw_line_as_cstring_0_1_0.19
.Lrekusoyen_raw_line_as_cstring_0_1_0.23:
	add	x0, x26, x22
	add	x2, x23, #24
	add	x4, x23, x27
	mov	x3, x19
	mov	x5, x20
	bl	rekusoyen_0_1_0.cmdline.writing.write
	mov	x8, x0
	mov	w0, wzr
	str	x8, [x25, x21]
	b	.Lrekusoyen_raw_line_as_cstring_0_1_0.8
.Lrekusoyen_raw_line_as_cstring_0_1_0.func_end:
	.size	rekusoyen_raw_line_as_cstring_0_1_0, .Lrekusoyen_raw_line_as_cstring_0_1_0.func_end-rekusoyen_raw_line_as_cstring_0_1_0
	.section	.text.rekusoyen_raw_line_equal_0_1_0,"ax",@progbits
	.globl	rekusoyen_raw_line_equal_0_1_0
	.hidden	rekusoyen_raw_line_equal_0_1_0
	.p2align	2
	.type	rekusoyen_raw_line_equal_0_1_0,@function
rekusoyen_raw_line_equal_0_1_0:
	sub	sp, sp, #160
	mov	w8, #4096
	cmp	x0, #0
	stp	x28, x27, [sp, #80]
	csel	x27, x8, xzr, eq
	cmp	x2, #0
	stp	x24, x23, [sp, #112]
	csel	x28, x8, xzr, eq
	cmp	x4, #0
	stp	x29, x30, [sp, #64]
	csel	x23, x8, xzr, eq
	cmp	x5, #1
	stp	x26, x25, [sp, #96]
	stp	x22, x21, [sp, #128]
	add	x29, sp, #64
	stp	x20, x19, [sp, #144]
	b.ne	.Lrekusoyen_raw_line_equal_0_1_0.13
	mov	w8, #32792
	cmp	x1, x8
	b.ne	.Lrekusoyen_raw_line_equal_0_1_0.19
	add	x24, x0, x27
	ldr	x9, [x24, #16]
	sub	x8, x9, #1
	lsr	x8, x8, #14
	cbnz	x8, .Lrekusoyen_raw_line_equal_0_1_0.15
	ldp	x19, x25, [x24]
	cbz	x25, .Lrekusoyen_raw_line_equal_0_1_0.16
	cmp	x9, x19
	b.ls	.Lrekusoyen_raw_line_equal_0_1_0.16
	mvn	x8, x19
	add	x8, x9, x8
	subs	x9, x8, #4
	mov	w8, #20
	b.lo	.Lrekusoyen_raw_line_equal_0_1_0.20
	cmp	x25, x9
	b.hi	.Lrekusoyen_raw_line_equal_0_1_0.20
	mov	w8, #32792
	cmp	x3, x8
	b.ne	.Lrekusoyen_raw_line_equal_0_1_0.19
.Lrekusoyen_raw_line_equal_0_1_0.8:
	add	x26, x2, x28
	ldr	x9, [x26, #16]
	sub	x8, x9, #1
	lsr	x8, x8, #14
	cbnz	x8, .Lrekusoyen_raw_line_equal_0_1_0.15
	ldp	x20, x21, [x26]
	cbz	x21, .Lrekusoyen_raw_line_equal_0_1_0.21
	cmp	x9, x20
	b.ls	.Lrekusoyen_raw_line_equal_0_1_0.21
	mvn	x8, x20
	add	x8, x9, x8
	subs	x9, x8, #4
	mov	w8, #20
	b.lo	.Lrekusoyen_raw_line_equal_0_1_0.20
	cmp	x21, x9
	b.ls	.Lrekusoyen_raw_line_equal_0_1_0.24
	b	.Lrekusoyen_raw_line_equal_0_1_0.20
.Lrekusoyen_raw_line_equal_0_1_0.13:
	mov	w0, #62
.Lrekusoyen_raw_line_equal_0_1_0.14:
	ldp	x20, x19, [sp, #144]
	ldp	x22, x21, [sp, #128]
	ldp	x24, x23, [sp, #112]
	ldp	x26, x25, [sp, #96]
	ldp	x28, x27, [sp, #80]
	ldp	x29, x30, [sp, #64]
	add	sp, sp, #160
	ret
.Lrekusoyen_raw_line_equal_0_1_0.15:
	mov	w8, #20
	b	.Lrekusoyen_raw_line_equal_0_1_0.20
.Lrekusoyen_raw_line_equal_0_1_0.16:
	mov	w8, #20
	cbnz	x25, .Lrekusoyen_raw_line_equal_0_1_0.20
	cmp	x9, x19
	b.ls	.Lrekusoyen_raw_line_equal_0_1_0.20
	mov	x25, xzr
	mov	w8, #32792
	cmp	x3, x8
	b.eq	.Lrekusoyen_raw_line_equal_0_1_0.8
.Lrekusoyen_raw_line_equal_0_1_0.19:
	mov	w8, #33
.Lrekusoyen_raw_line_equal_0_1_0.20:
	ldp	x20, x19, [sp, #144]
	mov	w0, w8
	ldp	x22, x21, [sp, #128]
	ldp	x24, x23, [sp, #112]
	ldp	x26, x25, [sp, #96]
	ldp	x28, x27, [sp, #80]
	ldp	x29, x30, [sp, #64]
	add	sp, sp, #160
	b	rekusoyen_0_1_0.answers.U32FromRefusal.from
.Lrekusoyen_raw_line_equal_0_1_0.21:
	mov	w8, #20
	cbnz	x21, .Lrekusoyen_raw_line_equal_0_1_0.20
	cmp	x9, x20
	b.ls	.Lrekusoyen_raw_line_equal_0_1_0.20
	mov	x21, xzr
.Lrekusoyen_raw_line_equal_0_1_0.24:
	cmp	x25, #4, lsl #12
	mov	w8, #16384
	add	x9, x24, #24
	str	x9, [sp, #24]
	csel	x9, x25, x8, lo
	cmp	x21, #4, lsl #12
	stur	x9, [x29, #-24]
	add	x9, x26, #24
	csel	x8, x21, x8, lo
	str	x9, [sp, #16]
	str	x8, [sp, #32]
	stp	x2, x4, [x29, #-16]
	cbnz	x19, .Lrekusoyen_raw_line_equal_0_1_0.27
	cbz	x25, .Lrekusoyen_raw_line_equal_0_1_0.27
	mov	w10, wzr
	mov	w9, #29
	b	.Lrekusoyen_raw_line_equal_0_1_0.31
.Lrekusoyen_raw_line_equal_0_1_0.27:
	mov	x22, x0
	add	x0, x24, #24
	mov	x1, x19
	mov	w2, wzr
	bl	rekusoyen_0_1_0.slugs.bytes.has
	mov	w9, #30
	tbz	w0, #0, .Lrekusoyen_raw_line_equal_0_1_0.29
	mov	w10, wzr
	b	.Lrekusoyen_raw_line_equal_0_1_0.30
.Lrekusoyen_raw_line_equal_0_1_0.29:
	mov	w8, #16408
	ldur	x1, [x29, #-24]
	mov	w2, wzr
	add	x0, x24, x8
	bl	rekusoyen_0_1_0.slugs.bytes.has
	mov	w9, #30
	cmp	w0, #0
	eor	w10, w0, #0x1
	csel	w9, w9, wzr, ne
.Lrekusoyen_raw_line_equal_0_1_0.30:
	ldp	x2, x4, [x29, #-16]
	mov	x0, x22
.Lrekusoyen_raw_line_equal_0_1_0.31:
	cbnz	x20, .Lrekusoyen_raw_line_equal_0_1_0.34
	cbz	x21, .Lrekusoyen_raw_line_equal_0_1_0.34
	mov	w8, #1
	mov	w22, #29
	b	.Lrekusoyen_raw_line_equal_0_1_0.38
.Lrekusoyen_raw_line_equal_0_1_0.34:
	str	x0, [sp, #8]
	add	x0, x26, #24
	mov	x1, x20
	mov	w2, wzr
	stp	w10, w9, [sp]
	bl	rekusoyen_0_1_0.slugs.bytes.has
	mov	w22, #30
	tbz	w0, #0, .Lrekusoyen_raw_line_equal_0_1_0.36
	mov	w8, #1
	b	.Lrekusoyen_raw_line_equal_0_1_0.37
.Lrekusoyen_raw_line_equal_0_1_0.36:
	mov	w8, #16408
	ldr	x1, [sp, #32]
	mov	w2, wzr
	add	x0, x26, x8
	bl	rekusoyen_0_1_0.slugs.bytes.has
	cmp	w0, #0
	mov	w8, w0
	csel	w22, w22, wzr, ne
.Lrekusoyen_raw_line_equal_0_1_0.37:
	ldp	x2, x4, [x29, #-16]
	ldr	x0, [sp, #8]
	ldp	w10, w9, [sp]
.Lrekusoyen_raw_line_equal_0_1_0.38:
	cbz	w10, .Lrekusoyen_raw_line_equal_0_1_0.41
	cbz	w8, .Lrekusoyen_raw_line_equal_0_1_0.43
.Lrekusoyen_raw_line_equal_0_1_0.40:
	mov	w0, wzr
	b	.Lrekusoyen_raw_line_equal_0_1_0.42
.Lrekusoyen_raw_line_equal_0_1_0.41:
	cmp	w9, w22
	csel	w0, wzr, w8, ne
.Lrekusoyen_raw_line_equal_0_1_0.42:
	mov	w9, w0
	mov	w0, wzr
	str	x9, [x4, x23]
	b	.Lrekusoyen_raw_line_equal_0_1_0.14
.Lrekusoyen_raw_line_equal_0_1_0.43:
	cmp	x19, x20
	b.ne	.Lrekusoyen_raw_line_equal_0_1_0.53
	ldur	x8, [x29, #-24]
	ldr	x9, [sp, #32]
	cmp	x8, x9
	b.ne	.Lrekusoyen_raw_line_equal_0_1_0.53
	cmp	x19, #4
	b.hs	.Lrekusoyen_raw_line_equal_0_1_0.66
	cbz	x19, .Lrekusoyen_raw_line_equal_0_1_0.69
	add	x8, x24, #24
	add	x9, x26, #24
	ldrb	w8, [x8]
	ldrb	w9, [x9]
	cmp	w8, w9
	b.ne	.Lrekusoyen_raw_line_equal_0_1_0.68
	cmp	x19, #1
	b.eq	.Lrekusoyen_raw_line_equal_0_1_0.69
	ldrb	w8, [x24, #25]
	ldrb	w9, [x26, #25]
	cmp	w8, w9
	b.ne	.Lrekusoyen_raw_line_equal_0_1_0.82
	ldur	x4, [x29, #-8]
	cmp	x19, #2
	b.eq	.Lrekusoyen_raw_line_equal_0_1_0.69
	ldrb	w8, [x24, #26]
	ldrb	w9, [x26, #26]
	cmp	w8, w9
	b.eq	.Lrekusoyen_raw_line_equal_0_1_0.69
	mov	w8, #2
	cmp	x8, x19
	b.lo	.Lrekusoyen_raw_line_equal_0_1_0.40
	b	.Lrekusoyen_raw_line_equal_0_1_0.69
.Lrekusoyen_raw_line_equal_0_1_0.53:
	ldur	x8, [x29, #-24]
	ldr	x9, [sp, #32]
	cmp	x25, #0
	add	x8, x19, x8
	add	x10, x20, x9
	add	x8, x8, #5
	csinc	x9, x8, x19, ne
	add	x8, x10, #5
	cmp	x21, #0
	csinc	x8, x8, x20, ne
	cmp	x9, x8
	b.ne	.Lrekusoyen_raw_line_equal_0_1_0.40
	cmp	x9, #1
	b.eq	.Lrekusoyen_raw_line_equal_0_1_0.74
	mov	w10, #16404
	ldp	x1, x17, [sp, #16]
	sub	x11, x28, x20
	add	x12, x2, x10
	sub	x13, x27, x19
	add	x14, x0, x10
	mov	x8, xzr
	sub	x9, x9, #2
	add	x10, x11, x12
	neg	x11, x20
	add	x12, x13, x14
	neg	x13, x19
.Lrekusoyen_raw_line_equal_0_1_0.56:
	subs	x15, x8, x19
	b.hs	.Lrekusoyen_raw_line_equal_0_1_0.58
	add	x14, x17, x8
	b	.Lrekusoyen_raw_line_equal_0_1_0.60
.Lrekusoyen_raw_line_equal_0_1_0.58:
	cmp	x13, #3
	mov	x14, x12
	b.hi	.Lrekusoyen_raw_line_equal_0_1_0.60
	adrp	x14, .Lrekusoyen_0_1_0.static.3
	add	x14, x14, :lo12:.Lrekusoyen_0_1_0.static.3
	add	x14, x14, x15
.Lrekusoyen_raw_line_equal_0_1_0.60:
	subs	x16, x8, x20
	b.hs	.Lrekusoyen_raw_line_equal_0_1_0.62
	add	x15, x1, x8
	b	.Lrekusoyen_raw_line_equal_0_1_0.64
.Lrekusoyen_raw_line_equal_0_1_0.62:
	cmp	x11, #3
	mov	x15, x10
	b.hi	.Lrekusoyen_raw_line_equal_0_1_0.64
	adrp	x15, .Lrekusoyen_0_1_0.static.3
	add	x15, x15, :lo12:.Lrekusoyen_0_1_0.static.3
	add	x15, x15, x16
.Lrekusoyen_raw_line_equal_0_1_0.64:
	ldrb	w16, [x14]
	ldrb	w15, [x15]
	subs	x9, x9, #1
	cset	w14, hs
	cmp	w16, w15
	cset	w0, eq
	b.ne	.Lrekusoyen_raw_line_equal_0_1_0.42
	add	x8, x8, #1
	add	x10, x10, #1
	add	x11, x11, #1
	add	x12, x12, #1
	add	x13, x13, #1
	tbnz	w14, #0, .Lrekusoyen_raw_line_equal_0_1_0.56
	b	.Lrekusoyen_raw_line_equal_0_1_0.42
.Lrekusoyen_raw_line_equal_0_1_0.66:
	add	x8, x24, #24
	add	x9, x26, #24
	ldr	w8, [x8]
	ldr	w9, [x9]
	cmp	w8, w9
	b.ne	.Lrekusoyen_raw_line_equal_0_1_0.40
	add	x0, x24, #24
	add	x2, x26, #24
	mov	x1, x19
	bl	rekusoyen_0_1_0.core.cmp.slices.groups_equal._i8_31_core.cmp.numbers.U8PartialEq___
	ldur	x4, [x29, #-8]
	cbz	w0, .Lrekusoyen_raw_line_equal_0_1_0.42
	b	.Lrekusoyen_raw_line_equal_0_1_0.69
.Lrekusoyen_raw_line_equal_0_1_0.68:
	cmp	xzr, x19
	b.lo	.Lrekusoyen_raw_line_equal_0_1_0.40
.Lrekusoyen_raw_line_equal_0_1_0.69:
	cmp	x25, #4
	b.hs	.Lrekusoyen_raw_line_equal_0_1_0.75
	cbz	x25, .Lrekusoyen_raw_line_equal_0_1_0.74
	mov	w9, #16408
	ldrb	w8, [x24, x9]
	ldrb	w9, [x26, x9]
	cmp	w8, w9
	b.ne	.Lrekusoyen_raw_line_equal_0_1_0.77
	cmp	x25, #1
	b.ne	.Lrekusoyen_raw_line_equal_0_1_0.79
	ldur	x8, [x29, #-24]
	b	.Lrekusoyen_raw_line_equal_0_1_0.78
.Lrekusoyen_raw_line_equal_0_1_0.74:
	mov	w0, #1
	b	.Lrekusoyen_raw_line_equal_0_1_0.42
.Lrekusoyen_raw_line_equal_0_1_0.75:
	mov	w10, #16408
	ldr	w8, [x24, x10]
	ldr	w9, [x26, x10]
	cmp	w8, w9
	b.ne	.Lrekusoyen_raw_line_equal_0_1_0.40
	ldur	x1, [x29, #-24]
	add	x0, x24, x10
	add	x2, x26, x10
	bl	rekusoyen_0_1_0.core.cmp.slices.groups_equal._i8_31_core.cmp.numbers.U8PartialEq___
	ldur	x4, [x29, #-8]
	b	.Lrekusoyen_raw_line_equal_0_1_0.42
.Lrekusoyen_raw_line_equal_0_1_0.77:
	mov	x8, xzr
.Lrekusoyen_raw_line_equal_0_1_0.78:
	ldur	x9, [x29, #-24]
	ldur	x4, [x29, #-8]
	cmp	x8, x9
	cset	w0, hs
	b	.Lrekusoyen_raw_line_equal_0_1_0.42
.Lrekusoyen_raw_line_equal_0_1_0.79:
	mov	w8, #16409
	ldrb	w9, [x24, x8]
	ldrb	w8, [x26, x8]
	cmp	w9, w8
	b.ne	.Lrekusoyen_raw_line_equal_0_1_0.83
	ldur	x8, [x29, #-24]
	cmp	x25, #2
	b.eq	.Lrekusoyen_raw_line_equal_0_1_0.78
	mov	w8, #16410
	ldrb	w9, [x24, x8]
	ldrb	w8, [x26, x8]
	cmp	w9, w8
	ldur	x9, [x29, #-24]
	mov	w8, #2
	csel	x8, x9, x8, eq
	b	.Lrekusoyen_raw_line_equal_0_1_0.78
.Lrekusoyen_raw_line_equal_0_1_0.82:
	ldur	x4, [x29, #-8]
	mov	w8, #1
	cmp	x8, x19
	b.lo	.Lrekusoyen_raw_line_equal_0_1_0.40
	b	.Lrekusoyen_raw_line_equal_0_1_0.69
.Lrekusoyen_raw_line_equal_0_1_0.83:
	mov	w8, #1
	b	.Lrekusoyen_raw_line_equal_0_1_0.78
.Lrekusoyen_raw_line_equal_0_1_0.func_end:
	.size	rekusoyen_raw_line_equal_0_1_0, .Lrekusoyen_raw_line_equal_0_1_0.func_end-rekusoyen_raw_line_equal_0_1_0
	.section	.text.rekusoyen_raw_line_words_0_1_0,"ax",@progbits
	.globl	rekusoyen_raw_line_words_0_1_0
	.hidden	rekusoyen_raw_line_words_0_1_0
	.p2align	2
	.type	rekusoyen_raw_line_words_0_1_0,@function
rekusoyen_raw_line_words_0_1_0:
	cmp	x0, #0
	mov	w9, #4096
	csel	x10, x9, xzr, eq
	cmp	x2, #0
	ldp	x8, x11, [sp]
	csel	x12, x9, xzr, eq
	cmp	x4, #0
	csel	x13, x9, xzr, eq
	cmp	x6, #0
	csel	x14, x9, xzr, eq
	cmp	x8, #0
	csel	x9, x9, xzr, eq
	cmp	x11, #1
	b.ne	.Lrekusoyen_raw_line_words_0_1_0.9
	add	x10, x0, x10
	cbz	x1, .Lrekusoyen_raw_line_words_0_1_0.13
	mov	x11, xzr
	b	.Lrekusoyen_raw_line_words_0_1_0.4
.Lrekusoyen_raw_line_words_0_1_0.3:
	add	x11, x11, #1
	cmp	x11, x1
	b.hs	.Lrekusoyen_raw_line_words_0_1_0.14
.Lrekusoyen_raw_line_words_0_1_0.4:
	ldrb	w15, [x10, x11]
	cmp	w15, #34
	b.ne	.Lrekusoyen_raw_line_words_0_1_0.3
	add	x15, x11, #1
.Lrekusoyen_raw_line_words_0_1_0.6:
	cmp	x15, x1
	b.hs	.Lrekusoyen_raw_line_words_0_1_0.10
	ldrb	w16, [x10, x15]
	add	x15, x15, #1
	cmp	w16, #34
	b.ne	.Lrekusoyen_raw_line_words_0_1_0.6
	cmp	x15, x1
	mov	x11, x15
	b.lo	.Lrekusoyen_raw_line_words_0_1_0.4
	b	.Lrekusoyen_raw_line_words_0_1_0.11
.Lrekusoyen_raw_line_words_0_1_0.9:
	mov	w0, #62
	ret
.Lrekusoyen_raw_line_words_0_1_0.10:
	mov	x15, x11
.Lrekusoyen_raw_line_words_0_1_0.11:
	cmp	x15, x1
	b.hs	.Lrekusoyen_raw_line_words_0_1_0.14
.Lrekusoyen_raw_line_words_0_1_0.12:
	mov	w0, #71
	str	x15, [x8, x9]
	ret
.Lrekusoyen_raw_line_words_0_1_0.13:
	mov	x15, xzr
	cmp	xzr, x1
	b.lo	.Lrekusoyen_raw_line_words_0_1_0.12
.Lrekusoyen_raw_line_words_0_1_0.14:
	cbz	x1, .Lrekusoyen_raw_line_words_0_1_0.33
	mov	x15, xzr
	mov	x11, xzr
	add	x12, x2, x12
	add	x13, x4, x13
	add	x14, x6, x14
	mov	x16, x1
.Lrekusoyen_raw_line_words_0_1_0.16:
	ldrb	w17, [x10, x15]
	cmp	w17, #32
	b.ne	.Lrekusoyen_raw_line_words_0_1_0.25
	subs	x16, x16, #1
	add	x15, x15, #1
	b.ne	.Lrekusoyen_raw_line_words_0_1_0.16
	b	.Lrekusoyen_raw_line_words_0_1_0.31
.Lrekusoyen_raw_line_words_0_1_0.18:
	add	x17, x15, #1
	mov	x16, x15
.Lrekusoyen_raw_line_words_0_1_0.19:
	ldrb	w0, [x10, x16]
	cmp	w0, #32
	b.eq	.Lrekusoyen_raw_line_words_0_1_0.27
	cmp	w0, #34
	b.eq	.Lrekusoyen_raw_line_words_0_1_0.22
	add	x16, x16, #1
	add	x17, x17, #1
	cmp	x16, x1
	b.lo	.Lrekusoyen_raw_line_words_0_1_0.19
	b	.Lrekusoyen_raw_line_words_0_1_0.30
.Lrekusoyen_raw_line_words_0_1_0.22:
	mov	x15, x17
.Lrekusoyen_raw_line_words_0_1_0.23:
	cmp	x15, x1
	b.hs	.Lrekusoyen_raw_line_words_0_1_0.27
	ldrb	w17, [x10, x15]
	add	x15, x15, #1
	cmp	w17, #34
	b.ne	.Lrekusoyen_raw_line_words_0_1_0.23
.Lrekusoyen_raw_line_words_0_1_0.25:
	cmp	x15, x1
	b.lo	.Lrekusoyen_raw_line_words_0_1_0.18
	cmp	x15, x1
	b.lo	.Lrekusoyen_raw_line_words_0_1_0.28
	b	.Lrekusoyen_raw_line_words_0_1_0.29
.Lrekusoyen_raw_line_words_0_1_0.27:
	mov	x15, x16
	cmp	x16, x1
	b.hs	.Lrekusoyen_raw_line_words_0_1_0.29
.Lrekusoyen_raw_line_words_0_1_0.28:
	ldrb	w16, [x10, x15]
	cmp	w16, #34
	b.eq	.Lrekusoyen_raw_line_words_0_1_0.31
.Lrekusoyen_raw_line_words_0_1_0.29:
	subs	x16, x1, x15
	add	x11, x11, #1
	b.ne	.Lrekusoyen_raw_line_words_0_1_0.16
	b	.Lrekusoyen_raw_line_words_0_1_0.31
.Lrekusoyen_raw_line_words_0_1_0.30:
	add	x16, x15, #1
	cmp	x1, x16
	csinc	x15, x1, x15, hi
	subs	x16, x1, x15
	add	x11, x11, #1
	b.ne	.Lrekusoyen_raw_line_words_0_1_0.16
.Lrekusoyen_raw_line_words_0_1_0.31:
	cmp	x7, x5
	csel	x15, x7, x5, lo
	cmp	x15, x3
	csel	x15, x15, x3, lo
	cmp	x15, x11
	b.hs	.Lrekusoyen_raw_line_words_0_1_0.35
	mov	w0, #72
	ret
.Lrekusoyen_raw_line_words_0_1_0.33:
	mov	x11, xzr
.Lrekusoyen_raw_line_words_0_1_0.34:
	mov	w0, wzr
	str	x11, [x8, x9]
	ret
.Lrekusoyen_raw_line_words_0_1_0.35:
	mov	x16, xzr
	mov	x15, xzr
	mov	x0, x1
.Lrekusoyen_raw_line_words_0_1_0.36:
	mov	x17, x16
.Lrekusoyen_raw_line_words_0_1_0.37:
	ldrb	w16, [x10, x17]
	cmp	w16, #32
	b.ne	.Lrekusoyen_raw_line_words_0_1_0.39
	subs	x0, x0, #1
	add	x17, x17, #1
	b.ne	.Lrekusoyen_raw_line_words_0_1_0.37
	b	.Lrekusoyen_raw_line_words_0_1_0.34
.Lrekusoyen_raw_line_words_0_1_0.39:
	cmp	x17, x1
	mov	x16, x17
	b.hs	.Lrekusoyen_raw_line_words_0_1_0.50
	mov	x16, x17
.Lrekusoyen_raw_line_words_0_1_0.41:
	add	x2, x16, #1
	mov	x0, x16
.Lrekusoyen_raw_line_words_0_1_0.42:
	ldrb	w4, [x10, x0]
	cmp	w4, #32
	b.eq	.Lrekusoyen_raw_line_words_0_1_0.49
	cmp	w4, #34
	b.eq	.Lrekusoyen_raw_line_words_0_1_0.45
	add	x0, x0, #1
	add	x2, x2, #1
	cmp	x0, x1
	b.lo	.Lrekusoyen_raw_line_words_0_1_0.42
	b	.Lrekusoyen_raw_line_words_0_1_0.65
.Lrekusoyen_raw_line_words_0_1_0.45:
	mov	x16, x2
.Lrekusoyen_raw_line_words_0_1_0.46:
	cmp	x16, x1
	b.hs	.Lrekusoyen_raw_line_words_0_1_0.49
	ldrb	w2, [x10, x16]
	add	x16, x16, #1
	cmp	w2, #34
	b.ne	.Lrekusoyen_raw_line_words_0_1_0.46
	cmp	x16, x1
	b.lo	.Lrekusoyen_raw_line_words_0_1_0.41
	b	.Lrekusoyen_raw_line_words_0_1_0.50
.Lrekusoyen_raw_line_words_0_1_0.49:
	mov	x16, x0
.Lrekusoyen_raw_line_words_0_1_0.50:
	cmp	x16, x1
	b.hs	.Lrekusoyen_raw_line_words_0_1_0.52
	ldrb	w0, [x10, x16]
	cmp	w0, #34
	b.eq	.Lrekusoyen_raw_line_words_0_1_0.34
.Lrekusoyen_raw_line_words_0_1_0.52:
	cmp	x15, x3
	b.hs	.Lrekusoyen_raw_line_words_0_1_0.54
.Lrekusoyen_raw_line_words_0_1_0.53:
	str	x17, [x12, x15, lsl #3]
.Lrekusoyen_raw_line_words_0_1_0.54:
	cmp	x15, x5
	b.hs	.Lrekusoyen_raw_line_words_0_1_0.63
	str	x16, [x13, x15, lsl #3]
	b	.Lrekusoyen_raw_line_words_0_1_0.63
.Lrekusoyen_raw_line_words_0_1_0.56:
	add	x2, x17, #1
	mov	x0, x17
.Lrekusoyen_raw_line_words_0_1_0.57:
	ldrb	w4, [x10, x0]
	cmp	w4, #61
	b.eq	.Lrekusoyen_raw_line_words_0_1_0.64
	cmp	w4, #34
	b.eq	.Lrekusoyen_raw_line_words_0_1_0.60
	add	x0, x0, #1
	add	x2, x2, #1
	cmp	x0, x16
	b.lo	.Lrekusoyen_raw_line_words_0_1_0.57
	b	.Lrekusoyen_raw_line_words_0_1_0.66
.Lrekusoyen_raw_line_words_0_1_0.60:
	mov	x17, x2
.Lrekusoyen_raw_line_words_0_1_0.61:
	cmp	x17, x16
	b.hs	.Lrekusoyen_raw_line_words_0_1_0.64
	ldrb	w2, [x10, x17]
	add	x17, x17, #1
	cmp	w2, #34
	b.ne	.Lrekusoyen_raw_line_words_0_1_0.61
.Lrekusoyen_raw_line_words_0_1_0.63:
	cmp	x17, x16
	b.lo	.Lrekusoyen_raw_line_words_0_1_0.56
	b	.Lrekusoyen_raw_line_words_0_1_0.67
.Lrekusoyen_raw_line_words_0_1_0.64:
	mov	x17, x0
	b	.Lrekusoyen_raw_line_words_0_1_0.67
.Lrekusoyen_raw_line_words_0_1_0.65:
	add	x0, x16, #1
	cmp	x1, x0
	csinc	x16, x1, x16, hi
	cmp	x15, x3
	b.lo	.Lrekusoyen_raw_line_words_0_1_0.53
	b	.Lrekusoyen_raw_line_words_0_1_0.54
.Lrekusoyen_raw_line_words_0_1_0.66:
	add	x0, x17, #1
	cmp	x16, x0
	csinc	x17, x16, x17, hi
.Lrekusoyen_raw_line_words_0_1_0.67:
	cmp	x15, x7
	b.hs	.Lrekusoyen_raw_line_words_0_1_0.69
	str	x17, [x14, x15, lsl #3]
.Lrekusoyen_raw_line_words_0_1_0.69:
	subs	x0, x1, x16
	add	x15, x15, #1
	b.ne	.Lrekusoyen_raw_line_words_0_1_0.36
	b	.Lrekusoyen_raw_line_words_0_1_0.34
.Lrekusoyen_raw_line_words_0_1_0.func_end:
	.size	rekusoyen_raw_line_words_0_1_0, .Lrekusoyen_raw_line_words_0_1_0.func_end-rekusoyen_raw_line_words_0_1_0
	.section	.text.rekusoyen_raw_load_0_1_0,"ax",@progbits
	.globl	rekusoyen_raw_load_0_1_0
	.hidden	rekusoyen_raw_load_0_1_0
	.p2align	2
	.type	rekusoyen_raw_load_0_1_0,@function
rekusoyen_raw_load_0_1_0:
	stp	x29, x30, [sp, #-96]!
	stp	x28, x27, [sp, #16]
	mov	x29, sp
	stp	x26, x25, [sp, #32]
	stp	x24, x23, [sp, #48]
	stp	x22, x21, [sp, #64]
	stp	x20, x19, [sp, #80]
	sub	sp, sp, #416
	cmp	x0, #0
	mov	w9, #4096
	ldp	x24, x10, [x29, #112]
	csel	x11, x9, xzr, eq
	cmp	x2, #0
	csel	x8, x9, xzr, eq
	cmp	x4, #0
	csel	x23, x9, xzr, eq
	cmp	x24, #0
	csel	x25, x9, xzr, eq
	cmp	x10, #6
	b.ne	.Lrekusoyen_raw_load_0_1_0.4
	sub	w9, w6, #1
	cmp	w9, #3
	b.hs	.Lrekusoyen_raw_load_0_1_0.5
	cmp	w6, #2
	mov	w9, #1
	stp	x11, x0, [sp, #8]
	cinc	w9, w9, ne
	cmp	w6, #1
	ldr	x10, [x29, #96]
	csel	w27, wzr, w9, eq
	ands	w9, w7, #0x1
	mov	x21, x1
	str	x9, [sp, #24]
	csel	x26, xzr, x10, eq
	ands	w10, w7, #0x2
	ldr	x9, [x29, #104]
	add	x1, x2, x8
	mov	x2, x3
	mov	x19, x5
	mov	x20, x4
	lsr	w28, w10, #1
	csel	x22, xzr, x9, eq
	add	x9, sp, #32
	add	x0, x9, #8
	bl	rekusoyen_0_1_0.guest.maps.from_numbers
	movi	v0.2d, #0000000000000000
	ldr	x8, [sp, #24]
	sub	x0, x29, #112
	add	x1, sp, #32
	add	x2, x20, x23
	sub	x4, x29, #48
	mov	x3, x19
	sturb	w27, [x29, #-48]
	stur	wzr, [x29, #-47]
	stur	wzr, [x29, #-44]
	stp	x8, x26, [x29, #-40]
	stp	x28, x22, [x29, #-24]
	stp	q0, q0, [x29, #-112]
	stur	q0, [x29, #-80]
	stur	xzr, [x29, #-64]
	str	x21, [sp, #32]
	bl	rekusoyen_0_1_0.loads.formats.plan
	ldurb	w8, [x29, #-112]
	cbz	w8, .Lrekusoyen_raw_load_0_1_0.7
	ldurb	w0, [x29, #-111]
	b	.Lrekusoyen_raw_load_0_1_0.6
.Lrekusoyen_raw_load_0_1_0.4:
	mov	w0, #33
	b	.Lrekusoyen_raw_load_0_1_0.6
.Lrekusoyen_raw_load_0_1_0.5:
	mov	w0, #32
.Lrekusoyen_raw_load_0_1_0.6:
	add	sp, sp, #416
	ldp	x20, x19, [sp, #80]
	ldp	x22, x21, [sp, #64]
	ldp	x24, x23, [sp, #48]
	ldp	x26, x25, [sp, #32]
	ldp	x28, x27, [sp, #16]
	ldp	x29, x30, [sp], #96
	b	rekusoyen_0_1_0.answers.U32FromRefusal.from
.Lrekusoyen_raw_load_0_1_0.7:
	ldp	x9, x8, [sp, #8]
	add	x2, x20, x23
	ldp	x28, x22, [x29, #-104]
	sub	x4, x29, #48
	ldurb	w27, [x29, #-88]
	mov	x1, x21
	mov	x3, x19
	add	x0, x8, x9
	add	x24, x24, x25
	bl	rekusoyen_0_1_0.loads.copying.copy_all
	cbz	w27, .Lrekusoyen_raw_load_0_1_0.10
	cmp	w27, #2
	b.ne	.Lrekusoyen_raw_load_0_1_0.11
	mov	x9, xzr
	mov	x8, xzr
	movi	v0.2d, #0000000000000000
	b	.Lrekusoyen_raw_load_0_1_0.12
.Lrekusoyen_raw_load_0_1_0.10:
	ldur	q0, [x29, #-80]
	ldur	x8, [x29, #-64]
	mov	w9, #2
	b	.Lrekusoyen_raw_load_0_1_0.12
.Lrekusoyen_raw_load_0_1_0.11:
	movi	v0.2d, #0000000000000000
	mov	x8, xzr
	mov	w9, #1
.Lrekusoyen_raw_load_0_1_0.12:
	mov	w0, wzr
	stp	x28, x22, [x24]
	str	x9, [x24, #16]
	stur	q0, [x24, #24]
	str	x8, [x24, #40]
	add	sp, sp, #416
	ldp	x20, x19, [sp, #80]
	ldp	x22, x21, [sp, #64]
	ldp	x24, x23, [sp, #48]
	ldp	x26, x25, [sp, #32]
	ldp	x28, x27, [sp, #16]
	ldp	x29, x30, [sp], #96
	ret
.Lrekusoyen_raw_load_0_1_0.func_end:
	.size	rekusoyen_raw_load_0_1_0, .Lrekusoyen_raw_load_0_1_0.func_end-rekusoyen_raw_load_0_1_0
	.section	.text.rekusoyen_raw_page_read_0_1_0,"ax",@progbits
	.globl	rekusoyen_raw_page_read_0_1_0
	.hidden	rekusoyen_raw_page_read_0_1_0
	.p2align	2
	.type	rekusoyen_raw_page_read_0_1_0,@function
rekusoyen_raw_page_read_0_1_0:
	cmp	x0, #0
	mov	w11, #4096
	mov	x8, x0
	csel	x9, x11, xzr, eq
	cmp	x2, #0
	mov	w0, #62
	csel	x10, x11, xzr, eq
	cmp	x4, #0
	csel	x12, x11, xzr, eq
	cmp	x6, #0
	csel	x11, x11, xzr, eq
	cmp	x3, #4
	b.ne	.Lrekusoyen_raw_page_read_0_1_0.37
	cmp	x5, #384
	b.ne	.Lrekusoyen_raw_page_read_0_1_0.37
	cmp	x7, #123
	b.ne	.Lrekusoyen_raw_page_read_0_1_0.37
	sub	sp, sp, #144
	cmp	x1, #489
	mov	w0, #39
	stp	x29, x30, [sp, #128]
	add	x29, sp, #128
	b.hs	.Lrekusoyen_raw_page_read_0_1_0.5
.Lrekusoyen_raw_page_read_0_1_0.4:
	bl	rekusoyen_0_1_0.answers.U32FromRefusal.from
	b	.Lrekusoyen_raw_page_read_0_1_0.36
.Lrekusoyen_raw_page_read_0_1_0.5:
	add	x9, x8, x9
	mov	w8, #40
	ldrb	w13, [x9, #488]
	cmp	w13, #128
	csel	w8, w8, wzr, hi
	cmp	x1, #1, lsl #12
	csel	w0, w0, w8, ne
	b.ne	.Lrekusoyen_raw_page_read_0_1_0.4
	cmp	w13, #128
	b.hi	.Lrekusoyen_raw_page_read_0_1_0.4
	add	x10, x2, x10
	add	x8, x6, x11
	mov	x11, xzr
	cbz	w13, .Lrekusoyen_raw_page_read_0_1_0.35
	add	x13, x13, x13, lsl #1
	add	x12, x4, x12
	adrp	x14, .Lrekusoyen_0_1_0.static.18
	add	x14, x14, :lo12:.Lrekusoyen_0_1_0.static.18
	mov	w15, #720
	b	.Lrekusoyen_raw_page_read_0_1_0.10
.Lrekusoyen_raw_page_read_0_1_0.9:
	add	x15, x16, x15
	mov	w16, #4096
	add	x14, x14, #8
	cmp	x15, #1, lsl #12
	add	x11, x11, #1
	csel	x15, x15, x16, lo
	subs	x13, x13, #1
	str	x17, [x12], #8
	b.eq	.Lrekusoyen_raw_page_read_0_1_0.34
.Lrekusoyen_raw_page_read_0_1_0.10:
	mov	x16, #-6148914691236517206
	mov	x17, #-24
	movk	x16, #43691
	umulh	x16, x11, x16
	lsr	x16, x16, #1
	mul	x16, x16, x17
	ldr	x17, [x14, x16]
	mov	w16, #8
	cmp	x17, #8
	csel	x16, x17, x16, lo
	cbz	x17, .Lrekusoyen_raw_page_read_0_1_0.9
	mov	w17, #4096
	sub	x2, x16, #1
	add	x0, x9, x15
	sub	x1, x17, x15
	cmp	x2, x1
	b.hs	.Lrekusoyen_raw_page_read_0_1_0.13
	ldrb	w17, [x0, x2]
	cbnz	x2, .Lrekusoyen_raw_page_read_0_1_0.14
	b	.Lrekusoyen_raw_page_read_0_1_0.9
.Lrekusoyen_raw_page_read_0_1_0.13:
	mov	x17, xzr
	cbz	x2, .Lrekusoyen_raw_page_read_0_1_0.9
.Lrekusoyen_raw_page_read_0_1_0.14:
	sub	x2, x16, #2
	lsl	x17, x17, #8
	cmp	x2, x1
	b.hs	.Lrekusoyen_raw_page_read_0_1_0.16
	ldrb	w3, [x0, x2]
	orr	x17, x17, x3
.Lrekusoyen_raw_page_read_0_1_0.16:
	cbz	x2, .Lrekusoyen_raw_page_read_0_1_0.9
	sub	x2, x16, #3
	lsl	x17, x17, #8
	cmp	x2, x1
	b.hs	.Lrekusoyen_raw_page_read_0_1_0.19
	ldrb	w3, [x0, x2]
	orr	x17, x17, x3
.Lrekusoyen_raw_page_read_0_1_0.19:
	cbz	x2, .Lrekusoyen_raw_page_read_0_1_0.9
	sub	x2, x16, #4
	lsl	x17, x17, #8
	cmp	x2, x1
	b.hs	.Lrekusoyen_raw_page_read_0_1_0.22
	ldrb	w3, [x0, x2]
	orr	x17, x17, x3
.Lrekusoyen_raw_page_read_0_1_0.22:
	cbz	x2, .Lrekusoyen_raw_page_read_0_1_0.9
	sub	x2, x16, #5
	lsl	x17, x17, #8
	cmp	x2, x1
	b.hs	.Lrekusoyen_raw_page_read_0_1_0.25
	ldrb	w3, [x0, x2]
	orr	x17, x17, x3
.Lrekusoyen_raw_page_read_0_1_0.25:
	cbz	x2, .Lrekusoyen_raw_page_read_0_1_0.9
	sub	x2, x16, #6
	lsl	x17, x17, #8
	cmp	x2, x1
	b.hs	.Lrekusoyen_raw_page_read_0_1_0.28
	ldrb	w3, [x0, x2]
	orr	x17, x17, x3
.Lrekusoyen_raw_page_read_0_1_0.28:
	cbz	x2, .Lrekusoyen_raw_page_read_0_1_0.9
	sub	x2, x16, #7
	lsl	x17, x17, #8
	cmp	x2, x1
	b.hs	.Lrekusoyen_raw_page_read_0_1_0.31
	ldrb	w3, [x0, x2]
	orr	x17, x17, x3
.Lrekusoyen_raw_page_read_0_1_0.31:
	cbz	x2, .Lrekusoyen_raw_page_read_0_1_0.9
	sub	x2, x16, #8
	lsl	x17, x17, #8
	cmp	x2, x1
	b.hs	.Lrekusoyen_raw_page_read_0_1_0.9
	ldrb	w0, [x0, x2]
	orr	x17, x17, x0
	b	.Lrekusoyen_raw_page_read_0_1_0.9
.Lrekusoyen_raw_page_read_0_1_0.34:
	ldrb	w11, [x9, #488]
.Lrekusoyen_raw_page_read_0_1_0.35:
	add	x12, x9, #497
	mov	w0, wzr
	ldp	q0, q1, [x12, #64]
	ldr	q2, [x12, #96]
	str	q2, [sp, #96]
	ldr	d2, [x9, #536]
	ldr	w9, [x9, #552]
	stp	q0, q1, [sp, #64]
	ldur	q0, [x12, #107]
	stur	q0, [sp, #107]
	ldp	q1, q0, [x12]
	stp	q1, q0, [sp]
	ldp	q1, q0, [x12, #32]
	stp	x11, x9, [x10]
	stp	q1, q0, [sp, #32]
	ushll	v1.2d, v2.2s, #0
	str	q1, [x10, #16]
	ldp	q1, q0, [sp, #32]
	stp	q1, q0, [x8, #32]
	ldp	q0, q2, [sp]
	ldur	q1, [sp, #107]
	stp	q0, q2, [x8]
	stur	q1, [x8, #107]
	ldp	q1, q0, [sp, #80]
	stp	q1, q0, [x8, #80]
	ldr	q0, [sp, #64]
	str	q0, [x8, #64]
.Lrekusoyen_raw_page_read_0_1_0.36:
	ldp	x29, x30, [sp, #128]
	add	sp, sp, #144
.Lrekusoyen_raw_page_read_0_1_0.37:
	ret
.Lrekusoyen_raw_page_read_0_1_0.func_end:
	.size	rekusoyen_raw_page_read_0_1_0, .Lrekusoyen_raw_page_read_0_1_0.func_end-rekusoyen_raw_page_read_0_1_0
	.section	.text.rekusoyen_raw_part_0_1_0,"ax",@progbits
	.globl	rekusoyen_raw_part_0_1_0
	.hidden	rekusoyen_raw_part_0_1_0
	.p2align	2
	.type	rekusoyen_raw_part_0_1_0,@function
rekusoyen_raw_part_0_1_0:
	sub	sp, sp, #416
	stp	x29, x30, [sp, #336]
	add	x29, sp, #336
	cmp	x1, #0
	str	x28, [sp, #352]
	mov	w11, #4096
	stp	x24, x23, [sp, #368]
	stp	x22, x21, [sp, #384]
	csel	x22, x11, xzr, eq
	cmp	x3, #0
	stp	x20, x19, [sp, #400]
	csel	x10, x11, xzr, eq
	ldp	x8, x9, [x29, #80]
	ldr	x12, [x29, #96]
	stp	xzr, xzr, [x29, #-56]
	stur	xzr, [x29, #-64]
	cmp	x9, #0
	csel	x11, x11, xzr, eq
	cmp	x12, #3
	b.ne	.Lrekusoyen_raw_part_0_1_0.13
	sub	w12, w5, #1
	cmp	w12, #3
	b.hs	.Lrekusoyen_raw_part_0_1_0.14
	cmp	w5, #2
	mov	w12, #1
	ubfx	w13, w6, #1, #1
	cinc	w12, w12, ne
	cmp	w5, #1
	mov	x21, x0
	csel	w12, wzr, w12, eq
	sub	x0, x29, #64
	mov	x23, x1
	sturb	w12, [x29, #-40]
	ands	w12, w6, #0x1
	add	x1, x3, x10
	csel	x14, xzr, x7, eq
	sub	x3, x29, #40
	mov	x19, x2
	mov	x2, x4
	mov	x24, x4
	mov	x4, x8
	stur	wzr, [x29, #-39]
	add	x20, x9, x11
	stur	wzr, [x29, #-36]
	stp	x12, x14, [x29, #-32]
	stp	x13, xzr, [x29, #-16]
	bl	rekusoyen_0_1_0.loads.formats.part
	mov	x8, sp
	add	x1, x23, x22
	mov	x2, x19
	add	x0, x8, #8
	bl	rekusoyen_0_1_0.guest.maps.from_numbers
	ldur	x8, [x29, #-56]
	mov	x11, xzr
	subs	x10, x24, x8
	b.lo	.Lrekusoyen_raw_part_0_1_0.16
	ldur	x9, [x29, #-48]
	mov	x12, x11
	mov	x13, x11
	cmp	x9, x10
	b.hi	.Lrekusoyen_raw_part_0_1_0.20
	ldur	x10, [x29, #-64]
	mov	x11, xzr
	subs	x12, x21, x10
	b.lo	.Lrekusoyen_raw_part_0_1_0.16
	cmp	x9, x12
	mov	x12, x11
	mov	x13, x11
	b.hi	.Lrekusoyen_raw_part_0_1_0.20
	ldr	x12, [sp, #8]
	mov	w11, #16
	cmp	x12, #16
	csel	x11, x12, x11, lo
	cbz	x12, .Lrekusoyen_raw_part_0_1_0.18
	mov	x12, sp
	add	x12, x12, #144
	b	.Lrekusoyen_raw_part_0_1_0.9
.Lrekusoyen_raw_part_0_1_0.8:
	subs	x11, x11, #1
	add	x12, x12, #8
	b.eq	.Lrekusoyen_raw_part_0_1_0.17
.Lrekusoyen_raw_part_0_1_0.9:
	ldur	x13, [x12, #-128]
	subs	x13, x10, x13
	b.lo	.Lrekusoyen_raw_part_0_1_0.8
	ldr	x14, [x12]
	subs	x13, x14, x13
	b.lo	.Lrekusoyen_raw_part_0_1_0.8
	cmp	x9, x13
	b.hi	.Lrekusoyen_raw_part_0_1_0.8
	mov	x11, x10
	mov	x12, x8
	mov	x13, x9
	b	.Lrekusoyen_raw_part_0_1_0.20
.Lrekusoyen_raw_part_0_1_0.13:
	mov	w0, #33
	b	.Lrekusoyen_raw_part_0_1_0.15
.Lrekusoyen_raw_part_0_1_0.14:
	mov	w0, #32
.Lrekusoyen_raw_part_0_1_0.15:
	ldp	x20, x19, [sp, #400]
	ldr	x28, [sp, #352]
	ldp	x22, x21, [sp, #384]
	ldp	x24, x23, [sp, #368]
	ldp	x29, x30, [sp, #336]
	add	sp, sp, #416
	b	rekusoyen_0_1_0.answers.U32FromRefusal.from
.Lrekusoyen_raw_part_0_1_0.16:
	mov	x12, x11
	mov	x13, x11
	b	.Lrekusoyen_raw_part_0_1_0.20
.Lrekusoyen_raw_part_0_1_0.17:
	mov	x12, xzr
	b	.Lrekusoyen_raw_part_0_1_0.19
.Lrekusoyen_raw_part_0_1_0.18:
	mov	x11, xzr
.Lrekusoyen_raw_part_0_1_0.19:
	mov	x13, xzr
.Lrekusoyen_raw_part_0_1_0.20:
	cmp	x13, #0
	str	x13, [x20, #16]
	ldr	x28, [sp, #352]
	csel	x8, xzr, x11, eq
	csel	x9, xzr, x12, eq
	mov	w0, wzr
	stp	x8, x9, [x20]
	ldp	x20, x19, [sp, #400]
	ldp	x22, x21, [sp, #384]
	ldp	x24, x23, [sp, #368]
	ldp	x29, x30, [sp, #336]
	add	sp, sp, #416
	ret
.Lrekusoyen_raw_part_0_1_0.func_end:
	.size	rekusoyen_raw_part_0_1_0, .Lrekusoyen_raw_part_0_1_0.func_end-rekusoyen_raw_part_0_1_0
	.section	.text.rekusoyen_raw_place_0_1_0,"ax",@progbits
	.globl	rekusoyen_raw_place_0_1_0
	.hidden	rekusoyen_raw_place_0_1_0
	.p2align	2
	.type	rekusoyen_raw_place_0_1_0,@function
rekusoyen_raw_place_0_1_0:
	sub	sp, sp, #448
	stp	x29, x30, [sp, #352]
	add	x29, sp, #352
	cmp	x1, #0
	stp	x28, x27, [sp, #368]
	mov	w8, #4096
	ldr	x28, [x29, #96]
	stp	x20, x19, [sp, #432]
	ldp	x19, x27, [x29, #104]
	csel	x9, x8, xzr, eq
	cmp	x3, #0
	stp	x26, x25, [sp, #384]
	csel	x26, x8, xzr, eq
	stp	x24, x23, [sp, #400]
	mov	x23, x0
	cmp	x19, #0
	add	x1, x1, x9
	stp	x22, x21, [sp, #416]
	csel	x25, x8, xzr, eq
	add	x8, sp, #40
	mov	x24, x7
	add	x0, x8, #8
	mov	x22, x6
	mov	x21, x5
	str	x4, [sp, #32]
	mov	x20, x3
	bl	rekusoyen_0_1_0.guest.maps.from_numbers
	cmp	x24, #1
	csinc	x11, x24, xzr, hi
	cbz	x28, .Lrekusoyen_raw_place_0_1_0.4
	ldr	x8, [sp, #48]
	cmp	x23, x22
	stp	x27, x25, [sp, #8]
	csel	x27, x23, x22, lo
	mov	w9, #16
	str	x19, [sp, #24]
	cmp	x8, #16
	csel	x25, x8, x9, lo
	cbz	x8, .Lrekusoyen_raw_place_0_1_0.5
	add	x8, sp, #40
	mov	x24, x28
	mov	w23, wzr
	mov	x22, xzr
	add	x19, x8, #144
	mov	x28, x20
.Lrekusoyen_raw_place_0_1_0.3:
	ldur	x8, [x19, #-128]
	ldr	x9, [x19], #8
	ldr	x2, [sp, #32]
	add	x1, x28, x26
	sub	x3, x29, #40
	cmp	x8, x21
	mov	w0, wzr
	stp	x11, x24, [x29, #-24]
	csel	x10, x8, x21, hi
	adds	x8, x9, x8
	mov	x20, x11
	csinv	x8, x8, xzr, lo
	cmp	x27, x8
	csel	x8, x27, x8, lo
	stp	x10, x8, [x29, #-40]
	bl	rekusoyen_0_1_0.placing.search.in_bounds
	cmp	x1, x22
	and	w8, w23, #0xff
	mov	x11, x20
	csel	x9, x1, x22, lo
	tst	w0, #0x1
	csel	x9, x9, x22, ne
	cmp	w8, #1
	csinc	w23, w0, wzr, ne
	csel	x22, x9, x1, eq
	subs	x25, x25, #1
	b.ne	.Lrekusoyen_raw_place_0_1_0.3
	b	.Lrekusoyen_raw_place_0_1_0.6
.Lrekusoyen_raw_place_0_1_0.4:
	ldr	x2, [sp, #32]
	add	x1, x20, x26
	sub	x3, x29, #40
	mov	w0, wzr
	stp	x21, x22, [x29, #-40]
	stp	x11, xzr, [x29, #-24]
	bl	rekusoyen_0_1_0.placing.search.in_bounds
	mov	w23, w0
	mov	x22, x1
	cmp	x27, #1
	mov	w0, #62
	b.eq	.Lrekusoyen_raw_place_0_1_0.7
	b	.Lrekusoyen_raw_place_0_1_0.9
.Lrekusoyen_raw_place_0_1_0.5:
	mov	x22, xzr
	mov	w23, wzr
.Lrekusoyen_raw_place_0_1_0.6:
	ldp	x25, x19, [sp, #16]
	ldr	x27, [sp, #8]
	cmp	x27, #1
	mov	w0, #62
	b.ne	.Lrekusoyen_raw_place_0_1_0.9
.Lrekusoyen_raw_place_0_1_0.7:
	and	w8, w23, #0xff
	cmp	w8, #1
	b.ne	.Lrekusoyen_raw_place_0_1_0.9
	mov	w0, wzr
	str	x22, [x19, x25]
.Lrekusoyen_raw_place_0_1_0.9:
	ldp	x20, x19, [sp, #432]
	ldp	x22, x21, [sp, #416]
	ldp	x24, x23, [sp, #400]
	ldp	x26, x25, [sp, #384]
	ldp	x28, x27, [sp, #368]
	ldp	x29, x30, [sp, #352]
	add	sp, sp, #448
	ret
.Lrekusoyen_raw_place_0_1_0.func_end:
	.size	rekusoyen_raw_place_0_1_0, .Lrekusoyen_raw_place_0_1_0.func_end-rekusoyen_raw_place_0_1_0
	.section	.text.rekusoyen_raw_place_high_0_1_0,"ax",@progbits
	.globl	rekusoyen_raw_place_high_0_1_0
	.hidden	rekusoyen_raw_place_high_0_1_0
	.p2align	2
	.type	rekusoyen_raw_place_high_0_1_0,@function
rekusoyen_raw_place_high_0_1_0:
	sub	sp, sp, #384
	stp	x29, x30, [sp, #288]
	add	x29, sp, #288
	cmp	x1, #0
	stp	x28, x27, [sp, #304]
	mov	w8, #4096
	stp	x26, x25, [sp, #320]
	ldp	x27, x25, [x29, #96]
	csel	x9, x8, xzr, eq
	cmp	x3, #0
	stp	x24, x23, [sp, #336]
	csel	x28, x8, xzr, eq
	mov	x23, x0
	add	x1, x1, x9
	cmp	x25, #0
	stp	x22, x21, [sp, #352]
	mov	x24, x7
	csel	x26, x8, xzr, eq
	add	x8, sp, #8
	stp	x20, x19, [sp, #368]
	add	x0, x8, #8
	mov	x22, x6
	mov	x19, x5
	mov	x21, x3
	mov	x20, x4
	bl	rekusoyen_0_1_0.guest.maps.from_numbers
	cmp	x24, #1
	csinc	x8, x24, xzr, hi
	cbz	x27, .Lrekusoyen_raw_place_high_0_1_0.8
	ldr	x11, [sp, #16]
	cmp	x23, x22
	mov	w10, #16
	csel	x9, x23, x22, lo
	cmp	x11, #16
	csel	x10, x11, x10, lo
	cbz	x11, .Lrekusoyen_raw_place_high_0_1_0.12
	add	x16, sp, #8
	cmp	x20, #2
	mov	w13, wzr
	add	x11, x16, #144
	b.hs	.Lrekusoyen_raw_place_high_0_1_0.14
	mov	x12, xzr
	b	.Lrekusoyen_raw_place_high_0_1_0.6
.Lrekusoyen_raw_place_high_0_1_0.4:
	udiv	x15, x15, x8
	cmp	x14, x19
	csel	x14, x14, x19, hi
	mul	x15, x15, x8
	cmp	x14, x15
	cset	w14, ls
	csel	x15, x15, xzr, ls
.Lrekusoyen_raw_place_high_0_1_0.5:
	cmp	x15, x12
	and	w13, w13, #0xff
	add	x11, x11, #8
	csel	x16, x15, x12, hi
	cmp	w14, #0
	csel	x12, x16, x12, ne
	cmp	w13, #1
	csinc	w13, w14, wzr, ne
	csel	x12, x12, x15, eq
	subs	x10, x10, #1
	b.eq	.Lrekusoyen_raw_place_high_0_1_0.9
.Lrekusoyen_raw_place_high_0_1_0.6:
	ldur	x14, [x11, #-128]
	ldr	x15, [x11]
	adds	x15, x15, x14
	csinv	x15, x15, xzr, lo
	cmp	x9, x15
	csel	x15, x9, x15, lo
	subs	x15, x15, x27
	b.hs	.Lrekusoyen_raw_place_high_0_1_0.4
	mov	w14, wzr
	mov	x15, xzr
	b	.Lrekusoyen_raw_place_high_0_1_0.5
.Lrekusoyen_raw_place_high_0_1_0.8:
	udiv	x9, x22, x8
	mul	x8, x9, x8
	cmp	x19, x8
	cset	w13, ls
	csel	x12, x8, xzr, ls
.Lrekusoyen_raw_place_high_0_1_0.9:
	ldr	x8, [x29, #112]
	mov	w0, #62
	cmp	x8, #1
	b.ne	.Lrekusoyen_raw_place_high_0_1_0.13
	cbz	w13, .Lrekusoyen_raw_place_high_0_1_0.13
	mov	w0, wzr
	str	x12, [x25, x26]
	b	.Lrekusoyen_raw_place_high_0_1_0.13
.Lrekusoyen_raw_place_high_0_1_0.12:
	mov	w0, #62
.Lrekusoyen_raw_place_high_0_1_0.13:
	ldp	x20, x19, [sp, #368]
	ldp	x22, x21, [sp, #352]
	ldp	x24, x23, [sp, #336]
	ldp	x26, x25, [sp, #320]
	ldp	x28, x27, [sp, #304]
	ldp	x29, x30, [sp, #288]
	add	sp, sp, #384
	ret
.Lrekusoyen_raw_place_high_0_1_0.14:
	mov	x14, xzr
	mov	x12, xzr
	add	x15, x21, x28
	add	x16, x16, #16
	b	.Lrekusoyen_raw_place_high_0_1_0.17
.Lrekusoyen_raw_place_high_0_1_0.15:
	mov	w1, wzr
	mov	x2, xzr
.Lrekusoyen_raw_place_high_0_1_0.16:
	cmp	x2, x12
	and	w13, w13, #0xff
	add	x14, x14, #1
	csel	x17, x2, x12, hi
	cmp	w1, #0
	csel	x12, x17, x12, ne
	cmp	w13, #1
	csinc	w13, w1, wzr, ne
	csel	x12, x12, x2, eq
	cmp	x14, x10
	b.eq	.Lrekusoyen_raw_place_high_0_1_0.9
.Lrekusoyen_raw_place_high_0_1_0.17:
	ldr	x0, [x16, x14, lsl #3]
	ldr	x1, [x11, x14, lsl #3]
	cmp	x0, x19
	csel	x17, x0, x19, hi
	adds	x0, x1, x0
	csinv	x0, x0, xzr, lo
	cmp	x9, x0
	csel	x0, x9, x0, lo
	subs	x0, x0, x27
	b.lo	.Lrekusoyen_raw_place_high_0_1_0.15
	udiv	x0, x0, x8
	mul	x0, x0, x8
	cmp	x17, x0
	b.hi	.Lrekusoyen_raw_place_high_0_1_0.15
.Lrekusoyen_raw_place_high_0_1_0.19:
	mov	x1, x20
	mov	x2, x15
	b	.Lrekusoyen_raw_place_high_0_1_0.22
.Lrekusoyen_raw_place_high_0_1_0.20:
	sub	x5, x0, x3
	cmp	x4, x5
	b.hi	.Lrekusoyen_raw_place_high_0_1_0.25
.Lrekusoyen_raw_place_high_0_1_0.21:
	sub	x1, x1, #2
	add	x2, x2, #16
	cmp	x1, #2
	b.lo	.Lrekusoyen_raw_place_high_0_1_0.27
.Lrekusoyen_raw_place_high_0_1_0.22:
	ldp	x3, x4, [x2]
	subs	x5, x3, x0
	b.lo	.Lrekusoyen_raw_place_high_0_1_0.20
	cbz	x4, .Lrekusoyen_raw_place_high_0_1_0.21
	cmp	x27, x5
	b.ls	.Lrekusoyen_raw_place_high_0_1_0.21
.Lrekusoyen_raw_place_high_0_1_0.25:
	subs	x0, x3, x27
	b.lo	.Lrekusoyen_raw_place_high_0_1_0.15
	udiv	x0, x0, x8
	mov	w1, wzr
	mov	x2, xzr
	mul	x0, x0, x8
	cmp	x17, x0
	b.ls	.Lrekusoyen_raw_place_high_0_1_0.19
	b	.Lrekusoyen_raw_place_high_0_1_0.16
.Lrekusoyen_raw_place_high_0_1_0.27:
	mov	w1, #1
	mov	x2, x0
	b	.Lrekusoyen_raw_place_high_0_1_0.16
.Lrekusoyen_raw_place_high_0_1_0.func_end:
	.size	rekusoyen_raw_place_high_0_1_0, .Lrekusoyen_raw_place_high_0_1_0.func_end-rekusoyen_raw_place_high_0_1_0
	.section	.text.rekusoyen_raw_plan_0_1_0,"ax",@progbits
	.globl	rekusoyen_raw_plan_0_1_0
	.hidden	rekusoyen_raw_plan_0_1_0
	.p2align	2
	.type	rekusoyen_raw_plan_0_1_0,@function
rekusoyen_raw_plan_0_1_0:
	sub	sp, sp, #480
	stp	x29, x30, [sp, #384]
	add	x29, sp, #384
	movi	v0.2d, #0000000000000000
	str	x28, [sp, #400]
	cmp	x1, #0
	mov	w12, #4096
	stp	x26, x25, [sp, #416]
	csel	x8, x12, xzr, eq
	cmp	x3, #0
	stp	x24, x23, [sp, #432]
	csel	x10, x12, xzr, eq
	stp	x22, x21, [sp, #448]
	stp	x20, x19, [sp, #464]
	ldp	x22, x11, [x29, #104]
	ldr	x9, [x29, #96]
	stp	q0, q0, [x29, #-112]
	stur	q0, [x29, #-80]
	cmp	x22, #0
	stur	xzr, [x29, #-64]
	csel	x23, x12, xzr, eq
	cmp	x11, #7
	b.ne	.Lrekusoyen_raw_plan_0_1_0.5
	sub	w11, w5, #1
	cmp	w11, #3
	b.hs	.Lrekusoyen_raw_plan_0_1_0.6
	cmp	w5, #2
	mov	w21, #1
	sub	x24, x29, #112
	cinc	w11, w21, ne
	cmp	w5, #1
	mov	x25, x0
	csel	w11, wzr, w11, eq
	add	x1, x1, x8
	mov	x19, x4
	sturb	w11, [x29, #-48]
	ands	w11, w6, #0x1
	add	x20, x3, x10
	csel	x12, xzr, x7, eq
	ands	w13, w6, #0x2
	stur	wzr, [x24, #65]
	lsr	w13, w13, #1
	csel	x9, xzr, x9, eq
	stur	wzr, [x29, #-44]
	stp	x11, x12, [x29, #-40]
	mov	w26, w5
	stp	x13, x9, [x29, #-24]
	mov	x9, sp
	add	x0, x9, #8
	bl	rekusoyen_0_1_0.guest.maps.from_numbers
	sub	x0, x29, #112
	mov	x1, sp
	sub	x4, x29, #48
	mov	x2, x20
	mov	x3, x19
	str	x25, [sp]
	bl	rekusoyen_0_1_0.loads.formats.plan
	cmp	w26, #1
	b.ne	.Lrekusoyen_raw_plan_0_1_0.9
	cmp	x19, #57
	b.ls	.Lrekusoyen_raw_plan_0_1_0.7
	ldrh	w21, [x20, #56]
	ldurb	w8, [x29, #-112]
	cbnz	w8, .Lrekusoyen_raw_plan_0_1_0.10
	b	.Lrekusoyen_raw_plan_0_1_0.13
.Lrekusoyen_raw_plan_0_1_0.5:
	mov	w0, #33
	b	.Lrekusoyen_raw_plan_0_1_0.11
.Lrekusoyen_raw_plan_0_1_0.6:
	mov	w0, #32
	b	.Lrekusoyen_raw_plan_0_1_0.11
.Lrekusoyen_raw_plan_0_1_0.7:
	b.ne	.Lrekusoyen_raw_plan_0_1_0.12
	ldrb	w21, [x20, #56]
.Lrekusoyen_raw_plan_0_1_0.9:
	ldurb	w8, [x29, #-112]
	cbz	w8, .Lrekusoyen_raw_plan_0_1_0.13
.Lrekusoyen_raw_plan_0_1_0.10:
	ldurb	w0, [x29, #-111]
.Lrekusoyen_raw_plan_0_1_0.11:
	ldp	x20, x19, [sp, #464]
	ldr	x28, [sp, #400]
	ldp	x22, x21, [sp, #448]
	ldp	x24, x23, [sp, #432]
	ldp	x26, x25, [sp, #416]
	ldp	x29, x30, [sp, #384]
	add	sp, sp, #480
	b	rekusoyen_0_1_0.answers.U32FromRefusal.from
.Lrekusoyen_raw_plan_0_1_0.12:
	mov	x21, xzr
	ldurb	w8, [x29, #-112]
	cbnz	w8, .Lrekusoyen_raw_plan_0_1_0.10
.Lrekusoyen_raw_plan_0_1_0.13:
	ldurb	w9, [x29, #-88]
	ldur	q1, [x24, #8]
	add	x8, x22, x23
	cbz	w9, .Lrekusoyen_raw_plan_0_1_0.16
	movi	v0.2d, #0000000000000000
	cmp	w9, #2
	b.ne	.Lrekusoyen_raw_plan_0_1_0.17
	mov	x10, xzr
	mov	x9, xzr
	b	.Lrekusoyen_raw_plan_0_1_0.18
.Lrekusoyen_raw_plan_0_1_0.16:
	ldur	q0, [x29, #-80]
	ldur	x9, [x29, #-64]
	mov	w10, #2
	b	.Lrekusoyen_raw_plan_0_1_0.18
.Lrekusoyen_raw_plan_0_1_0.17:
	mov	x9, xzr
	mov	w10, #1
.Lrekusoyen_raw_plan_0_1_0.18:
	add	x11, x8, #48
	sub	x12, x29, #8
	str	x10, [x8, #16]
	str	x21, [x11]
	ldp	x20, x19, [sp, #464]
	ldp	x22, x21, [sp, #448]
	sub	x10, x11, x12
	ldp	x24, x23, [sp, #432]
	cmp	x10, #7
	ldp	x26, x25, [sp, #416]
	mov	w0, wzr
	ldp	x29, x30, [sp, #384]
	ldr	x28, [sp, #400]
	str	q1, [x8]
	stur	q0, [x8, #24]
	str	x9, [x8, #40]
	add	sp, sp, #480
	ret
.Lrekusoyen_raw_plan_0_1_0.func_end:
	.size	rekusoyen_raw_plan_0_1_0, .Lrekusoyen_raw_plan_0_1_0.func_end-rekusoyen_raw_plan_0_1_0
	.section	.text.rekusoyen_raw_start_block_0_1_0,"ax",@progbits
	.globl	rekusoyen_raw_start_block_0_1_0
	.hidden	rekusoyen_raw_start_block_0_1_0
	.p2align	2
	.type	rekusoyen_raw_start_block_0_1_0,@function
rekusoyen_raw_start_block_0_1_0:
	mov	w8, #4096
	cmp	x0, #0
	csel	x9, x8, xzr, eq
	cmp	x3, #0
	csel	x8, x8, xzr, eq
	cmp	x4, #10
	b.ne	.Lrekusoyen_raw_start_block_0_1_0.3
	subs	x10, x1, x2
	add	x9, x0, x9
	add	x8, x3, x8
	csel	x11, xzr, x10, lo
	add	x10, x9, x2
	cmp	x11, #4
	b.lo	.Lrekusoyen_raw_start_block_0_1_0.4
	ldrb	w11, [x10, #3]
	lsl	x11, x11, #8
	b	.Lrekusoyen_raw_start_block_0_1_0.6
.Lrekusoyen_raw_start_block_0_1_0.3:
	mov	w0, #62
	ret
.Lrekusoyen_raw_start_block_0_1_0.4:
	cmp	x11, #3
	b.ne	.Lrekusoyen_raw_start_block_0_1_0.99
	mov	x11, xzr
.Lrekusoyen_raw_start_block_0_1_0.6:
	ldrb	w12, [x10, #2]
	orr	x11, x11, x12
	lsl	x13, x11, #8
.Lrekusoyen_raw_start_block_0_1_0.7:
	ldrb	w11, [x10, #1]
	orr	x11, x13, x11
	lsl	x12, x11, #8
.Lrekusoyen_raw_start_block_0_1_0.8:
	cmp	x1, x2
	b.ls	.Lrekusoyen_raw_start_block_0_1_0.10
	ldrb	w10, [x10]
	orr	x12, x12, x10
.Lrekusoyen_raw_start_block_0_1_0.10:
	adds	x10, x2, #4
	str	x12, [x8]
	csinv	x11, x10, xzr, lo
	cmp	x1, x11
	csel	x10, x1, x11, lo
	subs	x13, x1, x10
	add	x12, x9, x10
	csel	x13, xzr, x13, lo
	cmp	x13, #4
	b.lo	.Lrekusoyen_raw_start_block_0_1_0.12
	ldrb	w13, [x12, #3]
	lsl	x13, x13, #8
	b	.Lrekusoyen_raw_start_block_0_1_0.14
.Lrekusoyen_raw_start_block_0_1_0.12:
	cmp	x13, #3
	b.ne	.Lrekusoyen_raw_start_block_0_1_0.100
	mov	x13, xzr
.Lrekusoyen_raw_start_block_0_1_0.14:
	ldrb	w14, [x12, #2]
	orr	x13, x13, x14
	lsl	x14, x13, #8
.Lrekusoyen_raw_start_block_0_1_0.15:
	ldrb	w13, [x12, #1]
	orr	x13, x14, x13
	lsl	x13, x13, #8
.Lrekusoyen_raw_start_block_0_1_0.16:
	cmp	x11, x1
	b.hs	.Lrekusoyen_raw_start_block_0_1_0.18
	ldrb	w11, [x12]
	orr	x13, x13, x11
.Lrekusoyen_raw_start_block_0_1_0.18:
	adds	x10, x10, #4
	str	x13, [x8, #8]
	csinv	x11, x10, xzr, lo
	cmp	x1, x11
	csel	x10, x1, x11, lo
	subs	x12, x1, x10
	csel	x15, xzr, x12, lo
	add	x12, x9, x10
	cmp	x15, #4
	b.lo	.Lrekusoyen_raw_start_block_0_1_0.20
	ldrb	w13, [x12, #3]
	lsl	x13, x13, #8
	b	.Lrekusoyen_raw_start_block_0_1_0.22
.Lrekusoyen_raw_start_block_0_1_0.20:
	cmp	x15, #3
	b.ne	.Lrekusoyen_raw_start_block_0_1_0.101
	mov	x13, xzr
.Lrekusoyen_raw_start_block_0_1_0.22:
	ldrb	w14, [x12, #2]
	orr	x13, x13, x14
	lsl	x14, x13, #8
.Lrekusoyen_raw_start_block_0_1_0.23:
	ldrb	w13, [x12, #1]
	orr	x13, x14, x13
	lsl	x13, x13, #8
.Lrekusoyen_raw_start_block_0_1_0.24:
	cmp	x11, x1
	b.hs	.Lrekusoyen_raw_start_block_0_1_0.26
	ldrb	w11, [x12]
	orr	x13, x13, x11
.Lrekusoyen_raw_start_block_0_1_0.26:
	adds	x10, x10, #4
	str	x13, [x8, #16]
	csinv	x11, x10, xzr, lo
	cmp	x1, x11
	csel	x10, x1, x11, lo
	subs	x12, x1, x10
	csel	x15, xzr, x12, lo
	add	x12, x9, x10
	cmp	x15, #4
	b.lo	.Lrekusoyen_raw_start_block_0_1_0.28
	ldrb	w13, [x12, #3]
	lsl	x13, x13, #8
	b	.Lrekusoyen_raw_start_block_0_1_0.30
.Lrekusoyen_raw_start_block_0_1_0.28:
	cmp	x15, #3
	b.ne	.Lrekusoyen_raw_start_block_0_1_0.102
	mov	x13, xzr
.Lrekusoyen_raw_start_block_0_1_0.30:
	ldrb	w14, [x12, #2]
	orr	x13, x13, x14
	lsl	x14, x13, #8
.Lrekusoyen_raw_start_block_0_1_0.31:
	ldrb	w13, [x12, #1]
	orr	x13, x14, x13
	lsl	x13, x13, #8
.Lrekusoyen_raw_start_block_0_1_0.32:
	cmp	x11, x1
	b.hs	.Lrekusoyen_raw_start_block_0_1_0.34
	ldrb	w11, [x12]
	orr	x13, x13, x11
.Lrekusoyen_raw_start_block_0_1_0.34:
	adds	x10, x10, #4
	str	x13, [x8, #24]
	csinv	x11, x10, xzr, lo
	cmp	x1, x11
	csel	x10, x1, x11, lo
	subs	x12, x1, x10
	csel	x14, xzr, x12, lo
	add	x12, x9, x10
	cmp	x14, #8
	b.lo	.Lrekusoyen_raw_start_block_0_1_0.36
	ldrb	w13, [x12, #7]
	lsl	x13, x13, #8
	b	.Lrekusoyen_raw_start_block_0_1_0.38
.Lrekusoyen_raw_start_block_0_1_0.36:
	cmp	x14, #7
	b.ne	.Lrekusoyen_raw_start_block_0_1_0.103
	mov	x13, xzr
.Lrekusoyen_raw_start_block_0_1_0.38:
	ldrb	w14, [x12, #6]
	orr	x13, x13, x14
	lsl	x13, x13, #8
.Lrekusoyen_raw_start_block_0_1_0.39:
	ldrb	w14, [x12, #5]
	orr	x13, x13, x14
	lsl	x13, x13, #8
.Lrekusoyen_raw_start_block_0_1_0.40:
	ldrb	w14, [x12, #4]
	orr	x13, x13, x14
	lsl	x13, x13, #8
.Lrekusoyen_raw_start_block_0_1_0.41:
	ldrb	w14, [x12, #3]
	orr	x13, x13, x14
	lsl	x13, x13, #8
.Lrekusoyen_raw_start_block_0_1_0.42:
	ldrb	w14, [x12, #2]
	orr	x13, x13, x14
	lsl	x15, x13, #8
.Lrekusoyen_raw_start_block_0_1_0.43:
	ldrb	w13, [x12, #1]
	orr	x13, x15, x13
	lsl	x13, x13, #8
.Lrekusoyen_raw_start_block_0_1_0.44:
	cmp	x11, x1
	b.hs	.Lrekusoyen_raw_start_block_0_1_0.46
	ldrb	w11, [x12]
	orr	x13, x13, x11
.Lrekusoyen_raw_start_block_0_1_0.46:
	adds	x10, x10, #8
	str	x13, [x8, #32]
	csinv	x11, x10, xzr, lo
	cmp	x1, x11
	csel	x10, x1, x11, lo
	subs	x12, x1, x10
	csel	x14, xzr, x12, lo
	add	x12, x9, x10
	cmp	x14, #8
	b.lo	.Lrekusoyen_raw_start_block_0_1_0.48
	ldrb	w13, [x12, #7]
	lsl	x13, x13, #8
	b	.Lrekusoyen_raw_start_block_0_1_0.50
.Lrekusoyen_raw_start_block_0_1_0.48:
	cmp	x14, #7
	b.ne	.Lrekusoyen_raw_start_block_0_1_0.105
	mov	x13, xzr
.Lrekusoyen_raw_start_block_0_1_0.50:
	ldrb	w14, [x12, #6]
	orr	x13, x13, x14
	lsl	x13, x13, #8
.Lrekusoyen_raw_start_block_0_1_0.51:
	ldrb	w14, [x12, #5]
	orr	x13, x13, x14
	lsl	x13, x13, #8
.Lrekusoyen_raw_start_block_0_1_0.52:
	ldrb	w14, [x12, #4]
	orr	x13, x13, x14
	lsl	x13, x13, #8
.Lrekusoyen_raw_start_block_0_1_0.53:
	ldrb	w14, [x12, #3]
	orr	x13, x13, x14
	lsl	x13, x13, #8
.Lrekusoyen_raw_start_block_0_1_0.54:
	ldrb	w14, [x12, #2]
	orr	x13, x13, x14
	lsl	x15, x13, #8
.Lrekusoyen_raw_start_block_0_1_0.55:
	ldrb	w13, [x12, #1]
	orr	x13, x15, x13
	lsl	x13, x13, #8
.Lrekusoyen_raw_start_block_0_1_0.56:
	cmp	x11, x1
	b.hs	.Lrekusoyen_raw_start_block_0_1_0.58
	ldrb	w11, [x12]
	orr	x13, x13, x11
.Lrekusoyen_raw_start_block_0_1_0.58:
	adds	x10, x10, #8
	str	x13, [x8, #40]
	csinv	x11, x10, xzr, lo
	cmp	x1, x11
	csel	x10, x1, x11, lo
	subs	x12, x1, x10
	csel	x14, xzr, x12, lo
	add	x12, x9, x10
	cmp	x14, #8
	b.lo	.Lrekusoyen_raw_start_block_0_1_0.60
	ldrb	w13, [x12, #7]
	lsl	x13, x13, #8
	b	.Lrekusoyen_raw_start_block_0_1_0.62
.Lrekusoyen_raw_start_block_0_1_0.60:
	cmp	x14, #7
	b.ne	.Lrekusoyen_raw_start_block_0_1_0.107
	mov	x13, xzr
.Lrekusoyen_raw_start_block_0_1_0.62:
	ldrb	w14, [x12, #6]
	orr	x13, x13, x14
	lsl	x13, x13, #8
.Lrekusoyen_raw_start_block_0_1_0.63:
	ldrb	w14, [x12, #5]
	orr	x13, x13, x14
	lsl	x13, x13, #8
.Lrekusoyen_raw_start_block_0_1_0.64:
	ldrb	w14, [x12, #4]
	orr	x13, x13, x14
	lsl	x13, x13, #8
.Lrekusoyen_raw_start_block_0_1_0.65:
	ldrb	w14, [x12, #3]
	orr	x13, x13, x14
	lsl	x13, x13, #8
.Lrekusoyen_raw_start_block_0_1_0.66:
	ldrb	w14, [x12, #2]
	orr	x13, x13, x14
	lsl	x15, x13, #8
.Lrekusoyen_raw_start_block_0_1_0.67:
	ldrb	w13, [x12, #1]
	orr	x13, x15, x13
	lsl	x13, x13, #8
.Lrekusoyen_raw_start_block_0_1_0.68:
	cmp	x11, x1
	b.hs	.Lrekusoyen_raw_start_block_0_1_0.70
	ldrb	w11, [x12]
	orr	x13, x13, x11
.Lrekusoyen_raw_start_block_0_1_0.70:
	adds	x10, x10, #8
	str	x13, [x8, #48]
	csinv	x11, x10, xzr, lo
	cmp	x1, x11
	csel	x10, x1, x11, lo
	subs	x12, x1, x10
	csel	x14, xzr, x12, lo
	add	x12, x9, x10
	cmp	x14, #8
	b.lo	.Lrekusoyen_raw_start_block_0_1_0.72
	ldrb	w13, [x12, #7]
	lsl	x13, x13, #8
	b	.Lrekusoyen_raw_start_block_0_1_0.74
.Lrekusoyen_raw_start_block_0_1_0.72:
	cmp	x14, #7
	b.ne	.Lrekusoyen_raw_start_block_0_1_0.109
	mov	x13, xzr
.Lrekusoyen_raw_start_block_0_1_0.74:
	ldrb	w14, [x12, #6]
	orr	x13, x13, x14
	lsl	x13, x13, #8
.Lrekusoyen_raw_start_block_0_1_0.75:
	ldrb	w14, [x12, #5]
	orr	x13, x13, x14
	lsl	x13, x13, #8
.Lrekusoyen_raw_start_block_0_1_0.76:
	ldrb	w14, [x12, #4]
	orr	x13, x13, x14
	lsl	x13, x13, #8
.Lrekusoyen_raw_start_block_0_1_0.77:
	ldrb	w14, [x12, #3]
	orr	x13, x13, x14
	lsl	x13, x13, #8
.Lrekusoyen_raw_start_block_0_1_0.78:
	ldrb	w14, [x12, #2]
	orr	x13, x13, x14
	lsl	x15, x13, #8
.Lrekusoyen_raw_start_block_0_1_0.79:
	ldrb	w13, [x12, #1]
	orr	x13, x15, x13
	lsl	x13, x13, #8
.Lrekusoyen_raw_start_block_0_1_0.80:
	cmp	x11, x1
	b.hs	.Lrekusoyen_raw_start_block_0_1_0.82
	ldrb	w11, [x12]
	orr	x13, x13, x11
.Lrekusoyen_raw_start_block_0_1_0.82:
	adds	x10, x10, #8
	str	x13, [x8, #56]
	csinv	x11, x10, xzr, lo
	cmp	x1, x11
	csel	x10, x1, x11, lo
	subs	x12, x1, x10
	csel	x15, xzr, x12, lo
	add	x12, x9, x10
	cmp	x15, #4
	b.lo	.Lrekusoyen_raw_start_block_0_1_0.84
	ldrb	w13, [x12, #3]
	lsl	x13, x13, #8
	b	.Lrekusoyen_raw_start_block_0_1_0.86
.Lrekusoyen_raw_start_block_0_1_0.84:
	cmp	x15, #3
	b.ne	.Lrekusoyen_raw_start_block_0_1_0.111
	mov	x13, xzr
.Lrekusoyen_raw_start_block_0_1_0.86:
	ldrb	w14, [x12, #2]
	orr	x13, x13, x14
	lsl	x14, x13, #8
.Lrekusoyen_raw_start_block_0_1_0.87:
	ldrb	w13, [x12, #1]
	orr	x13, x14, x13
	lsl	x13, x13, #8
.Lrekusoyen_raw_start_block_0_1_0.88:
	cmp	x11, x1
	b.hs	.Lrekusoyen_raw_start_block_0_1_0.90
	ldrb	w11, [x12]
	orr	x13, x13, x11
.Lrekusoyen_raw_start_block_0_1_0.90:
	adds	x10, x10, #4
	str	x13, [x8, #64]
	csinv	x10, x10, xzr, lo
	cmp	x1, x10
	csel	x12, x1, x10, lo
	subs	x11, x1, x12
	add	x9, x9, x12
	csel	x11, xzr, x11, lo
	cmp	x11, #4
	b.lo	.Lrekusoyen_raw_start_block_0_1_0.92
	ldrb	w11, [x9, #3]
	lsl	x11, x11, #8
	b	.Lrekusoyen_raw_start_block_0_1_0.94
.Lrekusoyen_raw_start_block_0_1_0.92:
	cmp	x11, #3
	b.ne	.Lrekusoyen_raw_start_block_0_1_0.112
	mov	x11, xzr
.Lrekusoyen_raw_start_block_0_1_0.94:
	ldrb	w12, [x9, #2]
	orr	x11, x11, x12
	lsl	x12, x11, #8
.Lrekusoyen_raw_start_block_0_1_0.95:
	ldrb	w11, [x9, #1]
	orr	x11, x12, x11
	lsl	x11, x11, #8
.Lrekusoyen_raw_start_block_0_1_0.96:
	cmp	x10, x1
	b.lo	.Lrekusoyen_raw_start_block_0_1_0.98
	mov	w0, wzr
	str	x11, [x8, #72]
	ret
.Lrekusoyen_raw_start_block_0_1_0.98:
	ldrb	w9, [x9]
	orr	x11, x11, x9
	mov	w0, wzr
	str	x11, [x8, #72]
	ret
.Lrekusoyen_raw_start_block_0_1_0.99:
	mov	x13, xzr
	cmp	x11, #2
	mov	x12, xzr
	b.hs	.Lrekusoyen_raw_start_block_0_1_0.7
	b	.Lrekusoyen_raw_start_block_0_1_0.8
.Lrekusoyen_raw_start_block_0_1_0.100:
	mov	x14, xzr
	cmp	x13, #2
	mov	x13, xzr
	b.hs	.Lrekusoyen_raw_start_block_0_1_0.15
	b	.Lrekusoyen_raw_start_block_0_1_0.16
.Lrekusoyen_raw_start_block_0_1_0.101:
	mov	x14, xzr
	cmp	x15, #2
	mov	x13, xzr
	b.hs	.Lrekusoyen_raw_start_block_0_1_0.23
	b	.Lrekusoyen_raw_start_block_0_1_0.24
.Lrekusoyen_raw_start_block_0_1_0.102:
	mov	x14, xzr
	cmp	x15, #2
	mov	x13, xzr
	b.hs	.Lrekusoyen_raw_start_block_0_1_0.31
	b	.Lrekusoyen_raw_start_block_0_1_0.32
.Lrekusoyen_raw_start_block_0_1_0.103:
	cmp	x14, #6
	b.lo	.Lrekusoyen_raw_start_block_0_1_0.113
	mov	x13, xzr
	b	.Lrekusoyen_raw_start_block_0_1_0.39
.Lrekusoyen_raw_start_block_0_1_0.105:
	cmp	x14, #6
	b.lo	.Lrekusoyen_raw_start_block_0_1_0.115
	mov	x13, xzr
	b	.Lrekusoyen_raw_start_block_0_1_0.51
.Lrekusoyen_raw_start_block_0_1_0.107:
	cmp	x14, #6
	b.lo	.Lrekusoyen_raw_start_block_0_1_0.117
	mov	x13, xzr
	b	.Lrekusoyen_raw_start_block_0_1_0.63
.Lrekusoyen_raw_start_block_0_1_0.109:
	cmp	x14, #6
	b.lo	.Lrekusoyen_raw_start_block_0_1_0.119
	mov	x13, xzr
	b	.Lrekusoyen_raw_start_block_0_1_0.75
.Lrekusoyen_raw_start_block_0_1_0.111:
	mov	x14, xzr
	cmp	x15, #2
	mov	x13, xzr
	b.hs	.Lrekusoyen_raw_start_block_0_1_0.87
	b	.Lrekusoyen_raw_start_block_0_1_0.88
.Lrekusoyen_raw_start_block_0_1_0.112:
	mov	x12, xzr
	cmp	x11, #2
	mov	x11, xzr
	b.hs	.Lrekusoyen_raw_start_block_0_1_0.95
	b	.Lrekusoyen_raw_start_block_0_1_0.96
.Lrekusoyen_raw_start_block_0_1_0.113:
	cmp	x14, #5
	b.ne	.Lrekusoyen_raw_start_block_0_1_0.121
	mov	x13, xzr
	b	.Lrekusoyen_raw_start_block_0_1_0.40
.Lrekusoyen_raw_start_block_0_1_0.115:
	cmp	x14, #5
	b.ne	.Lrekusoyen_raw_start_block_0_1_0.123
	mov	x13, xzr
	b	.Lrekusoyen_raw_start_block_0_1_0.52
.Lrekusoyen_raw_start_block_0_1_0.117:
	cmp	x14, #5
	b.ne	.Lrekusoyen_raw_start_block_0_1_0.125
	mov	x13, xzr
	b	.Lrekusoyen_raw_start_block_0_1_0.64
.Lrekusoyen_raw_start_block_0_1_0.119:
	cmp	x14, #5
	b.ne	.Lrekusoyen_raw_start_block_0_1_0.127
	mov	x13, xzr
	b	.Lrekusoyen_raw_start_block_0_1_0.76
.Lrekusoyen_raw_start_block_0_1_0.121:
	cmp	x14, #4
	b.lo	.Lrekusoyen_raw_start_block_0_1_0.129
	mov	x13, xzr
	b	.Lrekusoyen_raw_start_block_0_1_0.41
.Lrekusoyen_raw_start_block_0_1_0.123:
	cmp	x14, #4
	b.lo	.Lrekusoyen_raw_start_block_0_1_0.131
	mov	x13, xzr
	b	.Lrekusoyen_raw_start_block_0_1_0.53
.Lrekusoyen_raw_start_block_0_1_0.125:
	cmp	x14, #4
	b.lo	.Lrekusoyen_raw_start_block_0_1_0.133
	mov	x13, xzr
	b	.Lrekusoyen_raw_start_block_0_1_0.65
.Lrekusoyen_raw_start_block_0_1_0.127:
	cmp	x14, #4
	b.lo	.Lrekusoyen_raw_start_block_0_1_0.135
	mov	x13, xzr
	b	.Lrekusoyen_raw_start_block_0_1_0.77
.Lrekusoyen_raw_start_block_0_1_0.129:
	cmp	x14, #3
	b.ne	.Lrekusoyen_raw_start_block_0_1_0.137
	mov	x13, xzr
	b	.Lrekusoyen_raw_start_block_0_1_0.42
.Lrekusoyen_raw_start_block_0_1_0.131:
	cmp	x14, #3
	b.ne	.Lrekusoyen_raw_start_block_0_1_0.138
	mov	x13, xzr
	b	.Lrekusoyen_raw_start_block_0_1_0.54
.Lrekusoyen_raw_start_block_0_1_0.133:
	cmp	x14, #3
	b.ne	.Lrekusoyen_raw_start_block_0_1_0.139
	mov	x13, xzr
	b	.Lrekusoyen_raw_start_block_0_1_0.66
.Lrekusoyen_raw_start_block_0_1_0.135:
	cmp	x14, #3
	b.ne	.Lrekusoyen_raw_start_block_0_1_0.140
	mov	x13, xzr
	b	.Lrekusoyen_raw_start_block_0_1_0.78
.Lrekusoyen_raw_start_block_0_1_0.137:
	mov	x15, xzr
	cmp	x14, #2
	mov	x13, xzr
	b.hs	.Lrekusoyen_raw_start_block_0_1_0.43
	b	.Lrekusoyen_raw_start_block_0_1_0.44
.Lrekusoyen_raw_start_block_0_1_0.138:
	mov	x15, xzr
	cmp	x14, #2
	mov	x13, xzr
	b.hs	.Lrekusoyen_raw_start_block_0_1_0.55
	b	.Lrekusoyen_raw_start_block_0_1_0.56
.Lrekusoyen_raw_start_block_0_1_0.139:
	mov	x15, xzr
	cmp	x14, #2
	mov	x13, xzr
	b.hs	.Lrekusoyen_raw_start_block_0_1_0.67
	b	.Lrekusoyen_raw_start_block_0_1_0.68
.Lrekusoyen_raw_start_block_0_1_0.140:
	mov	x15, xzr
	cmp	x14, #2
	mov	x13, xzr
	b.hs	.Lrekusoyen_raw_start_block_0_1_0.79
	b	.Lrekusoyen_raw_start_block_0_1_0.80
.Lrekusoyen_raw_start_block_0_1_0.func_end:
	.size	rekusoyen_raw_start_block_0_1_0, .Lrekusoyen_raw_start_block_0_1_0.func_end-rekusoyen_raw_start_block_0_1_0
	.section	.text.rekusoyen_raw_step_0_1_0,"ax",@progbits
	.globl	rekusoyen_raw_step_0_1_0
	.hidden	rekusoyen_raw_step_0_1_0
	.p2align	2
	.type	rekusoyen_raw_step_0_1_0,@function
rekusoyen_raw_step_0_1_0:
	stp	x29, x30, [sp, #-96]!
	stp	x28, x27, [sp, #16]
	mov	x29, sp
	stp	x26, x25, [sp, #32]
	stp	x24, x23, [sp, #48]
	stp	x22, x21, [sp, #64]
	stp	x20, x19, [sp, #80]
	sub	sp, sp, #2576
	cmp	x0, #0
	mov	w8, #4096
	str	xzr, [sp]
	csel	x20, x8, xzr, eq
	cmp	x2, #0
	ldr	x22, [x29, #104]
	csel	x9, x8, xzr, eq
	cmp	x4, #0
	csel	x28, x8, xzr, eq
	cmp	x6, #0
	csel	x10, x8, xzr, eq
	cmp	x22, #0
	csel	x23, x8, xzr, eq
	cmp	x7, #50
	mov	w8, #33
	b.ne	.Lrekusoyen_raw_step_0_1_0.22
	ldr	x11, [x29, #112]
	cmp	x11, #9
	b.ne	.Lrekusoyen_raw_step_0_1_0.22
	add	x21, x6, x10
	ldr	x27, [x21]
	cmp	x27, #2
	b.hi	.Lrekusoyen_raw_step_0_1_0.21
	ldr	x24, [x21, #48]
	ldr	x13, [x29, #96]
	mov	x11, x24
	cbz	x24, .Lrekusoyen_raw_step_0_1_0.6
	cmp	x24, #1
	b.ne	.Lrekusoyen_raw_step_0_1_0.21
	ldr	x11, [x21, #56]
.Lrekusoyen_raw_step_0_1_0.6:
	ldr	x26, [x21, #64]
	mov	x12, x26
	cbz	x26, .Lrekusoyen_raw_step_0_1_0.9
	cmp	x26, #1
	b.ne	.Lrekusoyen_raw_step_0_1_0.21
	ldr	x12, [x21, #72]
.Lrekusoyen_raw_step_0_1_0.9:
	ldr	x19, [x21, #336]
	sub	x8, x19, #1
	cmp	x8, #2
	b.hi	.Lrekusoyen_raw_step_0_1_0.21
	ldr	x8, [x21, #80]
	ldp	x15, x16, [x21, #232]
	ldp	x17, x6, [x21, #248]
	ldr	x10, [x21, #368]
	str	x8, [sp, #392]
	ldr	x8, [x21, #88]
	str	x8, [sp, #376]
	ldr	x8, [x21, #96]
	str	x8, [sp, #360]
	ldr	x8, [x21, #104]
	str	x8, [sp, #352]
	ldr	x8, [x21, #112]
	str	x8, [sp, #344]
	ldr	x8, [x21, #120]
	str	x8, [sp, #336]
	ldr	x8, [x21, #128]
	str	x8, [sp, #328]
	ldr	x8, [x21, #136]
	str	x8, [sp, #320]
	ldr	x8, [x21, #144]
	str	x8, [sp, #304]
	ldr	x8, [x21, #152]
	str	x8, [sp, #224]
	ldr	x8, [x21, #160]
	str	x8, [sp, #216]
	ldr	x8, [x21, #168]
	str	x8, [sp, #208]
	ldr	x8, [x21, #176]
	str	x8, [sp, #200]
	ldr	x8, [x21, #184]
	str	x8, [sp, #192]
	ldr	x8, [x21, #192]
	str	x8, [sp, #184]
	ldr	x8, [x21, #200]
	str	x8, [sp, #176]
	ldr	x8, [x21, #208]
	str	x8, [sp, #384]
	ldp	x8, x14, [x21, #216]
	str	x8, [sp, #368]
	ldp	x7, x8, [x21, #264]
	str	x8, [sp, #312]
	ldr	x8, [x21, #280]
	str	x8, [sp, #296]
	ldr	x8, [x21, #288]
	str	x8, [sp, #288]
	ldr	x8, [x21, #296]
	str	x8, [sp, #280]
	ldr	x8, [x21, #304]
	str	x8, [sp, #272]
	ldr	x8, [x21, #312]
	str	x8, [sp, #264]
	ldr	x8, [x21, #320]
	str	x8, [sp, #256]
	ldr	x8, [x21, #328]
	str	x8, [sp, #248]
	ldr	x8, [x21, #16]
	str	x8, [sp, #408]
	ldr	x8, [x21, #8]
	str	x8, [sp, #400]
	ldr	x8, [x21, #24]
	str	x8, [sp, #416]
	ldr	x8, [x21, #32]
	str	x8, [sp, #240]
	ldr	x8, [x21, #40]
	str	x8, [sp, #232]
	cbz	x10, .Lrekusoyen_raw_step_0_1_0.15
	cmp	x10, #2
	b.eq	.Lrekusoyen_raw_step_0_1_0.14
	cmp	x10, #1
	b.ne	.Lrekusoyen_raw_step_0_1_0.21
	str	x24, [sp, #168]
	mov	x10, xzr
	mov	x30, xzr
	str	x19, [sp, #152]
	mov	x19, xzr
	mov	w25, #1
	b	.Lrekusoyen_raw_step_0_1_0.16
.Lrekusoyen_raw_step_0_1_0.14:
	ldp	x30, x10, [x21, #384]
	mov	x25, xzr
	str	x19, [sp, #152]
	ldr	x19, [x21, #376]
	str	x24, [sp, #168]
	b	.Lrekusoyen_raw_step_0_1_0.16
.Lrekusoyen_raw_step_0_1_0.15:
	str	x24, [sp, #168]
	mov	w25, #2
	mov	x30, x10
	str	x19, [sp, #152]
	mov	x19, x10
.Lrekusoyen_raw_step_0_1_0.16:
	ldr	x8, [x21, #344]
	str	x7, [sp, #160]
	cbz	x8, .Lrekusoyen_raw_step_0_1_0.24
	lsr	x10, x8, #32
	cbnz	x10, .Lrekusoyen_raw_step_0_1_0.21
	sub	w10, w8, #1
	mov	w8, #32
	cmp	w10, #107
	b.hi	.Lrekusoyen_raw_step_0_1_0.22
	stp	x11, x26, [sp, #136]
	adrp	x11, .Lrekusoyen_raw_step_0_1_0.JTI0
	add	x11, x11, :lo12:.Lrekusoyen_raw_step_0_1_0.JTI0
	stp	x6, x17, [sp, #56]
	mov	x25, xzr
	mov	x19, xzr
	stp	x16, x15, [sp, #72]
	mov	x15, xzr
	mov	x30, xzr
	str	x14, [sp, #88]
	mov	x14, xzr
	mov	x24, xzr
	str	x13, [sp, #32]
	str	x12, [sp, #128]
	adr	x12, .Lrekusoyen_raw_step_0_1_0.20
	ldrh	w13, [x11, x10, lsl #1]
	add	x12, x12, x13, lsl #2
	mov	w11, #1
	mov	w13, #1
	br	x12
.Lrekusoyen_raw_step_0_1_0.20:
	mov	w11, wzr
	mov	x14, xzr
	mov	x15, xzr
	mov	x25, xzr
	mov	x19, xzr
	mov	x30, xzr
	mov	x24, xzr
	b	.Lrekusoyen_raw_step_0_1_0.25
.Lrekusoyen_raw_step_0_1_0.21:
	mov	w8, #32
.Lrekusoyen_raw_step_0_1_0.22:
	mov	w0, w8
.Lrekusoyen_raw_step_0_1_0.23:
	add	sp, sp, #2576
	ldp	x20, x19, [sp, #80]
	ldp	x22, x21, [sp, #64]
	ldp	x24, x23, [sp, #48]
	ldp	x26, x25, [sp, #32]
	ldp	x28, x27, [sp, #16]
	ldp	x29, x30, [sp], #96
	b	rekusoyen_0_1_0.answers.U32FromRefusal.from
.Lrekusoyen_raw_step_0_1_0.24:
	stp	x16, x15, [sp, #72]
	mov	x24, x10
	str	x14, [sp, #88]
	ldp	x14, x15, [x21, #352]
	stp	x11, x26, [sp, #136]
	mov	w11, wzr
	stp	x6, x17, [sp, #56]
	str	x13, [sp, #32]
	mov	w13, wzr
	str	x12, [sp, #128]
.Lrekusoyen_raw_step_0_1_0.25:
	add	x8, sp, #912
	stp	x0, x23, [sp, #16]
	add	x26, sp, #432
	add	x0, x8, #8
	str	x1, [sp, #120]
	add	x1, x2, x9
	mov	x2, x3
	stp	w13, w11, [sp, #96]
	mov	x23, x30
	stp	x15, x14, [sp, #104]
	stp	x4, x5, [sp, #40]
	strh	wzr, [sp, #428]
	str	wzr, [sp, #424]
	bl	rekusoyen_0_1_0.guest.maps.from_numbers
	ldr	x8, [sp, #400]
	movi	v0.2d, #0000000000000000
	ldp	x2, x17, [sp, #120]
	ldp	x3, x1, [sp, #80]
	mov	w0, #31
	str	x8, [sp, #1192]
	ldr	x8, [sp, #408]
	ldr	x30, [sp, #56]
	ldp	x6, x4, [sp, #64]
	ldr	x9, [sp, #160]
	str	x8, [sp, #1200]
	ldr	x8, [sp, #416]
	str	x27, [sp, #1184]
	str	x8, [sp, #1208]
	ldr	x8, [sp, #392]
	str	x1, [sp, #1360]
	str	x8, [sp, #1216]
	ldr	x8, [sp, #376]
	str	x3, [sp, #1368]
	str	x8, [sp, #1224]
	ldr	x8, [sp, #360]
	str	x4, [sp, #1376]
	str	x8, [sp, #1232]
	ldr	x8, [sp, #352]
	str	x6, [sp, #1384]
	str	x8, [sp, #1240]
	ldr	x8, [sp, #344]
	str	x30, [sp, #1392]
	str	x8, [sp, #1248]
	ldr	x8, [sp, #336]
	str	x9, [sp, #1400]
	str	x8, [sp, #1256]
	ldr	x8, [sp, #328]
	strh	wzr, [sp, #1494]
	str	x8, [sp, #1264]
	ldr	x8, [sp, #320]
	str	x25, [sp, #8]
	str	x8, [sp, #1272]
	ldr	x8, [sp, #304]
	str	x25, [sp, #1512]
	str	x8, [sp, #1280]
	ldr	x8, [sp, #224]
	str	x19, [sp, #1520]
	str	x8, [sp, #1288]
	ldr	x8, [sp, #216]
	str	x23, [sp, #1528]
	str	x8, [sp, #1296]
	ldr	x8, [sp, #208]
	str	x24, [sp, #1536]
	str	x8, [sp, #1304]
	ldr	x8, [sp, #200]
	str	x17, [sp, #1576]
	str	x8, [sp, #1312]
	ldr	x8, [sp, #192]
	stp	q0, q0, [sp, #432]
	str	x8, [sp, #1320]
	ldr	x8, [sp, #184]
	stp	q0, q0, [sp, #464]
	str	x8, [sp, #1328]
	ldr	x8, [sp, #176]
	stp	q0, q0, [sp, #496]
	str	x8, [sp, #1336]
	ldr	x8, [sp, #384]
	stp	q0, q0, [sp, #528]
	str	x8, [sp, #1344]
	ldr	x8, [sp, #368]
	stp	q0, q0, [x26, #128]
	str	x8, [sp, #1352]
	ldr	x8, [sp, #312]
	stp	q0, q0, [x26, #160]
	str	x8, [sp, #1408]
	ldr	x8, [sp, #296]
	stp	q0, q0, [x26, #192]
	str	x8, [sp, #1416]
	ldr	x8, [sp, #288]
	stp	q0, q0, [x26, #224]
	str	x8, [sp, #1424]
	ldr	x8, [sp, #280]
	stp	q0, q0, [x26, #256]
	str	x8, [sp, #1432]
	ldr	x8, [sp, #272]
	stp	q0, q0, [x26, #288]
	str	x8, [sp, #1440]
	ldr	x8, [sp, #264]
	stp	q0, q0, [x26, #320]
	str	x8, [sp, #1448]
	ldr	x8, [sp, #256]
	stp	q0, q0, [x26, #352]
	str	x8, [sp, #1456]
	ldr	x8, [sp, #248]
	stp	q0, q0, [x26, #384]
	str	x8, [sp, #1464]
	ldr	x8, [sp, #240]
	stp	q0, q0, [x26, #416]
	str	x8, [sp, #1472]
	ldr	x8, [sp, #232]
	str	q0, [x26, #448]
	str	x8, [sp, #1480]
	ldp	w8, w10, [sp, #96]
	str	xzr, [sp, #896]
	str	x2, [sp, #912]
	strb	w8, [sp, #1488]
	add	x8, sp, #1184
	add	x8, x8, #306
	strb	w10, [sp, #1489]
	ldr	x10, [sp, #152]
	str	wzr, [x8]
	ldr	x8, [sp, #112]
	cmp	x10, #2
	str	x8, [sp, #1496]
	ldr	x8, [sp, #104]
	str	x8, [sp, #1504]
	mov	w8, #1
	cinc	x8, x8, ne
	cmp	x10, #1
	csel	x10, xzr, x8, eq
	ldr	x8, [sp, #168]
	str	x10, [sp, #1544]
	str	x8, [sp, #1552]
	ldp	x16, x8, [sp, #136]
	str	x8, [sp, #1568]
	mov	x8, #1
	movk	x8, #256, lsl #32
	str	x16, [sp, #1560]
	cmp	x2, x8
	b.hs	.Lrekusoyen_raw_step_0_1_0.23
	ldp	x9, x5, [sp, #40]
	str	x10, [sp, #152]
	cmp	x5, x8
	b.hs	.Lrekusoyen_raw_step_0_1_0.23
	ldr	x10, [sp, #920]
	cmp	x10, #16
	b.ls	.Lrekusoyen_raw_step_0_1_0.29
.Lrekusoyen_raw_step_0_1_0.28:
	mov	w0, #43
	b	.Lrekusoyen_raw_step_0_1_0.23
.Lrekusoyen_raw_step_0_1_0.29:
	ldrb	w8, [sp, #1184]
	mov	x25, x19
	mov	x19, x23
	cbz	x10, .Lrekusoyen_raw_step_0_1_0.40
	ldr	x12, [sp, #1056]
	cbz	x12, .Lrekusoyen_raw_step_0_1_0.28
	ldr	x13, [sp, #928]
	mov	w0, #43
	subs	x11, x2, x13
	b.lo	.Lrekusoyen_raw_step_0_1_0.23
	cmp	x12, x11
	b.hi	.Lrekusoyen_raw_step_0_1_0.23
	subs	x11, x10, #1
	b.eq	.Lrekusoyen_raw_step_0_1_0.40
	add	x15, sp, #912
	add	x14, x12, x13
	add	x12, x15, #152
.Lrekusoyen_raw_step_0_1_0.35:
	ldur	x13, [x12, #-128]
	mov	w0, #43
	cmp	x14, x13
	b.hs	.Lrekusoyen_raw_step_0_1_0.23
	ldr	x14, [x12], #8
	cbz	x14, .Lrekusoyen_raw_step_0_1_0.23
	subs	x15, x2, x13
	b.lo	.Lrekusoyen_raw_step_0_1_0.23
	cmp	x14, x15
	b.hi	.Lrekusoyen_raw_step_0_1_0.23
	subs	x11, x11, #1
	add	x14, x14, x13
	b.ne	.Lrekusoyen_raw_step_0_1_0.35
.Lrekusoyen_raw_step_0_1_0.40:
	ldr	x7, [sp, #32]
	cbz	x7, .Lrekusoyen_raw_step_0_1_0.51
	cbz	w8, .Lrekusoyen_raw_step_0_1_0.52
	ldr	x11, [sp, #408]
	mov	w0, #35
	cmp	x11, x2
	b.ne	.Lrekusoyen_raw_step_0_1_0.23
	ldr	x11, [sp, #400]
	cmp	x11, x5
	b.ne	.Lrekusoyen_raw_step_0_1_0.23
	ldr	x11, [sp, #416]
	cmp	x11, x10
	b.ne	.Lrekusoyen_raw_step_0_1_0.23
	ldr	x10, [sp, #416]
	cbz	x10, .Lrekusoyen_raw_step_0_1_0.49
	ldr	x10, [sp, #928]
	ldr	x11, [sp, #392]
	cmp	x11, x10
	b.ne	.Lrekusoyen_raw_step_0_1_0.23
	ldr	x10, [sp, #1056]
	ldr	x11, [sp, #384]
	cmp	x11, x10
	b.ne	.Lrekusoyen_raw_step_0_1_0.23
	ldr	x10, [sp, #416]
	cmp	x10, #1
	b.ne	.Lrekusoyen_raw_step_0_1_0.141
.Lrekusoyen_raw_step_0_1_0.49:
	cmp	w8, #2
	b.ne	.Lrekusoyen_raw_step_0_1_0.63
	ldr	x9, [sp, #416]
	add	x8, sp, #432
	ldrh	w11, [sp, #428]
	add	x10, x8, #306
	ldr	x12, [sp, #8]
	stp	x27, x5, [sp, #432]
	stp	x2, x9, [sp, #448]
	ldr	x9, [sp, #392]
	ldp	w14, w13, [sp, #96]
	str	x9, [sp, #464]
	ldr	x9, [sp, #376]
	strh	w11, [sp, #742]
	str	x9, [sp, #472]
	ldr	x9, [sp, #360]
	str	x19, [sp, #888]
	str	x9, [sp, #480]
	ldr	x9, [sp, #352]
	str	x24, [sp, #896]
	str	x9, [sp, #488]
	ldr	x9, [sp, #344]
	str	x1, [sp, #608]
	str	x9, [sp, #496]
	ldr	x9, [sp, #336]
	str	x3, [sp, #616]
	str	x9, [sp, #504]
	ldr	x9, [sp, #328]
	str	x4, [sp, #624]
	str	x9, [sp, #512]
	ldr	x9, [sp, #320]
	str	x6, [sp, #632]
	str	x9, [sp, #520]
	ldr	x9, [sp, #304]
	str	x30, [sp, #640]
	str	x9, [sp, #528]
	ldr	x9, [sp, #224]
	strb	w14, [sp, #736]
	str	x9, [sp, #536]
	ldr	x9, [sp, #216]
	strb	w13, [sp, #737]
	str	x9, [sp, #544]
	ldr	x9, [sp, #208]
	str	x12, [sp, #760]
	str	x9, [sp, #552]
	ldr	x9, [sp, #200]
	str	x25, [sp, #768]
	str	x9, [sp, #560]
	ldr	x9, [sp, #192]
	str	x19, [sp, #776]
	str	x9, [sp, #568]
	ldr	x9, [sp, #184]
	str	x24, [sp, #784]
	str	x9, [sp, #576]
	ldr	x9, [sp, #176]
	str	x16, [sp, #808]
	str	x9, [sp, #584]
	ldr	x9, [sp, #384]
	str	x17, [sp, #824]
	str	x9, [sp, #592]
	ldr	x9, [sp, #368]
	strb	w14, [sp, #848]
	str	x9, [sp, #600]
	ldr	x9, [sp, #160]
	strb	w13, [sp, #849]
	str	x9, [sp, #648]
	ldr	x9, [sp, #312]
	strh	wzr, [sp, #854]
	str	x9, [sp, #656]
	ldr	x9, [sp, #296]
	str	x25, [sp, #880]
	str	x9, [sp, #664]
	ldr	x9, [sp, #288]
	str	x12, [sp, #872]
	str	x9, [sp, #672]
	ldr	x9, [sp, #280]
	str	x9, [sp, #680]
	ldr	x9, [sp, #272]
	str	x9, [sp, #688]
	ldr	x9, [sp, #264]
	str	x9, [sp, #696]
	ldr	x9, [sp, #256]
	str	x9, [sp, #704]
	ldr	x9, [sp, #248]
	str	x9, [sp, #712]
	ldr	x9, [sp, #240]
	str	x9, [sp, #720]
	ldr	x9, [sp, #232]
	str	x9, [sp, #728]
	ldr	w9, [sp, #424]
	str	w9, [x10]
	ldr	x9, [sp, #152]
	ldp	x11, x10, [sp, #104]
	str	x9, [sp, #792]
	ldr	x9, [sp, #168]
	str	x9, [sp, #800]
	ldr	x9, [sp, #144]
	str	x10, [sp, #744]
	str	x9, [sp, #816]
	mov	w9, #1
	strb	w9, [sp, #840]
	add	x9, x8, #409
	add	x8, x8, #418
	str	x11, [sp, #752]
	str	wzr, [x9]
	str	wzr, [sp, #844]
	str	wzr, [x8]
	str	x10, [sp, #856]
	str	x11, [sp, #864]
	b	.Lrekusoyen_raw_step_0_1_0.56
.Lrekusoyen_raw_step_0_1_0.51:
	mov	w0, #34
	b	.Lrekusoyen_raw_step_0_1_0.23
.Lrekusoyen_raw_step_0_1_0.52:
	ldr	x8, [sp, #152]
	movi	v0.2d, #0000000000000000
	add	x0, sp, #1584
	add	x1, sp, #912
	add	x2, x9, x28
	add	x4, sp, #2040
	str	x8, [sp, #2040]
	ldr	x8, [sp, #168]
	mov	x3, x5
	str	x16, [sp, #2056]
	str	x8, [sp, #2048]
	ldr	x8, [sp, #144]
	str	x17, [sp, #2072]
	str	x8, [sp, #2064]
	str	q0, [x26, #1648]
	str	q0, [x26, #1664]
	str	q0, [x26, #1680]
	str	q0, [x26, #1696]
	str	q0, [x26, #1712]
	str	q0, [x26, #1728]
	str	q0, [x26, #1744]
	str	q0, [x26, #1760]
	str	q0, [x26, #1776]
	str	q0, [x26, #1792]
	str	q0, [x26, #1808]
	str	q0, [x26, #1824]
	str	q0, [x26, #1840]
	str	q0, [x26, #1856]
	str	q0, [x26, #1872]
	str	q0, [x26, #1888]
	str	q0, [x26, #1904]
	str	q0, [x26, #1920]
	str	q0, [x26, #1936]
	str	q0, [x26, #1952]
	str	q0, [x26, #1968]
	str	q0, [x26, #1984]
	str	q0, [x26, #2000]
	str	q0, [x26, #2016]
	str	q0, [x26, #2032]
	str	q0, [x26, #2048]
	str	q0, [x26, #2064]
	str	q0, [x26, #2080]
	str	q0, [x26, #2096]
	str	xzr, [sp, #2544]
	str	xzr, [sp, #1944]
	str	q0, [x26, #1152]
	str	q0, [x26, #1168]
	str	q0, [x26, #1184]
	str	xzr, [sp, #1632]
	stp	x17, x16, [sp, #128]
	bl	rekusoyen_0_1_0.loads.formats.plan
	ldrb	w25, [sp, #1584]
	ldr	x8, [sp, #1592]
	add	x1, sp, #912
	ldrb	w24, [sp, #1585]
	ldr	x23, [sp, #1600]
	mov	w2, #272
	str	x8, [sp, #416]
	cmp	w25, #0
	mov	w8, #1
	cinc	w27, w8, ne
	add	x8, sp, #1640
	ldrb	w19, [sp, #1608]
	add	x0, x8, #16
	bl	memcpy
	add	x8, sp, #1386
	ldr	x5, [sp, #48]
	strb	w27, [sp, #1640]
	stur	wzr, [x8, #255]
	ldr	x8, [sp, #1632]
	ldr	x27, [sp, #416]
	ldr	q0, [x26, #1184]
	add	x9, sp, #1721
	str	wzr, [sp, #1644]
	str	x8, [sp, #1992]
	ldr	x8, [sp, #152]
	str	xzr, [sp, #1936]
	str	x8, [sp, #2000]
	ldr	x8, [sp, #168]
	str	x5, [sp, #1648]
	str	x8, [sp, #2008]
	ldr	x8, [sp, #136]
	str	xzr, [sp, #1928]
	str	x8, [sp, #2016]
	ldr	x8, [sp, #144]
	strb	w25, [sp, #1944]
	str	x8, [sp, #2024]
	ldr	x8, [sp, #128]
	str	w24, [sp, #408]
	strb	w24, [sp, #1945]
	str	x27, [sp, #1952]
	str	x23, [sp, #1960]
	str	x19, [sp, #1968]
	stur	q0, [x9, #255]
	str	x8, [sp, #2032]
	cbz	w25, .Lrekusoyen_raw_step_0_1_0.54
	add	x8, sp, #1584
	add	x0, sp, #2080
	add	x1, sp, #1640
	ldur	q0, [x8, #32]
	ldur	x8, [x8, #48]
	mov	w2, #400
	add	x20, sp, #2080
	str	q0, [x26, #2096]
	str	x8, [sp, #2544]
	bl	memcpy
	mov	w8, #1
	str	xzr, [sp, #2480]
	strb	w8, [sp, #2488]
	add	x8, x20, #409
	str	wzr, [x8]
	ldr	w8, [sp, #408]
	str	wzr, [sp, #2492]
	strb	w8, [sp, #2497]
	add	x8, x20, #418
	strb	w25, [sp, #2496]
	str	wzr, [x8]
	strh	wzr, [sp, #2502]
	str	x27, [sp, #2504]
	str	x23, [sp, #2512]
	str	x19, [sp, #2520]
	b	.Lrekusoyen_raw_step_0_1_0.55
.Lrekusoyen_raw_step_0_1_0.54:
	ldr	x8, [sp, #16]
	ldr	x2, [sp, #120]
	add	x0, sp, #2080
	add	x3, sp, #1640
	add	x6, sp, #912
	add	x1, x8, x20
	ldp	x7, x8, [sp, #32]
	add	x4, x8, x28
	bl	rekusoyen_0_1_0.loads.steps.go_on
.Lrekusoyen_raw_step_0_1_0.55:
	add	x0, sp, #432
	add	x1, sp, #2080
	mov	w2, #472
	bl	memcpy
.Lrekusoyen_raw_step_0_1_0.56:
	ldr	x8, [sp, #576]
	ldr	x20, [sp, #24]
	ldrb	w26, [sp, #840]
	ldp	x25, x19, [sp, #440]
	ldrb	w30, [sp, #432]
	add	x20, x22, x20
	add	x22, x21, #336
	str	x8, [sp, #264]
	ldr	x8, [sp, #584]
	ldr	x15, [sp, #520]
	ldr	x0, [sp, #528]
	ldr	x14, [sp, #536]
	ldr	x12, [sp, #544]
	ldr	x11, [sp, #552]
	str	x8, [sp, #272]
	ldr	x8, [sp, #592]
	ldr	x10, [sp, #560]
	ldr	x13, [sp, #568]
	ldr	x28, [sp, #720]
	ldr	x27, [sp, #728]
	str	x8, [sp, #280]
	ldr	x8, [sp, #600]
	ldrb	w1, [sp, #800]
	ldr	x9, [sp, #808]
	ldr	x23, [sp, #832]
	ldr	x24, [sp, #824]
	str	x8, [sp, #288]
	ldr	x8, [sp, #608]
	ldp	x7, x6, [sp, #456]
	str	x8, [sp, #296]
	ldr	x8, [sp, #616]
	ldp	x5, x4, [sp, #472]
	str	x8, [sp, #304]
	ldr	x8, [sp, #624]
	ldp	x3, x2, [sp, #488]
	str	x8, [sp, #312]
	ldr	x8, [sp, #632]
	ldp	x17, x16, [sp, #504]
	str	x8, [sp, #320]
	ldr	x8, [sp, #640]
	str	x8, [sp, #328]
	ldr	x8, [sp, #648]
	str	x8, [sp, #336]
	ldr	x8, [sp, #656]
	str	x8, [sp, #344]
	ldr	x8, [sp, #664]
	str	x8, [sp, #352]
	ldr	x8, [sp, #672]
	str	x8, [sp, #360]
	ldr	x8, [sp, #680]
	str	x8, [sp, #368]
	ldr	x8, [sp, #688]
	str	x8, [sp, #376]
	ldr	x8, [sp, #696]
	str	x8, [sp, #392]
	ldr	x8, [sp, #704]
	str	x8, [sp, #400]
	ldr	x8, [sp, #712]
	str	x8, [sp, #408]
	ldrb	w8, [sp, #736]
	str	w8, [sp, #416]
	ldrb	w8, [sp, #737]
	str	w8, [sp, #248]
	ldr	x8, [sp, #744]
	str	x8, [sp, #240]
	ldr	x8, [sp, #752]
	str	x8, [sp, #232]
	ldrb	w8, [sp, #760]
	str	w8, [sp, #256]
	ldr	x8, [sp, #768]
	str	x8, [sp, #224]
	ldr	x8, [sp, #776]
	str	x8, [sp, #216]
	ldr	x8, [sp, #784]
	str	x8, [sp, #208]
	ldrb	w8, [sp, #792]
	str	x8, [sp, #384]
	ldrb	w8, [sp, #816]
	cbz	w26, .Lrekusoyen_raw_step_0_1_0.60
	cmp	w26, #1
	b.ne	.Lrekusoyen_raw_step_0_1_0.62
	cmp	w1, #1
	mov	x26, x23
	stp	x30, x25, [x21]
	cset	w1, eq
	csel	x9, x9, xzr, eq
	cmp	w8, #1
	stp	x1, x9, [x21, #48]
	cset	w8, eq
	csel	x9, x24, xzr, eq
	stp	x8, x9, [x21, #64]
	ldr	x8, [sp, #264]
	ldr	x9, [sp, #392]
	ldrb	w30, [sp, #848]
	stp	x19, x7, [x21, #16]
	ldrb	w19, [sp, #849]
	str	x8, [x21, #192]
	ldr	x8, [sp, #272]
	ldr	x24, [sp, #856]
	str	x9, [x21, #312]
	ldr	x9, [sp, #400]
	ldr	x23, [sp, #864]
	str	x8, [x21, #200]
	ldr	x8, [sp, #280]
	ldr	x25, [sp, #880]
	stp	x28, x27, [x21, #32]
	ldr	x27, [sp, #888]
	ldr	x28, [sp, #896]
	str	x8, [x21, #208]
	ldr	x8, [sp, #288]
	str	x9, [x21, #320]
	ldr	x9, [sp, #408]
	str	x8, [x21, #216]
	ldr	x8, [sp, #296]
	stp	x6, x5, [x21, #80]
	str	x8, [x21, #224]
	ldr	x8, [sp, #304]
	stp	x4, x3, [x21, #96]
	str	x8, [x21, #232]
	ldr	x8, [sp, #312]
	stp	x2, x17, [x21, #112]
	str	x8, [x21, #240]
	ldr	x8, [sp, #320]
	stp	x16, x15, [x21, #128]
	str	x8, [x21, #248]
	ldr	x8, [sp, #328]
	stp	x0, x14, [x21, #144]
	str	x8, [x21, #256]
	ldr	x8, [sp, #336]
	stp	x12, x11, [x21, #160]
	str	x8, [x21, #264]
	ldr	x8, [sp, #344]
	stp	x10, x13, [x21, #176]
	str	x8, [x21, #272]
	ldr	x8, [sp, #352]
	str	x9, [x21, #328]
	str	x8, [x21, #280]
	ldr	x8, [sp, #360]
	str	x8, [x21, #288]
	ldrb	w8, [sp, #872]
	str	w8, [sp, #360]
	ldr	x8, [sp, #368]
	str	x8, [x21, #296]
	ldr	x8, [sp, #376]
	str	x8, [x21, #304]
	add	x8, sp, #2080
	sub	x8, x22, x8
	cmp	x8, #7
	ldr	x8, [sp, #384]
	add	x8, x8, #1
	str	x8, [x22]
	ldr	w8, [sp, #416]
	cbz	w8, .Lrekusoyen_raw_step_0_1_0.135
	ldr	w0, [sp, #248]
	mov	w22, w30
	bl	rekusoyen_0_1_0.answers.U32FromRefusal.from
	mov	w30, w22
	mov	x10, xzr
	mov	x11, xzr
	mov	x8, xzr
	mov	x12, xzr
	mov	x13, xzr
	mov	x14, xzr
	mov	w9, w0
	b	.Lrekusoyen_raw_step_0_1_0.189
.Lrekusoyen_raw_step_0_1_0.60:
	cmp	w1, #1
	mov	x26, x23
	add	x23, sp, #2080
	cset	w1, eq
	csel	x9, x9, xzr, eq
	cmp	w8, #1
	stp	x1, x9, [x21, #48]
	cset	w8, eq
	csel	x9, x24, xzr, eq
	stp	x8, x9, [x21, #64]
	ldr	x8, [sp, #264]
	stp	x19, x7, [x21, #16]
	mov	x19, x26
	str	x8, [x21, #192]
	ldr	x8, [sp, #272]
	stp	x30, x25, [x21]
	str	x8, [x21, #200]
	ldr	x8, [sp, #280]
	stp	x28, x27, [x21, #32]
	str	x8, [x21, #208]
	ldr	x8, [sp, #288]
	stp	x6, x5, [x21, #80]
	str	x8, [x21, #216]
	ldr	x8, [sp, #296]
	stp	x4, x3, [x21, #96]
	str	x8, [x21, #224]
	ldr	x8, [sp, #304]
	stp	x2, x17, [x21, #112]
	str	x8, [x21, #232]
	ldr	x8, [sp, #312]
	stp	x16, x15, [x21, #128]
	str	x8, [x21, #240]
	ldr	x8, [sp, #320]
	stp	x0, x14, [x21, #144]
	str	x8, [x21, #248]
	ldr	x8, [sp, #328]
	stp	x12, x11, [x21, #160]
	str	x8, [x21, #256]
	ldr	x8, [sp, #336]
	stp	x10, x13, [x21, #176]
	str	x8, [x21, #264]
	ldr	x8, [sp, #344]
	str	x8, [x21, #272]
	ldr	x8, [sp, #352]
	str	x8, [x21, #280]
	ldr	x8, [sp, #360]
	str	x8, [x21, #288]
	ldr	x8, [sp, #368]
	str	x8, [x21, #296]
	ldr	x8, [sp, #376]
	str	x8, [x21, #304]
	ldp	x8, x9, [sp, #392]
	stp	x8, x9, [x21, #312]
	sub	x8, x22, x23
	ldr	x9, [sp, #408]
	cmp	x8, #7
	ldr	x8, [sp, #384]
	str	x9, [x21, #328]
	ldr	w9, [sp, #416]
	add	x8, x8, #1
	str	x8, [x22]
	ldr	w8, [sp, #256]
	cbz	w9, .Lrekusoyen_raw_step_0_1_0.138
	ldr	w0, [sp, #248]
	bl	rekusoyen_0_1_0.answers.U32FromRefusal.from
	mov	x10, xzr
	mov	x11, xzr
	mov	x8, xzr
	mov	x12, xzr
	mov	x13, xzr
	mov	x14, xzr
	mov	w9, w0
	b	.Lrekusoyen_raw_step_0_1_0.199
.Lrekusoyen_raw_step_0_1_0.62:
	ldrb	w0, [sp, #841]
	b	.Lrekusoyen_raw_step_0_1_0.23
.Lrekusoyen_raw_step_0_1_0.63:
	ldr	x8, [sp, #16]
	add	x0, sp, #432
	add	x3, sp, #1184
	add	x4, x9, x28
	add	x6, sp, #912
	add	x1, x8, x20
	bl	rekusoyen_0_1_0.loads.steps.go_on
	b	.Lrekusoyen_raw_step_0_1_0.56
.Lrekusoyen_raw_step_0_1_0.64:
	mov	x14, xzr
	mov	x15, xzr
	mov	x25, xzr
	mov	x19, xzr
	mov	x30, xzr
	mov	x24, xzr
	mov	w11, #66
	b	.Lrekusoyen_raw_step_0_1_0.25
.Lrekusoyen_raw_step_0_1_0.65:
	mov	x14, xzr
	mov	x15, xzr
	mov	x25, xzr
	mov	x19, xzr
	mov	x30, xzr
	mov	x24, xzr
	mov	w11, #72
	b	.Lrekusoyen_raw_step_0_1_0.25
.Lrekusoyen_raw_step_0_1_0.66:
	mov	x14, xzr
	mov	x15, xzr
	mov	x25, xzr
	mov	x19, xzr
	mov	x30, xzr
	mov	x24, xzr
	mov	w11, #43
	b	.Lrekusoyen_raw_step_0_1_0.25
.Lrekusoyen_raw_step_0_1_0.67:
	mov	x14, xzr
	mov	x15, xzr
	mov	x25, xzr
	mov	x19, xzr
	mov	x30, xzr
	mov	x24, xzr
	mov	w11, #50
	b	.Lrekusoyen_raw_step_0_1_0.25
.Lrekusoyen_raw_step_0_1_0.68:
	mov	x14, xzr
	mov	x15, xzr
	mov	x25, xzr
	mov	x19, xzr
	mov	x30, xzr
	mov	x24, xzr
	mov	w11, #56
	b	.Lrekusoyen_raw_step_0_1_0.25
.Lrekusoyen_raw_step_0_1_0.69:
	mov	x14, xzr
	mov	x15, xzr
	mov	x25, xzr
	mov	x19, xzr
	mov	x30, xzr
	mov	x24, xzr
	mov	w11, #53
	b	.Lrekusoyen_raw_step_0_1_0.25
.Lrekusoyen_raw_step_0_1_0.70:
	mov	x14, xzr
	mov	x15, xzr
	mov	x25, xzr
	mov	x19, xzr
	mov	x30, xzr
	mov	x24, xzr
	mov	w11, #49
	b	.Lrekusoyen_raw_step_0_1_0.25
.Lrekusoyen_raw_step_0_1_0.71:
	mov	x14, xzr
	mov	x15, xzr
	mov	x25, xzr
	mov	x19, xzr
	mov	x30, xzr
	mov	x24, xzr
	mov	w11, #32
	b	.Lrekusoyen_raw_step_0_1_0.25
.Lrekusoyen_raw_step_0_1_0.72:
	mov	x14, xzr
	mov	x15, xzr
	mov	x25, xzr
	mov	x19, xzr
	mov	x30, xzr
	mov	x24, xzr
	mov	w11, #39
	b	.Lrekusoyen_raw_step_0_1_0.25
.Lrekusoyen_raw_step_0_1_0.73:
	mov	x14, xzr
	mov	x15, xzr
	mov	x25, xzr
	mov	x19, xzr
	mov	x30, xzr
	mov	x24, xzr
	mov	w11, #38
	b	.Lrekusoyen_raw_step_0_1_0.25
.Lrekusoyen_raw_step_0_1_0.74:
	mov	x14, xzr
	mov	x15, xzr
	mov	x25, xzr
	mov	x19, xzr
	mov	x30, xzr
	mov	x24, xzr
	mov	w11, #36
	b	.Lrekusoyen_raw_step_0_1_0.25
.Lrekusoyen_raw_step_0_1_0.75:
	mov	x14, xzr
	mov	x15, xzr
	mov	x25, xzr
	mov	x19, xzr
	mov	x30, xzr
	mov	x24, xzr
	mov	w11, #26
	b	.Lrekusoyen_raw_step_0_1_0.25
.Lrekusoyen_raw_step_0_1_0.76:
	mov	x14, xzr
	mov	x15, xzr
	mov	x25, xzr
	mov	x19, xzr
	mov	x30, xzr
	mov	x24, xzr
	mov	w11, #44
	b	.Lrekusoyen_raw_step_0_1_0.25
.Lrekusoyen_raw_step_0_1_0.77:
	mov	x14, xzr
	mov	x15, xzr
	mov	x25, xzr
	mov	x19, xzr
	mov	x30, xzr
	mov	x24, xzr
	mov	w11, #18
	b	.Lrekusoyen_raw_step_0_1_0.25
.Lrekusoyen_raw_step_0_1_0.78:
	mov	x14, xzr
	mov	x15, xzr
	mov	x25, xzr
	mov	x19, xzr
	mov	x30, xzr
	mov	x24, xzr
	mov	w11, #64
	b	.Lrekusoyen_raw_step_0_1_0.25
.Lrekusoyen_raw_step_0_1_0.79:
	mov	x14, xzr
	mov	x15, xzr
	mov	x25, xzr
	mov	x19, xzr
	mov	x30, xzr
	mov	x24, xzr
	mov	w11, #9
	b	.Lrekusoyen_raw_step_0_1_0.25
.Lrekusoyen_raw_step_0_1_0.80:
	mov	x14, xzr
	mov	x15, xzr
	mov	x25, xzr
	mov	x19, xzr
	mov	x30, xzr
	mov	x24, xzr
	mov	w11, #33
	b	.Lrekusoyen_raw_step_0_1_0.25
.Lrekusoyen_raw_step_0_1_0.81:
	mov	x14, xzr
	mov	x15, xzr
	mov	x25, xzr
	mov	x19, xzr
	mov	x30, xzr
	mov	x24, xzr
	mov	w11, #21
	b	.Lrekusoyen_raw_step_0_1_0.25
.Lrekusoyen_raw_step_0_1_0.82:
	mov	x14, xzr
	mov	x15, xzr
	mov	x25, xzr
	mov	x19, xzr
	mov	x30, xzr
	mov	x24, xzr
	mov	w11, #13
	b	.Lrekusoyen_raw_step_0_1_0.25
.Lrekusoyen_raw_step_0_1_0.83:
	mov	x14, xzr
	mov	x15, xzr
	mov	x25, xzr
	mov	x19, xzr
	mov	x30, xzr
	mov	x24, xzr
	mov	w11, #25
	b	.Lrekusoyen_raw_step_0_1_0.25
.Lrekusoyen_raw_step_0_1_0.84:
	mov	x14, xzr
	mov	x15, xzr
	mov	x25, xzr
	mov	x19, xzr
	mov	x30, xzr
	mov	x24, xzr
	mov	w11, #23
	b	.Lrekusoyen_raw_step_0_1_0.25
.Lrekusoyen_raw_step_0_1_0.85:
	mov	x14, xzr
	mov	x15, xzr
	mov	x25, xzr
	mov	x19, xzr
	mov	x30, xzr
	mov	x24, xzr
	mov	w11, #7
	b	.Lrekusoyen_raw_step_0_1_0.25
.Lrekusoyen_raw_step_0_1_0.86:
	mov	x14, xzr
	mov	x15, xzr
	mov	x25, xzr
	mov	x19, xzr
	mov	x30, xzr
	mov	x24, xzr
	mov	w11, #40
	b	.Lrekusoyen_raw_step_0_1_0.25
.Lrekusoyen_raw_step_0_1_0.87:
	mov	x14, xzr
	mov	x15, xzr
	mov	x25, xzr
	mov	x19, xzr
	mov	x30, xzr
	mov	x24, xzr
	mov	w11, #10
	b	.Lrekusoyen_raw_step_0_1_0.25
.Lrekusoyen_raw_step_0_1_0.88:
	mov	x14, xzr
	mov	x15, xzr
	mov	x25, xzr
	mov	x19, xzr
	mov	x30, xzr
	mov	x24, xzr
	mov	w11, #28
	b	.Lrekusoyen_raw_step_0_1_0.25
.Lrekusoyen_raw_step_0_1_0.89:
	mov	x14, xzr
	mov	x15, xzr
	mov	x25, xzr
	mov	x19, xzr
	mov	x30, xzr
	mov	x24, xzr
	mov	w11, #8
	b	.Lrekusoyen_raw_step_0_1_0.25
.Lrekusoyen_raw_step_0_1_0.90:
	mov	x14, xzr
	mov	x15, xzr
	mov	x25, xzr
	mov	x19, xzr
	mov	x30, xzr
	mov	x24, xzr
	mov	w11, #5
	b	.Lrekusoyen_raw_step_0_1_0.25
.Lrekusoyen_raw_step_0_1_0.91:
	mov	x14, xzr
	mov	x15, xzr
	mov	x25, xzr
	mov	x19, xzr
	mov	x30, xzr
	mov	x24, xzr
	mov	w11, #6
	b	.Lrekusoyen_raw_step_0_1_0.25
.Lrekusoyen_raw_step_0_1_0.92:
	mov	x14, xzr
	mov	x15, xzr
	mov	x25, xzr
	mov	x19, xzr
	mov	x30, xzr
	mov	x24, xzr
	mov	w11, #69
	b	.Lrekusoyen_raw_step_0_1_0.25
.Lrekusoyen_raw_step_0_1_0.93:
	mov	x14, xzr
	mov	x15, xzr
	mov	x25, xzr
	mov	x19, xzr
	mov	x30, xzr
	mov	x24, xzr
	mov	w11, #29
	b	.Lrekusoyen_raw_step_0_1_0.25
.Lrekusoyen_raw_step_0_1_0.94:
	mov	x14, xzr
	mov	x15, xzr
	mov	x25, xzr
	mov	x19, xzr
	mov	x30, xzr
	mov	x24, xzr
	mov	w11, #31
	b	.Lrekusoyen_raw_step_0_1_0.25
.Lrekusoyen_raw_step_0_1_0.95:
	mov	x14, xzr
	mov	x15, xzr
	mov	x25, xzr
	mov	x19, xzr
	mov	x30, xzr
	mov	x24, xzr
	mov	w11, #22
	b	.Lrekusoyen_raw_step_0_1_0.25
.Lrekusoyen_raw_step_0_1_0.96:
	mov	x14, xzr
	mov	x15, xzr
	mov	x25, xzr
	mov	x19, xzr
	mov	x30, xzr
	mov	x24, xzr
	mov	w11, #4
	b	.Lrekusoyen_raw_step_0_1_0.25
.Lrekusoyen_raw_step_0_1_0.97:
	mov	x14, xzr
	mov	x15, xzr
	mov	x25, xzr
	mov	x19, xzr
	mov	x30, xzr
	mov	x24, xzr
	mov	w11, #12
	b	.Lrekusoyen_raw_step_0_1_0.25
.Lrekusoyen_raw_step_0_1_0.98:
	mov	x14, xzr
	mov	x15, xzr
	mov	x25, xzr
	mov	x19, xzr
	mov	x30, xzr
	mov	x24, xzr
	mov	w11, #19
	b	.Lrekusoyen_raw_step_0_1_0.25
.Lrekusoyen_raw_step_0_1_0.99:
	mov	x14, xzr
	mov	x15, xzr
	mov	x25, xzr
	mov	x19, xzr
	mov	x30, xzr
	mov	x24, xzr
	mov	w11, #11
	b	.Lrekusoyen_raw_step_0_1_0.25
.Lrekusoyen_raw_step_0_1_0.100:
	mov	x14, xzr
	mov	x15, xzr
	mov	x25, xzr
	mov	x19, xzr
	mov	x30, xzr
	mov	x24, xzr
	mov	w11, #41
	b	.Lrekusoyen_raw_step_0_1_0.25
.Lrekusoyen_raw_step_0_1_0.101:
	mov	x14, xzr
	mov	x15, xzr
	mov	x25, xzr
	mov	x19, xzr
	mov	x30, xzr
	mov	x24, xzr
	mov	w11, #2
	b	.Lrekusoyen_raw_step_0_1_0.25
.Lrekusoyen_raw_step_0_1_0.102:
	mov	x14, xzr
	mov	x15, xzr
	mov	x25, xzr
	mov	x19, xzr
	mov	x30, xzr
	mov	x24, xzr
	mov	w11, #45
	b	.Lrekusoyen_raw_step_0_1_0.25
.Lrekusoyen_raw_step_0_1_0.103:
	mov	x14, xzr
	mov	x15, xzr
	mov	x25, xzr
	mov	x19, xzr
	mov	x30, xzr
	mov	x24, xzr
	mov	w11, #48
	b	.Lrekusoyen_raw_step_0_1_0.25
.Lrekusoyen_raw_step_0_1_0.104:
	mov	x14, xzr
	mov	x15, xzr
	mov	x25, xzr
	mov	x19, xzr
	mov	x30, xzr
	mov	x24, xzr
	mov	w11, #24
	b	.Lrekusoyen_raw_step_0_1_0.25
.Lrekusoyen_raw_step_0_1_0.105:
	mov	x14, xzr
	mov	x15, xzr
	mov	x25, xzr
	mov	x19, xzr
	mov	x30, xzr
	mov	x24, xzr
	mov	w11, #46
	b	.Lrekusoyen_raw_step_0_1_0.25
.Lrekusoyen_raw_step_0_1_0.106:
	mov	x14, xzr
	mov	x15, xzr
	mov	x25, xzr
	mov	x19, xzr
	mov	x30, xzr
	mov	x24, xzr
	mov	w11, #37
	b	.Lrekusoyen_raw_step_0_1_0.25
.Lrekusoyen_raw_step_0_1_0.107:
	mov	x14, xzr
	mov	x15, xzr
	mov	x25, xzr
	mov	x19, xzr
	mov	x30, xzr
	mov	x24, xzr
	mov	w11, #54
	b	.Lrekusoyen_raw_step_0_1_0.25
.Lrekusoyen_raw_step_0_1_0.108:
	mov	x14, xzr
	mov	x15, xzr
	mov	x25, xzr
	mov	x19, xzr
	mov	x30, xzr
	mov	x24, xzr
	mov	w11, #30
	b	.Lrekusoyen_raw_step_0_1_0.25
.Lrekusoyen_raw_step_0_1_0.109:
	mov	x14, xzr
	mov	x15, xzr
	mov	x25, xzr
	mov	x19, xzr
	mov	x30, xzr
	mov	x24, xzr
	mov	w11, #3
	b	.Lrekusoyen_raw_step_0_1_0.25
.Lrekusoyen_raw_step_0_1_0.110:
	mov	x14, xzr
	mov	x15, xzr
	mov	x25, xzr
	mov	x19, xzr
	mov	x30, xzr
	mov	x24, xzr
	mov	w11, #14
	b	.Lrekusoyen_raw_step_0_1_0.25
.Lrekusoyen_raw_step_0_1_0.111:
	mov	x14, xzr
	mov	x15, xzr
	mov	x25, xzr
	mov	x19, xzr
	mov	x30, xzr
	mov	x24, xzr
	mov	w11, #15
	b	.Lrekusoyen_raw_step_0_1_0.25
.Lrekusoyen_raw_step_0_1_0.112:
	mov	x14, xzr
	mov	x15, xzr
	mov	x25, xzr
	mov	x19, xzr
	mov	x30, xzr
	mov	x24, xzr
	mov	w11, #34
	b	.Lrekusoyen_raw_step_0_1_0.25
.Lrekusoyen_raw_step_0_1_0.113:
	mov	x14, xzr
	mov	x15, xzr
	mov	x25, xzr
	mov	x19, xzr
	mov	x30, xzr
	mov	x24, xzr
	mov	w11, #17
	b	.Lrekusoyen_raw_step_0_1_0.25
.Lrekusoyen_raw_step_0_1_0.114:
	mov	x14, xzr
	mov	x15, xzr
	mov	x25, xzr
	mov	x19, xzr
	mov	x30, xzr
	mov	x24, xzr
	mov	w11, #55
	b	.Lrekusoyen_raw_step_0_1_0.25
.Lrekusoyen_raw_step_0_1_0.115:
	mov	x14, xzr
	mov	x15, xzr
	mov	x25, xzr
	mov	x19, xzr
	mov	x30, xzr
	mov	x24, xzr
	mov	w11, #16
	b	.Lrekusoyen_raw_step_0_1_0.25
.Lrekusoyen_raw_step_0_1_0.116:
	mov	x14, xzr
	mov	x15, xzr
	mov	x25, xzr
	mov	x19, xzr
	mov	x30, xzr
	mov	x24, xzr
	mov	w11, #42
	b	.Lrekusoyen_raw_step_0_1_0.25
.Lrekusoyen_raw_step_0_1_0.117:
	mov	x14, xzr
	mov	x15, xzr
	mov	x25, xzr
	mov	x19, xzr
	mov	x30, xzr
	mov	x24, xzr
	mov	w11, #58
	b	.Lrekusoyen_raw_step_0_1_0.25
.Lrekusoyen_raw_step_0_1_0.118:
	mov	x14, xzr
	mov	x15, xzr
	mov	x25, xzr
	mov	x19, xzr
	mov	x30, xzr
	mov	x24, xzr
	mov	w11, #62
	b	.Lrekusoyen_raw_step_0_1_0.25
.Lrekusoyen_raw_step_0_1_0.119:
	mov	x14, xzr
	mov	x15, xzr
	mov	x25, xzr
	mov	x19, xzr
	mov	x30, xzr
	mov	x24, xzr
	mov	w11, #63
	b	.Lrekusoyen_raw_step_0_1_0.25
.Lrekusoyen_raw_step_0_1_0.120:
	mov	x14, xzr
	mov	x15, xzr
	mov	x25, xzr
	mov	x19, xzr
	mov	x30, xzr
	mov	x24, xzr
	mov	w11, #71
	b	.Lrekusoyen_raw_step_0_1_0.25
.Lrekusoyen_raw_step_0_1_0.121:
	mov	x14, xzr
	mov	x15, xzr
	mov	x25, xzr
	mov	x19, xzr
	mov	x30, xzr
	mov	x24, xzr
	mov	w11, #20
	b	.Lrekusoyen_raw_step_0_1_0.25
.Lrekusoyen_raw_step_0_1_0.122:
	mov	x14, xzr
	mov	x15, xzr
	mov	x25, xzr
	mov	x19, xzr
	mov	x30, xzr
	mov	x24, xzr
	mov	w11, #57
	b	.Lrekusoyen_raw_step_0_1_0.25
.Lrekusoyen_raw_step_0_1_0.123:
	mov	x14, xzr
	mov	x15, xzr
	mov	x25, xzr
	mov	x19, xzr
	mov	x30, xzr
	mov	x24, xzr
	mov	w11, #65
	b	.Lrekusoyen_raw_step_0_1_0.25
.Lrekusoyen_raw_step_0_1_0.124:
	mov	x14, xzr
	mov	x15, xzr
	mov	x25, xzr
	mov	x19, xzr
	mov	x30, xzr
	mov	x24, xzr
	mov	w11, #27
	b	.Lrekusoyen_raw_step_0_1_0.25
.Lrekusoyen_raw_step_0_1_0.125:
	mov	x14, xzr
	mov	x15, xzr
	mov	x25, xzr
	mov	x19, xzr
	mov	x30, xzr
	mov	x24, xzr
	mov	w11, #52
	b	.Lrekusoyen_raw_step_0_1_0.25
.Lrekusoyen_raw_step_0_1_0.126:
	mov	x14, xzr
	mov	x15, xzr
	mov	x25, xzr
	mov	x19, xzr
	mov	x30, xzr
	mov	x24, xzr
	mov	w11, #35
	b	.Lrekusoyen_raw_step_0_1_0.25
.Lrekusoyen_raw_step_0_1_0.127:
	mov	x14, xzr
	mov	x15, xzr
	mov	x25, xzr
	mov	x19, xzr
	mov	x30, xzr
	mov	x24, xzr
	mov	w11, #47
	b	.Lrekusoyen_raw_step_0_1_0.25
.Lrekusoyen_raw_step_0_1_0.128:
	mov	x14, xzr
	mov	x15, xzr
	mov	x25, xzr
	mov	x19, xzr
	mov	x30, xzr
	mov	x24, xzr
	mov	w11, #67
	b	.Lrekusoyen_raw_step_0_1_0.25
.Lrekusoyen_raw_step_0_1_0.129:
	mov	x14, xzr
	mov	x15, xzr
	mov	x25, xzr
	mov	x19, xzr
	mov	x30, xzr
	mov	x24, xzr
	mov	w11, #60
	b	.Lrekusoyen_raw_step_0_1_0.25
.Lrekusoyen_raw_step_0_1_0.130:
	mov	x14, xzr
	mov	x15, xzr
	mov	x25, xzr
	mov	x19, xzr
	mov	x30, xzr
	mov	x24, xzr
	mov	w11, #68
	b	.Lrekusoyen_raw_step_0_1_0.25
.Lrekusoyen_raw_step_0_1_0.131:
	mov	x14, xzr
	mov	x15, xzr
	mov	x25, xzr
	mov	x19, xzr
	mov	x30, xzr
	mov	x24, xzr
	mov	w11, #51
	b	.Lrekusoyen_raw_step_0_1_0.25
.Lrekusoyen_raw_step_0_1_0.132:
	mov	x14, xzr
	mov	x15, xzr
	mov	x25, xzr
	mov	x19, xzr
	mov	x30, xzr
	mov	x24, xzr
	mov	w11, #61
	b	.Lrekusoyen_raw_step_0_1_0.25
.Lrekusoyen_raw_step_0_1_0.133:
	mov	x14, xzr
	mov	x15, xzr
	mov	x25, xzr
	mov	x19, xzr
	mov	x30, xzr
	mov	x24, xzr
	mov	w11, #70
	b	.Lrekusoyen_raw_step_0_1_0.25
.Lrekusoyen_raw_step_0_1_0.134:
	mov	x14, xzr
	mov	x15, xzr
	mov	x25, xzr
	mov	x19, xzr
	mov	x30, xzr
	mov	x24, xzr
	mov	w11, #59
	b	.Lrekusoyen_raw_step_0_1_0.25
.Lrekusoyen_raw_step_0_1_0.135:
	ldr	w8, [sp, #256]
	cbz	w8, .Lrekusoyen_raw_step_0_1_0.185
	cmp	w8, #2
	b.ne	.Lrekusoyen_raw_step_0_1_0.187
	mov	x8, xzr
	mov	x12, xzr
	mov	x13, xzr
	mov	x14, xzr
	mov	x9, xzr
	b	.Lrekusoyen_raw_step_0_1_0.188
.Lrekusoyen_raw_step_0_1_0.138:
	cbz	w8, .Lrekusoyen_raw_step_0_1_0.186
	cmp	w8, #2
	b.ne	.Lrekusoyen_raw_step_0_1_0.197
	mov	x8, xzr
	mov	x12, xzr
	mov	x13, xzr
	mov	x14, xzr
	mov	x9, xzr
	b	.Lrekusoyen_raw_step_0_1_0.198
.Lrekusoyen_raw_step_0_1_0.141:
	ldr	x10, [sp, #936]
	ldr	x11, [sp, #376]
	cmp	x11, x10
	b.ne	.Lrekusoyen_raw_step_0_1_0.23
	ldr	x10, [sp, #1064]
	ldr	x11, [sp, #368]
	cmp	x11, x10
	b.ne	.Lrekusoyen_raw_step_0_1_0.23
	ldr	x10, [sp, #416]
	cmp	x10, #2
	b.eq	.Lrekusoyen_raw_step_0_1_0.49
	mov	x10, x16
	ldr	x9, [sp, #944]
	ldr	x16, [sp, #360]
	cmp	x16, x9
	b.ne	.Lrekusoyen_raw_step_0_1_0.23
	ldr	x9, [sp, #1072]
	mov	x12, x1
	ldr	x2, [sp, #120]
	cmp	x12, x9
	ldp	x9, x5, [sp, #40]
	b.ne	.Lrekusoyen_raw_step_0_1_0.23
	ldr	x0, [sp, #416]
	mov	x26, x30
	mov	x15, x6
	mov	x14, x4
	mov	x13, x3
	mov	x11, x17
	mov	x1, x12
	mov	x16, x10
	cmp	x0, #3
	b.eq	.Lrekusoyen_raw_step_0_1_0.49
	ldr	x9, [sp, #952]
	ldr	x16, [sp, #352]
	mov	w0, #35
	cmp	x16, x9
	b.ne	.Lrekusoyen_raw_step_0_1_0.23
	ldr	x9, [sp, #1080]
	ldr	x2, [sp, #120]
	cmp	x13, x9
	ldp	x9, x5, [sp, #40]
	b.ne	.Lrekusoyen_raw_step_0_1_0.23
	ldr	x0, [sp, #416]
	mov	x3, x13
	mov	x16, x10
	mov	x17, x11
	mov	x1, x12
	mov	x4, x14
	mov	x6, x15
	mov	x30, x26
	cmp	x0, #4
	b.eq	.Lrekusoyen_raw_step_0_1_0.49
	ldr	x9, [sp, #960]
	ldr	x16, [sp, #344]
	mov	w0, #35
	cmp	x16, x9
	b.ne	.Lrekusoyen_raw_step_0_1_0.23
	ldr	x9, [sp, #1088]
	ldr	x2, [sp, #120]
	cmp	x14, x9
	ldp	x9, x5, [sp, #40]
	b.ne	.Lrekusoyen_raw_step_0_1_0.23
	ldr	x0, [sp, #416]
	mov	x4, x14
	mov	x16, x10
	mov	x17, x11
	mov	x1, x12
	mov	x3, x13
	mov	x6, x15
	mov	x30, x26
	cmp	x0, #5
	b.eq	.Lrekusoyen_raw_step_0_1_0.49
	ldr	x9, [sp, #968]
	ldr	x16, [sp, #336]
	mov	w0, #35
	cmp	x16, x9
	b.ne	.Lrekusoyen_raw_step_0_1_0.23
	ldr	x9, [sp, #1096]
	ldr	x2, [sp, #120]
	cmp	x15, x9
	ldp	x9, x5, [sp, #40]
	b.ne	.Lrekusoyen_raw_step_0_1_0.23
	ldr	x0, [sp, #416]
	mov	x6, x15
	mov	x16, x10
	mov	x17, x11
	mov	x1, x12
	mov	x3, x13
	mov	x4, x14
	mov	x30, x26
	cmp	x0, #6
	b.eq	.Lrekusoyen_raw_step_0_1_0.49
	ldr	x9, [sp, #976]
	ldr	x16, [sp, #328]
	mov	w0, #35
	cmp	x16, x9
	b.ne	.Lrekusoyen_raw_step_0_1_0.23
	ldr	x9, [sp, #1104]
	ldr	x2, [sp, #120]
	cmp	x26, x9
	ldp	x9, x5, [sp, #40]
	b.ne	.Lrekusoyen_raw_step_0_1_0.23
	ldr	x0, [sp, #416]
	mov	x30, x26
	mov	x16, x10
	mov	x17, x11
	mov	x1, x12
	mov	x3, x13
	mov	x4, x14
	mov	x6, x15
	cmp	x0, #7
	b.eq	.Lrekusoyen_raw_step_0_1_0.49
	ldr	x9, [sp, #984]
	ldr	x16, [sp, #320]
	mov	w0, #35
	cmp	x16, x9
	b.ne	.Lrekusoyen_raw_step_0_1_0.23
	ldr	x9, [sp, #1112]
	ldr	x16, [sp, #160]
	ldr	x2, [sp, #120]
	cmp	x16, x9
	ldp	x9, x5, [sp, #40]
	b.ne	.Lrekusoyen_raw_step_0_1_0.23
	ldr	x0, [sp, #416]
	mov	x16, x10
	mov	x17, x11
	mov	x1, x12
	mov	x3, x13
	mov	x4, x14
	mov	x6, x15
	mov	x30, x26
	cmp	x0, #8
	b.eq	.Lrekusoyen_raw_step_0_1_0.49
	ldr	x9, [sp, #992]
	ldr	x16, [sp, #304]
	mov	w0, #35
	cmp	x16, x9
	b.ne	.Lrekusoyen_raw_step_0_1_0.23
	ldr	x9, [sp, #1120]
	ldr	x16, [sp, #312]
	ldr	x2, [sp, #120]
	cmp	x16, x9
	ldp	x9, x5, [sp, #40]
	b.ne	.Lrekusoyen_raw_step_0_1_0.23
	ldr	x0, [sp, #416]
	mov	x16, x10
	mov	x17, x11
	mov	x1, x12
	mov	x3, x13
	mov	x4, x14
	mov	x6, x15
	mov	x30, x26
	cmp	x0, #9
	b.eq	.Lrekusoyen_raw_step_0_1_0.49
	ldr	x9, [sp, #1000]
	ldr	x16, [sp, #224]
	mov	w0, #35
	cmp	x16, x9
	b.ne	.Lrekusoyen_raw_step_0_1_0.23
	ldr	x9, [sp, #1128]
	ldr	x16, [sp, #296]
	ldr	x2, [sp, #120]
	cmp	x16, x9
	ldp	x9, x5, [sp, #40]
	b.ne	.Lrekusoyen_raw_step_0_1_0.23
	ldr	x0, [sp, #416]
	mov	x16, x10
	mov	x17, x11
	mov	x1, x12
	mov	x3, x13
	mov	x4, x14
	mov	x6, x15
	mov	x30, x26
	cmp	x0, #10
	b.eq	.Lrekusoyen_raw_step_0_1_0.49
	ldr	x9, [sp, #1008]
	ldr	x16, [sp, #216]
	mov	w0, #35
	cmp	x16, x9
	b.ne	.Lrekusoyen_raw_step_0_1_0.23
	ldr	x9, [sp, #1136]
	ldr	x16, [sp, #288]
	ldr	x2, [sp, #120]
	cmp	x16, x9
	ldp	x9, x5, [sp, #40]
	b.ne	.Lrekusoyen_raw_step_0_1_0.23
	ldr	x0, [sp, #416]
	mov	x16, x10
	mov	x17, x11
	mov	x1, x12
	mov	x3, x13
	mov	x4, x14
	mov	x6, x15
	mov	x30, x26
	cmp	x0, #11
	b.eq	.Lrekusoyen_raw_step_0_1_0.49
	ldr	x9, [sp, #1016]
	ldr	x16, [sp, #208]
	mov	w0, #35
	cmp	x16, x9
	b.ne	.Lrekusoyen_raw_step_0_1_0.23
	ldr	x9, [sp, #1144]
	ldr	x16, [sp, #280]
	ldr	x2, [sp, #120]
	cmp	x16, x9
	ldp	x9, x5, [sp, #40]
	b.ne	.Lrekusoyen_raw_step_0_1_0.23
	ldr	x0, [sp, #416]
	mov	x16, x10
	mov	x17, x11
	mov	x1, x12
	mov	x3, x13
	mov	x4, x14
	mov	x6, x15
	mov	x30, x26
	cmp	x0, #12
	b.eq	.Lrekusoyen_raw_step_0_1_0.49
	ldr	x9, [sp, #1024]
	ldr	x16, [sp, #200]
	mov	w0, #35
	cmp	x16, x9
	b.ne	.Lrekusoyen_raw_step_0_1_0.23
	ldr	x9, [sp, #1152]
	ldr	x16, [sp, #272]
	ldr	x2, [sp, #120]
	cmp	x16, x9
	ldp	x9, x5, [sp, #40]
	b.ne	.Lrekusoyen_raw_step_0_1_0.23
	ldr	x0, [sp, #416]
	mov	x16, x10
	mov	x17, x11
	mov	x1, x12
	mov	x3, x13
	mov	x4, x14
	mov	x6, x15
	mov	x30, x26
	cmp	x0, #13
	b.eq	.Lrekusoyen_raw_step_0_1_0.49
	ldr	x9, [sp, #1032]
	ldr	x16, [sp, #192]
	mov	w0, #35
	cmp	x16, x9
	b.ne	.Lrekusoyen_raw_step_0_1_0.23
	ldr	x9, [sp, #1160]
	ldr	x16, [sp, #264]
	ldr	x2, [sp, #120]
	cmp	x16, x9
	ldp	x9, x5, [sp, #40]
	b.ne	.Lrekusoyen_raw_step_0_1_0.23
	ldr	x0, [sp, #416]
	mov	x16, x10
	mov	x17, x11
	mov	x1, x12
	mov	x3, x13
	mov	x4, x14
	mov	x6, x15
	mov	x30, x26
	cmp	x0, #14
	b.eq	.Lrekusoyen_raw_step_0_1_0.49
	ldr	x9, [sp, #1040]
	ldr	x16, [sp, #184]
	mov	w0, #35
	cmp	x16, x9
	b.ne	.Lrekusoyen_raw_step_0_1_0.23
	ldr	x9, [sp, #1168]
	ldr	x16, [sp, #256]
	ldr	x2, [sp, #120]
	cmp	x16, x9
	ldp	x9, x5, [sp, #40]
	b.ne	.Lrekusoyen_raw_step_0_1_0.23
	ldr	x0, [sp, #416]
	mov	x16, x10
	mov	x17, x11
	mov	x1, x12
	mov	x3, x13
	mov	x4, x14
	mov	x6, x15
	mov	x30, x26
	cmp	x0, #15
	b.eq	.Lrekusoyen_raw_step_0_1_0.49
	ldr	x9, [sp, #1048]
	ldr	x16, [sp, #176]
	mov	w0, #35
	cmp	x16, x9
	b.ne	.Lrekusoyen_raw_step_0_1_0.23
	ldr	x9, [sp, #1176]
	ldr	x16, [sp, #248]
	mov	x17, x11
	ldr	x2, [sp, #120]
	mov	x1, x12
	mov	x3, x13
	cmp	x16, x9
	ldp	x9, x5, [sp, #40]
	mov	x16, x10
	mov	x4, x14
	mov	x6, x15
	mov	x30, x26
	b.eq	.Lrekusoyen_raw_step_0_1_0.49
	b	.Lrekusoyen_raw_step_0_1_0.23
.Lrekusoyen_raw_step_0_1_0.185:
	ldp	x11, x10, [sp, #232]
	mov	x9, xzr
	ldp	x13, x12, [sp, #216]
	mov	w8, #2
	ldr	x14, [sp, #208]
	b	.Lrekusoyen_raw_step_0_1_0.189
.Lrekusoyen_raw_step_0_1_0.186:
	ldp	x11, x10, [sp, #232]
	mov	x9, xzr
	ldp	x13, x12, [sp, #216]
	mov	w8, #2
	ldr	x14, [sp, #208]
	b	.Lrekusoyen_raw_step_0_1_0.199
.Lrekusoyen_raw_step_0_1_0.187:
	mov	x12, xzr
	mov	x13, xzr
	mov	x14, xzr
	mov	x9, xzr
	mov	w8, #1
.Lrekusoyen_raw_step_0_1_0.188:
	ldp	x11, x10, [sp, #232]
.Lrekusoyen_raw_step_0_1_0.189:
	stp	x11, x8, [x21, #360]
	mov	w8, #1
	stp	x9, x10, [x21, #344]
	stp	x12, x13, [x21, #376]
	str	x14, [x21, #392]
	stp	x26, x8, [x20]
	cbz	w30, .Lrekusoyen_raw_step_0_1_0.192
	mov	w0, w19
	bl	rekusoyen_0_1_0.answers.U32FromRefusal.from
	mov	x24, xzr
	mov	x23, xzr
	mov	x8, xzr
	mov	x25, xzr
	mov	x27, xzr
	mov	x28, xzr
	mov	w9, w0
.Lrekusoyen_raw_step_0_1_0.191:
	stp	x9, x24, [x20, #16]
	stp	x23, x8, [x20, #32]
	stp	x25, x27, [x20, #48]
	str	x28, [x20, #64]
	b	.Lrekusoyen_raw_step_0_1_0.200
.Lrekusoyen_raw_step_0_1_0.192:
	ldr	w8, [sp, #360]
	ands	w8, w8, #0xff
	b.eq	.Lrekusoyen_raw_step_0_1_0.195
	cmp	w8, #2
	b.ne	.Lrekusoyen_raw_step_0_1_0.196
	mov	x8, xzr
	mov	x25, xzr
	mov	x27, xzr
	mov	x28, xzr
	mov	x9, xzr
	b	.Lrekusoyen_raw_step_0_1_0.191
.Lrekusoyen_raw_step_0_1_0.195:
	mov	x9, xzr
	mov	w8, #2
	b	.Lrekusoyen_raw_step_0_1_0.191
.Lrekusoyen_raw_step_0_1_0.196:
	mov	x25, xzr
	mov	x27, xzr
	mov	x28, xzr
	mov	x9, xzr
	mov	w8, #1
	b	.Lrekusoyen_raw_step_0_1_0.191
.Lrekusoyen_raw_step_0_1_0.197:
	mov	x12, xzr
	mov	x13, xzr
	mov	x14, xzr
	mov	x9, xzr
	mov	w8, #1
	mov	x19, x26
.Lrekusoyen_raw_step_0_1_0.198:
	ldp	x11, x10, [sp, #232]
.Lrekusoyen_raw_step_0_1_0.199:
	movi	v0.2d, #0000000000000000
	stp	x9, x10, [x21, #344]
	stp	x11, x8, [x21, #360]
	stp	x12, x13, [x21, #376]
	str	x14, [x21, #392]
	str	x19, [x20]
	stur	q0, [x20, #8]
	stur	q0, [x20, #24]
	stur	q0, [x20, #40]
	stur	q0, [x20, #56]
.Lrekusoyen_raw_step_0_1_0.200:
	mov	w0, wzr
	add	sp, sp, #2576
	ldp	x20, x19, [sp, #80]
	ldp	x22, x21, [sp, #64]
	ldp	x24, x23, [sp, #48]
	ldp	x26, x25, [sp, #32]
	ldp	x28, x27, [sp, #16]
	ldp	x29, x30, [sp], #96
	ret
.Lrekusoyen_raw_step_0_1_0.func_end:
	.size	rekusoyen_raw_step_0_1_0, .Lrekusoyen_raw_step_0_1_0.func_end-rekusoyen_raw_step_0_1_0
	.section	.rodata.rekusoyen_raw_step_0_1_0,"a",@progbits
	.p2align	1, 0x0
.Lrekusoyen_raw_step_0_1_0.JTI0:
	.hword	(.Lrekusoyen_raw_step_0_1_0.20-.Lrekusoyen_raw_step_0_1_0.20)>>2
	.hword	(.Lrekusoyen_raw_step_0_1_0.25-.Lrekusoyen_raw_step_0_1_0.20)>>2
	.hword	(.Lrekusoyen_raw_step_0_1_0.101-.Lrekusoyen_raw_step_0_1_0.20)>>2
	.hword	(.Lrekusoyen_raw_step_0_1_0.109-.Lrekusoyen_raw_step_0_1_0.20)>>2
	.hword	(.Lrekusoyen_raw_step_0_1_0.96-.Lrekusoyen_raw_step_0_1_0.20)>>2
	.hword	(.Lrekusoyen_raw_step_0_1_0.90-.Lrekusoyen_raw_step_0_1_0.20)>>2
	.hword	(.Lrekusoyen_raw_step_0_1_0.91-.Lrekusoyen_raw_step_0_1_0.20)>>2
	.hword	(.Lrekusoyen_raw_step_0_1_0.85-.Lrekusoyen_raw_step_0_1_0.20)>>2
	.hword	(.Lrekusoyen_raw_step_0_1_0.89-.Lrekusoyen_raw_step_0_1_0.20)>>2
	.hword	(.Lrekusoyen_raw_step_0_1_0.79-.Lrekusoyen_raw_step_0_1_0.20)>>2
	.hword	(.Lrekusoyen_raw_step_0_1_0.87-.Lrekusoyen_raw_step_0_1_0.20)>>2
	.hword	(.Lrekusoyen_raw_step_0_1_0.99-.Lrekusoyen_raw_step_0_1_0.20)>>2
	.hword	(.Lrekusoyen_raw_step_0_1_0.97-.Lrekusoyen_raw_step_0_1_0.20)>>2
	.hword	(.Lrekusoyen_raw_step_0_1_0.82-.Lrekusoyen_raw_step_0_1_0.20)>>2
	.hword	(.Lrekusoyen_raw_step_0_1_0.22-.Lrekusoyen_raw_step_0_1_0.20)>>2
	.hword	(.Lrekusoyen_raw_step_0_1_0.22-.Lrekusoyen_raw_step_0_1_0.20)>>2
	.hword	(.Lrekusoyen_raw_step_0_1_0.22-.Lrekusoyen_raw_step_0_1_0.20)>>2
	.hword	(.Lrekusoyen_raw_step_0_1_0.22-.Lrekusoyen_raw_step_0_1_0.20)>>2
	.hword	(.Lrekusoyen_raw_step_0_1_0.22-.Lrekusoyen_raw_step_0_1_0.20)>>2
	.hword	(.Lrekusoyen_raw_step_0_1_0.22-.Lrekusoyen_raw_step_0_1_0.20)>>2
	.hword	(.Lrekusoyen_raw_step_0_1_0.110-.Lrekusoyen_raw_step_0_1_0.20)>>2
	.hword	(.Lrekusoyen_raw_step_0_1_0.111-.Lrekusoyen_raw_step_0_1_0.20)>>2
	.hword	(.Lrekusoyen_raw_step_0_1_0.115-.Lrekusoyen_raw_step_0_1_0.20)>>2
	.hword	(.Lrekusoyen_raw_step_0_1_0.113-.Lrekusoyen_raw_step_0_1_0.20)>>2
	.hword	(.Lrekusoyen_raw_step_0_1_0.22-.Lrekusoyen_raw_step_0_1_0.20)>>2
	.hword	(.Lrekusoyen_raw_step_0_1_0.22-.Lrekusoyen_raw_step_0_1_0.20)>>2
	.hword	(.Lrekusoyen_raw_step_0_1_0.22-.Lrekusoyen_raw_step_0_1_0.20)>>2
	.hword	(.Lrekusoyen_raw_step_0_1_0.22-.Lrekusoyen_raw_step_0_1_0.20)>>2
	.hword	(.Lrekusoyen_raw_step_0_1_0.22-.Lrekusoyen_raw_step_0_1_0.20)>>2
	.hword	(.Lrekusoyen_raw_step_0_1_0.22-.Lrekusoyen_raw_step_0_1_0.20)>>2
	.hword	(.Lrekusoyen_raw_step_0_1_0.77-.Lrekusoyen_raw_step_0_1_0.20)>>2
	.hword	(.Lrekusoyen_raw_step_0_1_0.98-.Lrekusoyen_raw_step_0_1_0.20)>>2
	.hword	(.Lrekusoyen_raw_step_0_1_0.22-.Lrekusoyen_raw_step_0_1_0.20)>>2
	.hword	(.Lrekusoyen_raw_step_0_1_0.22-.Lrekusoyen_raw_step_0_1_0.20)>>2
	.hword	(.Lrekusoyen_raw_step_0_1_0.22-.Lrekusoyen_raw_step_0_1_0.20)>>2
	.hword	(.Lrekusoyen_raw_step_0_1_0.22-.Lrekusoyen_raw_step_0_1_0.20)>>2
	.hword	(.Lrekusoyen_raw_step_0_1_0.22-.Lrekusoyen_raw_step_0_1_0.20)>>2
	.hword	(.Lrekusoyen_raw_step_0_1_0.22-.Lrekusoyen_raw_step_0_1_0.20)>>2
	.hword	(.Lrekusoyen_raw_step_0_1_0.22-.Lrekusoyen_raw_step_0_1_0.20)>>2
	.hword	(.Lrekusoyen_raw_step_0_1_0.22-.Lrekusoyen_raw_step_0_1_0.20)>>2
	.hword	(.Lrekusoyen_raw_step_0_1_0.121-.Lrekusoyen_raw_step_0_1_0.20)>>2
	.hword	(.Lrekusoyen_raw_step_0_1_0.81-.Lrekusoyen_raw_step_0_1_0.20)>>2
	.hword	(.Lrekusoyen_raw_step_0_1_0.95-.Lrekusoyen_raw_step_0_1_0.20)>>2
	.hword	(.Lrekusoyen_raw_step_0_1_0.84-.Lrekusoyen_raw_step_0_1_0.20)>>2
	.hword	(.Lrekusoyen_raw_step_0_1_0.104-.Lrekusoyen_raw_step_0_1_0.20)>>2
	.hword	(.Lrekusoyen_raw_step_0_1_0.83-.Lrekusoyen_raw_step_0_1_0.20)>>2
	.hword	(.Lrekusoyen_raw_step_0_1_0.75-.Lrekusoyen_raw_step_0_1_0.20)>>2
	.hword	(.Lrekusoyen_raw_step_0_1_0.124-.Lrekusoyen_raw_step_0_1_0.20)>>2
	.hword	(.Lrekusoyen_raw_step_0_1_0.88-.Lrekusoyen_raw_step_0_1_0.20)>>2
	.hword	(.Lrekusoyen_raw_step_0_1_0.93-.Lrekusoyen_raw_step_0_1_0.20)>>2
	.hword	(.Lrekusoyen_raw_step_0_1_0.108-.Lrekusoyen_raw_step_0_1_0.20)>>2
	.hword	(.Lrekusoyen_raw_step_0_1_0.22-.Lrekusoyen_raw_step_0_1_0.20)>>2
	.hword	(.Lrekusoyen_raw_step_0_1_0.22-.Lrekusoyen_raw_step_0_1_0.20)>>2
	.hword	(.Lrekusoyen_raw_step_0_1_0.22-.Lrekusoyen_raw_step_0_1_0.20)>>2
	.hword	(.Lrekusoyen_raw_step_0_1_0.22-.Lrekusoyen_raw_step_0_1_0.20)>>2
	.hword	(.Lrekusoyen_raw_step_0_1_0.22-.Lrekusoyen_raw_step_0_1_0.20)>>2
	.hword	(.Lrekusoyen_raw_step_0_1_0.22-.Lrekusoyen_raw_step_0_1_0.20)>>2
	.hword	(.Lrekusoyen_raw_step_0_1_0.22-.Lrekusoyen_raw_step_0_1_0.20)>>2
	.hword	(.Lrekusoyen_raw_step_0_1_0.22-.Lrekusoyen_raw_step_0_1_0.20)>>2
	.hword	(.Lrekusoyen_raw_step_0_1_0.94-.Lrekusoyen_raw_step_0_1_0.20)>>2
	.hword	(.Lrekusoyen_raw_step_0_1_0.71-.Lrekusoyen_raw_step_0_1_0.20)>>2
	.hword	(.Lrekusoyen_raw_step_0_1_0.80-.Lrekusoyen_raw_step_0_1_0.20)>>2
	.hword	(.Lrekusoyen_raw_step_0_1_0.112-.Lrekusoyen_raw_step_0_1_0.20)>>2
	.hword	(.Lrekusoyen_raw_step_0_1_0.126-.Lrekusoyen_raw_step_0_1_0.20)>>2
	.hword	(.Lrekusoyen_raw_step_0_1_0.22-.Lrekusoyen_raw_step_0_1_0.20)>>2
	.hword	(.Lrekusoyen_raw_step_0_1_0.22-.Lrekusoyen_raw_step_0_1_0.20)>>2
	.hword	(.Lrekusoyen_raw_step_0_1_0.22-.Lrekusoyen_raw_step_0_1_0.20)>>2
	.hword	(.Lrekusoyen_raw_step_0_1_0.22-.Lrekusoyen_raw_step_0_1_0.20)>>2
	.hword	(.Lrekusoyen_raw_step_0_1_0.22-.Lrekusoyen_raw_step_0_1_0.20)>>2
	.hword	(.Lrekusoyen_raw_step_0_1_0.74-.Lrekusoyen_raw_step_0_1_0.20)>>2
	.hword	(.Lrekusoyen_raw_step_0_1_0.106-.Lrekusoyen_raw_step_0_1_0.20)>>2
	.hword	(.Lrekusoyen_raw_step_0_1_0.73-.Lrekusoyen_raw_step_0_1_0.20)>>2
	.hword	(.Lrekusoyen_raw_step_0_1_0.72-.Lrekusoyen_raw_step_0_1_0.20)>>2
	.hword	(.Lrekusoyen_raw_step_0_1_0.86-.Lrekusoyen_raw_step_0_1_0.20)>>2
	.hword	(.Lrekusoyen_raw_step_0_1_0.100-.Lrekusoyen_raw_step_0_1_0.20)>>2
	.hword	(.Lrekusoyen_raw_step_0_1_0.116-.Lrekusoyen_raw_step_0_1_0.20)>>2
	.hword	(.Lrekusoyen_raw_step_0_1_0.66-.Lrekusoyen_raw_step_0_1_0.20)>>2
	.hword	(.Lrekusoyen_raw_step_0_1_0.76-.Lrekusoyen_raw_step_0_1_0.20)>>2
	.hword	(.Lrekusoyen_raw_step_0_1_0.102-.Lrekusoyen_raw_step_0_1_0.20)>>2
	.hword	(.Lrekusoyen_raw_step_0_1_0.105-.Lrekusoyen_raw_step_0_1_0.20)>>2
	.hword	(.Lrekusoyen_raw_step_0_1_0.127-.Lrekusoyen_raw_step_0_1_0.20)>>2
	.hword	(.Lrekusoyen_raw_step_0_1_0.103-.Lrekusoyen_raw_step_0_1_0.20)>>2
	.hword	(.Lrekusoyen_raw_step_0_1_0.70-.Lrekusoyen_raw_step_0_1_0.20)>>2
	.hword	(.Lrekusoyen_raw_step_0_1_0.67-.Lrekusoyen_raw_step_0_1_0.20)>>2
	.hword	(.Lrekusoyen_raw_step_0_1_0.131-.Lrekusoyen_raw_step_0_1_0.20)>>2
	.hword	(.Lrekusoyen_raw_step_0_1_0.125-.Lrekusoyen_raw_step_0_1_0.20)>>2
	.hword	(.Lrekusoyen_raw_step_0_1_0.69-.Lrekusoyen_raw_step_0_1_0.20)>>2
	.hword	(.Lrekusoyen_raw_step_0_1_0.107-.Lrekusoyen_raw_step_0_1_0.20)>>2
	.hword	(.Lrekusoyen_raw_step_0_1_0.22-.Lrekusoyen_raw_step_0_1_0.20)>>2
	.hword	(.Lrekusoyen_raw_step_0_1_0.22-.Lrekusoyen_raw_step_0_1_0.20)>>2
	.hword	(.Lrekusoyen_raw_step_0_1_0.114-.Lrekusoyen_raw_step_0_1_0.20)>>2
	.hword	(.Lrekusoyen_raw_step_0_1_0.68-.Lrekusoyen_raw_step_0_1_0.20)>>2
	.hword	(.Lrekusoyen_raw_step_0_1_0.122-.Lrekusoyen_raw_step_0_1_0.20)>>2
	.hword	(.Lrekusoyen_raw_step_0_1_0.117-.Lrekusoyen_raw_step_0_1_0.20)>>2
	.hword	(.Lrekusoyen_raw_step_0_1_0.134-.Lrekusoyen_raw_step_0_1_0.20)>>2
	.hword	(.Lrekusoyen_raw_step_0_1_0.129-.Lrekusoyen_raw_step_0_1_0.20)>>2
	.hword	(.Lrekusoyen_raw_step_0_1_0.132-.Lrekusoyen_raw_step_0_1_0.20)>>2
	.hword	(.Lrekusoyen_raw_step_0_1_0.118-.Lrekusoyen_raw_step_0_1_0.20)>>2
	.hword	(.Lrekusoyen_raw_step_0_1_0.119-.Lrekusoyen_raw_step_0_1_0.20)>>2
	.hword	(.Lrekusoyen_raw_step_0_1_0.78-.Lrekusoyen_raw_step_0_1_0.20)>>2
	.hword	(.Lrekusoyen_raw_step_0_1_0.123-.Lrekusoyen_raw_step_0_1_0.20)>>2
	.hword	(.Lrekusoyen_raw_step_0_1_0.64-.Lrekusoyen_raw_step_0_1_0.20)>>2
	.hword	(.Lrekusoyen_raw_step_0_1_0.128-.Lrekusoyen_raw_step_0_1_0.20)>>2
	.hword	(.Lrekusoyen_raw_step_0_1_0.130-.Lrekusoyen_raw_step_0_1_0.20)>>2
	.hword	(.Lrekusoyen_raw_step_0_1_0.92-.Lrekusoyen_raw_step_0_1_0.20)>>2
	.hword	(.Lrekusoyen_raw_step_0_1_0.133-.Lrekusoyen_raw_step_0_1_0.20)>>2
	.hword	(.Lrekusoyen_raw_step_0_1_0.120-.Lrekusoyen_raw_step_0_1_0.20)>>2
	.hword	(.Lrekusoyen_raw_step_0_1_0.65-.Lrekusoyen_raw_step_0_1_0.20)>>2
	.section	.text.rekusoyen_setup_header_0_1_0,"ax",@progbits
	.globl	rekusoyen_setup_header_0_1_0
	.hidden	rekusoyen_setup_header_0_1_0
	.p2align	2
	.type	rekusoyen_setup_header_0_1_0,@function
rekusoyen_setup_header_0_1_0:
	mov	w9, #4096
	cmp	x0, #0
	mov	x10, #1099511627776
	csel	x8, x9, xzr, eq
	cmp	x3, #0
	csel	x9, x9, xzr, eq
	cmp	x1, x10
	b.hi	.Lrekusoyen_setup_header_0_1_0.5
	cmp	x4, #123
	b.ne	.Lrekusoyen_setup_header_0_1_0.5
	sub	sp, sp, #160
	movi	v0.2d, #0000000000000000
	stp	x20, x19, [sp, #144]
	cmp	x1, #498
	add	x19, x3, x9
	stp	x29, x30, [sp, #128]
	add	x29, sp, #128
	stur	q0, [sp, #107]
	stp	q0, q0, [sp, #16]
	stp	q0, q0, [sp, #48]
	stp	q0, q0, [sp, #80]
	str	q0, [sp]
	b.lo	.Lrekusoyen_setup_header_0_1_0.4
	sub	x9, x1, #497
	mov	w10, #123
	add	x11, x0, x8
	cmp	x9, #123
	mov	x0, sp
	add	x1, x11, #497
	csel	x8, x9, x10, lo
	mov	x20, x2
	mov	x2, x8
	bl	memcpy
	mov	x2, x20
.Lrekusoyen_setup_header_0_1_0.4:
	ldp	q0, q1, [sp, #64]
	mov	w0, wzr
	ldr	q2, [sp, #96]
	stur	w2, [sp, #35]
	ldp	x29, x30, [sp, #128]
	stp	q0, q1, [x19, #64]
	ldur	q0, [sp, #107]
	str	q2, [x19, #96]
	stur	q0, [x19, #107]
	ldp	q1, q0, [sp]
	stp	q1, q0, [x19]
	ldp	q0, q2, [sp, #32]
	stp	q0, q2, [x19, #32]
	ldp	x20, x19, [sp, #144]
	add	sp, sp, #160
	ret
.Lrekusoyen_setup_header_0_1_0.5:
	cmp	x1, x10
	mov	w8, #31
	mov	w9, #33
	csel	w8, w8, wzr, hi
	cmp	x4, #123
	csel	w0, w9, w8, ne
	b	rekusoyen_0_1_0.answers.U32FromRefusal.from
.Lrekusoyen_setup_header_0_1_0.func_end:
	.size	rekusoyen_setup_header_0_1_0, .Lrekusoyen_setup_header_0_1_0.func_end-rekusoyen_setup_header_0_1_0
	.section	.text.rekusoyen_start_check_0_1_0,"ax",@progbits
	.globl	rekusoyen_start_check_0_1_0
	.hidden	rekusoyen_start_check_0_1_0
	.p2align	2
	.type	rekusoyen_start_check_0_1_0,@function
rekusoyen_start_check_0_1_0:
	sub	sp, sp, #336
	mov	w8, #4096
	cmp	x0, #0
	stp	x22, x21, [sp, #304]
	csel	x22, x8, xzr, eq
	cmp	x2, #0
	mov	x9, sp
	csel	x8, x8, xzr, eq
	stp	x20, x19, [sp, #320]
	mov	x21, x0
	mov	x19, x1
	add	x0, x9, #8
	add	x1, x2, x8
	mov	x2, x3
	stp	x29, x30, [sp, #272]
	add	x29, sp, #272
	str	x28, [sp, #288]
	mov	x20, x4
	bl	rekusoyen_0_1_0.guest.maps.from_numbers
	mov	x8, #1099511627776
	str	x19, [sp]
	cmp	x19, x8
	b.hi	.Lrekusoyen_start_check_0_1_0.4
	ldr	x9, [sp, #8]
	cmp	x9, #16
	b.ls	.Lrekusoyen_start_check_0_1_0.5
	mov	w0, #43
.Lrekusoyen_start_check_0_1_0.3:
	ldp	x20, x19, [sp, #320]
	ldr	x28, [sp, #288]
	ldp	x22, x21, [sp, #304]
	ldp	x29, x30, [sp, #272]
	add	sp, sp, #336
	b	rekusoyen_0_1_0.answers.U32FromRefusal.from
.Lrekusoyen_start_check_0_1_0.4:
	mov	w0, #31
	ldp	x20, x19, [sp, #320]
	ldr	x28, [sp, #288]
	ldp	x22, x21, [sp, #304]
	ldp	x29, x30, [sp, #272]
	add	sp, sp, #336
	b	rekusoyen_0_1_0.answers.U32FromRefusal.from
.Lrekusoyen_start_check_0_1_0.5:
	cbz	x9, .Lrekusoyen_start_check_0_1_0.12
	ldr	x10, [sp, #144]
	cbz	x10, .Lrekusoyen_start_check_0_1_0.13
	ldr	x11, [sp, #16]
	mov	w0, #43
	subs	x8, x19, x11
	b.lo	.Lrekusoyen_start_check_0_1_0.3
	cmp	x10, x8
	b.hi	.Lrekusoyen_start_check_0_1_0.3
	subs	x8, x9, #1
	b.ne	.Lrekusoyen_start_check_0_1_0.14
	subs	x8, x19, x20
	mov	w0, #42
	b.lo	.Lrekusoyen_start_check_0_1_0.3
	cmp	x8, #56
	b.hs	.Lrekusoyen_start_check_0_1_0.22
	b	.Lrekusoyen_start_check_0_1_0.3
.Lrekusoyen_start_check_0_1_0.12:
	mov	w0, #42
	ldp	x20, x19, [sp, #320]
	ldr	x28, [sp, #288]
	ldp	x22, x21, [sp, #304]
	ldp	x29, x30, [sp, #272]
	add	sp, sp, #336
	b	rekusoyen_0_1_0.answers.U32FromRefusal.from
.Lrekusoyen_start_check_0_1_0.13:
	mov	w0, #43
	ldp	x20, x19, [sp, #320]
	ldr	x28, [sp, #288]
	ldp	x22, x21, [sp, #304]
	ldp	x29, x30, [sp, #272]
	add	sp, sp, #336
	b	rekusoyen_0_1_0.answers.U32FromRefusal.from
.Lrekusoyen_start_check_0_1_0.14:
	mov	x13, sp
	add	x12, x10, x11
	add	x10, x13, #152
.Lrekusoyen_start_check_0_1_0.15:
	ldur	x11, [x10, #-128]
	mov	w0, #43
	cmp	x12, x11
	b.hs	.Lrekusoyen_start_check_0_1_0.3
	ldr	x12, [x10], #8
	cbz	x12, .Lrekusoyen_start_check_0_1_0.3
	subs	x13, x19, x11
	b.lo	.Lrekusoyen_start_check_0_1_0.3
	cmp	x12, x13
	b.hi	.Lrekusoyen_start_check_0_1_0.3
	subs	x8, x8, #1
	add	x12, x12, x11
	b.ne	.Lrekusoyen_start_check_0_1_0.15
	subs	x8, x19, x20
	mov	w0, #42
	b.lo	.Lrekusoyen_start_check_0_1_0.3
	cmp	x8, #55
	b.ls	.Lrekusoyen_start_check_0_1_0.3
.Lrekusoyen_start_check_0_1_0.22:
	mov	x8, sp
	mov	x11, x9
	add	x10, x8, #144
	add	x8, x21, x22
	mov	x12, x10
	b	.Lrekusoyen_start_check_0_1_0.24
.Lrekusoyen_start_check_0_1_0.23:
	subs	x11, x11, #1
	add	x12, x12, #8
	mov	w0, #42
	b.eq	.Lrekusoyen_start_check_0_1_0.3
.Lrekusoyen_start_check_0_1_0.24:
	ldur	x13, [x12, #-128]
	subs	x13, x20, x13
	b.lo	.Lrekusoyen_start_check_0_1_0.23
	ldr	x14, [x12]
	subs	x13, x14, x13
	b.lo	.Lrekusoyen_start_check_0_1_0.23
	cmp	x13, #55
	b.ls	.Lrekusoyen_start_check_0_1_0.23
	subs	x12, x19, x20
	add	x11, x8, x20
	b.lo	.Lrekusoyen_start_check_0_1_0.30
	cmp	x12, #3
	b.ls	.Lrekusoyen_start_check_0_1_0.30
	ldr	w11, [x11]
	b	.Lrekusoyen_start_check_0_1_0.38
.Lrekusoyen_start_check_0_1_0.30:
	subs	x12, x19, x20
	csel	x13, xzr, x12, lo
	cmp	x13, #4
	b.lo	.Lrekusoyen_start_check_0_1_0.32
	ldrb	w12, [x11, #3]
	lsl	x12, x12, #8
	b	.Lrekusoyen_start_check_0_1_0.34
.Lrekusoyen_start_check_0_1_0.32:
	cmp	x13, #3
	b.ne	.Lrekusoyen_start_check_0_1_0.51
	mov	x12, xzr
.Lrekusoyen_start_check_0_1_0.34:
	ldrb	w13, [x11, #2]
	orr	x12, x12, x13
	lsl	x12, x12, #8
.Lrekusoyen_start_check_0_1_0.35:
	ldrb	w13, [x11, #1]
	orr	x12, x12, x13
	lsl	x13, x12, #8
.Lrekusoyen_start_check_0_1_0.36:
	cmp	x19, x20
	b.ls	.Lrekusoyen_start_check_0_1_0.41
	ldrb	w11, [x11]
	orr	x11, x13, x11
.Lrekusoyen_start_check_0_1_0.38:
	mov	w12, #50552
	movk	w12, #13166, lsl #16
	cmp	x11, x12
	b.ne	.Lrekusoyen_start_check_0_1_0.41
	adds	x11, x20, #4
	csinv	x11, x11, xzr, lo
	cmp	x19, x11
	csel	x12, x19, x11, lo
	subs	x13, x19, x12
	add	x12, x8, x12
	csel	x14, xzr, x13, lo
	cmp	x14, #4
	b.lo	.Lrekusoyen_start_check_0_1_0.42
	ldrb	w13, [x12, #3]
	lsl	x13, x13, #8
	b	.Lrekusoyen_start_check_0_1_0.44
.Lrekusoyen_start_check_0_1_0.41:
	mov	w0, #44
	ldp	x20, x19, [sp, #320]
	ldr	x28, [sp, #288]
	ldp	x22, x21, [sp, #304]
	ldp	x29, x30, [sp, #272]
	add	sp, sp, #336
	b	rekusoyen_0_1_0.answers.U32FromRefusal.from
.Lrekusoyen_start_check_0_1_0.42:
	cmp	x14, #3
	b.ne	.Lrekusoyen_start_check_0_1_0.52
	mov	x13, xzr
.Lrekusoyen_start_check_0_1_0.44:
	ldrb	w14, [x12, #2]
	orr	x13, x13, x14
	lsl	x13, x13, #8
.Lrekusoyen_start_check_0_1_0.45:
	ldrb	w14, [x12, #1]
	orr	x13, x13, x14
	lsl	x14, x13, #8
.Lrekusoyen_start_check_0_1_0.46:
	cmp	x11, x19
	b.hs	.Lrekusoyen_start_check_0_1_0.50
	ldrb	w11, [x12]
	orr	x11, x14, x11
	cmp	x11, #1
	b.ne	.Lrekusoyen_start_check_0_1_0.50
	adds	x11, x20, #52
	csinv	x11, x11, xzr, lo
	cmp	x19, x11
	csel	x12, x19, x11, lo
	subs	x13, x19, x12
	add	x12, x8, x12
	csel	x13, xzr, x13, lo
	cmp	x13, #4
	b.lo	.Lrekusoyen_start_check_0_1_0.53
	ldrb	w13, [x12, #3]
	lsl	x13, x13, #8
	b	.Lrekusoyen_start_check_0_1_0.55
.Lrekusoyen_start_check_0_1_0.50:
	mov	w0, #45
	ldp	x20, x19, [sp, #320]
	ldr	x28, [sp, #288]
	ldp	x22, x21, [sp, #304]
	ldp	x29, x30, [sp, #272]
	add	sp, sp, #336
	b	rekusoyen_0_1_0.answers.U32FromRefusal.from
.Lrekusoyen_start_check_0_1_0.51:
	mov	x12, xzr
	cmp	x13, #2
	mov	x13, xzr
	b.hs	.Lrekusoyen_start_check_0_1_0.35
	b	.Lrekusoyen_start_check_0_1_0.36
.Lrekusoyen_start_check_0_1_0.52:
	mov	x13, xzr
	cmp	x14, #2
	mov	x14, xzr
	b.hs	.Lrekusoyen_start_check_0_1_0.45
	b	.Lrekusoyen_start_check_0_1_0.46
.Lrekusoyen_start_check_0_1_0.53:
	cmp	x13, #3
	b.ne	.Lrekusoyen_start_check_0_1_0.63
	mov	x13, xzr
.Lrekusoyen_start_check_0_1_0.55:
	ldrb	w14, [x12, #2]
	orr	x13, x13, x14
	lsl	x14, x13, #8
.Lrekusoyen_start_check_0_1_0.56:
	ldrb	w13, [x12, #1]
	orr	x13, x14, x13
	lsl	x13, x13, #8
.Lrekusoyen_start_check_0_1_0.57:
	cmp	x11, x19
	b.hs	.Lrekusoyen_start_check_0_1_0.59
	ldrb	w11, [x12]
	orr	x13, x13, x11
	cbnz	x13, .Lrekusoyen_start_check_0_1_0.60
	b	.Lrekusoyen_start_check_0_1_0.61
.Lrekusoyen_start_check_0_1_0.59:
	cbz	x13, .Lrekusoyen_start_check_0_1_0.61
.Lrekusoyen_start_check_0_1_0.60:
	mov	w0, #46
	ldp	x20, x19, [sp, #320]
	ldr	x28, [sp, #288]
	ldp	x22, x21, [sp, #304]
	ldp	x29, x30, [sp, #272]
	add	sp, sp, #336
	b	rekusoyen_0_1_0.answers.U32FromRefusal.from
.Lrekusoyen_start_check_0_1_0.61:
	adds	x11, x20, #16
	csinv	x12, x11, xzr, lo
	cmp	x19, x12
	csel	x13, x19, x12, lo
	subs	x11, x19, x13
	add	x13, x8, x13
	csel	x11, xzr, x11, lo
	cmp	x11, #8
	b.lo	.Lrekusoyen_start_check_0_1_0.64
	ldrb	w11, [x13, #7]
	lsl	x11, x11, #8
	b	.Lrekusoyen_start_check_0_1_0.66
.Lrekusoyen_start_check_0_1_0.63:
	mov	x14, xzr
	cmp	x13, #2
	mov	x13, xzr
	b.hs	.Lrekusoyen_start_check_0_1_0.56
	b	.Lrekusoyen_start_check_0_1_0.57
.Lrekusoyen_start_check_0_1_0.64:
	cmp	x11, #7
	b.ne	.Lrekusoyen_start_check_0_1_0.117
	mov	x11, xzr
.Lrekusoyen_start_check_0_1_0.66:
	ldrb	w14, [x13, #6]
	orr	x11, x11, x14
	lsl	x11, x11, #8
.Lrekusoyen_start_check_0_1_0.67:
	ldrb	w14, [x13, #5]
	orr	x11, x11, x14
	lsl	x11, x11, #8
.Lrekusoyen_start_check_0_1_0.68:
	ldrb	w14, [x13, #4]
	orr	x11, x11, x14
	lsl	x11, x11, #8
.Lrekusoyen_start_check_0_1_0.69:
	ldrb	w14, [x13, #3]
	orr	x11, x11, x14
	lsl	x11, x11, #8
.Lrekusoyen_start_check_0_1_0.70:
	ldrb	w14, [x13, #2]
	orr	x11, x11, x14
	lsl	x14, x11, #8
.Lrekusoyen_start_check_0_1_0.71:
	ldrb	w11, [x13, #1]
	orr	x11, x14, x11
	lsl	x11, x11, #8
.Lrekusoyen_start_check_0_1_0.72:
	cmp	x12, x19
	b.hs	.Lrekusoyen_start_check_0_1_0.74
	ldrb	w12, [x13]
	orr	x11, x11, x12
.Lrekusoyen_start_check_0_1_0.74:
	adds	x12, x20, #12
	csinv	x12, x12, xzr, lo
	cmp	x19, x12
	csel	x13, x19, x12, lo
	subs	x14, x19, x13
	add	x13, x8, x13
	csel	x14, xzr, x14, lo
	cmp	x14, #4
	b.lo	.Lrekusoyen_start_check_0_1_0.76
	ldrb	w14, [x13, #3]
	lsl	x14, x14, #8
	b	.Lrekusoyen_start_check_0_1_0.78
.Lrekusoyen_start_check_0_1_0.76:
	cmp	x14, #3
	b.ne	.Lrekusoyen_start_check_0_1_0.119
	mov	x14, xzr
.Lrekusoyen_start_check_0_1_0.78:
	ldrb	w15, [x13, #2]
	orr	x14, x14, x15
	lsl	x15, x14, #8
.Lrekusoyen_start_check_0_1_0.79:
	ldrb	w14, [x13, #1]
	orr	x14, x15, x14
	lsl	x14, x14, #8
.Lrekusoyen_start_check_0_1_0.80:
	cmp	x12, x19
	b.hs	.Lrekusoyen_start_check_0_1_0.82
	ldrb	w12, [x13]
	orr	x14, x14, x12
	cbnz	x14, .Lrekusoyen_start_check_0_1_0.83
	b	.Lrekusoyen_start_check_0_1_0.115
.Lrekusoyen_start_check_0_1_0.82:
	cbz	x14, .Lrekusoyen_start_check_0_1_0.115
.Lrekusoyen_start_check_0_1_0.83:
	subs	x12, x19, x11
	mov	w0, #42
	b.lo	.Lrekusoyen_start_check_0_1_0.3
	lsl	x13, x14, #5
	cmp	x13, x12
	b.hi	.Lrekusoyen_start_check_0_1_0.3
	lsl	x12, x14, #2
	mov	x14, x9
	mov	x15, x10
	b	.Lrekusoyen_start_check_0_1_0.87
.Lrekusoyen_start_check_0_1_0.86:
	subs	x14, x14, #1
	add	x15, x15, #8
	mov	w0, #42
	b.eq	.Lrekusoyen_start_check_0_1_0.3
.Lrekusoyen_start_check_0_1_0.87:
	ldur	x16, [x15, #-128]
	subs	x16, x11, x16
	b.lo	.Lrekusoyen_start_check_0_1_0.86
	ldr	x17, [x15]
	subs	x16, x17, x16
	b.lo	.Lrekusoyen_start_check_0_1_0.86
	cmp	x13, x16
	b.hi	.Lrekusoyen_start_check_0_1_0.86
	mov	x13, xzr
	b	.Lrekusoyen_start_check_0_1_0.92
.Lrekusoyen_start_check_0_1_0.91:
	adds	x11, x11, #8
	add	x13, x13, #1
	csinv	x11, x11, xzr, lo
	cmp	x19, x11
	csel	x11, x19, x11, lo
	cmp	x12, x13
	b.eq	.Lrekusoyen_start_check_0_1_0.115
.Lrekusoyen_start_check_0_1_0.92:
	subs	x14, x19, x11
	csel	x15, xzr, x14, lo
	add	x14, x8, x11
	cmp	x15, #8
	b.lo	.Lrekusoyen_start_check_0_1_0.94
	ldrb	w15, [x14, #7]
	lsl	x15, x15, #8
	b	.Lrekusoyen_start_check_0_1_0.96
.Lrekusoyen_start_check_0_1_0.94:
	cmp	x15, #7
	b.ne	.Lrekusoyen_start_check_0_1_0.106
	mov	x15, xzr
.Lrekusoyen_start_check_0_1_0.96:
	ldrb	w16, [x14, #6]
	orr	x15, x15, x16
	lsl	x15, x15, #8
.Lrekusoyen_start_check_0_1_0.97:
	ldrb	w16, [x14, #5]
	orr	x15, x15, x16
	lsl	x15, x15, #8
.Lrekusoyen_start_check_0_1_0.98:
	ldrb	w16, [x14, #4]
	orr	x15, x15, x16
	lsl	x15, x15, #8
.Lrekusoyen_start_check_0_1_0.99:
	ldrb	w16, [x14, #3]
	orr	x15, x15, x16
	lsl	x15, x15, #8
.Lrekusoyen_start_check_0_1_0.100:
	ldrb	w16, [x14, #2]
	orr	x15, x15, x16
	lsl	x16, x15, #8
.Lrekusoyen_start_check_0_1_0.101:
	ldrb	w15, [x14, #1]
	orr	x15, x16, x15
	lsl	x15, x15, #8
.Lrekusoyen_start_check_0_1_0.102:
	cmp	x19, x11
	b.ls	.Lrekusoyen_start_check_0_1_0.104
	ldrb	w14, [x14]
	orr	x15, x15, x14
	mvn	w14, w13
	tst	x14, #0x3
	b.eq	.Lrekusoyen_start_check_0_1_0.105
	b	.Lrekusoyen_start_check_0_1_0.91
.Lrekusoyen_start_check_0_1_0.104:
	mvn	w14, w13
	tst	x14, #0x3
	b.ne	.Lrekusoyen_start_check_0_1_0.91
.Lrekusoyen_start_check_0_1_0.105:
	cbz	x15, .Lrekusoyen_start_check_0_1_0.91
	b	.Lrekusoyen_start_check_0_1_0.60
.Lrekusoyen_start_check_0_1_0.106:
	cmp	x15, #6
	b.lo	.Lrekusoyen_start_check_0_1_0.108
	mov	x15, xzr
	b	.Lrekusoyen_start_check_0_1_0.97
.Lrekusoyen_start_check_0_1_0.108:
	cmp	x15, #5
	b.ne	.Lrekusoyen_start_check_0_1_0.110
	mov	x15, xzr
	b	.Lrekusoyen_start_check_0_1_0.98
.Lrekusoyen_start_check_0_1_0.110:
	cmp	x15, #4
	b.lo	.Lrekusoyen_start_check_0_1_0.112
	mov	x15, xzr
	b	.Lrekusoyen_start_check_0_1_0.99
.Lrekusoyen_start_check_0_1_0.112:
	cmp	x15, #3
	b.ne	.Lrekusoyen_start_check_0_1_0.114
	mov	x15, xzr
	b	.Lrekusoyen_start_check_0_1_0.100
.Lrekusoyen_start_check_0_1_0.114:
	mov	x16, xzr
	cmp	x15, #2
	mov	x15, xzr
	b.hs	.Lrekusoyen_start_check_0_1_0.101
	b	.Lrekusoyen_start_check_0_1_0.102
.Lrekusoyen_start_check_0_1_0.115:
	adds	x11, x20, #40
	csinv	x12, x11, xzr, lo
	cmp	x19, x12
	csel	x13, x19, x12, lo
	subs	x11, x19, x13
	add	x13, x8, x13
	csel	x11, xzr, x11, lo
	cmp	x11, #8
	b.lo	.Lrekusoyen_start_check_0_1_0.120
	ldrb	w11, [x13, #7]
	lsl	x11, x11, #8
	b	.Lrekusoyen_start_check_0_1_0.122
.Lrekusoyen_start_check_0_1_0.117:
	cmp	x11, #6
	b.lo	.Lrekusoyen_start_check_0_1_0.174
	mov	x11, xzr
	b	.Lrekusoyen_start_check_0_1_0.67
.Lrekusoyen_start_check_0_1_0.119:
	mov	x15, xzr
	cmp	x14, #2
	mov	x14, xzr
	b.hs	.Lrekusoyen_start_check_0_1_0.79
	b	.Lrekusoyen_start_check_0_1_0.80
.Lrekusoyen_start_check_0_1_0.120:
	cmp	x11, #7
	b.ne	.Lrekusoyen_start_check_0_1_0.176
	mov	x11, xzr
.Lrekusoyen_start_check_0_1_0.122:
	ldrb	w14, [x13, #6]
	orr	x11, x11, x14
	lsl	x11, x11, #8
.Lrekusoyen_start_check_0_1_0.123:
	ldrb	w14, [x13, #5]
	orr	x11, x11, x14
	lsl	x11, x11, #8
.Lrekusoyen_start_check_0_1_0.124:
	ldrb	w14, [x13, #4]
	orr	x11, x11, x14
	lsl	x11, x11, #8
.Lrekusoyen_start_check_0_1_0.125:
	ldrb	w14, [x13, #3]
	orr	x11, x11, x14
	lsl	x11, x11, #8
.Lrekusoyen_start_check_0_1_0.126:
	ldrb	w14, [x13, #2]
	orr	x11, x11, x14
	lsl	x14, x11, #8
.Lrekusoyen_start_check_0_1_0.127:
	ldrb	w11, [x13, #1]
	orr	x11, x14, x11
	lsl	x11, x11, #8
.Lrekusoyen_start_check_0_1_0.128:
	cmp	x12, x19
	b.hs	.Lrekusoyen_start_check_0_1_0.130
	ldrb	w12, [x13]
	orr	x11, x11, x12
.Lrekusoyen_start_check_0_1_0.130:
	adds	x12, x20, #48
	csinv	x13, x12, xzr, lo
	cmp	x19, x13
	csel	x14, x19, x13, lo
	subs	x12, x19, x14
	add	x14, x8, x14
	csel	x12, xzr, x12, lo
	cmp	x12, #4
	b.lo	.Lrekusoyen_start_check_0_1_0.132
	ldrb	w12, [x14, #3]
	lsl	x12, x12, #8
	b	.Lrekusoyen_start_check_0_1_0.134
.Lrekusoyen_start_check_0_1_0.132:
	cmp	x12, #3
	b.ne	.Lrekusoyen_start_check_0_1_0.178
	mov	x12, xzr
.Lrekusoyen_start_check_0_1_0.134:
	ldrb	w15, [x14, #2]
	orr	x12, x12, x15
	lsl	x15, x12, #8
.Lrekusoyen_start_check_0_1_0.135:
	ldrb	w12, [x14, #1]
	orr	x12, x15, x12
	lsl	x12, x12, #8
.Lrekusoyen_start_check_0_1_0.136:
	cmp	x13, x19
	b.hs	.Lrekusoyen_start_check_0_1_0.138
	ldrb	w13, [x14]
	orr	x12, x12, x13
	cbnz	x12, .Lrekusoyen_start_check_0_1_0.139
	b	.Lrekusoyen_start_check_0_1_0.173
.Lrekusoyen_start_check_0_1_0.138:
	cbz	x12, .Lrekusoyen_start_check_0_1_0.173
.Lrekusoyen_start_check_0_1_0.139:
	subs	x14, x19, x11
	mov	w0, #42
	b.lo	.Lrekusoyen_start_check_0_1_0.3
	add	x13, x12, x12, lsl #1
	lsl	x13, x13, #3
	cmp	x13, x14
	b.ls	.Lrekusoyen_start_check_0_1_0.142
	b	.Lrekusoyen_start_check_0_1_0.3
.Lrekusoyen_start_check_0_1_0.141:
	subs	x9, x9, #1
	add	x10, x10, #8
	mov	w0, #42
	b.eq	.Lrekusoyen_start_check_0_1_0.3
.Lrekusoyen_start_check_0_1_0.142:
	ldur	x14, [x10, #-128]
	subs	x14, x11, x14
	b.lo	.Lrekusoyen_start_check_0_1_0.141
	ldr	x15, [x10]
	subs	x14, x15, x14
	b.lo	.Lrekusoyen_start_check_0_1_0.141
	cmp	x13, x14
	b.hi	.Lrekusoyen_start_check_0_1_0.141
	lsl	x10, x12, #5
	mov	x9, xzr
	mov	x12, xzr
	b	.Lrekusoyen_start_check_0_1_0.147
.Lrekusoyen_start_check_0_1_0.146:
	adds	x11, x13, x11
	add	x9, x9, #8
	add	x12, x12, #1
	csinv	x11, x11, xzr, lo
	cmp	x19, x11
	csel	x11, x19, x11, lo
	cmp	x10, x9
	b.eq	.Lrekusoyen_start_check_0_1_0.173
.Lrekusoyen_start_check_0_1_0.147:
	and	x13, x9, #0x18
	adrp	x14, .Lrekusoyen_0_1_0.static.21
	add	x14, x14, :lo12:.Lrekusoyen_0_1_0.static.21
	ldr	x14, [x14, x13]
	mov	w13, #8
	cmp	x14, #8
	csel	x13, x14, x13, lo
	cbz	x14, .Lrekusoyen_start_check_0_1_0.146
	subs	x15, x19, x11
	sub	x17, x13, #1
	mov	x14, xzr
	csel	x15, xzr, x15, lo
	add	x16, x8, x11
	cmp	x17, x15
	b.hs	.Lrekusoyen_start_check_0_1_0.150
	ldrb	w14, [x16, x17]
.Lrekusoyen_start_check_0_1_0.150:
	cbz	x17, .Lrekusoyen_start_check_0_1_0.171
	sub	x17, x13, #2
	lsl	x14, x14, #8
	cmp	x17, x15
	b.hs	.Lrekusoyen_start_check_0_1_0.153
	ldrb	w0, [x16, x17]
	orr	x14, x14, x0
.Lrekusoyen_start_check_0_1_0.153:
	cbz	x17, .Lrekusoyen_start_check_0_1_0.171
	sub	x17, x13, #3
	lsl	x14, x14, #8
	cmp	x17, x15
	b.hs	.Lrekusoyen_start_check_0_1_0.156
	ldrb	w0, [x16, x17]
	orr	x14, x14, x0
.Lrekusoyen_start_check_0_1_0.156:
	cbz	x17, .Lrekusoyen_start_check_0_1_0.171
	sub	x17, x13, #4
	lsl	x14, x14, #8
	cmp	x17, x15
	b.hs	.Lrekusoyen_start_check_0_1_0.159
	ldrb	w0, [x16, x17]
	orr	x14, x14, x0
.Lrekusoyen_start_check_0_1_0.159:
	cbz	x17, .Lrekusoyen_start_check_0_1_0.171
	sub	x17, x13, #5
	lsl	x14, x14, #8
	cmp	x17, x15
	b.hs	.Lrekusoyen_start_check_0_1_0.162
	ldrb	w0, [x16, x17]
	orr	x14, x14, x0
.Lrekusoyen_start_check_0_1_0.162:
	cbz	x17, .Lrekusoyen_start_check_0_1_0.171
	sub	x17, x13, #6
	lsl	x14, x14, #8
	cmp	x17, x15
	b.hs	.Lrekusoyen_start_check_0_1_0.165
	ldrb	w0, [x16, x17]
	orr	x14, x14, x0
.Lrekusoyen_start_check_0_1_0.165:
	cbz	x17, .Lrekusoyen_start_check_0_1_0.171
	sub	x17, x13, #7
	lsl	x14, x14, #8
	cmp	x17, x15
	b.hs	.Lrekusoyen_start_check_0_1_0.168
	ldrb	w0, [x16, x17]
	orr	x14, x14, x0
.Lrekusoyen_start_check_0_1_0.168:
	cbz	x17, .Lrekusoyen_start_check_0_1_0.171
	sub	x17, x13, #8
	lsl	x14, x14, #8
	cmp	x17, x15
	b.hs	.Lrekusoyen_start_check_0_1_0.171
	ldrb	w15, [x16, x17]
	orr	x14, x14, x15
.Lrekusoyen_start_check_0_1_0.171:
	mvn	w15, w12
	tst	x15, #0x3
	b.ne	.Lrekusoyen_start_check_0_1_0.146
	cbz	x14, .Lrekusoyen_start_check_0_1_0.146
	b	.Lrekusoyen_start_check_0_1_0.60
.Lrekusoyen_start_check_0_1_0.173:
	ldp	x20, x19, [sp, #320]
	mov	w0, wzr
	ldp	x22, x21, [sp, #304]
	ldr	x28, [sp, #288]
	ldp	x29, x30, [sp, #272]
	add	sp, sp, #336
	ret
.Lrekusoyen_start_check_0_1_0.174:
	cmp	x11, #5
	b.ne	.Lrekusoyen_start_check_0_1_0.179
	mov	x11, xzr
	b	.Lrekusoyen_start_check_0_1_0.68
.Lrekusoyen_start_check_0_1_0.176:
	cmp	x11, #6
	b.lo	.Lrekusoyen_start_check_0_1_0.181
	mov	x11, xzr
	b	.Lrekusoyen_start_check_0_1_0.123
.Lrekusoyen_start_check_0_1_0.178:
	mov	x15, xzr
	cmp	x12, #2
	mov	x12, xzr
	b.hs	.Lrekusoyen_start_check_0_1_0.135
	b	.Lrekusoyen_start_check_0_1_0.136
.Lrekusoyen_start_check_0_1_0.179:
	cmp	x11, #4
	b.lo	.Lrekusoyen_start_check_0_1_0.183
	mov	x11, xzr
	b	.Lrekusoyen_start_check_0_1_0.69
.Lrekusoyen_start_check_0_1_0.181:
	cmp	x11, #5
	b.ne	.Lrekusoyen_start_check_0_1_0.185
	mov	x11, xzr
	b	.Lrekusoyen_start_check_0_1_0.124
.Lrekusoyen_start_check_0_1_0.183:
	cmp	x11, #3
	b.ne	.Lrekusoyen_start_check_0_1_0.187
	mov	x11, xzr
	b	.Lrekusoyen_start_check_0_1_0.70
.Lrekusoyen_start_check_0_1_0.185:
	cmp	x11, #4
	b.lo	.Lrekusoyen_start_check_0_1_0.188
	mov	x11, xzr
	b	.Lrekusoyen_start_check_0_1_0.125
.Lrekusoyen_start_check_0_1_0.187:
	mov	x14, xzr
	cmp	x11, #2
	mov	x11, xzr
	b.hs	.Lrekusoyen_start_check_0_1_0.71
	b	.Lrekusoyen_start_check_0_1_0.72
.Lrekusoyen_start_check_0_1_0.188:
	cmp	x11, #3
	b.ne	.Lrekusoyen_start_check_0_1_0.190
	mov	x11, xzr
	b	.Lrekusoyen_start_check_0_1_0.126
.Lrekusoyen_start_check_0_1_0.190:
	mov	x14, xzr
	cmp	x11, #2
	mov	x11, xzr
	b.hs	.Lrekusoyen_start_check_0_1_0.127
	b	.Lrekusoyen_start_check_0_1_0.128
.Lrekusoyen_start_check_0_1_0.func_end:
	.size	rekusoyen_start_check_0_1_0, .Lrekusoyen_start_check_0_1_0.func_end-rekusoyen_start_check_0_1_0
	.section	.text.rekusoyen_start_modules_0_1_0,"ax",@progbits
	.globl	rekusoyen_start_modules_0_1_0
	.hidden	rekusoyen_start_modules_0_1_0
	.p2align	2
	.type	rekusoyen_start_modules_0_1_0,@function
rekusoyen_start_modules_0_1_0:
	mov	w9, #4096
	cmp	x0, #0
	csel	x8, x9, xzr, eq
	cmp	x3, #0
	csel	x9, x9, xzr, eq
	cbz	x4, .Lrekusoyen_start_modules_0_1_0.24
	add	x8, x0, x8
	add	x9, x3, x9
	b	.Lrekusoyen_start_modules_0_1_0.3
.Lrekusoyen_start_modules_0_1_0.2:
	adds	x10, x2, #8
	str	x11, [x9], #8
	csinv	x10, x10, xzr, lo
	cmp	x1, x10
	csel	x2, x1, x10, lo
	subs	x4, x4, #1
	b.eq	.Lrekusoyen_start_modules_0_1_0.24
.Lrekusoyen_start_modules_0_1_0.3:
	subs	x10, x1, x2
	csel	x11, xzr, x10, lo
	add	x10, x8, x2
	cmp	x11, #8
	b.lo	.Lrekusoyen_start_modules_0_1_0.5
	ldrb	w11, [x10, #7]
	lsl	x11, x11, #8
	b	.Lrekusoyen_start_modules_0_1_0.7
.Lrekusoyen_start_modules_0_1_0.5:
	cmp	x11, #7
	b.ne	.Lrekusoyen_start_modules_0_1_0.15
	mov	x11, xzr
.Lrekusoyen_start_modules_0_1_0.7:
	ldrb	w12, [x10, #6]
	orr	x11, x11, x12
	lsl	x11, x11, #8
.Lrekusoyen_start_modules_0_1_0.8:
	ldrb	w12, [x10, #5]
	orr	x11, x11, x12
	lsl	x11, x11, #8
.Lrekusoyen_start_modules_0_1_0.9:
	ldrb	w12, [x10, #4]
	orr	x11, x11, x12
	lsl	x11, x11, #8
.Lrekusoyen_start_modules_0_1_0.10:
	ldrb	w12, [x10, #3]
	orr	x11, x11, x12
	lsl	x11, x11, #8
.Lrekusoyen_start_modules_0_1_0.11:
	ldrb	w12, [x10, #2]
	orr	x11, x11, x12
	lsl	x12, x11, #8
.Lrekusoyen_start_modules_0_1_0.12:
	ldrb	w11, [x10, #1]
	orr	x11, x12, x11
	lsl	x11, x11, #8
.Lrekusoyen_start_modules_0_1_0.13:
	cmp	x1, x2
	b.ls	.Lrekusoyen_start_modules_0_1_0.2
	ldrb	w10, [x10]
	orr	x11, x11, x10
	b	.Lrekusoyen_start_modules_0_1_0.2
.Lrekusoyen_start_modules_0_1_0.15:
	cmp	x11, #6
	b.lo	.Lrekusoyen_start_modules_0_1_0.17
	mov	x11, xzr
	b	.Lrekusoyen_start_modules_0_1_0.8
.Lrekusoyen_start_modules_0_1_0.17:
	cmp	x11, #5
	b.ne	.Lrekusoyen_start_modules_0_1_0.19
	mov	x11, xzr
	b	.Lrekusoyen_start_modules_0_1_0.9
.Lrekusoyen_start_modules_0_1_0.19:
	cmp	x11, #4
	b.lo	.Lrekusoyen_start_modules_0_1_0.21
	mov	x11, xzr
	b	.Lrekusoyen_start_modules_0_1_0.10
.Lrekusoyen_start_modules_0_1_0.21:
	cmp	x11, #3
	b.ne	.Lrekusoyen_start_modules_0_1_0.23
	mov	x11, xzr
	b	.Lrekusoyen_start_modules_0_1_0.11
.Lrekusoyen_start_modules_0_1_0.23:
	mov	x12, xzr
	cmp	x11, #2
	mov	x11, xzr
	b.hs	.Lrekusoyen_start_modules_0_1_0.12
	b	.Lrekusoyen_start_modules_0_1_0.13
.Lrekusoyen_start_modules_0_1_0.24:
	ret
.Lrekusoyen_start_modules_0_1_0.func_end:
	.size	rekusoyen_start_modules_0_1_0, .Lrekusoyen_start_modules_0_1_0.func_end-rekusoyen_start_modules_0_1_0
	.section	.text.rekusoyen_start_ranges_0_1_0,"ax",@progbits
	.globl	rekusoyen_start_ranges_0_1_0
	.hidden	rekusoyen_start_ranges_0_1_0
	.p2align	2
	.type	rekusoyen_start_ranges_0_1_0,@function
rekusoyen_start_ranges_0_1_0:
	mov	w8, #4096
	cmp	x0, #0
	csel	x9, x8, xzr, eq
	cmp	x3, #0
	csel	x10, x8, xzr, eq
	cbz	x4, .Lrekusoyen_start_ranges_0_1_0.27
	mov	x8, xzr
	add	x9, x0, x9
	add	x10, x3, x10
	b	.Lrekusoyen_start_ranges_0_1_0.3
.Lrekusoyen_start_ranges_0_1_0.2:
	adds	x11, x11, x2
	str	x12, [x10, x8]
	add	x8, x8, #8
	csinv	x11, x11, xzr, lo
	cmp	x1, x11
	csel	x2, x1, x11, lo
	subs	x4, x4, #1
	b.eq	.Lrekusoyen_start_ranges_0_1_0.27
.Lrekusoyen_start_ranges_0_1_0.3:
	and	x11, x8, #0x18
	adrp	x12, .Lrekusoyen_0_1_0.static.21
	add	x12, x12, :lo12:.Lrekusoyen_0_1_0.static.21
	ldr	x12, [x12, x11]
	mov	w11, #8
	cmp	x12, #8
	csel	x11, x12, x11, lo
	cbz	x12, .Lrekusoyen_start_ranges_0_1_0.2
	subs	x13, x1, x2
	sub	x15, x11, #1
	mov	x12, xzr
	csel	x13, xzr, x13, lo
	add	x14, x9, x2
	cmp	x15, x13
	b.hs	.Lrekusoyen_start_ranges_0_1_0.6
	ldrb	w12, [x14, x15]
.Lrekusoyen_start_ranges_0_1_0.6:
	cbz	x15, .Lrekusoyen_start_ranges_0_1_0.2
	sub	x15, x11, #2
	lsl	x12, x12, #8
	cmp	x15, x13
	b.hs	.Lrekusoyen_start_ranges_0_1_0.9
	ldrb	w16, [x14, x15]
	orr	x12, x12, x16
.Lrekusoyen_start_ranges_0_1_0.9:
	cbz	x15, .Lrekusoyen_start_ranges_0_1_0.2
	sub	x15, x11, #3
	lsl	x12, x12, #8
	cmp	x15, x13
	b.hs	.Lrekusoyen_start_ranges_0_1_0.12
	ldrb	w16, [x14, x15]
	orr	x12, x12, x16
.Lrekusoyen_start_ranges_0_1_0.12:
	cbz	x15, .Lrekusoyen_start_ranges_0_1_0.2
	sub	x15, x11, #4
	lsl	x12, x12, #8
	cmp	x15, x13
	b.hs	.Lrekusoyen_start_ranges_0_1_0.15
	ldrb	w16, [x14, x15]
	orr	x12, x12, x16
.Lrekusoyen_start_ranges_0_1_0.15:
	cbz	x15, .Lrekusoyen_start_ranges_0_1_0.2
	sub	x15, x11, #5
	lsl	x12, x12, #8
	cmp	x15, x13
	b.hs	.Lrekusoyen_start_ranges_0_1_0.18
	ldrb	w16, [x14, x15]
	orr	x12, x12, x16
.Lrekusoyen_start_ranges_0_1_0.18:
	cbz	x15, .Lrekusoyen_start_ranges_0_1_0.2
	sub	x15, x11, #6
	lsl	x12, x12, #8
	cmp	x15, x13
	b.hs	.Lrekusoyen_start_ranges_0_1_0.21
	ldrb	w16, [x14, x15]
	orr	x12, x12, x16
.Lrekusoyen_start_ranges_0_1_0.21:
	cbz	x15, .Lrekusoyen_start_ranges_0_1_0.2
	sub	x15, x11, #7
	lsl	x12, x12, #8
	cmp	x15, x13
	b.hs	.Lrekusoyen_start_ranges_0_1_0.24
	ldrb	w16, [x14, x15]
	orr	x12, x12, x16
.Lrekusoyen_start_ranges_0_1_0.24:
	cbz	x15, .Lrekusoyen_start_ranges_0_1_0.2
	sub	x15, x11, #8
	lsl	x12, x12, #8
	cmp	x15, x13
	b.hs	.Lrekusoyen_start_ranges_0_1_0.2
	ldrb	w13, [x14, x15]
	orr	x12, x12, x13
	b	.Lrekusoyen_start_ranges_0_1_0.2
.Lrekusoyen_start_ranges_0_1_0.27:
	ret
.Lrekusoyen_start_ranges_0_1_0.func_end:
	.size	rekusoyen_start_ranges_0_1_0, .Lrekusoyen_start_ranges_0_1_0.func_end-rekusoyen_start_ranges_0_1_0
	.section	.text.rekusoyen_start_write_0_1_0,"ax",@progbits
	.globl	rekusoyen_start_write_0_1_0
	.hidden	rekusoyen_start_write_0_1_0
	.p2align	2
	.type	rekusoyen_start_write_0_1_0,@function
rekusoyen_start_write_0_1_0:
	sub	sp, sp, #416
	stp	x29, x30, [sp, #320]
	add	x29, sp, #320
	cmp	x0, #0
	stp	x28, x27, [sp, #336]
	mov	w10, #4096
	stp	x26, x25, [sp, #352]
	csel	x25, x10, xzr, eq
	cmp	x2, #0
	stp	x24, x23, [sp, #368]
	csel	x11, x10, xzr, eq
	stp	x22, x21, [sp, #384]
	stp	x20, x19, [sp, #400]
	mov	x19, x1
	mov	x20, x0
	ldp	x24, x22, [x29, #112]
	add	x0, sp, #8
	ldp	x23, x21, [x29, #128]
	add	x1, x2, x11
	ldp	x9, x8, [x29, #96]
	mov	x2, x3
	cmp	x24, #0
	stp	x6, xzr, [x29, #-32]
	csel	x26, x10, xzr, eq
	cmp	x23, #0
	stp	x4, x5, [x29, #-48]
	stur	w7, [x29, #-24]
	csel	x27, x10, xzr, eq
	stp	x9, x8, [x29, #-16]
	bl	rekusoyen_0_1_0.guest.maps.from_numbers
	add	x0, x20, x25
	add	x2, sp, #8
	sub	x3, x29, #48
	add	x4, x24, x26
	add	x6, x23, x27
	mov	x1, x19
	mov	x5, x22
	mov	x7, x21
	bl	rekusoyen_0_1_0.start_info.write
	tbz	w0, #0, .Lrekusoyen_start_write_0_1_0.2
	ldp	x20, x19, [sp, #400]
	mov	w0, w1
	ldp	x22, x21, [sp, #384]
	ldp	x24, x23, [sp, #368]
	ldp	x26, x25, [sp, #352]
	ldp	x28, x27, [sp, #336]
	ldp	x29, x30, [sp, #320]
	add	sp, sp, #416
	b	rekusoyen_0_1_0.answers.U32FromRefusal.from
.Lrekusoyen_start_write_0_1_0.2:
	ldp	x20, x19, [sp, #400]
	mov	w0, wzr
	ldp	x22, x21, [sp, #384]
	ldp	x24, x23, [sp, #368]
	ldp	x26, x25, [sp, #352]
	ldp	x28, x27, [sp, #336]
	ldp	x29, x30, [sp, #320]
	add	sp, sp, #416
	ret
.Lrekusoyen_start_write_0_1_0.func_end:
	.size	rekusoyen_start_write_0_1_0, .Lrekusoyen_start_write_0_1_0.func_end-rekusoyen_start_write_0_1_0
	.type	.Lrekusoyen_0_1_0.static.3,@object
	.section	.rodata.cst4,"aM",@progbits,4
.Lrekusoyen_0_1_0.static.3:
	.ascii	" -- "
	.size	.Lrekusoyen_0_1_0.static.3, 4
	.type	.Lrekusoyen_0_1_0.static.4,@object
	.section	.rodata.str1.1,"aMS",@progbits,1
.Lrekusoyen_0_1_0.static.4:
	.zero	1
	.size	.Lrekusoyen_0_1_0.static.4, 1
	.type	.Lrekusoyen_0_1_0.static.7,@object
	.section	.rodata..Lrekusoyen_0_1_0.static.7,"a",@progbits
.Lrekusoyen_0_1_0.static.7:
	.ascii	"load "
	.size	.Lrekusoyen_0_1_0.static.7, 5
	.type	.Lrekusoyen_0_1_0.static.8,@object
	.section	.rodata.cst4,"aM",@progbits,4
.Lrekusoyen_0_1_0.static.8:
	.ascii	"end "
	.size	.Lrekusoyen_0_1_0.static.8, 4
	.type	.Lrekusoyen_0_1_0.static.9,@object
	.section	.rodata..Lrekusoyen_0_1_0.static.9,"a",@progbits
.Lrekusoyen_0_1_0.static.9:
	.byte	10
	.size	.Lrekusoyen_0_1_0.static.9, 1
	.type	.Lrekusoyen_0_1_0.static.10,@object
	.section	.rodata..Lrekusoyen_0_1_0.static.10,"a",@progbits
.Lrekusoyen_0_1_0.static.10:
	.ascii	"pvh ignored\n"
	.size	.Lrekusoyen_0_1_0.static.10, 12
	.type	.Lrekusoyen_0_1_0.static.11,@object
	.section	.rodata..Lrekusoyen_0_1_0.static.11,"a",@progbits
.Lrekusoyen_0_1_0.static.11:
	.ascii	"pvh none\n"
	.size	.Lrekusoyen_0_1_0.static.11, 9
	.type	.Lrekusoyen_0_1_0.static.12,@object
	.section	.rodata.cst4,"aM",@progbits,4
.Lrekusoyen_0_1_0.static.12:
	.ascii	"pvh "
	.size	.Lrekusoyen_0_1_0.static.12, 4
	.type	.Lrekusoyen_0_1_0.static.13,@object
	.section	.rodata..Lrekusoyen_0_1_0.static.13,"a",@progbits
.Lrekusoyen_0_1_0.static.13:
	.ascii	"virtio_mmio.device="
	.size	.Lrekusoyen_0_1_0.static.13, 19
	.type	.Lrekusoyen_0_1_0.static.14,@object
	.section	.rodata..Lrekusoyen_0_1_0.static.14,"a",@progbits
.Lrekusoyen_0_1_0.static.14:
	.ascii	"@0x"
	.size	.Lrekusoyen_0_1_0.static.14, 3
	.type	.Lrekusoyen_0_1_0.static.15,@object
	.section	.rodata..Lrekusoyen_0_1_0.static.15,"a",@progbits
.Lrekusoyen_0_1_0.static.15:
	.byte	58
	.size	.Lrekusoyen_0_1_0.static.15, 1
	.type	.Lrekusoyen_0_1_0.static.16,@object
	.section	.rodata..Lrekusoyen_0_1_0.static.16,"a",@progbits
.Lrekusoyen_0_1_0.static.16:
	.byte	32
	.size	.Lrekusoyen_0_1_0.static.16, 1
	.type	.Lrekusoyen_0_1_0.static.18,@object
	.section	.rodata..Lrekusoyen_0_1_0.static.18,"a",@progbits
	.p2align	3, 0x0
.Lrekusoyen_0_1_0.static.18:
	.asciz	"\b\000\000\000\000\000\000\000\b\000\000\000\000\000\000\000\004\000\000\000\000\000\000"
	.size	.Lrekusoyen_0_1_0.static.18, 24
	.type	.Lrekusoyen_0_1_0.static.19,@object
	.section	.rodata..Lrekusoyen_0_1_0.static.19,"a",@progbits
	.p2align	3, 0x0
.Lrekusoyen_0_1_0.static.19:
	.size	.Lrekusoyen_0_1_0.static.19, 0
	.type	.Lrekusoyen_0_1_0.static.21,@object
	.section	.rodata.cst32,"aM",@progbits,32
	.p2align	3, 0x0
.Lrekusoyen_0_1_0.static.21:
	.asciz	"\b\000\000\000\000\000\000\000\b\000\000\000\000\000\000\000\004\000\000\000\000\000\000\000\004\000\000\000\000\000\000"
	.size	.Lrekusoyen_0_1_0.static.21, 32
	.type	.Lrekusoyen_0_1_0.static.25,@object
	.section	.rodata..Lrekusoyen_0_1_0.static.25,"a",@progbits
.Lrekusoyen_0_1_0.static.25:
	.ascii	"\000\000\000\000\000\000\000\000\000\000\000\000\000U\252\000\000HdrS\000\000\000\000\000\000\000\000\000\000\000\000\000\000\000\000\000\000\000\000\000\000\000\000\000\000\000\000\000\000\000\000\000\000\000\000\000\000\000\000\000\000\000\000\000\001"
	.size	.Lrekusoyen_0_1_0.static.25, 67
	.type	.Lrekusoyen_0_1_0.switch.table.answers.U32FromRefusal.from,@object
	.section	.rodata..Lrekusoyen_0_1_0.switch.table.answers.U32FromRefusal.from,"a",@progbits
	.p2align	2, 0x0
.Lrekusoyen_0_1_0.switch.table.answers.U32FromRefusal.from:
	.word	1
	.word	2
	.word	3
	.word	4
	.word	5
	.word	6
	.word	7
	.word	8
	.word	9
	.word	10
	.word	11
	.word	12
	.word	13
	.word	14
	.word	21
	.word	22
	.word	23
	.word	24
	.word	31
	.word	32
	.word	41
	.word	42
	.word	43
	.word	44
	.word	45
	.word	46
	.word	47
	.word	48
	.word	49
	.word	50
	.word	51
	.word	60
	.word	61
	.word	62
	.word	63
	.word	64
	.word	70
	.word	71
	.word	72
	.word	73
	.word	74
	.word	75
	.word	76
	.word	77
	.word	78
	.word	79
	.word	80
	.word	81
	.word	82
	.word	83
	.word	84
	.word	85
	.word	86
	.word	87
	.word	88
	.word	91
	.word	92
	.word	93
	.word	94
	.word	95
	.word	96
	.word	97
	.word	98
	.word	99
	.word	100
	.word	101
	.word	102
	.word	103
	.word	104
	.word	105
	.word	106
	.word	107
	.word	108
	.size	.Lrekusoyen_0_1_0.switch.table.answers.U32FromRefusal.from, 292
	.type	.Lrekusoyen_0_1_0.switch.table.start_info.writing.check,@object
	.section	.rodata..Lrekusoyen_0_1_0.switch.table.start_info.writing.check,"a",@progbits
	.p2align	3, 0x0
.Lrekusoyen_0_1_0.switch.table.start_info.writing.check:
	.xword	1
	.xword	256
	.xword	65536
	.xword	16777216
	.xword	4294967296
	.xword	1099511627776
	.xword	281474976710656
	.xword	72057594037927936
	.size	.Lrekusoyen_0_1_0.switch.table.start_info.writing.check, 64
	.section	.note.GNU-stack,"",%progbits
	.text
