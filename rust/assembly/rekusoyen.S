/* The library under the names of rekusoyen.h, for a C compiler: cc -c rekusoyen.S. tools/make-dist writes this file. */
#if defined(__linux__) && defined(__x86_64__) && defined(__LP64__)
#include "x86_64.s"
#elif defined(__linux__) && defined(__aarch64__) && defined(__LP64__) && defined(__AARCH64EL__)
#include "aarch64.s"
#else
#error "the library is assembly text for Linux on x86-64 and aarch64"
#endif
	.globl	rekusoyen_has_room
	.set	rekusoyen_has_room, rekusoyen_has_room_0_1_0
	.globl	rekusoyen_job
	.set	rekusoyen_job, rekusoyen_job_0_1_0
	.globl	rekusoyen_kind
	.set	rekusoyen_kind, rekusoyen_kind_0_1_0
	.globl	rekusoyen_line_add_virtio_mmio_device
	.set	rekusoyen_line_add_virtio_mmio_device, rekusoyen_line_add_virtio_mmio_device_0_1_0
	.globl	rekusoyen_line_check
	.set	rekusoyen_line_check, rekusoyen_line_check_0_1_0
	.globl	rekusoyen_line_insert
	.set	rekusoyen_line_insert, rekusoyen_line_insert_0_1_0
	.globl	rekusoyen_line_insert_init_args
	.set	rekusoyen_line_insert_init_args, rekusoyen_line_insert_init_args_0_1_0
	.globl	rekusoyen_line_insert_multiple
	.set	rekusoyen_line_insert_multiple, rekusoyen_line_insert_multiple_0_1_0
	.globl	rekusoyen_line_insert_str
	.set	rekusoyen_line_insert_str, rekusoyen_line_insert_str_0_1_0
	.globl	rekusoyen_line_load
	.set	rekusoyen_line_load, rekusoyen_line_load_0_1_0
	.globl	rekusoyen_line_new
	.set	rekusoyen_line_new, rekusoyen_line_new_0_1_0
	.globl	rekusoyen_line_plan
	.set	rekusoyen_line_plan, rekusoyen_line_plan_0_1_0
	.globl	rekusoyen_line_try_from
	.set	rekusoyen_line_try_from, rekusoyen_line_try_from_0_1_0
	.globl	rekusoyen_page_build
	.set	rekusoyen_page_build, rekusoyen_page_build_0_1_0
	.globl	rekusoyen_put
	.set	rekusoyen_put, rekusoyen_put_0_1_0
	.globl	rekusoyen_raw_begin
	.set	rekusoyen_raw_begin, rekusoyen_raw_begin_0_1_0
	.globl	rekusoyen_raw_boot_pvh
	.set	rekusoyen_raw_boot_pvh, rekusoyen_raw_boot_pvh_0_1_0
	.globl	rekusoyen_raw_boot_pvh_plan
	.set	rekusoyen_raw_boot_pvh_plan, rekusoyen_raw_boot_pvh_plan_0_1_0
	.globl	rekusoyen_raw_boot_tree
	.set	rekusoyen_raw_boot_tree, rekusoyen_raw_boot_tree_0_1_0
	.globl	rekusoyen_raw_boot_tree_plan
	.set	rekusoyen_raw_boot_tree_plan, rekusoyen_raw_boot_tree_plan_0_1_0
	.globl	rekusoyen_raw_boot_zero_page
	.set	rekusoyen_raw_boot_zero_page, rekusoyen_raw_boot_zero_page_0_1_0
	.globl	rekusoyen_raw_boot_zero_page_plan
	.set	rekusoyen_raw_boot_zero_page_plan, rekusoyen_raw_boot_zero_page_plan_0_1_0
	.globl	rekusoyen_raw_elf_note
	.set	rekusoyen_raw_elf_note, rekusoyen_raw_elf_note_0_1_0
	.globl	rekusoyen_raw_line_as_cstring
	.set	rekusoyen_raw_line_as_cstring, rekusoyen_raw_line_as_cstring_0_1_0
	.globl	rekusoyen_raw_line_equal
	.set	rekusoyen_raw_line_equal, rekusoyen_raw_line_equal_0_1_0
	.globl	rekusoyen_raw_line_words
	.set	rekusoyen_raw_line_words, rekusoyen_raw_line_words_0_1_0
	.globl	rekusoyen_raw_load
	.set	rekusoyen_raw_load, rekusoyen_raw_load_0_1_0
	.globl	rekusoyen_raw_page_read
	.set	rekusoyen_raw_page_read, rekusoyen_raw_page_read_0_1_0
	.globl	rekusoyen_raw_part
	.set	rekusoyen_raw_part, rekusoyen_raw_part_0_1_0
	.globl	rekusoyen_raw_place
	.set	rekusoyen_raw_place, rekusoyen_raw_place_0_1_0
	.globl	rekusoyen_raw_place_high
	.set	rekusoyen_raw_place_high, rekusoyen_raw_place_high_0_1_0
	.globl	rekusoyen_raw_plan
	.set	rekusoyen_raw_plan, rekusoyen_raw_plan_0_1_0
	.globl	rekusoyen_raw_start_block
	.set	rekusoyen_raw_start_block, rekusoyen_raw_start_block_0_1_0
	.globl	rekusoyen_raw_step
	.set	rekusoyen_raw_step, rekusoyen_raw_step_0_1_0
	.globl	rekusoyen_setup_header
	.set	rekusoyen_setup_header, rekusoyen_setup_header_0_1_0
	.globl	rekusoyen_start_check
	.set	rekusoyen_start_check, rekusoyen_start_check_0_1_0
	.globl	rekusoyen_start_modules
	.set	rekusoyen_start_modules, rekusoyen_start_modules_0_1_0
	.globl	rekusoyen_start_ranges
	.set	rekusoyen_start_ranges, rekusoyen_start_ranges_0_1_0
	.globl	rekusoyen_start_write
	.set	rekusoyen_start_write, rekusoyen_start_write_0_1_0
