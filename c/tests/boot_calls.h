/* Accepted calls of a whole boot and of its pieces, with little stack of their own: c/tests/stack.c measures them. */
#ifndef BOOT_CALLS_H
#define BOOT_CALLS_H

#include <stdint.h>

/* Makes the boots, before any call. */
void prepare_boot_calls(void);

uint32_t boot_by_page_32(void);
uint32_t boot_by_page_64(void);
uint32_t boot_by_page_64_elf(void);
uint32_t boot_by_pvh(void);
uint32_t boot_by_tree(void);
uint32_t plan_by_page_32(void);
uint32_t plan_by_page_64(void);
uint32_t plan_by_page_64_elf(void);
uint32_t plan_by_pvh(void);
uint32_t plan_by_tree(void);
uint32_t check_a_line(void);
uint32_t find_room(void);
uint32_t put_bytes(void);
uint32_t place_low(void);
uint32_t place_high(void);

#endif
