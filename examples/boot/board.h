/*
 * What the loader has to know of a machine of QEMU: `virt` for aarch64 and RISC-V, and mps2-an385 for Cortex-M3.
 */
#ifndef BOARD_H
#define BOARD_H

#include <stdint.h>

#if defined(__aarch64__)
/* PL011 */
#define SERIAL ((volatile uint32_t *)0x09000000)
#define SERIAL_IS_FULL ((SERIAL[6] & 1u << 5) != 0)
#define FLASH_PLACE 0x48000000u
#define IMAGE_PLACE 0x44000000u
#elif defined(__riscv)
/* 16550 */
#define SERIAL ((volatile uint8_t *)0x10000000)
#define SERIAL_IS_FULL ((SERIAL[5] & 1u << 5) == 0)
#define FLASH_PLACE 0x84000000u
#define IMAGE_PLACE 0x82000000u
#else
/* CMSDK, which start-cortex-m.S switches on */
#define SERIAL ((volatile uint32_t *)0x40004000)
#define SERIAL_IS_FULL ((SERIAL[1] & 1u) != 0)
#define FLASH_PLACE 0x21000000u
#define IMAGE_PLACE 0x20200000u
#endif

#endif
