/* SPDX-License-Identifier: MIT OR Apache-2.0 */
/* Constants of the Kestrel K2, a system on a chip that is made up for this example. */
#ifndef DT_BINDINGS_KESTREL_H
#define DT_BINDINGS_KESTREL_H

/* interrupts */
#define IRQ_SHARED		0
#define IRQ_PRIVATE		1
#define IRQ_EDGE_RISING		1
#define IRQ_EDGE_FALLING	2
#define IRQ_EDGE_BOTH		(IRQ_EDGE_FALLING | IRQ_EDGE_RISING)
#define IRQ_LEVEL_HIGH		4
#define IRQ_LEVEL_LOW		8

/* flags of a gpio */
#define GPIO_ACTIVE_HIGH	0
#define GPIO_ACTIVE_LOW		1
#define GPIO_OPEN_DRAIN		(1 << 1)
#define GPIO_PULL_UP		(1 << 4)

/* clocks */
#define K2_CLK_OSC		0
#define K2_CLK_CPU		1
#define K2_CLK_UART(n)		(8 + (n))
#define K2_CLK_I2C(n)		(16 + (n))
#define K2_CLK_SPI		24
#define K2_CLK_MMC		25
#define K2_CLK_ETH		26

/* a pin: bank, number in it, function, drive strength in mA */
#define K2_PIN(bank, n, function, drive) \
	(((bank) << 12) | ((n) << 8) | ((function) << 4) | ((drive) / 2 - 1))
#define K2_FUNCTION_GPIO	0
#define K2_FUNCTION_UART	1
#define K2_FUNCTION_I2C		2

/* linux,code of a key */
#define KEY_POWER		116

#endif
