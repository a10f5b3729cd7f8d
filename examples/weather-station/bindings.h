/* Numbers that the board and its chip share. */
#ifndef WEATHER_STATION_BINDINGS_H
#define WEATHER_STATION_BINDINGS_H

#define CLK_UART0	3
#define CLK_I2C0	5
#define CLK_I2C1	6
#define CLK_SPI0	8

#define IRQ_TYPE_LEVEL_HIGH	4
#define GPIO_ACTIVE_HIGH	0
#define GPIO_ACTIVE_LOW		1
#define GIC_SPI(n)		0 (n) IRQ_TYPE_LEVEL_HIGH
#define PIN(bank, line)		((bank) * 32 + (line))

#endif
