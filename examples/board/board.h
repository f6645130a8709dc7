/* What the loop needs of its board. On another board, fill in the bus's two functions and the pause, and print as you like. */
#include <stdbool.h>
#include <stdint.h>

/* The I2C driver's two functions: one transaction with the module, from the address `offset` on. `device` is the 8-bit address, so a
   driver that takes 7 bits gets device >> 1. Each is true if the module gave, or took, all of the bytes. A driver makes it once: after
   the first NACK it returns false, without a retry.

   A fetch: START, device and W, offset, repeated START, device and R, `count` bytes, STOP. A store: START, device and W, offset, `count`
   bytes, STOP. Before the first one: ModSelL low, ResetL high, and 2 s since the module was plugged. */
bool bus_fetch(uint8_t device, uint8_t offset, uint8_t *bytes, uint8_t count);
bool bus_store(uint8_t device, uint8_t offset, const uint8_t *bytes, uint8_t count);

/* Lets so many milliseconds pass, or more. */
void bus_pause(uint32_t milliseconds);

void print(const char *text);
