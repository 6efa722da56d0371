/* The two accesses to the bus that a program needs. */
#include <stdint.h>

#ifdef __cplusplus
extern "C" {
#endif
void bus_write(uint32_t address, uint32_t value);
uint32_t bus_read(uint32_t address);
#ifdef __cplusplus
}
#endif
