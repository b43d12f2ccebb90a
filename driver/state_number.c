#include "state_number.h"

uint32_t number_read(const uint8_t *bytes, unsigned width)
{
    uint32_t value = 0;
    for (unsigned i = width; i-- > 0;)
        value = value * 256 + bytes[i];
    return value;
}

void number_lay(uint8_t *bytes, unsigned width, uint32_t value)
{
    for (unsigned i = 0; i < width; i++) {
        bytes[i] = (uint8_t)(value % 256);
        value /= 256;
    }
}
