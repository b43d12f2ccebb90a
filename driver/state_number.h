/* Numbers of several bytes in a state: the low byte comes first. */
#ifndef STATE_NUMBER_H
#define STATE_NUMBER_H

#include <stdint.h>

uint32_t number_read(const uint8_t *bytes, unsigned width);
void number_lay(uint8_t *bytes, unsigned width, uint32_t value);

#endif
