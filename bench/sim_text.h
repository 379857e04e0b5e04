/* Decimals in the texts that the simulator writes. */
#ifndef SIM_TEXT_H
#define SIM_TEXT_H

#include <stdint.h>

/* A decimal of at most five digits; returns its end. */
static inline uint8_t *put_number(uint8_t *p, uint32_t n)
{
    if (n >= 10) {
        if (n >= 100) {
            if (n >= 1000) {
                if (n >= 10000)
                    *p++ = (uint8_t)('0' + n / 10000);
                *p++ = (uint8_t)('0' + n / 1000 % 10);
            }
            *p++ = (uint8_t)('0' + n / 100 % 10);
        }
        *p++ = (uint8_t)('0' + n / 10 % 10);
    }
    *p++ = (uint8_t)('0' + n % 10);
    return p;
}

/* A space and a decimal; returns their end. */
static inline uint8_t *put_field(uint8_t *p, uint32_t n)
{
    *p = ' ';
    return put_number(p + 1, n);
}

#endif
