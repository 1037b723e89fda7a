/* Numbers of 128 bits in decimal. */
#include "wide.h"
#include <string.h>

/* Written from the last digit on, at the end of the text, and then moved to its start. */
void decimal(wide number, char text[DECIMAL])
{
    char *end = text + DECIMAL - 1, *at = end;
    unsigned_wide left = number < 0 ? -(unsigned_wide)number : (unsigned_wide)number;
    *at = 0;
    for (int digits = 0; digits == 0 || left > 0; digits++, left /= 10) {
        if (digits > 0 && digits % 3 == 0)
            *--at = ',';
        *--at = (char)('0' + (int)(left % 10));
    }
    if (number < 0)
        *--at = '-';
    memmove(text, at, (size_t)(end - at) + 1);
}
