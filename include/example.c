/*
 * Lists the plan `02 00 05 00 02 40 08`: input (10, 0), and every second of its values.
 *
 *   make library
 *   cc -std=c99 -Iinclude include/example.c -Ltarget/lib -lbaarqidho -o target/example && target/example
 */
#include <stdio.h>

#include "baarqidho.h"

int main(void)
{
    const uint8_t packed[] = {0x02, 0x00, 0x05, 0x00, 0x02, 0x40, 0x08};
    uint8_t text[BAARQIDHO_LISTING_MAX];
    uint32_t flow, tick, count;
    uint32_t number = baarqidho_listing(packed, sizeof packed, text, sizeof text, &flow, &tick, &count);

    fwrite(text, 1, count, stdout);
    return number == BAARQIDHO_OK ? 0 : 1;
}
