/* The reference behind the product's C call, for an example on a machine that the product's library is not for. */
#include "reference.h"

#include <flare.h>

uint8_t flare_minute(const uint8_t *site, size_t site_len, const uint8_t *minute, size_t minute_len, uint16_t days,
                     uint8_t *answer, size_t answer_len)
{
    return reference_minute(site, site_len, minute, minute_len, days, answer, answer_len);
}
