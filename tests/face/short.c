/* It must not compile with -Werror: the list of writes is too short, and the prototype says so. */
#include "trieff.h"

trieff_answer short_list(uint8_t *image, uint32_t *work, const uint8_t *letters);
trieff_answer short_list(uint8_t *image, uint32_t *work, const uint8_t *letters)
{
    uint32_t writes[TRIEFF_WRITES_MOST];
    return trieff_store_writes(image, 100, work, 10, letters, 2, 5, writes);
}
