// C++ must link the names as C does, which only a linked program shows. The pointer of an empty
// vector may be NULL.
#include "trieff.h"

#include <vector>

int main()
{
    static uint8_t image[27];
    uint32_t work[1];
    std::vector<uint8_t> none;
    std::vector<uint32_t> no_numbers;
    bool linked =
        trieff_check(image, sizeof image, work, 1).number == TRIEFF_IMAGE_LENGTH &&
        trieff_check(none.data(), none.size(), no_numbers.data(), 0).number == TRIEFF_IMAGE_LENGTH;
    return linked && trieff_text(TRIEFF_DONE)[0] == 'd' ? 0 : 1;
}
