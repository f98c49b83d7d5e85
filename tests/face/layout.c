/* The layout, the numbers and the names with their types, written down a second time: programs
   elsewhere were compiled with these. It must compile beside the header. */
#include "trieff.h"
#define AT(field, size, place)                                    \
    _Static_assert(sizeof(((trieff_answer *)0)->field) == size && \
                       offsetof(trieff_answer, field) == place,   \
                   #field)
AT(number, 4, 0);
AT(place, 4, 4);
AT(length, 4, 8);
AT(change, 4, 12);
AT(value, 8, 16);
_Static_assert(sizeof(trieff_answer) == 24 && _Alignof(trieff_answer) == 8, "the answer");
_Static_assert((__typeof__(((trieff_answer *)0)->change))-1 < 0, "change has a sign");
_Static_assert(TRIEFF_DONE == 0 && TRIEFF_IMAGE_LENGTH == 1 && TRIEFF_HEAD_FIELD == 2 &&
                   TRIEFF_ALPHABET == 3,
               "0 to 3");
_Static_assert(TRIEFF_IMAGE_ROOM == 4 && TRIEFF_TOO_FEW_NUMBERS == 5 && TRIEFF_LINK == 6 &&
                   TRIEFF_LINKED_TWICE == 7,
               "4 to 7");
_Static_assert(TRIEFF_NOT_LINKED == 8 && TRIEFF_KEY_LENGTH == 9 && TRIEFF_LETTER == 10 &&
                   TRIEFF_VALUE_TOO_GREAT == 11,
               "8 to 11");
_Static_assert(TRIEFF_NO_ADDRESS == 12 && TRIEFF_NO_ROOM == 13 && TRIEFF_SHORT_BUFFER == 14 &&
                   TRIEFF_NO_KEY == 15,
               "12 to 15");
_Static_assert(TRIEFF_NOT_REACHED == 16 && TRIEFF_HIDDEN == 19 && TRIEFF_COUNTS_DIFFER == 25,
               "16, 19 and 25");
_Static_assert(TRIEFF_LENGTH(1, 3, 1, 1, 3) == 35 && TRIEFF_LENGTH(3, 3, 1, 1, 3) == 43,
               "P1 and P2");
_Static_assert(TRIEFF_VERSION == 2, "raised with every changed prototype or layout");
_Static_assert(TRIEFF_WRITES_MOST == 66 && TRIEFF_WRITES_LEN == 132, "the list of writes");
_Static_assert(TRIEFF_IMAGE_LEAST == 28 && TRIEFF_IMAGE_MOST == 16777216 &&
                   TRIEFF_N_MOST == 256 && TRIEFF_A_MOST == 4 && TRIEFF_D_MOST == 8 &&
                   TRIEFF_F_MOST == 1024 && TRIEFF_KEY_MOST == 64,
               "the limits of an image");
_Static_assert(TRIEFF_LENGTH(1, 256, 4, 8, 0) == 28 + 1032, "the widest node");
trieff_answer trieff_make(uint8_t *image, size_t image_len, uint32_t n, uint32_t a, uint32_t d,
                          const uint8_t *alphabet, size_t alphabet_len,
                          uint32_t min, uint32_t max);
trieff_answer trieff_check(const uint8_t *image, size_t image_len,
                           uint32_t *work, size_t work_len);
trieff_answer trieff_count(const uint8_t *image, size_t image_len,
                           uint32_t *work, size_t work_len);
trieff_answer trieff_look_up(const uint8_t *image, size_t image_len,
                             const uint8_t *letters, size_t letters_len);
trieff_answer trieff_look_up_text(const uint8_t *image, size_t image_len,
                                  const uint8_t *text, size_t text_len);
trieff_answer trieff_store(uint8_t *image, size_t image_len, uint32_t *work, size_t work_len,
                           const uint8_t *letters, size_t letters_len, uint64_t value);
trieff_answer trieff_store_text(uint8_t *image, size_t image_len, uint32_t *work, size_t work_len,
                                const uint8_t *text, size_t text_len, uint64_t value);
trieff_answer trieff_store_writes(uint8_t *image, size_t image_len,
                                  uint32_t *work, size_t work_len,
                                  const uint8_t *letters, size_t letters_len, uint64_t value,
                                  uint32_t writes[132]);
trieff_answer trieff_store_text_writes(uint8_t *image, size_t image_len,
                                       uint32_t *work, size_t work_len,
                                       const uint8_t *text, size_t text_len, uint64_t value,
                                       uint32_t writes[132]);
trieff_answer trieff_mend(uint8_t *image, size_t image_len, uint32_t *work, size_t work_len);
trieff_answer trieff_next_key(const uint8_t *image, size_t image_len,
                              uint32_t *work, size_t work_len,
                              const uint8_t *letters, size_t letters_len, bool after,
                              uint8_t *key, size_t key_len);
trieff_answer trieff_counts(const uint8_t *image, size_t image_len,
                            uint32_t *work, size_t work_len,
                            uint32_t *counts, size_t counts_len);
trieff_answer trieff_check_counts(const uint8_t *image, size_t image_len,
                                  uint32_t *work, size_t work_len,
                                  const uint32_t *counts, size_t counts_len);
trieff_answer trieff_store_counts(uint8_t *image, size_t image_len,
                                  uint32_t *work, size_t work_len,
                                  const uint8_t *letters, size_t letters_len, uint64_t value,
                                  uint32_t *counts, size_t counts_len);
trieff_answer trieff_store_text_counts(uint8_t *image, size_t image_len,
                                       uint32_t *work, size_t work_len,
                                       const uint8_t *text, size_t text_len, uint64_t value,
                                       uint32_t *counts, size_t counts_len);
trieff_answer trieff_key_at(const uint8_t *image, size_t image_len,
                            uint32_t *work, size_t work_len,
                            const uint32_t *counts, size_t counts_len, uint64_t position,
                            uint8_t *key, size_t key_len);
trieff_answer trieff_position(const uint8_t *image, size_t image_len,
                              uint32_t *work, size_t work_len,
                              const uint32_t *counts, size_t counts_len,
                              const uint8_t *letters, size_t letters_len);
trieff_answer trieff_position_text(const uint8_t *image, size_t image_len,
                                   uint32_t *work, size_t work_len,
                                   const uint32_t *counts, size_t counts_len,
                                   const uint8_t *text, size_t text_len);
