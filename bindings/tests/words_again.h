/* What words_again.c, which includes the header a second time, has of the codes. */
#include "drifters_eqf.h"

const char *word_again(uint32_t code);
const char *meaning_again(uint32_t code);
