/* The second file of the program of words.c: it includes the header too. */
#include "words_again.h"

const char *word_again(uint32_t code)
{
    return drifters_code_word(code);
}

const char *meaning_again(uint32_t code)
{
    return drifters_code_meaning(code);
}
