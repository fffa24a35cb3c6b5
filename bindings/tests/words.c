/* The words and meanings of the codes, as two files of one program see them. words_again.c is the other file. */
#include <string.h>

#include "check.h"
#include "drifters_eqf.h"
#include "words_again.h"

#define CODES 9 /* 0 to 8 */

/* 32 bits set, and the first number that is no code. */
static const uint32_t unknown[2] = {0xFFFFFFFFu, CODES};

static void words(void)
{
    static const char *const expected[CODES] = {"ok", "length", "blank", "turn", "pivot", "range", "sheet", "null",
                                                "unequal"};
    uint32_t code;

    for (code = 0; code < CODES; code++)
        CHECK(strcmp(drifters_code_word(code), expected[code]) == 0);
}

/* Each meaning is one line, and no two are the same. */
static void meanings(void)
{
    uint32_t code, other;

    for (code = 0; code < CODES; code++) {
        CHECK(strlen(drifters_code_meaning(code)) > 0);
        CHECK(strchr(drifters_code_meaning(code), '\n') == NULL);
        for (other = 0; other < code; other++)
            CHECK(strcmp(drifters_code_meaning(code), drifters_code_meaning(other)) != 0);
    }
}

static void unknown_codes(void)
{
    uint32_t code;
    int i;

    for (i = 0; i < 2; i++) {
        CHECK(strcmp(drifters_code_word(unknown[i]), "unknown") == 0);
        CHECK(strcmp(drifters_code_meaning(unknown[i]), "no code of this library") == 0);
    }
    for (code = 0; code < CODES; code++)
        CHECK(strcmp(drifters_code_meaning(code), drifters_code_meaning(CODES)) != 0);
}

static void other_file(void)
{
    uint32_t code;

    for (code = 0; code <= CODES; code++) {
        CHECK(strcmp(word_again(code), drifters_code_word(code)) == 0);
        CHECK(strcmp(meaning_again(code), drifters_code_meaning(code)) == 0);
    }
}

int main(void)
{
    words();
    meanings();
    unknown_codes();
    other_file();
    return status_of("words", 9 + 9 * 2 + 36 + 4 + 9 + 10 * 2);
}
