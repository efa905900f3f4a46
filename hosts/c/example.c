/* A whole host: it types the sheet of examples/1-add and writes what ./typesheet writes.
   gcc -Iinclude hosts/c/example.c target/staticlib/libswartabelk.a -o example && ./example */
#include <stdio.h>
#include "swartabelk.h"

int main(void) {
    static uint32_t words[SWARTABELK_WORDS];
    static uint8_t text[SWARTABELK_SPELLING_MOST * SWARTABELK_CEILING];
    const uint8_t sheet[] = {1, 0, 9, 2, SWARTABELK_ITEM_PUSH, SWARTABELK_ABSTRACT_INT, 2, SWARTABELK_ITEM_PUSH, SWARTABELK_F32,
                             2, SWARTABELK_ITEM_BINARY, SWARTABELK_BINARY_PLUS};
    uint32_t used = swartabelk_scalars(words, SWARTABELK_WORDS);
    swartabelk_reply r = swartabelk_sheet(words, SWARTABELK_WORDS, used, SWARTABELK_PROFILE_BASE, sheet, sizeof sheet);
    if (r.refusal) {
        printf("refused %u at %u\n", (unsigned)r.refusal, (unsigned)r.place);
        fprintf(stderr, "%s\n", swartabelk_refusal_text(r.refusal));
    } else if (r.type == SWARTABELK_NO_VALUE) {
        printf("none\n");
    } else {
        swartabelk_spelled s = swartabelk_spell(words, SWARTABELK_WORDS, r.used, r.type, text, sizeof text);
        printf("type %u %.*s\n", (unsigned)r.type, (int)s.length, (const char *)text);
    }
    printf("entries %u\n", (unsigned)r.used);
    return r.refusal != 0;
}
