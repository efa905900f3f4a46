/* What the header itself has: its numbers by name, the texts of refusals, the scalars of a new table, the bound of a spelling. */
#include "test.h"

#include <string.h>

#define SAME(a, b) ((int)(a) == (int)(b))

/* The names of the header have the numbers of document 01, as test.h lists them. */
static void numbers(void) {
    HOLDS(SAME(SWARTABELK_BOOL, BOOL) && SAME(SWARTABELK_ABSTRACT_INT, ABSTRACT_INT) && SAME(SWARTABELK_ABSTRACT_FLOAT, ABSTRACT_FLOAT));
    HOLDS(SAME(SWARTABELK_I32, I32) && SAME(SWARTABELK_U32, U32) && SAME(SWARTABELK_F32, F32) && SAME(SWARTABELK_F16, F16));
    HOLDS(SAME(SWARTABELK_SCALARS, SCALARS) && SWARTABELK_STRIDE == 4 && SWARTABELK_CEILING == 256 && SWARTABELK_WORDS == 1024);
    HOLDS(SAME(SWARTABELK_KIND_VEC, VEC) && SAME(SWARTABELK_KIND_MAT, MAT) && SAME(SWARTABELK_KIND_ARRAY, ARRAY));
    HOLDS(SAME(SWARTABELK_KIND_RUNTIME_ARRAY, RUNTIME) && SAME(SWARTABELK_KIND_ATOMIC, ATOMIC) && SAME(SWARTABELK_KIND_PTR, PTR));
    HOLDS(SAME(SWARTABELK_KIND_REF, REF) && SAME(SWARTABELK_KIND_FREXP, FREXP) && SAME(SWARTABELK_KIND_MODF, MODF) && SAME(SWARTABELK_KIND_EXCHANGE, EXCHANGE));
    HOLDS(SAME(SWARTABELK_SPACE_FUNCTION, FUNCTION) && SAME(SWARTABELK_SPACE_PRIVATE, PRIVATE) && SAME(SWARTABELK_SPACE_WORKGROUP, WORKGROUP));
    HOLDS(SAME(SWARTABELK_SPACE_UNIFORM, UNIFORM) && SAME(SWARTABELK_SPACE_STORAGE, STORAGE) && SAME(SWARTABELK_SPACE_HANDLE, HANDLE));
    HOLDS(SAME(SWARTABELK_ACCESS_READ, READ) && SAME(SWARTABELK_ACCESS_WRITE, WRITE) && SAME(SWARTABELK_ACCESS_READ_WRITE, READ_WRITE));
    HOLDS(SAME(SWARTABELK_UNARY_NOT, NOT) && SAME(SWARTABELK_UNARY_NEGATE, NEGATE) && SAME(SWARTABELK_UNARY_COMPLEMENT, COMPLEMENT));
    HOLDS(SAME(SWARTABELK_UNARY_ADDRESS_OF, ADDRESS_OF) && SAME(SWARTABELK_UNARY_INDIRECTION, INDIRECTION));
    HOLDS(SAME(SWARTABELK_BINARY_OR, OR) && SAME(SWARTABELK_BINARY_AND, AND) && SAME(SWARTABELK_BINARY_PLUS, PLUS) && SAME(SWARTABELK_BINARY_MINUS, MINUS));
    HOLDS(SAME(SWARTABELK_BINARY_TIMES, TIMES) && SAME(SWARTABELK_BINARY_OVER, OVER) && SAME(SWARTABELK_BINARY_REMAINDER, REMAINDER));
    HOLDS(SAME(SWARTABELK_BINARY_EQUAL, EQUAL) && SAME(SWARTABELK_BINARY_UNEQUAL, UNEQUAL) && SAME(SWARTABELK_BINARY_LESS, LESS));
    HOLDS(SAME(SWARTABELK_BINARY_LESS_EQUAL, LESS_EQUAL) && SAME(SWARTABELK_BINARY_GREATER, GREATER) && SAME(SWARTABELK_BINARY_GREATER_EQUAL, GREATER_EQUAL));
    HOLDS(SAME(SWARTABELK_BINARY_BIT_OR, BIT_OR) && SAME(SWARTABELK_BINARY_BIT_AND, BIT_AND) && SAME(SWARTABELK_BINARY_BIT_XOR, BIT_XOR));
    HOLDS(SAME(SWARTABELK_BINARY_SHIFT_LEFT, LEFT) && SAME(SWARTABELK_BINARY_SHIFT_RIGHT, RIGHT));
}

/* Every refusal has words of its own, and no other number has. */
static void texts(void) {
    const char *none = swartabelk_refusal_text(15);
    for (uint32_t i = 0; i < 20; i++) {
        int given = i <= SWARTABELK_REFUSED_RUNNING_ABSTRACT && i != 13;
        HOLDS((strcmp(swartabelk_refusal_text(i), none) != 0) == given);
        for (uint32_t j = 0; given && j < i; j++) {
            HOLDS(strcmp(swartabelk_refusal_text(i), swartabelk_refusal_text(j)) != 0);
        }
    }
    HOLDS(strcmp(swartabelk_refusal_text(SWARTABELK_REFUSED_NO_OVERLOAD), "no overload takes operands of these types") == 0);
}

/* The scalars are a sound table, in just enough words too; in fewer, nothing is written, and every call is refused. */
static void scalars(void) {
    start();
    memset(words, 0xFF, sizeof words);
    used = swartabelk_scalars(words, 28);
    HOLDS(used == SCALARS && words[28] == NONE);
    HOLDS(is(swartabelk_check(words, 28, used), 0, NONE, 0, 7));
    memset(words, 0xFF, sizeof words);
    used = swartabelk_scalars(words, 27);
    HOLDS(used == 0 && words[0] == NONE);
    HOLDS(is(swartabelk_check(words, 27, used), SWARTABELK_REFUSED_UNSOUND, NONE, 0, 0));
}

/* An output of 80 bytes an entry has room for the longest spellings; a name or a head may be written as a literal. */
static void spellings(void) {
    static uint8_t out[SWARTABELK_SPELLING_MOST * SWARTABELK_CEILING];
    start();
    swartabelk_reply r = swartabelk_enter(words, room, used, SWARTABELK_KIND_EXCHANGE, 0, 0, SWARTABELK_I32);
    while (r.refusal == 0) {
        swartabelk_spelled s = swartabelk_spell(words, room, r.used, r.type, out, SWARTABELK_SPELLING_MOST * (size_t)r.used);
        HOLDS(s.refusal == 0 && s.length <= 37 + 26 * (r.used - SCALARS - 1));
        used = r.used;
        r = swartabelk_enter(words, room, used, SWARTABELK_KIND_ARRAY, 4294967295u, 0, r.type);
    }
    HOLDS(used == SWARTABELK_CEILING && lacks(r, 1, 0, SWARTABELK_CEILING));
    start();
    HOLDS(is(swartabelk_call(words, room, used, profile, SWARTABELK_TEXT("sqrt"), no_types, 0, (uint32_t[]){F16}, 1), 0, F16, 0, 7));
    HOLDS(is(swartabelk_template(words, room, used, SWARTABELK_TEXT("vec3"), (int64_t[]){SWARTABELK_TAG_TYPE, F32}, 2), 0, 7, 0, 8));
}

void header_words(void) {
    numbers();
    texts();
    scalars();
    spellings();
}
