/* How deep the library's functions reach into the stack: the stack below is painted, the function is called, and the paint that is left is counted. It fails where
   one reaches deeper than the header says. tools/stack reads off the archive how deep they can reach whatever the input is.
   gcc -O0 -Iinclude hosts/c/stack.c target/staticlib/libswartabelk.a -Wl,-z,now -o target/stack && target/stack
   Without -z now the first call of memset and of memcpy is bound by the dynamic linker, which takes up to 4 KB more. Each figure has the frame of the function below
   that makes the call, some 50 bytes. */
#include <stdio.h>
#include <string.h>
#include "swartabelk.h"

#define PAINTED (256 * 1024)
#define PAINT 0xA5

static uint32_t words[SWARTABELK_WORDS];
static uint32_t used;
static uint8_t sheet[60003];
static size_t length;
static uint8_t out[SWARTABELK_SPELLING_MOST * SWARTABELK_CEILING];
static int failed;

static void start(void) { used = swartabelk_scalars(words, SWARTABELK_WORDS); }

static uint32_t enter(uint32_t kind, uint32_t p, uint32_t q, uint32_t elem) {
    swartabelk_reply r = swartabelk_enter(words, SWARTABELK_WORDS, used, kind, p, q, elem);
    used = r.used;
    return r.type;
}

__attribute__((noinline)) static void paint(void) {
    volatile uint8_t below[PAINTED];
    for (size_t i = 0; i < PAINTED; i++)
        below[i] = PAINT;
}

/* its frame lies where that of paint lay */
__attribute__((noinline)) static size_t reached(void) {
    volatile uint8_t below[PAINTED];
    size_t i = 0;
    while (i < PAINTED && below[i] == PAINT)
        i++;
    return PAINTED - i;
}

static void put(uint8_t kind, const char *payload, size_t n) {
    sheet[3 + length] = (uint8_t)(n + 1);
    sheet[4 + length] = kind;
    memcpy(sheet + 5 + length, payload, n);
    length += n + 2;
    sheet[0] = 1;
    sheet[1] = (uint8_t)(length >> 8);
    sheet[2] = (uint8_t)length;
}

static void check(void) { swartabelk_check(words, SWARTABELK_WORDS, used); }
static void enters(void) { swartabelk_enter(words, SWARTABELK_WORDS, used, SWARTABELK_KIND_VEC, 4, 0, SWARTABELK_F16); }
static void unary(void) { swartabelk_unary(words, SWARTABELK_WORDS, used, SWARTABELK_UNARY_NEGATE, SWARTABELK_F32); }
static void address(void) { swartabelk_unary(words, SWARTABELK_WORDS, used, SWARTABELK_UNARY_ADDRESS_OF, used - 1); }
static void binary(void) { swartabelk_binary(words, SWARTABELK_WORDS, used, SWARTABELK_BINARY_PLUS, SWARTABELK_F32, SWARTABELK_F32); }
static void matrices(void) { swartabelk_binary(words, SWARTABELK_WORDS, used, SWARTABELK_BINARY_TIMES, used - 2, used - 1); }
static void call(void) {
    uint32_t args[3] = {SWARTABELK_ABSTRACT_INT, SWARTABELK_ABSTRACT_FLOAT, SWARTABELK_F16};
    swartabelk_call(words, SWARTABELK_WORDS, used, SWARTABELK_PROFILE_BASE, SWARTABELK_TEXT("clamp"), args, 0, args, 3);
}
static void atomic_call(void) {
    uint32_t args[3] = {used - 1, SWARTABELK_ABSTRACT_INT, SWARTABELK_U32};
    swartabelk_call(words, SWARTABELK_WORDS, used, SWARTABELK_PROFILE_BASE, SWARTABELK_TEXT("atomicCompareExchangeWeak"), args, 0, args, 3);
}
static void template(void) {
    int64_t args[4] = {SWARTABELK_TAG_TYPE, SWARTABELK_F32, SWARTABELK_TAG_ABSTRACT_INT, 4};
    swartabelk_template(words, SWARTABELK_WORDS, used, SWARTABELK_TEXT("array"), args, 4);
}
static void whole_sheet(void) { swartabelk_sheet(words, SWARTABELK_WORDS, used, SWARTABELK_PROFILE_BASE, sheet, 3 + length); }
static void name(void) { swartabelk_call_name(sheet, 3 + length, 3); }
static void spell(void) { swartabelk_spell(words, SWARTABELK_WORDS, used, used - 1, out, sizeof out); }

static void measure(const char *what, void (*function)(void), size_t most) {
    size_t bytes;
    paint();
    function();
    bytes = reached();
    printf("%-40s %6zu bytes\n", what, bytes);
    if (most < bytes)
        failed = 1;
}

int main(void) {
    start();
    measure("check", check, SWARTABELK_STACK);
    measure("unary", unary, SWARTABELK_STACK);
    measure("binary", binary, SWARTABELK_STACK);
    measure("call", call, SWARTABELK_STACK);
    measure("enter", enters, SWARTABELK_STACK);
    measure("template", template, SWARTABELK_STACK);
    start();
    enter(SWARTABELK_KIND_REF, SWARTABELK_SPACE_STORAGE, SWARTABELK_ACCESS_READ_WRITE, SWARTABELK_U32);
    measure("unary & of a new pointer", address, SWARTABELK_STACK);
    start();
    enter(SWARTABELK_KIND_MAT, 2, 3, SWARTABELK_F32);
    enter(SWARTABELK_KIND_MAT, 4, 2, SWARTABELK_F32);
    measure("binary * of matrices", matrices, SWARTABELK_STACK);
    start();
    enter(SWARTABELK_KIND_PTR, SWARTABELK_SPACE_STORAGE, SWARTABELK_ACCESS_READ_WRITE, enter(SWARTABELK_KIND_ATOMIC, 0, 0, SWARTABELK_U32));
    measure("call on an atomic", atomic_call, SWARTABELK_STACK);
    start();
    put(SWARTABELK_ITEM_PUSH, "\5", 1);
    for (int i = 0; i < 4000; i++) {
        put(SWARTABELK_ITEM_PUSH, "\1", 1);
        put(SWARTABELK_ITEM_BINARY, "\2", 1);
        put(SWARTABELK_ITEM_CALL, "\1sqrt", 5);
    }
    measure("sheet of operators and calls", whole_sheet, SWARTABELK_STACK);
    length = 0;
    put(SWARTABELK_ITEM_TAKE, "\13\0\0\0\0\0\4", 7);
    put(SWARTABELK_ITEM_TAKE, "\14\0\0\0\4\2\7", 7);
    put(SWARTABELK_ITEM_PUSH, "\1", 1);
    put(SWARTABELK_ITEM_CALL, "\2atomicAdd", 10);
    put(SWARTABELK_ITEM_CALL, "\1frexp", 6);
    measure("sheet of takes and calls on memory", whole_sheet, SWARTABELK_STACK);
    length = 0;
    put(SWARTABELK_ITEM_CALL, "\1sqrt", 5);
    measure("call_name", name, SWARTABELK_STACK);
    start();
    while (used < SWARTABELK_CEILING)
        enter(SWARTABELK_KIND_ARRAY, 4294967295u, 0, used == SWARTABELK_SCALARS ? (uint32_t)SWARTABELK_ABSTRACT_FLOAT : used - 1);
    measure("spelling of 249 nested arrays", spell, SWARTABELK_STACK_SPELL);
    return failed;
}
