/* Calls every function of include/swartabelk.h and holds each reply to document 01: its worked sheets, its sixteen cases, and the refusals 1 to 12. */
#include "test.h"

#include <stdio.h>
#include <string.h>

static unsigned failed, held;
const char *about = "";

uint32_t words[WORDS];
size_t room;
uint32_t used, profile;
const uint32_t no_types[1];

void start(void) {
    memset(words, 0, sizeof words);
    for (uint32_t i = 0; i < SCALARS; i++) {
        words[4 * i] = i;
    }
    room = 1024;
    used = SCALARS;
    profile = SWARTABELK_PROFILE_BASE;
}

uint32_t entry(uint32_t kind, uint32_t p, uint32_t q, uint32_t elem) {
    uint32_t *e = words + 4 * used;
    e[0] = kind;
    e[1] = p;
    e[2] = q;
    e[3] = elem;
    return used++;
}

void holds(const char *file, int line, int right) {
    held++;
    if (!right) {
        failed++;
        printf("%s:%d: another reply %s\n", file, line, about);
    }
}

int is(swartabelk_reply r, uint32_t refusal, uint32_t type, uint32_t place, uint32_t count) {
    return r.refusal == refusal && r.type == type && r.mark == 0 && r.place == place && r.used == count && r.lacking == 0;
}

int runs(swartabelk_reply r, uint32_t type, uint32_t count) {
    return r.refusal == 0 && r.type == type && r.mark == SWARTABELK_RUNNING && r.place == 0 && r.used == count && r.lacking == 0;
}

int lacks(swartabelk_reply r, uint32_t lacking, uint32_t place, uint32_t count) {
    return r.refusal == 9 && r.type == NONE && r.mark == 0 && r.place == place && r.used == count && r.lacking == lacking;
}

int is_entry(uint32_t i, uint32_t kind, uint32_t p, uint32_t q, uint32_t elem) {
    const uint32_t *e = words + 4 * i;
    return e[0] == kind && e[1] == p && e[2] == q && e[3] == elem;
}

static swartabelk_reply check(void) { return swartabelk_check(words, room, used); }

swartabelk_reply unary(uint32_t op, uint32_t a) { return swartabelk_unary(words, room, used, op, a); }

swartabelk_reply binary(uint32_t op, uint32_t a, uint32_t b) { return swartabelk_binary(words, room, used, op, a, b); }

swartabelk_reply call(const char *name, size_t tplt_len, const uint32_t *tplt, size_t args_len, const uint32_t *args) {
    return swartabelk_call(words, room, used, profile, (const uint8_t *)name, strlen(name), tplt, tplt_len, args, args_len);
}

swartabelk_reply call1(const char *name, uint32_t a) { return call(name, 0, no_types, 1, (uint32_t[]){a}); }

swartabelk_reply template(const char *head, size_t args_len, const int64_t *args) {
    return swartabelk_template(words, room, used, (const uint8_t *)head, strlen(head), args, args_len);
}

swartabelk_reply sheet(size_t len, const uint8_t *bytes) { return swartabelk_sheet(words, room, used, profile, bytes, len); }

static uint32_t before[WORDS];

void keep(void) { memcpy(before, words, sizeof words); }

int unchanged(void) { return memcmp(before, words, sizeof words) == 0; }

static void checks(void) {
    start();
    HOLDS(is(check(), 0, NONE, 0, 7));
    room = 28;
    HOLDS(is(check(), 0, NONE, 0, 7));
    room = 27;
    HOLDS(is(check(), 1, NONE, 0, 7));
    start();
    HOLDS(is(swartabelk_check(words, room, 6), 1, NONE, 0, 6));
    HOLDS(is(swartabelk_check(words, room, 257), 1, NONE, 0, 257));
    HOLDS(is(swartabelk_check(words, room, 0xFFFFFFFFu), 1, NONE, 0, 0xFFFFFFFFu));
    entry(VEC, 3, 0, F32);
    HOLDS(is(check(), 0, NONE, 0, 8));
    entry(VEC, 3, 0, F32);
    HOLDS(is(check(), 1, NONE, 0, 9));
    words[4 * 8 + 1] = 5;
    HOLDS(is(check(), 1, NONE, 0, 9));
}

/* Document 01, "Sixteen cases". */
static void sixteen(void) {
    start();
    HOLDS(is(binary(PLUS, ABSTRACT_INT, F32), 0, F32, 0, 7));

    uint32_t v = entry(VEC, 3, 0, ABSTRACT_INT);
    HOLDS(is(binary(TIMES, v, F32), 0, 8, 0, 9) && is_entry(8, VEC, 3, 0, F32));

    start();
    uint32_t m = entry(MAT, 4, 3, F32);
    HOLDS(is(binary(PLUS, m, m), 0, m, 0, 8));
    v = entry(VEC, 4, 0, F32);
    HOLDS(is(binary(TIMES, m, v), 0, 9, 0, 10) && is_entry(9, VEC, 3, 0, F32));

    start();
    m = entry(MAT, 4, 3, F32);
    v = entry(VEC, 3, 0, F32);
    HOLDS(is(binary(TIMES, v, m), 0, 9, 0, 10) && is_entry(9, VEC, 4, 0, F32));
    uint32_t k = entry(MAT, 2, 4, F32);
    HOLDS(is(binary(TIMES, m, k), 0, 10, 0, 11) && is_entry(10, MAT, 2, 3, F32));

    start();
    HOLDS(is(binary(LESS, BOOL, BOOL), 8, NONE, 0, 7));
    v = entry(VEC, 2, 0, ABSTRACT_INT);
    k = entry(VEC, 2, 0, F16);
    HOLDS(is(binary(LESS, v, k), 0, 9, 0, 10) && is_entry(9, VEC, 2, 0, BOOL));
    start();
    HOLDS(is(binary(EQUAL, I32, U32), 8, NONE, 0, 7));
    HOLDS(is(binary(BIT_OR, ABSTRACT_INT, U32), 0, U32, 0, 7));
    HOLDS(is(call1("sqrt", ABSTRACT_INT), 0, ABSTRACT_FLOAT, 0, 7));
    HOLDS(is(call1("reverseBits", ABSTRACT_INT), 0, I32, 0, 7));
    v = entry(VEC, 2, 0, ABSTRACT_FLOAT);
    HOLDS(is(call1("frexp", v), 0, 8, 0, 9) && is_entry(8, FREXP, 0, 0, v));
    start();
    HOLDS(is(call("clamp", 0, no_types, 3, (uint32_t[]){ABSTRACT_INT, ABSTRACT_FLOAT, F16}), 0, F16, 0, 7));
    HOLDS(is(call1("dpdx", F16), 8, NONE, 0, 7));
    HOLDS(is(call1("sign", U32), 8, NONE, 0, 7));
}

static void unaries(void) {
    start();
    HOLDS(is(unary(NOT, BOOL), 0, BOOL, 0, 7));
    HOLDS(is(unary(NEGATE, U32), 8, NONE, 0, 7));
    HOLDS(is(unary(COMPLEMENT, I32), 0, I32, 0, 7));
    HOLDS(is(unary(5, BOOL), 4, NONE, 0, 7));
    HOLDS(is(unary(0xFFFFFFFFu, BOOL), 4, NONE, 0, 7));
    HOLDS(is(unary(NOT, 7), 2, NONE, 0, 7));
    HOLDS(is(unary(NOT, 0xFFFFFFFFu), 2, NONE, 0, 7));
    HOLDS(is(swartabelk_unary(words, room, 300, NOT, BOOL), 1, NONE, 0, 300));
    uint32_t r = entry(REF, 4, 0, F32);
    keep();
    HOLDS(is(unary(NEGATE, r), 3, NONE, 0, 8) && unchanged());
    HOLDS(is(unary(ADDRESS_OF, r), 0, 8, 0, 9) && is_entry(8, PTR, 4, 0, F32));
    used = 9;
    HOLDS(is(unary(INDIRECTION, 8), 0, r, 0, 9));
    uint32_t h = entry(REF, 5, 0, F32);
    HOLDS(is(unary(ADDRESS_OF, h), 8, NONE, 0, 10));
    start();
    r = entry(REF, 0, 2, F32);
    room = 32;
    keep();
    HOLDS(lacks(unary(ADDRESS_OF, r), 1, 0, 8) && unchanged());
}

static void binaries(void) {
    start();
    HOLDS(is(binary(18, F32, F32), 4, NONE, 0, 7));
    HOLDS(is(binary(0xFFFFFFFFu, F32, F32), 4, NONE, 0, 7));
    HOLDS(is(binary(PLUS, 7, F32), 2, NONE, 0, 7));
    HOLDS(is(binary(PLUS, F32, 0xFFFFFFFFu), 2, NONE, 0, 7));
    HOLDS(is(swartabelk_binary(words, room, 0, PLUS, F32, F32), 1, NONE, 0, 0));
    /* The left operand of a shift is its result: the operands are told apart. */
    HOLDS(is(binary(LEFT, I32, U32), 0, I32, 0, 7));
    HOLDS(is(binary(LEFT, U32, I32), 8, NONE, 0, 7));
    uint32_t r = entry(REF, 0, 2, F32);
    HOLDS(is(binary(PLUS, F32, r), 3, NONE, 0, 8));
    start();
    uint32_t m = entry(MAT, 4, 3, F32);
    uint32_t v = entry(VEC, 4, 0, F32);
    room = 36;
    keep();
    HOLDS(lacks(binary(TIMES, m, v), 1, 0, 9) && unchanged());
}

static void calls(void) {
    start();
    HOLDS(is(call1("nosuch", F32), 4, NONE, 0, 7));
    HOLDS(is(call1("", F32), 4, NONE, 0, 7));
    HOLDS(is(call1("sqrt", 7), 2, NONE, 0, 7));
    HOLDS(is(call("sqrt", 1, (uint32_t[]){F32}, 1, (uint32_t[]){F32}), 5, NONE, 0, 7));
    HOLDS(is(call("sqrt", 0, no_types, 2, (uint32_t[]){F32, F32}), 7, NONE, 0, 7));
    HOLDS(is(call("bitcast", 1, (uint32_t[]){U32}, 1, (uint32_t[]){F32}), 0, U32, 0, 7));
    HOLDS(is(call("bitcast", 0, no_types, 1, (uint32_t[]){F32}), 5, NONE, 0, 7));
    HOLDS(is(call("bitcast", 1, (uint32_t[]){9}, 1, (uint32_t[]){F32}), 2, NONE, 0, 7));
    HOLDS(is(call("storageBarrier", 0, no_types, 0, no_types), 0, NONE, 0, 7));
    HOLDS(is(swartabelk_call(words, room, 6, profile, (const uint8_t *)"sqrt", 4, no_types, 0, no_types, 0), 1, NONE, 0, 6));
    uint32_t r = entry(REF, 0, 2, F32);
    HOLDS(is(call1("sqrt", r), 3, NONE, 0, 8));
    start();
    uint32_t v = entry(VEC, 2, 0, F32);
    room = 32;
    keep();
    HOLDS(lacks(call1("modf", v), 1, 0, 8) && unchanged());
    room = 36;
    HOLDS(is(call1("modf", v), 0, 8, 0, 9) && is_entry(8, MODF, 0, 0, v));
}

static void templates(void) {
    start();
    HOLDS(is(template("vec2", 2, (int64_t[]){0, F32}), 0, 7, 0, 8) && is_entry(7, VEC, 2, 0, F32));
    used = 8;
    HOLDS(is(template("array", 4, (int64_t[]){0, 7, 1, 4}), 0, 8, 0, 9) && is_entry(8, ARRAY, 4, 0, 7));
    used = 9;
    HOLDS(is(template("array", 4, (int64_t[]){0, U32, 3, 4294967295}), 0, 9, 0, 10) && is_entry(9, ARRAY, 4294967295u, 0, U32));
    used = 10;
    HOLDS(is(template("array", 2, (int64_t[]){0, U32}), 0, 10, 0, 11) && is_entry(10, RUNTIME, 0, 0, U32));
    used = 11;
    HOLDS(is(template("mat4x3", 2, (int64_t[]){0, F16}), 0, 11, 0, 12) && is_entry(11, MAT, 4, 3, F16));
    used = 12;
    HOLDS(is(template("atomic", 2, (int64_t[]){0, I32}), 0, 12, 0, 13) && is_entry(12, ATOMIC, 0, 0, I32));
    used = 13;
    HOLDS(is(template("vec2", 2, (int64_t[]){0, F32}), 0, 7, 0, 13));
    keep();
    HOLDS(is(template("array", 4, (int64_t[]){0, U32, 1, -3}), 6, NONE, 0, 13));
    HOLDS(is(template("array", 4, (int64_t[]){0, U32, 2, 0}), 6, NONE, 0, 13));
    HOLDS(is(template("array", 4, (int64_t[]){0, U32, 1, 4294967296}), 6, NONE, 0, 13));
    HOLDS(is(template("array", 4, (int64_t[]){0, U32, 2, 2147483648}), 6, NONE, 0, 13));
    HOLDS(is(template("array", 4, (int64_t[]){0, U32, 9, 4}), 6, NONE, 0, 13));
    HOLDS(is(template("array", 3, (int64_t[]){0, U32, 1}), 5, NONE, 0, 13));
    HOLDS(is(template("vec2", 2, (int64_t[]){0, ABSTRACT_INT}), 5, NONE, 0, 13));
    HOLDS(is(template("vec5", 2, (int64_t[]){0, F32}), 4, NONE, 0, 13));
    HOLDS(is(template("vec5", 1, (int64_t[]){0}), 4, NONE, 0, 13));
    HOLDS(is(template("vec2", 2, (int64_t[]){0, -1}), 2, NONE, 0, 13));
    HOLDS(is(template("vec2", 2, (int64_t[]){0, 4294967301}), 2, NONE, 0, 13));
    room = 51;
    HOLDS(is(template("vec2", 2, (int64_t[]){0, F32}), 1, NONE, 0, 13));
    room = 52;
    HOLDS(lacks(template("vec3", 2, (int64_t[]){0, F32}), 1, 0, 13));
    HOLDS(unchanged());
}

static void sheets(void) {
    start();
    keep();
    HOLDS(is(SHEET(1, 0, 9, 2, 1, 1, 2, 1, 5, 2, 3, 2), 0, F32, 0, 7));
    HOLDS(is(SHEET(1, 0, 9, 2, 1, 0, 2, 1, 0, 2, 3, 9), 8, NONE, 9, 7));
    /* storageBarrier, alone and with a value below it. */
    HOLDS(is(SHEET(1, 0, 17, 16, 4, 0, 's', 't', 'o', 'r', 'a', 'g', 'e', 'B', 'a', 'r', 'r', 'i', 'e', 'r'), 0, NONE, 0, 7));
    HOLDS(is(SHEET(1, 0, 20, 2, 1, 0, 16, 4, 0, 's', 't', 'o', 'r', 'a', 'g', 'e', 'B', 'a', 'r', 'r', 'i', 'e', 'r'), 11, NONE, 6, 7));
    /* bitcast<u32>(f32) */
    HOLDS(is(SHEET(1, 0, 14, 2, 1, 5, 10, 5, 4, 1, 'b', 'i', 't', 'c', 'a', 's', 't'), 0, U32, 0, 7));
    /* Headers. */
    HOLDS(is(SHEET(1, 0), 10, NONE, 0, 7));
    HOLDS(is(SHEET(0, 0, 0), 10, NONE, 0, 7));
    HOLDS(is(SHEET(3, 0, 0), 10, NONE, 0, 7));
    HOLDS(is(SHEET(1, 0, 1), 10, NONE, 0, 7));
    HOLDS(is(SHEET(1, 255, 255), 10, NONE, 0, 7));
    /* Items. */
    HOLDS(is(SHEET(1, 0, 0), 11, NONE, 3, 7));
    HOLDS(is(SHEET(1, 0, 3, 2, 9, 0), 10, NONE, 3, 7));
    HOLDS(is(SHEET(1, 0, 3, 2, 1, 7), 2, NONE, 3, 7));
    HOLDS(is(SHEET(1, 0, 3, 2, 2, 0), 11, NONE, 3, 7));
    HOLDS(is(SHEET(1, 0, 6, 2, 1, 5, 2, 2, 5), 4, NONE, 6, 7));
    HOLDS(is(SHEET(1, 0, 6, 2, 1, 5, 2, 1, 5), 11, NONE, 9, 7));
    HOLDS(is(SHEET(1, 0, 9, 8, 6, 7, 0, 0, 0, 5, 0, 5), 5, NONE, 3, 7));
    HOLDS(is(SHEET(1, 0, 11, 2, 1, 5, 7, 4, 2, 's', 'q', 'r', 't', '2'), 11, NONE, 6, 7));
    HOLDS(is(SHEET(1, 0, 13, 2, 1, 5, 2, 1, 5, 6, 4, 2, 's', 'q', 'r', 't'), 7, NONE, 9, 7));
    HOLDS(is(SHEET(1, 0, 13, 2, 1, 5, 9, 5, 4, 1, 's', 'q', 'r', 't', '.', '.'), 4, NONE, 6, 7));
    HOLDS(is(SHEET(1, 0, 11, 2, 1, 5, 7, 5, 4, 1, 's', 'q', 'r', 't'), 5, NONE, 6, 7));
    HOLDS(is(swartabelk_sheet(words, room, 6, profile, (const uint8_t *)"", 0), 1, NONE, 0, 6));
    HOLDS(unchanged());
    /* Take vec3<f32>; then an item that is refused: what was entered stays. */
    HOLDS(is(SHEET(1, 0, 12, 8, 6, 7, 0, 0, 0, 3, 0, 5, 2, 2, 0), 8, NONE, 12, 8) && is_entry(7, VEC, 3, 0, F32));
    used = 8;
    HOLDS(is(SHEET(1, 0, 9, 8, 6, 7, 0, 0, 0, 3, 0, 5), 0, 7, 0, 8));
    room = 32;
    HOLDS(lacks(SHEET(1, 0, 9, 8, 6, 7, 0, 0, 0, 4, 0, 5), 1, 3, 8));
    entry(REF, 0, 2, F32);
    room = 36;
    HOLDS(is(SHEET(1, 0, 6, 2, 1, 8, 2, 2, 1), 3, NONE, 6, 9));
    /* A 65th value. */
    start();
    uint8_t many[3 + 65 * 3] = {1, 0, 195};
    for (size_t i = 0; i < 65; i++) {
        many[3 + 3 * i] = 2;
        many[4 + 3 * i] = 1;
        many[5 + 3 * i] = F32;
    }
    HOLDS(is(sheet(sizeof many, many), 11, NONE, 195, 7));
    /* The longest sheet: a push of bool and 19,999 of `!`; its last item badly framed; its last item a push. */
    static uint8_t longest[60003];
    memset(longest, 0, sizeof longest);
    longest[0] = 1;
    longest[1] = 60000 / 256;
    longest[2] = 60000 % 256;
    for (size_t i = 3; i < 60003; i += 3) {
        longest[i] = 2;
        longest[i + 1] = i == 3 ? 1 : 2;
    }
    HOLDS(is(sheet(60003, longest), 0, BOOL, 0, 7));
    longest[60001] = 9;
    HOLDS(is(sheet(60003, longest), 10, NONE, 60000, 7));
    longest[60001] = 1;
    HOLDS(is(sheet(60003, longest), 11, NONE, 60003, 7));
}

static void spellings(void) {
    start();
    uint32_t v = entry(VEC, 2, 0, F32);
    uint32_t a = entry(ARRAY, 4, 0, v);
    uint32_t p = entry(PTR, 4, 0, U32);
    uint32_t f = entry(FREXP, 0, 0, v);
    uint8_t out[40];
    swartabelk_spelled s;
    memset(out, '.', sizeof out);
    s = swartabelk_spell(words, room, used, F32, out, sizeof out);
    HOLDS(s.refusal == 0 && s.length == 3 && s.place == 0 && s.used == 11 && memcmp(out, "f32.....", 8) == 0);
    s = swartabelk_spell(words, room, used, a, out, sizeof out);
    HOLDS(s.refusal == 0 && s.length == 18 && s.used == 11 && memcmp(out, "array<vec2<f32>,4>..", 20) == 0);
    s = swartabelk_spell(words, room, used, p, out, sizeof out);
    HOLDS(s.refusal == 0 && s.length == 21 && memcmp(out, "ptr<storage,u32,read>....", 25) == 0);
    s = swartabelk_spell(words, room, used, f, out, 24);
    HOLDS(s.refusal == 0 && s.length == 23 && memcmp(out, "__frexp_result_vec2_f32....", 27) == 0);
    memset(out, '.', sizeof out);
    s = swartabelk_spell(words, room, used, a, out, 17);
    HOLDS(s.refusal == 12 && s.length == 0 && s.place == 0 && s.used == 11 && memcmp(out, "......", 6) == 0);
    s = swartabelk_spell(words, room, used, 11, out, sizeof out);
    HOLDS(s.refusal == 2 && s.length == 0 && s.place == 0 && s.used == 11 && out[0] == '.');
    s = swartabelk_spell(words, room, used, 0xFFFFFFFFu, out, sizeof out);
    HOLDS(s.refusal == 2 && s.length == 0 && s.used == 11 && out[0] == '.');
    s = swartabelk_spell(words, room, 5, F32, out, sizeof out);
    HOLDS(s.refusal == 1 && s.length == 0 && s.place == 0 && s.used == 5 && out[0] == '.');
}

static void names(void) {
    static const uint8_t bytes[] = {1, 0, 19, 2, 1, 5, 6, 4, 1, 's', 'q', 'r', 't', 8, 5, 4, 1, 'c', 'a', 's', 't', 's'};
    swartabelk_part n = swartabelk_call_name(bytes, sizeof bytes, 6);
    HOLDS(n.start == 9 && n.length == 4);
    n = swartabelk_call_name(bytes, sizeof bytes, 13);
    HOLDS(n.start == 17 && n.length == 5);
    n = swartabelk_call_name(bytes, sizeof bytes, 3);
    HOLDS(n.start == 0 && n.length == 0);
    n = swartabelk_call_name(bytes, sizeof bytes, 0);
    HOLDS(n.start == 0 && n.length == 0);
    n = swartabelk_call_name(bytes, sizeof bytes, sizeof bytes);
    HOLDS(n.start == 0 && n.length == 0);
    n = swartabelk_call_name(bytes, sizeof bytes, SIZE_MAX);
    HOLDS(n.start == 0 && n.length == 0);
    n = swartabelk_call_name(bytes, sizeof bytes - 1, 13);
    HOLDS(n.start == 0 && n.length == 0);
}

int main(void) {
    checks();
    sixteen();
    unaries();
    binaries();
    calls();
    templates();
    sheets();
    profiles();
    rooms();
    marks();
    memory();
    reasons();
    header_words();
    spellings();
    names();
    printf("%u of %u replies as documents 01 and 02 have them\n", held - failed, held);
    return failed != 0;
}
