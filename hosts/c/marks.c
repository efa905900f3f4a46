/* Document 02, "Known early, or only when running": overloads that a running operand leaves out, marks of results, refusal 14, and sheets of version 2. */
#include "test.h"

#include <string.h>

/* The table: some types after the scalars. ARRAY_ABSTRACT to MAT2X2_ABSTRACT are abstract, as is the first vector. */
enum {
    VEC2_ABSTRACT_INT = SCALARS,
    VEC2_I32,
    VEC2_F32,
    VEC2_BOOL,
    ARRAY_ABSTRACT,
    ARRAY_OF_ARRAY,
    FREXP_ABSTRACT,
    MODF_ABSTRACT,
    MAT2X2_ABSTRACT,
    MAT2X2_F32,
    ARRAY_F32,
    REF_F32,
    PTR_F32,
    PTR_ARRAY,
    TYPES
};

static void start_types(void) {
    start();
    entry(VEC, 2, 0, ABSTRACT_INT);
    entry(VEC, 2, 0, I32);
    entry(VEC, 2, 0, F32);
    entry(VEC, 2, 0, BOOL);
    entry(ARRAY, 4, 0, ABSTRACT_INT);
    entry(ARRAY, 3, 0, ARRAY_ABSTRACT);
    entry(FREXP, 0, 0, ABSTRACT_FLOAT);
    entry(MODF, 0, 0, ABSTRACT_FLOAT);
    entry(MAT, 2, 2, ABSTRACT_FLOAT);
    entry(MAT, 2, 2, F32);
    entry(RUNTIME, 0, 0, F32);
    entry(REF, 4, 0, F32);
    entry(PTR, 4, 0, F32);
    entry(PTR, 4, 0, ARRAY_F32);
}

static int is_abstract(uint32_t type) {
    return type == ABSTRACT_INT || type == ABSTRACT_FLOAT || type == VEC2_ABSTRACT_INT || (ARRAY_ABSTRACT <= type && type <= MAT2X2_ABSTRACT);
}

/* The first type in the order of preference that a running operand leaves of an abstract one. */
static uint32_t concrete(uint32_t type) {
    switch (type) {
    case ABSTRACT_INT:
        return I32;
    case ABSTRACT_FLOAT:
        return F32;
    case VEC2_ABSTRACT_INT:
        return VEC2_I32;
    default:
        return type;
    }
}

static swartabelk_reply call2(const char *name, uint32_t a, uint32_t b) { return call(name, 0, no_types, 2, (uint32_t[]){a, b}); }
static swartabelk_reply call3(const char *name, uint32_t a, uint32_t b, uint32_t c) { return call(name, 0, no_types, 3, (uint32_t[]){a, b, c}); }
static swartabelk_reply bitcast(uint32_t type, uint32_t a) { return call("bitcast", 1, (uint32_t[]){type}, 1, (uint32_t[]){a}); }

/* Overloads over abstract types are left out where another operand is running. */
static void candidates(void) {
    start_types();
    keep();
    HOLDS(runs(call3("select", ABSTRACT_INT, ABSTRACT_INT, RUNNING(BOOL)), I32, TYPES));
    HOLDS(is(call3("select", ABSTRACT_INT, ABSTRACT_INT, BOOL), 0, ABSTRACT_INT, 0, TYPES));
    HOLDS(runs(call3("select", ABSTRACT_INT, ABSTRACT_FLOAT, RUNNING(BOOL)), F32, TYPES));
    HOLDS(is(call3("select", ABSTRACT_INT, ABSTRACT_FLOAT, BOOL), 0, ABSTRACT_FLOAT, 0, TYPES));
    HOLDS(runs(call3("select", VEC2_ABSTRACT_INT, VEC2_ABSTRACT_INT, RUNNING(BOOL)), VEC2_I32, TYPES));
    HOLDS(runs(call3("select", VEC2_ABSTRACT_INT, VEC2_ABSTRACT_INT, RUNNING(VEC2_BOOL)), VEC2_I32, TYPES));
    HOLDS(is(call3("select", VEC2_ABSTRACT_INT, VEC2_ABSTRACT_INT, VEC2_BOOL), 0, VEC2_ABSTRACT_INT, 0, TYPES));
    HOLDS(runs(call3("select", RUNNING(F16), ABSTRACT_INT, BOOL), F16, TYPES));
    HOLDS(runs(call3("select", BOOL, BOOL, RUNNING(BOOL)), BOOL, TYPES));
    /* The left operand of a shift converts to i32 where the right one is running. */
    HOLDS(runs(binary(LEFT, ABSTRACT_INT, RUNNING(U32)), I32, TYPES));
    HOLDS(is(binary(LEFT, ABSTRACT_INT, U32), 0, ABSTRACT_INT, 0, TYPES));
    HOLDS(runs(binary(PLUS, ABSTRACT_INT, RUNNING(U32)), U32, TYPES));
    HOLDS(is(binary(PLUS, ABSTRACT_INT, U32), 0, U32, 0, TYPES));
    HOLDS(runs(binary(TIMES, VEC2_ABSTRACT_INT, RUNNING(F32)), VEC2_F32, TYPES));
    HOLDS(runs(call3("clamp", ABSTRACT_INT, ABSTRACT_FLOAT, RUNNING(F16)), F16, TYPES));
    HOLDS(is(call3("clamp", ABSTRACT_INT, ABSTRACT_FLOAT, F16), 0, F16, 0, TYPES));
    HOLDS(runs(call3("extractBits", ABSTRACT_INT, RUNNING(U32), ABSTRACT_INT), I32, TYPES));
    HOLDS(unchanged());
    /* The vector that is left is entered where it is absent. */
    start();
    uint32_t v = entry(VEC, 3, 0, ABSTRACT_INT);
    HOLDS(runs(call3("select", v, v, RUNNING(BOOL)), 8, 9) && is_entry(8, VEC, 3, 0, I32));
    start();
    v = entry(VEC, 3, 0, ABSTRACT_INT);
    room = 32;
    keep();
    HOLDS(is(call3("select", v, v, BOOL), 0, v, 0, 8));
    HOLDS(lacks(call3("select", v, v, RUNNING(BOOL)), 1, 0, 8) && unchanged());
}

/* 14: after 1, 2, 4, 5, 7 and 3, before 8 and 9. */
static void abstract_at_any_depth(void) {
    start_types();
    keep();
    HOLDS(is(unary(NEGATE, RUNNING(ABSTRACT_INT)), 14, NONE, 0, TYPES));
    HOLDS(is(binary(PLUS, RUNNING(ABSTRACT_INT), RUNNING(I32)), 14, NONE, 0, TYPES));
    HOLDS(is(binary(PLUS, F32, RUNNING(ABSTRACT_FLOAT)), 14, NONE, 0, TYPES));
    HOLDS(is(binary(TIMES, RUNNING(MAT2X2_ABSTRACT), MAT2X2_F32), 14, NONE, 0, TYPES));
    HOLDS(runs(binary(TIMES, MAT2X2_ABSTRACT, RUNNING(MAT2X2_F32)), MAT2X2_F32, TYPES));
    HOLDS(is(call1("sqrt", RUNNING(VEC2_ABSTRACT_INT)), 14, NONE, 0, TYPES));
    /* Through elem: of arrays, and of what frexp and modf give. */
    HOLDS(is(call1("arrayLength", RUNNING(ARRAY_ABSTRACT)), 14, NONE, 0, TYPES));
    HOLDS(is(call1("arrayLength", RUNNING(ARRAY_OF_ARRAY)), 14, NONE, 0, TYPES));
    HOLDS(is(call1("arrayLength", RUNNING(FREXP_ABSTRACT)), 14, NONE, 0, TYPES));
    HOLDS(is(call1("arrayLength", RUNNING(MODF_ABSTRACT)), 14, NONE, 0, TYPES));
    HOLDS(is(call1("arrayLength", ARRAY_ABSTRACT), 8, NONE, 0, TYPES));
    HOLDS(is(bitcast(U32, ARRAY_ABSTRACT), 0, U32, 0, TYPES));
    HOLDS(is(bitcast(U32, FREXP_ABSTRACT), 0, U32, 0, TYPES));
    HOLDS(is(bitcast(U32, RUNNING(ABSTRACT_INT)), 14, NONE, 0, TYPES));
    HOLDS(is(bitcast(U32, ABSTRACT_INT), 0, U32, 0, TYPES));
    HOLDS(is(call2("ldexp", ABSTRACT_FLOAT, RUNNING(ABSTRACT_INT)), 14, NONE, 0, TYPES));
    /* Unary & and * too. */
    HOLDS(is(unary(ADDRESS_OF, RUNNING(ABSTRACT_INT)), 14, NONE, 0, TYPES));
    HOLDS(is(unary(INDIRECTION, RUNNING(ARRAY_ABSTRACT)), 14, NONE, 0, TYPES));
    /* Before 8. */
    HOLDS(is(binary(OR, RUNNING(ABSTRACT_INT), BOOL), 14, NONE, 0, TYPES));
    HOLDS(is(binary(OR, ABSTRACT_INT, RUNNING(BOOL)), 8, NONE, 0, TYPES));
    HOLDS(is(call1("all", RUNNING(ABSTRACT_INT)), 14, NONE, 0, TYPES));
    HOLDS(is(call2("ldexp", RUNNING(ABSTRACT_INT), BOOL), 14, NONE, 0, TYPES));
    /* After 3, whichever operand the reference is. */
    HOLDS(is(binary(PLUS, REF_F32, RUNNING(ABSTRACT_INT)), 3, NONE, 0, TYPES));
    HOLDS(is(binary(PLUS, RUNNING(ABSTRACT_INT), REF_F32), 3, NONE, 0, TYPES));
    HOLDS(is(call2("max", RUNNING(ABSTRACT_INT), RUNNING(REF_F32)), 3, NONE, 0, TYPES));
    /* After 7, 5, 4 and 2. */
    HOLDS(is(call2("sqrt", RUNNING(ABSTRACT_INT), F32), 7, NONE, 0, TYPES));
    HOLDS(is(call1("storageBarrier", RUNNING(ABSTRACT_INT)), 7, NONE, 0, TYPES));
    HOLDS(is(call("sqrt", 1, (uint32_t[]){F32}, 1, (uint32_t[]){RUNNING(ABSTRACT_INT)}), 5, NONE, 0, TYPES));
    HOLDS(is(bitcast(BOOL, RUNNING(ABSTRACT_INT)), 5, NONE, 0, TYPES));
    HOLDS(is(call1("nosuch", RUNNING(ABSTRACT_INT)), 4, NONE, 0, TYPES));
    HOLDS(is(call1("subgroupAdd", RUNNING(ABSTRACT_INT)), 4, NONE, 0, TYPES));
    HOLDS(is(unary(5, RUNNING(ABSTRACT_INT)), 4, NONE, 0, TYPES));
    HOLDS(is(binary(18, RUNNING(ABSTRACT_INT), F32), 4, NONE, 0, TYPES));
    HOLDS(is(binary(PLUS, RUNNING(ABSTRACT_INT), TYPES), 2, NONE, 0, TYPES));
    HOLDS(is(swartabelk_unary(words, room, 6, NEGATE, RUNNING(ABSTRACT_INT)), 1, NONE, 0, 6));
    profile = SWARTABELK_PROFILE_SUBGROUPS;
    HOLDS(is(call1("subgroupAdd", RUNNING(ABSTRACT_INT)), 14, NONE, 0, TYPES));
    HOLDS(is(call1("subgroupAll", RUNNING(ABSTRACT_INT)), 14, NONE, 0, TYPES));
    /* And before 9. */
    room = 4 * TYPES;
    HOLDS(is(call1("frexp", RUNNING(VEC2_ABSTRACT_INT)), 14, NONE, 0, TYPES));
    HOLDS(lacks(call1("frexp", VEC2_ABSTRACT_INT), 2, 0, TYPES));
    HOLDS(unchanged());
}

/* A result is const where all operands are; those of derivatives and arrayLength are running even so. */
static void results(void) {
    static const char *const derivatives[] = {"dpdx", "dpdxCoarse", "dpdxFine", "dpdy", "dpdyCoarse", "dpdyFine", "fwidth", "fwidthCoarse", "fwidthFine"};
    start_types();
    keep();
    for (size_t i = 0; i < sizeof derivatives / sizeof *derivatives; i++) {
        about = derivatives[i];
        HOLDS(runs(call1(derivatives[i], F32), F32, TYPES));
        HOLDS(runs(call1(derivatives[i], RUNNING(VEC2_F32)), VEC2_F32, TYPES));
        HOLDS(runs(call1(derivatives[i], ABSTRACT_FLOAT), F32, TYPES));
        HOLDS(is(call1(derivatives[i], F16), 8, NONE, 0, TYPES));
        about = "";
    }
    HOLDS(is(call1("quantizeToF16", F32), 0, F32, 0, TYPES));
    HOLDS(runs(call1("arrayLength", PTR_ARRAY), U32, TYPES));
    HOLDS(runs(call1("arrayLength", RUNNING(PTR_ARRAY)), U32, TYPES));
    HOLDS(is(call1("sqrt", F32), 0, F32, 0, TYPES));
    HOLDS(runs(call1("sqrt", RUNNING(F32)), F32, TYPES));
    HOLDS(runs(call2("max", RUNNING(F32), ABSTRACT_INT), F32, TYPES));
    HOLDS(runs(call2("max", ABSTRACT_INT, RUNNING(F32)), F32, TYPES));
    HOLDS(is(call2("ldexp", F32, I32), 0, F32, 0, TYPES));
    HOLDS(runs(call2("ldexp", F32, RUNNING(I32)), F32, TYPES));
    HOLDS(runs(call2("ldexp", RUNNING(F32), I32), F32, TYPES));
    HOLDS(is(bitcast(U32, F32), 0, U32, 0, TYPES));
    HOLDS(runs(bitcast(U32, RUNNING(F32)), U32, TYPES));
    /* A crate rule has no overloads of which one could be left out. */
    HOLDS(runs(bitcast(ABSTRACT_INT, RUNNING(F32)), ABSTRACT_INT, TYPES));
    HOLDS(is(unary(ADDRESS_OF, REF_F32), 0, PTR_F32, 0, TYPES));
    HOLDS(runs(unary(ADDRESS_OF, RUNNING(REF_F32)), PTR_F32, TYPES));
    HOLDS(is(unary(INDIRECTION, PTR_F32), 0, REF_F32, 0, TYPES));
    HOLDS(runs(unary(INDIRECTION, RUNNING(PTR_F32)), REF_F32, TYPES));
    HOLDS(is(call("storageBarrier", 0, no_types, 0, no_types), 0, NONE, 0, TYPES));
    profile = SWARTABELK_PROFILE_SUBGROUPS;
    HOLDS(runs(call("subgroupElect", 0, no_types, 0, no_types), BOOL, TYPES));
    HOLDS(runs(call1("subgroupAdd", RUNNING(F32)), F32, TYPES));
    HOLDS(runs(call2("subgroupShuffle", ABSTRACT_INT, RUNNING(U32)), I32, TYPES));
    HOLDS(unchanged());
}

/* type | mark of a reply is the next call's operand. */
static void chains(void) {
    for (uint32_t early = 0; early < 2; early++) {
        start_types();
        keep();
        swartabelk_reply r = early ? call1("sqrt", F32) : call1("dpdx", F32);
        HOLDS(early ? is(r, 0, F32, 0, TYPES) : runs(r, F32, TYPES));
        r = binary(LESS, r.type | r.mark, ABSTRACT_INT);
        HOLDS(early ? is(r, 0, BOOL, 0, TYPES) : runs(r, BOOL, TYPES));
        r = call3("select", ABSTRACT_INT, ABSTRACT_INT, r.type | r.mark);
        HOLDS(early ? is(r, 0, ABSTRACT_INT, 0, TYPES) : runs(r, I32, TYPES));
        r = binary(PLUS, r.type | r.mark, U32);
        HOLDS(early ? is(r, 0, U32, 0, TYPES) : is(r, 8, NONE, 0, TYPES));
        HOLDS(unchanged());
    }
    /* Without a value there is none. */
    swartabelk_reply none = call("storageBarrier", 0, no_types, 0, no_types);
    HOLDS(is(unary(NEGATE, none.type | none.mark), 2, NONE, 0, TYPES));
}

/* Where a number is no operand the bit is part of it. */
static void numbers(void) {
    uint8_t out[8];
    memset(out, '.', sizeof out);
    start_types();
    keep();
    HOLDS(is(unary(NEGATE, RUNNING(TYPES)), 2, NONE, 0, TYPES));
    HOLDS(is(unary(NEGATE, RUNNING(0x7FFFFFFFu)), 2, NONE, 0, TYPES));
    HOLDS(is(unary(NEGATE, 0x7FFFFFFFu), 2, NONE, 0, TYPES));
    HOLDS(is(bitcast(RUNNING(U32), F32), 2, NONE, 0, TYPES));
    HOLDS(is(call("sqrt", 1, (uint32_t[]){RUNNING(F32)}, 1, (uint32_t[]){F32}), 2, NONE, 0, TYPES));
    HOLDS(is(template("vec2", 2, (int64_t[]){0, RUNNING(F32)}), 2, NONE, 0, TYPES));
    swartabelk_spelled s = swartabelk_spell(words, room, used, RUNNING(F32), out, sizeof out);
    HOLDS(s.refusal == 2 && s.length == 0 && s.place == 0 && s.used == TYPES && memcmp(out, "........", 8) == 0);
    HOLDS(unchanged());
}

/* Every operator on every two types, by their marks. */
static void operators(void) {
    start_types();
    room = 4 * TYPES;
    keep();
    for (uint32_t op = OR; op <= RIGHT; op++) {
        int right = 1;
        for (uint32_t a = 0; a < TYPES; a++) {
            for (uint32_t b = 0; b < TYPES; b++) {
                swartabelk_reply early = binary(op, a, b);
                right &= early.mark == 0;
                for (uint32_t which = 1; which < 4; which++) {
                    uint32_t m = which & 1 ? SWARTABELK_RUNNING : 0, n = which & 2 ? SWARTABELK_RUNNING : 0;
                    swartabelk_reply r = binary(op, a | m, b | n);
                    if (early.refusal != 3 && ((m && is_abstract(a)) || (n && is_abstract(b)))) {
                        right &= is(r, 14, NONE, 0, TYPES);
                    } else if (early.refusal != 0) {
                        right &= r.refusal == early.refusal && r.type == NONE && r.mark == 0 && r.lacking == early.lacking;
                    } else {
                        right &= runs(r, concrete(early.type), TYPES);
                    }
                }
            }
        }
        HOLDS(right);
    }
    HOLDS(unchanged());
}

/* Sheets of version 2: a push and a take have a mark byte. */
static void sheets(void) {
#define SELECT 8, 4, 3, 's', 'e', 'l', 'e', 'c', 't'
#define DPDX 6, 4, 1, 'd', 'p', 'd', 'x'
#define ARRAY_LENGTH 13, 4, 1, 'a', 'r', 'r', 'a', 'y', 'L', 'e', 'n', 'g', 't', 'h'
    start();
    keep();
    HOLDS(runs(SHEET(2, 0, 21, 3, 1, 1, 0, 3, 1, 1, 0, 3, 1, 0, 1, SELECT), I32, 7));
    HOLDS(is(SHEET(2, 0, 21, 3, 1, 1, 0, 3, 1, 1, 0, 3, 1, 0, 0, SELECT), 0, ABSTRACT_INT, 0, 7));
    HOLDS(is(SHEET(1, 0, 18, 2, 1, 1, 2, 1, 1, 2, 1, 0, SELECT), 0, ABSTRACT_INT, 0, 7));
    HOLDS(is(SHEET(2, 0, 21, 3, 1, 1, 1, 3, 1, 1, 0, 3, 1, 0, 1, SELECT), 14, NONE, 15, 7));
    /* A derivative's value is running in version 2 alone. */
    HOLDS(runs(SHEET(2, 0, 11, 3, 1, 5, 0, DPDX), F32, 7));
    HOLDS(is(SHEET(1, 0, 10, 2, 1, 5, DPDX), 0, F32, 0, 7));
    /* select(1, 1, dpdx(x) < x) */
    HOLDS(runs(SHEET(2, 0, 35, 3, 1, 1, 0, 3, 1, 1, 0, 3, 1, 5, 0, DPDX, 3, 1, 5, 0, 2, 3, LESS, SELECT), I32, 7));
    HOLDS(is(SHEET(1, 0, 31, 2, 1, 1, 2, 1, 1, 2, 1, 5, DPDX, 2, 1, 5, 2, 3, LESS, SELECT), 0, ABSTRACT_INT, 0, 7));
    /* A running value that is abstract is pushed and left; it is no operand. */
    HOLDS(runs(SHEET(2, 0, 4, 3, 1, 1, 1), ABSTRACT_INT, 7));
    HOLDS(runs(SHEET(2, 0, 10, 9, 6, 2, 0, 0, 0, 0, 0, 0, 1), ABSTRACT_FLOAT, 7));
    HOLDS(is(SHEET(2, 0, 7, 3, 1, 1, 1, 2, 2, NEGATE), 14, NONE, 7, 7));
    HOLDS(is(SHEET(2, 0, 4, 3, 1, 5, 0), 0, F32, 0, 7));
    HOLDS(runs(SHEET(2, 0, 4, 3, 1, 5, 1), F32, 7));
    HOLDS(is(SHEET(2, 0, 0), 11, NONE, 3, 7));
    HOLDS(is(SHEET(2, 0, 8, 3, 1, 5, 1, 3, 1, 5, 1), 11, NONE, 11, 7));
    /* A mark byte above 1: before 2, 5 and 11. */
    HOLDS(is(SHEET(2, 0, 4, 3, 1, 5, 2), 10, NONE, 3, 7));
    HOLDS(is(SHEET(2, 0, 4, 3, 1, 5, 255), 10, NONE, 3, 7));
    HOLDS(is(SHEET(2, 0, 4, 3, 1, 9, 2), 10, NONE, 3, 7));
    HOLDS(is(SHEET(2, 0, 4, 3, 1, 9, 1), 2, NONE, 3, 7));
    HOLDS(is(SHEET(2, 0, 10, 9, 6, 7, 0, 0, 0, 3, 0, 5, 2), 10, NONE, 3, 7));
    HOLDS(is(SHEET(2, 0, 10, 9, 6, 7, 0, 0, 0, 5, 0, 5, 2), 10, NONE, 3, 7));
    HOLDS(is(SHEET(2, 0, 10, 9, 6, 7, 0, 0, 0, 5, 0, 5, 1), 5, NONE, 3, 7));
    HOLDS(is(SHEET(2, 0, 8, 3, 1, 5, 0, 3, 1, 5, 2), 10, NONE, 7, 7));
    /* Payloads of the other version. */
    HOLDS(is(SHEET(2, 0, 3, 2, 1, 5), 10, NONE, 3, 7));
    HOLDS(is(SHEET(1, 0, 4, 3, 1, 5, 0), 10, NONE, 3, 7));
    HOLDS(is(SHEET(2, 0, 9, 8, 6, 7, 0, 0, 0, 3, 0, 5), 10, NONE, 3, 7));
    HOLDS(is(SHEET(1, 0, 10, 9, 6, 7, 0, 0, 0, 3, 0, 5, 0), 10, NONE, 3, 7));
    HOLDS(is(SHEET(2, 0, 5, 4, 1, 5, 0, 0), 10, NONE, 3, 7));
    HOLDS(is(SHEET(3, 0, 4, 3, 1, 5, 0), 10, NONE, 0, 7));
    /* A barrier has no value and no mark. */
    HOLDS(is(SHEET(2, 0, 17, 16, 4, 0, 's', 't', 'o', 'r', 'a', 'g', 'e', 'B', 'a', 'r', 'r', 'i', 'e', 'r'), 0, NONE, 0, 7));
    HOLDS(unchanged());
    /* A taken vector, running; what it entered is found again. */
    HOLDS(runs(SHEET(2, 0, 10, 9, 6, 7, 0, 0, 0, 3, 0, 5, 1), 7, 8) && is_entry(7, VEC, 3, 0, F32));
    used = 8;
    HOLDS(is(SHEET(2, 0, 10, 9, 6, 7, 0, 0, 0, 3, 0, 5, 0), 0, 7, 0, 8));
    HOLDS(runs(SHEET(2, 0, 11, 3, 1, 7, 1, 3, 1, 1, 0, 2, 3, TIMES), 7, 8));
    room = 32;
    HOLDS(lacks(SHEET(2, 0, 10, 9, 6, 7, 0, 0, 0, 4, 0, 5, 1), 1, 3, 8));
    /* An array of AbstractInt to arrayLength: 14 where it is running. 1 << arrayLength is i32 in version 2, for the length is running, and AbstractInt in version 1. */
    start();
    HOLDS(is(SHEET(2, 0, 24, 9, 6, 9, 0, 0, 0, 4, 0, 1, 1, ARRAY_LENGTH), 14, NONE, 13, 8));
    HOLDS(is(SHEET(2, 0, 24, 9, 6, 9, 0, 0, 0, 4, 0, 1, 0, ARRAY_LENGTH), 8, NONE, 13, 8));
    start();
    entry(RUNTIME, 0, 0, F32);
    entry(PTR, 4, 0, 7);
    HOLDS(runs(SHEET(2, 0, 25, 3, 1, 1, 0, 3, 1, 8, 0, ARRAY_LENGTH, 2, 3, LEFT), I32, 9));
    HOLDS(is(SHEET(1, 0, 23, 2, 1, 1, 2, 1, 8, ARRAY_LENGTH, 2, 3, LEFT), 0, ABSTRACT_INT, 0, 9));
    /* The name of a call is found in either version. */
    static const uint8_t bytes[] = {2, 0, 11, 3, 1, 5, 1, 6, 4, 1, 's', 'q', 'r', 't'};
    swartabelk_part n = swartabelk_call_name(bytes, sizeof bytes, 7);
    HOLDS(n.start == 10 && n.length == 4);
    /* 64 running values, and a 65th. */
    start();
    uint8_t many[3 + 65 * 4] = {2, 260 / 256, 260 % 256};
    for (size_t i = 0; i < 65; i++) {
        memcpy(many + 3 + 4 * i, (uint8_t[]){3, 1, F32, 1}, 4);
    }
    HOLDS(is(sheet(sizeof many, many), 11, NONE, 3 + 64 * 4, 7));
    /* The longest: a push of a running i32 and 19,998 of `-`; one of AbstractInt, which the first `-` refuses. */
    static uint8_t longest[3 + 59998];
    longest[0] = 2;
    longest[1] = 59998 / 256;
    longest[2] = 59998 % 256;
    memcpy(longest + 3, (uint8_t[]){3, 1, I32, 1}, 4);
    for (size_t i = 7; i < sizeof longest; i += 3) {
        memcpy(longest + i, (uint8_t[]){2, 2, NEGATE}, 3);
    }
    HOLDS(runs(sheet(sizeof longest, longest), I32, 7));
    longest[5] = ABSTRACT_INT;
    HOLDS(is(sheet(sizeof longest, longest), 14, NONE, 7, 7));
}

void marks(void) {
    candidates();
    abstract_at_any_depth();
    results();
    chains();
    numbers();
    operators();
    sheets();
}
