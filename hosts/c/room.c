/* Document 02, "How much room is missing": with refusal 9 how many entries lack; a slice that is longer by so many has room, and one that is longer by less has not. */
#include "test.h"

/* The table: some types after the scalars. No vec2<AbstractFloat>, which frexp and modf of vec2<AbstractInt> need, and no vec3 of anything. */
enum { VEC2_ABSTRACT_INT = SCALARS, VEC4_F32, MAT4X3_F32, MAT2X4_F32, REF_F32, PTR_U32, TYPES };

static void start_types(void) {
    start();
    entry(VEC, 2, 0, ABSTRACT_INT);
    entry(VEC, 4, 0, F32);
    entry(MAT, 4, 3, F32);
    entry(MAT, 2, 4, F32);
    entry(REF, 0, 2, F32);
    entry(PTR, 4, 0, U32);
    profile = SWARTABELK_PROFILE_SUBGROUPS;
}

/* The table with arrays behind, so that it has that many entries. */
static void start_with(uint32_t count) {
    start_types();
    while (used < count) {
        entry(ARRAY, used, 0, F32);
    }
}

/* A slice of so many whole entries. */
static void lend(uint32_t entries) { room = 4 * (size_t)entries; }

/* Calls whose result is absent. */
static swartabelk_reply frexp_of_vector(void) { return call1("frexp", VEC2_ABSTRACT_INT); }
static swartabelk_reply modf_of_vector(void) { return call1("modf", VEC2_ABSTRACT_INT); }
static swartabelk_reply frexp_of_present(void) { return call1("frexp", VEC4_F32); }
static swartabelk_reply modf_of_scalar(void) { return call1("modf", F16); }
static swartabelk_reply ballot(void) { return call1("subgroupBallot", BOOL); }
static swartabelk_reply transposed(void) { return call1("transpose", MAT4X3_F32); }
static swartabelk_reply address(void) { return unary(ADDRESS_OF, REF_F32); }
static swartabelk_reply reference(void) { return unary(INDIRECTION, PTR_U32); }
static swartabelk_reply matrix_by_vector(void) { return binary(TIMES, MAT4X3_F32, VEC4_F32); }
static swartabelk_reply matrix_by_matrix(void) { return binary(TIMES, MAT4X3_F32, MAT2X4_F32); }
static swartabelk_reply compared(void) { return binary(LESS, VEC4_F32, VEC4_F32); }
static swartabelk_reply vector(void) { return template("vec3", 2, (int64_t[]){0, F32}); }
static swartabelk_reply matrix(void) { return template("mat2x2", 2, (int64_t[]){0, F16}); }
static swartabelk_reply array(void) { return template("array", 4, (int64_t[]){0, VEC4_F32, 1, 4}); }
static swartabelk_reply array_without_count(void) { return template("array", 2, (int64_t[]){0, VEC4_F32}); }
static swartabelk_reply atomic(void) { return template("atomic", 2, (int64_t[]){0, U32}); }
static swartabelk_reply taken(void) { return SHEET(1, 0, 9, 8, 6, 9, 0, 0, 0, 4, 0, F32); }
static swartabelk_reply multiplied(void) { return SHEET(1, 0, 9, 2, 1, MAT4X3_F32, 2, 1, VEC4_F32, 2, 3, TIMES); }
static swartabelk_reply address_in_sheet(void) { return SHEET(1, 0, 6, 2, 1, REF_F32, 2, 2, ADDRESS_OF); }
static swartabelk_reply frexp_in_sheet(void) { return SHEET(1, 0, 11, 2, 1, VEC2_ABSTRACT_INT, 7, 4, 1, 'f', 'r', 'e', 'x', 'p'); }

/* Each with the entries that it needs, and in a sheet the place of the item. */
static const struct {
    const char *about;
    swartabelk_reply (*ask)(void);
    uint32_t missing, place;
} absent[] = {
    {"frexp of a vector", frexp_of_vector, 2, 0},
    {"modf of a vector", modf_of_vector, 2, 0},
    {"frexp of a vector that is there", frexp_of_present, 1, 0},
    {"modf of a scalar", modf_of_scalar, 1, 0},
    {"subgroupBallot", ballot, 1, 0},
    {"transpose", transposed, 1, 0},
    {"unary &", address, 1, 0},
    {"unary *", reference, 1, 0},
    {"matrix by vector", matrix_by_vector, 1, 0},
    {"matrix by matrix", matrix_by_matrix, 1, 0},
    {"<", compared, 1, 0},
    {"vec3<f32>", vector, 1, 0},
    {"mat2x2<f16>", matrix, 1, 0},
    {"array<vec4<f32>, 4>", array, 1, 0},
    {"array<vec4<f32>>", array_without_count, 1, 0},
    {"atomic<u32>", atomic, 1, 0},
    {"a sheet's take", taken, 1, 3},
    {"a sheet's operator", multiplied, 1, 9},
    {"a sheet's unary &", address_in_sheet, 1, 6},
    {"a sheet's frexp", frexp_in_sheet, 2, 6},
};

#define ABSENT (sizeof absent / sizeof *absent)

/* Whether the result is the last of so many entries. A ballot's is running. */
static int entered(swartabelk_reply (*ask)(void), uint32_t count) {
    return ask == ballot ? runs(ask(), count - 1, count) : is(ask(), 0, count - 1, 0, count);
}

/* In each slice with too little room it is told how many entries lack. One that is longer by less lacks some yet, one that is longer by so many has room. */
static void grown(void) {
    for (size_t i = 0; i < ABSENT; i++) {
        uint32_t missing = absent[i].missing, place = absent[i].place;
        about = absent[i].about;
        for (uint32_t left = 0; left < missing; left++) {
            start_types();
            lend(TYPES + left);
            keep();
            swartabelk_reply r = absent[i].ask();
            HOLDS(lacks(r, missing - left, place, TYPES) && unchanged());
            lend(TYPES + left + r.lacking - 1);
            HOLDS(lacks(absent[i].ask(), 1, place, TYPES) && unchanged());
            /* A part of an entry is none. */
            room += 3;
            HOLDS(lacks(absent[i].ask(), 1, place, TYPES) && unchanged());
            lend(TYPES + left + r.lacking);
            HOLDS(entered(absent[i].ask, TYPES + missing));
            /* What was entered is found again, and no room is wanted. */
            used = TYPES + missing;
            HOLDS(entered(absent[i].ask, TYPES + missing));
        }
        about = "";
    }
}

/* What frexp needs, as the slice leaves 0, 1 and 2 entries. */
static void element_and_container(void) {
    start_types();
    lend(TYPES);
    HOLDS(lacks(frexp_of_vector(), 2, 0, TYPES));
    lend(TYPES + 1);
    HOLDS(lacks(frexp_of_vector(), 1, 0, TYPES));
    lend(TYPES + 2);
    HOLDS(is(frexp_of_vector(), 0, TYPES + 1, 0, TYPES + 2) && is_entry(TYPES, VEC, 2, 0, ABSTRACT_FLOAT) && is_entry(TYPES + 1, FREXP, 0, 0, TYPES));
    /* With the element there, the container alone lacks. */
    used = TYPES + 1;
    lend(TYPES + 1);
    HOLDS(lacks(frexp_of_vector(), 1, 0, TYPES + 1));
}

/* 256 entries are the most: there what lacks stays, however long the slice is. */
static void ceiling(void) {
    static const uint32_t longer[] = {256, 257, 258, 264};
    for (size_t i = 0; i < sizeof longer / sizeof *longer; i++) {
        start_with(256);
        lend(longer[i]);
        keep();
        for (size_t k = 0; k < ABSENT; k++) {
            about = absent[k].about;
            HOLDS(lacks(absent[k].ask(), absent[k].missing, absent[k].place, 256));
        }
        about = "";
        HOLDS(unchanged());
        start_with(255);
        lend(longer[i]);
        keep();
        HOLDS(lacks(frexp_of_vector(), 1, 0, 255) && unchanged());
        HOLDS(is(matrix_by_vector(), 0, 255, 0, 256));
        start_with(254);
        lend(longer[i]);
        HOLDS(is(frexp_of_vector(), 0, 255, 0, 256));
    }
    /* 255 entries and two missing are more than 256: longer by the two that lack, one still does. */
    start_with(255);
    lend(255);
    HOLDS(lacks(frexp_of_vector(), 2, 0, 255));
    lend(257);
    HOLDS(lacks(frexp_of_vector(), 1, 0, 255));
}

/* Two takes: the place is that of the first that lacks, and the slice that has room for it lacks one for the second. What the first entered stays. */
static void items(void) {
    start_types();
    lend(TYPES);
    keep();
#define TWO_TAKES SHEET(1, 0, 18, 8, 6, 9, 0, 0, 0, 4, 0, F32, 8, 6, 9, 0, 0, 0, 5, 0, F32)
    HOLDS(lacks(TWO_TAKES, 1, 3, TYPES) && unchanged());
    lend(TYPES + 1);
    HOLDS(lacks(TWO_TAKES, 1, 12, TYPES + 1) && is_entry(TYPES, ARRAY, 4, 0, F32));
    used = TYPES + 1;
    HOLDS(lacks(TWO_TAKES, 1, 12, TYPES + 1));
    lend(TYPES + 2);
    /* Two values at the end. */
    HOLDS(is(TWO_TAKES, 11, NONE, 21, TYPES + 2) && is_entry(TYPES + 1, ARRAY, 5, 0, F32));
}

/* Every operator on every two types, in a slice without room and in one with: what is entered there lacks here, and else the replies are the same. */
static void operators(void) {
    start_types();
    for (uint32_t op = OR; op <= RIGHT; op++) {
        int right = 1;
        for (uint32_t a = 0; a < TYPES; a++) {
            for (uint32_t b = 0; b < TYPES; b++) {
                lend(256);
                swartabelk_reply with = binary(op, a, b);
                lend(TYPES);
                swartabelk_reply without = binary(op, a, b);
                right &= with.lacking == 0;
                if (with.used == TYPES) {
                    right &= is(without, with.refusal, with.type, 0, TYPES);
                } else {
                    right &= lacks(without, with.used - TYPES, 0, TYPES);
                }
            }
        }
        HOLDS(right);
    }
}

void rooms(void) {
    grown();
    element_and_container();
    ceiling();
    items();
    operators();
}
