/* Document 02, "Subgroup and quad calls": the names of profile 1, unknown profiles, the 65th value of a call, and a table without room. */
#include "test.h"

#include <string.h>

/* The table for the names of profile 1: some types after the scalars. */
enum { VEC4_U32 = SCALARS, VEC3_ABSTRACT_INT, VEC3_I32, VEC2_F16, VEC2_BOOL, MAT2X2_F32, REF_F32, SUBGROUP_TYPES };

static void start_subgroups(void) {
    start();
    entry(VEC, 4, 0, U32);
    entry(VEC, 3, 0, ABSTRACT_INT);
    entry(VEC, 3, 0, I32);
    entry(VEC, 2, 0, F16);
    entry(VEC, 2, 0, BOOL);
    entry(MAT, 2, 2, F32);
    entry(REF, 0, 2, F32);
    profile = SWARTABELK_PROFILE_SUBGROUPS;
}

/* Types that are offered to a name. */
typedef struct {
    size_t count;
    uint32_t types[2];
} operands;

/* The names of profile 1: each with operands that it takes and what it gives for them, and with operands that it refuses, and why. */
static const struct {
    const char *name;
    operands taken;
    uint32_t gives;
    operands refused;
    uint32_t refusal;
} subgroup_names[] = {
    {"quadBroadcast", {2, {VEC2_F16, U32}}, VEC2_F16, {2, {F32, F32}}, 8},
    {"quadSwapDiagonal", {1, {ABSTRACT_FLOAT}}, F32, {1, {MAT2X2_F32}}, 8},
    {"quadSwapX", {1, {VEC3_ABSTRACT_INT}}, VEC3_I32, {1, {BOOL}}, 8},
    {"quadSwapY", {1, {F16}}, F16, {1, {REF_F32}}, 3},
    {"subgroupAdd", {1, {ABSTRACT_INT}}, I32, {1, {BOOL}}, 8},
    {"subgroupAll", {1, {BOOL}}, BOOL, {1, {VEC2_BOOL}}, 8},
    {"subgroupAnd", {1, {ABSTRACT_INT}}, I32, {1, {F32}}, 8},
    {"subgroupAny", {1, {BOOL}}, BOOL, {1, {I32}}, 8},
    {"subgroupBallot", {1, {BOOL}}, VEC4_U32, {0, {0}}, 7},
    {"subgroupBroadcast", {2, {VEC3_ABSTRACT_INT, ABSTRACT_INT}}, VEC3_I32, {2, {VEC3_I32, VEC3_I32}}, 8},
    {"subgroupBroadcastFirst", {1, {VEC4_U32}}, VEC4_U32, {2, {F32, U32}}, 7},
    {"subgroupElect", {0, {0}}, BOOL, {1, {BOOL}}, 7},
    {"subgroupExclusiveAdd", {1, {F32}}, F32, {1, {VEC2_BOOL}}, 8},
    {"subgroupExclusiveMul", {1, {VEC2_F16}}, VEC2_F16, {1, {BOOL}}, 8},
    {"subgroupInclusiveAdd", {1, {U32}}, U32, {1, {MAT2X2_F32}}, 8},
    {"subgroupInclusiveMul", {1, {I32}}, I32, {1, {BOOL}}, 8},
    {"subgroupMax", {1, {VEC3_I32}}, VEC3_I32, {1, {BOOL}}, 8},
    {"subgroupMin", {1, {ABSTRACT_FLOAT}}, F32, {2, {F32, F32}}, 7},
    {"subgroupMul", {1, {F16}}, F16, {1, {VEC2_BOOL}}, 8},
    {"subgroupOr", {1, {VEC4_U32}}, VEC4_U32, {1, {ABSTRACT_FLOAT}}, 8},
    {"subgroupShuffle", {2, {F32, I32}}, F32, {2, {BOOL, I32}}, 8},
    {"subgroupShuffleDown", {2, {F32, U32}}, F32, {2, {F32, I32}}, 8},
    {"subgroupShuffleUp", {2, {VEC3_ABSTRACT_INT, ABSTRACT_INT}}, VEC3_I32, {2, {VEC3_I32, I32}}, 8},
    {"subgroupShuffleXor", {2, {U32, U32}}, U32, {2, {U32, REF_F32}}, 3},
    {"subgroupXor", {1, {VEC3_ABSTRACT_INT}}, VEC3_I32, {1, {F16}}, 8},
};

#define SUBGROUP_NAMES (sizeof subgroup_names / sizeof *subgroup_names)

static void subgroups(void) {
    HOLDS(SUBGROUP_NAMES == 25);
    start_subgroups();
    keep();
    for (size_t i = 0; i < SUBGROUP_NAMES; i++) {
        const char *name = subgroup_names[i].name;
        const operands *taken = &subgroup_names[i].taken, *wrong = &subgroup_names[i].refused;
        about = name;
        profile = SWARTABELK_PROFILE_SUBGROUPS;
        HOLDS(runs(call(name, 0, no_types, taken->count, taken->types), subgroup_names[i].gives, SUBGROUP_TYPES));
        HOLDS(is(call(name, 0, no_types, wrong->count, wrong->types), subgroup_names[i].refusal, NONE, 0, SUBGROUP_TYPES));
        HOLDS(is(call(name, 1, (uint32_t[]){F32}, taken->count, taken->types), 5, NONE, 0, SUBGROUP_TYPES));
        profile = SWARTABELK_PROFILE_BASE;
        HOLDS(is(call(name, 0, no_types, taken->count, taken->types), 4, NONE, 0, SUBGROUP_TYPES));
    }
    about = "";
    HOLDS(unchanged());
    /* A result that is absent is entered where there is room. */
    start();
    profile = SWARTABELK_PROFILE_SUBGROUPS;
    room = 31;
    keep();
    HOLDS(lacks(call1("subgroupBallot", BOOL), 1, 0, 7) && unchanged());
    room = 32;
    HOLDS(runs(call1("subgroupBallot", BOOL), 7, 8) && is_entry(7, VEC, 4, 0, U32));
    /* What profile 0 has, profile 1 has too. */
    HOLDS(is(call1("sqrt", ABSTRACT_INT), 0, ABSTRACT_FLOAT, 0, 7));
    HOLDS(is(call("storageBarrier", 0, no_types, 0, no_types), 0, NONE, 0, 7));
    HOLDS(is(call("bitcast", 1, (uint32_t[]){U32}, 1, (uint32_t[]){F32}), 0, U32, 0, 7));
    HOLDS(is(call1("nosuch", F32), 4, NONE, 0, 7));
}

/* An unknown profile: 4 for every call, after 1 and 2. */
static void unknown_profile(uint32_t unknown) {
    start();
    uint32_t r = entry(REF, 0, 2, F32);
    profile = unknown;
    keep();
    HOLDS(is(call1("sqrt", F32), 4, NONE, 0, 8));
    HOLDS(is(call1("subgroupAdd", F32), 4, NONE, 0, 8));
    HOLDS(is(call("subgroupElect", 0, no_types, 0, no_types), 4, NONE, 0, 8));
    HOLDS(is(call("storageBarrier", 0, no_types, 0, no_types), 4, NONE, 0, 8));
    HOLDS(is(call1("nosuch", F32), 4, NONE, 0, 8));
    HOLDS(is(call("bitcast", 0, no_types, 1, (uint32_t[]){F32}), 4, NONE, 0, 8));
    HOLDS(is(call("sqrt", 1, (uint32_t[]){F32}, 1, (uint32_t[]){F32}), 4, NONE, 0, 8));
    HOLDS(is(call("sqrt", 0, no_types, 2, (uint32_t[]){F32, F32}), 4, NONE, 0, 8));
    HOLDS(is(call1("sqrt", r), 4, NONE, 0, 8));
    HOLDS(is(call1("sqrt", BOOL), 4, NONE, 0, 8));
    HOLDS(is(call1("sqrt", 8), 2, NONE, 0, 8));
    HOLDS(is(call("bitcast", 1, (uint32_t[]){8}, 1, (uint32_t[]){F32}), 2, NONE, 0, 8));
    HOLDS(is(swartabelk_call(words, room, 6, profile, (const uint8_t *)"sqrt", 4, no_types, 0, (uint32_t[]){9}, 1), 1, NONE, 0, 6));
    /* Of a sheet at place 0, after 1 and a wrong header: also of one without calls, and of one without items. */
    HOLDS(is(SHEET(1, 0, 3, 2, 1, 5), 4, NONE, 0, 8));
    HOLDS(is(SHEET(1, 0, 0), 4, NONE, 0, 8));
    HOLDS(is(SHEET(1, 0, 9, 8, 6, 7, 0, 0, 0, 3, 0, 5), 4, NONE, 0, 8));
    HOLDS(is(SHEET(1, 0, 3, 2, 9, 0), 4, NONE, 0, 8));
    HOLDS(is(SHEET(1, 0, 9, 2, 1, 5, 6, 4, 1, 's', 'q', 'r', 't'), 10, NONE, 0, 8));
    HOLDS(is(SHEET(1, 0), 10, NONE, 0, 8));
    HOLDS(is(SHEET(2, 0, 0), 4, NONE, 0, 8));
    HOLDS(is(SHEET(3, 0, 0), 10, NONE, 0, 8));
    HOLDS(is(swartabelk_sheet(words, room, 6, profile, (const uint8_t *)"", 0), 1, NONE, 0, 6));
    HOLDS(unchanged());
}

/* A call's item, behind so many pushes of a type, as a sheet. Its place is 3 + 3 * pushes. */
static swartabelk_reply called(size_t pushes, uint32_t type, const char *name, uint8_t count) {
    static uint8_t bytes[512];
    size_t at = 3 + 3 * pushes, n = strlen(name);
    for (size_t i = 3; i < at; i += 3) {
        bytes[i] = 2;
        bytes[i + 1] = 1;
        bytes[i + 2] = (uint8_t)type;
    }
    bytes[at] = (uint8_t)(n + 2);
    bytes[at + 1] = 4;
    bytes[at + 2] = count;
    memcpy(bytes + at + 3, name, n);
    size_t length = 3 * pushes + 3 + n;
    bytes[0] = 1;
    bytes[1] = (uint8_t)(length >> 8);
    bytes[2] = (uint8_t)length;
    return sheet(3 + length, bytes);
}

/* Sheets of profile 1: the 65th value of a call, and a table without room. */
static void subgroup_sheets(void) {
    start();
    HOLDS(is(called(0, BOOL, "subgroupElect", 0), 4, NONE, 3, 7));
    HOLDS(is(called(64, BOOL, "subgroupElect", 0), 4, NONE, 195, 7));
    profile = SWARTABELK_PROFILE_SUBGROUPS;
    keep();
    HOLDS(is(called(0, BOOL, "subgroupElect", 0), 0, BOOL, 0, 7));
    HOLDS(is(called(63, BOOL, "subgroupElect", 0), 11, NONE, 3 + 3 * 63 + 16, 7));
    HOLDS(is(called(64, BOOL, "subgroupElect", 0), 11, NONE, 195, 7));
    HOLDS(is(called(64, BOOL, "subgroupElect", 1), 7, NONE, 195, 7));
    HOLDS(is(called(64, BOOL, "subgroupelect", 0), 4, NONE, 195, 7));
    HOLDS(is(called(64, BOOL, "storageBarrier", 0), 11, NONE, 195, 7));
    HOLDS(is(called(1, F32, "subgroupAdd", 2), 11, NONE, 6, 7));
    HOLDS(unchanged());
    HOLDS(is(called(1, BOOL, "subgroupBallot", 1), 0, 7, 0, 8) && is_entry(7, VEC, 4, 0, U32));
    /* A full table: 249 arrays. The 65th value is 11 there too, an absent vec4<u32> 9, of 64 values too, for the call takes one of them. */
    start();
    while (used < 256) {
        entry(ARRAY, used, 0, F32);
    }
    profile = SWARTABELK_PROFILE_SUBGROUPS;
    keep();
    HOLDS(is(called(64, BOOL, "subgroupElect", 0), 11, NONE, 195, 256));
    HOLDS(is(called(0, BOOL, "subgroupElect", 0), 0, BOOL, 0, 256));
    HOLDS(lacks(called(1, BOOL, "subgroupBallot", 1), 1, 6, 256));
    HOLDS(lacks(called(64, BOOL, "subgroupBallot", 1), 1, 195, 256));
    HOLDS(lacks(call1("subgroupBallot", BOOL), 1, 0, 256));
    HOLDS(unchanged());
    words[4 * 255] = VEC;
    words[4 * 255 + 1] = 4;
    words[4 * 255 + 3] = U32;
    HOLDS(is(called(1, BOOL, "subgroupBallot", 1), 0, 255, 0, 256));
}

void profiles(void) {
    subgroups();
    unknown_profile(2);
    unknown_profile(256);
    unknown_profile(0xFFFFFFFFu);
    subgroup_sheets();
}
