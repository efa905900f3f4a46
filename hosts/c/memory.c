/* Document 02, "Atomic calls": a type that a host enters, the twelve calls on memory, the type that a compare gives, and sheets that call them. */
#include "test.h"

#include <string.h>

/* The table: some types after the scalars. */
enum {
    ATOMIC_I32 = SCALARS,
    ATOMIC_U32,
    EXCHANGE_I32,
    EXCHANGE_U32,
    STORAGE_I32,
    STORAGE_U32,
    WORKGROUP_I32,
    WORKGROUP_U32,
    STORAGE_READ,
    STORAGE_WRITE,
    WORKGROUP_READ,
    WORKGROUP_WRITE,
    IN_FUNCTION,
    IN_PRIVATE,
    IN_UNIFORM,
    STORAGE_PLAIN,
    WORKGROUP_PLAIN,
    VEC2_I32,
    VEC2_U32,
    VEC2_ABSTRACT_INT,
    REF_ATOMIC,
    ARRAY_F32,
    RUNTIME_F32,
    ARRAY_OF_ATOMICS,
    ARRAY_OF_ARRAYS_OF_ATOMICS,
    RUNTIME_ATOMICS,
    ARRAY_OF_EXCHANGES,
    TO_VEC,
    TO_ARRAY,
    TO_RUNTIME,
    TO_ATOMICS,
    TO_ARRAYS_OF_ATOMICS,
    TO_RUNTIME_ATOMICS,
    TO_EXCHANGE,
    TO_EXCHANGES,
    STORAGE_VEC,
    WORKGROUP_VEC_READ,
    TYPES
};

static void start_types(void) {
    start();
    entry(ATOMIC, 0, 0, I32);
    entry(ATOMIC, 0, 0, U32);
    entry(EXCHANGE, 0, 0, I32);
    entry(EXCHANGE, 0, 0, U32);
    entry(PTR, STORAGE, READ_WRITE, ATOMIC_I32);
    entry(PTR, STORAGE, READ_WRITE, ATOMIC_U32);
    entry(PTR, WORKGROUP, READ_WRITE, ATOMIC_I32);
    entry(PTR, WORKGROUP, READ_WRITE, ATOMIC_U32);
    entry(PTR, STORAGE, READ, ATOMIC_U32);
    entry(PTR, STORAGE, WRITE, ATOMIC_U32);
    entry(PTR, WORKGROUP, READ, ATOMIC_U32);
    entry(PTR, WORKGROUP, WRITE, ATOMIC_U32);
    entry(PTR, FUNCTION, READ_WRITE, ATOMIC_U32);
    entry(PTR, PRIVATE, READ_WRITE, ATOMIC_U32);
    entry(PTR, UNIFORM, READ_WRITE, ATOMIC_U32);
    entry(PTR, STORAGE, READ_WRITE, U32);
    entry(PTR, WORKGROUP, READ_WRITE, U32);
    entry(VEC, 2, 0, I32);
    entry(VEC, 2, 0, U32);
    entry(VEC, 2, 0, ABSTRACT_INT);
    entry(REF, STORAGE, READ_WRITE, ATOMIC_U32);
    entry(ARRAY, 4, 0, F32);
    entry(RUNTIME, 0, 0, F32);
    entry(ARRAY, 4, 0, ATOMIC_U32);
    entry(ARRAY, 3, 0, ARRAY_OF_ATOMICS);
    entry(RUNTIME, 0, 0, ATOMIC_U32);
    entry(ARRAY, 2, 0, EXCHANGE_U32);
    entry(PTR, WORKGROUP, READ_WRITE, VEC2_U32);
    entry(PTR, WORKGROUP, READ_WRITE, ARRAY_F32);
    entry(PTR, WORKGROUP, READ_WRITE, RUNTIME_F32);
    entry(PTR, WORKGROUP, READ_WRITE, ARRAY_OF_ATOMICS);
    entry(PTR, WORKGROUP, READ_WRITE, ARRAY_OF_ARRAYS_OF_ATOMICS);
    entry(PTR, WORKGROUP, READ_WRITE, RUNTIME_ATOMICS);
    entry(PTR, WORKGROUP, READ_WRITE, EXCHANGE_I32);
    entry(PTR, WORKGROUP, READ_WRITE, ARRAY_OF_EXCHANGES);
    entry(PTR, STORAGE, READ_WRITE, VEC2_U32);
    entry(PTR, WORKGROUP, READ, VEC2_U32);
}

/* What a call on an atomic gives: its component, no value, or the result of a compare. */
typedef enum { COMPONENT, NOTHING, COMPARED } gives;

/* The calls on atomics: the values behind the pointer, and what is given. */
static const struct {
    const char *name;
    size_t values;
    gives given;
} atomics[] = {
    {"atomicAdd", 1, COMPONENT},
    {"atomicAnd", 1, COMPONENT},
    {"atomicCompareExchangeWeak", 2, COMPARED},
    {"atomicExchange", 1, COMPONENT},
    {"atomicLoad", 0, COMPONENT},
    {"atomicMax", 1, COMPONENT},
    {"atomicMin", 1, COMPONENT},
    {"atomicOr", 1, COMPONENT},
    {"atomicStore", 1, NOTHING},
    {"atomicSub", 1, COMPONENT},
    {"atomicXor", 1, COMPONENT},
};

#define ATOMICS (sizeof atomics / sizeof *atomics)
#define LISTED(list) (sizeof(list) / sizeof *(list))

/* A call on an atomic: the pointer, and so many values, each the same. */
static swartabelk_reply on(const char *name, uint32_t pointer, size_t values, uint32_t value) {
    return call(name, 0, no_types, 1 + values, (uint32_t[]){pointer, value, value, value});
}

/* Whether a reply is what the call gives over an atomic of that component. */
static int gave(swartabelk_reply r, gives given, uint32_t component) {
    switch (given) {
    case NOTHING:
        return is(r, 0, NONE, 0, TYPES);
    case COMPARED:
        return runs(r, component == I32 ? EXCHANGE_I32 : EXCHANGE_U32, TYPES);
    default:
        return runs(r, component, TYPES);
    }
}

static int refuses(swartabelk_reply r, uint32_t refusal) { return is(r, refusal, NONE, 0, TYPES); }

/* The pointers that these calls take, with the component of each; those that they do not; and types that are no pointers. */
static const uint32_t taken[][2] = {{STORAGE_I32, I32}, {STORAGE_U32, U32}, {WORKGROUP_I32, I32}, {WORKGROUP_U32, U32}};
static const uint32_t wrong_pointers[] = {
    STORAGE_READ, STORAGE_WRITE, WORKGROUP_READ, WORKGROUP_WRITE, IN_FUNCTION, IN_PRIVATE, IN_UNIFORM, STORAGE_PLAIN,
    WORKGROUP_PLAIN, TO_ATOMICS, TO_RUNTIME_ATOMICS, TO_EXCHANGE, ATOMIC_U32, U32, BOOL,
};

/* Types of values that do not convert to u32. */
static const uint32_t wrong_values[] = {BOOL, ABSTRACT_FLOAT, I32, F32, F16, VEC2_U32, VEC2_ABSTRACT_INT, ATOMIC_U32, STORAGE_U32, EXCHANGE_U32, ARRAY_F32};

/* One of the eleven in a profile. */
static void on_atomics(size_t i) {
    const char *name = atomics[i].name;
    size_t values = atomics[i].values;
    gives given = atomics[i].given;
    for (size_t k = 0; k < LISTED(taken); k++) {
        uint32_t pointer = taken[k][0], component = taken[k][1];
        HOLDS(gave(on(name, pointer, values, component), given, component));
        HOLDS(gave(on(name, pointer, values, ABSTRACT_INT), given, component));
        HOLDS(gave(on(name, RUNNING(pointer), values, RUNNING(component)), given, component));
        HOLDS(gave(on(name, RUNNING(pointer), values, ABSTRACT_INT), given, component));
        HOLDS(gave(on(name, pointer, values, RUNNING(component)), given, component));
    }
    for (size_t k = 0; k < LISTED(wrong_pointers); k++) {
        HOLDS(refuses(on(name, wrong_pointers[k], values, U32), 8));
        HOLDS(refuses(on(name, RUNNING(wrong_pointers[k]), values, ABSTRACT_INT), 8));
    }
    /* Each value alone. */
    for (size_t at = 1; at <= values; at++) {
        for (size_t k = 0; k < LISTED(wrong_values); k++) {
            uint32_t args[] = {STORAGE_U32, U32, U32};
            args[at] = wrong_values[k];
            HOLDS(refuses(call(name, 0, no_types, 1 + values, args), 8));
        }
        uint32_t args[] = {WORKGROUP_I32, I32, I32};
        args[at] = U32;
        HOLDS(refuses(call(name, 0, no_types, 1 + values, args), 8));
        args[at] = VEC2_I32;
        HOLDS(refuses(call(name, 0, no_types, 1 + values, args), 8));
        args[at] = REF_ATOMIC;
        HOLDS(refuses(call(name, 0, no_types, 1 + values, args), 3));
        /* 14 comes after 3 and before 8, whatever else is wrong with the operands. */
        args[at] = RUNNING(ABSTRACT_INT);
        HOLDS(refuses(call(name, 0, no_types, 1 + values, args), 14));
        args[at] = RUNNING(VEC2_ABSTRACT_INT);
        HOLDS(refuses(call(name, 0, no_types, 1 + values, args), 14));
        args[0] = STORAGE_READ;
        HOLDS(refuses(call(name, 0, no_types, 1 + values, args), 14));
        args[0] = REF_ATOMIC;
        HOLDS(refuses(call(name, 0, no_types, 1 + values, args), 3));
        args[at] = TYPES;
        HOLDS(refuses(call(name, 0, no_types, 1 + values, args), 2));
    }
    HOLDS(refuses(on(name, REF_ATOMIC, values, U32), 3));
    HOLDS(refuses(on(name, TYPES, values, U32), 2));
    /* 7 before 3, 5 before 7. */
    HOLDS(refuses(call(name, 0, no_types, 0, no_types), 7));
    HOLDS(refuses(call(name, 0, no_types, values, (uint32_t[]){STORAGE_U32, U32, U32}), 7));
    HOLDS(refuses(on(name, STORAGE_U32, values + 1, U32), 7));
    HOLDS(refuses(on(name, REF_ATOMIC, values + 1, U32), 7));
    HOLDS(refuses(call(name, 1, (uint32_t[]){U32}, 1 + values, (uint32_t[]){STORAGE_U32, U32, U32}), 5));
    HOLDS(refuses(call(name, 1, (uint32_t[]){U32}, 0, no_types), 5));
    HOLDS(refuses(call(name, 1, (uint32_t[]){TYPES}, 0, no_types), 2));
}

/* workgroupUniformLoad in a profile. */
static void uniform_load(void) {
    static const uint32_t loads[][2] = {
        {WORKGROUP_I32, I32}, {WORKGROUP_U32, U32}, {WORKGROUP_PLAIN, U32}, {TO_VEC, VEC2_U32}, {TO_ARRAY, ARRAY_F32}, {TO_EXCHANGE, EXCHANGE_I32},
        {TO_EXCHANGES, ARRAY_OF_EXCHANGES},
    };
    static const uint32_t wrong[] = {
        TO_RUNTIME, TO_ATOMICS, TO_ARRAYS_OF_ATOMICS, TO_RUNTIME_ATOMICS, WORKGROUP_READ, WORKGROUP_WRITE, WORKGROUP_VEC_READ, STORAGE_U32,
        STORAGE_PLAIN, STORAGE_VEC, IN_FUNCTION, IN_PRIVATE, IN_UNIFORM, ATOMIC_U32, U32, VEC2_U32,
    };
    const char *name = "workgroupUniformLoad";
    about = name;
    for (size_t k = 0; k < LISTED(loads); k++) {
        HOLDS(runs(call1(name, loads[k][0]), loads[k][1], TYPES));
        HOLDS(runs(call1(name, RUNNING(loads[k][0])), loads[k][1], TYPES));
    }
    for (size_t k = 0; k < LISTED(wrong); k++) {
        HOLDS(refuses(call1(name, wrong[k]), 8));
        HOLDS(refuses(call1(name, RUNNING(wrong[k])), 8));
    }
    HOLDS(refuses(call1(name, ABSTRACT_INT), 8));
    HOLDS(refuses(call1(name, RUNNING(ABSTRACT_INT)), 14));
    HOLDS(refuses(call1(name, REF_ATOMIC), 3));
    HOLDS(refuses(call1(name, TYPES), 2));
    HOLDS(refuses(call(name, 0, no_types, 0, no_types), 7));
    HOLDS(refuses(call(name, 0, no_types, 2, (uint32_t[]){WORKGROUP_U32, U32}), 7));
    HOLDS(refuses(call(name, 1, (uint32_t[]){U32}, 1, (uint32_t[]){WORKGROUP_U32}), 5));
    about = "";
}

/* All twelve, in both profiles alike; and in an unknown one. */
static void twelve(void) {
    HOLDS(ATOMICS == 11);
    start_types();
    HOLDS(is(swartabelk_check(words, room, used), 0, NONE, 0, TYPES));
    keep();
    for (uint32_t p = SWARTABELK_PROFILE_BASE; p <= SWARTABELK_PROFILE_SUBGROUPS; p++) {
        profile = p;
        for (size_t i = 0; i < ATOMICS; i++) {
            about = atomics[i].name;
            on_atomics(i);
            about = "";
        }
        uniform_load();
    }
    profile = 2;
    for (size_t i = 0; i < ATOMICS; i++) {
        about = atomics[i].name;
        HOLDS(refuses(on(atomics[i].name, STORAGE_U32, atomics[i].values, U32), 4));
        HOLDS(refuses(on(atomics[i].name, REF_ATOMIC, 3, U32), 4));
        HOLDS(refuses(on(atomics[i].name, TYPES, atomics[i].values, U32), 2));
        about = "";
    }
    HOLDS(refuses(call1("workgroupUniformLoad", WORKGROUP_U32), 4));
    profile = SWARTABELK_PROFILE_BASE;
    /* No names. */
    HOLDS(refuses(on("atomicDiv", STORAGE_U32, 1, U32), 4));
    HOLDS(refuses(on("atomicCompareExchange", STORAGE_U32, 2, U32), 4));
    HOLDS(refuses(on("atomicloads", STORAGE_U32, 0, U32), 4));
    HOLDS(unchanged());
}

/* The type that a compare gives, where it is absent. */
static void compared(void) {
    static const char *const name = "atomicCompareExchangeWeak";
    for (uint32_t component = I32; component <= U32; component++) {
        start();
        uint32_t a = entry(ATOMIC, 0, 0, component), p = entry(PTR, STORAGE, READ_WRITE, a);
        room = 4 * 9;
        keep();
        HOLDS(lacks(on(name, p, 2, ABSTRACT_INT), 1, 0, 9) && unchanged());
        room = 4 * 10 - 1;
        HOLDS(lacks(on(name, p, 2, component), 1, 0, 9) && unchanged());
        /* 8 and 14 come before 9. */
        HOLDS(is(on(name, p, 2, F32), 8, NONE, 0, 9));
        HOLDS(is(on(name, p, 2, RUNNING(ABSTRACT_INT)), 14, NONE, 0, 9));
        room = 4 * 10;
        HOLDS(runs(on(name, p, 2, component), 9, 10) && is_entry(9, EXCHANGE, 0, 0, component));
        used = 10;
        HOLDS(runs(on(name, p, 2, ABSTRACT_INT), 9, 10));
        HOLDS(is(swartabelk_check(words, room, used), 0, NONE, 0, 10));
        /* No operator and no call takes it; a pointer to it and an array of it may be. */
        HOLDS(is(binary(EQUAL, 9, 9), 8, NONE, 0, 10));
        HOLDS(is(unary(NEGATE, RUNNING(9)), 8, NONE, 0, 10));
        HOLDS(is(call1("abs", 9), 8, NONE, 0, 10));
    }
    /* The other calls enter nothing, and want no room. */
    start();
    uint32_t a = entry(ATOMIC, 0, 0, I32), p = entry(PTR, WORKGROUP, READ_WRITE, a);
    room = 4 * 9;
    keep();
    HOLDS(runs(on("atomicAdd", p, 1, I32), I32, 9));
    HOLDS(is(on("atomicStore", p, 1, ABSTRACT_INT), 0, NONE, 0, 9));
    HOLDS(runs(call1("workgroupUniformLoad", p), I32, 9));
    HOLDS(unchanged());
    /* A full table. */
    while (used < 256) {
        entry(ARRAY, used, 0, F32);
    }
    room = WORDS;
    keep();
    HOLDS(lacks(on(name, p, 2, I32), 1, 0, 256) && unchanged());
    words[4 * 255] = EXCHANGE;
    words[4 * 255 + 1] = 0;
    words[4 * 255 + 3] = I32;
    HOLDS(runs(on(name, p, 2, I32), 255, 256));
}

static swartabelk_reply enter(uint32_t kind, uint32_t p, uint32_t q, uint32_t elem) { return swartabelk_enter(words, room, used, kind, p, q, elem); }

/* Entries of every kind above the scalars, each after those that it needs. */
static const uint32_t right[][4] = {
    {VEC, 3, 0, F32},
    {MAT, 2, 4, F16},
    {ARRAY, 0xFFFFFFFFu, 0, 7},
    {RUNTIME, 0, 0, 9},
    {ATOMIC, 0, 0, U32},
    {PTR, STORAGE, READ_WRITE, 11},
    {REF, HANDLE, READ, F32},
    {FREXP, 0, 0, 7},
    {MODF, 0, 0, ABSTRACT_FLOAT},
    {EXCHANGE, 0, 0, I32},
    {EXCHANGE, 0, 0, U32},
    {ARRAY, 2, 0, 16},
    {PTR, WORKGROUP, READ, 17},
    {REF, FUNCTION, WRITE, 16},
    {VEC, 2, 0, ABSTRACT_INT},
};

/* Entries that break a rule, over the table that those make. 7 is a vector, 9 an array, 10 one without count, 12 a pointer, 13 a reference, 21 a vector of
   AbstractInt. */
static const uint32_t broken[][4] = {
    /* A scalar's words. */
    {BOOL, 1, 0, 0}, {F32, 0, 1, 0}, {U32, 0, 0, 1}, {F16, 0, 0, 6},
    {VEC, 1, 0, F32}, {VEC, 5, 0, F32}, {VEC, 3, 1, F32}, {VEC, 2, 0, 7},
    {MAT, 5, 2, F32}, {MAT, 2, 1, F32}, {MAT, 2, 2, I32}, {MAT, 2, 2, 7},
    {ARRAY, 0, 0, F32}, {ARRAY, 4, 1, F32}, {ARRAY, 4, 0, 10}, {ARRAY, 4, 0, 12}, {ARRAY, 4, 0, 13},
    {RUNTIME, 1, 0, F32}, {RUNTIME, 0, 1, F32}, {RUNTIME, 0, 0, 10}, {RUNTIME, 0, 0, 12},
    {ATOMIC, 0, 0, F32}, {ATOMIC, 0, 0, BOOL}, {ATOMIC, 1, 0, U32}, {ATOMIC, 0, 1, U32}, {ATOMIC, 0, 0, 7},
    {PTR, HANDLE, READ, F32}, {PTR, STORAGE, 3, F32}, {PTR, STORAGE, READ, ABSTRACT_INT},
    {PTR, STORAGE, READ, 21}, {PTR, STORAGE, READ, 12}, {PTR, STORAGE, READ, 13},
    {REF, 6, READ, F32}, {REF, HANDLE, 3, F32}, {REF, HANDLE, READ, ABSTRACT_FLOAT}, {REF, HANDLE, READ, 13},
    {FREXP, 0, 0, I32}, {FREXP, 1, 0, F32}, {FREXP, 0, 1, F32}, {FREXP, 0, 0, 21},
    {MODF, 0, 0, U32}, {MODF, 1, 0, F32}, {MODF, 0, 0, 9},
    {EXCHANGE, 0, 0, F32}, {EXCHANGE, 0, 0, BOOL}, {EXCHANGE, 0, 0, ABSTRACT_INT}, {EXCHANGE, 1, 0, I32},
    {EXCHANGE, 0, 1, I32}, {EXCHANGE, 0, 0, 11}, {EXCHANGE, 0, 0, 16},
    /* No kind. */
    {17, 0, 0, 0}, {17, 0, 0, I32}, {256 + VEC, 3, 0, F32}, {0xFFFFFFFFu, 0, 0, 0}, {RUNNING(BOOL), 0, 0, 0},
    /* An elem that is not below the count; the bit of a mark is part of it. */
    {VEC, 3, 0, 22}, {RUNTIME, 0, 0, 22}, {RUNTIME, 0, 0, 0xFFFFFFFFu},
    {EXCHANGE, 0, 0, RUNNING(I32)}, {ATOMIC, 0, 0, RUNNING(U32)}, {ARRAY, 4, 0, RUNNING(F32)},
};

static void entered(void) {
    start();
    for (uint32_t i = 0; i < SCALARS; i++) {
        HOLDS(is(enter(i, 0, 0, 0), 0, i, 0, 7));
    }
    for (uint32_t i = 0; i < LISTED(right); i++) {
        const uint32_t *e = right[i];
        uint32_t n = SCALARS + i;
        /* One entry lacks, and a part of one is none. */
        room = 4 * (size_t)n;
        keep();
        HOLDS(lacks(enter(e[0], e[1], e[2], e[3]), 1, 0, n) && unchanged());
        room += 3;
        HOLDS(lacks(enter(e[0], e[1], e[2], e[3]), 1, 0, n) && unchanged());
        room++;
        HOLDS(is(enter(e[0], e[1], e[2], e[3]), 0, n, 0, n + 1) && is_entry(n, e[0], e[1], e[2], e[3]));
        /* It is found again, and no room is wanted. */
        used = n + 1;
        keep();
        HOLDS(is(enter(e[0], e[1], e[2], e[3]), 0, n, 0, n + 1) && unchanged());
        HOLDS(is(swartabelk_check(words, room, used), 0, NONE, 0, n + 1));
    }
    /* Refusal 5, with room and without. */
    HOLDS(used == 22);
    for (size_t i = 0; i < LISTED(broken); i++) {
        const uint32_t *e = broken[i];
        room = 1024;
        keep();
        HOLDS(is(enter(e[0], e[1], e[2], e[3]), 5, NONE, 0, 22) && unchanged());
        room = 4 * 22;
        HOLDS(is(enter(e[0], e[1], e[2], e[3]), 5, NONE, 0, 22) && unchanged());
    }
    for (uint32_t i = 0; i < SCALARS; i++) {
        HOLDS(is(enter(i, 0, 0, 0), 0, i, 0, 22));
    }
    /* Refusal 1, before 5. */
    room = 4 * 22 - 1;
    HOLDS(is(enter(VEC, 4, 0, F32), 1, NONE, 0, 22));
    HOLDS(is(enter(17, 0, 0, 0), 1, NONE, 0, 22));
    room = 1024;
    HOLDS(is(swartabelk_enter(words, room, 6, VEC, 4, 0, F32), 1, NONE, 0, 6));
    HOLDS(is(swartabelk_enter(words, room, 257, VEC, 4, 0, F32), 1, NONE, 0, 257));
    HOLDS(is(swartabelk_enter(words, room, 0xFFFFFFFFu, F32, 0, 0, 0), 1, NONE, 0, 0xFFFFFFFFu));
    HOLDS(is(swartabelk_enter(words, 0, 7, F32, 0, 0, 0), 1, NONE, 0, 7));
    words[4 * 21 + 1] = 5;
    HOLDS(is(enter(F32, 0, 0, 0), 1, NONE, 0, 22));
    HOLDS(is(enter(VEC, 4, 0, F32), 1, NONE, 0, 22));
    words[4 * 21 + 1] = 2;
    /* An entry of kind 16 that is not right makes a table that is not sound. */
    entry(EXCHANGE, 0, 0, F32);
    HOLDS(is(swartabelk_check(words, room, used), 1, NONE, 0, 23));
    words[4 * 22 + 3] = U32;
    /* There is one such already. */
    HOLDS(is(swartabelk_check(words, room, used), 1, NONE, 0, 23));
    /* 256 entries are the most. */
    start();
    while (used < 256) {
        entry(ARRAY, used, 0, F32);
    }
    room = WORDS;
    keep();
    HOLDS(lacks(enter(VEC, 4, 0, F32), 1, 0, 256));
    HOLDS(lacks(enter(EXCHANGE, 0, 0, U32), 1, 0, 256));
    HOLDS(is(enter(ARRAY, 255, 0, F32), 0, 255, 0, 256));
    HOLDS(is(enter(EXCHANGE, 0, 0, F32), 5, NONE, 0, 256));
    HOLDS(unchanged());
}

/* A counter from nothing: each type is entered, and the reply's number is the next one's. */
static void counter(void) {
    start();
    swartabelk_reply a = enter(ATOMIC, 0, 0, U32);
    HOLDS(is(a, 0, 7, 0, 8));
    used = a.used;
    swartabelk_reply p = enter(PTR, STORAGE, READ_WRITE, a.type);
    HOLDS(is(p, 0, 8, 0, 9));
    used = p.used;
    swartabelk_reply r = on("atomicAdd", p.type, 1, ABSTRACT_INT);
    HOLDS(runs(r, U32, 9));
    /* Its value is running: 1 << it is i32. */
    HOLDS(runs(binary(LEFT, ABSTRACT_INT, r.type | r.mark), I32, 9));
    HOLDS(is(binary(LEFT, ABSTRACT_INT, r.type), 0, ABSTRACT_INT, 0, 9));
    /* What was given is the next call's value. */
    r = on("atomicMax", p.type, 1, r.type | r.mark);
    HOLDS(runs(r, U32, 9));
    r = on("atomicStore", p.type, 1, r.type | r.mark);
    HOLDS(is(r, 0, NONE, 0, 9));
    HOLDS(is(on("atomicAdd", p.type, 1, r.type | r.mark), 2, NONE, 0, 9));
    /* By &, as a text has it. */
    swartabelk_reply v = enter(REF, STORAGE, READ_WRITE, a.type);
    HOLDS(is(v, 0, 9, 0, 10));
    used = v.used;
    HOLDS(is(on("atomicLoad", v.type, 0, 0), 3, NONE, 0, 10));
    r = unary(ADDRESS_OF, RUNNING(v.type));
    HOLDS(runs(r, p.type, 10));
    HOLDS(runs(on("atomicLoad", r.type | r.mark, 0, 0), U32, 10));
}

/* How kind 16 is spelled. */
static void spelled(void) {
    static const struct {
        uint32_t type;
        const char *spelling;
    } spellings[] = {
        {EXCHANGE_I32, "__atomic_compare_exchange_result<i32>"},
        {EXCHANGE_U32, "__atomic_compare_exchange_result<u32>"},
        {ARRAY_OF_EXCHANGES, "array<__atomic_compare_exchange_result<u32>,2>"},
        {TO_EXCHANGE, "ptr<workgroup,__atomic_compare_exchange_result<i32>,read_write>"},
    };
    start_types();
    for (size_t i = 0; i < LISTED(spellings); i++) {
        uint8_t out[80];
        size_t n = strlen(spellings[i].spelling);
        memset(out, '.', sizeof out);
        swartabelk_spelled s = swartabelk_spell(words, room, used, spellings[i].type, out, n - 1);
        HOLDS(s.refusal == 12 && s.length == 0 && s.used == TYPES && out[0] == '.');
        s = swartabelk_spell(words, room, used, spellings[i].type, out, n);
        HOLDS(s.refusal == 0 && s.length == n && s.place == 0 && s.used == TYPES && memcmp(out, spellings[i].spelling, n) == 0 && out[n] == '.');
    }
}

/* Items of a sheet. */
#define LOAD 12, 4, 1, 'a', 't', 'o', 'm', 'i', 'c', 'L', 'o', 'a', 'd'
#define STORE 13, 4, 2, 'a', 't', 'o', 'm', 'i', 'c', 'S', 't', 'o', 'r', 'e'
#define ADD 11, 4, 2, 'a', 't', 'o', 'm', 'i', 'c', 'A', 'd', 'd'
#define COMPARE 27, 4, 3, 'a', 't', 'o', 'm', 'i', 'c', 'C', 'o', 'm', 'p', 'a', 'r', 'e', 'E', 'x', 'c', 'h', 'a', 'n', 'g', 'e', 'W', 'e', 'a', 'k'
#define PUSH(type) 2, 1, type
#define PUSH_MARKED(type, mark) 3, 1, type, mark

static void sheets(void) {
    start_types();
    keep();
    HOLDS(is(SHEET(1, 0, 16, PUSH(STORAGE_U32), LOAD), 0, U32, 0, TYPES));
    HOLDS(is(SHEET(1, 0, 18, PUSH(STORAGE_U32), PUSH(ABSTRACT_INT), ADD), 0, U32, 0, TYPES));
    /* A store is the last item, and no value stands below it. */
    HOLDS(is(SHEET(1, 0, 20, PUSH(STORAGE_U32), PUSH(ABSTRACT_INT), STORE), 0, NONE, 0, TYPES));
    HOLDS(is(SHEET(1, 0, 23, PUSH(F32), PUSH(STORAGE_U32), PUSH(U32), STORE), 11, NONE, 12, TYPES));
    HOLDS(is(SHEET(1, 0, 23, PUSH(STORAGE_U32), PUSH(U32), STORE, PUSH(F32)), 11, NONE, 9, TYPES));
    HOLDS(is(SHEET(1, 0, 34, PUSH(STORAGE_U32), PUSH(U32), STORE, STORE), 11, NONE, 9, TYPES));
    /* What else is wrong with it comes before. */
    HOLDS(is(SHEET(1, 0, 23, PUSH(F32), PUSH(STORAGE_U32), PUSH(F32), STORE), 8, NONE, 12, TYPES));
    HOLDS(is(SHEET(1, 0, 23, PUSH(STORAGE_READ), PUSH(U32), STORE, PUSH(F32)), 8, NONE, 9, TYPES));
    HOLDS(is(SHEET(1, 0, 23, PUSH(F32), PUSH(REF_ATOMIC), PUSH(U32), STORE), 3, NONE, 12, TYPES));
    HOLDS(is(SHEET(1, 0, 17, PUSH(STORAGE_U32), STORE), 11, NONE, 6, TYPES));
    HOLDS(is(SHEET(1, 0, 37, PUSH(STORAGE_U32), PUSH(U32), PUSH(I32), COMPARE), 8, NONE, 12, TYPES));
    HOLDS(is(SHEET(1, 0, 37, PUSH(STORAGE_U32), PUSH(U32), PUSH(U32), COMPARE), 0, EXCHANGE_U32, 0, TYPES));
    /* In version 2 a value is running, and a store has no mark. */
    HOLDS(runs(SHEET(2, 0, 17, PUSH_MARKED(STORAGE_U32, 0), LOAD), U32, TYPES));
    HOLDS(is(SHEET(2, 0, 22, PUSH_MARKED(STORAGE_U32, 1), PUSH_MARKED(U32, 1), STORE), 0, NONE, 0, TYPES));
    HOLDS(is(SHEET(2, 0, 22, PUSH_MARKED(STORAGE_U32, 1), PUSH_MARKED(ABSTRACT_INT, 1), STORE), 14, NONE, 11, TYPES));
    HOLDS(runs(SHEET(2, 0, 24, PUSH_MARKED(ABSTRACT_INT, 0), PUSH_MARKED(STORAGE_U32, 0), LOAD, 2, 3, LEFT), I32, TYPES));
    HOLDS(is(SHEET(1, 0, 22, PUSH(ABSTRACT_INT), PUSH(STORAGE_U32), LOAD, 2, 3, LEFT), 0, ABSTRACT_INT, 0, TYPES));
    /* Both profiles alike, and no other. */
    profile = SWARTABELK_PROFILE_SUBGROUPS;
    HOLDS(is(SHEET(1, 0, 20, PUSH(STORAGE_U32), PUSH(ABSTRACT_INT), STORE), 0, NONE, 0, TYPES));
    HOLDS(runs(SHEET(2, 0, 17, PUSH_MARKED(STORAGE_U32, 0), LOAD), U32, TYPES));
    profile = 2;
    HOLDS(is(SHEET(1, 0, 16, PUSH(STORAGE_U32), LOAD), 4, NONE, 0, TYPES));
    HOLDS(unchanged());
    /* A take of kind 16: entered, found, wrong. */
    start();
    HOLDS(is(SHEET(1, 0, 9, 8, 6, EXCHANGE, 0, 0, 0, 0, 0, U32), 0, 7, 0, 8) && is_entry(7, EXCHANGE, 0, 0, U32));
    used = 8;
    HOLDS(is(SHEET(1, 0, 9, 8, 6, EXCHANGE, 0, 0, 0, 0, 0, U32), 0, 7, 0, 8));
    HOLDS(runs(SHEET(2, 0, 10, 9, 6, EXCHANGE, 0, 0, 0, 0, 0, U32, 1), 7, 8));
    keep();
    HOLDS(is(SHEET(1, 0, 9, 8, 6, EXCHANGE, 0, 0, 0, 0, 0, F32), 5, NONE, 3, 8));
    HOLDS(is(SHEET(1, 0, 9, 8, 6, EXCHANGE, 0, 0, 0, 1, 0, I32), 5, NONE, 3, 8));
    HOLDS(is(SHEET(1, 0, 9, 8, 6, EXCHANGE, 0, 0, 0, 0, 1, I32), 5, NONE, 3, 8));
    HOLDS(is(SHEET(1, 0, 9, 8, 6, EXCHANGE + 1, 0, 0, 0, 0, 0, I32), 5, NONE, 3, 8));
    room = 32;
    HOLDS(lacks(SHEET(1, 0, 9, 8, 6, EXCHANGE, 0, 0, 0, 0, 0, I32), 1, 3, 8));
    HOLDS(unchanged());
    /* A compare that has no room. */
    start();
    entry(ATOMIC, 0, 0, I32);
    entry(PTR, WORKGROUP, READ_WRITE, 7);
    room = 36;
    keep();
    HOLDS(lacks(SHEET(1, 0, 37, PUSH(8), PUSH(I32), PUSH(ABSTRACT_INT), COMPARE), 1, 12, 9) && unchanged());
    room = 40;
    HOLDS(is(SHEET(1, 0, 37, PUSH(8), PUSH(I32), PUSH(ABSTRACT_INT), COMPARE), 0, 9, 0, 10) && is_entry(9, EXCHANGE, 0, 0, I32));
    /* A counter that a sheet alone makes: it takes the atomic, which stands below, and a pointer to it. */
    start();
    HOLDS(is(SHEET(1, 0, 33, 8, 6, ATOMIC, 0, 0, 0, 0, 0, U32, 8, 6, PTR, 0, 0, 0, STORAGE, READ_WRITE, 7, PUSH(ABSTRACT_INT), ADD), 11, NONE, 36, 9));
}

void memory(void) {
    entered();
    twelve();
    compared();
    counter();
    spelled();
    sheets();
}
