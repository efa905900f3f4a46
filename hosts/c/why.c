/* Document 02, "Tell me why": the text of every operator and builtin, accepted and refused, in an output that is exactly long enough and in one that is a byte
   short; the longest text; and every other refusal handed through. The rows of why_rows.h are those of the model in tests/why. */
#include "test.h"

#include <string.h>

#define LISTED(rows) (sizeof(rows) / sizeof *(rows))

enum why_what { UNARY_WHY, BINARY_WHY, CALL_WHY };

/* A call; what it answers, accepted (0) or 8; and its text: length, FNV-1a sum, and itself where it has few lines. */
struct why_row {
    enum why_what what;
    uint32_t op;
    const char *name;
    uint32_t profile;
    size_t count;
    uint32_t args[4];
    uint32_t refusal, length, sum;
    const char *text;
};

#include "why_rows.h"

/* The output. Every byte is a dot before a call, so that what is written shows. */
static uint8_t out[WHY_LENGTH + 64];

static void wipe(size_t n) { memset(out, '.', n); }

static int dots(size_t from, size_t to) {
    while (from < to && out[from] == '.') {
        from++;
    }
    return from == to;
}

static uint32_t fnv(size_t n) {
    uint32_t sum = 0x811c9dc5u;
    for (size_t i = 0; i < n; i++) {
        sum = (sum ^ out[i]) * 0x01000193u;
    }
    return sum;
}

static swartabelk_spelled why_unary(uint32_t op, uint32_t a, size_t n) { return swartabelk_why_unary(words, room, used, op, a, out, n); }
static swartabelk_spelled why_binary(uint32_t op, uint32_t a, uint32_t b, size_t n) { return swartabelk_why_binary(words, room, used, op, a, b, out, n); }

static swartabelk_spelled why_template(const char *name, size_t tplt_len, const uint32_t *tplt, size_t args_len, const uint32_t *args, size_t n) {
    return swartabelk_why_call(words, room, used, profile, (const uint8_t *)name, strlen(name), tplt, tplt_len, args, args_len, out, n);
}

static swartabelk_spelled why_call(const char *name, size_t args_len, const uint32_t *args, size_t n) { return why_template(name, 0, no_types, args_len, args, n); }

/* Whether a text of this length is told, which is there whether the call was accepted or refused with 8; whether nothing is told, for this refusal. */
static int tells(swartabelk_spelled s, size_t length) { return s.refusal == 0 && s.length == length && s.place == 0 && s.used == used; }
static int refused(swartabelk_spelled s, uint32_t refusal) { return s.refusal == refusal && s.length == 0 && s.place == 0 && s.used == used && dots(0, 64); }

static swartabelk_spelled ask(const struct why_row *r, size_t n) {
    wipe(r->length + 64u);
    profile = r->profile;
    switch (r->what) {
    case UNARY_WHY:
        return why_unary(r->op, r->args[0], n);
    case BINARY_WHY:
        return why_binary(r->op, r->args[0], r->args[1], n);
    default:
        return why_call(r->name, r->count, r->args, n);
    }
}

/* What the call itself answers. */
static uint32_t answered(const struct why_row *r) {
    profile = r->profile;
    switch (r->what) {
    case UNARY_WHY:
        return unary(r->op, r->args[0]).refusal;
    case BINARY_WHY:
        return binary(r->op, r->args[0], r->args[1]).refusal;
    default:
        return call(r->name, 0, no_types, r->count, r->args).refusal;
    }
}

static int written(const struct why_row *r) {
    return fnv(r->length) == r->sum && (r->text == NULL || (strlen(r->text) == r->length && memcmp(out, r->text, r->length) == 0)) && dots(r->length, r->length + 64u);
}

static void start_table(void) {
    start();
    for (size_t i = SCALARS; i < LISTED(why_table); i++) {
        entry(why_table[i][0], why_table[i][1], why_table[i][2], why_table[i][3]);
    }
}

static void texts(void) {
    start_table();
    HOLDS(is(swartabelk_check(words, room, used), 0, NONE, 0, used));
    for (size_t i = 0; i < LISTED(why_rows); i++) {
        const struct why_row *r = &why_rows[i];
        about = r->what == CALL_WHY ? r->name : r->what == UNARY_WHY ? "of a unary operator" : "of a binary operator";
        HOLDS(answered(r) == r->refusal);
        keep();
        /* Exactly long enough, and longer: later bytes stay. */
        HOLDS(tells(ask(r, r->length), r->length) && written(r));
        HOLDS(tells(ask(r, r->length + 64u), r->length) && written(r));
        /* A byte short, and empty: nothing is written. */
        if (r->length > 0) {
            HOLDS(refused(ask(r, r->length - 1u), 12) && dots(0, r->length + 64u));
            HOLDS(refused(ask(r, 0), 12) && dots(0, r->length + 64u));
        }
        HOLDS(unchanged());
    }
    about = "";
}

static void longest(void) {
    start();
    uint32_t t = entry(EXCHANGE, 0, 0, I32);
    for (int i = 0; i < WHY_ARRAYS; i++) {
        t = entry(ARRAY, 0xFFFFFFFFu, 0, t);
    }
    t = entry(PTR, WORKGROUP, READ_WRITE, t);
    HOLDS(used == 256);
    HOLDS(is(swartabelk_check(words, room, used), 0, NONE, 0, 256));
    keep();
    wipe(sizeof out);
    HOLDS(refused(why_binary(TIMES, t, BOOL, WHY_LENGTH - 1u), 12) && dots(0, sizeof out));
    HOLDS(tells(why_binary(TIMES, t, BOOL, WHY_LENGTH), WHY_LENGTH) && fnv(WHY_LENGTH) == WHY_SUM && dots(WHY_LENGTH, sizeof out));
    size_t lines = 0;
    for (size_t i = 0; i < WHY_LENGTH; i++) {
        lines += out[i] == '\n';
    }
    HOLDS(lines == WHY_LINES);
    HOLDS(unchanged());
}

/* The numbers of why_table that are asked below. */
enum { VEC2_F32 = SCALARS, REF_F32 = LISTED(why_table) - 2, REF_HANDLE, TYPES };

/* Every refusal but 8 and 12, in an output that is long enough and in an empty one: it comes before 12. */
static void handed_through(void) {
    static const size_t rooms[] = {64, 0};
    start_table();
    HOLDS(used == TYPES && words[4 * VEC2_F32] == VEC && words[4 * REF_F32] == REF && words[4 * REF_HANDLE] == REF);
    keep();
    wipe(64);
    for (size_t i = 0; i < LISTED(rooms); i++) {
        size_t n = rooms[i];
        /* 1: a slice that is too short, before 2. */
        room = 4 * TYPES - 1;
        HOLDS(refused(why_unary(NOT, BOOL, n), 1));
        HOLDS(refused(why_binary(TIMES, BOOL, TYPES, n), 1));
        HOLDS(refused(why_call("subgroupElect", 0, no_types, n), 1));
        room = 1024;
        /* The count. */
        static const uint32_t counts[] = {0, 6, 257, 0xFFFFFFFFu};
        for (size_t k = 0; k < LISTED(counts); k++) {
            used = counts[k];
            HOLDS(refused(why_unary(NOT, BOOL, n), 1));
            HOLDS(refused(why_binary(TIMES, BOOL, BOOL, n), 1));
            HOLDS(refused(why_call("abs", 1, (uint32_t[]){BOOL}, n), 1));
        }
        used = TYPES;
        /* A table that is not sound. */
        words[4 * VEC2_F32 + 1] = 5;
        HOLDS(refused(why_unary(NOT, BOOL, n), 1));
        HOLDS(refused(why_binary(TIMES, BOOL, BOOL, n), 1));
        HOLDS(refused(why_call("abs", 1, (uint32_t[]){BOOL}, n), 1));
        words[4 * VEC2_F32 + 1] = 2;
        /* 2: operands, and the template list before them; the bit of a mark is part of a number of that. */
        HOLDS(refused(why_unary(NOT, TYPES, n), 2));
        HOLDS(refused(why_unary(5, RUNNING(TYPES), n), 2));
        HOLDS(refused(why_unary(NOT, NONE, n), 2));
        HOLDS(refused(why_binary(TIMES, BOOL, TYPES, n), 2));
        HOLDS(refused(why_binary(18, TYPES, REF_F32, n), 2));
        HOLDS(refused(why_call("abs", 1, (uint32_t[]){RUNNING(TYPES)}, n), 2));
        HOLDS(refused(why_call("nothing", 2, (uint32_t[]){BOOL, TYPES}, n), 2));
        HOLDS(refused(why_template("bitcast", 1, (uint32_t[]){TYPES}, 1, (uint32_t[]){BOOL}, n), 2));
        HOLDS(refused(why_template("bitcast", 1, (uint32_t[]){RUNNING(F32)}, 1, (uint32_t[]){BOOL}, n), 2));
        /* 3: a reference, before 14 and 8. */
        HOLDS(refused(why_unary(NEGATE, REF_F32, n), 3));
        HOLDS(refused(why_unary(INDIRECTION, REF_HANDLE, n), 3));
        HOLDS(refused(why_binary(TIMES, RUNNING(ABSTRACT_INT), REF_F32, n), 3));
        HOLDS(refused(why_call("abs", 1, (uint32_t[]){REF_F32}, n), 3));
        HOLDS(refused(why_call("atomicLoad", 1, (uint32_t[]){REF_F32}, n), 3));
        HOLDS(refused(why_template("bitcast", 1, (uint32_t[]){F32}, 1, (uint32_t[]){REF_F32}, n), 3));
        /* 4: no operator, no name, no name of the profile, no profile. */
        HOLDS(refused(why_unary(5, REF_F32, n), 4));
        HOLDS(refused(why_binary(18, BOOL, BOOL, n), 4));
        HOLDS(refused(why_call("tangent", 1, (uint32_t[]){BOOL}, n), 4));
        HOLDS(refused(why_call("", 0, no_types, n), 4));
        HOLDS(refused(why_call("subgroupElect", 0, no_types, n), 4));
        HOLDS(refused(why_template("subgroupAdd", 1, (uint32_t[]){F32}, 1, (uint32_t[]){BOOL}, n), 4));
        profile = 2;
        HOLDS(refused(why_call("abs", 1, (uint32_t[]){BOOL}, n), 4));
        profile = SWARTABELK_PROFILE_BASE;
        /* 5: a template list that is not wanted, missing, wrong, too long; before 7. */
        HOLDS(refused(why_template("abs", 1, (uint32_t[]){F32}, 2, (uint32_t[]){BOOL, BOOL}, n), 5));
        HOLDS(refused(why_call("bitcast", 1, (uint32_t[]){F32}, n), 5));
        HOLDS(refused(why_template("bitcast", 1, (uint32_t[]){BOOL}, 1, (uint32_t[]){F32}, n), 5));
        HOLDS(refused(why_template("bitcast", 2, (uint32_t[]){F32, F32}, 1, (uint32_t[]){F32}, n), 5));
        /* 7: before 3. */
        HOLDS(refused(why_call("abs", 2, (uint32_t[]){BOOL, REF_F32}, n), 7));
        HOLDS(refused(why_call("select", 2, (uint32_t[]){BOOL, BOOL}, n), 7));
        HOLDS(refused(why_call("storageBarrier", 1, (uint32_t[]){BOOL}, n), 7));
        HOLDS(refused(why_call("atomicLoad", 0, no_types, n), 7));
        /* 14: before 8 and 9. */
        HOLDS(refused(why_unary(NOT, RUNNING(ABSTRACT_INT), n), 14));
        HOLDS(refused(why_unary(ADDRESS_OF, RUNNING(ABSTRACT_INT), n), 14));
        HOLDS(refused(why_binary(TIMES, BOOL, RUNNING(ABSTRACT_FLOAT), n), 14));
        HOLDS(refused(why_call("modf", 1, (uint32_t[]){RUNNING(ABSTRACT_FLOAT)}, n), 14));
        /* 9: the result is absent and has no room. 8 comes before it, and has a text. */
        room = 4 * TYPES + 3;
        HOLDS(refused(why_call("modf", 1, (uint32_t[]){F32}, n), 9));
        HOLDS(refused(why_binary(LESS, 8, 8, n), 9));
        HOLDS(refused(why_unary(ADDRESS_OF, REF_F32, n), 9));
        room = 1024;
    }
    HOLDS(unchanged());
}

/* What has room has its text, and writes no entry; an accepted call of what is not listed has none. */
static void read_only(void) {
    static const char chosen[] = "(f32): chosen, rank 0\n", wanted[] = "operand 1 is f32, wanted is a pointer\n";
    start_table();
    keep();
    room = 4 * (TYPES + 1);
    wipe(64);
    HOLDS(tells(why_call("modf", 1, (uint32_t[]){F32}, sizeof chosen - 1), sizeof chosen - 1) && memcmp(out, chosen, sizeof chosen - 1) == 0 && dots(sizeof chosen - 1, 64));
    wipe(64);
    HOLDS(tells(why_unary(ADDRESS_OF, REF_F32, 0), 0) && dots(0, 64));
    HOLDS(tells(why_template("bitcast", 1, (uint32_t[]){F32}, 1, (uint32_t[]){BOOL}, 64), 0) && dots(0, 64));
    HOLDS(tells(why_template("bitcast", 1, (uint32_t[]){VEC2_F32}, 1, (uint32_t[]){RUNNING(BOOL)}, 0), 0) && dots(0, 64));
    HOLDS(tells(why_call("workgroupBarrier", 0, no_types, 0), 0) && dots(0, 64));
    HOLDS(tells(why_call("textureBarrier", 0, no_types, 64), 0) && dots(0, 64));
    /* In a table without room a call that is refused with 8 has its text. */
    room = 4 * TYPES;
    HOLDS(tells(why_unary(INDIRECTION, F32, 64), sizeof wanted - 1) && memcmp(out, wanted, sizeof wanted - 1) == 0 && dots(sizeof wanted - 1, 64));
    wipe(64);
    HOLDS(refused(why_unary(INDIRECTION, F32, sizeof wanted - 2), 12));
    HOLDS(unchanged());
}

void reasons(void) {
    texts();
    longest();
    handed_through();
    read_only();
}
