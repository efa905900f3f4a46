/* Swartabelk: the typing rules of WGSL, proved. The result types of operators, builtins, template types and sheets over a table of types that the host lends.
 *
 * The table: `words` holds `used` entries of four words each, kind, p, q and elem; the entries 0 to 6 are bool, AbstractInt, AbstractFloat, i32, u32, f32
 * and f16. `used` is 7 to 256. A type is the number of its entry. A result that is absent is entered where the slice has room: the reply's `used` is the
 * count afterwards, and the next call is given that. No entry that was there moves or changes. A refused call changes no word; a refused sheet keeps what
 * its accepted items entered.
 *
 * A table begins with the seven scalars, which swartabelk_scalars writes. The first steps, whole, are in hosts/c/example.c.
 *
 * The rules of an entry, by its kind. A word that is not named here is 0. elem is the number of an entry below this one, and no two entries are equal.
 *
 *    0 to 6    the scalars, which stand at their own numbers
 *    7         a vector: p its width, 2 to 4; elem a scalar
 *    8         a matrix: p its columns and q its rows, 2 to 4; elem AbstractFloat, f32 or f16
 *    9         an array: p its count, 1 or more; elem no pointer, no reference and no array without count
 *   10         an array without count: elem as in 9
 *   11         an atomic: elem i32 or u32, its component
 *   12         a pointer: p its space, 0 function, 1 private, 2 workgroup, 3 uniform, 4 storage; q its access, 0 read, 1 write, 2 read_write;
 *              elem no pointer, no reference and nothing abstract at any depth
 *   13         a reference: the same, or 5 handle as its space
 *   14, 15     the result of frexp, of modf: elem the type of `fract`, a float or a vector of floats
 *   16         the result of atomicCompareExchangeWeak: elem i32 or u32, the type of `old_value`; `exchanged` is a bool
 *
 * Each function answers for any numbers and any bytes: what is wrong is refused. It allocates nothing, keeps nothing and calls nothing but memset and memcpy.
 *
 * What the host owes: each pointer with its length names memory that may be read, and written where the pointer is not to const. Memory that is written
 * lies apart from all other memory that is lent to the same call. A pointer is not NULL, even where its length is 0: any other pointer will do then.
 * A length in bytes is below 2 to the 63.
 *
 * Stack: swartabelk_spell and swartabelk_why_* need SWARTABELK_STACK_SPELL bytes of it, every other function SWARTABELK_STACK. Heap: none.
 */
#ifndef SWARTABELK_H
#define SWARTABELK_H

#include <stddef.h>
#include <stdint.h>

#ifdef __cplusplus
extern "C" {
#endif

#define SWARTABELK_VERSION 7

/* The words of an entry, the most entries that a table has, and the words of such a table. */
#define SWARTABELK_STRIDE 4
#define SWARTABELK_CEILING 256
#define SWARTABELK_WORDS (SWARTABELK_STRIDE * SWARTABELK_CEILING)

/* A spelling has at most so many bytes for each entry of the table, so that an output of SWARTABELK_SPELLING_MOST * used bytes is never too short (proved). A type
 * that is no array, pointer or reference has at most 37 bytes, and each array, pointer or reference over it adds at most 26. */
#define SWARTABELK_SPELLING_MOST 80

/* The bytes of stack that a call needs at most, whatever its input is, on x86-64. tools/stack reads them off the archive's instructions, hosts/c/stack.c measures
 * calls on a painted stack, and hosts/test holds each new archive to both (docs/BENCHMARK.md has the figures). These are rounded up, with room for memset and memcpy
 * of the C library, whose first call takes up to 4 KB where it is bound lazily. */
#define SWARTABELK_STACK 20480
#define SWARTABELK_STACK_SPELL 49152

/* The kinds of an entry. A scalar's kind is its number too, in every table: SWARTABELK_F32 is the type f32. */
enum swartabelk_kind {
    SWARTABELK_BOOL = 0,
    SWARTABELK_ABSTRACT_INT = 1,
    SWARTABELK_ABSTRACT_FLOAT = 2,
    SWARTABELK_I32 = 3,
    SWARTABELK_U32 = 4,
    SWARTABELK_F32 = 5,
    SWARTABELK_F16 = 6,
    SWARTABELK_KIND_VEC = 7,
    SWARTABELK_KIND_MAT = 8,
    SWARTABELK_KIND_ARRAY = 9,
    SWARTABELK_KIND_RUNTIME_ARRAY = 10, /* an array without count */
    SWARTABELK_KIND_ATOMIC = 11,
    SWARTABELK_KIND_PTR = 12,
    SWARTABELK_KIND_REF = 13,
    SWARTABELK_KIND_FREXP = 14,
    SWARTABELK_KIND_MODF = 15,
    SWARTABELK_KIND_EXCHANGE = 16
};

/* How many scalars there are: the least `used`. */
#define SWARTABELK_SCALARS 7

/* The spaces of a pointer or reference: its p. */
enum swartabelk_space {
    SWARTABELK_SPACE_FUNCTION = 0,
    SWARTABELK_SPACE_PRIVATE = 1,
    SWARTABELK_SPACE_WORKGROUP = 2,
    SWARTABELK_SPACE_UNIFORM = 3,
    SWARTABELK_SPACE_STORAGE = 4,
    SWARTABELK_SPACE_HANDLE = 5 /* of a reference alone */
};

/* The accesses of a pointer or reference: its q. */
enum swartabelk_access {
    SWARTABELK_ACCESS_READ = 0,
    SWARTABELK_ACCESS_WRITE = 1,
    SWARTABELK_ACCESS_READ_WRITE = 2
};

/* The operators of swartabelk_unary. */
enum swartabelk_unary_op {
    SWARTABELK_UNARY_NOT = 0,        /* ! */
    SWARTABELK_UNARY_NEGATE = 1,     /* - */
    SWARTABELK_UNARY_COMPLEMENT = 2, /* ~ */
    SWARTABELK_UNARY_ADDRESS_OF = 3, /* & */
    SWARTABELK_UNARY_INDIRECTION = 4 /* * */
};

/* The operators of swartabelk_binary. */
enum swartabelk_binary_op {
    SWARTABELK_BINARY_OR = 0,             /* || */
    SWARTABELK_BINARY_AND = 1,            /* && */
    SWARTABELK_BINARY_PLUS = 2,           /* + */
    SWARTABELK_BINARY_MINUS = 3,          /* - */
    SWARTABELK_BINARY_TIMES = 4,          /* * */
    SWARTABELK_BINARY_OVER = 5,           /* / */
    SWARTABELK_BINARY_REMAINDER = 6,      /* % */
    SWARTABELK_BINARY_EQUAL = 7,          /* == */
    SWARTABELK_BINARY_UNEQUAL = 8,        /* != */
    SWARTABELK_BINARY_LESS = 9,           /* < */
    SWARTABELK_BINARY_LESS_EQUAL = 10,    /* <= */
    SWARTABELK_BINARY_GREATER = 11,       /* > */
    SWARTABELK_BINARY_GREATER_EQUAL = 12, /* >= */
    SWARTABELK_BINARY_BIT_OR = 13,        /* | */
    SWARTABELK_BINARY_BIT_AND = 14,       /* & */
    SWARTABELK_BINARY_BIT_XOR = 15,       /* ^ */
    SWARTABELK_BINARY_SHIFT_LEFT = 16,    /* << */
    SWARTABELK_BINARY_SHIFT_RIGHT = 17    /* >> */
};

/* The tags of swartabelk_template: what a template's argument is. */
enum swartabelk_tag {
    SWARTABELK_TAG_TYPE = 0, /* a type, by its number */
    SWARTABELK_TAG_ABSTRACT_INT = 1,
    SWARTABELK_TAG_I32 = 2,
    SWARTABELK_TAG_U32 = 3,
    SWARTABELK_TAG_OTHER = 4 /* any other literal */
};

/* The items of a sheet: swartabelk_sheet says what their payloads are. */
enum swartabelk_item {
    SWARTABELK_ITEM_PUSH = 1,
    SWARTABELK_ITEM_UNARY = 2,
    SWARTABELK_ITEM_BINARY = 3,
    SWARTABELK_ITEM_CALL = 4,
    SWARTABELK_ITEM_CALL_TEMPLATE = 5,
    SWARTABELK_ITEM_TAKE = 6
};

/* The type of a reply that has no value or is a refusal. */
#define SWARTABELK_NO_VALUE 0xFFFFFFFFu

/* An operand is a type number, with SWARTABELK_RUNNING where it is known only when running; without the bit it is a const-expression. `type | mark` of a reply is an
 * operand; where the reply has no value or is a refusal, it is one that is refused with 2.
 *
 * A number that is no operand has no mark: there the bit is part of the number, so that in `tplt` and in a spelling it is refused with 2, in an entry's elem with 5.
 *
 * Where overloads are chosen, one with an abstract parameter is left out if another operand is running. So select(1, 2, flag) is i32 where flag is running, and
 * AbstractInt where it is const. A result is const where all operands are; but derivatives, arrayLength, subgroup and quad calls and calls on memory give a running
 * one even so. */
#define SWARTABELK_RUNNING 0x80000000u

/* The profile of a call or of a sheet says which builtins there are: 0 has those without subgroups and quads, 1 has the subgroup and quad builtins too. A name
 * that is in both has the same replies in both. Any other number is an unknown profile: its calls are refused with 4, after 1 and 2, and its sheets with 4 at
 * place 0, after 1 and a wrong header. Operators, template types and spellings have no profile. */
#define SWARTABELK_PROFILE_BASE 0u
#define SWARTABELK_PROFILE_SUBGROUPS 1u

/* Why a call is refused.
 *
 * Where several hold, the first of 1, 2, 4, 5, 6, 7, 3, 14, 8, 9 is given; 2 is asked of the template list before the operands. Of a sheet 1 comes first, then a
 * wrong header, then an unknown profile, then the first item that is refused: 10, then 11 for a short stack, then the order of a call. */
enum swartabelk_refusal {
    SWARTABELK_ACCEPTED = 0,
    SWARTABELK_REFUSED_UNSOUND = 1,          /* the table is not sound, or the slice is shorter than 4 times `used` */
    SWARTABELK_REFUSED_NO_SUCH_TYPE = 2,     /* a type number not below `used` */
    SWARTABELK_REFUSED_REFERENCE = 3,        /* a reference offered, but to unary & */
    SWARTABELK_REFUSED_UNKNOWN = 4,          /* an unknown operator, builtin or head; a name outside the profile, or an unknown profile */
    SWARTABELK_REFUSED_TEMPLATE = 5,         /* a template list or an entry that is wrong, missing or not wanted */
    SWARTABELK_REFUSED_COUNT = 6,            /* an array's count */
    SWARTABELK_REFUSED_OPERANDS = 7,         /* a wrong number of operands */
    SWARTABELK_REFUSED_NO_OVERLOAD = 8,      /* no overload fits */
    SWARTABELK_REFUSED_NO_ROOM = 9,          /* the result is absent, and the slice or 256 leaves too little room: the reply's `lacking` tells how much */
    SWARTABELK_REFUSED_FRAMING = 10,         /* a sheet's header, framing, kind or payload length */
    SWARTABELK_REFUSED_STACK = 11,           /* the stack of a sheet is short, a 65th value, or a wrong end */
    SWARTABELK_REFUSED_TOO_LONG = 12,        /* the spelling, or the text that tells why, is longer than the output */
    SWARTABELK_REFUSED_RUNNING_ABSTRACT = 14 /* an operand that is known only when running and is abstract at any depth */
};

/* A refusal in words, without an end of line; "accepted" for 0. */
static inline const char *swartabelk_refusal_text(uint32_t refusal) {
    switch (refusal) {
    case SWARTABELK_ACCEPTED: return "accepted";
    case SWARTABELK_REFUSED_UNSOUND: return "the table is not sound, or its slice is too short";
    case SWARTABELK_REFUSED_NO_SUCH_TYPE: return "no type of the table has this number";
    case SWARTABELK_REFUSED_REFERENCE: return "an operand is a reference, which only unary & takes";
    case SWARTABELK_REFUSED_UNKNOWN: return "there is no such operator, head or profile, or no such builtin in this profile";
    case SWARTABELK_REFUSED_TEMPLATE: return "a template list or an entry is wrong, missing or not wanted";
    case SWARTABELK_REFUSED_COUNT: return "the array's count is wrong";
    case SWARTABELK_REFUSED_OPERANDS: return "the builtin takes another number of operands";
    case SWARTABELK_REFUSED_NO_OVERLOAD: return "no overload takes operands of these types";
    case SWARTABELK_REFUSED_NO_ROOM: return "the result is a new type, and the table has no room for it";
    case SWARTABELK_REFUSED_FRAMING: return "the sheet's header or an item is badly framed";
    case SWARTABELK_REFUSED_STACK: return "too few values on the stack, a 65th value, or not one value at the end";
    case SWARTABELK_REFUSED_TOO_LONG: return "the text is longer than the output";
    case SWARTABELK_REFUSED_RUNNING_ABSTRACT: return "an operand is known only when running, and its type is abstract or holds one that is";
    default: return "this is no refusal";
    }
}

/* The reply of a call. refusal: 0 where it is accepted, else why not. type: the type's number, or SWARTABELK_NO_VALUE where there is no value or the call is
 * refused. mark: SWARTABELK_RUNNING where the value is known only when running; 0 where it is const, where there is no value, and where the call is refused.
 * place: of a refused sheet the item's length byte, 0 for 1, a wrong header and an unknown profile, the length of the sheet for a wrong end; else 0.
 * used: the count of entries afterwards; with refusal 1 the one that was given. lacking: with refusal 9 how many entries lack, which are the missing ones that
 * the result needs, less those that are free in the slice and below 256; else 0.
 *
 * In a slice that is longer by `lacking` entries the same call is not refused with 9, and in one that is longer by less it still is. Of a sheet it is the item at
 * `place` that is not; a later one may want more. But 256 entries are the most: where the longer slice has more, no slice has room for the result. */
typedef struct {
    uint32_t refusal, type, mark, place, used, lacking;
} swartabelk_reply;

/* The reply of a spelling, and of a text that tells why. length: the bytes that it has, 0 where it is refused. place: 0. used: the one that was given. */
typedef struct {
    uint32_t refusal, length, place, used;
} swartabelk_spelled;

/* A part of a sheet: its first byte and how many bytes it has. */
typedef struct {
    size_t start, length;
} swartabelk_part;

/* Writes the seven scalars, with which a table begins, to the front of `words`, and gives their count, the table's `used`. Where there is no room for them it writes
 * nothing and gives 0, with which every call is refused with 1. */
static inline uint32_t swartabelk_scalars(uint32_t *words, size_t words_len) {
    uint32_t i;
    if (words_len < SWARTABELK_STRIDE * SWARTABELK_SCALARS) return 0;
    for (i = 0; i < SWARTABELK_STRIDE * SWARTABELK_SCALARS; i++) words[i] = i % SWARTABELK_STRIDE == 0 ? i / SWARTABELK_STRIDE : 0;
    return SWARTABELK_SCALARS;
}

/* A name or a head as two arguments, its bytes and their count: swartabelk_call(.., SWARTABELK_TEXT("sqrt"), ..). Of a literal, not of a pointer. */
#define SWARTABELK_TEXT(literal) ((const uint8_t *)("" literal)), (sizeof(literal) - 1)

/* Whether the words hold a sound table of `used` entries: no value, or refusal 1. */
swartabelk_reply swartabelk_check(const uint32_t *words, size_t words_len, uint32_t used);

/* The type that an entry stands for: the number of the entry that is equal to it, or else a new one. Refusals: 1; 5 where it breaks the rule of its kind, or its elem is
 * not below `used`; 9. A scalar's kind with p, q and elem 0 is that scalar. The mark is 0. */
swartabelk_reply swartabelk_enter(uint32_t *words, size_t words_len, uint32_t used, uint32_t kind, uint32_t p, uint32_t q, uint32_t elem);

/* The type of a unary operator, of enum swartabelk_unary_op, on the operand a. */
swartabelk_reply swartabelk_unary(uint32_t *words, size_t words_len, uint32_t used, uint32_t op, uint32_t a);

/* The type of a binary operator, of enum swartabelk_binary_op, on the operands a and b. */
swartabelk_reply swartabelk_binary(uint32_t *words, size_t words_len, uint32_t used, uint32_t op, uint32_t a, uint32_t b);

/* The type of a call of the builtin that has that name in the profile, on the operands `args`. `tplt` is its template list: one type number for bitcast, none
 * for every other.
 *
 * Calls on memory are in both profiles, and a value of theirs is running. Those on atomics take first a read_write pointer in space storage or workgroup to an atomic,
 * then values that convert to its component:
 *
 *    atomicLoad                                          the pointer alone; gives the component
 *    atomicAdd Sub Max Min And Or Xor, atomicExchange    one value; give the component
 *    atomicStore                                         one value; has no value, as a barrier has none
 *    atomicCompareExchangeWeak                           two values; gives the type of kind 16 over the component
 *
 * workgroupUniformLoad takes a read_write pointer in space workgroup. To an atomic it gives the component; to any other type it gives that type, which is no array
 * without count and holds no atomic at any depth.
 *
 * An operand that breaks these rules is refused with 8. */
swartabelk_reply swartabelk_call(uint32_t *words, size_t words_len, uint32_t used, uint32_t profile, const uint8_t *name, size_t name_len,
                                 const uint32_t *tplt, size_t tplt_len, const uint32_t *args, size_t args_len);

/* The type of a head with template arguments, entered if absent. head: vec2 to vec4, mat2x2 to mat4x4, atomic, array. args: pairs (tag, value), the tag of
 * enum swartabelk_tag: a type number, a literal of AbstractInt, of i32, of u32; any other tag is another literal. A type number that is negative or too large is
 * refusal 2, a literal outside its tag's type is another literal; an odd length is a wrong list: 5, after 2 and 4. The mark is 0. */
swartabelk_reply swartabelk_template(uint32_t *words, size_t words_len, uint32_t used, const uint8_t *head, size_t head_len,
                                     const int64_t *args, size_t args_len);

/* The type of a whole sheet, whose calls are those of the profile. A sheet is a program for a stack of at most 64 values, each a type and a mark:
 *
 *    byte 0           its version, 1 or 2
 *    bytes 1 and 2    the length of all that follows, high byte first, 60,000 at most
 *    from byte 3      the items: a byte for the length of what follows it, a byte for the kind, of enum swartabelk_item, and the payload
 *
 *    push             a type number; it is pushed. In version 2 a mark follows
 *    unary, binary    the operator's number; it takes one operand or two off the stack and pushes its result
 *    call             how many operands it takes off the stack, then the name, 1 to 32 bytes; its result is pushed
 *    call template    a type number, how many operands, then the name
 *    take             an entry, its kind, p in four bytes, high byte first, q and elem; it is entered if absent, and pushed. In version 2 a mark follows
 *
 * A number has one byte but p. The operand that stands deepest is the first. At the end one value stands on the stack, which is the reply's, or the last item was a
 * call without value, and no value stands below it; else it is 11.
 *
 * In version 1 every value is const, and no result keeps a mark: the reply's is 0. In version 2 a mark is a byte, 0 for const and 1 for running, and results keep the
 * marks that calls give them; any other mark byte is 10. A running value that is abstract may be pushed, taken, and left at the end: 14 is about operands.
 *
 * So the bytes 1, 0, 9, 2, 1, 1, 2, 1, 5, 2, 3, 2 are a sheet that pushes AbstractInt and f32 and adds them; it is typed f32. */
swartabelk_reply swartabelk_sheet(uint32_t *words, size_t words_len, uint32_t used, uint32_t profile, const uint8_t *sheet, size_t sheet_len);

/* Writes the spelling of a type to the front of `out`, without a 0 at its end. Later bytes stay unchanged, and all of them where it is refused. */
swartabelk_spelled swartabelk_spell(const uint32_t *words, size_t words_len, uint32_t used, uint32_t type, uint8_t *out, size_t out_len);

/* Why a call is accepted, or refused with 8: writes a text to the front of `out`, lines of ASCII each ended by a newline. The table is only read; a and b are operands.
 *
 * Refused with 8, where the overloads are listed: a line for each overload, in the order of the listing, with the first operand that does not convert, counted from 1:
 *
 *    (vec2<f32>, f32): operand 1 is bool
 *
 * Refused with 8 by unary & and *, arrayLength, workgroupUniformLoad or a call on atomics: one line of the first operand that breaks the rule:
 *
 *    operand 1 is f32, wanted is a pointer
 *
 * Accepted, where the overloads are listed: the chosen one with the rank of each conversion, then each fitting one that was left out for a running operand:
 *
 *    (i32, i32, bool): chosen, ranks 3 3 0
 *    (AbstractInt, AbstractInt, bool): dropped, operand 1 is abstract and operand 3 is running
 *
 * Any other accepted call has no line: length 0. In each of these cases the refusal is 0. A call that is refused with any other number, 9 too, hands that number on, and
 * nothing is written. Then 12: where the text is longer than `out`, nothing is written either.
 *
 * A text has at most 249 lines of at most 32,768 bytes. */
swartabelk_spelled swartabelk_why_unary(const uint32_t *words, size_t words_len, uint32_t used, uint32_t op, uint32_t a, uint8_t *out, size_t out_len);
swartabelk_spelled swartabelk_why_binary(const uint32_t *words, size_t words_len, uint32_t used, uint32_t op, uint32_t a, uint32_t b, uint8_t *out, size_t out_len);
swartabelk_spelled swartabelk_why_call(const uint32_t *words, size_t words_len, uint32_t used, uint32_t profile, const uint8_t *name, size_t name_len,
                                       const uint32_t *tplt, size_t tplt_len, const uint32_t *args, size_t args_len, uint8_t *out, size_t out_len);

/* The name of the call whose item begins at a place of the sheet; the part { 0, 0 } where no well-framed call begins there. */
swartabelk_part swartabelk_call_name(const uint8_t *sheet, size_t sheet_len, size_t place);

#ifdef __cplusplus
}
#endif

#endif
