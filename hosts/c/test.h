/* What the tests of the C host share: a table, calls over it, and the count of replies that are as they should be. test.c has them and the tests of document 01,
   profiles.c those of document 02's profiles, room.c those of how much room is missing, marks.c those of operands that are known only when running, memory.c those
   of calls on memory, words.c those of what the header itself has. */
#ifndef TEST_H
#define TEST_H

#include "swartabelk.h"

#define NONE SWARTABELK_NO_VALUE

/* The operand of a type that is known only when running. */
#define RUNNING(type) ((type) | SWARTABELK_RUNNING)

enum { BOOL, ABSTRACT_INT, ABSTRACT_FLOAT, I32, U32, F32, F16, SCALARS };
enum { VEC = 7, MAT, ARRAY, RUNTIME, ATOMIC, PTR, REF, FREXP, MODF, EXCHANGE };
enum { FUNCTION, PRIVATE, WORKGROUP, UNIFORM, STORAGE, HANDLE };
enum { READ, WRITE, READ_WRITE };
enum { NOT, NEGATE, COMPLEMENT, ADDRESS_OF, INDIRECTION };
enum { OR, AND, PLUS, MINUS, TIMES, OVER, REMAINDER, EQUAL, UNEQUAL, LESS, LESS_EQUAL, GREATER, GREATER_EQUAL, BIT_OR, BIT_AND, BIT_XOR, LEFT, RIGHT };

/* Words enough for a table of 256 entries, and for more that it may not have. */
#define WORDS 1056

/* A table, its count, and how many words of it are lent; and the profile of calls and sheets. */
extern uint32_t words[WORDS];
extern size_t room;
extern uint32_t used, profile;

/* A list of no types. */
extern const uint32_t no_types[1];

/* A table of the seven scalars, with room for 256 entries, and profile 0. */
void start(void);

/* One entry more; its number. */
uint32_t entry(uint32_t kind, uint32_t p, uint32_t q, uint32_t elem);

/* Keeps the words as they are; whether they are the same now. */
void keep(void);
int unchanged(void);

/* Calls over the table, in the profile. */
swartabelk_reply unary(uint32_t op, uint32_t a);
swartabelk_reply binary(uint32_t op, uint32_t a, uint32_t b);
swartabelk_reply call(const char *name, size_t tplt_len, const uint32_t *tplt, size_t args_len, const uint32_t *args);
swartabelk_reply call1(const char *name, uint32_t a);
swartabelk_reply template(const char *head, size_t args_len, const int64_t *args);
swartabelk_reply sheet(size_t len, const uint8_t *bytes);

/* A sheet by its bytes. */
#define SHEET(...) sheet(sizeof((uint8_t[]){__VA_ARGS__}), (uint8_t[]){__VA_ARGS__})

/* Whether a reply is this, not marked and with nothing lacking; whether it is accepted, with a running value of this type; whether it is 9 with so many entries
   lacking; whether an entry is this. */
int is(swartabelk_reply r, uint32_t refusal, uint32_t type, uint32_t place, uint32_t count);
int runs(swartabelk_reply r, uint32_t type, uint32_t count);
int lacks(swartabelk_reply r, uint32_t lacking, uint32_t place, uint32_t count);
int is_entry(uint32_t i, uint32_t kind, uint32_t p, uint32_t q, uint32_t elem);

/* Counts a reply, and names the line of one that is not right, and what it is about where one line tests several. */
extern const char *about;
void holds(const char *file, int line, int right);

#define HOLDS(right) holds(__FILE__, __LINE__, (right))

void profiles(void);
void rooms(void);
void marks(void);
void memory(void);
void reasons(void);
void header_words(void);

#endif
