/* The sizes of the archive's structs, measured. On x86-64 a struct of more than 16 bytes is answered through a hidden pointer, which
 * goes before the arguments. Here that pointer is given by hand, to memory that is filled with one byte and then with another: what
 * the archive wrote is what is alike both times, and it must be the header's struct to the byte. A struct that goes in by value lies
 * on the stack before the arguments for which there is no register: a state of another size would put these in other places. */
#include "loafheron.h"

#include <inttypes.h>
#include <stdio.h>
#include <string.h>

enum { STAGING = 65536, ROOM = 4096, ENTRIES = 3 };

static const char manifest[] = "modules\t1\n";
static uint8_t staging[STAGING], card[8], args[128], memory[64], into[2][ROOM];
static uint32_t table[ENTRIES + 1];

#define LENT staging, STAGING, card, sizeof card, (const uint8_t *)manifest, sizeof manifest - 1
#define TYPES uint8_t *, size_t, uint8_t *, size_t, const uint8_t *, size_t
#define INDEX table, ENTRIES
#define INDEX_TYPES uint32_t *, size_t

/* The same functions, their hidden pointer in sight. (They are called by a variable, so that the compiler does not object.) */
typedef void mount_into(void *, TYPES, INDEX_TYPES, uint64_t);
typedef void begin_into(void *, loafheron_state, TYPES, const uint8_t *, size_t);
typedef void write_into(void *, loafheron_state, const uint8_t *, size_t, TYPES, uint64_t);
typedef void next_into(void *, loafheron_state, uint8_t *, size_t, TYPES, INDEX_TYPES, uint64_t);
typedef void return_into(void *, loafheron_state, TYPES, INDEX_TYPES, int64_t);
typedef void look_up_into(void *, loafheron_state, TYPES, INDEX_TYPES, uint64_t);

static const uint8_t fills[2] = {0xA5, 0x5A};
static int wrong;

static void is(const char *what, uint64_t found, uint64_t wanted) {
    printf("%s: %" PRIu64 "\n", what, found);
    if (found != wanted) {
        printf("  NOT %" PRIu64 ", as the header says\n", wanted);
        wrong = 1;
    }
}

/* How far the memory was written; all before that is alike both times, or it is no answer. */
static uint64_t written(void) {
    size_t n = ROOM;
    while (n > 0 && into[0][n - 1] == fills[0] && into[1][n - 1] == fills[1]) {
        n--;
    }
    return memcmp(into[0], into[1], n) == 0 ? n : 0;
}

#define MEASURE(type, function, ...)                                  \
    do {                                                              \
        type *volatile measured = (type *)(uintptr_t)(function);      \
        for (int i = 0; i < 2; i++) {                                 \
            memset(into[i], fills[i], ROOM);                          \
            measured(into[i], __VA_ARGS__);                           \
        }                                                             \
    } while (0)

/* Next finds the index and its own address behind the state: a table as at mount, where the handle 0 is not open, and one entry more. */
static void next_alone(loafheron_state begun) {
    MEASURE(next_into, loafheron_next, begun, memory, sizeof memory, LENT, INDEX, 8);
    is("loafheron_answer, of a next", written(), sizeof(loafheron_answer));
    loafheron_answer a = loafheron_next(begun, memory, sizeof memory, LENT, INDEX, 8);
    is("the code of a next without a handle, without its sign", (uint64_t)-a.code, -LOAFHERON_NOT_NOW);
    a = loafheron_next(begun, memory, sizeof memory, LENT, table, ENTRIES + 1, 8);
    is("the code of one with another table, without its sign", (uint64_t)-a.code, -LOAFHERON_BAD);
    is("its field", a.field, LOAFHERON_FIELD_BEFORE);
}

int main(void) {
    is("what the archive says of a state", loafheron_state_size(), LOAFHERON_STATE_SIZE);
    MEASURE(mount_into, loafheron_mount, LENT, INDEX, 0);
    is("loafheron_mounted", written(), sizeof(loafheron_mounted));
    is("so a state", written() - offsetof(loafheron_mounted, state), LOAFHERON_STATE_SIZE);
    if (wrong) {
        return 1; /* no struct of the header holds such an answer */
    }
    loafheron_mounted m = loafheron_mount(LENT, INDEX, 0);
    is("the index's length in the state", m.state.index_len, ENTRIES);
    MEASURE(begin_into, loafheron_begin, m.state, LENT, args, sizeof args);
    is("loafheron_answer", written(), sizeof(loafheron_answer));
    loafheron_answer begun = loafheron_begin(m.state, LENT, args, sizeof args);
    is("the code of begin, which finds its arguments behind the state", (uint64_t)begun.code, 0);
    /* a record at 9, which is no multiple of 8: the field is 255, and no other number of the answer is */
    MEASURE(write_into, loafheron_write, begun.state, memory, sizeof memory, LENT, 9);
    is("loafheron_answer, of a module call", written(), sizeof(loafheron_answer));
    loafheron_answer refused = loafheron_write(begun.state, memory, sizeof memory, LENT, 9);
    is("the code of a refused write, without its sign", (uint64_t)-refused.code, -LOAFHERON_BAD);
    is("its value", refused.value, 0);
    is("its field", refused.field, LOAFHERON_FIELD_RECORD);
    is("1 where its state is the one that went in", memcmp(&refused.state, &begun.state, sizeof begun.state) == 0, 1);
    next_alone(begun.state);
    MEASURE(return_into, loafheron_return, begun.state, LENT, INDEX, -3);
    is("loafheron_returned", written(), sizeof(loafheron_returned));
    MEASURE(look_up_into, loafheron_look_up, begun.state, LENT, INDEX, 1);
    is("loafheron_place", written(), sizeof(loafheron_place));
    return wrong;
}
