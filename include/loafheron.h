/* Loafheron: the proved host of a looper box, for C.
 *
 * Link target/staticlib/libloafheron.a, which `tests/archive` makes, for x86-64 Linux and no other machine. Of every
 * function's source it is proved that it answers just what its definition says, for every state and every byte that it is lent.
 * That the definitions say what the requirements (document 01, as 02 changes it) say is read, and what the compiler makes of the
 * source is tested: docs/TRUST.md.
 *
 * A STATE goes in by value and comes out by value, beside the answer. Begin with loafheron_mount, keep the state that
 * each call hands back, and give it to the next call. The host keeps nothing itself and calls nothing.
 *
 * BUFFERS are lent for the length of one call, as a pointer and a length:
 *   memory    of the module whose turn it is: 0 to 1,048,576 bytes; only the five module calls are lent it
 *   staging   65,536 to 1,048,576 bytes: where events wait for the end of the weave
 *   card      0 to 16,777,216 bytes: its first `used` bytes are the records
 *   manifest  at most 65,536 bytes: how many modules there are, what a write costs, and what each module may write, read and list
 *   index     a table of 32-bit numbers, of any length: entry i is the card's offset of the record with the number 1 + i. Only mount
 *             and return, which write it, and next and look-up, which read it, are lent it
 * Staging, card, manifest and index have the same lengths at every call that is lent them as at mount; other lengths are refused
 * with -5. A buffer that is lent as `const` is not changed. Two buffers of one call must not overlap, and no pointer may be null, not
 * even with a length of 0: these two rules are C's, and the host cannot look at them. Where they are kept, and the stack suffices,
 * every call is answered.
 *
 * THE INDEX lets next and look-up find a record without a walk over the card. Mount fills it, whatever it held before, so it need not
 * be kept from one mount to the next; a commit enters the new records. `index_len` counts entries and not bytes, and no alignment
 * is asked beyond uint32_t's own. It takes one entry for each record: card_len / 136 entries are always enough, as no record is
 * shorter than 136 bytes. Fewer will do while the card has no more records; a weave for which they do not suffice is discarded with
 * -4, as with a full card. From mount on nobody else may change it: where an entry does not lead to a sound record with its number,
 * next says -3 and look-up nowhere.
 *
 * ADDRESSES in a module's memory (`at`, and all inside argument records) are plain numbers that the host tests itself: a
 * wrong one is answered with -5.
 *
 * A TOPIC has 1 to 2,048 bytes, a filter 0 to 64, in UTF-8 with no control byte (0 to 31, and 127): else -5, in a call, at
 * ingress and in the manifest. A record from before may have byte 127 in its topic: the card mounts, look-up shows it, and no
 * list and no read has it.
 *
 * CHARGES. Module calls spend the units of a weave; begin gives it res_max of them. A write costs 1 + total_len / 8, total_len being
 * the bytes of its record: 128, the topic and the payload, each of these two rounded up to 8. Read and next cost 1 and an eighth
 * of the bytes written, open and close 1, a panic and ingress nothing. A call that would cost more than is left is -6, costs
 * nothing, and spoils the weave. The manifest's second line may be `charge`, a tab, and 1 or 2: under 2 a write costs
 * 4 + total_len / 64, rounded up; 1 is as without the line. Of another form, or in another place, the line makes the manifest bad,
 * -5. The rule is that of the manifest as it is lent to the call.
 *
 * A REFUSAL leaves every lent byte and the state as before, with one exception: the first -6 marks the weave spoiled.
 *
 * WHICH FIELD. A module call that is refused with -5 also says for what: `field` is the byte offset, in its argument record, of the
 * first field that failed, in the order of the checks. A topic counts as offset 0, a span as its pointer, a fault inside a value as
 * the write's data. Two numbers are no offsets: 255 is the address of the record itself, 254 all that is looked at before it and is
 * in no argument (the memory's size, a lent length, the manifest, the state). 0 is the topic when a module call's code is -5, and
 * nothing otherwise: look at the code first.
 *
 * TWO BANDS may share a box. On a sound card with its index, both as mount left them and as only these functions have changed them
 * since, what a module call answers, and what it leaves of memory, staging and state, does not depend on what is in an event that the
 * module is not granted `in`; nor does the outcome of its return. Only how many events there are, their numbers, and how many bytes
 * all of them have can show (docs/PROMISES.md, 4). Two things are not in this promise, and are the caller's to keep from a module:
 * loafheron_look_up shows any event, and how long a call takes may tell of what it passed over.
 *
 * WHAT THE PROMISES BUILD ON. What a function answers, and what it leaves in each lent byte, is proved for every state and
 * every byte, whoever made them. Promises 2 and 3 (docs/PROMISES.md: what an outcome means, and that what was committed can be
 * had again, whole and in order) speak of a box over its whole life, and of one in which nobody but these functions changes the
 * card, the index, the staging, the manifest or the state, and in which each state is used once, the last one: the one that the call
 * before handed back. C keeps nobody from an older state, another card or another table. Then each answer is still the right one for
 * what it was given, but it is another box's.
 */
#ifndef LOAFHERON_H
#define LOAFHERON_H

#include <stddef.h>
#include <stdint.h>

#ifdef __cplusplus
#define LOAFHERON_ASSERT static_assert
extern "C" {
#else
#define LOAFHERON_ASSERT _Static_assert
#endif

/* A compiler warns whoever drops an answer: that a take was discarded is said there and nowhere else. C++17, C23, gcc, clang. */
#if defined(__cplusplus) && __cplusplus >= 201703L
#define LOAFHERON_KEEP [[nodiscard]]
#elif !defined(__cplusplus) && defined(__STDC_VERSION__) && __STDC_VERSION__ > 201710L
#define LOAFHERON_KEEP [[nodiscard]]
#elif defined(__GNUC__)
#define LOAFHERON_KEEP __attribute__((warn_unused_result))
#else
#define LOAFHERON_KEEP
#endif

/* The codes of document 01; 0 is given where nothing is wrong. */
enum {
    LOAFHERON_DENIED = -1,    /* topic not granted; begin on a faulted process; a module call after a panic */
    LOAFHERON_NOT_NOW = -2,   /* no weave running (begin: one is running); ingress too late; handle not open */
    LOAFHERON_UNSOUND = -3,   /* a record on the card, or the staged part, not sound */
    LOAFHERON_NO_ROOM = -4,   /* staging, card, index, cursor table, event numbers, or out buffer shorter than the next record */
    LOAFHERON_BAD = -5,       /* bad argument, lent length, state or manifest */
    LOAFHERON_BUDGET = -6,    /* this and all later module calls of the weave */
    LOAFHERON_BAD_VALUE = -7  /* value type or content */
};

/* What `field` is when a module call is refused with -5. The same number is another field in another call. */
enum {
    /* of every module call */
    LOAFHERON_FIELD_BEFORE = 254,  /* no field: memory too large, other lengths than at mount, bad manifest, bad state */
    LOAFHERON_FIELD_RECORD = 255,  /* no field: the record's own address, no multiple of 8, or its bytes not inside memory */
    /* of loafheron_write */
    LOAFHERON_WRITE_TOPIC = 0,     /* its span, its length or its bytes */
    LOAFHERON_WRITE_DATA = 16,     /* (data, len) not inside memory, so a len that is too large is here too; a value's address no
                                    * multiple of 8; its string's or byte array's span */
    LOAFHERON_WRITE_LEN = 24,      /* of a value: the span is inside memory, but len is not 32 */
    LOAFHERON_WRITE_FLAGS = 32,    /* none of 1, 2, 9 and 10; looked at before data and len */
    /* of loafheron_read */
    LOAFHERON_READ_TOPIC = 0,
    LOAFHERON_READ_OUT_PTR = 24,   /* no multiple of 8, or the span (out_ptr, out_cap) not inside memory */
    /* of loafheron_open */
    LOAFHERON_OPEN_TOPIC = 0,      /* the filter */
    LOAFHERON_OPEN_DESC = 40,      /* above 1 */
    /* of loafheron_next */
    LOAFHERON_NEXT_OUT_PTR = 8     /* no multiple of 8, or the span (out_ptr, buf_cap) not inside memory */
};

/* Room for one open cursor, and what it still has to list. */
typedef struct {
    uint64_t handle; /* 0: free */
    uint64_t from;   /* from <= id < to */
    uint64_t to;
    uint64_t limit;
    uint64_t desc;   /* 0 upward, 1 downward */
    uint64_t size;   /* of the filter, up to 64 */
    uint8_t filter[64];
} loafheron_room;

/* What the box knows between two calls. No call needs a field to be looked at. A flag (`faulted`, `running`, `late`, and `desc`
 * of a room) comes back as 0 or 1, the mark `spoiled` as 0, -6 or -1. Going in, a flag that is not 0 says yes, and a mark that
 * is none of the three says -1: after a panic nothing more is accepted. */
typedef struct {
    uint64_t staging_len; /* the lengths at mount */
    uint64_t card_len;
    uint64_t manifest_len;
    uint64_t index_len;   /* in entries */
    uint64_t used;        /* how much of the card is records: what the next mount is told */
    uint64_t next;        /* the id after the card's last */
    uint64_t faulted;     /* a module has panicked: only a new mount ends it */
    uint64_t running;     /* a weave is running; all below belongs to it, and is 0 outside one */
    int64_t spoiled;      /* 0, or why every further module call is refused: -6 or -1 */
    uint64_t turn;        /* the module whose turn it is, from 1 */
    uint64_t late;        /* too late for ingress */
    uint64_t staged;      /* bytes in staging */
    uint64_t count;       /* events in staging */
    uint64_t units;       /* spent */
    uint64_t res_max;     /* and the most that may be */
    uint64_t time;        /* virtual */
    uint64_t opened;      /* cursors, in this weave */
    uint8_t trace[32];
    loafheron_room rooms[4];
} loafheron_state;

/* What mount answers: code 0, or -5, or -3 with the offset of the first record not sound. With 0 and -5 `at` is 0. */
typedef struct {
    int64_t code;
    uint64_t at;
    loafheron_state state; /* fresh, or all 0 where the mount is refused */
} loafheron_mounted;

/* What a call answers: code 0 and a value, or a code below 0 and the value 0. */
typedef struct {
    int64_t code;
    uint64_t value;
    uint64_t field; /* with a module call's -5: which field it is for (LOAFHERON_WRITE_DATA ..), and 0 is the topic; else 0 */
    loafheron_state state;
} loafheron_answer;

enum { LOAFHERON_REFUSED = 0, LOAFHERON_DISCARDED = 1, LOAFHERON_RUNNING = 2, LOAFHERON_COMMITTED = 3 };

/* What a return leads to. */
typedef struct {
    uint64_t kind;
    int64_t code;    /* why it was refused or discarded, else 0 */
    uint64_t events; /* committed: how many, and their bytes, else 0 */
    uint64_t bytes;
} loafheron_outcome;

typedef struct {
    loafheron_outcome outcome;
    loafheron_state state;
} loafheron_returned;

enum { LOAFHERON_NOWHERE = 0, LOAFHERON_ON_CARD = 1, LOAFHERON_IN_STAGING = 2 };

/* Where a record lies: which buffer, from which byte, how many bytes. Nowhere: all 0. */
typedef struct {
    uint64_t buffer;
    uint64_t at;
    uint64_t len;
} loafheron_place;

/* No struct has padding, so these sizes follow from the fields above. */
#define LOAFHERON_STATE_SIZE 616
LOAFHERON_ASSERT(sizeof(size_t) == 8, "Loafheron is for 64-bit machines");
LOAFHERON_ASSERT(sizeof(loafheron_room) == 112, "loafheron_room");
LOAFHERON_ASSERT(sizeof(loafheron_state) == LOAFHERON_STATE_SIZE, "loafheron_state");
LOAFHERON_ASSERT(offsetof(loafheron_state, index_len) == 24, "loafheron_state.index_len");
LOAFHERON_ASSERT(offsetof(loafheron_state, trace) == 136, "loafheron_state.trace");
LOAFHERON_ASSERT(offsetof(loafheron_state, rooms) == 168, "loafheron_state.rooms");
LOAFHERON_ASSERT(sizeof(loafheron_mounted) == 632, "loafheron_mounted");
LOAFHERON_ASSERT(sizeof(loafheron_answer) == 640, "loafheron_answer");
LOAFHERON_ASSERT(offsetof(loafheron_answer, field) == 16, "loafheron_answer.field");
LOAFHERON_ASSERT(offsetof(loafheron_answer, state) == 24, "loafheron_answer.state");
LOAFHERON_ASSERT(sizeof(loafheron_outcome) == 32, "loafheron_outcome");
LOAFHERON_ASSERT(sizeof(loafheron_returned) == 648, "loafheron_returned");
LOAFHERON_ASSERT(sizeof(loafheron_place) == 24, "loafheron_place");

/* The number that stands for the bytes of a state in the archive's source: LOAFHERON_STATE_SIZE, or header and archive do not
 * belong together. It is written there by hand, as Rattle cannot count the bytes of a struct. That the archive's structs have
 * the sizes above is measured, by tests/sizes: what each function writes as its answer, and whether it finds what lies behind a
 * state. */
uint64_t loafheron_state_size(void);

/* Mount. Lent: staging, card, manifest, index; `used` bytes of the card are records. Accepted, it sets the entries of these records
 * in the index; the other entries stay. Refused, it changes nothing.
 * -5: sizes, used length or manifest. -3: a record is not sound, and `at` is its offset. -5 again, which is looked at last: the index
 * has fewer entries than the card has records. */
LOAFHERON_KEEP
loafheron_mounted loafheron_mount(const uint8_t *staging, size_t staging_len, const uint8_t *card, size_t card_len,
                                  const uint8_t *manifest, size_t manifest_len, uint32_t *index, size_t index_len,
                                  uint64_t used);

/* Begin a weave. `args`: the 128 bytes of FilamentWeaveArgs; used are res_max at 24, virt_time at 48, trace at 56.
 * Answers 0: staging is all 0, module 1 has its turn. -5, -2 (a weave is running), -1 (faulted): nothing changes. Begin is no
 * module call: it names no field, not even with -5. */
LOAFHERON_KEEP
loafheron_answer loafheron_begin(loafheron_state state, uint8_t *staging, size_t staging_len, const uint8_t *card,
                                 size_t card_len, const uint8_t *manifest, size_t manifest_len, const uint8_t *args,
                                 size_t args_len);

/* Ingress: the box itself stages an event, before the first accepted module call or return of the weave.
 * Answers 0. No grant, no charge. -5, -2 (no weave, or too late), -4. No module call either: no field. */
LOAFHERON_KEEP
loafheron_answer loafheron_ingress(loafheron_state state, uint8_t *staging, size_t staging_len, const uint8_t *card,
                                   size_t card_len, const uint8_t *manifest, size_t manifest_len, const uint8_t *topic,
                                   size_t topic_len, const uint8_t *payload, size_t payload_len);

/* The module calls. `at` is the address of the argument record in the module's memory. The module's answer is the code
 * where it is below 0, else the value. Each may be refused with -5 (a bad argument, length, state or manifest), -2 (no weave is
 * running), -6 (the budget: this and all later ones of the weave) and -1 (after a panic). With -5 each may give
 * LOAFHERON_FIELD_BEFORE, which is looked at first, or LOAFHERON_FIELD_RECORD. What stands at each is what it has besides, its
 * fields in the order in which they are looked at. */

/* filament_write, 40 bytes: answers 0 and stages one record (it is saved only if the weave is committed). A write to
 * filament/core/panic answers 0, stages nothing, and spoils the weave. -1: no `out` grant. -7: the value. -4: no room.
 * Field of a -5: topic, flags, data, len; data again for a span inside a value. */
LOAFHERON_KEEP
loafheron_answer loafheron_write(loafheron_state state, const uint8_t *memory, size_t memory_len, uint8_t *staging,
                                 size_t staging_len, const uint8_t *card, size_t card_len, const uint8_t *manifest,
                                 size_t manifest_len, uint64_t at);

/* filament_read, 40 bytes: the staged events with exactly that topic, as many whole records as fit. Answers the bytes
 * written to memory, 0 when none is left. -1: no `in` grant. -3: staged part not sound. -4: the out buffer is shorter than the
 * next record. Field of a -5: topic, out_ptr. */
LOAFHERON_KEEP
loafheron_answer loafheron_read(loafheron_state state, uint8_t *memory, size_t memory_len, const uint8_t *staging,
                                size_t staging_len, const uint8_t *card, size_t card_len, const uint8_t *manifest,
                                size_t manifest_len, uint64_t at);

/* filament_tl_open, 48 bytes: answers the handle. -4: 4 are open, or 65,535 have been opened. Field of a -5: topic (the filter),
 * desc. */
LOAFHERON_KEEP
loafheron_answer loafheron_open(loafheron_state state, const uint8_t *memory, size_t memory_len, const uint8_t *staging,
                                size_t staging_len, const uint8_t *card, size_t card_len, const uint8_t *manifest,
                                size_t manifest_len, uint64_t at);

/* filament_tl_next, 24 bytes: the longest run of remaining records that fits whole. Answers the bytes written to memory,
 * 0 at the end of the list. It looks at the records of the cursor's window that the card has, in its order, from its place through
 * the one that ends the page: a listed one that no longer fits, the last that the limit allows, or the window's last. Each is found
 * by its entry in the index. With an empty window or a limit of 0 it looks at none. -2: handle not open. -3: a record that it looked
 * at is not sound or has another number, or the index has no entry for it; those that it did not look at do not count. -4: the out
 * buffer is shorter than the next record. Field of a -5: out_ptr. */
LOAFHERON_KEEP
loafheron_answer loafheron_next(loafheron_state state, uint8_t *memory, size_t memory_len, const uint8_t *staging,
                                size_t staging_len, const uint8_t *card, size_t card_len, const uint8_t *manifest,
                                size_t manifest_len, const uint32_t *index, size_t index_len, uint64_t at);

/* filament_tl_close, 8 bytes: answers 0. -2: handle not open. No field of its own: a handle that is not open is -2 and no -5. */
LOAFHERON_KEEP
loafheron_answer loafheron_close(loafheron_state state, const uint8_t *memory, size_t memory_len, const uint8_t *staging,
                                 size_t staging_len, const uint8_t *card, size_t card_len, const uint8_t *manifest,
                                 size_t manifest_len, uint64_t at);

/* A module has returned with a code. Refused (-5, -2): nothing changes. Running: the next module has its turn.
 * Committed: the staged bytes stand on the card, behind the used part, and the entries of the new records in the index; no other card
 * byte and no other entry changes. Discarded: card and index are as before begin. After both of these staging is all 0.
 * Why discarded: the weave is spoiled (-6, -1); a code from -7 to -1, which is then the reason; any other code but 0 and 1 (-5). And
 * at the last module's return, in this order: the staged part is not sound (-3); it does not fit the card (-4); the index has fewer
 * entries than there are records on the card and staged events together (-4), which is asked also where none is staged. */
LOAFHERON_KEEP
loafheron_returned loafheron_return(loafheron_state state, uint8_t *staging, size_t staging_len, uint8_t *card,
                                    size_t card_len, const uint8_t *manifest, size_t manifest_len, uint32_t *index,
                                    size_t index_len, int64_t code);

/* The record with this id: on the card for ids below `next`, by its entry in the index, else among the staged bytes. Changes nothing.
 * Nowhere: there is none, or check 1 fails. On the card also: the record is not sound or has another number, or the index has no entry
 * for it; no other record counts. In staging also: the walk to it meets an unsound record, itself included.
 * It is the record as the card holds it: the topic of an old card may have byte 127, so mind what you print it on. */
LOAFHERON_KEEP
loafheron_place loafheron_look_up(loafheron_state state, const uint8_t *staging, size_t staging_len, const uint8_t *card,
                                  size_t card_len, const uint8_t *manifest, size_t manifest_len, const uint32_t *index,
                                  size_t index_len, uint64_t id);

#ifdef __cplusplus
}
#endif
#endif
