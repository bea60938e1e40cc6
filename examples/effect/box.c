/* The imports of the module name `filament`, by the functions of the archive. */
#include "box.h"

#include <inttypes.h>
#include <stdio.h>
#include <stdlib.h>
#include <string.h>

#define MANIFEST(b) (const uint8_t *)(b)->manifest, strlen((b)->manifest)
#define LENT(b) (b)->staging, STAGING, (b)->card, (b)->card_len, MANIFEST(b)
/* besides, to mount, next, return and look-up */
#define INDEX(b) (b)->index, ENTRIES

/* The name of the field that a -5 is for. The same number is another field in another call, so each call has its own. */
typedef const char *field_name(uint64_t field);

static const char *any_field(uint64_t field) {
    switch (field) {
    case LOAFHERON_FIELD_BEFORE: return "not the arguments";
    case LOAFHERON_FIELD_RECORD: return "the arguments' address";
    default: fprintf(stderr, "a field %" PRIu64 ", which is none of this call\n", field); exit(1);
    }
}

static const char *write_field(uint64_t field) {
    switch (field) {
    case LOAFHERON_WRITE_TOPIC: return "topic";
    case LOAFHERON_WRITE_DATA: return "data";
    case LOAFHERON_WRITE_LEN: return "len";
    case LOAFHERON_WRITE_FLAGS: return "flags";
    default: return any_field(field);
    }
}

static const char *read_field(uint64_t field) {
    switch (field) {
    case LOAFHERON_READ_TOPIC: return "topic";
    case LOAFHERON_READ_OUT_PTR: return "out_ptr";
    default: return any_field(field);
    }
}

static const char *open_field(uint64_t field) {
    switch (field) {
    case LOAFHERON_OPEN_TOPIC: return "topic";
    case LOAFHERON_OPEN_DESC: return "desc";
    default: return any_field(field);
    }
}

static const char *next_field(uint64_t field) {
    return field == LOAFHERON_NEXT_OUT_PTR ? "out_ptr" : any_field(field);
}

/* What a module call is answered: the code where it is below 0, else the value. The field of a -5 is printed beside it: it is
 * for whoever reads along, and the module is not told. The box keeps the next state. */
static uint64_t settle(box *b, const char *call, field_name *name, loafheron_answer a) {
    int64_t answer = a.code < 0 ? a.code : (int64_t)a.value;
    b->state = a.state;
    printf("  %s %" PRId64, call, answer);
    if (a.code == LOAFHERON_BAD) {
        printf(" (%s)", name(a.field));
    }
    printf("\n");
    return (uint64_t)answer;
}

uint64_t Z_filamentZ_filament_write(box *b, uint64_t at) {
    return settle(b, "write", write_field, loafheron_write(b->state, b->memory->data, b->memory->size, LENT(b), at));
}

uint64_t Z_filamentZ_filament_read(box *b, uint64_t at) {
    return settle(b, "read", read_field, loafheron_read(b->state, b->memory->data, b->memory->size, LENT(b), at));
}

uint64_t Z_filamentZ_filament_tl_open(box *b, uint64_t at) {
    return settle(b, "tl_open", open_field, loafheron_open(b->state, b->memory->data, b->memory->size, LENT(b), at));
}

uint64_t Z_filamentZ_filament_tl_next(box *b, uint64_t at) {
    return settle(b, "tl_next", next_field,
                  loafheron_next(b->state, b->memory->data, b->memory->size, LENT(b), INDEX(b), at));
}

uint64_t Z_filamentZ_filament_tl_close(box *b, uint64_t at) {
    return settle(b, "tl_close", any_field, loafheron_close(b->state, b->memory->data, b->memory->size, LENT(b), at));
}

int64_t box_mount(box *b, size_t card_len, uint64_t used) {
    b->card_len = card_len;
    loafheron_mounted m = loafheron_mount(LENT(b), INDEX(b), used);
    b->state = m.state;
    printf("mount %" PRId64 ", the next number is %" PRIu64 "\n", m.code, m.state.next);
    return m.code;
}

int64_t box_begin(box *b, uint64_t res_max, uint64_t virt_time) {
    uint8_t args[WEAVE_ARGS] = {0};
    memcpy(args + 24, &res_max, 8);
    memcpy(args + 48, &virt_time, 8);
    loafheron_answer a = loafheron_begin(b->state, LENT(b), args, sizeof args);
    b->state = a.state;
    printf("begin %" PRId64 "\n", a.code);
    return a.code;
}

void box_return(box *b, int64_t code) {
    static const char *const kinds[] = {"refused", "discarded", "running", "committed"};
    loafheron_returned r = loafheron_return(b->state, LENT(b), INDEX(b), code);
    const loafheron_outcome *o = &r.outcome;
    b->state = r.state;
    if (o->kind > LOAFHERON_COMMITTED) {
        fprintf(stderr, "an outcome of kind %" PRIu64 ", which is none\n", o->kind);
        exit(1);
    }
    printf("  returns %" PRId64 ": %s", code, kinds[o->kind]);
    if (o->kind == LOAFHERON_COMMITTED) {
        printf(", %" PRIu64 " events, %" PRIu64 " bytes\n", o->events, o->bytes);
    } else if (o->kind == LOAFHERON_RUNNING) {
        printf("\n");
    } else {
        printf(" %" PRId64 "\n", o->code);
    }
}

void box_tell(box *b, wasm_rt_memory_t *memory, uint64_t user_data) {
    b->memory = memory;
    memset(memory->data + ARGS_AT, 0, WEAVE_ARGS);
    memcpy(memory->data + ARGS_AT + 112, &user_data, 8);
}

static uint64_t field(const uint8_t *record, size_t at, size_t width) {
    uint64_t n = 0;
    memcpy(&n, record + at, width);
    return n;
}

void box_show(const box *b) {
    for (uint64_t id = 1; id < b->state.next; id++) {
        loafheron_place p = loafheron_look_up(b->state, LENT(b), INDEX(b), id);
        if (p.buffer != LOAFHERON_ON_CARD) {
            printf("card %" PRIu64 ": not there\n", id);
            continue;
        }
        const uint8_t *r = b->card + p.at;
        int topic_len = (int)field(r, 80, 4);
        size_t payload = 128 + (size_t)(topic_len + 7) / 8 * 8;
        /* a value's text lies behind its 32 bytes */
        size_t text = field(r, 4, 4) & 2 ? 32 : 0;
        printf("card %" PRIu64 " by %" PRIu64 ": %.*s %.*s\n", id, field(r, 32, 8), topic_len, (const char *)r + 128,
               (int)(field(r, 84, 4) - text), (const char *)r + payload + text);
    }
}
