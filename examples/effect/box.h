/* A box that runs effects: the buffers and the state of the proved host, and the memory of the module that has its turn. */
#ifndef BOX_H
#define BOX_H

#include "loafheron.h"
#include "wasm-rt.h"

/* no record is shorter than 136 bytes: so many entries are always enough */
enum { STAGING = 65536, CARD = 65536, ENTRIES = CARD / 136, WEAVE_ARGS = 128, ARGS_AT = 1024 };

/* wasm2c hands this to every import of the module name `filament`. */
typedef struct Z_filament_instance_t {
    loafheron_state state;
    uint8_t staging[STAGING];
    uint8_t card[CARD];
    size_t card_len;
    uint32_t index[ENTRIES]; /* where each record of the card lies: mount fills it */
    const char *manifest;
    wasm_rt_memory_t *memory; /* of the module whose turn it is */
} box;

/* Each of these prints what was answered; where a return value is given, it is the answer's code. */
int64_t box_mount(box *b, size_t card_len, uint64_t used);
int64_t box_begin(box *b, uint64_t res_max, uint64_t virt_time);
void box_return(box *b, int64_t code);

/* The weave's arguments, where the module finds them: user_data tells the effect what to do. */
void box_tell(box *b, wasm_rt_memory_t *memory, uint64_t user_data);

/* Every record of the card: its number, who wrote it, its topic, its payload. They are printed as they are.
 * The effects are this program's own and write plain text. */
void box_show(const box *b);

#endif
