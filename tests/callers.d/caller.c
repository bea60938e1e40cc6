/* A caller who keeps everything that he is answered. With -DKEEP_RETURN= he drops what return says, and so with the others. */
#include "loafheron.h"

#ifndef KEEP_MOUNT
#define KEEP_MOUNT m =
#endif
#ifndef KEEP_BEGIN
#define KEEP_BEGIN a =
#endif
#ifndef KEEP_INGRESS
#define KEEP_INGRESS a =
#endif
#ifndef KEEP_WRITE
#define KEEP_WRITE a =
#endif
#ifndef KEEP_READ
#define KEEP_READ a =
#endif
#ifndef KEEP_OPEN
#define KEEP_OPEN a =
#endif
#ifndef KEEP_NEXT
#define KEEP_NEXT a =
#endif
#ifndef KEEP_CLOSE
#define KEEP_CLOSE a =
#endif
#ifndef KEEP_RETURN
#define KEEP_RETURN r =
#endif
#ifndef KEEP_LOOK_UP
#define KEEP_LOOK_UP p =
#endif

#define LENT staging, 65536, card, 65536, manifest, 10
#define INDEX index, 65536 / 136
#define MEMORY memory, 4096

uint64_t caller(uint8_t *memory, uint8_t *staging, uint8_t *card, const uint8_t *manifest, uint32_t *index,
                const uint8_t *args);

uint64_t caller(uint8_t *memory, uint8_t *staging, uint8_t *card, const uint8_t *manifest, uint32_t *index,
                const uint8_t *args) {
    loafheron_mounted m = {};
    loafheron_answer a = {};
    loafheron_returned r = {};
    loafheron_place p = {};
    KEEP_MOUNT loafheron_mount(LENT, INDEX, 0);
    KEEP_BEGIN loafheron_begin(m.state, LENT, args, 128);
    KEEP_INGRESS loafheron_ingress(a.state, LENT, args, 1, args, 1);
    KEEP_WRITE loafheron_write(a.state, MEMORY, LENT, 8);
    KEEP_READ loafheron_read(a.state, MEMORY, LENT, 8);
    KEEP_OPEN loafheron_open(a.state, MEMORY, LENT, 8);
    KEEP_NEXT loafheron_next(a.state, MEMORY, LENT, INDEX, 8);
    KEEP_CLOSE loafheron_close(a.state, MEMORY, LENT, 8);
    KEEP_RETURN loafheron_return(a.state, LENT, INDEX, 0);
    KEEP_LOOK_UP loafheron_look_up(r.state, LENT, INDEX, 1);
    return r.outcome.kind + p.len;
}
