/* The archive as a program: it is told its calls on standard input and answers on standard output, so that a test need not be
 * compiled for the same kind of machine. rust/src/lent/piped.rs is the other side. All numbers are 64 bits, the lowest byte first.
 *
 * It has the five buffers of include/loafheron.h. Each, and each lent text, ends where a forbidden page begins: one byte read or
 * written behind it ends the program. After each call every byte of all five is compared with a copy, and what has changed is told,
 * whatever the buffer was lent as, and where it was not lent at all. */
#include "loafheron.h"

#include <stdio.h>
#include <stdlib.h>
#include <string.h>
#include <sys/mman.h>

enum { MEMORY, STAGING, CARD, MANIFEST, INDEX, BUFFERS, FIRST = BUFFERS, SECOND, ALL };
enum { ASK_SIZE, ASK_LEND, ASK_POKE, ASK_CALL, ASK_STEP_OVER };
enum { MOUNT, BEGIN, INGRESS, WRITE, READ, OPEN, NEXT, CLOSE, RETURN, LOOK_UP };

/* a multiple of every machine's page */
#define PAGE ((size_t)65536)
#define BLOCK ((size_t)4096)

typedef struct {
    uint8_t *end; /* the forbidden page */
    size_t room;
    size_t len;
    uint8_t *copy;
} fenced;

static fenced lent[ALL];

static void quit(const char *why) {
    fprintf(stderr, "server: %s\n", why);
    exit(1);
}

static void get(void *into, size_t n) {
    if (fread(into, 1, n, stdin) != n) {
        quit("the input ended inside a question");
    }
}

static uint64_t number(void) {
    uint64_t n;
    get(&n, sizeof n);
    return n;
}

static void put(const void *from, size_t n) {
    if (fwrite(from, 1, n, stdout) != n) {
        quit("nobody hears the answer");
    }
}

static void put_number(uint64_t n) { put(&n, sizeof n); }

static uint8_t *start(const fenced *f) { return f->end - f->len; }

/* Room for so many bytes before a forbidden page. */
static void make_room(fenced *f, size_t len) {
    size_t room = len + PAGE - len % PAGE;
    uint8_t *at = mmap(NULL, room + 2 * PAGE, PROT_NONE, MAP_PRIVATE | MAP_ANONYMOUS | MAP_NORESERVE, -1, 0);
    if (at == MAP_FAILED) {
        quit("no memory");
    }
    at += PAGE - (uintptr_t)at % PAGE;
    if (mprotect(at, room, PROT_READ | PROT_WRITE) != 0) {
        quit("no memory");
    }
    if (f->end != NULL) {
        munmap(f->end - f->room, f->room + PAGE);
    }
    f->end = at + room;
    f->room = room;
}

static void lend(fenced *f, size_t len) {
    if (f->end == NULL || f->room < len) {
        make_room(f, len);
    }
    f->len = len;
    get(start(f), len);
}

static void keep_copy(fenced *f) {
    f->copy = realloc(f->copy, f->len + 1);
    if (f->copy == NULL) {
        quit("no memory");
    }
    memcpy(f->copy, start(f), f->len);
}

/* What the call has changed, piece by piece. */
static void put_changes(void) {
    for (size_t which = 0; which < BUFFERS; which++) {
        fenced *f = &lent[which];
        for (size_t at = 0; at < f->len; at += BLOCK) {
            size_t n = f->len - at < BLOCK ? f->len - at : BLOCK;
            if (memcmp(start(f) + at, f->copy + at, n) != 0) {
                put_number(which);
                put_number(at);
                put_number(n);
                put(start(f) + at, n);
                memcpy(f->copy + at, start(f) + at, n);
            }
        }
    }
    put_number(BUFFERS);
}

#define SLICE(which) start(&lent[which]), lent[which].len
#define BOX SLICE(STAGING), SLICE(CARD), SLICE(MANIFEST)
/* its bytes end at a page, and are as many as entries are long: so it begins where an entry may */
#define TABLE (uint32_t *)(void *)start(&lent[INDEX]), lent[INDEX].len / sizeof(uint32_t)

static void put_answer(loafheron_answer a) { put(&a, sizeof a); }

static void call(void) {
    uint64_t function = number();
    uint64_t n = number();
    uint64_t first = number();
    uint64_t second = number();
    loafheron_state s;
    get(&s, sizeof s);
    lend(&lent[FIRST], first);
    lend(&lent[SECOND], second);
    switch (function) {
    case MOUNT: {
        loafheron_mounted m = loafheron_mount(BOX, TABLE, n);
        put(&m, sizeof m);
        break;
    }
    case BEGIN: put_answer(loafheron_begin(s, BOX, SLICE(FIRST))); break;
    case INGRESS: put_answer(loafheron_ingress(s, BOX, SLICE(FIRST), SLICE(SECOND))); break;
    case WRITE: put_answer(loafheron_write(s, SLICE(MEMORY), BOX, n)); break;
    case READ: put_answer(loafheron_read(s, SLICE(MEMORY), BOX, n)); break;
    case OPEN: put_answer(loafheron_open(s, SLICE(MEMORY), BOX, n)); break;
    case NEXT: put_answer(loafheron_next(s, SLICE(MEMORY), BOX, TABLE, n)); break;
    case CLOSE: put_answer(loafheron_close(s, SLICE(MEMORY), BOX, n)); break;
    case RETURN: {
        loafheron_returned r = loafheron_return(s, BOX, TABLE, (int64_t)n);
        put(&r, sizeof r);
        break;
    }
    case LOOK_UP: {
        loafheron_place p = loafheron_look_up(s, BOX, TABLE, n);
        put(&p, sizeof p);
        break;
    }
    default: quit("no such function");
    }
    put_changes();
}

static fenced *buffer(void) {
    uint64_t which = number();
    if (which >= BUFFERS) {
        quit("no such buffer");
    }
    return &lent[which];
}

static void question(uint64_t asked) {
    fenced *f;
    size_t at;
    size_t n;
    switch (asked) {
    case ASK_SIZE: put_number(loafheron_state_size()); break;
    case ASK_LEND:
        f = buffer();
        n = number();
        if (f == &lent[INDEX] && n % sizeof(uint32_t) != 0) {
            quit("an index of so many bytes has no whole entries");
        }
        lend(f, n);
        keep_copy(f);
        return;
    case ASK_POKE:
        f = buffer();
        at = number();
        n = number();
        if (at > f->len || n > f->len - at) {
            quit("not inside the buffer");
        }
        get(start(f) + at, n);
        memcpy(f->copy + at, start(f) + at, n);
        return;
    case ASK_CALL: call(); break;
    case ASK_STEP_OVER: put_number(*(volatile uint8_t *)buffer()->end); break;
    default: quit("no such question");
    }
    fflush(stdout);
}

int main(void) {
    uint64_t asked;
    for (size_t i = 0; i < ALL; i++) {
        lend(&lent[i], 0);
        keep_copy(&lent[i]);
    }
    while (fread(&asked, 1, sizeof asked, stdin) == sizeof asked) {
        question(asked);
    }
    return 0;
}
