/* Two effects in one box, then an effect that makes the class's three mistakes. Everything they are answered is printed. */
#include "box.h"
#include "careless.h"
#include "looper.h"

#include <inttypes.h>
#include <stdio.h>
#include <string.h>

static box the_box = {.manifest = "modules\t2\n"
                                  "grant\t1\tout\tloop/take\ngrant\t1\tin\tloop/take\n"
                                  "grant\t2\tout\tloop/take\ngrant\t2\tin\tloop/take\n"};

static box alone = {.manifest = "modules\t1\ngrant\t1\tout\tloop/take\ngrant\t1\tin\tloop/take\n"};

/* One weave: each module in its turn, until the weave is over. */
static void weave(Z_looper_instance_t *modules, uint64_t res_max, uint64_t virt_time, uint64_t tell_last) {
    if (box_begin(&the_box, res_max, virt_time) < 0) {
        return;
    }
    while (the_box.state.running) {
        uint64_t turn = the_box.state.turn;
        Z_looper_instance_t *module = &modules[turn - 1];
        printf(" module %" PRIu64 "\n", turn);
        box_tell(&the_box, Z_looperZ_memory(module), turn == 2 ? tell_last : 0);
        box_return(&the_box, (int64_t)Z_looperZ_filament_weave(module, ARGS_AT));
    }
}

static void careful(void) {
    static Z_looper_instance_t modules[2];
    Z_looper_init_module();
    Z_looper_instantiate(&modules[0], &the_box);
    Z_looper_instantiate(&modules[1], &the_box);
    box_mount(&the_box, CARD, 0);
    weave(modules, 1000, 5000, 0);
    weave(modules, 1000, 6000, 0);
    printf("-- a budget that does not reach\n");
    weave(modules, 120, 7000, 0);
    printf("-- the second module is told to panic\n");
    weave(modules, 1000, 8000, 9);
    printf("-- a faulted process begins no weave, until a new mount\n");
    weave(modules, 1000, 9000, 0);
    box_mount(&the_box, CARD, the_box.state.used);
    weave(modules, 1000, 9000, 0);
    box_show(&the_box);
    Z_looper_free(&modules[0]);
    Z_looper_free(&modules[1]);
}

/* A weave of the careless effect alone. */
static void mistake(Z_careless_instance_t *effect, uint64_t which, uint64_t res_max) {
    box_begin(&alone, res_max, 5000);
    box_tell(&alone, Z_carelessZ_memory(effect), which);
    box_return(&alone, (int64_t)Z_carelessZ_filament_weave(effect, ARGS_AT));
}

static void careless(void) {
    static Z_careless_instance_t effect;
    Z_careless_init_module();
    Z_careless_instantiate(&effect, &alone);
    printf("-- mistake 1: a record counts as saved when it is staged. The card has room for two of three\n");
    box_mount(&alone, 2 * 152, 0);
    mistake(&effect, 1, 1000);
    printf("the effect believes that %" PRIu64 " are saved; the card has %" PRIu64 "\n", *Z_carelessZ_saved(&effect),
           alone.state.next - 1);
    printf("-- mistake 2: ptr + len, with a sum that wraps\n");
    box_mount(&alone, CARD, 0);
    mistake(&effect, 2, 1000);
    printf("the effect believes that %" PRIu64 " spans lie inside; the card has %" PRIu64 " takes\n",
           *Z_carelessZ_inside(&effect), alone.state.next - 1);
    printf("-- mistake 3: pages without a look at -4 and -6\n");
    mistake(&effect, 1, 1000);
    mistake(&effect, 3, 30);
    printf("the effect believes that it heard %" PRId64 " bytes; it was given one record of 152, whole\n",
           (int64_t)*Z_carelessZ_heard(&effect));
    box_show(&alone);
    Z_careless_free(&effect);
}

int main(void) {
    if (loafheron_state_size() != LOAFHERON_STATE_SIZE) {
        fprintf(stderr, "header and archive do not belong together\n");
        return 1;
    }
    wasm_rt_init();
    careful();
    careless();
    wasm_rt_free();
    return 0;
}
