/* What the library says that a change to a plan does, and what stands against it: on a module whose lower half and page 11h are made for
   each case. */
#include "expect.h"

enum { LOW_POWER = 1, READY = 3, FAULTY = 5 };
enum { DOWN = 1, INITIALIZING = 2, UP = 4 };

/* A path on lanes 1 to 4, which is kept, and one on lanes 5 to 8. */
static const struct dovecounter_change two_paths = {
    .control = {0x10, 0x10, 0x10, 0x10, 0x28, 0x28, 0x28, 0x28}, .lanes = 0xFF, .outside = 0xF0};

static struct dovecounter_half halves[17];
static struct dovecounter_change change;
static struct dovecounter_effect effect;

/* A module in this state, with these codes of data path states and these active control bytes. */
static void make_module(unsigned state, const unsigned states[8], const uint8_t active[8]) {
    memset(halves, 0, sizeof halves);
    halves[0].device = halves[1].device = 0xA0;
    halves[0].bytes[3] = (uint8_t)(state << 1 | 1); /* bit 0 is the interrupt */
    halves[1].upper = 1;
    halves[1].page = 0x11;
    for (int lane = 0; lane < 8; lane++) halves[1].bytes[lane / 2] |= (uint8_t)(states[lane] << lane % 2 * 4);
    memcpy(halves[1].bytes + 206 - 128, active, 8);
    change = two_paths;
}

static const uint8_t nothing[8], planned[8] = {0x10, 0x10, 0x10, 0x10, 0x28, 0x28, 0x28, 0x28};
static const uint8_t first_planned[8] = {0x10, 0x10, 0x10, 0x10, 0x34, 0x34, 0x34, 0x34};
static const unsigned all_down[8] = {1, 1, 1, 1, 1, 1, 1, 1}, all_up[8] = {4, 4, 4, 4, 4, 4, 4, 4};
static const unsigned first_up[8] = {4, 4, 4, 4, 1, 1, 1, 1}, last_up[8] = {1, 1, 1, 1, 4, 4, 4, 4};

static void judge(void) {
    memset(&effect, 0x5A, sizeof effect);
    expect("it is judged", DOVECOUNTER_DONE, dovecounter_judge(halves, 2, &change, &effect));
}

static void expect_of(const char *what, const char *member, unsigned wanted, unsigned found) {
    char name[128];
    snprintf(name, sizeof name, "%s: %s", what, member);
    expect(name, wanted, found);
}

static void expect_lanes(const char *what, unsigned taken, unsigned goes_down, unsigned comes_up, unsigned stays) {
    judge();
    expect_of(what, "taken", taken, effect.taken);
    expect_of(what, "goes down", goes_down, effect.goes_down);
    expect_of(what, "comes up", comes_up, effect.comes_up);
    expect_of(what, "stays", stays, effect.stays);
}

static void expect_hindrance(const char *what, unsigned hindrance, unsigned lanes, unsigned state) {
    judge();
    expect_of(what, "hindrance", hindrance, effect.hindrance);
    expect_of(what, "lanes", lanes, effect.lanes);
    expect_of(what, "state", state, effect.state);
}

static void try_kept_paths(void) {
    make_module(READY, first_up, first_planned);
    expect_lanes("the kept path is up", 0xF0, 0, 0, 0x0F);
    expect_hindrance("and nothing is against it", DOVECOUNTER_UNHINDERED, 0, 0);
    expect("nothing is active yet", 0, effect.is_active);
    expect("nor done", 0, effect.is_done);
    change.activates = 1;
    expect_lanes("the plan is to be up", 0xF0, 0, 0xF0, 0x0F);

    make_module(READY, all_down, first_planned);
    expect_lanes("the kept path is down", 0xF0, 0, 0x0F, 0);
    expect_hindrance("it would come up", DOVECOUNTER_WOULD_COME_UP, 0x0F, 0);
    change.may_bring_up = 0x0B;
    expect_hindrance("a lane may not", DOVECOUNTER_WOULD_COME_UP, 0x04, 0);
    change.may_bring_up = 0x0F;
    expect_hindrance("all may", DOVECOUNTER_UNHINDERED, 0, 0);
    change.may_bring_up = 0;
    change.activates = 2;
    expect_hindrance("they are wanted up", DOVECOUNTER_UNHINDERED, 0, 0);
    change.lanes = 0xF3;
    expect_hindrance("but for two", DOVECOUNTER_WOULD_COME_UP, 0x0C, 0);

    make_module(READY, all_down, first_planned);
    halves[1].bytes[206 - 128 + 1] = 0x12;
    halves[1].bytes[206 - 128 + 3] = 0x11;
    expect_hindrance("kept lanes have other bytes", DOVECOUNTER_OTHER_BYTES, 0x0A, 0);
}

static void try_use(void) {
    make_module(READY, all_up, first_planned);
    expect_lanes("other paths are up", 0xF0, 0xF0, 0, 0x0F);
    expect_hindrance("they would go down", DOVECOUNTER_WOULD_GO_DOWN, 0xF0, 0);
    change.may_take_down = 0x7F;
    expect_hindrance("one may not", DOVECOUNTER_WOULD_GO_DOWN, 0x80, 0);
    change.may_take_down = 0xF0;
    expect_hindrance("all may", DOVECOUNTER_UNHINDERED, 0, 0);
    change.activates = 1;
    expect_lanes("those that come up again go down", 0xF0, 0xF0, 0, 0x0F);

    unsigned states[8] = {UP, UP, UP, UP, DOWN, INITIALIZING, 7, 3};
    make_module(READY, states, first_planned);
    expect_lanes("what is neither up nor down goes down", 0xF0, 0xE0, 0, 0x0F);
}

static void try_states(void) {
    make_module(LOW_POWER, all_down, nothing);
    change.outside = 0xFF;
    expect_hindrance("in low power", DOVECOUNTER_OTHER_STATE, 0, LOW_POWER);
    change.wakes = 1;
    expect_hindrance("it is woken up", DOVECOUNTER_UNHINDERED, 0, 0);
    make_module(FAULTY, all_down, nothing);
    change.outside = 0xFF;
    change.wakes = 1;
    expect_hindrance("in ModuleFault", DOVECOUNTER_OTHER_STATE, 0, FAULTY);
}

static void try_no_path(void) {
    make_module(READY, last_up, first_planned);
    memset(&change, 0, sizeof change);
    change.outside = 0xFF;
    expect_hindrance("a plan without a path", DOVECOUNTER_NO_PATH, 0, 0);
    change.may_have_no_path = 1;
    expect_hindrance("it may be, but lanes are up", DOVECOUNTER_WOULD_GO_DOWN, 0xF0, 0);
    expect_lanes("which it takes", 0xFF, 0xF0, 0, 0);
}

static void try_spared(void) {
    static const uint8_t second_planned[8] = {0x34, 0x34, 0x34, 0x34, 0x28, 0x28, 0x28, 0x28};
    make_module(READY, all_up, second_planned);
    change.outside = 0xFF;
    expect_lanes("a path of the plan that isn't kept", 0xFF, 0xFF, 0, 0);
    change.spares = 1;
    expect_lanes("is spared", 0x0F, 0x0F, 0, 0xF0);

    unsigned one_alive[8] = {UP, UP, UP, UP, DOWN, DOWN, DOWN, INITIALIZING};
    make_module(READY, one_alive, second_planned);
    change.outside = 0xFF;
    change.spares = 1;
    expect_lanes("one that isn't all down is too", 0x0F, 0x0F, 0x70, 0x80);
    make_module(READY, first_up, second_planned);
    change.outside = 0xFF;
    change.spares = 1;
    expect_lanes("one that is down is not", 0xFF, 0x0F, 0, 0);

    make_module(READY, all_up, second_planned);
    halves[1].bytes[206 - 128] = 0x29; /* ExplicitControl apart, lane 1 is in the path */
    change.outside = 0xFF;
    change.spares = 1;
    expect_lanes("nor one that has another lane", 0xFF, 0xFF, 0, 0);
    make_module(READY, all_up, second_planned);
    halves[1].bytes[206 - 128 + 7] = 0x29;
    change.outside = 0xFF;
    change.spares = 1;
    expect_lanes("nor one under explicit control", 0xFF, 0xFF, 0, 0);
}

static void try_active(void) {
    make_module(READY, first_up, planned);
    judge();
    expect("the bytes are active", 1, effect.is_active);
    expect("that is all", 1, effect.is_done);
    expect_lanes("and takes nothing", 0, 0, 0, 0x0F);
    change.activates = 1;
    expect_lanes("activation brings lanes up", 0, 0, 0xF0, 0x0F);
    expect("which is to be done", 0, effect.is_done);
    make_module(READY, all_up, planned);
    change.activates = 1;
    judge();
    expect("all is up", 1, effect.is_done);
    make_module(LOW_POWER, all_up, planned);
    judge();
    expect("whatever its state", 1, effect.is_done);
    change.wakes = 1;
    judge();
    expect("it is to be woken up", 0, effect.is_done);
    make_module(READY, all_up, planned);
    change.wakes = 1;
    judge();
    expect("it is awake", 1, effect.is_done);

    static const uint8_t one_planned[8] = {0x10, 0x10, 0x10, 0x10};
    make_module(READY, last_up, one_planned);
    memcpy(change.control, one_planned, 8);
    change.lanes = 0x0F;
    change.activates = 1;
    expect_lanes("activation holds all other lanes down", 0, 0xF0, 0x0F, 0);
    expect_hindrance("and may not", DOVECOUNTER_WOULD_GO_DOWN, 0xF0, 0);
}

static void expect_refused(const char *what, uint32_t status, size_t count) {
    struct dovecounter_effect before;
    memset(&before, 0x5A, sizeof before);
    effect = before;
    expect(what, status, dovecounter_judge(halves, count, &change, &effect));
    expect_same("what is refused is not written", &before, &effect, sizeof effect);
}

static void try_refusals(void) {
    make_module(READY, all_down, nothing);
    expect_refused("too many halves", DOVECOUNTER_TOO_MANY_HALVES, 17);
    expect_refused("no page 11h", DOVECOUNTER_ABSENT, 1);
    halves[0] = halves[1];
    expect_refused("no lower half", DOVECOUNTER_ABSENT, 1);
    halves[0].device = 1;
    expect_refused("a half without a place", DOVECOUNTER_NO_PLACE, 2);
}

int main(void) {
    try_kept_paths();
    try_use();
    try_states();
    try_no_path();
    try_spared();
    try_active();
    try_refusals();
    return judged("judge");
}
