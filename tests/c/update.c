/* Updates of a module with two banks (tests/port/two_banks.c) through the library for firmware. `update [COUNT] [SEED]` first tries what each
   call answers, and each kind of end by a module made for it; then COUNT updates by chance, 300 where nothing is said, with refusals,
   commands that fail before and after their effect, images that don't run, late resets, and losses of power at any moment. No module may
   be without a committed image that can run, and none may be reported as committed that isn't. */
#include "two_banks_bus.h"

#include <stdlib.h>

/* ---- updates ---- */

static struct dovecounter_update_ending run_update(uint8_t hold) {
    struct dovecounter_update update;
    struct dovecounter_update_ending ending = {.fault = 255};
    struct dovecounter_update_progress progress = {0};
    dovecounter_update_begin(size, hold, &update);
    expect("a run", DOVECOUNTER_DONE, dovecounter_update_run(&update, file, size, transact, pause_for, NULL));
    expect("an end", DOVECOUNTER_DONE, dovecounter_update_end(&update, file, size, &ending));
    expect("progress", DOVECOUNTER_DONE, dovecounter_update_progress(&update, file, size, &progress));
    expect("what is known", ending.known, progress.known);
    expect("the whole file", size, progress.all);
    if (ending.known >= DOVECOUNTER_FIRMWARE_COMPLETE) expect("all bytes", size, progress.sent);
    return ending;
}

static struct dovecounter_update_ending run_command(void (*begin)(struct dovecounter_update *update)) {
    struct dovecounter_update update;
    struct dovecounter_update_ending ending = {.fault = 255};
    begin(&update);
    expect("a command", DOVECOUNTER_DONE, dovecounter_update_run(&update, file, 0, transact, pause_for, NULL));
    expect("its end", DOVECOUNTER_DONE, dovecounter_update_end(&update, file, 0, &ending));
    expect("no knowledge", 0, ending.known);
    return ending;
}

static void give_password(struct dovecounter_update *update) { dovecounter_password_begin(0x12345678, update); }

/* ---- by modules made for it ---- */

static void end_so(const char *what, uint8_t hold, unsigned fault, unsigned status, unsigned known) {
    const struct dovecounter_update_ending ending = run_update(hold);
    expect(what, fault, ending.fault);
    expect(what, status, ending.status);
    expect(what, known, ending.known);
    expect(what, 0, module.moments_without);
}

static void try_ends(void) {
    fill_file(1000);
    begin_module(1);
    end_so("a good module", 0, DOVECOUNTER_UPDATE_DONE, 0, DOVECOUNTER_FIRMWARE_COMMITTED);
    expect("the new image", 1, module.running == 1 && has_file(1) && module.committed[1] && !module.committed[0]);
    end_so("and back", 0, DOVECOUNTER_UPDATE_DONE, 0, DOVECOUNTER_FIRMWARE_COMMITTED);
    expect("the first bank", 1, module.running == 0 && has_file(0) && module.committed[0] && !module.committed[1]);
    begin_module(2);
    end_so("held back", 1, DOVECOUNTER_UPDATE_DONE, 0, DOVECOUNTER_FIRMWARE_RUNS);
    expect("uncommitted", 1, module.running == 1 && has_file(1) && module.committed[0] && module.commits == 0);
    end_so("over a committed bank", 0, DOVECOUNTER_UPDATE_NOT_STANDING, 0, DOVECOUNTER_FIRMWARE_UNTOUCHED);
    expect("the committed image", 1, module.lengths[0] == 1 && module.valid[0]);
    begin_module(3);
    module.mechanism = 0x10;
    end_so("no blocks", 0, DOVECOUNTER_UPDATE_UNSUPPORTED, 0, DOVECOUNTER_FIRMWARE_UNTOUCHED);
    begin_module(4);
    module.boots = false;
    end_so("an image that can't run", 0, DOVECOUNTER_UPDATE_GAVE_UP, 0, DOVECOUNTER_FIRMWARE_MAY_RUN);
    expect("the old image runs", 0, (unsigned)module.running);
    begin_module(5);
    module.password = 0x12345678;
    end_so("no password", 0, DOVECOUNTER_UPDATE_REFUSED, 0x46, DOVECOUNTER_FIRMWARE_UNTOUCHED);
    expect("a password", DOVECOUNTER_UPDATE_DONE, run_command(give_password).fault);
    end_so("with a password", 0, DOVECOUNTER_UPDATE_DONE, 0, DOVECOUNTER_FIRMWARE_COMMITTED);
    begin_module(6);
    refuses = 100;
    end_so("no answer", 0, DOVECOUNTER_UPDATE_GAVE_UP, 0, DOVECOUNTER_FIRMWARE_UNTOUCHED);
    begin_module(7);
    module.slowest = 30000, module.tens = true;
    end_so("a slow module", 0, DOVECOUNTER_UPDATE_DONE, 0, DOVECOUNTER_FIRMWARE_COMMITTED);
    begin_module(8);
    module.background = false, module.late = 3000;
    end_so("a deaf module", 0, DOVECOUNTER_UPDATE_DONE, 0, DOVECOUNTER_FIRMWARE_COMMITTED);
    for (uint8_t status = 0x43; status <= 0x47; status += 4) {
        begin_module(status);
        module.open = true;
        module.not_again = status;
        end_so("an earlier download", 0, DOVECOUNTER_UPDATE_LEFT_OPEN, status, DOVECOUNTER_FIRMWARE_ABORTED);
        expect("it is given up", 1, module.aborts == 1 && !module.open && module.starts == 0);
        end_so("after it", 0, DOVECOUNTER_UPDATE_DONE, 0, DOVECOUNTER_FIRMWARE_COMMITTED);
        module.open = module.aborts_none = true;
        end_so("one that stays open", 0, DOVECOUNTER_UPDATE_LEFT_OPEN, status, DOVECOUNTER_FIRMWARE_BEGUN);
        expect("nothing else was done", 1, module.aborts == 1 && module.starts == 1 && module.running == 1);
        module.not_again = 0x42;
        end_so("another refusal", 0, DOVECOUNTER_UPDATE_REFUSED, 0x42, DOVECOUNTER_FIRMWARE_UNTOUCHED);
    }
    begin_module(9);
    cut = 200;
    end_so("power lost amid a block", 0, DOVECOUNTER_UPDATE_REFUSED, 0x47, DOVECOUNTER_FIRMWARE_ABORTED);
}

static void try_commands(void) {
    struct dovecounter_banks banks;
    fill_file(500);
    begin_module(11);
    struct dovecounter_update_ending ending = run_command(dovecounter_banks_begin);
    expect("a reply", 110, ending.count);
    dovecounter_banks(ending.reply, ending.count, &banks);
    expect("the bank that runs", 1, banks.running);
    expect("the bank that is committed", 1, banks.committed);
    expect("the first runs", 1, banks.banks[0].runs && banks.banks[0].committed && banks.banks[0].valid);
    expect("its version", 0x01020304,
           (unsigned)banks.banks[0].major << 24 | (unsigned)banks.banks[0].minor << 16 | banks.banks[0].build);
    expect("a version", 1, banks.banks[0].has_version);
    expect("the second doesn't", 0,
           banks.banks[1].runs | banks.banks[1].committed | banks.banks[1].valid | banks.banks[1].has_version);
    dovecounter_banks(ending.reply, 0, &banks);
    expect("no reply", 0, banks.running | banks.committed | banks.banks[0].valid | banks.banks[1].valid);
    dovecounter_banks(ending.reply, 5, &banks);
    expect("a short reply", 0, banks.banks[0].has_version | banks.banks[0].major | banks.banks[0].build);
    run_update(1);
    expect("a commit", DOVECOUNTER_UPDATE_DONE, run_command(dovecounter_commit_begin).fault);
    expect("committed", 1, module.committed[1] && !module.committed[0]);
    ending = run_command(dovecounter_banks_begin);
    dovecounter_banks(ending.reply, ending.count, &banks);
    expect("the second runs and is committed", 0x22, (unsigned)banks.running << 4 | banks.committed);
    module.open = true;
    expect("an abort", DOVECOUNTER_UPDATE_DONE, run_command(dovecounter_abort_begin).fault);
    expect("aborted", 0, module.open);
    module.password = 1;
    ending = run_command(dovecounter_commit_begin);
    expect("a refused command", 0x0146, (unsigned)ending.fault << 8 | ending.status);
    refuses = 100;
    expect("an unsent command", DOVECOUNTER_UPDATE_UNSENT, run_command(dovecounter_abort_begin).fault);
}

static void try_block(void) {
    struct dovecounter_command_block block;
    dovecounter_command_block((const uint8_t[4]){0x76, 15, 0x02, 0x80}, &block);
    expect("instances", 1, block.instances);
    expect("background mode, auto paging", 3, block.background_mode * 2U + block.auto_paging);
    expect("pages", 12, block.epl_pages);
    expect("extension", 15, block.length_extension);
    expect("busy time", 320, block.max_busy_time);
}

/* What is refused writes nothing. */
static void try_refusals(void) {
    struct dovecounter_update update = {0}, before;
    struct dovecounter_operation operation = {.milliseconds = 7};
    struct dovecounter_update_ending ending = {.fault = 7};
    struct dovecounter_update_progress progress = {.all = 7};
    fill_file(300);
    for (int i = 0; i < 2; i++) { /* zeros, and a file of another size */
        before = update;
        expect("next", DOVECOUNTER_NO_CONVERSATION, dovecounter_update_next(&update, file, 299, &operation));
        expect("reply", DOVECOUNTER_NO_CONVERSATION, dovecounter_update_reply(&update, file, 299, 0, file, 0));
        expect("end", DOVECOUNTER_NO_CONVERSATION, dovecounter_update_end(&update, file, 299, &ending));
        expect("progress", DOVECOUNTER_NO_CONVERSATION, dovecounter_update_progress(&update, file, 299, &progress));
        expect_same("the update", &before, &update, sizeof update);
        dovecounter_update_begin(size, 0, &update);
    }
    expect("not ended", DOVECOUNTER_NOT_ENDED, dovecounter_update_end(&update, file, size, &ending));
    expect("what was there", 7, operation.milliseconds & ending.fault & progress.all);
    expect("the first operation", DOVECOUNTER_DONE, dovecounter_update_next(&update, file, size, &operation));
    expect("the status", 37, operation.offset);
    before = update;
    expect("a fetch stored", DOVECOUNTER_NO_REPLY,
           dovecounter_update_reply(&update, file, size, DOVECOUNTER_STORED, file, 0));
    expect("two bytes", DOVECOUNTER_NO_REPLY,
           dovecounter_update_reply(&update, file, size, DOVECOUNTER_FETCHED, file, 2));
    expect("a wait", DOVECOUNTER_NO_REPLY, dovecounter_update_reply(&update, file, size, DOVECOUNTER_WAITED, file, 0));
    expect_same("the same update", &before, &update, sizeof update);
    begin_module(21);
    module.mechanism = 0;
    dovecounter_update_run(&update, file, size, transact, pause_for, NULL);
    expect("ended", DOVECOUNTER_ENDED, dovecounter_update_next(&update, file, size, &operation));
    expect("ended", DOVECOUNTER_ENDED, dovecounter_update_reply(&update, file, size, DOVECOUNTER_REFUSED, file, 0));
}

/* Whatever the numbers are, each call returns, and what it names is a transaction on page 9Fh or a wait. */
static void try_forged(unsigned count) {
    for (unsigned i = 0; i < count; i++) {
        struct dovecounter_update update, begun;
        struct dovecounter_operation operation;
        struct dovecounter_update_ending ending;
        fill_file(chance(400));
        dovecounter_update_begin(size, 0, &begun);
        uint8_t *bytes = (uint8_t *)&update;
        for (size_t at = 0; at < sizeof update; at++) bytes[at] = (uint8_t)(chance(3) ? chance(10) : chance(256));
        update.magic = begun.magic;
        update.work = (uint8_t)(chance(2) ? 0 : chance(8));
        update.size = update.work != 0 && chance(8) ? size = 0 : size;
        update.stage.header = (uint8_t)chance(chance(20) ? 113 : 256);
        for (int turn = 0; turn < 20; turn++) {
            uint32_t status = dovecounter_update_next(&update, file, size, &operation);
            if (status != DOVECOUNTER_DONE) break;
            uint8_t outcome = operation.kind == DOVECOUNTER_WAIT    ? DOVECOUNTER_WAITED
                              : chance(4) == 0                      ? DOVECOUNTER_REFUSED
                              : operation.kind == DOVECOUNTER_STORE ? DOVECOUNTER_STORED
                                                                    : DOVECOUNTER_FETCHED;
            expect("a byte in the lower memory", 1,
                   operation.kind == DOVECOUNTER_WAIT || operation.offset >= 126 || operation.offset == 37);
            expect("a reply", DOVECOUNTER_DONE,
                   dovecounter_update_reply(&update, file, size, outcome, file + chance(100), operation.count));
        }
        dovecounter_update_end(&update, file, size, &ending);
    }
}

/* ---- by chance ---- */

static unsigned ended[10], lost;

static void update_by_chance(void) {
    fill_file(1 + chance(chance(10) ? 600 : 4000));
    make_module();
    int committed = module.committed[1];
    const struct dovecounter_update_ending ending = run_update((uint8_t)(chance(5) == 0));
    ended[ending.known]++;
    lost += cut != 0 && made >= cut;
    pass_time(&module, 100000);
    expect("a moment without an image", 0, module.moments_without);
    expect("several starts or runs", 1, module.starts <= 1 && module.runs <= 1 && module.commits <= 1);
    if (ending.fault == DOVECOUNTER_UPDATE_DONE && ending.known == DOVECOUNTER_FIRMWARE_COMMITTED &&
        (cut == 0 || made < cut))
        expect("a false success", 1,
               has_file(1 - committed) && module.committed[1 - committed] && module.running == 1 - committed);
    if (module.committed[1 - committed]) expect("another image than the file", 1, has_file(1 - committed));
    lose_power(&module);
    expect("an image to boot", 1,
           has_image(&module) && module.committed[module.running] && module.valid[module.running]);
}

int main(int count, char **words) {
    unsigned updates = count > 1 ? (unsigned)atoi(words[1]) : 300;
    state = count > 2 ? strtoull(words[2], NULL, 0) | 1 : 88172645463325252u;
    try_ends();
    try_commands();
    try_block();
    try_refusals();
    try_forged(updates);
    for (unsigned i = 0; i < updates && failures < 10; i++) update_by_chance();
    printf("update: %u by chance, %u with a loss of power; known at the end, from untouched to committed:", updates,
           lost);
    for (int known = 1; known < 10; known++) printf(" %u", ended[known]);
    printf("\n");
    expect("no update, or each, succeeds", 1, ended[1] > 0 && ended[9] > 0);
    return judged("update");
}
