/* What the compiled module really writes, one instruction after another. Image, output, notes and the list of events are lent read-only; each write
 * faults, is let through alone, and what it changed is noted. Document 01, 'Managed numbers' and 'What comes back', and request 11 of document 02 say
 * what must then be seen:
 *
 *   after each write the image is the one after the first j stores, j only rising, and in the end after all of them;
 *   the output is written only after that, and so are notes and events, which are what the request says in the end;
 *   a refused call writes neither image nor output.
 *
 * So power may fail between any two instructions. A proof speaks of the language's machine; this speaks of what a compiler made of it, on the
 * calls that are tried. It stops after one instruction by the trap flag of an x86-64 processor, or by a breakpoint that it puts behind the
 * instruction on aarch64 and powerpc; where it cannot run (another processor, valgrind) it says so. What leaves the processor in another
 * order than it was written, out of a write buffer or a cache, it cannot see.
 *
 *   stores [--seed S] [--count N] [--from W] */
#include "support/both.h"
#include "support/commands.h"
#include "support/guarded.h"
#include "support/options.h"
#include "support/worlds.h"

#include "../include/xistalvo.h"

#include <inttypes.h>
#include <stdio.h>
#include <string.h>

#if defined(__has_include)
#if __has_include(<valgrind/valgrind.h>)
#include <valgrind/valgrind.h>
#endif
#endif
#ifndef RUNNING_ON_VALGRIND
#define RUNNING_ON_VALGRIND 0
#endif

#if !defined(__linux__) || (!defined(__x86_64__) && !defined(__aarch64__) && !defined(__powerpc__))

int main(void)
{
    puts("stores: not run, it needs Linux on x86-64, aarch64 or powerpc");
    return 0;
}

#else

#include <signal.h>
#include <sys/mman.h>
#include <ucontext.h>
#include <unistd.h>

enum { MOST_STATES = 64, DATA_MOST = 60, ENOUGH_FOR_EVERY_COMMAND = 1000 };

/* ---- one instruction ---- */

#if defined(__x86_64__)

enum { TRAP_FLAG = 0x100 };

static void stop_after_one(ucontext_t *context) { context->uc_mcontext.gregs[REG_EFL] |= TRAP_FLAG; }

static void go_on(ucontext_t *context) { context->uc_mcontext.gregs[REG_EFL] &= ~(greg_t)TRAP_FLAG; }

#else

/* Every instruction has 4 octets, and a write does not branch. */
#if defined(__aarch64__)
#define BREAKPOINT UINT32_C(0xD4200000) /* brk #0 */
#define INSTRUCTION(context) ((uint32_t *)(context)->uc_mcontext.pc)
#else
#define BREAKPOINT UINT32_C(0x7FE00008) /* trap */
#define INSTRUCTION(context) ((uint32_t *)(context)->uc_mcontext.uc_regs->gregs[32]) /* the next instruction's address */
#endif

static uint32_t *place_of_breakpoint, replaced;

static void write_instruction(uint32_t instruction)
{
    *place_of_breakpoint = instruction;
    __builtin___clear_cache((char *)place_of_breakpoint, (char *)(place_of_breakpoint + 1));
}

static void stop_after_one(ucontext_t *context)
{
    uintptr_t page = (uintptr_t)sysconf(_SC_PAGESIZE);
    place_of_breakpoint = INSTRUCTION(context) + 1;
    if (mprotect((void *)((uintptr_t)place_of_breakpoint & ~(page - 1)), page, PROT_READ | PROT_WRITE | PROT_EXEC) != 0) {
        both_fail("no breakpoint can be put into the code");
    }
    replaced = *place_of_breakpoint;
    write_instruction(BREAKPOINT);
}

static void go_on(ucontext_t *context)
{
    if (INSTRUCTION(context) != place_of_breakpoint) {
        both_fail("the program stopped elsewhere than at its breakpoint");
    }
    write_instruction(replaced);
}

#endif

/* ---- watching ---- */

static struct guarded image_area, output_area, notes_area, events_area;

/* What was seen during one call. */
static struct {
    size_t writes;                                  /* into either */
    size_t state_count;                             /* images that were seen, each different from the one before */
    uint8_t states[MOST_STATES][LARGEST_IMAGE];
    uint8_t output[FRAME_ROOM];                     /* after the last write */
    bool output_has_begun;
    bool store_came_late;                           /* the image changed after the output had begun */
    size_t note_writes;                             /* into notes and events */
    uint8_t notes[sizeof(xistalvo_notes)], events[EVENTS_ROOM];
    bool notes_have_begun;
    bool store_came_behind_notes;                   /* the image changed after notes or events had */
} seen;

static void protect_all(enum lend_access access)
{
    guarded_protect(&image_area, access);
    guarded_protect(&output_area, access);
    guarded_protect(&notes_area, access);
    guarded_protect(&events_area, access);
}

static void note_image(void)
{
    if (memcmp(image_area.range, seen.states[seen.state_count - 1], image_area.length) == 0) {
        return;
    }
    if (seen.state_count == MOST_STATES) {
        both_fail("the image was changed more often than any call may");
    }
    memcpy(seen.states[seen.state_count++], image_area.range, image_area.length);
    seen.store_came_late = seen.store_came_late || seen.output_has_begun;
    seen.store_came_behind_notes = seen.store_came_behind_notes || seen.notes_have_begun;
}

static void note_output(void)
{
    if (memcmp(output_area.range, seen.output, output_area.length) != 0) {
        seen.output_has_begun = true;
        memcpy(seen.output, output_area.range, output_area.length);
    }
}

static void note_notes(void)
{
    if (notes_area.length != 0
        && (memcmp(notes_area.range, seen.notes, notes_area.length) != 0 || memcmp(events_area.range, seen.events, events_area.length) != 0)) {
        seen.notes_have_begun = true;
        memcpy(seen.notes, notes_area.range, notes_area.length);
        memcpy(seen.events, events_area.range, events_area.length);
    }
}

static bool lies_in(const struct guarded *area, const uint8_t *address)
{
    return address >= area->range && address < area->range + area->length;
}

/* A write: let this one instruction through. */
static void on_write(int signal_number, siginfo_t *information, void *context)
{
    (void)signal_number;
    bool is_note = lies_in(&notes_area, information->si_addr) || lies_in(&events_area, information->si_addr);
    if (!is_note && !lies_in(&image_area, information->si_addr) && !lies_in(&output_area, information->si_addr)) {
        both_fail("the module touched memory that it was not lent");
    }
    seen.writes += !is_note;
    seen.note_writes += is_note;
    protect_all(LEND_WRITABLE);
    stop_after_one(context);
}

/* The instruction is over. */
static void on_step(int signal_number, siginfo_t *information, void *context)
{
    (void)signal_number;
    (void)information;
    go_on(context);
    note_image();
    note_output();
    note_notes();
    protect_all(LEND_READ_ONLY);
}

static void watch(void)
{
    struct sigaction action;
    memset(&action, 0, sizeof action);
    action.sa_flags = SA_SIGINFO;
    action.sa_sigaction = on_write;
    sigaction(SIGSEGV, &action, NULL);
    action.sa_sigaction = on_step;
    sigaction(SIGTRAP, &action, NULL);
}

static xistalvo_notes *lend_record(const struct record *record)
{
    xistalvo_notes notes;
    memcpy(notes.reports, record->notes.reports, sizeof notes.reports);
    notes.kept = record->notes.kept;
    notes.dropped = record->notes.dropped;
    memcpy(seen.notes, &notes, sizeof notes);
    memcpy(seen.events, record->events, record->events_length);
    guarded_lend(&events_area, record->events, record->events_length, LEND_AT_END, LEND_READ_ONLY);
    return (xistalvo_notes *)(void *)guarded_lend(&notes_area, &notes, sizeof notes, LEND_AT_END, LEND_READ_ONLY);
}

static void call_watched(struct input *input)
{
    memset(&seen, 0, sizeof seen);
    memcpy(seen.states[0], input->image, input->image_length);
    seen.state_count = 1;
    memcpy(seen.output, input->output, input->output_length);
    guarded_lend(&image_area, input->image, input->image_length, LEND_AT_END, LEND_READ_ONLY);
    guarded_lend(&output_area, input->output, input->output_length, LEND_AT_END, LEND_READ_ONLY);
    xistalvo_notes *notes = lend_record(&input->record);
    uint8_t *events = events_area.range;
    size_t events_length = input->record.events_length;
    bool is_on_ground = input->frame_length % 2 == 1; /* either engine, by a property of the input that nothing else turns on */
    if (input->which == CALL_SECURE) {
        (is_on_ground ? xistalvo_ground_secure : xistalvo_secure)(image_area.range, input->image_length, input->numbers, NUMBER_COUNT, input->desk,
                                                                  input->kind, input->check_field, input->spi, input->frame, input->frame_length,
                                                                  output_area.range, input->output_length);
    } else if (input->which == CALL_COMMAND) {
        xistalvo_command(notes, events, events_length, image_area.range, input->image_length, input->numbers, NUMBER_COUNT, input->desk,
                         input->frame, input->frame_length, output_area.range, input->output_length);
    } else {
        (is_on_ground ? xistalvo_ground_check : xistalvo_check)(notes, events, events_length, image_area.range, input->image_length, input->numbers,
                                                                NUMBER_COUNT, input->desk, input->kind, input->check_field, input->frame,
                                                                input->frame_length, output_area.range, input->output_length);
    }
    guarded_take_back(&image_area);
    guarded_take_back(&output_area);
    guarded_take_back(&notes_area);
    guarded_take_back(&events_area);
}

/* Notes and events as the reading says. */
static bool notes_are_right(const struct input *before, const struct effect *effect)
{
    struct record expected = before->record;
    const xistalvo_notes *notes = (const xistalvo_notes *)(const void *)notes_area.range;
    carry_out_notes(effect, &expected.notes, expected.events);
    return memcmp(notes->reports, expected.notes.reports, sizeof notes->reports) == 0 && notes->kept == expected.notes.kept
        && notes->dropped == expected.notes.dropped && memcmp(events_area.range, expected.events, expected.events_length) == 0;
}

/* Each state seen is the image after the first j stores, with j rising to all. A compiler may join stores that nothing lies between; a cut
 * then cannot fall between them, and no other image is seen. */
static bool states_are_cuts(const struct input *before, const struct effect *effect)
{
    uint8_t image[LARGEST_IMAGE];
    size_t state = 0;
    memcpy(image, before->image, before->image_length);
    for (size_t j = 0; j <= effect->store_count; j++) {
        if (j != 0) {
            image[effect->stores[j - 1].position] = effect->stores[j - 1].octet;
        }
        if (state < seen.state_count && memcmp(image, seen.states[state], before->image_length) == 0) {
            state++;
        }
    }
    return state == seen.state_count && memcmp(image, seen.states[seen.state_count - 1], before->image_length) == 0;
}

struct totals {
    uint64_t calls, done, refused, stores, states, note_writes;
    uint64_t noted_behind_stores;  /* calls that stored and then changed notes or events */
    uint64_t commands[TAG_COUNT]; /* done */
    uint64_t halves;              /* set window, seen with its first octet stored and its second not yet */
    uint64_t thirds;              /* rekey from version 3 on, seen after each of its three stores */
    uint64_t by_desk[4][2];       /* desk, or 3 for one that there is not; done or refused */
};

static void judge(const struct input *before, const struct effect *effect, struct totals *totals)
{
    if (effect->answer != 0 && seen.writes != 0) {
        both_fail("a refused call wrote into the image or the output");
    }
    if (!states_are_cuts(before, effect)) {
        both_fail("between two instructions the image was not that of a cut");
    }
    if (seen.store_came_late) {
        both_fail("the output was written before the last store in the image");
    }
    if (seen.store_came_behind_notes) {
        both_fail("a report or an event was written before the last store in the image");
    }
    if (before->which == CALL_SECURE ? seen.note_writes != 0 : !notes_are_right(before, effect)) {
        both_fail("notes or events are not what they should be, or were written by a sending");
    }
    totals->note_writes += seen.note_writes;
    totals->noted_behind_stores += effect->store_count != 0 && seen.notes_have_begun;
    totals->calls++;
    totals->done += effect->answer == 0;
    totals->refused += effect->answer != 0;
    totals->by_desk[before->desk < 3 ? before->desk : 3][effect->answer != 0]++;
    totals->stores += effect->store_count;
    totals->states += seen.state_count - 1;
    if (before->which == CALL_COMMAND && effect->answer == 0) {
        totals->commands[index_of_tag(before->frame[0])]++;
        totals->halves += before->frame[0] == TAG_SET_WINDOW && seen.state_count == 3;
        totals->thirds += before->frame[0] == TAG_REKEY && seen.state_count == 4;
    }
}

static void read_document(const struct input *input, struct effect *effect)
{
    struct call call = {input->image, input->image_length, input->numbers, input->numbers_length, input->desk, input->kind,
                        input->check_field != 0, input->spi, input->frame, input->frame_length, input->output_length,
                        &input->record.notes, input->record.events, input->record.events_length};
    if (input->which == CALL_SECURE) {
        reading_secure(&call, effect);
    } else if (input->which == CALL_COMMAND) {
        reading_command(&call, effect);
    } else {
        reading_check(&call, effect);
    }
}

/* A sending, or a check of a frame with a number up to just beyond the window; one in five frames has a wrong bit. */
static void make_input(struct random *random, const struct end *end, struct input *input)
{
    struct table table;
    struct header header;
    uint8_t clear[FRAME_ROOM], sequence[SEQUENCE_LENGTH];
    table_of(end, &table);
    size_t entry = random_below(random, (uint32_t)table.count);
    const struct association *association = &table.entries[entry];
    input_of_end(input, association->direction == 1 ? CALL_SECURE : CALL_CHECK, end);
    input->desk = any_desk(random, association);
    input->kind = (uint8_t)association->kind;
    input->spi = (uint16_t)association->spi;
    input->output_length = 2 * DATA_MOST;
    bool has_field = association->kind != 4 && random_percent(random, 30);
    input->check_field = has_field ? 1 : 0;
    input->frame_length = make_clear_frame(random, association, has_field, random_between(random, 1, DATA_MOST), input->frame);
    if (input->which == CALL_CHECK && read_clear_frame(association->kind, has_field, input->frame, input->frame_length, &header)) {
        memcpy(clear, input->frame, input->frame_length);
        iv_of_number(association, (uint64_t)end->numbers[entry] + random_between(random, 1, association->window + 1), sequence);
        input->frame_length = protect_frame(association, &header, sequence, clear, input->frame_length, input->frame);
    }
    if (random_percent(random, 20)) {
        input->frame[random_below(random, (uint32_t)input->frame_length)] ^= 4;
    }
    random_octets(random, input->output, input->output_length);
}

/* A command, of any tag, about an association in a state that it mostly fits; one in ten has another form. */
static void make_command_input(struct random *random, struct end *end, struct input *input)
{
    struct table table;
    struct association association;
    unsigned tag = random_percent(random, 12) ? TAG_REKEY : every_tag[random_below(random, TAG_COUNT)];
    table_of(end, &table);
    size_t entry = random_below(random, (uint32_t)table.count);
    suit_command(random, end, entry, tag, &association);
    input_of_end(input, CALL_COMMAND, end);
    make_command(random, input, tag, &association, end->numbers[entry]);
    input->desk = any_desk(random, &association);
    if (random_percent(random, 10)) {
        break_command(random, input);
    }
    input->output_length = random_percent(random, 90) ? (tag == TAG_DUMP ? LARGEST_FRAME : 4 * DATA_MOST) : random_below(random, 200);
    random_octets(random, input->output, input->output_length);
}

/* Every command was watched being done, a window was seen between its two stores, and a rekey that names a key after each of its three; and calls of
 * every desk were done and refused. */
static bool commands_are_enough(const struct totals *totals)
{
    bool is_enough = totals->halves > 0 && totals->thirds > 0 && totals->by_desk[3][1] > 0 && totals->noted_behind_stores > 0;
    for (size_t desk = 0; desk < 3; desk++) {
        is_enough = is_enough && totals->by_desk[desk][0] > 0 && totals->by_desk[desk][1] > 0;
    }
    for (size_t tag = 0; tag < TAG_COUNT; tag++) {
        is_enough = is_enough && totals->commands[tag] > 0;
    }
    return is_enough;
}

static void try_one(struct options options, uint64_t number, struct totals *totals)
{
    static struct input input, before;
    struct world world;
    struct effect effect;
    struct random random = random_stream(options.seed, number);
    both_at(options.seed, number, 0);
    make_world(&random, &world, random_between(&random, 1, 4));
    if (random_percent(&random, 40)) {
        make_command_input(&random, &world.ends[0], &input);
    } else {
        make_input(&random, &world.ends[0], &input);
    }
    before = input;
    read_document(&input, &effect);
    call_watched(&input);
    judge(&before, &effect, totals);
}

int main(int argument_count, char **arguments)
{
    static struct totals totals;
    struct options options = options_of(argument_count, arguments, 2000);
    if (RUNNING_ON_VALGRIND) {
        puts("stores: not run, valgrind has no trap flag");
        return 0;
    }
    both_prepare("stores");
    image_area = guarded_new();
    output_area = guarded_new();
    notes_area = guarded_new();
    events_area = guarded_new();
    watch();
    for (uint64_t i = 0; i < options.count; i++) {
        try_one(options, options.from + i, &totals);
    }
    printf("stores: seed %" PRIu64 ", %" PRIu64 " calls, %" PRIu64 " done and %" PRIu64 " refused; %" PRIu64 " stores, %" PRIu64
           " of them seen singly, those of %" PRIu64 " rekeys among them; %" PRIu64 " writes into notes and events, by %" PRIu64
           " calls behind stores; every image between two instructions was that of a cut, and no output, report or event came before the last store\n",
           options.seed, totals.calls, totals.done, totals.refused, totals.stores, totals.states, totals.thirds, totals.note_writes,
           totals.noted_behind_stores);
    if (options.count >= ENOUGH_FOR_EVERY_COMMAND && !commands_are_enough(&totals)) {
        puts("stores: too few commands were watched");
        return 1;
    }
    return 0;
}

#endif
