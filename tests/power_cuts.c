/* Random runs of loads, sendings, checks and management commands at both ends of a link, with power failing after any stored octet, and demand 3
 * of document 01, as requests 5, 9, 10 and 11 of document 02 have it, held to what really went out and was really released, association by
 * association, over all channels of one together:
 *
 *   no number goes out twice, and none is released twice;
 *   numbers only rise, through stop, expire, rekey, start, windows and set number;
 *   a sent number exceeds the one before by at most 1 plus 64 for each load between them, where no set number, whole or cut, came between;
 *
 * and over all associations together, of service 2: no IV goes out twice under the same key octets, however often associations are rekeyed.
 *
 * And of demand 2: what one end secures the other releases where its number is in the window, and refuses by 8 where it is not, or where the
 * ends make the IV otherwise; by 7 where the ends hold other keys; and by 4 where the association is not operational there, or is another desk's.
 * Calls come from every desk, and from desks that there are not, which are refused by 19.
 *
 * And of request 11: each end has its notes all through a run. Every check and command that was not cut, dump and erase excepted, is counted here too,
 * and kept plus dropped is that count since the last erase; a cut leaves the notes as they were, and so does a load.
 *
 *   power_cuts [--seed S] [--count N] [--from W]
 *
 * The count is of steps; a run has 400 of them. A cut call is the first j stores of the call it cuts, made by xistalvo_raise or, of a command,
 * by xistalvo_command_cut, and hands out nothing; every j is tried on a copy, one is kept, and the end loads again, as it must after power was
 * lost.
 *
 * Runs with an even number look at the module alone: what they conclude owes nothing to the independent reading, which only lays out and
 * reads images there. In the others each call is compared with it too (support/both.h). */
#include "support/both.h"
#include "support/commands.h"
#include "support/options.h"
#include "support/worlds.h"

#include <inttypes.h>
#include <stdio.h>
#include <string.h>

enum { STEPS_PER_RUN = 400, ENOUGH_FOR_EVERY_COMMAND = 20000, ENOUGH_FOR_KEYS = 100000, MOST_ASSOCIATIONS = 4, FRAMES_KEPT = 200, SMALL_FRAME = 128 };

/* A frame on the way, as the sending end handed it out. */
struct sent_frame {
    uint8_t frame[SMALL_FRAME];
    size_t length;
    uint32_t number;
    uint8_t data[SMALL_FRAME];
    size_t data_length;
    struct association under; /* as it was at the sending end */
};

/* What no two frames of service 2 may share. */
struct used_iv {
    uint8_t key[KEY_LENGTH];
    uint8_t iv[SEQUENCE_LENGTH];
    size_t entry;
};

/* What went out and what was released under one association. Each association has one sending end. */
struct history {
    bool has_sent;
    uint32_t sent;
    unsigned channel; /* of the last frame sent */
    uint64_t loads_since; /* at the sending end, since the last sending */
    bool is_lifted;       /* a set number came between, at the sending end */
    bool has_released;
    uint32_t released;
    size_t frame_count;
    struct sent_frame frames[FRAMES_KEPT];
};

struct run {
    struct options options;
    struct random random;
    struct world world;
    size_t count;
    struct history histories[MOST_ASSOCIATIONS];
    size_t iv_count;
    struct used_iv ivs[STEPS_PER_RUN];
    struct input input;   /* the call that is prepared */
    bool is_tampered;     /* its frame is not as it was sent */
    uint64_t steps, loads, sent, changes /* of the channel under one association */, released, refused, cut_sendings, cut_checks, cuts_tried;
    uint64_t commands[TAG_COUNT], cut_commands[TAG_COUNT]; /* done, and cut */
    uint64_t lifted;                                       /* sendings after a set number */
    uint64_t odd_windows;                                  /* windows outside 1 to 1,024 that a cut left */
    uint64_t shared;                                       /* frames of service 2 under a key under which another association had sent */
    uint64_t changed_keys;                                 /* frames sent under another key than the association's frame before */
    uint64_t half_ids;                                     /* key IDs of which a cut left one octet new and one old */
    uint64_t other_keys, other_ivs;                        /* frames refused because the ends held other keys, or make the IV otherwise */
    uint64_t by_desk[3], cut_by_desk[3];                   /* calls done, and cut */
    uint64_t unseen, no_desks, not_theirs;                 /* refused: another's SPI; by 19, for the desk, or for a command of the office's */
    uint64_t events[2];                                    /* by end: those since the last erase, and what was there at the start */
    uint64_t noted, full, erases;                          /* events, and of them those that found the log full; erases done */
};

static void association_of(const struct run *run, size_t side, size_t entry, struct association *association)
{
    struct table table;
    table_of(&run->world.ends[side], &table);
    *association = table.entries[entry];
}

/* ---- the notes ---- */

static uint64_t events_told(const struct end *end) { return (uint64_t)kept_in(&end->record) + end->record.notes.dropped; }

/* Keeps for an end what a call that was not cut left of its notes, and counts the call. */
static void note_call(struct run *run, size_t side, unsigned answer)
{
    struct end *end = &run->world.ends[side];
    bool is_counted = is_event(&run->input);
    bool is_full = kept_in(&end->record) == room_for_events(end->record.events_length);
    run->noted += is_counted;
    run->full += is_counted && is_full;
    run->events[side] += is_counted;
    if (run->input.which == CALL_COMMAND && run->input.frame[0] == TAG_ERASE && answer == 0) {
        run->erases++;
        run->events[side] = 0;
    }
    notes_of_input(end, &run->input);
    bool is_stuck = end->record.notes.dropped == UINT32_MAX;
    if (is_stuck ? events_told(end) > run->events[side] : events_told(end) != run->events[side]) {
        both_fail("kept plus dropped is not the number of the events since the last erase");
    }
}

/* ---- a restart ---- */

static void count_load(struct run *run, size_t side)
{
    struct association association;
    for (size_t i = 0; i < run->count; i++) {
        association_of(run, side, i, &association);
        run->histories[i].loads_since += association.direction == 1;
    }
    run->loads++;
}

static void load(struct run *run, size_t side)
{
    input_of_end(&run->input, CALL_LOAD, &run->world.ends[side]);
    if (both_run(&run->random, &run->input).answer != 0) {
        both_fail("an image that calls and cuts left does not load");
    }
    end_of_input(&run->world.ends[side], &run->input);
    count_load(run, side);
}

/* ---- the conclusions ---- */

static void note_sent(struct run *run, struct history *history, uint32_t number, unsigned channel)
{
    if (history->has_sent && number <= history->sent) {
        both_fail("demand 3: a number went out that does not exceed the one before");
    }
    if (history->has_sent && !history->is_lifted && (uint64_t)number - history->sent > 1 + 64 * history->loads_since) {
        both_fail("demand 3: a number went out that exceeds the one before by more than 1 plus 64 for each load");
    }
    run->changes += history->has_sent && channel != history->channel;
    history->has_sent = true;
    history->channel = channel;
    history->sent = number;
    history->loads_since = 0;
    run->lifted += history->has_sent && history->is_lifted;
    history->is_lifted = false;
    run->sent++;
}

/* 'no IV goes out twice under one key', whichever associations send. */
static void note_iv(struct run *run, const struct association *association, size_t entry, const uint8_t iv[SEQUENCE_LENGTH])
{
    bool is_shared = false;
    for (size_t i = 0; i < run->iv_count; i++) {
        const struct used_iv *used = &run->ivs[i];
        bool is_same_key = memcmp(used->key, association->key, KEY_LENGTH) == 0;
        if (is_same_key && memcmp(used->iv, iv, SEQUENCE_LENGTH) == 0) {
            both_fail("demand 3: an IV went out twice under one key");
        }
        is_shared = is_shared || (is_same_key && used->entry != entry);
    }
    struct used_iv *used = &run->ivs[run->iv_count++];
    memcpy(used->key, association->key, KEY_LENGTH);
    memcpy(used->iv, iv, SEQUENCE_LENGTH);
    used->entry = entry;
    run->shared += is_shared;
}

static void note_released(struct run *run, struct history *history, uint32_t number)
{
    if (history->has_released && number <= history->released) {
        both_fail("demand 3: a number was released that does not exceed the one before");
    }
    history->has_released = true;
    history->released = number;
    run->released++;
}

/* ---- calls ---- */

/* Every second association but AOS has a check field in its frames. */
static bool ends_in_field(const struct association *association)
{
    return association->kind != 4 && association->spi % 2 == 0;
}

/* What the header of a secured frame says. */
static struct header header_in(const uint8_t *frame, size_t length, const struct association *association)
{
    struct header header;
    if (!read_secured_frame(association->kind, ends_in_field(association), frame, length, &header)) {
        both_fail("a frame that went out does not obey its kind");
    }
    return header;
}

/* The number that a secured frame carries, read from its octets. */
static uint32_t number_in(const uint8_t *frame, size_t length, const struct association *association)
{
    size_t end = header_in(frame, length, association).length + security_header_length(association->service);
    return (uint32_t)frame[end - 4] << 24 | (uint32_t)frame[end - 3] << 16 | (uint32_t)frame[end - 2] << 8 | frame[end - 1];
}

/* What the prepared call, which is about this association, is refused by for its desk alone; 0 where the desk sees the association. */
static unsigned answer_to_desk(struct run *run, const struct association *association)
{
    unsigned answer = run->input.desk > 2 ? 19 : run->input.desk != 0 && run->input.desk != association->owner ? 4 : 0;
    run->no_desks += answer == 19;
    run->unseen += answer == 4;
    return answer;
}

/* Most calls come from a desk that may make them, so that most of a run is spent on what is done. */
static uint8_t desk_for(struct run *run, const struct association *association, bool is_the_office)
{
    if (random_percent(&run->random, 10)) {
        return any_desk(&run->random, association);
    }
    return (uint8_t)(is_the_office || random_percent(&run->random, 40) ? KEY_OFFICE : association->owner);
}

/* Prepares a sending of one to twenty octets of data. */
static void prepare_sending(struct run *run, size_t side, size_t entry, struct association *association)
{
    struct input *input = &run->input;
    association_of(run, side, entry, association);
    input_of_end(input, CALL_SECURE, &run->world.ends[side]);
    input->desk = desk_for(run, association, false);
    input->kind = (uint8_t)association->kind;
    input->spi = (uint16_t)association->spi;
    input->check_field = ends_in_field(association) ? 1 : 0;
    input->frame_length = make_clear_frame(&run->random, association, input->check_field != 0, random_between(&run->random, 1, 20),
                                           input->frame);
    input->output_length = SMALL_FRAME;
}

static void keep_frame(struct run *run, struct history *history, const struct association *association, size_t length)
{
    struct sent_frame *kept = &history->frames[history->frame_count++ % FRAMES_KEPT];
    struct header header = header_in(run->input.output, length, association);
    kept->length = length;
    memcpy(kept->frame, run->input.output, length);
    kept->number = number_in(kept->frame, length, association);
    const struct sent_frame *before = history->frame_count < 2 ? kept : &history->frames[(history->frame_count - 2) % FRAMES_KEPT];
    run->changed_keys += before != kept && memcmp(before->under.key, association->key, KEY_LENGTH) != 0;
    kept->under = *association;
    kept->data_length = run->input.frame_length - header.length - header.trailer;
    memcpy(kept->data, run->input.frame + header.length, kept->data_length);
}

static void send(struct run *run, size_t side, size_t entry)
{
    struct association association;
    prepare_sending(run, side, entry, &association);
    bool is_last = run->input.numbers[entry] == UINT32_MAX;
    struct outcome outcome = both_run(&run->random, &run->input);
    unsigned due = answer_to_desk(run, &association);
    if (outcome.answer != (due != 0 ? due : association.state != 2 ? 4 : is_last ? 10 : 0)) {
        both_fail("demand 2: a frame was not secured, or a number was left where none is, or the association is not operational or another desk's");
    }
    if (outcome.answer != 0) {
        run->refused++;
        return;
    }
    end_of_input(&run->world.ends[side], &run->input);
    run->by_desk[run->input.desk]++;
    note_sent(run, &run->histories[entry], number_in(run->input.output, outcome.length, &association),
              header_in(run->input.output, outcome.length, &association).channel);
    if (association.service == 2) {
        note_iv(run, &association, entry, run->input.output + header_in(run->input.output, outcome.length, &association).length + 2);
    }
    keep_frame(run, &run->histories[entry], &association, outcome.length);
}

/* A frame that was sent: mostly one of the last few, so that windows are met; sometimes an old one, sometimes with a wrong bit. */
static const struct sent_frame *prepare_check(struct run *run, size_t side, size_t entry, struct association *association)
{
    struct history *history = &run->histories[entry];
    struct input *input = &run->input;
    size_t known = history->frame_count < FRAMES_KEPT ? history->frame_count : FRAMES_KEPT;
    size_t back = random_below(&run->random, (uint32_t)(random_percent(&run->random, 75) && known > 5 ? 5 : known));
    const struct sent_frame *frame = &history->frames[(history->frame_count - 1 - back) % FRAMES_KEPT];
    association_of(run, side, entry, association);
    input_of_end(input, CALL_CHECK, &run->world.ends[side]);
    input->desk = desk_for(run, association, false);
    input->kind = (uint8_t)association->kind;
    input->check_field = ends_in_field(association) ? 1 : 0;
    input->frame_length = frame->length;
    memcpy(input->frame, frame->frame, frame->length);
    run->is_tampered = random_percent(&run->random, 5);
    if (run->is_tampered) {
        input->frame[random_below(&run->random, (uint32_t)frame->length)] ^= (uint8_t)(1u << random_below(&run->random, 8));
    }
    input->output_length = SMALL_FRAME;
    return frame;
}

/* What a frame as it was sent is answered by, to a desk that sees the association. */
static unsigned answer_due(struct run *run, const struct sent_frame *frame, const struct association *association, uint32_t last)
{
    bool is_in_window = last < frame->number && frame->number - last <= association->window;
    if (association->state != 2 || !serves_channel(association, header_in(frame->frame, frame->length, association).channel)) {
        return 4;
    }
    if (memcmp(frame->under.key, association->key, KEY_LENGTH) != 0) {
        run->other_keys++;
        return 7;
    }
    if (!make_iv_alike(&frame->under, association)) {
        run->other_ivs++;
        return 8;
    }
    return is_in_window ? 0 : 8;
}

static void check(struct run *run, size_t side, size_t entry)
{
    struct association association;
    if (run->histories[entry].frame_count == 0) {
        return;
    }
    const struct sent_frame *frame = prepare_check(run, side, entry, &association);
    uint32_t last = run->input.numbers[entry];
    struct outcome outcome = both_run(&run->random, &run->input);
    note_call(run, side, outcome.answer);
    unsigned due = answer_to_desk(run, &association);
    if (!run->is_tampered && outcome.answer != (due != 0 ? due : answer_due(run, frame, &association, last))) {
        both_fail("demand 2: a frame as it was sent was not released in the window, or not refused by 8 outside it or for its IV, by 7 for its key "
                  "or by 4 for its channel or its owner");
    }
    if (outcome.answer != 0) {
        run->refused++;
        return;
    }
    end_of_input(&run->world.ends[side], &run->input);
    run->by_desk[run->input.desk]++;
    note_released(run, &run->histories[entry], number_in(run->input.frame, run->input.frame_length, &association));
    if (number_in(run->input.frame, run->input.frame_length, &association) != frame->number || outcome.length != frame->data_length
        || memcmp(run->input.output, frame->data, frame->data_length) != 0) {
        both_fail("data were released that were not sent under that number");
    }
}

/* ---- commands ---- */

/* The key to rekey to: from version 3 on one that is active, by turns any and one that has the octets which the other end uses, if there is one. */
static unsigned key_to_use(struct run *run, size_t side, size_t entry)
{
    struct association other;
    struct table table;
    unsigned id = 0;
    association_of(run, 1 - side, entry, &other);
    table_of(&run->world.ends[side], &table);
    if (table.key_count != 0 && random_percent(&run->random, 50)) {
        size_t any = random_below(&run->random, (uint32_t)table.key_count);
        if (table.keys[any].state == ACTIVE) {
            return table.keys[any].id;
        }
    }
    for (size_t i = 0; i < table.key_count; i++) {
        if (table.keys[i].state == ACTIVE) {
            id = table.keys[i].id;
        }
        if (table.keys[i].state == ACTIVE && memcmp(table.keys[i].octets, other.key, KEY_LENGTH) == 0) {
            break;
        }
    }
    return id;
}

/* Whether the association may start, as far as its key goes. */
static bool has_active_key(const struct run *run, size_t side, const struct association *association)
{
    struct table table;
    table_of(&run->world.ends[side], &table);
    size_t named = find_key(&table, association->key_id);
    return !association->names_key || (named < table.key_count && table.keys[named].state == ACTIVE);
}

/* The command that brings an association nearer to serving. */
static void prepare_way_back(struct run *run, size_t side, size_t entry, const struct association *association)
{
    struct input *input = &run->input;
    bool is_allowed = 1 <= association->window && association->window <= 1024;
    if (association->state == 0) {
        put_rekey(input, association->spi, key_to_use(run, side, entry));
    } else if (!has_active_key(run, side, association)) {
        put_spi_alone(input, random_percent(&run->random, 50) ? TAG_ACTIVATION : TAG_EXPIRE,
                      random_percent(&run->random, 50) ? association->key_id : association->spi);
    } else if (!is_allowed) {
        put_set_window(input, association->spi, random_between(&run->random, 64, 1024));
    } else {
        put_start(input, association->spi, name_of_channel(association, any_channel(&run->random, association)));
    }
}

/* The key that a command is to be about: any, where there are keys. */
static void any_key_named(struct run *run, size_t side, struct association *association)
{
    struct table table;
    table_of(&run->world.ends[side], &table);
    if (table.key_count != 0) {
        association->key_id = table.keys[random_below(&run->random, (uint32_t)table.key_count)].id;
    }
}

/* Any command about the association, or, where it is at rest, mostly the one that it needs. */
static void prepare_command(struct run *run, size_t side, size_t entry, struct association *association)
{
    struct input *input = &run->input;
    association_of(run, side, entry, association);
    input_of_end(input, CALL_COMMAND, &run->world.ends[side]);
    uint32_t chance = random_below(&run->random, 100);
    if (association->state != 2 && chance < (association->state == 0 ? 65 : 45)) {
        prepare_way_back(run, side, entry, association);
    } else if (association->state != 2 && chance < 88) {
        make_command(&run->random, input, chance < 60 ? TAG_EXPIRE : TAG_SET_WINDOW, association, input->numbers[entry]);
    } else if (association->state == 2 && chance < 6) {
        make_command(&run->random, input, TAG_STOP, association, input->numbers[entry]);
    } else {
        any_key_named(run, side, association);
        make_command(&run->random, input, every_tag[random_below(&run->random, TAG_COUNT)], association, input->numbers[entry]);
    }
    input->desk = desk_for(run, association, is_office_only(input->frame[0]) || input->frame[0] == TAG_PING);
    input->output_length = input->frame[0] == TAG_DUMP ? LARGEST_FRAME : SMALL_FRAME;
}

/* The entry that the prepared command names, which need not be the one it was made for; the count where it names none. */
static size_t entry_named(const struct run *run, size_t side)
{
    struct association association;
    size_t entry = 0;
    for (; entry < run->count; entry++) {
        association_of(run, side, entry, &association);
        if (run->input.frame_length >= 5 && names_spi(run->input.frame[0]) && run->input.frame[3] * 256u + run->input.frame[4] == association.spi) {
            break;
        }
    }
    return entry;
}

/* Where set number is done or cut, the limit of what goes out next is lifted, if this end is the one that sends. */
static void note_command(struct run *run, size_t side, size_t entry, unsigned tag)
{
    struct association association;
    association_of(run, side, entry, &association);
    if (tag == TAG_SET_NUMBER && association.direction == 1) {
        run->histories[entry].is_lifted = true;
    }
}

static uint32_t number_of_reply(const uint8_t *reply)
{
    return (uint32_t)reply[13] << 24 | (uint32_t)reply[14] << 16 | (uint32_t)reply[15] << 8 | reply[16];
}

/* What a done command leaves, seen without the reading's command: the entry as it says, and every other octet as it was. */
static void judge_command(const struct end *before, const struct end *after, size_t entry, const struct input *input)
{
    struct table table;
    uint8_t expected[LARGEST_IMAGE];
    unsigned tag = input->frame[0];
    uint32_t last = before->numbers[entry], last_after = after->numbers[entry];
    table_of(before, &table);
    struct association *changed = &table.entries[entry];
    if (tag == TAG_STATUS && input->output[5] != changed->state) {
        both_fail("status gives another state than the image holds");
    }
    if (tag == TAG_READ_NUMBER && number_of_reply(input->output) != last) {
        both_fail("read number gives another number than the last");
    }
    switch (tag) {
    case TAG_START: changed->state = 2; break;
    case TAG_STOP: changed->state = 1; break;
    case TAG_REKEY: changed->state = 1, changed->key_id = input->frame[5] * 256u + input->frame[6]; break;
    case TAG_EXPIRE: changed->state = 0; break;
    case TAG_SET_WINDOW: changed->window = input->frame[5] * 256u + input->frame[6]; break;
    case TAG_SET_NUMBER: changed->mark = last_after / 64; break;
    default: break;
    }
    if (write_image(&table, expected) != after->image_length || memcmp(after->image, expected, after->image_length) != 0) {
        both_fail("a done command left the image otherwise than it says");
    }
    if (tag == TAG_SET_NUMBER ? last_after <= last || last_after - last > 1024 : last_after != last) {
        both_fail("a command moved a number that it must not move, or otherwise than up by 1 to 1,024");
    }
}

/* The same of a command about keys: one state, and what an inventory lists. */
static void judge_key_command(const struct end *before, const struct end *after, const struct input *input)
{
    struct table table;
    uint8_t expected[LARGEST_IMAGE];
    size_t listed = 0;
    table_of(before, &table);
    for (size_t i = 0; i < table.key_count; i++) {
        unsigned first = input->frame[3] * 256u + input->frame[4], last = input->frame[5] * 256u + input->frame[6];
        struct key *key = &table.keys[i];
        const uint8_t *place = input->output + 5 + 3 * listed;
        if (input->frame[0] == TAG_INVENTORY && first <= key->id && key->id <= last) {
            if (place[0] * 256u + place[1] != key->id || place[2] != key->state) {
                both_fail("an inventory does not tell of a key what the image holds");
            }
            listed++;
        } else if (input->frame[0] != TAG_INVENTORY && key->id == first) {
            key->state = input->frame[0] == TAG_ACTIVATION ? ACTIVE : DEACTIVATED;
        }
    }
    if (input->frame[0] == TAG_INVENTORY && input->output[4] != listed) {
        both_fail("an inventory counts other keys than it lists");
    }
    if (write_image(&table, expected) != after->image_length || memcmp(after->image, expected, after->image_length) != 0
        || memcmp(before->numbers, after->numbers, sizeof after->numbers) != 0) {
        both_fail("a done command about keys left image or numbers otherwise than it says");
    }
}

/* Of a command that is made right: 19 to a desk that there is not, and to a laboratory's about keys; 14 where another desk owns the association. */
static void judge_desk(struct run *run, size_t side, size_t entry, unsigned answer)
{
    struct association association = {.owner = run->input.desk};
    if (entry < run->count) {
        association_of(run, side, entry, &association);
    }
    unsigned due = answer_to_desk(run, &association);
    if (due == 0 && run->input.desk != 0 && is_office_only(run->input.frame[0])) {
        due = 19;
        run->not_theirs++;
    }
    if ((due != 0) != (answer == 19 || (entry < run->count && answer == 14)) || (due == 19) != (answer == 19)) {
        both_fail("a command was not refused by 19 or 14 to a desk that may not give it, or was to one that may");
    }
}

static void command(struct run *run, size_t side, size_t for_entry)
{
    struct association association;
    struct end before = run->world.ends[side];
    prepare_command(run, side, for_entry, &association);
    size_t entry = entry_named(run, side);
    struct outcome outcome = both_run(&run->random, &run->input);
    note_call(run, side, outcome.answer);
    judge_desk(run, side, entry, outcome.answer);
    if (outcome.answer != 0) {
        run->refused++;
        return;
    }
    end_of_input(&run->world.ends[side], &run->input);
    run->by_desk[run->input.desk]++;
    run->commands[index_of_tag(run->input.frame[0])]++;
    if (entry < run->count) {
        judge_command(&before, &run->world.ends[side], entry, &run->input);
        note_command(run, side, entry, run->input.frame[0]);
    } else if (is_about_keys(run->input.frame[0])) {
        judge_key_command(&before, &run->world.ends[side], &run->input);
    }
}

/* ---- cuts ---- */

/* Makes the first j stores of a call in the image of an end, and gives how many were made. */
static uint32_t store_first(struct run *run, struct end *end, size_t entry, const struct input *whole, uint32_t j)
{
    static struct input input;
    if (whole->which != CALL_COMMAND) {
        return both_raise(&run->random, end->image, end->image_length, (uint8_t)entry, whole->numbers[entry], j);
    }
    input = *whole;
    memcpy(input.image, end->image, end->image_length);
    memcpy(input.numbers, end->numbers, sizeof end->numbers);
    uint32_t made = both_cut_command(&run->random, &input, j);
    memcpy(end->image, input.image, end->image_length);
    return made;
}

/* The mark in an image, by a load. */
static uint32_t mark_in(struct run *run, const struct end *end, const uint8_t *image, size_t entry)
{
    static struct input input;
    input_of_end(&input, CALL_LOAD, end);
    memcpy(input.image, image, input.image_length);
    if (both_run(&run->random, &input).answer != 0) {
        both_fail("an image does not load after a cut");
    }
    if (input.numbers[entry] % 64 != 63) {
        both_fail("a load after a cut does not give 64m + 63");
    }
    return input.numbers[entry] / 64;
}

/* The image after the first j stores: it loads, with a mark that each raise made one higher and that no other store moved, and once all are
 * made it is the one that the whole call leaves. */
static void try_cut(struct run *run, const struct end *end, size_t entry, uint32_t j, const struct input *whole, uint32_t stores)
{
    struct end after = *end;
    bool raises = whole->which != CALL_COMMAND || whole->frame[0] == TAG_SET_NUMBER;
    uint32_t made = store_first(run, &after, entry, whole, j);
    if (made != (j < stores ? j : stores)) {
        both_fail("a cut made another number of stores than it was asked for");
    }
    if (j >= stores && memcmp(after.image, whole->image, whole->image_length) != 0) {
        both_fail("all stores of a cut call do not make the image of the whole call");
    }
    if (mark_in(run, end, after.image, entry) != end->numbers[entry] / 64 + (raises ? made : 0)) {
        both_fail("a cut left another mark than that which each raise made one higher");
    }
    run->cuts_tried++;
}

/* With the numbers from before the cut, calls answer 2 until the end loads, once a store was made. */
static void try_stale_numbers(struct run *run, const struct end *end, const struct input *prepared)
{
    static struct input input;
    input = *prepared;
    memcpy(input.image, end->image, end->image_length);
    if (both_run(&run->random, &input).answer != 2) {
        both_fail("a call after a cut and before a load was not refused by 2");
    }
}

/* The call that is prepared would be done; power fails in it. */
static bool cut_call(struct run *run, size_t side, size_t entry)
{
    static struct input prepared, whole;
    struct end *end = &run->world.ends[side];
    prepared = run->input;
    whole = run->input;
    struct outcome outcome = both_run(&run->random, &whole);
    if (outcome.answer != 0) {
        run->refused++;
        return false;
    }
    run->cut_by_desk[run->input.desk]++;
    for (uint32_t j = 0; j <= outcome.stores + 1; j++) {
        try_cut(run, end, entry, j, &whole, outcome.stores);
    }
    uint32_t j = random_between(&run->random, 0, outcome.stores);
    uint32_t mark = mark_in(run, end, end->image, entry);
    store_first(run, end, entry, &whole, j);
    if (mark_in(run, end, end->image, entry) != mark) {
        try_stale_numbers(run, end, &prepared);
    }
    load(run, side);
    return true;
}

static void cut_sending(struct run *run, size_t side, size_t entry)
{
    struct association association;
    prepare_sending(run, side, entry, &association);
    run->cut_sendings += cut_call(run, side, entry);
}

static void cut_check(struct run *run, size_t side, size_t entry)
{
    struct association association;
    if (run->histories[entry].frame_count != 0) {
        prepare_check(run, side, entry, &association);
        run->cut_checks += cut_call(run, side, entry);
    }
}

static void cut_command(struct run *run, size_t side, size_t for_entry)
{
    struct association association, before;
    prepare_command(run, side, for_entry, &association);
    size_t entry = entry_named(run, side);
    unsigned tag = run->input.frame[0], id = run->input.frame[5] * 256u + run->input.frame[6];
    if (entry == run->count && names_spi(tag)) {
        return;
    }
    association_of(run, side, entry % run->count, &before);
    if (cut_call(run, side, entry % run->count)) {
        run->cut_commands[index_of_tag(tag)]++;
        note_command(run, side, entry % run->count, tag);
        association_of(run, side, entry % run->count, &association);
        run->odd_windows += tag == TAG_SET_WINDOW && (association.window < 1 || association.window > 1024);
        run->half_ids += tag == TAG_REKEY && association.key_id != id && association.key_id != before.key_id;
    }
}

/* ---- runs ---- */

/* All associations operational; the receiving end starts near the sending one, or far below it where the run is to show refusals. */
static void start_run(struct run *run, uint64_t number)
{
    struct table table, other;
    uint8_t keys[MOST_ASSOCIATIONS][KEY_LENGTH];
    run->random = random_stream(run->options.seed, number);
    run->count = random_between(&run->random, 1, MOST_ASSOCIATIONS);
    make_world(&run->random, &run->world, run->count);
    table_of(&run->world.ends[0], &table);
    table_of(&run->world.ends[1], &other);
    for (size_t i = 0; i < run->count; i++) { /* a body that names no key, or another, takes one that both ends have */
        const uint8_t *own = table.version < 3 ? table.entries[i].key : other.version < 3 ? other.entries[i].key : table.keys[0].octets;
        bool is_named = has_key_part(table.version) && has_key_part(other.version) && find_key(&table, table.entries[i].key_id) < table.key_count;
        memcpy(keys[i], is_named ? table.entries[i].key : own, KEY_LENGTH);
    }
    for (size_t side = 0; side < 2; side++) {
        table_of(&run->world.ends[side], &table);
        for (size_t i = 0; i < run->count; i++) {
            if (!bring_to_service(&run->random, &table, i, keys[i])) { /* so that most of a run is spent on frames */
                both_fail("an end of the test lacks a key of the other");
            }
            table.entries[i].window = random_percent(&run->random, 80) ? random_between(&run->random, 64, 1024) : 1;
        }
        set_table(&run->world.ends[side], &table);
    }
    for (size_t i = 0; i < run->count; i++) {
        set_number(&run->world.ends[1], i, run->world.ends[0].numbers[i]);
    }
    memset(run->histories, 0, sizeof run->histories);
    run->iv_count = 0;
    for (size_t side = 0; side < 2; side++) {
        if (random_percent(&run->random, 50)) {
            both_freshen(&run->random, &run->world.ends[side].record);
        }
        run->events[side] = events_told(&run->world.ends[side]);
    }
}

static void step(struct run *run)
{
    struct association association;
    size_t entry = random_below(&run->random, (uint32_t)run->count);
    association_of(run, 0, entry, &association);
    size_t sender = association.direction == 1 ? 0 : 1;
    uint32_t chance = random_below(&run->random, 140);
    if (chance >= 115) {
        command(run, random_below(&run->random, 2), entry);
    } else if (chance >= 100) {
        cut_command(run, random_below(&run->random, 2), entry);
    } else if (chance < 3) {
        load(run, random_below(&run->random, 2));
    } else if (chance < 50) {
        send(run, sender, entry);
    } else if (chance < 54) {
        cut_sending(run, sender, entry);
    } else if (chance < 95) {
        check(run, 1 - sender, entry);
    } else {
        cut_check(run, 1 - sender, entry);
    }
}

static void run_once(struct run *run, uint64_t number)
{
    both_compare(number % 2 == 1);
    start_run(run, number);
    for (unsigned i = 0; i < STEPS_PER_RUN && run->steps < run->options.count; i++, run->steps++) {
        both_at(run->options.seed, number, i);
        step(run);
    }
}

static void print_commands(const struct run *run)
{
    printf("commands done and cut:");
    for (size_t tag = 0; tag < TAG_COUNT; tag++) {
        printf("%s %s %" PRIu64 " %" PRIu64, tag == 0 ? "" : ",", tag_names[tag], run->commands[tag], run->cut_commands[tag]);
    }
    printf("; %" PRIu64 " frames sent after a set number, %" PRIu64 " windows outside 1 to 1,024 and %" PRIu64 " halves of key IDs left by cuts\n",
           run->lifted, run->odd_windows, run->half_ids);
    printf("frames sent under a key that another association used before: %" PRIu64 ", under another key than the one before: %" PRIu64
           "; refused for a key that the other end does not use: %" PRIu64 ", for an IV that it makes otherwise: %" PRIu64 "\n",
           run->shared, run->changed_keys, run->other_keys, run->other_ivs);
    printf("calls done and cut, by desk 0, 1, 2: %" PRIu64 " %" PRIu64 ", %" PRIu64 " %" PRIu64 ", %" PRIu64 " %" PRIu64
           "; calls about another desk's association: %" PRIu64
           ", from a desk that there is not: %" PRIu64 ", commands of the key office from a laboratory: %" PRIu64 "\n",
           run->by_desk[0], run->cut_by_desk[0], run->by_desk[1], run->cut_by_desk[1], run->by_desk[2], run->cut_by_desk[2], run->unseen,
           run->no_desks, run->not_theirs);
    printf("events: %" PRIu64 ", of them %" PRIu64 " where the log was full; erases: %" PRIu64 "\n", run->noted, run->full, run->erases);
}

/* Every command was done, and every one that stores was cut; keys were shared and changed; the log was full, and was erased. */
static bool commands_are_enough(const struct run *run)
{
    bool is_enough = run->lifted > 0 && run->odd_windows > 0 && run->unseen > 0 && run->no_desks > 0 && run->not_theirs > 0 && run->erases > 0
        && run->full > 0;
    for (size_t desk = 0; desk < 3; desk++) {
        is_enough = is_enough && run->by_desk[desk] > 0 && run->cut_by_desk[desk] > 0;
    }
    if (run->options.count >= ENOUGH_FOR_KEYS) {
        is_enough = is_enough && run->half_ids > 0 && run->shared > 0 && run->changed_keys > 0 && run->other_keys > 0 && run->other_ivs > 0;
    }
    for (size_t tag = 0; tag < TAG_COUNT; tag++) {
        bool stores = (names_spi(every_tag[tag]) || is_about_keys(every_tag[tag])) && !has_reply(every_tag[tag]);
        is_enough = is_enough && run->commands[tag] > 0 && (run->cut_commands[tag] > 0 || !stores);
    }
    return is_enough;
}

int main(int argument_count, char **arguments)
{
    static struct run run;
    run.options = options_of(argument_count, arguments, 100000);
    both_prepare("power_cuts");
    uint64_t number = run.options.from;
    while (run.steps < run.options.count) {
        run_once(&run, number++);
    }
    print_commands(&run);
    printf("power_cuts: seed %" PRIu64 ", %" PRIu64 " steps in %" PRIu64 " runs: %" PRIu64 " loads, %" PRIu64 " frames sent, %" PRIu64
           " of them of another channel than the one before, %" PRIu64 " released, %" PRIu64 " calls refused, %" PRIu64 " sendings and %" PRIu64 " checks cut, %" PRIu64
           " cuts tried; demand 3 held\n",
           run.options.seed, run.steps, number - run.options.from, run.loads, run.sent, run.changes, run.released, run.refused, run.cut_sendings,
           run.cut_checks, run.cuts_tried);
    bool is_enough = run.sent > 0 && run.changes > 0 && run.released > 0 && run.cut_sendings > 0 && run.cut_checks > 0
        && (run.options.count < ENOUGH_FOR_EVERY_COMMAND || commands_are_enough(&run));
    if (!is_enough) {
        puts("power_cuts: too few steps to show anything");
    }
    return is_enough ? 0 : 1;
}
