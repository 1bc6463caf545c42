/* 'A refusal .. decrypts nothing' (document 01, 'What comes back'), in what the compiler made of the module. GCM decrypts by adding a
 * keystream to the data, the encryptions of IV || 2, IV || 3 and so on. Checks under service 2 run one instruction after another, by the
 * processor's trap flag, on a stack of their own; after each instruction the octets that it changed in the stack and in the output, and the
 * vector registers, are looked at for a block of this keystream and for the clear data; and the general registers for the halves of a block,
 * as the module may hold it in two words of 64 bits and write it nowhere.
 *
 *   a check that is done shows every block of the keystream, and the clear data;
 *   one that is refused shows none of it;
 *   both show what else the cipher has to make for the tag, the encryptions of 0 and of IV || 1, where the MAC is what is judged.
 *
 * So in the very calls that are refused it is known that an encryption would have been seen. It needs Linux on an x86-64 processor, and
 * neither valgrind nor an emulator. */
#include "../include/xistalvo.h"
#include "independent/ciphers.h"
#include "independent/reading.h"

#include <inttypes.h>
#include <stdio.h>
#include <stdlib.h>
#include <string.h>

#if !defined(__x86_64__) || !defined(__linux__)

int main(void)
{
    puts("keystream: not run, it needs Linux on an x86-64 processor");
    return 0;
}

#else

#include <signal.h>
#include <ucontext.h>

enum { TRAP_FLAG = 0x100, RED_ZONE = 128, ROOM = 1 << 16, OUTPUT_ROOM = 64, BLOCK = 16, MOST_BLOCKS = 4 };
enum { LAST = 64 * 7 + 63, WINDOW = 100 };

/* ---- what is looked for, and what was seen of it ---- */

struct sign {
    uint8_t octets[BLOCK];
    bool is_seen, is_half_seen[2];
};

static struct sign of_tag[2], of_data[MOST_BLOCKS + 1];
static size_t of_data_count;

static void look_for(struct sign *signs, size_t count, const void *at)
{
    for (size_t i = 0; i < count; i++) {
        signs[i].is_seen = signs[i].is_seen || memcmp(at, signs[i].octets, BLOCK) == 0;
    }
}

static void look_at(const void *at)
{
    look_for(of_tag, 2, at);
    look_for(of_data, of_data_count, at);
}

/* A half of a block in a register, its first octet the highest or the lowest. */
static void look_for_half(struct sign *signs, size_t count, uint64_t word)
{
    for (size_t i = 0; i < count; i++) {
        for (size_t half = 0; half < 2; half++) {
            uint64_t as_it_lies;
            memcpy(&as_it_lies, signs[i].octets + half * sizeof as_it_lies, sizeof as_it_lies);
            signs[i].is_half_seen[half] = signs[i].is_half_seen[half] || word == as_it_lies || word == __builtin_bswap64(as_it_lies);
        }
        signs[i].is_seen = signs[i].is_seen || (signs[i].is_half_seen[0] && signs[i].is_half_seen[1]);
    }
}

static size_t seen_among(const struct sign *signs, size_t count)
{
    size_t seen = 0;
    for (size_t i = 0; i < count; i++) {
        seen += signs[i].is_seen;
    }
    return seen;
}

/* ---- the watched call ---- */

static uint8_t stack[ROOM] __attribute__((aligned(64))), stack_before[ROOM];
static uint8_t output[OUTPUT_ROOM], output_before[OUTPUT_ROOM];
static uint8_t *frame_of_caller;
static uint64_t steps;

/* All sixteen octets that hold one of an area that has changed. */
static void look_at_changes(const uint8_t *area, uint8_t *before, size_t from, size_t to)
{
    for (size_t i = from; i < to; i++) {
        if (area[i] != before[i]) {
            before[i] = area[i];
            for (size_t at = i < from + BLOCK ? from : i - (BLOCK - 1); at <= i && at + BLOCK <= to; at++) {
                look_at(area + at);
            }
        }
    }
}

static void look_after_step(const mcontext_t *machine)
{
    const uint8_t *lowest = (const uint8_t *)machine->gregs[REG_RSP] - RED_ZONE;
    if (lowest < stack || lowest > frame_of_caller) {
        fputs("keystream: the module left the stack that it was given\n", stderr);
        _Exit(1);
    }
    look_at_changes(stack, stack_before, (size_t)(lowest - stack), (size_t)(frame_of_caller - stack));
    look_at_changes(output, output_before, 0, sizeof output);
    for (size_t i = 0; i < 16; i++) {
        look_at(machine->fpregs->_xmm[i].element);
    }
    for (int i = REG_R8; i <= REG_RSP; i++) {
        look_for_half(of_tag, 2, (uint64_t)machine->gregs[i]);
        look_for_half(of_data, of_data_count, (uint64_t)machine->gregs[i]);
    }
    steps++;
}

/* A breakpoint begins and ends the watch; between the two every instruction traps. What OpenSSL left in the registers is cleared. */
static void on_trap(int signal_number, siginfo_t *information, void *context)
{
    mcontext_t *machine = &((ucontext_t *)context)->uc_mcontext;
    (void)signal_number;
    if (information->si_code == TRAP_TRACE) {
        look_after_step(machine);
    } else {
        machine->gregs[REG_EFL] ^= TRAP_FLAG;
        memset(machine->fpregs->_xmm, 0, sizeof machine->fpregs->_xmm);
    }
}

static void watch(void)
{
    static uint8_t own_stack[ROOM];
    stack_t handler_stack = {.ss_sp = own_stack, .ss_size = sizeof own_stack};
    struct sigaction action;
    memset(&action, 0, sizeof action);
    action.sa_flags = SA_SIGINFO | SA_ONSTACK;
    action.sa_sigaction = on_trap;
    sigaltstack(&handler_stack, NULL);
    sigaction(SIGTRAP, &action, NULL);
}

/* What the call is lent, and what it returns. */
static struct association association;
static uint8_t image[LARGEST_IMAGE], frame[LARGEST_FRAME];
static uint32_t numbers[NUMBER_COUNT];
static xistalvo_notes notes;
static uint8_t events[XISTALVO_EVENTS_LENGTH];
static size_t image_length, frame_length, output_length;
static uint64_t result;
static ucontext_t here, there;

static void run_call(void)
{
    frame_of_caller = __builtin_frame_address(0);
    __asm__ volatile("int3");
    result = xistalvo_check(&notes, events, sizeof events, image, image_length, numbers, NUMBER_COUNT, XISTALVO_KEY_OFFICE,
                            (uint8_t)association.kind, XISTALVO_NO_CHECK_FIELD, frame, frame_length, output, output_length);
    __asm__ volatile("int3");
}

static void call_watched(void)
{
    memset(stack, 0, sizeof stack);
    memset(stack_before, 0, sizeof stack_before);
    memcpy(output_before, output, sizeof output);
    getcontext(&there);
    there.uc_stack.ss_sp = stack;
    there.uc_stack.ss_size = sizeof stack;
    there.uc_link = &here;
    makecontext(&there, run_call, 0);
    swapcontext(&here, &there);
}

/* ---- the inputs ---- */

/* A TM frame has the longest secondary header. */
static size_t header_length(void) { return association.kind == 1 ? 5 : association.kind == 3 ? 6 + 64 : 6; }

/* The receiving end of an association, and a frame for it with so much data and this number. */
static void make_input(unsigned kind, size_t data_length, uint64_t number)
{
    static const uint8_t headers[4][6] = {{0x00, 0x1B, 0x14}, {0x00, 0x1B, 0x14}, {0x01, 0xBA, 0x00, 0x00, 0x80}, {0x46, 0xC5}};
    struct table table = {.version = 1, .count = 1};
    struct header header;
    uint8_t clear[LARGEST_FRAME], sequence[SEQUENCE_LENGTH];
    association = (struct association){.spi = 9, .service = 2, .kind = kind, .direction = 2, .state = 2, .spacecraft = 27, .channel = 5,
                                       .window = WINDOW, .mask = {255, 255, 255, 255, 255}, .mark = LAST / 64};
    for (size_t i = 0; i < KEY_LENGTH; i++) {
        association.key[i] = (uint8_t)(7 * i + kind);
    }
    table.entries[0] = association;
    image_length = write_image(&table, image);
    memset(numbers, 0, sizeof numbers);
    numbers[0] = LAST;
    size_t clear_length = header_length() + data_length;
    memset(clear, 63, header_length());
    memcpy(clear, headers[kind - 1], 6);
    for (size_t i = 0; i < data_length; i++) {
        clear[header_length() + i] = (uint8_t)(200 - 3 * i);
    }
    if (has_length_field(kind)) {
        write_tc_length(clear, clear_length);
    }
    if (!read_clear_frame(kind, false, clear, clear_length, &header)) {
        fputs("keystream: a clear frame does not obey its kind\n", stderr);
        exit(1);
    }
    sequence_of_number(number, sequence);
    frame_length = protect_frame(&association, &header, sequence, clear, clear_length, frame);
    output_length = data_length;
    memset(output, 0x5A, sizeof output);
}

/* What the cipher makes for the tag and for the data of the frame as it now is. */
static void make_signs(size_t data_length)
{
    const uint8_t *iv = frame + header_length() + 2, *data = iv + SEQUENCE_LENGTH;
    uint8_t counter[BLOCK] = {0};
    memset(of_tag, 0, sizeof of_tag);
    memset(of_data, 0, sizeof of_data);
    encrypt_block(association.key, counter, of_tag[0].octets);
    memcpy(counter, iv, SEQUENCE_LENGTH);
    counter[15] = 1;
    encrypt_block(association.key, counter, of_tag[1].octets);
    of_data_count = (data_length + BLOCK - 1) / BLOCK;
    for (size_t i = 0; i < of_data_count; i++) {
        counter[15]++;
        encrypt_block(association.key, counter, of_data[i].octets);
    }
    if (data_length >= BLOCK) {
        for (size_t i = 0; i < BLOCK; i++) {
            of_data[of_data_count].octets[i] = data[i] ^ of_data[0].octets[i];
        }
        of_data_count++;
    }
}

static void break_image(void) { image[0] = 3; }
static void break_numbers(void) { numbers[0] += 64; }
static void break_version(void) { frame[0] ^= 0x40; }
static void break_spi(void) { frame[header_length()] ^= 1; }
static void break_room(void) { output_length--; }
static void break_header(void) { frame[4] ^= 1; } /* what no rule speaks of, and the mask covers */
static void break_iv(void) { frame[header_length() + 2 + SEQUENCE_LENGTH - 1] ^= 8; }
static void break_data(void) { frame[header_length() + 2 + SEQUENCE_LENGTH] ^= 1; }
static void break_mac(void) { frame[frame_length - 1] ^= 0x80; }

static void leave_no_data(void)
{
    frame_length = header_length() + 2 + SEQUENCE_LENGTH + MAC_LENGTH;
    if (has_length_field(association.kind)) {
        write_tc_length(frame, frame_length);
    }
}

static void leave(void) {}

static const struct trial {
    unsigned answer;
    uint64_t number;
    void (*change)(void);
} trials[] = {
    {0, LAST + 1, leave},         {0, LAST + WINDOW, leave},
    {1, LAST + 1, break_image},   {2, LAST + 1, break_numbers},
    {3, LAST + 1, break_version}, {4, LAST + 1, break_spi},
    {5, LAST + 1, leave_no_data}, {6, LAST + 1, break_room},
    {7, LAST + 1, break_header},  {7, LAST + 1, break_iv},
    {7, LAST + 1, break_data},    {7, LAST + 1, break_mac},
    {7, LAST, break_mac},         {8, LAST, leave},
    {8, LAST + WINDOW + 1, leave},
    {8, (UINT64_C(1) << 32) + LAST + 1, leave},
};

/* ---- what must be seen ---- */

static void fail(const struct trial *trial, const char *sentence)
{
    fprintf(stderr, "keystream: kind %u, %zu octets of output, number %" PRIu64 ", a check that has to answer %u: %s\n", association.kind,
            output_length, trial->number, trial->answer, sentence);
    exit(1);
}

static void judge(const struct trial *trial)
{
    bool judges_mac = trial->answer == 0 || trial->answer >= 7;
    size_t data_seen = seen_among(of_data, of_data_count);
    if (XISTALVO_ANSWER(result) != trial->answer) {
        fail(trial, "it answers otherwise");
    }
    if (judges_mac && seen_among(of_tag, 2) != 2) {
        fail(trial, "the blocks of the tag were not seen, so that nothing can be said");
    }
    if (trial->answer == 0 && data_seen != of_data_count) {
        fail(trial, "keystream or data of a check that was done were not seen, so that nothing can be said");
    }
    if (trial->answer != 0 && data_seen != 0) {
        fail(trial, "something of a refused frame was decrypted");
    }
}

int main(void)
{
    static const size_t data_lengths[] = {1, 17, 40, 33}; /* of the kinds */
    unsigned done = 0, refused = 0;
    watch();
    for (unsigned kind = 1; kind <= 4; kind++) {
        for (size_t i = 0; i < sizeof trials / sizeof trials[0]; i++) {
            make_input(kind, data_lengths[kind - 1], trials[i].number);
            trials[i].change();
            make_signs(data_lengths[kind - 1]);
            call_watched();
            judge(&trials[i]);
            done += trials[i].answer == 0;
            refused += trials[i].answer != 0;
        }
    }
    printf("keystream: %u checks done, whose keystream was seen, and %u refused, in which none was made; %" PRIu64 " instructions\n", done,
           refused, steps);
    return 0;
}

#endif
