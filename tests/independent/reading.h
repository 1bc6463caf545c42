/* An independent reading of document 01, the module's scope paper, and of the requests of document 02 that have landed, over OpenSSL's AES.
 * Nothing here comes from the module's own code: it was written from the papers alone, so that a mistake in reading would have to be made twice.
 *
 * A call is read as a function: from what the caller lends (struct call) to what is to happen (struct effect). It changes nothing itself.
 * Whoever wants the state afterwards carries the effect out; whoever wants a cut carries out the first j of its stores. */
#ifndef READING_H
#define READING_H

#include <stdbool.h>
#include <stddef.h>
#include <stdint.h>

enum {
    MOST_ENTRIES = 32,      /* 'count k, 0 to 32' */
    NUMBER_COUNT = 32,      /* 'There are 32' */
    MOST_KEYS = 64,         /* document 02, request 9: 'up to 64 keys' */
    LARGEST_IMAGE = 3111,   /* of version 4: 7 + 27 * 32 + 35 * 64; those of version 3 end at 3,079, those of versions 1 and 2 at 1,794 */
    LARGEST_FRAME = 2048,   /* of any kind */
    MASK_LENGTH = 6,
    KEY_LENGTH = 32,
    MAC_LENGTH = 16,
    CHECK_FIELD_LENGTH = 2,
    SEQUENCE_LENGTH = 12,   /* an IV's; a number of service 1 has the last 4 octets of it */
    MOST_STORES = 16,       /* 'at most 16 per call' */
    DESK_COUNT = 3,
    REPORT_LENGTH = 4,      /* document 02, request 11: 32 bits */
    EVENT_LENGTH = 3,       /* 'one event (desk, tag or 0, answer)' */
    MOST_EVENTS = 256       /* 'one running log record of 256 events' */
};

/* 'The image': one entry of the contents and its body. */
struct association {
    unsigned spi;
    unsigned service;
    unsigned kind;
    unsigned direction;
    unsigned state;
    unsigned spacecraft;
    unsigned channel; /* or, where it has a set, eight bits, 'the lowest bit for channel 0' */
    bool has_set;     /* document 02, request 2: kind 3 from version 2 on; not laid out */
    unsigned map;
    unsigned window;
    uint8_t mask[MASK_LENGTH];
    bool names_key;   /* document 02, request 9: from version 3 on, whose bodies 'hold a key ID in place of the key'; not laid out */
    unsigned key_id;  /* where it names a key */
    uint8_t key[KEY_LENGTH]; /* the body's own, or that which it names; zeros where there is none of that ID */
    uint32_t mark; /* as a number, not as its code */
    unsigned owner; /* document 02, request 10: 'its owner, 1 or 2, in version 4', laid out there alone; 'older bodies are desk 1's' */
};

/* Document 02, request 9: 'each an ID of 2 octets (rising), a state octet .. and 32 octets' */
enum { PRE_ACTIVE = 0, ACTIVE = 1, DEACTIVATED = 2 };

struct key {
    unsigned id;
    unsigned state;
    uint8_t octets[KEY_LENGTH];
};

struct table {
    unsigned version; /* 1 to 4 */
    size_t count;
    struct association entries[MOST_ENTRIES];
    size_t key_count; /* none below version 3 */
    struct key keys[MOST_KEYS];
};

/* True where the image breaks no rule; the table then holds what it says. */
bool read_image(const uint8_t *image, size_t length, struct table *table);

/* Whether 52 octets are a body that breaks no rule of a version, 1 or 2. */
bool body_allowed(const uint8_t *body, unsigned version);

/* The reverse: lays a table out, and gives the length of the image. Tests no rule, so that tests can break them. */
size_t write_image(const struct table *table, uint8_t *image);

/* The position of a body, of its mark, and of a key, in an image of this version and count. */
size_t body_position(unsigned version, size_t count, size_t entry);
size_t mark_position(unsigned version, size_t count, size_t entry);
size_t key_position(unsigned version, size_t count, size_t key);

/* The key of this ID, as its index, or the count of keys where there is none; and the keys of all entries anew, from what they name. */
size_t find_key(const struct table *table, unsigned id);
void resolve_keys(struct table *table);

/* Document 02, request 10: the desks. 'The key part stays with the key office, whose desk is 0, sees all'; 'A desk sees only its own
 * associations'. */
enum { KEY_OFFICE = 0, GREATEST_DESK = 2 };
bool is_seen(const struct association *association, unsigned desk);

/* Whether versions lay out a key part. */
bool has_key_part(unsigned version);

/* Whether frames of a channel match: it is the association's, or 'is in the set'. */
bool serves_channel(const struct association *association, unsigned channel);

/* The mark and its code: 'm exclusive-or half of m rounded down'. */
uint32_t code_of_mark(uint32_t mark);
uint32_t mark_of_code(uint32_t code);

/* One octet stored in the image. */
struct store {
    size_t position;
    uint8_t octet;
};

/* The store that raises a mark by one, in an image of this version and count, for this entry. */
struct store store_of_raise(unsigned version, size_t count, size_t entry, uint32_t mark);

/* 'Frames': what a header says, once it obeys its kind. */
struct header {
    size_t length;   /* h, a secondary header counted in */
    size_t trailer;  /* f: OCF and check field */
    bool has_field;  /* document 02, request 4: it ends in a check field, as the caller says */
    size_t largest;
    unsigned spacecraft;
    unsigned channel;
    unsigned map;
};

/* True where the frame obeys its kind as a clear frame, or as a secured one, and may end in a check field if it is said to. */
bool read_clear_frame(unsigned kind, bool has_field, const uint8_t *frame, size_t length, struct header *header);
bool read_secured_frame(unsigned kind, bool has_field, const uint8_t *frame, size_t length, struct header *header);

/* The check field of octets; whether a frame ends in that of what stands before it; and writes it there. */
uint16_t check_field_of(const uint8_t *octets, size_t length);
bool check_field_is_right(const uint8_t *frame, size_t length);
void write_check_field(uint8_t *frame, size_t length);

/* Whether frames of a kind have a length field: TC alone. */
bool has_length_field(unsigned kind);

/* Writes the length field of a TC frame of this many octets. */
void write_tc_length(uint8_t *frame, size_t length);

/* The octets of the security header of a service. */
size_t security_header_length(unsigned service);

/* A number in 12 octets, as commands have it and the IV below version 3; and as the IV of an association, whatever its version. */
void sequence_of_number(uint64_t number, uint8_t sequence[SEQUENCE_LENGTH]);
void iv_of_number(const struct association *association, uint64_t number, uint8_t sequence[SEQUENCE_LENGTH]);

/* The secured frame for a clear one that obeys its kind, with any sequence number, and its length. */
size_t protect_frame(const struct association *association, const struct header *header, const uint8_t sequence[SEQUENCE_LENGTH],
                     const uint8_t *clear, size_t clear_length, uint8_t *secured);

/* Document 02, request 11: reports and log, but for the list of the log's events, of which the first so many as are kept count. */
struct notes {
    uint8_t reports[DESK_COUNT][REPORT_LENGTH];
    uint32_t kept;
    uint32_t dropped;
};

void fresh_notes(struct notes *notes);

/* What a caller lends. Of the output only the length counts: no call reads it. */
struct call {
    const uint8_t *image;
    size_t image_length;
    const uint32_t *numbers;
    size_t numbers_length;
    unsigned desk; /* of all but a load */
    unsigned kind;
    bool has_field;
    unsigned spi; /* securing only */
    const uint8_t *frame; /* or, of a command, its octets */
    size_t frame_length;
    size_t output_length;
    const struct notes *notes; /* checking and commands only */
    const uint8_t *events;
    size_t events_length;
};

/* What is to happen. In a refusal only the answer is other than 0, and notes and event: 'A refused call may change report and log and nothing else'. */
struct effect {
    unsigned answer;
    size_t length;                  /* the result fills the start of the output */
    uint8_t result[LARGEST_FRAME];
    size_t store_count;             /* the stores in the image, in order */
    struct store stores[MOST_STORES];
    bool gives_numbers;             /* a load: all 32 numbers */
    uint32_t numbers[NUMBER_COUNT];
    bool sets_number;               /* sending, checking and set number: the number of one entry */
    size_t entry;
    uint32_t number;
    bool changes_notes;             /* checking and commands: the notes as they are to be */
    struct notes notes;
    bool enters_event;              /* an event that is kept: where in the list, and its octets */
    size_t event_at;
    uint8_t event[EVENT_LENGTH];
};

void reading_load(const struct call *call, struct effect *effect);
void reading_secure(const struct call *call, struct effect *effect);
void reading_check(const struct call *call, struct effect *effect);
void reading_command(const struct call *call, struct effect *effect);

/* What calls have in common: the test of 2, an effect without effect, and the stores and the number of a call that takes one. */
bool numbers_agree(const struct call *call, const struct table *table);
void nothing_happens(struct effect *effect);
void take_number(struct effect *effect, const struct table *table, size_t entry, uint32_t number);

/* The notes of a call whose answer stands: of a check, with the SPI of its frame and the number of the entry that it matched; of a command, with what it
 * does to them if it is done. And how many events a list of this length has room for, and how many are kept of those that a call is lent. */
enum note_act { NOTES_NOTHING, RESETS_ALARM, ERASES_LOG };
void notes_after_check(const struct call *call, unsigned spi, uint32_t number, struct effect *effect);
void notes_after_command(const struct call *call, enum note_act act, bool is_about_log, struct effect *effect);
size_t room_for_events(size_t list_length);
size_t events_kept(const struct call *call);

/* Document 02, request 5: a channel of an association as a command names it, in 32 bits. */
uint32_t name_of_channel(const struct association *association, unsigned channel);

/* Carries out the first j stores of an effect; j above their number makes them all. */
void carry_out_stores(const struct effect *effect, size_t j, uint8_t *image);

/* Carries out what an effect does to the notes and to the list of events. A cut call does nothing to them. */
void carry_out_notes(const struct effect *effect, struct notes *notes, uint8_t *events);

/* The public function of the cut, in place: the first 'stores' raises towards number/64. Gives how many were made. */
uint32_t reading_raise(uint8_t *image, size_t length, unsigned entry, uint32_t number, uint32_t stores);

/* 'The listing program': the text for an image, ended by a zero octet. */
enum { LISTING_ROOM = 2048 };
void listing_text(const uint8_t *image, size_t length, char text[LISTING_ROOM]);

/* Document 02, request 12: what is made of a damaged image. */
enum { LARGEST_SALVAGED = 1794, SALVAGE_LINES_ROOM = 32 * 11 + 1, DROPPED = -1 };

struct salvage {
    bool is_refused;
    uint8_t image[LARGEST_SALVAGED];
    size_t length;
    int became[MOST_ENTRIES];        /* of each entry that is counted, its new index, or DROPPED */
    char lines[SALVAGE_LINES_ROOM];  /* for standard error */
};

void salvage_of(const uint8_t *input, size_t length, struct salvage *salvage);

#endif
