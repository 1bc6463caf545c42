/* The link security module, called from C or C++: load an image, secure a frame, check a frame, manage associations, cut a call short; and notes of
 * what came of checks and commands.
 *
 * The module's scope paper decides what it does; what it decides is said here in short, so that this file can be used alone.
 *
 * Memory. The module keeps nothing between calls: image, managed numbers and notes are the caller's. Every pointer goes with the length of the
 * range that it lends for the call, in octets (numbers: in elements). A pointer is never null; a length may be 0, and then the pointer
 * may point anywhere. Ranges lent to one call must not overlap. A call reads and writes nothing outside them. It ends for every input, and
 * has no other condition to meet: whatever the ranges hold, an answer comes back.
 *
 * The image is the table of associations: octet 0 is the version, 1 to 4, octet 1 the count k, 0 to 32, then k entries of 4 octets (SPI,
 * position of the body), then, in versions 1 and 2, k bodies of 52 octets; all in all 2 + 56 k octets, numbers big-endian. Keep it where it
 * outlives a loss of power: a call stores into it one octet at a time, and what a loss leaves after any of these stores is an image to load again.
 * Octet 6 of a body is the virtual channel. From version 2 on, for telemetry, it is a set of channels, the lowest bit for channel 0, and not 0:
 * one association, with one number, for all of them. The window of an operational body is 1 to 1,024; that of another body may be any, as a loss
 * of power in a window change can leave any.
 * In version 3 the keys stand in one place behind the bodies, the key part: a count q, 0 to 64, and q keys of 35 octets (ID, state, 32
 * octets), with IDs that rise. A body has 22 octets, with the ID of a key in place of the key; one more entry of the contents, SPI 65,535 and
 * not counted, has the position of the key part; all in all 7 + 26 k + 35 q octets. The key of an operational body is there and active; other
 * bodies may name any ID. Several associations may share a key: the IV of service 2 is then the SPI in 4 octets, 4 zero octets and the number,
 * and no two of them ever send the same. Below version 3 it is the number in 12 octets. Both ends of an association make it alike.
 * Version 4 is version 3 with one octet more at the end of each body, which has 23, its owner, desk 1 or 2; all in all 7 + 27 k + 35 q octets.
 * What is said of version 3 below, of keys, of the IV and of rekey, holds for version 4 too.
 *
 * Desks. Securing, checking and commands are given for a desk, which the caller names. Desk 0 is the key office's: it sees every association, and
 * it alone gives the commands of the key part, activation, deactivation and inventory. Desks 1 and 2 are those of two laboratories. Each sees the
 * associations that it owns and no others: the SPI of another's is answered as one that is not in the table, by 4 or 14. Below version 4 all
 * are desk 1's, so that desk 0 and desk 1 do there what a call without a desk did, but for desk 1's key commands. A load has no desk. What tells
 * the module the desk of a call is the caller, who has to know it: the module cannot.
 *
 * The managed numbers are uint32_t[32], element i for entry i: the last number sent, accepted or set. They are made by xistalvo_load and
 * changed by xistalvo_secure, xistalvo_check and xistalvo_command. They need not outlive a loss of power; load again after it. numbers_length counts
 * elements and must be 32: with another count no numbers agree with any image, and the answer is 2 (or 1, which comes first).
 *
 * The notes are a frame security report for each desk and one log of events, in memory as the numbers are: a struct (xistalvo_notes) and beside it a
 * list of octets for the log's events, which a check and a command are lent before all else. xistalvo_fresh_notes makes the struct; the list may hold
 * anything at first. Whatever both hold is read as notes: no content of them is an error, and they change no answer but those to the three commands
 * that are about them. A load, a sending and a cut have no notes; notes are kept through a load, or made afresh, as the caller likes.
 * A report has 4 octets, laid out as CCSDS 355.1-B-1 has it, so that it can ride in an operational control field (OCF) as it is: in octet 0 the bits
 * 1 and 100, which say what it is, and then one bit each for the alarm, a bad number, a bad MAC and a bad association; in octets 1 and 2 the SPI; in
 * octet 3 the low octet of a number. xistalvo_notes.h takes it apart. A check by desk 0, 1 or 2 renews the report of that desk, by its answer:
 *
 *   0             no flag; the frame's SPI; the number that the association has afterwards; the alarm stays as it was
 *   1, 2, 3, 12   the alarm is set, and nothing else changes
 *   4             bad association; the frame's SPI; 0 for the number; the alarm is set
 *   5, 6          no flag; SPI and number as for 0; the alarm is set
 *   7             bad MAC; the same
 *   8             bad number; the same
 *
 * A check from a desk above 2, which is answered by 1, 2 or 19, changes no report. An alarm reset clears the alarm of the desk that gives it. No other
 * call changes a report. A report that is changed has its first four bits as they are to be, whatever they were.
 * Each check, and each command whose first octet is not that of dump or erase, is one event, whatever its answer: three octets, the desk as it was
 * handed in, the first octet of the command (0 for a check, and for a command without octets) and the answer. The list has room for as many events as
 * whole ones fit, at most 256, which XISTALVO_EVENTS_LENGTH octets hold. While it has room, the event is written behind those that are kept, and one
 * more is kept; then it is counted as dropped, up to 4,294,967,295, where the count stays. An erase that is done leaves none kept and none dropped, and
 * the octets of the list as they are. Report and event are a call's last effect: a call that power ends leaves none.
 *
 * Calls on one image must follow one another, and so must calls with one set of notes; calls on different images, numbers and notes may run at the
 * same time. */
#ifndef XISTALVO_H
#define XISTALVO_H

#include <stddef.h>
#include <stdint.h>

#ifdef __cplusplus
extern "C" {
#endif

/* The version of this interface. The second number rises where something is added, the first where a program has to change. */
#define XISTALVO_VERSION_MAJOR 4
#define XISTALVO_VERSION_MINOR 0
#define XISTALVO_VERSION "4.0"

/* The managed numbers of one image, in elements. */
#define XISTALVO_NUMBERS 32

/* The image: its version, the most associations and keys, the octets that k associations take, in versions 3 and 4 with q keys, and the most
 * octets of any version. xistalvo_image.h lays one out. */
#define XISTALVO_IMAGE_VERSION 1
#define XISTALVO_IMAGE_VERSION_SETS 2 /* as version 1, but TM associations serve a set of virtual channels */
#define XISTALVO_IMAGE_VERSION_KEYS 3 /* as version 2, but bodies name their keys, which stand in one place */
#define XISTALVO_IMAGE_VERSION_DESKS 4 /* as version 3, but each body has an owner */
#define XISTALVO_MOST_ASSOCIATIONS 32
#define XISTALVO_MOST_KEYS 64
#define XISTALVO_IMAGE_LENGTH(k) (2 + 56 * (k))
#define XISTALVO_IMAGE_LENGTH_3(k, q) (7 + 26 * (k) + 35 * (q))
#define XISTALVO_IMAGE_LENGTH_4(k, q) (7 + 27 * (k) + 35 * (q))
#define XISTALVO_LARGEST_IMAGE 3111

/* Places in an image of k associations: version, count, the SPI of entry i and the position of its body, the body of entry i. What ends in 3
 * or 4 is for that version, where it stands elsewhere; entry k is there that of the key part, with an SPI of its own. A key is alike in both. */
#define XISTALVO_AT_VERSION 0
#define XISTALVO_AT_COUNT 1
#define XISTALVO_AT_SPI(i) (2 + 4 * (i))
#define XISTALVO_AT_POSITION(i) (4 + 4 * (i))
#define XISTALVO_AT_BODY(k, i) (2 + 4 * (k) + 52 * (i))
#define XISTALVO_BODY_LENGTH 52
#define XISTALVO_AT_BODY_3(k, i) (6 + 4 * (k) + 22 * (i))
#define XISTALVO_BODY_LENGTH_3 22
#define XISTALVO_AT_KEY_COUNT_3(k) (6 + 26 * (k))
#define XISTALVO_AT_KEY_3(k, j) (7 + 26 * (k) + 35 * (j)) /* key j of the key part */
#define XISTALVO_KEY_LENGTH_3 35
#define XISTALVO_AT_BODY_4(k, i) (6 + 4 * (k) + 23 * (i))
#define XISTALVO_BODY_LENGTH_4 23
#define XISTALVO_AT_KEY_COUNT_4(k) (6 + 27 * (k))
#define XISTALVO_AT_KEY_4(k, j) (7 + 27 * (k) + 35 * (j))
#define XISTALVO_KEY_PART_SPI 65535

/* Places in a body; key ID and mark stand in version 4 where they do in version 3. */
#define XISTALVO_IN_SERVICE 0
#define XISTALVO_IN_KIND 1
#define XISTALVO_IN_DIRECTION 2
#define XISTALVO_IN_STATE 3
#define XISTALVO_IN_SPACECRAFT 4
#define XISTALVO_IN_CHANNEL 6
#define XISTALVO_IN_MAP 7
#define XISTALVO_IN_WINDOW 8
#define XISTALVO_IN_MASK 10
#define XISTALVO_IN_KEY 16
#define XISTALVO_IN_MARK 48
#define XISTALVO_IN_KEY_ID_3 16
#define XISTALVO_IN_MARK_3 18
#define XISTALVO_IN_OWNER_4 22

/* Places in a key of the key part, and its states. */
#define XISTALVO_IN_KEY_OWN_ID 0
#define XISTALVO_IN_KEY_STATE 2
#define XISTALVO_IN_KEY_OCTETS 3
#define XISTALVO_KEY_PRE_ACTIVE 0
#define XISTALVO_KEY_ACTIVE 1
#define XISTALVO_KEY_DEACTIVATED 2

/* The desks. Any other number is answered by 19. A body's owner is desk 1 or 2. */
#define XISTALVO_KEY_OFFICE 0
#define XISTALVO_DESK_1 1
#define XISTALVO_DESK_2 2
#define XISTALVO_DESKS 3

/* The notes: octets of a report, octets of an event, the most events that a log keeps and the octets of a list that has room for them. */
#define XISTALVO_REPORT_LENGTH 4
#define XISTALVO_EVENT_LENGTH 3
#define XISTALVO_MOST_EVENTS 256
#define XISTALVO_EVENTS_LENGTH 768

typedef struct {
    uint8_t reports[XISTALVO_DESKS * XISTALVO_REPORT_LENGTH]; /* of desks 0, 1, 2, one behind the other */
    uint32_t kept;    /* events that are kept: the first so many of the list; more than it has room for is read as that many, and left as it is */
    uint32_t dropped; /* events that were not */
} xistalvo_notes;

/* The services. */
#define XISTALVO_AUTHENTICATION 1           /* CMAC: the data stay readable; a frame grows by 22 octets */
#define XISTALVO_AUTHENTICATED_ENCRYPTION 2 /* GCM: the data are encrypted too; a frame grows by 30 octets */

/* The frame kinds. Any other number is answered by 3. */
#define XISTALVO_TC 1         /* telecommand, header of 5 octets, at most 1,024 octets */
#define XISTALVO_TC_SEGMENT 2 /* telecommand with segment header, 6 octets, at most 1,024 */
#define XISTALVO_TM 3         /* telemetry, header of 6 octets, at most 2,048, perhaps with a secondary header of 2 to 64 octets behind it, and
                               * with an operational control field (OCF) */
#define XISTALVO_AOS 4        /* AOS, header of 6 octets with version 01, at most 2,048; no length field, insert zone or OCF */

/* Whether frames end in a check field, the frame error control field of CCSDS 232.0 and 132.0, behind the OCF: clear and secured frames alike.
 * Any number but 0 says that they do. AOS frames do not: where one is said to, the answer is 3. */
#define XISTALVO_NO_CHECK_FIELD 0
#define XISTALVO_CHECK_FIELD 1

/* The directions. */
#define XISTALVO_SEND 1
#define XISTALVO_RECEIVE 2

/* The states. Only an operational association serves. */
#define XISTALVO_UNKEYED 0
#define XISTALVO_KEYED 1
#define XISTALVO_OPERATIONAL 2

/* An output of this many octets is long enough for every result. */
#define XISTALVO_LARGEST_FRAME 2048

/* The commands, by their first octet, the tag. Two octets follow with the length of the value, and then the value, nothing behind it. Where a
 * command names an SPI, it is the first field of the value, in 2 octets; a number has 12 octets, of which the first 8 are 0; a key ID has 2.
 * xistalvo_command.h lays commands out. */
#define XISTALVO_TAG_ACTIVATION 0x02   /* key ID; for desk 0 alone, as the next two */
#define XISTALVO_TAG_DEACTIVATION 0x03 /* key ID */
#define XISTALVO_TAG_INVENTORY 0x07    /* first and last key ID */
#define XISTALVO_TAG_READ_NUMBER 0x10  /* SPI */
#define XISTALVO_TAG_SET_WINDOW 0x15   /* SPI, window (2 octets) */
#define XISTALVO_TAG_REKEY 0x16        /* SPI, key ID (2), 0 below version 3, and number (12), 0 */
#define XISTALVO_TAG_EXPIRE 0x19       /* SPI */
#define XISTALVO_TAG_SET_NUMBER 0x1A   /* SPI, number (12) */
#define XISTALVO_TAG_START 0x1B        /* SPI, one channel or more (4 each) */
#define XISTALVO_TAG_STOP 0x1E         /* SPI */
#define XISTALVO_TAG_STATUS 0x1F       /* SPI */
#define XISTALVO_TAG_PING 0x31         /* nothing */
#define XISTALVO_TAG_DUMP 0x33         /* nothing; for desk 0 alone, as the next */
#define XISTALVO_TAG_ERASE 0x34        /* nothing */
#define XISTALVO_TAG_ALARM_RESET 0x37  /* nothing */

/* The tag of a reply is its command's with the first bit set. Replies are laid out as commands are. */
#define XISTALVO_TAG_OF_REPLY(tag) ((tag) | 0x80)

/* The octets of a command, tag and length counted: stop, expire, status and read number are alike, activation and deactivation, and dump, erase and
 * alarm reset. And those of the six replies. */
#define XISTALVO_START_LENGTH(channels) (5 + 4 * (channels))
#define XISTALVO_SPI_ALONE_LENGTH 5
#define XISTALVO_REKEY_LENGTH 19
#define XISTALVO_SET_NUMBER_LENGTH 17
#define XISTALVO_SET_WINDOW_LENGTH 7
#define XISTALVO_PING_LENGTH 3
#define XISTALVO_KEY_ALONE_LENGTH 5
#define XISTALVO_INVENTORY_LENGTH 7
#define XISTALVO_NOTE_COMMAND_LENGTH 3
#define XISTALVO_STATUS_REPLY_LENGTH 6       /* SPI, state (1) */
#define XISTALVO_READ_NUMBER_REPLY_LENGTH 17 /* SPI, number (12) */
#define XISTALVO_PING_REPLY_LENGTH 3         /* nothing */
#define XISTALVO_INVENTORY_REPLY_LENGTH(keys) (5 + 3 * (keys)) /* count (2), and for each key its ID (2) and state (1) */
#define XISTALVO_DUMP_REPLY_LENGTH(events) (3 + 5 * (events))  /* for each event its tag (1), 2 (2), its desk (1) and its answer (1) */
#define XISTALVO_ERASE_REPLY_LENGTH 7        /* events that are kept (2), 0, and the octets that the list has room for events in (2) */
#define XISTALVO_LARGEST_REPLY 1283          /* a dump of 256 events; the other replies have 197 at most, which is an inventory of 64 keys */

/* Limits: of the window of an association that starts, and of one step of set number. */
#define XISTALVO_LARGEST_WINDOW 1024
#define XISTALVO_LARGEST_STEP 1024

/* What a call answers. The first that applies is given, in the order that each call names below. */
enum xistalvo_answer {
    XISTALVO_DONE = 0,                /* Done. */
    XISTALVO_BAD_IMAGE = 1,           /* The image breaks a rule of its layout. */
    XISTALVO_NUMBERS_DISAGREE = 2,    /* For some entry, number/64 rounded down is not the entry's mark; or there are not 32 numbers. */
    XISTALVO_BAD_FRAME = 3,           /* No such kind, or the frame breaks its kind's header rules, length field or size; for TM also where its
                                       * secondary header is bad or leaves no room. */
    XISTALVO_NO_ASSOCIATION = 4,      /* No operational entry that the desk sees has the SPI and matches direction, kind, spacecraft, channel and
                                       * MAP. */
    XISTALVO_SECURED_TOO_SHORT = 5,   /* The secured frame has no room for security header, one octet of data and MAC. */
    XISTALVO_OUTPUT_TOO_SHORT = 6,    /* The output is shorter than the result. */
    XISTALVO_MAC_DIFFERS = 7,         /* The MAC is not the one that key, header, security header and data give. */
    XISTALVO_NUMBER_REFUSED = 8,      /* The frame's number is outside the window, or above 4,294,967,295; from version 3 on also where the IV does
                                       * not begin with the SPI and zeros as it has to. */
    /* 9 is free: it was a padding error, which no call ever gave. */
    XISTALVO_NUMBERS_USED_UP = 10,    /* The last number is already 4,294,967,295; nothing more can be sent. */
    XISTALVO_SECURED_TOO_LONG = 11,   /* The secured frame would be longer than its kind allows. */
    XISTALVO_CHECK_FIELD_DIFFERS = 12, /* The check field is not that of the octets before it. */
    XISTALVO_BAD_COMMAND = 13,        /* No such tag, or not the length that the tag has. */
    XISTALVO_UNKNOWN_SPI = 14,        /* No entry that the desk sees has the command's SPI. */
    XISTALVO_WRONG_STATE = 15,        /* The association's state does not allow the command. */
    XISTALVO_VALUE_REFUSED = 16,      /* A channel, window, number or, below version 3, key ID that is not allowed. */
    XISTALVO_UNKNOWN_KEY = 17,        /* No key has the ID that the command, or for start the association, names. */
    XISTALVO_WRONG_KEY_STATE = 18,    /* The key's state does not allow the command; or a key is to be deactivated that an operational
                                       * association names. */
    XISTALVO_DESK_REFUSED = 19        /* The desk is above 2, or is 1 or 2 and the command one of the key part, a dump or an erase. */
};

/* Load, secure, check and command return one number: bits 0 to 31 hold the length of the result in octets, bits 32 to 39 the number of octets
 * stored in the image, 0 to 16, and bits 40 to 47 the answer. Bits 48 to 63 are 0. A refusal has length 0 and no stores. */
#define XISTALVO_ANSWER(result) ((unsigned int)(((result) >> 40) & 0xFFu))
#define XISTALVO_STORES(result) ((unsigned int)(((result) >> 32) & 0xFFu))
#define XISTALVO_LENGTH(result) ((size_t)((result) & 0xFFFFFFFFu))

/* Makes notes with no alarm, no flag and no event, whatever the struct held: each report is C0 00 00 00, and kept and dropped are 0. */
void xistalvo_fresh_notes(xistalvo_notes *notes);

/* A restart: reads the image and makes the managed numbers, for all desks at once.
 *
 * Answers, in this order: 1; 2, only where numbers_length is not 32; 0.
 * Done: for each entry i of the image, numbers[i] becomes 64 m + 63, where m is the entry's mark; every other element becomes 0. The length
 * and the stores are 0.
 * Refused: the numbers stay as they were. The image is never written. */
uint64_t xistalvo_load(const uint8_t *image, size_t image_length, uint32_t *numbers, size_t numbers_length);

/* Secures a clear frame for a desk, under the association that has this SPI and that the desk sees, for sending.
 *
 * Answers, in this order: 1, 2, 19, 3 (a clear frame has at least one octet of data), 12, 4 (with direction 'send'), 11, 6, 10, 0.
 * Done: the number n is numbers[i] + 1, where i is the entry. First the mark of entry i is raised, one at a time, to n/64 rounded down, one
 * octet of the image stored for each raise; the stores are counted, here 0 or 1. The secured frame fills the start of the output: the
 * header, for TC with its length field rewritten, for TM with its secondary header if it has one; the SPI and n, in 4 octets (service 1) or
 * 12 (service 2; from version 3 on these begin with the SPI once more, in 4 octets); the data, encrypted by service 2; the MAC, 16 octets; the OCF
 * if the frame has one; and where the clear frame ends in a check field, a new one over all of that, headers included. The length is that of
 * the secured frame: 22 more than the clear frame's (service 1) or 30 more (service 2). numbers[i] becomes n. The rest of the output, the
 * rest of the image and the other numbers stay.
 * Refused: image, numbers and output stay as they were. The frame is never written. */
uint64_t xistalvo_secure(uint8_t *image, size_t image_length, uint32_t *numbers, size_t numbers_length, uint8_t desk, uint8_t kind,
                         uint8_t check_field, uint16_t spi, const uint8_t *frame, size_t frame_length, uint8_t *output,
                         size_t output_length);

/* Checks a secured frame that was received, for a desk, and releases its data.
 *
 * Answers, in this order: 1, 2, 19, 3 (a secured frame has at least its SPI), 12, 4 (the SPI of the frame, with direction 'receive', of an
 * association that the desk sees), 5, 6, 7, 8, 0. The frame's number n is accepted where numbers[i] < n, n is at most numbers[i] + window and at
 * most 4,294,967,295, over whole numbers, where i is the entry. From version 3 on n is the last 4 octets of the IV (service 2), and what stands
 * before them has to be the SPI in 4 octets and 4 zero octets, or the answer is 8.
 * Done: first the mark of entry i is raised, one at a time, to n/64 rounded down, one octet of the image stored for each raise; the stores
 * are counted, at most 16. The clear data alone, without headers, OCF and check field, fills the start of the output, and the length is that
 * of the data. numbers[i] becomes n. The rest of the output, the rest of the image and the other numbers stay.
 * Refused: image, numbers and output stay as they were, and nothing is decrypted. The frame is never written.
 * Done or refused, then: the report of the desk is renewed as the table above says, and the event (desk, 0, answer) entered. Of the notes the other
 * reports stay, and of the list all but the octets of an event that is kept. */
uint64_t xistalvo_check(xistalvo_notes *notes, uint8_t *events, size_t events_length, uint8_t *image, size_t image_length, uint32_t *numbers,
                        size_t numbers_length, uint8_t desk, uint8_t kind, uint8_t check_field, const uint8_t *frame, size_t frame_length,
                        uint8_t *output, size_t output_length);

/* The same two calls for a ground station: the same arguments, answers and octets, for every input, by another engine of AES-256, which is
 * quicker. It takes its tables from its own stack, XISTALVO_GROUND_STACK octets in all (xistalvo_stack.h). A program that does not call them
 * carries no tables where its linker drops what is not called. */
uint64_t xistalvo_ground_secure(uint8_t *image, size_t image_length, uint32_t *numbers, size_t numbers_length, uint8_t desk, uint8_t kind,
                                uint8_t check_field, uint16_t spi, const uint8_t *frame, size_t frame_length, uint8_t *output,
                                size_t output_length);
uint64_t xistalvo_ground_check(xistalvo_notes *notes, uint8_t *events, size_t events_length, uint8_t *image, size_t image_length,
                               uint32_t *numbers, size_t numbers_length, uint8_t desk, uint8_t kind, uint8_t check_field, const uint8_t *frame,
                               size_t frame_length, uint8_t *output, size_t output_length);

/* Carries out one management command for a desk: octets as it sends them, which the caller has checked to be that desk's (xistalvo_check).
 *
 * The state goes from unkeyed by rekey to keyed, by start to operational, by stop back to keyed and by expire back to unkeyed; each asks for the
 * state that it leaves. Number and mark stay through all of them, and so does the key below version 3; from version 3 on rekey names the key that
 * is used from then on. Direction and kind make no difference. Keys go from pre-active by activation to active and by deactivation to deactivated.
 * Dump, erase and alarm reset are about the notes alone; they need an image and numbers that are right, and store nothing.
 *
 * Answers, in this order: 1; 2; 19; 13; 14, for every command that names an SPI; 15; 16; 17; 18; 6, where the output is shorter than the reply; 0.
 * 19: the desk is above 2; or it is 1 or 2 and the first octet is the tag of activation, deactivation, inventory, dump or erase, whatever follows it.
 * 14: the SPI is not in the table, or the desk does not see its association.
 * 15: start where the state is not keyed, stop where it is not operational, expire where it is not keyed, rekey where it is not unkeyed, set
 * window where it is operational. Set number, status, read number and commands without an SPI are for every state.
 * 16: start where a channel that it names is not the association's, or the window is not 1 to 1,024; rekey where the number is not 0, or below
 * version 3 the key ID; set window where the window is not 1 to 1,024; set number where the number n is not above numbers[i], above numbers[i] +
 * 1,024 or above 4,294,967,295, over whole numbers, where i is the entry.
 * 17: activation and deactivation where no key has the ID, in images below version 3 always; from version 3 on rekey where none has the ID that
 * it names, and start where none has the ID that the association names.
 * 18: activation where the key is not pre-active; deactivation where it is not active, or an operational association names it, whoever owns that;
 * rekey and start, from version 3 on, where it is not active.
 * A channel is named by 4 octets, one number with zeros in front: version (2 bits: 00 for TC and TM, 01 for AOS), spacecraft (10 bits, for AOS
 * 8), virtual channel (6 bits, for TM 3), and for TC with segment header the MAP (6 bits). A start names one channel or more; where the
 * association has a set, each one named has to be in it, and all of the set are served, whichever were named.
 * Done: first the stores, one octet each, counted: start, stop, expire and rekey 1, the state; from version 3 on rekey 3, the first octet of the
 * key ID, its second, and then the state; set window 2, the window's first octet and then its second, also where they stay the same; set number 0 to
 * 16, which raise the mark one at a time to n/64 rounded down, and then numbers[i] becomes n; activation and deactivation 1, the key's state; the
 * others none. Then the reply fills the start of the output, and the length is its length: for status the SPI and the state as they are, for read
 * number the SPI and numbers[i], for ping no value, for inventory how many keys have an ID from the first to the last, and of each, in rising
 * order, ID and state, for dump each event that is kept, the oldest first: its tag, a length of 2, desk and answer; for erase how many events are kept
 * then, 0, and the octets of those that there is room for, 768 in a list of XISTALVO_EVENTS_LENGTH; the other commands have no reply, and their
 * length is 0. The rest of the output, the rest of the image and the other numbers stay.
 * Refused: image, numbers and output stay as they were. The command is never written.
 * Done or refused, then: the event (desk, first octet or 0, answer) is entered, unless the first octet is that of dump or erase. An alarm reset that is
 * done clears the alarm in the report of its desk, an erase that is done sets kept and dropped to 0. Nothing else of the notes changes.
 * A loss of power leaves the image after the first j of the stores, for some j, which loads: what xistalvo_command_cut leaves. */
uint64_t xistalvo_command(xistalvo_notes *notes, uint8_t *events, size_t events_length, uint8_t *image, size_t image_length, uint32_t *numbers,
                          size_t numbers_length, uint8_t desk, const uint8_t *command, size_t command_length, uint8_t *output,
                          size_t output_length);

/* The cut: what a call that took this number leaves of the image when power fails after its first stores.
 *
 * Makes, of the octet stores that raise the mark of this entry one at a time to number/64 rounded down, the first as many as 'stores'
 * says, or all where there are fewer, and returns how many it made. Where the mark is already there or higher there are none.
 * An image whose version is not 1 to 4, whose count is above 32 or whose length is not 2 + 56 k, or in version 3 7 + 26 k + 35 q and in version 4
 * 7 + 27 k + 35 q where q is its count of keys, and an entry that is not below the count k: none is made and 0 returned. No other rule of the image
 * is tested; the mark is where the layout puts it, in octets 48 to 51 of the body at 2 + 4 k + 52 entry, or in versions 3 and 4 octets 18 to 21 of
 * that at 6 + 4 k + 22 entry or 6 + 4 k + 23 entry, whatever the contents say of its position. A cut has no desk: it is no call.
 * Only those octets of the image are written. Securing, checking and commands make all their stores before they write the output. */
uint32_t xistalvo_raise(uint8_t *image, size_t image_length, uint8_t entry, uint32_t number, uint32_t stores);

/* The cut of a command: what xistalvo_command leaves of the image when power fails after its first stores.
 *
 * Makes, of the octet stores of xistalvo_command with these arguments and an output of output_length octets, the first as many as 'stores' says,
 * or all where there are fewer, and returns how many it made. Where that call is refused: none is made and 0 returned. Dump, erase and alarm reset
 * store nothing, whatever the notes.
 * Only those octets of the image are written. */
uint32_t xistalvo_command_cut(uint8_t *image, size_t image_length, const uint32_t *numbers, size_t numbers_length, uint8_t desk,
                              const uint8_t *command, size_t command_length, size_t output_length, uint32_t stores);

/* Says an answer in words. */
static inline const char *xistalvo_answer_name(unsigned int answer)
{
    switch (answer) {
    case XISTALVO_DONE: return "done";
    case XISTALVO_BAD_IMAGE: return "image breaks a rule";
    case XISTALVO_NUMBERS_DISAGREE: return "numbers do not agree with the marks";
    case XISTALVO_BAD_FRAME: return "frame breaks a rule of its kind";
    case XISTALVO_NO_ASSOCIATION: return "no association matches";
    case XISTALVO_SECURED_TOO_SHORT: return "secured frame too short";
    case XISTALVO_OUTPUT_TOO_SHORT: return "output too short";
    case XISTALVO_MAC_DIFFERS: return "MAC differs";
    case XISTALVO_NUMBER_REFUSED: return "number outside the window";
    case XISTALVO_NUMBERS_USED_UP: return "numbers used up";
    case XISTALVO_SECURED_TOO_LONG: return "secured frame would be too long";
    case XISTALVO_CHECK_FIELD_DIFFERS: return "check field differs";
    case XISTALVO_BAD_COMMAND: return "no such command, or of another length";
    case XISTALVO_UNKNOWN_SPI: return "no association has the SPI";
    case XISTALVO_WRONG_STATE: return "state does not allow the command";
    case XISTALVO_VALUE_REFUSED: return "value not allowed";
    case XISTALVO_UNKNOWN_KEY: return "no key has the ID";
    case XISTALVO_WRONG_KEY_STATE: return "state of the key, or its use, does not allow the command";
    case XISTALVO_DESK_REFUSED: return "no such desk, or not a command of that desk";
    default: return "no answer of the module";
    }
}

#ifdef __cplusplus
}
#endif

#endif
