/* Random management commands (document 02, requests 5, 9, 10 and 11), with a liking for limits. */
#ifndef COMMANDS_H
#define COMMANDS_H

#include "both.h"
#include "worlds.h"

enum tag {
    TAG_ACTIVATION = 0x02,
    TAG_DEACTIVATION = 0x03,
    TAG_INVENTORY = 0x07,
    TAG_READ_NUMBER = 0x10,
    TAG_SET_WINDOW = 0x15,
    TAG_REKEY = 0x16,
    TAG_EXPIRE = 0x19,
    TAG_SET_NUMBER = 0x1A,
    TAG_START = 0x1B,
    TAG_STOP = 0x1E,
    TAG_STATUS = 0x1F,
    TAG_PING = 0x31,
    TAG_DUMP = 0x33,
    TAG_ERASE = 0x34,
    TAG_ALARM_RESET = 0x37
};

enum { TAG_COUNT = 15 };

extern const unsigned every_tag[TAG_COUNT];
extern const char *const tag_names[TAG_COUNT];

/* Where a tag stands among them, or TAG_COUNT. */
size_t index_of_tag(unsigned tag);

/* The octets of the reply to a command that is done, where it is no inventory and no dump; 0 where it has none. */
size_t reply_length(unsigned tag);

/* Whether it has a reply, of whatever length. */
bool has_reply(unsigned tag);

/* Whether the command names an SPI; whether it is about keys, and whether about the notes. */
bool names_spi(unsigned tag);
bool is_about_keys(unsigned tag);
bool is_about_notes(unsigned tag);

/* Whether it is the key office's alone: those about keys, dump and erase. */
bool is_office_only(unsigned tag);

/* Puts an entry into a state, mostly that which the command asks for, with a window that this allows, sometimes close to the last numbers
 * there are; from version 3 on the key that the command is about into a state too, which is mostly active, or for activation pre-active. Gives
 * the association as it then is, but for its key ID, which is that of the key that the command is to name. */
void suit_command(struct random *random, struct end *end, size_t entry, unsigned tag, struct association *association);

/* Makes the input's command: this tag for this association, and for the key that its key ID names, of the right form, with values on either side
 * of every limit. The last number is that of the association's entry. */
void make_command(struct random *random, struct input *input, unsigned tag, const struct association *association, uint32_t last);

/* Makes the input's command of this tag from a value. */
void put_command(struct input *input, unsigned tag, const uint8_t *value, size_t length);

/* The value of a command about an SPI or a key alone, of an inventory, and with a window, or with a number, and of a start that names one channel.
 * Each is put at once. */
void put_spi_alone(struct input *input, unsigned tag, unsigned spi);
void put_inventory(struct input *input, unsigned first, unsigned last);
void put_set_window(struct input *input, unsigned spi, unsigned window);
void put_set_number(struct input *input, unsigned spi, uint64_t number);
void put_rekey(struct input *input, unsigned spi, unsigned key_id);
void put_start(struct input *input, unsigned spi, uint32_t name);

/* Another tag, another length with and without the length field put right, bits, octets at random. */
void break_command(struct random *random, struct input *input);

#endif
