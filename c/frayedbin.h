/* Frayedbin: MIDI 2.0 endpoint messages of seven kinds, read and written.
 *
 * Every call ends with an answer, whatever words, text and numbers it is given, and a refused
 * call changes no word. So nothing has to be checked before a call, only the answer after it.
 *
 * A message is one packet or more, and a packet is four words: 32-bit numbers of this machine,
 * not bytes in network order. A slice is a pointer and a length. A pointer may be null where its
 * length is 0, and only there; the slices of one call do not overlap. No call keeps a pointer or
 * has a state of its own, so calls on different slices may be made from any thread.
 *
 * Build an answer: frayedbin_fresh starts a message at the head of a slice, the settings fill it
 * in, frayedbin_message_size tells where the next one may start. Give each message that has a text
 * a slice of its own: a text, a fresh message and a written record make every later whole packet
 * of their slice zero. Read a stream: frayedbin_walk from position 0, on to .next, until it finds
 * the end; frayedbin_text copies the text of a message that was found. c/probe.c answers a
 * discovery so, and c/example.c uses every kind of call.
 *
 * Link with libfrayedbin.a (x86-64 Linux), which `rt lib` in crates/frayedbin makes. The header
 * and the library fit together where frayedbin_version() gives FRAYEDBIN_VERSION.
 */
#ifndef FRAYEDBIN_H
#define FRAYEDBIN_H

#include <stdbool.h>
#include <stddef.h>
#include <stdint.h>

#ifdef __cplusplus
extern "C" {
#endif

/* The version that this header describes: major, minor and patch, one byte each. */
#define FRAYEDBIN_VERSION 0x000300u

/* The version of the library that is linked. */
uint32_t frayedbin_version(void);

/* ---- numbers with a name */

/* Why a call is refused; an answer's .refusal. Its .place is the first such packet, counted
 * from 0 at the message's start, for 4, 6, 7 and 8, and 0 for the others. */
enum frayedbin_refusal {
    FRAYEDBIN_DONE = 0,                 /* it is not refused */
    FRAYEDBIN_TOO_FEW_WORDS = 1,        /* under four words, or a message with no end */
    FRAYEDBIN_NOT_WHOLE_PACKETS = 2,    /* the length is not a multiple of four words */
    FRAYEDBIN_TOO_MANY_PACKETS = 3,     /* more than 64 packets */
    FRAYEDBIN_WRONG_TYPE = 4,           /* a packet's type is not F */
    FRAYEDBIN_UNKNOWN_STATUS = 5,       /* the status is none of the seven */
    FRAYEDBIN_STATUS_DIFFERS = 6,       /* a later packet has another status */
    FRAYEDBIN_WRONG_FORMAT = 7,         /* a packet's format is not the one due */
    FRAYEDBIN_BLOCK_NUMBER_DIFFERS = 8, /* a later packet has another block number */
    FRAYEDBIN_BAD_PORT = 9,             /* the MIDI 1.0 port is 3 */
    FRAYEDBIN_BAD_DIRECTION = 10,       /* the direction is 0 */
    FRAYEDBIN_NOT_UTF8 = 11,            /* the text is not UTF-8 */
    FRAYEDBIN_NUMBER_TOO_LARGE = 12,    /* above its field's largest, or a code that names no choice */
    FRAYEDBIN_NO_SUCH_FIELD = 13,       /* this kind has no such field */
    FRAYEDBIN_NO_ROOM = 14              /* too few whole packets, or too few bytes for a text */
};

/* The seven kinds, by status. */
enum frayedbin_status {
    FRAYEDBIN_ENDPOINT_DISCOVERY = 0x00,
    FRAYEDBIN_ENDPOINT_INFO = 0x01,
    FRAYEDBIN_DEVICE_IDENTITY = 0x02,
    FRAYEDBIN_ENDPOINT_NAME = 0x03,
    FRAYEDBIN_PRODUCT_INSTANCE_ID = 0x04,
    FRAYEDBIN_FUNCTION_BLOCK_INFO = 0x11,
    FRAYEDBIN_FUNCTION_BLOCK_NAME = 0x12
};

/* What users may take a function block for. */
enum frayedbin_ui_hint {
    FRAYEDBIN_HINT_UNDECLARED = 0,
    FRAYEDBIN_HINT_RECEIVER = 1,
    FRAYEDBIN_HINT_SENDER = 2,
    FRAYEDBIN_HINT_SENDER_RECEIVER = 3
};

/* Whether a function block is a MIDI 1.0 port. */
enum frayedbin_midi1_port {
    FRAYEDBIN_PORT_NONE = 0,
    FRAYEDBIN_PORT_DONT_RESTRICT_BANDWIDTH = 1,
    FRAYEDBIN_PORT_RESTRICT_BANDWIDTH = 2
};

/* Where a function block's messages go, as the block sees it. */
enum frayedbin_direction {
    FRAYEDBIN_DIRECTION_INPUT = 1,
    FRAYEDBIN_DIRECTION_OUTPUT = 2,
    FRAYEDBIN_DIRECTION_BIDIRECTIONAL = 3
};

/* A packet's part in its message. */
enum frayedbin_format {
    FRAYEDBIN_FORMAT_COMPLETE = 0,
    FRAYEDBIN_FORMAT_START = 1,
    FRAYEDBIN_FORMAT_CONTINUE = 2,
    FRAYEDBIN_FORMAT_END = 3
};

/* Sizes. */
enum frayedbin_size {
    FRAYEDBIN_PACKET_WORDS = 4,            /* words of a packet */
    FRAYEDBIN_MOST_PACKETS = 64,           /* packets of a message */
    FRAYEDBIN_MOST_WORDS = 256,            /* words of a message */
    FRAYEDBIN_MOST_NAME_BYTES = 896,       /* of an endpoint name or a product instance id */
    FRAYEDBIN_MOST_BLOCK_NAME_BYTES = 832, /* of a function block name */
    FRAYEDBIN_NUMBERS = 9,                 /* numbers of a record */
    FRAYEDBIN_MOST_LISTED_BYTES = 32768,   /* bytes of a capture that is listed */
    FRAYEDBIN_LISTING_ROOM = 139275        /* bytes that hold any listing */
};

/* ---- records: a message's kind, packets and numbers */

/* The numbers that each kind has, by their place in a record; those after its last are 0. Flags
 * are 0 or 1. An endpoint name and a product instance id have none: text is not in a record, and
 * comes from the words, by frayedbin_text. */
enum frayedbin_discovery_number {
    FRAYEDBIN_DISCOVERY_UMP_VERSION_MAJOR,
    FRAYEDBIN_DISCOVERY_UMP_VERSION_MINOR,
    FRAYEDBIN_DISCOVERY_REQUEST_ENDPOINT_INFO,
    FRAYEDBIN_DISCOVERY_REQUEST_DEVICE_IDENTITY,
    FRAYEDBIN_DISCOVERY_REQUEST_ENDPOINT_NAME,
    FRAYEDBIN_DISCOVERY_REQUEST_PRODUCT_INSTANCE_ID,
    FRAYEDBIN_DISCOVERY_REQUEST_STREAM_CONFIGURATION
};

enum frayedbin_info_number {
    FRAYEDBIN_INFO_UMP_VERSION_MAJOR,
    FRAYEDBIN_INFO_UMP_VERSION_MINOR,
    FRAYEDBIN_INFO_STATIC_FUNCTION_BLOCKS,
    FRAYEDBIN_INFO_SUPPORTS_MIDI2_PROTOCOL,
    FRAYEDBIN_INFO_SUPPORTS_MIDI1_PROTOCOL,
    FRAYEDBIN_INFO_SUPPORTS_RECEIVING_JR_TIMESTAMPS,
    FRAYEDBIN_INFO_SUPPORTS_SENDING_JR_TIMESTAMPS,
    FRAYEDBIN_INFO_NUMBER_OF_FUNCTION_BLOCKS
};

enum frayedbin_identity_number {
    FRAYEDBIN_IDENTITY_DEVICE_MANUFACTURER, /* three numbers */
    FRAYEDBIN_IDENTITY_DEVICE_FAMILY = 3,
    FRAYEDBIN_IDENTITY_DEVICE_FAMILY_MODEL_NUMBER,
    FRAYEDBIN_IDENTITY_SOFTWARE_VERSION /* four numbers */
};

enum frayedbin_block_number {
    FRAYEDBIN_BLOCK_ACTIVE,
    FRAYEDBIN_BLOCK_FUNCTION_BLOCK_NUMBER,
    FRAYEDBIN_BLOCK_UI_HINT,
    FRAYEDBIN_BLOCK_MIDI1_PORT,
    FRAYEDBIN_BLOCK_DIRECTION,
    FRAYEDBIN_BLOCK_FIRST_GROUP,
    FRAYEDBIN_BLOCK_NUMBER_OF_GROUPS_SPANNED,
    FRAYEDBIN_BLOCK_MIDI_CI_VERSION,
    FRAYEDBIN_BLOCK_MAX_NUMBER_OF_MIDI_CI_STREAMS
};

enum frayedbin_block_name_number {
    FRAYEDBIN_BLOCK_NAME_FUNCTION_BLOCK
};

/* A message's record: its kind by status, its packets, and its numbers. frayedbin_record_fresh
 * starts one, frayedbin_read and frayedbin_walk give one. .reserved is room for later versions: 0
 * in every answer, and never looked at. */
typedef struct frayedbin_record {
    uint32_t status;
    size_t packets;
    uint32_t number[FRAYEDBIN_NUMBERS];
    uint32_t reserved[5];
} frayedbin_record;

/* A compiler that lays a record out in another way than the library stops here. */
typedef char frayedbin_record_has_72_bytes[sizeof(frayedbin_record) == 72 ? 1 : -1];

/* ---- answers: .refusal is FRAYEDBIN_DONE, or why the call is refused; .place is where */

/* Of a call that only does or refuses. */
typedef struct frayedbin_answer {
    uint32_t refusal;
    size_t place;
} frayedbin_answer;

/* Of a call that gives a record. */
typedef struct frayedbin_record_answer {
    uint32_t refusal;
    size_t place;
    frayedbin_record record;
} frayedbin_record_answer;

/* What a walk finds at a position. */
enum frayedbin_found {
    FRAYEDBIN_FOUND_END = 0,     /* nothing: the position is at or past the length */
    FRAYEDBIN_FOUND_OTHER = 1,   /* a message of another type: .ump_type, and .size in words */
    FRAYEDBIN_FOUND_MESSAGE = 2, /* one of the seven kinds: .record */
    FRAYEDBIN_FOUND_REFUSED = 3  /* what is none of these: .refusal and .place */
};

/* Of a walk. .next is the word position to go on from, larger than the one given, and 0 at the
 * end; the message's words are those before it. What a case does not name is 0. */
typedef struct frayedbin_walk_answer {
    uint32_t found;
    uint32_t refusal;
    size_t place;
    uint32_t ump_type;
    size_t size;
    size_t next;
    frayedbin_record record;
} frayedbin_walk_answer;

/* Of frayedbin_packet: the packet's format and its words. */
typedef struct frayedbin_packet_answer {
    uint32_t refusal;
    size_t place;
    uint32_t format;
    uint32_t word[FRAYEDBIN_PACKET_WORDS];
} frayedbin_packet_answer;

/* Of frayedbin_message_size. */
typedef struct frayedbin_size_answer {
    uint32_t refusal;
    size_t place;
    size_t words;
} frayedbin_size_answer;

/* Of frayedbin_text: how long the text is, also where there is no room for it. */
typedef struct frayedbin_text_answer {
    uint32_t refusal;
    size_t place;
    size_t length;
} frayedbin_text_answer;

/* Of frayedbin_next_byte: a byte of text, 0 at the end, and the place to go on from. */
typedef struct frayedbin_step_answer {
    uint32_t byte;
    size_t packet;
    size_t byte_number;
} frayedbin_step_answer;

/* ---- reading */

/* Reads a slice that should be one message. Refusals 1 to 11, in this order. */
frayedbin_record_answer frayedbin_read(const uint32_t *words, size_t length);

/* Finds what stands at a word position of a stream; go on at .next until the end. What it finds
 * is a refusal, 1 and 3 to 11, where a message is broken off or not one of these kinds.
 *
 * Where words still arrive, the end and refusal 1 are not final: wait at the position that was
 * given, not at .next, and walk from there again when words have been appended. Every other answer
 * is final: appended words do not change it. The words before the position may be dropped, and the
 * position is then 0. */
frayedbin_walk_answer frayedbin_walk(const uint32_t *words, size_t length, size_t position);

/* Gives how many words a packet of a type has, and so a message of any type but F, which may have
 * several packets. The type is the highest four bits of its first word: word >> 28. By type, 0 to
 * 15: 1 1 1 2, 2 4 1 1, 2 2 2 3, 3 4 4 4. Any other number is no type and gives 0. */
size_t frayedbin_words_of_type(uint32_t ump_type);

/* Gives the first four words, missing ones zero, and their format; refuses no words (1) and
 * another type (4). */
frayedbin_packet_answer frayedbin_packet(const uint32_t *words, size_t length);

/* Gives the words of the message that a slice starts with, by formats alone; refuses a slice in
 * which no packet ends it (1). */
frayedbin_size_answer frayedbin_message_size(const uint32_t *words, size_t length);

/* Copies the whole text of a slice that should be one message to the start of out, with no zero
 * after it, and gives its length: at most 896 bytes, and at most 14 for each packet. Refused as
 * frayedbin_read refuses (1 to 11), then where the kind has no text (13), then where the room is
 * too small (14); .length is the room needed there, and no byte of out has changed. */
frayedbin_text_answer frayedbin_text(
    const uint32_t *words, size_t length, uint8_t *out, size_t room);

/* Gives the next byte of a text that is not zero, from a place on, and the place after it; never
 * refuses. Start at packet 0, byte 0, and go on at the place given until the byte is 0. It goes
 * over every whole packet of the slice, so cut the slice to one message. */
frayedbin_step_answer frayedbin_next_byte(
    const uint32_t *words, size_t length, size_t packet, size_t byte_number);

/* Lists a capture of big-endian words as lines of ASCII, with no zero after them, and gives how
 * many bytes it wrote: as many as there is room for. FRAYEDBIN_LISTING_ROOM bytes hold any listing;
 * in less, a listing that is cut fills the room, and a whole one ends in its line `end` and a
 * newline. A capture of more than 32768 bytes gives the line `input too long`. It takes 33 KB of
 * stack, every other call less than 1 KB. */
size_t frayedbin_list(const uint8_t *bytes, size_t length, uint8_t *out, size_t room);

/* ---- sentences and names, as C strings
 *
 * Both write like snprintf: cut to the room, ended by a zero byte where the room is not 0; they
 * give the length of the whole string. It is empty for a number that has none. 80 bytes hold each.
 */

/* Says why a call is refused (frayedbin_refusal), in English. */
size_t frayedbin_refusal_text(uint32_t refusal, uint8_t *out, size_t room);

/* Names a kind (frayedbin_status) as the listing does: endpoint-name, and so on. */
size_t frayedbin_kind_name(uint32_t status, uint8_t *out, size_t room);

/* ---- writing */

/* Makes every whole packet of a slice zero and starts a message of a kind (frayedbin_status)
 * with one packet: all fields 0 but a block info's direction, which is bidirectional. Refused for
 * a status of no kind (5), then where the slice has no whole packet (14). */
frayedbin_answer frayedbin_fresh(uint32_t *words, size_t length, uint32_t status);

/* Writes a record as a fresh message with its fields: every later whole packet of the slice
 * becomes zero. Refused for a status of no kind (5), a kind that has text (13), numbers that are
 * no record (12), a slice with no whole packet (14), in this order. */
frayedbin_answer frayedbin_write(uint32_t *words, size_t length, frayedbin_record record);

/* ---- settings on words
 *
 * Each acts on the message at the start of a slice and changes its own field alone. Refused, in
 * this order: as frayedbin_walk refuses at position 0, a message of another type being 4 and an
 * empty slice 1; a message of another kind (13); a number above the field's largest, or a code
 * that names no choice (12); a text that is not UTF-8 (11), needs more than 64 packets (3), or
 * more than the slice has (14). Flags are refused only for what stands there.
 *
 * A text takes as many packets as it needs, and every whole packet of the slice after them becomes
 * zero, also those of a later message: give it a slice of its own. A zero byte in a text is a
 * character of its own, and reading passes it over.
 */

/* -- Endpoint discovery, status 0x00. */

/* Sets the major version of UMP, 0 to 255. */
frayedbin_answer frayedbin_endpoint_discovery_set_ump_version_major(
    uint32_t *words, size_t length, uint32_t version);

/* Sets the minor version of UMP, 0 to 255. */
frayedbin_answer frayedbin_endpoint_discovery_set_ump_version_minor(
    uint32_t *words, size_t length, uint32_t version);

/* Sets whether it asks for the endpoint info. */
frayedbin_answer frayedbin_endpoint_discovery_set_request_endpoint_info(
    uint32_t *words, size_t length, bool on);

/* Sets whether it asks for the device identity. */
frayedbin_answer frayedbin_endpoint_discovery_set_request_device_identity(
    uint32_t *words, size_t length, bool on);

/* Sets whether it asks for the endpoint name. */
frayedbin_answer frayedbin_endpoint_discovery_set_request_endpoint_name(
    uint32_t *words, size_t length, bool on);

/* Sets whether it asks for the product instance id. */
frayedbin_answer frayedbin_endpoint_discovery_set_request_product_instance_id(
    uint32_t *words, size_t length, bool on);

/* Sets whether it asks for the stream configuration. */
frayedbin_answer frayedbin_endpoint_discovery_set_request_stream_configuration(
    uint32_t *words, size_t length, bool on);

/* -- Endpoint info, status 0x01. */

/* Sets the major version of UMP, 0 to 255. */
frayedbin_answer frayedbin_endpoint_info_set_ump_version_major(
    uint32_t *words, size_t length, uint32_t version);

/* Sets the minor version of UMP, 0 to 255. */
frayedbin_answer frayedbin_endpoint_info_set_ump_version_minor(
    uint32_t *words, size_t length, uint32_t version);

/* Sets whether the function blocks never change. */
frayedbin_answer frayedbin_endpoint_info_set_static_function_blocks(
    uint32_t *words, size_t length, bool on);

/* Sets whether the MIDI 2.0 protocol is supported. */
frayedbin_answer frayedbin_endpoint_info_set_supports_midi2_protocol(
    uint32_t *words, size_t length, bool on);

/* Sets whether the MIDI 1.0 protocol is supported. */
frayedbin_answer frayedbin_endpoint_info_set_supports_midi1_protocol(
    uint32_t *words, size_t length, bool on);

/* Sets whether jitter reduction timestamps can be received. */
frayedbin_answer frayedbin_endpoint_info_set_supports_receiving_jr_timestamps(
    uint32_t *words, size_t length, bool on);

/* Sets whether jitter reduction timestamps can be sent. */
frayedbin_answer frayedbin_endpoint_info_set_supports_sending_jr_timestamps(
    uint32_t *words, size_t length, bool on);

/* Sets the number of function blocks, 0 to 127. */
frayedbin_answer frayedbin_endpoint_info_set_number_of_function_blocks(
    uint32_t *words, size_t length, uint32_t number);

/* -- Device identity, status 0x02. */

/* Sets the manufacturer, three numbers of 0 to 127. */
frayedbin_answer frayedbin_device_identity_set_device_manufacturer(
    uint32_t *words, size_t length, uint32_t a, uint32_t b, uint32_t c);

/* Sets the device family, 0 to 16383. */
frayedbin_answer frayedbin_device_identity_set_device_family(
    uint32_t *words, size_t length, uint32_t family);

/* Sets the model within the family, 0 to 16383. */
frayedbin_answer frayedbin_device_identity_set_device_family_model_number(
    uint32_t *words, size_t length, uint32_t model);

/* Sets the software version, four numbers of 0 to 127. */
frayedbin_answer frayedbin_device_identity_set_software_version(
    uint32_t *words, size_t length, uint32_t a, uint32_t b, uint32_t c, uint32_t d);

/* -- Endpoint name, status 0x03. */

/* Sets the name, at most 896 bytes of UTF-8. */
frayedbin_answer frayedbin_endpoint_name_set_name(
    uint32_t *words, size_t length, const uint8_t *name, size_t name_length);

/* -- Product instance id, status 0x04. */

/* Sets the id, at most 896 bytes of UTF-8. */
frayedbin_answer frayedbin_product_instance_id_set_id(
    uint32_t *words, size_t length, const uint8_t *id, size_t id_length);

/* -- Function block info, status 0x11. */

/* Sets whether the block is active. */
frayedbin_answer frayedbin_function_block_info_set_active(
    uint32_t *words, size_t length, bool on);

/* Sets the number of the block, 0 to 127. */
frayedbin_answer frayedbin_function_block_info_set_function_block_number(
    uint32_t *words, size_t length, uint32_t number);

/* Sets the hint for users, a frayedbin_ui_hint. */
frayedbin_answer frayedbin_function_block_info_set_ui_hint(
    uint32_t *words, size_t length, uint32_t code);

/* Sets the MIDI 1.0 port, a frayedbin_midi1_port. */
frayedbin_answer frayedbin_function_block_info_set_midi1_port(
    uint32_t *words, size_t length, uint32_t code);

/* Sets the direction, a frayedbin_direction. */
frayedbin_answer frayedbin_function_block_info_set_direction(
    uint32_t *words, size_t length, uint32_t code);

/* Sets the first group, 0 to 15. */
frayedbin_answer frayedbin_function_block_info_set_first_group(
    uint32_t *words, size_t length, uint32_t group);

/* Sets the number of groups spanned, 0 to 255. */
frayedbin_answer frayedbin_function_block_info_set_number_of_groups_spanned(
    uint32_t *words, size_t length, uint32_t number);

/* Sets the MIDI-CI version, 0 to 255. */
frayedbin_answer frayedbin_function_block_info_set_midi_ci_version(
    uint32_t *words, size_t length, uint32_t version);

/* Sets the most MIDI-CI streams, 0 to 255. */
frayedbin_answer frayedbin_function_block_info_set_max_number_of_midi_ci_streams(
    uint32_t *words, size_t length, uint32_t number);

/* -- Function block name, status 0x12. */

/* Sets the number of the block, 0 to 255, in each packet of the message and none after. */
frayedbin_answer frayedbin_function_block_name_set_function_block(
    uint32_t *words, size_t length, uint32_t number);

/* Sets the name, at most 832 bytes of UTF-8, and the number in each packet that it needs. */
frayedbin_answer frayedbin_function_block_name_set_name(
    uint32_t *words, size_t length, const uint8_t *name, size_t name_length);

/* ---- settings on a record
 *
 * Each hands the record back with the field set, and unchanged where it is refused, so that
 * they can be chained. They go by the field's name. Refused, in this order: a status of no kind
 * (5); a kind that has no such field (13); numbers that are no record, a number above its field's
 * largest or a code that names no choice, in the record or given (12). A port of 3 and a direction
 * of 0 name none, so that a record of all zeros is no block info: frayedbin_record_fresh starts
 * one. Numbers after the kind's last, .reserved, and the packets of a kind with no text are not
 * looked at; where the setting is made they come back as 0 and 1. A record holds no text, so no
 * call sets one on it.
 */

/* Gives the record of a fresh message of a kind (frayedbin_status): one packet, and all numbers 0
 * but a block info's direction, which is bidirectional. Refused for a status of no kind (5). */
frayedbin_record_answer frayedbin_record_fresh(uint32_t status);

/* -- Endpoint discovery. */

/* Sets the major version of UMP, 0 to 255; an endpoint info has it too. */
frayedbin_record_answer frayedbin_record_set_ump_version_major(
    frayedbin_record record, uint32_t version);

/* Sets the minor version of UMP, 0 to 255; an endpoint info has it too. */
frayedbin_record_answer frayedbin_record_set_ump_version_minor(
    frayedbin_record record, uint32_t version);

/* Sets whether it asks for the endpoint info. */
frayedbin_record_answer frayedbin_record_set_request_endpoint_info(
    frayedbin_record record, bool on);

/* Sets whether it asks for the device identity. */
frayedbin_record_answer frayedbin_record_set_request_device_identity(
    frayedbin_record record, bool on);

/* Sets whether it asks for the endpoint name. */
frayedbin_record_answer frayedbin_record_set_request_endpoint_name(
    frayedbin_record record, bool on);

/* Sets whether it asks for the product instance id. */
frayedbin_record_answer frayedbin_record_set_request_product_instance_id(
    frayedbin_record record, bool on);

/* Sets whether it asks for the stream configuration. */
frayedbin_record_answer frayedbin_record_set_request_stream_configuration(
    frayedbin_record record, bool on);

/* -- Endpoint info. */

/* Sets whether the function blocks never change. */
frayedbin_record_answer frayedbin_record_set_static_function_blocks(
    frayedbin_record record, bool on);

/* Sets whether the MIDI 2.0 protocol is supported. */
frayedbin_record_answer frayedbin_record_set_supports_midi2_protocol(
    frayedbin_record record, bool on);

/* Sets whether the MIDI 1.0 protocol is supported. */
frayedbin_record_answer frayedbin_record_set_supports_midi1_protocol(
    frayedbin_record record, bool on);

/* Sets whether jitter reduction timestamps can be received. */
frayedbin_record_answer frayedbin_record_set_supports_receiving_jr_timestamps(
    frayedbin_record record, bool on);

/* Sets whether jitter reduction timestamps can be sent. */
frayedbin_record_answer frayedbin_record_set_supports_sending_jr_timestamps(
    frayedbin_record record, bool on);

/* Sets the number of function blocks, 0 to 127. */
frayedbin_record_answer frayedbin_record_set_number_of_function_blocks(
    frayedbin_record record, uint32_t number);

/* -- Device identity. */

/* Sets the manufacturer, three numbers of 0 to 127. */
frayedbin_record_answer frayedbin_record_set_device_manufacturer(
    frayedbin_record record, uint32_t a, uint32_t b, uint32_t c);

/* Sets the device family, 0 to 16383. */
frayedbin_record_answer frayedbin_record_set_device_family(
    frayedbin_record record, uint32_t family);

/* Sets the model within the family, 0 to 16383. */
frayedbin_record_answer frayedbin_record_set_device_family_model_number(
    frayedbin_record record, uint32_t model);

/* Sets the software version, four numbers of 0 to 127. */
frayedbin_record_answer frayedbin_record_set_software_version(
    frayedbin_record record, uint32_t a, uint32_t b, uint32_t c, uint32_t d);

/* -- Function block info. */

/* Sets whether the block is active. */
frayedbin_record_answer frayedbin_record_set_active(frayedbin_record record, bool on);

/* Sets the number of the block, 0 to 127. */
frayedbin_record_answer frayedbin_record_set_function_block_number(
    frayedbin_record record, uint32_t number);

/* Sets the hint for users, a frayedbin_ui_hint. */
frayedbin_record_answer frayedbin_record_set_ui_hint(frayedbin_record record, uint32_t code);

/* Sets the MIDI 1.0 port, a frayedbin_midi1_port. */
frayedbin_record_answer frayedbin_record_set_midi1_port(frayedbin_record record, uint32_t code);

/* Sets the direction, a frayedbin_direction. */
frayedbin_record_answer frayedbin_record_set_direction(frayedbin_record record, uint32_t code);

/* Sets the first group, 0 to 15. */
frayedbin_record_answer frayedbin_record_set_first_group(
    frayedbin_record record, uint32_t group);

/* Sets the number of groups spanned, 0 to 255. */
frayedbin_record_answer frayedbin_record_set_number_of_groups_spanned(
    frayedbin_record record, uint32_t number);

/* Sets the MIDI-CI version, 0 to 255. */
frayedbin_record_answer frayedbin_record_set_midi_ci_version(
    frayedbin_record record, uint32_t version);

/* Sets the most MIDI-CI streams, 0 to 255. */
frayedbin_record_answer frayedbin_record_set_max_number_of_midi_ci_streams(
    frayedbin_record record, uint32_t number);

/* -- Function block name. */

/* Sets the number of the block, 0 to 255. */
frayedbin_record_answer frayedbin_record_set_function_block(
    frayedbin_record record, uint32_t number);

#ifdef __cplusplus
}
#endif

#endif
