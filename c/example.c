/* An endpoint's answer to a discovery: built in one buffer, walked back and printed.
 * C99, and C++ as it stands. */
#include "frayedbin.h"

#include <stdio.h>
#include <stdlib.h>
#include <string.h>

enum { ROOM = 128, LINE = 80 };

/* Messages one after the other, and how many words they take. */
typedef struct stream {
    uint32_t words[ROOM];
    size_t used;
} stream;

/* ---- building */

/* The words that are still free. */
static uint32_t *head(stream *s) { return s->words + s->used; }
static size_t room(const stream *s) { return ROOM - s->used; }

/* A call's answer as a line: its number, its sentence, its place. */
static void print_refusal(FILE *to, frayedbin_answer answer) {
    uint8_t sentence[LINE];
    frayedbin_refusal_text(answer.refusal, sentence, sizeof sentence);
    fprintf(to, "refusal %u: %s, place %zu\n", (unsigned)answer.refusal, (const char *)sentence,
            answer.place);
}

/* What should not be refused ends the program if it is. */
static void must(const char *what, frayedbin_answer answer) {
    if (answer.refusal != FRAYEDBIN_DONE) {
        fprintf(stderr, "%s: ", what);
        print_refusal(stderr, answer);
        exit(EXIT_FAILURE);
    }
}

static frayedbin_record record_of(const char *what, frayedbin_record_answer answer) {
    frayedbin_answer plain = {answer.refusal, answer.place};
    must(what, plain);
    return answer.record;
}

static void start(stream *s, uint32_t status) {
    must("fresh", frayedbin_fresh(head(s), room(s), status));
}

/* The message at the head is ready: the next one comes after it. */
static void keep(stream *s) {
    frayedbin_size_answer size = frayedbin_message_size(head(s), room(s));
    s->used += size.words;
}

/* The host's question, by settings on a record. */
static void ask(stream *s) {
    frayedbin_record r =
        record_of("fresh", frayedbin_record_fresh(FRAYEDBIN_ENDPOINT_DISCOVERY));
    r = record_of("major", frayedbin_record_set_ump_version_major(r, 1));
    r = record_of("minor", frayedbin_record_set_ump_version_minor(r, 1));
    r = record_of("info", frayedbin_record_set_request_endpoint_info(r, true));
    r = record_of("identity", frayedbin_record_set_request_device_identity(r, true));
    r = record_of("name", frayedbin_record_set_request_endpoint_name(r, true));
    r = record_of("id", frayedbin_record_set_request_product_instance_id(r, true));
    must("write", frayedbin_write(head(s), room(s), r));
    keep(s);
}

/* The rest is by settings on words. */
static void tell_info(stream *s) {
    uint32_t *w = head(s);
    size_t n = room(s);
    start(s, FRAYEDBIN_ENDPOINT_INFO);
    must("major", frayedbin_endpoint_info_set_ump_version_major(w, n, 1));
    must("minor", frayedbin_endpoint_info_set_ump_version_minor(w, n, 1));
    must("static", frayedbin_endpoint_info_set_static_function_blocks(w, n, true));
    must("MIDI 2.0", frayedbin_endpoint_info_set_supports_midi2_protocol(w, n, true));
    must("MIDI 1.0", frayedbin_endpoint_info_set_supports_midi1_protocol(w, n, true));
    must("blocks", frayedbin_endpoint_info_set_number_of_function_blocks(w, n, 2));
    keep(s);
}

static void tell_identity(stream *s) {
    uint32_t *w = head(s);
    size_t n = room(s);
    start(s, FRAYEDBIN_DEVICE_IDENTITY);
    must("manufacturer", frayedbin_device_identity_set_device_manufacturer(w, n, 0x7D, 0, 0));
    must("family", frayedbin_device_identity_set_device_family(w, n, 257));
    must("model", frayedbin_device_identity_set_device_family_model_number(w, n, 12));
    must("version", frayedbin_device_identity_set_software_version(w, n, 1, 2, 0, 3));
    keep(s);
}

static void tell_name(stream *s, const char *name) {
    const uint8_t *text = (const uint8_t *)name;
    start(s, FRAYEDBIN_ENDPOINT_NAME);
    must("name", frayedbin_endpoint_name_set_name(head(s), room(s), text, strlen(name)));
    keep(s);
}

static void tell_id(stream *s, const char *id) {
    const uint8_t *text = (const uint8_t *)id;
    start(s, FRAYEDBIN_PRODUCT_INSTANCE_ID);
    must("id", frayedbin_product_instance_id_set_id(head(s), room(s), text, strlen(id)));
    keep(s);
}

static void tell_block(stream *s, uint32_t number, uint32_t hint, uint32_t port, uint32_t way) {
    uint32_t *w = head(s);
    size_t n = room(s);
    start(s, FRAYEDBIN_FUNCTION_BLOCK_INFO);
    must("active", frayedbin_function_block_info_set_active(w, n, true));
    must("number", frayedbin_function_block_info_set_function_block_number(w, n, number));
    must("hint", frayedbin_function_block_info_set_ui_hint(w, n, hint));
    must("port", frayedbin_function_block_info_set_midi1_port(w, n, port));
    must("direction", frayedbin_function_block_info_set_direction(w, n, way));
    must("group", frayedbin_function_block_info_set_first_group(w, n, number));
    must("groups", frayedbin_function_block_info_set_number_of_groups_spanned(w, n, 1));
    keep(s);
}

static void tell_block_name(stream *s, uint32_t number, const char *name) {
    uint32_t *w = head(s);
    size_t n = room(s);
    const uint8_t *text = (const uint8_t *)name;
    start(s, FRAYEDBIN_FUNCTION_BLOCK_NAME);
    must("number", frayedbin_function_block_name_set_function_block(w, n, number));
    must("name", frayedbin_function_block_name_set_name(w, n, text, strlen(name)));
    keep(s);
}

/* The endpoint tells what the question asks for, and its two blocks. */
static void answer(const stream *question, stream *s) {
    frayedbin_record r = record_of("question", frayedbin_read(question->words, question->used));
    const uint32_t *asked = r.number;
    if (asked[FRAYEDBIN_DISCOVERY_REQUEST_ENDPOINT_INFO]) tell_info(s);
    if (asked[FRAYEDBIN_DISCOVERY_REQUEST_DEVICE_IDENTITY]) tell_identity(s);
    if (asked[FRAYEDBIN_DISCOVERY_REQUEST_ENDPOINT_NAME]) tell_name(s, "Frayedbin Bench Probe");
    if (asked[FRAYEDBIN_DISCOVERY_REQUEST_PRODUCT_INSTANCE_ID]) tell_id(s, "FB-0001");
    tell_block(s, 0, FRAYEDBIN_HINT_SENDER_RECEIVER, FRAYEDBIN_PORT_NONE,
               FRAYEDBIN_DIRECTION_BIDIRECTIONAL);
    tell_block_name(s, 0, "Keys, Kn\xC3\xB6pfe & Pads");
    tell_block(s, 1, FRAYEDBIN_HINT_RECEIVER, FRAYEDBIN_PORT_RESTRICT_BANDWIDTH,
               FRAYEDBIN_DIRECTION_INPUT);
    tell_block_name(s, 1, "DIN MIDI In, thirty-one bytes o");
}

/* ---- printing */

static void print_text(const char *what, const uint32_t *words, size_t length) {
    uint8_t text[FRAYEDBIN_MOST_NAME_BYTES];
    frayedbin_text_answer copied = frayedbin_text(words, length, text, sizeof text);
    frayedbin_answer plain = {copied.refusal, copied.place};
    must(what, plain);
    printf("  %s: \"%.*s\"\n", what, (int)copied.length, (const char *)text);
}

static void print_version(const uint32_t *number) {
    printf("  UMP version: %u.%u\n", (unsigned)number[FRAYEDBIN_INFO_UMP_VERSION_MAJOR],
           (unsigned)number[FRAYEDBIN_INFO_UMP_VERSION_MINOR]);
}

/* Flags by name, those that are on. */
static void print_flags(const char *what, const char *const *names, const uint32_t *flags, int n) {
    printf("  %s:", what);
    for (int i = 0; i < n; i++) {
        if (flags[i]) printf(" %s", names[i]);
    }
    printf("\n");
}

static void print_discovery(const uint32_t *number) {
    static const char *const names[] = {"endpoint-info", "device-identity", "endpoint-name",
                                        "product-instance-id", "stream-configuration"};
    print_version(number);
    print_flags("asks for", names, number + FRAYEDBIN_DISCOVERY_REQUEST_ENDPOINT_INFO, 5);
}

static void print_info(const uint32_t *number) {
    static const char *const names[] = {"static-blocks", "midi2", "midi1", "receives-jr",
                                        "sends-jr"};
    print_version(number);
    print_flags("has", names, number + FRAYEDBIN_INFO_STATIC_FUNCTION_BLOCKS, 5);
    printf("  function blocks: %u\n", (unsigned)number[FRAYEDBIN_INFO_NUMBER_OF_FUNCTION_BLOCKS]);
}

static void print_identity(const uint32_t *number) {
    const uint32_t *maker = number + FRAYEDBIN_IDENTITY_DEVICE_MANUFACTURER;
    const uint32_t *version = number + FRAYEDBIN_IDENTITY_SOFTWARE_VERSION;
    printf("  manufacturer: %02X %02X %02X\n", (unsigned)maker[0], (unsigned)maker[1],
           (unsigned)maker[2]);
    printf("  family: %u\n", (unsigned)number[FRAYEDBIN_IDENTITY_DEVICE_FAMILY]);
    printf("  model: %u\n", (unsigned)number[FRAYEDBIN_IDENTITY_DEVICE_FAMILY_MODEL_NUMBER]);
    printf("  software version: %u.%u.%u.%u\n", (unsigned)version[0], (unsigned)version[1],
           (unsigned)version[2], (unsigned)version[3]);
}

static void print_block(const uint32_t *number) {
    static const char *const hints[] = {"undeclared", "receiver", "sender", "sender and receiver"};
    static const char *const ports[] = {"none", "any bandwidth", "restricted bandwidth"};
    static const char *const ways[] = {"", "input", "output", "bidirectional"};
    unsigned first = (unsigned)number[FRAYEDBIN_BLOCK_FIRST_GROUP];
    unsigned groups = (unsigned)number[FRAYEDBIN_BLOCK_NUMBER_OF_GROUPS_SPANNED];
    printf("  block %u is %s\n", (unsigned)number[FRAYEDBIN_BLOCK_FUNCTION_BLOCK_NUMBER],
           number[FRAYEDBIN_BLOCK_ACTIVE] ? "active" : "inactive");
    printf("  hint: %s\n", hints[number[FRAYEDBIN_BLOCK_UI_HINT]]);
    printf("  MIDI 1.0 port: %s\n", ports[number[FRAYEDBIN_BLOCK_MIDI1_PORT]]);
    printf("  direction: %s\n", ways[number[FRAYEDBIN_BLOCK_DIRECTION]]);
    printf("  groups: %u from %u on\n", groups, first);
}

static void print_block_name(const uint32_t *number, const uint32_t *words, size_t length) {
    printf("  block %u\n", (unsigned)number[FRAYEDBIN_BLOCK_NAME_FUNCTION_BLOCK]);
    print_text("name", words, length);
}

static void print_message(frayedbin_record record, const uint32_t *words, size_t length) {
    uint8_t name[LINE];
    frayedbin_kind_name(record.status, name, sizeof name);
    printf("%s, %zu packet%s\n", (const char *)name, record.packets,
           record.packets == 1 ? "" : "s");
    switch (record.status) {
    case FRAYEDBIN_ENDPOINT_DISCOVERY: print_discovery(record.number); break;
    case FRAYEDBIN_ENDPOINT_INFO: print_info(record.number); break;
    case FRAYEDBIN_DEVICE_IDENTITY: print_identity(record.number); break;
    case FRAYEDBIN_ENDPOINT_NAME: print_text("name", words, length); break;
    case FRAYEDBIN_PRODUCT_INSTANCE_ID: print_text("id", words, length); break;
    case FRAYEDBIN_FUNCTION_BLOCK_INFO: print_block(record.number); break;
    case FRAYEDBIN_FUNCTION_BLOCK_NAME: print_block_name(record.number, words, length); break;
    }
}

/* Walks a stream and prints what is found at each position. */
static void print_stream(const uint32_t *words, size_t length) {
    size_t position = 0;
    for (;;) {
        frayedbin_walk_answer at = frayedbin_walk(words, length, position);
        if (at.found == FRAYEDBIN_FOUND_END) break;
        printf("word %zu: ", position);
        if (at.found == FRAYEDBIN_FOUND_MESSAGE) {
            print_message(at.record, words + position, at.next - position);
        } else if (at.found == FRAYEDBIN_FOUND_OTHER) {
            printf("type %u, %zu words\n", (unsigned)at.ump_type, at.size);
        } else {
            frayedbin_answer plain = {at.refusal, at.place};
            print_refusal(stdout, plain);
        }
        position = at.next;
    }
    printf("end at word %zu\n", length);
}

/* The text of any words, a byte at a time: this call never refuses. */
static void print_bytes(const uint32_t *words, size_t length) {
    frayedbin_step_answer step = {0, 0, 0};
    printf("bytes:");
    for (;;) {
        step = frayedbin_next_byte(words, length, step.packet, step.byte_number);
        if (step.byte == 0) break;
        printf(" %02X", (unsigned)step.byte);
    }
    printf("\n");
}

/* The words of a packet of each type; 16 is no type. */
static void print_sizes(void) {
    for (uint32_t type = 0; type <= 16; type++) {
        printf(" %zu", frayedbin_words_of_type(type));
    }
    printf("\n");
}

/* Calls that are refused, each by the first thing that is wrong. */
static void print_refused(void) {
    uint32_t name[FRAYEDBIN_PACKET_WORDS], block[FRAYEDBIN_PACKET_WORDS];
    must("name", frayedbin_fresh(name, FRAYEDBIN_PACKET_WORDS, FRAYEDBIN_ENDPOINT_NAME));
    must("block", frayedbin_fresh(block, FRAYEDBIN_PACKET_WORDS, FRAYEDBIN_FUNCTION_BLOCK_INFO));
    print_refusal(stdout, frayedbin_function_block_info_set_ui_hint(NULL, 0, 4));
    print_refusal(stdout, frayedbin_function_block_info_set_midi1_port(name, 4, 3));
    print_refusal(stdout, frayedbin_function_block_info_set_midi1_port(block, 4, 3));
    frayedbin_record r =
        record_of("fresh", frayedbin_record_fresh(FRAYEDBIN_FUNCTION_BLOCK_NAME));
    r.number[FRAYEDBIN_BLOCK_NAME_FUNCTION_BLOCK] = 256;
    print_refusal(stdout, frayedbin_write(block, 4, r));
    frayedbin_text_answer none = frayedbin_text(block, 4, NULL, 0);
    frayedbin_answer plain = {none.refusal, none.place};
    print_refusal(stdout, plain);
}

int main(void) {
    static stream question, told, damaged;
    if (frayedbin_version() != FRAYEDBIN_VERSION) {
        fprintf(stderr, "the library is not the one that frayedbin.h describes\n");
        return EXIT_FAILURE;
    }
    printf("-- the host asks\n");
    ask(&question);
    print_stream(question.words, question.used);

    printf("-- the endpoint answers\n");
    answer(&question, &told);
    print_stream(told.words, told.used);

    /* The second packet of a block's name says another block: refusal 8, and where. */
    printf("-- a damaged name\n");
    tell_block_name(&damaged, 5, "a name of two packets");
    damaged.words[FRAYEDBIN_PACKET_WORDS] ^= 0x0300;
    print_stream(damaged.words, damaged.used);
    print_bytes(damaged.words, damaged.used);

    printf("-- refused calls\n");
    print_refused();

    printf("-- words of a packet of each type, 0 to 15\n");
    print_sizes();
    return EXIT_SUCCESS;
}
