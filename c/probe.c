/* A probe that answers a discovery: it sends what is asked for and then its two function blocks,
 * and prints the words and what a host finds in them. C99, and C++ as it stands. */
#include "frayedbin.h"

#include <stdio.h>
#include <stdlib.h>
#include <string.h>

/* Words of one message, and of all that are sent. */
enum { ROOM = 32, SENT_ROOM = 128 };

static uint32_t sent[SENT_ROOM];
static size_t sent_words;

/* Nothing here should be refused: what is, ends the program. */
static void stop_if(uint32_t refusal, size_t place) {
    uint8_t why[100];
    if (refusal == FRAYEDBIN_DONE) return;
    frayedbin_refusal_text(refusal, why, sizeof why);
    fprintf(stderr, "refused, place %zu: %s\n", place, (const char *)why);
    exit(EXIT_FAILURE);
}

static void must(frayedbin_answer answer) { stop_if(answer.refusal, answer.place); }

/* Prints a message and keeps it; a device would hand it to its transport. */
static void send_message(const uint32_t *message) {
    frayedbin_size_answer size = frayedbin_message_size(message, ROOM);
    stop_if(size.refusal, size.place);
    if (size.words > SENT_ROOM - sent_words) stop_if(FRAYEDBIN_NO_ROOM, 0);
    for (size_t i = 0; i < size.words; i++) {
        printf("%s%08X", i == 0 ? "" : " ", (unsigned)message[i]);
        sent[sent_words++] = message[i];
    }
    printf("\n");
}

/* Each message is made in words of its own: a text that is set zeroes every packet after it. */
static void send_info(void) {
    uint32_t m[ROOM];
    must(frayedbin_fresh(m, ROOM, FRAYEDBIN_ENDPOINT_INFO));
    must(frayedbin_endpoint_info_set_ump_version_major(m, ROOM, 1));
    must(frayedbin_endpoint_info_set_ump_version_minor(m, ROOM, 1));
    must(frayedbin_endpoint_info_set_static_function_blocks(m, ROOM, true));
    must(frayedbin_endpoint_info_set_number_of_function_blocks(m, ROOM, 2));
    must(frayedbin_endpoint_info_set_supports_midi2_protocol(m, ROOM, true));
    must(frayedbin_endpoint_info_set_supports_midi1_protocol(m, ROOM, true));
    send_message(m);
}

static void send_identity(void) {
    uint32_t m[ROOM];
    must(frayedbin_fresh(m, ROOM, FRAYEDBIN_DEVICE_IDENTITY));
    must(frayedbin_device_identity_set_device_manufacturer(m, ROOM, 0x7D, 0x00, 0x00));
    must(frayedbin_device_identity_set_device_family(m, ROOM, 1));
    must(frayedbin_device_identity_set_device_family_model_number(m, ROOM, 2));
    must(frayedbin_device_identity_set_software_version(m, ROOM, 1, 2, 0, 3));
    send_message(m);
}

static void send_name(const char *name) {
    uint32_t m[ROOM];
    must(frayedbin_fresh(m, ROOM, FRAYEDBIN_ENDPOINT_NAME));
    must(frayedbin_endpoint_name_set_name(m, ROOM, (const uint8_t *)name, strlen(name)));
    send_message(m);
}

static void send_id(const char *id) {
    uint32_t m[ROOM];
    must(frayedbin_fresh(m, ROOM, FRAYEDBIN_PRODUCT_INSTANCE_ID));
    must(frayedbin_product_instance_id_set_id(m, ROOM, (const uint8_t *)id, strlen(id)));
    send_message(m);
}

/* A block of one group, which has its number; the MIDI 1.0 port and the streams stay 0. */
static void send_block(uint32_t number, uint32_t direction, uint32_t hint, uint32_t ci_version) {
    uint32_t m[ROOM];
    must(frayedbin_fresh(m, ROOM, FRAYEDBIN_FUNCTION_BLOCK_INFO));
    must(frayedbin_function_block_info_set_active(m, ROOM, true));
    must(frayedbin_function_block_info_set_function_block_number(m, ROOM, number));
    must(frayedbin_function_block_info_set_direction(m, ROOM, direction));
    must(frayedbin_function_block_info_set_ui_hint(m, ROOM, hint));
    must(frayedbin_function_block_info_set_first_group(m, ROOM, number));
    must(frayedbin_function_block_info_set_number_of_groups_spanned(m, ROOM, 1));
    must(frayedbin_function_block_info_set_midi_ci_version(m, ROOM, ci_version));
    send_message(m);
}

static void send_block_name(uint32_t number, const char *name) {
    const uint8_t *text = (const uint8_t *)name;
    uint32_t m[ROOM];
    must(frayedbin_fresh(m, ROOM, FRAYEDBIN_FUNCTION_BLOCK_NAME));
    must(frayedbin_function_block_name_set_function_block(m, ROOM, number));
    must(frayedbin_function_block_name_set_name(m, ROOM, text, strlen(name)));
    send_message(m);
}

static void answer(const uint32_t *question, size_t length) {
    frayedbin_record_answer read = frayedbin_read(question, length);
    const uint32_t *asked = read.record.number;
    stop_if(read.refusal, read.place);
    if (read.record.status != FRAYEDBIN_ENDPOINT_DISCOVERY) return;
    if (asked[FRAYEDBIN_DISCOVERY_REQUEST_ENDPOINT_INFO]) send_info();
    if (asked[FRAYEDBIN_DISCOVERY_REQUEST_DEVICE_IDENTITY]) send_identity();
    if (asked[FRAYEDBIN_DISCOVERY_REQUEST_ENDPOINT_NAME]) send_name("Frayedbin Bench Probe");
    if (asked[FRAYEDBIN_DISCOVERY_REQUEST_PRODUCT_INSTANCE_ID]) send_id("FB-0001");
    send_block(0, FRAYEDBIN_DIRECTION_BIDIRECTIONAL, FRAYEDBIN_HINT_SENDER_RECEIVER, 2);
    send_block_name(0, "Keys");
    send_block(1, FRAYEDBIN_DIRECTION_OUTPUT, FRAYEDBIN_HINT_SENDER, 0);
    send_block_name(1, "Kn\xC3\xB6pfe & Pads");
}

/* Prints where a message was found, its kind and, where it has one, its text. */
static void print_found(size_t position, frayedbin_walk_answer found) {
    uint8_t kind[32], text[FRAYEDBIN_MOST_NAME_BYTES];
    size_t length = found.next - position;
    frayedbin_text_answer told = frayedbin_text(sent + position, length, text, sizeof text);
    frayedbin_kind_name(found.record.status, kind, sizeof kind);
    printf("%zu %s", position, (const char *)kind);
    if (told.refusal != FRAYEDBIN_NO_SUCH_FIELD) {
        stop_if(told.refusal, told.place);
        printf(" \"%.*s\"", (int)told.length, (const char *)text);
    }
    printf("\n");
}

int main(void) {
    const uint32_t question[] = {0xF0000101, 0x0000000F, 0, 0};
    size_t position = 0;
    answer(question, sizeof question / sizeof *question);
    printf("found:\n");
    while (position < sent_words) {
        frayedbin_walk_answer found = frayedbin_walk(sent, sent_words, position);
        stop_if(found.refusal, found.place);
        if (found.found == FRAYEDBIN_FOUND_MESSAGE) print_found(position, found);
        position = found.next;
    }
    return EXIT_SUCCESS;
}
