/* Descriptors of a television stream as texts, and sections that are split into packets and put together again. */
#include <bitstream/dvb/si/desc_55.h>
#include <bitstream/mpeg/psi/descriptors.h>
#include <bitstream/mpeg/psi/psi.h>
#include <stdarg.h>
#include <stdio.h>

#define SECTIONS 4

static uint8_t ratings[] = { 0x55, 12, 'F', 'R', 'A', 0, 'D', 'E', 'U', 9, 'E', 'S', 'P', 0x42 };
static uint8_t unknown[] = { 0x90, 7, 0x00, 0x01, 0x0f, 0x10, 0x7f, 0x80, 0xff };

/* How many bytes each section has behind its first three. Two begin in a packet that has bytes of another in front. */
static const uint16_t lengths[SECTIONS] = { 250, 60, 17, 900 };

static PSI_PRIVATE_DECLARE(sections[SECTIONS]);
static uint8_t *assembled;
static uint16_t assembled_used;
static int sections_seen;

/* Prints what desc55_print tells. */
static void print_rating(void *opaque, const char *format, ...)
{
    const char *country, *text;
    unsigned rating;
    va_list arguments;

    (void)opaque;
    va_start(arguments, format);
    country = va_arg(arguments, const char *);
    rating = va_arg(arguments, unsigned);
    text = va_arg(arguments, const char *);
    va_end(arguments);
    printf(format, country, rating, text);
    printf("\n");
}

/* Prints what desc_print tells. */
static void print_unknown(void *opaque, const char *format, ...)
{
    unsigned tag, length;
    const char *value;
    va_list arguments;

    (void)opaque;
    va_start(arguments, format);
    tag = va_arg(arguments, unsigned);
    length = va_arg(arguments, unsigned);
    value = va_arg(arguments, const char *);
    va_end(arguments);
    printf(format, tag, length, value);
    printf("\n");
}

static void make_section(uint8_t *section, uint8_t number, uint16_t length)
{
    int n;

    psi_init(section, true);
    psi_set_tableid(section, 0x42);
    psi_set_length(section, length);
    psi_set_tableidext(section, 0x1234);
    psi_set_version(section, 5);
    psi_set_current(section);
    psi_set_section(section, number);
    psi_set_lastsection(section, SECTIONS - 1);
    for (n = PSI_HEADER_SIZE_SYNTAX1; n < length + PSI_HEADER_SIZE - PSI_CRC_SIZE; n++)
        section[n] = number * 50 + n;
    psi_set_crc(section);
}

/* Takes bytes of a packet from a place on, and prints the section that they end, if they do. */
static void take_bytes(const uint8_t **payload, uint8_t *length)
{
    uint8_t *section = psi_assemble_payload(&assembled, &assembled_used, payload, length);

    if (!section)
        return;
    printf("section %d of %d bytes: %s, %s\n", psi_get_section(section), psi_get_length(section) + PSI_HEADER_SIZE,
           psi_check_crc(section) ? "good" : "bad", psi_compare(section, sections[sections_seen]) ? "equal" : "other");
    sections_seen++;
    free(section);
}

static void take_packet(uint8_t *packet)
{
    const uint8_t *payload = ts_section(packet);
    uint8_t length = packet + TS_SIZE - payload;
    int n;

    printf("packet");
    for (n = 0; n < 16; n++)
        printf(" %02x", packet[n]);
    printf(" .. %02x\n", packet[TS_SIZE - 1]);
    if (!psi_assemble_empty(&assembled, &assembled_used))
        take_bytes(&payload, &length);
    payload = ts_next_section(packet);
    length = packet + TS_SIZE - payload;
    while (length)
        take_bytes(&payload, &length);
}

int main(void)
{
    uint8_t packet[TS_SIZE];
    uint8_t used = 0;
    uint16_t at;
    int n;

    desc55_print(ratings, print_rating, 0, PRINT_TEXT);
    desc55_print(ratings, print_rating, 0, PRINT_XML);
    desc_print(unknown, print_unknown, 0, PRINT_TEXT);
    desc_print_begin(unknown, print_unknown, 0, PRINT_XML);
    psi_assemble_init(&assembled, &assembled_used);
    for (n = 0; n < SECTIONS; n++) {
        make_section(sections[n], n, lengths[n]);
        for (at = 0; at < lengths[n] + PSI_HEADER_SIZE;) {
            psi_split_section(packet, &used, sections[n], &at);
            if (used == TS_SIZE) {
                take_packet(packet);
                used = 0;
            }
        }
    }
    if (used > 0) {
        psi_split_end(packet, &used);
        take_packet(packet);
    }
    return 0;
}
