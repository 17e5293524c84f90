#include "values.h"

#include "service.h"
#include "words.h"

void print_opcode(FILE *to, uint8_t opcode)
{
    if (opcode_place(opcode) < OPCODES) {
        fprintf(to, "%s", mcs_opcode_words(opcode));
    } else {
        fprintf(to, "opcode 0x%02X", (unsigned)opcode);
    }
}

/* ---- Text */

/* The character that starts at the front, and in *octets how many it has; 0 octets where none starts there. */
static uint32_t character_at(const uint8_t *text, size_t len, size_t *octets)
{
    static const uint32_t LEAST[5] = {0, 0, 0x80, 0x800, 0x10000};
    uint32_t lead = text[0], code;
    size_t count = lead < 0x80u ? 1u : lead >= 0xF0u ? 4u : lead >= 0xE0u ? 3u : lead >= 0xC0u ? 2u : 0u, k;

    *octets = 0;
    if (count == 0 || count > len || lead >= 0xF8u) {
        return 0;
    }
    code = count == 1u ? lead : lead & (0xFFu >> (count + 1u));
    for (k = 1; k < count; k++) {
        if ((text[k] & 0xC0u) != 0x80u) {
            return 0;
        }
        code = code << 6 | (text[k] & 0x3Fu);
    }
    if (code < LEAST[count] || code > 0x10FFFFu || (code >= 0xD800u && code <= 0xDFFFu)) {
        return 0;
    }
    *octets = count;
    return code;
}

/* Controls, marks that turn the direction of writing, line and paragraph ends, and characters without width. */
static int is_hidden(uint32_t code)
{
    return code < 0x20u || (code >= 0x7Fu && code <= 0x9Fu) || code == 0xADu || code == 0x61Cu ||
           (code >= 0x200Bu && code <= 0x200Fu) || (code >= 0x2028u && code <= 0x202Eu) ||
           (code >= 0x2060u && code <= 0x206Fu) || code == 0xFEFFu;
}

void print_text(FILE *to, const uint8_t *text, size_t len)
{
    size_t at = 0, octets;
    while (at < len) {
        uint32_t code = character_at(text + at, len - at, &octets);
        if (octets == 0) {
            fprintf(to, "<%02X>", (unsigned)text[at]);
            octets = 1;
        } else if (is_hidden(code)) {
            fprintf(to, "<U+%04X>", (unsigned)code);
        } else {
            fwrite(text + at, 1, octets, to);
        }
        at += octets;
    }
}

int print_time(FILE *to, uint32_t hundredths)
{
    return fprintf(to, "%u:%02u.%02u", hundredths / 6000u, hundredths / 100u % 60u, hundredths % 100u);
}

int print_position(FILE *to, uint32_t position, uint32_t rest)
{
    int characters = print_time(to, position);
    return rest == 0 ? characters : characters + fprintf(to, "+%u", rest);
}

void print_value(FILE *to, uint32_t characteristic, const uint8_t *octets, size_t len)
{
    switch (characteristic) {
    case MCS_NAME:
    case MCS_TITLE:
        fputc('"', to);
        print_text(to, octets, len);
        fputc('"', to);
        return;
    case MCS_TRACK_CHANGED:
        return;
    case MCS_DURATION:
    case MCS_POSITION:
        /* -1: there is no track, or its duration is not yet known. */
        if (word_at(octets) == 0xFFFFFFFFu) {
            fprintf(to, characteristic == MCS_DURATION ? "none, or not yet known" : "none");
        } else {
            print_time(to, word_at(octets));
        }
        return;
    case MCS_PLAYBACK_SPEED:
    case MCS_SEEKING_SPEED:
        fprintf(to, "%d", signed_octet(octets[0]));
        return;
    case MCS_SEGMENTS_OBJECT:
    case MCS_TRACK_OBJECT:
    case MCS_NEXT_TRACK_OBJECT:
    case MCS_PARENT_GROUP_OBJECT:
    case MCS_GROUP_OBJECT:
        if (len == MCS_OBJECT_OCTETS) {
            fprintf(to, "0x%04llX", (unsigned long long)mcs_object_at(octets));
        } else {
            fprintf(to, "none");
        }
        return;
    case MCS_PLAYING_ORDER:
        fprintf(to, "%s", mcs_playing_order_words(octets[0]));
        return;
    case MCS_MEDIA_STATE:
        fprintf(to, "%s", mcs_media_state_words(octets[0]));
        return;
    case MCS_CONTROL_POINT:
        print_opcode(to, octets[0]);
        fprintf(to, ": %s", mcs_result_words(octets[1]));
        return;
    default:
        while (len > 0) {
            fprintf(to, "%02X", (unsigned)*octets);
            octets += 1;
            len -= 1;
        }
        return;
    }
}
