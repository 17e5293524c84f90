#define _POSIX_C_SOURCE 200809L

#include "wording.h"

#include <stdio.h>
#include <stdlib.h>

#include "../day/values.h"
#include "mcs_desk.h"

/* A text to print into; and the same when all of it is printed. */
static FILE *begin_wording(wording *words)
{
    FILE *to;
    words->text[0] = '\0';
    to = fmemopen(words->text, sizeof words->text, "w");
    if (to == NULL) { /* there is no memory left */
        exit(1);
    }
    return to;
}

static wording ended(wording *words, FILE *to)
{
    fclose(to);
    words->text[sizeof words->text - 1u] = '\0';
    return *words;
}

wording value_in_words(uint32_t characteristic, const uint8_t *octets, size_t count)
{
    wording words;
    FILE *to = begin_wording(&words);
    print_value(to, characteristic, octets, count);
    return ended(&words, to);
}

wording opcode_in_words(uint8_t opcode)
{
    wording words;
    FILE *to = begin_wording(&words);
    print_opcode(to, opcode);
    return ended(&words, to);
}

wording time_in_words(uint32_t hundredths)
{
    wording words;
    FILE *to = begin_wording(&words);
    print_time(to, hundredths);
    return ended(&words, to);
}

wording plain_text(const uint8_t *octets, size_t count)
{
    wording words;
    FILE *to = begin_wording(&words);
    print_text(to, octets, count);
    return ended(&words, to);
}

wording refusal_number(uint32_t number)
{
    wording words;
    snprintf(words.text, sizeof words.text, MCS_IS_ATT_ERROR(number) ? "0x%02X" : "%u", (unsigned)number);
    return words;
}

wording object_in_words(uint64_t object)
{
    static const struct {
        uint64_t first;
        const char *word;
    } KINDS[] = {
        {MCS_OBJECT_OF_SEGMENTS(0), "segments of track"}, {MCS_OBJECT_OF_GROUP(0), "group"}, {MCS_OBJECT_OF_TRACK(0), "track"}};
    wording words;
    size_t k = 0;
    while (k < 2u && object < KINDS[k].first) {
        k++;
    }
    snprintf(words.text, sizeof words.text, "%s %u", KINDS[k].word, (unsigned)(object - KINDS[k].first));
    return words;
}

const char *short_result(uint32_t result)
{
    static const char *const WORDS[] = {"", "Success", "Not Supported", "Inactive", "Not Completed"};
    return result <= MCS_RESULT_NOT_COMPLETED ? WORDS[result] : "unknown";
}

const char *service_word(uint32_t service) { return service == MCS_GENERIC ? "generic" : "named"; }
