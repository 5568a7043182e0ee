/* Sizes one rule, expands it, and prints the sizes, the answer, how often the macro was used, and the result.
 *
 * The registry has one macro, m(x) = P{f: ?x, g: $t}; the rule is the call m(5), which stands from byte 7 to byte 9 of its source.
 * What comes out is P{f: 5, g: t$7}, and 4 nodes are charged. */
#include <inttypes.h>
#include <stdio.h>
#include <string.h>

#include "neukolja.h"

/* A tape under construction: codes, values and text, which `finish` puts one behind the other. */
struct tape {
    uint32_t entries, text;
    uint8_t codes[64];
    uint64_t values[64];
    char letters[256];
};

static void put(struct tape *t, uint8_t code, uint64_t value)
{
    t->codes[t->entries] = code;
    t->values[t->entries++] = value;
}

/* an entry with text: its value is the text's length */
static void put_text(struct tape *t, uint8_t code, const char *text)
{
    size_t length = strlen(text);
    memcpy(t->letters + t->text, text, length);
    t->text += (uint32_t)length;
    put(t, code, length);
}

static uint64_t span(uint32_t start, uint32_t end)
{
    return start + ((uint64_t)end << 32);
}

static void put_number(uint8_t *at, uint64_t value, int bytes)
{
    for (int i = 0; i < bytes; i++)
        at[i] = (uint8_t)(value >> (8 * i));
}

static uint64_t get_number(const uint8_t *at, int bytes)
{
    uint64_t value = 0;
    for (int i = bytes; i > 0; i--)
        value = value << 8 | at[i - 1];
    return value;
}

static size_t finish(const struct tape *t, uint8_t *out)
{
    uint8_t *at = out + 8;
    put_number(out, t->entries, 4);
    put_number(out + 4, t->text, 4);
    memcpy(at, t->codes, t->entries);
    at += t->entries;
    for (uint32_t i = 0; i < t->entries; i++, at += 8)
        put_number(at, t->values[i], 8);
    memcpy(at, t->letters, t->text);
    return (size_t)(at - out) + t->text;
}

static size_t make_registry(uint8_t *out)
{
    struct tape t = {0};
    put(&t, 41, 1);             /* a list of one definition */
    put(&t, 60, span(0, 0));
    put_text(&t, 40, "m");
    put(&t, 41, 1);             /* one parameter */
    put(&t, 42, span(0, 0));
    put_text(&t, 40, "x");
    put(&t, 62, 0);             /* its body is a condition */
    put(&t, 7, span(0, 0));     /* P{..}: span, no namespace, action P, no kind, two fields */
    put(&t, 42, span(0, 0));
    put(&t, 41, 0);
    put_text(&t, 40, "P");
    put_text(&t, 40, "");
    put(&t, 41, 2);
    put_text(&t, 40, "f");
    put_text(&t, 32, "x");
    put_text(&t, 40, "g");
    put_text(&t, 33, "t");
    return finish(&t, out);
}

static size_t make_rule(uint8_t *out)
{
    struct tape t = {0};
    put(&t, 11, span(0, 0));    /* a call as a condition */
    put(&t, 54, span(7, 9));
    put_text(&t, 40, "m");
    put(&t, 41, 1);             /* one argument, a term: the integer 5 */
    put(&t, 56, 0);
    put(&t, 21, 5);
    return finish(&t, out);
}

static void print_tape(const uint8_t *tape)
{
    uint64_t n = get_number(tape, 4);
    const uint8_t *codes = tape + 8, *values = codes + n, *text = values + 8 * n;
    for (uint64_t i = 0; i < n; i++) {
        uint64_t value = get_number(values + 8 * i, 8);
        printf("%u %" PRIu64, codes[i], value);
        if (codes[i] == 40 || codes[i] == 27) {
            printf(" \"%.*s\"", (int)value, (const char *)text);
            text += value;
        }
        printf("\n");
    }
}

int main(void)
{
    static uint8_t registry[NEUKOLJA_TAPE_SIZE], rule[NEUKOLJA_TAPE_SIZE];
    static uint8_t result[NEUKOLJA_RESULT_SIZE], work[NEUKOLJA_WORK_SIZE], message[NEUKOLJA_MESSAGE_SIZE];
    static uint32_t counts[NEUKOLJA_COUNTS_LENGTH];
    uint64_t answer[NEUKOLJA_ANSWER_LENGTH], preview[NEUKOLJA_PREVIEW_LENGTH];
    size_t registry_length = make_registry(registry), rule_length = make_rule(rule);

    neukolja_preview(registry, registry_length, rule, rule_length, 100, 0,
                     work, sizeof work, message, sizeof message, preview);
    printf("the result will have %" PRIu64 " entries and %" PRIu64 " bytes of text\n",
           preview[NEUKOLJA_RESULT_ENTRIES], preview[NEUKOLJA_RESULT_TEXT]);

    neukolja_registry(registry, registry_length, message, sizeof message, counts, answer);
    if (answer[NEUKOLJA_NUMBER] == NEUKOLJA_OK)
        neukolja_expand(registry, registry_length, rule, rule_length, 100, 0,
                        result, sizeof result, work, sizeof work, message, sizeof message, counts, answer);

    printf("number %" PRIu64 ", span %" PRIu64 "..%" PRIu64 ", charged %" PRIu64 "\n",
           answer[NEUKOLJA_NUMBER], answer[NEUKOLJA_SPAN_START], answer[NEUKOLJA_SPAN_END], answer[NEUKOLJA_CHARGED]);
    printf("m was used %" PRIu32 " time(s)\n", counts[0]);
    if (answer[NEUKOLJA_NUMBER] == NEUKOLJA_OK)
        print_tape(result);
    else
        printf("%.*s\n", (int)answer[NEUKOLJA_MESSAGE_LENGTH], (const char *)message);
    return 0;
}
