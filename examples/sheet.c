/* Goes through a house sheet: three conditions under one budget, and prints each answer and the total.
 *
 * The registry has one macro, m(x) = P{f: ?x, g: $t}. The sheet has m(5), m() and m(6); the budget is 6. The first is expanded for 4
 * nodes. The second is refused, which does not stop the third; that one has the 2 nodes that are left as its limit, and is refused. */
#include <inttypes.h>
#include <stdio.h>
#include <string.h>

#include "neukolja.h"

/* A tape under construction: codes, values and text, which `finish` puts one behind the other. */
struct tape {
    uint32_t entries, text;
    uint8_t codes[64];
    uint64_t values[64];
    char letters[256];
};

static void put(struct tape *t, uint8_t code, uint64_t value)
{
    t->codes[t->entries] = code;
    t->values[t->entries++] = value;
}

/* an entry with text: its value is the text's length */
static void put_text(struct tape *t, uint8_t code, const char *text)
{
    size_t length = strlen(text);
    memcpy(t->letters + t->text, text, length);
    t->text += (uint32_t)length;
    put(t, code, length);
}

static uint64_t span(uint32_t start, uint32_t end)
{
    return start + ((uint64_t)end << 32);
}

static void put_number(uint8_t *at, uint64_t value, int bytes)
{
    for (int i = 0; i < bytes; i++)
        at[i] = (uint8_t)(value >> (8 * i));
}

static size_t finish(const struct tape *t, uint8_t *out)
{
    uint8_t *at = out + 8;
    put_number(out, t->entries, 4);
    put_number(out + 4, t->text, 4);
    memcpy(at, t->codes, t->entries);
    at += t->entries;
    for (uint32_t i = 0; i < t->entries; i++, at += 8)
        put_number(at, t->values[i], 8);
    memcpy(at, t->letters, t->text);
    return (size_t)(at - out) + t->text;
}

static size_t make_registry(uint8_t *out)
{
    struct tape t = {0};
    put(&t, 41, 1);             /* a list of one definition */
    put(&t, 60, span(0, 0));
    put_text(&t, 40, "m");
    put(&t, 41, 1);             /* one parameter */
    put(&t, 42, span(0, 0));
    put_text(&t, 40, "x");
    put(&t, 62, 0);             /* its body is a condition */
    put(&t, 7, span(0, 0));     /* P{..}: span, no namespace, action P, no kind, two fields */
    put(&t, 42, span(0, 0));
    put(&t, 41, 0);
    put_text(&t, 40, "P");
    put_text(&t, 40, "");
    put(&t, 41, 2);
    put_text(&t, 40, "f");
    put_text(&t, 32, "x");
    put_text(&t, 40, "g");
    put_text(&t, 33, "t");
    return finish(&t, out);
}

/* A call of m at a byte of its source, with `count` arguments, each the integer given. */
static size_t make_rule(uint8_t *out, uint32_t start, uint64_t count, uint64_t integer)
{
    struct tape t = {0};
    put(&t, 11, span(start, start + 4));
    put(&t, 54, span(start, start + 4));
    put_text(&t, 40, "m");
    put(&t, 41, count);
    for (uint64_t i = 0; i < count; i++) {
        put(&t, 56, 0);
        put(&t, 21, integer);
    }
    return finish(&t, out);
}

/* A sheet: how many conditions there are, and each behind its length. */
static size_t make_sheet(uint8_t *out)
{
    static const struct { uint32_t start; uint64_t count, integer; } rules[] = {{7, 1, 5}, {20, 0, 0}, {33, 1, 6}};
    uint8_t *at = out + 4;
    put_number(out, 3, 4);
    for (int i = 0; i < 3; i++) {
        size_t length = make_rule(at + 4, rules[i].start, rules[i].count, rules[i].integer);
        put_number(at, length, 4);
        at += 4 + length;
    }
    return (size_t)(at - out);
}

int main(void)
{
    static uint8_t registry[NEUKOLJA_TAPE_SIZE], sheet[NEUKOLJA_SHEET_SIZE];
    static uint8_t result[NEUKOLJA_RESULT_SIZE], work[NEUKOLJA_WORK_SIZE], message[NEUKOLJA_MESSAGE_SIZE];
    static uint32_t counts[NEUKOLJA_COUNTS_LENGTH];
    uint64_t answer[NEUKOLJA_ANSWER_LENGTH], state[NEUKOLJA_SHEET_STATE_LENGTH];
    size_t registry_length = make_registry(registry), sheet_length = make_sheet(sheet);

    neukolja_sheet_open(registry, registry_length, sheet, sheet_length, 6, 0, message, sizeof message, state, answer);
    if (answer[NEUKOLJA_NUMBER] != NEUKOLJA_OK) {
        printf("refused: %" PRIu64 "\n", answer[NEUKOLJA_NUMBER]);
        return 1;
    }
    while (state[NEUKOLJA_SHEET_LEFT] != 0) {
        neukolja_sheet_next(registry, registry_length, sheet, sheet_length, state,
                            result, sizeof result, work, sizeof work, message, sizeof message, counts, answer);
        printf("number %" PRIu64 ", charged %" PRIu64 " %.*s\n", answer[NEUKOLJA_NUMBER], answer[NEUKOLJA_CHARGED],
               (int)answer[NEUKOLJA_MESSAGE_LENGTH], (const char *)message);
    }
    printf("charged %" PRIu64 " of %" PRIu64 ", m was used %" PRIu32 " time(s)\n",
           state[NEUKOLJA_SHEET_CHARGED], state[NEUKOLJA_SHEET_BUDGET], counts[0]);
    return 0;
}
