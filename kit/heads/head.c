/* A head in C: it links the archive and answers requests on standard input with responses on standard output, as docs/SUPPLIER.md
 * describes them. `./neukolja pair ours HEAD` compares it with the kit's own.
 *
 *     kit/heads/build . target/head
 *
 * It also compiles with the header and the archive of an earlier version: `kit/heads/build` finds out from the header what that
 * one has, and defines HAS_FILE and the like accordingly. */
#include <stdint.h>
#include <stdio.h>
#include <stdlib.h>
#include <string.h>

#include "neukolja.h"

enum {
    HELLO = 0,
    CHECK = 1,
    REGISTRY = 2,
    SUBSTITUTE = 3,
    EXPAND = 4,
    PREVIEW = 5,
    CHECK_LIBRARY = 6,
    CHECK_AT = 7,
    JUDGE = 8,
    MERGE = 9,
    OLDER = 10,
    PROFILE = 11,
    PROVIDER = 12,
    ARGUMENT_TO_TERM = 13,
    TERM_TO_ARGUMENT = 14
};
enum { COUNTS = 255, WORDS = 7, LONGEST = 1 << 20 };

/* A request, taken apart; its tapes are read where they lie. */
struct request {
    uint32_t id, limit, index, sizes[3];
    uint16_t file;
    uint8_t operation, tapes;
    const uint8_t *tape[3];
    uint32_t length[3];
    uint32_t counts[COUNTS];
};

/* What is read from a frame, and how much of it is left. */
struct reader {
    const uint8_t *at;
    size_t left;
};

static uint8_t frame[LONGEST], result[LONGEST], work[LONGEST], message[LONGEST];

static void stop(const char *why)
{
    fprintf(stderr, "head: %s\n", why);
    exit(2);
}

static uint64_t number(const uint8_t *at, int bytes)
{
    uint64_t value = 0;
    for (int i = bytes; i > 0; i--)
        value = value << 8 | at[i - 1];
    return value;
}

static const uint8_t *take(struct reader *r, size_t n)
{
    const uint8_t *taken = r->at;
    if (r->left < n)
        stop("a request that ends too early");
    r->at += n;
    r->left -= n;
    return taken;
}

static uint64_t take_number(struct reader *r, int bytes)
{
    return number(take(r, (size_t)bytes), bytes);
}

static void take_counts(struct reader *r, uint32_t counts[COUNTS])
{
    uint32_t length = (uint32_t)take_number(r, 4);
    memset(counts, 0, COUNTS * sizeof *counts);
    if (length % 4 != 0 || length > 4 * COUNTS)
        stop("counts of a wrong length");
    for (uint32_t i = 0; i < length / 4; i++)
        counts[i] = (uint32_t)take_number(r, 4);
}

/* how many tapes an operation reads: the archive's functions take no null pointer for one that is missing */
static int tapes_of(uint8_t operation)
{
    switch (operation) {
    case SUBSTITUTE:
    case EXPAND:
    case PREVIEW:
    case MERGE:
        return 2;
    case JUDGE:
        return 3;
    default:
        return 1;
    }
}

static void read_request(struct reader *r, struct request *q)
{
    memset(q, 0, sizeof *q);
    q->id = (uint32_t)take_number(r, 4);
    q->operation = (uint8_t)take_number(r, 1);
    if (q->operation == HELLO)
        return;
    q->limit = (uint32_t)take_number(r, 4);
    q->file = (uint16_t)take_number(r, 2);
    q->index = (uint32_t)take_number(r, 4);
    for (int i = 0; i < 3; i++)
        if ((q->sizes[i] = (uint32_t)take_number(r, 4)) > LONGEST)
            stop("a buffer that is too long");
    take_counts(r, q->counts);
    q->tapes = (uint8_t)take_number(r, 1);
    if (q->tapes != tapes_of(q->operation))
        stop("another number of tapes than the operation reads");
    for (int i = 0; i < q->tapes; i++) {
        q->length[i] = (uint32_t)take_number(r, 4);
        q->tape[i] = take(r, q->length[i]);
    }
    if (r->left != 0)
        stop("bytes behind the last tape");
}

static void put_number(uint64_t value, int bytes)
{
    for (int i = 0; i < bytes; i++)
        putchar((int)(value >> (8 * i) & 0xFF));
}

/* the length of a buffer without the zeros at its end */
static uint32_t without_zeros(const uint8_t *bytes, uint32_t length)
{
    while (length > 0 && bytes[length - 1] == 0)
        length--;
    return length;
}

static void put_bytes(const uint8_t *bytes, uint32_t length)
{
    put_number(length, 4);
    fwrite(bytes, 1, length, stdout);
}

static void respond(uint32_t id, const uint64_t words[WORDS], uint32_t result_length, uint32_t message_length, const uint32_t counts[COUNTS])
{
    uint32_t used = COUNTS;
    result_length = without_zeros(result, result_length);
    message_length = without_zeros(message, message_length);
    while (used > 0 && counts[used - 1] == 0)
        used--;
    put_number(4 + 8 * WORDS + 4 + result_length + 4 + message_length + 4 + 4 * used, 4);
    put_number(id, 4);
    for (int i = 0; i < WORDS; i++)
        put_number(words[i], 8);
    put_bytes(result, result_length);
    put_bytes(message, message_length);
    put_number(4 * used, 4);
    for (uint32_t i = 0; i < used; i++)
        put_number(counts[i], 4);
}

static void say_hello(uint32_t id)
{
    static const char hello[] =
        "name a head in C\n"
        "operations check registry substitute expand"
#ifdef HAS_PREVIEW
        " preview"
#endif
#ifdef HAS_LIBRARY
        " check_library check_at"
#endif
#ifdef HAS_JUDGE
        " judge"
#endif
#ifdef HAS_MERGE
        " merge"
#endif
#ifdef HAS_OLDER
        " older"
#endif
#ifdef HAS_PROFILE
        " profile"
#endif
#ifdef HAS_PROVIDER
        " provider argument_to_term term_to_argument"
#endif
        "\nfeatures sizes"
#ifdef HAS_COUNTS
        " counts"
#endif
#ifdef HAS_FILE
        " files"
#endif
#ifdef HAS_OLDER
        " weeks"
#endif
#ifdef HAS_UTF8
        " utf8"
#endif
        "\n";
    static const uint32_t no_counts[COUNTS];
    static const uint64_t words[WORDS];
    memcpy(result, hello, sizeof hello - 1);
    respond(id, words, sizeof hello - 1, 0, no_counts);
}

/* Arguments as the functions take them: what an earlier version has not is left out. */
#define TAPE(i) q->tape[i], q->length[i]
#define RESULT result, q->sizes[0]
#define WORK work, q->sizes[1]
#define MESSAGE message, q->sizes[2]
#ifdef HAS_FILE
#define LIMIT q->limit, q->file
#else
#define LIMIT q->limit
#endif
#ifdef HAS_COUNTS
#define STATE q->counts,
#else
#define STATE
#endif

/* the operations that came after the preview, each in its version */
static void answer_later(struct request *q, uint64_t words[WORDS])
{
    switch (q->operation) {
#ifdef HAS_LIBRARY
    case CHECK_LIBRARY:
        neukolja_check_library(TAPE(0), RESULT, MESSAGE, words);
        break;
    case CHECK_AT:
        neukolja_check_at(TAPE(0), q->index, MESSAGE, words);
        break;
#endif
#ifdef HAS_JUDGE
    case JUDGE:
        neukolja_judge(TAPE(0), TAPE(1), TAPE(2), LIMIT, RESULT, WORK, MESSAGE, words);
        break;
#endif
#ifdef HAS_MERGE
    case MERGE:
        neukolja_merge(TAPE(0), TAPE(1), RESULT, MESSAGE, words);
        break;
#endif
#ifdef HAS_OLDER
    case OLDER:
        neukolja_older(TAPE(0), RESULT, words);
        break;
#endif
#ifdef HAS_PROFILE
    case PROFILE:
        neukolja_profile(TAPE(0), words);
        break;
#endif
#ifdef HAS_PROVIDER
    case PROVIDER:
        neukolja_provider(TAPE(0), words);
        break;
    case ARGUMENT_TO_TERM:
        neukolja_argument_to_term(TAPE(0), RESULT, words);
        break;
    case TERM_TO_ARGUMENT:
        neukolja_term_to_argument(TAPE(0), RESULT, words);
        break;
#endif
    default:
        (void)words;
        stop("an operation that the hello does not name");
    }
}

static void answer(struct request *q)
{
    uint64_t words[WORDS] = {0};
    int keeps_counts = q->operation == REGISTRY || q->operation == EXPAND;
    switch (q->operation) {
    case CHECK:
        neukolja_check(TAPE(0), MESSAGE, words);
        break;
    case REGISTRY:
        neukolja_registry(TAPE(0), MESSAGE, STATE words);
        break;
    case SUBSTITUTE:
        neukolja_substitute(TAPE(0), TAPE(1), LIMIT, RESULT, WORK, MESSAGE, words);
        break;
    case EXPAND:
        neukolja_expand(TAPE(0), TAPE(1), LIMIT, RESULT, WORK, MESSAGE, STATE words);
        break;
#ifdef HAS_PREVIEW
    case PREVIEW:
        neukolja_preview(TAPE(0), TAPE(1), LIMIT, WORK, MESSAGE, words);
        break;
#endif
    default:
        answer_later(q, words);
    }
    if (!keeps_counts)
        memset(q->counts, 0, sizeof q->counts);
    respond(q->id, words, q->sizes[0], q->sizes[2], q->counts);
}

int main(void)
{
    uint8_t head[4];
    struct request q;
    while (fread(head, 1, sizeof head, stdin) == sizeof head) {
        struct reader r = {frame, (size_t)number(head, 4)};
        if (r.left > sizeof frame || fread(frame, 1, r.left, stdin) != r.left)
            stop("a frame that is too long, or cut off");
        read_request(&r, &q);
        if (q.operation == HELLO)
            say_hello(q.id);
        else
            answer(&q);
        fflush(stdout);
    }
    return 0;
}
