/* Neukolja: the temporal macro expander that hubs and valve heads share.
 *
 * Every function ends, on every input, and writes nothing outside the buffers that it is lent. A tape is read where it lies and
 * is not changed. `answer` points to five numbers, for neukolja_preview to seven; NEUKOLJA_NUMBER and so on are their places. The
 * number is 0 for success and else one of the refusals below. The span is 0..0 where a refusal has none. Texts and messages are
 * UTF-8, and a message has no zero at its end. A text on a tape that is no well-formed UTF-8 (RFC 3629), or holds 00 to 1F or 7F,
 * is refused with NEUKOLJA_MALFORMED; lengths are bytes.
 *
 * Code 2, a disjunction, is withdrawn: a tape may hold it, and `a or b` is taken as the negation of the conjunction of the two
 * negations. The largest figures hold of the tape so rewritten too, which has three entries more for each 2 and nests two levels
 * deeper at each, and so do sizes, charges and messages. No result holds a 2.
 *
 * Stack: the walks recurse as deep as tapes nest. Measured at the deepest inputs on x86-64 (`bench stack`): neukolja_check 66,007
 * bytes, neukolja_registry 16,639, neukolja_check_library 72,359, neukolja_check_at 72,423, neukolja_merge 45,087,
 * neukolja_substitute 102,775, neukolja_expand 177,335, neukolja_preview 189,655, neukolja_judge 214,919,
 * neukolja_older 21,567, neukolja_profile 21,567, neukolja_provider 9,071, neukolja_argument_to_term 9,167,
 * neukolja_term_to_argument 9,151, neukolja_sheet_open 16,751, neukolja_sheet_next 177,335. A linker script or a thread must
 * provide it, with what the caller itself needs and some room on top: nothing checks it while a function runs.
 *
 * A function keeps nothing between calls, so several threads may call it at once, each with buffers of its own. What a call
 * writes to must not overlap anything else that it is given. No pointer may be null, not even with the length 0.
 */
#ifndef NEUKOLJA_H
#define NEUKOLJA_H

#include <stddef.h>
#include <stdint.h>

#ifdef __cplusplus
extern "C" {
#endif

/* the least sizes of the lent buffers, in bytes; longer ones are filled with zeros to their end */
#define NEUKOLJA_RESULT_SIZE 12296u
#define NEUKOLJA_WORK_SIZE 65536u
#define NEUKOLJA_MESSAGE_SIZE 2048u

/* the largest tape: 8 bytes, 9 for each of 1,024 entries, and 3,072 of text */
#define NEUKOLJA_TAPE_SIZE 12296u

/* The counts of a registry: for each definition, in the registry's order, how many of its calls were substituted. A registry has
 * 255 definitions at the most, and a count stays at 4,294,967,295. */
#define NEUKOLJA_COUNTS_LENGTH 255u

/* the longest house sheet, its count and lengths among the bytes, and the most conditions in one */
#define NEUKOLJA_SHEET_SIZE 65536u
#define NEUKOLJA_SHEET_CONDITIONS 32u

/* the places of a house sheet's state */
enum {
    NEUKOLJA_SHEET_AT = 0,              /* where the next condition begins */
    NEUKOLJA_SHEET_LEFT = 1,            /* how many are left */
    NEUKOLJA_SHEET_CHARGED = 2,         /* what was charged so far */
    NEUKOLJA_SHEET_BUDGET = 3,
    NEUKOLJA_SHEET_FILE = 4,
    NEUKOLJA_SHEET_STATE_LENGTH = 5
};

/* the places of an answer */
enum {
    NEUKOLJA_NUMBER = 0,
    NEUKOLJA_SPAN_START = 1,
    NEUKOLJA_SPAN_END = 2,
    NEUKOLJA_MESSAGE_LENGTH = 3,
    NEUKOLJA_CHARGED = 4,
    NEUKOLJA_ANSWER_LENGTH = 5,
    NEUKOLJA_RESULT_ENTRIES = 5,        /* of neukolja_preview alone: the result's N */
    NEUKOLJA_RESULT_TEXT = 6,           /* .. and its T */
    NEUKOLJA_PREVIEW_LENGTH = 7
};

/* the numbers */
enum {
    NEUKOLJA_OK = 0,
    NEUKOLJA_SHORT_BUFFER = 1,          /* a buffer is below its least size */
    NEUKOLJA_MALFORMED = 2,             /* not a tape with the root wanted */
    NEUKOLJA_TOO_LARGE = 3,             /* over a largest figure; has a call's span if the call with its
                                           arguments, or what it becomes, is too large */
    NEUKOLJA_RESERVED_NAME = 10,        /* a macro has a reserved name */
    NEUKOLJA_DUPLICATE_NAME = 11,       /* a macro is defined twice */
    NEUKOLJA_UNDECLARED_PARAMETER = 20, /* in a body: `?` and a name that is no parameter */
    NEUKOLJA_PLAIN_IDENTIFIER = 21,     /* .. a plain identifier */
    NEUKOLJA_CALL_IN_BODY = 22,         /* .. a call */
    NEUKOLJA_UNKNOWN_MACRO = 30,
    NEUKOLJA_CEDAR_MACRO = 31,
    NEUKOLJA_VALUE_AS_CONDITION = 32,
    NEUKOLJA_CONDITION_AS_VALUE = 33,
    NEUKOLJA_ARGUMENT_COUNT = 34,
    NEUKOLJA_BUDGET = 35,               /* more nodes than the limit */
    NEUKOLJA_STRAY_CONDITION = 36,      /* a sigil outside of a macro's body: as a condition */
    NEUKOLJA_STRAY_WITHIN = 37,         /* .. as an interval */
    NEUKOLJA_STRAY_SLOT = 38,           /* .. as a binder */
    NEUKOLJA_STRAY_FIELD = 39,          /* .. in a predicate's field */
    NEUKOLJA_STRAY_OPERAND = 40,        /* .. as an operand */
    NEUKOLJA_UNBOUND_PARAMETER = 41,
    NEUKOLJA_NOT_A_CONDITION = 42,      /* an argument of another kind than its place wants */
    NEUKOLJA_BINDER_AS_CONDITION = 43,  /* `$` as a condition */
    NEUKOLJA_NOT_AN_INTERVAL = 44,
    NEUKOLJA_NOT_A_TERM = 45,
    NEUKOLJA_NOT_AN_IDENTIFIER = 46,
    NEUKOLJA_NOT_A_PREDICATE = 47,      /* fields are given to what is no predicate */
    NEUKOLJA_CALL_MET_IN_BODY = 48,
    NEUKOLJA_NOT_EQUAL = 50,            /* judging alone: the supplied tape is not our result */
    NEUKOLJA_DEFINITIONS_DIFFER = 51,   /* merge alone: a name that both registries have is defined otherwise in
                                           the second */
    NEUKOLJA_OUT_OF_RANGE = 52,         /* the older tape alone: seven times an amount of weeks has no 64 bits */
    NEUKOLJA_AGGREGATE = 53,            /* the profile alone: an aggregate (30) */
    NEUKOLJA_TOO_MANY_NODES = 54,       /* .. a seventeenth node */
    NEUKOLJA_TOO_LONG_INTERVAL = 55,    /* .. an interval outside 0 to one day; has the span of the nearest
                                           condition around it */
    NEUKOLJA_HAS_A_FIELD = 56,          /* a field (71) anywhere in an argument that is to become a term */
    NEUKOLJA_SHEET_TOO_LARGE = 57,      /* a house sheet alone: more than 32 conditions or 65,536 bytes */
    NEUKOLJA_NOT_AN_ARGUMENT = 58       /* a term that no argument becomes */
};

/* The body check of one definition, a tape whose root is 60. Nothing is charged.
 * message: the message of a refusal, then zeros to the end; all zeros on success. */
void neukolja_check(const uint8_t *definition, size_t definition_length,
                    uint8_t *message, size_t message_length,
                    uint64_t answer[5]);

/* The names of a registry, a tape whose root is a list of 60: reserved ones, and ones that stand twice. Nothing is charged.
 * message: the message of a refusal, then zeros to the end; all zeros on success.
 * counts:  the counts of a registry just built: all zeros, whatever the answer. */
void neukolja_registry(const uint8_t *registry, size_t registry_length,
                       uint8_t *message, size_t message_length,
                       uint32_t counts[255], uint64_t answer[5]);

/* The body check of every definition of a registry, after the registry's own refusals. The number is 0 whatever the list holds.
 * Nothing is charged.
 * result:  16 bytes for each refused definition, in the registry's order: its index from 0, number, start and end, 4 bytes each,
 *          the lowest byte first; then zeros to the end. A number listed is 20, 21 or 22, so the first number 0 ends the list.
 *          All zeros on a refusal.
 * message: the message of a refusal, then zeros to the end; all zeros on success. */
void neukolja_check_library(const uint8_t *registry, size_t registry_length,
                            uint8_t *result, size_t result_length,
                            uint8_t *message, size_t message_length,
                            uint64_t answer[5]);

/* The body check of the definition of a registry that has an index from 0, after the same refusals: what neukolja_check answers
 * for that definition alone, its message too, and 0 past the end. Nothing is charged.
 * message: the message of a refusal, then zeros to the end; all zeros on success. */
void neukolja_check_at(const uint8_t *registry, size_t registry_length,
                       uint32_t index,
                       uint8_t *message, size_t message_length,
                       uint64_t answer[5]);

/* One definition applied to one call, a tape whose root is 54; the names are not compared. At most `limit` nodes are charged.
 * `file` is the number of the call's file, which the names of `$` binders end in; with 0 they have none (see neukolja_expand).
 * result:  the tape of a condition or a term, then zeros to the end; all zeros on a refusal.
 * work:    all zeros afterwards.
 * message: the message of a refusal, then zeros to the end; all zeros on success. */
void neukolja_substitute(const uint8_t *definition, size_t definition_length,
                         const uint8_t *call, size_t call_length,
                         uint32_t limit, uint16_t file,
                         uint8_t *result, size_t result_length,
                         uint8_t *work, size_t work_length,
                         uint8_t *message, size_t message_length,
                         uint64_t answer[5]);

/* A condition with its macro calls expanded by the definitions of a registry. At most `limit` nodes are charged.
 * `file` is the number of the rule's file. A `$` binder t of a call at byte 7 becomes t$7 in file 0 and t$7#3 in file 3, so that
 * conditions of several files may be joined: give each file a number of its own. A name has at most 75 bytes, or 81.
 * result:  the tape of the condition, then zeros to the end; all zeros on a refusal.
 * work:    all zeros afterwards.
 * message: the message of a refusal, then zeros to the end; all zeros on success.
 * counts:  for each definition, in the registry's order, one more for each of its calls that was substituted: calls inside calls
 *          and those in unused arguments too. A refusal changes none, and the counts behind the last definition are left as they
 *          are. neukolja_registry gives the first; hand on what each expansion leaves. */
void neukolja_expand(const uint8_t *registry, size_t registry_length,
                     const uint8_t *condition, size_t condition_length,
                     uint32_t limit, uint16_t file,
                     uint8_t *result, size_t result_length,
                     uint8_t *work, size_t work_length,
                     uint8_t *message, size_t message_length,
                     uint32_t counts[255], uint64_t answer[5]);

/* What neukolja_expand would answer for the same tapes, limit and file number with a result buffer that is long enough, and how
 * large its result would be: 8 bytes, 9 for each of N entries, and T bytes of text. N and T are 0 on a refusal. There is no result
 * buffer, and no counts are taken.
 * work:    all zeros afterwards.
 * message: the message of a refusal, then zeros to the end; all zeros on success. */
void neukolja_preview(const uint8_t *registry, size_t registry_length,
                      const uint8_t *condition, size_t condition_length,
                      uint32_t limit, uint16_t file,
                      uint8_t *work, size_t work_length,
                      uint8_t *message, size_t message_length,
                      uint64_t answer[7]);

/* Two registries joined, each a tape whose root is a list of 60: the definitions of the first in order, then those of the second
 * whose names the first lacks. A name that both have is kept once, as the first has it, if the two definitions agree in everything
 * but spans; the first of the second's that does not is NEUKOLJA_DEFINITIONS_DIFFER, with its span. Both tapes must pass
 * neukolja_registry, the first before the second. Nothing is charged.
 * result:  the tape of the joined registry, then zeros to the end; all zeros on a refusal.
 * message: the message of a refusal, then zeros to the end; all zeros on success. */
void neukolja_merge(const uint8_t *first, size_t first_length,
                    const uint8_t *second, size_t second_length,
                    uint8_t *result, size_t result_length,
                    uint8_t *message, size_t message_length,
                    uint64_t answer[5]);

/* The other supplier's result, judged: `supplied` is a condition's tape, in which the names of variables and slots (27, 43) may have
 * 75 bytes, or 81 with a file number above 0. Our own expansion is made of registry, condition, `limit` and `file`, as by
 * neukolja_expand, and the two trees are compared, spans included. The answer is 0, "equal", exactly if a one-to-one renaming takes
 * our tree to the supplied one that touches only names generated from `$` binders: a name that stands as a variable or a slot in the
 * condition or in any definition, called or not, stays as it is, and no other becomes such a one. So the supplier may spell
 * generated names as it likes.
 * The tapes are read in the order given, then 10 and 11, then the refusals of neukolja_expand, and NEUKOLJA_NOT_EQUAL, with the span
 * 0..0 and no message, comes last. What is charged is what neukolja_expand charges, with NEUKOLJA_NOT_EQUAL too.
 * result:  our tape, then zeros to the end; all zeros on a refusal.
 * work:    all zeros afterwards.
 * message: the message of a refusal, then zeros to the end; all zeros on success. */
void neukolja_judge(const uint8_t *registry, size_t registry_length,
                    const uint8_t *condition, size_t condition_length,
                    const uint8_t *supplied, size_t supplied_length,
                    uint32_t limit, uint16_t file,
                    uint8_t *result, size_t result_length,
                    uint8_t *work, size_t work_length,
                    uint8_t *message, size_t message_length,
                    uint64_t answer[5]);

/* The older tape, for heads that know no weeks: a tape of a condition, a definition (60), a call (54), a list of 60 or a lone term
 * (20 to 33; the first code tells which), each interval in weeks (64) turned into days (51) at seven times the amount. A tape
 * that holds neither weeks nor an Or comes out as it is. No message; nothing is charged.
 * result: the tape, then zeros to the end; all zeros on a refusal. */
void neukolja_older(const uint8_t *tape, size_t tape_length,
                    uint8_t *result, size_t result_length,
                    uint64_t answer[5]);

/* The rules for the battery head, of a condition as expansion writes it: no aggregate (30), at most 16 nodes (codes 1 to 13 and 20 to
 * 36), and only intervals from 0 to one day (86,400 s, 1,440 min, 24 h, 1 d, 0 weeks). The first broken rule in the order of the
 * entries is answered, for one entry the lowest number. Variables and binders (27 and 43) may have 81 bytes here, as generated names
 * do. It has no buffers and no message; nothing is charged. */
void neukolja_profile(const uint8_t *condition, size_t condition_length,
                      uint64_t answer[5]);

/* Whether a tape is one of a provider call (70) or of a lone argument (71 to 76): 0, 2 or 3. It has the layout of every other tape;
 * nesting is counted over 71 to 76, and a text of 72 or 74 may have 255 bytes. No buffers; nothing is charged. */
void neukolja_provider(const uint8_t *tape, size_t tape_length,
                       uint64_t answer[5]);

/* A lone argument (71 to 76; a call is 2) as a term: 72 becomes 23, 73 21, 74 22, 75 24, and a set (76) an array (29); 56 if it has a
 * field (71) anywhere. No message; nothing is charged.
 * result: the tape of the term, then zeros to the end; all zeros on a refusal. */
void neukolja_argument_to_term(const uint8_t *tape, size_t tape_length,
                               uint8_t *result, size_t result_length,
                               uint64_t answer[5]);

/* And back: a lone term (20 to 33) as an argument; 58 unless it is built of 21, 22, 23, 24 and 29 alone. What was turned and turned
 * back is the same tape. No message; nothing is charged.
 * result: the tape of the argument, then zeros to the end; all zeros on a refusal. */
void neukolja_term_to_argument(const uint8_t *tape, size_t tape_length,
                               uint8_t *result, size_t result_length,
                               uint64_t answer[5]);

/* Opens a house sheet, a 4-byte count and for each condition a 4-byte length and its tape, to be gone through under one budget and one
 * file number (see neukolja_expand). First come the refusals of the registry, then 57, then 2 for a sheet that its count and lengths do
 * not fill exactly. A condition that is refused is no refusal of the sheet. Nothing is charged.
 * message: the message of a refusal, then zeros to the end; all zeros on success.
 * state:   the start of the sheet; none is left of a refused one. */
void neukolja_sheet_open(const uint8_t *registry, size_t registry_length,
                         const uint8_t *sheet, size_t sheet_length,
                         uint32_t budget, uint16_t file,
                         uint8_t *message, size_t message_length,
                         uint64_t state[5], uint64_t answer[5]);

/* The next condition of a sheet, expanded with what is left of the budget as its limit; call it with the same registry and sheet until
 * none is left. A refused condition, whatever its number, 1 too, does not stop the others, and what it charged stays. Buffers, counts and
 * answer are those of neukolja_expand. A step when none is left answers 0, or 1 if a buffer is too
 * short, and leaves state and counts.
 * state:   the state before, and afterwards that behind the condition. Any five numbers are answered: a condition that does not lie in the
 *          sheet is an empty one, which is 2, and the place then stays; nothing is left of a budget below what was charged, and a
 *          limit or file number that is too large is the largest one. */
void neukolja_sheet_next(const uint8_t *registry, size_t registry_length,
                         const uint8_t *sheet, size_t sheet_length,
                         uint64_t state[5],
                         uint8_t *result, size_t result_length,
                         uint8_t *work, size_t work_length,
                         uint8_t *message, size_t message_length,
                         uint32_t counts[255], uint64_t answer[5]);

#ifdef __cplusplus
}
#endif

#endif
