/* The calls for C: codes, bytes that stay untouched, runs, moves, and the self-check in every mode of the processor. */
#include "noddyfir.h"
#include "../../c/known_case.h"
#include <stdio.h>
#include <string.h>
#include <xmmintrin.h>

static int failures;

static void expect(int holds, const char *what)
{
    if (!holds) {
        fprintf(stderr, "calls: failed: %s\n", what);
        failures++;
    }
}

enum { DEFAULT = 0x1f80, ROOM = 60 };

static int check_under(unsigned word)
{
    int fault;
    _mm_setcsr(word);
    fault = noddyfir_self_check();
    _mm_setcsr(DEFAULT);
    return fault;
}

static void modes(void)
{
    expect(check_under(DEFAULT) == NODDYFIR_FIT, "the default mode");
    expect(check_under(DEFAULT | 0x3f) == NODDYFIR_FIT, "flags of what happened before");
    expect(check_under(DEFAULT | 0x8000) == NODDYFIR_FAULT_SUBNORMALS, "results flushed to zero");
    expect(check_under(DEFAULT | 0x0040) == NODDYFIR_FAULT_SUBNORMALS, "operands flushed to zero");
    expect(check_under(DEFAULT | 0x8040) == NODDYFIR_FAULT_SUBNORMALS, "both flushed to zero");
    expect(check_under(DEFAULT | 0x2000) == NODDYFIR_FAULT_ROUNDING, "rounding down");
    expect(check_under(DEFAULT | 0x4000) == NODDYFIR_FAULT_ROUNDING, "rounding up");
    expect(check_under(DEFAULT | 0x6000) == NODDYFIR_FAULT_ROUNDING, "rounding towards zero");
    expect(check_under(DEFAULT & ~0x1000u) == NODDYFIR_FAULT_TRAPS, "a trap on inexact results");
    expect(check_under(DEFAULT & ~0x0080u) == NODDYFIR_FAULT_TRAPS, "a trap on invalid operations");
    expect(check_under(DEFAULT) == NODDYFIR_FIT, "the default mode again");
}

/* Whether the bytes from `start` up to `end` are still 7. */
static int untouched(const uint8_t *buffer, size_t start, size_t end)
{
    while (start < end && buffer[start] == 7)
        start++;
    return start == end;
}

static void single(void)
{
    static const uint8_t SHORT[1] = {0}, NONE[5] = {0, 3, 1, 0, 0}, REFUSED[4] = {0, 2, 1, 5};
    uint8_t answer[ROOM];
    memset(answer, 7, ROOM);
    expect(noddyfir_energies(NONE, 5, answer, 27) == NODDYFIR_ANSWER_BUFFER, "27 bytes for energies");
    expect(noddyfir_ends(NONE, 5, answer, 51) == NODDYFIR_ANSWER_BUFFER, "51 bytes for ends");
    expect(noddyfir_slopes(NONE, 5, answer, 51) == NODDYFIR_ANSWER_BUFFER, "51 bytes for slopes");
    expect(untouched(answer, 0, ROOM), "nothing is written for code 1");
    expect(noddyfir_energies(SHORT, 1, answer, 28) == NODDYFIR_ENVELOPE, "a short record");
    expect(noddyfir_ends(NONE, 5, answer, 52) == NODDYFIR_COMPONENTS, "no substance");
    expect(memcmp(answer, REFUSED, 4) == 0 && untouched(answer, 4, ROOM), "a refusal has four bytes");
    memset(answer, 7, ROOM);
    expect(noddyfir_slopes(NONE, 5, answer, 52) == NODDYFIR_COMPONENTS, "no substance, for slopes");
    expect(memcmp(answer, REFUSED, 4) == 0 && untouched(answer, 4, ROOM), "a refusal of slopes has four bytes");
}

/* Slopes of the known case, whose values are its energies. */
static void slopes(void)
{
    static const uint8_t HEAD[4] = {0, 50, 1, 0};
    uint8_t record[KNOWN_SIZE], answer[ROOM];
    memcpy(record, KNOWN_RECORD, KNOWN_SIZE);
    for (uint8_t perturbation = 0; perturbation < 3; perturbation++) {
        record[3] = perturbation;
        memset(answer, 7, ROOM);
        expect(noddyfir_slopes(record, KNOWN_SIZE, answer, ROOM) == NODDYFIR_ACCEPTED, "slopes of a known case");
        expect(memcmp(answer, HEAD, 4) == 0, "the head of an answer of slopes");
        expect(untouched(answer, NODDYFIR_SLOPES_SIZE, ROOM), "bytes past the slopes");
        for (int i = 0; i < 3; i++)
            expect(memcmp(answer + 4 + 16 * i, KNOWN_ENERGIES[perturbation] + 4 + 8 * i, 8) == 0, "a value is the energy");
    }
}

/* Under BH a subnormal density has energies, but on the way a slope is divided by a square that vanishes. */
static void no_slopes(void)
{
    static const uint8_t STATE[32] = {[6] = 7, [16] = 0x3f, [17] = 0xf0}, REFUSED[4] = {0, 2, 1, 11};
    uint8_t record[KNOWN_SIZE], answer[ROOM];
    memcpy(record, KNOWN_RECORD, KNOWN_SIZE);
    memcpy(record + KNOWN_SIZE - 32, STATE, 32); /* densities 7 * 2^-1066 and 0, fractions 1 and 0 */
    expect(noddyfir_energies(record, KNOWN_SIZE, answer, ROOM) == NODDYFIR_ACCEPTED, "energies of a subnormal density");
    memset(answer, 7, ROOM);
    expect(noddyfir_slopes(record, KNOWN_SIZE, answer, ROOM) == NODDYFIR_SLOPES, "no slopes of a subnormal density");
    expect(memcmp(answer, REFUSED, 4) == 0 && untouched(answer, 4, ROOM), "code 11 has four bytes");
}

/* BH takes att 6 alone; WCA takes the double beside it too. */
static void attraction(void)
{
    static const uint8_t REFUSED[4] = {0, 2, 1, 12};
    uint8_t record[KNOWN_SIZE], answer[ROOM];
    memcpy(record, KNOWN_RECORD, KNOWN_SIZE);
    record[20] ^= 1; /* the last byte of the first att */
    record[3] = 1;
    expect(noddyfir_energies(record, KNOWN_SIZE, answer, ROOM) == NODDYFIR_ACCEPTED, "WCA with an att beside 6");
    record[3] = 0;
    memset(answer, 7, ROOM);
    expect(noddyfir_ends(record, KNOWN_SIZE, answer, ROOM) == NODDYFIR_ATTRACTION, "BH with an att beside 6");
    expect(memcmp(answer, REFUSED, 4) == 0 && untouched(answer, 4, ROOM), "code 12 has four bytes");
}

static void runs(void)
{
    static const uint8_t TWO[7] = {0, 0, 0, 3, 1, 0, 0}, ANSWERS[8] = {0, 2, 1, 2, 0, 2, 1, 5};
    uint8_t answers[ROOM];
    noddyfir_run run;
    memset(answers, 7, ROOM);
    run = noddyfir_run_energies(TWO, 7, answers, ROOM);
    expect(run.records == 2 && run.read == 7 && run.written == 8 && run.reason == NODDYFIR_USED_UP, "a run");
    expect(memcmp(answers, ANSWERS, 8) == 0 && untouched(answers, 8, ROOM), "the answers of a run");
    run = noddyfir_run_ends(TWO, 7, answers, 52);
    expect(run.records == 1 && run.read == 2 && run.written == 4 && run.reason == NODDYFIR_NO_ROOM, "no room");
    run = noddyfir_run_ends(TWO, 6, answers, ROOM);
    expect(run.records == 1 && run.read == 2 && run.written == 4 && run.reason == NODDYFIR_BROKEN, "a broken tail");
}

static void runs_of_slopes(void)
{
    static const uint8_t TWO[7] = {0, 0, 0, 3, 1, 0, 0}, ANSWERS[8] = {0, 2, 1, 2, 0, 2, 1, 5};
    uint8_t records[KNOWN_SIZE + 7], answers[ROOM], single[NODDYFIR_SLOPES_SIZE];
    noddyfir_run run;
    memset(answers, 7, ROOM);
    run = noddyfir_run_slopes(TWO, 7, answers, ROOM);
    expect(run.records == 2 && run.read == 7 && run.written == 8 && run.reason == NODDYFIR_USED_UP, "a run of slopes");
    expect(memcmp(answers, ANSWERS, 8) == 0 && untouched(answers, 8, ROOM), "the answers of a run of slopes");
    /* A known case takes 52 bytes; then a refusal has no room, though it would take four. */
    memcpy(records, KNOWN_RECORD, KNOWN_SIZE);
    memcpy(records + KNOWN_SIZE, TWO, 7);
    memset(answers, 7, ROOM);
    run = noddyfir_run_slopes(records, sizeof records, answers, ROOM);
    expect(run.records == 1 && run.read == KNOWN_SIZE && run.written == 52, "slopes up to the end of the room");
    expect(run.reason == NODDYFIR_NO_ROOM && untouched(answers, 52, ROOM), "no room for slopes");
    noddyfir_slopes(KNOWN_RECORD, KNOWN_SIZE, single, sizeof single);
    expect(memcmp(answers, single, sizeof single) == 0, "a run has the answers of the single call");
    run = noddyfir_run_slopes(records + run.read, 6, answers, ROOM);
    expect(run.records == 1 && run.read == 2 && run.written == 4 && run.reason == NODDYFIR_BROKEN, "a broken tail of slopes");
}

/* The known case in version 2 has 125 bytes, and its one l_ij stands behind two substances and their k_ij. */
enum { MOVED_SIZE = KNOWN_SIZE + 8, L_IJ = 5 + 8 * 9 };

/* As a user moves a record: version 1 to 2 and back, in a buffer for every record. */
static void there_and_back(void)
{
    static const uint8_t HEAD[5] = {0, 123, 2, 0, 2}, ZERO[8] = {0};
    uint8_t moved[NODDYFIR_RECORD_SIZE_MAX], back[NODDYFIR_RECORD_SIZE_MAX];
    memset(moved, 7, sizeof moved);
    expect(noddyfir_to_version_2(KNOWN_RECORD, KNOWN_SIZE, moved, sizeof moved) == NODDYFIR_ACCEPTED, "to version 2");
    expect(memcmp(moved, HEAD, 5) == 0, "the head of version 2");
    expect(memcmp(moved + 5, KNOWN_RECORD + 5, L_IJ - 5) == 0, "what stands before the l_ij");
    expect(memcmp(moved + L_IJ, ZERO, 8) == 0, "an l_ij of +0");
    expect(memcmp(moved + L_IJ + 8, KNOWN_RECORD + L_IJ, KNOWN_SIZE - L_IJ) == 0, "what stands behind the l_ij");
    expect(untouched(moved, MOVED_SIZE, sizeof moved), "bytes past the moved record");
    memset(back, 7, sizeof back);
    expect(noddyfir_to_version_1(moved, MOVED_SIZE, back, sizeof back) == NODDYFIR_ACCEPTED, "back to version 1");
    expect(memcmp(back, KNOWN_RECORD, KNOWN_SIZE) == 0, "there and back gives the same bytes");
    expect(untouched(back, KNOWN_SIZE, sizeof back), "bytes past the record that moved back");
}

/* The answers of the moved record are those that are known; with another l_ij they are not. */
static void moved_answers(void)
{
    static const uint8_t TENTH[8] = {0x3f, 0xb9, 0x99, 0x99, 0x99, 0x99, 0x99, 0x9a};
    uint8_t moved[MOVED_SIZE], energies[28], ends[52], slopes[52];
    noddyfir_to_version_2(KNOWN_RECORD, KNOWN_SIZE, moved, MOVED_SIZE);
    for (uint8_t perturbation = 0; perturbation < 3; perturbation++) {
        moved[3] = perturbation;
        for (int sign = 0; sign < 2; sign++) {
            moved[L_IJ] = sign ? 0x80 : 0;
            noddyfir_energies(moved, MOVED_SIZE, energies, 28);
            noddyfir_ends(moved, MOVED_SIZE, ends, 52);
            noddyfir_slopes(moved, MOVED_SIZE, slopes, 52);
            expect(memcmp(energies, KNOWN_ENERGIES[perturbation], 28) == 0, "energies of version 2");
            expect(memcmp(ends, KNOWN_ENDS[perturbation], 52) == 0, "ends of version 2");
            expect(memcmp(slopes, KNOWN_SLOPES[perturbation], 52) == 0, "slopes of version 2");
        }
    }
    memcpy(moved + L_IJ, TENTH, 8);
    expect(noddyfir_energies(moved, MOVED_SIZE, energies, 28) == NODDYFIR_ACCEPTED, "energies with an l_ij");
    expect(memcmp(energies, KNOWN_ENERGIES[2], 28) != 0, "an l_ij of 0.1 gives other energies");
}

/* A refused move: its code, and nothing is written. */
static void refused(uint8_t (*move)(const uint8_t *, size_t, uint8_t *, size_t), const uint8_t *record, size_t size,
                    size_t room, int code, const char *what)
{
    uint8_t out[NODDYFIR_RECORD_SIZE_MAX];
    memset(out, 7, sizeof out);
    expect(move(record, size, out, room) == code, what);
    expect(untouched(out, 0, sizeof out), what);
}

static void refused_moves(void)
{
    uint8_t moved[MOVED_SIZE];
    noddyfir_to_version_2(KNOWN_RECORD, KNOWN_SIZE, moved, MOVED_SIZE);
    refused(noddyfir_to_version_2, KNOWN_RECORD, KNOWN_SIZE - 1, 845, NODDYFIR_ENVELOPE, "a move of a broken record");
    refused(noddyfir_to_version_2, moved, MOVED_SIZE, 845, NODDYFIR_VERSION, "version 2 to version 2");
    refused(noddyfir_to_version_1, KNOWN_RECORD, KNOWN_SIZE, 845, NODDYFIR_VERSION, "version 1 to version 1");
    refused(noddyfir_to_version_2, KNOWN_RECORD, KNOWN_SIZE, MOVED_SIZE - 1, NODDYFIR_ANSWER_BUFFER, "124 bytes there");
    refused(noddyfir_to_version_1, moved, MOVED_SIZE, KNOWN_SIZE - 1, NODDYFIR_ANSWER_BUFFER, "116 bytes back");
    moved[L_IJ] = 0x80; /* -0 */
    refused(noddyfir_to_version_1, moved, MOVED_SIZE, 845, NODDYFIR_PAIR_CONSTANT, "an l_ij of -0");
    refused(noddyfir_to_version_1, moved, MOVED_SIZE, KNOWN_SIZE - 1, NODDYFIR_ANSWER_BUFFER, "-0 behind the buffer");
    moved[L_IJ] = 0x40; /* 2 */
    refused(noddyfir_to_version_1, moved, MOVED_SIZE, 845, NODDYFIR_SUBSTANCES, "an l_ij of 2");
}

static void sentences(void)
{
    for (int code = 0; code <= NODDYFIR_CODE_MAX; code++)
        expect(strcmp(noddyfir_code_sentence(code), "No such code.") != 0, "a sentence for each code");
    for (int fault = 0; fault <= 5; fault++)
        expect(strcmp(noddyfir_fault_sentence(fault), "No such fault.") != 0, "a sentence for each fault");
    expect(strcmp(noddyfir_code_sentence(NODDYFIR_CODE_MAX + 1), "No such code.") == 0, "no code past the last");
    expect(strcmp(noddyfir_code_sentence(-1), "No such code.") == 0, "no code below 0");
    expect(strcmp(noddyfir_fault_sentence(-1), "No such fault.") == 0, "no such fault");
}

int main(void)
{
    modes();
    single();
    slopes();
    no_slopes();
    attraction();
    runs();
    runs_of_slopes();
    there_and_back();
    moved_answers();
    refused_moves();
    sentences();
    return failures != 0;
}
