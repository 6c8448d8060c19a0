// Reads case records and prints how long two builds of the library take for energies, ends and slopes, on the same records in one run.
// bench/beside builds it; with --codes the ends of the two builds may differ. The calls of the build before have names of their own there; a call that it does not have is measured of this build alone.
#include <noddyfir.h>
#include <stdio.h>
#include <stdlib.h>
#include <string.h>
#include <time.h>

typedef uint8_t Call(const uint8_t *record, size_t record_size, uint8_t *answer, size_t answer_size);
Call before_noddyfir_energies, before_noddyfir_ends;
extern __attribute__((weak)) Call before_noddyfir_slopes;

enum { ENDS = 1, KINDS = 3, RECORDS = 256, ROUNDS = 31, LONGEST = NODDYFIR_RECORD_SIZE_MAX, ROOM = 52 };

static Call *const calls[KINDS][2] = {
    {before_noddyfir_energies, noddyfir_energies},
    {before_noddyfir_ends, noddyfir_ends},
    {before_noddyfir_slopes, noddyfir_slopes},
};
static const char *const kinds[KINDS] = {"energies", "ends", "slopes"};
static const char *const perturbations[3] = {"BH", "WCA", "WCA-B3"};
static const unsigned components[4] = {1, 2, 4, 8};

struct Row {
    unsigned perturbation, n, count;
    uint8_t record[RECORDS][LONGEST];
    size_t size[RECORDS];
    double least[KINDS][2]; // microseconds of a call, of the fastest round
};

static struct Row rows[12];
static int only_codes_of_ends;

static int full(void)
{
    for (int i = 0; i < 12; i++)
        if (rows[i].count < RECORDS)
            return 0;
    return 1;
}

// Codes and bytes; of ends the codes alone where it is so asked.
static int same(int kind, const uint8_t codes[2], uint8_t answer[2][ROOM])
{
    return codes[0] == codes[1] && ((kind == ENDS && only_codes_of_ends) || memcmp(answer[0], answer[1], ROOM) == 0);
}

// Both builds must give the same answer; a record without ends or slopes is passed over, and one of version 2, which a build before M-104 refuses.
static void keep(const uint8_t *record, size_t size)
{
    if (record[2] != 1)
        return;
    for (int i = 0; i < 12; i++) {
        struct Row *row = &rows[i];
        if (record[3] != row->perturbation || record[4] != row->n || row->count == RECORDS)
            continue;
        uint8_t answer[2][ROOM] = {{0}}, codes[2], refused = 0;
        for (int kind = 0; kind < KINDS; kind++) {
            for (int build = 0; build < 2; build++)
                codes[build] = (calls[kind][build] ? calls[kind][build] : calls[kind][1])(record, size, answer[build], ROOM);
            if (!same(kind, codes, answer)) {
                fprintf(stderr, "beside: the builds answer a record differently; nothing is measured\n");
                exit(1);
            }
            refused |= codes[1];
        }
        if (!refused) {
            memcpy(row->record[row->count], record, size);
            row->size[row->count++] = size;
        }
    }
}

static void read_records(void)
{
    uint8_t record[LONGEST];
    while (fread(record, 1, 2, stdin) == 2) {
        size_t rest = record[0] * 256u + record[1];
        if (rest + 2 > LONGEST || fread(record + 2, 1, rest, stdin) != rest)
            break;
        keep(record, rest + 2);
    }
    if (!full()) {
        fprintf(stderr, "beside: there are too few records\n");
        exit(1);
    }
}

static double microseconds(struct Row *row, Call *call)
{
    uint8_t answer[ROOM];
    struct timespec t, u;
    clock_gettime(CLOCK_MONOTONIC, &t);
    for (int i = 0; i < RECORDS; i++)
        call(row->record[i], row->size[i], answer, ROOM);
    clock_gettime(CLOCK_MONOTONIC, &u);
    return ((u.tv_sec - t.tv_sec) * 1e6 + (u.tv_nsec - t.tv_nsec) * 1e-3) / RECORDS;
}

// The fastest round tells: it was disturbed least. The builds take turns, and which is first changes.
static void measure(struct Row *row, int round)
{
    for (int kind = 0; kind < KINDS; kind++)
        for (int turn = 0; turn < 2; turn++) {
            int build = (turn + round) % 2;
            if (!calls[kind][build])
                continue;
            double t = microseconds(row, calls[kind][build]);
            if (round == 0 || t < row->least[kind][build])
                row->least[kind][build] = t;
        }
}

int main(int count, char **arguments)
{
    only_codes_of_ends = count == 2 && strcmp(arguments[1], "--codes") == 0;
    for (int i = 0; i < 12; i++)
        rows[i] = (struct Row){.perturbation = i / 4, .n = components[i % 4]};
    read_records();
    for (int round = 0; round < ROUNDS; round++)
        for (int i = 0; i < 12; i++)
            measure(&rows[i], round);
    puts("| perturbation | n | | before, microseconds | now | now over before |\n|---|---|---|---|---|---|");
    for (int kind = 0; kind < KINDS; kind++)
        for (int i = 0; i < 12; i++) {
            double *t = rows[i].least[kind];
            printf("| %s | %u | %s ", perturbations[rows[i].perturbation], rows[i].n, kinds[kind]);
            if (calls[kind][0])
                printf("| %.2f | %.2f | %.3f |\n", t[0], t[1], t[1] / t[0]);
            else
                printf("| | %.2f | |\n", t[1]);
        }
    return 0;
}
