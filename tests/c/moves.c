/*
 * moves < records: tries both moves of each record, with buffers of several lengths, and writes each time the code and
 * then the buffer with some bytes behind it. A record that moves to version 2 is tried there too. The oracle's program
 * of this name does the same (oracle/src/bin/moves.rs), and tests/moves compares what they write.
 */
#include "noddyfir.h"
#include <stdio.h>

typedef uint8_t move(const uint8_t *record, size_t record_size, uint8_t *out, size_t out_size);

/* The longest record by its length field, and the bytes behind a buffer that are looked at. */
enum { LONGEST = 2 + 65535, ROOM = 900, BEHIND = 8 };

static void try_move(move *call, const uint8_t *record, size_t size, size_t room)
{
    static uint8_t buffer[LONGEST + ROOM];
    for (size_t place = 0; place < room + BEHIND; place++)
        buffer[place] = (uint8_t)(31 * place + 7); /* a byte that tells its place */
    putchar(call(record, size, buffer, room));
    fwrite(buffer, 1, room + BEHIND, stdout);
}

static size_t less(size_t size, size_t by)
{
    return size < by ? 0 : size - by;
}

/* With 0, 4, 900 bytes, and about the sizes that the record has in both versions, whichever is its own. */
static void try_record(const uint8_t *record, size_t size)
{
    size_t n = size > 4 && record[4] <= 8 ? record[4] : 0, l_ij = 8 * (n * (n - 1) / 2);
    size_t sizes[3] = {less(size, l_ij), size, size + l_ij}, rooms[12] = {0, 4, ROOM};
    for (int i = 0; i < 3; i++) {
        rooms[3 + 3 * i] = less(sizes[i], 1);
        rooms[4 + 3 * i] = sizes[i];
        rooms[5 + 3 * i] = sizes[i] + 1;
    }
    for (int i = 0; i < 12; i++) {
        try_move(noddyfir_to_version_2, record, size, rooms[i]);
        try_move(noddyfir_to_version_1, record, size, rooms[i]);
    }
}

/* Reads the next record and returns its bytes, 0 at the end of the input; what is broken off counts as one. */
static size_t next(uint8_t *record)
{
    size_t size = fread(record, 1, 2, stdin);
    return size < 2 ? size : 2 + fread(record + 2, 1, record[0] * 256u + record[1], stdin);
}

int main(void)
{
    static uint8_t record[LONGEST], moved[ROOM];
    size_t size;
    while ((size = next(record)) != 0) {
        try_record(record, size);
        if (noddyfir_to_version_2(record, size, moved, ROOM) == NODDYFIR_ACCEPTED)
            try_record(moved, 2 + moved[0] * 256u + moved[1]);
    }
    return 0;
}
