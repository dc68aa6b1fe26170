/*
 * Draws the path list in a file band by band, as a printer takes it, into a PGM file: a byte a
 * pixel, 255 for full ink. One small mask and one workspace serve a label of any size.
 *
 *     example LIST OUT.pgm WIDTH HEIGHT
 */

#include <mosszephyr.h>

#include <stdio.h>
#include <stdlib.h>

/* So few rows of the widest label that the pool has a place for each column: 13 is never said. */
#define ROWS (MZ_MOST_CELLS / (MZ_MOST_SIDE + 1))

static uint8_t list[MZ_MOST_LIST + 1]; /* of a longer file so much that it is refused with 7 */
static uint8_t mask[ROWS * MZ_MOST_SIDE];
static uint32_t words[MZ_WORKSPACE_WORDS(ROWS, MZ_MOST_CELLS)];

static void tell(MzDrawn drawn) {
    fprintf(stderr, "example: refused with %u: %s", (unsigned)drawn.number, mz_words(drawn.number));
    if (mz_names_a_record(drawn.number)) {
        fprintf(stderr, ", in record %u", (unsigned)drawn.index);
    }
    fputc('\n', stderr);
}

static MzDrawn draw_rows(MzLabel label, size_t list_len, size_t first, size_t end) {
    label.first = first;
    label.end = end;
    return mz_draw(list, list_len, label, mask, sizeof mask, words, sizeof words / sizeof words[0]);
}

int main(int argc, char **argv) {
    FILE *in = argc == 5 ? fopen(argv[1], "rb") : NULL;
    if (in == NULL) {
        fprintf(stderr, "usage: example LIST OUT.pgm WIDTH HEIGHT, LIST being there\n");
        return 2;
    }
    size_t list_len = fread(list, 1, sizeof list, in);
    fclose(in);
    MzLabel label = mz_label(strtoul(argv[3], NULL, 10), strtoul(argv[4], NULL, 10));
    MzDrawn drawn = draw_rows(label, list_len, 0, 0); /* no rows: judges and counts */
    if (drawn.number != MZ_ACCEPTED) {
        tell(drawn);
        return 1;
    }
    if (drawn.cut != 0) {
        fprintf(stderr, "example: coordinates off the 1/256 grid: %u\n", (unsigned)drawn.cut);
    }
    FILE *out = fopen(argv[2], "wb");
    bool written = out != NULL && fprintf(out, "P5\n%zu %zu\n255\n", label.width, label.height) > 0;
    for (size_t first = 0; written && first < label.height; first += ROWS) {
        size_t end = label.height - first < ROWS ? label.height : first + ROWS;
        size_t bytes = label.width * (end - first);
        draw_rows(label, list_len, first, end); /* never refused: all was judged above */
        written = fwrite(mask, 1, bytes, out) == bytes;
    }
    if (!written || fclose(out) != 0) {
        perror(argv[2]);
        return 2;
    }
    return 0;
}
