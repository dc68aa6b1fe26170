/*
 * Mosszephyr: draws an address label, given as a path list, into a mask of one byte a pixel.
 *
 * Link with libmosszephyr.a (x86-64). `./install PREFIX` at the repository's root builds it and
 * puts it, this file and mosszephyr.pc below PREFIX. C11 and C++11 can include this file.
 *
 *     static uint8_t mask[640 * 240];
 *     static uint32_t words[MZ_WORKSPACE_WORDS(240, MZ_MOST_CELLS)];
 *
 *     MzLabel label = mz_label(640, 240);
 *     label.even_odd = true;
 *     MzDrawn drawn = mz_draw(list, list_len, label, mask, sizeof mask,
 *                             words, sizeof words / sizeof words[0]);
 *     if (mz_names_a_record(drawn.number)) {
 *         fprintf(stderr, "refused with %u at record %u: %s\n",
 *                 drawn.number, drawn.index, mz_words(drawn.number));
 *     } else if (drawn.number != MZ_ACCEPTED) {
 *         fprintf(stderr, "refused with %u: %s\n", drawn.number, mz_words(drawn.number));
 *     }
 *
 * What a call answers, and what it leaves in mask and words, is proved. The rules stand whole in
 * docs/RULES.md; each function's promise, in crates/mosszephyr/src/lib.rt, names the definition
 * in crates/paper/specs that is its rule.
 *
 *
 * The path list
 * -------------
 * A list is bytes, at most MZ_MOST_LIST of them: records behind each other, with nothing between,
 * before or after. A record has two bytes of length, in which these two are not counted, two bytes
 * of kind and the coordinates, x before y, four bytes each: IEEE 754 binary32. The lowest byte
 * comes first.
 *
 *     kind  command             length  record's bytes
 *        1  MoveTo p                10              12
 *        2  LineTo p                10              12
 *        3  QuadTo c, p             18              20
 *        4  CurveTo c1, c2, p       26              28
 *        5  Close                    2               4
 *
 * MoveTo (1,1) is 0A 00 01 00 00 00 80 3F 00 00 80 3F; Close is 02 00 05 00. The first record is a
 * MoveTo. A list of no bytes is accepted and draws nothing. A subpath that is still open is closed
 * by the next MoveTo, or by the end. Directly after a Close stands a MoveTo, another Close, or the
 * end: what is drawn then begins with a MoveTo.
 *
 * A point (x, y) becomes x' = (x*xx + y*yx) + tx, y' = (x*xy + y*yy) + ty, every product and every
 * sum rounded to a float, and is moved by the offset. Both parts must then be finite and, times 256
 * and cut toward zero, at most 1048576 either way: 4096.0 passes and 4096.00390625 fails. This is
 * the point rule. Coordinates count pixels: pixel (0, 0) is the square from (0,0) to (1,1).
 *
 *
 * Off the grid
 * ------------
 * A label is drawn on a grid of 1/256 of a pixel. A coordinate, transformed and moved, is cut where
 * it times 256 is no whole number: 0.1 and the smallest float above 0 are, 0.5, 1.00390625 and -0.0
 * are not. An edge at 2.9999, meant for 3, then falls short of that and shows soft. So an accepted
 * drawing or placement tells in `cut` how many coordinates were cut; 0 says that the step to the
 * grid changed nothing.
 *
 * x and y count apart, control points too, and a point as often as the list has it. The number is
 * the whole list's, with this transform and this offset: the same for every band of a label, also
 * for one of no rows, by mz_draw_in_bands with any step and by mz_placement. It is 0 with a refusal
 * and for an empty list, of which the offset is no point. No list has more than 14042 coordinates.
 * (MZ_CUT is another thing: a record that the end of the list cuts.)
 *
 *
 * Refusals
 * --------
 * Every call that takes a list answers with a number, 0 or a refusal's, and an index: for 8 to 13
 * and 18 that of a record, counted from 0, and else 0. 1 to 7 are asked first, in this order. Then
 * each record is judged, from the first on, up to one that is refused: a cut header (8), 9, 10, a
 * cut body (8), 11, 18, 12. A list must be judged to its end before it is drawn, so 13 comes last.
 * 14 to 17 are not given. rows stands for end - first.
 *
 *     no.  exactly when
 *       1  width or height is above MZ_MOST_SIDE
 *       2  first > end, or end > height
 *       3  pitch is below width or above MZ_MOST_PITCH
 *       4  rows > 0 and the mask is shorter than pitch*(rows - 1) + width
 *       5  the workspace has fewer words than rows
 *       6  a number of the transform or of the offset is NaN or infinite
 *       7  the list is longer than MZ_MOST_LIST bytes
 *       8  a record is cut: 1 to 3 bytes are left, or its body passes the end of the list
 *       9  a kind is not 1 to 5
 *      10  a length is not the kind's
 *      11  the list begins with another record than a MoveTo
 *      12  the point rule refuses a point
 *      13  the distinct places (column, row) that are stored outnumber the pool's
 *      18  a LineTo, QuadTo or CurveTo stands directly after a Close
 *
 * 8 to 12 and 18 name the record at fault. 13 names the one that is being drawn when a place first
 * finds no room: so many records, from the front, still fit. A place is stored when the pen leaves
 * it, so the record that leaves it counts, not the one that inked it; a MoveTo closes what is still
 * open, and leaves a place too. Where it is the end that closes or stores, the index is the number
 * of records. (A drawing of no rows, first = end, is never 13 and tells that number. A list that is
 * cut before the record which 13 names may still be 13, by its own end.)
 *
 *
 * What is asked of the caller
 * ---------------------------
 * Sizes, floats, flags and the bytes of list, mask and words may be anything: what is wrong with
 * them is told by a refusal. What C cannot tell the library, the caller must see to:
 *
 * - Each pointer is valid for the length that follows it: list for reads, mask and words for reads
 *   and writes, words of 4 bytes each. A length in bytes is at most PTRDIFF_MAX. With length 0 a
 *   pointer may be NULL, as an empty std::vector's data() is: nothing is read or written through
 *   it.
 * - words is aligned to 4 bytes, as NULL is.
 * - list, mask and words do not overlap, and no other thread writes to them, or reads mask or
 *   words, during the call.
 * - A bool holds 0 or 1, as every bool does that was assigned in C or C++.
 *
 *
 * Threads
 * -------
 * The library has no state: it keeps nothing between calls, allocates nothing, reads and writes
 * only what it is lent, and every call returns. Any number of threads may call it at once, each
 * with a mask and words of its own; they may share a list.
 */

#ifndef MOSSZEPHYR_H
#define MOSSZEPHYR_H

#ifdef __cplusplus
#if __cplusplus < 201103L
#error "mosszephyr.h needs C++11"
#endif
#elif !defined(__STDC_VERSION__) || __STDC_VERSION__ < 201112L
#error "mosszephyr.h needs C11"
#endif

#include <assert.h>
#include <stdbool.h>
#include <stddef.h>
#include <stdint.h>

#ifdef __cplusplus
extern "C" {
#endif

/*
 * The version of this face. In 0.6.0 MzDrawn and MzPlacement have become longer, by `cut`: what was
 * compiled with an older header must be compiled anew. In 0.7.0 mz_then and the three that are made
 * from it give other numbers where an xy or a yx is not 0: they were zeno's before.
 */
#define MZ_VERSION_MAJOR 0
#define MZ_VERSION_MINOR 7
#define MZ_VERSION_PATCH 0
#define MZ_VERSION "0.7.0"

/* The largest width and height, in pixels. */
#define MZ_MOST_SIDE 4096
/* The largest pitch, in bytes. */
#define MZ_MOST_PITCH 65536
/* The longest path list, in bytes. */
#define MZ_MOST_LIST 65536
/* The most places (column, row) that a pool holds; words beyond that are only wiped. */
#define MZ_MOST_CELLS 16384

/*
 * How many words mz_draw needs for a band of `rows` rows with a pool of `cells` places. A row stores
 * at most width + 1 places: (width + 1) * rows cells are always enough, and no pool has more than
 * MZ_MOST_CELLS. This and the next are constants where their arguments are; the next uses an
 * argument more than once.
 */
#define MZ_WORKSPACE_WORDS(rows, cells) (MZ_COUNT(rows) + 4 * MZ_COUNT(cells))

/*
 * How many words mz_draw_in_bands needs for `rows` rows in bands of `step` rows, none of which has
 * more than `cells` places: (width + 1) * step are always enough, and with a step of up to
 * MZ_MOST_CELLS / (width + 1) rows it never says 13. 5 asks for a word for each of all the rows; 13
 * asks for a word for each row of a band and four for each of its places. The larger of the two is
 * enough for both.
 */
#define MZ_BANDS_WORDS(rows, step, cells)                                                          \
    MZ_LARGER(MZ_COUNT(rows), MZ_WORKSPACE_WORDS(MZ_BAND_ROWS(rows, step), cells))

/* For the macros above: how many rows the highest band has, and a number as a size. */
#define MZ_BAND_ROWS(rows, step)                                                                   \
    (MZ_COUNT(step) < MZ_COUNT(rows) ? MZ_LARGER(MZ_COUNT(step), MZ_COUNT(1)) : MZ_COUNT(rows))
#define MZ_LARGER(a, b) ((a) < (b) ? (b) : (a))
#ifdef __cplusplus
#define MZ_COUNT(number) static_cast<size_t>(number)
#else
#define MZ_COUNT(number) ((size_t)(number))
#endif

/* The numbers that a call answers with; the table above says when. */
enum {
    MZ_ACCEPTED = 0,
    MZ_SIZE = 1,
    MZ_BAND = 2,
    MZ_PITCH = 3,
    MZ_MASK = 4,
    MZ_WORKSPACE = 5,
    MZ_FLOAT = 6,
    MZ_LIST = 7,
    MZ_CUT = 8,
    MZ_KIND = 9,
    MZ_LENGTH = 10,
    MZ_START = 11,
    MZ_POINT = 12,
    MZ_ROOM = 13,
    MZ_AFTER_CLOSE = 18
};

/* A number in words, to be shown to people. */
static inline const char *mz_words(uint32_t number) {
    switch (number) {
    case MZ_ACCEPTED: return "accepted";
    case MZ_SIZE: return "the width or the height is above 4,096 pixels";
    case MZ_BAND: return "the band does not lie within the label";
    case MZ_PITCH: return "the pitch is below the width or above 65,536 bytes";
    case MZ_MASK: return "the mask is too short for the band";
    case MZ_WORKSPACE: return "the workspace has fewer words than there are rows to draw";
    case MZ_FLOAT: return "a transform entry or an offset part is NaN or infinite";
    case MZ_LIST: return "the path list is longer than 65,536 bytes";
    case MZ_CUT: return "the end of the list cuts the record";
    case MZ_KIND: return "the record's kind is not 1 to 5";
    case MZ_LENGTH: return "the record's length is not its kind's";
    case MZ_START: return "the first record is not a MoveTo";
    case MZ_POINT:
        return "a point is NaN, infinite, or 1/256 of a pixel or more beyond 4,096 from zero";
    case MZ_ROOM: return "the drawing needs more places than the workspace has room for";
    case MZ_AFTER_CLOSE: return "the record draws directly after a Close, with no MoveTo between";
    default: return "an unknown refusal";
    }
}

/*
 * Whether the index that comes with a number is that of a record. (One 12 has none: where an empty
 * list's placement is refused for its offset. 13 may have the number of records: the list's end.)
 */
static inline bool mz_names_a_record(uint32_t number) {
    return (number >= MZ_CUT && number <= MZ_ROOM) || number == MZ_AFTER_CLOSE;
}

/*
 * Sends (x, y) to ((x*xx + y*yx) + tx, (x*xy + y*yy) + ty): the fields x and y are tx and ty.
 * mz_identity and the functions behind it make one.
 */
typedef struct MzTransform {
    float xx;
    float xy;
    float yx;
    float yy;
    float x;
    float y;
} MzTransform;

/* A point or a vector. */
typedef struct MzPoint {
    float x;
    float y;
} MzPoint;

/*
 * What is drawn of a list, and how. Begin with mz_label, which fills in every field, and change by
 * name what is to be otherwise:
 *
 *     MzLabel label = mz_label(640, 240);
 *     label.transform = mz_scale(2, 2);
 *     label.pitch = 1024;
 *
 * pitch and end do not follow width and height: for another size call mz_label again.
 *
 * A label begun with {0} has a transform of zeros, which sends every point to one place: with size,
 * pitch and end filled in it draws nothing, and is refused by nothing.
 */
typedef struct MzLabel {
    MzTransform transform; /* applied to every point */
    float offset_x;        /* added to every transformed point */
    float offset_y;
    bool even_odd;         /* the fill rule: even-odd if true, nonzero if false */
    bool up;               /* false: the mask's top row shows the path row first, y pointing down;
                              true: its bottom row does, y pointing up */
    size_t width;          /* of the whole label, in pixels, 0 allowed */
    size_t height;
    size_t pitch;          /* bytes from one mask row to the next */
    size_t first;          /* the rows that are drawn, first to end - 1: a band, counted as y is, */
    size_t end;            /* so up the band [0, 1) is the picture's last row. The mask's first
                              byte belongs to the band, not to the label */
} MzLabel;

/* What a drawing answers. */
typedef struct MzDrawn {
    uint32_t number;  /* 0, or the refusal's number */
    uint32_t index;   /* the record's index, where the number names one, else 0 */
    uint32_t records; /* how many records the list has; 0 with a refusal */
    uint32_t cells;   /* how many distinct places the drawing stored; 0 with a refusal */
    uint32_t cut;     /* how many coordinates of the list were cut; 0 with a refusal */
} MzDrawn;

/* A box of points; all four parts are 0 with a refusal. */
typedef struct MzBounds {
    uint32_t number;
    uint32_t index;
    float min_x;
    float min_y;
    float max_x;
    float max_y;
} MzBounds;

/* How to draw a mask that just holds a list, and where it then belongs; all 0 with a refusal. */
typedef struct MzPlacement {
    uint32_t number;
    uint32_t index;
    float offset_x;  /* the new offset: it brings the placed box into the mask's first corner */
    float offset_y;
    int32_t left;    /* where the mask's left side belongs, in pixels */
    int32_t top;     /* where its top belongs */
    uint32_t width;  /* the mask's size, in pixels */
    uint32_t height;
    uint32_t cut;    /* how many coordinates of the list are cut with the offset that was given */
} MzPlacement;

/*
 * Draws the rows first to end - 1 of a label. The whole label is the band [0, height), as mz_label
 * has it.
 *
 * list, list_len    the path list
 * label             what is drawn, and how
 * mask, mask_len    at least pitch*(end - first - 1) + width bytes, or any with no rows
 * words, words_len  the workspace; it holds one word for each row of the band, and the rest, in
 *                   fours, is the pool: (words_len - rows) / 4 places rounded down, at most
 *                   MZ_MOST_CELLS. MZ_WORKSPACE_WORDS counts them. A drawing never stores more than
 *                   (width + 1) * rows places; the smaller the workspace, the sooner it is wiped
 *
 * Refuses with 1 to 13 and 18. 13 and its index are by these rows alone: what the path stores in
 * others has no say. What was in mask and words before changes no answer and no painted byte.
 *
 * Afterwards      mask                                              words
 *   0             in each band row width bytes are written, 0       all are 0
 *                 for no ink to 255 for full; no others change
 *   1 to 12, 18   unchanged                                         unchanged
 *   13            unchanged                                         all are 0
 *
 * A label that is refused with 13 may still be drawn in bands: each has the whole pool to itself,
 * and together they give the whole label's bytes. mz_draw_in_bands draws so.
 */
MzDrawn mz_draw(const uint8_t *list, size_t list_len, MzLabel label, uint8_t *mask,
                size_t mask_len, uint32_t *words, size_t words_len);

/*
 * Draws what mz_draw draws, in bands of step rows from first on, the last band with what is left:
 * a workspace whose pool would not hold the places of all rows can hold those of each band.
 *
 * step              rows of a band, 0 counting as 1; with as many as end - first or more it is
 *                   mz_draw. The list is read anew for each band, so few rows cost time
 * mask, words       as for mz_draw with all rows: 5 asks for as many words as there are rows in
 *                   all. Each band has for its pool what its own rows leave: (words_len - its
 *                   rows) / 4 places rounded down, at most MZ_MOST_CELLS. MZ_BANDS_WORDS counts
 *                   what is needed
 *
 * Refuses with 1 to 12 and 18 as mz_draw does, and with 13 exactly when one of the bands stores
 * more distinct places than its pool holds; then the mask is unchanged, whichever band it is.
 * The index is the one that mz_draw, lent these words, gives for that band by itself; of several
 * such bands the first counts, in rising rows (up too), even if another is full at an earlier
 * record. What each number leaves in mask and words is as for mz_draw. Accepted, mask, records,
 * cells and cut are those of the rows drawn at once; so whatever mz_draw accepts gives the same
 * here, with any step.
 */
MzDrawn mz_draw_in_bands(const uint8_t *list, size_t list_len, MzLabel label, size_t step,
                         uint8_t *mask, size_t mask_len, uint32_t *words, size_t words_len);

/*
 * The box of all transformed points, control points included. Of parts that are equal, as 0 and
 * -0 are, the first stays. For an empty list all four parts are 0.
 *
 * Refuses with 6 to 12 and 18, the point rule judging the points without any offset.
 */
MzBounds mz_bounds(const uint8_t *list, size_t list_len, MzTransform transform);

/*
 * Where a list's label belongs, and how to draw it into a mask that just holds it.
 *
 * The offset is added to the box of mz_bounds, its minimum is rounded down to whole pixels and its
 * maximum up. width and height are the sides of this box; left and top are its minimum, and if
 * bottom_left is true the height is added to top; the new offset is the minimum, negated.
 *
 * Refuses with 6 to 12 and 18, the point rule judging the points with the offset added. An empty
 * list has the box of mz_bounds, and 12 with index 0 says that the offset itself fails the point
 * rule. A placement can be larger than a drawing may be, up to 8194 x 8194: mz_draw then says 1.
 *
 * To draw what was placed, begin with mz_label(width, height) of these and give it the offset
 * (offset_x, offset_y); where the list was placed with an offset (x, y) of its own, (x + offset_x,
 * y + offset_y).
 */
MzPlacement mz_placement(const uint8_t *list, size_t list_len, MzTransform transform,
                         float offset_x, float offset_y, bool bottom_left);

/* The whole label: identity, no offset, nonzero, y down, pitch = width, first 0, end = height. */
MzLabel mz_label(size_t width, size_t height);

/* Leaves every point where it is: {1, 0, 0, 1, 0, 0}. */
MzTransform mz_identity(void);

/* Adds (x, y): {1, 0, 0, 1, x, y}. */
MzTransform mz_translation(float x, float y);

/* Multiplies by x and by y: {x, 0, 0, y, 0, 0}. */
MzTransform mz_scale(float x, float y);

/*
 * t, and then next, whatever they are; each product and each sum is rounded:
 *
 *     xx = t.xx*next.xx + t.xy*next.yx            xy = t.xx*next.xy + t.xy*next.yy
 *     yx = t.yx*next.xx + t.yy*next.yx            yy = t.yx*next.xy + t.yy*next.yy
 *     x = (t.x*next.xx + t.y*next.yx) + next.x    y = (t.x*next.xy + t.y*next.yy) + next.y
 *
 * It moves a point as t does and then as next does, but for the rounding. Where the entries and the
 * point are whole numbers and nothing is rounded on either way, it is proved to do just that, 0 and
 * -0 counting as one: so where none of them is above 128 in size, or where none of xx, xy, yx and
 * yy is above 16 and none of the others above 4096.
 *
 * Products with 0 are made as well, here and in the three that are made from it. That shows in the
 * sign of a zero, and where a number is not finite.
 *
 * zeno's `then` is another: it has xy and yx exchanged in t, in next and in the answer. Where both
 * are 0 in t and in next, and all numbers finite, only the sign of a zero may differ.
 */
MzTransform mz_then(MzTransform t, MzTransform next);

/* mz_then(t, mz_scale(x, y)): t.xx, t.yx and t.x times x; t.xy, t.yy and t.y times y. */
MzTransform mz_then_scale(MzTransform t, float x, float y);

/* t, and then a translation, whatever t is: x is added to t.x and y to t.y. */
MzTransform mz_then_translate(MzTransform t, float x, float y);

/* mz_then(mz_scale(x, y), t): t.xx and t.xy times x; t.yx and t.yy times y; t.x and t.y stay. */
MzTransform mz_pre_scale(MzTransform t, float x, float y);

/*
 * mz_then(mz_translation(x, y), t): x*xx + y*yx is added to t.x, and x*xy + y*yy to t.y, so that
 * they become where t sends (x, y).
 */
MzTransform mz_pre_translate(MzTransform t, float x, float y);

/* Where t sends the point (x, y). */
MzPoint mz_transform_point(MzTransform t, float x, float y);

/* Where t sends the vector (x, y): the same without tx and ty. */
MzPoint mz_transform_vector(MzTransform t, float x, float y);

#ifdef __cplusplus
}
#endif

/* The archive's sizes, and each field's place and size: laid out otherwise it does not compile. */
#define MZ_HAS_SIZE(type, size) static_assert(sizeof(type) == (size), "size of " #type)
#ifdef __cplusplus
#define MZ_SIZE_OF(type, field) sizeof(type::field)
#else
#define MZ_SIZE_OF(type, field) sizeof(((type *)0)->field)
#endif
#define MZ_STANDS_AT(type, field, at, size)                                                        \
    static_assert(offsetof(type, field) == (at) && MZ_SIZE_OF(type, field) == (size),              \
                  #type "." #field)

MZ_HAS_SIZE(MzTransform, 24);
MZ_STANDS_AT(MzTransform, xx, 0, 4);
MZ_STANDS_AT(MzTransform, xy, 4, 4);
MZ_STANDS_AT(MzTransform, yx, 8, 4);
MZ_STANDS_AT(MzTransform, yy, 12, 4);
MZ_STANDS_AT(MzTransform, x, 16, 4);
MZ_STANDS_AT(MzTransform, y, 20, 4);

MZ_HAS_SIZE(MzPoint, 8);
MZ_STANDS_AT(MzPoint, x, 0, 4);
MZ_STANDS_AT(MzPoint, y, 4, 4);

MZ_HAS_SIZE(MzLabel, 80);
MZ_STANDS_AT(MzLabel, transform, 0, 24);
MZ_STANDS_AT(MzLabel, offset_x, 24, 4);
MZ_STANDS_AT(MzLabel, offset_y, 28, 4);
MZ_STANDS_AT(MzLabel, even_odd, 32, 1);
MZ_STANDS_AT(MzLabel, up, 33, 1);
MZ_STANDS_AT(MzLabel, width, 40, 8);
MZ_STANDS_AT(MzLabel, height, 48, 8);
MZ_STANDS_AT(MzLabel, pitch, 56, 8);
MZ_STANDS_AT(MzLabel, first, 64, 8);
MZ_STANDS_AT(MzLabel, end, 72, 8);

MZ_HAS_SIZE(MzDrawn, 20);
MZ_STANDS_AT(MzDrawn, number, 0, 4);
MZ_STANDS_AT(MzDrawn, index, 4, 4);
MZ_STANDS_AT(MzDrawn, records, 8, 4);
MZ_STANDS_AT(MzDrawn, cells, 12, 4);
MZ_STANDS_AT(MzDrawn, cut, 16, 4);

MZ_HAS_SIZE(MzBounds, 24);
MZ_STANDS_AT(MzBounds, number, 0, 4);
MZ_STANDS_AT(MzBounds, index, 4, 4);
MZ_STANDS_AT(MzBounds, min_x, 8, 4);
MZ_STANDS_AT(MzBounds, min_y, 12, 4);
MZ_STANDS_AT(MzBounds, max_x, 16, 4);
MZ_STANDS_AT(MzBounds, max_y, 20, 4);

MZ_HAS_SIZE(MzPlacement, 36);
MZ_STANDS_AT(MzPlacement, number, 0, 4);
MZ_STANDS_AT(MzPlacement, index, 4, 4);
MZ_STANDS_AT(MzPlacement, offset_x, 8, 4);
MZ_STANDS_AT(MzPlacement, offset_y, 12, 4);
MZ_STANDS_AT(MzPlacement, left, 16, 4);
MZ_STANDS_AT(MzPlacement, top, 20, 4);
MZ_STANDS_AT(MzPlacement, width, 24, 4);
MZ_STANDS_AT(MzPlacement, height, 28, 4);
MZ_STANDS_AT(MzPlacement, cut, 32, 4);

#undef MZ_HAS_SIZE
#undef MZ_SIZE_OF
#undef MZ_STANDS_AT

#endif
