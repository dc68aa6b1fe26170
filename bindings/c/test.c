/*
 * The C face, called as a C or a C++ program calls it: a worked label that zeno drew, at once and
 * in bands; worked transforms, and one followed by another over a grid; K1, K8, K11, K12 and every
 * refusal of the rules (docs/RULES.md), 13 with every room that is too small, 18 with every short
 * list; how many coordinates are cut, in every band; what the header says besides its functions.
 * Takes the folder ../worked as its argument. Prints what differs; exits non-zero if anything does.
 * `run` builds it both ways.
 */

#include "lists.h"

#include <mosszephyr.h>

#include <math.h>
#include <stdio.h>
#include <string.h>
#include <xmmintrin.h>

#ifdef __cplusplus
#include <vector>
#endif

#define LENGTH(array) (sizeof(array) / sizeof((array)[0]))

static int checks = 0;
static int failures = 0;

static void check(bool holds, const char *what) {
    checks += 1;
    if (!holds) {
        failures += 1;
        printf("differs: %s\n", what);
    }
}

/* All that a drawing takes, and the memory that it is lent. */
typedef struct Call {
    const uint8_t *list;
    size_t list_len;
    MzLabel label;
    uint8_t mask[320];
    size_t mask_len;
    uint32_t words[400];
    size_t words_len;
} Call;

/* The label with a mask that just fits and 64 words; mask and words hold something old. */
static Call call_for(const List *list, MzLabel label) {
    Call call;
    memset(&call, 0, sizeof call);
    call.list = list->bytes;
    call.list_len = list->len;
    call.label = label;
    call.mask_len = label.pitch * (label.end - label.first - 1) + label.width;
    call.words_len = 64;
    memset(call.mask, 0xA5, sizeof call.mask);
    memset(call.words, 0x5A, sizeof call.words);
    return call;
}

/* The same for the whole label. */
static Call call_of(const List *list, size_t width, size_t height) {
    return call_for(list, mz_label(width, height));
}

static MzDrawn draw(Call *c) {
    return mz_draw(c->list, c->list_len, c->label, c->mask, c->mask_len, c->words, c->words_len);
}

static MzDrawn draw_in_bands(Call *c, size_t step) {
    return mz_draw_in_bands(c->list, c->list_len, c->label, step, c->mask, c->mask_len, c->words,
                            c->words_len);
}

static bool counts(MzDrawn drawn, uint32_t records, uint32_t cells, uint32_t cut) {
    return drawn.number == MZ_ACCEPTED && drawn.index == 0 && drawn.records == records &&
           drawn.cells == cells && drawn.cut == cut;
}

/* The same of a list on the grid. */
static bool answers(MzDrawn drawn, uint32_t records, uint32_t cells) {
    return counts(drawn, records, cells, 0);
}

/* Whether the 256ths of a coordinate, which a double holds, are no whole number. */
static bool off_grid(float part) {
    double parts = (double)part * 256;
    return parts != (double)(long long)parts;
}

/* How many coordinates of an accepted list are cut, by the rules. */
static uint32_t ruled_cut(const List *list, MzLabel label) {
    uint32_t cut = 0;
    for (size_t at = 0; at < list->len;) {
        size_t end = at + 4 + 4 * floats_of[list->bytes[at + 2]];
        for (at += 4; at < end; at += 8) {
            float x = float_at(list, at);
            float y = float_at(list, at + 4);
            MzPoint moved = mz_transform_point(label.transform, x, y);
            cut += off_grid(moved.x + label.offset_x);
            cut += off_grid(moved.y + label.offset_y);
        }
    }
    return cut;
}

/* Whether the lent words are 0 and the others are old. */
static bool wiped(const Call *call) {
    for (size_t at = 0; at < LENGTH(call->words); at += 1) {
        uint32_t expected = at < call->words_len ? 0 : 0x5A5A5A5Au;
        if (call->words[at] != expected) {
            return false;
        }
    }
    return true;
}

/* Whether the mask's first count bytes are these and all others are old. */
static bool masked(const Call *call, const uint8_t *bytes, size_t count) {
    for (size_t at = count; at < LENGTH(call->mask); at += 1) {
        if (call->mask[at] != 0xA5) {
            return false;
        }
    }
    return memcmp(call->mask, bytes, count) == 0;
}

/* What a refused call answered, and what it left of the memory as it was before. */
static void check_refusal(const Call *before, const Call *after, MzDrawn drawn, uint32_t number,
                          uint32_t index) {
    char what[96];
    snprintf(what, sizeof what, "refusal %u with index %u: answered with %u and %u",
             (unsigned)number, (unsigned)index, (unsigned)drawn.number, (unsigned)drawn.index);
    check(drawn.number == number && drawn.index == index, what);
    check(drawn.records == 0 && drawn.cells == 0 && drawn.cut == 0, what);
    check(memcmp(after->mask, before->mask, sizeof after->mask) == 0, what);
    if (number == MZ_ROOM) {
        check(wiped(after), what);
    } else {
        check(memcmp(after->words, before->words, sizeof after->words) == 0, what);
    }
}

static void expect_refusal_at_once(Call call, uint32_t number, uint32_t index) {
    Call before = call;
    MzDrawn drawn = draw(&call);
    check_refusal(&before, &call, drawn, number, index);
}

static void expect_refusal_in_bands(Call call, size_t step, uint32_t number, uint32_t index) {
    Call before = call;
    MzDrawn drawn = draw_in_bands(&call, step);
    check_refusal(&before, &call, drawn, number, index);
}

/* At once, in one band, and, where no band's room decides, row by row. */
static void expect_refusal(Call call, uint32_t number, uint32_t index) {
    expect_refusal_at_once(call, number, index);
    expect_refusal_in_bands(call, SIZE_MAX, number, index);
    if (number != MZ_ROOM) {
        expect_refusal_in_bands(call, 1, number, index);
    }
}

/* ---- the worked label */

/* A file of ../worked, which just fits; its length. */
static size_t read_worked(const char *folder, const char *name, uint8_t *bytes, size_t room) {
    char path[1024];
    snprintf(path, sizeof path, "%s/%s", folder, name);
    FILE *file = fopen(path, "rb");
    size_t len = file == NULL ? 0 : fread(bytes, 1, room, file);
    check(file != NULL && len > 0 && fgetc(file) == EOF, path);
    if (file != NULL) {
        fclose(file);
    }
    return len;
}

/* The numbers of worked/README.md; no two that could be exchanged are the same. */
static MzLabel slanted_label(bool even_odd) {
    MzLabel label = mz_label(24, 17);
    label.transform.xx = 1.25f;
    label.transform.xy = 0.375f;
    label.transform.yx = -0.5f;
    label.transform.yy = 0.875f;
    label.transform.x = 6.5f;
    label.transform.y = 1.75f;
    label.offset_x = 1.125f;
    label.offset_y = -2.25f;
    label.even_odd = even_odd;
    label.up = true;
    label.pitch = 29;
    label.first = 3;
    label.end = 14;
    return label;
}

static void check_slanted(const Call *call, MzDrawn drawn, const uint8_t *mask, uint32_t cut,
                          const char *what) {
    check(counts(drawn, 12, 93, cut), what);
    check(masked(call, mask, 314), what);
    check(wiped(call), what);
}

/* A workspace that is just enough at once, and one that is so in bands of 3 rows (or of 1). */
static void slanted_with(Call call, const uint8_t *mask, uint32_t cut, const char *what) {
    call.words_len = MZ_WORKSPACE_WORDS(11, 93);
    Call at_once = call;
    MzDrawn drawn = draw(&at_once);
    check_slanted(&at_once, drawn, mask, cut, what);
    call.words_len = MZ_BANDS_WORDS(11, 3, 30);
    for (size_t step = 1; step <= 3; step += 2) {
        Call in_bands = call;
        drawn = draw_in_bands(&in_bands, step);
        check_slanted(&in_bands, drawn, mask, cut, what);
    }
}

/*
 * Each workspace that is too small at once. Into how many places each record is the first to store
 * is zeno's: a pool of 15 has room for those of record 1, and one of 93 for all.
 */
static void slanted_without_room(Call call) {
    static const size_t places[] = {0, 15, 5, 11, 0, 16, 9, 7, 18, 1, 11, 0};
    call.words_len = 11;
    for (uint32_t record = 0; record < LENGTH(places); record += 1) {
        for (size_t words = 0; words < 4 * places[record]; words += 1) {
            expect_refusal(call, MZ_ROOM, record);
            call.words_len += 1;
        }
    }
    check(call.words_len == MZ_WORKSPACE_WORDS(11, 93), "slanted: every pool that is too small");
}

/* Where zeno stores a place too many: by a step of 2 in the second band, by others in the first. */
static void slanted_without_room_in_bands(Call call) {
    static const struct {
        size_t step;
        uint32_t index;
    } full[] = {{2, 10}, {4, 8}, {5, 8}, {6, 7}, {7, 7}, {8, 5}, {10, 5}, {11, 3}, {SIZE_MAX, 3}};
    call.words_len = MZ_BANDS_WORDS(11, 3, 30);
    for (size_t at = 0; at < LENGTH(full); at += 1) {
        expect_refusal_in_bands(call, full[at].step, MZ_ROOM, full[at].index);
    }
    call.words_len -= 1;
    expect_refusal_in_bands(call, 3, MZ_ROOM, 8);
    expect_refusal_in_bands(call, 7, MZ_ROOM, 6);
}

/* In bands, what the first of them says that is refused by itself with the same words. */
static void expect_as_the_first_full_band(Call call, size_t step) {
    const MzLabel label = call.label;
    MzDrawn alone = {0, 0, 0, 0, 0};
    for (size_t at = label.first; at < label.end && alone.number == MZ_ACCEPTED; at += step) {
        Call band = call;
        band.label.first = at;
        band.label.end = label.end - at < step ? label.end : at + step;
        alone = draw(&band);
    }
    if (alone.number == MZ_ACCEPTED) {
        MzDrawn drawn = draw_in_bands(&call, step);
        check(answers(drawn, 12, 93), "room for each band");
    } else {
        expect_refusal_in_bands(call, step, MZ_ROOM, alone.index);
    }
}

static void slanted_in_bands_with_any_room(Call call) {
    for (call.words_len = 11; call.words_len < MZ_WORKSPACE_WORDS(11, 93); call.words_len += 1) {
        for (size_t step = 1; step <= 11; step += 1) {
            expect_as_the_first_full_band(call, step);
        }
    }
}

/* Moved by less than 1/256 all 13 x, or all x and y, are cut to where they were. */
static void slanted_off_the_grid(const List *list, const uint8_t *mask) {
    MzLabel label = slanted_label(false);
    label.offset_x += 1.0f / 1024;
    slanted_with(call_for(list, label), mask, 13, "slanted, x off the grid");
    label.offset_y += 3.0f / 1024;
    slanted_with(call_for(list, label), mask, 26, "slanted, x and y off the grid");
    slanted_without_room(call_for(list, label));
    slanted_without_room_in_bands(call_for(list, label));
}

static void slanted(const char *folder) {
    List list = empty_list();
    uint8_t mask[314];
    list.len = read_worked(folder, "slanted.mzp", list.bytes, sizeof list.bytes);
    read_worked(folder, "slanted_even_odd.mask", mask, sizeof mask);
    slanted_with(call_for(&list, slanted_label(true)), mask, 0, "slanted, even-odd");
    read_worked(folder, "slanted_nonzero.mask", mask, sizeof mask);
    slanted_with(call_for(&list, slanted_label(false)), mask, 0, "slanted, nonzero");
    slanted_off_the_grid(&list, mask);
    for (int even_odd = 0; even_odd <= 1; even_odd += 1) {
        Call call = call_for(&list, slanted_label(even_odd == 1));
        slanted_without_room(call);
        slanted_without_room_in_bands(call);
        slanted_in_bands_with_any_room(call);
    }
}

/* ---- transforms, with numbers worked by hand */

static bool is_transform(MzTransform t, float xx, float xy, float yx, float yy, float x, float y) {
    return t.xx == xx && t.xy == xy && t.yx == yx && t.yy == yy && t.x == x && t.y == y;
}

static void transforms_are_made(void) {
    check(is_transform(mz_identity(), 1, 0, 0, 1, 0, 0), "mz_identity");
    check(is_transform(mz_translation(2, -4), 1, 0, 0, 1, 2, -4), "mz_translation");
    check(is_transform(mz_scale(2, -4), 2, 0, 0, -4, 0, 0), "mz_scale");
}

static void transforms_are_applied(void) {
    MzTransform t = slanted_label(false).transform;
    MzPoint point = mz_transform_point(t, 2, -4);
    check(point.x == 11 && point.y == -1, "mz_transform_point");
    MzPoint vector = mz_transform_vector(t, 2, -4);
    check(vector.x == 4.5f && vector.y == -2.75f, "mz_transform_vector");
}

static void transforms_are_combined(void) {
    const MzTransform t = slanted_label(false).transform;
    const MzTransform next = {2, -0.25f, 0.75f, 1.5f, -3, 5};
    MzTransform both = mz_then(t, next);
    check(is_transform(both, 2.78125f, 0.25f, -0.34375f, 1.4375f, 11.3125f, 6), "mz_then");
    both = mz_then(next, t);
    check(is_transform(both, 2.625f, 0.53125f, 0.1875f, 1.59375f, 0.25f, 5), "mz_then, reversed");
    both = mz_then_scale(t, 2, -4);
    check(is_transform(both, 2.5f, -1.5f, -1, -3.5f, 13, -7), "mz_then_scale");
    both = mz_then_translate(t, 2, -4);
    check(is_transform(both, 1.25f, 0.375f, -0.5f, 0.875f, 8.5f, -2.25f), "mz_then_translate");
    both = mz_pre_scale(t, 2, -4);
    check(is_transform(both, 2.5f, 0.75f, 2, -3.5f, 6.5f, 1.75f), "mz_pre_scale");
    both = mz_pre_translate(t, 2, -4);
    check(is_transform(both, 1.25f, 0.375f, -0.5f, 0.875f, 11, -1), "mz_pre_translate");
}

/* (x, y) goes to (-y, x). */
static const MzTransform quarter_turn = {0, 1, -1, 0, 0, 0};

static bool sends(MzTransform t, float x, float y, float to_x, float to_y) {
    MzPoint point = mz_transform_point(t, x, y);
    return point.x == to_x && point.y == to_y;
}

static void turns_are_combined(void) {
    MzTransform t = mz_then_scale(quarter_turn, 2, 1);
    check(is_transform(t, 0, 1, -2, 0, 0, 0), "a turn, then a scale");
    check(sends(t, 1, 0, 0, 1), "a turn, then a scale: (1, 0)");
    t = mz_pre_scale(quarter_turn, 2, 1);
    check(is_transform(t, 0, 2, -1, 0, 0, 0), "a scale, then a turn");
    check(sends(t, 1, 0, 0, 2), "a scale, then a turn: (1, 0)");
    t = mz_then(quarter_turn, mz_translation(3, 5));
    check(is_transform(t, 0, 1, -1, 0, 3, 5), "a turn, then a move");
    t = mz_then(mz_translation(3, 5), quarter_turn);
    check(is_transform(t, 0, 1, -1, 0, -5, 3), "a move, then a turn");
    t = mz_pre_translate(quarter_turn, 3, 5);
    check(is_transform(t, 0, 1, -1, 0, -5, 3), "a turn, and a move before it");
    check(is_transform(mz_then(t, quarter_turn), -1, 0, 0, -1, -3, -5), "a move, then two turns");
    check(is_transform(mz_then(quarter_turn, t), -1, 0, 0, -1, -5, 3), "a move between two turns");
}

/* To the right by twice y, and down by three times x. */
static void shears_are_combined(void) {
    const MzTransform right = {1, 0, 2, 1, 0, 0};
    const MzTransform down = {1, 3, 0, 1, 0, 0};
    check(is_transform(mz_then(right, down), 1, 3, 2, 7, 0, 0), "a shear right, then down");
    check(is_transform(mz_then(down, right), 7, 3, 2, 1, 0, 0), "a shear down, then right");
    check(is_transform(mz_then_scale(right, 5, 11), 5, 0, 10, 11, 0, 0), "a shear, then a scale");
    check(is_transform(mz_pre_scale(right, 5, 11), 5, 0, 22, 11, 0, 0), "a scale, then a shear");
}

/* A turn that also makes five times as large: a scaled label keeps its right angles. */
static void turns_do_not_slant(void) {
    const MzTransform turn = {3, 4, -4, 3, 0, 0};
    MzTransform t = mz_then(mz_scale(400, 120), turn);
    check(is_transform(t, 1200, 1600, -480, 360, 0, 0), "a scaled label is turned");
    MzPoint along = mz_transform_vector(t, 1, 0);
    MzPoint down = mz_transform_vector(t, 0, 1);
    check(along.x * down.x + along.y * down.y == 0, "a turned label has right angles");
}

/* K1 on 4 x 3 pixels, turned by a quarter into 3 x 4 and then made twice as wide. */
static void turned_label_is_drawn(void) {
    static const uint8_t bytes[24] = {0, 0, 0,   0,   0, 0, 0, 0, 255, 255, 0, 0,
                                      0, 0, 255, 255, 0, 0, 0, 0, 0,   0,   0, 0};
    List list = rectangle();
    Call call = call_of(&list, 6, 4);
    call.label.transform = mz_then_scale(mz_then_translate(quarter_turn, 3, 0), 2, 1);
    MzDrawn drawn = draw(&call);
    check(drawn.number == MZ_ACCEPTED && drawn.cut == 0, "a turned label: answer");
    check(masked(&call, bytes, LENGTH(bytes)), "a turned label: mask");
}

static bool same_bits(MzTransform a, MzTransform b) { return memcmp(&a, &b, sizeof a) == 0; }

/* Every product and every sum is made, but by mz_then_translate only two sums. */
static void zeros_have_signs(void) {
    const MzTransform zeros = {-0.0f, 0, -0.0f, 0, -0.0f, 0};
    const MzTransform unsigned_zeros = {0, 0, 0, 0, 0, 0};
    MzTransform t = mz_then_translate(zeros, -0.0f, -0.0f);
    check(same_bits(t, zeros), "mz_then_translate keeps signs");
    t = mz_then(zeros, mz_translation(-0.0f, -0.0f));
    check(same_bits(t, unsigned_zeros), "mz_then with a translation");
    const MzTransform mirrored = {-1, 0, 0, 1, 0, 0};
    t = mz_then_scale(mz_identity(), -1, 1);
    check(same_bits(t, mirrored), "mz_then_scale: 0 * -1 + 1 * 0 is 0");
    const MzTransform three_quarters = {-0.0f, -1, 1, 0, 0, 0};
    t = mz_pre_scale(quarter_turn, -1, -1);
    check(same_bits(t, three_quarters), "mz_pre_scale: -1 * 0 + 0 * -1 is -0");
}

static void endless_scales_are_multiplied(void) {
    MzTransform t = mz_then_scale(mz_identity(), INFINITY, 1);
    check(t.xx == INFINITY && t.xy == 0 && isnan(t.yx) && t.yy == 1, "then an endless scale");
    check(isnan(t.x) && t.y == 0, "then an endless scale: x and y");
    t = mz_pre_scale(mz_identity(), INFINITY, 1);
    check(t.xx == INFINITY && isnan(t.xy) && t.yx == 0 && t.yy == 1, "an endless scale first");
    check(t.x == 0 && t.y == 0, "an endless scale first: x and y");
}

/* 2^24 + 1 is 2^24, and so again; 1 + 1 first would make it 2^24 + 2. */
static void sums_are_made_from_the_left(void) {
    const MzTransform far_off = {0, 0, 0, 0, 16777216, 1};
    const MzTransform ones = {1, 1, 1, 1, 1, 1};
    MzTransform t = mz_then(far_off, ones);
    check(is_transform(t, 0, 0, 0, 0, 16777216, 16777216), "mz_then: from the left");
    t = mz_pre_translate(ones, 16777216, 1);
    check(is_transform(t, 1, 1, 1, 1, 16777216, 16777216), "mz_pre_translate: from the left");
}

/* 4097 * 4097 is 16785409, which rounds to 16785408: each pair of products is 0, and fused 1. */
static void products_are_rounded(void) {
    const MzTransform first = {4097, 1, 4097, 1, 4097, 1};
    const MzTransform by_first = {4097, 4097, -16785408, -16785408, 0, 0};
    MzTransform t = mz_then(first, by_first);
    check(is_transform(t, 0, 0, 0, 0, 0, 0), "the first product of each pair is rounded");
    const MzTransform second = {1, 4097, 1, 4097, 1, 4097};
    const MzTransform by_second = {-16785408, -16785408, 4097, 4097, 0, 0};
    t = mz_then(second, by_second);
    check(is_transform(t, 0, 0, 0, 0, 0, 0), "the second product of each pair is rounded");
}

/* 3 * 16785408, and 12291 * 4097, which is 50356227 and rounded. */
static void one_behind_the_other_is_rounded_otherwise(void) {
    const MzTransform wide = mz_scale(4097, 1);
    check(sends(mz_then(wide, wide), 3, 0, 50356224, 0), "both at once, rounded");
    check(sends(wide, 3, 0, 12291, 0), "one of both");
    check(sends(wide, 12291, 0, 50356228, 0), "the other of both, rounded");
}

/* ---- transforms by the rules, and one behind the other */

static MzTransform transform_of(const float entries[6]) {
    MzTransform t;
    memcpy(&t, entries, sizeof t);
    return t;
}

/* A float of either sign from 2^-8 to 2^8, or one time in eight a zero. */
static float float_by_dice(uint32_t *state) {
    uint32_t bits = (uint32_t)dice(state, 2) << 31;
    if (dice(state, 8) != 0) {
        bits += (119 + dice(state, 16)) << 23;
        bits += dice(state, 32768) << 8;
        bits += dice(state, 256);
    }
    float number;
    memcpy(&number, &bits, sizeof number);
    return number;
}

static MzTransform transform_by_dice(uint32_t *state) {
    float entries[6];
    for (unsigned at = 0; at < LENGTH(entries); at += 1) {
        entries[at] = float_by_dice(state);
    }
    return transform_of(entries);
}

/* mz_then by the rules. */
static MzTransform ruled_then(MzTransform t, MzTransform next) {
    MzTransform both;
    both.xx = t.xx * next.xx + t.xy * next.yx;
    both.xy = t.xx * next.xy + t.xy * next.yy;
    both.yx = t.yx * next.xx + t.yy * next.yx;
    both.yy = t.yx * next.xy + t.yy * next.yy;
    both.x = (t.x * next.xx + t.y * next.yx) + next.x;
    both.y = (t.x * next.xy + t.y * next.yy) + next.y;
    return both;
}

/* By the bits, of numbers whose products and sums are rounded. */
static void transforms_are_combined_by_the_rules(void) {
    uint32_t state = 4;
    for (int round = 0; round < 500; round += 1) {
        MzTransform t = transform_by_dice(&state);
        MzTransform next = transform_by_dice(&state);
        float x = next.x;
        float y = next.y;
        check(same_bits(mz_then(t, next), ruled_then(t, next)), "mz_then: the rules");
        MzTransform both = ruled_then(t, mz_scale(x, y));
        check(same_bits(mz_then_scale(t, x, y), both), "mz_then_scale: the rules");
        both = ruled_then(mz_scale(x, y), t);
        check(same_bits(mz_pre_scale(t, x, y), both), "mz_pre_scale: the rules");
        both = ruled_then(mz_translation(x, y), t);
        check(same_bits(mz_pre_translate(t, x, y), both), "mz_pre_translate: the rules");
        check(sends(t, x, y, both.x, both.y), "mz_pre_translate: where the move goes");
        both = t;
        both.x += x;
        both.y += y;
        check(same_bits(mz_then_translate(t, x, y), both), "mz_then_translate: the rules");
    }
}

/* Whether a point goes by both at once where it goes by one and then the next. */
static bool follows(MzTransform t, MzTransform next, float x, float y) {
    MzPoint between = mz_transform_point(t, x, y);
    MzPoint last = mz_transform_point(next, between.x, between.y);
    return sends(mz_then(t, next), x, y, last.x, last.y);
}

#define SMALL_TRANSFORMS 729

/* One for each number below that: each of its six digits is an entry, -2, 0 or 3. */
static MzTransform small_transform(unsigned number) {
    static const float digits[] = {-2, 0, 3};
    float entries[6];
    for (unsigned at = 0; at < LENGTH(entries); at += 1) {
        entries[at] = digits[number % 3];
        number /= 3;
    }
    return transform_of(entries);
}

static bool each_small_one_follows(MzTransform t) {
    bool all = true;
    for (unsigned number = 0; number < SMALL_TRANSFORMS; number += 1) {
        MzTransform next = small_transform(number);
        all = all && follows(t, next, 0, 0) && follows(t, next, 5, -7) && follows(t, next, -11, 1);
    }
    return all;
}

/* A whole number that is not larger than `most` either way, and just that one time in two. */
static float whole_by_dice(uint32_t *state, unsigned most) {
    unsigned side = dice(state, 4);
    if (side < 2) {
        return side == 0 ? (float)most : -(float)most;
    }
    return (float)dice(state, 2 * most + 1) - (float)most;
}

/* xx, xy, yx and yy up to `most`, x and y up to `farthest`. */
static MzTransform whole_transform(uint32_t *state, unsigned most, unsigned farthest) {
    float entries[6];
    for (unsigned at = 0; at < LENGTH(entries); at += 1) {
        entries[at] = whole_by_dice(state, at < 4 ? most : farthest);
    }
    return transform_of(entries);
}

static void whole_ones_follow(unsigned most, unsigned farthest) {
    uint32_t state = most;
    for (int round = 0; round < 1000; round += 1) {
        MzTransform t = whole_transform(&state, most, farthest);
        MzTransform next = whole_transform(&state, most, farthest);
        float x = whole_by_dice(&state, farthest);
        float y = whole_by_dice(&state, farthest);
        check(follows(t, next, x, y), "one and then the other, whole numbers");
    }
}

/* Of whole numbers one and then the other is just that, 0 and -0 being equal. */
static void transforms_follow_each_other(void) {
    for (unsigned number = 0; number < SMALL_TRANSFORMS; number += 1) {
        check(each_small_one_follows(small_transform(number)), "one and then each other");
    }
    whole_ones_follow(128, 128);
    whole_ones_follow(16, 4096);
}

static void transforms(void) {
    transforms_are_made();
    transforms_are_applied();
    transforms_are_combined();
    turns_are_combined();
    shears_are_combined();
    turns_do_not_slant();
    turned_label_is_drawn();
    zeros_have_signs();
    endless_scales_are_multiplied();
    sums_are_made_from_the_left();
    products_are_rounded();
    one_behind_the_other_is_rounded_otherwise();
    transforms_are_combined_by_the_rules();
    transforms_follow_each_other();
}

/* From (11, -1) to (9.75, 3.75) and back, moved by (0.5 and 1/512, -2.25): each x is cut. */
static void slanted_line_is_placed(void) {
    MzTransform t = slanted_label(false).transform;
    List list = one_move(2, -4);
    line_to(&list, 3, 1);
    line_to(&list, 2, -4);
    MzBounds box = mz_bounds(list.bytes, list.len, t);
    check(box.number == MZ_ACCEPTED && box.index == 0, "slanted box: number and index");
    check(box.min_x == 9.75f && box.min_y == -1, "slanted box: minimum");
    check(box.max_x == 11 && box.max_y == 3.75f, "slanted box: maximum");
    MzPlacement placed = mz_placement(list.bytes, list.len, t, 0.501953125f, -2.25f, true);
    check(placed.number == MZ_ACCEPTED && placed.index == 0, "slanted place: number and index");
    check(placed.offset_x == -10 && placed.offset_y == 4, "slanted place: offset");
    check(placed.left == 10 && placed.top == 2, "slanted place: left and top");
    check(placed.width == 2 && placed.height == 6, "slanted place: size");
    check(placed.cut == 3, "slanted place: cut");
}

/* ---- what the header says besides */

static void label_is_whole(void) {
    MzLabel label = mz_label(24, 17);
    check(is_transform(label.transform, 1, 0, 0, 1, 0, 0), "mz_label: transform");
    check(label.offset_x == 0 && label.offset_y == 0, "mz_label: offset");
    check(!label.even_odd && !label.up, "mz_label: even_odd and up");
    check(label.width == 24 && label.height == 17, "mz_label: size");
    check(label.pitch == 24, "mz_label: pitch");
    check(label.first == 0 && label.end == 17, "mz_label: band");
}

static void label_of_zeros_draws_nothing(void) {
    static const uint8_t zeros[12] = {0};
    List list = rectangle();
    MzLabel label;
    memset(&label, 0, sizeof label);
    label.width = 4;
    label.height = 3;
    label.pitch = 4;
    label.end = 3;
    Call call = call_for(&list, label);
    MzDrawn drawn = draw(&call);
    check(drawn.number == MZ_ACCEPTED && drawn.records == 5, "a label of zeros: answer");
    check(masked(&call, zeros, LENGTH(zeros)), "a label of zeros: mask");
}

static void refusals_have_words(void) {
    static const char unknown[] = "an unknown refusal";
    static const char *const words[] = {
        "accepted",
        "the width or the height is above 4,096 pixels",
        "the band does not lie within the label",
        "the pitch is below the width or above 65,536 bytes",
        "the mask is too short for the band",
        "the workspace has fewer words than there are rows to draw",
        "a transform entry or an offset part is NaN or infinite",
        "the path list is longer than 65,536 bytes",
        "the end of the list cuts the record",
        "the record's kind is not 1 to 5",
        "the record's length is not its kind's",
        "the first record is not a MoveTo",
        "a point is NaN, infinite, or 1/256 of a pixel or more beyond 4,096 from zero",
        "the drawing needs more places than the workspace has room for",
        unknown,
        unknown,
        unknown,
        unknown,
        "the record draws directly after a Close, with no MoveTo between",
        unknown,
        unknown,
    };
    for (uint32_t number = 0; number < LENGTH(words); number += 1) {
        bool names = (number > 7 && number < 14) || number == 18;
        check(strcmp(mz_words(number), words[number]) == 0, words[number]);
        check(mz_names_a_record(number) == names, "mz_names_a_record");
    }
    check(strcmp(mz_words(UINT32_MAX), unknown) == 0, unknown);
    check(!mz_names_a_record(UINT32_MAX), "mz_names_a_record");
}

static void words_are_counted(void) {
    static uint32_t words[MZ_BANDS_WORDS(11, 3, 30)];
    check(LENGTH(words) == 123, "MZ_BANDS_WORDS of a band and its places");
    check(MZ_BANDS_WORDS(240, 1, 5) == 240, "MZ_BANDS_WORDS of more rows than that");
    check(MZ_BANDS_WORDS(10, 0, 5) == 21, "MZ_BANDS_WORDS with step 0");
    check(MZ_BANDS_WORDS(10, 50, 5) == 30, "MZ_BANDS_WORDS with a step above all rows");
    check(MZ_BANDS_WORDS(0, 4, 0) == 0, "MZ_BANDS_WORDS of no rows");
    check(MZ_BANDS_WORDS(0, 0, 0) == 0, "MZ_BANDS_WORDS of no rows with step 0");
    check(MZ_BANDS_WORDS(5 + 6, 2 | 1, 15 + 15) == 123, "MZ_BANDS_WORDS of sums");
    check(MZ_WORKSPACE_WORDS(5 + 6, 90 + 3) == 383, "MZ_WORKSPACE_WORDS");
}

static void version_is_one(void) {
    char version[32];
    snprintf(version, sizeof version, "%d.%d.%d", MZ_VERSION_MAJOR, MZ_VERSION_MINOR,
             MZ_VERSION_PATCH);
    check(strcmp(version, MZ_VERSION) == 0, "MZ_VERSION");
}

/* ---- the rules' own examples */

static void k1_rectangle(void) {
    static const uint8_t bytes[12] = {0, 0, 0, 0, 0, 255, 255, 0, 0, 0, 0, 0};
    List list = rectangle();
    Call call = call_of(&list, 4, 3);
    MzDrawn drawn = draw(&call);
    check(answers(drawn, 5, 2), "K1: answer");
    check(masked(&call, bytes, LENGTH(bytes)), "K1: mask");
    check(wiped(&call), "K1: words");
}

/* The last row of K1 and the one before it, drawn upward with a pitch of 5. */
static void k1_band_upward(void) {
    static const uint8_t bytes[9] = {0, 0, 0, 0, 0xA5, 0, 255, 255, 0};
    List list = rectangle();
    MzLabel label = mz_label(4, 3);
    label.up = true;
    label.pitch = 5;
    label.first = 1;
    Call call = call_for(&list, label);
    MzDrawn drawn = draw(&call);
    check(answers(drawn, 5, 2), "K1 in a band: answer");
    check(masked(&call, bytes, LENGTH(bytes)), "K1 in a band: mask");
    check(wiped(&call), "K1 in a band: words");
}

/* K1 and K1's last two rows, in bands of every height, down and upward: as drawn at once. */
static void k1_in_bands(void) {
    static const size_t steps[] = {0, 1, 2, 3, SIZE_MAX};
    List list = rectangle();
    for (size_t at = 0; at < 4 * LENGTH(steps); at += 1) {
        MzLabel label = mz_label(4, 3);
        label.up = at % 2 == 1;
        label.first = at / 2 % 2;
        Call call = call_for(&list, label);
        Call at_once = call;
        MzDrawn whole = draw(&at_once);
        MzDrawn drawn = draw_in_bands(&call, steps[at / 4]);
        check(answers(drawn, 5, whole.cells), "K1 in bands: answer");
        check(memcmp(call.mask, at_once.mask, sizeof call.mask) == 0, "K1 in bands: mask");
        check(wiped(&call), "K1 in bands: words");
    }
}

/*
 * Three full rows, a place in each, with a pool of one place: too little at once and in bands of
 * two, enough row by row. With a second place in the last row it is too little there as well, and
 * the rows before leave no trace. The Close, record 4, leaves all places but the top row's, which
 * the end stores.
 */
static void bands_need_less_room(void) {
    static const uint8_t full[12] = {255, 255, 255, 255, 255, 255, 255, 255, 255, 255, 255, 255};
    List list = rectangle_of(0, 0, 4, 3);
    Call call = call_of(&list, 4, 3);
    call.words_len = MZ_WORKSPACE_WORDS(3, 1);
    expect_refusal(call, MZ_ROOM, 4);
    expect_refusal_in_bands(call, 2, MZ_ROOM, 5);
    Call row_by_row = call;
    MzDrawn drawn = draw_in_bands(&row_by_row, 1);
    check(answers(drawn, 5, 3), "less room: answer");
    check(masked(&row_by_row, full, LENGTH(full)), "less room: mask");
    check(wiped(&row_by_row), "less room: words");
    move_to(&list, 2, 2);
    call.list_len = list.len;
    expect_refusal_in_bands(call, 1, MZ_ROOM, 6);
}

static void k8_lone_move(void) {
    List list = one_move(0, 0);
    Call call = call_of(&list, 1, 1);
    call.words_len = MZ_WORKSPACE_WORDS(1, 1);
    MzDrawn drawn = draw(&call);
    check(answers(drawn, 1, 1), "K8: answer");
    check(call.mask[0] == 0 && wiped(&call), "K8: mask and words");
    Call no_room = call_of(&list, 1, 1);
    for (no_room.words_len = 1; no_room.words_len < 5; no_room.words_len += 1) {
        expect_refusal(no_room, MZ_ROOM, 1);
    }
}

static void k11_placement(void) {
    List list = one_move(0.5f, 0.25f);
    line_to(&list, 3.25f, 2);
    MzPlacement placed = mz_placement(list.bytes, list.len, mz_identity(), -1, 1, true);
    check(placed.number == MZ_ACCEPTED && placed.index == 0, "K11: number and index");
    check(placed.width == 4 && placed.height == 2, "K11: size");
    check(placed.left == -1 && placed.top == 3, "K11: left and top");
    check(placed.offset_x == 1 && placed.offset_y == -1, "K11: offset");
    check(placed.cut == 0, "K11: cut");
    MzPlacement from_top = mz_placement(list.bytes, list.len, mz_identity(), -1, 1, false);
    check(from_top.left == -1 && from_top.top == 1, "K11 from the top: left and top");
    MzBounds bounds = mz_bounds(list.bytes, list.len, mz_identity());
    check(bounds.number == MZ_ACCEPTED, "K11: the box is accepted");
    check(bounds.min_x == 0.5f && bounds.min_y == 0.25f, "K11: the box's minimum");
    check(bounds.max_x == 3.25f && bounds.max_y == 2, "K11: the box's maximum");
}

/* From as far as a point may lie to as far the other way: larger than a drawing may be. */
static void the_largest_placement(void) {
    const float c = 4096.00341796875f;
    List list = one_move(-c, -c);
    line_to(&list, c, c);
    MzPlacement placed = mz_placement(list.bytes, list.len, mz_identity(), 0, 0, false);
    check(placed.number == MZ_ACCEPTED, "largest place: number");
    check(placed.width == 8194 && placed.height == 8194, "largest place: size");
    check(placed.left == -4097 && placed.top == -4097, "largest place: left and top");
    check(placed.offset_x == 4097 && placed.offset_y == 4097, "largest place: offset");
    check(placed.cut == 4, "largest place: cut");
    MzPlacement from_bottom = mz_placement(list.bytes, list.len, mz_identity(), 0, 0, true);
    check(from_bottom.top == 4097, "largest place from the bottom: top");
    MzLabel label = mz_label(placed.width, placed.height);
    MzDrawn drawn = mz_draw(list.bytes, list.len, label, NULL, 0, NULL, 0);
    check(drawn.number == MZ_SIZE, "largest place: drawn");
}

/* ---- nothing lent: any pointer will do */

/* K12 and its kin with this list, whose length is 0. */
static void empty_list_draws_nothing(const uint8_t *bytes) {
    static const uint8_t zeros[6] = {0};
    List list = empty_list();
    Call call = call_of(&list, 3, 2);
    call.list = bytes;
    Call in_bands = call;
    MzDrawn drawn = draw(&call);
    check(answers(drawn, 0, 0), "K12: answer");
    check(masked(&call, zeros, LENGTH(zeros)) && wiped(&call), "K12: mask and words");
    drawn = draw_in_bands(&in_bands, 1);
    check(answers(drawn, 0, 0), "K12 in bands: answer");
    check(masked(&in_bands, zeros, LENGTH(zeros)) && wiped(&in_bands), "K12 in bands: mask");
    MzBounds box = mz_bounds(bytes, 0, mz_identity());
    check(box.number == MZ_ACCEPTED && box.max_x == 0 && box.max_y == 0, "K12: box");
    MzPlacement placed = mz_placement(bytes, 0, mz_identity(), 0.5f, 0.5f, false);
    check(placed.number == MZ_ACCEPTED && placed.width == 1 && placed.height == 1, "K12: place");
}

/* No rows with nothing at all; rows of no width with no mask; rows with no mask or no words. */
static void nothing_is_lent(uint8_t *mask, uint32_t *words) {
    List list = rectangle();
    const uint8_t *bytes = list.bytes;
    uint32_t lent[64];
    MzLabel flat = mz_label(4, 0);
    MzDrawn drawn = mz_draw(bytes, list.len, flat, mask, 0, words, 0);
    check(answers(drawn, 5, 0), "no rows: answer");
    drawn = mz_draw_in_bands(bytes, list.len, flat, 1, mask, 0, words, 0);
    check(answers(drawn, 5, 0), "no rows in bands: answer");
    MzLabel narrow = mz_label(0, 3);
    drawn = mz_draw(bytes, list.len, narrow, mask, 0, lent, LENGTH(lent));
    check(drawn.number == MZ_ACCEPTED && drawn.records == 5, "no columns: answer");
    drawn = mz_draw_in_bands(bytes, list.len, narrow, 2, mask, 0, lent, LENGTH(lent));
    check(drawn.number == MZ_ACCEPTED && drawn.records == 5, "no columns in bands: answer");
    drawn = mz_draw(bytes, list.len, mz_label(4, 3), mask, 0, lent, LENGTH(lent));
    check(drawn.number == MZ_MASK, "no mask");
    drawn = mz_draw(bytes, list.len, narrow, mask, 0, words, 0);
    check(drawn.number == MZ_WORKSPACE, "no words");
}

static void length_0_takes_any_pointer(void) {
    List list = empty_list();
    uint8_t byte = 7;
    uint32_t word = 7;
    empty_list_draws_nothing(list.bytes);
    empty_list_draws_nothing(NULL);
    nothing_is_lent(&byte, &word);
    nothing_is_lent(NULL, NULL);
    check(byte == 7 && word == 7, "nothing is written where nothing is lent");
#ifdef __cplusplus
    std::vector<uint8_t> no_bytes;
    std::vector<uint32_t> no_words;
    empty_list_draws_nothing(no_bytes.data());
    nothing_is_lent(no_bytes.data(), no_words.data());
#endif
}

/* ---- every refusal, and what is just within */

/* 1 to 6, whatever is at fault in the list. */
static void sizes_and_floats_are_refused(List list) {
    const Call good = call_of(&list, 4, 3);
    Call call = good;
    call.label.width = MZ_MOST_SIDE + 1;
    expect_refusal(call, MZ_SIZE, 0);
    call = good;
    call.label.height = MZ_MOST_SIDE + 1;
    expect_refusal(call, MZ_SIZE, 0);
    call = good;
    call.label.end = 4;
    expect_refusal(call, MZ_BAND, 0);
    call = good;
    call.label.first = 3;
    call.label.end = 2;
    expect_refusal(call, MZ_BAND, 0);
    call = good;
    call.label.pitch = 3;
    expect_refusal(call, MZ_PITCH, 0);
    call = good;
    call.label.pitch = MZ_MOST_PITCH + 1;
    expect_refusal(call, MZ_PITCH, 0);
    call = good;
    call.mask_len = 11;
    expect_refusal(call, MZ_MASK, 0);
    call = good;
    call.words_len = 2;
    expect_refusal(call, MZ_WORKSPACE, 0);
    call = good;
    call.label.offset_y = INFINITY;
    expect_refusal(call, MZ_FLOAT, 0);
    call = good;
    call.label.transform.yx = NAN;
    expect_refusal(call, MZ_FLOAT, 0);
}

/* The longest list has a kind of 0, and one byte more is 7. */
static void the_longest_list_is_read(void) {
    static uint8_t bytes[MZ_MOST_LIST + 1];
    List none = empty_list();
    Call call = call_of(&none, 4, 3);
    call.list = bytes;
    call.list_len = MZ_MOST_LIST;
    expect_refusal(call, MZ_KIND, 0);
    call.list_len = MZ_MOST_LIST + 1;
    expect_refusal(call, MZ_LIST, 0);
}

/* An empty list, at once and row by row. */
static void expect_accepted(MzLabel label, const char *what) {
    static uint8_t mask[MZ_MOST_SIDE];
    static uint32_t words[MZ_MOST_SIDE];
    MzDrawn drawn = mz_draw(NULL, 0, label, mask, sizeof mask, words, LENGTH(words));
    check(answers(drawn, 0, 0), what);
    drawn = mz_draw_in_bands(NULL, 0, label, 1, mask, sizeof mask, words, LENGTH(words));
    check(answers(drawn, 0, 0), what);
}

static void the_largest_sizes_are_accepted(void) {
    expect_accepted(mz_label(MZ_MOST_SIDE, 1), "the largest width");
    expect_accepted(mz_label(1, MZ_MOST_SIDE), "the largest height");
    MzLabel label = mz_label(4, 1);
    label.pitch = MZ_MOST_PITCH;
    expect_accepted(label, "the largest pitch");
}

/* A square of one pixel in each corner; right of the last column no place is stored. */
static void the_largest_label_is_drawn(void) {
    enum { SIDE = MZ_MOST_SIDE, LAST = SIDE - 1 };
    static uint8_t mask[SIDE * SIDE];
    static uint8_t corners[SIDE * SIDE];
    static uint32_t words[MZ_WORKSPACE_WORDS(SIDE, 6)];
    List list = empty_list();
    put_rectangle(&list, 0, 0, 1, 1);
    put_rectangle(&list, LAST, 0, SIDE, 1);
    put_rectangle(&list, 0, LAST, 1, SIDE);
    put_rectangle(&list, LAST, LAST, SIDE, SIDE);
    corners[0] = corners[LAST] = corners[SIDE * LAST] = corners[SIDE * SIDE - 1] = 255;
    memset(mask, 0xA5, sizeof mask);
    MzLabel label = mz_label(SIDE, SIDE);
    MzDrawn drawn = mz_draw(list.bytes, list.len, label, mask, sizeof mask, words, LENGTH(words));
    check(answers(drawn, 20, 6), "the largest label: answer");
    check(memcmp(mask, corners, sizeof mask) == 0, "the largest label: mask");
}

/* The largest label's last row within the largest rectangle, whose left side is column -1's. */
static void the_last_row_is_filled(void) {
    static uint8_t mask[MZ_MOST_SIDE];
    static uint8_t full[MZ_MOST_SIDE];
    uint32_t words[MZ_WORKSPACE_WORDS(1, 1)];
    List list = rectangle_of(-4096, -4096, 4096, 4096);
    MzLabel label = mz_label(MZ_MOST_SIDE, MZ_MOST_SIDE);
    label.first = MZ_MOST_SIDE - 1;
    memset(full, 255, sizeof full);
    MzDrawn drawn = mz_draw(list.bytes, list.len, label, mask, sizeof mask, words, LENGTH(words));
    check(answers(drawn, 5, 1), "the last row: answer");
    check(memcmp(mask, full, sizeof mask) == 0, "the last row: mask");
}

/* As many places as a pool may have; with one more it is 13, however many words there are. */
static void the_most_cells_are_drawn(void) {
    static uint8_t mask[MZ_MOST_SIDE * 5];
    static uint32_t words[MZ_WORKSPACE_WORDS(5, MZ_MOST_CELLS + 1)];
    MzLabel label = mz_label(MZ_MOST_SIDE, 5);
    List list = every_place_of_four_rows(0);
    move_to(&list, 0, 3);
    MzDrawn drawn = mz_draw(list.bytes, list.len, label, mask, sizeof mask, words, LENGTH(words));
    check(answers(drawn, 133, MZ_MOST_CELLS), "the most cells");
    move_to(&list, 0, 4);
    drawn = mz_draw(list.bytes, list.len, label, mask, sizeof mask, words, LENGTH(words));
    check(drawn.number == MZ_ROOM && drawn.index == 134, "one cell more than the most");
}

/*
 * Rows with as many places as there can be: three of them fit into a pool, and four do not. What is
 * too much are four places of the last record, a line through the fourth row's last columns.
 */
static void the_fullest_rows_fit_by_three(void) {
    static uint8_t mask[MZ_MOST_SIDE * 4];
    static uint32_t words[MZ_BANDS_WORDS(4, 4, MZ_MOST_CELLS)];
    MzLabel label = mz_label(MZ_MOST_SIDE, 4);
    List list = every_place_of_four_rows(-1);
    MzDrawn drawn =
        mz_draw_in_bands(list.bytes, list.len, label, 4, mask, sizeof mask, words, LENGTH(words));
    check(drawn.number == MZ_ROOM && drawn.index == 131, "the fullest rows by four");
    drawn = mz_draw_in_bands(list.bytes, list.len, label, 3, mask, sizeof mask, words,
                             MZ_BANDS_WORDS(4, 3, 3 * (MZ_MOST_SIDE + 1)));
    check(answers(drawn, 132, 4 * (MZ_MOST_SIDE + 1)), "the fullest rows by three");
}

/* A refused placement: number and index, and all else 0, no zero having a sign. */
static void expect_no_place(MzPlacement placed, uint32_t number, uint32_t index) {
    MzPlacement no_place;
    memset(&no_place, 0, sizeof no_place);
    no_place.number = number;
    no_place.index = index;
    check(memcmp(&placed, &no_place, sizeof placed) == 0, "placement: refused");
}

/* The same by bounds and placement. */
static void expect_no_box(const uint8_t *bytes, size_t len, uint32_t number, uint32_t index) {
    MzBounds no_box;
    memset(&no_box, 0, sizeof no_box);
    no_box.number = number;
    no_box.index = index;
    MzBounds bounds = mz_bounds(bytes, len, mz_identity());
    check(memcmp(&bounds, &no_box, sizeof bounds) == 0, "bounds: refused");
    for (int up = 0; up <= 1; up += 1) {
        MzPlacement placed = mz_placement(bytes, len, mz_identity(), 0, 0, up == 1);
        expect_no_place(placed, number, index);
    }
}

/* By every call that takes a list, with room and, since 13 comes last, without. */
static void expect_record_refused(const List *list, uint32_t number, uint32_t index) {
    Call call = call_of(list, 4, 3);
    expect_refusal(call, number, index);
    call.words_len = 3;
    expect_refusal(call, number, index);
    expect_no_box(list->bytes, list->len, number, index);
}

/* 8 to 12 and 18, behind a rectangle's five records or in the first of them. */
static void records_are_refused(const List good) {
    List list = good;
    list.bytes[list.len++] = 2;
    expect_record_refused(&list, MZ_CUT, 5);
    list = good;
    put_u16(&list, 2);
    put_u16(&list, 6);
    expect_record_refused(&list, MZ_KIND, 5);
    list = good;
    put_u16(&list, 4);
    put_u16(&list, 5);
    expect_record_refused(&list, MZ_LENGTH, 5);
    list = good;
    list.bytes[2] = 2;
    expect_record_refused(&list, MZ_START, 0);
    list = good;
    move_to(&list, 4096.00390625f, 0);
    expect_record_refused(&list, MZ_POINT, 5);
    list = good;
    move_to(&list, 0, 0);
    line_to(&list, NAN, 0);
    expect_record_refused(&list, MZ_POINT, 6);
    list = good;
    line_to(&list, 2, 2);
    expect_record_refused(&list, MZ_AFTER_CLOSE, 5);
}

static void expect_list_accepted(const List *list, uint32_t records) {
    Call call = call_of(list, 4, 3);
    Call in_bands = call;
    uint32_t cut = ruled_cut(list, call.label);
    MzDrawn drawn = draw(&call);
    check(counts(drawn, records, drawn.cells, cut), "drawing: accepted");
    MzDrawn by_rows = draw_in_bands(&in_bands, 1);
    check(counts(by_rows, records, drawn.cells, cut), "drawing in bands: accepted");
    check(memcmp(in_bands.mask, call.mask, sizeof call.mask) == 0, "drawing in bands: mask");
    MzBounds bounds = mz_bounds(list->bytes, list->len, mz_identity());
    check(bounds.number == MZ_ACCEPTED, "bounds: accepted");
    MzPlacement placed = mz_placement(list->bytes, list->len, mz_identity(), 0, 0, false);
    check(placed.number == MZ_ACCEPTED && placed.cut == cut, "placement: accepted");
}

/* Each part of each point of each kind of record by itself: accepted, or 12. */
static void expect_far_floats(float far, bool accepted) {
    for (unsigned kind = 1; kind < LENGTH(floats_of); kind += 1) {
        for (unsigned at = 0; at < floats_of[kind]; at += 1) {
            List list = one_far_float(kind, at, far);
            if (accepted) {
                expect_list_accepted(&list, 2);
            } else {
                expect_record_refused(&list, MZ_POINT, 1);
            }
        }
    }
}

/* 12's words are exact: 7/2048 of a pixel beyond 4,096, the last float before 1/256, passes. */
static void every_point_is_judged(void) {
    for (int sign = -1; sign <= 1; sign += 2) {
        expect_far_floats(sign * 4096.0f, true);
        expect_far_floats(sign * 4096.00341796875f, true);
        expect_far_floats(sign * 4096.00390625f, false);
    }
}

/* With the offset added a point may be too far; bounds has no offset. */
static void points_are_judged_with_the_offset(void) {
    List list = one_move(4096, -4096);
    MzLabel label = mz_label(4, 3);
    label.offset_y = -1.0f / 256;
    expect_refusal(call_for(&list, label), MZ_POINT, 0);
    MzPlacement placed = mz_placement(list.bytes, list.len, mz_identity(), 1.0f / 256, 0, false);
    expect_no_place(placed, MZ_POINT, 0);
    MzBounds bounds = mz_bounds(list.bytes, list.len, mz_identity());
    check(bounds.number == MZ_ACCEPTED, "bounds: no offset is added");
}

/* ---- 13: the record that stores a place too many */

/*
 * With every room, down and upward. `full` has a digit for each pool that is too small, from no
 * place on: the record at which it is full. The next pool is enough.
 */
static void expect_full_at(const List *list, MzLabel label, const char *full) {
    int failures_before = failures;
    size_t rows = label.end - label.first;
    size_t cells = strlen(full);
    for (size_t room = 0; room < 4 * cells; room += 1) {
        label.up = !label.up;
        Call call = call_for(list, label);
        call.words_len = rows + room;
        expect_refusal(call, MZ_ROOM, (uint32_t)(full[room / 4] - '0'));
    }
    Call call = call_for(list, label);
    call.words_len = MZ_WORKSPACE_WORDS(rows, cells);
    MzDrawn drawn = draw(&call);
    check(drawn.number == MZ_ACCEPTED && drawn.cells == cells, "just enough room");
    if (failures != failures_before) {
        printf("  full at %s\n", full);
    }
}

/*
 * The first place is inked by record 1, and left by record 2, which inks nothing. The second is
 * inked and left by the end, and then by a Close.
 */
static void the_record_that_leaves_is_named(void) {
    List list = one_move(0.5f, 0);
    line_to(&list, 0.5f, 0.5f);
    line_to(&list, 1.5f, 0.5f);
    expect_full_at(&list, mz_label(2, 1), "23");
    close_path(&list);
    expect_full_at(&list, mz_label(2, 1), "23");
}

/* It has the number of records, which a drawing of no rows tells. */
static void the_end_is_named(void) {
    List list = one_move(0, 0);
    expect_full_at(&list, mz_label(1, 1), "1");
    list = rectangle();
    expect_full_at(&list, mz_label(4, 3), "25");
    MzDrawn drawn = mz_draw(list.bytes, list.len, mz_label(4, 0), NULL, 0, NULL, 0);
    check(answers(drawn, 5, 0), "no rows tell how many records there are");
    close_path(&list);
    expect_full_at(&list, mz_label(4, 3), "26");
}

/*
 * K1 and four full rows without their Close, closed by the end and then by a MoveTo; squares whose
 * place a MoveTo leaves.
 */
static void a_move_to_closes_and_leaves(void) {
    List list = rectangle();
    list.len -= 4;
    expect_full_at(&list, mz_label(4, 3), "24");
    move_to(&list, 0, 0);
    expect_full_at(&list, mz_label(4, 3), "245");
    list = rectangle_of(0, 0, 4, 4);
    list.len -= 4;
    expect_full_at(&list, mz_label(4, 4), "4444");
    move_to(&list, 0, 0);
    expect_full_at(&list, mz_label(4, 4), "4444");
    list = rectangle_of(0, 0, 1, 1);
    expect_full_at(&list, mz_label(1, 1), "5");
    move_to(&list, 0, 0);
    expect_full_at(&list, mz_label(1, 1), "5");
    put_rectangle(&list, 0, 0, 1, 1);
    expect_full_at(&list, mz_label(1, 1), "5");
}

/*
 * Four full rows. The Close, record 4, draws their left side upward and leaves all places but the
 * top row's, which the end stores: a band has a record of its own.
 */
static void bands_are_full_by_themselves(void) {
    static const struct {
        size_t first;
        size_t end;
        const char *full;
    } bands[] = {{0, 4, "4445"}, {0, 2, "45"}, {0, 1, "5"}, {1, 3, "44"}, {3, 4, "4"}, {2, 2, ""}};
    List list = rectangle_of(0, 0, 4, 4);
    for (size_t each = 0; each < LENGTH(bands); each += 1) {
        MzLabel label = mz_label(4, 4);
        label.first = bands[each].first;
        label.end = bands[each].end;
        expect_full_at(&list, label, bands[each].full);
    }
}

/* Where none of these rows has room the first counts, though the others are full earlier. */
static void the_first_full_band_counts(void) {
    List list = rectangle_of(0, 0, 4, 4);
    MzLabel label = mz_label(4, 4);
    for (int up = 0; up <= 1; up += 1) {
        label.up = up == 1;
        Call call = call_for(&list, label);
        call.words_len = 4;
        expect_refusal(call, MZ_ROOM, 4);
        expect_refusal_in_bands(call, 1, MZ_ROOM, 5);
        call.label.first = 1;
        expect_refusal_in_bands(call, 1, MZ_ROOM, 4);
    }
}

/* The longest list: MoveTo (0, 0), and as many Closes as there is room for. */
static void fill_with_closes(uint8_t *bytes) {
    List list = list_of("MZ");
    memcpy(bytes, list.bytes, list.len);
    for (size_t at = list.len; at < MZ_MOST_LIST; at += 4) {
        memcpy(bytes + at, list.bytes + 12, 4);
    }
}

static void the_most_records_are_counted(void) {
    static uint8_t bytes[MZ_MOST_LIST];
    fill_with_closes(bytes);
    List none = empty_list();
    Call call = call_of(&none, 1, 1);
    call.list = bytes;
    call.list_len = MZ_MOST_LIST;
    call.words_len = 1;
    expect_refusal(call, MZ_ROOM, 16382);
}

static void the_record_without_room_is_named(void) {
    the_record_that_leaves_is_named();
    the_end_is_named();
    a_move_to_closes_and_leaves();
    bands_are_full_by_themselves();
    the_first_full_band_counts();
    the_most_records_are_counted();
}

/* ---- 18: nothing is drawn directly behind a Close */

/* What the rules say of a list_of these letters; *at is its record, or how many there are. */
static uint32_t ruled(const char *letters, uint32_t *at) {
    for (*at = 0; letters[*at] != '\0'; *at += 1) {
        char letter = letters[*at];
        if (*at == 0 && strchr("Mm", letter) == NULL) {
            return MZ_START;
        }
        if (*at > 0 && letters[*at - 1] == 'Z' && strchr("LQClqc", letter) != NULL) {
            return MZ_AFTER_CLOSE;
        }
        if (strchr("mlqc", letter) != NULL) {
            return MZ_POINT;
        }
    }
    return MZ_ACCEPTED;
}

static void expect_as_ruled(const char *letters) {
    int failures_before = failures;
    uint32_t at;
    uint32_t number = ruled(letters, &at);
    List list = list_of(letters);
    if (number == MZ_ACCEPTED) {
        expect_list_accepted(&list, at);
    } else {
        expect_record_refused(&list, number, at);
    }
    if (failures != failures_before) {
        printf("  in the list %s\n", letters);
    }
}

/* Each list of up to `most` of these letters. */
static void every_list_is_judged(const char *letters, size_t most) {
    size_t kinds = strlen(letters);
    size_t lists = 1;
    for (size_t len = 1; len <= most; len += 1) {
        lists *= kinds;
        for (size_t list = 0; list < lists; list += 1) {
            char word[8] = {0};
            for (size_t at = 0, rest = list; at < len; at += 1, rest /= kinds) {
                word[at] = letters[rest % kinds];
            }
            expect_as_ruled(word);
        }
    }
}

/* Worked by hand. The record directly before decides; 11 comes before 18, and 12 behind it. */
static void worked_lists_are_judged(void) {
    static const struct {
        const char *letters;
        uint32_t number;
        uint32_t at;
    } worked[] = {
        {"MZL", 18, 2},    {"MZQ", 18, 2},   {"MZC", 18, 2},  {"MLZZL", 18, 4},
        {"MZMLZL", 18, 5}, {"MZZ", 0, 3},    {"MZM", 0, 3},   {"MLZML", 0, 5},
        {"MZMLL", 0, 5},   {"MZZMCZ", 0, 6}, {"Z", 11, 0},    {"ZL", 11, 0},
        {"MZZl", 18, 3},   {"MZm", 12, 2},   {"mZL", 12, 0},  {"MlZL", 12, 1},
        {"MZLl", 18, 2},   {"MZLZC", 18, 2},
    };
    for (size_t each = 0; each < LENGTH(worked); each += 1) {
        uint32_t at;
        uint32_t number = ruled(worked[each].letters, &at);
        check(number == worked[each].number && at == worked[each].at, worked[each].letters);
        expect_as_ruled(worked[each].letters);
    }
}

/* A record behind a Close: cut anywhere, of a wrong kind or length, whole, with a byte behind. */
static void faults_of_a_record_come_in_order(void) {
    for (unsigned kind = 2; kind <= 4; kind += 1) {
        List list = list_of("MZ");
        size_t start = list.len;
        put_record(&list, kind, 1, NAN);
        for (size_t len = start + 1; len < list.len; len += 1) {
            List cut = list;
            cut.len = len;
            expect_record_refused(&cut, MZ_CUT, 2);
        }
        List wrong = list;
        wrong.bytes[start + 2] = 6;
        expect_record_refused(&wrong, MZ_KIND, 2);
        wrong.bytes[start + 2] = (uint8_t)kind;
        wrong.bytes[start] += 1;
        expect_record_refused(&wrong, MZ_LENGTH, 2);
        wrong.len = start + 4;
        expect_record_refused(&wrong, MZ_LENGTH, 2);
        expect_record_refused(&list, MZ_AFTER_CLOSE, 2);
        list.len += 1;
        expect_record_refused(&list, MZ_AFTER_CLOSE, 2);
    }
}

/* 6 comes before 18; a point that is too far by the offset alone comes behind it. */
static void offsets_are_judged_in_order(void) {
    List list = list_of("MZ");
    line_to(&list, 4096, 0);
    MzLabel label = mz_label(4, 3);
    label.offset_x = 1.0f / 256;
    expect_refusal(call_for(&list, label), MZ_AFTER_CLOSE, 2);
    MzPlacement placed = mz_placement(list.bytes, list.len, mz_identity(), 1.0f / 256, 0, false);
    expect_no_place(placed, MZ_AFTER_CLOSE, 2);
    placed = mz_placement(list.bytes, list.len, mz_identity(), NAN, 0, false);
    expect_no_place(placed, MZ_FLOAT, 0);
    MzBounds bounds = mz_bounds(list.bytes, list.len, mz_scale(INFINITY, 1));
    check(bounds.number == MZ_FLOAT && bounds.index == 0, "bounds: 6 before 18");
}

/* ---- the processor's flags, which a caller may let trap */

static void lower_flags(void) { _mm_setcsr(_mm_getcsr() & ~(unsigned)_MM_EXCEPT_MASK); }

static bool raised(unsigned flags) { return (_mm_getcsr() & flags) != 0; }

/* 6 is told with nothing computed of what is not finite: the processor's flag for an invalid operation stays down, so that
   a caller who lets it trap is answered too. */
static void what_is_not_finite_raises_no_flag(void) {
    static const float endless[] = {INFINITY, -INFINITY, NAN};
    List list = rectangle();
    for (size_t at = 0; at < LENGTH(endless); at += 1) {
        lower_flags();
        MzLabel label = mz_label(4, 3);
        label.transform.xx = endless[at];
        expect_refusal(call_for(&list, label), MZ_FLOAT, 0);
        label = mz_label(4, 3);
        label.offset_x = endless[at];
        expect_refusal(call_for(&list, label), MZ_FLOAT, 0);
        expect_no_place(
            mz_placement(list.bytes, list.len, mz_identity(), 0, endless[at], false), MZ_FLOAT, 0);
        check(!raised(_MM_EXCEPT_INVALID), "no invalid operation before a 6");
    }
}

/* Under the identity nothing is rounded before a coordinate is cut or a side brought to a whole number, and both go by the
   float's bits: no fraction raises one of the processor's flags, and a caller who lets an inexact result trap is answered. */
static void fractions_raise_no_flag(void) {
    static const struct {
        float side;
        int32_t down;
    } cases[] = {
        {1.25f, 1}, {0.1f, 0}, {0, 0}, {-0.1f, -1}, {-1.25f, -2}, {-3, -3}, {4096.00341796875f, 4096},
    };
    for (size_t at = 0; at < LENGTH(cases); at += 1) {
        float side = cases[at].side;
        int32_t down = cases[at].down;
        List list = one_move(side, side);
        lower_flags();
        MzPlacement placed = mz_placement(list.bytes, list.len, mz_identity(), 0, 0, false);
        MzBounds box = mz_bounds(list.bytes, list.len, mz_identity());
        line_to(&list, 3.3f, 2.7f);
        Call call = call_of(&list, 4, 3);
        MzDrawn drawn = draw(&call);
        check(!raised(_MM_EXCEPT_MASK), "no flag for a fraction");
        check(placed.number == MZ_ACCEPTED, "a fraction is placed");
        check(placed.left == down && placed.top == down, "a fraction's left and top");
        check(placed.width == (side == (float)down ? 0u : 1u), "a fraction's width");
        check(placed.offset_x == (float)-down && placed.offset_y == (float)-down,
              "a fraction's offset");
        check(box.number == MZ_ACCEPTED, "a fraction has a box");
        check(box.min_x == side && box.max_y == side, "a fraction's box");
        check(drawn.number == MZ_ACCEPTED, "a fraction is drawn");
    }
}

/* A coordinate that is too far ends the reading: what stands behind it, in its point or its record, is not computed. Here 0.1
   would be added to 1, which is rounded, and infinity multiplied by 0, which is no number. */
static void nothing_is_computed_behind(float far_one) {
    MzLabel label = mz_label(4, 3);
    label.offset_y = 1;
    List list = one_move(far_one, 0.1f);
    lower_flags();
    expect_refusal(call_for(&list, label), MZ_POINT, 0);
    MzPlacement placed = mz_placement(list.bytes, list.len, mz_identity(), 0, 1, false);
    expect_no_place(placed, MZ_POINT, 0);
    check(!raised(_MM_EXCEPT_MASK), "no flag behind a far x");
    for (unsigned kind = 3; kind <= 4; kind += 1) {
        list = one_move(0, 0);
        put_header(&list, kind);
        put_float(&list, far_one);
        put_float(&list, 0);
        for (unsigned at = 2; at < floats_of[kind]; at += 1) {
            put_float(&list, INFINITY);
        }
        lower_flags();
        expect_refusal(call_for(&list, mz_label(4, 3)), MZ_POINT, 1);
        expect_no_box(list.bytes, list.len, MZ_POINT, 1);
        check(!raised(_MM_EXCEPT_MASK), "no flag behind a far point");
    }
}

static void nothing_is_computed_behind_a_far_coordinate(void) {
    static const float far_ones[] = {4097, -4097, 65535.5f, 65536, 1e31f};
    for (size_t at = 0; at < LENGTH(far_ones); at += 1) {
        nothing_is_computed_behind(far_ones[at]);
    }
    /* A scale rounds y before the offset is added. */
    MzLabel label = mz_label(4, 3);
    label.transform = mz_scale(3, 3);
    List list = one_move(1366, 0.1f);
    lower_flags();
    expect_refusal(call_for(&list, label), MZ_POINT, 0);
    check(!raised(_MM_EXCEPT_MASK), "no flag behind a far x that is scaled");
}

/* Whichever rows are drawn, or none, upward too. With no room for a place 18 comes before 13. */
static void bands_are_refused_with_18(void) {
    List list = rectangle();
    line_to(&list, 2, 2);
    MzLabel label = mz_label(4, 3);
    for (label.first = 0; label.first <= 3; label.first += 1) {
        for (label.end = label.first; label.end <= 3; label.end += 1) {
            label.up = !label.up;
            Call call = call_for(&list, label);
            expect_refusal(call, MZ_AFTER_CLOSE, 5);
            call.words_len = label.end - label.first;
            expect_refusal(call, MZ_AFTER_CLOSE, 5);
        }
    }
}

/* A LineTo ends the longest list, behind as many Closes as there is room for; a byte more is 7. */
static void the_longest_list_ends_behind_a_close(void) {
    static uint8_t bytes[MZ_MOST_LIST + 1];
    List list = list_of("MZL");
    fill_with_closes(bytes);
    memcpy(bytes + MZ_MOST_LIST - 12, list.bytes + 16, 12);
    Call call = call_of(&list, 4, 3);
    call.list = bytes;
    call.list_len = MZ_MOST_LIST;
    expect_refusal(call, MZ_AFTER_CLOSE, 16379);
    expect_no_box(bytes, MZ_MOST_LIST, MZ_AFTER_CLOSE, 16379);
    call.list_len += 1;
    expect_refusal(call, MZ_LIST, 0);
    expect_no_box(bytes, MZ_MOST_LIST + 1, MZ_LIST, 0);
}

/* K1 closed twice, which changes nothing, and another rectangle. */
static void figures_behind_a_close_are_drawn(void) {
    static const uint8_t bytes[12] = {255, 0, 0, 0, 0, 255, 255, 0, 0, 0, 0, 0};
    List list = rectangle();
    close_path(&list);
    put_rectangle(&list, 0, 0, 1, 1);
    Call call = call_of(&list, 4, 3);
    Call in_bands = call;
    MzDrawn drawn = draw(&call);
    check(answers(drawn, 11, 4), "behind a Close: answer");
    check(masked(&call, bytes, LENGTH(bytes)) && wiped(&call), "behind a Close: mask and words");
    drawn = draw_in_bands(&in_bands, 2);
    check(answers(drawn, 11, 4), "behind a Close, in bands: answer");
    check(masked(&in_bands, bytes, LENGTH(bytes)), "behind a Close, in bands: mask");
}

static void nothing_is_drawn_after_close(void) {
    every_list_is_judged("MLQCZmlqc", 4);
    every_list_is_judged("MLZ", 6);
    worked_lists_are_judged();
    faults_of_a_record_come_in_order();
    offsets_are_judged_in_order();
    sizes_and_floats_are_refused(list_of("MZL"));
    bands_are_refused_with_18();
    the_longest_list_ends_behind_a_close();
    figures_behind_a_close_are_drawn();
}

/* ---- how many coordinates are cut */

static bool is_cut(MzDrawn drawn, uint32_t cut) {
    return drawn.number == MZ_ACCEPTED && drawn.index == 0 && drawn.cut == cut;
}

/* The label's rows at once, and in bands of every height. */
static void expect_cut_in_rows(Call call, uint32_t cut, const char *what) {
    size_t rows = call.label.end - call.label.first;
    MzDrawn drawn = draw(&call);
    check(is_cut(drawn, cut), what);
    for (size_t step = 0; step <= rows + 1; step += 1) {
        drawn = draw_in_bands(&call, step);
        check(is_cut(drawn, cut), what);
    }
}

/* Any rows of the label, or none, down or upward, and its placement. */
static void expect_cut(Call call, uint32_t cut, const char *what) {
    MzLabel *label = &call.label;
    for (label->first = 0; label->first <= label->height; label->first += 1) {
        for (label->end = label->first; label->end <= label->height; label->end += 1) {
            label->up = !label->up;
            expect_cut_in_rows(call, cut, what);
        }
    }
    for (int up = 0; up <= 1; up += 1) {
        MzPlacement placed = mz_placement(call.list, call.list_len, label->transform,
                                          label->offset_x, label->offset_y, up == 1);
        check(placed.number == MZ_ACCEPTED && placed.index == 0 && placed.cut == cut, what);
    }
}

/* A number worked by hand. */
static void expect_worked_cut(List list, MzLabel label, uint32_t cut, const char *what) {
    check(ruled_cut(&list, label) == cut, what);
    expect_cut(call_for(&list, label), cut, what);
}

/* One point, whose x becomes x*xx + y*yx + offset_x; every product and every sum is rounded. */
static void worked_points_are_cut(void) {
    static const struct {
        float x;
        float y;
        float xx;
        float yx;
        float offset_x;
        uint32_t cut;
    } worked[] = {
        {-0.003f, -0.00390625f, 1, 0, 0, 1},
        {-0.0f, 1e-45f, 1, 0, 0, 1},
        {-1e-45f, -0.0f, 1, 0, 0, 1},
        {0.5f, 1.00390625f, 1, 0, 0, 0},
        {0.1f, 0.1f, 1, 0, 0, 2},
        {4096.00341796875f, -4096.00341796875f, 1, 0, 0, 2},
        {4096, -4096, 1, 0, 0, 0},
        {1, 2, 1, 0, 1.0f / 512, 1},
        {1.001953125f, 2, 1, 0, 0, 1},
        {1.001953125f, 2, 1, 0, -1.0f / 512, 0},
        {2048.000244140625f, 2, 1, 0, 0, 1},
        {2048.000244140625f, 2, 1, 0, 2048, 0}, /* rounded to 4096 */
        {1e-45f, 2, 1, 0, 0.5f, 0},             /* to 0.5 */
        {1, 2, 1.0f / 256, 0, 0, 0},
        {1, 2, 1.0f / 512, 0, 0, 1},
        {0.1f, 2, 0, 0, 0, 0},
        {1.0f / 3, -1, 1, 0, 0, 1},
        {1.0f / 3, -1, 3, 1, 0, 0}, /* the product to 1 */
    };
    for (size_t each = 0; each < LENGTH(worked); each += 1) {
        MzLabel label = mz_label(4, 3);
        label.transform.xx = worked[each].xx;
        label.transform.yx = worked[each].yx;
        label.offset_x = worked[each].offset_x;
        List list = one_move(worked[each].x, worked[each].y);
        expect_worked_cut(list, label, worked[each].cut, "a point by hand: cut");
    }
}

/* A -0.0 stays one only where transform and offset have it too. */
static void negative_zeros_are_not_cut(void) {
    MzLabel label = mz_label(4, 3);
    label.transform = mz_translation(-0.0f, -0.0f);
    label.offset_x = label.offset_y = -0.0f;
    expect_worked_cut(one_move(-0.0f, -0.0f), label, 0, "negative zeros: cut");
}

/* K1 and K2, which lie on the grid; K1 moved off it by its offset, by its transform, by both. */
static void worked_rectangles_are_cut(void) {
    MzLabel label = mz_label(4, 3);
    expect_worked_cut(rectangle(), label, 0, "K1: cut");
    expect_worked_cut(rectangle_of(1.5f, 1, 2, 2), label, 0, "K2: cut");
    label.offset_x = 1.0f / 512;
    expect_worked_cut(rectangle(), label, 4, "K1 with an x off the grid");
    label.offset_y = 1.0f / 512;
    expect_worked_cut(rectangle(), label, 8, "K1 with an x and a y off the grid");
    label.transform = mz_translation(1.0f / 512, 0);
    expect_worked_cut(rectangle(), label, 4, "K1 moved onto the grid again");
    label.offset_x = label.offset_y = 0;
    expect_worked_cut(rectangle(), label, 4, "K1 with a transform off the grid");
    memset(&label.transform, 0, sizeof label.transform);
    expect_worked_cut(rectangle_of(1.1f, 1.1f, 3.1f, 2.1f), label, 0, "zeros leave nothing to cut");
}

/* Each coordinate of each kind of record by itself, control points too. */
static void every_coordinate_counts(void) {
    for (unsigned kind = 1; kind < LENGTH(floats_of); kind += 1) {
        for (unsigned at = 0; at < floats_of[kind]; at += 1) {
            expect_worked_cut(one_far_float(kind, at, 0.1f), mz_label(4, 3), 1, "one of a record");
        }
    }
}

/* A point counts as often as the list has it, and a figure that no row shows. */
static void every_point_counts(void) {
    List list = one_move(0.1f, 0.1f);
    line_to(&list, 0.1f, 0.1f);
    close_path(&list);
    close_path(&list);
    move_to(&list, 0.1f, 0.1f);
    expect_worked_cut(list, mz_label(4, 3), 6, "a point again and again");
    list = rectangle_of(-9.1f, -9.1f, -8.1f, -8.1f);
    put_rectangle(&list, 9.1f, 9.1f, 8.1f, 8.1f);
    expect_worked_cut(list, mz_label(4, 3), 16, "figures beside the label");
}

/* 14,042 coordinates; a Close fits behind them, and with a byte more it is 7. */
static void the_most_coordinates_are_cut(void) {
    static uint8_t bytes[MZ_MOST_LIST + 1];
    List list = one_move(0.1f, 0.1f);
    put_header(&list, 4);
    for (int part = 0; part < 6; part += 1) {
        put_float(&list, 0.1f);
    }
    close_path(&list);
    memcpy(bytes, list.bytes, 12);
    for (size_t at = 12; at < MZ_MOST_LIST - 4; at += 28) {
        memcpy(bytes + at, list.bytes + 12, 28);
    }
    memcpy(bytes + MZ_MOST_LIST - 4, list.bytes + 40, 4);
    Call call = call_of(&list, 4, 3);
    call.list = bytes;
    call.list_len = MZ_MOST_LIST - 4;
    expect_cut(call, 14042, "the most coordinates");
    call.list_len = MZ_MOST_LIST;
    expect_cut(call, 14042, "the most coordinates, closed");
    call.list_len = MZ_MOST_LIST + 1;
    expect_refusal(call, MZ_LIST, 0);
    expect_no_box(bytes, MZ_MOST_LIST + 1, MZ_LIST, 0);
}

static MzLabel label_by_dice(uint32_t *state) {
    static const float entries[] = {0, 1, -1, 0.5f, 2, 0.375f, 0.1f};
    MzLabel label = mz_label(4, 3);
    label.transform.xx = entries[dice(state, LENGTH(entries))];
    label.transform.xy = entries[dice(state, LENGTH(entries))];
    label.transform.yx = entries[dice(state, LENGTH(entries))];
    label.transform.yy = entries[dice(state, LENGTH(entries))];
    label.transform.x = (float)dice(state, 4) / 512;
    label.transform.y = (float)dice(state, 4) / 512;
    label.offset_x = (float)dice(state, 4) / 512;
    label.offset_y = (float)dice(state, 4) / 512;
    return label;
}

static void lists_by_dice_are_cut(void) {
    uint32_t state = 2;
    for (int each = 0; each < 500; each += 1) {
        List list = list_by_dice(&state);
        MzLabel label = label_by_dice(&state);
        expect_cut(call_for(&list, label), ruled_cut(&list, label), "a list by dice: cut");
    }
}

/* An empty list's offset is no coordinate, also where the point rule refuses it. */
static void empty_lists_are_not_cut(void) {
    MzLabel label = mz_label(4, 3);
    label.offset_x = label.offset_y = 0.1f;
    expect_worked_cut(empty_list(), label, 0, "an empty list: cut");
    MzPlacement placed = mz_placement(NULL, 0, mz_identity(), 0.1f, 4096.1f, false);
    expect_no_place(placed, MZ_POINT, 0);
}

/* All coordinates are off the grid, and every refusal tells none. */
static void refusals_tell_no_cut(void) {
    List list = rectangle_of(1.1f, 1.1f, 3.1f, 2.1f);
    sizes_and_floats_are_refused(list);
    records_are_refused(list);
    Call call = call_of(&list, 4, 3);
    call.words_len = 3;
    expect_refusal(call, MZ_ROOM, 2);
    MzPlacement placed = mz_placement(list.bytes, list.len, mz_identity(), 0, INFINITY, false);
    expect_no_place(placed, MZ_FLOAT, 0);
    placed = mz_placement(list.bytes, list.len, mz_identity(), 4094, 0, true);
    expect_no_place(placed, MZ_POINT, 1);
}

static void cut_coordinates_are_counted(void) {
    worked_points_are_cut();
    negative_zeros_are_not_cut();
    worked_rectangles_are_cut();
    every_coordinate_counts();
    every_point_counts();
    the_most_coordinates_are_cut();
    lists_by_dice_are_cut();
    empty_lists_are_not_cut();
    refusals_tell_no_cut();
}

static void rules_examples(void) {
    k1_rectangle();
    k1_band_upward();
    k1_in_bands();
    bands_need_less_room();
    k8_lone_move();
    k11_placement();
    the_largest_placement();
    length_0_takes_any_pointer();
}

static void refusals(void) {
    sizes_and_floats_are_refused(rectangle());
    the_longest_list_is_read();
    the_largest_sizes_are_accepted();
    the_largest_label_is_drawn();
    the_last_row_is_filled();
    the_most_cells_are_drawn();
    the_fullest_rows_fit_by_three();
    records_are_refused(rectangle());
    every_point_is_judged();
    points_are_judged_with_the_offset();
}

int main(int argc, char **argv) {
    if (argc != 2) {
        fprintf(stderr, "usage: test WORKED, the folder bindings/worked\n");
        return 2;
    }
    slanted(argv[1]);
    transforms();
    slanted_line_is_placed();
    label_is_whole();
    label_of_zeros_draws_nothing();
    refusals_have_words();
    words_are_counted();
    version_is_one();
    rules_examples();
    refusals();
    what_is_not_finite_raises_no_flag();
    fractions_raise_no_flag();
    nothing_is_computed_behind_a_far_coordinate();
    the_record_without_room_is_named();
    nothing_is_drawn_after_close();
    cut_coordinates_are_counted();
    printf("C face: %d checks, %d differ\n", checks, failures);
    return failures == 0 ? 0 : 1;
}
