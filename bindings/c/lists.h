/* Path lists, written record by record, for test.c. */

#ifndef LISTS_H
#define LISTS_H

#include <math.h>
#include <stddef.h>
#include <stdint.h>
#include <string.h>

/* A path list that grows at its end. */
typedef struct List {
    uint8_t bytes[2048];
    size_t len;
} List;

static void put_u16(List *list, unsigned number) {
    list->bytes[list->len++] = (uint8_t)(number % 256);
    list->bytes[list->len++] = (uint8_t)(number / 256);
}

static void put_float(List *list, float part) {
    uint32_t bits;
    memcpy(&bits, &part, sizeof bits);
    put_u16(list, bits % 65536);
    put_u16(list, bits / 65536);
}

static void put_point(List *list, unsigned kind, float x, float y) {
    put_u16(list, 10);
    put_u16(list, kind);
    put_float(list, x);
    put_float(list, y);
}

static void move_to(List *list, float x, float y) { put_point(list, 1, x, y); }

static void line_to(List *list, float x, float y) { put_point(list, 2, x, y); }

static void close_path(List *list) {
    put_u16(list, 2);
    put_u16(list, 5);
}

static List empty_list(void) {
    List list;
    memset(&list, 0, sizeof list);
    return list;
}

static List one_move(float x, float y) {
    List list = empty_list();
    move_to(&list, x, y);
    return list;
}

/* In the order of K1: right along the top first. */
static void put_rectangle(List *list, float left, float top, float right, float bottom) {
    move_to(list, left, top);
    line_to(list, right, top);
    line_to(list, right, bottom);
    line_to(list, left, bottom);
    close_path(list);
}

static List rectangle_of(float left, float top, float right, float bottom) {
    List list = empty_list();
    put_rectangle(&list, left, top, right, bottom);
    return list;
}

/* K1's rectangle. */
static List rectangle(void) { return rectangle_of(1, 1, 3, 2); }

/* How many floats a record of each kind has; there is no kind 0. */
static const unsigned floats_of[] = {0, 2, 2, 4, 6, 0};

/* A record's length and kind. */
static void put_header(List *list, unsigned kind) {
    put_u16(list, 2 + 4 * floats_of[kind]);
    put_u16(list, kind);
}

/* A record of this kind, of whose floats one is `far` and the others are 0. */
static void put_record(List *list, unsigned kind, unsigned far_one, float far) {
    put_header(list, kind);
    for (unsigned at = 0; at < floats_of[kind]; at += 1) {
        put_float(list, at == far_one ? far : 0);
    }
}

/* MoveTo (0, 0) and such a record. */
static List one_far_float(unsigned kind, unsigned far_one, float far) {
    List list = one_move(0, 0);
    put_record(&list, kind, far_one, far);
    return list;
}

/*
 * A record for each letter, which are SVG's: M, L, Q, C, and Z for Close. A small one has a NaN in
 * its first point.
 */
static List list_of(const char *letters) {
    static const char kinds[] = "MLQCZmlqc";
    List list = empty_list();
    for (; *letters != '\0'; letters += 1) {
        unsigned at = (unsigned)(strchr(kinds, *letters) - kinds);
        put_record(&list, 1 + at % 5, 0, at < 5 ? 0 : NAN);
    }
    return list;
}

static float float_at(const List *list, size_t at) {
    const uint8_t *bytes = list->bytes + at;
    uint32_t bits = bytes[0] + 256u * bytes[1] + 65536u * bytes[2] + 16777216u * bytes[3];
    float part;
    memcpy(&part, &bits, sizeof part);
    return part;
}

/* A number below `sides`, the same in each run. */
static unsigned dice(uint32_t *state, unsigned sides) {
    *state = *state * 1664525u + 1013904223u;
    return (*state >> 16) % sides;
}

/*
 * Up to 13 records of any kind that may stand there, with coordinates from -8 to 8 in halves of
 * 1/256: one of two lies off the grid.
 */
static List list_by_dice(uint32_t *state) {
    List list = empty_list();
    unsigned kind = 5;
    for (unsigned more = dice(state, 13) + 1; more > 0; more -= 1) {
        kind = kind == 5 ? 1 : 1 + dice(state, 5);
        put_header(&list, kind);
        for (unsigned at = 0; at < floats_of[kind]; at += 1) {
            put_float(&list, ((float)dice(state, 8193) - 4096) / 512);
        }
    }
    return list;
}

/*
 * Four rows of 4096 columns with a place in each, and with left = -1 one in the column before them:
 * lines up and down, of 128 columns each, so steep that none leaves a column without cover.
 */
static List every_place_of_four_rows(float left) {
    List list = empty_list();
    for (int row = 0; row < 4; row += 1) {
        move_to(&list, left, (float)row);
        for (int part = 1; part <= 32; part += 1) {
            float down = part % 2 == 1 ? 255.0f / 256 : 0;
            line_to(&list, (float)(128 * part), (float)row + down);
        }
    }
    return list;
}

#endif
