/*
 * Operations on regions, ours beside pixman's, for callgrind to count. regions.sh builds and runs this.
 *
 * Each operation is done in a function of its own, ours_* (regions.rattle) or theirs_* (below), into
 * which no compiler sees from outside, and callgrind counts in these functions alone. A call does the
 * same operation TURNS times and another call 2 * TURNS times: the difference over TURNS is what one
 * operation takes, and building the operands and handing over the result fall out. A turn of ours makes
 * a new region. A turn of pixman writes over the result of the turn before, so that it asks for memory
 * only where it does for any result of that size. Callgrind writes a dump for each call, and names it
 * by case, side and turns.
 *
 * The boxes of both sides are compared. Written to stdout is a line for each case, with tabs between:
 * its number, what the operands are, the operation, how many boxes the first operand has, the second,
 * the exact result and our result, and how many instructions ours may take (0: no target).
 */
#include <pixman.h>
#include <stddef.h>
#include <stdint.h>
#include <stdio.h>
#include <stdlib.h>
#include <valgrind/callgrind.h>

enum { MOST = 32, TURNS = 8 };

/* The operand of a case: rectangles that are joined one by one. */
struct rect { uint16_t x, y, w, h; };
struct shape { size_t count; struct rect rects[MOST]; };

/* Our boxes: left, top, right and bottom of each. */
struct boxes { size_t count; uint16_t edges[4 * MOST]; };

typedef size_t our_side(const uint16_t *a, size_t a_len, const uint16_t *b, size_t b_len,
                        const uint8_t *turns, size_t turns_len, uint16_t *out, size_t out_len);
typedef void their_side(pixman_region16_t *out, pixman_region16_t *a, pixman_region16_t *b, size_t turns);

our_side ours_join, ours_cut, ours_take_away;

#define THEIRS(NAME, OPERATION)                                                                    \
    __attribute__((noipa)) void NAME(pixman_region16_t *out, pixman_region16_t *a,                 \
                                     pixman_region16_t *b, size_t turns)                           \
    {                                                                                              \
        for (size_t i = 0; i < turns; i++)                                                         \
            if (!OPERATION(out, a, b))                                                             \
                abort();                                                                           \
    }

THEIRS(theirs_join, pixman_region_union)
THEIRS(theirs_cut, pixman_region_intersect)
THEIRS(theirs_take_away, pixman_region_subtract)

static const struct operation { const char *name; our_side *ours; their_side *theirs; }
    join = { "join", ours_join, theirs_join },
    cut = { "cut", ours_cut, theirs_cut },
    take_away = { "take away", ours_take_away, theirs_take_away };

/* Shapes. */

static struct shape one(uint16_t x, uint16_t y, uint16_t w, uint16_t h)
{
    return (struct shape){ 1, { { x, y, w, h } } };
}

/* Three bands: two boxes, one below them that touches both, and two further down. */
static struct shape five(void)
{
    return (struct shape){ 5, { { 20, 20, 60, 40 }, { 120, 20, 60, 40 }, { 40, 60, 120, 40 },
                                { 20, 120, 40, 40 }, { 100, 120, 40, 40 } } };
}

/* 32 equal rectangles, the first at (x, y): `columns` side by side in each row. */
static struct shape rows(int columns, int x, int y, int w, int h, int step_x, int step_y)
{
    struct shape s = { MOST, { { 0 } } };
    for (int i = 0; i < MOST; i++)
        s.rects[i] = (struct rect){ x + i % columns * step_x, y + i / columns * step_y, w, h };
    return s;
}

static struct shape grid(int shift) { return rows(8, shift, 2 * shift, 20, 40, 32, 64); }
static struct shape stripes(int shift) { return rows(MOST, shift, 100, 4, 50, 8, 0); }
static struct shape upright(void) { return rows(MOST, 0, 0, 4, 256, 8, 0); }
static struct shape level(int x, int w) { return rows(1, x, 0, w, 4, 0, 8); }

static struct shape diagonal(int shift, int side, int step)
{
    struct shape s = { MOST, { { 0 } } };
    for (int i = 0; i < MOST; i++)
        s.rects[i] = (struct rect){ i * step + shift, i * step + shift, side, side };
    return s;
}

/* Both sides of a case. */

static struct boxes turn_ours(our_side *f, const struct shape *a, const struct shape *b, size_t turns)
{
    static const uint8_t zeros[2 * TURNS];
    struct boxes r;
    r.count = f((const uint16_t *)a->rects, 4 * a->count, (const uint16_t *)b->rects, 4 * b->count, zeros, turns,
                r.edges, 4 * MOST);
    return r;
}

static void build_theirs(pixman_region16_t *out, const struct shape *s)
{
    pixman_region_init(out);
    for (const struct rect *r = s->rects; r < s->rects + s->count; r++)
        if (!pixman_region_union_rect(out, out, r->x, r->y, r->w, r->h))
            abort();
}

static int is_box(const uint16_t *edges, const pixman_box16_t *b)
{
    return edges[0] == b->x1 && edges[1] == b->y1 && edges[2] == b->x2 && edges[3] == b->y2;
}

/* Ours has the boxes of pixman's region or, where these are too many, their covering box. */
static void compare(const char *what, const char *which, const struct boxes *ours, pixman_region16_t *theirs)
{
    int count;
    size_t same = 0;
    const pixman_box16_t *boxes = pixman_region_rectangles(theirs, &count);
    if (count > MOST) {
        boxes = pixman_region_extents(theirs);
        count = 1;
    }
    while (same < ours->count && same < (size_t)count && is_box(ours->edges + 4 * same, boxes + same))
        same++;
    if (same == ours->count && same == (size_t)count)
        return;
    fprintf(stderr, "regions: %s, %s: ours has %zu boxes, pixman's %d; the first %zu are the same\n", what, which,
            ours->count, count, same);
    exit(1);
}

static void compare_operand(const char *what, const struct shape *s, pixman_region16_t *theirs)
{
    const struct shape none = { 0, { { 0 } } };
    const struct boxes ours = turn_ours(ours_join, s, &none, 1);
    compare(what, "an operand", &ours, theirs);
}

static void dump(int number, const char *side, size_t turns)
{
    char name[64];
    snprintf(name, sizeof name, "%d %s %zu", number, side, turns);
    CALLGRIND_DUMP_STATS_AT(name);
}

static void measure(const char *what, struct shape a, const struct operation *op, struct shape b, int target)
{
    static int number;
    pixman_region16_t first, second, out;
    struct boxes made;

    number++;
    build_theirs(&first, &a);
    build_theirs(&second, &b);
    compare_operand(what, &a, &first);
    compare_operand(what, &b, &second);
    pixman_region_init(&out);
    op->theirs(&out, &first, &second, 1);

    for (size_t turns = TURNS; turns <= 2 * TURNS; turns += TURNS) {
        CALLGRIND_ZERO_STATS;
        made = turn_ours(op->ours, &a, &b, turns);
        dump(number, "ours", turns);
        compare(what, op->name, &made, &out);

        CALLGRIND_ZERO_STATS;
        op->theirs(&out, &first, &second, turns);
        dump(number, "theirs", turns);
    }
    printf("%d\t%s\t%s\t%d\t%d\t%d\t%zu\t%d\n", number, what, op->name, pixman_region_n_rects(&first),
           pixman_region_n_rects(&second), pixman_region_n_rects(&out), made.count, target);

    pixman_region_fini(&first);
    pixman_region_fini(&second);
    pixman_region_fini(&out);
}

static void measure_all(const char *what, struct shape a, struct shape b, int target)
{
    measure(what, a, &join, b, target);
    measure(what, a, &cut, b, target);
    measure(what, a, &take_away, b, target);
}

int main(void)
{
    /* From the middle of the first band to that of the second, over the right end of a box in each. */
    measure("5 boxes, a rectangle over two bands", five(), &join, one(150, 40, 70, 40), 3000);
    measure("5 boxes, a rectangle inside one", five(), &join, one(60, 70, 40, 20), 0);
    measure_all("grids of 8 x 4, shifted", grid(0), grid(10), 20000);
    measure_all("diagonals, interleaved, apart", diagonal(0, 4, 8), diagonal(4, 4, 8), 20000);
    measure_all("diagonals, interleaved, overlapping", diagonal(0, 5, 7), diagonal(3, 5, 7), 20000);
    measure_all("stripes of one band, shifted by 1", stripes(0), stripes(1), 20000);
    measure_all("level stripes, upright stripes", level(0, 256), upright(), 20000);
    measure_all("upright stripes, dashes between two", upright(), level(5, 2), 0);
    measure("grid of 8 x 4, a rectangle", grid(0), &take_away, one(100, 60, 70, 120), 0);
    measure("grid of 8 x 4, a rectangle", grid(0), &cut, one(100, 60, 70, 120), 0);
    return 0;
}
