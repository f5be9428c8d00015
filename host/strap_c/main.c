/* Walks a strap and times it, says where the knife is at each tenth of a second, and finds the speed for a corner:
 * host/run strap_c. host/strap is the same in Rust, and prints the same. docs/RULES.md works some of its figures out by
 * hand. */
#include <stdio.h>
#include <stdlib.h>

#include "malikoza.h"

enum { STATIONS = 12, PLACES = 64, ROWS = 3 };

/* Where the cut file has stations, in mm along the strap. */
static const double s[STATIONS] = {0, 5, 12.5, 25, 42.5, 60, 72.5, 80, 87.5, 100, 117.5, 137.5};

/* The caps there in mm/s: low where the cut begins, and in a corner at 80 mm. */
static const double caps[STATIONS] = {20, 20, 80, 80, 80, 80, 80, 20, 80, 80, 80, 80};

/* An array of doubles is a byte list as it stands. */
#define LIST(array) (const uint8_t *)(array), sizeof(array)
#define ROOM(array) (uint8_t *)(array), sizeof(array)

static void must(uint64_t refusal) {
    if (refusal != 0) {
        fprintf(stderr, "%s\n", malikoza_refusal_text(refusal));
        exit(1);
    }
}

static double root(double x) { return malikoza_double(malikoza_sqrt(malikoza_pattern(x))); }

static double lesser(double x, double y) {
    return malikoza_double(malikoza_minimum(malikoza_pattern(x), malikoza_pattern(y)));
}

/* A walk that begins with this squared speed, between 0 and cap, and whose rows may be exceeded by feas_tol. */
static malikoza_walk walk_from(double feas_tol, double speed, double cap) {
    const uint64_t zero = malikoza_pattern(0), top = malikoza_pattern(cap), tolerance = malikoza_pattern(1e-9);
    malikoza_walk walk;
    malikoza_walk_start(malikoza_pattern(feas_tol), tolerance, tolerance, malikoza_pattern(speed), zero, top, top,
                        &walk);
    return walk;
}

/* A step to a station whose interval is 0 to upper. */
static uint64_t walk_to(malikoza_walk *walk, double upper, double cap, const uint8_t *rows, size_t rows_len,
                        uint64_t *speed, uint64_t *tried) {
    uint64_t worst_normalized, worst_raw;
    return malikoza_walk_step(walk, malikoza_pattern(0), malikoza_pattern(upper), malikoza_pattern(cap), rows, rows_len,
                              speed, &worst_normalized, &worst_raw, tried);
}

/* By how much the squared speed changes at most on the way to station i: by 80 mm/s each second, up or down. */
static double change(int i) { return 2.0 * 80 * (s[i] - s[i - 1]); }

/* From the last station backward: the most from which the knife can still brake for what follows. */
static void find_upper(double upper[STATIONS]) {
    for (int i = 0; i < STATIONS; i++)
        upper[i] = caps[i] * caps[i];
    for (int i = STATIONS - 1; i > 0; i--)
        upper[i - 1] = lesser(upper[i - 1], upper[i] + change(i));
}

/* The squared speeds, from the first station forward: it starts from rest, and goes as fast as it may. The two rows say of
 * the speed x at a station that neither x - a_prev nor a_prev - x is above the greatest change. */
static void find_speeds(double a[STATIONS]) {
    double upper[STATIONS];
    find_upper(upper);
    a[0] = 0;
    /* No row may be exceeded: by 1e-9, say, the strap would end a hair before 3 s, and the grid have one time fewer. */
    malikoza_walk walk = walk_from(0, a[0], upper[0]);
    for (int i = 1; i < STATIONS; i++) {
        const double rows[2][3] = {{1, -1, change(i)}, {-1, 1, change(i)}};
        uint64_t speed, tried;
        must(walk_to(&walk, upper[i], caps[i] * caps[i], LIST(rows), &speed, &tried));
        a[i] = malikoza_double(speed);
    }
}

static void print_times(const double a[STATIONS], const double t[STATIONS]) {
    printf("The strap, station by station:\n\n   at mm    mm/s   after s\n");
    for (int i = 0; i < STATIONS; i++)
        printf("%8.1f%8.1f%10.2f\n", s[i], root(a[i]), t[i]);
}

static void print_places(const double a[STATIONS], const double t[STATIONS]) {
    const double step = 0.1;
    const size_t length = STATIONS * sizeof *a;
    double places[PLACES];
    uint64_t before, inside, past, written;
    must(malikoza_t_to_s_grid(LIST(s), (const uint8_t *)a, length, (const uint8_t *)t, length, malikoza_pattern(t[0]),
                              malikoza_pattern(step), 1, ROOM(places), &before, &inside, &past, &written));
    printf("\nWhere the knife is at each tenth of a second, the strap's end last:\n\n after s     at mm\n");
    for (int i = 0; i < (int)inside; i++)
        printf("%8.1f%10.2f\n", t[0] + i * step, places[i]);
    printf("%8.1f%10.2f\n", t[STATIONS - 1], places[written - 1]);
}

/* What the number of candidates tried tells. */
static const char *found_by(uint64_t tried) {
    if (tried == 1)
        return "the cap meets every row";
    if (tried == 2)
        return "the cap does not meet every row, but the most that the rows leave does";
    if (tried <= 6)
        return "neither the cap nor the most that the rows leave meets every row, but a double just below does";
    return "found by halving";
}

/* The corner is 7.5 mm on, and its cap is 30 mm/s. The walk here is a copy: each try begins before the corner. */
static void print_corner(malikoza_walk walk, double most) {
    const char *const why[ROWS] = {
        "at least 20 mm/s, or the web melts to a bead",
        "at most what the arm allows, or it shakes",
        "it brakes by at most 80 mm/s each second, over 7.5 mm",
    };
    const double rows[ROWS][3] = {{-1, 0, -(20.0 * 20)}, {1, 0, most * most}, {-1, 1, 2.0 * 80 * 7.5}};
    uint64_t speed, tried;
    const uint64_t refusal = walk_to(&walk, 80 * 80, 30 * 30, LIST(rows), &speed, &tried);
    printf("\nThe arm allows %g mm/s:\n\n coef_curr coef_prev       rhs\n", most);
    for (int i = 0; i < ROWS; i++)
        printf("%10g%10g%10g   %s\n", rows[i][0], rows[i][1], rows[i][2], why[i]);
    if (refusal == 0)
        printf("\n  take it at %.2f mm/s: %s (speeds tried: %d)\n", root(malikoza_double(speed)), found_by(tried),
               (int)tried);
    else
        printf("\n  no speed, %s\n", malikoza_refusal_text(refusal));
}

static void print_corners(void) {
    printf("\nThe knife comes at 40 mm/s, a squared speed of 1600, to a corner whose cap is 30 mm/s, squared 900.\n"
           "Each row says of the squared speed x in the corner: coef_curr * x + coef_prev * 1600 is at most rhs.\n");
    const malikoza_walk walk = walk_from(1e-9, 40 * 40, 80 * 80);
    print_corner(walk, 35);
    print_corner(walk, 25);
    print_corner(walk, 15);
}

int main(void) {
    double a[STATIONS], t[STATIONS];
    find_speeds(a);
    must(malikoza_s_to_t(LIST(s), LIST(a), malikoza_pattern(0), ROOM(t)));
    print_times(a, t);
    print_places(a, t);
    print_corners();
    return 0;
}
