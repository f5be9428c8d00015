/* What include/malikoza.h itself holds, tried under each compiler and standard: host/run header. It is C and C++ alike. */
#include <stdio.h>
#include <string.h>

#include "malikoza.h"

enum { STATIONS = 3 };

static int failed = 0;

static void expect(int holds, const char *what) {
    if (!holds) {
        printf("not so: %s\n", what);
        failed = 1;
    }
}

static void patterns(void) {
    expect(malikoza_pattern(1.0) == 0x3FF0000000000000, "the pattern of 1 is 3FF0000000000000");
    expect(malikoza_pattern(-0.0) == 0x8000000000000000, "minus zero keeps its sign");
    expect(malikoza_double(malikoza_pattern(0.1)) <= 0.1, "a pattern reads as its double");
    expect(malikoza_double(malikoza_pattern(0.1)) >= 0.1, "a pattern reads as its double");
    expect(malikoza_double(malikoza_sqrt(malikoza_pattern(25.0))) >= 5.0, "the root of 25 is 5");
}

static int is_known(uint64_t number) {
    return (number >= MALIKOZA_ROWS_LENGTH && number <= MALIKOZA_OUTPUT_TOO_SHORT) ||
           (number >= MALIKOZA_FILE_TOO_LONG && number <= MALIKOZA_KIND_ABSENT) || number == MALIKOZA_WALK_FULL;
}

/* Every refusal has a sentence that begins with its number; 0 and the numbers of none have words of their own. */
static void texts(void) {
    const char *unknown = "a refusal that this version does not know";
    char start[32];
    uint64_t number;
    for (number = 1; number < 100; number++) {
        const char *text = malikoza_refusal_text(number);
        snprintf(start, sizeof start, "refusal %d: ", (int)number);
        expect(is_known(number) ? strncmp(text, start, strlen(start)) == 0 : strcmp(text, unknown) == 0, start);
    }
    expect(strcmp(malikoza_refusal_text(0), "no refusal: the call was answered") == 0, "0 is no refusal");
}

static void calls(void) {
    const double s[STATIONS] = {0, 1, 3}, a[STATIONS] = {0, 4, 4};
    double t[STATIONS];
    const uint8_t *s_bytes = (const uint8_t *)s, *a_bytes = (const uint8_t *)a;
    uint8_t *t_bytes = (uint8_t *)t;
    uint64_t t0 = malikoza_pattern(10.0);
    uint64_t answered = malikoza_s_to_t(s_bytes, sizeof s, a_bytes, sizeof a, t0, t_bytes, sizeof t);
    uint64_t refused = malikoza_s_to_t(s_bytes, sizeof s, a_bytes, sizeof a - sizeof *a, t0, t_bytes, sizeof t);
    expect(answered == 0 && t[0] >= 10.0 && t[1] >= 11.0 && t[2] >= 12.0, "the times from 10 on are 10, 11, 12");
    expect(refused == MALIKOZA_SPEED_COUNT, "two squared speeds for three stations are refused with 12");
}

/* A step to a station from 0 to 4, under the first rows_len bytes of a row that asks for 5 at least. */
static uint64_t step(malikoza_walk *walk, double cap, size_t rows_len) {
    const double row[3] = {-1, 0, -5};
    const uint64_t lower = malikoza_pattern(0.0), upper = malikoza_pattern(4.0);
    uint64_t speed, worst_normalized, worst_raw, tried;
    return malikoza_walk_step(walk, lower, upper, malikoza_pattern(cap), (const uint8_t *)row, rows_len, &speed,
                              &worst_normalized, &worst_raw, &tried);
}

static void walks(void) {
    const uint64_t zero = malikoza_pattern(0.0), one = malikoza_pattern(1.0), three = malikoza_pattern(3.0);
    malikoza_walk walk, before;
    malikoza_walk_start(zero, zero, zero, one, zero, malikoza_pattern(4.0), malikoza_pattern(9.0), &walk);
    expect(walk.word[3] == one && walk.word[7] == 1, "a walk starts with its speed and 1 station");
    expect(step(&walk, 3.0, 0) == 0, "a step without rows is answered");
    expect(walk.word[3] == three && walk.word[6] == three && walk.word[7] == 2, "the walk is at the second station");
    before = walk;
    expect(step(&walk, 4.0, 3 * sizeof(double)) == MALIKOZA_PROJECTION_EMPTY, "5 of 4 at most is refused with 8");
    expect(memcmp(&walk, &before, sizeof walk) == 0, "a refused step leaves the walk as it was");
    walk.word[7] = MALIKOZA_MAX_STATIONS;
    expect(step(&walk, 3.0, 0) == MALIKOZA_WALK_FULL, "a full walk is refused with 61");
    expect(step(&walk, 3.0, 1) == MALIKOZA_NOT_EIGHTS, "10 comes before 61");
}

/* A file of two stations, 0 and 1; asked for them, and for times. */
static void files(void) {
    const uint8_t file[] = {1, 17, 2, 0, 0, 0, 0, 0, 0, 0, 0, 0, 0, 0, 0, 0, 0, 0xF0, 0x3F};
    uint64_t start = 7, length = 7;
    double s[2];
    expect(malikoza_cut_file_section(file, sizeof file, MALIKOZA_KIND_TIMES, &start, &length) == MALIKOZA_KIND_ABSENT,
           "times that are not there are refused with 46");
    expect(start == 7 && length == 7, "a refusal writes nothing");
    expect(malikoza_cut_file_section(file, sizeof file, MALIKOZA_KIND_STATIONS, &start, &length) == 0, "stations are there");
    expect(start == 2 && length == 17, "their payload is 17 bytes from 2 on");
    expect(length / 8 * 8 == sizeof s, "two doubles");
    memcpy(s, file + start + length % 8, sizeof s);
    expect(s[0] <= 0.0 && s[0] >= 0.0 && s[1] <= 1.0 && s[1] >= 1.0, "the stations are 0 and 1");
    expect(malikoza_cut_file_section(file, sizeof file - 1, MALIKOZA_KIND_STATIONS, &start, &length) ==
               MALIKOZA_PAYLOAD_BEYOND_FILE,
           "a file without its last byte is refused with 44");
}

int main(void) {
    patterns();
    texts();
    calls();
    walks();
    files();
    return failed;
}
