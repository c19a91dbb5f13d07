/* Times the calls at full size. Beside each stands, as a limit, memcpy of the bytes that the call
   has to touch, in the same places and with the same strides. Beside two of the previews stands the
   run that they show instead: a preview should cost no more, which is a ratio of 1 at most.

     bench [ROUNDS]    7 to 99, 7 if not given

   A round times many calls in a row and divides; the table has the median, least and most of the
   rounds. Where a call answers anything but what it must, the program ends with exit status 1. */
#define _POSIX_C_SOURCE 200809L

#include <inttypes.h>
#include <stdio.h>
#include <stdlib.h>
#include <string.h>
#include <sys/resource.h>
#include <time.h>

#include "jihoweka.h"

enum {
    METERS = 1024, CATEGORIES = 64, DATES = 800, DURATION = 15, PERIODS = JIHOWEKA_PERIODS(DURATION),
    GROUPS = 14,                                    /* of the family that is netted */
    LAST = CATEGORIES - 1,                          /* the category of an opted-out meter */
    WEEK = 7, YEAR = 365,
    SET = 1 + PERIODS,                              /* entries of a set in readings */
    ROW = CATEGORIES * PERIODS,                     /* entries of a date in cells */
    SLOT = 40, REGISTRATION = 5,                    /* entries of a meter and of one registration */
    SET_BYTES = 8 * SET, ROW_BYTES = 8 * ROW, COLUMN_BYTES = 8 * PERIODS,
    BODY_BYTES = PERIODS * JIHOWEKA_RECORD_BYTES,
    SENDER = 7, ENERGISED = 1, LIMIT = 50000,
    DATES_IN_ORDER = 40, DATES_ANEW = 48,           /* of a round */
    DUTY_DATES = 28, DUTY_RECEPTIONS = 7200, DUTY_INTERVAL = 75,
    PICKS = 50000, LEAST_ROUNDS = 7, MOST_ROUNDS = 99
};

/* ---- the store, and what is put into it */

static struct {
    uint8_t *settings;
    uint64_t *meters, *readings, *cells, *days;
    size_t settings_length, meters_length, readings_length, cells_length, days_length;
} store;

static int64_t fields[JIHOWEKA_FIELDS];

#define LENT(part) store.part, store.part##_length
#define METER_PARTS LENT(settings), LENT(meters), LENT(readings)
#define ALL_PARTS METER_PARTS, LENT(cells), LENT(days)
#define CELL_PARTS LENT(settings), LENT(cells)
#define DAY_PARTS LENT(settings), LENT(days)
#define FIELDS fields, JIHOWEKA_FIELDS

static const uint64_t windows[] = {0, 420, 30, 450};
static uint8_t category_records[CATEGORIES][JIHOWEKA_CATEGORY_BYTES];
static uint8_t day_types[DATES];
static uint64_t mpans[METERS];                      /* meter k is in category k % CATEGORIES */
static uint8_t bodies[2][METERS][BODY_BYTES];       /* the halves share no average */
static uint64_t sets[METERS][SET];                  /* what readings hold of the bodies' half 0 */
static int half_held[DATES];                        /* the half that a date's sets are from */

/* What the calls of a round ask for, drawn before it. */
static struct {
    uint16_t date, meter, body;
    uint8_t category, period;
} picks[PICKS];

static uint64_t below(uint64_t bound) {
    static uint64_t state = 88172645463325252;
    state ^= state << 13;
    state ^= state >> 7;
    state ^= state << 17;
    return (state >> 20) % bound;
}

static void draw_picks(size_t first_date) {
    for (size_t i = 0; i < PICKS; i++) {
        picks[i].date = (uint16_t)(first_date + below(DATES - first_date));
        picks[i].meter = (uint16_t)below(METERS);
        picks[i].body = (uint16_t)below(METERS);
        picks[i].category = (uint8_t)below(CATEGORIES);
        picks[i].period = (uint8_t)(1 + below(PERIODS));
    }
}

/* Smart: 14 imports, their exports, the same of another kind; then Advanced, and last a Smart
   domestic one alone in its family. A category has 16 meters, so with a de-minimis count of 30 its
   flag is D. */
static void make_categories(void) {
    for (uint8_t c = 0; c < CATEGORIES; c++) {
        uint8_t group = 1 + c % GROUPS, quantity = 1 + c / GROUPS % 2, kind = 1 + c / (2 * GROUPS);
        uint8_t smart[] = {1, group, kind, quantity, kind, group % 3, 0, group % 4 ? 10 : 30};
        uint8_t advanced[] = {2, 0, 0, 1 + c / 4 % 2, 1 + c % 4, 0, 0, 5};
        memcpy(category_records[c], c < 4 * GROUPS ? smart : advanced, sizeof smart);
    }
    uint8_t last[] = {1, GROUPS, 1, 2, 4, 1, 0, 5};
    memcpy(category_records[LAST], last, sizeof last);
}

static uint64_t with_check_digit(uint64_t twelve_digits) {
    static const uint64_t weights[] = {43, 41, 37, 31, 29, 23, 19, 17, 13, 7, 5, 3};
    uint64_t sum = 0, rest = twelve_digits;
    for (size_t k = 0; k < 12; k++, rest /= 10) sum += rest % 10 * weights[k];
    return 10 * twelve_digits + sum % 11 % 10;
}

static void make_body(uint8_t *body, uint64_t base) {
    for (uint32_t j = 1; j <= PERIODS; j++, body += JIHOWEKA_RECORD_BYTES) {
        uint32_t end = j * DURATION, wh = (uint32_t)(base + below(256));
        uint8_t record[] = {end >> 8, end & 255, 1 + below(7), 0, 0, wh >> 8, wh & 255};
        memcpy(body, record, sizeof record);
    }
}

static void make_data(void) {
    make_categories();
    for (size_t d = 0; d < DATES; d++) day_types[d] = 1 + d % WEEK;
    for (size_t k = 0; k < METERS; k++) {
        mpans[k] = with_check_digit(100000000000 + below(800000000000));
        make_body(bodies[0][k], 50 + below(400));
        make_body(bodies[1][k], 1050 + below(400));
    }
}

static void *part_of(size_t bytes) {
    void *part = malloc(bytes);
    if (part) return part;
    fprintf(stderr, "bench: no memory for %zu bytes\n", bytes);
    exit(1);
}

static void make_parts(void) {
    store.settings_length = JIHOWEKA_SETTINGS_LENGTH(CATEGORIES, DATES);
    store.meters_length = JIHOWEKA_METERS_LENGTH(METERS);
    store.readings_length = JIHOWEKA_READINGS_LENGTH(METERS, DATES, PERIODS);
    store.cells_length = JIHOWEKA_CELLS_LENGTH(CATEGORIES, DATES, PERIODS);
    store.days_length = JIHOWEKA_DAYS_LENGTH(CATEGORIES, DATES);
    store.settings = part_of(store.settings_length);
    store.meters = part_of(8 * store.meters_length);
    store.readings = part_of(8 * store.readings_length);
    store.cells = part_of(8 * store.cells_length);
    store.days = part_of(8 * store.days_length);
}

/* ---- the calls, each with its check */

static inline void must_be(const char *what, int64_t answered, int64_t due) {
    if (answered == due) return;
    fprintf(stderr, "bench: %s: %" PRId64 " where %" PRId64 " is due\n", what, answered, due);
    exit(1);
}

static inline void must_accept(const char *call, uint64_t number) {
    must_be(call, (int64_t)number, JIHOWEKA_ACCEPTED);
}

static void open_store(void) {
    must_accept("number of an opening", jihoweka_open(
        ALL_PARTS, DURATION, METERS, windows, sizeof windows / sizeof *windows, *category_records,
        sizeof category_records, day_types, DATES, FIELDS));
}

static void register_meter(size_t meter, uint64_t date) {
    must_accept("number of a registration", jihoweka_register(
        METER_PARTS, mpans[meter], date, 0, meter % CATEGORIES, SENDER, ENERGISED, LIMIT, FIELDS));
}

static void receive(size_t meter, uint64_t date, const uint8_t *body, size_t bytes) {
    uint64_t quantity = category_records[meter % CATEGORIES][3];
    must_accept("number of a reception", jihoweka_receive(
        METER_PARTS, SENDER, mpans[meter], date, DURATION, quantity, body, bytes, FIELDS));
}

static int64_t run(uint64_t date) {
    must_accept("number of a run", jihoweka_run(ALL_PARTS, date, FIELDS));
    return fields[JIHOWEKA_MOVED];
}

static uint64_t draft[ROW];

static int64_t preview(uint64_t date) {
    must_accept("number of a preview", jihoweka_preview(ALL_PARTS, draft, ROW, date, FIELDS));
    return fields[JIHOWEKA_MOVED];
}

static void read_row(uint64_t date, uint64_t category, uint64_t from_draft) {
    uint64_t number, length = jihoweka_read_row(
        CELL_PARTS, draft, ROW, date, category, from_draft, &number);
    must_accept("number of a row read", number);
    must_be("length of a row", (int64_t)length, PERIODS);
}

static void read_totals(uint64_t date, uint64_t category) {
    must_accept("number of a totals read", jihoweka_read_totals(
        DAY_PARTS, date, category, FIELDS));
    must_be("days7 of a totals read", fields[JIHOWEKA_DAYS7], WEEK);
    must_be("days of a totals read", fields[JIHOWEKA_DAYS], YEAR);
}

static void read_cell(uint64_t date, uint64_t category, uint64_t period) {
    must_accept("number of a cell read", jihoweka_read_cell(
        CELL_PARTS, date, category, period, FIELDS));
    must_be("origin of a cell read", fields[JIHOWEKA_ORIGIN], (int64_t)date);
}

static void read_net(uint64_t date, uint64_t category, uint64_t all_groups) {
    static int64_t numbers[PERIODS];
    static uint8_t marks[PERIODS];
    must_accept("number of a net read", jihoweka_read_net(
        CELL_PARTS, LENT(days), date, category, all_groups, numbers, PERIODS, marks, PERIODS,
        FIELDS));
    must_be("last mark of a net read", marks[PERIODS - 1], 0);
}

static void search_band(uint64_t category, uint64_t type, uint64_t least, uint64_t most,
                        int64_t due) {
    static uint64_t dates[DATES];
    must_accept("number of a band search", jihoweka_search_band(
        DAY_PARTS, category, type, least, most, dates, DATES, FIELDS));
    must_be("dates written by a band search", fields[JIHOWEKA_WRITTEN], due);
    must_be("dates that a band search counts", fields[JIHOWEKA_FOUND], due);
}

static uint8_t missing[PERIODS];                    /* all */
static uint64_t filled[PERIODS];
static uint32_t advances[CATEGORIES];
static uint64_t last_filled[CATEGORIES];            /* what the last period gets of them */

static void fill(uint64_t date, uint64_t category) {
    must_accept("number of a fill", jihoweka_fill(
        CELL_PARTS, date, category, advances[category], missing, PERIODS, filled, PERIODS, FIELDS));
}

static void fill_opted_out(uint64_t date) {
    const uint8_t *record = category_records[LAST];
    must_accept("number of an opted-out meter's fill", jihoweka_fill_opted_out(
        CELL_PARTS, date, record[1], record[3], record[4], advances[LAST], missing, PERIODS,
        filled, PERIODS, FIELDS));
}

static void read_coverage(uint64_t date, uint64_t category, int64_t fresh, int64_t blank) {
    must_accept("number of a coverage read", jihoweka_read_coverage(
        DAY_PARTS, date, category, FIELDS));
    must_be("FRESH365 of a coverage read", fields[JIHOWEKA_FRESH365], fresh);
    must_be("BLANK365 of a coverage read", fields[JIHOWEKA_BLANK365], blank);
}

/* ---- the copies, to and from places that docs/STORE.md gives; by pointers that the compiler does
   not see through, so that all are made */

static void *(*volatile copy_bytes)(void *restrict, const void *restrict, size_t) = memcpy;
static void *(*volatile fill_bytes)(void *, int, size_t) = memset;
static uint64_t landing[ROW];

static uint64_t *set_at(size_t date, size_t meter) {
    return store.readings + (date * METERS + meter) * SET;
}

static uint64_t *column_at(size_t date, size_t category) {
    return store.cells + date * ROW + category * PERIODS;
}

/* A category has four rows, each with an entry for a date. */
enum { DAY, SUMS, TOT, OFF, DAY_ROWS };
static uint64_t *day_at(size_t date, size_t category, size_t row) {
    return store.days + (DAY_ROWS * category + row) * DATES + date;
}

static void copy_out(const void *place, size_t bytes) { copy_bytes(landing, place, bytes); }

static void copy_out_and_back(void *place, size_t bytes) {
    copy_bytes(landing, place, bytes);
    copy_bytes(place, landing, bytes);
}

/* For a reception: 776 bytes read stand for the body of 672, 776 written are the set. */
static void copy_set_in(size_t date, size_t meter, size_t body) {
    copy_bytes(set_at(date, meter), sets[body], SET_BYTES);
}

static void copy_sets_out(size_t date) {
    for (size_t k = 0; k < METERS; k++) copy_out(set_at(date, k), SET_BYTES);
}

/* Day, TOT and OFF of each category. */
static void copy_days(size_t date) {
    for (size_t c = 0; c < CATEGORIES; c++) {
        copy_out_and_back(day_at(date, c, DAY), 8);
        copy_out_and_back(day_at(date, c, TOT), 8);
        copy_out_and_back(day_at(date, c, OFF), 8);
    }
}

/* The sums that the counts of a date are in, for each category: up to a year's from it on. */
static void copy_sums(size_t date) {
    size_t dates = DATES - date < YEAR ? DATES - date : YEAR;
    for (size_t c = 0; c < CATEGORIES; c++) copy_out_and_back(day_at(date, c, SUMS), 8 * dates);
}

/* A run that changes no count, and so no sums. */
static void copy_run(size_t date) {
    copy_sets_out(date);
    copy_out_and_back(column_at(date, 0), ROW_BYTES);
    copy_days(date);
}

/* A category's cells of a date. */
static void copy_column(size_t date, size_t category) {
    copy_out(column_at(date, category), COLUMN_BYTES);
}

/* A row's entries for a date and those before it. */
static void copy_stretch(size_t date, size_t dates, size_t category, size_t row) {
    copy_out(day_at(date + 1 - dates, category, row), 8 * dates);
}

/* ---- the rows: call i of a round and its copy, and what has to come before */

static void open_once(size_t i) { (void)i; open_store(); }
static void open_copy(size_t i) {
    (void)i;
    fill_bytes(store.settings, 0, store.settings_length);
    fill_bytes(store.meters, 0, 8 * store.meters_length);
    fill_bytes(store.readings, 0, 8 * store.readings_length);
    fill_bytes(store.cells, 0, 8 * store.cells_length);
    fill_bytes(store.days, 0, 8 * store.days_length);
}

static void new_meter(size_t i) { register_meter(i, 0); }
static void new_meter_copy(size_t i) {
    copy_out(store.meters, 8 * i);
    copy_out_and_back(store.meters + i, 8);
    copy_out_and_back(store.meters + METERS + SLOT * i, 8 * REGISTRATION);
}

static void open_and_register(void) {
    open_store();
    for (size_t k = 0; k < METERS; k++) register_meter(k, 0);
}
static void known_meter(size_t i) { register_meter(i, 1); }
static void known_meter_copy(size_t i) {
    new_meter_copy(i);
    for (size_t d = DATES - 1; d >= 1; d--) copy_out(set_at(d, i), 8);
}

static void receive_date(size_t date, int half) {
    for (size_t k = 0; k < METERS; k++) receive(k, date, bodies[half][k], BODY_BYTES);
    half_held[date] = half;
}
static void receive_none(size_t date) {
    for (size_t k = 0; k < METERS; k++) receive(k, date, NULL, 0);
}
static void fill_store(void) {
    open_and_register();
    for (size_t d = 0; d < DATES; d++) receive_date(d, 0);
    memcpy(sets, store.readings, sizeof sets);
}
static void receive_in_order(size_t i) {
    receive(i % METERS, picks[i / METERS].date, bodies[0][i % METERS], BODY_BYTES);
}
static void receive_in_order_copy(size_t i) {
    copy_set_in(picks[i / METERS].date, i % METERS, i % METERS);
}

static void receive_any(size_t i) {
    receive(picks[i].meter, picks[i].date, bodies[0][picks[i].body], BODY_BYTES);
}
static void receive_any_copy(size_t i) {
    copy_set_in(picks[i].date, picks[i].meter, picks[i].body);
}

/* Cells and days as an opening leaves them: no date is run. */
static void empty_dates(void) {
    memset(store.cells, 0, 8 * store.cells_length);
    memset(store.days, 0, 8 * store.days_length);
}
static void run_first(size_t i) { must_be("cells moved by a first run", run(i), ROW); }
static void run_first_copy(size_t i) {
    copy_run(i);
    copy_sums(i);
}

/* Dates far apart, no two alike since 307 and DATES have no common divisor. */
static size_t first_anew;
static size_t date_anew(size_t i) { return (first_anew + 307 * i) % DATES; }
static void receive_anew(void) {
    first_anew = below(DATES);
    for (size_t i = 0; i < DATES_ANEW; i++) receive_date(date_anew(i), !half_held[date_anew(i)]);
}
static void run_anew(size_t i) { must_be("cells moved by new sets", run(date_anew(i)), ROW); }
static void run_anew_copy(size_t i) { copy_run(date_anew(i)); }

/* What a run of these dates would do; then the run. */
static void preview_anew(size_t i) {
    must_be("cells that new sets would move", preview(date_anew(i)), ROW);
}

/* Late sets for dates that copy the one a week before, which has its readings. FRESH of the date
   changes, and with it the sums of the 365 dates from it on. */
static size_t date_late(size_t i) { return WEEK + 9 * i; }
static void receive_late(void) {
    for (size_t i = 0; i < DATES_ANEW; i++) {
        receive_none(date_late(i));
        must_be("cells moved by empty sets", run(date_late(i)), ROW);
        receive_date(date_late(i), 0);
    }
}
static void run_late(size_t i) { must_be("cells moved by late sets", run(date_late(i)), ROW); }
static void run_late_copy(size_t i) {
    copy_run(date_late(i));
    copy_sums(date_late(i));
}

static void run_idle(size_t i) { must_be("cells moved by nothing", run(picks[i].date), 0); }
static void run_idle_copy(size_t i) {
    copy_sets_out(picks[i].date);
    copy_out(column_at(picks[i].date, 0), ROW_BYTES);
    for (size_t c = 0; c < CATEGORIES; c++) {
        copy_out(day_at(picks[i].date, c, DAY), 8);
        copy_out(day_at(picks[i].date, c, TOT), 8);
        copy_out(day_at(picks[i].date, c, OFF), 8);
    }
}

static void preview_idle(size_t i) {
    must_be("cells that nothing would move", preview(picks[i].date), 0);
    must_be("first cell of a draft", draft[0] == *column_at(picks[i].date, 0), 1);
}
static void preview_idle_copy(size_t i) {
    copy_sets_out(picks[i].date);
    copy_out(column_at(picks[i].date, 0), ROW_BYTES);
    copy_bytes(draft, landing, ROW_BYTES);
}

static void copy_totals(size_t date, size_t category) {
    copy_out(day_at(date, category, DAY), 8);
    copy_stretch(date, YEAR, category, TOT);
    copy_stretch(date, WEEK, category, OFF);
}
static void totals(size_t i) { read_totals(picks[i].date, picks[i].category); }
static void totals_copy(size_t i) { copy_totals(picks[i].date, picks[i].category); }

static void cell(size_t i) { read_cell(picks[i].date, picks[i].category, picks[i].period); }
static void cell_copy(size_t i) {
    copy_out(column_at(picks[i].date, picks[i].category) + picks[i].period - 1, 8);
}

static void published_row(size_t i) { read_row(picks[i].date, picks[i].category, 0); }
static void published_row_copy(size_t i) { copy_out(column_at(picks[i].date, 0), 8); }

static void drafted_row(size_t i) { read_row(picks[i].date, picks[i].category, 1); }
static void drafted_row_copy(size_t i) {
    (void)i;
    copy_out(store.settings, 8);
}

/* With all its cells, as for a screen. */
static void shown_row(size_t i) {
    published_row(i);
    const uint64_t *row = store.cells +
        JIHOWEKA_PUBLISHED_ROW(CATEGORIES, PERIODS, picks[i].date, picks[i].category);
    for (size_t j = 0; j < PERIODS; j++) {
        must_accept("number of an entry", jihoweka_read_entry(row[j], FIELDS));
        must_be("origin of an entry", fields[JIHOWEKA_ORIGIN], picks[i].date);
    }
}
static void shown_row_copy(size_t i) { copy_column(picks[i].date, picks[i].category); }

/* Every cell has readings of its own date. */
static void coverage(size_t i) {
    read_coverage(picks[i].date, picks[i].category, YEAR * PERIODS, 0);
    must_be("oldest of a coverage read", fields[JIHOWEKA_OLDEST], picks[i].date);
}
static void coverage_copy(size_t i) {
    copy_out(day_at(picks[i].date, picks[i].category, DAY), 8);
    copy_out(day_at(picks[i].date, picks[i].category, SUMS), 8);
}

/* The imports that are netted are categories 0 to 13, their exports 14 to 27. */
static void net_own(size_t i) { read_net(picks[i].date, picks[i].category % GROUPS, 0); }
static void net_own_copy(size_t i) {
    for (size_t c = picks[i].category % GROUPS; c < 2 * GROUPS; c += GROUPS) {
        copy_column(picks[i].date, c);
        copy_stretch(picks[i].date, WEEK, c, TOT);
    }
}

static void net_all(size_t i) { read_net(picks[i].date, picks[i].category % GROUPS, 1); }
static void net_all_copy(size_t i) {
    copy_out(column_at(picks[i].date, 0), 2 * GROUPS * COLUMN_BYTES);
    for (size_t c = 0; c < 2 * GROUPS; c++) copy_stretch(picks[i].date, WEEK, c, TOT);
}

/* After each 75 receptions the date of the last is run, and its totals are read. */
static void duty(size_t first) {
    for (size_t i = first; i < first + DUTY_RECEPTIONS; i++) {
        receive_any(i);
        if (i % DUTY_INTERVAL != DUTY_INTERVAL - 1) continue;
        run(picks[i].date);
        for (size_t c = 0; c < CATEGORIES; c++) read_totals(picks[i].date, c);
    }
}
static void duty_copy(size_t first) {
    for (size_t i = first; i < first + DUTY_RECEPTIONS; i++) {
        receive_any_copy(i);
        if (i % DUTY_INTERVAL != DUTY_INTERVAL - 1) continue;
        copy_run(picks[i].date);
        for (size_t c = 0; c < CATEGORIES; c++) copy_totals(picks[i].date, c);
    }
}

/* All dates have one day type, and copy the first. */
static void one_day_type(void) {
    memset(day_types, 1, DATES);
    open_and_register();
    receive_date(0, 0);
    for (size_t d = 0; d < DATES; d++) run_first(d);
}
static void receive_first(void) { receive_date(0, !half_held[0]); }
static void run_worst(size_t i) {
    must_be("cells moved by the worst run", run(i), (int64_t)store.cells_length);
}
static void preview_worst(size_t i) {
    must_be("cells that the worst run would move", preview(i), (int64_t)store.cells_length);
}
static void run_worst_copy(size_t i) {
    copy_sets_out(i);
    for (size_t d = 0; d < DATES; d++) {
        copy_out_and_back(column_at(d, 0), ROW_BYTES);
        copy_days(d);
    }
}

/* All dates blank, since the first has sets without readings; then it has readings again. */
static void blank_dates(void) {
    receive_none(0);
    run_worst(0);
    read_coverage(DATES - 1, 0, 0, YEAR * PERIODS);
    receive_first();
}
static void run_from_blank_copy(size_t i) {
    run_worst_copy(i);
    for (size_t c = 0; c < CATEGORIES; c++) copy_out_and_back(day_at(0, c, SUMS), 8 * DATES);
}

static void band_of_all(size_t i) { search_band(picks[i].category, 1, 0, UINT64_MAX, DATES); }
static void band_of_none(size_t i) { search_band(picks[i].category, 1, 1, 2, 0); }
static void band_copy(size_t i) {
    copy_out(store.settings + store.settings_length - DATES, DATES);
    copy_stretch(DATES - 1, DATES, picks[i].category, DAY);
    copy_stretch(DATES - 1, DATES, picks[i].category, TOT);
}
static void other_type(size_t i) { search_band(picks[i].category, 2, 0, UINT64_MAX, 0); }
static void other_type_copy(size_t i) {
    (void)i;
    copy_out(store.settings + store.settings_length - DATES, DATES);
}

/* All dates are still alike. TOT less 1 is the advance that leaves most Wh over, PERIODS - 1: each
   period's whole part is 1 less than its value. */
static void choose_advances(void) {
    memset(missing, 1, sizeof missing);
    for (size_t c = 0; c < CATEGORIES; c++) {
        int64_t sum = 0;
        read_totals(DATES - 1, c);
        advances[c] = (uint32_t)fields[JIHOWEKA_TOT] - 1;
        fill(DATES - 1, c);
        for (size_t j = 0; j < PERIODS; j++) sum += (int64_t)filled[j];
        must_be("sum of a fill", sum, advances[c]);
        last_filled[c] = filled[PERIODS - 1];
    }
}
static void must_be_last(uint64_t category) {
    must_be("last of a fill", (int64_t)filled[PERIODS - 1], (int64_t)last_filled[category]);
}
static void fill_day(size_t i) {
    fill(picks[i].date, picks[i].category);
    must_be_last(picks[i].category);
}
static void fill_day_copy(size_t i) {
    copy_out(missing, PERIODS);
    copy_column(picks[i].date, picks[i].category);
}

/* All values alike, and of 32 bits: no threshold parts the remainders, so the search is longest. */
static void level_cells(void) {
    for (size_t i = 0; i < store.cells_length; i++)
        store.cells[i] = 1 + 8 + ((uint64_t)UINT32_MAX << 32);      /* flag A, of one reading */
    for (size_t c = 0; c < CATEGORIES; c++) {
        advances[c] = PERIODS - 1;
        last_filled[c] = 0;
    }
}

static void fill_last(size_t i) {
    fill_opted_out(picks[i].date);
    must_be_last(LAST);
}
static void fill_last_copy(size_t i) {
    copy_out(store.settings + store.settings_length - DATES - sizeof category_records,
             sizeof category_records);
    copy_out(missing, PERIODS);
    copy_column(picks[i].date, LAST);
}

struct row {
    const char *call, *touched;
    size_t calls, first_date;               /* of a round; picks have no earlier date */
    void (*begin)(void), (*prepare)(void);  /* before the first round, and before each */
    void (*work)(size_t i), (*copy)(size_t i);
};

#define A_DATE "795 KB of readings, 49 KB of cells"
#define THE_RUN "(the run of it instead)"
#define BAND_BYTES "800 B of settings, 2 × 6.4 KB of days"

static const struct row rows[] = {
    {"opening", "677 MB written (memset)", 1, 0, NULL, NULL, open_once, open_copy},
    {"registration, new meter", "4 KB of MPANs (mean), 48 B and back", METERS, 0,
     NULL, open_store, new_meter, new_meter_copy},
    {"registration, known meter", "the same, and 799 × 8 B of readings", METERS, 0,
     NULL, open_and_register, known_meter, known_meter_copy},
    {"reception of 96 records, meters in order", "776 B into readings", DATES_IN_ORDER * METERS, 0,
     fill_store, NULL, receive_in_order, receive_in_order_copy},
    {"reception of 96 records, meter and date at random", "776 B into readings", 20000, 0,
     NULL, NULL, receive_any, receive_any_copy},
    {"run, first of a date, 1,024 sets", A_DATE " and 146 KB of days (mean) and back", DATES, 0,
     NULL, empty_dates, run_first, run_first_copy},
    {"run, 1,024 new sets", A_DATE " and 1.5 KB of days and back", DATES_ANEW, 0,
     NULL, receive_anew, run_anew, run_anew_copy},
    {"preview, 1,024 new sets", THE_RUN, DATES_ANEW, 0,
     NULL, receive_anew, preview_anew, run_anew},
    {"run, 1,024 late sets for a date of copies", A_DATE " and 188 KB of days and back", DATES_ANEW,
     0, NULL, receive_late, run_late, run_late_copy},
    {"run, nothing changed", A_DATE ", 1.5 KB of days", 200, 0,
     NULL, NULL, run_idle, run_idle_copy},
    {"preview, nothing changed", A_DATE ", 49 KB into the draft", 200, 0,
     NULL, NULL, preview_idle, preview_idle_copy},
    {"totals read over 365 dates", "(365 + 7 + 1) × 8 B of days", 20000, YEAR - 1,
     NULL, NULL, totals, totals_copy},
    {"cell read", "8 B of cells", PICKS, 0, NULL, NULL, cell, cell_copy},
    {"row read, published", "8 B of cells", PICKS, 0,
     NULL, NULL, published_row, published_row_copy},
    {"row read, of the draft", "8 B of settings", PICKS, 0,
     NULL, NULL, drafted_row, drafted_row_copy},
    {"row read and its 96 entries", "768 B of cells", 10000, 0,
     NULL, NULL, shown_row, shown_row_copy},
    {"coverage read", "2 × 8 B of days", PICKS, YEAR - 1, NULL, NULL, coverage, coverage_copy},
    {"net read, own group", "2 × 768 B of cells, 2 × 56 B of days", 10000, WEEK - 1,
     NULL, NULL, net_own, net_own_copy},
    {"net read, all groups, 14 and 14", "21.5 KB of cells, 28 × 56 B of days", 2000, WEEK - 1,
     NULL, NULL, net_all, net_all_copy},
    {"a day's duty: 7,200 receptions, 96 runs, 64 totals after each", "as for each of these calls",
     1, DATES - DUTY_DATES, NULL, NULL, duty, duty_copy},
    {"the worst run: the first of 800 dates, 4,915,200 cells move",
     "795 KB of readings, 39 MB of cells and 1.2 MB of days and back", 1, 0,
     one_day_type, receive_first, run_worst, run_worst_copy},
    {"the same where all 800 dates were blank",
     "795 KB of readings, 39 MB of cells and 1.6 MB of days and back", 1, 0,
     NULL, blank_dates, run_worst, run_from_blank_copy},
    {"the worst preview: 4,915,200 cells would move", THE_RUN, 1, 0,
     NULL, receive_first, preview_worst, run_worst},
    {"band search, all 800 dates are in the band", BAND_BYTES, 2000, 0,
     NULL, NULL, band_of_all, band_copy},
    {"band search, none of 800 dates is", BAND_BYTES, 2000, 0,
     NULL, NULL, band_of_none, band_copy},
    {"band search, no date has the day type", "800 B of settings", 2000, 0,
     NULL, NULL, other_type, other_type_copy},
    {"fill, all 96 periods missing, 95 Wh left over", "96 B of marks, 768 B of cells", 10000, 0,
     choose_advances, NULL, fill_day, fill_day_copy},
    {"fill of an opted-out meter, its category the last of 64",
     "512 B of settings, 96 B of marks, 768 B of cells", 10000, 0,
     NULL, NULL, fill_last, fill_last_copy},
    {"fill, the longest search: 96 values of 2^32 - 1", "96 B of marks, 768 B of cells", 10000, 0,
     level_cells, NULL, fill_day, fill_day_copy},
};

/* ---- rounds, and the table */

/* Nanoseconds of one call. */
static double time_of(void (*work)(size_t), size_t calls) {
    struct timespec start, end;
    clock_gettime(CLOCK_MONOTONIC, &start);
    for (size_t i = 0; i < calls; i++) work(i);
    clock_gettime(CLOCK_MONOTONIC, &end);
    double seconds = (double)(end.tv_sec - start.tv_sec);
    return (1e9 * seconds + (double)(end.tv_nsec - start.tv_nsec)) / (double)calls;
}

static int ascending(const void *first, const void *second) {
    double a = *(const double *)first, b = *(const double *)second;
    return (a > b) - (a < b);
}

static double median(double *samples, size_t count) {
    qsort(samples, count, sizeof *samples, ascending);
    return (samples[(count - 1) / 2] + samples[count / 2]) / 2;
}

/* The unit's name, and its size in nanoseconds. */
static const char *unit_of(double time, double *size) {
    static const char *const names[] = {"ns", "µs", "ms", "s"};
    size_t k = 0;
    for (*size = 1; k < 3 && time >= 999.5 * *size; k++) *size *= 1000;
    return names[k];
}

static void print_row(const struct row *row, double *times, double *copies, size_t rounds) {
    double time = median(times, rounds), copy = median(copies, rounds);
    double least = times[0], most = times[rounds - 1], size;
    const char *unit = unit_of(time, &size);
    printf("| %-61s | %.3g %s | ", row->call, time / size, unit);
    unit = unit_of(most, &size);
    printf("%.3g to %.3g %s | ", least / size, most / size, unit);
    unit = unit_of(copy, &size);
    printf("%s | %.3g %s | %.3g |\n", row->touched, copy / size, unit, time / copy);
    fflush(stdout);
}

static void time_row(const struct row *row, size_t rounds) {
    double times[MOST_ROUNDS], copies[MOST_ROUNDS];
    if (row->begin) row->begin();
    for (size_t k = 0; k < rounds; k++) {
        draw_picks(row->first_date);
        if (row->prepare) row->prepare();
        times[k] = time_of(row->work, row->calls);
        draw_picks(row->first_date); /* others, which no cache holds from the calls */
        copies[k] = time_of(row->copy, row->calls);
    }
    print_row(row, times, copies, rounds);
}

static void print_sizes(size_t rounds) {
    size_t settings = store.settings_length, meters = 8 * store.meters_length;
    size_t readings = 8 * store.readings_length, cells = 8 * store.cells_length;
    size_t days = 8 * store.days_length;
    struct rusage usage;
    getrusage(RUSAGE_SELF, &usage);
    printf("\n%d meters, %d categories, %d dates, %d periods; %zu rounds; parts in bytes: settings "
           "%zu, meters %zu, readings %zu, cells %zu, days %zu, all %zu; peak resident memory "
           "%ld KiB.\n",
           METERS, CATEGORIES, DATES, PERIODS, rounds, settings, meters, readings, cells, days,
           settings + meters + readings + cells + days, usage.ru_maxrss);
}

int main(int count, char **words) {
    char *end = "";
    long rounds = count > 1 ? strtol(words[1], &end, 10) : LEAST_ROUNDS;
    if (count > 2 || *end || rounds < LEAST_ROUNDS || rounds > MOST_ROUNDS) {
        fprintf(stderr, "usage: bench [ROUNDS], %d to %d\n", LEAST_ROUNDS, MOST_ROUNDS);
        return 2;
    }
    make_data();
    make_parts();
    open_store(); /* no timed call is the first to touch the memory */
    printf("| %-61s | median | least to most | memcpy of | median | ratio |\n", "call");
    puts("|---|---|---|---|---|---|");
    for (size_t r = 0; r < sizeof rows / sizeof *rows; r++) time_row(&rows[r], (size_t)rounds);
    print_sizes((size_t)rounds);
    return 0;
}
