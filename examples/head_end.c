/* A head-end on Jihoweka: opens a store, registers meters, receives their days, runs dates, reads,
   fills a hole, saves the store, loads it again and goes on from there with a late day, whose
   rerun it looks at before doing it.

       head_end DAYS STORE

   DAYS is a CSV file. Its first line is mpan,date,end,quality,Wh and each further line a record:
   MPAN, number of the date from 0, HH:MM at which the period ends (24:00 for the last), quality
   (1 to 7 are readings, 8 to 14 none), Wh. Numbers are digits alone, without blanks or quotes.
   Neighbouring lines of one MPAN and date are a meter day. The engine says what else is wrong.

   STORE is the file that the store is saved to: a number that marks such files and the
   layout of the parts, the lengths of meters, readings, cells, days and settings, then these
   parts, all in the machine's own byte order. */
#include "jihoweka.h"

#include <inttypes.h>
#include <stdio.h>
#include <stdlib.h>
#include <string.h>

enum { DURATION = 30, PERIODS = JIHOWEKA_PERIODS(DURATION), METERS = 5, CATEGORIES = 4, DATES = 6 };
enum { SENDER = 7, ENERGISED = 1, LIMIT = 10000 };

/* Off-peak, each a start and an end minute: a category names one by its place here, from 1. */
static const uint64_t WINDOWS[] = {
    0, 420,  /* 1: 00:00 to 07:00 */
    30, 450, /* 2: 00:30 to 07:30 */
};
/* Segment, group, domestic, quantity, connection, window, de-minimis. */
static const uint8_t CATEGORY_RECORDS[CATEGORIES * JIHOWEKA_CATEGORY_BYTES] = {
    1, 1, 2, 1, 1, 1, 0, 1, /* 0: import of group A, off-peak in window 1 */
    1, 1, 2, 2, 1, 0, 0, 1, /* 1: export of group A */
    1, 2, 2, 1, 1, 2, 0, 2, /* 2: import of group B, off-peak in window 2, two readings */
    1, 2, 2, 2, 1, 0, 0, 1, /* 3: export of group B */
};
static const uint8_t DAY_TYPES[DATES] = {1, 1, 2, 1, 1, 2};
static const struct { uint64_t mpan, category; } METER_LIST[METERS] = {
    {1000000001016, 0}, {1000000001025, 0}, {1000000001034, 1}, {1100000001048, 2},
    {1100000001057, 3}};

static void fail(const char *path, const char *what) {
    fprintf(stderr, "%s: %s\n", path, what);
    exit(1);
}

/* ---- the store: five parts in one block, behind the header of the file that it is saved to */

enum { HEADER = 6 };
#define MARK (0x6A69686F77650000u + JIHOWEKA_LAYOUT)

struct store {
    uint64_t *header, *meters, *readings, *cells, *days;
    uint8_t *settings;
    size_t meters_length, readings_length, cells_length, days_length, settings_length, bytes;
};

/* A part as calls take it, and the list for their results. */
#define PART(name) s->name, s->name##_length
#define RESULTS fields, JIHOWEKA_FIELDS

static struct store allocate(void) {
    struct store s;
    s.meters_length = JIHOWEKA_METERS_LENGTH(METERS);
    s.readings_length = JIHOWEKA_READINGS_LENGTH(METERS, DATES, PERIODS);
    s.cells_length = JIHOWEKA_CELLS_LENGTH(CATEGORIES, DATES, PERIODS);
    s.days_length = JIHOWEKA_DAYS_LENGTH(CATEGORIES, DATES);
    s.settings_length = JIHOWEKA_SETTINGS_LENGTH(CATEGORIES, DATES);
    size_t numbers =
        HEADER + s.meters_length + s.readings_length + s.cells_length + s.days_length;
    s.bytes = numbers * sizeof(uint64_t) + s.settings_length;
    s.header = (uint64_t *)malloc(s.bytes);
    if (s.header == NULL) fail("store", "no memory");
    s.meters = s.header + HEADER;
    s.readings = s.meters + s.meters_length;
    s.cells = s.readings + s.readings_length;
    s.days = s.cells + s.cells_length;
    s.settings = (uint8_t *)(s.days + s.days_length); /* last, since bytes need no alignment */
    const uint64_t header[HEADER] = {MARK, s.meters_length, s.readings_length, s.cells_length,
                                     s.days_length, s.settings_length};
    memcpy(s.header, header, sizeof header);
    return s;
}

static void save(const struct store *s, const char *path) {
    FILE *file = fopen(path, "wb");
    if (file == NULL) fail(path, "cannot be written");
    size_t written = fwrite(s->header, 1, s->bytes, file);
    if (fclose(file) != 0 || written != s->bytes) fail(path, "cannot be written");
    printf("save: %zu bytes\n", s->bytes);
}

/* Layout and lengths must be those of this store. Calls keep to them whatever the parts hold. */
static void load(struct store *s, const char *path) {
    uint64_t header[HEADER];
    FILE *file = fopen(path, "rb");
    if (file == NULL) fail(path, "cannot be read");
    memcpy(header, s->header, sizeof header);
    if (fread(s->header, 1, s->bytes, file) != s->bytes || getc(file) != EOF ||
        memcmp(s->header, header, sizeof header) != 0)
        fail(path, "is no store of this size and layout");
    fclose(file);
    printf("load: %zu bytes\n", s->bytes);
}

/* ---- answers */

static const char *name_of(uint64_t number) {
#define NAME(name) case JIHOWEKA_##name: return #name
    switch (number) {
        NAME(ACCEPTED); NAME(SHORT); NAME(CATEGORY_UNKNOWN); NAME(SIZE); NAME(CATEGORY_RECORD);
        NAME(DAY_TYPE); NAME(MPAN); NAME(NOT_REGISTERED); NAME(STORE_FULL); NAME(DATE);
        NAME(START_TOO_EARLY); NAME(SET_HELD); NAME(NINTH_REGISTRATION); NAME(BODY); NAME(NOT_RUN);
        NAME(RANGE); NAME(REGISTRATION); NAME(NOTHING_TO_FILL); NAME(DRAFT_SHORT); NAME(WINDOW);
        NAME(NO_PARTNER); NAME(SENDER); NAME(QUANTITY); NAME(DURATION); NAME(END_MINUTE);
        NAME(DUPLICATE); NAME(DE_ENERGISED); NAME(DISCONNECTED); NAME(ZERO_ESTIMATE);
        NAME(ABOVE_LIMIT);
        default: return "UNKNOWN";
    }
#undef NAME
}

/* Whether the call was accepted. If not, its number, name and place end the line. */
static int accepted(uint64_t number, const int64_t *fields) {
    if (number == JIHOWEKA_ACCEPTED) return 1;
    printf("refused %" PRIu64 " %s, place %" PRId64 "\n", number, name_of(number),
           fields[JIHOWEKA_PLACE]);
    return 0;
}

/* Wh as kWh, without floating point. */
static void print_kwh(const char *before, int64_t wh) {
    uint64_t size = wh < 0 ? 0 - (uint64_t)wh : (uint64_t)wh;
    printf("%s%s%" PRIu64 ".%03" PRIu64, before, wh < 0 ? "-" : "", size / 1000, size % 1000);
}

/* ---- calls that write */

static void open_store(struct store *s) {
    int64_t fields[JIHOWEKA_FIELDS];
    uint64_t number = jihoweka_open(PART(settings), PART(meters), PART(readings), PART(cells),
                                    PART(days), DURATION, METERS, WINDOWS,
                                    sizeof WINDOWS / sizeof *WINDOWS, CATEGORY_RECORDS,
                                    sizeof CATEGORY_RECORDS, DAY_TYPES, sizeof DAY_TYPES, RESULTS);
    printf("open: ");
    if (accepted(number, fields)) puts("accepted");
}

/* From date 0, minute 0 on. */
static void register_meter(struct store *s, uint64_t mpan, uint64_t category) {
    int64_t fields[JIHOWEKA_FIELDS];
    uint64_t number = jihoweka_register(PART(settings), PART(meters), PART(readings), mpan, 0, 0,
                                        category, SENDER, ENERGISED, LIMIT, RESULTS);
    printf("register %" PRIu64 ": ", mpan);
    if (accepted(number, fields)) puts("accepted");
}

/* A day with one record more than there are periods is refused at it or before, so there need be
   no room for any behind it. */
struct day {
    uint64_t mpan, date;
    size_t records;
    uint8_t body[(PERIODS + 1) * JIHOWEKA_RECORD_BYTES];
};

static void add_record(struct day *day, uint64_t end, uint64_t quality, uint64_t wh) {
    if (day->records > PERIODS) return;
    uint8_t *record = day->body + JIHOWEKA_RECORD_BYTES * day->records++;
    *record++ = (uint8_t)(end >> 8);
    *record++ = (uint8_t)end;
    *record++ = (uint8_t)quality;
    for (int shift = 24; shift >= 0; shift -= 8) *record++ = (uint8_t)(wh >> shift);
}

/* That of the meter's category; 0 for an unknown meter, whose day is refused before it matters. */
static uint64_t quantity_of(uint64_t mpan) {
    for (size_t i = 0; i < METERS; i++)
        if (METER_LIST[i].mpan == mpan)
            return CATEGORY_RECORDS[JIHOWEKA_CATEGORY_BYTES * METER_LIST[i].category + 3];
    return 0;
}

/* A day without records is none: there are no lines for it in the file. */
static void receive_day(struct store *s, const struct day *day) {
    if (day->records == 0) return;
    int64_t fields[JIHOWEKA_FIELDS];
    uint64_t number = jihoweka_receive(PART(settings), PART(meters), PART(readings), SENDER,
                                       day->mpan, day->date, DURATION, quantity_of(day->mpan),
                                       day->body, JIHOWEKA_RECORD_BYTES * day->records, RESULTS);
    printf("receive %" PRIu64 " date %" PRIu64 ": ", day->mpan, day->date);
    if (accepted(number, fields)) puts("accepted");
}

static void run_date(struct store *s, uint64_t date) {
    int64_t fields[JIHOWEKA_FIELDS];
    uint64_t number = jihoweka_run(PART(settings), PART(meters), PART(readings), PART(cells),
                                   PART(days), date, RESULTS);
    printf("run %" PRIu64 ": ", date);
    if (accepted(number, fields)) printf("%" PRId64 " cells moved\n", fields[JIHOWEKA_MOVED]);
}

/* ---- calls that read */

static void print_totals(const struct store *s, uint64_t date, uint64_t category) {
    static const char *const NAMES[] = {"TOT ", " OFF ", " PEAK ", " TOT7 ", " OFF7 ", " PEAK7 "};
    int64_t fields[JIHOWEKA_FIELDS];
    uint64_t number = jihoweka_read_totals(PART(settings), PART(days), date, category, RESULTS);
    printf("totals of date %" PRIu64 ", category %" PRIu64 ": ", date, category);
    if (!accepted(number, fields)) return;
    for (int i = JIHOWEKA_TOT; i <= JIHOWEKA_PEAK7; i++) print_kwh(NAMES[i], fields[i]);
    printf(" days7 %" PRId64, fields[JIHOWEKA_DAYS7]);
    print_kwh(" ANN ", fields[JIHOWEKA_ANN]);
    printf(" days %" PRId64 " FRESH %" PRId64, fields[JIHOWEKA_DAYS], fields[JIHOWEKA_FRESH]);
    printf(" BLANK %" PRId64 "\n", fields[JIHOWEKA_BLANK]);
}

static void print_cell(const struct store *s, uint64_t date, uint64_t category, uint64_t period) {
    int64_t fields[JIHOWEKA_FIELDS];
    uint64_t number =
        jihoweka_read_cell(PART(settings), PART(cells), date, category, period, RESULTS);
    printf("cell of date %" PRIu64 ", category %" PRIu64, date, category);
    printf(", period %" PRIu64 ": ", period);
    if (!accepted(number, fields)) return;
    printf("%c", (char)fields[JIHOWEKA_FLAG]);
    print_kwh(" ", fields[JIHOWEKA_VALUE]);
    printf(" %" PRId64, fields[JIHOWEKA_COUNT]);
    if (fields[JIHOWEKA_ORIGIN] == JIHOWEKA_NO_ORIGIN) printf(" -");
    else printf(" %" PRId64, fields[JIHOWEKA_ORIGIN]);
    printf(" %" PRId64 "\n", fields[JIHOWEKA_REMAINDER]);
}

/* What a run of the date would do. The store stays as it is, the draft gets the date's cells. */
static void preview_date(const struct store *s, uint64_t date, uint64_t *draft, size_t length) {
    int64_t fields[JIHOWEKA_FIELDS];
    uint64_t number = jihoweka_preview(PART(settings), PART(meters), PART(readings), PART(cells),
                                       PART(days), draft, length, date, RESULTS);
    printf("preview %" PRIu64 ": ", date);
    if (accepted(number, fields)) printf("%" PRId64 " cells would move\n", fields[JIHOWEKA_MOVED]);
}

/* Flag and value of each period, eight to a line, out of the draft or as the date was run. */
static void print_row(const struct store *s, const uint64_t *draft, size_t length, uint64_t date,
                      uint64_t category, int from_draft) {
    int64_t fields[JIHOWEKA_FIELDS] = {0}; /* a refused row has no place */
    uint64_t number;
    uint64_t periods = jihoweka_read_row(PART(settings), PART(cells), draft, length, date, category,
                                         from_draft != 0, &number);
    printf("row of date %" PRIu64 ", category %" PRIu64, date, category);
    printf(", %s: ", from_draft ? "draft" : "published");
    if (!accepted(number, fields)) return;
    const uint64_t *row = from_draft
        ? draft + JIHOWEKA_DRAFT_ROW(PERIODS, category)
        : s->cells + JIHOWEKA_PUBLISHED_ROW(CATEGORIES, PERIODS, date, category);
    printf("%" PRIu64 " periods", periods);
    for (size_t j = 0; j < periods; j++) {
        jihoweka_read_entry(row[j], RESULTS);
        printf("%s%c", j % 8 == 0 ? "\n  " : " ", (char)fields[JIHOWEKA_FLAG]);
        print_kwh(" ", fields[JIHOWEKA_VALUE]);
    }
    putchar('\n');
}

/* Eight periods to a line; a star says that a shape in the number is missing. */
static void print_net(const struct store *s, uint64_t date, uint64_t category, int all_groups) {
    int64_t fields[JIHOWEKA_FIELDS], nets[PERIODS];
    uint8_t marks[PERIODS];
    uint64_t number =
        jihoweka_read_net(PART(settings), PART(cells), PART(days), date, category, all_groups != 0,
                          nets, PERIODS, marks, PERIODS, RESULTS);
    printf("net of date %" PRIu64 ", category %" PRIu64, date, category);
    printf(", %s: ", all_groups ? "all groups" : "own group");
    if (!accepted(number, fields)) return;
    print_kwh("TOT ", fields[JIHOWEKA_NET_TOT]);
    print_kwh(" TOT7 ", fields[JIHOWEKA_NET_TOT7]);
    for (size_t j = 0; j < PERIODS; j++) {
        print_kwh(j % 8 == 0 ? "\n  " : " ", nets[j]);
        if (marks[j]) putchar('*');
    }
    putchar('\n');
}

/* The dates of day type 1 with 63.652 to 69.122 kWh in category 0; room is DATES at most. */
static void print_band(const struct store *s, size_t room) {
    int64_t fields[JIHOWEKA_FIELDS];
    uint64_t dates[DATES];
    uint64_t number =
        jihoweka_search_band(PART(settings), PART(days), 0, 1, 63652, 69122, dates, room, RESULTS);
    printf("band with room for %zu: ", room);
    if (!accepted(number, fields)) return;
    printf("%" PRId64 " of %" PRId64 ":", fields[JIHOWEKA_WRITTEN], fields[JIHOWEKA_FOUND]);
    for (int64_t i = 0; i < fields[JIHOWEKA_WRITTEN]; i++) printf(" %" PRIu64, dates[i]);
    putchar('\n');
}

/* What each of the missing periods gets of a register's advance in Wh, and the sum of the day. */
static void print_fill(const struct store *s, uint64_t date, uint64_t category, size_t first,
                       size_t last, uint32_t advance) {
    int64_t fields[JIHOWEKA_FIELDS];
    uint8_t missing[PERIODS] = {0};
    uint64_t filled[PERIODS], sum = 0;
    for (size_t j = first; j <= last; j++) missing[j - 1] = 1;
    uint64_t number = jihoweka_fill(PART(settings), PART(cells), date, category, advance, missing,
                                    PERIODS, filled, PERIODS, RESULTS);
    printf("fill of date %" PRIu64 ", category %" PRIu64, date, category);
    printf(", periods %zu to %zu", first, last);
    print_kwh(", advance ", advance);
    printf(": ");
    if (!accepted(number, fields)) return;
    for (size_t j = 0; j < PERIODS; j++) {
        sum += filled[j];
        if (missing[j]) print_kwh(j + 1 == first ? "" : " ", (int64_t)filled[j]);
    }
    print_kwh(" sum ", (int64_t)sum);
    putchar('\n');
}

/* How much of the week and of the year up to the date is real. */
static void print_coverage(const struct store *s, uint64_t date, uint64_t category) {
    static const char *const NAMES[] = {"FRESH7", " BLANK7", " FRESH365", " BLANK365"};
    int64_t fields[JIHOWEKA_FIELDS];
    uint64_t number = jihoweka_read_coverage(PART(settings), PART(days), date, category, RESULTS);
    printf("coverage of date %" PRIu64 ", category %" PRIu64 ": ", date, category);
    if (!accepted(number, fields)) return;
    for (int i = JIHOWEKA_FRESH7; i <= JIHOWEKA_BLANK365; i++)
        printf("%s %" PRId64, NAMES[i], fields[i]);
    if (fields[JIHOWEKA_OLDEST] == JIHOWEKA_NO_ORIGIN) puts(" oldest -");
    else printf(" oldest %" PRId64 "\n", fields[JIHOWEKA_OLDEST]);
}

/* ---- the file of days */

/* Takes a number up to `most` and the character behind it; the file's end also ends a line. */
static int take(FILE *file, uint64_t most, int end, uint64_t *number) {
    int next = getc(file), digits = 0;
    for (*number = 0; next >= '0' && next <= '9' && *number <= most; next = getc(file), digits = 1)
        *number = 10 * *number + (uint64_t)(next - '0');
    return digits && *number <= most && (next == end || (next == EOF && end == '\n'));
}

static void receive_file(struct store *s, const char *path) {
    const uint64_t eighteen_digits = 999999999999999999;
    uint64_t mpan, date, hours, minutes, quality, wh;
    struct day day = {0, 0, 0, {0}}; /* until the first line */
    unsigned long line = 1;
    char first_line[32];
    FILE *file = fopen(path, "rb");
    if (file == NULL) fail(path, "cannot be read");
    int good = fgets(first_line, sizeof first_line, file) != NULL &&
               strcmp(first_line, "mpan,date,end,quality,Wh\n") == 0;
    for (int next; good && (next = getc(file)) != EOF; line++) {
        ungetc(next, file);
        good = take(file, eighteen_digits, ',', &mpan) && take(file, eighteen_digits, ',', &date) &&
               take(file, 24, ':', &hours) && take(file, 59, ',', &minutes) &&
               take(file, UINT8_MAX, ',', &quality) && take(file, UINT32_MAX, '\n', &wh);
        if (!good) continue;
        if (mpan != day.mpan || date != day.date) {
            receive_day(s, &day);
            day.mpan = mpan;
            day.date = date;
            day.records = 0;
        }
        add_record(&day, 60 * hours + minutes, quality, wh);
    }
    if (ferror(file)) fail(path, "cannot be read");
    if (!good) {
        fprintf(stderr, "%s: line %lu is not mpan,date,end,quality,Wh\n", path, line);
        exit(1);
    }
    fclose(file);
    receive_day(s, &day);
}

/* ---- the example */

static void shape_dates(struct store *s) {
    for (uint64_t date = 0; date < DATES - 1; date++) run_date(s, date);
    for (uint64_t date = 0; date < DATES; date++) print_totals(s, date, 0);
    for (uint64_t category = 1; category < CATEGORIES; category++) print_totals(s, 0, category);
    print_cell(s, 0, 0, 1);
    print_cell(s, 0, 2, 1);
    print_cell(s, 0, 1, 25);
    print_cell(s, 1, 2, 1);
    print_net(s, 0, 0, 0);
    print_net(s, 0, 2, 0);
    print_net(s, 4, 0, 1);
    print_net(s, 0, 1, 0); /* of an export category there is none */
    print_band(s, DATES);
    print_band(s, 2);
    print_fill(s, 4, 0, 17, 24, 13000); /* the second meter sent nothing from 08:00 to 12:00 */
    print_fill(s, 2, 0, 17, 24, 13000); /* at that time date 2 has no shape */
    print_coverage(s, 4, 0);
    print_coverage(s, 2, 1); /* not one period of date 2 has a shape there */
}

/* A meter's date 0 comes again. What was copied from it follows once date 0 is run again; before
   that its new row is looked at beside the published one. */
static void correct_first_date(struct store *s) {
    struct day late = {METER_LIST[0].mpan, 0, 0, {0}};
    for (uint64_t end = DURATION; end <= 1440; end += DURATION) add_record(&late, end, 1, 2000);
    receive_day(s, &late);
    print_totals(s, 1, 0);
    uint64_t draft[JIHOWEKA_DRAFT_LENGTH(CATEGORIES, PERIODS)];
    const size_t length = JIHOWEKA_DRAFT_LENGTH(CATEGORIES, PERIODS);
    preview_date(s, 0, draft, length);
    print_row(s, draft, length, 0, 0, 0);
    print_row(s, draft, length, 0, 0, 1);
    preview_date(s, 0, draft, length - 1); /* no room for a date */
    print_row(s, draft, length, DATES - 1, 0, 0); /* not run */
    run_date(s, 0);
    print_totals(s, 0, 0);
    print_totals(s, 1, 0);
    print_cell(s, 1, 2, 1);
    print_net(s, 1, 0, 1);
    print_band(s, DATES);
    print_coverage(s, 1, 0);
}

int main(int count, char **arguments) {
    if (count != 3) fail("usage", "head_end DAYS STORE");
    struct store s = allocate();
    open_store(&s);
    for (size_t i = 0; i < METERS; i++)
        register_meter(&s, METER_LIST[i].mpan, METER_LIST[i].category);
    register_meter(&s, METER_LIST[0].mpan + 1, 0); /* mistyped */
    receive_file(&s, arguments[1]);
    shape_dates(&s);
    save(&s, arguments[2]);
    free(s.header);

    s = allocate();
    load(&s, arguments[2]);
    correct_first_date(&s);
    free(s.header);
    if (fflush(stdout) != 0) fail("standard output", "cannot be written");
    return 0;
}
