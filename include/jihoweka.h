/* Jihoweka, a load-shaping engine by METH005 version 5.3: its calls, for C99 and later and for C++.

   Link libjihoweka.a or libjihoweka.so (x86-64 Linux). It needs memcpy and memset of the C library
   and nothing else: it allocates nothing, keeps nothing between calls and writes to no file.

   A store is five parts, arrays that the caller owns and lends to each call:

     settings   uint8_t    what the opening was given
     meters     uint64_t   registrations
     readings   uint64_t   the sets held
     cells      uint64_t   the shapes
     days       uint64_t   the totals and the coverage of each date

   Their least lengths are the macros below. Parts may be longer: what stands past the least length
   is neither read nor written. jihoweka_open makes a new, empty store and overwrites what the parts
   held. A store that was saved and loaded byte for byte is used as it is, and not opened again;
   that holds for one JIHOWEKA_LAYOUT and one byte order. Parts full of zeros are unopened.
   Header and library go together: a later version may lay the parts out anew, and its calls may be
   lent other parts.

   A draft is one array more, of uint64_t, and no part of the store: a preview writes the cells into
   it that a run would publish. It holds entries as `cells` has them, and remembers neither the
   store nor the date that they are of.

   What a call returns
     JIHOWEKA_ACCEPTED, or the number of the first check that failed; each call lists its checks in
     their order. The results of an accepted call stand at the front of `fields`: energies in Wh, a
     flag as its ASCII letter. A refused call changes nothing but fields[JIHOWEKA_PLACE], which it
     sets to the place of the bad record, window, category record or day type, from 1, or to 0 where
     the number names none. All other entries of `fields` keep their contents, all of them where an
     accepted call has no results. Where `fields` has fewer than JIHOWEKA_FIELDS entries, every call
     that has `fields` returns JIHOWEKA_SHORT before all its checks and writes nothing at all.
     One call has another form: jihoweka_read_row returns the length of a row. It has no `fields`,
     and puts its number into a lent number of its own.

   What is promised whatever comes
     Every value of every number is allowed, and is refused where it is out of range, but for a day
     type that is searched for: of such a one there is no date. (A sender has 16 bits, a limit and
     an advance have 32, as in the trade's messages: C itself cuts down a wider number, so look at
     it before.)
     Every content of the parts and of a draft is allowed too, also parts that were damaged or do
     not belong together: a call then ends, and reads and writes nothing outside its arrays.

   The caller's duty, all of it
     - An array is a pointer and a count of its entries, and that many entries are there. A null
       pointer is allowed with the count 0 only. One that has no count is to one entry.
     - A pointer is aligned for its type.
     - An array that a call writes overlaps no other array of the same call: parts, draft, `fields`,
       lists and the number for results alike.
     - While a call goes on, nothing else writes its arrays, and nothing else reads those that it
       writes. So calls on different stores may go on at the same time, and so may reads and
       previews of one store, each with `fields`, lists and number of its own, and each preview with
       a draft of its own, of which no row is read meanwhile.
     - There is stack for the call: 160 KB for jihoweka_run and jihoweka_preview, 4 KB for any
       other. */
#ifndef JIHOWEKA_H
#define JIHOWEKA_H

#include <stddef.h>
#include <stdint.h>

#ifdef __cplusplus
extern "C" {
#endif

/* ---- numbers */

enum jihoweka_number {
    JIHOWEKA_ACCEPTED = 0,
    JIHOWEKA_SHORT = 1,               /* an array is too short, or the store is unopened */
    JIHOWEKA_CATEGORY_UNKNOWN = 2,    /* the registration in force names a category that is not
                                         there; never on a store that these calls made */
    JIHOWEKA_SIZE = 3,                /* opening: duration, meter_count, or the length of
                                         category_records or day_types */
    JIHOWEKA_CATEGORY_RECORD = 4,     /* opening: bad, its window is beyond the list, or an
                                         earlier one has its key (place) */
    JIHOWEKA_DAY_TYPE = 5,            /* opening: not 1 to 16 (place) */
    JIHOWEKA_MPAN = 6,                /* 0, above 9999999999999, or a wrong check digit */
    JIHOWEKA_NOT_REGISTERED = 7,      /* no registration of the meter is in force on the date */
    JIHOWEKA_STORE_FULL = 8,          /* one meter more than the store was opened for */
    JIHOWEKA_DATE = 9,                /* the date is past the last one */
    JIHOWEKA_START_TOO_EARLY = 10,    /* not after the start of the meter's last registration */
    JIHOWEKA_SET_HELD = 11,           /* a set is held on or after the start */
    JIHOWEKA_NINTH_REGISTRATION = 12, /* the meter has eight */
    JIHOWEKA_BODY = 13,               /* its length is no multiple of 7 (place 0), or a record's
                                         quality is not 1 to 14 (place) */
    JIHOWEKA_NOT_RUN = 14,            /* the date was not run */
    JIHOWEKA_RANGE = 15,              /* no such category or period */
    JIHOWEKA_REGISTRATION = 16,       /* minute, category or status, or the minute moves the start
                                         past the last date */
    JIHOWEKA_NOTHING_TO_FILL = 17,    /* no period is missing, or the values of those that are add
                                         up to 0 */
    JIHOWEKA_DRAFT_SHORT = 18,        /* the draft has fewer entries than a date has cells */
    JIHOWEKA_WINDOW = 19,             /* opening: off the period grid, start not below end, end past
                                         1440, no end, or a ninth (place) */
    JIHOWEKA_NO_PARTNER = 26,         /* not Smart import, or no export category to net it with */
    JIHOWEKA_SENDER = 1001,           /* not the one appointed at midday of the date */
    JIHOWEKA_QUANTITY = 1002,         /* not that of its category */
    JIHOWEKA_DURATION = 1004,         /* not that of the store */
    JIHOWEKA_END_MINUTE = 1005,       /* closes no period (place) */
    JIHOWEKA_DUPLICATE = 1006,        /* an earlier record has this end minute (place) */
    JIHOWEKA_DE_ENERGISED = 1008,     /* quality above 9 (place) */
    JIHOWEKA_DISCONNECTED = 1009,     /* any record (place) */
    JIHOWEKA_ZERO_ESTIMATE = 1011,    /* quality 10 to 13, and not 0 Wh (place) */
    JIHOWEKA_ABOVE_LIMIT = 1012       /* more Wh than the meter's limit (place) */
};

enum {
    JIHOWEKA_LAYOUT = 6,              /* of the parts; another one has other entries, also where all
                                         lengths are the same */
    JIHOWEKA_FIELDS = 11,             /* entries that `fields` has at least */
    JIHOWEKA_CATEGORY_BYTES = 8,      /* of a category record */
    JIHOWEKA_RECORD_BYTES = 7,        /* of a record of a body */
    JIHOWEKA_NO_ORIGIN = 65535        /* the origin of a cell with flag N, and the oldest one of a
                                         date that has no other cells */
};

/* ---- where results stand in `fields` */

enum { JIHOWEKA_PLACE = 0 };          /* of a refusal */
enum { JIHOWEKA_MOVED = 0 };
enum {
    JIHOWEKA_TOT, JIHOWEKA_OFF, JIHOWEKA_PEAK, JIHOWEKA_TOT7, JIHOWEKA_OFF7, JIHOWEKA_PEAK7,
    JIHOWEKA_DAYS7, JIHOWEKA_ANN, JIHOWEKA_DAYS, JIHOWEKA_FRESH, JIHOWEKA_BLANK
};
enum {
    JIHOWEKA_FLAG, JIHOWEKA_VALUE, JIHOWEKA_COUNT, JIHOWEKA_ORIGIN, JIHOWEKA_REMAINDER
};
enum { JIHOWEKA_NET_TOT, JIHOWEKA_NET_TOT7 };
enum { JIHOWEKA_WRITTEN, JIHOWEKA_FOUND };
enum {
    JIHOWEKA_FRESH7, JIHOWEKA_BLANK7, JIHOWEKA_FRESH365, JIHOWEKA_BLANK365, JIHOWEKA_OLDEST
};

/* ---- least lengths of the parts in entries, for sizes that an opening accepts */

#define JIHOWEKA_PERIODS(duration) (1440 / (size_t)(duration))
#define JIHOWEKA_SETTINGS_LENGTH(categories, dates) \
    (40 + 8 * (size_t)(categories) + (size_t)(dates))
#define JIHOWEKA_METERS_LENGTH(meters) (41 * (size_t)(meters))
#define JIHOWEKA_READINGS_LENGTH(meters, dates, periods) \
    ((size_t)(dates) * (size_t)(meters) * (1 + (size_t)(periods)))
#define JIHOWEKA_CELLS_LENGTH(categories, dates, periods) \
    ((size_t)(dates) * (size_t)(categories) * (size_t)(periods))
#define JIHOWEKA_DAYS_LENGTH(categories, dates) (4 * (size_t)(categories) * (size_t)(dates))

/* ---- the least length of a draft in entries, and where a category's row begins: in `cells`, for
   a date, and in a draft; for dates and categories that are there */

#define JIHOWEKA_DRAFT_LENGTH(categories, periods) ((size_t)(categories) * (size_t)(periods))
#define JIHOWEKA_PUBLISHED_ROW(categories, periods, date, category) \
    (((size_t)(date) * (size_t)(categories) + (size_t)(category)) * (size_t)(periods))
#define JIHOWEKA_DRAFT_ROW(periods, category) ((size_t)(category) * (size_t)(periods))

/* ---- calls

   Dates and categories count from 0, periods from 1 to P = 1440 / duration; period j ends at minute
   j x duration, the last one at 1440. Mind the order of the numbers: it is each call's own. */

/* Makes a new store of the parts: all five are written.
     duration          minutes of a period, 15 or 30
     meter_count       the most meters that it will know, 1 to 1024
     windows           the off-peak windows, 0 to 8: start minute, end minute, start, end and so on
                       (the length is in minutes, 2 for each window). Both are multiples of the
                       duration, the start is below the end, the end is 1440 at most. Windows may be
                       alike or overlap. 0, 420, 30, 450 are 00:00 to 07:00 and 00:30 to 07:30.
     category_records  1 to 64 of 8 bytes each (the length is in bytes): segment (1 Smart, 2
                       Advanced), GSP group (1 to 14 for A B C D E F G H J K L M N P), domestic
                       (1 yes, 2 no), quantity (1 active import, 2 active export), connection (1 W,
                       2 L, 3 H, 4 E), off-peak window (0 none, else the place of a window in
                       `windows`, from 1), de-minimis (how many readings make a shape, 0 as 1; 2
                       bytes, the high one first). Group, domestic and window are 0 in an Advanced
                       one. The first five bytes are the key. A family is all Smart categories alike
                       in domestic, quantity and connection.
     day_types         one for each date, 1 to 800 of them, each 1 to 16; a cell without a shape of
                       its own takes over that of the nearest earlier run date of the same type
   Results: none. Checks: 3, 19, 4, 5, 1. */
uint64_t jihoweka_open(
    uint8_t *settings, size_t settings_length,
    uint64_t *meters, size_t meters_length,
    uint64_t *readings, size_t readings_length,
    uint64_t *cells, size_t cells_length,
    uint64_t *days, size_t days_length,
    uint64_t duration,
    uint64_t meter_count,
    const uint64_t *windows, size_t windows_length,
    const uint8_t *category_records, size_t category_records_length,
    const uint8_t *day_types, size_t day_types_length,
    int64_t *fields, size_t fields_length);

/* Registers a meter. Category, status and limit are in force from `date` on where minute is 0, else
   from the date after it; the sender is appointed from `date` on where minute is at most 720, its
   midday, else from the date after it. Either lasts until that of a later registration. Writes
   meters.
     mpan    13 digits. The first twelve times 3, 5, 7, 13, 17, 19, 23, 29, 31, 37, 41, 43, summed,
             modulo 11 and then modulo 10, are the last.
     minute  0 to 1439
     sender  who may send the meter's days; any 16 bits
     status  1 energised, 2 de-energised, 3 disconnected
     limit   the most that a record may have, in Wh; any 32 bits
   Results: none. Checks: 1, 9, 6, 16, 8, 10, 11, 12. */
uint64_t jihoweka_register(
    const uint8_t *settings, size_t settings_length,
    uint64_t *meters, size_t meters_length,
    const uint64_t *readings, size_t readings_length,
    uint64_t mpan,
    uint64_t date,
    uint64_t minute,
    uint64_t category,
    uint16_t sender,
    uint64_t status,
    uint32_t limit,
    int64_t *fields, size_t fields_length);

/* Takes a meter day in place of the one held. Writes readings.
     sender              the one appointed at midday of the date
     quantity, duration  that of the category in force, that of the store
     body  records of 7 bytes each (the length is in bytes), in any order, the high byte first: end
           minute (2), quality (1), Wh (4). Qualities 1 to 7 (A, A1, A2, A3, AAE1, AAE2, AAE3) are
           readings; 8 to 14 (E2, E6, ZE, ZE1, ZE2, ZE3, any other) are accepted and are none. Not
           every period needs a record, and an empty body is a day without readings.
   Results: none. Checks: 1, 9, 6, 7, 2, 1001, 1002, 1004, 13; then of one record after the
   other 13, 1005, 1006, 1008, 1009, 1011, 1012. */
uint64_t jihoweka_receive(
    const uint8_t *settings, size_t settings_length,
    const uint64_t *meters, size_t meters_length,
    uint64_t *readings, size_t readings_length,
    uint16_t sender,
    uint64_t mpan,
    uint64_t date,
    uint64_t duration,
    uint64_t quantity,
    const uint8_t *body, size_t body_length,
    int64_t *fields, size_t fields_length);

/* Makes a date's cells from the sets held; a cell with too few readings takes over that of the
   nearest earlier run date of the same day type. Later run dates of the day type follow, wherever
   they have no shape of their own; totals and coverage of this and later dates follow. Writes cells
   and days.
   Results: moved, how many cells of all dates differ from before in any field of the cell read, its
   remainder too; a date not run has cells N. Checks: 1, 9. */
uint64_t jihoweka_run(
    const uint8_t *settings, size_t settings_length,
    const uint64_t *meters, size_t meters_length,
    const uint64_t *readings, size_t readings_length,
    uint64_t *cells, size_t cells_length,
    uint64_t *days, size_t days_length,
    uint64_t date,
    int64_t *fields, size_t fields_length);

/* Shows what a run of the date would do: the store stays as it is. Writes the first
   JIHOWEKA_DRAFT_LENGTH entries of `draft`, which become those that the run would leave in `cells`
   for the date; its other entries keep their contents, all of them after a refusal.
     draft  what it holds does not matter; JIHOWEKA_DRAFT_LENGTH entries at least, else 18
   Results: moved, as the run would report it, later dates included. Checks: 1, 18, 9. */
uint64_t jihoweka_preview(
    const uint8_t *settings, size_t settings_length,
    const uint64_t *meters, size_t meters_length,
    const uint64_t *readings, size_t readings_length,
    const uint64_t *cells, size_t cells_length,
    const uint64_t *days, size_t days_length,
    uint64_t *draft, size_t draft_length,
    uint64_t date,
    int64_t *fields, size_t fields_length);

/* The totals of a run date and category.
   Results: TOT of the day, of it OFF in the off-peak window and PEAK outside it (both 0 without a
   window); TOT7, OFF7, PEAK7, the same over the run dates among this and the 6 before, and days7,
   how many those are; ANN, TOT over the run dates among this and the 364 before, scaled to 365
   days, halves of a Wh up, and days, how many those are; FRESH, how many of the day's cells have
   flag A or D; BLANK, how many have N. Checks: 1, 9, 15, 14. */
uint64_t jihoweka_read_totals(
    const uint8_t *settings, size_t settings_length,
    const uint64_t *days, size_t days_length,
    uint64_t date,
    uint64_t category,
    int64_t *fields, size_t fields_length);

/* A cell of a run date: an average in whole Wh, halves up.
   Results: flag ('A' over the category's readings, 'D' over those of its family, 'E' taken over
   from an earlier date, 'N' none), value, count of the readings in it, origin, the date that they
   are of (JIHOWEKA_NO_ORIGIN for 'N'), remainder, what rounding dropped in whole Wh with its sign:
   value x count + remainder is the sum of those readings, and -count <= 2 x remainder < count (0
   for 'N'). Checks: 1, 9, 15, 14. */
uint64_t jihoweka_read_cell(
    const uint8_t *settings, size_t settings_length,
    const uint64_t *cells, size_t cells_length,
    uint64_t date,
    uint64_t category,
    uint64_t period,
    int64_t *fields, size_t fields_length);

/* A category's row, of a run date out of `cells` or out of a draft. It is P entries of that array,
   one for each period, and stays there: in `cells` from JIHOWEKA_PUBLISHED_ROW on, in `draft` from
   JIHOWEKA_DRAFT_ROW on. Returns its length: P, or 0 where the call is refused.
     draft       JIHOWEKA_DRAFT_LENGTH entries at least, else 18, also where it is not asked for
     date        of the published row; the draft's is the same with every date that there is
     from_draft  0: the published row; any other number: the draft's, whatever it holds
     number      set to JIHOWEKA_ACCEPTED, or to the number of the first check that failed; all that
                 this call writes
   Checks: 1, 18, 9, 15, 14 (of a published row alone). */
uint64_t jihoweka_read_row(
    const uint8_t *settings, size_t settings_length,
    const uint64_t *cells, size_t cells_length,
    const uint64_t *draft, size_t draft_length,
    uint64_t date,
    uint64_t category,
    uint64_t from_draft,
    uint64_t *number);

/* The cell of an entry of a row; every number reads as some cell.
   Results: flag, value, count, origin, remainder, as of jihoweka_read_cell. Checks: none. */
uint64_t jihoweka_read_entry(
    uint64_t entry,
    int64_t *fields, size_t fields_length);

/* Import less export of a run date, for each period. Writes the first P entries of both lists.
     category    a Smart import category
     all_groups  0: with the export category of its own group; any other number: all groups of both
                 families
     numbers     the net of each period in Wh; P entries at least
     marks       1 where a cell summed has flag N, else 0; P entries at least
   Numbers, marks and net TOT are of the cells, net TOT7 is of the days.
   Results: net TOT, the sum of the numbers; net TOT7, the same over the run dates among this and
   the 6 before. Checks: 1 (of both lists too), 9, 15, 26, 14. */
uint64_t jihoweka_read_net(
    const uint8_t *settings, size_t settings_length,
    const uint64_t *cells, size_t cells_length,
    const uint64_t *days, size_t days_length,
    uint64_t date,
    uint64_t category,
    uint64_t all_groups,
    int64_t *numbers, size_t numbers_length,
    uint8_t *marks, size_t marks_length,
    int64_t *fields, size_t fields_length);

/* The run dates of a day type whose TOT for the category lies from `least` to `most` Wh, both
   included, upward. Writes as many into `dates` as it holds, which may be none; its other entries
   keep their contents.
     day_type  1 to 16; with any other, and where least is above most, there are no such dates
   Results: how many were written, how many there are. Checks: 1, 15. */
uint64_t jihoweka_search_band(
    const uint8_t *settings, size_t settings_length,
    const uint64_t *days, size_t days_length,
    uint64_t category,
    uint64_t day_type,
    uint64_t least,
    uint64_t most,
    uint64_t *dates, size_t dates_length,
    int64_t *fields, size_t fields_length);

/* Shares a register advance among the missing periods of a run date, by the category's shape: each
   gets the whole part of advance x value / sum of the missing periods' values, and the Wh left over
   go one each to the largest remainders, the earlier period first among equals. So what is filled
   adds up to the advance. It becomes no reading: the store stays as it is. Writes the first P
   entries of `filled`.
     advance  in Wh; any 32 bits
     missing  a mark for each period, any but 0 where it is missing; P entries at least, of which
              the first P count
     filled   the Wh of each period, 0 where nothing is missing; P entries at least
   A value counts whatever its cell's flag, and is 0 for 'N'.
   Results: none. Checks: 1 (of both lists too), 9, 15, 14, 17. */
uint64_t jihoweka_fill(
    const uint8_t *settings, size_t settings_length,
    const uint64_t *cells, size_t cells_length,
    uint64_t date,
    uint64_t category,
    uint32_t advance,
    const uint8_t *missing, size_t missing_length,
    uint64_t *filled, size_t filled_length,
    int64_t *fields, size_t fields_length);

/* The same for a domestic Advanced meter that opted out of half-hours: by the Smart domestic
   category with this group, quantity and connection, as an opening numbers them; 15 where there is
   none. Results: none. Checks: 1 (of both lists too), 9, 15, 14, 17. */
uint64_t jihoweka_fill_opted_out(
    const uint8_t *settings, size_t settings_length,
    const uint64_t *cells, size_t cells_length,
    uint64_t date,
    uint64_t group,
    uint64_t quantity,
    uint64_t connection,
    uint32_t advance,
    const uint8_t *missing, size_t missing_length,
    uint64_t *filled, size_t filled_length,
    int64_t *fields, size_t fields_length);

/* How much of a category's week and year up to a run date is real.
   Results: FRESH7, how many cells have flag 'A' or 'D', and BLANK7, how many have 'N', over the run
   dates among this and the 6 before; FRESH365 and BLANK365, the same over those among this and the
   364 before; oldest, the smallest origin among the date's cells that do not have 'N', copies
   included (JIHOWEKA_NO_ORIGIN if all have it). Checks: 1, 9, 15, 14. */
uint64_t jihoweka_read_coverage(
    const uint8_t *settings, size_t settings_length,
    const uint64_t *days, size_t days_length,
    uint64_t date,
    uint64_t category,
    int64_t *fields, size_t fields_length);

#ifdef __cplusplus
}
#endif

#endif
