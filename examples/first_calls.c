/* The first calls on a store: one meter, one category, two dates of 48 half hours. */
#include "jihoweka.h"
#include <inttypes.h>
#include <stdio.h>
#define LEND(array) array, sizeof array / sizeof array[0] /* an array and its count of entries */
#define STORE LEND(settings), LEND(meters), LEND(readings)
static uint8_t settings[JIHOWEKA_SETTINGS_LENGTH(1, 2)];
static uint64_t meters[JIHOWEKA_METERS_LENGTH(1)], readings[JIHOWEKA_READINGS_LENGTH(1, 2, 48)];
static uint64_t cells[JIHOWEKA_CELLS_LENGTH(1, 2, 48)], days[JIHOWEKA_DAYS_LENGTH(1, 2)], dates[5];
static int64_t fields[JIHOWEKA_FIELDS];
static void show(const char *call, uint64_t number, int results) {
    printf("%s %" PRIu64, call, number);
    for (int i = 0; i < (number ? 1 : results); i++) printf(" %" PRId64, fields[i]);
    printf("\n");
}
int main(void) {
    const uint8_t category[] = {1, 1, 1, 1, 1, 1, 0, 1}, day_types[] = {1, 1};
    const uint8_t body[] = {0, 30, 1, 0, 0, 1, 244, 1, 224, 1, 0, 0, 0, 250}; /* 500, 250 Wh */
    const uint64_t mpan = 1000000000003, windows[] = {0, 420}; /* off-peak 00:00 to 07:00 */
    show("open", jihoweka_open(STORE, LEND(cells), LEND(days), 30, 1, LEND(windows),
                               LEND(category), LEND(day_types), LEND(fields)), 0);
    show("register", jihoweka_register(STORE, mpan, 0, 0, 0, 7, 1, 10000, LEND(fields)), 0);
    show("receive", jihoweka_receive(STORE, 7, mpan, 0, 30, 1, LEND(body), LEND(fields)), 0);
    for (uint64_t date = 0; date < 2; date++)
        show("run", jihoweka_run(STORE, LEND(cells), LEND(days), date, LEND(fields)), 1);
    show("totals", jihoweka_read_totals(LEND(settings), LEND(days), 1, 0, LEND(fields)), 11);
    show("cell", jihoweka_read_cell(LEND(settings), LEND(cells), 0, 1, 3, LEND(fields)), 5);
    show("band", jihoweka_search_band(LEND(settings), LEND(days), 0, 1, 750, 750, LEND(dates),
                                      LEND(fields)), 2);
}
