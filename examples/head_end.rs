//! The head-end of `head_end.c` over a safe wrapper of the library: the same calls, the same lines,
//! the same files. What they look like is said there.
//!
//!     head_end DAYS STORE

use std::fmt;
use std::process::ExitCode;

/// The calls as `include/jihoweka.h` declares them.
mod c {
    extern "C" {
        pub fn jihoweka_open(
            settings: *mut u8, settings_length: usize,
            meters: *mut u64, meters_length: usize,
            readings: *mut u64, readings_length: usize,
            cells: *mut u64, cells_length: usize,
            days: *mut u64, days_length: usize,
            duration: u64, meter_count: u64,
            windows: *const u64, windows_length: usize,
            category_records: *const u8, category_records_length: usize,
            day_types: *const u8, day_types_length: usize,
            fields: *mut i64, fields_length: usize,
        ) -> u64;
        pub fn jihoweka_register(
            settings: *const u8, settings_length: usize,
            meters: *mut u64, meters_length: usize,
            readings: *const u64, readings_length: usize,
            mpan: u64, date: u64, minute: u64, category: u64, sender: u16, status: u64, limit: u32,
            fields: *mut i64, fields_length: usize,
        ) -> u64;
        pub fn jihoweka_receive(
            settings: *const u8, settings_length: usize,
            meters: *const u64, meters_length: usize,
            readings: *mut u64, readings_length: usize,
            sender: u16, mpan: u64, date: u64, duration: u64, quantity: u64,
            body: *const u8, body_length: usize,
            fields: *mut i64, fields_length: usize,
        ) -> u64;
        pub fn jihoweka_run(
            settings: *const u8, settings_length: usize,
            meters: *const u64, meters_length: usize,
            readings: *const u64, readings_length: usize,
            cells: *mut u64, cells_length: usize,
            days: *mut u64, days_length: usize,
            date: u64,
            fields: *mut i64, fields_length: usize,
        ) -> u64;
        pub fn jihoweka_preview(
            settings: *const u8, settings_length: usize,
            meters: *const u64, meters_length: usize,
            readings: *const u64, readings_length: usize,
            cells: *const u64, cells_length: usize,
            days: *const u64, days_length: usize,
            draft: *mut u64, draft_length: usize,
            date: u64,
            fields: *mut i64, fields_length: usize,
        ) -> u64;
        pub fn jihoweka_read_totals(
            settings: *const u8, settings_length: usize,
            days: *const u64, days_length: usize,
            date: u64, category: u64,
            fields: *mut i64, fields_length: usize,
        ) -> u64;
        pub fn jihoweka_read_cell(
            settings: *const u8, settings_length: usize,
            cells: *const u64, cells_length: usize,
            date: u64, category: u64, period: u64,
            fields: *mut i64, fields_length: usize,
        ) -> u64;
        pub fn jihoweka_read_row(
            settings: *const u8, settings_length: usize,
            cells: *const u64, cells_length: usize,
            draft: *const u64, draft_length: usize,
            date: u64, category: u64, from_draft: u64,
            number: *mut u64,
        ) -> u64;
        pub fn jihoweka_read_entry(
            entry: u64,
            fields: *mut i64, fields_length: usize,
        ) -> u64;
        pub fn jihoweka_read_net(
            settings: *const u8, settings_length: usize,
            cells: *const u64, cells_length: usize,
            days: *const u64, days_length: usize,
            date: u64, category: u64, all_groups: u64,
            numbers: *mut i64, numbers_length: usize,
            marks: *mut u8, marks_length: usize,
            fields: *mut i64, fields_length: usize,
        ) -> u64;
        pub fn jihoweka_search_band(
            settings: *const u8, settings_length: usize,
            days: *const u64, days_length: usize,
            category: u64, day_type: u64, least: u64, most: u64,
            dates: *mut u64, dates_length: usize,
            fields: *mut i64, fields_length: usize,
        ) -> u64;
        pub fn jihoweka_fill(
            settings: *const u8, settings_length: usize,
            cells: *const u64, cells_length: usize,
            date: u64, category: u64, advance: u32,
            missing: *const u8, missing_length: usize,
            filled: *mut u64, filled_length: usize,
            fields: *mut i64, fields_length: usize,
        ) -> u64;
        pub fn jihoweka_read_coverage(
            settings: *const u8, settings_length: usize,
            days: *const u64, days_length: usize,
            date: u64, category: u64,
            fields: *mut i64, fields_length: usize,
        ) -> u64;
    }
}

// ---- the wrapper

const LAYOUT: u64 = 6;
const FIELDS: usize = 11;
const NO_ORIGIN: i64 = 65535;

struct Refusal {
    number: u64,
    place: i64,
}

struct Registration {
    mpan: u64,
    date: u64,
    minute: u64,
    category: u64,
    sender: u16,
    status: u64,
    limit: u32,
}

struct MeterDay {
    sender: u16,
    mpan: u64,
    date: u64,
    duration: u64,
    quantity: u64,
    body: Vec<u8>,
}

struct Cell {
    flag: char,
    value: i64,
    count: i64,
    origin: Option<i64>,
    remainder: i64,
}

impl Cell {
    fn of(fields: [i64; FIELDS]) -> Cell {
        Cell {
            flag: char::from(fields[0] as u8),
            value: fields[1],
            count: fields[2],
            origin: known(fields[3]),
            remainder: fields[4],
        }
    }

    /// That of an entry of a row; every number reads as some cell.
    fn of_entry(entry: u64) -> Result<Cell, Refusal> {
        // SAFETY: fields is our own.
        results(|fields, length| unsafe { c::jihoweka_read_entry(entry, fields, length) })
            .map(Cell::of)
    }
}

struct Net {
    tot: i64,
    tot7: i64,
    numbers: Vec<i64>,
    marks: Vec<u8>,
}

struct Coverage {
    fresh7: i64,
    blank7: i64,
    fresh365: i64,
    blank365: i64,
    oldest: Option<i64>,
}

/// The five parts, lent to each call as it asks for them. Until it is opened, and whatever else the
/// parts hold, calls are safe.
struct Store {
    settings: Vec<u8>,
    meters: Vec<u64>,
    readings: Vec<u64>,
    cells: Vec<u64>,
    days: Vec<u64>,
    categories: usize,
    periods: usize,
}

/// Makes a call with a list for its results, and gives them if it was accepted.
fn results(call: impl FnOnce(*mut i64, usize) -> u64) -> Result<[i64; FIELDS], Refusal> {
    let mut fields = [0; FIELDS];
    match call(fields.as_mut_ptr(), fields.len()) {
        0 => Ok(fields),
        number => Err(Refusal { number, place: fields[0] }),
    }
}

/// An origin as the date that it is, if it is one.
fn known(origin: i64) -> Option<i64> {
    Some(origin).filter(|&origin| origin != NO_ORIGIN)
}

// What the header asks of a caller holds in every call below, for the same reasons: a pointer and
// its count come from one slice, so it is aligned and the entries are there; what is written is
// borrowed as mutable or our own, so it overlaps nothing else and nothing else writes to it.
impl Store {
    /// An unopened store with the least lengths, for sizes that an opening accepts.
    fn allocate(duration: usize, meters: usize, categories: usize, dates: usize) -> Store {
        let periods = 1440 / duration;
        Store {
            settings: vec![0; 40 + 8 * categories + dates],
            meters: vec![0; 41 * meters],
            readings: vec![0; dates * meters * (1 + periods)],
            cells: vec![0; dates * categories * periods],
            days: vec![0; 4 * categories * dates],
            categories,
            periods,
        }
    }

    fn open(
        &mut self, duration: u64, meter_count: u64, windows: &[[u64; 2]], category_records: &[u8],
        day_types: &[u8],
    ) -> Result<(), Refusal> {
        let minutes = windows.concat();
        // SAFETY: five vectors of self, each borrowed as mutable, and three slices only read.
        results(|fields, length| unsafe {
            c::jihoweka_open(
                self.settings.as_mut_ptr(), self.settings.len(),
                self.meters.as_mut_ptr(), self.meters.len(),
                self.readings.as_mut_ptr(), self.readings.len(),
                self.cells.as_mut_ptr(), self.cells.len(),
                self.days.as_mut_ptr(), self.days.len(),
                duration, meter_count,
                minutes.as_ptr(), minutes.len(),
                category_records.as_ptr(), category_records.len(),
                day_types.as_ptr(), day_types.len(),
                fields, length,
            )
        })
        .map(|_| ())
    }

    fn register(&mut self, r: &Registration) -> Result<(), Refusal> {
        // SAFETY: of the vectors of self, meters is borrowed as mutable, the others are only read.
        results(|fields, length| unsafe {
            c::jihoweka_register(
                self.settings.as_ptr(), self.settings.len(),
                self.meters.as_mut_ptr(), self.meters.len(),
                self.readings.as_ptr(), self.readings.len(),
                r.mpan, r.date, r.minute, r.category, r.sender, r.status, r.limit,
                fields, length,
            )
        })
        .map(|_| ())
    }

    fn receive(&mut self, day: &MeterDay) -> Result<(), Refusal> {
        // SAFETY: readings is borrowed as mutable; the other parts and the body are only read.
        results(|fields, length| unsafe {
            c::jihoweka_receive(
                self.settings.as_ptr(), self.settings.len(),
                self.meters.as_ptr(), self.meters.len(),
                self.readings.as_mut_ptr(), self.readings.len(),
                day.sender, day.mpan, day.date, day.duration, day.quantity,
                day.body.as_ptr(), day.body.len(),
                fields, length,
            )
        })
        .map(|_| ())
    }

    /// How many cells moved.
    fn run(&mut self, date: u64) -> Result<i64, Refusal> {
        // SAFETY: cells and days are borrowed as mutable, the other parts are only read.
        results(|fields, length| unsafe {
            c::jihoweka_run(
                self.settings.as_ptr(), self.settings.len(),
                self.meters.as_ptr(), self.meters.len(),
                self.readings.as_ptr(), self.readings.len(),
                self.cells.as_mut_ptr(), self.cells.len(),
                self.days.as_mut_ptr(), self.days.len(),
                date,
                fields, length,
            )
        })
        .map(|fields| fields[0])
    }

    /// How many cells a run would move. The draft gets the date's cells.
    fn preview(&self, draft: &mut [u64], date: u64) -> Result<i64, Refusal> {
        // SAFETY: the five parts are only read; draft is borrowed as mutable, fields is our own.
        results(|fields, length| unsafe {
            c::jihoweka_preview(
                self.settings.as_ptr(), self.settings.len(),
                self.meters.as_ptr(), self.meters.len(),
                self.readings.as_ptr(), self.readings.len(),
                self.cells.as_ptr(), self.cells.len(),
                self.days.as_ptr(), self.days.len(),
                draft.as_mut_ptr(), draft.len(),
                date,
                fields, length,
            )
        })
        .map(|fields| fields[0])
    }

    /// TOT, OFF, PEAK, TOT7, OFF7, PEAK7, days7, ANN, days, FRESH, BLANK.
    fn totals(&self, date: u64, category: u64) -> Result<[i64; FIELDS], Refusal> {
        // SAFETY: both parts are only read; fields is our own.
        results(|fields, length| unsafe {
            c::jihoweka_read_totals(
                self.settings.as_ptr(), self.settings.len(),
                self.days.as_ptr(), self.days.len(),
                date, category,
                fields, length,
            )
        })
    }

    fn cell(&self, date: u64, category: u64, period: u64) -> Result<Cell, Refusal> {
        // SAFETY: both parts are only read; fields is our own.
        results(|fields, length| unsafe {
            c::jihoweka_read_cell(
                self.settings.as_ptr(), self.settings.len(),
                self.cells.as_ptr(), self.cells.len(),
                date, category, period,
                fields, length,
            )
        })
        .map(Cell::of)
    }

    /// A category's row as the date was run, or out of the draft where one is to be taken.
    fn row<'a>(
        &'a self, draft: &'a [u64], date: u64, category: u64, from_draft: bool,
    ) -> Result<&'a [u64], Refusal> {
        let mut number = 0;
        // SAFETY: both parts and the draft are only read; number is our own.
        let length = unsafe {
            c::jihoweka_read_row(
                self.settings.as_ptr(), self.settings.len(),
                self.cells.as_ptr(), self.cells.len(),
                draft.as_ptr(), draft.len(),
                date, category, u64::from(from_draft),
                &mut number,
            )
        } as usize;
        if number != 0 {
            return Err(Refusal { number, place: 0 });
        }
        let (date, category) = (date as usize, category as usize);
        let (array, date) = if from_draft { (draft, 0) } else { (&self.cells[..], date) };
        let first = (date * self.categories + category) * self.periods;
        Ok(&array[first..first + length])
    }

    fn net(&self, date: u64, category: u64, all_groups: bool) -> Result<Net, Refusal> {
        let (mut numbers, mut marks) = (vec![0; self.periods], vec![0; self.periods]);
        // SAFETY: the three parts are only read; both lists and fields are our own.
        results(|fields, length| unsafe {
            c::jihoweka_read_net(
                self.settings.as_ptr(), self.settings.len(),
                self.cells.as_ptr(), self.cells.len(),
                self.days.as_ptr(), self.days.len(),
                date, category, u64::from(all_groups),
                numbers.as_mut_ptr(), numbers.len(),
                marks.as_mut_ptr(), marks.len(),
                fields, length,
            )
        })
        .map(|f| Net { tot: f[0], tot7: f[1], numbers, marks })
    }

    /// The dates found, as many as `dates` holds, and how many there are.
    fn band<'a>(
        &self, category: u64, day_type: u64, least: u64, most: u64, dates: &'a mut [u64],
    ) -> Result<(&'a [u64], i64), Refusal> {
        // SAFETY: both parts are only read; dates is borrowed as mutable, fields is our own.
        results(|fields, length| unsafe {
            c::jihoweka_search_band(
                self.settings.as_ptr(), self.settings.len(),
                self.days.as_ptr(), self.days.len(),
                category, day_type, least, most,
                dates.as_mut_ptr(), dates.len(),
                fields, length,
            )
        })
        .map(|fields| (&dates[..fields[0] as usize], fields[1]))
    }

    /// The Wh of each period, 0 where `missing` has 0 for it.
    fn fill(
        &self, date: u64, category: u64, advance: u32, missing: &[u8],
    ) -> Result<Vec<u64>, Refusal> {
        let mut filled = vec![0; self.periods];
        // SAFETY: both parts and the marks are only read; filled and fields are our own.
        results(|fields, length| unsafe {
            c::jihoweka_fill(
                self.settings.as_ptr(), self.settings.len(),
                self.cells.as_ptr(), self.cells.len(),
                date, category, advance,
                missing.as_ptr(), missing.len(),
                filled.as_mut_ptr(), filled.len(),
                fields, length,
            )
        })
        .map(|_| filled)
    }

    fn coverage(&self, date: u64, category: u64) -> Result<Coverage, Refusal> {
        // SAFETY: both parts are only read; fields is our own.
        results(|fields, length| unsafe {
            c::jihoweka_read_coverage(
                self.settings.as_ptr(), self.settings.len(),
                self.days.as_ptr(), self.days.len(),
                date, category,
                fields, length,
            )
        })
        .map(|fields| Coverage {
            fresh7: fields[0],
            blank7: fields[1],
            fresh365: fields[2],
            blank365: fields[3],
            oldest: known(fields[4]),
        })
    }

    // The saved file, as in head_end.c.

    fn header(&self) -> Vec<u8> {
        let numbers = [&self.meters, &self.readings, &self.cells, &self.days].map(Vec::len);
        let mut header = (0x6A69686F77650000_u64 + LAYOUT).to_ne_bytes().to_vec();
        for length in numbers.into_iter().chain([self.settings.len()]) {
            header.extend((length as u64).to_ne_bytes());
        }
        header
    }

    fn save(&self, path: &str) -> Result<usize, String> {
        let mut bytes = self.header();
        for part in [&self.meters, &self.readings, &self.cells, &self.days] {
            bytes.extend(part.iter().flat_map(|entry| entry.to_ne_bytes()));
        }
        bytes.extend(&self.settings);
        std::fs::write(path, &bytes).map_err(|_| format!("{path}: cannot be written"))?;
        Ok(bytes.len())
    }

    /// Layout and lengths must be those of this store. Calls keep to them whatever the parts hold.
    fn load(&mut self, path: &str) -> Result<usize, String> {
        let bytes = std::fs::read(path).map_err(|_| format!("{path}: cannot be read"))?;
        let numbers =
            self.meters.len() + self.readings.len() + self.cells.len() + self.days.len();
        let header = self.header();
        let length = header.len() + 8 * numbers + self.settings.len();
        if bytes.len() != length || !bytes.starts_with(&header) {
            return Err(format!("{path}: is no store of this size and layout"));
        }
        let (entries, settings) = bytes[header.len()..].split_at(8 * numbers);
        let parts = [&mut self.meters, &mut self.readings, &mut self.cells, &mut self.days];
        for (entry, saved) in parts.into_iter().flatten().zip(entries.chunks_exact(8)) {
            *entry = u64::from_ne_bytes(saved.try_into().expect("eight bytes"));
        }
        self.settings.copy_from_slice(settings);
        Ok(bytes.len())
    }
}

impl fmt::Display for Refusal {
    fn fmt(&self, f: &mut fmt::Formatter) -> fmt::Result {
        let name = match self.number {
            1 => "SHORT",
            2 => "CATEGORY_UNKNOWN",
            3 => "SIZE",
            4 => "CATEGORY_RECORD",
            5 => "DAY_TYPE",
            6 => "MPAN",
            7 => "NOT_REGISTERED",
            8 => "STORE_FULL",
            9 => "DATE",
            10 => "START_TOO_EARLY",
            11 => "SET_HELD",
            12 => "NINTH_REGISTRATION",
            13 => "BODY",
            14 => "NOT_RUN",
            15 => "RANGE",
            16 => "REGISTRATION",
            17 => "NOTHING_TO_FILL",
            18 => "DRAFT_SHORT",
            19 => "WINDOW",
            26 => "NO_PARTNER",
            1001 => "SENDER",
            1002 => "QUANTITY",
            1004 => "DURATION",
            1005 => "END_MINUTE",
            1006 => "DUPLICATE",
            1008 => "DE_ENERGISED",
            1009 => "DISCONNECTED",
            1011 => "ZERO_ESTIMATE",
            1012 => "ABOVE_LIMIT",
            _ => "UNKNOWN",
        };
        write!(f, "refused {} {name}, place {}", self.number, self.place)
    }
}

// ---- the head-end

const DURATION: usize = 30;
const SENDER: u16 = 7;
const ENERGISED: u64 = 1;
const LIMIT: u32 = 10000;

/// Off-peak, each a start and an end minute: a category names one by its place here, from 1.
const WINDOWS: [[u64; 2]; 2] = [
    [0, 420],  // 1: 00:00 to 07:00
    [30, 450], // 2: 00:30 to 07:30
];
/// Segment, group, domestic, quantity, connection, window, de-minimis.
const CATEGORY_RECORDS: [[u8; 8]; 4] = [
    [1, 1, 2, 1, 1, 1, 0, 1], // 0: import of group A, off-peak in window 1
    [1, 1, 2, 2, 1, 0, 0, 1], // 1: export of group A
    [1, 2, 2, 1, 1, 2, 0, 2], // 2: import of group B, off-peak in window 2, two readings
    [1, 2, 2, 2, 1, 0, 0, 1], // 3: export of group B
];
const DAY_TYPES: [u8; 6] = [1, 1, 2, 1, 1, 2];
const DATES: u64 = DAY_TYPES.len() as u64;
/// MPAN and category.
const METERS: [(u64, u64); 5] = [
    (1000000001016, 0),
    (1000000001025, 0),
    (1000000001034, 1),
    (1100000001048, 2),
    (1100000001057, 3),
];

/// Wh, shown as kWh.
struct Kwh(i64);

impl fmt::Display for Kwh {
    fn fmt(&self, f: &mut fmt::Formatter) -> fmt::Result {
        let (sign, size) = (if self.0 < 0 { "-" } else { "" }, self.0.unsigned_abs());
        write!(f, "{sign}{}.{:03}", size / 1000, size % 1000)
    }
}

/// The line of a call: what was asked, and the answer or the refusal.
fn say<T>(asked: String, answer: Result<T, Refusal>, words: impl Fn(T) -> String) {
    match answer {
        Ok(results) => println!("{asked}: {}", words(results)),
        Err(refusal) => println!("{asked}: {refusal}"),
    }
}

fn accepted(_: ()) -> String {
    "accepted".to_string()
}

fn new_store() -> Store {
    Store::allocate(DURATION, METERS.len(), CATEGORY_RECORDS.len(), DAY_TYPES.len())
}

/// From date 0, minute 0 on.
fn register_meter(store: &mut Store, mpan: u64, category: u64) {
    let registration = Registration {
        mpan,
        date: 0,
        minute: 0,
        category,
        sender: SENDER,
        status: ENERGISED,
        limit: LIMIT,
    };
    say(format!("register {mpan}"), store.register(&registration), accepted);
}

/// A day without records. An unknown meter has quantity 0; its day is refused before it matters.
fn empty_day(mpan: u64, date: u64) -> MeterDay {
    let meter = METERS.iter().find(|meter| meter.0 == mpan);
    let quantity = meter.map_or(0, |&(_, category)| CATEGORY_RECORDS[category as usize][3]);
    let (duration, quantity) = (DURATION as u64, u64::from(quantity));
    MeterDay { sender: SENDER, mpan, date, duration, quantity, body: Vec::new() }
}

fn add_record(day: &mut MeterDay, end: u16, quality: u8, wh: u32) {
    day.body.extend(end.to_be_bytes());
    day.body.push(quality);
    day.body.extend(wh.to_be_bytes());
}

/// A day without records is none: there are no lines for it in the file.
fn receive_day(store: &mut Store, day: &MeterDay) {
    if day.body.is_empty() {
        return;
    }
    say(format!("receive {} date {}", day.mpan, day.date), store.receive(day), accepted);
}

fn run_date(store: &mut Store, date: u64) {
    say(format!("run {date}"), store.run(date), |moved| format!("{moved} cells moved"));
}

fn print_totals(store: &Store, date: u64, category: u64) {
    let asked = format!("totals of date {date}, category {category}");
    say(asked, store.totals(date, category), |results| {
        let [.., days7, _, days, fresh, blank] = results;
        let [tot, off, peak, tot7, off7, peak7, _, annual, ..] = results.map(Kwh);
        format!(
            "TOT {tot} OFF {off} PEAK {peak} TOT7 {tot7} OFF7 {off7} PEAK7 {peak7} \
             days7 {days7} ANN {annual} days {days} FRESH {fresh} BLANK {blank}"
        )
    });
}

fn print_cell(store: &Store, date: u64, category: u64, period: u64) {
    let asked = format!("cell of date {date}, category {category}, period {period}");
    say(asked, store.cell(date, category, period), |cell| {
        let origin = date_or_dash(cell.origin);
        format!("{} {} {} {origin} {}", cell.flag, Kwh(cell.value), cell.count, cell.remainder)
    });
}

fn date_or_dash(date: Option<i64>) -> String {
    date.map_or("-".to_string(), |date| date.to_string())
}

/// What a run of the date would do. The store stays as it is, the draft gets the date's cells.
fn preview_date(store: &Store, draft: &mut [u64], date: u64) {
    let asked = format!("preview {date}");
    say(asked, store.preview(draft, date), |moved| format!("{moved} cells would move"));
}

/// Flag and value of each period, eight to a line, out of the draft or as the date was run.
fn print_row(store: &Store, draft: &[u64], date: u64, category: u64, from_draft: bool) {
    let form = if from_draft { "draft" } else { "published" };
    let asked = format!("row of date {date}, category {category}, {form}");
    let row = store.row(draft, date, category, from_draft);
    let cells = row.and_then(|row| row.iter().map(|&entry| Cell::of_entry(entry)).collect());
    say(asked, cells, |cells: Vec<Cell>| {
        let mut text = format!("{} periods", cells.len());
        for (j, cell) in cells.iter().enumerate() {
            text += if j % 8 == 0 { "\n  " } else { " " };
            text += &format!("{} {}", cell.flag, Kwh(cell.value));
        }
        text
    });
}

/// Eight periods to a line; a star says that a shape in the number is missing.
fn print_net(store: &Store, date: u64, category: u64, all_groups: bool) {
    let form = if all_groups { "all groups" } else { "own group" };
    let asked = format!("net of date {date}, category {category}, {form}");
    say(asked, store.net(date, category, all_groups), |net| {
        let mut text = format!("TOT {} TOT7 {}", Kwh(net.tot), Kwh(net.tot7));
        for (j, (&number, &mark)) in net.numbers.iter().zip(&net.marks).enumerate() {
            text += if j % 8 == 0 { "\n  " } else { " " };
            text += &Kwh(number).to_string();
            text += if mark == 1 { "*" } else { "" };
        }
        text
    });
}

/// The dates of day type 1 with 63.652 to 69.122 kWh in category 0, as many as there is room for.
fn print_band(store: &Store, room: usize) {
    let mut dates = vec![0; room];
    let answer = store.band(0, 1, 63652, 69122, &mut dates);
    say(format!("band with room for {room}"), answer, |(dates, there_are)| {
        let shown: String = dates.iter().map(|date| format!(" {date}")).collect();
        format!("{} of {there_are}:{shown}", dates.len())
    });
}

/// What each of the missing periods gets of a register's advance in Wh, and the sum of the day.
fn print_fill(store: &Store, date: u64, category: u64, first: usize, last: usize, advance: u32) {
    let mut missing = vec![0; store.periods];
    missing[first - 1..last].fill(1);
    let hole = format!("periods {first} to {last}, advance {}", Kwh(advance.into()));
    let asked = format!("fill of date {date}, category {category}, {hole}");
    say(asked, store.fill(date, category, advance, &missing), |filled| {
        let kwh = |wh| Kwh(wh as i64).to_string();
        let shown: Vec<String> = filled[first - 1..last].iter().map(|&wh| kwh(wh)).collect();
        format!("{} sum {}", shown.join(" "), kwh(filled.iter().sum::<u64>()))
    });
}

/// How much of the week and of the year up to the date is real.
fn print_coverage(store: &Store, date: u64, category: u64) {
    let asked = format!("coverage of date {date}, category {category}");
    say(asked, store.coverage(date, category), |coverage| {
        let Coverage { fresh7, blank7, fresh365, blank365, oldest } = coverage;
        let oldest = date_or_dash(oldest);
        format!(
            "FRESH7 {fresh7} BLANK7 {blank7} FRESH365 {fresh365} BLANK365 {blank365} \
             oldest {oldest}"
        )
    });
}

/// Takes a number up to `most` and the byte behind it, or the line's end.
fn take(line: &mut &[u8], most: u64, end: Option<u8>) -> Option<u64> {
    let digits = line.iter().take_while(|byte| byte.is_ascii_digit()).count();
    let number = std::str::from_utf8(&line[..digits]).ok()?.parse().ok()?;
    if number > most || line.get(digits).copied() != end {
        return None;
    }
    *line = line.get(digits + 1..).unwrap_or_default();
    Some(number)
}

/// MPAN, date, end minute, quality and Wh.
fn record(mut line: &[u8]) -> Option<(u64, u64, u16, u8, u32)> {
    const EIGHTEEN_DIGITS: u64 = 999999999999999999;
    let mpan = take(&mut line, EIGHTEEN_DIGITS, Some(b','))?;
    let date = take(&mut line, EIGHTEEN_DIGITS, Some(b','))?;
    let hours = take(&mut line, 24, Some(b':'))? as u16;
    let minutes = take(&mut line, 59, Some(b','))? as u16;
    let quality = take(&mut line, u8::MAX.into(), Some(b','))? as u8;
    let wh = take(&mut line, u32::MAX.into(), None)? as u32;
    Some((mpan, date, 60 * hours + minutes, quality, wh))
}

fn receive_file(store: &mut Store, path: &str) -> Result<(), String> {
    let malformed = |line| format!("{path}: line {line} is not mpan,date,end,quality,Wh");
    let text = std::fs::read(path).map_err(|_| format!("{path}: cannot be read"))?;
    let lines = text.strip_prefix(b"mpan,date,end,quality,Wh\n").ok_or_else(|| malformed(1))?;
    let mut day = empty_day(0, 0); // until the first line
    for (number, line) in lines.split_inclusive(|&byte| byte == b'\n').enumerate() {
        let line = line.strip_suffix(b"\n").unwrap_or(line);
        let (mpan, date, end, quality, wh) = record(line).ok_or_else(|| malformed(number + 2))?;
        if (day.mpan, day.date) != (mpan, date) {
            receive_day(store, &day);
            day = empty_day(mpan, date);
        }
        add_record(&mut day, end, quality, wh);
    }
    receive_day(store, &day);
    Ok(())
}

fn shape_dates(store: &mut Store) {
    (0..DATES - 1).for_each(|date| run_date(store, date));
    (0..DATES).for_each(|date| print_totals(store, date, 0));
    (1..4).for_each(|category| print_totals(store, 0, category));
    print_cell(store, 0, 0, 1);
    print_cell(store, 0, 2, 1);
    print_cell(store, 0, 1, 25);
    print_cell(store, 1, 2, 1);
    print_net(store, 0, 0, false);
    print_net(store, 0, 2, false);
    print_net(store, 4, 0, true);
    print_net(store, 0, 1, false); // of an export category there is none
    print_band(store, DAY_TYPES.len());
    print_band(store, 2);
    print_fill(store, 4, 0, 17, 24, 13000); // the second meter sent nothing from 08:00 to 12:00
    print_fill(store, 2, 0, 17, 24, 13000); // at that time date 2 has no shape
    print_coverage(store, 4, 0);
    print_coverage(store, 2, 1); // not one period of date 2 has a shape there
}

/// A meter's date 0 comes again. What was copied from it follows once date 0 is run again; before
/// that its new row is looked at beside the published one.
fn correct_first_date(store: &mut Store) {
    let mut late = empty_day(METERS[0].0, 0);
    (30..=1440).step_by(DURATION).for_each(|end| add_record(&mut late, end, 1, 2000));
    receive_day(store, &late);
    print_totals(store, 1, 0);
    let mut draft = vec![0; store.categories * store.periods];
    preview_date(store, &mut draft, 0);
    print_row(store, &draft, 0, 0, false);
    print_row(store, &draft, 0, 0, true);
    preview_date(store, &mut draft[1..], 0); // no room for a date
    print_row(store, &draft, DATES - 1, 0, false); // not run
    run_date(store, 0);
    print_totals(store, 0, 0);
    print_totals(store, 1, 0);
    print_cell(store, 1, 2, 1);
    print_net(store, 1, 0, true);
    print_band(store, DAY_TYPES.len());
    print_coverage(store, 1, 0);
}

fn head_end(days: &str, saved: &str) -> Result<(), String> {
    let mut store = new_store();
    let (duration, meters) = (DURATION as u64, METERS.len() as u64);
    let opened = store.open(duration, meters, &WINDOWS, &CATEGORY_RECORDS.concat(), &DAY_TYPES);
    say("open".to_string(), opened, accepted);
    METERS.iter().for_each(|&(mpan, category)| register_meter(&mut store, mpan, category));
    register_meter(&mut store, METERS[0].0 + 1, 0); // mistyped
    receive_file(&mut store, days)?;
    shape_dates(&mut store);
    println!("save: {} bytes", store.save(saved)?);

    let mut store = new_store();
    println!("load: {} bytes", store.load(saved)?);
    correct_first_date(&mut store);
    Ok(())
}

fn main() -> ExitCode {
    let arguments: Vec<String> = std::env::args().skip(1).collect();
    let done = match &arguments[..] {
        [days, saved] => head_end(days, saved),
        _ => Err("usage: head_end DAYS STORE".to_string()),
    };
    match done {
        Ok(()) => ExitCode::SUCCESS,
        Err(reason) => {
            eprintln!("{reason}");
            ExitCode::FAILURE
        }
    }
}
