// A pass across the end of 2016, or the one whose rise and set stand on the command line: the true seconds between two UTC stamps, and what
// subtracting their labels would have said; pass.c in Rust. It warns where the pass lies beyond the last month that the table is vouched for.
//
//     rustc --edition 2021 -O -L target/staticlib -l static=mundreff -o pass examples/pass.rs

use std::process::ExitCode;

/// What include/mundreff.h declares, as far as it is used here; the types and their order are those of the header.
mod mundreff {
    pub const UTC: u32 = 0;
    pub const BEYOND: u32 = 1;
    pub const NOSECOND: u32 = 6;
    pub const NAMES: [&str; 15] =
        ["OK", "ROOM", "SHAPE", "YEAR", "DATE", "CLOCK", "NOSECOND", "RANGE", "ASK", "CUT", "GROUPS", "TABLE", "TAIL", "NUMBER", "KERNEL"];

    #[repr(C)]
    pub struct Table {
        pub count: u32,
        pub months: [u32; 64],
        pub offsets: [i32; 64],
        pub vouched: u32,
    }

    #[repr(C)]
    #[derive(Default)]
    pub struct Stamp {
        pub scale: u32,
        pub year: u32,
        pub month: u32,
        pub day: u32,
        pub hour: u32,
        pub minute: u32,
        pub second: u32,
        pub microsecond: u32,
    }

    extern "C" {
        fn mundreff_bulletin_c(table: *mut Table) -> u32;
        fn mundreff_read_text(table: *const Table, scale: u32, text: *const u8, size: usize, instant: *mut i64, stamp: *mut Stamp, marks: *mut u32) -> u32;
    }

    pub fn bulletin_c() -> Table {
        let mut table = Table { count: 0, months: [0; 64], offsets: [0; 64], vouched: 0 };
        // it is never refused
        unsafe { mundreff_bulletin_c(&mut table) };
        table
    }

    /// A text read on a scale: its instant in TAI microseconds, its stamp and its marks, or the number of the refusal.
    pub fn read_text(table: &Table, scale: u32, text: &str) -> Result<(i64, Stamp, u32), u32> {
        let (mut instant, mut stamp, mut marks) = (0, Stamp::default(), 0);
        // each pointer is valid and apart from the others, as the header asks
        match unsafe { mundreff_read_text(table, scale, text.as_ptr(), text.len(), &mut instant, &mut stamp, &mut marks) } {
            0 => Ok((instant, stamp, marks)),
            no => Err(no),
        }
    }
}

/// The instant of a UTC text, its stamp and its marks, or the sentence of its refusal.
fn read_utc(table: &mundreff::Table, text: &str) -> Result<(i64, mundreff::Stamp, u32), String> {
    mundreff::read_text(table, mundreff::UTC, text).map_err(|no| {
        let advice = if no == mundreff::NOSECOND { "; before you call the stamp wrong, look for a newer table" } else { "" };
        format!("{text}: refused {}{advice}", mundreff::NAMES.get(no as usize).unwrap_or(&"UNKNOWN"))
    })
}

/// The second of a stamp's label where every day has 86,400: what a calendar without leap seconds counts.
fn label_second(s: &mundreff::Stamp) -> i64 {
    // years begin in March here, so that February's length is the last that counts
    let (year, month) = if s.month > 2 { (s.year, s.month - 3) } else { (s.year - 1, s.month + 9) };
    let days = 365 * year + year / 4 - year / 100 + year / 400 + (153 * month + 2) / 5 + s.day;
    i64::from(days) * 86400 + i64::from(s.hour * 3600 + s.minute * 60 + s.second)
}

fn pass(rise: &str, set: &str) -> Result<(), String> {
    let mut table = mundreff::bulletin_c();
    // say that the desk vouches for it up to December 2026; a newer table gets a later month
    table.vouched = 12 * (2026 - 1972) + 12;
    let (from, at_rise, rise_marks) = read_utc(&table, rise)?;
    let (to, at_set, set_marks) = read_utc(&table, set)?;
    println!("rise {rise} UTC\nset  {set} UTC");
    println!("the pass lasts {} s", (to - from) / 1000000);
    println!("the labels subtracted say {} s", label_second(&at_set) - label_second(&at_rise));
    if (rise_marks | set_marks) & mundreff::BEYOND != 0 {
        let month = table.vouched - 1;
        println!("warning: the table is vouched for up to {}-{:02} only; get a newer one before you rely on this", 1972 + month / 12, 1 + month % 12);
    }
    Ok(())
}

fn main() -> ExitCode {
    let words: Vec<String> = std::env::args().skip(1).collect();
    let done = match &words[..] {
        [rise, set] => pass(rise, set),
        _ => pass("2016-12-31T23:58:30", "2017-01-01T00:01:30"),
    };
    match done {
        Ok(()) => ExitCode::SUCCESS,
        Err(sentence) => {
            eprintln!("{sentence}");
            ExitCode::FAILURE
        }
    }
}
