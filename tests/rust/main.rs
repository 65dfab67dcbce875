//! Holds the library to a model of Read, Check, with dates and the path too, and Compare.
//!
//!     rustc -O --edition 2021 main.rs -L DIRECTORY -l static=teleport -o outside
//!     ./outside [COUNT [SEED]]
//!
//! The same count and seed give the same cases. The exit status is 1 when a case fails.

mod check;
mod compare;
mod dates;
mod definitions;
mod generate;
mod library;
mod pairs;
mod path;
mod read;

use check::Dates;
use generate::Chance;
use library::{Found, Service, Words};
use read::{Expected, Reading, DOCUMENT, SCHEMA};
use std::collections::BTreeMap;
use std::process::ExitCode;

const COUNT: u64 = 1_000_000;
const SEED: u64 = 1;

/// How often each code was seen, by service.
type Seen = BTreeMap<(&'static str, u32), u64>;

fn main() -> ExitCode {
    let (count, seed) = match arguments() {
        Some(numbers) => numbers,
        None => {
            eprintln!("usage: outside [COUNT [SEED]]");
            return ExitCode::from(2);
        }
    };
    let mut chance = Chance::new(seed);
    let mut seen = Seen::new();
    let mut failed = 0;
    for number in 0..count {
        let service = service_of(number);
        let case = Case::new(service, number, &mut chance);
        let (found, difference) = case.run(&mut chance);
        *seen.entry((name(service), found.answer[0])).or_insert(0) += 1;
        if let Some(difference) = difference {
            if failed == 0 {
                case.print(number, &found, &difference);
            }
            failed += 1;
        }
    }
    print_seen(&seen);
    println!("{} passed, {} failed", count - failed, failed);
    ExitCode::from(u8::from(failed > 0))
}

fn arguments() -> Option<(u64, u64)> {
    let mut given = std::env::args().skip(1);
    let mut next = |default: u64| given.next().map_or(Some(default), |word| word.parse().ok());
    let numbers = (next(COUNT)?, next(SEED)?);
    given.next().is_none().then_some(numbers)
}

/// Of 20 cases 10 are Read, 7 Check, 2 of them with dates and 3 with the path, and 3 Compare.
fn service_of(number: u64) -> Service {
    match number % 20 {
        0..=9 => Service::Read,
        10..=11 => Service::Check,
        12..=13 => Service::Dates,
        14..=16 => Service::Path,
        _ => Service::Compare,
    }
}

fn name(service: Service) -> &'static str {
    match service {
        Service::Read => "Read",
        Service::Check => "Check",
        Service::Dates => "Check with dates",
        Service::Path => "Check with the path",
        Service::Compare => "Compare",
    }
}

/// The texts of one call, the lengths of the tables and of the list for the path, and what the model expects.
struct Case {
    service: Service,
    texts: Vec<Vec<u8>>,
    readings: Vec<Reading>,
    words: [usize; 2],
    list: Option<usize>,
    expected: Expected,
    dates: Dates,
    path: Vec<u32>,
}

impl Case {
    fn new(service: Service, number: u64, chance: &mut Chance) -> Case {
        let (texts, limits) = match service {
            Service::Read => (vec![generate::text(chance)], [DOCUMENT, DOCUMENT]),
            Service::Check | Service::Dates | Service::Path => (pairs::check_pair(chance), [DOCUMENT, SCHEMA]),
            Service::Compare => (pairs::schema_pair(chance), [SCHEMA, SCHEMA]),
        };
        let readings: Vec<Reading> =
            texts.iter().zip(limits).map(|(text, limits)| read::reading(text, limits)).collect();
        let mut words = [0, 0];
        for (length, reading) in words.iter_mut().zip(&readings) {
            *length = generate::table_length(reading.rows.len(), number, service == Service::Read, chance);
        }
        let list = (service == Service::Path).then(|| generate::list_length(number, chance));
        let (mut dates, mut path) = ([0; 3], Vec::new());
        let expected = match service {
            Service::Read => read::read(&readings[0], words[0]),
            Service::Check => check::check(&readings[0], &readings[1], words).0,
            Service::Dates => {
                let (expected, found) = check::check(&readings[0], &readings[1], words);
                dates = found;
                expected
            }
            Service::Path => {
                let (expected, found) = path::check_path(&readings[0], &readings[1], words, list.unwrap_or(0));
                path = found;
                expected
            }
            Service::Compare => compare::compare(&readings[0], &readings[1], words),
        };
        Case { service, texts, readings, words, list, expected, dates, path }
    }

    /// Calls the library; the second is the first difference.
    fn run(&self, chance: &mut Chance) -> (Found, Option<String>) {
        let lengths = self.words.iter().take(self.texts.len()).chain(&self.list);
        let mut tables: Vec<Words> = lengths.map(|length| Words::new(*length, chance)).collect();
        let found = library::call(self.service, &self.texts, &mut tables, chance);
        for ((table, reading), written) in tables.iter_mut().zip(&self.readings).zip(self.expected.written) {
            if written {
                table.want_rows(&reading.rows);
            }
        }
        if self.list.is_some() {
            tables[2].want_path(&self.path);
        }
        let difference = if found.answer != self.expected.answer {
            Some("the answers differ".to_string())
        } else if found.dates != self.dates {
            Some(format!("the dates are {:?}, wanted {:?}", found.dates, self.dates))
        } else if found.steps as usize != self.path.len() {
            Some(format!("there are {} steps, wanted {}", found.steps, self.path.len()))
        } else if !found.guards_held {
            Some("a text or a guard of the answer, the dates or the steps was written".to_string())
        } else {
            tables.iter().find_map(Words::difference)
        };
        (found, difference)
    }

    fn print(&self, number: u64, found: &Found, difference: &str) {
        println!("case {number}, {}: {difference}", name(self.service));
        for (text, words) in self.texts.iter().zip(self.words) {
            let hex: String = text.iter().map(|byte| format!("{byte:02x}")).collect();
            println!("text {hex}, table of {words} words");
        }
        if let Some(words) = self.list {
            println!("list of {words} words");
        }
        println!("library {:?}", found.answer);
        println!("model   {:?}", self.expected.answer);
    }
}

fn print_seen(seen: &Seen) {
    for service in [Service::Read, Service::Check, Service::Dates, Service::Path, Service::Compare].map(name) {
        let codes: Vec<String> = seen
            .iter()
            .filter(|((of, _), _)| *of == service)
            .map(|((_, code), times)| format!("{code}: {times}"))
            .collect();
        println!("{service}, code: times: {}", codes.join(", "));
    }
}
