//! The program `encounter` against the oracle's reading of sheets: run once for each sheet, the sheet on its standard input.

use std::collections::BTreeMap;
use std::io::{stdin, stdout, ErrorKind, Read, Result, Write};
use std::ops::Range;
use std::path::Path;
use std::process::{Command, Output, Stdio};
use std::thread::sleep;
use std::time::Duration;

use crate::big::parts;
use crate::compare::{generator, run};
use crate::inputs::Random;
use crate::port;
use crate::sheet::{answer, decimal, printed, Values, MOST_BYTES, PARTS};
use crate::sheet_inputs::{random_sheet, sample, systematic, SIXTEENTH};
use crate::sheet_winds;

const NAME: &str = "sheets";

/// Sheets and lines that document 01 gives, or that follow from it by hand.
pub fn stated() -> Vec<(Vec<u8>, &'static str)> {
    let base = [0.0, 10.0, 0.0, 0.0, 1.0, 0.0, 180.0, 1.0, 1800.0];
    let with = |changes: &[(usize, f64)]| {
        let mut numbers = base;
        changes.iter().for_each(|(place, x)| numbers[*place] = *x);
        numbers
    };
    let ahead = [7.0, 0.0, 4.0, 0.0, 0.0, 0.0];
    let sheet = |base: [f64; 9], contacts: &[[f64; 6]]| Values::of(base, contacts).bytes();
    let none = |changes: &[(usize, f64)]| sheet(with(changes), &[]);
    let one = |contact: [f64; 6]| sheet(base, &[contact]);
    vec![
        (sample_bytes(), "CONTACT 7 CLOSING 0.000 1440 DANGEROUS OVERTAKING GIVEWAY 13\nALTER S 15.000 15.000 1.035 7\n"),
        (none(&[]), "ALTER S 0.000 0.000 FREE NONE\n"),
        (none(&[(0, 359.9990234375), (5, 0.0625)]), "ALTER S 0.062 0.062 FREE NONE\n"),
        (none(&[(0, 90.0), (5, 0.1875)]), "ALTER S 0.188 90.188 FREE NONE\n"),
        // The table's examples of refusals that a sheet can bring about.
        (none(&[(0, 360.0)]), "REFUSED 1\n"),
        (none(&[(1, 1000.5)]), "REFUSED 2\n"),
        (none(&[(4, 10_000.0009765625)]), "REFUSED 3\n"),
        (none(&[(5, 9.0), (6, 8.0)]), "REFUSED 4\n"),
        (
            sheet([0.0, 10.0, 0.0, 0.0, 1.0, 0.0, 5.0, 0.0, 0.0], &[[0.0, 0.0, 0.5, 0.0, 0.0, 0.0]]),
            "CONTACT 0 CLOSING 0.000 180 DEVELOPING OVERTAKING GIVEWAY 13\nREFUSED 5\n",
        ),
        (
            sheet(with(&[(3, 1.0)]), &[[1.0, 0.0, 4.0, 180.0, 10.0, 0.0], [2.0, 120.0, 4.0, 120.0, 20.0, 0.0]]),
            "CONTACT 1 CLOSING 0.000 720 DANGEROUS HEAD-ON BOTH 19\nCONTACT 2 OPENING 4.000 - OPENING CROSSING-S BOTH 19\nREFUSED 13\n",
        ),
        (sheet(base, &[ahead; 33]), "REFUSED 14\n"),
        (vec![0, 0, 0], "REFUSED 15\n"),
        (one([7.0, 0.0, 4.0, 0.0, 0.0, 8.0]), "REFUSED 16\n"),
        // Sizes: none, all that fit, one contact more.
        (Vec::new(), "REFUSED 15\n"),
        (sheet(base, &[ahead; 169]), "REFUSED 14\n"),
        (sheet(base, &[ahead; 170]), "REFUSED 15\n"),
        (vec![0; MOST_BYTES], "REFUSED 15\n"),
        // The order of checks: layout, count, codes, then values as they stand, desired before a contact's bearing.
        (sheet(with(&[(2, 8.0)]), &[ahead; 33]), "REFUSED 14\n"),
        (sheet(with(&[(0, 360.0)]), &[[7.0, 0.0, 4.0, 0.0, 0.0, 8.0]]), "REFUSED 16\n"),
        (none(&[(0, 360.0), (3, 2.0)]), "REFUSED 16\n"),
        (none(&[(1, 1000.5), (4, 10_001.0)]), "REFUSED 2\n"),
        (sheet(with(&[(4, 10_001.0)]), &[[7.0, 360.0, 4.0, 0.0, 0.0, 0.0]]), "REFUSED 3\n"),
        (sheet(with(&[(6, 181.0), (7, 10_001.0)]), &[[7.0, 360.0, 4.0, 0.0, 0.0, 0.0]]), "REFUSED 4\n"),
        (sheet(with(&[(7, 10_001.0)]), &[[7.0, 360.0, 4.0, 0.0, 0.0, 0.0]]), "REFUSED 3\n"),
        (one([7.0, 360.0, 10_001.0, 0.0, 0.0, 0.0]), "REFUSED 1\n"),
        (one([7.0, 0.0, 10_001.0, 360.0, 0.0, 0.0]), "REFUSED 3\n"),
        (one([7.0, 0.0, 4.0, 0.0, 1000.5, 0.0]), "REFUSED 2\n"),
        // A time of 1949.9999999999998 s is 1950 s to the nanosecond.
        (
            sheet(with(&[(1, 3.0), (4, 0.0)]), &[[7.0, 0.0, 1.625, 0.0, 0.0, 0.0]]),
            "CONTACT 7 CLOSING 0.000 1950 DEVELOPING OVERTAKING GIVEWAY 13\nALTER S 0.000 0.000 0.000 7\n",
        ),
        // Ranges between two thousandths; the first of equal passing distances; ids of 28 bits, and the same again.
        (
            sheet(with(&[(4, 0.0)]), &[[268_435_455.0, 90.0, 0.0625, 0.0, 10.0, 0.0], [7.0, 270.0, 0.1875, 0.0, 10.0, 0.0]]),
            "CONTACT 268435455 STATIONARY 0.062 - OPENING CROSSING-S GIVEWAY 15\n\
             CONTACT 7 STATIONARY 0.188 - OPENING CROSSING-P STANDON 17\nALTER S 0.000 0.000 0.062 268435455\n",
        ),
        // Port only, at 0.
        (
            sheet(with(&[(3, 1.0)]), &[[7.0, 120.0, 4.0, 120.0, 20.0, 0.0], [7.0, 120.0, 4.0, 120.0, 20.0, 2.0]]),
            "CONTACT 7 OPENING 4.000 - OPENING CROSSING-S BOTH 19\nCONTACT 7 OPENING 4.000 - OPENING CROSSING-S BOTH 19\n\
             ALTER P 0.000 0.000 4.000 7\n",
        ),
    ]
}

/// Sheets that tell the wind, and lines that follow by hand from requests and, for vessels under sail, from Rule 12(a).
fn stated_with_wind() -> Vec<(Vec<u8>, &'static str)> {
    let base = [0.0, 10.0, 2.0, 0.0, 1.0, 0.0, 180.0, 1.0, 1800.0];
    let from = |degrees: f64, values: Values| values.blown((degrees * PARTS) as u32).bytes();
    let with = |place: usize, x: f64| {
        let mut numbers = base;
        numbers[place] = x;
        numbers
    };
    let [beside, beyond] = [[1.0, 90.0, 4.0, 0.0, 10.0, 2.0], [1.0, 90.0, 10_001.0, 0.0, 10.0, 2.0]];
    let [unsure, unknown] = [[1.0, 90.0, 4.0, 0.0, 10.0, 1.0], [1.0, 90.0, 4.0, 0.0, 10.0, 8.0]];
    let [contact, wind] = [36..60, 36..40].map(|range: Range<usize>| move |sheet: &[u8]| sheet[range.clone()].to_vec());
    let plain = Values::of(base, &[beside]).bytes();
    let windy = from(90.0, Values::of(base, &[beside]));
    vec![
        // Power-driven vessels take no notice of it.
        (from(90.0, sample()), "CONTACT 7 CLOSING 0.000 1440 DANGEROUS OVERTAKING GIVEWAY 13\nALTER S 15.000 15.000 1.035 7\n"),
        (from(0.0, Values::of(base, &[])), "ALTER S 0.000 0.000 FREE NONE\n"),
        // Both on the port tack: unknown without the wind; the one to windward keeps clear, and own craft is to windward of a vessel to
        // starboard where the wind comes from port, up to the line of sight being square to it.
        (plain.clone(), "CONTACT 1 STATIONARY 4.000 - OPENING CROSSING-S UNDETERMINED 12\nALTER S 0.000 0.000 4.000 1\n"),
        (windy.clone(), "CONTACT 1 STATIONARY 4.000 - OPENING CROSSING-S STANDON 12\nALTER S 0.000 0.000 4.000 1\n"),
        (from(270.0, Values::of(base, &[beside])), "CONTACT 1 STATIONARY 4.000 - OPENING CROSSING-S GIVEWAY 12\nALTER S 0.000 0.000 4.000 1\n"),
        (from(0.0, Values::of(base, &[beside])), "CONTACT 1 STATIONARY 4.000 - OPENING CROSSING-S STANDON 12\nALTER S 0.000 0.000 4.000 1\n"),
        (
            from(359.9990234375, Values::of(base, &[beside])),
            "CONTACT 1 STATIONARY 4.000 - OPENING CROSSING-S GIVEWAY 12\nALTER S 0.000 0.000 4.000 1\n",
        ),
        // Request R-2: own craft on the port tack, the contact's tack unknown; to windward of own craft, at 90 degrees, to leeward.
        (from(90.0, Values::of(base, &[unsure])), "CONTACT 1 STATIONARY 4.000 - OPENING CROSSING-S GIVEWAY 12\nALTER S 0.000 0.000 4.000 1\n"),
        (from(0.0, Values::of(base, &[unsure])), "CONTACT 1 STATIONARY 4.000 - OPENING CROSSING-S GIVEWAY 12\nALTER S 0.000 0.000 4.000 1\n"),
        (
            from(270.0, Values::of(base, &[unsure])),
            "CONTACT 1 STATIONARY 4.000 - OPENING CROSSING-S UNDETERMINED 12\nALTER S 0.000 0.000 4.000 1\n",
        ),
        // 360 and more; the order: categories, limits, wind, contacts.
        (from(360.0, Values::of(base, &[beside])), "REFUSED 1\n"),
        (from(262_143.0, Values::of(base, &[beside])), "REFUSED 1\n"),
        (from(360.0, Values::of(base, &[unknown])), "REFUSED 16\n"),
        (from(360.0, Values::of(with(7, 10_001.0), &[beside])), "REFUSED 3\n"),
        (from(360.0, Values::of(base, &[beyond])), "REFUSED 1\n"),
        (from(90.0, Values::of(base, &[beyond])), "REFUSED 3\n"),
        // The wind twice, after the contact, before the TCPA limit; and a group that is cut short after it.
        ([&windy[..40], &wind(&windy), &windy[40..]].concat(), "REFUSED 15\n"),
        ([&plain[..36], &contact(&plain), &wind(&windy)].concat(), "REFUSED 15\n"),
        ([&windy[..32], &wind(&windy), &windy[32..36], &contact(&plain)].concat(), "REFUSED 15\n"),
        (windy[..windy.len() - 4].to_vec(), "REFUSED 15\n"),
        // Sizes: 33 contacts, all that fit, one more.
        (from(90.0, Values::of(base, &[beside; 33])), "REFUSED 14\n"),
        (from(360.0, Values::of(base, &[beside; 169])), "REFUSED 14\n"),
        (from(90.0, Values::of(base, &[beside; 170])), "REFUSED 15\n"),
    ]
}

/// The words of document 01's sample sheet, as they stand there.
fn sample_bytes() -> Vec<u8> {
    let words = "00000000 10002800 20000000 30000000 40000400 50000000 60016800 70000400 80000708 90000007 A0000000 B0001000 C0000000 \
                 D0000000 E0000000";
    words.split(' ').flat_map(|word| u32::from_str_radix(word, 16).expect("a word").to_le_bytes()).collect()
}

/// Whether the oracle's own lines are as stated.
fn compare_stated() -> bool {
    assert_eq!(sample().bytes(), sample_bytes());
    let stated = [stated(), stated_with_wind()].concat();
    run("sheets as stated", stated.len() as u64, |i, _| {
        let (bytes, wanted) = &stated[i as usize];
        let got = String::from_utf8(printed(bytes)).expect("text");
        (got != *wanted).then(|| format!("{}: {got:?}, stated {wanted:?}", hexadecimal(bytes)))
    })
}

/// Three decimals in whole numbers: digits × 2^-shift in thousandths, nearest, ties to even. For numbers below 2^52.
fn exact_decimal(x: f64) -> String {
    let (digits, exponent) = parts(x);
    let (thousandths, shift) = (u128::from(digits) * 1000, (-exponent).min(100));
    let (whole, rest, half) = (thousandths >> shift, thousandths & ((1 << shift) - 1), 1 << (shift - 1));
    let rounded = whole + u128::from(rest > half || rest == half && whole % 2 == 1);
    format!("{}.{:03}", rounded / 1000, rounded % 1000)
}

/// The three decimals against whole-number arithmetic: sixteenths, of which every other one lies between two thousandths, half thousandths,
/// floats next to either, 1024ths, and numbers of all sizes.
fn compare_decimals(count: u64) -> bool {
    run("three decimals", count, |i, random| {
        let sixteenths = (1 + random.below(160_000)) as f64 / 16.0;
        let halves = (random.below(20_000_000) as f64 + 0.5) / 1000.0;
        let x = match i % 5 {
            0 => i as f64 / 80.0,
            1 => random.near(sixteenths),
            2 => random.near(halves),
            3 => random.below(10_240_000) as f64 / 1024.0,
            _ => random.unit() * 10f64.powi(random.below(12) as i32 - 7),
        };
        (decimal(x) != exact_decimal(x)).then(|| format!("{x:e}: {}, in whole numbers {}", decimal(x), exact_decimal(x)))
    })
}

fn hexadecimal(bytes: &[u8]) -> String {
    bytes.iter().map(|byte| format!("{byte:02x}")).collect()
}

/// What starts the program: the words in ENCOUNTER, of which the last is the program, or the one below the repository's root.
fn command() -> Vec<String> {
    let built = concat!(env!("CARGO_MANIFEST_DIR"), "/../crates/encounter/out/encounter");
    std::env::var("ENCOUNTER").map_or_else(|_| vec![built.to_string()], |words| words.split_whitespace().map(str::to_string).collect())
}

/// Runs the program on a sheet; the bytes from a place on, if one is given, come a moment later.
fn run_program(command: &[String], sheet: &[u8], pause_at: Option<usize>) -> Result<Output> {
    let mut program = Command::new(&command[0]);
    let mut child = program.args(&command[1..]).stdin(Stdio::piped()).stdout(Stdio::piped()).stderr(Stdio::null()).spawn()?;
    let mut stdin = child.stdin.take().expect("a pipe");
    let (first, second) = sheet.split_at(pause_at.unwrap_or(sheet.len()));
    let written = stdin.write_all(first).and_then(|()| {
        if pause_at.is_some() {
            sleep(Duration::from_millis(2));
        }
        stdin.write_all(second)
    });
    drop(stdin);
    match written {
        // The program need not read beyond the first byte too many.
        Err(error) if error.kind() != ErrorKind::BrokenPipe => Err(error),
        _ => child.wait_with_output(),
    }
}

/// The words of a difference: other bytes printed, or an exit status that is not 0.
fn difference(output: Result<Output>, sheet: &[u8], wanted: &str) -> Option<String> {
    let got = match output {
        Ok(output) if output.status.success() && output.stdout == wanted.as_bytes() => return None,
        Ok(output) => format!("{}, printed {:?}", output.status, String::from_utf8_lossy(&output.stdout)),
        Err(error) => error.to_string(),
    };
    Some(format!("{}: {got}, wanted {wanted:?}", hexadecimal(sheet)))
}

/// How often what occurs, by what it is.
#[derive(Default)]
struct Tally(BTreeMap<(&'static str, String), u64>);

impl Tally {
    fn add(&mut self, what: &'static str, which: &str, count: u64) {
        *self.0.entry((what, which.to_string())).or_default() += count;
    }

    fn count(&mut self, sheet: &[u8], text: &str, tie: bool) {
        for line in text.lines() {
            let fields: Vec<&str> = line.split(' ').collect();
            match fields[..] {
                ["CONTACT", _, approach, _, _, risk, encounter, responsibility, rule] => {
                    self.add("approach", approach, 1);
                    self.add("risk", risk, 1);
                    self.add("encounter", encounter, 1);
                    self.add("responsibility", responsibility, 1);
                    self.add("rule", rule, 1);
                }
                ["ALTER", side, magnitude, _, passing, _] => {
                    self.add("answer", &format!("ALTER {side}"), 1);
                    self.add("answer", &format!("ALTER {side} at 0"), u64::from(magnitude == "0.000"));
                    self.add("answer", "FREE", u64::from(passing == "FREE"));
                    self.add("answer", "tie between the sides", u64::from(tie));
                }
                _ => self.add("answer", line, 1),
            }
        }
        if let Ok(values) = Values::read(sheet) {
            let size = ["0", "1 to 4", "5 to 16", "17 to 32"][[0, 4, 16].iter().filter(|most| values.contacts.len() > **most).count()];
            self.add("contacts", size, 1);
            self.add("wind", if values.wind.is_some() { "told" } else { "not told" }, 1);
            self.count_ties(&values, text);
        }
    }

    /// Printed numbers that lie exactly between two thousandths: ranges, magnitudes and courses.
    fn count_ties(&mut self, values: &Values, text: &str) {
        let between = |value: u32| u64::from(value % (2 * SIXTEENTH) == SIXTEENTH);
        let [own_course, _, _, _, _, least, ..] = values.base;
        let kept = text.lines().zip(&values.contacts).filter(|(line, _)| !line.contains(" CLOSING "));
        let ranges = kept.map(|(_, [_, _, range, ..])| between(*range)).sum();
        self.add("between two thousandths", "ranges", ranges);
        if text.contains("ALTER") {
            self.add("between two thousandths", "magnitudes", between(least));
            self.add("between two thousandths", "new courses", between(own_course + least));
        }
    }

    fn print(&self) {
        let mut groups: BTreeMap<&str, Vec<String>> = BTreeMap::new();
        for ((what, which), count) in &self.0 {
            groups.entry(what).or_default().push(format!("{which} {count}"));
        }
        for (what, counts) in groups {
            println!("{NAME}, {what}: {}", counts.join(", "));
        }
    }
}

/// The sheets that are compared: the stated ones, the systematic ones, then random ones, every other with a wind.
struct Sheets(Vec<Vec<u8>>);

impl Sheets {
    fn new() -> Sheets {
        let stated = [stated(), stated_with_wind()].concat().into_iter().map(|(bytes, _)| bytes);
        Sheets(stated.chain(systematic()).chain(sheet_winds::systematic()).collect())
    }

    fn sheet(&self, i: u64, random: &mut Random) -> Vec<u8> {
        let drawn = |random: &mut Random| if i % 2 == 0 { random_sheet(i / 2, random) } else { sheet_winds::random_sheet(i / 2, random) };
        self.0.get(i as usize).cloned().unwrap_or_else(|| drawn(random))
    }
}

/// Prints the lines for the bytes on standard input.
pub fn print() {
    let mut bytes = Vec::new();
    stdin().read_to_end(&mut bytes).expect("standard input");
    stdout().write_all(&printed(&bytes)).expect("standard output");
}

/// Counts what is to be printed on the sheets that are compared.
pub fn outcomes(count: u64) {
    assert!(compare_stated());
    let (sheets, mut random, mut tally) = (Sheets::new(), generator(NAME), Tally::default());
    for i in 0..count {
        let sheet = sheets.sheet(i, &mut random);
        let (text, tie) = answer(&sheet);
        tally.count(&sheet, &text, tie);
    }
    println!("{NAME}: {count} references, {} of them stated or systematic", sheets.0.len().min(count as usize));
    tally.print();
}

/// What differs where the C interface is asked: it must fill a room that is just large enough, and answer 0 for one byte less.
fn report_difference(sheet: &[u8], wanted: &str) -> Option<String> {
    let mut room = vec![0; wanted.len()];
    let none = port::report(sheet, &mut room[1..]);
    let made = port::report(sheet, &mut room);
    let same = none == 0 && made == room.len() && room == wanted.as_bytes();
    (!same).then(|| format!("encounter_report: {none} and {made} bytes for the sheet {}", hexadecimal(sheet)))
}

/// So many accepted sheets with a number of contacts.
pub fn accepted(count: usize, contacts: usize) -> Vec<Vec<u8>> {
    let mut random = Random::new(31);
    let sheets = (0..).map(|i| random_sheet(i, &mut random));
    sheets.filter(|sheet| Values::read(sheet).is_ok_and(|values| values.contacts.len() == contacts)).take(count).collect()
}

/// Compares the program and the C interface on `count` sheets, and counts what occurs. Some sheets come to the program in two pieces.
pub fn compare(count: u64) -> bool {
    let command = command();
    if !command.last().is_some_and(|program| Path::new(program).is_file()) {
        println!("{NAME}: there is no program {}", command.join(" "));
        return false;
    }
    let (sheets, mut tally) = (Sheets::new(), Tally::default());
    let good = run(NAME, count, |i, random| {
        let sheet = sheets.sheet(i, random);
        let (text, tie) = answer(&sheet);
        tally.count(&sheet, &text, tie);
        let pause_at = (i % 37 == 0).then(|| i as usize % (sheet.len() + 1));
        difference(run_program(&command, &sheet, pause_at), &sheet, &text).or_else(|| report_difference(&sheet, &text))
    });
    tally.print();
    good & compare_stated() & compare_decimals(1_000_000)
}

/// What must occur among the lines that are replayed: every number that a sheet can bring about, and every word.
const OCCURRING: &[&str] = &[
    "REFUSED 1\n", "REFUSED 2\n", "REFUSED 3\n", "REFUSED 4\n", "REFUSED 5\n", "REFUSED 13\n", "REFUSED 14\n", "REFUSED 15\n",
    "REFUSED 16\n", "ALTER S ", "ALTER P ", " FREE NONE\n", " CLOSING ", " OPENING ", " STATIONARY ", " - OPENING ", " PASSING ",
    " DEVELOPING ", " DANGEROUS ", " OVERTAKING ", " BEING-OVERTAKEN ", " HEAD-ON ", " CROSSING-S ", " CROSSING-P ", " GIVEWAY ",
    " STANDON ", " BOTH ", " UNDETERMINED ", " 12\n", " 13\n", " 14\n", " 15\n", " 17\n", " 18\n", " 19\n",
];

/// Sheets that are replayed: so many without the wind, and so many with it.
const REPLAYED: usize = 300;
const REPLAYED_WITH_WIND: usize = 120;

/// The sheets that `sheet_main` replays, one a line in hexadecimal, and the lines that are to be printed, an empty one after each
/// sheet's.
pub fn replayed() -> (String, String) {
    assert!(compare_stated());
    let mut random = Random::new(29);
    let mut drawn: Vec<Vec<u8>> = (0..2000).map(|i| random_sheet(i, &mut random)).collect();
    let contacts = |sheet: &Vec<u8>| Values::read(sheet).map_or(0, |values| values.contacts.len());
    let large: Vec<_> = drawn.iter().filter(|sheet| contacts(sheet) > 16).take(8).cloned().collect();
    drawn.retain(|sheet| sheet.len() <= 160);
    let stated = stated().into_iter().map(|(bytes, _)| bytes);
    let some = systematic().into_iter().step_by(31);
    let sheets = stated.chain(some).chain(large).chain(drawn).take(REPLAYED);
    let drawn = (0..400).map(|i| sheet_winds::random_sheet(i, &mut random)).filter(|sheet| sheet.len() <= 160);
    let stated = stated_with_wind().into_iter().map(|(bytes, _)| bytes);
    let windy = stated.chain(sheet_winds::systematic().into_iter().step_by(67)).chain(drawn).take(REPLAYED_WITH_WIND);
    let sheets: Vec<_> = sheets.chain(windy).collect();
    let lines = sheets.iter().map(|sheet| hexadecimal(sheet) + "\n").collect();
    let answers: String = sheets.iter().map(|sheet| answer(sheet).0 + "\n").collect();
    for words in OCCURRING {
        assert!(answers.contains(words), "{words:?} does not occur");
    }
    (lines, answers)
}
