//! The cases of crates/mt_cases/data, which an installed package has in tests/cases, by this crate. cases/README.md explains
//! their lines.

use mtrecover::records::{self, Column, Format};
use mtrecover::{Error, Feed, Inputs, Store};
use std::collections::HashMap;
use std::fmt::Write;
use std::fs;
use std::iter;
use std::path::Path;

// ---- Words ----

fn words_of(line: &str) -> Vec<&str> {
    line.split_whitespace().take_while(|word| *word != "#").collect()
}

fn number<T: std::str::FromStr>(word: &str) -> T {
    word.parse().unwrap_or_else(|_| panic!("{word} is no number"))
}

/// The bytes of hexadecimal digits, or of text, which may be repeated: `00*12`.
fn piece(word: &str, is_hex: bool) -> Vec<u8> {
    let (once, times) = word.split_once('*').map_or((word, 1), |(once, times)| (once, number(times)));
    let digits = |at| u8::from_str_radix(&once[at..at + 2], 16).unwrap();
    let bytes = if is_hex { (0..once.len()).step_by(2).map(digits).collect() } else { once.as_bytes().to_vec() };
    bytes.repeat(times)
}

fn digits_of(words: &[&str]) -> Vec<u8> {
    words.iter().flat_map(|word| piece(word, true)).collect()
}

/// The bytes of a key or value: pieces joined by `+`, each text, or digits after `0x`.
fn bytes_of(word: &str) -> Vec<u8> {
    let bytes = |one: &str| one.strip_prefix("0x").map_or_else(|| piece(one, false), |digits| piece(digits, true));
    word.split('+').flat_map(bytes).collect()
}

fn text_of(words: &[&str]) -> String {
    let text: Vec<String> = words.iter().map(|word| String::from_utf8(bytes_of(word)).unwrap()).collect();
    text.join(" ")
}

fn hex(bytes: &[u8]) -> String {
    bytes.iter().map(|byte| format!("{byte:02x}")).collect()
}

// ---- Logs and parts ----

/// A log or part under construction.
#[derive(Clone)]
struct Input {
    is_log: bool,
    bytes: Vec<u8>,
    /// Of a part that still takes entries: its end, and how many there are.
    open: Option<(u64, u32)>,
    /// The call of its source from which on it fails, counted from 1.
    fails: usize,
}

type Names<'a> = HashMap<&'a str, Vec<u8>>;

/// The format of all records and entries, as cases put into a file also what its format does not have.
const WIDEST: Format = Format::Two;

fn format_of(words: &[&str]) -> Format {
    if let ["format", "2"] = words {
        Format::Two
    } else {
        Format::One
    }
}

impl Input {
    /// Begins the log or part of a line.
    fn begin(names: &Names, words: &[&str]) -> Input {
        let mut input = Input { is_log: words[0] == "log", bytes: Vec::new(), open: None, fails: usize::MAX };
        let out = &mut input.bytes;
        match &words[1..] {
            ["is", name] => out.extend(&names[name]),
            ["bytes", digits @ ..] => out.extend(digits_of(digits)),
            [part, "of", parts, "of", "checkpoint", n, "from", begin, "to", end, format @ ..] => {
                let (n, begin, part, parts) = (number(n), number(begin), number(part), number(parts));
                records::part_header(out, format_of(format), n, begin, part, parts).unwrap();
                input.open = Some((number(end), 0));
            }
            rest => {
                let (from, rest) = if let ["from", from, rest @ ..] = rest { (number(from), rest) } else { (0, rest) };
                match rest {
                    ["worker", worker, "segment", n] => records::segment_header(out, from, number(worker), number(n)),
                    format => records::log_header(out, format_of(format), from),
                }
                .unwrap();
            }
        }
        input
    }

    /// Appends the footer of a part, if that is still to be done.
    fn close(&mut self) {
        if let Some((end, entries)) = self.open.take() {
            records::part_footer(&mut self.bytes, end, entries).unwrap();
        }
    }

    /// Adds a line.
    fn add(&mut self, words: &[&str]) {
        let values: Vec<(u8, Vec<u8>)> = words
            .iter()
            .filter_map(|word| word.split_once('='))
            .map(|(n, value)| (number(n), bytes_of(value)))
            .collect();
        let columns: Vec<Column> = values.iter().map(|(n, value)| Column::new(*n, value)).collect();
        let out = &mut self.bytes;
        match words {
            ["mark", time] => records::mark(out, number(time)).unwrap(),
            ["put", key, version, time, ..] => {
                records::put(out, WIDEST, number(time), number(version), &bytes_of(key), &columns).unwrap()
            }
            ["remove", key, version, time] => {
                records::remove(out, WIDEST, number(time), number(version), &bytes_of(key)).unwrap()
            }
            ["erase", key, version, time, numbers @ ..] => {
                let numbers: Vec<u8> = numbers.iter().map(|word| number(word)).collect();
                records::erase(out, WIDEST, number(time), number(version), &bytes_of(key), &numbers).unwrap()
            }
            ["entry", key, version, ..] => {
                records::entry(out, WIDEST, number(version), &bytes_of(key), &columns).unwrap();
                self.open.as_mut().unwrap().1 += 1;
            }
            ["fail", call] => self.fails = number(call),
            _ => {
                self.close();
                self.change(words);
            }
        }
    }

    fn change(&mut self, words: &[&str]) {
        match words {
            ["bytes", digits @ ..] => self.bytes.extend(digits_of(digits)),
            ["byte", place, value] => {
                let value = if value.starts_with("0x") { bytes_of(value)[0] } else { number(value) };
                self.bytes[number::<usize>(place)] = value;
            }
            ["cut", length] => self.bytes.truncate(number(length)),
            ["spelled", digits @ ..] => assert_eq!(self.bytes, digits_of(digits)),
            _ => panic!("no such line"),
        }
    }

    /// Feeds the bytes in chunks of this size, as a source would give them that fails where this one does.
    fn fed(&self, size: usize) -> Feed {
        let mut feed = if self.is_log { Feed::log() } else { Feed::part() }.unwrap();
        for (call, chunk) in self.bytes.chunks(size).map(Some).chain(iter::once(None)).enumerate() {
            if call + 1 >= self.fails {
                feed.fail();
                break;
            }
            let may_go_on = chunk.is_some_and(|chunk| feed.feed(chunk).unwrap());
            if !may_go_on {
                break;
            }
        }
        feed
    }
}

// ---- Answers ----

fn list(numbers: &[u64], between: &str) -> String {
    let words: Vec<String> = numbers.iter().map(u64::to_string).collect();
    if words.is_empty() {
        "none".into()
    } else {
        words.join(between)
    }
}

fn recover(inputs: &[Input], size: usize) -> Result<Store, Error> {
    let mut added = Inputs::new();
    for input in inputs {
        added.add(input.fed(size))?;
    }
    added.recover()
}

/// The lines that this expected line asks for.
fn answer(recovered: &Result<Store, Error>, logs: usize, words: &[&str]) -> String {
    let store = match recovered {
        Err(error) => return format!("fault {error}\n"),
        Ok(store) => store,
    };
    let report = store.report();
    let checkpoint = report.checkpoint.map_or("none".into(), |n| n.to_string());
    let mut text = words[0].to_string();
    match words {
        ["choice", ..] => {
            write!(text, " {checkpoint}").unwrap();
            for (name, numbers) in [("skipped", &report.skipped), ("nameless", &report.nameless)] {
                if !numbers.is_empty() {
                    write!(text, " {name} {}", list(numbers, " ")).unwrap();
                }
            }
        }
        ["report", fields @ ..] => {
            for name in fields.iter().map(|field| field.split('=').next().unwrap()) {
                let value = match name {
                    "logs" => logs.to_string(),
                    "writers" => report.writers.to_string(),
                    "records" => report.records.to_string(),
                    "marks" => report.marks.to_string(),
                    "torn" => report.torn.to_string(),
                    "cutoff" => report.cutoff.to_string(),
                    "checkpoint" => checkpoint.clone(),
                    "begin" => report.begin.to_string(),
                    "skipped" => list(&report.skipped, ","),
                    "nameless" => list(&report.nameless, ","),
                    "entries" => report.entries.to_string(),
                    "survivors" => report.survivors.to_string(),
                    "early" => report.early.to_string(),
                    "late" => report.late.to_string(),
                    "keys" => report.keys.to_string(),
                    "layers" => report.layers.to_string(),
                    _ => panic!("no report has {name}"),
                };
                write!(text, " {name}={value}").unwrap();
            }
        }
        _ => {
            for pair in store {
                write!(text, "\n{}:", hex(&pair.key)).unwrap();
                for (n, value) in &pair.columns {
                    write!(text, " {n}={}", hex(value)).unwrap();
                    assert!(store.get(&pair.key, *n).as_ref() == Some(value));
                }
            }
        }
    }
    text + "\n"
}

// ---- Cases ----

/// The numbers of a line `each n 0 to 255 but 25 31`, if it is one for this letter.
fn each<'l>(letter: &str, lines: &'l [&'l str]) -> (Vec<Option<u64>>, &'l [&'l str]) {
    let words = words_of(lines[0]);
    match words.as_slice() {
        ["each", named, first, "to", last, but @ ..] if *named == letter => {
            let is_out = |n: &u64| but.iter().skip(1).any(|word| number::<u64>(word) == *n);
            let numbers = (number(first)..=number(last)).filter(|n| !is_out(n)).map(Some);
            (numbers.collect(), &lines[1..])
        }
        _ => (vec![None], lines),
    }
}

/// Replaces `$n` by the number, and `$xn` by its digits.
fn replaced(line: &str, letter: &str, n: Option<u64>) -> String {
    match n {
        None => line.to_string(),
        Some(n) => {
            line.replace(&format!("${letter}"), &n.to_string()).replace(&format!("$x{letter}"), &format!("{n:02x}"))
        }
    }
}

/// The lines of a block after its first one, for each of its passes.
fn passes(lines: &[&str]) -> Vec<Vec<String>> {
    let (ns, lines) = each("n", lines);
    let (ms, lines) = each("m", lines);
    let pass = |n, m| lines.iter().map(|line| replaced(&replaced(line, "n", n), "m", m)).collect();
    ns.iter().flat_map(|n| ms.iter().map(move |m| (*n, *m))).map(|(n, m)| pass(n, m)).collect()
}

/// Tries a pass of a case.
fn try_pass(names: &Names, lines: &[String]) {
    let (mut inputs, mut expected, mut sizes) = (Vec::<Input>::new(), Vec::new(), vec![1, 16, 65_536]);
    for line in lines {
        match words_of(line).as_slice() {
            words @ ["log" | "part", ..] => inputs.push(Input::begin(names, words)),
            ["buffers", size] => sizes = vec![number(size)],
            ["cuts", ..] => {}
            words @ (["store"] | ["choice" | "report" | "fault", ..]) => expected.push(text_of(words) + "\n"),
            words if words[0].ends_with(':') => {
                let last = expected.last_mut().unwrap();
                *last += &(text_of(words) + "\n");
            }
            words => inputs.last_mut().unwrap().add(words),
        }
    }
    inputs.iter_mut().for_each(Input::close);
    let logs = inputs.iter().filter(|input| input.is_log).count();
    for size in sizes {
        let recovered = recover(&inputs, size);
        for wanted in &expected {
            let first = wanted.lines().next().unwrap();
            let came = answer(&recovered, logs, &words_of(first));
            assert!(came == *wanted, "with chunks of {size}: {came:.500}and not {wanted:.500}");
        }
    }
}

/// Tries the cases of a file. Returns how many it has.
fn try_file(name: &str) -> usize {
    let text = fs::read_to_string(name).unwrap();
    let lines: Vec<&str> =
        text.lines().map(str::trim).filter(|line| !line.is_empty() && !line.starts_with('#')).collect();
    let heads: Vec<usize> = (0..lines.len())
        .filter(|at| matches!(lines[*at].split_whitespace().next(), Some("case" | "name" | "refused")))
        .collect();
    let mut names = Names::new();
    let mut count = 0;
    for (nth, at) in heads.iter().enumerate() {
        let body = &lines[at + 1..heads.get(nth + 1).copied().unwrap_or(lines.len())];
        let words = words_of(lines[*at]);
        match words.as_slice() {
            ["refused"] => break,
            ["name", name, rest @ ..] => {
                let mut input = Input::begin(&names, rest);
                body.iter().for_each(|line| input.add(&words_of(line)));
                input.close();
                names.insert(*name, input.bytes);
            }
            _ => {
                println!("{}", lines[*at]);
                passes(body).iter().for_each(|pass| try_pass(&names, pass));
                count += 1;
            }
        }
    }
    count
}

#[test]
fn cases_are_as_expected() {
    let package = Path::new(env!("CARGO_MANIFEST_DIR"));
    let ways = ["tests/cases", "../../crates/mt_cases/data"].map(|folder| package.join(folder));
    let folder = ways.iter().find(|way| way.exists()).unwrap();
    let mut names: Vec<_> = fs::read_dir(folder).unwrap().map(|entry| entry.unwrap().path()).collect();
    names.sort();
    let mut count = 0;
    for name in names {
        println!("{}", name.display());
        count += try_file(name.to_str().unwrap());
    }
    assert!(count >= COUNT, "{count} cases, and not {COUNT}");
}

/// How many cases there are, at least.
const COUNT: usize = 700;
