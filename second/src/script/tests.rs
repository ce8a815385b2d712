//! A small program that carries scripts out, and scripts written and carried out.

use super::*;
use crate::cases::Problem;
use crate::rules::Rules;
use crate::scripts::Cases;
use crate::session::Request;
use crate::worked::w;

/// The table of docs/CALLS.md: name, bits of an entry, room.
const SLICES: [(&str, u32, usize); 12] = [
    ("targets", 8, 1_100),
    ("costs", 16, 1_100),
    ("masks", 16, 400),
    ("limits", 32, 400),
    ("kept", 16, 400),
    ("roster", 8, 400),
    ("work", 32, 24_000),
    ("session", 32, 3_000),
    ("input", 8, 33_000),
    ("output", 8, 20_000),
    ("drawn", 8, 400),
    ("plan", 32, 190_000),
];

/// Reads a script line by line. It shares with the writer of scripts only how a call is worked
/// and printed, not what brings the slices to what they are.
struct Interpreter {
    numbers: Vec<u64>,
    rooms: Vec<Vec<u64>>,
    lengths: [usize; 12],
    printed: Vec<String>,
}

impl Interpreter {
    /// What a script prints.
    fn carry_out(script: &[u8]) -> Vec<String> {
        let rooms = SLICES.map(|(_, _, room)| vec![0; room]).to_vec();
        let mut interpreter =
            Interpreter { numbers: vec![0; 5], rooms, lengths: [0; 12], printed: Vec::new() };
        let mut rest = script;
        while !rest.is_empty() {
            let end = rest.iter().position(|byte| *byte == b'\n').expect("lines end");
            let line = std::str::from_utf8(&rest[..end]).expect("lines are plain text");
            rest = interpreter.take(line, &rest[end + 1..]);
        }
        interpreter.printed
    }

    /// Takes a line; what follows it, less the bytes that belong to it.
    fn take<'a>(&mut self, line: &str, rest: &'a [u8]) -> &'a [u8] {
        let fields: Vec<&str> = line.split('\t').collect();
        let numbers = fields.iter().map(|field| field.parse::<u64>().unwrap_or(0));
        let numbers: Vec<u64> = numbers.collect();
        match fields[0] {
            "#" => {}
            "size" => self.numbers = numbers[1..].to_vec(),
            "length" => self.lengths[slice(fields[1])] = numbers[2] as usize,
            "put" => self.put(slice(fields[1]), numbers[2], &numbers[3..]),
            "fill" => {
                let room = SLICES[slice(fields[1])].2 as u64;
                let entries = vec![numbers[4]; numbers[3].min(room) as usize];
                self.put(slice(fields[1]), numbers[2], &entries);
            }
            "bytes" => {
                let (text, rest) = rest.split_at(numbers[1] as usize);
                let entries: Vec<u64> = text.iter().map(|byte| u64::from(*byte)).collect();
                self.put(slice("input"), 0, &entries);
                self.lengths[slice("input")] = text.len();
                return rest;
            }
            "show" => self.show(slice(fields[1]), numbers[2] as usize, numbers[3] as usize),
            name => self.call(name, &numbers[1..]),
        }
        rest
    }

    fn put(&mut self, slice: usize, place: u64, entries: &[u64]) {
        let (_, bits, room) = SLICES[slice];
        for (entry, place) in entries.iter().zip(place as usize..room) {
            self.rooms[slice][place] = entry % (1 << bits);
        }
    }

    fn show(&mut self, slice: usize, place: usize, count: usize) {
        let lent = &self.rooms[slice][..self.lengths[slice]];
        let shown = lent.iter().skip(place).take(count).map(|entry| format!("\t{entry}"));
        self.printed.push(format!("show{}", shown.collect::<String>()));
    }

    fn call(&mut self, name: &str, numbers: &[u64]) {
        let call = match (name, numbers) {
            ("filter", []) => Call::Filter,
            ("first", &[place, value]) => Call::First { place: place as usize, value: value as u8 },
            ("report", []) => Call::Report,
            ("mend", &[most]) => Call::Mend { most: most as u32 },
            ("check", &[claimed]) => Call::Check { claimed: claimed as u32 },
            ("read", []) => Call::Read,
            ("pattern", []) => Call::Pattern,
            ("write", []) => Call::Write,
            ("open", []) => Call::Open,
            ("keep", &[place, mask]) => {
                Call::Ask(Request::Keep { place: place as usize, mask: mask as u16 })
            }
            ("limit", &[place, limit]) => {
                Call::Ask(Request::Limit { place: place as usize, limit: limit as u32 })
            }
            ("mark", []) => Call::Ask(Request::Mark),
            ("back", []) => Call::Ask(Request::Back),
            ("job", []) => Call::Job,
            ("mendjob", []) => Call::MendJob,
            ("patternjob", []) => Call::PatternJob,
            _ => return self.printed.push("unknown".to_owned()),
        };
        let mut lent = self.lent();
        let (_, line) = call.carry_out(&mut lent);
        self.printed.push(line);
        for (index, slice) in Slice::ALL.into_iter().enumerate() {
            let entries = lent.entries(slice).into_iter().map(u64::from);
            self.rooms[index].splice(..self.lengths[index], entries);
        }
    }

    /// The first entries of a slice, as many as its length says.
    fn first<T: TryFrom<u64>>(&self, name: &str) -> Vec<T> {
        let entries = &self.rooms[slice(name)][..self.lengths[slice(name)]];
        let narrow = |entry: &u64| T::try_from(*entry).unwrap_or_else(|_| panic!("{entry}"));
        entries.iter().map(narrow).collect()
    }

    fn lent(&self) -> Lent {
        let [places, states, values, start, accepting] = self.numbers[..] else {
            panic!("five numbers");
        };
        let rules = Rules {
            states: states as usize,
            values: values as usize,
            start: start as u8,
            targets: self.first("targets"),
            costs: self.first("costs"),
            accepting,
        };
        Lent {
            places: places as usize,
            rules,
            masks: self.first("masks"),
            limits: self.first("limits"),
            kept: self.first("kept"),
            roster: self.first("roster"),
            work: self.first("work"),
            session: self.first("session"),
            input: self.first("input"),
            output: self.first("output"),
            drawn: self.first("drawn"),
            plan: self.first("plan"),
        }
    }
}

fn slice(name: &str) -> usize {
    SLICES.iter().position(|(known, _, _)| *known == name).expect("a slice's name")
}

#[test]
fn the_slices_are_those_of_the_definition() {
    let ours = Slice::ALL.map(|slice| (slice.name(), slice.room()));
    assert_eq!(ours, SLICES.map(|(name, _, room)| (name, room)));
}

#[test]
fn carried_out_anew_every_case_prints_its_lines() {
    let mut cases = Cases::new(20_260_101, 6_000);
    let mut script = Script::default();
    while cases.add_next(&mut script) {}
    let printed = Interpreter::carry_out(&script.text());
    for (index, expected) in script.printed().enumerate() {
        assert_eq!(printed.get(index), Some(&expected.line), "line {}", index + 1);
    }
    assert_eq!(printed.len(), script.printed().count());
}

/// The example of docs/CALLS.md: K3, whose work table was zeros before.
#[test]
fn the_example_of_the_definition() {
    let example = "size\t3\t6\t3\t0\t61\n\
        put\ttargets\t0\t1\t3\t4\t2\t255\t255\t255\t255\t4\t255\t2\t4\t1\t3\t5\t1\t3\t255\n\
        put\tcosts\t0\t1\t2\t0\t1\t0\t0\t0\t0\t0\t0\t2\t0\t1\t2\t0\t1\t2\t0\n\
        length\ttargets\t1024\nlength\tcosts\t1024\n\
        put\tmasks\t0\t7\t7\t7\nlength\tmasks\t3\n\
        fill\tlimits\t0\t3\t366000\nlength\tlimits\t3\n\
        length\tkept\t3\nlength\twork\t256\n\
        filter\n";
    assert_eq!(Interpreter::carry_out(example.as_bytes()), ["filter\t0\t2\tkept\t7\t7\t7"]);
}

/// What K3 is lent.
fn lent_on_w() -> Lent {
    let (masks, limits) = (vec![7; 3], vec![366_000; 3]);
    Lent::of(Problem { places: 3, rules: w(), masks, limits })
}

/// What a call finds on the bench already is not brought again.
#[test]
fn only_what_differs_is_brought() {
    let mut script = Script::default();
    script.begin("twice");
    let mut lent = lent_on_w();
    script.call(&mut lent, Call::Filter);
    let before = script.bytes();
    script.call(&mut lent, Call::Filter);
    assert_eq!(&script.text()[before..], b"filter\n");
    lent.masks[1] = 1;
    lent.limits.fill(5);
    lent.rules.start = 4;
    let before = script.bytes();
    script.call(&mut lent, Call::Filter);
    let lines = "size\t3\t6\t3\t4\t61\nput\tmasks\t1\t1\nfill\tlimits\t0\t3\t5\nfilter\n";
    assert_eq!(String::from_utf8_lossy(&script.text()[before..]), lines);
}

#[test]
fn a_text_is_brought_whole_and_then_byte_by_byte() {
    let mut script = Script::default();
    script.begin("texts");
    let mut lent = lent_on_w();
    lent.input = b"size\t2\t1\t0\nfinal\t0\nfinal\t1\n\xFF".to_vec();
    script.call(&mut lent, Call::Job);
    let lines = b"#\ttexts\nbytes\t28\nsize\t2\t1\t0\nfinal\t0\nfinal\t1\n\xFFjob\n";
    assert_eq!(script.text(), lines);
    let before = script.bytes();
    lent.input[5] = b'3';
    lent.input.truncate(27);
    script.call(&mut lent, Call::Job);
    assert_eq!(&script.text()[before..], b"put\tinput\t5\t51\nlength\tinput\t27\njob\n");
}
