//! Compares the calls with an independent implementation of docs/SCOPE.md: every answer, every refusal with its place, every number of
//! each lent buffer. The seed is fixed; the first difference prints its case and ends the run.

mod cases;
mod definition;
mod format;
mod wrapping;

use std::cell::OnceCell;
use std::collections::BTreeMap;
use std::fmt::Debug;
use std::time::Instant;

use cases::Generator;
use definition::{Cause, Edges, Pair, Word};
use feltloquat::{edges_of, BoxEdges, Point, Refusal, Verdict};

const SEED: u64 = 0x5B01_5B02_5C00_5B00;

/// How many cases were compared, by call, and which answers they had.
#[derive(Default)]
struct Tally {
    calls: BTreeMap<&'static str, u64>,
    words: BTreeMap<&'static str, u64>,
    causes: BTreeMap<(&'static str, u32), u64>,
}

/// The refusals that each call has.
const CAUSES: [(&str, &[u32]); 13] = [
    ("outer_polygon", &[1, 2, 3, 4, 5, 7]),
    ("outer_polygon of records", &[2, 3, 4, 5, 7]),
    ("corner_polygons", &[1, 2, 3, 4, 5, 7]),
    ("corner_polygons of records", &[2, 3, 4, 5, 7]),
    ("verdict", &[1, 2, 3, 4, 5, 6]),
    ("verdict of records", &[2, 3, 4, 5, 6]),
    ("word", &[1, 2, 3, 4, 5, 6]),
    ("word of records", &[2, 3, 4, 5, 6]),
    ("verdict_on_records", &[2, 3, 4, 5, 6]),
    ("read_round", &[7, 8, 9, 10, 11]),
    ("write_round", &[1, 2, 3, 4, 5, 6, 7]),
    ("write_round of records", &[1, 2, 3, 4, 5, 6, 7]),
    ("print_round", &[2, 3, 4, 5, 8, 9, 10, 11, 12]),
];

impl Tally {
    fn compared(&mut self, call: &'static str, cause: Option<Cause>) {
        *self.calls.entry(call).or_default() += 1;
        if let Some((number, _)) = cause {
            *self.causes.entry((call, number)).or_default() += 1;
        }
    }

    fn total(&self) -> u64 {
        self.calls.values().sum()
    }
}

/// Ends the run with the case that failed.
fn fail(call: &str, input: &dyn Debug, wanted: &dyn Debug, given: &dyn Debug) -> ! {
    println!("FAILED {call}, seed {SEED:#x}\n  input  {input:?}\n  wanted {wanted:?}\n  given  {given:?}");
    std::process::exit(1)
}

fn cause_in<T>(answer: &Result<T, Refusal>) -> Option<Cause> {
    answer.as_ref().err().map(|refusal| (refusal.number, refusal.place))
}

/// A buffer of a length with another number at every place.
fn lent(length: usize) -> Vec<i32> {
    (0..length).map(|i| (i as i32).wrapping_mul(0x3C6E_F35F) ^ 0x2AAA_AAAA).collect()
}

fn lent_bytes(length: usize) -> Vec<u8> {
    (0..length).map(|i| (i as u8).wrapping_mul(167) ^ 0xA5).collect()
}

/// The boxes of a flat list as records, if it is a whole number of boxes, and behind them one that is not to be lent: it would be
/// refused.
fn records_of(boxes: &[i32]) -> Option<Vec<BoxEdges>> {
    let record = |n: &[i32]| BoxEdges { west: n[0], south: n[1], east: n[2], north: n[3] };
    (boxes.len() % 4 == 0).then(|| boxes.chunks_exact(4).chain([&[0, 0, 0, 16_001][..]]).map(record).collect())
}

// ---- one case of each call

/// A call on boxes that were records gives the same answer, and leaves the same in what it is lent.
fn compare_records<Answer: Debug + PartialEq>(
    tally: &mut Tally,
    call: &'static str,
    boxes: &[i32],
    cause: Option<Cause>,
    given: &Answer,
    answer: impl Fn(&[i32]) -> Answer,
) {
    if let Some(records) = records_of(boxes) {
        let of_records = answer(edges_of(&records[..boxes.len() / 4]));
        if of_records != *given {
            fail(call, &boxes, given, &of_records);
        }
        tally.compared(call, cause);
    }
}

/// Compares a polygon call. `polygons` says, of accepted boxes, which lists of vertices are right.
fn compare_polygons(
    tally: &mut Tally,
    call: &'static str,
    boxes: &[i32],
    length: usize,
    answer: impl Fn(&[i32], &mut [i32]) -> Result<Vec<usize>, Refusal>,
    right: impl Fn(usize, &[Pair]) -> bool,
) {
    let wanted = definition::cause_of_polygons(boxes, length);
    let before = lent(length);
    let mut after = before.clone();
    let given = answer(boxes, &mut after);
    let input = (boxes, length);
    if cause_in(&given) != wanted {
        fail(call, &input, &wanted, &given);
    }
    tally.compared(call, wanted);

    let of_records = if call == "outer_polygon" { "outer_polygon of records" } else { "corner_polygons of records" };
    let both = (given, after);
    compare_records(tally, of_records, boxes, wanted, &both, |boxes| {
        let mut buffer = before.clone();
        (answer(boxes, &mut buffer), buffer)
    });

    let (given, after) = both;
    let Ok(counts) = given else {
        if after != before {
            fail(call, &input, &"the buffer as it was", &after);
        }
        return;
    };
    let needed = 2 * boxes.len();
    let mut rest = &after[..needed];
    for (index, count) in counts.iter().enumerate() {
        if rest.len() < 2 * count {
            fail(call, &input, &"vertex counts that have room", &counts);
        }
        let (numbers, behind) = rest.split_at(2 * count);
        let vertices: Vec<Pair> = numbers.chunks_exact(2).map(|v| (i64::from(v[0]), i64::from(v[1]))).collect();
        if !right(index, &vertices) {
            fail(call, &input, &format!("polygon {index} of the boxes"), &vertices);
        }
        rest = behind;
    }
    if rest.iter().any(|number| *number != 0) || after[needed..] != before[needed..] {
        fail(call, &input, &"zeros up to 8 × N, then the buffer as it was", &after);
    }
}

fn outer(boxes: &[i32], buffer: &mut [i32]) -> Result<Vec<usize>, Refusal> {
    feltloquat::outer_polygon_into(boxes, buffer).map(|count| vec![count])
}

fn corners(boxes: &[i32], buffer: &mut [i32]) -> Result<Vec<usize>, Refusal> {
    let counts = feltloquat::corner_polygons_into(boxes, buffer)?;
    Ok(vec![counts.southwest, counts.southeast, counts.northeast, counts.northwest])
}

/// Both polygon calls, with the extreme points by definition.
fn compare_polygons_by_definition(tally: &mut Tally, boxes: &[i32], length: usize) {
    let edges = definition::boxes_of(boxes);
    let points = definition::all_corners(&edges);
    compare_polygons(tally, "outer_polygon", boxes, length, outer, |_, vertices| {
        definition::is_polygon(&points, &definition::extreme_points(&points), vertices)
    });
    compare_polygons(tally, "corner_polygons", boxes, length, corners, |name, vertices| {
        let points = definition::corners_named(&edges, name);
        definition::is_polygon(&points, &definition::extreme_points(&points), vertices)
    });
}

/// Compares the three verdict calls. `word` is the word of accepted boxes and an accepted plug.
fn compare_verdicts(tally: &mut Tally, boxes: &[i32], plug: (i32, i32), word: impl Fn(&[Edges], Pair) -> Word) {
    let (east, north) = plug;
    let at = (i64::from(east), i64::from(north));
    let edges = definition::boxes_of(boxes);
    let wanted = match definition::cause_of_verdict(boxes, at) {
        Some(cause) => Err(cause),
        None => Ok(word(&edges, at)),
    };
    let input = (boxes, plug);
    let given = feltloquat::verdict(boxes, east, north);
    compare_verdict("verdict", &input, &edges, at, &wanted, &given);
    tally.compared("verdict", wanted.err());
    if let Ok(word) = wanted {
        *tally.words.entry(name_of(word)).or_default() += 1;
    }

    let alone = feltloquat::word(boxes, east, north);
    if alone != given.map(Verdict::word) {
        fail("word", &input, &wanted, &alone);
    }
    tally.compared("word", wanted.err());

    compare_records(tally, "verdict of records", boxes, wanted.err(), &given, |boxes| feltloquat::verdict(boxes, east, north));
    compare_records(tally, "word of records", boxes, wanted.err(), &alone, |boxes| feltloquat::word(boxes, east, north));

    if boxes.len() % 4 == 0 {
        // The last record is not lent, and would be refused.
        let records: Vec<BoxEdges> = [boxes, &[0, 0, 0, 16_001]]
            .concat()
            .chunks_exact(4)
            .map(|n| BoxEdges { west: n[0], south: n[1], east: n[2], north: n[3] })
            .collect();
        let on_records = feltloquat::verdict_on_records(&records[..boxes.len() / 4], east, north);
        if on_records != given {
            fail("verdict_on_records", &input, &given, &on_records);
        }
        tally.compared("verdict_on_records", wanted.err());
    }
}

fn name_of(word: Word) -> &'static str {
    match word {
        Word::Inside => "inside",
        Word::Outside => "outside",
        Word::Undecided => "undecided",
    }
}

/// The word or the cause, and the arithmetic of the reasons.
fn compare_verdict(
    call: &str,
    input: &dyn Debug,
    boxes: &[Edges],
    plug: Pair,
    wanted: &Result<Word, Cause>,
    given: &Result<Verdict, Refusal>,
) {
    let same = match given {
        Ok(verdict) => wanted.is_ok_and(|word| name_of(word) == verdict.word().to_string()),
        Err(refusal) => *wanted == Err((refusal.number, refusal.place)),
    };
    if !same {
        fail(call, input, wanted, given);
    }
    if let Ok(Verdict::Undecided(reasons)) = given {
        let direction = (i64::from(reasons.direction.east), i64::from(reasons.direction.north));
        let entries = reasons.entries.map(|entry| (entry.box_number, entry.corner as usize, entry.weight));
        let reasons = (reasons.direction.corner as usize, direction, entries);
        if let Some(wrong) = definition::wrong_reasons(boxes, plug, &reasons) {
            fail(call, input, &wrong, given);
        }
    }
}

fn compare_read(tally: &mut Tally, file: &[u8], boxes_length: usize, plugs_length: usize) {
    let wanted = format::read(file, boxes_length, plugs_length);
    let (mut boxes, mut plugs) = (lent(boxes_length), lent(plugs_length));
    let given = feltloquat::read_round_into(file, &mut boxes, &mut plugs);
    let input = (file, boxes_length, plugs_length);
    let (mut wanted_boxes, mut wanted_plugs) = (lent(boxes_length), lent(plugs_length));
    if let Ok((held_boxes, held_plugs)) = &wanted {
        wanted_boxes[..held_boxes.len()].copy_from_slice(held_boxes);
        wanted_plugs[..held_plugs.len()].copy_from_slice(held_plugs);
    }
    let counts = wanted.as_ref().map(|(boxes, plugs)| (boxes.len() / 4, plugs.len() / 2));
    let same = match &given {
        Ok(found) => counts == Ok((found.boxes, found.plugs)),
        Err(refusal) => counts == Err(&(refusal.number, refusal.place)),
    };
    if !same {
        fail("read_round", &input, &counts, &given);
    }
    if boxes != wanted_boxes || plugs != wanted_plugs {
        fail("read_round", &input, &(wanted_boxes, wanted_plugs), &(boxes, plugs));
    }
    tally.compared("read_round", wanted.err());
}

/// The reader with buffers of the lengths that the file needs, longer ones and shorter ones.
fn compare_reads(tally: &mut Tally, g: &mut Generator, file: &[u8]) {
    let (boxes, plugs) = format::parse(file).map_or((8, 8), |(boxes, plugs)| (boxes.len(), plugs.len()));
    let (boxes_length, plugs_length) = match g.below(6) {
        0 => (boxes.saturating_sub(1), plugs),
        1 => (boxes, plugs.saturating_sub(1)),
        2 => (0, 0),
        3 => (boxes + g.below(5), plugs + g.below(5)),
        _ => (boxes, plugs),
    };
    compare_read(tally, file, boxes_length, plugs_length);
}

fn compare_write(tally: &mut Tally, boxes: &[i32], plugs: &[i32], length: usize) {
    let wanted = format::write(boxes, plugs, length);
    let mut file = lent_bytes(length);
    let given = feltloquat::write_round_into(boxes, plugs, &mut file);
    let input = (boxes, plugs, length);
    let mut wanted_file = lent_bytes(length);
    if let Ok(bytes) = &wanted {
        wanted_file[..bytes.len()].copy_from_slice(bytes);
    }
    let count = wanted.as_ref().map(Vec::len);
    let same = match &given {
        Ok(bytes) => count == Ok(*bytes),
        Err(refusal) => count == Err(&(refusal.number, refusal.place)),
    };
    if !same {
        fail("write_round", &input, &count, &given);
    }
    if file != wanted_file {
        fail("write_round", &input, &wanted_file, &file);
    }
    let cause = wanted.err();
    tally.compared("write_round", cause);

    compare_records(tally, "write_round of records", boxes, cause, &(given, file), |boxes| {
        let mut buffer = lent_bytes(length);
        (feltloquat::write_round_into(boxes, plugs, &mut buffer), buffer)
    });
}

fn compare_print(tally: &mut Tally, file: &[u8]) {
    let polygons = OnceCell::new();
    let wanted = format::print(file, |boxes, plug| {
        let polygons = polygons.get_or_init(|| wrapping::polygons(&definition::boxes_of(boxes)));
        name_of(wrapping::word(polygons, (i64::from(plug.0), i64::from(plug.1))))
    });
    let before = lent_bytes(feltloquat::TEXT_LENGTH);
    let mut text: Box<[u8; feltloquat::TEXT_LENGTH]> = before.clone().try_into().expect("the length");
    let count = feltloquat::print_round_into(file, &mut text);
    if count != wanted.len() || text[..count] != *wanted.as_bytes() {
        fail("print_round", &file, &wanted, &String::from_utf8_lossy(&text[..count.min(text.len())]));
    }
    if text[count..] != before[count..] || feltloquat::print_round(file) != wanted {
        fail("print_round", &file, &"the buffer as it was after the text", &count);
    }
    let refused = wanted.strip_prefix("refused ").and_then(|rest| rest.split(' ').next());
    tally.compared("print_round", refused.map(|number| (number.parse().expect("a number"), 0)));
}

// ---- many cases

/// Lengths of a buffer where some numbers are needed: exactly those, one less, more.
fn some_length(g: &mut Generator, needed: usize) -> usize {
    match g.below(8) {
        0 => needed.saturating_sub(1),
        1 => g.below(needed + 1),
        2 => needed + 1,
        3 => needed + 2 + g.below(9),
        _ => needed,
    }
}

fn word_by_definition(boxes: &[Edges], plug: Pair) -> Word {
    let first = definition::first_by_all_directions(boxes, plug);
    definition::word_by(first, definition::second_by_all_triples(boxes, plug))
}

fn small_rounds(tally: &mut Tally, g: &mut Generator) {
    for number in 0..100_000 {
        let span = 1 + g.below(8) as i32;
        let boxes = cases::small_round(g, number % cases::SMALL_KINDS, span);
        compare_polygons_by_definition(tally, &boxes, 2 * boxes.len());
        let length = some_length(g, 2 * boxes.len());
        compare_polygons_by_definition(tally, &boxes, length);
        compare_values(&boxes);
        compare_values(edges_of(&records_of(&boxes).expect("whole boxes")[..boxes.len() / 4]));
        for _ in 0..2 {
            let plug = (g.between(-1, span + 1), g.between(-1, span + 1));
            compare_verdicts(tally, &boxes, plug, word_by_definition);
            compare_methods(&boxes, plug);
        }
    }
}

/// The calls that return values agree with those that fill lent buffers.
fn compare_values(boxes: &[i32]) {
    let mut buffer = vec![0; 2 * boxes.len()];
    let listed = |numbers: &[i32]| numbers.chunks_exact(2).map(|v| (v[0], v[1])).collect::<Vec<_>>();
    let flat = |points: &[Point]| points.iter().map(|p| (p.east, p.north)).collect::<Vec<_>>();
    let count = feltloquat::outer_polygon_into(boxes, &mut buffer).expect("accepted");
    let outer = feltloquat::outer_polygon(boxes).expect("accepted");
    if listed(&buffer[..2 * count]) != flat(&outer) {
        fail("outer_polygon", &boxes, &buffer, &outer);
    }
    let counts = corners(boxes, &mut buffer).expect("accepted");
    let polygons = feltloquat::corner_polygons(boxes).expect("accepted");
    let all: usize = counts.iter().sum();
    if listed(&buffer[..2 * all]) != flat(&polygons.concat()) || polygons.map(|p| p.len()).to_vec() != counts {
        fail("corner_polygons", &boxes, &buffer, &counts);
    }
}

/// The two methods of this implementation agree.
fn compare_methods(boxes: &[i32], plug: (i32, i32)) {
    let edges = definition::boxes_of(boxes);
    let at = (i64::from(plug.0), i64::from(plug.1));
    let one = word_by_definition(&edges, at);
    let two = wrapping::word(&wrapping::polygons(&edges), at);
    let three = definition::first_by_corner_directions(&edges, at);
    if one != two || three != (one != Word::Inside) {
        fail("the methods of the tests", &(boxes, plug), &one, &(two, three));
    }
}

/// Every pick over small denominators, one by one: none succeeds against the word.
fn tiny_rounds(tally: &mut Tally, g: &mut Generator) {
    for number in 0..20_000 {
        let mut boxes = cases::small_round(g, number % cases::SMALL_KINDS, 2);
        boxes.truncate(12);
        let plug = (g.between(-1, 3), g.between(-1, 3));
        let (east, north) = plug;
        let at = (i64::from(east), i64::from(north));
        let edges = definition::boxes_of(&boxes);
        let given = feltloquat::word(&boxes, east, north);
        for denominator in 1..=3 {
            let (first, second) = definition::drivers_by_picks(&edges, at, denominator);
            let against = match given {
                Ok(feltloquat::Word::Inside) => first,
                Ok(feltloquat::Word::Outside) => second,
                Ok(feltloquat::Word::Undecided) => false,
                Err(_) => true,
            };
            if against {
                fail("word, by picks", &(&boxes, plug), &(denominator, first, second), &given);
            }
        }
        tally.compared("word, by picks", None);
    }
}

fn wide_rounds(tally: &mut Tally, g: &mut Generator) {
    for _ in 0..20_000 {
        let boxes = cases::wide_round(g);
        let length = some_length(g, 2 * boxes.len());
        compare_polygons_by_definition(tally, &boxes, length);
        let plugs = [cases::wide_point(g), (boxes[0], boxes[1]), middle(&boxes)];
        for plug in plugs {
            compare_verdicts(tally, &boxes, plug, |edges, at| {
                let first = definition::first_by_corner_directions(edges, at);
                definition::word_by(first, definition::second_by_all_triples(edges, at))
            });
        }
    }
}

/// The mean of the boxes' south-west corners.
fn middle(boxes: &[i32]) -> (i32, i32) {
    let count = (boxes.len() / 4) as i32;
    let sum = |edge: usize| boxes.iter().skip(edge).step_by(4).sum::<i32>();
    (sum(0) / count, sum(1) / count)
}

fn large_rounds(tally: &mut Tally, g: &mut Generator) {
    for number in 0..600 {
        let count = if number % 4 == 0 { 1_024 } else { 60 + g.below(964) };
        let boxes = cases::large_round(g, count);
        let edges = definition::boxes_of(&boxes);
        let polygons = wrapping::polygons(&edges);
        let length = some_length(g, 2 * boxes.len());
        compare_polygons(tally, "outer_polygon", &boxes, length, outer, |_, vertices| {
            wrapping::same_from_some_start(&polygons.outer, vertices)
        });
        compare_polygons(tally, "corner_polygons", &boxes, length, corners, |name, vertices| {
            wrapping::same_from_some_start(&polygons.corners[name], vertices)
        });
        for plug in 0..12 {
            let place = 4 * g.below(count);
            let drawn = (boxes[place], boxes[place + 1]);
            let plug = match plug % 4 {
                0 => drawn,
                1 => (drawn.0 * 9 / 10, drawn.1 * 9 / 10),
                2 => middle(&boxes),
                _ => (g.between(-16_000, 16_000), g.between(-16_000, 16_000)),
            };
            compare_verdicts(tally, &boxes, plug, |_, at| wrapping::word(&polygons, at));
        }
    }
}

/// Rounds and plugs spoilt in up to three ways, for every call that checks them.
fn refused_calls(tally: &mut Tally, g: &mut Generator) {
    for number in 0..20_000 {
        let mut boxes = cases::small_round(g, number % cases::SMALL_KINDS, 8);
        for _ in 0..g.below(4) {
            cases::spoil_boxes(g, &mut boxes);
        }
        let plug = if g.below(2) == 0 { (3, 4) } else { cases::far_plug(g) };
        compare_verdicts(tally, &boxes, plug, |edges, at| wrapping::word(&wrapping::polygons(edges), at));

        let length = some_length(g, 2 * boxes.len());
        let wrapped = wrapping_of(&boxes, length);
        compare_polygons(tally, "outer_polygon", &boxes, length, outer, |_, vertices| {
            wrapped.as_ref().is_some_and(|p| wrapping::same_from_some_start(&p.outer, vertices))
        });
        compare_polygons(tally, "corner_polygons", &boxes, length, corners, |name, vertices| {
            wrapped.as_ref().is_some_and(|p| wrapping::same_from_some_start(&p.corners[name], vertices))
        });

        let mut plugs: Vec<i32> = (0..2 * g.below(4)).map(|_| g.between(-16_000, 16_000)).collect();
        for _ in 0..g.below(3) {
            cases::spoil_plugs(g, &mut plugs);
        }
        let needed = boxes.len() / 4 * 18 + plugs.len() / 2 * 10 + 2;
        let length = some_length(g, needed);
        compare_write(tally, &boxes, &plugs, length);
    }
}

/// The polygons of boxes that are not refused.
fn wrapping_of(boxes: &[i32], length: usize) -> Option<wrapping::Polygons> {
    match definition::cause_of_polygons(boxes, length) {
        Some(_) => None,
        None => Some(wrapping::polygons(&definition::boxes_of(boxes))),
    }
}

/// Files that are well formed, then damaged at every place by a flipped bit, a dropped byte and an added byte.
fn damaged_files(tally: &mut Tally, g: &mut Generator) {
    for number in 0..400 {
        let file = cases::file(g, 3, number % 2 == 0);
        compare_reads(tally, g, &file);
        for place in 0..file.len() {
            for bit in 0..8 {
                let mut flipped = file.clone();
                flipped[place] ^= 1 << bit;
                compare_reads(tally, g, &flipped);
            }
            let mut dropped = file.clone();
            dropped.remove(place);
            compare_reads(tally, g, &dropped);
            compare_reads(tally, g, &file[..place]);
        }
        for place in 0..=file.len() {
            for byte in [0x00, 0x01, 0x02, 0x5B, 0x5C, 0xFF] {
                let mut added = file.clone();
                added.insert(place, byte);
                compare_reads(tally, g, &added);
            }
        }
    }
    for _ in 0..20_000 {
        let noise = cases::noise(g);
        compare_reads(tally, g, &noise);
    }
    for number in 0..200 {
        let file = cases::file(g, 3_000, number % 2 == 0);
        compare_reads(tally, g, &file);
        let cut = g.below(file.len());
        compare_reads(tally, g, &file[..cut]);
    }
}

/// Written and read is the same round; a file without notes, read and written, is the same bytes.
fn round_trips(tally: &mut Tally, g: &mut Generator) {
    for number in 0..20_000 {
        let boxes = cases::small_round(g, number % cases::SMALL_KINDS, 16_000);
        let plugs: Vec<i32> = (0..2 * g.below(5)).map(|_| g.between(-16_000, 16_000)).collect();
        let needed = boxes.len() / 4 * 18 + plugs.len() / 2 * 10 + 2;
        let length = some_length(g, needed);
        compare_write(tally, &boxes, &plugs, length);
        let file = feltloquat::write_round(&boxes, &plugs).expect("accepted");
        let round = feltloquat::read_round(&file);
        if round.as_ref().map(|r| (&r.boxes, &r.plugs)) != Ok((&boxes, &plugs)) || file != format::bytes_of(&boxes, &plugs) {
            fail("write_round, then read_round", &(&boxes, &plugs), &file, &round);
        }
        tally.compared("written and read", None);
    }
}

/// Files of accepted rounds, with plugs in and beyond the span; then damaged, cut and made too long.
fn printed_files(tally: &mut Tally, g: &mut Generator) {
    for number in 0..10_000 {
        let span = 1 + g.below(8) as i32;
        let boxes = cases::small_round(g, number % cases::SMALL_KINDS, span);
        let count = g.below(13);
        let plugs: Vec<i32> = (0..count)
            .flat_map(|_| {
                let near = (g.between(-1, span + 1), g.between(-1, span + 1));
                let (east, north) = if g.below(8) == 0 { cases::far_plug(g) } else { near };
                [east, north]
            })
            .collect();
        let mut file = format::bytes_of(&boxes, &plugs);
        compare_print(tally, &file);
        let place = g.below(file.len());
        match g.below(4) {
            0 => file[place] ^= 1 << g.below(8),
            1 => file.truncate(place),
            2 => file.insert(place, 0x5B),
            _ => cases::spoil_file(g, &mut file),
        }
        compare_print(tally, &file);
    }
    // As many plugs as a file of 65,536 bytes can hold behind 1,024 boxes, and behind one.
    let boxes = cases::large_round(g, 1_024);
    let plugs: Vec<i32> = (0..2 * 4_710).map(|_| g.between(-16_000, 16_000)).collect();
    compare_print(tally, &format::bytes_of(&boxes, &plugs));
    let many: Vec<i32> = (0..2 * 6_551).map(|_| g.between(-2, 3)).collect();
    compare_print(tally, &format::bytes_of(&[0, 0, 1, 1], &many));
    // No box, 1,024 boxes and 1,025, and a box after a plug.
    for count in [0, 1_024, 1_025] {
        compare_print(tally, &format::bytes_of(&vec![0; 4 * count], &[2, 2]));
    }
    let round = format::bytes_of(&[0, 0, 4, 4], &[2, 2]);
    compare_print(tally, &[&round[..28], &round].concat());
    for length in [65_535, 65_536, 65_537, 70_000] {
        compare_print(tally, &vec![0x5B; length]);
        compare_print(tally, &cases::file_of_length(length));
    }
}

/// The edges of the limits: 1,024 boxes and 1,025, 16,000 and 16,001, 8 × N and one less.
fn limits(tally: &mut Tally) {
    let word = |edges: &[Edges], at: Pair| wrapping::word(&wrapping::polygons(edges), at);
    // Round B at the end of 1,024 boxes, so that the last boxes decide; and one box more.
    let boxes = [[0, 0, 2, 2].repeat(1_021), vec![8, 0, 10, 2, 8, 8, 10, 10, 0, 8, 2, 10, 2, 8, 0, 10]].concat();
    for count in [0, 1, 1_021, 1_022, 1_023, 1_024, 1_025] {
        compare_verdicts(tally, &boxes[..4 * count], (5, 5), word);
        compare_verdicts(tally, &boxes[..4 * count], (16_001, 5), word);
        compare_verdicts(tally, &boxes[4 * (1_025 - count)..], (5, 5), word);
    }
    for count in [1, 2, 1_023, 1_024, 1_025, 5_000] {
        let boxes = [-16_000, -16_000, 16_000, 16_000].repeat(count);
        for plug in [(0, 0), (16_000, -16_000), (16_001, 0), (0, -16_001)] {
            compare_verdicts(tally, &boxes, plug, word);
        }
        for length in [0, 8 * count - 1, 8 * count, 8 * count + 1] {
            let wrapped = wrapping_of(&boxes, length);
            compare_polygons(tally, "outer_polygon", &boxes, length, outer, |_, vertices| {
                wrapped.as_ref().is_some_and(|p| wrapping::same_from_some_start(&p.outer, vertices))
            });
            compare_polygons(tally, "corner_polygons", &boxes, length, corners, |name, vertices| {
                wrapped.as_ref().is_some_and(|p| wrapping::same_from_some_start(&p.corners[name], vertices))
            });
        }
        for edge in 0..4 {
            let mut boxes = boxes.clone();
            let last = boxes.len() - 4 + edge;
            boxes[last] += boxes[last].signum();
            compare_verdicts(tally, &boxes, (0, 0), word);
        }
    }
}

fn main() {
    println!("independent implementation, seed {SEED:#x}");
    let mut tally = Tally::default();
    let mut g = Generator::new(SEED);
    let sections: [(&str, fn(&mut Tally, &mut Generator)); 9] = [
        ("limits", |tally, _| limits(tally)),
        ("small rounds", small_rounds),
        ("tiny rounds, pick by pick", tiny_rounds),
        ("wide rounds", wide_rounds),
        ("large rounds", large_rounds),
        ("refused calls", refused_calls),
        ("damaged files", damaged_files),
        ("round trips", round_trips),
        ("printed files", printed_files),
    ];
    for (name, section) in sections {
        let (start, before) = (Instant::now(), tally.total());
        section(&mut tally, &mut g);
        println!("  {name}: {} cases in {:.1} s", tally.total() - before, start.elapsed().as_secs_f64());
    }
    println!("  by call: {:?}", tally.calls);
    println!("  by word: {:?}", tally.words);
    println!("  by refusal: {:?}", tally.causes);
    for (call, numbers) in CAUSES {
        let met: Vec<u32> = tally.causes.keys().filter(|key| key.0 == call).map(|key| key.1).collect();
        if met != numbers {
            println!("FAILED: the refusals of {call} that were met are {met:?}, not {numbers:?}");
            std::process::exit(1);
        }
    }
    if tally.words.len() != 3 {
        println!("FAILED: a word was never met");
        std::process::exit(1);
    }
    println!("compared {} cases, all equal", tally.total());
}
