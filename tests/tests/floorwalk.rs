//! The program floorwalk, byte for byte against the independent listing; and named cases against what they must give.
use azebimoru_tests::chance::Chance;
use azebimoru_tests::floors;
use azebimoru_tests::inputs;
use azebimoru_tests::oracle::listing::{listing, DOCUMENT, MOST_BYTES};
use azebimoru_tests::program::{rounds, run, run_in_pieces};
use std::fs;
use std::path::{Path, PathBuf};

/// The start of a text, enough to know it by.
fn shown(bytes: &[u8]) -> String {
    let text = String::from_utf8_lossy(&bytes[..bytes.len().min(2_000)]).into_owned();
    format!("{} bytes:\n{text}", bytes.len())
}

/// The program's output, which is that of the independent listing.
fn check(input: &[u8]) -> String {
    let (got, wanted) = (run(input), listing(input));
    assert!(got == wanted, "input {}\ngot {}\nwanted {}", shown(input), shown(&got), shown(&wanted));
    String::from_utf8(got).expect("all that is written is ASCII")
}

/// A named case: program and independent listing both give what is written here.
fn expect(name: &str, input: &[u8], output: &str) {
    assert_eq!(check(input), output, "{name}");
}

/// How often each kind of line was written.
#[derive(Default, Debug)]
struct Seen {
    floors: usize,
    direct: usize,
    searched: usize,
    start_bad: usize,
    goal_bad: usize,
    no_walk: usize,
    first_line: usize,
    later_line: usize,
    survey: usize,
}

impl Seen {
    fn note(&mut self, output: &str) {
        for line in output.lines() {
            let words: Vec<&str> = line.split(' ').collect();
            let count = match words[..] {
                ["floor", ..] => &mut self.floors,
                ["input", .., "1"] => &mut self.first_line,
                ["input", ..] => &mut self.later_line,
                ["survey", ..] => &mut self.survey,
                ["0", _, _, _, "0", ..] => &mut self.direct,
                ["0", ..] => &mut self.searched,
                ["9", ..] => &mut self.start_bad,
                ["10", ..] => &mut self.goal_bad,
                ["12", ..] => &mut self.no_walk,
                _ => panic!("a line of no kind: {line}"),
            };
            *count += 1;
        }
    }
}

/// Good inputs on floors up to a side.
fn check_good(seed: u64, count: usize, most: usize, trips: usize) -> Seen {
    let mut chance = Chance::new(seed);
    let mut seen = Seen::default();
    for _ in 0..count {
        let floor = floors::some(&mut chance, most);
        let trips = chance.below(trips + 1);
        seen.note(&check(&inputs::good(&floor, trips, &mut chance)));
    }
    assert_eq!((seen.floors + seen.survey, seen.first_line + seen.later_line), (count, 0), "{seen:?}");
    seen
}

#[test]
fn good_inputs_on_small_floors() {
    let count = rounds(3_000);
    let seen = check_good(90, count, 9, 24);
    let answers = [seen.direct, seen.searched, seen.start_bad, seen.goal_bad, seen.no_walk];
    assert!(answers.iter().all(|&n| n > count / 2), "{seen:?}");
    assert_eq!(seen.survey, 0, "a small floor has a plan");
}

#[test]
fn good_inputs_on_middling_floors() {
    let count = rounds(200);
    let seen = check_good(91, count, 40, 60);
    assert!(seen.searched > count, "{seen:?}");
}

#[test]
fn good_inputs_on_large_floors() {
    let seen = check_good(92, rounds(40), 255, 20);
    assert!(seen.searched > 0, "{seen:?}");
}

/// Inputs with one to three places altered.
#[test]
fn damaged_inputs() {
    let mut chance = Chance::new(93);
    let count = rounds(4_000);
    let mut seen = Seen::default();
    for _ in 0..count {
        let floor = floors::some(&mut chance, 7);
        let trips = chance.below(9);
        let mut input = inputs::good(&floor, trips, &mut chance);
        for _ in 0..chance.between(1, 3) {
            inputs::damage(&mut input, &mut chance);
        }
        seen.note(&check(&input));
    }
    assert!(seen.first_line > count / 5 && seen.later_line > count / 3, "{seen:?}");
    assert!(seen.survey > 0 && seen.floors > count / 5, "{seen:?}");
}

/// Inputs with a line that ends within six bytes of the last that is taken: whole, with another byte or line after
/// them, a byte short, or altered near the end.
#[test]
fn inputs_round_the_last_byte() {
    let mut chance = Chance::new(94);
    let mut seen = Seen::default();
    for round in 0..rounds(130) {
        let floor = floors::some(&mut chance, 9);
        let mut input = inputs::filled(&floor, MOST_BYTES - 6 + round % 13, &mut chance);
        match round / 13 % 5 {
            0 => {}
            1 => input.push(chance.pick(b"\n 0.x")),
            2 => input.extend(b"0 0 0 0\n"),
            3 => drop(input.pop()),
            _ => {
                let mut tail = input.split_off(MOST_BYTES - 40);
                inputs::damage(&mut tail, &mut chance);
                input.extend(tail);
            }
        }
        seen.note(&check(&input));
    }
    assert!(seen.floors > seen.later_line && seen.later_line > 0 && seen.direct > 0, "{seen:?}");
}

/// The input may come in pieces of any size.
#[test]
fn input_in_pieces() {
    for piece in [1, 2, 5, 7, 22, 23] {
        let output = run_in_pieces(DOCUMENT[0].as_bytes(), piece);
        assert_eq!(String::from_utf8(output).as_deref(), Ok(DOCUMENT[1]), "{piece}");
    }
    let (input, output) = full(8_190, "0 0 10 10\n");
    let pieces = run_in_pieces(&input, 4_001);
    assert!(pieces == output.into_bytes(), "{}", shown(&pieces));
}

#[test]
fn listing_of_the_document() {
    expect("document", DOCUMENT[0].as_bytes(), DOCUMENT[1]);
}

/// The sums P9 to P12 of the document.
#[test]
fn small_sums_of_the_document() {
    let cases = [
        ("P9, P10", "2 2\n.#\n..\n0 0 1 1\n", "floor 2 2 free 3 corners 1 arcs 0\n0 2 0 3 3 20000 : 0 2 3\n"),
        ("P11", "2 2\n.#\n#.\n0 0 1 1\n", "floor 2 2 free 2 corners 0 arcs 0\n12 0 0 0 1 0\n"),
        ("P12", "3 1\n.#.\n0 0 2 0\n", "floor 3 1 free 2 corners 0 arcs 0\n12 0 0 0 1 0\n"),
    ];
    for (name, input, output) in cases {
        expect(name, input.as_bytes(), output);
    }
}

#[test]
fn first_lines_that_do_not_fit() {
    let firsts: [&str; 28] = [
        "",
        "\n",
        "5",
        "5\n",
        "5 3",
        "5 3 \n.....\n",
        " 5 3\n.....\n",
        "5  3\n.....\n",
        "5\t3\n.....\n",
        "5,3\n.....\n",
        "5 3\r\n.....\r\n",
        "05 3\n.....\n",
        "5 03\n.....\n",
        "00 3\n",
        "5 3 1\n.....\n",
        "1000 1\n",
        "1 1000\n",
        "+5 3\n.....\n",
        "-5 3\n.....\n",
        "5.0 3\n.....\n",
        "0x5 3\n.....\n",
        "five three\n",
        "18446744073709551617 1\n.\n",
        "\n5 3\n.....\n..#..\n.....\n",
        "\u{feff}1 1\n.\n",
        "1 1\0\n.\n",
        ".\n1 1\n",
        "4294967297 1\n.\n",
    ];
    for first in firsts {
        expect(first, first.as_bytes(), "input refused at line 1\n");
    }
    expect("a long first line", &vec![b'1'; 2 * MOST_BYTES], "input refused at line 1\n");
}

/// Refused straight after line 1, whatever follows it or does not.
#[test]
fn sizes_out_of_their_limits() {
    for size in
        ["0 0", "0 1", "1 0", "256 1", "1 256", "999 999", "999 1", "1 999", "128 129", "255 65", "65 255"]
    {
        for rest in ["", ".", ".\n", "0 0 0 0\n", "\r\n"] {
            expect(size, format!("{size}\n{rest}").as_bytes(), "survey refused 1\n");
        }
    }
}

/// Sizes at their limits are taken: the refusal is that of a row that is missing.
#[test]
fn sizes_at_their_limits() {
    for size in ["1 1", "255 1", "1 255", "255 64", "64 255", "128 128", "192 85"] {
        expect(size, format!("{size}\n").as_bytes(), "input refused at line 2\n");
    }
    let wide = format!("255 1\n{}\n0 0 254 0\n", ".".repeat(255));
    let cells: String = (0..255).map(|c| format!(" {c}")).collect();
    let output = format!("floor 255 1 free 255 corners 0 arcs 0\n0 254 0 255 0 2540000 :{cells}\n");
    expect("widest", wide.as_bytes(), &output);
}

#[test]
fn rows_that_do_not_fit() {
    let cases = [
        ("no row", "3 2\n", 2),
        ("one row missing", "3 2\n...\n", 3),
        ("a query instead of a row", "3 2\n...\n0 0 0 0\n", 3),
        ("a short row", "3 2\n..\n...\n", 2),
        ("a short last row", "3 2\n...\n..\n0 0 0 0\n", 3),
        ("a long row", "3 2\n....\n...\n", 2),
        ("a long last row", "3 2\n...\n....\n", 3),
        ("an empty row", "3 2\n\n...\n...\n", 2),
        ("a wrong letter", "3 2\n..x\n...\n", 2),
        ("a space", "3 2\n. .\n...\n", 2),
        ("a byte that is no text", "3 2\n..\u{e9}\n...\n", 2),
        ("a carriage return", "3 2\n...\r\n...\r\n", 2),
        ("a carriage return as the last letter", "3 2\n..\r\n...\n", 2),
        ("a row without its newline", "3 2\n...\n...", 3),
        ("rows that run together", "3 2\n......\n", 2),
    ];
    for (name, input, line) in cases {
        expect(name, input.as_bytes(), &format!("input refused at line {line}\n"));
    }
    let row = [b"3 2\n...\n".to_vec(), vec![b'.'; 2 * MOST_BYTES]].concat();
    expect("a row past the last byte", &row, "input refused at line 3\n");
}

/// What comes before the line that does not fit has been answered.
#[test]
fn queries_that_do_not_fit() {
    let head = "2 2\n.#\n..\n0 0 0 1\n";
    let answered = "floor 2 2 free 3 corners 1 arcs 0\n0 1 0 2 0 10000 : 0 2\n";
    expect("no line after it", head.as_bytes(), answered);
    let lines: [&str; 21] = [
        "\n",
        "0",
        "0 0 0 1",
        "0 0 0\n",
        "0 0 0 1 \n",
        " 0 0 0 1\n",
        "0 0  0 1\n",
        "0 0 00 1\n",
        "0 0 01 1\n",
        "0 0 0 1000\n",
        "1000 0 0 1\n",
        "0 0 0 1\r\n",
        "0 0 0 1 0\n",
        "0 0 0 -1\n",
        "0 0 0 +1\n",
        "0,0,0,1\n",
        "0\t0 0 1\n",
        "a b c d\n",
        ".#\n",
        "0 0 0 1\0\n",
        "0 0 0 18446744073709551616\n",
    ];
    for line in lines {
        for rest in ["", "0 0 0 1\n"] {
            // A line that lacks its newline is whole again, or another one, when something follows.
            let input =
                if line.ends_with('\n') { format!("{head}{line}{rest}") } else { format!("{head}{line}") };
            expect(line, input.as_bytes(), &format!("{answered}input refused at line 5\n"));
        }
    }
    let byte = [head.as_bytes(), b"0 0 0 \xb2\n"].concat();
    expect("a byte that is no text", &byte, &format!("{answered}input refused at line 5\n"));
}

#[test]
fn no_query_lines() {
    expect("one free cell", b"1 1\n.\n", "floor 1 1 free 1 corners 0 arcs 0\n");
    expect("one blocked cell", b"1 1\n#\n", "floor 1 1 free 0 corners 0 arcs 0\n");
    expect("a row", b"4 1\n.##.\n", "floor 4 1 free 2 corners 0 arcs 0\n");
}

/// Numbers up to 999 are read; that they lie outside is the query's to say.
#[test]
fn ends_outside_or_blocked() {
    let input = "2 2\n.#\n..\n999 0 0 0\n0 999 1 0\n2 0 0 0\n0 2 0 0\n1 0 1 0\n0 0 999 0\n0 0 0 999\n0 0 2 0\n0 0 1 0\n";
    let nine = "9 0 0 0 0 0\n".repeat(5);
    let ten = "10 0 0 0 0 0\n".repeat(4);
    expect("ends", input.as_bytes(), &format!("floor 2 2 free 3 corners 1 arcs 0\n{nine}{ten}"));
}

/// A floor of one cell, this many queries of 8 bytes each and one more; and what is answered to them.
fn full(queries: usize, last: &str) -> (Vec<u8>, String) {
    let input = format!("1 1\n.\n{}{last}", "0 0 0 0\n".repeat(queries));
    let answers = "0 0 0 1 0 0 : 0\n".repeat(queries);
    (input.into_bytes(), format!("floor 1 1 free 1 corners 0 arcs 0\n{answers}10 0 0 0 0 0\n"))
}

#[test]
fn exactly_the_bytes_that_are_taken() {
    let (input, output) = full(8_190, "0 0 10 10\n");
    assert_eq!(input.len(), 65_536);
    expect("65,536 bytes", &input, &output);
    for more in ["x", "\n", "0", "0 0 0 0\n"] {
        // The newline stands on the last allowed byte, and the line after it goes past that byte.
        let longer = [&input[..], more.as_bytes()].concat();
        expect(more, &longer, &format!("{output}input refused at line 8194\n"));
    }
    let longest = [&input[..], &b"0 0 0 0\n".repeat(50_000)].concat();
    expect("465,536 bytes", &longest, &format!("{output}input refused at line 8194\n"));
}

#[test]
fn a_line_across_the_last_byte() {
    let answered = |queries: usize| full(queries, "").1.replace("10 0 0 0 0 0\n", "");
    let refused = format!("{}input refused at line 8193\n", answered(8_190));
    let (input, _) = full(8_190, "0 0 10 999\n");
    assert_eq!(input.len(), 65_537);
    expect("its newline is one too far", &input, &refused);
    expect("it ends on the last byte and has no newline", &input[..65_536], &refused);
    let (input, _) = full(8_190, "0 0 100 999\n0 0 0 0\n");
    expect("another line after it", &input, &refused);
    let (input, output) = full(8_190, "0 0 10 9\n");
    assert_eq!(input.len(), 65_535);
    expect("one byte fewer", &input, &output);
    let more = [&input[..], b"0"].concat();
    expect("a line that is its first byte", &more, &format!("{output}input refused at line 8194\n"));
}

/// The lists have the largest sizes: a plan at either limit is made and used, and one beyond it refused.
#[test]
fn plans_at_the_limits() {
    let within = [
        (
            floors::stairs(2_048),
            "0 0 2 1\n",
            "floor 128 128 free 2066 corners 2048 arcs 4078\n0 3 0 4 4 30000 : 0 1 129 130\n",
        ),
        (
            floors::pillars_at_the_limit(true),
            "1 1 2 1\n0 0 1 1\n",
            "floor 128 128 free 15838 corners 1924 arcs 32768\n0 1 0 2 0 10000 : 129 130\n9 0 0 0 0 0\n",
        ),
    ];
    for (floor, trips, output) in within {
        expect(output, &[&inputs::head(&floor), trips.as_bytes()].concat(), output);
    }
    let mut chance = Chance::new(95);
    let beyond = [
        (floors::stairs(2_049), "survey refused 5\n"),
        (floors::make(floors::Kind::Dense(20), 128, 128, &mut chance), "survey refused 5\n"),
        (floors::pillars_at_the_limit(false), "survey refused 7\n"),
    ];
    for (floor, output) in beyond {
        for trips in ["", "0 0 0 0\n", "no trip"] {
            expect(output, &[&inputs::head(&floor), trips.as_bytes()].concat(), output);
        }
    }
}

/// Routes as long as a floor has them.
#[test]
fn long_routes() {
    for (w, h) in [(128, 128), (127, 129), (255, 64), (64, 255), (255, 63)] {
        let floor = floors::snake(w, h);
        let (last, y) = (*floor.free_cells().last().expect("a corridor"), h - 1);
        let input = [inputs::head(&floor), format!("0 0 {} {y}\n", last % w).into_bytes()].concat();
        let output = check(&input);
        let cells =
            output.lines().last().and_then(|line| line.split(' ').nth(3)).and_then(|n| n.parse().ok());
        assert!(cells > Some(w * h / 2 - w), "{w} {h}: {cells:?}");
    }
}

fn examples(kind: &str) -> Vec<PathBuf> {
    let folder = Path::new(env!("CARGO_MANIFEST_DIR")).join("../examples");
    let all = fs::read_dir(folder).expect("the folder of examples").map(|e| e.expect("an entry").path());
    let mut found: Vec<PathBuf> = all.filter(|path| path.extension().map_or(false, |e| e == kind)).collect();
    found.sort();
    found
}

/// Each example has its answers beside it, and they are the program's.
#[test]
fn examples_have_their_answers() {
    let floors = examples("floor");
    assert!(floors.len() > 3, "{floors:?}");
    let beside: Vec<PathBuf> = floors.iter().map(|path| path.with_extension("answers")).collect();
    assert_eq!(examples("answers"), beside);
    for (floor, answers) in floors.iter().zip(beside) {
        let output = fs::read_to_string(answers).expect("the answers are text");
        expect(&floor.display().to_string(), &fs::read(floor).expect("a floor"), &output);
        assert!(!output.contains("refused"), "{}", floor.display());
    }
}
