//! The listing of the program: bytes in, bytes out.
use super::floor::{sizes_refused, Floor};
use super::lengths::Length;
use super::plan::{survey, Lists, MOST_ARCS, MOST_CORNERS};
use super::trip::Known;
use crate::face::Ends;

/// The most bytes that are taken.
pub const MOST_BYTES: usize = 65_536;

/// The decimal number of a piece of a line: 0 to 999, and the piece is how that number is written.
fn number(piece: &[u8]) -> Option<usize> {
    let text = std::str::from_utf8(piece).ok()?;
    let number: usize = text.parse().ok()?;
    (number <= 999 && number.to_string() == text).then_some(number)
}

/// The numbers of a line, if it has exactly N of them, one space apart.
fn numbers<const N: usize>(line: &[u8]) -> Option<[usize; N]> {
    let pieces: Vec<&[u8]> = line.split(|&b| b == b' ').collect();
    let mut found = [0; N];
    if pieces.len() != N {
        return None;
    }
    for (to, piece) in found.iter_mut().zip(pieces) {
        *to = number(piece)?;
    }
    Some(found)
}

/// The lines that end in a newline within the bytes taken, and whether more follows them.
fn lines(input: &[u8]) -> (Vec<&[u8]>, bool) {
    let taken = &input[..input.len().min(MOST_BYTES)];
    let mut lines: Vec<&[u8]> = taken.split(|&b| b == b'\n').collect();
    let rest = lines.pop().map_or(0, |rest| rest.len());
    (lines, rest > 0 || input.len() > MOST_BYTES)
}

fn refused_at(line: usize) -> String {
    format!("input refused at line {line}\n")
}

/// The rows of the map, or the number of the first line that does not fit.
fn map(lines: &[&[u8]], w: usize, h: usize) -> Result<Floor, usize> {
    let mut floor = Floor::filled(w, h, false);
    for y in 0..h {
        let row = lines.get(y + 1).ok_or(y + 2)?;
        if row.len() != w || !row.iter().all(|b| b".#".contains(b)) {
            return Err(y + 2);
        }
        (0..w).for_each(|x| floor.set(x, y, row[x] == b'#'));
    }
    Ok(floor)
}

fn query_line(known: &Known, lists: &Lists, [sx, sy, gx, gy]: [usize; 4]) -> String {
    let told = known.expect_any(lists, Ends { sx, sy, gx, gy }, 16_384, 6 * (MOST_CORNERS + 2));
    let [code, a, b, cells, effort] = told.answer;
    let figure = Length { straight: a, diagonal: b }.figure();
    let mut line = format!("{code} {a} {b} {cells} {effort} {figure}");
    if code == 0 {
        line.push_str(" :");
        told.route.iter().for_each(|cell| line.push_str(&format!(" {cell}")));
    }
    line.push('\n');
    line
}

/// Surveys the floor with lists of the largest sizes, and answers the lines after the map.
fn walk(floor: &Floor, lines: &[&[u8]], more: bool) -> String {
    let (w, h) = (floor.w, floor.h);
    let mut room = Lists {
        clearances: vec![0; 4 * 16_384],
        corners: vec![0; MOST_CORNERS],
        starts: vec![0; MOST_CORNERS + 1],
        neighbours: vec![0; MOST_ARCS],
    };
    let [code, free, k, m] = survey(w, h, &floor.words(), &mut room);
    if code != 0 {
        return format!("survey refused {code}\n");
    }
    let known = Known::of(floor);
    let lists = known.lists.clone().expect("an accepted plan is within the limits");
    let mut out = format!("floor {w} {h} free {free} corners {k} arcs {m}\n");
    for (i, line) in lines.iter().enumerate().skip(h + 1) {
        match numbers(line) {
            Some(ends) => out.push_str(&query_line(&known, &lists, ends)),
            None => return out + &refused_at(i + 1),
        }
    }
    if more {
        out.push_str(&refused_at(lines.len() + 1));
    }
    out
}

/// The whole output for an input.
pub fn listing(input: &[u8]) -> Vec<u8> {
    let (lines, more) = lines(input);
    let sizes = lines.first().and_then(|line| numbers(line));
    let out = match sizes {
        None => refused_at(1),
        Some([w, h]) if sizes_refused(w, h) => "survey refused 1\n".to_string(),
        Some([w, h]) => match map(&lines, w, h) {
            Err(line) => refused_at(line),
            Ok(floor) => walk(&floor, &lines, more),
        },
    };
    out.into_bytes()
}

/// The listing that the document gives, input and output.
pub const DOCUMENT: [&str; 2] = [
    "5 3\n.....\n..#..\n.....\n0 1 4 1\n0 0 4 2\n0 0 1 2\n0 0 0 0\n0 0 2 1\n",
    "floor 5 3 free 14 corners 4 arcs 8\n0 2 2 5 6 48284 : 5 1 2 3 9\n0 4 1 6 6 54142 : 0 1 2 3 9 14\n\
     0 1 1 3 0 24142 : 0 6 11\n0 0 0 1 0 0 : 0\n10 0 0 0 0 0\n",
];

#[cfg(test)]
mod tests {
    use super::*;

    #[test]
    fn listing_of_the_document() {
        assert_eq!(String::from_utf8(listing(DOCUMENT[0].as_bytes())).as_deref(), Ok(DOCUMENT[1]));
    }

    #[test]
    fn lines_that_do_not_fit() {
        let cases: [(&str, &str); 8] = [
            ("", "input refused at line 1\n"),
            ("1 1", "input refused at line 1\n"),
            ("1 01\n.\n", "input refused at line 1\n"),
            ("0 1\n", "survey refused 1\n"),
            ("1 1\n", "input refused at line 2\n"),
            ("1 1\n.\n0 0 0", "floor 1 1 free 1 corners 0 arcs 0\ninput refused at line 3\n"),
            ("1 1\n.\n", "floor 1 1 free 1 corners 0 arcs 0\n"),
            ("1 1\n.\n\n", "floor 1 1 free 1 corners 0 arcs 0\ninput refused at line 3\n"),
        ];
        for (input, output) in cases {
            assert_eq!(String::from_utf8(listing(input.as_bytes())).as_deref(), Ok(output), "{input:?}");
        }
    }
}
