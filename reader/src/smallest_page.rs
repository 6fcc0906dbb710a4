//! Smallest cases of the page call, for the trial program's stored case file.

use crate::cases::Case;
use crate::listings::WALL;
use crate::paging::Request;
use crate::smallest::{table, table_of, Shown};

pub fn cases() -> Vec<Shown> {
    [answered(), nothing_asked(), in_each_result(), lengths(), overlapped(), of_forms()].concat()
}

const FRAME: [u16; 4] = [583, 5, 0, 6];

/// Pitch, no parameter, Sync.
const THREE: [(u32, u32); 3] = [(2, 1), (3, 1), (1, 1)];

fn page(table: Vec<u8>, frame: &[u16], asked: &[(u32, u32)], lent: usize) -> Case {
    let requests = asked.iter().map(|&(parameter, sample)| Request { parameter, sample }).collect();
    Case::Page { table, frame: frame.to_vec(), requests, lent }
}

fn on_the_wall(asked: &[(u32, u32)], lent: usize) -> Case {
    page(table(WALL), &FRAME, asked, lent)
}

fn answered() -> Vec<Shown> {
    vec![
        ("a page of three, results beyond them stay", on_the_wall(&THREE, 4)),
        ("a page of three, as many results", on_the_wall(&THREE, 3)),
        ("a page of one", on_the_wall(&[(2, 1)], 1)),
        ("the same asked for again", on_the_wall(&[(2, 1), (1, 1), (2, 1), (2, 1)], 5)),
    ]
}

/// Even the table is not looked at.
fn nothing_asked() -> Vec<Shown> {
    vec![
        ("an empty page", on_the_wall(&[], 2)),
        ("an empty page and no result", on_the_wall(&[], 0)),
        ("an empty page of no table", page(vec![], &[], &[], 1)),
    ]
}

fn in_each_result() -> Vec<Shown> {
    let unlisted = [(2, 1), (0, 1), (3, 1), (65_538, 1), (1, 0), (1, 2), (2, 257), (1, 1)];
    let mut cut = table(WALL);
    cut.pop();
    vec![
        ("in results 21, 21, 21, 22, 22, 22", on_the_wall(&unlisted, 9)),
        ("in results the frame's 19 after 21 and 22", page(table(WALL), &FRAME[..3], &unlisted, 9)),
        ("in results the frame's 20 after 21 and 22", page(table(WALL), &[583, 5, 4096, 6], &unlisted, 9)),
        ("in every result 18", page(cut, &FRAME, &unlisted, 9)),
        ("in every result 18, of no bytes", page(vec![], &[], &THREE, 4)),
    ]
}

/// 29, then 28, before all others.
fn lengths() -> Vec<Shown> {
    let many = |count: usize| -> Vec<(u32, u32)> { THREE.into_iter().cycle().take(count).collect() };
    vec![
        ("28: a page of three, two results", on_the_wall(&THREE, 2)),
        ("28: a page of one, no result", on_the_wall(&[(2, 1)], 0)),
        ("28: before 18 and 19", page(vec![], &[], &THREE, 2)),
        ("a page of 256", on_the_wall(&many(256), 257)),
        ("28: a page of 256, a result too few", on_the_wall(&many(256), 255)),
        ("29: a page of 257", on_the_wall(&many(257), 257)),
        ("29: before 28", on_the_wall(&many(257), 2)),
        ("29: before 18 and 28", page(vec![], &[], &many(257), 256)),
    ]
}

/// The wall with Pitch twice: 12 bits with overlap 1, then 7 bits.
fn overlapped() -> Vec<Shown> {
    let sheet = WALL.replace("1,2,0,1-4\n1,4,0,2-3\n", "1,2,1,1-12\n1,4,0,1-7\n0\n1,3,1,1-12\n1,4,0,1-7\n");
    let asked = [(2, 1), (2, 2), (1, 1), (2, 3)];
    vec![
        ("copies agree in one result, differ in another", page(table(&sheet), &[583, 2048, 0, 1], &asked, 4)),
        ("copies agree in both, minus 1", page(table(&sheet), &[583, 4095, 4095, 127], &asked, 4)),
    ]
}

fn of_forms() -> Vec<Shown> {
    vec![
        ("a page by form 1", page(table_of(1, WALL), &FRAME, &THREE, 4)),
        ("a page by form 2", page(table_of(2, WALL), &FRAME, &THREE, 4)),
    ]
}

#[cfg(test)]
mod tests {
    use super::*;
    use crate::case_files;
    use crate::cases::sum;

    fn line(shown: &str) -> String {
        let found: Vec<String> =
            cases().iter().filter(|(what, _)| *what == shown).map(|(_, case)| case.line()).collect();
        assert_eq!(found.len(), 1, "{shown}");
        found[0].clone()
    }

    #[test]
    fn reference_lines() {
        assert_eq!(line("a page of three, results beyond them stay"), "9 0 3 1602588475");
        assert_eq!(line("28: a page of three, two results"), "9 28 0 444746017");
        let file = [on_the_wall(&THREE, 4).bytes(), on_the_wall(&THREE, 2).bytes()].concat();
        assert_eq!(case_files::answers(&file), ["9 0 3 1602588475", "9 28 0 444746017"]);
    }

    /// Number, kind, width, raw, the value's low 32 bits and its high ones.
    fn line_of(number: u64, count: usize, results: &[[u64; 6]]) -> String {
        format!("9 {number} {count} {}", sum(results.iter().flatten().copied()))
    }

    const STAYS: [u64; 6] = [42_405, 42_405, 42_405, 42_405, 42_405, 0];
    const PITCH: [u64; 6] = [0, 1, 6, 53, 4_294_967_285, 4_294_967_295];
    const SYNC: [u64; 6] = [0, 1, 12, 583, 583, 0];

    fn refused(number: u64) -> [u64; 6] {
        [number, 0, 0, 0, 0, 0]
    }

    #[test]
    fn results_by_hand() {
        let due = line_of(0, 3, &[PITCH, refused(21), SYNC, STAYS]);
        for shown in ["a page of three, results beyond them stay", "a page by form 1", "a page by form 2"] {
            assert_eq!(line(shown), due);
        }
        let again = [PITCH, SYNC, PITCH, PITCH, STAYS];
        assert_eq!(line("the same asked for again"), line_of(0, 4, &again));
        assert_eq!(line("an empty page of no table"), line_of(0, 0, &[STAYS]));
        let numbers = |numbers: [u64; 8]| [&numbers.map(refused)[..], &[STAYS]].concat();
        let short = numbers([19, 21, 21, 21, 22, 22, 22, 19]);
        assert_eq!(line("in results the frame's 19 after 21 and 22"), line_of(0, 8, &short));
        assert_eq!(line("in every result 18"), line_of(0, 8, &numbers([18; 8])));
        let minus = [0, 1, 18, 262_143, 4_294_967_295, 4_294_967_295];
        let both = [minus, minus, SYNC, refused(22)];
        assert_eq!(line("copies agree in both, minus 1"), line_of(0, 4, &both));
        let unlike = [[0, 1, 18, 2048, 2048, 0], [0, 2, 18, 2048, 2048, 0], SYNC, refused(22)];
        assert_eq!(line("copies agree in one result, differ in another"), line_of(0, 4, &unlike));
        assert_eq!(line("29: before 18 and 28"), line_of(29, 0, &[STAYS; 256]));
    }
}
