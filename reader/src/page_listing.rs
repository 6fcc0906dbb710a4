//! The text that the C program `page` writes: a line for each result of a page.

use crate::judging;
use crate::making;
use crate::paging::{self, Request, Slot};

const HEADING: &str = "parameter,sample,number,kind,width,raw,value\n";

/// Results lent by the program.
const LENT: usize = 256;

/// The heading and a line for each request, or `refused N L` alone. A page
/// that is no list of requests has no text.
pub fn listing(sheet: &[u8], frame: &[u8], page: &[u8]) -> Result<Vec<u8>, String> {
    let requests = requests(page)?;
    Ok(match rows(sheet, frame, &requests) {
        Ok(text) => text,
        Err((number, line)) => format!("refused {number} {line}\n"),
    }
    .into_bytes())
}

fn rows(sheet: &[u8], frame: &[u8], requests: &[Request]) -> Result<String, (u8, u32)> {
    let contents = judging::judge(sheet).map_err(|refusal| (refusal.number, refusal.line))?;
    if frame.len() % 2 == 1 {
        return Err((19, 0));
    }
    let words: Vec<u16> = frame.chunks(2).map(|pair| u16::from_le_bytes([pair[0], pair[1]])).collect();
    let mut slots = [Slot { number: 0, kind: 0, width: 0, raw: 0, value: 0 }; LENT];
    let paged = paging::page(&making::table_bytes(&contents), &words, requests, &mut slots);
    if paged.number != 0 {
        return Err((paged.number, 0));
    }
    let rows = requests.iter().zip(&slots).map(|(request, slot)| row(request, slot));
    Ok([HEADING.to_string()].into_iter().chain(rows).collect())
}

fn row(request: &Request, slot: &Slot) -> String {
    let Request { parameter, sample } = request;
    let Slot { number, kind, width, raw, value } = slot;
    format!("{parameter},{sample},{number},{kind},{width},{raw},{value}\n")
}

/// A parameter's number, a space and a sample's number in each line, which
/// ends with byte 10.
fn requests(page: &[u8]) -> Result<Vec<Request>, String> {
    let text = String::from_utf8_lossy(page);
    let lines = text.split_inclusive('\n').zip(1..);
    lines.map(|(line, at)| request(line).ok_or(format!("page.txt: line {at} is no request"))).collect()
}

fn request(line: &str) -> Option<Request> {
    let (parameter, sample) = line.strip_suffix('\n')?.split_once(' ')?;
    Some(Request { parameter: number(parameter)?, sample: number(sample)? })
}

fn number(digits: &str) -> Option<u32> {
    digits.bytes().all(|byte| byte.is_ascii_digit()).then(|| digits.parse().ok())?
}

#[cfg(test)]
mod tests {
    use super::*;
    use crate::listings::WALL;

    fn text(sheet: &str, frame: &[u8], page: &str) -> String {
        String::from_utf8_lossy(&listing(sheet.as_bytes(), frame, page.as_bytes()).unwrap()).into_owned()
    }

    const FRAME: [u8; 8] = [71, 2, 5, 0, 0, 0, 6, 0];

    #[test]
    fn a_page_of_the_wall() {
        let rows = "2,1,0,1,6,53,-11\n3,1,21,0,0,0,0\n1,1,0,1,12,583,583\n2,2,22,0,0,0,0\n";
        assert_eq!(text(WALL, &FRAME, "2 1\n3 1\n1 1\n2 2\n"), [HEADING, rows].concat());
        assert_eq!(
            text(WALL, &FRAME[..6], "2 1\n3 1\n"),
            [HEADING, "2,1,19,0,0,0,0\n3,1,21,0,0,0,0\n"].concat()
        );
        assert_eq!(text(WALL, &FRAME, ""), HEADING);
    }

    /// A touchdown: refusals among the samples, and an altitude whose copies
    /// differ.
    #[test]
    fn the_example_page() {
        let sheet = include_str!("../../examples/page/sheet.frcs");
        let frame = include_bytes!("../../examples/page/frame.bin");
        let page = include_str!("../../examples/page/page.txt");
        let stored = include_str!("../../examples/page/results");
        assert_eq!(text(sheet, frame, page), stored);
        assert_eq!(stored.lines().count(), 61);
        for row in ["5,19,0,1,12,3021,3021", "6,8,0,1,10,1012,-12", "8,2,0,2,18,0,0", "8,3,22,0,0,0,0"] {
            assert!(stored.lines().any(|line| line == row), "{row}");
        }
    }

    #[test]
    fn refused() {
        assert_eq!(text("", &FRAME, "2 1\n"), "refused 4 1\n");
        assert_eq!(text(WALL, &FRAME[..7], "2 1\n"), "refused 19 0\n");
        assert_eq!(text(WALL, &FRAME, &"2 1\n".repeat(257)), "refused 29 0\n");
        assert_eq!(text(WALL, &FRAME, &"2 1\n".repeat(256)).lines().count(), 257);
    }

    #[test]
    fn no_requests() {
        for line in [
            "2",
            "2,1",
            "2 1 1",
            " 2 1",
            "2  1",
            "-2 1",
            "+2 1",
            "2 x",
            "4294967296 1",
            " ",
            "2 ",
            "",
            "2 1\r",
        ] {
            let page = format!("2 1\n{line}\n");
            let error = listing(WALL.as_bytes(), &FRAME, page.as_bytes());
            assert_eq!(error, Err("page.txt: line 2 is no request".to_string()), "{line}");
        }
        assert!(listing(WALL.as_bytes(), &FRAME, b"2 1").is_err());
        assert!(listing(WALL.as_bytes(), &FRAME, b"4294967295 0\n").is_ok());
    }
}
