//! A page of samples: 29, then 28, then each request as a single read.

use crate::checking;
use crate::reading::{self, Answer};
use crate::wrong::{wrongly, Wrong};

/// The most requests of a page.
const MOST: usize = 256;

#[derive(Clone, Copy, Debug, PartialEq, Eq, PartialOrd, Ord)]
pub struct Request {
    pub parameter: u32,
    pub sample: u32,
}

/// One of the lent results.
#[derive(Clone, Copy, Debug, PartialEq, Eq)]
pub struct Slot {
    pub number: u32,
    pub kind: u32,
    pub width: u32,
    pub raw: u32,
    pub value: i64,
}

const ZEROS: Slot = Slot { number: 0, kind: 0, width: 0, raw: 0, value: 0 };

/// The call's own answer: 0, 29 or 28, and how many results were written.
#[derive(Clone, Copy, Debug, PartialEq, Eq)]
pub struct Paged {
    pub number: u8,
    pub count: usize,
}

pub fn page(table: &[u8], frame: &[u16], requests: &[Request], slots: &mut [Slot]) -> Paged {
    if let Some(number) = refusal(table, frame, requests, slots.len()) {
        if writes_refused(number) {
            put(slots, &results(table, frame, &requests[..requests.len().min(MOST)]));
        }
        if wrongly(Wrong::PageRefusalWipes) {
            slots.fill(ZEROS);
        }
        return Paged { number, count: if wrongly(Wrong::PageCountAsked) { requests.len() } else { 0 } };
    }
    let requests = if wrongly(Wrong::PageCut) { &requests[..requests.len().min(MOST)] } else { requests };
    let results = results(table, frame, requests);
    put(slots, &results);
    Paged { number: number(&results), count: count(&results, slots.len()) }
}

/// Nothing but the two lengths is asked: 29, then 28.
fn refusal(table: &[u8], frame: &[u16], requests: &[Request], lent: usize) -> Option<u8> {
    if wrongly(Wrong::PageTableFirst) && checking::check(table).is_none() {
        return Some(18);
    }
    let too_many = is_29(requests.len()).then_some(29);
    let too_short = is_28(requests.len(), lent).then_some(28);
    let of_lengths =
        if wrongly(Wrong::Page28First) { too_short.or(too_many) } else { too_many.or(too_short) };
    of_lengths.or_else(|| wrongly_refused(table, frame, requests))
}

fn is_29(asked: usize) -> bool {
    if wrongly(Wrong::Page29Never) || wrongly(Wrong::PageCut) {
        return false;
    }
    let less = usize::from(wrongly(Wrong::PageLimitLess));
    let more = usize::from(wrongly(Wrong::PageLimitMore));
    asked > MOST - less + more
}

fn is_28(asked: usize, lent: usize) -> bool {
    if wrongly(Wrong::Page28Never) {
        return false;
    }
    if wrongly(Wrong::Page28Exact) {
        return lent <= asked;
    }
    if wrongly(Wrong::Page28OneLess) {
        return lent + 1 < asked;
    }
    if wrongly(Wrong::Page28Most) {
        return lent < MOST;
    }
    lent < if wrongly(Wrong::PageCut) { asked.min(MOST) } else { asked }
}

/// A page that refuses as a whole what only a result tells.
fn wrongly_refused(table: &[u8], frame: &[u16], requests: &[Request]) -> Option<u8> {
    if wrongly(Wrong::PageTableRefuses) || (wrongly(Wrong::PageEmpty18) && requests.is_empty()) {
        return checking::check(table).is_none().then_some(18);
    }
    if wrongly(Wrong::PageFrameRefuses) {
        return reading::judge_frame(&checking::check(table)?.contents, frame).err();
    }
    if wrongly(Wrong::PageRequestRefuses) {
        return requests.iter().find_map(|r| reading::read(table, frame, r.parameter, r.sample).err());
    }
    None
}

fn writes_refused(number: u8) -> bool {
    match number {
        28 => wrongly(Wrong::Page28Writes),
        29 => wrongly(Wrong::Page29Writes),
        _ => false,
    }
}

/// None where the slot is to stay as it is.
fn results(table: &[u8], frame: &[u16], requests: &[Request]) -> Vec<Option<Slot>> {
    let mut requests = requests.to_vec();
    if wrongly(Wrong::PageSorted) {
        requests.sort();
    }
    if wrongly(Wrong::PageReversed) {
        requests.reverse();
    }
    let mut results: Vec<Option<Slot>> = Vec::new();
    for (index, request) in requests.iter().enumerate() {
        let before = results.last().copied().flatten();
        if wrongly(Wrong::PageAgain) && requests[..index].contains(request) {
            results.push(None);
            continue;
        }
        let parameter =
            if wrongly(Wrong::PageFirstParameter) { requests[0].parameter } else { request.parameter };
        let slot = result(table, frame, Request { parameter, sample: request.sample }, before);
        results.push(slot);
        if wrongly(Wrong::PageStops) && slot.is_some_and(|slot| slot.number != 0) {
            break;
        }
    }
    if wrongly(Wrong::PageSkips) {
        results.retain(|slot| slot.is_some_and(|slot| slot.number == 0));
    }
    results
}

/// What the single read answers.
fn result(table: &[u8], frame: &[u16], request: Request, before: Option<Slot>) -> Option<Slot> {
    let Request { parameter, sample } = if wrongly(Wrong::PageSwapped) { swapped(request) } else { request };
    let read = match wrongly(Wrong::PageFrameFirst).then(|| frame_refusal(table, frame)).flatten() {
        Some(number) => Err(number),
        None => reading::read(table, frame, parameter, sample),
    };
    match read {
        Ok(answer) => Some(answered(answer)),
        Err(_) if wrongly(Wrong::PageLeaves) => None,
        Err(number) => {
            let rest = if wrongly(Wrong::PageLeftOver) { before.unwrap_or(ZEROS) } else { ZEROS };
            Some(Slot { number: number.into(), ..rest })
        }
    }
}

fn answered(answer: Answer) -> Slot {
    let kind = if wrongly(Wrong::PageKindOne) { 1 } else { answer.kind };
    let mut value = answer.value;
    if wrongly(Wrong::PageRawValue) {
        value = answer.raw as i64;
    }
    if wrongly(Wrong::PageValueLow) {
        value &= 0xFFFF_FFFF;
    }
    Slot { number: 0, kind, width: answer.width, raw: answer.raw as u32, value }
}

fn swapped(request: Request) -> Request {
    Request { parameter: request.sample, sample: request.parameter }
}

fn frame_refusal(table: &[u8], frame: &[u16]) -> Option<u8> {
    reading::judge_frame(&checking::check(table)?.contents, frame).err()
}

/// Each result into the slot in its request's place, as far as there are
/// slots; those beyond stay.
fn put(slots: &mut [Slot], results: &[Option<Slot>]) {
    let first = usize::from(wrongly(Wrong::PageShifted)).min(slots.len());
    for (slot, result) in slots[first..].iter_mut().zip(results) {
        match result {
            Some(result) if wrongly(Wrong::PageNumberAlone) && result.number != 0 => {
                slot.number = result.number;
            }
            Some(result) => *slot = *result,
            None => {}
        }
    }
    if wrongly(Wrong::PageWipes) {
        slots.iter_mut().skip(results.len()).for_each(|slot| *slot = ZEROS);
    }
}

/// A request's refusal is its result's alone.
fn number(results: &[Option<Slot>]) -> u8 {
    if wrongly(Wrong::PageNumberOfResult) {
        let refused = results.iter().flatten().find(|slot| slot.number != 0);
        return refused.map_or(0, |slot| slot.number as u8);
    }
    0
}

/// As many as there are requests, refused or not.
fn count(results: &[Option<Slot>], lent: usize) -> usize {
    if wrongly(Wrong::PageCountLent) {
        return lent;
    }
    if wrongly(Wrong::PageCountGood) {
        return results.iter().flatten().filter(|slot| slot.number == 0).count();
    }
    if wrongly(Wrong::PageCountByte) {
        return results.len() % 256;
    }
    if wrongly(Wrong::Page28Never) {
        return results.len().min(lent);
    }
    results.len()
}

#[cfg(test)]
mod tests {
    use super::*;
    use crate::listings::WALL;
    use crate::smallest::table;

    const BEFORE: Slot = Slot { number: 7, kind: 7, width: 7, raw: 7, value: 7 };

    fn request(parameter: u32, sample: u32) -> Request {
        Request { parameter, sample }
    }

    fn refused(number: u32) -> Slot {
        Slot { number, ..ZEROS }
    }

    #[test]
    fn pitch_sync_and_what_is_not_there() {
        let asked = [request(2, 1), request(3, 1), request(1, 1), request(2, 2)];
        let mut slots = [BEFORE; 5];
        let paged = page(&table(WALL), &[583, 5, 0, 6], &asked, &mut slots);
        assert_eq!(paged, Paged { number: 0, count: 4 });
        let pitch = Slot { number: 0, kind: 1, width: 6, raw: 53, value: -11 };
        let sync = Slot { number: 0, kind: 1, width: 12, raw: 583, value: 583 };
        assert_eq!(slots, [pitch, refused(21), sync, refused(22), BEFORE]);
    }

    #[test]
    fn a_frame_one_word_short() {
        let asked = [request(2, 1), request(3, 1), request(1, 1), request(1, 2)];
        let mut slots = [BEFORE; 4];
        assert_eq!(page(&table(WALL), &[583, 5, 0], &asked, &mut slots), Paged { number: 0, count: 4 });
        assert_eq!(slots, [19, 21, 19, 22].map(refused));
    }

    #[test]
    fn no_table() {
        let mut slots = [BEFORE; 3];
        assert_eq!(page(&[], &[], &[], &mut slots), Paged { number: 0, count: 0 });
        assert_eq!(slots, [BEFORE; 3]);
        let asked = [request(1, 1), request(0, 0)];
        assert_eq!(page(&[], &[], &asked, &mut slots), Paged { number: 0, count: 2 });
        assert_eq!(slots, [refused(18), refused(18), BEFORE]);
    }

    #[test]
    fn lengths_come_first() {
        let refused_by = |asked: usize, lent: usize| {
            let mut slots = vec![BEFORE; lent];
            let paged = page(&[], &[], &vec![request(1, 1); asked], &mut slots);
            assert!(paged.number == 0 || slots.iter().all(|slot| *slot == BEFORE));
            (paged.number, paged.count)
        };
        assert_eq!(refused_by(257, 300), (29, 0));
        assert_eq!(refused_by(257, 0), (29, 0));
        assert_eq!(refused_by(256, 255), (28, 0));
        assert_eq!(refused_by(256, 256), (0, 256));
        assert_eq!(refused_by(1, 0), (28, 0));
        assert_eq!(refused_by(0, 0), (0, 0));
    }
}
