//! About how long the shortest sheet is that says given contents; used only
//! by the wrong reading that binds a table to a sheet's size.

use crate::contents::{Component, Contents, Parameter, Subframe};

pub fn length(contents: &Contents) -> usize {
    let header = "HEADER:\n2.0,,x,,,x,,,true,,,,,\n".len() + digits(contents.subframes.len() as u64);
    let alike = contents.subframes.iter().all(|s| *s == contents.subframes[0]);
    let pairs = if alike { 1 } else { contents.subframes.len() };
    let records: usize = contents.subframes[..pairs].iter().map(record).sum();
    let parameters: usize = contents.parameters.iter().map(parameter).sum();
    header + records + parameters.max("NONE\n".len())
}

fn digits(value: u64) -> usize {
    value.to_string().len()
}

fn margin(margin: Option<u16>) -> usize {
    margin.map_or(0, |bits| digits(u64::from(bits)))
}

fn record(subframe: &Subframe) -> usize {
    let seconds = digits(subframe.numerator) + 1 + digits(u64::from(subframe.denominator));
    "RECORD:\n,,,,\n".len()
        + digits(u64::from(subframe.bits))
        + digits(u64::from(subframe.words))
        + margin(subframe.leading)
        + margin(subframe.trailing)
        + seconds
}

fn parameter(parameter: &Parameter) -> usize {
    let texts = parameter.name.len() + parameter.mnemonic.len() + parameter.identification.len();
    let value = parameter.identifier.map_or(0, |value| digits(u64::from(value)));
    let samples = parameter.samples.iter().map(|s| {
        let components: usize = s.components.iter().map(component).sum();
        components + digits(u64::from(s.time / 1_000_000)) + 1
    });
    "PARAMETER:\n,,,true,,,\n\ntrue,,,,\n,,,\n,,\n\n\n".len() + texts + value + samples.sum::<usize>()
}

fn component(component: &Component) -> usize {
    let bits = if component.low == component.high {
        digits(u64::from(component.low))
    } else {
        digits(u64::from(component.low)) + 1 + digits(u64::from(component.high))
    };
    let [subframe, word] = [component.subframe, component.word].map(|number| digits(u64::from(number)));
    ",,,\n".len() + subframe + word + digits(u64::from(component.overlap)) + bits
}
