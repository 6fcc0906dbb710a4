//! Judging a sheet: refusals 1 to 16, each with its line.

use crate::contents::{Contents, Parameter, Refusal, Sample, Subframe};
use crate::fields;
use crate::identifiers;
use crate::joining;
use crate::limits;
use crate::lines::{Line, Lines};
use crate::spelling;
use crate::wrong::{wrongly, Wrong};

/// What the sheet says, or its first refusal.
pub fn judge(sheet: &[u8]) -> Result<Contents, Refusal> {
    let (contents, opening_lines) = judge_lines(sheet)?;
    identifiers::judge(&contents, &opening_lines)?;
    Ok(contents)
}

/// Refusals 1 to 15; answers also the line of each `PARAMETER:`.
pub fn judge_lines(sheet: &[u8]) -> Result<(Contents, Vec<u32>), Refusal> {
    let too_long = Refusal { number: 1, line: 0 };
    if sheet.len() > limits::sheet() && !wrongly(Wrong::B1b) {
        return Err(too_long);
    }
    let mut judge = Judge::of(sheet);
    judge.whole_sheet()?;
    if sheet.len() > limits::sheet() {
        return Err(too_long);
    }
    Ok((judge.contents, judge.opening_lines))
}

struct Judge<'s> {
    lines: Lines<'s>,
    contents: Contents,
    /// The line of each parameter's `PARAMETER:`.
    opening_lines: Vec<u32>,
    samples: usize,
    components: usize,
}

impl<'s> Judge<'s> {
    fn of(sheet: &'s [u8]) -> Self {
        Judge {
            lines: Lines::of(sheet),
            contents: Contents { sequential: false, subframes: vec![], parameters: vec![] },
            opening_lines: vec![],
            samples: 0,
            components: 0,
        }
    }

    fn whole_sheet(&mut self) -> Result<(), Refusal> {
        self.keyword(b"HEADER:")?;
        let line = self.line_of(14)?;
        let header = fields::header(&line)?;
        self.contents.sequential = header.sequential;
        let Some(after) = self.records(header.count as usize)? else {
            return Ok(());
        };
        if after.is_keyword(b"NONE") {
            return self.nothing_more();
        }
        self.parameter(&after)?;
        self.further_parameters()
    }

    /// After `NONE` a line is 5, unless it is 4, 3 or 2.
    fn nothing_more(&mut self) -> Result<(), Refusal> {
        while !self.lines.at_end() {
            if wrongly(Wrong::B6b) || (wrongly(Wrong::B6a) && self.lines.at_unended_rest()) {
                return Err(self.lines.refused_here(5));
            }
            let line = self.lines.take()?;
            if !(wrongly(Wrong::B6c) && line.fields.is_empty()) {
                return Err(line.refused(5));
            }
        }
        Ok(())
    }

    fn further_parameters(&mut self) -> Result<(), Refusal> {
        while !self.lines.at_end() {
            if wrongly(Wrong::B6a) && self.lines.at_unended_rest() {
                return Err(self.lines.refused_here(5));
            }
            let line = self.lines.take()?;
            if line.is_keyword(b"PARAMETER:") {
                self.parameter(&line)?;
            } else if !(wrongly(Wrong::B44a) && line.fields.is_empty()) {
                return Err(line.refused(5));
            }
        }
        Ok(())
    }

    fn keyword(&mut self, keyword: &[u8]) -> Result<(), Refusal> {
        let line = self.lines.take()?;
        if line.is_keyword(keyword) {
            Ok(())
        } else {
            Err(line.refused(5))
        }
    }

    fn line_of(&mut self, fields: usize) -> Result<Line<'s>, Refusal> {
        let line = self.lines.take()?;
        if line.fields.len() == fields {
            return Ok(line);
        }
        let blank_as_empty = wrongly(Wrong::B9a) && line.fields.is_empty();
        Err(line.refused(if blank_as_empty { 8 } else { 5 }))
    }

    /// One pair or as many pairs as subframes; answers the line after them,
    /// which is `NONE` or `PARAMETER:`.
    fn records(&mut self, count: usize) -> Result<Option<Line<'s>>, Refusal> {
        self.keyword(b"RECORD:")?;
        let mut pairs = vec![self.record()?];
        let after = loop {
            if self.lines.at_end() && wrongly(Wrong::B5b) {
                break None;
            }
            if self.lines.at_end() && wrongly(Wrong::B34d) {
                return Err(self.lines.refused_here(5));
            }
            let line = self.lines.take()?;
            if line.is_keyword(b"RECORD:") && (pairs.len() < count || wrongly(Wrong::B34c)) {
                pairs.push(self.record()?);
            } else if ends_the_pairs(&line, &pairs, count) {
                break Some(line);
            } else {
                return Err(line.refused(5));
            }
        };
        while pairs.len() < count {
            pairs.push(pairs[0].clone());
        }
        self.contents.subframes = pairs;
        Ok(after)
    }

    fn record(&mut self) -> Result<Subframe, Refusal> {
        let line = self.line_of(5)?;
        fields::record(&line)
    }

    /// A whole parameter, whose `PARAMETER:` line is already taken.
    fn parameter(&mut self, opening: &Line) -> Result<(), Refusal> {
        let full = self.contents.parameters.len() == limits::parameters();
        if full && !wrongly(Wrong::B19a) {
            return Err(opening.refused(12));
        }
        self.opening_lines.push(opening.number);
        let is_identifier = self.identification(full, opening)?;
        self.samples()?;
        let line = self.line_of(5)?;
        self.current().signed = fields::signed(&line)?;
        self.range(is_identifier)?;
        self.sources()?;
        if wrongly(Wrong::B54) {
            identifiers::judge_so_far(&self.contents, &self.opening_lines)?;
        }
        Ok(())
    }

    fn current(&mut self) -> &mut Parameter {
        self.contents.parameters.last_mut().expect("a parameter is open")
    }

    /// The 7 fields; answers whether it is a record identifier.
    fn identification(&mut self, full: bool, opening: &Line) -> Result<bool, Refusal> {
        let line = self.line_of(7)?;
        if full {
            return Err(line.refused(12));
        }
        let judged = fields::parameter(&line, &self.contents.parameters);
        if wrongly(Wrong::B21a) && judged.as_ref().is_err_and(|refusal| refusal.number == 15) {
            return Err(opening.refused(15));
        }
        let (parameter, is_identifier) = judged?;
        self.contents.parameters.push(parameter);
        Ok(is_identifier)
    }

    /// All samples and the blank line after them.
    fn samples(&mut self) -> Result<(), Refusal> {
        let mut first = self.lines.take()?;
        if wrongly(Wrong::B38) && first.fields.is_empty() {
            return Ok(());
        }
        if wrongly(Wrong::B37b) && first.fields.len() == 2 {
            return Err(first.refused(10));
        }
        loop {
            self.sample(first)?;
            let line = self.lines.take()?;
            match line.fields.len() {
                0 => return Ok(()),
                2 => return Err(superframe_line(&line)),
                _ => first = line,
            }
        }
    }

    /// One sample, whose first line is already taken.
    fn sample(&mut self, first: Line<'s>) -> Result<(), Refusal> {
        let full =
            self.current().samples.len() >= limits::samples_each() || self.samples >= limits::samples();
        if first.fields.len() != 4 {
            let early = wrongly(Wrong::B19d) && full;
            return Err(first.refused(if early { 12 } else { 5 }));
        }
        if full && !wrongly(Wrong::B19b) && !wrongly(Wrong::B19c) {
            return Err(first.refused(12));
        }
        self.current().samples.push(Sample { time: 0, components: vec![] });
        self.samples += 1;
        self.component(&first, full && wrongly(Wrong::B19c))?;
        loop {
            let line = self.lines.take()?;
            match line.fields.len() {
                4 => self.component(&line, false)?,
                1 => return self.time(&line),
                _ => return Err(self.neither_component_nor_time(&line)),
            }
        }
    }

    fn neither_component_nor_time(&mut self, line: &Line) -> Refusal {
        if wrongly(Wrong::B39) && line.fields.is_empty() {
            return line.refused(8);
        }
        if wrongly(Wrong::B37a) && line.fields.len() == 2 {
            return line.refused(10);
        }
        if wrongly(Wrong::B19d) && self.current_sample().components.len() == limits::components_each() {
            return line.refused(12);
        }
        line.refused(5)
    }

    fn component(&mut self, line: &Line, full: bool) -> Result<(), Refusal> {
        let each = self.current_sample().components.len();
        let full = full || each == limits::components_each() || self.components == limits::components();
        if full && !wrongly(Wrong::B19c) {
            return Err(line.refused(12));
        }
        let component = fields::component(line, &self.contents.subframes)?;
        if full {
            return Err(line.refused(12));
        }
        self.components += 1;
        let sample = self.current_sample();
        sample.components.push(component);
        if wrongly(Wrong::OverlapNextOwnLine) && !joining::overlap_before_fits(sample) {
            return Err(Refusal { number: 14, line: line.number - 1 });
        }
        if !joining::component_is_sound(sample) {
            return Err(line.refused(14));
        }
        if wrongly(Wrong::B48b) && self.shares_a_bit_with_an_earlier_parameter() {
            return Err(line.refused(14));
        }
        Ok(())
    }

    fn current_sample(&mut self) -> &mut Sample {
        self.current().samples.last_mut().expect("a sample is open")
    }

    fn time(&mut self, line: &Line) -> Result<(), Refusal> {
        if wrongly(Wrong::B12) && line.is_any_keyword() {
            return Err(line.refused(5));
        }
        if wrongly(Wrong::B20c) && !self.width_is_the_first_samples() {
            return Err(line.refused(14));
        }
        if wrongly(Wrong::OverlapBeforeTime) && !joining::sample_is_sound(self.current_sample()) {
            return Err(line.refused(14));
        }
        let time = spelling::time(line.fields[0]).map_err(|number| line.refused(number))?;
        self.current_sample().time = time;
        self.wrong_findings_at_the_time_line(line)?;
        let sound = joining::sample_is_sound(self.current_sample());
        if !sound && wrongly(Wrong::OverlapLastOwnLine) {
            return Err(Refusal { number: 14, line: line.number - 1 });
        }
        if sound && self.width_is_the_first_samples() {
            Ok(())
        } else {
            Err(line.refused(14))
        }
    }

    fn width_is_the_first_samples(&mut self) -> bool {
        let samples = &self.current().samples;
        joining::widths_are_equal(&samples[0], &samples[samples.len() - 1])
    }

    fn wrong_findings_at_the_time_line(&mut self, line: &Line) -> Result<(), Refusal> {
        if wrongly(Wrong::B40) && self.time_is_not_below_seconds() {
            return Err(line.refused(11));
        }
        let in_all = self.samples;
        let samples = &self.current().samples;
        if wrongly(Wrong::B19b) && (samples.len() > limits::samples_each() || in_all > limits::samples()) {
            return Err(line.refused(12));
        }
        if joining::wrongly_late(samples) {
            Err(line.refused(14))
        } else {
            Ok(())
        }
    }

    fn time_is_not_below_seconds(&mut self) -> bool {
        let sample = self.current_sample().clone();
        let subframe = &self.contents.subframes[usize::from(sample.components[0].subframe) - 1];
        u128::from(sample.time) * u128::from(subframe.denominator)
            >= u128::from(subframe.numerator) * 1_000_000
    }

    fn shares_a_bit_with_an_earlier_parameter(&mut self) -> bool {
        let sample = self.current_sample().clone();
        let (_, before) = self.contents.parameters.split_last().expect("a parameter is open");
        before.iter().flat_map(|p| &p.samples).any(|other| other.shares_a_bit_with(&sample))
    }

    fn range(&mut self, is_identifier: bool) -> Result<(), Refusal> {
        let line = self.line_of(4)?;
        let value = fields::range(&line, is_identifier)?;
        self.current().identifier = value;
        if wrongly(Wrong::B52) && !identifiers::value_fits(self.current()) {
            return Err(line.refused(11));
        }
        Ok(())
    }

    /// All sources and the last blank line of the parameter.
    fn sources(&mut self) -> Result<(), Refusal> {
        let mut line = self.line_of(3)?;
        loop {
            fields::source(&line)?;
            line = match self.after_source()? {
                Some(next) => next,
                None => match self.after_source_blank()? {
                    Some(next) => next,
                    None => return Ok(()),
                },
            };
        }
    }

    /// An optional label line and the blank line; a line is answered only
    /// where a wrong reading lets a source follow at once.
    fn after_source(&mut self) -> Result<Option<Line<'s>>, Refusal> {
        let mut after = self.lines.take()?;
        if after.fields.len() == 4 {
            fields::label(&after)?;
            after = self.lines.take()?;
            if wrongly(Wrong::B43a) && after.fields.len() == 4 {
                fields::label(&after)?;
                after = self.lines.take()?;
            }
        }
        match after.fields.len() {
            0 => Ok(None),
            3 if wrongly(Wrong::B43b) => Ok(Some(after)),
            _ => Err(after.refused(5)),
        }
    }

    /// The next source, or none where the last blank line stands.
    fn after_source_blank(&mut self) -> Result<Option<Line<'s>>, Refusal> {
        if wrongly(Wrong::B5a) && self.lines.at_end() {
            return Ok(None);
        }
        let before = self.lines.clone();
        let line = self.lines.take()?;
        match line.fields.len() {
            0 => Ok(None),
            3 => Ok(Some(line)),
            1 if wrongly(Wrong::B44b) && line.is_keyword(b"PARAMETER:") => {
                self.lines = before;
                Ok(None)
            }
            _ => Err(line.refused(5)),
        }
    }
}

/// Whether `NONE` or `PARAMETER:` may stand here: after one pair for all
/// subframes or after a pair for each.
fn ends_the_pairs(line: &Line, pairs: &[Subframe], count: usize) -> bool {
    let mut lawful = pairs.len() == 1 || pairs.len() == count;
    if wrongly(Wrong::B34a) && pairs.len() > 1 && pairs.iter().all(|pair| *pair == pairs[0]) {
        lawful = false;
    }
    if wrongly(Wrong::B34b) && pairs.len() < count {
        lawful = true;
    }
    lawful && (line.is_keyword(b"NONE") || line.is_keyword(b"PARAMETER:"))
}

/// A two-field line where the blank line is due: 10, without a look at it.
fn superframe_line(line: &Line) -> Refusal {
    if wrongly(Wrong::B37d) {
        return line.refused(5);
    }
    if wrongly(Wrong::B37c) {
        let judged = line.fields.iter().find_map(|field| spelling::text(field, 200, true).err());
        return line.refused(judged.unwrap_or(10));
    }
    line.refused(10)
}
