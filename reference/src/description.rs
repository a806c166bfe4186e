//! A whole description: its lines, the accepted sets, and the channel that it sets up.

use crate::{
    cascade,
    code::Code,
    fault::{Fault, Layer},
    lines::Line,
    measure::Measure,
    run_length::RunLength,
    taps::Taps,
    trellis::Trellis,
};

/// What a description sets up. A start or an end that is left out permits every state.
#[derive(Clone, Debug)]
pub struct Channel {
    pub trellis: Trellis,
    pub measure: Measure,
    pub start: Option<usize>,
    pub end: Option<usize>,
}

/// A part of a line, with the place at which the line begins.
#[derive(Clone, Copy)]
struct Placed<T> {
    value: T,
    place: usize,
}

impl<T> Placed<T> {
    fn fault(&self, number: u8) -> Fault {
        Fault::new(number, Layer::Makers, self.place)
    }
}

/// What stands over the taps.
enum Outer<'a> {
    Code(&'a Code),
    RunLength(&'a RunLength),
}

impl Outer<'_> {
    fn check(&self) -> Result<(), u8> {
        match self {
            Outer::Code(code) => code.check(),
            Outer::RunLength(limit) => limit.check(),
        }
    }

    fn trellis(&self) -> Trellis {
        match self {
            Outer::Code(code) => code.trellis(),
            Outer::RunLength(limit) => limit.trellis(),
        }
    }
}

/// The channel of the description that begins at a place of a recording, or its first fault.
pub fn read(text: &[u8], place: usize) -> Result<Channel, Fault> {
    let lines = read_lines(text, place)?;
    let not_a_set = Fault::new(34, Layer::Lines, place);

    let measure = find(&lines, |line| match line {
        Line::Measure(measure) => Some(*measure),
        _ => None,
    })
    .ok_or(not_a_set)?;
    let start = find(&lines, |line| match line {
        Line::Start(state) => Some(*state),
        _ => None,
    })
    .ok_or(not_a_set)?;
    let end = find(&lines, |line| match line {
        Line::End(state) => Some(*state),
        _ => None,
    })
    .ok_or(not_a_set)?;
    let taps = find(&lines, |line| match line {
        Line::Taps(taps) => Some(taps),
        _ => None,
    });
    let code = find(&lines, |line| match line {
        Line::Code(code) => Some(Outer::Code(code)),
        _ => None,
    });
    let limit = find(&lines, |line| match line {
        Line::RunLength(limit) => Some(Outer::RunLength(limit)),
        _ => None,
    });

    let trellis = match (taps, code, limit) {
        (Some(taps), None, None) => alone(&taps)?,
        (None, Some(code), None) => {
            code.value.check().map_err(|number| code.fault(number))?;
            code.value.trellis()
        }
        (Some(taps), Some(outer), None) | (Some(taps), None, Some(outer)) => {
            let inner = alone(&taps)?;
            outer.value.check().map_err(|number| outer.fault(number))?;
            let above = outer.value.trellis();
            cascade::check(&above, &inner).map_err(|number| outer.fault(number))?;
            cascade::over(&above, &inner)
        }
        _ => return Err(not_a_set),
    };
    let checked = measure.value.check();
    checked.map_err(|number| measure.fault(number))?;
    Ok(Channel {
        start: state_of(&trellis, start)?,
        end: state_of(&trellis, end)?,
        trellis,
        measure: measure.value,
    })
}

/// The lines of a text in order, each with its place, or the first fault among them.
fn read_lines(text: &[u8], place: usize) -> Result<Vec<Placed<Line>>, Fault> {
    let mut lines: Vec<Placed<Line>> = Vec::new();
    let mut place = place;
    for ended in text.split_inclusive(|&byte| byte == b'\n') {
        let value = ended
            .strip_suffix(b"\n")
            .and_then(Line::parse)
            .ok_or(Fault::new(30, Layer::Lines, place))?;
        if lines.iter().any(|earlier| value.repeats(&earlier.value)) {
            return Err(Fault::new(31, Layer::Lines, place));
        }
        lines.push(Placed { value, place });
        place += ended.len();
    }
    Ok(lines)
}

/// What the first line says of which the question has an answer, with the place of that line.
fn find<'a, T>(
    lines: &'a [Placed<Line>],
    question: impl Fn(&'a Line) -> Option<T>,
) -> Option<Placed<T>> {
    lines.iter().find_map(|line| {
        question(&line.value).map(|value| Placed {
            value,
            place: line.place,
        })
    })
}

fn alone(taps: &Placed<&Taps>) -> Result<Trellis, Fault> {
    taps.value.check().map_err(|number| taps.fault(number))?;
    Ok(taps.value.trellis())
}

/// The state that a start or an end names.
fn state_of(trellis: &Trellis, line: Placed<Option<i32>>) -> Result<Option<usize>, Fault> {
    match line.value {
        None => Ok(None),
        Some(number) => match usize::try_from(number) {
            Ok(state) if state < trellis.states() => Ok(Some(state)),
            _ => Err(line.fault(21)),
        },
    }
}

#[cfg(test)]
mod tests {
    use super::*;

    fn refusal(text: &str) -> Option<(u8, usize)> {
        let fault = read(text.as_bytes(), 0).err()?;
        Some((fault.number, fault.place))
    }

    #[test]
    fn orders() {
        assert_eq!(refusal(""), Some((34, 0)));
        assert_eq!(refusal("taps 2 1\ntaps 2 1\nmeasure cube\n"), Some((31, 9)));
        assert_eq!(refusal("taps 2 1\ntaps 2\n"), Some((30, 9)));
        assert_eq!(
            refusal("end 99\nstart 99\nmeasure bits 0\ncode 0 0 1\ntaps 3 1\n"),
            Some((1, 42))
        );
        assert_eq!(
            refusal("end 99\nstart 99\nmeasure bits 0\nrll 0 63\ntaps 2 1\n"),
            Some((11, 16))
        );
        assert_eq!(
            refusal("end 2\ntaps 2 1 1\nmeasure square\nstart 2\n"),
            Some((21, 32))
        );
        assert_eq!(
            refusal("rll 1 3\nmeasure square\nstart 0\nend any\n"),
            Some((34, 0))
        );
    }
}
