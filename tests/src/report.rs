//! A call and its outcome as text for people.

use crate::calls::{Call, KINDS};
use crate::model::Answer;
use crate::twins::{Asked, Outcome};
use std::io::Write;

/// The most bytes of an image, and the most counts of a list, that are printed.
const PRINTED: usize = 65_536;
const PRINTED_COUNTS: usize = 300;

/// Prints the text. If the reader has closed the output, the program ends.
pub fn say(text: &str) {
    if std::io::stdout().write_all(text.as_bytes()).is_err() {
        std::process::exit(1);
    }
}

pub fn hex(bytes: &[u8]) -> String {
    bytes.iter().map(|byte| format!("{byte:02X}")).collect()
}

/// The bytes in hexadecimal, 32 to a line, with the offset in front.
pub fn hex_lines(bytes: &[u8]) -> String {
    let shown = &bytes[..bytes.len().min(PRINTED)];
    let mut lines: String = shown
        .chunks(32)
        .enumerate()
        .map(|(i, line)| {
            format!(
                "    {:>6}  {}\n",
                32 * i,
                line.chunks(4).map(hex).collect::<Vec<_>>().join(" ")
            )
        })
        .collect();
    if shown.len() < bytes.len() {
        lines += &format!("    and {} bytes more\n", bytes.len() - shown.len());
    }
    lines
}

/// The call with its arguments, in one line.
pub fn asked(asked: &Asked) -> String {
    let kind = &KINDS[asked.call.kind()];
    let own = match asked.call {
        Call::Make { n, a, d, min, max } => format!(", n {n}, a {a}, d {d}, min {min}, max {max}"),
        Call::NextKey { after } => format!(
            ", {}, key buffer of {}",
            if after { "after" } else { "at or after" },
            asked.key_len
        ),
        Call::KeyAt { position } => {
            format!(", position {position}, key buffer of {}", asked.key_len)
        }
        _ => asked.call.stored().map_or(String::new(), |value| format!(", value {value}")),
    };
    let given = match kind.given {
        "nothing" => String::new(),
        _ => format!(", {} of {} bytes [{}]", kind.given, asked.given.len(), hex(asked.given)),
    };
    let work = match asked.call {
        Call::Make { .. } | Call::LookUp | Call::LookUpText => String::new(),
        _ => format!(", {} working numbers", asked.work_len),
    };
    let counts = if asked.call.takes_counts() { counts(asked.counts) } else { String::new() };
    format!(
        "trieff_{}: image of {} bytes{work}{counts}{given}{own}\n",
        kind.name,
        asked.image.len()
    )
}

fn counts(counts: &[u32]) -> String {
    let shown: Vec<String> = counts.iter().take(PRINTED_COUNTS).map(u32::to_string).collect();
    let more = if counts.len() > PRINTED_COUNTS { ".." } else { "" };
    format!(", {} counts [{}{more}]", counts.len(), shown.join(" "))
}

fn answer(answer: &Answer) -> String {
    let Answer { number, place, length, change, value } = answer;
    format!("number {number} place {place} length {length} change {change} value {value}")
}

pub fn outcome(outcome: &Outcome) -> String {
    let mut told = format!(
        "    model:   {}\n    library: {}\n",
        answer(&outcome.model),
        answer(&outcome.library)
    );
    if let Some(wrapper) = &outcome.wrapper {
        told += &format!("    wrapper: {}\n", answer(wrapper));
    }
    if let Some(difference) = &outcome.difference {
        told += &format!("    DIFFERENT: {difference}\n");
    }
    told
}
