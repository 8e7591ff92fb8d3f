//! What is written in a picture: names, numbers, how wide they are, and what XML makes of them.

use super::partners;
use crate::names::Names;
use crate::run::{MarkKind, Run};

/// Sizes of letters, in pixels.
pub const EVENT_FONT: f64 = 12.0;
pub const SMALL_FONT: f64 = 10.0;
/// No box is wider inside, and none narrower.
const WIDEST: f64 = 190.0;
const NARROWEST: f64 = 44.0;
/// So many partners are named at most.
const FEW: usize = 8;
/// Partners alone do not make a box wider than this.
const PARTNERS_WIDTH: f64 = 92.0;
/// The label of a condition is not wider, so that it stays in its gap.
const PLACE_WIDTH: f64 = 126.0;
/// What a box has left and right of its text.
const PADDING: f64 = 8.0;

/// A generous guess: the letters of the fonts that are asked for are not wider.
pub fn width(text: &str, font: f64) -> f64 {
    text.chars().map(letter_width).sum::<f64>() * font
}

fn letter_width(letter: char) -> f64 {
    match letter {
        ' ' | '.' | ',' | '\'' | 'i' | 'j' | 'l' | '|' | '!' | ':' | ';' => 0.38,
        'f' | 'r' | 't' | '(' | ')' | '-' | '/' | 'I' => 0.46,
        'm' | 'w' | 'M' | 'W' | '@' | '%' | '…' => 1.02,
        'A'..='Z' => 0.8,
        ' '..='~' => 0.66,
        '\u{80}'..='\u{24f}' => 0.8,
        _ => 1.1,
    }
}

/// A text that is no wider than this, cut off with … if need be.
pub fn cut(text: &str, font: f64, widest: f64) -> String {
    if width(text, font) <= widest {
        return text.to_string();
    }
    let mut kept = String::new();
    let mut room = widest - width("…", font);
    for letter in text.chars() {
        room -= width(letter.encode_utf8(&mut [0; 4]), font);
        if room < 0.0 {
            break;
        }
        kept.push(letter);
    }
    format!("{}…", kept.trim_end())
}

/// A text as XML has it.
pub fn escape(text: &str) -> String {
    let mut out = String::with_capacity(text.len());
    for letter in text.chars() {
        match letter {
            '&' => out.push_str("&amp;"),
            '<' => out.push_str("&lt;"),
            '>' => out.push_str("&gt;"),
            '"' => out.push_str("&quot;"),
            '\'' => out.push_str("&#39;"),
            // XML 1.0 has no way to write these.
            '\u{fffe}' | '\u{ffff}' => out.push('\u{fffd}'),
            control if control.is_control() => out.push(' '),
            other => out.push(other),
        }
    }
    out
}

/// The name of a place, or its number.
pub fn place(names: &Names, place: usize) -> String {
    names.place(place).map_or_else(|| format!("P{place}"), str::to_string)
}

/// The name of a transition, or its number.
pub fn transition(names: &Names, transition: usize) -> String {
    names.transition(transition).map_or_else(|| format!("T{transition}"), str::to_string)
}

/// One thing is singular: "1 pair", "2 pairs".
pub fn count(number: usize, thing: &str) -> String {
    let plural = if number == 1 { "" } else { "s" };
    format!("{number} {thing}{plural}")
}

/// Numbers with spaces between.
pub fn listed(numbers: &[usize]) -> String {
    numbers.iter().map(usize::to_string).collect::<Vec<_>>().join(" ")
}

/// What a box says of an event's partners: which they are, or how many where there is no room.
pub fn partner_line(partners: &[usize], box_width: f64) -> String {
    let all = format!("∥ {}", listed(partners));
    if partners.len() == 1 || partners.len() <= FEW && width(&all, SMALL_FONT) <= box_width - PADDING {
        return all;
    }
    format!("∥ {} events", partners.len())
}

/// The name of an event's transition, as far as it fits beside its number.
pub fn transition_line(name: &str, event: usize, box_width: f64) -> String {
    cut(name, EVENT_FONT, box_width - PADDING - number_width(event))
}

/// The number stands in bold letters with a space behind.
fn number_width(event: usize) -> f64 {
    width(&format!("{event} "), EVENT_FONT) * 1.12
}

/// One width for all boxes, which the longest text asks for.
pub fn box_width(run: &Run, names: &Names) -> f64 {
    let mut widest = NARROWEST;
    for (event, transition_number) in run.record.events.iter().enumerate() {
        let name = number_width(event) + width(&transition(names, *transition_number), EVENT_FONT);
        let partners = partners(run, event);
        let few = if partners.is_empty() { 0.0 } else { width(&partner_line(&partners, PARTNERS_WIDTH), SMALL_FONT) };
        widest = widest.max(name).max(few);
    }
    (widest.min(WIDEST) + PADDING).ceil()
}

/// The label of a condition, as far as it fits into a gap.
pub fn place_line(name: &str) -> String {
    cut(name, SMALL_FONT, PLACE_WIDTH)
}

/// The width of the widest label of a condition.
pub fn label_width(run: &Run, names: &Names) -> f64 {
    let widths = run.record.conditions.iter().map(|condition| width(&place_line(&place(names, condition.place)), SMALL_FONT));
    widths.fold(0.0, f64::max)
}

/// What a mark says, as a sentence.
pub fn mark_sentence(kind: MarkKind, condition: usize, event: usize) -> String {
    match kind {
        MarkKind::After => format!("A: event {event} is after condition {condition} was consumed"),
        MarkKind::Before => format!("B: event {event} is before condition {condition}, not later than its producer"),
        MarkKind::Read => format!("R: event {event} has read condition {condition}"),
    }
}

#[cfg(test)]
mod tests {
    use super::*;

    #[test]
    fn names_are_escaped() {
        assert_eq!(escape("a<b & \"c\" > 'd'"), "a&lt;b &amp; &quot;c&quot; &gt; &#39;d&#39;");
        assert_eq!(escape("Böck ∥\u{ffff}"), "Böck ∥\u{fffd}");
    }

    #[test]
    fn long_texts_are_cut() {
        assert_eq!(cut("park", EVENT_FONT, 100.0), "park");
        let name = "flush on power warning of the drive";
        let short = cut(name, EVENT_FONT, 100.0);
        assert!(short.ends_with('…') && width(&short, EVENT_FONT) <= 100.0 && name.starts_with(short.trim_end_matches('…')));
        assert_eq!(cut("W", EVENT_FONT, 1.0), "…");
    }

    #[test]
    fn partners_are_named_or_counted() {
        assert_eq!(partner_line(&[1, 3], 90.0), "∥ 1 3");
        assert_eq!(partner_line(&(0..20).collect::<Vec<_>>(), 90.0), "∥ 20 events");
        assert_eq!((count(1, "pair"), count(0, "pair")), ("1 pair".to_string(), "0 pairs".to_string()));
    }
}
