//! The SVG document: the heading, the picture, and below it the matrix of the order and the legend. One element stands on one
//! line, and events, conditions, arcs and marks have classes and names, so that simple tools can look them up.

use super::label::{self, count, escape, listed};
use super::layers::{line_of_events, Layers};
use super::placing::{Placing, BOX_HEIGHT, LABEL_DROP, RADIUS, RING};
use super::routes::{self, short};
use super::legend::{self, Block};
use super::{matrix, partners, Kind, Thing};
use crate::names::Names;
use crate::run::{MarkKind, Run};
use std::fmt::Write;

/// Around everything.
const MARGIN: f64 = 16.0;
/// The heading, and the head of each line, are above the picture.
const PICTURE_TOP: f64 = 78.0;
/// What a band has around its boxes.
const BAND: f64 = 8.0;
/// Between the picture and what is below or beside.
const BETWEEN: f64 = 34.0;
/// A picture that is higher than this is tall.
const TALL: f64 = 1400.0;
/// With more marks than this, they are thin and faint.
const MANY_MARKS: usize = 600;
/// The rules for the pointer may not be longer.
const RULE_BYTES: usize = 30_000;

/// All that a picture is drawn from.
struct Picture<'a> {
    run: &'a Run,
    names: &'a Names,
    layers: &'a Layers,
    placing: &'a Placing,
    box_width: f64,
}

pub fn document(run: &Run, names: &Names, layers: &Layers, placing: &Placing, box_width: f64) -> String {
    let picture = Picture { run, names, layers, placing, box_width };
    let heading = heading(run);
    let page = Page::of(run, placing);
    let width = page.width.max(label::width(&heading, 17.0) * 1.1 + 2.0 * MARGIN);
    let mut out = String::new();
    let (w, h) = (short(width.ceil()), short(page.height.ceil()));
    let size = format!(r##"width="{w}" height="{h}" viewBox="0 0 {w} {h}""##);
    let _ = writeln!(out, r##"<svg xmlns="http://www.w3.org/2000/svg" {size} font-family="DejaVu Sans, Verdana, sans-serif">"##);
    let _ = writeln!(out, "<title>{heading}</title>");
    out.push_str(&style(run));
    out.push_str(&markers(run.record.marks.len() > MANY_MARKS));
    let _ = writeln!(out, r##"<rect width="{w}" height="{h}" fill="#fff"/>"##);
    let _ = writeln!(out, r##"<text class="heading" x="{MARGIN}" y="30">{heading}</text>"##);
    let _ = writeln!(out, r##"<g transform="translate({MARGIN} {PICTURE_TOP})">"##);
    picture.draw(&mut out);
    out.push_str("</g>\n");
    for (x, y, block) in &page.blocks {
        let _ = writeln!(out, "<g transform=\"translate({} {})\">\n{}</g>", short(*x), short(*y), block.text);
    }
    out.push_str("</svg>\n");
    out
}

/// What is around the picture, and how much room all of it takes.
struct Page {
    blocks: Vec<(f64, f64, Block)>,
    width: f64,
    height: f64,
}

impl Page {
    /// The matrix and the legends are below the picture; beside it where it is tall and narrow.
    fn of(run: &Run, placing: &Placing) -> Page {
        let (right, bottom) = (2.0 * MARGIN + placing.width, PICTURE_TOP + placing.height);
        let mut page = Page { blocks: Vec::new(), width: right, height: bottom + MARGIN };
        if placing.height > TALL && placing.height > 2.0 * placing.width {
            page.put_all(run, right + BETWEEN, PICTURE_TOP - 24.0, 0.0);
        } else {
            page.put_all(run, MARGIN, bottom + BETWEEN, right);
        }
        page
    }

    /// The matrix, the legend of the picture to its right, and that of the matrix where there is room: right of both if the page
    /// is so wide in any case, else below the one that is less high.
    fn put_all(&mut self, run: &Run, x: f64, y: f64, page_width: f64) {
        let (matrix, of_picture, of_matrix) = (matrix::drawn(&run.order), legend::of_picture(), legend::of_matrix());
        let low = matrix.height <= of_picture.height;
        let second = x + matrix.width.max(if low { of_matrix.width } else { 0.0 }) + BETWEEN;
        let third = second + of_picture.width + BETWEEN;
        match (third + of_matrix.width + MARGIN <= page_width, low) {
            (true, _) => self.put(third, y, of_matrix),
            (false, true) => self.put(x, y + matrix.height + BETWEEN / 2.0, of_matrix),
            (false, false) => self.put(second, y + of_picture.height + BETWEEN / 2.0, of_matrix),
        }
        self.put(x, y, matrix);
        self.put(second, y, of_picture);
    }

    fn put(&mut self, x: f64, y: f64, block: Block) {
        self.width = self.width.max(x + block.width + MARGIN);
        self.height = self.height.max(y + block.height + MARGIN);
        self.blocks.push((x, y, block));
    }
}

/// The counts of a run.
fn heading(run: &Run) -> String {
    let events = count(run.order.events(), "event");
    let conditions = count(run.order.conditions(), "condition");
    let pairs = count(run.order.independent_pairs(), "independent pair");
    let lines = count(run.lines.len(), "line");
    format!("{events}, {conditions}, {pairs}, {lines}")
}

/// How everything looks; the colours of marks can be told apart by all eyes, and so can their dashes.
fn style(run: &Run) -> String {
    let thin = run.record.marks.len() > MANY_MARKS;
    let (width, opacity) = if thin { (0.5, 0.4) } else { (1.4, 1.0) };
    let mut style = format!(
        r##"<style>
.heading{{font-size:17px;font-weight:bold;fill:#222}}
.band{{fill:#f1f4f8}}
.line{{font-size:12px;fill:#556;text-anchor:middle}}
.box{{fill:#fff;stroke:#333;stroke-width:1.3}}
.free{{fill:#ffe08a;stroke:#8a6100}}
.event text{{font-size:12px;fill:#111;text-anchor:middle}}
.event .partners{{font-size:10px;fill:#5c4100}}
.place{{fill:#fff;stroke:#333;stroke-width:1.3}}
.ring{{fill:#fff;stroke:#333;stroke-width:1.3}}
.token{{fill:#111}}
.number{{font-size:10.5px;fill:#111;text-anchor:middle}}
.label{{font-size:10px;fill:#333;text-anchor:middle;paint-order:stroke;stroke:#fff;stroke-width:3px;stroke-linejoin:round}}
.arc{{fill:none;stroke-width:1.4}}
.mark{{fill:none;stroke-width:{width};opacity:{opacity}}}
.key{{stroke-width:1.6}}
.arc,.C{{stroke:#333;marker-end:url(#headC)}}
.A{{stroke:#d55e00;stroke-dasharray:7 3;marker-end:url(#headA)}}
.B{{stroke:#0072b2;stroke-dasharray:2 2.5;marker-start:url(#headB)}}
.R{{stroke:#009e73;stroke-dasharray:9 3 2 3;marker-end:url(#headR)}}
.side{{fill:#333}}
.cell{{font-size:11px;fill:#222;text-anchor:middle}}
.caption{{font-size:12px;font-weight:bold;fill:#222}}
.said{{font-size:11.5px;fill:#222}}
"##
    );
    style.push_str(&pointer_rules(run));
    style.push_str("</style>\n");
    style
}

/// An event under the pointer shows its partners and its edges, as far as rules can say so without being too long.
fn pointer_rules(run: &Run) -> String {
    let (mut of_edges, mut of_partners) = (String::new(), String::new());
    for event in 0..run.record.events.len() {
        let _ = writeln!(of_edges, "svg:has(#e{event}:hover) :is([data-from=e{event}],[data-to=e{event}]){{stroke-width:3.2;opacity:1}}");
        let partners: Vec<String> = partners(run, event).iter().map(|other| format!("#e{other}")).collect();
        if !partners.is_empty() {
            let _ = writeln!(of_partners, "svg:has(#e{event}:hover) :is({}) .box{{fill:#f2a900;stroke-width:3}}", partners.join(","));
        }
    }
    let mut rules = String::new();
    for part in [of_partners, of_edges] {
        if rules.len() + part.len() <= RULE_BYTES {
            rules.push_str(&part);
        }
    }
    rules
}

/// The heads of arrows, one for each colour.
fn markers(small: bool) -> String {
    let mut markers = String::from("<defs>\n");
    for (name, colour) in [('C', "#333"), ('A', "#d55e00"), ('B', "#0072b2"), ('R', "#009e73")] {
        let size = if small && name != 'C' { 4 } else { 8 };
        let shape = format!(r##"viewBox="0 0 8 8" refX="7.6" refY="4" markerWidth="{size}" markerHeight="{size}""##);
        let turn = r##"markerUnits="userSpaceOnUse" orient="auto-start-reverse""##;
        let head = format!(r##"<path d="M0 .8 8 4 0 7.2z" fill="{colour}"/>"##);
        let _ = writeln!(markers, r##"<marker id="head{name}" {shape} {turn}>{head}</marker>"##);
    }
    markers.push_str("</defs>\n");
    markers
}

impl Picture<'_> {
    /// Marks are beneath arcs, and both beneath boxes and circles.
    fn draw(&self, out: &mut String) {
        self.draw_bands(out);
        let ports = routes::ports(self.layers, self.placing);
        let (arcs, marks): (Vec<_>, Vec<_>) = self.layers.edges.iter().partition(|edge| edge.kind == Kind::Arc);
        for edge in marks.into_iter().chain(arcs) {
            let class = match edge.kind {
                Kind::Arc => "arc".to_string(),
                Kind::Mark(kind) => format!("mark {}", kind.letter()),
            };
            let (from, to) = (edge.from, edge.to);
            let path = routes::path(self.layers, self.placing, &ports, edge);
            let said = sentence(edge.kind, from, to);
            let _ = writeln!(out, r##"<path class="{class}" data-from="{from}" data-to="{to}" d="{path}"><title>{said}</title></path>"##);
        }
        (0..self.run.record.conditions.len()).for_each(|condition| self.draw_condition(out, condition));
        let line = line_of_events(self.run);
        (0..line.len()).for_each(|event| self.draw_event(out, event, line[event]));
    }

    /// A band for each line, with its number above, and below where that is far from it.
    fn draw_bands(&self, out: &mut String) {
        for line in 0..self.run.lines.len() {
            let (middle, half) = (self.placing.middle[2 * line + 1], self.placing.half[2 * line + 1] + BAND);
            let (x, width, height) = (short(middle - half), short(2.0 * half), short(self.placing.height + 32.0));
            let _ = writeln!(out, r##"<rect class="band" x="{x}" y="-24" width="{width}" height="{height}" rx="6"/>"##);
            let _ = writeln!(out, r##"<text class="line" x="{}" y="-10">line {}</text>"##, short(middle), line + 1);
        }
    }

    fn draw_event(&self, out: &mut String, event: usize, line: usize) {
        let name = label::transition(self.names, self.run.record.events[event]);
        let (x, y) = (self.placing.x[event], self.placing.y[event]);
        let partners = partners(self.run, event);
        let swaps = if partners.is_empty() { "ordered with all others".to_string() } else { format!("free to swap with {}", listed(&partners)) };
        let (free, name_y) = if partners.is_empty() { ("", y + 4.5) } else { (" free", y - 2.5) };
        let _ = writeln!(out, r##"<g class="event" id="e{event}" data-line="{}">"##, line + 1);
        let _ = writeln!(out, "<title>event {event}: {}, line {}, {swaps}</title>", escape(&name), line + 1);
        let (left, top) = (short(x - self.box_width / 2.0), short(y - BOX_HEIGHT / 2.0));
        let _ = writeln!(out, r##"<rect class="box{free}" x="{left}" y="{top}" width="{}" height="{BOX_HEIGHT}" rx="4"/>"##, short(self.box_width));
        let shown = escape(&label::transition_line(&name, event, self.box_width));
        let _ = writeln!(out, r##"<text x="{}" y="{}"><tspan font-weight="bold">{event}</tspan> {shown}</text>"##, short(x), short(name_y));
        if !partners.is_empty() {
            let said = label::partner_line(&partners, self.box_width);
            let _ = writeln!(out, r##"<text class="partners" x="{}" y="{}">{said}</text>"##, short(x), short(y + 12.5));
        }
        out.push_str("</g>\n");
    }

    fn draw_condition(&self, out: &mut String, number: usize) {
        let condition = &self.run.record.conditions[number];
        let node = self.layers.node(Thing::Condition(number));
        let (cx, cy) = (short(self.placing.x[node]), self.placing.y[node]);
        let place = label::place(self.names, condition.place);
        let made = condition.producer.map_or("initial".to_string(), |event| format!("produced by event {event}"));
        let taken = condition.consumer.map_or("consumed by nobody".to_string(), |event| format!("consumed by event {event}"));
        let _ = writeln!(out, r##"<g class="condition" id="c{number}" data-place="{}">"##, condition.place);
        let _ = writeln!(out, "<title>condition {number}: {}, {made}, {taken}</title>", escape(&place));
        if condition.consumer.is_none() {
            let _ = writeln!(out, r##"<circle class="ring" cx="{cx}" cy="{}" r="{RING}"/>"##, short(cy));
        }
        let _ = writeln!(out, r##"<circle class="place" cx="{cx}" cy="{}" r="{RADIUS}"/>"##, short(cy));
        let mut number_y = cy + 4.0;
        if condition.producer.is_none() {
            let _ = writeln!(out, r##"<circle class="token" cx="{cx}" cy="{}" r="3"/>"##, short(cy - 7.5));
            number_y = cy + 7.0;
        }
        let _ = writeln!(out, r##"<text class="number" x="{cx}" y="{}">{number}</text>"##, short(number_y));
        let shown = escape(&label::place_line(&place));
        let _ = writeln!(out, r##"<text class="label" x="{cx}" y="{}">{shown}</text>"##, short(cy + LABEL_DROP));
        out.push_str("</g>\n");
    }
}

/// What an edge says.
fn sentence(kind: Kind, from: Thing, to: Thing) -> String {
    match (kind, from, to) {
        (Kind::Mark(MarkKind::Before), Thing::Event(event), Thing::Condition(condition)) => label::mark_sentence(MarkKind::Before, condition, event),
        (Kind::Mark(kind), Thing::Condition(condition), Thing::Event(event)) => label::mark_sentence(kind, condition, event),
        (_, Thing::Event(event), Thing::Condition(condition)) => format!("event {event} produced condition {condition}"),
        (_, Thing::Condition(condition), Thing::Event(event)) => format!("condition {condition} was consumed by event {event}"),
        _ => format!("{from} to {to}"),
    }
}

#[cfg(test)]
mod tests {
    use super::super::samples;
    use crate::names::Names;
    use std::collections::BTreeSet;

    fn drawn(run: &super::Run) -> String {
        super::super::svg(run, &Names::default())
    }

    /// Lines that begin like this.
    fn count(text: &str, start: &str) -> usize {
        text.lines().filter(|line| line.starts_with(start)).count()
    }

    /// Every tag that is opened is closed, in the right order, and nothing else has a `<` or a lone `&`.
    fn well_formed(text: &str) -> Result<(), String> {
        let mut open = Vec::new();
        for piece in text.split('<').skip(1) {
            let (tag, content) = piece.split_once('>').ok_or(piece)?;
            let name = tag.split([' ', '/']).next().unwrap_or("");
            match (tag.strip_prefix('/'), tag.ends_with('/')) {
                (Some(closed), _) => (open.pop() == Some(closed)).then_some(()).ok_or(tag)?,
                (None, false) => open.push(name),
                (None, true) => {}
            }
            if tag.matches('"').count() % 2 == 1 || content.split('&').skip(1).any(|entity| !entity.contains(';')) {
                return Err(piece.to_string());
            }
        }
        open.is_empty().then_some(()).ok_or(format!("{open:?}"))
    }

    #[test]
    fn everything_is_drawn_once() {
        for (name, run) in samples::all() {
            let text = drawn(&run);
            assert_eq!(count(&text, "<g class=\"event\" id=\"e"), run.record.events.len(), "{name}");
            assert_eq!(count(&text, "<g class=\"condition\" id=\"c"), run.record.conditions.len(), "{name}");
            let element = |(kind, from, to): &(super::Kind, super::Thing, super::Thing)| {
                let class = if kind.letter() == 'C' { "arc".to_string() } else { format!("mark {}", kind.letter()) };
                format!("<path class=\"{class}\" data-from=\"{from}\" data-to=\"{to}\"")
            };
            let edges: BTreeSet<String> = super::super::edges(&run).iter().map(element).collect();
            let paths = text.lines().filter(|line| line.contains(" data-to="));
            let seen: Vec<&str> = paths.map(|line| line.split(" d=").next().unwrap_or("")).collect();
            assert_eq!(seen.len(), edges.len(), "{name}");
            assert_eq!(seen.into_iter().collect::<BTreeSet<_>>(), edges.iter().map(String::as_str).collect(), "{name}");
        }
    }

    #[test]
    fn documents_are_well_formed() {
        for (name, run) in samples::all() {
            assert_eq!(well_formed(&drawn(&run)), Ok(()), "{name}");
        }
        assert!(well_formed("<a><b></a></b>").is_err() && well_formed("<a>x & y</a>").is_err() && well_formed("<a>").is_err());
    }

    #[test]
    fn names_are_escaped_in_documents() {
        let names = Names::of(b"P,0,<&\"'>\nT,0,</svg> & more\n").unwrap();
        let text = super::super::svg(&samples::example("drive", "a"), &names);
        assert_eq!(well_formed(&text), Ok(()));
        assert!(text.contains("&lt;/svg&gt; &amp; more") && text.contains(">&lt;&amp;&quot;&#39;&gt;<"));
        assert_eq!(text.matches("</svg>").count(), 1);
    }

    #[test]
    fn long_names_are_whole_in_the_title() {
        let name = "W".repeat(40);
        let text = super::super::svg(&samples::example("drive", "a"), &Names::of(format!("P,0,{name}\nT,0,{name}").as_bytes()).unwrap());
        let whole: Vec<&str> = text.lines().filter(|line| line.contains(&name)).collect();
        assert!(whole.len() == 2 && whole.iter().all(|line| line.starts_with("<title>")));
        assert!(text.contains("W…</text>"));
    }

    #[test]
    fn examples_have_names() {
        for (folder, log, place, transition) in [
            ("drive", "a", "heads loaded", "park"),
            ("temperature", "flush", "temperature in range", "cool down"),
            ("flush", "warning", "write on the media", "flush of one block"),
            ("cache", "shifts", "acknowledged write", "flush on power warning"),
        ] {
            let text = super::super::svg(&samples::example(folder, log), &samples::names(folder));
            assert!(text.contains(&format!(">{place}</text>")) && text.contains(&format!("</tspan> {transition}</text>")), "{folder}");
            assert!(!text.contains("…</text>"), "{folder}");
        }
    }

    #[test]
    fn independent_events_are_filled() {
        let text = drawn(&samples::example("temperature", "flush"));
        assert_eq!(count(&text, "<rect class=\"box free\""), 5);
        assert_eq!(count(&text, "<rect class=\"box\""), 1);
        assert_eq!(text.lines().filter(|line| line.ends_with(">∥ 0 2 3 4</text>")).count(), 1);
        assert!(text.contains("<title>event 1: T0, line 1, free to swap with 0 2 3 4</title>"));
        assert!(text.contains("svg:has(#e0:hover) :is(#e1) .box"));
    }

    #[test]
    fn initial_and_last_conditions_are_told_apart() {
        let text = drawn(&samples::example("drive", "a"));
        assert_eq!((count(&text, "<circle class=\"token\""), count(&text, "<circle class=\"ring\"")), (2, 2));
    }

    #[test]
    fn the_same_run_is_drawn_the_same() {
        let run = samples::example("cache", "shifts");
        assert_eq!(drawn(&run), drawn(&run));
    }

    #[test]
    fn rules_for_the_pointer_are_not_long() {
        for (name, run) in samples::all() {
            assert!(super::pointer_rules(&run).len() <= super::RULE_BYTES, "{name}");
        }
    }
}
