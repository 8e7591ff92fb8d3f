//! The commands: what each takes, what it says of itself, and what it does.

use crate::draw;
use crate::json::Json;
use crate::request::Request;
use crate::run::{arranged, Condition, Net, Record, Run, Transition};
use crate::tables;
use pti::{Choice, Refusal};

pub struct Command {
    pub name: &'static str,
    /// The words that it takes, in order; one in brackets may be left out.
    operands: &'static [&'static str],
    /// The options that not every command has.
    own: &'static [Flag],
    pub brief: &'static str,
    more: &'static str,
    /// What the JSON object of an accepted request has.
    json: &'static str,
    pub act: fn(&Request) -> Result<Vec<u8>, Refusal>,
}

/// An option.
pub struct Flag {
    pub name: &'static str,
    pub short: Option<&'static str>,
    /// The word behind it, if it takes one.
    word: &'static str,
    brief: &'static str,
}

const fn option(name: &'static str, word: &'static str, brief: &'static str) -> Flag {
    Flag { name, short: None, word, brief }
}

const EVERY: &[Flag] = &[
    option("--json", "", "one JSON object, on one line, also of a refusal"),
    option("--names", "FILE", "names of places and transitions: lines P,number,name and T,number,name"),
    Flag { name: "--output", short: Some("-o"), word: "FILE", brief: "write there, and only where nothing is refused" },
];

pub const ALL: &[Command] = &[
    Command {
        name: "net",
        operands: &["NET"],
        own: &[option("--list", "", "each place and each transition besides")],
        brief: "read a net",
        more: "Prints how many places and transitions the net has.

Example:
  $ pti net examples/drive/net
  places 5
  transitions 3",
        json: "places: [{place, name, tokens}], transitions: [{transition, name, takes: [{place, weight}], makes: [{place, weight}],\ninhibited_by: [place], reads: [place]}]",
        act: net,
    },
    Command {
        name: "build",
        operands: &["NET", "LOG"],
        own: &[],
        brief: "write the record of a step log",
        more: "Prints the run record: lines E for its events, C for its conditions, A, B and R for its marks.

Example:
  $ pti build examples/drive/net examples/drive/e.log
  C,0,-,-
  C,2,-,-",
        json: "events: [transition], conditions: [{place, producer, consumer}], marks: [{kind, condition, event}], text",
        act: build,
    },
    Command {
        name: "check",
        operands: &["NET", "RECORD"],
        own: &[option("--table", "", "the order of the events besides, as a matrix")],
        brief: "check a proposed record",
        more: "Prints how many events and conditions the record has, and how many pairs of events are free to swap.

Example:
  $ pti build examples/drive/net examples/drive/a.log | pti check examples/drive/net -
  events 3
  conditions 5
  independent pairs 0",
        json: "events, conditions, independent_pairs; with --table order: [[2 strictly before, 1 not later, else 0]]",
        act: check,
    },
    Command {
        name: "arrange",
        operands: &["NET", "RECORD"],
        own: &[],
        brief: "write the shortest arrangement of a record",
        more: "Prints its lines, G and events: each line is a step, and no arrangement that keeps the order has fewer.

Example:
  $ pti build examples/drive/net examples/drive/b.log | pti arrange examples/drive/net -
  G,0,1",
        json: "lines: [[event]], text",
        act: arrange,
    },
    Command {
        name: "replay",
        operands: &["NET", "RECORD", "ARRANGEMENT"],
        own: &[],
        brief: "replay an arrangement of a record",
        more: "Prints the marking before its first line and after each: a column for each place, under the place's number.

Example:
  $ pti build examples/drive/net examples/drive/b.log -o b.record
  $ pti replay examples/drive/net b.record examples/drive/b.park_first.arr
  line  0 1 2 3 4
     0  1 0 1 0 0
     1  1 0 0 1 0  G,1
     2  0 1 0 1 0  G,0",
        json: "lines: [[event]], markings: [[tokens of a place]], one more than lines",
        act: replay,
    },
    Command {
        name: "energy",
        operands: &["NET", "RECORD", "ENERGY"],
        own: &[],
        brief: "say what a record's events draw from the hold-up capacitor, and what is left",
        more: "ENERGY is a line K,capacitance,full,cutoff in µF and mV, and for each transition of the net, in order, a line J,µJ or W,mW,ms.
What is left is below 0 where the capacitor falls short; the exit status is 0 then too.

Example:
  $ pti build examples/drive/net examples/drive/a.log | pti energy examples/drive/net - examples/energy/aged.energy
  usable 157080 µJ
  draw 180000 µJ
  left -22920 µJ",
        json: "usable, draw, left, unit",
        act: energy,
    },
    Command {
        name: "draw",
        operands: &["NET", "RECORD"],
        own: &[option("--dot", "", "for Graphviz, in place of SVG")],
        brief: "draw a record",
        more: "Writes an SVG: the events in columns by the lines of the shortest arrangement, the conditions between them, arcs and marks, and which
events are free to swap.

Example:
  $ pti build examples/drive/net examples/drive/a.log | pti draw examples/drive/net - --names examples/drive/names -o a.svg",
        json: "text",
        act: draw,
    },
    Command {
        name: "line",
        operands: &["NET", "[SECOND]", "LINE"],
        own: &[],
        brief: "show a line of a net or of a second text",
        more: "Prints line LINE, counted from 1, of SECOND where it is given and else of NET, without its ending.

Example:
  $ pti line examples/drive/net 15
  H,1,2",
        json: "line, start, length, text",
        act: line,
    },
];

impl Command {
    pub fn options(&self) -> impl Iterator<Item = &'static Flag> {
        self.own.iter().chain(EVERY)
    }

    /// What so many words are, in order; none if it takes fewer or more.
    pub fn operands_of(&self, given: usize) -> Option<Vec<&'static str>> {
        let asked: Vec<&str> = self.operands.iter().copied().filter(|operand| !operand.starts_with('[')).collect();
        if given == asked.len() {
            return Some(asked);
        }
        let all = self.operands.iter().map(|operand| operand.trim_matches(&['[', ']'][..])).collect();
        (given == self.operands.len()).then_some(all)
    }

    /// What it takes, in words.
    pub fn takes(&self) -> String {
        format!("it takes {}", self.operands.join(" "))
    }

    pub fn usage(&self) -> String {
        let options: String = self.options().map(|option| format!(" [{}{}]", option.short.unwrap_or(option.name), option.behind())).collect();
        format!("usage: pti {} {}{options}", self.name, self.operands.join(" "))
    }

    pub fn help(&self) -> String {
        let options: String = self.options().map(|option| format!("  {:<18} {}\n", option.form(), option.brief)).collect();
        format!(
            "pti {}: {}\n\n{}\n\n{}\n\nOptions:\n{options}  {:<18} this text\n{}\nA file `-` is standard input.\n{STATUS}",
            self.name,
            self.brief,
            self.usage(),
            self.more,
            "-h, --help",
            self.json_help()
        )
    }
}

impl Command {
    fn json_help(&self) -> String {
        format!(
            "\nJSON: accepted: true, {}.\nOf a refusal: accepted: false, number, sentence, spot_kind (line, transition, place, event, asked or whole), spot, file, line,\n\
             text, cut_off; what is not plain text in a line is written as \\xNN.\n",
            self.json
        )
    }
}

impl Flag {
    fn form(&self) -> String {
        let short = self.short.map_or(String::new(), |short| format!("{short}, "));
        format!("{short}{}{}", self.name, self.behind())
    }

    fn behind(&self) -> String {
        if self.word.is_empty() { String::new() } else { format!(" {}", self.word) }
    }
}

const STATUS: &str = "Exit status: 0 accepted; 1 refused; 2 misuse, or a file that cannot be read or written.\n";

/// What `pti --help` says.
pub fn help() -> String {
    let commands: String = ALL.iter().map(|command| format!("  {:<31}{}\n", format!("{} {}", command.name, command.operands.join(" ")), command.brief)).collect();
    format!(
        "pti: run records of place/transition nets with inhibitor and read arcs\n\nusage: pti COMMAND FILE.. [OPTION]..\n\nCommands:\n{commands}\n\
         `pti COMMAND --help` says more, with an example. A file `-` is standard input.\n\
         {STATUS}\
         Why a text is refused stands on standard error: the file, the line, and what is wrong with it.\n"
    )
}

// ---- what they do

/// A JSON object of an accepted request, as a line.
fn object(mut members: Vec<(&'static str, Json)>) -> Vec<u8> {
    members.insert(0, ("accepted", Json::Bool(true)));
    format!("{}\n", Json::Object(members)).into_bytes()
}

fn net(request: &Request) -> Result<Vec<u8>, Refusal> {
    let size = pti::read_net(request.text("NET"))?;
    let net = Net::of(request.text("NET"));
    if request.has("--json") {
        let places = net.tokens.iter().enumerate().map(|(place, tokens)| {
            Json::Object(vec![("place", Json::Count(place)), ("name", request.names.place(place).into()), ("tokens", Json::Count(*tokens))])
        });
        let transitions = net.transitions.iter().enumerate().map(|(number, transition)| arcs(number, request.names.transition(number), transition));
        return Ok(object(vec![("places", Json::List(places.collect())), ("transitions", Json::List(transitions.collect()))]));
    }
    let mut printed = format!("places {}\ntransitions {}\n", size.places, size.transitions);
    if request.has("--list") {
        printed.push_str(&tables::net(&net, &request.names));
    }
    Ok(printed.into_bytes())
}

fn arcs(number: usize, name: Option<&str>, transition: &Transition) -> Json {
    let weighted = |arcs: &[(usize, usize)]| {
        let arc = |(place, weight): &(usize, usize)| Json::Object(vec![("place", Json::Count(*place)), ("weight", Json::Count(*weight))]);
        Json::List(arcs.iter().map(arc).collect())
    };
    Json::Object(vec![
        ("transition", Json::Count(number)),
        ("name", name.into()),
        ("takes", weighted(&transition.takes)),
        ("makes", weighted(&transition.makes)),
        ("inhibited_by", Json::counts(transition.inhibitors.iter().copied())),
        ("reads", Json::counts(transition.reads.iter().copied())),
    ])
}

fn build(request: &Request) -> Result<Vec<u8>, Refusal> {
    let text = pti::build(request.text("NET"), request.text("LOG"))?;
    if !request.has("--json") {
        return Ok(text);
    }
    let record = Record::of(&text);
    let condition = |condition: &Condition| {
        let Condition { place, producer, consumer } = *condition;
        Json::Object(vec![("place", Json::Count(place)), ("producer", producer.into()), ("consumer", consumer.into())])
    };
    let marks = record.marks.iter().map(|mark| {
        let kind = Json::Text(mark.kind.letter().to_string());
        Json::Object(vec![("kind", kind), ("condition", Json::Count(mark.condition)), ("event", Json::Count(mark.event))])
    });
    Ok(object(vec![
        ("events", Json::counts(record.events.iter().copied())),
        ("conditions", Json::List(record.conditions.iter().map(condition).collect())),
        ("marks", Json::List(marks.collect())),
        ("text", Json::Text(String::from_utf8_lossy(&text).into_owned())),
    ]))
}

fn check(request: &Request) -> Result<Vec<u8>, Refusal> {
    let order = pti::check(request.text("NET"), request.text("RECORD"))?;
    let (events, conditions, pairs) = (order.events(), order.conditions(), order.independent_pairs());
    if request.has("--json") {
        let mut members = vec![("events", Json::Count(events)), ("conditions", Json::Count(conditions)), ("independent_pairs", Json::Count(pairs))];
        if request.has("--table") {
            let row = |e| Json::counts((0..events).map(|f| usize::from(order.value(e, f))));
            members.push(("order", Json::List((0..events).map(row).collect())));
        }
        return Ok(object(members));
    }
    let mut printed = format!("events {events}\nconditions {conditions}\nindependent pairs {pairs}\n");
    if request.has("--table") && events > 0 {
        printed.push_str(&tables::order(&order, &Record::of(request.text("RECORD")), &request.names));
    }
    Ok(printed.into_bytes())
}

/// The lines of an arrangement, as lists of events.
fn listed(arrangement: &[u8]) -> Json {
    Json::List(arranged(arrangement).into_iter().map(Json::counts).collect())
}

fn arrange(request: &Request) -> Result<Vec<u8>, Refusal> {
    let text = pti::arrange(request.text("NET"), request.text("RECORD"))?.text;
    if !request.has("--json") {
        return Ok(text);
    }
    Ok(object(vec![("lines", listed(&text)), ("text", Json::Text(String::from_utf8_lossy(&text).into_owned()))]))
}

fn replay(request: &Request) -> Result<Vec<u8>, Refusal> {
    let arrangement = request.text("ARRANGEMENT");
    let markings = pti::replay(request.text("NET"), request.text("RECORD"), arrangement)?;
    if request.has("--json") {
        let rows = markings.iter().map(|row| Json::counts(row.iter().map(|count| usize::from(*count))));
        return Ok(object(vec![("lines", listed(arrangement)), ("markings", Json::List(rows.collect()))]));
    }
    Ok(tables::markings(&markings, &arranged(arrangement), &Record::of(request.text("RECORD")), &request.names).into_bytes())
}

fn energy(request: &Request) -> Result<Vec<u8>, Refusal> {
    let pti::Energies { usable, draw, left } = pti::energy(request.text("NET"), request.text("RECORD"), request.text("ENERGY"))?;
    if request.has("--json") {
        return Ok(object(vec![("usable", Json::Float(usable)), ("draw", Json::Float(draw)), ("left", Json::Float(left)), ("unit", Json::text("µJ"))]));
    }
    Ok(format!("usable {usable} µJ\ndraw {draw} µJ\nleft {left} µJ\n").into_bytes())
}

fn draw(request: &Request) -> Result<Vec<u8>, Refusal> {
    let run = Run::new(request.text("NET"), request.text("RECORD"))?;
    let picture = if request.has("--dot") { draw::dot(&run, &request.names) } else { draw::svg(&run, &request.names) };
    Ok(if request.has("--json") { object(vec![("text", Json::Text(picture))]) } else { picture.into_bytes() })
}

fn line(request: &Request) -> Result<Vec<u8>, Refusal> {
    let (net, second) = (request.text("NET"), request.text("SECOND"));
    let (choice, text) = if request.source("SECOND").is_some() { (Choice::Second, second) } else { (Choice::Net, net) };
    let stretch = pti::refused_line(net, second, choice, request.line)?;
    let bytes = &text[stretch.clone()];
    if request.has("--json") {
        let shown = Json::Text(crate::texts::shown(bytes));
        return Ok(object(vec![("line", Json::Count(request.line)), ("start", Json::Count(stretch.start)), ("length", Json::Count(bytes.len())), ("text", shown)]));
    }
    Ok([bytes, b"\n"].concat())
}
