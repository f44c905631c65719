//! The source of the program `vectors`, in the layout of the other crates.

use super::Vector;
use crate::network::Network;

/// The longest list of items or arguments on one line.
const WIDTH: usize = 60;
/// The longest line.
const LINE: usize = 100;
/// The longest item of a list that has several on a line.
const ITEM: usize = 10;

const HEAD: &str = "\
// A fixed sample of the second program's generated cases, made by it (second/vectors). What each prints is what it says itself.
#![tactic(auto)]

use shown::{files, graphs, listings, plans, ran, times, turn_runs};
use std::io;
";

/// A function for each call, one for the calls of each function of `shown`, and `main`, which makes
/// them all.
pub fn module(sample: &[Vector]) -> String {
    let kinds = sample.chunk_by(|one, next| kind(one) == kind(next));
    let kinds: Vec<&[Vector]> = kinds.collect();
    let all = kinds
        .iter()
        .map(|calls| format!("{}(&rt)", kind(&calls[0])));
    let main = function("main(rt: HostRuntime)", &in_turn(all));
    let each_kind = kinds.iter().map(|calls| {
        let all = calls.iter().map(|vector| format!("{}(rt)", name(vector)));
        printing(&kind(&calls[0]), &in_turn(all))
    });
    let each_call = sample.iter().map(|vector| {
        let statements = vector.statements.join("\n");
        printing(&name(vector), statements.trim_end_matches(';'))
    });
    let rest: String = each_kind.chain(each_call).collect();
    format!("{HEAD}\n{main}{rest}")
}

/// The name of the function that makes a call: its label.
fn name(vector: &Vector) -> String {
    let (label, _) = vector.line.split_once(':').expect("a line has a label");
    label.replace(' ', "_")
}

/// The name of the function for all calls of the function that this one calls last.
fn kind(vector: &Vector) -> String {
    let last = vector.statements.last().expect("a call is made");
    let (called, _) = last.split_once('(').expect("a call has arguments");
    format!("cases_of_{}", called.replace("::", "_"))
}

/// Calls that can fail, one after the other.
fn in_turn(calls: impl Iterator<Item = String>) -> String {
    calls.collect::<Vec<_>>().join("?;\n")
}

/// A function that prints, after an empty line.
fn printing(name: &str, body: &str) -> String {
    format!("\n{}", function(&format!("{name}(rt: &impl Print)"), body))
}

fn function(head: &str, body: &str) -> String {
    let body = body.replace('\n', "\n    ");
    format!("fn {head} -> io::Result<()> {{\n    {body}\n}}\n")
}

/// A call, on one line if that is short enough. One whose answer gets no name prints, by the handle.
pub fn call(function: &str, arguments: &[&str]) -> String {
    let handle: &[&str] = if function.starts_with("let ") {
        &[]
    } else {
        &["rt"]
    };
    let arguments = [handle, arguments].concat();
    let all = arguments.join(", ");
    if all.len() <= WIDTH {
        return format!("{function}({all});");
    }
    let lines: String = arguments
        .iter()
        .map(|argument| format!("    {argument},\n"))
        .collect();
    format!("{function}(\n{lines});")
}

/// A call that shows what comes of a file, under a label.
pub fn show(function: &str, label: &str, file: &[u8], rest: &[&str]) -> String {
    let (label, file) = (text(label), bytes(file));
    call(function, &[&[label.as_str(), &file], rest].concat())
}

/// A string of bytes.
pub fn bytes(bytes: &[u8]) -> String {
    let all: String = bytes.iter().map(|byte| format!("\\x{byte:02X}")).collect();
    format!("b\"{all}\"")
}

/// A text.
pub fn text(words: &str) -> String {
    format!("\"{words}\"")
}

/// Declares a list of words under a name, on one line if that is short enough.
pub fn declared(name: &str, words: &[u32]) -> String {
    let [first, rest @ ..] = words else {
        return format!("let {name} = [0u32; 0];");
    };
    let mut items = vec![format!("{first}u32")];
    items.extend(rest.iter().map(u32::to_string));
    let all = items.join(", ");
    if all.len() <= WIDTH {
        return format!("let {name} = [{all}];");
    }
    let lines: String = filled(&items)
        .iter()
        .map(|line| format!("    {line}\n"))
        .collect();
    format!("let {name} = [\n{lines}];")
}

/// Lines of a list's items: as many on a line as it has room for, if they are all short, and else one.
fn filled(items: &[String]) -> Vec<String> {
    let room = LINE - 8;
    let are_short = items.iter().all(|item| item.len() <= ITEM);
    let mut lines: Vec<String> = Vec::new();
    for item in items {
        match lines.last_mut() {
            Some(line) if are_short && line.len() + item.len() + 2 <= room => {
                line.push_str(&format!(" {item},"));
            }
            _ => lines.push(format!("{item},")),
        }
    }
    lines
}

/// Statements that change the fields of `one`, called `net`, to those of `other`.
pub fn assignments(one: &Network, other: &Network) -> Vec<String> {
    let (one, other) = (fields(one), fields(other));
    let both = one.iter().zip(&other);
    let different = both.filter(|(one, other)| one != other);
    different
        .map(|(_, (name, value))| format!("net.{name} = {value};"))
        .collect()
}

/// The fields of a network with their names.
fn fields(network: &Network) -> Vec<(String, u32)> {
    let mut fields = vec![
        ("process_count".to_string(), network.process_count),
        ("pair_count".to_string(), network.pair_count),
        ("channel_count".to_string(), network.channel_count),
    ];
    let mut add = |list: &str, index: usize, named: &[(&str, u32)]| {
        let name = |field| format!("{list}[{index}]{field}");
        fields.extend(named.iter().map(|&(field, value)| (name(field), value)));
    };
    for (index, process) in network.processes.iter().enumerate() {
        let named = [
            (".period", process.period),
            (".burst", process.burst),
            (".deadline", process.deadline),
            (".budget", process.budget),
        ];
        add("processes", index, &named);
    }
    for (index, pair) in network.pairs.iter().enumerate() {
        let named = [(".higher", pair.higher), (".lower", pair.lower)];
        add("pairs", index, &named);
    }
    for (index, channel) in network.channels.iter().enumerate() {
        let named = [
            (".kind", channel.kind),
            (".writer", channel.writer),
            (".reader", channel.reader),
            (".capacity", channel.capacity),
        ];
        add("channels", index, &named);
    }
    for (index, &count) in network.action_counts.iter().enumerate() {
        add("action_counts", index, &[("", count)]);
    }
    let numbers = network.actions.iter().flatten().flatten();
    for (index, &number) in numbers.enumerate() {
        add("actions", index, &[("", number)]);
    }
    fields
}
