//! The part of the JSON document that a parse gives. A file without a parse has the same fields, with nothing in them.

use crate::args::{Args, View};
use crate::at;
use crate::json::{Json, Layout};
use crate::json_form::range;
use crate::nodes::{self, Head};
use crate::outcome::{Outcome, Parsed};
use dt_parser::{Expected, Item, LexicalError, Position, Report};

pub fn write(json: &mut Json, outcome: &Outcome, args: &Args) {
    match outcome {
        Outcome::Parsed(parsed) => of_parsed(json, parsed, args),
        Outcome::Refused(_) | Outcome::Unreadable(_) => of_nothing(json),
    }
}

fn of_nothing(json: &mut Json) {
    for key in ["form", "entry", "text_name"] {
        json.key(key).null();
    }
    json.key("line_marks").word(false);
    for key in ["reports", "lexical_errors", "not_understood", "nodes"] {
        json.key(key).list(Layout::Lines);
        json.end();
    }
    for key in ["tree", "at"] {
        json.key(key).null();
    }
}

fn of_parsed(json: &mut Json, parsed: &Parsed, args: &Args) {
    let Parsed { parse, lines, .. } = parsed;
    json.key("form").string(if parsed.is_rows { "rows" } else { "text" });
    json.key("entry").string(parsed.entry.name());
    json.key("text_name").bytes(&parsed.name);
    json.key("line_marks").word(parsed.has_line_marks());
    json.key("reports").each(&parse.reports, |json, one| report(json, one, parsed));
    json.key("lexical_errors").each(&parse.lexical_errors, |json, error| lexical_error(json, error, parsed));
    json.key("not_understood").each(parse.unreported(), |json, node| {
        json.object(Layout::Line);
        range(json.key("range"), lines, node.range());
        json.end();
    });
    json.key("nodes");
    dt_nodes(json, parsed);
    let tree = args.views.contains(&View::Tree).then(|| parse.tree.root().walk());
    json.key("tree").option(tree, |json, items| json.each(items, |json, (item, _)| row(json, item)));
    json.key("at").option(args.has_position().then_some(&args.views), |json, views| {
        let positions = views.iter().filter_map(|view| match view {
            View::At(position) => Some(*position),
            _ => None,
        });
        json.each(positions, |json, position| rows_at(json, position, parsed));
    });
}

fn report(json: &mut Json, report: &Report, parsed: &Parsed) {
    json.object(Layout::Lines);
    json.key("number").number(report.message.number() as usize);
    json.key("name").string(report.message.name());
    json.key("text").string(&report.text());
    range(json.key("range"), &parsed.lines, report.range);
    json.key("mark").number(report.mark);
    json.key("expected").each(&report.expected, |json, one| expected(json, *one));
    json.key("found").option(report.found, |json, kind| named(json, kind.number(), kind.name(), &kind.to_string()));
    json.key("hint").option(report.hint, |json, hint| named(json, hint.number(), hint.name(), hint.text()));
    json.key("label").option(report.label, |json, label| range(json, &parsed.lines, label));
    json.end();
}

fn expected(json: &mut Json, expected: Expected) {
    let name = match expected {
        Expected::Kind(kind) => kind.name().to_string(),
        other => format!("{other:?}"),
    };
    named(json, expected.number(), &name, &expected.to_string());
}

/// A number of rows with its name and with the words for people.
fn named(json: &mut Json, number: u32, name: &str, text: &str) {
    json.object(Layout::Line);
    json.key("number").number(number as usize);
    json.key("name").string(name);
    json.key("text").string(text);
    json.end();
}

fn lexical_error(json: &mut Json, error: &LexicalError, parsed: &Parsed) {
    json.object(Layout::Line);
    json.key("number").number(error.error.number() as usize);
    json.key("name").string(error.error.name());
    json.key("text").string(&error.to_string());
    range(json.key("range"), &parsed.lines, error.range);
    json.end();
}

/// The devicetree nodes. A node's parent is the index of one before it in this list.
fn dt_nodes(json: &mut Json, parsed: &Parsed) {
    let nodes: Vec<_> = nodes::all(&parsed.parse).collect();
    let errors = nodes::errors_inside(&parsed.parse);
    json.each(&nodes, |json, node| {
        let Head { labels, name } = nodes::head(*node);
        let above = node.nodes_above().find(nodes::is_dt_node);
        let parent = above.and_then(|above| nodes.binary_search_by_key(&above.row(), |node| node.row()).ok());
        json.object(Layout::Line);
        json.key("labels").list(Layout::Line);
        for label in &labels {
            json.bytes(label.strip_suffix(b":").unwrap_or(label));
        }
        json.end();
        json.key("name").option((!name.is_empty()).then_some(name), |json, name| json.bytes(&name));
        json.key("parent").option(parent, Json::number);
        json.key("errors").number(errors.get(node).copied().unwrap_or(0));
        range(json.key("range"), &parsed.lines, node.range());
        json.end();
    });
}

/// A row of the tree. Its text is a leaf's alone: a node's is that of its leaves.
fn row(json: &mut Json, item: Item) {
    let (class, kind, number) = match item {
        Item::Node(node) => ("node", node.kind().name(), node.kind().number()),
        Item::Leaf(leaf) => ("leaf", leaf.kind().name(), leaf.kind().number()),
    };
    json.object(Layout::Line);
    json.key("row").number(item.row());
    json.key("parent").number(item.parent().map_or(0, |parent| parent.row()));
    json.key("class").string(class);
    json.key("number").number(number as usize);
    json.key("kind").string(kind);
    json.key("start").number(item.range().start);
    json.key("end").number(item.range().end);
    json.key("text").option(item.as_leaf(), |json, leaf| json.bytes(leaf.text()));
    json.end();
}

fn rows_at(json: &mut Json, position: Position, parsed: &Parsed) {
    let items = at::items(&parsed.lines, &parsed.parse, position);
    json.object(Layout::Line);
    json.key("line").number(position.line.saturating_add(1));
    json.key("column").number(position.column.saturating_add(1));
    json.key("error").option(items.as_ref().err(), |json, why| json.string(why));
    json.key("rows").each(items.unwrap_or_default(), row);
    json.end();
}
