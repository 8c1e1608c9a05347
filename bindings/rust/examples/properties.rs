//! Lists the properties of a source, each with its line and the nodes that it stands in, whatever is wrong with it. A
//! source that the parser does not take is refused with what to do about it.
//!
//! `cargo run --example properties -- ../../examples/board.dts`

use dt_parser::{Columns, Entrypoint, Leaf, LineIndex, Node, NodeKind, TextRange, TokenKind};
use std::error::Error;

fn main() -> Result<(), Box<dyn Error>> {
    let path = std::env::args().nth(1).ok_or("which file?")?;
    let text = std::fs::read(path)?;
    let parse = match Entrypoint::SourceFile.parse_text(&text) {
        Ok(read) => read.parse,
        Err(why) => return Err(format!("{why}; {}", why.help().unwrap_or_default()).into()),
    };
    let lines = LineIndex::new(&text);
    let position = |range: TextRange| lines.position(range.start, Columns::Characters).expect("a range of the text");

    for property in parse.tree.root().nodes_below().filter(|node| node.kind() == NodeKind::DtProperty) {
        let nodes = property.nodes_above().filter(|node| node.kind() == NodeKind::DtNode);
        let values = property.child(NodeKind::PropValueList).map(|values| format!(" = {}", values.text_lossy()));
        println!(
            "{}: {}{} in {}",
            position(property.range()),
            name(property),
            values.unwrap_or_default(),
            nodes.map(name).collect::<Vec<_>>().join(" in ")
        );
    }
    for report in &parse.reports {
        println!("{}: {report}", position(report.range));
    }
    Ok(())
}

/// The name of a node or a property, or the reference that stands for it.
fn name(node: Node<'_>) -> String {
    let leaf = node.child_leaf(TokenKind::Name).or(node.child_leaf(TokenKind::Slash)).map(Leaf::text_lossy);
    let reference = node.child(NodeKind::DtPhandle).map(Node::text_lossy);
    leaf.or(reference).unwrap_or("(no name)".into()).into_owned()
}
