//! Shows what was read: as text, and as a graph for `dot`.

use crate::rules::{name, Arena, Arrival, Fault, Node, Place, NAMES, RULES};
use std::fmt::Write;

fn numbers(list: &[u64]) -> String {
    list.iter().map(u64::to_string).collect::<Vec<_>>().join(" ")
}

fn place(place: Place) -> String {
    match (place, place.word()) {
        (Place::Header(word), _) => format!("header word {word}"),
        (Place::Node(node, word), Some(at)) => format!("node {node}, its word {word} (word {at} of the file)"),
        _ => "the whole".to_string(),
    }
}

/// Which rule fails first, and where.
pub fn fault(fault: &Fault) -> String {
    let rule = fault.rule.checked_sub(1).and_then(|at| RULES.get(at)).unwrap_or(&"");
    let (number, place, what) = (fault.rule, place(fault.place), &fault.what);
    format!(
        "the first rule that fails is rule {number} of docs/RULES.md, section 2:\n    {rule}\n    {place}: {what}\n"
    )
}

fn pairs(n: u64) -> String {
    format!("{n} pair{}", if n == 1 { "" } else { "s" })
}

fn line(way: &Arrival, node: Option<Node>) -> String {
    let Some(node) = node else { return "no such node".to_string() };
    if way.again {
        return "shown already".to_string();
    }
    let keys = numbers(node.keys());
    match node.state() {
        1 => format!("leaf, {}: {keys}", pairs(node.length())),
        2 => format!("inner, {}, {} in it and below: {keys}", pairs(node.length()), node.count()),
        state => format!("state {state}"),
    }
}

/// Header, tree and free chain.
pub fn text(arena: &Arena) -> String {
    let mut out = "header\n".to_string();
    for (at, (what, word)) in NAMES.iter().zip(arena.words).enumerate() {
        _ = writeln!(out, "    {at}  {what:<28}{}", if at == 6 { name(*word) } else { word.to_string() });
    }
    out += "tree: node, state, keys\n";
    for way in &arena.reached {
        let indent = way.depth.min(12).saturating_add(1).saturating_mul(4); // no sound tree is higher than 8
        _ = writeln!(out, "{:indent$}{}: {}", "", way.node, line(way, arena.node(way.node)));
    }
    let free = if arena.chain.is_empty() { "none".to_string() } else { numbers(&arena.chain) };
    _ = writeln!(out, "free chain: {free}");
    out
}

/// The tree and the free chain, in the language of Graphviz.
pub fn dot(arena: &Arena, fault: Option<&Fault>) -> String {
    let bad = match fault.map(|f| f.place) {
        Some(Place::Node(node, _)) => Some(node),
        _ => None,
    };
    let shade = |node: u64| if bad == Some(node) { ", style=filled, fillcolor=salmon" } else { "" };
    let mut out = "digraph arena {\n    node [shape=box, fontname=monospace];\n".to_string();
    for way in &arena.reached {
        if let (Some(node), false) = (arena.node(way.node), way.again) {
            _ = writeln!(
                out,
                "    n{} [label=\"{}\\n{}\"{}];",
                way.node,
                way.node,
                numbers(node.keys()),
                shade(way.node)
            );
        }
        if arena.node(way.parent).is_some() {
            _ = writeln!(out, "    n{} -> n{};", way.parent, way.node);
        }
    }
    let mut from = "free".to_string();
    for free in &arena.chain {
        _ = writeln!(
            out,
            "    n{free} [label=\"{free}\\nfree\", style=dashed{}];",
            shade(*free).replace("style=filled, ", "")
        );
        _ = writeln!(out, "    {from} -> n{free} [style=dashed];");
        from = format!("n{free}");
    }
    out + "}\n"
}
