//! Shows what is in an index file: header, tree with node numbers, free chain; and of a refused one the first rule, node and word that
//! fails, in the words of docs/RULES.md.
//!
//! Whether the file is accepted or refused is the word of the proved check alone.

mod draw;
mod rules;

use cuffgarnet::Index;
use rules::Arena;
use std::io::Write;
use std::process::ExitCode;

const HELP: &str = "usage: explain [--dot] FILE
Shows an index file (words of 8 bytes, little-endian): header, tree with node numbers, free chain. Of a refused one it says the first
rule that fails, with node and word, in the words of docs/RULES.md.
    --dot    the tree and the free chain as a graph, for Graphviz: explain --dot FILE | dot -Tsvg > tree.svg
Exit status: 0 accepted by the proved check, 1 refused, 2 the file cannot be read, 3 this program cannot say why it is refused.
";

fn words(path: &str) -> Result<Vec<u64>, String> {
    let bytes = std::fs::read(path).map_err(|e| format!("{path}: {e}"))?;
    if bytes.len() % 8 != 0 {
        return Err(format!("{path}: {} bytes are no whole words of 8 bytes", bytes.len()));
    }
    Ok(bytes.chunks_exact(8).filter_map(|word| Some(u64::from_le_bytes(word.try_into().ok()?))).collect())
}

/// What is to be written, and the exit status.
fn explained(path: &str, graph: bool) -> Result<(String, u8), String> {
    let words = words(path)?;
    let accepted = Index::open(&words[..]).is_ok();
    let arena = Arena::read(&words);
    let fault = arena.first_fault();
    if graph {
        return Ok((draw::dot(&arena, fault.as_ref()), u8::from(!accepted)));
    }
    let verdict = if accepted { "accepted" } else { "refused" };
    let mut out = format!("{path}: {} words, {verdict} by the proved check\n", words.len());
    let status = match (accepted, &fault) {
        (true, None) => 0,
        (false, Some(fault)) => {
            out += &draw::fault(fault);
            1
        }
        _ => {
            out += "this program reads it otherwise, and is wrong: please report the file\n";
            3
        }
    };
    Ok((out + &draw::text(&arena), status))
}

fn main() -> ExitCode {
    let asked: Vec<String> = std::env::args().skip(1).collect();
    let told = match asked.iter().map(String::as_str).collect::<Vec<_>>()[..] {
        ["--help" | "-h"] => Ok((HELP.to_string(), 0)),
        ["--dot", file] => explained(file, true),
        [file] if !file.starts_with('-') => explained(file, false),
        _ => Err(HELP.to_string()),
    };
    // a reader that has seen enough, as `head`, is no failure
    let (out, status) = told.unwrap_or_else(|why| {
        eprintln!("{}", why.trim_end());
        (String::new(), 2)
    });
    _ = std::io::stdout().write_all(out.as_bytes());
    ExitCode::from(status)
}
