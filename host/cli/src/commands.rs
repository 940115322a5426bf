//! What each command does: from a request to the text for standard output.

use crate::{
    args::{Request, Source},
    failure::{quoted, Failure},
    format::{self, singular, Text, ARENAS},
    graph::graph,
    references::Name,
    why::why,
};
use cadnohal::{Counts, Element, KeepUnused, Maps, Module, Refusal, N};
use std::{
    fs,
    io::{self, Read},
};

/// Does what a request asks for.
pub fn execute(request: Request) -> Result<String, Failure> {
    match request {
        Request::Say(text) => Ok(text),
        Request::Compact {
            keep_unused,
            maps,
            source,
        } => compact(keep_unused, maps, &source),
        Request::Check { source } => check(&source),
        Request::Why {
            keep_unused,
            source,
            element,
        } => explain(keep_unused, &source, element),
        Request::Graph {
            keep_unused,
            source,
        } => {
            let text = load(&source)?;
            let (_, _, maps) = pass(&text, keep_unused, &source)?;
            Ok(graph(&text.module, keep_unused, &maps))
        }
    }
}

fn compact(keep_unused: KeepUnused, with_maps: bool, source: &Source) -> Result<String, Failure> {
    let text = load(source)?;
    let (mut module, counts, maps) = pass(&text, keep_unused, source)?;
    module.truncate(&counts);
    let mut out = format::write(&module);
    if with_maps {
        push_maps(&maps, &mut out);
    }
    Ok(out)
}

/// The five maps as comments, one a line.
fn push_maps(maps: &Maps, out: &mut String) {
    if !out.is_empty() {
        out.push('\n');
    }
    for (area, words) in ARENAS.into_iter().zip(maps.words()) {
        out.push_str("# map ");
        out.push_str(area.name());
        for &word in words {
            match word {
                N => out.push_str(" N"),
                _ => out.push_str(&format!(" {word}")),
            }
        }
        out.push('\n');
    }
}

fn check(source: &Source) -> Result<String, Failure> {
    let text = load(source)?;
    let checked = text.module.check_with(&text.maps());
    checked.map_err(|refusal| refused(&text, &refusal, source))?;
    Ok("accepted\n".into())
}

fn explain(keep_unused: KeepUnused, source: &Source, element: Element) -> Result<String, Failure> {
    let text = load(source)?;
    let (_, _, maps) = pass(&text, keep_unused, source)?;
    let area = element.area();
    let records = text.module.count(area);
    if element.index() as usize >= records {
        let (name, one) = (Name(element), singular(area));
        let plural = if records == 1 { "" } else { "s" };
        return Err(Failure::Unusable(format!(
            "cadnohal: {name} is not in the module, which has {records} {one}{plural}"
        )));
    }
    why(&text.module, keep_unused, &maps, element)
}

/// Compacts a copy of the module.
fn pass(
    text: &Text,
    keep_unused: KeepUnused,
    source: &Source,
) -> Result<(Module, Counts, Maps), Failure> {
    let mut module = text.module.clone();
    let mut maps = text.maps();
    match module.compact_into(keep_unused, &mut maps) {
        Ok(counts) => Ok((module, counts, maps)),
        Err(refusal) => Err(refused(text, &refusal, source)),
    }
}

/// A refusal with the file, and with the line if it is about one record.
fn refused(text: &Text, refusal: &Refusal, source: &Source) -> Failure {
    Failure::Refused(match text.line_of(refusal) {
        Some(line) => format!("{source}:{line}: {refusal}"),
        None => format!("{source}: {refusal}"),
    })
}

/// Reads and parses a module's text.
fn load(source: &Source) -> Result<Text, Failure> {
    let bytes = match source {
        Source::Input => {
            let mut bytes = Vec::new();
            io::stdin().lock().read_to_end(&mut bytes).map(|_| bytes)
        }
        Source::File(path) => fs::read(path),
    };
    let bytes = bytes.map_err(|error| {
        let shown = quoted(&source.to_string());
        Failure::Unusable(format!("cadnohal: can't read {shown}: {error}"))
    })?;
    format::read(&bytes).map_err(|fault| {
        let (line, column) = (fault.line, fault.column);
        Failure::Unusable(format!("{source}:{line}:{column}: {}", fault.message))
    })
}
