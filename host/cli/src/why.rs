//! Why an element is kept: the shortest way from a root to it, in words.

use crate::{
    failure::Failure,
    references::{kept, kind, span, Cause, Name, Reached, Reason},
};
use cadnohal::{Element, KeepUnused, Maps, Module};

/// Says why `element` is kept, or that it isn't. `module` is as it was before the pass that gave
/// `maps`; a pass that kept other elements than the references lead to is a fault of this program.
pub fn why(
    module: &Module,
    keep_unused: KeepUnused,
    maps: &Maps,
    element: Element,
) -> Result<String, Failure> {
    let reached = Reached::search(module, keep_unused);
    if let Some(other) = reached.disagrees(module, maps) {
        return Err(Failure::Internal(disagreement(other, kept(maps, other))));
    }
    let about = about([None, span(module, element)]);
    let name = format!("{}{about}", Name(element));
    if reached.cause(element).is_none() {
        return Ok(format!("{name} is dropped: no root leads to it\n"));
    }
    let mut steps = Vec::new();
    let mut at = element;
    while let Some(cause) = reached.cause(at) {
        steps.push(step(module, at, cause));
        match cause {
            Cause::Root(_) => break,
            Cause::Reference(from, _) => at = *from,
        }
    }
    steps.reverse();
    Ok(format!("{name} is kept:\n  {}\n", steps.join("\n  ")))
}

/// What is wrong if a pass and the references disagree about an element.
fn disagreement(element: Element, kept: bool) -> String {
    let name = Name(element);
    let said = match kept {
        true => "the library keeps it, but no root leads to it",
        false => "a root leads to it, but the library drops it",
    };
    format!("cadnohal: internal fault at {name}: {said}")
}

/// One step of the way to `element`.
fn step(module: &Module, element: Element, cause: &Cause) -> String {
    let name = Name(element);
    match cause {
        Cause::Root(reason) => format!("{name} is a root: {}", because(*reason)),
        Cause::Reference(from, by) => {
            let about = about([kind(module, *from), span(module, *from)]);
            format!("{}{about} refers to {name} by {by}", Name(*from))
        }
    }
}

fn because(reason: Reason) -> String {
    match reason {
        Reason::Mention(place) => format!("mention {place} names it"),
        Reason::NamedConstant(ty) => {
            format!("it is named and its type, {}, is not abstract", Name(ty))
        }
        Reason::Global => "--keep-unused keeps every global".into(),
        Reason::NamedOverride => "--keep-unused keeps every named override".into(),
        Reason::NamedType => "--keep-unused keeps every named type".into(),
    }
}

/// What is known of an element, in brackets; nothing if nothing is.
fn about(known: [Option<String>; 2]) -> String {
    let known: Vec<String> = known.into_iter().flatten().collect();
    match known.is_empty() {
        true => String::new(),
        false => format!(" ({})", known.join(", ")),
    }
}

#[cfg(test)]
mod tests {
    use super::*;
    use crate::format::read;
    use cadnohal::Area;

    /// Type 0 is mentioned, type 1 isn't.
    const TWO_TYPES: &[u8] = b"type leaf\ntype leaf tag=1\nmention type=0";

    fn answer(types: &[u32]) -> Result<String, Failure> {
        let module = read(TWO_TYPES).unwrap().module;
        let mut maps = Maps::for_module(&module);
        maps.types = cadnohal::HandleMap::from_words(types.to_vec());
        let element = Element::new(Area::Types, 1).unwrap();
        why(&module, KeepUnused::No, &maps, element)
    }

    #[test]
    fn agreeing_maps_are_believed() {
        let said = answer(&[0, u32::MAX]);
        assert_eq!(said, Ok("type:1 is dropped: no root leads to it\n".into()));
    }

    #[test]
    fn an_element_too_many_is_an_internal_fault() {
        let text =
            "cadnohal: internal fault at type:1: the library keeps it, but no root leads to it";
        assert_eq!(answer(&[0, 1]), Err(Failure::Internal(text.into())));
    }

    #[test]
    fn an_element_too_few_is_an_internal_fault() {
        let text =
            "cadnohal: internal fault at type:0: a root leads to it, but the library drops it";
        let none = [u32::MAX, u32::MAX];
        assert_eq!(answer(&none), Err(Failure::Internal(text.into())));
    }
}
