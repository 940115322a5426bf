//! Who refers to whom, which elements are roots, and what the roots lead to.

use crate::format::{key_name, singular, ARENAS};
use cadnohal::{
    kinds::{self, Holds},
    Area, Element, KeepUnused, Maps, Module, N,
};
use std::{collections::VecDeque, fmt};

/// How an element is written, as in `type:3`.
pub struct Name(pub Element);

impl fmt::Display for Name {
    fn fmt(&self, f: &mut fmt::Formatter<'_>) -> fmt::Result {
        write!(f, "{}:{}", singular(self.0.area()), self.0.index())
    }
}

/// An expression's kind; `None` for other elements.
pub fn kind(module: &Module, element: Element) -> Option<String> {
    let record = module.record(element.area(), element.index())?;
    let kind = kinds::kind_of(element.area(), record)?;
    (element.area() == Area::Expressions).then(|| kind.name.into())
}

/// An element's span, as in `span 412,9`; `None` if it has none.
pub fn span(module: &Module, element: Element) -> Option<String> {
    let span = module.span(element.area(), element.index())?;
    span.is_given().then(|| format!("span {span}"))
}

/// One reference of a record.
#[derive(Clone, Debug, PartialEq, Eq)]
pub struct Reference {
    /// What is referred to.
    pub to: Element,
    /// The slot, as in `init` or `components[1]`.
    pub by: String,
}

/// What an element of an accepted module refers to, in the order of its slots.
pub fn references(module: &Module, element: Element) -> Vec<Reference> {
    let area = element.area();
    let record = module.record(area, element.index()).unwrap_or_default();
    let slots = kinds::kind_of(area, record).map_or(&[][..], |kind| kind.slots);
    let mut found = Vec::new();
    let mut form = "";
    for (at, slot) in (area.slots_at()..).zip(slots) {
        let mut add = |of, word, by| {
            let to = Element::new(of, word).filter(|_| word != N);
            found.extend(to.map(|to| Reference { to, by }));
        };
        match slot.holds {
            Holds::Handle(of) | Holds::Optional(of) => {
                add(of, record[at], key_name(area, slot.name).into());
            }
            Holds::Form(_) => form = slot.name,
            Holds::ByForm(of) => add(of, record[at], format!("{form}.{}", slot.name)),
            Holds::Start(pool) => {
                let of = handles_in(pool);
                for (place, &word) in run(module.area(pool), &record[at..]).iter().enumerate() {
                    add(of, word, format!("{pool}[{place}]"));
                }
            }
            Holds::Count(_) => {}
        }
    }
    found
}

/// The area that a pool's words are handles of.
fn handles_in(pool: Area) -> Area {
    match pool {
        Area::Members => Area::Types,
        _ => Area::Expressions,
    }
}

/// The run whose start and count come first in `words`.
fn run<'a>(pool: &'a [u32], words: &[u32]) -> &'a [u32] {
    let (start, count) = (words[0] as usize, words[1] as usize);
    pool.get(start..start.saturating_add(count))
        .unwrap_or_default()
}

/// Why an element is a root.
#[derive(Clone, Copy, Debug, PartialEq, Eq)]
pub enum Reason {
    /// The mention at this place names it.
    Mention(usize),
    /// It is a constant with a name, and this is its type, which isn't abstract.
    NamedConstant(Element),
    /// It is a global, and unused ones are kept.
    Global,
    /// It is an override with a name, and unused ones are kept.
    NamedOverride,
    /// It is a type with a name, and unused ones are kept.
    NamedType,
}

/// The roots of an accepted module: what is mentioned, in that order, then area by area.
pub fn roots(module: &Module, keep_unused: KeepUnused) -> Vec<(Element, Reason)> {
    let mentions = module.mentions.chunks_exact(Area::Mentions.width());
    let mentioned = mentions.enumerate().filter_map(|(place, words)| {
        let element = Element::new(Area::from_code(words[0])?, words[1])?;
        Some((element, Reason::Mention(place)))
    });
    let own = elements(module)
        .filter_map(|element| Some((element, own_reason(module, keep_unused, element)?)));
    mentioned.chain(own).collect()
}

/// Why an element is a root by itself.
fn own_reason(module: &Module, keep_unused: KeepUnused, element: Element) -> Option<Reason> {
    let record = module.record(element.area(), element.index())?;
    let yes = keep_unused == KeepUnused::Yes;
    match element {
        Element::Type(_) => (yes && record[1] & 1 != 0).then_some(Reason::NamedType),
        Element::Constant(_) => {
            let ty = Element::new(Area::Types, record[1])?;
            let flags = module.record(Area::Types, record[1])?[1];
            (record[0] == 1 && flags & 2 == 0).then_some(Reason::NamedConstant(ty))
        }
        Element::Override(_) => (yes && record[0] == 1).then_some(Reason::NamedOverride),
        Element::Global(_) => yes.then_some(Reason::Global),
        Element::Expression(_) => None,
    }
}

/// All elements of a module, area by area.
pub fn elements(module: &Module) -> impl Iterator<Item = Element> + '_ {
    ARENAS.into_iter().flat_map(|area| {
        let handles = (0..).take(module.count(area));
        handles.filter_map(move |handle| Element::new(area, handle))
    })
}

/// How the search first came to an element.
#[derive(Clone, Debug, PartialEq, Eq)]
pub enum Cause {
    /// It is a root.
    Root(Reason),
    /// This element refers to it by this slot.
    Reference(Element, String),
}

/// What the roots lead to, and how.
pub struct Reached {
    causes: [Vec<Option<Cause>>; 5],
}

impl Reached {
    /// Searches from the roots, nearest first, so that each element gets a shortest way to it.
    pub fn search(module: &Module, keep_unused: KeepUnused) -> Self {
        let mut reached = Self {
            causes: ARENAS.map(|area| vec![None; module.count(area)]),
        };
        let mut queue = VecDeque::new();
        for (root, reason) in roots(module, keep_unused) {
            reached.note(root, Cause::Root(reason), &mut queue);
        }
        while let Some(from) = queue.pop_front() {
            for Reference { to, by } in references(module, from) {
                reached.note(to, Cause::Reference(from, by), &mut queue);
            }
        }
        reached
    }

    fn note(&mut self, element: Element, cause: Cause, queue: &mut VecDeque<Element>) {
        let place = self.causes[element.area() as usize].get_mut(element.index() as usize);
        if let Some(unset @ None) = place {
            *unset = Some(cause);
            queue.push_back(element);
        }
    }

    /// How the search came to an element, if it did.
    pub fn cause(&self, element: Element) -> Option<&Cause> {
        let causes = &self.causes[element.area() as usize];
        causes.get(element.index() as usize)?.as_ref()
    }

    /// The first element that was reached and dropped, or not reached and kept.
    pub fn disagrees(&self, module: &Module, maps: &Maps) -> Option<Element> {
        elements(module).find(|&element| self.cause(element).is_some() != kept(maps, element))
    }
}

/// Whether a pass kept an element.
pub fn kept(maps: &Maps, element: Element) -> bool {
    let map = maps.words()[element.area() as usize];
    map.get(element.index() as usize)
        .is_some_and(|&new| new != N)
}
