//! The arguments and the help.

use crate::{
    failure::{quoted, Failure},
    format::{singular, ARENAS},
};
use cadnohal::{Element, KeepUnused};
use std::{
    ffi::{OsStr, OsString},
    fmt,
    path::PathBuf,
};

/// Where a module's text comes from.
#[derive(Clone, Debug, PartialEq, Eq)]
pub enum Source {
    /// Standard input.
    Input,
    /// A file.
    File(PathBuf),
}

impl fmt::Display for Source {
    fn fmt(&self, f: &mut fmt::Formatter<'_>) -> fmt::Result {
        match self {
            Self::Input => f.write_str("<stdin>"),
            Self::File(path) => path.display().fmt(f),
        }
    }
}

/// What the arguments ask for.
#[derive(Clone, Debug, PartialEq, Eq)]
pub enum Request {
    /// A text that needs no module: help or version.
    Say(String),
    /// `compact`.
    Compact {
        keep_unused: KeepUnused,
        maps: bool,
        source: Source,
    },
    /// `check`.
    Check { source: Source },
    /// `why`.
    Why {
        keep_unused: KeepUnused,
        source: Source,
        element: Element,
    },
    /// `graph`.
    Graph {
        keep_unused: KeepUnused,
        source: Source,
    },
}

const HELP: &str = "\
cadnohal compacts flat shader modules.

usage: cadnohal compact [--keep-unused] [--maps] FILE|-
       cadnohal check FILE|-
       cadnohal why [--keep-unused] FILE|- ELEMENT
       cadnohal graph [--keep-unused] FILE|-

  compact    write the module without what nothing needs
  check      say whether the module would be accepted
  why        say why an element is kept
  graph      draw who refers to whom, for Graphviz

  --help     this text; after a command, more about it
  --version  the version, and the ABI of its library

FILE is a module's text; - is standard input.

exit status: 0 done
             1 refused; the refusal is on standard error
             2 bad usage, or a text that can't be read or written
             3 this program and its library disagree
";

const HELP_COMPACT: &str = "\
usage: cadnohal compact [--keep-unused] [--maps] FILE|-

Compacts a module and writes what was kept, in the format that it reads. A
comment gives each record's new handle.

  --keep-unused  globals, named overrides and named types are roots too
  --maps         also write the five maps, as comments: at each old handle
                 the new one, or N where the record was dropped
";

const HELP_CHECK: &str = "\
usage: cadnohal check FILE|-

Writes 'accepted' if a pass would accept the module. Otherwise the refusal is
on standard error and the exit status is 1.
";

const HELP_WHY: &str = "\
usage: cadnohal why [--keep-unused] FILE|- ELEMENT

Writes the shortest chain of references from a root to an element, or that
there is none. An element is type:3, constant:0, override:1, global:2 or
expression:7.

  --keep-unused  globals, named overrides and named types are roots too
";

const HELP_GRAPH: &str = "\
usage: cadnohal graph [--keep-unused] FILE|-

Writes a graph for Graphviz: kept elements filled, dropped ones dashed, roots
with a double line, an edge for each reference.

  --keep-unused  globals, named overrides and named types are roots too
";

/// A command: its name, help, operands, and whether it has --keep-unused and --maps.
struct Command {
    name: &'static str,
    help: &'static str,
    operands: &'static [&'static str],
    keep_unused: bool,
    maps: bool,
}

static COMMANDS: [Command; 4] = [
    Command {
        name: "compact",
        help: HELP_COMPACT,
        operands: &["FILE"],
        keep_unused: true,
        maps: true,
    },
    Command {
        name: "check",
        help: HELP_CHECK,
        operands: &["FILE"],
        keep_unused: false,
        maps: false,
    },
    Command {
        name: "why",
        help: HELP_WHY,
        operands: &["FILE", "ELEMENT"],
        keep_unused: true,
        maps: false,
    },
    Command {
        name: "graph",
        help: HELP_GRAPH,
        operands: &["FILE"],
        keep_unused: true,
        maps: false,
    },
];

/// Reads the arguments after the program's name.
pub fn parse(arguments: impl IntoIterator<Item = OsString>) -> Result<Request, Failure> {
    let mut arguments = arguments.into_iter();
    let Some(first) = arguments.next() else {
        return Err(unusable("a command is missing", ""));
    };
    match first.to_str() {
        Some("--help" | "-h") => return Ok(Request::Say(HELP.into())),
        Some("--version" | "-V") => {
            let version = env!("CARGO_PKG_VERSION");
            let abi = cadnohal::abi();
            return Ok(Request::Say(format!("cadnohal {version}, ABI {abi}\n")));
        }
        _ => {}
    }
    match COMMANDS.iter().find(|command| first == command.name) {
        Some(command) => command.parse(arguments),
        None => Err(unusable(
            &format!("there is no command {}", shown(&first)),
            "",
        )),
    }
}

/// Bad usage, with where to find help.
fn unusable(what: &str, command: &str) -> Failure {
    let space = if command.is_empty() { "" } else { " " };
    Failure::Unusable(format!(
        "cadnohal: {what}; see cadnohal{space}{command} --help"
    ))
}

fn shown(argument: &OsStr) -> String {
    quoted(&argument.to_string_lossy())
}

impl Command {
    fn parse(&self, arguments: impl Iterator<Item = OsString>) -> Result<Request, Failure> {
        let mut keep_unused = KeepUnused::No;
        let mut maps = false;
        let mut operands = Vec::new();
        let mut options = true;
        for argument in arguments {
            match argument.to_str() {
                Some("--") if options => options = false,
                Some("--help" | "-h") if options => return Ok(Request::Say(self.help.into())),
                Some("--keep-unused") if options && self.keep_unused => {
                    keep_unused = KeepUnused::Yes;
                }
                Some("--maps") if options && self.maps => maps = true,
                _ if options && argument != "-" && begins_with_dash(&argument) => {
                    let option = shown(&argument);
                    return Err(self.unusable(&format!("{} has no option {option}", self.name)));
                }
                _ => operands.push(argument),
            }
        }
        self.request(keep_unused, maps, operands)
    }

    /// The request, given all options and operands.
    fn request(
        &self,
        keep_unused: KeepUnused,
        maps: bool,
        operands: Vec<OsString>,
    ) -> Result<Request, Failure> {
        if let Some(missing) = self.operands.get(operands.len()) {
            return Err(self.unusable(&format!("{} needs {missing}", self.name)));
        }
        if let Some(extra) = operands.get(self.operands.len()) {
            return Err(self.unusable(&format!("{} is too many", shown(extra))));
        }
        let source = match &operands[0] {
            file if file == "-" => Source::Input,
            file => Source::File(file.into()),
        };
        Ok(match self.name {
            "compact" => Request::Compact {
                keep_unused,
                maps,
                source,
            },
            "check" => Request::Check { source },
            "why" => Request::Why {
                keep_unused,
                source,
                element: self.element(&operands[1])?,
            },
            _ => Request::Graph {
                keep_unused,
                source,
            },
        })
    }

    /// An element, as in `type:3`.
    fn element(&self, argument: &OsStr) -> Result<Element, Failure> {
        let element = argument.to_str().and_then(|text| {
            let (name, handle) = text.split_once(':')?;
            let area = ARENAS.into_iter().find(|&area| singular(area) == name)?;
            let digits = handle.bytes().all(|byte| byte.is_ascii_digit());
            Element::new(area, handle.parse().ok().filter(|_| digits)?)
        });
        let what = || format!("{} is no element", shown(argument));
        element.ok_or_else(|| self.unusable(&what()))
    }

    fn unusable(&self, what: &str) -> Failure {
        unusable(what, self.name)
    }
}

fn begins_with_dash(argument: &OsStr) -> bool {
    argument.as_encoded_bytes().first() == Some(&b'-')
}
