//! The one table of commands. Words are read by it, and help, the man page and the completions are made from it: a command that is to
//! be added gets a row in `COMMANDS`, and a function that takes what was given and answers with an exit status.

use crate::words::Given;
use crate::{calls, choose, completions, help, made, man, salvage, season, summary, what_if};
use std::ffi::OsStr;
use std::num::NonZeroUsize;

/// What runs a command: the exit status, or trouble with a file, which is said and has status 1.
pub type Run = fn(&Given) -> Result<u8, String>;

pub struct Command {
    pub name: &'static str,
    pub args: &'static [Arg],
    pub options: &'static [Opt],
    /// What it does, in the list of commands.
    pub brief: &'static str,
    /// What `help` says beside that, a paragraph each.
    pub more: &'static [&'static str],
    pub examples: &'static [&'static str],
    pub run: Run,
}

/// A word that is no option.
pub struct Arg {
    pub name: &'static str,
    pub times: Times,
    pub what: What,
}

/// How often a word stands.
pub enum Times {
    Once,
    Maybe,
    /// Once or more often; it is the last.
    Several,
    /// Any number of words, which together are one; it is the last.
    Rest,
}

/// What a word is: that is what a shell completes it to.
#[derive(Clone, Copy)]
pub enum What {
    /// The name of a file, or - for standard input.
    File,
    /// A text of the file's, which may begin with a hyphen.
    Text,
    /// One of these.
    Word(&'static [&'static str]),
    /// A number.
    Number,
}

pub struct Opt {
    pub name: &'static str,
    pub value: Option<Value>,
    /// It has to be given.
    pub required: bool,
    /// It can't be given twice; of others the last one counts.
    pub once: bool,
    pub help: &'static str,
}

/// What stands behind an option.
pub struct Value {
    pub name: &'static str,
    pub what: What,
    /// What is said where it is missing or does not fit.
    pub wants: &'static str,
    pub fits: fn(&OsStr) -> bool,
}

impl Opt {
    /// As it stands in a line of usage.
    pub fn shown(&self) -> String {
        self.value.as_ref().map_or_else(|| self.name.to_owned(), |value| format!("{} {}", self.name, value.name))
    }
}

impl Arg {
    /// As it stands in a line of usage.
    pub fn shown(&self) -> String {
        match self.times {
            Times::Once => self.name.to_owned(),
            Times::Several => format!("{}...", self.name),
            Times::Maybe | Times::Rest => format!("[{}]", self.name),
        }
    }
}

impl Command {
    pub fn of(name: &OsStr) -> Option<&'static Command> {
        COMMANDS.iter().find(|command| name == command.name)
    }

    /// Its line of usage behind the command's own name.
    pub fn usage(&self) -> String {
        let args = self.args.iter().map(Arg::shown);
        let options = self.options.iter().map(|o| if o.required { o.shown() } else { format!("[{}]", o.shown()) });
        [self.name.to_owned()].into_iter().chain(args).chain(options).collect::<Vec<_>>().join(" ")
    }
}

pub const NAME: &str = "urzulempa";
pub const ABOUT: &str = "why a load of packages has no solution, from a file of clause records";

/// What holds for all commands.
pub const NOTES: &[&str] = &[
    "FILE, LIST, PATH and a REPORT to be joined may be - for standard input. An option may stand anywhere; its value is the next word, or behind = as in --room=4096. Words behind -- are no options.",
    "Text goes to standard output, everything else to standard error. Of several files each line on standard error begins with the file's name, and the exit status is the highest; season counts refused files instead.",
    "On a terminal refusals are red, unless NO_COLOR is set.",
];

pub const STATUSES: &[(u8, &str)] = &[
    (crate::say::DONE, "done; explain says on standard error if there was nothing to explain"),
    (crate::say::TROUBLE, "trouble with a file"),
    (crate::say::REFUSED, "refused; the number, from 1 to 18, is said on standard error"),
    (crate::say::USAGE, "wrong usage"),
];

const FILE: Arg = Arg { name: "FILE", times: Times::Once, what: What::File };
const FILES: Arg = Arg { name: "FILE", times: Times::Several, what: What::File };

const fn flag(name: &'static str, help: &'static str) -> Opt {
    Opt { name, value: None, required: false, once: false, help }
}

const INDENT: Opt = flag("--indent", "indent the top level: the default");
const NO_INDENT: Opt = flag("--no-indent", "leave the top level flat; of the two the last one counts");
const JSON: Opt = flag("--json", "print one JSON object a file, refusals too");
const FORCE: Opt = flag("--force", "write over the file that is read");
const REPORT_JSON: Opt = flag("--json", "print the report as one JSON object, refusals too");
const ROOM: Opt = room("the most bytes of text: 1048576 by default on a terminal, else 67108864");
const EDITION: Opt = Opt {
    name: "--edition",
    value: Some(Value { name: "E", what: What::Word(&["1", "2"]), wants: "1 or 2", fits: |value| value == "1" || value == "2" }),
    required: false,
    once: false,
    help: "1, the Rust's rules and the default, by which a text may have no end, or 2, by which every package is shown once and a text always ends",
};
const SETTINGS: Opt = Opt {
    name: "--settings",
    value: Some(Value { name: "SET", what: What::File, wants: "the name of one file", fits: |_| true }),
    required: false,
    once: true,
    help: "a settings file, whose settings are the defaults under the options that are given",
};

const JOBS: Opt = Opt {
    name: "--jobs",
    value: Some(Value {
        name: "J",
        what: What::Number,
        wants: "a number from 1",
        fits: |value| value.to_str().is_some_and(|n| n.parse::<NonZeroUsize>().is_ok()),
    }),
    required: false,
    once: false,
    help: "so many jobs work at once; as many as there are cores by default",
};
const SAVE: Opt = Opt {
    name: "--save",
    value: Some(Value { name: "OUT", what: What::File, wants: "the name of one file", fits: |value| value != "-" }),
    required: false,
    once: true,
    help: "the file to save the report in, whole or not at all; none that is read",
};

const fn room(help: &'static str) -> Opt {
    Opt {
        name: "--room",
        value: Some(Value {
            name: "N",
            what: What::Number,
            wants: "a number of bytes",
            fits: |value| value.to_str().is_some_and(|n| n.parse::<usize>().is_ok()),
        }),
        required: false,
        once: false,
        help,
    }
}

const fn out(name: &'static str) -> Opt {
    Opt {
        name: "-o",
        value: Some(Value { name, what: What::File, wants: "the name of one file", fits: |value| value != "-" }),
        required: true,
        once: true,
        help: "the file to write, whole or not at all; the one that is read only with --force",
    }
}

pub const COMMANDS: &[Command] = &[
    Command {
        name: "explain",
        args: &[FILES],
        options: &[
            INDENT,
            NO_INDENT,
            EDITION,
            flag("--air", "take only what is safe on air: a load without a lock in its core, without a cycle, and with at most 64 nodes; any other is refused with 15 to 17, and the text always ends"),
            ROOM,
            SETTINGS,
            JSON,
        ],
        brief: "the explanation, conflict.rs's to the byte",
        more: &["Packages that are alike share a line, with all their versions up to six, else the first three, ... and the last. Of a file that has nothing to explain that is said on standard error."],
        examples: &[
            "explain samples/replay.rec",
            "explain samples/deck-panel.rec --edition 2",
            "explain samples/replay.rec --air",
            "explain samples/deck-panel.rec --settings truck.set",
        ],
        run: calls::explain,
    },
    Command {
        name: "summary",
        args: &[FILES],
        options: &[JSON],
        brief: "what to mend: what nothing offers, what is excluded and why, and what clashes",
        more: &["One line a finding, from the graph of the conflict: requirements that nothing offers and who has them, packages that are excluded for a reason, packages of which only one can be installed, locks, constraints, and packages that need each other in a circle. Packages that are alike share a line."],
        examples: &["summary samples/rack.rec"],
        run: summary::run,
    },
    Command {
        name: "graph",
        args: &[FILE],
        options: &[
            flag("--simplify", "draw a merge group once: the default; how many packages each stands for is said on standard error"),
            flag("--no-simplify", "draw each package of it; of the two the last one counts"),
            ROOM,
            SETTINGS,
        ],
        brief: "the graph in the DOT language",
        more: &["A quote in a text has a backslash before it."],
        examples: &["graph samples/monitor.rec | dot -Tsvg > monitor.svg"],
        run: calls::graph,
    },
    Command {
        name: "nodes",
        args: &[FILES],
        options: &[JSON],
        brief: "the nodes, with their labels and groups and the clause behind each",
        more: &["Number, kind, what it names, first node of its group, labels, and the clause that first added it (65535: none) with its record."],
        examples: &["nodes samples/replay.rec"],
        run: calls::nodes,
    },
    Command {
        name: "edges",
        args: &[FILE, Arg { name: "PACKAGE", times: Times::Rest, what: What::Text }],
        options: &[JSON],
        brief: "the edges, oldest first, with the clause behind each",
        more: &["Each edge has the clause that added it and that clause's record. With PACKAGE (a name, or name and version) only the edges that touch it are listed."],
        examples: &["edges samples/rack.rec deck 3.1"],
        run: calls::edges,
    },
    Command {
        name: "what-if",
        args: &[FILE, Arg { name: "PACKAGE", times: Times::Once, what: What::Text }, Arg { name: "REASON", times: Times::Once, what: What::Text }],
        options: &[INDENT, NO_INDENT, ROOM, JSON],
        brief: "what would change if one more package were excluded",
        more: &["Which labels would change if this package were excluded for this reason too, and the explanation then. PACKAGE is a name, or name and version, REASON its text, in quotes where it has spaces; or each is # and its number, as in '#3'. Where a text means several, their numbers are listed."],
        examples: &["what-if samples/rack.rec 'driver 11' 'it was recalled'"],
        run: what_if::run,
    },
    Command {
        name: "check",
        args: &[FILES],
        options: &[JSON],
        brief: "looks for refusals 1 to 9; says nothing if there are none",
        more: &[],
        examples: &["check - < samples/rack.rec"],
        run: calls::check,
    },
    Command {
        name: "salvage",
        args: &[FILE],
        options: &[out("OUT"), FORCE, JSON],
        brief: "repairs a file that was cut or damaged",
        more: &["Drops the bytes behind the last whole record and puts an InstallRoot outside the core in the place of each damaged clause and each Learnt in the core; says what it replaced and what was wrong. OUT is written whole or not at all."],
        examples: &["salvage cut.rec -o mended.rec"],
        run: salvage::run,
    },
    Command {
        name: "settings",
        args: &[
            Arg { name: "SET", times: Times::Once, what: What::File },
            Arg { name: "NAME", times: Times::Maybe, what: What::Word(&["indent", "simplify", "edition"]) },
            Arg { name: "CONTENT", times: Times::Maybe, what: What::Number },
        ],
        options: &[],
        brief: "shows what a settings file says, or sets one of the settings",
        more: &["The settings are indent and simplify (0 or 1) and edition (1 or 2). With NAME and CONTENT one of them is set, by a record behind the others; SET is made where there is none."],
        examples: &["settings truck.set", "settings truck.set edition 2"],
        run: choose::run,
    },
    Command {
        name: "dump",
        args: &[FILE],
        options: &[],
        brief: "the file as a list that a person reads",
        more: &["One line a record, names instead of numbers (docs/FORMAT.md)."],
        examples: &["dump samples/replay.rec"],
        run: made::dump,
    },
    Command {
        name: "make",
        args: &[Arg { name: "LIST", times: Times::Once, what: What::File }],
        options: &[out("FILE"), FORCE],
        brief: "the file of such a list",
        more: &["The lines may stand in any order: make numbers them. A fault is told by its line, and nothing is written. A list has at most 1048576 bytes."],
        examples: &["make samples/replay.list -o replay.rec"],
        run: made::make,
    },
    Command {
        name: "export",
        args: &[FILE],
        options: &[ROOM],
        brief: "the graph for the wall display, in Trivial Graph Format",
        more: &["Nothing is merged."],
        examples: &["export samples/rack.rec > rack.tgf"],
        run: calls::export,
    },
    Command {
        name: "import",
        args: &[FILES],
        options: &[JSON],
        brief: "checks such a text: how many nodes and edges it has, or its first bad line",
        more: &[],
        examples: &["import rack.tgf"],
        run: calls::import,
    },
    Command {
        name: "season",
        args: &[Arg { name: "PATH", times: Times::Several, what: What::File }],
        options: &[JOBS, SAVE, EDITION, room("the most bytes of one file's text, which is not printed: 67108864 by default"), REPORT_JSON],
        brief: "the report of many files",
        more: &[
            "How many files were done, how many got each refusal, what their graphs and texts come to, and the deepest and the longest. A folder stands for all that lies in it, by name.",
            "A file that is refused is counted, and the exit status stays 0. One that can't be read is told and counted apart, with status 1.",
        ],
        examples: &["season samples/*.rec --save friday.report"],
        run: season::season,
    },
    Command {
        name: "join",
        args: &[Arg { name: "REPORT", times: Times::Several, what: What::File }],
        options: &[SAVE, REPORT_JSON],
        brief: "the report of several saved ones, one season behind the other",
        more: &["REPORT is what season saved. One that is damaged is refused with its first bad line, a joining by which a count would pass 64 bits with 14."],
        examples: &["join friday.report saturday.report"],
        run: season::join,
    },
    Command {
        name: "help",
        args: &[Arg { name: "COMMAND", times: Times::Maybe, what: What::Text }],
        options: &[],
        brief: "what the commands do, or all about one of them",
        more: &["COMMAND --help is the same."],
        examples: &["help explain"],
        run: help::run,
    },
    Command {
        name: "man",
        args: &[],
        options: &[],
        brief: "the manual page, for man",
        more: &["It is made from the table that the words are read by."],
        examples: &["man > urzulempa.1 && man -l urzulempa.1"],
        run: man::run,
    },
    Command {
        name: "completions",
        args: &[Arg { name: "SHELL", times: Times::Once, what: What::Word(completions::SHELLS) }],
        options: &[],
        brief: "what a shell needs to complete the words: bash, zsh or fish",
        more: &["Read it where the shell starts: in bash by source, in zsh from a folder of fpath as _urzulempa, in fish from its folder of completions."],
        examples: &["completions bash > urzulempa.bash && source urzulempa.bash"],
        run: completions::run,
    },
];
