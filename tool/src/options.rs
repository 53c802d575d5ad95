//! Options: names, values, and what is said of them. Help, manual page and completions are made from these.

/// An option that a command knows.
#[derive(Clone, Copy)]
pub struct Opt {
    /// With its two dashes.
    pub name: &'static str,
    /// Its short form, with one dash.
    pub short: &'static str,
    /// The value that follows, as the next word or after `=`.
    pub value: Option<Value>,
    /// What it does, in one sentence without a full stop.
    pub help: &'static str,
}

/// The value of an option.
#[derive(Clone, Copy)]
pub struct Value {
    /// As help names it.
    pub name: &'static str,
    pub kind: Kind,
}

/// What a value is, for completions.
#[derive(Clone, Copy, Debug, PartialEq, Eq)]
pub enum Kind {
    Plain,
    File,
    Folder,
}

/// An option without a value.
pub const fn flag(name: &'static str, help: &'static str) -> Opt {
    Opt { name, short: "", value: None, help }
}

/// An option with a value that is not a path.
pub const fn value(name: &'static str, value: &'static str, help: &'static str) -> Opt {
    Opt { name, short: "", value: Some(Value { name: value, kind: Kind::Plain }), help }
}

/// An option that names a file.
pub const fn file(name: &'static str, value: &'static str, help: &'static str) -> Opt {
    Opt { name, short: "", value: Some(Value { name: value, kind: Kind::File }), help }
}

/// The options of every command.
pub const COMMON: [Opt; 3] = [
    Opt {
        name: "--quiet",
        short: "-q",
        value: None,
        help: "no progress, notes and summaries; failures are still told",
    },
    flag("--json", "one JSON object in one line on standard output, of failures too"),
    Opt { name: "--help", short: "-h", value: None, help: "help of the command" },
];

/// Where the outputs of many files go.
pub const INTO: Opt = Opt {
    name: "--into",
    short: "",
    value: Some(Value { name: "FOLDER", kind: Kind::Folder }),
    help: "every file named is an input; outputs go to FOLDER, which is made if it is not there",
};

pub const JOBS: Opt = value(
    "--jobs",
    "N",
    "how many files are worked on at once, 1 to 256; as many as there are cores if not given",
);

pub const BLOCK_SIZE: Opt = value(
    "--block-size",
    "BYTES",
    "bytes of a block, 8 to 65,536, cut down to a multiple of 8; 8,192 if not given",
);

pub const LENIENT: Opt = flag(
    "--lenient",
    "mends fields of a .dsp file that carry no sound, and tells each: those of a loop where there is none, the start address 0, and bytes 74 \
     to 95 unless they say that there are several channels",
);

pub const FORCE: Opt = flag(
    "--force",
    "writes over an input, a recording, a file of another kind, or one that is marked read-only",
);

pub const DROP_LOOP: Opt = flag("--drop-loop", "leaves loops out; OUT has none");

pub const RAW: Opt = flag("--raw", "IN has no head: 16-bit little-endian samples");

pub const IGNORE_LENGTH: Opt = flag(
    "--ignore-length",
    "reads a WAV file's samples to the end of the file, whatever length it says",
);
