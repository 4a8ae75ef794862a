//! The functions of include/vcube.h and the form of each argument, as the header declares them. All that is done with every call goes by
//! these: record and printing.

use std::sync::LazyLock;

const HEADER: &str = include_str!("../../../../include/vcube.h");

/// What an argument is. Its letter is that of the record (module `record`).
#[derive(Clone, Copy, Debug, PartialEq, Eq)]
pub struct Form {
    pub letter: u8,
    /// The bytes of one item: of the number, or of those that stand at the pointer.
    pub width: usize,
}

#[derive(Debug)]
pub struct Argument {
    pub name: &'static str,
    pub form: Form,
    /// How many stand at the pointer, where it is no list.
    pub items: usize,
}

#[derive(Debug)]
pub struct Function {
    pub name: &'static str,
    pub arguments: Vec<Argument>,
}

impl Form {
    fn new(letter: u8) -> Form {
        let width = match letter.to_ascii_lowercase() {
            b'b' => 1,
            b'r' => 2,
            b'w' | b'i' => 4,
            _ => 8,
        };
        Form { letter, width }
    }

    pub fn is_number(self) -> bool {
        matches!(self.letter, b'n' | b'w')
    }

    /// Whether the call may read it only.
    pub fn is_read_only(self) -> bool {
        self.letter.is_ascii_uppercase()
    }

    /// Whether it points at a number or a struct that the call writes.
    pub fn is_place(self) -> bool {
        matches!(self.letter, b's' | b'i' | b't')
    }

    /// Whether it is a list, whose length is handed over behind the pointer.
    pub fn is_list(self) -> bool {
        matches!(self.letter, b'b' | b'B' | b'r' | b'R')
    }
}

/// All functions that give the number of a refusal.
pub fn functions() -> &'static [Function] {
    static FUNCTIONS: LazyLock<Vec<Function>> = LazyLock::new(|| {
        let declared = HEADER.split("\nuint8_t ").skip(1);
        declared
            .map(|text| {
                function(text)
                    .unwrap_or_else(|| panic!("not understood in the header: {text:.200}"))
            })
            .collect()
    });
    &FUNCTIONS
}

pub fn function_named(name: &str) -> Option<&'static Function> {
    functions().iter().find(|function| function.name == name)
}

fn function(text: &'static str) -> Option<Function> {
    let (name, behind) = text.split_once('(')?;
    let (inside, _) = behind.split_once(");")?;
    let mut declared = inside.split(',').map(str::trim);
    let mut arguments = Vec::new();
    while let Some(text) = declared.next() {
        let argument = argument(text)?;
        if argument.form.is_list() && !declared.next()?.ends_with("length") {
            return None;
        }
        arguments.push(argument);
    }
    Some(Function { name, arguments })
}

fn argument(text: &'static str) -> Option<Argument> {
    let (kind, name) = text.rsplit_once(' ')?;
    let letter = match (kind, name.starts_with('*')) {
        ("size_t", false) => b'n',
        ("uint32_t", false) => b'w',
        ("uint8_t", true) => b'b',
        ("const uint8_t", true) => b'B',
        ("const uint16_t", true) => b'R',
        ("size_t", true) => b's',
        ("uint32_t", true) => b'i',
        ("struct vcube_totals" | "struct vcube_figures", true) => b't',
        ("const struct vcube_totals", true) => b'T',
        _ => return None,
    };
    let items = match kind {
        "struct vcube_totals" => 5,
        "struct vcube_figures" => 7,
        _ => 1,
    };
    Some(Argument { name: name.trim_start_matches('*'), form: Form::new(letter), items })
}
