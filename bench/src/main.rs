//! A plain reader and writer of terms, to compare speeds with.
//!
//!     plain_terms read|write|both REPEAT FILE
//!     plain_terms frames
//!
//! FILE holds the bytes of one term. The term is read (and let go) or written
//! REPEAT times, and the bytes per second are printed. `frames` answers the
//! frames of the standard input, so that the reader measured here can be
//! compared with the reference in tests/.

use std::hint::black_box;
use std::io::{Read, Write};
use std::process::ExitCode;
use std::time::Instant;

const LEVELS: u32 = 200;
const NODES: usize = 2048;
const INPUT: u64 = 32_768;
const OUTPUT: usize = 65_536;
const CODES: u8 = 32;

#[derive(Clone, Copy, Debug, PartialEq, Eq)]
enum Refusal {
    Ends = 1,
    Unlisted = 2,
    Number = 3,
    Level = 4,
    Members = 5,
    NotIssued = 6,
    Nodes = 7,
}

#[derive(Clone, Copy)]
enum Reference {
    Shared,
    Mutable,
}

#[derive(Clone, Copy)]
enum Collection {
    ReadOnly,
    Mutable,
}

struct Nominal {
    declaration: u32,
    arguments: Vec<Term>,
    /// With strictly rising numbers.
    members: Vec<(u32, Term)>,
}

enum Term {
    Reference(Reference, Box<Term>),
    Inference(u32),
    Unknown,
    Error,
    Builtin(u8),
    Tuple(Vec<Term>),
    Function {
        parameters: Vec<Term>,
        result: Box<Term>,
    },
    Iter(Box<Term>),
    Range(u8, Box<Term>),
    Array(Box<Term>),
    Map {
        access: Collection,
        key: Box<Term>,
        value: Box<Term>,
    },
    Set(Collection, Box<Term>),
    NativeObject(Nominal),
    Struct(Nominal),
    Enum(Nominal),
    Trait(Nominal),
    Host(u32),
    Generic {
        owner: u32,
        position: u32,
    },
    Projection {
        receiver: Box<Term>,
        interface: Box<Nominal>,
        member: u32,
        arguments: Vec<Term>,
    },
    SelfType(u32),
}

// Reading

struct Reader<'a> {
    bytes: &'a [u8],
    at: usize,
    issued: u32,
    nodes: usize,
}

type Reading<T> = Result<T, Refusal>;

impl<'a> Reader<'a> {
    fn new(bytes: &'a [u8], issued: u32) -> Self {
        Reader { bytes, at: 0, issued, nodes: 0 }
    }

    fn byte(&mut self) -> Reading<u8> {
        let byte = *self.bytes.get(self.at).ok_or(Refusal::Ends)?;
        self.at += 1;
        Ok(byte)
    }

    fn number(&mut self) -> Reading<u32> {
        let first = self.byte()?;
        if first < 0x80 {
            return Ok(u32::from(first));
        }
        let mut value = u32::from(first & 0x7f);
        for shift in [7, 14, 21] {
            let byte = self.byte()?;
            value |= u32::from(byte & 0x7f) << shift;
            if byte == 0 {
                return Err(Refusal::Number);
            }
            if byte < 0x80 {
                return Ok(value);
            }
        }
        match self.byte()? {
            byte @ 1..=0x0f => Ok(value | u32::from(byte) << 28),
            _ => Err(Refusal::Number),
        }
    }

    fn below(&mut self, limit: u8) -> Reading<u8> {
        let byte = self.byte()?;
        if byte < limit {
            Ok(byte)
        } else {
            Err(Refusal::Unlisted)
        }
    }

    fn reference(&mut self) -> Reading<Reference> {
        match self.byte()? {
            0 => Ok(Reference::Shared),
            1 => Ok(Reference::Mutable),
            _ => Err(Refusal::Unlisted),
        }
    }

    fn collection(&mut self) -> Reading<Collection> {
        match self.byte()? {
            0 => Ok(Collection::ReadOnly),
            1 => Ok(Collection::Mutable),
            _ => Err(Refusal::Unlisted),
        }
    }

    /// An empty list with room for as many items as the bytes left allow.
    fn room<T>(&self, count: u32) -> Vec<T> {
        Vec::with_capacity((count as usize).min(self.bytes.len() - self.at))
    }

    fn terms(&mut self, level: u32) -> Reading<Vec<Term>> {
        let count = self.number()?;
        let mut terms = self.room(count);
        for _ in 0..count {
            terms.push(self.term(level)?);
        }
        Ok(terms)
    }

    fn nominal(&mut self, level: u32) -> Reading<Nominal> {
        let declaration = self.number()?;
        let arguments = self.terms(level)?;
        let count = self.number()?;
        let mut members: Vec<(u32, Term)> = self.room(count);
        for _ in 0..count {
            let member = self.number()?;
            if members.last().is_some_and(|(last, _)| member <= *last) {
                return Err(Refusal::Members);
            }
            members.push((member, self.term(level)?));
        }
        Ok(Nominal { declaration, arguments, members })
    }

    fn boxed(&mut self, level: u32) -> Reading<Box<Term>> {
        self.term(level).map(Box::new)
    }

    fn term(&mut self, level: u32) -> Reading<Term> {
        if level > LEVELS {
            return Err(Refusal::Level);
        }
        let below = level + 1;
        let tag = self.byte()?;
        self.nodes += 1;
        Ok(match tag {
            0 => Term::Reference(self.reference()?, self.boxed(below)?),
            1 => {
                let id = self.number()?;
                if id >= self.issued {
                    return Err(Refusal::NotIssued);
                }
                Term::Inference(id)
            }
            2 => Term::Unknown,
            3 => Term::Error,
            4 => Term::Builtin(self.below(CODES)?),
            5 => Term::Tuple(self.terms(below)?),
            6 => Term::Function {
                parameters: self.terms(below)?,
                result: self.boxed(below)?,
            },
            7 => Term::Iter(self.boxed(below)?),
            8 => Term::Range(self.below(4)?, self.boxed(below)?),
            9 => Term::Array(self.boxed(below)?),
            10 => Term::Map {
                access: self.collection()?,
                key: self.boxed(below)?,
                value: self.boxed(below)?,
            },
            11 => Term::Set(self.collection()?, self.boxed(below)?),
            12 => Term::NativeObject(self.nominal(below)?),
            13 => Term::Struct(self.nominal(below)?),
            14 => Term::Enum(self.nominal(below)?),
            15 => Term::Trait(self.nominal(below)?),
            16 => Term::Host(self.number()?),
            17 => Term::Generic {
                owner: self.number()?,
                position: self.number()?,
            },
            18 => Term::Projection {
                receiver: self.boxed(below)?,
                interface: Box::new(self.nominal(below)?),
                member: self.number()?,
                arguments: self.terms(below)?,
            },
            19 => Term::SelfType(self.number()?),
            _ => return Err(Refusal::Unlisted),
        })
    }

    /// Nothing is left over, and the nodes are not too many.
    fn finish(&self) -> Reading<()> {
        if self.at < self.bytes.len() {
            Err(Refusal::Ends)
        } else if self.nodes > NODES {
            Err(Refusal::Nodes)
        } else {
            Ok(())
        }
    }
}

fn read_term(bytes: &[u8], issued: u32) -> Reading<Term> {
    let mut reader = Reader::new(bytes, issued);
    let term = reader.term(1)?;
    reader.finish()?;
    Ok(term)
}

// Writing

fn write_number(mut value: u32, out: &mut Vec<u8>) {
    while value >= 0x80 {
        out.push(value as u8 | 0x80);
        value >>= 7;
    }
    out.push(value as u8);
}

fn write_terms(terms: &[Term], out: &mut Vec<u8>) {
    write_number(terms.len() as u32, out);
    for term in terms {
        term.write(out);
    }
}

impl Nominal {
    fn write(&self, out: &mut Vec<u8>) {
        write_number(self.declaration, out);
        write_terms(&self.arguments, out);
        write_number(self.members.len() as u32, out);
        for (member, term) in &self.members {
            write_number(*member, out);
            term.write(out);
        }
    }

    fn tokens(&self) -> usize {
        let members = self.members.iter().map(|(_, term)| 1 + term.tokens());
        3 + tokens_of(&self.arguments) + members.sum::<usize>()
    }
}

fn tokens_of(terms: &[Term]) -> usize {
    terms.iter().map(Term::tokens).sum()
}

impl Term {
    fn write(&self, out: &mut Vec<u8>) {
        match self {
            Term::Reference(access, target) => {
                out.extend([0, *access as u8]);
                target.write(out);
            }
            Term::Inference(id) => {
                out.push(1);
                write_number(*id, out);
            }
            Term::Unknown => out.push(2),
            Term::Error => out.push(3),
            Term::Builtin(code) => out.extend([4, *code]),
            Term::Tuple(items) => {
                out.push(5);
                write_terms(items, out);
            }
            Term::Function { parameters, result } => {
                out.push(6);
                write_terms(parameters, out);
                result.write(out);
            }
            Term::Iter(item) => {
                out.push(7);
                item.write(out);
            }
            Term::Range(kind, item) => {
                out.extend([8, *kind]);
                item.write(out);
            }
            Term::Array(item) => {
                out.push(9);
                item.write(out);
            }
            Term::Map { access, key, value } => {
                out.extend([10, *access as u8]);
                key.write(out);
                value.write(out);
            }
            Term::Set(access, item) => {
                out.extend([11, *access as u8]);
                item.write(out);
            }
            Term::NativeObject(nominal) => {
                out.push(12);
                nominal.write(out);
            }
            Term::Struct(nominal) => {
                out.push(13);
                nominal.write(out);
            }
            Term::Enum(nominal) => {
                out.push(14);
                nominal.write(out);
            }
            Term::Trait(nominal) => {
                out.push(15);
                nominal.write(out);
            }
            Term::Host(definition) => {
                out.push(16);
                write_number(*definition, out);
            }
            Term::Generic { owner, position } => {
                out.push(17);
                write_number(*owner, out);
                write_number(*position, out);
            }
            Term::Projection { receiver, interface, member, arguments } => {
                out.push(18);
                receiver.write(out);
                interface.write(out);
                write_number(*member, out);
                write_terms(arguments, out);
            }
            Term::SelfType(owner) => {
                out.push(19);
                write_number(*owner, out);
            }
        }
    }

    fn tokens(&self) -> usize {
        match self {
            Term::Inference(_) | Term::Unknown | Term::Error => 1,
            Term::Builtin(_) | Term::Host(_) | Term::SelfType(_) => 2,
            Term::Generic { .. } => 3,
            Term::Iter(item) | Term::Array(item) => 1 + item.tokens(),
            Term::Reference(_, item) | Term::Range(_, item) | Term::Set(_, item) => 2 + item.tokens(),
            Term::Map { key, value, .. } => 2 + key.tokens() + value.tokens(),
            Term::Tuple(items) => 2 + tokens_of(items),
            Term::Function { parameters, result } => 2 + tokens_of(parameters) + result.tokens(),
            Term::NativeObject(nominal)
            | Term::Struct(nominal)
            | Term::Enum(nominal)
            | Term::Trait(nominal) => 1 + nominal.tokens(),
            Term::Projection { receiver, interface, arguments, .. } => {
                3 + receiver.tokens() + interface.tokens() + tokens_of(arguments)
            }
        }
    }
}

// Frames

fn frame_value(frame: &[u8]) -> Reading<Vec<u8>> {
    let mut reader = Reader::new(frame, 0);
    let mut value = Vec::new();
    let kind = reader.below(3)?;
    if kind == 2 {
        let number = reader.number()?;
        reader.finish()?;
        write_number(number, &mut value);
        return Ok(value);
    }
    reader.issued = reader.number()?;
    let mut written = Vec::new();
    let tokens = if kind == 0 {
        let term = reader.term(1)?;
        term.write(&mut written);
        term.tokens()
    } else {
        let nominal = reader.nominal(1)?;
        nominal.write(&mut written);
        1 + nominal.tokens()
    };
    reader.finish()?;
    write_number(reader.nodes as u32, &mut value);
    write_number(tokens as u32, &mut value);
    value.extend(written);
    Ok(value)
}

fn answers(input: &[u8]) -> Vec<u8> {
    let mut out = Vec::new();
    let mut lengths = Reader::new(input, 0);
    while let Ok(length) = lengths.number() {
        let Some(frame) = input[lengths.at..].get(..length as usize) else {
            break;
        };
        lengths.at += frame.len();
        let mut value = Vec::new();
        match frame_value(frame) {
            Ok(found) => {
                value.push(0);
                value.extend(found);
            }
            Err(refusal) => value.push(refusal as u8),
        }
        let mut answer = Vec::new();
        write_number(value.len() as u32, &mut answer);
        answer.extend(value);
        if out.len() + answer.len() > OUTPUT {
            break;
        }
        out.extend(answer);
    }
    out
}

// Measuring

fn report(what: &str, bytes: usize, repeat: u32, start: Instant) {
    let rate = bytes as f64 * f64::from(repeat) / start.elapsed().as_secs_f64();
    println!("{what} {rate:.0} bytes/s");
}

fn measure(mode: &str, repeat: u32, bytes: &[u8]) -> Result<(), String> {
    let term = read_term(bytes, u32::MAX).map_err(|refusal| format!("refusal {}", refusal as u8))?;
    let mut out = Vec::new();
    term.write(&mut out);
    if out != bytes {
        return Err("the term is not written as it was read".to_string());
    }
    if mode != "write" {
        let start = Instant::now();
        for _ in 0..repeat {
            let _ = black_box(read_term(black_box(bytes), u32::MAX));
        }
        report("read", bytes.len(), repeat, start);
    }
    if mode != "read" {
        let start = Instant::now();
        for _ in 0..repeat {
            out.clear();
            black_box(&term).write(&mut out);
            black_box(&out);
        }
        report("write", bytes.len(), repeat, start);
    }
    Ok(())
}

fn run(words: &[String]) -> Result<(), String> {
    match words {
        [mode] if mode == "frames" => {
            let mut input = Vec::new();
            let read = std::io::stdin().take(INPUT).read_to_end(&mut input);
            read.and_then(|_| std::io::stdout().write_all(&answers(&input)))
                .map_err(|error| error.to_string())
        }
        [mode, repeat, file] if ["read", "write", "both"].contains(&mode.as_str()) => {
            let repeat = repeat.parse().map_err(|_| "REPEAT is a number".to_string())?;
            let bytes = std::fs::read(file).map_err(|error| error.to_string())?;
            measure(mode, repeat, &bytes)
        }
        _ => Err("plain_terms read|write|both REPEAT FILE, or plain_terms frames".to_string()),
    }
}

fn main() -> ExitCode {
    let words: Vec<String> = std::env::args().skip(1).collect();
    match run(&words) {
        Ok(()) => ExitCode::SUCCESS,
        Err(text) => {
            eprintln!("{text}");
            ExitCode::FAILURE
        }
    }
}
