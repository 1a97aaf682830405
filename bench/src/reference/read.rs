//! The reader: from scenario text to an encoded program with names.

use super::limits::*;
use super::token::{name, number, token, Name, Token};
use super::{Fault, Reply};

#[derive(Clone, Copy, PartialEq, Eq, PartialOrd, Ord)]
enum Kind {
    Pred,
    Func,
    Clause,
    Query,
}

/// The words and the names of a sound text.
pub fn read(text: &[u8]) -> Result<(Vec<u16>, Vec<u8>), Fault> {
    if text.len() > TEXT_BYTES {
        return Err((8, TEXT_BYTES));
    }
    let mut reader = Reader::default();
    let mut last = Kind::Pred;
    let mut at = 0;
    while last != Kind::Query {
        let length = text[at..].iter().position(|b| *b == b'\n').ok_or((1, text.len()))?;
        last = reader.line(&text[at..at + length], at, last)?;
        at += length + 1;
    }
    if at < text.len() {
        return Err((7, at));
    }
    let words = reader.words();
    if words.len() > WORDS {
        return Err((8, text.len()));
    }
    let names = [reader.predicates.names, reader.functions.names].concat().concat();
    Ok((words, names))
}

/// The reader over lent words and names.
pub fn read_into(text: &[u8], words: &mut [u16], names: &mut [u8]) -> Reply {
    words.fill(0);
    names.fill(0);
    let (read_words, read_names) = match read(text) {
        Ok(read) => read,
        Err(fault) => return Reply::refused(fault),
    };
    if read_words.len() > words.len() {
        return Reply::refused((9, words.len()));
    }
    if read_names.len() > names.len() {
        return Reply::refused((9, names.len()));
    }
    words[..read_words.len()].copy_from_slice(&read_words);
    names[..read_names.len()].copy_from_slice(&read_names);
    Reply::accepted(read_words.len())
}

#[derive(Default)]
struct Symbols {
    names: Vec<Name>,
    arities: Vec<u16>,
}

impl Symbols {
    fn find(&self, name: &Name) -> Option<usize> {
        self.names.iter().position(|other| other == name)
    }
}

#[derive(Default)]
struct Reader {
    predicates: Symbols,
    functions: Symbols,
    clause_count: usize,
    /// The words after the arities.
    rest: Vec<u16>,
    /// The variables met in this line, each with whether it is ground.
    met: Vec<bool>,
}

impl Reader {
    /// One line without its LF; it starts at `at`, and the line before was of kind `last`.
    fn line(&mut self, line: &[u8], at: usize, last: Kind) -> Result<Kind, Fault> {
        let keyword = line.split(|b| *b == b'\t').next().expect("one field at least");
        let kind = match keyword {
            b"pred" => Kind::Pred,
            b"func" => Kind::Func,
            b"clause" => Kind::Clause,
            b"query" => Kind::Query,
            _ => return Err((11, at)),
        };
        let declaration = kind <= Kind::Func;
        let tabs = || line.iter().filter(|b| **b == b'\t').count();
        if kind < last || (declaration && tabs() != 2) {
            return Err((11, at));
        }
        if self.is_too_many(kind) || (kind != Kind::Pred && self.predicates.names.is_empty()) {
            return Err((2, at));
        }
        let mut tokens = Tokens { line, at: keyword.len(), start: at };
        match kind {
            Kind::Pred => declare(&mut self.predicates, &mut tokens)?,
            Kind::Func => declare(&mut self.functions, &mut tokens)?,
            Kind::Clause => self.clause(&mut tokens)?,
            Kind::Query => self.query(&mut tokens)?,
        }
        Ok(kind)
    }

    /// One more of this kind would be too many.
    fn is_too_many(&self, kind: Kind) -> bool {
        match kind {
            Kind::Pred => self.predicates.names.len() == PREDICATES,
            Kind::Func => self.functions.names.len() == FUNCTIONS,
            Kind::Clause => self.clause_count == CLAUSES,
            Kind::Query => false,
        }
    }

    fn clause(&mut self, tokens: &mut Tokens) -> Result<(), Fault> {
        self.clause_count += 1;
        self.met.clear();
        let length_at = self.rest.len();
        self.rest.push(0);
        self.atom(tokens, false, false)?;
        while !tokens.at_end() {
            let too_many = usize::from(self.rest[length_at]) == BODY;
            self.atom(tokens, false, too_many)?;
            self.rest[length_at] += 1;
        }
        Ok(())
    }

    fn query(&mut self, tokens: &mut Tokens) -> Result<(), Fault> {
        self.met.clear();
        self.atom(tokens, true, false)?;
        if !tokens.at_end() {
            return Err((7, tokens.place()));
        }
        self.rest.push(self.met.len() as u16);
        self.rest.extend(self.met.iter().map(|ground| u16::from(*ground)));
        Ok(())
    }

    /// One atom, or a fault at its first token if it is one too many.
    fn atom(&mut self, tokens: &mut Tokens, in_query: bool, too_many: bool) -> Result<(), Fault> {
        let mut missing = 1;
        let mut cells = 0;
        while missing > 0 {
            let (bytes, at) = tokens.next()?;
            let token = token(bytes, in_query).ok_or((11, at))?;
            if too_many {
                return Err((2, at));
            }
            if cells == CELLS {
                return Err((5, at));
            }
            missing += self.cell(token, at, cells == 0)?;
            missing -= 1;
            cells += 1;
        }
        Ok(())
    }

    /// One cell; its symbol's arity.
    fn cell(&mut self, token: Token, at: usize, first: bool) -> Result<usize, Fault> {
        let symbols = if first { &self.predicates } else { &self.functions };
        match token {
            Token::Name(name) => {
                let symbol = symbols.find(&name).ok_or((3, at))?;
                self.rest.push(symbol as u16);
                Ok(usize::from(symbols.arities[symbol]))
            }
            Token::Variable { .. } if first => Err((3, at)),
            Token::Variable { number, ground } => {
                let v = number as usize;
                if v >= VARIABLES || v > self.met.len() {
                    return Err((4, at));
                }
                if v == self.met.len() {
                    self.met.push(ground);
                } else if self.met[v] != ground {
                    return Err((13, at));
                }
                self.rest.push(FIRST_VARIABLE + v as u16);
                Ok(0)
            }
        }
    }

    fn words(&self) -> Vec<u16> {
        let counts = [
            self.predicates.names.len() as u16,
            self.functions.names.len() as u16,
            self.clause_count as u16,
        ];
        [&counts[..], &self.predicates.arities, &self.functions.arities, &self.rest].concat()
    }
}

fn declare(symbols: &mut Symbols, tokens: &mut Tokens) -> Result<(), Fault> {
    let (bytes, at) = tokens.next()?;
    let name = name(bytes).filter(|name| symbols.find(name).is_none()).ok_or((12, at))?;
    let (bytes, at) = tokens.next()?;
    let arity = number(bytes).ok_or((11, at))?;
    if arity > ARITY as u32 {
        return Err((2, at));
    }
    symbols.names.push(name);
    symbols.arities.push(arity as u16);
    Ok(())
}

/// The tokens of a line after its keyword, each with its place in the text.
struct Tokens<'a> {
    line: &'a [u8],
    at: usize,
    /// Where the line starts in the text.
    start: usize,
}

impl<'a> Tokens<'a> {
    fn at_end(&self) -> bool {
        self.at == self.line.len()
    }

    fn place(&self) -> usize {
        self.start + self.at
    }

    /// The next token; where there is none, the line's atom ends too soon.
    fn next(&mut self) -> Result<(&'a [u8], usize), Fault> {
        if self.at_end() {
            return Err((1, self.place()));
        }
        let from = self.at + 1;
        let rest = &self.line[from..];
        let length = rest.iter().position(|b| *b == b'\t').unwrap_or(rest.len());
        self.at = from + length;
        Ok((&rest[..length], self.start + from))
    }
}
