//! Lexemes of a text: white space, comments, brackets, and runs of symbol
//! characters. What cannot go on is refused at its byte (19).

use crate::answer::{Reason, Refusal};
use crate::fault::{Fault, Rules};

/// What a byte is in SMT-LIB, as far as this grammar uses it.
#[derive(Clone, Copy, Debug, PartialEq, Eq)]
enum Class {
    White,
    Comment,
    Open,
    Close,
    /// A symbol character that may start a symbol.
    Letter,
    /// A symbol character that may not.
    Digit,
    Other,
}

const fn class(byte: u8) -> Class {
    match byte {
        9 | 10 | 13 | 32 => Class::White,
        b';' => Class::Comment,
        b'(' => Class::Open,
        b')' => Class::Close,
        b'0'..=b'9' => Class::Digit,
        b'a'..=b'z' | b'A'..=b'Z' => Class::Letter,
        b'~' | b'!' | b'@' | b'$' | b'%' | b'^' | b'&' | b'*' | b'_' | b'-' | b'+' | b'='
        | b'<' | b'>' | b'.' | b'?' | b'/' => Class::Letter,
        _ => Class::Other,
    }
}

const CLASSES: [Class; 256] = {
    let mut classes = [Class::Other; 256];
    let mut byte = 0;
    while byte < 256 {
        classes[byte] = class(byte as u8);
        byte += 1;
    }
    classes
};

/// The twelve words that are no names.
#[derive(Clone, Copy, Debug, PartialEq, Eq)]
pub enum Word {
    True,
    False,
    Not,
    And,
    Or,
    Implies,
    Equals,
    ForAll,
    Exists,
    Let,
    /// The sorts.
    Bool,
    Item,
}

/// A run of symbol characters, as long as it can be.
#[derive(Clone, Copy, Debug)]
pub struct Run<'a> {
    pub bytes: &'a [u8],
    /// Its first byte in the text.
    pub start: usize,
}

impl Run<'_> {
    /// `None` for a name.
    pub fn word(&self) -> Option<Word> {
        match self.bytes {
            b"true" => Some(Word::True),
            b"false" => Some(Word::False),
            b"not" => Some(Word::Not),
            b"and" => Some(Word::And),
            b"or" => Some(Word::Or),
            b"=>" => Some(Word::Implies),
            b"=" => Some(Word::Equals),
            b"forall" => Some(Word::ForAll),
            b"exists" => Some(Word::Exists),
            b"let" => Some(Word::Let),
            b"Bool" => Some(Word::Bool),
            b"Item" => Some(Word::Item),
            _ => None,
        }
    }

    /// The number after this letter, in plain decimal; `None` where it is more than
    /// any count.
    pub fn number_after<R: Rules>(&self, rules: R, letter: u8) -> Option<u32> {
        let (&first, digits) = self.bytes.split_first()?;
        let leading_zero = digits.first() == Some(&b'0');
        if first != letter
            || digits.is_empty()
            || leading_zero && !rules.has(Fault::LeadingZeroTaken)
        {
            return None;
        }
        digits.iter().try_fold(0u32, |number, &digit| {
            let value = u32::from(digit.wrapping_sub(b'0'));
            if value > 9 {
                None
            } else if rules.has(Fault::NumbersWrap) {
                Some(number.wrapping_mul(10).wrapping_add(value))
            } else {
                number.checked_mul(10)?.checked_add(value)
            }
        })
    }
}

/// A place in the text.
#[derive(Debug)]
pub struct Cursor<'a, R> {
    rules: R,
    text: &'a [u8],
    place: usize,
}

impl<'a, R: Rules> Cursor<'a, R> {
    pub fn new(rules: R, text: &'a [u8]) -> Self {
        Cursor { rules, text, place: 0 }
    }

    /// 19 at this byte, which is the text's length where the text has ended.
    pub fn unread(&self) -> Refusal {
        let early = self.rules.has(Fault::EndIsLastByte) && self.place == self.text.len();
        Refusal::at_byte(Reason::Unread, self.place.saturating_sub(usize::from(early)))
    }

    fn class(&self) -> Option<Class> {
        let &byte = self.text.get(self.place)?;
        if self.rules.has(Fault::FormFeedIsWhite) && byte == 12 {
            return Some(Class::White);
        }
        if self.rules.has(Fault::SlashIsNoSymbolCharacter) && byte == b'/' {
            return Some(Class::Other);
        }
        Some(CLASSES[byte as usize])
    }

    /// The class of the next byte after white space and comments.
    fn next(&mut self) -> Option<Class> {
        loop {
            match self.class()? {
                Class::White => self.place += 1,
                Class::Comment => self.comment(),
                class => return Some(class),
            }
        }
    }

    /// A comment holds any byte, and ends with its line or with the text.
    fn comment(&mut self) {
        let rest = &self.text[self.place..];
        let ends =
            |&byte: &u8| byte == 10 || byte == 13 && !self.rules.has(Fault::CommentPassesReturn);
        self.place += rest.iter().position(ends).unwrap_or(rest.len());
    }

    fn takes(&mut self, class: Class) -> bool {
        let takes = self.next() == Some(class);
        self.place += usize::from(takes);
        takes
    }

    /// Takes an opening bracket, if one is next.
    pub fn opens(&mut self) -> bool {
        self.takes(Class::Open)
    }

    /// Takes a closing bracket, if one is next.
    pub fn closes(&mut self) -> bool {
        self.takes(Class::Close)
    }

    pub fn open(&mut self) -> Result<(), Refusal> {
        if self.opens() { Ok(()) } else { Err(self.unread()) }
    }

    pub fn close(&mut self) -> Result<(), Refusal> {
        if self.closes() { Ok(()) } else { Err(self.unread()) }
    }

    /// Nothing but white space and comments may follow.
    pub fn end(&mut self) -> Result<(), Refusal> {
        match self.next() {
            Some(_) if !self.rules.has(Fault::RestUnread) => Err(self.unread()),
            _ => Ok(()),
        }
    }

    /// The next run; it starts with no digit.
    pub fn run(&mut self) -> Result<Run<'a>, Refusal> {
        let starts = match self.next() {
            Some(Class::Letter) => true,
            Some(Class::Digit) => self.rules.has(Fault::DigitStartsName),
            _ => false,
        };
        if !starts {
            return Err(self.unread());
        }
        let start = self.place;
        while let Some(Class::Letter | Class::Digit) = self.class() {
            self.place += 1;
        }
        Ok(Run { bytes: &self.text[start..self.place], start })
    }

    /// 19 for one of the twelve words where another run is due. It could have grown
    /// into a name, so the byte is the one after it.
    pub fn grown(&self, run: Run) -> Refusal {
        if self.rules.has(Fault::WordsMayNotGrow) {
            return Refusal::at_byte(Reason::Unread, run.start);
        }
        self.unread()
    }

    /// One of the words Bool and Item, 19 at the first byte that leaves both.
    pub fn sort(&mut self) -> Result<Word, Refusal> {
        self.next();
        let rest = &self.text[self.place..];
        let (word, spelled) = match rest.first() {
            Some(b'I') => (Word::Item, b"Item"),
            _ => (Word::Bool, b"Bool"),
        };
        let common = spelled.iter().zip(rest).take_while(|(due, byte)| due == byte).count();
        if self.rules.has(Fault::SortWordWhole) && common < spelled.len() {
            return Err(self.unread());
        }
        self.place += common;
        if common < spelled.len() { Err(self.unread()) } else { Ok(word) }
    }
}
