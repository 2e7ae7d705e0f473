//! Names for what the kernel knows by number: models by their id, and providers, capabilities and regions from 0 to 63.
use crate::fault::{nearest, quoted};
use crate::field::LONGEST_NAME;
use std::collections::BTreeMap;

/// Providers, capabilities and regions have numbers from 0 to 63, the bits of a mask.
pub const MOST_NUMBER: u8 = 63;
const ALL: &str = "all";
const NONE: &str = "none";
const PROVIDER: &str = "provider";

/// The names of one kind of thing, in a file either all names or all numbers.
#[derive(Clone, Debug)]
pub struct Register {
    kind: &'static str,
    names: BTreeMap<u8, String>,
    /// Told beforehand: a name that isn't in it is a fault, unless new ones may be added.
    fixed: bool,
    grows: bool,
    /// Some cell had a number in place of a name.
    numbers: bool,
}

impl Register {
    pub fn new(kind: &'static str) -> Self {
        Register { kind, names: BTreeMap::new(), fixed: false, grows: false, numbers: false }
    }

    /// Notes that a number has a name, as a file of names says.
    pub fn fix(&mut self, number: u8, name: &str) -> Result<(), String> {
        self.fixed = true;
        if let Some(other) = self.names.get(&number) {
            return Err(format!("{} {number} has the name {} already", self.kind, quoted(other)));
        }
        if let Some(other) = self.number_of(name) {
            return Err(format!("the name {} stands for {} {other} already", quoted(name), self.kind));
        }
        self.add(number, name)
    }

    /// Notes a new name, which can be told from a number, a list, the words for none and all, and the names that are there.
    fn add(&mut self, number: u8, name: &str) -> Result<(), String> {
        sound(name)?;
        if self.kind != PROVIDER && name.contains([',', ';']) {
            return Err(parted(name));
        }
        let folded = name.to_lowercase();
        if let Some(other) = self.names.values().find(|other| other.to_lowercase() == folded) {
            let (name, other) = (quoted(name), quoted(other));
            return Err(format!("{name} and {other} differ by capitals alone; write one of them throughout"));
        }
        self.names.insert(number, name.to_owned());
        Ok(())
    }

    /// The number of a name or number; a new name gets the lowest number that is free, unless the names were told beforehand.
    pub fn learn(&mut self, word: &str) -> Result<u8, String> {
        if let Some(number) = self.number_of(word) {
            return Ok(number);
        }
        if let Some(number) = self.plain_number(word)? {
            self.numbers = true;
            return Ok(number);
        }
        if self.fixed && !self.grows {
            return Err(self.unknown(word));
        }
        if self.numbers && !self.fixed {
            return Err(format!(
                "{} is a name, and an earlier line has a number; write one or the other throughout",
                quoted(word)
            ));
        }
        let free = (0..=MOST_NUMBER).find(|number| !self.names.contains_key(number));
        let number =
            free.ok_or_else(|| format!("{} is the 65th {} by name; 64 are possible", quoted(word), self.kind))?;
        self.add(number, word)?;
        Ok(number)
    }

    /// The number of a name that is known, or of a number.
    pub fn known(&self, word: &str) -> Result<u8, String> {
        match (self.number_of(word), self.plain_number(word)?) {
            (Some(number), _) | (None, Some(number)) => Ok(number),
            (None, None) => Err(self.unknown(word)),
        }
    }

    fn number_of(&self, word: &str) -> Option<u8> {
        self.names.iter().find(|(_, name)| *name == word).map(|(number, _)| *number)
    }

    /// A whole number is taken as itself, but not where names were met that were not told beforehand: there it is a slip.
    fn plain_number(&self, word: &str) -> Result<Option<u8>, String> {
        if !word.bytes().all(|byte| byte.is_ascii_digit()) {
            return Ok(None);
        }
        if !self.names.is_empty() && !self.fixed {
            return Err(format!(
                "{} is a number, and an earlier line has a name; write one or the other throughout",
                quoted(word)
            ));
        }
        match word.parse() {
            Ok(number) if number <= MOST_NUMBER => Ok(Some(number)),
            _ => Err(format!("{} is out of range; a {} by number is from 0 to {MOST_NUMBER}", quoted(word), self.kind)),
        }
    }

    fn unknown(&self, word: &str) -> String {
        let names = self.names.values().map(String::as_str);
        let place = if self.fixed { " in the file of names" } else { "" };
        let hint = match nearest(word, names) {
            _ if word.contains([',', ';']) => "; names are parted by |".to_owned(),
            Some(near) => format!("; did you mean {near}?"),
            None => String::new(),
        };
        format!("no {} is called {}{place}{hint}", self.kind, quoted(word))
    }

    /// A number by its name, or as it is where it has none.
    pub fn name(&self, number: impl Into<u64>) -> String {
        let number = number.into();
        let name = u8::try_from(number).ok().and_then(|number| self.names.get(&number));
        name.cloned().unwrap_or_else(|| number.to_string())
    }

    pub fn names(&self) -> impl Iterator<Item = (u8, &str)> {
        self.names.iter().map(|(number, name)| (*number, name.as_str()))
    }

    /// Whether numbers were given to names by the order in which they came.
    pub fn made_up(&self) -> bool {
        !self.fixed && !self.names.is_empty()
    }
}

/// A name that can be told from a number, a list, and the words for none and all, and that no spreadsheet takes for a formula.
fn sound(name: &str) -> Result<(), String> {
    let word = [ALL, NONE, ""].iter().any(|word| name.eq_ignore_ascii_case(word));
    if word || name.contains('|') || name.bytes().all(|byte| byte.is_ascii_digit()) {
        return Err(format!(
            "{} can't be a name: a number, \"all\", \"none\" or a text with | in it is read otherwise",
            quoted(name)
        ));
    }
    if name.chars().nth(LONGEST_NAME).is_some() {
        return Err(format!(
            "{} has {} letters; a name has at most {LONGEST_NAME}",
            quoted(name),
            name.chars().count()
        ));
    }
    no_formula(name)
}

/// Tables go back to spreadsheets, where a text that begins like this is worked out. Names of models that begin with @ are usual.
pub fn no_formula(name: &str) -> Result<(), String> {
    match name.starts_with(['=', '+', '-']) {
        true => Err(format!("{} can't be a name: spreadsheets take it for a formula", quoted(name))),
        false => Ok(()),
    }
}

fn parted(name: &str) -> String {
    format!("{} can't be a name, and a list of names is parted by |, as captions|noise", quoted(name))
}

/// The word for none, in whatever case.
pub fn is_none(word: &str) -> bool {
    word.eq_ignore_ascii_case(NONE)
}

/// The mask of a list of names or numbers parted by `|`; `none` is no bit, `all` is every one.
pub fn mask(list: &str, mut number_of: impl FnMut(&str) -> Result<u8, String>) -> Result<u64, String> {
    if list.eq_ignore_ascii_case(ALL) {
        return Ok(u64::MAX);
    }
    if is_none(list) {
        return Ok(0);
    }
    list.split('|').map(str::trim).try_fold(0, |mask, word| match word {
        "" => Err(format!("{} has nothing between two marks |", quoted(list))),
        _ => Ok(mask | 1 << number_of(word)?),
    })
}

/// The numbers of a mask's bits.
pub fn bits(mask: u64) -> impl Iterator<Item = u8> {
    (0..=MOST_NUMBER).filter(move |bit| mask >> bit & 1 == 1)
}

/// A mask as a cell: what [`mask`] reads.
pub fn list(mask: u64, register: &Register) -> String {
    match mask {
        0 => NONE.to_owned(),
        u64::MAX => ALL.to_owned(),
        _ => bits(mask).map(|bit| register.name(bit)).collect::<Vec<_>>().join("|"),
    }
}

/// A mask in a sentence: `captions, speakers and noise`.
pub fn spoken(mask: u64, register: &Register) -> String {
    if mask == 0 || mask == u64::MAX {
        return list(mask, register);
    }
    let mut names: Vec<String> = bits(mask).map(|bit| register.name(bit)).collect();
    match (names.pop(), names.is_empty()) {
        (Some(last), false) => format!("{} and {last}", names.join(", ")),
        (last, _) => last.unwrap_or_default(),
    }
}

/// The names of all kinds.
#[derive(Clone, Debug)]
pub struct Names {
    /// Of models, by id; filled by a file of names.
    pub models: BTreeMap<u32, String>,
    /// The file of names that they were told by.
    pub file: Option<String>,
    /// New names may be added to those that were told, since they are written down.
    pub grows: bool,
    pub providers: Register,
    pub capabilities: Register,
    pub regions: Register,
}

impl Default for Names {
    fn default() -> Self {
        Names {
            models: BTreeMap::new(),
            file: None,
            grows: false,
            providers: Register::new(PROVIDER),
            capabilities: Register::new("capability"),
            regions: Register::new("region"),
        }
    }
}

impl Names {
    /// Takes names that aren't told as well, each with a number that is free. Without a file of names that is so at all times.
    pub fn growing(mut self) -> Self {
        self.grows = self.file.is_some();
        [&mut self.providers, &mut self.capabilities, &mut self.regions].into_iter().for_each(|kind| kind.grows = true);
        self
    }
}
