//! What a book says, and the sizes of document 01.

/// How many kinds there are: 0 to 31.
pub const KINDS: u8 = 32;
/// The most rules of a book.
pub const RULES: usize = 128;
/// The most places of a rule.
pub const PLACES: usize = 8;
/// The bytes of a name with its filling.
pub const NAME: usize = 8;

/// What a place holds: a kind, a mark, or a range of marks from low to high.
pub enum Symbol {
    Nonterminal(u8),
    Terminal(u8),
    Range(u8, u8),
}

/// A rule. Its length is in hundredths of a millimetre. Its first and its last year are none if it is opened by 20, so that it holds in all
/// years.
pub struct Rule {
    pub left: u8,
    pub length: i16,
    pub years: Option<(u16, u16)>,
    pub places: Vec<Symbol>,
    pub name: Option<Name>,
}

/// The name of a rule: its letters and digits without the filling, and after how many of the rule's places it is given.
pub struct Name {
    pub letters: String,
    pub after: usize,
}

/// A book within the sizes.
pub struct Grammar {
    pub start: u8,
    pub rules: Vec<Rule>,
}

impl Grammar {
    /// Whether some rule has this name.
    pub fn has_name(&self, letters: &str) -> bool {
        self.rules.iter().filter_map(|rule| rule.name.as_ref()).any(|name| name.letters == letters)
    }
}

/// Whether this is a name: one to eight capitals and digits.
pub fn is_name(letters: &str) -> bool {
    let all = letters.bytes().all(|byte| byte.is_ascii_uppercase() || byte.is_ascii_digit());
    all && (1..=NAME).contains(&letters.len())
}
