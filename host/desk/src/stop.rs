//! Why there is no answer, and the exit statuses.

use hannuvel::Refusal;

/// The exit status of an answer.
pub const ANSWERED: u8 = 0;
/// That of a refusal.
pub const REFUSED: u8 = 1;
/// That of arguments, files or streams that cannot be used; clap's own too.
pub const UNUSABLE: u8 = 2;

/// Why there is no answer.
#[derive(Debug)]
pub enum Stop {
    /// The library turned a call down.
    Refused(Refused),
    /// What was given cannot be used, or what was asked for cannot be written.
    Failed(String),
}

/// A refusal, and what it is about.
#[derive(Clone, Debug, PartialEq)]
pub struct Refused {
    pub refusal: Refusal,
    /// How many places were lent to the call, where it asked for some.
    pub places: usize,
    /// The name given with --style, where a place counts in it and not in the text.
    pub style: Option<String>,
}

impl Refused {
    /// Of a call that lends so many places for what the text needs.
    pub fn lending(places: usize) -> impl Fn(Refusal) -> Stop {
        move |refusal| Stop::Refused(Refused { refusal, places, style: None })
    }

    /// Of a call on the name given with --style. The text was read by then, so that grounds 1 and 2 are the name's.
    pub fn style(name: &str) -> impl Fn(Refusal) -> Stop {
        move |refusal| {
            let style = (refusal.number() <= 2).then(|| name.into());
            Stop::Refused(Refused { refusal, places: 0, style })
        }
    }
}

impl From<Refusal> for Stop {
    fn from(refusal: Refusal) -> Self {
        Refused::lending(0)(refusal)
    }
}
