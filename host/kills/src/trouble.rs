//! What ends a round early: the tool was wrong, or the round could not be played.

use std::io::{self, ErrorKind};

pub enum Trouble {
    Wrong(String),
    NotPlayed(io::Error),
}

impl From<io::Error> for Trouble {
    fn from(error: io::Error) -> Trouble {
        Trouble::NotPlayed(error)
    }
}

impl From<String> for Trouble {
    fn from(wrong: String) -> Trouble {
        Trouble::Wrong(wrong)
    }
}

/// Why something could not be played.
pub fn not_played(why: &str) -> io::Error {
    io::Error::new(ErrorKind::Other, why)
}
