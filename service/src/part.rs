//! A service that holds one part of a region: the events whose source falls to it, and no others.

use crate::library::{part_of, sources_in, Error, Site, MAX_PARTS};
use serde::Deserialize;
use std::fmt;

/// Which of how many parts: written `1/4`, the first is 0.
#[derive(Deserialize, Clone, Copy, PartialEq, Eq, Debug)]
#[serde(try_from = "String")]
pub struct Part {
    pub index: u64,
    pub of: u64,
}

impl Part {
    /// The part that is written so, or why there is none.
    pub fn read(text: &str) -> Result<Part, String> {
        let number = |it: &str| it.parse::<u64>().ok().filter(|number| number.to_string() == it);
        let both = text.split_once('/').and_then(|(index, of)| Some((number(index)?, number(of)?)));
        match both {
            Some((index, of)) if index < of && of <= MAX_PARTS => Ok(Part { index, of }),
            _ => Err(format!("part {text:?}: the second of four is 1/4, and there are at most {MAX_PARTS}")),
        }
    }

    /// The first source that falls to another part, and to which.
    pub fn misdirected(self, sources: &[String]) -> Result<Option<(String, u64)>, Error> {
        for source in sources {
            let part = part_of(source, self.of)?;
            if part != self.index {
                return Ok(Some((source.clone(), part)));
            }
        }
        Ok(None)
    }

    /// Why a site isn't this part, where it has events of others.
    pub fn test(self, site: &mut Site) -> Result<(), String> {
        let sources = site.cover().and_then(|it| sources_in(&it)).map_err(|why| why.to_string())?;
        match self.misdirected(&sources).map_err(|why| why.to_string())? {
            Some((source, part)) => {
                Err(format!("it has events of {source}, which is of part {part}/{}, not {self}", self.of))
            }
            None => Ok(()),
        }
    }
}

impl TryFrom<String> for Part {
    type Error = String;

    fn try_from(text: String) -> Result<Part, String> {
        Part::read(&text)
    }
}

impl fmt::Display for Part {
    fn fmt(&self, f: &mut fmt::Formatter<'_>) -> fmt::Result {
        write!(f, "{}/{}", self.index, self.of)
    }
}

#[cfg(test)]
mod tests {
    use super::*;

    #[test]
    fn a_part_is_written_in_one_way() {
        assert_eq!(Part::read("1/4"), Ok(Part { index: 1, of: 4 }));
        assert_eq!(Part::read("0/65536").unwrap().to_string(), "0/65536");
        for bad in ["4/4", "0/0", "0/65537", "1", "1/4/", "01/4", "+1/4", " 1/4", "-1/4", "", "/", "a/b"] {
            assert!(Part::read(bad).unwrap_err().contains("1/4"), "{bad}");
        }
    }

    #[test]
    fn sources_of_other_parts_are_told() {
        // printf /a | sha256sum: the first 16 digits are 1 modulo 4, those of /b are too, and those of /c are 3.
        let all: Vec<String> = ["/a", "/b", "/c"].iter().map(|it| it.to_string()).collect();
        let part = Part { index: 1, of: 4 };
        assert_eq!(part.misdirected(&all[..2]), Ok(None));
        assert_eq!(part.misdirected(&all), Ok(Some(("/c".into(), 3))));
        assert_eq!(Part { index: 3, of: 4 }.misdirected(&all), Ok(Some(("/a".into(), 1))));
        assert_eq!(Part { index: 0, of: 1 }.misdirected(&all), Ok(None));
    }
}
