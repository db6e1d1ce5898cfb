//! Who may what: bearer tokens with roles, of which the service knows the SHA-256 alone.

use crate::settings::{text_of, Token};
use serde::Deserialize;
use sha2::{Digest, Sha256};
use subtle::ConstantTimeEq;

/// What a token is good for.
#[derive(Deserialize, Clone, Copy, PartialEq, Eq, Debug)]
#[serde(rename_all = "lowercase")]
pub enum Role {
    /// Events may be given.
    Write,
    /// Questions may be asked.
    Read,
    /// Summaries, covers and deltas may be asked for.
    Peer,
    /// A backup may be asked for.
    Backup,
}

/// The sources of which a token may give events.
#[derive(Clone, PartialEq, Eq, Debug)]
pub enum Sources {
    Any,
    /// Those of the patterns: a pattern is a source, or the beginning of sources with a star behind it.
    Of(Vec<String>),
}

impl Sources {
    /// Those of a token's patterns, or why they can't be used.
    fn of(token: &Token) -> Result<Sources, String> {
        let Some(patterns) = &token.sources else {
            return Ok(Sources::Any);
        };
        let name = &token.name;
        if !token.roles.contains(&Role::Write) {
            return Err(format!("token {name}: sources are for the role write, which it hasn't"));
        }
        test_patterns(patterns).map_err(|why| format!("token {name}: sources: {why}"))?;
        Ok(Sources::Of(patterns.clone()))
    }

    /// Whether a source is one of them.
    pub fn has(&self, source: &str) -> bool {
        match self {
            Sources::Any => true,
            Sources::Of(patterns) => matches(patterns, source),
        }
    }

    fn and(self, other: &Sources) -> Sources {
        match (self, other) {
            (Sources::Of(mut all), Sources::Of(more)) => {
                all.extend_from_slice(more);
                Sources::Of(all)
            }
            _ => Sources::Any,
        }
    }
}

/// Why patterns of sources can't be used.
pub fn test_patterns(patterns: &[String]) -> Result<(), String> {
    let bare = |it: &String| it.strip_suffix('*').unwrap_or(it).to_owned();
    match patterns.iter().find(|it| it.is_empty() || bare(it).contains('*')) {
        Some(bad) => Err(format!("{bad:?}: a star stands at the end alone")),
        None => Ok(()),
    }
}

/// Whether a source is one of those of the patterns.
pub fn matches(patterns: &[String], source: &str) -> bool {
    patterns.iter().any(|it| match it.strip_suffix('*') {
        Some(begin) => source.starts_with(begin),
        None => source == it,
    })
}

/// The tokens of the settings.
pub struct Access(Vec<Known>);

struct Known {
    digest: [u8; 32],
    roles: Vec<Role>,
    sources: Sources,
}

/// What the tokens say of a request.
#[derive(Clone, PartialEq, Eq, Debug)]
pub enum Verdict {
    /// It may be done; events may be given of these sources.
    Allowed(Sources),
    /// A token is wanted, and none was given.
    NoToken,
    /// The token isn't among those of the settings.
    Unknown,
    /// The token has none of the roles.
    OtherRole,
}

impl Access {
    /// The tokens of the settings, or why one can't be used.
    pub fn of(tokens: &[Token]) -> Result<Access, String> {
        let known =
            |it: &Token| Ok(Known { digest: digest_of(it)?, roles: it.roles.clone(), sources: Sources::of(it)? });
        Ok(Access(tokens.iter().map(known).collect::<Result<_, String>>()?))
    }

    /// Whether there are no tokens, so that everybody may do everything.
    pub fn is_open(&self) -> bool {
        self.0.is_empty()
    }

    /// Whether a request with this `Authorization` may do what one of the roles is for; without tokens everybody may.
    /// Every token is compared, each in constant time. One that is there several times has the rights of all of these.
    pub fn judge(&self, authorization: Option<&str>, roles: &[Role]) -> Verdict {
        if self.is_open() {
            return Verdict::Allowed(Sources::Any);
        }
        let token =
            authorization.and_then(|it| it.split_once(' ')).filter(|(scheme, _)| scheme.eq_ignore_ascii_case("bearer"));
        let Some((_, token)) = token else {
            return Verdict::NoToken;
        };
        let digest = Sha256::digest(token.trim().as_bytes());
        let same = self.0.iter().map(|it| (it, bool::from(it.digest.ct_eq(digest.as_slice()))));
        let same: Vec<&Known> = same.filter(|it| it.1).map(|it| it.0).collect();
        let may = same.iter().filter(|it| it.roles.iter().any(|role| roles.contains(role)));
        let sources = may.map(|it| it.sources.clone()).reduce(|all, it| all.and(&it));
        match (sources, same.is_empty()) {
            (Some(sources), _) => Verdict::Allowed(sources),
            (None, false) => Verdict::OtherRole,
            (None, true) => Verdict::Unknown,
        }
    }
}

fn digest_of(token: &Token) -> Result<[u8; 32], String> {
    let name = &token.name;
    match (&token.sha256, &token.file) {
        (Some(text), None) => {
            unhex(text).ok_or_else(|| format!("token {name}: its sha256 isn't 64 hexadecimal digits"))
        }
        (None, Some(path)) => match text_of(path)?.trim() {
            "" => Err(format!("token {name}: {} is empty", path.display())),
            text => Ok(Sha256::digest(text.as_bytes()).into()),
        },
        _ => Err(format!("token {name}: give sha256 or file, and not both")),
    }
}

fn unhex(text: &str) -> Option<[u8; 32]> {
    let digits: Option<Vec<u8>> = text.chars().map(|it| it.to_digit(16).map(|it| it as u8)).collect();
    let bytes: Vec<u8> = digits?.chunks(2).map(|it| it[0] << 4 | it.get(1).unwrap_or(&0)).collect();
    (text.len() == 64).then(|| bytes.try_into().ok()).flatten()
}

#[cfg(test)]
mod tests {
    use super::*;

    fn token(sha256: Option<&str>, roles: &[Role]) -> Token {
        Token { name: "a".into(), roles: roles.to_vec(), sources: None, sha256: sha256.map(str::to_owned), file: None }
    }

    fn of_sources(roles: &[Role], patterns: &[&str]) -> Token {
        Token { sources: Some(patterns.iter().map(|it| it.to_string()).collect()), ..token(Some(TEST), roles) }
    }

    // printf test | sha256sum
    const TEST: &str = "9f86d081884c7d659a2feaa0c55ad015a3bf4f1b2b0b822cd15d6c15b0f00a08";

    #[test]
    fn tokens_have_roles() {
        let access = Access::of(&[token(Some(TEST), &[Role::Write])]).unwrap();
        let write = |it| access.judge(it, &[Role::Write]);
        assert_eq!(write(Some("Bearer test")), Verdict::Allowed(Sources::Any));
        assert_eq!(write(Some("bearer  test ")), Verdict::Allowed(Sources::Any));
        assert_eq!(write(Some("Bearer Test")), Verdict::Unknown);
        assert_eq!(write(Some("Basic test")), Verdict::NoToken);
        assert_eq!(write(Some("Bearer")), Verdict::NoToken);
        assert_eq!(write(None), Verdict::NoToken);
        assert_eq!(access.judge(Some("Bearer test"), &[Role::Read, Role::Peer]), Verdict::OtherRole);
        assert_eq!(access.judge(Some("Bearer test"), &[Role::Read, Role::Write]), Verdict::Allowed(Sources::Any));
        assert_eq!(Access::of(&[]).unwrap().judge(None, &[Role::Write]), Verdict::Allowed(Sources::Any));
    }

    #[test]
    fn tokens_to_write_may_have_sources() {
        let write = |tokens: &[Token]| match Access::of(tokens).unwrap().judge(Some("Bearer test"), &[Role::Write]) {
            Verdict::Allowed(sources) => sources,
            other => panic!("{other:?}"),
        };
        let tills = of_sources(&[Role::Write, Role::Read], &["/till/*", "/office"]);
        let sources = write(std::slice::from_ref(&tills));
        for (source, may) in [
            ("/till/1", true),
            ("/till/", true),
            ("/office", true),
            ("/till", false),
            ("/Till/1", false),
            ("x/till/1", false),
            ("/office/", false),
            ("", false),
        ] {
            assert_eq!(sources.has(source), may, "{source}");
        }
        let more = of_sources(&[Role::Write], &["/x"]);
        assert!(write(&[tills.clone(), more.clone()]).has("/x") && write(&[tills.clone(), more]).has("/till/1"));
        let reader = of_sources(&[Role::Write], &["*"]);
        assert!(write(&[tills.clone(), reader]).has("anything"));
        assert_eq!(write(&[tills.clone(), token(Some(TEST), &[Role::Write])]), Sources::Any);
        // A token's other entry that may not write gives it no sources.
        assert_eq!(write(&[tills.clone(), token(Some(TEST), &[Role::Read])]), write(&[tills]));
        assert!(!write(&[of_sources(&[Role::Write], &[])]).has("/a"));
        for bad in [&["/a*b"][..], &["**"], &[""]] {
            assert!(Access::of(&[of_sources(&[Role::Write], bad)]).is_err(), "{bad:?}");
        }
        assert!(Access::of(&[of_sources(&[Role::Read], &["/a"])]).is_err());
    }

    #[test]
    fn tokens_that_cant_be_read_say_why() {
        for bad in
            [None, Some("9f"), Some(&TEST[1..]), Some(&TEST.replace('9', "g")[..]), Some(&TEST.replace('9', "é")[..])]
        {
            assert!(Access::of(&[token(bad, &[Role::Read])]).is_err(), "{bad:?}");
        }
        assert_eq!(unhex(&TEST.to_uppercase()), unhex(TEST));
    }
}
