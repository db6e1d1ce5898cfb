//! Tests of numbers over the library: `JUMBETAI_LIB_DIR=FOLDER cargo test --offline`.

mod common;

use common::{printed, program, Folder};
use jumbetai::{Error, Numbers, Site};

fn bare(id: &str, source: &str) -> String {
    format!(r#"{{"specversion":"1.0","id":"{id}","source":"{source}","type":"sold"}}"#)
}

/// The sequences of a batch, in its order.
fn numbers_of(json: &str) -> Vec<u64> {
    json.match_indices(r#""sequence":""#)
        .map(|(at, word)| json[at + word.len()..][..20].parse().unwrap())
        .collect()
}

#[test]
fn a_text_has_one_number_for_ever() {
    let folder = Folder::new("numbers");
    let file = folder.file("numbers.db");
    let mut numbers = Numbers::open(&file, 0, 40).unwrap();
    let batch = format!(
        "[{},{},{}]",
        bare("1", "/a"),
        bare("1", "/b"),
        bare("2", "/a")
    );
    let json = numbers.number(batch.as_bytes()).unwrap();
    assert_eq!(numbers_of(&json), [41, 41, 42]);
    assert_eq!(Site::new().unwrap().take(json.as_bytes()).unwrap().fresh, 3);
    assert_eq!(numbers.number(batch.as_bytes()).unwrap(), json);
    assert_eq!(Numbers::open(&file, 0, 40).err(), Some(Error::Busy));
    drop(numbers);
    assert_eq!(Numbers::open(&file, 0, 41).err(), Some(Error::Foreign));
    let mut numbers = Numbers::open(&file, 0, 40).unwrap();
    let again = numbers.number(bare("2", "/a").as_bytes()).unwrap();
    assert_eq!(numbers_of(&again), [42]);
    let next = numbers.number(bare("3", "/a").as_bytes()).unwrap();
    assert_eq!(numbers_of(&next), [43]);
    assert_eq!(numbers.number(b"[]").unwrap(), "[]\n");
    drop(numbers);
    // The file is that of a site, and of the program.
    assert_eq!(Site::open(&file).unwrap().len(), 4);
    if let Some(program) = program() {
        let said = printed(&program, &folder.path, &["kinds", "--db", "numbers.db"]);
        assert_eq!(said, "[\"sold\",4]\n");
    }
}

#[test]
fn what_is_refused_is_not_numbered() {
    let folder = Folder::new("numbers-refused");
    let mut numbers = Numbers::open(folder.file("numbers.db"), 1, 0).unwrap();
    let numbered = bare("1", "/a").replace('}', r#","sequence":"00000000000000000007"}"#);
    let others = bare("", "/a").len();
    let large = bare(&"x".repeat(262_111 - others), "/a");
    let (two, three) = (bare("2", "/a"), bare("3", "/a"));
    for (bytes, error, index) in [
        (&b"{}"[..], Error::NoEvents, None),
        (b"", Error::NoEvents, None),
        (numbered.as_bytes(), Error::HasSequence, Some(0)),
        (
            format!("[{two},{three},{numbered},{large}]").as_bytes(),
            Error::HasSequence,
            Some(2),
        ),
        (
            format!("[{two},{large},{numbered}]").as_bytes(),
            Error::TooLarge,
            Some(1),
        ),
    ] {
        assert_eq!(numbers.number(bytes), Err(error));
        assert_eq!(numbers.refused_at(), index);
    }
    assert_eq!(numbers.number(b"[]").unwrap(), "[]\n");
    assert_eq!(numbers.refused_at(), None);
    let json = numbers.number(bare("2", "/a").as_bytes()).unwrap();
    assert_eq!(numbers_of(&json), [1]);
    drop(numbers);
    let last = (1 << 63) - 2;
    let mut numbers = Numbers::open(folder.file("last.db"), 1, last).unwrap();
    let json = numbers.number(bare("1", "/a").as_bytes()).unwrap();
    assert_eq!(numbers_of(&json), [last + 1]);
    let both = format!("[{},{}]", bare("1", "/a"), bare("2", "/a"));
    assert_eq!(numbers.number(both.as_bytes()), Err(Error::Full));
    assert_eq!(numbers.refused_at(), Some(1));
    assert_eq!(
        numbers.number(bare("1", "/a").as_bytes()),
        Err(Error::Store)
    );
    assert_eq!(numbers.refused_at(), None);
    drop(numbers);
    let mut numbers = Numbers::open(folder.file("last.db"), 1, last).unwrap();
    assert_eq!(numbers.number(bare("1", "/a").as_bytes()).unwrap(), json);
}
