//! Tests of a region in parts over the library: `JUMBETAI_LIB_DIR=FOLDER cargo test --offline`.

use jumbetai::{combine, combine_summaries, part_of, split, Error, Question, Site, MAX_PARTS};

fn event(source: &str, number: u64) -> String {
    format!(
        r#"{{"specversion":"1.0","id":"{number}","source":"{source}","type":"sold","sequence":"{number:020}"}}"#
    )
}

/// Events of twenty sources, with gaps between their numbers.
fn batch() -> String {
    let events: Vec<String> = (0..200)
        .map(|it| event(&format!("/shop/{}", it % 20), 1 + it / 20 * (1 + it % 3)))
        .collect();
    format!("[{}]", events.join(","))
}

fn site_of(bytes: &str) -> Site {
    let mut site = Site::new().unwrap();
    site.take(bytes.as_bytes()).unwrap();
    site
}

#[test]
fn a_source_falls_to_one_part() {
    // The first eight bytes of SHA-256 ("abc"), of FIPS 180-4.
    let number = 0xba78_16bf_8f01_cfea_u64;
    for parts in [1, 2, 3, 7, 1000, MAX_PARTS] {
        assert_eq!(part_of("abc", parts), Ok(number % parts));
    }
    for parts in [0, MAX_PARTS + 1, u64::MAX] {
        assert_eq!(part_of("abc", parts), Err(Error::BadParts));
    }
}

#[test]
fn events_are_split_by_their_sources() {
    let batch = batch();
    for parts in [1, 2, 5, 64] {
        let each = split(batch.as_bytes(), parts).unwrap();
        assert_eq!(each.len() as u64, parts);
        let mut all = Site::new().unwrap();
        for (part, events) in each.iter().enumerate() {
            let mut site = site_of(events);
            for line in site.ask(Question::Shown).unwrap().lines() {
                let source = line.split('"').skip_while(|it| *it != "source").nth(2);
                assert_eq!(part_of(source.unwrap(), parts), Ok(part as u64));
            }
            all.take(events.as_bytes()).unwrap();
        }
        assert_eq!(all.summary().unwrap(), site_of(&batch).summary().unwrap());
    }
    assert_eq!(split(b"[]", 3).unwrap(), ["[]"; 3]);
    assert_eq!(split(b"[]", 0), Err(Error::BadParts));
    assert_eq!(split(b"{}", MAX_PARTS + 1), Err(Error::BadParts));
    assert_eq!(split(b"{}", 2), Err(Error::NoEvents));
    let bare = br#"{"specversion":"1.0","id":"1","source":"/a","type":"t"}"#;
    assert_eq!(split(bare, 2), Err(Error::NoNumber));
}

#[test]
fn answers_of_parts_make_that_of_the_whole() {
    let batch = batch();
    let mut whole = site_of(&batch);
    let mut parts: Vec<Site> = split(batch.as_bytes(), 5)
        .unwrap()
        .iter()
        .map(|it| site_of(it))
        .collect();
    let mut answers_to = |question| -> Vec<String> {
        parts
            .iter_mut()
            .rev()
            .map(|it| it.ask(question).unwrap())
            .collect()
    };
    let covers = answers_to(Question::Cover);
    let covers: Vec<&str> = covers.iter().map(String::as_str).collect();
    for question in Question::ALL {
        let answers = answers_to(question);
        let answers: Vec<&str> = answers.iter().map(String::as_str).collect();
        let combined = combine(question, &answers, &covers).unwrap();
        assert_eq!(combined, whole.ask(question).unwrap(), "{question:?}");
        if matches!(question, Question::Cover | Question::Shown) {
            assert_eq!(combine(question, &answers, &[]), Ok(combined));
        } else {
            assert_eq!(combine(question, &answers, &[]), Err(Error::CoverCount));
        }
    }
    assert_eq!(combine(Question::Shown, &[], &[]), Ok(String::new()));
}

#[test]
fn summaries_of_parts_make_that_of_the_whole() {
    let batch = batch();
    let each: Vec<String> = split(batch.as_bytes(), 5)
        .unwrap()
        .iter()
        .map(|it| site_of(it).summary().unwrap())
        .collect();
    let given: Vec<&str> = each.iter().rev().map(String::as_str).collect();
    assert_eq!(combine_summaries(&given), site_of(&batch).summary());
    assert_eq!(combine_summaries(&[]), Site::new().unwrap().summary());
    let one = given[0];
    assert_eq!(combine_summaries(&[one]), Ok(one.to_string()));
    assert_eq!(combine_summaries(&[one, one]), Err(Error::Overlap));
    let cover = site_of(&batch).cover().unwrap();
    for bad in [&cover, "", "x", one.trim_end()] {
        assert_eq!(combine_summaries(&[one, bad]), Err(Error::NotAnAnswer));
    }
}

#[test]
fn what_is_no_whole_is_refused() {
    let a = "{\"sources\":{\"/a\":[[1,1]]},\"version\":1}\n";
    let b = "{\"sources\":{\"/b\":[[1,1]]},\"version\":1}\n";
    let (one, most) = ("[\"t\",1]\n", "[\"t\",18446744073709551615]\n");
    let kinds = |answers: &[&str], covers: &[&str]| combine(Question::Kinds, answers, covers);
    assert_eq!(kinds(&[one, one], &[a, b]), Ok("[\"t\",2]\n".to_string()));
    assert_eq!(kinds(&[one, "x"], &[a, b]), Err(Error::NotAnAnswer));
    assert_eq!(kinds(&[one, one], &[a, "x"]), Err(Error::NotACover));
    assert_eq!(kinds(&[one, one], &[a]), Err(Error::CoverCount));
    assert_eq!(kinds(&[one], &[a, b]), Err(Error::CoverCount));
    assert_eq!(kinds(&[one, most], &[a, b]), Err(Error::TooMany));
    assert_eq!(kinds(&[one, one], &[a, a]), Err(Error::Overlap));
    assert_eq!(combine(Question::Cover, &[a, a], &[]), Err(Error::Overlap));
    assert_eq!(
        combine(Question::Cover, &[a, "x"], &[]),
        Err(Error::NotACover)
    );
    assert!(Error::Overlap.to_string().contains("two parts"));
}
