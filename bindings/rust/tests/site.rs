//! Tests of the crate over the library: `JUMBETAI_LIB_DIR=FOLDER cargo test --offline`.
//!
//! JUMBETAI_BATCH names a file of a batch of events, as tools/make_batch.py makes one of 30.6 MB; without it a batch
//! of 500 is made here. JUMBETAI_SITE names the program `site`, whose answers are then compared byte for byte.

mod common;

use common::{open_if_asked, opened_elsewhere, printed, program, Folder};
use jumbetai::{Error, Lag, Page, Question, Site, Taken, PAGE};
use std::path::Path;
use std::process::Command;
use std::sync::{Arc, Mutex};

const WORDS: [&str; 7] = [
    "cover",
    "shown",
    "conflicts",
    "latest",
    "kinds",
    "days",
    "gaps",
];

fn event(number: u64) -> String {
    format!(
        r#"{{"specversion":"1.0","id":"{number}","source":"/shop","type":"sold","sequence":"{number:020}"}}"#
    )
}

fn batch(numbers: impl IntoIterator<Item = u64>) -> Vec<u8> {
    let events: Vec<String> = numbers.into_iter().map(event).collect();
    format!("[{}]", events.join(",")).into_bytes()
}

/// All that a site says.
fn said(site: &mut Site) -> Vec<String> {
    let mut all: Vec<String> = Question::ALL
        .into_iter()
        .map(|it| site.ask(it).unwrap())
        .collect();
    all.push(site.summary().unwrap());
    all.extend(site.pages().map(|page| page.unwrap().json));
    all
}

fn bring(from: &mut Site, to: &mut Site) -> u64 {
    let summary = to.summary().unwrap();
    let pages: Vec<Page> = from.delta(&summary).collect::<Result<_, _>>().unwrap();
    pages
        .iter()
        .map(|page| to.take(page.json.as_bytes()).unwrap().fresh)
        .sum()
}

#[test]
fn an_empty_site_answers() {
    let mut site = Site::new().unwrap();
    assert!(site.is_empty());
    assert_eq!(
        site.ask(Question::Cover).unwrap(),
        "{\"sources\":{},\"version\":1}\n"
    );
    assert_eq!(site.ask(Question::Shown).unwrap(), "");
    assert!(site.pages().next().is_none());
}

#[test]
fn events_are_kept_once() {
    let mut site = Site::new().unwrap();
    assert_eq!(
        site.take(&batch(1..=250)),
        Ok(Taken {
            fresh: 250,
            repeated: 0
        })
    );
    assert_eq!(
        site.take(&batch(201..=300)),
        Ok(Taken {
            fresh: 50,
            repeated: 50
        })
    );
    assert_eq!(site.len(), 300);
    assert_eq!(site.ask(Question::Kinds).unwrap(), "[\"sold\",300]\n");
}

#[test]
fn pages_have_all_events_in_turn() {
    let mut site = Site::new().unwrap();
    site.take(&batch(1..=250)).unwrap();
    let pages: Vec<Page> = site.pages().collect::<Result<_, _>>().unwrap();
    let places: Vec<(u64, u64)> = pages.iter().map(|page| (page.from, page.events)).collect();
    assert_eq!(places, [(0, 100), (100, 100), (200, 50)]);
    assert_eq!(site.page(200).unwrap().as_ref(), Some(&pages[2]));
    assert_eq!(site.page(250).unwrap(), None);
    assert_eq!(site.page(u64::MAX).unwrap(), None);
    let mut copy = Site::new().unwrap();
    for page in &pages {
        copy.take(page.json.as_bytes()).unwrap();
    }
    assert_eq!(copy.summary(), site.summary());
}

#[test]
fn two_sites_come_together() {
    let (mut north, mut south) = (Site::new().unwrap(), Site::new().unwrap());
    north.take(&batch(1..=250)).unwrap();
    south.take(&batch(151..=400)).unwrap();
    assert_eq!(bring(&mut north, &mut south), 150);
    assert_eq!(bring(&mut south, &mut north), 150);
    assert_eq!(bring(&mut south, &mut north), 0);
    assert_eq!(north.summary(), south.summary());
    for question in Question::ALL {
        assert_eq!(north.ask(question), south.ask(question), "{question:?}");
    }
}

/// A site in memory, and one over a file of the folder.
fn both(folder: &Folder) -> [Site; 2] {
    [
        Site::new().unwrap(),
        Site::open(folder.file("service.db")).unwrap(),
    ]
}

#[test]
fn bodies_of_several_callers_are_answered_each() {
    let folder = Folder::new("bodies");
    for mut site in both(&folder) {
        let taken = |fresh, repeated| Ok(Taken { fresh, repeated });
        let (one, two, three) = (batch([1, 2]), batch([2, 3]), event(9));
        let unnumbered = event(4).replace(&format!("{:020}", 4), "4");
        let bodies: [&[u8]; 6] = [&one, b"{}", &two, unnumbered.as_bytes(), b"[]", &one];
        let answers = [
            taken(2, 0),
            Err(Error::NoEvents),
            taken(1, 1),
            Err(Error::NoNumber),
            taken(0, 0),
            taken(0, 2),
        ];
        assert_eq!(site.take_each(&bodies).unwrap(), answers);
        assert_eq!(site.len(), 3);
        assert_eq!(site.take_each(&[]).unwrap(), []);
        assert_eq!(site.take_each(&[three.as_bytes()]).unwrap(), [taken(1, 0)]);
        // As many as a service may have waiting.
        let many: Vec<Vec<u8>> = (100..612).map(|number| batch([number, 1])).collect();
        let many: Vec<&[u8]> = many.iter().map(Vec::as_slice).collect();
        assert_eq!(site.take_each(&many).unwrap(), vec![taken(1, 1); 512]);
        assert_eq!(site.len(), 516);
    }
    assert_eq!(Site::open(folder.file("service.db")).unwrap().len(), 516);
}

#[test]
fn arrivals_keep_their_numbers() {
    let folder = Folder::new("arrivals");
    let ids = |page: &Page| -> Vec<u64> {
        let texts = page.json.split("\"id\":\"").skip(1);
        texts
            .map(|it| it.split('"').next().unwrap().parse().unwrap())
            .collect()
    };
    for mut site in both(&folder) {
        site.take(&batch([7, 3, 5])).unwrap();
        site.take(&batch((1..=120).rev())).unwrap();
        let first = site.arrivals(0).unwrap().unwrap();
        assert_eq!((first.from, first.events), (0, 100));
        assert_eq!(ids(&first)[..6], [7, 3, 5, 120, 119, 118]);
        let rest = site.arrivals(100).unwrap().unwrap();
        assert_eq!((rest.from, rest.events), (100, 20));
        assert_eq!(ids(&rest)[17..], [4, 2, 1]);
        assert_eq!(site.arrivals(120).unwrap(), None);
        assert_eq!(site.arrivals(u64::MAX).unwrap(), None);
        // A copy has the same events at the same numbers, and goes on alone.
        let mut copy = site.copy().unwrap();
        assert_eq!(copy.arrivals(0).unwrap(), Some(first));
        assert_eq!(copy.arrivals(100).unwrap(), Some(rest));
        assert_eq!(copy.summary(), site.summary());
        copy.take(&batch([121])).unwrap();
        assert_eq!((copy.len(), site.len()), (121, 120));
    }
    let mut again = Site::open(folder.file("service.db")).unwrap();
    again.take(&batch([130])).unwrap();
    assert_eq!(ids(&again.arrivals(1).unwrap().unwrap())[..3], [3, 5, 120]);
    assert_eq!(ids(&again.arrivals(120).unwrap().unwrap()), [130]);
}

#[test]
fn an_event_is_found_by_its_source_and_its_id() {
    let folder = Folder::new("get");
    for mut site in both(&folder) {
        let other = |kind: &str| event(7).replace("sold", kind);
        site.take(&batch(1..300)).unwrap();
        assert_eq!(site.get("/shop", "300").unwrap(), Vec::<String>::new());
        let found = site.get("/shop", "250").unwrap();
        assert_eq!(found.len(), 1);
        assert!(found[0].contains(r#""id":"250""#) && found[0].contains(r#""source":"/shop""#));
        // It is the text that is taken again, and that is shown.
        assert_eq!(site.take(found[0].as_bytes()).unwrap().repeated, 1);
        assert!(site.ask(Question::Shown).unwrap().contains(&found[0]));

        site.take(other("zinc").as_bytes()).unwrap();
        site.take(other("gold").as_bytes()).unwrap();
        let found = site.get("/shop", "7").unwrap();
        let kinds = ["gold", "sold", "zinc"].map(|kind| format!(r#""type":"{kind}""#));
        assert_eq!(found.len(), 3);
        assert!(found.iter().zip(&kinds).all(|(it, kind)| it.contains(kind)));
        assert!(site.ask(Question::Shown).unwrap().contains(&found[0]));
        let conflict = format!(
            "{{\"events\":[{}],\"id\":\"7\",\"source\":\"/shop\"}}\n",
            found.join(",")
        );
        assert_eq!(site.ask(Question::Conflicts).unwrap(), conflict);
        for (source, id) in [
            ("/shop", ""),
            ("", "7"),
            ("/sho", "p7"),
            ("/shop", "07"),
            ("7", "/shop"),
        ] {
            assert!(site.get(source, id).unwrap().is_empty(), "{source} {id}");
        }
        assert_eq!(site.len(), 301);
    }
}

/// Fills a file system but for 64 KiB.
fn fill(ballast: &Path) {
    use std::io::Write;
    let mut file = std::fs::File::create(ballast).unwrap();
    let mut size = 0;
    while let Ok(wrote) = file.write(&[0; 4096]) {
        size += wrote as u64;
    }
    file.set_len(size.checked_sub(65_536).unwrap()).unwrap();
}

/// In the folder that JUMBETAI_FULL names, on a small file system.
#[test]
fn a_full_disk_takes_none_of_the_bodies() {
    let Some(folder) = std::env::var_os("JUMBETAI_FULL") else {
        return eprintln!("skipped: JUMBETAI_FULL names no folder");
    };
    let (file, ballast) = (
        Path::new(&folder).join("rust.db"),
        Path::new(&folder).join("ballast"),
    );
    let (few, many) = (batch(1..4), batch(4..404));
    let bodies: [&[u8]; 3] = [&many, b"{}", &few];
    let mut site = Site::open_with_cache(&file, 1).unwrap();
    site.take(&few).unwrap();
    let before = said(&mut site);
    fill(&ballast);
    let refused = [Err(Error::Store), Err(Error::NoEvents), Err(Error::Store)];
    assert_eq!(site.take_each(&bodies).unwrap(), refused);
    let why = jumbetai::why().map(|error| error.kind());
    assert_eq!(why, Some(std::io::ErrorKind::StorageFull));
    assert_eq!(said(&mut site), before);
    assert_eq!(site.take(b"{}"), Err(Error::NoEvents));
    assert!(jumbetai::why().is_none());
    drop(site);
    std::fs::remove_file(&ballast).unwrap();
    let mut site = Site::open_with_cache(&file, 1).unwrap();
    assert_eq!(said(&mut site), before);
    let answers = site.take_each(&bodies).unwrap();
    assert_eq!(answers[0].map(|taken| taken.fresh), Ok(400));
    assert_eq!(answers[2].map(|taken| taken.repeated), Ok(3));
    drop(site);
    std::fs::remove_file(&file).unwrap();
}

#[test]
fn a_set_has_one_name() {
    let folder = Folder::new("names");
    let mut names = Vec::new();
    for mut site in both(&folder) {
        let none = site.name().unwrap();
        site.take(&batch(1..=1500)).unwrap();
        names.push(site.name().unwrap());
        assert_ne!(names.last(), Some(&none));
        assert_eq!(site.name().unwrap(), *names.last().unwrap());
        assert_eq!(site.cover(), site.ask(Question::Cover));
        site.release();
        assert_eq!(
            site.cover().unwrap(),
            "{\"sources\":{\"/shop\":[[1,1500]]},\"version\":1}\n"
        );
    }
    let mut other = Site::new().unwrap();
    other.take(&batch((1..=1500).rev())).unwrap();
    names.push(other.name().unwrap());
    assert_eq!(names[0], names[1]);
    assert_eq!(names[0], names[2]);
    other.take(&batch([1501])).unwrap();
    assert_ne!(names[0], other.name().unwrap());
}

#[test]
fn a_lag_is_told_both_ways() {
    let folder = Folder::new("lags");
    for mut site in both(&folder) {
        site.take(&batch((1..=3000).chain(5000..=5009))).unwrap();
        let mut peer = Site::new().unwrap();
        peer.take(&batch((1001..=3000).chain(4001..=4050))).unwrap();
        let lag = |lacking, ahead, blocks| {
            Ok(Lag {
                lacking,
                ahead,
                blocks,
            })
        };
        // The first block of three differs, the fourth of the peer and the fifth are on one side.
        let summary = peer.summary().unwrap();
        assert_eq!(site.compare(&summary), lag(50, 1010, 3));
        assert_eq!(peer.compare(&site.summary().unwrap()), lag(1010, 50, 3));
        assert_eq!(site.compare(&peer.cover().unwrap()), lag(50, 1010, 0));
        let own = site.summary().unwrap();
        assert_eq!(site.compare(&own), lag(0, 0, 0));
        assert_eq!(site.compare("{}"), Err(Error::SummaryShape));
    }
}

#[test]
fn parts_have_the_size_that_is_asked_for() {
    let folder = Folder::new("parts");
    for mut site in both(&folder) {
        site.take(&batch(1..=2500)).unwrap();
        let nothing = "{\"sources\":{},\"version\":1}";
        for (from, events, bytes, come) in [
            (0, 0, 0, 100),
            (0, 1, 0, 1),
            (0, 2000, 0, 2000),
            (0, u64::MAX, 0, 2000),
            (2000, 2000, 0, 500),
            (0, 2000, 1, 100),
            (0, 150, 1 << 30, 150),
        ] {
            let part = site
                .delta_part(nothing, from, events, bytes)
                .unwrap()
                .unwrap();
            assert_eq!((part.from, part.events), (from, come));
            // The events of the pages from there on, and no others.
            let inner = |json: &str| json.trim_end()[1..json.len() - 2].to_string();
            let mut pages = Vec::new();
            while pages.len() as u64 * PAGE < come {
                let at = from + pages.len() as u64 * PAGE;
                pages.push(inner(&site.delta_page(nothing, at).unwrap().unwrap().json));
            }
            let (all, had) = (pages.join(","), inner(&part.json));
            assert!(all.starts_with(&had));
            assert_eq!(had.matches("specversion").count() as u64, come);
        }
        // The page with which the texts have so many bytes is the last.
        let page = site.delta_page(nothing, 0).unwrap().unwrap().json;
        let texts = page.trim_end().len() as u64 - 2 - 99;
        for (bytes, come) in [(texts, 100), (texts + 1, 200)] {
            let part = site.delta_part(nothing, 0, 2000, bytes).unwrap().unwrap();
            assert_eq!(part.events, come);
        }
        assert_eq!(site.delta_part(nothing, 2500, 2000, 0).unwrap(), None);
        assert_eq!(
            site.delta_part(nothing, u64::MAX, u64::MAX, u64::MAX)
                .unwrap(),
            None
        );
        let own = site.summary().unwrap();
        assert_eq!(site.delta_part(&own, 0, 2000, 0).unwrap(), None);
        let later = site.delta_part("{\"version\":3}", 0, 1, 0);
        assert_eq!(later, Err(Error::SummaryVersion));
    }
}

#[test]
fn bytes_are_tested_without_a_site() {
    assert_eq!(jumbetai::test(&batch(1..=250)), Ok(250));
    assert_eq!(jumbetai::test(event(1).as_bytes()), Ok(1));
    assert_eq!(jumbetai::test(b"[]"), Ok(0));
    assert_eq!(jumbetai::test(b""), Err(Error::NoEvents));
    let unnumbered = event(4).replace(&format!("{:020}", 4), "4");
    assert_eq!(jumbetai::test(unnumbered.as_bytes()), Err(Error::NoNumber));
}

#[test]
fn what_is_refused_leaves_the_site() {
    let mut site = Site::new().unwrap();
    assert_eq!(site.take(b"{}"), Err(Error::NoEvents));
    assert_eq!(site.take(b""), Err(Error::NoEvents));
    let unnumbered = [&batch([1])[..], b" "].concat();
    let unnumbered = String::from_utf8(unnumbered)
        .unwrap()
        .replace("00000000000000000001", "1");
    assert_eq!(site.take(unnumbered.as_bytes()), Err(Error::NoNumber));
    assert!(site
        .check(unnumbered.as_bytes())
        .unwrap()
        .contains("\"fault\":\"BadSequence\""));
    assert_eq!(site.check(&batch([1])).unwrap(), "");
    assert!(site.is_empty());
    assert_eq!(site.delta("").next(), Some(Err(Error::SummaryNotJson)));
    assert_eq!(site.delta("{}").next(), Some(Err(Error::SummaryShape)));
    assert_eq!(
        site.delta(r#"{"sources":{},"version":3}"#).next(),
        Some(Err(Error::SummaryVersion))
    );
    let spaced = r#" {"sources":{},"version":1}"#;
    assert_eq!(
        site.delta(spaced).collect::<Vec<_>>(),
        [Err(Error::SummaryNotCanonical)]
    );
    assert_eq!(Error::NoEvents.to_string(), "the bytes spell no events");
}

#[test]
fn threads_share_a_site_by_a_mutex() {
    let site = Arc::new(Mutex::new(Site::new().unwrap()));
    let work = |first: u64| {
        let site = Arc::clone(&site);
        std::thread::spawn(move || {
            for number in first..first + 25 {
                site.lock().unwrap().take(event(number).as_bytes()).unwrap();
            }
        })
    };
    let threads: Vec<_> = (0..8).map(|it| work(1 + 25 * it)).collect();
    for it in threads {
        it.join().unwrap();
    }
    let answer = site.lock().unwrap().ask(Question::Cover).unwrap();
    assert_eq!(
        answer,
        "{\"sources\":{\"/shop\":[[1,200]]},\"version\":1}\n"
    );
}

#[test]
fn kept_views_change_no_answer() {
    let (mut plain, mut keeping) = (Site::new().unwrap(), Site::new().unwrap());
    keeping.take(&batch(1..=10)).unwrap();
    keeping.keep_views().unwrap();
    keeping.take(&batch(5..=20)).unwrap();
    plain.take(&batch(1..=20)).unwrap();
    for question in Question::ALL {
        assert_eq!(plain.ask(question), keeping.ask(question), "{question:?}");
    }
}

#[test]
fn a_file_has_what_was_taken() {
    let folder = Folder::new("kept");
    let file = folder.file("site.db");
    let mut plain = Site::new().unwrap();
    plain.take(&batch(1..=300)).unwrap();
    let mut site = Site::open(&file).unwrap();
    assert!(site.is_empty());
    let taken = |fresh, repeated| Ok(Taken { fresh, repeated });
    assert_eq!(site.take(&batch(1..=250)), taken(250, 0));
    assert_eq!(site.take(b"{}"), Err(Error::NoEvents));
    assert_eq!(site.take(&batch(201..=300)), taken(50, 50));
    assert!(said(&mut site) == said(&mut plain));
    drop(site);
    let mut site = Site::open(&file).unwrap();
    assert_eq!(site.len(), 300);
    assert!(said(&mut site) == said(&mut plain));
    site.keep_views().unwrap();
    assert_eq!(site.take(&batch(300..=310)), taken(10, 1));
    plain.take(&batch(301..=310)).unwrap();
    assert!(said(&mut site) == said(&mut plain));
    drop(site);
    let mut site = Site::open_with_cache(&file, 1).unwrap();
    assert!(said(&mut site) == said(&mut plain));
}

#[test]
fn a_site_in_memory_and_one_over_a_file_come_together() {
    let folder = Folder::new("together");
    let mut north = Site::open(folder.file("north.db")).unwrap();
    let mut south = Site::new().unwrap();
    north.take(&batch(1..=250)).unwrap();
    south.take(&batch(151..=400)).unwrap();
    assert_eq!(bring(&mut north, &mut south), 150);
    assert_eq!(bring(&mut south, &mut north), 150);
    assert!(said(&mut north) == said(&mut south));
}

#[test]
fn a_file_is_busy_while_it_is_open() {
    let elsewhere = |file| opened_elsewhere("a_file_is_busy_while_it_is_open", file);
    open_if_asked(|path| Site::open(path).err());
    let folder = Folder::new("busy");
    let file = folder.file("site.db");
    let mut site = Site::open(&file).unwrap();
    site.take(&batch(1..=3)).unwrap();
    assert_eq!(elsewhere(&file), Error::Busy.status());
    assert_eq!(Site::open(&file).err(), Some(Error::Busy));
    assert_eq!(site.take(&batch(3..=4)).unwrap().fresh, 1);
    drop(site);
    assert_eq!(elsewhere(&file), 0);
    assert_eq!(Site::open(&file).unwrap().len(), 4);
}

const TAKE: &str = "JUMBETAI_TEST_TAKE";

#[test]
fn an_aborted_process_loses_nothing() {
    if let Some(path) = std::env::var_os(TAKE) {
        let mut site = Site::open(path).unwrap();
        site.take(&batch(1..=250)).unwrap();
        std::process::abort();
    }
    let folder = Folder::new("aborted");
    let file = folder.file("site.db");
    let ended = Command::new(std::env::current_exe().unwrap())
        .args(["--exact", "an_aborted_process_loses_nothing"])
        .env(TAKE, &file)
        .current_dir(&folder.path)
        .output()
        .unwrap();
    assert_eq!(ended.status.code(), None);
    assert!(folder.file("site.db-wal").metadata().unwrap().len() > 0);
    assert_eq!(Site::open(&file).unwrap().len(), 250);
}

#[test]
fn a_site_over_a_file_goes_from_thread_to_thread() {
    let folder = Folder::new("threads");
    let file = folder.file("site.db");
    let site = Arc::new(Mutex::new(Site::open(&file).unwrap()));
    let work = |first: u64| {
        let site = Arc::clone(&site);
        std::thread::spawn(move || {
            for number in first..first + 5 {
                site.lock().unwrap().take(event(number).as_bytes()).unwrap();
            }
        })
    };
    let threads: Vec<_> = (0..4).map(|it| work(1 + 5 * it)).collect();
    for it in threads {
        it.join().unwrap();
    }
    let site = Arc::into_inner(site).unwrap().into_inner().unwrap();
    std::thread::spawn(move || drop(site)).join().unwrap();
    assert_eq!(Site::open(&file).unwrap().len(), 20);
}

#[test]
fn what_is_no_database_is_refused() {
    let folder = Folder::new("refused");
    let refused = |name: &str| Site::open(folder.file(name)).err();
    assert_eq!(refused("zero\0byte"), Some(Error::NoFile));
    assert!(folder.path.read_dir().unwrap().next().is_none());
    assert_eq!(refused("none/site.db"), Some(Error::System));
    assert_eq!(refused("."), Some(Error::NoFile));
    std::fs::write(folder.file("text.db"), [b'a'; 200]).unwrap();
    assert_eq!(refused("text.db"), Some(Error::NoDatabase));
    assert_eq!(std::fs::read(folder.file("text.db")).unwrap(), [b'a'; 200]);
    Site::open(folder.file("site.db"))
        .unwrap()
        .take(&batch(1..=3))
        .unwrap();
    std::fs::hard_link(folder.file("site.db"), folder.file("second.db")).unwrap();
    assert_eq!(refused("site.db"), Some(Error::NoFile));
    std::fs::remove_file(folder.file("second.db")).unwrap();
    std::fs::write(folder.file("site.db-journal"), [0xd9; 512]).unwrap();
    assert_eq!(refused("site.db"), Some(Error::Journal));
    std::fs::remove_file(folder.file("site.db-journal")).unwrap();
    assert_eq!(Site::open(folder.file("site.db")).unwrap().len(), 3);
    let mut bytes = std::fs::read(folder.file("site.db")).unwrap();
    bytes[100] ^= 0xff;
    std::fs::write(folder.file("site.db"), bytes).unwrap();
    assert_eq!(refused("site.db"), Some(Error::Damaged));
}

#[test]
fn each_error_has_its_status_and_its_words() {
    let all = [
        (1, Error::OutOfMemory),
        (2, Error::NoEvents),
        (3, Error::NoNumber),
        (5, Error::SummaryNotJson),
        (6, Error::SummaryShape),
        (7, Error::SummaryVersion),
        (8, Error::SummaryNotCanonical),
        (10, Error::NoRandom),
        (12, Error::Busy),
        (13, Error::Journal),
        (14, Error::NoFile),
        (15, Error::System),
        (16, Error::NoDatabase),
        (17, Error::Damaged),
        (18, Error::Store),
        (19, Error::Foreign),
        (20, Error::Owed),
        (21, Error::OrderExists),
        (22, Error::NoOrder),
        (23, Error::WrongState),
        (24, Error::Full),
        (25, Error::BadTime),
        (26, Error::BadOrder),
        (27, Error::BadSource),
        (28, Error::AnotherSource),
        (30, Error::HasSequence),
        (31, Error::TooLarge),
        (32, Error::BadParts),
        (33, Error::NotACover),
        (34, Error::NotAnAnswer),
        (35, Error::CoverCount),
        (36, Error::TooMany),
        (37, Error::Overlap),
    ];
    let unknown = Error::Other(1_000_000).to_string();
    let mut words: Vec<String> = all.iter().map(|(_, it)| it.to_string()).collect();
    assert!(all.iter().all(|(status, it)| it.status() == *status));
    assert!(!words.contains(&unknown));
    words.sort();
    words.dedup();
    assert_eq!(words.len(), all.len());
}

#[test]
fn the_version_is_that_of_the_crate() {
    assert_eq!(jumbetai::version(), env!("CARGO_PKG_VERSION"));
}

/// The batch that JUMBETAI_BATCH names, else a small one.
fn given_batch() -> Vec<u8> {
    match std::env::var_os("JUMBETAI_BATCH") {
        Some(file) => std::fs::read(file).unwrap(),
        None => batch(1..=500),
    }
}

#[test]
fn the_order_in_which_events_come_changes_no_answer() {
    let mut site = Site::new().unwrap();
    site.take(&given_batch()).unwrap();
    let pages: Vec<Page> = site.pages().collect::<Result<_, _>>().unwrap();
    let mut copy = Site::new().unwrap();
    for page in pages.iter().rev() {
        assert_eq!(copy.take(page.json.as_bytes()).unwrap().fresh, page.events);
    }
    assert_eq!(copy.len(), site.len());
    assert!(copy.summary() == site.summary());
    for question in Question::ALL {
        assert!(copy.ask(question) == site.ask(question), "{question:?}");
    }
}

#[test]
fn answers_are_those_of_the_program() {
    let Some(program) = program() else {
        return;
    };
    let kept = Folder::new("program");
    let folder = &kept.path;
    let bytes = given_batch();
    std::fs::write(folder.join("batch.json"), &bytes).unwrap();
    let mut site = Site::new().unwrap();
    site.take(&bytes).unwrap();
    for (question, word) in Question::ALL.into_iter().zip(WORDS) {
        let said = printed(&program, folder, &[word, "batch.json"]);
        assert!(site.ask(question).unwrap() == said, "{word}");
    }
    printed(&program, folder, &["take", "--db", "site.db", "batch.json"]);
    assert!(site.summary().unwrap() == printed(&program, folder, &["summary", "--db", "site.db"]));
    let nothing = Site::new().unwrap().summary().unwrap();
    std::fs::write(folder.join("nothing"), &nothing).unwrap();
    let second = site.delta_page(&nothing, 100).unwrap().unwrap();
    let words = ["delta", "--db", "site.db", "--from", "100", "nothing"];
    assert_eq!(second.json, printed(&program, folder, &words));
    let first = site.page(0).unwrap().unwrap();
    assert_eq!(
        first.json,
        printed(&program, folder, &["scrub", "--db", "site.db"])
    );
}

#[test]
fn the_program_reads_what_a_site_leaves() {
    let Some(program) = program() else {
        return;
    };
    let kept = Folder::new("left");
    let folder = &kept.path;
    let file = kept.file("site.db");
    let mut site = Site::open(&file).unwrap();
    site.take(&given_batch()).unwrap();
    let words = ["kinds", "--db", "site.db"];
    let held = Command::new(&program)
        .args(words)
        .current_dir(folder)
        .output()
        .unwrap();
    assert_eq!(held.status.code(), Some(1));
    assert!(held.stdout.is_empty());
    let kinds = site.ask(Question::Kinds).unwrap();
    let summary = site.summary().unwrap();
    drop(site);
    assert!(printed(&program, folder, &words) == kinds);
    assert!(printed(&program, folder, &["summary", "--db", "site.db"]) == summary);
    std::fs::write(folder.join("more.json"), event(9_000_000)).unwrap();
    printed(&program, folder, &["take", "--db", "site.db", "more.json"]);
    let mut site = Site::open(&file).unwrap();
    assert_eq!(site.take(event(9_000_000).as_bytes()).unwrap().repeated, 1);
    assert!(site.summary().unwrap() != summary);
}
