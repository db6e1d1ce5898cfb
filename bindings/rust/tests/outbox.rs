//! Tests of outboxes: `JUMBETAI_LIB_DIR=FOLDER cargo test --offline`.
//!
//! JUMBETAI_SITE names the program `site`, whose events, rows and files are then compared. JUMBETAI_ORDERS says how
//! many orders are placed in the largest test, 300 where it isn't set.

mod common;

use common::{open_if_asked, opened_elsewhere, printed, program, Folder};
use jumbetai::{Error, OrderCounts, Outbox, Question, Rows, Site};
use std::process::Command;
use std::sync::{Arc, Mutex};

const NOON: &str = "2024-02-29T12:00:00Z";
const LARGEST: u64 = i64::MAX as u64;

/// The event of a row, without a line end.
fn event(source: &str, number: u64, order: u64, kind: &str) -> String {
    format!(
        r#"{{"id":"{number:020}","sequence":"{number:020}","source":"{source}","specversion":"1.0","subject":"{order}","time":"{NOON}","type":"order.{kind}"}}"#
    )
}

fn counts(base: u64, last: u64, orders: u64) -> OrderCounts {
    OrderCounts { base, last, orders }
}

fn all_rows(outbox: &mut Outbox, after: u64) -> Vec<Rows> {
    outbox.rows(after).collect::<Result<_, _>>().unwrap()
}

/// The rows as `site relay --all` prints them.
fn relayed(outbox: &mut Outbox) -> String {
    all_rows(outbox, 0).into_iter().map(|it| it.json).collect()
}

/// Brings the rows behind a mark to a site; answers the new mark.
fn bring(outbox: &mut Outbox, after: u64, site: &mut Site) -> u64 {
    let mut mark = after;
    for page in outbox.rows(after) {
        let page = page.unwrap();
        site.take(page.json.as_bytes()).unwrap();
        mark = page.last;
    }
    mark
}

#[test]
fn orders_tell_their_events() {
    let folder = Folder::new("told");
    let mut outbox = Outbox::open(folder.file("a.db")).unwrap();
    assert_eq!(outbox.counts(), counts(0, 0, 0));
    let line = |number, order, kind| Ok(format!("{}\n", event("/orders", number, order, kind)));
    assert_eq!(outbox.place(7, NOON), line(1, 7, "placed"));
    assert_eq!(outbox.place(LARGEST, NOON), line(2, LARGEST, "placed"));
    assert_eq!(outbox.ship(7, NOON), line(3, 7, "shipped"));
    assert_eq!(outbox.cancel(LARGEST, NOON), line(4, LARGEST, "cancelled"));
    assert_eq!(outbox.counts(), counts(0, 4, 2));
    let rows: Vec<String> = [(1, 7, "placed"), (2, LARGEST, "placed"), (3, 7, "shipped")]
        .map(|(number, order, kind)| event("/orders", number, order, kind))
        .into();
    let last = event("/orders", 4, LARGEST, "cancelled");
    let json = format!("[{},{last}]\n", rows.join(","));
    let (last, events) = (4, 4);
    assert_eq!(all_rows(&mut outbox, 0), [Rows { last, events, json }]);
    assert_eq!(format!("{outbox:?}").matches('4').count(), 1);
}

#[test]
fn what_is_refused_leaves_the_outbox() {
    let folder = Folder::new("refused-orders");
    let mut outbox = Outbox::open(folder.file("a.db")).unwrap();
    assert_eq!(outbox.ship(7, NOON), Err(Error::NoOrder));
    outbox.place(7, NOON).unwrap();
    outbox.place(8, NOON).unwrap();
    outbox.ship(7, NOON).unwrap();
    let (before, rows) = (outbox.counts(), all_rows(&mut outbox, 0));
    let refused = [
        (outbox.place(7, NOON), Error::OrderExists),
        (outbox.place(8, NOON), Error::OrderExists),
        (outbox.ship(7, NOON), Error::WrongState),
        (outbox.cancel(7, NOON), Error::WrongState),
        (outbox.cancel(9, NOON), Error::NoOrder),
        (outbox.place(0, NOON), Error::BadOrder),
        (outbox.place(LARGEST + 1, NOON), Error::BadOrder),
        (outbox.ship(u64::MAX, NOON), Error::BadOrder),
        (outbox.place(9, ""), Error::BadTime),
        (outbox.place(9, "2024-02-30T12:00:00Z"), Error::BadTime),
        (outbox.place(9, "2024-02-29T12:00:00Z\0"), Error::BadTime),
        (outbox.ship(8, "noon"), Error::BadTime),
    ];
    for (i, (got, want)) in refused.into_iter().enumerate() {
        assert_eq!(got, Err(want), "{i}");
    }
    assert_eq!(outbox.counts(), before);
    assert_eq!(all_rows(&mut outbox, 0), rows);
    outbox.cancel(8, NOON).unwrap();
}

#[test]
fn rows_come_in_turn_from_any_number_on() {
    let folder = Folder::new("rows");
    let mut outbox = Outbox::open_as(folder.file("a.db"), "/west", 1000).unwrap();
    assert_eq!(all_rows(&mut outbox, 0), []);
    for order in 1..=250 {
        outbox.place(order, NOON).unwrap();
    }
    let pages = |outbox: &mut Outbox, after| -> Vec<(u64, u64)> {
        let pages = all_rows(outbox, after);
        pages.iter().map(|page| (page.last, page.events)).collect()
    };
    let whole = [(1100, 100), (1200, 100), (1250, 50)];
    for after in [0, 999, 1000] {
        assert_eq!(pages(&mut outbox, after), whole);
    }
    assert_eq!(pages(&mut outbox, 1100), whole[1..]);
    assert_eq!(pages(&mut outbox, 1249), [(1250, 1)]);
    for after in [1250, 1251, u64::MAX] {
        assert_eq!(outbox.rows_page(after), Ok(None));
    }
    let last = outbox.rows_page(1249).unwrap().unwrap();
    assert_eq!(
        last.json,
        format!("[{}]\n", event("/west", 1250, 250, "placed"))
    );
}

#[test]
fn a_file_keeps_its_source_and_its_base() {
    let folder = Folder::new("source");
    let file = folder.file("a.db");
    let longest = "\u{e9}".repeat(512);
    for (source, base) in [
        ("", 0),
        ("a\0b", 0),
        ("a\u{7}b", 0),
        (&*format!("{longest}a"), 0),
        ("/west", LARGEST + 1),
    ] {
        let refused = Outbox::open_as(&file, source, base).err();
        assert_eq!(refused, Some(Error::BadSource), "{source:?} {base}");
    }
    assert_eq!(Outbox::open("zero\0byte").err(), Some(Error::NoFile));
    let mut outbox = Outbox::open_as(&file, &longest, LARGEST - 2).unwrap();
    let line = |number, order, kind| Ok(format!("{}\n", event(&longest, number, order, kind)));
    assert_eq!(outbox.place(1, NOON), line(LARGEST - 1, 1, "placed"));
    drop(outbox);
    assert_eq!(
        Outbox::open_as(&file, "/orders", 0).err(),
        Some(Error::AnotherSource)
    );
    let mut outbox = Outbox::open_with_cache(&file, None, 5, 1).unwrap();
    assert_eq!(outbox.counts(), counts(LARGEST - 2, LARGEST - 1, 1));
    assert_eq!(outbox.ship(1, NOON), line(LARGEST, 1, "shipped"));
    assert_eq!(outbox.place(2, NOON), Err(Error::Full));
    drop(outbox);
    let mut outbox = Outbox::open_as(&file, &longest, 0).unwrap();
    assert_eq!(outbox.counts(), counts(LARGEST - 2, LARGEST, 1));
    assert_eq!(outbox.rows_page(0).unwrap().unwrap().last, LARGEST);
    assert_eq!(outbox.rows_page(LARGEST).unwrap(), None);
}

#[test]
fn a_file_is_busy_while_it_is_open() {
    let elsewhere = |file| opened_elsewhere("a_file_is_busy_while_it_is_open", file);
    open_if_asked(|path| Outbox::open(path).err());
    let folder = Folder::new("busy-orders");
    let file = folder.file("a.db");
    let mut outbox = Outbox::open(&file).unwrap();
    outbox.place(1, NOON).unwrap();
    assert_eq!(elsewhere(&file), Error::Busy.status());
    assert_eq!(Outbox::open(&file).err(), Some(Error::Busy));
    assert_eq!(Site::open(&file).err(), Some(Error::Busy));
    outbox.place(2, NOON).unwrap();
    drop(outbox);
    assert_eq!(elsewhere(&file), 0);
    let site = Site::open(&file).unwrap();
    assert_eq!(elsewhere(&file), Error::Busy.status());
    drop(site);
    assert_eq!(Outbox::open(&file).unwrap().counts(), counts(0, 2, 2));
}

const PLACE: &str = "JUMBETAI_TEST_PLACE";

#[test]
fn an_aborted_process_loses_nothing() {
    if let Some(path) = std::env::var_os(PLACE) {
        let mut outbox = Outbox::open(path).unwrap();
        for order in 1..=50 {
            outbox.place(order, NOON).unwrap();
        }
        std::process::abort();
    }
    let folder = Folder::new("aborted-orders");
    let file = folder.file("a.db");
    let ended = Command::new(std::env::current_exe().unwrap())
        .args(["--exact", "an_aborted_process_loses_nothing"])
        .env(PLACE, &file)
        .current_dir(&folder.path)
        .output()
        .unwrap();
    assert_eq!(ended.status.code(), None);
    let mut outbox = Outbox::open(&file).unwrap();
    assert_eq!(outbox.counts(), counts(0, 50, 50));
    assert_eq!(outbox.place(50, NOON), Err(Error::OrderExists));
}

#[test]
fn threads_share_an_outbox_by_a_mutex() {
    let folder = Folder::new("order-threads");
    let outbox = Outbox::open(folder.file("a.db")).unwrap();
    let outbox = Arc::new(Mutex::new(outbox));
    let work = |first: u64| {
        let outbox = Arc::clone(&outbox);
        std::thread::spawn(move || {
            for order in first..first + 5 {
                outbox.lock().unwrap().place(order, NOON).unwrap();
            }
        })
    };
    let threads: Vec<_> = (0..4).map(|it| work(1 + 5 * it)).collect();
    for it in threads {
        it.join().unwrap();
    }
    let outbox = Arc::into_inner(outbox).unwrap().into_inner().unwrap();
    assert_eq!(outbox.counts(), counts(0, 20, 20));
    std::thread::spawn(move || drop(outbox)).join().unwrap();
}

#[test]
fn what_lies_beside_an_outbox_stays() {
    let folder = Folder::new("beside");
    let file = folder.file("a.db");
    let mut other = Outbox::open_as(folder.file("other.db"), "/other", 0).unwrap();
    for order in 1..=150 {
        other.place(order, NOON).unwrap();
    }
    let mut site = Site::open(&file).unwrap();
    bring(&mut other, 0, &mut site);
    let (summary, kinds) = (site.summary(), site.ask(Question::Kinds));
    drop(site);
    let mut outbox = Outbox::open_as(&file, "/north", 0).unwrap();
    for order in 1..=5 {
        outbox.place(order, NOON).unwrap();
    }
    drop(outbox);
    let mut site = Site::open(&file).unwrap();
    assert_eq!(site.len(), 150);
    assert_eq!(site.summary(), summary);
    assert_eq!(site.ask(Question::Kinds), kinds);
    drop(site);
    let mut outbox = Outbox::open(&file).unwrap();
    let rows = relayed(&mut outbox);
    let mut copy = Site::new().unwrap();
    assert_eq!(bring(&mut outbox, 0, &mut copy), 5);
    drop(outbox);
    let mut site = Site::open(&file).unwrap();
    assert_eq!(site.take(rows.as_bytes()).unwrap().fresh, 5);
    drop(site);
    assert_eq!(relayed(&mut Outbox::open(&file).unwrap()), rows);
}

/// How many orders the largest test places.
fn many() -> u64 {
    let given = std::env::var("JUMBETAI_ORDERS").ok();
    given.map_or(300, |it| it.parse().unwrap())
}

#[test]
fn many_orders_go_to_a_site() {
    let folder = Folder::new("many");
    let file = folder.file("a.db");
    let orders = many();
    let mut outbox = Outbox::open_as(&file, "/north", 0).unwrap();
    let (mut site, mut mark, mut rows) = (Site::new().unwrap(), 0, 0);
    for order in 1..=orders {
        outbox.place(order, NOON).unwrap();
        rows += 1;
        if order % 3 == 0 {
            outbox.ship(order, NOON).unwrap();
            rows += 1;
        } else if order % 5 == 0 {
            outbox.cancel(order, NOON).unwrap();
            rows += 1;
        }
        if order % 1000 == 0 {
            mark = bring(&mut outbox, mark, &mut site);
            assert_eq!(mark, rows);
        }
    }
    assert_eq!(outbox.counts(), counts(0, rows, orders));
    drop(outbox);
    let mut outbox = Outbox::open(&file).unwrap();
    assert_eq!(outbox.counts(), counts(0, rows, orders));
    // All of them come once more, and those that were brought are only counted as repeated.
    assert_eq!(bring(&mut outbox, 0, &mut site), rows);
    assert_eq!(site.len(), rows);
    let shipped = orders / 3;
    let cancelled = orders / 5 - orders / 15;
    assert_eq!(
        site.ask(Question::Kinds).unwrap(),
        format!(
            "[\"order.cancelled\",{cancelled}]\n[\"order.placed\",{orders}]\n[\"order.shipped\",{shipped}]\n"
        )
    );
    let cover = format!("{{\"sources\":{{\"/north\":[[1,{rows}]]}},\"version\":1}}\n");
    assert_eq!(site.ask(Question::Cover).unwrap(), cover);
    assert_eq!(site.ask(Question::Gaps).unwrap(), "");
}

/// What is done, in turn, with the orders of the comparison with the program.
const DONE: [(&str, u64); 8] = [
    ("place", 1),
    ("place", 7),
    ("ship", 7),
    ("place", LARGEST),
    ("cancel", 1),
    ("place", 3),
    ("ship", LARGEST),
    ("cancel", 3),
];

fn done_here(outbox: &mut Outbox, action: &str, order: u64) -> String {
    let said = match action {
        "place" => outbox.place(order, NOON),
        "ship" => outbox.ship(order, NOON),
        _ => outbox.cancel(order, NOON),
    };
    said.unwrap()
}

#[test]
fn a_file_goes_from_the_program_to_an_outbox_and_back() {
    let Some(program) = program() else {
        return;
    };
    let kept = Folder::new("both-ways");
    let folder = &kept.path;
    let run = |words: &[&str]| printed(&program, folder, words);
    let order = |db: &str, action: &str, order: u64| {
        let order = order.to_string();
        run(&[
            "order", "--db", db, "--at", NOON, "--source", "/north", action, &order,
        ])
    };
    run(&[
        "service",
        "--db",
        "theirs.db",
        "--source",
        "/north",
        "--base",
        "40",
    ]);
    let mut ours = Outbox::open_as(kept.file("ours.db"), "/north", 40).unwrap();
    let held = Command::new(&program)
        .args(["relay", "--db", "ours.db", "--after", "0", "--all"])
        .current_dir(folder)
        .output()
        .unwrap();
    assert_eq!((held.status.code(), held.stdout.len()), (Some(1), 0));
    for (action, number) in &DONE[..4] {
        let said = done_here(&mut ours, action, *number);
        assert_eq!(
            said,
            order("theirs.db", action, *number),
            "{action} {number}"
        );
    }
    // Each goes on with the other's file.
    let counts = ours.counts();
    drop(ours);
    let mut theirs = Outbox::open_as(kept.file("theirs.db"), "/north", 0).unwrap();
    assert_eq!(theirs.counts(), counts);
    for (action, number) in &DONE[4..] {
        let said = done_here(&mut theirs, action, *number);
        assert_eq!(said, order("ours.db", action, *number), "{action} {number}");
    }
    let rows = relayed(&mut theirs);
    drop(theirs);
    let service = "{\"base\":40,\"orders\":4,\"rows\":8,\"source\":\"/north\"}\n";
    for db in ["ours.db", "theirs.db"] {
        assert_eq!(
            run(&["relay", "--db", db, "--after", "0", "--all"]),
            rows,
            "{db}"
        );
        assert_eq!(run(&["service", "--db", db]), service, "{db}");
        let mut outbox = Outbox::open(kept.file(db)).unwrap();
        assert_eq!(relayed(&mut outbox), rows, "{db}");
        assert_eq!(outbox.ship(7, NOON), Err(Error::WrongState), "{db}");
    }
}
