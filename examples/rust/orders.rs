//! `orders DB SITE N` places N orders in an outbox over the file DB, ships each of them, hands all
//! rows to a site over the file SITE, and prints what each of these took, in microseconds: to open
//! the outbox again too, which tests all rows.

use jumbetai::{Outbox, Site};
use std::error::Error;
use std::time::Instant;

/// Does it so many times, and prints how long one time took by the whole.
fn time<T>(
    name: &str,
    times: u64,
    work: impl FnOnce() -> Result<T, Box<dyn Error>>,
) -> Result<T, Box<dyn Error>> {
    let start = Instant::now();
    let done = work()?;
    let micros = start.elapsed().as_micros() / u128::from(times.max(1));
    println!("{name}: {micros} us");
    Ok(done)
}

/// Hands the rows behind a mark to a site, page by page; answers the mark behind the last of them.
fn hand_on(outbox: &mut Outbox, mark: u64, site: &mut Site) -> Result<u64, Box<dyn Error>> {
    let mut mark = mark;
    for page in outbox.rows(mark) {
        let page = page?;
        site.take(page.json.as_bytes())?;
        mark = page.last;
    }
    Ok(mark)
}

fn main() -> Result<(), Box<dyn Error>> {
    let words: Vec<String> = std::env::args().skip(1).collect();
    let [file, to, orders] = &words[..] else {
        return Err("usage: orders DB SITE N".into());
    };
    let orders: u64 = orders.parse()?;
    let mut outbox = Outbox::open_as(file, "/shop", 0)?;
    time("place an order", orders, || {
        for order in 1..=orders {
            outbox.place(order, "2024-02-29T10:00:00Z")?;
        }
        Ok(())
    })?;
    time("ship an order", orders, || {
        for order in 1..=orders {
            outbox.ship(order, "2024-02-29T11:00:00Z")?;
        }
        Ok(())
    })?;
    time("close", 1, || {
        drop(outbox);
        Ok(())
    })?;
    let mut outbox = time("open", 1, || Ok(Outbox::open(file)?))?;
    let mut site = Site::open(to)?;
    let mark = outbox.counts().last;
    let taken = time("hand a row on", mark, || hand_on(&mut outbox, 0, &mut site))?;
    time("page all rows", 1, || {
        outbox
            .rows(0)
            .try_for_each(|it| it.map(drop))
            .map_err(Into::into)
    })?;
    if (taken, site.len()) != (2 * orders, 2 * orders) {
        return Err(format!("{taken} rows, {} events", site.len()).into());
    }
    Ok(())
}
