//! The page in headless Chromium: it opens without a word on the console and asks for nothing else, its figures are the listing's, and a run
//! tells its earnings where the pointer is on it.

mod support;

use ralwinga::amounts::dollars;
use std::path::{Path, PathBuf};
use support::browser::Browser;
use support::points::WORKED;
use support::{dated, month, paper, ralwinga, Folder, Random, C1, FULL};

/// The page of a case and what the command prints beside it.
fn page(folder: &Folder, name: &str, case: &str) -> (PathBuf, String) {
    let case = folder.file(name, case);
    let page = folder.path(&format!("{name}.html"));
    let words = [case.as_os_str(), "--html".as_ref(), page.as_os_str()];
    let answer = ralwinga(words).output().expect("runs");
    (page, String::from_utf8(answer.stdout).expect("text"))
}

/// Opened, nothing on the console, and nothing loaded besides.
fn opened(browser: &Browser, page: &Path) {
    browser.open(page);
    assert_eq!(browser.console(), r#"{"value":[]}"#);
    let loaded =
        "performance.getEntriesByType('resource').filter(r => !r.name.startsWith('data:')).length";
    assert_eq!(browser.text(loaded), "0");
}

fn text_at(browser: &Browser, selector: &str) -> String {
    browser.text(&format!("document.querySelector('{selector}').textContent"))
}

/// The rows of a table under its heading, field by field.
fn table(browser: &Browser, id: &str, rows: &str) -> Vec<Vec<String>> {
    let all = format!("[...document.querySelectorAll('#{id} {rows}')]");
    let fields = "[...row.cells].map(cell => cell.textContent).join('|')";
    let text = browser.text(&format!(
        "{all}.filter(row => row.querySelector('td')).map(row => {fields}).join('\\\\n')"
    ));
    let fields = |line: &str| line.split('|').map(str::to_string).collect();
    text.lines().map(fields).collect()
}

fn value_of<'a>(listing: &'a str, name: &str) -> &'a str {
    let (_, values) = listing.split_once("\n\n").expect("values");
    let line = values.lines().find_map(|line| line.strip_prefix(name));
    line.expect("a value").trim_start_matches(',')
}

/// The page's figures against the listing, through `paper`'s own writing of a schedule.
fn agrees(browser: &Browser, listing: &str) {
    assert_eq!(text_at(browser, "#listing"), listing);
    let profit: i64 = value_of(listing, "profit").parse().expect("a number");
    assert_eq!(text_at(browser, "#profit"), dollars(profit));
    let adders = table(browser, "adders", "tr");
    for (row, name) in adders.iter().zip(["starts", "hours", "mwh"]) {
        match value_of(listing, name).parse() {
            Ok(gap) => assert_eq!(row[2], dollars(gap)),
            Err(_) => assert!(row[2].starts_with(value_of(listing, name)), "{row:?}"),
        }
    }
    let runs = table(browser, "runs", "tr:not(.part)");
    let (all, runs) = runs.split_last().expect("a row for all");
    assert_eq!(all[8], dollars(profit));
    let outputs: Vec<u64> = listing
        .lines()
        .skip(1)
        .take_while(|line| !line.is_empty())
        .map(|line| line.split(',').nth(1).expect("MW").parse().expect("MW"))
        .collect();
    assert!(listing.starts_with(&paper::table(&outputs)));
    let begins = |(i, mw): (usize, &u64)| *mw > 0 && (i == 0 || outputs[i - 1] == 0);
    let begun = outputs
        .iter()
        .enumerate()
        .filter(|run| begins(*run))
        .count();
    assert_eq!(runs.len(), begun);
    assert_eq!(
        browser.text("document.querySelectorAll('svg .run').length"),
        begun.to_string()
    );
    let quarters: u64 = outputs.iter().sum();
    assert_eq!(all[5].replace(',', "").parse(), Ok(quarters as f64 / 4.0));
}

#[test]
fn pages_of_plans() {
    let folder = Folder::new("page");
    let browser = Browser::new();
    let (file, listing) = page(&folder, "c1 <& co>.csv", C1);
    opened(&browser, &file);
    agrees(&browser, &listing);
    assert!(text_at(&browser, "title").ends_with("/c1 <& co>.csv"));
    let limitations = table(&browser, "limitations", "tr");
    assert_eq!(limitations[0][..4], ["starts", "1", "2", "1"]);
    assert_eq!(limitations[1][..4], ["hours", "1.25", "2", "0.75"]);
    assert_eq!(limitations[2], ["mwh", "22.5", "none", ""]);
    assert_eq!(browser.text("document.querySelectorAll('meter')[1].value / document.querySelectorAll('meter')[1].max"), "0.625");
    let (file, listing) = page(&folder, "month.csv", &month());
    opened(&browser, &file);
    agrees(&browser, &listing);
    let mut random = Random::new(61);
    let mut planned = 0;
    while planned < 10 {
        let (unit, prices) = support::long_case(&mut random);
        let text = support::text_of(&mut random, &unit, &prices);
        let (file, listing) = page(&folder, "case.csv", &text);
        if !listing.starts_with("refused,") {
            opened(&browser, &file);
            agrees(&browser, &listing);
            planned += 1;
        }
    }
}

/// The labels of time in the drawing.
const LABELS: &str =
    "[...document.querySelectorAll('svg text')].filter(t => t.getAttribute('y') == '508')";

/// What is shaded is where the hours are not permitted, and no run is on it; the labels stand under their lines.
#[test]
fn permitted_hours() {
    let folder = Folder::new("permitted");
    let browser = Browser::new();
    let count =
        |selector: &str| browser.text(&format!("document.querySelectorAll('{selector}').length"));
    let (file, listing) = page(&folder, "plain.csv", C1);
    opened(&browser, &file);
    agrees(&browser, &listing);
    assert_eq!([count("#window"), count(".shut")], ["0", "0"]);
    let prices = "2000\n9000\n8000\n1000\n7000\n10000\n";
    let sixteen = C1.replacen(prices, &"9000\n".repeat(16), 1);
    let text = dated(&sixteen, (2024, 3, 10), 1 << 3);
    let (file, listing) = page(&folder, "march.csv", &text);
    opened(&browser, &file);
    agrees(&browser, &listing);
    assert!(listing.ends_with("\nwindow,1\n"), "{listing}");
    let told = "From 2024-03-10; permitted in 1 of 24 clock hours: 03:00-04:00";
    assert_eq!(text_at(&browser, "#window"), told);
    assert!(text_at(&browser, "footer").contains("United States daylight time"));
    // left and right in intervals
    let sides = |selector: &str| {
        let boxes = format!("[...document.querySelectorAll('{selector}')].map(e => e.getBBox())");
        let at = "x => Math.round((x - 80) * 16 / 1290)";
        browser.text(&format!(
            "{boxes}.map(b => [b.x, b.x + b.width].map({at}).join('-')).join(' ')"
        ))
    };
    assert_eq!(sides(".shut"), "0-8 12-16");
    assert_eq!(sides(".run .reach"), "8-12");
    let labels = browser.text(&format!("{LABELS}.map(t => t.textContent).join(' ')"));
    assert_eq!(labels, "2024-03-10 01:00 03:00 04:00");
    for place in [".run .tip", "#runs"] {
        let said = text_at(&browser, place);
        assert!(said.contains("2024-03-10 03:00"), "{said}");
    }
    // the labels of a month are on the sheet and apart from each other
    let text = dated(&month(), (2024, 10, 15), FULL - 1);
    let (file, listing) = page(&folder, "november.csv", &text);
    opened(&browser, &file);
    agrees(&browser, &listing);
    assert_eq!(count(".shut"), "31");
    let apart = "(b, i, all) => b.x + b.width <= (i + 1 < all.length ? all[i + 1].x : 1400)";
    let boxes = format!("{LABELS}.map(t => t.getBBox())");
    assert_eq!(browser.text(&format!("{boxes}.every({apart})")), "true");
    assert_eq!(browser.text(&format!("{boxes}.length")), "16");
}

#[test]
fn a_run_at_the_pointer() {
    let folder = Folder::new("pointer");
    let browser = Browser::new();
    opened(&browser, &page(&folder, "c1.csv", C1).0);
    let seen = "getComputedStyle(document.querySelector('.run .tip')).visibility";
    assert_eq!(browser.text(seen), "hidden");
    let middle = |side: &str, length: &str| {
        let r = "document.querySelector('.run .reach').getBoundingClientRect()";
        let at = browser.text(&format!("Math.round({r}.{side} + {r}.{length} / 2)"));
        at.parse().expect("a place")
    };
    browser.point_at(middle("left", "width"), middle("top", "height"));
    assert_eq!(browser.text(seen), "visible");
    let tip = text_at(&browser, ".run .tip");
    for said in [
        "day 1 00:15 to day 1 01:30",
        "10-20 MW",
        "earns $1,050.00, start $50.00, in all $1,000.00",
    ] {
        assert!(tip.contains(said), "{tip}");
    }
    browser.point_at(1, 1);
    assert_eq!(browser.text(seen), "hidden");
}

/// The drawing is a document of its own, which a browser takes as it is.
#[test]
fn the_drawing_by_itself() {
    let folder = Folder::new("drawing");
    let browser = Browser::new();
    let case = folder.file("month.csv", month());
    let drawing = folder.path("month.svg");
    let words = [case.as_os_str(), "--svg".as_ref(), drawing.as_os_str()];
    ralwinga(words).output().expect("runs");
    opened(&browser, &drawing);
    assert_eq!(browser.text("document.documentElement.nodeName"), "svg");
    assert_eq!(
        browser.text("document.querySelectorAll('.run').length"),
        "1"
    );
    assert!(text_at(&browser, ".run .tip").contains("day 31 22:00 to day 31 24:00"));
}

#[test]
fn a_bid_curve_by_itself() {
    let folder = Folder::new("bid-curve");
    let browser = Browser::new();
    let inputs = folder.file("unit.csv", WORKED);
    let drawing = folder.path("unit.svg");
    let words = ["curve".as_ref(), inputs.as_os_str(), "--svg".as_ref()];
    let mut command = ralwinga(words);
    command.arg(&drawing).output().expect("runs");
    opened(&browser, &drawing);
    assert_eq!(browser.text("document.documentElement.nodeName"), "svg");
    let told =
        "[...document.querySelectorAll('.segment title')].map(t => t.textContent).join(', ')";
    let segments = "70 to 150 MW: $82.14 per MWh, 150 to 300 MW: $82.52 per MWh";
    assert_eq!(browser.text(told), segments);
    let corners = browser.text("document.querySelector('polyline').points.numberOfItems");
    assert_eq!(corners, "4");
}

#[test]
fn pages_of_refusals() {
    let folder = Folder::new("refusal");
    let browser = Browser::new();
    let (file, printed) = page(&folder, "no-price.csv", &C1.replacen("price", "<prize>", 1));
    assert_eq!(printed, "refused,1\n");
    opened(&browser, &file);
    assert!(text_at(&browser, "#refusal").starts_with("Refused, 1: the text is too long"));
    assert!(text_at(&browser, "#said").starts_with("line 4, column 1: '<prize>' is no name"));
    let on = C1
        .replacen(",0,2,3000", ",1,1,3000", 1)
        .replacen(",2,none", ",0,none", 1);
    let (file, printed) = page(&folder, "no-schedule.csv", &on);
    assert_eq!(printed, "refused,9\n");
    opened(&browser, &file);
    assert_eq!(
        text_at(&browser, "#refusal"),
        "Refused, 9: no schedule keeps the case"
    );
}
