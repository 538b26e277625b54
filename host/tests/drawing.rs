//! The drawing of a plan as text: what is shaded and what stands under the lines of time, at the places of the intervals, by the calendar of the tests.

mod support;

use ralwinga::{Unit, Window};
use support::calendar::{changes, days_after, shown, Date, Shown};
use support::{any_window, c1, dated, month, paper, ralwinga, text_of, Folder, Random, C1, FULL};

const LEFT: f64 = 80.0;
const WIDTH: f64 = 1290.0;
/// Where labels of time stand, and how far they are to the right of their line.
const LABEL_Y: &str = "508";
const LABEL_X: f64 = 3.0;
/// What a date takes from its line on.
const DATE: f64 = 67.0;

fn drawn(folder: &Folder, text: &str) -> String {
    let case = folder.file("case.csv", text);
    let drawing = folder.path("case.svg");
    let words = [case.as_os_str(), "--svg".as_ref(), drawing.as_os_str()];
    let answer = ralwinga(words).output().expect("runs");
    assert!(answer.status.success(), "{text}");
    folder.read("case.svg")
}

/// What stands between the quotes of an attribute.
fn attribute<'a>(line: &'a str, name: &str) -> &'a str {
    let (_, rest) = line.split_once(&format!(" {name}=\"")).expect("it has it");
    rest.split_once('"').expect("a closing quote").0
}

fn number(line: &str, name: &str) -> f64 {
    attribute(line, name).parse().expect("a number")
}

/// The place of the interval that begins so far from the left.
fn place(x: f64, intervals: usize) -> usize {
    let place = (x - LEFT) * intervals as f64 / WIDTH;
    assert!(
        (place - place.round()).abs() < 0.25,
        "between intervals: {place}"
    );
    place.round() as usize
}

/// The shaded stretches, each from its first interval to behind its last, and what they say.
fn shaded(svg: &str, intervals: usize) -> Vec<(usize, usize, String)> {
    let lines = svg.lines().filter(|line| line.contains("class=\"shut\""));
    lines
        .map(|line| {
            let (x, width) = (number(line, "x"), number(line, "width"));
            let (_, title) = line.split_once("<title>").expect("a title");
            let (said, _) = title.split_once("</title>").expect("its end");
            // from the top of the prices to the bottom of the output
            assert_eq!(
                (attribute(line, "y"), attribute(line, "height")),
                ("60", "430.0")
            );
            (
                place(x, intervals),
                place(x + width, intervals),
                said.to_string(),
            )
        })
        .collect()
}

/// The labels of time with the places of their intervals.
fn labels(svg: &str, intervals: usize) -> Vec<(usize, String)> {
    let at_bottom = format!("y=\"{LABEL_Y}\"");
    let lines = svg.lines().filter(|line| line.contains(&at_bottom));
    lines
        .map(|line| {
            let said = line.split(['<', '>']).nth(2).expect("what it says");
            (
                place(number(line, "x") - LABEL_X, intervals),
                said.to_string(),
            )
        })
        .collect()
}

/// The places of the lines from top to bottom.
fn uprights(svg: &str, intervals: usize) -> Vec<usize> {
    let lines = svg.lines().filter(|line| line.contains("<line"));
    let upright = lines.filter(|line| number(line, "x1") == number(line, "x2"));
    upright
        .map(|line| place(number(line, "x1"), intervals))
        .collect()
}

/// Stretches of intervals in a row that are not permitted.
fn stretches(permitted: &[bool]) -> Vec<(usize, usize)> {
    let shut = |place: usize| permitted.get(place).is_some_and(|open| !open);
    let begins = (0..permitted.len()).filter(|p| shut(*p) && (*p == 0 || !shut(*p - 1)));
    begins
        .map(|from| (from, (from..).find(|p| !shut(*p)).expect("an end")))
        .collect()
}

fn written((year, month, day): Date) -> String {
    format!("{year}-{month:02}-{day:02}")
}

/// What a line at a place is to say: the date of a day that begins, or the time.
fn called(shown: &[Shown], place: usize) -> String {
    let Shown { date, hour } = shown[place];
    assert_eq!(place % 4, 0, "within an hour");
    match (hour, place.checked_sub(4).map(|before| shown[before].hour)) {
        (0, _) => written(date),
        (hour, Some(before)) if hour == before => format!("{hour:02}:00 again"),
        _ => format!("{hour:02}:00"),
    }
}

/// Shades, lines and labels of a case that has a window against the calendar.
fn agrees(svg: &str, unit: &Unit, intervals: usize) {
    let w = unit.window.expect("a window");
    let date = (w.year, w.month, w.day);
    let shown = shown(date, intervals);
    let shaded: Vec<(usize, usize)> = shaded(svg, intervals)
        .iter()
        .map(|(from, to, _)| (*from, *to))
        .collect();
    assert_eq!(
        shaded,
        stretches(&paper::permitted(unit, intervals)),
        "{w:?}"
    );
    let labels = labels(svg, intervals);
    assert!((1..=17).contains(&labels.len()), "{labels:?}");
    for (place, said) in &labels {
        assert_eq!(*said, called(&shown, *place), "{w:?}");
    }
    assert_eq!(labels[0], (0, written(date)));
    let lines = uprights(svg, intervals);
    assert!(labels.iter().all(|(place, _)| lines.contains(place)));
    let begins_day = |place: &usize| place.is_multiple_of(4) && shown[*place].hour == 0;
    assert!((0..intervals)
        .filter(begins_day)
        .all(|day| lines.contains(&day)));
    // what is said of no line but one at the end would run off the sheet; behind so many hours days alone are told, each second or fourth
    let in_sheet = |place: &&usize| (**place as f64) < 0.96 * intervals as f64;
    let by_hours = intervals <= 16 * 48;
    let labelled: Vec<usize> = labels.iter().map(|(place, _)| *place).collect();
    // nor is anything said into a date
    let into_date = |line: usize| {
        let behind = |day: usize| (line - day) as f64 * WIDTH / (intervals as f64);
        let near = |day: usize| day < line && behind(day) < DATE;
        let mut dates = labels.iter().filter(|(place, _)| begins_day(place));
        dates.any(|(day, _)| near(*day))
    };
    assert!(!labelled.iter().any(|place| into_date(*place)), "{w:?}");
    for line in lines.iter().filter(in_sheet).filter(|_| by_hours) {
        assert!(labelled.contains(line) || into_date(*line), "{w:?}: {line}");
    }
    let head = format!(
        ">Plan of {intervals} quarter-hours from {}: ",
        written(date)
    );
    assert!(svg.contains(&head), "{svg}");
    let count = format!(">permitted in {} of 24 clock hours", w.word.count_ones());
    assert!(svg.contains(&count), "{svg}");
}

/// Equal prices for C1's unit without limitations.
fn free(intervals: usize) -> String {
    let (head, _) = C1.split_once("price\n").expect("prices");
    let head = head.replacen(",5000,2,2,none", ",0,none,none,none", 1);
    format!("{head}price\n{}", "9000\n".repeat(intervals))
}

#[test]
fn where_clocks_are_changed() {
    let folder = Folder::new("drawing-changes");
    let said = |svg: &str| {
        labels(svg, 16)
            .into_iter()
            .map(|(_, said)| said)
            .collect::<Vec<_>>()
    };
    let march = drawn(&folder, &dated(&free(16), (2024, 3, 10), 1 << 3));
    assert_eq!(said(&march), ["2024-03-10", "01:00", "03:00", "04:00"]);
    let told = |from, to, said: &str| (from, to, format!("not permitted: {said}"));
    assert_eq!(
        shaded(&march, 16),
        [
            told(0, 8, "2024-03-10 00:00 to 2024-03-10 03:00"),
            told(12, 16, "2024-03-10 04:00 to 2024-03-10 05:00"),
        ]
    );
    assert!(march.contains(">permitted in 1 of 24 clock hours: 03:00-04:00; shaded where not<"));
    assert!(
        march.contains(">run 1: 2024-03-10 03:00 to 2024-03-10 04:00<"),
        "{march}"
    );
    let november = drawn(&folder, &dated(&free(16), (2024, 11, 3), 1 << 1));
    assert_eq!(
        said(&november),
        ["2024-11-03", "01:00", "01:00 again", "02:00"]
    );
    assert_eq!(
        shaded(&november, 16),
        [
            told(0, 4, "2024-11-03 00:00 to 2024-11-03 01:00"),
            told(12, 16, "2024-11-03 02:00 to 2024-11-03 03:00"),
        ]
    );
    assert!(
        november.contains(">run 1: 2024-11-03 01:00 to 2024-11-03 02:00<"),
        "{november}"
    );
}

/// Horizons of all lengths from all kinds of dates.
#[test]
fn random_windows() {
    let folder = Folder::new("drawing-windows");
    let mut random = Random::new(91);
    let mut drawings = 0;
    while drawings < 300 {
        let Some(window) = any_window(&mut random) else {
            continue;
        };
        let intervals = match random.below(4) {
            0 => 1 + random.below(30),
            1 => 1 + random.below(300),
            2 => 1 + random.below(2976),
            _ => 2976,
        } as usize;
        let unit = Unit {
            starts: None,
            hours: None,
            window: Some(window),
            ..c1().unit
        };
        let prices: Vec<i64> = (0..intervals).map(|_| random.between(0, 9000)).collect();
        let text = text_of(&mut random, &unit, &prices);
        agrees(&drawn(&folder, &text), &unit, intervals);
        drawings += 1;
    }
}

/// From some days about each change, so that it is at one place of the drawing or another; and across the ends of February and of years.
#[test]
fn months_about_changes_and_ends() {
    let folder = Folder::new("drawing-month");
    let mut dates = vec![(2023, 2, 27), (2024, 2, 27), (2024, 12, 31), (2099, 12, 31)];
    for change in [2007, 2024, 2099].into_iter().flat_map(changes) {
        dates.extend([0, 1, 5].map(|days| days_after(change, -days)));
    }
    for (year, month, day) in dates {
        let unit = Unit {
            starts: None,
            hours: None,
            window: Some(Window {
                year,
                month,
                day,
                word: 0x3f_ff00,
            }),
            ..c1().unit
        };
        for intervals in [64, 96, 400, 2976] {
            let prices = vec![9000; intervals];
            let text = text_of(&mut Random::new(92), &unit, &prices);
            agrees(&drawn(&folder, &text), &unit, intervals);
        }
    }
}

/// Days are counted where there is no date, and nothing is shaded; nor is it where every hour is permitted.
#[test]
fn without_a_window() {
    let folder = Folder::new("drawing-plain");
    let svg = drawn(&folder, C1);
    let told = |labels: &[(usize, &str)]| -> Vec<(usize, String)> {
        labels
            .iter()
            .map(|(place, said)| (*place, said.to_string()))
            .collect()
    };
    assert_eq!(labels(&svg, 6), told(&[(0, "day 1"), (4, "01:00")]));
    assert!(!svg.contains("shut") && !svg.contains("permitted"), "{svg}");
    assert!(svg.contains(">Plan of 6 quarter-hours: profit $1,000.00, 1.25 run-hours, 22.5 MWh<"));
    let svg = drawn(&folder, &month());
    assert_eq!(
        labels(&svg, 2976)[..2],
        told(&[(0, "day 1"), (192, "day 3")])
    );
    assert_eq!(uprights(&svg, 2976).len(), 31);
    let svg = drawn(&folder, &dated(C1, (2024, 2, 3), FULL));
    assert_eq!(shaded(&svg, 6), []);
    assert!(svg.contains(">permitted in 24 of 24 clock hours: 00:00-24:00; shaded where not<"));
}
