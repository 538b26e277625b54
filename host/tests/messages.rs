//! Messages that say what to do: how a file was saved, what a value is counted in, its range, the counts, the rule that a schedule breaks, and the
//! word that was probably meant.

mod support;

use ralwinga::rules::{first_broken, Broken, Rule};
use ralwinga::{assess, clock_hour, Case, Refusal};
use support::{answer_on, any_schedule, dated, long_case, month, paper, ralwinga, run_on};
use support::{small_case, Folder, Random, C1};

fn said(words: &[&str], text: &[u8], number: u64) -> String {
    let answer = answer_on(words, text);
    assert_eq!(answer.status.code(), Some(1));
    assert_eq!(answer.stdout, format!("refused,{number}\n").as_bytes());
    let line = String::from_utf8_lossy(&answer.stderr).to_string();
    assert_eq!(line.lines().count(), 1, "{line}");
    line
}

fn utf_16(text: &str, big: bool) -> Vec<u8> {
    let units = text.encode_utf16();
    let bytes = units.map(|unit| {
        if big {
            unit.to_be_bytes()
        } else {
            unit.to_le_bytes()
        }
    });
    bytes.flatten().collect()
}

/// As Windows saves texts.
#[test]
fn texts_as_they_were_saved() {
    let windows = C1.replace('\n', "\r\n");
    let cr_lf = "line 1: the line ends with CR LF, and lines end with LF: give --crlf, or convert the text with `tr -d '\\r'`";
    let mark = "line 1: the line begins with a byte order mark, EF BB BF";
    let utf = "line 1: the text is UTF-16, and a case is plain text: convert it with `iconv -f UTF-16 -t UTF-8`";
    for (text, told) in [
        (windows.clone().into_bytes(), cr_lf),
        (format!("\u{feff}{C1}").into_bytes(), mark),
        (format!("\u{feff}{windows}").into_bytes(), mark),
        (utf_16(&format!("\u{feff}{windows}"), false), utf),
        (utf_16(&format!("\u{feff}{windows}"), true), utf),
        (
            utf_16(C1, false),
            "line 1: the line has a byte 0, as UTF-16 has",
        ),
        (windows.repeat(200).into_bytes(), cr_lf),
    ] {
        let line = said(&["-"], &text, 1);
        assert!(line.contains(told), "{line}");
    }
    // what is said to help does
    let listing = answer_on(&["-"], C1.as_bytes()).stdout;
    let mut tr = std::process::Command::new("tr");
    tr.args(["-d", "\\r"]);
    let converted = run_on(tr, windows.as_bytes()).stdout;
    assert_eq!(answer_on(&["-"], &converted).stdout, listing);
    let mut tail = std::process::Command::new("tail");
    tail.args(["-c", "+4"]);
    let converted = run_on(tail, format!("\u{feff}{C1}").as_bytes()).stdout;
    assert_eq!(answer_on(&["-"], &converted).stdout, listing);
    let mut iconv = std::process::Command::new("iconv");
    iconv.args(["-f", "UTF-16", "-t", "UTF-8"]);
    let converted = run_on(iconv, &utf_16(&format!("\u{feff}{C1}"), false)).stdout;
    assert_eq!(answer_on(&["-"], &converted).stdout, listing);
}

/// `--crlf` reads what is said in lines that end so, of a day, of a month, and of the other texts.
#[test]
fn lines_that_end_with_cr_lf() {
    let curve = "gas,om,gmc,adder\n550,280,50,2500\n\nlevel,rate\n70,14440\n150,11960\n";
    let windows = |text: &str| text.replace('\n', "\r\n");
    for (words, text) in [
        (&["-"][..], C1.to_string()),
        (&["plan", "-"], month()),
        (&["explain", "-"], C1.to_string()),
        (&["curve", "-"], curve.to_string()),
    ] {
        let expected = answer_on(words, text.as_bytes());
        assert!(expected.status.success());
        let with = [words, &["--crlf"]].concat();
        assert_eq!(
            answer_on(&with, windows(&text).as_bytes()).stdout,
            expected.stdout
        );
        // lines that end with LF are taken, too
        assert_eq!(answer_on(&with, text.as_bytes()).stdout, expected.stdout);
    }
    let folder = Folder::new("crlf");
    let case = folder.file("case.csv", windows(C1));
    let listing = folder.file(
        "listing.csv",
        windows("interval,mw\n1,0\n2,20\n3,20\n4,10\n5,20\n6,20\n"),
    );
    let mut command = ralwinga(["assess", "--crlf"]);
    let answer = command.args([&case, &listing]).output().expect("runs");
    assert_eq!(answer.stdout, b"profit,400000\n");
    // a CR elsewhere is no part of a line end
    let line = said(
        &["-", "--crlf"],
        C1.replacen("8000", "8\r000", 1).as_bytes(),
        1,
    );
    assert!(
        line.contains("line 7, column 1: '8\\r000' is no value"),
        "{line}"
    );
}

/// C1 with one thing put for another, the number, and what is said of it.
#[rustfmt::skip]
const SAID: [(&str, &str, u64, &str); 17] = [
    ("9000", "90.00", 1, "line 6, column 1: '90.00' is no value: prices are whole cents per MWh ("),
    ("9000", "-.5", 1, "'-.5' is no value: prices are whole cents per MWh ("),
    ("3000,", "30.00,", 1, "line 2, column 16: '30.00' is no value: vec is in whole cents per MWh ("),
    (",2,2,none", ",2,2.5,none", 1, "'2.5' is no value: hours is in whole hours ("),
    ("9000", "$90", 1, "'$90' is no value: values stand without a unit ("),
    ("9000", "\"9000\"", 1, "is no value: values stand without quotes ("),
    ("9000", "9000 ", 1, "'9000 ' is no value: there are no spaces in a line ("),
    ("9000", "+9000", 1, "'+9000' is no value: values stand without a plus ("),
    ("9000", "", 1, "line 6, column 1: '' is no value: a value is missing here ("),
    (",none", ",None", 1, "'None' is no value: 'none' is written small ("),
    ("9000", "090", 1, "'090' is no value: none, or 1 to 10 digits without a needless 0 in front ("),
    ("mot", "mto", 2, "line 1, column 17: 'mto' is unknown (did you mean 'mot'?), 'mot' is missing ("),
    ("starts,", "start,", 2, "'start' is unknown (did you mean 'starts'?), 'starts' is missing ("),
    ("mot", "wind", 2, "'wind' is unknown, 'mot' is missing ("),
    ("10,1,2,2", "10,1,2,97", 3, "line 2, column 8: mot '97' is outside its range, 1 to 96 ("),
    ("3000,", "2000001,", 3, "vec '2000001' is outside its range, 0 to 2000000 ("),
    (",2,2,none", ",2977,2,none", 3, "starts '2977' is outside its range, 0 to 2976, or none ("),
];

#[test]
fn what_is_said_of_a_case() {
    for (from, to, number, told) in SAID {
        assert!(C1.contains(from));
        let line = said(&["-"], C1.replacen(from, to, 1).as_bytes(), number);
        assert!(line.contains(told), "{line}");
    }
    let line = said(
        &["-"],
        C1.split_inclusive('\n')
            .take(4)
            .collect::<String>()
            .as_bytes(),
        5,
    );
    assert!(
        line.contains("line 5: no price is here; a case has 1 to 2,976 prices"),
        "{line}"
    );
}

/// A listing for C1, perhaps with other figures, the number, and what is said.
#[rustfmt::skip]
const HANDED_IN: [(&str, &str, &[u64], u64, &str); 9] = [
    ("", "", &[0, 20, 20, 10, 20], 7, "line 6: the listing has 5 intervals, the case has 6 prices ("),
    ("", "", &[0, 20, 20, 10, 20, 20, 0, 0], 7, "line 8: the listing has 8 intervals, the case has 6 prices ("),
    ("", "", &[0, 20, 20, 15, 20, 20], 10, "line 5: interval 4, 15 MW: outputs are 0, or 10 to 20 MW in steps of 10 MW ("),
    ("", "", &[0, 20, 0, 0, 20, 20], 10, "line 4: interval 3, 0 MW: the run before it lasted 1 quarter-hour, and mot is 2 ("),
    ("", "", &[20, 20, 0, 20, 20, 20], 10, "line 5: interval 4, 20 MW: the unit was off for 1 quarter-hour, and mdt is 2 ("),
    ("2,2,none\n", "1,2,none\n", &[20, 20, 0, 0, 20, 20], 10, "line 6: interval 5, 20 MW: this is start 2, and starts is 1 ("),
    ("2,2,none\n", "2,1,none\n", &[0, 20, 20, 10, 20, 20], 10, "line 7: interval 6, 20 MW: 1.25 run-hours are used, and hours is 1 ("),
    ("2,2,none\n", "2,2,17\n", &[0, 20, 20, 10, 20, 20], 10, "line 6: interval 5, 20 MW: 17.5 MWh are used, and mwh is 17 ("),
    ("2,2,0,2,", "2,2,1,1,", &[0, 20, 20, 10, 20, 20], 10, "line 2: interval 1, 0 MW: the run before it lasted 1 quarter-hour, and mot is 2 ("),
];

#[test]
fn what_is_said_of_a_schedule() {
    let folder = Folder::new("handed-in");
    let assessed = |case: &str, schedule: &[u64], number: u64| {
        let file = folder.file("case.csv", case);
        said(
            &["assess", file.to_str().expect("text"), "-"],
            paper::table(schedule).as_bytes(),
            number,
        )
    };
    for (from, to, schedule, number, told) in HANDED_IN {
        let line = assessed(&C1.replacen(from, to, 1), schedule, number);
        assert!(line.contains(told), "{line}");
    }
    // hour 0 alone: the fifth quarter-hour is shut
    let line = assessed(&dated(C1, (2024, 2, 3), 1), &[0, 20, 20, 10, 20, 20], 10);
    assert!(
        line.contains(
            "line 6: interval 5, 20 MW: the hour of the clock that begins at 01:00 is shut ("
        ),
        "{line}"
    );
}

/// The first rule that is broken, from one interval to the next, by the specification's sentences.
fn by_walking(case: &Case, schedule: &[u64]) -> Option<Broken> {
    let u = &case.unit;
    let (mut on, mut lasted) = (u.was == 1, u.held);
    let (mut starts, mut hours, mut mwh) = (0, 0, 0);
    for (interval, mw) in (1..).zip(schedule) {
        let broken = |rule| Some(Broken { interval, rule });
        let blocks = mw / u.block;
        if *mw > 0 && (mw % u.block > 0 || blocks < u.pmin || blocks > u.pmax) {
            return broken(Rule::Output);
        }
        let (was_on, before) = (on, lasted);
        on = *mw > 0;
        lasted = if on == was_on { lasted + 1 } else { 1 };
        starts += u64::from(on && !was_on);
        hours += u64::from(on);
        mwh += mw;
        let over =
            |used: u64, limit: Option<u64>, times: u64| limit.is_some_and(|l| used > times * l);
        let shut = u.window.is_some_and(|w| {
            let hour = clock_hour(w.year, w.month, w.day, interval as u64).expect("an hour");
            on && !w.allows(hour)
        });
        let rules = [
            (was_on && !on && before < u.mot, Rule::OnTime),
            (on && !was_on && before < u.mdt, Rule::DownTime),
            (over(starts, u.starts, 1), Rule::Starts),
            (over(hours, u.hours, 4), Rule::Hours),
            (over(mwh, u.mwh, 4), Rule::Mwh),
            (shut, Rule::Window),
        ];
        if let Some((_, rule)) = rules.into_iter().find(|(breaks, _)| *breaks) {
            return broken(rule);
        }
    }
    None
}

#[test]
fn the_rule_that_is_broken() {
    let mut random = Random::new(77);
    let mut seen = [0; 8];
    for i in 0..40_000 {
        let (unit, prices) = match i % 2 {
            0 => small_case(&mut random),
            _ => long_case(&mut random),
        };
        let schedule = any_schedule(&mut random, &unit, prices.len());
        let case = Case { unit, prices };
        let judged = assess(case.unit, &case.prices, &schedule);
        if schedule.len() != case.prices.len() {
            assert_eq!(judged, Err(Refusal::Length));
            continue;
        }
        let expected = by_walking(&case, &schedule);
        assert_eq!(
            first_broken(&case, &schedule),
            expected,
            "{case:?} {schedule:?}"
        );
        assert_eq!(judged == Err(Refusal::NotKept), expected.is_some());
        if let Some(broken) = expected {
            let place = Rule::ALL.iter().position(|rule| *rule == broken.rule);
            seen[place.expect("a rule")] += 1;
            assert!(broken.said(&case, &schedule).starts_with("interval "));
        } else {
            seen[7] += 1;
        }
    }
    println!("rules broken, in their order, and none: {seen:?}");
    assert!(seen.iter().all(|times| *times > 20), "{seen:?}");
}

/// Words that are nearly those of the command.
#[test]
fn words_that_were_meant() {
    let folder = Folder::new("meant");
    folder.file("x.csv", C1);
    for (words, told) in [
        (
            &["explian", "x.csv"][..],
            "'explian' is no file and no subcommand; did you mean 'explain'?",
        ),
        (&["explian"], "did you mean 'explain'?"),
        (&["asess", "x.csv", "x.csv"], "did you mean 'assess'?"),
        (&["cost", "x.csv"], "did you mean 'costs'?"),
        (&["x.csv", "--htlm", "page"], "--html"),
        (&["plan", "--quite", "x.csv"], "--quiet"),
    ] {
        let mut command = ralwinga(words);
        let answer = command.current_dir(folder.path("")).output().expect("runs");
        let line = String::from_utf8_lossy(&answer.stderr).to_string();
        assert_eq!(answer.status.code(), Some(2), "{line}");
        assert!(line.contains(told) && line.lines().count() == 1, "{line}");
    }
    // a file of that name is a file
    folder.file("explian", C1);
    let mut command = ralwinga(["explian"]);
    let answer = command.current_dir(folder.path("")).output().expect("runs");
    assert!(answer.status.success());
    let answer = ralwinga(["nothing.csv"]).output().expect("runs");
    assert_eq!(answer.status.code(), Some(1));
}
