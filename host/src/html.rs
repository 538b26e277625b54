//! One page about a case, complete in itself: no script, nothing from elsewhere.

use crate::amounts::dollars;
use crate::explanation::{Explanation, Usage};
use crate::markup::escaped;
use crate::{listing, svg, Case, Report};
use std::fmt::Write;

const STYLE: &str =
    "body{font-family:sans-serif;max-width:1400px;margin:1em auto;padding:0 1em;color:#222}\
svg{width:100%;height:auto}table{border-collapse:collapse;margin:0.5em 0 1.5em}\
th,td{padding:0.2em 0.9em;text-align:right;border-bottom:1px solid #ddd;white-space:nowrap}\
th:first-child,td:first-child{text-align:left}tr.part td{color:#777;border-bottom-color:#eee}\
meter{width:16em}.refusal{font-size:1.3em;color:#a01515}footer{color:#666;margin-top:2em}";

const FOOTER: &str = "The plan, its profit and the three opportunity costs are answers of the proved library. \
The reading of texts over 12,288 bytes, the sums of the runs and this page are not proved; tests hold them to the library.";

const COUNTED_DAYS: &str = "Day 1 begins with the first quarter-hour.";
const CLOCK: &str = "Times are the clock's under United States daylight time; \
the hour that comes twice in November is marked the second time.";

/// The page of a plan.
pub fn plan_page(title: &str, case: &Case, schedule: &[u64], report: &Report) -> String {
    let told = Explanation::of(case, schedule, report);
    let mut body = format!(
        "<p>Profit <strong id=\"profit\">{}</strong></p>\n",
        dollars(report.profit)
    );
    if let Some(dated) = told.calendar.dated() {
        let (date, permitted) = (dated.date(), dated.permitted());
        let _ = writeln!(body, "<p id=\"window\">From {date}; {permitted}</p>");
    }
    body.push_str(&svg::draw(&case.prices, schedule, &told));
    body.push_str("<h2>Adders for the bid</h2>\n");
    table(&mut body, "adders", &told.adder_rows(), |_| String::new());
    body.push_str("<h2>Limitations</h2>\n");
    table(&mut body, "limitations", &told.usage_rows(), |row| {
        told.usages.get(row).map_or(String::new(), meter)
    });
    body.push_str("<h2>Runs</h2>\n");
    table(&mut body, "runs", &told.run_rows(), |_| String::new());
    let listing = listing(&case.unit, schedule, report.profit, report.outcomes);
    let _ = write!(
        body,
        "<details><summary>Listing</summary><pre id=\"listing\">\n{}</pre></details>\n",
        String::from_utf8_lossy(&listing)
    );
    let times = told.calendar.dated().map_or(COUNTED_DAYS, |_| CLOCK);
    page(title, &body, times)
}

/// The page of a case that has no plan: why, and the line with the place or what would help.
pub fn notice_page(title: &str, why: &str, said: &str) -> String {
    let body = format!(
        "<p class=\"refusal\" id=\"refusal\">{}</p>\n<p id=\"said\">{}</p>\n",
        escaped(why),
        escaped(said)
    );
    page(title, &body, COUNTED_DAYS)
}

fn page(title: &str, body: &str, times: &str) -> String {
    let title = escaped(title);
    format!(
        "<!DOCTYPE html>\n<html lang=\"en\">\n<head>\n<meta charset=\"utf-8\">\n<title>{title}</title>\n\
         <link rel=\"icon\" href=\"data:,\">\n<style>{STYLE}</style>\n</head>\n<body>\n<h1>{title}</h1>\n{body}<footer>{FOOTER} {times}</footer>\n</body>\n</html>\n"
    )
}

/// The first row is the heading; a row without its first entry is a part of the one above. Behind each row under the heading stands what `behind`
/// gives for its place.
fn table<const N: usize>(
    out: &mut String,
    id: &str,
    rows: &[[String; N]],
    behind: impl Fn(usize) -> String,
) {
    let Some((head, rows)) = rows.split_first() else {
        return;
    };
    let _ = writeln!(out, "<table id=\"{id}\">\n<tr>{}</tr>", cells("th", head));
    for (place, row) in rows.iter().enumerate() {
        let class = match row[0].as_str() {
            "" => " class=\"part\"",
            _ => "",
        };
        let (cells, behind) = (cells("td", row), behind(place));
        let _ = writeln!(out, "<tr{class}>{cells}{behind}</tr>");
    }
    out.push_str("</table>\n");
}

fn cells(tag: &str, row: &[String]) -> String {
    row.iter()
        .map(|entry| format!("<{tag}>{}</{tag}>", escaped(entry)))
        .collect()
}

/// How much of a limitation is used, as a bar; there is none where it is `none` or 0.
fn meter(usage: &Usage) -> String {
    match usage.limit {
        Some(limit @ 1..) => format!(
            "<td><meter max=\"{}\" value=\"{}\"></meter> {:.0}%</td>",
            4 * limit,
            usage.used,
            100.0 * usage.used as f64 / (4 * limit) as f64
        ),
        _ => String::new(),
    }
}
