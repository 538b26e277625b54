//! What to do about a line or a value that is not of the form.

/// What the values under a name are counted in. `rate` is left out: it is one thing of cost inputs and another of a curve.
const COUNTED_IN: [(&str, &str); 27] = [
    ("block", "MW"),
    ("pmin", "blocks"),
    ("pmax", "blocks"),
    ("mot", "quarter-hours"),
    ("mdt", "quarter-hours"),
    ("held", "quarter-hours"),
    ("vec", "cents per MWh"),
    ("mlc", "cents per hour"),
    ("suc", "cents"),
    ("starts", "starts"),
    ("hours", "hours"),
    ("mwh", "MWh"),
    ("gas", "cents per MMBtu"),
    ("transport", "cents per MMBtu"),
    ("allowance", "cents per tonne"),
    ("om", "cents per MWh"),
    ("gmc", "cents per MWh"),
    ("adder", "cents per MWh"),
    ("minheat", "Btu per kWh"),
    ("heat", "Btu per kWh"),
    ("fuel", "MMBtu"),
    ("aux", "MWh"),
    ("minutes", "minutes"),
    ("startadder", "cents"),
    ("loadadder", "cents"),
    ("mw", "MW"),
    ("level", "MW"),
];

const VALUES: &str = "none, or 1 to 10 digits without a needless 0 in front";

/// About a field that stands where a value belongs, under a name.
pub fn of_value(field: &[u8], name: &[u8]) -> String {
    match field {
        _ if is_decimal(field) => whole(name),
        [] => "a value is missing here".to_string(),
        [b'"' | b'\'', ..] => "values stand without quotes".to_string(),
        [b'$', ..] => "values stand without a unit".to_string(),
        [b'+', ..] => "values stand without a plus".to_string(),
        _ if field.iter().any(u8::is_ascii_whitespace) => {
            "there are no spaces in a line".to_string()
        }
        _ if field.eq_ignore_ascii_case(b"none") => "'none' is written small".to_string(),
        _ => VALUES.to_string(),
    }
}

/// Digits, a point and digits.
fn is_decimal(field: &[u8]) -> bool {
    let field = field.strip_prefix(b"-").unwrap_or(field);
    let mut parts = field.split(|byte| *byte == b'.');
    let digits = |part: Option<&[u8]>| part.is_some_and(|part| part.iter().all(u8::is_ascii_digit));
    field.len() > 1 && digits(parts.next()) && digits(parts.next()) && parts.next().is_none()
}

/// What a value under this name is a whole number of.
fn whole(name: &[u8]) -> String {
    if name == b"price" {
        return "prices are whole cents per MWh".to_string();
    }
    match COUNTED_IN
        .iter()
        .find(|(known, _)| known.as_bytes() == name)
    {
        Some((name, unit)) => format!("{name} is in whole {unit}"),
        None => "values are whole numbers".to_string(),
    }
}

/// About a line as it was read, where it shows how the file was saved.
pub fn of_line(bytes: &[u8], is_first: bool) -> Option<&'static str> {
    match bytes {
        [0xff, 0xfe, ..] | [0xfe, 0xff, ..] if is_first => Some(UTF_16),
        [0xef, 0xbb, 0xbf, ..] if is_first => Some(MARK),
        _ if bytes.contains(&0) => Some(NUL),
        [.., b'\r'] => Some(CR_LF),
        _ => None,
    }
}

const UTF_16: &str =
    "the text is UTF-16, and a case is plain text: convert it with `iconv -f UTF-16 -t UTF-8`";
const MARK: &str = "the line begins with a byte order mark, EF BB BF: save the text without it, or take it off with `tail -c +4`";
const NUL: &str =
    "the line has a byte 0, as UTF-16 has: convert the text with `iconv -f UTF-16 -t UTF-8`";
const CR_LF: &str = "the line ends with CR LF, and lines end with LF: give --crlf, or convert the text with `tr -d '\\r'`";
