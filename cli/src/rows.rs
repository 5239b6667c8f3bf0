//! Rows of a schedule, as CSV (RFC 4180) and as a page.

use crate::page::escaped;

/// A row of a schedule.
pub struct Row {
    /// The line of the utterance.
    pub line: usize,
    /// Its name, if it has one.
    pub id: Option<String>,
    pub cells: Vec<String>,
    /// The first reading's weight, if there is one.
    pub weight: Option<u32>,
    /// What another reading has in the columns, if it is to be looked at.
    pub other: Option<Vec<String>>,
    pub note: String,
    /// What was pruned or left out of what was heard.
    pub missing: String,
}

impl Row {
    /// What is to be said of it, all in one.
    fn notes(&self) -> String {
        let notes = [&self.note, &self.missing].into_iter().filter(|note| !note.is_empty());
        notes.map(String::as_str).collect::<Vec<_>>().join("; ")
    }

    fn name(&self) -> &str {
        self.id.as_deref().unwrap_or("")
    }
}

/// The names of the columns beside the symbols'.
const LINE: &str = "line";
const ID: &str = "id";
const WEIGHT: &str = "weight";
const NOTE: &str = "note";

/// The rows as CSV, a line of names first. There is a column of names if one has a name.
pub fn csv(columns: &[&str], rows: &[Row]) -> String {
    let has_names = rows.iter().any(|row| row.id.is_some());
    let named = |id| has_names.then_some(id);
    let names = [LINE].into_iter().chain(named(ID)).chain(columns.iter().copied()).chain([WEIGHT, NOTE]);
    let mut text = record(names);
    for row in rows {
        let (line, weight) = (row.line.to_string(), row.weight.map_or(String::new(), |weight| weight.to_string()));
        let cells = row.cells.iter().map(String::as_str);
        let fields = [line.as_str()].into_iter().chain(named(row.name())).chain(cells);
        text += &record(fields.chain([weight.as_str(), row.notes().as_str()]));
    }
    text
}

/// Some fields as a line. One with a comma, a quote or the end of a line in it stands in quotes.
fn record<'a>(fields: impl Iterator<Item = &'a str>) -> String {
    let field = |field: &str| match field.contains([',', '"', '\n', '\r']) {
        true => format!("\"{}\"", field.replace('"', "\"\"")),
        false => field.to_owned(),
    };
    fields.map(field).collect::<Vec<_>>().join(",") + "\r\n"
}

const STYLE: &str = "\
body { font: 15px/1.4 system-ui, sans-serif; margin: 2rem; color: #222; }
table { border-collapse: collapse; }
th, td { border-bottom: 1px solid #ccc; padding: .3rem .8rem; text-align: left; vertical-align: top; }
thead { display: table-header-group; }
tr { break-inside: avoid; }
.number { text-align: right; font-variant-numeric: tabular-nums; }
mark { background: #ffe08a; }
.other { color: #666; }
.note { color: #a33; }
";

/// The rows as a page of HTML, in which cells are marked that another reading has otherwise.
pub fn html(columns: &[&str], rows: &[Row], name: &str) -> String {
    let title = escaped(name);
    let heads: String = columns.iter().map(|name| format!("<th>{}</th>", escaped(name))).collect();
    let doubtful = rows.iter().filter(|row| !row.note.is_empty()).count();
    let has_names = rows.iter().any(|row| row.id.is_some());
    let id = if has_names { format!("<th>{ID}</th>") } else { String::new() };
    let body: String = rows.iter().map(|row| html_row(row, has_names)).collect();
    format!(
        "<!DOCTYPE html>\n<html lang=\"en\">\n<head>\n<meta charset=\"utf-8\">\n<title>Schedule of {title}</title>\n<style>\n\
         {STYLE}</style>\n</head>\n<body>\n<h1>{title}</h1>\n<p>{} rows, {doubtful} to look at. Marked: another reading of nearly \
         the same weight has what stands beside it.</p>\n<table>\n<thead><tr><th>{LINE}</th>{id}{heads}<th>{WEIGHT}</th>\
         <th>{NOTE}</th></tr></thead>\n<tbody>\n{body}</tbody>\n</table>\n</body>\n</html>\n",
        rows.len()
    )
}

fn html_row(row: &Row, has_names: bool) -> String {
    let cell = |(column, cell): (usize, &String)| {
        let other = row.other.as_ref().map(|other| &other[column]).filter(|other| *other != cell);
        match other {
            None => format!("<td>{}</td>", escaped(cell)),
            Some(other) => {
                let other = if other.is_empty() { "nothing" } else { other };
                format!("<td><mark>{}</mark> <span class=\"other\">or {}</span></td>", escaped(cell), escaped(other))
            }
        }
    };
    let cells: String = row.cells.iter().enumerate().map(cell).collect();
    let weight = row.weight.map_or(String::new(), |weight| weight.to_string());
    // what a marked cell says need not be said again
    let note = if row.other.is_some() { escaped(&row.missing) } else { escaped(&row.notes()) };
    let id = if has_names { format!("<td>{}</td>", escaped(row.name())) } else { String::new() };
    format!(
        "<tr><td class=\"number\">{}</td>{id}{cells}<td class=\"number\">{weight}</td><td class=\"note\">{note}</td></tr>\n",
        row.line
    )
}
