//! The page of `plot report`: one file of HTML, with its style, its script and its data
//! inside.

use crate::names::Names;
use crate::plan::Planned;
use crate::readings::{self, ChainPaths, Rule};
use crate::report::stopped_words;
use crate::run::{self, Change};
use crate::show::{self, counted};
use crate::svg::escaped;
use crate::walk::Row;
use crate::{gaps_svg, json, page_run};
use plot::{Cell, Machine, Register, Run};
use std::path::Path;

/// What a page is of.
pub struct Page<'a> {
    /// The name of the register.
    pub name: &'a str,
    /// The register.
    pub register: &'a Register,
    /// The names of its records and fields.
    pub names: &'a Names,
    /// What rules do to it.
    pub ran: Option<&'a Ran>,
}

/// A run, and what belongs to it.
pub struct Ran {
    /// The name of the rules text.
    pub name: String,
    /// The text.
    pub text: Vec<u8>,
    /// The run.
    pub run: Run,
    /// Its finished steps.
    pub rows: Vec<Row>,
    /// The plans of all steps.
    pub plans: Vec<Planned>,
}

const STYLE: &str = include_str!("../page/report.css");
const SCRIPT: &str = include_str!("../page/report.js");

/// The records from which on a picture of all gaps stands above the grid.
const MANY: usize = 64;

/// The page.
pub fn html(page: &Page<'_>) -> String {
    let end = page.ran.map_or(page.register, |ran| &ran.run.register);
    let changes = run::changes(page.register, end);
    let rules = page
        .ran
        .map_or(Vec::new(), |ran| readings::rules(&ran.text));
    let chains = match page.ran {
        Some(_) => readings::chains(&rules),
        None => readings::followed(end),
    };
    let paths = readings::paths(end, chains);
    let name = short_name(page.name);
    let sections = match page.ran {
        Some(ran) => page_run::sections(ran, end, page.names, &changes, &rules, &paths),
        None => String::new(),
    };
    format!(
        "<!doctype html>\n<html lang=\"en\">\n<head>\n<meta charset=\"utf-8\">\n\
         <meta name=\"viewport\" content=\"width=device-width, initial-scale=1\">\n\
         <title>{name}</title>\n<style>\n{STYLE}</style>\n</head>\n<body>\n{}<main>\n{}{sections}</main>\n\
         <script type=\"application/json\" id=\"data\">{}</script>\n<script>\n{SCRIPT}</script>\n</body>\n</html>\n",
        header(page, &changes),
        register_section(end, page.names, &changes),
        data(end, &changes, &rules, &paths, page.ran.is_none()),
    )
}

/// A file's name without its folder, as a page has it.
fn short_name(name: &str) -> String {
    let short = Path::new(name).file_name();
    escaped(&short.map_or(name.into(), |short| short.to_string_lossy()))
}

fn header(page: &Page<'_>, changes: &[Change]) -> String {
    let name = short_name(page.name);
    let summary = show::summary(page.register);
    let Some(ran) = page.ran else {
        return format!("<header>\n<h1>{name}</h1>\n<p>{summary}</p>\n</header>\n");
    };
    let counts = run::counts(Machine::Messages, &ran.run);
    let changed = counted(changes.len(), "cell");
    let stopped = stopped_words(ran, page.names).map_or(String::new(), |words| {
        let words = escaped(&words);
        format!("<p class=\"notice\">{words} What follows is the register as it was.</p>\n")
    });
    format!(
        "<header>\n<h1>{name}, with {}</h1>\n<p>{summary}</p>\n<p>The run: {counts}; {changed} changed.</p>\n\
         {stopped}<nav><a href=\"#register\">Register</a><a href=\"#changed\">What changed</a>\
         <a href=\"#why\">Why unfilled</a><a href=\"#plans\">Plans</a></nav>\n</header>\n",
        short_name(&ran.name)
    )
}

fn register_section(register: &Register, names: &Names, changes: &[Change]) -> String {
    let picture = match register.sizes().records > MANY {
        true => format!(
            "<details open><summary>All gaps at a look</summary>\n<div class=\"picture\">{}</div></details>\n",
            inline(&gaps_svg::picture(register, names))
        ),
        false => String::new(),
    };
    format!(
        "<section id=\"register\">\n<h2>The register</h2>\n{}{picture}{}<div class=\"register\">\n\
         <div class=\"scroll\">{}</div>\n\
         <aside id=\"told\" role=\"status\"><h3>Paths</h3><p class=\"quiet\">Point at a cell, or go to one with the \
         arrow keys: here stands what it holds, and the path behind it.</p></aside>\n\
         </div>\n</section>\n",
        legend(changes),
        controls(register, changes),
        grid(register, names, changes),
    )
}

fn legend(changes: &[Change]) -> String {
    let changed = match changes.is_empty() {
        true => "",
        false => "<li><span class=\"c\">180</span>changed by the run</li>",
    };
    format!(
        "<ul class=\"legend\"><li><span>180</span>measured</li><li><span class=\"w\">180~</span>worked out by a rule</li>\
         <li><span class=\"g\">-</span>unfilled</li>{changed}</ul>\n"
    )
}

fn controls(register: &Register, changes: &[Change]) -> String {
    let last = register.sizes().records.saturating_sub(1);
    let changed = match changes.is_empty() {
        true => "",
        false => "<option value=\"changes\">records that the run changed</option>",
    };
    format!(
        "<div class=\"controls\"><label>Show <select id=\"show\"><option value=\"all\">all records</option>\
         <option value=\"gaps\">records with unfilled cells</option>{changed}</select></label>\
         <form id=\"go\"><label>Go to record <input type=\"number\" name=\"record\" min=\"0\" max=\"{last}\" value=\"0\"></label> \
         <button>Go</button></form></div>\n"
    )
}

/// The cells as a table; what is measured needs no class.
fn grid(register: &Register, names: &Names, changes: &[Change]) -> String {
    let fields = register.sizes().fields();
    let fields: String = fields
        .map(|field| format!("<th scope=\"col\">{}", escaped(&names.field(field))))
        .collect();
    let mut changes = changes.iter().peekable();
    let rows = show::records(register).map(|(record, cells)| {
        let letters = register.sizes().fields();
        let mut changed = false;
        let mut row = String::new();
        for (field, cell) in letters.zip(&cells) {
            let is_next = changes.next_if(|change| (change.0, change.1) == (record, field));
            changed |= is_next.is_some();
            row += &grid_cell(*cell, is_next.is_some());
        }
        let class = row_class(cells.contains(&Cell::Unfilled), changed);
        let head = escaped(&names.record_cells(record).join(" "));
        format!("<tr{class}><th scope=\"row\">{head}{row}\n")
    });
    let rows: String = rows.collect();
    format!(
        "<table id=\"grid\" data-show=\"all\" aria-label=\"the register\"><thead><tr class=\"head\"><th scope=\"col\">record\
         {fields}</thead>\n<tbody>\n{rows}</tbody></table>"
    )
}

fn grid_cell(cell: Cell, changed: bool) -> String {
    let class = match (cell, changed) {
        (Cell::Unfilled, false) => " class=g",
        (Cell::Unfilled, true) => " class=\"g c\"",
        (Cell::WorkedOut(_), false) => " class=w",
        (Cell::WorkedOut(_), true) => " class=\"w c\"",
        (_, true) => " class=c",
        (_, false) => "",
    };
    format!("<td{class}>{cell}")
}

fn row_class(gaps: bool, changed: bool) -> &'static str {
    match (gaps, changed) {
        (true, true) => " class=\"gaps changes\"",
        (true, false) => " class=gaps",
        (false, true) => " class=changes",
        (false, false) => "",
    }
}

/// A picture as a part of a page: only a file of its own has to say what it is.
pub fn inline(picture: &str) -> String {
    picture.replacen(" xmlns=\"http://www.w3.org/2000/svg\"", "", 1)
}

/// What the script looks up: the rules, the chains with the records of their paths,
/// whether they only follow references, and what changed cells were.
fn data(
    register: &Register,
    changes: &[Change],
    rules: &[Rule],
    paths: &[ChainPaths],
    followed: bool,
) -> String {
    let fields: String = register.sizes().fields().collect();
    let before = changes.iter().map(|(record, field, before, _)| {
        let cell = json::string(&before.to_string());
        format!("\"{field}{record}\":{cell}")
    });
    let before: Vec<String> = before.collect();
    let data = json::object(&[
        ("fields", json::string(&fields)),
        ("references", register.sizes().references.to_string()),
        (
            "rules",
            json::list(rules.iter().map(|rule| rule_data(rule, paths))),
        ),
        ("chains", json::list(paths.iter().map(chain_data))),
        ("followed", followed.to_string()),
        ("before", format!("{{{}}}", before.join(","))),
    ]);
    // Nothing in it ends the script that it stands in.
    data.replace('<', "\\u003c")
}

fn rule_data(rule: &Rule, paths: &[ChainPaths]) -> String {
    let place = |chain: &String| paths.iter().position(|paths| paths.chain == *chain);
    json::object(&[
        ("step", rule.step.to_string()),
        ("text", json::string(&rule.text)),
        ("field", json::string(&rule.field.to_string())),
        ("remote", rule.remote.to_string()),
        ("chains", json::list(rule.chains.iter().filter_map(place))),
    ])
}

/// A chain with the records of its paths, the first left out: that is the record itself.
fn chain_data(of_chain: &ChainPaths) -> String {
    let letters = of_chain.chain.chars().filter(char::is_ascii_uppercase);
    let letters: String = letters.rev().collect();
    let paths = of_chain.paths.iter().map(|path| {
        let records = path.hops.iter().skip(1).map(|hop| hop.record.to_string());
        records.collect::<Vec<String>>().join(",")
    });
    let paths: Vec<String> = paths.collect();
    json::object(&[
        ("chain", json::string(&of_chain.chain)),
        ("letters", json::string(&letters)),
        ("paths", json::string(&paths.join(";"))),
    ])
}
