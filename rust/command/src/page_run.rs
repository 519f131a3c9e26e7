//! The parts of a report that are about a run: what changed, why the rest is unfilled,
//! and the plans.

use crate::names::Names;
use crate::page::{Ran, inline};
use crate::plan::{Planned, summary};
use crate::plan_svg;
use crate::readings::{ChainPaths, Rule};
use crate::run::Change;
use crate::show::counted;
use crate::stopping;
use crate::stops::{self, Stop, Stopped};
use crate::svg::escaped;
use crate::walk::Row;
use plot::Register;

/// The most rows of a table, groups of gaps, and records of a group that are listed.
const MOST_ROWS: usize = 2000;
const MOST_STEPS: usize = 200;
const MOST_STOPS: usize = 100;
const MOST_RECORDS: usize = 30;

/// All of them.
pub fn sections(
    ran: &Ran,
    end: &Register,
    names: &Names,
    changes: &[Change],
    rules: &[Rule],
    paths: &[ChainPaths],
) -> String {
    let stops = stops::stops(end, rules, paths);
    let plans: String = ran.plans.iter().map(plan).collect();
    format!(
        "<section id=\"changed\">\n<h2>What the run changed</h2>\n{}{}</section>\n\
         <section id=\"why\">\n<h2>Why the rest is unfilled</h2>\n{}</section>\n\
         <section id=\"plans\">\n<h2>The plans of the steps</h2>\n\
         <details><summary>The rules</summary><pre>{}</pre></details>\n{plans}</section>\n",
        changed(changes, names),
        finished(&ran.rows),
        why(&stops, names),
        escaped(&String::from_utf8_lossy(&ran.text)),
    )
}

/// What is said where not everything is listed.
fn and_more(all: usize, most: usize, thing: &str) -> String {
    match all.saturating_sub(most) {
        0 => String::new(),
        more => format!(
            "<p class=\"quiet\">And {} more.</p>\n",
            counted(more, thing)
        ),
    }
}

fn changed(changes: &[Change], names: &Names) -> String {
    if changes.is_empty() {
        return "<p>No cell.</p>\n".to_owned();
    }
    let rows = changes.iter().take(MOST_ROWS);
    let rows = rows.map(|(record, field, before, after)| {
        let place = escaped(&names.record_cells(*record).join(" "));
        let name = escaped(&names.field(*field));
        format!(
            "<tr><td>{place}<td><button data-cell=\"{field}{record}\">{name}</button><td>{before}<td>{after}\n"
        )
    });
    let rows: String = rows.collect();
    let more = and_more(changes.len(), MOST_ROWS, "cell");
    format!(
        "<details open><summary>{}</summary>\n<div class=\"scroll\"><table><thead><tr><th>record<th>field<th>before\
         <th>after</thead>\n<tbody>\n{rows}</tbody></table></div>\n{more}</details>\n",
        counted(changes.len(), "cell")
    )
}

fn finished(steps: &[Row]) -> String {
    let rows = steps.iter().zip(1..).take(MOST_STEPS).map(|(row, number)| {
        let pass = row.pass.map_or("-".to_owned(), |pass| pass.to_string());
        format!(
            "<tr><td>{number}<td>{}<td>{pass}<td>{}<td>{}<td>{}\n",
            row.step, row.exchanges, row.messages, row.changed
        )
    });
    let rows: String = rows.collect();
    let more = and_more(steps.len(), MOST_STEPS, "step");
    format!(
        "<details><summary>{} finished, one by one</summary>\n<div class=\"scroll\"><table><thead><tr><th>finished<th>step\
         <th>pass<th>exchanges<th>messages<th>cells changed</thead>\n<tbody>\n{rows}</tbody></table></div>\n{more}</details>\n",
        counted(steps.len(), "step")
    )
}

fn why(stops: &[Stop], names: &Names) -> String {
    if stops.is_empty() {
        return "<p>No gap stops a rule that could fill another cell.</p>\n".to_owned();
    }
    let listed = stops.iter().take(MOST_STOPS);
    let listed: String = listed.map(|one| stop(one, names)).collect();
    let more = and_more(stops.len(), MOST_STOPS, "gap");
    format!(
        "<p>Cells that the rules could fill and that are still unfilled, by the gap that stops each reading; \
         those that stop most come first.</p>\n<ol class=\"stops\">\n{listed}</ol>\n{more}"
    )
}

fn stop(stop: &Stop, names: &Names) -> String {
    let (field, record) = (stop.field, stop.record);
    let readings = counted(stop.readings(), "reading");
    let place = escaped(&stopping::place(names, (record, field)));
    let stopped = stop.stopped.iter().map(|one| stopped(one, names));
    let stopped: String = stopped.collect();
    format!(
        "<li><button data-cell=\"{field}{record}\">{place}</button> stops {readings}\n<ul>\n{stopped}</ul>\n"
    )
}

fn stopped(stopped: &Stopped, names: &Names) -> String {
    let listed = stopped.records.iter().take(MOST_RECORDS);
    let listed: Vec<String> = listed.map(|u| escaped(&names.reference(*u))).collect();
    let more = match stopped.records.len().saturating_sub(MOST_RECORDS) {
        0 => String::new(),
        more => format!(", and {more} more"),
    };
    let records = match (names.has_labels(), stopped.records.len()) {
        (true, _) => "",
        (false, 1) => "record ",
        (false, _) => "records ",
    };
    format!(
        "<li>{} of {records}{}{more}, by <code>{}</code>\n",
        escaped(&names.field(stopped.field)),
        listed.join(", "),
        escaped(&stopped.chain)
    )
}

fn plan(planned: &Planned) -> String {
    let step = planned.step;
    let title = summary(step, &planned.plan);
    let exchanges = planned.plan.exchanges();
    if exchanges == 0 {
        let none = "It needs no message: no chain here has more than one hop.";
        return format!(
            "<figure class=\"plan\"><figcaption>{title}</figcaption><p class=\"quiet\">{none}</p></figure>\n"
        );
    }
    let picture = inline(&plan_svg::picture(std::slice::from_ref(planned), None));
    format!(
        "<figure class=\"plan\" data-exchanges=\"{exchanges}\"><figcaption>step {step}</figcaption>\n\
         <div class=\"controls\"><button class=\"previous\">Previous round</button>\
         <label>Round <input type=\"range\" min=\"0\" max=\"{exchanges}\" value=\"{exchanges}\"></label>\
         <button class=\"next\">Next round</button><output></output></div>\n\
         <div class=\"picture\">{picture}</div></figure>\n"
    )
}
