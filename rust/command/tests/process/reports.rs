//! `plot report`: the page holds what there is, needs no other file, and works in a
//! browser where there is one.

use crate::folder::Folder;
use generate::cases::Case;
use generate::random::Random;
use generate::registers;
use plot::{Machine, Register};
use reference::register::Sizes;
use std::process::Command;

/// The page that is written.
fn page(folder: &Folder, words: &[&str]) -> String {
    let words = [&["report"], words, &["-o", "report.html"]].concat();
    folder.plot(&words).has("wrote report.html: ");
    let page = String::from_utf8(folder.read("report.html")).expect("it is text");
    assert!(page.starts_with("<!doctype html>") && page.ends_with("</html>\n"));
    // Nothing is fetched from anywhere.
    for link in ["http", "src=", "url(", "@import", "<link", "<img"] {
        assert!(!page.contains(link), "{link}");
    }
    assert_eq!(
        page.matches("href=").count(),
        page.matches("href=\"#").count()
    );
    assert_eq!(page.matches("</script>").count(), 2);
    page
}

/// The part of the page between two texts.
fn between<'a>(page: &'a str, start: &str, end: &str) -> &'a str {
    let (_, rest) = page.split_once(start).expect(start);
    rest.split_once(end).expect(end).0
}

#[test]
fn a_page_of_a_register() {
    let folder = Folder::with_cemetery("report");
    let page = page(&folder, &["sparse.register"]);
    let grid = between(&page, "<table id=\"grid\"", "</table>");
    assert_eq!(grid.matches("<td").count(), 84);
    assert_eq!(grid.matches("<td class=g>-").count(), 60);
    assert!(!page.contains("id=\"plans\""));
    folder.plot(&["run", "full.register", "depths.rules", "-o", "depths"]);
    let page = self::page(&folder, &["depths"]);
    let grid = between(&page, "<table id=\"grid\"", "</table>");
    assert_eq!(grid.matches("<td class=w>").count(), 10);
    assert!(grid.contains("<td class=w>275~"));
}

#[test]
fn a_page_of_a_run() {
    let folder = Folder::with_cemetery("report-run");
    let page = page(&folder, &["sparse.register", "depths.rules"]);
    assert!(page.contains("The run: 3 steps finished, 6 exchanges, 48 messages; 6 cells changed."));
    let grid = between(&page, "<table id=\"grid\"", "</table>");
    assert_eq!(grid.matches("<td class=\"w c\">").count(), 6);
    let changed = between(&page, "<section id=\"changed\">", "</section>");
    assert!(changed.contains("<button data-cell=\"N4\">N</button><td>-<td>275~\n"));
    let why = between(&page, "<section id=\"why\">", "</section>");
    for (gap, stopped) in [
        ("A5", "N of record 5, by <code>N[A[u]]</code>"),
        ("M6", "N of record 6, by <code>M[u]</code>"),
        ("N11", "N of record 8, by <code>N[A[u]]</code>"),
    ] {
        assert!(
            why.contains(&format!("<button data-cell=\"{gap}\">")),
            "{gap}"
        );
        assert!(why.contains(stopped), "{stopped}");
    }
    let plans = between(&page, "<section id=\"plans\">", "</section>");
    assert!(plans.contains("data-exchanges=\"2\"") && plans.contains("<g data-round=\"2\">"));
    let page = self::page(&folder, &["full.register", "components.rules"]);
    assert!(page.contains("No gap stops a rule") && page.contains("stroke-dasharray"));
}

#[test]
fn pages_that_are_refused_or_stopped() {
    let folder = Folder::with_cemetery("report-refused");
    let report = |words: &[&str]| folder.plot(&[&["report"], words].concat());
    report(&["full.register"]).fails(2, "-o REPORT.html is missing");
    report(&["full.register", "-o", "full.register"]).fails(2, "is read here");
    report(&["full.csv", "-o", "x"]).fails(1, "refused");
    let bad = folder.plot_with(&["report", "full.register", "-", "-o", "x"], b"step\n");
    bad.fails(1, "refused 8");
    assert!(!folder.at("x").exists());
    let words = [
        "full.register",
        "components.rules",
        "--budget",
        "2",
        "-o",
        "x",
    ];
    let said = report(&words);
    assert_eq!(said.status, 1);
    assert!(said.err.contains("refused 20") && said.out.starts_with("wrote x: "));
    let page = String::from_utf8(folder.read("x")).expect("it is text");
    assert!(page.contains("The run was stopped (20): the budget is spent"));
    let said = report(&["full.register", "-o", "x", "--json"]);
    said.has("{\"wrote\":\"x\",\"bytes\":");
    let said = report(&["full.register", "-o", "-"]);
    assert!(
        said.status == 0 && said.out.starts_with("<!doctype") && said.err.starts_with("wrote -")
    );
}

#[test]
fn names_and_rules_end_nothing() {
    let folder = Folder::with_cemetery("report-names");
    folder.write("a<b>&.register", folder.read("sparse.register"));
    folder.write(
        "x<!--.rules",
        "step\nif M[u] < 5: remote M[A[u]] <?= M[u] <? 1\nend\n",
    );
    let page = page(&folder, &["a<b>&.register", "x<!--.rules"]);
    assert!(page.contains("<h1>a&lt;b>&amp;.register, with x&lt;!--.rules</h1>"));
    assert!(page.contains("<pre>step\nif M[u] &lt; 5: remote M[A[u]] &lt;?= M[u] &lt;? 1\n"));
    let data = between(&page, "id=\"data\">", "</script>");
    assert!(
        !data.contains('<') && data.contains("M[A[u]] \\u003c?= M[u]"),
        "{data}"
    );
}

/// The paths of the page are the library's, and every gap that is listed is one.
#[test]
fn generated_pages() {
    let folder = Folder::new("report-generated");
    let mut random = Random::new(43);
    let (mut compared, mut gaps) = (0, 0);
    for _ in 0..40 {
        let case = Case::small(&mut random);
        folder.write("register", &case.register);
        folder.write("rules", &case.text);
        let said = folder.plot(&[
            "report", "register", "rules", "--budget", "40", "-o", "page",
        ]);
        assert!((0..=1).contains(&said.status), "{}", said.err);
        let page = String::from_utf8(folder.read("page")).expect("it is text");
        let register = Register::from_bytes(case.register.as_slice()).expect("it loads");
        let end = register
            .run(&case.text, Machine::Direct, 40)
            .expect("it passes")
            .register;
        for part in page.split("{\"chain\":\"").skip(1) {
            let chain = part.split('"').next().expect("it ends");
            let listed = between(part, "\"paths\":\"", "\"").split(';');
            for (record, listed) in listed.take(end.sizes().records).enumerate() {
                let path = end.path(chain, record).expect("the chain has passed");
                let hops = path.hops.iter().skip(1).map(|hop| hop.record.to_string());
                assert_eq!(
                    listed,
                    hops.collect::<Vec<String>>().join(","),
                    "{chain} at {record}"
                );
                compared += 1;
            }
        }
        let why = between(&page, "<section id=\"why\">", "</section>");
        for part in why.split("data-cell=\"").skip(1) {
            let (field, record) = part.split('"').next().expect("it ends").split_at(1);
            let field = field.chars().next().expect("a letter");
            let cell = end.cell(record.parse().expect("a number"), field);
            assert_eq!(cell, Some(plot::Cell::Unfilled));
            gaps += 1;
        }
    }
    assert!(compared > 500 && gaps > 20, "{compared} paths, {gaps} gaps");
}

/// The browser, if there is one.
fn browser() -> Option<&'static str> {
    let is_there = |name: &&str| {
        let found = Command::new(name).arg("--version").output();
        found.is_ok_and(|output| output.status.success())
    };
    ["chromium", "chromium-browser", "google-chrome"]
        .into_iter()
        .find(is_there)
}

/// What a browser makes of a page, with a script at its end that says what it sees.
fn looked_at(folder: &Folder, browser: &str, hash: &str, script: &str, words: &[&str]) -> String {
    let page = String::from_utf8(folder.read("report.html")).expect("it is text");
    let script = format!(
        "<script>addEventListener('error', event => {{ document.title = 'wrong: ' + event.message; }});\n\
         const seen = [];\n{script}\ndocument.title = seen.join(' | ');</script>\n</body>"
    );
    folder.write("looked.html", page.replace("</body>", &script));
    let page = format!("file://{}#{hash}", folder.at("looked.html").display());
    let profile = format!("--user-data-dir={}", folder.at("profile").display());
    let mut command = Command::new(browser);
    let command = command
        .args([
            "--headless",
            "--no-sandbox",
            "--disable-gpu",
            "--window-size=1300,900",
            &profile,
        ])
        .args(words)
        .args(["--dump-dom", &page]);
    let said = folder.run(command, b"");
    assert_eq!(said.status, 0, "{}", said.err);
    assert!(
        said.out.contains("data-ready=\"yes\""),
        "the script has not ended"
    );
    between(&said.out, "<title>", "</title>").to_owned()
}

/// Goes about in a page as somebody with a keyboard does.
const BY_KEYBOARD: &str = "
  const told = () => document.querySelector('#told h3').textContent;
  const press = key => document.activeElement.dispatchEvent(new KeyboardEvent('keydown', { key, bubbles: true, cancelable: true }));
  seen.push(told());
  press('ArrowUp'); seen.push(told());
  for (let left = 0; left < 9; left += 1) press('ArrowLeft');
  seen.push(told());
  press('Enter'); seen.push(told());
  seen.push(document.querySelectorAll('#grid .path').length);
  const show = document.getElementById('show');
  show.value = 'changes'; show.dispatchEvent(new Event('change'));
  seen.push([...document.querySelectorAll('#grid tbody tr')].filter(row => row.offsetParent !== null).length);
  const figure = document.querySelector('figure.plan[data-exchanges]');
  figure.querySelector('.previous').click();
  seen.push(figure.querySelector('output').textContent);
  seen.push([...figure.querySelectorAll('g.later')].map(group => group.dataset.round).join());
  document.querySelector('#why button').click(); seen.push(told());
";

const DARK: &str = "seen.push(getComputedStyle(document.body).backgroundColor);";

#[test]
fn in_a_browser() {
    let Some(browser) = browser() else {
        eprintln!("report: left out of the browser, there is no chromium");
        return;
    };
    let folder = Folder::with_cemetery("report-browser");
    page(&folder, &["sparse.register", "depths.rules"]);
    let seen = looked_at(&folder, browser, "N5", BY_KEYBOARD, &[]);
    assert_eq!(
        seen,
        "N of record 5 | N of record 4 | A of record 4 | A of record 10 | 1 | 6 | 1 of 2 | 2 | M of record 1"
    );
    let paths =
        "seen.push(...[...document.querySelectorAll('#told li')].map(item => item.textContent));";
    let seen = looked_at(&folder, browser, "N4", paths, &[]);
    assert_eq!(
        seen,
        "A of record 4: 10, measured | N of record 10: 65, worked out | M of record 4: 210, measured"
    );
    folder
        .plot(&["pack", "clerk.csv", "-o", "clerk"])
        .has("wrote clerk.names");
    page(&folder, &["clerk", "depths.rules"]);
    let named = format!("seen.push(document.querySelector('#told h3').textContent);{paths}");
    let seen = looked_at(&folder, browser, "N4", &named, &[]);
    assert_eq!(
        seen,
        "N below datum of East 1 (record 4) | A mark of East 1 (record 4): 10, measured | \
         N below datum of Mark B (record 10): 65, worked out | M below mark of East 1 (record 4): 210, measured"
    );
    // A gap in the last column is one.
    let gap = "seen.push(document.querySelector('#told p').textContent);";
    let seen = looked_at(&folder, browser, "N1", gap, &[]);
    assert_eq!(seen, "unfilled");
    let light = looked_at(&folder, browser, "", DARK, &[]);
    let dark = looked_at(
        &folder,
        browser,
        "",
        DARK,
        &["--blink-settings=preferredColorScheme=0"],
    );
    assert_eq!(
        (light.as_str(), dark.as_str()),
        ("rgb(255, 255, 255)", "rgb(21, 24, 28)")
    );
}

#[test]
fn many_records_in_a_browser() {
    let Some(browser) = browser() else {
        return;
    };
    let folder = Folder::with_cemetery("report-large");
    let mut random = Random::new(44);
    let sizes = Sizes {
        records: 4096,
        references: 2,
        measures: 2,
    };
    folder.write("large.register", registers::file(&mut random, sizes));
    folder.write("copy.rules", "step\nN[u] := M[A[u]]\nend\n");
    page(&folder, &["large.register", "copy.rules"]);
    let script = "seen.push(document.querySelectorAll('#grid tbody tr').length, document.querySelectorAll('#grid td').length);
      seen.push(document.querySelector('#told h3').textContent);
      const cell = document.activeElement.getBoundingClientRect();
      const box = document.querySelector('.scroll').getBoundingClientRect();
      seen.push(cell.top > box.top && cell.bottom < box.bottom);";
    let seen = looked_at(&folder, browser, "N4000", script, &[]);
    assert_eq!(seen, "4096 | 16384 | N of record 4000 | true");
}
