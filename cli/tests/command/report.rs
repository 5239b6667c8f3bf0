//! The page of `report`: its parts, and what a browser makes of it.

use crate::common::{answer, answer_in, answer_with, doors, folder, output, refused, run, run_with};
use std::io::Write;
use std::path::Path;
use std::process::{Command, Output};

/// Browsers of which any may be there.
const BROWSERS: [&str; 3] = ["chromium", "chromium-browser", "google-chrome"];

#[test]
fn the_page_needs_nothing_else() {
    let page = answer("report grammar.txt utterance.txt");
    for outside in ["http:", "https:", "<script", "<link", "src=", "url(", "@import"] {
        assert!(!page.contains(outside), "{outside}");
    }
    assert_eq!(page.matches("<svg ").count(), 8);
    assert_eq!(page.matches("<figure ").count(), 8);
    assert_eq!(page.matches("class=\"candidate taken\"").count(), 6);
    assert!(page.contains("<title>Readings of utterance.txt</title>"));
    assert_eq!(answer("report grammar.txt utterance.txt -n 3").matches("<svg ").count(), 3);
}

#[test]
fn what_was_not_heard_is_struck_out() {
    let page = answer("report grammar.txt utterance.txt --said 2=oak");
    assert_eq!(page.matches("class=\"candidate unheard\"").count(), 2);
}

/// The rows of a table of the page, each as the texts of its cells.
fn rows(page: &str, class: &str) -> Vec<Vec<String>> {
    let (_, table) = page.split_once(&format!("<table class=\"{class}\">")).expect("a table");
    let (table, _) = table.split_once("</table>").expect("the end of a table");
    let text = |cell: &str| cell.rsplit('>').next().unwrap_or_default().to_owned();
    let cells = |row: &str| row.split("</td>").map(text).filter(|text| !text.trim().is_empty()).collect::<Vec<_>>();
    table.split("</tr>").map(cells).filter(|cells| cells.len() > 1).collect()
}

#[test]
fn words_to_listen_to_again() {
    let page = answer("report grammar.txt utterance.txt");
    let expected =
        [["9", "1", "forty", "20", "80"], ["9", "5", "sixty", "33", "80"], ["51", "3", "glass", "52", "122"]];
    assert_eq!(rows(&page, "margins"), expected);
    assert!(!page.contains("Costs within ranges"));
    let none = answer_with(&doors(), "report grammar.txt -", b"door 1; four 2; oak 3");
    assert!(none.contains("<p>No other word brings another reading, however cheap it is.</p>"));
    for nothing in ["../doors_graph/graph.txt", "utterance.txt --skip 20"] {
        let page = run(&format!("report grammar.txt {nothing}"));
        assert!(page.status == 0 && !page.out.contains("listen to again"), "{nothing}");
    }
}

#[test]
fn costs_within_ranges() {
    let page = answer("report grammar.txt utterance.txt --high high.txt");
    let weighs =
        "weighs <span class=\"weight\">72</span> to <span class=\"weight\">84</span>. <strong>The first reading stands";
    assert!(page.contains(weighs), "{page}");
    assert_eq!(page.matches('–').count(), 4);
    assert!(page.contains("<span>twenty</span><span class=\"number\">12–19</span>"), "{page}");
    let high =
        std::fs::read_to_string(doors().join("high.txt")).expect("the example").replace("twenty 19", "twenty 29");
    let outweighed = answer_with(&doors(), "report grammar.txt utterance.txt --high -", high.as_bytes());
    assert!(outweighed.contains("<strong>The first reading can be outweighed</strong>"));
    // what is known for certain is so in both
    assert!(answer("report grammar.txt utterance.txt --high high.txt --said 1=forty").contains("first reading stands"));
    let none = run_with(&doors(), "report grammar.txt - --high high.txt", b"door 1");
    let refusal =
        "refused 59: the utterances differ elsewhere than in costs, a cost falls, or 65,535 stands in one only";
    assert_eq!(refused(none, 1), format!("high.txt: {refusal}\n"));
    let falls = run("report grammar.txt high.txt --high utterance.txt");
    assert_eq!(refused(falls, 1), format!("utterance.txt: {refusal}\n"));
    let graphs =
        "spireyerba report: ranges of costs are for slots, not for word graphs\ntry `spireyerba report --help`\n";
    for heard in ["../doors_graph/graph.txt --high high.txt", "utterance.txt --high ../doors_graph/graph.txt"] {
        assert_eq!(refused(run(&format!("report grammar.txt {heard}")), 2), graphs);
    }
}

#[test]
fn names_are_text() {
    let files: [(&str, &[u8]); 3] = [
        ("g", b"<b> -> \"<&\\\">\" | \"<b>\""),
        ("u", b"\"<&\\\">\" 3 | \"<b>\" 9"),
        ("high", b"\"<&\\\">\" 3 | \"<b>\" 9"),
    ];
    let folder = folder("report_names", &files);
    let page = answer_in(&folder, "report g u --high high");
    assert!(page.contains("&lt;&amp;&quot;&gt;") && page.contains("&lt;b&gt;"));
    assert!(!page.contains("<b>") && !page.contains("<&"));
}

/// The browser that is there; if there is none, this says so.
pub fn browser() -> Option<&'static str> {
    let is_there = |name: &&&str| Command::new(name).arg("--version").output().is_ok_and(|run| run.status.success());
    let found = BROWSERS.iter().find(is_there).copied();
    if found.is_none() {
        // not by a macro, whose output cargo keeps of tests that pass
        writeln!(std::io::stderr(), "skipped: no browser of {BROWSERS:?} is installed").expect("standard error");
    }
    found
}

/// Opens a page of a folder in a browser that nobody sees.
pub fn open(browser: &str, folder: &Path, page: &str, options: &[&str]) -> Output {
    let mut command = Command::new(browser);
    command.args(["--headless", "--no-sandbox", "--disable-gpu", "--disable-dev-shm-usage", "--hide-scrollbars"]);
    command.arg(format!("--user-data-dir={}", folder.join("profile").display()));
    command.args(["--window-size=1100,2300"]).args(options).arg(format!("file://{}", folder.join(page).display()));
    output(command.current_dir(folder), b"")
}

/// Where there is no browser, this says so and passes.
#[test]
fn a_browser_draws_the_page() {
    let Some(browser) = browser() else { return };
    let folder = folder("report_browser", &[]);
    answer(&format!("report grammar.txt utterance.txt -o {}", folder.join("page.html").display()));
    let run = open(browser, &folder, "page.html", &["--screenshot=page.png"]);
    let picture = std::fs::read(folder.join("page.png")).unwrap_or_else(|fault| panic!("{fault}: {run:?}"));
    assert_eq!(picture[..8], *b"\x89PNG\r\n\x1a\n");
    // an empty page of this size is a tenth as long
    assert!(picture.len() > 100_000, "{} bytes", picture.len());
}

/// Counts what a browser draws wrongly: texts of a tree that overlap or pass its edge, and a page that is wider than the window.
const PROBE: &str = r#"<script>
addEventListener("load", () => {
    let texts = 0, wrong = [];
    for (const tree of document.querySelectorAll("svg")) {
        const edge = tree.getBoundingClientRect();
        const boxes = [...tree.querySelectorAll("text")].map(text => [text.textContent, text.getBoundingClientRect()]);
        texts += boxes.length;
        for (const [at, [text, box]] of boxes.entries()) {
            if (box.left < edge.left || box.right > edge.right || box.top < edge.top || box.bottom > edge.bottom)
                wrong.push("outside: " + text);
            for (const [other, far] of boxes.slice(at + 1))
                if (box.left < far.right - 1 && far.left < box.right - 1 && box.top < far.bottom - 4 && far.top < box.bottom - 4)
                    wrong.push(text + " over " + other);
        }
    }
    if (document.documentElement.scrollWidth > innerWidth) wrong.push("wider than the window");
    document.title = `${texts} texts, wrong: ${wrong.join(", ") || "none"}`;
});
</script>"#;

/// A graph of 25 places and 96 edges: from each place edges to the next ones, of one to six places.
fn dense_graph() -> String {
    let spans = (0..24).flat_map(|from| [1, 1 + from % 3, 1 + from % 6].map(|length| (from, (from + length).min(24))));
    let edges =
        spans.flat_map(|(from, to)| ["a", "b"].map(|word| format!("{from} {to} {word} {}\n", 100 + from * 37 + to)));
    let mut known = Vec::new();
    edges.for_each(|edge| {
        if !known.contains(&edge) {
            known.push(edge)
        }
    });
    known.truncate(96);
    known.concat() + "24\n"
}

/// Pages of slots, of graphs and of office rules, with words of one letter under long symbols. Where there is no browser, this
/// says so and passes.
#[test]
fn a_browser_finds_room_for_every_text() {
    let Some(browser) = browser() else { return };
    let grammar = b"Instructions -> \"a\" \"b\" | Instructions Instructions \"b\" [65535] | \"a\" Instructions";
    let slot = "a 1 | b 2\n".repeat(24);
    let dense = dense_graph();
    let files: [(&str, &[u8]); 3] = [("g", grammar), ("u", slot.as_bytes()), ("dense", dense.as_bytes())];
    let folder = folder("report_probe", &files);
    let examples = doors().join("..").display().to_string();
    for (command, texts) in [
        (format!("{examples}/doors/grammar.txt {examples}/doors/utterance.txt --high {examples}/doors/high.txt"), 183),
        (format!("{examples}/doors_graph/grammar.txt {examples}/doors_graph/graph.txt"), 0),
        (format!("{examples}/doors_office/grammar.txt {examples}/doors_office/utterance.txt -n 256"), 0),
        ("g u -n 3".to_owned(), 0),
        ("g dense".to_owned(), 0),
    ] {
        let page = answer_in(&folder, &format!("report {command}"));
        std::fs::write(folder.join("probe.html"), page.replace("</body>", &format!("{PROBE}</body>"))).expect("a file");
        let run = open(browser, &folder, "probe.html", &["--dump-dom"]);
        let dom = String::from_utf8_lossy(&run.stdout);
        let title = dom.split_once("<title>").and_then(|(_, rest)| rest.split_once("</title>"));
        let (title, _) = title.unwrap_or_else(|| panic!("{run:?}"));
        let (found, wrong) = title.split_once(" texts, wrong: ").unwrap_or_else(|| panic!("{title}"));
        assert_eq!(wrong, "none", "{command}");
        assert!(found.parse::<u32>().is_ok_and(|found| found >= texts.max(100)), "{command}: {title}");
    }
}
