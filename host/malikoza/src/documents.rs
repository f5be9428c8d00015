//! Header and documents beside the crate: they say the same, and their links lead somewhere.

use crate::Refusal;
use std::path::{Path, PathBuf};
use std::{env, fs};

/// The top of the repository: the nearest folder above that has crates.txt.
fn top() -> PathBuf {
    let here = env::current_dir().expect("a folder to stand in");
    here.ancestors().find(|folder| folder.join("crates.txt").is_file()).expect("crates.txt above").into()
}

fn text(path: &str) -> String {
    fs::read_to_string(top().join(path)).unwrap_or_else(|error| panic!("{path}: {error}"))
}

/// The paths of what a folder holds; none where there is no such folder.
fn files(folder: &str) -> Vec<String> {
    let Ok(files) = fs::read_dir(top().join(folder)) else { return Vec::new() };
    files.map(|file| format!("{folder}/{}", file.expect("a file").file_name().to_string_lossy())).collect()
}

/// `ProjectionEmpty` as `PROJECTION_EMPTY`.
fn in_capitals(name: &str) -> String {
    let spaced = name.chars().map(|c| if c.is_uppercase() { format!("_{c}") } else { c.to_uppercase().to_string() });
    spaced.collect::<String>().trim_start_matches('_').to_string()
}

#[test]
fn header_and_readme_have_the_same_names_numbers_and_sentences() {
    let header = text("include/malikoza.h").split_whitespace().collect::<Vec<_>>().join(" ");
    let readme = text("README.md");
    for refusal in Refusal::ALL {
        let name = format!("MALIKOZA_{}", in_capitals(&format!("{refusal:?}")));
        let number = format!("{name} = {}", refusal.number());
        let sentence = format!("case {name}: return \"{refusal}\";");
        let row = refusal.to_string().replacen("refusal ", "| ", 1).replacen(": ", " | ", 1) + " |\n";
        assert!([",", " }"].iter().any(|end| header.contains(&(number.clone() + end))), "malikoza.h lacks: {number}");
        assert!(header.contains(&sentence), "malikoza.h lacks: {sentence}");
        assert!(readme.contains(&row), "README.md lacks: {row}");
    }
    assert_eq!(header.matches("return \"refusal ").count(), Refusal::ALL.len());
}

/// Whether a document has a sentence, however its lines break and whether it begins with a capital or not.
fn says(path: &str, sentence: &str) -> bool {
    let document = text(path).to_lowercase();
    let words = document.split_whitespace().filter(|word| !["*", "///"].contains(word));
    words.collect::<Vec<_>>().join(" ").contains(&sentence.to_lowercase())
}

#[test]
fn the_rule_for_the_final_is_told_in_the_same_words() {
    const RULE: &str = "with the final asked for and t0 at or before the last time, the last station is added unless \
                        there is a last entry that is at or past it; a NaN entry counts as not there.";
    let comments = ["include/malikoza.h", "host/malikoza/src/conversions.rs"];
    for path in comments.into_iter().chain(["README.md", "docs/RULES.md", "docs/STATEMENTS.md"]) {
        assert!(says(path, RULE), "{path} has another rule for the final");
    }
}

#[test]
fn header_and_crate_have_the_same_limits() {
    let header = text("include/malikoza.h");
    let limits = [
        ("ROWS", crate::MAX_ROWS),
        ("STATIONS", crate::MAX_STATIONS),
        ("SAMPLES", crate::MAX_SAMPLES),
        ("FILE", crate::MAX_FILE),
    ];
    for (name, limit) in limits {
        assert!(header.contains(&format!("MALIKOZA_MAX_{name} = {limit}")), "malikoza.h has another {name}");
    }
}

/// What stands between two texts, the first time that the first of them comes.
fn between<'a>(whole: &'a str, start: &str, end: &str) -> &'a str {
    whole.split_once(start).and_then(|(_, rest)| rest.split_once(end)).expect("both texts").0
}

#[test]
fn header_crate_and_changelog_have_the_same_version() {
    let [header, crate_, changes] = ["include/malikoza.h", "host/malikoza/Cargo.toml", "CHANGELOG.md"].map(text);
    let version = between(&header, "#define MALIKOZA_VERSION \"", "\"");
    assert_eq!(between(&crate_, "version = \"", "\""), version);
    assert_eq!(between(&changes, "\n## ", "\n"), version);
}

/// `rt ci` tells of each crate, and of each edit that must fail, that it passed.
#[test]
fn readme_counts_crates_and_edits() {
    let readme = text("README.md").split_whitespace().collect::<Vec<_>>().join(" ");
    let listed = text("crates.txt");
    let lines = listed.lines().filter(|line| !line.starts_with('#'));
    let heads = lines.filter_map(|line| line.split_once(':')).map(|(head, _)| head);
    let crates: Vec<&str> = heads.filter_map(|head| head.split(' ').next()).collect();
    let edits: usize = crates.iter().map(|name| files(&format!("crates/{name}/must-fail")).len()).sum();
    let (crates, passed) = (crates.len(), crates.len() + edits);
    let told = [
        format!("proves the {crates} crates;"),
        format!("`{crates} of {crates} crates ok`"),
        format!("tries {edits} edits"),
        format!("`{passed} passed, 0 failed`"),
    ];
    for words in told {
        assert!(readme.contains(&words), "README.md lacks: {words}");
    }
}

/// The cases of a program, each a line that begins with a small letter.
fn cases(program: &str) -> Vec<String> {
    let lines = text(&format!("crates/{program}/stdin"));
    lines.lines().filter(|line| line.starts_with(|c: char| c.is_ascii_lowercase())).map(String::from).collect()
}

/// A case's name as documents have it.
fn name(case: &str) -> String {
    format!("`{}`", case.split(' ').next().expect("a name"))
}

#[test]
fn each_case_is_told_in_words() {
    let statements = text("docs/STATEMENTS.md");
    for case in [cases("bench"), cases("bench_files"), cases("bench_edges")].concat() {
        assert!(statements.contains(&name(&case)), "docs/STATEMENTS.md lacks {case}");
    }
}

/// The figures that a case must answer, lent numbers after n and entries after e; what is written as a pattern is none.
fn figures(case: &str) -> Vec<&str> {
    let mut letter = "";
    let mut figures = Vec::new();
    for word in case.split(' ').skip(1) {
        if word.starts_with(|c: char| c.is_ascii_alphabetic()) {
            letter = word;
        } else if ["n", "e"].contains(&letter) && !word.starts_with('#') {
            figures.push(word.strip_suffix(".0").unwrap_or(word));
        }
    }
    figures
}

/// Whether a figure stands in a text, and not as a part of another.
fn stands(figure: &str, text: &str) -> bool {
    text.match_indices(figure).any(|(place, _)| {
        let (before, after) = (&text[..place], &text[place + figure.len()..]);
        let is_more = |c: char| c.is_ascii_digit();
        let goes_on = after.strip_prefix('.').unwrap_or(after).starts_with(is_more);
        !goes_on && !before.ends_with(is_more) && !before.ends_with('.')
    })
}

/// The worked examples are the cases whose names begin with w, and a section of docs/RULES.md has each and its figures.
#[test]
fn each_worked_figure_is_a_case() {
    let rules = text("docs/RULES.md");
    let all = [cases("bench"), cases("bench_files")].concat();
    let worked: Vec<String> = all.into_iter().filter(|case| case.starts_with('w')).collect();
    for case in &worked {
        let section = rules.split("\n#").find(|section| section.contains(&name(case)));
        let section = section.unwrap_or_else(|| panic!("docs/RULES.md lacks {case}"));
        for figure in figures(case) {
            assert!(stands(figure, section), "docs/RULES.md lacks {figure} of {case}");
        }
    }
    let told = rules.split('`').filter(|word| word.starts_with('w') && word.ends_with(|c: char| c.is_ascii_digit()));
    for word in told {
        assert!(worked.iter().any(|case| name(case) == format!("`{word}`")), "no case is named {word}");
    }
}

/// Where the links of a document lead: what stands after `](`, or in a line `[NAME]: ..`, without a place in the file.
fn links(document: &str) -> Vec<&str> {
    let inline = document.split("](").skip(1).filter_map(|rest| rest.split(')').next());
    let lines = document.lines().filter(|line| line.starts_with('['));
    let named = lines.filter_map(|line| line.split_once("]: ")).map(|(_, target)| target);
    let files = inline.chain(named).filter_map(|target| target.split('#').next());
    files.filter(|file| !file.is_empty()).collect()
}

/// The documents: those at the top, and all below docs/.
fn documents() -> Vec<String> {
    let mut all = [vec!["README.md".into(), "CHANGELOG.md".into()], files("docs"), files("docs/landings")].concat();
    all.retain(|path: &String| path.ends_with(".md"));
    all
}

#[test]
fn links_lead_to_files() {
    for document in documents() {
        let folder = top().join(Path::new(&document).parent().expect("a folder"));
        for target in links(&text(&document)) {
            assert!(folder.join(target).exists(), "{document}: no {target}");
        }
    }
}
