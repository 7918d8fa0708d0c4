//! Times each stage on generated files of nearly 64 KiB that press one stage or another; an argument chooses by name.
use std::hint::black_box;
use std::time::Instant;

use reference::{check, parser, terminals, tokens, MAX_BYTES};

const ROWS: usize = 4_096;
/// None of the constants is a string.
const ROOM: usize = 0;

/// As many parts as fit between a head and a foot.
fn filled(head: &str, part: impl Fn(usize) -> String, foot: &str) -> Vec<u8> {
    let mut text = head.to_string();
    for number in 0.. {
        let more = part(number);
        if text.len() + more.len() + foot.len() > MAX_BYTES {
            break;
        }
        text += &more;
    }
    (text + foot).into_bytes()
}

/// A chain of a fixed number of declarations in which each names the next.
fn chained(head: &str, part: impl Fn(usize) -> String, length: usize, foot: &str) -> Vec<u8> {
    let parts: String = (0..length).map(part).collect();
    format!("{head}{parts}{foot}").into_bytes()
}

const MIXED: &str = "\
TYPE length_# = INTEGER;
  WHERE positive : SELF > 0;
END_TYPE;
ENTITY part_#;
  width, height : length_#;
  name : OPTIONAL STRING;
DERIVE
  area : INTEGER := width * height; -- a remark
WHERE
  wr1 : area < 1000;
  wr2 : {0 < width <= 100};
END_ENTITY;
";

fn supertypes(n: usize) -> String {
    if n == 0 {
        return "ENTITY e0;a:INTEGER;END_ENTITY;".into();
    }
    let above: Vec<String> = (n.saturating_sub(120)..n).map(|k| format!("e{k}")).collect();
    format!("ENTITY e{n} SUBTYPE OF({});WHERE a>0;END_ENTITY;", above.join(","))
}

fn diamond(n: usize) -> String {
    let half = |name| format!("ENTITY {name}{} SUBTYPE OF(e{n},f{n});WHERE a>b;END_ENTITY;", n + 1);
    half("e") + &half("f")
}

fn expressions() -> Vec<(&'static str, Vec<u8>)> {
    let head = "SCHEMA s; CONSTANT c0:INTEGER:=0";
    let foot = "; END_CONSTANT; END_SCHEMA;";
    let nested = "(".repeat(64) + "1" + &")".repeat(64);
    vec![
        (
            "constants, each naming the next",
            chained(
                "SCHEMA s; CONSTANT ",
                |n| format!("c{n}:INTEGER:=c{}+1;", n + 1),
                2_800,
                "c2800:INTEGER:=0; END_CONSTANT; END_SCHEMA;",
            ),
        ),
        ("constants, each naming the one before", filled(head, |n| format!(";c{}:INTEGER:=c{n}*2 DIV 2", n + 1), foot)),
        ("one long sum", filled(head, |_| "+1".into(), foot)),
        ("parentheses", filled(head, |_| format!("+{nested}"), foot)),
    ]
}

fn declarations() -> Vec<(&'static str, Vec<u8>)> {
    let head = "SCHEMA s; ENTITY e0;r:INTEGER;END_ENTITY;";
    let foot = "END_SCHEMA;";
    vec![
        ("mixed schema", filled("SCHEMA s;\n", |n| MIXED.replace('#', &n.to_string()), foot)),
        (
            "chain of entities, names from the root",
            filled(head, |n| format!("ENTITY e{} SUBTYPE OF(e{n});WHERE r>0;END_ENTITY;", n + 1), foot),
        ),
        (
            "chain of entities, an attribute each",
            filled(
                head,
                |n| format!("ENTITY e{} SUBTYPE OF(e{n});a{n}:REAL;WHERE a{}>0;END_ENTITY;", n + 1, n / 2),
                foot,
            ),
        ),
        (
            "entities with one spelling of attributes",
            filled(head, |n| format!("ENTITY e{} SUBTYPE OF(e0);a:REAL;WHERE w:a>0;END_ENTITY;", n + 1), foot),
        ),
        ("diamonds", filled("SCHEMA s; ENTITY e0;a:REAL;END_ENTITY;ENTITY f0;b:REAL;END_ENTITY;", diamond, foot)),
        ("many supertypes", filled("SCHEMA s; ", supertypes, foot)),
        (
            "renamings of the type before",
            filled("SCHEMA s; TYPE t0=INTEGER;END_TYPE;", |n| format!("TYPE t{}=t{n};END_TYPE;", n + 1), foot),
        ),
        (
            "renamings of the type after",
            chained(
                "SCHEMA s; ",
                |n| format!("TYPE t{n}=t{};END_TYPE;", n + 1),
                2_500,
                "TYPE t2500=REAL;END_TYPE;END_SCHEMA;",
            ),
        ),
        (
            "items of one spelling",
            filled(
                "SCHEMA s; ",
                |n| format!("TYPE t{n}=ENUMERATION OF(x,y{n});WHERE t{}.x<y{n};END_TYPE;", n / 2),
                foot,
            ),
        ),
        (
            "many schemas",
            filled(
                "",
                |n| format!("SCHEMA s{n};CONSTANT c:INTEGER:={n};END_CONSTANT;ENTITY e;a:REAL;END_ENTITY;END_SCHEMA;"),
                "",
            ),
        ),
        ("remarks", filled("SCHEMA s; ", |_| "(* a (* nested *) remark *) -- and a tail\n".into(), foot)),
    ]
}

/// The best of many runs, in microseconds.
fn best<T>(mut run: impl FnMut() -> T) -> f64 {
    let run = |_| {
        let start = Instant::now();
        black_box(run());
        start.elapsed().as_secs_f64() * 1e6
    };
    (0..200).map(run).fold(f64::INFINITY, f64::min)
}

fn main() {
    println!("microseconds; tables as long as needed, {ROWS} answers");
    println!(
        "{:42}{:>7}{:>7}{:>6}{:>9}{:>9}{:>9}{:>9}",
        "", "tokens", "nodes", "reply", "read", "classify", "parse", "check"
    );
    let only = std::env::args().nth(1).unwrap_or_default();
    let files = declarations().into_iter().chain(expressions());
    for (name, file) in files.filter(|(name, _)| name.contains(&only)) {
        let Ok(found) = tokens::read(&file) else { continue };
        let words = terminals::classify(&file, &found);
        let Ok(nodes) = parser::read(&words) else { continue };
        let reply = check(&file, [found.len(), nodes.len(), ROWS, ROOM]).report.reply;
        println!(
            "{name:42}{:7}{:7}{reply:6}{:9.1}{:9.1}{:9.1}{:9.1}",
            found.len(),
            nodes.len(),
            best(|| tokens::read(&file)),
            best(|| terminals::classify(&file, &found)),
            best(|| parser::read(&words)),
            best(|| check(&file, [found.len(), nodes.len(), ROWS, ROOM])),
        );
    }
}
