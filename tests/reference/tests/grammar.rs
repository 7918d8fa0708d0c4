//! The parser's refusals against a general recogniser (Earley's) of the grammar: reply 4 must stand at the first token
//! through which no text of the grammar begins, and random files must never make the checker panic.

mod common;

use std::collections::{HashMap, HashSet};

use common::Random;
use reference::{check, listing, parse, tokens, ROOM_SHORT};

/// The paper's grammar; the first alternative of each rule is one that comes to an end.
const GRAMMAR: &str = "
file = schema | schema file
schema = SCHEMA id ; constants declarations END_SCHEMA ;
constants = | CONSTANT constant_list END_CONSTANT ;
constant_list = constant | constant constant_list
constant = id : base := expression ;
base = simple | id
simple = INTEGER | BINARY | BOOLEAN | LOGICAL | NUMBER | REAL | STRING
declarations = | type declarations | entity declarations
type = TYPE id = under ; where END_TYPE ;
under = base | ENUMERATION OF ids | SELECT ids
ids = ( id_list )
id_list = id | id , id_list
where = | WHERE rules
rules = rule | rule rules
rule = expression ; | id : expression ;
entity = ENTITY id subtype ; attribute_list derive where END_ENTITY ;
subtype = | SUBTYPE OF ids
attribute_list = | attributes attribute_list
attributes = id_list : optional base ;
optional = | OPTIONAL
derive = | DERIVE derived_list
derived_list = constant | constant derived_list
expression = sum | sum relop sum
sum = term | sum addop term
addop = + | - | OR | XOR
term = factor | term mulop factor
mulop = * | / | DIV | MOD | AND
factor = operand | operand ** operand
operand = plain | id . id | interval | sign plain
sign = + | - | NOT
plain = primary | ( expression )
primary = 1 | %1 | TRUE | FALSE | UNKNOWN | ? | 1.5 | 'x' | PI | CONST_E | id | SELF
interval = { sum cmp sum cmp sum }
cmp = < | <=
relop = < | > | <= | >= | <> | = | :<>: | :=:
";

/// Tokens that no rule uses.
const STRAY: [&str; 5] = ["IN", "||", "[", "\\", "END"];

struct Rule {
    name: &'static str,
    parts: Vec<&'static str>,
}

struct Grammar {
    rules: Vec<Rule>,
    of: HashMap<&'static str, Vec<usize>>,
    nullable: HashSet<&'static str>,
}

impl Grammar {
    fn new() -> Self {
        let mut rules = Vec::new();
        for line in GRAMMAR.trim().lines() {
            let (name, alternatives) = line.split_once(" =").expect("a rule");
            for alternative in alternatives.split(" |") {
                rules.push(Rule { name, parts: alternative.split_whitespace().collect() });
            }
        }
        let mut of: HashMap<_, Vec<_>> = HashMap::new();
        for (number, rule) in rules.iter().enumerate() {
            of.entry(rule.name).or_default().push(number);
        }
        // No rule of several parts is nullable.
        let nullable = rules.iter().filter(|rule| rule.parts.is_empty()).map(|rule| rule.name).collect();
        Grammar { rules, of, nullable }
    }

    /// The first token through which no text begins; the number of tokens if they only stop early; none if accepted.
    fn refusal(&self, text: &[&str]) -> Option<usize> {
        let start = self.of["file"].iter().map(|&rule| (rule, 0, 0)).collect();
        let mut sets: Vec<Vec<(usize, usize, usize)>> = vec![start];
        for at in 0..=text.len() {
            self.complete(&mut sets, at);
            if at == text.len() {
                break;
            }
            let next: Vec<_> = sets[at]
                .iter()
                .filter(|&&(rule, dot, _)| self.rules[rule].parts.get(dot) == Some(&text[at]))
                .map(|&(rule, dot, origin)| (rule, dot + 1, origin))
                .collect();
            if next.is_empty() {
                return Some(at);
            }
            sets.push(next);
        }
        let whole = |&(rule, dot, origin): &(usize, usize, usize)| {
            self.rules[rule].name == "file" && dot == self.rules[rule].parts.len() && origin == 0
        };
        (!sets[text.len()].iter().any(whole)).then_some(text.len())
    }

    fn complete(&self, sets: &mut [Vec<(usize, usize, usize)>], at: usize) {
        let mut known: HashSet<_> = sets[at].iter().copied().collect();
        let mut done = 0;
        while done < sets[at].len() {
            let (rule, dot, origin) = sets[at][done];
            done += 1;
            let mut more = Vec::new();
            match self.rules[rule].parts.get(dot) {
                Some(part) => {
                    more.extend(self.of.get(part).into_iter().flatten().map(|&rule| (rule, 0, at)));
                    if self.nullable.contains(part) {
                        more.push((rule, dot + 1, origin));
                    }
                }
                None => {
                    let name = self.rules[rule].name;
                    let waiting =
                        sets[origin].iter().filter(|&&(rule, dot, _)| self.rules[rule].parts.get(dot) == Some(&name));
                    more.extend(waiting.map(|&(rule, dot, origin)| (rule, dot + 1, origin)));
                }
            }
            for item in more {
                if known.insert(item) {
                    sets[at].push(item);
                }
            }
        }
    }

    /// A random text of the grammar; short alternatives once the budget is spent.
    fn text(&self, random: &mut Random, mut budget: usize) -> Vec<&'static str> {
        let mut stack = vec!["file"];
        let mut text = Vec::new();
        while let Some(part) = stack.pop() {
            let Some(rules) = self.of.get(part) else {
                text.push(part);
                continue;
            };
            let leaf = matches!(part, "simple" | "addop" | "mulop" | "sign" | "primary" | "cmp" | "relop");
            let choice = if budget > 0 || leaf { random.below(rules.len()) } else { 0 };
            budget = budget.saturating_sub(1);
            stack.extend(self.rules[rules[choice]].parts.iter().rev());
        }
        text
    }
}

/// Changes some tokens: one out, one in, or one put for another.
fn damage(text: &mut Vec<&'static str>, terminals: &[&'static str], random: &mut Random) {
    for _ in 0..random.below(3) {
        let at = random.below(text.len());
        let token = terminals[random.below(terminals.len())];
        match random.below(4) {
            0 => drop(text.remove(at)),
            1 => text.insert(at, token),
            2 => text.truncate(at),
            _ => text[at] = token,
        }
        if text.is_empty() {
            return;
        }
    }
}

#[test]
fn refusals_stand_at_the_first_token_that_no_text_goes_through() {
    let grammar = Grammar::new();
    let mut terminals: Vec<&str> = grammar
        .rules
        .iter()
        .flat_map(|rule| &rule.parts)
        .copied()
        .filter(|part| !grammar.of.contains_key(part))
        .collect();
    terminals.sort();
    terminals.dedup();
    terminals.extend(STRAY);
    let mut random = Random(0x2545_F491_4F6C_DD1D);
    let mut accepted = 0;
    for _ in 0..2_000 {
        let budget = 20 + random.below(200);
        let mut text = grammar.text(&mut random, budget);
        damage(&mut text, &terminals, &mut random);
        let source = text.join(" ");
        let read = tokens::read(source.as_bytes()).expect("tokens");
        assert_eq!(read.len(), text.len(), "{source}");
        let found = parse(source.as_bytes(), &read, 10_000).outcome;
        let place = |token: usize| read.get(token).map_or(source.len() as u64, |row| u64::from(row.start));
        match grammar.refusal(&text) {
            None => {
                accepted += 1;
                assert!(found.is_ok(), "{source}");
            }
            Some(token) => {
                let refusal = found.expect_err(&source);
                assert_eq!((refusal.reply, refusal.number), (4, place(token)), "{source}");
            }
        }
    }
    assert!(accepted > 500);
}

/// Names are drawn from a small stock, so that they often meet.
fn named(text: &[&str], random: &mut Random) -> String {
    const NAMES: [&str; 8] = ["a", "B", "c", "d", "e", "F", "g", "x_1"];
    let words: Vec<String> = text
        .iter()
        .map(|&token| match token {
            "id" => NAMES[random.below(NAMES.len())].to_string(),
            "1" => random.below(40).to_string(),
            _ => token.to_string(),
        })
        .collect();
    words.join(" ")
}

#[test]
fn no_input_makes_the_checker_panic() {
    let grammar = Grammar::new();
    let mut random = Random(0x9E37_79B9_7F4A_7C15);
    let mut replies = [0; ROOM_SHORT as usize + 1];
    for round in 0..20_000 {
        let budget = 10 + random.below(60);
        let text = grammar.text(&mut random, budget);
        let mut bytes = named(&text, &mut random).into_bytes();
        if round % 4 == 0 {
            for _ in 0..=random.below(4) {
                let at = random.below(bytes.len());
                bytes[at] = random.below(256) as u8;
            }
        }
        let rows = [random.below(400), random.below(400), random.below(20), random.below(20)];
        let rows = if round % 8 == 0 { rows } else { [5_000; 4] };
        let checked = check(&bytes, rows);
        assert_eq!([checked.tokens.len(), checked.nodes.len(), checked.answers.len(), checked.room.len()], rows);
        let lines = listing(&bytes, &checked);
        assert!(lines.ends_with(b"\n"));
        replies[checked.report.reply as usize] += 1;
    }
    println!("{replies:?}");
    for length in 0..400 {
        for _ in 0..20 {
            let bytes: Vec<u8> = (0..length).map(|_| random.below(256) as u8).collect();
            let checked = check(&bytes, [500; 4]);
            assert_ne!(listing(&bytes, &checked), b"");
        }
    }
}
