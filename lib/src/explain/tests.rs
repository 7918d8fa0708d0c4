//! The sentences on random and damaged files: each says more than the reply alone, and what it says is so.

use super::reader::{self, Wanted};
use super::words::{is_unread, RESERVED};
use super::{tokens, Explanation};
use crate::{check, Refusal, Reply, TokenKind};
use compare::cases;
use compare::hostile::{families, filled, Family};
use compare::random::{damaged, file, Rng, LARGEST};
use compare::timing::processor_time;
use std::fmt;
use std::ops::Range;
use std::thread;

/// Seeds of random files, two files for each.
const SEEDS: u64 = 30_000;
/// How often each reply that a file can get from `check` must occur at least.
const FLOOR: usize = 20;
const FRESH: &[u8] = b"not_in_any_file";

/// All inputs, one after the other, on two threads.
fn on_files(judge: impl Fn(&[u8]) + Sync) {
    cases::all().iter().for_each(|case| judge(&case.input));
    let judge = &judge;
    thread::scope(|scope| {
        for lane in 0..2 {
            scope.spawn(move || {
                for seed in (lane..SEEDS).step_by(2) {
                    judge(&file(seed));
                    judge(&damaged(seed, 300));
                }
            });
        }
    });
}

fn text<'a>(src: &'a [u8], span: &Range<usize>) -> &'a [u8] {
    src.get(span.clone()).expect("a span lies in the file")
}

fn alike(src: &[u8], left: &Range<usize>, right: &Range<usize>) -> bool {
    text(src, left).eq_ignore_ascii_case(text(src, right))
}

/// The number of the reply to a file in which other bytes stand in place of some, and the number beside it. Space at the end is left
/// out: a file that is filled up with it would be too long.
fn replaced(src: &[u8], span: &Range<usize>, by: &[u8]) -> (u8, u32) {
    let edited = [&src[..span.start], by, &src[span.end..]].concat();
    check(edited.trim_ascii_end()).map_or_else(|refusal| (refusal.number(), refusal.beside()), |_| (0, 0))
}

/// A refused file and what is said of it.
struct Said<'a> {
    src: &'a [u8],
    place: usize,
    reply: Reply,
    explanation: Explanation,
}

impl Said<'_> {
    /// Claims that hold of each sentence, and then those of its reply.
    fn hold(&self) {
        let Explanation { sentence, span, .. } = &self.explanation;
        assert_ne!(sentence, self.reply.meaning(), "{self}");
        let (end, length) = (span.end, self.src.len());
        assert!(span.start == self.place && end <= length && (!span.is_empty() || self.place == length), "{self}");
        match self.reply {
            Reply::TooLarge => self.too_large(),
            Reply::Repeated => self.repeated(),
            Reply::NotFound => self.not_found(),
            Reply::WrongSort => self.wrong_sort(),
            Reply::Ambiguous => self.ambiguous(),
            Reply::Cycle => self.cycle(),
            Reply::NotEvaluated => self.not_evaluated(),
            Reply::Misfit => self.misfit(),
            _ => {}
        }
    }

    fn span(&self) -> &Range<usize> {
        &self.explanation.span
    }

    fn related(&self) -> &[Range<usize>] {
        &self.explanation.related
    }

    /// Whether the sentence has the bytes at fault in it.
    fn is_named(&self) -> bool {
        self.explanation.sentence.contains(&crate::text::quoted(text(self.src, self.span())))
    }

    /// The same reply at the same place.
    fn as_before(&self) -> (u8, u32) {
        (self.reply.number(), self.place as u32)
    }

    /// With other bytes at a place that is not before the fault, the fault is gone.
    fn mended(&self, span: &Range<usize>, by: &[u8]) {
        assert_ne!(replaced(self.src, span, by), self.as_before(), "{self}");
    }

    /// A smaller literal of the kind, and it is read.
    fn too_large(&self) {
        match self.src[self.place] {
            b'\'' => self.mended(self.span(), b"''"),
            b'%' => self.mended(&literal(self.src, self.place), b"%1"),
            _ => self.mended(&literal(self.src, self.place), b"1"),
        }
    }

    /// Either of the two under another name, and this is no repetition any more.
    fn repeated(&self) {
        let earlier = &self.related()[0];
        assert!(self.is_named() && alike(self.src, earlier, self.span()) && earlier.end <= self.place, "{self}");
        self.mended(self.span(), FRESH);
        let moved = (self.place + FRESH.len() - earlier.len()) as u32;
        assert_ne!(replaced(self.src, earlier, FRESH), (self.reply.number(), moved), "{self}");
    }

    /// What is named beside is not seen from here, or its name would be found in this place.
    fn not_found(&self) {
        assert!(self.is_named() && self.related().len() <= 1, "{self}");
        for other in self.related() {
            let near = self.explanation.sentence.ends_with("is spelled much like it.");
            assert_ne!(near, alike(self.src, other, self.span()), "{self}");
            if near {
                self.mended(self.span(), text(self.src, other));
            }
        }
    }

    /// It is the name that is at fault: any other, and nothing is found.
    fn wrong_sort(&self) {
        if text(self.src, self.span()).eq_ignore_ascii_case(b"SELF") {
            return assert!(self.related().is_empty(), "{self}");
        }
        assert!(self.related().len() == 1 && alike(self.src, &self.related()[0], self.span()), "{self}");
        assert_eq!(replaced(self.src, self.span(), FRESH), (10, self.place as u32), "{self}");
    }

    /// An own name, and the inherited attribute; or a use with two meanings.
    fn ambiguous(&self) {
        assert!(self.is_named() && self.related().iter().all(|other| alike(self.src, other, self.span())), "{self}");
        assert!(!self.related().contains(self.span()), "{self}");
        match self.related() {
            [_] => self.mended(self.span(), FRESH),
            [one, other] => {
                assert_ne!(one, other, "{self}");
                assert_eq!(replaced(self.src, self.span(), FRESH), (10, self.place as u32), "{self}");
            }
            _ => panic!("{self}"),
        }
    }

    /// Each declaration of a cycle names the next one, in what follows its own name.
    fn cycle(&self) {
        let (src, declarations) = (self.src, self.related());
        assert_eq!(declarations[0].start, self.place, "{self}");
        for (at, declaration) in declarations.iter().enumerate() {
            let next = &declarations[(at + 1) % declarations.len()];
            let behind = tokens::read(&src[declaration.end..]);
            let words = behind.iter().filter(|token| token.kind == TokenKind::Word);
            let mut texts = words.map(|token| token.text(&src[declaration.end..]));
            assert!(texts.any(|word| word.eq_ignore_ascii_case(text(src, next))), "{self}");
        }
        self.mended(self.span(), FRESH);
    }

    fn not_evaluated(&self) {
        let is_type = self.explanation.sentence.starts_with("The constant") && self.related().is_empty();
        let evaluated: &[u8] = match text(self.src, self.span()) {
            b"/" => b"-",
            _ if is_type => b"INTEGER",
            _ => b"?",
        };
        self.mended(self.span(), evaluated);
    }

    /// Declared with the kind that the expression is said to be of, the two fit.
    fn misfit(&self) {
        let [declared] = self.related() else {
            return assert!(self.is_named() || self.src[self.place] == b'{', "{self}");
        };
        let kind = self.explanation.sentence.rsplit(" is ").next().expect("the last words");
        let fitting = match kind {
            "an integer." => "INTEGER",
            "a logical." => "LOGICAL",
            "a binary." => "BINARY",
            "a string." => "STRING",
            item => item.trim_start_matches("an item of `").trim_end_matches("`."),
        };
        self.mended(declared, fitting.as_bytes());
    }
}

impl fmt::Display for Said<'_> {
    fn fmt(&self, f: &mut fmt::Formatter) -> fmt::Result {
        let Said { src, place, reply, explanation } = self;
        write!(f, "{reply:?} at {place}: {}\n{}", explanation.sentence, String::from_utf8_lossy(src))
    }
}

fn hold(src: &[u8], refusal: &Refusal) {
    let (reply, explanation) = (refusal.reply(), refusal.explain());
    assert!(explanation.sentence.ends_with('.') && !explanation.sentence.contains('\n'), "{refusal:?}");
    match refusal.place() {
        Some(place) => Said { src, place, reply, explanation }.hold(),
        None => assert_eq!(reply, Reply::TooLong),
    }
}

/// The bytes of an integer or a binary, however large it is.
fn literal(src: &[u8], place: usize) -> Range<usize> {
    place..place + 1 + tokens::run(&src[place + 1..], |byte| byte.is_ascii_digit())
}

#[test]
fn each_sentence_says_more_than_its_reply_and_is_so() {
    let counts = std::sync::Mutex::new([0; 1 + Reply::RoomShort as usize]);
    on_files(|src| {
        let outcome = check(src);
        let number = outcome.as_ref().map_or_else(Refusal::number, |_| 0);
        counts.lock().expect("no panic")[number as usize] += 1;
        if let Err(refusal) = outcome {
            hold(src, &refusal);
        }
    });
    let counts = counts.into_inner().expect("no panic");
    println!("{counts:?}");
    for &reply in Reply::ALL {
        let count = counts[usize::from(reply.number())];
        assert!(
            match reply {
                // The tables and the room of `check` are never too short.
                Reply::TokensShort | Reply::NodesShort | Reply::AnswersShort | Reply::RoomShort => count == 0,
                Reply::TooLong => count >= 3,
                _ => count >= FLOOR,
            },
            "{counts:?}"
        );
    }
}

/// What the sentences say of strings.
#[test]
fn strings_have_their_sentences() {
    let long = format!("'{}'", "a".repeat(257));
    let sentences = [
        (long.as_str(), "The string has 257 bytes, and 255 are the most."),
        (
            "'a' + 1",
            "`+` takes two integers, two binaries or two strings, and its operands are a string and an integer.",
        ),
        ("-'a'", "`-` takes an integer, and its operand is a string."),
        ("{'a' < 1 < 2}", "An interval takes three of one kind, and these are a string, an integer and an integer."),
        ("'a' = 'b'", "The constant `c` is declared as `label`, a string, and its expression is a logical."),
        ("PI", "`PI` is not evaluated: constants hold integers, logicals, binaries, strings and items."),
    ];
    for (expression, sentence) in sentences {
        let constants = format!("CONSTANT c : label := {expression}; END_CONSTANT;");
        let src = format!("SCHEMA s; {constants} TYPE label = STRING; END_TYPE; END_SCHEMA;");
        let refusal = check(src.as_bytes()).expect_err(expression);
        assert_eq!(refusal.explain().sentence, sentence, "{expression}");
    }
}

/// A quote that stands for two in a literal is one of the value's bytes.
#[test]
fn pairs_of_quotes_are_one_byte() {
    let values: [(&[u8], &[u8]); 5] =
        [(b"''", b""), (b"'ab'", b"ab"), (b"''''", b"'"), (b"'a''''b'", b"a''b"), (b"'", b"")];
    for (text, value) in values {
        assert_eq!(tokens::string_value(text).collect::<Vec<_>>(), value);
    }
}

/// A token of each sort that can be looked for.
fn samples() -> Vec<&'static str> {
    let symbols = "( ) [ ] { } + - * / \\ = < > . , : ; ? | ** := <* <= <> >= || :=: :<>:".split(' ');
    RESERVED.into_iter().chain(symbols).chain(["name", "1", "1.5", "'text'", "%01"]).collect()
}

fn wanted_sample(wanted: Wanted) -> &'static str {
    match wanted {
        Wanted::Name => "name",
        Wanted::Literal(TokenKind::Integer) => "1",
        Wanted::Literal(TokenKind::Real) => "1.5",
        Wanted::Literal(TokenKind::String) => "'text'",
        Wanted::Literal(TokenKind::Binary) => "%01",
        Wanted::Literal(_) | Wanted::End => "",
        Wanted::Exact(word) | Wanted::Operand(word) | Wanted::Operator(word) | Wanted::SimpleType(word) => word,
    }
}

/// Of a file that is refused by 4: what is said to fit at the place does, and nothing else does, by the proved call.
#[test]
fn what_is_expected_is_what_the_proved_call_goes_on_with() {
    let (samples, mut tried) = (samples(), 0);
    let stuck_files = (0..SEEDS).map(|seed| damaged(seed, 300)).filter_map(|src| match check(&src) {
        Err(refusal) if refusal.reply() == Reply::Unexpected => Some((src.clone(), refusal.beside() as usize)),
        _ => None,
    });
    for (src, place) in stuck_files.take(600) {
        let stuck = reader::read(&src, &tokens::read(&src)).expect_err("refused by 4");
        let wanted: Vec<&str> = stuck.wanted.iter().copied().map(wanted_sample).collect();
        // A line feed, for the file may end in a line remark.
        let before = [&src[..place], b"\n"].concat();
        assert!(!wanted.iter().any(|word| is_unread(word.as_bytes())), "{stuck:?}");
        for sample in &samples {
            let next =
                check(&[&before, sample.as_bytes()].concat()).map_or_else(|r| (r.number(), r.beside()), |_| (0, 0));
            let goes_on = next != (4, place as u32 + 1);
            assert_eq!(goes_on, wanted.contains(sample), "{sample} {stuck:?}\n{}", String::from_utf8_lossy(&before));
            tried += 1;
        }
        let ends = check(&src[..place]).map_or_else(|refusal| refusal.reply() != Reply::Unexpected, |_| true);
        assert_eq!(ends, stuck.wanted.contains(&Wanted::End), "{stuck:?}\n{}", String::from_utf8_lossy(&before));
    }
    assert!(tried > 50_000, "{tried}");
}

/// Replies and places that no check gives of the file: a sentence all the same.
#[test]
fn no_reply_and_no_place_is_a_panic() {
    for seed in 0..3_000 {
        let src = if seed % 2 == 0 { file(seed) } else { damaged(seed, 200) };
        let (tokens, mut rng) = (tokens::read(&src), Rng::new(seed));
        for &reply in &Reply::ALL[1..] {
            let token = tokens.get(rng.below(tokens.len() + 1)).map_or(0, |token| token.start);
            for place in [rng.below(src.len() + 3) as u32, token as u32, u32::MAX] {
                assert!(Refusal::new(&src, reply, place).to_string().ends_with('.'));
            }
        }
        let bytes: Vec<u8> = (0..rng.below(60)).map(|_| rng.below(256) as u8).collect();
        assert!(check(&bytes).map_or_else(|refusal| refusal.to_string(), |_| ".".into()).ends_with('.'));
    }
}

/// What a sentence may take of the processor, in nanoseconds: fifty times what it takes, and a third of what a walk at each use would.
const PATIENCE: f64 = 300e6;

/// A constant of a type that renames another, which renames another, and so on, is used over and over in a constant that does not fit.
fn used_through_renamings() -> Vec<u8> {
    let count = LARGEST / 2 / "TYPE t1234=t1235;END_TYPE;".len();
    let types: String = (0..count).map(|i| format!("TYPE t{i}=t{};END_TYPE;", i + 1)).collect();
    let foot = format!(";END_CONSTANT;{types}TYPE t{count}=INTEGER;END_TYPE;END_SCHEMA;");
    filled(LARGEST, ["SCHEMA s;CONSTANT c:t0:=1;d:LOGICAL:=c", &foot], |_| "+c".into())
}

#[test]
fn no_file_takes_long_to_explain() {
    let renamings = Family { name: "uses through renamings", file: |_| used_through_renamings() };
    let mut refused = 0;
    for Family { name, file } in families().into_iter().chain([renamings]) {
        let src = file(LARGEST);
        let Err(refusal) = check(&src) else { continue };
        let time = processor_time(0.0, || assert_ne!(refusal.explain().sentence, refusal.reply().meaning(), "{name}"));
        assert!(time < PATIENCE, "{name}: {time} nanoseconds");
        refused += 1;
    }
    assert!(refused > 5, "{refused}");
}
