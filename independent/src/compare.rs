//! Asks the two programs, compares every answer, shows differences and counts.

use std::collections::{BTreeMap, VecDeque};
use std::io::{self, Read, Write};
use std::process::{Child, Command, Stdio};
use std::thread::{self, JoinHandle};

use crate::answers;
use crate::listing;

/// How many differences are shown, and how many broken claims of a kind; all are counted.
const SHOWN: usize = 20;
const CLAIMS_SHOWN: usize = 5;
/// A process of `ask` gets at most so many questions, and about so many bytes of them: few, so that
/// those behind it need not wait long to be settled.
const QUESTIONS: usize = 2_000;
const BYTES: usize = 2_000_000;
/// At most so many processes are under way, however many processors there are.
const PROCESSES: usize = 4;

/// The two programs, and words to put before them (an emulator's).
pub struct Programs {
    pub list: String,
    pub ask: String,
    pub wrapper: Vec<String>,
}

/// A question, a file or a whole input, with the answer that should come.
struct Asked {
    kind: &'static str,
    question: Vec<u8>,
    answer: String,
}

/// A question with what the program answered, if it did.
pub struct Answered {
    pub question: Vec<u8>,
    pub theirs: Option<Vec<u8>>,
}

impl Answered {
    /// The answer as a text, if it is one.
    pub fn text(&self) -> Option<&str> {
        std::str::from_utf8(self.theirs.as_deref()?).ok()
    }
}

/// The kind that a claim is counted as, and what it says.
pub type Claim = (&'static str, &'static str);

/// What is wanted of a process, which says how its output is settled.
enum Wanted {
    /// Of `list`: its whole output is one answer.
    Listing,
    /// Of `ask`: a line of its output is an answer.
    Answers,
    /// Of `ask` too, and its answers are kept, so that claims can be judged on them.
    KeptAnswers,
}

/// A process that was started and isn't settled yet, with what it was asked. The thread gives
/// its output, and whether it ended well.
struct UnderWay {
    wanted: Wanted,
    asked: Vec<Asked>,
    process: JoinHandle<(Vec<u8>, bool)>,
}

/// How many comparisons of a kind were made, and how many of them failed.
struct Kind {
    name: &'static str,
    made: usize,
    failed: usize,
}

pub struct Comparison {
    /// None while the program only checks itself.
    programs: Option<Programs>,
    cases: usize,
    waiting: Vec<Asked>,
    waiting_bytes: usize,
    /// In the order in which they were started, and how many there may be.
    under_way: VecDeque<UnderWay>,
    most_under_way: usize,
    /// What settled processes answered, where claims are to be judged on it.
    kept: Vec<Answered>,
    kinds: Vec<Kind>,
    /// How often each answer was expected, by its first words.
    expected: BTreeMap<String, usize>,
    passed: usize,
    failed: usize,
}

impl Comparison {
    pub fn new(programs: Option<Programs>, cases: usize) -> Comparison {
        let processors = thread::available_parallelism().map_or(1, usize::from);
        Comparison {
            programs,
            cases,
            waiting: Vec::new(),
            waiting_bytes: 0,
            under_way: VecDeque::new(),
            most_under_way: processors.min(PROCESSES),
            kept: Vec::new(),
            kinds: Vec::new(),
            expected: BTreeMap::new(),
            passed: 0,
            failed: 0,
        }
    }

    /// How many cases a random part makes where it makes `amount` by default.
    pub fn amount(&self, amount: usize) -> usize {
        (amount * self.cases).div_ceil(100)
    }

    /// A question whose answer is worked out here.
    pub fn ask(&mut self, kind: &'static str, line: impl Into<Vec<u8>>) {
        let asked = self.work_out(kind, line.into());
        if self.programs.is_some() {
            self.wait(asked);
        }
    }

    fn work_out(&mut self, kind: &'static str, question: Vec<u8>) -> Asked {
        let answer = answers::answer(&question);
        self.expect(&answer);
        Asked {
            kind,
            question,
            answer,
        }
    }

    /// Questions that are asked and compared as the others are, but at once. The program's
    /// own answers come back in the order asked, so that claims can be judged on them.
    pub fn answers_to(&mut self, kind: &'static str, lines: &[String]) -> Vec<Answered> {
        // What waits was asked before them.
        self.flush();
        for lines in lines.chunks(QUESTIONS) {
            let questions = lines.iter().map(|line| line.as_bytes().to_vec());
            let asked: Vec<Asked> = questions.map(|line| self.work_out(kind, line)).collect();
            if self.programs.is_some() {
                let input = lines_of(&asked);
                self.start(Wanted::KeptAnswers, asked, input);
            } else {
                // This program's own answers while it only checks itself.
                self.kept.extend(asked.into_iter().map(|each| Answered {
                    question: each.question,
                    theirs: Some(each.answer.into_bytes()),
                }));
            }
        }
        self.settle_all();
        std::mem::take(&mut self.kept)
    }

    /// Counts one claim on answers of the program, and shows it where it does not hold.
    pub fn claim(&mut self, (kind, says): Claim, answered: &[&Answered], holds: bool) {
        // What was started before is shown before.
        self.settle_all();
        let counted = self.kind(kind);
        counted.made += 1;
        if holds {
            self.passed += 1;
            return;
        }
        counted.failed += 1;
        if counted.failed <= CLAIMS_SHOWN {
            println!("{}", broken(kind, says, answered));
        }
        self.failed += 1;
    }

    /// A question whose answer was typed from a paper.
    pub fn ask_typed(&mut self, kind: &'static str, line: &str, answer: &str) {
        let asked = Asked {
            kind,
            question: line.into(),
            answer: answer.into(),
        };
        if self.programs.is_some() {
            self.wait(asked);
        } else {
            let own = answers::answer(line.as_bytes());
            self.settle(&asked, Some(own.as_bytes()));
        }
    }

    /// A whole input for one process of `ask`: for lines without a line feed and the like.
    pub fn ask_input(&mut self, kind: &'static str, input: Vec<u8>) {
        let lines = input.split(|byte| *byte == b'\n').map(<[u8]>::to_vec);
        let of = |(question, answer)| Asked {
            kind,
            question,
            answer,
        };
        let asked: Vec<Asked> = lines.zip(answers::all(&input)).map(of).collect();
        self.start(Wanted::Answers, asked, input);
    }

    fn wait(&mut self, asked: Asked) {
        // Kinds are shown in the order in which they were first asked.
        self.kind(asked.kind);
        self.waiting_bytes += asked.question.len() + asked.answer.len();
        self.waiting.push(asked);
        if self.waiting.len() >= QUESTIONS || self.waiting_bytes >= BYTES {
            self.flush();
        }
    }

    /// Starts a process for the questions that wait.
    pub fn flush(&mut self) {
        let asked = std::mem::take(&mut self.waiting);
        self.waiting_bytes = 0;
        if asked.is_empty() {
            return;
        }
        let input = lines_of(&asked);
        self.start(Wanted::Answers, asked, input);
    }

    /// Starts a process and leaves it under way. If there are as many as there may be, the oldest
    /// is settled first.
    fn start(&mut self, wanted: Wanted, asked: Vec<Asked>, input: Vec<u8>) {
        while self.under_way.len() >= self.most_under_way {
            self.settle_oldest();
        }
        let Some(programs) = &self.programs else {
            return;
        };
        let program = match wanted {
            Wanted::Listing => &programs.list,
            Wanted::Answers | Wanted::KeptAnswers => &programs.ask,
        };
        let child = match spawn(&programs.wrapper, program) {
            Ok(child) => child,
            Err(error) => {
                let text = format!("cannot run {program}: {error}");
                // What was started before is shown before.
                self.settle_all();
                eprintln!("{text}");
                std::process::exit(2);
            }
        };
        // Kinds are shown in the order in which they were first asked, not settled.
        for each in &asked {
            self.kind(each.kind);
        }
        let process = thread::spawn(move || output_of(child, input));
        self.under_way.push_back(UnderWay {
            wanted,
            asked,
            process,
        });
    }

    fn settle_all(&mut self) {
        while !self.under_way.is_empty() {
            self.settle_oldest();
        }
    }

    /// Waits for the process that was started first, and compares its answers. Only here are
    /// processes settled, so what is shown doesn't depend on which of them ends first.
    fn settle_oldest(&mut self) {
        let Some(oldest) = self.under_way.pop_front() else {
            return;
        };
        // If the thread itself broke off, there is no output and the process did not end well.
        let (output, ended_well) = oldest.process.join().unwrap_or_default();
        let asked = oldest.asked;
        let program = match oldest.wanted {
            Wanted::Listing => {
                for each in &asked {
                    self.settle(each, Some(&output));
                }
                "list"
            }
            Wanted::Answers | Wanted::KeptAnswers => {
                self.settle_lines(&asked, &output);
                "ask"
            }
        };
        if !ended_well {
            self.fail(&format!("{program}: the process did not end well"));
        }
        if matches!(oldest.wanted, Wanted::KeptAnswers) {
            let mut lines = output.split(|byte| *byte == b'\n');
            self.kept.extend(asked.into_iter().map(|each| Answered {
                question: each.question,
                theirs: lines.next().map(<[u8]>::to_vec),
            }));
        }
    }

    /// Compares the answers of one process of `ask`.
    fn settle_lines(&mut self, asked: &[Asked], output: &[u8]) {
        let mut lines = output.split(|byte| *byte == b'\n');
        for each in asked {
            self.settle(each, lines.next());
        }
        // Behind the last answer's line feed there is nothing.
        let behind: Vec<&[u8]> = lines.collect();
        if behind != [b"".as_slice()] {
            self.fail("ask: answers that no question asked for, or no line feed at the end");
        }
    }

    /// A file whose listing is worked out here.
    pub fn list(&mut self, kind: &'static str, file: &[u8]) {
        let listing = listing::list(file);
        self.list_expecting(kind, file, listing);
    }

    /// A file whose listing was typed from a paper.
    pub fn list_typed(&mut self, kind: &'static str, file: &[u8], listing: &str) {
        if self.programs.is_none() {
            let asked = Asked {
                kind,
                question: file.into(),
                answer: listing.into(),
            };
            self.settle(&asked, Some(listing::list(file).as_bytes()));
        }
        self.list_expecting(kind, file, listing.into());
    }

    fn list_expecting(&mut self, kind: &'static str, file: &[u8], listing: String) {
        if self.programs.is_none() {
            return;
        }
        let asked = Asked {
            kind,
            question: format!("list {}", answers::digits(file)).into_bytes(),
            answer: listing,
        };
        self.start(Wanted::Listing, vec![asked], file.to_vec());
    }

    fn expect(&mut self, answer: &str) {
        // The first word, and a refusal's number or the reason of an unreadable line.
        let known = [("refused ", 2), ("template refused ", 3), ("cannot ", 9)];
        let is_it = |(begin, _): &&(&str, usize)| answer.starts_with(begin);
        let taken = known.iter().find(is_it).map_or(1, |(_, words)| *words);
        let key: Vec<&str> = answer.split(' ').take(taken).collect();
        *self.expected.entry(key.join(" ")).or_default() += 1;
    }

    /// Counts one comparison and shows a difference.
    fn settle(&mut self, asked: &Asked, theirs: Option<&[u8]>) {
        let kind = self.kind(asked.kind);
        kind.made += 1;
        if theirs == Some(asked.answer.as_bytes()) {
            self.passed += 1;
        } else {
            kind.failed += 1;
            let text = difference(asked, theirs);
            self.fail(&text);
        }
    }

    /// Kinds are kept in the order in which they first came up.
    fn kind(&mut self, name: &'static str) -> &mut Kind {
        let known = self.kinds.iter().position(|kind| kind.name == name);
        let index = known.unwrap_or(self.kinds.len());
        if known.is_none() {
            let (made, failed) = (0, 0);
            self.kinds.push(Kind { name, made, failed });
        }
        &mut self.kinds[index]
    }

    fn fail(&mut self, text: &str) {
        self.failed += 1;
        if self.failed <= SHOWN {
            println!("{text}");
        }
    }

    /// How many answers of each sort were expected; for the check of itself.
    pub fn show_expected(&self) {
        for (answer, amount) in &self.expected {
            println!("expected {answer}: {amount}");
        }
    }

    /// The counts; the last line says how many passed and failed.
    pub fn finish(mut self) -> bool {
        self.flush();
        self.settle_all();
        for Kind { name, made, failed } in &self.kinds {
            match failed {
                0 => println!("{name}: {made}"),
                _ => println!("{name}: {made}, {failed} failed"),
            }
        }
        println!("{} passed, {} failed", self.passed, self.failed);
        self.failed == 0
    }
}

/// The questions as one input, a line feed behind each.
fn lines_of(asked: &[Asked]) -> Vec<u8> {
    let mut input = Vec::new();
    for each in asked {
        input.extend(&each.question);
        input.push(b'\n');
    }
    input
}

fn spawn(wrapper: &[String], program: &str) -> io::Result<Child> {
    let mut words = wrapper.iter().map(String::as_str).chain([program]);
    Command::new(words.next().unwrap_or(program))
        .args(words)
        .stdin(Stdio::piped())
        .stdout(Stdio::piped())
        .spawn()
}

/// The program's output, and whether it ended well. Input is written from a thread, so that
/// a full pipe cannot stop both sides.
fn output_of(mut child: Child, input: Vec<u8>) -> (Vec<u8>, bool) {
    let pipe = child.stdin.take();
    let writer = thread::spawn(move || {
        // The program may stop reading early: `list` does once a file is too large.
        pipe.map(|mut pipe| pipe.write_all(&input))
    });
    let mut output = Vec::new();
    let read = child
        .stdout
        .take()
        .map(|mut pipe| pipe.read_to_end(&mut output));
    let _ = writer.join();
    let ended = child.wait().is_ok_and(|status| status.success());
    (output, ended && matches!(read, Some(Ok(_))))
}

fn difference(asked: &Asked, theirs: Option<&[u8]>) -> String {
    let ours = asked.answer.as_bytes();
    let head = format!(
        "difference in {}\n  asked:  {}",
        asked.kind,
        cut(&asked.question, 0, 2000)
    );
    let Some(theirs) = theirs else {
        return format!(
            "{head}\n  ours:   {}\n  theirs: no answer",
            cut(ours, 0, 400)
        );
    };
    let same = ours
        .iter()
        .zip(theirs)
        .take_while(|(ours, theirs)| ours == theirs)
        .count();
    let (ours, theirs) = (cut(ours, same, 400), cut(theirs, same, 400));
    format!("{head}\n  ours:   {ours}\n  theirs: {theirs}\n  first difference at byte {same}")
}

/// A claim that does not hold, with its questions and what the program answered.
fn broken(kind: &str, claim: &str, answered: &[&Answered]) -> String {
    let show = |Answered { question, theirs }: &Answered| {
        let theirs = match theirs {
            Some(theirs) => cut(theirs, 0, 400),
            None => "no answer".to_string(),
        };
        format!("\n  asked:  {}\n  theirs: {theirs}", cut(question, 0, 2000))
    };
    let shown: String = answered.iter().map(|each| show(each)).collect();
    format!("broken claim in {kind}{shown}\n  claim:  {claim}")
}

/// A long text is cut to its beginning and the part around `middle`.
fn cut(text: &[u8], middle: usize, most: usize) -> String {
    if text.len() <= most {
        return text.escape_ascii().to_string();
    }
    let beginning = text[..most].escape_ascii();
    let all = text.len();
    if middle + 40 < most {
        return format!("{beginning}.. ({all} bytes)");
    }
    let from = middle.saturating_sub(40).min(all);
    let around = text[from..(middle + 80).min(all)].escape_ascii();
    format!("{beginning}.. ({all} bytes; from {from}: {around})")
}
