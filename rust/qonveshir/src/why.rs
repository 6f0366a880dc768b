//! `why`.

use crate::command::{wrong_call, Command};
use crate::marks::{marked, Mark};
use crate::matching::{next_answer, none, read_allowance, Asked, ALLOWANCE};
use crate::progress::Progress;
use crate::trace::{Assigned, Failure, Spent, Trace, Tree, Why, NOTHING};
use crate::{editions, trouble, Console, Look, Reply, Stop};
use interface::{Edition, Word, COMPLEMENT, NAMES};
use notation::Error;
use std::ops::Range;

pub const WHY: Command = Command {
    name: "why",
    usage: &[(
        "why [--marks] [--allowance N] [--edition E] SYMBOLS RULE STATE",
        "say why a rule finds nothing on a state: where the search came furthest, and what failed \
         there",
    )],
    help: "\
The first line has the word and the count, as `qonveshir match` has them. If it
is none, what follows is the node of the rule and the node of the state at which
the search failed last of all: a complement fails after every pair of its level,
a later complement after an earlier one, and otherwise the node further right is
further. Then comes what failed (of a complement, with which names its inside
holds) and what the names stood for so far. On a terminal, and with --marks,
both nodes are marked.
",
    run: explained,
};

/// Runs `why` by its arguments: options, then symbols, rule and state.
fn explained(arguments: &[&str], console: &mut Console) -> Reply {
    let (edition, arguments) = editions::taken(arguments)?;
    let (mut arguments, mut allowance) = (&arguments[..], ALLOWANCE);
    loop {
        match arguments {
            ["--marks", rest @ ..] => (console.look.marks, arguments) = (true, rest),
            ["--allowance", number, rest @ ..] => {
                (allowance, arguments) = (read_allowance(number)?, rest)
            }
            [symbols, rule, state] => {
                let edition = edition.unwrap_or(Edition::ONE);
                let asked = Asked::read(edition, symbols, rule, state)?;
                return why(&asked, allowance, console.look);
            }
            _ => return wrong_call("why"),
        }
    }
}

/// The word and the count by the library, and the place by a search of its own.
fn why(asked: &Asked, allowance: u32, look: Look) -> Reply {
    let mut answers = asked.answers(allowance);
    match next_answer(&mut answers, allowance) {
        Some(Ok((_, count))) => Ok(format!("bound {count}: nothing fails; see qonveshir match\n")),
        Some(Err(outcome)) => {
            let spent = outcome.word() == Some(Word::Spent);
            let ends = if spent { ": the allowance ends the search; see --allowance" } else { "" };
            Err(Stop::No(asked.stopped(outcome, look) + ends))
        }
        None => {
            let (count, _progress) = (answers.counted(), Progress::of_match(allowance));
            let place = Explainer::new(asked, allowance, look).explain(count).or_else(trouble)?;
            Err(Stop::No(format!("{}\n{place}", none(count, look)).trim_end().into()))
        }
    }
}

struct Explainer<'a> {
    asked: &'a Asked<'a>,
    pattern: Tree<'a>,
    record: Tree<'a>,
    allowance: u32,
    look: Look,
}

impl<'a> Explainer<'a> {
    fn new(asked: &'a Asked, allowance: u32, look: Look) -> Self {
        let tree = |bytes| Tree::new(asked.symbols.table(), bytes);
        let (pattern, record) = (tree(&asked.pattern), tree(&asked.record));
        Explainer { asked, pattern, record, allowance, look }
    }

    fn trace(&self) -> Trace<'_> {
        let symbols = &self.asked.symbols;
        let known = (symbols.table(), symbols.classes());
        Trace::new(known, &self.pattern, &self.record, self.allowance)
    }

    /// Where a search that comes to none after so many steps came furthest.
    fn explain(&self, count: u64) -> Result<String, Error> {
        let mut trace = self.trace();
        match trace.level(0, 0, NOTHING) {
            Ok(Err(failure)) if trace.counted(self.allowance) == count => self.failure(failure),
            // The library decides; a trace that comes to something else explains nothing.
            _ => Ok("the trace of the search differs from the library's answer".into()),
        }
    }

    /// The two nodes of a failure and what failed; of a complement of a complement, the failure of
    /// the inside too.
    fn failure(&self, mut failure: Failure) -> Result<String, Error> {
        let mut text = String::new();
        loop {
            text += &(self.nodes(&failure)? + "because " + &self.reason(&failure)? + "\n");
            let whole = 0..self.asked.pattern.len();
            let used = self.used(whole, &failure.assigned)?;
            text += &if used.is_empty() { used } else { format!("so far {used}\n") };
            let inside = failure.pattern + 1;
            let double = self.asked.pattern.get(inside) == Some(&COMPLEMENT);
            if failure.why != Why::Complement || !double {
                return Ok(text);
            }
            match self.trace().level(inside + 1, failure.record, failure.assigned) {
                Ok(Err(inner)) => failure = inner,
                _ => return Ok(text),
            }
            let text_of = |at| self.asked.symbols.show_pattern(&self.asked.pattern[at]);
            let inner = text_of(self.pattern.node(inside + 1))?;
            text += &format!("since {inner} does not; its search came furthest here:\n");
        }
    }

    /// The two nodes, with marks if the look has them.
    fn nodes(&self, failure: &Failure) -> Result<String, Error> {
        let rule = self.pattern.node(failure.pattern);
        let state = self.record.node(failure.record);
        let symbols = &self.asked.symbols;
        let pattern = symbols.shown_pattern(&self.asked.pattern)?;
        let record = symbols.shown_term(&self.asked.record)?;
        let (rule_text, mut state_text) = (pattern.part(rule.clone()), record.part(state.clone()));
        if self.look.marks && failure.why == Why::Missing {
            state_text.start = state_text.end.saturating_sub(1); // where the list ends
        }
        if !self.look.marks {
            return Ok(format!(
                "rule: {}  (byte {})\nstate: {}  (byte {})\n",
                &pattern.text[rule_text], rule.start, &record.text[state_text], state.start
            ));
        }
        let mark = |part| [Mark { label: String::new(), part }];
        Ok(marked("rule ", &pattern.text, &mark(rule_text), self.look)
            + &marked("state", &record.text, &mark(state_text), self.look))
    }

    /// What failed, in words.
    fn reason(&self, failure: &Failure) -> Result<String, Error> {
        let symbols = &self.asked.symbols;
        let name = |bytes: &[u8], at: usize| symbols.name(bytes[at]).unwrap_or("?").to_string();
        let already = |place: usize| match failure.assigned[place] {
            Some(part) => Ok(format!("{} = {}", called(place), self.asked.part(part.bytes())?)),
            None => Ok(called(place)),
        };
        Ok(match failure.why {
            Why::Symbol => format!(
                "the rule asks for {}, and the state has {}",
                name(&self.asked.pattern, failure.pattern),
                name(&self.asked.record, failure.record)
            ),
            Why::Name(place) => format!("{} already, which is another term", already(place)?),
            Why::Run(place) => format!("{} already, which does not stand here", already(place)?),
            Why::Missing => "the list has no element left for it".into(),
            Why::LeftOver => "the list has elements left, from this one on".into(),
            Why::Complement => self.complement(failure)?,
        })
    }

    /// How the inside of a complement holds: with which names of its own, and of those outside.
    fn complement(&self, failure: &Failure) -> Result<String, Error> {
        let inside = self.pattern.node(failure.pattern + 1);
        let text = self.asked.symbols.show_pattern(&self.asked.pattern[inside.clone()])?;
        let found = match self.trace().level(inside.start, failure.record, failure.assigned) {
            Ok(Ok(found)) => found,
            Ok(Err(_)) | Err(Spent) => failure.assigned,
        };
        let used = self.used(inside, &found)?;
        let with = if used.is_empty() { String::new() } else { format!(", with {used}") };
        Ok(format!("the complement fails: {text} holds there{with}"))
    }

    /// What the names within a part of the rule stand for.
    fn used(&self, part: Range<usize>, found: &Assigned) -> Result<String, Error> {
        let mut shown = Vec::new();
        for place in self.pattern.variables(part) {
            if let Some(part) = found[place] {
                shown.push(format!("{} = {}", called(place), self.asked.part(part.bytes())?));
            }
        }
        Ok(shown.join("; "))
    }
}

/// The name or run name of a place.
fn called(place: usize) -> String {
    match place.checked_sub(NAMES) {
        None => format!("?{place}"),
        Some(run) => format!("@{run}"),
    }
}
