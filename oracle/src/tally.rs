//! Counts comparisons and differences, and says the first of each function.
//!
//! A `Check` is one function on many inputs; a `Subject` is the checks of one
//! file of the Rust, or of one function of it. What has no Rust behind it, such
//! as a refusal where the Rust panics, is counted apart and marked `ours`; what
//! is held against the second implementation beside the Rust, as `model`.
//!
//! Assumes nothing.

use std::fmt::Debug;

/// Whose answer the port's is held against.
#[derive(Clone, Copy, PartialEq, Eq)]
enum Expected {
    Rust,
    Ours,
    Model,
}

#[derive(Clone)]
pub struct Check {
    name: &'static str,
    expected: Expected,
    done: u64,
    differences: u64,
    /// The lightest difference so far, for checks that weigh their inputs.
    lightest: Option<(usize, [String; 3])>,
    /// Group, kind, count. The group of a function with one kind of kinds has
    /// no name.
    outcomes: Vec<(&'static str, &'static str, u64)>,
}

impl Check {
    /// A function of the Rust.
    pub fn rust(name: &'static str) -> Check {
        Check::new(name, Expected::Rust)
    }

    /// What we promise and the Rust does not say.
    pub fn ours(name: &'static str) -> Check {
        Check::new(name, Expected::Ours)
    }

    /// What the second implementation says beside the Rust.
    pub fn model(name: &'static str) -> Check {
        Check::new(name, Expected::Model)
    }

    fn new(name: &'static str, expected: Expected) -> Check {
        Check {
            name,
            expected,
            done: 0,
            differences: 0,
            lightest: None,
            outcomes: Vec::new(),
        }
    }

    /// One comparison. `inputs` is asked for its text at the first difference.
    pub fn same<T: PartialEq + Debug>(
        &mut self,
        expected: T,
        port: T,
        inputs: impl FnOnce() -> String,
    ) {
        self.done += 1;
        if expected == port {
            return;
        }
        self.differences += 1;
        if self.differences == 1 {
            self.say(&inputs(), &in_words(&expected), &in_words(&port));
        }
    }

    /// One comparison whose inputs have a weight: of all differences the one
    /// with the lightest inputs is said, at the end.
    pub fn same_by_weight<T: PartialEq + Debug>(
        &mut self,
        expected: &T,
        port: &T,
        weight: impl FnOnce() -> usize,
        inputs: impl FnOnce() -> String,
    ) {
        self.done += 1;
        if expected == port {
            return;
        }
        self.differences += 1;
        let weight = weight();
        if self.lightest.as_ref().is_none_or(|known| weight < known.0) {
            let text = [inputs(), format!("{expected:?}"), format!("{port:?}")];
            self.lightest = Some((weight, text));
        }
    }

    /// Counts one answer of a kind, for functions that have several.
    pub fn outcome(&mut self, kind: &'static str) {
        self.outcome_of("", kind);
    }

    /// The same, where answers are told apart in several ways.
    pub fn outcome_of(&mut self, group: &'static str, kind: &'static str) {
        let known = |of: &&mut (&'static str, &'static str, u64)| of.0 == group && of.1 == kind;
        match self.outcomes.iter_mut().find(known) {
            Some((.., count)) => *count += 1,
            None => self.outcomes.push((group, kind, 1)),
        }
    }

    /// Whether one was counted.
    pub fn met(&self, group: &str, kind: &str) -> bool {
        self.outcomes.iter().any(|of| (of.0, of.1) == (group, kind))
    }

    /// Its name, if something differed.
    pub fn differing(&self) -> Option<&'static str> {
        (self.differences > 0).then_some(self.name)
    }

    fn say(&self, inputs: &str, expected: &str, port: &str) {
        let whose = match self.expected {
            Expected::Rust => "the Rust",
            Expected::Ours => "promised",
            Expected::Model => "document",
        };
        println!("DIFFERENCE in {}", self.name);
        println!("  inputs    {inputs}");
        println!("  {whose}  {expected}");
        println!("  the port  {port}");
    }

    fn print(&self) {
        let mark = match self.expected {
            Expected::Rust => "",
            Expected::Ours => "ours",
            Expected::Model => "model",
        };
        let mut parts = self.kinds_of("");
        if self.differences > 0 {
            parts.insert(0, format!("DIFFERENT {}", grouped(self.differences)));
        }
        let line = format!(
            "  {:<33}{:>5}{:>12}  {}",
            self.name,
            mark,
            grouped(self.done),
            parts.join(", ")
        );
        println!("{}", line.trim_end());
        for group in self.groups() {
            print_group(group, &self.kinds_of(group));
        }
        if let Some((_, [inputs, expected, port])) = &self.lightest {
            self.say(inputs, expected, port);
        }
    }

    /// The groups with a name, in the order in which they were met.
    fn groups(&self) -> Vec<&'static str> {
        let mut groups: Vec<&'static str> = Vec::new();
        for (group, ..) in &self.outcomes {
            if !group.is_empty() && !groups.contains(group) {
                groups.push(group);
            }
        }
        groups
    }

    /// The kinds of one group with their counts, the most frequent one first;
    /// without a name, in the order in which they were met.
    fn kinds_of(&self, group: &str) -> Vec<String> {
        let mut kinds: Vec<_> = self.outcomes.iter().filter(|of| of.0 == group).collect();
        if !group.is_empty() {
            kinds.sort_by_key(|of| std::cmp::Reverse(of.2));
        }
        let text = |of: &&(&str, &str, u64)| format!("{} {}", of.1, grouped(of.2));
        kinds.iter().map(text).collect()
    }
}

/// How wide a line of counts may get before it is broken.
const WIDE: usize = 100;

fn print_group(group: &str, kinds: &[String]) {
    let mut line = format!("      {group}:");
    for (i, kind) in kinds.iter().enumerate() {
        if line.len() + kind.len() > WIDE {
            println!("{line}");
            line = String::from("       ");
        }
        let comma = if i + 1 < kinds.len() { "," } else { "" };
        line.push_str(&format!(" {kind}{comma}"));
    }
    println!("{line}");
}

/// A number, struct or list in decimal and in hexadecimal: some are read as
/// counts, some as bits.
fn in_words<T: Debug>(value: &T) -> String {
    format!("{value:?}, hex {value:x?}")
}

/// The checks of one file of the Rust, or of one function.
pub struct Subject {
    name: &'static str,
    checks: Vec<Check>,
}

impl Subject {
    pub fn new(name: &'static str) -> Subject {
        Subject {
            name,
            checks: Vec::new(),
        }
    }

    pub fn add(&mut self, check: Check) {
        self.checks.push(check);
    }

    pub fn totals(&self) -> Totals {
        let mut totals = Totals::default();
        for check in &self.checks {
            totals.differences += check.differences;
            totals.differing += u64::from(check.differences > 0);
            match check.expected {
                Expected::Rust => totals.comparisons += check.done,
                Expected::Ours => totals.ours += check.done,
                Expected::Model => totals.model += check.done,
            }
        }
        totals
    }

    pub fn print(&self) {
        let totals = self.totals();
        let ours = match totals.ours {
            0 => String::new(),
            count => format!(", and {} checks of ours", grouped(count)),
        };
        println!(
            "{}: {} comparisons{ours}",
            self.name,
            grouped(totals.comparisons)
        );
        for check in &self.checks {
            check.print();
        }
    }
}

/// Comparisons with the Rust, checks of ours, checks by the second
/// implementation beside the Rust, and what differed in any.
#[derive(Clone, Copy, Default)]
pub struct Totals {
    pub comparisons: u64,
    pub ours: u64,
    pub model: u64,
    pub differences: u64,
    /// The checks with a difference.
    pub differing: u64,
}

impl Totals {
    pub fn add(&mut self, other: Totals) {
        self.comparisons += other.comparisons;
        self.ours += other.ours;
        self.model += other.model;
        self.differences += other.differences;
        self.differing += other.differing;
    }
}

/// 1234567 as 1,234,567.
pub fn grouped(number: u64) -> String {
    let digits = number.to_string();
    let mut text = String::new();
    for (i, digit) in digits.chars().enumerate() {
        if i > 0 && (digits.len() - i).is_multiple_of(3) {
            text.push(',');
        }
        text.push(digit);
    }
    text
}
