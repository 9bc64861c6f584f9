//! What the names in a case stand for: read where they are defined, in the files that its own file brings them from.

use crate::terms::{tokens, Kind, Operator, Reader, Term, Token};
use std::collections::BTreeMap;
use std::fs;
use std::path::{Path, PathBuf};
use std::rc::Rc;

/// A number, or a list. A text is the list of its characters' numbers.
#[derive(Clone, Debug, PartialEq)]
pub enum Value {
    Number(u128),
    List(Vec<Value>),
}

/// A file: its text, which names it brings from where, and what else a name that it brings under another is called
/// where it comes from.
pub struct Module {
    pub file: String,
    text: String,
    brought: BTreeMap<String, String>,
    renamed: BTreeMap<String, String>,
}

/// A clause of a definition: its patterns, its term, and the line that it begins in.
struct Clause {
    line: usize,
    patterns: Vec<Term>,
    term: Term,
}

/// The files of a repository's crates, each read once.
pub struct Names {
    crates: PathBuf,
    modules: BTreeMap<PathBuf, Rc<Module>>,
    definitions: BTreeMap<(String, String), Rc<Vec<Clause>>>,
}

impl Module {
    fn of(file: String, text: String) -> Module {
        let mut brought = BTreeMap::new();
        let mut renamed = BTreeMap::new();
        for line in text.lines() {
            let Some((from, items)) = line.strip_prefix("use ").and_then(|line| line.strip_suffix('}')?.split_once(".{")) else { continue };
            for item in items.split(", ") {
                match item.split_once(" as ") {
                    Some((name, other)) => renamed.insert(other.trim_matches('◌').to_string(), name.trim_matches('◌').to_string()),
                    None => brought.insert(item.to_string(), from.to_string()),
                };
            }
        }
        Module { file, text, brought, renamed }
    }

    /// The names that have such an end of their signature here, for whoever may open them.
    pub fn declared(&self, end: &str) -> Vec<String> {
        let name = |line: &str| line.strip_prefix("unfoldable pub ")?.strip_suffix(end).map(str::to_string);
        self.text.lines().filter_map(name).collect()
    }

    /// The tokens of each clause `NAME .. = ..`, with those of the lines under it, if the name has a signature here.
    pub fn clauses(&self, name: &str) -> Result<Option<Vec<Vec<Token>>>, String> {
        let is_signature = |line: &str| line.strip_prefix(name).is_some_and(|rest| rest.starts_with(" : "));
        let unmarked = |line: &'_ str| line.rsplit_once("pub ").map_or(line.to_string(), |(_, rest)| rest.to_string());
        let mut lines = self.text.lines().enumerate().map(|(at, line)| (at + 1, line)).skip_while(|(_, line)| !is_signature(&unmarked(line)));
        if lines.next().is_none() {
            return Ok(None);
        }
        let mut clauses: Vec<Vec<(usize, &str)>> = Vec::new();
        for (at, line) in lines {
            match line.starts_with(' ') {
                true => clauses.last_mut().into_iter().for_each(|clause| clause.push((at, line))),
                false if line.strip_prefix(name).is_some_and(|rest| rest.starts_with(' ')) => clauses.push(vec![(at, line)]),
                false if line.starts_with("unfolding ") => {}
                false => break,
            }
        }
        let read = |clause: Vec<(usize, &str)>| tokens(clause.into_iter()).map_err(|how| format!("{}:{how}", self.file));
        let mut read = clauses.into_iter().map(read).collect::<Result<Vec<_>, _>>()?;
        for token in read.iter_mut().flatten() {
            if let Kind::Word(word) = &mut token.kind {
                if let Some(name) = self.renamed.get(word) {
                    word.clone_from(name);
                }
            }
        }
        Ok(Some(read))
    }
}

impl Names {
    /// Of the repository that the folder lies in, as `crates/CRATE/proofs/cases`.
    pub fn around(folder: &str) -> Result<Names, String> {
        let whole = fs::canonicalize(folder).map_err(|e| format!("{folder}: {e}"))?;
        let crates = whole.ancestors().find(|path| path.file_name().is_some_and(|name| name == "crates"));
        let crates = crates.ok_or_else(|| format!("{folder}: not in a folder crates/, where names are defined"))?.to_path_buf();
        Ok(Names { crates, modules: BTreeMap::new(), definitions: BTreeMap::new() })
    }

    pub fn module(&mut self, path: &Path) -> Result<Rc<Module>, String> {
        if let Some(module) = self.modules.get(path) {
            return Ok(module.clone());
        }
        let file = path.display().to_string();
        let text = fs::read_to_string(path).map_err(|e| format!("{file}: {e}"))?;
        let module = Rc::new(Module::of(file, text));
        self.modules.insert(path.to_path_buf(), module.clone());
        Ok(module)
    }

    /// The file of `Rattle.CRATE.PART.NAME`; other modules are the toolchain's, also `Rattle.std`.
    fn path_of(&self, module: &str) -> Option<PathBuf> {
        let (name, path) = module.strip_prefix("Rattle.")?.split_once('.')?;
        let folder = self.crates.join(name);
        folder.is_dir().then(|| path.split('.').fold(folder, |path, part| path.join(part)).with_extension("antt"))
    }

    /// What a name stands for in a file, without arguments.
    pub fn number(&mut self, module: &Rc<Module>, name: &str) -> Result<u64, String> {
        match self.named(module, name, Vec::new())? {
            Value::Number(number) => u64::try_from(number).map_err(|_| format!("{name} is no word")),
            Value::List(_) => Err(format!("{name} is no number")),
        }
    }

    /// A term's value; its names are the file's, but for those of the clause that it stands in.
    pub fn value(&mut self, module: &Rc<Module>, bound: &BTreeMap<String, Value>, term: &Term) -> Result<Value, String> {
        match term {
            Term::Number(number) => Ok(Value::Number(*number)),
            Term::Text(text) => Ok(Value::List(text.chars().map(|c| Value::Number(u128::from(u32::from(c)))).collect())),
            Term::Empty => Ok(Value::List(Vec::new())),
            Term::Named(name, arguments) => match bound.get(name) {
                Some(value) if arguments.is_empty() => Ok(value.clone()),
                _ => {
                    let values = arguments.iter().map(|argument| self.value(module, bound, argument)).collect::<Result<Vec<_>, _>>()?;
                    self.named(module, name, values)
                }
            },
            Term::Joined(operator, left, right) => {
                let (left, right) = (self.value(module, bound, left)?, self.value(module, bound, right)?);
                combined(*operator, left, right).ok_or_else(|| "an operator between what it does not join".to_string())
            }
        }
    }

    fn named(&mut self, module: &Rc<Module>, name: &str, arguments: Vec<Value>) -> Result<Value, String> {
        if let Some(clauses) = self.definition(module, name)? {
            for clause in clauses.iter() {
                let mut bound = BTreeMap::new();
                let fits = clause.patterns.len() == arguments.len();
                if fits && clause.patterns.iter().zip(&arguments).all(|(pattern, value)| matches(pattern, value, &mut bound)) {
                    return self.value(module, &bound, &clause.term).map_err(|how| format!("{name} of {}:{}: {how}", module.file, clause.line));
                }
            }
            return Err(format!("{name} is not defined of that: {arguments:?}"));
        }
        let from = module.brought.get(name).ok_or_else(|| format!("{} neither defines nor brings {name}", module.file))?;
        match self.path_of(from) {
            Some(path) => {
                let from = self.module(&path)?;
                self.named(&from, name, arguments)
            }
            None => given(name, &arguments).ok_or_else(|| format!("{name} of {from} is not known here, or not of that: {arguments:?}")),
        }
    }

    fn definition(&mut self, module: &Rc<Module>, name: &str) -> Result<Option<Rc<Vec<Clause>>>, String> {
        let key = (module.file.clone(), name.to_string());
        if let Some(found) = self.definitions.get(&key) {
            return Ok(Some(found.clone()));
        }
        let Some(clauses) = module.clauses(name)? else { return Ok(None) };
        let read = |tokens: &Vec<Token>| clause(tokens).ok_or_else(|| format!("{}: {name} is defined by more than is read here", module.file));
        let clauses = Rc::new(clauses.iter().map(read).collect::<Result<Vec<_>, _>>()?);
        self.definitions.insert(key, clauses.clone());
        Ok(Some(clauses))
    }
}

/// `NAME PATTERN .. = TERM`, whole.
fn clause(tokens: &[Token]) -> Option<Clause> {
    let mut reader = Reader::new(&tokens[1..]);
    let mut patterns = Vec::new();
    while !reader.takes("=") {
        patterns.push(reader.atom()?);
    }
    let term = reader.term()?;
    reader.line().is_none().then_some(Clause { line: tokens[0].line, patterns, term })
}

/// Whether a value is of a pattern: a name, `[]`, or `(x ∷ xs)`.
fn matches(pattern: &Term, value: &Value, bound: &mut BTreeMap<String, Value>) -> bool {
    match (pattern, value) {
        (Term::Named(name, arguments), _) if arguments.is_empty() => {
            bound.insert(name.clone(), value.clone());
            true
        }
        (Term::Empty, Value::List(values)) => values.is_empty(),
        (Term::Joined(Operator::Before, first, rest), Value::List(values)) => match values.split_first() {
            Some((head, tail)) => matches(first, head, bound) && matches(rest, &Value::List(tail.to_vec()), bound),
            None => false,
        },
        _ => false,
    }
}

fn combined(operator: Operator, left: Value, right: Value) -> Option<Value> {
    use Value::{List, Number};
    match (operator, left, right) {
        (Operator::Before, first, List(rest)) => Some(List([vec![first], rest].concat())),
        (Operator::Append, List(left), List(right)) => Some(List([left, right].concat())),
        (Operator::Plus, Number(left), Number(right)) => left.checked_add(right).map(Number),
        (Operator::Minus, Number(left), Number(right)) => Some(Number(left.saturating_sub(right))),
        (Operator::Times, Number(left), Number(right)) => left.checked_mul(right).map(Number),
        (Operator::Power, Number(base), Number(exponent)) => base.checked_pow(u32::try_from(exponent).ok()?).map(Number),
        _ => None,
    }
}

/// The toolchain's own, as far as they are used.
fn given(name: &str, arguments: &[Value]) -> Option<Value> {
    match (name, arguments) {
        ("length", [Value::List(values)]) => Some(Value::Number(values.len() as u128)),
        ("replicate", [Value::Number(times), value]) => Some(Value::List(vec![value.clone(); usize::try_from(*times).ok()?])),
        // a character is written as a text of one
        ("code", [Value::Number(code)]) => Some(Value::Number(*code)),
        ("code", [Value::List(text)]) if text.len() == 1 => text.first().cloned(),
        _ => None,
    }
}
