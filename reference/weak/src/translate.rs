//! Rattle's text as Rust: `ghost use` lines, the clauses of contracts and the attributes that speak
//! to the prover go, `crate` and `std::num` get their new paths; every other byte of code stays. What
//! is not known here is an error, so that nothing is dropped by accident.

use std::path::Path;

/// A function that any crate may call.
pub struct Public {
    pub name: String,
    /// It takes nothing and answers nothing: it carries theorems only.
    pub is_empty: bool,
}

#[derive(Default)]
pub struct Done {
    pub files: usize,
    pub functions: usize,
    pub clauses: usize,
    pub ghost_lines: usize,
    pub attributes: usize,
    pub public: Vec<Public>,
    /// Public functions of modules that callers do not see.
    hidden: Vec<Public>,
    /// `pub use` lines of modules that callers see: the module and the path.
    passed_on: Vec<(String, String)>,
}

impl Done {
    /// A hidden function that a `pub use` passes on is public by the name that this gives it.
    pub fn pass_on(&mut self) {
        for (module, path) in std::mem::take(&mut self.passed_on) {
            let (before, names) = path.trim_end_matches('}').split_once('{').unwrap_or(("", &path));
            for name in names.split(',').map(str::trim).filter(|name| !name.is_empty()) {
                let whole = format!("{module}::{before}{name}");
                if let Some(at) = self.hidden.iter().position(|one| one.name == whole) {
                    let name = format!("{module}::{}", name.rsplit("::").next().unwrap());
                    self.public.push(Public { name, is_empty: self.hidden[at].is_empty });
                }
            }
        }
    }
}

/// Where the text of a file comes from, changed or not.
pub type Source<'a> = &'a dyn Fn(&Path) -> Result<String, String>;

pub struct Crate<'a> {
    pub source: Source<'a>,
    /// The path that `crate` stands for.
    pub root: String,
    /// Put at the start of each module.
    pub prelude: String,
}

/// Words that Rattle has and code does not, or that the rest of this file does not know but at the start of an item.
const NOT_IN_CODE: [&str; 16] = [
    "#",
    "ghost",
    "requires",
    "ensures",
    "extern",
    "unsafe",
    "static",
    "trait",
    "dyn",
    "async",
    "await",
    "union",
    "macro_rules",
    "where",
    "move",
    "yield",
];

/// How the attributes begin that speak to the prover alone.
const TO_THE_PROVER: [&str; 3] = ["#![tactic(", "#[tactic(", "#[cycle("];

/// What an attribute that is code derives: nothing else.
const DERIVED: [&str; 4] = ["Clone", "Copy", "PartialEq", "Eq"];

impl Crate<'_> {
    /// A module's file and those that its `mod` items name, which lie in `folder`. `name` is the
    /// module's, as callers write it; `is_open`: callers see it.
    pub fn module(&self, file: &Path, folder: &Path, name: &str, is_open: bool, done: &mut Done) -> Result<String, String> {
        let text = (self.source)(file)?;
        let mut reader = Reader { text: &text, at: 0, out: self.prelude.clone(), done, krate: self, folder, name, is_open };
        reader.items().map_err(|what| reader.place(file, what))?;
        let out = reader.out;
        done.files += 1;
        match self.lost(&text, &out) {
            Some(line) => Err(format!("{}: this line was lost: {line}", file.display())),
            None => Ok(out),
        }
    }

    /// A line of code that does not come out, in the order of the lines: found by the lines alone.
    fn lost<'a>(&self, text: &'a str, out: &str) -> Option<&'a str> {
        let mut at = 0;
        // Open braces of a clause, or of a `ghost use`; open brackets of an attribute.
        let (mut depth, mut brackets) = (0, 0);
        text.lines().find(|line| {
            let code = line.split("//").next().unwrap().trim();
            if brackets > 0 || TO_THE_PROVER.iter().any(|start| code.starts_with(start)) {
                brackets = (brackets + line.matches('[').count()).saturating_sub(line.matches(']').count());
                return false;
            }
            if depth > 0 || ["ghost ", "pub ghost ", "requires ", "ensures "].iter().any(|word| code.starts_with(word)) {
                depth = (depth + line.matches('{').count()).saturating_sub(line.matches('}').count());
                return false;
            }
            let is_module = ["mod ", "pub mod "].iter().any(|word| code.starts_with(word));
            let code = if is_module { code.trim_end_matches(';') } else { code };
            let code = code.replace("crate::", &format!("{}::", self.root)).replace("std::num::", "crate::given::num::");
            let found = out[at..].find(&code);
            at += found.map_or(0, |from| from + code.len());
            found.is_none()
        })
    }
}

struct Reader<'a> {
    text: &'a str,
    at: usize,
    out: String,
    done: &'a mut Done,
    krate: &'a Crate<'a>,
    folder: &'a Path,
    name: &'a str,
    is_open: bool,
}

impl<'a> Reader<'a> {
    fn place(&self, file: &Path, what: String) -> String {
        if what.contains(".rt:") {
            // An inner module's, with its own place.
            return what;
        }
        format!("{}:{}: {what}", file.display(), 1 + self.text[..self.at].matches('\n').count())
    }

    fn items(&mut self) -> Result<(), String> {
        while self.peek()?.is_some() {
            self.item()?;
        }
        Ok(())
    }

    /// Past spaces and comments, of which the line feeds stay.
    fn skip(&mut self) {
        loop {
            let rest = &self.text[self.at..];
            if let Some(space) = rest.chars().next().filter(char::is_ascii_whitespace) {
                self.out.push(space);
                self.at += 1;
            } else if rest.starts_with("//") {
                self.at += rest.find('\n').unwrap_or(rest.len());
            } else {
                return;
            }
        }
    }

    /// The next token; `None` at the end of the file.
    fn peek(&mut self) -> Result<Option<&'a str>, String> {
        self.skip();
        let rest = &self.text[self.at..];
        let Some(first) = rest.chars().next() else { return Ok(None) };
        let word = |from: usize| from + rest[from..].find(|c: char| !c.is_ascii_alphanumeric() && c != '_').unwrap_or(rest.len() - from);
        let length = if rest.starts_with("b\"") || rest.starts_with("b'") {
            let quote = rest.as_bytes()[1];
            let mut end = 2;
            while *rest.as_bytes().get(end).ok_or("a literal without an end")? != quote {
                end += if rest.as_bytes()[end] == b'\\' { 2 } else { 1 };
            }
            end + 1
        } else if first.is_ascii_alphanumeric() || first == '_' {
            word(0)
        } else if first == '\''
            && rest[1..].starts_with(|c: char| c.is_ascii_alphabetic() || c == '_')
            && !rest[word(1)..].starts_with('\'')
        {
            word(1)
        } else if rest.starts_with("::") {
            2
        } else if "{}()[]<>,;:.=+-*/%&|^!#?".contains(first) && !rest.starts_with("/*") {
            1
        } else {
            return Err(format!("unknown text: {}", rest.lines().next().unwrap()));
        };
        Ok(Some(&rest[..length]))
    }

    fn is_next(&mut self, token: &str) -> Result<bool, String> {
        Ok(self.peek()? == Some(token))
    }

    /// Copies the next token and tells it.
    fn copy(&mut self) -> Result<&'a str, String> {
        let token = self.peek()?.ok_or("the file ends here")?;
        if NOT_IN_CODE.contains(&token) {
            return Err(format!("`{token}` in code"));
        }
        self.at += token.len();
        let follows = self.text[self.at..].starts_with("::");
        match token {
            "crate" if follows => self.out.push_str(&self.krate.root),
            "std" if self.text[self.at..].starts_with("::num::wrapping_") => self.out.push_str("crate::given"),
            "std" => return Err("another part of std".to_string()),
            _ => self.out.push_str(token),
        }
        Ok(token)
    }

    fn expect(&mut self, token: &str) -> Result<(), String> {
        match self.copy()? {
            found if found == token => Ok(()),
            found => Err(format!("`{found}` where `{token}` was expected")),
        }
    }

    fn name(&mut self) -> Result<&'a str, String> {
        let token = self.copy()?;
        if token.starts_with(|c: char| c.is_ascii_alphabetic() || c == '_') {
            return Ok(token);
        }
        Err(format!("`{token}` where a name was expected"))
    }

    /// Copies up to and with a token that stands in no bracket.
    fn through(&mut self, last: &str) -> Result<(), String> {
        let mut depth = 0;
        loop {
            match self.copy()? {
                token if token == last && depth == 0 => return Ok(()),
                "(" | "[" | "{" => depth += 1,
                ")" | "]" | "}" if depth == 0 => return Err(format!("no `{last}` before a bracket's end")),
                ")" | "]" | "}" => depth -= 1,
                _ => (),
            }
        }
    }

    /// A block from its brace on.
    fn block(&mut self) -> Result<(), String> {
        self.expect("{")?;
        self.through("}")
    }

    fn item(&mut self) -> Result<(), String> {
        if self.is_next("ghost")? {
            return self.ghost_line();
        }
        if self.is_next("#")? {
            return self.attribute();
        }
        let mut is_open = false;
        if self.is_next("pub")? {
            self.copy()?;
            is_open = !self.is_next("(")?;
            if !is_open {
                self.copy()?;
                self.through(")")?;
            }
        }
        if self.is_next("static")? {
            self.start("static");
            return self.through(";");
        }
        if self.is_next("trait")? {
            return self.interface();
        }
        match self.copy()? {
            "use" => {
                let from = self.out.len();
                self.through(";")?;
                if is_open && self.is_open {
                    let path = self.out[from..].trim_end_matches(';').trim().to_string();
                    self.done.passed_on.push((self.name.to_string(), path));
                }
                Ok(())
            }
            "const" | "type" => self.through(";"),
            "mod" => self.inner_module(is_open),
            "struct" => {
                self.name()?;
                if self.is_next("(")? || self.is_next(";")? {
                    return self.through(";");
                }
                self.generics()?;
                self.fields()
            }
            "enum" => {
                self.name()?;
                self.block()
            }
            "impl" => {
                self.generics()?;
                let of = format!("{}::", self.name()?);
                self.generics()?;
                if self.is_next("for")? {
                    self.copy()?;
                    self.name()?;
                    self.generics()?;
                }
                self.expect("{")?;
                while !self.is_next("}")? {
                    if self.is_next("ghost")? {
                        self.ghost_member()?;
                        continue;
                    }
                    let is_open = self.is_next("pub")?;
                    if is_open {
                        self.copy()?;
                    }
                    self.expect("fn")?;
                    self.function(&of, is_open)?;
                }
                self.expect("}")
            }
            "fn" => self.function("", is_open),
            token => Err(format!("an item that starts with `{token}`")),
        }
    }

    /// Copies a word that only starts an item.
    fn start(&mut self, word: &str) {
        self.out.push_str(word);
        self.at += word.len();
    }

    /// Copies what stands in angle brackets, if any does.
    fn generics(&mut self) -> Result<(), String> {
        if !self.is_next("<")? {
            return Ok(());
        }
        let mut depth = 0;
        loop {
            match self.copy()? {
                "<" => depth += 1,
                ">" => depth -= 1,
                "{" | ";" => return Err("angle brackets without an end".to_string()),
                _ => (),
            }
            if depth == 0 {
                return Ok(());
            }
        }
    }

    /// A trait: ghost members, which go, and functions without a body.
    fn interface(&mut self) -> Result<(), String> {
        self.start("trait");
        self.name()?;
        self.generics()?;
        self.expect("{")?;
        while !self.is_next("}")? {
            if self.is_next("ghost")? {
                self.ghost_member()?;
                continue;
            }
            self.expect("fn")?;
            self.name()?;
            self.signature()?;
            self.expect(";")?;
        }
        self.expect("}")
    }

    /// A struct's fields; ghost ones go.
    fn fields(&mut self) -> Result<(), String> {
        self.expect("{")?;
        while !self.is_next("}")? {
            let rest = &self.text[self.at..];
            if rest.starts_with("ghost ") || rest.starts_with("pub ghost ") {
                self.ghost_to(",")?;
                continue;
            }
            let mut depth = 0;
            while depth > 0 || !(self.is_next(",")? || self.is_next("}")?) {
                match self.copy()? {
                    "(" | "[" | "<" => depth += 1,
                    ")" | "]" | ">" => depth -= 1,
                    _ => (),
                }
            }
            if self.is_next(",")? {
                self.copy()?;
            }
        }
        self.expect("}")
    }

    /// `ghost NAME: { .. };` or `ghost NAME = { .. };`, which ends its line. It is not copied.
    fn ghost_member(&mut self) -> Result<(), String> {
        self.ghost_to(";")
    }

    /// The rest of a line that begins with a ghost and ends with a brace and this.
    fn ghost_to(&mut self, last: &str) -> Result<(), String> {
        let rest = &self.text[self.at..];
        let line = rest.lines().next().unwrap_or("");
        let is_whole = line.matches('{').count() == line.matches('}').count() && line.ends_with(&format!("}}{last}"));
        if line.contains("ghost use ") || !is_whole {
            return Err(format!("not a whole ghost: {line}"));
        }
        self.at += line.len();
        self.done.ghost_lines += 1;
        Ok(())
    }

    /// A signature, clauses, and a block; `of` is the type of a method.
    fn function(&mut self, of: &str, is_open: bool) -> Result<(), String> {
        let name = self.name()?;
        let is_empty = self.signature()?;
        self.done.functions += 1;
        if is_open {
            let name = format!("{}::{of}{name}", self.name);
            let kept = if self.is_open { &mut self.done.public } else { &mut self.done.hidden };
            kept.push(Public { name, is_empty });
        }
        self.block()
    }

    /// What stands behind a function's name, up to its block or, in a trait, its semicolon; whether it takes and answers nothing.
    fn signature(&mut self) -> Result<bool, String> {
        self.generics()?;
        self.expect("(")?;
        let takes_nothing = self.is_next(")")?;
        self.through(")")?;
        let answers_nothing = !self.is_next("-")?;
        if !answers_nothing {
            self.expect("-")?;
            self.expect(">")?;
            // The type: to the clauses, the block or the end.
            while !["requires", "ensures", "ghost", "{", ";"].contains(&self.peek()?.ok_or("a function without a block")?) {
                if self.copy()? == "[" {
                    self.through("]")?;
                }
            }
        }
        while !self.is_next("{")? && !self.is_next(";")? {
            self.clause()?;
        }
        Ok(takes_nothing && answers_nothing)
    }

    /// `requires`, `ensures` or `ghost`, a name or none, and antt's text in braces. It is not copied.
    fn clause(&mut self) -> Result<(), String> {
        let word = self.peek()?.ok_or("the file ends here")?;
        if !["requires", "ensures", "ghost"].contains(&word) {
            return Err(format!("`{word}` among a contract's clauses"));
        }
        self.at += word.len();
        let token = self.peek()?.ok_or("the file ends here")?;
        if token != "{" {
            if !token.starts_with(|c: char| c.is_ascii_alphabetic()) {
                return Err(format!("`{token}` where a clause's name was expected"));
            }
            self.at += token.len();
        }
        if !self.is_next("{")? {
            return Err("a clause without braces".to_string());
        }
        let mut depth = 0;
        for (at, c) in self.text[self.at..].char_indices() {
            match c {
                '{' => depth += 1,
                '}' => depth -= 1,
                _ => (),
            }
            if depth == 0 {
                let clause = &self.text[self.at..self.at + at + 1];
                if ["let mut ", "while ", "return "].iter().any(|code| clause.contains(code)) {
                    return Err("code in a clause".to_string());
                }
                self.at += at + 1;
                if !self.text[self.at..].starts_with('\n') && !self.text[self.at..].starts_with(";\n") {
                    return Err("a clause does not end its line".to_string());
                }
                self.done.clauses += 1;
                return Ok(());
            }
        }
        Err("a clause without an end".to_string())
    }

    /// `ghost use .. ;`, which ends its line. It is not copied.
    fn ghost_line(&mut self) -> Result<(), String> {
        let rest = &self.text[self.at..];
        let line = &rest[..1 + rest.find(';').ok_or("a `ghost use` without an end")?];
        let is_whole = line.matches('{').count() == line.matches('}').count() && rest[line.len()..].starts_with('\n');
        if !line.starts_with("ghost use ") || !is_whole {
            return Err(format!("not a whole `ghost use`: {line}"));
        }
        self.at += line.len();
        self.done.ghost_lines += 1;
        Ok(())
    }

    /// An attribute, which ends its line: a derive is copied, what speaks to the prover is not.
    fn attribute(&mut self) -> Result<(), String> {
        let rest = &self.text[self.at..];
        let mut depth = 0;
        let end = rest.char_indices().find(|&(_, c)| {
            depth += (c == '[') as usize;
            depth -= (c == ']' && depth > 0) as usize;
            c == ']' && depth == 0
        });
        let attribute = &rest[..end.ok_or("an attribute without an end")?.0 + 1];
        if !rest[attribute.len()..].starts_with('\n') {
            return Err("an attribute does not end its line".to_string());
        }
        let derived = attribute.strip_prefix("#[derive(").and_then(|rest| rest.strip_suffix(")]"));
        if derived.is_some_and(|names| names.split(", ").all(|name| DERIVED.contains(&name))) {
            self.out.push_str(attribute);
        } else if TO_THE_PROVER.iter().any(|start| attribute.starts_with(start)) {
            self.done.attributes += 1;
        } else {
            return Err(format!("an attribute that is not known: {attribute}"));
        }
        self.at += attribute.len();
        Ok(())
    }

    /// The file that `mod NAME;` names, in the place of the item.
    fn inner_module(&mut self, is_open: bool) -> Result<(), String> {
        let name = self.name()?;
        if !self.is_next(";")? {
            return Err("a module in braces".to_string());
        }
        self.at += 1;
        let path = format!("{}::{name}", self.name);
        let file = self.folder.join(format!("{name}.rt"));
        let inner = self.krate.module(&file, &self.folder.join(name), &path, is_open && self.is_open, self.done)?;
        self.out.push_str(&format!(" {{\n{inner}}}\n"));
        Ok(())
    }
}
