//! A Rattle text as Rust: contracts, ghost items and what is said to the check left out, paths between crates led through one module. Lines keep their numbers.
//!
//! Whatever stands outside contracts and has no form that is known here is refused, and what this lets pass is then held against Rust's own rules.

use super::tokens::{tokens, Kind, Token};

/// The text of a file of the crate `name`, which may name the crates `depends_on`; all stand below the Rust module `root`.
pub fn translate(text: &str, name: &str, depends_on: &[String], root: &str) -> Result<String, String> {
    let tokens = tokens(text);
    let mut translator = Translator { tokens: &tokens, at: 0, out: String::new(), name, depends_on, root };
    while translator.at < tokens.len() {
        translator.next()?;
    }
    Ok(translator.out)
}

struct Translator<'a> {
    tokens: &'a [Token<'a>],
    at: usize,
    out: String,
    name: &'a str,
    depends_on: &'a [String],
    root: &'a str,
}

impl Translator<'_> {
    fn next(&mut self) -> Result<(), String> {
        let token = self.tokens[self.at];
        match (token.kind, token.text) {
            (Kind::Other, sign) => Err(self.fault(&format!("`{sign}` outside a contract"))),
            (Kind::Word, "ghost") => self.ghost(),
            (Kind::Word, "requires" | "ensures") => self.contract(),
            (Kind::Word, "extern") => Err(self.fault("`extern`")),
            (Kind::Word, _) if self.starts_path() => self.path(),
            (Kind::Sign, "#") => self.attribute(),
            _ => {
                self.copy();
                Ok(())
            }
        }
    }

    fn fault(&self, what: &str) -> String {
        let line = self.tokens.get(self.at).or(self.tokens.last()).map_or(0, |token| token.line);
        format!("line {line}: {what}")
    }

    fn copy(&mut self) {
        self.out.push_str(self.tokens[self.at].text);
        self.at += 1;
    }

    /// Leaves a token out, but for its line ends.
    fn leave_out(&mut self) {
        let ends = self.tokens[self.at].text.matches('\n').count();
        self.out.extend(std::iter::repeat_n('\n', ends));
        self.at += 1;
    }

    /// The token so many places on, spaces and comments not counted.
    fn ahead(&self, count: usize) -> &str {
        let solid = self.tokens[self.at..].iter().filter(|token| token.kind != Kind::Between);
        solid.map(|token| token.text).nth(count).unwrap_or("")
    }

    /// The token before this one, spaces and comments not counted.
    fn before(&self) -> &str {
        let solid = self.tokens[..self.at].iter().rev().find(|token| token.kind != Kind::Between);
        solid.map_or("", |token| token.text)
    }

    fn leave_out_through(&mut self, last: &str) -> Result<(), String> {
        while self.ahead(0) != last {
            if self.at == self.tokens.len() {
                return Err(self.fault(&format!("no `{last}` to the end of the text")));
            }
            self.leave_out();
        }
        while self.tokens[self.at].kind == Kind::Between {
            self.leave_out();
        }
        self.leave_out();
        Ok(())
    }

    /// `ghost use PATH;`, which names definitions for contracts, or a ghost field or member: `ghost NAME: { .. },` or `ghost NAME = { .. };`.
    fn ghost(&mut self) -> Result<(), String> {
        if self.ahead(1) == "use" {
            return self.leave_out_through(";");
        }
        if !matches!(self.ahead(2), ":" | "=") || self.ahead(3) != "{" {
            return Err(self.fault("`ghost` with no `use` and no fact"));
        }
        self.leave_out_through("{")?;
        self.leave_out_braces()?;
        match self.ahead(0) {
            last @ ("," | ";") => {
                let last = last.to_string();
                self.leave_out_through(&last)
            }
            other => Err(self.fault(&format!("`{other}` behind a ghost item"))),
        }
    }

    /// `requires { .. }`, `ensures { .. }` or `ensures NAME { .. }`, between a function's head and its body.
    fn contract(&mut self) -> Result<(), String> {
        let opens = if self.ahead(1) == "{" { 1 } else { 2 };
        if self.ahead(opens) != "{" {
            return Err(self.fault("a contract with no braces"));
        }
        self.leave_out_through("{")?;
        self.leave_out_braces()?;
        match self.ahead(0) {
            "{" | "requires" | "ensures" => Ok(()),
            other => Err(self.fault(&format!("`{other}` behind a contract"))),
        }
    }

    /// What stands up to the brace that closes the one before, and that brace.
    fn leave_out_braces(&mut self) -> Result<(), String> {
        let mut open = 1;
        while open > 0 {
            match self.tokens.get(self.at).map(|token| token.text) {
                None => return Err(self.fault("a fact that is not closed")),
                Some("{") => open += 1,
                Some("}") => open -= 1,
                Some(_) => {}
            }
            self.leave_out();
        }
        Ok(())
    }

    /// `#![tactic(auto)]` and `#[cycle(NAME)]` are said to the check alone; `Drop` is no derive of Rust. No other attribute is known.
    fn attribute(&mut self) -> Result<(), String> {
        let opens = if self.ahead(1) == "!" { 2 } else { 1 };
        if self.ahead(opens) != "[" {
            return Err(self.fault("`#` with no attribute"));
        }
        match self.ahead(opens + 1) {
            "tactic" | "cycle" => self.leave_out_through("]"),
            "derive" => self.derive(),
            _ => Err(self.fault("an attribute that is not known")),
        }
    }

    /// `#[derive(A, B)]` without `Drop`.
    fn derive(&mut self) -> Result<(), String> {
        let mut derived = Vec::new();
        let mut at = 4;
        while !matches!(self.ahead(at), ")" | "") {
            match self.ahead(at) {
                "," | "Drop" => {}
                name => derived.push(name.to_string()),
            }
            at += 1;
        }
        if !derived.is_empty() {
            self.out.push_str(&format!("#[derive({})]", derived.join(", ")));
        }
        self.leave_out_through("]")
    }

    /// Whether a path of several parts begins here.
    fn starts_path(&self) -> bool {
        self.ahead(1) == "::" && self.before() != "::"
    }

    /// The first part of a path: this crate, a crate that it depends on, `std`, or a name in scope.
    fn path(&mut self) -> Result<(), String> {
        let first = self.ahead(0).to_string();
        if first == "std" {
            return self.wrapping();
        }
        if matches!(first.as_str(), "self" | "super") {
            return Err(self.fault(&format!("a path from `{first}`")));
        }
        let of_crate = if first == "crate" { self.name } else { first.as_str() };
        if first == "crate" || self.depends_on.contains(&first) {
            self.out.push_str(&format!("{}::{of_crate}", self.root));
            self.at += 1;
        } else {
            self.copy();
        }
        Ok(())
    }

    /// `std::num::wrapping_add_u32` is `u32::wrapping_add`; nothing else of `std` is known.
    fn wrapping(&mut self) -> Result<(), String> {
        let name = self.ahead(4).to_string();
        let wraps = name.rsplit_once('_').filter(|(work, _)| matches!(*work, "wrapping_add" | "wrapping_sub"));
        match wraps {
            Some((work, of_type)) if [self.ahead(1), self.ahead(2), self.ahead(3)] == ["::", "num", "::"] => {
                self.out.push_str(&format!("{of_type}::{work}"));
                self.leave_out_through(&name)
            }
            _ => Err(self.fault("a name of `std` that is not known")),
        }
    }
}

#[cfg(test)]
mod tests {
    use super::translate;

    fn rust(text: &str) -> Result<String, String> {
        translate(text, "steps", &["terms".to_string()], "crate::native")
    }

    #[track_caller]
    fn is(text: &str, expected: &str) {
        assert_eq!(rust(text).as_deref(), Ok(expected));
    }

    #[track_caller]
    fn is_refused(text: &str, why: &str) {
        let fault = rust(text).expect_err("a fault");
        assert!(fault.contains(why), "{fault}");
    }

    #[test]
    fn contracts_are_left_out_and_lines_stay() {
        is(
            "fn f(x: u8)\n    requires { {x' : ℕ} → b' ≡ \"{\" }\n    ensures goes { All (λ r. r) x.now\n × P result }\n{\n}\n",
            "fn f(x: u8)\n    \n    \n\n{\n}\n",
        );
        is("ghost use Rattle.std.specs.Prelude.{T, ◌≡◌};\n// λ\nconst A: u8 = b'{';\n", "\n// λ\nconst A: u8 = b'{';\n");
    }

    #[test]
    fn paths_lead_to_the_crates() {
        is("use terms::walk::wide;", "use crate::native::terms::walk::wide;");
        is("use terms::walk::{has, wide};", "use crate::native::terms::walk::{has, wide};");
        is("x = crate::meet::meet(y);", "x = crate::native::steps::meet::meet(y);");
        is("m = Step::End; n = u16::count_ones(terms);", "m = Step::End; n = u16::count_ones(terms);");
        is("a = std::num::wrapping_add_u32(b, c);", "a = u32::wrapping_add(b, c);");
    }

    #[test]
    fn what_is_said_to_the_check_is_left_out() {
        is("#![tactic(auto)]\n#[tactic(auto, using(a, b))]\n#[cycle(f_g)]\nfn f() {}", "\n\n\nfn f() {}");
        is("#[derive(Drop)]\npub struct P {\n}", "\npub struct P {\n}");
        is("#[derive(Clone, Copy)]\nenum E {}", "#[derive(Clone, Copy)]\nenum E {}");
        is("#[derive(Debug, Drop)] enum E {}", "#[derive(Debug)] enum E {}");
    }

    #[test]
    fn ghost_fields_and_members_are_left_out() {
        is("struct S {\n    n: usize,\n    ghost small: { n ≤ 9 },\n}", "struct S {\n    n: usize,\n    \n}");
        is("impl A {\n    ghost gives = { λ x. {y : Z} → x };\n\n    fn f() {}\n}", "impl A {\n    \n\n    fn f() {}\n}");
    }

    #[test]
    fn what_is_not_known_is_refused() {
        is_refused("fn f()\n{\n λ }", "line 3: `λ` outside a contract");
        is_refused("fn f()\n    requires { { }\n{\n}", "not closed");
        is_refused("fn f()\n    ensures { a } }\n{\n}", "`}` behind a contract");
        is_refused("fn f() requires x;", "no braces");
        is_refused("ghost fn f();", "no `use`");
        is_refused("ghost a = { b }\nfn f() {}", "behind a ghost item");
        is_refused("ghost a = { b", "not closed");
        is_refused("ghost use a", "no `;`");
        is_refused("#[inline]\nfn f() {}", "an attribute");
        is_refused("pub extern \"C\" fn f() {}", "`extern`");
        is_refused("x = std::num::nearest_u64_to_f64(y);", "`std`");
        is_refused("x = super::y;", "a path from `super`");
        is_refused("/* x */", "outside a contract");
    }
}
