//! Terms of blocks, and sums of values.

use super::{Reader, MOST_OPEN};
use crate::model::{Signed, Term};
use crate::read::plain;
use crate::scan::Word;
use crate::words;
use crate::{Fault, Position};

impl Reader<'_> {
    /// A term of tag 0 to 9.
    pub(super) fn simple(&mut self) -> Result<(u32, u32), Fault> {
        let at = self.place();
        let (tag, number, inner) = self.tag_and_number()?;
        self.numbers.extend([at, inner.unwrap_or(at)]);
        Ok((tag, number))
    }

    fn tag_and_number(&mut self) -> Result<(u32, u32, Option<Position>), Fault> {
        if self.is("-") {
            let tight = self.tokens.get(self.at + 1).is_some_and(|t| t.tight);
            if tight && matches!(self.ahead(1), Some(Word::Number(_))) {
                self.at += 1;
                return Ok((words::MINUS_CONSTANT, self.number("a constant")?, None));
            }
            return Err(self.fault(
                "a minus stands before no term here",
                "a minus constant is written -5, without a space; a difference is a VALUE",
            ));
        }
        if let Some(Word::Number(_)) = self.word() {
            return Ok((words::CONSTANT, self.number("a constant")?, None));
        }
        let from = self.at;
        let (name, at) = self.name("a term", "write a number, p1 to p4, cl, n$label, q$queue, s$storage, r$storage, f$facility or v$value")?;
        let low = name.to_lowercase();
        if low == "cl" {
            return Ok((words::CLOCK, 0, None));
        }
        if let Some(Ok(k)) = low.strip_prefix('p').map(str::parse) {
            return Ok((words::PARAMETER, k, None));
        }
        let tag = words::TAGS.iter().find(|tag| tag.letter == low);
        match tag {
            Some(tag) if self.is("$") => {
                self.at += 1;
                let inner = self.place();
                Ok((tag.number, self.named(tag.of)?, Some(inner)))
            }
            _ => Err(self.no_term(&name, at, from)),
        }
    }

    /// A name stands where a term is wanted.
    fn no_term(&self, name: &str, at: Position, from: usize) -> Fault {
        let what = format!("`{name}` is no term");
        let known = |letter| self.names.find(letter, name).is_some();
        let relation = matches!(self.word(), Some(Word::Sign(s)) if words::RELATIONS.contains(s));
        let remedy = if self.keyword == "WAITIF" && !relation && (known('f') || known('s')) {
            let mut codes = words::CODES
                .iter()
                .filter(|code| code.facility == known('f'));
            let given = self.word().and_then(plain);
            let given = given.and_then(|g| codes.clone().find(|c| g.eq_ignore_ascii_case(c.word)));
            let code = given.or_else(|| codes.next()).map_or("U", |code| code.word);
            format!("write {name} = {code}, a server and its code, or compare two terms")
        } else if known('f') {
            format!("write f${name}, which is 1 while it is in use and else 0")
        } else if known('s') {
            format!("write s${name} for its units in use, r${name} for its free ones")
        } else if known('q') {
            format!("write q${name} for its content")
        } else if known('w') {
            format!("write v${name}")
        } else if known('b') {
            format!("write n${name} for the entries of that block")
        } else if matches!(
            self.tokens.get(from + 1).map(|t| &t.word),
            Some(Word::Sign("$"))
        ) {
            "before `$` stands one of n q s r f v: entries, queue content, units in use, units free, facility in use, value".to_string()
        } else {
            "write a number, p1 to p4, cl, n$label, q$queue, s$storage, r$storage, f$facility or v$value".to_string()
        };
        Fault::at(at, what, remedy)
    }

    /// A term of a value.
    pub(super) fn term(&mut self) -> Result<Term, Fault> {
        let at = self.place();
        if !self.take("(") {
            let (tag, n) = self.simple()?;
            return Ok(Term::Simple(tag, n));
        }
        self.open += 1;
        if self.open > MOST_OPEN {
            let remedy = "four may be open at a time: move a part to a VALUE before it";
            return Err(self.fault("too many brackets are open", remedy));
        }
        let start = self.numbers.len();
        self.numbers.push(at);
        let mut sum = self.sum()?;
        if self.take(")") {
            self.open -= 1;
            return Ok(Term::Bracket(sum));
        }
        if sum.len() > 1 || sum[0].minus {
            return Err(self.fault(
                "`)` is expected here",
                "a sum on either side of a relation stands in brackets of its own",
            ));
        }
        // of the sum's numbers only those of its term stay, behind tag and relation
        let relation_at = self.place();
        if self.at == self.tokens.len() {
            return Err(self.fault("`)` is expected here", "close the bracket"));
        }
        let relation = self.relation()?;
        self.numbers.splice(start + 1..start + 3, [relation_at]);
        let right = self.term()?;
        if self.is("+") || self.is("-") {
            return Err(self.fault(
                "`)` is expected here",
                "a sum on either side of a relation stands in brackets of its own",
            ));
        }
        self.sign(")", "close the bracket")?;
        self.open -= 1;
        let left = sum.remove(0).term;
        Ok(Term::Comparison(relation, Box::new(left), Box::new(right)))
    }

    /// A sum: its first term may have a sign, with a space behind a minus.
    pub(super) fn sum(&mut self) -> Result<Vec<Signed>, Fault> {
        let mut at = self.place();
        self.numbers.push(at);
        let tight = self.tokens.get(self.at + 1).is_some_and(|t| t.tight);
        let constant = matches!(self.ahead(1), Some(Word::Number(_)));
        let mut minus = self.is("-") && !(tight && constant);
        if minus || self.is("+") {
            self.at += 1;
        }
        let mut sum = Vec::new();
        loop {
            self.numbers.push(at);
            let term = self.term()?;
            sum.push(Signed { minus, term });
            minus = self.is("-");
            if !minus && !self.is("+") {
                return Ok(sum);
            }
            at = self.place();
            self.at += 1;
        }
    }

    /// The sum of a VALUE.
    pub fn value(&mut self) -> Result<Vec<Signed>, Fault> {
        self.name("a value's name", "write VALUE name = sum")?;
        self.sign("=", "write VALUE name = sum")?;
        let sum = self.sum()?;
        if matches!(self.word(), Some(Word::Sign(s)) if words::RELATIONS.contains(s)) {
            return Err(self.fault(
                "a comparison in a value stands in brackets",
                "write (a < b), which is 1 where it holds and else 0",
            ));
        }
        self.end()?;
        Ok(sum)
    }
}
