//! The claim of an accepted file as an SMT-LIB 2 query: can its sides differ? A
//! solver has to answer unsat. SMT-LIB has no choice.

use crate::bundle::BUILT_IN;
use crate::naive::{Plain, Tree};
use std::collections::BTreeSet;
use std::fmt::Write;

/// Terms are written as trees, a shared one again and again; not beyond so many
/// bytes a side.
const LONGEST: usize = 1 << 20;

/// `None` where a side would be too long or holds a choice.
pub fn query(plain: &Plain) -> Option<String> {
    let mut text = String::from("(set-logic ALL)\n(declare-sort Item 0)\n");
    for (symbol, (result, sorts)) in (BUILT_IN + 1..).zip(&plain.symbols) {
        let sorts: Vec<&str> = sorts.iter().map(|&sort| sort_name(sort)).collect();
        let result = sort_name(*result);
        let _ = writeln!(text, "(declare-fun f{symbol} ({}) {result})", sorts.join(" "));
    }
    let free: BTreeSet<u32> =
        plain.free(plain.left).union(plain.free(plain.right)).copied().collect();
    for variable in free {
        let sort = variable_sort(plain, variable);
        let _ = writeln!(text, "(declare-const v{variable} {sort})");
    }
    let (left, right) = (side(plain, plain.left)?, side(plain, plain.right)?);
    let _ = writeln!(text, "(assert (not (=\n  {left}\n  {right})))\n(check-sat)");
    Some(text)
}

fn sort_name(sort: u32) -> &'static str {
    if sort == 0 { "Bool" } else { "Item" }
}

fn variable_sort(plain: &Plain, variable: u32) -> &'static str {
    sort_name(plain.variables[variable as usize - 1])
}

fn side(plain: &Plain, term: u32) -> Option<String> {
    let mut text = String::new();
    write_term(plain, term, &mut text)?;
    Some(text)
}

fn write_term(plain: &Plain, term: u32, text: &mut String) -> Option<()> {
    if text.len() > LONGEST {
        return None;
    }
    match plain.tree(term) {
        Tree::Variable(variable) => text.push_str(&format!("v{variable}")),
        Tree::Application(symbol, arguments) => {
            let name = match symbol {
                1 => "true".into(),
                2 => "false".into(),
                3 => "not".into(),
                4 => "and".into(),
                5 => "or".into(),
                6 => "=>".into(),
                7 | 8 => "=".into(),
                _ => format!("f{symbol}"),
            };
            if arguments.is_empty() {
                text.push_str(&name);
            } else {
                text.push_str(&format!("({name}"));
                for &argument in arguments {
                    text.push(' ');
                    write_term(plain, argument, text)?;
                }
                text.push(')');
            }
        }
        Tree::ForAll(variable, body) => write_binder(plain, "forall", *variable, *body, text)?,
        Tree::Exists(variable, body) => write_binder(plain, "exists", *variable, *body, text)?,
        Tree::Choice(..) => return None,
        Tree::Let(variables, bounds, body) => {
            text.push_str("(let (");
            for (place, (variable, &bound)) in variables.iter().zip(bounds).enumerate() {
                let space = if place == 0 { "" } else { " " };
                text.push_str(&format!("{space}(v{variable} "));
                write_term(plain, bound, text)?;
                text.push(')');
            }
            text.push_str(") ");
            write_term(plain, *body, text)?;
            text.push(')');
        }
    }
    Some(())
}

fn write_binder(
    plain: &Plain,
    name: &str,
    variable: u32,
    body: u32,
    text: &mut String,
) -> Option<()> {
    let sort = variable_sort(plain, variable);
    text.push_str(&format!("({name} ((v{variable} {sort})) "));
    write_term(plain, body, text)?;
    text.push(')');
    Some(())
}

#[cfg(test)]
mod tests {
    use super::*;
    use crate::bundle::{MAX_SETS, to_bytes};
    use crate::generate::examples::LET_EXPANSION;
    use crate::naive::load;

    #[test]
    fn the_printed_file() {
        let plain = load(&to_bytes(LET_EXPANSION), MAX_SETS).expect("it is accepted");
        let query = query(&plain).expect("it is short");
        assert!(query.contains("(declare-fun f34 (Item Item) Bool)\n"), "{query}");
        assert!(query.contains("(let ((v1 f33)) (f34 v1 v1))\n  (f34 f33 f33)"), "{query}");
        assert!(!query.contains("declare-const"), "the claim is closed");
    }
}
