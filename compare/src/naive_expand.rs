//! A second reading of the writer, as plain as possible: images are found by
//! walking the contexts written so far, terms by trying all of them, and a file is
//! laid out at the end.

use crate::answer::{Reason, Refusal};
use crate::bundle::{
    Counts, MAX_BYTES, MAX_SETS, MAX_WORDS, Section, counts_of, to_bytes, to_words,
};
use crate::expand::Names;
use crate::naive::{Plain, Tree, tables};

/// Same answers and same areas as [`crate::expand::expand`].
pub fn expand(
    job: &[u8],
    names: Names,
    out: &mut [u8],
    words: &mut [u32],
    sets: &mut [u64],
) -> Result<usize, Refusal> {
    let areas = out.len() >= MAX_BYTES && words.len() >= MAX_WORDS && sets.len() >= MAX_SETS;
    out.fill(0);
    words.fill(0);
    sets.fill(0);
    let file = file_of(job, names, areas)?;
    out[..file.len()].copy_from_slice(&file);
    Ok(file.len())
}

fn file_of(job: &[u8], names: Names, areas: bool) -> Result<Vec<u8>, Refusal> {
    let plain = tables(job, |_| areas)?;
    let counts = counts_of(job).unwrap_or_default();
    let whole = |reason| Err(Refusal::whole(reason));
    if counts[Section::Contexts] != 0 || counts[Section::Steps] != 0 || plain.right != 0 {
        return whole(Reason::NotBare);
    }
    if plain.left == 0 || plain.left > counts[Section::Terms] {
        return whole(Reason::Claim);
    }
    if !plain.free(plain.left).is_empty() {
        return whole(Reason::Open);
    }
    let words = to_words(job);
    let section = |section: Section| {
        let start = counts.start(section);
        words[start..start + counts[section] as usize * section.width()].chunks(section.width())
    };
    let mut writer = Writer {
        terms: section(Section::Terms).map(|record| (record.to_vec(), None)).collect(),
        variables: plain.variables.clone(),
        links: section(Section::Links).map(|record| [record[0], record[1]]).collect(),
        contexts: Vec::new(),
        steps: Vec::new(),
        plain: &plain,
        names,
    };
    for (term, tree) in writer.terms.iter_mut().zip(&plain.terms) {
        term.1 = Some(tree.clone());
    }
    let Some((right, _)) = writer.visit(plain.left, 0) else { return whole(Reason::Full) };
    let mut file = vec![1];
    let mut written = counts;
    for part in Section::ALL {
        written[part] = writer.count(&counts, part);
        file.push(written[part]);
    }
    file.extend([plain.left, right]);
    file.extend(section(Section::Symbols).flatten());
    file.extend(&writer.variables);
    file.extend(writer.terms.iter().flat_map(|(record, _)| record));
    file.extend(writer.links.iter().flatten());
    file.extend(writer.contexts.iter().flatten());
    file.extend(writer.steps.iter().flatten());
    Ok(to_bytes(&file))
}

struct Writer<'a> {
    /// The job.
    plain: &'a Plain,
    names: Names,
    /// Record, and the term by value.
    terms: Vec<(Vec<u32>, Option<Tree>)>,
    variables: Vec<u32>,
    links: Vec<[u32; 2]>,
    contexts: Vec<[u32; 4]>,
    steps: Vec<[u32; 5]>,
}

impl Writer<'_> {
    fn count(&self, job: &Counts, section: Section) -> u32 {
        let count = match section {
            Section::Symbols => return job[Section::Symbols],
            Section::Variables => self.variables.len(),
            Section::Terms => self.terms.len(),
            Section::Links => self.links.len(),
            Section::Contexts => self.contexts.len(),
            Section::Steps => self.steps.len(),
        };
        count as u32
    }

    /// `None` where a section has passed its limit.
    fn fits(&self) -> Option<()> {
        let fits = |count: usize, section: Section| count <= section.limit() as usize;
        let all = fits(self.variables.len(), Section::Variables)
            && fits(self.terms.len(), Section::Terms)
            && fits(self.links.len(), Section::Links)
            && fits(self.contexts.len(), Section::Contexts)
            && fits(self.steps.len(), Section::Steps);
        all.then_some(())
    }

    fn list(&mut self, values: &[u32]) -> u32 {
        if values.is_empty() {
            return 0;
        }
        let first = self.links.len() as u32 + 1;
        for &value in values {
            let own = self.links.len() as u32 + 1;
            self.links.push([value, own + 1]);
        }
        self.links.last_mut().expect("the list is not empty")[1] = 0;
        first
    }

    fn context(&mut self, record: [u32; 4]) -> u32 {
        self.contexts.push(record);
        self.contexts.len() as u32
    }

    fn find(&self, tree: &Tree) -> Option<u32> {
        let place = self.terms.iter().position(|(_, own)| own.as_ref() == Some(tree))?;
        Some(place as u32 + 1)
    }

    fn term(&mut self, tree: Tree) -> u32 {
        if let Some(number) = self.find(&tree) {
            return number;
        }
        let record = match &tree {
            Tree::Variable(variable) => vec![1, *variable, 0, 0],
            Tree::Application(symbol, arguments) => {
                let list = self.list(arguments);
                vec![2, *symbol, list, 0]
            }
            Tree::ForAll(variable, body) => vec![3, *variable, *body, 0],
            Tree::Exists(variable, body) => vec![4, *variable, *body, 0],
            Tree::Choice(variable, body) => vec![6, *variable, *body, 0],
            Tree::Let(..) => unreachable!("no result is a let"),
        };
        self.terms.push((record, Some(tree)));
        self.terms.len() as u32
    }

    fn values(&self, start: u32) -> Vec<u32> {
        let mut values = Vec::new();
        let mut at = start;
        while at != 0 {
            let [value, next] = self.links[at as usize - 1];
            values.push(value);
            at = next;
        }
        values
    }

    /// The image of a variable, from the entry towards the empty context.
    fn image(&self, context: u32, variable: u32) -> Option<u32> {
        let mut at = context;
        while at != 0 {
            let [kind, first, second, parent] = self.contexts[at as usize - 1];
            if kind == 1 && first == variable {
                return None;
            }
            if kind == 2 {
                let place = self.values(first).iter().position(|&other| other == variable);
                if let Some(place) = place {
                    return Some(self.values(second)[place]);
                }
            }
            at = parent;
        }
        None
    }

    fn step(
        &mut self,
        rule: u32,
        context: u32,
        left: u32,
        right: u32,
        premises: &[u32],
    ) -> Option<(u32, u32)> {
        let premises = self.list(premises);
        self.steps.push([rule, context, left, right, premises]);
        self.fits()?;
        Some((right, self.steps.len() as u32))
    }

    /// Result and step; `None` where the limits do not hold it.
    fn visit(&mut self, term: u32, context: u32) -> Option<(u32, u32)> {
        match self.plain.tree(term).clone() {
            Tree::Variable(variable) => {
                let right = self.image(context, variable).unwrap_or(term);
                self.step(1, context, term, right, &[])
            }
            Tree::Application(symbol, arguments) => {
                let (results, steps) = self.visit_all(&arguments, context)?;
                let right = self.term(Tree::Application(symbol, results));
                self.step(2, context, term, right, &steps)
            }
            Tree::ForAll(x, body) => {
                let (y, result, step) = self.rename(x, body, context)?;
                let right = self.term(Tree::ForAll(y, result));
                self.step(4, context, term, right, &[step])
            }
            Tree::Exists(x, body) => {
                let (y, result, step) = self.rename(x, body, context)?;
                let right = self.term(Tree::Exists(y, result));
                self.step(4, context, term, right, &[step])
            }
            Tree::Choice(x, body) => {
                let (y, result, step) = self.rename(x, body, context)?;
                let right = self.term(Tree::Choice(y, result));
                self.step(4, context, term, right, &[step])
            }
            Tree::Let(_, bounds, body) => {
                let (results, mut steps) = self.visit_all(&bounds, context)?;
                let replacing = self.list(&results);
                let own_list = self.terms[term as usize - 1].0[1];
                let inner = self.context([2, own_list, replacing, context]);
                let (right, last) = self.visit(body, inner)?;
                steps.push(last);
                self.step(5, context, term, right, &steps)
            }
        }
    }

    fn visit_all(&mut self, terms: &[u32], context: u32) -> Option<(Vec<u32>, Vec<u32>)> {
        let mut results = Vec::new();
        let mut steps = Vec::new();
        for &term in terms {
            let (result, step) = self.visit(term, context)?;
            results.push(result);
            steps.push(step);
        }
        Some((results, steps))
    }

    /// Whether a binder of x keeps it, counted anew each time.
    fn keeps(&self, x: u32) -> bool {
        let mut binders = 0;
        let mut lists = 0;
        for tree in &self.plain.terms {
            match tree {
                Tree::ForAll(variable, _)
                | Tree::Exists(variable, _)
                | Tree::Choice(variable, _)
                    if *variable == x =>
                {
                    binders += 1;
                }
                Tree::Let(variables, _, _) if variables.contains(&x) => lists += 1,
                _ => {}
            }
        }
        match self.names {
            Names::Keep => binders == 1 && lists == 0,
            Names::RenameAll => false,
        }
    }

    /// Visits a binder's body under its own variable, where that is kept, or a new one.
    fn rename(&mut self, x: u32, body: u32, context: u32) -> Option<(u32, u32, u32)> {
        let mut y = x;
        if !self.keeps(x) {
            self.variables.push(self.variables[x as usize - 1]);
            y = self.variables.len() as u32;
        }
        let y_term = self.term(Tree::Variable(y));
        let fixing = self.context([1, y, 0, context]);
        let xs = self.list(&[x]);
        let ys = self.list(&[y_term]);
        let replacing = self.context([2, xs, ys, fixing]);
        self.fits()?;
        let (result, step) = self.visit(body, replacing)?;
        Some((y, result, step))
    }
}
