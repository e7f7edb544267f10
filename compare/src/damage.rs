//! Damage to files: a word, a field, a record, a list, a count or the length,
//! changed so that it is often nearly right.

use crate::bundle::{Counts, HEADER_WORDS, LEFT, RIGHT, Section, to_bytes};
use crate::rng::Rng;

/// A file that is being spoiled. `counts` are those by which its records lie.
#[derive(Clone, Debug)]
pub struct Draft {
    words: Vec<u32>,
    counts: Counts,
    /// Bytes cut off at the end, or added there.
    cut: usize,
    added: Vec<u8>,
}

/// Sections and fields that hold the start of a list, by kind of record.
fn list_fields(section: Section, kind: u32) -> &'static [usize] {
    match (section, kind) {
        (Section::Symbols, _) => &[1],
        (Section::Terms, 2) => &[2],
        (Section::Terms, 5) => &[1, 2],
        (Section::Contexts, 2) => &[1, 2],
        (Section::Steps, _) => &[4],
        _ => &[],
    }
}

impl Draft {
    /// `words` have to be a header and as many records as it counts.
    pub fn new(words: Vec<u32>) -> Self {
        let counts = words[1..7].try_into().map(Counts::new).expect("six counts");
        debug_assert_eq!(counts.words(), words.len() as u64);
        Draft { words, counts, cut: 0, added: Vec::new() }
    }

    pub fn bytes(self) -> Vec<u8> {
        let mut bytes = to_bytes(&self.words);
        bytes.truncate(bytes.len().saturating_sub(self.cut));
        bytes.extend(self.added);
        bytes
    }

    fn get(&self, section: Section, record: u32, field: usize) -> u32 {
        self.words[self.counts.place(section, record, field)]
    }

    fn set(&mut self, section: Section, record: u32, field: usize, word: u32) {
        let place = self.counts.place(section, record, field);
        self.words[place] = word;
    }

    fn record(&self, section: Section, record: u32) -> Vec<u32> {
        let start = self.counts.place(section, record, 0);
        self.words[start..start + section.width()].to_vec()
    }

    /// Adds a record at the end of its section and counts it.
    fn append(&mut self, section: Section, record: &[u32]) -> u32 {
        let number = self.counts[section] + 1;
        let place = self.counts.place(section, number, 0);
        self.words.splice(place..place, record.iter().copied());
        self.recount(section, number);
        number
    }

    fn remove_last(&mut self, section: Section) {
        let number = self.counts[section];
        let place = self.counts.place(section, number, 0);
        self.words.drain(place..place + section.width());
        self.recount(section, number - 1);
    }

    fn recount(&mut self, section: Section, count: u32) {
        self.counts[section] = count;
        self.words[1 + section as usize] = count;
    }

    /// A record of a section that has any.
    fn some_record(&self, rng: &mut Rng, section: Section) -> Option<u32> {
        let count = self.counts[section];
        (count > 0).then(|| rng.between(1, count))
    }

    fn some_section(&self, rng: &mut Rng) -> Section {
        rng.one_of(Section::ALL)
    }

    /// The values of a list, as far as the links make sense.
    fn list(&self, start: u32) -> Vec<u32> {
        let mut values = Vec::new();
        let mut at = start;
        while at != 0 && at <= self.counts[Section::Links] {
            values.push(self.get(Section::Links, at, 0));
            let next = self.get(Section::Links, at, 1);
            at = if next > at { next } else { 0 };
        }
        values
    }

    /// New links for a list. Starts of other lists stay as they are.
    fn append_list(&mut self, values: &[u32]) -> u32 {
        let first = self.counts[Section::Links] + 1;
        for (index, &value) in values.iter().enumerate() {
            let next = if index + 1 < values.len() { first + index as u32 + 1 } else { 0 };
            self.append(Section::Links, &[value, next]);
        }
        if values.is_empty() { 0 } else { first }
    }

    /// A word that may stand in a field: an end of its range, one past it, or
    /// anything.
    fn plausible(&self, rng: &mut Rng, section: Section, record: u32, old: u32) -> u32 {
        let other = self.some_section(rng);
        let count = self.counts[other];
        match rng.below(14) {
            0 => 0,
            1 => 1,
            2 => rng.below(10),
            3 => record,
            4 => record.saturating_sub(1),
            5 => record + 1,
            6 => self.counts[section],
            7 => count,
            8 => count + 1,
            9 => rng.below(count + 2),
            10 => old.wrapping_add(1),
            11 => old.wrapping_sub(1),
            12 => 32 + rng.below(self.counts[Section::Symbols] + 3),
            _ => rng.next_u32() >> rng.below(32),
        }
    }

    /// One fault of a random kind.
    pub fn spoil(&mut self, rng: &mut Rng) {
        match rng.below(100) {
            0..3 => self.spoil_walk(rng),
            3..6 => self.spoil_scope(rng),
            6..9 => self.spoil_skolem(rng),
            9..28 => self.spoil_field(rng),
            28..32 => self.spoil_symbol(rng),
            32..35 => self.empty_lists(rng),
            35..46 => self.copy_field(rng),
            46..66 => self.edit_list(rng),
            66..70 => self.copy_record(rng),
            70..74 => self.swap_records(rng),
            74..79 => self.append_copy(rng),
            79..83 => self.append_equal_term(rng),
            83..87 => self.drop_last(rng),
            87..90 => self.spoil_count(rng),
            90..92 => self.spoil_version(rng),
            92..95 => self.spoil_length(rng),
            95..97 => self.spoil_claim(rng),
            _ => self.flip_bit(rng),
        }
    }

    /// One fault in a section.
    pub fn spoil_section(&mut self, rng: &mut Rng, section: Section) {
        let Some(record) = self.some_record(rng, section) else { return };
        let field = rng.below(section.width() as u32) as usize;
        let word = self.plausible(rng, section, record, self.get(section, record, field));
        self.set(section, record, field, word);
    }

    /// The next of a link: mostly one that is not allowed, or only just is.
    pub fn spoil_next(&mut self, rng: &mut Rng) {
        let Some(link) = self.some_record(rng, Section::Links) else { return };
        let last = self.counts[Section::Links];
        let lower = rng.between(1, link);
        let next = rng.one_of([link, lower, last, last + 1, last + 1, u32::MAX]);
        self.set(Section::Links, link, 1, next);
    }

    /// The symbol of an application: another one, or one that is not there.
    fn spoil_symbol(&mut self, rng: &mut Rng) {
        let applications: Vec<u32> = (1..=self.counts[Section::Terms])
            .filter(|&record| self.get(Section::Terms, record, 0) == 2)
            .collect();
        let Some(&record) = rng.pick(&applications) else { return };
        let declared = self.counts[Section::Symbols];
        let some = rng.between(1, 8);
        let other = 33 + rng.below(declared + 1);
        let symbol = rng.one_of([0, 9, 10, 32, 33 + declared, some, other, u32::MAX]);
        self.set(Section::Terms, record, 1, symbol);
    }

    /// A let or a replacing context without variables.
    fn empty_lists(&mut self, rng: &mut Rng) {
        let section = rng.one_of([Section::Terms, Section::Contexts]);
        let kind = if section == Section::Terms { 5 } else { 2 };
        let records: Vec<u32> = (1..=self.counts[section])
            .filter(|&record| self.get(section, record, 0) == kind)
            .collect();
        let Some(&record) = rng.pick(&records) else { return };
        self.set(section, record, 1, 0);
        self.set(section, record, 2, 0);
    }

    /// One fault at a REFL that is walked, or near it: in its sides, its context, or a term
    /// below one of its sides, which often stays in order.
    pub fn spoil_walk(&mut self, rng: &mut Rng) {
        let field = |draft: &Self, step, field| draft.get(Section::Steps, step, field);
        let walked: Vec<u32> = (1..=self.counts[Section::Steps])
            .filter(|&step| {
                let (left, right) = (field(self, step, 2), field(self, step, 3));
                let terms = 1..=self.counts[Section::Terms];
                field(self, step, 0) == 1
                    && left != right
                    && terms.contains(&left)
                    && terms.contains(&right)
            })
            .collect();
        let Some(&step) = rng.pick(&walked) else { return self.spoil_field(rng) };
        let (left, right) = (field(self, step, 2), field(self, step, 3));
        let terms = self.counts[Section::Terms];
        match rng.below(10) {
            0 => {
                self.set(Section::Steps, step, 2, right);
                self.set(Section::Steps, step, 3, left);
            }
            1 => {
                let other = rng.below(self.counts[Section::Contexts] + 1);
                self.set(Section::Steps, step, 1, other);
            }
            2 => {
                let (side, other) = (rng.between(2, 3), rng.between(1, terms));
                self.set(Section::Steps, step, side as usize, other);
            }
            3 => {
                if let Some(context) = self.some_record(rng, Section::Contexts) {
                    let variable = rng.between(1, self.counts[Section::Variables]);
                    self.set(Section::Contexts, context, 0, 1);
                    self.set(Section::Contexts, context, 1, variable);
                    self.set(Section::Contexts, context, 2, 0);
                }
            }
            _ => {
                let side = rng.one_of([left, right, right]);
                let below = self.below(side);
                if let Some(&term) = rng.pick(&below) {
                    self.spoil_term(rng, term);
                }
            }
        }
    }

    /// One fault at what mentions the variables of a step: in its context, in an entry from
    /// there towards the empty context, in its sides; or one more REFL before the claim.
    pub fn spoil_scope(&mut self, rng: &mut Rng) {
        let Some(step) = self.some_record(rng, Section::Steps) else { return };
        let (terms, contexts) = (self.counts[Section::Terms], self.counts[Section::Contexts]);
        let variable = rng.between(1, self.counts[Section::Variables].max(1));
        let chain = self.chain(self.get(Section::Steps, step, 1));
        let entry = rng.pick(&chain).copied();
        let parent = |draft: &Self, context| draft.get(Section::Contexts, context, 3);
        match (entry, rng.below(8)) {
            (None, 0..5) | (_, 5) => {
                let other = rng.below(contexts + 1);
                self.set(Section::Steps, step, 1, other);
            }
            (Some(_), 0) => {
                let outer = parent(self, chain[0]);
                self.set(Section::Steps, step, 1, outer);
            }
            // An entry that is passed by.
            (Some(entry), 1) => {
                let above = chain.iter().copied().find(|&context| parent(self, context) == entry);
                let outer = parent(self, entry);
                match above {
                    Some(above) => self.set(Section::Contexts, above, 3, outer),
                    None => self.set(Section::Steps, step, 1, outer),
                }
            }
            (Some(entry), 2..4) if self.get(Section::Contexts, entry, 0) == 1 => {
                self.set(Section::Contexts, entry, 1, variable);
            }
            (Some(entry), 2..4) => {
                let mut variables = self.list(self.get(Section::Contexts, entry, 1));
                let place = rng.below(variables.len() as u32) as usize;
                if let Some(listed) = variables.get_mut(place) {
                    *listed = variable;
                }
                let start = self.append_list(&variables);
                self.set(Section::Contexts, entry, 1, start);
            }
            (Some(entry), 4) => {
                for (field, word) in [1, variable, 0].into_iter().enumerate() {
                    self.set(Section::Contexts, entry, field, word);
                }
            }
            (_, 6) => {
                let (side, other) = (rng.between(2, 3), rng.between(1, terms.max(1)));
                self.set(Section::Steps, step, side as usize, other);
            }
            _ => {
                let last = self.record(Section::Steps, self.counts[Section::Steps]);
                let (context, term) = (rng.below(contexts + 1), rng.between(1, terms.max(1)));
                self.append(Section::Steps, &[1, context, term, term, 0]);
                self.append(Section::Steps, &last);
            }
        }
    }

    /// One fault at a SKO step: in its rule, sides, premises or premise, in the context of the
    /// premise, or in the choice that takes the variable's place.
    pub fn spoil_skolem(&mut self, rng: &mut Rng) {
        let terms = self.counts[Section::Terms];
        let steps: Vec<u32> = (1..=self.counts[Section::Steps])
            .filter(|&step| {
                matches!(self.get(Section::Steps, step, 0), 6 | 7)
                    && (1..=terms).contains(&self.get(Section::Steps, step, 2))
            })
            .collect();
        let Some(&step) = rng.pick(&steps) else { return self.spoil_field(rng) };
        let [rule, left] = [0, 2].map(|field| self.get(Section::Steps, step, field));
        let premise = self.list(self.get(Section::Steps, step, 4)).first().copied().unwrap_or(0);
        let premise_there = (1..=self.counts[Section::Steps]).contains(&premise);
        let context = if premise_there { self.get(Section::Steps, premise, 1) } else { 0 };
        let term = rng.between(1, terms);
        let variable = rng.between(1, self.counts[Section::Variables].max(1));
        let chosen = match context {
            1.. if context <= self.counts[Section::Contexts] => {
                self.list(self.get(Section::Contexts, context, 2)).first().copied().unwrap_or(0)
            }
            _ => 0,
        };
        match rng.below(16) {
            0 => self.set(Section::Steps, step, 0, 13 - rule),
            1 => {
                let other = rng.one_of([4, 5, 8]);
                self.set(Section::Steps, step, 0, other);
            }
            2 => {
                let (side, other) = (rng.between(2, 3), rng.between(1, terms));
                self.set(Section::Steps, step, side as usize, other);
            }
            3 => {
                let premises = [premise; 2];
                let count = rng.one_of([0, 2]);
                let start = self.append_list(&premises[..count]);
                self.set(Section::Steps, step, 4, start);
            }
            4 => {
                let other = rng.between(1, step);
                let start = self.append_list(&[other]);
                self.set(Section::Steps, step, 4, start);
            }
            5 => {
                let other = rng.below(self.counts[Section::Contexts] + 1);
                self.set(Section::Steps, step, 1, other);
            }
            // The left's quantifier, variable or body.
            6 | 7 => self.spoil_term(rng, left),
            8 if premise_there => {
                let field = rng.between(1, 3) as usize;
                let old = self.get(Section::Steps, premise, field);
                let word = self.plausible(rng, Section::Steps, premise, old);
                self.set(Section::Steps, premise, field, word);
            }
            9..12 if chosen != 0 => match rng.below(4) {
                0 => {
                    let parent = rng.below(context);
                    self.set(Section::Contexts, context, 3, parent);
                }
                1 => {
                    let start = self.append_list(&[variable]);
                    self.set(Section::Contexts, context, 1, start);
                }
                2 => {
                    let start = self.append_list(&[term]);
                    self.set(Section::Contexts, context, 2, start);
                }
                _ => {
                    for (field, word) in [1, variable, 0].into_iter().enumerate() {
                        self.set(Section::Contexts, context, field, word);
                    }
                }
            },
            _ if (1..=terms).contains(&chosen) => match rng.below(3) {
                // What stands in the choice: a not, or the body.
                0 => {
                    let inner = self.get(Section::Terms, chosen, 2);
                    let there = (1..=terms).contains(&inner);
                    self.spoil_term(rng, if there { inner } else { chosen });
                }
                _ => self.spoil_term(rng, chosen),
            },
            _ => self.set(Section::Steps, step, 2, term),
        }
    }

    /// A context and those towards the empty one.
    fn chain(&self, context: u32) -> Vec<u32> {
        let mut chain = Vec::new();
        let mut at = context;
        while at >= 1 && at <= self.counts[Section::Contexts] {
            chain.push(at);
            let parent = self.get(Section::Contexts, at, 3);
            at = if parent < at { parent } else { 0 };
        }
        chain
    }

    /// A term and those below it.
    fn below(&self, term: u32) -> Vec<u32> {
        let mut found = vec![term];
        let mut place = 0;
        while let Some(&term) = found.get(place) {
            place += 1;
            let parts = match self.record(Section::Terms, term)[..] {
                [2, _, arguments, _] => self.list(arguments),
                [3 | 4 | 6, _, body, _] => vec![body],
                [5, _, bounds, body] => [self.list(bounds), vec![body]].concat(),
                _ => vec![],
            };
            let parts = parts.into_iter().filter(|&part| (1..term).contains(&part));
            for part in parts {
                if !found.contains(&part) {
                    found.push(part);
                }
            }
        }
        found
    }

    /// Another name, quantifier, symbol, argument or part in a term.
    fn spoil_term(&mut self, rng: &mut Rng, term: u32) {
        let variable = rng.between(1, self.counts[Section::Variables].max(1));
        let lower = rng.between(1, term.max(2) - 1);
        match (self.get(Section::Terms, term, 0), rng.below(3)) {
            (kind @ (3 | 4 | 6), 0) => {
                self.set(Section::Terms, term, 0, another_kind(rng, kind));
            }
            (3 | 4 | 6, 1) => self.set(Section::Terms, term, 2, lower),
            (1 | 3 | 4 | 6, _) => self.set(Section::Terms, term, 1, variable),
            (2, 0) => {
                let declared = self.counts[Section::Symbols];
                let (some, other) = (rng.between(1, 8), 33 + rng.below(declared + 1));
                self.set(Section::Terms, term, 1, rng.one_of([some, other]));
            }
            (kind, _) => {
                // A list of its own, so that no other term is hit.
                let fields = list_fields(Section::Terms, kind);
                let Some(&field) = rng.pick(fields) else { return };
                let mut values = self.list(self.get(Section::Terms, term, field));
                let place = rng.below(values.len() as u32) as usize;
                match (values.len(), rng.below(3)) {
                    (0, _) => {}
                    (_, 0) => values.reverse(),
                    _ if kind == 5 && field == 1 => values[place] = variable,
                    _ => values[place] = lower,
                }
                let start = self.append_list(&values);
                self.set(Section::Terms, term, field, start);
            }
        }
    }

    fn spoil_field(&mut self, rng: &mut Rng) {
        let section = self.some_section(rng);
        self.spoil_section(rng, section);
    }

    /// A field from another record of the section, often of the right sort.
    fn copy_field(&mut self, rng: &mut Rng) {
        let section = self.some_section(rng);
        let (Some(from), Some(to)) =
            (self.some_record(rng, section), self.some_record(rng, section))
        else {
            return;
        };
        let field = rng.below(section.width() as u32) as usize;
        self.set(section, to, field, self.get(section, from, field));
    }

    fn copy_record(&mut self, rng: &mut Rng) {
        let section = self.some_section(rng);
        let (Some(from), Some(to)) =
            (self.some_record(rng, section), self.some_record(rng, section))
        else {
            return;
        };
        for (field, word) in self.record(section, from).into_iter().enumerate() {
            self.set(section, to, field, word);
        }
    }

    fn swap_records(&mut self, rng: &mut Rng) {
        let section = self.some_section(rng);
        let (Some(one), Some(other)) =
            (self.some_record(rng, section), self.some_record(rng, section))
        else {
            return;
        };
        let (first, second) = (self.record(section, one), self.record(section, other));
        for field in 0..section.width() {
            self.set(section, one, field, second[field]);
            self.set(section, other, field, first[field]);
        }
    }

    fn append_copy(&mut self, rng: &mut Rng) {
        let section = self.some_section(rng);
        if let Some(record) = self.some_record(rng, section) {
            let copy = self.record(section, record);
            self.append(section, &copy);
        }
    }

    /// A term equal to an earlier one whose lists start elsewhere.
    fn append_equal_term(&mut self, rng: &mut Rng) {
        let Some(record) = self.some_record(rng, Section::Terms) else { return };
        let mut copy = self.record(Section::Terms, record);
        for &field in list_fields(Section::Terms, copy[0]) {
            let values = self.list(copy[field]);
            copy[field] = self.append_list(&values);
        }
        // Now and then with another binder, which makes it another term.
        if matches!(copy[0], 3 | 4 | 6) && rng.chance(40) {
            copy[0] = another_kind(rng, copy[0]);
        }
        self.append(Section::Terms, &copy);
    }

    fn drop_last(&mut self, rng: &mut Rng) {
        let section = self.some_section(rng);
        if self.counts[section] > 0 {
            self.remove_last(section);
        }
    }

    /// A list dropped from, added to, turned round, changed or made long, as new
    /// links.
    fn edit_list(&mut self, rng: &mut Rng) {
        use Section::{Contexts, Steps, Symbols, Terms};
        let section = rng.one_of([Symbols, Terms, Terms, Contexts, Contexts, Steps, Steps]);
        let Some(record) = self.some_record(rng, section) else { return };
        let fields = list_fields(section, self.get(section, record, 0));
        let Some(&field) = rng.pick(fields) else { return };
        let mut values = self.list(self.get(section, record, field));
        let place = rng.below(values.len() as u32) as usize;
        match rng.below(8) {
            0 => {
                values.pop();
            }
            1 if !values.is_empty() => {
                values.remove(place);
            }
            2 => values.reverse(),
            3 if !values.is_empty() => {
                let old = values[place];
                values[place] = self.plausible(rng, section, record, old);
            }
            4 => {
                let last = values.last().copied().unwrap_or(1);
                values.push(self.plausible(rng, section, record, last));
            }
            5 if !values.is_empty() => values.insert(place, values[place]),
            6 if rng.chance(30) => {
                // Longer than there can be variables.
                let most = Section::Variables.limit();
                let length = rng.between(most - 4, 2 * most + 2) as usize;
                values = (1..).take(length).collect();
            }
            _ => rng.shuffle(&mut values),
        }
        let start = self.append_list(&values);
        self.set(section, record, field, start);
    }

    /// A count changed, the records as they were.
    fn spoil_count(&mut self, rng: &mut Rng) {
        let section = self.some_section(rng);
        let old = self.words[1 + section as usize];
        let limit = section.limit();
        let choices = [old.wrapping_add(1), old.wrapping_sub(1), limit, limit + 1, rng.next_u32()];
        self.words[1 + section as usize] = rng.one_of(choices);
    }

    fn spoil_version(&mut self, rng: &mut Rng) {
        self.words[0] = rng.one_of([0, 2, 3, 0x0100_0000, u32::MAX]);
    }

    pub fn spoil_length(&mut self, rng: &mut Rng) {
        if rng.chance(50) {
            let some = [1, 2, 3, 4, 8, 20, rng.below(4 * self.words.len() as u32 + 1)];
            self.cut = rng.one_of(some) as usize;
        } else {
            let more = rng.one_of([1, 3, 4, 8, 20]);
            self.added = (0..more).map(|_| rng.next_u32() as u8).collect();
        }
    }

    fn spoil_claim(&mut self, rng: &mut Rng) {
        let place = if rng.chance(50) { LEFT } else { RIGHT };
        self.words[place] = match rng.below(3) {
            0 => 0,
            1 => rng.below(self.counts[Section::Terms] + 2),
            _ => rng.next_u32(),
        };
    }

    fn flip_bit(&mut self, rng: &mut Rng) {
        let place = rng.below(self.words.len() as u32) as usize;
        let bits = rng.one_of([4, 4, 32]);
        self.words[place] ^= 1 << rng.below(bits);
    }

    /// Faults in several sections, so that the order of refusals decides.
    pub fn spoil_many(&mut self, rng: &mut Rng) {
        for _ in 0..rng.between(2, 4) {
            match rng.below(10) {
                0..6 => self.spoil(rng),
                6 => {
                    // Two records of one section.
                    let section = self.some_section(rng);
                    self.spoil_section(rng, section);
                    self.spoil_section(rng, section);
                }
                7 => self.spoil_header(rng),
                _ => {
                    for section in Section::ALL {
                        if rng.chance(40) {
                            self.spoil_section(rng, section);
                        }
                    }
                }
            }
        }
    }

    /// Faults that only the order of the header's checks tells apart.
    pub fn spoil_header(&mut self, rng: &mut Rng) {
        for _ in 0..rng.between(1, 3) {
            match rng.below(4) {
                0 => self.spoil_version(rng),
                1 => self.spoil_length(rng),
                _ => self.spoil_count(rng),
            }
        }
    }
}

/// Another kind of binder: mostly the other quantifier for one.
fn another_kind(rng: &mut Rng, kind: u32) -> u32 {
    match kind {
        3 | 4 if rng.chance(70) => 7 - kind,
        3 | 4 => 6,
        _ => rng.one_of([3, 4]),
    }
}

/// A header with small or large counts and random words behind it, of the exact
/// length where `exact`.
pub fn random_words(rng: &mut Rng, exact: bool) -> Vec<u8> {
    let counts = Section::ALL.map(|_| if rng.chance(30) { 0 } else { rng.below(6) });
    let mut words = vec![1];
    words.extend(counts);
    let words_due = Counts::new(counts).words() as usize;
    let range = rng.one_of([2, 3, 4, 6, 40]);
    let count = if exact { words_due } else { HEADER_WORDS + rng.below(60) as usize };
    while words.len() < count {
        words.push(rng.below(range));
    }
    words.truncate(count);
    to_bytes(&words)
}

pub fn random_bytes(rng: &mut Rng) -> Vec<u8> {
    let most = rng.one_of([40, 300]);
    let count = rng.below(most);
    let mut bytes: Vec<u8> = (0..count).map(|_| rng.next_u32() as u8).collect();
    if rng.chance(50) && bytes.len() >= 4 {
        bytes[..4].copy_from_slice(&1u32.to_le_bytes());
    }
    // Often counts within their limits, so that the length decides.
    if rng.chance(30) && bytes.len() >= 4 * HEADER_WORDS {
        for word in bytes[4..4 * HEADER_WORDS].chunks_mut(4) {
            word[1..].fill(0);
        }
    }
    bytes
}
