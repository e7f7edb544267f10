//! Files about REFL for whole terms (Req 04): random walks, and walks of given lengths and
//! shapes.

use super::builder::{BINDERS, Builder, CHOICE, EXISTS, FOR_ALL, ITEM, TRUTH};
use super::derive::{BIND, Care, Derivation, LET, REFL, Slip};
use super::replace::{MISSES, Miss, replaced};
use crate::bundle::Section;
use crate::rng::Rng;

/// Levels of doubled terms, 2^(level + 1) - 1 pairs each, that take so many pairs together.
fn levels(pairs: u32) -> Vec<u32> {
    let mut rest = pairs;
    let mut levels = Vec::new();
    while rest > 0 {
        let level = (rest + 1).ilog2() - 1;
        levels.push(level);
        rest -= (2 << level) - 1;
    }
    levels
}

/// A term on itself twice, again and again.
fn doubled(b: &mut Builder, d: u32, leaf: u32, level: u32) -> u32 {
    (0..level).fold(leaf, |term, _| b.apply(d, &[term, term]))
}

/// What a walk of a given length has around and at its end.
#[derive(Clone, Copy, Debug)]
pub struct Length {
    pub pairs: u32,
    /// Whether the last pair differs.
    pub differs: bool,
    /// Binders around; every fourth is a let, whose bound term is a pair more.
    pub binders: u32,
}

/// A REFL step that visits so many pairs, over doubled terms whose leaves are replaced or
/// bound. Answers its context and sides.
pub fn of_length(b: &mut Builder, length: Length) -> (u32, [u32; 2]) {
    let Length { pairs, differs, binders } = length;
    let a = b.symbol(ITEM, &[]);
    let d = b.symbol(ITEM, &[ITEM, ITEM]);
    let free = b.variable(ITEM);
    let names: [u32; 4] = std::array::from_fn(|_| b.variable(ITEM));
    let (a_term, free_term) = (b.apply(a, &[]), b.variable_term(free));
    let context = b.replace(&[free], &[a_term], 0);
    // The leaves on both sides: a free variable and its image, two bound variables.
    let mut leaves = vec![[free_term, a_term]];
    if binders > 0 {
        leaves.push([b.variable_term(names[0]), b.variable_term(names[1])]);
    }
    let lets = binders / 4;
    let mut levels = levels(pairs - binders - lets - 1 - u32::from(differs));
    b.rng.shuffle(&mut levels);
    let mut arguments = [Vec::new(), Vec::new()];
    for level in levels {
        let leaf = b.rng.pick(&leaves).copied().unwrap_or([free_term, a_term]);
        for (side, leaf) in arguments.iter_mut().zip(leaf) {
            side.push(doubled(b, d, leaf, level));
        }
    }
    if differs {
        let [left, right] = leaves[leaves.len() - 1];
        arguments[0].push(if b.rng.chance(50) { left } else { free_term });
        let wrong = b.apply(d, &[right, right]);
        arguments[1].push(if b.rng.chance(50) { wrong } else { free_term });
    }
    let h = b.symbol(TRUTH, &vec![ITEM; arguments[0].len()]);
    let mut sides = arguments.map(|arguments| b.apply(h, &arguments));
    for place in 0..binders {
        // The innermost binders are those of the leaves.
        let (x, y) = if place == 0 { (names[0], names[1]) } else { (names[2], names[3]) };
        let kind = if place % 3 == 1 { EXISTS } else { FOR_ALL };
        sides = if place % 4 == 3 {
            [b.bind_let(&[x], &[free_term], sides[0]), b.bind_let(&[y], &[a_term], sides[1])]
        } else {
            [b.bind(kind, x, sides[0]), b.bind(kind, y, sides[1])]
        };
    }
    (context, sides)
}

/// A file with one walk of so many pairs.
pub fn one_walk(rng: Rng, length: Length) -> Vec<u32> {
    let mut b = Builder::new(rng, 100);
    let (context, [left, right]) = of_length(&mut b, length);
    b.add_step(REFL, context, left, right, &[]);
    let truth = b.apply(1, &[]);
    b.add_step(REFL, 0, truth, truth, &[]);
    b.claim_last()
}

/// A walk near the limit, alone or with others before and after it.
fn near_limit(rng: Rng) -> Vec<u32> {
    let mut b = Builder::new(rng, 100);
    let any = b.rng.between(3_000, 5_000);
    let pairs = b.rng.one_of([4_094, 4_095, 4_095, 4_096, 4_096, 4_096, 4_097, 4_097, 4_098, any]);
    let length = Length { pairs, differs: b.rng.chance(50), binders: b.rng.below(6) };
    if b.rng.chance(30) {
        let before = Length { pairs: b.rng.between(20, 60), differs: false, binders: 2 };
        let (context, [left, right]) = of_length(&mut b, before);
        b.add_step(REFL, context, left, right, &[]);
    }
    let (context, [left, right]) = of_length(&mut b, length);
    b.add_step(REFL, context, left, right, &[]);
    if b.rng.chance(30) {
        let after = Length { pairs: b.rng.between(20, 60), differs: false, binders: 2 };
        let (context, [left, right]) = of_length(&mut b, after);
        b.add_step(REFL, context, left, right, &[]);
    }
    let truth = b.apply(1, &[]);
    b.add_step(REFL, 0, truth, truth, &[]);
    b.claim_last()
}

/// Doubled terms of any size, with a difference before, behind or inside.
fn doubles(rng: Rng) -> Vec<u32> {
    let mut b = Builder::new(rng, 100);
    let a = b.symbol(ITEM, &[]);
    let d = b.symbol(ITEM, &[ITEM, ITEM]);
    let (x, y) = (b.variable(ITEM), b.variable(ITEM));
    let (a_term, x_term, y_term) = (b.apply(a, &[]), b.variable_term(x), b.variable_term(y));
    let context = b.replace(&[x], &[a_term], 0);
    let level = b.rng.one_of([2, 5, 9, 10, 11, 12, 13, 30, 200]);
    let (mut left, mut right) = (x_term, a_term);
    let wrong = b.rng.below(2 * level);
    for place in 0..level {
        let lower = right;
        left = b.apply(d, &[left, left]);
        right = b.apply(d, &[right, right]);
        if place == wrong {
            let swapped = if b.rng.chance(50) { [lower, y_term] } else { [y_term, lower] };
            right = b.apply(d, &swapped);
        }
    }
    match b.rng.below(4) {
        0 => (left, right) = (b.apply(d, &[left, x_term]), b.apply(d, &[right, y_term])),
        1 => (left, right) = (b.apply(d, &[x_term, left]), b.apply(d, &[y_term, right])),
        2 => {
            let (p, [one, other]) = (8, [[left, x_term], [right, a_term]]);
            let (one, other) = (b.apply(p, &one), b.apply(p, &other));
            (left, right) = (b.bind(EXISTS, y, one), b.bind(EXISTS, y, other));
        }
        _ => {}
    }
    add_walk(&mut b, context, [left, right]);
    b.add_step(REFL, 0, a_term, a_term, &[]);
    b.claim_last()
}

/// A let of many variables; on the right they are the same ones turned by some places, or
/// others, and the body has them all.
fn long_let(rng: Rng) -> Vec<u32> {
    let mut b = Builder::new(rng, 100);
    let count = b.rng.one_of([2, 5, 60, 64, 65, 120, 128, 200, 256]) as usize;
    let a = b.symbol(ITEM, &[]);
    let variables: Vec<u32> = (0..count).map(|_| b.variable(ITEM)).collect();
    let terms: Vec<u32> = variables.iter().map(|&variable| b.variable_term(variable)).collect();
    let a_term = b.apply(a, &[]);
    // Free in the bound terms, where the let's variables are not yet there.
    let replaced = b.rng.below(count as u32) as usize;
    let context = b.replace(&[variables[replaced]], &[a_term], 0);
    let g = b.symbol(TRUTH, &vec![ITEM; count]);
    let turn = b.rng.below(count as u32) as usize;
    let turned = |items: &[u32]| [&items[turn..], &items[..turn]].concat();
    let bounds: Vec<u32> =
        (0..count).map(|place| if place % 3 == 0 { terms[replaced] } else { a_term }).collect();
    let mut results = vec![a_term; count];
    let mut names = turned(&variables);
    let mut arguments = turned(&terms);
    match b.rng.below(8) {
        0 => results[count / 2] = terms[replaced],
        1 => names.swap(0, count - 1),
        2 => arguments.swap(0, count - 1),
        3 => arguments[count - 1] = a_term,
        _ => {}
    }
    let body = b.apply(g, &terms);
    let left = b.bind_let(&variables, &bounds, body);
    let body = b.apply(g, &arguments);
    let right = b.bind_let(&names, &results, body);
    b.add_step(REFL, context, left, right, &[]);
    b.add_step(REFL, 0, a_term, a_term, &[]);
    b.claim_last()
}

/// `depth` binders in one another, for-all and exists, over four variables, with an atom of
/// two of them every `every` levels and at the bottom. The two sides differ in the name of the
/// outermost binder alone: the terms below it are the same records, so that nearly all
/// records of a file are binders that one walk crosses.
pub fn shared_binders(rng: Rng, depth: u32, every: u32) -> Vec<u32> {
    let mut b = Builder::new(rng, 100);
    let p = b.symbol(TRUTH, &[ITEM, ITEM]);
    let names: [u32; 4] = std::array::from_fn(|_| b.variable(ITEM));
    let outer: [u32; 2] = std::array::from_fn(|_| b.variable(ITEM));
    let [one, two, three, four] = names.map(|name| b.variable_term(name));
    let atoms = [b.apply(p, &[one, two]), b.apply(p, &[three, four])];
    let mut term = atoms[0];
    for level in 0..depth - 1 {
        // The four binders around an atom bind its variables.
        if level % every == every - 1 && level + 4 < depth {
            let atom = b.rng.one_of(atoms);
            term = b.apply(4, &[atom, term]);
        }
        let kind = if level % 3 == 2 { EXISTS } else { FOR_ALL };
        term = b.bind(kind, names[level as usize % 4], term);
    }
    let sides = outer.map(|name| {
        let name_term = b.variable_term(name);
        let atom = b.apply(p, &[name_term, name_term]);
        let body = b.apply(4, &[atom, term]);
        b.bind(FOR_ALL, name, body)
    });
    b.add_step(REFL, 0, sides[0], sides[1], &[]);
    b.claim_last()
}

/// Binders in one another, choices and lets too, with other names on the right, over a leaf
/// that is bound far outside or replaced; now and then the leaf is another one.
fn deep(rng: Rng) -> Vec<u32> {
    let mut b = Builder::new(rng, 100);
    let a = b.symbol(ITEM, &[]);
    let p = b.symbol(TRUTH, &[ITEM, ITEM]);
    let free = b.variable(ITEM);
    let count = b.rng.one_of([2, 3, 8, 100]);
    let names: Vec<u32> = (0..count).map(|_| b.variable(ITEM)).collect();
    let (a_term, free_term) = (b.apply(a, &[]), b.variable_term(free));
    let context = b.replace(&[free], &[a_term], 0);
    let shift = b.rng.below(count) as usize;
    let depth = b.rng.between(1, 380) as usize;
    let name = |side: usize, level: usize| names[(level + side * shift) % names.len()];
    let seen = b.rng.below(depth as u32) as usize;
    let wrong = b.rng.chance(40);
    let leaves = [0, 1].map(|side| {
        let at = if wrong && side == 1 { seen + 1 } else { seen };
        b.variable_term(name(side, at))
    });
    let lets = b.rng.chance(40);
    let kind = |level: usize| [FOR_ALL, EXISTS, CHOICE, FOR_ALL, FOR_ALL][level % 5];
    let images = [free_term, if b.rng.chance(80) { a_term } else { free_term }];
    let sides = [0, 1].map(|side| {
        let mut term = b.apply(p, &[leaves[side], images[side]]);
        for level in 0..depth {
            term = if lets && level % 2 == 0 {
                b.bind_let(&[name(side, level)], &[images[side]], term)
            } else {
                b.bind_as_truth(kind(level), name(side, level), term)
            };
        }
        term
    });
    add_walk(&mut b, context, sides);
    b.add_step(REFL, 0, a_term, a_term, &[]);
    b.claim_last()
}

/// A REFL in a context that mostly mentions all that is free in its sides.
fn add_walk(b: &mut Builder, context: u32, [left, right]: [u32; 2]) {
    let context = if b.rng.chance(90) { b.scope(context, &[left, right]) } else { context };
    b.add_step(REFL, context, left, right, &[]);
}

/// A closed claim by BIND, and LET, over one REFL for a quantifier whose new name may be the
/// outer binder's: it then takes the variable of an image.
fn under_binders(rng: Rng) -> Vec<u32> {
    let mut b = Builder::new(rng, 50);
    b.symbol(ITEM, &[]);
    let f = b.symbol(ITEM, &[ITEM]);
    let p = b.symbol(TRUTH, &[ITEM, ITEM]);
    let before = b.rng.one_of([0, 0, 3, 60, 63, 64, 127, 190, 250]);
    (0..before).for_each(|_| _ = b.spare_variable(ITEM));
    let mut names: [u32; 5] = std::array::from_fn(|_| b.variable(ITEM));
    b.rng.shuffle(&mut names);
    let [x, y, z, w, other] = names;
    let new = b.rng.one_of([y, y, x, other]);
    let [x_term, y_term, z_term, w_term, new_term] =
        [x, y, z, w, new].map(|name| b.variable_term(name));
    let [outer, inner] = [0; 2].map(|_| b.rng.one_of(BINDERS));
    let fixing = b.fix(y, 0);
    let renaming = b.replace(&[x], &[y_term], fixing);
    let premise = if b.rng.chance(50) {
        let (left, right) = (b.apply(p, &[x_term, z_term]), b.apply(p, &[y_term, new_term]));
        let left = b.bind_as_truth(inner, z, left);
        let right = b.bind_as_truth(inner, new, right);
        b.add_step(REFL, renaming, left, right, &[])
    } else {
        // The same with a let between the two.
        let (f_x, f_y) = (b.apply(f, &[x_term]), b.apply(f, &[y_term]));
        let bound = b.add_step(REFL, renaming, f_x, f_y, &[]);
        let replacing = b.replace(&[w], &[f_y], renaming);
        let (left, right) = (b.apply(p, &[w_term, z_term]), b.apply(p, &[f_y, new_term]));
        let left = b.bind_as_truth(inner, z, left);
        let right = b.bind_as_truth(inner, new, right);
        let body = b.add_step(REFL, replacing, left, right, &[]);
        let left = b.bind_let(&[w], &[f_x], left);
        b.add_step(LET, renaming, left, right, &[bound, body])
    };
    let body = b.step(premise);
    let (left, right) = (b.bind(outer, x, body.left), b.bind(outer, y, body.right));
    b.add_step(BIND, 0, left, right, &[premise]);
    b.claim_last()
}

/// A closed claim by one REFL: an atom of bound variables under a few binders whose names
/// recur, so that a nearer one hides another on one side or both. Inside the outermost, some
/// are lets of one variable by another, or by its own name outside.
fn recurring_names(rng: Rng) -> Vec<u32> {
    let mut b = Builder::new(rng, 50);
    b.symbol(ITEM, &[]);
    let p = b.symbol(TRUTH, &[ITEM, ITEM]);
    let names: [u32; 3] = std::array::from_fn(|_| b.variable(ITEM));
    let inner: Vec<Option<u32>> = (0..b.rng.between(1, 2))
        .map(|_| if b.rng.chance(30) { None } else { Some(b.rng.one_of(BINDERS)) })
        .collect();
    let outermost = b.rng.one_of(BINDERS);
    let own = b.rng.chance(30);
    let inner = if own { vec![None, Some(b.rng.one_of(BINDERS))] } else { inner };
    let [left, right] = [0; 2].map(|_| {
        let some: Vec<u32> = (0..=inner.len()).map(|_| b.rng.one_of(names)).collect();
        let leaf = |b: &mut Builder| {
            let name = b.rng.pick(&some).copied().unwrap_or(names[0]);
            b.variable_term(name)
        };
        let leaves = if own { [b.variable_term(some[0]); 2] } else { [leaf(&mut b), leaf(&mut b)] };
        let mut term = b.apply(p, &leaves);
        for (kind, &name) in inner.iter().zip(&some) {
            term = match *kind {
                Some(kind) => b.bind_as_truth(kind, name, term),
                None => {
                    let bound = if own { b.variable_term(name) } else { leaf(&mut b) };
                    b.bind_let(&[name], &[bound], term)
                }
            };
        }
        b.bind(outermost, some[inner.len()], term)
    });
    b.add_step(REFL, 0, left, right, &[]);
    b.claim_last()
}

/// A context that replaces a variable by a term with a free one, or with a binder, and a binder
/// over a formula with that variable.
fn prepare(b: &mut Builder, miss: Option<Miss>) -> Option<(u32, u32)> {
    let (z, w) = (b.draw_variable(), b.draw_variable());
    let sort = b.variable_sort(z);
    let image = match miss {
        Some(Miss::ImageName) if sort == TRUTH => b.random_quantifier(2),
        Some(Miss::ImageName) => b.random_let(ITEM, 2),
        _ => b.random_term(sort, 1),
    };
    if z == w {
        return None;
    }
    let parent = b.scope(0, &[image]);
    let context = b.replace(&[z], &[image], parent);
    let (z_term, other) = (b.variable_term(z), b.random_leaf(sort));
    let symbol = if sort == TRUTH { b.rng.one_of([4, 5, 6, 7]) } else { 8 };
    let body = b.apply(symbol, &[z_term, other]);
    let kind = b.rng.one_of(BINDERS);
    let term = b.bind(kind, w, body);
    Some((b.scope(context, &[term]), term))
}

/// Walks of random terms in contexts of all kinds, each right or nearly so, and a claim that
/// may be one.
fn walks(mut rng: Rng) -> Vec<u32> {
    let sharing = rng.one_of([0, 50, 100]);
    let mut b = Builder::new(rng, sharing);
    b.random_signature();
    let count = b.rng.between(1, 4);
    let near =
        if b.rng.chance(60) { b.rng.one_of([count - 1, count - 1, count]) } else { u32::MAX };
    for place in 0..count {
        let mut context = 0;
        for _ in 0..b.rng.below(4) {
            context = Derivation::new(&mut b, Care::Full).random_context(context);
        }
        let miss = (place == near).then(|| b.rng.one_of(MISSES));
        let prepared = match miss {
            Some(Miss::Taken | Miss::ImageName) if b.rng.chance(60) => prepare(&mut b, miss),
            _ => None,
        };
        let prepared = prepared.is_some_and(|(context, term)| copy(&mut b, context, term, miss));
        if !prepared {
            random_walk(&mut b, context, miss);
        }
    }
    let miss = (near == count).then(|| b.rng.one_of(MISSES));
    random_walk(&mut b, 0, miss);
    if b.count(Section::Steps) > 0 && b.rng.chance(30) {
        let right = b.step(b.count(Section::Steps)).right;
        b.add_step(REFL, 0, right, right, &[]);
    }
    b.claim_last()
}

/// A step from a random term to its copy; other terms are tried where the miss does not
/// offer itself.
fn random_walk(b: &mut Builder, context: u32, miss: Option<Miss>) {
    for _ in 0..8 {
        let sort = b.rng.one_of([TRUTH, TRUTH, ITEM]);
        let depth = b.rng.between(1, 5);
        let mut term = b.random_compound(sort, depth);
        let mut above = context;
        if b.rng.chance(97) {
            match context {
                0 => term = b.close(term),
                _ => above = b.scope(context, &[term]),
            }
        }
        if copy(b, above, term, miss) {
            return;
        }
    }
}

/// Adds a step from a term to its copy, if the copy has the miss.
fn copy(b: &mut Builder, context: u32, term: u32, miss: Option<Miss>) -> bool {
    match replaced(b, context, term, miss) {
        Some((right, missed)) if missed == miss.is_some() => {
            b.add_step(REFL, context, term, right, &[]);
            true
        }
        _ => false,
    }
}

/// A file about REFL for whole terms.
pub fn any(mut rng: Rng) -> Vec<u32> {
    match rng.below(100) {
        0..38 => walks(rng),
        38..41 => under_binders(rng),
        41..45 => recurring_names(rng),
        45..72 => {
            let near = rng.chance(50);
            let care = if near { Care::But(&[Slip::Whole]) } else { Care::Full };
            super::walking(rng, care)
        }
        72..84 => near_limit(rng),
        84..90 => doubles(rng),
        90..94 => long_let(rng),
        94..96 => {
            let (depth, every) = (rng.between(30, 950), rng.between(20, 90));
            shared_binders(rng, depth, every)
        }
        _ => deep(rng),
    }
}

/// As the optimiser sends them: lets over formulas of some forty terms, each expanded by one
/// REFL for the bound term, one for the whole body, and LET.
pub fn one_for_many(rng: Rng, rules: u32) -> Vec<u32> {
    let mut b = Builder::new(rng, 100);
    let a = b.symbol(ITEM, &[]);
    let f = b.symbol(ITEM, &[ITEM]);
    let symbols: [u32; 4] = std::array::from_fn(|_| b.symbol(TRUTH, &[ITEM, ITEM]));
    let [v, x, y, z, s, t] = std::array::from_fn(|_| b.variable(ITEM));
    let terms = [v, x, y, z, s, t].map(|variable| b.variable_term(variable));
    let mut bound = b.apply(a, &[]);
    for rule in 0..rules {
        bound = b.apply(f, &[bound]);
        // For all x there is a y, and for all z, in atoms of all of them and of v.
        let side = |b: &mut Builder, v: u32, names: [u32; 3]| {
            let [x, y, z] = names.map(|name| b.variable_term(name));
            let p = |place: u32| symbols[((rule + place) % 4) as usize];
            let f_x = b.apply(f, &[x]);
            let one = b.apply(p(0), &[f_x, v]);
            let two = b.apply(p(1), &[y, z]);
            let three = b.apply(p(2), &[v, z]);
            let four = b.apply(8, &[f_x, y]);
            let inner = b.apply(6, &[two, three]);
            let inner = b.bind(FOR_ALL, names[2], inner);
            let both = b.apply(4, &[one, four]);
            let all = b.apply(5, &[both, inner]);
            let five = b.apply(p(3), &[v, v]);
            let all = b.apply(6, &[all, five]);
            let six = b.apply(p(1), &[f_x, y]);
            let six = b.apply(3, &[six]);
            let all = b.apply(4, &[all, six]);
            let all = b.apply(3, &[all]);
            let all = b.apply(4, &[all, inner]);
            let exists = b.bind(EXISTS, names[1], all);
            b.bind(FOR_ALL, names[0], exists)
        };
        let left = side(&mut b, terms[0], [x, y, z]);
        let right = side(&mut b, bound, if rule % 2 == 0 { [s, t, z] } else { [y, x, t] });
        let whole = b.bind_let(&[v], &[bound], left);
        let context = b.replace(&[v], &[bound], 0);
        let constant = b.add_step(REFL, 0, bound, bound, &[]);
        let carried = b.add_step(REFL, context, left, right, &[]);
        b.add_step(LET, 0, whole, right, &[constant, carried]);
    }
    b.claim_last()
}
