//! Flows as trees that can be put together by hand, taken apart, shown, and written as node tables.

use crate::rng::Rng;
use crate::term::{kind, set_number, sort_of, Sort};

#[derive(Clone, PartialEq, Eq, Debug)]
pub struct Drawing {
    pub kind: u16,
    /// The event of a leaf of kind 1; 0 elsewhere.
    pub event: u16,
    pub parts: Vec<Drawing>,
}

// ---- putting together: the names of the parts in document 01 ----

pub fn event(event: u16) -> Drawing {
    Drawing { kind: kind::EVENT, event, parts: vec![] }
}

pub fn leaf(kind: u16) -> Drawing {
    node(kind, vec![])
}

pub fn node(kind: u16, parts: Vec<Drawing>) -> Drawing {
    Drawing { kind, event: 0, parts }
}

pub fn skip() -> Drawing {
    leaf(kind::SKIP)
}

pub fn throw() -> Drawing {
    leaf(kind::THROW)
}

pub fn yields() -> Drawing {
    leaf(kind::YIELD)
}

pub fn skipp() -> Drawing {
    leaf(kind::SKIPP)
}

pub fn throww() -> Drawing {
    leaf(kind::THROWW)
}

pub fn yieldd() -> Drawing {
    leaf(kind::YIELDD)
}

/// P;Q or PP;QQ, by the sort of the first part.
pub fn seq(p: Drawing, q: Drawing) -> Drawing {
    of_sort(kind::SEQ, kind::COMP_SEQ, p, q)
}

pub fn choice(p: Drawing, q: Drawing) -> Drawing {
    of_sort(kind::CHOICE, kind::COMP_CHOICE, p, q)
}

pub fn parallel(p: Drawing, q: Drawing) -> Drawing {
    of_sort(kind::PARALLEL, kind::COMP_PARALLEL, p, q)
}

/// Parallel with the set of this number.
pub fn joint(set: u16, p: Drawing, q: Drawing) -> Drawing {
    of_sort(kind::JOINT + set, kind::COMP_JOINT + set, p, q)
}

pub fn handler(p: Drawing, q: Drawing) -> Drawing {
    node(kind::HANDLER, vec![p, q])
}

pub fn block(pp: Drawing) -> Drawing {
    node(kind::BLOCK, vec![pp])
}

pub fn pair(p: Drawing, q: Drawing) -> Drawing {
    node(kind::PAIR, vec![p, q])
}

fn of_sort(standard: u16, compensable: u16, p: Drawing, q: Drawing) -> Drawing {
    let kind = match p.sort() {
        Sort::Standard => standard,
        Sort::Compensable => compensable,
    };
    node(kind, vec![p, q])
}

/// `copies` of a part joined by `join`, grouped to the left.
pub fn tower(copies: usize, part: &Drawing, join: impl Fn(Drawing, Drawing) -> Drawing) -> Drawing {
    (1..copies).fold(part.clone(), |all, _| join(all, part.clone()))
}

// ---- looking at it ----

impl Drawing {
    pub fn sort(&self) -> Sort {
        sort_of(self.kind)
    }

    pub fn size(&self) -> usize {
        1 + self.parts.iter().map(Drawing::size).sum::<usize>()
    }

    /// How many leaves of this kind it has.
    pub fn leaves(&self, kind: u16) -> usize {
        (self.kind == kind) as usize + self.parts.iter().map(|part| part.leaves(kind)).sum::<usize>()
    }

    /// The way to every part, the whole first: which part to go to at each node.
    pub fn paths(&self) -> Vec<Vec<usize>> {
        let mut all = vec![vec![]];
        for (i, part) in self.parts.iter().enumerate() {
            for mut path in part.paths() {
                path.insert(0, i);
                all.push(path);
            }
        }
        all
    }

    pub fn at(&self, path: &[usize]) -> &Drawing {
        path.iter().fold(self, |part, &i| &part.parts[i])
    }

    pub fn replaced(&self, path: &[usize], new: &Drawing) -> Drawing {
        let mut whole = self.clone();
        let place = path.iter().fold(&mut whole, |part, &i| &mut part.parts[i]);
        *place = new.clone();
        whole
    }

    /// As in document 01, with every part of two in brackets: `[((a÷b ; c÷d) ; THROWW)]`; parallel with set 3 is `||3`.
    pub fn show(&self) -> String {
        let two = |sign: &str| format!("({}{sign}{})", self.parts[0].show(), self.parts[1].show());
        if let Some(number) = set_number(self.kind) {
            return two(&format!(" ||{number} "));
        }
        match self.kind {
            kind::EVENT => show_event(self.event),
            kind::SKIP => "SKIP".into(),
            kind::THROW => "THROW".into(),
            kind::YIELD => "YIELD".into(),
            kind::SEQ | kind::COMP_SEQ => two(" ; "),
            kind::CHOICE | kind::COMP_CHOICE => two(" [] "),
            kind::PARALLEL | kind::COMP_PARALLEL => two(" || "),
            kind::HANDLER => two(" ▷ "),
            kind::BLOCK => format!("[{}]", self.parts[0].show()),
            kind::PAIR => two("÷"),
            kind::SKIPP => "SKIPP".into(),
            kind::THROWW => "THROWW".into(),
            kind::YIELDD => "YIELDD".into(),
            other => format!("kind {other}"),
        }
    }
}

/// a to z for 1 to 26, else the number.
pub fn show_event(event: u16) -> String {
    match event {
        1..=26 => char::from(b'a' + event as u8 - 1).to_string(),
        _ => format!("#{event}"),
    }
}

// ---- node tables ----

impl Drawing {
    /// The node table, children first and left before right.
    pub fn table(&self) -> Vec<u16> {
        let mut nodes = vec![];
        self.write(&mut nodes);
        nodes
    }

    fn write(&self, nodes: &mut Vec<u16>) -> u16 {
        let children: Vec<u16> = self.parts.iter().map(|part| part.write(nodes)).collect();
        let own = (nodes.len() / 3) as u16;
        let first = if self.kind == kind::EVENT { self.event } else { *children.first().unwrap_or(&0) };
        nodes.extend([self.kind, first, *children.get(1).unwrap_or(&0)]);
        own
    }

    /// The node table in any of the numberings that document 01 allows.
    pub fn table_in_any_order(&self, rng: &mut Rng) -> Vec<u16> {
        let plain = self.table();
        let count = plain.len() / 3;
        let mut new_number: Vec<Option<u16>> = vec![None; count];
        let mut nodes = vec![];
        for number in 0..count {
            let ready: Vec<usize> = (0..count)
                .filter(|&i| new_number[i].is_none())
                .filter(|&i| children(&plain, i).all(|c| new_number[c].is_some()))
                .collect();
            let i = *rng.pick(&ready);
            new_number[i] = Some(number as u16);
            let mut fields = [plain[3 * i + 1], plain[3 * i + 2]];
            for (field, child) in fields.iter_mut().zip(children(&plain, i)) {
                *field = new_number[child].expect("children come first");
            }
            nodes.extend([plain[3 * i], fields[0], fields[1]]);
        }
        nodes
    }
}

/// The children of node i of a table that is not refused.
pub fn children(nodes: &[u16], i: usize) -> impl Iterator<Item = usize> + '_ {
    let count = match nodes[3 * i] {
        5..=8 | 10..=13 | 256..=271 | 512..=527 => 2,
        9 => 1,
        _ => 0,
    };
    nodes[3 * i + 1..3 * i + 1 + count].iter().map(|&c| c as usize)
}

/// The drawing of a table that is not refused.
pub fn of_table(nodes: &[u16]) -> Drawing {
    fn part(nodes: &[u16], i: usize) -> Drawing {
        match nodes[3 * i] {
            kind::EVENT => event(nodes[3 * i + 1]),
            other => node(other, children(nodes, i).map(|c| part(nodes, c)).collect()),
        }
    }
    part(nodes, nodes.len() / 3 - 1)
}
