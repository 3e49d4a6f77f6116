//! What the crate and the port are tried on.

mod cases;
mod damage;
mod depths;
mod frames;
mod host;
mod limits;
mod numbers;
mod reads;
mod runs;
mod series;
mod short;
mod tree;
mod trees;
mod utf8;
mod writes;

use crate::visitor::Visitor;

/// One thread's share of a section, and how much of the random sections is wanted.
#[derive(Clone, Copy, Debug)]
pub struct Share {
    /// Which share, from 0.
    pub index: usize,
    /// How many there are.
    pub of: usize,
    /// Random trees that are asked for.
    pub rounds: u64,
    /// What the random numbers come from.
    pub seed: u64,
}

impl Share {
    /// Whether the `number`th part of a section belongs to this share.
    pub fn takes(&self, number: usize) -> bool {
        number % self.of == self.index
    }
}

/// How much there is of a kind of input.
#[derive(Clone, Copy, Debug, PartialEq, Eq)]
pub enum Amount {
    /// Shown in a second or so.
    Little,
    /// Shown in some seconds.
    Much,
    /// Shown in a minute or more, where the whole is asked for.
    Most,
    /// As many random values as are asked for.
    Asked,
}

/// A kind of input.
pub struct Section {
    /// What it is called in the report.
    pub name: &'static str,
    /// How much there is of it.
    pub amount: Amount,
    /// Whether the kept list is drawn from it. Drawing from one more would make it another list.
    pub kept: bool,
    /// Shows a share of it.
    pub show: fn(&mut dyn Visitor, &Share),
}

const fn section(
    amount: Amount,
    name: &'static str,
    show: fn(&mut dyn Visitor, &Share),
) -> Section {
    Section {
        name,
        amount,
        kept: true,
        show,
    }
}

const fn not_kept(section: Section) -> Section {
    Section {
        kept: false,
        ..section
    }
}

/// Every kind of input, the quick ones first.
pub const SECTIONS: [Section; 16] = [
    section(Amount::Little, "the rules' own cases", cases::show),
    section(Amount::Little, "limits at, below and above", limits::show),
    section(Amount::Little, "depths and struct depths", depths::show),
    section(Amount::Little, "frames", frames::show),
    section(Amount::Little, "skips by type byte", host::show),
    section(Amount::Little, "writes", writes::show),
    section(Amount::Much, "numbers from every place", numbers::show),
    section(
        Amount::Much,
        "every string to 6 of telling bytes",
        short::show_telling,
    ),
    not_kept(section(
        Amount::Much,
        "skips of these to 5 at depths 0 to 2",
        short::show_shallow,
    )),
    not_kept(section(
        Amount::Much,
        "elements of a fixed width, cut at every byte",
        runs::show,
    )),
    section(
        Amount::Asked,
        "random trees, whole and damaged",
        trees::show,
    ),
    not_kept(section(
        Amount::Asked,
        "deep and wide random trees",
        trees::show_far,
    )),
    not_kept(section(
        Amount::Asked,
        "one reader, one writer, to the first refusal",
        series::show,
    )),
    section(Amount::Much, "texts, UTF-8 and not", utf8::show),
    not_kept(section(
        Amount::Much,
        "every string of 0 to 2 bytes",
        short::show_all,
    )),
    not_kept(section(
        Amount::Most,
        "every string of 0 to 3 bytes",
        short::show_whole,
    )),
];
