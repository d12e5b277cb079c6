//! The parts of records: registers, sizes, scales, operators, bases and what diagnostics carry.

use super::table::Section;
use crate::names;
use crate::records::{NodeRecord, OperandRecord, Records, PC, SUPPRESSED_PC};

/// Bases of forms 5 to 12.
const BASES: [&str; 5] = [
    "address register",
    "pc",
    "suppressed address register",
    "zpc",
    "omitted",
];
/// Scales as they may be written.
const SCALES: [&str; 4] = ["*1", "*2", "*4", "*8"];
/// Parts that are there or not.
const OTHERS: [&str; 7] = [
    "long immediate",
    "suppressed index",
    "base and outer displacement",
    "kind 9 after -",
    "kind 9 after /",
    "kind 13 without a term",
    "related place",
];

/// The counts of parts.
pub struct Parts {
    special: Section,
    sizes: Section,
    outer_sizes: Section,
    index_sizes: Section,
    scales: Section,
    indirections: Section,
    bases: Section,
    unary: Section,
    binary: Section,
    number_bases: Section,
    quotes: Section,
    others: Section,
}

impl Parts {
    /// Nothing counted yet of a run with this nesting limit.
    pub fn new(limit: usize) -> Self {
        Self {
            special: Section::numbered("special registers", &names::SPECIAL),
            sizes: Section::numbered("sizes", &names::SIZES),
            outer_sizes: Section::numbered("outer sizes", &names::SIZES),
            index_sizes: Section::numbered("index sizes", &names::SIZES),
            scales: Section::of_words("scales", &SCALES),
            indirections: Section::of_words("indirections of form 12", &names::INDIRECTIONS),
            bases: Section::of_words("bases of forms 5 to 12", &BASES),
            unary: Section::of_words("unary operators", &names::UNARY).never_if(limit == 1, 0..2),
            binary: Section::of_words("binary operators", &names::BINARY),
            number_bases: Section::of_words("bases of numbers", &names::BASES),
            quotes: Section::of_words("quotes of literals", &names::QUOTES),
            others: Section::of_words("other parts", &OTHERS),
        }
    }

    /// Counts the parts of a reading's records.
    pub fn count(&mut self, records: &Records) {
        if let Some(operand) = &records.operand {
            self.count_operand(operand);
        }
        for node in &records.nodes {
            self.count_node(node);
        }
        for record in &records.diagnostics {
            let (kind, sign) = (record.kind, record.problem);
            self.others.hit_if(kind == 9 && sign == b'-', 3);
            self.others.hit_if(kind == 9 && sign == b'/', 4);
            self.others.hit_if(kind == 13 && record.text[1] == 0, 5);
            self.others.hit_if(record.has_related == 1, 6);
        }
    }

    fn count_operand(&mut self, operand: &OperandRecord) {
        let form = operand.form;
        for (section, size) in [
            (&mut self.sizes, operand.size),
            (&mut self.outer_sizes, operand.outer_size),
            (&mut self.index_sizes, operand.index_size),
        ] {
            section.hit_if(size > 0, size.saturating_sub(1) as usize);
        }
        let scale = operand.index_scale;
        self.scales.hit_if(scale > 0, scale.max(1).ilog2() as usize);
        if (5..=12).contains(&form) {
            self.bases.hit(base_row(operand.base));
        }
        if form == 12 {
            self.indirections.hit(operand.indirection as usize);
        }
        let last = operand.special_or_long;
        let special = last.saturating_sub(1) as usize;
        self.special.hit_if(form == 4, special);
        self.others.hit_if(form == 1 && last == 1, 0);
        self.others.hit_if(operand.index_suppressed == 1, 1);
        let both = operand.node.is_some() && operand.outer_node.is_some();
        self.others.hit_if(both, 2);
    }

    fn count_node(&mut self, node: &NodeRecord) {
        let detail = node.detail as usize;
        match node.kind {
            1 => self.number_bases.hit(detail),
            2 => self.quotes.hit(detail),
            5 => self.unary.hit(detail),
            6 => self.binary.hit(detail),
            _ => {}
        }
    }

    /// The sections, in the order of the table.
    pub fn sections(&self) -> [&Section; 12] {
        [
            &self.special,
            &self.sizes,
            &self.outer_sizes,
            &self.index_sizes,
            &self.scales,
            &self.indirections,
            &self.bases,
            &self.unary,
            &self.binary,
            &self.number_bases,
            &self.quotes,
            &self.others,
        ]
    }
}

fn base_row(base: u8) -> usize {
    match base {
        0..=15 => 0,
        PC => 1,
        SUPPRESSED_PC => 3,
        0x18..=0x1f => 2,
        _ => 4,
    }
}
