//! An operand as its record.

use super::nodes::Nodes;
use super::{pair, OperandRecord, ABSENT, PC, SUPPRESSED_BASE, SUPPRESSED_PC};
use s68k::assembler::ast::{
    BaseRegister, IndexRegister, Indirection, Operand, Register, RegisterListItem, SizeSuffix,
    SizedDisplacement, SpecialRegister,
};
use s68k::assembler::source::Span;

/// A size: 0 none, 1 to 4 in the order of `SizeSuffix`.
fn size_number(size: Option<SizeSuffix>) -> u8 {
    match size {
        None => 0,
        Some(SizeSuffix::Byte) => 1,
        Some(SizeSuffix::Word) => 2,
        Some(SizeSuffix::Long) => 3,
        Some(SizeSuffix::Short) => 4,
    }
}

/// A special register's number, 1 to 10 in the order of `SpecialRegister`.
fn special_number(register: SpecialRegister) -> u8 {
    match register {
        SpecialRegister::Sr => 1,
        SpecialRegister::Ccr => 2,
        SpecialRegister::Usp => 3,
        SpecialRegister::Sfc => 4,
        SpecialRegister::Dfc => 5,
        SpecialRegister::Vbr => 6,
        SpecialRegister::Cacr => 7,
        SpecialRegister::Caar => 8,
        SpecialRegister::Msp => 9,
        SpecialRegister::Isp => 10,
    }
}

impl OperandRecord {
    /// A record with a form and a span; nodes and registers absent, all else 0.
    fn new(form: u8, span: Span) -> Self {
        OperandRecord {
            form,
            span: pair(span),
            node: None,
            size: 0,
            base: ABSENT,
            base_span: [0; 2],
            index: ABSENT,
            index_register_span: [0; 2],
            index_size: 0,
            index_scale: 0,
            index_suppressed: 0,
            index_span: [0; 2],
            indirection: 0,
            outer_node: None,
            outer_size: 0,
            special_or_long: 0,
        }
    }

    fn with_node(self, node: usize) -> Self {
        let node = Some(node);
        OperandRecord { node, ..self }
    }

    fn with_special_or_long(self, special_or_long: u8) -> Self {
        OperandRecord {
            special_or_long,
            ..self
        }
    }

    fn with_register(self, register: &Register) -> Self {
        OperandRecord {
            base: register.mask_index(),
            base_span: pair(register.span),
            ..self
        }
    }

    fn with_bare_base(self, base: u8) -> Self {
        OperandRecord { base, ..self }
    }

    /// The base of a full index. Only a written address register has a span.
    fn with_base(self, base: &BaseRegister) -> Self {
        match base {
            BaseRegister::Address { register } => self.with_register(register),
            BaseRegister::ProgramCounter => self.with_bare_base(PC),
            BaseRegister::SuppressedAddress { number } => {
                self.with_bare_base(SUPPRESSED_BASE + number)
            }
            BaseRegister::SuppressedProgramCounter => self.with_bare_base(SUPPRESSED_PC),
            BaseRegister::Omitted => self,
        }
    }

    fn with_index(self, index: &IndexRegister) -> Self {
        OperandRecord {
            index: index.register.mask_index(),
            index_register_span: pair(index.register.span),
            index_size: size_number(index.size),
            index_scale: index.scale.unwrap_or(0),
            index_suppressed: u8::from(index.suppressed),
            index_span: pair(index.span),
            ..self
        }
    }
}

/// The record of an operand, whose trees are added to `nodes`.
pub fn operand_record(operand: &Operand, nodes: &mut Nodes) -> OperandRecord {
    let new = |form| OperandRecord::new(form, operand.span());
    match operand {
        Operand::Immediate { value, long, .. } => new(1)
            .with_node(nodes.add_tree(value))
            .with_special_or_long(u8::from(*long)),
        Operand::DataRegisterDirect { register, .. } => new(2).with_register(register),
        Operand::AddressRegisterDirect { register, .. } => new(3).with_register(register),
        Operand::SpecialRegister { register, .. } => {
            new(4).with_special_or_long(special_number(*register))
        }
        Operand::Indirect { register, .. } => new(5).with_register(register),
        Operand::Postincrement { register, .. } => new(6).with_register(register),
        Operand::Predecrement { register, .. } => new(7).with_register(register),
        Operand::Absolute { value, size, .. } => OperandRecord {
            size: size_number(*size),
            ..new(13).with_node(nodes.add_tree(value))
        },
        Operand::RegisterList { items, .. } => new(14).with_node(add_items(items, nodes)),
        displaced => displaced_record(displaced, nodes),
    }
}

/// The record of a form with a base and a displacement, 8 to 12.
fn displaced_record(operand: &Operand, nodes: &mut Nodes) -> OperandRecord {
    let new = |form, node| OperandRecord {
        node,
        ..OperandRecord::new(form, operand.span())
    };
    match operand {
        Operand::Displacement {
            displacement, base, ..
        } => new(8, Some(nodes.add_tree(displacement))).with_register(base),
        Operand::Index {
            displacement,
            base,
            index,
            ..
        } => new(9, nodes.add_optional_tree(displacement.as_ref()))
            .with_register(base)
            .with_index(index),
        Operand::PcDisplacement { displacement, .. } => {
            new(10, Some(nodes.add_tree(displacement))).with_bare_base(PC)
        }
        Operand::PcIndex {
            displacement,
            index,
            ..
        } => new(11, nodes.add_optional_tree(displacement.as_ref()))
            .with_bare_base(PC)
            .with_index(index),
        full => full_index_record(full, nodes),
    }
}

/// The record of form 12. Its base displacement's tree is finished before the outer one's.
fn full_index_record(operand: &Operand, nodes: &mut Nodes) -> OperandRecord {
    let Operand::FullIndex {
        base_displacement,
        base,
        index,
        indirection,
        outer_displacement,
        span,
    } = operand
    else {
        panic!("`parse_operand` gives forms 1 to 14 only");
    };
    let (node, size) = add_displacement(base_displacement.as_ref(), nodes);
    let (outer_node, outer_size) = add_displacement(outer_displacement.as_ref(), nodes);
    let record = OperandRecord {
        node,
        size,
        indirection: indirection_number(*indirection),
        outer_node,
        outer_size,
        ..OperandRecord::new(12, *span).with_base(base)
    };
    match index {
        Some(index) => record.with_index(index),
        None => record,
    }
}

/// The node and the size of a displacement that may be absent.
fn add_displacement(
    displacement: Option<&SizedDisplacement>,
    nodes: &mut Nodes,
) -> (Option<usize>, u8) {
    match displacement {
        Some(written) => (
            Some(nodes.add_tree(&written.value)),
            size_number(written.size),
        ),
        None => (None, 0),
    }
}

/// Adds a list's items in order and gives the first one's number.
fn add_items(items: &[RegisterListItem], nodes: &mut Nodes) -> usize {
    let numbers: Vec<usize> = items.iter().map(|item| nodes.add_item(item)).collect();
    *numbers.first().expect("a register list has an item")
}

/// An indirection's number, from 0 in the order of `Indirection`.
fn indirection_number(indirection: Indirection) -> u8 {
    match indirection {
        Indirection::None => 0,
        Indirection::Preindexed => 1,
        Indirection::Postindexed => 2,
    }
}
