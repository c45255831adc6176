//! One description under judgement: its values, images and expected answers.

use crate::significant::{random_value, significant};
use crate::source::spaced_offsets;
use independent::classes::classes_of;
use independent::description::{form, Model, BASIC, UNION, VOID};
use independent::moving::{placing, register_start, Image, Spot, REGISTER_IMAGE, UPPER_IMAGE};
use independent::places::{accepted, is_wide, Accepted, Place, ReturnPlace, ReturnRegister};
use independent::random::Random;
use independent::returning::{putting, return_spots, RETURN_IMAGE, RETURN_UPPER};
use independent::types::{basic_measure, code, Types};
use independent::walk::{offsets_after, Offsets};
use std::ops::Range;

/// Where the harness keeps room for a value returned in memory.
fn hidden_address(model: Model) -> u64 {
    match model {
        Model::Lp64 => 0x2000_0000_0000,
        Model::Ilp32 => 0xE000_0000,
    }
}

/// Functions of one kind are compiled together: of one model, and with or without
/// vectors of 32 bytes, which need more of a machine.
#[derive(Clone, Copy, Debug, PartialEq, Eq)]
pub struct Kind {
    pub model: Model,
    pub wide: bool,
}

pub const KINDS: [Kind; 4] = [
    Kind { model: Model::Lp64, wide: false },
    Kind { model: Model::Lp64, wide: true },
    Kind { model: Model::Ilp32, wide: false },
    Kind { model: Model::Ilp32, wide: true },
];

/// Of an accepted description.
pub fn kind_of(description: &[u8]) -> Kind {
    let form = form(description).expect("subjects are accepted");
    let mut records = (0..form.types() as u8).map(|number| form.record(number));
    let wide = records.any(|record| record.kind == BASIC && record.a == code::M256);
    Kind { model: form.model(), wide }
}

/// Whether gcc keeps to the papers for a description. Its caller puts an unnamed
/// union of the four classes of __m256, or a struct with one in it, into a register,
/// and its va_arg of one ends with an internal error. 000: "When __m256 or __m512 is
/// passed as variable-argument, it should always be passed on stack"; 02: "an unnamed
/// one, structures included, is always on the stack".
pub fn is_within_gcc(description: &[u8]) -> bool {
    let accepted = accepted(description).expect("subjects are accepted");
    let form = accepted.types.description();
    (form.named()..form.arguments()).all(|position| {
        let number = form.argument(position);
        !is_wide(classes_of(&accepted.types, number)) || !has_union(&accepted.types, number)
    })
}

fn has_union(types: &Types, type_number: u8) -> bool {
    types.record(type_number).kind == UNION
        || types.parts(type_number).iter().any(|part| has_union(types, part.type_number))
}

pub struct Subject<'a> {
    pub description: &'a [u8],
    pub accepted: Accepted<'a>,
    /// Packed, as placing takes them.
    pub values: Vec<u8>,
    /// 1 for each packed byte that is compared.
    pub value_mask: Vec<u8>,
    pub returned: Vec<u8>,
    pub return_mask: Vec<u8>,
    /// As placing leaves them.
    pub registers: Vec<u8>,
    pub upper: Vec<u8>,
    pub stack: Vec<u8>,
    /// 1 for each image byte that is compared.
    pub register_mask: Vec<u8>,
    pub upper_mask: Vec<u8>,
    pub stack_mask: Vec<u8>,
    /// What the callee is given: unused bytes may hold anything.
    pub entered_registers: Vec<u8>,
    pub entered_upper: Vec<u8>,
    pub entered_stack: Vec<u8>,
}

impl<'a> Subject<'a> {
    pub fn new(random: &mut Random, description: &'a [u8]) -> Subject<'a> {
        let accepted = accepted(description).expect("subjects are accepted");
        let mut values = Vec::new();
        let mut value_mask = Vec::new();
        for placement in &accepted.layout.placements {
            values.extend(random_value(random, &accepted.types, placement.type_number));
            value_mask.extend(significant(&accepted.types, placement.type_number));
        }
        let (returned, return_mask) = returned_value(random, &accepted);
        let area = accepted.layout.area.0;
        let address = hidden_address(accepted.types.description().model());
        let [registers, upper, stack] = placed(description, address, &values, area);
        // The masks are placed like values: 0 and 1 are good _Bool bytes.
        let [mut register_mask, upper_mask, stack_mask] = placed(description, 0, &value_mask, area);
        let [mut all_registers, all_upper, all_stack] =
            placed(description, 0, &vec![1; values.len()], area);
        if accepted.layout.hidden_address {
            all_registers[..8].fill(1);
        }
        for half in upper_halves(&accepted) {
            register_mask[half.clone()].fill(1);
            all_registers[half].fill(1);
        }
        let entered_registers = with_rubbish(random, &registers, &all_registers);
        let entered_upper = with_rubbish(random, &upper, &all_upper);
        let entered_stack = with_rubbish(random, &stack, &all_stack);
        Subject {
            description,
            accepted,
            values,
            value_mask,
            returned,
            return_mask,
            registers,
            upper,
            stack,
            register_mask,
            upper_mask,
            stack_mask,
            entered_registers,
            entered_upper,
            entered_stack,
        }
    }

    /// A function of unnamed arguments only is called without a prototype, and then gcc
    /// takes all of them for named ones: "When passing __m256 or __m512 arguments to
    /// functions that use varargs or stdarg, function prototypes must be provided" (000).
    pub fn caller_is_judged(&self) -> bool {
        let types = &self.accepted.types;
        let wide = |number: u8| is_wide(classes_of(types, number));
        let mut arguments = self.accepted.layout.placements.iter();
        !self.walks_by_hand() || !arguments.any(|placement| wide(placement.type_number))
    }

    /// C cannot define a function of unnamed arguments only, so its walk begins
    /// from a list made by hand.
    pub fn walks_by_hand(&self) -> bool {
        let description = self.accepted.types.description();
        description.is_variadic() && description.named() == 0
    }

    /// Of each type: size, alignment and its members' offsets.
    pub fn measures(&self) -> Vec<Vec<u32>> {
        let types = &self.accepted.types;
        let each = (0..types.description().types() as u8).map(|number| {
            let measure = types.measure(number);
            let mut all = vec![measure.size, measure.alignment];
            all.extend(types.member_offsets(number));
            all.iter().map(|bytes| bytes.0 as u32).collect()
        });
        each.collect()
    }

    /// The offsets at the start of the walk.
    pub fn start(&self) -> Offsets {
        let named = self.accepted.types.description().named();
        offsets_after(self.accepted.layout.taken[named])
    }

    /// The packed values, or anything packed like them, each argument at a
    /// multiple of 32.
    pub fn spaced(&self, packed: &[u8]) -> Vec<u8> {
        let sizes: Vec<usize> =
            self.accepted.layout.placements.iter().map(|placement| placement.size.0).collect();
        let (offsets, length) = spaced_offsets(&sizes);
        let mut spaced = vec![0; length];
        let mut start = 0;
        for (size, offset) in sizes.iter().zip(offsets) {
            spaced[offset..offset + size].copy_from_slice(&packed[start..start + size]);
            start += size;
        }
        spaced
    }

    /// How the probe gives the value back: 0 in registers, 1 in memory, 2 and 3
    /// on the x87 stack.
    pub fn return_kind(&self) -> u32 {
        match &self.accepted.layout.return_place {
            ReturnPlace::Memory(_) => 1,
            ReturnPlace::Registers(_, registers) if registers[0] == ReturnRegister::St0 => {
                1 + registers.len() as u32
            }
            _ => 0,
        }
    }

    /// Where the harness has gcc's function lay a value that it returns in memory.
    pub fn hidden_address(&self) -> u64 {
        hidden_address(self.accepted.types.description().model())
    }

    /// What the probe leaves: the value in its return places, and no zero where
    /// nothing is put. The second image stands behind the first, here and below.
    pub fn return_images(&self) -> Vec<u8> {
        let used = self.return_images_mask(&vec![1; self.returned.len()]);
        let pairs = self.put().into_iter().zip(used);
        pairs.map(|(byte, used)| if used == 0 { 0x77 } else { byte }).collect()
    }

    /// The return images that putting makes of the returned value; one in memory
    /// has no bytes there.
    pub fn put(&self) -> Vec<u8> {
        let mut both = vec![0xDD; RETURN_IMAGE + RETURN_UPPER];
        let (image, upper) = both.split_at_mut(RETURN_IMAGE);
        let value = self.returned_part(&self.returned);
        putting(self.description, self.hidden_address(), value, image, upper)
            .expect("right lengths and values");
        both
    }

    /// Which bytes of the return images are compared, or used, by which of the
    /// value's are. An address is, to its upper half.
    pub fn return_images_mask(&self, value_mask: &[u8]) -> Vec<u8> {
        let mut mask = vec![0; RETURN_IMAGE + RETURN_UPPER];
        for (kept, spot) in value_mask.iter().zip(return_spots(&self.accepted)) {
            match spot {
                Some(Spot { image: Image::Upper, offset }) => mask[RETURN_IMAGE + offset.0] = *kept,
                Some(Spot { offset, .. }) => mask[offset.0] = *kept,
                None => {}
            }
        }
        let returned = self.accepted.types.description().return_number();
        let is_pointer = returned != VOID && self.accepted.types.is_basic(returned, code::POINTER);
        if is_pointer || self.accepted.layout.hidden_address {
            mask[..8].fill(1);
        }
        mask
    }

    /// What of a returned value, or of anything as long, is put and taken.
    pub fn returned_part<'b>(&self, value: &'b [u8]) -> &'b [u8] {
        match self.accepted.layout.return_place {
            ReturnPlace::Registers(..) => value,
            ReturnPlace::Void | ReturnPlace::Memory(_) => &[],
        }
    }
}

/// The upper halves of pointers in registers, the hidden address among them: "When
/// a value of pointer type is returned or passed in a register, bits 32 to 63 shall
/// be zero" (000, section 10.1). Under LP64 they are part of the value, and there
/// is none.
fn upper_halves(accepted: &Accepted) -> Vec<Range<usize>> {
    let pointer = basic_measure(accepted.types.description().model(), code::POINTER).size.0;
    let mut starts = Vec::new();
    if accepted.layout.hidden_address {
        starts.push(0);
    }
    for placement in &accepted.layout.placements {
        if let Place::Registers(registers) = &placement.place {
            if accepted.types.is_basic(placement.type_number, code::POINTER) {
                starts.push(register_start(registers[0]).offset.0);
            }
        }
    }
    starts.into_iter().map(|start| start + pointer..start + 8).collect()
}

fn returned_value(random: &mut Random, accepted: &Accepted) -> (Vec<u8>, Vec<u8>) {
    match accepted.types.description().return_number() {
        VOID => (Vec::new(), Vec::new()),
        number => {
            (random_value(random, &accepted.types, number), significant(&accepted.types, number))
        }
    }
}

fn placed(description: &[u8], hidden: u64, values: &[u8], area: usize) -> [Vec<u8>; 3] {
    let mut images = [REGISTER_IMAGE, UPPER_IMAGE, area].map(|length| vec![0xDD; length]);
    let [registers, upper, stack] = &mut images;
    placing(description, hidden, values, registers, upper, stack)
        .expect("right lengths and values");
    images
}

/// Every second time, random bytes where no value byte lies: a callee must not
/// look there.
fn with_rubbish(random: &mut Random, image: &[u8], used: &[u8]) -> Vec<u8> {
    if random.one_in(2) {
        return image.to_vec();
    }
    let pairs = image.iter().zip(used);
    pairs.map(|(&byte, &used)| if used == 0 { random.byte() } else { byte }).collect()
}
