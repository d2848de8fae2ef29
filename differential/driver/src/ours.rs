//! The proved load calls, through their C interface: include/buncoyew.h.
use crate::answer::{Answer, Function, Lent, Room, Summary};
use crate::case::{Case, Form, Refusal};

#[repr(C)]
#[derive(Clone, Copy, Debug, Default, PartialEq, Eq)]
pub struct LoadAnswer {
    pub number: u32,
    section: u32,
    symbol: u32,
    order: u32,
    entry: u64,
    versioned: u32,
    version: u32,
    license: u64,
    sections: u64,
    programs: u64,
    functions: u64,
    maps: u64,
    relocations: u64,
    bytes: u64,
}

/// What is read: the input, the patch list and whether to rewrite.
#[derive(Clone, Copy)]
pub struct Read<'a> {
    pub form: Form,
    pub input: &'a [u8],
    pub entries: &'a [u64],
    pub patches: &'a [u8],
    pub rewrite: bool,
}

/// What is lent to be written.
pub struct Written<'a> {
    pub sections: &'a mut [u64],
    pub programs: &'a mut [u64],
    pub functions: &'a mut [Function],
    pub maps: &'a mut [u64],
    pub relocations: &'a mut [u64],
    pub bytes: &'a mut [u8],
    pub answer: &'a mut LoadAnswer,
}

type Load = unsafe extern "C" fn(
    input: *const u8,
    input_length: usize,
    entries: *const u64,
    entries_length: usize,
    patches: *const u8,
    patches_length: usize,
    rewrite: bool,
    sections: *mut u64,
    sections_length: usize,
    programs: *mut u64,
    programs_length: usize,
    functions: *mut Function,
    functions_length: usize,
    maps: *mut u64,
    maps_length: usize,
    relocations: *mut u64,
    relocations_length: usize,
    bytes: *mut u8,
    bytes_length: usize,
    answer: *mut LoadAnswer,
);

macro_rules! declare {
    ($($load:ident)*) => {
        unsafe extern "C" {
            $(fn $load(
                input: *const u8,
                input_length: usize,
                entries: *const u64,
                entries_length: usize,
                patches: *const u8,
                patches_length: usize,
                rewrite: bool,
                sections: *mut u64,
                sections_length: usize,
                programs: *mut u64,
                programs_length: usize,
                functions: *mut Function,
                functions_length: usize,
                maps: *mut u64,
                maps_length: usize,
                relocations: *mut u64,
                relocations_length: usize,
                bytes: *mut u8,
                bytes_length: usize,
                answer: *mut LoadAnswer,
            );)*
        }
    };
}

declare!(buncoyew_load buncoyew_load_elf);

unsafe extern "C" {
    fn buncoyew_find(
        functions: *const Function,
        functions_length: usize,
        count: usize,
        section: u32,
        address: u64,
    ) -> u64;
}

/// Loads into tables and bytes of these lengths that hold `fill` before the call.
pub fn load(case: &Case, room: &Room, fill: u8) -> (Answer, Lent) {
    let mut lent = filled(room, fill);
    (load_into(case, &mut lent), lent)
}

pub fn load_into(case: &Case, lent: &mut Lent) -> Answer {
    let mut answer = LoadAnswer::default();
    let written = Written {
        sections: &mut lent.sections,
        programs: &mut lent.programs,
        functions: &mut lent.functions,
        maps: &mut lent.maps,
        relocations: &mut lent.relocations,
        bytes: &mut lent.bytes,
        answer: &mut answer,
    };
    call(Read::of(case), written);
    answer.told()
}

pub fn call(read: Read, written: Written) {
    let load: Load = match read.form {
        Form::Deposit => buncoyew_load,
        Form::File => buncoyew_load_elf,
    };
    // Each slice goes as its pointer and its length; no two of those that are written overlap.
    unsafe {
        load(
            read.input.as_ptr(),
            read.input.len(),
            read.entries.as_ptr(),
            read.entries.len(),
            read.patches.as_ptr(),
            read.patches.len(),
            read.rewrite,
            written.sections.as_mut_ptr(),
            written.sections.len(),
            written.programs.as_mut_ptr(),
            written.programs.len(),
            written.functions.as_mut_ptr(),
            written.functions.len(),
            written.maps.as_mut_ptr(),
            written.maps.len(),
            written.relocations.as_mut_ptr(),
            written.relocations.len(),
            written.bytes.as_mut_ptr(),
            written.bytes.len(),
            written.answer,
        );
    }
}

impl<'a> Read<'a> {
    pub fn of(case: &'a Case) -> Read<'a> {
        Read {
            form: case.form,
            input: &case.input,
            entries: &case.entries,
            patches: &case.patches,
            rewrite: case.rewrite,
        }
    }
}

/// The row of the function at an address of a section, among the first `count`.
pub fn find(functions: &[Function], count: usize, section: u32, address: u64) -> Option<u64> {
    match unsafe { buncoyew_find(functions.as_ptr(), functions.len(), count, section, address) } {
        u64::MAX => None,
        row => Some(row),
    }
}

pub fn filled(room: &Room, fill: u8) -> Lent {
    let number = u64::from_le_bytes([fill; 8]);
    let row = Function {
        section: number as u32,
        address: number,
        offset: number,
        name_at: number,
        name_length: number,
        code_at: number,
        code_length: number,
    };
    Lent {
        sections: vec![number; room.sections],
        programs: vec![number; room.programs],
        functions: vec![row; room.functions],
        maps: vec![number; room.maps],
        relocations: vec![number; room.relocations],
        bytes: vec![fill; room.bytes],
    }
}

impl LoadAnswer {
    fn told(&self) -> Answer {
        if self.number != 0 {
            return Answer::Refused(Refusal {
                number: self.number,
                section: self.section,
                symbol: self.symbol,
                entry: self.entry,
            });
        }
        Answer::Accepted(Summary {
            order: u64::from(self.order),
            version: (self.versioned == 1).then_some(self.version),
            license: self.license,
            sections: self.sections,
            programs: self.programs,
            functions: self.functions,
            maps: self.maps,
            relocations: self.relocations,
            bytes: self.bytes,
        })
    }
}
