//! The proved writer, linked from the static library: a slice goes over as a pointer and a length.
use crate::writer::Plan;

type Write = unsafe extern "C" fn(
    s: u32, m: u32, uuid: *const [u8; 16], time: u64, format: u16, flags: u16,
    content: *const u8, content_len: usize, name: *const u8, name_len: usize, priority: *const u32, priority_len: usize,
    fields: *const u8, fields_len: usize, out: *mut u8, out_len: usize,
) -> u64;

macro_rules! linked {
    ($name:ident) => {{
        extern "C" {
            fn $name(
                s: u32, m: u32, uuid: *const [u8; 16], time: u64, format: u16, flags: u16,
                content: *const u8, content_len: usize, name: *const u8, name_len: usize, priority: *const u32, priority_len: usize,
                fields: *const u8, fields_len: usize, out: *mut u8, out_len: usize,
            ) -> u64;
        }
        $name as Write
    }};
}

fn by(write: Write, plan: &Plan, out: &mut [u8]) -> u64 {
    unsafe {
        write(
            plan.s, plan.m, &plan.uuid, plan.time, plan.format, plan.flags,
            plan.content.as_ptr(), plan.content.len(), plan.name.as_ptr(), plan.name.len(),
            plan.priorities.as_ptr(), plan.priorities.len(), plan.fields.as_ptr(), plan.fields.len(),
            out.as_mut_ptr(), out.len(),
        )
    }
}

/// The file's length, or 60 or 61 for a refusal.
pub fn write(plan: &Plan, out: &mut [u8]) -> u64 {
    by(linked!(sfc_write), plan, out)
}

/// The same call of the revision that is compared with.
#[cfg(before)]
pub fn write_before(plan: &Plan, out: &mut [u8]) -> u64 {
    by(linked!(before_sfc_write), plan, out)
}
