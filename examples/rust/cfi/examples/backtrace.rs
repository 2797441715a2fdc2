//! Unwinds its own stack, and prints the address of each frame with the module that it is in: on x86-64 Linux.
//!
//! The loaded modules are those of `/proc/self/maps` and their `PT_GNU_EH_FRAME`; the stack is copied before it is
//! walked.
#[cfg(not(all(target_arch = "x86_64", target_os = "linux")))]
fn main() {
    println!("the registers of x86-64 alone are known here");
}

#[cfg(all(target_arch = "x86_64", target_os = "linux"))]
fn main() -> Result<(), Box<dyn std::error::Error>> {
    linux::outer()
}

#[cfg(all(target_arch = "x86_64", target_os = "linux"))]
mod linux {
    use std::arch::asm;
    use std::collections::BTreeMap;
    use std::hint::black_box;
    use std::ops::Range;

    use cfi::{Context, End, Frame, Module, Registers, Section, Stack};

    /// What is mapped of a file: its name, and its parts by their addresses.
    type Mapped = BTreeMap<String, Vec<Range<u64>>>;

    /// What is mapped, also without a name, as stacks may be.
    fn mapped() -> std::io::Result<Mapped> {
        let mut mapped = Mapped::new();
        for line in std::fs::read_to_string("/proc/self/maps")?.lines() {
            let mut words = line.split_whitespace();
            let range = words.next().and_then(|range| range.split_once('-'));
            let (Some((start, end)), Some(rights)) = (range, words.next()) else {
                continue;
            };
            let name = words.nth(3).unwrap_or_default();
            if rights.starts_with('r') {
                let bound = |text| u64::from_str_radix(text, 16).unwrap_or(0);
                mapped
                    .entry(name.to_string())
                    .or_default()
                    .push(bound(start)..bound(end));
            }
        }
        Ok(mapped)
    }

    /// The bytes from an address up to the end of the mapping that it is in.
    ///
    /// # Safety
    ///
    /// The mappings are there, and nothing writes to them, while the bytes are used.
    unsafe fn bytes<'m>(parts: &[Range<u64>], address: u64) -> Option<&'m [u8]> {
        let part = parts.iter().find(|part| part.contains(&address))?;
        // SAFETY: the mapping can be read up to its end.
        Some(unsafe { std::slice::from_raw_parts(address as *const u8, (part.end - address) as usize) })
    }

    fn number(bytes: &[u8], offset: usize, length: usize) -> Option<u64> {
        let bytes = bytes.get(offset..offset + length)?;
        Some(bytes.iter().rev().fold(0, |sum, byte| sum << 8 | u64::from(*byte)))
    }

    /// The module of a mapped file, by its program headers in memory.
    fn module<'m>(parts: &[Range<u64>]) -> Option<Module<'m>> {
        let base = parts.first()?.start;
        // SAFETY: the program and its libraries stay mapped, and their headers and .eh_frame are read-only.
        let read = |address| unsafe { bytes(parts, address) };
        let file = read(base)?;
        if !file.starts_with(b"\x7fELF") {
            return None;
        }
        // Addresses of a file that isn't position-independent are those of memory (e_type ET_EXEC).
        let bias = if number(file, 0x10, 2)? == 2 { 0 } else { base };
        let (table, size, count) = (number(file, 0x20, 8)?, number(file, 0x36, 2)?, number(file, 0x38, 2)?);
        let segments = (0..count).filter_map(|index| file.get((table + index * size) as usize..));
        let header = segments
            .into_iter()
            .find(|segment| number(segment, 0, 4) == Some(0x6474_e550))?;
        let (header_at, length) = (bias + number(header, 0x10, 8)?, number(header, 0x28, 8)?);
        let header = read(header_at)?.get(..length as usize)?;
        // Linkers write the pointer to .eh_frame as four bytes, relative to themselves (encoding 0x1b).
        if header[1] != 0x1b {
            return None;
        }
        let distance = number(header, 4, 4)? as u32 as i32;
        let section_at = (header_at + 4).wrapping_add_signed(distance.into());
        let section = Section::eh_frame(read(section_at)?, section_at).with_header(header, header_at);
        Some(Module::new(base..parts.last()?.end, section))
    }

    /// Walks the stack from here, and prints it.
    #[inline(never)]
    fn print_stack() -> Result<(), Box<dyn std::error::Error>> {
        // rbx, rbp, rsp, r12 to r15, and the address of this instruction
        let mut known = [0u64; 8];
        // SAFETY: only `known` is written, and the flags stay.
        unsafe {
            asm!(
                "mov [rax], rbx", "mov [rax + 8], rbp", "mov [rax + 16], rsp", "mov [rax + 24], r12",
                "mov [rax + 32], r13", "mov [rax + 40], r14", "mov [rax + 48], r15", "lea rcx, [rip]",
                "mov [rax + 56], rcx",
                in("rax") known.as_mut_ptr(), out("rcx") _, options(preserves_flags, nostack),
            );
        }
        let mapped = mapped()?;
        let base = known[2];
        // SAFETY: this is the stack of this thread, which nothing else writes; it is copied at once.
        let here = mapped.values().find_map(|parts| unsafe { bytes(parts, base) });
        let copied = here.ok_or("the stack is not mapped")?.to_vec();
        let files = mapped.iter().filter(|(name, _)| name.starts_with('/'));
        let modules: Vec<(&str, Module)> = files
            .filter_map(|(name, parts)| Some((name.as_str(), module(parts)?)))
            .collect();
        let mut registers = Registers::new();
        for (register, value) in [3, 6, 7, 12, 13, 14, 15].into_iter().zip(known) {
            registers.set(register, value);
        }
        let plain: Vec<Module> = modules.iter().map(|(_, module)| *module).collect();
        let mut frames = [Frame::default(); 64];
        let (frames, end) =
            Context::new()?.unwind(&plain, &Stack::new(base, &copied), known[7], &registers, &mut frames);
        for frame in frames {
            let name = modules
                .iter()
                .find(|(_, module)| module.code().contains(&frame.pc()))
                .map(|(name, _)| *name);
            println!("{:#18x} {}", frame.pc(), name.unwrap_or("?"));
        }
        println!("{} frames, {end:?}", frames.len());
        if end == End::Outermost && frames.len() > 4 {
            Ok(())
        } else {
            Err("the stack isn't whole".into())
        }
    }

    #[inline(never)]
    fn inner(depth: u32) -> Result<(), Box<dyn std::error::Error>> {
        if depth == 0 {
            return print_stack();
        }
        let result = inner(black_box(depth - 1));
        black_box(depth);
        result
    }

    pub fn outer() -> Result<(), Box<dyn std::error::Error>> {
        inner(black_box(3))
    }
}
