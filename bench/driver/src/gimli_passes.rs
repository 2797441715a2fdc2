//! The same passes by gimli, as its documentation writes them.
use crate::case::{COMPILE, COMPILED, Case};
use crate::sums::{Done, REFUSED, cfa_sum, row_sum, rules_sum};
use gimli::{
    BaseAddresses, BigEndian, CieOrFde, EhFrame, EhFrameHdr, EhHdrTable, EndianSlice, Endianity,
    FrameDescriptionEntry, LittleEndian, StoreOnHeap, UnwindContext, UnwindSection, UnwindTableRow,
};

use std::hint::black_box;

type Frame<'a, E> = EhFrame<EndianSlice<'a, E>>;
type Table<'a, 'h, E> = EhHdrTable<'h, EndianSlice<'a, E>>;
type Context = UnwindContext<usize, StoreOnHeap>;
type Row = UnwindTableRow<usize, StoreOnHeap>;

pub fn pass(case: &Case, measure: usize) -> Done {
    if case.big { pass_in(BigEndian, case, measure) } else { pass_in(LittleEndian, case, measure) }
}

fn pass_in<E: Endianity>(endian: E, case: &Case, measure: usize) -> Done {
    let bases = BaseAddresses::default().set_eh_frame(case.base).set_eh_frame_hdr(case.header_base);
    let mut frame = EhFrame::from(EndianSlice::new(&case.section, endian));
    frame.set_address_size(8);
    let addresses = case.addresses(measure);
    match measure {
        0 => entries(&frame, &bases),
        1 => fdes(&frame, &bases),
        2 => walk(&frame, &bases),
        3 => scans(&frame, &bases, addresses),
        7 => walk_rules(&frame, &bases),
        COMPILE => {
            black_box(fdes(&frame, &bases));
            walk(&frame, &bases)
        }
        _ => {
            let header = EhFrameHdr::from(EndianSlice::new(&case.header, endian));
            let parsed = header.parse(&bases, 8).expect("gimli parses the header");
            let table = parsed.table().expect("the header has a table");
            match measure {
                4 => lookups(&table, &bases, addresses),
                5 => rows_by_table(&table, &frame, &bases, addresses, row_sum),
                COMPILED => rows_by_table(&table, &frame, &bases, addresses, |row| cfa_sum(row.cfa())),
                _ => table_rows(&table, &bases),
            }
        }
    }
}

#[inline(never)]
fn entries<E: Endianity>(frame: &Frame<E>, bases: &BaseAddresses) -> Done {
    let mut done = Done::default();
    let mut entries = frame.entries(bases);
    while let Some(entry) = entries.next().expect("gimli reads each entry") {
        match entry {
            CieOrFde::Cie(cie) => done.take(cie.offset() as u64),
            CieOrFde::Fde(partial) => done.take(partial.offset() as u64),
        }
    }
    done
}

#[inline(always)]
fn for_each_fde<'a, E: Endianity>(
    frame: &Frame<'a, E>,
    bases: &BaseAddresses,
    mut each: impl FnMut(&FrameDescriptionEntry<EndianSlice<'a, E>>),
) {
    let mut entries = frame.entries(bases);
    while let Some(entry) = entries.next().expect("gimli reads each entry") {
        if let CieOrFde::Fde(partial) = entry {
            each(&partial.parse(EhFrame::cie_from_offset).expect("gimli reads each FDE"));
        }
    }
}

#[inline(never)]
fn fdes<E: Endianity>(frame: &Frame<E>, bases: &BaseAddresses) -> Done {
    let mut done = Done::default();
    for_each_fde(frame, bases, |fde| done.take(fde.initial_address() ^ fde.len()));
    done
}

#[inline(never)]
fn walk<E: Endianity>(frame: &Frame<E>, bases: &BaseAddresses) -> Done {
    rows(frame, bases, row_sum)
}

#[inline(never)]
fn walk_rules<E: Endianity>(frame: &Frame<E>, bases: &BaseAddresses) -> Done {
    rows(frame, bases, rules_sum)
}

#[inline(always)]
fn rows<E: Endianity>(frame: &Frame<E>, bases: &BaseAddresses, sum: impl Fn(&Row) -> u64) -> Done {
    let mut context: Context = UnwindContext::new_in();
    let mut done = Done::default();
    for_each_fde(frame, bases, |fde| {
        let Ok(mut table) = fde.rows(frame, bases, &mut context) else { return };
        loop {
            match table.next_row() {
                Ok(None) => break,
                Ok(Some(row)) => done.take(sum(row)),
                Err(_) => done.take(REFUSED),
            }
        }
    });
    done
}

#[inline(never)]
fn scans<E: Endianity>(frame: &Frame<E>, bases: &BaseAddresses, addresses: &[u64]) -> Done {
    let mut context: Context = UnwindContext::new_in();
    let mut done = Done::default();
    for &address in addresses {
        match frame.unwind_info_for_address(bases, &mut context, address, EhFrame::cie_from_offset) {
            Ok(row) => done.take(row_sum(row)),
            Err(_) => done.take(!address),
        }
    }
    done
}

#[inline(never)]
fn lookups<E: Endianity>(table: &Table<E>, bases: &BaseAddresses, addresses: &[u64]) -> Done {
    let mut done = Done::default();
    for &address in addresses {
        match table.lookup(address, bases) {
            Ok(pointer) => done.take(pointer.pointer()),
            Err(_) => done.take(!address),
        }
    }
    done
}

#[inline(never)]
fn rows_by_table<'a, E: Endianity>(
    table: &Table<'a, '_, E>,
    frame: &Frame<'a, E>,
    bases: &BaseAddresses,
    addresses: &[u64],
    sum: impl Fn(&Row) -> u64,
) -> Done {
    let mut context: Context = UnwindContext::new_in();
    let mut done = Done::default();
    for &address in addresses {
        match table.unwind_info_for_address(frame, bases, &mut context, address, EhFrame::cie_from_offset) {
            Ok(row) => done.take(sum(row)),
            Err(_) => done.take(!address),
        }
    }
    done
}

#[inline(never)]
fn table_rows<E: Endianity>(table: &Table<E>, bases: &BaseAddresses) -> Done {
    let mut done = Done::default();
    let mut rows = table.iter(bases);
    while let Some((start, target)) = rows.next().expect("gimli reads each row of the table") {
        done.take(start.pointer() ^ target.pointer());
    }
    done
}
