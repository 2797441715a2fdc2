//! Stacks, threads and errors, over the section of `eh_frame.hex`.
use cfi::{Context, End, Error, ErrorKind, Frame, Module, Registers, Section, Stack, Table};

fn bytes(hexadecimal: &str) -> Vec<u8> {
    let digits: Vec<u8> = hexadecimal
        .chars()
        .filter_map(|digit| digit.to_digit(16))
        .map(|digit| digit as u8)
        .collect();
    digits.chunks(2).map(|pair| pair[0] * 16 + pair[1]).collect()
}

/// `.eh_frame`, which lies at 0x2000, and its header, at 0x1f00.
fn sections() -> (Vec<u8>, Vec<u8>) {
    let mut lines = include_str!("../../eh_frame.hex").lines().map(bytes);
    (lines.next().unwrap(), lines.next().unwrap())
}

fn facts(frames: &[Frame]) -> Vec<(u64, Option<u64>, bool)> {
    frames
        .iter()
        .map(|frame| (frame.pc(), frame.cfa(), frame.is_interrupted()))
        .collect()
}

/// In each frame r6 has the address of the saved r6, above which is the return address, and the CFA is 16 above it.
#[test]
fn a_stack_of_two_frames() {
    let (eh_frame, header) = sections();
    let section = Section::eh_frame(&eh_frame, 0x2000).with_header(&header, 0x1f00);
    let words: [u64; 8] = [0, 0, 0x7030, 0x1008, 0, 0, 0, 0x5000];
    let copied: Vec<u8> = words.iter().flat_map(|word| word.to_le_bytes()).collect();
    let mut registers = Registers::new();
    registers.set(6, 0x7010).set(7, 0x7000).set(999, 1);
    // The numbers are those of x86-64.
    let stack = Stack {
        stack_pointer: 7,
        ..Stack::new(0x7000, &copied)
    };
    let modules = [Module::new(0x1000..0x2000, section)];
    let expected = [
        (0x1004, Some(0x7020), true),
        (0x1008, Some(0x7040), false),
        (0x5000, None, false),
    ];
    let mut context = Context::new().unwrap();
    for room in 0..5 {
        let mut frames = vec![Frame::default(); room];
        let (found, end) = context.unwind(&modules, &stack, 0x1004, &registers, &mut frames);
        assert_eq!(facts(found), expected[..room.min(3)]);
        assert_eq!(end, if room < 3 { End::NoRoom } else { End::NoModule });
    }
    // The same rows by `.debug_frame`.
    let debug_frame = bytes(include_str!("../../debug_frame.hex"));
    let others = [Module::new(0x1000..0x2000, Section::debug_frame(&debug_frame))];
    let mut frames = [Frame::default(); 3];
    let (found, end) = context.unwind(&others, &stack, 0x1004, &registers, &mut frames);
    assert_eq!((facts(found), end), (expected.to_vec(), End::NoModule));
    let short = Stack {
        bytes: &copied[..16],
        ..stack
    };
    let (_, end) = context.unwind(&modules, &short, 0x1004, &registers, &mut [Frame::default(); 3]);
    assert_eq!(end, End::UnreadableMemory(0x7018));
    let (_, end) = context.unwind(&modules, &stack, 0x1004, &Registers::new(), &mut [Frame::default(); 3]);
    assert!(matches!(end, End::UnknownRegister(_)));
    let none = Stack {
        address_size: 3,
        ..stack
    };
    let mut frames = [Frame::default(); 3];
    let (found, end) = context.unwind(&modules, &none, 0x1004, &registers, &mut frames);
    assert!(found.is_empty() && matches!(end, End::NotWalked(_)));
}

#[test]
fn a_table_goes_to_a_thread() {
    let (eh_frame, _) = sections();
    let mut table = Table::new(&Section::eh_frame(&eh_frame, 0x2000)).unwrap();
    drop(eh_frame);
    let row = std::thread::spawn(move || table.row::<17>(0x1002))
        .join()
        .unwrap()
        .unwrap();
    assert_eq!(
        row.to_string(),
        "0x0 0x0 cfa=r7+16 args=0 r6=offset(-16) r16=offset(-8)"
    );
    assert_eq!((row.rule(6).is_some(), row.rule(5), row.rule(17)), (true, None, None));
}

#[test]
fn errors_have_a_kind_and_what_they_carry() {
    let mut context = Context::new().unwrap();
    let error: Error = context.row::<17>(&Section::debug_frame(&[]), 7).unwrap_err();
    assert_eq!(
        (error.kind(), error.to_string()),
        (ErrorKind::NoUnwindInfoForAddress, error.kind().to_string())
    );
    let (eh_frame, header) = sections();
    let cut = Section::eh_frame(&eh_frame[..30], 0x2000);
    assert_eq!(
        context.row::<17>(&cut, 0x1002).unwrap_err().kind(),
        ErrorKind::UnexpectedEof
    );
    let error = context.row::<17>(&cut.with_address_size(3), 0x1002).unwrap_err();
    assert_eq!((error.kind(), error.carries()), (ErrorKind::UnsupportedAddressSize, 3));
    assert_eq!(
        Table::new(&cut.with_address_size(3)).unwrap_err().kind(),
        ErrorKind::UnsupportedAddressSize
    );
    let wrong = Section::eh_frame(&eh_frame, 0x2000).with_header(&header[..2], 0x1f00);
    assert!(context.row::<17>(&wrong, 0x1002).is_err());
    assert!(context.rows::<17>(&wrong, &[0x1002, 0]).iter().all(|row| row.is_err()));
}

#[test]
fn a_context_is_used_again() {
    let (eh_frame, header) = sections();
    let scan = Section::eh_frame(&eh_frame, 0x2000);
    let mut context = Context::new().unwrap();
    for address in 0xff0..0x1030 {
        let fresh = Context::new().unwrap().row::<17>(&scan, address);
        assert_eq!(context.row(&scan, address), fresh);
        assert_eq!(context.row(&scan.with_header(&header, 0x1f00), address), fresh);
    }
}
