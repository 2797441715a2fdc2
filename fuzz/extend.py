#!/usr/bin/env python3
"""Puts letter B and opcode 0x2f into a copy of gimli, where gimli returns errors for them.

  extend.py FOLDER     the folder of the copy, which gets the name gimli_extended
"""
import re
import sys

LETTER = "                b'B' => {}\n"
OPCODE = """\
            constants::DwCfa(0x2f) => {
                // -(a * d) is (-a) * d modulo 2^64.
                let register = input.read_uleb128().and_then(Register::from_u64)?;
                let operand = input.read_uleb128()? as i64;
                Ok(CallFrameInstruction::OffsetExtendedSf {
                    register,
                    factored_offset: operand.wrapping_neg(),
                })
            }

"""


def insert(text, place, new):
    assert text.count(place) == 1, place
    return text.replace(place, new + place)


def main(folder):
    path = folder + "/src/read/cfi.rs"
    with open(path) as file:
        text = file.read()
    text = insert(text, "                b'S' =>", LETTER)
    text = insert(text, "            otherwise => Err(Error::UnknownCallFrameInstruction", OPCODE)
    with open(path, "w") as file:
        file.write(text)

    path = folder + "/Cargo.toml"
    with open(path) as file:
        text = file.read()
    text, count = re.subn('(?m)^name = "gimli"$', 'name = "gimli_extended"', text)
    assert count > 0, path
    with open(path, "w") as file:
        file.write(text)


main(sys.argv[1])
