#!/usr/bin/env python3
"""Gives an LLVM module a byte shuffle for another processor than x86-64: `byte_shuffle.py arm64|any FILE.ll`, in place.

The kit's UTF-8 checker looks bytes up in tables of 16 by the instruction PSHUFB of x86-64, which the proved build calls
by name. Here the call is of a function in the module: of the NEON instruction TBL on ARM64, and elsewhere of one byte
after another. Another call by x86-64's names ends the pass with an error, and nothing is written.
"""
import re
import sys

OF_X86 = "@llvm.x86.ssse3.pshuf.b.128"
OWN = "@byte_shuffle"
BYTES = "<16 x i8>"
LANES = range(16)

# a place with its upper bit set gives 0; of another one the lower four bits count
HEAD = f"define internal {BYTES} {OWN}({BYTES} %table, {BYTES} %places) nounwind {{"
TAIL = f"  ret {BYTES} %found\n}}"


def repeated(number):
    return f"<{', '.join([f'i8 {number}'] * len(LANES))}>"


def on_arm64():
    """TBL gives 0 for each place above 15."""
    name = f"{BYTES} @llvm.aarch64.neon.tbl1.v16i8"
    body = f"  %kept = and {BYTES} %places, {repeated(0x8F)}\n"
    body += f"  %found = call {name}({BYTES} %table, {BYTES} %kept)\n"
    return f"{HEAD}\n{body}{TAIL}\n\ndeclare {name}({BYTES}, {BYTES})\n"


def lane_by_lane():
    lines, made = [f"  %low = and {BYTES} %places, {repeated(0x0F)}"], "poison"
    for lane in LANES:
        lines += [f"  %place{lane} = extractelement {BYTES} %low, i32 {lane}"]
        lines += [f"  %byte{lane} = extractelement {BYTES} %table, i8 %place{lane}"]
        lines += [f"  %made{lane} = insertelement {BYTES} {made}, i8 %byte{lane}, i32 {lane}"]
        made = f"%made{lane}"
    lines += [f"  %is_none = icmp slt {BYTES} %places, zeroinitializer"]
    lines += [f"  %found = select <16 x i1> %is_none, {BYTES} zeroinitializer, {BYTES} {made}"]
    return "\n".join([HEAD, *lines, TAIL]) + "\n"


PROCESSORS = {"arm64": on_arm64, "any": lane_by_lane}


def with_byte_shuffle(text, processor):
    """The module's text without a call by a name of x86-64."""
    if OF_X86 in text:
        text = re.sub(rf"^declare .*{re.escape(OF_X86)}\(.*\n", "", text, flags=re.MULTILINE).replace(OF_X86, OWN)
        text += "\n" + PROCESSORS[processor]()
    strange = re.search(r"@llvm\.x86\.[\w.]+", text)
    if strange:
        sys.exit(f"byte_shuffle.py: the module calls {strange[0]}, which only x86-64 has")
    return text


def main(processor, path):
    with open(path, encoding="utf-8") as file:
        made = with_byte_shuffle(file.read(), processor)
    with open(path, "w", encoding="utf-8") as file:
        file.write(made)


if __name__ == "__main__":
    if len(sys.argv) != 3 or sys.argv[1] not in PROCESSORS:
        sys.exit("usage: byte_shuffle.py arm64|any FILE.ll")
    main(*sys.argv[1:])
