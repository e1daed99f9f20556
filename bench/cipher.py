#!/usr/bin/env python3
"""bench/cipher.py [MB]: how fast the crate aes_cbc seals one, two and four texts and opens one, MB megabytes in all (100), beside
a C program that looks up tables of words, and beside openssl with and without its AES instructions.

The crate is reached by a program of a few lines that is made, proved and built in a temporary folder, for any processor with
shuffles of 16 bytes (x86-64-v2) and, where this one has AVX2, for those (x86-64-v3); the C program is aes_tables.c, by cc -O2.
All seal a million bytes over and over, so reading and writing take no time, and the first and the C program have to end with
the same bytes. What opening takes is the difference to sealing alone. Each figure is the processor time of the best of five,
run in turn.
"""

import pathlib
import shutil
import subprocess
import sys
import tempfile

from measuring import KEY, best, timed

TOP = pathlib.Path(__file__).resolve().parent.parent
SIZE = 1_000_000
ROUNDS = 5
# Takes away AES-NI and PCLMULQDQ, and with the second word unset VAES (OPENSSL_ia32cap).
MASK = {"OPENSSL_ia32cap": "~0x200000200000000"}

PROGRAM = """\
//! Seals or opens a million bytes, or two or four times as many side by side, once more for each line of its input.
#![tactic(auto)]

use aes_cbc::{Key, open, seal, seal_four_in_place, seal_in_place, seal_two_in_place};
use std::alloc::{AllocError, Global};
use std::io;

fn text(alloc: Global) -> Result<Vec<u8>, AllocError> {
    let mut text: Vec<u8> = Vec::with_capacity(alloc, 1_100_000)?;
    text.resize(1_000_000, 0)?;
    Ok(text)
}

fn main(rt: HostRuntime) -> io::Result<()> {
    let key = Key::new([0, 1, 2, 3, 4, 5, 6, 7, 8, 9, 10, 11, 12, 13, 14, 15]);
    let second_key = Key::new([1; 16]);
    let third_key = Key::new([2; 16]);
    let fourth_key = Key::new([3; 16]);
    let vector = [0; 16];
    let mut first = text(rt.alloc())?;
    let mut second = text(rt.alloc())?;
    let mut third = text(rt.alloc())?;
    let mut fourth = text(rt.alloc())?;
    let two = (&key, &second_key);
    let four = (&key, &second_key, &third_key, &fourth_key);
    for line in rt.lines(rt.alloc()) {
        match line?.as_str() {
            "seal" => first = seal(rt.alloc(), &key, &vector, &first)?,
            "seal in place" => seal_in_place(&key, &vector, &mut first)?,
            "two" => seal_two_in_place(two, &[vector, vector], &mut first, &mut second)?,
            "four" => seal_four_in_place(
                four,
                &[vector, vector, vector, vector],
                &mut first,
                &mut second,
                &mut third,
                &mut fourth,
            )?,
            _ => {
                let Ok(opened) = open(rt.alloc(), &key, &vector, &first) else {
                    break;
                };
                first = opened;
            }
        }
    }
    let mut sum: u64 = 0;
    for byte in &first {
        sum = sum.wrapping_add(u64::from(*byte));
    }
    println!(rt; "{} {sum}", first.len())?;
    Ok(())
}
"""


def processors():
    """The processors that the program is built for."""
    has_avx2 = " avx2" in pathlib.Path("/proc/cpuinfo").read_text()
    return ("x86-64-v2", "x86-64-v3") if has_avx2 else ("x86-64-v2",)


def built(folder):
    """The program over the crate, by the processor that it is built for, and the C program."""
    crates = folder / "crates"
    for name in ("ghost_list", "aes_cbc"):
        shutil.copytree(TOP / "crates" / name, crates / name, ignore=shutil.ignore_patterns("out"))
    (crates / "cipher_speed" / "src").mkdir(parents=True)
    (crates / "cipher_speed" / "src" / "main.rt").write_text(PROGRAM)
    (folder / "crates.txt").write_text("ghost_list:\naes_cbc: ghost_list thiserror\ncipher_speed: ghost_list aes_cbc\n")
    subprocess.run(["git", "init", "-q"], cwd=folder, check=True)
    programs = {}
    for cpu in processors():
        build = ["rt", "run", "--cpu", cpu]
        subprocess.run(build, cwd=crates / "cipher_speed", stdin=subprocess.DEVNULL, capture_output=True, check=True)
        programs[cpu] = shutil.copy(crates / "cipher_speed" / "out" / "cipher_speed", folder / cpu)
    tables = folder / "aes_tables"
    subprocess.run(["cc", "-O2", "-o", tables, TOP / "bench" / "aes_tables.c"], check=True)
    return programs, tables


def lines(folder, name, *words):
    file = folder / name
    file.write_text("".join(f"{word}\n" for word in words))
    return file


def check_same(program, tables, sealing, megabytes):
    with open(sealing) as source:
        ours = subprocess.run([program], stdin=source, capture_output=True, check=True).stdout
    theirs = subprocess.run([tables, "seal", str(megabytes), str(SIZE)], capture_output=True, check=True).stdout
    if ours != theirs:
        sys.exit("the two programs don't seal alike")


def main():
    if len(sys.argv) > 2:
        sys.exit("usage: bench/cipher.py [MB]")
    megabytes = int(sys.argv[1]) if len(sys.argv) > 1 else 100
    with tempfile.TemporaryDirectory() as name:
        folder = pathlib.Path(name)
        programs, tables = built(folder)
        sealing = lines(folder, "seal", *["seal"] * megabytes)
        inputs = {
            "one": lines(folder, "one", *["seal in place"] * megabytes),
            "two": lines(folder, "two", *["two"] * (megabytes // 2)),
            "four": lines(folder, "four", *["four"] * (megabytes // 4)),
            "seal": sealing,
            "seal and open": lines(folder, "open", *["seal"] * megabytes, *["open"] * megabytes),
        }
        zeros = folder / "zeros"
        zeros.write_bytes(bytes(SIZE * megabytes))
        runs = {}
        for cpu, program in programs.items():
            check_same(program, tables, sealing, megabytes)
            runs |= {f"{what}, {cpu}": ([program], file) for what, file in inputs.items()}
        for what, word in (("seal", "seal"), ("seal and open", "open")):
            runs[f"{what}, C"] = ([tables, word, str(megabytes), str(SIZE)],)
        if shutil.which("openssl"):
            enc = ["openssl", "enc", "-aes-128-cbc", "-K", KEY, "-iv", "0" * 32]
            runs["openssl, masked"] = (enc, zeros, (0,), MASK)
            runs["openssl"] = (enc, zeros)
        rounds = [{what: timed(*run) for what, run in runs.items()} for _ in range(ROUNDS)]
    took = {what: best([figures[what] for figures in rounds]).processor for what in runs}
    for by in (*programs, "C"):
        took[f"open, {by}"] = took.pop(f"seal and open, {by}") - took[f"seal, {by}"]
    for what, seconds in took.items():
        other = "open, C" if what.startswith("open,") else "seal, C"
        print(f"{what:20} {megabytes / seconds:6.0f} MB/s, {took[other] / seconds:.2f} of the speed of C's tables")


main()
