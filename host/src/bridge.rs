//! The library in a program of its own (host/bridge): the archive that hosts link, which is x86-64 code, or the one for Arm.
use crate::{Answer, Call};
use std::env::{consts::ARCH, var};
use std::io::Write;
use std::process::{Command, Stdio};

/// The program for the machine that GIEHTAMUN_BRIDGE names, or for x86-64; where this machine is another, in Debian's emulator.
fn program() -> Command {
    let machine = var("GIEHTAMUN_BRIDGE").unwrap_or("x86_64".into());
    let bridge = format!("{}/../target/bridge/{machine}", env!("CARGO_MANIFEST_DIR"));
    if machine == ARCH {
        return Command::new(bridge);
    }
    let mut command = Command::new(format!("qemu-{machine}"));
    command.arg(bridge);
    command
}

/// One run of the program over all the calls.
pub fn ask(calls: &[Call]) -> Vec<Answer> {
    let mut child = program().stdin(Stdio::piped()).stdout(Stdio::piped()).spawn().expect("the bridge runs");
    let mut all = vec![];
    for c in calls {
        all.extend((c.op as u32).to_le_bytes());
        all.extend(c.mode.to_le_bytes());
        for number in [c.number, c.end, c.text.len() as u64, c.list.len() as u64, c.memory.len() as u64, c.lent as u64] {
            all.extend(number.to_le_bytes());
        }
        all.extend(c.text);
        all.extend(c.list);
        all.extend(&c.memory);
    }
    let mut input = child.stdin.take().unwrap();
    let writer = std::thread::spawn(move || input.write_all(&all));
    let out = child.wait_with_output().unwrap();
    writer.join().unwrap().expect("the bridge reads all its input");
    assert!(out.status.success(), "the bridge ended with {}", out.status);
    let mut rest = &out.stdout[..];
    let mut take = |n| rest.split_off(..n).expect("the bridge answers each call");
    let answer = |c: &Call| Answer { answer: u64::from_le_bytes(take(8).try_into().unwrap()), memory: take(c.memory.len()).to_vec() };
    let answers = calls.iter().map(answer).collect();
    assert!(rest.is_empty());
    answers
}
