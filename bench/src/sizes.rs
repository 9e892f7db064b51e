//! Sizes: of the state, of the stack that a message call uses, and of the machine code.

use crate::proved::Proved;
use crate::rows;
use crate::sides::{Areas, Reference, Side};
use lunozhar_reference::station::State;
use std::env;
use std::fs;
use std::hint::black_box;
use std::io;
use std::mem::size_of;
use std::process::{Command, Stdio};
use std::thread;

/// Bytes: of the proved core, of the reference.
pub struct Size {
    pub name: &'static str,
    pub proved: usize,
    pub reference: usize,
}

/// The three sizes.
pub fn sizes() -> io::Result<Vec<Size>> {
    let nothing = deepest("nothing")?;
    let stack = |side| Ok::<usize, io::Error>(nothing - deepest(side)?);
    let neither = code("code-neither")?;
    Ok(vec![
        Size { name: "state", proved: size_of::<lunozhar::raw::Station>(), reference: size_of::<State>() },
        Size { name: "stack of a message call", proved: stack("proved")?, reference: stack("reference")? },
        Size { name: "machine code", proved: code("code-proved")? - neither, reference: code("code-reference")? - neither },
    ])
}

/// The stack of the thread in which a call is tried, and the levels that use it up.
const STACK: usize = 256 * 1024;
const LEVELS: usize = STACK / 64;

/// How far down a thread's stack the messages of the mixed list can still be handled: tried in processes of their own, since the first that is
/// too far down ends its process.
fn deepest(side: &str) -> io::Result<usize> {
    let (mut good, mut bad, mut depth) = (0, LEVELS, 0);
    while good + 1 < bad {
        let levels = (good + bad) / 2;
        let child = Command::new(env::current_exe()?).args(["--stack", side, &levels.to_string()]).stderr(Stdio::null()).output()?;
        match String::from_utf8_lossy(&child.stdout).trim().parse() {
            Ok(bytes) if child.status.success() => (good, depth) = (levels, bytes),
            _ => bad = levels,
        }
    }
    assert!(good > 0, "{side}: there is a level at which the calls have stack enough");
    Ok(depth)
}

/// What such a process does: prints how many bytes of stack lie above the calls.
pub fn try_stack(side: &str, levels: &str) {
    let levels = levels.parse().expect("a number of levels");
    let bytes = match side {
        "proved" => at_depth(levels, &mut messages::<Proved>()),
        "reference" => at_depth(levels, &mut messages::<Reference>()),
        _ => at_depth(levels, &mut || ()),
    };
    println!("{bytes}");
}

/// Handles the messages of the mixed list.
fn messages<S: Side + Send>() -> impl FnMut() + Send {
    let (mut areas, session) = (Areas::new(), rows::mixed());
    let mut side: S = session.started(&mut areas);
    move || {
        for call in &session.calls {
            black_box(side.message(call, &mut areas));
        }
    }
}

fn at_depth(levels: usize, work: &mut (impl FnMut() + Send)) -> usize {
    thread::scope(|scope| {
        let start = move || {
            let top = 0u8;
            below(levels, black_box(&top) as *const u8 as usize, work)
        };
        thread::Builder::new().stack_size(STACK).spawn_scoped(scope, start).expect("a thread").join().expect("its end")
    })
}

/// Does the work so many levels down, and gives how far that is from the top.
#[inline(never)]
fn below(levels: usize, top: usize, work: &mut dyn FnMut()) -> usize {
    let here = black_box([0u8; 16]);
    let depth = if levels == 0 {
        work();
        top - here.as_ptr() as usize
    } else {
        below(levels - 1, top, work)
    };
    black_box(&here);
    depth
}

/// Bytes of machine code in a program that stands beside this one: of its sections that may be executed (ELF, 64 bits).
fn code(program: &str) -> io::Result<usize> {
    const EXECUTABLE: usize = 4;
    let file = fs::read(env::current_exe()?.with_file_name(program))?;
    let number = |at: usize, bytes: usize| file[at..at + bytes].iter().rev().fold(0, |number, &byte| number << 8 | usize::from(byte));
    let (sections, each, count) = (number(0x28, 8), number(0x3A, 2), number(0x3C, 2));
    let executable = (0..count).map(|index| sections + index * each).filter(|at| number(at + 8, 8) & EXECUTABLE != 0);
    Ok(executable.map(|at| number(at + 0x20, 8)).sum())
}
