//! Reads a disassembly (objdump -d) from standard input and prints how deep the stack of each named function can go.
//! A frame is every push and every `sub` of the stack pointer in a function, whether or not they happen together, so the sum along
//! the deepest chain of calls is at least what any run uses. It stops where this would not hold: recursion, a call through a
//! register, or another change of the stack pointer.
use std::collections::HashMap;
use std::io::Read;

#[derive(Default)]
struct Frame {
    bytes: usize,
    calls: Vec<String>,
    fault: Option<String>,
}

fn number(text: &str) -> Option<usize> {
    usize::from_str_radix(text.strip_prefix("$0x")?, 16).ok()
}

// The name between < and >, without the version and the offset that may follow it.
fn target(operands: &str) -> Option<String> {
    let (_, name) = operands.split_once('<')?;
    Some(name.strip_suffix('>')?.replace("@plt", ""))
}

fn read_frames(text: &str) -> HashMap<String, Frame> {
    let mut frames: HashMap<String, Frame> = HashMap::new();
    let mut name = String::new();
    for line in text.lines() {
        if let Some(header) = line.strip_suffix(">:") {
            name = header.split_once('<').map_or(String::new(), |(_, name)| name.replace("@plt", ""));
            frames.insert(name.clone(), Frame::default());
            continue;
        }
        let Some((_, code)) = line.split_once(":\t") else {
            continue;
        };
        let frame = frames.entry(name.clone()).or_default();
        let (word, operands) = code.trim().split_once(char::is_whitespace).unwrap_or((code.trim(), ""));
        let operands = operands.trim();
        match word {
            "push" => frame.bytes += 8,
            "pop" | "ret" | "leave" => {}
            "call" => match target(operands) {
                Some(callee) => frame.calls.push(callee),
                None => frame.fault = Some(code.trim().to_string()),
            },
            "jmp" if target(operands).is_some_and(|to| to != name && !to.starts_with(&format!("{name}+"))) => {
                frame.calls.extend(target(operands));
            }
            // a change of the stack pointer itself, not of memory that it points to
            _ if operands.ends_with(",%rsp") => match (word, operands.split(',').next().and_then(number)) {
                ("sub", Some(size)) if size < 1 << 31 => frame.bytes += size,
                // a `sub` of a negative number gives back
                ("sub" | "add", Some(_)) => {}
                ("cmp" | "test", _) => {}
                _ => frame.fault = Some(code.trim().to_string()),
            },
            _ => {}
        }
    }
    frames
}

// Bytes below the caller's stack pointer: the return address, the frame, and either the red zone or the deepest callee.
fn depth(frames: &HashMap<String, Frame>, name: &str, above: &mut Vec<String>) -> Result<usize, String> {
    if above.iter().any(|caller| caller == name) {
        return Err(format!("{name} calls itself"));
    }
    // the C library's memcpy and memset keep no frame
    let Some(frame) = frames.get(name).filter(|_| !name.starts_with("mem")) else {
        return if name.starts_with("mem") { Ok(8) } else { Err(format!("{name} is not there")) };
    };
    if let Some(fault) = &frame.fault {
        return Err(format!("{name}: {fault}"));
    }
    above.push(name.to_string());
    let mut below = 128;
    for callee in &frame.calls {
        below = below.max(depth(frames, callee, above)?);
    }
    above.pop();
    Ok(8 + frame.bytes + below)
}

fn main() {
    let mut text = String::new();
    std::io::stdin().read_to_string(&mut text).unwrap();
    let frames = read_frames(&text);
    for name in std::env::args().skip(1) {
        match depth(&frames, &name, &mut Vec::new()) {
            Ok(bytes) => println!("{name} {bytes}"),
            Err(why) => println!("{name} not bounded: {why}"),
        }
    }
}
