//! Replays a disagreement that was written down: every version's answer to the stored call.

use crate::calls::{Call, Memory, Version};
use crate::definition::Definition;
use crate::gate::Gate;
use crate::plain::bench::output;
use crate::plain::interface::Plain;
use crate::report::answer;
use crate::tuned::Tuned;
use std::fs;
use std::path::Path;

fn from_hex(text: &str) -> Option<Vec<u8>> {
    let byte = |at: usize| u8::from_str_radix(text.get(at..at + 2)?, 16).ok();
    (0..text.len()).step_by(2).map(byte).collect()
}

/// The stored call and memory.
fn read_case(text: &str) -> Option<(Call, Memory)> {
    let words: Vec<&str> = text.split_whitespace().collect();
    let [name, argument, memory] = words[..] else {
        return None;
    };
    let call = Call::named(name, u16::from_str_radix(argument, 16).ok()?)?;
    let bytes: [u8; 32] = from_hex(memory)?.try_into().ok()?;
    Some((call, Memory(bytes)))
}

/// Prints what each version answers; says whether gate and plain version agree.
pub fn replay(folder: &Path) -> Result<bool, String> {
    let read = |name: &str| fs::read(folder.join(name)).map_err(|e| format!("{name}: {e}"));
    let mut policy = read("policy.bin")?;
    let input = read("input")?;
    let case = String::from_utf8(read("case")?).map_err(|e| e.to_string())?;
    let (call, before) = read_case(&case).ok_or("case: not as it was written")?;
    println!("call {} {:04x}", call.name(), call.argument());
    let mut versions: [(&str, Box<dyn Version>); 4] = [
        ("gate", Box::new(Gate::default())),
        ("plain", Box::new(Plain)),
        ("tuned", Box::new(Tuned)),
        ("definition", Box::new(Definition)),
    ];
    let mut answers = Vec::new();
    for (name, version) in &mut versions {
        let mut memory = before;
        let reply = version.call(call, &mut policy, &mut memory);
        println!("{}", answer(name, reply, &memory));
        answers.push((reply, memory));
    }
    println!("what the bench program should print for policy.bin and input, by the plain version:");
    print!("{}", output(Some(&policy), &input));
    Ok(answers[0] == answers[1])
}
