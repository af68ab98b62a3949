//! A patch file in words: its bytes, and the patch or the refusal that the second reading makes of them.

use super::PatchFile;
use super::read::Fault;
use super::read::Item;
use super::read::Items;
use crate::session;
use crate::session::Stage;
use crate::words::Pass;
use crate::words::Reader;

/// How many bytes stand in a line.
const LINE: usize = 32;

pub fn show(file: &PatchFile) -> String {
    let line = |bytes: &[u8]| bytes.iter().map(|byte| format!(" {byte:02x}")).collect::<String>();
    let lines: String = file.bytes.chunks(LINE).map(|bytes| format!("   {}\n", line(bytes))).collect();
    let items: Result<Vec<Item>, Fault> = Items::new(&file.bytes).collect();
    let read = match items {
        Ok(items) => show_stages(&items),
        Err(fault) => format!("  refused: {} at {}, {}\n", fault.number, fault.offset, fault.meaning()),
    };
    format!("  file of {} bytes\n{lines}{read}", file.bytes.len())
}

/// The stages as sort 1 has them, whose words they are; behind a version and a count.
fn show_stages(items: &[Item]) -> String {
    let words: Vec<u8> = items.iter().skip(2).flat_map(|item| item.word.to_le_bytes()).collect();
    let mut tape = Reader(&words[..]);
    let mut text = String::new();
    while !tape.0.is_empty() {
        let mut stage = Stage::default();
        let passed = stage.pass(&mut tape);
        passed.expect("the words of a stage that was read");
        text += &format!("  {}\n", session::show_stage(&stage));
    }
    format!("  accepted\n{text}")
}
