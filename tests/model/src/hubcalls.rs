//! What `hubcalls` prints for a text.

use crate::hex;
use crate::text::load;

/// The whole output; every line ends with byte 10.
pub fn output(text: &[u8]) -> String {
    match load(text) {
        Err(refused) => format!("refused {} line {}\n", refused.number, refused.line),
        Ok((hub, calls)) => {
            let mut lines = String::from("record data\n");
            for answer in hub.run(&calls).1 {
                let record = hex::digits(&answer.record);
                let shown = hex::digits_or_dash(&answer.part);
                lines.push_str(&format!("{record} {shown}\n"));
            }
            lines
        }
    }
}
