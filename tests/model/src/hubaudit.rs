//! What `hubaudit` prints for a text and a slot.

use crate::hex;
use crate::record::LENGTH;
use crate::text::load;

/// The records that the audit shows, or the line that says why it shows none. The
/// buffer has room for every record.
pub fn shown(text: &[u8], slot: u8) -> Result<Vec<u8>, String> {
    let (hub, calls) =
        load(text).map_err(|refused| format!("refused {} line {}\n", refused.number, refused.line))?;
    let (end, answers) = hub.run(&calls);
    let records: Vec<u8> = answers.iter().flat_map(|answer| answer.record).collect();
    let audit = end.audit(slot, &records, &vec![0; records.len()]);
    match audit.number {
        0 => Ok(audit.part),
        number => Err(format!("refused {number}\n")),
    }
}

/// The whole output without `raw`; every line ends with byte 10.
pub fn output(text: &[u8], slot: u8) -> String {
    match shown(text, slot) {
        Err(refused) => refused,
        Ok(records) => {
            let lines = records.chunks(LENGTH).map(|record| hex::digits(record) + "\n");
            String::from("record\n") + &lines.collect::<String>()
        }
    }
}
