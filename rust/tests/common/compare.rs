//! Two outcomes of one call side by side, and what differs, in hexadecimal.

use super::model::Outcome;

/// The rows of 16 bytes in which two slices differ, at most a dozen of them.
pub fn differences(name: &str, wanted: &[u8], got: &[u8]) -> String {
    if wanted == got {
        return String::new();
    }
    let mut text = format!(
        "{name}: {} bytes wanted, {} bytes got\n",
        wanted.len(),
        got.len()
    );
    let hex = |bytes: &[u8]| -> String { bytes.iter().map(|b| format!("{b:02X} ")).collect() };
    let mut shown = 0;
    for start in (0..wanted.len().max(got.len())).step_by(16) {
        let row = |bytes: &[u8]| -> Vec<u8> {
            let end = bytes.len().min(start + 16);
            bytes[start.min(end)..end].to_vec()
        };
        let (row_wanted, row_got) = (row(wanted), row(got));
        if row_wanted != row_got {
            text += &format!("  {start:6} wanted {}\n", hex(&row_wanted));
            text += &format!("         got    {}\n", hex(&row_got));
            shown += 1;
            if shown == 12 {
                text += "  and more\n";
                break;
            }
        }
    }
    text
}

/// The places in which two lists differ, at most a dozen of them.
fn number_differences(wanted: &[u32], got: &[u32]) -> String {
    if wanted == got {
        return String::new();
    }
    let (most, least) = (wanted.len().max(got.len()), wanted.len().min(got.len()));
    let mut text = format!("list: {} numbers wanted, {} got\n", wanted.len(), got.len());
    let differ = |i: &usize| *i >= least || wanted[*i] != got[*i];
    for i in (0..most).filter(differ).take(12) {
        let (wanted, got) = (wanted.get(i), got.get(i));
        text += &format!("  {i:6} wanted {wanted:?}, got {got:?}\n");
    }
    text
}

/// The whole of a slice in rows of 16, for a failing case to be set up again.
pub fn dump(name: &str, bytes: &[u8]) -> String {
    let mut text = format!("{name}: {} bytes\n", bytes.len());
    for (row, sixteen) in bytes.chunks(16).enumerate() {
        let hex: String = sixteen.iter().map(|b| format!("{b:02X} ")).collect();
        text += &format!("  {:6} {hex}\n", 16 * row);
    }
    text
}

/// Says what differs between two outcomes, or nothing.
pub fn outcomes(wanted: &Outcome, got: &Outcome) -> Option<String> {
    if wanted == got {
        return None;
    }
    let mut text = String::new();
    if (wanted.code, wanted.number, wanted.view) != (got.code, got.number, got.view) {
        text += &format!(
            "answer wanted: code {}, number {}, {:?}\nanswer got:    code {}, number {}, {:?}\n",
            wanted.code, wanted.number, wanted.view, got.code, got.number, got.view
        );
    }
    text += &differences("pool", &wanted.pool, &got.pool);
    text += &differences("storage", &wanted.storage, &got.storage);
    text += &differences("output or scratch", &wanted.lent, &got.lent);
    text += &number_differences(&wanted.list, &got.list);
    Some(text)
}
