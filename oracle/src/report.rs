//! Disagreements, printed and saved.
use crate::case_file;
use crate::compare::{Case, Compared, PortGave};
use original::judge::Verdict;
use std::path::Path;
use std::{fs, io};

/// The listing in one line, if it can be read.
fn short(listing: &[u8]) -> String {
    let Some(rows) = original::text::listing(listing) else { return "(not a listing)".into() };
    let hex = |p4: &[u8]| p4.iter().map(|b| format!("{b:02x}")).collect::<String>();
    let one = |r: &original::connection::ProgramRow| format!("{} {} {} {} {}", r.1, r.2, r.3, r.4, hex(&r.5));
    rows.iter().take(60).map(|r| one(r).trim_end().to_string()).collect::<Vec<_>>().join("; ")
}

pub fn print(case: &Case, compared: &Compared) {
    let mut text = format!("DISAGREEMENT {} (area {}, answer {})\n", case.name, case.area, case.answer);
    for difference in &compared.differences {
        text += &format!("  {difference}\n");
    }
    text += &format!("  {}\n", short(&case.listing));
    let catalogue = String::from_utf8_lossy(&case.catalogue).replace('\n', " ");
    text += &format!("  catalogue {}", catalogue.chars().take(400).collect::<String>());
    println!("{text}");
}

/// NAME.listing, NAME.catalog, and NAME.cases with what the original gives.
pub fn save(dir: &Path, case: &Case, compared: &Compared) -> io::Result<()> {
    fs::create_dir_all(dir)?;
    let at = |ending: &str| dir.join(format!("{}.{ending}", case.name.replace('/', "_")));
    fs::write(at("listing"), &case.listing)?;
    fs::write(at("catalog"), &case.catalogue)?;
    let (number, answer) = match &compared.outcome.verdict {
        Verdict::Answered(bytes) => (0, bytes.clone()),
        Verdict::Refused(number) => (u64::from(*number), Vec::new()),
        _ => return Ok(()),
    };
    let mut bytes = Vec::new();
    case_file::write(&mut bytes, case, &PortGave { number, length: answer.len(), answer })?;
    fs::write(at("cases"), bytes)
}
