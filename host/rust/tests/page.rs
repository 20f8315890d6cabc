//! The page: its lines, and the room of the longest one.

use juzontefa::{page, page_room, Refusal};

const HEADING: &str = "kind p q text more name nullable pairs children\n";

/// A line of the page, as the standard library justifies it.
fn line(level: usize, kind: &str, mark: char, name: &str) -> String {
    let cut = if name.len() > 48 { '+' } else { ' ' };
    let shown = &name[..name.len().min(48)];
    format!("{level:>3} {kind:<16} {mark} {shown:<48}{cut}\n")
}

/// The page is this one in any buffer that holds it, and needs all of its bytes.
fn expect(sheet: &str, expected: &str) {
    for room in [page_room(sheet.len()), expected.len()] {
        let mut out = vec![7; room];
        assert_eq!(page(sheet.as_bytes(), &mut out), Ok(expected.len()));
        assert!(out.starts_with(expected.as_bytes()), "another page: {}", out.escape_ascii());
        assert!(out[expected.len()..].iter().all(|byte| *byte == 7));
    }
    let mut short = vec![7; expected.len() - 1];
    assert_eq!(page(sheet.as_bytes(), &mut short), Err(Refusal::NoRoom));
    assert!(short.iter().all(|byte| *byte == 0));
}

#[test]
fn levels_and_bare_lines() {
    let lines = "37 0 0 78 ~ 61 0 ~ 1\n37 0 0 79 ~ ~ ~ ~ 1\n27 0 0 ~ ~ ~ ~ ~ 1\n40 0 0 ~ ~ - 1 ~ 0\n";
    let page = [
        line(1, "Extension", 'n', "61"),
        line(2, "Extension", '.', ""),
        line(2, "List", '.', ""),
        line(3, "Unknown", 'y', ""),
    ];
    expect(&format!("{HEADING}{lines}"), &page.concat());
}

/// 24 bytes of a name are shown, also where that parts a character.
#[test]
fn names() {
    for count in [0, 1, 23, 24, 25, 26, 1000] {
        let name = "6e".repeat(count);
        let shown = if name.is_empty() { "-" } else { &name };
        expect(&format!("{HEADING}23 4 0 ~ ~ {shown} 1 ~ 0\n"), &line(1, "FixedSizeBinary", 'y', &name));
    }
    let name = format!("{}c3a9", "6e".repeat(23));
    expect(&format!("{HEADING}0 0 0 ~ ~ {name} 0 ~ 0\n"), &line(1, "Null", 'n', &name));
}

/// No sheet has more lines, so that no page is longer.
#[test]
fn the_longest() {
    let sheet = format!("{HEADING}30 0 0 ~ ~ - 0 ~ 3636\n{}", "0 0 0 ~ ~ - 0 ~ 0\n".repeat(3636));
    assert_eq!(sheet.len(), 65_518);
    let page = format!("{}{}", line(1, "Struct", 'n', ""), line(2, "Null", 'n', "").repeat(3636));
    assert_eq!(page.len(), 265_501);
    assert!(page.len() <= page_room(sheet.len()));
    expect(&sheet, &page);
}
