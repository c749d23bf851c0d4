//! The sample cases of line and column, made by a reference of their own: what the program prints of each.

use builder::Answer;

struct Case<'a> {
    words: &'a str,
    area: Vec<u8>,
    text: Vec<u8>,
    prints: String,
}

fn bytes(hex: &str) -> Vec<u8> {
    if hex == "-" {
        return Vec::new();
    }
    let digits = |i| u8::from_str_radix(&hex[i..i + 2], 16).expect("two digits");
    (0..hex.len()).step_by(2).map(digits).collect()
}

fn cases(pack: &str) -> Vec<Case<'_>> {
    let mut found: Vec<Case> = Vec::new();
    for line in pack.lines().filter(|line| !line.starts_with('#')) {
        let Some((field, value)) = line.split_once(' ') else {
            continue;
        };
        if field == "case" {
            found.push(Case {
                words: value,
                area: Vec::new(),
                text: Vec::new(),
                prints: String::new(),
            });
            continue;
        }
        let case = found.last_mut().expect("a case begins");
        match field {
            "area" => case.area = bytes(value),
            "text" => case.text = bytes(value),
            "prints" => case.prints += &format!("{value}\n"),
            _ => panic!("{line}"),
        }
    }
    found
}

#[test]
fn sample_cases() {
    let cases = cases(include_str!("order-01.cases"));
    assert_eq!(cases.len(), 111);
    let mut kept = 0;
    for case in &cases {
        let said = lines::lines_of(env!("CARGO_TARGET_TMPDIR"), &case.area, &case.text);
        assert_eq!(said, case.prints, "{}", case.words);
        let counted = Answer::read(&case.area).map(|answer| lines::printed(&answer, &case.text));
        kept += usize::from(counted.is_ok());
        assert_eq!(counted.unwrap_or_default(), case.prints, "{}", case.words);
    }
    assert!((30..100).contains(&kept), "{kept}");
}
