//! Shrinking: only the lines that are needed are left.

use second::shrink::shrink;

/// Shrinks under a test that counts how often it is asked.
fn shrunk(script: &str, mut needs: impl FnMut(&str) -> bool) -> (String, usize) {
    let mut asked = 0;
    let least = shrink(script.as_bytes(), |part| {
        asked += 1;
        Ok(needs(std::str::from_utf8(part).unwrap()))
    });
    (String::from_utf8(least.unwrap()).unwrap(), asked)
}

#[test]
fn what_is_needed_is_left() {
    let script: String = (0..1000).map(|line| format!("{line}\n")).collect();
    let has = |part: &str, line: &str| part.lines().any(|one| one == line);
    let (least, asked) = shrunk(&script, |part| has(part, "3") && has(part, "500") && has(part, "501"));
    assert_eq!(least, "3\n500\n501\n");
    assert!(asked < 200, "{asked}");
    assert_eq!(shrunk(&script, |part| has(part, "999")).0, "999\n");
    assert_eq!(shrunk(&script, |part| part.lines().count() >= 7).0.lines().count(), 7);
    assert_eq!(shrunk("a\nb", |part| part.ends_with('b')).0, "b");
    assert_eq!(shrunk("", |_| true).0, "");
}
