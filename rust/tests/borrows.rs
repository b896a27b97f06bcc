//! What the types forbid: the programs of tests/refused are compiled, and must be refused, each for its one reason. apart.rs is the one
//! that must compile and run: what interleaved.rs does, in turn.
mod common;
use common::package::Package;

/// Each program that must be refused, and the compiler's number for why: borrowed mutably twice; borrowed and assigned to; moved away;
/// lent and borrowed mutably; lent for longer than it lives.
const REFUSED: [(&str, &str); 8] = [
    ("interleaved", "E0499"),
    ("two_at_once", "E0499"),
    ("awaited", "E0499"),
    ("altered", "E0506"),
    ("copied", "E0382"),
    ("lent", "E0502"),
    ("listed", "E0502"),
    ("outlived", "E0597"),
];

#[test]
fn what_must_not_interleave_does_not_compile() {
    let mut programs = vec!["apart"];
    programs.extend(REFUSED.map(|(name, _)| name));
    let package = Package::new("borrows", &programs);
    let apart = package.cargo("run", "apart").output().expect("cargo runs");
    assert!(apart.status.success(), "{}", String::from_utf8_lossy(&apart.stderr));
    for (name, reason) in REFUSED {
        let refused = package.cargo("check", name).output().expect("cargo runs");
        let said = String::from_utf8_lossy(&refused.stderr);
        let reasons: Vec<_> = said.lines().filter(|line| line.starts_with("error[")).collect();
        assert!(!refused.status.success(), "{name} compiles");
        assert!(!reasons.is_empty() && reasons.iter().all(|line| line.contains(reason)), "{name}: {said}");
    }
}
