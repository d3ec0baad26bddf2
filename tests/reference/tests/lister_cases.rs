//! The lister's cases, in tests/lister: the reference gives the same text.

use reference::list;
use std::fs;
use std::path::Path;

#[test]
fn lister_cases() {
    let folder = Path::new(env!("CARGO_MANIFEST_DIR")).join("../lister/cases");
    let mut count = 0;
    for entry in fs::read_dir(folder).unwrap() {
        let input = entry.unwrap().path();
        if input.extension().is_some_and(|extension| extension == "in") {
            let expected = fs::read(input.with_extension("out")).unwrap();
            assert_eq!(list(&fs::read(&input).unwrap()), expected, "{}", input.display());
            count += 1;
        }
    }
    assert!(count > 0);
}
