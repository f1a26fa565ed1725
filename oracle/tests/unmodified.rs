//! The Rust that we ask is the Rust that was given.

use std::path::{Path, PathBuf};

/// FNV-1a, 64 bits, of each file as given.
const UNMODIFIED: [(&str, u64); 6] = [
    ("block_inter_pred.rs", 0xf347_8d17_0fa8_79b6),
    ("frame_buf.rs", 0xae8f_75f8_42fe_cd4b),
    ("inter_mv.rs", 0x5173_088b_9337_8204),
    ("inter_pred.rs", 0xcc62_3b41_9d9c_fd4b),
    ("intra.rs", 0x0081_eeda_28df_728b),
    ("mv_ref.rs", 0x9a20_f5eb_70f3_4bd5),
];

/// The same of the items that were kept.
const CUT: [(&str, u64); 3] = [
    ("mv.rs", 0x27eb_5006_767e_7ca2),
    ("partition.rs", 0x3f24_4a36_b117_ece4),
    ("residual.rs", 0xeda2_8397_8274_c391),
];

fn ours(name: &str) -> String {
    let path = Path::new(env!("CARGO_MANIFEST_DIR"))
        .join("src/vp9")
        .join(name);
    std::fs::read_to_string(path).expect("a file of src/vp9")
}

/// The folder of the originals, where it lies beside the repository.
fn originals() -> Option<PathBuf> {
    let folder = Path::new(env!("CARGO_MANIFEST_DIR")).join("../../shared/docs/src");
    if folder.is_dir() {
        return Some(folder);
    }
    println!("not compared with the originals: no ../shared/docs/src beside the repository");
    None
}

fn digest(text: &str) -> u64 {
    text.bytes().fold(0xcbf2_9ce4_8422_2325, |h, b| {
        (h ^ u64::from(b)).wrapping_mul(0x0000_0100_0000_01b3)
    })
}

#[test]
fn six_files_have_their_digests() {
    for (name, expected) in UNMODIFIED {
        assert_eq!(digest(&ours(name)), expected, "{name}");
    }
}

#[test]
fn six_files_equal_the_originals() {
    let Some(folder) = originals() else { return };
    for (name, _) in UNMODIFIED {
        let original = std::fs::read_to_string(folder.join(name)).expect("an original");
        assert!(ours(name) == original, "{name} differs from the original");
    }
}

/// A cut file without its own comment and imports.
fn kept_items(name: &str) -> Vec<String> {
    ours(name)
        .split("\n\n")
        .filter(|run| !run.starts_with("// CUT") && !run.starts_with("use "))
        .map(|run| run.trim_end().to_string())
        .collect()
}

#[test]
fn kept_items_have_their_digests() {
    for (name, expected) in CUT {
        assert_eq!(digest(&kept_items(name).join("\n\n")), expected, "{name}");
    }
}

#[test]
fn kept_items_are_whole_lines_of_the_originals() {
    let Some(folder) = originals() else { return };
    for (name, _) in CUT {
        let original = std::fs::read_to_string(folder.join(name)).expect("an original");
        let items = kept_items(name);
        assert!(!items.is_empty());
        for item in items {
            assert!(
                original.contains(&format!("\n{item}\n")),
                "{name}: not in the original: {item}"
            );
        }
    }
}
