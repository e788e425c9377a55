use std::env::temp_dir;
use std::fs;
use std::path::PathBuf;
use std::process::{id, Command, Output};

use reference::image::Draft;
use reference::shorthand::*;
use reference::tree::Type;

/// An image in a file that is gone when it is dropped.
struct File(PathBuf);

impl File {
    fn new(name: &str, draft: &Draft) -> File {
        let path = temp_dir().join(format!("reference-{}-{name}", id()));
        fs::write(&path, draft.image()).expect("the file can be written");
        File(path)
    }

    fn run(&self, words: &[&str]) -> Output {
        Command::new(env!("CARGO_BIN_EXE_reference"))
            .arg("run")
            .arg(&self.0)
            .args(words)
            .output()
            .expect("the program can be started")
    }

    /// What is printed for a run that ends.
    fn line(&self, words: &[&str]) -> String {
        let output = self.run(words);
        assert!(output.status.success(), "{output:?}");
        String::from_utf8(output.stdout).expect("the line is plain")
    }
}

impl Drop for File {
    fn drop(&mut self) {
        fs::remove_file(&self.0).ok();
    }
}

#[test]
fn prints_how_a_run_ends() {
    let file = File::new("k", &card_k());
    assert_eq!(file.line(&["0", "2", "30000", "=Spit"]), "0 - 6 @1 x53706974;0.1(@0)\n");
    assert_eq!(file.line(&["0", "2", "50000", "x53706974"]), "0 - 5 @1 x53706974;0.0()\n");
    assert_eq!(file.line(&["0", "1", "30000", "="]), "5 13 6 - x\n");
}

#[test]
fn takes_every_plain_argument() {
    let types = [Type::Unit, Type::Boolean, Type::Number];
    let draft = Draft::new(function(0, &types, Type::Boolean, &[local(1)]), b"");
    let file = File::new("plain", &draft);
    assert_eq!(file.line(&["0", "0", "unit", "true", "-1"]), "0 - 1 true -\n");
}

#[test]
fn ends_with_2_where_nothing_can_be_run() {
    let file = File::new("faults", &card_k());
    let wrong: [&[&str]; 7] = [
        &[],
        &["0"],
        &["1", "2", "30000", "=Spit"],
        &["0", "2", "30000"],
        &["0", "0", "30000", "=Spit"],
        &["0", "65536", "30000", "=Spit"],
        &["0", "2", "30000", "Spit"],
    ];
    for words in wrong {
        let output = file.run(words);
        assert_eq!((output.status.code(), output.stdout.len()), (Some(2), 0), "{words:?}");
        assert!(!output.stderr.is_empty());
    }
}

#[test]
fn a_refused_image_is_not_run() {
    let file = File::new("refused", &Draft::new(body(Type::Unit, &[num(1)]), b""));
    let output = file.run(&["0", "0"]);
    assert_eq!(output.status.code(), Some(2));
    assert_eq!(String::from_utf8_lossy(&output.stderr), "reference: no 11 0 -\n");
}
