//! No file is lost: neither the one that is read, nor one of another kind, nor one that stood where a new one was not written.

use std::fs::{
    hard_link, metadata, read, read_dir, read_link, set_permissions, write, Permissions,
};
use std::os::unix::fs::{symlink, MetadataExt, PermissionsExt};
use std::path::{Path, PathBuf};

use plans::examples::folder;

use crate::{expect_end, planner, printed, scratch, shell};

/// A folder of one test, empty.
struct Folder(PathBuf);

impl Folder {
    fn new(name: &str) -> Folder {
        let path = scratch(name);
        let _ = std::fs::remove_dir_all(&path);
        std::fs::create_dir(&path).expect("a folder of the test");
        Folder(path)
    }

    fn path(&self, name: &str) -> String {
        let path = self.0.join(name);
        path.to_str().expect("a path in UTF-8").to_string()
    }

    /// A file with these bytes.
    fn with(&self, name: &str, bytes: &[u8]) -> String {
        write(self.0.join(name), bytes).expect("a file of the test");
        self.path(name)
    }

    /// The names in the folder, hidden ones too.
    fn names(&self) -> Vec<String> {
        let entries = read_dir(&self.0).expect("the folder of the test");
        let name = |entry: std::io::Result<std::fs::DirEntry>| {
            let name = entry.expect("an entry").file_name();
            name.into_string().expect("a name in UTF-8")
        };
        let mut names: Vec<String> = entries.map(name).collect();
        names.sort();
        names
    }
}

fn bytes_of(path: impl AsRef<Path>) -> Vec<u8> {
    read(path).expect("the file")
}

fn example(name: &str) -> Vec<u8> {
    bytes_of(folder().join(name))
}

/// The three commands that write a file, from one file to another.
fn writing<'a>(from: &'a str, to: &'a str) -> [Vec<&'a str>; 3] {
    [
        vec!["file", from, to],
        vec!["sheet", from, to],
        vec!["thresholds", from, "7", "--svg", to],
    ]
}

/// A plan whose plan file, sheet and picture have several thousand bytes each, with a short walk.
fn large() -> String {
    let mut text = "threshold 1_000_000_000_000_000_000\ncap 1\n".to_string();
    let nodes: Vec<String> = (0..64).map(|i| format!("n{i}")).collect();
    for node in &nodes {
        text += &format!("node {node}\n");
    }
    for i in 0..100 {
        text += &format!("event e{i} 1 {}\n", nodes.join(" "));
    }
    text
}

/// By its own name, by way of a folder, by a link, by a link to a link and by another name of the same file.
#[test]
fn the_file_that_is_read_is_not_written_over() {
    let here = Folder::new("read");
    let text = example("triangle.txt");
    let from = here.with("a.txt", &text);
    let (link, second) = (here.path("link"), here.path("second"));
    symlink("a.txt", &link).expect("a link");
    symlink("link", &second).expect("a link");
    let other = here.path("other");
    hard_link(&from, &other).expect("another name");
    let around = here.path("../read/a.txt");
    for to in [&from, &link, &second, &other, &around] {
        let told = format!("{to}: this is the file that is read; it is not written over");
        for words in writing(&from, to) {
            expect_end(&words, 2, &told);
            expect_end(&[&words[..], &["--force"]].concat(), 2, &told);
        }
        let call = shell("planner file - \"$2\" --force <\"$1\"", &[&from, to]);
        assert_eq!((call.status, call.err), (2, format!("planner: {told}\n")));
    }
    assert!(bytes_of(&from) == text, "the text is not what it was");
    assert_eq!(here.names(), ["a.txt", "link", "other", "second"]);
}

/// The files that the three commands write for the triangle.
fn written() -> [Vec<u8>; 3] {
    let here = Folder::new("written");
    let to = here.path("out");
    writing("triangle.txt", &to).map(|words| {
        let _ = std::fs::remove_file(&to);
        planner(&words);
        bytes_of(&to)
    })
}

#[test]
fn a_file_of_another_kind_is_written_over_with_force_alone() {
    let here = Folder::new("kinds");
    let (plan, sheet) = (b"RSG old".to_vec(), b"EQS old".to_vec());
    let (svg, xml) = (b"<svg old".to_vec(), b"<?xml old".to_vec());
    let others = [
        b"notes\n".to_vec(),
        b"RS".to_vec(),
        vec![0, 255],
        b" <svg".to_vec(),
    ];
    let own = [vec![&plan], vec![&sheet], vec![&svg, &xml]];
    let names = ["a plan file", "an equipment sheet", "a picture"];
    for (i, new) in written().into_iter().enumerate() {
        for old in others.iter().chain([&plan, &sheet, &svg, &xml]) {
            let to = here.with("out", old);
            let call = &writing("triangle.txt", &to)[i];
            if own[i].contains(&old) {
                assert_eq!(planner(call).status, 0);
            } else {
                let told = "this file is neither empty nor";
                let told = format!("{to}: {told} {}; --force writes over it", names[i]);
                expect_end(call, 2, &told);
                assert_eq!(&bytes_of(&to), old);
                printed(&[&call[..], &["--force"]].concat());
            }
            assert!(bytes_of(&to) == new, "{call:?} over {old:?}");
        }
        let to = here.with("out", b"");
        printed(&writing("triangle.txt", &to)[i]);
        assert!(bytes_of(&to) == new, "over an empty file");
    }
    assert_eq!(here.names(), ["out"]);
}

/// A limit on the size of files stands for a full disk: a write past 512 or 1,024 bytes fails. The old file is called by its own
/// name and by a link.
#[test]
fn a_full_disk_leaves_what_stood_there() {
    let here = Folder::new("full");
    let from = here.with("large.txt", large().as_bytes());
    let olds = [&b"RSG old"[..], b"EQS old", b"<svg old"];
    let [old, new, link] = ["old", "new", "link"].map(|name| here.path(name));
    symlink("old", &link).expect("a link");
    for (i, bytes) in olds.into_iter().enumerate() {
        for to in [&old, &new, &link] {
            write(&old, bytes).expect("a file of the test");
            let limited = "trap '' XFSZ; ulimit -f 1; planner \"$@\"";
            let call = shell(limited, &writing(&from, to)[i]);
            assert_eq!((call.status, call.out.as_str()), (2, ""), "{}", call.err);
            let told = format!("planner: {to}: File too large");
            assert!(call.err.starts_with(&told), "{}", call.err);
            assert_eq!(bytes_of(&old), bytes);
            assert_eq!(here.names(), ["large.txt", "link", "old"]);
        }
        printed(&writing(&from, &old)[i]);
        assert!(bytes_of(&old).len() > 2_000, "a file past the limit");
    }
}

/// A new file takes the place of the old one, which keeps what it had under its other name, and has its mode.
#[test]
fn a_file_is_replaced_and_not_written_into() {
    let here = Folder::new("replaced");
    let to = here.with("out.plan", b"RSG old");
    let kept = here.path("kept");
    hard_link(&to, &kept).expect("another name");
    for mode in [0o640, 0o600, 0o666] {
        set_permissions(&to, Permissions::from_mode(mode)).expect("a mode");
        let before = metadata(&to).expect("the old file");
        printed(&["file", "triangle.txt", &to]);
        let after = metadata(&to).expect("the new file");
        assert_eq!(after.mode() & 0o7777, mode);
        assert_eq!((after.uid(), after.gid()), (before.uid(), before.gid()));
        assert_ne!(after.ino(), before.ino());
        assert!(bytes_of(&to) == example("triangle.plan"));
    }
    assert_eq!(bytes_of(&kept), b"RSG old");
    assert_eq!(here.names(), ["kept", "out.plan"]);
}

#[test]
fn links_stay_and_lead_to_what_is_written() {
    let here = Folder::new("links");
    let there = Folder::new("links-there");
    there.with("old.plan", b"RSG old");
    let cases = [
        ("old", "../links-there/old.plan"),
        ("new", "../links-there/new.plan"),
    ];
    for (link, leads) in cases {
        let link = here.path(link);
        symlink(leads, &link).expect("a link");
        printed(&["file", "triangle.txt", &link]);
        assert_eq!(read_link(&link).expect("the link"), Path::new(leads));
        assert!(bytes_of(&link) == example("triangle.plan"), "{leads}");
    }
    assert_eq!(here.names(), ["new", "old"]);
    assert_eq!(there.names(), ["new.plan", "old.plan"]);
}

/// A pipe by its name, a pipe of the shell, a device that takes everything and one that is full. A program that replaces what is no
/// file fails at the pipe, before it comes to a device.
#[test]
fn devices_and_pipes_are_written_straight() {
    let here = Folder::new("straight");
    let pipe = here.path("pipe");
    let script =
        "mkfifo \"$1\" && { timeout 60 cat \"$1\" & planner file triangle.txt \"$1\" && wait; }";
    let plan = example("triangle.plan");
    let through = shell(script, &[&pipe]);
    assert_eq!((through.status, through.out.as_bytes()), (0, &plan[..]));
    assert_eq!(here.names(), ["pipe"]);
    let through = shell("planner file triangle.txt /dev/stdout | cat", &[]);
    assert_eq!((through.status, through.out.as_bytes()), (0, &plan[..]));
    printed(&["file", "triangle.txt", "/dev/null"]);
    let full = "/dev/full: No space left on device (os error 28)";
    expect_end(&["file", "triangle.txt", "/dev/full"], 2, full);
}

#[test]
fn a_folder_and_standard_input_are_not_written() {
    let here = Folder::new("folder");
    let path = here.path("");
    expect_end(
        &["file", "triangle.txt", &path],
        2,
        &format!("{path}: is a directory"),
    );
    let script = "cd \"$1\" && planner file \"$2\" -";
    let text = folder().join("triangle.txt");
    let text = text.to_str().expect("a path in UTF-8");
    let call = shell(script, &[&path, text]);
    let told = "planner: -: expected a file to write; found standard input\n";
    assert_eq!((call.status, call.err.as_str()), (2, told));
    assert!(here.names().is_empty());
}
