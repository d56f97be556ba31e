//! What names lead to, by hand.

use super::*;

/// A file and a folder with one, links to both, to links, to nothing and to itself.
fn contents() -> Contents {
    let mut contents = Contents::new("/home");
    for (name, entry) in [
        ("file", Entry::File(vec![1])),
        ("closed", Entry::Closed),
        ("closed/inside", Entry::File(vec![3])),
        ("folder", Entry::Folder),
        ("folder/below", Entry::Folder),
        ("folder/inside", Entry::File(vec![2])),
        ("folder/up", Entry::Link("../file".to_string())),
        ("to-file", Entry::Link("file".to_string())),
        ("to-folder", Entry::Link("folder".to_string())),
        ("to-below", Entry::Link("./folder/below/".to_string())),
        ("to-closed", Entry::Link("closed".to_string())),
        ("to-here", Entry::Link(".".to_string())),
        ("folder/to-above", Entry::Link("..".to_string())),
        ("to-link-to-file", Entry::Link("to-file".to_string())),
        ("to-link-to-folder", Entry::Link("to-folder".to_string())),
        ("to-link-to-nothing", Entry::Link("to-nothing".to_string())),
        ("through-a-file", Entry::Link("file/".to_string())),
        ("to-nothing", Entry::Link("nothing".to_string())),
        ("to-itself", Entry::Link("to-itself".to_string())),
    ] {
        contents.put(name, entry);
    }
    contents
}

#[test]
fn files_by_every_spelling() {
    for (name, byte) in [
        ("file", 1),
        ("./file", 1),
        ("folder/../file", 1),
        ("folder//..///file", 1),
        ("/home/file", 1),
        ("to-file", 1),
        ("folder/up", 1),
        ("to-folder/up", 1),
        ("folder/inside", 2),
        ("closed/inside", 3),
        ("closed/../file", 1),
        ("to-folder/inside", 2),
        // What is above the folder that the link leads to.
        ("to-below/../inside", 2),
        ("to-link-to-file", 1),
        ("to-link-to-folder/inside", 2),
        ("to-here/folder/to-above/file", 1),
    ] {
        assert_eq!(contents().read(name), Some(&[byte][..]), "{name}");
    }
}

#[test]
fn names_that_lead_to_no_file() {
    for name in [
        "",
        ".",
        "..",
        "/home/",
        "none",
        "none/../file",
        "file/",
        "file/.",
        "file/../file",
        "folder",
        "folder/",
        "folder/..",
        "to-folder",
        "to-nothing",
        "to-itself",
        "to-itself/file",
        "to-nothing/../file",
        "to-link-to-folder",
        "to-link-to-nothing",
        "through-a-file",
    ] {
        assert_eq!(contents().read(name), None, "{name}");
    }
}

#[test]
fn where_files_can_be_made() {
    for (name, place) in [
        ("new", "new"),
        ("./new", "new"),
        ("/home/new", "new"),
        ("folder/../new", "new"),
        ("folder/new", "folder/new"),
        ("to-folder/new", "folder/new"),
        ("to-below/../new", "folder/new"),
        ("file", "file"),
        // The link itself is replaced.
        ("to-file", "to-file"),
        ("to-nothing", "to-nothing"),
        ("to-itself", "to-itself"),
        ("to-link-to-file", "to-link-to-file"),
        ("to-link-to-nothing", "to-link-to-nothing"),
        ("through-a-file", "through-a-file"),
        ("folder/up", "folder/up"),
        ("to-link-to-folder/up", "folder/up"),
    ] {
        assert_eq!(contents().room_for(name).as_deref(), Some(place), "{name}");
    }
    for name in [
        "",
        ".",
        "..",
        "new/",
        "file/new",
        "file/../new",
        "none/new",
        "none/../new",
        "folder",
        "folder/",
        "folder/below",
        "closed",
        "closed/new",
        "closed/inside",
        "to-nothing/new",
        "to-nothing/",
        "to-itself/new",
        "to-file/",
        // A link that leads to a folder is one.
        "to-folder",
        "to-folder/",
        "./to-folder",
        "/home/to-folder",
        "to-below",
        "to-closed",
        "to-here",
        "folder/to-above",
        "to-folder/to-above",
        "to-link-to-folder",
        "to-link-to-folder/",
    ] {
        assert_eq!(contents().room_for(name), None, "{name}");
    }
}

#[test]
fn long_names() {
    let contents = contents();
    let name = |length| "n".repeat(length);
    assert!(contents.room_for(&name(255)).is_some());
    assert!(contents.room_for(&name(256)).is_none());
    assert!(contents
        .room_for(&format!("folder/{}", name(255)))
        .is_some());
    assert!(contents
        .room_for(&format!("{}/../new", name(256)))
        .is_none());
    // 4,095 and 4,096 characters.
    let spelled = |times| format!("{}x", "./".repeat(times));
    assert!(contents.room_for(&spelled(2_047)).is_some());
    assert!(contents.room_for(&format!("{}y", spelled(2_047))).is_none());
}
