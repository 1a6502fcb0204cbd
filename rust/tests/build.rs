//! The build script takes archives and object files of the exports alone.

#[allow(dead_code, reason = "its main is cargo's to run")]
#[path = "../build.rs"]
mod build;

use build::{archive_of, exports};

/// Bytes as a table of symbols has the names, but for one.
fn names_but(one: usize) -> Vec<u8> {
    let names = exports().enumerate().filter(|(index, _)| *index != one).map(|(_, name)| name);
    names.flat_map(|name| [b"\0", name.as_bytes(), b"\0"].concat()).collect()
}

#[test]
fn each_export_is_looked_for() {
    let all: Vec<&str> = exports().collect();
    assert!(all.len() > 25 && all.contains(&"overlay_c_new") && all.contains(&"overlay_c_shape_lengths"), "{all:?}");
    assert!(all.iter().all(|name| name.starts_with("overlay_c_")));
    for start in [b"!<arch>\n".as_slice(), b"\x7fELF"] {
        assert!(archive_of(&[start, &names_but(usize::MAX)].concat()).is_ok());
        for (index, name) in all.iter().enumerate() {
            let refused = archive_of(&[start, &names_but(index)].concat()).unwrap_err();
            assert_eq!(refused, format!("is of another version: it lacks {name}"));
        }
    }
}

#[test]
fn other_files_are_refused() {
    for bytes in [b"".as_slice(), b"!<arch>", b"a text", b"\x7fELD"] {
        assert_eq!(archive_of(bytes), Err("is no archive and no object file".to_string()));
    }
}

#[test]
fn an_object_file_is_put_into_an_archive() {
    for more in [b"".as_slice(), b"x"] {
        let object = [b"\x7fELF", names_but(usize::MAX).as_slice(), more].concat();
        let archive = archive_of(&object).unwrap();
        assert_eq!(archive.len() % 2, 0);
        assert_eq!(&archive[..8], b"!<arch>\n");
        assert_eq!(&archive[66..68], b"`\n");
        assert_eq!(std::str::from_utf8(&archive[56..66]).unwrap().trim(), object.len().to_string());
        assert_eq!(&archive[68..68 + object.len()], object);
    }
}
