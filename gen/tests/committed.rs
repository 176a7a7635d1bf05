//! The committed files are what is printed.

use gen::text::WIDTH;

#[test]
fn committed_files_are_what_is_printed() {
    for file in gen::files() {
        let committed = std::fs::read_to_string(file.path()).expect(file.place);
        for (number, (committed, printed)) in committed.lines().zip(file.text.lines()).enumerate() {
            assert_eq!(committed, printed, "{} differs in line {}; print it again", file.place, number + 1);
        }
        assert!(committed == file.text, "{} ends elsewhere; print it again", file.place);
    }
}

#[test]
fn no_printed_line_is_too_long() {
    for file in gen::files() {
        for (number, line) in file.text.lines().enumerate() {
            assert!(line.chars().count() <= WIDTH, "{}: line {} is too long", file.place, number + 1);
        }
    }
}
