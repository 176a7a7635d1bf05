//! The header and the examples in C, compiled with all warnings as errors, and run.

use grain::Room;
use std::io::Write;
use std::path::{Path, PathBuf};
use std::process::{Command, Output, Stdio};

const STRICT: [&str; 4] = ["-Wall", "-Wextra", "-Werror", "-pedantic"];

fn root() -> PathBuf {
    Path::new(env!("CARGO_MANIFEST_DIR")).join("..")
}

/// A compiler that finds the header.
fn compiler(name: &str, standard: &str) -> Command {
    let mut command = Command::new(name);
    command.arg(standard).args(STRICT);
    command.arg("-I").arg(root().join("include"));
    command
}

/// A program made of one C file of the repository and the proved library.
fn compiled(source: &str, name: &str) -> PathBuf {
    let program = Path::new(env!("CARGO_TARGET_TMPDIR")).join(name);
    let mut command = compiler("cc", "-std=c99");
    command.arg(root().join(source));
    command.arg(root().join("crates/grain/out/libgrain.a"));
    let output = command.arg("-o").arg(&program).output();
    written(output.expect("there is a C compiler"));
    program
}

/// What a command wrote that went well.
fn written(output: Output) -> String {
    let said = String::from_utf8_lossy(&output.stderr);
    assert!(output.status.success(), "{}: {said}", output.status);
    String::from_utf8(output.stdout).expect("text")
}

#[test]
fn the_example_in_c_answers_as_expected() {
    let program = compiled("examples/verify_script.c", "verify_script");
    let output = Command::new(program).output().expect("it was just made");
    let expected = "01 07: accepted, height 1, instructions 2, reached 2, taken 2\n\
                    07: refused, kind 12, chunk 0, at 0, p 1, q 0\n";
    assert_eq!(written(output), expected);
}

#[test]
fn the_listing_in_c_is_as_expected() {
    let program = compiled("examples/list_script.c", "list_script");
    let output = Command::new(program).output().expect("it was just made");
    let expected = "01 24 02 00 07:\n  0: tag 0x01, width 1\n  1: tag 0x24, width 3\n  \
                    4: tag 0x07, width 1\n  5: the end\n\
                    01 24 02:\n  0: tag 0x01, width 1\n  1: no width\n";
    assert_eq!(written(output), expected);
}

#[test]
fn the_header_is_cpp_too() {
    let mut command = compiler("c++", "-std=c++11");
    command.args([
        "-fsyntax-only",
        "-include",
        "grain.h",
        "-x",
        "c++",
        "/dev/null",
    ]);
    written(command.output().expect("there is a C++ compiler"));
}

// ---------------------------------------------------------------------------------------------
// The room
// ---------------------------------------------------------------------------------------------

/// The code, the words of switches, and the number of chunks.
type Scripted = (Vec<u8>, Vec<u32>, usize);

/// Codes of few different bytes, so that many look like switches; tables with words of all sizes;
/// and what stands at a limit or just over it.
fn scripts() -> Vec<Scripted> {
    let mut seed = 1_u64;
    let mut draw = move |below: u64| {
        seed = seed.wrapping_mul(6_364_136_223_846_793_005).wrapping_add(1);
        (seed >> 33) % below
    };
    let mut all: Vec<Scripted> = vec![
        (vec![0x31; 65_536], vec![u32::MAX; 20_484], 1_024),
        (vec![0x31; 65_537], vec![1; 5], 1),
        (vec![0x31, 0, 0], vec![2; 20_485], 1),
        (vec![0x31, 0, 0], vec![3; 5], 1_025),
    ];
    for _ in 0..400 {
        let code = (0..draw(90)).map(|_| [0, 0, 1, 0x31, 0x38][draw(5) as usize]);
        let code = code.collect();
        let words = (0..draw(20))
            .map(|_| [draw(9), 65_535 + draw(3), draw(1 << 32)][draw(3) as usize] as u32);
        let words = words.collect();
        all.push((code, words, draw(1_026) as usize));
    }
    all
}

fn shown<T: ToString>(numbers: &[T]) -> String {
    let numbers: Vec<String> = numbers.iter().map(T::to_string).collect();
    format!("{} {}", numbers.len(), numbers.join(" "))
}

#[test]
fn the_room_is_the_same_in_both() {
    let program = compiled("rust/tests/room.c", "room");
    let mut command = Command::new(program);
    command.stdin(Stdio::piped()).stdout(Stdio::piped());
    let mut child = command.spawn().expect("it was just made");
    let mut input = child.stdin.take().expect("it is piped");
    let scripts = scripts();
    let mut text = String::new();
    for (code, switches, chunks) in &scripts {
        text += &format!("{} {} {chunks}\n", shown(code), shown(switches));
    }
    // Its answers fit a pipe, so it reads all before anybody has to read them.
    input.write_all(text.as_bytes()).expect("it reads all");
    drop(input);
    let said = written(child.wait_with_output().expect("it ends"));
    let expected = scripts.iter().map(|(code, switches, chunks)| {
        let room = Room::for_code(code, switches, *chunks);
        let Room {
            marks,
            heights,
            records,
            work,
        } = room;
        format!("{marks} {heights} {records} {work}")
    });
    assert_eq!(
        said.lines().collect::<Vec<_>>(),
        expected.collect::<Vec<_>>()
    );
}
