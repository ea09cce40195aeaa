//! The examples of README.md, each run as printed.

use second::protocol::Kind;

/// The text between the quotes, as the shell's `echo` or `printf` would give it.
fn input(command: &str) -> Vec<u8> {
    let text = command.split('\'').nth(1).unwrap();
    match command.split_whitespace().next() {
        Some("echo") => format!("{text}\n").into_bytes(),
        Some("printf") => text.replace("\\n", "\n").into_bytes(),
        other => panic!("no example begins with {other:?}"),
    }
}

#[test]
fn examples_give_what_is_printed() {
    let readme = include_str!("../README.md");
    let mut examples: Vec<(&str, String)> = Vec::new();
    for line in readme.lines().map_while(|line| (!line.starts_with("## Inputs")).then_some(line)) {
        if let Some(command) = line.strip_prefix("    $ ") {
            examples.push((command, String::new()));
        } else if let (Some(output), Some(last)) = (line.strip_prefix("    "), examples.last_mut()) {
            last.1 += &format!("{output}\n");
        }
    }
    assert!(examples.len() >= 20);
    for (command, output) in examples {
        let kind = Kind::of(command.rsplit(' ').next().unwrap()).unwrap();
        assert_eq!(String::from_utf8(kind.answer(&input(command)).unwrap()).unwrap(), output, "{command}");
    }
}

/// What does not follow a protocol, and what is said of it.
const REFUSED: [(Kind, &str, &str); 24] = [
    (Kind::Features, "4C4\n", "line 1: name is 4C4"),
    (Kind::Features, "4C 41\n", "line 1: 41 is one too many"),
    (Kind::Features, "4C\n\n", "line 2: no name"),
    (Kind::Good, "1 4294967296\n", "line 1: word is 4294967296"),
    (Kind::Good, "1 -1\n", "line 1: word is -1"),
    (Kind::Likeness, "1 8 13 6 7\n", "line 1: no c"),
    (Kind::Frames, "look\n", "line 1: look is neither read nor write"),
    (Kind::Frames, "read 4D 0 -\n", "line 1: no such kind"),
    (Kind::Frames, "write 52 14 65536 6 6 4\n", "line 1: id is 65536"),
    (Kind::Frames, "write 52 14 10 6 6\n", "line 1: no least"),
    (Kind::Frames, "write 52 14 10 6 6 256\n", "line 1: least is 256"),
    (Kind::LogFrames, "write 4C 12 65536 6 6\n", "line 1: day is 65536"),
    (Kind::Import, "1 1 1 6 0 -\n", "line 1: pairs is -"),
    (Kind::Import, "1 1 1 6 0 0\n", "line 1: no log"),
    (Kind::Many, "1 1 1 6 0 0 4142 2 1\n", "line 1: no end"),
    (Kind::Many, "1 1 1 6 0 0 4142\n", "line 1: no count"),
    (Kind::Add, "65536 41 0 0 0\n", "line 1: id is 65536"),
    (Kind::Add, "1\n", "line 1: no name"),
    (Kind::Withdraw, "\n", "line 1: no id"),
    (Kind::Withdraw, "1 0 0 4294967296\n", "line 1: word is 4294967296"),
    (Kind::Calls, "\n", "line 1: no length"),
    (Kind::Calls, "3 5\n", "line 1: call is 5"),
    (Kind::Calls, "3 -65536\n", "line 1: call is -65536"),
    (Kind::Calls, "3 -5 +5\n", "line 1: call is +5"),
];

#[test]
fn a_line_that_does_not_follow_its_protocol() {
    for (kind, input, why) in REFUSED {
        assert_eq!(kind.answer(input.as_bytes()), Err(why.to_string()));
    }
    // Hexadecimal words, and an empty slice: a line without words.
    assert_eq!(Kind::Good.answer(b"0x0 0x0 0x00\n\n0 0 0 0xFFFFFFFF\n").unwrap(), b"1\n0\n1\n");
    // A run without calls, and one of no words either.
    assert_eq!(Kind::Calls.answer(b"3\n0\n4 -0x5\n").unwrap(), b"0 0 0\n\n13 0 0 0 4294967295\n");
}
