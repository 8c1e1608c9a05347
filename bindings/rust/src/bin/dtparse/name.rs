//! Names of files, which can hold any bytes, in messages and in commands.

use crate::shown::is_hidden;

/// The name of the standard input.
pub const STANDARD_INPUT: &str = "-";

/// A text on one line that moves no cursor: a byte that is not seen, or belongs to no character, is written `\x1b`.
pub fn escaped(bytes: &[u8]) -> String {
    let mut out = String::new();
    for chunk in bytes.utf8_chunks() {
        for character in chunk.valid().chars() {
            match character {
                '\n' => out += "\\n",
                '\r' => out += "\\r",
                '\t' => out += "\\t",
                _ if is_unseen(character) => push_bytes(&mut out, character.encode_utf8(&mut [0; 4]).as_bytes()),
                _ => out.push(character),
            }
        }
        push_bytes(&mut out, chunk.invalid());
    }
    out
}

fn push_bytes(out: &mut String, bytes: &[u8]) {
    out.extend(bytes.iter().map(|byte| format!("\\x{byte:02x}")));
}

fn is_unseen(character: char) -> bool {
    character.is_control() || is_hidden(character)
}

/// A name as a shell takes it. `$'..'`, which bash, zsh and ksh know, is for bytes that are not seen.
pub fn shell_word(name: &[u8]) -> String {
    let is_plain = |c: char| c.is_alphanumeric() || "_-./+,@%:=".contains(c);
    let text = std::str::from_utf8(name).unwrap_or("\0");
    match text {
        _ if name.starts_with(b"-") => shell_word(&[b"./", name].concat()),
        _ if text.chars().any(is_unseen) => {
            let quoted = name.iter().flat_map(|byte| match byte {
                b'\\' | b'\'' => vec![b'\\', *byte],
                _ => vec![*byte],
            });
            format!("$'{}'", escaped(&quoted.collect::<Vec<_>>()))
        }
        _ if text.chars().all(is_plain) => text.to_string(),
        _ => format!("'{}'", text.replace('\'', "'\\''")),
    }
}

#[cfg(test)]
mod tests {
    use super::*;

    #[test]
    fn nothing_moves_the_cursor() {
        assert_eq!(escaped(b"a b\\\x1b[2J\xff\n\t\r\x7f"), r"a b\\x1b[2J\xff\n\t\r\x7f");
        assert_eq!(escaped("é漢\u{9b}\u{202e}".as_bytes()), r"é漢\xc2\x9b\xe2\x80\xae");
    }

    #[test]
    fn names_are_written_for_a_shell() {
        assert_eq!(shell_word(b"boards/a-1.dts"), "boards/a-1.dts");
        assert_eq!(shell_word(b"my board's.dts"), "'my board'\\''s.dts'");
        assert_eq!(shell_word(b"-a.dts"), "./-a.dts");
        assert_eq!(shell_word(b"$(a)"), "'$(a)'");
        assert_eq!(shell_word(b"a\\'\x1b\xff"), r"$'a\\\'\x1b\xff'");
    }

    #[test]
    fn a_shell_reads_the_name_again() {
        for name in [b"\x1b[2J\\'\" \n\xff\xfe".as_slice(), b"it's", b"-a b", "é\u{202e}".as_bytes()] {
            let script = format!("printf %s {}", shell_word(name));
            let Ok(said) = std::process::Command::new("bash").args(["-c", &script]).output() else {
                println!("no bash");
                return;
            };
            assert_eq!(said.stdout.strip_prefix(b"./".as_slice()).unwrap_or(&said.stdout), name, "{script}");
        }
    }
}
