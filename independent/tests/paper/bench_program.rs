//! The bench program as 01's bench sheet describes it.

use independent::bench::{run, INPUT_LIMIT};

fn output(input: &[u8]) -> String {
    String::from_utf8(run(input)).unwrap()
}

/// "For the input .. the whole output is:"
#[test]
fn paper_input_gives_paper_output() {
    assert_eq!(
        output(b"731 0 4 11 22 33 44\n0x100 0 0\n"),
        "31070000010004001122334400000000\nrefused 9 used 10\n"
    );
}

/// "when no input is left it stops without a line"
#[test]
fn no_input_gives_no_output() {
    assert_eq!(output(b""), "");
}

/// "refusal 6 is printed and ends it"
#[test]
fn text_without_an_end_ends_the_program() {
    assert_eq!(
        output(b"1 1 F\r\n\0\n2 0 0"),
        "0100000001010F000000000000000000\nrefused 6 used 0\n"
    );
    assert_eq!(output(b" "), "refused 6 used 0\n");
}

/// "The send buffer is emptied after each": many texts never meet a full buffer.
#[test]
fn buffer_is_emptied_after_each() {
    let lines = output(&b"7FF 0 1 AB\n".repeat(1_000));
    assert_eq!(lines, "FF07000001000100AB00000000000000\n".repeat(1_000));
}

/// Numbers of refusal and use are decimal, and every refusal goes on behind its run of ends.
#[test]
fn every_refusal_of_a_text_but_6_goes_on() {
    let input = b"\r\n800 0 0\n0 2 0\n0 0 10\n0 0 1\n0 0 0 1 2 3 4 5 6 7 8 9\n0 0 0 100\n";
    let expected = "refused 7 used 2\nrefused 8 used 8\nrefused 9 used 6\nrefused 10 used 7\n\
                    refused 7 used 6\nrefused 11 used 24\nrefused 12 used 10\n";
    assert_eq!(output(input), expected);
}

/// "bytes past 65,536 are not read"
#[test]
fn bytes_past_the_limit_are_not_read() {
    let mut input = vec![b' '; INPUT_LIMIT - 5];
    input.extend(b"1 0 0\n");
    assert_eq!(output(&input), "refused 6 used 0\n");
    input.remove(0);
    assert_eq!(output(&input), "01000000010000000000000000000000\n");
    input.extend(b"2 0 0\n");
    assert_eq!(output(&input), "01000000010000000000000000000000\n");
}
