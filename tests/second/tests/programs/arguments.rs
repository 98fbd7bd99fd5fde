//! Arguments that are wrong: the program says so, shows how it is called, and writes nothing. And
//! those that are right.

use crate::feed::{run, Written};
use crate::filters::{demapped, mapped};
use second::seeds;

const NOT_DECIMAL: &str = "odu0map: the arguments are not two decimal numbers of 32 bits\n";
const USAGE: &str = "usage: odu0map [P Q], client bytes a frame as P / Q: Q from 1 to 65535, \
                     P / Q from 14405 to 14410\n";

/// Asserts that odu0map turns these arguments back with a message.
fn assert_wrong(arguments: &[&str], message: &str) {
    let written = run("odu0map", arguments, vec![vec![0; 20_000]], None);
    let wanted = Written { out: vec![], said: format!("{message}{USAGE}") };
    assert_eq!(written, wanted, "{arguments:?}");
}

/// Asserts that odu0map takes neither P nor Q for a decimal number if it is spelled so.
fn assert_not_decimal(text: &str) {
    assert_wrong(&[text, "1"], NOT_DECIMAL);
    assert_wrong(&["14407", text], NOT_DECIMAL);
    assert_wrong(&[text, text], NOT_DECIMAL);
}

/// Asserts that odu0map maps 14,407 bytes a frame.
fn assert_right(arguments: &[&str]) {
    let input = seeds::random("assert_right").bytes(3 * 14407 + 5);
    let written = run("odu0map", arguments, vec![input.clone()], None);
    assert!(written == mapped(&input, (14407, 1)), "{arguments:?}: {}", written.said);
}

/// A number with zeros before it, in so many digits.
fn padded(number: &str, digits: usize) -> String {
    "0".repeat(digits - number.len()) + number
}

#[test]
fn too_few_and_too_many() {
    let long = padded("14407", 5000);
    let cases: [&[&str]; 7] = [
        &["14407"],
        &[""],
        &["14407 1"],
        &[&long],
        &["14407", "1", "1"],
        &["14407", "1", ""],
        &["14407", "1", "14407", "1"],
    ];
    for arguments in cases {
        assert_wrong(arguments, NOT_DECIMAL);
    }
}

#[test]
fn empty_or_blank() {
    for text in ["", " ", "\t", "\n", " 14407", "14407 ", "14 407", "1\t", "\n1", "1\n"] {
        assert_not_decimal(text);
    }
}

#[test]
fn with_a_sign() {
    for text in ["+", "-", "+1", "-1", "+14407", "-14407", "-0", "1-", "14,407", "14407.0", "1/1"] {
        assert_not_decimal(text);
    }
}

/// Letters, the characters beside the digits, and a digit of another script.
#[test]
fn with_a_letter() {
    for text in ["x", "14407x", "x14407", "144o7", "0x3847", "1e4", "1u", "/1", "1:", "\u{FF11}"] {
        assert_not_decimal(text);
    }
}

#[test]
fn more_than_32_bits() {
    // 2^32, 14407 above 2^32, and 14407 above 2^64.
    for text in ["4294967296", "4294981703", "18446744073709566023"] {
        assert_not_decimal(text);
        assert_not_decimal(&padded(text, 64));
    }
    for digits in [11, 63, 64] {
        assert_not_decimal(&"1".repeat(digits));
        assert_not_decimal(&"9".repeat(digits));
    }
    // The largest number of 32 bits is one.
    assert_wrong(&["4294967295", "65535"], "odu0map: refused, rate (number 4)\n");
    assert_wrong(&["4294967295", "65536"], "odu0map: refused, divisor (number 3)\n");
    assert_wrong(&["4294967295", "4294967295"], "odu0map: refused, divisor (number 3)\n");
}

#[test]
fn zeros_before_a_number() {
    for digits in [6, 10, 11, 20, 63, 64] {
        assert_right(&[&padded("14407", digits), "1"]);
        assert_right(&["14407", &padded("1", digits)]);
        assert_right(&[&padded("14407", digits), &padded("1", digits)]);
    }
}

/// An argument has at most 64 bytes: none is cut short, whatever its beginning spells.
#[test]
fn of_more_than_64_digits() {
    for digits in [65, 66, 128, 4096, 5000, 100_000] {
        assert_not_decimal(&padded("14407", digits));
        assert_not_decimal(&padded("1", digits));
        assert_not_decimal(&padded("", digits));
        assert_not_decimal(&"1".repeat(digits));
    }
    for behind in ["0", "7", "x", " ", &"0".repeat(5000)] {
        assert_not_decimal(&(padded("14407", 64) + behind));
        assert_not_decimal(&(padded("1", 64) + behind));
    }
}

#[test]
fn a_rate_that_is_refused() {
    let zero = padded("", 64);
    assert_wrong(&["14407", "0"], "odu0map: refused, divisor (number 3)\n");
    assert_wrong(&["14407", &zero], "odu0map: refused, divisor (number 3)\n");
    assert_wrong(&["14407", "65536"], "odu0map: refused, divisor (number 3)\n");
    assert_wrong(&[&zero, "1"], "odu0map: refused, rate (number 4)\n");
    assert_wrong(&["14404", "1"], "odu0map: refused, rate (number 4)\n");
    assert_wrong(&["14411", "1"], "odu0map: refused, rate (number 4)\n");
}

/// Asserts that odu0demap turns these arguments back, and takes no frame.
fn assert_turned_back(arguments: &[&str]) {
    let said = "odu0demap: the arguments are mend, or type and a number from 0 to 255, or both in \
                this order\n\
                usage: odu0demap [mend] [type T], frames on standard input, client bytes on \
                standard output\n";
    let written = run("odu0demap", arguments, vec![vec![0; 20_000]], None);
    assert_eq!(written, Written { out: vec![], said: said.into() }, "{arguments:?}");
}

#[test]
fn odu0demap_takes_mend() {
    let near = ["men", "mende", "mended", "mends", "nend", "mene", "menb", "end", "Mend", "MEND"];
    let blank = ["", " ", "\n", " mend", "mend ", "mend\n", "\tmend", "m end", "mend mend"];
    let other = ["x", "-", "-mend", "--mend", "mend=1", "\"mend\"", "1", "0", "off", "m\u{e9}nd"];
    for text in near.into_iter().chain(blank).chain(other) {
        assert_turned_back(&[text]);
        assert_turned_back(&[text, "type", "7"]);
    }
    for length in [3, 4, 5, 59, 60, 61, 64, 124, 252, 4092, 5000, 100_000] {
        assert_turned_back(&[&("mend".to_string() + &"\u{1}".repeat(length))]);
        assert_turned_back(&[&("mend".to_string() + &padded("", length))]);
        assert_turned_back(&[&(padded("", length) + "mend")]);
        assert_turned_back(&[&padded("", length)]);
    }
    let cases: [&[&str]; 8] = [
        &["mend", "mend"],
        &["mend", ""],
        &["", "mend"],
        &["", ""],
        &["mend", "x"],
        &["14407", "1"],
        &["me", "nd"],
        &["mend"; 100],
    ];
    for arguments in cases {
        assert_turned_back(arguments);
    }
}

#[test]
fn odu0demap_takes_a_type() {
    let near = ["typ", "types", "type7", "type 7", "type=7", "ype", "Type", "TYPE", "typo", "tape"];
    let blank = ["", " ", " type", "type ", "type\n", "-type", "--type", "t\u{ff}pe", "mendtype"];
    for text in near.into_iter().chain(blank).chain(["type"]) {
        assert_turned_back(&[text]);
        assert_turned_back(&["mend", text]);
    }
    for text in near.into_iter().chain(blank) {
        assert_turned_back(&[text, "7"]);
        assert_turned_back(&["mend", text, "7"]);
    }
    for length in [4, 59, 60, 61, 64, 252, 5000] {
        assert_turned_back(&[&("type".to_string() + &padded("", length)), "7"]);
        assert_turned_back(&[&("type".to_string() + &"\u{1}".repeat(length)), "7"]);
    }
    let cases: [&[&str]; 12] = [
        &["7"],
        &["7", "type"],
        &["mend", "7"],
        &["type", "mend"],
        &["type", "type"],
        &["type", "7", "mend"],
        &["type", "7", "7"],
        &["type", "7", ""],
        &["type", "7", "type", "7"],
        &["mend", "mend", "type", "7"],
        &["mend", "type", "7", "mend"],
        &["mend", "type", "7", "8"],
    ];
    for arguments in cases {
        assert_turned_back(arguments);
    }
}

#[test]
fn types_that_are_no_number_from_0_to_255() {
    // 7 above 2^8, 2^16, 2^32 and 2^64 among them.
    let large = ["256", "263", "300", "999", "1000", "65543", "4294967303", "18446744073709551623"];
    let blank = ["", " ", "7 ", " 7", "\t7", "7\n", "1 2"];
    let other = ["x", "-1", "-0", "+7", "7.", "7,", "0x7", "7x", "x7", "1e1", "/", ":", "\u{FF17}"];
    let long = [65, 66, 128, 5000].map(|digits| padded("7", digits));
    let long = long.iter().map(String::as_str).chain(["7777777777", "99999999999999999999"]);
    for text in large.into_iter().chain(blank).chain(other).chain(long) {
        assert_turned_back(&["type", text]);
        assert_turned_back(&["mend", "type", text]);
    }
}

/// Each number is the type that it spells: frames of that type are handed out once it is accepted,
/// and to one who expects a type beside it nothing is.
#[test]
fn types_from_0_to_255() {
    let mut frames =
        mapped(&seeds::random("types_from_0_to_255").bytes(514 * 14407), (14407, 1)).out;
    let bytes = |frames: &[u8], of: &str| {
        let written = run("odu0demap", &["type", of], vec![frames.to_vec()], None);
        let accepted = format!("frame 513: accepted type {}\n", frames[11430]);
        assert!(written.said.contains(&accepted), "type {of}: {}", written.said);
        written.out.len()
    };
    for psi in [0, 1, 9, 10, 99, 100, 128, 199, 249, 250, 255] {
        for frame_number in [1, 257, 513] {
            frames[(frame_number - 1) * 15240 + 11430] = psi;
        }
        assert_eq!(bytes(&frames, &psi.to_string()), 14407, "type {psi}");
        assert_eq!(bytes(&frames, &(psi ^ 1).to_string()), 0, "type {psi}");
    }
    // Zeros before the number, in up to 64 digits.
    for digits in [4, 20, 63, 64] {
        assert_eq!(bytes(&frames, &padded("255", digits)), 14407, "{digits} digits");
    }
}

/// No argument and `mend`: both take frames, of which only the second mends one.
#[test]
fn odu0demap_with_and_without_mend() {
    let mut input =
        mapped(&seeds::random("odu0demap_with_and_without_mend").bytes(3 * 14407), (14407, 1)).out;
    input[7621] ^= 1;
    let cases: [(&[&str], &str, usize); 2] = [
        (
            &[],
            "frame 1: BADCHECK -\nframe 2: READ 14407\n\
             odu0demap: frames 3, BADCHECK 1, bytes 14407\n",
            14407,
        ),
        (
            &["mend"],
            "frame 1: READ 14407 mended\nodu0demap: frames 3, BADCHECK 0, bytes 28814\n",
            2 * 14407,
        ),
    ];
    for (arguments, said, bytes) in cases {
        let written = run("odu0demap", arguments, vec![input.clone()], None);
        assert_eq!((written.said.as_str(), written.out.len()), (said, bytes), "{arguments:?}");
        assert!(written == demapped(&input, arguments), "{arguments:?}");
    }
}
