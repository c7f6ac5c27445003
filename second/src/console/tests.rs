//! Tests of the console's lines.

use super::*;

const KEY: &str = "2b7e151628aed2a6abf7158809cf4f3c";
const ZEROS: &str = "00000000000000000000000000000000";

fn served(input: &[u8]) -> String {
    let mut output = Vec::new();
    serve(&mut &*input, &mut output).unwrap();
    String::from_utf8(output).unwrap()
}

/// The answer to the last of some lines.
fn last_answer(lines: &[&str]) -> String {
    let mut console = Console::default();
    lines
        .iter()
        .map(|line| console.answer(line.as_bytes()))
        .last()
        .unwrap()
}

fn answer(line: &str) -> String {
    last_answer(&[line])
}

#[test]
fn good_lines() {
    assert_eq!(answer("product 57 13"), "0 fe");
    assert_eq!(
        answer(&format!("encrypt {KEY} 3243F6A8885a308d313198a2e0370734")),
        "0 3925841d02dc09fbdc118597196a0b32"
    );
    assert_eq!(
        answer(&format!("decrypt {KEY} 3925841d02dc09fbdc118597196a0b32")),
        "0 3243f6a8885a308d313198a2e0370734"
    );
    assert_eq!(
        answer(&format!("check {KEY} -")),
        "0 bb1d6929e95937287fa37d129b756746"
    );
    assert_eq!(answer(&format!("ecb-encrypt {KEY} - - -")), "0 -");
    assert_eq!(answer(&format!("ecb-encrypt {KEY} - - AB")), "0 ab");
}

#[test]
fn the_states_of_an_apprentice() {
    assert_eq!(answer("saes-encrypt 1F56 2726"), "0 3870 8da9 2105");
    assert_eq!(answer("saes-decrypt 1f56 2105"), "0 620e 93e1 2726");
}

#[test]
fn wrapped_and_back() {
    let key = "000102030405060708090a0b0c0d0e0f";
    let data = "00112233445566778899aabbccddeeff";
    let wrapped = "1fa68b0a8112b447aef34bd8fb5a7b829d3e862371d2cfe5";
    let (room, more) = ("77".repeat(24), "77".repeat(25));
    assert_eq!(
        answer(&format!("wrap {key} {data} {room}")),
        format!("0 {wrapped}")
    );
    assert_eq!(
        answer(&format!("wrap {key} {data} {more}")),
        format!("0 {wrapped}77")
    );
    assert_eq!(
        answer(&format!("unwrap {key} {wrapped} {more}")),
        format!("0 {data}{}", "77".repeat(9))
    );
}

#[test]
fn schedule_shows_sixty_words() {
    let shown = answer(&format!("schedule {KEY}"));
    assert_eq!(shown.len(), 2 + 480);
    assert!(shown.starts_with(&format!("0 {KEY}")));
    assert!(shown.ends_with(&format!("b6630ca6{}", "0".repeat(128))));
    assert_eq!(answer("schedule -"), format!("1 {}", "0".repeat(480)));
}

#[test]
fn refused_lines_give_zeros_or_the_lent_output() {
    assert_eq!(answer(&format!("encrypt 00 {ZEROS}")), format!("1 {ZEROS}"));
    assert_eq!(answer("check - -"), format!("1 {ZEROS}"));
    for (words, number) in [
        ("- 00".to_string(), 2),
        (format!("{ZEROS} 00"), 3),
        (format!("{ZEROS} {ZEROS}"), 4),
    ] {
        assert_eq!(
            answer(&format!("cbc-encrypt {KEY} {words} aa")),
            format!("{number} {ZEROS} aa")
        );
    }
    assert_eq!(
        answer(&format!("write {KEY} {KEY} 0 0 0 3 {ZEROS} - aa")),
        "7 aa"
    );
    assert_eq!(
        answer(&format!("write {KEY} {KEY} 1 1 0 3 {ZEROS} - aa")),
        "8 aa"
    );
    assert_eq!(
        answer(&format!("write {KEY} {KEY} 0 2 0 3 {ZEROS} - aa")),
        "12 aa"
    );
    for (edition, number) in [("0", "13"), ("3", "13"), ("1", "4"), ("002", "4")] {
        assert_eq!(
            answer(&format!("write {KEY} {KEY} 0 1 0 {edition} {ZEROS} - aa")),
            format!("{number} aa")
        );
    }
    assert_eq!(answer("wrap 00 00 aa"), "1 aa");
    assert_eq!(answer(&format!("wrap {KEY} 00 aa")), "18 aa");
    assert_eq!(answer(&format!("wrap {KEY} {ZEROS} aa")), "4 aa");
    assert_eq!(answer("unwrap - - aa"), "1 aa");
    assert_eq!(answer(&format!("unwrap {KEY} {ZEROS} -")), "18 -");
    assert_eq!(answer(&format!("unwrap {KEY} {ZEROS}{ZEROS} aa")), "4 aa");
    assert_eq!(
        answer(&format!("unwrap {KEY} {ZEROS}{ZEROS} {ZEROS}{ZEROS}")),
        format!("19 {ZEROS}{ZEROS}")
    );
}

#[test]
fn bad_lines() {
    for line in [
        "",
        " ",
        "-",
        "help",
        "PRODUCT 57 13",
        " product 57 13",
        "product 57 13 ",
        "product  57 13",
        "product 57\t13",
        "product 57 13\r",
        "product 57",
        "product 57 13 00",
        "product 5 13",
        "product 5g 13",
        "product - 13",
        "product 5757 13",
        "check-close -",
        "schedule",
        "schedule --",
        "encrypt 00 00",
        "read-turn - - -",
        "read-turn +1 - -",
        "read-turn 0x1 - -",
        "read-turn 18446744073709551616 - -",
        "write - - 4294967296 0 0 1 00000000000000000000000000000000 - -",
        "write - - 0 0 0 4294967296 00000000000000000000000000000000 - -",
        "write - - 0 0 0 - 00000000000000000000000000000000 - -",
        "write - - 0 0 0 1 - - -",
        "write - - 0 0 0 1 000000000000000000000000000000 - -",
        "write - - 0 0 0 1 0000000000000000000000000000000000 - -",
        "write - - 0 0 0 1 00000000000000000000000000000000 -",
        "write - - 0 0 0 1 00000000000000000000000000000000 - - -",
        "write - - 0 0 0 - -",
        "wrap - -",
        "wrap - - - -",
        "wrap 0 - -",
        "unwrap - - 0",
        "Unwrap - - -",
        "saes-encrypt 1f56",
        "saes-encrypt 1f56 2726 -",
        "saes-encrypt 1f 2726",
        "saes-decrypt 1f56 272600",
        "saes-decrypt - 2726",
    ] {
        assert_eq!(answer(line), "?", "{line:?}");
    }
    assert_eq!(Console::default().answer(b"schedule \xff\x00"), "?");
}

#[test]
fn numbers_are_judged_by_value() {
    assert_eq!(
        answer("read-turn 18446744073709551615 - -"),
        "5 0 0 - - - -"
    );
    assert_eq!(
        answer("read-turn 0000000000000000000000000128 - -"),
        "0 0 0 - - - -"
    );
    assert_eq!(
        answer(&format!(
            "write - - 4294967295 0004294967295 0 004294967295 {ZEROS} - -"
        )),
        "1 -"
    );
}

#[test]
fn running_check_is_held() {
    let start = format!("check-start {KEY}");
    assert_eq!(last_answer(&["check-close"]), format!("0 {ZEROS}"));
    assert_eq!(last_answer(&[&start]), "0");
    assert_eq!(last_answer(&[&start, "check-feed 6bc1"]), "0");
    let closed = "0 070a16b46b4d4144f79bdd9dd04a287c";
    let parts = ["check-feed 6bc1", "check-feed bee22e409f96e93d7e117393172a"];
    assert_eq!(
        last_answer(&[&start, parts[0], "check-feed 0", parts[1], "check-close"]),
        closed
    );
    assert_eq!(last_answer(&[&start, "check-start 00"]), "1");
    assert_eq!(
        last_answer(&[&start, "check-start 00", "check-close"]),
        format!("0 {ZEROS}")
    );
}

#[test]
fn reader_is_held() {
    let write = answer(&format!(
        "write {KEY} {KEY} 0 1 9 2 {KEY} abcd {}",
        "55".repeat(512)
    ));
    let block = write.strip_prefix("0 ").unwrap();
    let start = format!("read-start {KEY} {KEY}");
    let (room, stays) = ("77".repeat(481), "77".repeat(481));
    let turn = format!("read-turn 1 {block} {room}");
    let opened = format!("abcd{}77", "00".repeat(478));
    assert_eq!(last_answer(&[&turn]), format!("0 0 0 0 14 - {stays}"));
    assert_eq!(
        last_answer(&[&start, &turn]),
        format!("0 1 2 - - - {opened}")
    );
    assert_eq!(last_answer(&[&start, &turn, "read-complete"]), "0");
    assert_eq!(last_answer(&[&start, "read-complete"]), "17");
    assert_eq!(
        last_answer(&[&start, &turn, &turn]),
        format!("0 0 0 0 16 - {stays}")
    );
    assert_eq!(
        last_answer(&[&start, &turn, "read-turn 1 00 aa"]),
        "6 0 0 - - - aa"
    );
    assert_eq!(
        last_answer(&[&start, "read-start - -", &turn]),
        format!("0 0 0 0 14 - {stays}")
    );
}

#[test]
fn lines_end_with_a_feed_or_with_the_input() {
    assert_eq!(served(b""), "");
    assert_eq!(served(b"\n"), "?\n");
    assert_eq!(served(b"product 01 02\n"), "0 02\n");
    assert_eq!(served(b"product 01 02"), "0 02\n");
    assert_eq!(served(b"\n\nproduct 01 02"), "?\n?\n0 02\n");
}

#[test]
fn the_longest_line_and_one_byte_more() {
    let longest = format!("check-start {}", "00".repeat((LONGEST - 12) / 2));
    assert_eq!(longest.len(), LONGEST);
    assert_eq!(served(longest.as_bytes()), "1\n");
    assert_eq!(
        served(format!("{longest}\nread-complete\n").as_bytes()),
        "1\n17\n"
    );
    assert_eq!(served(format!("{longest}0").as_bytes()), "?\n");
    assert_eq!(
        served(format!("{longest}0\nread-complete\n").as_bytes()),
        "?\n17\n"
    );
    assert_eq!(
        served(format!("{longest}{longest}{longest}\n\n").as_bytes()),
        "?\n?\n"
    );
}

#[test]
fn views_of_stored_images() {
    let (first, check) = ("11".repeat(496), "22".repeat(16));
    let image = format!("{first}{check}{}", "33".repeat(512));
    let view =
        |call: &str, image: &str, place: &str| answer(&format!("view-{call} {image} {place}"));
    assert_eq!(view("block", &image, "0"), format!("0 2 0 {first}{check}"));
    assert_eq!(view("check", &image, "00"), format!("0 2 0 {check}"));
    assert_eq!(
        view("check", &image, "1"),
        format!("0 2 0 {}", "33".repeat(16))
    );
    assert_eq!(view("block", &image, "2"), "0 2 20 -");
    assert_eq!(view("block", &image, "18446744073709551615"), "0 2 20 -");
    assert_eq!(view("block", &image[2..], "0"), "6 0 20 -");
    assert_eq!(view("check", "-", "0"), "0 0 20 -");
    assert_eq!(view("block", &image, "18446744073709551616"), BAD);
    assert_eq!(view("block", &image, "-"), BAD);
    assert_eq!(view("block", &image[1..], "0"), BAD);
    assert_eq!(answer(&format!("view-block {image}")), BAD);
}
