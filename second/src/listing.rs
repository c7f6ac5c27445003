//! The listing of an image, whose blocks are offered one at a time.

use crate::image::{Reader, BLOCK, PAYLOAD};
use crate::refusal::{number_of, Refusal};

/// The input is two keys of 16 bytes, and then the blocks.
pub fn list(input: &[u8]) -> String {
    match started(input) {
        Some((reader, image)) => rows(reader, image),
        None => "keys 1\n".to_string(),
    }
}

/// Under two keys of equal size.
pub fn list_under(keys: &[u8], image: &[u8]) -> Result<String, Refusal> {
    let (encryption_key, check_key) = keys.split_at(keys.len() / 2);
    Ok(rows(Reader::start(encryption_key, check_key)?, image))
}

fn rows(mut reader: Reader, image: &[u8]) -> String {
    let mut text = "block answer length\n".to_string();
    for lent in image.chunks(BLOCK) {
        let expected = reader.expected();
        let (answer, length) = offer(&mut reader, lent);
        text.push_str(&format!("{expected} {answer} {length}\n"));
        if answer != 0 {
            break;
        }
    }
    // The reader began at 0, so the number it expects is the count of blocks accepted.
    text.push_str(&format!(
        "end {} {}\n",
        number_of(&reader.complete()),
        reader.expected()
    ));
    text
}

fn started(input: &[u8]) -> Option<(Reader, &[u8])> {
    let (encryption_key, rest) = input.split_at_checked(16)?;
    let (check_key, image) = rest.split_at_checked(16)?;
    let reader = Reader::start(encryption_key, check_key).ok()?;
    Some((reader, image))
}

/// 0 and the payload length of an accepted block, else the refusal's number and 0.
fn offer(reader: &mut Reader, lent: &[u8]) -> (u8, usize) {
    match reader.turn(1, lent, &mut [0; PAYLOAD]) {
        Err(refusal) => (refusal.number(), 0),
        Ok(turn) => match turn.stop {
            Some(stop) => (stop.reason.number(), 0),
            None => (0, turn.sum),
        },
    }
}

#[cfg(test)]
mod tests {
    use super::*;
    use crate::image::seal_all;

    const KEYS: [u8; 32] = [3; 32];

    fn image(blocks: usize, edition: u32) -> Vec<u8> {
        let payload = vec![1; (blocks - 1) * PAYLOAD + 5];
        let image = seal_all(&KEYS[..16], &KEYS[16..], 1, edition, &payload).unwrap();
        [&KEYS[..], &image].concat()
    }

    #[test]
    fn short_keys_stand_alone() {
        assert_eq!(list(&[]), "keys 1\n");
        assert_eq!(list(&[0; 31]), "keys 1\n");
    }

    #[test]
    fn keys_of_every_size() {
        for size in [32, 48, 64] {
            let keys = vec![5; size];
            let (e, c) = keys.split_at(size / 2);
            let image = seal_all(e, c, 1, 2, &[1; 481]).unwrap();
            let listed = "block answer length\n0 0 480\n1 0 1\nend 0 2\n";
            assert_eq!(list_under(&keys, &image).unwrap(), listed);
        }
        assert!(list_under(&[5; 40], &[]).is_err());
    }

    #[test]
    fn nothing_after_the_keys() {
        assert_eq!(list(&[0; 32]), "block answer length\nend 17 0\n");
    }

    #[test]
    fn a_rest_is_offered_as_it_is() {
        assert_eq!(list(&[9; 132]), "block answer length\n0 6 0\nend 17 0\n");
    }

    #[test]
    fn a_whole_image() {
        let listed = "block answer length\n0 0 480\n1 0 480\n2 0 5\nend 0 3\n";
        assert_eq!(list(&image(3, 1)), listed);
        assert_eq!(list(&image(3, 2)), listed);
    }

    #[test]
    fn a_cut_image_and_one_with_more_behind() {
        let image = image(2, 2);
        assert_eq!(
            list(&image[..544]),
            "block answer length\n0 0 480\nend 17 1\n"
        );
        let longer = [image, vec![0; 1024]].concat();
        assert_eq!(
            list(&longer),
            "block answer length\n0 0 480\n1 0 5\n2 16 0\nend 0 2\n"
        );
    }
}
