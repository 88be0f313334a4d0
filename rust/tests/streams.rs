//! Walking a stream, and the listing of a capture.

use frayedbin::{list, words_of_type, Found, Messages, Refusal, TextBytesIterator, UmpStream};

/// The words of the scope paper's sample listing.
const SAMPLE: [u32; 13] = [
    0x10F8_0000,
    0xF011_8301,
    0x0201_0000,
    0,
    0,
    0xF012_0541,
    0,
    0,
    0,
    0xF011_0000,
    0,
    0,
    0,
];

const SAMPLE_LISTED: &str = "\
0 other 1 1
1 function-block-info 1 1 3 0 0 1 2 1 0 0
5 function-block-name 1 5 41
9 refused 10 0
end 13 0
";

/// What a walk answers where it refuses some words.
fn refused(position: usize, refusal: Refusal, words: &[u32]) -> (usize, Found<'_>) {
    (position, Found::Refused { refusal, words })
}

fn bytes(words: &[u32]) -> Vec<u8> {
    words.iter().flat_map(|word| word.to_be_bytes()).collect()
}

#[test]
fn the_sample_is_walked() {
    let found: Vec<_> = Messages::new(&SAMPLE).collect();
    assert_eq!(found.len(), 4);
    assert_eq!(
        found[0],
        (
            0,
            Found::Other {
                ump_type: 1,
                words: &SAMPLE[..1]
            }
        )
    );
    match found[1] {
        (1, Found::Message(UmpStream::FunctionBlockInfo(info))) => {
            assert!(info.active());
            assert_eq!((info.function_block_number(), info.first_group()), (3, 2));
        }
        other => panic!("{other:?}"),
    }
    match found[2] {
        (5, Found::Message(UmpStream::FunctionBlockName(name))) => {
            assert_eq!((name.function_block(), name.name()), (5, "A".to_string()));
        }
        other => panic!("{other:?}"),
    }
    assert_eq!(found[3], refused(9, Refusal::BadDirection, &SAMPLE[9..13]));
}

#[test]
fn the_sample_is_listed() {
    assert_eq!(list(&bytes(&SAMPLE)), SAMPLE_LISTED);
    assert_eq!(list(&[]), "end 0 0\n");
    assert_eq!(list(&[1, 2, 3]), "end 0 3\n");
}

#[test]
fn the_largest_listings() {
    assert_eq!(list(&[0; 32_769]), "input too long\n");
    let listed = list(&[0; 32_768]);
    assert_eq!(listed.lines().count(), 8_193);
    assert!(listed.ends_with("8191 other 0 1\nend 8192 0\n"));
    let listed = list(&bytes(&[0xF3FF_0000; 8_192]));
    assert_eq!(listed.lines().count(), 2_049);
}

#[test]
fn a_walk_goes_on_after_a_refusal() {
    let words = [
        0xF403_0000,
        0,
        0,
        0,
        0xF001_0000,
        0,
        0,
        0,
        0xF803_0000,
        0,
        0,
        0,
        0xF003_0000,
    ];
    let found: Vec<_> = Messages::new(&words).collect();
    assert_eq!(found[0], refused(0, Refusal::StatusDiffers(1), &words[..4]));
    assert!(matches!(
        found[1],
        (4, Found::Message(UmpStream::EndpointInfo(_)))
    ));
    assert_eq!(found[2], refused(8, Refusal::WrongFormat(0), &words[8..12]));
    assert_eq!(found[3], refused(12, Refusal::TooFewWords, &words[12..]));
    assert_eq!(found.len(), 4);
}

#[test]
fn a_walk_starts_and_ends_anywhere() {
    let mut messages = Messages::at(&SAMPLE, 9);
    assert_eq!(messages.position(), 9);
    assert_eq!(
        messages.next(),
        Some(refused(9, Refusal::BadDirection, &SAMPLE[9..]))
    );
    assert_eq!(messages.position(), 13);
    assert_eq!(messages.next(), None);
    assert_eq!(messages.next(), None);
    assert_eq!(Messages::new(&[]).next(), None);
    assert_eq!(Messages::at(&SAMPLE, usize::MAX).next(), None);
}

/// Whatever has arrived of a stream, its final answers are the first ones of the whole.
#[test]
fn words_that_arrive_change_no_final_answer() {
    let mut words = SAMPLE.to_vec();
    words.extend([0xF403_4162, 0, 0, 0, 0xFC03_6300, 0, 0, 0]);
    let whole: Vec<_> = Messages::new(&words).collect();
    for length in 0..=words.len() {
        let settled: Vec<_> = Messages::new(&words[..length])
            .take_while(|(_, found)| found.is_final())
            .collect();
        assert_eq!(settled, whole[..settled.len()]);
        let arrived = [1, 5, 9, 13, 21].iter().filter(|end| **end <= length);
        assert_eq!(settled.len(), arrived.count());
    }
    assert!(refused(0, Refusal::TooManyPackets, &words).1.is_final());
}

/// A chain in which packet 64 is still due is refused, even with no words left.
#[test]
fn sixty_four_packets_and_no_end() {
    let mut words = vec![0; 256];
    for packet in 0..64 {
        words[packet * 4] = if packet == 0 {
            0xF403_0000
        } else {
            0xF803_0000
        };
    }
    let first = Messages::new(&words).next();
    assert_eq!(
        first,
        Some(refused(0, Refusal::TooManyPackets, &words[..4]))
    );
    words[252] = 0xFC03_0000;
    let (_, found) = Messages::new(&words).next().unwrap();
    assert!(matches!(found, Found::Message(UmpStream::EndpointName(_))));
}

/// The words of a packet of each type, in type order.
const SIZES: [usize; 16] = [1, 1, 1, 2, 2, 4, 1, 1, 2, 2, 2, 3, 3, 4, 4, 4];

/// Each type has its size, and no number above 15 has one.
#[test]
fn words_of_every_type() {
    for ump_type in 0..=u8::MAX {
        let size = SIZES.get(usize::from(ump_type)).copied();
        assert_eq!(words_of_type(ump_type), size);
    }
}

/// A walk passes the words of each other type, and waits where the last one is missing.
#[test]
fn sizes_of_other_types() {
    for (ump_type, size) in (0..15).zip(SIZES) {
        let words = [u32::from(ump_type) << 28; 4];
        let cut = Messages::new(&words[..size - 1]).next();
        let short = refused(0, Refusal::TooFewWords, &words[..size - 1]);
        assert_eq!(cut, (size > 1).then_some(short));
        let first = Messages::new(&words).next();
        assert_eq!(
            first,
            Some((
                0,
                Found::Other {
                    ump_type,
                    words: &words[..size]
                }
            ))
        );
    }
}

/// Every answer's position is larger than the one before, and the text of any words ends.
#[test]
fn any_words_are_walked_to_their_end() {
    let mut state = 1_u32;
    for length in 0..200 {
        let words: Vec<u32> = (0..length)
            .map(|_| {
                state = state.wrapping_mul(1_664_525).wrapping_add(1_013_904_223);
                state >> 8 & 0x0F13_FFFF | 0xF000_0000
            })
            .collect();
        let mut messages = Messages::new(&words);
        let mut before = 0;
        while let Some((position, found)) = messages.next() {
            assert!(position == before && position < messages.position());
            before = messages.position();
            if let Found::Message(message) = found {
                assert_eq!(message.data(), &words[position..before]);
                assert_eq!(UmpStream::read(message.data()), Ok(message));
            }
        }
        assert_eq!(before, words.len());
        assert!(TextBytesIterator::new(&words).all(|byte| byte != 0));
    }
}
