//! What the binding adds to the library: that it reads the answer, the plan and the view aright.
//! tests/bindings builds and runs these.

use super::*;

const IMAGE: &[u8] = include_bytes!("../../../command/worked/image.bin");
const MAP: &[u8] = include_bytes!("../../../command/worked/map.bin");

/// Launches with buffers that hold an older plan, and gives them back with the answer.
fn launched(
    image: &[u8],
    width: u32,
    plan_size: usize,
    hob_size: usize,
) -> (Result<Accepted, Refusal>, Vec<u8>, Vec<u8>) {
    let mut plan = vec![0xa5; plan_size];
    let mut hob = vec![0xa5; hob_size];
    let answer = launch(image, MAP, width, &mut plan, &mut hob);
    (answer, plan, hob)
}

/// The same for a launch that is to be measured in turns.
fn begun(
    image: &[u8],
    width: u32,
    plan_size: usize,
    hob_size: usize,
) -> (Result<Begun, Refusal>, Vec<u8>, Vec<u8>) {
    let mut plan = vec![0xa5; plan_size];
    let mut hob = vec![0xa5; hob_size];
    let answer = begin(image, MAP, width, &mut plan, &mut hob);
    (answer, plan, hob)
}

/// A measurement of the worked launch with five blocks done, its plan, and what it comes to.
fn after_five_blocks() -> (Measuring, Vec<u8>, [u8; 48]) {
    let measurement = launched(IMAGE, 48, PLAN_SIZE, HOB_SIZE).0.unwrap().measurement;
    let (answer, plan, _) = begun(IMAGE, 48, PLAN_SIZE, HOB_SIZE);
    let mut measuring = answer.unwrap().measuring;
    assert_eq!(measuring.turn(IMAGE, &plan, 5), Ok(Turned { blocks: 5, measurement: None }));
    (measuring, plan, measurement)
}

fn hex(bytes: &[u8]) -> String {
    bytes.iter().map(|byte| format!("{byte:02x}")).collect()
}

#[test]
fn the_worked_launch_is_accepted() {
    let (answer, plan, hob) = launched(IMAGE, 48, PLAN_SIZE + 7, HOB_SIZE + 7);
    let accepted = answer.unwrap();
    assert_eq!((accepted.pages, accepted.hob_length, accepted.blocks), (4, 256, 52));
    let measurement = "aee8ca1dfa7ae6bf27b66394d249e7bdca083b80def71d9c\
                       ce31d91be4ea50f1eedc2cc60f518564c9af423f88772a1c";
    assert_eq!(hex(&accepted.measurement), measurement);
    assert!(plan[4 * RECORD_SIZE..].iter().chain(&hob[256..]).all(|byte| *byte == 0));
    let boot = Page { address: 0xFFFF_F000, offset: 0, length: 4096, sort: 0, measured: true };
    let handoff = Page { address: 0x9000, offset: 0, length: 256, sort: 2, measured: false };
    let spare = Page { address: 0xA000, offset: 0, length: 0, sort: 3, measured: false };
    let last = Page { address: 0xB000, ..spare };
    assert_eq!(pages(&plan, accepted.pages).collect::<Vec<_>>(), [boot, handoff, spare, last]);
    assert_eq!(boot.data(IMAGE, &hob[..256]), IMAGE);
    assert_eq!(handoff.data(IMAGE, &hob[..256]), &hob[..256]);
    assert!(spare.data(IMAGE, &hob[..256]).is_empty());
}

#[test]
fn a_refusal_has_its_place_and_leaves_zeros() {
    // The third section's size, 8 bytes at 3,952 + 16 + 2 * 32 + 16, becomes 1.
    let mut image = IMAGE.to_vec();
    image[4048..4056].copy_from_slice(&1u64.to_le_bytes());
    for (image, width, plan_size, hob_size, number, place, printed) in [
        (&image[..], 48, PLAN_SIZE, HOB_SIZE, 13, Place::Section(2), "refused 13 section 2"),
        (IMAGE, 50, PLAN_SIZE, HOB_SIZE, 2, Place::Nowhere, "refused 2"),
        (&[], 48, PLAN_SIZE, HOB_SIZE, 3, Place::Nowhere, "refused 3"),
        (IMAGE, 48, PLAN_SIZE - 1, HOB_SIZE, 1, Place::Nowhere, "refused 1"),
        (IMAGE, 48, PLAN_SIZE, HOB_SIZE - 1, 1, Place::Nowhere, "refused 1"),
        (IMAGE, 48, 0, 0, 1, Place::Nowhere, "refused 1"),
    ] {
        let (answer, plan, hob) = launched(image, width, plan_size, hob_size);
        let refusal = answer.unwrap_err();
        assert_eq!(refusal, Refusal { number, place });
        assert_eq!(refusal.to_string(), printed);
        assert!(plan.iter().chain(&hob).all(|byte| *byte == 0), "{printed}: an older plan is left");
        let (answer, plan, hob) = begun(image, width, plan_size, hob_size);
        assert_eq!(answer.unwrap_err(), refusal);
        assert!(plan.iter().chain(&hob).all(|byte| *byte == 0), "{printed}: a start left an older plan");
    }
}

#[test]
fn turns_of_any_size_come_to_the_launch() {
    let (answer, whole_plan, whole_hob) = launched(IMAGE, 48, PLAN_SIZE + 7, HOB_SIZE + 7);
    let accepted = answer.unwrap();
    for quota in [1, 5, 52, 53, 1000, u64::MAX] {
        let (answer, plan, hob) = begun(IMAGE, 48, PLAN_SIZE + 7, HOB_SIZE + 7);
        let Begun { pages, hob_length, blocks, mut measuring } = answer.unwrap();
        assert_eq!((pages, hob_length, blocks), (accepted.pages, accepted.hob_length, accepted.blocks));
        assert!(plan == whole_plan && hob == whole_hob);
        assert_eq!((measuring.done(), measuring.total()), (0, 53));
        while !measuring.is_finished() {
            let done = measuring.done();
            let turned = measuring.turn(IMAGE, &plan, quota).unwrap();
            assert_eq!(turned.blocks, quota.min(53 - done));
            assert_eq!(measuring.done(), done + turned.blocks);
            assert_eq!(turned.measurement, measuring.is_finished().then_some(accepted.measurement));
        }
        assert_eq!((measuring.done(), measuring.total()), (53, 53));
        assert!(plan == whole_plan);
    }
}

#[test]
fn a_refused_turn_keeps_the_state() {
    let (mut measuring, plan, measurement) = after_five_blocks();
    let before = measuring.clone();
    let (longer, shorter) = ([&plan[..], &[0]].concat(), &plan[1..]);
    for (image, plan, quota, number) in [
        (IMAGE, &plan[..], 0, 24),
        (&IMAGE[1..], &plan[..], 5, 27),
        (&[], &plan[..], 5, 27),
        (IMAGE, &longer[..], 5, 27),
        (IMAGE, shorter, u64::MAX, 27),
        (IMAGE, &[], 5, 27),
        (IMAGE, shorter, 0, 24),
    ] {
        let refusal = measuring.turn(image, plan, quota).unwrap_err();
        assert_eq!(refusal, Refusal { number, place: Place::Nowhere });
        assert_eq!(measuring, before);
    }
    let last = Turned { blocks: 48, measurement: Some(measurement) };
    assert_eq!(measuring.turn(IMAGE, &plan, 1000), Ok(last));
}

#[test]
fn a_finished_measurement_is_answered_again() {
    let (mut measuring, plan, measurement) = after_five_blocks();
    measuring.turn(IMAGE, &plan, u64::MAX).unwrap();
    let finished = measuring.clone();
    for quota in [1, 1000] {
        let again = Turned { blocks: 0, measurement: Some(measurement) };
        assert_eq!(measuring.turn(IMAGE, &plan, quota), Ok(again));
        assert_eq!(measuring, finished);
    }
    assert_eq!(measuring.turn(IMAGE, &plan, 0).unwrap_err().number, 24);
    assert_eq!(measuring.turn(IMAGE, &[], 1).unwrap_err().number, 27);
    assert!(measuring.is_finished() && measuring == finished);
}

#[test]
fn a_clone_goes_on_by_itself() {
    let (mut one, plan, measurement) = after_five_blocks();
    let mut other = one.clone();
    one.turn(IMAGE, &plan, 30).unwrap();
    assert_eq!((one.done(), other.done()), (35, 5));
    for measuring in [&mut other, &mut one] {
        assert_eq!(measuring.turn(IMAGE, &plan, 48).unwrap().measurement, Some(measurement));
    }
    assert_eq!(one, other);
}

#[test]
fn places_are_read_from_their_numbers() {
    assert_eq!(Place::from_numbers(0, 0), Place::Nowhere);
    assert_eq!(Place::from_numbers(1, 31), Place::Section(31));
    assert_eq!(Place::from_numbers(2, 63), Place::Record(63));
    let in_the_map = Refusal { number: 4, place: Place::Record(63) };
    assert_eq!(in_the_map.to_string(), "refused 4 record 63");
}

#[test]
fn every_number_has_words_of_its_own() {
    let words = |number| Refusal { number, place: Place::Nowhere }.meaning();
    assert!(words(1).contains("buffer is too short"));
    assert!(words(24).contains("quota is 0") && words(27).contains("another length"));
    let known: Vec<u32> = (1..=19).chain([24, 27]).collect();
    for (at, number) in known.iter().copied().enumerate() {
        assert!(known[..at].iter().all(|earlier| words(*earlier) != words(number)));
        assert_ne!(words(number), words(20));
        assert_ne!(words(number), words(99));
        assert_eq!(words(number).find(". "), None, "one sentence");
        assert!(words(number).ends_with('.') && !words(number).contains("  "));
    }
}

#[test]
fn a_view_stays_in_its_slice() {
    let (image, hob): (&[u8], &[u8]) = (&[1; 5000], &[2; 300]);
    assert_eq!(view(image, hob, 904, 4096, 1), &image[904..]);
    assert_eq!(view(image, hob, 100, 200, 2), &hob[100..]);
    for (offset, length, sort) in
        [(905, 4096, 1), (0, 4097, 0), (101, 200, 2), (0, 1, 3), (u32::MAX, u16::MAX, 0), (0, 9, 255)]
    {
        assert!(view(image, hob, offset, length, sort).is_empty(), "{offset} {length} {sort}");
    }
    assert!(view(&[], &[], 0, 1, 0).is_empty());
}

#[test]
fn a_part_outside_its_slice_is_empty() {
    assert_eq!(part(&[1, 2, 3], 1, 2), [2, 3]);
    assert!(part(&[1, 2, 3], 1, 3).is_empty());
    assert!(part(&[1, 2, 3], 4, 0).is_empty());
    assert!(part(&[1, 2, 3], u32::MAX, u32::MAX).is_empty());
}

#[test]
fn a_short_plan_yields_what_it_has() {
    assert_eq!(pages(&[0; 3 * RECORD_SIZE - 1], 4).len(), 2);
    assert_eq!(pages(&[0; 3 * RECORD_SIZE], 1).len(), 1);
    assert_eq!(pages(&[], 4).count(), 0);
}

#[test]
fn digests_are_those_of_the_standard() {
    let of_abc = "cb00753f45a35e8bb5a03d699ac65007272c32ab0eded163\
                  1a8b605a43ff5bed8086072ba1e7cc2358baeca134c825a7";
    let of_nothing = "38b060a751ac96384cd9327eb1b1e36a21fdb71114be0743\
                      4c0cc7bf63f6e1da274edebfe76f65fbd51ad2f14898b95b";
    assert_eq!(hex(&sha384(b"abc")), of_abc);
    assert_eq!(hex(&sha384(&[])), of_nothing);
}
