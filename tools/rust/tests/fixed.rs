//! The wrapper on document 01's hand layouts, each also settled and then written, on runs of op bytes, and where its slices
//! have to grow.

use sadrokki::*;
use std::panic::AssertUnwindSafe;

enum Call {
    Mark(u32),
    Op(u8),
    Data(usize),
    Bytes(&'static [u8]),
    Direct(u32, Option<RefSize>, bool),
    Delta(u32, u32, Option<RefSize>, bool),
}
use Call::*;

fn built(calls: &[Call]) -> Assembler {
    let mut asm = Assembler::with_capacity(0, 0);
    for call in calls {
        match *call {
            Mark(mark) => asm.push_mark(MarkId::new(mark)),
            Op(byte) => asm.push_op_byte(byte),
            Data(count) => asm.push_data(&vec![0xdd; count]),
            Bytes(data) => asm.push_data(data),
            Direct(mark, set_size, pushed) => asm.push_reference(AsmReference {
                mark_ref: MarkReference::Direct(MarkId::new(mark)),
                set_size,
                pushed,
            }),
            Delta(start, end, set_size, pushed) => asm.push_reference(AsmReference {
                mark_ref: MarkReference::Delta(Span::new(MarkId::new(start), MarkId::new(end))),
                set_size,
                pushed,
            }),
        }
    }
    asm
}

/// The code that assembly appends, the same with the same table if the store is settled and then written.
fn code(calls: &[Call]) -> Result<Vec<u8>, AssembleError> {
    let asm = built(calls);
    let mut result = vec![0xee];
    let assembled = asm.assemble(&mut result, None);
    let mut written = vec![0xee];
    let settled = asm.settle(None).map(|settled| {
        assert_eq!(asm.write(&mut written, &settled.offsets), Ok(()));
        assert_eq!(settled.length, written.len() - 1);
        settled.offsets
    });
    assert_eq!((&settled, &written), (&assembled, &result));
    assembled.map(|_| result.split_off(1))
}

fn refused(number: u32, section: usize, passes: u32) -> Result<Vec<u8>, AssembleError> {
    Err(AssembleError::Refused {
        number,
        section,
        passes,
    })
}

#[test]
fn lines_1_to_10() {
    let pushed = Direct(0, None, true);
    assert_eq!(code(&[]), Ok(vec![]));
    assert_eq!(code(&[Mark(0), pushed]), Ok(vec![0x5f]));
    assert_eq!(code(&[Mark(0), Direct(0, None, false)]), Ok(vec![0]));
    assert_eq!(
        code(&[Mark(0), Direct(0, Some(RefSize::S1), true)]),
        Ok(vec![0x60, 0])
    );
    assert_eq!(
        code(&[Direct(0, None, true), Mark(0), Op(0x5b)]),
        Ok(vec![0x60, 2, 0x5b])
    );
    let short = [vec![0x60, 0xff], vec![0xdd; 253]].concat();
    assert_eq!(
        code(&[Direct(0, None, true), Data(253), Mark(0)]),
        Ok(short)
    );
    let long = [vec![0x61, 1, 1], vec![0xdd; 254]].concat();
    assert_eq!(code(&[Direct(0, None, true), Data(254), Mark(0)]), Ok(long));
    let narrow = code(&[Direct(0, Some(RefSize::S1), true), Data(254), Mark(0)]);
    assert_eq!(narrow, Err(AssembleError::RefHasTooSmallSetSize(0)));
    let ends = |start, end| {
        [
            Mark(0),
            Bytes(&[0xaa, 0xbb]),
            Mark(1),
            Delta(start, end, None, true),
        ]
    };
    assert_eq!(code(&ends(0, 1)), Ok(vec![0xaa, 0xbb, 0x60, 2]));
    assert_eq!(code(&ends(1, 0)), refused(12, 3, 1));
    assert_eq!(code(&[Mark(0), Mark(0)]), Ok(vec![]));
    assert_eq!(code(&[Mark(0), Op(0x5b), Mark(0)]), refused(9, 2, 0));
}

#[test]
fn which_mark_is_missing() {
    let unplaced = |section, missing, mark| {
        Err(AssembleError::Unplaced {
            section,
            missing,
            mark: MarkId::new(mark),
        })
    };
    let direct = |mark| Direct(mark, None, true);
    let delta = |start, end| Delta(start, end, None, true);
    use Missing::*;
    // A delta before a direct reference, and the other way round.
    assert_eq!(
        code(&[Mark(0), delta(5, 0), direct(6)]),
        unplaced(1, DeltaStart, 5)
    );
    assert_eq!(
        code(&[Mark(0), delta(0, 5), direct(6)]),
        unplaced(1, DeltaEnd, 5)
    );
    assert_eq!(
        code(&[Mark(0), direct(6), delta(0, 5)]),
        unplaced(1, DirectMark, 6)
    );
    // Both ends, and one mark as both.
    assert_eq!(code(&[Mark(0), delta(6, 5)]), unplaced(1, DeltaStart, 6));
    assert_eq!(code(&[delta(7, 7), Mark(0)]), unplaced(0, DeltaStart, 7));
    // A start that is placed behind the delta.
    assert_eq!(code(&[delta(0, 5), Mark(0)]), unplaced(0, DeltaEnd, 5));
    // Before 9.
    let apart = [Mark(0), Op(0), Mark(0), delta(0, 1_048_575)];
    assert_eq!(code(&apart), unplaced(3, DeltaEnd, 1_048_575));
    for (calls, number) in [
        (direct(1), 8),
        (delta(1, 1), 17),
        (delta(0, 1), 18),
        (Direct(0, Some(RefSize::S1), false), 10),
    ]
    .map(|(call, number)| ([Data(256), Mark(0), call], number))
    {
        assert_eq!(code(&calls).unwrap_err().number(), number);
    }
}

/// N pushed references to marks N down to 1, P data bytes, then the marks with a data byte between neighbours.
fn line_11(n: u32, p: usize) -> Vec<Call> {
    let mut calls: Vec<Call> = (1..=n).rev().map(|mark| Direct(mark, None, true)).collect();
    calls.push(Data(p));
    calls.extend((1..=n).rev().flat_map(|mark| [Mark(mark), Data(1)]));
    calls.pop();
    calls
}

#[test]
fn line_11_settles_or_not() {
    assert!(code(&line_11(1022, 61449)).is_ok());
    assert_eq!(code(&line_11(1023, 61445)), refused(11, 0, 1024));
}

#[test]
fn line_12_is_shown() {
    let asm = built(&[
        Mark(0),
        Op(0x5b),
        Direct(1, None, true),
        Op(0x56),
        Mark(1),
        Op(0x5b),
        Bytes(&[0xaa, 0xbb]),
        Delta(0, 1, Some(RefSize::S2), false),
    ]);
    let mut result = Vec::new();
    let offsets = asm.assemble(&mut result, Some(0)).unwrap();
    assert_eq!(result, [0x5b, 0x60, 4, 0x56, 0x5b, 0xaa, 0xbb, 0, 4]);
    assert_eq!((offsets[MarkId::new(0)], offsets[MarkId::new(1)]), (0, 4));
    assert!(op::lands(&result, 4) && !op::lands(&result, 5));
    let text = "\
.mark0:
  JUMPDEST
  PUSH .mark1
  JUMP
.mark1:
  JUMPDEST
  data 0xaabb (2 bytes)
  RAW (.mark1 - .mark0):2
";
    assert_eq!(asm.to_string(), text);
}

fn offsets(entries: &[u32]) -> MarkOffsets {
    MarkOffsets(entries.to_vec())
}

#[test]
fn settled_then_written() {
    // Line 6: settled at 255, which is the shortest; 256 serves too, with a byte more of code, and no other does.
    let asm = built(&[Direct(0, None, true), Data(253), Mark(0)]);
    let settled = asm.settle(Some(2)).unwrap();
    assert_eq!(
        settled,
        Settled {
            offsets: offsets(&[255, 0]),
            length: 255,
            passes: 2
        }
    );
    let mut result = vec![1];
    assert_eq!(asm.write(&mut result, &settled.offsets), Ok(()));
    assert_eq!(
        (result.len(), &result[..4]),
        (256, &[1, 0x60, 255, 0xdd][..])
    );
    assert_eq!(asm.write(&mut result, &offsets(&[256])), Ok(()));
    assert_eq!(
        (result.len(), &result[256..260]),
        (512, &[0x61, 1, 0, 0xdd][..])
    );
    let differs = |section| AssembleError::Refused {
        number: 16,
        section,
        passes: 0,
    };
    for other in [0, 254, 257, u32::MAX] {
        assert_eq!(asm.write(&mut result, &offsets(&[other])), Err(differs(2)));
    }
    let short = AssembleError::Refused {
        number: 7,
        section: 0,
        passes: 0,
    };
    assert_eq!(asm.write(&mut result, &offsets(&[])), Err(short));
    assert_eq!(result.len(), 512);
    // An entry that differs and a reference that is too narrow: the earlier section's. Marks that aren't placed are free.
    let asm = built(&[
        Mark(1),
        Direct(3, Some(RefSize::S1), false),
        Mark(3),
        Op(0x5b),
    ]);
    let mut result = vec![];
    assert_eq!(asm.write(&mut result, &offsets(&[7, 0, 7, 1, 7])), Ok(()));
    assert_eq!(result, [1, 0x5b]);
    let narrow = Err(AssembleError::RefHasTooSmallSetSize(1));
    for (entries, answer) in [
        ([7, 0, 7, 2], Err(differs(2))),
        ([7, 0, 7, 256], narrow),
        ([7, 1, 7, 256], Err(differs(0))),
    ] {
        assert_eq!(asm.write(&mut result, &offsets(&entries)), answer);
    }
    // Settled, then built on: what comes after the marks is written too.
    let mut asm = built(&[Direct(0, None, true), Mark(0)]);
    let settled = asm.settle(None).unwrap();
    asm.push_op_byte(0x5b);
    let mut result = vec![];
    assert_eq!(asm.write(&mut result, &settled.offsets), Ok(()));
    assert_eq!(result, [0x60, 2, 0x5b]);
}

#[test]
fn written_by_long_tables() {
    // Above 16,384 entries the write makes a larger map of the marks: mark 20,000, its entry 1, and each refusal that the map decides.
    let table = |length: usize, entry: u32| {
        let mut entries = vec![7; length];
        if 20_000 < length {
            entries[20_000] = entry;
        }
        MarkOffsets(entries)
    };
    let write = |calls: &[Call], table: &MarkOffsets| {
        let mut result = vec![];
        built(calls).write(&mut result, table).map(|_| result)
    };
    let refused = |number, section| {
        Err(AssembleError::Refused {
            number,
            section,
            passes: 0,
        })
    };
    let placed = [
        Op(0x5b),
        Mark(20_000),
        Mark(20_000),
        Direct(20_000, None, true),
    ];
    for length in [20_001, 1_048_576, 1_048_577] {
        assert_eq!(write(&placed, &table(length, 1)), Ok(vec![0x5b, 0x60, 1]));
        assert_eq!(write(&placed, &table(length, 2)), refused(16, 1));
        let unplaced = [Op(0x5b), Mark(20_000), Direct(19_999, None, true)];
        let missing = |missing, mark| {
            Err(AssembleError::Unplaced {
                section: 2,
                missing,
                mark: MarkId::new(mark),
            })
        };
        assert_eq!(
            write(&unplaced, &table(length, 1)),
            missing(Missing::DirectMark, 19_999)
        );
        let start = [Op(0x5b), Mark(20_000), Delta(19_998, 20_000, None, true)];
        assert_eq!(
            write(&start, &table(length, 1)),
            missing(Missing::DeltaStart, 19_998)
        );
        let end = [Op(0x5b), Mark(20_000), Delta(20_000, 19_997, None, false)];
        assert_eq!(
            write(&end, &table(length, 1)),
            missing(Missing::DeltaEnd, 19_997)
        );
        let apart = [Op(0x5b), Mark(20_000), Op(0x5b), Mark(0), Mark(20_000)];
        assert_eq!(write(&apart, &table(length, 1)), refused(9, 4));
    }
    assert_eq!(write(&placed, &table(20_000, 1)), refused(7, 1));
}

#[test]
fn slices_grow() {
    // References alone, so that the first room is too short; names longer than the first text.
    let references: Vec<Call> = (0..500)
        .map(|_| Direct(999_999, Some(RefSize::S4), true))
        .collect();
    let mut asm = built(&references);
    let mut result = vec![1, 2, 3];
    let unplaced = AssembleError::Unplaced {
        section: 0,
        missing: Missing::DirectMark,
        mark: MarkId::new(999_999),
    };
    assert_eq!(asm.assemble(&mut result, None), Err(unplaced));
    assert_eq!(result, [1, 2, 3]);
    asm.push_mark(MarkId::new(999_999));
    let offsets = asm.assemble(&mut result, None).unwrap();
    assert_eq!(
        (result.len(), &result[..5]),
        (2503, &[1, 2, 3, 0x63, 0][..])
    );
    assert_eq!(offsets[MarkId::new(999_999)], 2500);
    let settled = asm.settle(None).unwrap();
    assert_eq!((settled.length, settled.passes), (2500, 1));
    assert_eq!(settled.offsets, offsets);
    let mut written = vec![1, 2, 3];
    assert_eq!(asm.write(&mut written, &offsets), Ok(()));
    assert_eq!(written, result);
    assert_eq!(
        asm.to_string(),
        "  PUSH .mark999999:4\n".repeat(500) + ".mark999999:\n"
    );
    // Bytes up to the limit, and not past it.
    asm.clear();
    asm.push_data(&vec![7; 1 << 24]);
    assert_eq!(
        asm.assemble(&mut result, None).map(|_| result.len()),
        Ok(2503 + (1 << 24))
    );
    let past = std::panic::catch_unwind(move || asm.push_op_byte(0));
    assert_eq!(
        past.unwrap_err().downcast_ref::<String>().unwrap(),
        "refused with number 4: bytes full"
    );
}

/// The code and the listing of a store.
fn told(asm: &Assembler) -> (Vec<u8>, String) {
    let mut result = Vec::new();
    asm.assemble(&mut result, None).unwrap();
    (result, asm.to_string())
}

#[test]
fn runs() {
    // As the same bytes singly, also where both slices have to grow.
    let ops: Vec<u8> = (0..=255).cycle().take(1000).collect();
    let mut asm = Assembler::with_capacity(0, 0);
    let mut singly = Assembler::with_capacity(0, 0);
    let lengths = [[3, 1000], [1, 0], [0, 7], [256, 1]];
    for (mark, two) in (0..).zip(lengths) {
        for run in two.map(|length| &ops[..length]) {
            asm.push_op_bytes(run);
            run.iter().for_each(|byte| singly.push_op_byte(*byte));
            assert_eq!(told(&asm), told(&singly));
        }
        asm.push_mark(MarkId::new(mark));
        singly.push_mark(MarkId::new(mark));
    }
    assert_eq!(told(&asm).0.len(), 1268);
    // An empty one adds no section: the mark has no bytes between its placings, and the listing has the marks alone.
    let mut asm = built(&[]);
    asm.push_op_bytes(&[]);
    asm.push_mark(MarkId::new(0));
    asm.push_op_bytes(&[]);
    asm.push_mark(MarkId::new(0));
    assert_eq!(told(&asm), (vec![], ".mark0:\n.mark0:\n".to_string()));
    // Up to the limit; a run of which only the last byte is past it stores nothing.
    asm.push_op_bytes(&vec![0; (1 << 24) - 2]);
    let past = std::panic::catch_unwind(AssertUnwindSafe(|| asm.push_op_bytes(&ops[..3])));
    assert_eq!(
        past.unwrap_err().downcast_ref::<String>().unwrap(),
        "refused with number 4: bytes full"
    );
    asm.push_op_bytes(&ops[3..5]);
    let mut result = Vec::new();
    asm.assemble(&mut result, None).unwrap();
    assert_eq!(result.len(), 1 << 24);
    assert_eq!(result[(1 << 24) - 3..], [0, 3, 4]);
}

#[test]
fn op_bytes() {
    let mut asm = Assembler::with_capacity(1, 1);
    asm.push_swap(16);
    asm.push_dup(0);
    asm.push_exchange(0, 3);
    asm.push_exchange(1, 2);
    asm.push_minimal_u32(0);
    asm.push_minimal_u64(0x0102_0304_0506);
    asm.push_minimal_u256(U256([0xff; 32]));
    let mut result = Vec::new();
    asm.assemble(&mut result, None).unwrap();
    let start = [
        0x9f, 0x80, 0x92, 0x90, 0x91, 0x90, 0x5f, 0x65, 1, 2, 3, 4, 5, 6, 0x7f,
    ];
    assert_eq!(result, [&start[..], &[0xff; 32]].concat());
    assert_eq!(
        (
            op::name(0x5b),
            op::name(0x0c),
            op::push_size(0x7f),
            op::push_size(0x5f)
        ),
        ("JUMPDEST", "UNKNOWN", Some(32), None)
    );
}

#[test]
fn scans() {
    // 12 zeros, a zero word, none, 31; no bytes; another length.
    let word = |zeros: usize| [vec![0; zeros], vec![0xff; 32 - zeros]].concat();
    let scan = |zeros, looked| op::Scan { zeros, looked };
    for (bytes, found) in [
        (word(12), scan(12, 13)),
        (word(32), scan(32, 32)),
        (word(0), scan(0, 1)),
        (word(31), scan(31, 32)),
        (vec![], scan(0, 0)),
        (vec![0, 0, 7], scan(2, 3)),
    ] {
        assert_eq!(op::leading_zeros(&bytes), found);
    }
    // Each length and each place of the first byte that isn't 0, before zeros and before others, counted by a loop.
    for length in 0..=70 {
        for first in 0..=length {
            for (one, others) in [(1, 0), (0x80, 0), (0xff, 0xff)] {
                let mut bytes = vec![0; length];
                bytes[first..].fill(others);
                if first < length {
                    bytes[first] = one;
                }
                let mut counted = scan(0, 0);
                for byte in &bytes {
                    counted.looked += 1;
                    if *byte != 0 {
                        break;
                    }
                    counted.zeros += 1;
                }
                assert_eq!(op::leading_zeros(&bytes), counted, "{bytes:?}");
            }
        }
    }
}

#[test]
fn refusals_panic() {
    let calls: [(u32, fn(&mut Assembler)); 5] = [
        (1, |asm| asm.push_swap(0)),
        (1, |asm| asm.push_dup(16)),
        (1, |asm| asm.push_exchange(2, 17)),
        (3, |asm| asm.push_mark(MarkId::new(1 << 20))),
        (3, |asm| {
            asm.push_reference(AsmReference::new_delta(
                MarkId::new(0),
                MarkId::new(1 << 20),
            ))
        }),
    ];
    for (number, call) in calls {
        let panic = std::panic::catch_unwind(|| call(&mut built(&[]))).unwrap_err();
        let message = panic.downcast_ref::<String>().unwrap();
        assert!(
            message.starts_with(&format!("refused with number {number}: ")),
            "{message}"
        );
    }
}
