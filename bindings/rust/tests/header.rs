//! The header, by a program in C, and the call, by what each number and part of a result comes to.
use std::path::Path;
use std::process::Command;

use nosingcatnip::{exec_binop, Answer, Refusal, Side};

#[test]
fn a_program_in_c_runs_the_example() {
    let program = Path::new(env!("CARGO_TARGET_TMPDIR")).join("example");
    let built = Command::new("cc")
        .args(["-std=c99", "-Wall", "-Wextra", "-Werror"])
        .arg(Path::new(env!("CARGO_MANIFEST_DIR")).join("../c/example.c"))
        .arg(Path::new(env!("NOSINGCATNIP_LIB")))
        .args(["-lm", "-o"])
        .arg(&program)
        .status();
    assert!(built.expect("a C compiler").success());
    assert_eq!(Command::new(program).status().expect("the program").code(), Some(0));
}

/// A label part of one series without name and tags.
fn bare(points: u16, start: u64, step: u32) -> Vec<u8> {
    let sizes = [1, points, 2].map(u16::to_le_bytes).concat();
    [&sizes[..], &start.to_le_bytes(), &step.to_le_bytes(), &[0, 0]].concat()
}

fn sum(left: &[u8], right: &[u8]) -> Result<Answer, Refusal> {
    let ones = [1f64.to_bits(); 2];
    let (mut labels, mut readings) = ([0; 8], [0; 8]);
    exec_binop(
        &[0, 0, 0, 0, 0, 0, 2],
        Side { labels: left, readings: &ones },
        Side { labels: right, readings: &ones },
        &mut labels,
        &mut readings,
    )
}

#[test]
fn the_answer_has_the_grid_of_its_sides() {
    for (start, step) in [(0, 1), (1_772_431_200_000, 3_600_000), (1 << 52, 86_400_000)] {
        let side = bare(2, start, step);
        assert_eq!(sum(&side, &side), Ok(Answer { series: 1, points: 2, start, step, label_bytes: 2 }));
    }
}

#[test]
fn grids_are_refused() {
    let good = bare(2, 0, 1);
    let refused = |number, first| Err(Refusal { number, fields: [first, 0] });
    for (start, step) in [((1 << 52) + 1, 1), (u64::MAX, 1), (0, 0), (0, 86_400_001)] {
        assert_eq!(sum(&bare(2, start, step), &good), refused(11, 0));
        assert_eq!(sum(&good, &bare(2, start, step)), refused(11, 1));
    }
    for (start, step) in [(1, 1), (0, 2)] {
        assert_eq!(sum(&good, &bare(2, start, step)), refused(12, 0));
    }
}

/// The sum of two series of one key that share so many of nine points, and one, under this allowance.
fn merged(shared: usize, allowance: u8) -> Result<Answer, Refusal> {
    let (one, nan) = (1f64.to_bits(), f64::NAN.to_bits());
    let two = [vec![one; 9], vec![one; shared], vec![nan; 9 - shared]].concat();
    let (mut labels, mut readings) = ([0; 8], [0; 16]);
    exec_binop(
        &[0, 0, 0, 0, 0, 0, allowance],
        Side { labels: &[&[2, 0, 9, 0, 4, 0][..], &[0; 8], &[1, 0, 0, 0], &[0; 4]].concat(), readings: &two },
        Side { labels: &bare(9, 0, 1), readings: &[one; 9] },
        &mut labels,
        &mut readings,
    )
}

#[test]
fn as_many_places_overlap_as_are_allowed() {
    for allowance in 0..=8 {
        let shared = usize::from(allowance);
        assert_eq!(merged(shared, allowance), Ok(Answer { series: 1, points: 9, start: 0, step: 1, label_bytes: 2 }));
        assert_eq!(merged(shared + 1, allowance), Err(Refusal { number: 7, fields: [1, 0] }));
    }
    for allowance in 9..=255 {
        assert_eq!(merged(1, allowance), Err(Refusal { number: 13, fields: [0, 0] }));
    }
}
