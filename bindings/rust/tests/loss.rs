//! The effective loss from Rust: samples worked by hand, the edges of the comparisons, and refusals that leave the
//! lists as they were.
use carolsedge::{effective_loss, Refusal};

const HUNDREDTH: f64 = 0.01;

fn spread(losses: &[u32], probabilities: &[f64]) -> Result<(Vec<f64>, Vec<f64>), Refusal> {
    let (mut keys, mut plain) = (vec![7.0; losses.len()], vec![7.0; losses.len()]);
    let answer = effective_loss(losses, probabilities, &mut keys, &mut plain);
    if answer.is_err() {
        assert!(keys.iter().chain(&plain).all(|&x| x == 7.0), "a refusal wrote to a list");
    }
    answer.map(|()| (keys, plain))
}

fn refusal(number: u32) -> Refusal {
    Refusal { number, place: 0 }
}

#[test]
fn by_hand() {
    assert_eq!(spread(&[3, 0], &[0.0, 0.0]), Ok((vec![0.0, 0.0], vec![3.0, 3.0])));
    assert_eq!(spread(&[0, 4, 0], &[0.0, 1.0, 0.5]), Ok((vec![0.0, 4.0, 2.0], vec![0.0; 3])));
    assert_eq!(spread(&[4, 0, 0], &[0.5, 1.0, 0.5]), Ok((vec![0.0; 3], vec![4.0, 0.0, 0.0])));
    assert_eq!(spread(&[u32::MAX], &[-0.0]), Ok((vec![0.0], vec![f64::from(u32::MAX)])));
}

#[test]
fn edges() {
    let above = f64::from_bits(HUNDREDTH.to_bits() + 1);
    assert_eq!(spread(&[1, 0], &[0.0, HUNDREDTH]).unwrap().1, [1.0, 1.0]);
    let taken = spread(&[1, 0], &[0.0, above]).unwrap().1;
    assert_eq!(taken, [above + (1.0 - above), 1.0 - above]);
    let key = f64::from_bits(0.5f64.to_bits() + 1);
    assert_eq!(spread(&[1], &[key]), Ok((vec![1.0], vec![0.0])));
    assert_eq!(spread(&[1], &[0.5]), Ok((vec![0.0], vec![1.0])));
}

#[test]
fn refused() {
    assert_eq!(spread(&[], &[]), Err(refusal(22)));
    assert_eq!(spread(&[1; 751], &[0.0; 751]), Err(refusal(22)));
    assert!(spread(&[1; 750], &[0.0; 750]).is_ok());
    assert_eq!(spread(&[1, 2], &[f64::NAN]), Err(refusal(22)));
    let (mut keys, mut plain) = ([7.0; 2], [7.0; 3]);
    assert_eq!(effective_loss(&[1, 2], &[0.0; 2], &mut keys, &mut plain), Err(refusal(22)));
    assert_eq!((keys, plain), ([7.0; 2], [7.0; 3]));
    for wrong in [f64::NAN, f64::INFINITY, f64::NEG_INFINITY, -f64::MIN_POSITIVE, 1.0 + f64::EPSILON] {
        assert_eq!(spread(&[0, 0], &[0.0, wrong]), Err(refusal(23)));
    }
}

// The contract knows one NaN; that a refusal leaves every bit of a lent list, a NaN's payload among them, is tested.
#[test]
fn refused_lists_keep_their_bits() {
    let marked = f64::from_bits(0x7FF8_0000_0000_00A5);
    for (probability, number) in [(f64::NAN, 23), (0.0, 22)] {
        let (mut keys, mut plain) = ([marked; 2], [marked; 3]);
        let plain_lent = if number == 22 { &mut plain[..] } else { &mut plain[..2] };
        assert_eq!(effective_loss(&[1, 2], &[0.0, probability], &mut keys, plain_lent), Err(refusal(number)));
        assert!(keys.iter().chain(&plain).all(|x| x.to_bits() == marked.to_bits()));
    }
}
