//! Runs at once, on several threads and by strips: the same samples, bit for bit, and the same count.

use crate::common::*;
use rindsaddle::*;

/// XYB to linear RGB; 01's list, which goes from width 1 to 3 and back; no op.
fn plans() -> [Plan; 3] {
    let rgb = side(ColourSpace::Rgb, TransferFunction::Linear);
    let from_xyb = Plan::new(EnumColourEncoding::xyb(RenderingIntent::Relative), rgb, &Settings::default()).unwrap();
    [from_xyb, read(EXAMPLE), read(b"CTP\x01\x00\x03\x00")]
}

fn at_once(plan: &Plan, picture: &Picture) -> (Ran, [Vec<u32>; 3]) {
    let mut lent = picture.clone();
    let ran = plan.run(lend(&mut lent)).unwrap();
    (ran, bits(&lent))
}

#[test]
fn example() {
    let mut lent = [vec![0.5], vec![7.0], vec![7.0]];
    assert_eq!(read(EXAMPLE).run(lend(&mut lent)), Ok(Ran { width: 1, bad: 0 }));
    assert_eq!(lent, [[0.5], [0.5], [0.5]]);
    let mut lent = [vec![f32::NAN], vec![f32::INFINITY], vec![0.0]];
    assert_eq!(plans()[2].run(lend(&mut lent)), Ok(Ran { width: 3, bad: 2 }));
}

#[test]
fn on_threads() {
    for plan in &plans() {
        for length in [0, 1, 2, 3, 4, 5, 7, 1000, 4099] {
            let picture = picture(length as u64, length);
            let wanted = at_once(plan, &picture);
            for threads in (0..=4).chain([64]) {
                let mut lent = picture.clone();
                let ran = plan.run_on(threads, lend(&mut lent)).unwrap();
                assert_eq!((ran, bits(&lent)), wanted, "{threads} threads, {length} samples");
            }
        }
    }
}

#[test]
fn by_strips() {
    let mut strips = Strips::new();
    for plan in &plans() {
        let picture = picture(11, 100);
        let (ran, wanted) = at_once(plan, &picture);
        let mut lent = picture.clone();
        assert_eq!(strips.open(plan), Ok(ran.width));
        let mut own = 0;
        let mut rest = lend(&mut lent);
        for size in [0, 1, 16, 0, 50, 33] {
            let cut = rest.map(|channel| channel.split_at_mut(size));
            let [a, b, c] = cut;
            own += strips.strip([a.0, b.0, c.0]).unwrap().bad;
            rest = [a.1, b.1, c.1];
        }
        assert_eq!((strips.close(), own), (Ok(ran), ran.bad));
        assert_eq!(bits(&lent), wanted);
    }
}

/// Opening while a run is open starts afresh.
#[test]
fn afresh() {
    let [_, _, nothing] = plans();
    let mut strips = Strips::new();
    strips.open(&nothing).unwrap();
    strips.strip([&mut [f32::NAN], &mut [0.0], &mut [0.0]]).unwrap();
    strips.open(&nothing).unwrap();
    assert_eq!(strips.close(), Ok(Ran { width: 3, bad: 0 }));
}
