//! What an owner does besides the library's calls: room, going on from stored parts, clones, reset, and what it prints of itself.

use aspeyruni::{Outcome, Rho, Tau, MAX_PAIRS};

/// Half of far comes back, with other sound in near too. It differs from pair to pair.
fn pairs(count: usize) -> (Vec<f32>, Vec<f32>) {
    let far: Vec<f32> = (0..count).map(|i| (0.7 * i as f32).sin()).collect();
    let own = (0..count).map(|i| 0.1 * (0.31 * i as f32).cos());
    let near = far.iter().zip(own).map(|(x, y)| 0.5 * x + y).collect();
    (near, far)
}

fn bits(samples: &[f32]) -> Vec<u32> {
    samples.iter().map(|x| x.to_bits()).collect()
}

/// For a process and then a flush, whatever waits before. The worst is one pair where 255 wait, which takes all of it.
#[test]
fn room_suffices() {
    let (near, far) = pairs(MAX_PAIRS);
    for count in [0, 1, 160, 255, 256, 257, 4_095, MAX_PAIRS] {
        for waiting in [0, 1, 96, 254, 255] {
            let mut tau = Tau::new(1, true).unwrap();
            let _ = tau
                .process(&near[..waiting], &far[..waiting], &mut [])
                .unwrap();
            let mut out = vec![0.0; Tau::room(count)];
            let report = tau
                .process(&near[..count], &far[..count], &mut out)
                .unwrap();
            assert_eq!(report.delivered, (waiting + count) / 256 * 256);
            let report = tau.flush(&mut out).unwrap();
            assert_eq!(report.delivered, (waiting + count) % 256);
        }
    }
    assert_eq!(Tau::room(1), 256);
    assert_eq!(Tau::room(usize::MAX), usize::MAX);
}

#[test]
fn a_call_that_fills_no_block_waits() {
    let (near, far) = pairs(300);
    let mut tau = Tau::new(1, false).unwrap();
    let report = tau.process(&near[..255], &far[..255], &mut []).unwrap();
    assert_eq!((report.delivered, report.outcome), (0, Outcome::NotRun));
    assert_eq!(tau.carried(), 255);
    let mut out = [0.0; 256];
    let report = tau.process(&near[255..], &far[255..], &mut out).unwrap();
    assert_eq!((report.delivered, report.outcome), (256, Outcome::NoMove));
    assert_eq!(tau.carried(), 44);
}

/// An engine of stored parts delivers and reports what the one that they are of does, and so does a clone.
#[test]
fn stored_parts_and_clones_go_on_alike() {
    let (near, far) = pairs(3_000);
    let mut tau = Tau::new(3, true).unwrap();
    let _ = tau.process(&near, &far, &mut [0.0; 3_072]).unwrap();
    let parts = tau.buffers().map(<[f64]>::to_vec);
    let stored = Tau::from_parts(tau.state(), parts).unwrap();
    let heard = [tau.clone(), stored, tau].map(|mut tau| {
        let mut out = [0.0; 3_072];
        let report = tau.process(&near, &far, &mut out).unwrap();
        (bits(&out), report)
    });
    assert!(heard[0] == heard[2], "a clone differs");
    assert!(heard[1] == heard[2], "one of stored parts differs");

    let mut rho = Rho::new(16_000, 4).unwrap();
    rho.process(&near, &far, &mut [0.0; 3_000]).unwrap();
    let parts = rho.buffers().map(<[f32]>::to_vec);
    let stored = Rho::from_parts(rho.state(), parts).unwrap();
    let heard = [rho.clone(), stored, rho].map(|mut rho| {
        let mut out = [0.0; 3_000];
        let report = rho.process(&near, &far, &mut out).unwrap();
        (bits(&out), report)
    });
    assert!(heard[0] == heard[2], "a clone differs");
    assert!(heard[1] == heard[2], "one of stored parts differs");
}

/// After a reset it delivers what a new one does, and what waited is gone.
#[test]
fn a_reset_forgets() {
    let (near, far) = pairs(3_000);
    let mut tau = Tau::new(2, true).unwrap();
    let mut rho = Rho::new(16_000, 4).unwrap();
    let _ = tau.process(&near, &far, &mut [0.0; 3_072]).unwrap();
    rho.process(&near, &far, &mut [0.0; 3_000]).unwrap();
    assert_eq!(tau.carried(), 184);
    tau.reset();
    rho.reset();
    assert_eq!(tau.carried(), 0);

    let heard = [tau, Tau::new(2, true).unwrap()].map(|mut tau| {
        let mut out = [0.0; 3_072];
        let report = tau.process(&near, &far, &mut out).unwrap();
        (bits(&out), report.delivered)
    });
    assert!(heard[0] == heard[1], "after a reset it differs");
    let heard = [rho, Rho::new(16_000, 4).unwrap()].map(|mut rho| {
        let mut out = [0.0; 3_000];
        let report = rho.process(&near, &far, &mut out).unwrap();
        assert_eq!(rho.flush().divergence_resets, report.divergence_resets);
        (bits(&out), report.delivered)
    });
    assert!(heard[0] == heard[1], "after a reset it differs");
}

/// Not the thousands of numbers that they hold.
#[test]
fn what_they_print_of_themselves_is_short() {
    let tau = format!("{:?}", Tau::new(32, true).unwrap());
    assert!(
        tau.starts_with("Tau { partitions: 32, suppress: true, carried: 0,"),
        "{tau}"
    );
    assert!(tau.len() < 200, "{tau}");
    let rho = format!("{:?}", Rho::new(48_000, 100).unwrap());
    assert!(
        rho.starts_with("Rho { state: RhoCanceller { taps: 4800,"),
        "{rho}"
    );
    assert!(rho.len() < 300, "{rho}");
}
