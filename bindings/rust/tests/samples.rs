//! The samples of document 01 through the static library, as jobs/ has them, and the edges of the buffers.

use ferruleslate::{figures, plan, plan_into, tree_bytes, tree_bytes_into, Figures, Refusal};

fn job(name: &str) -> Vec<u8> {
    let path = format!("{}/../../jobs/{name}.job", env!("CARGO_MANIFEST_DIR"));
    std::fs::read(&path).unwrap_or_else(|e| panic!("{path}: {e}"))
}

fn of(allowed: i32, farthest: u32, total: u32, worst: u32) -> Figures {
    Figures { allowed, farthest, total, worst }
}

#[test]
fn figures_of_the_samples() {
    for (name, expected) in [
        ("m6", of(12, 12, 16, 12)),
        ("m7", of(12, 12, 22, 12)),
        ("m8", of(12, 12, 16, 12)),
        ("m9", of(6, 12, 16, 12)),
        ("m10", of(10, 10, 15, 10)),
        ("m11", of(0, 0, 0, 0)),
        ("m12", of(3, 3, 3, 3)),
    ] {
        assert_eq!(figures(&job(name)), Ok(expected), "{name}");
    }
}

#[test]
fn the_calls_agree() {
    for name in ["m6", "m7", "m8", "m9", "m10", "m11", "m12", "line12", "line40", "line120"] {
        let job = job(name);
        let f = figures(&job).unwrap();
        let text = String::from_utf8(plan(&job)).unwrap();
        let line =
            format!("allowed {} farthest {} total {} worst {}\n", f.allowed, f.farthest, f.total, f.worst);
        assert!(text.ends_with(&line), "{name}: {text}");
        let bytes = tree_bytes(&job).unwrap();
        let word = |at: usize| i32::from_le_bytes(bytes[at..at + 4].try_into().unwrap());
        assert_eq!(bytes.len(), 24 + 16 * bytes[0] as usize, "{name}");
        assert_eq!(
            [word(8), word(12), word(16), word(20)],
            [f.allowed, f.farthest as i32, f.total as i32, f.worst as i32]
        );
    }
}

#[test]
fn five_lines_of_m6() {
    let text = String::from_utf8(plan(&job("m6"))).unwrap();
    let expected =
        std::fs::read_to_string(concat!(env!("CARGO_MANIFEST_DIR"), "/../../crates/routeplan/stdout"))
            .unwrap();
    assert_eq!(text, expected);
    assert_eq!(text.lines().count(), 5);
}

#[test]
fn refusals() {
    let m6 = job("m6");
    let refused = |job: &[u8], n: u8| {
        assert_eq!(plan(job), format!("refused {n}\n").into_bytes());
        assert_eq!(figures(job), Err(Refusal(n)));
        assert_eq!(tree_bytes_into(job, &mut []), Err(Refusal(n)), "the job's refusal comes before 11");
    };
    let changed = |at: usize, to: u8| {
        let mut job = m6.clone();
        job[at] = to;
        job
    };
    refused(&[], 1);
    refused(&m6[..31], 1);
    refused(&m6[..m6.len() - 1], 1);
    refused(&changed(0, 121), 2);
    refused(&changed(4, 33), 3);
    refused(&changed(12, 3), 4);
    refused(&changed(27, 1), 5);
}

#[test]
fn buffers() {
    let m6 = job("m6");
    let (text, bytes) = (plan(&m6), tree_bytes(&m6).unwrap());

    // an exact fit, and what lies past it
    let mut out = vec![7; text.len() + 3];
    assert_eq!(plan_into(&m6, &mut out), Ok(text.len()));
    assert_eq!(out[..text.len()], text);
    assert_eq!(out[text.len()..], [7, 7, 7]);
    let mut out = vec![7; bytes.len()];
    assert_eq!(tree_bytes_into(&m6, &mut out), Ok(bytes.len()));
    assert_eq!(out, bytes);

    // a byte short: nothing is written
    let mut out = vec![7; text.len() - 1];
    assert_eq!(plan_into(&m6, &mut out), Err(Refusal(11)));
    assert!(out.iter().all(|&b| b == 7));
    let mut out = vec![7; bytes.len() - 1];
    assert_eq!(tree_bytes_into(&m6, &mut out), Err(Refusal(11)));
    assert!(out.iter().all(|&b| b == 7));
}
