//! Ferruleslate: a routing job's bytes to its text, its tree bytes or its figures.
//!
//! The calls are those of a proved static library; this crate gives them slices and a `Result`. A job's bytes are laid out as the
//! repository's README says, and any bytes may be given: what is no job is refused.
//!
//! ```
//! // One terminal at (3, 0), and a source at (0, 0): mode 2 with the multiplier 1.
//! let mut job = vec![1, 0, 0, 0, 32, 0, 0, 0, 40, 0, 0, 0, 2, 0, 0, 0];
//! job.extend(1f64.to_bits().to_le_bytes());
//! job.extend([0, 0, 3, 0].map(i32::to_le_bytes).concat());
//!
//! let figures = ferruleslate::figures(&job).unwrap();
//! assert_eq!((figures.allowed, figures.farthest, figures.total, figures.worst), (3, 3, 3, 3));
//! assert!(ferruleslate::plan(&job).ends_with(b"allowed 3 farthest 3 total 3 worst 3\n"));
//! assert_eq!(ferruleslate::tree_bytes(&job).unwrap().len(), 24 + 2 * 16);
//! ```

/// No text of a job is longer.
pub const MOST_TEXT: usize = 65_610;
/// No tree bytes are longer: a header of 24, and 16 for each of 250 nodes.
pub const MOST_TREE_BYTES: usize = 4_024;

mod calls;

/// Why a call refused: 1 to 6 of the job, 11 of the buffer.
///
/// ```
/// assert_eq!(ferruleslate::figures(b"no job"), Err(ferruleslate::Refusal(1)));
/// ```
#[derive(Clone, Copy, Debug, PartialEq, Eq)]
pub struct Refusal(pub u8);

impl std::fmt::Display for Refusal {
    fn fmt(&self, f: &mut std::fmt::Formatter<'_>) -> std::fmt::Result {
        write!(f, "refused {}", self.0)
    }
}

impl std::error::Error for Refusal {}

/// The figures of a job's tree.
#[derive(Clone, Copy, Debug, Default, PartialEq, Eq)]
pub struct Figures {
    /// The allowance on path lengths.
    pub allowed: i32,
    /// The largest distance of a terminal from the source.
    pub farthest: u32,
    /// The length of all branches.
    pub total: u32,
    /// The longest path from the source.
    pub worst: u32,
}

/// What an answer of a call says.
fn result(answer: i64) -> Result<usize, Refusal> {
    if answer < 0 {
        Err(Refusal((-answer) as u8))
    } else {
        Ok(answer as usize)
    }
}

/// Writes the text of a job to the start of `out`, and answers its length. A refused job has a text too, the line `refused n`, so
/// that the one refusal is 11.
///
/// ```
/// let mut out = [b'.'; 12];
/// assert_eq!(ferruleslate::plan_into(b"no job", &mut out), Ok(10));
/// assert_eq!(&out, b"refused 1\n..");
/// assert_eq!(ferruleslate::plan_into(b"no job", &mut out[..9]), Err(ferruleslate::Refusal(11)));
/// ```
pub fn plan_into(job: &[u8], out: &mut [u8]) -> Result<usize, Refusal> {
    // SAFETY: two slices that do not overlap; the call asks nothing else.
    result(unsafe { calls::ferruleslate_plan(job.as_ptr(), job.len(), out.as_mut_ptr(), out.len()) })
}

/// The text of a job: the tree and a line of figures, or the line `refused n`.
///
/// ```
/// assert_eq!(ferruleslate::plan(b"no job"), b"refused 1\n");
/// ```
pub fn plan(job: &[u8]) -> Vec<u8> {
    let mut out = vec![0; MOST_TEXT];
    let wrote = plan_into(job, &mut out).expect("no text is longer than MOST_TEXT");
    out.truncate(wrote);
    out
}

/// Writes the tree bytes of a job to the start of `out`, and answers how many they are.
pub fn tree_bytes_into(job: &[u8], out: &mut [u8]) -> Result<usize, Refusal> {
    // SAFETY: two slices that do not overlap; the call asks nothing else.
    result(unsafe { calls::ferruleslate_tree_bytes(job.as_ptr(), job.len(), out.as_mut_ptr(), out.len()) })
}

/// The tree bytes of a job.
///
/// ```
/// assert_eq!(ferruleslate::tree_bytes(&[]), Err(ferruleslate::Refusal(1)));
/// ```
pub fn tree_bytes(job: &[u8]) -> Result<Vec<u8>, Refusal> {
    let mut out = vec![0; MOST_TREE_BYTES];
    let wrote = tree_bytes_into(job, &mut out)?;
    out.truncate(wrote);
    Ok(out)
}

/// The figures of a job's tree.
pub fn figures(job: &[u8]) -> Result<Figures, Refusal> {
    let mut f = Figures::default();
    // SAFETY: a slice, and four numbers that are parts of one struct and do not overlap.
    let answer = unsafe {
        calls::ferruleslate_figures(
            job.as_ptr(),
            job.len(),
            &mut f.allowed,
            &mut f.farthest,
            &mut f.total,
            &mut f.worst,
        )
    };
    result(answer).map(|_| f)
}
