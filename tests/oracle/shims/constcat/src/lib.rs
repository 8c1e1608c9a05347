//! Shim of constcat: `concat_slices!([T]: a, b, ..)` over items that can be copied.
#[macro_export]
macro_rules! concat_slices {
    ([$t:ty]: $($s:expr),+ $(,)?) => {{
        const SLICES: &[&[$t]] = &[$($s),+];
        const LEN: usize = {
            let (mut n, mut k) = (0, 0);
            while k < SLICES.len() {
                n += SLICES[k].len();
                k += 1;
            }
            n
        };
        const OUT: [$t; LEN] = {
            let mut out = [SLICES[0][0]; LEN];
            let (mut n, mut k) = (0, 0);
            while k < SLICES.len() {
                let mut i = 0;
                while i < SLICES[k].len() {
                    out[n] = SLICES[k][i];
                    n += 1;
                    i += 1;
                }
                k += 1;
            }
            out
        };
        &OUT
    }};
}
