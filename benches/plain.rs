// The schedules as an ordinary Rust programmer writes them: the same step, m given at run time, nothing judged.

pub mod modular {
    fn plus(a: u32, b: u32, m: u32) -> u32 {
        let sum = a + b;
        if sum < m { sum } else { sum - m }
    }

    fn minus(a: u32, b: u32, m: u32) -> u32 {
        if a < b { a + (m - b) } else { a - b }
    }

    fn times(a: u32, b: u32, m: u32) -> u32 {
        (a as u64 * b as u64 % m as u64) as u32
    }

    // The sum, and t times the difference, on the pairs of a block.
    fn block(buf: &mut [u32], table: &[u32], m: u32, stride: usize) {
        let h = buf.len() / 2;
        let (low, high) = buf.split_at_mut(h);
        for ((p, q), t) in low.iter_mut().zip(high).zip(table.iter().step_by(stride)) {
            let (a, b) = (*p, *q);
            *p = plus(a, b, m);
            *q = times(*t, minus(a, b, m), m);
        }
    }

    #[inline(never)]
    pub fn columns(buf: &mut [u32], m: u32, table: &[u32], _: &mut [u32]) {
        let mut stride = 1;
        while stride < buf.len() {
            for part in buf.chunks_exact_mut(table.len() * 2 / stride) {
                block(part, table, m, stride);
            }
            stride *= 2;
        }
    }

    #[inline(never)]
    pub fn shuffle(buf: &mut [u32], m: u32, table: &[u32], scratch: &mut [u32]) {
        let n = buf.len().trailing_zeros();
        let half = table.len();
        let (mut from, mut to) = (&mut *buf, &mut *scratch);
        for s in 0..n {
            let (low, high) = from.split_at(half);
            for (k, (pair, (&a, &b))) in to.chunks_exact_mut(2).zip(low.iter().zip(high)).enumerate() {
                pair[0] = plus(a, b, m);
                pair[1] = times(table[k >> s << s], minus(a, b, m), m);
            }
            std::mem::swap(&mut from, &mut to);
        }
        if n % 2 == 1 {
            to.copy_from_slice(from);
        }
        scratch.fill(0);
    }

    #[inline(never)]
    pub fn halves(buf: &mut [u32], m: u32, table: &[u32], _: &mut [u32]) {
        halve(buf, m, table, 1);
    }

    fn halve(buf: &mut [u32], m: u32, table: &[u32], stride: usize) {
        block(buf, table, m, stride);
        let (low, high) = buf.split_at_mut(buf.len() / 2);
        if low.len() > 1 {
            halve(low, m, table, 2 * stride);
            halve(high, m, table, 2 * stride);
        }
    }

    #[inline(never)]
    pub fn thong(buf: &mut [u32], m: u32, table: &[u32], _: &mut [u32]) {
        let mut h = 1;
        while h < buf.len() {
            for part in buf.chunks_exact_mut(2 * h) {
                let (low, high) = part.split_at_mut(h);
                for ((p, q), t) in low.iter_mut().zip(high).zip(table.iter().step_by(table.len() / h)) {
                    let (a, b) = (*p, times(*t, *q, m));
                    *p = plus(a, b, m);
                    *q = minus(a, b, m);
                }
            }
            h *= 2;
        }
    }

    #[inline(never)]
    pub fn pease(buf: &mut [u32], m: u32, table: &[u32], scratch: &mut [u32]) {
        let n = buf.len().trailing_zeros();
        let half = table.len();
        let (mut from, mut to) = (&mut *buf, &mut *scratch);
        for t in 0..n {
            let (low, high) = from.split_at(half);
            // N/2^(t+1) times the reversal of the low t bits of l, counted on from pair to pair
            let mut e = 0;
            for (pair, (&a, &b)) in to.chunks_exact_mut(2).zip(low.iter().zip(high)) {
                let c = times(table[e], b, m);
                pair[0] = plus(a, c, m);
                pair[1] = minus(a, c, m);
                let mut bit = half / 2;
                while bit >= half >> t && e & bit != 0 {
                    e -= bit;
                    bit /= 2;
                }
                if bit >= half >> t {
                    e += bit;
                }
            }
            std::mem::swap(&mut from, &mut to);
        }
        if n % 2 == 1 {
            to.copy_from_slice(from);
        }
        scratch.fill(0);
    }
}

pub mod fixed {
    // (a + b)/2 and T(a - b)/32,768, in four parts.
    fn step(a: &[i32], b: &[i32], t: &[i32]) -> [i32; 4] {
        let (x, y) = ((a[0] - b[0]) as i64, (a[1] - b[1]) as i64);
        let (c, d) = (t[0] as i64, t[1] as i64);
        [
            (a[0] + b[0] + 1) >> 1,
            (a[1] + b[1] + 1) >> 1,
            ((c * x - d * y + 16384) >> 15) as i32,
            ((c * y + d * x + 16384) >> 15) as i32,
        ]
    }

    fn block(buf: &mut [i32], table: &[i32], stride: usize) {
        let h = buf.len() / 2;
        let (low, high) = buf.split_at_mut(h);
        for (i, (p, q)) in low.chunks_exact_mut(2).zip(high.chunks_exact_mut(2)).enumerate() {
            let t = 2 * stride * i;
            let [a, b, c, d] = step(p, q, &table[t..t + 2]);
            (p[0], p[1], q[0], q[1]) = (a, b, c, d);
        }
    }

    #[inline(never)]
    pub fn columns(buf: &mut [i32], table: &[i32], _: &mut [i32]) {
        let mut stride = 1;
        while stride < table.len() {
            for part in buf.chunks_exact_mut(table.len() * 2 / stride) {
                block(part, table, stride);
            }
            stride *= 2;
        }
    }

    #[inline(never)]
    pub fn shuffle(buf: &mut [i32], table: &[i32], scratch: &mut [i32]) {
        let n = table.len().trailing_zeros();
        let (mut from, mut to) = (&mut *buf, &mut *scratch);
        for s in 0..n {
            let (low, high) = from.split_at(table.len());
            // 2^s pairs have the same exponent
            let size = 2 << s;
            let runs = to.chunks_exact_mut(2 * size).zip(low.chunks_exact(size).zip(high.chunks_exact(size)));
            for ((run, (low, high)), t) in runs.zip(table.chunks_exact(size)) {
                for (pair, (a, b)) in run.chunks_exact_mut(4).zip(low.chunks_exact(2).zip(high.chunks_exact(2))) {
                    pair.copy_from_slice(&step(a, b, t));
                }
            }
            std::mem::swap(&mut from, &mut to);
        }
        if n % 2 == 1 {
            to.copy_from_slice(from);
        }
        scratch.fill(0);
    }

    #[inline(never)]
    pub fn halves(buf: &mut [i32], table: &[i32], _: &mut [i32]) {
        halve(buf, table, 1);
    }

    fn halve(buf: &mut [i32], table: &[i32], stride: usize) {
        block(buf, table, stride);
        let (low, high) = buf.split_at_mut(buf.len() / 2);
        if low.len() > 2 {
            halve(low, table, 2 * stride);
            halve(high, table, 2 * stride);
        }
    }
}
