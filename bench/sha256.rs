// SHA-256 of a byte string, in hex (FIPS 180-4), so that the build needs no command and no package. Used by build.rs; tested in tests/sums.rs.

/// The first 32 bits of the fractional part of the root of each of the first `N` primes.
fn roots<const N: usize>(root: impl Fn(f64) -> f64, power: u32) -> [u32; N] {
    let mut found = [0; N];
    let (mut n, mut k) = (2u32, 0);
    while k < N {
        if (2..n).take_while(|d| d * d <= n).all(|d| n % d != 0) {
            // The whole part and 32 bits of the fraction, exactly: the greatest r with r^power <= n * 2^(32 * power).
            let wanted = u128::from(n) << (32 * power);
            let mut r = (root(f64::from(n)) * 4294967296.0) as u128;
            while r.pow(power) > wanted {
                r -= 1;
            }
            while (r + 1).pow(power) <= wanted {
                r += 1;
            }
            found[k] = r as u32;
            k += 1;
        }
        n += 1;
    }
    found
}

pub fn sha256(bytes: &[u8]) -> String {
    let k: [u32; 64] = roots(f64::cbrt, 3);
    let mut h: [u32; 8] = roots(f64::sqrt, 2);
    let mut text = bytes.to_vec();
    text.push(0x80);
    while text.len() % 64 != 56 {
        text.push(0);
    }
    text.extend((bytes.len() as u64 * 8).to_be_bytes());
    for block in text.chunks(64) {
        let mut w = [0u32; 64];
        for (i, four) in block.chunks(4).enumerate() {
            w[i] = u32::from_be_bytes([four[0], four[1], four[2], four[3]]);
        }
        for i in 16..64 {
            let (a, b) = (w[i - 15], w[i - 2]);
            let s0 = a.rotate_right(7) ^ a.rotate_right(18) ^ (a >> 3);
            let s1 = b.rotate_right(17) ^ b.rotate_right(19) ^ (b >> 10);
            w[i] = w[i - 16].wrapping_add(s0).wrapping_add(w[i - 7]).wrapping_add(s1);
        }
        let mut v = h;
        for i in 0..64 {
            let s1 = v[4].rotate_right(6) ^ v[4].rotate_right(11) ^ v[4].rotate_right(25);
            let ch = (v[4] & v[5]) ^ (!v[4] & v[6]);
            let t1 = v[7].wrapping_add(s1).wrapping_add(ch).wrapping_add(k[i]).wrapping_add(w[i]);
            let s0 = v[0].rotate_right(2) ^ v[0].rotate_right(13) ^ v[0].rotate_right(22);
            let maj = (v[0] & v[1]) ^ (v[0] & v[2]) ^ (v[1] & v[2]);
            v = [t1.wrapping_add(s0.wrapping_add(maj)), v[0], v[1], v[2], v[3].wrapping_add(t1), v[4], v[5], v[6]];
        }
        for (a, b) in h.iter_mut().zip(v) {
            *a = a.wrapping_add(b);
        }
    }
    h.iter().map(|x| format!("{x:08x}")).collect()
}
