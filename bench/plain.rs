//! Plain loops that ours are timed beside: 01's rule of screen bytes, which W2 replaced; YCbCr to RGB over bytes by W5's own rule, and back by
//! W11's; chroma lines widened and narrowed by W13's; ten-bit codes through a table that is lent.

/// # Safety
/// `samples` points to `count` floats, and `bytes` to room for as many bytes.
#[unsafe(no_mangle)]
pub unsafe extern "C" fn plain_screen_bytes(samples: *const f32, bytes: *mut u8, count: usize) {
    let samples = unsafe { std::slice::from_raw_parts(samples, count) };
    let bytes = unsafe { std::slice::from_raw_parts_mut(bytes, count) };
    for (byte, sample) in bytes.iter_mut().zip(samples) {
        *byte = (sample.clamp(0.0, 1.0) * 255.0 + 0.5) as u8;
    }
}

fn byte(p: i64, q: i64) -> u8 {
    (2 * p + q).div_euclid(2 * q).clamp(0, 255) as u8
}

/// # Safety
/// Each pointer points to `count` bytes, and none of the last three to bytes of another.
#[unsafe(no_mangle)]
pub unsafe extern "C" fn plain_ycbcr_bytes(
    cb: *const u8,
    y: *const u8,
    cr: *const u8,
    r: *mut u8,
    g: *mut u8,
    b: *mut u8,
    count: usize,
) {
    let [cb, y, cr] = [cb, y, cr].map(|from| unsafe { std::slice::from_raw_parts(from, count) });
    let [r, g, b] = [r, g, b].map(|to| unsafe { std::slice::from_raw_parts_mut(to, count) });
    for i in 0..count {
        let (u, y, v) = (cb[i] as i64 - 128, y[i] as i64, cr[i] as i64 - 128);
        r[i] = byte(1000 * y + 1402 * v, 1000);
        g[i] = byte(587000 * y - 202008 * u - 419198 * v, 587000);
        b[i] = byte(1000 * y + 1772 * u, 1000);
    }
}

/// # Safety
/// Each pointer points to `count` bytes, and none of the last three to bytes of another.
#[unsafe(no_mangle)]
pub unsafe extern "C" fn plain_rgb_bytes(
    r: *const u8,
    g: *const u8,
    b: *const u8,
    cb: *mut u8,
    y: *mut u8,
    cr: *mut u8,
    count: usize,
) {
    let [r, g, b] = [r, g, b].map(|from| unsafe { std::slice::from_raw_parts(from, count) });
    let [cb, y, cr] = [cb, y, cr].map(|to| unsafe { std::slice::from_raw_parts_mut(to, count) });
    for i in 0..count {
        let (r, g, b) = (r[i] as i64, g[i] as i64, b[i] as i64);
        let luma = 299 * r + 587 * g + 114 * b;
        cb[i] = byte(1000 * b - luma + 128 * 1772, 1772);
        y[i] = byte(luma, 1000);
        cr[i] = byte(1000 * r - luma + 128 * 1402, 1402);
    }
}

/// # Safety
/// `out` points to room for `room` bytes, an even number of them, and `line` to half as many.
#[unsafe(no_mangle)]
pub unsafe extern "C" fn plain_widen(line: *const u8, out: *mut u8, room: usize) {
    let line = unsafe { std::slice::from_raw_parts(line, room / 2) };
    let out = unsafe { std::slice::from_raw_parts_mut(out, room) };
    for (j, byte) in out.iter_mut().enumerate() {
        let i = j / 2;
        let beside = if j % 2 == 0 {
            i.saturating_sub(1)
        } else {
            (i + 1).min(line.len() - 1)
        };
        *byte = ((3 * line[i] as u32 + line[beside] as u32 + 2) / 4) as u8;
    }
}

/// # Safety
/// `line` points to `count` bytes, an even number of them, and `out` to room for half as many.
#[unsafe(no_mangle)]
pub unsafe extern "C" fn plain_narrow(line: *const u8, out: *mut u8, count: usize) {
    let line = unsafe { std::slice::from_raw_parts(line, count) };
    let out = unsafe { std::slice::from_raw_parts_mut(out, count / 2) };
    for (byte, pair) in out.iter_mut().zip(line.chunks_exact(2)) {
        *byte = ((pair[0] as u32 + pair[1] as u32 + 1) / 2) as u8;
    }
}

/// # Safety
/// `table` points to 1,024 levels, `codes` to `count` codes below 1,024, and `levels` to room for as many floats.
#[unsafe(no_mangle)]
pub unsafe extern "C" fn plain_code_levels(
    table: *const u16,
    codes: *const u16,
    levels: *mut f32,
    count: usize,
) {
    let table = unsafe { std::slice::from_raw_parts(table, 1024) };
    let codes = unsafe { std::slice::from_raw_parts(codes, count) };
    let levels = unsafe { std::slice::from_raw_parts_mut(levels, count) };
    for (level, code) in levels.iter_mut().zip(codes) {
        *level = table[*code as usize] as f32 / 65535.0;
    }
}
