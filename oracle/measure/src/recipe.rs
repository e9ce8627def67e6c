//! The recipe of sine and cosine (docs/FLOATS.md) in Rust, without a limit on the angle: for what
//! the library refuses today. `floats` compares it with the library bit for bit where that answers.

fn sine_kernel(x: f64) -> f64 {
    let z = x * x;
    let w = z * z;
    let h = ((0.16666666666666666 - z * 0.008333333333333333)
        + w * (0.0001984126984126984 - z * 2.7557319223985893e-6))
        + (w * w) * ((2.505210838544172e-8 - z * 1.6059043836821613e-10) + w * 7.647163731819816e-13);
    x * (1.0 - z * h)
}

fn cosine_kernel(x: f64) -> f64 {
    let z = x * x;
    let w = z * z;
    let h = ((0.5 - z * 0.041666666666666664) + w * (0.001388888888888889 - z * 2.48015873015873e-5))
        + (w * w)
            * ((2.755731922398589e-7 - z * 2.08767569878681e-9)
                + w * (1.1470745597729725e-11 - z * 4.779477332387385e-14));
    1.0 - z * h
}

fn nearby(y: f64) -> f64 {
    (y + 6755399441055744.0) - 6755399441055744.0
}

fn swing(k: f64) -> f64 {
    let h = nearby(k * 0.5);
    k - (h + h)
}

pub fn sin_cos(x: f64) -> (f64, f64) {
    if x.abs() <= 0.7853981633974483 {
        return (sine_kernel(x), cosine_kernel(x));
    }
    let k = nearby(x * 0.6366197723675814);
    let r = (x - k * 1.570796325802803) - k * 9.920935796805404e-10;
    let (s, c) = (sine_kernel(r), cosine_kernel(r));
    let (b, a) = (swing(k), swing(k + 1.0));
    (a * s + b * c, a * c - b * s)
}
