//! The listed Rust on the standard library's functions, for the benchmark.

include!("kinavis/root.rs");

of_std! {
    sqrt = sqrt(x);
    hypot = hypot(x, y);
    sin = sin(x);
    cos = cos(x);
    asin = asin(x);
    atan2 = atan2(y, x);
}
