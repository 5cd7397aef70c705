//! Our elementary functions, from the static library of `elementary_c`: document 02's Cards 2 and 5
//! have the Rust call them in place of its own.

#[link(name = "elementary_c", kind = "static")]
unsafe extern "C" {
    safe fn elementary_sine(x: f64) -> f64;
    safe fn elementary_cosine(x: f64) -> f64;
    safe fn elementary_log10(x: f64) -> f64;
    safe fn elementary_arctangent(x: f64) -> f64;
}

pub fn sine(x: f64) -> f64 {
    elementary_sine(x)
}

pub fn cosine(x: f64) -> f64 {
    elementary_cosine(x)
}

pub fn log10(x: f64) -> f64 {
    elementary_log10(x)
}

pub fn arctangent(x: f64) -> f64 {
    elementary_arctangent(x)
}
