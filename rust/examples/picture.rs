//! A picture of three samples, white, a red box and black, planned from XYB to linear RGB, run, and shown as bytes for a screen.

use rindsaddle::{screen_bytes, EnumColourEncoding, Plan, Refusal, RenderingIntent::Relative, Settings};

fn main() -> Result<(), Refusal> {
    let plan = Plan::new(EnumColourEncoding::xyb(Relative), EnumColourEncoding::srgb_linear(Relative), &Settings::default())?;
    print!("{plan}");

    let (mut a, mut b, mut c) = ([0.0, 0.01979, 0.0], [0.8453, 0.37586, 0.0], [0.8453, 0.36405, 0.0]);
    plan.run([&mut a, &mut b, &mut c])?;

    let (mut red, mut green, mut blue) = ([0; 3], [0; 3], [0; 3]);
    screen_bytes(&a, &mut red)?;
    screen_bytes(&b, &mut green)?;
    screen_bytes(&c, &mut blue)?;
    for i in 0..3 {
        println!("{} {} {}", red[i], green[i], blue[i]);
    }
    Ok(())
}
