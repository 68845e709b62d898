//! Stands in for `tf.rs`, which is not given. No plan calls a curve, and no run that is carried; a call only
//! tells the door.

macro_rules! missing {
    ($($name:ident($($arg:ident: $type:ty),*);)*) => {
        $(pub fn $name($($arg: $type),*) {
            $(let _ = $arg;)*
            crate::cms::door::called(stringify!($name));
        })*
    };
}

missing! {
    apply_gamma(samples: &mut [f32], gamma: f32);
    linear_to_bt709(samples: &mut [f32]);
    bt709_to_linear(samples: &mut [f32]);
    linear_to_srgb(samples: &mut [f32]);
    srgb_to_linear(samples: &mut [f32]);
    linear_to_pq(samples: &mut [f32], intensity_target: f32);
    pq_to_linear(samples: &mut [f32], intensity_target: f32);
    linear_to_hlg(samples: &mut [f32]);
    hlg_to_linear(samples: &mut [f32]);
    hlg_oo(samples: [&mut [f32]; 3], luminances: [f32; 3], intensity_target: f32);
    hlg_inverse_oo(samples: [&mut [f32]; 3], luminances: [f32; 3], intensity_target: f32);
}
