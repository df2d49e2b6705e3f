// The one cast that the crate asks of bytemuck.

pub fn cast(x: f32) -> i32 {
    x.to_bits() as i32
}
