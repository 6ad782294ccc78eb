//! A first program: three positions in guest bytes, moved by 1 along x and drawn as one triangle.

use beonasul::{Context, Guest, Store};

fn main() -> beonasul::Result<()> {
    let (mut context, mut store) = (Context::new(), Store::new());
    let guest = Guest { base: 4096, bytes: &[0, 0, 1, 0, 0, 1] };
    context.set_vertex_pointer(2, 0x1400, 0, guest.base)?; // two bytes for each position
    context.set_client_state(0x8074, true)?; // the vertex array
    context.translate(1.0, 0.0, 0.0)?;
    let triangles = context.draw_arrays(&mut store, guest, 4, 0, 0, 3)?; // a list of triangles
    println!("0 {}", triangles.len());
    for corner in triangles.flat_map(|triangle| triangle.vertices) {
        println!("{:08x} {:08x}", corner.position[0].to_bits(), corner.position[1].to_bits());
    }
    Ok(())
}
