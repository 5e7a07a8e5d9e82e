//! More than the engine takes at once, through x11rb: requests without a look at their answers, and a part of the screen in
//! one reply. The arguments are how many requests, and how wide and how high that part is.

use x11rb::connection::Connection;
use x11rb::protocol::xproto::{ConnectionExt, ImageFormat};

fn main() -> Result<(), Box<dyn std::error::Error>> {
    let arguments: Vec<u32> = std::env::args().flat_map(|word| word.parse()).collect();
    let [requests, width, height] = arguments[..] else {
        return Err("limits REQUESTS WIDTH HEIGHT".into());
    };
    let (connection, screen) = x11rb::connect(None)?;
    let root = connection.setup().roots[screen].root;
    for _ in 0..requests {
        connection.no_operation()?;
    }
    let focus = connection.get_input_focus()?;
    assert!(focus.sequence_number() > u64::from(requests));
    focus.reply()?;
    println!("{requests} requests in a row are answered;");

    let (w, h) = (width as u16, height as u16);
    let image = connection.get_image(ImageFormat::Z_PIXMAP, root, 0, 0, w, h, !0)?;
    let bytes = image.reply()?.data.len();
    assert_eq!(bytes as u32, 4 * width * height);
    println!("GetImage of {width} x {height} gives {bytes} bytes");
    Ok(())
}
