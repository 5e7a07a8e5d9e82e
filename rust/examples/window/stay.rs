//! A window that stays. It is an ordinary one: a window manager may place, size and close it.

use std::io;

use crate::wire::{get16, get32};
use crate::{
    rose, Client, CHANGE_PROPERTY, CREATE_WINDOW, DESTROY_NOTIFY, DESTROY_WINDOW, EXPOSE, HEIGHT,
    INTERN_ATOM, MAP_WINDOW, ORDER, POLY_LINE, STRING, WIDTH, WM_NAME,
};

const SEND_EVENT: u8 = 25;
const CLIENT_MESSAGE: u8 = 33;

/// The predefined atom ATOM.
const ATOM: u32 = 4;

/// Exposure and StructureNotify.
const EVENT_MASK: u32 = 0x8000 | 0x2_0000;

impl Client {
    /// Shows a window until it is gone: closed by its owner's window manager, which asks for that by a
    /// message, or destroyed by whoever may. It is drawn whenever the server says that a part came to light.
    pub fn stay(&mut self) -> io::Result<()> {
        let window = self.ordinary_window()?;
        let gc = self.gc(window, self.screen.black)?;
        let delete = self.closable(window)?;
        let request = self.display.request(MAP_WINDOW, 0).card32(window);
        self.display.tell_unchecked(&request.done())?;
        println!("        window {window:#x} stays until it is closed");
        loop {
            let (event, _, class) = self.display.event()?;
            match class.event_code(&event) {
                Some(EXPOSE) if get16(ORDER, &event, 16) == 0 => self.petals(window, gc)?,
                Some(CLIENT_MESSAGE) if get32(ORDER, &event, 12) == delete => {
                    self.destroy(window)?
                }
                Some(DESTROY_NOTIFY) => break,
                _ => {}
            }
        }
        println!("        window {window:#x} is gone");
        Ok(())
    }

    fn ordinary_window(&mut self) -> io::Result<u32> {
        let window = self.id();
        let (background, event_mask) = (0x2, 0x800);
        let request = self.display.request(CREATE_WINDOW, 0);
        let request = request.card32(window).card32(self.screen.root);
        let request = request.pairs(&[(0, 0), (WIDTH as i16, HEIGHT as i16), (0, 1)]);
        let request = request.card32(0).card32(background | event_mask);
        let request = request.card32(self.screen.white).card32(EVENT_MASK);
        self.display.tell_unchecked(&request.done())?;
        let name = b"Xiengmado";
        let request = self.display.request(CHANGE_PROPERTY, 0);
        let request = request.card32(window).card32(WM_NAME).card32(STRING);
        let request = request.padded(&[8]).card32(name.len() as u32);
        self.display.tell_unchecked(&request.padded(name).done())?;
        Ok(window)
    }

    /// Says that the window wants a message when it is to be closed; what the message says.
    fn closable(&mut self, window: u32) -> io::Result<u32> {
        let (protocols, delete) = self.close_atoms()?;
        let request = self.display.request(CHANGE_PROPERTY, 0);
        let request = request.card32(window).card32(protocols).card32(ATOM);
        let request = request.padded(&[32]).card32(1).card32(delete);
        self.display.tell_unchecked(&request.done())?;
        Ok(delete)
    }

    /// The atoms of the property and the message by which windows are closed.
    fn close_atoms(&mut self) -> io::Result<(u32, u32)> {
        Ok((self.atom(b"WM_PROTOCOLS")?, self.atom(b"WM_DELETE_WINDOW")?))
    }

    fn atom(&mut self, name: &[u8]) -> io::Result<u32> {
        let request = self.display.request(INTERN_ATOM, 0);
        let request = request.card16(name.len() as u16).card16(0).padded(name);
        let (reply, _) = self.reply(&request.done())?;
        Ok(get32(ORDER, &reply, 8))
    }

    fn petals(&mut self, window: u32, gc: u32) -> io::Result<()> {
        let request = self.display.request(POLY_LINE, 0);
        let request = request.card32(window).card32(gc).pairs(&rose());
        self.display.tell_unchecked(&request.done())?;
        Ok(())
    }

    fn destroy(&mut self, window: u32) -> io::Result<()> {
        let request = self.display.request(DESTROY_WINDOW, 0).card32(window);
        self.display.tell_unchecked(&request.done())?;
        Ok(())
    }

    /// Asks the client of a window to close it, as a window manager would.
    pub fn close(&mut self, window: u32) -> io::Result<()> {
        let (protocols, delete) = self.close_atoms()?;
        let request = self.display.request(SEND_EVENT, 0);
        let request = request.card32(window).card32(0);
        let request = request.padded(&[CLIENT_MESSAGE, 32]);
        let request = request.card32(window).card32(protocols).card32(delete);
        let request = (0..4).fold(request, |request, _| request.card32(0));
        let sent = self.display.tell(&request.done())?;
        match self.display.check(sent)? {
            None => Ok(()),
            Some(_) => Err(io::Error::other(format!("there is no window {window:#x}"))),
        }
    }
}
