// A bus in Rust, with declarations like those that bindgen generates: rustc first_frame.rs -l canbusd
use std::ffi::{c_char, CString};

#[repr(C)]
#[derive(Clone, Copy)]
pub struct Frame { pub id: u32, pub len: u8, pub flags: u8, pub unused: u16, pub data: [u8; 64] }

#[repr(C)]
pub struct Item { pub frame: Frame, pub iface: u32, pub number: u64, pub moment: u64 }

#[repr(C)]
pub struct Config {
    pub ack: u32, pub reporting: u32, pub tx_capacity: u32, pub limit: u32, pub auto_restart: u32, pub bitrate: u32, pub data_bitrate: u32,
}

#[repr(C)]
pub struct Raw { _private: [u8; 0] }

extern "C" {
    fn canbusd_new(names: *const c_char, config: *const Config, bus: *mut *mut Raw) -> u32;
    fn canbusd_free(bus: *mut Raw);
    fn canbusd_open(bus: *mut Raw, iface: u32, capacity: u32, socket: *mut u32) -> u32;
    fn canbusd_send(bus: *mut Raw, socket: u32, frame: *const Frame, number: *mut u64) -> u32;
    fn canbusd_receive(bus: *mut Raw, socket: u32, item: *mut Item) -> u32;
    fn canbusd_attempt(bus: *mut Raw, moment: u64, tried: *mut u8) -> u32;
}

/// A bus, which is freed exactly once, by the thread that owns it.
pub struct Bus(*mut Raw);

impl Bus {
    pub fn new(names: &str) -> Result<Bus, u32> {
        let config = Config { ack: 0, reporting: 0, tx_capacity: 10, limit: 1_000_000, auto_restart: 0, bitrate: 0, data_bitrate: 0 };
        let (names, mut bus) = (CString::new(names).unwrap(), std::ptr::null_mut());
        match unsafe { canbusd_new(names.as_ptr(), &config, &mut bus) } { 0 => Ok(Bus(bus)), code => Err(code) }
    }

    pub fn open(&mut self, iface: u32) -> Result<u32, u32> {
        let mut socket = 0;
        match unsafe { canbusd_open(self.0, iface, 256, &mut socket) } { 0 => Ok(socket), code => Err(code) }
    }

    pub fn send(&mut self, socket: u32, id: u32, bytes: &[u8]) -> Result<(), u32> {
        let mut frame = Frame { id, len: bytes.len() as u8, flags: 0, unused: 0, data: [0; 64] };
        frame.data[..bytes.len()].copy_from_slice(bytes);
        match unsafe { canbusd_send(self.0, socket, &frame, std::ptr::null_mut()) } { 0 => Ok(()), code => Err(code) }
    }

    pub fn attempt(&mut self, moment: u64) -> u32 {
        unsafe { canbusd_attempt(self.0, moment, std::ptr::null_mut()) }
    }

    pub fn receive(&mut self, socket: u32) -> Option<Item> {
        let mut item = unsafe { std::mem::zeroed() };
        if unsafe { canbusd_receive(self.0, socket, &mut item) } == 0 { Some(item) } else { None }
    }
}

impl Drop for Bus {
    fn drop(&mut self) {
        unsafe { canbusd_free(self.0) }
    }
}

fn main() {
    let mut bus = Bus::new("can0,can1").unwrap();
    let (ecu, tester) = (bus.open(0).unwrap(), bus.open(1).unwrap());
    bus.send(ecu, 0x123, &[0x11, 0x22]).unwrap();
    assert_eq!(bus.attempt(0), 0);
    let item = bus.receive(tester).unwrap();
    assert_eq!((item.frame.id, &item.frame.data[..2]), (0x123, &[0x11, 0x22][..]));
    println!("ok");
}
