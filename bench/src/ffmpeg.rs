//! FFmpeg's SMC decoder and encoder through the shim ffmpeg.c. The only file with `unsafe`.

use std::ffi::{c_char, c_int, c_uint, CStr};
use std::ptr::NonNull;
use std::slice;

use seatboard::Size;

/// Types of C that are only ever pointed at.
#[repr(C)]
struct RawCoder([u8; 0]);
#[repr(C)]
struct RawPacket([u8; 0]);
#[repr(C)]
struct RawFrame([u8; 0]);

extern "C" {
    fn bench_ffmpeg_version() -> *const c_char;
    fn bench_avcodec_version() -> c_uint;
    fn bench_open_decoder(width: c_int, height: c_int) -> *mut RawCoder;
    fn bench_open_encoder(width: c_int, height: c_int) -> *mut RawCoder;
    fn bench_close(coder: *mut RawCoder);
    fn bench_new_packet(chunk: *const u8, length: c_int) -> *mut RawPacket;
    fn bench_free_packet(packet: *mut RawPacket);
    fn bench_decode(decoder: *mut RawCoder, packet: *const RawPacket) -> c_int;
    fn bench_copy_decoded(decoder: *const RawCoder, picture: *mut u8);
    fn bench_new_frame(picture: *const u8, width: c_int, height: c_int) -> *mut RawFrame;
    fn bench_free_frame(frame: *mut RawFrame);
    fn bench_encode(encoder: *mut RawCoder, frame: *mut RawFrame) -> c_int;
    fn bench_encoded(encoder: *const RawCoder, length: *mut usize) -> *const u8;
}

// The calls below are sound for these reasons. Each pointer of FFmpeg's comes from the shim, is not
// null, and is freed once, by the drop of the one value that holds it; and the shim keeps no
// pointer to what Rust lends it.

/// FFmpeg's version and libavcodec's.
pub fn version() -> String {
    // SAFETY: the version is a string constant of libavutil.
    let (ffmpeg, avcodec) = unsafe {
        let ffmpeg = CStr::from_ptr(bench_ffmpeg_version());
        (ffmpeg.to_string_lossy(), bench_avcodec_version())
    };
    let [_, major, minor, micro] = avcodec.to_be_bytes();
    format!("FFmpeg {ffmpeg}, libavcodec {major}.{minor}.{micro}")
}

struct Coder(NonNull<RawCoder>);

impl Drop for Coder {
    fn drop(&mut self) {
        // SAFETY: as above.
        unsafe { bench_close(self.0.as_ptr()) }
    }
}

pub struct Packet(NonNull<RawPacket>);

impl Drop for Packet {
    fn drop(&mut self) {
        // SAFETY: as above.
        unsafe { bench_free_packet(self.0.as_ptr()) }
    }
}

pub struct Frame(NonNull<RawFrame>);

impl Drop for Frame {
    fn drop(&mut self) {
        // SAFETY: as above.
        unsafe { bench_free_frame(self.0.as_ptr()) }
    }
}

pub struct Decoder {
    coder: Coder,
    size: Size,
}

impl Decoder {
    /// None where this FFmpeg has no SMC decoder.
    pub fn open(size: Size) -> Option<Self> {
        // SAFETY: as above.
        let raw = unsafe { bench_open_decoder(size.width as c_int, size.height as c_int) };
        let coder = Coder(NonNull::new(raw)?);
        Some(Decoder { coder, size })
    }

    /// A packet that can be decoded again and again without being copied.
    pub fn packet(&self, chunk: &[u8]) -> Packet {
        // SAFETY: as above, and the length is the chunk's.
        let raw = unsafe { bench_new_packet(chunk.as_ptr(), chunk.len() as c_int) };
        Packet(NonNull::new(raw).expect("memory for a packet"))
    }

    pub fn decode(&mut self, packet: &Packet) {
        // SAFETY: as above.
        let error = unsafe { bench_decode(self.coder.0.as_ptr(), packet.0.as_ptr()) };
        assert_eq!(error, 0, "FFmpeg decodes the chunk whole");
    }

    pub fn picture(&self) -> Vec<u8> {
        let mut picture = vec![0; self.size.pixels()];
        // SAFETY: as above, and the decoder was opened for this size, which no chunk can change.
        unsafe { bench_copy_decoded(self.coder.0.as_ptr(), picture.as_mut_ptr()) };
        picture
    }
}

pub struct Encoder {
    coder: Coder,
    size: Size,
}

impl Encoder {
    /// None where this FFmpeg has no SMC encoder.
    pub fn open(size: Size) -> Option<Self> {
        // SAFETY: as above.
        let raw = unsafe { bench_open_encoder(size.width as c_int, size.height as c_int) };
        let coder = Coder(NonNull::new(raw)?);
        Some(Encoder { coder, size })
    }

    /// A picture that can be encoded again and again without being copied.
    pub fn frame(&self, picture: &[u8]) -> Frame {
        let Size { width, height } = self.size;
        assert_eq!(picture.len(), self.size.pixels());
        // SAFETY: as above, and the picture has been found to be of this size.
        let raw = unsafe { bench_new_frame(picture.as_ptr(), width as c_int, height as c_int) };
        Frame(NonNull::new(raw).expect("memory for a frame"))
    }

    /// Against the frame before.
    pub fn encode(&mut self, frame: &mut Frame) {
        // SAFETY: as above.
        let error = unsafe { bench_encode(self.coder.0.as_ptr(), frame.0.as_ptr()) };
        assert_eq!(error, 0, "FFmpeg encodes the picture");
    }

    /// The chunk of the frame that was encoded last.
    pub fn chunk(&self) -> &[u8] {
        let mut length = 0;
        // SAFETY: as above.
        let first = unsafe { bench_encoded(self.coder.0.as_ptr(), &mut length) };
        if first.is_null() {
            return &[];
        }
        // SAFETY: these bytes are the encoder's, which keeps them until it is lent for the next frame.
        unsafe { slice::from_raw_parts(first, length) }
    }
}
