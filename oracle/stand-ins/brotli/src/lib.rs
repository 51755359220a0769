//! Stand-in for brotli: bytes pass unchanged. The cache file is left behind by the port, and nothing here calls it.
use std::io::{self, Read, Write};

pub struct Decompressor<R: Read>(R);

impl<R: Read> Decompressor<R> {
    pub fn new(source: R, _buffer_size: usize) -> Self {
        Self(source)
    }
}

impl<R: Read> Read for Decompressor<R> {
    fn read(&mut self, bytes: &mut [u8]) -> io::Result<usize> {
        self.0.read(bytes)
    }
}

pub struct CompressorWriter<W: Write>(W);

impl<W: Write> CompressorWriter<W> {
    pub fn new(sink: W, _buffer_size: usize, _quality: u32, _lgwin: u32) -> Self {
        Self(sink)
    }
}

impl<W: Write> Write for CompressorWriter<W> {
    fn write(&mut self, bytes: &[u8]) -> io::Result<usize> {
        self.0.write(bytes)
    }

    fn flush(&mut self) -> io::Result<()> {
        self.0.flush()
    }
}
