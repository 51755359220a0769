//! A volume as the library's file has it.
use crate::{files, part};
use anyhow::{ensure, Context, Result};
use geaidnosa::*;
use std::path::Path;

#[derive(Clone, Debug, PartialEq)]
pub struct Volume {
    pub axes: Axes,
    pub corners: Corners,
    pub light: Vec<f32>,
    pub volume: Vec<f32>,
    pub occupied: Vec<u64>,
    pub active: Vec<u64>,
}

impl Volume {
    pub fn read(path: &Path) -> Result<Volume> {
        let said = || path.display().to_string();
        let bytes = std::fs::read(path).with_context(said)?;
        ensure!(!bytes.starts_with(part::KIND), "{} is the part of a bake, and no volume: `plate plan` of the hall says how far it is", path.display());
        let Head { axes, corners } = file_axes(&bytes).with_context(said)?;
        let (n, words) = (axes.count(), axes.words());
        let mut read = Volume { axes, corners, light: vec![0.0; n], volume: vec![0.0; 16 * n], occupied: vec![0; words], active: vec![0; words] };
        read_volume(&bytes, &mut read.light, &mut read.volume, &mut read.occupied, &mut read.active).with_context(said)?;
        Ok(read)
    }

    pub fn bytes(&self) -> Result<Vec<u8>> {
        let mut bytes = vec![0; volume_bytes(self.axes)?];
        write_volume(self.axes, self.corners, &self.light, &self.volume, &self.occupied, &self.active, &mut bytes)?;
        Ok(bytes)
    }

    pub fn write(&self, path: &Path) -> Result<()> {
        files::write_whole(path, [&self.bytes()?])
    }

    /// One voxel's sixteen numbers.
    pub fn voxel(&self, index: usize) -> &[f32] {
        &self.volume[16 * index..16 * index + 16]
    }

    pub fn coefficients(&self, position: Vec3) -> Result<[f32; 16]> {
        Ok(coefficients_at(self.axes, self.corners, &self.volume, position)?)
    }
}

/// The irradiance at a unit normal: ((c0 + c1·ny) + c2·nz) + c3·nx, colour by colour.
pub fn irradiance(c: &[f32], n: Vec3) -> [f32; 3] {
    std::array::from_fn(|k| ((c[k] + c[4 + k] * n.y) + c[8 + k] * n.z) + c[12 + k] * n.x)
}
