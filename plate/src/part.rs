//! The part file of an unfinished bake: one line of mark and SHA-256 of the rest, one line of JSON, then the unblurred volume as far as it is, f32 bits
//! little-endian. It is written whole, and read only where every input is as it was. The file of one machine's share has the same form, and names its share.
use crate::baking::{mask_of, passed_count, shares_of};
use crate::engine::Scan;
use crate::files;
use crate::hall::{sha256, sha256_of, thousands, Hall, Input};
use anyhow::{bail, ensure, Context, Result};
use geaidnosa::{marked_count, Progress, LEAST_RAYS};
use serde::{Deserialize, Serialize};
use std::path::{Path, PathBuf};

/// What a part file of any version begins with.
pub const KIND: &[u8] = b"plate-part-";
const MARK: &str = "plate-part-2";
/// Of files whose shares were no record of the library's.
const EARLIER: &str = "plate-part-1";

/// The libraries whose bakes are this one's bit for bit, so that a part of one is gone on with by another: to 0.5.0 the solid calls were added and to 0.6.0 those
/// through a tree, no call was changed.
const ALIKE: [u32; 3] = [5_000, 6_000, 7_000];

/// How many numbers are made bytes at a time.
const PIECE: usize = 1 << 16;

/// The library's record of a share's progress, as the head has it.
#[derive(Clone, Copy, Debug, PartialEq, Eq, Serialize, Deserialize)]
#[serde(deny_unknown_fields)]
struct Share {
    next: usize,
    rays: u64,
}

/// Share number `share`, counted from 1, of `of` over machines: active voxel number j (counted from 0) is share 1 + j mod `of`'s.
#[derive(Clone, Copy, Debug, PartialEq, Eq, Serialize, Deserialize)]
#[serde(deny_unknown_fields)]
pub struct Only {
    pub share: usize,
    pub of: usize,
}

impl std::fmt::Display for Only {
    fn fmt(&self, f: &mut std::fmt::Formatter) -> std::fmt::Result {
        write!(f, "{}/{}", self.share, self.of)
    }
}

impl std::str::FromStr for Only {
    type Err = String;
    fn from_str(text: &str) -> Result<Only, String> {
        let number = |digits: &str| digits.parse().ok().filter(|n| (1..=1024).contains(n));
        let only = text.split_once('/').and_then(|(share, of)| Some(Only { share: number(share)?, of: number(of)? }));
        only.filter(|o| o.share <= o.of).ok_or_else(|| format!("\"{text}\" is no share: 3/8 is the third of eight, and there are at most 1,024"))
    }
}

#[derive(Clone, Debug, PartialEq, Serialize, Deserialize)]
#[serde(deny_unknown_fields)]
struct Head {
    library: u32,
    inputs: Vec<Input>,
    /// Of every number that the library is handed.
    numbers: String,
    voxels: usize,
    seconds: f64,
    shares: Vec<Share>,
    #[serde(default, skip_serializing_if = "Option::is_none")]
    only: Option<Only>,
    /// Left out by the list, as in files of programs that had no other scan.
    #[serde(default, skip_serializing_if = "Option::is_none")]
    scan: Option<String>,
}

#[derive(Clone, Debug, PartialEq)]
pub struct Part {
    /// Each share's progress, the record that the library answered last; active voxel number j (counted from 0) is share j mod count's.
    pub shares: Vec<Progress>,
    /// Where one machine bakes a share: which one. The voxels above are then those of it.
    pub only: Option<Only>,
    /// How long the bake has run.
    pub seconds: f64,
    /// 16·N numbers, unblurred: final where a share's progress has passed a voxel of its own, else ambient.
    pub volume: Vec<f32>,
}

pub fn path_of(out: &Path) -> PathBuf {
    let mut name = out.as_os_str().to_owned();
    name.push(".part");
    name.into()
}

impl Part {
    pub fn write(&self, path: &Path, hall: &Hall) -> Result<()> {
        let head = Head {
            library: geaidnosa::version(),
            inputs: hall.inputs.clone(),
            numbers: hall.numbers_sha256(),
            voxels: hall.axes.count(),
            seconds: self.seconds,
            shares: self.shares.iter().map(|p| Share { next: p.next, rays: p.rays }).collect(),
            only: self.only,
            scan: (hall.scan != Scan::List).then(|| hall.scan.name().into()),
        };
        let mut line = serde_json::to_vec(&head)?;
        line.push(b'\n');
        // the body twice, in pieces: for its sum, and for the file
        let body = || std::iter::once(line.clone()).chain(self.volume.chunks(PIECE).map(|piece| piece.iter().flat_map(|x| x.to_bits().to_le_bytes()).collect()));
        files::write_whole(path, std::iter::once(format!("{MARK} {}\n", sha256_of(body())).into_bytes()).chain(body()))
    }

    /// The part of this hall's bake, or of the share asked of it; an error in words where the file is damaged, an input has changed or it is of another share.
    /// `active` is the hall's whole mask.
    pub fn read(path: &Path, hall: &Hall, active: &[u64], only: Option<Only>) -> Result<Part> {
        let bytes = std::fs::read(path).with_context(|| path.display().to_string())?;
        let said = |of: Option<Only>| of.map_or("the whole bake".into(), |o| format!("share {o}"));
        let part = Part::of_bytes(&bytes, hall, active).and_then(|part| {
            ensure!(part.only == only, "it is of {}, and {} is asked", said(part.only), said(only));
            Ok(part)
        });
        part.with_context(|| format!("{} is not gone on with (--fresh begins anew)", path.display()))
    }

    /// The rays of the whole bake so far, whichever run fired them.
    pub fn rays(&self) -> u64 {
        self.shares.iter().map(|p| p.rays).sum()
    }

    /// How many active voxels are done. `active` is the hall's whole mask.
    pub fn voxels(&self, active: &[u64]) -> u64 {
        self.voxels_passed(active).iter().sum()
    }

    /// How many voxels each share has passed of its own.
    fn voxels_passed(&self, active: &[u64]) -> Vec<u64> {
        let masks = shares_of(&mask_of(active, self.only), self.shares.len());
        self.shares.iter().zip(masks).map(|(p, mask)| passed_count(&mask, p.next)).collect()
    }

    pub fn finished(&self, hall: &Hall) -> bool {
        self.shares.iter().all(|p| p.next == hall.axes.count())
    }

    pub fn of_bytes(bytes: &[u8], hall: &Hall, active: &[u64]) -> Result<Part> {
        let (first, body) = split_line(bytes).context("it has no first line")?;
        let first = std::str::from_utf8(first).ok().and_then(|line| line.split_once(' '));
        let sum = match first {
            Some((MARK, sum)) => sum,
            Some((EARLIER, _)) => bail!("it was begun by an earlier version of this program"),
            _ => bail!("it is no part file of this program"),
        };
        ensure!(sum == sha256(body), "it is damaged: its SHA-256 is not the one it names");
        let (json, numbers) = split_line(body).context("it has no head")?;
        let head: Head = serde_json::from_slice(json).context("its head cannot be read")?;
        let changed: Vec<String> = head
            .inputs
            .iter()
            .filter_map(|old| match hall.inputs.iter().find(|new| new.file == old.file) {
                None => Some(format!("{} is no longer used", old.file)),
                Some(new) if new.sha256 != old.sha256 => Some(format!("{} has changed", old.file)),
                Some(_) => None,
            })
            .chain(hall.inputs.iter().filter(|new| head.inputs.iter().all(|old| old.file != new.file)).map(|new| format!("{} is new", new.file)))
            .collect();
        ensure!(changed.is_empty(), "since it was saved {}", changed.join(", "));
        let begun_by = head.scan.as_deref().unwrap_or(Scan::List.name());
        ensure!(begun_by == hall.scan.name(), "it was begun by scan \"{begun_by}\", and \"{}\" is asked: the two may bake other bits", hall.scan.name());
        let alike = |library: u32| ALIKE.contains(&library);
        ensure!(alike(head.library) && alike(geaidnosa::version()), "it was baked by another version of the library");
        ensure!(head.numbers == hall.numbers_sha256(), "another version of this program made other numbers of the same files");
        let n = hall.axes.count();
        ensure!(head.voxels == n && numbers.len() == 64 * n, "its volume is not of the hall's grid");
        ensure!(head.seconds.is_finite() && head.seconds >= 0.0, "its time is no number");
        ensure!(head.only.map_or(true, |o| (1..=o.of).contains(&o.share) && o.of <= 1024), "it names a share that there is not");
        let most_shares = marked_count(&mask_of(active, head.only)).max(1);
        ensure!((1..=most_shares).contains(&(head.shares.len() as u64)), "it has no shares, or more than voxels to bake");
        ensure!(head.shares.iter().all(|s| s.next <= n), "a share's progress is past the grid");
        let shares = head.shares.iter().map(|s| Progress { next: s.next, rays: s.rays }).collect();
        let volume = numbers.chunks_exact(4).map(|b| f32::from_le_bytes([b[0], b[1], b[2], b[3]])).collect();
        let part = Part { shares, only: head.only, seconds: head.seconds, volume };
        // as the library would refuse it (9), but also of a share that is at its end and is not handed to it again
        for (share, voxels) in part.shares.iter().zip(part.voxels_passed(active)) {
            let (least, most) = (LEAST_RAYS * voxels, hall.voxel_cost() * voxels);
            ensure!((least..=most).contains(&share.rays), "its rays so far do not fit the voxels that it has passed: {} rays, where {} voxels fire from {} to {} (refusal 9)",
                thousands(share.rays), thousands(voxels), thousands(least), thousands(most));
        }
        Ok(part)
    }
}

fn split_line(bytes: &[u8]) -> Option<(&[u8], &[u8])> {
    let end = bytes.iter().position(|b| *b == b'\n')?;
    Some((&bytes[..end], &bytes[end + 1..]))
}
